//! Rules of the 2008 section, kind 3, and of its fields, which are zero in other kinds; those with an edge, at both sides of it.

use crate::model::*;
use crate::rules::{from_leap_day, Seen};

/// A rule's name, and whether a block falls under it.
pub const SECTION_2008_RULES: [(&str, fn(&Seen) -> bool); 61] = [
    ("man, paid", |seen| paid(seen) && is(seen, MALE, 0)),
    ("man, Choice Optant, paid", |seen| paid(seen) && is(seen, MALE, CHOICE_OPTANT)),
    ("woman, paid", |seen| paid(seen) && is(seen, FEMALE, 0)),
    ("woman, Choice Optant, paid", |seen| paid(seen) && is(seen, FEMALE, CHOICE_OPTANT)),
    ("kind 3, sex 0, 5", |seen| sex_alone(seen, 0, 0)),
    ("kind 3, sex 3, 5", |seen| sex_alone(seen, 3, 3)),
    ("kind 3, sex 4 to 254, 5", |seen| sex_alone(seen, 4, 254)),
    ("kind 3, sex 255, 5", |seen| sex_alone(seen, 255, 255)),
    ("kind 3, sex 0, 4 given", |seen| of_kind_3(seen) && seen.refused(4) && seen.case.sex == 0),
    ("kind 1, sex 1, 4", |seen| sex_in_kind(seen, 1, 1, 1)),
    ("kind 1, sex 2, 4", |seen| sex_in_kind(seen, 1, 2, 2)),
    ("kind 1, sex 3 to 255, 4", |seen| sex_in_kind(seen, 1, 3, 255)),
    ("kind 2, sex 1, 4", |seen| sex_in_kind(seen, 2, 1, 1)),
    ("kind 2, sex 2, 4", |seen| sex_in_kind(seen, 2, 2, 2)),
    ("kind 2, sex 3 to 255, 4", |seen| sex_in_kind(seen, 2, 3, 255)),
    ("kind 3, byte 15 filled, 4", |seen| of_kind_3(seen) && seen.alone(4, 15, 1)),
    ("kind 1, flag 4, 4", |seen| flag_alone(seen, 1, CHOICE_OPTANT)),
    ("kind 2, flag 4, 4", |seen| flag_alone(seen, 2, CHOICE_OPTANT)),
    ("kind 3, flag 1, 4", |seen| flag_alone(seen, 3, TRANSFERRED_IN)),
    ("kind 3, flag 8, 4", |seen| flag_alone(seen, 3, 8)),
    ("kind 3, transfer-in, 4", |seen| of_kind_3(seen) && seen.alone(4, at::TRANSFER_IN, 8)),
    ("kind 3, contributions, 4", |seen| of_kind_3(seen) && seen.alone(4, at::CONTRIBUTIONS, 8)),
    ("kind 3, date of the line, 4", |seen| of_kind_3(seen) && seen.alone(4, at::LINES[0] + at::DATE, 4)),
    ("no flag 4, lump sum, 4", |seen| amount_alone(seen, at::LUMP)),
    ("no flag 4, lump sum debit, 4", |seen| amount_alone(seen, at::SCHEME_PAYS_LUMP)),
    ("no flag 4, divorce debit, 4", |seen| amount_alone(seen, at::DEBIT_LUMP)),
    ("flag 4, lump sum, paid", |seen| paid(seen) && seen.case.lines[0].lump > 0),
    ("flag 4, lump debit, paid", |seen| paid(seen) && seen.case.lines[0].scheme_pays_lump > 0),
    ("flag 4, divorce debit, paid", |seen| paid(seen) && seen.case.lines[0].debit_lump > 0),
    ("flag 4, no lump sum, paid", |seen| paid(seen) && seen.case.has(CHOICE_OPTANT) && seen.case.lines[0].lump == 0),
    ("kind 3, count 0, 3", |seen| count_alone(seen, 0, 0)),
    ("kind 3, count 2 to 4, 3", |seen| count_alone(seen, 2, 4)),
    ("kind 0, 3", |seen| kind_alone(seen, 0)),
    ("kind 4, 3", |seen| kind_alone(seen, 4)),
    ("kind 65535, 3", |seen| kind_alone(seen, 65_535)),
    ("kind 3, aged 17, 12", |seen| seen.refused(12) && aged(seen, 17)),
    ("kind 3, aged 18, paid", |seen| seen.paid() && aged(seen, 18)),
    ("kind 3, aged 64, paid", |seen| seen.paid() && aged(seen, 64)),
    ("kind 3, aged 65, 11", |seen| seen.refused(11) && aged(seen, 65)),
    ("kind 3, aged 66, 11", |seen| seen.refused(11) && aged(seen, 66)),
    ("65 on 28 Feb, 27 Feb, paid", |seen| seen.paid() && at_65th_leap_birthday(seen, 27)),
    ("65 on 28 Feb, 28 Feb, 11", |seen| seen.refused(11) && at_65th_leap_birthday(seen, 28)),
    ("man of 59, deduction, paid", |seen| deduction(seen, MALE, 59)),
    ("man of 60, deduction, paid", |seen| deduction(seen, MALE, 60)),
    ("woman of 59, deduction, paid", |seen| deduction(seen, FEMALE, 59)),
    ("woman of 60, deduction, paid", |seen| deduction(seen, FEMALE, 60)),
    ("kind 3, dependant's, paid", |seen| paid(seen) && seen.case.lines[0].dependant > 0),
    ("kind 3, 6", |seen| of_kind_3(seen) && seen.refused(6)),
    ("kind 3, 7", |seen| of_kind_3(seen) && seen.refused(7)),
    ("kind 3, 8", |seen| of_kind_3(seen) && seen.refused(8)),
    ("kind 3, 9", |seen| of_kind_3(seen) && seen.refused(9)),
    ("kind 3, pension debit, 13", |seen| of_kind_3(seen) && seen.refused(13) && !lump_debit_above(&seen.case)),
    ("kind 3, lump sum debit, 13", |seen| of_kind_3(seen) && seen.refused(13) && lump_debit_above(&seen.case)),
    ("kind 3, 14", |seen| of_kind_3(seen) && seen.refused(14)),
    ("kind 3, 16", |seen| of_kind_3(seen) && seen.refused(16)),
    ("kind 3, pence of gross value", |seen| paid(seen) && seen.gross() % 100 != 0),
    ("kind 3, 0.49p over", |seen| paid(seen) && seen.total().map_or(false, |total| total % 100 == 49)),
    ("kind 3, 0.50p over", |seen| paid(seen) && seen.total().map_or(false, |total| total % 100 == 50)),
    ("another row at leaving, paid", |seen| paid(seen) && differs(seen, |case| case.guarantee = case.leaving)),
    ("another sum in kind 1, paid", |seen| paid(seen) && differs(seen, |case| case.kind = 1)),
    ("no row in kind 1, paid", |seen| paid(seen) && gross_if(seen, |case| case.kind = 1).is_none()),
];

fn of_kind_3(seen: &Seen) -> bool {
    seen.case.kind == 3
}

fn paid(seen: &Seen) -> bool {
    of_kind_3(seen) && seen.paid()
}

/// Whether the member is of this sex, and a Choice Optant or, where the flag is 0, none.
fn is(seen: &Seen, sex: u64, flag: u64) -> bool {
    seen.case.sex == sex && seen.case.flags & CHOICE_OPTANT == flag
}

/// Whether a case of kind 3 is refused for its sex alone, which is in this range.
fn sex_alone(seen: &Seen, low: u64, high: u64) -> bool {
    let in_range = (low..=high).contains(&seen.case.sex);
    of_kind_3(seen) && in_range && seen.but_for(5, |block| block.put(at::SEX, 1, MALE))
}

/// Whether a case of this other kind is refused for its sex alone, which is in this range.
fn sex_in_kind(seen: &Seen, kind: u64, low: u64, high: u64) -> bool {
    seen.case.kind == kind && (low..=high).contains(&seen.case.sex) && seen.alone(4, at::SEX, 1)
}

fn flag_alone(seen: &Seen, kind: u64, flag: u64) -> bool {
    seen.case.kind == kind && seen.case.has(flag) && seen.but_for(4, |block| block.set_flag(flag, false))
}

/// Whether a member who is no Choice Optant is refused for this amount alone.
fn amount_alone(seen: &Seen, field: usize) -> bool {
    of_kind_3(seen) && seen.alone(4, at::amount(at::LINES[0], field), 8)
}

fn count_alone(seen: &Seen, low: u64, high: u64) -> bool {
    let in_range = (low..=high).contains(&seen.case.count);
    of_kind_3(seen) && in_range && seen.but_for(3, |block| block.put(at::COUNT, 1, 1))
}

/// Whether the block is refused for its kind alone: with a listed one it would be read.
fn kind_alone(seen: &Seen, number: u64) -> bool {
    let with = |kind| seen.but_for(3, |block| block.put(at::KIND, 2, kind));
    seen.case.kind == number && KINDS.into_iter().any(with)
}

fn aged(seen: &Seen, years: i64) -> bool {
    of_kind_3(seen) && age(seen.case.birth, seen.case.guarantee) == years
}

/// Whether a member born on 29 February has this day of February, in the year of the 65th birthday, as guarantee date.
fn at_65th_leap_birthday(seen: &Seen, day: i64) -> bool {
    let Case { birth, guarantee, .. } = seen.case;
    of_kind_3(seen) && guarantee.year == birth.year + 65 && from_leap_day(birth, guarantee, 2, day)
}

/// Whether a member of this sex and age with a modification is paid.
fn deduction(seen: &Seen, sex: u64, years: i64) -> bool {
    seen.paid() && seen.case.sex == sex && seen.case.lines[0].modification > 0 && aged(seen, years)
}

fn lump_debit_above(case: &Case) -> bool {
    case.lines[0].scheme_pays_lump as i128 > revalued(case.lines[0].lump, case.revaluation)
}

/// The gross value if the case were changed so; none where there would be no row.
fn gross_if(seen: &Seen, change: fn(&mut Case)) -> Option<i128> {
    let mut case = seen.case.clone();
    change(&mut case);
    let sums = seen.model.items(&case)?;
    Some(first_value(&sums) - debit_value(&sums))
}

/// Whether there would be a row, and another gross value, if the case were changed so.
fn differs(seen: &Seen, change: fn(&mut Case)) -> bool {
    gross_if(seen, change).map_or(false, |gross| gross != seen.gross())
}
