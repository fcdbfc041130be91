//! Rules that the counts of refusals and of rows do not show as reached; those with an edge, at both sides of it.
//! Those of the 2008 section stand in a file of their own.

use crate::generator::Block;
use crate::model::*;

type Answer = Result<Payment, Refusal>;

/// A rule's name, and whether a block with this case and this answer falls under it.
pub const RULES: [(&str, fn(&Case, &Answer) -> bool); 28] = [
    ("born 29 Feb, aged at 27 Feb", |case, answer| aged(case, 27) && answer.is_ok()),
    ("born 29 Feb, aged at 28 Feb", |case, answer| aged(case, 28) && answer.is_ok()),
    ("65 on 28 Feb, line on 27 Feb", |case, answer| aged_65(case, 27) && matches!(answer, Err(6)) && alone(case)),
    ("65 on 28 Feb, line on 28 Feb", |case, answer| aged_65(case, 28) && answer.is_ok()),
    ("ahead, 29 Feb to 28 Feb", |case, answer| answer.is_ok() && ahead(case, 2, 28)),
    ("ahead, 29 Feb to 1 March", |case, answer| answer.is_ok() && ahead(case, 3, 1)),
    ("kind 1, pence of gross value", |case, answer| case.kind == 1 && holds(answer, |p| p.gross % 100 != 0)),
    ("kind 1, 0.49p over", |case, answer| case.kind == 1 && holds(answer, |p| signed_total(p) % 100 == 49)),
    ("kind 1, 0.50p over", |case, answer| case.kind == 1 && holds(answer, |p| signed_total(p) % 100 == 50)),
    ("underpin 1p below gross", |case, answer| flagged(case) && holds(answer, |p| p.underpin == p.gross - 1)),
    ("underpin 1p above gross", |case, answer| flagged(case) && holds(answer, |p| p.underpin == p.gross + 1)),
    ("underpin above gross alone", |_, answer| holds(answer, |p| underpin_tops(p, 0) && !underpin_tops(p, p.avc))),
    ("underpin above gross and AVC", |_, answer| holds(answer, |p| p.avc > 0 && underpin_tops(p, p.avc))),
    ("10 met, kind 1, day before", |case, answer| to_refer(case, answer, 10) && at_pension_age(case, 1, -1)),
    ("10 met, kind 1, on the day", |case, answer| to_refer(case, answer, 11) && at_pension_age(case, 1, 0)),
    ("10 met, kind 2, day before", |case, answer| to_refer(case, answer, 10) && at_first_due(case, -1)),
    ("10 met, kind 2, on the day", |case, answer| to_refer(case, answer, 11) && at_first_due(case, 0)),
    ("10 met, kind 3, day before", |case, answer| to_refer(case, answer, 10) && at_pension_age(case, 3, -1)),
    ("10 met, kind 3, on the day", |case, answer| to_refer(case, answer, 11) && at_pension_age(case, 3, 0)),
    ("two lines, paid", |case, answer| case.count == 2 && answer.is_ok()),
    ("lines 2, 3 a day apart, paid", |case, answer| answer.is_ok() && days_apart(case, 1) == Some(1)),
    ("lines 2, 3 alike, 17", |case, answer| *answer == Err(17) && days_apart(case, 1) == Some(0) && falls(case, 2)),
    ("line 3 later than 2, 17", |case, answer| *answer == Err(17) && rises(case, 1) && falls(case, 2)),
    ("lines 3, 4 a day apart, paid", |case, answer| answer.is_ok() && days_apart(case, 2) == Some(1)),
    ("lines 3, 4 alike, 17", |case, answer| *answer == Err(17) && days_apart(case, 2) == Some(0) && falls(case, 1)),
    ("line 4 later than 3, 17", |case, answer| *answer == Err(17) && rises(case, 2) && falls(case, 1)),
    ("17 met, 6 given", |case, answer| *answer == Err(6) && order_broken(case)),
    ("7 met, 17 given", |case, answer| *answer == Err(17) && case.status != 1),
];

/// The rules of divorce debits, some of which ask for more than the case and the answer.
pub const DIVORCE_RULES: [(&str, fn(&Seen) -> bool); 46] = [
    ("debit value 1p below, paid", |seen| seen.paid() && seen.short_by() == Some(-1)),
    ("debit value equal, paid", |seen| seen.paid() && seen.short_by() == Some(0) && seen.debit_value() > 0),
    ("debit value 1p above, 16", |seen| seen.refused(16) && seen.short_by() == Some(1)),
    ("debit value far above, 16", |seen| seen.refused(16) && seen.debit_value() > 10_000 + 2 * seen.first_value()),
    ("debit value, 0.49p over", |seen| seen.paid() && seen.debit_total() % 100 == 49),
    ("debit value, 0.50p over", |seen| seen.paid() && seen.debit_total() % 100 == 50),
    ("debit value of 0.01 to 0.49p", |seen| seen.paid() && (1..50).contains(&seen.debit_total())),
    ("debit value of 0.50 to 0.99p", |seen| seen.paid() && (50..100).contains(&seen.debit_total())),
    ("a debit 0.4999p over", |seen| seen.paid() && seen.any_revalued_part(4_999)),
    ("a debit 0.5000p over", |seen| seen.paid() && seen.any_revalued_part(5_000)),
    ("one rounding would differ", |seen| seen.paid() && differs_as_one(seen)),
    ("by lines it would differ", |seen| seen.paid() && differs_by_lines(seen)),
    ("debit pension alone, paid", |seen| seen.paid() && only_debit(seen, 0)),
    ("debit survivor alone, paid", |seen| seen.paid() && only_debit(seen, 1)),
    ("debit lump sum alone, paid", |seen| seen.paid() && only_debit(seen, 2)),
    ("all three debits, paid", |seen| {
        seen.paid() && seen.case.lines[0].divorce_debits().iter().all(|&debit| debit > 0)
    }),
    ("debits on 2 lines, paid", |seen| seen.paid() && lines_with_debit(seen) == 2),
    ("debits on 4 lines, paid", |seen| seen.paid() && lines_with_debit(seen) == 4),
    ("debit on line 2 alone, paid", |seen| seen.paid() && only_line(seen, 1)),
    ("debit on line 3 alone, paid", |seen| seen.paid() && only_line(seen, 2)),
    ("debit on line 4 alone, paid", |seen| seen.paid() && only_line(seen, 3)),
    ("debit above benefit, paid", |seen| seen.paid() && seen.case.used().iter().any(above_benefit)),
    ("debit and Scheme Pays, paid", |seen| seen.paid() && both(seen, |line| line.scheme_pays)),
    ("debit and modification, paid", |seen| seen.paid() && both(seen, |line| line.modification)),
    ("debit pension largest, paid", |seen| seen.paid() && largest(seen, 0)),
    ("debit pension 1p more, 5", |seen| above_largest(seen, 0)),
    ("debit survivor largest, paid", |seen| seen.paid() && largest(seen, 1)),
    ("debit survivor 1p more, 5", |seen| above_largest(seen, 1)),
    ("debit lump sum largest, paid", |seen| seen.paid() && largest(seen, 2)),
    ("debit lump sum 1p more, 5", |seen| above_largest(seen, 2)),
    ("debit on the last line, paid", |seen| seen.paid() && last_line(seen)),
    ("debit past the count, 4", |seen| at::GROUPS.iter().any(|&group| past_count(seen, group))),
    ("debit lump sum, kind 1, paid", |seen| seen.paid() && seen.case.kind == 1 && seen.case.lines[0].debit_lump > 0),
    ("debit lump sum, kind 2, 4", |seen| at::GROUPS.iter().any(|&group| lump_in_kind_2(seen, group))),
    ("byte 352 filled, paid", |seen| seen.paid() && seen.block[352] != 0),
    ("byte 447 filled, 4", |seen| seen.alone(4, 447, 1)),
    ("byte 448 filled, 4", |seen| seen.alone(4, 448, 1)),
    ("byte 507 filled, 4", |seen| seen.alone(4, 507, 1)),
    ("16 met, 13 given", |seen| seen.refused(13) && seen.total() >= Some(0) && seen.short_by() > Some(0)),
    ("total < 0, debit value, 14", |seen| seen.refused(14) && seen.debit_value() > 0),
    ("total 0, debit value, 16", |seen| seen.refused(16) && seen.total() == Some(0)),
    ("debit value within, 13", |seen| seen.refused(13) && seen.debit_value() > 0 && seen.short_by() <= Some(0)),
    ("underpin above debits, 16", |seen| seen.refused(16) && seen.underpin() > seen.debit_value()),
    ("gross < underpin <= first", |seen| seen.paid() && underpin_decides(seen)),
    ("underpin 1p below, debit", |seen| seen.paid() && underpin_above_gross(seen) == Some(-1)),
    ("underpin 1p above, debit", |seen| seen.paid() && underpin_above_gross(seen) == Some(1)),
];

/// Whether the first is 29 February and the second this day of a common year.
pub fn from_leap_day(first: Date, second: Date, month: i64, day: i64) -> bool {
    let common = !is_real(date(second.year, 2, 29));
    (first.month, first.day) == (2, 29) && common && (second.month, second.day) == (month, day)
}

fn aged(case: &Case, day: i64) -> bool {
    case.kind == 1 && from_leap_day(case.birth, case.guarantee, 2, day)
}

fn aged_65(case: &Case, day: i64) -> bool {
    let line_1 = case.lines[0].date;
    case.kind == 2 && line_1.year == case.birth.year + 65 && from_leap_day(case.birth, line_1, 2, day)
}

/// Whether refusal 6 has no other cause than the 65th birthday.
fn alone(case: &Case) -> bool {
    let [birth, leaving, guarantee] = [case.birth, case.leaving, case.guarantee].map(day_number);
    let line_1 = day_number(case.lines[0].date);
    birth < leaving && leaving <= guarantee && case.used()[1..].iter().all(|line| day_number(line.date) < line_1)
}

fn ahead(case: &Case, month: i64, day: i64) -> bool {
    case.kind == 2 && case.used().iter().any(|line| from_leap_day(case.guarantee, line.date, month, day))
}

/// Whether the case is paid, and its payment is such a one.
fn holds(answer: &Answer, such: fn(&Payment) -> bool) -> bool {
    answer.as_ref().map_or(false, such)
}

fn flagged(case: &Case) -> bool {
    case.has(TRANSFERRED_IN)
}

/// Whether the underpin is above the gross value with this much more.
fn underpin_tops(payment: &Payment, more: i128) -> bool {
    payment.underpin > payment.gross + more
}

/// By how many days the line at this place, counted from 0, is dated after the next; none where the count does not cover both.
fn days_apart(case: &Case, place: usize) -> Option<i64> {
    let line = case.used().get(place)?;
    Some(day_number(line.date) - day_number(case.used().get(place + 1)?.date))
}

fn rises(case: &Case, place: usize) -> bool {
    days_apart(case, place).map_or(false, |days| days < 0)
}

/// Whether the next line is dated before it, or the count does not cover both.
fn falls(case: &Case, place: usize) -> bool {
    days_apart(case, place).map_or(true, |days| days > 0)
}

/// Whether the case meets refusal 10 and is given this refusal.
fn to_refer(case: &Case, answer: &Answer, refusal: Refusal) -> bool {
    matches!(answer, Err(found) if *found == refusal) && gmp_to_refer(case)
}

/// Whether the case is of this kind and its guarantee date lies so many days after the birthday on which pension age is reached.
fn at_pension_age(case: &Case, kind: u64, days: i64) -> bool {
    let on_that_day = |years| day_number(case.guarantee) == moved_on(case.birth, years) + days;
    case.kind == kind && pension_age(case.kind).map_or(false, on_that_day)
}

/// Whether the guarantee date lies so many days after the earliest date of a line.
fn at_first_due(case: &Case, days: i64) -> bool {
    let due = case.used().iter().map(|line| day_number(line.date)).min();
    case.kind == 2 && due.map_or(false, |due| day_number(case.guarantee) == due + days)
}

/// A block with its case and its answer. The sums are there where it is paid or given refusal 13, 14 or 16.
pub struct Seen<'a> {
    pub model: &'a Model,
    block: &'a [u8],
    pub case: Case,
    answer: &'a Answer,
    sums: Option<Payment>,
}

impl Seen<'_> {
    pub fn of<'a>(model: &'a Model, block: &'a [u8], answer: &'a Answer) -> Seen<'a> {
        let case = case_of(block);
        let sums = match answer {
            Ok(payment) => Some(*payment),
            Err(13 | 14 | 16) => model.items(&case),
            Err(_) => None,
        };
        Seen { model, block, case, answer, sums }
    }

    pub fn paid(&self) -> bool {
        self.answer.is_ok()
    }

    pub fn refused(&self, refusal: Refusal) -> bool {
        *self.answer == Err(refusal)
    }

    /// The signed total before any divorce debit.
    pub fn total(&self) -> Option<i128> {
        self.sums.as_ref().map(signed_total)
    }

    fn first_value(&self) -> i128 {
        self.sums.as_ref().map_or(0, first_value)
    }

    fn debit_value(&self) -> i128 {
        self.sums.as_ref().map_or(0, debit_value)
    }

    pub fn gross(&self) -> i128 {
        self.first_value() - self.debit_value()
    }

    fn debit_total(&self) -> i128 {
        self.sums.map_or(0, |sums| sums.debit_total)
    }

    fn underpin(&self) -> i128 {
        self.sums.map_or(0, |sums| sums.underpin)
    }

    /// By how many pence the first value falls short of the debit value.
    fn short_by(&self) -> Option<i128> {
        self.sums.map(|sums| debit_value(&sums) - first_value(&sums))
    }

    /// Whether some divorce debit, revalued, has these ten-thousandths of a penny over.
    fn any_revalued_part(&self, over: u64) -> bool {
        let revaluation = self.case.revaluation;
        self.case.used().iter().flat_map(Line::divorce_debits).any(|debit| debit * revaluation % 10_000 == over)
    }

    /// Whether the block is refused so, and with this change made to it would be read.
    pub fn but_for(&self, refusal: Refusal, change: impl FnOnce(&mut Block)) -> bool {
        if !self.refused(refusal) {
            return false;
        }
        let mut changed = Block(self.block.try_into().unwrap());
        change(&mut changed);
        changed.seal();
        self.model.read(&changed.0).is_ok()
    }

    /// Whether these bytes are filled, and the block is refused so for them alone.
    pub fn alone(&self, refusal: Refusal, offset: usize, width: usize) -> bool {
        let filled = self.block[offset..offset + width].iter().any(|&byte| byte != 0);
        filled && self.but_for(refusal, |block| block.0[offset..offset + width].fill(0))
    }
}

/// Whether the gross value would be another if only the difference were rounded.
fn differs_as_one(seen: &Seen) -> bool {
    let difference = seen.total().unwrap_or(0) - seen.debit_total();
    (difference + 50).div_euclid(100) != seen.gross()
}

/// Whether the debit value would be another if each line's were rounded.
fn differs_by_lines(seen: &Seen) -> bool {
    let case = &seen.case;
    let of_line = |line: &Line| line_debit_total(case, line, &seen.model.factors(case, line).unwrap());
    let by_lines = || case.used().iter().map(|line| (of_line(line) + 50) / 100).sum::<i128>();
    lines_with_debit(seen) > 1 && by_lines() != seen.debit_value()
}

fn only_debit(seen: &Seen, which: usize) -> bool {
    let all: Vec<u64> = seen.case.lines.iter().flat_map(Line::divorce_debits).collect();
    all.iter().enumerate().all(|(i, &debit)| i % 3 == which || debit == 0)
        && all.iter().filter(|&&debit| debit > 0).count() == 1
}

fn lines_with_debit(seen: &Seen) -> usize {
    seen.case.lines.iter().filter(|line| line.has_divorce_debit()).count()
}

/// Whether the line at this place, counted from 0, has the only divorce debits, and another row than line 1.
fn only_line(seen: &Seen, place: usize) -> bool {
    let case = &seen.case;
    lines_with_debit(seen) == 1
        && case.lines[place].has_divorce_debit()
        && seen.model.key(case, &case.lines[place]) != seen.model.key(case, &case.lines[0])
}

/// Only the values as a whole are compared: a divorce debit may be above the benefit that it reduces.
fn above_benefit(line: &Line) -> bool {
    line.debit_pension > line.pension + line.additional || line.debit_survivor > line.survivor + line.dependant
}

/// Whether a line has a divorce debit and such an amount.
fn both(seen: &Seen, amount: fn(&Line) -> u64) -> bool {
    seen.case.used().iter().any(|line| line.has_divorce_debit() && amount(line) > 0)
}

fn largest(seen: &Seen, which: usize) -> bool {
    seen.case.used().iter().any(|line| line.divorce_debits()[which] == LARGEST_AMOUNT)
}

fn above_largest(seen: &Seen, which: usize) -> bool {
    let above = |place: usize| seen.case.lines[place].divorce_debits()[which] == LARGEST_AMOUNT + 1;
    (0..4).any(|place| above(place) && seen.alone(5, at::GROUPS[place] + 8 * which, 8))
}

/// Whether the last line that the count covers has a divorce debit, and there are lines past it.
fn last_line(seen: &Seen) -> bool {
    seen.case.count < 4 && seen.case.used().last().map_or(false, Line::has_divorce_debit)
}

fn past_count(seen: &Seen, group: usize) -> bool {
    let counted = seen.case.count as usize * at::GROUP_LENGTH;
    group >= at::GROUPS[0] + counted && seen.alone(4, group, at::GROUP_LENGTH)
}

fn lump_in_kind_2(seen: &Seen, group: usize) -> bool {
    let counted = seen.case.count as usize * at::GROUP_LENGTH;
    seen.case.kind == 2 && group < at::GROUPS[0] + counted && seen.alone(4, group + 16, 8)
}

/// Whether the underpin is above the gross value and would not be above the first value.
fn underpin_decides(seen: &Seen) -> bool {
    let first = seen.first_value();
    flagged(&seen.case) && seen.underpin() > seen.gross() && seen.underpin() <= first
}

/// By how many pence the underpin of a case with a debit value is above the gross value.
fn underpin_above_gross(seen: &Seen) -> Option<i128> {
    (flagged(&seen.case) && seen.debit_value() > 0).then_some(seen.underpin() - seen.gross())
}
