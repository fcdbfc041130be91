//! Ways to break one rule of a block that is otherwise acceptable, each with the refusal that it calls for.

use crate::divorce::*;
use crate::generator::*;
use crate::model::*;
use crate::random::Random;

type Break = fn(&Model, &mut Random, &mut Block);

/// Refusals 3 to 14, 16 and 17 in the order in which they are tested. Where two are applied, the later refusal's goes
/// first, so that the earlier one stays broken.
pub const BREAKS: &[(Refusal, &str, Break)] = &[
    (3, "kind not listed", kind_not_listed),
    (3, "count not allowed", count_not_allowed),
    (4, "unnamed byte", unnamed_byte),
    (4, "unused flag", unused_flag),
    (4, "line past the count", line_past_count),
    (4, "state pension date without flag", state_pension_without_flag),
    (4, "transfer-in payment without flag", transfer_in_without_flag),
    (4, "flag of another kind", flag_of_another_kind),
    (4, "field of another kind", field_of_another_kind),
    (4, "sex in kind 1 or 2", sex_in_kind_1_or_2),
    (4, "Choice Optant in kind 1 or 2", choice_optant_in_kind_1_or_2),
    (4, "lump sum of no Choice Optant", lump_sum_of_no_choice_optant),
    (4, "additional amount past line 1", additional_past_line_1),
    (4, "divorce debit past the count", divorce_debit_past_count),
    (4, "divorce debit lump sum in kind 2", divorce_lump_in_kind_2),
    (5, "case number", case_number),
    (5, "status code", status_code),
    (5, "receiving code", receiving_code),
    (5, "sex", sex_code),
    (5, "amount", amount_too_large),
    (5, "divorce debit", divorce_debit_too_large),
    (5, "revaluation", revaluation_range),
    (5, "date", date_not_real),
    (6, "birth not before leaving", birth_not_before_leaving),
    (6, "leaving after guarantee", leaving_after_guarantee),
    (6, "line 1 before the 65th birthday", line_1_early),
    (6, "line 1 before 28 February, born on 29", line_1_before_leap_birthday),
    (6, "other line not before line 1", other_line_late),
    (17, "two lines on one day", lines_alike),
    (17, "a line later than the one above", line_rises),
    (17, "order, and not deferred", order_not_deferred),
    (7, "status", not_deferred),
    (8, "receiver", |_, random, block| block.put(at::RECEIVER, 1, random.pick(&[2, 3]))),
    (9, "service", |_, random, block| block.put(at::SERVICE, 2, random.below(3))),
    (11, "age", too_old),
    (11, "age, to be referred too", too_old_to_refer),
    (11, "age, born on 29 February", too_old_from_leap_birthday),
    (10, "refer", state_pension_early),
    (10, "refer, a day before pension age", refer_before_pension_age),
    (12, "factor", no_row),
    (13, "debit", debit_above),
    (13, "debit, and award", debit_above_and_award),
    (14, "negative", total_below_zero),
    (14, "negative, and award", below_zero_and_award),
    (16, "award", put_award),
    (16, "award, however large the underpin", award_and_underpin),
];

fn kind_not_listed(_: &Model, random: &mut Random, block: &mut Block) {
    let kind = match random.below(4) {
        0 => random.pick(&[0, 4, 65_535]),
        1 => 256 * random.between(1, 255) as u64 + random.below(4),
        _ => random.between(4, 65_535) as u64,
    };
    block.put(at::KIND, 2, kind);
}

fn count_not_allowed(_: &Model, random: &mut Random, block: &mut Block) {
    let count = match random.below(3) {
        0 => 0,
        1 if most_lines(block.kind()) == 1 => random.between(2, 5),
        1 => random.pick(&[5, 6, 128]),
        _ => random.between(5, 255),
    };
    block.put(at::COUNT, 1, count as u64);
}

fn nonzero_byte(random: &mut Random) -> u64 {
    random.at_edges(1, 255) as u64
}

fn nonzero_amount(random: &mut Random) -> u64 {
    match random.below(4) {
        0 => 1,
        1 => 1 << random.below(64),
        2 => LARGEST_AMOUNT,
        _ => random.next() | 1,
    }
}

fn unnamed_byte(model: &Model, random: &mut Random, block: &mut Block) {
    let offset = match random.below(5) {
        0 => random.pick(&[2, 3, 36, 37, 38, 39]),
        1 => random.pick(&at::LINES) + random.between(4, 7) as usize,
        2 => random.pick(&[448, 449, 506, 507]),
        3 => at::SEX + 1,
        _ => random.pick(model.unnamed_bytes()),
    };
    block.put(offset, 1, nonzero_byte(random));
}

fn unused_flag(_: &Model, random: &mut Random, block: &mut Block) {
    block.set_flag(1 << random.between(3, 7), true);
}

fn flag_of_another_kind(_: &Model, random: &mut Random, block: &mut Block) {
    let flags: &[u64] = match block.kind() {
        1 => &[TRANSFERRED_IN, CHOICE_OPTANT],
        2 => &[CHOICE_OPTANT],
        _ => &[TRANSFERRED_IN],
    };
    block.set_flag(random.pick(flags), true);
}

fn line_past_count(model: &Model, random: &mut Random, block: &mut Block) {
    let count = block.count();
    if count >= 4 {
        return unnamed_byte(model, random, block);
    }
    let start = random.pick(&at::LINES[count..]);
    match random.below(3) {
        0 => block.put(start + random.below(72) as usize, 1, nonzero_byte(random)),
        1 => block.put_date(start + at::DATE, date(2030, 6, 1)),
        _ => block.put_amount(start, random.pick(&at::AMOUNTS), nonzero_amount(random)),
    }
}

fn divorce_debit_past_count(model: &Model, random: &mut Random, block: &mut Block) {
    let count = block.count();
    if count >= 4 {
        return unnamed_byte(model, random, block);
    }
    let place = random.between(count as i64, 3) as usize;
    if random.one_in(2) {
        let byte = random.at_edges(0, at::GROUP_LENGTH as i64 - 1) as usize;
        return block.put(at::GROUPS[place] + byte, 1, nonzero_byte(random));
    }
    block.put_amount(at::LINES[place], random.pick(&at::DIVORCE), nonzero_amount(random));
}

fn state_pension_without_flag(_: &Model, random: &mut Random, block: &mut Block) {
    block.set_flag(HAS_GMP, false);
    block.put_date(at::STATE_PENSION, date(0, 0, 0));
    if random.one_in(2) {
        block.put_date(at::STATE_PENSION, date(2030, 6, 1));
    } else {
        block.put(at::STATE_PENSION + random.below(4) as usize, 1, nonzero_byte(random));
    }
}

fn transfer_in_without_flag(_: &Model, random: &mut Random, block: &mut Block) {
    block.set_flag(TRANSFERRED_IN, false);
    block.put(at::TRANSFER_IN, 8, nonzero_amount(random));
}

fn field_of_another_kind(_: &Model, random: &mut Random, block: &mut Block) {
    if block.kind() == 2 {
        let start = block.some_line(random);
        let fields = [at::MODIFICATION, at::LUMP, at::SCHEME_PAYS_LUMP, at::DEBIT_LUMP];
        return block.put_amount(start, random.pick(&fields), nonzero_amount(random));
    }
    match random.below(3) {
        0 => block.put(at::CONTRIBUTIONS, 8, nonzero_amount(random)),
        1 => block.put_date(at::LINES[0] + at::DATE, date(2030, 6, 1)),
        _ => block.put(at::LINES[0] + random.below(4) as usize, 1, nonzero_byte(random)),
    }
}

fn sex_in_kind_1_or_2(model: &Model, random: &mut Random, block: &mut Block) {
    make_of_kind(model, random, block, &[1, 2]);
    let other = nonzero_byte(random);
    block.put(at::SEX, 1, random.pick(&[MALE, FEMALE, other]));
}

fn choice_optant_in_kind_1_or_2(model: &Model, random: &mut Random, block: &mut Block) {
    make_of_kind(model, random, block, &[1, 2]);
    block.set_flag(CHOICE_OPTANT, true);
}

/// One of the lump sum and the debits on it, or all of them.
fn lump_sum_of_no_choice_optant(model: &Model, random: &mut Random, block: &mut Block) {
    make_of_kind(model, random, block, &[3]);
    block.set_flag(CHOICE_OPTANT, false);
    let one = random.pick(&at::LUMP_SUM);
    let all = random.one_in(4);
    for field in at::LUMP_SUM {
        let pence = if all || field == one { nonzero_amount(random) } else { 0 };
        block.put_amount(at::LINES[0], field, pence);
    }
}

fn divorce_lump_in_kind_2(model: &Model, random: &mut Random, block: &mut Block) {
    make_of_kind(model, random, block, &[2]);
    let start = block.some_line(random);
    block.put_amount(start, at::DEBIT_LUMP, nonzero_amount(random));
}

fn additional_past_line_1(model: &Model, random: &mut Random, block: &mut Block) {
    if block.kind() != 2 || block.count() < 2 {
        return line_past_count(model, random, block);
    }
    let last = block.count().min(4);
    let start = random.pick(&at::LINES[1..last]);
    block.put_amount(start, random.pick(&at::ONLY_LINE_1), nonzero_amount(random));
}

fn case_number(_: &Model, _: &mut Random, block: &mut Block) {
    block.put(at::NUMBER, 4, 0);
}

fn status_code(_: &Model, random: &mut Random, block: &mut Block) {
    let status = if random.one_in(3) { 0 } else { random.at_edges(5, 255) };
    block.put(at::STATUS, 1, status as u64);
}

fn receiving_code(_: &Model, random: &mut Random, block: &mut Block) {
    let receiver = if random.one_in(3) { 0 } else { random.at_edges(4, 255) };
    block.put(at::RECEIVER, 1, receiver as u64);
}

fn sex_code(model: &Model, random: &mut Random, block: &mut Block) {
    make_of_kind(model, random, block, &[3]);
    let sex = if random.one_in(3) { 0 } else { random.at_edges(3, 255) };
    block.put(at::SEX, 1, sex as u64);
}

fn too_large(random: &mut Random) -> u64 {
    match random.below(4) {
        0 => LARGEST_AMOUNT + 1,
        1 => u64::MAX - random.below(3),
        2 => 1 << random.between(30, 63),
        _ => LARGEST_AMOUNT + 1 + random.below(u64::MAX - LARGEST_AMOUNT),
    }
}

fn amount_too_large(_: &Model, random: &mut Random, block: &mut Block) {
    let mut fields = vec![at::AVC];
    if block.flag(TRANSFERRED_IN) {
        fields.push(at::TRANSFER_IN);
    }
    let start = block.some_line(random);
    let allowed = |field: &usize| block.takes(*field) && (start == at::LINES[0] || !at::ONLY_LINE_1.contains(field));
    if block.kind() == 2 {
        fields.push(at::CONTRIBUTIONS);
    }
    fields.extend(at::AMOUNTS.into_iter().filter(allowed).map(|field| at::amount(start, field)));
    block.put(random.pick(&fields), 8, too_large(random));
}

fn divorce_debit_too_large(_: &Model, random: &mut Random, block: &mut Block) {
    let start = block.some_line(random);
    let fields: Vec<usize> = at::DIVORCE.into_iter().filter(|&field| block.takes(field)).collect();
    block.put_amount(start, random.pick(&fields), too_large(random));
}

fn revaluation_range(_: &Model, random: &mut Random, block: &mut Block) {
    let factor = match random.below(4) {
        0 => random.pick(&[0, 1, 9_999]),
        1 => random.pick(&[100_001, u32::MAX as i64, 10_000 << 16]),
        2 => random.between(0, 9_999),
        _ => random.between(100_001, u32::MAX as i64),
    };
    block.put(at::REVALUATION, 4, factor as u64);
}

/// A date that is none, or one outside the years 1900 to 2199.
pub fn unreal_date(random: &mut Random) -> Date {
    let year = random.between(1900, 2199);
    match random.below(8) {
        0 => random.pick(&[date(1900, 2, 29), date(2100, 2, 29), date(2023, 2, 29)]),
        1 => random.pick(&[date(1899, 12, 31), date(2200, 1, 1), date(0, 0, 0), date(0, 1, 1)]),
        2 => date(year, random.pick(&[4, 6, 9, 11]), 31),
        3 => date(year, 2, random.between(30, 255)),
        4 => date(year, random.pick(&[0, 13, 14, 255]), random.between(1, 28)),
        5 => date(year, random.between(1, 12), random.pick(&[0, 32, 255])),
        6 => date(random.between(2200, 65_535), random.between(1, 12), random.between(1, 28)),
        _ => date(4 * random.between(475, 549) + random.between(1, 3), 2, 29),
    }
}

fn date_not_real(_: &Model, random: &mut Random, block: &mut Block) {
    let mut fields = vec![at::BIRTH, at::LEAVING, at::GUARANTEE];
    if block.flag(HAS_GMP) {
        fields.push(at::STATE_PENSION);
    }
    if block.kind() == 2 {
        fields.push(block.some_line(random) + at::DATE);
    }
    let wrong = unreal_date(random);
    block.put_date(random.pick(&fields), wrong);
}

/// A 29 February whose 65th birthday is in range.
fn some_leap_day(random: &mut Random) -> Date {
    let year = 4 * random.between(476, 533);
    let leap = date(year, 2, 29);
    if is_real(leap) {
        leap
    } else {
        date(year + 4, 2, 29)
    }
}

/// A guarantee date with a leaving date that it and the birth allow.
fn put_guarantee_after_leaving(random: &mut Random, block: &mut Block, guarantee: i64) {
    block.put_day(at::GUARANTEE, guarantee);
    block.put_day(at::LEAVING, random.at_edges(block.day(at::BIRTH) + 1, guarantee));
}

fn birth_not_before_leaving(_: &Model, random: &mut Random, block: &mut Block) {
    if random.one_in(2) {
        let birth = block.day(at::BIRTH);
        block.put_day(at::LEAVING, random.at_edges(birth.saturating_sub(400).max(first_day()), birth));
    } else {
        let leaving = block.day(at::LEAVING);
        block.put_day(at::BIRTH, random.at_edges(leaving, (leaving + 400).min(last_day())));
    }
}

fn leaving_after_guarantee(model: &Model, random: &mut Random, block: &mut Block) {
    let guarantee = block.day(at::GUARANTEE);
    if guarantee == last_day() {
        return birth_not_before_leaving(model, random, block);
    }
    block.put_day(at::LEAVING, random.at_edges(guarantee + 1, (guarantee + 400).min(last_day())));
}

fn line_1_early(model: &Model, random: &mut Random, block: &mut Block) {
    if block.kind() != 2 {
        return birth_not_before_leaving(model, random, block);
    }
    if random.one_in(2) {
        let birth = block.get_date(at::BIRTH).year;
        let leap = date(birth - birth.rem_euclid(4), 2, 29);
        if is_real(leap) {
            block.put_date(at::BIRTH, leap);
        }
    }
    let birthday = moved_on(block.get_date(at::BIRTH), 65).min(last_day() + 1);
    let any = random.at_edges((birthday - 4_000).max(first_day()), birthday - 1);
    block.put_day(at::LINES[0] + at::DATE, random.pick(&[any, birthday - 1]));
}

/// A case of kind 2 born on 29 February whose line 1, its only one, is dated the day before the 65th birthday.
fn line_1_before_leap_birthday(model: &Model, random: &mut Random, block: &mut Block) {
    make_of_kind(model, random, block, &[2]);
    let birth = some_leap_day(random);
    let birthday = moved_on(birth, 65);
    block.put_date(at::BIRTH, birth);
    block.put_day(at::LINES[0] + at::DATE, birthday - 1);
    put_guarantee_after_leaving(random, block, birthday - 2);
    block.keep_line_1_alone();
}

fn other_line_late(model: &Model, random: &mut Random, block: &mut Block) {
    if block.kind() != 2 || block.count() < 2 {
        return leaving_after_guarantee(model, random, block);
    }
    let line_1 = block.day(at::LINES[0] + at::DATE);
    let last = block.count().min(4);
    let start = random.pick(&at::LINES[1..last]);
    block.put_day(start + at::DATE, random.at_edges(line_1, (line_1 + 4_000).min(last_day())));
}

/// The starts of two neighbouring lines after line 1. A block without them is replaced by one that has them.
fn neighbours(model: &Model, random: &mut Random, block: &mut Block) -> [usize; 2] {
    while block.kind() != 2 || block.count() < 3 {
        *block = acceptable_of(model, random, 2);
    }
    let second = random.between(2, block.count() as i64 - 1) as usize;
    [at::LINES[second - 1], at::LINES[second]]
}

fn lines_alike(model: &Model, random: &mut Random, block: &mut Block) {
    let [line, next] = neighbours(model, random, block);
    if random.one_in(2) {
        block.put_day(next + at::DATE, block.day(line + at::DATE));
    } else {
        block.put_day(line + at::DATE, block.day(next + at::DATE));
    }
}

/// Dates a line after the one above it, and still before line 1, or exchanges the two dates.
fn line_rises(model: &Model, random: &mut Random, block: &mut Block) {
    let [line, next] = neighbours(model, random, block);
    let (day, next_day) = (block.day(line + at::DATE), block.day(next + at::DATE));
    let before_line_1 = block.day(at::LINES[0] + at::DATE) - 1;
    if day < next_day {
        return; // broken already
    }
    if day < before_line_1 && random.one_in(2) {
        block.put_day(next + at::DATE, random.at_edges(day + 1, before_line_1));
    } else {
        block.put_day(line + at::DATE, next_day);
        block.put_day(next + at::DATE, day);
    }
}

fn order_not_deferred(model: &Model, random: &mut Random, block: &mut Block) {
    line_rises(model, random, block);
    not_deferred(model, random, block);
}

fn not_deferred(_: &Model, random: &mut Random, block: &mut Block) {
    block.put(at::STATUS, 1, random.pick(&[2, 3, 4]));
}

fn state_pension_early(_: &Model, random: &mut Random, block: &mut Block) {
    block.set_flag(HAS_GMP, true);
    let latest = day_number(date(2016, 4, 5));
    block.put_day(at::STATE_PENSION, random.at_edges(first_day(), latest));
}

fn too_old(_: &Model, random: &mut Random, block: &mut Block) {
    let reached = match pension_age(block.kind()) {
        Some(years) => moved_on(block.get_date(at::BIRTH), years),
        None => block.day(block.some_line(random) + at::DATE),
    };
    if reached > last_day() {
        let guarantee = block.get_date(at::GUARANTEE);
        return block.put_date(at::BIRTH, date(guarantee.year - 66, 6, 1));
    }
    let earliest = reached.max(block.day(at::LEAVING));
    let latest = earliest + random.pick(&[400, 4_000]);
    block.put_day(at::GUARANTEE, random.at_edges(earliest, latest.min(last_day())));
}

/// A case of kind 1 or 3 born on 29 February, with a guarantee date on or soon after the day on which pension age is reached.
fn too_old_from_leap_birthday(model: &Model, random: &mut Random, block: &mut Block) {
    make_of_kind(model, random, block, &[1, 3]);
    let birth = some_leap_day(random);
    block.put_date(at::BIRTH, birth);
    let guarantee = moved_on(birth, pension_age(block.kind()).unwrap()) + random.between(0, 1);
    put_guarantee_after_leaving(random, block, guarantee);
}

fn too_old_to_refer(model: &Model, random: &mut Random, block: &mut Block) {
    state_pension_early(model, random, block);
    too_old(model, random, block);
}

fn refer_before_pension_age(model: &Model, random: &mut Random, block: &mut Block) {
    state_pension_early(model, random, block);
    let reached = match pension_age(block.kind()) {
        Some(years) => moved_on(block.get_date(at::BIRTH), years),
        None => at::LINES[..block.count()].iter().map(|start| block.day(start + at::DATE)).min().unwrap(),
    };
    block.put_day(at::GUARANTEE, (reached - 1).min(last_day()));
}

fn no_row(_: &Model, random: &mut Random, block: &mut Block) {
    let birth = block.get_date(at::BIRTH);
    let (first, last) = block.keys();
    if block.kind() != 2 {
        block.put_day(at::LEAVING, day_number(birth) + 1);
        let latest = moved_on(birth, first) - 1;
        block.put_day(at::GUARANTEE, random.at_edges(day_number(birth) + 1, latest));
        return;
    }
    let line_1 = at::LINES[0] + at::DATE;
    let past_table = moved_on(block.get_date(at::GUARANTEE), last) + 1;
    if past_table <= last_day() {
        // Not before the date it has, which stands at or after the 65th birthday.
        let earliest = past_table.max(block.day(line_1));
        block.put_day(line_1, random.at_edges(earliest, (earliest + 4_000).min(last_day())));
        return;
    }
    let mut guarantee = day_number(date(block.get_date(line_1).year - last, 1, 2));
    while moved_on(date_of(guarantee), last) >= block.day(line_1) {
        guarantee -= 1;
    }
    block.put_day(at::LEAVING, day_number(birth) + 1);
    block.put_day(at::GUARANTEE, guarantee);
}

fn debit_above(_: &Model, random: &mut Random, block: &mut Block) {
    let start = block.some_line(random);
    let lump = block.takes(at::LUMP) && random.one_in(2);
    let (benefits, debit): (&[usize], usize) =
        if lump { (&[at::LUMP], at::SCHEME_PAYS_LUMP) } else { (&[at::PENSION, at::ADDITIONAL], at::SCHEME_PAYS) };
    let reduced = |block: &Block| {
        if lump {
            block.revalued_lump(start)
        } else {
            block.revalued_pension(start)
        }
    };
    if reduced(block) >= LARGEST_AMOUNT as i128 {
        // No debit in range is above these, so they are made small.
        for field in benefits {
            block.put_amount(start, *field, random.below(1_000));
        }
        if start != at::LINES[0] {
            block.put_amount(start, at::ADDITIONAL, 0);
        }
    }
    let least = reduced(block) as i64 + 1;
    block.put_amount(start, debit, random.at_edges(least, LARGEST_AMOUNT as i64) as u64);
}

fn debit_above_and_award(model: &Model, random: &mut Random, block: &mut Block) {
    put_award(model, random, block);
    debit_above(model, random, block);
}

fn total_below_zero(model: &Model, random: &mut Random, block: &mut Block) {
    make_of_kind(model, random, block, &[1, 3]);
    if random.one_in(2) {
        return put_total_near_zero(model, random, block, true);
    }
    let modification = at::LINES[0] + at::MODIFICATION;
    block.put(modification, 8, LARGEST_AMOUNT);
    let over = |block: &Block| model.value(&case_of(&block.0)) == Err(14);
    if !over(block) {
        return put_total_near_zero(model, random, block, true);
    }
    // The least modification that is refused, by halving, or a little more.
    let (mut accepted, mut refused) = (0, LARGEST_AMOUNT);
    block.put(modification, 8, 0);
    if over(block) {
        return;
    }
    while refused - accepted > 1 {
        let middle = (accepted + refused) / 2;
        block.put(modification, 8, middle);
        if over(block) {
            refused = middle
        } else {
            accepted = middle
        }
    }
    block.put(modification, 8, random.at_edges(refused as i64, LARGEST_AMOUNT as i64) as u64);
}

/// Any debit value is above a total below zero.
fn below_zero_and_award(model: &Model, random: &mut Random, block: &mut Block) {
    make_of_kind(model, random, block, &[1, 3]);
    put_award(model, random, block);
    total_below_zero(model, random, block);
}

/// An underpin above the first value, or above the debit value as well, does not save the case.
fn award_and_underpin(model: &Model, random: &mut Random, block: &mut Block) {
    make_of_kind(model, random, block, &[2]);
    put_small_benefits(random, block);
    put_award(model, random, block);
    let sums = model.items(&case_of(&block.0)).unwrap();
    let least = random.pick(&[first_value(&sums), debit_value(&sums)]).min(LARGEST_AMOUNT as i128);
    block.set_flag(TRANSFERRED_IN, true);
    block.put(at::TRANSFER_IN, 8, random.at_edges(least as i64, LARGEST_AMOUNT as i64) as u64);
    block.put(at::CONTRIBUTIONS, 8, random.at_edges(1, LARGEST_AMOUNT as i64) as u64);
}
