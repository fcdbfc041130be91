//! Blocks to compare: acceptable ones at the edges of the ranges and rules, broken ones, damaged and random ones.

use crate::divorce::put_divorce_debits;
use crate::model::*;
use crate::random::Random;

/// A block's bytes, written by field.
#[derive(Clone)]
pub struct Block(pub [u8; BLOCK_LENGTH]);

impl Block {
    pub fn zeros() -> Block {
        Block([0; BLOCK_LENGTH])
    }

    pub fn put(&mut self, offset: usize, width: usize, value: u64) {
        self.0[offset..offset + width].copy_from_slice(&value.to_le_bytes()[..width]);
    }

    pub fn put_date(&mut self, offset: usize, d: Date) {
        self.put(offset, 2, d.year as u64);
        self.put(offset + 2, 1, d.month as u64);
        self.put(offset + 3, 1, d.day as u64);
    }

    pub fn put_day(&mut self, offset: usize, day: i64) {
        self.put_date(offset, date_of(day));
    }

    pub fn get(&self, offset: usize, width: usize) -> u64 {
        number_at(&self.0, offset, width)
    }

    pub fn get_date(&self, offset: usize) -> Date {
        date_at(&self.0, offset)
    }

    pub fn day(&self, offset: usize) -> i64 {
        day_number(self.get_date(offset))
    }

    pub fn kind(&self) -> u64 {
        self.get(at::KIND, 2)
    }

    /// Whether its kind and its flags allow this amount on a line.
    pub fn takes(&self, field: usize) -> bool {
        !absent_amounts(self.kind(), self.get(at::FLAGS, 1)).contains(&field)
    }

    /// The first and the last key of its table.
    pub fn keys(&self) -> (i64, i64) {
        let (_, first, last) = TABLES[table_place(self.kind(), self.get(at::SEX, 1))];
        (first, last)
    }

    pub fn count(&self) -> usize {
        self.get(at::COUNT, 1) as usize
    }

    pub fn revaluation(&self) -> u64 {
        self.get(at::REVALUATION, 4)
    }

    pub fn flag(&self, flag: u64) -> bool {
        self.get(at::FLAGS, 1) & flag != 0
    }

    pub fn set_flag(&mut self, flag: u64, on: bool) {
        let others = self.get(at::FLAGS, 1) & !flag;
        self.put(at::FLAGS, 1, if on { others | flag } else { others });
    }

    /// Start of one of the lines that the count covers.
    pub fn some_line(&self, random: &mut Random) -> usize {
        at::LINES[random.below(self.count().clamp(1, 4) as u64) as usize]
    }

    /// An amount of the line that starts here.
    pub fn amount(&self, start: usize, field: usize) -> u64 {
        self.get(at::amount(start, field), 8)
    }

    pub fn put_amount(&mut self, start: usize, field: usize, pence: u64) {
        self.put(at::amount(start, field), 8, pence);
    }

    pub fn revalued_pension(&self, start: usize) -> i128 {
        let sum = self.amount(start, at::PENSION) + self.amount(start, at::ADDITIONAL);
        revalued(sum, self.revaluation())
    }

    pub fn revalued_lump(&self, start: usize) -> i128 {
        revalued(self.amount(start, at::LUMP), self.revaluation())
    }

    pub fn clear_divorce_debits(&mut self) {
        for start in at::LINES {
            for field in at::DIVORCE {
                self.put_amount(start, field, 0);
            }
        }
    }

    /// Takes away lines 2 to 4 and their divorce debits.
    pub fn keep_line_1_alone(&mut self) {
        self.0[at::LINES[1]..at::LINES[3] + at::LINE_LENGTH].fill(0);
        self.0[at::GROUPS[1]..at::GROUPS[3] + at::GROUP_LENGTH].fill(0);
        self.put(at::COUNT, 1, 1);
    }

    /// Writes the check.
    pub fn seal(&mut self) {
        let check = check_of(&self.0);
        self.put(at::CHECK, 4, check);
    }
}

const AMOUNT_LIMIT: i64 = LARGEST_AMOUNT as i64;

/// A power of a number, modulo 10,000.
fn power(base: u64, exponent: u32) -> u64 {
    (0..exponent).fold(1, |product, _| product * base % 10_000)
}

/// Whether the revaluation has no factor in common with 10,000.
pub fn is_coprime(revaluation: u64) -> bool {
    revaluation % 2 != 0 && revaluation % 5 != 0
}

/// The amount below 10,000 that, revalued, has these ten-thousandths of a penny over. The revaluation is coprime to 10,000.
pub fn amount_with_over(revaluation: u64, over: u64) -> u64 {
    // 4,000 is the order of the numbers prime to 10,000, so this is the inverse: 3,999 = 31 * 129.
    let inverse = power(power(revaluation % 10_000, 31), 129);
    inverse * over % 10_000
}

/// An amount whose product with the revaluation lies within one of a half penny, where there is one.
fn amount_at_half(random: &mut Random, revaluation: u64) -> u64 {
    if !is_coprime(revaluation) {
        return 2_500 * random.below(400_001);
    }
    let target = random.pick(&[4_999, 5_000, 5_001]);
    amount_with_over(revaluation, target) + 10_000 * random.below(99_999)
}

pub fn amount(random: &mut Random, revaluation: u64) -> u64 {
    match random.below(12) {
        0 => 0,
        1 => 1,
        2 => LARGEST_AMOUNT,
        3 => LARGEST_AMOUNT - 1,
        4 | 5 => random.below(300),
        6 | 7 => random.below(10_000_000),
        8 => random.below(LARGEST_AMOUNT + 1),
        9 => LARGEST_AMOUNT >> random.below(30),
        _ => amount_at_half(random, revaluation),
    }
}

fn revaluation(random: &mut Random) -> u64 {
    match random.below(8) {
        0 => 10_000,
        1 => 100_000,
        2 => random.pick(&[10_001, 99_999, 15_000, 12_500, 10_625, 10_660]),
        3 | 4 => random.between(10_000, 13_000) as u64,
        _ => random.between(10_000, 100_000) as u64,
    }
}

/// A Scheme Pays debit not above the amount it reduces, that amount itself often.
fn scheme_pays(random: &mut Random, reduced: i128) -> u64 {
    let most = reduced.min(LARGEST_AMOUNT as i128) as i64;
    if random.one_in(3) {
        0
    } else {
        random.at_edges(0, most) as u64
    }
}

/// Everything but dates and lines.
fn common(random: &mut Random, kind: u64) -> Block {
    let mut block = Block::zeros();
    block.put(at::KIND, 2, kind);
    block.put(at::NUMBER, 4, random.at_edges(1, u32::MAX as i64) as u64);
    block.put(at::STATUS, 1, 1);
    block.put(at::RECEIVER, 1, 1);
    block.put(at::COUNT, 1, 1);
    block.put(at::SERVICE, 2, random.at_edges(3, 65_535) as u64);
    let factor = revaluation(random);
    block.put(at::REVALUATION, 4, factor);
    block.put(at::AVC, 8, amount(random, factor));
    if random.one_in(2) {
        block.set_flag(HAS_GMP, true);
        let earliest = day_number(date(2016, 4, 6));
        block.put_day(at::STATE_PENSION, random.at_edges(earliest, last_day()));
    }
    if kind == 3 {
        block.put(at::SEX, 1, random.pick(&[MALE, FEMALE]));
        block.set_flag(CHOICE_OPTANT, random.one_in(2));
    }
    block
}

/// The leaving date: after birth and not after the guarantee date.
fn put_leaving(random: &mut Random, block: &mut Block) {
    let leaving = random.at_edges(block.day(at::BIRTH) + 1, block.day(at::GUARANTEE));
    block.put_day(at::LEAVING, leaving);
}

fn some_birth(random: &mut Random, first_year: i64, last_year: i64) -> Date {
    let year = random.between(first_year, last_year);
    if random.one_in(8) {
        let leap = date(year - year.rem_euclid(4), 2, 29);
        if leap.year >= first_year && is_real(leap) {
            return leap;
        }
    }
    date_of(random.between(day_number(date(year, 1, 1)), day_number(date(year, 12, 31))))
}

/// An age that the block's table has. The deduction of women has another column from 60.
fn some_age(random: &mut Random, block: &Block) -> i64 {
    let (first, last) = block.keys();
    match random.below(8) {
        0 if last > 60 => random.pick(&[59, 60]),
        0..=2 => random.between(first, last),
        _ => random.at_edges(first, last),
    }
}

/// Dates of a kind that has a pension age. At leaving the table often has a row as well, and another one.
fn put_dates_by_age(random: &mut Random, block: &mut Block) {
    let age = some_age(random, block);
    let birth = some_birth(random, 1900, 2199 - age);
    block.put_date(at::BIRTH, birth);
    let next_birthday = moved_on(birth, age + 1);
    let guarantee = random.at_edges(moved_on(birth, age), (next_birthday - 1).min(last_day()));
    block.put_day(at::GUARANTEE, guarantee);
    if random.one_in(2) {
        block.put_day(at::LEAVING, random.between(moved_on(birth, block.keys().0), guarantee));
    } else {
        put_leaving(random, block);
    }
}

/// The factors on the first line and the signed total, whether or not it is below zero. Divorce debits are no part of it.
fn first_factors_and_total(model: &Model, block: &Block) -> Option<(Factors, i128)> {
    let mut without_debits = block.clone();
    without_debits.clear_divorce_debits();
    let mut case = case_of(&without_debits.0);
    let factors = model.factors(&case, &case.lines[0])?;
    let modification = case.lines[0].modification as i128;
    case.lines[0].modification = 0;
    let credit = signed_total(&model.value(&case).ok()?);
    Some((factors, credit - modification * factors.deduct))
}

/// A modification up to the largest that leaves nothing below zero.
fn put_modification(model: &Model, random: &mut Random, block: &mut Block) {
    let line = at::LINES[0];
    block.put_amount(line, at::MODIFICATION, 0);
    let (factors, credit) = first_factors_and_total(model, block).unwrap();
    let most = (credit / factors.deduct).min(LARGEST_AMOUNT as i128) as i64;
    let modification = if random.one_in(3) { 0 } else { random.at_edges(0, most) };
    block.put_amount(line, at::MODIFICATION, modification as u64);
}

/// Sets the survivor's pension of line 1, unrevalued, so that the total lies at an edge of a rounding.
fn put_survivor_at_edge(model: &Model, random: &mut Random, block: &mut Block) {
    let before = block.clone();
    let line = at::LINES[0];
    block.put(at::REVALUATION, 4, 10_000);
    for field in [at::SURVIVOR, at::DEPENDANT, at::SCHEME_PAYS, at::SCHEME_PAYS_LUMP] {
        block.put_amount(line, field, 0);
    }
    let (factors, total) = match first_factors_and_total(model, block) {
        Some(found) => found,
        None => {
            *block = before;
            return;
        }
    };
    let target = random.pick(&[0, 49, 50, 51, 99]);
    let found = (0..100).find(|s| {
        let with = total + s * factors.survivor;
        with >= 0 && with % 100 == target
    });
    match found {
        Some(survivor) => block.put_amount(line, at::SURVIVOR, survivor as u64),
        None => *block = before,
    }
}

/// Small amounts that leave a total of 0 to 50 hundredths of a penny or, where `below`, of -50 to -1.
/// Where none is found, the total is the least at or above zero, or the largest below it.
pub fn put_total_near_zero(model: &Model, random: &mut Random, block: &mut Block, below: bool) {
    let line = at::LINES[0];
    block.put(at::REVALUATION, 4, 10_000);
    for field in at::BENEFITS.iter().chain(&at::REDUCTIONS) {
        block.put_amount(line, *field, 0);
    }
    let (factors, _) = first_factors_and_total(model, block).unwrap();
    for _ in 0..64 {
        let pension = random.between(0, 500) as i128;
        let survivor = random.between(0, 500) as i128;
        let credit = pension * factors.pension + survivor * factors.survivor;
        let modification = credit / factors.deduct + below as i128;
        block.put_amount(line, at::PENSION, pension as u64);
        block.put_amount(line, at::SURVIVOR, survivor as u64);
        block.put_amount(line, at::MODIFICATION, modification as u64);
        if (credit - modification * factors.deduct).abs() <= 50 {
            return;
        }
    }
}

/// A pension and a modification that cancel exactly.
fn put_total_zero(model: &Model, random: &mut Random, block: &mut Block) {
    put_total_near_zero(model, random, block, false);
    let (factors, _) = first_factors_and_total(model, block).unwrap();
    let times = random.between(1, 1_000) as u64;
    let line = at::LINES[0];
    block.put_amount(line, at::SURVIVOR, 0);
    block.put_amount(line, at::PENSION, factors.deduct as u64 * times);
    block.put_amount(line, at::MODIFICATION, factors.pension as u64 * times);
}

fn put_amounts_by_age(random: &mut Random, block: &mut Block) {
    let line = at::LINES[0];
    let factor = block.revaluation();
    for field in at::BENEFITS {
        if block.takes(field) {
            block.put_amount(line, field, amount(random, factor));
        }
    }
    let (pension, lump) = (block.revalued_pension(line), block.revalued_lump(line));
    block.put_amount(line, at::SCHEME_PAYS, scheme_pays(random, pension));
    if block.takes(at::SCHEME_PAYS_LUMP) {
        block.put_amount(line, at::SCHEME_PAYS_LUMP, scheme_pays(random, lump));
    }
}

/// A block of kind 1 or 3.
fn acceptable_by_age(model: &Model, random: &mut Random, kind: u64) -> Block {
    let mut block = common(random, kind);
    put_dates_by_age(random, &mut block);
    put_amounts_by_age(random, &mut block);
    put_modification(model, random, &mut block);
    match random.below(24) {
        0 => put_survivor_at_edge(model, random, &mut block),
        1 => put_total_near_zero(model, random, &mut block, false),
        2 => put_total_zero(model, random, &mut block),
        _ => {}
    }
    put_divorce_debits(model, random, &mut block);
    block
}

/// The latest birth whose 65th birthday is not after this day.
pub fn latest_birth(line_1: i64) -> i64 {
    let d = date_of(line_1);
    // From a day later: two days may have one birthday, 28 February of a common year.
    let mut birth = day_number(date(d.year - 65, d.month, d.day)) + 1;
    while moved_on(date_of(birth), 65) > line_1 {
        birth -= 1;
    }
    birth
}

fn put_dates_kind_2(random: &mut Random, block: &mut Block) {
    let years = random.at_edges(1, 50);
    let guarantee = some_birth(random, 1966 - years, 2199 - years);
    block.put_date(at::GUARANTEE, guarantee);
    let after = day_number(guarantee) + 1;
    let line_1 = random.at_edges(moved_on(guarantee, years - 1) + 1, moved_on(guarantee, years));
    block.put_day(at::BIRTH, random.at_edges(first_day(), latest_birth(line_1)));
    put_leaving(random, block);
    let others = if line_1 > after { random.below(4) } else { 0 };
    let mut days = vec![line_1];
    for _ in 0..others {
        let anniversary = moved_on(guarantee, random.between(1, years));
        let day = match random.below(5) {
            0 => anniversary,
            1 => anniversary + 1,
            2 => random.pick(&days) - 1,
            _ => random.at_edges(after, line_1 - 1),
        };
        days.push(day.clamp(after, line_1 - 1));
    }
    // From the latest to the earliest, no two alike.
    days.sort_by(|day, other| other.cmp(day));
    days.dedup();
    block.put(at::COUNT, 1, days.len() as u64);
    for (start, &day) in at::LINES.iter().zip(&days) {
        block.put_day(start + at::DATE, day);
    }
}

/// The transfer flag with an underpin around the gross value, or contributions with no flag.
fn put_underpin(model: &Model, random: &mut Random, block: &mut Block) {
    let factor = block.revaluation();
    block.put(at::CONTRIBUTIONS, 8, amount(random, factor));
    if random.one_in(3) {
        return;
    }
    block.set_flag(TRANSFERRED_IN, true);
    block.put(at::TRANSFER_IN, 8, amount(random, factor));
    let gross = model.value(&case_of(&block.0)).unwrap().gross as i64;
    if gross < AMOUNT_LIMIT && random.one_in(2) {
        let underpin = (gross + random.between(-1, 1)).max(0);
        let transfer_in = random.at_edges(0, underpin);
        block.put(at::TRANSFER_IN, 8, transfer_in as u64);
        block.put(at::CONTRIBUTIONS, 8, (underpin - transfer_in) as u64);
    }
}

fn acceptable_kind_2(model: &Model, random: &mut Random) -> Block {
    let mut block = common(random, 2);
    put_dates_kind_2(random, &mut block);
    let factor = block.revaluation();
    // Small pensions on some blocks, so that an underpin can be the larger.
    let most = if random.one_in(3) { 100_000 } else { LARGEST_AMOUNT };
    let first = at::LINES[0];
    for &start in &at::LINES[..block.count()] {
        block.put_amount(start, at::PENSION, amount(random, factor).min(most));
        block.put_amount(start, at::SURVIVOR, amount(random, factor).min(most));
        if start == first {
            block.put_amount(start, at::ADDITIONAL, amount(random, factor).min(most));
            block.put_amount(start, at::DEPENDANT, amount(random, factor).min(most));
        }
        let pension = block.revalued_pension(start);
        block.put_amount(start, at::SCHEME_PAYS, scheme_pays(random, pension));
    }
    if random.one_in(24) {
        put_survivor_at_edge(model, random, &mut block);
    }
    put_divorce_debits(model, random, &mut block);
    put_underpin(model, random, &mut block);
    block
}

/// A block of this kind that is to be paid. The check is not written yet.
pub fn acceptable_of(model: &Model, random: &mut Random, kind: u64) -> Block {
    if kind == 2 {
        acceptable_kind_2(model, random)
    } else {
        acceptable_by_age(model, random, kind)
    }
}

/// The same of any kind, each as often as the others.
pub fn acceptable(model: &Model, random: &mut Random) -> Block {
    let kind = random.pick(&[1, 2, 3]);
    acceptable_of(model, random, kind)
}

/// Puts a block that is to be paid in place of one that is not of one of these kinds.
pub fn make_of_kind(model: &Model, random: &mut Random, block: &mut Block, kinds: &[u64]) {
    if !kinds.contains(&block.kind()) {
        let kind = random.pick(kinds);
        *block = acceptable_of(model, random, kind);
    }
}
