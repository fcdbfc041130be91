//! Divorce debits to put into a block: of every sort, and worth as much as is asked of them.

use crate::generator::{amount, Block};
use crate::model::*;
use crate::random::Random;

/// A divorce debit that the block's kind, flags and count allow, with the factor on its line.
#[derive(Clone, Copy)]
struct Debit {
    start: usize,
    field: usize,
    factor: i128,
}

fn debits_of(model: &Model, block: &Block) -> Vec<Debit> {
    let case = case_of(&block.0);
    let mut debits = Vec::new();
    for (&start, line) in at::LINES.iter().zip(case.used()) {
        let factors = model.factors(&case, line).unwrap();
        debits.push(Debit { start, field: at::DEBIT_PENSION, factor: factors.pension });
        debits.push(Debit { start, field: at::DEBIT_SURVIVOR, factor: factors.survivor });
        if block.takes(at::DEBIT_LUMP) {
            debits.push(Debit { start, field: at::DEBIT_LUMP, factor: factors.lump });
        }
    }
    debits
}

/// One alone, those of one benefit, those of one line, or any of them.
fn some_debits(random: &mut Random, all: &[Debit]) -> Vec<Debit> {
    let one = random.pick(all);
    let sort = random.below(5);
    let chosen = |debit: &Debit, random: &mut Random| match sort {
        0 => (debit.start, debit.field) == (one.start, one.field),
        1 => debit.field == one.field,
        2 => debit.start == one.start,
        3 => (debit.start, debit.field) == (one.start, one.field) || random.one_in(2),
        _ => true,
    };
    all.iter().copied().filter(|debit| chosen(debit, random)).collect()
}

/// The first value, 0 where the total is below zero.
fn first_value_of(model: &Model, block: &Block) -> i128 {
    first_value(&model.items(&case_of(&block.0)).unwrap()).max(0)
}

/// The most hundredths of a penny that are still worth so many pence, halves going up.
fn most_hundredths(pence: i128) -> i128 {
    100 * pence + 49
}

/// The largest amount that is worth no more than so many hundredths of a penny.
pub fn most_within(hundredths: i128, factor: i128, revaluation: u64) -> u64 {
    let revalued_pence = hundredths / factor;
    let most = (10_000 * revalued_pence + 4_999) / revaluation as i128;
    most.min(LARGEST_AMOUNT as i128) as u64
}

/// An amount up to the most. One that is too large keeps the part that decides its rounding where it can.
fn amount_within(random: &mut Random, revaluation: u64, most: u64) -> u64 {
    let drawn = amount(random, revaluation);
    if drawn <= most {
        drawn
    } else if drawn % 10_000 <= most && random.one_in(2) {
        drawn % 10_000
    } else {
        random.at_edges(0, most as i64) as u64
    }
}

/// Draws these debits, worth no more than so many hundredths of a penny together. Returns what is left of those.
fn put_within(random: &mut Random, block: &mut Block, debits: &[Debit], hundredths: i128) -> i128 {
    let revaluation = block.revaluation();
    debits.iter().fold(hundredths, |left, debit| {
        let most = most_within(left, debit.factor, revaluation);
        let amount = amount_within(random, revaluation, most);
        block.put_amount(debit.start, debit.field, amount);
        left - revalued(amount, revaluation) * debit.factor
    })
}

/// Debits worth exactly so many pence, the last of them making up what the others leave; where none are found, debits worth less.
fn put_worth(model: &Model, random: &mut Random, block: &mut Block, pence: i128) -> bool {
    let all = debits_of(model, block);
    let revaluation = block.revaluation();
    (0..64).any(|_| {
        block.clear_divorce_debits();
        let debits = some_debits(random, &all);
        let (last, others) = debits.split_last().unwrap();
        let left = put_within(random, block, others, most_hundredths(pence));
        let amount = most_within(left, last.factor, revaluation);
        block.put_amount(last.start, last.field, amount);
        left - revalued(amount, revaluation) * last.factor < 100
    })
}

/// Debits whose hundredths of a penny lie at an edge of the rounding, where a debit survivor's pension brings them there.
fn put_at_rounding_edge(model: &Model, random: &mut Random, block: &mut Block, first_value: i128) {
    let all = debits_of(model, block);
    let (survivors, others): (Vec<Debit>, Vec<Debit>) =
        all.into_iter().partition(|debit| debit.field == at::DEBIT_SURVIVOR);
    let most = most_hundredths(first_value);
    let debits = some_debits(random, &others);
    let worth = most / 2 - put_within(random, block, &debits, most / 2);
    let debit = random.pick(&survivors);
    let revaluation = block.revaluation();
    let target = random.pick(&[0, 49, 50, 51, 99]);
    let found = (0..200).find(|&amount| {
        let with = worth + revalued(amount, revaluation) * debit.factor;
        with <= most && with % 100 == target
    });
    block.put_amount(debit.start, debit.field, found.unwrap_or(0));
}

/// The benefit that a divorce debit reduces.
fn benefit_of(field: usize) -> usize {
    match field {
        at::DEBIT_PENSION => at::PENSION,
        at::DEBIT_SURVIVOR => at::SURVIVOR,
        _ => at::LUMP,
    }
}

fn clear(block: &mut Block, start: usize, fields: &[usize]) {
    for &field in fields {
        block.put_amount(start, field, 0);
    }
}

/// Debits that are the benefits themselves, with nothing else in the first value: the two values are equal.
/// One of the debits may then be a little less.
fn put_whole_benefits(model: &Model, random: &mut Random, block: &mut Block) {
    let all = debits_of(model, block);
    for debit in &all {
        clear(block, debit.start, &at::ONLY_LINE_1);
        clear(block, debit.start, &at::REDUCTIONS);
        let benefit = block.amount(debit.start, benefit_of(debit.field));
        block.put_amount(debit.start, debit.field, benefit);
    }
    let less = random.pick(&all);
    let whole = block.amount(less.start, less.field);
    block.put_amount(less.start, less.field, whole.saturating_sub(random.below(3)));
}

/// The largest debit that is in range, of the largest benefit.
fn put_largest(model: &Model, random: &mut Random, block: &mut Block) {
    let debit = random.pick(&debits_of(model, block));
    clear(block, debit.start, &at::REDUCTIONS);
    block.put_amount(debit.start, benefit_of(debit.field), LARGEST_AMOUNT);
    block.put_amount(debit.start, debit.field, LARGEST_AMOUNT - random.below(2));
}

/// Divorce debits worth no more than the first value, or none.
pub fn put_divorce_debits(model: &Model, random: &mut Random, block: &mut Block) {
    let first_value = first_value_of(model, block);
    match random.below(12) {
        0..=4 => {}
        5..=7 => {
            let debits = some_debits(random, &debits_of(model, block));
            let share = if random.one_in(2) { first_value } else { first_value / 2 };
            put_within(random, block, &debits, most_hundredths(share));
        }
        8 => {
            let less = random.below(2) as i128;
            put_worth(model, random, block, (first_value - less).max(0));
        }
        9 => put_at_rounding_edge(model, random, block, first_value),
        10 => put_whole_benefits(model, random, block),
        _ => put_largest(model, random, block),
    }
}

/// Benefits under ten pounds, and nothing taken off them.
pub fn put_small_benefits(random: &mut Random, block: &mut Block) {
    for start in at::LINES.into_iter().take(block.count()) {
        clear(block, start, &at::REDUCTIONS);
        for field in at::BENEFITS {
            let most = block.amount(start, field).min(999);
            block.put_amount(start, field, random.at_edges(0, most as i64) as u64);
        }
    }
}

/// Divorce debits worth more than the first value, which may be 0: by a penny, or by any sum.
pub fn put_award(model: &Model, random: &mut Random, block: &mut Block) {
    block.clear_divorce_debits();
    if random.one_in(8) {
        for start in at::LINES.into_iter().take(block.count()) {
            clear(block, start, &at::BENEFITS);
            clear(block, start, &at::REDUCTIONS);
        }
    }
    let debit = random.pick(&debits_of(model, block));
    let enough = |block: &Block| {
        most_within(most_hundredths(first_value_of(model, block)), debit.factor, block.revaluation()) + 1
    };
    if enough(block) > LARGEST_AMOUNT {
        put_small_benefits(random, block);
    }
    let first_value = first_value_of(model, block);
    if random.one_in(2) && put_worth(model, random, block, first_value + 1) {
        return;
    }
    block.clear_divorce_debits();
    let least = enough(block) as i64;
    block.put_amount(debit.start, debit.field, random.at_edges(least, LARGEST_AMOUNT as i64) as u64);
}
