//! One trial: the bytes handed over, the place and the length of the buffer lent, drawn from seed and index.

use crate::breaking::*;
use crate::generator::*;
use crate::library::LARGEST_BUFFER;
use crate::model::*;
use crate::random::Random;

pub const LONGEST_BLOCK: usize = 600;

pub const SORTS: [&str; 9] = [
    "acceptable",
    "one rule broken",
    "two rules broken",
    "damaged, check kept",
    "damaged, check repaired",
    "fields redrawn",
    "random bytes",
    "random bytes, right check",
    "lengths 0 to 600",
];

pub struct Trial {
    pub sort: usize,
    pub bytes: [u8; LONGEST_BLOCK],
    pub length: usize,
    pub place: u32,
    pub out_len: usize,
    /// What the trial was drawn for: a payment, a refusal, or anything.
    pub meant: Option<Result<(), Refusal>>,
}

impl Trial {
    pub fn block(&self) -> &[u8] {
        &self.bytes[..self.length]
    }

    fn of(sort: usize, block: &Block, meant: Option<Result<(), Refusal>>) -> Trial {
        let mut bytes = [0; LONGEST_BLOCK];
        bytes[..BLOCK_LENGTH].copy_from_slice(&block.0);
        Trial { sort, bytes, length: BLOCK_LENGTH, place: 1, out_len: LEAST_BUFFER, meant }
    }
}

pub fn draw(model: &Model, seed: u64, index: u64) -> Trial {
    let random = &mut Random::new(seed, 1, index);
    let mut trial = match random.below(100) {
        0..=39 => {
            let mut block = acceptable(model, random);
            block.seal();
            Trial::of(0, &block, Some(Ok(())))
        }
        40..=59 => broken(model, random, 1),
        60..=77 => broken(model, random, 2),
        78..=85 => damaged(model, random),
        86..=91 => fields_redrawn(model, random),
        92..=95 => random_bytes(random),
        _ => other_length(model, random),
    };
    trial.place = if random.one_in(4) {
        random.pick(&[0, 1, 9, 10, 1_000_000, u32::MAX - 1, u32::MAX])
    } else {
        random.next() as u32 >> random.below(32)
    };
    if trial.meant != Some(Err(15)) {
        trial.out_len = random.at_edges(LEAST_BUFFER as i64, LARGEST_BUFFER as i64) as usize;
    }
    trial
}

/// Refusals that no change of a field brings about: length, check and buffer.
const OUTSIDE_FIELDS: [Refusal; 3] = [1, 2, 15];

fn broken(model: &Model, random: &mut Random, rules: usize) -> Trial {
    let total = BREAKS.len() + OUTSIDE_FIELDS.len();
    let mut chosen: Vec<usize> = (0..rules).map(|_| random.below(total as u64) as usize).collect();
    chosen.sort();
    let mut block = acceptable(model, random);
    let in_fields = chosen.iter().rev().filter_map(|&i| BREAKS.get(i));
    let mut meant = None;
    for (refusal, _, change) in in_fields {
        change(model, random, &mut block);
        meant = Some(Err(*refusal));
    }
    block.seal();
    let mut trial = Trial::of(rules, &block, meant);
    for refusal in [2, 1, 15] {
        if chosen.iter().any(|&i| i >= BREAKS.len() && OUTSIDE_FIELDS[i - BREAKS.len()] == refusal) {
            break_outside_fields(random, &mut trial, refusal);
            trial.meant = Some(Err(refusal));
        }
    }
    trial
}

fn break_outside_fields(random: &mut Random, trial: &mut Trial, refusal: Refusal) {
    match refusal {
        1 => {
            let shorter = random.below(BLOCK_LENGTH as u64) as usize;
            let longer = random.between(BLOCK_LENGTH as i64 + 1, LONGEST_BLOCK as i64) as usize;
            trial.length = random.pick(&[0, 1, 511, 513, shorter, longer]);
        }
        2 => {
            let check = number_at(&trial.bytes, at::CHECK, 4);
            let wrong = match random.below(3) {
                0 => check ^ 1 << random.below(32),
                1 => {
                    if check == 0 {
                        1
                    } else {
                        check - 1
                    }
                }
                _ => check + 1,
            };
            trial.bytes[at::CHECK..BLOCK_LENGTH].copy_from_slice(&wrong.to_le_bytes()[..4]);
        }
        _ => trial.out_len = random.at_edges(0, LEAST_BUFFER as i64 - 1) as usize,
    }
}

fn damaged(model: &Model, random: &mut Random) -> Trial {
    let mut block = acceptable(model, random);
    block.seal();
    for _ in 0..random.between(1, 4) {
        let offset = random.below(BLOCK_LENGTH as u64) as usize;
        let other = random.below(BLOCK_LENGTH as u64) as usize;
        match random.below(3) {
            0 => block.0[offset] ^= 1 << random.below(8),
            1 => block.0[offset] = random.next() as u8,
            _ => block.0.swap(offset, other),
        }
    }
    let repaired = random.one_in(2);
    if repaired {
        block.seal();
    }
    Trial::of(if repaired { 4 } else { 3 }, &block, None)
}

/// A date some years from another of the block's, give or take a day.
fn related_date(random: &mut Random, block: &Block) -> Date {
    if random.one_in(8) {
        return unreal_date(random);
    }
    let from = random.pick(&[at::BIRTH, at::LEAVING, at::GUARANTEE, at::LINES[0]]);
    let any = random.between(-70, 70);
    let years = random.pick(&[0, 18, 22, 50, 60, 65, -18, -22, -50, -60, -65, any]);
    let day = moved_on(block.get_date(from), years) + random.between(-1, 1);
    date_of(day.clamp(first_day() - 1, last_day() + 1))
}

/// One to six fields drawn again with no regard to the rules.
fn fields_redrawn(model: &Model, random: &mut Random) -> Trial {
    let mut block = acceptable(model, random);
    for _ in 0..random.between(1, 6) {
        let line = block.some_line(random);
        match random.below(11) {
            0 => block.put(at::KIND, 2, random.pick(&[1, 2, 3, 4])),
            1 => block.put(at::COUNT, 1, random.below(6)),
            2 => block.put(at::FLAGS, 1, random.below(9)),
            3 => block.put(at::STATUS + random.below(2) as usize, 1, random.below(6)),
            4 => block.put(at::SERVICE, 2, random.below(5)),
            5 => block.put(at::REVALUATION, 4, random.pick(&[9_999, 10_000, 20_000, 100_000, 100_001])),
            6 => {
                let field = random.pick(&[at::BIRTH, at::LEAVING, at::GUARANTEE, at::STATE_PENSION]);
                let day = related_date(random, &block);
                block.put_date(field, day);
            }
            7 => {
                let day = related_date(random, &block);
                block.put_date(line + at::DATE, day);
            }
            8 => block.put(at::SEX, 1, random.below(4)),
            _ => {
                let amount = random.pick(&[0, 1, 99, LARGEST_AMOUNT, LARGEST_AMOUNT + 1, 123_456]);
                block.put_amount(line, random.pick(&at::AMOUNTS), amount);
            }
        }
    }
    block.seal();
    Trial::of(5, &block, None)
}

fn random_bytes(random: &mut Random) -> Trial {
    let mut block = Block::zeros();
    for chunk in block.0.chunks_mut(8) {
        chunk.copy_from_slice(&random.next().to_le_bytes());
    }
    if random.one_in(2) {
        return Trial::of(6, &block, None);
    }
    if random.one_in(2) {
        block.put(at::KIND, 2, random.between(1, 3) as u64);
        block.put(at::COUNT, 1, random.between(1, 4) as u64);
    }
    block.seal();
    Trial::of(7, &block, None)
}

fn other_length(model: &Model, random: &mut Random) -> Trial {
    let mut block = acceptable(model, random);
    block.seal();
    let length = random.below(LONGEST_BLOCK as u64 + 1) as usize;
    let meant = if length == BLOCK_LENGTH { Ok(()) } else { Err(1) };
    let mut trial = Trial::of(8, &block, Some(meant));
    for byte in &mut trial.bytes[BLOCK_LENGTH..] {
        *byte = random.next() as u8;
    }
    trial.length = length;
    trial
}
