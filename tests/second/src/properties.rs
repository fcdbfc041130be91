//! Properties of the library as it is built: demand 3 on pairs of cases, the lines of a case in every order, the lent buffer,
//! the place and the lengths.

use crate::divorce::most_within;
use crate::exact::Nearness;
use crate::generator::*;
use crate::library::*;
use crate::model::*;
use crate::random::Random;
use crate::trial::LONGEST_BLOCK;
use crate::{hex, show_difference, LEAST_REACHED};
use std::collections::BTreeMap;

/// What a line of the library says was paid, in pence, and its items, in hundredths of a penny.
pub struct Paid {
    paid: i128,
    items: [i128; 4],
    underpin: i128,
    avc: i128,
}

fn money(word: &str, decimals: usize) -> Option<i128> {
    let (whole, rest) = word.split_once('.')?;
    if rest.len() != decimals {
        return None;
    }
    format!("{whole}{rest}").parse().ok()
}

/// Reads a line, word by word; no other line than a payment is read.
pub fn parse(line: &str) -> Option<Paid> {
    let words: Vec<&str> = line.strip_suffix('\n')?.split(' ').collect();
    let names: Vec<&str> = words.get(2..)?.iter().step_by(2).copied().collect();
    if names != ["pay", "pension", "lump", "survivor", "deduct", "underpin", "avc"] {
        return None;
    }
    let word = |i: usize| words.get(3 + 2 * i).copied().unwrap_or("");
    Some(Paid {
        paid: money(word(0), 2)?,
        items: [money(word(1), 4)?, money(word(2), 4)?, money(word(3), 4)?, money(word(4), 4)?],
        underpin: money(word(5), 2)?,
        avc: money(word(6), 2)?,
    })
}

impl Paid {
    /// The first value, which the printed items add up to.
    fn first_value(&self) -> i128 {
        let [pension, lump, survivor, deduct] = self.items;
        (pension + lump + survivor - deduct + 50).div_euclid(100)
    }

    /// Whether steps 5 and 6 make the payment of the gross value: the first value less this debit value.
    fn follows(&self, debit_value: i128) -> bool {
        self.paid == (self.first_value() - debit_value).max(self.underpin) + self.avc
    }

    /// The gross value, where the underpin is 0.
    pub fn gross_without_underpin(&self) -> Option<i128> {
        (self.underpin == 0).then_some(self.paid - self.avc)
    }
}

pub fn line_of(lent: &mut Lent, block: &Block) -> String {
    let left = lent.call(&block.0, 1, LEAST_BUFFER, 0);
    String::from_utf8_lossy(&left.buffer[..left.length.min(LEAST_BUFFER)]).into_owned()
}

/// The entry that is made larger, and by how much it can be.
struct Entry {
    field: usize,
    start: usize,
    most: i128,
}

/// The largest a Scheme Pays debit or a modification can be before the case is refused for it.
fn largest_reduction(model: &Model, block: &Block, start: usize, field: usize) -> Option<i128> {
    let case = case_of(&block.0);
    let sums = model.value(&case).ok()?;
    let factors = model.factors(&case, &case.lines[at::place(start)])?;
    // The first value may fall to the debit value: half a penny under it rounds up to it.
    let left = signed_total(&sums) - (100 * debit_value(&sums) - 50).max(0);
    let now = block.amount(start, field) as i128;
    Some(match field {
        at::SCHEME_PAYS => block.revalued_pension(start).min(now + left / factors.pension),
        at::SCHEME_PAYS_LUMP => block.revalued_lump(start).min(now + left / factors.lump),
        _ => now + left / factors.deduct,
    })
}

/// The largest a divorce debit can be before the debit value is above the first value.
fn largest_divorce_debit(model: &Model, block: &Block, start: usize, field: usize) -> Option<i128> {
    let case = case_of(&block.0);
    let sums = model.value(&case).ok()?;
    let factor = factor_of(&model.factors(&case, &case.lines[at::place(start)])?, field);
    let own = revalued(block.amount(start, field), case.revaluation) * factor;
    let left = 100 * first_value(&sums) + 49 - (sums.debit_total - own);
    Some(most_within(left, factor, case.revaluation) as i128)
}

/// The factor of a benefit, or of the divorce debit that reduces it.
fn factor_of(factors: &Factors, field: usize) -> i128 {
    match field {
        at::PENSION | at::ADDITIONAL | at::DEBIT_PENSION => factors.pension,
        at::LUMP | at::DEBIT_LUMP => factors.lump,
        _ => factors.survivor,
    }
}

fn draw_entry(model: &Model, random: &mut Random, block: &Block, fields: &[usize]) -> Option<Entry> {
    let field = random.pick(fields);
    if !block.takes(field) {
        return None;
    }
    let start = if at::ONLY_LINE_1.contains(&field) { at::LINES[0] } else { block.some_line(random) };
    let limit = if at::BENEFITS.contains(&field) {
        LARGEST_AMOUNT as i128
    } else if at::DIVORCE.contains(&field) {
        largest_divorce_debit(model, block, start, field)?
    } else {
        largest_reduction(model, block, start, field)?
    };
    let most = limit.min(LARGEST_AMOUNT as i128) - block.amount(start, field) as i128;
    (most > 0).then_some(Entry { field, start, most })
}

/// Two accepted cases that differ in one entry, the second's the larger.
fn draw_pair(model: &Model, random: &mut Random, fields: &[usize]) -> (Block, Block, Entry, i128) {
    loop {
        let mut smaller = acceptable(model, random);
        let entry = match draw_entry(model, random, &smaller, fields) {
            Some(entry) => entry,
            None => continue,
        };
        let extra = match random.below(4) {
            0 => 1,
            1 => random.between(1, entry.most.min(200) as i64),
            2 => entry.most as i64,
            _ => random.between(1, entry.most as i64),
        };
        let mut larger = smaller.clone();
        larger.put_amount(entry.start, entry.field, smaller.amount(entry.start, entry.field) + extra as u64);
        smaller.seal();
        larger.seal();
        return (smaller, larger, entry, extra as i128);
    }
}

/// Whether the gross values differ by extra times revaluation times factor, to within the factor and a penny.
fn close(model: &Model, smaller: &Block, entry: &Entry, extra: i128, difference: i128) -> bool {
    let case = case_of(&smaller.0);
    let factor = factor_of(&model.factors(&case, &case.lines[at::place(entry.start)]).unwrap(), entry.field);
    let exact = extra * case.revaluation as i128 * factor;
    (difference * 1_000_000 - exact).abs() <= (factor + 100) * 10_000
}

/// A pair's kind and entry, and whether the larger has a debit value.
struct Tried {
    kind: u64,
    entry: Entry,
    divorced: bool,
}

/// Tries a pair that differs in one of these fields.
fn try_pair(
    model: &Model,
    random: &mut Random,
    lent: &mut Lent,
    fields: &[usize],
    nearness: &mut Nearness,
) -> Result<Tried, String> {
    let (smaller, larger, entry, extra) = draw_pair(model, random, fields);
    let lines = [line_of(lent, &smaller), line_of(lent, &larger)];
    let failed = |what: &str| {
        println!("the smaller: {}\nthe larger: {}", hex(&smaller.0), hex(&larger.0));
        println!("{}{}", lines[0], lines[1]);
        Err(format!("{what}: field {} of the line at {}, {extra} more", entry.field, entry.start))
    };
    let (before, after) = match (parse(&lines[0]), parse(&lines[1])) {
        (Some(before), Some(after)) => (before, after),
        _ => return failed("one of a pair of accepted cases is not paid"),
    };
    let sums = [&smaller, &larger].map(|block| model.value(&case_of(&block.0)).unwrap());
    if [before.first_value(), after.first_value()] != sums.map(|sums| first_value(&sums)) {
        return failed("the printed items do not add up to the first value");
    }
    if !before.follows(debit_value(&sums[0])) || !after.follows(debit_value(&sums[1])) {
        return failed("steps 5 and 6 do not give the payment");
    }
    let gross = sums.map(|sums| sums.gross);
    for (block, gross) in [&smaller, &larger].into_iter().zip(gross) {
        nearness.check(model, &case_of(&block.0), gross)?;
    }
    let benefit = at::BENEFITS.contains(&entry.field);
    if benefit && after.paid < before.paid {
        return failed("paid less for a larger benefit");
    }
    if benefit && !close(model, &smaller, &entry, extra, gross[1] - gross[0]) {
        return failed("the gross value is not close to the exact product");
    }
    if !benefit && after.paid > before.paid {
        return failed("paid more for a larger reduction");
    }
    Ok(Tried { kind: smaller.kind(), entry, divorced: debit_value(&sums[1]) > 0 })
}

/// Every order of so many things; the first is the one in which they stand.
fn orders(count: usize) -> Vec<Vec<usize>> {
    if count == 0 {
        return vec![vec![]];
    }
    let last = count - 1;
    let with_last_at = |place: usize| {
        orders(last).into_iter().map(move |mut order| {
            order.insert(place, last);
            order
        })
    };
    (0..count).rev().flat_map(with_last_at).collect()
}

/// An accepted case of kind 2 with more than one line, each of which can stand in any place and can be a case's only line.
fn draw_lines(model: &Model, random: &mut Random) -> Block {
    loop {
        let mut block = acceptable_of(model, random, 2);
        let line_1 = at::LINES[0];
        for field in at::ONLY_LINE_1 {
            block.put_amount(line_1, field, 0);
        }
        let most = block.revalued_pension(line_1).min(LARGEST_AMOUNT as i128) as u64;
        block.put_amount(line_1, at::SCHEME_PAYS, block.amount(line_1, at::SCHEME_PAYS).min(most));
        let days = at::LINES[..block.count()].iter().map(|start| block.day(start + at::DATE));
        if block.count() < 2 || days.min().map_or(true, |day| latest_birth(day) < first_day()) {
            continue;
        }
        // With less on line 1, or alone, a line's divorce debits may be worth more than it is.
        let paid = |block: &Block| model.value(&case_of(&block.0)).is_ok();
        if paid(&block) && (0..block.count()).all(|place| paid(&with_line_alone(&block, place))) {
            block.seal();
            return block;
        }
    }
}

/// The block with its lines, and their divorce debits, in this order.
fn in_order(block: &Block, order: &[usize]) -> Block {
    let mut moved = block.clone();
    for (place, &from) in order.iter().enumerate() {
        for (starts, length) in [(at::LINES, at::LINE_LENGTH), (at::GROUPS, at::GROUP_LENGTH)] {
            let part = &block.0[starts[from]..starts[from] + length];
            moved.0[starts[place]..starts[place] + length].copy_from_slice(part);
        }
    }
    moved.seal();
    moved
}

/// The block with one of its lines alone, of a member born early enough for it to be line 1.
fn with_line_alone(block: &Block, place: usize) -> Block {
    let mut alone = in_order(block, &[place]);
    alone.keep_line_1_alone();
    let latest = latest_birth(alone.day(at::LINES[0] + at::DATE));
    alone.put_day(at::BIRTH, latest.min(alone.day(at::BIRTH)));
    alone.seal();
    alone
}

/// The lines of an accepted case in every order. In its own the case is paid, and its items are the sums of those that the library
/// gives for each line alone. In any other it is refused: with 6 where line 1 is not first, since it is then not before the first,
/// else with 17. The second calculator's items and divorce debits, summed line by line, are the same in every order.
fn try_orders(model: &Model, random: &mut Random, lent: &mut Lent, nearness: &mut Nearness) -> Result<u64, String> {
    let block = draw_lines(model, random);
    let failed = |what: &str, order: &[usize]| format!("{what}: lines {order:?} of {}", hex(&block.0));
    let whole = parse(&line_of(lent, &block)).ok_or_else(|| failed("an accepted case is not paid", &[]))?;
    let sums = model.items(&case_of(&block.0)).unwrap();
    if !whole.follows(debit_value(&sums)) {
        return Err(failed("steps 5 and 6 do not give the payment", &[]));
    }
    nearness.check_block(model, &block.0)?;
    let orders = orders(block.count());
    let mut summed = [0; 4];
    for place in 0..block.count() {
        let alone = with_line_alone(&block, place);
        nearness.check_block(model, &alone.0)?;
        let line = parse(&line_of(lent, &alone)).ok_or_else(|| failed("a line alone is not paid", &[place]))?;
        summed = std::array::from_fn(|item| summed[item] + line.items[item]);
    }
    if summed != whole.items {
        return Err(failed("the items are not those of the lines alone", &[]));
    }
    for order in &orders {
        let moved = in_order(&block, order);
        let items = model.items(&case_of(&moved.0)).unwrap();
        if [items.pension, items.lump, items.survivor, items.deduct] != whole.items {
            return Err(failed("the items are not the same in another order", order));
        }
        if items.debit_total != sums.debit_total {
            return Err(failed("the divorce debits are not worth the same in another order", order));
        }
        if *order == orders[0] {
            continue;
        }
        let refusal = if order[0] == 0 { 17 } else { 6 };
        let number = block.get(at::NUMBER, 4);
        if line_of(lent, &moved) != form_line(1, number, &Err(refusal)) {
            return Err(failed("another order is not refused with 6 or 17, as it should be", order));
        }
    }
    Ok(orders.len() as u64 - 1)
}

/// Tries a block with a buffer of every length from 0 to 600, and three contents of it.
fn try_buffers(model: &Model, lent: &mut Lent, block: &[u8], place: u32) -> Result<u64, String> {
    let (number, answer) = model.answer(block);
    let line = form_line(place, number, &answer);
    for out_len in 0..=LARGEST_BUFFER {
        let wanted = if out_len < LEAST_BUFFER { "" } else { &line };
        for fill in [0x00, 0xFF, b' '] {
            let left = lent.call(block, place, out_len, fill);
            if !left.holds(wanted.as_bytes(), fill) {
                show_difference(block, place, out_len, wanted.as_bytes(), &left);
                return Err(format!("the buffer of {out_len} bytes is not left as it should be"));
            }
        }
    }
    Ok(3 * (LARGEST_BUFFER as u64 + 1))
}

/// Tries the same block at many places: nothing but the place changes.
fn try_places(random: &mut Random, lent: &mut Lent, block: &Block) -> Result<u64, String> {
    let mut places = vec![0, 1, u32::MAX, 0x8000_0000, random.next() as u32];
    places.extend((1..10).flat_map(|digits| [10u32.pow(digits) - 1, 10u32.pow(digits)]));
    let at_7 = {
        let left = lent.call(&block.0, 7, LEAST_BUFFER, 1);
        left.buffer.get(1..left.length).ok_or("no line at place 7")?.to_vec()
    };
    for &place in &places {
        let left = lent.call(&block.0, place, LEAST_BUFFER, 1);
        let wanted = [place.to_string().as_bytes(), &at_7].concat();
        if !left.holds(&wanted, 1) {
            show_difference(&block.0, place, LEAST_BUFFER, &wanted, &left);
            return Err(format!("at place {place} more than the place is different"));
        }
    }
    Ok(places.len() as u64)
}

/// Tries every length from 0 to 600 of these bytes: all but 512 are refused for it.
fn try_lengths(model: &Model, lent: &mut Lent, bytes: &[u8]) -> Result<u64, String> {
    for length in 0..=LONGEST_BLOCK {
        let block = &bytes[..length];
        let line = if length == BLOCK_LENGTH {
            let (number, answer) = model.answer(block);
            form_line(5, number, &answer)
        } else {
            "5 0 refused 1 length\n".into()
        };
        let left = lent.call(block, 5, LEAST_BUFFER, 9);
        if !left.holds(line.as_bytes(), 9) {
            show_difference(block, 5, LEAST_BUFFER, line.as_bytes(), &left);
            return Err(format!("a block of {length} bytes"));
        }
    }
    Ok(LONGEST_BLOCK as u64 + 1)
}

fn try_blocks(model: &Model, rounds: u64, seed: u64, nearness: &mut Nearness) -> Result<[u64; 3], String> {
    let (random, lent) = (&mut Random::new(seed, 3, 0), &mut Lent::new());
    let mut tried = [0; 3];
    for round in 0..rounds {
        let mut block = acceptable(model, random);
        if round % 4 == 3 {
            let (_, _, change) = random.pick(crate::breaking::BREAKS);
            change(model, random, &mut block);
        }
        block.seal();
        nearness.check_block(model, &block.0)?;
        let mut longer = block.0.to_vec();
        longer.extend((BLOCK_LENGTH..LONGEST_BLOCK).map(|_| random.next() as u8));
        tried[0] += try_buffers(model, lent, &block.0, random.next() as u32)?;
        tried[1] += try_places(random, lent, &block)?;
        tried[2] += try_lengths(model, lent, &longer)?;
    }
    Ok(tried)
}

/// How many pairs have divorce debits and are of each kind, and how often the entry that was drawn least was drawn.
struct Pairs {
    divorced: u64,
    of_kind: [u64; KINDS.len()],
    least_drawn: u64,
}

/// How many entries a case of this kind may have in these fields: one to a line in a field that every line may have, else one.
fn entries_of(kind: u64, fields: &[usize]) -> u64 {
    // In kind 3 a Choice Optant may have them all.
    let absent = absent_amounts(kind, CHOICE_OPTANT);
    let taken = fields.iter().filter(|field| !absent.contains(field));
    taken.map(|field| if at::ONLY_LINE_1.contains(field) { 1 } else { most_lines(kind) }).sum()
}

/// Tries so many pairs that differ in one of these fields. Each entry that a case of each kind may have there must be drawn as
/// often as each rule must be reached.
fn try_pairs(
    model: &Model,
    pairs: u64,
    seed: u64,
    stream: u64,
    fields: &[usize],
    nearness: &mut Nearness,
) -> Result<Pairs, String> {
    let lent = &mut Lent::new();
    let mut drawn: BTreeMap<(u64, usize, usize), u64> = BTreeMap::new();
    let mut divorced = 0;
    for index in 0..pairs {
        let random = &mut Random::new(seed, stream, index);
        let tried = try_pair(model, random, lent, fields, nearness);
        let tried = tried.map_err(|e| format!("{e}; seed {seed}, pair {index}"))?;
        *drawn.entry((tried.kind, tried.entry.start, tried.entry.field)).or_insert(0) += 1;
        divorced += tried.divorced as u64;
    }
    let entries: u64 = KINDS.iter().map(|&kind| entries_of(kind, fields)).sum();
    let (found, least_drawn) = (drawn.len() as u64, *drawn.values().min().unwrap());
    if found != entries || least_drawn < LEAST_REACHED {
        return Err(format!("{found} of {entries} entries drawn, one of them {least_drawn} times; seed {seed}"));
    }
    let of = |kind| drawn.iter().filter(|(entry, _)| entry.0 == kind).map(|(_, n)| n).sum();
    Ok(Pairs { divorced, of_kind: KINDS.map(of), least_drawn })
}

fn try_orders_of_many(model: &Model, cases: u64, seed: u64, nearness: &mut Nearness) -> Result<u64, String> {
    let lent = &mut Lent::new();
    (0..cases).try_fold(0, |tried, index| {
        let random = &mut Random::new(seed, 4, index);
        let more = try_orders(model, random, lent, nearness);
        let more = more.map_err(|e| format!("{e}; seed {seed}, order {index}"))?;
        Ok(tried + more)
    })
}

/// Every property, with how often it was tried. Of each accepted case that is drawn, the distance from its exact value is checked.
pub fn try_all(
    model: &Model,
    blocks: u64,
    seed: u64,
    nearness: &mut Nearness,
) -> Result<Vec<(&'static str, u64)>, String> {
    let pairs = (blocks / 8).max(1_000);
    let mut tried = Vec::new();
    for (name, stream, fields) in [
        ("pairs, larger benefit", 2, &at::BENEFITS[..]),
        ("pairs, larger reduction", 5, &at::REDUCTIONS[..]),
        ("pairs, larger divorce debit", 6, &at::DIVORCE[..]),
    ] {
        let Pairs { divorced, of_kind, least_drawn } = try_pairs(model, pairs, seed, stream, fields, nearness)?;
        tried.extend([(name, pairs), ("  with divorce debits", divorced)]);
        tried.extend(["  of kind 1", "  of kind 2", "  of kind 3"].into_iter().zip(of_kind));
        tried.push(("  of each entry, at least", least_drawn));
    }
    tried.push(("lines in another order", try_orders_of_many(model, (blocks / 50).max(1_000), seed, nearness)?));
    let rounds = (blocks / 5_000).clamp(20, 1_000);
    let [buffers, places, lengths] =
        try_blocks(model, rounds, seed, nearness).map_err(|e| format!("{e}, seed {seed}"))?;
    tried.extend([("buffers of 0 to 600 bytes", buffers), ("places", places), ("blocks of 0 to 600 bytes", lengths)]);
    Ok(tried)
}
