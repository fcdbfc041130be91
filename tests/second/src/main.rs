//! Compares the proved library with the second calculator, block by block, and tries the stated properties on it.
//!
//!     second BLOCKS SEED FACTORS            compare, try the properties, count the answers reached
//!     second memcheck BLOCKS SEED FACTORS   compare in heap memory of exact size, to be run under valgrind
//!     second cases FOLDER                   write the notes' examples as case files

mod breaking;
mod divorce;
mod exact;
mod examples;
mod figures;
mod generator;
mod library;
mod model;
mod properties;
mod random;
mod rules;
mod section_2008;
mod tables;
mod trial;

use exact::Nearness;
use library::*;
use model::*;
use rules::{Seen, DIVORCE_RULES, RULES};
use section_2008::SECTION_2008_RULES;
use std::collections::BTreeMap;
use std::process::ExitCode;
use std::time::Instant;
use trial::*;

/// Each refusal, each kind's payment, each rule and each entry that pairs differ in must be reached as often as this.
const LEAST_REACHED: u64 = 100;

/// How often each answer, each row of factors and each rule was reached.
#[derive(Default)]
struct Reached {
    sorts: [u64; SORTS.len()],
    /// By number; some numbers have no refusal.
    refusals: [u64; 32],
    paid: [u64; KINDS.len()],
    /// By the table's place and the row's key.
    rows: BTreeMap<(usize, i64), u64>,
    /// In the order of their names.
    rules: Vec<u64>,
    nearness: Nearness,
    longest_line: usize,
}

fn names_of_rules() -> impl Iterator<Item = &'static str> {
    let of_cases = RULES.iter().map(|rule| rule.0);
    of_cases.chain(DIVORCE_RULES.iter().chain(&SECTION_2008_RULES).map(|rule| rule.0))
}

impl Reached {
    fn count_payment(&mut self, model: &Model, block: &[u8]) {
        let case = case_of(block);
        self.paid[case.kind as usize - 1] += 1;
        for line in case.used() {
            *self.rows.entry((table_place(case.kind, case.sex), model.key(&case, line))).or_insert(0) += 1;
        }
    }

    fn count_rules(&mut self, model: &Model, block: &[u8], answer: &Result<Payment, Refusal>) {
        let seen = Seen::of(model, block, answer);
        let of_cases = RULES.iter().map(|(_, stands)| stands(&seen.case, answer));
        let others = DIVORCE_RULES.iter().chain(&SECTION_2008_RULES).map(|(_, stands)| stands(&seen));
        for (n, stands) in self.rules.iter_mut().zip(of_cases.chain(others)) {
            *n += stands as u64;
        }
    }

    /// How often the row of this table that was reached least was reached.
    fn least_of_rows(&self, place: usize) -> u64 {
        let (_, first, last) = TABLES[place];
        (first..=last).map(|key| self.rows.get(&(place, key)).copied().unwrap_or(0)).min().unwrap()
    }

    fn enough(&self) -> bool {
        REFUSALS.iter().all(|(number, _)| self.refusals[*number] >= LEAST_REACHED)
            && self.paid.iter().chain(&self.rules).all(|&n| n >= LEAST_REACHED)
            && (0..TABLES.len()).all(|place| self.least_of_rows(place) > 0)
    }

    fn print(&self) {
        let print = |name: &str, n: u64| println!("  {name:<28}{n:>10}");
        for (name, n) in SORTS.iter().zip(self.sorts) {
            print(name, n);
        }
        println!("answers reached (each at least {LEAST_REACHED} times)");
        for (number, name) in REFUSALS {
            print(&format!("refusal {number:>2} {name}"), self.refusals[number]);
        }
        for (kind, n) in KINDS.iter().zip(self.paid) {
            print(&format!("paid, kind {kind}"), n);
        }
        for (place, (name, _, _)) in TABLES.iter().enumerate() {
            print(&format!("each row of {name}, at least"), self.least_of_rows(place));
        }
        for (name, n) in names_of_rules().zip(&self.rules) {
            print(name, *n);
        }
        print("bytes of the longest line", self.longest_line as u64);
    }
}

fn hex(bytes: &[u8]) -> String {
    bytes.iter().map(|byte| format!("{byte:02x}")).collect()
}

/// What is printed of a difference.
pub fn show_difference(block: &[u8], place: u32, out_len: usize, wanted: &[u8], left: &Left) {
    println!("block of {} bytes: {}", block.len(), hex(block));
    println!("place {place}, buffer of {out_len} bytes");
    println!("second calculator, {} bytes: {}", wanted.len(), String::from_utf8_lossy(wanted).trim_end());
    let start = &left.buffer[..left.length.min(left.buffer.len())];
    println!("library, {} bytes: {}", left.length, String::from_utf8_lossy(start).trim_end());
    if !left.canaries_kept {
        println!("library: bytes outside the buffer were changed");
    }
    println!("library, whole buffer: {}", hex(left.buffer));
}

/// The line that the second calculator forms, empty for refusal 15, with its answer.
fn wanted(model: &Model, block: &[u8], place: u32, out_len: usize) -> (String, Result<Payment, Refusal>) {
    if out_len < LEAST_BUFFER {
        return (String::new(), Err(15));
    }
    let (number, answer) = model.answer(block);
    (form_line(place, number, &answer), answer)
}

fn compare(model: &Model, blocks: u64, seed: u64) -> Result<Reached, String> {
    let mut reached = Reached { rules: vec![0; names_of_rules().count()], ..Reached::default() };
    let mut lent = Lent::new();
    let mut memory = [0; LONGEST_BLOCK + 8];
    for index in 0..blocks {
        let trial = draw(model, seed, index);
        let (line, answer) = wanted(model, trial.block(), trial.place, trial.out_len);
        let fill = index as u8;
        // The block starts at any alignment too.
        let start = index as usize % 8;
        let end = start + trial.length;
        memory[start..end].copy_from_slice(trial.block());
        let left = lent.call(&memory[start..end], trial.place, trial.out_len, fill);
        if !left.holds(line.as_bytes(), fill) || &memory[start..end] != trial.block() {
            show_difference(trial.block(), trial.place, trial.out_len, line.as_bytes(), &left);
            return Err(format!("a difference: seed {seed}, block {index}, {}", SORTS[trial.sort]));
        }
        if trial.meant.map_or(false, |meant| meant != answer.map(|_| ())) {
            show_difference(trial.block(), trial.place, trial.out_len, line.as_bytes(), &left);
            return Err(format!("drawn for {:?}: seed {seed}, block {index}, {}", trial.meant, SORTS[trial.sort]));
        }
        reached.sorts[trial.sort] += 1;
        reached.longest_line = reached.longest_line.max(line.len());
        if trial.length == BLOCK_LENGTH {
            reached.count_rules(model, trial.block(), &answer);
        }
        match answer {
            Ok(_) => reached.count_payment(model, trial.block()),
            Err(refusal) => reached.refusals[refusal] += 1,
        }
        // A short buffer is refused whether or not the case is accepted.
        if matches!(answer, Ok(_) | Err(15)) {
            let checked = reached.nearness.check_block(model, trial.block());
            checked.map_err(|e| format!("{e}; seed {seed}, block {index}"))?;
        }
    }
    Ok(reached)
}

/// The same comparison with every block and result in heap memory of its exact size.
fn compare_in_heap(model: &Model, blocks: u64, seed: u64) -> Result<u64, String> {
    let mut calls = 0;
    let mut call = |block: &[u8], place: u32, out_len: usize| {
        calls += 1;
        let exact: Box<[u8]> = block.into();
        let line = value_block_uninitialised(&exact, place, out_len);
        if line == wanted(model, block, place, out_len).0.as_bytes() {
            return Ok(());
        }
        Err(format!("a difference in heap memory: seed {seed}, call {calls}, block {}", hex(block)))
    };
    for index in 0..blocks {
        let trial = draw(model, seed, index);
        let out_len = if index % 2 == 0 { trial.out_len.min(LEAST_BUFFER) } else { trial.out_len };
        call(trial.block(), trial.place, out_len)?;
    }
    for length in 0..=LONGEST_BLOCK {
        let trial = draw(model, seed, length as u64);
        call(&trial.bytes[..length], 1, LEAST_BUFFER)?;
        call(trial.block(), 1, length)?;
    }
    Ok(calls)
}

fn load(factors: &str) -> Result<Model, String> {
    let text = std::fs::read_to_string(factors).map_err(|e| format!("{factors}: {e}"))?;
    Model::from_text(&text)
}

fn number(word: &str) -> Result<u64, String> {
    word.parse().map_err(|_| format!("not a number: {word}"))
}

fn compare_and_report(blocks: u64, seed: u64, factors: &str) -> Result<(), String> {
    let model = load(factors)?;
    let start = Instant::now();
    let days = figures::step_through_calendar()?;
    let figures = figures::try_figures(&model)?;
    let mut reached = compare(&model, blocks, seed)?;
    let compared = start.elapsed();
    let tried = properties::try_all(&model, blocks, seed, &mut reached.nearness)?;
    let exact = exact::try_exact(&model, &reached.nearness, (blocks / 3_000).max(100), seed)?;
    println!("{:<30}{:>10}", "blocks compared", blocks);
    reached.print();
    println!("{:<30}{:>10}", "days of the calendar stepped", days);
    println!("{:<30}{:>10}", "figures of the papers", figures);
    println!("properties tried");
    for (name, n) in &tried {
        println!("  {name:<28}{n:>10}");
    }
    println!("distance from the exact value");
    for (name, n) in &exact.counts {
        println!("  {name:<32}{n:>8}");
    }
    for (name, share) in &exact.shares {
        println!("  {name:<32}{share:>8.4}");
    }
    let all = start.elapsed().as_secs_f64();
    println!("seed {seed}; comparing took {:.1} s, everything {all:.1} s", compared.as_secs_f64());
    if !reached.enough() {
        return Err("some answer, row or rule was not reached often enough".into());
    }
    println!("no difference");
    Ok(())
}

fn run(arguments: &[&str]) -> Result<(), String> {
    match arguments {
        ["cases", folder] => examples::write_cases(folder),
        ["memcheck", blocks, seed, factors] => {
            let calls = compare_in_heap(&load(factors)?, number(blocks)?, number(seed)?)?;
            println!("{calls} calls in exact-size heap memory, no difference");
            Ok(())
        }
        [blocks, seed, factors] => compare_and_report(number(blocks)?, number(seed)?, factors),
        _ => Err("usage: second BLOCKS SEED FACTORS | memcheck BLOCKS SEED FACTORS | cases FOLDER".into()),
    }
}

fn main() -> ExitCode {
    let arguments: Vec<String> = std::env::args().skip(1).collect();
    let words: Vec<&str> = arguments.iter().map(String::as_str).collect();
    match run(&words) {
        Ok(()) => ExitCode::SUCCESS,
        Err(message) => {
            println!("FAILED: {message}");
            ExitCode::FAILURE
        }
    }
}
