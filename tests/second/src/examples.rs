//! The notes' worked examples for the kinds valued here, as blocks.
//! The notes print no qualifying service; 60 months stand in for it, which every rule passes.

use crate::generator::Block;
use crate::model::*;

pub struct Example {
    pub file: &'static str,
    pub block: Block,
}

/// A deferred member moving to a defined benefit scheme.
pub fn member(kind: u64, number: u64, birth: Date, leaving: Date, guarantee: Date) -> Block {
    let mut block = Block::zeros();
    block.put(at::KIND, 2, kind);
    block.put(at::NUMBER, 4, number);
    block.put(at::STATUS, 1, 1);
    block.put(at::RECEIVER, 1, 1);
    block.put(at::COUNT, 1, 1);
    block.put(at::SERVICE, 2, 60);
    block.put_date(at::BIRTH, birth);
    block.put_date(at::LEAVING, leaving);
    block.put_date(at::GUARANTEE, guarantee);
    block.put(at::REVALUATION, 4, 10_000);
    block
}

/// Amounts in pence on a line counted from 1.
pub fn put_line(block: &mut Block, line: usize, amounts: &[(usize, u64)]) {
    for &(field, pence) in amounts {
        block.put_amount(at::LINES[line - 1], field, pence);
    }
}

pub fn put_line_date(block: &mut Block, line: usize, d: Date) {
    block.put_date(at::LINES[line - 1] + at::DATE, d);
}

pub fn sealed(mut block: Block) -> Block {
    block.seal();
    block
}

pub fn a_of_001() -> Block {
    let mut block = member(1, 1, date(1967, 6, 1), date(2012, 4, 1), date(2020, 2, 1));
    block.put(at::REVALUATION, 4, 11_400);
    put_line(
        &mut block,
        1,
        &[
            (at::PENSION, 500_000),
            (at::ADDITIONAL, 100_000),
            (at::SURVIVOR, 250_000),
            (at::DEPENDANT, 37_500),
            (at::LUMP, 1_500_000),
            (at::MODIFICATION, 2_000),
        ],
    );
    block
}

fn a_of_003() -> Block {
    let mut block = member(2, 3, date(1966, 6, 1), date(2016, 4, 1), date(2019, 2, 1));
    block.put(at::REVALUATION, 4, 10_496);
    put_line_date(&mut block, 1, date(2033, 6, 1));
    put_line(
        &mut block,
        1,
        &[(at::PENSION, 500_000), (at::ADDITIONAL, 100_000), (at::SURVIVOR, 168_750), (at::DEPENDANT, 37_500)],
    );
    block
}

/// Two lines of the example speak of the date of leaving; 1 September 2017 is the one that leaves time to revalue.
pub fn b_of_003() -> Block {
    let mut block = member(2, 2, date(1977, 8, 7), date(2017, 9, 1), date(2020, 12, 1));
    block.put(at::REVALUATION, 4, 10_660);
    put_line_date(&mut block, 1, date(2045, 1, 6));
    put_line(&mut block, 1, &[(at::PENSION, 250_000), (at::SURVIVOR, 84_375)]);
    block
}

/// The pension date printed first is before age 65, so the 65th birthday stands.
pub fn c_of_003() -> Block {
    let mut block = member(2, 4, date(1952, 11, 1), date(2015, 11, 1), date(2016, 2, 1));
    block.put(at::REVALUATION, 4, 10_496);
    put_line_date(&mut block, 1, date(2017, 11, 1));
    put_line(&mut block, 1, &[(at::PENSION, 350_000), (at::SURVIVOR, 118_125)]);
    block
}

/// Pension age 68, and buy-outs to 67 and 65. The survivor's part is 33.75% of each pension.
pub fn d_of_003() -> Block {
    let mut block = member(2, 5, date(1979, 7, 3), date(2021, 12, 1), date(2021, 12, 1));
    block.put(at::COUNT, 1, 3);
    put_line_date(&mut block, 1, date(2047, 7, 3));
    put_line(&mut block, 1, &[(at::PENSION, 200_000), (at::SURVIVOR, 67_500)]);
    put_line_date(&mut block, 2, date(2046, 7, 3));
    put_line(&mut block, 2, &[(at::PENSION, 300_000), (at::SURVIVOR, 101_250)]);
    put_line_date(&mut block, 3, date(2044, 7, 3));
    put_line(&mut block, 3, &[(at::PENSION, 550_000), (at::SURVIVOR, 185_625)]);
    block
}

/// A member of the 2008 section: dates of birth, leaving and guarantee.
fn member_2008(number: u64, sex: u64, dates: [Date; 3], revaluation: u64, amounts: &[(usize, u64)]) -> Block {
    let [birth, leaving, guarantee] = dates;
    let mut block = member(3, number, birth, leaving, guarantee);
    block.put(at::SEX, 1, sex);
    block.put(at::REVALUATION, 4, revaluation);
    put_line(&mut block, 1, amounts);
    block
}

/// Examples B and C have the same benefits.
const B_AND_C_OF_001: [(usize, u64); 2] = [(at::PENSION, 250_000), (at::SURVIVOR, 93_800)];

/// The example prints 1 November 1984 as date of birth, which makes the member 34, and uses the row for 35.
fn b_of_001(number: u64, birth: Date) -> Block {
    member_2008(number, MALE, [birth, date(2012, 4, 1), date(2019, 10, 1)], 10_520, &B_AND_C_OF_001)
}

fn c_of_001() -> Block {
    let dates = [date(1957, 4, 1), date(2015, 10, 1), date(2020, 10, 1)];
    member_2008(10, FEMALE, dates, 10_520, &B_AND_C_OF_001)
}

/// A Choice Optant: the pension after commutation and the mandatory lump sum.
pub fn d_of_001() -> Block {
    let dates = [date(1969, 5, 1), date(2012, 4, 1), date(2020, 1, 1)];
    let amounts = [(at::PENSION, 1_087_500), (at::LUMP, 3_150_000), (at::SURVIVOR, 506_300)];
    let mut block = member_2008(11, MALE, dates, 11_700, &amounts);
    block.set_flag(CHOICE_OPTANT, true);
    block
}

/// Parts (2) and (3) of Example E are ordinary kind 1 sums; the reserved rights of part (1) are not valued here.
fn part_of_e_of_001(number: u64, pension: u64, lump: u64, survivor: u64) -> Block {
    let mut block = member(1, number, date(1958, 1, 1), date(1990, 1, 1), date(2012, 1, 1));
    block.put(at::REVALUATION, 4, 19_703);
    put_line(&mut block, 1, &[(at::PENSION, pension), (at::LUMP, lump), (at::SURVIVOR, survivor)]);
    block
}

pub fn all() -> Vec<Example> {
    let example = |file, block| Example { file, block: sealed(block) };
    vec![
        example("001-a", a_of_001()),
        example("003-b", b_of_003()),
        example("003-a", a_of_003()),
        example("003-c", c_of_003()),
        example("003-d", d_of_003()),
        example("001-e2", part_of_e_of_001(6, 48_068, 144_204, 24_034)),
        example("001-e3", part_of_e_of_001(7, 125_000, 375_000, 62_500)),
        example("001-b-aged-35", b_of_001(8, date(1983, 11, 1))),
        example("001-b", b_of_001(9, date(1984, 11, 1))),
        example("001-c", c_of_001()),
        example("001-d", d_of_001()),
    ]
}

/// One file to an example, all of them in one, and the three blocks whose lines 01 shows.
pub fn write_cases(folder: &str) -> Result<(), String> {
    let write = |name: &str, bytes: &[u8]| {
        let path = format!("{folder}/{name}.case");
        std::fs::write(&path, bytes).map_err(|e| format!("{path}: {e}"))
    };
    std::fs::create_dir_all(folder).map_err(|e| format!("{folder}: {e}"))?;
    let examples = all();
    let mut together = Vec::new();
    for example in &examples {
        write(example.file, &example.block.0)?;
        together.extend_from_slice(&example.block.0);
    }
    write("examples", &together)?;
    let three = [sealed(a_of_001()).0, sealed(b_of_003()).0, Block::zeros().0].concat();
    write("three", &three)
}
