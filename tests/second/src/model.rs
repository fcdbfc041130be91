//! The second calculator: reading a block, valuing a case and forming its line, from 01, the two notes and the
//! change requests alone.
//! It is made differently where it can be: dates are day counts, factors are read from text, sums are 128-bit.

use crate::tables;
use std::collections::BTreeMap;

pub const BLOCK_LENGTH: usize = 512;
/// Fewer bytes than these lent for the line are refusal 15.
pub const LEAST_BUFFER: usize = 256;
pub const LARGEST_AMOUNT: u64 = 1_000_000_000;
pub const TRANSFERRED_IN: u64 = 1;
pub const HAS_GMP: u64 = 2;
pub const CHOICE_OPTANT: u64 = 4;
pub const MALE: u64 = 1;
pub const FEMALE: u64 = 2;

/// The 1995 section with pension age 60, the 2015 scheme and the 2008 section.
pub const KINDS: [u64; 3] = [1, 2, 3];

/// How many lines a case of this kind may have; none where the kind is not listed.
pub fn most_lines(kind: u64) -> u64 {
    match kind {
        1 | 3 => 1,
        2 => 4,
        _ => 0,
    }
}

/// The age from which a member is too old in kinds 1 and 3. In kind 2 the dates of the lines decide.
pub fn pension_age(kind: u64) -> Option<i64> {
    match kind {
        1 => Some(60),
        3 => Some(65),
        _ => None,
    }
}

/// The amounts that are zero on every line of a case of this kind with these flags.
pub fn absent_amounts(kind: u64, flags: u64) -> &'static [usize] {
    match kind {
        2 => &[at::LUMP, at::MODIFICATION, at::SCHEME_PAYS_LUMP, at::DEBIT_LUMP],
        3 if flags & CHOICE_OPTANT == 0 => &at::LUMP_SUM,
        _ => &[],
    }
}

/// A refusal is its number.
pub type Refusal = usize;

/// The refusals with their names.
pub const REFUSALS: [(Refusal, &str); 17] = [
    (1, "length"),
    (2, "check"),
    (3, "kind"),
    (4, "reserved"),
    (5, "range"),
    (6, "dates"),
    (7, "status"),
    (8, "receiver"),
    (9, "service"),
    (10, "refer"),
    (11, "age"),
    (12, "factor"),
    (13, "debit"),
    (14, "negative"),
    (15, "buffer"),
    (16, "award"),
    (17, "order"),
];

pub fn name_of(refusal: Refusal) -> &'static str {
    REFUSALS.iter().find(|(number, _)| *number == refusal).unwrap().1
}

/// Offsets of the fields in a block, below them those in a line, and last a line's divorce debits, which stand apart from it.
pub mod at {
    pub const KIND: usize = 0;
    pub const NUMBER: usize = 4;
    pub const STATUS: usize = 8;
    pub const RECEIVER: usize = 9;
    pub const FLAGS: usize = 10;
    pub const COUNT: usize = 11;
    pub const SERVICE: usize = 12;
    pub const SEX: usize = 14;
    pub const BIRTH: usize = 16;
    pub const LEAVING: usize = 20;
    pub const GUARANTEE: usize = 24;
    pub const STATE_PENSION: usize = 28;
    pub const REVALUATION: usize = 32;
    pub const AVC: usize = 40;
    pub const TRANSFER_IN: usize = 48;
    pub const CONTRIBUTIONS: usize = 56;
    pub const LINES: [usize; 4] = [64, 136, 208, 280];
    pub const LINE_LENGTH: usize = 72;
    pub const CHECK: usize = 508;

    pub const DATE: usize = 0;
    pub const PENSION: usize = 8;
    pub const ADDITIONAL: usize = 16;
    pub const SURVIVOR: usize = 24;
    pub const DEPENDANT: usize = 32;
    pub const LUMP: usize = 40;
    pub const MODIFICATION: usize = 48;
    pub const SCHEME_PAYS: usize = 56;
    pub const SCHEME_PAYS_LUMP: usize = 64;

    /// One group of divorce debits to a line. They are numbered on from the line's end; `amount` finds them.
    pub const GROUPS: [usize; 4] = [352, 376, 400, 424];
    pub const GROUP_LENGTH: usize = 24;
    pub const DEBIT_PENSION: usize = LINE_LENGTH;
    pub const DEBIT_SURVIVOR: usize = LINE_LENGTH + 8;
    pub const DEBIT_LUMP: usize = LINE_LENGTH + 16;

    pub const BENEFITS: [usize; 5] = [PENSION, ADDITIONAL, SURVIVOR, DEPENDANT, LUMP];
    pub const REDUCTIONS: [usize; 3] = [SCHEME_PAYS, SCHEME_PAYS_LUMP, MODIFICATION];
    pub const DIVORCE: [usize; 3] = [DEBIT_PENSION, DEBIT_SURVIVOR, DEBIT_LUMP];
    pub const AMOUNTS: [usize; 11] = [
        PENSION,
        ADDITIONAL,
        SURVIVOR,
        DEPENDANT,
        LUMP,
        MODIFICATION,
        SCHEME_PAYS,
        SCHEME_PAYS_LUMP,
        DEBIT_PENSION,
        DEBIT_SURVIVOR,
        DEBIT_LUMP,
    ];
    /// The lump sum and the debits on it.
    pub const LUMP_SUM: [usize; 3] = [LUMP, SCHEME_PAYS_LUMP, DEBIT_LUMP];
    /// The amounts that are zero in lines 2 to 4.
    pub const ONLY_LINE_1: [usize; 2] = [ADDITIONAL, DEPENDANT];

    /// The place, counted from 0, of the line that starts here.
    pub fn place(start: usize) -> usize {
        LINES.iter().position(|&other| other == start).unwrap()
    }

    /// Where an amount of the line that starts here stands in the block.
    pub fn amount(start: usize, field: usize) -> usize {
        if field < LINE_LENGTH {
            start + field
        } else {
            GROUPS[place(start)] + field - LINE_LENGTH
        }
    }
}

// Calendar.

#[derive(Clone, Copy, PartialEq, Eq, Debug)]
pub struct Date {
    pub year: i64,
    pub month: i64,
    pub day: i64,
}

pub const fn date(year: i64, month: i64, day: i64) -> Date {
    Date { year, month, day }
}

/// Days from 1 March of year 0. Years are counted from March, so that the leap day is the last of its year.
pub fn day_number(d: Date) -> i64 {
    let (year, month) = if d.month > 2 { (d.year, d.month - 3) } else { (d.year - 1, d.month + 9) };
    let leap_days = year.div_euclid(4) - year.div_euclid(100) + year.div_euclid(400);
    365 * year + leap_days + (153 * month + 2) / 5 + d.day - 1
}

/// The date with this day number.
pub fn date_of(number: i64) -> Date {
    let era = number.div_euclid(146_097);
    let day_of_era = number.rem_euclid(146_097);
    let year_of_era = (day_of_era - day_of_era / 1_460 + day_of_era / 36_524 - day_of_era / 146_096) / 365;
    let day_of_year = day_of_era - (365 * year_of_era + year_of_era / 4 - year_of_era / 100);
    let month = (5 * day_of_year + 2) / 153;
    let day = day_of_year - (153 * month + 2) / 5 + 1;
    let year = year_of_era + 400 * era;
    if month < 10 {
        date(year, month + 3, day)
    } else {
        date(year + 1, month - 9, day)
    }
}

/// The day number of a date moved on by years. 29 February of a common year would have that of 1 March; it falls on the day before.
pub fn moved_on(d: Date, years: i64) -> i64 {
    let kept = date(d.year + years, d.month, d.day);
    let number = day_number(kept);
    if date_of(number) == kept {
        number
    } else {
        number - 1
    }
}

pub fn first_day() -> i64 {
    day_number(date(1900, 1, 1))
}

pub fn last_day() -> i64 {
    day_number(date(2199, 12, 31))
}

/// A date is real where its day number gives it back.
pub fn is_real(d: Date) -> bool {
    let number = day_number(d);
    date_of(number) == d && (first_day()..=last_day()).contains(&number)
}

/// Birthdays reached.
pub fn age(birth: Date, on: Date) -> i64 {
    let today = day_number(on);
    (1..).take_while(|&n| moved_on(birth, n) <= today).count() as i64
}

/// The fewest years after which `from`, moved on, no longer stands before `to`.
pub fn years_ahead(from: Date, to: Date) -> i64 {
    let target = day_number(to);
    (0..).find(|&n| moved_on(from, n) >= target).unwrap()
}

// The case.

#[derive(Clone, Copy, Debug)]
pub struct Line {
    pub date: Date,
    pub pension: u64,
    pub additional: u64,
    pub survivor: u64,
    pub dependant: u64,
    pub lump: u64,
    pub modification: u64,
    pub scheme_pays: u64,
    pub scheme_pays_lump: u64,
    pub debit_pension: u64,
    pub debit_survivor: u64,
    pub debit_lump: u64,
}

impl Line {
    /// Of pension, survivor's pension and lump sum.
    pub fn divorce_debits(&self) -> [u64; 3] {
        [self.debit_pension, self.debit_survivor, self.debit_lump]
    }

    pub fn has_divorce_debit(&self) -> bool {
        self.divorce_debits() != [0; 3]
    }
}

#[derive(Clone, Debug)]
pub struct Case {
    pub kind: u64,
    pub number: u64,
    pub status: u64,
    pub receiver: u64,
    pub flags: u64,
    pub count: u64,
    pub service: u64,
    pub sex: u64,
    pub birth: Date,
    pub leaving: Date,
    pub guarantee: Date,
    pub state_pension: Date,
    pub revaluation: u64,
    pub avc: u64,
    pub transfer_in: u64,
    pub contributions: u64,
    pub lines: [Line; 4],
}

impl Case {
    pub fn has(&self, flag: u64) -> bool {
        self.flags & flag != 0
    }

    /// The lines that the count covers.
    pub fn used(&self) -> &[Line] {
        &self.lines[..self.count as usize]
    }
}

pub fn number_at(block: &[u8], offset: usize, width: usize) -> u64 {
    block[offset..offset + width].iter().rev().fold(0, |n, &byte| n << 8 | byte as u64)
}

pub fn date_at(block: &[u8], offset: usize) -> Date {
    date(number_at(block, offset, 2) as i64, block[offset + 2] as i64, block[offset + 3] as i64)
}

/// The check: every byte before it, times its position counted from 1, summed.
pub fn check_of(block: &[u8]) -> u64 {
    block[..at::CHECK].iter().zip(1u64..).map(|(&byte, weight)| weight * byte as u64).sum()
}

fn line_at(block: &[u8], start: usize) -> Line {
    let amount = |field| number_at(block, at::amount(start, field), 8);
    Line {
        date: date_at(block, start + at::DATE),
        pension: amount(at::PENSION),
        additional: amount(at::ADDITIONAL),
        survivor: amount(at::SURVIVOR),
        dependant: amount(at::DEPENDANT),
        lump: amount(at::LUMP),
        modification: amount(at::MODIFICATION),
        scheme_pays: amount(at::SCHEME_PAYS),
        scheme_pays_lump: amount(at::SCHEME_PAYS_LUMP),
        debit_pension: amount(at::DEBIT_PENSION),
        debit_survivor: amount(at::DEBIT_SURVIVOR),
        debit_lump: amount(at::DEBIT_LUMP),
    }
}

/// The fields as they stand, with no rule applied.
pub fn case_of(block: &[u8]) -> Case {
    Case {
        kind: number_at(block, at::KIND, 2),
        number: number_at(block, at::NUMBER, 4),
        status: number_at(block, at::STATUS, 1),
        receiver: number_at(block, at::RECEIVER, 1),
        flags: number_at(block, at::FLAGS, 1),
        count: number_at(block, at::COUNT, 1),
        service: number_at(block, at::SERVICE, 2),
        sex: number_at(block, at::SEX, 1),
        birth: date_at(block, at::BIRTH),
        leaving: date_at(block, at::LEAVING),
        guarantee: date_at(block, at::GUARANTEE),
        state_pension: date_at(block, at::STATE_PENSION),
        revaluation: number_at(block, at::REVALUATION, 4),
        avc: number_at(block, at::AVC, 8),
        transfer_in: number_at(block, at::TRANSFER_IN, 8),
        contributions: number_at(block, at::CONTRIBUTIONS, 8),
        lines: at::LINES.map(|start| line_at(block, start)),
    }
}

/// Which bytes a field names, the check included.
pub fn named_bytes() -> [bool; BLOCK_LENGTH] {
    let mut named = [false; BLOCK_LENGTH];
    let mut name = |offset: usize, width: usize| named[offset..offset + width].fill(true);
    name(at::KIND, 2);
    name(at::NUMBER, 4);
    for byte in [at::STATUS, at::RECEIVER, at::FLAGS, at::COUNT] {
        name(byte, 1);
    }
    name(at::SERVICE, 2);
    name(at::SEX, 1);
    for day in [at::BIRTH, at::LEAVING, at::GUARANTEE, at::STATE_PENSION] {
        name(day, 4);
    }
    name(at::REVALUATION, 4);
    for amount in [at::AVC, at::TRANSFER_IN, at::CONTRIBUTIONS] {
        name(amount, 8);
    }
    for start in at::LINES {
        name(start + at::DATE, 4);
        for field in at::AMOUNTS {
            name(at::amount(start, field), 8);
        }
    }
    name(at::CHECK, 4);
    named
}

// The answer. Items and the total of the divorce debits are in hundredths of a penny, the rest in pence.

#[derive(Clone, Copy, PartialEq, Eq, Debug, Default)]
pub struct Payment {
    pub pension: i128,
    pub lump: i128,
    pub survivor: i128,
    pub deduct: i128,
    pub debit_total: i128,
    pub gross: i128,
    pub underpin: i128,
    pub avc: i128,
    pub paid: i128,
}

/// The factors used on a line, in hundredths; 003 has neither lump sum nor deduction.
#[derive(Clone, Copy, PartialEq, Eq, Debug, Default)]
pub struct Factors {
    pub pension: i128,
    pub lump: i128,
    pub survivor: i128,
    pub deduct: i128,
}

/// A non-negative amount over a divisor, halves up.
fn rounded(amount: i128, divisor: i128) -> i128 {
    (2 * amount + divisor) / (2 * divisor)
}

pub fn revalued(amount: u64, revaluation: u64) -> i128 {
    rounded(amount as i128 * revaluation as i128, 10_000)
}

/// Rows of factors by their key: age last birthday at the guarantee date, or years ahead.
pub type Table = BTreeMap<i64, Factors>;

/// The tables by their names in figures/factors.txt, each with its first and its last key.
pub const TABLES: [(&str, i64, i64); 4] = [("1995m", 22, 59), ("2008m", 18, 64), ("2008f", 18, 64), ("2015", 1, 50)];

/// The table for women of the 1995 section. A case of kind 1 has no sex, so it must have the rows of that for men.
const WOMEN_1995: &str = "1995f";

/// The place in `TABLES` of the table for a case of this kind and sex.
pub fn table_place(kind: u64, sex: u64) -> usize {
    match (kind, sex) {
        (1, _) => 0,
        (2, _) => 3,
        (_, MALE) => 1,
        _ => 2,
    }
}

pub struct Model {
    tables: [Table; 4],
    women_1995: Table,
    unnamed: Vec<usize>,
}

impl Model {
    /// The tables as figures/factors.txt prints them.
    pub fn from_text(text: &str) -> Result<Model, String> {
        let named = named_bytes();
        let unnamed = (0..BLOCK_LENGTH).filter(|&i| !named[i]).collect();
        let mut model = Model { tables: Default::default(), women_1995: Table::new(), unnamed };
        for row in text.lines().filter(|row| !row.starts_with('#') && !row.trim().is_empty()) {
            model.take_row(row).ok_or_else(|| format!("not a row of factors: {row}"))?;
        }
        model.check_tables()?;
        Ok(model)
    }

    /// Every row must be there, and no other. TV1 and TV2 must be the same, TV3 and TV4 those that are copied from 001 here.
    fn check_tables(&self) -> Result<(), String> {
        for ((name, first, last), table) in TABLES.iter().zip(&self.tables) {
            if !table.keys().copied().eq(*first..=*last) {
                return Err(format!("rows of factors, {name}: not {first} to {last}"));
            }
        }
        if self.women_1995 != self.tables[table_place(1, 0)] {
            return Err(format!("rows of factors, {WOMEN_1995}: not those for men"));
        }
        for (sex, copied) in [(MALE, tables::men_2008()), (FEMALE, tables::women_2008())] {
            let place = table_place(3, sex);
            if self.tables[place] != copied {
                return Err(format!("rows of factors, {}: not as 001 prints them", TABLES[place].0));
            }
        }
        Ok(())
    }

    fn take_row(&mut self, row: &str) -> Option<()> {
        let words: Vec<&str> = row.split_whitespace().collect();
        let key: i64 = words.get(1)?.parse().ok()?;
        let figures: Option<Vec<i128>> = words[2..].iter().map(|word| hundredths(word)).collect();
        let factors = match (words[0], &figures?[..]) {
            ("2015", &[pension, survivor]) => Factors { pension, survivor, ..Factors::default() },
            ("2015", _) => return None,
            (_, &[pension, lump, survivor, deduct]) => Factors { pension, lump, survivor, deduct },
            _ => return None,
        };
        let table = match TABLES.iter().position(|(name, _, _)| *name == words[0]) {
            Some(place) => &mut self.tables[place],
            None if words[0] == WOMEN_1995 => &mut self.women_1995,
            None => return None,
        };
        table.insert(key, factors).is_none().then_some(())
    }

    pub fn unnamed_bytes(&self) -> &[usize] {
        &self.unnamed
    }

    /// The key into the case's table: years ahead of the line in kind 2, age in kinds 1 and 3.
    pub fn key(&self, case: &Case, line: &Line) -> i64 {
        match case.kind {
            2 => years_ahead(case.guarantee, line.date),
            _ => age(case.birth, case.guarantee),
        }
    }

    pub fn factors(&self, case: &Case, line: &Line) -> Option<Factors> {
        self.tables[table_place(case.kind, case.sex)].get(&self.key(case, line)).copied()
    }

    pub fn read(&self, block: &[u8]) -> Result<Case, Refusal> {
        if block.len() != BLOCK_LENGTH {
            return Err(1);
        }
        if number_at(block, at::CHECK, 4) != check_of(block) {
            return Err(2);
        }
        let case = case_of(block);
        if !(1..=most_lines(case.kind)).contains(&case.count) {
            Err(3)
        } else if self.unnamed.iter().any(|&i| block[i] != 0) || reserved_broken(block, &case) {
            Err(4)
        } else if range_broken(&case) {
            Err(5)
        } else {
            Ok(case)
        }
    }

    /// Steps 1 to 3 of the sum, line by line as they stand, with the underpin and the AVC; none where a line has no row.
    pub fn items(&self, case: &Case) -> Option<Payment> {
        let factors: Option<Vec<Factors>> = case.used().iter().map(|line| self.factors(case, line)).collect();
        Some(items(case, &factors?))
    }

    /// Refusals 6 to 14, 16 and 17, or the payment. Refusals 3 to 5 are decided by `read`: no case is built by hand here.
    pub fn value(&self, case: &Case) -> Result<Payment, Refusal> {
        refused_before_factors(case)?;
        let mut payment = self.items(case).ok_or(12usize)?;
        if case.used().iter().any(|line| scheme_pays_broken(case, line)) {
            return Err(13);
        }
        if signed_total(&payment) < 0 {
            return Err(14);
        }
        payment.gross = first_value(&payment) - debit_value(&payment);
        if payment.gross < 0 {
            return Err(16);
        }
        payment.paid = payment.gross.max(payment.underpin) + payment.avc;
        Ok(payment)
    }

    /// The case number printed and the answer.
    pub fn answer(&self, block: &[u8]) -> (u64, Result<Payment, Refusal>) {
        match self.read(block) {
            Ok(case) => (case.number, self.value(&case)),
            Err(refusal) => (0, Err(refusal)),
        }
    }
}

/// A number with two decimals, in hundredths.
pub fn hundredths(word: &str) -> Option<i128> {
    let (whole, decimals) = word.split_once('.')?;
    if decimals.len() != 2 {
        return None;
    }
    Some(100 * whole.parse::<u32>().ok()? as i128 + decimals.parse::<u32>().ok()? as i128)
}

/// Every must-be-zero rule but that of the unnamed bytes.
fn reserved_broken(block: &[u8], case: &Case) -> bool {
    let of_kind = match case.kind {
        1 => transfer_or_date_filled(block, case) || choice_optant_or_sex_filled(case),
        2 => choice_optant_or_sex_filled(case),
        _ => transfer_or_date_filled(block, case),
    };
    case.flags & !(TRANSFERRED_IN | HAS_GMP | CHOICE_OPTANT) != 0
        || past_count_filled(block, case)
        || (!case.has(HAS_GMP) && number_at(block, at::STATE_PENSION, 4) != 0)
        || (!case.has(TRANSFERRED_IN) && case.transfer_in != 0)
        || of_kind
        || absent_amount_filled(block, case)
        || case.lines[1..].iter().any(|line| line.additional != 0 || line.dependant != 0)
}

/// Zero in kinds 1 and 3: own contributions, the flag of a transfer in, and the line's date.
fn transfer_or_date_filled(block: &[u8], case: &Case) -> bool {
    case.has(TRANSFERRED_IN) || case.contributions != 0 || number_at(block, at::LINES[0] + at::DATE, 4) != 0
}

/// Zero in kinds 1 and 2.
fn choice_optant_or_sex_filled(case: &Case) -> bool {
    case.has(CHOICE_OPTANT) || case.sex != 0
}

fn absent_amount_filled(block: &[u8], case: &Case) -> bool {
    let filled = |start: usize, field: usize| number_at(block, at::amount(start, field), 8) != 0;
    let absent = absent_amounts(case.kind, case.flags);
    at::LINES.iter().any(|&start| absent.iter().any(|&field| filled(start, field)))
}

fn past_count_filled(block: &[u8], case: &Case) -> bool {
    let filled = |start: usize, length: usize| block[start..start + length].iter().any(|&byte| byte != 0);
    let count = case.count as usize;
    at::LINES[count..].iter().any(|&start| filled(start, at::LINE_LENGTH))
        || at::GROUPS[count..].iter().any(|&start| filled(start, at::GROUP_LENGTH))
}

/// Dates that must be zero were held to that by the rule before, so only the others are tried here.
fn range_broken(case: &Case) -> bool {
    let amounts_broken = |line: &Line| {
        let Line { pension, additional, survivor, dependant, .. } = *line;
        let Line { lump, modification, scheme_pays, scheme_pays_lump, .. } = *line;
        [pension, additional, survivor, dependant, lump, modification, scheme_pays, scheme_pays_lump]
            .iter()
            .chain(&line.divorce_debits())
            .any(|&amount| amount > LARGEST_AMOUNT)
    };
    case.number == 0
        || !(1..=4).contains(&case.status)
        || !(1..=3).contains(&case.receiver)
        || (case.kind == 3 && ![MALE, FEMALE].contains(&case.sex))
        || !(10_000..=100_000).contains(&case.revaluation)
        || [case.avc, case.transfer_in, case.contributions].iter().any(|&a| a > LARGEST_AMOUNT)
        || case.lines.iter().any(amounts_broken)
        || ![case.birth, case.leaving, case.guarantee].iter().all(|&d| is_real(d))
        || (case.has(HAS_GMP) && !is_real(case.state_pension))
        || (case.kind == 2 && !case.used().iter().all(|line| is_real(line.date)))
}

fn dates_broken(case: &Case) -> bool {
    let birth = day_number(case.birth);
    let leaving = day_number(case.leaving);
    let first_line = day_number(case.lines[0].date);
    birth >= leaving
        || leaving > day_number(case.guarantee)
        || (case.kind == 2
            && (first_line < moved_on(case.birth, 65)
                || case.used()[1..].iter().any(|line| day_number(line.date) >= first_line)))
}

/// Of lines 2 to 4 of kind 2, as far as the count goes, one is not dated before all those above it.
pub fn order_broken(case: &Case) -> bool {
    let lines = if case.kind == 2 { &case.used()[1..] } else { &[] };
    let not_before = |line: &Line, above: &Line| day_number(line.date) >= day_number(above.date);
    lines.iter().enumerate().any(|(place, line)| lines[..place].iter().any(|above| not_before(line, above)))
}

pub fn gmp_to_refer(case: &Case) -> bool {
    case.has(HAS_GMP) && day_number(case.state_pension) < day_number(date(2016, 4, 6))
}

fn past_pension_age(case: &Case) -> bool {
    let guarantee = day_number(case.guarantee);
    match pension_age(case.kind) {
        Some(years) => age(case.birth, case.guarantee) >= years,
        None => case.used().iter().any(|line| day_number(line.date) <= guarantee),
    }
}

/// Refusals 6 to 11 and 17, in the order in which they are tested: 17 straight after 6, and 11 before 10.
fn refused_before_factors(case: &Case) -> Result<(), Refusal> {
    let rules = [
        (6, dates_broken(case)),
        (17, order_broken(case)),
        (7, case.status != 1),
        (8, case.receiver != 1),
        (9, case.service < 3),
        (11, past_pension_age(case)),
        (10, gmp_to_refer(case)),
    ];
    match rules.iter().find(|(_, broken)| *broken) {
        Some((refusal, _)) => Err(*refusal),
        None => Ok(()),
    }
}

fn scheme_pays_broken(case: &Case, line: &Line) -> bool {
    line.scheme_pays as i128 > revalued(line.pension + line.additional, case.revaluation)
        || line.scheme_pays_lump as i128 > revalued(line.lump, case.revaluation)
}

fn items(case: &Case, factors: &[Factors]) -> Payment {
    let mut sum = Payment { avc: case.avc as i128, ..Payment::default() };
    for (line, factor) in case.used().iter().zip(factors) {
        let pension = revalued(line.pension + line.additional, case.revaluation);
        let survivor = revalued(line.survivor + line.dependant, case.revaluation);
        let lump = revalued(line.lump, case.revaluation);
        sum.pension += (pension - line.scheme_pays as i128) * factor.pension;
        sum.lump += (lump - line.scheme_pays_lump as i128) * factor.lump;
        sum.survivor += survivor * factor.survivor;
        sum.deduct += line.modification as i128 * factor.deduct;
        sum.debit_total += line_debit_total(case, line, factor);
    }
    if case.kind == 2 && case.has(TRANSFERRED_IN) {
        sum.underpin = case.transfer_in as i128 + case.contributions as i128;
    }
    sum
}

/// A line's divorce debits, each revalued and rounded, then valued as the benefit that it reduces.
pub fn line_debit_total(case: &Case, line: &Line, factor: &Factors) -> i128 {
    let [pension, survivor, lump] = line.divorce_debits().map(|debit| revalued(debit, case.revaluation));
    pension * factor.pension + survivor * factor.survivor + lump * factor.lump
}

/// The total before any divorce debit and before its rounding; Scheme Pays and modification are in it.
pub fn signed_total(payment: &Payment) -> i128 {
    payment.pension + payment.lump + payment.survivor - payment.deduct
}

/// The signed total in whole pence, halves up. Below zero it is refused before it is used.
pub fn first_value(payment: &Payment) -> i128 {
    (signed_total(payment) + 50).div_euclid(100)
}

/// The divorce debits of all lines, rounded once.
pub fn debit_value(payment: &Payment) -> i128 {
    rounded(payment.debit_total, 100)
}

fn pounds(pence: i128) -> String {
    format!("{}.{:02}", pence / 100, pence % 100)
}

fn pounds_with_four_decimals(hundredths: i128) -> String {
    format!("{}.{:04}", hundredths / 10_000, hundredths % 10_000)
}

pub fn form_line(place: u32, number: u64, answer: &Result<Payment, Refusal>) -> String {
    match answer {
        Err(refusal) => format!("{place} {number} refused {refusal} {}\n", name_of(*refusal)),
        Ok(payment) => format!(
            "{place} {number} pay {} pension {} lump {} survivor {} deduct {} underpin {} avc {}\n",
            pounds(payment.paid),
            pounds_with_four_decimals(payment.pension),
            pounds_with_four_decimals(payment.lump),
            pounds_with_four_decimals(payment.survivor),
            pounds_with_four_decimals(payment.deduct),
            pounds(payment.underpin),
            pounds(payment.avc),
        ),
    }
}
