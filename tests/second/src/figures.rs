//! Lines worked out by hand from the papers, which both calculators must give, and a walk through the calendar.

use crate::examples::*;
use crate::generator::Block;
use crate::library::Lent;
use crate::model::*;
use crate::show_difference;

/// Steps from day to day by the lengths of the months, and holds day numbers and dates to it.
pub fn step_through_calendar() -> Result<u64, String> {
    let mut today = date(1900, 1, 1);
    let mut number = day_number(today);
    let mut days = 0;
    // 2265 is past the 65th birthday of the last birth.
    while today.year < 2265 {
        let leap = today.year % 400 == 0 || (today.year % 4 == 0 && today.year % 100 != 0);
        let last_of_february = date(today.year, 2, 28 + leap as i64);
        if day_number(today) != number || date_of(number) != today {
            return Err(format!("calendar: {today:?} and day {number}"));
        }
        if is_real(today) != (today.year < 2200) {
            return Err(format!("calendar: {today:?} real or not"));
        }
        let length = match today.month {
            2 => last_of_february.day,
            4 | 6 | 9 | 11 => 30,
            _ => 31,
        };
        if is_real(date(today.year, today.month, length + 1)) {
            return Err(format!("calendar: {today:?}, a day past the month"));
        }
        if moved_on(date(1904, 2, 29), today.year - 1904) != day_number(last_of_february) {
            return Err(format!("calendar: 29 February in {}", today.year));
        }
        today = match (today.day == length, today.month) {
            (false, _) => date(today.year, today.month, today.day + 1),
            (true, 12) => date(today.year + 1, 1, 1),
            (true, month) => date(today.year, month + 1, 1),
        };
        number += 1;
        days += 1;
    }
    Ok(days)
}

/// A kind 1 case of case number 1, aged 54, with these amounts on its line.
pub fn aged_54(revaluation: u64, amounts: &[(usize, u64)]) -> Block {
    let mut block = member(1, 1, date(1966, 1, 1), date(2012, 4, 1), date(2020, 2, 1));
    block.put(at::REVALUATION, 4, revaluation);
    put_line(&mut block, 1, amounts);
    block
}

/// A kind 1 case with a pension of 100p.
fn born(birth: Date, guarantee: Date) -> Block {
    let mut block = member(1, 1, birth, date(2012, 4, 1), guarantee);
    put_line(&mut block, 1, &[(at::PENSION, 100)]);
    block
}

/// A kind 2 case with a pension of 100p and line 1 on this date.
fn due(birth: Date, guarantee: Date, line_1: Date) -> Block {
    let mut block = member(2, 1, birth, date(2016, 4, 1), guarantee);
    put_line_date(&mut block, 1, line_1);
    put_line(&mut block, 1, &[(at::PENSION, 100)]);
    block
}

fn with_underpin(transfer_in: u64, contributions: u64) -> Block {
    let mut block = b_of_003();
    block.set_flag(TRANSFERRED_IN, transfer_in != 0);
    block.put(at::TRANSFER_IN, 8, transfer_in);
    block.put(at::CONTRIBUTIONS, 8, contributions);
    block
}

/// The block with a guaranteed minimum pension and this state pension date.
fn with_gmp(mut block: Block, state_pension: Date) -> Block {
    block.set_flag(HAS_GMP, true);
    block.put_date(at::STATE_PENSION, state_pension);
    block
}

fn with_service(months: u64) -> Block {
    let mut block = b_of_003();
    block.put(at::SERVICE, 2, months);
    block
}

const A_ITEMS: &str = "pension 117921.6000 lump 14364.0000 survivor 4817.9250 deduct 234.6000";
const B_ITEMS: &str = "pension 24704.5500 lump 0.0000 survivor 1196.2552 deduct 0.0000";
const D_ITEMS: &str = "pension 100090.0000 lump 0.0000 survivor 4755.3750 deduct 0.0000";
const OPTANT_ITEMS: &str = "pension 163372.9500 lump 26167.0500 survivor 8648.6166 deduct 0.0000";

fn of_the_sum() -> Vec<(Block, String)> {
    let b = |paid: &str, underpin: &str| format!("1 2 pay {paid} {B_ITEMS} underpin {underpin} avc 0.00");
    let text = String::from;
    vec![
        // 1p at 1.5000 is 2p, and 2p at 18.05 is 36.1p.
        (
            aged_54(15_000, &[(at::PENSION, 1)]),
            text("1 1 pay 0.36 pension 0.3610 lump 0.0000 survivor 0.0000 deduct 0.0000 underpin 0.00 avc 0.00"),
        ),
        // 180.5p and 1.5p are 182p: one rounding, not one to an item.
        (
            aged_54(10_000, &[(at::PENSION, 10), (at::SURVIVOR, 1)]),
            text("1 1 pay 1.82 pension 1.8050 lump 0.0000 survivor 0.0150 deduct 0.0000 underpin 0.00 avc 0.00"),
        ),
        (
            aged_54(10_000, &[(at::PENSION, 100), (at::SCHEME_PAYS, 100)]),
            text("1 1 pay 0.00 pension 0.0000 lump 0.0000 survivor 0.0000 deduct 0.0000 underpin 0.00 avc 0.00"),
        ),
        (aged_54(10_000, &[(at::PENSION, 100), (at::SCHEME_PAYS, 101)]), text("1 1 refused 13 debit")),
        (aged_54(10_000, &[(at::MODIFICATION, 1)]), text("1 1 refused 14 negative")),
        (with_underpin(2_000_000, 590_081), b("25900.81", "25900.81")),
        (with_underpin(2_000_000, 590_082), b("25900.82", "25900.82")),
        // Contributions of a member with no transfer in are no underpin.
        (with_underpin(0, 100_000_000), b("25900.81", "0.00")),
        (with_gmp(b_of_003(), date(2016, 4, 5)), text("1 2 refused 10 refer")),
        (with_gmp(b_of_003(), date(2016, 4, 6)), b("25900.81", "0.00")),
        (with_service(3), b("25900.81", "0.00")),
        (with_service(2), text("1 2 refused 9 service")),
    ]
}

fn of_the_calendar() -> Vec<(Block, String)> {
    let paid = |pounds: &str, pension: &str| {
        format!("1 1 pay {pounds} pension {pension} lump 0.0000 survivor 0.0000 deduct 0.0000 underpin 0.00 avc 0.00")
    };
    let june = date(1967, 6, 1);
    let july = date(1979, 7, 3);
    let leap_1968 = date(1968, 2, 29);
    let leap_1960 = date(1960, 2, 29);
    let leap_1956 = date(1956, 2, 29);
    let leap_2020 = date(2020, 2, 29);
    let text = String::from;
    vec![
        // Age 52, and 53 a day later.
        (born(june, date(2020, 5, 31)), paid("17.24", "17.2400")),
        (born(june, date(2020, 6, 1)), paid("17.64", "17.6400")),
        // 26 and 27 years ahead.
        (due(july, date(2021, 7, 3), date(2047, 7, 3)), paid("9.08", "9.0800")),
        (due(july, date(2021, 7, 3), date(2047, 7, 4)), paid("8.89", "8.8900")),
        // Born on a leap day: 52, and 53 from 28 February of a common year.
        (born(leap_1968, date(2021, 2, 27)), paid("17.24", "17.2400")),
        (born(leap_1968, date(2021, 2, 28)), paid("17.64", "17.6400")),
        // 58, then 59, then 60 from 29 February of a leap year, and too old.
        (born(leap_1968, date(2027, 2, 27)), paid("19.85", "19.8500")),
        (born(leap_1968, date(2027, 2, 28)), paid("20.34", "20.3400")),
        (born(leap_1968, date(2027, 3, 1)), paid("20.34", "20.3400")),
        (born(leap_1968, date(2028, 2, 28)), paid("20.34", "20.3400")),
        (born(leap_1968, date(2028, 2, 29)), text("1 1 refused 11 age")),
        // 25 and 26 years ahead of a leap day.
        (due(july, leap_2020, date(2045, 2, 28)), paid("9.27", "9.2700")),
        (due(july, leap_2020, date(2045, 3, 1)), paid("9.08", "9.0800")),
        // The 65th birthday of one born on a leap day is 28 February.
        (due(leap_1956, leap_2020, date(2021, 2, 27)), text("1 1 refused 6 dates")),
        (due(leap_1956, leap_2020, date(2021, 2, 28)), paid("17.08", "17.0800")),
        (due(leap_1956, leap_2020, date(2021, 3, 1)), paid("16.65", "16.6500")),
        (due(leap_1960, date(2024, 2, 29), date(2025, 2, 27)), text("1 1 refused 6 dates")),
        (due(leap_1960, date(2024, 2, 29), date(2025, 2, 28)), paid("17.08", "17.0800")),
        (due(leap_1960, date(2024, 2, 29), date(2025, 3, 1)), paid("16.65", "16.6500")),
        (due(leap_1960, date(2024, 2, 29), date(2025, 3, 2)), paid("16.65", "16.6500")),
        // One day before the line's date, and on it.
        (due(leap_1960, date(2025, 2, 28), date(2025, 3, 1)), paid("17.08", "17.0800")),
        (due(leap_1960, date(2025, 3, 1), date(2025, 3, 1)), text("1 1 refused 11 age")),
    ]
}

/// Cases that meet refusal 10, a day before pension age and on its first day.
fn of_the_order_of_tests() -> Vec<(Block, String)> {
    let to_refer = |block| with_gmp(block, date(2016, 4, 5));
    let due_in_2021 = |day| due(date(1950, 1, 1), date(2021, 6, 1), date(2021, 6, day));
    let text = String::from;
    vec![
        (to_refer(born(date(1961, 6, 2), date(2021, 6, 1))), text("1 1 refused 10 refer")),
        (to_refer(born(date(1961, 6, 1), date(2021, 6, 1))), text("1 1 refused 11 age")),
        (to_refer(due_in_2021(2)), text("1 1 refused 10 refer")),
        (to_refer(due_in_2021(1)), text("1 1 refused 11 age")),
    ]
}

/// Example D of 003 with lines 2 and 3 on these dates.
fn reduced_ages(line_2: Date, line_3: Date) -> Block {
    let mut block = d_of_003();
    put_line_date(&mut block, 2, line_2);
    put_line_date(&mut block, 3, line_3);
    block
}

/// Example D with its reduced ages in order and out of order.
fn of_the_order_of_lines() -> Vec<(Block, String)> {
    let (july_2044, july_2046) = (date(2044, 7, 3), date(2046, 7, 3));
    let refused = |refusal: &str| format!("1 5 refused {refusal}");
    let mut active = reduced_ages(july_2044, july_2046);
    active.put(at::STATUS, 1, 2);
    vec![
        (reduced_ages(july_2044, july_2046), refused("17 order")),
        (reduced_ages(july_2046, july_2046), refused("17 order")),
        // Rows 26, 25 and 25: 18,160.00, 27,810.00 and 50,985.00; 884.25, 1,346.625 and 2,468.8125.
        (
            reduced_ages(july_2046, date(2046, 7, 2)),
            "1 5 pay 101654.69 pension 96955.0000 lump 0.0000 survivor 4699.6875 deduct 0.0000 underpin 0.00 avc 0.00"
                .into(),
        ),
        (reduced_ages(july_2044, date(2047, 7, 3)), refused("6 dates")),
        (active, refused("17 order")),
    ]
}

/// The block with these divorce debits on a line counted from 1.
fn less(mut block: Block, line: usize, debits: &[(usize, u64)]) -> Block {
    put_line(&mut block, line, debits);
    block
}

/// Examples A of 001, B and D of 003 with divorce debits. What is printed but the payment is theirs.
fn of_divorced_members() -> Vec<(Block, String)> {
    let a = |paid: &str| format!("1 1 pay {paid} {A_ITEMS} underpin 0.00 avc 0.00");
    let b = |paid: &str, underpin: &str| format!("1 2 pay {paid} {B_ITEMS} underpin {underpin} avc 0.00");
    let d = |paid: &str| format!("1 5 pay {paid} {D_ITEMS} underpin 0.00 avc 0.00");
    let refused = || String::from("1 2 refused 16 award");
    let halves = [(at::DEBIT_PENSION, 250_000), (at::DEBIT_SURVIVOR, 125_000), (at::DEBIT_LUMP, 750_000)];
    let all_but = |pence: u64| [(at::DEBIT_PENSION, 250_000), (at::DEBIT_SURVIVOR, 84_375 - pence)];
    let above = [(at::DEBIT_PENSION, 250_000), (at::DEBIT_SURVIVOR, 84_376)];
    let half_pension = [(at::DEBIT_PENSION, 125_000)];
    let fifty_pence = [(at::DEBIT_SURVIVOR, 50)];
    vec![
        // 285,000 x 17.24 = 4,913,400; 142,500 x 1.47 = 209,475; 855,000 x 0.84 = 718,200; together 5,841,075.
        // 13,686,893 - 5,841,075 = 7,845,818.
        (less(a_of_001(), 1, &halves), a("78458.18")),
        // 1p at 1.1400 is 1p, x 1.47 = 1.47, so 1: 13,686,893 - 1. Before its rounding it is 13,686,892.5 - 1.47 = 13,686,891.03.
        (less(a_of_001(), 1, &[(at::DEBIT_SURVIVOR, 1)]), a("136868.92")),
        // 125,000 at 1.0660 is 133,250, x 9.27 = 1,235,227.5, so 1,235,228. 2,590,081 - 1,235,228 = 1,354,853.
        (less(b_of_003(), 1, &half_pension), b("13548.53", "0.00")),
        // The whole: 266,500 x 9.27 + 89,944 x 1.33 = 2,470,455 + 119,625.52 = 2,590,080.52, so 2,590,081, and nothing is left.
        (less(b_of_003(), 1, &all_but(0)), b("0.00", "0.00")),
        // 84,374 at 1.0660 is 89,942.684, so 89,943, x 1.33 = 119,624.19: 2,590,079.19, so 2,590,079.
        (less(b_of_003(), 1, &all_but(1)), b("0.02", "0.00")),
        // 84,376 at 1.0660 is 89,944.816, so 89,945, x 1.33 = 119,626.85: 2,590,081.85, so 2,590,082, a penny too much.
        (less(b_of_003(), 1, &above), refused()),
        // An underpin is compared with what is left, and does not save a case that is refused.
        (less(with_underpin(1_354_853, 0), 1, &half_pension), b("13548.53", "13548.53")),
        (less(with_underpin(1_354_853, 1), 1, &half_pension), b("13548.54", "13548.54")),
        (less(with_underpin(2_000_000, 590_082), 1, &above), refused()),
        // 50 x 1.31 + 50 x 1.33 = 65.5 + 66.5 = 132; by lines it would be 66 + 67. 10,484,538 - 132 = 10,484,406.
        (less(less(d_of_003(), 1, &fifty_pence), 2, &fifty_pence), d("104844.06")),
        // On line 3's factor: 275,000 x 9.84 = 2,706,000. 10,484,538 - 2,706,000 = 7,778,538.
        (less(d_of_003(), 3, &[(at::DEBIT_PENSION, 275_000)]), d("77785.38")),
    ]
}

/// Small divorce debits at the edges of the sum and of its refusals, most of a member aged 54: 18.05, 0.88, 1.50 and 12.42.
fn of_divorce_debits() -> Vec<(Block, String)> {
    let paid = |pounds: &str, items: &str| format!("1 1 pay {pounds} {items} underpin 0.00 avc 0.00");
    let pension_only = |pounds: &str, pension: &str| {
        paid(pounds, &format!("pension {pension} lump 0.0000 survivor 0.0000 deduct 0.0000"))
    };
    let p182_items = "pension 1.8050 lump 0.0000 survivor 0.0150 deduct 0.0000";
    let refused = |refusal: &str| format!("1 1 refused {refusal}");
    let p182 = aged_54(10_000, &[(at::PENSION, 10), (at::SURVIVOR, 1)]);
    let aged_22 = |debit_lump| less(born(date(1998, 1, 1), date(2020, 2, 1)), 1, &[(at::DEBIT_LUMP, debit_lump)]);
    let p60 = aged_54(10_000, &[(at::PENSION, 100), (at::SCHEME_PAYS, 40)]);
    vec![
        // 180.5p is 181p, of 182p. With 1.5p more it is 182p as a whole; each rounded would be 183p.
        (less(p182.clone(), 1, &[(at::DEBIT_PENSION, 10)]), paid("0.01", p182_items)),
        (less(p182, 1, &[(at::DEBIT_PENSION, 10), (at::DEBIT_SURVIVOR, 1)]), paid("0.00", p182_items)),
        // 1p at 1.5000 is 2p: 36.1p less 2 x 1.50 = 3p.
        (aged_54(15_000, &[(at::PENSION, 1), (at::DEBIT_SURVIVOR, 1)]), pension_only("0.33", "0.3610")),
        // Factors 8.93 and 0.41: 0.41p is nothing, 0.82p a penny.
        (aged_22(1), pension_only("8.93", "8.9300")),
        (aged_22(2), pension_only("8.92", "8.9300")),
        // Scheme Pays is in the first value: 60 x 18.05 = 1,083p, the whole debit; 61 x 18.05 = 1,101.05p.
        (less(p60.clone(), 1, &[(at::DEBIT_PENSION, 60)]), pension_only("0.00", "10.8300")),
        (less(p60, 1, &[(at::DEBIT_PENSION, 61)]), refused("16 award")),
        // So is the modification: 1,805p - 50 x 12.42 = 1,184p, less 50 x 18.05 = 902.5p, so 903p.
        (
            aged_54(10_000, &[(at::PENSION, 100), (at::MODIFICATION, 50), (at::DEBIT_PENSION, 50)]),
            paid("2.81", "pension 18.0500 lump 0.0000 survivor 0.0000 deduct 6.2100"),
        ),
        (aged_54(10_000, &[(at::PENSION, 100), (at::SCHEME_PAYS, 101), (at::DEBIT_PENSION, 200)]), refused("13 debit")),
        (aged_54(10_000, &[(at::MODIFICATION, 1), (at::DEBIT_PENSION, 1)]), refused("14 negative")),
        // 0.88p is a penny, and the first value is 0.
        (aged_54(10_000, &[(at::DEBIT_LUMP, 1)]), refused("16 award")),
        (
            aged_54(10_000, &[(at::PENSION, LARGEST_AMOUNT), (at::DEBIT_PENSION, LARGEST_AMOUNT)]),
            pension_only("0.00", "180500000.0000"),
        ),
    ]
}

/// The block with one byte set to this.
fn with_byte_of(mut block: Block, offset: usize, byte: u64) -> Block {
    block.put(offset, 1, byte);
    block
}

fn with_byte(block: Block, offset: usize) -> Block {
    with_byte_of(block, offset, 1)
}

/// Where divorce debits may stand, and how large they may be.
fn of_reading_divorce_debits() -> Vec<(Block, String)> {
    let refused = |refusal: &str| format!("1 0 refused {refusal}");
    let aged_54 = || aged_54(10_000, &[(at::PENSION, 100)]);
    let too_large = [(at::DEBIT_PENSION, LARGEST_AMOUNT + 1)];
    vec![
        (less(aged_54(), 1, &too_large), refused("5 range")),
        (less(b_of_003(), 1, &too_large), refused("5 range")),
        (less(aged_54(), 2, &[(at::DEBIT_PENSION, 1)]), refused("4 reserved")),
        (less(b_of_003(), 2, &[(at::DEBIT_SURVIVOR, 1)]), refused("4 reserved")),
        (less(d_of_003(), 4, &[(at::DEBIT_PENSION, 1)]), refused("4 reserved")),
        (less(b_of_003(), 1, &[(at::DEBIT_LUMP, 1)]), refused("4 reserved")),
        (less(d_of_003(), 3, &[(at::DEBIT_LUMP, 1)]), refused("4 reserved")),
        // Byte 352 is 1p of debit pension on line 1: 18.05p of 1,805p, so 18p.
        (
            with_byte(aged_54(), 352),
            "1 1 pay 17.87 pension 18.0500 lump 0.0000 survivor 0.0000 deduct 0.0000 underpin 0.00 avc 0.00".into(),
        ),
        (with_byte(aged_54(), 375), refused("5 range")),
        (with_byte(aged_54(), 376), refused("4 reserved")),
        (with_byte(d_of_003(), 423), refused("4 reserved")),
        (with_byte(d_of_003(), 447), refused("4 reserved")),
        (with_byte(aged_54(), 447), refused("4 reserved")),
        (with_byte(aged_54(), 448), refused("4 reserved")),
        (with_byte(aged_54(), 507), refused("4 reserved")),
    ]
}

/// A kind 3 case with a pension of 100p.
fn born_2008(sex: u64, birth: Date, guarantee: Date) -> Block {
    let mut block = born(birth, guarantee);
    block.put(at::KIND, 2, 3);
    block.put(at::SEX, 1, sex);
    block
}

/// Pension age and the ends of TV3 and TV4: 6.50 at 18, 17.83 at 64.
fn of_ages_in_the_2008_section(sex: u64) -> Vec<(Block, String)> {
    let paid = |pounds: &str| {
        format!("1 1 pay {pounds} pension {pounds}00 lump 0.0000 survivor 0.0000 deduct 0.0000 underpin 0.00 avc 0.00")
    };
    let refused = |refusal: &str| format!("1 1 refused {refusal}");
    let born = |birth, guarantee| born_2008(sex, birth, guarantee);
    let (january_2002, june_1956) = (date(2002, 1, 2), date(1956, 6, 1));
    let (leap_2000, leap_1956) = (date(2000, 2, 29), date(1956, 2, 29));
    let to_refer = |block| with_gmp(block, date(2016, 4, 5));
    vec![
        (born(january_2002, date(2020, 1, 1)), refused("12 factor")),
        (born(january_2002, date(2020, 1, 2)), paid("6.50")),
        (born(leap_2000, date(2018, 2, 27)), refused("12 factor")),
        (born(leap_2000, date(2018, 2, 28)), paid("6.50")),
        (born(june_1956, date(2021, 5, 31)), paid("17.83")),
        (born(june_1956, date(2021, 6, 1)), refused("11 age")),
        (born(leap_1956, date(2021, 2, 27)), paid("17.83")),
        (born(leap_1956, date(2021, 2, 28)), refused("11 age")),
        (to_refer(born(june_1956, date(2021, 5, 31))), refused("10 refer")),
        (to_refer(born(june_1956, date(2021, 6, 1))), refused("11 age")),
    ]
}

/// A modification of 50p at 59 and at 60, when the deduction of women changes its column: 14.37 and 14.80.
fn of_deductions_in_the_2008_section(sex: u64) -> Vec<(Block, String)> {
    let less_50p = |guarantee| less(born_2008(sex, date(1960, 6, 1), guarantee), 1, &[(at::MODIFICATION, 50)]);
    let paid = |pounds: &str, pension: &str, deduct: &str| {
        format!("1 1 pay {pounds} pension {pension} lump 0.0000 survivor 0.0000 deduct {deduct} underpin 0.00 avc 0.00")
    };
    vec![
        // 1,577p - 718.5p = 858.5p, and 1,615p - 740p = 875p.
        (less_50p(date(2020, 5, 31)), paid("8.59", "15.7700", "7.1850")),
        (less_50p(date(2020, 6, 1)), paid("8.75", "16.1500", "7.4000")),
    ]
}

/// Example D of 001 with more entries: 12.84, 0.71, 1.46 and 11.09, revalued at 1.1700.
fn of_choice_optants() -> Vec<(Block, String)> {
    let paid = |pounds: &str, items: &str| format!("1 11 pay {pounds} {items} underpin 0.00 avc 0.00");
    let with = |field, pence| less(d_of_001(), 1, &[(field, pence)]);
    let debits = [(at::DEBIT_PENSION, 100_000), (at::DEBIT_SURVIVOR, 50_000), (at::DEBIT_LUMP, 1_000_000)];
    let refused = |refusal: &str| format!("1 11 refused {refusal}");
    vec![
        // The dependant's pension is added: 516,300 at 1.1700 is 604,071, x 1.46 = 881,943.66.
        (
            with(at::DEPENDANT, 10_000),
            paid("198359.44", "pension 163372.9500 lump 26167.0500 survivor 8819.4366 deduct 0.0000"),
        ),
        // No lump sum has to be there: 16,337,295 + 864,861.66 = 17,202,156.66.
        (with(at::LUMP, 0), paid("172021.57", "pension 163372.9500 lump 0.0000 survivor 8648.6166 deduct 0.0000")),
        // 3,685,500 - 685,500 = 3,000,000, x 0.71 = 2,130,000.
        (
            with(at::SCHEME_PAYS_LUMP, 685_500),
            paid("193321.57", "pension 163372.9500 lump 21300.0000 survivor 8648.6166 deduct 0.0000"),
        ),
        (
            with(at::SCHEME_PAYS_LUMP, 3_685_500),
            paid("172021.57", "pension 163372.9500 lump 0.0000 survivor 8648.6166 deduct 0.0000"),
        ),
        (with(at::SCHEME_PAYS_LUMP, 3_685_501), refused("13 debit")),
        (with(at::SCHEME_PAYS, 1_272_376), refused("13 debit")),
        // 117,000 x 12.84 = 1,502,280; 58,500 x 1.46 = 85,410; 1,170,000 x 0.71 = 830,700; together 2,418,390.
        (less(d_of_001(), 1, &debits), paid("174004.72", OPTANT_ITEMS)),
        // 1p at 1.1700 is 1p, x 0.71 = 0.71, so a penny.
        (with(at::DEBIT_LUMP, 1), paid("198188.61", OPTANT_ITEMS)),
        (with(at::MODIFICATION, LARGEST_AMOUNT), refused("14 negative")),
        (with(at::DEBIT_PENSION, LARGEST_AMOUNT), refused("16 award")),
    ]
}

fn with_kind(mut block: Block, kind: u64) -> Block {
    block.put(at::KIND, 2, kind);
    block
}

/// The sex and the flag of a Choice Optant, in kind 3 and elsewhere.
fn of_reading_sex_and_flag_4() -> Vec<(Block, String)> {
    let refused = |refusal: &str| format!("1 0 refused {refusal}");
    let sex = |block, code| with_byte_of(block, 14, code);
    let flags = |block, flags| with_byte_of(block, 10, flags);
    let pension_only = || born_2008(FEMALE, date(1960, 6, 1), date(2020, 6, 1));
    vec![
        (sex(d_of_001(), 0), refused("5 range")),
        (sex(d_of_001(), 3), refused("5 range")),
        (sex(d_of_001(), 255), refused("5 range")),
        // Something that must be zero goes before a range.
        (with_byte(sex(d_of_001(), 0), 15), refused("4 reserved")),
        (sex(a_of_001(), 1), refused("4 reserved")),
        (sex(a_of_001(), 2), refused("4 reserved")),
        (sex(b_of_003(), 1), refused("4 reserved")),
        (sex(b_of_003(), 255), refused("4 reserved")),
        (flags(a_of_001(), 4), refused("4 reserved")),
        (flags(b_of_003(), 4), refused("4 reserved")),
        (flags(d_of_003(), 4), refused("4 reserved")),
        (flags(d_of_001(), 5), refused("4 reserved")),
        (flags(d_of_001(), 12), refused("4 reserved")),
        (flags(d_of_001(), 0), refused("4 reserved")),
        (less(pension_only(), 1, &[(at::LUMP, 1)]), refused("4 reserved")),
        (less(pension_only(), 1, &[(at::SCHEME_PAYS_LUMP, 1)]), refused("4 reserved")),
        (less(pension_only(), 1, &[(at::DEBIT_LUMP, 1)]), refused("4 reserved")),
        (less(d_of_001(), 1, &[(at::LUMP, LARGEST_AMOUNT + 1)]), refused("5 range")),
    ]
}

/// Kinds and counts, and what is zero in kind 3.
fn of_reading_kind_3() -> Vec<(Block, String)> {
    let refused = |refusal: &str| format!("1 0 refused {refusal}");
    let with_date = |mut block: Block| {
        put_line_date(&mut block, 1, date(2034, 5, 1));
        block
    };
    vec![
        (with_kind(d_of_001(), 0), refused("3 kind")),
        (with_kind(d_of_001(), 4), refused("3 kind")),
        (with_kind(d_of_001(), 65_535), refused("3 kind")),
        (with_kind(d_of_001(), 259), refused("3 kind")),
        (with_byte_of(d_of_001(), 11, 0), refused("3 kind")),
        (with_byte_of(d_of_001(), 11, 2), refused("3 kind")),
        (with_byte_of(d_of_001(), 11, 4), refused("3 kind")),
        (with_byte(d_of_001(), 15), refused("4 reserved")),
        (with_byte(d_of_001(), 48), refused("4 reserved")),
        (with_byte(d_of_001(), 56), refused("4 reserved")),
        (with_date(d_of_001()), refused("4 reserved")),
        (with_byte(d_of_001(), 376), refused("4 reserved")),
    ]
}

fn of_the_2008_section() -> Vec<(Block, String)> {
    let by_sex = |sex| of_ages_in_the_2008_section(sex).into_iter().chain(of_deductions_in_the_2008_section(sex));
    let valued = by_sex(MALE).chain(by_sex(FEMALE)).chain(of_choice_optants());
    valued.chain(of_reading_sex_and_flag_4()).chain(of_reading_kind_3()).collect()
}

/// The examples' lines, from the file that the program's test is held to as well.
fn of_the_notes() -> Vec<(Block, String)> {
    let lines = include_str!("../../examples/expected.txt").lines();
    let valued = lines.filter(|line| line.starts_with(|c: char| c.is_ascii_digit()));
    all().into_iter().map(|example| example.block).zip(valued.map(String::from)).collect()
}

pub fn try_figures(model: &Model) -> Result<usize, String> {
    let mut lent = Lent::new();
    let mut figures = of_the_notes();
    if figures.len() != all().len() {
        return Err("examples: a line is missing".into());
    }
    for (place, (_, line)) in figures.iter().enumerate() {
        if line.split(' ').next() != Some(&(place + 1).to_string()) {
            return Err(format!("examples: not in order: {line}"));
        }
    }
    figures.push((Block::zeros(), "3 0 refused 3 kind".into()));
    figures.extend(
        of_the_sum().into_iter().chain(of_the_calendar()).chain(of_the_order_of_tests()).chain(of_the_order_of_lines()),
    );
    figures.extend(of_divorced_members().into_iter().chain(of_divorce_debits()).chain(of_reading_divorce_debits()));
    figures.extend(of_the_2008_section());
    for (block, line) in &figures {
        let block = sealed(block.clone());
        let place: u32 = line.split(' ').next().unwrap().parse().unwrap();
        let line = format!("{line}\n");
        let (number, answer) = model.answer(&block.0);
        if form_line(place, number, &answer) != line {
            return Err(format!("the second calculator gives {}for {line}", form_line(place, number, &answer)));
        }
        let left = lent.call(&block.0, place, LEAST_BUFFER, 0);
        if !left.holds(line.as_bytes(), 0) {
            show_difference(&block.0, place, LEAST_BUFFER, line.as_bytes(), &left);
            return Err("a figure worked out by hand is not given".into());
        }
    }
    Ok(figures.len())
}
