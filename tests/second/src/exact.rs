//! How far the gross value lies from the exact one (change request No. 14). The exact value is the sum worked as a fraction with
//! nothing rounded. Here it is in millionths of a penny, of which it is a whole number, and in 128 bits.

use crate::examples::{a_of_001, b_of_003, c_of_003, d_of_001, sealed};
use crate::figures::aged_54;
use crate::generator::*;
use crate::library::Lent;
use crate::model::*;
use crate::properties::{line_of, parse};
use crate::random::Random;
use crate::{hex, LEAST_REACHED};

const PENNY: i128 = 1_000_000;

/// An amount as at leaving, in ten-thousandths of a penny: times the revaluation factor.
fn revalued_exactly(case: &Case, amount: u64) -> i128 {
    amount as i128 * case.revaluation as i128
}

/// The same of an amount as at the guarantee date.
fn not_revalued(amount: u64) -> i128 {
    amount as i128 * 10_000
}

/// What a line adds to the exact value, each amount times its factor.
fn exact_of_line(case: &Case, line: &Line, factors: &Factors) -> i128 {
    let pension = revalued_exactly(case, line.pension + line.additional)
        - not_revalued(line.scheme_pays)
        - revalued_exactly(case, line.debit_pension);
    let lump = revalued_exactly(case, line.lump)
        - not_revalued(line.scheme_pays_lump)
        - revalued_exactly(case, line.debit_lump);
    let survivor = revalued_exactly(case, line.survivor + line.dependant) - revalued_exactly(case, line.debit_survivor);
    pension * factors.pension + lump * factors.lump + survivor * factors.survivor
        - not_revalued(line.modification) * factors.deduct
}

/// How much lower the exact value would be if Scheme Pays were revalued, which it must not be.
fn scheme_pays_revaluation(case: &Case, line: &Line, factors: &Factors) -> i128 {
    let growth = |amount: u64| revalued_exactly(case, amount) - not_revalued(amount);
    growth(line.scheme_pays) * factors.pension + growth(line.scheme_pays_lump) * factors.lump
}

/// Where the gross value of an accepted case lies, in millionths of a penny.
#[derive(Default)]
struct Position {
    exact: i128,
    above_exact: i128,
    /// Half of what the factors used on revalued amounts add up to: each where its amount is not zero.
    half_factors: i128,
    scheme_pays_revaluation: i128,
    divorced: bool,
}

impl Position {
    fn of(model: &Model, case: &Case, gross: i128) -> Position {
        let mut position = Position::default();
        for line in case.used() {
            let factors = model.factors(case, line).unwrap();
            position.exact += exact_of_line(case, line, &factors);
            // A factor is in hundredths, and half of it is taken.
            for (amount, factor) in [
                (line.pension + line.additional, factors.pension),
                (line.lump, factors.lump),
                (line.survivor + line.dependant, factors.survivor),
                (line.debit_pension, factors.pension),
                (line.debit_lump, factors.lump),
                (line.debit_survivor, factors.survivor),
            ] {
                position.half_factors += (amount != 0) as i128 * factor * PENNY / 200;
            }
            position.scheme_pays_revaluation += scheme_pays_revaluation(case, line, &factors);
            position.divorced |= line.has_divorce_debit();
        }
        position.above_exact = gross * PENNY - position.exact;
        position
    }

    fn distance(&self) -> i128 {
        self.above_exact.abs()
    }

    fn bound(&self) -> i128 {
        self.half_factors + PENNY
    }

    /// Within the bound, and within half a penny less where there is no divorce debit.
    fn near(&self) -> bool {
        self.distance() <= self.bound() && (self.divorced || self.distance() <= self.bound() - PENNY / 2)
    }

    /// The share of the bound that is reached.
    fn share(&self) -> f64 {
        self.distance() as f64 / self.bound() as f64
    }
}

/// Wrong statements, and whether a case shows that one is wrong.
const WRONG_STATEMENTS: [(&str, fn(&Position) -> bool); 4] = [
    ("beyond it without the penny", |p| p.distance() > p.half_factors),
    ("beyond it, each factor once", |p| p.distance() > p.half_factors / 2 + PENNY),
    ("beyond it, Scheme Pays revalued", |p| (p.above_exact + p.scheme_pays_revaluation).abs() > p.bound()),
    ("exact value below zero", |p| p.exact < 0),
];

/// How many cases lie within the bound, the largest share of it that one reached, and how many show each wrong statement to be wrong.
#[derive(Default)]
pub struct Nearness {
    cases: u64,
    largest_share: f64,
    shown_wrong: [u64; WRONG_STATEMENTS.len()],
}

impl Nearness {
    /// Checks and counts an accepted case.
    pub fn check(&mut self, model: &Model, case: &Case, gross: i128) -> Result<(), String> {
        let position = Position::of(model, case, gross);
        if !position.near() {
            let (distance, bound) = (position.distance(), position.bound());
            return Err(format!("{distance} millionths of a penny from the exact value, bound {bound}: {case:?}"));
        }
        self.cases += 1;
        self.largest_share = self.largest_share.max(position.share());
        for (n, (_, shows)) in self.shown_wrong.iter_mut().zip(WRONG_STATEMENTS) {
            *n += shows(&position) as u64;
        }
        Ok(())
    }

    /// The same of a block, where its case is accepted.
    pub fn check_block(&mut self, model: &Model, block: &[u8]) -> Result<(), String> {
        match model.answer(block) {
            (_, Ok(payment)) => self.check(model, &case_of(block), payment.gross),
            _ => Ok(()),
        }
    }
}

/// The gross value that the library pays for a case without an underpin.
fn paid_gross(lent: &mut Lent, block: &Block) -> Option<i128> {
    parse(&line_of(lent, block))?.gross_without_underpin()
}

/// Cases with their exact value, their gross value in pence and the bound, all worked out by hand.
fn figures() -> [(Block, i128, i128, i128); 6] {
    let near_the_bound = [
        (at::PENSION, 25_000),
        (at::LUMP, 5_000),
        (at::SURVIVOR, 5_000),
        (at::DEBIT_PENSION, 641),
        (at::DEBIT_LUMP, 641),
        (at::DEBIT_SURVIVOR, 641),
    ];
    [
        // 684,000 x 17.24 + 1,710,000 x 0.84 + 327,750 x 1.47 - 2,000 x 11.73 = 13,686,892.5; half of 19.55 and 1 = 10.775.
        (a_of_001(), 13_686_892_500_000, 13_686_893, 10_775_000),
        // 266,500 x 9.27 + 89,943.75 x 1.33 = 2,590,080.1875; half of 10.60 and 1 = 6.30.
        (b_of_003(), 2_590_080_187_500, 2_590_081, 6_300_000),
        // 367,360 x 16.65 + 123,984 x 1.60 = 6,314,918.4; half of 18.25 and 1 = 10.125.
        (c_of_003(), 6_314_918_400_000, 6_314_918, 10_125_000),
        // 1,272,375 x 12.84 + 3,685,500 x 0.71 + 592,371 x 1.46 = 19,818,861.66; half of 15.01 and 1 = 8.505.
        (d_of_001(), 19_818_861_660_000, 19_818_862, 8_505_000),
        // 25,097.5 x 18.05 + 5,019.5 x (0.88 + 1.50) = 464,956.285, less 643.4999 x 20.43 = 13,146.702957.
        // Rounded 25,098 x 18.05 + 5,020 x 2.38 = 464,966.5, so 464,967, less 643 x 20.43 = 13,136.49, so 13,136.
        (aged_54(10_039, &near_the_bound), 451_809_582_043, 451_831, 21_430_000),
        // 1.5 x 18.05 - 2 x 18.05 = -9.025; rounded 2 - 2 = 0.
        (aged_54(15_000, &[(at::PENSION, 1), (at::SCHEME_PAYS, 2)]), -9_025_000, 0, 10_025_000),
    ]
}

fn try_figures(model: &Model) -> Result<u64, String> {
    let figures = figures().map(|(block, exact, gross, bound)| (sealed(block), exact, gross, bound));
    for (place, (block, exact, gross, bound)) in figures.iter().enumerate() {
        let position = Position::of(model, &case_of(&block.0), *gross);
        let paid = paid_gross(&mut Lent::new(), block);
        if (position.exact, paid, position.bound()) != (*exact, Some(*gross), *bound) || !position.near() {
            return Err(format!("exact value, figure {place}: {}, {paid:?}, {}", position.exact, position.bound()));
        }
    }
    Ok(figures.len() as u64)
}

/// An amount of a block that the search draws again. Revalued, it has these ten-thousandths of a penny over.
#[derive(Clone, Copy)]
struct Drawn {
    start: usize,
    field: usize,
    over: u64,
}

/// Draws the amount. Divorce debits are well below benefits, so that they are worth less.
fn draw_again(random: &mut Random, block: &mut Block, drawn: Drawn) {
    let least = amount_with_over(block.revaluation(), drawn.over);
    let divorce = at::DIVORCE.contains(&drawn.field);
    let ten_thousands = if divorce { random.below(1_000) } else { 1_000 + random.below(98_000) };
    block.put_amount(drawn.start, drawn.field, least + 10_000 * ten_thousands);
}

/// A revaluation factor with which some amount has any ten-thousandths of a penny over.
fn coprime_revaluation(random: &mut Random) -> u64 {
    loop {
        let revaluation = random.between(10_000, 100_000) as u64;
        if is_coprime(revaluation) {
            return revaluation;
        }
    }
}

/// A case without an underpin in which every rounding of an amount moves the gross value the same way: either benefits go up by
/// half a penny and divorce debits down by nearly as much, or the other way round.
fn draw_far(model: &Model, random: &mut Random, kind: u64) -> (Block, Vec<Drawn>) {
    let mut block = acceptable_of(model, random, kind);
    block.set_flag(TRANSFERRED_IN, false);
    block.put(at::TRANSFER_IN, 8, 0);
    block.set_flag(CHOICE_OPTANT, kind == 3);
    block.put(at::REVALUATION, 4, coprime_revaluation(random));
    let (benefits, debits) = random.pick(&[(5_000, 4_999), (4_999, 5_000)]);
    let mut all = Vec::new();
    for &start in &at::LINES[..block.count()] {
        for field in at::AMOUNTS {
            let reduction = at::REDUCTIONS.contains(&field) && block.takes(field);
            block.put_amount(start, field, if reduction { random.below(1_000) } else { 0 });
        }
        let drawn = [at::PENSION, at::SURVIVOR, at::LUMP].map(|field| Drawn { start, field, over: benefits });
        all.extend(drawn.into_iter().chain(at::DIVORCE.map(|field| Drawn { start, field, over: debits })));
    }
    all.retain(|drawn| block.takes(drawn.field));
    for &drawn in &all {
        draw_again(random, &mut block, drawn);
    }
    (block, all)
}

fn distance_of(model: &Model, block: &Block) -> Option<i128> {
    let case = case_of(&block.0);
    let payment = model.value(&case).ok()?;
    Some(Position::of(model, &case, payment.gross).distance())
}

/// Draws one amount after the other again, and keeps it unless the gross value then lies nearer.
fn search(model: &Model, random: &mut Random, kind: u64) -> Option<Block> {
    let (mut block, all) = draw_far(model, random, kind);
    let mut furthest = distance_of(model, &block)?;
    for _ in 0..300 {
        let drawn = random.pick(&all);
        let before = block.amount(drawn.start, drawn.field);
        draw_again(random, &mut block, drawn);
        let distance = distance_of(model, &block)?;
        if distance < furthest {
            block.put_amount(drawn.start, drawn.field, before);
        } else {
            furthest = distance;
        }
    }
    block.seal();
    Some(block)
}

/// Searches so many times for cases of a kind far from their exact value, and checks the library's gross value of each.
fn search_kind(model: &Model, searches: u64, seed: u64, kind: u64) -> Result<Nearness, String> {
    let lent = &mut Lent::new();
    let mut found = Nearness::default();
    for index in 0..searches {
        let failed = |what: &str| format!("{what}: seed {seed}, search {index} in kind {kind}");
        let random = &mut Random::new(seed, 6 + kind, index);
        let block = search(model, random, kind).ok_or_else(|| failed("not a case that is paid"))?;
        let gross = paid_gross(lent, &block).ok_or_else(|| failed("an accepted case is not paid"))?;
        let checked = found.check(model, &case_of(&block.0), gross);
        checked.map_err(|e| format!("{}: {e}, {}", failed("too far off"), hex(&block.0)))?;
    }
    if found.largest_share < 0.999 {
        return Err(format!("kind {kind}: the search came no nearer to the bound than {}", found.largest_share));
    }
    Ok(found)
}

/// Counts of cases, and the largest shares of the bound, each with its name.
pub struct Report {
    pub counts: Vec<(String, u64)>,
    pub shares: Vec<(String, f64)>,
}

/// Adds a search in each kind to what was found of the cases drawn for other tests. Each wrong statement must be shown to be wrong as
/// often as each rule must be reached.
pub fn try_exact(model: &Model, drawn: &Nearness, searches: u64, seed: u64) -> Result<Report, String> {
    let mut counts =
        vec![("figures".into(), try_figures(model)?), ("cases drawn, within the bound".into(), drawn.cases)];
    let mut shares = vec![("largest share of it, drawn".into(), drawn.largest_share)];
    let mut shown_wrong = drawn.shown_wrong;
    for kind in KINDS {
        let found = search_kind(model, searches, seed, kind)?;
        counts.push((format!("cases searched for, kind {kind}"), found.cases));
        shares.push((format!("largest share, search, kind {kind}"), found.largest_share));
        shown_wrong.iter_mut().zip(found.shown_wrong).for_each(|(sum, n)| *sum += n);
    }
    for ((name, _), shown) in WRONG_STATEMENTS.iter().zip(shown_wrong) {
        if shown < LEAST_REACHED {
            return Err(format!("{name}: only {shown} times; seed {seed}"));
        }
        counts.push((name.to_string(), shown));
    }
    Ok(Report { counts, shares })
}
