//! Tied rows and failing levels, by construction: a row whose columns are dependent and that nothing fills is a Clash, and in
//! plans 3 and 4 there is none; a level is a Clash where its totals fail, and never where the weight columns are dependent. The answers
//! held here are those of the construction, beside the independent decoder's.

use crate::calls::Call;
use crate::ledger::{differ, Ledger};
use outside::chance::Chance;
use outside::contradiction;
use outside::damage;
use outside::oracle::answers::*;
use outside::oracle::bench::{sums_of, word_of, SYMBOLS};
use outside::oracle::plan::share;
use outside::oracle::Plan;
use std::cmp::Ordering;
use std::collections::BTreeSet;

const ROWS_OF_A_LEVEL: usize = 1200;
const STRIPES_OF_A_LEVEL: usize = 600;
const OVERFULL_STRIPES: usize = 600;
const ROUNDS_OF_LEVELS: usize = 4;
/// Rows of plan 4 with each number of marks, at each level.
const ROWS_OF_A_COUNT: usize = 400;

/// Every plan with each of its levels from one on.
fn levels(first: usize) -> impl Iterator<Item = (&'static Plan, usize)> {
    Plan::all().flat_map(move |plan| (first..=plan.last()).map(move |level| (plan, level)))
}

/// A bench at a level with any learned sums; bytes under marks, sums above its level and the room beyond the plan's size
/// hold anything.
fn any_bench(plan: &Plan, level: usize, stripe: &[u8], marks: &[u64], chance: &mut Chance) -> Vec<u8> {
    let mut bench = chance.bytes(BENCH_LENGTH);
    bench[..2].copy_from_slice(&[plan.number as u8, level as u8]);
    bench[SYMBOLS..][..plan.symbols()].copy_from_slice(&damage::any_under_marks(plan, stripe, marks, chance));
    for (row, word) in marks.iter().enumerate() {
        bench[word_of(row)].copy_from_slice(&word.to_le_bytes());
        bench[sums_of(row, plan.sums_to(level))].fill_with(|| chance.below(plan.q()) as u8);
    }
    bench
}

/// The same with the sums that the stripe has.
fn true_bench(plan: &Plan, level: usize, stripe: &[u8], marks: &[u64], chance: &mut Chance) -> Vec<u8> {
    let mut bench = any_bench(plan, level, stripe, marks, chance);
    for (row, symbols) in stripe.chunks(plan.columns).enumerate() {
        let sums = &damage::row_sums(plan, symbols)[..plan.sums_to(level)];
        bench[sums_of(row, sums.len())].copy_from_slice(sums);
    }
    bench
}

/// Holds a step that changes nothing to its number.
fn idle_step(ledger: &mut Ledger, call: &Call, number: usize, what: &str) {
    let outcome = ledger.hold(call);
    ledger.demand(outcome.number == number && outcome.buffers == call.buffers, what, call);
}

// ---- tied rows of the binary plans

/// Row steps at each level, and mending that comes to a Clash at each.
pub fn contradictions(ledger: &mut Ledger) {
    let mut chance = Chance::seeded(141);
    for (plan, level) in levels(1).filter(|(plan, _)| plan.width == 1) {
        let mut seen = BTreeSet::new();
        for _ in 0..ROWS_OF_A_LEVEL {
            let Some((word, column)) = contradiction::tied(plan, level, &mut chance) else { continue };
            row_steps(ledger, plan, level, word, column, &mut chance);
            seen.insert((word.count_ones() as usize).cmp(&plan.sums_to(level)));
        }
        let mended = mending(ledger, plan, level, &mut chance);
        if seen != marks_against_sums(plan, level) || mended != seen {
            differ(&format!("plan {}, level {level}: tied rows with {seen:?}, {mended:?} marks than sums", plan.number));
        }
    }
    for plan in [2, 5].into_iter().filter_map(Plan::numbered) {
        (0..OVERFULL_STRIPES).for_each(|_| overfull(ledger, plan, &mut chance));
    }
}

/// How many marks the tied rows have that can contradict themselves, against their sums. In plan 1 a mark gives a row any
/// parity, so there is none at level 1; and at level 2 any five columns give it any sums, and any three are independent. In
/// plans 2 and 5 there are some with fewer marks than sums, with as many and with more.
fn marks_against_sums(plan: &Plan, level: usize) -> BTreeSet<Ordering> {
    match (plan.number, level) {
        (1, 1) => BTreeSet::new(),
        (1, _) => BTreeSet::from([Ordering::Equal]),
        _ => BTreeSet::from([Ordering::Less, Ordering::Equal, Ordering::Greater]),
    }
}

/// A row with its true sums is tied. With one unmarked symbol changed it is a Clash, with its share in the learned sums too it is
/// tied again, and with these alone changed it is a Clash.
fn row_steps(ledger: &mut Ledger, plan: &Plan, level: usize, word: u64, column: usize, chance: &mut Chance) {
    let stripe = chance.bytes_below(2, plan.symbols());
    let row = chance.below(plan.rows);
    let mut marks: Vec<u64> = (0..plan.rows).map(|_| damage::columns(chance.below(4), plan, chance)).collect();
    marks[row] = word;
    let mut bench = true_bench(plan, level, &stripe, &marks, chance);
    idle_step(ledger, &Call::row_step(&bench, row), TIED, "a row that has fillings is not tied");
    bench[SYMBOLS + row * plan.columns + column] ^= 1;
    idle_step(ledger, &Call::row_step(&bench, row), CLASH, "a tied row without fillings is no Clash");
    let sums = &mut bench[sums_of(row, plan.sums_to(level))];
    let shares = (1..=level).flat_map(|level| share(plan.number, level, column, 1));
    sums.iter_mut().zip(shares).for_each(|(sum, more)| *sum ^= more);
    idle_step(ledger, &Call::row_step(&bench, row), TIED, "a row that has other sums is not tied");
    bench[SYMBOLS + row * plan.columns + column] ^= 1;
    idle_step(ledger, &Call::row_step(&bench, row), CLASH, "a tied row that lacks its sums is no Clash");
}

/// Codewords in which one row alone keeps its marks. They are Stuck at the last level or restored; once an unmarked symbol of
/// the row is changed they are a Clash in it, at the first level whose checks see the change. Says how many marks against its
/// sums the row had where that is this level.
fn mending(ledger: &mut Ledger, plan: &Plan, level: usize, chance: &mut Chance) -> BTreeSet<Ordering> {
    let mut seen = BTreeSet::new();
    for _ in 0..STRIPES_OF_A_LEVEL {
        let Some((word, column)) = contradiction::tied(plan, level, chance) else { continue };
        let mut stripe = damage::codeword(plan, chance);
        let row = chance.below(plan.rows);
        // one mark in a row is filled at level 1
        let mut marks: Vec<u64> = (0..plan.rows).map(|_| damage::columns(chance.below(2), plan, chance)).collect();
        marks[row] = word;
        let call = mend_call(plan, &stripe, &marks, chance);
        let number = ledger.hold(&call).number;
        ledger.demand(number != CLASH, "a codeword clashes", &call);
        stripe[row * plan.columns + column] ^= 1;
        let at = contradiction::level_of(plan, word, column).expect("a level that sees the change");
        hold_clash(ledger, &mend_call(plan, &stripe, &marks, chance), row, at);
        if at == level {
            seen.insert((word.count_ones() as usize).cmp(&plan.sums_to(level)));
        }
    }
    seen
}

fn mend_call(plan: &Plan, stripe: &[u8], marks: &[u64], chance: &mut Chance) -> Call {
    let lent = damage::any_under_marks(plan, stripe, marks, chance);
    Call::mend(plan.number, &lent, marks, &chance.bytes(REPORT_LENGTH))
}

/// Holds mending to a Clash in a row: the place, and stripe and marks as they were.
fn hold_clash(ledger: &mut Ledger, call: &Call, row: usize, level: usize) {
    let outcome = ledger.hold(call);
    let report = [0, 0, 0, 0, 0, IN_A_ROW, row as u8, level as u8];
    let met = outcome.number == CLASH && outcome.buffers[2].bytes() == report && outcome.buffers[..2] == call.buffers[..2];
    ledger.demand(met, "a tied row without fillings is not named", call);
}

/// Every row of plan 2 or 5 has more marks than sums: Stuck at level 1, and nothing changes. Once some of the rows contradict
/// themselves, the first of them is named.
fn overfull(ledger: &mut Ledger, plan: &Plan, chance: &mut Chance) {
    let rows: Vec<(u64, usize)> = (0..plan.rows).map(|_| overfull_row(plan, chance)).collect();
    let marks: Vec<u64> = rows.iter().map(|&(word, _)| word).collect();
    let mut stripe = damage::codeword(plan, chance);
    let call = mend_call(plan, &stripe, &marks, chance);
    let outcome = ledger.hold(&call);
    let report = [1, plan.rows as u8, 0, 0, 0, 0, 0, 0];
    let met = outcome.number == STUCK && outcome.buffers[2].bytes() == report && outcome.buffers[..2] == call.buffers[..2];
    ledger.demand(met, "a codeword with too many marks in every row is not Stuck at level 1", &call);
    let wrong = chance.below(plan.rows);
    for row in (wrong..plan.rows).filter(|&row| row == wrong || row % 2 == 0) {
        stripe[row * plan.columns + rows[row].1] ^= 1;
    }
    hold_clash(ledger, &mend_call(plan, &stripe, &marks, chance), wrong, 1);
}

/// More marks than sums at level 1, and an unmarked column whose change leaves no filling there.
fn overfull_row(plan: &Plan, chance: &mut Chance) -> (u64, usize) {
    loop {
        let Some((word, column)) = contradiction::tied(plan, 1, chance) else { continue };
        if word.count_ones() as usize > plan.sums_to(1) {
            return (word, column);
        }
    }
}

// ---- rows of plans 3 and 4

/// Every mark word of a row of plan 3 at every level, and of plan 4 every number of marks in columns by chance, with any symbols and any
/// learned sums.
pub fn power_sums(ledger: &mut Ledger) {
    let mut chance = Chance::seeded(142);
    let [third, fourth] = [3, 4].map(|number| Plan::numbered(number).expect("a plan"));
    for level in 1..=third.last() {
        (0..1 << third.columns).for_each(|word| marks_against_power_sums(ledger, third, level, word, &mut chance));
    }
    for level in 1..=fourth.last() {
        for count in (0..ROWS_OF_A_COUNT).flat_map(|_| 0..=fourth.columns) {
            let word = damage::columns(count, fourth, &mut chance);
            marks_against_power_sums(ledger, fourth, level, word, &mut chance);
        }
    }
    overfull_stripes(ledger, third, &mut chance);
    overfull_stripes(ledger, fourth, &mut chance);
}

/// With more marks than sums a row is tied and has fillings; with as many it has one; with fewer one or none.
fn marks_against_power_sums(ledger: &mut Ledger, plan: &Plan, level: usize, word: u64, chance: &mut Chance) {
    let row = chance.below(plan.rows);
    let stripe = chance.bytes_below(plan.q(), plan.symbols());
    let mut marks: Vec<u64> = (0..plan.rows).map(|_| chance.word() & ((1 << plan.columns) - 1)).collect();
    marks[row] = word;
    let call = Call::row_step(&any_bench(plan, level, &stripe, &marks, chance), row);
    let outcome = ledger.make(&call);
    let unchanged = outcome.buffers == call.buffers;
    let met = match (word.count_ones() as usize).cmp(&plan.sums_to(level)) {
        Ordering::Greater => outcome.number == TIED && unchanged,
        Ordering::Equal => outcome.number == FILLED,
        Ordering::Less if word == 0 => matches!(outcome.number, WHOLE | CLASH) && unchanged,
        Ordering::Less => outcome.number == FILLED || outcome.number == CLASH && unchanged,
    };
    ledger.demand(met, "a row of power sums is not answered by its number of marks", &call);
}

/// Stripes of any symbols in which every row has more marks than sums at level 1: Stuck there, and nothing changes.
fn overfull_stripes(ledger: &mut Ledger, plan: &Plan, chance: &mut Chance) {
    for _ in 0..OVERFULL_STRIPES {
        let count = |chance: &mut Chance| 3 + chance.below(plan.columns - 2);
        let marks: Vec<u64> = (0..plan.rows).map(|_| damage::columns(count(chance), plan, chance)).collect();
        let stripe = chance.bytes_below(plan.q(), plan.symbols());
        let call = mend_call(plan, &stripe, &marks, chance);
        let outcome = ledger.hold(&call);
        let met = outcome.number == STUCK && outcome.buffers[..2] == call.buffers[..2];
        ledger.demand(met, "a stripe of power sums with too many marks in every row is not Stuck", &call);
    }
}

// ---- levels

/// The level step with every set of rows that have marks. As many weight columns as there are totals are independent: with more
/// rows lost it is Blocked and with as many Raised, whatever the symbols; with fewer it is Raised on a codeword, and a Clash
/// once a symbol of a row without marks is changed that the level's checks see.
pub fn failing_levels(ledger: &mut Ledger) {
    let mut chance = Chance::seeded(143);
    for (plan, next) in levels(2) {
        // plan 4 has sixteen times as many sets
        let rounds = if plan.rows > 8 { 1 } else { ROUNDS_OF_LEVELS };
        for set in 0..1usize << plan.rows {
            for _ in 0..rounds {
                let any_word = |chance: &mut Chance| damage::columns(1 + chance.below(plan.columns), plan, chance);
                let word = |row: usize| if set >> row & 1 == 1 { any_word(&mut chance) } else { 0 };
                let marks: Vec<u64> = (0..plan.rows).map(word).collect();
                lost_rows(ledger, plan, next, &marks, &mut chance);
            }
        }
    }
}

fn lost_rows(ledger: &mut Ledger, plan: &Plan, next: usize, marks: &[u64], chance: &mut Chance) {
    let lost = marks.iter().filter(|&&word| word != 0).count();
    let (of_codeword, of_other) = match lost.cmp(&plan.levels[next - 1].weights.len()) {
        Ordering::Greater => (BLOCKED, BLOCKED),
        Ordering::Equal => (RAISED, RAISED),
        Ordering::Less => (RAISED, CLASH),
    };
    let word = damage::codeword(plan, chance);
    level_step(ledger, plan, next, &word, marks, of_codeword, chance);
    let other = match of_other {
        CLASH => with_another_sum(plan, next, &word, marks, chance),
        _ => chance.bytes_below(plan.q(), plan.symbols()),
    };
    level_step(ledger, plan, next, &other, marks, of_other, chance);
}

fn level_step(
    ledger: &mut Ledger,
    plan: &Plan,
    next: usize,
    stripe: &[u8],
    marks: &[u64],
    number: usize,
    chance: &mut Chance,
) {
    let call = Call::level_step(&true_bench(plan, next - 1, stripe, marks, chance));
    let outcome = ledger.hold(&call);
    let met = outcome.number == number && (number == RAISED || outcome.buffers == call.buffers);
    ledger.demand(met, "a level is not answered by its lost rows", &call);
}

/// The stripe with a symbol of a row without marks changed, so that the row's sums of a level are others.
fn with_another_sum(plan: &Plan, level: usize, stripe: &[u8], marks: &[u64], chance: &mut Chance) -> Vec<u8> {
    let rows: Vec<usize> = (0..plan.rows).filter(|&row| marks[row] == 0).collect();
    let is_seen = |column: &usize| share(plan.number, level, *column, 1).iter().any(|&part| part != 0);
    let columns: Vec<usize> = (0..plan.columns).filter(is_seen).collect();
    let mut other = stripe.to_vec();
    other[chance.pick(&rows) * plan.columns + chance.pick(&columns)] ^= 1 + chance.below(plan.q() - 1) as u8;
    other
}
