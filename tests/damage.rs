//! Stripes and marks for the cases: whole and damaged stripes, and marks near, at and beyond the published row counts.

use crate::chance::Chance;
use crate::oracle::answers::{BENCH_LENGTH, FILLED};
use crate::oracle::plan::marked;
use crate::oracle::stripe::failing_one_check;
use crate::oracle::{bench, encode, Plan};
use std::collections::BTreeMap;
use std::sync::OnceLock;

/// One of the plans.
pub fn any_plan(chance: &mut Chance) -> &'static Plan {
    chance.pick(&Plan::all().collect::<Vec<&Plan>>())
}

/// A codeword with data by chance.
pub fn codeword(plan: &Plan, chance: &mut Chance) -> Vec<u8> {
    let data = chance.bytes_below(plan.q(), plan.carried());
    let mut stripe = vec![0; plan.symbols()];
    encode(plan.number, &data, &mut stripe);
    stripe
}

/// Kinds of stripe.
#[derive(Clone, Copy, Debug, PartialEq)]
pub enum Content {
    Zero,
    Codeword,
    /// A codeword with one symbol changed.
    OneError,
    /// A codeword with some symbols changed.
    SomeErrors,
    /// A codeword with a row added that has zero sums up to a level: its first failing totals are above that level.
    FailsAbove(usize),
    /// A codeword with a word added that fails one check and no other.
    FailsOneCheck,
    /// Symbols by chance.
    Random,
}

pub const CONTENTS: [Content; 9] = [
    Content::Zero,
    Content::Codeword,
    Content::Codeword,
    Content::OneError,
    Content::SomeErrors,
    Content::FailsAbove(1),
    Content::FailsAbove(2),
    Content::FailsOneCheck,
    Content::Random,
];

pub fn stripe(plan: &Plan, content: Content, chance: &mut Chance) -> Vec<u8> {
    match content {
        Content::Zero => vec![0; plan.symbols()],
        Content::Codeword => codeword(plan, chance),
        Content::OneError => with_errors(plan, 1, chance),
        Content::SomeErrors => {
            let errors = 1 + chance.below(6);
            with_errors(plan, errors, chance)
        }
        Content::FailsAbove(level) => failing_above(plan, level.min(plan.last()), chance),
        Content::FailsOneCheck => {
            let words = words_failing_one_check(plan);
            let check = chance.below(words.len());
            sum_of(&codeword(plan, chance), &words[check])
        }
        Content::Random => chance.bytes_below(plan.q(), plan.symbols()),
    }
}

fn sum_of(stripe: &[u8], other: &[u8]) -> Vec<u8> {
    stripe.iter().zip(other).map(|(symbol, more)| symbol ^ more).collect()
}

/// For each check of the stripe a word that fails it and no other.
pub fn words_failing_one_check(plan: &Plan) -> &'static [Vec<u8>] {
    static WORDS: OnceLock<BTreeMap<usize, Vec<Vec<u8>>>> = OnceLock::new();
    &WORDS.get_or_init(|| Plan::all().map(|plan| (plan.number, failing_one_check(plan))).collect())[&plan.number]
}

fn with_errors(plan: &Plan, errors: usize, chance: &mut Chance) -> Vec<u8> {
    let mut stripe = codeword(plan, chance);
    for place in chance.different(errors, plan.symbols()) {
        stripe[place] ^= 1 + chance.below(plan.q() - 1) as u8;
    }
    stripe
}

fn failing_above(plan: &Plan, level: usize, chance: &mut Chance) -> Vec<u8> {
    let mut stripe = codeword(plan, chance);
    let row = chance.below(plan.rows);
    let silent = silent_row(plan, level, chance);
    let symbols = &mut stripe[row * plan.columns..][..plan.columns];
    symbols.iter_mut().zip(silent).for_each(|(symbol, more)| *symbol ^= more);
    stripe
}

/// A row by chance whose sums up to a level are zero.
fn silent_row(plan: &Plan, level: usize, chance: &mut Chance) -> Vec<u8> {
    loop {
        let row = chance.bytes_below(plan.q(), plan.symbols());
        let mut marks = vec![0; plan.rows];
        marks[0] = columns(plan.sums_to(level), plan, chance);
        let mut held = vec![0; BENCH_LENGTH];
        bench::start(plan.number, &row, &marks, &mut held);
        held[1] = level as u8;
        if bench::row_step(&mut held, 0) == FILLED {
            return held[bench::SYMBOLS..][..plan.columns].to_vec();
        }
    }
}

/// Kinds of marks.
#[derive(Clone, Copy, Debug, PartialEq)]
pub enum Marks {
    None,
    One,
    /// One fewer than the distance of the row code, in each of three rows.
    ThreeRowsFull,
    /// One fewer than the distance of the stripe code, anywhere.
    BelowDistance,
    /// Within the published counts, by chance.
    Within,
    /// As many as the published counts allow.
    Edge,
    /// As many as they allow, and one more.
    Beyond,
    /// Each place with a chance of one in so many.
    Sparse(usize),
    /// Some rows with any number of marks.
    SomeRows,
    /// Some rows wholly marked.
    WholeRows,
    Everything,
}

pub const MARKS: [Marks; 14] = [
    Marks::None,
    Marks::One,
    Marks::ThreeRowsFull,
    Marks::BelowDistance,
    Marks::Within,
    Marks::Edge,
    Marks::Beyond,
    Marks::Sparse(2),
    Marks::Sparse(6),
    Marks::Sparse(12),
    Marks::SomeRows,
    Marks::SomeRows,
    Marks::WholeRows,
    Marks::Everything,
];

pub fn marks(plan: &Plan, kind: Marks, chance: &mut Chance) -> Vec<u64> {
    match kind {
        Marks::None => vec![0; plan.rows],
        Marks::One => anywhere(plan, 1, chance),
        Marks::ThreeRowsFull => {
            let rows = chance.different(3, plan.rows);
            in_rows(plan, &rows, |_, _| plan.row_distance - 1, chance)
        }
        Marks::BelowDistance => anywhere(plan, plan.distance - 1, chance),
        Marks::Within => within_counts(plan, chance),
        Marks::Edge => edge(plan, chance),
        Marks::Beyond => beyond(plan, chance),
        Marks::Sparse(n) => (0..plan.rows).map(|_| word(plan, |_| chance.one_in(n))).collect(),
        Marks::SomeRows => {
            let count = 1 + chance.below(4.min(plan.rows));
            let rows = chance.different(count, plan.rows);
            in_rows(plan, &rows, |_, chance| 1 + chance.below(plan.columns / 2 + 2), chance)
        }
        Marks::WholeRows => {
            let count = 1 + chance.below(plan.rows);
            let rows = chance.different(count, plan.rows);
            in_rows(plan, &rows, |_, _| plan.columns, chance)
        }
        Marks::Everything => vec![word(plan, |_| true); plan.rows],
    }
}

fn word(plan: &Plan, mut test: impl FnMut(usize) -> bool) -> u64 {
    (0..plan.columns).filter(|&column| test(column)).map(|column| 1 << column).sum()
}

/// A mark word with so many columns by chance.
pub fn columns(count: usize, plan: &Plan, chance: &mut Chance) -> u64 {
    chance.different(count, plan.columns).into_iter().map(|column| 1 << column).sum()
}

fn anywhere(plan: &Plan, count: usize, chance: &mut Chance) -> Vec<u64> {
    let mut marks = vec![0; plan.rows];
    for place in chance.different(count, plan.symbols()) {
        marks[place / plan.columns] |= 1 << (place % plan.columns);
    }
    marks
}

/// Marks in the named rows, as many in each as the function says for its place in the list.
fn in_rows(plan: &Plan, rows: &[usize], count: impl Fn(usize, &mut Chance) -> usize, chance: &mut Chance) -> Vec<u64> {
    let mut marks = vec![0; plan.rows];
    for (n, &row) in rows.iter().enumerate() {
        let count = count(n, chance);
        marks[row] = columns(count, plan, chance);
    }
    marks
}

/// The most marks that the published counts allow in the row with the n-th most marks, from 0.
fn allowed(plan: &Plan, n: usize) -> usize {
    let limits = plan.counts.iter().filter(|&&(_, rows)| rows <= n);
    limits.map(|&(marks, _)| marks - 1).min().unwrap_or(plan.columns)
}

fn edge(plan: &Plan, chance: &mut Chance) -> Vec<u64> {
    let rows = chance.different(plan.rows, plan.rows);
    in_rows(plan, &rows, |n, _| allowed(plan, n), chance)
}

fn within_counts(plan: &Plan, chance: &mut Chance) -> Vec<u64> {
    let rows = chance.different(plan.rows, plan.rows);
    in_rows(plan, &rows, |n, chance| chance.below(allowed(plan, n) + 1), chance)
}

fn beyond(plan: &Plan, chance: &mut Chance) -> Vec<u64> {
    let mut marks = edge(plan, chance);
    let row = chance.below(plan.rows);
    let free: Vec<usize> = (0..plan.columns).filter(|&column| !marked(marks[row], column)).collect();
    marks[row] |= 1 << chance.pick(&free);
    marks
}

/// Whether marks meet the published row counts.
pub fn meets_counts(plan: &Plan, marks: &[u64]) -> bool {
    let rows_with = |least: usize| marks.iter().filter(|word| word.count_ones() as usize >= least).count();
    plan.counts.iter().all(|&(least, rows)| rows_with(least) <= rows)
}

/// The stripe with any byte at all under each mark.
pub fn any_under_marks(plan: &Plan, stripe: &[u8], marks: &[u64], chance: &mut Chance) -> Vec<u8> {
    under_marks(plan, stripe, marks, || chance.byte())
}

/// The stripe with 0 under each mark.
pub fn zero_under_marks(plan: &Plan, stripe: &[u8], marks: &[u64]) -> Vec<u8> {
    under_marks(plan, stripe, marks, || 0)
}

fn under_marks(plan: &Plan, stripe: &[u8], marks: &[u64], mut new: impl FnMut() -> u8) -> Vec<u8> {
    let places = stripe.iter().enumerate();
    let lost = |place: usize| marked(marks[place / plan.columns], place % plan.columns);
    places.map(|(place, &symbol)| if lost(place) { new() } else { symbol }).collect()
}

/// The sums of a row at all levels, in order.
pub fn row_sums(plan: &Plan, row: &[u8]) -> Vec<u8> {
    let mut sums = vec![0; plan.sums_to(plan.last())];
    for (column, &symbol) in row.iter().enumerate() {
        sums.iter_mut().zip(plan.shares(column, symbol)).for_each(|(sum, more)| *sum ^= more);
    }
    sums
}
