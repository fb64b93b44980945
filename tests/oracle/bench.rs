//! The bench and its steps, on the 838 bytes that hold it.
//! A step asks whether what is missing of one row's sums, or of one level's totals, is a sum of what the unknown bits add to
//! them, and whether of one choice of them alone.

use super::answers::*;
use super::binary::{total, Bits, Span};
use super::plan::{marked, Plan};
use std::ops::Range;

/// Where the parts of a bench begin: 512 symbols, 12 mark words of 8 bytes, 19 sums for each of 12 rows.
pub const LEVEL: usize = 1;
pub const SYMBOLS: usize = 2;
pub const MARKS: usize = 514;
pub const SUMS: usize = 610;
const WORD: usize = 8;
const SUMS_OF_A_ROW: usize = 19;

/// Where a row's mark word stands, low byte first.
pub fn word_of(row: usize) -> Range<usize> {
    MARKS + WORD * row..MARKS + WORD * (row + 1)
}

/// Where so many of a row's learned sums stand.
pub fn sums_of(row: usize, count: usize) -> Range<usize> {
    let first = SUMS + SUMS_OF_A_ROW * row;
    first..first + count
}

/// The first of the refusals 12 and 13 that a stripe and its marks call for.
pub fn marks_and_symbols_refusal(plan: &Plan, stripe: &[u8], marks: &[u64]) -> Result<(), usize> {
    if marks.iter().any(|&word| (plan.columns..64).any(|column| marked(word, column))) {
        return Err(MARK_OUTSIDE);
    }
    let too_large = |place: usize| stripe[place] as usize >= plan.q();
    let known = |place: usize| !marked(marks[place / plan.columns], place % plan.columns);
    if (0..plan.symbols()).any(|place| known(place) && too_large(place)) {
        return Err(NOT_BELOW_Q);
    }
    Ok(())
}

/// The plan, unless a stripe, its marks and whatever else is lent are to be refused.
pub fn lent(plan: usize, stripe: &[u8], marks: &[u64], rest_fits: impl Fn(&Plan) -> bool) -> Result<&'static Plan, usize> {
    let plan = Plan::numbered(plan).ok_or(UNKNOWN_PLAN)?;
    if stripe.len() != plan.symbols() || marks.len() != plan.rows || !rest_fits(plan) {
        return Err(WRONG_LENGTH);
    }
    marks_and_symbols_refusal(plan, stripe, marks)?;
    Ok(plan)
}

/// A fresh bench. One of wrong length stays as it is; one of the right length is all 0 after a refusal.
pub fn start(plan: usize, stripe: &[u8], marks: &[u64], bench: &mut [u8]) -> usize {
    let fits = bench.len() == BENCH_LENGTH;
    let refusal = lent(plan, stripe, marks, |_| fits).err();
    if fits {
        bench.fill(0);
    }
    if let Some(number) = refusal {
        return number;
    }
    bench[0] = plan as u8;
    bench[LEVEL] = 1;
    bench[SYMBOLS..SYMBOLS + stripe.len()].copy_from_slice(stripe);
    for (row, word) in marks.iter().enumerate() {
        bench[word_of(row)].copy_from_slice(&word.to_le_bytes());
    }
    DONE
}

/// What the 838 bytes say, once none of it is refused.
pub struct Bench {
    pub plan: &'static Plan,
    pub level: usize,
    pub symbols: Vec<u8>,
    pub marks: Vec<u64>,
}

/// Reads a bench, or says why a step refuses it: 10, 15, 12 or 13. A bench of wrong length is 11 before all.
pub fn read(bench: &[u8]) -> Result<Bench, usize> {
    if bench.len() != BENCH_LENGTH {
        return Err(WRONG_LENGTH);
    }
    let plan = Plan::numbered(bench[0] as usize).ok_or(UNKNOWN_PLAN)?;
    let level = bench[LEVEL] as usize;
    if level < 1 || level > plan.last() {
        return Err(LEVEL_OUTSIDE);
    }
    let symbols = bench[SYMBOLS..][..plan.symbols()].to_vec();
    let marks: Vec<u64> = (0..plan.rows).map(|row| number_of(&bench[word_of(row)])).collect();
    marks_and_symbols_refusal(plan, &symbols, &marks)?;
    let mut sums = (0..plan.rows).flat_map(|row| &bench[sums_of(row, plan.sums_to(level))]);
    if sums.any(|&sum| sum as usize >= plan.q()) {
        return Err(NOT_BELOW_Q);
    }
    Ok(Bench { plan, level, symbols, marks })
}

/// The number of some bytes, low byte first.
pub fn number_of(bytes: &[u8]) -> u64 {
    bytes.iter().rev().fold(0, |sum, &byte| sum << 8 | byte as u64)
}

/// A row's learned sums up to the bench's level.
fn learned(bench: &[u8], plan: &Plan, level: usize, row: usize) -> Bits {
    let sums = bench[sums_of(row, plan.sums_to(level))].iter().enumerate();
    sums.fold(Bits::default(), |all, (j, &sum)| all.plus(Bits::number(plan.sum_at(row, j), sum)))
}

/// The sums of all levels that the unmarked symbols of one row have.
fn known_sums(plan: &Plan, symbols: &[u8], row: usize, word: u64) -> Bits {
    let bits = plan.set_bits(symbols, |at, column| at == row && !marked(word, column));
    total(bits.map(|(row, column, bit)| plan.row_share(row, column, bit)))
}

pub fn row_step(bench: &mut [u8], row: usize) -> usize {
    let Bench { plan, level, symbols, marks } = match read(bench) {
        Ok(held) => held,
        Err(number) => return number,
    };
    if row >= plan.rows {
        return ROW_OUTSIDE;
    }
    let word = marks[row];
    let unknown = plan.bits_of(|at, column| at == row && marked(word, column));
    let checks = plan.up_to(level);
    let columns = Span::of(unknown.iter().map(|&(row, column, bit)| plan.row_share(row, column, bit).within(checks)));
    let missing = known_sums(plan, &symbols, row, word).within(checks).plus(learned(bench, plan, level, row));
    let Some(ones) = columns.reach(missing) else { return CLASH };
    if !columns.independent() {
        return TIED;
    }
    if word == 0 {
        return WHOLE;
    }
    let at = |column: usize| SYMBOLS + row * plan.columns + column;
    unknown.iter().for_each(|&(_, column, _)| bench[at(column)] = 0);
    for (n, &(_, column, bit)) in unknown.iter().enumerate() {
        bench[at(column)] |= (ones.has(n) as u8) << bit;
    }
    bench[word_of(row)].fill(0);
    FILLED
}

pub fn level_step(bench: &mut [u8]) -> usize {
    let Bench { plan, level, symbols, marks } = match read(bench) {
        Ok(held) => held,
        Err(number) => return number,
    };
    if level == plan.last() {
        return TOP;
    }
    let next = level + 1;
    let first = plan.sums_to(level);
    let (unknown, known): (Vec<_>, Vec<_>) = plan.sum_bits(next).partition(|&(row, _, _)| marks[row] != 0);
    let weights = Span::of(unknown.iter().map(|&(row, sum, bit)| *plan.total_share(next, row, sum, bit)));
    let own: Vec<Bits> = (0..plan.rows).map(|row| known_sums(plan, &symbols, row, 0)).collect();
    let is_set = |row: usize, sum: usize, bit: usize| own[row].has(plan.sum_at(row, first + sum) + bit);
    let ones = known.iter().filter(|&&(row, sum, bit)| is_set(row, sum, bit));
    let totals = total(ones.map(|&(row, sum, bit)| plan.total_share(next, row, sum, bit)));
    let Some(found) = weights.reach(totals) else { return CLASH };
    if !weights.independent() {
        return BLOCKED;
    }
    let at = |row: usize, sum: usize| sums_of(row, 0).start + first + sum;
    unknown.iter().chain(&known).for_each(|&(row, sum, _)| bench[at(row, sum)] = 0);
    for &(row, sum, bit) in &known {
        bench[at(row, sum)] |= (is_set(row, sum, bit) as u8) << bit;
    }
    for (n, &(row, sum, bit)) in unknown.iter().enumerate() {
        bench[at(row, sum)] |= (found.has(n) as u8) << bit;
    }
    bench[LEVEL] = next as u8;
    RAISED
}
