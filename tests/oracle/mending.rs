//! Mending in one call, a level at a time: the checks of all rows up to the level are one system,
//! whose unknowns are the bits of all marked places. It does not use the steps of the bench.

use super::answers::*;
use super::bench::lent;
use super::binary::{total, Bits, Span};
use super::plan::{marked, Plan};

/// What mending comes to.
pub struct Mended {
    pub answer: usize,
    pub report: [u8; REPORT_LENGTH],
    pub stripe: Vec<u8>,
    pub marks: Vec<u64>,
}

pub fn mend(plan: usize, stripe: &mut [u8], marks: &mut [u64], report: &mut [u8]) -> usize {
    let fits = report.len() == REPORT_LENGTH;
    let plan = match lent(plan, stripe, marks, |_| fits) {
        Ok(plan) => plan,
        Err(number) => return number,
    };
    let end = mended(plan, stripe, marks);
    stripe.copy_from_slice(&end.stripe);
    marks.copy_from_slice(&end.marks);
    report.copy_from_slice(&end.report);
    end.answer
}

/// Mends a stripe that nothing refuses.
pub fn mended(plan: &Plan, stripe: &[u8], marks: &[u64]) -> Mended {
    let clash = |place: u8, row: usize, level: usize| Mended {
        answer: CLASH,
        report: [0, 0, 0, 0, 0, place, row as u8, level as u8],
        stripe: stripe.to_vec(),
        marks: marks.to_vec(),
    };
    let mut work = Work { plan, level: 1, symbols: stripe.to_vec(), marks: marks.to_vec(), sums: Bits::default() };
    let mut restored = [0; 3];
    loop {
        match work.fill_rows() {
            Ok(rows) => restored[work.level - 1] = rows,
            Err(row) => return clash(IN_A_ROW, row, work.level),
        }
        match work.learn() {
            RAISED => (),
            CLASH => return clash(ACROSS, 0, work.level + 1),
            _ => break,
        }
    }
    let left = work.marks.iter().filter(|&&word| word != 0).count();
    let [first, second, third] = restored;
    Mended {
        answer: if left == 0 { RESTORED } else { STUCK },
        report: [work.level as u8, left as u8, first, second, third, 0, 0, 0],
        stripe: work.symbols,
        marks: work.marks,
    }
}

/// The stripe being mended. `sums` has the learned sums of all rows for the levels up to `level`.
struct Work<'a> {
    plan: &'a Plan,
    level: usize,
    symbols: Vec<u8>,
    marks: Vec<u64>,
    sums: Bits,
}

impl Work<'_> {
    /// The sums of all rows and levels that the unmarked symbols have.
    fn known_sums(&self) -> Bits {
        let bits = self.plan.set_bits(&self.symbols, |row, column| !marked(self.marks[row], column));
        total(bits.map(|(row, column, bit)| self.plan.row_share(row, column, bit)))
    }

    /// Fills every row whose marked columns are independent at this level, and says how many had marks;
    /// or names the first row that has no filling, be it tied or not.
    fn fill_rows(&mut self) -> Result<u8, usize> {
        let plan = self.plan;
        let unknown = plan.bits_of(|row, column| marked(self.marks[row], column));
        let checks = plan.up_to(self.level);
        let system = Span::of(unknown.iter().map(|&(row, column, bit)| plan.row_share(row, column, bit).within(checks)));
        let mut tied = vec![false; plan.rows];
        for (n, &(row, _, _)) in unknown.iter().enumerate() {
            tied[row] |= system.tied.has(n);
        }
        let missing = self.known_sums().within(checks).plus(self.sums);
        let block = |row| Bits::range(plan.sum_at(row, 0), plan.sum_at(row + 1, 0));
        let mut ones = Bits::default();
        for row in 0..plan.rows {
            ones.add(&system.reach(missing.within(&block(row))).ok_or(row)?);
        }
        for (n, &(row, column, bit)) in unknown.iter().enumerate().filter(|(_, place)| !tied[place.0]) {
            let symbol = &mut self.symbols[row * plan.columns + column];
            *symbol = if bit == 0 { 0 } else { *symbol } | (ones.has(n) as u8) << bit;
        }
        let filled = (0..plan.rows).filter(|&row| !tied[row] && self.marks[row] != 0).count();
        (0..plan.rows).filter(|&row| !tied[row]).for_each(|row| self.marks[row] = 0);
        Ok(filled as u8)
    }

    /// Learns the sums of the next level, all coordinates at once: Raised, Blocked, Clash or Top.
    fn learn(&mut self) -> usize {
        let plan = self.plan;
        if self.level == plan.last() {
            return TOP;
        }
        let next = self.level + 1;
        let at = |row, sum| plan.sum_at(row, plan.sums_to(self.level) + sum);
        let (unknown, own): (Vec<_>, Vec<_>) = plan.sum_bits(next).partition(|&(row, _, _)| self.marks[row] != 0);
        let system = Span::of(unknown.iter().map(|&(row, sum, bit)| *plan.total_share(next, row, sum, bit)));
        let known = self.known_sums();
        let (mut totals, mut sums) = (Bits::default(), self.sums);
        for (row, sum, bit) in own.into_iter().filter(|&(row, sum, bit)| known.has(at(row, sum) + bit)) {
            totals.add(plan.total_share(next, row, sum, bit));
            sums.set(at(row, sum) + bit);
        }
        let Some(ones) = system.reach(totals) else { return CLASH };
        if !system.independent() {
            return BLOCKED;
        }
        for (_, &(row, sum, bit)) in unknown.iter().enumerate().filter(|&(n, _)| ones.has(n)) {
            sums.set(at(row, sum) + bit);
        }
        (self.sums, self.level) = (sums, next);
        RAISED
    }
}
