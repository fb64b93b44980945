//! Fewer losses never hurt: one codeword and two sets of marks, the first inside the second. Each row that has no mark at
//! the end under the second has none under the first, and the same symbols; and the level is no lower.

use crate::calls::{Call, Outcome};
use crate::ledger::{differ, Ledger};
use outside::chance::Chance;
use outside::damage::{self, MARKS};
use outside::oracle::answers::*;
use outside::oracle::plan::marked;
use outside::oracle::Plan;

const PAIRS: usize = 20_000;

pub fn calls(ledger: &mut Ledger) {
    let mut chance = Chance::seeded(81);
    for plan in Plan::all() {
        let (mut rows_gained, mut levels_gained) = (false, false);
        for _ in 0..PAIRS {
            let word = damage::codeword(plan, &mut chance);
            let kind = chance.pick(&MARKS);
            let second = damage::marks(plan, kind, &mut chance);
            let first = some_of(plan, &second, &mut chance);
            let [one, other] = mended(ledger, plan, &word, [&first, &second], &mut chance);
            rows_gained |= left(&one) < left(&other);
            levels_gained |= level(&one) > level(&other);
        }
        if !(rows_gained && levels_gained) {
            differ(&format!("plan {}: fewer marks never help: the cases are too few", plan.number));
        }
    }
}

/// Some of the marks: all but one, all but those of a row, or each with some chance.
fn some_of(plan: &Plan, marks: &[u64], chance: &mut Chance) -> Vec<u64> {
    let mut fewer = marks.to_vec();
    match chance.below(5) {
        0 => {
            let lost = |place: &usize| marked(marks[place / plan.columns], place % plan.columns);
            let places: Vec<usize> = (0..plan.symbols()).filter(lost).collect();
            if !places.is_empty() {
                let back = chance.pick(&places);
                fewer[back / plan.columns] &= !(1 << (back % plan.columns));
            }
        }
        1 => fewer[chance.below(plan.rows)] = 0,
        2 => fewer.iter_mut().for_each(|word| *word &= chance.word()),
        3 => fewer.iter_mut().for_each(|word| *word &= chance.word() | chance.word() | chance.word()),
        _ => fewer.iter_mut().for_each(|word| *word &= chance.word() & chance.word() & chance.word()),
    }
    fewer
}

/// Mends the codeword under both sets of marks, with any byte at all under each mark, and compares the ends.
fn mended(ledger: &mut Ledger, plan: &Plan, word: &[u8], marks: [&[u64]; 2], chance: &mut Chance) -> [Outcome; 2] {
    let calls = marks.map(|marks| {
        let lent = damage::any_under_marks(plan, word, marks, chance);
        Call::mend(plan.number, &lent, marks, &chance.bytes(REPORT_LENGTH))
    });
    let [one, other] = [ledger.make(&calls[0]), ledger.make(&calls[1])];
    for row in (0..plan.rows).filter(|&row| is_clear(&other, row)) {
        ledger.demand(is_clear(&one, row), "a row is left under fewer marks", &calls[0]);
        let of = |stripe: &[u8]| stripe[row * plan.columns..][..plan.columns].to_vec();
        let [symbols, others] = [&one, &other].map(|end| of(end.buffers[0].bytes()));
        ledger.demand(symbols == others && symbols == of(word), "a row has other symbols under fewer marks", &calls[0]);
    }
    ledger.demand(level(&one) >= level(&other), "fewer marks reach a lower level", &calls[0]);
    [one, other]
}

fn is_clear(end: &Outcome, row: usize) -> bool {
    end.buffers[1].words()[row] == 0
}

fn level(end: &Outcome) -> u8 {
    end.buffers[2].bytes()[0]
}

fn left(end: &Outcome) -> u8 {
    end.buffers[2].bytes()[1]
}
