//! No answer and no other byte depends on a byte under a mark.

use crate::calls::{Call, Outcome};
use crate::ledger::Ledger;
use outside::chance::Chance;
use outside::damage::{self, CONTENTS, MARKS};
use outside::oracle::answers::*;
use outside::oracle::bench::{self, number_of, word_of};
use outside::oracle::plan::marked;
use outside::oracle::Plan;

const STRIPES: usize = 2500;

pub fn calls(ledger: &mut Ledger) {
    let mut chance = Chance::seeded(51);
    for plan in Plan::all() {
        for _ in 0..STRIPES {
            let content = chance.pick(&CONTENTS);
            let kind = chance.pick(&MARKS);
            let stripe = damage::stripe(plan, content, &mut chance);
            let marks = damage::marks(plan, kind, &mut chance);
            let one = damage::any_under_marks(plan, &stripe, &marks, &mut chance);
            let other = damage::any_under_marks(plan, &stripe, &marks, &mut chance);
            mending(ledger, plan, &marks, [&one, &other]);
            writing(ledger, plan, &marks, [&one, &other]);
            stepping(ledger, plan, &marks, [&one, &other], &mut chance);
        }
    }
}

/// Whether two stripes are the same except for bytes under marks, and these are as they were.
fn same_but_for_marks(plan: &Plan, marks: &[u64], before: [&[u8]; 2], after: [&[u8]; 2]) -> bool {
    (0..plan.symbols()).all(|place| match marked(marks[place / plan.columns], place % plan.columns) {
        true => (0..2).all(|side| after[side][place] == before[side][place]),
        false => after[0][place] == after[1][place],
    })
}

fn mending(ledger: &mut Ledger, plan: &Plan, marks: &[u64], lent: [&[u8]; 2]) {
    let calls = lent.map(|stripe| Call::mend(plan.number, stripe, marks, &[0; REPORT_LENGTH]));
    let [one, other]: [Outcome; 2] = [ledger.hold(&calls[0]), ledger.hold(&calls[1])];
    let answers_same = one.number == other.number && one.buffers[1..] == other.buffers[1..];
    let stripes = [one.buffers[0].bytes(), other.buffers[0].bytes()];
    let words = one.buffers[1].words();
    ledger.demand(answers_same && same_but_for_marks(plan, words, lent, stripes), "mending reads under marks", &calls[1]);
}

fn writing(ledger: &mut Ledger, plan: &Plan, marks: &[u64], lent: [&[u8]; 2]) {
    let calls = lent.map(|stripe| Call::write_file(plan.number, stripe, marks, &vec![0; plan.file_length()]));
    let [one, other] = [ledger.hold(&calls[0]), ledger.hold(&calls[1])];
    ledger.demand(
        one.number == other.number && one.buffers[2] == other.buffers[2],
        "a file shows what is under marks",
        &calls[1],
    );
}

/// Ten steps in one order on both benches.
fn stepping(ledger: &mut Ledger, plan: &Plan, marks: &[u64], lent: [&[u8]; 2], chance: &mut Chance) {
    let mut benches = lent.map(|stripe| {
        let call = Call::start(plan.number, stripe, marks, &[0; BENCH_LENGTH]);
        ledger.hold(&call).buffers[2].bytes().to_vec()
    });
    for _ in 0..10 {
        let row = chance.below(plan.rows + 2);
        let calls = [0, 1].map(|side| match row < plan.rows {
            true => Call::row_step(&benches[side], row),
            false => Call::level_step(&benches[side]),
        });
        let [one, other] = [ledger.hold(&calls[0]), ledger.hold(&calls[1])];
        benches = [one.buffers[0].bytes().to_vec(), other.buffers[0].bytes().to_vec()];
        let [symbols, behind] = [bench::SYMBOLS, bench::MARKS].map(|at| [&benches[0][at..], &benches[1][at..]]);
        let words: Vec<u64> = (0..plan.rows).map(|row| number_of(&benches[0][word_of(row)])).collect();
        let rest = behind[0] == behind[1];
        let same = one.number == other.number && rest && same_but_for_marks(plan, &words, lent, symbols);
        ledger.demand(same, "a step reads under marks", &calls[1]);
    }
}
