//! The steps of the bench: on fit benches with any learned sums and any bytes in the room beyond, and on any bytes at all.

use crate::calls::Call;
use crate::ledger::Ledger;
use outside::chance::Chance;
use outside::damage::{self, CONTENTS, MARKS};
use outside::oracle::answers::*;
use outside::oracle::bench::{sums_of, word_of, MARKS as MARKS_AT, SUMS, SYMBOLS};
use outside::oracle::Plan;

const FIT_BENCHES: usize = 1500;
const MUTATED_BENCHES: usize = 12_000;
const RANDOM_BENCHES: usize = 20_000;

/// Every row step and the level step of many fit benches, at every level.
pub fn fit_benches(ledger: &mut Ledger) {
    let mut chance = Chance::seeded(61);
    for plan in Plan::all() {
        for level in 1..=plan.last() {
            for _ in 0..FIT_BENCHES {
                let bench = fit_bench(plan, level, &mut chance);
                (0..plan.rows).for_each(|row| {
                    ledger.hold(&Call::row_step(&bench, row));
                });
                ledger.hold(&Call::level_step(&bench));
            }
        }
    }
}

/// A bench that no step refuses. Its learned sums are those of its symbols, or some of them are not; bytes under marks,
/// sums above its level and the room beyond the plan's size hold anything.
fn fit_bench(plan: &Plan, level: usize, chance: &mut Chance) -> Vec<u8> {
    let content = chance.pick(&CONTENTS);
    let kind = chance.pick(&MARKS);
    let stripe = damage::stripe(plan, content, chance);
    let marks = damage::marks(plan, kind, chance);
    let mut bench = chance.bytes(BENCH_LENGTH);
    bench[0] = plan.number as u8;
    bench[1] = level as u8;
    bench[SYMBOLS..][..plan.symbols()].copy_from_slice(&damage::any_under_marks(plan, &stripe, &marks, chance));
    for (row, word) in marks.iter().enumerate() {
        bench[word_of(row)].copy_from_slice(&word.to_le_bytes());
        let mut sums = damage::row_sums(plan, &stripe[row * plan.columns..][..plan.columns]);
        if chance.one_in(3) {
            let at = chance.below(plan.sums_to(level));
            sums[at] = chance.below(plan.q()) as u8;
        }
        bench[sums_of(row, plan.sums_to(level))].copy_from_slice(&sums[..plan.sums_to(level)]);
    }
    bench
}

/// Benches that are fit but for a few bytes, benches by chance, and benches of every length up to a little more than theirs.
pub fn any_bytes(ledger: &mut Ledger) {
    let mut chance = Chance::seeded(62);
    for _ in 0..MUTATED_BENCHES {
        let plan = damage::any_plan(&mut chance);
        let level = 1 + chance.below(plan.last());
        let mut bench = fit_bench(plan, level, &mut chance);
        for _ in 0..1 + chance.below(4) {
            let at = chance.pick(&[0, 1, SYMBOLS, MARKS_AT, SUMS]) + chance.below(20);
            bench[at] = if chance.one_in(2) { chance.byte() } else { chance.below(5) as u8 };
        }
        both_steps(ledger, &bench, &mut chance);
    }
    for _ in 0..RANDOM_BENCHES {
        let mut bench = chance.bytes(BENCH_LENGTH);
        bench[0] = chance.below(7) as u8;
        bench[1] = chance.below(5) as u8;
        let limit = chance.pick(&[1, 2, 3, 16, 17, 256]);
        bench[SYMBOLS..MARKS_AT].iter_mut().for_each(|symbol| *symbol = chance.below(limit) as u8);
        bench[SUMS..].iter_mut().for_each(|sum| *sum = chance.below(limit) as u8);
        let columns = chance.pick(&[7, 15, 24, 32, 64]);
        bench[MARKS_AT..SUMS].chunks_mut(8).for_each(|word| {
            let kept = (chance.word() & chance.word()) & (u64::MAX >> (64 - columns));
            word.copy_from_slice(&kept.to_le_bytes());
        });
        both_steps(ledger, &bench, &mut chance);
    }
    for length in 0..BENCH_LENGTH + 40 {
        let bench = chance.bytes(length);
        both_steps(ledger, &bench, &mut chance);
    }
}

fn both_steps(ledger: &mut Ledger, bench: &[u8], chance: &mut Chance) {
    let row = if chance.one_in(8) { chance.word() as usize } else { chance.below(13) };
    ledger.hold(&Call::row_step(bench, row));
    ledger.hold(&Call::level_step(bench));
}
