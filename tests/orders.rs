//! Steps in any order, against the rounds and against mending in one call. Where a codeword agrees with the unmarked
//! symbols, every order that is carried on until no step changes anything ends with the same bench.

use crate::calls::{Call, Outcome};
use crate::ledger::Ledger;
use outside::chance::Chance;
use outside::damage::{self, Content, CONTENTS, MARKS};
use outside::oracle::answers::*;
use outside::oracle::bench::{MARKS as MARKS_AT, SYMBOLS};
use outside::oracle::Plan;

const ORDERS_TO_THE_END: usize = 1200;
const ORDERS_OF_ANY_STRIPE: usize = 1200;

pub fn calls(ledger: &mut Ledger) {
    let mut chance = Chance::seeded(71);
    for plan in Plan::all() {
        for n in 0..ORDERS_TO_THE_END {
            to_the_end(ledger, plan, MARKS[n % MARKS.len()], &mut chance);
        }
        for n in 0..ORDERS_OF_ANY_STRIPE {
            let stripe = damage::stripe(plan, CONTENTS[n % CONTENTS.len()], &mut chance);
            let kind = chance.pick(&MARKS);
            let marks = damage::marks(plan, kind, &mut chance);
            let mut bench = started(ledger, plan, &stripe, &marks);
            for _ in 0..15 {
                bench = any_step(ledger, plan, &bench, &mut chance).1;
            }
        }
    }
}

/// Two orders from one fresh bench, each carried on to its end, and mending in one call.
fn to_the_end(ledger: &mut Ledger, plan: &Plan, kind: damage::Marks, chance: &mut Chance) {
    let word = damage::stripe(plan, Content::Codeword, chance);
    let marks = damage::marks(plan, kind, chance);
    let stripe = damage::any_under_marks(plan, &word, &marks, chance);
    let fresh = started(ledger, plan, &stripe, &marks);
    let by_rounds = rounds(ledger, plan, &fresh);
    let by_chance = order_by_chance(ledger, plan, &fresh, chance);
    let call = Call::mend(plan.number, &stripe, &marks, &[0; REPORT_LENGTH]);
    let mended = ledger.hold(&call);
    ledger.demand(by_rounds == by_chance, "two orders of steps end differently", &call);
    ledger.demand(is_the_end_of(plan, &by_rounds, &mended), "steps and mending in one call end differently", &call);
}

fn started(ledger: &mut Ledger, plan: &Plan, stripe: &[u8], marks: &[u64]) -> Vec<u8> {
    let call = Call::start(plan.number, stripe, marks, &[0x5a; BENCH_LENGTH]);
    ledger.hold(&call).buffers[2].bytes().to_vec()
}

/// One step: the row of that number, or the level step for any other.
fn step(ledger: &mut Ledger, plan: &Plan, bench: &[u8], which: usize) -> (usize, Vec<u8>) {
    let call = if which < plan.rows { Call::row_step(bench, which) } else { Call::level_step(bench) };
    let Outcome { number, buffers } = ledger.hold(&call);
    let after = buffers[0].bytes().to_vec();
    let changes = matches!(number, FILLED | RAISED);
    ledger.demand(changes == (after != bench), "a step's answer and its change disagree", &call);
    (number, after)
}

fn any_step(ledger: &mut Ledger, plan: &Plan, bench: &[u8], chance: &mut Chance) -> (usize, Vec<u8>) {
    let which = chance.below(plan.rows + 2);
    step(ledger, plan, bench, which)
}

/// As many rounds as the plan has levels. Afterwards no step changes anything.
fn rounds(ledger: &mut Ledger, plan: &Plan, fresh: &[u8]) -> Vec<u8> {
    let mut bench = fresh.to_vec();
    for _ in 0..plan.last() {
        for which in 0..=plan.rows {
            bench = step(ledger, plan, &bench, which).1;
        }
    }
    let stable = is_stable(ledger, plan, &bench);
    ledger.demand(stable, "a step changes the bench after all rounds", &Call::level_step(&bench));
    bench
}

fn is_stable(ledger: &mut Ledger, plan: &Plan, bench: &[u8]) -> bool {
    (0..=plan.rows).all(|which| step(ledger, plan, bench, which).1 == bench)
}

/// Steps by chance until no step changes anything.
fn order_by_chance(ledger: &mut Ledger, plan: &Plan, fresh: &[u8], chance: &mut Chance) -> Vec<u8> {
    let mut bench = fresh.to_vec();
    let mut idle = 0;
    while idle < 3 * plan.rows || !is_stable(ledger, plan, &bench) {
        let (number, after) = any_step(ledger, plan, &bench, chance);
        ledger.demand(number != CLASH, "a step clashes though a codeword agrees", &Call::level_step(&bench));
        idle = if after == bench { idle + 1 } else { 0 };
        bench = after;
    }
    bench
}

/// Whether a bench has the stripe, the marks and the level that mending in one call came to.
fn is_the_end_of(plan: &Plan, bench: &[u8], mended: &Outcome) -> bool {
    let words: Vec<u8> = mended.buffers[1].words().iter().flat_map(|word| word.to_le_bytes()).collect();
    bench[1] == mended.buffers[2].bytes()[0]
        && bench[SYMBOLS..].starts_with(mended.buffers[0].bytes())
        && bench[MARKS_AT..].starts_with(&words)
        && mended.number == if words.iter().all(|&byte| byte == 0) { RESTORED } else { STUCK }
        && bench[SYMBOLS + plan.symbols()..MARKS_AT].iter().all(|&byte| byte == 0)
}
