//! Codeword test, encoding and extraction.

use crate::calls::Call;
use crate::ledger::Ledger;
use outside::chance::Chance;
use outside::damage::{self, CONTENTS};
use outside::oracle::answers::*;
use outside::oracle::Plan;

const DATA_BY_CHANCE: usize = 2500;
const STRIPES_OF_A_KIND: usize = 500;

pub fn calls(ledger: &mut Ledger) {
    let mut chance = Chance::seeded(31);
    for plan in Plan::all() {
        for _ in 0..DATA_BY_CHANCE {
            let data = chance.bytes_below(plan.q(), plan.carried());
            round_trip(ledger, plan, &data, &mut chance);
        }
        single_symbols(ledger, plan, &mut chance);
        for word in damage::words_failing_one_check(plan) {
            let is_codeword = one_stripe(ledger, plan, word, &mut chance);
            ledger.demand(!is_codeword, "a check is not looked at", &Call::is_codeword(plan.number, word));
        }
        for content in CONTENTS {
            for _ in 0..STRIPES_OF_A_KIND {
                let stripe = damage::stripe(plan, content, &mut chance);
                one_stripe(ledger, plan, &stripe, &mut chance);
            }
        }
    }
}

/// Each data place by itself, with each symbol.
fn single_symbols(ledger: &mut Ledger, plan: &Plan, chance: &mut Chance) {
    for place in 0..plan.carried() {
        for symbol in 1..plan.q() {
            let mut data = vec![0; plan.carried()];
            data[place] = symbol as u8;
            round_trip(ledger, plan, &data, chance);
        }
    }
}

/// Data go in and come out again, whatever stood in the stripe and in the data's buffer before.
fn round_trip(ledger: &mut Ledger, plan: &Plan, data: &[u8], chance: &mut Chance) {
    let encoding = Call::encode(plan.number, data, &chance.bytes(plan.symbols()));
    let stripe = ledger.hold(&encoding).buffers[1].bytes().to_vec();
    let test = Call::is_codeword(plan.number, &stripe);
    let answer = ledger.hold(&test).number;
    ledger.demand(answer == YES, "what was encoded is no codeword", &test);
    let extraction = Call::extract(plan.number, &stripe, &chance.bytes(plan.carried()));
    let outcome = ledger.hold(&extraction);
    ledger.demand(outcome.number == DONE && outcome.buffers[1].bytes() == data, "other data come out", &extraction);
}

/// The codeword test and extraction agree with each other, and encoding what was extracted gives the stripe again.
/// Says whether the stripe is a codeword.
fn one_stripe(ledger: &mut Ledger, plan: &Plan, stripe: &[u8], chance: &mut Chance) -> bool {
    let test = Call::is_codeword(plan.number, stripe);
    let is_codeword = ledger.hold(&test).number == YES;
    let extraction = Call::extract(plan.number, stripe, &chance.bytes(plan.carried()));
    let outcome = ledger.hold(&extraction);
    ledger.demand(is_codeword == (outcome.number == DONE), "the test and extraction disagree", &test);
    if is_codeword {
        let encoding = Call::encode(plan.number, outcome.buffers[1].bytes(), &chance.bytes(plan.symbols()));
        let again = ledger.hold(&encoding);
        ledger.demand(again.buffers[1].bytes() == stripe, "the data's codeword is another", &encoding);
    }
    is_codeword
}
