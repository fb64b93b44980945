//! The interleaved form of plan 3 beside its own codeword test: the two give the same answer.

use crate::calls::Call;
use crate::ledger::Ledger;
use outside::chance::Chance;
use outside::damage::{self, CONTENTS};
use outside::oracle::answers::*;
use outside::oracle::interleaved::generator;
use outside::oracle::plan::times16;
use outside::oracle::Plan;

const CODEWORDS: usize = 2000;
const STRIPES_OF_A_KIND: usize = 1000;
const ANY_BYTES: usize = 2000;
/// Symbols in a row.
const COLUMNS: usize = 15;

pub fn calls(ledger: &mut Ledger) {
    let plan = Plan::numbered(3).expect("there is a plan 3");
    let mut chance = Chance::seeded(41);
    for _ in 0..CODEWORDS {
        let word = damage::codeword(plan, &mut chance);
        demand_answer(ledger, &word, YES);
        near_codewords(ledger, &word, &mut chance);
    }
    for word in damage::words_failing_one_check(plan) {
        demand_answer(ledger, word, NO);
    }
    for content in CONTENTS {
        for _ in 0..STRIPES_OF_A_KIND {
            both(ledger, &damage::stripe(plan, content, &mut chance));
        }
    }
    for _ in 0..ANY_BYTES {
        let length = chance.pick(&[0, 1, COLUMNS, 119, 120, 121, 240, 256]);
        let limit = chance.pick(&[2, 16, 17, 256]);
        both(ledger, &chance.bytes_below(limit, length));
    }
}

/// Holds both tests of a stripe to the independent decoder, and to each other. Says the answer.
fn both(ledger: &mut Ledger, stripe: &[u8]) -> usize {
    let interleaved = Call::is_interleaved(stripe);
    let answer = ledger.hold(&interleaved).number;
    let ours = ledger.hold(&Call::is_codeword(3, stripe)).number;
    ledger.demand(answer == ours, "the interleaved form and the plan's own test disagree", &interleaved);
    answer
}

fn demand_answer(ledger: &mut Ledger, stripe: &[u8], due: usize) {
    let answer = both(ledger, stripe);
    ledger.demand(answer == due, &format!("{due} is due"), &Call::is_interleaved(stripe));
}

/// Stripes next to a codeword.
fn near_codewords(ledger: &mut Ledger, word: &[u8], chance: &mut Chance) {
    // one or two symbols changed, in a row or in two: the code's distance is 8
    for count in [1, 2] {
        let mut stripe = word.to_vec();
        chance.different(count, word.len()).into_iter().for_each(|place| stripe[place] ^= 1 + chance.below(15) as u8);
        demand_answer(ledger, &stripe, NO);
    }
    // two rows exchanged: the plain sum stays
    let [one, other] = chance.different(2, 8)[..] else { return };
    let mut stripe = word.to_vec();
    (0..COLUMNS).for_each(|column| stripe.swap(one * COLUMNS + column, other * COLUMNS + column));
    both(ledger, &stripe);
    // the same word of the row code added to two rows: the plain sum stays, and the weighted one does only where power sum 2
    // of the word is 0 too
    for (last, due) in [(1, NO), (2, YES)] {
        let mut stripe = word.to_vec();
        let added = word_of(last, chance);
        [one, other].into_iter().for_each(|row| add(&mut stripe[row * COLUMNS..], &added));
        demand_answer(ledger, &stripe, due);
    }
    // a word added to one row: only one whose power sums 0 to 6 are all 0 may be
    for last in 0..=6 {
        let mut stripe = word.to_vec();
        add(&mut stripe[one * COLUMNS..], &word_of(last, chance));
        demand_answer(ledger, &stripe, if last == 6 { YES } else { NO });
    }
}

/// A word whose power sums 0 to `last` are 0 and whose next is not: the generator, moved up and multiplied.
fn word_of(last: usize, chance: &mut Chance) -> Vec<u8> {
    let generator = generator(last);
    let (at, factor) = (chance.below(COLUMNS + 1 - generator.len()), 1 + chance.below(15) as u8);
    let mut word = vec![0; COLUMNS];
    word[at..].iter_mut().zip(&generator).for_each(|(symbol, &coefficient)| *symbol = times16(factor, coefficient));
    word
}

/// Adds a word to the row that begins here.
fn add(row: &mut [u8], word: &[u8]) {
    row.iter_mut().zip(word).for_each(|(symbol, added)| *symbol ^= added);
}
