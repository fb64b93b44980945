//! Plan 1 throughout: all data to encoding, every row step and every level step; and every seventh stripe to the codeword
//! test, every seventh set of marks to mending. Seven is odd, so that each row's content comes with all of the others'.

use crate::calls::Call;
use crate::ledger::Ledger;
use outside::chance::Chance;
use outside::damage::codeword;
use outside::oracle::answers::*;
use outside::oracle::bench::{sums_of, word_of, SYMBOLS};
use outside::oracle::Plan;

pub fn calls(ledger: &mut Ledger) {
    every_data(ledger);
    every_row_step(ledger);
    every_level_step(ledger);
    every_seventh_stripe(ledger);
    every_seventh_mark_set(ledger);
}

fn bits(number: u32, count: usize) -> Vec<u8> {
    (0..count).map(|bit| (number >> bit & 1) as u8).collect()
}

fn every_data(ledger: &mut Ledger) {
    for number in 0..1 << 15 {
        let encoding = Call::encode(1, &bits(number, 15), &[0xff; 21]);
        let stripe = ledger.hold(&encoding).buffers[1].bytes().to_vec();
        ledger.hold(&Call::extract(1, &stripe, &[0xff; 15]));
    }
}

/// Every row content, marks and learned sums, at both levels.
fn every_row_step(ledger: &mut Ledger) {
    let mut bench = vec![0; BENCH_LENGTH];
    bench[0] = 1;
    for (level, sums) in [(1, 2), (2, 16)] {
        bench[1] = level;
        for learned in 0..sums {
            bench[sums_of(1, 4)].copy_from_slice(&bits(learned, 4));
            for number in 0..1 << 14 {
                bench[SYMBOLS + 7..][..7].copy_from_slice(&bits(number, 7));
                bench[word_of(1)][0] = (number >> 7) as u8;
                ledger.hold(&Call::row_step(&bench, 1));
            }
        }
    }
}

/// Every choice of marked rows, and of the rows' location sums.
fn every_level_step(ledger: &mut Ledger) {
    let rows_with_sum = [0, 1, 2, 4, 8, 16, 32, 64].map(|row| bits(row, 7));
    for number in 0..1 << 12 {
        let mut bench = vec![0; BENCH_LENGTH];
        bench[..2].copy_from_slice(&[1, 1]);
        for row in 0..3 {
            bench[SYMBOLS + 7 * row..][..7].copy_from_slice(&rows_with_sum[number >> (3 * row) & 7]);
            bench[word_of(row)][0] = (number >> (9 + row) & 1) as u8 * (1 + row as u8);
        }
        ledger.hold(&Call::level_step(&bench));
    }
}

fn every_seventh_stripe(ledger: &mut Ledger) {
    for number in (0..1 << 21).step_by(7) {
        ledger.hold(&Call::is_codeword(1, &bits(number, 21)));
    }
}

fn every_seventh_mark_set(ledger: &mut Ledger) {
    let plan = Plan::numbered(1).expect("a plan");
    let mut chance = Chance::seeded(81);
    for number in (0..1u64 << 21).step_by(7) {
        let marks = [number & 127, number >> 7 & 127, number >> 14];
        let stripe = if number % 2 == 0 { codeword(plan, &mut chance) } else { chance.bytes_below(2, 21) };
        ledger.hold(&Call::mend(1, &stripe, &marks, &[0; REPORT_LENGTH]));
    }
}
