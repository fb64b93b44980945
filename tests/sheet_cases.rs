//! The bench sheet's cases on the library, by name: the proved ones and the others. With them some of plan 4.

use crate::calls::{Call, Outcome};
use crate::ledger::Ledger;
use outside::chance::Chance;
use outside::damage;
use outside::oracle::answers::*;
use outside::oracle::Plan;
use outside::sheet::{self, Case};

/// Cases that name no columns are tried with so many others.
const OTHER_COLUMNS: usize = 200;

pub fn calls(ledger: &mut Ledger) {
    let mut chance = Chance::seeded(21);
    for case in sheet::cases().into_iter().chain(sheet::cases_of_bytes()) {
        hold_case(ledger, &case, &case.mark_words());
        if names_no_columns(&case) {
            (0..OTHER_COLUMNS).for_each(|_| hold_case(ledger, &case, &other_columns(&case, &mut chance)));
        }
    }
    encoding(ledger);
    printed(ledger, &sheet::EXAMPLE_FILE, sheet::EXAMPLE_TEXT);
    printed(ledger, &sheet::file_of_bytes(), &sheet::text_of_bytes());
}

fn hold_case(ledger: &mut Ledger, case: &Case, marks: &[u64]) {
    let call = Call::mend(case.plan, &case.stripe(), marks, &[0xee; REPORT_LENGTH]);
    let Outcome { number, buffers } = ledger.hold(&call);
    ledger.demand(case.is_met_by(number, buffers[2].bytes()), &format!("bench sheet: {}", case.name), &call);
}

/// Whether the marks of a case are only counted on the sheet: they are the first columns of their rows.
fn names_no_columns(case: &Case) -> bool {
    case.ones.is_empty()
        && case.mark_words().iter().any(|&word| word != 0)
        && case.mark_words().iter().all(|word| word & (word + 1) == 0)
}

/// The same numbers of marks in the same rows, in columns by chance.
fn other_columns(case: &Case, chance: &mut Chance) -> Vec<u64> {
    let plan = Plan::numbered(case.plan).expect("a plan");
    case.mark_words().iter().map(|word| damage::columns(word.count_ones() as usize, plan, chance)).collect()
}

fn encoding(ledger: &mut Ledger) {
    let call = Call::encode(1, &sheet::ENCODED_DATA, &[7; 21]);
    let outcome = ledger.hold(&call);
    let met = outcome.number == DONE && outcome.buffers[1].bytes() == sheet::ENCODED_STRIPE;
    ledger.demand(met, "bench sheet: data 1 and then fourteen zeros", &call);
}

fn printed(ledger: &mut Ledger, file: &[u8], text: &str) {
    let call = Call::text(file, &[7; TEXT_LENGTH], &[7; COUNT_LENGTH]);
    let outcome = ledger.hold(&call);
    let [low, high] = outcome.buffers[2].bytes() else { unreachable!("two bytes") };
    let length = *low as usize + 256 * *high as usize;
    let met = outcome.number == DONE && outcome.buffers[1].bytes()[..length] == *text.as_bytes();
    ledger.demand(met, "bench sheet: a file's text", &call);
}
