//! Holds the library to the independent decoder, call by call, and the program `mend` to the decoder's text.
//!
//!     main [PROGRAM]     every group; the program's runs only where its path is given
//!     main again LINE    one call again, from the line that a difference printed

mod calls;
mod coding;
mod fewer;
mod files;
mod interleaved;
mod ledger;
mod mending;
mod orders;
mod program;
mod refusals;
mod sheet_cases;
mod silence;
mod stack;
mod steps;
mod streams;
mod throughout;
mod tied;

use ledger::Ledger;

fn main() {
    let words: Vec<String> = std::env::args().skip(1).collect();
    match words.iter().map(String::as_str).collect::<Vec<&str>>()[..] {
        [] => every_group(None),
        ["again", line] => ledger::again(line),
        [program] => every_group(Some(program)),
        _ => ledger::differ("usage: main [PROGRAM] or main again LINE"),
    }
}

fn every_group(program: Option<&str>) {
    let mut ledger = Ledger::new();
    ledger.group("bench sheet", sheet_cases::calls);
    ledger.group("refusals, every set of flaws", refusals::calls);
    ledger.group("marks at columns that the plan does not have", refusals::outer_marks);
    ledger.group("plan 4: every byte is a symbol", refusals::bytes_are_symbols);
    ledger.group("plan 1 throughout", throughout::calls);
    ledger.group("codeword test, encoding, extraction", coding::calls);
    ledger.group("interleaved form of plan 3", interleaved::calls);
    ledger.group("mending in one call", mending::calls);
    ledger.group("bytes under marks", silence::calls);
    ledger.group("fewer losses never hurt", fewer::calls);
    ledger.group("steps on fit benches", steps::fit_benches);
    ledger.group("steps on any bytes", steps::any_bytes);
    ledger.group("tied rows that contradict themselves", tied::contradictions);
    ledger.group("plans 3 and 4: more marks than sums", tied::power_sums);
    ledger.group("levels whose totals fail", tied::failing_levels);
    ledger.group("orders of steps", orders::calls);
    ledger.group("files and their text", files::calls);
    ledger.group("plan 4: two digits a symbol", files::two_digits);
    ledger.group("files stored before mark words had 64 bits", files::stored);
    ledger.group("any bytes as a file", files::any_bytes);
    match program {
        Some(path) => every_run(&mut ledger, path),
        None => println!("the program mend: not run"),
    }
    ledger.close();
}

/// What is measured of the compiled library, and the program's runs.
fn every_run(ledger: &mut Ledger, path: &str) {
    ledger.group("stack of a call", stack::calls);
    ledger.group("the program mend", |ledger| program::runs(ledger, path));
    ledger.group("the program mend: input and output that fail", |ledger| streams::runs(ledger, path));
    let interrupted = "the program mend: calls that strace makes fail";
    if streams::strace_works() {
        ledger.group(interrupted, |ledger| streams::interrupted_runs(ledger, path));
    } else {
        println!("{interrupted}: not run, since there is no strace that may trace");
    }
}
