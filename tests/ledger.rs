//! Makes each call on the library and on the independent decoder, compares, and keeps count.

use crate::calls::{Call, Outcome, FUNCTIONS, LIBRARY, ORACLE};
use std::collections::BTreeMap;

pub struct Ledger {
    calls: u64,
    /// How often each function gave each number.
    answers: BTreeMap<(&'static str, usize), u64>,
}

impl Ledger {
    pub fn new() -> Ledger {
        Ledger { calls: 0, answers: BTreeMap::new() }
    }

    /// Runs a group of calls and prints its line.
    pub fn group(&mut self, name: &str, calls: impl FnOnce(&mut Ledger)) {
        let before = self.calls;
        calls(self);
        println!("{name}: {} calls", self.calls - before);
    }

    /// Makes a call of the library, for a caller that holds its outcome to another of the library.
    pub fn make(&mut self, call: &Call) -> Outcome {
        self.calls += 1;
        let Some(found) = call.make(&LIBRARY) else {
            differ(&format!("{} wrote outside its buffers\nagain: {call}", LIBRARY.name));
        };
        *self.answers.entry((call.function.name(), found.number)).or_default() += 1;
        found
    }

    /// Holds a call of the library to the independent decoder: its number, and every byte of every buffer.
    pub fn hold(&mut self, call: &Call) -> Outcome {
        let found = self.make(call);
        let expected = call.make(&ORACLE).expect("the oracle keeps to its buffers");
        if found != expected {
            differ(&comparison(call, &found, &expected));
        }
        found
    }

    /// Holds the outcome of a call to a demand of its own.
    pub fn demand(&self, truth: bool, what: &str, call: &Call) {
        if !truth {
            differ(&format!("{what}\nagain: {call}"));
        }
    }

    /// Counts a run of the program, whose output has been compared.
    pub fn count_run(&mut self) {
        self.calls += 1;
    }

    /// Prints how often each answer came, and holds that every number came from every function that can give it.
    pub fn close(&self) {
        for function in FUNCTIONS {
            let given = self.answers.iter().filter(|((name, _), _)| *name == function.name());
            let given: Vec<String> = given.map(|((_, number), times)| format!("{number}: {times}")).collect();
            println!("answers of {}: {}", function.name(), given.join(", "));
            for &number in function.answers() {
                if !self.answers.contains_key(&(function.name(), number)) {
                    differ(&format!("no call of {} came to {number}: the cases are too few", function.name()));
                }
            }
        }
        println!("tests: {} calls, all as they should be", self.calls);
    }
}

fn comparison(call: &Call, found: &Outcome, expected: &Outcome) -> String {
    format!("{} differs\nagain: {call}\nlibrary: {found}\noracle:  {expected}", call.function.name())
}

/// Says the difference and ends the run.
pub fn differ(what: &str) -> ! {
    println!("tests: {what}");
    std::process::exit(1)
}

/// Makes one call again, from its line, and shows both outcomes.
pub fn again(line: &str) -> ! {
    let Some(call) = Call::from_line(line) else { differ("the line is no call") };
    for side in [&LIBRARY, &ORACLE] {
        match call.make(side) {
            Some(outcome) => println!("{:7} {outcome}", side.name),
            None => println!("{:7} wrote outside its buffers", side.name),
        }
    }
    std::process::exit((call.make(&LIBRARY) != call.make(&ORACLE)) as i32)
}
