//! The program `mend`, run on files: its standard output must be the decoder's text, byte for byte.

use crate::files::{fit_file, random_file, spoilt_file};
use crate::ledger::{differ, Ledger};
use outside::chance::Chance;
use outside::oracle::text::printed;
use outside::oracle::Plan;
use outside::sheet;
use outside::stored::STORED;
use std::io::Write;
use std::process::{Command, Stdio};
use std::time::Duration;

const FIT_FILES: usize = 120;
const SPOILT_FILES: usize = 150;
const RANDOM_FILES: usize = 100;

pub fn runs(ledger: &mut Ledger, path: &str) {
    let mut chance = Chance::seeded(111);
    hold(ledger, path, &sheet::EXAMPLE_FILE, usize::MAX);
    expect(ledger, path, &sheet::file_of_bytes(), usize::MAX, &sheet::text_of_bytes());
    for stored in &STORED {
        expect(ledger, path, &stored.bytes(), usize::MAX, stored.text);
    }
    for plan in Plan::all() {
        for n in 0..FIT_FILES {
            // Some files come in pieces, as through a slow pipe.
            let piece = if n < 8 { 1 + chance.below(30) } else { usize::MAX };
            hold(ledger, path, &fit_file(plan, &mut chance), piece);
        }
        long_and_short(ledger, path, &fit_file(plan, &mut chance));
    }
    (0..SPOILT_FILES).for_each(|_| hold(ledger, path, &spoilt_file(&mut chance), usize::MAX));
    (0..RANDOM_FILES).for_each(|_| hold(ledger, path, &random_file(&mut chance), usize::MAX));
}

/// A file cut short, and made longer than any file (the longest has 584 bytes), so that the program must see its end.
fn long_and_short(ledger: &mut Ledger, path: &str, file: &[u8]) {
    let length = file.len();
    for other in [0, 1, 7, 8, 9, length - 1, length + 1, 585, 586, 4096, 100_000] {
        let mut bytes = file.to_vec();
        bytes.resize(other, 0);
        hold(ledger, path, &bytes, usize::MAX);
    }
}

fn hold(ledger: &mut Ledger, path: &str, file: &[u8], piece: usize) {
    expect(ledger, path, file, piece, &printed(file));
}

/// Holds the program's output for a file, which comes in pieces of so many bytes, to a text.
fn expect(ledger: &mut Ledger, path: &str, file: &[u8], piece: usize, expected: &str) {
    let found = output(path, file, piece);
    if found != expected.as_bytes() {
        let hex: String = file.iter().map(|byte| format!("{byte:02x}")).collect();
        let found = String::from_utf8_lossy(&found).into_owned();
        differ(&format!("mend prints another text\nfile: {hex}\nmend:\n{found}oracle:\n{expected}"));
    }
    ledger.count_run();
}

/// Runs the program on a file. It may stop reading before the file's end.
fn output(path: &str, file: &[u8], piece: usize) -> Vec<u8> {
    let mut child = match Command::new(path).stdin(Stdio::piped()).stdout(Stdio::piped()).spawn() {
        Ok(child) => child,
        Err(reason) => differ(&format!("{path} can't be run: {reason}")),
    };
    let mut input = child.stdin.take().expect("a pipe");
    for bytes in file.chunks(piece) {
        if input.write_all(bytes).and_then(|()| input.flush()).is_err() {
            break;
        }
        if piece != usize::MAX {
            std::thread::sleep(Duration::from_micros(200));
        }
    }
    drop(input);
    let output = child.wait_with_output().expect("the program's output");
    if output.status.code().is_none() {
        differ(&format!("{path} was stopped by a signal"));
    }
    output.stdout
}
