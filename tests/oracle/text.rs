//! What the program `mend` prints for a file.

use super::answers::*;
use super::file::opened;
use super::mending::{mended, Mended};
use super::plan::{marked, Plan};

/// The printed text.
pub fn printed(file: &[u8]) -> String {
    match opened(file, |_| true) {
        Err(number) => format!("refused {number}\n"),
        Ok((plan, marks, symbols)) => {
            let end = mended(plan, &symbols, &marks);
            if end.answer == CLASH {
                clash_line(plan, &end)
            } else {
                grid(plan, &end)
            }
        }
    }
}

fn clash_line(plan: &Plan, end: &Mended) -> String {
    let [.., place, row, level] = end.report;
    let place = if place == ACROSS { "across".to_string() } else { format!("row {row}") };
    format!("plan {} answer 2 level {level} place {place}\n", plan.number)
}

fn grid(plan: &Plan, end: &Mended) -> String {
    let [level, left, restored @ ..] = end.report;
    let counts: String = restored[..plan.last()].iter().map(|rows| format!(" {rows}")).collect();
    let first = format!("plan {} answer {} level {level} left {left} rows{counts}\n", plan.number, end.answer);
    (0..plan.rows).fold(first, |text, row| text + &row_line(plan, end, row) + "\n")
}

/// A symbol is as many hex digits as its bits ask for, the high digit first.
fn row_line(plan: &Plan, end: &Mended, row: usize) -> String {
    let digits = plan.width.div_ceil(4);
    let shown = |column: usize| match marked(end.marks[row], column) {
        true => "?".repeat(digits),
        false => format!("{:0digits$x}", end.stripe[row * plan.columns + column]),
    };
    (0..plan.columns).map(shown).collect()
}

/// The text, 0 beyond its end, and its length, low byte first. Every file has a text, so buffers of wrong length are 11
/// before the file is looked at, and then nothing changes.
pub fn text(file: &[u8], text: &mut [u8], length: &mut [u8]) -> usize {
    if text.len() != TEXT_LENGTH || length.len() != COUNT_LENGTH {
        return WRONG_LENGTH;
    }
    let shown = printed(file);
    text.fill(0);
    text[..shown.len()].copy_from_slice(shown.as_bytes());
    length.copy_from_slice(&(shown.len() as u16).to_le_bytes());
    DONE
}
