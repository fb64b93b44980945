//! The stripe file.

use super::answers::*;
use super::bench::{lent, marks_and_symbols_refusal, number_of};
use super::plan::{marked, Plan};

/// The first eight bytes of a plan's file. Byte 3 is 1 where a mark word has eight bytes.
pub fn header(plan: &Plan) -> [u8; 8] {
    let [marks_low, marks_high] = 8u16.to_le_bytes();
    let [symbols_low, symbols_high] = (plan.symbols_offset() as u16).to_le_bytes();
    let wide = (plan.word_bytes() == 8) as u8;
    [plan.number as u8, plan.rows as u8, plan.columns as u8, wide, marks_low, marks_high, symbols_low, symbols_high]
}

/// A file's plan, marks and symbols, or the number that refuses it. `fits` says whether the lent buffers fit the plan.
pub fn opened(file: &[u8], fits: impl Fn(&Plan) -> bool) -> Result<(&'static Plan, Vec<u64>, Vec<u8>), usize> {
    if file.len() < 8 {
        return Err(FILE_LENGTH);
    }
    let plan = Plan::numbered(file[0] as usize).ok_or(UNKNOWN_PLAN)?;
    if file[..8] != header(plan) {
        return Err(HEADER);
    }
    if file.len() != plan.file_length() {
        return Err(FILE_LENGTH);
    }
    if !fits(plan) {
        return Err(WRONG_LENGTH);
    }
    let (words, symbols) = file[8..].split_at(plan.word_bytes() * plan.rows);
    let marks: Vec<u64> = words.chunks(plan.word_bytes()).map(number_of).collect();
    marks_and_symbols_refusal(plan, symbols, &marks)?;
    let lost = |place: usize| marked(marks[place / plan.columns], place % plan.columns);
    if (0..plan.symbols()).any(|place| lost(place) && symbols[place] != 0) {
        return Err(BYTE_UNDER_MARK);
    }
    Ok((plan, marks, symbols.to_vec()))
}

pub fn read_file(file: &[u8], stripe: &mut [u8], marks: &mut [u64]) -> usize {
    let fits = |plan: &Plan| stripe.len() == plan.symbols() && marks.len() == plan.rows;
    match opened(file, fits) {
        Ok((_, words, symbols)) => {
            stripe.copy_from_slice(&symbols);
            marks.copy_from_slice(&words);
            DONE
        }
        Err(number) => number,
    }
}

pub fn write_file(plan: usize, stripe: &[u8], marks: &[u64], file: &mut [u8]) -> usize {
    let length = file.len();
    let plan = match lent(plan, stripe, marks, |plan| length == plan.file_length()) {
        Ok(plan) => plan,
        Err(number) => return number,
    };
    let words = marks.iter().flat_map(|word| word.to_le_bytes().into_iter().take(plan.word_bytes()));
    let shown = |place: usize| if marked(marks[place / plan.columns], place % plan.columns) { 0 } else { stripe[place] };
    let bytes = header(plan).into_iter().chain(words).chain((0..plan.symbols()).map(shown));
    file.iter_mut().zip(bytes).for_each(|(byte, new)| *byte = new);
    DONE
}
