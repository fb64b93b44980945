//! The stripe file and the text that is printed for it.

use crate::calls::{Call, Outcome};
use crate::ledger::Ledger;
use outside::chance::Chance;
use outside::damage::{self, CONTENTS, MARKS};
use outside::oracle::answers::*;
use outside::oracle::{self, Plan};
use outside::stored::{Stored, STORED};

const WRITTEN_FILES: usize = 2500;
const SPOILT_FILES: usize = 6000;
const RANDOM_FILES: usize = 6000;
const LONGEST_TEXTS: usize = 600;

/// What is written is read again, with 0 under marks, and written again as the same bytes.
pub fn calls(ledger: &mut Ledger) {
    let mut chance = Chance::seeded(101);
    for plan in Plan::all() {
        for _ in 0..WRITTEN_FILES {
            let content = chance.pick(&CONTENTS);
            let kind = chance.pick(&MARKS);
            let marks = damage::marks(plan, kind, &mut chance);
            let stripe = damage::stripe(plan, content, &mut chance);
            let stripe = damage::any_under_marks(plan, &stripe, &marks, &mut chance);
            there_and_back(ledger, plan, &stripe, &marks, &mut chance);
        }
    }
}

fn there_and_back(ledger: &mut Ledger, plan: &Plan, stripe: &[u8], marks: &[u64], chance: &mut Chance) {
    let writing = Call::write_file(plan.number, stripe, marks, &chance.bytes(plan.file_length()));
    let file = ledger.hold(&writing).buffers[2].bytes().to_vec();
    let reading = Call::read_file(&file, &chance.bytes(plan.symbols()), &vec![u64::MAX; plan.rows]);
    let Outcome { number, buffers } = ledger.hold(&reading);
    let (symbols, words) = (buffers[1].bytes(), buffers[2].words());
    let same = number == DONE && symbols == damage::zero_under_marks(plan, stripe, marks) && words == marks;
    ledger.demand(same, "another stripe is read than was written", &reading);
    let again = Call::write_file(plan.number, symbols, words, &chance.bytes(plan.file_length()));
    let written = ledger.hold(&again);
    ledger.demand(written.buffers[2].bytes() == file, "what was read is written otherwise", &again);
    ledger.hold(&Call::text(&file, &chance.bytes(TEXT_LENGTH), &chance.bytes(COUNT_LENGTH)));
}

/// Files stored before mark words had 64 bits, by what was read from them and printed for them then.
pub fn stored(ledger: &mut Ledger) {
    let mut chance = Chance::seeded(103);
    STORED.iter().for_each(|stored| as_it_was(ledger, stored, &mut chance));
}

/// Reads a stored file and writes it again; or, where it was refused, sees it refused. Its text is what it was.
fn as_it_was(ledger: &mut Ledger, stored: &Stored, chance: &mut Chance) {
    let Stored { name, marks, text, .. } = *stored;
    let file = &stored.bytes();
    let plan = Plan::numbered(file[0] as usize).expect("a plan");
    let reading = Call::read_file(file, &chance.bytes(plan.symbols()), &vec![u64::MAX; plan.rows]);
    let outcome = ledger.hold(&reading);
    if let Some(number) = text.strip_prefix("refused ") {
        let same = format!("{}\n", outcome.number) == number && outcome.buffers == reading.buffers;
        ledger.demand(same, &format!("{name}: refused otherwise"), &reading);
    } else {
        let symbols = &file[8 + 4 * marks.len()..];
        let same = outcome.number == DONE && outcome.buffers[1].bytes() == symbols && outcome.buffers[2].words() == marks;
        ledger.demand(same, &format!("{name}: read otherwise"), &reading);
        let writing = Call::write_file(plan.number, symbols, marks, &chance.bytes(file.len()));
        let written = ledger.hold(&writing);
        let same = written.number == DONE && written.buffers[2].bytes() == file;
        ledger.demand(same, &format!("{name}: written otherwise"), &writing);
    }
    let printing = Call::text(file, &chance.bytes(TEXT_LENGTH), &chance.bytes(COUNT_LENGTH));
    let shown = ledger.hold(&printing);
    let mut expected = text.as_bytes().to_vec();
    expected.resize(TEXT_LENGTH, 0);
    ledger.demand(shown.buffers[1].bytes() == expected, &format!("{name}: printed otherwise"), &printing);
}

/// The longest text: in plan 4 with more marks than sums in every row. Nothing is mended, so that every symbol is printed as it was, two
/// digits each, the high one first; the text expected is put together here.
pub fn two_digits(ledger: &mut Ledger) {
    let mut chance = Chance::seeded(104);
    let plan = Plan::numbered(4).expect("a plan");
    let digit = |value: u8| b"0123456789abcdef"[value as usize] as char;
    for _ in 0..LONGEST_TEXTS {
        let count = |chance: &mut Chance| 3 + chance.below(22);
        let marks: Vec<u64> = (0..plan.rows).map(|_| damage::columns(count(&mut chance), plan, &mut chance)).collect();
        let stripe = chance.bytes(plan.symbols());
        let mut expected = "plan 4 answer 1 level 1 left 12 rows 0 0 0\n".to_string();
        for (word, row) in marks.iter().zip(stripe.chunks(24)) {
            for (column, &symbol) in row.iter().enumerate() {
                let lost = word >> column & 1 == 1;
                expected.extend(if lost { ['?'; 2] } else { [digit(symbol / 16), digit(symbol % 16)] });
            }
            expected.push('\n');
        }
        let mut file = vec![0; 344];
        oracle::write_file(4, &stripe, &marks, &mut file);
        let call = Call::text(&file, &chance.bytes(TEXT_LENGTH), &chance.bytes(COUNT_LENGTH));
        let outcome = ledger.hold(&call);
        let same = outcome.buffers[1].bytes()[..631] == *expected.as_bytes() && outcome.buffers[2].bytes() == [119, 2];
        ledger.demand(same, "a symbol of plan 4 is not printed as two digits", &call);
    }
}

/// Files that are spoilt a little, files of every length, and bytes by chance.
pub fn any_bytes(ledger: &mut Ledger) {
    let mut chance = Chance::seeded(102);
    every_header(ledger, &mut chance);
    every_length(ledger, &mut chance);
    other_words(ledger, &mut chance);
    for _ in 0..SPOILT_FILES {
        let file = spoilt_file(&mut chance);
        read_and_print(ledger, &file, &mut chance);
    }
    for _ in 0..RANDOM_FILES {
        let file = random_file(&mut chance);
        read_and_print(ledger, &file, &mut chance);
    }
}

/// Each byte of the header with each value.
fn every_header(ledger: &mut Ledger, chance: &mut Chance) {
    for plan in Plan::all() {
        let file = fit_file(plan, chance);
        for (at, value) in (0..8 * 256).map(|n| (n / 256, n % 256)) {
            let mut spoilt = file.clone();
            spoilt[at] = value as u8;
            read_and_print(ledger, &spoilt, chance);
        }
    }
}

/// The file cut at each place, and made longer.
fn every_length(ledger: &mut Ledger, chance: &mut Chance) {
    for plan in Plan::all() {
        let file = fit_file(plan, chance);
        for length in 0..plan.file_length() + 70 {
            let mut spoilt = file.clone();
            spoilt.resize(length, 0);
            read_and_print(ledger, &spoilt, chance);
        }
    }
}

/// Files whose mark words have the other plans' number of bytes, and a header that says so or does not: 21 in every case.
fn other_words(ledger: &mut Ledger, chance: &mut Chance) {
    for plan in Plan::all() {
        let file = fit_file(plan, chance);
        let (words, symbols) = file[8..].split_at(plan.word_bytes() * plan.rows);
        let other = 12 - plan.word_bytes();
        let words = words.chunks(plan.word_bytes()).flat_map(|word| (0..other).map(|n| word.get(n).copied().unwrap_or(0)));
        let head = [plan.number, plan.rows, plan.columns, (other == 8) as usize, 8, 0, 8 + other * plan.rows, 0];
        let otherwise: Vec<u8> =
            head.map(|byte| byte as u8).into_iter().chain(words).chain(symbols.iter().copied()).collect();
        refused_header(ledger, plan, &otherwise, chance);
        for byte in (0..=255).filter(|&byte| byte != file[3]) {
            let mut spoilt = [&file, &otherwise][byte as usize % 2].clone();
            spoilt[3] = byte;
            refused_header(ledger, plan, &spoilt, chance);
        }
    }
}

/// Holds a file to refusal 21: nothing is read, and that is what is printed.
fn refused_header(ledger: &mut Ledger, plan: &Plan, file: &[u8], chance: &mut Chance) {
    let reading = Call::read_file(file, &chance.bytes(plan.symbols()), &vec![u64::MAX; plan.rows]);
    let outcome = ledger.hold(&reading);
    let met = outcome.number == HEADER && outcome.buffers == reading.buffers;
    ledger.demand(met, "a header that does not suit the plan is not refused with 21", &reading);
    let text = Call::text(file, &chance.bytes(TEXT_LENGTH), &chance.bytes(COUNT_LENGTH));
    let shown = ledger.hold(&text);
    ledger.demand(shown.buffers[1].bytes().starts_with(b"refused 21\n\0"), "the text is not that of refusal 21", &text);
}

/// Reads a file into buffers that fit one of the plans, and prints its text.
fn read_and_print(ledger: &mut Ledger, file: &[u8], chance: &mut Chance) {
    let guessed = file.first().and_then(|&number| Plan::numbered(number as usize));
    let plan = guessed.filter(|_| !chance.one_in(12)).unwrap_or(damage::any_plan(chance));
    ledger.hold(&Call::read_file(file, &chance.bytes(plan.symbols()), &vec![0x0f0f_0f0f_0f0f_0f0f; plan.rows]));
    ledger.hold(&Call::text(file, &chance.bytes(TEXT_LENGTH), &chance.bytes(COUNT_LENGTH)));
}

/// A file that nothing refuses.
pub fn fit_file(plan: &Plan, chance: &mut Chance) -> Vec<u8> {
    let content = chance.pick(&CONTENTS);
    let kind = chance.pick(&MARKS);
    let stripe = damage::stripe(plan, content, chance);
    let marks = damage::marks(plan, kind, chance);
    let mut file = vec![0; plan.file_length()];
    oracle::write_file(plan.number, &stripe, &marks, &mut file);
    file
}

/// A fit file with one to three bytes changed, most of them behind the header.
pub fn spoilt_file(chance: &mut Chance) -> Vec<u8> {
    let plan = damage::any_plan(chance);
    let mut file = fit_file(plan, chance);
    for _ in 0..1 + chance.below(3) {
        let at = if chance.one_in(6) { chance.below(8) } else { 8 + chance.below(file.len() - 8) };
        file[at] = if chance.one_in(3) { chance.byte() } else { file[at] ^ 1 << chance.below(8) };
    }
    file
}

/// Bytes by chance: of any length, behind a true header, or of a true length.
pub fn random_file(chance: &mut Chance) -> Vec<u8> {
    let plan = damage::any_plan(chance);
    let length = if chance.one_in(2) { plan.file_length() } else { chance.below(700) };
    let limit = chance.pick(&[2, 16, 17, 256]);
    let mut file = chance.bytes_below(limit, length);
    if chance.one_in(2) {
        file.iter_mut().zip(oracle::file::header(plan)).for_each(|(byte, true_byte)| *byte = true_byte);
        let words = file.iter_mut().skip(8).take(plan.word_bytes() * plan.rows);
        words.for_each(|byte| *byte = if chance.one_in(3) { *byte } else { 0 });
    }
    file
}
