//! Refusals: each function with every set of flaws. The number expected is that of the set's first flaw in the order of the
//! requirements, by construction and not by the independent decoder, and nothing may change.

use crate::calls::{Buffer, Call, Function, Outcome, FUNCTIONS};
use crate::ledger::Ledger;
use outside::chance::Chance;
use outside::damage::{self, Marks};
use outside::oracle::answers::*;
use outside::oracle::bench::{number_of, sums_of, LEVEL, MARKS as BENCH_MARKS, SYMBOLS};
use outside::oracle::plan::marked;
use outside::oracle::{file, Plan};

const ROUNDS: usize = 8;

/// Numbers that are no plan, among them some that are one in their low bits.
const UNKNOWN_PLANS: [usize; 13] = [0, 6, 7, 17, 255, 256, 257, 260, 261, 65_537, (1 << 32) + 1, (1 << 32) + 4, usize::MAX];

/// What can be wrong with a call.
#[derive(Clone, Copy)]
enum Flaw {
    UnknownPlan,
    /// The length of the buffer of that number.
    Length(usize),
    BenchLevel,
    MarkOutside,
    /// An unmarked symbol, or a data symbol.
    Symbol,
    Sum,
    Row,
    NoCodeword,
    ShortFile,
    FileLength,
    Header,
    ByteUnderMark,
}

impl Flaw {
    fn number(self) -> usize {
        match self {
            Flaw::UnknownPlan => UNKNOWN_PLAN,
            Flaw::Length(_) => WRONG_LENGTH,
            Flaw::BenchLevel => LEVEL_OUTSIDE,
            Flaw::MarkOutside => MARK_OUTSIDE,
            Flaw::Symbol | Flaw::Sum => NOT_BELOW_Q,
            Flaw::Row => ROW_OUTSIDE,
            Flaw::NoCodeword => NO_CODEWORD,
            Flaw::ShortFile | Flaw::FileLength => FILE_LENGTH,
            Flaw::Header => HEADER,
            Flaw::ByteUnderMark => BYTE_UNDER_MARK,
        }
    }

    /// What a function answers where this flaw stands first. A refused file has a text, which says the number.
    fn answer_due(self, function: Function) -> usize {
        match (function, self.number()) {
            (Function::Text, number) if number != WRONG_LENGTH => DONE,
            (_, number) => number,
        }
    }
}

/// The flaws that a function can meet, the one that is refused first standing first.
fn flaws(function: Function) -> Vec<Flaw> {
    use Flaw::*;
    match function {
        Function::Start | Function::Mend | Function::WriteFile => {
            vec![UnknownPlan, Length(0), Length(1), Length(2), MarkOutside, Symbol]
        }
        Function::RowStep => vec![Length(0), UnknownPlan, BenchLevel, MarkOutside, Symbol, Sum, Row],
        Function::LevelStep => vec![Length(0), UnknownPlan, BenchLevel, MarkOutside, Symbol, Sum],
        Function::IsCodeword => vec![UnknownPlan, Length(0), Symbol],
        Function::IsInterleaved => vec![Length(0), Symbol],
        Function::Encode => vec![UnknownPlan, Length(0), Length(1), Symbol],
        Function::Extract => vec![UnknownPlan, Length(0), Length(1), Symbol, NoCodeword],
        Function::ReadFile => {
            vec![ShortFile, UnknownPlan, Header, FileLength, Length(1), Length(2), MarkOutside, Symbol, ByteUnderMark]
        }
        Function::Text => {
            vec![Length(1), Length(2), ShortFile, UnknownPlan, Header, FileLength, MarkOutside, Symbol, ByteUnderMark]
        }
    }
}

pub fn calls(ledger: &mut Ledger) {
    let mut chance = Chance::seeded(91);
    for function in FUNCTIONS {
        let all = flaws(function);
        for plan in Plan::all().filter(|plan| function != Function::IsInterleaved || plan.number == 3) {
            for set in 0..1u32 << all.len() {
                let chosen: Vec<Flaw> = (0..all.len()).filter(|n| set >> n & 1 == 1).map(|n| all[n]).collect();
                if chosen.iter().any(|&flaw| cannot_be(flaw, function, plan)) {
                    continue;
                }
                (0..ROUNDS).for_each(|_| one_set(ledger, function, plan, &chosen, &mut chance));
            }
        }
    }
}

/// No mark is outside where every bit of a word is a column, and no byte is too large where every byte is a symbol.
fn cannot_be(flaw: Flaw, function: Function, plan: &Plan) -> bool {
    match flaw {
        Flaw::MarkOutside => outer_bits(function, plan) == 0,
        Flaw::Symbol | Flaw::Sum => plan.q() == 256,
        _ => false,
    }
}

/// Every bit that is no column of the plan, alone in a row's mark word: 12 in memory up to bit 63, in a file up to its word's last.
/// And number 6, with buffers that fit some plan: 10.
pub fn outer_marks(ledger: &mut Ledger) {
    let mut chance = Chance::seeded(92);
    let marked =
        FUNCTIONS.into_iter().filter(|&function| flaws(function).iter().any(|flaw| matches!(flaw, Flaw::MarkOutside)));
    for (function, plan) in marked.flat_map(|function| Plan::all().map(move |plan| (function, plan))) {
        for bit in plan.columns..plan.columns + outer_bits(function, plan) {
            for row in 0..plan.rows {
                let mut call = fit_call(function, plan, &mut chance);
                set_mark_word(&mut call, plan, row, 1 << bit);
                due(ledger, &call, Flaw::MarkOutside);
            }
        }
    }
    for (function, plan) in FUNCTIONS.into_iter().flat_map(|function| Plan::all().map(move |plan| (function, plan))) {
        let mut call = fit_call(function, plan, &mut chance);
        match function {
            Function::IsInterleaved => continue,
            _ if in_a_buffer(function) => bytes_of(&mut call, 0)[0] = 6,
            _ => call.number = 6,
        }
        due(ledger, &call, Flaw::UnknownPlan);
    }
}

/// Plan 4: every byte is a symbol, and every byte an element of a sum, so that 13 never comes. Each byte at some place, beside others by
/// chance, in every call that takes symbols; and each as some sum of a bench.
pub fn bytes_are_symbols(ledger: &mut Ledger) {
    let mut chance = Chance::seeded(93);
    let plan = Plan::numbered(4).expect("a plan");
    for function in FUNCTIONS.into_iter().filter(|&function| function != Function::IsInterleaved) {
        for value in (0..ROUNDS).flat_map(|_| 0..=255) {
            let mut call = fit_call(function, plan, &mut chance);
            let (buffer, at) = layout(function, plan).symbols;
            for _ in 0..chance.below(24) {
                let place = unmarked_place(&call, plan, &mut chance);
                bytes_of(&mut call, buffer)[at + place] = chance.byte();
            }
            let place = unmarked_place(&call, plan, &mut chance);
            bytes_of(&mut call, buffer)[at + place] = value;
            if matches!(function, Function::RowStep | Function::LevelStep) {
                let sums = sums_of(chance.below(plan.rows), plan.sums_to(plan.last()));
                bytes_of(&mut call, 0)[sums.start + chance.below(sums.len())] = value;
            }
            let outcome = ledger.hold(&call);
            let is_refused = outcome.number >= UNKNOWN_PLAN && outcome.number != NO_CODEWORD
                || function == Function::Text && outcome.buffers[1].bytes().starts_with(b"refused");
            ledger.demand(!is_refused, "a byte of plan 4 is refused", &call);
        }
    }
}

/// Holds a call with one flaw, or with others behind it, to the flaw's number; and nothing may change. Says what it came to.
fn due(ledger: &mut Ledger, call: &Call, first: Flaw) -> Outcome {
    let outcome = ledger.hold(call);
    let number = first.answer_due(call.function);
    ledger.demand(outcome.number == number, &format!("{number} is due"), call);
    ledger.demand(outcome.buffers == left_by_refusal(call, first), "a refusal leaves other buffers behind", call);
    outcome
}

fn one_set(ledger: &mut Ledger, function: Function, plan: &Plan, flaws: &[Flaw], chance: &mut Chance) {
    let mut call = fit_call(function, plan, chance);
    // What is refused last is spoilt first, so that a buffer is cut only after its content is spoilt.
    flaws.iter().rev().for_each(|&flaw| spoil(&mut call, plan, flaw, chance));
    match flaws.first() {
        None => {
            let outcome = ledger.hold(&call);
            ledger.demand(outcome.number < UNKNOWN_PLAN, "a fit call is refused", &call);
        }
        Some(first) => {
            let outcome = due(ledger, &call, *first);
            if function == Function::Start && outcome.buffers[2].bytes().len() == BENCH_LENGTH {
                refused_bench(ledger, outcome.buffers[2].bytes(), chance);
            }
        }
    }
}

/// The buffers after a refusal: as they were. But a refused start writes a bench of zeros where it fits, and a refused file
/// has a text.
fn left_by_refusal(call: &Call, first: Flaw) -> Vec<Buffer> {
    let mut buffers = call.buffers.clone();
    if call.function == Function::Start && buffers[2].bytes().len() == BENCH_LENGTH {
        buffers[2] = Buffer::Bytes(vec![0; BENCH_LENGTH]);
    }
    if call.function == Function::Text && first.number() != WRONG_LENGTH {
        let mut text = format!("refused {}\n", first.number()).into_bytes();
        buffers[2] = Buffer::Bytes(vec![text.len() as u8, 0]);
        text.resize(TEXT_LENGTH, 0);
        buffers[1] = Buffer::Bytes(text);
    }
    buffers
}

/// Every step refuses the bench of a refused start with 10.
fn refused_bench(ledger: &mut Ledger, bench: &[u8], chance: &mut Chance) {
    for call in [Call::row_step(bench, chance.below(13)), Call::level_step(bench)] {
        let outcome = ledger.hold(&call);
        ledger.demand(outcome.number == UNKNOWN_PLAN, "a refused bench is not refused with 10", &call);
    }
}

/// A call that nothing refuses.
fn fit_call(function: Function, plan: &Plan, chance: &mut Chance) -> Call {
    let p = plan.number;
    let word = damage::codeword(plan, chance);
    let marks = damage::marks(plan, Marks::Sparse(4), chance);
    let lent = damage::any_under_marks(plan, &word, &marks, chance);
    let (symbols, carried) = (chance.bytes(plan.symbols()), chance.bytes(plan.carried()));
    match function {
        Function::Start => Call::start(p, &lent, &marks, &chance.bytes(BENCH_LENGTH)),
        Function::Mend => Call::mend(p, &lent, &marks, &chance.bytes(REPORT_LENGTH)),
        Function::WriteFile => Call::write_file(p, &lent, &marks, &chance.bytes(plan.file_length())),
        Function::RowStep => Call::row_step(&fit_bench(plan, &lent, &marks, chance), chance.below(plan.rows)),
        Function::LevelStep => Call::level_step(&fit_bench(plan, &lent, &marks, chance)),
        Function::IsCodeword => Call::is_codeword(p, &word),
        Function::IsInterleaved => Call::is_interleaved(&word),
        Function::Encode => Call::encode(p, &chance.bytes_below(plan.q(), plan.carried()), &symbols),
        Function::Extract => Call::extract(p, &word, &carried),
        Function::ReadFile => {
            let words: Vec<u64> = (0..plan.rows).map(|_| chance.word()).collect();
            Call::read_file(&fit_file(plan, &word, &marks), &symbols, &words)
        }
        Function::Text => {
            Call::text(&fit_file(plan, &word, &marks), &chance.bytes(TEXT_LENGTH), &chance.bytes(COUNT_LENGTH))
        }
    }
}

fn fit_file(plan: &Plan, stripe: &[u8], marks: &[u64]) -> Vec<u8> {
    let mut bytes = vec![0; plan.file_length()];
    file::write_file(plan.number, stripe, marks, &mut bytes);
    bytes
}

fn fit_bench(plan: &Plan, stripe: &[u8], marks: &[u64], chance: &mut Chance) -> Vec<u8> {
    let mut bench = vec![0; BENCH_LENGTH];
    outside::oracle::start(plan.number, stripe, marks, &mut bench);
    bench[LEVEL] = 1 + chance.below(plan.last()) as u8;
    bench
}

/// Where a call keeps its symbols and its marks: the buffer and the first place in it; and the bytes of a mark word there.
struct Layout {
    symbols: (usize, usize),
    marks: Option<(usize, usize)>,
    word_bytes: usize,
}

fn layout(function: Function, plan: &Plan) -> Layout {
    match function {
        Function::Start | Function::Mend | Function::WriteFile => {
            Layout { symbols: (0, 0), marks: Some((1, 0)), word_bytes: 8 }
        }
        Function::RowStep | Function::LevelStep => {
            Layout { symbols: (0, SYMBOLS), marks: Some((0, BENCH_MARKS)), word_bytes: 8 }
        }
        Function::ReadFile | Function::Text => {
            Layout { symbols: (0, plan.symbols_offset()), marks: Some((0, 8)), word_bytes: plan.word_bytes() }
        }
        Function::IsCodeword | Function::IsInterleaved | Function::Encode | Function::Extract => {
            Layout { symbols: (0, 0), marks: None, word_bytes: 0 }
        }
    }
}

/// How many bits of a call's mark word are no column of the plan.
fn outer_bits(function: Function, plan: &Plan) -> usize {
    (8 * layout(function, plan).word_bytes).saturating_sub(plan.columns)
}

/// Whether the plan's number is the first byte of the first buffer.
fn in_a_buffer(function: Function) -> bool {
    matches!(function, Function::RowStep | Function::LevelStep | Function::ReadFile | Function::Text)
}

fn bytes_of(call: &mut Call, buffer: usize) -> &mut Vec<u8> {
    match &mut call.buffers[buffer] {
        Buffer::Bytes(bytes) => bytes,
        Buffer::Words(_) => panic!("the buffer holds words"),
    }
}

fn mark_word(call: &Call, plan: &Plan, row: usize) -> u64 {
    let Layout { marks, word_bytes, .. } = layout(call.function, plan);
    match marks.map(|(buffer, at)| (&call.buffers[buffer], at)) {
        None => 0,
        Some((Buffer::Words(words), at)) => words[at + row],
        Some((Buffer::Bytes(bytes), at)) => number_of(&bytes[at + word_bytes * row..][..word_bytes]),
    }
}

fn set_mark_word(call: &mut Call, plan: &Plan, row: usize, word: u64) {
    let Layout { marks, word_bytes, .. } = layout(call.function, plan);
    match marks.map(|(buffer, at)| (&mut call.buffers[buffer], at)) {
        None => panic!("{} takes no marks", call.function.name()),
        Some((Buffer::Words(words), at)) => words[at + row] = word,
        Some((Buffer::Bytes(bytes), at)) => {
            bytes[at + word_bytes * row..][..word_bytes].copy_from_slice(&word.to_le_bytes()[..word_bytes])
        }
    }
}

/// A place that bears no mark. For encoding it is a place among the data.
fn unmarked_place(call: &Call, plan: &Plan, chance: &mut Chance) -> usize {
    let places = if call.function == Function::Encode { plan.carried() } else { plan.symbols() };
    loop {
        let place = chance.below(places);
        if !marked(mark_word(call, plan, place / plan.columns), place % plan.columns) {
            return place;
        }
    }
}

fn not_below_q(plan: &Plan, chance: &mut Chance) -> u8 {
    if chance.one_in(2) {
        plan.q() as u8
    } else {
        (plan.q() + chance.below(256 - plan.q())) as u8
    }
}

fn spoil(call: &mut Call, plan: &Plan, flaw: Flaw, chance: &mut Chance) {
    match flaw {
        Flaw::UnknownPlan if in_a_buffer(call.function) => {
            bytes_of(call, 0)[0] = chance.pick(&[0, 6, 7, 129, 132, 133, 255])
        }
        Flaw::UnknownPlan => call.number = chance.pick(&UNKNOWN_PLANS),
        Flaw::Length(buffer) => other_length(&mut call.buffers[buffer], chance),
        Flaw::BenchLevel => bytes_of(call, 0)[LEVEL] = chance.pick(&[0, plan.last() as u8 + 1, 4, 255]),
        Flaw::MarkOutside => mark_outside(call, plan, chance),
        Flaw::Symbol => {
            let (buffer, at) = layout(call.function, plan).symbols;
            let place = at + unmarked_place(call, plan, chance);
            bytes_of(call, buffer)[place] = not_below_q(plan, chance);
        }
        Flaw::Sum => {
            let level = bytes_of(call, 0)[LEVEL] as usize;
            let sums = sums_of(chance.below(plan.rows), plan.sums_to(level));
            bytes_of(call, 0)[sums.start + chance.below(sums.len())] = not_below_q(plan, chance);
        }
        Flaw::Row => call.number = row_outside(plan, chance),
        Flaw::NoCodeword => {
            let place = chance.below(plan.symbols());
            bytes_of(call, 0)[place] ^= 1 + chance.below(plan.q() - 1) as u8;
        }
        Flaw::ShortFile => bytes_of(call, 0).truncate(chance.below(8)),
        Flaw::FileLength => {
            let length = chance.pick(&[8, 9, plan.file_length() - 1, plan.file_length() + 1, 300, 600, 1000]);
            bytes_of(call, 0).resize(length, 0);
        }
        Flaw::Header => {
            let at = 1 + chance.below(7);
            bytes_of(call, 0)[at] ^= 1 << chance.below(8);
        }
        Flaw::ByteUnderMark => byte_under_mark(call, plan, chance),
    }
}

/// A number that is no row of the plan, be it one of another's.
fn row_outside(plan: &Plan, chance: &mut Chance) -> usize {
    let rows = [plan.rows, plan.rows + 1, 8, 11, 12, 13, 255, 256, 1 << 32, usize::MAX];
    let outside: Vec<usize> = rows.into_iter().filter(|&row| row >= plan.rows).collect();
    chance.pick(&outside)
}

/// Sets a bit that is no column of the plan: the first behind the columns, the last of the word, or any; alone in its word, or beside others.
fn mark_outside(call: &mut Call, plan: &Plan, chance: &mut Chance) {
    let (row, outer) = (chance.below(plan.rows), outer_bits(call.function, plan));
    let any = chance.below(outer);
    let bit = plan.columns + chance.pick(&[0, outer - 1, any]);
    let others = if chance.one_in(2) { mark_word(call, plan, row) } else { 0 };
    set_mark_word(call, plan, row, others | 1 << bit);
}

/// Marks a place of a file and puts a byte other than 0 there.
fn byte_under_mark(call: &mut Call, plan: &Plan, chance: &mut Chance) {
    let place = unmarked_place(call, plan, chance);
    let (row, column) = (place / plan.columns, place % plan.columns);
    let word = mark_word(call, plan, row) | 1 << column;
    set_mark_word(call, plan, row, word);
    bytes_of(call, 0)[plan.symbols_offset() + place] = 1 + chance.below(255) as u8;
}

/// Gives a buffer another length: none at all, one more, one less, or far off.
fn other_length(buffer: &mut Buffer, chance: &mut Chance) {
    let choose = |length: usize, chance: &mut Chance| {
        let lengths = [0, 1, length - 1, length + 1, length + 64, 21, 120, 256, 288, 512, 3, 8, 12];
        loop {
            let other = chance.pick(&lengths);
            if other != length {
                return other;
            }
        }
    };
    match buffer {
        Buffer::Bytes(bytes) => bytes.resize(choose(bytes.len(), chance), 0),
        Buffer::Words(words) => words.resize(choose(words.len(), chance), 0),
    }
}
