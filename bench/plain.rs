//! The same calls in plain Rust, to time the library beside: the requirements written straight down, with no packed tables.
//! The names and the buffers are those of `tests/shelf.rs`, so that either can stand in the other's place.
//!
//! A row's checks are a matrix of coefficients, and a sum is a loop over the columns. A row and the rows' sums of one check
//! are filled alike: the system of the marked places is solved by elimination.

#[path = "common.rs"]
pub mod common;

use common::*;

// ---- checks

type Checks = [[u8; COLUMNS]; SUMS];

/// Writes the bits of a number to a column of the checks, low first.
const fn write_bits(checks: &mut Checks, first: usize, column: usize, number: u8, width: usize) {
    let mut bit = 0;
    while bit < width {
        checks[first + bit][column] = number >> bit & 1;
        bit += 1;
    }
}

const fn checks_1() -> Checks {
    let mut checks = [[0; COLUMNS]; SUMS];
    let mut column = 0;
    while column < 7 {
        checks[0][column] = 1;
        write_bits(&mut checks, 1, column, location(1, column), 3);
        column += 1;
    }
    checks
}

/// Plans 2 and 5, whose locations have 5 and 6 bits: parity, and the bits of the locations, of their cubes and of their fifth powers.
const fn power_checks(plan: usize, width: usize) -> Checks {
    let mut checks = [[0; COLUMNS]; SUMS];
    let mut column = 0;
    while column < 1 << width {
        let at = location(plan, column);
        let square = times_located(plan, at, at);
        let cube = times_located(plan, square, at);
        checks[0][column] = 1;
        write_bits(&mut checks, 1, column, at, width);
        write_bits(&mut checks, 1 + width, column, cube, width);
        write_bits(&mut checks, 1 + 2 * width, column, times_located(plan, cube, square), width);
        column += 1;
    }
    checks
}

/// Plans 3 and 4: power sums from 0 on.
const fn power_sums(plan: usize, columns: usize, sums: usize) -> Checks {
    let mut checks = [[0; COLUMNS]; SUMS];
    let mut column = 0;
    while column < columns {
        let (mut power, mut sum) = (1, 0);
        while sum < sums {
            checks[sum][column] = power;
            power = times_located(plan, power, location(plan, column));
            sum += 1;
        }
        column += 1;
    }
    checks
}

static CHECKS_1: Checks = checks_1();
static CHECKS_2: Checks = power_checks(2, 5);
static CHECKS_3: Checks = power_sums(3, 15, 7);
static CHECKS_4: Checks = power_sums(4, 24, 9);
static CHECKS_5: Checks = power_checks(5, 6);

impl Plan {
    /// The row checks of all levels. Those of a level are the ones from the level below's `sums_to` on.
    fn checks(&self) -> &'static Checks {
        match self.number {
            1 => &CHECKS_1,
            2 => &CHECKS_2,
            3 => &CHECKS_3,
            4 => &CHECKS_4,
            _ => &CHECKS_5,
        }
    }

    /// The bytes of a mark word in a file.
    fn word_bytes(&self) -> usize {
        if self.columns > 32 {
            8
        } else {
            4
        }
    }
}

/// The sum of each symbol times its coefficient.
fn sum(q: usize, check: &[u8], symbols: &[u8]) -> u8 {
    let pairs = check.iter().zip(symbols);
    match q {
        2 => pairs.fold(0, |sum, (x, y)| sum ^ x & y),
        256 => pairs.fold(0, |sum, (&x, &y)| sum ^ times_bytes(x, y)),
        _ => pairs.fold(0, |sum, (&x, &y)| sum ^ times(x, y)),
    }
}

/// Fills the marked places of a vector so that its sums under the checks are the target, where one filling alone does so.
/// An equation has a cell for each marked place, of which there are fewer than CELLS, and one for what the target leaves.
fn fill<const N: usize, const CELLS: usize>(
    q: usize,
    checks: &[[u8; N]],
    target: &[u8],
    vector: &mut [u8],
    marks: u64,
) -> Solved {
    if marks == 0 {
        return match checks.iter().zip(target).all(|(check, &wanted)| sum(q, check, vector) == wanted) {
            true => Solved::One,
            false => Solved::None,
        };
    }
    let unknowns = marks.count_ones() as usize;
    let (mut places, mut shown) = ([0; N], [0; N]);
    let (places, shown) = (&mut places[..unknowns], &mut shown[..vector.len()]);
    shown.copy_from_slice(vector);
    let mut rest = marks;
    for place in places.iter_mut() {
        *place = rest.trailing_zeros() as usize;
        shown[*place] = 0;
        rest &= rest - 1;
    }
    let mut system = [[0; CELLS]; SUMS];
    let system = &mut system[..checks.len()];
    for (equation, (check, wanted)) in system.iter_mut().zip(checks.iter().zip(target)) {
        for (cell, &place) in equation.iter_mut().zip(places.iter()) {
            *cell = check[place];
        }
        equation[unknowns] = wanted ^ sum(q, check, shown);
    }
    let solved = solve(q, system, unknowns);
    if let Solved::One = solved {
        for (equation, &place) in system.iter().zip(places.iter()) {
            vector[place] = equation[unknowns];
        }
    }
    solved
}

// ---- the bench and its steps

impl Bench {
    fn row_step(&mut self, row: usize) -> usize {
        let (plan, word) = (self.plan, self.marks[row]);
        let sums = plan.sums_to[self.level];
        // power sums of different locations: with more marks than sums every target is met, in more than one way
        if plan.q != 2 && word.count_ones() as usize > sums {
            return TIED;
        }
        let symbols = &mut self.symbols[row * plan.columns..][..plan.columns];
        let (checks, target) = (&plan.checks()[..sums], &self.sums[row][..sums]);
        let filled = match word.count_ones() {
            // rooms for few marks are cleared and added in less time
            0..=32 => fill::<COLUMNS, 33>(plan.q, checks, target, symbols, word),
            _ => fill::<COLUMNS, { COLUMNS + 1 }>(plan.q, checks, target, symbols, word),
        };
        match filled {
            Solved::None => CLASH,
            Solved::Many => TIED,
            Solved::One if word == 0 => WHOLE,
            Solved::One => {
                self.marks[row] = 0;
                FILLED
            }
        }
    }

    fn level_step(&mut self) -> usize {
        let plan = self.plan;
        if self.level == plan.levels {
            return TOP;
        }
        let next = self.level + 1;
        let weights = &plan.weights[next][..plan.totals[next]];
        let lossy = (0..plan.rows).filter(|&row| self.marks[row] != 0).fold(0u64, |rows, row| rows | 1 << row);
        // any as many weight columns as there are totals are independent: more of them meet every target, in more than one
        // way, and fewer meet one in one way at most
        if lossy.count_ones() as usize > weights.len() {
            return BLOCKED;
        }
        let mut learned = self.sums;
        for check in plan.sums_to[self.level]..plan.sums_to[next] {
            let mut sums = [0; ROWS];
            for (row, symbols) in self.symbols[..plan.symbols()].chunks_exact(plan.columns).enumerate() {
                if self.marks[row] == 0 {
                    sums[row] = sum(plan.q, &plan.checks()[check], symbols);
                }
            }
            match fill::<ROWS, { ROWS + 1 }>(plan.q, weights, &[0; TOTALS], &mut sums[..plan.rows], lossy) {
                Solved::One => learned.iter_mut().zip(sums).for_each(|(row, sum)| row[check] = sum),
                _ => return CLASH,
            }
        }
        self.sums = learned;
        self.level = next;
        RAISED
    }

    /// The rounds, up to Blocked, Top or Clash: the answer and the report.
    fn rounds(&mut self) -> (usize, [u8; 8]) {
        let mut restored = [0; 3];
        loop {
            for row in 0..self.plan.rows {
                match self.row_step(row) {
                    CLASH => return (CLASH, [0, 0, 0, 0, 0, 1, row as u8, self.level as u8]),
                    FILLED => restored[self.level - 1] += 1,
                    _ => (),
                }
            }
            match self.level_step() {
                CLASH => return (CLASH, [0, 0, 0, 0, 0, 2, 0, self.level as u8 + 1]),
                RAISED => (),
                _ => break,
            }
        }
        let left = self.marks.iter().filter(|&&word| word != 0).count() as u8;
        let answer = if left == 0 { RESTORED } else { STUCK };
        (answer, [self.level as u8, left, restored[0], restored[1], restored[2], 0, 0, 0])
    }
}

pub fn start(plan: usize, stripe: &[u8], marks: &[u64], bench: &mut [u8]) -> usize {
    let fits = bench.len() == BENCH;
    let refused = lent(plan, stripe, marks, |_| fits).err();
    if fits {
        bench.fill(0);
    }
    if let Some(number) = refused {
        return number;
    }
    bench[0] = plan as u8;
    bench[1] = 1;
    bench[SYMBOLS_AT..][..stripe.len()].copy_from_slice(stripe);
    for (bytes, word) in bench[MARKS_AT..SUMS_AT].chunks_exact_mut(WORD).zip(marks) {
        bytes.copy_from_slice(&word.to_le_bytes());
    }
    0
}

pub fn row_step(bench: &mut [u8], row: usize) -> usize {
    let mut held = match Bench::read(bench) {
        Ok(held) => held,
        Err(number) => return number,
    };
    if row >= held.plan.rows {
        return 14;
    }
    let answer = held.row_step(row);
    if answer == FILLED {
        let columns = held.plan.columns;
        bench[SYMBOLS_AT + row * columns..][..columns].copy_from_slice(&held.symbols[row * columns..][..columns]);
        bench[MARKS_AT + WORD * row..][..WORD].fill(0);
    }
    answer
}

pub fn level_step(bench: &mut [u8]) -> usize {
    let mut held = match Bench::read(bench) {
        Ok(held) => held,
        Err(number) => return number,
    };
    let answer = held.level_step();
    if answer == RAISED {
        bench[1] = held.level as u8;
        for (row, sums) in bench[SUMS_AT..].chunks_exact_mut(SUMS).zip(held.sums).take(held.plan.rows) {
            row.copy_from_slice(&sums);
        }
    }
    answer
}

// ---- mending and coding

pub fn mend(plan: usize, stripe: &mut [u8], marks: &mut [u64], report: &mut [u8]) -> usize {
    let fits = report.len() == 8;
    let plan = match lent(plan, stripe, marks, |_| fits) {
        Ok(plan) => plan,
        Err(number) => return number,
    };
    let mut bench = Bench::new(plan, stripe, marks);
    let (answer, found) = bench.rounds();
    if answer != CLASH {
        stripe.copy_from_slice(&bench.symbols[..plan.symbols()]);
        marks.copy_from_slice(&bench.marks[..plan.rows]);
    }
    report.copy_from_slice(&found);
    answer
}

/// Whether the totals of one check's sums of all rows are zero.
fn totals_hold(plan: &Plan, stripe: &[u8], weights: &[[u8; ROWS]], check: &[u8]) -> bool {
    let mut sums = [0; ROWS];
    for (own, symbols) in sums.iter_mut().zip(stripe.chunks_exact(plan.columns)) {
        *own = sum(plan.q, check, symbols);
    }
    weights.iter().all(|weights| sum(plan.q, weights, &sums) == 0)
}

fn holds(plan: &Plan, stripe: &[u8]) -> bool {
    let checks = |level: usize| &plan.checks()[plan.sums_to[level - 1]..plan.sums_to[level]];
    let row_holds = |row: &[u8]| checks(1).iter().all(|check| sum(plan.q, check, row) == 0);
    let level_holds = |level: usize| {
        let weights = &plan.weights[level][..plan.totals[level]];
        checks(level).iter().all(|check| totals_hold(plan, stripe, weights, check))
    };
    stripe.chunks_exact(plan.columns).all(row_holds) && (2..=plan.levels).all(level_holds)
}

pub fn is_codeword(plan: usize, stripe: &[u8]) -> usize {
    let plan = match Plan::numbered(plan) {
        Ok(plan) => plan,
        Err(number) => return number,
    };
    if stripe.len() != plan.symbols() {
        return 11;
    }
    if !all_below(plan.q, stripe) {
        return 13;
    }
    !holds(plan, stripe) as usize
}

/// Whether the first power sums of a word of plan 3 are zero.
fn in_code(sums: usize, word: &[u8]) -> bool {
    CHECKS_3[..sums].iter().all(|check| sum(16, check, word) == 0)
}

/// Plan 3's codeword test in its interleaved form.
pub fn is_interleaved(stripe: &[u8]) -> usize {
    if stripe.len() != 120 {
        return 11;
    }
    if !all_below(16, stripe) {
        return 13;
    }
    let (mut plain, mut weighted, mut weight) = ([0; 15], [0; 15], 1);
    for row in stripe.chunks_exact(15) {
        if !in_code(2, row) {
            return 1;
        }
        for ((plain, weighted), &symbol) in plain.iter_mut().zip(&mut weighted).zip(row) {
            *plain ^= symbol;
            *weighted ^= times(weight, symbol);
        }
        weight = times(2, weight);
    }
    !(in_code(7, &plain) && in_code(3, &weighted)) as usize
}

pub fn encode(plan: usize, data: &[u8], stripe: &mut [u8]) -> usize {
    let plan = match Plan::numbered(plan) {
        Ok(plan) => plan,
        Err(number) => return number,
    };
    if data.len() != plan.carried || stripe.len() != plan.symbols() {
        return 11;
    }
    if !all_below(plan.q, data) {
        return 13;
    }
    let mut next = data.iter();
    for (row, &places) in stripe.chunks_exact_mut(plan.columns).zip(&plan.check_places) {
        for (column, symbol) in row.iter_mut().enumerate() {
            *symbol = match places >> column & 1 {
                0 => next.next().map_or(0, |&symbol| symbol),
                _ => 0,
            };
        }
    }
    let mut bench = Bench::new(plan, stripe, &plan.check_places[..plan.rows]);
    bench.rounds();
    stripe.copy_from_slice(&bench.symbols[..plan.symbols()]);
    0
}

pub fn extract(plan: usize, stripe: &[u8], data: &mut [u8]) -> usize {
    let plan = match Plan::numbered(plan) {
        Ok(plan) => plan,
        Err(number) => return number,
    };
    if stripe.len() != plan.symbols() || data.len() != plan.carried {
        return 11;
    }
    if !all_below(plan.q, stripe) {
        return 13;
    }
    if !holds(plan, stripe) {
        return 16;
    }
    let rows = stripe.chunks_exact(plan.columns).zip(&plan.check_places);
    let carried = rows.flat_map(|(row, &places)| {
        let columns = row.iter().enumerate();
        columns.filter(move |&(column, _)| places >> column & 1 == 0).map(|(_, &symbol)| symbol)
    });
    data.iter_mut().zip(carried).for_each(|(place, symbol)| *place = symbol);
    0
}

// ---- the stripe file and its text

fn symbols_offset(plan: &Plan) -> usize {
    8 + plan.word_bytes() * plan.rows
}

fn file_length(plan: &Plan) -> usize {
    symbols_offset(plan) + plan.symbols()
}

fn header(plan: &Plan) -> [u8; 8] {
    let wide = plan.word_bytes() == WORD;
    [plan.number as u8, plan.rows as u8, plan.columns as u8, wide as u8, 8, 0, symbols_offset(plan) as u8, 0]
}

fn open(
    file: &[u8],
    stripe: &mut [u8; SYMBOLS],
    marks: &mut [u64; ROWS],
    fits: impl Fn(&Plan) -> bool,
) -> Result<&'static Plan, usize> {
    if file.len() < 8 {
        return Err(20);
    }
    let plan = Plan::numbered(file[0] as usize)?;
    if file[..8] != header(plan) {
        return Err(21);
    }
    if file.len() != file_length(plan) {
        return Err(20);
    }
    if !fits(plan) {
        return Err(11);
    }
    let (words, symbols) = file[8..].split_at(plan.word_bytes() * plan.rows);
    for (word, bytes) in marks.iter_mut().zip(words.chunks_exact(plan.word_bytes())) {
        *word = number(bytes);
    }
    test(plan, symbols, &marks[..plan.rows])?;
    let lost = |place: usize| marks[place / plan.columns] >> (place % plan.columns) & 1 == 1;
    if symbols.iter().enumerate().any(|(place, &symbol)| symbol != 0 && lost(place)) {
        return Err(22);
    }
    stripe[..plan.symbols()].copy_from_slice(symbols);
    Ok(plan)
}

pub fn read_file(file: &[u8], stripe: &mut [u8], marks: &mut [u64]) -> usize {
    let (mut symbols, mut words) = ([0; SYMBOLS], [0; ROWS]);
    let fits = |plan: &Plan| stripe.len() == plan.symbols() && marks.len() == plan.rows;
    match open(file, &mut symbols, &mut words, fits) {
        Ok(plan) => {
            stripe.copy_from_slice(&symbols[..plan.symbols()]);
            marks.copy_from_slice(&words[..plan.rows]);
            0
        }
        Err(number) => number,
    }
}

pub fn write_file(plan: usize, stripe: &[u8], marks: &[u64], file: &mut [u8]) -> usize {
    let length = file.len();
    let plan = match lent(plan, stripe, marks, |plan| length == file_length(plan)) {
        Ok(plan) => plan,
        Err(number) => return number,
    };
    file[..8].copy_from_slice(&header(plan));
    for (bytes, word) in file[8..].chunks_exact_mut(plan.word_bytes()).zip(marks) {
        bytes.copy_from_slice(&word.to_le_bytes()[..plan.word_bytes()]);
    }
    for (place, byte) in file[symbols_offset(plan)..].iter_mut().enumerate() {
        let lost = marks[place / plan.columns] >> (place % plan.columns) & 1 == 1;
        *byte = if lost { 0 } else { stripe[place] };
    }
    0
}

fn shown(plan: &Plan, answer: usize, report: &[u8; 8], stripe: &[u8], marks: &[u64]) -> String {
    let number = plan.number;
    if answer == CLASH {
        let [.., place, row, level] = *report;
        let place = if place == 2 { "across".to_string() } else { format!("row {row}") };
        return format!("plan {number} answer 2 level {level} place {place}\n");
    }
    let mut text = format!("plan {number} answer {answer} level {} left {} rows", report[0], report[1]);
    report[2..2 + plan.levels].iter().for_each(|rows| text += &format!(" {rows}"));
    for (row, symbols) in stripe.chunks_exact(plan.columns).enumerate() {
        text.push('\n');
        for (column, &symbol) in symbols.iter().enumerate() {
            let lost = marks[row] >> column & 1 == 1;
            let digit = |value: u8| if lost { '?' } else { b"0123456789abcdef"[value as usize & 15] as char };
            if plan.q == 256 {
                text.push(digit(symbol >> 4));
            }
            text.push(digit(symbol));
        }
    }
    text + "\n"
}

pub fn text(file: &[u8], text: &mut [u8], length: &mut [u8]) -> usize {
    if text.len() != 640 || length.len() != 2 {
        return 11;
    }
    let (mut symbols, mut words) = ([0; SYMBOLS], [0; ROWS]);
    let lines = match open(file, &mut symbols, &mut words, |_| true) {
        Err(number) => format!("refused {number}\n"),
        Ok(plan) => {
            let (symbols, words, mut report) = (&mut symbols[..plan.symbols()], &mut words[..plan.rows], [0; 8]);
            let answer = mend(plan.number, symbols, words, &mut report);
            shown(plan, answer, &report, symbols, words)
        }
    };
    text.fill(0);
    text[..lines.len()].copy_from_slice(lines.as_bytes());
    length.copy_from_slice(&(lines.len() as u16).to_le_bytes());
    0
}
