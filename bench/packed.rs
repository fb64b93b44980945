//! The timed calls once more, with packed tables and a precomputed encoder: what can be won beyond the plain code.
//!
//! A row's sums are packed into one word, each sum in as many bits as a symbol has: a word of 32 bits, and of 128 for the nine
//! bytes of plan 4. For every column and symbol a table gives the packed shares, so that a row's sums are an exclusive-or of one
//! word a column. Over GF(2) a row is solved by these words too. Encoding looks up what each of a row's sums adds to the row's
//! check symbols.

#[path = "common.rs"]
pub mod common;

use common::*;
use std::ops::{BitAnd, BitOr, BitXor, BitXorAssign, Not, Shl, Shr};
use std::sync::LazyLock;

// ---- packed sums

/// A word of packed sums.
trait Word:
    Copy
    + Default
    + PartialEq
    + From<u8>
    + Not<Output = Self>
    + BitAnd<Output = Self>
    + BitOr<Output = Self>
    + BitXor<Output = Self>
    + BitXorAssign
    + Shl<usize, Output = Self>
    + Shr<usize, Output = Self>
    + 'static
{
    /// What each symbol in a column adds.
    type Column: 'static;
    fn columns(plan: &Plan) -> &'static [Self::Column];
    fn share(column: &Self::Column, symbol: u8) -> Self;
    fn encoder(plan: &Plan) -> &'static Encoder<Self>;
    /// The low bits.
    fn byte(self) -> u8;
    fn fill(plan: &Plan, level: usize, row: &mut [u8], word: u64, missing: Self) -> usize;
}

impl Word for u32 {
    type Column = [u32; 16];

    fn columns(plan: &Plan) -> &'static [[u32; 16]] {
        match plan.number {
            1 => &SHARES_1,
            2 => &SHARES_2,
            3 => &SHARES_3,
            _ => &SHARES_5,
        }
    }

    fn share(column: &[u32; 16], symbol: u8) -> u32 {
        column[symbol as usize & 15]
    }

    fn encoder(plan: &Plan) -> &'static Encoder<u32> {
        static ENCODERS: [LazyLock<Encoder<u32>>; 4] = [
            LazyLock::new(|| Encoder::new(1)),
            LazyLock::new(|| Encoder::new(2)),
            LazyLock::new(|| Encoder::new(3)),
            LazyLock::new(|| Encoder::new(5)),
        ];
        &ENCODERS[plan.number.min(4) - 1]
    }

    fn byte(self) -> u8 {
        self as u8
    }

    fn fill(plan: &Plan, level: usize, row: &mut [u8], word: u64, missing: u32) -> usize {
        match plan.q {
            2 => fill_bits(plan, level, row, word, missing),
            _ => fill_symbols(plan, level, row, word, missing),
        }
    }
}

impl Word for u128 {
    type Column = [u128; 256];

    fn columns(_: &Plan) -> &'static [[u128; 256]] {
        &SHARES_4
    }

    fn share(column: &[u128; 256], symbol: u8) -> u128 {
        column[symbol as usize]
    }

    fn encoder(_: &Plan) -> &'static Encoder<u128> {
        static ENCODER: LazyLock<Encoder<u128>> = LazyLock::new(|| Encoder::new(4));
        &ENCODER
    }

    fn byte(self) -> u8 {
        self as u8
    }

    fn fill(plan: &Plan, level: usize, row: &mut [u8], word: u64, missing: u128) -> usize {
        fill_symbols(plan, level, row, word, missing)
    }
}

type Shares = [[u32; 16]; COLUMNS];

/// What a symbol in a column adds to its row's packed sums.
static SHARES_1: Shares = located_shares();
static SHARES_2: Shares = power_shares(2, 5);
static SHARES_3: Shares = nibble_shares();
static SHARES_4: LazyLock<Vec<[u128; 256]>> = LazyLock::new(|| (0..24).map(byte_shares).collect());
static SHARES_5: Shares = power_shares(5, 6);

const fn located_shares() -> Shares {
    let mut shares = [[0; 16]; COLUMNS];
    let mut column = 0;
    while column < 7 {
        shares[column][1] = 1 | (location(1, column) as u32) << 1;
        column += 1;
    }
    shares
}

/// Plans 2 and 5, whose locations have 5 and 6 bits.
const fn power_shares(plan: usize, width: usize) -> Shares {
    let mut shares = [[0; 16]; COLUMNS];
    let mut column = 0;
    while column < 1 << width {
        let at = location(plan, column);
        let square = times_located(plan, at, at);
        let cube = times_located(plan, square, at);
        let fifth = times_located(plan, cube, square);
        shares[column][1] = 1 | (at as u32) << 1 | (cube as u32) << (1 + width) | (fifth as u32) << (1 + 2 * width);
        column += 1;
    }
    shares
}

const fn nibble_shares() -> Shares {
    let mut shares = [[0; 16]; COLUMNS];
    let mut column = 0;
    while column < 15 {
        let mut symbol = 0;
        while symbol < 16 {
            let (mut term, mut sum) = (symbol as u8, 0);
            while sum < 7 {
                shares[column][symbol] |= (term as u32) << (4 * sum);
                term = times16(term, location(3, column));
                sum += 1;
            }
            symbol += 1;
        }
        column += 1;
    }
    shares
}

fn byte_shares(column: usize) -> [u128; 256] {
    let mut shares = [0; 256];
    for (symbol, packed) in shares.iter_mut().enumerate() {
        let mut term = symbol as u8;
        for sum in 0..9 {
            *packed |= (term as u128) << (8 * sum);
            term = times_bytes(term, location(4, column));
        }
    }
    shares
}

impl Plan {
    /// Bits of a symbol.
    fn width(&self) -> usize {
        self.q.trailing_zeros() as usize
    }

    fn times(&self, x: u8, y: u8) -> u8 {
        match self.q {
            256 => times_bytes(x, y),
            _ => times(x, y),
        }
    }

    /// The bits of the packed sums of levels 1 to a level.
    fn mask<W: Word>(&self, level: usize) -> W {
        !(!W::default() << (self.width() * self.sums_to[level]))
    }

    /// One of some packed symbols.
    fn unpacked<W: Word>(&self, packed: W, at: usize) -> u8 {
        (packed >> (self.width() * at)).byte() & (self.q - 1) as u8
    }

    /// A symbol in its place.
    fn placed<W: Word>(&self, symbol: u8, at: usize) -> W {
        W::from(symbol) << (self.width() * at)
    }

    fn packed<W: Word>(&self, symbols: &[u8]) -> W {
        symbols.iter().rev().fold(W::default(), |packed, &symbol| packed << self.width() | W::from(symbol))
    }

    /// The packed sums of the unmarked symbols of a row.
    fn row_sums<W: Word>(&self, row: &[u8], word: u64) -> W {
        let shares = W::columns(self).iter().zip(row);
        if word == 0 {
            return shares.fold(W::default(), |sums, (share, &symbol)| sums ^ W::share(share, symbol));
        }
        let shown = |column: usize, symbol: u8| if word >> column & 1 == 1 { 0 } else { symbol };
        let shown = shares.enumerate().map(|(column, (share, &symbol))| W::share(share, shown(column, symbol)));
        shown.fold(W::default(), |sums, share| sums ^ share)
    }
}

/// The marked columns, ascending.
fn columns_of(word: u64) -> impl Iterator<Item = usize> {
    let mut rest = word;
    std::iter::from_fn(move || {
        let column = rest.trailing_zeros() as usize;
        rest &= rest.wrapping_sub(1);
        (column < COLUMNS).then_some(column)
    })
}

// ---- steps

/// Fills the marked columns of a row, of whose sums up to a level the packed ones are missing.
fn fill_row<W: Word>(plan: &Plan, level: usize, row: &mut [u8], word: u64, missing: W) -> usize {
    if word == 0 {
        return if missing == W::default() { WHOLE } else { CLASH };
    }
    W::fill(plan, level, row, word, missing)
}

/// Packed sums, and which columns add up to them.
#[derive(Clone, Copy, Default)]
struct Vector {
    sums: u32,
    columns: u64,
}

/// Takes the kept vectors out of another. A kept vector stands at the place of its lowest sum.
fn reduced(kept: &[Vector], vector: Vector) -> Vector {
    kept.iter().enumerate().fold(vector, |left, (sum, own)| {
        let taken = (left.sums >> sum & 1).wrapping_neg();
        Vector { sums: left.sums ^ own.sums & taken, columns: left.columns ^ own.columns & taken as i32 as u64 }
    })
}

fn fill_bits(plan: &Plan, level: usize, row: &mut [u8], word: u64, missing: u32) -> usize {
    let (sums, count) = (plan.sums_to[level], word.count_ones() as usize);
    let (mut kept, mut rank) = ([Vector::default(); SUMS], 0);
    for column in columns_of(word) {
        let shares = u32::columns(plan)[column][1] & plan.mask::<u32>(level);
        let left = reduced(&kept[..sums], Vector { sums: shares, columns: 1 << column });
        if left.sums != 0 {
            kept[left.sums.trailing_zeros() as usize] = left;
            rank += 1;
        }
        // every target is met, in more than one way
        if rank == sums && count > sums {
            return TIED;
        }
    }
    let left = reduced(&kept[..sums], Vector { sums: missing, columns: 0 });
    if left.sums != 0 {
        return CLASH;
    }
    if rank < count {
        return TIED;
    }
    for column in columns_of(word) {
        row[column] = (left.columns >> column) as u8 & 1;
    }
    FILLED
}

fn fill_symbols<W: Word>(plan: &Plan, level: usize, row: &mut [u8], word: u64, missing: W) -> usize {
    let (sums, count) = (plan.sums_to[level], word.count_ones() as usize);
    // power sums of different locations: with more marks than sums every target is met, in more than one way
    if count > sums {
        return TIED;
    }
    let mut system = [[0; SUMS + 1]; SUMS];
    for (sum, equation) in system[..sums].iter_mut().enumerate() {
        for (cell, column) in equation.iter_mut().zip(columns_of(word)) {
            *cell = plan.unpacked(W::share(&W::columns(plan)[column], 1), sum);
        }
        equation[count] = plan.unpacked(missing, sum);
    }
    match solve(plan.q, &mut system[..sums], count) {
        Solved::None => CLASH,
        Solved::Many => TIED,
        Solved::One => {
            for (equation, column) in system.iter().zip(columns_of(word)) {
                row[column] = equation[count];
            }
            FILLED
        }
    }
}

pub fn row_step(bench: &mut [u8], row: usize) -> usize {
    match bench.first() {
        Some(4) => row_step_by::<u128>(bench, row),
        _ => row_step_by::<u32>(bench, row),
    }
}

fn row_step_by<W: Word>(bench: &mut [u8], row: usize) -> usize {
    let held = match Bench::read(bench) {
        Ok(held) => held,
        Err(number) => return number,
    };
    let plan = held.plan;
    if row >= plan.rows {
        return 14;
    }
    let (word, level) = (held.marks[row], held.level);
    let symbols = &mut bench[SYMBOLS_AT + row * plan.columns..][..plan.columns];
    let known = plan.row_sums::<W>(symbols, word) & plan.mask(level);
    let missing = known ^ plan.packed(&held.sums[row][..plan.sums_to[level]]);
    let answer = fill_row(plan, level, symbols, word, missing);
    if answer == FILLED {
        bench[MARKS_AT + WORD * row..][..WORD].fill(0);
    }
    answer
}

/// A bench of packed sums: those of the unmarked symbols of each row, and the learned ones.
struct Packed<W> {
    bench: Bench,
    known: [W; ROWS],
    learned: [W; ROWS],
}

impl<W: Word> Packed<W> {
    fn new(plan: &'static Plan, stripe: &[u8], marks: &[u64]) -> Packed<W> {
        let mut known = [W::default(); ROWS];
        for (sums, (row, &word)) in known.iter_mut().zip(stripe.chunks_exact(plan.columns).zip(marks)) {
            *sums = plan.row_sums(row, word);
        }
        Packed { bench: Bench::new(plan, stripe, marks), known, learned: [W::default(); ROWS] }
    }

    fn row_step(&mut self, row: usize) -> usize {
        let (plan, level, word) = (self.bench.plan, self.bench.level, self.bench.marks[row]);
        let missing = (self.known[row] ^ self.learned[row]) & plan.mask(level);
        let symbols = &mut self.bench.symbols[row * plan.columns..][..plan.columns];
        let answer = fill_row(plan, level, symbols, word, missing);
        if answer == FILLED {
            self.known[row] = plan.row_sums(symbols, 0);
            self.bench.marks[row] = 0;
        }
        answer
    }

    fn level_step(&mut self) -> usize {
        let (plan, level, marks) = (self.bench.plan, self.bench.level, &self.bench.marks);
        if level == plan.levels {
            return TOP;
        }
        let next = level + 1;
        let totals = plan.totals[next];
        let marked = marks[..plan.rows].iter().filter(|&&word| word != 0).count();
        // any as many weight columns as there are totals are independent: more of them meet every target, in more than one
        // way, and fewer meet one in one way at most
        if marked > totals {
            return BLOCKED;
        }
        let own = plan.mask::<W>(next) & !plan.mask::<W>(level);
        let mut learned = self.learned;
        for row in (0..plan.rows).filter(|&row| marks[row] == 0) {
            learned[row] ^= self.known[row] & own;
        }
        for sum in plan.sums_to[level]..plan.sums_to[next] {
            let mut system = [[0; TOTALS + 1]; TOTALS];
            for (equation, weights) in system.iter_mut().zip(&plan.weights[next][..totals]) {
                let mut unknown = 0;
                for (row, &weight) in weights[..plan.rows].iter().enumerate() {
                    if marks[row] == 0 {
                        equation[marked] ^= plan.times(weight, plan.unpacked(self.known[row], sum));
                    } else {
                        equation[unknown] = weight;
                        unknown += 1;
                    }
                }
            }
            let Solved::One = solve(plan.q, &mut system[..totals], marked) else {
                return CLASH;
            };
            let rows = (0..plan.rows).filter(|&row| marks[row] != 0);
            for (equation, row) in system.iter().zip(rows) {
                learned[row] ^= plan.placed(equation[marked], sum);
            }
        }
        self.learned = learned;
        self.bench.level = next;
        RAISED
    }

    /// The rounds, up to Blocked, Top or Clash: the answer and the report.
    fn rounds(&mut self) -> (usize, [u8; 8]) {
        let mut restored = [0; 3];
        loop {
            let level = self.bench.level;
            for row in 0..self.bench.plan.rows {
                match self.row_step(row) {
                    CLASH => return (CLASH, [0, 0, 0, 0, 0, 1, row as u8, level as u8]),
                    FILLED => restored[level - 1] += 1,
                    _ => (),
                }
            }
            match self.level_step() {
                CLASH => return (CLASH, [0, 0, 0, 0, 0, 2, 0, level as u8 + 1]),
                RAISED => (),
                _ => break,
            }
        }
        let left = self.bench.marks.iter().filter(|&&word| word != 0).count() as u8;
        let answer = if left == 0 { RESTORED } else { STUCK };
        (answer, [self.bench.level as u8, left, restored[0], restored[1], restored[2], 0, 0, 0])
    }
}

pub fn mend(plan: usize, stripe: &mut [u8], marks: &mut [u64], report: &mut [u8]) -> usize {
    match plan {
        4 => mend_by::<u128>(plan, stripe, marks, report),
        _ => mend_by::<u32>(plan, stripe, marks, report),
    }
}

fn mend_by<W: Word>(plan: usize, stripe: &mut [u8], marks: &mut [u64], report: &mut [u8]) -> usize {
    let fits = report.len() == 8;
    let plan = match lent(plan, stripe, marks, |_| fits) {
        Ok(plan) => plan,
        Err(number) => return number,
    };
    let mut packed = Packed::<W>::new(plan, stripe, marks);
    let (answer, found) = packed.rounds();
    if answer != CLASH {
        stripe.copy_from_slice(&packed.bench.symbols[..plan.symbols()]);
        marks.copy_from_slice(&packed.bench.marks[..plan.rows]);
    }
    report.copy_from_slice(&found);
    answer
}

// ---- codeword test

/// The packed totals of the rows' sums, and those of level 2 under its second and third weights, where it has such.
#[derive(Clone, Copy, Default)]
struct Totals<W> {
    plain: W,
    weighted: [W; TOTALS - 1],
}

impl<W: Word> Totals<W> {
    fn add(&mut self, plan: &Plan, row: usize, sums: W) {
        self.plain ^= sums;
        for (total, weights) in self.weighted.iter_mut().zip(&plan.weights[2][1..plan.totals[2]]) {
            for sum in plan.sums_to[1]..plan.sums_to[2] {
                *total ^= plan.placed(plan.times(weights[row], plan.unpacked(sums, sum)), sum);
            }
        }
    }
}

pub fn is_codeword(plan: usize, stripe: &[u8]) -> usize {
    match plan {
        4 => is_codeword_by::<u128>(plan, stripe),
        _ => is_codeword_by::<u32>(plan, stripe),
    }
}

fn is_codeword_by<W: Word>(plan: usize, stripe: &[u8]) -> usize {
    let plan = match Plan::numbered(plan) {
        Ok(plan) => plan,
        Err(number) => return number,
    };
    if stripe.len() != plan.symbols() {
        return 11;
    }
    if !all_below(plan.q, stripe) {
        return 13;
    }
    let mut totals = Totals::<W>::default();
    for (row, symbols) in stripe.chunks_exact(plan.columns).enumerate() {
        let sums: W = plan.row_sums(symbols, 0);
        if sums & plan.mask(1) != W::default() {
            return 1;
        }
        totals.add(plan, row, sums);
    }
    (totals.plain != W::default() || totals.weighted.iter().any(|&total| total != W::default())) as usize
}

/// Plan 3 in its interleaved form: the same code.
pub fn is_interleaved(stripe: &[u8]) -> usize {
    is_codeword(3, stripe)
}

// ---- encoding

struct Encoder<W> {
    /// For each row, sum and value: the packed check symbols that give the row this sum and no other.
    solutions: Vec<W>,
    /// The last rows, as many as level 2 has totals, make these zero: what each of the totals asks of each of the rows' sums.
    asked: [[u8; TOTALS]; TOTALS],
}

impl<W: Word> Encoder<W> {
    fn new(number: usize) -> Encoder<W> {
        let plan = Plan::numbered(number).unwrap_or_else(|_| panic!("there is no plan {number}"));
        let mut solutions = vec![W::default(); plan.rows * SUMS * plan.q];
        for (row, &word) in plan.check_places[..plan.rows].iter().enumerate() {
            let count = word.count_ones() as usize;
            let level = (1..plan.levels).find(|&level| plan.sums_to[level] == count).unwrap_or(plan.levels);
            for (sum, value) in (0..count * plan.q).map(|n| (n / plan.q, n % plan.q)) {
                let mut symbols = [0; COLUMNS];
                fill_row(plan, level, &mut symbols, word, plan.placed::<W>(value as u8, sum));
                let places = columns_of(word).enumerate();
                solutions[(row * SUMS + sum) * plan.q + value] =
                    places.fold(W::default(), |packed, (at, column)| packed | plan.placed(symbols[column], at));
            }
        }
        Encoder { solutions, asked: asked(plan) }
    }
}

/// The inverse of the weights of the last rows at level 2: by total and row.
fn asked(plan: &Plan) -> [[u8; TOTALS]; TOTALS] {
    let (totals, mut asked) = (plan.totals[2], [[0; TOTALS]; TOTALS]);
    for (total, of_total) in asked[..totals].iter_mut().enumerate() {
        let mut system = [[0; TOTALS + 1]; TOTALS];
        for (n, equation) in system[..totals].iter_mut().enumerate() {
            equation[..totals].copy_from_slice(&plan.weights[2][n][plan.rows - totals..plan.rows]);
            equation[totals] = (n == total) as u8;
        }
        solve(plan.q, &mut system[..totals], totals);
        of_total.iter_mut().zip(&system[..totals]).for_each(|(sum, equation)| *sum = equation[totals]);
    }
    asked
}

/// The level 2 sums that the last rows are to have, by the totals of the rows before them.
fn last_sums<W: Word>(plan: &Plan, asked: &[[u8; TOTALS]; TOTALS], totals: &Totals<W>) -> [W; TOTALS] {
    let mut wanted = [W::default(); TOTALS];
    // one total, of weights 1
    if plan.totals[2] == 1 {
        wanted[0] = totals.plain & plan.mask(2);
        return wanted;
    }
    let [second, third] = totals.weighted;
    let all = [totals.plain, second, third];
    for (of_total, &total) in asked[..plan.totals[2]].iter().zip(&all) {
        for (row, &factor) in wanted[..plan.totals[2]].iter_mut().zip(of_total) {
            for sum in plan.sums_to[1]..plan.sums_to[2] {
                *row ^= plan.placed(plan.times(factor, plan.unpacked(total, sum)), sum);
            }
        }
    }
    wanted
}

/// Writes a row's check symbols, such that its sums are the target as far as its check places decide them.
fn encode_row<W: Word>(plan: &Plan, solutions: &[W], word: u64, symbols: &mut [u8], target: W) -> W {
    let missing = plan.row_sums::<W>(symbols, 0) ^ target;
    let found = (0..word.count_ones() as usize).map(|sum| solutions[sum * plan.q + plan.unpacked(missing, sum) as usize]);
    let checks = found.fold(W::default(), |checks, solution| checks ^ solution);
    for (at, column) in columns_of(word).enumerate() {
        symbols[column] = plan.unpacked(checks, at);
    }
    plan.row_sums(symbols, 0)
}

pub fn encode(plan: usize, data: &[u8], stripe: &mut [u8]) -> usize {
    match plan {
        4 => encode_by::<u128>(plan, data, stripe),
        _ => encode_by::<u32>(plan, data, stripe),
    }
}

fn encode_by<W: Word>(plan: usize, data: &[u8], stripe: &mut [u8]) -> usize {
    let plan = match Plan::numbered(plan) {
        Ok(plan) => plan,
        Err(number) => return number,
    };
    if data.len() != plan.carried || stripe.len() != plan.symbols() {
        return 11;
    }
    if !all_below(plan.q, data) {
        return 13;
    }
    let encoder = W::encoder(plan);
    let (mut next, mut totals, mut wanted) = (data.iter(), Totals::default(), [W::default(); TOTALS]);
    let first_of_last = plan.rows - plan.totals[2];
    for (row, symbols) in stripe.chunks_exact_mut(plan.columns).enumerate() {
        let word = plan.check_places[row];
        for (column, symbol) in symbols.iter_mut().enumerate() {
            *symbol = match word >> column & 1 {
                0 => next.next().map_or(0, |&symbol| symbol),
                _ => 0,
            };
        }
        if row == first_of_last {
            wanted = last_sums(plan, &encoder.asked, &totals);
        }
        let mut target = if row < first_of_last { W::default() } else { wanted[row - first_of_last] };
        if row == plan.rows - 1 {
            target = target | totals.plain & !plan.mask::<W>(2);
        }
        let sums = encode_row(plan, &encoder.solutions[row * SUMS * plan.q..], word, symbols, target);
        totals.add(plan, row, sums);
    }
    0
}
