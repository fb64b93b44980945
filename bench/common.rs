//! What `plain.rs` and `packed.rs` share: the fields, the plans, what is refused, a bench's bytes, and solving.

use std::ops::RangeInclusive;

pub const ROWS: usize = 12;
pub const COLUMNS: usize = 64;
pub const SYMBOLS: usize = 512;
pub const SUMS: usize = 19;
pub const TOTALS: usize = 3;
/// Bytes of a bench, and where its symbols, its mark words and its learned sums begin.
pub const BENCH: usize = 838;
pub const SYMBOLS_AT: usize = 2;
pub const MARKS_AT: usize = 514;
pub const SUMS_AT: usize = 610;
/// Bytes of a mark word in a bench.
pub const WORD: usize = 8;

pub const RESTORED: usize = 0;
pub const STUCK: usize = 1;
pub const CLASH: usize = 2;
pub const WHOLE: usize = 3;
pub const FILLED: usize = 4;
pub const TIED: usize = 5;
pub const RAISED: usize = 6;
pub const BLOCKED: usize = 7;
pub const TOP: usize = 8;

// ---- fields

const fn product(x: u8, y: u8, modulus: u8, degree: u32) -> u8 {
    let (mut x, mut sum, mut bit) = (x, 0, 0);
    while bit < degree {
        if y >> bit & 1 == 1 {
            sum ^= x;
        }
        let carry = x >> (degree - 1) & 1;
        x = (x << 1) & ((1u16 << degree) - 1) as u8 ^ carry * modulus;
        bit += 1;
    }
    sum
}

pub const fn times16(x: u8, y: u8) -> u8 {
    product(x, y, 0b0011, 4)
}

pub const fn times32(x: u8, y: u8) -> u8 {
    product(x, y, 0b00101, 5)
}

pub const fn times64(x: u8, y: u8) -> u8 {
    product(x, y, 0b000011, 6)
}

const fn times256(x: u8, y: u8) -> u8 {
    product(x, y, 0b00011101, 8)
}

/// The product of two locations of a plan.
pub const fn times_located(plan: usize, x: u8, y: u8) -> u8 {
    match plan {
        2 => times32(x, y),
        4 => times256(x, y),
        5 => times64(x, y),
        _ => times16(x, y),
    }
}

/// The location of a column: a^c, in plans 2 and 5 with 0 for the last column, in plan 1 the number c + 1.
pub const fn location(plan: usize, column: usize) -> u8 {
    if plan == 1 {
        return column as u8 + 1;
    }
    if plan == 2 && column == 31 || plan == 5 && column == 63 {
        return 0;
    }
    let (mut power, mut exponent) = (1, 0);
    while exponent < column {
        power = times_located(plan, power, 2);
        exponent += 1;
    }
    power
}

/// Products and inverses in GF(16).
pub static PRODUCTS: [u8; 256] = {
    let mut table = [0; 256];
    let mut entry = 0;
    while entry < 256 {
        table[entry] = times16((entry / 16) as u8, (entry % 16) as u8);
        entry += 1;
    }
    table
};

static INVERSES: [u8; 16] = {
    let mut table = [0; 16];
    let mut entry = 0;
    while entry < 256 {
        if times16((entry / 16) as u8, (entry % 16) as u8) == 1 {
            table[entry / 16] = (entry % 16) as u8;
        }
        entry += 1;
    }
    table
};

/// Powers of a in GF(256), twice over, and the logarithms of all elements but 0.
const EXPONENTIALS: [u8; 510] = {
    let mut table = [1; 510];
    let mut entry = 1;
    while entry < 510 {
        table[entry] = times256(table[entry - 1], 2);
        entry += 1;
    }
    table
};

const LOGARITHMS: [u8; 256] = {
    let mut table = [0; 256];
    let mut exponent = 0;
    while exponent < 255 {
        table[EXPONENTIALS[exponent] as usize] = exponent as u8;
        exponent += 1;
    }
    table
};

/// Products and inverses in GF(256).
static BYTE_PRODUCTS: [[u8; 256]; 256] = {
    let mut table = [[0; 256]; 256];
    let mut x = 1;
    while x < 256 {
        let mut y = 1;
        while y < 256 {
            table[x][y] = EXPONENTIALS[LOGARITHMS[x] as usize + LOGARITHMS[y] as usize];
            y += 1;
        }
        x += 1;
    }
    table
};

static BYTE_INVERSES: [u8; 256] = {
    let mut table = [0; 256];
    let mut x = 1;
    while x < 256 {
        table[x] = EXPONENTIALS[255 - LOGARITHMS[x] as usize];
        x += 1;
    }
    table
};

pub fn times(x: u8, y: u8) -> u8 {
    PRODUCTS[(x as usize * 16 + y as usize) & 255]
}

pub fn times_bytes(x: u8, y: u8) -> u8 {
    BYTE_PRODUCTS[x as usize][y as usize]
}

// ---- plans

pub struct Plan {
    pub number: usize,
    pub q: usize,
    pub rows: usize,
    pub columns: usize,
    pub levels: usize,
    pub carried: usize,
    /// The number of sums at the levels from 1 to this one.
    pub sums_to: [usize; 4],
    /// The number of totals of each level, and their weights.
    pub totals: [usize; 4],
    pub weights: [[[u8; ROWS]; TOTALS]; 4],
    pub check_places: [u64; ROWS],
}

const ONES: [u8; ROWS] = [1; ROWS];

/// The weights w^r of a plan.
const fn weights_of(plan: usize, w: u8) -> [u8; ROWS] {
    let mut powers = [1; ROWS];
    let mut row = 1;
    while row < ROWS {
        powers[row] = times_located(plan, powers[row - 1], w);
        row += 1;
    }
    powers
}

pub const POWERS: [u8; ROWS] = weights_of(3, 2);

/// The check places of eight rows: the same in seven of them.
const fn places(first: u64, last: u64) -> [u64; ROWS] {
    [first, first, first, first, first, first, first, last, 0, 0, 0, 0]
}

static PLANS: [Plan; 5] = [
    Plan {
        number: 1,
        q: 2,
        rows: 3,
        columns: 7,
        levels: 2,
        carried: 15,
        sums_to: [0, 1, 4, 4],
        totals: [0, 0, 1, 0],
        weights: [[ONES; TOTALS]; 4],
        check_places: [1 << 6, 1 << 6, 0b1110100, 0, 0, 0, 0, 0, 0, 0, 0, 0],
    },
    Plan {
        number: 2,
        q: 2,
        rows: 8,
        columns: 32,
        levels: 3,
        carried: 198,
        sums_to: [0, 6, 11, 16],
        totals: [0, 0, 1, 1],
        weights: [[ONES; TOTALS]; 4],
        check_places: places(1 << 31 | 0x1f, 1 << 31 | 0x7fff),
    },
    Plan {
        number: 3,
        q: 16,
        rows: 8,
        columns: 15,
        levels: 3,
        carried: 98,
        sums_to: [0, 2, 3, 7],
        totals: [0, 0, 2, 1],
        weights: [[ONES; TOTALS], [ONES; TOTALS], [ONES, POWERS, ONES], [ONES; TOTALS]],
        check_places: [0x6000, 0x6000, 0x6000, 0x6000, 0x6000, 0x6000, 0x7000, 0x7f00, 0, 0, 0, 0],
    },
    Plan {
        number: 4,
        q: 256,
        rows: 12,
        columns: 24,
        levels: 3,
        carried: 253,
        sums_to: [0, 2, 4, 9],
        totals: [0, 0, 3, 1],
        weights: [[ONES; TOTALS], [ONES; TOTALS], [ONES, weights_of(4, 2), weights_of(4, 4)], [ONES; TOTALS]],
        check_places: [
            0xc00000, 0xc00000, 0xc00000, 0xc00000, 0xc00000, 0xc00000, 0xc00000, 0xc00000, 0xc00000, 0xf00000, 0xf00000,
            0xff8000,
        ],
    },
    Plan {
        number: 5,
        q: 2,
        rows: 8,
        columns: 64,
        levels: 3,
        carried: 444,
        sums_to: [0, 7, 13, 19],
        totals: [0, 0, 1, 1],
        weights: [[ONES; TOTALS]; 4],
        check_places: places(1 << 63 | 0x3f, 1 << 63 | 0x3ffff),
    },
];

impl Plan {
    pub fn numbered(number: usize) -> Result<&'static Plan, usize> {
        PLANS.iter().find(|plan| plan.number == number).ok_or(10)
    }

    pub fn symbols(&self) -> usize {
        self.rows * self.columns
    }
}

// ---- refusals

pub fn all_below(q: usize, symbols: &[u8]) -> bool {
    q == 256 || (symbols.iter().fold(0, |most, &symbol| most.max(symbol)) as usize) < q
}

/// Refusals 12 and 13.
pub fn test(plan: &Plan, stripe: &[u8], marks: &[u64]) -> Result<(), usize> {
    if plan.columns < COLUMNS && marks.iter().any(|word| word >> plan.columns != 0) {
        return Err(12);
    }
    if all_below(plan.q, stripe) {
        return Ok(());
    }
    let fits = |(row, &word): (&[u8], &u64)| {
        row.iter().enumerate().all(|(column, &symbol)| (symbol as usize) < plan.q || word >> column & 1 == 1)
    };
    match stripe.chunks_exact(plan.columns).zip(marks).all(fits) {
        true => Ok(()),
        false => Err(13),
    }
}

/// Refusals 10 to 13 of a call that is lent a stripe and its marks.
pub fn lent(plan: usize, stripe: &[u8], marks: &[u64], rest_fits: impl Fn(&Plan) -> bool) -> Result<&'static Plan, usize> {
    let plan = Plan::numbered(plan)?;
    if stripe.len() != plan.symbols() || marks.len() != plan.rows || !rest_fits(plan) {
        return Err(11);
    }
    test(plan, stripe, marks)?;
    Ok(plan)
}

// ---- solving

pub enum Solved {
    None,
    /// Solutions there are, and more than one.
    Many,
    One,
}

/// Reduces equations in some unknowns, the right-hand side after them. Where there is one solution it stands there then.
pub fn solve<const CELLS: usize>(q: usize, system: &mut [[u8; CELLS]], unknowns: usize) -> Solved {
    let mut rank = 0;
    for at in 0..unknowns {
        // every right-hand side is met
        if rank == system.len() {
            break;
        }
        let Some(pivot) = (rank..system.len()).find(|&row| system[row][at] != 0) else {
            continue;
        };
        system.swap(rank, pivot);
        let own = &mut system[rank];
        if own[at] != 1 {
            scale(q, &mut own[at..=unknowns]);
        }
        let own = *own;
        for row in (0..system.len()).filter(|&row| row != rank) {
            let factor = system[row][at];
            if factor != 0 {
                add(q, factor, &own, &mut system[row], at..=unknowns);
            }
        }
        rank += 1;
    }
    match system[rank..].iter().all(|row| row[unknowns] == 0) {
        true if rank == unknowns => Solved::One,
        true => Solved::Many,
        false => Solved::None,
    }
}

/// Multiplies some cells such that the first of them is 1.
fn scale(q: usize, cells: &mut [u8]) {
    if q == 256 {
        let inverse = BYTE_INVERSES[cells[0] as usize];
        cells.iter_mut().for_each(|cell| *cell = times_bytes(inverse, *cell));
    } else {
        let inverse = INVERSES[cells[0] as usize & 15];
        cells.iter_mut().for_each(|cell| *cell = times(inverse, *cell));
    }
}

/// Adds a row times a factor that is not 0 to another row. The row is 0 outside the cells in use; over GF(2) all are added,
/// their number being known.
fn add<const CELLS: usize>(q: usize, factor: u8, row: &[u8; CELLS], other: &mut [u8; CELLS], used: RangeInclusive<usize>) {
    match q {
        2 => other.iter_mut().zip(row).for_each(|(cell, more)| *cell ^= more),
        256 => other[used.clone()].iter_mut().zip(&row[used]).for_each(|(cell, &more)| *cell ^= times_bytes(factor, more)),
        _ => other[used.clone()].iter_mut().zip(&row[used]).for_each(|(cell, &more)| *cell ^= times(factor, more)),
    }
}

// ---- the bench

/// The number of at most eight bytes, low byte first.
pub fn number(bytes: &[u8]) -> u64 {
    let mut eight = [0; 8];
    eight[..bytes.len()].copy_from_slice(bytes);
    u64::from_le_bytes(eight)
}

pub struct Bench {
    pub plan: &'static Plan,
    pub level: usize,
    pub symbols: [u8; SYMBOLS],
    pub marks: [u64; ROWS],
    /// The learned sums.
    pub sums: [[u8; SUMS]; ROWS],
}

impl Bench {
    pub fn new(plan: &'static Plan, stripe: &[u8], marks: &[u64]) -> Bench {
        let mut bench = Bench { plan, level: 1, symbols: [0; SYMBOLS], marks: [0; ROWS], sums: [[0; SUMS]; ROWS] };
        bench.symbols[..stripe.len()].copy_from_slice(stripe);
        bench.marks[..marks.len()].copy_from_slice(marks);
        bench
    }

    pub fn read(bytes: &[u8]) -> Result<Bench, usize> {
        if bytes.len() != BENCH {
            return Err(11);
        }
        let plan = Plan::numbered(bytes[0] as usize)?;
        let level = bytes[1] as usize;
        if level < 1 || level > plan.levels {
            return Err(15);
        }
        let mut marks = [0; ROWS];
        for (word, bytes) in marks[..plan.rows].iter_mut().zip(bytes[MARKS_AT..SUMS_AT].chunks_exact(WORD)) {
            *word = number(bytes);
        }
        let stripe = &bytes[SYMBOLS_AT..][..plan.symbols()];
        test(plan, stripe, &marks[..plan.rows])?;
        let mut bench = Bench::new(plan, stripe, &marks[..plan.rows]);
        bench.level = level;
        for (row, sums) in bench.sums[..plan.rows].iter_mut().zip(bytes[SUMS_AT..].chunks_exact(SUMS)) {
            row.copy_from_slice(sums);
        }
        match bench.sums[..plan.rows].iter().all(|sums| all_below(plan.q, &sums[..plan.sums_to[level]])) {
            true => Ok(bench),
            false => Err(13),
        }
    }
}
