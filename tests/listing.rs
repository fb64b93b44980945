//! Plan 1 by listing, straight from the requirements: every filling of a row, every choice of sums, every codeword.
//! A row is a number of 7 bits, bit c for column c. It holds the independent decoder to account and uses nothing of it.

use std::ops::RangeInclusive;

pub const ROWS: usize = 3;
pub const COLUMNS: usize = 7;
const ROW_VALUES: u8 = 128;
const LEVELS: RangeInclusive<usize> = 1..=2;

#[derive(Clone, Copy, PartialEq, Eq, Debug)]
pub enum Step {
    Filled(u8),
    Whole,
    Tied,
    Clash,
}

#[derive(Clone, Copy, PartialEq, Eq, Debug)]
pub enum Learned {
    Raised([u8; ROWS]),
    Blocked,
    Clash,
}

/// What mending comes to: level, rows left, rows restored at each level, or the place of a Clash.
#[derive(Clone, Copy, PartialEq, Eq, Debug)]
pub enum End {
    Stopped { level: usize, left: usize, restored: [usize; 2], rows: [u8; ROWS], marks: [u8; ROWS] },
    ClashInRow { row: usize, level: usize },
    ClashAcross { level: usize },
}

/// Level 1: the parity of a row.
pub fn parity(row: u8) -> u8 {
    (0..COLUMNS).filter(|column| row >> column & 1 == 1).count() as u8 % 2
}

/// Level 2: the exclusive-or of the locations of the ones.
pub fn locations(row: u8) -> u8 {
    (0..COLUMNS).filter(|column| row >> column & 1 == 1).fold(0, |sum, column| sum ^ (column as u8 + 1))
}

/// Whether a row has these sums at the levels from 1 to this one.
fn has_sums(row: u8, level: usize, learned: (u8, u8)) -> bool {
    parity(row) == learned.0 && (level < 2 || locations(row) == learned.1)
}

/// Whether the marked columns are dependent: some of them add up to nothing.
pub fn dependent(marks: u8, level: usize) -> bool {
    (1..ROW_VALUES).any(|columns| columns & !marks == 0 && has_sums(columns, level, (0, 0)))
}

pub fn row_step(row: u8, marks: u8, level: usize, learned: (u8, u8)) -> Step {
    let mut fillings = (0..ROW_VALUES).filter(|filling| (filling ^ row) & !marks == 0);
    match fillings.find(|&filling| has_sums(filling, level, learned)) {
        None => Step::Clash,
        Some(_) if dependent(marks, level) => Step::Tied,
        Some(_) if marks == 0 => Step::Whole,
        Some(filling) => Step::Filled(filling),
    }
}

/// The step from level 1 to level 2. All weights are 1.
pub fn level_step(rows: [u8; ROWS], marks: [u8; ROWS]) -> Learned {
    let all_coefficients = (1..8u8).map(|n| [n & 1, n >> 1 & 1, n >> 2 & 1]);
    let on_marked_rows = |coefficients: &[u8; ROWS]| (0..ROWS).all(|row| marks[row] != 0 || coefficients[row] == 0);
    let vanishes = |coefficients: [u8; ROWS]| coefficients.iter().fold(0, |sum, c| sum ^ c) == 0;
    let dependent = all_coefficients.filter(on_marked_rows).any(vanishes);
    let all_sums = (0..512u16).map(|n| [(n & 7) as u8, (n >> 3 & 7) as u8, (n >> 6 & 7) as u8]);
    let own = |sums: &[u8; ROWS]| (0..ROWS).all(|row| marks[row] != 0 || sums[row] == locations(rows[row]));
    match all_sums.filter(own).find(|sums| sums[0] ^ sums[1] ^ sums[2] == 0) {
        None => Learned::Clash,
        Some(_) if dependent => Learned::Blocked,
        Some(sums) => Learned::Raised(sums),
    }
}

/// The rounds of the requirements.
pub fn mend(rows: [u8; ROWS], marks: [u8; ROWS]) -> End {
    let (mut rows, mut marks, mut restored, mut sums) = (rows, marks, [0; 2], [0; ROWS]);
    for level in LEVELS {
        for row in 0..ROWS {
            match row_step(rows[row], marks[row], level, (0, sums[row])) {
                Step::Clash => return End::ClashInRow { row, level },
                Step::Filled(filling) => {
                    (rows[row], marks[row]) = (filling, 0);
                    restored[level - 1] += 1;
                }
                Step::Whole | Step::Tied => (),
            }
        }
        let left = marks.iter().filter(|&&word| word != 0).count();
        let stopped = End::Stopped { level, left, restored, rows, marks };
        if level == 2 {
            return stopped;
        }
        match level_step(rows, marks) {
            Learned::Raised(learned) => sums = learned,
            Learned::Blocked => return stopped,
            Learned::Clash => return End::ClashAcross { level: level + 1 },
        }
    }
    unreachable!("the last level stops")
}

/// Every codeword.
pub fn codewords() -> Vec<[u8; ROWS]> {
    let rows: Vec<u8> = (0..ROW_VALUES).filter(|&row| parity(row) == 0).collect();
    let mut all = Vec::new();
    for &first in &rows {
        for &second in &rows {
            let thirds = rows.iter().filter(|&&third| locations(first) ^ locations(second) ^ locations(third) == 0);
            all.extend(thirds.map(|&third| [first, second, third]));
        }
    }
    all
}
