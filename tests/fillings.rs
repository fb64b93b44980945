//! Rows and levels of every plan by listing: how many fillings of a row have given sums, how many choices of the lost rows'
//! sums have zero totals. Of the independent decoder it uses what a symbol adds to a sum, and neither its systems nor its
//! steps.

use outside::oracle::plan::{marked, share};
use outside::oracle::Plan;

/// How many there are. More than one are not counted on.
#[derive(Clone, Copy, PartialEq, Eq, Debug)]
pub enum Fillings {
    None,
    One,
    More,
}

/// Goes through all choices of some numbers below q, and counts those that meet what is asked.
fn count(q: usize, numbers: usize, meets: impl Fn(&[u8]) -> bool) -> Fillings {
    let mut choice = vec![0; numbers];
    let mut found = Fillings::None;
    for _ in 0..q.pow(numbers as u32) {
        if meets(&choice) {
            match found {
                Fillings::None => found = Fillings::One,
                _ => return Fillings::More,
            }
        }
        for number in choice.iter_mut() {
            *number = ((*number as usize + 1) % q) as u8;
            if *number != 0 {
                break;
            }
        }
    }
    found
}

/// What a symbol in a column adds to a row's sums of the levels from 1 to this one.
fn shares(plan: &Plan, level: usize, column: usize, symbol: u8) -> Vec<u8> {
    (1..=level).flat_map(|level| share(plan.number, level, column, symbol)).collect()
}

fn add(sums: &mut [u8], shares: &[u8]) {
    sums.iter_mut().zip(shares).for_each(|(sum, more)| *sum ^= more);
}

/// The fillings of a row's marked columns that give it these sums at the levels from 1 to this one.
pub fn of_row(plan: &Plan, level: usize, row: &[u8], word: u64, sums: &[u8]) -> Fillings {
    let (lost, known): (Vec<usize>, Vec<usize>) = (0..plan.columns).partition(|&column| marked(word, column));
    let mut missing = sums.to_vec();
    known.iter().for_each(|&column| add(&mut missing, &shares(plan, level, column, row[column])));
    let table: Vec<Vec<Vec<u8>>> =
        lost.iter().map(|&column| (0..plan.q()).map(|symbol| shares(plan, level, column, symbol as u8)).collect()).collect();
    count(plan.q(), lost.len(), |symbols| {
        let mut left = missing.clone();
        symbols.iter().zip(&table).for_each(|(&symbol, of_column)| add(&mut left, &of_column[symbol as usize]));
        left.iter().all(|&sum| sum == 0)
    })
}

/// The choices of the lost rows' sums under one check of a level that make its totals zero, the other rows' being given.
pub fn of_level(plan: &Plan, level: usize, sums: &[u8], lost: &[usize]) -> Fillings {
    let weights = &plan.levels[level - 1].weights;
    count(plan.q(), lost.len(), |choice| {
        let mut all = sums.to_vec();
        lost.iter().zip(choice).for_each(|(&row, &sum)| all[row] = sum);
        let total = |weights: &Vec<u8>| weights.iter().zip(&all).fold(0, |total, (&w, &sum)| total ^ plan.times(w, sum));
        weights.iter().all(|weights| total(weights) == 0)
    })
}
