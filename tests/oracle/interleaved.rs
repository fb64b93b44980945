//! Plan 3's code as generalized integrated interleaving, from the partner's description alone.
//!
//! A word is a polynomial, with column c at x^c, and power sum p is its value at a^p. So a word is in the code with power sums
//! 0 to `last` where the product of x - a^p over these p divides it.

use super::answers::*;
use super::plan::{power, times16};

const ROWS: usize = 8;
const COLUMNS: usize = 15;

/// The product of x - a^p for p from 0 to `last`, the coefficient of 1 first.
pub fn generator(last: usize) -> Vec<u8> {
    (0..=last).fold(vec![1], |product, p| {
        let root = power(times16, 2, p);
        let scaled = product.iter().map(|&coefficient| times16(coefficient, root)).chain([0]);
        scaled.zip([&[0], &product[..]].concat()).map(|(x, y)| x ^ y).collect()
    })
}

/// Whether the generator divides the word, by long division.
fn in_code(last: usize, word: &[u8]) -> bool {
    let divisor = generator(last);
    let mut rest = word.to_vec();
    for at in (0..=rest.len() - divisor.len()).rev() {
        let lead = rest[at + divisor.len() - 1];
        rest[at..].iter_mut().zip(&divisor).for_each(|(x, &y)| *x ^= times16(lead, y));
    }
    rest.iter().all(|&coefficient| coefficient == 0)
}

/// The sum of weight^r times row r, from the last row on.
fn sum(stripe: &[u8], weight: u8) -> Vec<u8> {
    let next = |sum: Vec<u8>, row: &[u8]| sum.iter().zip(row).map(|(&x, y)| times16(weight, x) ^ y).collect();
    stripe.chunks_exact(COLUMNS).rev().fold(vec![0; COLUMNS], next)
}

pub fn is_interleaved(stripe: &[u8]) -> usize {
    if stripe.len() != ROWS * COLUMNS {
        return WRONG_LENGTH;
    }
    if stripe.iter().any(|&symbol| symbol >= 16) {
        return NOT_BELOW_Q;
    }
    let rows = stripe.chunks_exact(COLUMNS).all(|row| in_code(1, row));
    match rows && in_code(6, &sum(stripe, 1)) && in_code(2, &sum(stripe, 2)) {
        true => YES,
        false => NO,
    }
}
