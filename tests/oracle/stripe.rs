//! The stripe as one word: codeword test, encoding, extraction, and the codewords that agree with a damaged stripe.
//! All checks of the stripe are taken at once.

use super::answers::*;
use super::binary::{total, Bits, Span};
use super::plan::{marked, Plan};
use std::collections::BTreeMap;
use std::sync::OnceLock;

/// The totals of all levels, over the places for which the test holds.
fn totals(plan: &Plan, stripe: &[u8], test: impl Fn(usize, usize) -> bool) -> Bits {
    let bits = plan.set_bits(stripe, test);
    total(bits.map(|(row, column, bit)| plan.stripe_share(row, column, bit)))
}

/// What the bits of some places add to the totals of all levels.
fn span(plan: &Plan, bits: &[(usize, usize, usize)]) -> Span {
    Span::of(bits.iter().map(|&(row, column, bit)| *plan.stripe_share(row, column, bit)))
}

/// Which codewords hold given symbols at the places that are not open.
pub enum Agreeing {
    None,
    /// One of them, and whether every one of them has its symbol, place by place.
    Some {
        one: Vec<u8>,
        settled: Vec<bool>,
    },
}

/// The codewords that have the stripe's symbols at every place that is not open. The bits of the open places are given, and their span.
fn holding(
    plan: &Plan,
    stripe: &[u8],
    open: impl Fn(usize, usize) -> bool,
    (unknown, span): (&[(usize, usize, usize)], &Span),
) -> Agreeing {
    let Some(ones) = span.reach(totals(plan, stripe, |row, column| !open(row, column))) else {
        return Agreeing::None;
    };
    let mut one = stripe.to_vec();
    let mut settled = vec![true; plan.symbols()];
    for (n, &(row, column, bit)) in unknown.iter().enumerate() {
        let place = row * plan.columns + column;
        one[place] = if bit == 0 { 0 } else { one[place] } | (ones.has(n) as u8) << bit;
        settled[place] &= !span.tied.has(n);
    }
    Agreeing::Some { one, settled }
}

/// The codewords that agree with the unmarked symbols.
pub fn agreeing(plan: &Plan, stripe: &[u8], marks: &[u64]) -> Agreeing {
    let open = |row: usize, column: usize| marked(marks[row], column);
    let unknown = plan.bits_of(open);
    holding(plan, stripe, open, (&unknown, &span(plan, &unknown)))
}

/// For each bit of the totals of all levels a stripe of which that bit alone is not zero.
pub fn failing_one_check(plan: &Plan) -> Vec<Vec<u8>> {
    let places = plan.bits_of(|_, _| true);
    let span = span(plan, &places);
    let stripe = |check: usize| {
        let ones = span.reach(Bits::single(check)).expect("the checks are independent of each other");
        let mut stripe = vec![0; plan.symbols()];
        for (_, &(row, column, bit)) in places.iter().enumerate().filter(|&(n, _)| ones.has(n)) {
            stripe[row * plan.columns + column] |= 1 << bit;
        }
        stripe
    };
    (0..span.rank()).map(stripe).collect()
}

/// The number of checks of the stripe that are independent of each other.
pub fn rank(plan: &Plan) -> usize {
    span(plan, &plan.bits_of(|_, _| true)).rank() / plan.width
}

fn all_below_q(plan: &Plan, symbols: &[u8]) -> bool {
    symbols.iter().all(|&symbol| (symbol as usize) < plan.q())
}

pub fn holds(plan: &Plan, stripe: &[u8]) -> bool {
    totals(plan, stripe, |_, _| true).is_zero()
}

pub fn is_codeword(plan: usize, stripe: &[u8]) -> usize {
    let Some(plan) = Plan::numbered(plan) else { return UNKNOWN_PLAN };
    if stripe.len() != plan.symbols() {
        return WRONG_LENGTH;
    }
    if !all_below_q(plan, stripe) {
        return NOT_BELOW_Q;
    }
    if holds(plan, stripe) {
        YES
    } else {
        NO
    }
}

/// The places that carry data, row by row in ascending column.
fn data_places(plan: &Plan) -> impl Iterator<Item = usize> + '_ {
    (0..plan.symbols()).filter(|place| !plan.is_check(place / plan.columns, place % plan.columns))
}

/// The bits of a plan's check places, and their span: found once, since every encoding asks for them.
fn check_bits(plan: &Plan) -> (&'static [(usize, usize, usize)], &'static Span) {
    static SPANS: OnceLock<BTreeMap<usize, (Vec<(usize, usize, usize)>, Span)>> = OnceLock::new();
    let of_plan = |plan: &Plan| {
        let bits = plan.bits_of(|row, column| plan.is_check(row, column));
        let span = span(plan, &bits);
        (plan.number, (bits, span))
    };
    let (bits, span) = &SPANS.get_or_init(|| Plan::all().map(of_plan).collect())[&plan.number];
    (bits, span)
}

pub fn encode(plan: usize, data: &[u8], stripe: &mut [u8]) -> usize {
    let Some(plan) = Plan::numbered(plan) else { return UNKNOWN_PLAN };
    if data.len() != plan.carried() || stripe.len() != plan.symbols() {
        return WRONG_LENGTH;
    }
    if !all_below_q(plan, data) {
        return NOT_BELOW_Q;
    }
    let mut placed = vec![0; plan.symbols()];
    data_places(plan).zip(data).for_each(|(place, &symbol)| placed[place] = symbol);
    let is_check = |row: usize, column: usize| plan.is_check(row, column);
    let Agreeing::Some { one, settled } = holding(plan, &placed, is_check, check_bits(plan)) else {
        panic!("the check places can't be filled");
    };
    assert!(settled.iter().all(|&settled| settled), "the check places can be filled in two ways");
    stripe.copy_from_slice(&one);
    DONE
}

pub fn extract(plan: usize, stripe: &[u8], data: &mut [u8]) -> usize {
    let Some(plan) = Plan::numbered(plan) else { return UNKNOWN_PLAN };
    if stripe.len() != plan.symbols() || data.len() != plan.carried() {
        return WRONG_LENGTH;
    }
    if !all_below_q(plan, stripe) {
        return NOT_BELOW_Q;
    }
    if !holds(plan, stripe) {
        return NO_CODEWORD;
    }
    data_places(plan).zip(data).for_each(|(place, symbol)| *symbol = stripe[place]);
    DONE
}
