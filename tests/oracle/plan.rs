//! The plans, in the words of the requirements, and the vectors of bits that stand for their checks.

use super::binary::Bits;
use std::ops::RangeInclusive;
use std::sync::OnceLock;

/// A level: how many sums it gives a row, and the weights of each of its totals over the rows.
/// The weights of level 1 are the paper's identity matrix: each row is a total by itself.
pub struct Level {
    pub sums: usize,
    pub weights: Vec<Vec<u8>>,
}

pub struct Plan {
    pub number: usize,
    /// A symbol has so many bits; the field has 2^width elements.
    pub width: usize,
    pub rows: usize,
    pub columns: usize,
    pub levels: Vec<Level>,
    /// Row and column of each check place, in ascending order.
    pub check_places: Vec<(usize, usize)>,
    /// The published counts: with at least so many marks, at most so many rows.
    pub counts: Vec<(usize, usize)>,
    /// Least distances of the row code and of the stripe code.
    pub row_distance: usize,
    pub distance: usize,
    /// Products x times y, at q x + y.
    products: Vec<u8>,
    /// What symbol x in column c adds to its row's sums of all levels, at q c + x.
    shares: Vec<Vec<u8>>,
    row_shares: Vec<Bits>,
    stripe_shares: Vec<Bits>,
    total_shares: Vec<Vec<Bits>>,
    up_to_level: Vec<Bits>,
}

/// The product of two polynomials over GF(2), reduced by a third by long division.
pub fn product(x: u8, y: u8, modulus: u16, degree: usize) -> u8 {
    let mut long = (0..8).filter(|b| y >> b & 1 == 1).fold(0u16, |sum, b| sum ^ (x as u16) << b);
    for b in (degree..16).rev() {
        if long >> b & 1 == 1 {
            long ^= modulus << (b - degree);
        }
    }
    long as u8
}

/// GF(16) by x^4 + x + 1.
pub fn times16(x: u8, y: u8) -> u8 {
    product(x, y, 0b10011, 4)
}

/// GF(32) by x^5 + x^2 + 1.
pub fn times32(x: u8, y: u8) -> u8 {
    product(x, y, 0b100101, 5)
}

/// GF(64) by x^6 + x + 1.
pub fn times64(x: u8, y: u8) -> u8 {
    product(x, y, 0b1000011, 6)
}

/// GF(256) by x^8 + x^4 + x^3 + x^2 + 1.
pub fn times256(x: u8, y: u8) -> u8 {
    product(x, y, 0b100011101, 8)
}

pub fn power(times: fn(u8, u8) -> u8, x: u8, exponent: usize) -> u8 {
    (0..exponent).fold(1, |sum, _| times(sum, x))
}

/// A number's bits, low first.
fn bits(value: u8, width: usize) -> Vec<u8> {
    (0..width).map(|b| value >> b & 1).collect()
}

/// What a symbol in a column adds to its row's sums of a level, in the order of the requirements.
pub fn share(plan: usize, level: usize, column: usize, symbol: u8) -> Vec<u8> {
    match (plan, level) {
        (1, 1) => vec![symbol],
        (1, _) => bits(symbol * (column as u8 + 1), 3),
        (2, _) => located_share(times32, 5, level, column, symbol),
        (5, _) => located_share(times64, 6, level, column, symbol),
        (3, 1) => power_share(times16, 0..=1, column, symbol),
        (3, 2) => power_share(times16, 2..=2, column, symbol),
        (3, _) => power_share(times16, 3..=6, column, symbol),
        (_, 1) => power_share(times256, 0..=1, column, symbol),
        (_, 2) => power_share(times256, 2..=3, column, symbol),
        _ => power_share(times256, 4..=8, column, symbol),
    }
}

/// Plans 2 and 5: location a^c, and 0 in the last column; parity and location, its cube, its fifth power.
fn located_share(times: fn(u8, u8) -> u8, width: usize, level: usize, column: usize, symbol: u8) -> Vec<u8> {
    let location = if column + 1 == 1 << width { 0 } else { power(times, 2, column) };
    match level {
        1 => [vec![symbol], bits(symbol * location, width)].concat(),
        2 => bits(symbol * power(times, location, 3), width),
        _ => bits(symbol * power(times, location, 5), width),
    }
}

/// Plans 3 and 4: location a^c; these power sums.
fn power_share(times: fn(u8, u8) -> u8, sums: RangeInclusive<usize>, column: usize, symbol: u8) -> Vec<u8> {
    let location = power(times, 2, column);
    sums.map(|p| times(symbol, power(times, location, p))).collect()
}

impl Plan {
    /// The plan of a number, if there is one.
    pub fn numbered(number: usize) -> Option<&'static Plan> {
        static PLANS: OnceLock<Vec<Plan>> = OnceLock::new();
        let plans = PLANS.get_or_init(|| vec![Plan::first(), Plan::second(), Plan::third(), Plan::fourth(), Plan::fifth()]);
        plans.iter().find(|plan| plan.number == number)
    }

    /// Every plan.
    pub fn all() -> impl Iterator<Item = &'static Plan> {
        (1..=5).filter_map(Plan::numbered)
    }

    fn first() -> Plan {
        let checks = |row| if row < 2 { vec![6] } else { vec![2, 4, 5, 6] };
        let counts = vec![(2, 1), (4, 0)];
        Plan::built(1, 1, (3, 7), vec![vec![vec![1; 3]]], checks, counts, 2)
    }

    fn second() -> Plan {
        let checks = |row| (0..if row < 7 { 5 } else { 15 }).chain([31]).collect();
        let ones = vec![vec![1; 8]];
        let counts = vec![(4, 1), (6, 1), (8, 0)];
        Plan::built(2, 1, (8, 32), vec![ones.clone(), ones], checks, counts, 4)
    }

    fn third() -> Plan {
        let first_check = |row| match row {
            0..=5 => 13,
            6 => 12,
            _ => 8,
        };
        let powers = (0..8).map(|row| power(times16, 2, row)).collect();
        let weights = vec![vec![vec![1; 8], powers], vec![vec![1; 8]]];
        let counts = vec![(3, 2), (4, 1), (8, 0)];
        Plan::built(3, 4, (8, 15), weights, |row| (first_check(row)..15).collect(), counts, 3)
    }

    fn fourth() -> Plan {
        let first_check = |row| match row {
            0..=8 => 22,
            9 | 10 => 20,
            _ => 15,
        };
        let powers = |step: usize| (0..12).map(|row| power(times256, 2, step * row)).collect();
        let weights = vec![vec![vec![1; 12], powers(1), powers(2)], vec![vec![1; 12]]];
        let counts = vec![(3, 3), (5, 1), (10, 0)];
        Plan::built(4, 8, (12, 24), weights, |row| (first_check(row)..24).collect(), counts, 3)
    }

    fn fifth() -> Plan {
        let checks = |row| (0..if row < 7 { 6 } else { 18 }).chain([63]).collect();
        let ones = vec![vec![1; 8]];
        let counts = vec![(4, 1), (6, 1), (8, 0)];
        Plan::built(5, 1, (8, 64), vec![ones.clone(), ones], checks, counts, 4)
    }

    /// The plan with these weights for the levels from 2 on, and these check columns in each row.
    fn built(
        number: usize,
        width: usize,
        (rows, columns): (usize, usize),
        weights: Vec<Vec<Vec<u8>>>,
        checks: impl Fn(usize) -> Vec<usize>,
        counts: Vec<(usize, usize)>,
        row_distance: usize,
    ) -> Plan {
        let identity = (0..rows).map(|total| (0..rows).map(|row| (row == total) as u8).collect()).collect();
        let levels = [vec![identity], weights].concat();
        let levels = levels.into_iter().enumerate();
        let levels = levels.map(|(i, weights)| Level { sums: share(number, i + 1, 0, 0).len(), weights });
        let mut plan = Plan {
            number,
            width,
            rows,
            columns,
            levels: levels.collect(),
            check_places: (0..rows).flat_map(|row| checks(row).into_iter().map(move |c| (row, c))).collect(),
            distance: counts.last().map_or(0, |&(marks, _)| marks),
            counts,
            row_distance,
            products: Vec::new(),
            shares: Vec::new(),
            row_shares: Vec::new(),
            stripe_shares: Vec::new(),
            total_shares: Vec::new(),
            up_to_level: Vec::new(),
        };
        let q = plan.q();
        plan.products = (0..q * q).map(|n| plan.product_of((n / q) as u8, (n % q) as u8)).collect();
        plan.shares = (0..columns * q).map(|n| plan.share_of(n / q, (n % q) as u8)).collect();
        plan.row_shares = plan.places().map(|place| plan.row_share_of(place)).collect();
        plan.stripe_shares = plan.places().map(|place| plan.stripe_share_of(place)).collect();
        plan.total_shares = (1..=plan.last()).map(|level| plan.total_shares_of(level)).collect();
        plan.up_to_level = (0..=plan.last()).map(|level| plan.bits_up_to(level)).collect();
        plan
    }

    /// The product in the plan's field.
    fn product_of(&self, x: u8, y: u8) -> u8 {
        match self.width {
            1 => x & y,
            4 => times16(x, y),
            _ => times256(x, y),
        }
    }

    fn share_of(&self, column: usize, symbol: u8) -> Vec<u8> {
        (1..=self.last()).flat_map(|level| share(self.number, level, column, symbol)).collect()
    }

    /// Every bit of every place: row, column, bit.
    fn places(&self) -> impl Iterator<Item = (usize, usize, usize)> + use<> {
        let (columns, width) = (self.columns, self.width);
        let of_row = move |row| (0..columns).flat_map(move |column| (0..width).map(move |bit| (row, column, bit)));
        (0..self.rows).flat_map(of_row)
    }

    fn place(&self, row: usize, column: usize, bit: usize) -> usize {
        (row * self.columns + column) * self.width + bit
    }

    /// The sums that one bit of a place adds to, in the block of its row.
    fn row_share_of(&self, (row, column, bit): (usize, usize, usize)) -> Bits {
        let shares = self.shares(column, 1 << bit).iter().enumerate();
        shares.fold(Bits::default(), |sum, (j, &value)| sum.plus(Bits::number(self.sum_at(row, j), value)))
    }

    /// The totals that one bit of a place adds to: its column of the paper's matrix H.
    fn stripe_share_of(&self, (row, column, bit): (usize, usize, usize)) -> Bits {
        let mut column_of_h = Bits::default();
        let mut at = 0;
        for (i, level) in self.levels.iter().enumerate() {
            let share = share(self.number, i + 1, column, 1 << bit);
            for weights in &level.weights {
                for value in &share {
                    column_of_h = column_of_h.plus(Bits::number(at, self.times(weights[row], *value)));
                    at += self.width;
                }
            }
        }
        column_of_h
    }

    fn bits_up_to(&self, level: usize) -> Bits {
        let block = |row| Bits::range(self.sum_at(row, 0), self.sum_at(row, self.sums_to(level)));
        (0..self.rows).fold(Bits::default(), |sum, row| sum.plus(block(row)))
    }

    /// The number of elements of the field.
    pub fn q(&self) -> usize {
        1 << self.width
    }

    /// The last level.
    pub fn last(&self) -> usize {
        self.levels.len()
    }

    pub fn symbols(&self) -> usize {
        self.rows * self.columns
    }

    /// The number of symbols that a stripe carries.
    pub fn carried(&self) -> usize {
        self.symbols() - self.check_places.len()
    }

    /// The bytes of a mark word in a file.
    pub fn word_bytes(&self) -> usize {
        if self.columns > 32 {
            8
        } else {
            4
        }
    }

    /// Where the symbols begin in a file.
    pub fn symbols_offset(&self) -> usize {
        8 + self.word_bytes() * self.rows
    }

    pub fn file_length(&self) -> usize {
        self.symbols_offset() + self.symbols()
    }

    /// The number of a row's sums at the levels from 1 to this one.
    pub fn sums_to(&self, level: usize) -> usize {
        self.levels[..level].iter().map(|level| level.sums).sum()
    }

    pub fn times(&self, x: u8, y: u8) -> u8 {
        self.products[x as usize * self.q() + y as usize]
    }

    /// What a symbol in a column adds to its row's sums of all levels.
    pub fn shares(&self, column: usize, symbol: u8) -> &[u8] {
        &self.shares[column * self.q() + symbol as usize]
    }

    /// Where the bits of a row's sum stand among those of all rows.
    pub fn sum_at(&self, row: usize, sum: usize) -> usize {
        (row * self.sums_to(self.last()) + sum) * self.width
    }

    /// What one bit of a place adds to the sums of all rows.
    pub fn row_share(&self, row: usize, column: usize, bit: usize) -> &Bits {
        &self.row_shares[self.place(row, column, bit)]
    }

    /// What one bit of a place adds to the totals of all levels.
    pub fn stripe_share(&self, row: usize, column: usize, bit: usize) -> &Bits {
        &self.stripe_shares[self.place(row, column, bit)]
    }

    /// The bits of the sums of all rows at the levels from 1 to this one.
    pub fn up_to(&self, level: usize) -> &Bits {
        &self.up_to_level[level]
    }

    /// What one bit of a row's sum of a level adds to the totals of that level.
    pub fn total_share(&self, level: usize, row: usize, sum: usize, bit: usize) -> &Bits {
        &self.total_shares[level - 1][(row * self.levels[level - 1].sums + sum) * self.width + bit]
    }

    fn total_shares_of(&self, level: usize) -> Vec<Bits> {
        self.sum_bits(level).map(|bit| self.total_share_of(level, bit)).collect()
    }

    fn total_share_of(&self, level: usize, (row, sum, bit): (usize, usize, usize)) -> Bits {
        let level = &self.levels[level - 1];
        let totals = level.weights.iter().enumerate();
        totals.fold(Bits::default(), |all, (total, weights)| {
            let at = (total * level.sums + sum) * self.width;
            all.plus(Bits::number(at, self.times(weights[row], 1 << bit)))
        })
    }

    /// Every bit of every row's sums of one level: row, sum, bit.
    pub fn sum_bits(&self, level: usize) -> impl Iterator<Item = (usize, usize, usize)> + use<> {
        let (sums, width) = (self.levels[level - 1].sums, self.width);
        let of_row = move |row| (0..sums).flat_map(move |sum| (0..width).map(move |bit| (row, sum, bit)));
        (0..self.rows).flat_map(of_row)
    }

    pub fn is_check(&self, row: usize, column: usize) -> bool {
        self.check_places.binary_search(&(row, column)).is_ok()
    }

    /// The set bits of the symbols of a stripe, those at places for which the test holds.
    pub fn set_bits<'a>(
        &'a self,
        symbols: &'a [u8],
        test: impl Fn(usize, usize) -> bool + 'a,
    ) -> impl Iterator<Item = (usize, usize, usize)> + 'a {
        let shown = move |place: usize| if test(place / self.columns, place % self.columns) { symbols[place] } else { 0 };
        let places = (0..self.symbols()).map(move |place| (place, shown(place))).filter(|&(_, symbol)| symbol != 0);
        places.flat_map(move |(place, symbol)| {
            let bits = (0..self.width).filter(move |bit| symbol >> bit & 1 == 1);
            bits.map(move |bit| (place / self.columns, place % self.columns, bit))
        })
    }

    /// The bits of the places for which the test holds.
    pub fn bits_of(&self, test: impl Fn(usize, usize) -> bool) -> Vec<(usize, usize, usize)> {
        self.places().filter(|&(row, column, _)| test(row, column)).collect()
    }
}

/// Whether a row's mark word has a column.
pub fn marked(word: u64, column: usize) -> bool {
    word >> column & 1 == 1
}
