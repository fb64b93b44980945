//! Vectors of bits, and which vectors are sums of given ones.

const WORDS: usize = 36;

/// A vector of 2304 bits, as many as the symbols of a stripe of plan 4 have. Its sums are exclusive-ors. The words from `used` on
/// are zero and are not looked at.
#[derive(Clone, Copy)]
pub struct Bits {
    words: [u64; WORDS],
    used: usize,
}

impl Default for Bits {
    fn default() -> Bits {
        Bits { words: [0; WORDS], used: 0 }
    }
}

impl Bits {
    pub fn set(&mut self, at: usize) {
        self.words[at / 64] |= 1 << (at % 64);
        self.used = self.used.max(at / 64 + 1);
    }

    /// The vector with one bit set.
    pub fn single(at: usize) -> Bits {
        let mut bits = Bits::default();
        bits.set(at);
        bits
    }

    pub fn has(&self, at: usize) -> bool {
        self.words[at / 64] >> (at % 64) & 1 == 1
    }

    pub fn add(&mut self, other: &Bits) {
        self.used = self.used.max(other.used);
        for (word, more) in self.words.iter_mut().zip(&other.words[..other.used]) {
            *word ^= more;
        }
    }

    pub fn plus(mut self, other: Bits) -> Bits {
        self.add(&other);
        self
    }

    /// The bits that both have.
    pub fn within(mut self, other: &Bits) -> Bits {
        for (word, limit) in self.words[..self.used].iter_mut().zip(&other.words) {
            *word &= limit;
        }
        self
    }

    /// The bits that one of them has.
    pub fn or(mut self, other: &Bits) -> Bits {
        self.used = self.used.max(other.used);
        for (word, more) in self.words.iter_mut().zip(&other.words[..other.used]) {
            *word |= more;
        }
        self
    }

    pub fn is_zero(&self) -> bool {
        self.words[..self.used].iter().all(|&word| word == 0)
    }

    /// The place of the lowest set bit from a place on.
    pub fn next(&self, from: usize) -> Option<usize> {
        let first = from / 64;
        let kept = |at: usize| if at == first { u64::MAX << (from % 64) } else { u64::MAX };
        let word = (first..self.used).find(|&at| self.words[at] & kept(at) != 0)?;
        Some(word * 64 + (self.words[word] & kept(word)).trailing_zeros() as usize)
    }

    /// The vector with a number's bits, low first, from a place on.
    pub fn number(at: usize, value: u8) -> Bits {
        let mut bits = Bits::default();
        (0..8).filter(|b| value >> b & 1 == 1).for_each(|b| bits.set(at + b));
        bits
    }

    /// The vector with the bits from one place up to another set.
    pub fn range(from: usize, to: usize) -> Bits {
        let mut bits = Bits::default();
        (from..to).for_each(|at| bits.set(at));
        bits
    }
}

/// The sum of some vectors.
pub fn total<'a>(vectors: impl Iterator<Item = &'a Bits>) -> Bits {
    let mut sum = Bits::default();
    vectors.for_each(|vector| sum.add(vector));
    sum
}

/// All sums of the vectors entered so far. The vectors are numbered from 0 as they come.
#[derive(Default)]
pub struct Span {
    entered: usize,
    steps: Vec<Step>,
    /// For each bit the step that has it as its lowest, one more than its place; 0 where there is none.
    by_lowest: Vec<usize>,
    /// The entered vectors that take part in some sum that is zero.
    pub tied: Bits,
}

/// A vector of the span, and the entered vectors that it sums. Its lowest bit is no other step's lowest.
struct Step {
    vector: Bits,
    summed: Bits,
}

impl Span {
    pub fn of(vectors: impl Iterator<Item = Bits>) -> Span {
        let mut span = Span::default();
        vectors.for_each(|vector| span.enter(vector));
        span
    }

    /// Enters a vector: it is a new step, or it vanishes against earlier ones.
    fn enter(&mut self, vector: Bits) {
        let (rest, mut summed) = self.reduce(vector);
        summed.set(self.entered);
        self.entered += 1;
        match rest.next(0) {
            Some(bit) => {
                self.steps.push(Step { vector: rest, summed });
                self.by_lowest.resize(self.by_lowest.len().max(bit + 1), 0);
                self.by_lowest[bit] = self.steps.len();
            }
            None => self.tied = self.tied.or(&summed),
        }
    }

    /// What is left of a vector after the steps are taken out of it, and which entered vectors that took. A step's bits are its
    /// lowest and higher ones, so that the bits are gone through once, from the lowest on.
    fn reduce(&self, vector: Bits) -> (Bits, Bits) {
        let mut rest = vector;
        let mut against = Bits::default();
        let mut from = 0;
        while let Some(bit) = rest.next(from) {
            if let Some(&n) = self.by_lowest.get(bit).filter(|&&n| n != 0) {
                rest.add(&self.steps[n - 1].vector);
                against.add(&self.steps[n - 1].summed);
            }
            from = bit + 1;
        }
        (rest, against)
    }

    /// Whether no sum of some of the entered vectors is zero.
    pub fn independent(&self) -> bool {
        self.tied.is_zero()
    }

    pub fn rank(&self) -> usize {
        self.steps.len()
    }

    /// The entered vectors that add up to this one, if there are such.
    pub fn reach(&self, vector: Bits) -> Option<Bits> {
        let (rest, against) = self.reduce(vector);
        rest.is_zero().then_some(against)
    }
}
