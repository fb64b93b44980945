//! A call as a thing: which function, with which numbers and buffers. It can be made on the library and on the
//! independent decoder, compared, printed as one line, and read from that line again.

use outside::oracle;
use std::fmt;

#[derive(Clone, PartialEq, Eq, Debug)]
pub enum Buffer {
    Bytes(Vec<u8>),
    Words(Vec<u64>),
}

impl Buffer {
    pub fn bytes(&self) -> &[u8] {
        match self {
            Buffer::Bytes(bytes) => bytes,
            Buffer::Words(_) => panic!("the buffer holds words"),
        }
    }

    pub fn words(&self) -> &[u64] {
        match self {
            Buffer::Words(words) => words,
            Buffer::Bytes(_) => panic!("the buffer holds bytes"),
        }
    }

    /// The lent part of a buffer that has guards.
    fn lent_bytes(&mut self) -> &mut [u8] {
        match self {
            Buffer::Bytes(bytes) => inner(bytes),
            Buffer::Words(_) => panic!("the buffer holds words"),
        }
    }

    fn lent_words(&mut self) -> &mut [u64] {
        match self {
            Buffer::Words(words) => inner(words),
            Buffer::Bytes(_) => panic!("the buffer holds bytes"),
        }
    }

    fn guarded(&self) -> Buffer {
        match self {
            Buffer::Bytes(bytes) => Buffer::Bytes(guarded(bytes, GUARD_BYTE)),
            Buffer::Words(words) => Buffer::Words(guarded(words, GUARD_WORD)),
        }
    }

    /// The content, unless a guard was touched.
    fn unguarded(&self) -> Option<Buffer> {
        match self {
            Buffer::Bytes(bytes) => unguarded(bytes, GUARD_BYTE).map(Buffer::Bytes),
            Buffer::Words(words) => unguarded(words, GUARD_WORD).map(Buffer::Words),
        }
    }
}

impl From<&[u8]> for Buffer {
    fn from(bytes: &[u8]) -> Buffer {
        Buffer::Bytes(bytes.to_vec())
    }
}

impl From<&[u64]> for Buffer {
    fn from(words: &[u64]) -> Buffer {
        Buffer::Words(words.to_vec())
    }
}

#[derive(Clone, Copy, PartialEq, Eq, PartialOrd, Ord, Debug)]
pub enum Function {
    Start,
    RowStep,
    LevelStep,
    Mend,
    IsCodeword,
    IsInterleaved,
    Encode,
    Extract,
    ReadFile,
    WriteFile,
    Text,
}

pub const FUNCTIONS: [Function; 11] = [
    Function::Start,
    Function::RowStep,
    Function::LevelStep,
    Function::Mend,
    Function::IsCodeword,
    Function::IsInterleaved,
    Function::Encode,
    Function::Extract,
    Function::ReadFile,
    Function::WriteFile,
    Function::Text,
];

impl Function {
    pub fn name(self) -> &'static str {
        match self {
            Function::Start => "start",
            Function::RowStep => "row_step",
            Function::LevelStep => "level_step",
            Function::Mend => "mend",
            Function::IsCodeword => "is_codeword",
            Function::IsInterleaved => "is_interleaved",
            Function::Encode => "encode",
            Function::Extract => "extract",
            Function::ReadFile => "read_file",
            Function::WriteFile => "write_file",
            Function::Text => "text",
        }
    }

    /// Its buffers in order: whether each holds words.
    fn shape(self) -> &'static [bool] {
        match self {
            Function::Start | Function::Mend | Function::WriteFile => &[false, true, false],
            Function::RowStep | Function::LevelStep | Function::IsCodeword | Function::IsInterleaved => &[false],
            Function::Encode | Function::Extract => &[false, false],
            Function::ReadFile => &[false, false, true],
            Function::Text => &[false, false, false],
        }
    }

    /// Every number that it can answer with.
    pub fn answers(self) -> &'static [usize] {
        match self {
            Function::Start | Function::WriteFile => &[0, 10, 11, 12, 13],
            Function::RowStep => &[2, 3, 4, 5, 10, 11, 12, 13, 14, 15],
            Function::LevelStep => &[2, 6, 7, 8, 10, 11, 12, 13, 15],
            Function::Mend => &[0, 1, 2, 10, 11, 12, 13],
            Function::IsCodeword => &[0, 1, 10, 11, 13],
            Function::IsInterleaved => &[0, 1, 11, 13],
            Function::Encode => &[0, 10, 11, 13],
            Function::Extract => &[0, 10, 11, 13, 16],
            Function::ReadFile => &[0, 10, 11, 12, 13, 20, 21, 22],
            Function::Text => &[0, 11],
        }
    }
}

/// A call. The number is the plan or the row, where the function takes one.
#[derive(Clone, PartialEq, Eq, Debug)]
pub struct Call {
    pub function: Function,
    pub number: usize,
    pub buffers: Vec<Buffer>,
}

/// What a call comes to: the answer's number, and what stands in every buffer afterwards, also in those only read.
#[derive(Clone, PartialEq, Eq, Debug)]
pub struct Outcome {
    pub number: usize,
    pub buffers: Vec<Buffer>,
}

/// One maker of answers.
pub struct Side {
    pub name: &'static str,
    start: fn(usize, &[u8], &[u64], &mut [u8]) -> usize,
    row_step: fn(&mut [u8], usize) -> usize,
    level_step: fn(&mut [u8]) -> usize,
    mend: fn(usize, &mut [u8], &mut [u64], &mut [u8]) -> usize,
    is_codeword: fn(usize, &[u8]) -> usize,
    is_interleaved: fn(&[u8]) -> usize,
    encode: fn(usize, &[u8], &mut [u8]) -> usize,
    extract: fn(usize, &[u8], &mut [u8]) -> usize,
    read_file: fn(&[u8], &mut [u8], &mut [u64]) -> usize,
    write_file: fn(usize, &[u8], &[u64], &mut [u8]) -> usize,
    text: fn(&[u8], &mut [u8], &mut [u8]) -> usize,
}

pub const LIBRARY: Side = Side {
    name: "library",
    start: shelf::start,
    row_step: shelf::row_step,
    level_step: shelf::level_step,
    mend: shelf::mend,
    is_codeword: shelf::is_codeword,
    is_interleaved: shelf::is_interleaved,
    encode: shelf::encode,
    extract: shelf::extract,
    read_file: shelf::read_file,
    write_file: shelf::write_file,
    text: shelf::text,
};

pub const ORACLE: Side = Side {
    name: "oracle",
    start: oracle::start,
    row_step: oracle::row_step,
    level_step: oracle::level_step,
    mend: oracle::mend,
    is_codeword: oracle::is_codeword,
    is_interleaved: oracle::is_interleaved,
    encode: oracle::encode,
    extract: oracle::extract,
    read_file: oracle::read_file,
    write_file: oracle::write_file,
    text: oracle::text,
};

/// Elements on either side of a lent buffer, which no call may touch.
const GUARD: usize = 16;
const GUARD_BYTE: u8 = 0xa5;
const GUARD_WORD: u64 = 0xa5c3_965a_3c69_5aa5;

fn guarded<T: Copy>(content: &[T], guard: T) -> Vec<T> {
    [vec![guard; GUARD], content.to_vec(), vec![guard; GUARD]].concat()
}

fn unguarded<T: Copy + PartialEq>(buffer: &[T], guard: T) -> Option<Vec<T>> {
    let (before, rest) = buffer.split_at(GUARD);
    let (content, after) = rest.split_at(rest.len() - GUARD);
    before.iter().chain(after).all(|&element| element == guard).then(|| content.to_vec())
}

fn inner<T>(buffer: &mut [T]) -> &mut [T] {
    let end = buffer.len() - GUARD;
    &mut buffer[GUARD..end]
}

impl Call {
    pub fn start(plan: usize, stripe: &[u8], marks: &[u64], bench: &[u8]) -> Call {
        Call { function: Function::Start, number: plan, buffers: vec![stripe.into(), marks.into(), bench.into()] }
    }

    pub fn row_step(bench: &[u8], row: usize) -> Call {
        Call { function: Function::RowStep, number: row, buffers: vec![bench.into()] }
    }

    pub fn level_step(bench: &[u8]) -> Call {
        Call { function: Function::LevelStep, number: 0, buffers: vec![bench.into()] }
    }

    pub fn mend(plan: usize, stripe: &[u8], marks: &[u64], report: &[u8]) -> Call {
        Call { function: Function::Mend, number: plan, buffers: vec![stripe.into(), marks.into(), report.into()] }
    }

    pub fn is_codeword(plan: usize, stripe: &[u8]) -> Call {
        Call { function: Function::IsCodeword, number: plan, buffers: vec![stripe.into()] }
    }

    pub fn is_interleaved(stripe: &[u8]) -> Call {
        Call { function: Function::IsInterleaved, number: 0, buffers: vec![stripe.into()] }
    }

    pub fn encode(plan: usize, data: &[u8], stripe: &[u8]) -> Call {
        Call { function: Function::Encode, number: plan, buffers: vec![data.into(), stripe.into()] }
    }

    pub fn extract(plan: usize, stripe: &[u8], data: &[u8]) -> Call {
        Call { function: Function::Extract, number: plan, buffers: vec![stripe.into(), data.into()] }
    }

    pub fn read_file(file: &[u8], stripe: &[u8], marks: &[u64]) -> Call {
        Call { function: Function::ReadFile, number: 0, buffers: vec![file.into(), stripe.into(), marks.into()] }
    }

    pub fn write_file(plan: usize, stripe: &[u8], marks: &[u64], file: &[u8]) -> Call {
        Call { function: Function::WriteFile, number: plan, buffers: vec![stripe.into(), marks.into(), file.into()] }
    }

    pub fn text(file: &[u8], text: &[u8], length: &[u8]) -> Call {
        Call { function: Function::Text, number: 0, buffers: vec![file.into(), text.into(), length.into()] }
    }

    /// Makes the call on copies of the buffers. None: it wrote outside them.
    pub fn make(&self, side: &Side) -> Option<Outcome> {
        let mut lent: Vec<Buffer> = self.buffers.iter().map(Buffer::guarded).collect();
        let number = self.on(side, &mut lent);
        let buffers = std::hint::black_box(lent).iter().map(Buffer::unguarded).collect::<Option<_>>()?;
        Some(Outcome { number, buffers })
    }

    fn on(&self, side: &Side, lent: &mut [Buffer]) -> usize {
        let n = self.number;
        match (self.function, lent) {
            (Function::Start, [stripe, marks, bench]) => {
                (side.start)(n, stripe.lent_bytes(), marks.lent_words(), bench.lent_bytes())
            }
            (Function::RowStep, [bench]) => (side.row_step)(bench.lent_bytes(), n),
            (Function::LevelStep, [bench]) => (side.level_step)(bench.lent_bytes()),
            (Function::Mend, [stripe, marks, report]) => {
                (side.mend)(n, stripe.lent_bytes(), marks.lent_words(), report.lent_bytes())
            }
            (Function::IsCodeword, [stripe]) => (side.is_codeword)(n, stripe.lent_bytes()),
            (Function::IsInterleaved, [stripe]) => (side.is_interleaved)(stripe.lent_bytes()),
            (Function::Encode, [data, stripe]) => (side.encode)(n, data.lent_bytes(), stripe.lent_bytes()),
            (Function::Extract, [stripe, data]) => (side.extract)(n, stripe.lent_bytes(), data.lent_bytes()),
            (Function::ReadFile, [file, stripe, marks]) => {
                (side.read_file)(file.lent_bytes(), stripe.lent_bytes(), marks.lent_words())
            }
            (Function::WriteFile, [stripe, marks, file]) => {
                (side.write_file)(n, stripe.lent_bytes(), marks.lent_words(), file.lent_bytes())
            }
            (Function::Text, [file, text, length]) => (side.text)(file.lent_bytes(), text.lent_bytes(), length.lent_bytes()),
            (function, _) => panic!("{} has other buffers", function.name()),
        }
    }

    /// Reads the line that `Display` writes.
    pub fn from_line(line: &str) -> Option<Call> {
        let mut words = line.split_whitespace();
        let name = words.next()?;
        let function = FUNCTIONS.into_iter().find(|function| function.name() == name)?;
        let number = words.next()?.parse().ok()?;
        let buffers: Option<Vec<Buffer>> = words.map(Buffer::from_word).collect();
        let call = Call { function, number, buffers: buffers? };
        let shape = |buffers: &[Buffer]| buffers.iter().map(|b| matches!(b, Buffer::Words(_))).collect::<Vec<bool>>();
        (shape(&call.buffers) == function.shape()).then_some(call)
    }
}

impl Buffer {
    fn from_word(word: &str) -> Option<Buffer> {
        let (kind, digits) = word.split_once(':')?;
        let each = match kind {
            "bytes" => 2,
            "words" => 16,
            _ => return None,
        };
        if !digits.is_ascii() || digits.len() % each != 0 {
            return None;
        }
        let starts = (0..digits.len()).step_by(each);
        let numbers: Option<Vec<u64>> = starts.map(|at| u64::from_str_radix(&digits[at..at + each], 16).ok()).collect();
        Some(match each {
            2 => Buffer::Bytes(numbers?.into_iter().map(|number| number as u8).collect()),
            _ => Buffer::Words(numbers?),
        })
    }
}

impl fmt::Display for Buffer {
    fn fmt(&self, out: &mut fmt::Formatter) -> fmt::Result {
        match self {
            Buffer::Bytes(bytes) => {
                write!(out, "bytes:")?;
                bytes.iter().try_for_each(|byte| write!(out, "{byte:02x}"))
            }
            Buffer::Words(words) => {
                write!(out, "words:")?;
                words.iter().try_for_each(|word| write!(out, "{word:016x}"))
            }
        }
    }
}

/// The function's name, its number (0 where it takes none), then the buffers: bytes in two hex digits, words in sixteen.
impl fmt::Display for Call {
    fn fmt(&self, out: &mut fmt::Formatter) -> fmt::Result {
        write!(out, "{} {}", self.function.name(), self.number)?;
        self.buffers.iter().try_for_each(|buffer| write!(out, " {buffer}"))
    }
}

impl fmt::Display for Outcome {
    fn fmt(&self, out: &mut fmt::Formatter) -> fmt::Result {
        write!(out, "{}", self.number)?;
        self.buffers.iter().try_for_each(|buffer| write!(out, " {buffer}"))
    }
}
