//! Times the library, the plain Rust code and the packed code in turn, on the same stripes, and prints a table.
//!
//! Each kind of work has a pool of stripes that differ. A pass makes one call on each; before a pass the pool is put back as
//! it was, untimed. The sides take passes in turn, so that all meet the machine in the same state. A side's time is the
//! median of its passes; the ratio is the median of the ratios of the library's passes to the plain code's beside them.

use outside::chance::Chance;
use outside::damage::{self, Content, Marks};
use outside::oracle::answers::{BENCH_LENGTH, REPORT_LENGTH};
use outside::oracle::{self, Plan};
use std::hint::black_box;
use std::time::{Duration, Instant};

/// Stripes in a pool.
const POOL: usize = 256;
/// Passes of each side, and the time after which no more are made once there are enough.
const LEAST_PASSES: usize = 100;
const MOST_PASSES: usize = 3000;
const TIME_ENOUGH: Duration = Duration::from_millis(400);

/// The calls of one side that are timed.
#[derive(Clone, Copy)]
struct Side {
    is_codeword: fn(usize, &[u8]) -> usize,
    is_interleaved: fn(&[u8]) -> usize,
    encode: fn(usize, &[u8], &mut [u8]) -> usize,
    mend: fn(usize, &mut [u8], &mut [u64], &mut [u8]) -> usize,
    row_step: fn(&mut [u8], usize) -> usize,
}

const LIBRARY: Side = Side {
    is_codeword: shelf::is_codeword,
    is_interleaved: shelf::is_interleaved,
    encode: shelf::encode,
    mend: shelf::mend,
    row_step: shelf::row_step,
};
const PLAIN: Side = Side {
    is_codeword: plain::is_codeword,
    is_interleaved: plain::is_interleaved,
    encode: plain::encode,
    mend: plain::mend,
    row_step: plain::row_step,
};
const PACKED: Side = Side {
    is_codeword: packed::is_codeword,
    is_interleaved: packed::is_interleaved,
    encode: packed::encode,
    mend: packed::mend,
    row_step: packed::row_step,
};
const ORACLE: Side = Side {
    is_codeword: oracle::is_codeword,
    is_interleaved: oracle::is_interleaved,
    encode: oracle::encode,
    mend: oracle::mend,
    row_step: oracle::row_step,
};

const SIDES: [(&str, Side); 3] = [("library", LIBRARY), ("plain code", PLAIN), ("packed code", PACKED)];

#[derive(Clone, Copy)]
enum Work {
    /// The floor: the stripe is copied.
    Copy,
    IsCodeword,
    /// The same of plan 3 alone.
    IsInterleaved,
    Encode,
    Mend(Marks),
    /// The step of a row that has one mark, on a fresh bench.
    RowStep,
}

const WORKS: [(&str, Work); 11] = [
    ("copy of the stripe", Work::Copy),
    ("codeword test", Work::IsCodeword),
    ("codeword test, interleaved form", Work::IsInterleaved),
    ("encoding", Work::Encode),
    ("mending, no marks", Work::Mend(Marks::None)),
    ("mending, one mark", Work::Mend(Marks::One)),
    ("mending, d0 - 1 marks in three rows", Work::Mend(Marks::ThreeRowsFull)),
    ("mending, d - 1 marks anywhere", Work::Mend(Marks::BelowDistance)),
    ("mending, marks at the edge of the counts", Work::Mend(Marks::Edge)),
    ("mending, everything marked", Work::Mend(Marks::Everything)),
    ("one row step, one mark", Work::RowStep),
];

/// The buffers of all calls of a pass, one stripe's after another's.
#[derive(Clone, PartialEq)]
struct Pool {
    data: Vec<u8>,
    stripes: Vec<u8>,
    copies: Vec<u8>,
    marks: Vec<u64>,
    reports: Vec<u8>,
    benches: Vec<u8>,
    rows: Vec<usize>,
}

impl Pool {
    fn new(plan: &Plan, work: Work, chance: &mut Chance) -> Pool {
        let kind = match work {
            Work::Mend(kind) => kind,
            Work::RowStep => Marks::One,
            _ => Marks::None,
        };
        let mut pool = Pool {
            data: Vec::new(),
            stripes: Vec::new(),
            copies: vec![0; POOL * plan.symbols()],
            marks: Vec::new(),
            reports: vec![0; POOL * REPORT_LENGTH],
            benches: Vec::new(),
            rows: Vec::new(),
        };
        for _ in 0..POOL {
            let word = damage::stripe(plan, Content::Codeword, chance);
            let marks = damage::marks(plan, kind, chance);
            let (mut data, mut bench) = (vec![0; plan.carried()], vec![0; BENCH_LENGTH]);
            oracle::extract(plan.number, &word, &mut data);
            let stripe = damage::zero_under_marks(plan, &word, &marks);
            oracle::start(plan.number, &stripe, &marks, &mut bench);
            pool.rows.push(marks.iter().position(|&word| word != 0).unwrap_or(0));
            pool.data.extend(data);
            pool.stripes.extend(stripe);
            pool.marks.extend(marks);
            pool.benches.extend(bench);
        }
        pool
    }

    /// Puts the buffers back as they were.
    fn reset(&mut self, start: &Pool) {
        self.stripes.copy_from_slice(&start.stripes);
        self.copies.copy_from_slice(&start.copies);
        self.marks.copy_from_slice(&start.marks);
        self.reports.copy_from_slice(&start.reports);
        self.benches.copy_from_slice(&start.benches);
    }

    /// One call on each stripe. The sum of the answers keeps the calls alive.
    fn pass(&mut self, plan: &Plan, work: Work, side: Side) -> usize {
        let (number, symbols) = (plan.number, plan.symbols());
        let stripes = self.stripes.chunks_exact_mut(symbols);
        match work {
            Work::Copy => {
                let copies = self.copies.chunks_exact_mut(symbols);
                stripes.zip(copies).map(|(stripe, copy)| copied(stripe, copy)).sum()
            }
            Work::IsCodeword => stripes.map(|stripe| (side.is_codeword)(number, stripe)).sum(),
            Work::IsInterleaved => stripes.map(|stripe| (side.is_interleaved)(stripe)).sum(),
            Work::Encode => {
                let data = self.data.chunks_exact(plan.carried());
                data.zip(stripes).map(|(data, stripe)| (side.encode)(number, data, stripe)).sum()
            }
            Work::Mend(_) => {
                let lent =
                    stripes.zip(self.marks.chunks_exact_mut(plan.rows)).zip(self.reports.chunks_exact_mut(REPORT_LENGTH));
                lent.map(|((stripe, marks), report)| (side.mend)(number, stripe, marks, report)).sum()
            }
            Work::RowStep => {
                let benches = self.benches.chunks_exact_mut(BENCH_LENGTH).zip(&self.rows);
                benches.map(|(bench, &row)| (side.row_step)(bench, row)).sum()
            }
        }
    }
}

#[inline(never)]
fn copied(stripe: &[u8], copy: &mut [u8]) -> usize {
    copy.copy_from_slice(black_box(stripe));
    0
}

/// What a pass leaves behind, for comparing the sides.
fn after_pass(plan: &Plan, work: Work, side: Side, start: &Pool) -> (usize, Pool) {
    let mut pool = start.clone();
    let sum = pool.pass(plan, work, side);
    (sum, pool)
}

/// Nanoseconds a stripe of one pass.
fn timed_pass(plan: &Plan, work: Work, side: Side, pool: &mut Pool, start: &Pool) -> f64 {
    pool.reset(start);
    let side = black_box(side);
    let begun = Instant::now();
    black_box(pool.pass(plan, work, side));
    begun.elapsed().as_nanos() as f64 / POOL as f64
}

fn median(mut values: Vec<f64>) -> f64 {
    values.sort_by(f64::total_cmp);
    values[values.len() / 2]
}

/// The times of the three sides.
struct Times {
    library: f64,
    plain: f64,
    packed: f64,
    /// The library's to the plain code's.
    ratio: f64,
}

fn timed(plan: &Plan, work: Work, start: &Pool) -> Times {
    let mut pool = start.clone();
    let mut times = [const { Vec::new() }; SIDES.len()];
    let begun = Instant::now();
    for pass in 0..MOST_PASSES {
        if pass >= LEAST_PASSES && begun.elapsed() >= TIME_ENOUGH {
            break;
        }
        // The side that goes first changes from pass to pass.
        for turn in 0..SIDES.len() {
            let at = (pass + turn) % SIDES.len();
            times[at].push(timed_pass(plan, work, SIDES[at].1, &mut pool, start));
        }
    }
    let [library, plain, packed] = times;
    let ratios = library.iter().zip(&plain).map(|(library, plain)| library / plain).collect();
    Times { library: median(library), plain: median(plain), packed: median(packed), ratio: median(ratios) }
}

/// The work of which plan 5 may take at most so many times as long as plan 2.
const MOST_OF_PLAN_2: f64 = 2.5;
const BESIDE_PLAN_2: [(&str, Work); 3] = [
    ("mending, no marks", Work::Mend(Marks::None)),
    ("mending, one mark", Work::Mend(Marks::One)),
    ("mending, d - 1 marks anywhere", Work::Mend(Marks::BelowDistance)),
];

/// Passes of plans 2 and 5 in turn, by one side: the median times, and the median of the ratios of passes beside each other.
fn beside_plan_2(work: Work, side: Side) -> (f64, f64, f64) {
    let plans = [2, 5].map(|number| Plan::numbered(number).expect("a plan"));
    let starts = plans.map(|plan| Pool::new(plan, work, &mut Chance::seeded(122)));
    let mut pools = starts.clone();
    let mut times = [Vec::new(), Vec::new()];
    let begun = Instant::now();
    while times[0].len() < LEAST_PASSES || begun.elapsed() < TIME_ENOUGH && times[0].len() < MOST_PASSES {
        for n in 0..2 {
            times[n].push(timed_pass(plans[n], work, side, &mut pools[n], &starts[n]));
        }
    }
    let [second, fifth] = times;
    let ratios = second.iter().zip(&fifth).map(|(second, fifth)| fifth / second).collect();
    (median(second), median(fifth), median(ratios))
}

fn print_beside_plan_2() {
    println!("\n| Side | Work | plan 2, ns | plan 5, ns | plan 5 / plan 2 |");
    println!("|---|---|---:|---:|---:|");
    let mut most = 0.0;
    for (whose, side) in SIDES {
        for (name, work) in BESIDE_PLAN_2 {
            let (second, fifth, ratio) = beside_plan_2(work, side);
            println!("| {whose} | {name} | {second:.1} | {fifth:.1} | {ratio:.2} |");
            most = if whose == SIDES[0].0 { ratio.max(most) } else { most };
        }
    }
    let verdict = if most <= MOST_OF_PLAN_2 { "within" } else { "ABOVE" };
    println!("\nPlan 5 takes the library at most {most:.2} times as long as plan 2: {verdict} the {MOST_OF_PLAN_2} that are allowed.");
}

fn main() {
    let mut slowest = (0.0, String::new());
    println!("| Plan | Work | library, ns | plain, ns | library / plain | packed, ns |");
    println!("|---|---|---:|---:|---:|---:|");
    for plan in Plan::all() {
        for (name, work) in WORKS {
            if matches!(work, Work::IsInterleaved) && plan.number != 3 {
                continue;
            }
            let start = Pool::new(plan, work, &mut Chance::seeded(121));
            let expected = after_pass(plan, work, ORACLE, &start);
            for (whose, side) in SIDES {
                if after_pass(plan, work, side, &start) != expected {
                    println!("bench: the {whose} and the independent decoder differ: plan {}, {name}", plan.number);
                    std::process::exit(1);
                }
            }
            let Times { library, plain, packed, ratio } = timed(plan, work, &start);
            if let Work::Copy = work {
                println!("| {} | {name} | {:.1} | | | |", plan.number, library.min(plain).min(packed));
                continue;
            }
            println!("| {} | {name} | {library:.1} | {plain:.1} | {ratio:.2} | {packed:.1} |", plan.number);
            if ratio > slowest.0 {
                slowest = (ratio, format!("plan {}, {name}", plan.number));
            }
        }
    }
    println!("\nThe slowest ratio is {:.2}: {}.", slowest.0, slowest.1);
    print_beside_plan_2();
}
