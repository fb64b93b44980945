//! Holds the independent decoder itself to account: against the bench sheet, the example file, a listing of plan 1, listings
//! of rows and levels of every plan, the plans' parameters, and what the requirements say of every answer. The library has no
//! part in it.

mod fillings;
mod listing;

use fillings::Fillings;
use listing::{End, Learned, Step};
use outside::chance::Chance;
use outside::contradiction;
use outside::damage::{self, Content, Marks, CONTENTS, MARKS};
use outside::oracle::answers::*;
use outside::oracle::bench::{sums_of, word_of, LEVEL, SYMBOLS};
use outside::oracle::binary::Span;
use outside::oracle::mending::mended;
use outside::oracle::plan::{marked, power, share, times16, times256, times32, times64};
use outside::oracle::stripe::{agreeing, holds, rank, Agreeing};
use outside::oracle::{self, Plan};
use outside::sheet;
use outside::stored::STORED;

/// Counts the checks, and stops at the first that fails.
#[derive(Default)]
struct Tally {
    total: u64,
}

impl Tally {
    fn group(&mut self, name: &str, checks: impl Fn(&mut Tally)) {
        let before = self.total;
        checks(self);
        println!("{name}: {} checks", self.total - before);
    }

    fn check(&mut self, truth: bool, what: impl FnOnce() -> String) {
        self.total += 1;
        if !truth {
            println!("oracle: {}", what());
            std::process::exit(1);
        }
    }
}

fn main() {
    let mut tally = Tally::default();
    tally.group("bench sheet", bench_sheet);
    tally.group("field arithmetic", fields);
    tally.group("parameters of the plans", parameters);
    tally.group("plan 1 by listing, row steps", listed_row_steps);
    tally.group("plan 1 by listing, level steps", listed_level_steps);
    tally.group("plan 1 by listing, mending", listed_mending);
    tally.group("plan 1 by listing, codewords", listed_codewords);
    tally.group("every plan by listing, fillings of a row", listed_rows);
    tally.group("every plan by listing, tied rows that contradict themselves", listed_contradictions);
    tally.group("every plan by listing, sums of lost rows", listed_levels);
    tally.group("encoding and extraction", round_trips);
    tally.group("rounds of steps and mending in one call", rounds);
    tally.group("what each answer says of the codewords", meaning_of_answers);
    tally.group("published row counts", row_counts);
    tally.group("files", files);
    tally.group("files stored before mark words had 64 bits", stored_files);
    println!("oracle: {} checks, all as they should be", tally.total);
}

fn bench_sheet(tally: &mut Tally) {
    for case in sheet::cases().into_iter().chain(sheet::cases_of_bytes()) {
        let (mut stripe, mut marks, mut report) = (case.stripe(), case.mark_words(), [0; REPORT_LENGTH]);
        let answer = oracle::mend(case.plan, &mut stripe, &mut marks, &mut report);
        tally.check(case.is_met_by(answer, &report), || format!("{}: answer {answer}, report {report:?}", case.name));
    }
    let mut stripe = [0; 21];
    let answer = oracle::encode(1, &sheet::ENCODED_DATA, &mut stripe);
    tally.check(answer == DONE && stripe == sheet::ENCODED_STRIPE, || "the encoded stripe".to_string());
    let shown = oracle::text::printed(&sheet::EXAMPLE_FILE);
    tally.check(shown == sheet::EXAMPLE_TEXT, || format!("the example file: {shown:?}"));
    let shown = oracle::text::printed(&sheet::file_of_bytes());
    tally.check(shown == sheet::text_of_bytes(), || format!("a file of plan 4: {shown:?}"));
}

fn fields(tally: &mut Tally) {
    tally.check(times16(8, 2) == 3, || "8 times 2 in GF(16)".to_string());
    tally.check(times16(15, 15) == 10, || "15 times 15 in GF(16)".to_string());
    tally.check(times32(16, 2) == 5, || "16 times 2 in GF(32)".to_string());
    tally.check(power(times32, 4, 3) == 10, || "the cube of 4 in GF(32)".to_string());
    let order = |times: fn(u8, u8) -> u8| (1..).find(|&n| power(times, 2, n) == 1);
    tally.check(order(times16) == Some(15), || "the powers of 2 in GF(16)".to_string());
    tally.check(order(times32) == Some(31), || "the powers of 2 in GF(32)".to_string());
    tally.check(times64(32, 2) == 3, || "32 times 2 in GF(64)".to_string());
    tally.check(power(times64, 4, 3) == 3, || "the cube of 4 in GF(64)".to_string());
    tally.check(order(times64) == Some(63), || "the powers of 2 in GF(64)".to_string());
    field_of_bytes(tally);
    for (number, width) in [(2, 5), (5, 6)] {
        let plan = Plan::numbered(number).expect("a plan");
        let mut locations: Vec<usize> = (0..plan.columns).map(|column| location(plan, column)).collect();
        tally.check(locations.pop() == Some(0), || format!("plan {number}: location 0 is not the last column's"));
        locations.sort();
        tally.check(locations == (1..1 << width).collect::<Vec<usize>>(), || {
            format!("plan {number}: locations {locations:?}")
        });
    }
}

/// GF(256): products by shift and add, of which the powers of 2 are all elements but 0; each of these has its inverse.
fn field_of_bytes(tally: &mut Tally) {
    tally.check(times256(128, 2) == 29, || "128 times 2 in GF(256)".to_string());
    tally.check(times256(2, 142) == 1, || "2 times 142 in GF(256)".to_string());
    let doubled = |x: u8| x << 1 ^ if x >= 128 { 29 } else { 0 };
    for (x, y) in (0..=255u8).flat_map(|x| (0..=255).map(move |y| (x, y))) {
        let shifted = std::iter::successors(Some(x), |&x| Some(doubled(x)));
        let sum = shifted.take(8).enumerate().fold(0, |sum, (bit, part)| if y >> bit & 1 == 1 { sum ^ part } else { sum });
        tally.check(times256(x, y) == sum, || format!("{x} times {y} in GF(256)"));
    }
    let mut powers: Vec<u8> = std::iter::successors(Some(1), |&x| Some(doubled(x))).take(255).collect();
    tally.check(doubled(powers[254]) == 1, || "the 255th power of 2 in GF(256)".to_string());
    powers.sort();
    tally.check(powers == (1..=255).collect::<Vec<u8>>(), || "the powers of 2 in GF(256)".to_string());
    for x in 1..=255 {
        tally.check(times256(x, power(times256, x, 254)) == 1, || format!("the inverse of {x} in GF(256)"));
    }
}

/// A column's location, in a plan whose level 1 has the parity and the bits of the locations.
fn location(plan: &Plan, column: usize) -> usize {
    share(plan.number, 1, column, 1)[1..].iter().rev().fold(0, |sum, &bit| 2 * sum + bit as usize)
}

fn parameters(tally: &mut Tally) {
    let tables = [
        (1, 3, 7, 15, 2, 4, 2, 41),
        (2, 8, 32, 198, 4, 8, 3, 296),
        (3, 8, 15, 98, 3, 8, 3, 160),
        (4, 12, 24, 253, 3, 10, 3, 344),
        (5, 8, 64, 444, 4, 8, 3, 584),
    ];
    let others = [0, 6].into_iter().filter_map(Plan::numbered).count();
    tally.check(Plan::all().count() == tables.len() && others == 0, || "the number of plans".to_string());
    for (plan, entry) in Plan::all().zip(tables) {
        let (number, rows, columns, carried, row_distance, distance, levels, file) = entry;
        let sizes = [plan.number, plan.rows, plan.columns, plan.carried(), plan.last(), plan.file_length()];
        tally.check(sizes == [number, rows, columns, carried, levels, file], || format!("plan {number}: sizes {sizes:?}"));
        let distances = (plan.row_distance, plan.distance);
        tally.check(distances == (row_distance, distance), || format!("plan {number}: distances {distances:?}"));
        tally.check(plan.symbols() - rank(plan) == carried, || format!("plan {number}: rank of the checks"));
        let failing = damage::words_failing_one_check(plan);
        tally.check(failing.iter().all(|word| !holds(plan, word)), || format!("plan {number}: words that fail one check"));
    }
    least_row_distances(tally);
    least_sums(tally);
    independent_sets(tally);
    independent_weights(tally);
    light_words(tally);
}

/// Any d' - 1 columns of a row are independent at a level, and some d' are not.
fn least_row_distances(tally: &mut Tally) {
    let of_first = [(1, 1, 2), (1, 2, 4), (2, 1, 4), (2, 2, 6), (2, 3, 8), (3, 1, 3), (3, 2, 4), (3, 3, 8)];
    // at level 3 of plan 4 by `independent_sets` alone
    for (number, level, distance) in of_first.into_iter().chain([(4, 1, 3), (4, 2, 5)]) {
        let plan = Plan::numbered(number).expect("a plan");
        for word in words_with(distance - 1, plan.columns) {
            tally.check(independent(plan, level, word), || format!("plan {number}, level {level}: columns {word:b}"));
        }
        let dependent = words_with(distance, plan.columns).any(|word| !independent(plan, level, word));
        tally.check(dependent, || format!("plan {number}, level {level}: no {distance} columns are dependent"));
    }
}

/// The same for the binary plans, by listing: no sum of fewer than d' columns of a row is zero, and some sum of d' of them is.
fn least_sums(tally: &mut Tally) {
    let distances = [(1, 1, 2), (1, 2, 4), (2, 1, 4), (2, 2, 6), (2, 3, 8), (5, 1, 4), (5, 2, 6), (5, 3, 8)];
    for (number, level, distance) in distances {
        let plan = Plan::numbered(number).expect("a plan");
        let shares = |column| (1..=level).flat_map(move |level| share(number, level, column, 1));
        let columns: Vec<u32> =
            (0..plan.columns).map(|column| shares(column).fold(0, |sum, bit| 2 * sum + bit as u32)).collect();
        for count in 1..distance {
            let vanishing = vanishing_sums(&columns, 0, count);
            tally.check(vanishing == 0, || format!("plan {number}, level {level}: {vanishing} sums of {count} columns"));
        }
        let vanishing = vanishing_sums(&columns, 0, distance);
        tally.check(vanishing > 0, || format!("plan {number}, level {level}: no sum of {distance} columns is zero"));
    }
}

/// The same for plans 3 and 4, by elimination over their fields, a column after another: every set of as many columns as a row has
/// sums up to a level is independent. One more are not, being more than the sums.
fn independent_sets(tally: &mut Tally) {
    let distances =
        [(3, 1, 3, 105), (3, 2, 4, 455), (3, 3, 8, 6435), (4, 1, 3, 276), (4, 2, 5, 10_626), (4, 3, 10, 1_307_504)];
    for (number, level, distance, sets) in distances {
        let plan = Plan::numbered(number).expect("a plan");
        let sums = plan.sums_to(level);
        tally.check(sums == distance - 1 && plan.counts[level - 1].0 == distance, || format!("plan {number}: {sums} sums"));
        let columns: Vec<Vec<u8>> = (0..plan.columns).map(|column| plan.shares(column, 1)[..sums].to_vec()).collect();
        let found = independent_choices(plan, &columns, &mut Vec::new(), sums);
        tally.check(found == sets, || format!("plan {number}, level {level}: {found} of {sets} sets are independent"));
    }
}

/// Any as many rows' weights as a level has totals are independent, in the same way.
fn independent_weights(tally: &mut Tally) {
    for (number, level, sets) in [(3, 2, 28), (4, 2, 220), (4, 3, 12)] {
        let plan = Plan::numbered(number).expect("a plan");
        let weights = &plan.levels[level - 1].weights;
        let rows: Vec<Vec<u8>> = (0..plan.rows).map(|row| weights.iter().map(|of_total| of_total[row]).collect()).collect();
        let found = independent_choices(plan, &rows, &mut Vec::new(), weights.len());
        tally.check(found == sets, || format!("plan {number}, level {level}: {found} of {sets} sets of weights"));
    }
}

/// A row of plan 3 or 4 with one symbol, and marks as many as the sums of the last level: filled, it is a codeword as light as the
/// published distance says.
fn light_words(tally: &mut Tally) {
    for plan in [3, 4].into_iter().filter_map(Plan::numbered) {
        for column in plan.distance - 1..plan.columns {
            let mut row = vec![0; plan.columns];
            row[column] = 1;
            let sums = vec![0; plan.sums_to(plan.last())];
            let mut bench = bench_with(plan, plan.last(), 0, &row, (1 << sums.len()) - 1, &sums);
            let answer = oracle::row_step(&mut bench, 0);
            let stripe = &bench[SYMBOLS..][..plan.symbols()];
            let weight = stripe.iter().filter(|&&symbol| symbol != 0).count();
            let light = answer == FILLED && weight == plan.distance && holds(plan, stripe);
            tally.check(light, || format!("plan {}: {answer}, a word of weight {weight}", plan.number));
        }
    }
}

/// How many sets of so many vectors more are independent of each other and of those chosen, which stand reduced: each with the place
/// at which it has 1 and the later ones 0.
fn independent_choices(plan: &Plan, vectors: &[Vec<u8>], chosen: &mut Vec<(usize, Vec<u8>)>, count: usize) -> usize {
    if count == 0 {
        return 1;
    }
    let mut found = 0;
    for at in 0..vectors.len() {
        let rest = chosen.iter().fold(vectors[at].clone(), |rest, (place, own)| minus(plan, rest, own, *place));
        let Some(place) = rest.iter().position(|&part| part != 0) else { continue };
        let inverse = (1..plan.q()).map(|x| x as u8).find(|&x| plan.times(x, rest[place]) == 1).expect("an inverse");
        chosen.push((place, rest.iter().map(|&part| plan.times(inverse, part)).collect()));
        found += independent_choices(plan, &vectors[at + 1..], chosen, count - 1);
        chosen.pop();
    }
    found
}

/// A vector less the multiple of another that clears one place, where the other has 1.
fn minus(plan: &Plan, mut vector: Vec<u8>, other: &[u8], place: usize) -> Vec<u8> {
    let factor = vector[place];
    vector.iter_mut().zip(other).for_each(|(part, &own)| *part ^= plan.times(factor, own));
    vector
}

/// How many sets of so many columns add up to this number. The last column of a set is looked for and not listed.
fn vanishing_sums(columns: &[u32], sum: u32, count: usize) -> u64 {
    match count {
        1 => columns.iter().filter(|&&column| column == sum).count() as u64,
        _ => {
            let rests = (0..columns.len()).map(|at| (columns[at], &columns[at + 1..]));
            rests.map(|(column, rest)| vanishing_sums(rest, sum ^ column, count - 1)).sum()
        }
    }
}

/// Every mark word with so many columns.
fn words_with(count: usize, columns: usize) -> impl Iterator<Item = u64> {
    let next = |&word: &u64| {
        let lowest = word & word.wrapping_neg();
        let carried = word + lowest;
        Some(carried | (word ^ carried) / lowest >> 2)
    };
    let words = std::iter::successors(Some((1u64 << count) - 1), next);
    words.take_while(move |&word| word < 1 << columns)
}

/// Whether these columns of a row are independent under the checks of the levels from 1 to this one.
fn independent(plan: &Plan, level: usize, word: u64) -> bool {
    let columns = (0..plan.columns).filter(|&column| marked(word, column));
    let bits = columns.flat_map(|column| (0..plan.width).map(move |bit| (column, bit)));
    Span::of(bits.map(|(column, bit)| plan.row_share(0, column, bit).within(plan.up_to(level)))).independent()
}

/// A bench of plan 1 with these rows.
fn bench_of(rows: [u8; 3], marks: [u8; 3]) -> Vec<u8> {
    let mut bench = vec![0; BENCH_LENGTH];
    oracle::start(1, &symbols(rows), &marks.map(u64::from), &mut bench);
    bench
}

/// The symbols of rows of 7 bits, and back.
fn symbols(rows: [u8; 3]) -> Vec<u8> {
    rows.iter().flat_map(|row| (0..7).map(move |column| row >> column & 1)).collect()
}

fn packed(symbols: &[u8]) -> [u8; 3] {
    [0, 1, 2].map(|row| (0..7).map(|column| symbols[7 * row + column] << column).sum())
}

/// Where the columns are dependent and nothing fills, the step is Clash; in plan 1 that is so of the seven sets of four columns
/// whose locations add up to zero, at level 2, with half of all sums.
fn listed_row_steps(tally: &mut Tally) {
    let mut contradictions = 0;
    let sums = (0..16u8).map(|n| (n & 1, n >> 1));
    let learned = [1, 2].map(|level| (level, sums.clone().filter(move |&(_, s)| level == 2 || s == 0)));
    for (level, (parity, locations)) in learned.into_iter().flat_map(|(level, all)| all.map(move |sums| (level, sums))) {
        for (row, marks) in (0..1u16 << 14).map(|n| ((n & 127) as u8, (n >> 7) as u8)) {
            let mut bench = bench_of([0, row, 0], [0, marks, 0]);
            bench[LEVEL] = level as u8;
            let sums = [parity, locations & 1, locations >> 1 & 1, locations >> 2];
            bench[sums_of(1, 4)].copy_from_slice(&sums);
            let mut expected = bench.clone();
            let number = match listing::row_step(row, marks, level, (parity, locations)) {
                Step::Tied => TIED,
                Step::Clash => {
                    contradictions += listing::dependent(marks, level) as usize;
                    CLASH
                }
                Step::Whole => WHOLE,
                Step::Filled(filling) => {
                    expected[SYMBOLS..][..21].copy_from_slice(&symbols([0, filling, 0]));
                    expected[word_of(1)].fill(0);
                    FILLED
                }
            };
            let answer = oracle::row_step(&mut bench, 1);
            tally.check((answer, &bench) == (number, &expected), || {
                format!("row {row:b}, marks {marks:b}, level {level}: {answer}")
            });
        }
    }
    tally.check(contradictions == 7 * 128 * 16 / 2, || format!("{contradictions} tied rows contradict themselves"));
}

fn listed_level_steps(tally: &mut Tally) {
    let mut chance = Chance::seeded(11);
    let lost = (0..8u8).flat_map(|lost| (0..512u16).map(move |n| (lost, [n & 7, n >> 3 & 7, n >> 6])));
    for (lost, sums) in lost {
        let rows = sums.map(|sum| loop {
            let row = chance.below(128) as u8;
            if listing::locations(row) as u16 == sum {
                break row;
            }
        });
        let marks = [0, 1, 2].map(|row| if lost >> row & 1 == 1 { 1 + chance.below(127) as u8 } else { 0 });
        let mut bench = bench_of(rows, marks);
        let mut expected = bench.clone();
        let number = match listing::level_step(rows, marks) {
            Learned::Blocked => BLOCKED,
            Learned::Clash => CLASH,
            Learned::Raised(learned) => {
                expected[LEVEL] = 2;
                for (row, sum) in learned.into_iter().enumerate() {
                    expected[sums_of(row, 4)].copy_from_slice(&[0, sum & 1, sum >> 1 & 1, sum >> 2]);
                }
                RAISED
            }
        };
        let answer = oracle::level_step(&mut bench);
        tally.check((answer, &bench) == (number, &expected), || format!("rows {rows:?}, marks {marks:?}: {answer}"));
    }
}

fn listed_mending(tally: &mut Tally) {
    let plan = Plan::numbered(1).expect("a plan");
    let mut chance = Chance::seeded(12);
    for n in 0..60_000 {
        let stripe = damage::stripe(plan, CONTENTS[n % CONTENTS.len()], &mut chance);
        let kind = chance.pick(&MARKS);
        let marks = damage::marks(plan, kind, &mut chance);
        let end = mended(plan, &stripe, &marks);
        let (rows, words) = (packed(&stripe), [0, 1, 2].map(|row| marks[row] as u8));
        let expected = listing::mend(rows, words);
        let found = match (end.answer, end.report[5]) {
            (CLASH, ACROSS) => End::ClashAcross { level: end.report[7] as usize },
            (CLASH, _) => End::ClashInRow { row: end.report[6] as usize, level: end.report[7] as usize },
            _ => End::Stopped {
                level: end.report[0] as usize,
                left: end.report[1] as usize,
                restored: [end.report[2] as usize, end.report[3] as usize],
                rows: packed(&end.stripe),
                marks: [0, 1, 2].map(|row| end.marks[row] as u8),
            },
        };
        tally.check(found == expected, || format!("rows {rows:?}, marks {words:?}: {found:?}, listed {expected:?}"));
        let left = end.marks.iter().any(|&word| word != 0);
        let restored = end.answer == RESTORED;
        tally.check(end.answer == CLASH || restored != left, || format!("rows {rows:?}, marks {words:?}: {}", end.answer));
    }
}

fn listed_codewords(tally: &mut Tally) {
    let plan = Plan::numbered(1).expect("a plan");
    let all = listing::codewords();
    tally.check(all.len() == 1 << 15, || format!("{} codewords", all.len()));
    let weight = |rows: &[u8; 3]| rows.iter().map(|row| row.count_ones()).sum::<u32>();
    let least = all.iter().map(weight).filter(|&weight| weight > 0).min();
    tally.check(least == Some(4), || format!("least weight {least:?}"));
    let mut found = 0;
    for n in 0..1u32 << 21 {
        let rows = [n & 127, n >> 7 & 127, n >> 14].map(|row| row as u8);
        found += (oracle::is_codeword(1, &symbols(rows)) == YES) as usize;
    }
    tally.check(found == all.len(), || format!("{found} codewords by the test"));
    for rows in &all {
        let stripe = symbols(*rows);
        tally.check(holds(plan, &stripe), || format!("codeword {rows:?}"));
        let (mut data, mut again) = ([0; 15], [0; 21]);
        let answers = (oracle::extract(1, &stripe, &mut data), oracle::encode(1, &data, &mut again));
        tally.check(answers == (DONE, DONE) && again[..] == stripe[..], || format!("codeword {rows:?} and its data"));
    }
    let mut chance = Chance::seeded(13);
    for n in 0..400 {
        let stripe = damage::stripe(plan, CONTENTS[n % CONTENTS.len()], &mut chance);
        let kind = chance.pick(&MARKS);
        let marks = damage::marks(plan, kind, &mut chance);
        let rows = packed(&stripe);
        let agrees = |word: &&[u8; 3]| (0..3).all(|row| (word[row] ^ rows[row]) & !(marks[row] as u8) == 0);
        let listed: Vec<Vec<u8>> = all.iter().filter(agrees).map(|rows| symbols(*rows)).collect();
        match agreeing(plan, &stripe, &marks) {
            Agreeing::None => tally.check(listed.is_empty(), || format!("{rows:?} {marks:?}: some codeword agrees")),
            Agreeing::Some { one, settled } => {
                let same: Vec<bool> = (0..21).map(|at| listed.iter().all(|word| word[at] == listed[0][at])).collect();
                tally.check(listed.contains(&one) && same == settled, || {
                    format!("{rows:?} {marks:?}: which codewords agree")
                });
            }
        }
    }
}

/// A bench at a level with a row, its marks and its learned sums; the other rows are zero.
fn bench_with(plan: &Plan, level: usize, at: usize, row: &[u8], word: u64, sums: &[u8]) -> Vec<u8> {
    let (mut stripe, mut marks) = (vec![0; plan.symbols()], vec![0; plan.rows]);
    stripe[at * plan.columns..][..plan.columns].copy_from_slice(row);
    marks[at] = word;
    let mut bench = vec![0; BENCH_LENGTH];
    oracle::start(plan.number, &stripe, &marks, &mut bench);
    bench[LEVEL] = level as u8;
    bench[sums_of(at, sums.len())].copy_from_slice(sums);
    bench
}

/// Holds a row step to the listed fillings.
fn listed_row(tally: &mut Tally, plan: &Plan, level: usize, row: &[u8], word: u64, sums: &[u8], at: usize) -> Fillings {
    let listed = fillings::of_row(plan, level, row, word, sums);
    let number = match listed {
        Fillings::None => CLASH,
        Fillings::More => TIED,
        Fillings::One if word == 0 => WHOLE,
        Fillings::One => FILLED,
    };
    let before = bench_with(plan, level, at, row, word, sums);
    let mut bench = before.clone();
    let answer = oracle::row_step(&mut bench, at);
    let same = answer == number && (answer == FILLED || bench == before);
    tally.check(same, || format!("plan {}, level {level}, {row:?}, {word:b}, {sums:?}: {answer}, {listed:?}", plan.number));
    listed
}

fn listed_rows(tally: &mut Tally) {
    let mut chance = Chance::seeded(19);
    for (plan, level) in Plan::all().flat_map(|plan| (1..=plan.last()).map(move |level| (plan, level))) {
        // in plan 4 up to two marks, whose fillings are 65,536
        let (most, times) = if plan.width == 8 { (2, 450) } else { (12 / plan.width, 1500) };
        for _ in 0..times {
            let row = chance.bytes_below(plan.q(), plan.columns);
            let count = chance.below(most + 1).min(plan.columns);
            let word = damage::columns(count, plan, &mut chance);
            let mut sums = damage::row_sums(plan, &row)[..plan.sums_to(level)].to_vec();
            if chance.one_in(2) {
                sums = chance.bytes_below(plan.q(), sums.len());
            }
            let at = chance.below(plan.rows);
            listed_row(tally, plan, level, &row, word, &sums, at);
        }
    }
}

/// A row that is tied, and the same with an unmarked symbol changed so that nothing fills; with more marks than sums too.
fn listed_contradictions(tally: &mut Tally) {
    let mut chance = Chance::seeded(20);
    let levels =
        [(1, 2, 7, 20), (2, 1, 12, 20), (2, 2, 13, 20), (2, 3, 17, 20), (5, 1, 12, 20), (5, 2, 15, 20), (5, 3, 20, 2)];
    for (number, level, most, of_many) in levels {
        let plan = Plan::numbered(number).expect("a plan");
        let mut counts = [0; 65];
        for _ in 0..600 {
            let Some((word, column)) = contradiction::tied(plan, level, &mut chance) else { continue };
            let count = word.count_ones() as usize;
            if count > most || count > 12 && counts[count] == of_many {
                continue;
            }
            counts[count] += 1;
            let mut row = chance.bytes_below(2, plan.columns);
            let sums = damage::row_sums(plan, &row)[..plan.sums_to(level)].to_vec();
            let at = chance.below(plan.rows);
            let of_true = listed_row(tally, plan, level, &row, word, &sums, at);
            row[column] ^= 1;
            let of_wrong = listed_row(tally, plan, level, &row, word, &sums, at);
            tally.check((of_true, of_wrong) == (Fillings::More, Fillings::None), || {
                format!("plan {number}, level {level}: {word:b}, {column}: {of_true:?}, {of_wrong:?}")
            });
        }
        let enough = counts.iter().enumerate().any(|(count, &times)| times > 0 && count > plan.sums_to(level));
        tally.check(enough == (number != 1), || format!("plan {number}, level {level}: {counts:?}"));
    }
}

/// Every set of few rows lost, with every kind of stripe; in plan 4 one row, and some sets of two.
fn listed_levels(tally: &mut Tally) {
    let mut chance = Chance::seeded(21);
    for (plan, next) in Plan::all().flat_map(|plan| (2..=plan.last()).map(move |level| (plan, level))) {
        for content in CONTENTS.into_iter().filter(|_| plan.width == 8) {
            let set = chance.different(2, plan.rows).into_iter().map(|row| 1 << row).sum();
            let stripe = damage::stripe(plan, content, &mut chance);
            listed_level(tally, plan, next, &stripe, set);
        }
        for set in (0..1usize << plan.rows).filter(|set| set.count_ones() as usize * plan.width <= 12) {
            for content in CONTENTS {
                let stripe = damage::stripe(plan, content, &mut chance);
                listed_level(tally, plan, next, &stripe, set);
            }
        }
    }
}

/// Holds the step to a level to the listed sums of the lost rows, check by check.
fn listed_level(tally: &mut Tally, plan: &Plan, next: usize, stripe: &[u8], set: usize) {
    let lost: Vec<usize> = (0..plan.rows).filter(|row| set >> row & 1 == 1).collect();
    let marks: Vec<u64> = (0..plan.rows).map(|row| (set >> row & 1) as u64).collect();
    let mut bench = vec![0; BENCH_LENGTH];
    oracle::start(plan.number, stripe, &marks, &mut bench);
    bench[LEVEL] = next as u8 - 1;
    let before = bench.clone();
    let answer = oracle::level_step(&mut bench);
    let rows: Vec<Vec<u8>> = stripe.chunks(plan.columns).map(|row| damage::row_sums(plan, row)).collect();
    let across = |check: usize| rows.iter().map(|sums| sums[check]).collect::<Vec<u8>>();
    let checks = plan.sums_to(next - 1)..plan.sums_to(next);
    let listed: Vec<Fillings> = checks.map(|check| fillings::of_level(plan, next, &across(check), &lost)).collect();
    let number = match () {
        _ if listed.contains(&Fillings::None) => CLASH,
        _ if listed.contains(&Fillings::More) => BLOCKED,
        _ => RAISED,
    };
    let what = || format!("plan {}, to level {next}, {stripe:?}, lost {lost:?}: {answer}, {listed:?}", plan.number);
    tally.check(answer == number && (answer == RAISED || bench == before), what);
    // where the weights are dependent every check has sums
    let dependent = lost.len() > plan.levels[next - 1].weights.len();
    tally.check(listed.iter().all(|&of_check| (of_check == Fillings::More) == dependent), what);
}

fn round_trips(tally: &mut Tally) {
    let mut chance = Chance::seeded(14);
    for plan in Plan::all() {
        for _ in 0..1000 {
            let data = chance.bytes_below(plan.q(), plan.carried());
            let (mut stripe, mut back) = (vec![255; plan.symbols()], vec![255; plan.carried()]);
            let answers = (
                oracle::encode(plan.number, &data, &mut stripe),
                oracle::is_codeword(plan.number, &stripe),
                oracle::extract(plan.number, &stripe, &mut back),
            );
            tally.check(answers == (DONE, YES, DONE) && back == data, || format!("plan {}: data {data:?}", plan.number));
            let place = chance.below(plan.symbols());
            stripe[place] ^= 1 + chance.below(plan.q() - 1) as u8;
            let answers = (oracle::is_codeword(plan.number, &stripe), oracle::extract(plan.number, &stripe, &mut back));
            tally.check(answers == (NO, NO_CODEWORD) && back == data, || {
                format!("plan {}: one error at {place}", plan.number)
            });
        }
    }
}

/// The rounds made step by step on a bench: the answer's number, the report, the symbols and the marks.
fn by_steps(plan: &Plan, stripe: &[u8], marks: &[u64]) -> (usize, [u8; 8], Vec<u8>, Vec<u64>) {
    let mut bench = vec![0; BENCH_LENGTH];
    oracle::start(plan.number, stripe, marks, &mut bench);
    let mut restored = [0; 3];
    let unchanged = |report| (CLASH, report, stripe.to_vec(), marks.to_vec());
    loop {
        let level = bench[1];
        for row in 0..plan.rows {
            match oracle::row_step(&mut bench, row) {
                CLASH => return unchanged([0, 0, 0, 0, 0, IN_A_ROW, row as u8, level]),
                FILLED => restored[level as usize - 1] += 1,
                _ => (),
            }
        }
        match oracle::level_step(&mut bench) {
            CLASH => return unchanged([0, 0, 0, 0, 0, ACROSS, 0, level + 1]),
            RAISED => (),
            _ => break,
        }
    }
    let held = oracle::bench::read(&bench).ok().expect("the bench can be read");
    let left = held.marks.iter().filter(|&&word| word != 0).count() as u8;
    let answer = if left == 0 { RESTORED } else { STUCK };
    (answer, [bench[1], left, restored[0], restored[1], restored[2], 0, 0, 0], held.symbols, held.marks)
}

fn rounds(tally: &mut Tally) {
    let mut chance = Chance::seeded(15);
    for plan in Plan::all() {
        for n in 0..4000 {
            let stripe = damage::stripe(plan, CONTENTS[n % CONTENTS.len()], &mut chance);
            let kind = chance.pick(&MARKS);
            let marks = damage::marks(plan, kind, &mut chance);
            let stripe = damage::any_under_marks(plan, &stripe, &marks, &mut chance);
            let end = mended(plan, &stripe, &marks);
            let steps = by_steps(plan, &stripe, &marks);
            let same = steps == (end.answer, end.report, end.stripe, end.marks);
            tally.check(same, || {
                format!("plan {}, {stripe:?}, {marks:?}: {}, by steps {}", plan.number, end.answer, steps.0)
            });
        }
    }
}

/// Restored is the one codeword that agrees; with Clash none agrees; after Stuck every one that agrees has what is unmarked.
fn meaning_of_answers(tally: &mut Tally) {
    let mut chance = Chance::seeded(16);
    for plan in Plan::all() {
        for n in 0..2000 {
            let stripe = damage::stripe(plan, CONTENTS[n % CONTENTS.len()], &mut chance);
            let kind = chance.pick(&MARKS);
            let marks = damage::marks(plan, kind, &mut chance);
            let end = mended(plan, &stripe, &marks);
            let known = |place: usize| !marked(end.marks[place / plan.columns], place % plan.columns);
            let truth = match (end.answer, agreeing(plan, &stripe, &marks)) {
                (RESTORED, Agreeing::Some { one, settled }) => one == end.stripe && settled.iter().all(|&settled| settled),
                (CLASH, Agreeing::None) | (STUCK, Agreeing::None) => true,
                (STUCK, Agreeing::Some { one, settled }) => {
                    (0..plan.symbols()).all(|place| !known(place) || settled[place] && one[place] == end.stripe[place])
                }
                _ => false,
            };
            tally.check(truth, || format!("plan {}, {stripe:?}, {marks:?}: {}", plan.number, end.answer));
        }
    }
}

/// A codeword whose marks meet the published counts is restored.
fn row_counts(tally: &mut Tally) {
    let mut chance = Chance::seeded(17);
    for plan in Plan::all() {
        for kind in [Marks::None, Marks::One, Marks::ThreeRowsFull, Marks::BelowDistance, Marks::Within, Marks::Edge] {
            for _ in 0..500 {
                let word = damage::stripe(plan, Content::Codeword, &mut chance);
                let marks = damage::marks(plan, kind, &mut chance);
                tally.check(damage::meets_counts(plan, &marks), || format!("plan {}, {kind:?}: {marks:?}", plan.number));
                let stripe = damage::any_under_marks(plan, &word, &marks, &mut chance);
                let end = mended(plan, &stripe, &marks);
                let restored = end.answer == RESTORED && end.stripe == word;
                tally.check(restored, || format!("plan {}, {stripe:?}, {marks:?}: {}", plan.number, end.answer));
            }
        }
        let marks = damage::marks(plan, Marks::Beyond, &mut chance);
        tally.check(!damage::meets_counts(plan, &marks), || format!("plan {}: {marks:?} is not beyond", plan.number));
    }
}

fn files(tally: &mut Tally) {
    let mut chance = Chance::seeded(18);
    for plan in Plan::all() {
        for _ in 0..1000 {
            let kind = chance.pick(&MARKS);
            let marks = damage::marks(plan, kind, &mut chance);
            let stripe = damage::stripe(plan, Content::Random, &mut chance);
            let stripe = damage::any_under_marks(plan, &stripe, &marks, &mut chance);
            let (mut file, mut again) = (vec![7; plan.file_length()], vec![9; plan.file_length()]);
            let (mut symbols, mut words) = (vec![7; plan.symbols()], vec![7; plan.rows]);
            let answers = (
                oracle::write_file(plan.number, &stripe, &marks, &mut file),
                oracle::read_file(&file, &mut symbols, &mut words),
                oracle::write_file(plan.number, &symbols, &words, &mut again),
            );
            let shown = damage::zero_under_marks(plan, &stripe, &marks);
            let same = answers == (DONE, DONE, DONE) && (symbols, words) == (shown, marks) && file == again;
            tally.check(same, || format!("plan {}: file {file:?}", plan.number));
        }
    }
}

/// The decoder reads, writes and prints them as the library did.
fn stored_files(tally: &mut Tally) {
    for stored in &STORED {
        let file = stored.bytes();
        let shown = oracle::text::printed(&file);
        tally.check(shown == stored.text, || format!("{}: {shown:?}", stored.name));
        if stored.marks.is_empty() {
            continue;
        }
        let plan = Plan::numbered(file[0] as usize).expect("a plan");
        let (mut symbols, mut words, mut again) = (vec![7; plan.symbols()], vec![7; plan.rows], vec![7; file.len()]);
        let answers = (
            oracle::read_file(&file, &mut symbols, &mut words),
            oracle::write_file(plan.number, &symbols, &words, &mut again),
        );
        let same = answers == (DONE, DONE) && words == stored.marks && file.ends_with(&symbols) && again == file;
        tally.check(same, || format!("{}: marks {words:x?}", stored.name));
    }
}
