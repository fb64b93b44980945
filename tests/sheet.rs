//! The bench sheet of the requirements, and the example file, as tables.

use crate::oracle::Plan;

/// What the sheet says of a case. Where it is silent there is nothing to hold.
#[derive(Default)]
pub struct Expected {
    pub answer: usize,
    pub level: Option<u8>,
    pub left: Option<u8>,
    pub rows: Option<Vec<u8>>,
    /// The place of a Clash: 1 a row, 2 across; the row; the level.
    pub clash: Option<(u8, u8, u8)>,
}

/// A case of mending: the symbols that are not zero, and the marks, as rows with their columns.
pub struct Case {
    pub name: &'static str,
    pub plan: usize,
    pub ones: Vec<(usize, usize)>,
    pub marks: Vec<(usize, Vec<usize>)>,
    pub expected: Expected,
}

impl Case {
    pub fn stripe(&self) -> Vec<u8> {
        let plan = Plan::numbered(self.plan).expect("a plan");
        let mut stripe = vec![0; plan.symbols()];
        self.ones.iter().for_each(|&(row, column)| stripe[row * plan.columns + column] = 1);
        stripe
    }

    pub fn mark_words(&self) -> Vec<u64> {
        let plan = Plan::numbered(self.plan).expect("a plan");
        let mut marks = vec![0; plan.rows];
        for (row, columns) in &self.marks {
            marks[*row] = columns.iter().map(|column| 1 << column).sum();
        }
        marks
    }

    /// Holds an answer of mending and its report to the sheet.
    pub fn is_met_by(&self, answer: usize, report: &[u8]) -> bool {
        let expected = &self.expected;
        answer == expected.answer
            && expected.level.is_none_or(|level| report[0] == level)
            && expected.left.is_none_or(|left| report[1] == left)
            && expected.rows.as_ref().is_none_or(|rows| report[2..].starts_with(rows))
            && expected.clash.is_none_or(|(place, row, level)| report[5..] == [place, row, level])
    }
}

fn restored(level: Option<u8>, rows: &[u8]) -> Expected {
    Expected { answer: 0, level, left: Some(0), rows: Some(rows.to_vec()), ..Expected::default() }
}

fn stuck(level: u8, left: u8) -> Expected {
    Expected { answer: 1, level: Some(level), left: Some(left), ..Expected::default() }
}

fn clash(place: u8, row: u8, level: u8) -> Expected {
    Expected { answer: 2, clash: Some((place, row, level)), ..Expected::default() }
}

fn case(
    name: &'static str,
    plan: usize,
    ones: &[(usize, usize)],
    marks: &[(usize, Vec<usize>)],
    expected: Expected,
) -> Case {
    Case { name, plan, ones: ones.to_vec(), marks: marks.to_vec(), expected }
}

/// The cases of mending. Those that name no columns have columns from 0 on; `sheet_cases.rs` tries others too.
pub fn cases() -> Vec<Case> {
    let first = |count: usize| (0..count).collect::<Vec<usize>>();
    vec![
        case("plan 1, no marks", 1, &[], &[], restored(Some(2), &[0, 0])),
        case(
            "plan 1, the example file",
            1,
            &[(0, 0), (1, 5)],
            &[(0, vec![1]), (1, vec![0, 2, 4]), (2, vec![2])],
            restored(Some(2), &[2, 1]),
        ),
        case("plan 1, row 1 marked at 2, 4, 5, 6", 1, &[], &[(1, vec![2, 4, 5, 6])], restored(None, &[0, 1])),
        case("plan 1, row 1 marked at 0, 1, 3, 6", 1, &[], &[(1, vec![0, 1, 3, 6])], stuck(2, 1)),
        case("plan 1, the same with column 2 set", 1, &[(1, 2)], &[(1, vec![0, 1, 3, 6])], clash(1, 1, 2)),
        case("plan 1, rows 0 and 1 with two marks each", 1, &[], &[(0, first(2)), (1, first(2))], stuck(1, 2)),
        case("plan 1, everything marked", 1, &[], &[(0, first(7)), (1, first(7)), (2, first(7))], stuck(1, 3)),
        case("plan 1, row 0 is 1000000", 1, &[(0, 0)], &[], clash(1, 0, 1)),
        case("plan 1, row 0 is 1100000", 1, &[(0, 0), (0, 1)], &[], clash(2, 0, 2)),
        case("plan 3, rows 0 and 1 with 3 and 7 marks", 3, &[], &[(0, first(3)), (1, first(7))], restored(None, &[0, 1, 1])),
        case("plan 3, rows 0 and 1 with 3 and 8 marks", 3, &[], &[(0, first(3)), (1, first(8))], stuck(3, 1)),
        case("plan 3, rows 0 and 1 with 4 and 4 marks", 3, &[], &[(0, first(4)), (1, first(4))], stuck(2, 2)),
        case("plan 3, three rows of 3 marks", 3, &[], &[(0, first(3)), (1, first(3)), (2, first(3))], stuck(1, 3)),
    ]
}

/// Cases of plan 4, zero stripe, with so many marks in the rows from 0 on. They are not on the sheet, and follow from the plan's row
/// counts as those of plan 3 do.
pub fn cases_of_bytes() -> Vec<Case> {
    let of_counts = |name, counts: &[usize], expected| {
        let marks: Vec<(usize, Vec<usize>)> = counts.iter().map(|&count| (0..count).collect()).enumerate().collect();
        case(name, 4, &[], &marks, expected)
    };
    vec![
        of_counts("plan 4, 3, 4 and 9 marks", &[3, 4, 9], restored(None, &[0, 2, 1])),
        of_counts("plan 4, 3, 4 and 10 marks", &[3, 4, 10], stuck(3, 1)),
        of_counts("plan 4, 5 and 5 marks", &[5, 5], stuck(2, 2)),
        of_counts("plan 4, four rows of 3 marks", &[3; 4], stuck(1, 4)),
    ]
}

/// The example file, and what `mend` prints for it.
pub const EXAMPLE_FILE: [u8; 41] = [
    0x01, 0x03, 0x07, 0x00, 0x08, 0x00, 0x14, 0x00, // header
    0x02, 0x00, 0x00, 0x00, 0x15, 0x00, 0x00, 0x00, 0x04, 0x00, 0x00, 0x00, // marks
    0x01, 0x00, 0x00, 0x00, 0x00, 0x00, 0x00, // row 0
    0x00, 0x00, 0x00, 0x00, 0x00, 0x01, 0x00, // row 1
    0x00, 0x00, 0x00, 0x00, 0x00, 0x00, 0x00, // row 2
];
pub const EXAMPLE_TEXT: &str = "plan 1 answer 0 level 2 left 0 rows 2 1\n1100000\n0000110\n0000000\n";

/// Data 1 and then fourteen zeros, and the stripe that carries them in plan 1.
pub const ENCODED_DATA: [u8; 15] = [1, 0, 0, 0, 0, 0, 0, 0, 0, 0, 0, 0, 0, 0, 0];
pub const ENCODED_STRIPE: [u8; 21] = [1, 0, 0, 0, 0, 0, 1, 0, 0, 0, 0, 0, 0, 0, 0, 0, 1, 0, 1, 0, 0];

/// A file of plan 4 that is stuck at once: four rows have three marks each, and the first of them holds bytes of its own.
pub fn file_of_bytes() -> Vec<u8> {
    let header = [4, 12, 24, 0, 8, 0, 56, 0];
    let marks = [[7, 0, 0, 0]; 4].concat();
    let symbols = [0, 0, 0, 0x0f, 0xa0, 0xff];
    let mut file = [&header[..], &marks, &[0; 32], &symbols].concat();
    file.resize(344, 0);
    file
}

/// What `mend` prints for it.
pub fn text_of_bytes() -> String {
    let marked = format!("??????{}\n", "00".repeat(21));
    let first = format!("??????0fa0ff{}\n", "00".repeat(18));
    let others = format!("{}\n", "00".repeat(24)).repeat(8);
    format!("plan 4 answer 1 level 1 left 4 rows 0 0 0\n{first}{}{others}", marked.repeat(3))
}
