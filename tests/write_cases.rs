//! Writes stripe files to a folder, and beside each the text that `mend` must print for it: N.file and N.text.
//!
//!     write_cases FOLDER

use outside::chance::Chance;
use outside::contradiction;
use outside::damage::{self, Content, Marks};
use outside::oracle::text::printed;
use outside::oracle::{self, Plan};
use std::path::Path;

/// Stripes that between them reach every level, every check and every kind of answer but the refusals.
const KINDS: [(Content, Marks); 8] = [
    (Content::Codeword, Marks::Edge),
    (Content::Codeword, Marks::BelowDistance),
    (Content::FailsOneCheck, Marks::None),
    (Content::FailsAbove(1), Marks::One),
    (Content::FailsAbove(2), Marks::None),
    (Content::Codeword, Marks::Beyond),
    (Content::OneError, Marks::Edge),
    (Content::Codeword, Marks::SomeRows),
];

fn main() -> std::io::Result<()> {
    let folder = std::env::args().nth(1).expect("a folder");
    let mut chance = Chance::seeded(131);
    let kinds = KINDS.iter().flat_map(|&kind| Plan::all().map(move |plan| (plan, kind)));
    let mut cases: Vec<(&Plan, Vec<u8>, Vec<u64>)> = kinds
        .map(|(plan, (content, kind))| {
            (plan, damage::stripe(plan, content, &mut chance), damage::marks(plan, kind, &mut chance))
        })
        .collect();
    cases.extend(Plan::all().filter_map(|plan| contradiction(plan, &mut chance)));
    for (n, (plan, stripe, marks)) in cases.iter().enumerate() {
        let mut file = vec![0; plan.file_length()];
        oracle::write_file(plan.number, stripe, marks, &mut file);
        std::fs::write(Path::new(&folder).join(format!("{n}.file")), &file)?;
        std::fs::write(Path::new(&folder).join(format!("{n}.text")), printed(&file))?;
    }
    Ok(())
}

/// A codeword of a binary plan in which a row is tied at the last level and, a symbol being changed, contradicts itself.
fn contradiction<'a>(plan: &'a Plan, chance: &mut Chance) -> Option<(&'a Plan, Vec<u8>, Vec<u64>)> {
    let (word, column) = (plan.width == 1).then(|| contradiction::tied(plan, plan.last(), chance))??;
    let mut stripe = damage::codeword(plan, chance);
    stripe[column] ^= 1;
    let marks = (0..plan.rows).map(|row| if row == 0 { word } else { 0 }).collect();
    Some((plan, stripe, marks))
}
