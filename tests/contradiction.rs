//! Tied rows of the binary plans that contradict themselves: the marks, and the unmarked symbol that is wrong.
//!
//! They are built from combinations of a row's checks. Where no marked column takes part in a combination, the unmarked
//! symbols alone decide its sum: change one that takes part, and no filling gives the row's sums. All combinations are
//! listed, so nothing is solved here.

use crate::chance::Chance;
use crate::oracle::plan::{marked, share};
use crate::oracle::Plan;

/// For each column the checks of the levels from 1 to this one in which it takes part, a bit for each.
fn parts(plan: &Plan, level: usize) -> Vec<u32> {
    let sums = |column| (1..=level).flat_map(move |level| share(plan.number, level, column, 1));
    let word = |column| sums(column).enumerate().map(|(check, part)| (part as u32) << check).sum();
    (0..plan.columns).map(word).collect()
}

/// Whether a column with these parts takes part in a combination of checks.
fn takes_part(part: u32, checks: u32) -> bool {
    (part & checks).count_ones() % 2 == 1
}

/// The combinations of the checks of the levels from 1 to this one that the unmarked symbols decide, the empty one too.
fn decided(plan: &Plan, level: usize, word: u64) -> Vec<u32> {
    let parts = parts(plan, level);
    let lost: Vec<u32> = (0..plan.columns).filter(|&column| marked(word, column)).map(|column| parts[column]).collect();
    let all = 0..1 << plan.sums_to(level);
    all.filter(|&checks| lost.iter().all(|&part| !takes_part(part, checks))).collect()
}

/// The least level at which a row with these marks has no filling once the unmarked symbol in a column is changed.
pub fn level_of(plan: &Plan, word: u64, column: usize) -> Option<usize> {
    let is_seen = |level: usize| {
        let part = parts(plan, level)[column];
        decided(plan, level, word).into_iter().any(|checks| takes_part(part, checks))
    };
    (1..=plan.last()).find(|&level| is_seen(level))
}

/// Columns by chance whose parts add up to nothing, as few as can be: all but one, and the one that they add up to.
fn light_word(plan: &Plan, level: usize, chance: &mut Chance) -> u64 {
    let parts = parts(plan, level);
    let least = plan.counts[level - 1].0;
    loop {
        let columns = chance.different(least - 1, plan.columns);
        let word = columns.iter().fold(0u64, |word, column| word | 1 << column);
        let sum = columns.iter().fold(0, |sum, &column| sum ^ parts[column]);
        if let Some(last) = (0..plan.columns).find(|&column| !marked(word, column) && parts[column] == sum) {
            return word | 1 << last;
        }
    }
}

/// A row's marks, whose columns are dependent at a level, and an unmarked column: where its symbol is changed the row has no
/// filling. None where every combination of the checks has a marked column, as at level 1 of plan 1.
pub fn tied(plan: &Plan, level: usize, chance: &mut Chance) -> Option<(u64, usize)> {
    let light = light_word(plan, level, chance);
    let combinations: Vec<u32> = decided(plan, level, light).into_iter().filter(|&checks| checks != 0).collect();
    if combinations.is_empty() {
        return None;
    }
    let (checks, parts) = (chance.pick(&combinations), parts(plan, level));
    let (open, closed): (Vec<usize>, Vec<usize>) = (0..plan.columns).partition(|&column| takes_part(parts[column], checks));
    // the light word, and any number of the other columns that take no part
    let more = closed.iter().filter(|&&column| !marked(light, column)).count();
    let (order, count) = (chance.different(closed.len(), closed.len()), chance.below(more + 1));
    let others = order.iter().map(|&at| closed[at]).filter(|&column| !marked(light, column));
    let word = others.take(count).fold(light, |word, column| word | 1 << column);
    Some((word, chance.pick(&open)))
}
