//! Mending in one call, over every kind of marks and of stripe, held to the independent decoder and to what the
//! requirements say of each answer. For the latter all checks of the stripe are taken at once, and no rounds.

use crate::calls::{Call, Outcome};
use crate::ledger::{differ, Ledger};
use outside::chance::Chance;
use outside::damage::{self, Content, CONTENTS, MARKS};
use outside::oracle::answers::*;
use outside::oracle::plan::marked;
use outside::oracle::stripe::{agreeing, Agreeing};
use outside::oracle::Plan;
use std::collections::BTreeSet;

const CALLS_OF_A_KIND: usize = 60;

/// Ends that the cases came to: the answer, and the level and the place where these say more.
type Ends = BTreeSet<(usize, u8, u8)>;

pub fn calls(ledger: &mut Ledger) {
    let mut chance = Chance::seeded(41);
    for plan in Plan::all() {
        let mut ends = Ends::new();
        for word in damage::words_failing_one_check(plan) {
            let end = one_call(ledger, plan, Content::FailsOneCheck, word, &vec![0; plan.rows], &mut chance);
            ledger.demand(end.0 == CLASH, "a check is not looked at", &Call::is_codeword(plan.number, word));
        }
        for kind in MARKS {
            for content in CONTENTS {
                for _ in 0..CALLS_OF_A_KIND {
                    let stripe = damage::stripe(plan, content, &mut chance);
                    let marks = damage::marks(plan, kind, &mut chance);
                    ends.insert(one_call(ledger, plan, content, &stripe, &marks, &mut chance));
                }
            }
        }
        if ends != every_end(plan) {
            differ(&format!("plan {}: the cases do not come to every end of mending, only to {ends:?}", plan.number));
        }
    }
}

/// Restored at the last level, Stuck at each, Clash in a row at each, and Clash across rows at each from 2 on. Two of these
/// can't be: in plans 2 and 5, levels 2 and 3 have one total each, so that the step to level 3 is never Blocked; and in plan 3 a
/// row that is tied at level 1 has three marks or more, for three checks at level 2, so that it always has a filling there. In plan 4
/// there are four checks at level 2, and two rows that are tied there block the step to level 3: every end can be.
fn every_end(plan: &Plan) -> Ends {
    let last = plan.last() as u8;
    let stuck = (1..=last).map(|level| (STUCK, level, 0));
    let in_rows = (1..=last).map(|level| (CLASH, level, IN_A_ROW));
    let across = (2..=last).map(|level| (CLASH, level, ACROSS));
    let can_be = |&end: &(usize, u8, u8)| match plan.number {
        2 | 5 => end != (STUCK, 2, 0),
        3 => end != (CLASH, 2, IN_A_ROW),
        _ => true,
    };
    stuck.chain(in_rows).chain(across).chain([(RESTORED, last, 0)]).filter(can_be).collect()
}

/// One call of mending, and the end that it came to.
fn one_call(
    ledger: &mut Ledger,
    plan: &Plan,
    content: Content,
    stripe: &[u8],
    marks: &[u64],
    chance: &mut Chance,
) -> (usize, u8, u8) {
    let lent = damage::any_under_marks(plan, stripe, marks, chance);
    let call = Call::mend(plan.number, &lent, marks, &chance.bytes(REPORT_LENGTH));
    let outcome = ledger.hold(&call);
    ledger.demand(means_what_it_says(plan, &lent, marks, &outcome), "the answer is not true of the codewords", &call);
    ledger.demand(report_adds_up(plan, marks, &outcome), "the report does not add up", &call);
    if content == Content::Codeword && damage::meets_counts(plan, marks) {
        let restored = outcome.number == RESTORED && outcome.buffers[0].bytes() == stripe;
        ledger.demand(restored, "a codeword within the published counts is not restored", &call);
    }
    if content == Content::Codeword {
        ledger.demand(outcome.number != CLASH, "a codeword clashes", &call);
    }
    if outcome.number == RESTORED {
        let test = Call::is_codeword(plan.number, outcome.buffers[0].bytes());
        let answer = ledger.hold(&test).number;
        ledger.demand(answer == YES, "what was restored is no codeword", &test);
    }
    let report = outcome.buffers[2].bytes();
    (outcome.number, report[if outcome.number == CLASH { 7 } else { 0 }], report[5])
}

/// Restored is the one codeword that agrees. With Clash none agrees. After Stuck every codeword that agrees has the
/// symbols that are now unmarked.
fn means_what_it_says(plan: &Plan, stripe: &[u8], marks: &[u64], outcome: &Outcome) -> bool {
    let (symbols, words) = (outcome.buffers[0].bytes(), outcome.buffers[1].words());
    let known = |place: usize| !marked(words[place / plan.columns], place % plan.columns);
    match (outcome.number, agreeing(plan, stripe, marks)) {
        (RESTORED, Agreeing::Some { one, settled }) => one == symbols && settled.into_iter().all(|settled| settled),
        (STUCK, Agreeing::Some { one, settled }) => {
            (0..plan.symbols()).all(|place| !known(place) || settled[place] && one[place] == symbols[place])
        }
        (STUCK | CLASH, Agreeing::None) => true,
        _ => false,
    }
}

/// Rows restored and rows left are the rows that had marks, and what is left is what still has some.
fn report_adds_up(plan: &Plan, marks: &[u64], outcome: &Outcome) -> bool {
    let with_marks = |words: &[u64]| words.iter().filter(|&&word| word != 0).count();
    let report = outcome.buffers[2].bytes();
    let [level, left, restored @ ..] = [0, 1, 2, 3, 4].map(|at| report[at] as usize);
    match outcome.number {
        CLASH => report[..5] == [0; 5] && matches!(report[5], IN_A_ROW | ACROSS),
        _ => {
            left == with_marks(outcome.buffers[1].words())
                && left + restored.iter().sum::<usize>() == with_marks(marks)
                && restored[level..].iter().all(|&rows| rows == 0)
                && (outcome.number == STUCK || level == plan.last())
                && report[5..] == [0; 3]
        }
    }
}
