//! What independent promises (02): "each proof of the goal is also one, step by step, after K's
//! statements are taken out or exchanged for other statements of K". So the same words get the same
//! answer, with the same signers, and K is none of them.
use crate::compare::{self, Answer, Disagreement};
use crate::counts;
use crate::given::Given;
use crate::independence::{by_proved, drawn};
use crate::parts::{Kind, Parts};
use builder::random::Random;
use builder::table::Entry::{self, And, Implies, Or, Says};

/// What happens to K's papers.
#[derive(Clone, Copy, Debug, PartialEq, Eq)]
enum Change {
    TakenOut,
    Exchanged,
    Added,
}
use Change::{Added, Exchanged, TakenOut};

/// The record after each change of K's papers: none of them stands; or each is another formula of
/// K's, which is in the table and no statement, and mostly there is one more; or, where there are
/// none, one is added.
fn changed(parts: &Parts, k: u16, random: &mut Random) -> Vec<(Change, Parts)> {
    let is_own = |number: &u16| parts.speaker(*number) == Some(k);
    let formulas = 0..parts.table.len() as u16;
    let unstated: Vec<u16> =
        formulas.filter(|number| is_own(number) && !parts.first.contains(number)).collect();
    let has_paper = parts.first.iter().any(is_own);
    let has_room = parts.first.len() < 256;
    let with = |change, list| (change, Parts { first: list, ..parts.clone() });
    let mut changed = vec![];
    if has_paper {
        let others = parts.first.iter().copied().filter(|number| !is_own(number));
        changed.push(with(TakenOut, others.collect()));
    }
    if !unstated.is_empty() && (has_paper || has_room) {
        let mut list = parts.first.clone();
        for paper in list.iter_mut().filter(|number| is_own(number)) {
            *paper = random.pick(&unstated);
        }
        if has_room && (!has_paper || random.below(3) > 0) {
            list.insert(random.below(list.len() + 1), random.pick(&unstated));
        }
        changed.push(with(if has_paper { Exchanged } else { Added }, list));
    }
    changed
}

/// Whether K says something in the goal or in a statement, on either side.
fn is_heard(parts: &Parts, k: u16) -> bool {
    let mut stands = vec![false; parts.table.len()];
    for &number in parts.first.iter().chain([&parts.goal]) {
        stands[usize::from(number)] = true;
    }
    // operands have lower numbers
    for number in (0..stands.len()).rev() {
        let operands = match Entry::of(parts.table[number]) {
            _ if !stands[number] => continue,
            Some(Says(by, _)) if by == k => return true,
            Some(Says(_, a)) => [a, a],
            Some(Implies(a, b) | And(a, b) | Or(a, b)) => [a, b],
            _ => continue,
        };
        operands.into_iter().for_each(|operand| stands[usize::from(operand)] = true);
    }
    false
}

/// Whether an answer after a change of papers is as promised where this one was before: the same,
/// but that wrong steps may be refused for another reason.
fn is_promised(before: &Answer, after: &Answer) -> bool {
    match before {
        Answer::Refused { number: 9..=15, .. } => {
            matches!(after, Answer::Refused { number: 9..=15, .. })
        }
        _ => before == after,
    }
}

/// Looks whether both checkers keep the promise to a record that is independent of K and had this
/// answer. Of refused records and long ones only some are looked at.
pub fn kept(given: &Given, before: &Answer, k: u16) -> Result<Counts, Box<Disagreement>> {
    let mut counts = Counts::default();
    if matches!(before, Answer::Granted(signers) if signers.contains(&k)) {
        let call = format!("independent of {k}, who signs");
        return Err(Disagreement::new(given, call, [before, before]));
    }
    let random = &mut drawn(given);
    let is_short_grant = matches!(before, Answer::Granted(_)) && given.file.len() < 10_000;
    if !is_short_grant && !random.one_in(4) {
        return Ok(counts);
    }
    for (change, parts) in changed(&Parts::of_record(&given.file), k, random) {
        let file = parts.bytes();
        let checks = [compare::proved, compare::second];
        let after = checks.map(|check| check(&file, Kind::Record, given.room));
        let is_still = by_proved(&file, k) == Ok(true);
        if !is_still || !after.iter().all(|after| is_promised(before, after)) {
            let was = format!("{before:?} and independent of {k} before papers were {change:?}");
            let call = format!("{was}, independent then: {is_still}");
            return Err(Disagreement::new(&Given { file, ..given.clone() }, call, after));
        }
        let which = which(before, change);
        counts.count(which);
        if which == 0 && is_heard(&parts, k) {
            counts.count(1);
        }
    }
    Ok(counts)
}

/// How many records kept the promise.
pub type Counts = counts::Counts<{ KEPT.len() }>;

pub const KEPT: [&str; 5] = [
    "granted, papers taken out",
    "of them heard elsewhere",
    "granted, papers exchanged",
    "granted, a paper added",
    "refused, any of these",
];

/// The place of a kept promise in their list.
fn which(before: &Answer, change: Change) -> usize {
    match (before, change) {
        (Answer::Granted(_), TakenOut) => 0,
        (Answer::Granted(_), Exchanged) => 2,
        (Answer::Granted(_), Added) => 3,
        _ => 4,
    }
}
