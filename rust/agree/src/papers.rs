//! What papers alone can't give (02): "no atom and not false has a proof of any size, and an or has
//! a proof only if one of its sides has". So no record of papers alone is granted with an atom or
//! false as its goal, and where the goal is an or, the steps begin with one of its right rules.
use crate::compare::{Answer, Disagreement};
use crate::counts;
use crate::given::Given;
use crate::parts::{Kind, Parts};
use builder::steps::{rule, OR_RIGHT_FIRST, OR_RIGHT_SECOND};
use builder::table::Entry::{self, Atom, False, Or};

/// What a record asks for by its goal and its first step.
#[derive(Clone, Copy, Debug, PartialEq, Eq)]
pub enum Asked {
    Atom,
    False,
    /// An or, and the steps don't begin with one of its right rules.
    OrByNoRight,
    OrByFirst,
    OrBySecond,
    Else,
}

/// What a record of papers alone asks for; none where some statement is no paper. The numbers of the
/// statements and of the goal are in the table, and there is a step.
pub fn asked(parts: &Parts) -> Option<Asked> {
    let are_papers = parts.first.iter().all(|&statement| parts.speaker(statement).is_some());
    are_papers.then(|| match Entry::of(parts.table[usize::from(parts.goal)]) {
        Some(Atom(_)) => Asked::Atom,
        Some(False) => Asked::False,
        Some(Or(..)) => match rule(parts.steps[0]) {
            OR_RIGHT_FIRST => Asked::OrByFirst,
            OR_RIGHT_SECOND => Asked::OrBySecond,
            _ => Asked::OrByNoRight,
        },
        _ => Asked::Else,
    })
}

/// Whether papers alone can give this.
fn can_be_had(asked: Asked) -> bool {
    !matches!(asked, Asked::Atom | Asked::False | Asked::OrByNoRight)
}

/// Looks at a file for which both checkers gave these answers. 8 is for a proof, too.
pub fn compared(given: &Given, answers: &[(Kind, Answer)]) -> Result<Counts, Box<Disagreement>> {
    let mut counts = Counts::default();
    for (_, answer) in answers.iter().filter(|(kind, _)| *kind == Kind::Record) {
        let is_proof = match answer {
            Answer::Refused { number: 1..=7, .. } => continue,
            Answer::Refused { number, .. } => *number == 8,
            _ => true,
        };
        let parts = Parts::of_record(&given.file);
        let Some(asked) = asked(&parts) else { continue };
        if is_proof && !can_be_had(asked) {
            let call = format!("papers alone and {asked:?} as goal");
            return Err(Disagreement::new(given, call, [answer, answer]));
        }
        counts.count(which(asked, is_proof));
        if is_proof && parts.first.is_empty() {
            counts.count(3);
        }
    }
    Ok(counts)
}

/// How many records of papers alone asked for what, with a proof or without one.
pub type Counts = counts::Counts<{ ASKED.len() }>;

pub const ASKED: [&str; 9] = [
    "proved, an or, first side",
    "proved, an or, second side",
    "proved, else",
    "proved, without a statement",
    "refused, an atom",
    "refused, false",
    "refused, an or, neither side",
    "refused, an or, either side",
    "refused, else",
];

/// The place in this list.
fn which(asked: Asked, is_proof: bool) -> usize {
    match (asked, is_proof) {
        (Asked::OrByFirst, true) => 0,
        (Asked::OrBySecond, true) => 1,
        (_, true) => 2,
        (Asked::Atom, _) => 4,
        (Asked::False, _) => 5,
        (Asked::OrByNoRight, _) => 6,
        (Asked::OrByFirst | Asked::OrBySecond, _) => 7,
        (Asked::Else, _) => 8,
    }
}
