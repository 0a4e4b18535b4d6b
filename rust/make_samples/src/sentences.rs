//! The proof of a record that is granted, in sentences (document 02): "one line a step: the step
//! number, the rule's name, the named formula if any, the word for, and the goal". They are made
//! from the sample's own parts; no checker has a part in it.
use crate::in_words;
use crate::record::Record;
use builder::steps::*;
use builder::table::Entry::{self, And, Implies, Or, Says};
use std::fmt::Write;

/// "a truth of one formula or an affirmation of one formula by one principal"; formulas by number.
#[derive(Clone, Copy)]
enum Goal {
    Truth(u16),
    Affirms(u16, u16),
}
use Goal::{Affirms, Truth};

/// "Each step is followed by all of its first premise, then its second": the goals that are open
/// stand on a stack, the next one on top.
pub fn of(record: &Record) -> String {
    let mut text = String::new();
    let mut open = vec![Truth(record.goal)];
    for (number, &step) in record.steps.iter().enumerate() {
        let goal = open.pop().expect("a goal is open at each step of a granted record");
        let rule = in_words::rule(&record.table, step);
        writeln!(text, "{number} {rule} for {}", in_words(record, goal)).unwrap();
        open.extend(premises(record, step, goal).into_iter().rev());
    }
    assert!(open.is_empty(), "a goal is left open");
    text
}

fn in_words(record: &Record, goal: Goal) -> String {
    match goal {
        Truth(a) => in_words::formula(&record.table, a),
        Affirms(principal, a) => {
            format!("p{principal} affirms {}", in_words::formula(&record.table, a))
        }
    }
}

/// The goals of the premises, in their order, of a rule that fits.
fn premises(record: &Record, step: u16, goal: Goal) -> Vec<Goal> {
    // a left rule takes apart what it names, a right rule its goal
    let (Truth(below) | Affirms(_, below)) = goal;
    let taken = if names(step) { part(step) } else { below };
    let entry = Entry::of(record.table[usize::from(taken)]).expect("a granted record's entry");
    match (rule(step), goal, entry) {
        (INIT | FALSE_LEFT, ..) => vec![],
        (AFFIRM, Affirms(_, a), _) => vec![Truth(a)],
        (IMPLIES_RIGHT, _, Implies(_, b)) => vec![Truth(b)],
        (IMPLIES_LEFT, _, Implies(a, _)) => vec![Truth(a), goal],
        (AND_RIGHT, _, And(a, b)) => vec![Truth(a), Truth(b)],
        (AND_LEFT | SAYS_LEFT, ..) => vec![goal],
        (OR_RIGHT_FIRST, _, Or(a, _)) => vec![Truth(a)],
        (OR_RIGHT_SECOND, _, Or(_, b)) => vec![Truth(b)],
        (OR_LEFT, ..) => vec![goal, goal],
        (SAYS_RIGHT, _, Says(principal, a)) => vec![Affirms(principal, a)],
        _ => panic!("step {step} doesn't fit its goal"),
    }
}
