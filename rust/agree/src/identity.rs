//! Proofs of a formula's truth from itself.
use builder::steps::*;
use builder::table::Entry::{And, Atom, False, Implies, Or, Says};
use builder::table::Table;

pub fn identity(table: &Table, formula: u16) -> Vec<u16> {
    let mut steps = vec![];
    push_identity(table, formula, &mut steps);
    steps
}

pub fn push_identity(table: &Table, formula: u16, steps: &mut Vec<u16>) {
    match table.entry(formula) {
        Atom(_) => steps.push(INIT + formula),
        False => steps.push(FALSE_LEFT + formula),
        Implies(a, b) => {
            steps.extend([IMPLIES_RIGHT, IMPLIES_LEFT + formula]);
            push_identity(table, a, steps);
            push_identity(table, b, steps);
        }
        And(a, b) => {
            steps.extend([AND_LEFT + formula, AND_RIGHT]);
            push_identity(table, a, steps);
            push_identity(table, b, steps);
        }
        Or(a, b) => {
            steps.extend([OR_LEFT + formula, OR_RIGHT_FIRST]);
            push_identity(table, a, steps);
            steps.push(OR_RIGHT_SECOND);
            push_identity(table, b, steps);
        }
        Says(_, a) => {
            steps.extend([SAYS_RIGHT, SAYS_LEFT + formula, AFFIRM]);
            push_identity(table, a, steps);
        }
    }
}
