//! Sequents: hypotheses and a goal.

use super::formula::{Formula, Principal, Tree};
use std::rc::Rc;

/// "A goal is a truth of one formula or an affirmation of one formula by one principal": the γ of
/// Figure 1.
#[derive(Clone, Copy)]
pub enum Judgment<'a> {
    True(&'a Formula),
    Affirms(Principal, &'a Formula),
}

/// "Hypotheses are truths and form a set": a list of unlike trees, shared with the sets it was made
/// from.
#[derive(Clone)]
pub struct Hypotheses(Option<Rc<Node>>);

struct Node {
    formula: Tree,
    others: Hypotheses,
}

impl Hypotheses {
    /// The set of a list's statements: "a statement that stands twice is one hypothesis".
    pub fn of(statements: &[Tree]) -> Hypotheses {
        statements.iter().fold(Hypotheses(None), |set, formula| set.with(formula))
    }

    pub fn contains(&self, formula: &Tree) -> bool {
        let mut set = self;
        while let Some(node) = &set.0 {
            if node.formula == *formula {
                return true;
            }
            set = &node.others;
        }
        false
    }

    /// This set with a formula added, unless it is there already.
    fn with(&self, formula: &Tree) -> Hypotheses {
        if self.contains(formula) {
            return self.clone();
        }
        Hypotheses(Some(Rc::new(Node { formula: formula.clone(), others: self.clone() })))
    }
}

/// Γ ⟹ γ.
#[derive(Clone)]
pub struct Sequent<'a> {
    pub hypotheses: Hypotheses,
    pub goal: Judgment<'a>,
}

impl<'a> Sequent<'a> {
    /// The same goal, with a formula added to the hypotheses.
    pub fn with(&self, formula: &Tree) -> Sequent<'a> {
        Sequent { hypotheses: self.hypotheses.with(formula), goal: self.goal }
    }

    /// The same hypotheses with another goal.
    pub fn to(&self, goal: Judgment<'a>) -> Sequent<'a> {
        Sequent { hypotheses: self.hypotheses.clone(), goal }
    }
}
