//! Formulas: the propositions of 003 without quantifiers, with and and or added.

use std::ops::Deref;
use std::rc::Rc;

/// An atom's number. No formula number and no principal number is one.
#[derive(Clone, Copy, PartialEq, Eq)]
pub struct Atom(pub u16);

/// A principal's number: "003 separates principals from propositions."
#[derive(Clone, Copy, PartialEq, Eq)]
pub struct Principal(pub u16);

/// "A formula is a finite tree of the kinds above", in the order of the kinds.
#[derive(PartialEq, Eq)]
pub enum Formula {
    Atom(Atom),
    False,
    Implies(Tree, Tree),
    And(Tree, Tree),
    Or(Tree, Tree),
    Says(Principal, Tree),
}

/// A shared formula and the height of its tree; it may have far too many nodes to walk. `==` is
/// equality of trees: it compares the heights, which tells most unlike trees apart at once, then
/// the pointers (`Rc` of an `Eq` type does), then the formulas. In a table that passed test 5
/// unlike entries are unlike trees, so this goes down one path at most.
#[derive(Clone, PartialEq, Eq)]
pub struct Tree {
    height: usize,
    formula: Rc<Formula>,
}

impl Tree {
    pub fn new(formula: Formula) -> Tree {
        let height = match &formula {
            Formula::Atom(_) | Formula::False => 0,
            Formula::Implies(a, b) | Formula::And(a, b) | Formula::Or(a, b) => {
                1 + a.height.max(b.height)
            }
            Formula::Says(_, a) => 1 + a.height,
        };
        Tree { height, formula: Rc::new(formula) }
    }
}

impl Deref for Tree {
    type Target = Formula;

    fn deref(&self) -> &Formula {
        &self.formula
    }
}
