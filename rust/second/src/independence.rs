//! Can this principal matter? (02) "For a principal K the test says independent exactly when no
//! says-formula of K stands on the proving side of the goal or of any statement, leaving out
//! statements that are themselves K says something."

use super::formula::{Formula, Principal, Tree};
use super::record::Record;
use super::refusal::{refuse_if, Refusal};
use std::collections::HashSet;
use std::ptr;

/// "Atoms and principals are numbered 0 to 4,095." (01)
const LAST_PRINCIPAL: u16 = 4095;

/// Whether the answer is independent. "The test reads a record but not its steps, so 1 to 7 apply."
pub fn independent_of(file: &[u8], principal: u16) -> Result<bool, Refusal> {
    // Tests 1 to 7.
    let record = Record::read(file)?;
    // Test 17: "after 7, the principal's number is above 4,095; place 0".
    refuse_if(principal > LAST_PRINCIPAL, 17, 0)?;
    let k = Principal(principal);
    let is_own = |statement: &Tree| matches!(**statement, Formula::Says(by, _) if by == k);
    let mut others = record.statements.iter().filter(|statement| !is_own(statement));
    // "a goal stands on the proving side, a statement on the given side"
    let mut search = Search { k, walked: HashSet::new() };
    let found = search.finds(&record.goal, Side::Proving)
        || others.any(|statement| search.finds(statement, Side::Given));
    Ok(!found)
}

#[derive(Clone, Copy, PartialEq, Eq, Hash)]
enum Side {
    Proving,
    Given,
}

impl Side {
    fn other(self) -> Side {
        match self {
            Side::Proving => Side::Given,
            Side::Given => Side::Proving,
        }
    }
}

/// The search for a says-formula of K on the proving side. Formulas share their operands and may
/// have far too many to walk, so each is walked once on either side.
struct Search {
    k: Principal,
    walked: HashSet<(*const Formula, Side)>,
}

impl Search {
    /// Whether there is one in a formula that stands on this side; false where it was walked on
    /// this side before, since the search ends with the first that is found. "Operands keep the
    /// side, but the left of an implies takes the other."
    fn finds(&mut self, formula: &Formula, side: Side) -> bool {
        if !self.walked.insert((ptr::from_ref(formula), side)) {
            return false;
        }
        match formula {
            Formula::Atom(_) | Formula::False => false,
            Formula::Implies(a, b) => self.finds(a, side.other()) || self.finds(b, side),
            Formula::And(a, b) | Formula::Or(a, b) => self.finds(a, side) || self.finds(b, side),
            Formula::Says(by, a) => (*by == self.k && side == Side::Proving) || self.finds(a, side),
        }
    }
}
