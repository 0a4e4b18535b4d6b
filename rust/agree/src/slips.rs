//! Wrong readings of the rules, each followed once in a derivation whose other steps are right: 01,
//! "Errors my classes make", and others. What comes after the slip is written as if the slip were
//! right.
use crate::derivations::Judgment::{self, Affirms, Truth};
use crate::derivations::{Grower, Slip};
use crate::random_table::RandomTable;
use builder::random::Random;
use builder::steps::*;
use builder::table::Entry::{And, Atom, False, Implies, Or, Says};

const SLIPS: [Slip; 13] = [
    init_on_affirmation,
    says_left_on_truth,
    anothers_word,
    false_said,
    affirmation_kept,
    carried,
    said_is_true,
    other_side,
    premises_swapped,
    affirm_on_truth,
    affirm_left_out,
    right_on_affirmation,
    or_as_and,
];

pub fn any(random: &mut Random) -> Slip {
    random.pick(&SLIPS)
}

/// A goal for a derivation with a slip: more often one that leads to an affirmation, where most
/// slips are.
pub fn goal(random: &mut Random, table: &mut RandomTable, levels: usize) -> u16 {
    let formula = table.formula(random, levels);
    if random.one_in(3) {
        return formula;
    }
    table.number(Says(random.name(), formula))
}

/// "Init on an affirmation; affirm comes first."
fn init_on_affirmation(at: &mut Grower, goal: Judgment, _: usize, _: usize) -> bool {
    let Affirms(_, a) = goal else { return false };
    let Atom(_) = at.table.entry(a) else { return false };
    at.ensure(a);
    at.step(INIT + a);
    true
}

/// "Code 11 on a truth, as in C."
fn says_left_on_truth(at: &mut Grower, goal: Judgment, steps: usize, depth: usize) -> bool {
    let Truth(_) = goal else { return false };
    let (principal, a) = (at.random.name(), at.some_formula());
    at.says_left(principal, a, goal, steps, depth)
}

/// Says left for one principal with another's word.
fn anothers_word(at: &mut Grower, goal: Judgment, steps: usize, depth: usize) -> bool {
    let Affirms(principal, formula) = goal else { return false };
    let a = if at.random.one_in(2) { formula } else { at.some_formula() };
    at.says_left(principal ^ 1, a, goal, steps, depth)
}

/// False, said by one, frees everything.
fn false_said(at: &mut Grower, _: Judgment, _: usize, _: usize) -> bool {
    let (other, falsehood) = (at.random.name(), at.table.number(False));
    let said = at.table.number(Says(other, falsehood));
    at.ensure(said);
    if at.random.one_in(2) {
        at.step(SAYS_LEFT + said);
        at.step(FALSE_LEFT + falsehood);
    } else {
        at.step(FALSE_LEFT + said);
    }
    true
}

/// "An implies-left whose first premise keeps the affirmation."
fn affirmation_kept(at: &mut Grower, goal: Judgment, steps: usize, depth: usize) -> bool {
    let Affirms(principal, _) = goal else { return false };
    let (named, a, b) = at.held_implies();
    at.step(IMPLIES_LEFT + named);
    at.grow_short(Affirms(principal, a), depth + 1);
    at.add(b);
    at.grow_about(goal, steps - 1, depth + 1)
}

/// "carrying an added one into the second premise": an or whose first side is the goal's formula,
/// so that the second premise finds it held.
fn carried(at: &mut Grower, goal: Judgment, steps: usize, depth: usize) -> bool {
    let (Truth(a) | Affirms(_, a)) = goal;
    let b = at.some_formula();
    let named = at.table.number(Or(a, b));
    at.ensure(named);
    at.step(OR_LEFT + named);
    at.add(a);
    at.grow_short(goal, depth + 1);
    at.add(b);
    at.grow_about(goal, steps - 1, depth + 1)
}

/// What is said is taken as true.
fn said_is_true(at: &mut Grower, goal: Judgment, steps: usize, depth: usize) -> bool {
    let (Truth(a) | Affirms(_, a)) = goal;
    let said = at.table.number(Says(at.random.name(), a));
    at.ensure(said);
    at.add(a);
    at.grow_about(goal, steps - 1, depth)
}

/// Or right, and then the other side.
fn other_side(at: &mut Grower, goal: Judgment, steps: usize, depth: usize) -> bool {
    let Truth(or) = goal else { return false };
    let Or(a, b) = at.table.entry(or) else { return false };
    let (rule, other) =
        if at.random.one_in(2) { (OR_RIGHT_FIRST, b) } else { (OR_RIGHT_SECOND, a) };
    at.step(rule);
    at.grow_about(Truth(other), steps - 1, depth + 1)
}

/// The second premise before the first, of and right where the goal is an and, else of implies
/// left.
fn premises_swapped(at: &mut Grower, goal: Judgment, _: usize, depth: usize) -> bool {
    if let Truth(formula) = goal {
        if let And(a, b) = at.table.entry(formula) {
            at.step(AND_RIGHT);
            at.grow_short(Truth(b), depth + 1);
            at.grow_short(Truth(a), depth + 1);
            return true;
        }
    }
    let (named, a, b) = at.held_implies();
    let mark = at.added.len();
    at.step(IMPLIES_LEFT + named);
    at.add(b);
    at.grow_short(goal, depth + 1);
    at.take_back(mark);
    at.grow_short(Truth(a), depth + 1);
    true
}

/// Affirm on a truth.
fn affirm_on_truth(at: &mut Grower, goal: Judgment, steps: usize, depth: usize) -> bool {
    let Truth(_) = goal else { return false };
    at.step(AFFIRM);
    at.grow_about(goal, steps - 1, depth + 1)
}

/// Says right, and then the formula's truth without affirm.
fn affirm_left_out(at: &mut Grower, goal: Judgment, steps: usize, depth: usize) -> bool {
    let Truth(formula) = goal else { return false };
    let Says(_, a) = at.table.entry(formula) else { return false };
    at.step(SAYS_RIGHT);
    at.grow_about(Truth(a), steps - 1, depth + 1)
}

/// A right rule for the formula that is affirmed.
fn right_on_affirmation(at: &mut Grower, goal: Judgment, steps: usize, depth: usize) -> bool {
    let Affirms(_, a) = goal else { return false };
    at.right(Truth(a), steps.max(at.least(Truth(a)) + 1), depth)
}

/// Both sides of an or are held.
fn or_as_and(at: &mut Grower, goal: Judgment, steps: usize, depth: usize) -> bool {
    let (Truth(a) | Affirms(_, a)) = goal;
    let b = at.some_formula();
    let named = at.table.number(Or(b, a));
    at.ensure(named);
    let rule = at.random.pick(&[AND_LEFT, OR_LEFT]);
    at.step(rule + named);
    at.add(a);
    at.add(b);
    at.grow_about(goal, steps - 1, depth + 1)
}

/// What the slips are made of. What goes on with the goal ends the slip, which was followed: true.
impl Grower<'_> {
    fn ensure(&mut self, formula: u16) {
        if !self.holds(formula) {
            self.state(formula);
        }
    }

    /// The goal in so many steps, or in the least number of them if that is more.
    fn grow_about(&mut self, goal: Judgment, steps: usize, depth: usize) -> bool {
        let least = self.least(goal);
        self.grow(goal, steps.max(least), depth);
        true
    }

    /// The goal in hardly more than the least number of steps.
    fn grow_short(&mut self, goal: Judgment, depth: usize) {
        let steps = self.least(goal) + self.random.below(3);
        self.grow(goal, steps, depth);
    }

    fn some_formula(&mut self) -> u16 {
        self.table.formula(self.random, 1)
    }

    /// Says left as if it were right here.
    fn says_left(
        &mut self,
        principal: u16,
        a: u16,
        goal: Judgment,
        steps: usize,
        depth: usize,
    ) -> bool {
        let named = self.table.number(Says(principal, a));
        self.ensure(named);
        self.step(SAYS_LEFT + named);
        self.add(a);
        self.grow_about(goal, steps - 1, depth + 1)
    }

    /// An implies-formula that is held, and its two sides.
    fn held_implies(&mut self) -> (u16, u16, u16) {
        if let Some(named) = self.some_hypothesis() {
            if let Implies(a, b) = self.table.entry(named) {
                return (named, a, b);
            }
        }
        let (a, b) = (self.some_formula(), self.some_formula());
        let named = self.table.number(Implies(a, b));
        self.ensure(named);
        (named, a, b)
    }
}
