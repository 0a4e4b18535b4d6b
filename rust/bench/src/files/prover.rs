//! Derivations of a given size, or of a given depth, with all rules mixed. A goal always has a
//! proof by right rules; left rules take up the steps that are to spare.
use super::provable_table::ProvableTable;
use builder::random::Random;
use builder::steps::*;
use builder::table::Entry::{And, Atom, False, Implies, Or, Says};

/// A truth, or an affirmation by a principal.
#[derive(Clone, Copy)]
pub struct Goal {
    formula: u16,
    by: Option<u16>,
}

pub fn truth(formula: u16) -> Goal {
    Goal { formula, by: None }
}

pub struct Prover<'a> {
    pub table: &'a ProvableTable,
    /// The hypotheses held, the statements first; those of `ProvableTable::begin` are among them.
    pub held: Vec<u16>,
    pub random: Random,
    pub steps: Vec<u16>,
}

/// From so many steps on a derivation branches into two of comparable size, so that it is not too
/// deep.
const MANY: usize = 200;

impl Prover<'_> {
    fn is_atom(&self, goal: Goal) -> bool {
        goal.by.is_none() && matches!(self.table.entry(goal.formula), Atom(_))
    }

    pub fn least(&self, goal: Goal) -> usize {
        let least = self.table.least[goal.formula as usize];
        least.expect("a goal has a proof by right rules") + usize::from(goal.by.is_some())
    }

    /// A proof of exactly so many steps, at least the goal's `least`.
    pub fn prove(&mut self, goal: Goal, count: usize) {
        let spare = count - self.least(goal);
        if spare == 0 || (count < MANY && !self.is_atom(goal) && self.random.one_in(3)) {
            return self.right(goal, count);
        }
        for _ in 0..8 {
            let named = self.named_for(goal);
            if self.left(named, goal, count, spare) {
                return;
            }
        }
        let is_wanted = |&n: &u16| match self.table.entry(n) {
            And(..) => count < MANY,
            Or(..) => count >= MANY,
            _ => false,
        };
        let named = self.held.iter().copied().find(is_wanted).expect("every list has one");
        assert!(self.left(named, goal, count, spare), "there are steps to spare");
    }

    /// A hypothesis to be named; towards an affirmation often one that its principal says.
    fn named_for(&mut self, goal: Goal) -> u16 {
        let is_said = |&n: &u16| match self.table.entry(n) {
            Says(principal, _) => goal.by == Some(principal),
            _ => false,
        };
        let said: Vec<u16> = self.held.iter().copied().filter(is_said).collect();
        let from = if said.is_empty() || self.random.one_in(2) { &self.held } else { &said };
        self.random.pick(from)
    }

    /// Proves a goal with hypotheses added.
    fn with(&mut self, added: &[u16], goal: Goal, count: usize) {
        let before = self.held.len();
        self.held.extend(added);
        self.prove(goal, count);
        self.held.truncate(before);
    }

    /// A part of the spare steps: near the half of many, and any part of few.
    fn part(&mut self, spare: usize) -> usize {
        if spare < MANY {
            self.random.between(0, spare)
        } else {
            self.random.between(spare / 4, 3 * spare / 4)
        }
    }

    /// The left rule of the formula named, where it applies to the goal and the steps to spare
    /// allow it; of many, only a rule that branches.
    fn left(&mut self, named: u16, goal: Goal, count: usize, spare: usize) -> bool {
        let many = count >= MANY;
        match self.table.entry(named) {
            Implies(a, b) => {
                let least = self.table.least[a as usize].filter(|least| spare > *least);
                let Some(least) = least else { return false };
                let first = least + self.part(spare - 1 - least);
                self.steps.push(IMPLIES_LEFT + named);
                self.prove(truth(a), first);
                self.with(&[b], goal, count - 1 - first);
            }
            And(a, b) if !many => {
                self.steps.push(AND_LEFT + named);
                self.with(&[a, b], goal, count - 1);
            }
            Or(a, b) if !many && spare >= 2 && self.table.entry(b) == False => {
                self.steps.push(OR_LEFT + named);
                self.with(&[a], goal, count - 2);
                self.steps.push(FALSE_LEFT + b);
            }
            Or(a, b) if spare > self.least(goal) => {
                let least = self.least(goal);
                let first = least + self.part(spare - 1 - least);
                self.steps.push(OR_LEFT + named);
                self.with(&[a], goal, first);
                self.with(&[b], goal, count - 1 - first);
            }
            Says(principal, a) if !many && goal.by == Some(principal) => {
                self.steps.push(SAYS_LEFT + named);
                self.with(&[a], goal, count - 1);
            }
            _ => return false,
        }
        true
    }

    /// The right rule of the goal, or init: its word, and the premises with what is added; of an or
    /// the side that can be proved, either where both can.
    fn opened(&mut self, goal: Goal, most: usize) -> (u16, Vec<(Goal, Option<u16>)>) {
        if goal.by.is_some() {
            return (AFFIRM, vec![(truth(goal.formula), None)]);
        }
        let fits = |n: u16| self.table.least[n as usize].is_some_and(|least| least <= most);
        match self.table.entry(goal.formula) {
            Atom(_) => (INIT + goal.formula, vec![]),
            False => unreachable!("false has no proof by right rules"),
            Implies(a, b) => (IMPLIES_RIGHT, vec![(truth(b), Some(a))]),
            And(a, b) => (AND_RIGHT, vec![(truth(a), None), (truth(b), None)]),
            Or(a, b) if fits(a) && (!fits(b) || self.random.one_in(2)) => {
                (OR_RIGHT_FIRST, vec![(truth(a), None)])
            }
            Or(_, b) => (OR_RIGHT_SECOND, vec![(truth(b), None)]),
            Says(by, formula) => (SAYS_RIGHT, vec![(Goal { formula, by: Some(by) }, None)]),
        }
    }

    fn right(&mut self, goal: Goal, count: usize) {
        let (step, premises) = self.opened(goal, count - 1);
        self.steps.push(step);
        let least: usize = premises.iter().map(|(premise, _)| self.least(*premise)).sum();
        let mut spare = count - 1 - least;
        for (i, (premise, added)) in premises.iter().enumerate() {
            let part = if i + 1 < premises.len() { self.part(spare) } else { spare };
            spare -= part;
            let size = self.least(*premise) + part;
            self.with(added.as_slice(), *premise, size);
        }
    }

    /// A proof of exactly this depth, at least the goal's `least`, with one branch that goes down
    /// and others that end at once.
    pub fn descend(&mut self, goal: Goal, depth: usize) {
        let spare = depth - self.least(goal);
        if spare == 0 || (!self.is_atom(goal) && self.random.one_in(2)) {
            let (step, premises) = self.opened(goal, depth - 1);
            self.steps.push(step);
            for (premise, added) in premises {
                self.held.extend(added);
                self.descend(premise, depth - 1);
                self.held.truncate(self.held.len() - added.iter().len());
            }
            return;
        }
        let named = self.named_for(goal);
        let entry = self.table.entry(named);
        let least = |n: u16| self.table.least[n as usize].filter(|least| *least < depth);
        let (rule, added) = match entry {
            Implies(a, b) if least(a).is_some() => (IMPLIES_LEFT, vec![b]),
            And(a, b) => (AND_LEFT, vec![a, b]),
            Or(a, b) if self.table.entry(b) == False => (OR_LEFT, vec![a]),
            Says(principal, a) if goal.by == Some(principal) => (SAYS_LEFT, vec![a]),
            _ => return self.descend(goal, depth),
        };
        self.steps.push(rule + named);
        if let Implies(a, _) = entry {
            self.prove(truth(a), self.least(truth(a)));
        }
        let before = self.held.len();
        self.held.extend(added);
        self.descend(goal, depth - 1);
        self.held.truncate(before);
        if let Or(_, falsehood) = entry {
            self.steps.push(FALSE_LEFT + falsehood);
        }
    }
}
