//! Random derivations with every rule, grown from the goal upward. A formula that a leaf needs and
//! that is not held becomes a statement, which leaves all earlier steps right: there are only more
//! hypotheses.
use crate::identity::push_identity;
use crate::random_table::RandomTable;
use builder::random::Random;
use builder::steps::*;
use builder::table::Entry::{self, And, Atom, False, Implies, Or, Says};
use builder::table::Table;

/// "a goal is a truth of one formula or an affirmation of one formula by one principal"; formulas
/// by number.
#[derive(Clone, Copy, Debug, PartialEq, Eq)]
pub enum Judgment {
    Truth(u16),
    Affirms(u16, u16),
}
use Judgment::{Affirms, Truth};

pub const DEEPEST: usize = 512;

/// A wrong reading of a rule. Given a goal, the number of steps and their depth, it follows the
/// reading and goes on, and says true; or it says false where the reading doesn't fit the goal.
pub type Slip = fn(&mut Grower, Judgment, usize, usize) -> bool;

/// A derivation that grows: the hypotheses held at this place and the steps so far.
pub struct Grower<'a> {
    pub random: &'a mut Random,
    pub table: &'a mut RandomTable,
    pub statements: Vec<u16>,
    /// How many statements more may be made up.
    pub room: usize,
    /// What the rules on the way have added, and may be taken back where a premise ends.
    pub added: Vec<u16>,
    /// For each formula, how often it is a statement or added.
    held: Vec<u32>,
    pub steps: Vec<u16>,
    /// To be followed once.
    pub slip: Option<Slip>,
}

impl<'a> Grower<'a> {
    pub fn new(random: &'a mut Random, table: &'a mut RandomTable, room: usize) -> Grower<'a> {
        let (statements, added, held, steps) = (vec![], vec![], vec![], vec![]);
        Grower { random, table, statements, room, added, held, steps, slip: None }
    }

    pub fn holds(&self, formula: u16) -> bool {
        self.held.get(formula as usize).is_some_and(|&times| times > 0)
    }

    fn hold(&mut self, formula: u16) {
        if self.held.len() <= formula as usize {
            self.held.resize(formula as usize + 1, 0);
        }
        self.held[formula as usize] += 1;
    }

    pub fn state(&mut self, formula: u16) {
        self.hold(formula);
        self.statements.push(formula);
    }

    pub fn add(&mut self, formula: u16) {
        self.hold(formula);
        self.added.push(formula);
    }

    /// Takes back what was added since there were so many.
    pub fn take_back(&mut self, count: usize) {
        for formula in self.added.drain(count..) {
            self.held[formula as usize] -= 1;
        }
    }

    pub fn step(&mut self, step: u16) {
        self.steps.push(step);
    }

    /// Makes a statement of a formula that is not held.
    fn need(&mut self, formula: u16) {
        if !self.holds(formula) {
            self.room = self.room.saturating_sub(1);
            self.state(formula);
        }
    }

    /// False, where it is held.
    fn falsehood(&self) -> Option<u16> {
        self.table.find(False).filter(|&number| self.holds(number))
    }

    /// The fewest steps that are sure to prove the goal here.
    pub fn least(&self, goal: Judgment) -> usize {
        match goal {
            _ if self.falsehood().is_some() => 1,
            Truth(a) => self.table.identity_steps(a),
            Affirms(_, a) => 1 + self.table.identity_steps(a),
        }
    }

    /// Whether the goal may be opened: its formula is held or may become a statement.
    fn can_be_due(&self, formula: u16) -> bool {
        self.room > 0 || self.holds(formula) || self.falsehood().is_some()
    }

    /// A derivation of the goal of exactly so many steps, not fewer than the least. The first of
    /// them has the given depth.
    pub fn grow(&mut self, goal: Judgment, steps: usize, depth: usize) {
        if self.try_slip(goal, steps, depth) {
            return;
        }
        if steps <= self.least(goal) {
            return self.finish(goal);
        }
        // where the steps would not fit below the greatest depth as one branch, and little depth is
        // left, they are halved
        let left = DEEPEST.saturating_sub(depth);
        if steps > left && left < 64 && steps > 2 * self.least(goal) {
            let (first, half) = (self.some_or(), (steps - 1) / 2);
            return self.or_left(first, goal, half, steps - 1 - half, depth);
        }
        for _ in 0..3 {
            let done = match self.random.below(5) {
                0 | 1 => self.right(goal, steps, depth),
                2 if self.room > 0 => {
                    let named = self.invented(goal);
                    self.need(named);
                    self.left(named, goal, steps, depth)
                }
                _ => match self.some_hypothesis() {
                    Some(named) => self.left(named, goal, steps, depth),
                    None => false,
                },
            };
            if done {
                return;
            }
        }
        let named = self.some_and();
        self.left(named, goal, steps, depth);
    }

    /// Follows the slip here where it fits, mostly; whether it was followed, and so the goal's
    /// steps stand.
    fn try_slip(&mut self, goal: Judgment, steps: usize, depth: usize) -> bool {
        let Some(slip) = self.slip else { return false };
        if self.random.one_in(4) || steps < 2 {
            return false;
        }
        self.slip = None;
        let mark = self.added.len();
        let followed = slip(self, goal, steps, depth);
        self.take_back(mark);
        if !followed {
            self.slip = Some(slip);
        }
        followed
    }

    /// The shortest proof: from false, or from the formula itself.
    fn finish(&mut self, goal: Judgment) {
        let (affirmed, formula) = match goal {
            Truth(a) => (false, a),
            Affirms(_, a) => (true, a),
        };
        if let Some(falsehood) = self.falsehood() {
            let is_longer = affirmed || self.table.identity_steps(formula) > 1;
            if is_longer || !self.holds(formula) || self.random.one_in(2) {
                return self.step(FALSE_LEFT + falsehood);
            }
        }
        self.need(formula);
        if affirmed {
            self.step(AFFIRM);
        }
        self.identity(formula);
    }

    /// The truth of a formula that is held, from itself.
    fn identity(&mut self, formula: u16) {
        push_identity(self.table, formula, &mut self.steps);
    }

    /// So many steps as two parts that are not below their least numbers, if there are such.
    fn split(&mut self, steps: usize, least: [usize; 2]) -> Option<[usize; 2]> {
        let spare = steps.checked_sub(least[0] + least[1])?;
        let more = match self.random.one_in(2) {
            true => spare.min(self.random.below(4)),
            false => self.random.below(spare + 1),
        };
        let more = if self.random.one_in(2) { more } else { spare - more };
        Some([least[0] + more, least[1] + spare - more])
    }

    /// A right rule below the goal, where one fits.
    pub fn right(&mut self, goal: Judgment, steps: usize, depth: usize) -> bool {
        let above = steps - 1;
        let one = |grower: &mut Self, step: u16, premise: Judgment, formula: u16| {
            let fits = above >= grower.least(premise) && grower.can_be_due(formula);
            if fits {
                grower.step(step);
                grower.grow(premise, above, depth + 1);
            }
            fits
        };
        match goal {
            Affirms(_, a) => one(self, AFFIRM, Truth(a), a),
            Truth(formula) => match self.table.entry(formula) {
                Atom(_) | False => false,
                Or(a, _) if self.random.one_in(2) => one(self, OR_RIGHT_FIRST, Truth(a), a),
                Or(_, b) => one(self, OR_RIGHT_SECOND, Truth(b), b),
                Says(principal, a) => one(self, SAYS_RIGHT, Affirms(principal, a), a),
                Implies(a, b) => {
                    let mark = self.added.len();
                    self.add(a);
                    let fits = one(self, IMPLIES_RIGHT, Truth(b), b);
                    self.take_back(mark);
                    fits
                }
                And(a, b) => {
                    if self.room < 2 && !(self.can_be_due(a) && self.can_be_due(b)) {
                        return false;
                    }
                    let least = [a, b].map(|side| self.least(Truth(side)));
                    let Some([first, second]) = self.split(above, least) else { return false };
                    self.step(AND_RIGHT);
                    self.grow(Truth(a), first, depth + 1);
                    self.grow(Truth(b), second, depth + 1);
                    true
                }
            },
        }
    }

    /// The left rule for a formula that is held, where it fits.
    pub fn left(&mut self, named: u16, goal: Judgment, steps: usize, depth: usize) -> bool {
        let (above, least, mark) = (steps - 1, self.least(goal), self.added.len());
        match (self.table.entry(named), goal) {
            (And(a, b), _) if above >= least => {
                self.step(AND_LEFT + named);
                self.add(a);
                self.add(b);
                self.grow(goal, above, depth + 1);
            }
            (Says(principal, a), Affirms(same, _)) if principal == same && above >= least => {
                self.step(SAYS_LEFT + named);
                self.add(a);
                self.grow(goal, above, depth + 1);
            }
            (Implies(a, b), _) if self.can_be_due(a) => {
                let least = [self.least(Truth(a)), least];
                let Some([first, second]) = self.split(above, least) else { return false };
                self.step(IMPLIES_LEFT + named);
                self.grow(Truth(a), first, depth + 1);
                self.take_back(mark);
                self.add(b);
                self.grow(goal, second, depth + 1);
            }
            (Or(..), _) => {
                let least = [least, least];
                let Some([first, second]) = self.split(above, least) else { return false };
                self.or_left(named, goal, first, second, depth);
            }
            _ => return false,
        }
        self.take_back(mark);
        true
    }

    fn or_left(&mut self, named: u16, goal: Judgment, first: usize, second: usize, depth: usize) {
        let Or(a, b) = self.table.entry(named) else { unreachable!("an or-formula is named") };
        let mark = self.added.len();
        self.step(OR_LEFT + named);
        for (added, steps) in [(a, first), (b, second)] {
            self.add(added);
            self.grow(goal, steps, depth + 1);
            self.take_back(mark);
        }
    }

    /// A hypothesis, the last ones more often.
    pub fn some_hypothesis(&mut self) -> Option<u16> {
        let count = self.statements.len() + self.added.len();
        if count == 0 {
            return None;
        }
        let last = self.random.one_in(2);
        let back = self.random.below(if last { count.min(3) } else { count });
        self.statements.iter().chain(&self.added).nth_back(back).copied()
    }

    /// A formula that some left rule with this goal can name.
    fn invented(&mut self, goal: Judgment) -> u16 {
        let formula = match goal {
            Truth(a) | Affirms(_, a) => a,
        };
        let a = self.table.formula(self.random, 1);
        let again = self.random.one_in(3);
        let b = if again { formula } else { self.table.formula(self.random, 1) };
        let entry = match (goal, self.random.below(5)) {
            (Affirms(principal, _), 0 | 1) => Says(principal, b),
            (_, 0) => And(a, b),
            (_, 1 | 2) => Or(a, b),
            _ => Implies(a, b),
        };
        self.table.number(entry)
    }

    /// An and-formula that is held; its left rule only makes a proof longer.
    fn some_and(&mut self) -> u16 {
        self.stated(|entry| matches!(entry, And(..))).unwrap_or_else(|| self.made(And))
    }

    fn some_or(&mut self) -> u16 {
        self.stated(|entry| matches!(entry, Or(..))).unwrap_or_else(|| self.made(Or))
    }

    /// The first statement of a kind.
    fn stated(&self, is_wanted: fn(Entry) -> bool) -> Option<u16> {
        self.statements.iter().copied().find(|&number| is_wanted(self.table.entry(number)))
    }

    fn made(&mut self, kind: fn(u16, u16) -> Entry) -> u16 {
        let (a, b) = (self.table.formula(self.random, 0), self.table.formula(self.random, 0));
        let number = self.table.number(kind(a, b));
        self.need(number);
        number
    }
}

/// The proof from these statements after a left rule that it does not need, if there is one for the
/// statement that is drawn.
pub fn longer(table: &Table, random: &mut Random, from: &[u16], proof: Vec<u16>) -> Vec<u16> {
    let named = random.pick(from);
    match table.entry(named) {
        And(..) => [&[AND_LEFT + named], &proof[..]].concat(),
        Or(..) => [&[OR_LEFT + named], &proof[..], &proof].concat(),
        _ => proof,
    }
}
