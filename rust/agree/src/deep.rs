//! Proofs as deep as is allowed, one less and one more: "Depth 512 passes and 513 is refused 10".
use crate::derivations::Judgment::{self, Affirms, Truth};
use crate::derivations::DEEPEST;
use crate::identity::identity;
use crate::parts::{Kind, Parts};
use builder::random::Random;
use builder::steps::*;
use builder::table::Entry::{And, Atom, Implies, Or, Says};
use builder::table::Table;

/// Statements from which a branch of any depth can be made: P, P and Q, P or Q, P implies Q, K says
/// Q.
struct Supplies {
    p: u16,
    and: u16,
    or: u16,
    implies: u16,
    principal: u16,
    says: u16,
}

impl Supplies {
    fn new(table: &mut Table, random: &mut Random) -> Supplies {
        let atom = random.name();
        let (p, q) = (table.number(Atom(atom)), table.number(Atom(atom ^ 1)));
        let [and, or, implies] = [And(p, q), Or(p, q), Implies(p, q)].map(|e| table.number(e));
        let principal = random.name();
        let says = table.number(Says(principal, q));
        Supplies { p, and, or, implies, principal, says }
    }

    fn statements(&self) -> Vec<u16> {
        vec![self.p, self.and, self.or, self.implies, self.says]
    }

    /// A proof of P, or of K says P, whose deepest step has exactly this depth. What closes the
    /// other premises comes after the branch where the branch goes into the first of them.
    fn proof(&self, random: &mut Random, says: bool, deepest: usize) -> Vec<u16> {
        let closed = |goal: Judgment| match goal {
            Truth(_) => vec![self.p],
            Affirms(..) => vec![AFFIRM, self.p],
        };
        let (mut steps, mut later) = (vec![], vec![]);
        let mut goal = Truth(self.p);
        let mut depth = 1;
        if says {
            steps.push(SAYS_RIGHT);
            goal = Affirms(self.principal, self.p);
            depth = 2;
        }
        while depth < deepest {
            match (goal, random.below(8)) {
                (Affirms(..), _) if depth + 1 == deepest => {
                    steps.push(AFFIRM);
                    goal = Truth(self.p);
                }
                // near the end nothing else is opened, so that nothing else is deeper
                _ if depth + 3 > deepest => steps.push(AND_LEFT + self.and),
                (Affirms(..), 0 | 1) => steps.push(SAYS_LEFT + self.says),
                (Affirms(..), 2) if random.one_in(60) => {
                    steps.push(AFFIRM);
                    goal = Truth(self.p);
                }
                (_, 0..=3) => steps.push(AND_LEFT + self.and),
                (_, 4) => {
                    steps.push(IMPLIES_LEFT + self.implies);
                    steps.push(self.p);
                }
                (_, 5) => {
                    // the branch goes on in the first premise, which is a truth
                    steps.push(IMPLIES_LEFT + self.implies);
                    later.push(closed(goal));
                    goal = Truth(self.p);
                }
                (_, 6) => {
                    steps.push(OR_LEFT + self.or);
                    steps.extend(closed(goal));
                }
                _ => {
                    steps.push(OR_LEFT + self.or);
                    later.push(closed(goal));
                }
            }
            depth += 1;
        }
        steps.push(self.p);
        steps.extend(later.into_iter().rev().flatten());
        steps
    }
}

/// A record or an exchange file with a deep proof; some stop short, or have a wrong word, just
/// where the depth is passed.
pub fn deep(random: &mut Random, kind: Kind) -> Vec<u8> {
    let mut table = Table::default();
    let supplies = Supplies::new(&mut table, random);
    let deepest = random.pick(&[510, 511, 512, 512, 513, 513, 514, 600]);
    let says = random.one_in(2);
    let goal = if says { table.number(Says(supplies.principal, supplies.p)) } else { supplies.p };
    let proof = supplies.proof(random, says, deepest);
    let mut parts = match kind {
        Kind::Record => Parts::record(&table, supplies.statements(), goal, proof),
        Kind::Exchange => {
            let from = supplies.statements();
            let mut to = from.clone();
            to.push(goal);
            let due = to.iter().chain(&from);
            let mut proofs: Vec<Vec<u16>> = due.map(|&goal| identity(&table, goal)).collect();
            proofs[from.len()] = proof;
            if random.one_in(2) {
                // a second proof that is deep as well: depth starts again at 1
                let deepest = random.pick(&[511, 512, 513]);
                proofs[from.len() + 1] = supplies.proof(random, false, deepest);
            }
            Parts::exchange(&table, from, to, &proofs)
        }
    };
    match random.below(6) {
        // the words end where the next step would be too deep: 9 comes before 10
        0 => {
            if let Some(at) = first_too_deep(&parts) {
                parts.steps.truncate(at);
            }
        }
        // too deep and of no rule: 10 comes before 11 and 12
        1 => {
            if let Some(at) = first_too_deep(&parts) {
                parts.steps[at] = random.word();
            }
        }
        _ => {}
    }
    parts.bytes()
}

/// The place of the first step whose depth is 513, in steps of which nothing but the depth is
/// wrong.
fn first_too_deep(parts: &Parts) -> Option<usize> {
    let mut open = vec![];
    for (place, &step) in parts.steps.iter().enumerate() {
        let depth = open.pop().unwrap_or(1);
        if depth > DEEPEST {
            return Some(place);
        }
        open.extend(std::iter::repeat_n(depth + 1, premises(step)));
    }
    None
}
