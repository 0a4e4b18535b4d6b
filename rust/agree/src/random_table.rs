//! A table of random formulas, each with the length of its proof from itself.
use builder::random::Random;
use builder::table::Entry::{self, And, Atom, False, Implies, Or, Says};
use builder::table::Table;
use std::ops::Deref;

/// A table, and for each entry how many steps prove the formula from itself.
#[derive(Default)]
pub struct RandomTable {
    table: Table,
    identity: Vec<usize>,
}

impl Deref for RandomTable {
    type Target = Table;

    fn deref(&self) -> &Table {
        &self.table
    }
}

impl RandomTable {
    /// The entry's number; it is added where it is new.
    pub fn number(&mut self, entry: Entry) -> u16 {
        let number = self.table.number(entry);
        if self.table.len() > self.identity.len() {
            let steps = |a: u16| self.identity[a as usize];
            let identity = match entry {
                Atom(_) | False => 1,
                Implies(a, b) | And(a, b) => 2 + steps(a) + steps(b),
                Or(a, b) => 3 + steps(a) + steps(b),
                Says(_, a) => 3 + steps(a),
            };
            // entries over one another double it, so it would soon be too large
            self.identity.push(identity.min(1 << 40));
        }
        number
    }

    /// How many steps prove the formula from itself.
    pub fn identity_steps(&self, number: u16) -> usize {
        self.identity[number as usize]
    }

    /// Some formula whose proof from itself is not long: one of the table, or a new one with so
    /// many levels of operands at most.
    pub fn formula(&mut self, random: &mut Random, levels: usize) -> u16 {
        if !self.is_empty() && random.below(3) > 0 {
            let number = random.below(self.len()) as u16;
            if self.identity_steps(number) < 24 {
                return number;
            }
        }
        let kind = if levels == 0 { random.below(2) } else { random.below(12) };
        let entry = match kind {
            0 if random.one_in(6) => False,
            0..=2 => Atom(random.name()),
            3..=8 => {
                let (a, b) = (self.formula(random, levels - 1), self.formula(random, levels - 1));
                [Implies, And, Or][kind % 3](a, b)
            }
            _ => Says(random.name(), self.formula(random, levels - 1)),
        };
        self.number(entry)
    }

    /// Adds entries that nothing uses, until there are so many.
    pub fn fill(&mut self, random: &mut Random, entries: usize) {
        while self.len() < entries {
            // the operands may be any entries, so some formulas are as deep as the table is long
            let end = self.len();
            let operand = |random: &mut Random| match random.one_in(2) {
                true => random.below(end) as u16,
                false => (end - 1 - random.below(end.min(4))) as u16,
            };
            let entry = match random.below(12) {
                _ if end == 0 => Atom(random.name()),
                0 => False,
                1..=3 => Atom(random.below(4096) as u16),
                kind @ 4..=8 => [Implies, And, Or][kind % 3](operand(random), operand(random)),
                _ if random.one_in(2) => Says(random.name(), operand(random)),
                _ => Says(random.below(4096) as u16, operand(random)),
            };
            self.number(entry);
        }
    }

    /// The same formulas in another order, operands before users all the same, and the new number
    /// of each.
    pub fn in_other_order(&self, random: &mut Random) -> (Table, Vec<u16>) {
        let mut height = vec![0; self.len()];
        for number in 0..self.len() {
            let over = |a: u16| height[a as usize] + 1 + random.below(6);
            height[number] = match self.entry(number as u16) {
                Atom(_) | False => random.below(24),
                Implies(a, b) | And(a, b) | Or(a, b) => {
                    [a, b].map(over).into_iter().max().expect("two operands")
                }
                Says(_, a) => [a].map(over)[0],
            };
        }
        let mut order: Vec<usize> = (0..self.len()).collect();
        order.sort_by_key(|&number| (height[number], number));
        let mut moved = vec![0; self.len()];
        let mut table = Table::default();
        for number in order {
            let to = |a: u16| moved[a as usize];
            let entry = match self.entry(number as u16) {
                Implies(a, b) => Implies(to(a), to(b)),
                And(a, b) => And(to(a), to(b)),
                Or(a, b) => Or(to(a), to(b)),
                Says(principal, a) => Says(principal, to(a)),
                leaf => leaf,
            };
            moved[number] = table.number(entry);
        }
        (table, moved)
    }
}
