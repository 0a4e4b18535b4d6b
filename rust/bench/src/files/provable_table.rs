//! Formula tables. Some atoms are held by every list of statements, so each formula over them has a
//! proof by right rules alone; a table knows how many steps the shortest such proof takes.
use builder::random::Random;
use builder::table::Entry::{self, And, Atom, False, Implies, Or, Says};
use builder::table::Table;
use std::ops::Deref;

/// A proof by right rules that takes more steps doesn't count as one.
const MOST_STEPS: usize = 1000;

/// Those who speak most in a filled table.
const PRINCIPALS: [u16; 4] = [7, 8, 1300, 4095];

#[derive(Default)]
pub struct ProvableTable {
    table: Table,
    /// For each formula the fewest steps of a proof by right rules from the held atoms; none where
    /// there is none, or where it is long.
    pub least: Vec<Option<usize>>,
}

impl Deref for ProvableTable {
    type Target = Table;

    fn deref(&self) -> &Table {
        &self.table
    }
}

impl ProvableTable {
    fn least_of(&self, entry: Entry) -> Option<usize> {
        let least = |n: u16| self.least[n as usize];
        let steps = match entry {
            Atom(_) | False => return None,
            Implies(_, b) => 1 + least(b)?,
            And(a, b) => 1 + least(a)? + least(b)?,
            Or(a, b) => 1 + least(a).into_iter().chain(least(b)).min()?,
            Says(_, a) => 2 + least(a)?,
        };
        (steps <= MOST_STEPS).then_some(steps)
    }

    /// Adds an entry; none where it is there already. An atom added so is not held.
    pub fn add(&mut self, entry: Entry) -> Option<u16> {
        let number = self.table.number(entry);
        if self.table.len() == self.least.len() {
            return None;
        }
        self.least.push(self.least_of(entry));
        Some(number)
    }

    /// The entries that every table begins with, and the statements that every list has: four held
    /// atoms, and a formula of each kind that a left rule can name.
    pub fn begin() -> (ProvableTable, Vec<u16>) {
        let mut table = ProvableTable::default();
        let mut statements = [3, 1, 700, 4095].map(|atom| table.table.number(Atom(atom))).to_vec();
        table.least = vec![Some(1); statements.len()];
        let mut add = |entry: Entry| table.add(entry).expect("a new entry");
        let [falsehood, says] = [False, Says(PRINCIPALS[0], 0)].map(&mut add);
        let named = [And(1, 2), Or(3, falsehood), Implies(says, 2), Says(PRINCIPALS[0], 3)];
        statements.extend(named.map(&mut add));
        (table, statements)
    }

    /// Fills the table to a size with formulas of all kinds over those before them. About every
    /// twentieth is an atom that is not held, and about every seventh is what any principal says of
    /// a short formula.
    pub fn fill(&mut self, formulas: usize, random: &mut Random) {
        while self.len() < formulas {
            let [first, second] = [0, 1].map(|_| random.below(self.len()) as u16);
            self.add(match random.below(20) {
                0 => Atom(random.below(4096) as u16),
                1..=5 => Implies(first, second),
                6..=10 => And(first, second),
                11..=14 => Or(first, second),
                15..=16 => Says(random.pick(&PRINCIPALS), second),
                _ => Says(random.below(4096) as u16, second % 10),
            });
        }
    }
}
