//! A table of formulas that holds each entry once: document 01, "The record".
use std::collections::HashMap;
use std::ops::Deref;

/// An entry by its structure. A formula in it is told by its number in the table.
#[derive(Clone, Copy, Debug, PartialEq, Eq)]
pub enum Entry {
    Atom(u16),
    False,
    Implies(u16, u16),
    And(u16, u16),
    Or(u16, u16),
    /// What a principal says.
    Says(u16, u16),
}
use Entry::{And, Atom, False, Implies, Or, Says};

impl Entry {
    /// Its head and its second.
    pub fn words(self) -> (u16, u16) {
        let (kind, first, second) = match self {
            Atom(atom) => (0, atom, 0),
            False => (1, 0, 0),
            Implies(a, b) => (2, a, b),
            And(a, b) => (3, a, b),
            Or(a, b) => (4, a, b),
            Says(principal, a) => (5, principal, a),
        };
        assert!(first < 4096, "{self:?} has no head");
        (kind * 4096 + first, second)
    }

    /// What a head and a second stand for; none where there is no such kind.
    pub fn of((head, second): (u16, u16)) -> Option<Entry> {
        let first = head % 4096;
        match head / 4096 {
            0 => Some(Atom(first)),
            1 => Some(False),
            2 => Some(Implies(first, second)),
            3 => Some(And(first, second)),
            4 => Some(Or(first, second)),
            5 => Some(Says(first, second)),
            _ => None,
        }
    }
}

/// A table that grows. It reads as the heads and seconds of its entries, as a file's layout takes
/// them; only [`Table::number`] adds to it. A wrong table is no `Table`: it is written as words.
#[derive(Clone, Debug, Default)]
pub struct Table {
    entries: Vec<(u16, u16)>,
    numbers: HashMap<(u16, u16), u16>,
}

impl Table {
    /// The entry's number; it is added where it is new.
    pub fn number(&mut self, entry: Entry) -> u16 {
        let next = self.entries.len() as u16;
        let words = entry.words();
        let number = *self.numbers.entry(words).or_insert(next);
        if number == next {
            self.entries.push(words);
        }
        number
    }

    /// The entry's number, where the table has it.
    pub fn find(&self, entry: Entry) -> Option<u16> {
        self.numbers.get(&entry.words()).copied()
    }

    /// The entry that has this number.
    pub fn entry(&self, number: u16) -> Entry {
        Entry::of(self.entries[usize::from(number)]).expect("an entry was added by its structure")
    }
}

impl Deref for Table {
    type Target = [(u16, u16)];

    fn deref(&self) -> &Self::Target {
        &self.entries
    }
}
