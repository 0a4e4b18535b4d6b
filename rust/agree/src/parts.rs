//! A file in parts, and its words: document 01, "The record" and "The exchange file".
use crate::random_table::RandomTable;
use builder::layout;
use builder::random::Random;
use builder::steps::{names, part, rule, SAYS_LEFT};
use builder::table::Entry::{self, Says};
use std::collections::BTreeSet;

#[derive(Clone, Copy, Debug, PartialEq, Eq)]
pub enum Kind {
    Record,
    Exchange,
}

/// A record or an exchange file; nothing says that it is a right one.
#[derive(Clone, Debug)]
pub struct Parts {
    pub kind: Kind,
    /// The heads and seconds of its entries.
    pub table: Vec<(u16, u16)>,
    /// The record's statements, or the first list.
    pub first: Vec<u16>,
    /// The second list; a record has none.
    pub second: Vec<u16>,
    /// The record's goal; an exchange file has none.
    pub goal: u16,
    pub steps: Vec<u16>,
    /// Where in the steps each proof begins.
    pub proofs: Vec<usize>,
}

impl Parts {
    pub fn record(table: &[(u16, u16)], statements: Vec<u16>, goal: u16, steps: Vec<u16>) -> Parts {
        let (table, first, second, proofs) = (table.to_vec(), statements, vec![], vec![0]);
        Parts { kind: Kind::Record, table, first, second, goal, steps, proofs }
    }

    pub fn exchange(
        table: &[(u16, u16)],
        first: Vec<u16>,
        second: Vec<u16>,
        proofs: &[Vec<u16>],
    ) -> Parts {
        let (mut steps, mut starts) = (vec![], vec![]);
        for proof in proofs {
            starts.push(steps.len());
            steps.extend(proof);
        }
        let table = table.to_vec();
        Parts { kind: Kind::Exchange, table, first, second, goal: 0, steps, proofs: starts }
    }

    pub fn words(&self) -> Vec<u16> {
        match self.kind {
            Kind::Record => layout::record(&self.table, &self.first, self.goal, &self.steps),
            Kind::Exchange => layout::exchange(&self.table, &self.first, &self.second, &self.steps),
        }
    }

    pub fn bytes(&self) -> Vec<u8> {
        layout::bytes(&self.words())
    }

    /// The parts of a record that has the layout.
    pub fn of_record(file: &[u8]) -> Parts {
        let mut words = file.chunks_exact(2).map(|pair| u16::from_le_bytes([pair[0], pair[1]]));
        let mut take = |count: u16| words.by_ref().take(count.into()).collect::<Vec<u16>>();
        let sizes = take(4);
        let (heads, seconds) = (take(sizes[0]), take(sizes[0]));
        let table: Vec<(u16, u16)> = heads.into_iter().zip(seconds).collect();
        let (statements, steps) = (take(sizes[1]), take(sizes[2]));
        Parts::record(&table, statements, sizes[3], steps)
    }

    /// The formulas that some says left names.
    pub fn opened(&self) -> BTreeSet<u16> {
        let says_lefts = self.steps.iter().filter(|step| rule(**step) == SAYS_LEFT);
        says_lefts.map(|step| part(*step)).collect()
    }

    /// The principals of the papers, the statements of the form K says A, by the table as it stands.
    pub fn with_papers(&self) -> BTreeSet<u16> {
        self.principals_of(|_| true)
    }

    /// Those of them of whose papers some says left names one.
    pub fn signers(&self) -> BTreeSet<u16> {
        let opened = self.opened();
        self.principals_of(|statement| opened.contains(&statement))
    }

    fn principals_of(&self, counts: impl Fn(u16) -> bool) -> BTreeSet<u16> {
        let stated = self.first.iter().copied().filter(|&statement| counts(statement));
        stated.filter_map(|statement| self.speaker(statement)).collect()
    }

    /// Who says something in the table.
    pub fn speakers(&self) -> BTreeSet<u16> {
        (0..self.table.len() as u16).filter_map(|number| self.speaker(number)).collect()
    }

    /// Who says what a number stands for, if it is of the form K says A.
    pub fn speaker(&self, number: u16) -> Option<u16> {
        match Entry::of(*self.table.get(usize::from(number))?) {
            Some(Says(principal, _)) => Some(principal),
            _ => None,
        }
    }

    /// The same file over a table in another order.
    pub fn in_other_order(mut self, table: &RandomTable, random: &mut Random) -> Parts {
        let (other, moved) = table.in_other_order(random);
        self.table = other.to_vec();
        for number in self.first.iter_mut().chain(&mut self.second).chain([&mut self.goal]) {
            *number = moved[*number as usize];
        }
        for step in self.steps.iter_mut().filter(|step| names(**step)) {
            *step = rule(*step) + moved[part(*step) as usize];
        }
        self
    }
}
