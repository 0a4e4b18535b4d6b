//! The table of formulas: "two parallel arrays of F words each, heads and seconds".

use super::formula::{Atom, Formula, Principal, Tree};
use super::refusal::{refuse_at, Refusal};
use std::collections::HashSet;

/// The trees that a table's entries spell out, by number.
pub struct Table(Vec<Tree>);

impl Table {
    /// Tests 4 and 5 in turn, each over the whole table; then the trees.
    pub fn read(heads: &[u16], seconds: &[u16]) -> Result<Table, Refusal> {
        let entries: Vec<(u16, u16)> = heads.iter().copied().zip(seconds.iter().copied()).collect();
        refuse_at((0..entries.len()).find(|&own| !well_formed(own, entries[own])), 4)?;
        let mut earlier = HashSet::new();
        refuse_at(entries.iter().position(|&entry| !earlier.insert(entry)), 5)?;

        let mut table = Table(Vec::with_capacity(entries.len()));
        for entry in entries {
            let tree = table.tree(entry);
            table.0.push(tree);
        }
        Ok(table)
    }

    /// The tree of one entry that passed test 4, over the trees of the entries before it.
    fn tree(&self, (head, second): (u16, u16)) -> Tree {
        let (kind, first) = take_apart(head);
        let operand = |number: u16| self.0[usize::from(number)].clone();
        Tree::new(match kind {
            0 => Formula::Atom(Atom(first)),
            1 => Formula::False,
            2 => Formula::Implies(operand(first), operand(second)),
            3 => Formula::And(operand(first), operand(second)),
            4 => Formula::Or(operand(first), operand(second)),
            _ => Formula::Says(Principal(first), operand(second)),
        })
    }

    /// The tree that a number stands for; none for "a number of F or more".
    pub fn get(&self, number: u16) -> Option<&Tree> {
        self.0.get(usize::from(number))
    }

    /// The trees of a list of numbers. Test 7: "A statement's number is F or more (place: the first
    /// such position)."
    pub fn statements(&self, numbers: &[u16]) -> Result<Vec<Tree>, Refusal> {
        refuse_at(numbers.iter().position(|&number| self.get(number).is_none()), 7)?;
        Ok(numbers.iter().filter_map(|&number| self.get(number).cloned()).collect())
    }
}

/// "A head is kind × 4,096 + first operand."
fn take_apart(head: u16) -> (u16, u16) {
    (head / 4096, head % 4096)
}

/// Test 4 of the entry numbered `own`: a kind below 6, and the operands that the kind needs.
/// "An operand that is a formula has a lower number than the entry that uses it."
fn well_formed(own: usize, (head, second): (u16, u16)) -> bool {
    let (kind, first) = take_apart(head);
    let lower = |number: u16| usize::from(number) < own;
    match kind {
        0 => second == 0,
        1 => first == 0 && second == 0,
        2..=4 => lower(first) && lower(second),
        5 => lower(second),
        _ => false,
    }
}
