//! Tables that crowd the index by which the proved checker makes test 5, so that it goes along its
//! chains by head: without a repeat, with one, and with two under different heads.
use crate::identity::identity;
use crate::parts::{Kind, Parts};
use builder::crowded::{fill_crowded, is_given_up};
use builder::table::Entry::{self, And, Atom, Or, Says};
use builder::table::Table;

/// For either of the two indices that are given up, a table with room to spare and a full one.
pub const SIZES: [usize; 4] = [300, 1024, 1025, 4096];

/// What every table begins with. All of it is stated.
const BEGINNING: [Entry; 7] =
    [Atom(0), Atom(1), And(0, 0), Or(0, 0), And(0, 1), Or(0, 1), Says(7, 0)];

/// The entries that stand again, at the table's end. Chains are walked by the number of their first
/// entry, so And(0, _) before Or(0, _): of the two repeats the one with the higher number is found
/// first, and the other counts.
pub const REPEATS: [&[Entry]; 3] = [&[], &[And(0, 1)], &[Or(0, 1), And(0, 1)]];

/// A file that is right but for the entries that stand again.
pub fn crowded(kind: Kind, formulas: usize, again: &[Entry]) -> Parts {
    let mut table = Table::default();
    let stated = BEGINNING.map(|entry| table.number(entry)).to_vec();
    fill_crowded(&mut table, formulas);
    // the index is given up before the first repeat
    assert!(is_given_up(&table[..table.len() - again.len()], table.len()));
    let mut parts = over(kind, &table, stated);
    for (place, entry) in (formulas - again.len()..).zip(again) {
        parts.table[place] = entry.words();
    }
    parts
}

/// A right file over a table: the last of its statements is the goal, or they stand on either side.
fn over(kind: Kind, table: &Table, stated: Vec<u16>) -> Parts {
    match kind {
        Kind::Record => {
            let goal = stated[stated.len() - 1];
            Parts::record(table, stated, goal, identity(table, goal))
        }
        Kind::Exchange => {
            let other: Vec<u16> = stated.iter().rev().copied().collect();
            let due = other.iter().chain(&stated);
            let proofs: Vec<Vec<u16>> = due.map(|&goal| identity(table, goal)).collect();
            Parts::exchange(table, stated, other, &proofs)
        }
    }
}
