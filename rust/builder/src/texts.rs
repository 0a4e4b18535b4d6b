//! Records whose proofs in sentences are long: formulas over themselves, whose texts soon are
//! longer than any memory.
use crate::steps::{AND_LEFT, AND_RIGHT, INIT};
use crate::table::Entry::{self, Atom};
use crate::table::Table;

/// So many bytes the program lends for a text: 1 MiB, as in `crates/report/src/lib.rt`.
pub const MOST_TEXT: usize = 1048576;

/// Atom 0, and so many entries after it, each over the one before it and itself: (A and A), or
/// another one of two operands. Entry n is n times doubled.
pub fn doubled(times: u16, over: fn(u16, u16) -> Entry) -> Table {
    let mut table = Table::default();
    let atom = table.number(Atom(0));
    (0..times).fold(atom, |last, _| table.number(over(last, last)));
    table
}

/// What the steps of [`tree`] prove, one after the other: the numbers of the entries.
pub fn tree_goals(times: u16) -> Vec<u16> {
    if times == 0 {
        return vec![0];
    }
    let half = tree_goals(times - 1);
    [&[times], &half[..], &half].concat()
}

/// The steps for entry `times` of a table doubled by and, from atom 0: a tree of and right, whose
/// tops are init.
pub fn tree(times: u16) -> Vec<u16> {
    let step = |goal| if goal == 0 { INIT } else { AND_RIGHT };
    tree_goals(times).into_iter().map(step).collect()
}

/// The steps for atom 0 from entry `times` of such a table: and left takes one entry after the
/// other apart.
pub fn taken_apart(times: u16) -> Vec<u16> {
    (1..=times).rev().map(|entry| AND_LEFT + entry).chain([INIT]).collect()
}
