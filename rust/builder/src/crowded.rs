//! Tables that crowd the index by which the proved checker makes test 5: their entries fall to few
//! of its roots. Soon more entries are passed than the checker allows, and it goes along chains by
//! head instead. The generator asks of the factor only that it is odd.
use crate::table::Entry::{self, And, Atom, False, Implies, Or, Says};
use crate::table::Table;
use std::collections::VecDeque;

// As crates/table_check/src/by_index.rt has it, the root of an entry is (head + second × FACTOR) ×
// SPREAD mod 65,536, times the number of roots, over 65,536. As repeat.rt has it, a table of more
// than 256 formulas has MANY_ROOTS where it has no more than MANY, else MOST_ROOTS; and the index is
// given up where it has passed more than a quarter as many entries as there are. tests/crowded.rs
// compares all this with the two.
pub const FACTOR: u16 = 39277;
pub const SPREAD: u16 = 40_503;
pub const MANY: usize = 1024;
pub const MANY_ROOTS: usize = 4096;
pub const MOST_ROOTS: usize = 16_384;

/// How many spread sums have one root where the roots are most. Where they are many, those of four
/// roots that follow one another have one.
const SHARE: usize = 65_536 / MOST_ROOTS;

/// The number whose product with an odd one is 1 more than a multiple of 65,536. Each step doubles
/// the number of low bits for which that holds, from three.
const fn inverse(odd: u16) -> u16 {
    let (mut inverse, mut step) = (odd, 0);
    while step < 3 {
        inverse = inverse.wrapping_mul(2u16.wrapping_sub(odd.wrapping_mul(inverse)));
        step += 1;
    }
    inverse
}

/// The root of an entry's head and second, of so many.
fn root((head, second): (u16, u16), roots: usize) -> usize {
    let sum = head.wrapping_add(second.wrapping_mul(FACTOR));
    usize::from(sum.wrapping_mul(SPREAD)) * roots / 65_536
}

/// The entries of a root, of the most, whose greatest formula number is `newest`.
fn entries_with(newest: u16, root: usize) -> Vec<Entry> {
    let spread = root * SHARE..(root + 1) * SHARE;
    let sums = spread.map(|spread| (spread as u16).wrapping_mul(inverse(SPREAD)));
    let entries = sums.flat_map(|sum| {
        // as second: one head leads to the sum, which may have any principal, or a formula up to
        // the newest
        let head = sum.wrapping_sub(newest.wrapping_mul(FACTOR));
        let as_second = Entry::of((head, newest)).filter(|&entry| match entry {
            Atom(_) | False => false,
            Implies(a, _) | And(a, _) | Or(a, _) => a <= newest,
            Says(..) => true,
        });
        // as first: one second leads to the sum, where it is older
        let with_second = |kind: fn(u16, u16) -> Entry| {
            let (head, _) = kind(newest, 0).words();
            let second = sum.wrapping_sub(head).wrapping_mul(inverse(FACTOR));
            (second < newest).then_some(kind(newest, second))
        };
        let as_first = [Implies, And, Or].map(with_second).into_iter().flatten();
        as_second.into_iter().chain(as_first)
    });
    entries.collect()
}

/// Fills a table that has a formula to a size, each time from the first root that has an entry
/// left: small tables need some roots, and most of a large one falls into the first.
pub fn fill_crowded(table: &mut Table, formulas: usize) {
    let mut left: Vec<VecDeque<Entry>> = vec![];
    let mut seen = 0;
    while table.len() < formulas {
        for newest in seen..table.len() {
            for (root, entries) in left.iter_mut().enumerate() {
                entries.extend(entries_with(newest as u16, root));
            }
        }
        seen = table.len();
        if let Some(entry) = left.iter_mut().find_map(VecDeque::pop_front) {
            table.number(entry);
        } else {
            let root = left.len();
            assert!(root < MOST_ROOTS, "no root has an entry left");
            left.push((0..seen).flat_map(|newest| entries_with(newest as u16, root)).collect());
        }
    }
}

/// How many entries have each root, of a part of a table of so many formulas, more than 256.
fn at_each_root(part: &[(u16, u16)], formulas: usize) -> Vec<usize> {
    let roots = if formulas <= MANY { MANY_ROOTS } else { MOST_ROOTS };
    let mut counts = vec![0; roots];
    for &words in part {
        counts[root(words, roots)] += 1;
    }
    counts
}

/// How many entries share the root that has most, in a table of more than 256.
pub fn most_at_one_root(table: &[(u16, u16)]) -> usize {
    at_each_root(table, table.len()).into_iter().max().expect("there are roots")
}

/// Whether the index is given up before the end of the first part of a table of so many formulas,
/// more than 256: each entry but the first of its root passes one or more.
pub fn is_given_up(part: &[(u16, u16)], formulas: usize) -> bool {
    let roots = at_each_root(part, formulas).into_iter().filter(|&count| count > 0).count();
    part.len() - roots > formulas / 4
}
