//! Files, written out from their parts.
#![allow(dead_code)] // each test uses a part

pub type Table<'a> = &'a [(u16, u16)];

/// Table T of 01, and the table of sample K.
pub const T: Table = &[(0, 0), (20487, 0), (20488, 0)];
pub const AND: Table = &[(0, 0), (1, 0), (12288, 1)];

// The code part of a step word.
pub const AFFIRM: u16 = 4096;
pub const IMPLIES_RIGHT: u16 = 2 * 4096;
pub const IMPLIES_LEFT: u16 = 3 * 4096;
pub const FALSE_LEFT: u16 = 4 * 4096;
pub const AND_RIGHT: u16 = 5 * 4096;
pub const AND_LEFT: u16 = 6 * 4096;
pub const OR_FIRST: u16 = 7 * 4096;
pub const OR_SECOND: u16 = 8 * 4096;
pub const OR_LEFT: u16 = 9 * 4096;
pub const SAYS_RIGHT: u16 = 10 * 4096;
pub const SAYS_LEFT: u16 = 11 * 4096;

pub fn bytes(parts: &[&[u16]]) -> Vec<u8> {
    parts.concat().iter().flat_map(|word| word.to_le_bytes()).collect()
}

fn file(sizes: [usize; 4], table: Table, lists: &[&[u16]]) -> Vec<u8> {
    let heads: Vec<u16> = table.iter().map(|entry| entry.0).collect();
    let seconds: Vec<u16> = table.iter().map(|entry| entry.1).collect();
    bytes(&[&sizes.map(|size| size as u16), &heads, &seconds, &lists.concat()])
}

pub fn record_file(table: Table, statements: &[u16], goal: u16, steps: &[u16]) -> Vec<u8> {
    file([table.len(), statements.len(), steps.len(), goal.into()], table, &[statements, steps])
}

pub fn exchange_file(table: Table, first: &[u16], second: &[u16], steps: &[u16]) -> Vec<u8> {
    file([table.len(), first.len(), second.len(), steps.len()], table, &[first, second, steps])
}

/// Adds the ands of these papers of atom 0 to a table. The last of them is the goal, and each paper
/// is proved from itself, in this order, and so opened.
pub fn all_opened(table: Table, papers: &[u16]) -> (Vec<(u16, u16)>, u16, Vec<u16>) {
    let (last, others) = papers.split_last().expect("a paper");
    let (mut table, mut goal) = (table.to_vec(), *last);
    for paper in others.iter().rev() {
        table.push((3 * 4096 + paper, goal));
        goal = table.len() as u16 - 1;
    }
    let opened = |paper: &u16| [SAYS_RIGHT, SAYS_LEFT + paper, AFFIRM, 0];
    let mut steps: Vec<u16> =
        others.iter().flat_map(|paper| [&[AND_RIGHT], &opened(paper)[..]].concat()).collect();
    steps.extend(opened(last));
    (table, goal, steps)
}
