//! Records whose papers are opened: some says left names them, so their principals sign (02).
use crate::layout;
use crate::steps::{AFFIRM, AND_RIGHT, INIT, SAYS_LEFT, SAYS_RIGHT};
use crate::table::Entry::{self, And, Atom, Says};
use crate::table::Table;

/// A paper that says an atom, proved from itself.
pub fn opened(paper: u16, atom: u16) -> [u16; 4] {
    [SAYS_RIGHT, SAYS_LEFT + paper, AFFIRM, INIT + atom]
}

/// A goal that takes all of these formulas, of which each has its proof, and its steps, which prove
/// them in this order. The number of an and is that in the table. The ands halve the formulas, so
/// that the proof's text is not too long.
pub fn all_of(
    proofs: &[(u16, Vec<u16>)],
    number: &mut impl FnMut(Entry) -> u16,
) -> (u16, Vec<u16>) {
    if let [(formula, proof)] = proofs {
        return (*formula, proof.clone());
    }
    assert!(!proofs.is_empty(), "there is a formula");
    let (first, second) = proofs.split_at(proofs.len() / 2);
    let ((a, of_a), (b, of_b)) = (all_of(first, number), all_of(second, number));
    (number(And(a, b)), [&[AND_RIGHT], &of_a[..], &of_b].concat())
}

/// The same for papers that say one atom, which are opened. Without a paper the goal is the atom,
/// which then has to be held.
pub fn all_opened(table: &mut Table, papers: &[u16], atom: u16) -> (u16, Vec<u16>) {
    if papers.is_empty() {
        return (atom, vec![INIT + atom]);
    }
    let proofs: Vec<_> =
        papers.iter().map(|&paper| (paper, opened(paper, atom).to_vec())).collect();
    all_of(&proofs, &mut |entry| table.number(entry))
}

/// The words of a record: atom 0 as so many orders, and then papers of these principals that say it,
/// in this order. The papers of the signers are opened, in theirs.
pub fn signed(orders: usize, principals: &[u16], signers: &[u16]) -> Vec<u16> {
    let mut table = Table::default();
    let atom = table.number(Atom(0));
    let mut paper = |&principal: &u16| table.number(Says(principal, atom));
    let papers: Vec<u16> = principals.iter().map(&mut paper).collect();
    let used: Vec<u16> = signers.iter().map(&mut paper).collect();
    let (goal, steps) = all_opened(&mut table, &used, atom);
    layout::record(&table, &[vec![atom; orders], papers].concat(), goal, &steps)
}
