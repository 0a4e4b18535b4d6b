//! The sample exchange files. Each line was worked out by hand from document 01, its rules and the
//! order of its refusals; the checker has no part in it.
mod files;
mod force;
mod proofs;

use crate::exchange::Exchange;
use crate::sample::Section;
use crate::three_halls;
use builder::steps::*;
use builder::table::Entry::{And, Atom};
use builder::table::Table;

fn exchange(table: &[(u16, u16)], first: &[u16], second: &[u16], proofs: &[&[u16]]) -> Exchange {
    let proofs = proofs.iter().map(|proof| proof.to_vec()).collect();
    Exchange { table: table.to_vec(), first: first.to_vec(), second: second.to_vec(), proofs }
}

pub fn sections() -> Vec<Section<Exchange>> {
    vec![
        files::of_document_01(),
        files::layout(),
        files::limits(),
        proofs::order_of_proofs(),
        proofs::said_twice(),
        proofs::depth(),
        force::misreadings(),
        force::equal_force(),
        three_halls::folds(),
    ]
}

/// A table of atoms 0 and 1.
fn two_atoms() -> (Table, u16, u16) {
    let mut table = Table::default();
    let a0 = table.number(Atom(0));
    let a1 = table.number(Atom(1));
    (table, a0, a1)
}

/// "table atom 0, atom 1, their and": the table of K and what it has.
fn table_k() -> (Table, u16, u16, u16) {
    let (mut table, a0, a1) = two_atoms();
    let both = table.number(And(a0, a1));
    (table, a0, a1, both)
}

/// "lists [2] and [0, 1], steps 24578 0 24578 1 20480 0 1"
fn exchange_k() -> Exchange {
    let (table, a0, a1, both) = table_k();
    exchange(
        &table,
        &[both],
        &[a0, a1],
        &[
            &[AND_LEFT + both, INIT + a0],
            &[AND_LEFT + both, INIT + a1],
            &[AND_RIGHT, INIT + a0, INIT + a1],
        ],
    )
}

/// Lists of so many times the same atom, with the proofs.
fn same_atom(first: usize, second: usize) -> Exchange {
    let mut table = Table::default();
    let a0 = table.number(Atom(0));
    exchange(&table, &vec![a0; first], &vec![a0; second], &vec![&[INIT + a0][..]; first + second])
}
