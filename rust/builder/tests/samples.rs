//! What is built from its structure has the words of document 01.
use builder::layout::{bytes, exchange, record};
use builder::samples::{A, K, T};
use builder::steps::*;
use builder::table::Entry::{And, Atom, Says};
use builder::table::Table;

#[test]
fn record_a() {
    let mut table = Table::default();
    let a0 = table.number(Atom(0));
    let p7 = table.number(Says(7, a0));
    let steps = [SAYS_RIGHT, SAYS_LEFT + p7, AFFIRM, INIT + a0];
    assert_eq!(record(&table, &[p7], p7, &steps), A);
}

#[test]
fn exchange_k() {
    let mut table = Table::default();
    let (a0, a1) = (table.number(Atom(0)), table.number(Atom(1)));
    let both = table.number(And(a0, a1));
    let steps =
        [AND_LEFT + both, INIT + a0, AND_LEFT + both, INIT + a1, AND_RIGHT, INIT + a0, INIT + a1];
    assert_eq!(exchange(&table, &[both], &[a0, a1], &steps), K);
}

#[test]
fn no_entry_stands_twice() {
    let mut table = Table::default();
    let numbers = [Atom(0), Says(7, 0), Atom(0), Says(8, 0), Says(7, 0)].map(|e| table.number(e));
    assert_eq!(numbers, [0, 1, 0, 2, 1]);
    assert_eq!(table[..], T);
    assert_eq!((table.find(Says(8, 0)), table.find(Atom(1))), (Some(2), None));
    assert_eq!(table.entry(2), Says(8, 0));
}

#[test]
fn low_byte_first() {
    assert_eq!(bytes(&[1, 20487]), [1, 0, 7, 80]);
}
