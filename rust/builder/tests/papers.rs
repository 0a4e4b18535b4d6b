//! The words of records whose papers are opened.
use builder::layout::record;
use builder::papers::{all_opened, opened, signed};
use builder::samples::{A, T};
use builder::table::Entry::{Atom, Says};
use builder::table::Table;

#[test]
fn record_a() {
    assert_eq!(opened(1, 0), [40960, 45057, 4096, 0]);
    assert_eq!(signed(0, &[7], &[7]), A);
}

#[test]
fn two_papers() {
    let mut table = Table::default();
    let [a0, p7, p8] = [Atom(0), Says(7, 0), Says(8, 0)].map(|entry| table.number(entry));
    let (goal, steps) = all_opened(&mut table, &[p8, p7], a0);
    let both = [&T[..], &[(12288 + 2, 1)]].concat();
    assert_eq!((&table[..], goal), (&both[..], 3));
    assert_eq!(steps, [20480, 40960, 45058, 4096, 0, 40960, 45057, 4096, 0]);
    assert_eq!(signed(1, &[7, 8, 7], &[8, 7]), record(&both, &[0, 1, 2, 1], 3, &steps));
}

#[test]
fn unused_papers() {
    assert_eq!(signed(2, &[7, 8], &[]), record(&T, &[0, 0, 1, 2], 0, &[0]));
    assert_eq!(signed(0, &[7, 8], &[7]), record(&T, &[1, 2], 1, &opened(1, 0)));
}
