//! The words of doubled formulas and their proofs, and how many bytes are lent for a text.
use builder::table::Entry::{And, Or};
use builder::texts::{doubled, taken_apart, tree, tree_goals, MOST_TEXT};
use std::fs;
use std::path::Path;

#[test]
fn tables() {
    assert_eq!(doubled(0, And)[..], [(0, 0)]);
    assert_eq!(doubled(3, And)[..], [(0, 0), (12288, 0), (12289, 1), (12290, 2)]);
    assert_eq!(doubled(2, Or)[..], [(0, 0), (16384, 0), (16385, 1)]);
    assert_eq!(doubled(4095, And).len(), 4096);
}

#[test]
fn proofs() {
    assert_eq!((tree(0), taken_apart(0)), (vec![0], vec![0]));
    assert_eq!(tree_goals(2), [2, 1, 0, 0, 1, 0, 0]);
    assert_eq!(tree(2), [20480, 20480, 0, 0, 20480, 0, 0]);
    assert_eq!(taken_apart(2), [24578, 24577, 0]);
}

#[test]
fn the_program_lends_so_many_bytes() {
    let path = Path::new(env!("CARGO_MANIFEST_DIR")).join("../../crates/report/src/lib.rt");
    let source = fs::read_to_string(&path).expect("the source of report");
    let line = format!("const MOST_TEXT: usize = {MOST_TEXT};");
    assert!(source.lines().any(|found| found == line), "{} has no {line}", path.display());
}
