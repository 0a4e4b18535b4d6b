//! The index that is crowded is the proved checker's. A table made against another one is answered
//! alike, but not by the chains, and nothing else would show it.
use builder::crowded::{FACTOR, MANY, MANY_ROOTS, MOST_ROOTS, SPREAD};
use std::fs;
use std::path::Path;

/// A source of the crate `table_check`.
fn source(name: &str) -> String {
    let package = Path::new(env!("CARGO_MANIFEST_DIR"));
    let path = package.join("../../crates/table_check/src").join(name);
    fs::read_to_string(&path).unwrap_or_else(|error| panic!("{}: {error}", path.display()))
}

fn assert_in(name: &str, text: &str) {
    assert!(source(name).contains(text), "{name} has no {text}, as src/crowded.rs says");
}

#[test]
fn the_root_is_that_of_by_index() {
    let sum = format!("head as usize + second as usize * {FACTOR}");
    assert_in("by_index.rt", &format!("    ({sum}) * {SPREAD} % 65536 * roots / 65536\n"));
}

#[test]
fn the_sizes_are_those_of_repeat() {
    for (name, value) in [("MANY", MANY), ("MANY_ROOTS", MANY_ROOTS), ("MOST_ROOTS", MOST_ROOTS)] {
        assert_in("repeat.rt", &format!("const {name}: usize = {value};"));
    }
    assert_in("repeat.rt", "let quarter = table.heads.len() / 4;");
}
