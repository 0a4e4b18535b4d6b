//! Records for the table of sentences.
use super::{record, File, Sizes};
use builder::layout;
use builder::table::Entry::And;
use builder::texts::{doubled, taken_apart, tree};

pub fn typical_record() -> File {
    record(Sizes { formulas: 200, statements: 20, steps: 300 })
}

/// A text of about 1 MiB, and not more.
pub fn many_lines() -> File {
    record(Sizes { formulas: 256, statements: 32, steps: 12_288 })
}

/// The last of 12 doubled formulas from atom 0: few steps have long goals, and many have short
/// ones.
pub fn doubled_tree() -> File {
    File::record(&layout::record(&doubled(12, And), &[0], 12, &tree(12)))
}

/// Atom 0 from the last of 40 doubled formulas, whose text has more than 2^40 bytes.
pub fn doubled_record() -> File {
    File::record(&layout::record(&doubled(40, And), &[40], 0, &taken_apart(40)))
}
