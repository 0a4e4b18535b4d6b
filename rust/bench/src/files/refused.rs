//! Files that are refused: valid ones with one word made wrong.
use super::{File, Sizes};
use builder::steps::NO_RULE;

/// The first head that is of no kind.
const NO_KIND: u16 = 6 * 4096;

/// Heads come after four words, the sizes and, in a record, the goal.
const HEADS_FROM: usize = 4;

/// The file with another word at a place among its words, for which it is refused so.
fn with_word(mut file: File, at: usize, word: u16, refusal: (u8, usize)) -> File {
    file.bytes[2 * at..2 * at + 2].copy_from_slice(&word.to_le_bytes());
    File { refusal: Some(refusal), ..file }
}

/// A file of these sizes in which a step, counted from 0, is of no rule. Steps are a file's last
/// words.
pub fn with_wrong_step(build: fn(Sizes) -> File, sizes: Sizes, step: usize) -> File {
    let file = build(sizes);
    let steps_from = file.bytes.len() / 2 - sizes.steps;
    with_word(file, steps_from + step, NO_RULE, (11, step))
}

/// A file of these sizes in which an entry, counted from 0, is of no kind.
pub fn with_wrong_entry(build: fn(Sizes) -> File, sizes: Sizes, entry: usize) -> File {
    with_word(build(sizes), HEADS_FROM + entry, NO_KIND, (4, entry))
}
