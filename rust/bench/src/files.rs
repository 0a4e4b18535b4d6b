//! The files that are measured, all built here, the same in every run: valid ones, so that each is
//! walked to its end, and ones that are refused for one word.
mod build;
mod provable_table;
mod prover;
mod refused;
mod texts;

use builder::layout::bytes;
use builder::samples::{A, K};

pub use build::{
    crowded_exchange, crowded_record, deep_exchange, deep_record, exchange, record, signed_record,
};
pub use refused::{with_wrong_entry, with_wrong_step};
pub use texts::{doubled_record, doubled_tree, many_lines, typical_record};

/// A file of one of the two kinds.
pub struct File {
    pub is_record: bool,
    pub bytes: Vec<u8>,
    /// The number and the place of its refusal; none where it is valid.
    pub refusal: Option<(u8, usize)>,
}

impl File {
    fn record(words: &[u16]) -> File {
        File { is_record: true, bytes: bytes(words), refusal: None }
    }

    fn exchange(words: &[u16]) -> File {
        File { is_record: false, bytes: bytes(words), refusal: None }
    }
}

/// A record's sizes. An exchange file has a second list as long as the first.
#[derive(Clone, Copy)]
pub struct Sizes {
    pub formulas: usize,
    pub statements: usize,
    pub steps: usize,
}

pub fn record_a() -> File {
    File::record(&A)
}

pub fn sample_k() -> File {
    File::exchange(&K)
}
