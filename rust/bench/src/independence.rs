//! The table of independence: whether a principal can matter to a record, by the three checkers.

use super::contenders::{
    assert_independent, byte_sum, plain_independence, proved_independence, second_independence,
};
use super::files::{self, File, Sizes};

/// A record, and a principal of whom it is independent, so that all statements are looked at.
pub struct Question {
    name: &'static str,
    file: File,
    principal: u16,
}

/// Of each all three are first seen to answer independent.
pub fn questions() -> Vec<Question> {
    let of = |name, file, principal| {
        assert_independent(name, &file, principal);
        Question { name, file, principal }
    };
    let among = |name, formulas, statements, steps| {
        let file = files::record(Sizes { formulas, statements, steps });
        let principal = unheard(&file);
        of(name, file, principal)
    };
    vec![
        of("small: record A of 01", files::record_a(), 8),
        among("typical: record, F 200, S 20, N 300", 200, 20, 300),
        among("widest table: record, F 4,096, S 256, N 24", 4096, 256, 24),
        among("all together: record, F 4,096, S 256, N 16,384", 4096, 256, 16_384),
    ]
}

/// The first in the table who says something and of whom the record is independent.
fn unheard(file: &File) -> u16 {
    let words = file.bytes.chunks_exact(2).map(|pair| u16::from_le_bytes([pair[0], pair[1]]));
    let formulas = words.clone().next().expect("a record has its sizes");
    let says = words.skip(4).take(formulas.into()).filter(|head| head / 4096 == 5);
    let mut principals = says.map(|head| head % 4096);
    let found =
        principals.find(|&principal| second::independent_of(&file.bytes, principal) == Ok(true));
    found.expect("not all of them are heard")
}

pub fn line(question: &Question) -> String {
    let Question { name, file, principal } = question;
    let contenders = vec![
        proved_independence(file, *principal),
        plain_independence(file, *principal),
        second_independence(file, *principal),
        byte_sum(file),
    ];
    super::line(name, file.bytes.len(), contenders)
}
