//! Whether a principal can matter (02), in one pass over the table, upward. Each entry gets two
//! marks: whether a says-formula of the principal stands on the proving side of it where it stands
//! on the proving side itself, and where it stands on the given side.

use super::limits::MOST_FORMULAS;
use super::Record;

const PROVING: u8 = 1;
const GIVEN: u8 = 2;
const BOTH: u8 = PROVING | GIVEN;

/// By kind and by the marks of the first operand, which of them an entry takes: those of an implies
/// are turned, and an atom, false and what someone says have no formula there.
const OF_FIRST: [[u8; 4]; 16] = {
    let mut marks = [[0; 4]; 16];
    marks[2] = [0, GIVEN, PROVING, BOTH];
    marks[3] = [0, PROVING, GIVEN, BOTH];
    marks[4] = marks[3];
    marks
};

/// By kind, whether an entry takes the marks of its second operand.
const OF_SECOND: [u8; 16] = [0, 0, BOTH, BOTH, BOTH, BOTH, 0, 0, 0, 0, 0, 0, 0, 0, 0, 0];

const SAYS: u16 = 5 << 12;

/// For a record that passed test 7. A short table has few marks to clear.
pub fn is_independent(record: &Record, principal: u16) -> bool {
    match record.heads.len() {
        0..=64 => is_independent_in::<64>(record, principal),
        65..=512 => is_independent_in::<512>(record, principal),
        _ => is_independent_in::<MOST_FORMULAS>(record, principal),
    }
}

/// With room for the marks of so many entries, a power of two.
fn is_independent_in<const ROOM: usize>(record: &Record, principal: u16) -> bool {
    let own_head = SAYS + principal;
    let mut marks = [0; ROOM];
    for (i, (head, second)) in record.heads.iter().zip(record.seconds.iter()).enumerate() {
        let kind = (head >> 12) as usize;
        let first = marks[(head & 4095) as usize % ROOM] & BOTH;
        marks[i % ROOM] = OF_FIRST[kind][first as usize]
            | marks[second as usize % ROOM] & OF_SECOND[kind]
            | if head == own_head { PROVING } else { 0 };
    }
    let is_apart =
        |n: u16| record.heads.at(n as usize) == own_head || marks[n as usize % ROOM] & GIVEN == 0;
    marks[record.goal as usize % ROOM] & PROVING == 0 && record.statements.iter().all(is_apart)
}
