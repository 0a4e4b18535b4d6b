//! The checks of release records and of exchange files, the proof of a record in sentences, and the
//! test whether a principal can matter to a record's goal, which are written and proved in Rattle,
//! for Rust.
//!
//! The contracts of the functions behind [`check_record`], [`check_exchange`], [`write_sentences`]
//! and [`independent_of`] stand in `crates/ffi/src/lib.rt`; what a record and an exchange file are,
//! and what each refusal means, stands in `crates/record/specs/` and `crates/exchange/specs/`, what
//! the text of a proof is in `crates/sentences/specs/`, and what independent means in
//! `crates/independence/specs/`.

/// What the check of a record answers.
#[derive(Clone, Copy, Debug, PartialEq, Eq)]
pub enum Verdict {
    /// The record is granted, with so many signers.
    Granted(usize),
    /// The record is refused, by the first reason that applies: its number, from 1 to 15, and the
    /// place where it was found, counted from 0.
    Refused { number: u8, place: usize },
}

/// What the check of an exchange file answers.
#[derive(Clone, Copy, Debug, PartialEq, Eq)]
pub enum Exchange {
    /// The file proves each statement of its second list from its first list, and each of the first
    /// from the second; so the two lists are equal in force: whatever has a proof from one has a
    /// proof from the other.
    Equal,
    /// The file does not show it; the lists may be equal in force all the same. It is refused by
    /// the first reason that applies: its number, from 1 to 15 but not 6 or 8, and the place where
    /// it was found, counted from 0, statements through the first list and then the second, steps
    /// through all proofs.
    Refused { number: u8, place: usize },
}

/// What the writing of a record's proof in sentences answers.
#[derive(Clone, Copy, Debug, PartialEq, Eq)]
pub enum Sentences {
    /// The record is granted, with so many signers, and its proof is written, in so many bytes.
    Written { signers: usize, bytes: usize },
    /// The record is refused, or granted and its text longer than what is lent, which is 16: the
    /// number of the first reason that applies, from 1 to 16, and the place where it was found,
    /// counted from 0.
    Refused { number: u8, place: usize },
}

/// What the test whether a principal can matter to a record's goal answers.
#[derive(Clone, Copy, Debug, PartialEq, Eq)]
pub enum Independence {
    /// Each proof of the goal stays one, step by step, whatever papers of his there are, or none.
    Independent,
    /// His papers may matter; that they do is not said.
    NotIndependent,
    /// The file is no record, or there is no such principal, which is 17: the number of the first
    /// reason that applies, from 1 to 7 or 17, and the place where it was found, counted from 0.
    Refused { number: u8, place: usize },
}

/// A list of so many words is long enough for the signers of every record.
pub const MOST_SIGNERS: usize = 256;

// As `include/wethrynda.h` has it. Nothing checks this against the Rattle source: a slice is a
// pointer and then a length.
extern "C" {
    fn wethrynda_check_record(
        file: *const u8,
        file_length: usize,
        signers: *mut u16,
        signers_length: usize,
    ) -> u64;
    fn wethrynda_check_exchange(file: *const u8, file_length: usize) -> u64;
    fn wethrynda_write_sentences(
        file: *const u8,
        file_length: usize,
        signers: *mut u16,
        signers_length: usize,
        text: *mut u8,
        text_length: usize,
        written: *mut u64,
        written_length: usize,
    ) -> u64;
    fn wethrynda_independent_of(file: *const u8, file_length: usize, principal: u16) -> u64;
}

/// The number and the place of a refusal, which is number × 2^32 + place. Every other answer is
/// less than 2^32. The contracts bound them: number by 17, place by 16,384.
fn refusal(answer: u64) -> Option<(u8, usize)> {
    let (high, low) = (answer >> 32, answer & 0xffff_ffff);
    (high != 0).then_some((high as u8, low as usize))
}

/// Checks a record: any bytes, of any length.
///
/// Granted, its signers, principal numbers from 0 to 4095, stand at the start of the list that is
/// lent, each once, strictly rising by number; the words after them are as they were. A signer is a
/// principal K with a statement K says A that some says left of the proof names. Refused, no word of
/// the list has changed. A list shorter than the number of signers is refusal 8, after all others.
///
/// It needs about 300 KB of stack, which a thread has by default.
pub fn check_record(file: &[u8], signers: &mut [u16]) -> Verdict {
    let (list, room) = (signers.as_mut_ptr(), signers.len());
    // SAFETY: both pointers are those of slices, so they are not null and are aligned, even where
    // the slice is empty, and the lengths are theirs; no other reference reaches the list while it
    // is lent, so the two do not overlap. The function's contract asks nothing more, and it is
    // proved to stay inside what is lent.
    let answer = unsafe { wethrynda_check_record(file.as_ptr(), file.len(), list, room) };
    match refusal(answer) {
        Some((number, place)) => Verdict::Refused { number, place },
        // a grant is its count, 256 at most
        None => Verdict::Granted(answer as usize),
    }
}

/// Checks an exchange file: any bytes, of any length. Nothing is changed.
///
/// It needs about 300 KB of stack, which a thread has by default.
pub fn check_exchange(file: &[u8]) -> Exchange {
    // SAFETY: the pointer is that of a slice, so it is not null, even where the slice is empty, and
    // the length is its own. The function's contract asks nothing more, and it is proved to stay
    // inside what is lent.
    match refusal(unsafe { wethrynda_check_exchange(file.as_ptr(), file.len()) }) {
        Some((number, place)) => Exchange::Refused { number, place },
        None => Exchange::Equal,
    }
}

/// Checks a record, any bytes of any length, and writes its proof as text: a line for each step,
/// ended by a line feed.
///
/// Written, the signers stand at the start of the list that is lent, as after [`check_record`], and
/// the text at the start of the bytes that are lent; the words and the bytes after them are as they
/// were. Refused, no word and no byte has changed. Bytes that are fewer than the whole text are
/// refusal 16, after all others, and so after 8. A short proof may have a text that is too long for any memory: a
/// record of some 16,000 bytes can have one of more than 2^4000.
///
/// It needs about 800 KB of stack, which a thread has by default: a formula may be 4,095 operands
/// deep.
pub fn write_sentences(file: &[u8], signers: &mut [u16], text: &mut [u8]) -> Sentences {
    let (list, room) = (signers.as_mut_ptr(), signers.len());
    let (bytes, length) = (text.as_mut_ptr(), text.len());
    let mut written = 0;
    // SAFETY: the three pointers with lengths are those of slices, so they are not null and are
    // aligned, even where the slice is empty, and the lengths are theirs; the fourth is that of one
    // number. No other reference reaches the list, the text or the number while they are lent, so
    // no two of the four overlap. The function's contract asks nothing more, and it is proved to
    // stay inside what is lent.
    let answer = unsafe {
        wethrynda_write_sentences(
            file.as_ptr(),
            file.len(),
            list,
            room,
            bytes,
            length,
            &mut written,
            1,
        )
    };
    match refusal(answer) {
        Some((number, place)) => Sentences::Refused { number, place },
        // a count of signers, 256 at most; and no more bytes are written than are lent
        None => Sentences::Written { signers: answer as usize, bytes: written as usize },
    }
}

/// Tests whether a principal's papers could touch the goal of a record, any bytes of any length.
/// Nothing is changed. The record's steps are counted and not looked at, and a list for signers is
/// not asked for, so 1 to 7 apply, and after them 17: the principal's number is above 4,095.
///
/// It needs about 180 KB of stack, which a thread has by default.
pub fn independent_of(file: &[u8], principal: u16) -> Independence {
    // SAFETY: the pointer is that of a slice, so it is not null, even where the slice is empty, and
    // the length is its own. The function's contract asks nothing more, and it is proved to stay
    // inside what is lent.
    let answer = unsafe { wethrynda_independent_of(file.as_ptr(), file.len(), principal) };
    match (refusal(answer), answer) {
        (Some((number, place)), _) => Independence::Refused { number, place },
        (None, 0) => Independence::Independent,
        (None, _) => Independence::NotIndependent,
    }
}
