//! Those that are measured. Each is first seen to give the one answer that the file was built for.

use super::files::File;
use super::measure::Contender;
use builder::texts::MOST_TEXT;
use std::fmt::Debug;
use std::hint::black_box;
use wethrynda::{Exchange, Independence, Sentences, Verdict, MOST_SIGNERS};

/// The list that is lent is not cleared between calls.
pub fn proved(file: &File) -> Contender<'_> {
    if file.is_record {
        let mut lent = [0; MOST_SIGNERS];
        repeat(move || wethrynda::check_record(black_box(&file.bytes), &mut lent))
    } else {
        repeat(|| wethrynda::check_exchange(black_box(&file.bytes)))
    }
}

pub fn plain(file: &File) -> Contender<'_> {
    if file.is_record {
        let mut lent = [0; MOST_SIGNERS];
        repeat(move || plain::check_record(black_box(&file.bytes), &mut lent))
    } else {
        repeat(|| plain::check_exchange(black_box(&file.bytes)))
    }
}

pub fn second(file: &File) -> Contender<'_> {
    if file.is_record {
        repeat(|| second::check_record(black_box(&file.bytes), MOST_SIGNERS))
    } else {
        repeat(|| second::check_exchange(black_box(&file.bytes)))
    }
}

/// The sentences of a record. The bytes that are lent are not cleared between calls either.
pub fn proved_text(file: &File) -> Contender<'_> {
    let (mut lent, mut text) = ([0; MOST_SIGNERS], vec![0; MOST_TEXT]);
    repeat(move || wethrynda::write_sentences(black_box(&file.bytes), &mut lent, &mut text))
}

pub fn plain_text(file: &File) -> Contender<'_> {
    let (mut lent, mut text) = ([0; MOST_SIGNERS], vec![0; MOST_TEXT]);
    repeat(move || plain::sentences(black_box(&file.bytes), &mut lent, &mut text))
}

pub fn second_text(file: &File) -> Contender<'_> {
    let (mut lent, mut text) = ([0; MOST_SIGNERS], vec![0; MOST_TEXT]);
    repeat(move || second::sentences(black_box(&file.bytes), &mut lent, &mut text))
}

/// Whether a principal can matter to a record.
pub fn proved_independence(file: &File, principal: u16) -> Contender<'_> {
    repeat(move || wethrynda::independent_of(black_box(&file.bytes), black_box(principal)))
}

pub fn plain_independence(file: &File, principal: u16) -> Contender<'_> {
    repeat(move || plain::independent_of(black_box(&file.bytes), black_box(principal)))
}

pub fn second_independence(file: &File, principal: u16) -> Contender<'_> {
    repeat(move || second::independent_of(black_box(&file.bytes), black_box(principal)))
}

/// One pass that sums so many bytes: what reading the text costs.
pub fn byte_sum_of(length: usize) -> Contender<'static> {
    let text = vec![b'a'; length];
    repeat(move || black_box(&text).iter().map(|&byte| byte as u64).sum::<u64>())
}

/// One pass that sums the file's bytes: what reading the file costs.
pub fn byte_sum(file: &File) -> Contender<'_> {
    repeat(|| black_box(&file.bytes).iter().map(|&byte| byte as u64).sum::<u64>())
}

fn repeat<'a, T>(mut call: impl FnMut() -> T + 'a) -> Contender<'a> {
    Box::new(move |calls| {
        for _ in 0..calls {
            black_box(call());
        }
    })
}

/// A word that is no principal's number: what the lists hold that are lent for the signers.
const LENT: u16 = u16::MAX;

/// All three give the answer that the file was built for; otherwise the benchmark ends here.
pub fn assert_answers(name: &str, file: &File) {
    if file.is_record {
        assert_record(name, file);
    } else {
        assert_exchange(name, file);
    }
}

/// Granted with the same list of signers by all three, or refused by all three with the lists as
/// they were.
fn assert_record(name: &str, file: &File) {
    let [mut by_proved, mut by_plain] = [[LENT; MOST_SIGNERS]; 2];
    let proved = match wethrynda::check_record(&file.bytes, &mut by_proved) {
        Verdict::Granted(count) => Ok(count),
        Verdict::Refused { number, place } => Err((number, place)),
    };
    let plain = plain::check_record(&file.bytes, &mut by_plain);
    let plain = plain.map_err(|refusal| (refusal.number, refusal.place));
    let second = second::check_record(&file.bytes, MOST_SIGNERS);
    let second = second.map_err(|refusal| (refusal.number, refusal.place));
    let signers = second.clone().unwrap_or_default();
    let count = signers.len();
    assert_same(name, [proved, plain, second.map(|_| count)], file.refusal.map_or(Ok(count), Err));
    for list in [by_proved, by_plain] {
        assert_eq!(list[..count], signers, "{name}, signers");
        assert!(list[count..].iter().all(|&word| word == LENT), "{name}, words after the signers");
    }
}

/// Equal for all three, or refused by all three.
fn assert_exchange(name: &str, file: &File) {
    let proved = match wethrynda::check_exchange(&file.bytes) {
        Exchange::Equal => Ok(()),
        Exchange::Refused { number, place } => Err((number, place)),
    };
    let plain = plain::check_exchange(&file.bytes);
    let plain = plain.map_err(|refusal| (refusal.number, refusal.place));
    let second = second::check_exchange(&file.bytes);
    let second = second.map_err(|refusal| (refusal.number, refusal.place));
    assert_same(name, [proved, plain, second], file.refusal.map_or(Ok(()), Err));
}

/// What the three answer, in this order, is the one answer that is right.
fn assert_same<T: Debug + PartialEq>(name: &str, answers: [T; 3], right: T) {
    for (answer, by) in answers.iter().zip(["proved", "plain", "second"]) {
        assert_eq!(*answer, right, "{name}, {by}");
    }
}

/// All three write the same text, whose length is given, after the same signers; or all three
/// refuse it as too long, and what is lent is as it was.
pub fn assert_texts(name: &str, file: &File) -> Option<usize> {
    let [mut by_proved, mut by_plain, mut by_second] =
        [0; 3].map(|_| ([LENT; MOST_SIGNERS], vec![0xff; MOST_TEXT]));
    let proved = match wethrynda::write_sentences(&file.bytes, &mut by_proved.0, &mut by_proved.1) {
        Sentences::Written { signers, bytes } => Ok((signers, bytes)),
        Sentences::Refused { number, place } => Err((number, place)),
    };
    let plain = plain::sentences(&file.bytes, &mut by_plain.0, &mut by_plain.1);
    let plain = plain.map_err(|refusal| (refusal.number, refusal.place));
    let second = second::sentences(&file.bytes, &mut by_second.0, &mut by_second.1);
    let second = second.map_err(|refusal| (refusal.number, refusal.place));
    assert_same(name, [proved, plain, second], second.or(Err((16, 0))));
    assert!(by_proved == by_second && by_plain == by_second, "{name}, what is lent");
    second.ok().map(|(_, bytes)| bytes)
}

/// All three find the record independent of the principal.
pub fn assert_independent(name: &str, file: &File, principal: u16) {
    let proved = match wethrynda::independent_of(&file.bytes, principal) {
        Independence::Independent => Ok(true),
        Independence::NotIndependent => Ok(false),
        Independence::Refused { number, place } => Err((number, place)),
    };
    let plain = plain::independent_of(&file.bytes, principal);
    let plain = plain.map_err(|refusal| (refusal.number, refusal.place));
    let second = second::independent_of(&file.bytes, principal);
    let second = second.map_err(|refusal| (refusal.number, refusal.place));
    assert_same(name, [proved, plain, second], Ok(true));
}
