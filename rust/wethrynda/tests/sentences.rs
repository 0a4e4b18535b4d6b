//! A record's proof in sentences through the wrapper: the answer, every word of the list and every
//! byte of the text that are lent to it.
mod common;

use builder::samples::T;
use builder::table::Entry::And;
use builder::texts::{doubled, tree, tree_goals, MOST_TEXT};
use common::{deepest, noise, on_a_small_stack, record, samples, Answer, Deepest};
use std::fmt::Write;
use wethrynda::{check_record, write_sentences, Sentences, Verdict, MOST_SIGNERS};

/// What is lent before the call: other words than any principal's number, other bytes than any of a
/// text, and another at each place.
fn lent(words: usize, bytes: usize) -> (Vec<u16>, Vec<u8>) {
    let list = (0..words).map(|place| 60_000 - place as u16).collect();
    (list, (0..bytes).map(|place| 128 + (place % 127) as u8).collect())
}

/// Refused so, with no word of the list and no byte of the text changed.
fn assert_refused(file: &[u8], [words, bytes]: [usize; 2], number: u8, place: usize, about: &str) {
    let (mut list, mut text) = lent(words, bytes);
    let about = format!("{about}, {words} words and {bytes} bytes");
    let answer = write_sentences(file, &mut list, &mut text);
    assert_eq!(answer, Sentences::Refused { number, place }, "{about}");
    assert!((list, text) == lent(words, bytes), "{about}");
}

/// Written, with these signers and this text at the start of what is lent, and the rest as it was.
fn assert_written(
    file: &[u8],
    [words, bytes]: [usize; 2],
    signers: &[u16],
    text: &str,
    about: &str,
) {
    let (mut list, mut lent_text) = lent(words, bytes);
    let about = format!("{about}, {words} words and {bytes} bytes");
    let answer = write_sentences(file, &mut list, &mut lent_text);
    let (count, length) = (signers.len(), text.len());
    assert_eq!(answer, Sentences::Written { signers: count, bytes: length }, "{about}");
    let (list_before, text_before) = lent(words, bytes);
    assert_eq!(list, [signers, &list_before[count..]].concat(), "{about}");
    assert!(lent_text == [text.as_bytes(), &text_before[length..]].concat(), "{about}");
}

/// With just enough room and with more, written; with a byte or a word less, refused.
fn assert_sentences(file: &[u8], signers: &[u16], text: &str, about: &str) {
    let (words, bytes) = (signers.len(), text.len());
    for room in [[words, bytes], [words + 1, bytes], [MOST_SIGNERS, bytes + 1], [1000, 2 * bytes]] {
        assert_written(file, room, signers, text, about);
    }
    for few in [0, 1, bytes / 2, bytes - 1] {
        assert_refused(file, [words, few], 16, 0, about);
        assert_refused(file, [MOST_SIGNERS, few], 16, 0, about);
    }
    // 8 "is tested after 15 and before 16" (02)
    if words > 0 {
        for bytes in [0, bytes - 1, bytes, bytes + 1] {
            assert_refused(file, [words - 1, bytes], 8, 0, about);
            assert_refused(file, [0, bytes], 8, 0, about);
        }
    }
}

const TEXT_OF_A: &str = "0 says right for (p7 says a0)\n\
                         1 says left (p7 says a0) for p7 affirms a0\n\
                         2 affirm for p7 affirms a0\n\
                         3 init a0 for a0\n";

#[test]
fn record_a_as_document_02_writes_it() {
    let file = record(&[(0, 0), (20487, 0)], &[1], 1, &[40960, 45057, 4096, 0]);
    assert_sentences(&file, &[7], TEXT_OF_A, "A");
}

/// "Refusal 8 .. is tested after 15 and before 16" (02). Of principals 7 and 8 only 7 signs.
#[test]
fn the_list_is_tested_after_the_proof() {
    let over_t = |steps: &[u16]| record(&T, &[2, 1], 1, steps);
    assert_sentences(&over_t(&[40960, 45057, 4096, 0]), &[7], TEXT_OF_A, "a paper lies unused");
    let rows = [
        (9, 3, over_t(&[40960, 45057, 4096]), "9 before 8 and 16"),
        (14, 2, over_t(&[40960, 45057, 45058]), "14 before 8 and 16"),
        (15, 4, over_t(&[40960, 45057, 4096, 0, 0]), "15 before 8 and 16"),
        (8, 0, over_t(&[40960, 45057, 4096, 0]), "8 before 16"),
    ];
    for (number, place, file, about) in rows {
        assert_refused(&file, [0, 0], number, place, about);
    }
}

#[test]
fn every_sample() {
    let (mut written, mut too_long) = (0, vec![]);
    for sample in samples(".record") {
        let (file, name) = (&sample.file, &sample.name);
        match (&sample.answer, sample.text()) {
            (Answer::Granted(signers), Some(text)) => {
                assert_sentences(file, signers, &text, name);
                written += 1;
            }
            (Answer::Granted(_), None) => {
                for bytes in [0, 1, MOST_TEXT] {
                    assert_refused(file, [MOST_SIGNERS, bytes], 16, 0, name);
                }
                too_long.push(name.clone());
            }
            (Answer::Refused(number, place), _) => {
                for bytes in [0, 1, 10_000] {
                    assert_refused(file, [MOST_SIGNERS, bytes], *number, *place, name);
                }
            }
            (Answer::Equal, _) => panic!("{name} is no record"),
        }
    }
    assert!(written >= 33, "{written} samples have sentences");
    assert_eq!(too_long, ["doubled-40-times.record"]);
}

#[test]
fn nothing_is_lent() {
    assert_eq!(write_sentences(&[], &mut [], &mut []), Sentences::Refused { number: 1, place: 0 });
    // atom 0 from itself has no signer, and its text has 17 bytes
    let file = record(&[(0, 0)], &[0], 0, &[0]);
    let answer = write_sentences(&file, &mut [], &mut []);
    assert_eq!(answer, Sentences::Refused { number: 16, place: 0 });
    assert_sentences(&file, &[], "0 init a0 for a0\n", "an atom");
}

/// Whatever the check refuses is refused so, and nothing changes.
#[test]
fn noise_is_refused_as_by_the_check() {
    for file in noise() {
        let Verdict::Refused { number, place } = check_record(&file, &mut [0; 5]) else {
            panic!("granted: {file:?}");
        };
        for bytes in [0, 50] {
            assert_refused(&file, [5, bytes], number, place, "noise");
        }
    }
}

/// Names with one to four figures.
#[test]
fn numbers_of_every_length() {
    let numbers = [0, 9, 10, 99, 100, 999, 1000, 4095];
    for number in numbers {
        let file = record(&[(number, 0), (20480 + number, 0)], &[0], 1, &[40960, 4096, 0]);
        let text = format!(
            "0 says right for (p{number} says a{number})\n\
             1 affirm for p{number} affirms a{number}\n\
             2 init a{number} for a{number}\n"
        );
        assert_sentences(&file, &[], &text, &format!("{number}"));
    }
}

/// The text of an entry that is doubled so often.
fn doubled_text(times: u16) -> String {
    match times {
        0 => "a0".to_string(),
        _ => format!("({0} and {0})", doubled_text(times - 1)),
    }
}

/// 16,383 steps, and a text of more than 1 MiB.
#[test]
fn a_long_text() {
    let (steps, mut text) = (tree(13), String::new());
    for (number, goal) in tree_goals(13).into_iter().enumerate() {
        let rule = if goal == 0 { "init a0" } else { "and right" };
        writeln!(text, "{number} {rule} for {}", doubled_text(goal)).expect("text");
    }
    assert!(steps.len() == 16_383 && text.len() > MOST_TEXT);
    let file = record(&doubled(13, And), &[0], 13, &steps);
    assert_sentences(&file, &[], &text, "a long text");
}

/// Texts that nobody can write: their lengths would overflow any number.
#[test]
fn texts_longer_than_any_memory() {
    for times in [20, 59, 60, 61, 62, 63, 64, 65, 128, 1000, 4000, 4094] {
        // the long formula is held and no line has it
        let mut table = doubled(times, And).to_vec();
        let file = record(&table, &[0, times], 0, &[0]);
        assert_sentences(&file, &[], "0 init a0 for a0\n", "an unused formula");
        // it is named, twice; and it stands in the goal
        table.push((8192 + times, 0));
        let named = record(&table, &[0, times], 0, &[24576 + times, 24576 + times, 0]);
        let goal = record(&table, &[0], times + 1, &[8192, 0]);
        for bytes in [0, 1, MOST_TEXT] {
            for (file, about) in [(&named, "named"), (&goal, "in the goal")] {
                assert_refused(file, [0, bytes], 16, 0, &format!("{about}, {times} times"));
            }
        }
    }
}

/// A formula as deep as a full table lets it be, 4,095 operands within one another: each entry is
/// what p1 says of the one before it, or an implication with it on either side.
fn chain(kind: u16, turned: bool) -> (Vec<u8>, String) {
    let mut table = vec![(4096, 0)];
    let mut formula = "false".to_string();
    for last in 0..4095 {
        let (entry, text) = match (kind, turned) {
            (5, _) => ((20480 + 1, last), format!("(p1 says {formula})")),
            (_, false) => ((8192, last), format!("(false implies {formula})")),
            (_, true) => ((8192 + last, 0), format!("({formula} implies false)")),
        };
        table.push(entry);
        formula = text;
    }
    let file = record(&table, &[0], 4095, &[16384]);
    assert_eq!(table.len(), 4096);
    (file, format!("0 false left false for {formula}\n"))
}

/// The header says how much stack a call needs.
#[test]
fn a_stack_as_large_as_the_header_says() {
    let Deepest { table, statements, goal, proof, .. } = deepest();
    let deep = record(&table, &statements, goal, &proof);
    on_a_small_stack(832, move || {
        for (kind, turned) in [(5, false), (2, false), (2, true)] {
            let (file, text) = chain(kind, turned);
            assert_sentences(&file, &[], &text, "4,095 operands deep");
        }
        let mut text = vec![0; 1 << 22];
        let answer = write_sentences(&deep, &mut [], &mut text);
        assert!(matches!(answer, Sentences::Written { signers: 0, .. }), "{answer:?}");
    });
}
