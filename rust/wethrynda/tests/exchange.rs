//! The exchange check through the wrapper: its answer for right and wrong files of every kind, and
//! for files of any bytes.
mod common;

use builder::samples::{K, T};
use common::{deepest, exchange, file_of, noise, on_a_small_stack, samples, top, Answer, Deepest};
use std::fs;
use wethrynda::{check_exchange, Exchange};

fn assert_equal(file: &[u8], about: &str) {
    assert_eq!(check_exchange(file), Exchange::Equal, "{about}");
}

fn assert_refused(file: &[u8], number: u8, place: usize, about: &str) {
    assert_eq!(check_exchange(file), Exchange::Refused { number, place }, "{about}");
}

/// Tests 1 to 3, from document 01 alone: the number of the refusal, or none where a file has the
/// layout.
fn layout(file: &[u8]) -> Option<u8> {
    if file.len() < 8 {
        return Some(1);
    }
    let word = |at: usize| usize::from(file[at]) + 256 * usize::from(file[at + 1]);
    let [formulas, first, second, steps] = [0, 2, 4, 6].map(word);
    if !(1..=4096).contains(&formulas) || first > 256 || second > 256 || steps > 16_384 {
        Some(2)
    } else if file.len() != 2 * (4 + 2 * formulas + first + second + steps) {
        Some(3)
    } else {
        None
    }
}

/// What `layout` says is answered; where it says nothing, the answer is no refusal 1, 2 or 3, and
/// never 6 or 8.
fn assert_as_laid_out(file: &[u8]) {
    match (layout(file), check_exchange(file)) {
        (Some(number), answer) => {
            assert_eq!(answer, Exchange::Refused { number, place: 0 }, "{file:?}")
        }
        (None, Exchange::Equal | Exchange::Refused { number: 4 | 5 | 7 | 9..=15, .. }) => {}
        (None, answer) => panic!("{answer:?} for {file:?}"),
    }
}

/// The exchange files of document 01: its samples, and "two empty lists with N = 0".
fn exchange_samples() -> Vec<(&'static str, Vec<u8>, Exchange)> {
    let refused = |number, place| Exchange::Refused { number, place };
    vec![
        ("K", file_of(&K), Exchange::Equal),
        ("L", exchange(&[(0, 0)], &[], &[0], &[0]), refused(12, 0)),
        ("M", exchange(&[(0, 0), (0, 0)], &[0], &[0], &[0, 0]), refused(5, 1)),
        ("N", exchange(&[(20487, 0), (0, 0)], &[1], &[1], &[1, 1]), refused(4, 0)),
        ("two empty lists", exchange(&[(0, 0)], &[], &[], &[]), Exchange::Equal),
    ]
}

#[test]
fn samples_as_document_01_writes_them() {
    for (name, file, answer) in exchange_samples() {
        assert_eq!(check_exchange(&file), answer, "{name}");
        if ["K", "L"].contains(&name) {
            let stored = fs::read(top().join(format!("samples/{name}.exchange"))).expect(name);
            assert_eq!(file, stored, "{name}");
        }
    }
}

#[test]
fn every_sample() {
    let samples = samples(".exchange");
    assert!(samples.len() >= 70);
    for sample in samples {
        match sample.answer {
            Answer::Granted(_) => panic!("{} is no exchange file", sample.name),
            Answer::Equal => assert_equal(&sample.file, &sample.name),
            Answer::Refused(number, place) => {
                assert_refused(&sample.file, number, place, &sample.name)
            }
        }
    }
}

#[test]
fn every_cut_is_refused() {
    let file = file_of(&K);
    for length in 0..file.len() {
        let number = if length < 8 { 1 } else { 3 };
        assert_refused(&file[..length], number, 0, &format!("{length} bytes of K"));
    }
    for length in 0..8 {
        assert_refused(&vec![255; length], 1, 0, &format!("{length} bytes of 255"));
    }
    assert_refused(&[0; 8], 2, 0, "8 bytes of 0");
    assert_refused(&[255; 8], 2, 0, "8 bytes of 255");
}

#[test]
fn lengthened() {
    for (name, file, answer) in exchange_samples() {
        for more in [1, 2, 3, 4, 65_535, 65_536, 65_537, 131_072] {
            let longer = [&file[..], &vec![0; more]].concat();
            let about = format!("{name} and {more} bytes, {answer:?} without them");
            assert_refused(&longer, 3, 0, &about);
        }
    }
}

#[test]
fn every_byte_changed() {
    let file = file_of(&K);
    for at in 0..file.len() {
        for byte in (0..=255).filter(|byte| *byte != file[at]) {
            let mut other = file.clone();
            other[at] = byte;
            assert_as_laid_out(&other);
            // Entries 0 and 1 may be any two atoms. Nothing else in K can be another byte.
            let word = |place: usize| other[2 * place] as u16 + 256 * other[2 * place + 1] as u16;
            let other_atoms = [4, 5].contains(&(at / 2)) && word(4) < 4096 && word(5) < 4096;
            let about = format!("byte {at} of K is {byte}");
            if other_atoms && word(4) != word(5) {
                assert_equal(&other, &about);
            } else if other_atoms {
                assert_refused(&other, 5, 1, &about);
            } else {
                assert!(matches!(check_exchange(&other), Exchange::Refused { .. }), "{about}");
            }
        }
    }
}

#[test]
fn noise_is_read_by_its_layout() {
    let mut laid_out = 0;
    for file in noise() {
        laid_out += usize::from(layout(&file).is_none());
        assert_as_laid_out(&file);
    }
    assert!(laid_out >= 100, "{laid_out} files had the layout");
}

/// One word of K set to another, and the length as it was.
fn changed(place: usize, word: u16) -> Vec<u8> {
    let mut words = K;
    words[place] = word;
    file_of(&words)
}

#[test]
fn sizes_outside_their_ranges() {
    let outside: [&[u16]; 4] =
        [&[0, 4097, 65_535], &[257, 65_535], &[257, 65_535], &[16_385, 65_535]];
    let inside: [&[u16]; 4] = [&[1, 4096], &[0, 256], &[0, 256], &[0, 6, 8, 16_384]];
    for (number, words) in [(2, outside), (3, inside)] {
        for (place, words) in words.into_iter().enumerate() {
            for &word in words {
                let about = format!("size {place} is {word}");
                assert_refused(&changed(place, word), number, 0, &about);
            }
        }
    }
}

/// The table of K.
const ATOMS_AND_BOTH: [(u16, u16); 3] = [(0, 0), (1, 0), (12288, 1)];

#[test]
fn a_proof_for_each_position_in_order() {
    let over = |first: &[u16], second: &[u16], steps: &[u16]| {
        exchange(&ATOMS_AND_BOTH, first, second, steps)
    };
    let steps = &K[13..];
    let file = over(&[0, 1], &[2], &[20480, 0, 1, 24578, 0, 24578, 1]);
    assert_equal(&file, "K with its lists changed over");
    let file = over(&[0, 1], &[2], steps);
    assert_refused(&file, 12, 0, "the first list's statements proved first");
    assert_refused(&over(&[2], &[1, 0], steps), 13, 1, "a list in another order");
    assert_refused(&over(&[2], &[0, 1], &steps[..4]), 9, 4, "one direction only");
    assert_refused(&over(&[2], &[0], &[24578, 0, 20480, 0, 1]), 12, 4, "a list that is weaker");

    let twice = |steps: &[u16]| over(&[0, 0], &[0], steps);
    assert_equal(&twice(&[0, 0, 0]), "a statement that stands twice, proved twice");
    assert_refused(&twice(&[0, 0]), 9, 2, "a statement that stands twice, proved once");
    assert_refused(&twice(&[0, 0, 0, 0]), 15, 3, "and three times");

    let k_with = |steps: &[u16]| over(&[2], &[0, 1], steps);
    let file = k_with(&[24578, 0, 1, 20480, 0, 1]);
    assert_refused(&file, 12, 2, "what was added in one proof, in the next");
    let file = k_with(&[24578, 0, 0, 24578, 1, 20480, 0, 1]);
    assert_refused(&file, 12, 2, "a word between proofs is the next proof's first");
    let file = k_with(&[steps, &[49152]].concat());
    assert_refused(&file, 15, 7, "a word after the last proof");
    for count in 0..7 {
        assert_refused(&k_with(&steps[..count]), 9, count, "steps that end too soon");
    }
}

#[test]
fn empty_lists() {
    let atoms: Vec<(u16, u16)> = (0..4096).map(|atom| (atom, 0)).collect();
    assert_equal(&exchange(&atoms, &[], &[], &[]), "two empty lists over the largest table");
    assert_refused(&exchange(&T, &[], &[], &[0]), 15, 0, "nothing to prove, and a step");
    assert_refused(&exchange(&T, &[], &[0], &[]), 9, 0, "a statement to prove, and no step");
    assert_refused(&exchange(&T, &[0], &[], &[0]), 12, 0, "an atom from the empty list");
    assert_refused(&exchange(&T, &[], &[], &[])[..8], 3, 0, "sizes only");
    // entry 1 is false implies false, which needs no hypothesis
    let table = [(4096, 0), (8192, 0)];
    let steps = [8192, 16384];
    assert_equal(&exchange(&table, &[], &[1], &steps), "the empty list, and what needs none");
    assert_equal(&exchange(&table, &[1], &[], &steps), "what needs none, and the empty list");
}

/// The proof of entry 1 of T from itself, so deep: says right, says left again and again, affirm,
/// init.
fn deep(depth: usize) -> Vec<u16> {
    [&[40960], &vec![45057; depth - 3][..], &[4096, 0]].concat()
}

#[test]
fn the_first_reason_counts() {
    let over = |first: &[u16], second: &[u16], steps: &[u16]| exchange(&T, first, second, steps);
    let two_faults = [(0, 0), (0, 0), (24576, 0)];
    let two_repeats = [(0, 0), (0, 0), (1, 0), (1, 0)];
    let deepest = &deep(515)[..512];
    let rows = [
        (2, 0, file_of(&[0, 0, 0, 0, 0]), "2 before 3"),
        (3, 0, file_of(&[1, 0, 0, 0, 65_535, 0, 0]), "3 before 4"),
        (4, 2, exchange(&two_faults, &[], &[], &[]), "4 before 5, also where 5's entry is earlier"),
        (5, 1, exchange(&two_repeats, &[9], &[9], &[0]), "5, its first entry, before 7"),
        (7, 1, over(&[2, 3, 4], &[5], &[49152]), "7, its first position, before the steps"),
        (
            7,
            4,
            over(&[2, 1, 0], &[2, 3], &[49152]),
            "7 in the second list, counted on from the first",
        ),
        (7, 0, over(&[], &[65_535], &[]), "7 before 9"),
        (9, 512, over(&[1], &[1], deepest), "9 before 10: there is no step whose depth is tested"),
        (10, 512, over(&[1], &[1], &[deepest, &[49152]].concat()), "10 before 11"),
        (11, 0, over(&[], &[0], &[65_535]), "11 for an unknown code, whatever its part"),
        (11, 0, over(&[], &[0], &[4096 + 3]), "11 for a part, before 13 for the goal"),
        (12, 0, over(&[0], &[0], &[45056 + 1]), "12 before 14"),
        (12, 1, over(&[0], &[0], &[0, 12288 + 4095]), "12 for what is no entry"),
        (13, 0, over(&[0], &[0], &[45056]), "13 for what is not said, before 14 for the goal"),
        (13, 1, over(&[0], &[0], &[0, 24576]), "13 before 15"),
        (13, 0, over(&[0], &[1], &[0]), "13 for init on what is no atom"),
        (14, 0, over(&[1], &[0], &[45057]), "14 on a truth"),
        (14, 1, over(&[2], &[1], &[40960, 45058, 49152]), "14, before a later step's fault"),
        (15, 2, over(&[0], &[0], &[0, 0, 49152]), "15, whatever the word that remains"),
    ];
    for (number, place, file, about) in rows {
        assert_refused(&file, number, place, about);
    }
}

#[test]
fn depth_starts_anew_in_each_proof() {
    let file = |depth: usize| exchange(&T, &[1], &[1], &[deep(512), deep(depth)].concat());
    assert_equal(&file(512), "each 512 deep");
    assert_refused(&file(513), 10, 1024, "the second 513 deep");
}

/// The longest file: 4,096 entries, 256 statements in each list, 16,384 steps, 32 in each of the
/// 512 proofs.
fn longest() -> Vec<u8> {
    // atom 0, what 256 principals say of it, and other atoms
    let mut table = vec![(0, 0)];
    table.extend((0..256).map(|principal| (20480 + principal, 0)));
    table.extend((1..).map(|atom| (atom, 0)).take(4096 - table.len()));
    let first: Vec<u16> = (1..=256).collect();
    let second: Vec<u16> = first.iter().rev().copied().collect();
    let proof = |statement: &u16| [&[40960], &[45056 + statement; 29][..], &[4096, 0]].concat();
    let steps: Vec<u16> = second.iter().chain(&first).flat_map(proof).collect();
    exchange(&table, &first, &second, &steps)
}

#[test]
fn the_longest_file() {
    let file = longest();
    assert_eq!(file.len(), 50_184);
    assert_equal(&file, "the longest file");
    assert_refused(&file[..50_183], 3, 0, "one byte less");
    for more in [1, 2, 65_536] {
        assert_refused(&[&file[..], &vec![0; more]].concat(), 3, 0, &format!("{more} bytes more"));
    }
    // the high byte of a step, for one that has code 12
    let first_step = file.len() - 2 * 16_384;
    for step in [0, 31, 32, 8_191, 8_192, 16_383] {
        let mut other = file.clone();
        other[first_step + 2 * step + 1] = 192;
        assert_refused(&other, 11, step, &format!("step {step} has code 12"));
    }
    // the last number of the second list
    let mut other = file.clone();
    other[first_step - 1] = 16;
    assert_refused(&other, 7, 511, "the last statement is no entry");
}

#[test]
fn a_stack_as_large_as_the_header_says() {
    let Deepest { table, statements, goal, proof, too_deep } = deepest();
    on_a_small_stack(320, move || {
        assert_equal(&longest(), "the longest file");
        // 32 proofs, each 512 deep
        let steps = deep(512).repeat(32);
        assert_equal(&exchange(&T, &[1; 16], &[1; 16], &steps), "as deep as can be");
        assert_refused(&exchange(&T, &[1], &[1], &deep(513)), 10, 512, "513 deep");
        // the goal from the atom, 8 times; the atom by and left from the goal, 256 times
        let steps = [proof.repeat(8), [24576 + goal, 0].repeat(256)].concat();
        let file = exchange(&table, &[0; 256], &[goal; 8], &steps);
        assert_equal(&file, "512 deep, a call for each step");
        for (about, goal, steps) in too_deep {
            let file = exchange(&table, &statements, &[goal; 256], &steps);
            assert_eq!(file.len(), 50_184);
            assert_refused(&file, 10, 512, about);
        }
    });
}

#[test]
fn calls_at_the_same_time() {
    let (longest, deeper) = (longest(), exchange(&T, &[1], &[1], &deep(513)));
    std::thread::scope(|threads| {
        let calls = || {
            for _ in 0..200 {
                assert_equal(&longest, "the longest file");
                assert_refused(&deeper, 10, 512, "513 deep");
            }
        };
        let both = [threads.spawn(calls), threads.spawn(calls)];
        for thread in both {
            thread.join().expect("the checks of a thread");
        }
    });
}
