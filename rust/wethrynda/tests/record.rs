//! The record check through the wrapper: its verdict, and every word of the list that is lent to
//! it.
mod common;

use builder::papers::{all_opened, signed};
use builder::samples::{A, T};
use builder::steps::{AND_RIGHT, IMPLIES_RIGHT};
use builder::table::Entry::{And, Atom, Implies, Says};
use builder::texts::{doubled, tree};
use common::{deepest, file_of, noise, on_a_small_stack, record, samples, top, Answer, Deepest};
use std::fs;
use wethrynda::{check_record, Verdict, MOST_SIGNERS};

/// What a list holds before the call: other words than any principal's number, and another at each
/// place.
fn lent(room: usize) -> Vec<u16> {
    (0..room).map(|place| 60_000 - place as u16).collect()
}

/// Refused so, with no word of the list changed.
fn assert_refused(file: &[u8], room: usize, number: u8, place: usize, about: &str) {
    let mut list = lent(room);
    let about = format!("{about}, list of {room}");
    assert_eq!(check_record(file, &mut list), Verdict::Refused { number, place }, "{about}");
    assert_eq!(list, lent(room), "{about}");
}

/// Granted, with these signers from the list's start, in this order, and the words after them as
/// they were.
fn assert_granted(file: &[u8], room: usize, signers: &[u16], about: &str) {
    let count = signers.len();
    let mut list = lent(room);
    let about = format!("{about}, list of {room}");
    assert_eq!(check_record(file, &mut list), Verdict::Granted(count), "{about}");
    assert_eq!(list, [signers, &lent(room)[count..]].concat(), "{about}");
}

fn assert_answer(file: &[u8], room: usize, answer: &Answer, about: &str) {
    match answer {
        Answer::Granted(signers) => assert_granted(file, room, signers, about),
        Answer::Equal => panic!("{about} is no record"),
        Answer::Refused(number, place) => assert_refused(file, room, *number, *place, about),
    }
}

#[test]
fn samples_as_document_01_writes_them() {
    let over_t = |statements: &[u16], goal: u16, steps: &[u16]| record(&T, statements, goal, steps);
    let rows = [
        ("A", file_of(&A), Answer::Granted(vec![7])),
        ("B", over_t(&[0], 1, &[40960, 4096, 0]), Answer::Granted(vec![])),
        ("C", over_t(&[1], 0, &[45057]), Answer::Refused(14, 0)),
        ("D", over_t(&[2], 1, &[40960, 45058]), Answer::Refused(14, 1)),
        ("E", over_t(&[0], 1, &[0]), Answer::Refused(13, 0)),
        ("F", over_t(&[], 0, &[0]), Answer::Refused(12, 0)),
        ("G", over_t(&[0], 1, &[40960, 4096]), Answer::Refused(9, 2)),
        ("H", over_t(&[0], 1, &[40960, 4096, 0, 0]), Answer::Refused(15, 3)),
        ("I", over_t(&[0], 0, &[49152]), Answer::Refused(11, 0)),
        ("J", over_t(&[1, 1], 1, &[40960, 45057, 4096, 0]), Answer::Granted(vec![7])),
        ("M", record(&[(0, 0), (0, 0)], &[0], 0, &[0]), Answer::Refused(5, 1)),
        ("N", record(&[(20487, 0), (0, 0)], &[1], 1, &[1]), Answer::Refused(4, 0)),
        ("O", record(&[(0, 0), (1, 0)], &[1], 0, &[1]), Answer::Refused(13, 0)),
    ];
    for (name, file, answer) in rows {
        let stored = fs::read(top().join(format!("samples/{name}.record"))).expect(name);
        assert_eq!(file, stored, "{name}");
        assert_answer(&file, MOST_SIGNERS, &answer, name);
    }
}

#[test]
fn every_sample() {
    let samples = samples(".record");
    assert!(samples.len() >= 40);
    for sample in samples {
        assert_answer(&sample.file, MOST_SIGNERS, &sample.answer, &sample.name);
        assert_answer(&sample.file, 1000, &sample.answer, &sample.name);
    }
}

#[test]
fn list_just_long_enough_and_one_shorter() {
    for sample in samples(".record") {
        if let Answer::Granted(signers) = sample.answer {
            assert_granted(&sample.file, signers.len(), &signers, &sample.name);
            if !signers.is_empty() {
                assert_refused(&sample.file, signers.len() - 1, 8, 0, &sample.name);
                assert_refused(&sample.file, 0, 8, 0, &sample.name);
            }
        }
    }
}

#[test]
fn files_of_up_to_8_bytes() {
    let file = file_of(&A);
    for length in 0..8 {
        assert_refused(&file[..length], MOST_SIGNERS, 1, 0, &format!("{length} bytes of A"));
        assert_refused(&file[..length], 0, 1, 0, &format!("{length} bytes of A"));
        assert_refused(&vec![255; length], 3, 1, 0, &format!("{length} bytes of 255"));
    }
    assert_refused(&file[..8], MOST_SIGNERS, 3, 0, "8 bytes of A");
    assert_refused(&[0; 8], MOST_SIGNERS, 2, 0, "8 bytes of 0");
    assert_refused(&[255; 8], MOST_SIGNERS, 2, 0, "8 bytes of 255");
}

#[test]
fn cut_and_lengthened() {
    for sample in samples(".record") {
        let sized = !matches!(sample.answer, Answer::Refused(1..=3, _));
        if !sized {
            continue;
        }
        for length in 0..sample.file.len() {
            let number = if length < 8 { 1 } else { 3 };
            let about = format!("{length} bytes of {}", sample.name);
            assert_refused(&sample.file[..length], 2, number, 0, &about);
        }
        for more in [1, 2, 3, 4, 65_535, 65_536, 65_537, 131_072] {
            let longer = [&sample.file[..], &vec![0; more]].concat();
            assert_refused(&longer, 2, 3, 0, &format!("{} and {more} bytes", sample.name));
        }
    }
}

/// One word of record A set to another, and the length as it was.
fn changed(place: usize, word: u16) -> Vec<u8> {
    let mut words = A;
    words[place] = word;
    file_of(&words)
}

#[test]
fn sizes_outside_their_ranges() {
    let outside: [&[u16]; 3] = [&[0, 4097, 65_535], &[257, 65_535], &[0, 16_385, 65_535]];
    let inside: [&[u16]; 3] = [&[1, 3, 4096], &[0, 2, 256], &[1, 5, 16_384]];
    for (number, words) in [(2, outside), (3, inside)] {
        for (place, words) in words.into_iter().enumerate() {
            for &word in words {
                let about = format!("size {place} is {word}");
                assert_refused(&changed(place, word), MOST_SIGNERS, number, 0, &about);
            }
        }
    }
}

#[test]
fn wrong_entries() {
    // the entry at 2, after an atom and false
    let wrong = [
        (0, 1, "an atom with a second"),
        (4096, 1, "false with a second"),
        (4097, 0, "false with a first"),
        (8192 + 2, 0, "implies of itself, first"),
        (8192, 2, "implies of itself, second"),
        (12288 + 3, 0, "and of a later entry"),
        (16384, 65_535, "or of no entry"),
        (20480, 2, "says itself"),
        (20480 + 4095, 65_535, "says no entry"),
        (24576, 0, "kind 6"),
        (65_535, 0, "kind 15"),
    ];
    let with = |entry: (u16, u16)| record(&[(0, 0), (4096, 0), entry], &[0], 0, &[0]);
    for (head, second, about) in wrong {
        assert_refused(&with((head, second)), MOST_SIGNERS, 4, 2, about);
    }
    let right = [(4095, 0), (8192 + 1, 1), (12288, 0), (16384 + 1, 0), (20480 + 4095, 1)];
    for entry in right {
        assert_granted(&with(entry), 0, &[], &format!("{entry:?}"));
    }
}

/// Steps that are so deep: says right, says left again and again, and then what follows.
fn deep(says_left: usize, after: &[u16]) -> Vec<u8> {
    record(&T, &[1], 1, &[&[40960], &vec![45057; says_left][..], after].concat())
}

#[test]
fn the_first_reason_counts() {
    let two_atoms = [(0, 0), (1, 0)];
    let two_faults = [(0, 0), (0, 0), (24576, 0)];
    let two_repeats = [(0, 0), (0, 0), (1, 0), (1, 0)];
    let rows = [
        (2, 0, file_of(&[0, 0, 0, 0, 0]), "2 before 3"),
        (3, 0, file_of(&[1, 0, 1, 0, 65_535, 0]), "3 before 4"),
        (4, 2, record(&two_faults, &[0], 0, &[0]), "4 before 5, also where 5's entry is earlier"),
        (5, 1, record(&two_repeats, &[9], 9, &[0]), "5, its first entry, before 6 and 7"),
        (6, 0, record(&T, &[3], 3, &[0]), "6 before 7"),
        (7, 1, record(&T, &[2, 3, 4], 0, &[49152]), "7, its first position, before the steps"),
        (9, 512, deep(511, &[]), "9 before 10: there is no step whose depth is tested"),
        (10, 512, deep(511, &[49152]), "10 before 11"),
        (11, 0, record(&T, &[], 0, &[65_535]), "11 for an unknown code, whatever its part"),
        (11, 0, record(&T, &[], 0, &[4096 + 3]), "11 for a part, before 13 for the goal"),
        (12, 0, record(&T, &[0], 0, &[45056 + 1]), "12 before 14"),
        (12, 0, record(&T, &[0], 0, &[12288 + 4095]), "12 for what is no entry"),
        (13, 0, record(&T, &[0], 0, &[45056]), "13 for what is not said, before 14 for the goal"),
        (13, 0, record(&two_atoms, &[0, 1], 0, &[1, 0]), "13 before 15"),
        (14, 1, record(&T, &[1, 2], 1, &[40960, 45058, 49152]), "14, before a later step's fault"),
        (15, 1, record(&T, &[0], 0, &[0, 49152]), "15, whatever the word that remains"),
    ];
    for (number, place, file, about) in rows {
        assert_refused(&file, MOST_SIGNERS, number, place, about);
    }
}

/// "Refusal 8 .. is tested after 15" (02): where principal 7 would sign and there is no room, each
/// other reason counts first.
#[test]
fn the_list_is_tested_after_the_proof() {
    let opened = |statements: &[u16], after: &[u16]| {
        record(&T, statements, 1, &[&[40960, 45057], after].concat())
    };
    let rows = [
        (7, 1, opened(&[1, 3], &[4096, 0]), "7 before 8"),
        (9, 3, opened(&[1], &[4096]), "9 before 8"),
        (10, 512, deep(510, &[4096, 0]), "10 before 8"),
        (11, 2, opened(&[1], &[49152]), "11 before 8"),
        (12, 2, opened(&[1], &[45058]), "12 before 8"),
        (13, 2, opened(&[1], &[0]), "13 before 8"),
        (14, 2, opened(&[1, 2], &[45058]), "14 before 8"),
        (15, 4, opened(&[1], &[4096, 0, 49152]), "15 before 8"),
        (8, 0, opened(&[1], &[4096, 0]), "8"),
    ];
    for (number, place, file, about) in rows {
        assert_refused(&file, 0, number, place, about);
    }
}

/// Atom 0; 7 and 8 say it; the atom implies that 7 says it; 7 says that 7 says it; both of them say
/// it.
const PAPERS: [(u16, u16); 6] = [(0, 0), (20487, 0), (20488, 0), (8192, 1), (20487, 1), (12289, 2)];

/// "A signer is now a principal K with a statement K says A that some says-left step names." (02)
#[test]
fn only_those_who_carried_the_release() {
    let opened = [40960, 45057, 4096, 0];
    let by_order = [&[12291, 0], &opened[..]].concat();
    let rows = [
        (&[1, 2][..], 1, &opened[..], &[7][..], "the paper of 8 lies unused"),
        (&[2, 4, 1], 1, &opened, &[7], "so does one of two papers of 7"),
        (&[1, 0], 1, &[40960, 4096, 0], &[], "7 affirms and its paper lies unused"),
        (&[1, 2, 0], 0, &[0], &[], "both papers lie unused"),
        (&[0, 3], 1, &by_order, &[], "opened, and no statement"),
        (&[0, 3, 4], 1, &by_order, &[], "opened, and no statement, and 7 has another paper"),
        (&[0, 3, 1], 1, &by_order, &[7], "opened, added and a statement"),
        (&[4, 2], 1, &[40960, 45060, 45057, 4096, 0], &[7], "opened, and what it says too"),
        (
            &[2, 1],
            5,
            &[&[20480], &opened[..], &[40960, 45058, 4096, 0]].concat(),
            &[7, 8],
            "one in each premise",
        ),
    ];
    for (statements, goal, steps, signers, about) in rows {
        let file = record(&PAPERS, statements, goal, steps);
        for room in [signers.len(), signers.len() + 1, MOST_SIGNERS] {
            assert_granted(&file, room, signers, about);
        }
        if let Some(room) = signers.len().checked_sub(1) {
            assert_refused(&file, room, 8, 0, about);
        }
    }
}

#[test]
fn noise_is_refused() {
    for file in noise() {
        let mut list = lent(5);
        let verdict = check_record(&file, &mut list);
        let is_refused = matches!(verdict, Verdict::Refused { number: 1..=15, .. });
        assert!(is_refused, "{verdict:?} for {file:?}");
        assert_eq!(list, lent(5), "{file:?}");
    }
}

#[test]
fn signers_rise() {
    let rows: [(&[u16], &[u16]); 7] = [
        (&[7, 8], &[7, 8]),
        (&[8, 7], &[7, 8]),
        (&[4095, 10, 9, 0], &[0, 9, 10, 4095]),
        (&[8, 7, 8], &[7, 8]),
        (&[7, 8, 7], &[7, 8]),
        (&[128, 16, 127, 15, 16, 128], &[15, 16, 127, 128]),
        (&[4095, 4080, 4079, 16, 1, 0], &[0, 1, 16, 4079, 4080, 4095]),
    ];
    for (principals, signers) in rows {
        // few statements, and as many as can be
        for orders in [1, 24, 256 - principals.len()] {
            let file = file_of(&signed(orders, principals, principals));
            let about = format!("{principals:?} after {orders} orders");
            assert_granted(&file, signers.len(), signers, &about);
            assert_granted(&file, MOST_SIGNERS, signers, &about);
            assert_refused(&file, signers.len() - 1, 8, 0, &about);
            // none of them is opened
            let file = file_of(&signed(orders, principals, &[]));
            assert_granted(&file, 0, &[], &about);
            assert_granted(&file, MOST_SIGNERS, &[], &about);
        }
    }
}

#[test]
fn as_many_signers_as_statements() {
    // around those that are few to the check, and as many as can be
    for count in [23, 24, 25, 256] {
        // the papers of so many principals, the last of them 4095, in falling order
        let principals: Vec<u16> = (0..count - 1).chain([4095]).collect();
        let papers: Vec<u16> = principals.iter().copied().rev().collect();
        let file = file_of(&signed(0, &papers, &principals));
        let (room, about) = (principals.len(), format!("{count} signers"));
        assert_granted(&file, room, &principals, &about);
        assert_granted(&file, 300, &principals, &about);
        assert_refused(&file, room - 1, 8, 0, &about);
        // every other one is opened
        let signers: Vec<u16> = principals.iter().copied().step_by(2).collect();
        let file = file_of(&signed(0, &papers, &signers));
        assert_granted(&file, signers.len(), &signers, &about);
        assert_refused(&file, signers.len() - 1, 8, 0, &about);
    }
}

/// A record of the greatest size, and its signers: 4,096 entries, 256 statements, 16,384 steps.
fn largest() -> (Vec<u8>, Vec<u16>) {
    // entry n is atom 0 doubled n times; these make 7,552 atoms in all
    let mut table = doubled(12, And);
    let (last, others) = (7, [12, 11, 10, 8]);
    let doubles = others.iter().rfold(last, |goal, &times| table.number(And(times, goal)));
    let implied = table.number(Implies(0, doubles));
    let mut steps = vec![IMPLIES_RIGHT];
    others.iter().for_each(|&times| steps.extend([&[AND_RIGHT], &tree(times)[..]].concat()));
    steps.extend(tree(last));
    // and 256 papers, all of them opened
    let signers: Vec<u16> = (0..256).collect();
    let papers: Vec<u16> = signers.iter().map(|&signer| table.number(Says(signer, 0))).collect();
    let (all, opened) = all_opened(&mut table, &papers, 0);
    let goal = table.number(And(all, implied));
    (1..=4096 - table.len() as u16).for_each(|atom| _ = table.number(Atom(atom)));
    (record(&table, &papers, goal, &[&[AND_RIGHT], &opened[..], &steps].concat()), signers)
}

#[test]
fn the_largest_record() {
    let (file, signers) = largest();
    assert_eq!(file.len(), 49_672);
    assert_granted(&file, MOST_SIGNERS, &signers, "the largest record");
    assert_refused(&file[..49_671], MOST_SIGNERS, 3, 0, "one byte less");
    assert_refused(&[&file[..], &[0]].concat(), MOST_SIGNERS, 3, 0, "one byte more");
    // its last word is an init, and the step before it closes nothing else
    let mut other = file.clone();
    other[49_671] = 192;
    assert_refused(&other, MOST_SIGNERS, 11, 16_383, "its last step has code 12");
}

#[test]
fn a_stack_as_large_as_the_header_says() {
    let (largest, signers) = largest();
    let Deepest { table, statements, goal, proof, too_deep } = deepest();
    on_a_small_stack(320, move || {
        assert_granted(&deep(509, &[4096, 0]), 1, &[7], "512 deep");
        assert_refused(&deep(510, &[4096, 0]), 1, 10, 512, "513 deep");
        assert_granted(&largest, MOST_SIGNERS, &signers, "the largest record");
        let over_table = |goal, steps: &[u16]| record(&table, &statements, goal, steps);
        assert_granted(&over_table(goal, &proof), 0, &[], "512 deep, a call for each step");
        for (about, goal, steps) in too_deep {
            let file = over_table(goal, &steps);
            assert_eq!(file.len(), 49_672);
            assert_refused(&file, 1, 10, 512, about);
        }
    });
}
