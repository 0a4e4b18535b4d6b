//! The test whether a principal can matter, through the wrapper.
mod common;

use builder::crowded::{fill_crowded, is_given_up};
use builder::samples::{A, T};
use builder::table::Entry::{self, And, Atom, False, Implies, Or, Says};
use builder::table::Table;
use common::{file_of, noise, on_a_small_stack, record, samples, Answer};
use wethrynda::Independence::{Independent, NotIndependent, Refused};
use wethrynda::{check_record, independent_of, Independence, Verdict, MOST_SIGNERS};

fn assert_answer(file: &[u8], principal: u16, answer: Independence, about: &str) {
    assert_eq!(independent_of(file, principal), answer, "{about}, of {principal}");
}

/// "17, after 7, the principal's number is above 4,095; place 0" (02)
const NO_PRINCIPAL: Independence = Refused { number: 17, place: 0 };

/// The goal is what 7 says. Nobody else counts for 7 whose number has the same low bits.
#[test]
fn record_a() {
    let file = file_of(&A);
    for principal in [0, 6, 8, 7 + 256, 7 + 2048, 4094, 4095] {
        assert_answer(&file, principal, Independent, "A");
    }
    assert_answer(&file, 7, NotIndependent, "A");
    for principal in [4096, 4096 + 7, 8192 + 7, 20480 + 7, 32_768, 61_440 + 7, 65_535] {
        assert_answer(&file, principal, NO_PRINCIPAL, "A");
    }
}

/// 7's word in a goal and in a statement: rows of a formula and whether it lets the goal be
/// independent of 7. `crates/independence/specs/Samples.antt` has most of them.
#[test]
fn sides_of_every_kind() {
    let mut table = Table::default();
    let [a0, a1, a2] = [0, 1, 2].map(|atom| table.number(Atom(atom)));
    let falsehood = table.number(False);
    let seven = table.number(Says(7, a0));
    let eight = table.number(Says(8, a0));
    // 7's word on the left and on the right of an implies, and each on the left of another
    let asked = table.number(Implies(seven, a1));
    let given = table.number(Implies(a1, seven));
    let asked_left = table.number(Implies(asked, a2));
    let given_left = table.number(Implies(given, a2));
    let both_sides = table.number(Implies(seven, seven));
    let [and_first, and_second] = [And(seven, a1), And(a1, seven)].map(|e| table.number(e));
    let [or_first, or_second] =
        [Or(seven, falsehood), Or(falsehood, seven)].map(|e| table.number(e));
    let [in_and, in_or] = [And(a1, asked), Or(asked, a1)].map(|e| table.number(e));
    let [eight_seven, eight_asked] = [seven, asked].map(|said| table.number(Says(8, said)));
    let [seven_seven, seven_asked] = [seven, asked].map(|said| table.number(Says(7, said)));
    let seven_asked_and = table.number(And(seven_asked, a1));
    let eight_too = table.number(Implies(eight, a1));
    let in_goals = [
        (a0, true),
        (falsehood, true),
        (seven, false),
        (eight, true),
        (asked, true),
        (given, false),
        (asked_left, false),
        (given_left, true),
        (both_sides, false),
        (and_first, false),
        (and_second, false),
        (or_first, false),
        (or_second, false),
        (in_and, true),
        (in_or, true),
        (eight_seven, false),
        (eight_asked, true),
        // his own word counts, whatever stands inside it
        (seven_asked, false),
        (seven_seven, false),
        (eight_too, true),
    ];
    let in_statements = [
        (a0, true),
        (falsehood, true),
        (seven, true),
        (eight, true),
        (asked, false),
        (given, true),
        (asked_left, true),
        (given_left, false),
        (both_sides, false),
        (and_first, true),
        (and_second, true),
        (or_first, true),
        (or_second, true),
        (in_and, false),
        (in_or, false),
        (eight_seven, true),
        (eight_asked, false),
        // his own paper is left out with all inside it, and nothing else is
        (seven_asked, true),
        (seven_seven, true),
        (seven_asked_and, false),
        (eight_too, true),
    ];
    let assert_row = |statements: &[u16], goal: u16, independent: bool, about: &str| {
        let answer = if independent { Independent } else { NotIndependent };
        assert_answer(&record(&table, statements, goal, &[0]), 7, answer, about);
    };
    for (goal, independent) in in_goals {
        let about = format!("goal {goal}");
        assert_row(&[], goal, independent, &about);
        // with his papers, and with orders in which his word is given
        assert_row(&[seven, seven_asked, given, a0], goal, independent, &about);
        assert_row(&[asked], goal, false, &about);
    }
    for (statement, independent) in in_statements {
        let about = format!("statement {statement}");
        assert_row(&[statement], a0, independent, &about);
        assert_row(&[statement], asked, independent, &about);
        assert_row(&[statement], seven, false, &about);
        // one among others: the first, the last, and one between his own papers
        assert_row(&[statement, a0, eight], a0, independent, &about);
        assert_row(&[a0, seven_asked, statement], a0, independent, &about);
        assert_row(&[seven_asked, statement, seven], a0, independent, &about);
        assert_row(&[statement, asked], a0, false, &about);
        assert_row(&[asked, statement], a0, false, &about);
    }
    assert_row(&[a1, eight_too], a2, true, "his words stand in the table alone");
}

/// "The test reads a record but not its steps" (02).
#[test]
fn steps_of_any_words() {
    let (a, b) = ((&[1][..], 1, NotIndependent), (&[2, 0][..], 0, Independent));
    for (statements, goal, answer) in [a, b] {
        for word in [0, 4096, 40_960, 45_057, 49_151, 49_152, 65_535] {
            for count in [1, 2, 511, 512, 513, 16_384] {
                let about = format!("{count} steps of {word}");
                let file = record(&T, statements, goal, &vec![word; count]);
                assert_answer(&file, 7, answer, &about);
                assert_answer(&file, 4096, NO_PRINCIPAL, &about);
            }
        }
        assert_answer(&record(&T, statements, goal, &[]), 7, refused(2, 0), "no steps");
        let many = record(&T, statements, goal, &vec![0; 16_385]);
        assert_answer(&many, 7, refused(2, 0), "16,385 steps");
    }
}

fn refused(number: u8, place: usize) -> Independence {
    Refused { number, place }
}

/// "so 1 to 7 apply. Refused: 17, after 7" (02)
#[test]
fn each_of_1_to_7_comes_before_17() {
    let file = file_of(&A);
    let two_faults = [(0, 0), (0, 0), (24576, 0)];
    let two_repeats = [(0, 0), (0, 0), (1, 0), (1, 0)];
    let rows = [
        (1, 0, vec![], "no bytes"),
        (1, 0, file[..7].to_vec(), "7 bytes of A"),
        (2, 0, file_of(&[0, 0, 1, 0]), "no formulas"),
        (2, 0, file_of(&[0, 0, 0, 0, 0]), "2 before 3"),
        (3, 0, file[..8].to_vec(), "8 bytes of A"),
        (3, 0, file[..25].to_vec(), "A without its last byte"),
        (3, 0, [&file[..], &[0]].concat(), "A and a byte"),
        (3, 0, [&file[..], &[0; 65_536]].concat(), "A and 65,536 bytes"),
        (3, 0, file_of(&[1, 0, 1, 0, 65_535, 0]), "3 before 4"),
        (4, 0, record(&[(20487, 0), (0, 0)], &[1], 1, &[1]), "N"),
        (4, 2, record(&two_faults, &[0], 0, &[0]), "4 before 5, also where 5's entry is earlier"),
        (5, 1, record(&two_repeats, &[9], 9, &[0]), "5, its first entry, before 6 and 7"),
        (6, 0, record(&T, &[3], 3, &[0]), "6 before 7"),
        (7, 1, record(&T, &[2, 3, 4], 0, &[49152]), "7, its first position"),
        (17, 0, record(&T, &[2, 1], 0, &[49152]), "17 and nothing else"),
    ];
    for (number, place, file, about) in rows {
        for principal in [4096, 65_535] {
            assert_answer(&file, principal, refused(number, place), about);
        }
        if number != 17 {
            for principal in [0, 7, 4095] {
                assert_answer(&file, principal, refused(number, place), about);
            }
        }
    }
}

/// By the check of the record: 1 to 7 are the same, and else there is an answer. (8 to 15 are not
/// looked at.)
#[test]
fn noise_is_refused_as_by_the_check() {
    for file in noise() {
        let Verdict::Refused { number, place } = check_record(&file, &mut [0; 5]) else {
            panic!("granted: {file:?}");
        };
        for principal in [0, 7, 65_535] {
            let answer = independent_of(&file, principal);
            match (number, principal) {
                (1..=7, _) => assert_eq!(answer, refused(number, place), "{file:?}"),
                (_, 65_535) => assert_eq!(answer, NO_PRINCIPAL, "{file:?}"),
                _ => assert!(!matches!(answer, Refused { .. }), "{answer:?} for {file:?}"),
            }
        }
    }
}

/// Each line that is stored beside a sample; and where the answer is independent and the record is
/// granted, it stays so, with the same signers, when his papers are taken out.
#[test]
fn every_sample() {
    let (mut answers, mut without) = ([0; 3], 0);
    for sample in samples(".record") {
        for (principal, answer) in sample.independence() {
            let (file, about) = (&sample.file, format!("{} of {principal}", sample.name));
            assert_eq!(independent_of(file, principal), answer, "{about}");
            let kind = match answer {
                Independent => 0,
                NotIndependent => 1,
                Refused { .. } => 2,
            };
            answers[kind] += 1;
            if let (Independent, Answer::Granted(signers)) = (answer, &sample.answer) {
                let fewer = without_papers(file, principal);
                let mut list = [0; MOST_SIGNERS];
                let verdict = check_record(&fewer, &mut list);
                assert_eq!(verdict, Verdict::Granted(signers.len()), "{about}, no papers");
                assert_eq!(&list[..signers.len()], signers, "{about}, no papers");
                without += usize::from(fewer.len() < file.len());
            }
        }
    }
    assert!(answers.iter().all(|&count| count >= 5), "{answers:?}");
    assert!(without >= 5, "{without} samples are independent of one who has a paper there");
}

/// The record without the papers of a principal.
fn without_papers(file: &[u8], principal: u16) -> Vec<u8> {
    let words: Vec<u16> =
        file.chunks_exact(2).map(|word| u16::from_le_bytes([word[0], word[1]])).collect();
    let [formulas, count] = [0, 1].map(|at| usize::from(words[at]));
    let (before, after) = words.split_at(4 + 2 * formulas);
    let (statements, steps) = after.split_at(count);
    let others = statements.iter().filter(|&&n| words[4 + usize::from(n)] != 20480 + principal);
    let others: Vec<u16> = others.copied().collect();
    let mut fewer = [before, &others, steps].concat();
    fewer[1] = others.len() as u16;
    file_of(&fewer)
}

/// No signer of a granted record is one of whom it is independent, and it is independent of those
/// whom it does not name.
#[test]
fn signers_can_matter() {
    for sample in samples(".record") {
        if let Answer::Granted(signers) = &sample.answer {
            for &signer in signers {
                assert_answer(&sample.file, signer, NotIndependent, &sample.name);
            }
            assert_answer(&sample.file, 4001, Independent, &sample.name);
        }
    }
}

/// 4,096 entries: a0, what 7 says of it, and then each the left of the next implies.
fn lefts() -> Vec<(u16, u16)> {
    let entry = |n: u16| if n == 0 { Says(7, 0) } else { Implies(n, 0) };
    [(0, 0)].into_iter().chain((0..4095).map(|n| entry(n).words())).collect()
}

/// The side turns with each left, up to 4,094 of them.
#[test]
fn left_of_left_of_left() {
    let table = lefts();
    assert_eq!(table.len(), 4096);
    let answers = [NotIndependent, Independent];
    for n in 1..4096 {
        // entry 1 is 7's word, and as a statement his own paper; in entry 2 it is on the left
        let turned = usize::from(n % 2 == 0);
        let about = format!("entry {n}");
        assert_answer(&record(&table, &[], n, &[0]), 7, answers[turned], &about);
        assert_answer(&record(&table, &[n], 0, &[0]), 7, answers[1 - turned], &about);
        assert_answer(&record(&table, &[n], n, &[0]), 8, Independent, &about);
    }
}

/// 4,096 entries, of which each keeps the side of the one before it: on the right of an implies, on
/// the left or the right of an and or an or, and in what 8 says.
#[test]
fn sides_that_are_kept() {
    let kinds: [fn(u16) -> Entry; 6] = [
        |n| Implies(0, n),
        |n| And(n, 0),
        |n| And(0, n),
        |n| Or(n, 0),
        |n| Or(0, n),
        |n| Says(8, n),
    ];
    for (number, kind) in kinds.into_iter().enumerate() {
        // from 7's word, and from an implies with it on the left
        let word = vec![Atom(0), Atom(1), Says(7, 0)];
        let asked = [&word[..], &[Implies(2, 0)]].concat();
        for (mut entries, goal, statement) in
            [(word, NotIndependent, Independent), (asked, Independent, NotIndependent)]
        {
            let last = entries.len() as u16 - 1;
            entries.extend((last..4095).map(kind));
            let table: Vec<_> = entries.into_iter().map(Entry::words).collect();
            let about = format!("kind {number}, from entry {last}");
            for n in [last + 1, last + 2, 1000, 4094, 4095] {
                assert_answer(&record(&table, &[], n, &[0]), 7, goal, &about);
                assert_answer(&record(&table, &[n], 1, &[0]), 7, statement, &about);
            }
        }
    }
}

/// A file of the greatest size: atoms, and these two as the last entries; 256 statements, all a0
/// but for this one, the last; and 16,384 steps of no rule.
fn largest(last: [(u16, u16); 2], statement: u16, goal: u16) -> Vec<u8> {
    let table: Vec<_> = (0..4094).map(|atom| (atom, 0)).chain(last).collect();
    let statements = [&[0; 255][..], &[statement]].concat();
    let file = record(&table, &statements, goal, &[65_535; 16_384]);
    assert_eq!(file.len(), 49_672);
    file
}

/// 7's word is the last entry, or stands in it.
#[test]
fn the_last_entry() {
    let seven = |n: u16| Says(7, n).words();
    let other = (4094, 0);
    let rows = [
        (largest([other, seven(4094)], 0, 4095), NotIndependent, "the goal"),
        (largest([other, seven(4094)], 4095, 0), Independent, "the last statement, his own"),
        (largest([other, Says(8, 4094).words()], 4095, 4095), Independent, "another's word"),
        (largest([seven(0), Implies(4094, 0).words()], 4095, 0), NotIndependent, "asked for"),
        (largest([seven(0), Implies(4094, 0).words()], 0, 4095), Independent, "assumed"),
        (largest([seven(0), Implies(0, 4094).words()], 4095, 0), Independent, "given"),
        (largest([seven(0), Implies(0, 4094).words()], 0, 4095), NotIndependent, "to be proved"),
        (largest([other, other], 0, 0), refused(5, 4095), "there twice"),
        (largest([other, seven(4095)], 0, 0), refused(4, 4095), "of itself"),
        (largest([other, seven(0)], 0, 4096), refused(6, 0), "before a goal outside"),
        (largest([other, seven(0)], 4096, 0), refused(7, 255), "before a statement outside"),
    ];
    for (file, answer, about) in rows {
        assert_answer(&file, 7, answer, about);
        let of_none = if let Refused { .. } = answer { answer } else { NO_PRINCIPAL };
        assert_answer(&file, 4096, of_none, about);
        assert_answer(&file[..49_671], 7, refused(3, 0), "a byte less");
        assert_answer(&[&file[..], &[0]].concat(), 7, refused(3, 0), "a byte more");
    }
}

/// The header says how much stack a call needs. Most of it is for test 5, and a crowded table makes
/// that go on by head.
#[test]
fn a_stack_as_large_as_the_header_says() {
    let mut crowded = Table::default();
    let atom = crowded.number(Atom(0));
    crowded.number(Says(7, atom));
    fill_crowded(&mut crowded, 4096);
    assert!(is_given_up(&crowded, 4096));
    let files = [
        (record(&crowded, &[1; 256], 1, &[0; 16_384]), NotIndependent, "a crowded table"),
        (record(&lefts(), &[4095; 256], 0, &[0; 16_384]), Independent, "lefts of lefts"),
        (largest([(4094, 0), Says(7, 0).words()], 4095, 4095), NotIndependent, "atoms"),
    ];
    on_a_small_stack(176, move || {
        for (file, answer, about) in files {
            assert_eq!(file.len(), 49_672);
            assert_answer(&file, 7, answer, about);
            assert_answer(&file, 65_535, NO_PRINCIPAL, about);
        }
    });
}
