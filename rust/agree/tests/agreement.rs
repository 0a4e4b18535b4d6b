//! The proved checker and the second one on the fixed set, and what the generators promise.
use agree::compare::{compared, proved, Answer};
use agree::fixed::{Fixed, CROWDED, FEW, LARGEST, SEED};
use agree::given::{given, Given};
use agree::papers::{self, asked, Asked};
use agree::parts::{Kind, Parts};
use agree::records;
use agree::run::{run, STACK};
use agree::texts::{ANSWERS, TOO_LONG};
use builder::layout;
use builder::random::Random;
use builder::samples::{A, T};
use builder::steps::{
    AFFIRM, INIT, OR_LEFT, OR_RIGHT_FIRST, OR_RIGHT_SECOND, SAYS_LEFT, SAYS_RIGHT,
};
use std::path::Path;
use std::{fs, thread};

/// Runs a check on a thread with room for deep trees.
fn with_stack(check: impl FnOnce() + Send) {
    thread::scope(|scope| {
        let check = thread::Builder::new()
            .stack_size(STACK)
            .spawn_scoped(scope, check)
            .expect("a thread starts");
        check.join().expect("the check passes");
    });
}

/// Else the lists after so many orders would be found in the same way as those that stand alone.
#[test]
fn few_statements_are_those_of_collect() {
    let package = Path::new(env!("CARGO_MANIFEST_DIR"));
    let source = fs::read_to_string(package.join("../../crates/signers_write/src/few.rt"))
        .expect("the source that writes the signers");
    assert!(source.contains(&format!("const FEW: usize = {FEW};")));
}

#[test]
fn both_checkers_agree_on_the_fixed_set() {
    let fixed = Fixed::new();
    match run(fixed.count(), 2, &|number| fixed.given(number), &|_| {}) {
        Err((number, disagreement)) => panic!("{disagreement}\n  file {number} of the fixed set"),
        Ok(tally) => {
            println!("{tally}");
            assert_eq!(tally.files, fixed.count());
            assert_eq!(tally.missing(), Vec::<String>::new(), "never occurred");
            let too_long = tally.texts.named(ANSWERS).find(|(what, _)| *what == TOO_LONG);
            assert!(too_long.is_some_and(|(_, count)| count > 0), "no text was too long");
        }
    }
}

#[test]
fn files_made_as_right_are_granted_or_equal() {
    let check = || {
        for number in 0..20_000 {
            let given = given(SEED, number);
            if given.family == "right" {
                let (_, answer) = compared(&given).expect("no disagreement").remove(0);
                let right = matches!(
                    answer,
                    Answer::Granted(_) | Answer::Equal | Answer::Refused { number: 8, .. }
                );
                assert!(right, "file {number}: {answer:?}");
            }
        }
    };
    with_stack(check);
}

#[test]
fn the_threads_change_nothing() {
    let with = |threads| {
        run(5_000, threads, &|number| given(9, number), &|_| {}).expect("no disagreement")
    };
    assert_eq!(with(1), with(3));
}

/// The same seed makes the same files on every machine; after a change of the generators the number
/// here is another.
#[test]
fn a_seed_makes_the_same_files_everywhere() {
    let mut sum = 0xcbf2_9ce4_8422_2325_u64;
    for number in 0..2_000 {
        let given = given(1, number);
        for byte in given.file.iter().copied().chain((given.room as u64).to_le_bytes()) {
            sum = (sum ^ u64::from(byte)).wrapping_mul(0x100_0000_01b3);
        }
    }
    assert_eq!(format!("{sum:016x}"), "5340f17816c86775");
}

/// What counts as papers alone, and what they are asked for.
#[test]
fn what_papers_alone_are_asked_for_is_told() {
    let over_t = |statements: &[u16], goal, steps: &[u16]| {
        asked(&Parts::record(&T, statements.to_vec(), goal, steps.to_vec()))
    };
    // 01's A and C, the empty list, and an order beside the papers
    assert_eq!(asked(&Parts::of_record(&layout::bytes(&A))), Some(Asked::Else));
    assert_eq!(over_t(&[1], 0, &[SAYS_LEFT + 1]), Some(Asked::Atom));
    assert_eq!(over_t(&[], 0, &[INIT]), Some(Asked::Atom));
    assert_eq!(over_t(&[1, 0, 2], 0, &[INIT]), None);
    // false, what 7 says of it, and an or of both
    let table = [(4096, 0), (5 * 4096 + 7, 0), (4 * 4096, 1)];
    let of_papers = |goal, first| asked(&Parts::record(&table, vec![1], goal, vec![first]));
    assert_eq!(of_papers(0, SAYS_LEFT + 1), Some(Asked::False));
    assert_eq!(of_papers(1, SAYS_RIGHT), Some(Asked::Else));
    assert_eq!(of_papers(2, OR_RIGHT_FIRST), Some(Asked::OrByFirst));
    assert_eq!(of_papers(2, OR_RIGHT_SECOND), Some(Asked::OrBySecond));
    assert_eq!(of_papers(2, OR_LEFT + 2), Some(Asked::OrByNoRight));
    assert_eq!(of_papers(2, AFFIRM), Some(Asked::OrByNoRight));
}

/// If both checkers gave an atom, false, or an or without a right rule from papers alone, it would be
/// found; and what papers can give may be granted.
#[test]
fn a_grant_that_papers_alone_cannot_give_is_found() {
    // false, atom 0, what 7 says of it, and an or of that and the atom
    let table = [(4096, 0), (0, 0), (5 * 4096 + 7, 1), (4 * 4096 + 2, 1)];
    let is_found = |statement, goal, first, answer: Answer| {
        let file = Parts::record(&table, vec![statement], goal, vec![first]).bytes();
        let given = Given { family: "papers", kind: Kind::Record, file, room: 256, to_both: false };
        papers::compared(&given, &[(Kind::Record, answer)]).is_err()
    };
    let granted = || Answer::Granted(vec![7]);
    let refused = |number| Answer::Refused { number, place: 0 };
    for (goal, first) in [(0, SAYS_LEFT + 2), (1, SAYS_LEFT + 2), (3, SAYS_LEFT + 2)] {
        assert!(is_found(2, goal, first, granted()), "goal {goal}");
        assert!(is_found(2, goal, first, refused(8)), "goal {goal}");
        assert!(!is_found(2, goal, first, refused(14)), "goal {goal}");
        assert!(!is_found(1, goal, first, granted()), "goal {goal} from an order");
    }
    for (goal, first) in [(3, OR_RIGHT_FIRST), (3, OR_RIGHT_SECOND), (2, SAYS_RIGHT)] {
        assert!(!is_found(2, goal, first, granted()), "goal {goal}");
    }
}

/// The records that are made as of papers alone are that, and ask for everything: often what can be
/// had, with a proof, and often what can't.
#[test]
fn records_of_papers_alone_ask_for_everything() {
    let mut counts = [0; 6];
    for number in 0..4_000 {
        let parts = records::of_papers(&mut Random::of(7, number));
        let answer = proved(&parts.bytes(), Kind::Record, 256);
        let is_granted = matches!(answer, Answer::Granted(_));
        let which = match asked(&parts).expect("papers alone") {
            Asked::Atom => 0,
            Asked::False => 1,
            Asked::OrByNoRight => 2,
            Asked::OrByFirst if is_granted => 3,
            Asked::OrBySecond if is_granted => 4,
            Asked::Else if is_granted => 5,
            _ => continue,
        };
        counts[which] += 1;
    }
    assert!(counts.into_iter().all(|count| count >= 20), "{counts:?}");
}

/// "5. An entry has the head and second of an earlier one (place: the first such later entry": the
/// last entry has, or the last two.
#[test]
fn crowded_tables_are_refused_for_their_first_repeat() {
    let check = || {
        let fixed = Fixed::new();
        for number in 0..CROWDED {
            let given = fixed.given(fixed.count() - LARGEST - CROWDED + number);
            assert_eq!(given.family, "crowded");
            let formulas = u16::from_le_bytes([given.file[0], given.file[1]]);
            let (_, answer) = compared(&given).expect("no disagreement").remove(0);
            let is_right = match (number / 8) as usize {
                0 => matches!(answer, Answer::Granted(_) | Answer::Equal),
                repeats => {
                    let place = usize::from(formulas) - repeats;
                    answer == Answer::Refused { number: 5, place }
                }
            };
            assert!(is_right, "file {number}, {formulas} formulas: {answer:?}");
        }
    };
    with_stack(check);
}

/// "The length is .. at most 49,672"; two full lists make an exchange file longer by another list.
#[test]
fn the_largest_files_are_as_large_as_may_be() {
    let [mut record, mut exchange] = [0, 0];
    let check = || {
        let fixed = Fixed::new();
        for number in 0..48 {
            let given = fixed.given(fixed.count() - LARGEST + number);
            let (kind, answer) = compared(&given).expect("no disagreement").remove(0);
            assert!(
                matches!(answer, Answer::Granted(_) | Answer::Equal),
                "file {number}: {answer:?}"
            );
            let longest = if kind == Kind::Record { &mut record } else { &mut exchange };
            *longest = given.file.len().max(*longest);
        }
        assert_eq!([record, exchange], [49_672, 50_184]);
    };
    with_stack(check);
}
