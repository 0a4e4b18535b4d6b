//! Whether a principal can matter: both sides, what is left out, and the tests before the answer.

mod common;

use common::*;
use second::{check_record, independent_of, Refusal};
use std::fs;
use std::path::Path;

fn refused<T>(number: u8, place: usize) -> Result<T, Refusal> {
    Err(Refusal { number, place })
}

/// Over this table, in which "K" is 7 and "J" is 8.
const SIDES: Table = &[
    (0, 0),      // 0: A
    (1, 0),      // 1: B
    (20487, 0),  // 2: K says A
    (20488, 0),  // 3: J says A
    (8194, 1),   // 4: (K says A) implies B
    (8196, 1),   // 5: 4 implies B
    (8197, 1),   // 6: 5 implies B
    (8193, 2),   // 7: B implies (K says A)
    (20488, 2),  // 8: J says (K says A)
    (20488, 4),  // 9: J says 4
    (20487, 4),  // 10: K says 4
    (20487, 3),  // 11: K says (J says A)
    (12290, 1),  // 12: (K says A) and B
    (12289, 2),  // 13: B and (K says A)
    (16386, 1),  // 14: (K says A) or B
    (16385, 2),  // 15: B or (K says A)
    (8194, 2),   // 16: (K says A) implies (K says A)
    (12290, 4),  // 17: (K says A) and 4
    (8199, 1),   // 18: 7 implies B
    (8193, 4),   // 19: B implies 4
    (12292, 1),  // 20: 4 and B
    (16385, 4),  // 21: B or 4
    (20488, 10), // 22: J says (K says 4)
];

/// Whether the answer for K is independent.
fn of_k(statements: &[u16], goal: u16) -> bool {
    let file = record_file(SIDES, statements, goal, &[0]);
    independent_of(&file, 7).expect("nothing is refused")
}

#[test]
fn goals() {
    for (goal, right) in [
        (0, true),
        (2, false),
        (3, true),
        // the left of an implies takes the other side, and that of the left gives the first back
        (4, true),
        (5, false),
        (6, true),
        (7, false),
        // what J says keeps the side
        (8, false),
        (9, true),
        (10, false),
        (11, false),
        (12, false),
        (13, false),
        (14, false),
        (15, false),
        // on both sides
        (16, false),
        (17, false),
        (18, true),
        (19, true),
        (20, true),
        (21, true),
        (22, false),
    ] {
        assert_eq!(of_k(&[], goal), right, "goal {goal}");
        assert_eq!(of_k(&[0, 2, 1], goal), right, "goal {goal}, and statements");
    }
}

#[test]
fn statements() {
    for (statement, right) in [
        (0, true),
        (2, true),
        (3, true),
        (4, false),
        (5, true),
        (6, false),
        (7, true),
        (8, true),
        // what J says is looked into
        (9, false),
        // what K says is left out, with all inside it
        (10, true),
        (11, true),
        (12, true),
        (13, true),
        (14, true),
        (15, true),
        (16, false),
        (17, false),
        (18, false),
        (19, false),
        (20, false),
        (21, false),
        (22, false),
    ] {
        // alone, as the first, as the last, and after what has its operands on the given side
        for list in [&[statement][..], &[statement, 0, 1], &[1, 3, 0, statement], &[12, statement]]
        {
            assert_eq!(of_k(list, 0), right, "{list:?}");
        }
        assert!(!of_k(&[statement], 2), "the goal counts beside statement {statement}");
    }
    assert!(of_k(&[], 0), "no statement");
    assert!(of_k(&[2, 10, 11, 2], 1), "papers of K alone");
    assert!(!of_k(&[10, 4], 1), "a paper of K, and what is inside it as an order");
}

/// The principal alone makes the difference.
#[test]
fn principals() {
    let of = |principal, statements: &[u16], goal| {
        independent_of(&record_file(SIDES, statements, goal, &[0]), principal)
    };
    for (principal, by_goal, by_statement) in
        [(7, false, false), (8, true, true), (0, true, true), (6, true, true), (4095, true, true)]
    {
        assert_eq!(of(principal, &[], 2), Ok(by_goal));
        assert_eq!(of(principal, &[4], 0), Ok(by_statement));
    }
    // J's own word is left out for J and looked into for K, and the other way round
    assert_eq!((of(8, &[9], 0), of(7, &[9], 0)), (Ok(true), Ok(false)));
    assert_eq!((of(8, &[], 3), of(7, &[], 3)), (Ok(false), Ok(true)));
    assert_eq!((of(8, &[], 8), of(7, &[], 8)), (Ok(false), Ok(false)));
}

/// 17 at 4,096 and not at 4,095.
#[test]
fn the_principals_number() {
    let table = &[(0, 0), (24575, 0), (20480, 0)];
    let of = |principal, goal| independent_of(&record_file(table, &[0], goal, &[0]), principal);
    assert_eq!((of(4095, 1), of(4095, 2)), (Ok(false), Ok(true)));
    assert_eq!((of(0, 1), of(0, 2)), (Ok(true), Ok(false)));
    for principal in [4096, 4097, 8191, 32768, 65535] {
        for goal in 0..3 {
            assert_eq!(of(principal, goal), refused(17, 0));
        }
    }
}

/// "1 to 7 apply", in the record's order, and 17 after them.
#[test]
fn refused_as_the_record_is() {
    let good = record_file(T, &[1], 1, &[0]);
    let sizes = |f, s, n| bytes(&[&[f, s, n, 0], &[0; 4]]);
    for (number, place, file) in [
        (1, 0, vec![]),
        (1, 0, good[..7].to_vec()),
        (2, 0, sizes(0, 0, 1)),
        (2, 0, sizes(4097, 0, 1)),
        (2, 0, sizes(1, 257, 1)),
        (2, 0, sizes(1, 1, 0)),
        (2, 0, sizes(1, 0, 16385)),
        (2, 0, record_file(T, &[], 0, &[])),
        (3, 0, good[..good.len() - 1].to_vec()),
        (3, 0, good[..good.len() - 2].to_vec()),
        (3, 0, [&good[..], &[0, 0]].concat()),
        (4, 1, record_file(&[(0, 0), (0, 1), (0, 0)], &[9], 9, &[0])),
        (5, 2, record_file(&[(0, 0), (20487, 0), (0, 0)], &[9], 9, &[0])),
        (6, 0, record_file(T, &[9], 3, &[0])),
        (7, 1, record_file(T, &[1, 3], 1, &[0])),
    ] {
        for principal in [7, 4095, 4096, 65535] {
            assert_eq!(independent_of(&file, principal), refused(number, place));
        }
    }
}

/// "The test reads a record but not its steps": any words, right ones too.
#[test]
fn steps_of_any_words() {
    let proof = [SAYS_RIGHT, SAYS_LEFT + 1, AFFIRM, 0];
    let all: Vec<u16> = (0..16_384).map(|step: u16| step.wrapping_mul(40_503)).collect();
    for steps in [&proof[..], &proof[..3], &[0], &[49152], &[65535; 3], &[SAYS_LEFT + 4095], &all] {
        let file = record_file(T, &[1, 2], 1, steps);
        assert_eq!(independent_of(&file, 7), Ok(false));
        assert_eq!(independent_of(&file, 8), Ok(true));
        assert_eq!(independent_of(&file, 4096), refused(17, 0));
    }
}

/// Formulas as deep as the table is long, and with about 2^4,000 operands.
#[test]
fn deep_and_doubled() {
    let over = |make: &dyn Fn(u16) -> (u16, u16)| -> Vec<(u16, u16)> {
        [(0, 0), (20487, 0)].into_iter().chain((2..4096).map(make)).collect()
    };
    let of = |table: Table, statements: &[u16], goal: u16, principal: u16| {
        independent_of(&record_file(table, statements, goal, &[0]), principal)
    };
    // each is the left of an implies in the next: the side turns with every one
    let lefts = over(&|own| (8192 + own - 1, 0));
    for goal in [1, 2, 3, 100, 101, 4094, 4095] {
        assert_eq!(of(&lefts, &[], goal, 7), Ok(goal % 2 == 0));
        assert_eq!(of(&lefts, &[goal], 0, 7), Ok(goal % 2 == 1));
    }
    // over the one before it and itself: and, or; of implies, on both sides from the second on
    for kind in [2, 3, 4] {
        let doubled = over(&|own| (kind * 4096 + own - 1, own - 1));
        for (principal, by_goal, by_statement) in [(7, false, kind > 2), (8, true, true)] {
            assert_eq!(of(&doubled, &[], 4095, principal), Ok(by_goal));
            assert_eq!(of(&doubled, &[4095, 4094, 4093], 0, principal), Ok(by_statement));
        }
    }
    // what 8 says, over and over
    let said = over(&|own| (20488, own - 1));
    assert_eq!((of(&said, &[], 4095, 7), of(&said, &[4095], 0, 7)), (Ok(false), Ok(true)));
}

/// Who signs a sample can matter to it; what the record is refused for by 1 to 7 is the same here.
#[test]
fn every_sample_of_the_repository() {
    let package = Path::new(env!("CARGO_MANIFEST_DIR"));
    let top = package.ancestors().nth(2).expect("the package stands in the repository's rust/");
    let lines = fs::read_to_string(top.join("crates/samples/stdout")).expect("the samples' lines");
    let names = lines.lines().filter_map(|line| line.split_once(' '));
    let mut signers = 0;
    for (name, _) in names.filter(|(name, _)| name.ends_with(".record")) {
        let file = fs::read(top.join("samples").join(name)).expect(name);
        match check_record(&file, 256) {
            Ok(signed) => {
                signers += signed.len();
                for signer in signed {
                    assert_eq!(independent_of(&file, signer), Ok(false), "{name}, {signer}");
                }
            }
            Err(refusal) if refusal.number < 8 => {
                assert_eq!(independent_of(&file, 7), Err(refusal), "{name}");
            }
            Err(_) => assert!(independent_of(&file, 7).is_ok(), "{name}"),
        }
    }
    assert!(signers > 0, "no sample is signed");
}
