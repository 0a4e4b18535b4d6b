//! The samples of 01, the errors that classes make, and the edges of each test.

mod common;

use common::*;
use second::{check_exchange, check_record, independent_of, Refusal};

fn record(table: Table, statements: &[u16], goal: u16, steps: &[u16]) -> Result<Vec<u16>, Refusal> {
    check_record(&record_file(table, statements, goal, steps), 256)
}

fn exchange(table: Table, first: &[u16], second: &[u16], steps: &[u16]) -> Result<(), Refusal> {
    check_exchange(&exchange_file(table, first, second, steps))
}

fn granted(signers: &[u16]) -> Result<Vec<u16>, Refusal> {
    Ok(signers.to_vec())
}

fn refused<T>(number: u8, place: usize) -> Result<T, Refusal> {
    Err(Refusal { number, place })
}

#[test]
fn samples_a_to_j() {
    let a = [40960, 45057, 4096, 0];
    let words = bytes(&[&[2, 1, 4, 1], &[0, 20487], &[0, 0], &[1], &a]);
    assert_eq!(words, record_file(&T[..2], &[1], 1, &a));
    assert_eq!(check_record(&words, 256), granted(&[7]));
    assert_eq!(record(T, &[1], 1, &a), granted(&[7]));
    assert_eq!(record(T, &[0], 1, &[40960, 4096, 0]), granted(&[]));
    assert_eq!(record(T, &[1], 0, &[45057]), refused(14, 0));
    assert_eq!(record(T, &[2], 1, &[40960, 45058]), refused(14, 1));
    assert_eq!(record(T, &[0], 1, &[0]), refused(13, 0));
    assert_eq!(record(T, &[], 0, &[0]), refused(12, 0));
    assert_eq!(record(T, &[0], 1, &[40960, 4096]), refused(9, 2));
    assert_eq!(record(T, &[0], 1, &[40960, 4096, 0, 0]), refused(15, 3));
    assert_eq!(record(T, &[0], 0, &[49152]), refused(11, 0));
    assert_eq!(record(T, &[1, 1], 1, &a), granted(&[7]));
}

#[test]
fn samples_k_to_o() {
    let k = [24578, 0, 24578, 1, 20480, 0, 1];
    assert_eq!(exchange(AND, &[2], &[0, 1], &k), Ok(()));
    assert_eq!(exchange(&T[..1], &[], &[0], &[0]), refused(12, 0));
    assert_eq!(record(&[(0, 0), (0, 0)], &[], 0, &[0]), refused(5, 1));
    assert_eq!(exchange(&[(0, 0), (0, 0)], &[], &[], &[]), refused(5, 1));
    assert_eq!(record(&[(20487, 0)], &[], 0, &[0]), refused(4, 0));
    assert_eq!(exchange(&[(20487, 0)], &[], &[], &[]), refused(4, 0));
    assert_eq!(record(&AND[..2], &[1], 0, &[1]), refused(13, 0));
}

/// And-left on atom 0 and itself, over and over, then init: as many steps deep as wanted.
#[test]
fn depth() {
    let table = &[(0, 0), (12288, 0)];
    let deep = |depth: usize| [vec![AND_LEFT + 1; depth - 1], vec![0]].concat();
    assert_eq!(record(table, &[1], 0, &deep(512)), granted(&[]));
    assert_eq!(record(table, &[1], 0, &deep(513)), refused(10, 512));
    // 9 is tested before 10.
    assert_eq!(record(table, &[1], 0, &deep(513)[..512]), refused(9, 512));
    // Depth starts at 1 in each proof of an exchange, and places run on.
    let back = [AND_RIGHT, 0, 0];
    assert_eq!(exchange(table, &[1], &[0], &[&deep(512)[..], &back].concat()), Ok(()));
    assert_eq!(exchange(table, &[1], &[0], &[&deep(513)[..], &back].concat()), refused(10, 512));
    assert_eq!(exchange(table, &[0], &[1], &[&back[..], &deep(512)].concat()), Ok(()));
    assert_eq!(exchange(table, &[0], &[1], &[&back[..], &deep(513)].concat()), refused(10, 515));
    assert_eq!(exchange(table, &[1, 1], &[0], &[&deep(512)[..], &back, &back].concat()), Ok(()));
}

#[test]
fn proofs_of_an_exchange() {
    assert_eq!(exchange(T, &[], &[], &[]), Ok(()));
    assert_eq!(exchange(T, &[], &[], &[0]), refused(15, 0));
    // A statement that stands twice is proved twice; a proof that is still due meets 9.
    assert_eq!(exchange(T, &[0, 0], &[0], &[0, 0, 0]), Ok(()));
    assert_eq!(exchange(T, &[0, 0], &[0], &[0, 0]), refused(9, 2));
    assert_eq!(exchange(T, &[0], &[0], &[]), refused(9, 0));
    assert_eq!(exchange(T, &[0], &[0], &[0, 0, 0]), refused(15, 2));
    assert_eq!(exchange(T, &[0], &[1], &[SAYS_RIGHT, AFFIRM, 0, SAYS_LEFT + 1]), refused(14, 3));
    // What a proof adds is gone in the next one.
    assert_eq!(exchange(AND, &[2], &[0, 1], &[AND_LEFT + 2, 0, 1]), refused(12, 2));
}

#[test]
fn sizes_and_lengths() {
    let good = record_file(T, &[0], 0, &[0]);
    let equal = exchange_file(T, &[0], &[0], &[0, 0]);
    for (file, check) in [
        (good, (|file| check_record(file, 0).map(|_| ())) as fn(&[u8]) -> _),
        (equal, check_exchange as fn(&[u8]) -> _),
    ] {
        assert_eq!(check(&file), Ok(()));
        for length in 0..file.len() {
            assert_eq!(check(&file[..length]), refused(if length < 8 { 1 } else { 3 }, 0));
        }
        for more in [1, 2, 3, 120_000] {
            assert_eq!(check(&[&file[..], &vec![0; more]].concat()), refused(3, 0));
        }
    }
    // Test 2 comes before 3: the sizes alone, nine bytes.
    let sizes = |sizes: [u16; 4]| [bytes(&[&sizes]), vec![0]].concat();
    for (number, [f, s, n]) in [
        (2, [0, 0, 1]),
        (2, [4097, 0, 1]),
        (2, [1, 257, 1]),
        (2, [1, 0, 0]),
        (2, [1, 0, 16385]),
        (3, [4096, 256, 16384]),
        (3, [1, 0, 1]),
    ] {
        assert_eq!(check_record(&sizes([f, s, n, 65535]), 256), refused(number, 0));
    }
    for (number, [f, s1, s2, n]) in [
        (2, [0, 0, 0, 0]),
        (2, [4097, 0, 0, 0]),
        (2, [1, 257, 0, 0]),
        (2, [1, 0, 257, 0]),
        (2, [1, 0, 0, 16385]),
        (3, [4096, 256, 256, 16384]),
    ] {
        assert_eq!(check_exchange(&sizes([f, s1, s2, n])), refused(number, 0));
    }
    assert_eq!(check_record(&[0xff; 120_001], 256), refused(2, 0));
    assert_eq!(check_exchange(&[0xff; 120_001]), refused(2, 0));
}

#[test]
fn tables_and_lists() {
    for bad in [
        (0, 1),
        (4097, 0),
        (4096, 1),
        (8193, 0),
        (8192, 1),
        (12289, 0),
        (16384, 1),
        (20480, 1),
        (20480, 4096),
        (24576, 0),
        (65535, 0),
    ] {
        assert_eq!(record(&[(5, 0), bad, bad], &[], 0, &[0]), refused(4, 1), "{bad:?}");
        assert_eq!(exchange(&[(5, 0), bad, bad], &[], &[], &[]), refused(4, 1), "{bad:?}");
    }
    for good in [(4095, 0), (4096, 0), (8192, 0), (12288, 0), (16384, 0), (20480, 0), (24575, 0)] {
        assert_eq!(exchange(&[(5, 0), good], &[], &[], &[]), Ok(()), "{good:?}");
    }
    // 4 passes the whole table before 5; 5 gives the first later entry; then 6 and 7.
    assert_eq!(record(&[(0, 0), (0, 0), (0, 1)], &[], 0, &[0]), refused(4, 2));
    assert_eq!(record(&[(0, 0), (1, 0), (1, 0), (0, 0)], &[9], 9, &[0]), refused(5, 2));
    assert_eq!(record(T, &[9], 3, &[0]), refused(6, 0));
    assert_eq!(record(T, &[1, 3, 65535], 2, &[0]), refused(7, 1));
    assert_eq!(exchange(T, &[0, 1], &[2, 3, 4], &[]), refused(7, 3));
    assert_eq!(exchange(T, &[0, 65535], &[3], &[]), refused(7, 1));
}

/// 0 is A, 1 is 7 says A, 2 is 8 says A, 3 is 7 says 1, 4 is B, 5 is 7 says B, 6 is (1 and A), 7 is
/// (A implies 1), 8 is (1 or 1), 9 is (1 and 2), 10 is (A and 1), 11 is (1 implies 1).
const PAPERS: Table = &[
    (0, 0),
    (20487, 0),
    (20488, 0),
    (20487, 1),
    (1, 0),
    (20487, 4),
    (12289, 0),
    (8192, 1),
    (16385, 1),
    (12289, 2),
    (12288, 1),
    (8193, 1),
];

/// "A signer is now a principal K with a statement K says A that some says-left step names." (02)
#[test]
fn signers_carried_the_release() {
    const OPEN_1: [u16; 4] = [SAYS_RIGHT, SAYS_LEFT + 1, AFFIRM, 0];
    let after = |first: &[u16]| [first, &OPEN_1].concat();
    for (about, statements, goal, steps, signers) in [
        ("the paper of 8 lies unused", &[2, 1, 2, 1, 0][..], 1, OPEN_1.to_vec(), &[7][..]),
        ("7 affirms, and its paper lies unused", &[0, 1], 1, vec![SAYS_RIGHT, AFFIRM, 0], &[]),
        ("nobody affirms", &[1, 0], 0, vec![0], &[]),
        ("two papers of 7, one unused", &[1, 5], 1, OPEN_1.to_vec(), &[7]),
        ("two papers of 7, the other unused", &[5, 1], 1, OPEN_1.to_vec(), &[7]),
        ("added by implies right", &[], 11, after(&[IMPLIES_RIGHT]), &[]),
        ("added by and left", &[6], 1, after(&[AND_LEFT + 6]), &[]),
        ("added by and left, and stated", &[6, 1], 1, after(&[AND_LEFT + 6]), &[7]),
        ("added by and left, and another paper of 7", &[6, 5], 1, after(&[AND_LEFT + 6]), &[]),
        ("added by implies left", &[0, 7], 1, after(&[IMPLIES_LEFT + 7, 0]), &[]),
        ("added by implies left, and stated", &[0, 7, 1], 1, after(&[IMPLIES_LEFT + 7, 0]), &[7]),
        ("added by or left", &[8], 1, [&[OR_LEFT + 8], &OPEN_1[..], &OPEN_1].concat(), &[]),
        (
            "added by says left",
            &[3],
            1,
            vec![SAYS_RIGHT, SAYS_LEFT + 3, SAYS_LEFT + 1, AFFIRM, 0],
            &[7],
        ),
        ("said by a paper, and unused", &[3, 0], 1, vec![SAYS_RIGHT, AFFIRM, 0], &[]),
        ("opened in the second premise", &[0, 1], 10, after(&[AND_RIGHT, 0]), &[7]),
        (
            "one opened in either premise",
            &[2, 1],
            9,
            [&[AND_RIGHT], &OPEN_1[..], &[SAYS_RIGHT, SAYS_LEFT + 2, AFFIRM, 0]].concat(),
            &[7, 8],
        ),
    ] {
        let file = record_file(PAPERS, statements, goal, &steps);
        assert_eq!(check_record(&file, signers.len()), granted(signers), "{about}");
        assert_eq!(check_record(&file, 256), granted(signers), "{about}");
        if let Some(room) = signers.len().checked_sub(1) {
            assert_eq!(check_record(&file, room), refused(8, 0), "{about}");
        }
    }
}

/// "Refusal 8 counts these and is tested after 15" (02): a short list with a wrong proof is what the
/// proof is.
#[test]
fn the_list_is_tested_after_the_proof() {
    for (statements, goal, steps, number, place) in [
        (&[1, 2, 3][..], 1, &[SAYS_RIGHT, SAYS_LEFT + 1, AFFIRM, 0][..], 7, 2),
        (&[1, 2], 1, &[SAYS_RIGHT, SAYS_LEFT + 1, AFFIRM], 9, 3),
        (&[1, 2], 1, &[[SAYS_RIGHT].as_slice(), &[SAYS_LEFT + 1; 512]].concat(), 10, 512),
        (&[1, 2], 1, &[SAYS_RIGHT, SAYS_LEFT + 1, 65535], 11, 2),
        (&[1], 1, &[SAYS_RIGHT, SAYS_LEFT + 1, SAYS_LEFT + 2, AFFIRM, 0], 12, 2),
        (&[1], 1, &[SAYS_RIGHT, SAYS_LEFT + 1, 0], 13, 2),
        (&[1, 2], 1, &[SAYS_RIGHT, SAYS_LEFT + 1, SAYS_LEFT + 2, AFFIRM, 0], 14, 2),
        (&[1, 2], 1, &[SAYS_RIGHT, SAYS_LEFT + 1, AFFIRM, 0, 0], 15, 4),
        (&[1, 2], 1, &[SAYS_RIGHT, SAYS_LEFT + 1, AFFIRM, 0], 8, 0),
    ] {
        let file = record_file(T, statements, goal, steps);
        assert_eq!(check_record(&file, 0), refused(number, place));
    }
}

/// "Signers shall stand in rising principal number" (02), each once.
#[test]
fn signers_rise() {
    // An order and, after it, what each of these says of it.
    let papers = [0, 7, 8, 9, 10, 63, 64, 4095];
    let table: Vec<(u16, u16)> =
        [(0, 0)].into_iter().chain(papers.map(|k| (20480 + k, 0))).collect();
    for (statements, signers) in [
        (&[3, 2][..], &[7, 8][..]),
        (&[2, 3], &[7, 8]),
        (&[8, 5, 4, 1], &[0, 9, 10, 4095]),
        (&[3, 2, 3], &[7, 8]),
        (&[7, 6, 7, 8, 6, 1], &[0, 63, 64, 4095]),
    ] {
        let (table, goal, steps) = all_opened(&table, statements);
        assert_eq!(record(&table, &[statements, &[0]].concat(), goal, &steps), granted(signers));
    }
    // As many as can be, in falling order; and every other one of them.
    let all: Vec<u16> = (0..256).map(|i| 16 * i + 15).collect();
    let table: Vec<(u16, u16)> =
        [(0, 0)].into_iter().chain(all.iter().map(|k| (20480 + k, 0))).collect();
    let statements: Vec<u16> = (1..=256).rev().collect();
    for every in [1, 2] {
        let opened: Vec<u16> = statements.iter().copied().step_by(every).collect();
        let signers: Vec<u16> = all.iter().copied().rev().step_by(every).rev().collect();
        let (table, goal, steps) = all_opened(&table, &opened);
        assert_eq!(record(&table, &statements, goal, &steps), granted(&signers));
    }
}

/// The order of 11 to 14 at one step.
#[test]
fn one_step() {
    for code in [AFFIRM, IMPLIES_RIGHT, AND_RIGHT, OR_FIRST, OR_SECOND, SAYS_RIGHT] {
        assert_eq!(record(T, &[0], 0, &[code + 1]), refused(11, 0));
        assert_eq!(record(T, &[0], 0, &[code]), refused(13, 0));
    }
    for code in [0, IMPLIES_LEFT, FALSE_LEFT, AND_LEFT, OR_LEFT, SAYS_LEFT] {
        assert_eq!(record(T, &[0], 1, &[code + 1]), refused(12, 0));
        assert_eq!(record(T, &[0], 1, &[code + 3]), refused(12, 0));
        assert_eq!(record(T, &[0], 1, &[code + 4095]), refused(12, 0));
        assert_eq!(record(T, &[0], 1, &[code]), refused(13, 0));
    }
    assert_eq!(record(T, &[1], 1, &[1]), refused(13, 0));
    for word in [49152, 65535] {
        assert_eq!(record(T, &[], 0, &[word]), refused(11, 0));
    }
    // Right rules need a truth: at an affirmation of a says, an and, an or, an implication, an
    // atom.
    let table = &[
        (0, 0),
        (4096, 0),
        (8192, 0),
        (12288, 0),
        (16384, 0),
        (20487, 0),
        (20488, 0),
        (20488, 2),
        (20488, 3),
        (20488, 4),
        (20488, 5),
    ];
    for (goal, code) in [
        (6, 0),
        (7, IMPLIES_RIGHT),
        (8, AND_RIGHT),
        (9, OR_FIRST),
        (9, OR_SECOND),
        (10, SAYS_RIGHT),
    ] {
        assert_eq!(record(table, &[0], goal, &[SAYS_RIGHT, code]), refused(13, 1));
    }
    // False proves any goal, an affirmation too.
    assert_eq!(record(table, &[1], 0, &[FALSE_LEFT + 1]), granted(&[]));
    assert_eq!(record(table, &[1], 6, &[SAYS_RIGHT, FALSE_LEFT + 1]), granted(&[]));
}

/// 0 is A, 1 is B, 2 A implies B, 3 A or B, 4 7 says B, 5 A implies A, 6 (5 and A), 7 B or A, 8 7
/// says A.
const MIX: Table = &[
    (0, 0),
    (1, 0),
    (8192, 1),
    (16384, 1),
    (20487, 1),
    (8192, 0),
    (12293, 0),
    (16385, 0),
    (20487, 0),
];

#[test]
fn errors_of_classes() {
    // Init on an affirmation; affirm comes first.
    assert_eq!(record(T, &[0], 1, &[SAYS_RIGHT, 0]), refused(13, 1));
    // The first premise of implies-left is a truth, the second keeps the affirmation.
    assert_eq!(
        record(MIX, &[0, 2], 4, &[SAYS_RIGHT, IMPLIES_LEFT + 2, 0, AFFIRM, 1]),
        granted(&[])
    );
    assert_eq!(
        record(MIX, &[0, 2], 4, &[SAYS_RIGHT, IMPLIES_LEFT + 2, AFFIRM, 0, AFFIRM, 1]),
        refused(13, 2)
    );
    assert_eq!(record(MIX, &[0, 2], 4, &[SAYS_RIGHT, IMPLIES_LEFT + 2, 0, 1]), refused(13, 3));
    assert_eq!(
        record(MIX, &[8, 2], 4, &[SAYS_RIGHT, IMPLIES_LEFT + 2, SAYS_LEFT + 8]),
        refused(14, 2)
    );
    // The named hypothesis stays, in both premises.
    assert_eq!(record(AND, &[2], 0, &[AND_LEFT + 2, AND_LEFT + 2, 0]), granted(&[]));
    assert_eq!(
        record(MIX, &[0, 2], 1, &[IMPLIES_LEFT + 2, 0, IMPLIES_LEFT + 2, 0, 1]),
        granted(&[])
    );
    assert_eq!(
        record(MIX, &[8], 8, &[SAYS_RIGHT, SAYS_LEFT + 8, SAYS_LEFT + 8, AFFIRM, 0]),
        granted(&[7])
    );
    // What the first premise adds isn't in the second, and what stood there before still is.
    assert_eq!(record(MIX, &[3], 0, &[OR_LEFT + 3, 0, 0]), refused(12, 2));
    assert_eq!(record(MIX, &[3], 7, &[OR_LEFT + 3, OR_SECOND, 0, OR_FIRST, 1]), granted(&[]));
    assert_eq!(record(MIX, &[3], 7, &[OR_LEFT + 3, OR_SECOND, 0, OR_SECOND, 1]), refused(13, 4));
    assert_eq!(record(MIX, &[], 6, &[AND_RIGHT, IMPLIES_RIGHT, 0, 0]), refused(12, 3));
    assert_eq!(record(MIX, &[0], 6, &[AND_RIGHT, IMPLIES_RIGHT, 0, 0]), granted(&[]));
    // The second operand of implies-left isn't there in its first premise.
    assert_eq!(record(&[(0, 0), (8192, 0)], &[1], 0, &[IMPLIES_LEFT + 1, 0]), refused(12, 1));
    // Two equal statements are one hypothesis, which stays when a premise ends.
    assert_eq!(record(MIX, &[0, 0], 6, &[AND_RIGHT, IMPLIES_RIGHT, 0, 0]), granted(&[]));
}

/// Tables of 4,096 entries with trees as deep, and with 2^4,095 leaves.
#[test]
fn deep_trees() {
    let all: Vec<u16> = (3840..4096).collect();
    for (kind, doubled) in [(5, false), (2, true), (3, true), (4, true)] {
        let chain: Vec<(u16, u16)> = (0..4096u16)
            .map(|own| {
                if own == 0 {
                    (0, 0)
                } else {
                    (kind * 4096 + if doubled { own - 1 } else { 7 }, own - 1)
                }
            })
            .collect();
        assert_eq!(record(&chain, &all, 0, &[0]), refused(12, 0));
        assert_eq!(record(&chain, &[&all[1..], &[0]].concat(), 0, &[0]), granted(&[]));
        assert_eq!(exchange(&chain, &all, &all, &[0]), refused(12, 0));
    }
    // Depth 512 of the derivation with the deepest comparison at its end: two chains of one height,
    // unlike only in their atoms.
    let chains: Vec<(u16, u16)> =
        (0..4096u16).map(|own| if own < 2 { (own, 0) } else { (20487, own - 2) }).collect();
    let steps =
        [vec![SAYS_RIGHT], vec![SAYS_LEFT + 4095; 510], vec![SAYS_LEFT + 4094, AFFIRM]].concat();
    assert_eq!(record(&chains, &[4095], 4094, &steps), refused(12, 511));
    assert_eq!(record(&chains, &[4095, 4094], 4094, &steps), refused(10, 512));
}

/// Any bytes are answered.
#[test]
fn any_bytes() {
    let mut state = 1u64;
    let mut random = move || {
        state = state.wrapping_mul(6364136223846793005).wrapping_add(1442695040888963407);
        (state >> 33) as usize
    };
    let bases = [
        record_file(T, &[1], 1, &[40960, 45057, 4096, 0]),
        record_file(MIX, &[0, 2], 4, &[SAYS_RIGHT, IMPLIES_LEFT + 2, 0, AFFIRM, 1]),
        exchange_file(AND, &[2], &[0, 1], &[24578, 0, 24578, 1, 20480, 0, 1]),
    ];
    for round in 0..100_000 {
        let mut file = bases[round % 3].clone();
        for _ in 0..1 + random() % 3 {
            let place = random() % file.len();
            file[place] =
                if random() % 2 == 0 { random() as u8 } else { (random() % 12 * 16) as u8 };
        }
        let _ = check_record(&file, random() % 2);
        let _ = check_exchange(&file);
        let _ = independent_of(&file, 7);
        let noise: Vec<u8> = (0..random() % 40).map(|_| random() as u8 % 4).collect();
        let _ = check_record(&noise, 0);
        let _ = check_exchange(&noise);
        let _ = independent_of(&noise, 7);
    }
}
