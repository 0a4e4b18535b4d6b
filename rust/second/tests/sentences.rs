//! A proof's text, and what is left in the lent list and the lent bytes.
mod common;

use common::*;
use second::{sentences, Refusal};
use std::fs;
use std::path::Path;

/// The signers and the text, where so much is lent; all that is lent is looked at.
fn written(file: &[u8], words: usize, bytes: usize) -> Result<(Vec<u16>, String), Refusal> {
    let list_before: Vec<u16> = (0..words).map(|place| 60_000 - place as u16).collect();
    let text_before: Vec<u8> = (0..bytes).map(|place| 128 + (place % 100) as u8).collect();
    let (mut list, mut text) = (list_before.clone(), text_before.clone());
    let answer = sentences(file, &mut list, &mut text);
    let (count, length) = answer.unwrap_or((0, 0));
    assert_eq!(list[count..], list_before[count..]);
    assert_eq!(text[length..], text_before[length..]);
    list.truncate(count);
    text.truncate(length);
    answer.map(|_| (list, String::from_utf8(text).expect("the text is plain")))
}

/// Written with these signers where there is room for both, also where it is just enough; refused
/// where a byte or a word is missing.
fn assert_written(file: &[u8], signers: &[u16], text: &str) {
    let right = Ok((signers.to_vec(), text.to_string()));
    let (words, bytes) = (signers.len(), text.len());
    assert!(written(file, words, bytes) == right);
    assert!(written(file, 256, bytes + 1000) == right);
    for short in [0, 1, bytes / 2, bytes - 1] {
        assert_eq!(written(file, words, short), Err(Refusal { number: 16, place: 0 }));
    }
    if words > 0 {
        for bytes in [0, bytes - 1, bytes] {
            assert_eq!(written(file, words - 1, bytes), Err(Refusal { number: 8, place: 0 }));
        }
    }
}

#[test]
fn record_a() {
    let text = "0 says right for (p7 says a0)\n\
                1 says left (p7 says a0) for p7 affirms a0\n\
                2 affirm for p7 affirms a0\n\
                3 init a0 for a0\n";
    assert_written(&record_file(&T[..2], &[1], 1, &[40960, 45057, 4096, 0]), &[7], text);
}

#[test]
fn every_rule() {
    let table = &[
        (0, 0),
        (1, 0),
        (2, 0),
        (3, 0),
        (4, 0),
        (4096, 0),
        (16384, 5),  // 6: a0 or false
        (20487, 6),  // 7: p7 says that
        (12289, 2),  // 8: a1 and a2
        (8192, 8),   // 9: a0 implies that
        (16386, 4),  // 10: a2 or a4
        (16388, 3),  // 11: a4 or a3
        (12298, 11), // 12: both
        (20487, 12), // 13: p7 says that
        (8195, 13),  // 14: a3 implies that
        (20480 + 4095, 0),
    ];
    let steps = [
        IMPLIES_RIGHT,
        SAYS_RIGHT,
        SAYS_LEFT + 7,
        OR_LEFT + 6,
        IMPLIES_LEFT + 9,
        0,
        AND_LEFT + 8,
        AFFIRM,
        AND_RIGHT,
        OR_FIRST,
        2,
        OR_SECOND,
        3,
        FALSE_LEFT + 5,
    ];
    let text = "\
0 implies right for (a3 implies (p7 says ((a2 or a4) and (a4 or a3))))
1 says right for (p7 says ((a2 or a4) and (a4 or a3)))
2 says left (p7 says (a0 or false)) for p7 affirms ((a2 or a4) and (a4 or a3))
3 or left (a0 or false) for p7 affirms ((a2 or a4) and (a4 or a3))
4 implies left (a0 implies (a1 and a2)) for p7 affirms ((a2 or a4) and (a4 or a3))
5 init a0 for a0
6 and left (a1 and a2) for p7 affirms ((a2 or a4) and (a4 or a3))
7 affirm for p7 affirms ((a2 or a4) and (a4 or a3))
8 and right for ((a2 or a4) and (a4 or a3))
9 or right first for (a2 or a4)
10 init a2 for a2
11 or right second for (a4 or a3)
12 init a3 for a3
13 false left false for p7 affirms ((a2 or a4) and (a4 or a3))
";
    // the paper of 4095 lies unused
    assert_written(&record_file(table, &[15, 7, 9], 14, &steps), &[7], text);
}

/// The record's own tests come first, in their order.
#[test]
fn refused_as_the_record_is() {
    for (number, place, file) in [
        (1, 0, vec![0; 7]),
        (3, 0, record_file(T, &[1], 1, &[0])[..23].to_vec()),
        (7, 1, record_file(T, &[1, 3], 1, &[0])),
        (14, 0, record_file(T, &[1], 0, &[45057])),
        (9, 2, record_file(T, &[0], 1, &[40960, 4096])),
        (15, 3, record_file(T, &[0], 1, &[40960, 4096, 0, 0])),
    ] {
        for (words, bytes) in [(0, 0), (256, 0), (256, 10_000)] {
            let right = Err(Refusal { number, place });
            assert_eq!(written(&file, words, bytes), right, "{words} words, {bytes} bytes");
        }
    }
}

/// Texts of more than 2^40 and of about 2^4,000 bytes, which nobody writes.
#[test]
fn doubled_formulas() {
    for (kind, count) in [(2, 40), (3, 40), (4, 4000), (3, 4095)] {
        let doubled = |own: u16| (kind * 4096 + own - 1, own - 1);
        let table: Vec<(u16, u16)> = [(0, 0)].into_iter().chain((1..=count).map(doubled)).collect();
        // the long formula is held and never named
        let unused = record_file(&table, &[0, count], 0, &[0]);
        assert_written(&unused, &[], "0 init a0 for a0\n");
        // it is the goal
        let steps = [IMPLIES_RIGHT, 0];
        let table = [&table[..], &[(8192 + count, 0)]].concat();
        if count < 4095 {
            let goal = record_file(&table, &[0], count + 1, &steps);
            let long = Err(Refusal { number: 16, place: 0 });
            assert_eq!(written(&goal, 0, 1 << 20), long);
            assert_eq!(written(&goal, 0, 0), long);
        }
    }
}

/// A formula as deep as the table is long is written.
#[test]
fn deep_formula() {
    let chain: Vec<(u16, u16)> =
        (0..4096u16).map(|own| if own == 0 { (4096, 0) } else { (20480 + own, own - 1) }).collect();
    let mut goal = "false".to_string();
    for principal in 1..4095 {
        goal = format!("(p{principal} says {goal})");
    }
    let text = format!(
        "0 says right for (p4095 says {goal})\n1 false left false for p4095 affirms {goal}\n"
    );
    assert_written(&record_file(&chain, &[0], 4095, &[SAYS_RIGHT, FALSE_LEFT]), &[], &text);
}

/// The texts that are stored beside the samples; they were made without a checker.
#[test]
fn every_sample_of_the_repository() {
    let package = Path::new(env!("CARGO_MANIFEST_DIR"));
    let top = package.ancestors().nth(2).expect("the package stands in the repository's rust/");
    let lines = fs::read_to_string(top.join("crates/samples/stdout")).expect("the samples' lines");
    let granted = lines.lines().filter_map(|line| line.split_once(".record granted "));
    let mut too_long = vec![];
    for (name, signers) in granted {
        let path = top.join("samples").join(name);
        let file = fs::read(path.with_extension("record")).expect(name);
        let signers: Vec<u16> =
            signers.split(' ').skip(1).map(|signer| signer.parse().expect(name)).collect();
        match fs::read_to_string(path.with_extension("sentences")) {
            Ok(text) => assert_written(&file, &signers, &text),
            Err(_) => {
                assert_eq!(written(&file, 256, 1 << 20), Err(Refusal { number: 16, place: 0 }));
                too_long.push(name);
            }
        }
    }
    assert_eq!(too_long, ["doubled-40-times"]);
}
