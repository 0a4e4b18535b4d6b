//! The samples of document 01, every sample of the repository with the line that is stored for it,
//! signers of few and many statements, and a table made for collisions.
use builder::layout::{bytes, exchange, record};
use builder::papers::signed;
use builder::samples::T;
use builder::texts::MOST_TEXT;
use plain::{check_exchange, check_record, sentences, Refusal};
use std::collections::BTreeSet;
use std::fs;
use std::path::{Path, PathBuf};

/// The line that the record program would print, with a list of so many words; the words after the
/// signers are as they were.
fn record_line(file: &[u8], room: usize) -> String {
    let mut list = vec![60_000; room];
    let (line, count) = match check_record(file, &mut list) {
        Ok(count) => {
            let signers = list[..count].iter().map(|signer| format!(" {signer}"));
            (format!("granted {count}{}", signers.collect::<String>()), count)
        }
        Err(Refusal { number, place }) => (format!("refused {number} place {place}"), 0),
    };
    assert!(list[count..].iter().all(|&word| word == 60_000), "{line}");
    line
}

fn exchange_line(file: &[u8]) -> String {
    match check_exchange(file) {
        Ok(()) => "equal".to_string(),
        Err(Refusal { number, place }) => format!("refused {number} place {place}"),
    }
}

#[test]
fn records_of_document_01() {
    let deep = |times: usize| [&[40960], &vec![45057; times][..], &[4096, 0]].concat();
    let rows = [
        ("A", record(&T[..2], &[1], 1, &[40960, 45057, 4096, 0]), "granted 1 7"),
        ("B", record(&T, &[0], 1, &[40960, 4096, 0]), "granted 0"),
        ("C", record(&T, &[1], 0, &[45057]), "refused 14 place 0"),
        ("D", record(&T, &[2], 1, &[40960, 45058]), "refused 14 place 1"),
        ("E", record(&T, &[0], 1, &[0]), "refused 13 place 0"),
        ("F", record(&T, &[], 0, &[0]), "refused 12 place 0"),
        ("G", record(&T, &[0], 1, &[40960, 4096]), "refused 9 place 2"),
        ("H", record(&T, &[0], 1, &[40960, 4096, 0, 0]), "refused 15 place 3"),
        ("I", record(&T, &[0], 0, &[49152]), "refused 11 place 0"),
        ("J", record(&T, &[1, 1], 1, &[40960, 45057, 4096, 0]), "granted 1 7"),
        ("M", record(&[(0, 0), (0, 0)], &[0], 0, &[0]), "refused 5 place 1"),
        ("N", record(&[(20487, 0), (0, 0)], &[1], 1, &[1]), "refused 4 place 0"),
        ("O", record(&[(0, 0), (1, 0)], &[1], 0, &[1]), "refused 13 place 0"),
        ("depth 512", record(&T, &[1], 1, &deep(509)), "granted 1 7"),
        ("depth 513", record(&T, &[1], 1, &deep(510)), "refused 10 place 512"),
    ];
    for (name, words, line) in rows {
        assert_eq!(record_line(&bytes(&words), 256), line, "{name}");
    }
}

/// A used paper of principal 7 and an unused one of 8; 8 stands after 15 (02).
#[test]
fn the_list_is_tested_after_the_proof() {
    let signed = |steps: &[u16]| bytes(&record(&T, &[2, 1], 1, steps));
    let rows = [
        (&[40960, 45057, 4096, 0][..], 1, "granted 1 7"),
        (&[40960, 45057, 4096, 0], 0, "refused 8 place 0"),
        (&[40960, 45057, 4096, 0, 0], 0, "refused 15 place 4"),
        (&[40960, 45057, 45058], 0, "refused 14 place 2"),
        (&[40960, 45057, 0], 0, "refused 13 place 2"),
        (&[40960, 45057, 4097], 0, "refused 11 place 2"),
        (&[40960, 45057, 4096], 0, "refused 9 place 3"),
    ];
    for (steps, room, line) in rows {
        assert_eq!(record_line(&signed(steps), room), line, "{steps:?}");
    }
}

/// A says-formula that a rule adds and says left names, as no statement and as one: principal 7 says
/// atom 0, implied by this atom.
#[test]
fn added_says_formulas() {
    let table = [&T[..], &[(8192, 1), (20487, 1)]].concat();
    let steps = [12288 + 3, 0, 40960, 45057, 4096, 0];
    for (statements, line) in
        [(&[0, 3][..], "granted 0"), (&[0, 3, 4, 2], "granted 0"), (&[0, 3, 1], "granted 1 7")]
    {
        assert_eq!(record_line(&bytes(&record(&table, statements, 1, &steps)), 1), line);
    }
}

#[test]
fn exchanges_of_document_01() {
    let both = [(0, 0), (1, 0), (12288, 1)];
    let rows = [
        ("K", exchange(&both, &[2], &[0, 1], &[24578, 0, 24578, 1, 20480, 0, 1]), "equal"),
        ("L", exchange(&[(0, 0)], &[], &[0], &[0]), "refused 12 place 0"),
        ("M", exchange(&[(0, 0), (0, 0)], &[0], &[0], &[0, 0]), "refused 5 place 1"),
        ("N", exchange(&[(20487, 0), (0, 0)], &[1], &[1], &[1, 1]), "refused 4 place 0"),
        ("two empty lists", exchange(&[(0, 0)], &[], &[], &[]), "equal"),
        ("7 in the second list", exchange(&T, &[0, 1], &[2, 3], &[]), "refused 7 place 3"),
    ];
    for (name, words, line) in rows {
        assert_eq!(exchange_line(&bytes(&words)), line, "{name}");
    }
}

/// A sample of the repository, with the line that is stored for it.
struct Sample {
    path: PathBuf,
    name: String,
    file: Vec<u8>,
    line: String,
}

fn samples() -> Vec<Sample> {
    let package = Path::new(env!("CARGO_MANIFEST_DIR"));
    let top = package.ancestors().nth(2).expect("the package stands in the repository's rust/");
    let lines = fs::read_to_string(top.join("crates/samples/stdout")).expect("the samples' lines");
    let sample = |line: &str| {
        let (name, answer) = line.split_once(' ').expect(line);
        let path = top.join("samples").join(name);
        let file = fs::read(&path).expect(name);
        Sample { path, name: name.to_string(), file, line: answer.to_string() }
    };
    lines.lines().map(sample).collect()
}

#[test]
fn every_sample_of_the_repository() {
    for Sample { name, file, line, .. } in samples() {
        let is_record = name.ends_with(".record");
        let found = if is_record { record_line(&file, 256) } else { exchange_line(&file) };
        assert_eq!(found, line, "{name}");
    }
}

/// The signers and the text, where so much is lent; no byte after the text has changed, nor a word
/// after the signers.
fn written(file: &[u8], words: usize, bytes: usize) -> Result<(Vec<u16>, String), (u8, usize)> {
    let (mut list, mut text) = (vec![60_000; words], vec![200; bytes]);
    let answer = sentences(file, &mut list, &mut text);
    let (count, length) = answer.unwrap_or((0, 0));
    assert!(list[count..].iter().all(|&word| word == 60_000));
    assert!(text[length..].iter().all(|&byte| byte == 200));
    list.truncate(count);
    text.truncate(length);
    let text = String::from_utf8(text).expect("the text is plain");
    answer.map(|_| (list, text)).map_err(|refusal| (refusal.number, refusal.place))
}

/// The stored sentences, and the signers of the stored line, where there is just room for them; 16
/// where a byte is missing, and 8 before it where a word is.
#[test]
fn sentences_of_every_sample() {
    let records = samples().into_iter().filter(|sample| sample.name.ends_with(".record"));
    for Sample { path, name, file, line } in records {
        let words: Vec<&str> = line.split(' ').collect();
        match (&words[..], fs::read_to_string(path.with_extension("sentences"))) {
            (["granted", count, signers @ ..], Ok(text)) => {
                let signers: Vec<u16> =
                    signers.iter().map(|signer| signer.parse().expect(&line)).collect();
                let count = count.parse().expect(&line);
                let (length, right) = (text.len(), Ok((signers, text)));
                assert_eq!(written(&file, count, length + 99), right, "{name}");
                assert_eq!(written(&file, 256, length), right, "{name}");
                assert_eq!(written(&file, 256, length - 1), Err((16, 0)), "{name}");
                if count > 0 {
                    assert_eq!(written(&file, count - 1, 0), Err((8, 0)), "{name}");
                }
            }
            (["granted", ..], Err(_)) => {
                assert_eq!(name, "doubled-40-times.record");
                assert_eq!(written(&file, 256, MOST_TEXT), Err((16, 0)), "{name}");
            }
            (["refused", number, _, place], _) => {
                let right = (number.parse().expect(&line), place.parse().expect(&line));
                assert_eq!(written(&file, 256, 0), Err(right), "{name}");
            }
            _ => panic!("{name} {line}"),
        }
    }
}

#[test]
fn signers_rise() {
    let mixed: Vec<u16> = (0..255u32).map(|i| (i * 2017 % 4096) as u16).collect();
    let lists: [&[u16]; 8] = [
        &[],
        &[8, 7],
        &[4095, 10, 9, 0],
        &[8, 7, 8],
        &[64, 63, 128, 127, 63, 64],
        &[4095, 4032, 4031, 0, 64, 63, 1],
        &[7, 7, 7, 7, 7, 7, 7],
        &mixed,
    ];
    for principals in lists {
        // few statements in all, some more, and as many as can be
        let most = 256 - principals.len();
        for orders in [1, most.min(2), most] {
            // all papers are opened, or every other one, or none
            let every_other: Vec<u16> = principals.iter().copied().step_by(2).collect();
            for opened in [principals, &every_other, &[]] {
                assert_signed(orders, principals, opened);
            }
        }
    }
}

/// So many orders and the papers of these principals, of which some are opened: who signs.
fn assert_signed(orders: usize, principals: &[u16], opened: &[u16]) {
    let signers: BTreeSet<u16> = opened.iter().copied().collect();
    let listed: String = signers.iter().map(|signer| format!(" {signer}")).collect();
    let line = format!("granted {}{listed}", signers.len());
    let file = bytes(&signed(orders, principals, opened));
    for room in [signers.len(), 256, 300] {
        assert_eq!(record_line(&file, room), line, "{principals:?}, {orders} orders");
    }
    if let Some(room) = signers.len().checked_sub(1) {
        assert_eq!(record_line(&file, room), "refused 8 place 0", "{principals:?}");
    }
}

/// What 01 says of test 5, entry by entry.
fn first_repeated(table: &[(u16, u16)]) -> Option<usize> {
    (0..table.len()).find(|&i| table[..i].contains(&table[i]))
}

#[test]
fn a_table_made_for_collisions() {
    // entries whose slots are the same few of the set, however many slots it has
    let slot = |&(head, second): &(u16, u16)| {
        let entry = u64::from(second) << 16 | u64::from(head);
        entry.wrapping_mul(0x9e37_79b9_7f4a_7c15) >> 54
    };
    let mut table: Vec<(u16, u16)> = (0..300).map(|atom| (atom, 0)).collect();
    let principals = 20480..20480 + 4096;
    let says = (0..300).flat_map(|second| principals.clone().map(move |head| (head, second)));
    table.extend(says.filter(|entry| slot(entry) == 5).take(1100));
    assert_eq!(table.len(), 1400);
    let answer = |table: &[(u16, u16)]| record_line(&bytes(&record(table, &[0], 0, &[0])), 0);
    assert_eq!(answer(&table), "granted 0");
    for repeats in [vec![(1390, 1380)], vec![(1350, 7), (1300, 1299)], vec![(900, 600), (1399, 0)]]
    {
        let mut table = table.clone();
        repeats.iter().for_each(|&(later, earlier)| table[later] = table[earlier]);
        let place = first_repeated(&table).expect("a repeat");
        assert_eq!(answer(&table), format!("refused 5 place {place}"));
    }
}
