//! The samples, their index pages and what is stored for the programs over them are what the
//! generator writes, byte for byte, and nothing else stands beside them.
use std::collections::BTreeMap;
use std::fs;
use std::path::{Path, PathBuf};
use std::process::Command;

/// The top of the repository.
fn top() -> PathBuf {
    let package = Path::new(env!("CARGO_MANIFEST_DIR"));
    package.ancestors().nth(2).expect("the package stands in the repository's rust/").to_path_buf()
}

/// The granted record whose proof is too long to be stored in sentences.
const TOO_LONG: &str = "doubled-40-times.record";

/// The program over the samples, and the folder at the top with the same files as its own.
const PROGRAM: &str = "crates/samples";
const SAMPLES: &str = "samples";

/// The files of a folder, by name.
fn files(folder: &Path) -> BTreeMap<String, Vec<u8>> {
    let entries = fs::read_dir(folder);
    let entries = entries.unwrap_or_else(|error| panic!("{}: {error}", folder.display()));
    entries
        .map(|entry| {
            let entry = entry.expect("an entry of the folder");
            let name = entry.file_name().into_string().expect("a name");
            (name, fs::read(entry.path()).expect("a file"))
        })
        .collect()
}

fn assert_same(name: &str, stored: Option<&Vec<u8>>, made: Option<&Vec<u8>>) {
    let run = "run `cargo run --release --bin make_samples` in rust/";
    assert!(stored == made, "{name} is not what make_samples writes: {run}");
}

#[test]
fn generated_files_are_the_stored_ones() {
    let folder = Path::new(env!("CARGO_TARGET_TMPDIR")).join("made");
    if folder.exists() {
        fs::remove_dir_all(&folder).expect("what an earlier run made is removed");
    }
    let run = Command::new(env!("CARGO_BIN_EXE_make_samples")).arg(&folder).status();
    assert!(run.expect("make_samples starts").success());

    for of in [Path::new(PROGRAM).join("data"), PathBuf::from(SAMPLES)] {
        let (stored, made) = (files(&top().join(&of)), files(&folder.join(&of)));
        for name in stored.keys().chain(made.keys()) {
            assert_same(&of.join(name).display().to_string(), stored.get(name), made.get(name));
        }
    }
    for name in ["args", "stdout"] {
        let file = Path::new(PROGRAM).join(name);
        let read = |top: &Path| fs::read(top.join(&file)).ok();
        assert_same(&file.display().to_string(), read(&top()).as_ref(), read(&folder).as_ref());
    }
}

#[test]
fn every_sample_has_a_line() {
    let program = top().join(PROGRAM);
    let read = |name: &str| fs::read_to_string(program.join(name)).expect("what is stored for it");
    let lines = read("stdout");
    let parted = lines.lines().map(|line| line.split_once(' ').expect(line));
    let lines: Vec<(&str, &str)> = parted.collect();
    let mut names: Vec<&str> = lines.iter().map(|&(name, _)| name).collect();
    assert_eq!(read("args").lines().collect::<Vec<_>>(), names);
    for &(name, line) in &lines {
        let (_, ending) = name.rsplit_once('.').expect(name);
        assert!(is_line(ending, line), "{name} {line}");
    }

    let sentences: Vec<String> = granted(&lines);
    names.extend(sentences.iter().map(String::as_str).chain(["README.md", "EXCHANGES.md"]));
    names.sort();
    let files = files(&top().join(SAMPLES)).into_keys();
    let others: Vec<String> = files.filter(|name| !name.ends_with(INDEPENDENT)).collect();
    assert_eq!(others, names);
}

/// How the names of the files end that have the lines of principals.
const INDEPENDENT: &str = ".independent";

/// Each stands beside a record, and its principals rise.
#[test]
fn principals_have_lines() {
    let files = files(&top().join(SAMPLES));
    let mut count = 0;
    for (name, text) in &files {
        let Some(sample) = name.strip_suffix(INDEPENDENT) else { continue };
        assert!(files.contains_key(&format!("{sample}.record")), "{name}");
        let text = std::str::from_utf8(text).expect(name);
        let parted = text.lines().map(|line| line.split_once(' ').expect(line));
        let lines: Vec<(u16, &str)> =
            parted.map(|(principal, line)| (principal.parse().expect(line), line)).collect();
        assert!(lines.is_sorted_by_key(|&(principal, _)| principal) && !lines.is_empty(), "{name}");
        for (principal, line) in lines {
            assert!(is_line("independent", line), "{name}: {principal} {line}");
        }
        count += 1;
    }
    assert!(count >= 16, "{count} records have lines of principals");
}

/// "no says-formula of K stands on the proving side of the goal or of any statement, leaving out
/// statements that are themselves K says something", and "17, after 7" (02); written out by hand.
#[test]
fn principals_by_hand() {
    let read = |name: &str| fs::read_to_string(top().join(SAMPLES).join(name)).expect(name);
    assert_eq!(
        read("A.independent"),
        "7 not independent\n8 independent\n4095 independent\n4096 refused 17 place 0\n\
         65535 refused 17 place 0\n"
    );
    assert_eq!(read("M.independent"), "7 refused 5 place 1\n4096 refused 5 place 1\n");
    assert_eq!(read("his-own-paper-left-out.independent"), "7 independent\n8 not independent\n");
}

/// The names of the files with sentences: one for each record that is granted, but for the one that
/// is too long.
fn granted(lines: &[(&str, &str)]) -> Vec<String> {
    let granted = lines.iter().filter(|(name, line)| {
        line.starts_with("granted") && *name != TOO_LONG && name.ends_with(".record")
    });
    granted.map(|(name, _)| name.replace(".record", ".sentences")).collect()
}

/// "Record A gives .. each ended by a line feed" (02); and two records written out by hand.
#[test]
fn sentences_by_hand() {
    let read = |name: &str| fs::read_to_string(top().join(SAMPLES).join(name)).expect(name);
    assert_eq!(
        read("A.sentences"),
        "0 says right for (p7 says a0)\n\
         1 says left (p7 says a0) for p7 affirms a0\n\
         2 affirm for p7 affirms a0\n\
         3 init a0 for a0\n"
    );
    assert_eq!(
        read("false-said-by-oneself.sentences"),
        "0 says right for (p7 says a0)\n\
         1 says left (p7 says false) for p7 affirms a0\n\
         2 false left false for p7 affirms a0\n"
    );
    assert_eq!(
        read("or-left.sentences"),
        "0 or left (a0 or a1) for (a1 or a0)\n\
         1 or right second for (a1 or a0)\n\
         2 init a0 for a0\n\
         3 or right first for (a1 or a0)\n\
         4 init a1 for a1\n"
    );
}

/// A line of the documents' for a file of that kind, with signers that rise.
fn is_line(ending: &str, line: &str) -> bool {
    let is_number = |word: &str| word.parse().is_ok_and(|number: u16| number.to_string() == word);
    match line.split(' ').collect::<Vec<_>>()[..] {
        ["equal"] => ending == "exchange",
        ["independent"] | ["not", "independent"] => ending == "independent",
        ["granted", count, ref signers @ ..] => {
            let is_counted = count == signers.len().to_string();
            let numbers: Vec<u16> = signers.iter().filter_map(|word| word.parse().ok()).collect();
            let rise = numbers.is_sorted_by(|one, next| one < next);
            let are_numbers = signers.iter().all(|signer| is_number(signer));
            ending == "record" && is_counted && are_numbers && rise
        }
        ["refused", number, "place", place] => {
            let value = number.parse().unwrap_or(0);
            let is_known = match ending {
                // it has no goal and no signers
                "exchange" => (1..=15).contains(&value) && ![6, 8].contains(&value),
                "independent" => (1..=7).contains(&value) || value == 17,
                _ => (1..=15).contains(&value),
            };
            is_number(number) && is_known && is_number(place)
        }
        _ => false,
    }
}
