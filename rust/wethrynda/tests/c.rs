//! The header and the library from C: the example program is compiled without a warning, and run on
//! the samples; and null.c, which hands null pointers to the header's inline functions, looks at
//! what is lent to the one for sentences, and takes answers about a principal apart; and alone.c,
//! which has no C library to link.
mod common;

use common::{samples, top, Answer};
use std::path::{Path, PathBuf};
use std::process::{Command, Output};
use wethrynda::Independence;

/// A place for a file that a test makes.
fn made(name: &str) -> PathBuf {
    Path::new(env!("CARGO_TARGET_TMPDIR")).join(name)
}

/// The example program, compiled as its first comment says. Each test has one of its own, since
/// they run at the same time.
fn example(name: &str) -> PathBuf {
    compiled(name, "examples/check.c", &[])
}

/// A program in C, compiled without a warning and linked with the library.
fn compiled(name: &str, source: &str, options: &[&str]) -> PathBuf {
    let top = top();
    let program = made(name);
    let run = Command::new("cc")
        .args(["-std=c99", "-pedantic", "-Wall", "-Wextra", "-Werror", "-O2"])
        .args(options)
        .arg("-I")
        .arg(top.join("include"))
        .arg(top.join(source))
        .arg(top.join("crates/ffi/out/libffi.a"))
        .arg("-o")
        .arg(&program)
        .output()
        .expect("cc starts");
    assert!(run.status.success(), "{}", String::from_utf8_lossy(&run.stderr));
    program
}

fn check(program: &Path, kind: &str, file: &Path) -> Output {
    Command::new(program).arg(kind).arg(file).output().expect("the example program starts")
}

/// No verdict: nothing on standard output, a word on standard error, and status 2.
fn assert_no_verdict(run: Output, about: &str) {
    assert_eq!((run.status.code(), run.stdout), (Some(2), vec![]), "{about}");
    assert!(!run.stderr.is_empty(), "{about}");
}

/// The library needs memcpy and memset from outside, and nothing else.
#[test]
fn without_a_c_library() {
    compiled("alone", "rust/wethrynda/tests/alone.c", &["-nostdlib", "-static", "-fno-builtin"]);
}

#[test]
fn samples_of_both_kinds() {
    let program = example("check_samples");
    for sample in samples("") {
        let (_, kind) = sample.name.rsplit_once('.').expect(&sample.name);
        let run = check(&program, kind, &top().join("samples").join(&sample.name));
        let said = String::from_utf8(run.stdout).expect("text");
        let (line, status) = match sample.answer {
            Answer::Granted(signers) => {
                let listed: String = signers.iter().map(|signer| format!(" {signer}")).collect();
                (format!("granted {}{listed}\n", signers.len()), 0)
            }
            Answer::Equal => ("equal\n".to_string(), 0),
            Answer::Refused(number, place) => (format!("refused {number} place {place}\n"), 1),
        };
        assert_eq!((said, run.status.code()), (line, Some(status)), "{}", sample.name);
    }
}

#[test]
fn sentences_of_every_record() {
    let program = example("check_sentences");
    for sample in samples(".record") {
        let run = check(&program, "sentences", &top().join("samples").join(&sample.name));
        let said = String::from_utf8(run.stdout).expect("text");
        let (text, status) = match (sample.text(), sample.answer) {
            (Some(text), _) => (text, 0),
            // granted, and too long for what the program lends
            (None, Answer::Granted(_)) => ("refused 16 place 0\n".to_string(), 1),
            (None, Answer::Refused(number, place)) => {
                (format!("refused {number} place {place}\n"), 1)
            }
            (None, Answer::Equal) => panic!("{} is no record", sample.name),
        };
        assert_eq!((said, run.status.code()), (text, Some(status)), "{}", sample.name);
    }
}

fn independent(program: &Path, principal: &str, file: &Path) -> Output {
    let run = Command::new(program).args(["independent", principal]).arg(file).output();
    run.expect("the example program starts")
}

#[test]
fn principals_of_samples() {
    let program = example("check_principals");
    let of_sample = |name: &str, principal: &str| {
        let run = independent(&program, principal, &top().join("samples").join(name));
        (String::from_utf8(run.stdout).expect("text"), run.status.code())
    };
    for sample in samples(".record") {
        for (principal, answer) in sample.independence() {
            let (line, status) = match answer {
                Independence::Independent => ("independent\n".to_string(), 0),
                Independence::NotIndependent => ("not independent\n".to_string(), 1),
                Independence::Refused { number, place } => {
                    (format!("refused {number} place {place}\n"), 1)
                }
            };
            let said = of_sample(&sample.name, &principal.to_string());
            assert_eq!(said, (line, Some(status)), "{} of {principal}", sample.name);
        }
    }
    // a number that no word holds is no principal's
    for principal in ["65536", "65543", "4294967303", "18446744073709551623"] {
        let said = of_sample("A.record", principal);
        assert_eq!(said, ("refused 17 place 0\n".to_string(), Some(1)), "{principal}");
    }
}

#[test]
fn no_verdict() {
    let program = example("check_nothing");
    let folder = top().join("samples");
    for kind in ["record", "exchange", "sentences"] {
        for unreadable in [folder.join("none"), folder.clone()] {
            let about = format!("{kind} {}", unreadable.display());
            assert_no_verdict(check(&program, kind, &unreadable), &about);
        }
    }
    let record = folder.join("A.record");
    assert_no_verdict(check(&program, "records", &record), "another word");
    assert_no_verdict(check(&program, "independent", &record), "no principal");
    assert_no_verdict(independent(&program, "7", &folder), "a principal and a folder");
    for word in ["", "-7", "+7", " 7", "7 ", "7x", "x", "0x7"] {
        assert_no_verdict(independent(&program, word, &record), &format!("principal '{word}'"));
    }
    let run = Command::new(&program).arg(&record).output().expect("the example program starts");
    assert_no_verdict(run, "one word only");
}

#[test]
fn null_pointers() {
    let wrap = [
        "-Wl,--wrap=wethrynda_check_record",
        "-Wl,--wrap=wethrynda_check_exchange",
        "-Wl,--wrap=wethrynda_write_sentences",
        "-Wl,--wrap=wethrynda_independent_of",
    ];
    let program = compiled("null", "rust/wethrynda/tests/null.c", &wrap);
    let run = Command::new(program).output().expect("null.c's program starts");
    assert!(run.status.success(), "{}", String::from_utf8_lossy(&run.stdout));
}
