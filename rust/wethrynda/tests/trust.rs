//! docs/TRUST.md is true of the repository: the lines of each specs/, the public functions, the
//! must-fail edits; and what is to be believed cites no proof. The paths into crates/ that
//! README.md and seven pages of docs/ name exist. A message says what to put right.
mod common;

use common::top;
use std::collections::BTreeSet;
use std::fs;
use std::path::{Path, PathBuf};

fn text(path: impl AsRef<Path>) -> String {
    let path = top().join(path);
    fs::read_to_string(&path).unwrap_or_else(|error| panic!("{}: {error}", path.display()))
}

fn files(folder: &Path) -> Vec<PathBuf> {
    let entries = fs::read_dir(folder).expect("a folder").flatten().map(|entry| entry.path());
    entries.flat_map(|path| if path.is_dir() { files(&path) } else { vec![path] }).collect()
}

/// Each crate that has such a folder, and the text of all files in it.
fn in_crates(folder: &str) -> Vec<(String, String)> {
    let crates = fs::read_dir(top().join("crates")).expect("crates/").flatten();
    let with_it = crates.filter(|of| of.path().join(folder).is_dir());
    let read = |of: fs::DirEntry| {
        let all = files(&of.path().join(folder)).iter().map(text).collect();
        (of.file_name().into_string().expect("a name"), all)
    };
    with_it.map(read).collect()
}

/// The items of the lists in a section of docs/TRUST.md, each as one line without its "- ". The
/// further lines of an item are indented by two blanks.
fn items(section: &str) -> Vec<String> {
    let page = text("docs/TRUST.md");
    let part = page.split("\n## ").find(|part| part.starts_with(section));
    let part = part.unwrap_or_else(|| panic!("docs/TRUST.md has no section {section}"));
    let joined = part.replace("\n  ", " ");
    joined.lines().filter_map(|line| line.strip_prefix("- ")).map(str::to_string).collect()
}

/// How an item begins, and what stands after its first colon.
fn taken_apart(item: &str) -> (&str, &str) {
    item.split_once(": ").unwrap_or((item, ""))
}

/// The items that some have and others lack, as often as they lack them.
fn lacking(some: &[String], others: &[String]) -> String {
    let mut others = others.to_vec();
    let mut lines = String::new();
    for item in some {
        match others.iter().position(|other| other == item) {
            Some(at) => drop(others.swap_remove(at)),
            None => lines += &format!("- {item}\n"),
        }
    }
    lines
}

/// The items begin as the repository says, and no others do.
fn assert_begin(section: &str, mut right: Vec<String>, written: Vec<String>) {
    right.sort();
    let (missing, wrong) = (lacking(&right, &written), lacking(&written, &right));
    assert!(
        missing.is_empty() && wrong.is_empty(),
        "docs/TRUST.md, section {section}: items that begin so should stand there:\n{missing}\
         and these should not:\n{wrong}"
    );
}

/// Each path exists, from the top or in crates/.
fn assert_exist(page: &str, paths: Vec<String>) {
    let exists = |path: &String| ["", "crates"].iter().any(|at| top().join(at).join(path).exists());
    let gone: BTreeSet<_> = paths.into_iter().filter(|path| !exists(path)).collect();
    assert!(
        gone.is_empty(),
        "{page} names what is not there; write where it is now, or take it out: {gone:#?}"
    );
}

/// "- `CRATE`, LINES lines, BARE bare: FILES": the crates with a specs/ are these, its lines are so
/// many, and its files that are named (with a large letter) exist.
#[test]
fn lines_are_those_of_specs() {
    let is_bare = |line: &&str| {
        let starts = ["--", "use ", "mod ", "pub mod "];
        !line.is_empty() && !starts.iter().any(|start| line.starts_with(start))
    };
    let count = |(name, all): (String, String)| {
        let bare = all.lines().map(str::trim).filter(is_bare).count();
        format!("`{name}`, {} lines, {bare} bare", all.lines().count())
    };
    let written = items("1. ").into_iter().filter(|item| item.starts_with('`'));
    let written: Vec<String> = written.collect();
    let begin = written.iter().map(|item| taken_apart(item).0.to_string());
    assert_begin("1", in_crates("specs").into_iter().map(count).collect(), begin.collect());
    let mut paths = Vec::new();
    for item in &written {
        let (begin, files) = taken_apart(item);
        let name = begin.split('`').nth(1).expect("a crate's name");
        let files = files.split([' ', ';']).filter(|word| word.starts_with(char::is_uppercase));
        paths.extend(files.map(|file| format!("crates/{name}/specs/{file}.antt")));
    }
    assert_exist("docs/TRUST.md, section 1", paths);
}

fn public(line: &str) -> Option<&str> {
    let function = line.trim().strip_prefix("pub ")?.trim_start_matches("extern \"C\" ");
    function.strip_prefix("fn ")?.split(['(', '<']).next()
}

/// "- `CRATE::FUNCTION`: WHAT ITS CONTRACT SAYS. Edits: .."
#[test]
fn contracts_are_those_of_the_public_functions() {
    let of = |(name, code): (String, String)| {
        let functions = code.lines().filter_map(public).map(|f| format!("`{name}::{f}`"));
        functions.collect::<Vec<_>>()
    };
    let items = items("5. ");
    let written = items.iter().map(|item| taken_apart(item).0).filter(|name| name.contains("::"));
    let written = written.map(str::to_string).collect();
    assert_begin("5", in_crates("src").into_iter().flat_map(of).collect(), written);
}

/// "- .. Edits: `EDIT`, `EDIT`.", of the function's crate, or with the name of another before it.
#[test]
fn edits_that_are_named_exist() {
    let mut paths = Vec::new();
    for item in items("5. ") {
        let edits = item.rsplit_once(" Edits: ").and_then(|(_, edits)| edits.strip_suffix("`."));
        let edits = edits.unwrap_or_else(|| panic!("docs/TRUST.md, section 5: edits of {item}"));
        let labels: Vec<&str> = edits.split('`').skip(1).step_by(2).collect();
        let function = taken_apart(&item).0.trim_matches('`');
        let of = function.split_once("::").map(|(name, _)| name);
        assert!(
            of.is_none() || labels.len() > 1,
            "docs/TRUST.md, section 5: two edits are wanted for {function}"
        );
        for label in labels {
            let (name, label) = label.split_once('/').unwrap_or((of.unwrap_or_default(), label));
            paths.push(format!("crates/{name}/must-fail/{label}.edit"));
        }
    }
    assert_exist("docs/TRUST.md, section 5", paths);
}

#[test]
fn paths_that_are_named_exist() {
    let docs = ["TRUST", "PROMISES", "CLASSES", "FORMAT", "FOLDING", "SENTENCES", "INDEPENDENCE"];
    let docs = docs.map(|name| format!("docs/{name}.md"));
    for page in docs.iter().map(String::as_str).chain(["README.md"]) {
        let written = text(page);
        let words = written.split(|c: char| !c.is_ascii_alphanumeric() && !"_-./".contains(c));
        let paths = words.map(|word| word.trim_matches(['.', '/']));
        let folders = ["crates/", "/specs", "/src", "/proofs"];
        let in_a_crate = |path: &&str| folders.iter().any(|folder| path.contains(folder));
        assert_exist(page, paths.filter(in_a_crate).map(str::to_string).collect());
    }
}

#[test]
fn what_is_to_be_believed_cites_no_proof() {
    // what the library of the toolchain keeps under its proofs has definitions too
    let cites = |line: &&str| {
        let path = line.trim_start_matches("ghost ").strip_prefix("use ");
        path.is_some_and(|path| path.contains(".proofs.") && !path.starts_with("Rattle.std."))
    };
    for (name, lines) in in_crates("specs").into_iter().chain(in_crates("src")) {
        assert_eq!(
            lines.lines().find(cites),
            None,
            "a definition or a contract of {name} cites a proof, which a reader would have to read"
        );
    }
}
