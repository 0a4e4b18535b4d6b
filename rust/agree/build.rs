//! Plants the faults: for each `faults/NAME.edit` a copy of the second checker with that edit, as a
//! module that `tests/faults.rs` compiles.
//!
//! An edit is a sentence that says which fault it is, and one or more of: `file:`, `old:` (found
//! exactly once there), `new:`.
use std::fmt::Write;
use std::fs;
use std::path::{Path, PathBuf};

struct Fault {
    name: String,
    what: String,
    edits: Vec<Edit>,
}

#[derive(Default)]
struct Edit {
    file: String,
    old: String,
    new: String,
}

fn main() {
    let from_cargo = |name: &str| PathBuf::from(std::env::var(name).expect("cargo sets it"));
    let (package, out) = (from_cargo("CARGO_MANIFEST_DIR"), from_cargo("OUT_DIR").join("faults"));
    let second = package.join("../second/src");
    println!("cargo:rerun-if-changed=build.rs");
    println!("cargo:rerun-if-changed=faults");
    println!("cargo:rerun-if-changed={}", second.display());
    let _ = fs::remove_dir_all(&out);
    fs::create_dir_all(&out).expect("a folder is made");
    let (mut modules, mut list) = (String::new(), String::new());
    for path in files(&package.join("faults")) {
        println!("cargo:rerun-if-changed={}", path.display());
        let fault = read(&path);
        plant(&fault, &second, &out.join(&fault.name));
        let Fault { name, what, .. } = &fault;
        let path = out.join(name).join("lib.rs");
        writeln!(modules, "#[allow(dead_code, unused)]\n#[path = {path:?}]\nmod {name};")
            .expect("text");
        writeln!(list, "    fault!({name}, {what:?}),").expect("text");
    }
    fs::write(out.join("faults.rs"), format!("{modules}\nconst FAULTS: &[Fault] = &[\n{list}];\n"))
        .expect("the list of faults is written");
}

/// The files of a folder, by name.
fn files(folder: &Path) -> Vec<PathBuf> {
    let mut files: Vec<PathBuf> = fs::read_dir(folder)
        .expect("a folder")
        .map(|entry| entry.expect("a file").path())
        .collect();
    files.sort();
    files
}

fn read(path: &Path) -> Fault {
    let text = fs::read_to_string(path).expect("an edit is text");
    let name = path.file_stem().expect("an edit has a name").to_string_lossy().into_owned();
    let (what, rest) = text
        .strip_prefix("# ")
        .and_then(|text| text.split_once('\n'))
        .unwrap_or_else(|| panic!("{name}: no sentence"));
    let mut edits: Vec<Edit> = vec![];
    let mut in_new = false;
    for line in rest.lines() {
        let after = |key: &str| {
            line.strip_prefix(key).map(|text| text.strip_prefix(' ').unwrap_or(text).to_string())
        };
        if let Some(file) = after("file:") {
            edits.push(Edit { file, ..Edit::default() });
        } else {
            let edit = edits.last_mut().unwrap_or_else(|| panic!("{name}: no file"));
            if let Some(old) = after("old:") {
                (edit.old, in_new) = (old, false);
            } else if let Some(new) = after("new:") {
                (edit.new, in_new) = (new, true);
            } else {
                // a text of several lines
                let text = if in_new { &mut edit.new } else { &mut edit.old };
                text.push('\n');
                text.push_str(line);
            }
        }
    }
    assert!(!edits.is_empty(), "{name}: no edit");
    Fault { name, what: what.to_string(), edits }
}

/// The copy with the fault.
fn plant(fault: &Fault, second: &Path, to: &Path) {
    fs::create_dir_all(to).expect("a folder is made");
    for path in files(second) {
        let file = path.file_name().expect("a file has a name");
        let mut text = fs::read_to_string(&path).expect("a source is text");
        for edit in fault.edits.iter().filter(|edit| file == edit.file.as_str()) {
            let count = text.matches(&edit.old).count();
            assert_eq!(
                count, 1,
                "faults/{}.edit: `old` stands {count} times in {}:\n{}",
                fault.name, edit.file, edit.old
            );
            text = text.replacen(&edit.old, &edit.new, 1);
        }
        fs::write(to.join(file), text).expect("a copy is written");
    }
    for edit in &fault.edits {
        assert!(
            second.join(&edit.file).exists(),
            "faults/{}.edit: no file {}",
            fault.name,
            edit.file
        );
    }
}
