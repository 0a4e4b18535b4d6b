//! The pages say what the checker says: each line that README.md and docs/ have for a sample is the
//! one that it gives, and the bytes that docs/FORMAT.md has for A and K are those of the files. The
//! sentences that docs/SENTENCES.md reads aloud are those of its sample.
mod common;

use builder::steps::RULES;
use common::{file_of, top};
use std::collections::BTreeSet;
use std::fs;
use wethrynda::{check_exchange, check_record, independent_of};
use wethrynda::{Exchange, Independence, Verdict, MOST_SIGNERS};

fn page(name: &str) -> String {
    fs::read_to_string(top().join(name)).expect(name)
}

/// The names of README.md and of the pages in docs/.
fn names() -> Vec<String> {
    let docs = fs::read_dir(top().join("docs")).expect("docs/");
    let docs = docs.map(|entry| {
        format!("docs/{}", entry.expect("an entry of docs/").file_name().to_string_lossy())
    });
    docs.filter(|name| name.ends_with(".md")).chain(["README.md".to_string()]).collect()
}

/// A sample's bytes, by the file's name.
fn file(sample: &str) -> Vec<u8> {
    fs::read(top().join("samples").join(sample)).expect(sample)
}

/// A sample's line, by the proved checker; of "PRINCIPAL samples/SAMPLE" whether he can matter.
fn checked(sample: &str) -> String {
    let refused = |number, place| format!("refused {number} place {place}");
    if let Some((principal, sample)) = sample.split_once(" samples/") {
        return match independent_of(&file(sample), principal.parse().expect(sample)) {
            Independence::Independent => "independent".to_string(),
            Independence::NotIndependent => "not independent".to_string(),
            Independence::Refused { number, place } => refused(number, place),
        };
    }
    let (file, mut signers) = (file(sample), [0; MOST_SIGNERS]);
    if sample.ends_with(".exchange") {
        return match check_exchange(&file) {
            Exchange::Equal => "equal".to_string(),
            Exchange::Refused { number, place } => refused(number, place),
        };
    }
    match check_record(&file, &mut signers) {
        Verdict::Granted(count) => signers[..count]
            .iter()
            .fold(format!("granted {count}"), |line, signer| format!("{line} {signer}")),
        Verdict::Refused { number, place } => refused(number, place),
    }
}

/// Whatever is found in the pages, samples with their lines, is what the checker gives; and so many
/// are found at least.
fn assert_lines(names: &[String], find: fn(&str) -> Vec<(&str, &str)>, least: usize) {
    let mut count = 0;
    for name in names {
        for (sample, line) in find(&page(name)) {
            assert_eq!(line, checked(sample), "{sample} in {name}");
            count += 1;
        }
    }
    assert!(count >= least, "{count} lines are found, which should be {least} at least");
}

/// The commands of a page, each with the line that the page says it prints.
fn commands(page: &str) -> Vec<(&str, &str)> {
    let mut found = Vec::new();
    for text in page.split("./wethrynda ").skip(1) {
        let (command, after) = text.split_at(text.find(['`', '\n']).unwrap_or(text.len()));
        if let (Some((kind, sample)), Some(line)) =
            (command.split_once(" samples/"), printed(after))
        {
            let asked = command.strip_prefix("independent ");
            let of = if kind == "sentences" || asked.is_some() { "record" } else { kind };
            assert!(sample.ends_with(&format!(".{of}")), "{command}");
            found.push((asked.unwrap_or(sample), line));
        }
    }
    found
}

/// The line after a command: "prints `LINE`" or, where the command stands in a row of its own, the
/// next such row, if it is a line.
fn printed(after: &str) -> Option<&str> {
    if let Some(text) = after.trim_start_matches(['`', '\n', ' ']).strip_prefix("prints `") {
        return text.split('`').next();
    }
    let row = after.strip_prefix('\n')?.lines().find_map(|row| row.strip_prefix("    "))?;
    let whole = ["equal", "independent", "not independent"];
    let starts = ["granted ", "refused "];
    let is_line = whole.contains(&row) || starts.iter().any(|start| row.starts_with(start));
    is_line.then_some(row)
}

/// Each "Its line is `LINE`" of a page, with the sample that is named last before it.
fn told(page: &str) -> Vec<(&str, &str)> {
    let mut found = Vec::new();
    let (mut before, mut sample) = ("", "no sample");
    for text in page.split('`') {
        if before.split_whitespace().rev().take(3).eq(["is", "line", "Its"]) {
            found.push((sample, text));
        } else if text.ends_with(".record") || text.ends_with(".exchange") {
            sample = text.rsplit('/').next().unwrap_or(text);
        }
        before = text;
    }
    found
}

/// The cells of a table's row, whose first is a number.
fn rows(text: &str) -> impl Iterator<Item = Vec<&str>> {
    let rows = text.lines().filter_map(|row| row.strip_prefix('|')?.strip_suffix('|'));
    rows.map(|row| row.split('|').map(str::trim).collect::<Vec<_>>())
        .filter(|cells| cells[0].parse::<usize>().is_ok())
}

/// The rows of the overview in docs/CLASSES.md: number, what they think, theorem, sample, line.
fn overview(page: &str) -> Vec<(&str, &str)> {
    let table = page
        .split("\n## ")
        .find(|section| section.starts_with("Overview\n"))
        .expect("the overview");
    rows(table).map(|cells| (cells[3].trim_matches('`'), cells[4].trim_matches('`'))).collect()
}

#[test]
fn lines_are_the_checkers() {
    assert_lines(&names(), commands, 22);
    assert_lines(&names(), told, 27);
    assert_lines(&["docs/CLASSES.md".to_string()], overview, 16);
}

/// The tables with offset, bytes, words and what it is. The rows of the steps have more cells.
#[test]
fn bytes_are_the_files() {
    let page = page("docs/FORMAT.md");
    for sample in ["A.record", "K.exchange"] {
        let file = file(sample);
        let head = format!("`samples/{sample}`, {} bytes.", file.len());
        let section = page.split("\n## ").find(|section| section.contains(&head)).expect(&head);
        let mut bytes = Vec::new();
        for cells in rows(section).filter(|cells| cells.len() == 4) {
            assert_eq!(cells[0], bytes.len().to_string(), "{sample}: the offset of {}", cells[3]);
            let row: Vec<u8> = cells[1]
                .split(' ')
                .map(|byte| u8::from_str_radix(byte, 16).expect(cells[1]))
                .collect();
            let words: Vec<u16> =
                cells[2].split(' ').map(|word| word.parse().expect(cells[2])).collect();
            assert_eq!(row, file_of(&words), "{sample}: bytes and words of {}", cells[3]);
            bytes.extend(row);
        }
        assert_eq!(bytes, file, "{sample}");
    }
}

/// The line that is taken apart is one of the sample's. The table has a row for each rule, which
/// begins with number and rule as a line of the sample does.
#[test]
fn sentences_are_the_samples() {
    let [page, text] = ["docs/SENTENCES.md", "samples/every-rule.sentences"].map(page);
    let section = page.split("\n## ").find(|section| section.starts_with("A line\n"));
    let example = section.expect("A line").lines().find_map(|row| row.strip_prefix("    "));
    let example = example.expect("an example");
    assert!(text.lines().any(|line| line == example), "{example}");
    let mut rules = BTreeSet::new();
    for row in page.lines().filter_map(|row| row.strip_prefix("| `")) {
        let (number, rest) = row.split_once(' ').expect(row);
        let is_here = |rule: &&str| rest.starts_with(&format!("{rule} "));
        let rule = RULES.into_iter().find(is_here).expect(row);
        let start = format!("{number} {rule} ");
        assert!(text.lines().any(|line| line.starts_with(&start)), "no line begins {start}");
        rules.insert(rule);
    }
    assert_eq!(rules, BTreeSet::from(RULES));
}
