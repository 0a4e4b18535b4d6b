//! The twelve rules stand alike wherever they are listed, with as many premises: in the code that
//! counts these, in the definitions, which quote document 01's rows, and in the tables of
//! docs/FORMAT.md and docs/CLASSES.md.
mod common;

use builder::steps::{code, premises, RULES};
use common::top;
use std::fs;

type Row = Vec<String>;

fn row<'a>(cells: impl IntoIterator<Item = &'a str>) -> Row {
    cells.into_iter().map(|cell| cell.trim().to_string()).collect()
}

fn text(path: &str) -> String {
    fs::read_to_string(top().join(path)).expect(path)
}

/// What stands in a text between these two, of which the first stands there once.
fn between<'a>(text: &'a str, start: &str, end: &str) -> &'a str {
    assert_eq!(text.matches(start).count(), 1, "how often {start:?} stands there");
    let (_, after) = text.split_once(start).expect(start);
    after.split_once(end).expect(end).0
}

/// The twelve cases of the code as rows of code, name, count, premises: "CODE => COUNT, // NAME:
/// PREMISES", and after them, with 0, that of no rule.
fn cases() -> Vec<Row> {
    let text = text("crates/premises/src/premise_count.rt");
    let cases: Vec<&str> = between(&text, "match code {\n", "\n    }").lines().collect();
    let (last, cases) = cases.split_last().expect("cases");
    assert_eq!(last.trim(), "_ => 0, // no rule");
    assert_eq!(cases.len(), 12);
    let case = |case: &&str| {
        let (code, rest) = case.split_once(" => ").expect(case);
        let (count, rest) = rest.split_once(", // ").expect(case);
        let (name, premises) = rest.split_once(": ").expect(case);
        row([code, name, count, premises])
    };
    cases.iter().map(case).collect()
}

fn column(rows: &[Row], at: usize) -> Row {
    rows.iter().map(|row| row[at].clone()).collect()
}

/// The cells of a table's row; a line of another kind has none.
fn cells(line: &str) -> Vec<&str> {
    let cells = line.strip_prefix('|').and_then(|line| line.strip_suffix('|'));
    cells.map_or(Vec::new(), |cells| cells.split('|').map(str::trim).collect())
}

/// The rows of the one table of a page that has all these heads, cut down to their columns.
fn table(page: &str, heads: &[&str]) -> Vec<Row> {
    let text = text(page);
    let lines: Vec<Vec<&str>> = text.lines().map(cells).collect();
    let columns = |line: &Vec<&str>| -> Option<Vec<usize>> {
        heads.iter().map(|head| line.iter().position(|cell| cell == head)).collect()
    };
    let tables: Vec<_> =
        (0..).zip(&lines).filter_map(|(at, line)| Some((at, columns(line)?))).collect();
    let [(at, columns)] = &tables[..] else {
        panic!("{page} has {} tables with {heads:?}, which should be one", tables.len());
    };
    let rows = lines[at + 2..].iter().take_while(|line| !line.is_empty());
    rows.map(|line| row(columns.iter().map(|&column| line[column]))).collect()
}

/// 01's rows as definitions and code quote them: "-- CODE | NAME | GOAL BELOW | NAMED HYPOTHESIS |
/// PREMISES", or "// ..".
fn quoted(path: &str) -> Vec<Row> {
    let text = text(path);
    let lines = text.lines().map(str::trim);
    let comments =
        lines.filter_map(|line| line.strip_prefix("-- ").or_else(|| line.strip_prefix("// ")));
    comments.map(|line| row(line.split('|'))).filter(|row| row[0].parse::<u16>().is_ok()).collect()
}

#[test]
fn each_rule_is_a_case() {
    for (number, case) in (0..).zip(&cases()) {
        assert_eq!(case[0], number.to_string(), "{case:?}");
        let parts = if case[3] == "none" { 0 } else { case[3].split(';').count() };
        assert_eq!(case[2], parts.to_string(), "{case:?}");
        assert_eq!(case[2], premises(number * 4096).to_string(), "{case:?}, by the builder");
    }
}

#[test]
fn counts_are_those_of_the_definitions() {
    let text = text("crates/steps/specs/PremiseCounts.antt");
    let list = row(between(&text, "\npremise_counts = ", "∷ []").split('∷'));
    assert_eq!(list, column(&cases(), 2));
}

#[test]
fn names_are_those_of_the_sentences() {
    let text = text("crates/sentences_write/src/name.rt");
    let named = |line: &str| -> Option<Row> {
        let (code, name) = line.split_once(" => b\"")?;
        let name = name.strip_suffix("\",")?;
        (code.trim() != "_").then(|| row([code, name]))
    };
    let (named, cases): (Vec<Row>, _) = (text.lines().filter_map(named).collect(), cases());
    assert_eq!([column(&named, 0), column(&named, 1)], [column(&cases, 0), column(&cases, 1)]);
    assert_eq!(row(RULES), column(&cases, 1), "by the builder");
}

#[test]
fn pages_have_the_cases() {
    let cases = cases();
    let rules = table("docs/FORMAT.md", &["code", "name", "premises", "these, in order"]);
    assert_eq!(rules, cases, "docs/FORMAT.md");
    let rules = table("docs/CLASSES.md", &["code", "rule", "premises", "these, in order"]);
    assert_eq!(rules, cases, "docs/CLASSES.md");
}

#[test]
fn rows_are_those_of_the_definitions() {
    let heads = ["code", "name", "goal below", "named hypothesis", "these, in order"];
    let rules = table("docs/FORMAT.md", &heads);
    assert_eq!(rules.len(), 12);
    let definitions = ["logic/specs/Derivation", "steps/specs/Applies", "steps/specs/Rules"];
    for path in definitions.map(|path| format!("crates/{path}.antt")) {
        assert_eq!(quoted(&path), rules, "{path}");
    }
    assert_eq!(quoted("crates/rules/src/rules.rt"), rules, "the code of the rules");
}

#[test]
fn words_are_the_codes() {
    let codes: Row = (0..12).map(|code| code.to_string()).collect();
    let heads: Vec<&str> = ["code"].into_iter().chain(codes.iter().map(String::as_str)).collect();
    let words: Row = (0..12).map(|code| (code * 4096).to_string()).collect();
    assert_eq!(table("docs/FORMAT.md", &heads), [[row(["word"]), words].concat()]);
}

/// What is open in the samples of docs/CLASSES.md, at the start and after each step.
#[test]
fn open_is_what_the_steps_leave() {
    let heads = ["sample", "codes of its steps", "open, at the start and after each step"];
    let rows = table("docs/CLASSES.md", &heads);
    assert!(!rows.is_empty());
    let counts = column(&cases(), 2);
    let counts: Vec<usize> = counts.iter().map(|count| count.parse().expect("a count")).collect();
    let listed = |of: Vec<usize>| of.iter().map(usize::to_string).collect::<Row>().join(", ");
    for row in rows {
        let file = fs::read(top().join("samples").join(&row[0])).expect(&row[0]);
        let words: Vec<u16> =
            file.chunks_exact(2).map(|word| u16::from_le_bytes([word[0], word[1]])).collect();
        let steps = &words[words.len() - usize::from(words[2])..];
        let codes: Vec<usize> = steps.iter().map(|&step| code(step).into()).collect();
        let mut open = vec![1];
        for &code in &codes {
            open.push(open[open.len() - 1] - 1 + counts[code]);
        }
        assert_eq!(row[1..], [listed(codes), listed(open)], "{}", row[0]);
    }
}
