//! The tables of `crates/lessons/specs/` against the samples: their rows are the files and their
//! lines, their models refute them, and no sample is left out.
mod common;

use builder::model::Model;
use common::{file_of, samples, top, Answer, Sample};
use std::collections::{BTreeMap, BTreeSet, HashMap};
use std::fs;

/// A row: the sample's name, its line, its words, and, but for the one that needs three worlds, its
/// model.
struct Row {
    name: String,
    line: String,
    words: Vec<u16>,
    model: Option<Model>,
}

/// The numbers of a list, up to its "[]".
fn numbers(text: &str) -> Vec<u16> {
    let list = text.split("[]").next().expect("a list").trim_start_matches(['(', ' ', '\n']);
    let numbers = list.split('∷').map(str::trim).filter(|number| !number.is_empty());
    numbers.map(|number| number.parse().expect(number)).collect()
}

/// The rows of both tables. They begin with `row "` and with `lists "`.
fn rows() -> Vec<Row> {
    let tables = [("NoSteps", "row \""), ("NotEqual", "lists \"")].map(|(name, start)| {
        let path = top().join("crates/lessons/specs").join(name).with_extension("antt");
        (fs::read_to_string(path).expect(name), start)
    });
    let parts = tables.iter().flat_map(|(table, start)| table.split(start).skip(1));
    let row = |part: &str| {
        let [name, _, line, rest] = part.splitn(4, '"').collect::<Vec<_>>()[..] else {
            panic!("{part}");
        };
        let rest = rest.split("abbrev").next().unwrap_or(rest);
        let model = rest.split_once("by suppose ").map(|(_, model)| {
            let (atoms, principals) = model.split_once("[]").expect("two lists");
            Model { atoms: numbers(atoms), principals: numbers(principals.trim_start_matches(')')) }
        });
        let line = line.strip_suffix("\\n").expect(line).to_string();
        Row { name: name.to_string(), line, words: numbers(rest), model }
    };
    parts.map(row).collect()
}

/// A file that passes tests 1 to 7: its table, and from which list each formula of which other is to
/// be proved.
struct Lists {
    table: Vec<(u16, u16)>,
    ways: Vec<(Vec<u16>, Vec<u16>)>,
}

/// A number for each formula, whichever table it stands in.
#[derive(Default)]
struct Formulas {
    numbers: HashMap<(u16, usize, usize), usize>,
}

impl Formulas {
    fn spelled(&mut self, table: &[(u16, u16)]) -> Vec<usize> {
        let mut spelled: Vec<usize> = Vec::new();
        for &(head, second) in table {
            let (kind, first) = (head / 4096, usize::from(head % 4096));
            let of = |operand: usize| spelled[operand];
            let second = usize::from(second);
            let key = match kind {
                0 | 1 => (kind, first, 0),
                5 => (kind, first, of(second)),
                _ => (kind, of(first), of(second)),
            };
            let next = self.numbers.len();
            spelled.push(*self.numbers.entry(key).or_insert(next));
        }
        spelled
    }

    /// What is to be proved from what, as sets of formulas; the order of the ways doesn't matter.
    fn ways(&mut self, lists: &Lists) -> BTreeSet<[BTreeSet<usize>; 2]> {
        let spelled = self.spelled(&lists.table);
        let set = |list: &[u16]| list.iter().map(|&number| spelled[usize::from(number)]).collect();
        lists.ways.iter().map(|(from, of)| [set(from), set(of)]).collect()
    }
}

fn lists(sample: &Sample) -> Lists {
    let pairs = sample.file.chunks_exact(2);
    let words: Vec<u16> = pairs.map(|pair| u16::from_le_bytes([pair[0], pair[1]])).collect();
    let [f, s, t] = [words[0], words[1], words[2]].map(usize::from);
    let (heads, rest) = words[4..].split_at(f);
    let (seconds, rest) = rest.split_at(f);
    let table = heads.iter().copied().zip(seconds.iter().copied()).collect();
    let ways = if sample.name.ends_with(".record") {
        vec![(rest[..s].to_vec(), vec![words[3]])]
    } else {
        let (first, second) = rest[..s + t].split_at(s);
        vec![(first.to_vec(), second.to_vec()), (second.to_vec(), first.to_vec())]
    };
    Lists { table, ways }
}

fn refutes(model: &Model, lists: &Lists) -> bool {
    lists.ways.iter().any(|(from, of)| model.refuted(&lists.table, from, of).is_some())
}

fn of_both_kinds() -> impl Iterator<Item = Sample> {
    [samples(".record"), samples(".exchange")].into_iter().flatten()
}

/// Steps were looked at, so 1 to 7 found nothing.
fn refused_by_steps(sample: &Sample) -> bool {
    matches!(sample.answer, Answer::Refused(number, _) if number > 8)
}

#[test]
fn rows_are_the_samples() {
    let rows = rows();
    assert!(rows.len() > 20);
    let samples: Vec<Sample> = of_both_kinds().collect();
    for row in &rows {
        let sample = samples.iter().find(|sample| sample.name == row.name).expect(&row.name);
        assert!(refused_by_steps(sample), "{}", row.name);
        assert_eq!(file_of(&row.words), sample.file, "{}", row.name);
        let Answer::Refused(number, place) = sample.answer else { panic!("{}", row.name) };
        assert_eq!(row.line, format!("refused {number} place {place}"), "{}", row.name);
        match &row.model {
            Some(model) => assert!(refutes(model, &lists(sample)), "{}: {model:?}", row.name),
            None => assert_eq!(row.name, "or-in-a-paper.record"),
        }
    }
}

/// A sample that steps refuse is in a table, or it has a proof: another sample shows it, granted or
/// equal, from the same statements, or what is to be proved is a statement.
#[test]
fn no_sample_is_left_out() {
    let named: BTreeSet<String> = rows().into_iter().map(|row| row.name).collect();
    let mut formulas = Formulas::default();
    let (refused, others): (Vec<_>, Vec<_>) = of_both_kinds().partition(refused_by_steps);
    let passed = others.iter().filter(|sample| !matches!(sample.answer, Answer::Refused(..)));
    let shown: BTreeSet<_> = passed.map(|sample| formulas.ways(&lists(sample))).collect();
    for sample in refused {
        let ways = formulas.ways(&lists(&sample));
        let has_proof = shown.contains(&ways) || ways.iter().all(|[from, of]| of.is_subset(from));
        assert_ne!(has_proof, named.contains(&sample.name), "{}", sample.name);
    }
}

/// The pages of the samples have a row for each, and no other: its model in words, but for the one
/// that needs three worlds.
#[test]
fn pages_have_the_models() {
    let pages = ["README.md", "EXCHANGES.md"];
    let pages = pages.map(|name| fs::read_to_string(top().join("samples").join(name)).expect(name));
    let mut told = BTreeSet::new();
    for text in pages.iter().flat_map(|page| page.split("\n### ").skip(1)) {
        let name = text.lines().next().unwrap_or("no name");
        if let Some((_, proof)) = text.split_once("\nno proof  ") {
            let row = proof.lines().map(str::trim).find(|row| row.starts_with("suppose "));
            told.insert((name.to_string(), row.map(str::to_string)));
        }
    }
    let in_words = |row: Row| (row.name, row.model.map(|model| model.in_words()));
    assert_eq!(told, rows().into_iter().map(in_words).collect());
}

/// docs/CLASSES.md has the records and their models: the samples, which atoms are true, and who says
/// everything.
#[test]
fn classes_have_the_models() {
    let page = fs::read_to_string(top().join("docs/CLASSES.md")).expect("docs/CLASSES.md");
    let (_, table) = page.split_once("| samples | true | say everything |\n").expect("the table");
    let listed = |cell: &str, letter: char| -> Vec<u16> {
        let numbers = cell.split(", ").filter_map(|word| word.strip_prefix(letter));
        numbers.filter_map(|number| number.parse().ok()).collect()
    };
    let mut told = BTreeMap::new();
    for row in table.lines().skip(1).map_while(|row| row.strip_prefix("| ")) {
        let [names, atoms, principals] = row.split('|').map(str::trim).collect::<Vec<_>>()[..3]
        else {
            panic!("{row}");
        };
        let model = Model { atoms: listed(atoms, 'a'), principals: listed(principals, 'p') };
        told.extend(names.split(", ").map(|name| (name.to_string(), model.clone())));
    }
    let records = rows().into_iter().filter(|row| row.name.ends_with(".record"));
    let models = records.filter_map(|row| Some((row.name, row.model?)));
    assert_eq!(told, models.collect());
}
