//! The index pages of the samples, for teachers.
use crate::exchange::Exchange;
use crate::record::Record;
use crate::sample::{Kind, Section};
use std::fmt::Write;

const RECORDS: &str = include_str!("../pages/records.md");

const EXCHANGES: &str = include_str!("../pages/exchanges.md");

/// The reasons and the places of "Refused, in checking order" (01), and what 02 adds, by number from
/// 1.
const REFUSALS: [(&str, &str); 17] = [
    ("The file has fewer than 8 bytes.", "0"),
    ("F, S or N is outside its range.", "0"),
    ("The length isn't that of the sizes.", "0"),
    ("An entry has kind 6 or more or a wrong operand.", "the first such entry"),
    ("An entry has the head and second of an earlier one.", "the first such later entry"),
    ("The goal's number is F or more.", "0"),
    ("A statement's number is F or more.", "the first such position"),
    ("The lent list is shorter than the number of signers.", "0"),
    (
        "The steps end while a premise is open or a whole proof is still due.",
        "N, the number of steps",
    ),
    ("The step's depth is above 512.", "the step"),
    ("The code is 12 or more, or a rule that names nothing has a part other than 0.", "the step"),
    ("The named formula isn't a hypothesis here; a number of F or more never is.", "the step"),
    (
        "The goal isn't what the rule needs (code 11's goal excepted), the named formula isn't \
         of the kind the rule needs, or code 0 names another atom than the goal's.",
        "the step",
    ),
    ("Code 11 names a says-formula of K and the goal isn't an affirmation by K.", "the step"),
    ("The proof is closed and words remain.", "the first of them"),
    (
        "Only where the proof is wanted in sentences: the lent bytes are fewer than the whole \
         text.",
        "0",
    ),
    (
        "Only where a principal is asked about, and nothing is tested after it: the principal's \
         number is above 4,095.",
        "0",
    ),
];

/// The checking order: 8 "is tested after 15 and before 16", and 17 "after 7" (02).
const ORDER: [usize; 17] = [1, 2, 3, 4, 5, 6, 7, 17, 9, 10, 11, 12, 13, 14, 15, 8, 16];

/// What reads otherwise for an exchange file: "the list above without 6 and 8. Places for 7 run
/// through both lists, for 9 to 15 through all step words; depth starts at 1 in each proof". It has
/// no sentences, and nobody is asked about.
fn exchange_refusal(number: usize) -> Option<(&'static str, &'static str)> {
    match number {
        2 => Some(("F, S1, S2 or N is outside its range.", "0")),
        6 | 8 | 16 | 17 => None,
        7 => Some((
            "A statement's number is F or more.",
            "the first such position, through the first list and then the second",
        )),
        10 => Some(("The step's depth, counted from 1 in each proof, is above 512.", "the step")),
        15 => Some(("The last proof is closed and words remain.", "the first of them")),
        _ => Some(REFUSALS[number - 1]),
    }
}

pub fn of_records(sections: &[Section<Record>]) -> String {
    page(RECORDS, |number| Some(REFUSALS[number - 1]), sections)
}

pub fn of_exchanges(sections: &[Section<Exchange>]) -> String {
    page(EXCHANGES, exchange_refusal, sections)
}

fn page<T: Kind>(
    head: &str,
    refusal: impl Fn(usize) -> Option<(&'static str, &'static str)>,
    sections: &[Section<T>],
) -> String {
    let mut text = format!("{head}\n");
    for number in ORDER {
        if let Some((reason, place)) = refusal(number) {
            let item = format!("- {number}: {reason} Place: {place}.");
            writeln!(text, "{}", filled(&item, "\n  ")).unwrap();
        }
    }
    for section in sections {
        writeln!(text, "\n## {}\n\n{}", section.title, filled(section.about, "\n")).unwrap();
        for sample in &section.samples {
            let shows = filled(sample.shows, "\n");
            writeln!(text, "\n### {}\n\n{shows}\n\n```", sample.file_name()).unwrap();
            for (heading, rows) in sample.contents.iter().flat_map(T::parts) {
                text.push_str(&under(heading, rows));
            }
            text.push_str(&under("line", vec![sample.line.to_string()]));
            if let Some(rows) = sample.refuted() {
                text.push_str(&under("no proof", rows));
            }
            if !sample.asked.is_empty() {
                text.push_str(&under("principals", asked(&sample.asked)));
            }
            text.push_str("```\n");
        }
    }
    text
}

/// A row for each principal who is asked about.
fn asked(asked: &[(u16, &str)]) -> Vec<String> {
    let width = asked.iter().map(|(principal, _)| principal.to_string().len()).max().unwrap_or(0);
    asked.iter().map(|(principal, line)| format!("{principal:<width$}  {line}")).collect()
}

/// Words in lines of at most 100 characters, with `turn` between two lines.
fn filled(words: &str, turn: &str) -> String {
    let mut text = String::new();
    let mut width = 0;
    for word in words.split_whitespace() {
        let more = word.chars().count();
        if text.is_empty() {
            width = more;
        } else if width + 1 + more <= 100 {
            text.push(' ');
            width += 1 + more;
        } else {
            text.push_str(turn);
            width = turn.len() - 1 + more;
        }
        text.push_str(word);
    }
    text
}

/// Rows under a heading that stands at the first of them. An empty row stays empty.
fn under(heading: &str, mut rows: Vec<String>) -> String {
    if rows.is_empty() {
        rows.push("none".to_string());
    }
    let mut text = String::new();
    let headings = std::iter::once(heading).chain(std::iter::repeat(""));
    for (heading, row) in headings.zip(rows) {
        writeln!(text, "{}", format!("{heading:<12}{row}").trim_end()).unwrap();
    }
    text
}
