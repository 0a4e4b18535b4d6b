//! The benchmark: `cargo run --release --bin bench` prints the tables of docs/PERFORMANCE.md. All
//! times are taken in one run of one process, and what counts are the ratios. It is no test: it
//! stops where an answer is wrong, and never for a time.
#![forbid(unsafe_code)]
mod contenders;
mod files;
mod independence;
mod measure;
mod rows;
mod texts;

use contenders::{assert_answers, byte_sum, plain, proved, second};
use measure::{measure, Contender};
use rows::{rows, Row};
use std::io::{stderr, IsTerminal};
use std::time::Duration;

/// How long each row of a table is measured.
const ROW: Duration = Duration::from_millis(900);

/// A number with three figures or more.
fn figures(number: f64) -> String {
    match number {
        ..10.0 => format!("{number:.2}"),
        ..100.0 => format!("{number:.1}"),
        _ => format!("{number:.0}"),
    }
}

/// A whole number with commas.
fn whole(number: usize) -> String {
    let digits = number.to_string();
    let parts = digits.as_bytes().rchunks(3).rev();
    let parts: Vec<_> = parts.map(|part| std::str::from_utf8(part).expect("digits")).collect();
    parts.join(",")
}

/// A line of a table: the bytes, the time of the proved checker, and what it is to those of the
/// plain one, the second one and the sum of the bytes, in this order.
fn line(name: &str, bytes: usize, contenders: Vec<Contender>) -> String {
    let times = measure(contenders, ROW);
    let mut ratios = [times[0] / times[1], times[2] / times[0], times[0] / times[3]].map(figures);
    if bytes == 0 {
        ratios[2] = "-".to_string();
    }
    let [bytes, time] = [bytes, times[0] as usize].map(whole);
    format!("| {name} | {bytes} | {time} | {} |", ratios.join(" | "))
}

fn speed(row: &Row) -> String {
    let file = &row.full;
    let contenders = vec![proved(file), plain(file), second(file), byte_sum(file)];
    line(row.name, file.bytes.len(), contenders)
}

fn growth(row: &Row) -> Option<String> {
    let (full, half) = (&row.full, row.half.as_ref()?);
    let times = measure(vec![proved(full), proved(half), plain(full), plain(half)], ROW);
    let bytes = full.bytes.len() as f64 / half.bytes.len() as f64;
    let [proved, plain] = [times[0] / times[1], times[2] / times[3]];
    Some(format!("| {} | {bytes:.2} | {proved:.2} | {plain:.2} |", row.name))
}

/// Prints a line for each row that has one; on a terminal a count shows which is being measured.
fn print_lines<T>(rows: &[T], line: impl Fn(&T) -> Option<String>) {
    let shown = stderr().is_terminal();
    for (i, row) in rows.iter().enumerate() {
        if shown {
            eprint!("\r{} of {}", i + 1, rows.len());
        }
        let measured = line(row);
        if shown {
            eprint!("\r        \r");
        }
        measured.iter().for_each(|line| println!("{line}"));
    }
}

fn main() {
    let (rows, texts, questions) = (rows(), texts::texts(), independence::questions());
    for row in &rows {
        let files = std::iter::once(&row.full).chain(&row.half);
        files.for_each(|file| assert_answers(row.name, file));
    }
    println!(
        "| file | bytes | proved, ns | proved / plain | second / proved | proved / sum of bytes |"
    );
    println!("|---|---:|---:|---:|---:|---:|");
    print_lines(&rows, |row| Some(speed(row)));
    println!("\nFull size over half size; a time that grows as the bytes do is linear:\n");
    println!("| file | bytes | time, proved | time, plain |");
    println!("|---|---:|---:|---:|");
    print_lines(&rows, growth);
    println!("\nA record's proof in sentences; the bytes are those of the text:\n");
    println!(
        "| text | bytes | proved, ns | proved / plain | second / proved | proved / sum of bytes |"
    );
    println!("|---|---:|---:|---:|---:|---:|");
    print_lines(&texts, |text| Some(texts::line(text)));
    println!("\nWhether a principal can matter to a record; the answer is independent:\n");
    println!(
        "| record | bytes | proved, ns | proved / plain | second / proved | proved / sum of bytes |"
    );
    println!("|---|---:|---:|---:|---:|---:|");
    print_lines(&questions, |question| Some(independence::line(question)));
}
