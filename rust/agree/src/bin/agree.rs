//! `cargo run --release --bin agree -- --files N --seed S [--threads T]`: both checkers on N files.
//! It ends with the tally and status 0, or with status 1 on the first disagreement, or where a
//! refusal, a rule or a grant never occurred.
use agree::given::given;
use agree::run::run;
use std::io::{stderr, IsTerminal, Write};
use std::process::ExitCode;
use std::sync::atomic::{AtomicU64, Ordering::SeqCst};
use std::time::Instant;

const USAGE: &str = "usage: agree [--files N] [--seed S] [--threads T]";

fn main() -> ExitCode {
    let Some([files, seed, threads]) = arguments() else {
        eprintln!("{USAGE}");
        return ExitCode::from(2);
    };
    let start = Instant::now();
    let progress = Progress::new(files);
    let found =
        run(files, threads as usize, &|number| given(seed, number), &|done| progress.show(done));
    progress.end();
    match found {
        Err((number, disagreement)) => {
            println!("{disagreement}\n  made again by seed {seed}, file {number}");
            ExitCode::FAILURE
        }
        Ok(tally) => {
            let seconds = start.elapsed().as_secs_f64();
            println!(
                "{tally}\nseed {seed}: no disagreement, {seconds:.1} s, {:.0} files a second",
                files as f64 / seconds
            );
            let missing = tally.missing();
            missing.iter().for_each(|what| println!("never occurred: {what}"));
            if missing.is_empty() {
                ExitCode::SUCCESS
            } else {
                ExitCode::FAILURE
            }
        }
    }
}

/// Files, seed and threads.
fn arguments() -> Option<[u64; 3]> {
    let mut values = [1_000_000, 1, 2];
    let mut arguments = std::env::args().skip(1);
    while let Some(name) = arguments.next() {
        let which = ["--files", "--seed", "--threads"].iter().position(|&known| known == name)?;
        values[which] = arguments.next()?.replace('_', "").parse().ok()?;
    }
    (values[2] > 0 && values[2] <= 1024).then_some(values)
}

/// A bar on a terminal; otherwise a line for every tenth part.
struct Progress {
    files: u64,
    shown: AtomicU64,
    terminal: bool,
}

impl Progress {
    fn new(files: u64) -> Progress {
        Progress { files, shown: AtomicU64::new(0), terminal: stderr().is_terminal() }
    }

    fn show(&self, done: u64) {
        let parts = if self.terminal { 200 } else { 10 };
        let part = (done.min(self.files) * parts).checked_div(self.files).unwrap_or(0);
        if self.shown.fetch_max(part, SeqCst) >= part {
            return;
        }
        let done = done.min(self.files);
        if self.terminal {
            let full = (part * 50 / parts) as usize;
            eprint!("\r[{}{}] {done} of {}", "#".repeat(full), " ".repeat(50 - full), self.files);
            let _ = stderr().flush();
        } else {
            eprintln!("{done} of {} files", self.files);
        }
    }

    fn end(&self) {
        if self.terminal {
            eprintln!();
        }
    }
}
