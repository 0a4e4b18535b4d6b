//! Makes the samples, the proofs of granted ones in sentences, the lines of principals who are
//! asked about, their index pages, and what the program `samples` is run on and must print.
//!
//!     cargo run --release --bin make_samples            writes into the repository
//!     cargo run --release --bin make_samples -- FOLDER  writes the same files under FOLDER
mod exchange;
mod exchanges;
mod in_words;
mod page;
mod record;
mod records;
mod sample;
mod sentences;
mod three_halls;

use sample::{Kind, Section};
use std::path::{Path, PathBuf};
use std::{env, fs, io};

fn main() -> io::Result<()> {
    let repository = || Path::new(env!("CARGO_MANIFEST_DIR")).join("../..");
    let top = env::args_os().nth(1).map_or_else(repository, PathBuf::from);
    let (records, exchanges) = (records::sections(), exchanges::sections());
    let program = top.join("crates/samples");
    let folders = [program.join("data"), top.join("samples")];
    let lines = [
        write(&folders, &records, "README.md", &page::of_records(&records))?,
        write(&folders, &exchanges, "EXCHANGES.md", &page::of_exchanges(&exchanges))?,
    ]
    .concat();
    let names: String = lines.iter().map(|(name, _)| format!("{name}\n")).collect();
    let printed: String = lines.iter().map(|(name, line)| format!("{name} {line}\n")).collect();
    fs::write(program.join("args"), names)?;
    fs::write(program.join("stdout"), printed)
}

/// Writes samples, what stands beside them and their page into both folders, and gives the name and
/// the line of each sample.
/// The program is run in a copy of its folder data/, and rt takes no link there, nor one to it: so
/// `samples` at the top has the same files.
fn write<T: Kind>(
    folders: &[PathBuf; 2],
    sections: &[Section<T>],
    name: &str,
    page: &str,
) -> io::Result<Vec<(String, &'static str)>> {
    let write = |name: &str, bytes: &[u8]| -> io::Result<()> {
        folders.iter().try_for_each(|folder| fs::write(folder.join(name), bytes))
    };
    folders.iter().try_for_each(fs::create_dir_all)?;
    write(name, page.as_bytes())?;
    let samples = sections.iter().flat_map(|section| &section.samples);
    samples
        .map(|sample| {
            let name = sample.file_name();
            write(&name, &sample.file)?;
            for (name, text) in [sample.sentences(), sample.independence()].into_iter().flatten() {
                write(&name, text.as_bytes())?;
            }
            Ok((name, sample.line))
        })
        .collect()
}
