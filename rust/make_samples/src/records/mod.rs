//! The sample records. Each line was worked out by hand from document 01, its rules and the order
//! of its refusals; the checker has no part in it.
mod errors;
mod files;
mod in_sentences;
mod independence;
mod papers;
mod says;

use crate::record::Record;
use crate::sample::Section;
use crate::three_halls;
use builder::steps::*;
use builder::table::Entry::{Atom, Says};
use builder::table::Table;

fn record(table: &[(u16, u16)], statements: &[u16], goal: u16, steps: &[u16]) -> Record {
    Record { table: table.to_vec(), statements: statements.to_vec(), goal, steps: steps.to_vec() }
}

pub fn sections() -> Vec<Section<Record>> {
    vec![
        files::of_document_01(),
        files::other_refusals(),
        errors::class_errors(),
        errors::misreadings(),
        says::about_says(),
        says::signers(),
        in_sentences::in_sentences(),
        independence::independence(),
        papers::papers_alone(),
        three_halls::releases(),
    ]
}

/// "Record A uses entries 0 and 1 only": atom 0, and principal 7 says it.
fn record_a() -> Record {
    let mut table = Table::default();
    let a0 = table.number(Atom(0));
    let p7 = table.number(Says(7, a0));
    record(&table, &[p7], p7, &[SAYS_RIGHT, SAYS_LEFT + p7, AFFIRM, INIT + a0])
}
