//! Which files are measured.

use super::files::{self, File, Sizes};

pub struct Row {
    pub name: &'static str,
    pub full: File,
    /// The same kind of file at half the size, for the table of growth.
    pub half: Option<File>,
}

fn sizes([formulas, statements, steps]: [usize; 3]) -> Sizes {
    Sizes { formulas, statements, steps }
}

/// The full sizes of a wide table, for a record and for an exchange, and of a long proof.
const WIDE: [usize; 3] = [4096, 8, 24];
const WIDE_EXCHANGE: [usize; 3] = [4096, 8, 96];
const LONG: [usize; 3] = [256, 32, 16_384];

/// Small and typical files.
fn usual() -> Vec<Row> {
    let row = |name, full| Row { name, full, half: None };
    let exchange = files::exchange(sizes([200, 10, 300]));
    vec![
        row("small: record A of 01", files::record_a()),
        row("small: exchange K of 01", files::sample_k()),
        row("typical: record, F 200, S 20, N 300", files::record(sizes([200, 20, 300]))),
        row("typical: exchange, F 200, lists 10 and 10, N 300", exchange),
    ]
}

/// Files of the greatest sizes, F, S and N: one of them each, and all of them.
fn large() -> Vec<Row> {
    let row = |name, full, half| Row { name, full, half: Some(half) };
    let of = |name, build: fn(Sizes) -> File, full, half| {
        row(name, build(sizes(full)), build(sizes(half)))
    };
    let record = |name, full, half| of(name, files::record, full, half);
    let exchange = |name, full, half| of(name, files::exchange, full, half);
    let deep = |name, build: fn(usize) -> File| row(name, build(512), build(256));
    let (half_wide, half_wide_exchange) = ([2048, 8, 24], [2048, 8, 96]);
    let half_long = [256, 32, 8192];
    let (all, half_all) = ([4096, 256, 16_384], [2048, 128, 8192]);
    vec![
        record("wide table: record, F 4,096", WIDE, half_wide),
        exchange("wide table: exchange, F 4,096", WIDE_EXCHANGE, half_wide_exchange),
        record("long proof: record, N 16,384", LONG, half_long),
        exchange("long proofs: exchange, N 16,384", LONG, half_long),
        deep("deep proof: record, depth 512", files::deep_record),
        deep("deep proofs: exchange, depth 512", files::deep_exchange),
        record("many statements: record, S 256", [1024, 256, 1024], [512, 128, 512]),
        exchange(
            "many statements: exchange, lists 256 and 256",
            [1024, 256, 6144],
            [512, 128, 3072],
        ),
        row("many signers: record, S 256", files::signed_record(256), files::signed_record(128)),
        record("all together: record, 49,672 bytes", all, half_all),
        exchange("all together: exchange, 50,184 bytes", all, half_all),
        of("crowded roots: record, F 4,096", files::crowded_record, WIDE, half_wide),
        of(
            "crowded roots: exchange, F 4,096",
            files::crowded_exchange,
            WIDE_EXCHANGE,
            half_wide_exchange,
        ),
    ]
}

/// Files that are refused for one word: the first step's, the last step's, or the head of the last
/// entry. They have no half size.
fn refused() -> Vec<Row> {
    let row = |name, full| Row { name, full, half: None };
    let step = |name, build, at| row(name, files::with_wrong_step(build, sizes(LONG), at));
    let entry = |name, build, full| row(name, files::with_wrong_entry(build, sizes(full), 4095));
    vec![
        step("refused at the first step: record, N 16,384", files::record, 0),
        step("refused at the first step: exchange, N 16,384", files::exchange, 0),
        step("refused at the last step: record, N 16,384", files::record, 16_383),
        step("refused at the last step: exchange, N 16,384", files::exchange, 16_383),
        entry("refused at the last entry: record, F 4,096", files::record, WIDE),
        entry("refused at the last entry: exchange, F 4,096", files::exchange, WIDE_EXCHANGE),
    ]
}

pub fn rows() -> Vec<Row> {
    usual().into_iter().chain(large()).chain(refused()).collect()
}
