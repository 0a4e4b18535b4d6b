//! Whether a principal can matter: 02's sides, over tables of each of the sizes that have marks of
//! their own, and the tests before the answer.
use builder::layout::{bytes, record};
use builder::samples::T;
use builder::table::Entry::{And, Atom, Implies, Or, Says};
use builder::table::Table;
use plain::{independent_of, Refusal};

fn refused(number: u8, place: usize) -> Result<bool, Refusal> {
    Err(Refusal { number, place })
}

fn answer(table: &[(u16, u16)], statements: &[u16], goal: u16, by: u16) -> Result<bool, Refusal> {
    independent_of(&bytes(&record(table, statements, goal, &[65_535])), by)
}

/// A formula with K says A in it, and whether the answer for K is independent where the formula is
/// the goal, and where it is a statement.
#[test]
fn sides() {
    // so many atoms stand before them
    for atoms in [2, 60, 500, 4000] {
        let mut table = Table::default();
        let [a, b] = [0, 1].map(|atom| table.number(Atom(atom)));
        (2..atoms).for_each(|atom| _ = table.number(Atom(atom)));
        let mut number = |entry| table.number(entry);
        let (said, by_other) = (number(Says(7, a)), number(Says(8, a)));
        let left = number(Implies(said, b));
        let left_of_left = number(Implies(left, b));
        let rows = [
            (a, true, true),
            (by_other, true, true),
            (said, false, true),
            (left, true, false),
            (left_of_left, false, true),
            (number(Implies(left_of_left, b)), true, false),
            (number(Implies(b, said)), false, true),
            (number(Implies(b, left)), true, false),
            (number(Implies(said, said)), false, false),
            (number(And(said, b)), false, true),
            (number(And(b, said)), false, true),
            (number(And(left, b)), true, false),
            (number(And(said, left)), false, false),
            (number(Or(said, b)), false, true),
            (number(Or(b, said)), false, true),
            (number(Or(b, left)), true, false),
            (number(Says(8, said)), false, true),
            (number(Says(8, left)), true, false),
            // K's own papers are left out, with all inside them
            (number(Says(7, left)), false, true),
            (number(Says(7, by_other)), false, true),
        ];
        for (formula, as_goal, as_statement) in rows {
            let about = format!("{:?}, {atoms} atoms", table.entry(formula));
            assert_eq!(answer(&table, &[], formula, 7), Ok(as_goal), "{about}");
            assert_eq!(answer(&table, &[a, said, a], formula, 7), Ok(as_goal), "{about}");
            for statements in [&[formula][..], &[formula, a], &[said, b, formula]] {
                assert_eq!(answer(&table, statements, a, 7), Ok(as_statement), "{about}");
            }
            assert_eq!(answer(&table, &[formula], formula, 4095), Ok(true), "{about}");
        }
    }
}

#[test]
fn refused_as_the_record_is_and_then_17() {
    let file = bytes(&record(&T, &[1], 1, &[0]));
    let rows = [
        (1, 0, file[..7].to_vec()),
        (2, 0, bytes(&record(&T, &[1], 1, &[]))),
        (2, 0, bytes(&record(&T, &[1; 257], 1, &[0]))),
        (3, 0, file[..file.len() - 1].to_vec()),
        (4, 0, bytes(&record(&[(20487, 0), (0, 0)], &[9], 9, &[0]))),
        (5, 1, bytes(&record(&[(0, 0), (0, 0)], &[9], 9, &[0]))),
        (6, 0, bytes(&record(&T, &[9], 3, &[0]))),
        (7, 1, bytes(&record(&T, &[1, 3], 1, &[0]))),
    ];
    for (number, place, file) in rows {
        for principal in [7, 4095, 4096, 65_535] {
            assert_eq!(independent_of(&file, principal), refused(number, place));
        }
    }
    assert_eq!(independent_of(&file, 7), Ok(false));
    assert_eq!(independent_of(&file, 4095), Ok(true));
    for principal in [4096, 4103, 65_535] {
        assert_eq!(independent_of(&file, principal), refused(17, 0));
    }
}

/// Each formula is the left of an implies in the next, up to the last entry that a table can have:
/// the side turns with every one.
#[test]
fn deep_lefts() {
    let mut table = Table::default();
    let a = table.number(Atom(0));
    let said = table.number(Says(4095, a));
    (2..4096).fold(said, |last, _| table.number(Implies(last, a)));
    for formula in [1, 2, 63, 64, 65, 511, 512, 513, 4094, 4095] {
        let is_even = formula % 2 == 0;
        let short = &table[..formula as usize + 1];
        for table in [&table[..], short] {
            assert_eq!(answer(table, &[], formula, 4095), Ok(is_even), "{formula}");
            assert_eq!(answer(table, &[formula], a, 4095), Ok(!is_even), "{formula}");
        }
    }
}
