//! A second checker for release records and exchange files, to be compared with the first.
//!
//! It is made from Figure 1 of source 003 (Garg and Pfenning 2006), from the layouts, the rule
//! table and the refusal order of page 01, and from requests 1 to 3 and 5 of page 02 alone. It
//! shares nothing with the proved checker: no code, no types and no method. Formulas are trees
//! here, hypotheses a set of trees, and a proof is checked by recursion on the derivation.
//!
//! - `formula`: the trees. `table`: from a file's entries to trees (tests 4, 5 and 7).
//! - `sequent`: judgments, sets of hypotheses, sequents. `figure1`: the rules (tests 13 and 14).
//! - `derivation`: the recursion (tests 9 to 12 and 15), with `step` for one step word.
//! - `layout`: words and sizes (tests 1 and 3). `record`, `exchange`: the two kinds of file, and the
//!   signers of a record (test 8).
//! - `sentences`: a granted record's proof as text (test 16).
//! - `independence`: whether a principal can matter to a record (test 17).

mod derivation;
mod exchange;
mod figure1;
mod formula;
mod independence;
mod layout;
mod record;
mod refusal;
mod sentences;
mod sequent;
mod step;
mod table;

pub use exchange::check_exchange;
pub use independence::independent_of;
pub use record::check_record;
pub use refusal::Refusal;
pub use sentences::sentences;
