//! Generated files, on which the proved checker (`wethrynda`) and the second checker (`second`)
//! have to agree: answer, number, place, signers in their order, the text of a proof, whether a
//! principal can matter; and every word and byte that the proved one was lent is looked at.
//!
//! - `random_table`, `identity`, `parts`: random formulas, their proofs from themselves, a file's
//!   parts. The package `builder` has what they are made of.
//! - `derivations`, `records`, `exchanges`, `deep`, `largest`: right files, with every rule;
//!   `slips`: what makes them right by a wrong reading.
//! - `crowded`: tables made against the proved checker's test 5.
//! - `misses`, `raw`, `noise`: near misses and noise.
//! - `given`: which file a seed and a number make; `fixed`: the fixed set of the tests.
//! - `compare`, `texts`, `independence`: the comparison, that of texts, and whether a principal can
//!   matter; `promise`: what independent promises; `papers`: what papers alone can't give. `counts`,
//!   `tally`, `run`: the counts, the threads.
#![forbid(unsafe_code)]

pub mod compare;
pub mod counts;
pub mod crowded;
pub mod deep;
pub mod derivations;
pub mod exchanges;
pub mod fixed;
pub mod given;
pub mod identity;
pub mod independence;
pub mod largest;
pub mod misses;
pub mod noise;
pub mod papers;
pub mod parts;
pub mod promise;
pub mod random_table;
pub mod raw;
pub mod records;
pub mod run;
pub mod slips;
pub mod tally;
pub mod texts;
