//! Builds records and exchange files: what the generators, the benchmark and the tests share. The
//! package `second` uses none of it.
//!
//! - `table`: a table that holds each entry once.
//! - `steps`: the step words of the rules.
//! - `layout`: a file's words, and its bytes.
//! - `model`: models with one world, which show that something has no proof.
//! - `papers`: records whose papers are opened.
//! - `crowded`: tables that crowd the index by which the proved checker makes test 5.
//! - `random`: numbers that look random.
//! - `samples`: samples of document 01, as words.
//! - `texts`: formulas over themselves, whose texts are long.
#![forbid(unsafe_code)]

pub mod crowded;
pub mod layout;
pub mod model;
pub mod papers;
pub mod random;
pub mod samples;
pub mod steps;
pub mod table;
pub mod texts;
