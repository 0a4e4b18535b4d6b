//! An exchange file as a sample: its parts, and what the page writes of them.
use crate::in_words;
use crate::sample::Kind;
use builder::layout;
use builder::model::Model;

/// An exchange file; nothing says that it is a right one. The table is the heads and seconds of its
/// entries. The steps are written proof by proof, as they are meant: in the file nothing parts two
/// proofs, and on the page an empty row does.
#[derive(Clone)]
pub struct Exchange {
    pub table: Vec<(u16, u16)>,
    pub first: Vec<u16>,
    pub second: Vec<u16>,
    pub proofs: Vec<Vec<u16>>,
}

impl Kind for Exchange {
    const ENDING: &'static str = "exchange";

    fn words(&self) -> Vec<u16> {
        layout::exchange(&self.table, &self.first, &self.second, &self.proofs.concat())
    }

    fn parts(&self) -> Vec<(&'static str, Vec<String>)> {
        let proofs: Vec<&[u16]> = self.proofs.iter().map(Vec::as_slice).collect();
        vec![
            ("table", in_words::entries(&self.table)),
            ("first list", in_words::formulas(&self.table, &self.first)),
            ("second list", in_words::formulas(&self.table, &self.second)),
            ("steps", in_words::steps(&self.table, &proofs)),
        ]
    }

    fn refuted(&self, model: &Model) -> Vec<String> {
        let ways = [("first", &self.first, &self.second), ("second", &self.second, &self.first)];
        let refuted = ways.map(|(from, list, other)| {
            let formula = model.refuted(&self.table, list, other)?;
            let formula = in_words::formula(&self.table, formula);
            Some(vec![format!("{formula}, from the {from} list"), model.in_words()])
        });
        refuted.into_iter().flatten().next().expect("the model parts the lists")
    }
}
