//! A record as a sample: its parts, and what the page writes of them.
use crate::in_words;
use crate::sample::Kind;
use crate::sentences;
use builder::layout;
use builder::model::Model;

/// A record; nothing says that it is a right one. The table is the heads and seconds of its
/// entries.
#[derive(Clone)]
pub struct Record {
    pub table: Vec<(u16, u16)>,
    pub statements: Vec<u16>,
    pub goal: u16,
    pub steps: Vec<u16>,
}

impl Kind for Record {
    const ENDING: &'static str = "record";

    fn words(&self) -> Vec<u16> {
        layout::record(&self.table, &self.statements, self.goal, &self.steps)
    }

    fn parts(&self) -> Vec<(&'static str, Vec<String>)> {
        vec![
            ("table", in_words::entries(&self.table)),
            ("statements", in_words::formulas(&self.table, &self.statements)),
            ("goal", in_words::formulas(&self.table, &[self.goal])),
            ("steps", in_words::steps(&self.table, &[&self.steps])),
        ]
    }

    fn refuted(&self, model: &Model) -> Vec<String> {
        let refuted = model.refuted(&self.table, &self.statements, &[self.goal]);
        assert_eq!(refuted, Some(self.goal), "{model:?}");
        vec![model.in_words()]
    }

    fn sentences(&self) -> Option<String> {
        Some(sentences::of(self))
    }
}
