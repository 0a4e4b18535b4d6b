//! What papers alone can't give: 02, job 6.
use super::record;
use crate::record::Record;
use crate::sample::{sample, Section};
use builder::papers::opened;
use builder::steps::*;
use builder::table::Entry::{Atom, False, Or, Says};
use builder::table::Table;

pub fn papers_alone() -> Section<Record> {
    // what p7, p8 and p9 say of a0
    let mut said = Table::default();
    let a0 = said.number(Atom(0));
    let papers = [7, 8, 9].map(|principal| said.number(Says(principal, a0)));

    // what p7 says of false
    let mut absurd = Table::default();
    let falsehood = absurd.number(False);
    let says_false = absurd.number(Says(7, falsehood));

    // for an or of which one side is a paper of p7
    let mut sides = Table::default();
    let s0 = sides.number(Atom(0));
    let s1 = sides.number(Atom(1));
    let paper = sides.number(Says(7, s0));
    let paper_first = sides.number(Or(paper, s1));
    let paper_second = sides.number(Or(s1, paper));

    Section {
        title: "Papers alone",
        about: "Every statement is a paper, and no order stands beside them. Then no atom and not \
                false has a proof, and an or has one only by a proof of one of its sides.",
        samples: vec![
            sample(
                "all-say-it",
                "p7, p8 and p9 all say a0. However many say it, it isn't thereby true.",
                record(&said, &papers, a0, &[SAYS_LEFT + papers[0], INIT + a0]),
                "refused 14 place 0",
            )
            .no_proof(&[], &[7, 8, 9]),
            sample(
                "false-from-papers",
                "p7 says false, and false is the goal. False left needs false itself as a \
                 hypothesis, and the paper isn't that.",
                record(&absurd, &[says_false], falsehood, &[FALSE_LEFT + falsehood]),
                "refused 12 place 0",
            )
            .no_proof(&[], &[7]),
            sample(
                "or-by-its-first-side",
                "An or that papers give: its first side is a paper of p7, and the proof begins \
                 with or right first.",
                record(
                    &sides[..4],
                    &[paper],
                    paper_first,
                    &[&[OR_RIGHT_FIRST][..], &opened(paper, s0)].concat(),
                ),
                "granted 1 7",
            ),
            sample(
                "or-by-its-second-side",
                "The same sides in the other order: the proof begins with or right second.",
                record(
                    &sides,
                    &[paper],
                    paper_second,
                    &[&[OR_RIGHT_SECOND][..], &opened(paper, s0)].concat(),
                ),
                "granted 1 7",
            ),
        ],
    }
}
