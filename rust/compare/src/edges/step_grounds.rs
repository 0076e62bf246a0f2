//! The grounds of a naming step (document 01, "Grounds for turning something away"): where several hold, the first in the
//! order of the file's, 9, 15, 16, 17 is returned, of a running position and of an ended one; and an ended one that no
//! ground refuses alters nothing.

use super::files::{changed, named, refused_files, PENDING, UNNAMED};
use super::Edge;
use crate::case::Call;
use crate::engine::{Engine, RunWords};

const SHORT_BUFFER: u8 = 9;
const LISTED_NAME: u8 = 15;
const LISTED_TWICE: u8 = 16;
const NO_POSITION: u8 = 17;
/// A step of an ended run that is not refused returns 0, and all lent memory is as it was.
const ENDED: u8 = 0;

/// So many edges there are.
const EDGES: usize = 104;

pub fn hold(engine: &dyn Engine) {
    let positions = [RUNNING, ALL_NAMED, NAMES_USED_UP];
    let of_each = positions.into_iter().flat_map(|run| [in_order(run), file_first(run)]);
    super::hold_all(engine, of_each.chain([positions_refused(), ended()]), EDGES);
}

/// Positions in a list of two names: end mark, index, step, value, rounds, comparisons and the halves.
const RUNNING: RunWords = [0, 1, 5, 9, 20, 2, 3, 4];
const ALL_NAMED: RunWords = [1, 1, 3, 9, 20, 2, 3, 4];
const NAMES_USED_UP: RunWords = [2, 2, 0, 9, 20, 2, 3, 4];
const NAMES: [u8; 2] = [0x21, 0x22];

/// What a step is handed beside the file: the list, the position and the length of the buffer.
#[derive(Clone, Copy)]
struct Asked {
    names: &'static [u8],
    run: RunWords,
    answer_length: usize,
}

impl Asked {
    /// Nothing of it is refused.
    fn good(run: RunWords) -> Asked {
        Asked { names: &NAMES, run, answer_length: 64 }
    }

    fn short(self) -> Asked {
        Asked { answer_length: 63, ..self }
    }

    fn names(self, names: &'static [u8]) -> Asked {
        Asked { names, ..self }
    }

    /// An index above the length of every list here.
    fn beyond(mut self) -> Asked {
        self.run[1] = 9;
        self
    }

    fn refused(self, what: &'static str, file: Vec<u8>, number: u8) -> Edge {
        let Asked { names, run, answer_length } = self;
        Edge::refused(what, Call::Step { file, names: names.to_vec(), run, answer_length }, number)
    }

    /// On a file with an unnamed slave.
    fn by(self, what: &'static str, number: u8) -> Edge {
        self.refused(what, named(&[UNNAMED, 0x05]), number)
    }
}

/// A list with 0x00, with 0xFF, with a name twice, and with both: "Checked in this order", each over the whole list.
const WITH_ZERO: &[u8] = &[0x21, 0x00];
const WITH_UNNAMED: &[u8] = &[0xFF, 0x21];
const TWICE: &[u8] = &[0x21, 0x21];
const TWICE_THEN_ZERO: &[u8] = &[0x21, 0x21, 0x00];
const UNNAMED_TWICE: &[u8] = &[0x21, 0xFF, 0xFF];

/// Each ground alone, each two and three of them, and all four.
fn in_order(run: RunWords) -> Vec<Edge> {
    let good = Asked::good(run);
    let none = Asked { answer_length: 0, ..good };
    vec![
        good.short().by("a short buffer", SHORT_BUFFER),
        good.names(WITH_ZERO).by("0x00 in the list", LISTED_NAME),
        good.names(WITH_UNNAMED).by("0xFF in the list", LISTED_NAME),
        good.names(TWICE).by("a name twice", LISTED_TWICE),
        good.beyond().by("an index above the list", NO_POSITION),
        good.short().names(WITH_ZERO).by("9 and 15", SHORT_BUFFER),
        none.names(WITH_UNNAMED).by("9 and 15, no buffer", SHORT_BUFFER),
        good.short().names(TWICE).by("9 and 16", SHORT_BUFFER),
        good.short().beyond().by("9 and 17", SHORT_BUFFER),
        good.names(TWICE_THEN_ZERO).by("16 and behind it 15", LISTED_NAME),
        good.names(UNNAMED_TWICE).by("15 and 16 by one name", LISTED_NAME),
        good.names(WITH_ZERO).beyond().by("15 and 17", LISTED_NAME),
        good.names(TWICE).beyond().by("16 and 17", LISTED_TWICE),
        good.short().names(TWICE_THEN_ZERO).by("9, 15 and 16", SHORT_BUFFER),
        good.short().names(WITH_ZERO).beyond().by("9, 15 and 17", SHORT_BUFFER),
        good.short().names(TWICE).beyond().by("9, 16 and 17", SHORT_BUFFER),
        good.names(TWICE_THEN_ZERO).beyond().by("15, 16 and 17", LISTED_NAME),
        good.short().names(TWICE_THEN_ZERO).beyond().by("9, 15, 16 and 17", SHORT_BUFFER),
    ]
}

/// Each of 1 to 8 comes before all four.
fn file_first(run: RunWords) -> Vec<Edge> {
    let asked = Asked::good(run).short().names(TWICE_THEN_ZERO).beyond();
    refused_files([UNNAMED, 0x05]).map(|(what, file, number)| asked.refused(what, file, number)).into()
}

/// "an end mark above 2 [..], an index above the list's length, or, in a running position only, any of these: an index
/// equal to that length, a step above 199, either count 1,000,000 or more"
fn positions_refused() -> Vec<Edge> {
    let with = |place: usize, word| {
        let mut run = RUNNING;
        run[place] = word;
        Asked::good(run)
    };
    vec![
        with(0, 3).by("an end mark of 3", NO_POSITION),
        with(0, 1 << 32).by("an end mark whose lower bits are 0", NO_POSITION),
        with(1, 2).by("running, the index the list's length", NO_POSITION),
        with(2, 200).by("running, step 200", NO_POSITION),
        with(4, 1_000_000).by("running, 1,000,000 rounds", NO_POSITION),
        with(5, 1_000_000).by("running, 1,000,000 comparisons", NO_POSITION),
    ]
}

/// "a step of an ended run alters nothing": with either mark, though a running position would be refused.
fn ended() -> Vec<Edge> {
    let of = |run: RunWords| {
        let with = |place: usize, word| {
            let mut run = run;
            run[place] = word;
            Asked::good(run)
        };
        let pending = changed(&named(&[UNNAMED, 0x05]), &[(PENDING, "01 05 F4 01")]);
        [
            Asked::good(run).by("ended", ENDED),
            Asked { answer_length: 70, ..Asked::good(run) }.by("ended, a longer buffer", ENDED),
            Asked::good(run).refused("ended, a read pending", pending, ENDED),
            with(1, 0).by("ended, index 0", ENDED),
            with(1, 0).names(&[]).by("ended, an empty list", ENDED),
            with(1, 2).by("ended, the index the list's length", ENDED),
            with(2, 200).by("ended, step 200", ENDED),
            with(4, 1_000_000).by("ended, 1,000,000 rounds", ENDED),
            with(5, u64::MAX).by("ended, the most comparisons", ENDED),
            with(1, 3).by("ended, the index above the list by 1", NO_POSITION),
        ]
    };
    [ALL_NAMED, NAMES_USED_UP].into_iter().flat_map(of).collect()
}
