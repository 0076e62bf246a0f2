//! The edges of two lists of names (document 02, request 11): which names, ends, rounds and comparisons a run over A, one over
//! B after it, and one over A followed by B come to.

use super::files::{changed, named, UNNAMED};
use super::Edge;
use crate::case::Call;
use crate::editions::turned;
use crate::engine::Engine;
use crate::frames::framed;
use crate::two_lists::{names_in, Ended, Runs, TwoLists};
use model::{MSA, MSD};

/// So many edges there are: those of runs, and those of starts.
const EDGES: usize = 22;
const STARTS: usize = 7;

/// End mark, rounds and comparisons of a run.
type Figures = [u64; 3];

/// Slaves of these logical names, whose physical names are 0x0000000700000000 and their place in the table: so a pass that
/// names the slave at an even place makes 135 rounds, at an odd one 134, and later slaves are named first. Of the rounds
/// 1 is the extra read, 1 each a taken name, and 4 find nobody.
struct Lists {
    what: &'static str,
    slaves: &'static [u8],
    first: &'static [u8],
    second: &'static [u8],
    left: &'static [u8],
    figures: [Figures; 3],
}

pub fn hold(engine: &dyn Engine) {
    let edges: Vec<Lists> = [used_up(), all_named(), held(), empty()].into_iter().flatten().collect();
    assert_eq!(edges.len(), EDGES);
    edges.iter().for_each(|edge| edge.hold(engine));
    super::hold_all(engine, [starts()], STARTS);
}

impl Lists {
    /// Alone and with other rounds before each step and after each end, over slaves awake and asleep, in both editions.
    fn hold(&self, engine: &dyn Engine) {
        let awake = named(self.slaves);
        let asleep = asleep(&awake, self.slaves.len());
        for file in [turned(&awake), turned(&asleep), Some(awake), Some(asleep)] {
            let lists = TwoLists {
                file: file.expect("a file that both editions hold"),
                first: self.first.to_vec(),
                second: self.second.to_vec(),
            };
            self.hold_runs(&lists, lists.made_by(engine, &|file| file));
            self.hold_runs(&lists, lists.made_by(engine, &|file| traffic(engine, file)));
        }
    }

    fn hold_runs(&self, lists: &TwoLists, made: Option<Runs>) {
        let what = self.what;
        let runs = made.unwrap_or_else(|| panic!("{what}: a run does not end, {lists}"));
        let Runs { first, second, whole } = &runs;
        assert_eq!([first, second, whole].map(Ended::figures), self.figures, "{what}: {lists}");
        assert_eq!(names_in(&second.file), self.left, "{what}: {lists}");
        assert_eq!(names_in(&whole.file), self.left, "{what}, as one list: {lists}");
        assert_eq!(runs.difference(lists), None, "{what}: {lists}");
    }
}

/// The same file with every sleep byte 1.
fn asleep(file: &[u8], slaves: usize) -> Vec<u8> {
    (0..slaves).fold(file.to_vec(), |file, slave| changed(&file, &[(19 + 4 * slave, "01")]))
}

/// Rounds that demand 3 permits: a read, a write of record 1 at a name, a write to another file of the unnamed, a
/// multipartner round; and refused frames.
fn traffic(engine: &dyn Engine, mut file: Vec<u8>) -> Vec<u8> {
    let frames = [
        (framed(MSA, [7, 0x21, 0xF4, 1]), 0),
        (vec![MSD], 0),
        (framed(MSA, [7, 0x21, 0x21, 1]), 0),
        (vec![MSD, 1, 2, 3, 4, 0], 12),
        (framed(MSD, [1, 2, 3, 4]), 0),
        (framed(MSA, [7, UNNAMED, 0x41, 1]), 0),
        (framed(MSA, [7, UNNAMED, 0x43, 1]), 13),
        (framed(MSD, [5, 6, 7, 8]), 0),
        (vec![0xBA], 0),
    ];
    for (frame, number) in frames {
        let round = Call::Round { file, frame, answer_length: 64 }.make(engine);
        assert_eq!(round.number, number);
        file = round.file.expect("a lent file");
    }
    file
}

fn edge(
    what: &'static str,
    slaves: &'static [u8],
    [first, second]: [&'static [u8]; 2],
    left: &'static [u8],
    figures: [Figures; 3],
) -> Lists {
    Lists { what, slaves, first, second, left, figures }
}

/// A's run ends "names used up": B's extra read makes the two runs one round longer.
fn used_up() -> Vec<Lists> {
    vec![
        edge(
            "one name each for two slaves",
            &[UNNAMED, UNNAMED],
            [&[0x21], &[0x22]],
            &[0x22, 0x21],
            [[2, 1 + 134, 65], [2, 1 + 135, 65], [2, 1 + 134 + 135, 130]],
        ),
        edge(
            "the same lists in the other order",
            &[UNNAMED, UNNAMED],
            [&[0x22], &[0x21]],
            &[0x21, 0x22],
            [[2, 1 + 134, 65], [2, 1 + 135, 65], [2, 1 + 134 + 135, 130]],
        ),
        edge(
            "a slave more than names",
            &[UNNAMED, UNNAMED, UNNAMED],
            [&[0x21], &[0x22]],
            &[UNNAMED, 0x22, 0x21],
            [[2, 1 + 135, 65], [2, 1 + 134, 65], [2, 1 + 135 + 134, 130]],
        ),
        edge(
            "a name of B more than slaves",
            &[UNNAMED, UNNAMED],
            [&[0x21], &[0x22, 0x23]],
            &[0x22, 0x21],
            [[2, 1 + 134, 65], [1, 1 + 135 + 4, 66], [1, 1 + 134 + 135 + 4, 131]],
        ),
        edge(
            "as many names in A as slaves",
            &[UNNAMED],
            [&[0x21], &[0x22]],
            &[0x21],
            [[2, 1 + 135, 65], [1, 1 + 4, 1], [1, 1 + 135 + 4, 66]],
        ),
        edge(
            "two names each for four slaves",
            &[UNNAMED, UNNAMED, UNNAMED, UNNAMED],
            [&[0x21, 0x22], &[0x23, 0x24]],
            &[0x24, 0x23, 0x22, 0x21],
            [[2, 1 + 134 + 135, 130], [2, 1 + 134 + 135, 130], [2, 1 + 2 * (134 + 135), 260]],
        ),
    ]
}

/// A's run ends "all named": the two runs are longer by B's whole run.
fn all_named() -> Vec<Lists> {
    let of_first = [1, 1 + 135 + 4, 66];
    let edge = |what, slaves, second, left, of_second| {
        edge(what, slaves, [&[0x21, 0x22], second], left, [of_first, of_second, of_first])
    };
    let with_named: &'static [u8] = &[UNNAMED, 0x23, 0x24];
    let left: &'static [u8] = &[0x21, 0x23, 0x24];
    vec![
        edge("a free name in B", &[UNNAMED], &[0x23], &[0x21], [1, 1 + 4, 1]),
        edge("two free names in B", &[UNNAMED], &[0x23, 0x24], &[0x21], [1, 1 + 4, 1]),
        edge("every name of B taken", with_named, &[0x23, 0x24], left, [2, 1 + 2, 0]),
        edge("taken, free, taken in B", with_named, &[0x23, 0x25, 0x24], left, [1, 1 + 1 + 4, 1]),
        edge("taken, taken, free in B", with_named, &[0x24, 0x23, 0x25], left, [1, 1 + 2 + 4, 1]),
        edge("free before taken in B", with_named, &[0x25, 0x24, 0x23], left, [1, 1 + 4, 1]),
    ]
}

/// Names that are held at the start.
fn held() -> Vec<Lists> {
    vec![
        edge(
            "every name of A taken",
            &[UNNAMED, 0x21, 0x22],
            [&[0x21, 0x22], &[0x23]],
            &[0x23, 0x21, 0x22],
            [[2, 1 + 2, 0], [2, 1 + 135, 65], [2, 1 + 2 + 135, 65]],
        ),
        edge(
            "a name of A taken",
            &[0x21, UNNAMED, UNNAMED],
            [&[0x21, 0x22], &[0x23]],
            &[0x21, 0x23, 0x22],
            [[2, 1 + 1 + 135, 65], [2, 1 + 134, 65], [2, 1 + 1 + 135 + 134, 130]],
        ),
        edge(
            "a name of B taken",
            &[0x23, UNNAMED, UNNAMED],
            [&[0x21], &[0x23, 0x22]],
            &[0x23, 0x22, 0x21],
            [[2, 1 + 135, 65], [2, 1 + 1 + 134, 65], [2, 1 + 135 + 1 + 134, 130]],
        ),
        edge(
            "a name of A held by two",
            &[0x21, 0x21, UNNAMED],
            [&[0x21], &[0x22]],
            &[0x21, 0x21, 0x22],
            [[2, 1 + 1, 0], [2, 1 + 135, 65], [2, 1 + 1 + 135, 65]],
        ),
        edge(
            "a slave named 0x00",
            &[0x00, UNNAMED],
            [&[0x21], &[0x22]],
            &[0x00, 0x21],
            [[2, 1 + 134, 65], [1, 1 + 4, 1], [1, 1 + 134 + 4, 66]],
        ),
    ]
}

/// An empty list, whose run makes no round; and nobody to name.
fn empty() -> Vec<Lists> {
    let none: &'static [u8] = &[];
    let no_round = [2, 0, 0];
    let in_vain = [1, 1 + 4, 1];
    let named_one = [2, 1 + 135, 65];
    let named_all = [1, 1 + 135 + 4, 66];
    vec![
        edge("A empty", &[UNNAMED], [none, &[0x21]], &[0x21], [no_round, named_one, named_one]),
        edge("B empty", &[UNNAMED], [&[0x21], none], &[0x21], [named_one, no_round, named_one]),
        edge(
            "B empty, all named",
            &[UNNAMED],
            [&[0x21, 0x22], none],
            &[0x21],
            [named_all, no_round, named_all],
        ),
        edge("both empty", &[UNNAMED], [none, none], &[UNNAMED], [no_round, no_round, no_round]),
        edge("no slave", none, [&[0x21], &[0x22]], none, [in_vain, in_vain, in_vain]),
    ]
}

/// Lists that are taken one by one, and as one only where they have no common name.
fn starts() -> Vec<Edge> {
    let start = |names: &[u8]| Call::Start { names: names.to_vec() };
    let taken = |what, names| {
        let call = start(names);
        let mut expected = call.before();
        expected.run = Some([0; 8]);
        Edge::new(what, call, expected)
    };
    let refused = |what, names, number| Edge::refused(what, start(names), number);
    vec![
        taken("A", &[0x21, 0x22]),
        taken("B without a common name", &[0x23, 0x24]),
        taken("both without a common name", &[0x21, 0x22, 0x23, 0x24]),
        taken("B with a common name", &[0x23, 0x21]),
        refused("the first of A is the last of B", &[0x21, 0x22, 0x23, 0x21], 16),
        refused("the last of A is the first of B", &[0x21, 0x22, 0x22, 0x23], 16),
        refused("A and 0x00 in B", &[0x21, 0x22, 0x21, 0x00], 15),
    ]
}
