//! The edges of naming steps (document 02, request 6): which of the writes of a pass are made, from positions of any
//! content, and how many rounds a pass makes.

use super::files::{answer, changed, named, slave_place, PENDING, UNNAMED};
use super::Edge;
use crate::case::{Call, Outcome};
use crate::engine::{Engine, RunWords};
use crate::frames::framed;
use crate::layout::EPOCH;
use model::{MSA, MSD};

/// One step on a file with one slave, unnamed, its physical name 0x0000000700000000, and what it has to do.
struct Step {
    what: &'static str,
    /// The comparison value that the slave holds.
    holds: u64,
    before: RunWords,
    made: Made,
    after: RunWords,
}

/// The round that a step makes.
#[derive(Clone, Copy)]
enum Made {
    /// The read at the list's name 0x21, which nobody has.
    Polls,
    /// Record 1, 2 or 3 of 0x08 is written at 0xFF.
    Writes(u8, [u8; 4]),
    /// Record 2 is executed: the slave answers where its physical name is at least what it holds.
    Compares { answered: bool },
    /// Record 1 is executed: where the slave holds its physical name, it takes the new name.
    Baptizes,
    /// An ended run makes none.
    Nothing,
}

/// So many edges there are, whole runs aside.
const EDGES: usize = 68;

pub fn hold(engine: &dyn Engine) {
    let groups =
        [first_comparison(), after_zero(), high_halves(), low_halves(), lower_bits(), giving(), stored()];
    super::hold_all(engine, groups, EDGES);
    passes_of_one_slave(engine);
    places_of_a_pass(engine);
    rounds_between(engine);
    runs_in_turn_on_one_file(engine);
}

const NAME: u8 = 0x21;
const PHYSICAL: u64 = 0x7_0000_0000;
/// The round with which a run begins.
const EXTRA_READ: u64 = 1;

/// Where the slave's 0x08 has record 1, and records 2 and 3.
fn names_record() -> usize {
    slave_place(1, 0) + 12 + 4
}

fn value_records() -> usize {
    names_record() + 4
}

impl From<Step> for Edge {
    fn from(step: Step) -> Edge {
        let holds = format!("{:016X}", step.holds);
        let file = changed(&named(&[UNNAMED]), &[(names_record(), "000021FF"), (value_records(), &holds)]);
        let call = Call::Step { file: file.clone(), names: vec![NAME], run: step.before, answer_length: 64 };
        let expected = Outcome { run: Some(step.after), ..step.outcome(&file, call.before()) };
        Edge::new(step.what, call, expected)
    }
}

impl Step {
    /// Of the round: the epoch becomes 2, the operation stays pending, and who was to answer has answered.
    fn outcome(&self, file: &[u8], before: Outcome) -> Outcome {
        let round = |pending: &str, more: &[(usize, &str)], senders, sent: &[u8]| {
            let header = [(EPOCH, "02"), (PENDING, pending)];
            let file = Some(changed(&changed(file, &header), more));
            Outcome { senders: Some(senders), file, buffer: Some(answer(MSD, sent)), ..before.clone() }
        };
        match self.made {
            Made::Polls => round("01 21 F4 01", &[], 0, &[]),
            Made::Writes(record, bytes) => {
                let place = names_record() + 4 * (usize::from(record) - 1);
                let written: String = bytes.map(|byte| format!("{byte:02X}")).concat();
                round(&format!("01 FF 21 {record:02X}"), &[(place, &written)], 0, &[])
            }
            Made::Compares { answered: true } => round("01 FF 22 02", &[], 0b10, &[0x00]),
            Made::Compares { answered: false } => round("01 FF 22 02", &[], 0, &[]),
            Made::Baptizes if self.holds == PHYSICAL => {
                round("01 FF 22 01", &[(names_record() + 3, "21")], 0, &[])
            }
            Made::Baptizes => round("01 FF 22 01", &[], 0, &[]),
            Made::Nothing => before,
        }
    }
}

/// From a position of step, value and halves, with 10 rounds and 1 comparison made, to one of step, value and halves.
fn step(what: &'static str, before: [u64; 4], made: Made, after: [u64; 4]) -> Step {
    let words = |[step, value, high, low]: [u64; 4], rounds, comparisons| {
        [0, 0, step, value, rounds, comparisons, high, low]
    };
    let compared = u64::from(matches!(made, Made::Compares { .. }));
    Step { what, holds: 0, before: words(before, 10, 1), made, after: words(after, 11, 1 + compared) }
}

const ANSWERED: Made = Made::Compares { answered: true };
/// Bit 63 alone, its half, and bits 63 and 62.
const TOP: u64 = 1 << 63;
const TOP_HALF: u64 = 0x8000_0000;
const TOP_TWO: u64 = 0xC000_0000_0000_0000;
/// More than 32 bits.
const WIDE: u64 = 1 << 32;
const STALE: u64 = 0xDEAD_BEEF;

/// "The first comparison of a pass writes both halves": places 1 and 2, whatever was written last.
fn first_comparison() -> Vec<Step> {
    let zero = [0; 4];
    vec![
        step("the read, nothing written yet", [0, 0, 0, 0], Made::Polls, [1, 0, 0, 0]),
        step("the read, halves of another pass", [0, 5, STALE, 9], Made::Polls, [1, 5, STALE, 9]),
        step("the high half of 0, which is stored", [1, 0, 0, 0], Made::Writes(2, zero), [2, 0, 0, 0]),
        step("the high half of 0, another stored", [1, 5, STALE, 9], Made::Writes(2, zero), [2, 5, 0, 9]),
        step("the high half of 0, a wide one stored", [1, 0, WIDE, 0], Made::Writes(2, zero), [2, 0, 0, 0]),
        step("the low half of 0, which is stored", [2, 0, 0, 0], Made::Writes(3, zero), [3, 0, 0, 0]),
        step("the low half of 0, another stored", [2, 5, STALE, 9], Made::Writes(3, zero), [3, 5, STALE, 0]),
        step(
            "the low half of 0, the high one stored",
            [2, 0, STALE, 0],
            Made::Writes(3, zero),
            [3, 0, STALE, 0],
        ),
    ]
}

/// The comparison with 0 answered puts the value to 0; the next is with bit 63 alone.
fn after_zero() -> Vec<Step> {
    let silent = |what, before, after: [u64; 4]| {
        let mut edge = step(what, before, Made::Compares { answered: false }, after);
        (edge.holds, edge.after[0]) = (PHYSICAL + 1, 1);
        edge
    };
    vec![
        step("answered, halves 0", [3, 5, 0, 0], ANSWERED, [4, 0, 0, 0]),
        step("answered, the high half of bit 63 stored", [3, 5, TOP_HALF, 0], ANSWERED, [6, 0, TOP_HALF, 0]),
        step("answered, that and another low half", [3, 5, TOP_HALF, 7], ANSWERED, [5, 0, TOP_HALF, 7]),
        step("answered, another high half", [3, 5, 7, 0], ANSWERED, [4, 0, 7, 0]),
        step("answered, a wide high half", [3, 5, WIDE | TOP_HALF, 0], ANSWERED, [4, 0, WIDE | TOP_HALF, 0]),
        step("answered, a wide low half", [3, 5, TOP_HALF, WIDE], ANSWERED, [5, 0, TOP_HALF, WIDE]),
        silent("silence, halves 0", [3, 5, 0, 0], [3, 5, 0, 0]),
        silent("silence, the halves of bit 63 stored", [3, 5, TOP_HALF, 0], [3, 5, TOP_HALF, 0]),
        // "all named" leaves index and step, and the halves are those last written, whatever they are.
        silent("silence, another low half", [3, 5, 0, 9], [3, 5, 0, 9]),
        silent("silence, two other halves", [3, 5, STALE, 9], [3, 5, STALE, 9]),
        silent("silence, wide halves", [3, 0, WIDE, WIDE | 5], [3, 0, WIDE, WIDE | 5]),
        silent("silence, the widest halves", [3, 5, u64::MAX, u64::MAX], [3, 5, u64::MAX, u64::MAX]),
    ]
}

/// Place 4, the high half of bit 63.
fn high_halves() -> Vec<Step> {
    let high = Made::Writes(2, [0x80, 0, 0, 0]);
    let low = Made::Writes(3, [0; 4]);
    vec![
        step("another high half, the low one stored", [4, 0, 0, 0], high, [6, 0, TOP_HALF, 0]),
        step("another high half, another low one", [4, 0, 0, 5], high, [5, 0, TOP_HALF, 5]),
        step("the high half stored, another low one", [4, 0, TOP_HALF, 5], low, [6, 0, TOP_HALF, 0]),
        step("both stored", [4, 0, TOP_HALF, 0], ANSWERED, [7, TOP, TOP_HALF, 0]),
        step("a wide high half", [4, 0, WIDE | TOP_HALF, 0], high, [6, 0, TOP_HALF, 0]),
        step("a wide low half", [4, 0, TOP_HALF, WIDE], low, [6, 0, TOP_HALF, 0]),
        step("both wide", [4, 0, WIDE | TOP_HALF, WIDE], high, [5, 0, TOP_HALF, WIDE]),
        step("the widest halves", [4, 0, u64::MAX, u64::MAX], high, [5, 0, TOP_HALF, u64::MAX]),
        step("halves exchanged", [4, 0, 0, TOP_HALF], high, [5, 0, TOP_HALF, TOP_HALF]),
        step("the bit set already, both stored", [4, TOP, TOP_HALF, 0], ANSWERED, [7, TOP, TOP_HALF, 0]),
        step("the value's low half is sent too", [4, 9, TOP_HALF, 9], ANSWERED, [7, TOP | 9, TOP_HALF, 9]),
        // Bit 62: the value has bit 63.
        step("bit 62, both stored", [7, TOP, 0xC000_0000, 0], ANSWERED, [10, TOP_TWO, 0xC000_0000, 0]),
        step(
            "bit 62, bit 63 stored",
            [7, TOP, TOP_HALF, 0],
            Made::Writes(2, [0xC0, 0, 0, 0]),
            [9, TOP, 0xC000_0000, 0],
        ),
    ]
}

/// Place 5, the low half of bit 63: the high half is not looked at any more.
fn low_halves() -> Vec<Step> {
    let low = Made::Writes(3, [0; 4]);
    vec![
        step("the low half stored", [5, 0, TOP_HALF, 0], ANSWERED, [7, TOP, TOP_HALF, 0]),
        step("another low half", [5, 0, TOP_HALF, 1], low, [6, 0, TOP_HALF, 0]),
        step("a wide low half", [5, 0, TOP_HALF, WIDE], low, [6, 0, TOP_HALF, 0]),
        step("the low half stored, another high one", [5, 0, 0, 0], ANSWERED, [7, TOP, 0, 0]),
        step("another low half, another high one", [5, 0, 0, 1], low, [6, 0, 0, 0]),
        step("at the execute, other halves", [6, 0, 0, 5], ANSWERED, [7, TOP, 0, 5]),
        step(
            "at the execute, the next high half stored",
            [6, 0, 0xC000_0000, 0],
            ANSWERED,
            [9, TOP, 0xC000_0000, 0],
        ),
    ]
}

/// Places 100 to 102 are bit 31, the first whose low half changes; 193 to 195 are bit 0.
fn lower_bits() -> Vec<Step> {
    let value = PHYSICAL;
    let low_31 = Made::Writes(3, [0x80, 0, 0, 0]);
    let high = Made::Writes(2, [0, 0, 0, 7]);
    vec![
        step("bit 32 answered: the high half is stored", [99, 6 << 32, 7, 0], ANSWERED, [101, value, 7, 0]),
        step("bit 31, the high half stored", [100, value, 7, 0], low_31, [102, value, 7, TOP_HALF]),
        step("bit 31, another high half", [100, value, 6, 0], high, [101, value, 7, 0]),
        step(
            "bit 31, another high half, the low stored",
            [100, value, 6, TOP_HALF],
            high,
            [102, value, 7, TOP_HALF],
        ),
        step("bit 31, both stored", [100, value, 7, TOP_HALF], ANSWERED, [104, value | TOP_HALF, 7, TOP_HALF]),
        step("bit 30 after bit 31", [102, value, 7, TOP_HALF], ANSWERED, [104, value | TOP_HALF, 7, TOP_HALF]),
        step(
            "bit 0, the high half stored",
            [193, value, 7, 2],
            Made::Writes(3, [0, 0, 0, 1]),
            [195, value, 7, 1],
        ),
        step("bit 0, both stored", [193, value, 7, 1], ANSWERED, [196, value | 1, 7, 1]),
        step("bit 0, the low half stored", [194, value, 9, 1], ANSWERED, [196, value | 1, 9, 1]),
    ]
}

/// Places 196 to 199: the name is always written, each half of the value where it is another than the last.
fn giving() -> Vec<Step> {
    let (value, low) = (PHYSICAL | 5, 5);
    let name = Made::Writes(1, [0, 0, NAME, UNNAMED]);
    let high = Made::Writes(2, [0, 0, 0, 7]);
    let low_half = Made::Writes(3, [0, 0, 0, 5]);
    // The list has one name: done with it, the run is at its end.
    let done = |what, before: [u64; 4], [high, low]: [u64; 2]| {
        let mut edge = step(what, before, Made::Baptizes, [0, before[1], high, low]);
        (edge.after[0], edge.after[1]) = (2, 1);
        edge
    };
    let mut named = done("both halves stored, and the slave holds them", [197, PHYSICAL, 7, 0], [7, 0]);
    named.holds = PHYSICAL;
    vec![
        step("the name, both halves stored", [196, value, 7, low], name, [199, value, 7, low]),
        step("the name, another low half", [196, value, 7, 4], name, [198, value, 7, 4]),
        step("the name, another high half", [196, value, 6, low], name, [197, value, 6, low]),
        step("the name, a wide high half", [196, value, WIDE | 7, low], name, [197, value, WIDE | 7, low]),
        step("another high half, the low one stored", [197, value, 6, low], high, [199, value, 7, low]),
        step("another high half, another low one", [197, value, 6, 4], high, [198, value, 7, 4]),
        step("the high half stored, another low one", [197, value, 7, 4], low_half, [199, value, 7, low]),
        done("both halves stored", [197, value, 7, low], [7, low]),
        named,
        step("another low half", [198, value, 6, 4], low_half, [199, value, 6, low]),
        done("the low half stored, another high one", [198, value, 6, low], [6, low]),
        step("a wide low half", [198, value, 7, WIDE | 5], low_half, [199, value, 7, low]),
        done("at the baptism, other halves", [199, value, 6, 4], [6, 4]),
    ]
}

/// "not checked by 17"; an ended position is not moved on; at 999,999 a step is carried out.
fn stored() -> Vec<Step> {
    let ended = |what, words| Step { what, holds: 0, before: words, made: Made::Nothing, after: words };
    let last = Step {
        what: "the last round that is counted, past two writes",
        holds: 0,
        before: [0, 0, 4, 0, 999_999, 999_999, TOP_HALF, 0],
        made: ANSWERED,
        after: [0, 0, 7, TOP, 1_000_000, 1_000_000, TOP_HALF, 0],
    };
    let mut over = step(
        "silence leaves the value",
        [4, 0, TOP_HALF, 0],
        Made::Compares { answered: false },
        [7, 0, TOP_HALF, 0],
    );
    over.holds = PHYSICAL + 1;
    vec![
        ended("all named, at a needless write", [1, 0, 4, 0, 9, 1, TOP_HALF, 0]),
        ended("names used up, at a needless write", [2, 1, 197, 0, 9, 1, 0, 0]),
        ended("all named, the widest halves", [1, 0, 3, 0, 9, 1, u64::MAX, u64::MAX]),
        last,
        over,
        step(
            "the widest halves at the read",
            [0, 0, u64::MAX, u64::MAX],
            Made::Polls,
            [1, 0, u64::MAX, u64::MAX],
        ),
    ]
}

/// A file with one unnamed slave of this physical name.
fn one_slave(physical_name: u64) -> Vec<u8> {
    let documentation = slave_place(1, 0) + 12 + 16 + 8;
    changed(&named(&[UNNAMED]), &[(documentation + 4, &format!("{physical_name:016X}"))])
}

/// Makes the run over the names, with `between` before each step; the steps at which it stood, and its end.
fn run_over(
    engine: &dyn Engine,
    mut file: Vec<u8>,
    names: &[u8],
    mut between: impl FnMut(Vec<u8>) -> Vec<u8>,
) -> (Vec<u64>, RunWords, Vec<u8>) {
    let mut run = Call::Start { names: names.to_vec() }.make(engine).run.expect("a lent run");
    let mut stood = Vec::new();
    while run[0] == 0 && stood.len() < 1_000 {
        stood.push(run[2]);
        file = between(file);
        let step = Call::Step { file, names: names.to_vec(), run, answer_length: 64 }.make(engine);
        assert_eq!(step.number, 0);
        (file, run) = (step.file.expect("a lent file"), step.run.expect("a lent run"));
    }
    (stood, run, file)
}

/// "134 rounds, plus 1 if bit 32 of its physical name is 0, plus 1 if bit 0 is 0": the two bits as 11, 10, 01 and 00,
/// names 0 and 2^64 - 1, and names that differ from these in one bit.
fn passes_of_one_slave(engine: &dyn Engine) {
    let passes = [
        (0x1_0000_0001, 134),
        (0x1_0000_0000, 135),
        (0x0_0000_0001, 135),
        (0, 136),
        (u64::MAX, 134),
        (u64::MAX - 1, 135),
        (u64::MAX - (1 << 32), 135),
        (u64::MAX - (1 << 32) - 1, 136),
        (0x8000_0000_0000_0000, 136),
        (0x2_0000_0002, 136),
        (0x7_0000_00A1, 134),
        (0x6_0000_00A1, 135),
        (0x0123_4567_89AB_CDEF, 134),
        (0x0123_4566_89AB_CDEE, 136),
    ];
    for (physical_name, rounds) in passes {
        let (stood, run, file) = run_over(engine, one_slave(physical_name), &[NAME], |file| file);
        let halves = (physical_name >> 32, physical_name & 0xFFFF_FFFF);
        let made = EXTRA_READ + rounds;
        let ended = [2, 1, 0, physical_name, made, 65, halves.0, halves.1];
        assert_eq!((stood.len() as u64, run), (made, ended), "{physical_name:016X}");
        assert_eq!(file[names_record()..names_record() + 4], [0, 0, NAME, NAME]);
    }
}

/// The places at which a pass stands: of the upper 32 bits each high half, of the lower 32 each low half. The high half
/// of bit 31 is written if bit 32 is 0, and the value's low half if bit 0 is 0.
fn places_of_a_pass(engine: &dyn Engine) {
    for (physical_name, bit_32, bit_0) in
        [(0x7_0000_00A1, 1, 1), (0x7_0000_00A0, 1, 0), (0x6_0000_00A1, 0, 1), (0x6_0000_00A0, 0, 0)]
    {
        // The extra read leaves the step.
        let mut places = vec![0, 0, 1, 2, 3];
        places.extend((0..32).flat_map(|bit| [4 + 3 * bit, 6 + 3 * bit]));
        if bit_32 == 0 {
            places.push(100);
        }
        places.extend((32..64).flat_map(|bit| [5 + 3 * bit, 6 + 3 * bit]));
        places.push(196);
        if bit_0 == 0 {
            places.push(198);
        }
        places.push(199);
        let (stood, ..) = run_over(engine, one_slave(physical_name), &[NAME], |file| file);
        assert_eq!(stood, places, "{physical_name:016X}");
    }
}

/// Rounds that demand 3 permits, before each step of a run over two slaves: a read, a write of record 1 at a name, a
/// write to another file of the unnamed, a multipartner round, and refused frames. The run is the same as alone.
fn rounds_between(engine: &dyn Engine) {
    let traffic = [
        (framed(MSA, [7, 0x09, 0xF4, 1]), 0),
        (vec![MSD], 0),
        (framed(MSA, [7, 0x09, 0x21, 1]), 0),
        (vec![MSD, 1, 2, 3, 4, 0], 12),
        (framed(MSD, [1, 2, 3, 4]), 0),
        (framed(MSA, [7, 0xFF, 0x41, 1]), 0),
        (framed(MSA, [7, 0xFF, 0x43, 1]), 13),
        (framed(MSD, [5, 6, 7, 8]), 0),
        (vec![0xBA], 0),
    ];
    // The second and the third are unnamed: 0x0000000700000001 and 0x0000000700000002.
    let file = named(&[0x09, UNNAMED, UNNAMED]);
    let mut send = |mut file: Vec<u8>| {
        for (frame, number) in &traffic {
            let round = Call::Round { file, frame: frame.clone(), answer_length: 64 }.make(engine);
            assert_eq!(round.number, *number);
            file = round.file.expect("a lent file");
        }
        file
    };
    let names = [0x09, 0x21, 0x22, 0x23];
    let (stood_alone, alone, _) = run_over(engine, file.clone(), &names, |file| file);
    let (stood, run, left) = run_over(engine, file, &names, &mut send);
    assert_eq!((stood, run), (stood_alone, alone));
    // The extra read, 1 for the taken name, 135 for 2, whose bit 0 is 0, 134 for 1, and 4 to find nobody; the last
    // wrote 0.
    assert_eq!(run, [1, 3, 3, 0x7_0000_0001, EXTRA_READ + 1 + 135 + 134 + 4, 131, 0, 0]);
    let name_of = |slave| left[slave_place(3, slave) + 12 + 7];
    assert_eq!([0, 1, 2].map(name_of), [0x09, 0x22, 0x21]);
}

/// A second run begun on the file that the first has left, and one whose halves were stored by another: a pass takes no
/// half of an earlier one for written.
fn runs_in_turn_on_one_file(engine: &dyn Engine) {
    let (_, first, left) = run_over(engine, named(&[UNNAMED, UNNAMED]), &[0x21], |file| file);
    assert_eq!(first, [2, 1, 0, 0x7_0000_0001, EXTRA_READ + 134, 65, 7, 1]);
    let (_, second, named_both) = run_over(engine, left.clone(), &[0x22], |file| file);
    assert_eq!(second, [2, 1, 0, 0x7_0000_0000, EXTRA_READ + 135, 65, 7, 0]);
    // The halves of the first run in a position at the begin of the second.
    let mut run: RunWords = [0, 0, 0, 0, 0, 0, 7, 1];
    let mut file = left;
    while run[0] == 0 {
        let step = Call::Step { file, names: vec![0x22], run, answer_length: 64 }.make(engine);
        assert_eq!(step.number, 0);
        (file, run) = (step.file.expect("a lent file"), step.run.expect("a lent run"));
    }
    assert_eq!((run, file), (second, named_both));
}
