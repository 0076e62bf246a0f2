//! The edges of summaries (document 02, request 8): what fills one, what it answers, when it does not match its file, and
//! that rounds and steps which are given it keep it.

use super::files::{answer, changed, hex, named, refused_files, slave_place, Changes, PENDING, UNNAMED};
use super::Edge;
use crate::case::{Call, Outcome};
use crate::engine::{Engine, RunWords, NOBODY};
use crate::frames::framed;
use crate::layout::EPOCH;
use model::{MSA, MSD};

/// "24, a summary that does not match its file when handed in for a round or naming step, or for the question or the
/// filling a count above the slice's length, after 8"
const NO_SUMMARY: u8 = 24;
const SHORT_BUFFER: u8 = 9;
const ROUND_2: u8 = 0xBA;

/// So many edges there are, calls in a row aside.
const EDGES: usize = 152;

pub fn hold(engine: &dyn Engine) {
    let groups = [
        filled(),
        not_filled(),
        asked(),
        not_asked(),
        matching(),
        not_matching(),
        file_first(),
        before_others(),
        ended(),
        baptized(),
        renaming_nobody(),
    ];
    super::hold_all(engine, groups, EDGES);
    baptized_twice(engine);
    refused_between(engine);
    whole_run(engine);
}

/// Names of 32 slaves, no two alike.
fn all_names() -> Vec<u8> {
    (0x40..0x60).collect()
}

fn digits(bytes: &[u8]) -> String {
    bytes.iter().map(|byte| format!("{byte:02X}")).collect()
}

/// A filling that is not refused: the slice before and after it. The count is that of the slaves.
fn filling(what: &'static str, names: &[u8], held: &str, after: &str) -> Edge {
    let call = Call::Fill { file: named(names), held: hex(held) };
    let count = Some(names.len() as u64);
    let expected = Outcome { held: Some(hex(after)), count, ..call.before() };
    Edge::new(what, call, expected)
}

/// "in a lent slice that a call fills from the file, each slave's logical name in table order"
fn filled() -> Vec<Edge> {
    let all = digits(&all_names());
    let room = "EE".repeat(32);
    vec![
        filling("no slave, an empty slice", &[], "", ""),
        filling("no slave, a byte that stays", &[], "A5", "A5"),
        filling("one slave, one byte", &[0x05], "EE", "05"),
        filling("one slave, a byte more", &[0x05], "EE A5", "05 A5"),
        filling("two slaves, room for two", &[0x06, 0x05], "EE EE", "06 05"),
        filling("two slaves, room for three", &[0x06, 0x05], "EE EE A5", "06 05 A5"),
        filling("two slaves of one name", &[0x05, 0x05], "EE EE", "05 05"),
        filling("0x00 and 0xFF", &[0x00, UNNAMED, 0x00], "EE EE EE", "00 FF 00"),
        filling("what the slice had already", &[0x05, 0x06], "05 06", "05 06"),
        filling("32 slaves", &all_names(), &room, &all),
        filling("32 slaves, room for 33", &all_names(), &format!("{room}A5"), &format!("{all}A5")),
        filling("room for 255", &[0x05], &"A5".repeat(255), &format!("05{}", "A5".repeat(254))),
    ]
}

/// "for [..] the filling a count above the slice's length", the count being that of the file's slaves; after 1 to 8.
fn not_filled() -> Vec<Edge> {
    let refused =
        |what, file, held: &str, number| Edge::refused(what, Call::Fill { file, held: hex(held) }, number);
    let mut edges = vec![
        refused("one slave, an empty slice", named(&[0x05]), "", NO_SUMMARY),
        refused("two slaves, one byte", named(&[0x05, 0x06]), "EE", NO_SUMMARY),
        refused("two slaves, an empty slice", named(&[0x05, 0x06]), "", NO_SUMMARY),
        refused("32 slaves, 31 bytes", named(&all_names()), &"EE".repeat(31), NO_SUMMARY),
    ];
    // with room, and without: the file's number comes first
    for (what, file, number) in refused_files([0x05, 0x06]) {
        edges.push(refused(what, file.clone(), "EE EE", number));
        edges.push(refused(what, file, "EE", number));
    }
    edges
}

fn asking(what: &'static str, held: &str, count: u64, name: u8, place: u64) -> Edge {
    let call = Call::Holder { held: hex(held), count, name };
    let expected = Outcome { place: Some(place), ..call.before() };
    Edge::new(what, call, expected)
}

/// "The question stops at the first holder", and looks at the first `count` bytes alone.
fn asked() -> Vec<Edge> {
    let all = digits(&all_names());
    vec![
        asking("no slave", "", 0, 0x05, NOBODY),
        asking("no slave, and a byte behind", "05", 0, 0x05, NOBODY),
        asking("the only slave", "05", 1, 0x05, 0),
        asking("another name", "05", 1, 0x06, NOBODY),
        asking("the first of two", "05 06", 2, 0x05, 0),
        asking("the last of two", "05 06", 2, 0x06, 1),
        asking("two slaves of one name", "05 05", 2, 0x05, 0),
        asking("two of one name behind another", "06 05 05", 3, 0x05, 1),
        asking("behind the count", "05 06", 1, 0x06, NOBODY),
        asking("the last in the count", "05 06 07", 2, 0x06, 1),
        asking("0xFF, the first unnamed", "05 FF FF", 3, UNNAMED, 1),
        asking("0xFF, nobody unnamed", "05 06", 2, UNNAMED, NOBODY),
        asking("0x00, a slave named so", "05 00", 2, 0x00, 1),
        asking("0x00, which addresses all others, held by nobody", "05 06", 2, 0x00, NOBODY),
        asking("0x00, and zeros behind the count", "05 00", 1, 0x00, NOBODY),
        asking("the first of 32", &all, 32, 0x40, 0),
        asking("the last of 32", &all, 32, 0x5F, 31),
        asking("nobody of 32", &all, 32, 0x60, NOBODY),
        asking("more names than a file has slaves", &"01".repeat(300), 300, 0x02, NOBODY),
        asking("behind place 255", &format!("{}02", "01".repeat(299)), 300, 0x02, 299),
    ]
}

/// "for the question [..] a count above the slice's length"
fn not_asked() -> Vec<Edge> {
    let refused = |what, held: &str, count| {
        Edge::refused(what, Call::Holder { held: hex(held), count, name: 0x05 }, NO_SUMMARY)
    };
    vec![
        refused("one above an empty slice", "", 1),
        refused("one above, the name in the slice", "05", 2),
        refused("256 more", "05", 256 + 1),
        refused("2^32 more", "05", (1 << 32) + 1),
        refused("2^32", "05", 1 << 32),
        refused("2^63", "05", 1 << 63),
        refused("2^64 - 1", "05", u64::MAX),
        refused("2^64 - 1 of an empty slice", "", u64::MAX),
    ]
}

/// A summary as it is handed in.
#[derive(Clone, Copy)]
struct Held<'a> {
    names: &'a str,
    count: u64,
}

/// Where all of this stands together: round 2 on a file in which nobody has a list, and a step whose name nobody holds,
/// the first of a run over 0x21. Both leave the names.
fn round(file: &[u8], held: Held, answer_length: usize) -> Call {
    let call = Call::Round { file: file.to_vec(), frame: vec![ROUND_2], answer_length };
    call.keeping(&hex(held.names), held.count)
}

const NAMES: [u8; 1] = [0x21];

fn step(file: &[u8], held: Held, answer_length: usize) -> Call {
    let call =
        Call::Step { file: file.to_vec(), names: NAMES.to_vec(), run: [0, 0, 0, 0, 1, 0, 0, 0], answer_length };
    call.keeping(&hex(held.names), held.count)
}

/// Both carried out: epoch and answer are the round's, the summary is as it was.
fn carried_out(what: &'static str, names: &[u8], held: &str) -> Edge {
    let file = named(names);
    let held = Held { names: held, count: names.len() as u64 };
    let (round, step) = (round(&file, held, 64), step(&file, held, 64));
    let after_round = Outcome {
        senders: Some(0),
        file: Some(changed(&file, &[(EPOCH, "01")])),
        buffer: Some(answer(ROUND_2, &[])),
        ..round.before()
    };
    let after_step = Outcome {
        senders: Some(0),
        file: Some(changed(&file, &[(EPOCH, "02"), (PENDING, "01 21 F4 01")])),
        buffer: Some(answer(MSD, &[])),
        run: Some([0, 0, 1, 0, 2, 0, 0, 0]),
        ..step.before()
    };
    Edge { what, calls: vec![(round, after_round), (step, after_step)] }
}

/// The count is not above the slice's length, and the names are those of the file; what is behind them is free.
fn matching() -> Vec<Edge> {
    let all = digits(&all_names());
    vec![
        carried_out("no slave, an empty slice", &[], ""),
        carried_out("no slave, bytes behind", &[], "05 06"),
        carried_out("one slave", &[0x05], "05"),
        carried_out("two slaves, no room left", &[0x05, 0x06], "05 06"),
        carried_out("two slaves, a byte behind", &[0x05, 0x06], "05 06 A5"),
        carried_out("two slaves, a name again behind", &[0x05, 0x06], "05 06 06"),
        carried_out("two slaves of one name", &[0x05, 0x05], "05 05"),
        carried_out("slaves at 0x00 and 0xFF", &[0x00, UNNAMED], "00 FF"),
        carried_out("32 slaves", &all_names(), &all),
        carried_out("32 slaves, a byte behind", &all_names(), &format!("{all}EE")),
    ]
}

/// The round and the step refused by this number, with a buffer of this length.
fn both_refused(what: &'static str, file: &[u8], held: Held, answer_length: usize, number: u8) -> Edge {
    let calls = [round(file, held, answer_length), step(file, held, answer_length)];
    let refused = |call: Call| {
        let expected = Outcome { number, ..call.before() };
        (call, expected)
    };
    Edge { what, calls: calls.map(refused).to_vec() }
}

/// On two slaves, 0x05 and 0x06, and on 32.
fn not_matching() -> Vec<Edge> {
    let two = |what, names: &str, count| {
        both_refused(what, &named(&[0x05, 0x06]), Held { names, count }, 64, NO_SUMMARY)
    };
    let of_32 = |what, wrong: usize, count| {
        let mut names = all_names();
        names[wrong] ^= 0x80;
        both_refused(what, &named(&all_names()), Held { names: &digits(&names), count }, 64, NO_SUMMARY)
    };
    let none = Held { names: "05", count: 1 };
    vec![
        two("no names", "", 0),
        two("a count of 0", "05 06", 0),
        two("a name too few", "05 06", 1),
        two("a name too few, and no byte more", "05", 1),
        two("a name too many", "05 06 07", 3),
        two("a name too many, which is 0xFF", "05 06 FF", 3),
        two("the last name does not fit", "05", 2),
        two("no byte", "", 2),
        two("the first name another", "07 06", 2),
        two("the last name another", "05 07", 2),
        two("the names exchanged", "06 05", 2),
        two("unnamed in place of a name", "05 FF", 2),
        two("a count above the slice by 1", "05 06", 3),
        two("256 more", "05 06", 256 + 2),
        two("2^32 more", "05 06", (1 << 32) + 2),
        two("2^63 more", "05 06", (1 << 63) + 2),
        two("2^64 - 1", "05 06", u64::MAX),
        two("2^64 - 1 of an empty slice", "", u64::MAX),
        of_32("the first of 32", 0, 32),
        of_32("the last of 32", 31, 32),
        of_32("31 of 32", 31, 31),
        both_refused("no slave, one name", &named(&[]), none, 64, NO_SUMMARY),
    ]
}

/// "after 8": on a file that each of 1 to 8 refuses, a summary that fits, one that does not, and a short buffer.
fn file_first() -> Vec<Edge> {
    let fits = Held { names: "05 06", count: 2 };
    let above = Held { names: "05 06", count: u64::MAX };
    let files = refused_files([0x05, 0x06]);
    let edges = files.into_iter().flat_map(|(what, file, number)| {
        [
            both_refused(what, &file, fits, 64, number),
            both_refused(what, &file, above, 64, number),
            both_refused(what, &file, above, 0, number),
        ]
    });
    edges.collect()
}

/// Before 9, and with it before what a frame, a list and a position are refused for.
fn before_others() -> Vec<Edge> {
    let file = named(&[0x05, 0x06]);
    let wrong = Held { names: "05 07", count: 2 };
    let right = Held { names: "05 06", count: 2 };
    let frame = |what, frame: &[u8], held: Held, number| {
        let call = Call::Round { file: file.clone(), frame: frame.to_vec(), answer_length: 64 };
        Edge::refused(what, call.keeping(&hex(held.names), held.count), number)
    };
    let listed = |what, names: &[u8], run: RunWords, held: Held, number| {
        let call = Call::Step { file: file.clone(), names: names.to_vec(), run, answer_length: 64 };
        Edge::refused(what, call.keeping(&hex(held.names), held.count), number)
    };
    let bad_check = [MSA, 1, 2, 3, 4, 0];
    vec![
        both_refused("24 and 9", &file, wrong, 63, NO_SUMMARY),
        both_refused("24 and 9, no buffer", &file, wrong, 0, NO_SUMMARY),
        both_refused("9 alone", &file, right, 63, SHORT_BUFFER),
        frame("24 and 10", &[], wrong, NO_SUMMARY),
        frame("10 alone", &[], right, 10),
        frame("24 and 11", &[ROUND_2, 0], wrong, NO_SUMMARY),
        frame("11 alone", &[ROUND_2, 0], right, 11),
        frame("24 and 12", &bad_check, wrong, NO_SUMMARY),
        frame("12 alone", &bad_check, right, 12),
        frame("24 and 13", &framed(MSA, [1, 5, 0x23, 1]), wrong, NO_SUMMARY),
        frame("13 alone", &framed(MSA, [1, 5, 0x23, 1]), right, 13),
        frame("24 and 14", &framed(MSA, [1, 0, 0xF4, 1]), wrong, NO_SUMMARY),
        frame("14 alone", &framed(MSA, [1, 0, 0xF4, 1]), right, 14),
        listed("24 and 15", &[0x00], [0; 8], wrong, NO_SUMMARY),
        listed("15 alone", &[0x00], [0; 8], right, 15),
        listed("24 and 16", &[1, 1], [0; 8], wrong, NO_SUMMARY),
        listed("16 alone", &[1, 1], [0; 8], right, 16),
        listed("24 and 17", &[1], [3, 0, 0, 0, 0, 0, 0, 0], wrong, NO_SUMMARY),
        listed("17 alone", &[1], [3, 0, 0, 0, 0, 0, 0, 0], right, 17),
    ]
}

/// A step of an ended run alters nothing; a summary that does not match is refused there too.
fn ended() -> Vec<Edge> {
    let file = named(&[0x05, 0x06]);
    let runs: [RunWords; 2] = [[1, 0, 3, 9, 20, 2, 3, 4], [2, 1, 0, 9, 20, 2, 3, 4]];
    let edge = |what, held: &str, count, number| {
        let step = |run| Call::Step { file: file.clone(), names: NAMES.to_vec(), run, answer_length: 64 };
        let calls = runs.map(|run| {
            let call = step(run).keeping(&hex(held), count);
            let expected = Outcome { number, ..call.before() };
            (call, expected)
        });
        Edge { what, calls: calls.to_vec() }
    };
    vec![
        edge("ended", "05 06", 2, 0),
        edge("ended, a byte behind", "05 06 A5", 2, 0),
        edge("ended, a name another", "05 07", 2, NO_SUMMARY),
        edge("ended, a name too few", "05 06", 1, NO_SUMMARY),
        edge("ended, 2^64 - 1", "05 06", u64::MAX, NO_SUMMARY),
    ]
}

/// Where a slave of so many keeps its logical name, byte 3 of record 1 of 0x08; the new one stands before it, and behind it
/// the comparison value.
fn name_place(slaves: usize, slave: usize) -> usize {
    slave_place(slaves, slave) + 12 + 7
}

/// These slaves hold their physical names, 7 and their place in the table, as comparison values, and these new names.
fn to_be_baptized(names: &[u8], new_names: &[(usize, u8)]) -> Vec<u8> {
    let mut file = named(names);
    for &(slave, new_name) in new_names {
        let place = name_place(names.len(), slave);
        let value = format!("00000007 {slave:08X}");
        file = changed(&file, &[(place - 1, &format!("{new_name:02X}")), (place + 1, &value)]);
    }
    file
}

/// Execute of record 1 of 0x08 at 0xFF and at 0x00, as they stand pending.
const AT_UNNAMED: &str = "01 FF 22 01";
const AT_ALL: &str = "01 00 22 01";

/// The data frame of a pending operation: these bytes of the file are then others, and the slice holds the names left.
fn data_frame(what: &'static str, file: &[u8], changes: Changes, held: [&str; 2]) -> Edge {
    let count = u64::from(file[3]);
    let call = Call::Round { file: file.to_vec(), frame: vec![MSD], answer_length: 64 };
    let call = call.keeping(&hex(held[0]), count);
    let expected = Outcome {
        senders: Some(0),
        file: Some(changed(&changed(file, &[(EPOCH, "01")]), changes)),
        buffer: Some(answer(MSD, &[])),
        held: Some(hex(held[1])),
        ..call.before()
    };
    Edge::new(what, call, expected)
}

/// "Every round and naming step may be given the summary and keeps it true": by a baptizing it changes.
fn baptized() -> Vec<Edge> {
    let pending = |names: &[u8], new: &[(usize, u8)], operation| {
        changed(&to_be_baptized(names, new), &[(PENDING, operation)])
    };
    let three = [0x05, UNNAMED, UNNAMED];
    let [first, second, third] = [0, 1, 2].map(|slave| name_place(3, slave));
    let one = pending(&three, &[(1, 0x21)], AT_UNNAMED);
    let both = pending(&three, &[(1, 0x21), (2, 0x21)], AT_UNNAMED);
    let named_already = pending(&three, &[(0, 0x21), (2, 0x22)], AT_UNNAMED);
    let at_all = pending(&three, &[(0, UNNAMED), (2, 0x22)], AT_ALL);
    let to_zero = pending(&three, &[(2, 0x00)], AT_UNNAMED);
    let mut last_of_32 = vec![0x07; 31];
    last_of_32.push(UNNAMED);
    let most = pending(&last_of_32, &[(31, 0x21)], AT_UNNAMED);
    let (before, after) = (digits(&last_of_32), format!("{}21", "07".repeat(31)));
    vec![
        data_frame("one is named", &one, &[(second, "21")], ["05 FF FF", "05 21 FF"]),
        data_frame("one is named, bytes behind", &one, &[(second, "21")], ["05 FF FF FF A5", "05 21 FF FF A5"]),
        data_frame("two get one name", &both, &[(second, "21"), (third, "21")], ["05 FF FF", "05 21 21"]),
        data_frame("a named one is not reached", &named_already, &[(third, "22")], ["05 FF FF", "05 FF 22"]),
        data_frame("a named one becomes unnamed", &at_all, &[(first, "FF")], ["05 FF FF", "FF FF FF"]),
        data_frame("one becomes 0x00", &to_zero, &[(third, "00")], ["05 FF FF", "05 FF 00"]),
        data_frame("the last of 32", &most, &[(name_place(32, 31), "21")], [&before, &after]),
        named_by_a_step(),
    ]
}

/// The baptism of a run over 0x21, whose value is the physical name of the second slave.
fn named_by_a_step() -> Edge {
    let file = to_be_baptized(&[0x05, UNNAMED], &[(1, 0x21)]);
    let run: RunWords = [0, 0, 199, 0x7_0000_0001, 133, 65, 7, 1];
    let call = Call::Step { file: file.clone(), names: NAMES.to_vec(), run, answer_length: 64 };
    let call = call.keeping(&hex("05 FF A5"), 2);
    let after = changed(&file, &[(EPOCH, "02"), (PENDING, AT_UNNAMED), (name_place(2, 1), "21")]);
    let expected = Outcome {
        senders: Some(0),
        file: Some(after),
        buffer: Some(answer(MSD, &[])),
        run: Some([2, 1, 0, 0x7_0000_0001, 134, 65, 7, 1]),
        held: Some(hex("05 21 A5")),
        ..call.before()
    };
    Edge::new("the baptism of a run", call, expected)
}

/// Data frames that leave the names: nobody fits, another record is executed, the record of the names is written.
fn renaming_nobody() -> Vec<Edge> {
    let with = |operation| changed(&to_be_baptized(&[0x05, UNNAMED], &[]), &[(PENDING, operation)]);
    let written = Call::Round {
        file: with("01 FF 21 01"),
        frame: framed(MSD, [0x11, 0x22, 0x33, 0x07]),
        answer_length: 64,
    };
    let written = written.keeping(&hex("05 FF"), 2);
    let place = name_place(2, 1) - 3;
    let after_write = Outcome {
        senders: Some(0),
        file: Some(changed(&with("01 FF 21 01"), &[(EPOCH, "01"), (place, "112233FF")])),
        buffer: Some(answer(MSD, &[])),
        ..written.before()
    };
    vec![
        data_frame("nothing pending", &with("00 FF 22 01"), &[], ["05 FF", "05 FF"]),
        data_frame("no physical name equal", &with(AT_UNNAMED), &[], ["05 FF", "05 FF"]),
        data_frame("record 3 executed", &with("01 FF 22 03"), &[], ["05 FF", "05 FF"]),
        Edge::new("the record of the names written", written, after_write),
    ]
}

/// Makes a call with the summary that the last one left, of two slaves and a byte behind; what it left.
fn keep(engine: &dyn Engine, call: Call, held: &mut Vec<u8>, number: u8) -> Outcome {
    let outcome = call.keeping(held, 2).make(engine);
    assert_eq!(outcome.number, number);
    *held = outcome.held.clone().expect("a lent slice");
    outcome
}

fn holder(engine: &dyn Engine, held: &[u8], name: u8) -> Option<u64> {
    Call::Holder { held: held.to_vec(), count: 2, name }.make(engine).holder()
}

/// A baptizing data frame sent twice: the first renames, and the second finds the slave named; then at its new name it
/// takes the new name that it has, which is its own.
fn baptized_twice(engine: &dyn Engine) {
    let mut file = changed(&to_be_baptized(&[UNNAMED, 0x05], &[(0, 0x21)]), &[(PENDING, AT_UNNAMED)]);
    let mut held = hex("FF 05 A5");
    let frames = [vec![MSD], vec![MSD], framed(MSA, [9, 0x21, 0x22, 1]), vec![MSD]];
    for (frame, epoch) in frames.into_iter().zip([1, 2, 9, 10]) {
        let round = Call::Round { file, frame, answer_length: 64 };
        file = keep(engine, round, &mut held, 0).file.expect("a lent file");
        assert_eq!((file[EPOCH], &held[..]), (epoch, &hex("21 05 A5")[..]));
    }
    assert_eq!([0x21, 0x05, UNNAMED].map(|name| holder(engine, &held, name)), [Some(0), Some(1), None]);
}

/// Between the two frames of a baptizing, refused frames and calls given a wrong summary: each leaves all, and the next is
/// given the summary as it was.
fn refused_between(engine: &dyn Engine) {
    let file = to_be_baptized(&[UNNAMED, 0x05], &[(0, 0x21)]);
    let round = |file: &[u8], frame: Vec<u8>| Call::Round { file: file.to_vec(), frame, answer_length: 64 };
    let mut held = hex("FF 05 A5");
    let addressed = keep(engine, round(&file, framed(MSA, [4, UNNAMED, 0x22, 1])), &mut held, 0);
    let file = addressed.file.expect("a lent file");
    for (frame, number) in [(vec![MSD, 0], 11), (vec![0x54], 10), (framed(MSA, [4, UNNAMED, 0x23, 1]), 13)] {
        let refused = keep(engine, round(&file, frame), &mut held, number);
        assert_eq!((refused.file.as_ref(), &held[..]), (Some(&file), &hex("FF 05 A5")[..]));
    }
    let mut wrong = hex("FF 06 A5");
    let refused = keep(engine, round(&file, vec![MSD]), &mut wrong, NO_SUMMARY);
    assert_eq!((refused.file.as_ref(), &wrong[..]), (Some(&file), &hex("FF 06 A5")[..]));
    let named = keep(engine, round(&file, vec![MSD]), &mut held, 0);
    assert_eq!(named.file.map(|file| file[name_place(2, 0)]), Some(0x21));
    assert_eq!(held, hex("21 05 A5"));
}

/// A naming run by steps that keep the summary, with a read and a multipartner round that keep it between any two: it is the
/// run that is made without, and after every call the summary has the names of the file.
fn whole_run(engine: &dyn Engine) {
    let names = vec![0x22, 0x21, 0x23];
    let traffic = [framed(MSA, [1, 0x21, 0xF4, 1]), vec![MSD], vec![ROUND_2]];
    let (mut file, mut run, mut held) = (named(&[UNNAMED, UNNAMED]), [0; 8], hex("FF FF A5"));
    let mut given = Vec::new();
    while run[0] == 0 {
        let before = held.clone();
        let step = Call::Step { file, names: names.clone(), run, answer_length: 64 };
        let stepped = keep(engine, step, &mut held, 0);
        (file, run) = (stepped.file.expect("a lent file"), stepped.run.expect("a lent run"));
        for frame in traffic.clone() {
            assert_eq!(held, [file[name_place(2, 0)], file[name_place(2, 1)], 0xA5]);
            let round = Call::Round { file, frame, answer_length: 64 };
            file = keep(engine, round, &mut held, 0).file.expect("a lent file");
        }
        given.extend((held != before).then(|| held.clone()));
    }
    // The extra read, 134 rounds for 0x0000000700000001, 135 for ..00, whose bit 0 is 0, and 4 to find nobody.
    assert_eq!(run, [1, 2, 3, 0x7_0000_0000, 1 + 134 + 135 + 4, 131, 0, 0]);
    // The greater physical name gets the first name.
    assert_eq!(given, [hex("FF 22 A5"), hex("21 22 A5")]);
    let asked = [0x21, 0x22, 0x23, UNNAMED].map(|name| holder(engine, &held, name));
    assert_eq!(asked, [Some(0), Some(1), None, None]);
}
