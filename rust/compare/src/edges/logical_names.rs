//! The edges of logical names (document 02, request 5): which files loading refuses for equal ones, that nothing else
//! does, and that a write renames nobody.

use super::files::{
    answer, changed, cluster, hex, named, refused_files, slave_place, Changes, Slave, PENDING, UNNAMED,
};
use super::Edge;
use crate::case::{Call, Outcome};
use crate::engine::{Engine, RunWords};
use crate::frames::framed;
use crate::layout::EPOCH;
use model::{MSA, MSD};

/// "22, equal logical names on loading, after 8"
const EQUAL_NAMES: u8 = 22;

/// So many edges there are, a naming run aside.
const EDGES: usize = 117;

pub fn hold(engine: &dyn Engine) {
    let groups = [
        loaded(),
        not_loaded(),
        other_grounds_first(),
        names_written(),
        four_bytes(),
        record_1_of_each_file(),
        records_of_configuration(),
        on_equal_names(),
    ];
    super::hold_all(engine, groups, EDGES);
    writes_between_steps(engine);
}

fn loading(what: &'static str, file: Vec<u8>, number: u8) -> Edge {
    Edge::refused(what, Call::Check { file }, number)
}

/// No logical name but 0xFF occurs twice.
fn loaded() -> Vec<Edge> {
    let all: Vec<u8> = (0x00..0x20).collect();
    let new_name = slave_place(2, 0) + 12 + 6;
    vec![
        loading("no slave", named(&[]), 0),
        loading("one slave named 0x00", named(&[0x00]), 0),
        loading("two names", named(&[0x05, 0x06]), 0),
        loading("two slaves at 0xFF", named(&[UNNAMED, UNNAMED]), 0),
        loading("32 slaves at 0xFF", named(&[UNNAMED; 32]), 0),
        loading("32 names, 0x00 among them", named(&all), 0),
        loading("0x00, 0xFE and 0xFF", named(&[0x00, 0xFE, UNNAMED]), 0),
        loading("two names that differ by 64", named(&[0x41, 0x01]), 0),
        loading("two names that differ by 128", named(&[0x85, 0x05]), 0),
        loading("names around slaves at 0xFF", named(&[0x01, UNNAMED, 0x02, UNNAMED]), 0),
        loading("a new logical name that another holds", changed(&named(&[5, 6]), &[(new_name, "06")]), 0),
    ]
}

/// "two slaves with one logical name other than 0xFF"
fn not_loaded() -> Vec<Edge> {
    let mut last_as_first: Vec<u8> = (0x01..0x20).collect();
    last_as_first.push(0x01);
    let mut last_two: Vec<u8> = (0x01..0x20).collect();
    last_two.push(0x1F);
    vec![
        loading("one name twice", named(&[0x05, 0x05]), EQUAL_NAMES),
        loading("0x00 twice", named(&[0x00, 0x00]), EQUAL_NAMES),
        loading("0x01 twice", named(&[0x01, 0x01]), EQUAL_NAMES),
        loading("0xFE twice", named(&[0xFE, 0xFE]), EQUAL_NAMES),
        loading("twice with one at 0xFF between", named(&[0x05, UNNAMED, 0x05]), EQUAL_NAMES),
        loading("twice after two at 0xFF", named(&[UNNAMED, UNNAMED, 0x40, 0x40]), EQUAL_NAMES),
        loading("the last of 32 slaves as the first", named(&last_as_first), EQUAL_NAMES),
        loading("the last two of 32 slaves", named(&last_two), EQUAL_NAMES),
        loading("32 slaves of one name", named(&[0x80; 32]), EQUAL_NAMES),
    ]
}

/// 22 comes "after 8": two slaves of one name in a file that each of 1 to 8 refuses.
fn other_grounds_first() -> Vec<Edge> {
    refused_files([0x05, 0x05]).map(|(what, file, number)| loading(what, file, number)).into()
}

/// Four slaves: two unnamed, one named 0x05, one 0x00.
const FOUR: [u8; 4] = [UNNAMED, UNNAMED, 0x05, 0x00];
const WRITE: u8 = 1;

/// The data frame of a pending write on [`FOUR`] with the data 11 22 33 and this byte: these bytes of the slaves are then
/// others.
fn writes(what: &'static str, target: [u8; 3], last: u8, changes: Changes) -> Edge {
    Edge { what, calls: vec![writing(&named(&FOUR), target, last, changes)] }
}

/// The same on any file, at a name, of a record of a slave's file: epoch 0 becomes 1, and nobody sends.
fn writing(file: &[u8], [name, number, record]: [u8; 3], last: u8, changes: Changes) -> (Call, Outcome) {
    let header = format!("00 01 {name:02X} {:02X} {record:02X}", number << 2 | WRITE);
    let before = changed(file, &[(EPOCH, &header)]);
    let after = changed(&changed(&before, &[(EPOCH, "01")]), changes);
    let frame = framed(MSD, [0x11, 0x22, 0x33, last]);
    let call = Call::Round { file: before, frame, answer_length: 64 };
    let expected =
        Outcome { senders: Some(0), file: Some(after), buffer: Some(answer(MSD, &[])), ..call.before() };
    (call, expected)
}

/// Where a slave of [`FOUR`] keeps record 1 of 0x08, and of 0x10.
fn names_record(slave: usize) -> usize {
    slave_place(FOUR.len(), slave) + 12 + 4
}

fn data_record(slave: usize) -> usize {
    slave_place(FOUR.len(), slave) + 12 + 16 + 4
}

/// "A write to that record replaces bytes 0 to 2 and leaves byte 3."
fn names_written() -> Vec<Edge> {
    let [first, second, third, fourth] = [0, 1, 2, 3].map(names_record);
    vec![
        writes(
            "a foreign master's 0x05 at 0xFF",
            [0xFF, 8, 1],
            5,
            &[(first, "112233FF"), (second, "112233FF")],
        ),
        writes("0xFF at 0xFF", [0xFF, 8, 1], 0xFF, &[(first, "112233FF"), (second, "112233FF")]),
        writes("0x00 at 0xFF", [0xFF, 8, 1], 0x00, &[(first, "112233FF"), (second, "112233FF")]),
        writes("0x06 at 0x00", [0x00, 8, 1], 6, &[(third, "11223305"), (fourth, "11223300")]),
        writes("0xFF at 0x00", [0x00, 8, 1], 0xFF, &[(third, "11223305"), (fourth, "11223300")]),
        writes("0x06 at 0x05", [0x05, 8, 1], 6, &[(third, "11223305")]),
        writes("0xFF at 0x05", [0x05, 8, 1], 0xFF, &[(third, "11223305")]),
        writes("0x05 at 0x05", [0x05, 8, 1], 5, &[(third, "11223305")]),
        writes("a name that nobody holds", [0x06, 8, 1], 5, &[]),
    ]
}

/// Any other record takes all four bytes, or none where it takes none.
fn four_bytes() -> Vec<Edge> {
    let [first, second, third, fourth] = [0, 1, 2, 3].map(data_record);
    let values = [0, 1, 2, 3].map(|slave| names_record(slave) + 4);
    let all = "11223305";
    vec![
        writes("record 1 of 0x10 at 0xFF", [0xFF, 0x10, 1], 5, &[(first, all), (second, all)]),
        writes("record 1 of 0x10 at 0x00", [0x00, 0x10, 1], 5, &[(third, all), (fourth, all)]),
        writes("record 1 of 0x10 at 0x05", [0x05, 0x10, 1], 5, &[(third, all)]),
        writes("record 2 of 0x08 at 0xFF", [0xFF, 8, 2], 5, &[(values[0], all), (values[1], all)]),
        writes("record 3 of 0x08 at 0x05", [0x05, 8, 3], 5, &[(values[2] + 4, all)]),
        writes("record 0x00 of 0x08", [0x05, 8, 0], 5, &[]),
        writes("record 1 of 0x3D", [0x05, 0x3D, 1], 5, &[]),
        writes("record 1 of a file that is not there", [0x05, 0x11, 1], 5, &[]),
        writes("record 4 of 0x08, which is not there", [0x05, 8, 4], 5, &[]),
    ]
}

/// A slave's name and an address at which it takes a write: its own name, 0x00, and 0xFF.
const ADDRESSED: [(u8, u8); 3] = [(0x05, 0x05), (0x05, 0x00), (UNNAMED, 0xFF)];

/// Record 1 of every other file that may be written takes all four bytes, 0x3C and the round files among them.
fn record_1_of_each_file() -> Vec<Edge> {
    let may_be_written = |number: &u8| ![0x08, 0x3D].contains(number);
    let edge = |number| Edge {
        what: "record 1 of a file that is not 0x08",
        calls: ADDRESSED.map(|(name, at)| writing_record_1(number, name, at)).to_vec(),
    };
    (0x00..=0x3F).filter(may_be_written).map(edge).collect()
}

/// A slave that has this file, its record 1 being D4 D5 D6 D7.
fn writing_record_1(number: u8, name: u8, at: u8) -> (Call, Outcome) {
    let record_1 = "D4D5D6D7";
    // Every slave here has such a file 0x10.
    let lists = if number == 0x10 { vec![] } else { vec![(number, record_1.to_string())] };
    let file = cluster(&[Slave { name, lists }]);
    let mut places = file.windows(4).enumerate().filter(|(_, bytes)| bytes == &hex(record_1));
    // Of two files the one with the lower number comes first.
    let place = if number > 0x10 { places.next_back() } else { places.next() };
    let (place, _) = place.expect("record 1 of the file");
    writing(&file, [at, number, 1], 0x05, &[(place, "11223305")])
}

/// Of 0x08 record 1 alone keeps its last byte; records 2 to 4 take all four.
fn records_of_configuration() -> Vec<Edge> {
    // One slave, whose 0x08 begins at place 28 and has four records: a name, 00000000, A0A1A2A3 and A4A5A6A7.
    let with = |name: u8| {
        let records = format!("00000000 000021{name:02X} 00000000 A0A1A2A3 A4A5A6A7");
        hex(&format!(
            "54410101 0010003C 00000000 00000000  00140200  0804001C 3D020030  {records}
             00000000 00000007 00000010"
        ))
    };
    let edge = |what, record: u8, written: fn(u8) -> String| Edge {
        what,
        calls: ADDRESSED
            .map(|(name, at)| {
                let place = 28 + 4 * usize::from(record);
                writing(&with(name), [at, 8, record], 0x44, &[(place, &written(name))])
            })
            .to_vec(),
    };
    vec![
        edge("record 1 of 0x08 keeps its last byte", 1, |name| format!("112233{name:02X}")),
        edge("record 2 of 0x08 takes four bytes", 2, |_| "11223344".to_string()),
        edge("record 3 of 0x08 takes four bytes", 3, |_| "11223344".to_string()),
        edge("record 4 of 0x08 takes four bytes", 4, |_| "11223344".to_string()),
    ]
}

/// "rounds may still run on a file that came to hold them": two slaves of the name 0x05.
fn on_equal_names() -> Vec<Edge> {
    let file = named(&[0x05, 0x05]);
    // A read of record 1 of 0x3D at 0x05 is pending: both answer with their series number 7 and the check 49 ^ 07.
    let reading = changed(&file, &[(PENDING, "01 05 F4 01")]);
    let series = [0x00, 0x00, 0x00, 0x07, 0x4E];
    let round = |what, file: &[u8], frame: Vec<u8>, mask, after: Vec<u8>, sent: &[u8]| {
        let buffer = Some(answer(frame[0], sent));
        let call = Call::Round { file: file.to_vec(), frame, answer_length: 64 };
        let expected = Outcome { senders: Some(mask), file: Some(after), buffer, ..call.before() };
        Edge::new(what, call, expected)
    };
    let polled = changed(&file, &[(EPOCH, "02"), (PENDING, "01 05 F4 01")]);
    // After the extra read.
    let run: RunWords = [0, 0, 0, 0, 1, 0, 0, 0];
    let step = Call::Step { file: file.clone(), names: vec![0x05], run, answer_length: 64 };
    let taken: RunWords = [2, 1, 0, 0, 2, 0, 0, 0];
    let stepped = Outcome {
        senders: Some(0b11_1110),
        file: Some(polled),
        buffer: Some(answer(MSD, &series)),
        run: Some(taken),
        ..step.before()
    };
    let trace = Call::Trace { file: file.clone(), trace: vec![0, 1, 0, 1, 0, 0, 1, 0xBA] };
    let ran = Outcome { file: Some(changed(&file, &[(EPOCH, "01")])), ..trace.before() };
    let owner = Call::Owner { file: file.clone(), master: 0x63, buffer_length: 35 };
    vec![
        round("a read", &reading, vec![MSD], 0b11_1110, changed(&reading, &[(EPOCH, "01")]), &series),
        round("round 2", &file, vec![0xBA], 0, changed(&file, &[(EPOCH, "01")]), &[]),
        Edge::new("a naming step", step, stepped),
        Edge::new("a trace", trace, ran.with_report([0, 0, 1, 0, 1])),
        Edge::refused("an owner file in a short buffer", owner, 21),
    ]
}

/// Between any two steps of a naming run a write of record 1 at a name goes on, with a refused frame inside it: the run
/// takes no notice, and renames whom it would have renamed.
fn writes_between_steps(engine: &dyn Engine) {
    // The first slave is named 0x09, the second, 0x0000000700000001, unnamed.
    let mut file = named(&[0x09, UNNAMED]);
    let names = vec![0x09, 0x07];
    let mut run: RunWords = [0; 8];
    while run[0] == 0 {
        let step = Call::Step { file, names: names.clone(), run, answer_length: 64 }.make(engine);
        assert_eq!(step.number, 0);
        (file, run) = (step.file.expect("a lent file"), step.run.expect("a lent run"));
        let frames = [
            (framed(MSA, [1, 0x09, 0x21, 1]), 0),
            (vec![MSD, 0, 0, 7, 7, 0], 12),
            (framed(MSD, [0x00, 0x00, 0x07, 0x07]), 0),
        ];
        for (frame, number) in frames {
            let round = Call::Round { file, frame, answer_length: 64 }.make(engine);
            assert_eq!(round.number, number);
            file = round.file.expect("a lent file");
        }
    }
    // The extra read and one round for the taken name; 134 and 65 comparisons for the other, whose bits 32 and 0 are 1.
    assert_eq!(run, [2, 2, 0, 0x7_0000_0001, 136, 65, 7, 1]);
    let record_1 = |slave| slave_place(2, slave) + 12 + 4;
    assert_eq!(file[record_1(0)..record_1(0) + 4], [0, 0, 7, 0x09]);
    assert_eq!(file[record_1(1)..record_1(1) + 4], [0, 0, 7, 0x07]);
}
