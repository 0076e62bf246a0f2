//! The edges of the two editions (document 02, request 10): grounds 1 to 8 by each edition's own values, calls on files
//! that edition 2 alone can hold, and conversions.

use super::files::{
    answer, changed, hex, least_files, of_length, parts, refused_files, slave, unnamed, Slave, UNNAMED,
};
use super::Edge;
use crate::case::{Call, Outcome, FILL};
use crate::editions::Parts;
use crate::engine::Engine;
use crate::frames::framed;
use model::{Edition, MSA, MSD};

/// So many edges there are, runs aside.
const EDGES: usize = 192;

const EDITION_LIMITS: u8 = 25;
const CONVERSION_BUFFER: u8 = 26;
const ROUND_2: u8 = 0xBA;
/// Of edition 2: the epoch, the table, and the bytes of an entry.
const EPOCH: usize = 12;
const TABLE: usize = 24;
const ENTRY: usize = 8;

pub fn hold(engine: &dyn Engine) {
    let groups = [
        lengths(),
        header_fields(),
        counts(),
        entries(),
        slaves_without_files(),
        equal_names(),
        last_of_64(),
        on_64_slaves(),
        converted(),
        carried_over(),
        limits(),
        longest(),
        refused(),
    ];
    super::hold_all(engine, groups, EDGES);
    run_on_the_converted_file(engine);
}

/// Case M10, two slaves: in edition 1 as document 01 has it, in edition 2 by request 10's layout.
const M10: &str = "54410102 0010 0060 00 00000000 000000
    0018 02 00 003C 02 00
    08 03 0020 3D 02 0030
    00000000 000000FF 00000000 00000000 00000000 00000007 00000010
    08 03 0044 3D 02 0054
    00000000 000000FF 00000000 00000000 00000000 00000007 000000A0";
const WIDE_M10: &str = "54410202 00000018 00000080 00 00000000 00000000000000
    00000028 02 00 0000 00000054 02 00 0000
    08 03 0000 00000038 3D 02 0000 00000048
    00000000 000000FF 00000000 00000000 00000000 00000007 00000010
    08 03 0000 00000064 3D 02 0000 00000074
    00000000 000000FF 00000000 00000000 00000000 00000007 000000A0";
/// A file without slaves in either edition.
const NOBODY: &str = "54410100 0010 0010 00 00000000 000000";
const WIDE_NOBODY: &str = "54410200 00000018 00000018 00 00000000 00000000000000";

fn check(what: &'static str, file: Vec<u8>, number: u8) -> Edge {
    let call = Call::Check { file };
    let expected = Outcome { number, ..call.before() };
    Edge::new(what, call, expected)
}

/// Number 1 goes by byte 2 before the mark is looked at; 3 comes after it.
fn lengths() -> Vec<Edge> {
    let wide = hex(WIDE_NOBODY);
    let most = of_length(unnamed(2, 62), 2, 65_536).laid_out(2);
    let narrow_most = of_length(unnamed(1, 62), 1, 32_768).laid_out(1);
    let with = |file: &[u8], byte: usize, value: u8| {
        let mut file = file.to_vec();
        file[byte] = value;
        file
    };
    let one_more = |file: &[u8]| [file, &[0]].concat();
    vec![
        check("two bytes, so no byte 2", wide[..2].to_vec(), 1),
        check("three bytes of edition 2", wide[..3].to_vec(), 1),
        check("16 bytes of edition 2", wide[..16].to_vec(), 1),
        check("23 bytes of edition 2", wide[..23].to_vec(), 1),
        check("23 bytes of edition 2 with a wrong mark", with(&wide[..23], 0, 0x55), 1),
        check("24 bytes of edition 2", wide.clone(), 0),
        check("24 bytes of edition 2 with a wrong mark", with(&wide, 1, 0x54), 2),
        check("32,772 bytes of edition 2", of_length(unnamed(1, 62), 2, 32_772).laid_out(2), 0),
        check("65,532 bytes of edition 2", of_length(unnamed(2, 62), 2, 65_532).laid_out(2), 0),
        check("65,536 bytes of edition 2", most.clone(), 0),
        check("65,536 bytes of edition 2 with a wrong mark", with(&most, 0, 0x55), 2),
        check("65,537 bytes of edition 2", one_more(&most), 1),
        check("65,537 bytes of edition 2 with a wrong mark", one_more(&with(&most, 0, 0x55)), 1),
        check("65,540 bytes of edition 2", of_length(unnamed(2, 62), 2, 65_540).laid_out(2), 1),
        check("16 bytes of edition 1", hex(NOBODY), 0),
        check("32,768 bytes of edition 1", narrow_most.clone(), 0),
        check("32,769 bytes of edition 1", one_more(&narrow_most), 1),
        check("32,772 bytes of edition 1", of_length(unnamed(1, 62), 1, 32_772).laid_out(1), 1),
        check("15 bytes of edition 3", with(&hex(NOBODY)[..15], 2, 3), 1),
        check("16 bytes of edition 3", with(&hex(NOBODY), 2, 3), 3),
        check("16 bytes of edition 3 with a wrong mark", with(&with(&hex(NOBODY), 2, 3), 0, 0x55), 2),
        check("16 bytes of edition 0", with(&hex(NOBODY), 2, 0), 3),
        check("16 bytes of edition 255", with(&hex(NOBODY), 2, 255), 3),
        check("32,768 bytes of edition 3", with(&narrow_most, 2, 3), 3),
        check("32,769 bytes of edition 3", one_more(&with(&narrow_most, 2, 3)), 1),
        check("an edition-1 file called edition 2", with(&hex(M10), 2, 2), 4),
        // Bytes 6 and 7 hold 24, the length of this file; the table offset is not 16.
        check("an edition-2 file called edition 1", with(&wide, 2, 1), 5),
    ]
}

/// Numbers 4 and 5 in edition 2: every byte of length and table offset, and every zero.
fn header_fields() -> Vec<Edge> {
    let file = hex(WIDE_M10);
    let raised = |what, place: usize, number| {
        let mut file = file.clone();
        file[place] += 1;
        check(what, file, number)
    };
    let pending = |what, text, number| check(what, changed(&file, &[(EPOCH + 1, text)]), number);
    let mut edges: Vec<Edge> = Vec::new();
    edges.extend((4..8).map(|place| raised("another table offset", place, 5)));
    edges.extend((8..12).map(|place| raised("another length", place, 4)));
    edges.extend((17..24).map(|place| raised("a header zero", place, 5)));
    edges.extend([
        check("any epoch", changed(&file, &[(EPOCH, "FF")]), 0),
        check("the length in two bytes", changed(&file, &[(8, "00800000")]), 4),
        check("edition 1's table offset", changed(&file, &[(4, "00000010")]), 5),
        pending("a flag of 2", "02 05 21 01", 5),
        pending("operation 3 pending", "01 05 23 01", 5),
        pending("a broadcast read pending", "01 00 20 01", 5),
        pending("a read pending", "01 05 20 01", 0),
        pending("free bytes", "00 00 FF FF", 0),
    ]);
    edges
}

fn counts() -> Vec<Edge> {
    vec![
        check("33 slaves in edition 1", unnamed(33, 0).laid_out(1), 5),
        check("33 slaves in edition 2", unnamed(33, 0).laid_out(2), 0),
        check("64 slaves in edition 2", unnamed(64, 0).laid_out(2), 0),
        check("65 slaves in edition 2", unnamed(65, 0).laid_out(2), 5),
        check("255 slaves in edition 2", unnamed(255, 0).laid_out(2), 5),
        check("64 slaves stated, 63 there", changed(&unnamed(63, 0).laid_out(2), &[(3, "40")]), 6),
    ]
}

/// Number 6 in edition 2: every byte of an entry of the table and of a directory.
fn entries() -> Vec<Edge> {
    let file = hex(WIDE_M10);
    let raised = |what, place: usize| {
        let mut file = file.clone();
        file[place] += 1;
        check(what, file, 6)
    };
    let (first, second) = (TABLE, TABLE + ENTRY);
    // Slave 0's directory: the entries of 0x08 and of 0x3D.
    let (configuration, documentation) = (0x28, 0x30);
    let mut edges: Vec<Edge> = Vec::new();
    for entry in [first, second] {
        // The second of the four bytes is 0x00010000.
        edges.extend((entry..entry + 4).map(|place| raised("another offset in the table", place)));
        edges.push(raised("a file more", entry + 4));
        edges.extend((entry + 6..entry + 8).map(|place| raised("a zero in the table", place)));
        edges.push(check("a sleeper", changed(&file, &[(entry + 5, "01")]), 0));
        edges.push(check("a sleep byte of 2", changed(&file, &[(entry + 5, "02")]), 6));
    }
    for entry in [configuration, documentation] {
        edges.push(raised("a record more", entry + 1));
        edges.extend((entry + 2..entry + 4).map(|place| raised("a zero in a directory", place)));
        edges.extend((entry + 4..entry + 8).map(|place| raised("another offset in a directory", place)));
    }
    edges.push(check("file number 64", changed(&file, &[(documentation, "40")]), 6));
    edges.push(check("no records", changed(&file, &[(documentation + 1, "00")]), 6));
    edges
}

/// "a slave with file count 0" stands where the file ends: its offset is the length, which at 65,536 has a third byte.
fn slaves_without_files() -> Vec<Edge> {
    let longest = |edition, length| {
        let mut parts = unnamed(2, 62);
        parts.slaves.push((0, Vec::new()));
        of_length(parts, edition, length).laid_out(edition)
    };
    let wide = longest(2, 65_536);
    let last = TABLE + 2 * ENTRY;
    assert_eq!(wide[last..last + 8], hex("00010000 00 00 0000"));
    vec![
        check("65,536 bytes, the last slave without files", wide.clone(), 7),
        check("its offset 0", changed(&wide, &[(last, "00000000")]), 6),
        check("its offset a record further", changed(&wide, &[(last, "00010004")]), 6),
        check("its offset 0x01000000 more", changed(&wide, &[(last, "01010000")]), 6),
        check("32,768 bytes of edition 1, the last slave without files", longest(1, 32_768), 7),
    ]
}

/// Numbers 8 and 22 between the first and the last of 64 slaves.
fn equal_names() -> Vec<Edge> {
    let with_last = |physical: u8, logical: u8| {
        let mut parts = unnamed(63, 0);
        parts.slaves[0] = (0, least_files(0, 0x05, 0));
        parts.slaves.push((0, least_files(usize::from(physical), logical, 0)));
        parts.laid_out(2)
    };
    vec![
        check("no names equal", with_last(63, 0x06), 0),
        check("equal physical names", with_last(0, 0x06), 8),
        check("equal logical names", with_last(63, 0x05), 22),
        check("both", with_last(0, 0x05), 8),
    ]
}

/// Numbers 6 and 7 of the last of 64 slaves.
fn last_of_64() -> Vec<Edge> {
    let lacking = |lacked: u8| {
        let mut parts = unnamed(64, 0);
        parts.slaves[63].1.retain(|&(number, _)| number != lacked);
        parts.laid_out(2)
    };
    let file = unnamed(64, 0).laid_out(2);
    let entry = TABLE + 63 * ENTRY;
    // Its directory of two entries, then 16 and 12 bytes.
    let directory = file.len() - 28 - 2 * ENTRY;
    vec![
        check("the last lacks 0x08", lacking(0x08), 7),
        check("the last lacks 0x3D", lacking(0x3D), 7),
        check("the last one's sleep byte 2", changed(&file, &[(entry + 5, "02")]), 6),
        check("a zero of the last table entry", changed(&file, &[(entry + 7, "01")]), 6),
        check("a zero of the last directory", changed(&file, &[(directory + 2, "01")]), 6),
    ]
}

/// 62 unnamed slaves without lists, then a receiver of slot 1 of round 2 and its sender.
fn meeting_at_the_end() -> Parts {
    let mut slaves = vec![Slave { name: UNNAMED, lists: Vec::new() }; 62];
    slaves.push(slave(0x21, 2, "41010001"));
    slaves.push(slave(0x22, 2, "40011001"));
    parts(&slaves)
}

/// Where slave s of 64 has its part in edition 2: its directory of three files, then 0x08, 0x10 and 0x3D, if no slave
/// before it has a list.
fn part_of(slave: usize) -> usize {
    TABLE + 64 * ENTRY + slave * (3 * ENTRY + 16 + 8 + 12)
}

fn round(what: &'static str, file: &[u8], frame: Vec<u8>, sent: (u64, &[u8]), after: Vec<u8>) -> Edge {
    let buffer = Some(answer(frame[0], sent.1));
    let call = Call::Round { file: file.to_vec(), frame, answer_length: 64 };
    let expected = Outcome { senders: Some(sent.0), file: Some(after), buffer, ..call.before() };
    Edge::new(what, call, expected)
}

fn on_64_slaves() -> Vec<Edge> {
    let file = meeting_at_the_end().laid_out(2);
    // Slave 62's directory and list of 8 bytes come before its 0x08 and 0x10.
    let stored = part_of(62) + 4 * ENTRY + 8 + 16 + 5;
    let all = unnamed(64, 0).laid_out(2);
    let state = |pending: &str| changed(&file, &[(EPOCH, pending)]);
    // A slave of two files has 2 entries, 0x08 and 0x3D; its names are in record 1 of 0x08.
    let names_of_last = TABLE + 64 * ENTRY + 63 * (2 * ENTRY + 16 + 12) + 2 * ENTRY + 4;
    let last_value = [(names_of_last + 2, "21"), (names_of_last + 4, "00000007 0000003F")];
    let mut tired = unnamed(64, 0);
    tired.slaves[63].1[0].1.extend([0; 4]);
    let tired = tired.laid_out(2);
    let sleep_of_last = TABLE + 63 * ENTRY + 5;
    let fill = |what, room: usize, number: u8| {
        let call = Call::Fill { file: file.clone(), held: vec![FILL; room] };
        let mut names = [vec![UNNAMED; 62], vec![0x21, 0x22]].concat();
        names.resize(room.max(64), FILL);
        let done = Outcome { held: Some(names), count: Some(64), ..call.before() };
        let expected = if number == 0 { done } else { Outcome { number, ..call.before() } };
        Edge::new(what, call, expected)
    };
    let held_by_last = Call::Holder { held: [vec![UNNAMED; 63], vec![0x22]].concat(), count: 64, name: 0x22 };
    let at_last = Outcome { place: Some(63), ..held_by_last.before() };
    vec![
        round(
            "the address frame of a read",
            &file,
            framed(MSA, [9, 0x22, 0xF4, 2]),
            (0, &[]),
            state("09 01 22 F4 02"),
        ),
        round(
            "the last of 64 slaves answers",
            &state("09 01 22 F4 02"),
            vec![MSD],
            (0b11_1110, &[0, 0, 0, 63, 0x49 ^ 63]),
            state("0A 01 22 F4 02"),
        ),
        round(
            "the last slave sends and the last but one stores",
            &file,
            vec![ROUND_2],
            (0b10, &[0xD4]),
            changed(&file, &[(EPOCH, "01"), (stored, "D4")]),
        ),
        round(
            "the last slave is baptized",
            &changed(&changed(&all, &last_value), &[(EPOCH, "FF 01 FF 22 01")]),
            vec![MSD],
            (0, &[]),
            changed(&changed(&all, &last_value), &[(EPOCH, "00 01 FF 22 01"), (names_of_last + 3, "21")]),
        ),
        round(
            "the last slave falls asleep",
            &changed(&tired, &[(EPOCH, "00 01 FF 22 04")]),
            vec![MSD],
            (0, &[]),
            changed(&tired, &[(EPOCH, "01 01 FF 22 04"), (sleep_of_last, "01")]),
        ),
        round(
            "the last slave wakes",
            &changed(&file, &[(sleep_of_last, "01")]),
            vec![ROUND_2],
            (0, &[]),
            changed(&file, &[(EPOCH, "01")]),
        ),
        fill("64 names", 64, 0),
        fill("64 names and room for one", 65, 0),
        fill("room for 63 names", 63, 24),
        Edge::new("the last of 64 holds it", held_by_last, at_last),
    ]
}

fn convert(file: &[u8], edition: u8, buffer_length: usize) -> Call {
    let edition = if edition == 1 { Edition::One } else { Edition::Two };
    Call::Convert { file: file.to_vec(), edition, buffer_length }
}

/// A file that becomes this one, which says into which edition: in a buffer of just its length and in longer ones, whose
/// further bytes stay; refused by 26 in one that is a byte shorter, and in none.
fn becomes(what: &'static str, file: &[u8], into: &[u8]) -> Edge {
    let needed = into.len();
    let carried_out = [needed, needed + 1, needed + 40].map(|room| {
        let call = convert(file, into[2], room);
        let buffer = Some([into, &vec![FILL; room - needed]].concat());
        let expected = Outcome { buffer, length: Some(needed as u64), ..call.before() };
        (call, expected)
    });
    let refused = [needed - 1, 0].map(|room| {
        let call = convert(file, into[2], room);
        let expected = Outcome { number: CONVERSION_BUFFER, ..call.before() };
        (call, expected)
    });
    Edge { what, calls: [carried_out.to_vec(), refused.to_vec()].concat() }
}

/// There, back, and copied in both editions.
fn both_ways(what: &'static str, narrow: &[u8], wide: &[u8]) -> Vec<Edge> {
    assert_eq!((narrow[2], wide[2]), (1, 2));
    vec![
        becomes(what, narrow, wide),
        becomes(what, wide, narrow),
        becomes(what, narrow, narrow),
        becomes(what, wide, wide),
    ]
}

fn both_ways_of(what: &'static str, parts: &Parts) -> Vec<Edge> {
    both_ways(what, &parts.laid_out(1), &parts.laid_out(2))
}

fn converted() -> Vec<Edge> {
    let mut named = vec![(0, least_files(0, 0x05, 0)), (0, least_files(1, 0x05, 0))];
    named.push((0, least_files(2, 0x00, 3)));
    let alike = Parts { state: [0; 5], slaves: named };
    [
        both_ways("no slaves", &hex(NOBODY), &hex(WIDE_NOBODY)),
        both_ways("M10", &hex(M10), &hex(WIDE_M10)),
        // 22 is asked for by loading alone.
        both_ways_of("two slaves of one logical name", &alike),
        both_ways_of("32 slaves", &unnamed(32, 1)),
        both_ways_of("a slave of 64 files", &unnamed(1, 62)),
    ]
    .concat()
}

/// Epoch, flag, the three pending bytes, also where they are free, and sleep bytes.
fn carried_over() -> Vec<Edge> {
    let with = |state: [u8; 5], asleep: [u8; 3]| {
        let mut parts = unnamed(3, 0);
        parts.state = state;
        parts.slaves.iter_mut().zip(asleep).for_each(|(slave, asleep)| slave.0 = asleep);
        parts
    };
    [
        both_ways_of("an epoch", &with([255, 0, 0, 0, 0], [0; 3])),
        both_ways_of("a write pending", &with([7, 1, 0x05, 0x21, 0x01], [0; 3])),
        both_ways_of("free pending bytes", &with([0, 0, 0x00, 0xFF, 0xEE], [0; 3])),
        both_ways_of("the first asleep", &with([0; 5], [1, 0, 0])),
        both_ways_of("the last asleep", &with([0; 5], [0, 0, 1])),
        both_ways_of("all asleep, all pending bytes free", &with([1, 0, 3, 0, 4], [1, 1, 1])),
    ]
    .concat()
}

/// Number 25, with no buffer and with more than enough.
fn beyond_edition_1(what: &'static str, parts: &Parts) -> Edge {
    let file = parts.laid_out(2);
    let calls = [0, 32_768, 65_536].map(|room| {
        let call = convert(&file, 1, room);
        let expected = Outcome { number: EDITION_LIMITS, ..call.before() };
        (call, expected)
    });
    Edge { what, calls: calls.to_vec() }
}

/// Slaves whose edition-1 form has so many bytes.
fn narrow_form(slaves: usize, length: usize) -> Parts {
    of_length(unnamed(slaves, 20), 1, length)
}

fn limits() -> Vec<Edge> {
    let copied = |what, parts: &Parts| becomes(what, &parts.laid_out(2), &parts.laid_out(2));
    let narrowed = |what, parts: &Parts| becomes(what, &parts.laid_out(2), &parts.laid_out(1));
    vec![
        narrowed("32 slaves", &unnamed(32, 0)),
        beyond_edition_1("33 slaves", &unnamed(33, 0)),
        beyond_edition_1("64 slaves", &unnamed(64, 0)),
        copied("33 slaves stay in edition 2", &unnamed(33, 0)),
        copied("64 slaves stay in edition 2", &unnamed(64, 0)),
        narrowed("32 slaves, 32,764 bytes in edition 1", &narrow_form(32, 32_764)),
        narrowed("32 slaves, 32,768 bytes in edition 1", &narrow_form(32, 32_768)),
        beyond_edition_1("32 slaves, 32,772 bytes in edition 1", &narrow_form(32, 32_772)),
        copied("32,772 bytes in edition 1 stay in edition 2", &narrow_form(32, 32_772)),
        narrowed("1 slave, 32,768 bytes in edition 1", &of_length(unnamed(1, 62), 1, 32_768)),
        beyond_edition_1("1 slave, 32,772 bytes in edition 1", &of_length(unnamed(1, 62), 1, 32_772)),
        beyond_edition_1("33 slaves and more than 32,768 bytes", &narrow_form(33, 32_772)),
        beyond_edition_1("65,536 bytes", &of_length(unnamed(2, 62), 2, 65_536)),
    ]
}

/// The longest file that widening makes: 32 slaves of 64 files in 32,768 bytes, of which header and 2,080 entries become
/// longer. And the longest that is copied.
fn longest() -> Vec<Edge> {
    let most_entries = of_length(unnamed(32, 62), 1, 32_768);
    assert_eq!(most_entries.laid_out(2).len(), 41_096);
    let most = of_length(unnamed(64, 2), 2, 65_536).laid_out(2);
    [both_ways_of("41,096 bytes", &most_entries), vec![becomes("65,536 bytes copied", &most, &most)]].concat()
}

/// A file that 1 to 8 turn away, with no buffer and with room: its number comes before 25 and 26.
fn refused() -> Vec<Edge> {
    let wide = hex(WIDE_M10);
    let narrow = refused_files([UNNAMED, UNNAMED]).map(|(_, file, number)| (file, number));
    let more = [
        (wide[..23].to_vec(), 1),
        (changed(&wide, &[(1, "42")]), 2),
        (changed(&wide, &[(11, "81")]), 4),
        (changed(&wide, &[(23, "01")]), 5),
        (changed(&wide, &[(TABLE + 6, "01")]), 6),
        (changed(&wide, &[(0x30, "3E")]), 7),
        (changed(&wide, &[(0x7F, "10")]), 8),
        (unnamed(65, 0).laid_out(2), 5),
    ];
    let edge = |(file, number): (Vec<u8>, u8)| {
        let calls = [(1, 0), (1, 65_536), (2, 0), (2, 65_536)].map(|(edition, room)| {
            let call = convert(&file, edition, room);
            let expected = Outcome { number, ..call.before() };
            (call, expected)
        });
        Edge { what: "a bad file", calls: calls.to_vec() }
    };
    narrow.into_iter().chain(more).map(edge).collect()
}

/// "rounds give equal answers on a file and its converted form": M10 and the file widened from it are named to the end by
/// the same steps, and narrowed again it is what the run left of M10.
fn run_on_the_converted_file(engine: &dyn Engine) {
    let names = vec![0x01, 0x02, 0x03];
    let (mut narrow, mut wide) = (hex(M10), hex(WIDE_M10));
    let mut run = Call::Start { names: names.clone() }.make(engine).run.expect("a lent run");
    let mut steps = 0;
    while run[0] == 0 {
        let step =
            |file: Vec<u8>| Call::Step { file, names: names.clone(), run, answer_length: 64 }.make(engine);
        let (on_narrow, on_wide) = (step(narrow), step(wide));
        assert_eq!((on_narrow.number, on_narrow.run), (0, on_wide.run));
        assert_eq!((on_narrow.senders, &on_narrow.buffer), (on_wide.senders, &on_wide.buffer));
        (narrow, wide) = (on_narrow.file.expect("a lent file"), on_wide.file.expect("a lent file"));
        run = on_narrow.run.expect("a lent run");
        steps += 1;
    }
    assert_eq!(steps, 275);
    becomes("the file that a run left, narrowed", &wide, &narrow).hold(engine);
    becomes("the file that a run left, widened", &narrow, &wide).hold(engine);
}
