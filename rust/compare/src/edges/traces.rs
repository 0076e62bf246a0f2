//! The edges of a captured trace (document 02, request 2); of the long ones `uniform` writes the rows out.

use super::files::{changed, hex, Changes, PENDING};
use super::Edge;
use crate::case::{Call, Outcome};
use crate::engine::{Engine, ReportWords};
use crate::layout::EPOCH;

/// Case M10 of document 01: two unnamed slaves, epoch 0, nothing pending.
const M10: &[u8] = include_bytes!("../../../../crates/listing/stdin");
/// Where M10 keeps records 1 of 0x08 of its slaves, which end with the logical name, and records 2.
const NAME_RECORDS: [usize; 2] = [0x24, 0x48];
const VALUE_RECORDS: [usize; 2] = [0x28, 0x4C];

/// The frame M2 of document 01 with request 1 (write record 1 of 0x08 at 0xFF, epoch 0), and data for it: the new
/// logical name is 1, and in place of the 7 the slaves keep their logical name.
const M2: &str = "5500FF21018A";
const NEW_NAME_1: &str = "49000001074F";
/// What the header holds after M1 (execute record 2 of 0x08 at 0xFF, epoch 5), and after M2: flag, name, PB2, PB3.
const M1_PENDING: &str = "01FF2202";
const M2_PENDING: &str = "01FF2101";

/// "19, a trace whose header, offsets or length break this layout"
const BROKEN: u8 = 19;

/// So many edges there are.
const EDGES: usize = 84;

pub fn hold(engine: &dyn Engine) {
    let groups = [
        shortest(),
        longest(),
        too_long(),
        lengths(),
        offsets(),
        empty_frames(),
        counts(),
        refused_between(),
        states(),
        refused_files(),
    ];
    super::hold_all(engine, groups, EDGES);
}

/// M10 with other bytes in places.
fn m10_with(changes: Changes) -> Vec<u8> {
    changed(M10, changes)
}

/// A trace on M10 that breaks the layout.
fn broken(what: &'static str, trace: &str) -> Edge {
    refused(what, M10.to_vec(), hex(trace), BROKEN)
}

fn refused(what: &'static str, file: Vec<u8>, trace: Vec<u8>, number: u8) -> Edge {
    Edge::refused(what, Call::Trace { file, trace }, number)
}

/// A trace on M10 that is run: its counts and sum, and the bytes of the file that are then others.
fn run(what: &'static str, trace: &str, report: ReportWords, changes: Changes) -> Edge {
    run_on(what, &[], hex(trace), report, changes)
}

/// The same on M10 with other bytes before.
fn run_on(what: &'static str, before: Changes, trace: Vec<u8>, report: ReportWords, after: Changes) -> Edge {
    let call = Call::Trace { file: m10_with(before), trace };
    let expected = Outcome { file: Some(m10_with(after)), ..call.before() }.with_report(report);
    Edge::new(what, call, expected)
}

/// Header and nothing else, or less than it.
fn shortest() -> Vec<Edge> {
    vec![
        broken("no byte", ""),
        broken("three bytes", "000000"),
        run("four bytes: no frame and no data", "0000 0000", [0; 5], &[]),
        broken("no data after a data length", "0000 0001"),
        broken("no row after a frame count", "0001 0000"),
        broken("a byte after the header", "0000 0000 00"),
        broken("data and no frame", "0000 0001 49"),
        broken("65,535 frames announced, none there", "FFFF 0000"),
        broken("65,535 frames and bytes announced", "FFFF FFFF"),
        broken("65,535 frames announced, the first there", "FFFF 0000 0000 00"),
        // 4 + 3 * 21,846 = 65,542 is 6 in sixteen bits.
        broken("21,846 frames announced, six bytes there", "5556 0000 0000"),
    ]
}

/// Frames of these lengths, of one byte value, the rows written out one by one.
fn uniform(lengths: &[usize], byte: u8) -> Vec<u8> {
    let data: usize = lengths.iter().sum();
    let mut trace = vec![(lengths.len() / 256) as u8, (lengths.len() % 256) as u8];
    trace.extend([(data / 256) as u8, (data % 256) as u8]);
    let mut place = 0;
    for &length in lengths {
        trace.extend([(place / 256) as u8, (place % 256) as u8, length as u8]);
        place += length;
    }
    trace.extend(vec![byte; data]);
    trace
}

/// The trace, which has so many bytes.
fn of_length(bytes: usize, trace: Vec<u8>) -> Vec<u8> {
    assert_eq!(trace.len(), bytes);
    trace
}

/// These lengths and one more.
fn with_last(mut lengths: Vec<usize>, last: usize) -> Vec<usize> {
    lengths.push(last);
    lengths
}

/// "the whole at most 16,384 bytes"
fn longest() -> Vec<Edge> {
    let long = |what, trace, report, changes| run_on(what, &[], of_length(16_384, trace), report, changes);
    vec![
        // 4 + 3 * 4,095 + 4,095 bytes; 4,095 = 15 * 256 + 255 rounds raise the epoch to 255.
        long(
            "16,384 bytes, a round each",
            uniform(&[1; 4_095], 0xBA),
            [0, 0, 4_095, 0, 4_095],
            &[(EPOCH, "FF")],
        ),
        // 63 rows and frames of 258 bytes, then one of 126; a multipartner frame has 1 byte (11).
        long(
            "16,384 bytes of long frames",
            uniform(&with_last(vec![255; 63], 123), 0xBA),
            [0, 0, 0, 64, 64],
            &[],
        ),
        // 5,460 rows of 3 bytes: no trace has more frames.
        long(
            "16,384 bytes of rows, every frame empty",
            uniform(&[0; 5_460], 0xBA),
            [0, 0, 0, 5_460, 5_460],
            &[],
        ),
    ]
}

/// Of the first four only the length is wrong; the fifth also has a byte after its data; the last is not too long, but
/// has fewer bytes than its header says.
fn too_long() -> Vec<Edge> {
    let refused = |what, trace, bytes| refused(what, M10.to_vec(), of_length(bytes, trace), BROKEN);
    let mut trailing = uniform(&[1; 4_095], 0xBA);
    trailing.push(0xBA);
    let mut announced = vec![0xFF, 0xFF, 0x00, 0x00];
    announced.resize(16_384, 0);
    vec![
        refused(
            "16,385 bytes, the last frame one longer",
            uniform(&with_last(vec![1; 4_094], 2), 0xBA),
            16_385,
        ),
        refused("16,385 bytes of long frames", uniform(&with_last(vec![255; 63], 124), 0xBA), 16_385),
        refused("16,387 bytes of rows", uniform(&[0; 5_461], 0xBA), 16_387),
        refused("65,535 frames announced and there, each empty", uniform(&[0; 65_535], 0xBA), 196_609),
        refused("16,385 bytes, one after the data", trailing, 16_385),
        refused("65,535 frames announced, zeros up to 16,384 bytes", announced, 16_384),
    ]
}

/// 257 rows of length 255 and one of length 1, each with the offset that the lengths before it give, and no data: the
/// lengths add up to 65,536, which is the data length 0 in sixteen bits.
fn lengths_of_65536() -> Vec<u8> {
    let lengths = with_last(vec![255; 257], 1);
    let mut trace = uniform(&lengths, 0xBA);
    trace.truncate(4 + 3 * lengths.len());
    trace[2..4].fill(0);
    trace
}

/// M1 and its data frame: the epoch becomes 5 and then 6. Then the same with a length altered.
fn lengths() -> Vec<Edge> {
    let whole = run(
        "an address frame and its data frame",
        "0002 0007  0000 06  0006 01  5505FF22028F 49",
        [1, 1, 0, 0, 2],
        &[(EPOCH, "06"), (PENDING, M1_PENDING)],
    );
    vec![
        whole,
        run(
            "an address frame alone",
            "0001 0006  0000 06  5505FF22028F",
            [1, 0, 0, 0, 1],
            &[(EPOCH, "05"), (PENDING, M1_PENDING)],
        ),
        refused("lengths that add up to 65,536", M10.to_vec(), of_length(778, lengths_of_65536()), BROKEN),
        broken("the data one byte short", "0002 0007  0000 06  0006 01  5505FF22028F"),
        broken("the data one byte long", "0002 0007  0000 06  0006 01  5505FF22028F 49 49"),
        broken("one byte short, as the header says", "0002 0006  0000 06  0006 01  5505FF22028F"),
        broken("one byte long, as the header says", "0002 0008  0000 06  0006 01  5505FF22028F 49 49"),
        broken("the data length one less", "0002 0006  0000 06  0006 01  5505FF22028F 49"),
        broken("the data length one more", "0002 0008  0000 06  0006 01  5505FF22028F 49"),
        broken("the frame count one less", "0001 0007  0000 06  0006 01  5505FF22028F 49"),
        broken("the frame count one more", "0003 0007  0000 06  0006 01  5505FF22028F 49"),
        broken("the last frame one longer than the data", "0002 0007  0000 06  0006 02  5505FF22028F 49"),
        broken("the last frame one shorter than the data", "0002 0007  0000 06  0006 00  5505FF22028F 49"),
    ]
}

/// "filled by the frames in order without gap"
fn offsets() -> Vec<Edge> {
    vec![
        broken("the last offset one more", "0002 0007  0000 06  0007 01  5505FF22028F 49"),
        broken("the last offset one less", "0002 0007  0000 06  0005 01  5505FF22028F 49"),
        broken("the first offset one more", "0002 0007  0001 06  0006 01  5505FF22028F 49"),
        broken("the last offset 256 more", "0002 0007  0000 06  0106 01  5505FF22028F 49"),
        broken(
            "the last offset counted from the trace's begin",
            "0002 0007  0000 06  0010 01  5505FF22028F 49",
        ),
        broken("overlapping rows that end with the data", "0002 0007  0000 06  0005 02  5505FF22028F 49"),
        broken("one row twice", "0002 0002  0000 01  0000 01  49 BA"),
        broken("a row that covers the one before", "0002 0007  0000 06  0000 07  5505FF22028F 49"),
        broken("exchanged rows", "0002 0007  0006 01  0000 06  5505FF22028F 49"),
        broken("exchanged rows of equal length", "0002 0002  0001 01  0000 01  49 BA"),
        broken("a gap between the frames", "0002 0007  0000 05  0006 01  5505FF22028F 49"),
        broken("a gap before the frames", "0001 0002  0001 01  49 BA"),
    ]
}

/// A frame of no byte is a frame, refused by 10.
fn empty_frames() -> Vec<Edge> {
    vec![
        run("an empty frame alone", "0001 0000  0000 00", [0, 0, 0, 1, 1], &[]),
        run("an empty frame first", "0002 0001  0000 00  0000 01  49", [0, 1, 0, 1, 2], &[(EPOCH, "01")]),
        run("an empty frame last", "0002 0001  0000 01  0001 00  49", [0, 1, 0, 1, 2], &[(EPOCH, "01")]),
        run(
            "two empty frames in the middle",
            "0004 0002  0000 01  0001 00  0001 00  0001 01  49 BA",
            [0, 1, 1, 2, 4],
            &[(EPOCH, "02")],
        ),
        broken("the offset of an empty last frame one less", "0002 0001  0000 01  0000 00  49"),
        broken("the offset of an empty last frame one more", "0002 0001  0000 01  0002 00  49"),
        broken("the offset of an empty frame alone", "0001 0000  0001 00"),
    ]
}

/// "a refused frame counting as refused only"
fn counts() -> Vec<Edge> {
    vec![
        run(
            "every multipartner round",
            "0006 0006  0000 01  0001 01  0002 01  0003 01  0004 01  0005 01  78 BA 8B 64 A6 97",
            [0, 0, 6, 0, 6],
            &[(EPOCH, "06")],
        ),
        run(
            "an MSD of one byte with nothing pending",
            "0001 0001  0000 01  49",
            [0, 1, 0, 0, 1],
            &[(EPOCH, "01")],
        ),
        run(
            "an MSD of six bytes with nothing pending",
            "0001 0006  0000 06  49000001074F",
            [0, 0, 0, 1, 1],
            &[],
        ),
        run(
            "an address frame with a wrong check byte",
            "0001 0006  0000 06  5505FF22028E",
            [0, 0, 0, 1, 1],
            &[],
        ),
        run("an address frame of operation 3", "0001 0006  0000 06  5505FF23028E", [0, 0, 0, 1, 1], &[]),
        run("a read at 0x00", "0001 0006  0000 06  550500F401A5", [0, 0, 0, 1, 1], &[]),
        run("no firework", "0001 0001  0000 01  48", [0, 0, 0, 1, 1], &[]),
        run("a multipartner frame of two bytes", "0001 0002  0000 02  BA BA", [0, 0, 0, 1, 1], &[]),
    ]
}

/// After M2 and its data, from epoch 0 on.
const BOTH_WRITTEN: Changes =
    &[(EPOCH, "01"), (PENDING, M2_PENDING), (NAME_RECORDS[0], "000001FF"), (NAME_RECORDS[1], "000001FF")];

/// A trace of one frame.
fn one(frame: &str) -> String {
    let length = frame.len() / 2;
    format!("0001 {length:04X}  0000 {length:02X}  {frame}")
}

/// M2 and two other frames of six bytes.
fn m2_and(second: &str, third: &str) -> String {
    format!("0003 0012  0000 06  0006 06  000C 06  {M2} {second} {third}")
}

/// A refused frame is neither MSA nor MSD to those around it.
fn refused_between() -> Vec<Edge> {
    let written = |what, trace: &str| run(what, trace, [1, 1, 0, 1, 3], BOTH_WRITTEN);
    vec![
        written("refused data between MSA and MSD", &m2_and("49000001074E", NEW_NAME_1)),
        written("a refused address frame between MSA and MSD", &m2_and("5505FF22028E", NEW_NAME_1)),
        written(
            "an MSD of one byte between MSA and the data of the write",
            &format!("0003 000D  0000 06  0006 01  0007 06  {M2} 49 {NEW_NAME_1}"),
        ),
    ]
}

/// "The end state is that of the frames sent singly in order."
fn states() -> Vec<Edge> {
    // The first slave's new name 7 and comparison value, which is its physical name.
    let new_name_7: Changes = &[(NAME_RECORDS[0], "000007FF"), (VALUE_RECORDS[0], "0000000700000010")];
    vec![
        run("an address frame alone stays pending", &one(M2), [1, 0, 0, 0, 1], &[(PENDING, M2_PENDING)]),
        run_on(
            "data for an earlier trace's write",
            &[(PENDING, M2_PENDING)],
            hex(&one(NEW_NAME_1)),
            [0, 1, 0, 0, 1],
            BOTH_WRITTEN,
        ),
        // The second MSD finds both still unnamed, and writes again.
        run(
            "two data frames for one write",
            &m2_and(NEW_NAME_1, "490000020843"),
            [1, 2, 0, 0, 3],
            &[
                (EPOCH, "02"),
                (PENDING, M2_PENDING),
                (NAME_RECORDS[0], "000002FF"),
                (NAME_RECORDS[1], "000002FF"),
            ],
        ),
        // Execute record 1 of 0x08 at 0xFF names the first slave; write record 2 at 7, epoch 3, reaches it alone.
        run_on(
            "a later frame meets the name that an earlier one gave",
            new_name_7,
            hex("0004 0013  0000 06  0006 01  0007 06  000D 06  5505FF22018C 49 550307210272 49DEADBEEF6B"),
            [2, 2, 0, 0, 4],
            &[
                (EPOCH, "04"),
                (PENDING, "01072102"),
                (NAME_RECORDS[0], "00000707"),
                (VALUE_RECORDS[0], "DEADBEEF00000010"),
            ],
        ),
        run_on("the epoch after 255", &[(EPOCH, "FF")], hex(&one("BA")), [0, 0, 1, 0, 1], &[(EPOCH, "00")]),
    ]
}

/// A file that each of 1 to 8 refuses, with a good trace and with one of three bytes: the file's number comes first.
fn refused_files() -> Vec<Edge> {
    let files = [
        (1, M10[..15].to_vec()),
        (2, m10_with(&[(0, "55")])),
        (3, m10_with(&[(2, "03")])),
        (4, m10_with(&[(7, "61")])),
        (5, m10_with(&[(13, "01")])),
        (6, m10_with(&[(0x13, "02")])),
        (7, m10_with(&[(0x1C, "3E")])),
        (8, m10_with(&[(0x5F, "10")])),
    ];
    let traces = [("a bad file", "0001 0001  0000 01  BA"), ("a bad trace on a bad file", "000000")];
    let edge = |(what, trace), (number, file): &(u8, Vec<u8>)| refused(what, file.clone(), hex(trace), *number);
    traces.into_iter().flat_map(|trace| files.iter().map(move |file| edge(trace, file))).collect()
}
