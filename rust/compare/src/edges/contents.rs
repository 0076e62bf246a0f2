//! The edges of slaves' files that are read: each file of each slave, buffers around its size, slaves and files that are not
//! there, sleepers and the unnamed, and cluster files that are refused.

use super::files::{changed, hex, refused_files};
use super::Edge;
use crate::case::{Call, Outcome, FILL};
use crate::editions::{Parts, SlaveFile};
use crate::engine::Engine;

const EDITIONS: [u8; 2] = [1, 2];
/// The most slaves of each edition.
const MOST_SLAVES: [usize; 2] = [32, 64];

/// So many edges there are.
const EDGES: usize = 2 * (7 + 5 + 6) + 2 * 3 + 2 + 8 * 3 + 1;

pub fn hold(engine: &dyn Engine) {
    let groups =
        [EDITIONS.into_iter().flat_map(in_edition).collect(), of_most_slaves(), of_most_records(), refused()];
    super::hold_all(engine, groups, EDGES);
}

/// Two slaves: the first named 0x05 with files 0x02, 0x08 and 0x3D, the second asleep and unnamed with 0x08, 0x3D and 0x3F.
fn first() -> Vec<SlaveFile> {
    vec![
        (0x02, hex("E0E1E2E3 40011101")),
        (0x08, hex("A0A1A2A3 00000605 00000007 000000A0")),
        (0x3D, hex("D0D1D2D3 00000007 00000010")),
    ]
}

fn second() -> Vec<SlaveFile> {
    vec![
        (0x08, hex("B0B1B2B3 000006FF 00000000 00000001")),
        (0x3D, hex("C0C1C2C3 00000007 00000011")),
        (0x3F, hex("F0F1F2F3 F4F5F6F7 F8F9FAFB")),
    ]
}

fn two() -> Parts {
    Parts { state: [0x0C, 1, 0x05, 0x20, 0x01], slaves: vec![(0, first()), (1, second())] }
}

/// A file that is there, read into buffers of its size, of a byte less and more, of one byte and of none: the buffer has as
/// much of it as it has room for, and its further bytes stay.
fn reads(what: &'static str, file: &[u8], slave: u64, number: u8, bytes: &[u8]) -> Edge {
    let size = bytes.len();
    let calls = [0, 1, 4, size - 1, size, size + 1, size + 40].map(|room| {
        let call = Call::Contents { file: file.to_vec(), slave, number, buffer_length: room };
        let fits = size.min(room);
        let buffer = Some([&bytes[..fits], &vec![FILL; room - fits]].concat());
        let expected = Outcome { buffer, length: Some(size as u64), ..call.before() };
        (call, expected)
    });
    Edge { what, calls: calls.to_vec() }
}

/// Nothing there: 0 bytes are told, and every buffer stays.
fn reads_none(what: &'static str, file: &[u8], slave: u64, number: u8) -> Edge {
    let calls = [0, 1, 16].map(|room| {
        let call = Call::Contents { file: file.to_vec(), slave, number, buffer_length: room };
        let expected = Outcome { length: Some(0), ..call.before() };
        (call, expected)
    });
    Edge { what, calls: calls.to_vec() }
}

fn in_edition(edition: u8) -> Vec<Edge> {
    let file = two().laid_out(edition);
    let mut edges = vec![
        reads_none("a number that the second slave alone has", &file, 0, 0x3F),
        reads_none("a number that the first slave alone has", &file, 1, 0x02),
        reads_none("a number between those there", &file, 0, 0x09),
        reads_none("number 64, whose lower six bits are 0x00", &file, 0, 64),
        reads_none("number 66, whose lower six bits are 0x02", &file, 0, 66),
        reads_none("number 255", &file, 1, 255),
        reads_none("a slave with no number below", &file, 1, 0x00),
        reads_none("the slave behind the last", &file, 2, 0x08),
        reads_none("one further behind", &file, 3, 0x08),
        reads_none("the place 256, whose lower byte is 0", &file, 256, 0x08),
        reads_none("the place 2^32, whose lower half is 0", &file, 1 << 32, 0x08),
        reads_none("the greatest place", &file, u64::MAX, 0x08),
    ];
    for (slave, files) in [first(), second()].into_iter().enumerate() {
        let read = |(number, bytes): &SlaveFile| reads("each file", &file, slave as u64, *number, bytes);
        edges.extend(files.iter().map(read));
    }
    edges
}

/// The last slave of as many as an edition may have, the one behind it, and the first.
fn of_most_slaves() -> Vec<Edge> {
    let of = |(edition, slaves): (u8, usize)| {
        let name = |slave: usize| hex(&format!("D0D1D2D3 00000000 {slave:08X}"));
        let files = |slave| vec![(0x08, hex("00000000 000000FF 00000000 00000000")), (0x3D, name(slave))];
        let parts = Parts { state: [0; 5], slaves: (0..slaves).map(|slave| (0, files(slave))).collect() };
        let (file, last) = (parts.laid_out(edition), slaves - 1);
        vec![
            reads("the first of the most slaves", &file, 0, 0x3D, &name(0)),
            reads("the last of the most slaves", &file, last as u64, 0x3D, &name(last)),
            reads_none("behind the most slaves", &file, slaves as u64, 0x3D),
        ]
    };
    EDITIONS.into_iter().zip(MOST_SLAVES).flat_map(of).collect()
}

/// A file of 255 records and record 0x00, 1,024 bytes.
fn of_most_records() -> Vec<Edge> {
    let of = |edition| {
        let bytes: Vec<u8> = (0..1_024).map(|at| (at % 251) as u8).collect();
        let mut parts = two();
        parts.slaves[1].1[2].1.clone_from(&bytes);
        reads("a file of most records", &parts.laid_out(edition), 1, 0x3F, &bytes)
    };
    EDITIONS.map(of).to_vec()
}

/// By each ground of the cluster file, whether there is the slave and the file or not, and whatever the buffer; and a file
/// that loading refuses by 22 is read.
fn refused() -> Vec<Edge> {
    let asked = [(0, 0x08, 16), (1, 0x02, 0), (u64::MAX, 0xFF, 1)];
    let by_each = refused_files([0x05, 0x06]).into_iter().flat_map(|(what, file, number)| {
        asked.map(|(slave, of_slave, buffer_length)| {
            let call = Call::Contents { file: file.clone(), slave, number: of_slave, buffer_length };
            Edge::refused(what, call, number)
        })
    });
    let two = two().laid_out(1);
    // The unnamed slave's record 1 of 0x08 gets the first slave's name.
    let equal_names = changed(&two, &[(84 + 7, "05")]);
    let of_second = hex("B0B1B2B3 00000605 00000000 00000001");
    let edge = reads("two slaves of one logical name", &equal_names, 1, 0x08, &of_second);
    by_each.chain([edge]).collect()
}
