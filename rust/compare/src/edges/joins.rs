//! The edges of joins (document 02, request 13): whose names meet, what is dropped and what stays, the limits of slaves, bytes
//! and buffer, the order of the grounds, and naming on a joined file.

use super::files::{changed, hex, least_files, of_length, refused_files, unnamed, UNNAMED};
use super::Edge;
use crate::case::{Call, Outcome, FILL};
use crate::editions::Parts;
use crate::engine::Engine;

/// "29, a physical name in both files; 30, the joined file exceeds the edition's limits or the buffer"
const SHARED_PHYSICAL_NAME: u8 = 29;
const JOINED_LIMITS: u8 = 30;
/// The most bytes that a file has, and so room enough for every join.
const ROOM: usize = 65_536;
const EDITIONS: [u8; 2] = [1, 2];

/// So many edges there are, runs and calls on the same memory aside.
const EDGES: usize = 1_155;

pub fn hold(engine: &dyn Engine) {
    let groups = [
        written_out(),
        without_slaves(),
        names_that_meet(),
        every_name(),
        dropped(),
        other_bytes(),
        most_slaves(),
        most_bytes(),
        shared(),
        shared_before_limits(),
        nearly_shared(),
        refused(),
    ];
    super::hold_all(engine, groups, EDGES);
    with_the_same_memory(engine);
    named_after_a_join(engine);
}

/// Two files whose join is this one: in a buffer of just its length and in longer ones, whose further bytes stay; refused by
/// 30 in one that is a byte shorter, and in none.
fn becomes(what: &'static str, first: &[u8], second: &[u8], joined: &[u8]) -> Edge {
    let needed = joined.len();
    let call = |room| Call::Join { first: first.to_vec(), second: second.to_vec(), buffer_length: room };
    let carried_out = [needed, needed + 1, needed + 40].map(|room| {
        let call = call(room);
        let buffer = Some([joined, &vec![FILL; room - needed]].concat());
        let expected = Outcome { buffer, length: Some(needed as u64), ..call.before() };
        (call, expected)
    });
    let refused = [needed - 1, 0].map(|room| {
        let call = call(room);
        let expected = Outcome { number: JOINED_LIMITS, ..call.before() };
        (call, expected)
    });
    Edge { what, calls: [carried_out.to_vec(), refused.to_vec()].concat() }
}

/// The same in every pair of editions, the joined file having that of the first.
fn becomes_in_each(what: &'static str, first: &Parts, second: &Parts, joined: &Parts) -> Vec<Edge> {
    let pairs = EDITIONS.into_iter().flat_map(|edition| EDITIONS.map(|other| (edition, other)));
    let edge = |(edition, other)| {
        let (first, second) = (first.laid_out(edition), second.laid_out(other));
        becomes(what, &first, &second, &joined.laid_out(edition))
    };
    pairs.map(edge).collect()
}

/// Refused by this number, with no buffer and with more than enough.
fn refused_by(what: &'static str, first: &[u8], second: &[u8], number: u8) -> Edge {
    let calls = [0, ROOM].map(|buffer_length| {
        let call = Call::Join { first: first.to_vec(), second: second.to_vec(), buffer_length };
        let expected = Outcome { number, ..call.before() };
        (call, expected)
    });
    Edge { what, calls: calls.to_vec() }
}

/// Slaves by the last byte of their physical name and by their logical name: epoch 0, nothing pending, all awake.
fn segment(slaves: &[(usize, u8)]) -> Parts {
    let slaves = slaves.iter().map(|&(physical, logical)| (0, least_files(physical, logical, 0)));
    Parts { state: [0; 5], slaves: slaves.collect() }
}

/// Slaves of these logical names, the physical names counted from the first one given.
fn named_from(first: usize, names: &[u8]) -> Parts {
    let slaves: Vec<(usize, u8)> = (first..).zip(names.iter().copied()).collect();
    segment(&slaves)
}

/// The first so many slaves and the others.
fn cut(parts: &Parts, at: usize) -> (Parts, Parts) {
    let (first, second) = parts.slaves.split_at(at);
    let of = |slaves: &[_]| Parts { state: parts.state, slaves: slaves.to_vec() };
    (of(first), of(second))
}

/// A slave of each edition named 0x05: epoch 9 and a write pending in the first, free bytes and a sleeper in the second.
const NARROW: &str = "54410101 0010 0038 09 01054101 000000
    0014 02 00
    08 03 001C 3D 02 002C
    01020304 05060705 08090A0B 0C0D0E0F 10111213 00000007 00000010";
const WIDE: &str = "54410201 00000018 0000004C FF 00030405 00000000000000
    00000020 02 01 0000
    08 03 0000 00000030 3D 02 0000 00000040
    21222324 25262705 28292A2B 2C2D2E2F 30313233 00000007 000000A0";
const NARROW_THEN_WIDE: &str = "54410102 0010 0060 00 00000000 000000
    0018 02 00 003C 02 00
    08 03 0020 3D 02 0030
    01020304 05060705 08090A0B 0C0D0E0F 10111213 00000007 00000010
    08 03 0044 3D 02 0054
    21222324 252627FF 28292A2B 2C2D2E2F 30313233 00000007 000000A0";
const WIDE_THEN_NARROW: &str = "54410202 00000018 00000080 00 00000000 00000000000000
    00000028 02 00 0000 00000054 02 00 0000
    08 03 0000 00000038 3D 02 0000 00000048
    21222324 25262705 28292A2B 2C2D2E2F 30313233 00000007 000000A0
    08 03 0000 00000064 3D 02 0000 00000074
    01020304 050607FF 08090A0B 0C0D0E0F 10111213 00000007 00000010";

fn written_out() -> Vec<Edge> {
    vec![
        becomes("edition 1 and edition 2", &hex(NARROW), &hex(WIDE), &hex(NARROW_THEN_WIDE)),
        becomes("edition 2 and edition 1", &hex(WIDE), &hex(NARROW), &hex(WIDE_THEN_NARROW)),
    ]
}

fn without_slaves() -> Vec<Edge> {
    let nobody = segment(&[]);
    let waiting = Parts { state: [9, 1, 0x05, 0x21, 1], ..nobody.clone() };
    let two = named_from(0, &[0x05, 0x05]);
    [
        becomes_in_each("no slaves in either", &nobody, &nobody, &nobody),
        becomes_in_each("no slaves, an operation pending in each", &waiting, &waiting, &nobody),
        becomes_in_each("no slaves in the first", &waiting, &two, &two),
        becomes_in_each("no slaves in the second", &two, &waiting, &two),
    ]
    .concat()
}

/// Names of the first, names of the second, and what becomes of these.
type Meeting = (&'static str, &'static [u8], &'static [u8], &'static [u8]);

const MEETINGS: [Meeting; 18] = [
    ("one name", &[0x05], &[0x05], &[UNNAMED]),
    ("two names", &[0x05], &[0x06], &[0x06]),
    ("both unnamed", &[UNNAMED], &[UNNAMED], &[UNNAMED]),
    ("the first unnamed", &[UNNAMED], &[0x05], &[0x05]),
    ("the second unnamed", &[0x05], &[UNNAMED], &[UNNAMED]),
    ("0x00 in both", &[0x00], &[0x00], &[UNNAMED]),
    ("0x00 in the first", &[0x00], &[0x05], &[0x05]),
    ("0x00 in the second", &[0x05], &[0x00], &[0x00]),
    ("0x00 twice in the second", &[0x05], &[0x00, 0x00], &[0x00, 0x00]),
    ("0x00 in the first, twice in the second", &[0x00], &[0x00, 0x00], &[UNNAMED, UNNAMED]),
    ("names in another order", &[1, 2, 3], &[3, 2, 4, 1], &[UNNAMED, UNNAMED, 4, UNNAMED]),
    ("a name twice in the first", &[5, 5], &[6, 5], &[6, UNNAMED]),
    ("a name twice in the second", &[5], &[6, 6], &[6, 6]),
    ("a name twice in the second, held", &[6], &[6, 5, 6], &[UNNAMED, 5, UNNAMED]),
    ("names twice in both", &[5, 5], &[6, 6, 5, 5], &[6, 6, UNNAMED, UNNAMED]),
    ("the last of the first holds it", &[1, 2, 3, 4, 5], &[5], &[UNNAMED]),
    ("the last of the second has it", &[5], &[1, 2, 3, 4, 5], &[1, 2, 3, 4, UNNAMED]),
    // 0xFF of the first makes nobody of the second other than it was.
    ("unnamed in the first and one name", &[UNNAMED, 5], &[5, UNNAMED, 7], &[UNNAMED, UNNAMED, 7]),
];

fn names_that_meet() -> Vec<Edge> {
    let edges = |(what, first, second, after): Meeting| {
        let joined = named_from(0, &[first, after].concat());
        becomes_in_each(what, &named_from(0, first), &named_from(first.len(), second), &joined)
    };
    MEETINGS.into_iter().flat_map(edges).collect()
}

/// Each name in both files, where it is turned, and beside its neighbours, where it stays.
fn every_name() -> Vec<Edge> {
    let edges = (0x00..=0xFF).flat_map(|name: u8| {
        let others = [name.wrapping_sub(1), name.wrapping_add(1), name ^ 0x40, name ^ 0x80];
        let join = |what, held: &[u8], after| {
            let (first, second) =
                (named_from(0, held).laid_out(1), named_from(held.len(), &[name]).laid_out(1));
            becomes(what, &first, &second, &named_from(0, &[held, &[after]].concat()).laid_out(1))
        };
        [join("a name held", &[name], UNNAMED), join("a name not held", &others, name)]
    });
    edges.collect()
}

/// Epoch, flag, pending bytes and sleep; a sleeper holds its name all the same.
fn dropped() -> Vec<Edge> {
    let with = |mut parts: Parts, state: [u8; 5], asleep: [u8; 3]| {
        parts.state = state;
        parts.slaves.iter_mut().zip(asleep).for_each(|(slave, asleep)| slave.0 = asleep);
        parts
    };
    let (first, second) = (named_from(0, &[5, 6, 7]), named_from(3, &[8, 6]));
    let joined = named_from(0, &[5, 6, 7, 8, UNNAMED]);
    let (still, awake) = ([0; 5], [0; 3]);
    let cases = [
        ("an epoch in the first", [255, 0, 0, 0, 0], still, awake, awake),
        ("an epoch in the second", still, [255, 0, 0, 0, 0], awake, awake),
        ("a write pending in the first", [7, 1, 0x05, 0x21, 0x01], still, awake, awake),
        ("a write pending in the second", still, [7, 1, 0x05, 0x21, 0x01], awake, awake),
        ("a read pending in each", [1, 1, 0x05, 0xF4, 0x02], [2, 1, 0x06, 0xF4, 0x01], awake, awake),
        ("free bytes in the first", [0, 0, 0x00, 0xFF, 0xEE], still, awake, awake),
        ("free bytes in the second", still, [0, 0, 0x03, 0xFF, 0xEE], awake, awake),
        ("the first slave asleep", still, still, [1, 0, 0], awake),
        ("the holder asleep", still, still, [0, 1, 0], awake),
        ("the last of the first asleep", still, still, [0, 0, 1], awake),
        ("one of the second asleep", still, still, awake, [1, 0, 0]),
        ("the one that is turned asleep", still, still, awake, [0, 1, 0]),
        ("all asleep, all bytes set", [1, 0, 3, 0, 4], [255, 1, 0xFF, 0x22, 4], [1; 3], [1; 3]),
    ];
    let edges = |(what, state, other, asleep, also)| {
        let first = with(first.clone(), state, asleep);
        becomes_in_each(what, &first, &with(second.clone(), other, also), &joined)
    };
    cases.into_iter().flat_map(edges).collect()
}

/// The slave's files with byte 3 of record 1 of 0x08 another, every other byte of every record staying.
fn other_bytes() -> Vec<Edge> {
    let filled = |physical: u8, name: u8, others: usize, records: usize| {
        let mut files = least_files(usize::from(physical), name, others);
        let mut byte = physical;
        for (number, content) in &mut files {
            content.resize(content.len().max(4 * (records + 1)), 0);
            // The physical and the logical name keep their bytes.
            let kept = if *number == 0x3D { 4..12 } else { 7..8 };
            for (place, content) in content.iter_mut().enumerate() {
                byte = byte.wrapping_mul(5).wrapping_add(17);
                if ![0x08, 0x3D].contains(number) || !kept.contains(&place) {
                    *content = byte;
                }
            }
        }
        (0, files)
    };
    let of = |slaves: Vec<_>| Parts { state: [0; 5], slaves };
    let join = |what, others, records| {
        let first = vec![filled(1, 0x05, others, records), filled(2, UNNAMED, 0, 4)];
        let second =
            |name| vec![filled(3, 0x06, 1, 3), filled(4, name, others, records), filled(5, 0x07, 0, 3)];
        let joined = [first.clone(), second(UNNAMED)].concat();
        becomes_in_each(what, &of(first), &of(second(0x05)), &of(joined))
    };
    [
        join("two files each", 0, 3),
        join("files before 0x08", 8, 3),
        join("files on both sides of 0x08 and of 0x3D", 62, 3),
        join("files of 24 records", 40, 24),
        join("files of 255 records", 4, 255),
    ]
    .concat()
}

/// So many slaves of which the first file has the first ones, in these editions; all fit where the first's edition has them.
fn of_slaves(what: &'static str, slaves: usize, at: usize, editions: [u8; 2]) -> Edge {
    let all = unnamed(slaves, 0);
    let (first, second) = cut(&all, at);
    let (first, second) = (first.laid_out(editions[0]), second.laid_out(editions[1]));
    let most = if editions[0] == 1 { 32 } else { 64 };
    if slaves > most {
        refused_by(what, &first, &second, JOINED_LIMITS)
    } else {
        becomes(what, &first, &second, &all.laid_out(editions[0]))
    }
}

fn most_slaves() -> Vec<Edge> {
    vec![
        of_slaves("32 and 0", 32, 32, [1, 1]),
        of_slaves("32 and 0 of edition 2", 32, 32, [1, 2]),
        of_slaves("0 and 32", 32, 0, [1, 1]),
        of_slaves("16 and 16", 32, 16, [1, 1]),
        of_slaves("16 and 16 of edition 2", 32, 16, [1, 2]),
        of_slaves("31 and 1", 32, 31, [1, 1]),
        of_slaves("1 and 31", 32, 1, [1, 1]),
        of_slaves("32 and 1", 33, 32, [1, 1]),
        of_slaves("32 and 1 of edition 2", 33, 32, [1, 2]),
        of_slaves("1 and 32", 33, 1, [1, 1]),
        of_slaves("16 and 17", 33, 16, [1, 1]),
        of_slaves("0 and 33 of edition 2", 33, 0, [1, 2]),
        of_slaves("32 and 32 in edition 1", 64, 32, [1, 1]),
        of_slaves("0 and 64 of edition 2 in edition 1", 64, 0, [1, 2]),
        of_slaves("32 of edition 2 and 1", 33, 32, [2, 1]),
        of_slaves("32 of edition 2 and 32", 64, 32, [2, 1]),
        of_slaves("32 and 32", 64, 32, [2, 2]),
        of_slaves("64 and 0", 64, 64, [2, 2]),
        of_slaves("64 and 0 of edition 1", 64, 64, [2, 1]),
        of_slaves("0 and 64", 64, 0, [2, 2]),
        of_slaves("63 and 1", 64, 63, [2, 2]),
        of_slaves("1 and 63", 64, 1, [2, 2]),
        of_slaves("64 and 1", 65, 64, [2, 2]),
        of_slaves("64 and 1 of edition 1", 65, 64, [2, 1]),
        of_slaves("1 and 64", 65, 1, [2, 2]),
        of_slaves("33 and 32 of edition 1", 65, 33, [2, 1]),
        of_slaves("64 and 64", 128, 64, [2, 2]),
    ]
}

/// Slaves whose join has so many bytes in the first one's edition; which of the two files is long goes by where they are cut.
fn of_bytes(what: &'static str, all: Parts, length: usize, at: usize, editions: [u8; 2]) -> Edge {
    let all = of_length(all, editions[0], length);
    let (first, second) = cut(&all, at);
    let (first, second) = (first.laid_out(editions[0]), second.laid_out(editions[1]));
    let most = if editions[0] == 1 { 32_768 } else { 65_536 };
    if length > most {
        refused_by(what, &first, &second, JOINED_LIMITS)
    } else {
        becomes(what, &first, &second, &all.laid_out(editions[0]))
    }
}

fn most_bytes() -> Vec<Edge> {
    let few = || unnamed(2, 62);
    let many = || unnamed(32, 20);
    let most = || unnamed(64, 2);
    let mut edges = vec![
        of_bytes("32,764 bytes", few(), 32_764, 1, [1, 1]),
        of_bytes("32 slaves, 32,768 bytes", many(), 32_768, 16, [1, 1]),
        of_bytes("32 slaves, 32,772 bytes", many(), 32_772, 16, [1, 1]),
        of_bytes("32 slaves, 32,768 bytes, the second of edition 2", many(), 32_768, 16, [1, 2]),
        of_bytes("32,768 bytes in the first", few(), 32_768, 2, [1, 1]),
        of_bytes("32,768 bytes in the second", few(), 32_768, 0, [1, 1]),
        of_bytes("32,768 bytes in the second, wider in edition 2", few(), 32_768, 0, [1, 2]),
        of_bytes("65,532 bytes", few(), 65_532, 1, [2, 2]),
        of_bytes("64 slaves, 65,536 bytes", most(), 65_536, 32, [2, 2]),
        of_bytes("64 slaves, 65,540 bytes", most(), 65_540, 32, [2, 2]),
        of_bytes("65,536 bytes in the first", few(), 65_536, 2, [2, 2]),
        of_bytes("65,536 bytes in the second", few(), 65_536, 0, [2, 2]),
    ];
    for (editions, exact, beyond) in
        [([1, 1], 32_768, 32_772), ([1, 2], 32_768, 32_772), ([2, 1], 65_536, 65_540), ([2, 2], 65_536, 65_540)]
    {
        // The first slaves are lengthened first, so that a second file of edition 1 stays short.
        let at = 2;
        edges.push(of_bytes("just as many bytes", unnamed(4, 40), exact, at, editions));
        edges.push(of_bytes("four bytes more", unnamed(4, 40), beyond, at, editions));
    }
    edges
}

/// The same physical name at these places of two files of so many slaves each, and nowhere else.
fn sharing(what: &'static str, slaves: usize, at: [usize; 2], editions: [u8; 2]) -> Edge {
    let (first, mut second) = cut(&unnamed(2 * slaves, 0), slaves);
    second.slaves[at[1]].1 = first.slaves[at[0]].1.clone();
    refused_by(what, &first.laid_out(editions[0]), &second.laid_out(editions[1]), SHARED_PHYSICAL_NAME)
}

fn shared() -> Vec<Edge> {
    let mut edges = vec![
        sharing("one slave each", 1, [0, 0], [1, 1]),
        sharing("the last slaves of 32 and 32", 32, [31, 31], [2, 2]),
        sharing("the last slaves of 16 and 16", 16, [15, 15], [1, 1]),
        sharing("the last slaves of 16 and 16, edition 1 and 2", 16, [15, 15], [1, 2]),
        sharing("the last slaves of 16 and 16, edition 2 and 1", 16, [15, 15], [2, 1]),
        sharing("the first slaves of 16 and 16", 16, [0, 0], [1, 1]),
        sharing("the first and the last", 16, [0, 15], [1, 1]),
        sharing("the last and the first", 16, [15, 0], [1, 1]),
        sharing("slaves in the middle", 16, [7, 9], [1, 1]),
    ];
    edges.extend((0..16).map(|place| sharing("each place of the first", 16, [place, 15 - place], [1, 1])));
    // Logical names that differ tell no physical names apart, and sleep does not either.
    let (first, mut second) = (named_from(0, &[5]), named_from(0, &[6]));
    second.slaves[0].0 = 1;
    edges.push(refused_by(
        "other logical names",
        &first.laid_out(1),
        &second.laid_out(1),
        SHARED_PHYSICAL_NAME,
    ));
    edges
}

/// 29 comes before 30 for slaves, for bytes and, as in `shared`, for the buffer.
fn shared_before_limits() -> Vec<Edge> {
    let (first, mut second) = cut(&of_length(unnamed(32, 20), 1, 32_772), 16);
    let documentation = |files: &[(u8, Vec<u8>)]| files.iter().position(|file| file.0 == 0x3D).expect("0x3D");
    let (from, to) = (documentation(&first.slaves[0].1), documentation(&second.slaves[15].1));
    let name = first.slaves[0].1[from].1[4..12].to_vec();
    second.slaves[15].1[to].1[4..12].copy_from_slice(&name);
    vec![
        sharing("32 and 32 slaves of edition 1", 32, [31, 31], [1, 1]),
        sharing("64 and 64 slaves of edition 2", 64, [63, 63], [2, 2]),
        refused_by("32,772 bytes", &first.laid_out(1), &second.laid_out(1), SHARED_PHYSICAL_NAME),
    ]
}

/// Physical names that differ in one bit are two names, wherever the bit is.
fn nearly_shared() -> Vec<Edge> {
    let edge = |bit: usize| {
        let mut all = unnamed(2, 0);
        let name = all.slaves[0].1[1].1[4..12].to_vec();
        let other = &mut all.slaves[1].1[1].1;
        other[4..12].copy_from_slice(&name);
        other[4 + bit / 8] ^= 0x80 >> (bit % 8);
        let (first, second) = cut(&all, 1);
        becomes("names that differ in a bit", &first.laid_out(1), &second.laid_out(2), &all.laid_out(1))
    };
    (0..64).map(edge).chain([alike()]).collect()
}

/// 32 and 32 names that are equal modulo 256, by which a search may tell names apart at first sight, and not equal.
fn alike() -> Edge {
    let mut all = unnamed(64, 0);
    for (slave, place) in all.slaves.iter_mut().zip(1u32..) {
        slave.1[1].1[8..12].copy_from_slice(&(256 * place * place).to_be_bytes());
    }
    let (first, second) = cut(&all, 32);
    becomes("names alike and not equal", &first.laid_out(2), &second.laid_out(2), &all.laid_out(2))
}

/// Files that 1 to 8 turn away: the first one's number, then the second's, then 29 and 30.
fn refused() -> Vec<Edge> {
    let bad = refused_files([UNNAMED, UNNAMED]).map(|(_, file, number)| (file, number));
    let wide = hex(WIDE);
    let more = [
        (Vec::new(), 1),
        (wide[..23].to_vec(), 1),
        (changed(&wide, &[(2, "00")]), 3),
        (changed(&wide, &[(11, "4D")]), 4),
        (changed(&wide, &[(23, "01")]), 5),
        (changed(&wide, &[(24 + 5, "02")]), 6),
        (changed(&wide, &[(0x28, "3E")]), 7),
        (unnamed(33, 0).laid_out(1), 5),
        (unnamed(65, 0).laid_out(2), 5),
    ];
    let bad: Vec<(Vec<u8>, u8)> = bad.into_iter().chain(more).collect();
    let good = hex(NARROW);
    let mut edges: Vec<Edge> = Vec::new();
    for (file, number) in &bad {
        edges.push(refused_by("a bad first file", file, &good, *number));
        edges.push(refused_by("a bad second file", &good, file, *number));
        // A full first file does not come before the second's number.
        edges.push(refused_by(
            "a bad second file beside 64 slaves",
            &unnamed(64, 0).laid_out(2),
            file,
            *number,
        ));
        edges.extend(bad.iter().map(|(other, _)| refused_by("two bad files", file, other, *number)));
    }
    edges
}

/// "The two files may be one and the same memory": 29 where there is a slave, else a file without slaves.
fn with_the_same_memory(engine: &dyn Engine) {
    let join = |file: &[u8]| {
        let (mut buffer, mut length) = (vec![FILL; 40], 0);
        let number = engine.join(file, file, &mut buffer, &mut length);
        (number, length, buffer)
    };
    for edition in EDITIONS {
        let with_slaves = named_from(0, &[0x05, 0x06]).laid_out(edition);
        assert_eq!(join(&with_slaves), (SHARED_PHYSICAL_NAME, 0, vec![FILL; 40]));
        assert_eq!(join(&with_slaves[..15]), (1, 0, vec![FILL; 40]));
        let nobody = segment(&[]).laid_out(edition);
        let behind = vec![FILL; 40 - nobody.len()];
        assert_eq!(join(&nobody), (0, nobody.len() as u64, [nobody, behind].concat()));
    }
}

/// "Naming after a join takes as unnamed exactly the slaves that were at 0xFF and those the join turns."
///
/// The first has 0x01, which the second has too, and an unnamed slave; of the second 0x02 stays, 0x01 is turned, and one
/// was unnamed. So three get names, the greatest physical name first, by names 3 to 5. Their passes have 134 rounds, one
/// more where bit 0 of the physical name is 0; then there are the extra read, two taken names, and 4 rounds to find nobody.
fn named_after_a_join(engine: &dyn Engine) {
    for (edition, other) in [(1, 1), (1, 2), (2, 1), (2, 2)] {
        let mut first = segment(&[(0x10, 0x01), (0x21, UNNAMED)]);
        let mut second = segment(&[(0x30, 0x02), (0x42, 0x01), (0x0F, UNNAMED)]);
        // All sleep, and an execute is pending in each.
        for parts in [&mut first, &mut second] {
            parts.state = [200, 1, 0xFF, 0x22, 0x01];
            parts.slaves.iter_mut().for_each(|slave| slave.0 = 1);
        }
        let call =
            Call::Join { first: first.laid_out(edition), second: second.laid_out(other), buffer_length: ROOM };
        let joined = call.make(engine).bytes_written().expect("small files").to_vec();
        let (left, run) = named(engine, joined, &[0x01, 0x02, 0x03, 0x04, 0x05, 0x06]);
        let names = segment(&[(0x10, 0x01), (0x21, 0x04), (0x30, 0x02), (0x42, 0x03), (0x0F, 0x05)]);
        assert_eq!(logical_names(&left), logical_names(&names.laid_out(edition)));
        // End "all named" at the last name, the rounds and the comparisons.
        let rounds = 1 + 2 + (134 + 1) + 134 + 134 + 4;
        assert_eq!((run[0], run[1], run[4], run[5]), (1, 5, rounds, 3 * 65 + 1));
    }
}

/// A naming run to its end: the file that it leaves, and its words.
fn named(engine: &dyn Engine, mut file: Vec<u8>, names: &[u8]) -> (Vec<u8>, [u64; 8]) {
    let mut run = Call::Start { names: names.to_vec() }.make(engine).run.expect("a lent run");
    while run[0] == 0 {
        let step = Call::Step { file, names: names.to_vec(), run, answer_length: 64 }.make(engine);
        assert_eq!(step.number, 0);
        (file, run) = (step.file.expect("a lent file"), step.run.expect("a lent run"));
    }
    (file, run)
}

/// Of slaves with 0x08 and 0x3D of the least size: the logical name is byte 7 of 0x08, which comes first.
fn logical_names(file: &[u8]) -> Vec<u8> {
    let (header, entry) = if file[2] == 1 { (16, 4) } else { (24, 8) };
    let slaves = usize::from(file[3]);
    let slave = 2 * entry + 16 + 12;
    (0..slaves).map(|place| file[header + entry * slaves + slave * place + 2 * entry + 7]).collect()
}
