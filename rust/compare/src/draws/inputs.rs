//! Random frames, buffers, lists of names and run positions.

use super::clusters::logical_name;
use super::random::Random;
use crate::engine::RunWords;
use crate::frames::{framed, unfolded, MULTIPARTNER};
use model::{firework_of, Cluster, FileNumber, MSA, MSD};

/// PB2 and PB3 of a write of record 1 of 0x08.
pub const WRITE_OF_CONFIGURATION: u8 = 0x21;
pub const NAMES_RECORD: u8 = 1;
/// Those of an execute of record 4, which puts to sleep.
const EXECUTE_OF_CONFIGURATION: u8 = 0x22;
const SLEEP_RECORD: u8 = 4;

pub fn answer_length(random: &mut Random) -> usize {
    random.one_of(&[64, 64, 64, 64, 64, 64, 65, 70, 70, 0, 63])
}

/// An address frame that speaks of the cluster, with any operation; now and then the write of record 1 of 0x08, where
/// slaves keep their names, or the execute of its record 4, which puts to sleep.
pub fn address(random: &mut Random, cluster: &Cluster) -> Vec<u8> {
    let (name, file) = address_target(random, cluster);
    if random.once_in(12) {
        return framed(MSA, [random.byte(), name, WRITE_OF_CONFIGURATION, NAMES_RECORD]);
    }
    if random.once_in(12) {
        return framed(MSA, [random.byte(), name, EXECUTE_OF_CONFIGURATION, SLEEP_RECORD]);
    }
    let record = if random.once_in(8) { random.byte() } else { random.below(6) as u8 };
    framed(MSA, [random.byte(), name, file << 2 | random.below(4) as u8, record])
}

/// Record 1 of each file, then records 2 to 4 of 0x08, one after the other.
pub fn record_to_write(turn: usize) -> (u8, u8) {
    match (turn % 67) as u8 {
        number @ 0..64 => (number, 1),
        others => (FileNumber::CONFIGURATION.0, others - 62),
    }
}

/// The address frame of a write of this record, at the name or, where it is not 0xFF, now and then at 0x00.
pub fn write_of(random: &mut Random, name: u8, file: u8, record: u8) -> Vec<u8> {
    let at = if name != 0xFF && random.once_in(4) { 0x00 } else { name };
    framed(MSA, [random.byte(), at, file << 2 | 1, record])
}

/// A name and a file that an address frame speaks of, often a slave's own.
pub fn address_target(random: &mut Random, cluster: &Cluster) -> (u8, u8) {
    let mut name = logical_name(random);
    let any_file = random.below(64) as u8;
    let mut file = random.one_of(&[0x08, 0x08, 0x3D, 0x10, any_file]);
    if !cluster.slaves.is_empty() {
        let slave = &cluster.slaves[random.below(cluster.slaves.len())];
        if random.once_in(2) {
            name = slave.logical_name().0;
        }
        if random.once_in(2) {
            file = slave.files[random.below(slave.files.len())].number.0;
        }
    }
    (name, file)
}

/// The data frame that fits what is pending.
pub fn fitting_data(random: &mut Random, cluster: &Cluster) -> Vec<u8> {
    if cluster.pending.flag && cluster.pending.pb2 & 3 == 1 {
        let data = [random.byte(), random.byte(), logical_name(random), logical_name(random)];
        framed(MSD, data)
    } else {
        vec![MSD]
    }
}

/// A frame of any kind, whole or damaged.
pub fn frame(random: &mut Random, cluster: &Cluster) -> Vec<u8> {
    let mut frame = match random.below(12) {
        0..=3 => address(random, cluster),
        4..=7 => fitting_data(random, cluster),
        8 | 9 => vec![random.one_of(&MULTIPARTNER)],
        10 => framed(firework_of(random.below(8) as u8), [random.byte(), random.byte(), 0, 1]),
        _ => {
            let length = random.below(9);
            random.bytes(length)
        }
    };
    if random.once_in(8) {
        damage(random, &mut frame);
    }
    frame
}

fn damage(random: &mut Random, frame: &mut Vec<u8>) {
    match (random.below(5), &frame[..]) {
        (0, _) => frame.push(random.byte()),
        (1, _) => {
            frame.pop();
        }
        (2, &[firework, a, b, c, d, _]) => *frame = unfolded(firework, [a, b, c, d]),
        (3, [_, ..]) => frame[0] = random.byte(),
        (_, [_, ..]) => {
            let place = random.below(frame.len());
            frame[place] ^= 1 << random.below(8);
        }
        _ => {}
    }
}

/// A list of distinct names 0x01 to 0xFE.
pub fn good_names(random: &mut Random, most: usize) -> Vec<u8> {
    let mut names = Vec::new();
    for _ in 0..random.below(most + 1) {
        let name = if random.once_in(2) { random.between(1, 12) } else { random.between(1, 0xFE) } as u8;
        if !names.contains(&name) {
            names.push(name);
        }
    }
    names
}

/// A list of names, now and then with one that must not be there.
pub fn names(random: &mut Random) -> Vec<u8> {
    let mut names = match random.below(30) {
        0 => (0x01..=0xFE).collect(),
        1 => {
            let length = random.below(400);
            random.bytes(length)
        }
        _ => good_names(random, 20),
    };
    if random.once_in(8) && !names.is_empty() {
        let place = random.below(names.len());
        let other = random.below(names.len());
        names[place] = random.one_of(&[0x00, 0xFF, names[other], names[other]]);
    }
    names
}

/// A stored position of any content, many of them good.
pub fn position(random: &mut Random, names: &[u8]) -> RunWords {
    let length = names.len() as u64;
    let end = random.one_of(&[0, 0, 0, 0, 0, 0, 1, 2, 3, 256, u64::MAX]);
    let index = match random.below(12) {
        0 => length,
        1 => length + 1,
        2 => random.number(),
        _ => random.number() % length.max(1),
    };
    let step = match random.below(12) {
        0..=2 => random.one_of(&[0, 1, 2, 3, 3, 4, 195, 196, 197, 197, 197, 198, 198, 199]),
        3 => random.one_of(&[199, 200, 256, 1 << 40]),
        4 => random.number(),
        _ => random.number() % 200,
    };
    let mut count = || match random.below(12) {
        0 => 999_999,
        1 => 1_000_000,
        2 => random.number(),
        // No round counted: the extra read is due.
        3 => 0,
        _ => random.number() % 1000,
    };
    let (rounds, comparisons) = (count(), count());
    let value = random.number();
    let (high, low) = halves(random, step, value);
    [end, index, step, value, rounds, comparisons, high, low]
}

/// A list with a name that a slave holds, and a position about to ask for it, the last of the list or not; none where no
/// slave has a name that can be listed.
pub fn poll_of_held_name(random: &mut Random, cluster: &Cluster) -> Option<(Vec<u8>, RunWords)> {
    let mut held: Vec<u8> = cluster.slaves.iter().map(|slave| slave.logical_name().0).collect();
    held.retain(|name| (0x01..=0xFE).contains(name));
    if held.is_empty() {
        return None;
    }
    let name = random.one_of(&held);
    let mut names = good_names(random, 3);
    names.retain(|&other| other != name);
    let index = if random.once_in(2) { names.len() } else { 0 };
    names.insert(index, name);
    // Now and then the extra read comes first.
    let rounds = if random.once_in(4) { 0 } else { random.number() % 1000 };
    Some((names, [0, index as u64, 0, random.number(), rounds, 0, random.number(), 0]))
}

/// The halves last written: often those that stand at this step, so that a write of them is needless, now and then more
/// than 32 bits with the same lower ones.
fn halves(random: &mut Random, step: u64, value: u64) -> (u64, u64) {
    let sent = match step {
        // After the comparison with 0 comes that with bit 63 alone.
        3 => 1 << 63,
        4..=195 => value | 1 << (63 - (step - 4) / 3),
        _ => value,
    };
    let mut half = |equal: u64| match random.below(8) {
        0..=3 => equal,
        4 => equal | 1 << random.between(32, 63),
        5 => equal ^ 1 << random.below(32),
        6 => 0,
        _ => random.number(),
    };
    (half(sent >> 32), half(sent & 0xFFFF_FFFF))
}
