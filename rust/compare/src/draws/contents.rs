//! Random files of slaves that are read: slaves and files that are there and that are not, and buffers around the file's size.

use super::clusters;
use super::random::Random;
use crate::campaign::{any_file, Campaign};
use crate::case::Call;
use model::{check, Cluster, Slave};

/// The lower 32 bits of a place alone are that of a slave.
const WIDE: u64 = 1 << 32;

pub fn contents(campaign: &mut Campaign, amount: usize, random: &mut Random) {
    for _ in 0..amount {
        let file = if random.once_in(8) { clusters::with_wrong_front(random) } else { any_file(random) };
        let cluster = check(&file).unwrap_or_else(|_| clusters::cluster_of(random, 2));
        let slave = place(random, cluster.slaves.len() as u64);
        let found = usize::try_from(slave).ok().and_then(|slave| cluster.slaves.get(slave));
        let number = number(random, found, &cluster);
        let size =
            found.and_then(|slave| slave.file(model::FileNumber(number))).map_or(0, |file| file.bytes.len());
        let buffer_length = buffer_length(random, size);
        campaign.call(&Call::Contents { file, slave, number, buffer_length });
    }
}

/// A slave's place, mostly; the last one's, that behind it, and places that are far behind.
fn place(random: &mut Random, slaves: u64) -> u64 {
    match random.below(16) {
        0 => slaves,
        1 => u64::MAX,
        2 => WIDE,
        3..=5 => slaves.saturating_sub(1),
        _ => random.below(slaves.max(1) as usize) as u64,
    }
}

/// The number of a file that the slave has, mostly, the first and the last among them; else of one that another slave may
/// have, or any byte.
fn number(random: &mut Random, slave: Option<&Slave>, cluster: &Cluster) -> u8 {
    let numbers = |slave: &Slave| slave.files.iter().map(|file| file.number.0).collect::<Vec<u8>>();
    let own = slave.map(numbers).unwrap_or_default();
    let others: Vec<u8> = cluster.slaves.iter().flat_map(numbers).collect();
    match (random.below(8), own.as_slice()) {
        (0, [first, ..]) => *first,
        (1, [.., last]) => *last,
        (2..=5, [_, ..]) => random.one_of(&own),
        (6, _) if !others.is_empty() => random.one_of(&others),
        _ => random.byte(),
    }
}

/// Around the bytes that the file has, and others.
fn buffer_length(random: &mut Random, size: usize) -> usize {
    match random.below(8) {
        0 => 0,
        1 | 2 => size.saturating_sub(1),
        3 => random.between(0, size + 8),
        4 | 5 => size,
        6 => size + 1,
        _ => size + 9,
    }
}
