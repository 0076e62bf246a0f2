//! Random clusters for owner files, and buffers for them.

use super::clusters;
use super::random::Random;
use crate::layout::{LAST_ROUND, LAST_SLOT, MOST_OWNER_BYTES, NOT_OWNED, ROUNDS};
use model::{owner, Cluster, Edition, File, FileNumber, LogicalName, Slave};

const MOST_ENTRY_SLOTS: usize = 16;
const SENDS: [u8; 2] = [1, 5];
/// Operations that cover a slot and do not send.
const HIDES: [u8; 4] = [0, 2, 3, 4];
const ENDS: [u8; 2] = [6, 7];
/// Multiplexed receives, which the owner writer passes over, and multiplexed sends, which it refuses.
const PASSED: [u8; 4] = [8, 10, 12, 14];
const REFUSED: [u8; 4] = [9, 11, 13, 15];

/// A cluster in which the slots of each round are dealt out to the slaves, so that mostly no two send in one. In a
/// third of them one more entry is put anywhere, which may make two meet.
pub fn planned(random: &mut Random) -> Cluster {
    let edition = random.one_of(&Edition::BOTH);
    let count = if random.once_in(6) { edition.most_slaves() } else { random.between(1, 6) };
    let mut cluster = clusters::cluster_in(random, edition, count);
    for slave in &mut cluster.slaves {
        slave.files.retain(|file| file.number.0 >= 8);
    }
    let quiet = random.one_of(&[1, 2, 8]);
    for round in ROUNDS {
        if quiet == 1 || !random.once_in(quiet) {
            deal(random, &mut cluster.slaves, round);
        }
    }
    if random.once_in(3) {
        let round = random.one_of(&[0, 2, 3, 4, 6, 7, LAST_ROUND, LAST_ROUND]);
        let slave = random.below(count);
        disturb(random, &mut cluster.slaves[slave], round);
    }
    if random.once_in(6) {
        put_where_it_is_not_looked_for(random, &mut cluster);
    }
    if random.once_in(6) {
        let name = clusters::logical_name(random);
        cluster.slaves.iter_mut().for_each(|slave| slave.set_logical_name(LogicalName(name)));
    }
    cluster
}

/// The same cluster with plain sends in place of multiplexed ones.
pub fn without_multiplexed_sends(mut cluster: Cluster) -> Cluster {
    let lists = cluster.slaves.iter_mut().flat_map(|slave| &mut slave.files).filter(|file| file.number.0 < 8);
    for entry in lists.flat_map(|file| file.bytes.as_chunks_mut::<4>().0.iter_mut().skip(1)) {
        if REFUSED.contains(&(entry[2] >> 4)) {
            entry[2] = 1 << 4 | entry[2] & 15;
        }
    }
    cluster
}

/// Goes over the slots and gives each stretch of them to a slave, or to nobody; others receive there now and then.
fn deal(random: &mut Random, slaves: &mut [Slave], round: u8) {
    let mut lists = vec![Vec::new(); slaves.len()];
    let last = if random.once_in(2) { LAST_SLOT } else { random.between(1, LAST_SLOT) };
    let mut slot = random.below(3);
    while slot <= last {
        let length = random.between(1, MOST_ENTRY_SLOTS.min(last - slot + 1));
        let sender = random.below(slaves.len());
        if random.once_in(6) {
            let (operation, turn) = (random.one_of(&PASSED), random.below(4) as u8);
            let file = random.between(0x0F, 0x11) as u8;
            let front = operation << 4 | (length - 1) as u8;
            lists[sender].push([file << 2, 1, front, turn << 6 | slot as u8]);
        }
        if !random.once_in(4) {
            let entry = sending(random, &slaves[sender], length, slot);
            lists[sender].push(entry);
        }
        if random.once_in(3) {
            let other = random.below(slaves.len());
            let (file, operation) = (random.below(64) as u8, random.one_of(&HIDES));
            lists[other].push([file << 2, 1, operation << 4 | (length - 1) as u8, slot as u8]);
        }
        slot += length;
    }
    if random.once_in(3) {
        // Slot 0 is the master's: whoever has an entry on it meets nobody there.
        for (slave, list) in slaves.iter().zip(&mut lists) {
            list.push(sending(random, slave, 1, 0));
        }
    }
    for (slave, list) in slaves.iter_mut().zip(lists) {
        if !list.is_empty() {
            let records = [vec![random.bytes(4)], list.iter().map(|entry| entry.to_vec()).collect()].concat();
            slave.files.push(File { number: FileNumber(round), bytes: records.concat() });
            slave.files.sort_by_key(|file| file.number);
        }
    }
}

/// An entry that sends in these slots, from any place of a file of the slave: some of the places may be outside.
fn sending(random: &mut Random, slave: &Slave, length: usize, slot: usize) -> [u8; 4] {
    let file = &slave.files[random.below(slave.files.len())];
    let record = random.between(0, file.last_record()) as u8;
    let (align, multiplex) = (random.below(4) as u8, random.below(4) as u8);
    let operation = random.one_of(&SENDS);
    [file.number.0 << 2 | align, record, operation << 4 | (length - 1) as u8, multiplex << 6 | slot as u8]
}

/// Puts an entry of any sort before or after those of the slave's list for the round, if it has one.
fn disturb(random: &mut Random, slave: &mut Slave, round: u8) {
    let (length, slot) = (random.between(1, MOST_ENTRY_SLOTS), random.between(0, LAST_SLOT));
    let mut entry = sending(random, slave, length, slot);
    if random.once_in(4) {
        // A byte of the list itself, in its first records.
        entry[0] = round << 2 | entry[0] & 3;
        entry[1] = random.below(2) as u8;
    }
    if random.once_in(3) {
        let operation = match random.below(4) {
            0 => random.one_of(&HIDES),
            1 => random.one_of(&ENDS),
            2 => random.one_of(&PASSED),
            _ => random.one_of(&REFUSED),
        };
        entry[2] = operation << 4 | entry[2] & 15;
    }
    if let Some(list) = slave.file_mut(FileNumber(round)) {
        let place = 4 * random.between(1, list.last_record() + 1);
        list.bytes.splice(place..place, entry);
    }
}

/// Puts a multiplexed send in file 1 or 5, in a list of an unnamed slave, or after an end.
fn put_where_it_is_not_looked_for(random: &mut Random, cluster: &mut Cluster) {
    let slave = random.below(cluster.slaves.len());
    let slave = &mut cluster.slaves[slave];
    let slot = random.between(1, LAST_SLOT);
    let mut entry = sending(random, slave, 1, slot);
    entry[2] = random.one_of(&REFUSED) << 4;
    let round = random.one_of(&ROUNDS);
    match random.below(3) {
        0 => put_entries(slave, random.one_of(&NOT_OWNED), &entry),
        1 if slave.is_unnamed() => put_entries(slave, round, &entry),
        _ => put_entries(slave, round, &[[0, 0, random.one_of(&ENDS) << 4, 0], entry].concat()),
    }
}

/// Puts these entries after the others of the slave's list.
fn put_entries(slave: &mut Slave, round: u8, entries: &[u8]) {
    if slave.file(FileNumber(round)).is_none() {
        slave.files.push(File { number: FileNumber(round), bytes: vec![0; 4] });
        slave.files.sort_by_key(|file| file.number);
    }
    if let Some(list) = slave.file_mut(FileNumber(round)) {
        list.bytes.extend(entries);
    }
}

/// Around the bytes that the file needs, and others.
pub fn buffer_length(random: &mut Random, file: &[u8]) -> usize {
    let needed = owner(file, LogicalName(0), &mut [0; MOST_OWNER_BYTES]).unwrap_or(MOST_OWNER_BYTES);
    match random.below(8) {
        0 => 0,
        1 => needed - 1,
        2 => random.between(0, needed + 8),
        3..=5 => needed,
        6 => needed + 1,
        _ => MOST_OWNER_BYTES,
    }
}
