//! Random clusters, legal ones and damaged files.

use super::random::Random;
use crate::layout::{place_in, ROUNDS};
use model::{Cluster, Edition, File, FileNumber, LogicalName, Pending, Slave};

/// The operations of an entry that receive, and those that send; plain ones more often than multiplexed ones, which have
/// their turns.
const RECEIVES: [u8; 13] = [0, 2, 4, 0, 2, 4, 0, 2, 4, 8, 10, 12, 14];
const SENDS: [u8; 10] = [1, 5, 1, 5, 1, 5, 9, 11, 13, 15];
/// In one of so many clusters half of the slaves sleep.
const CLUSTERS_FOR_SLEEPERS: usize = 4;

/// A legal cluster in either edition, of 0 slaves to the edition's most.
pub fn cluster(random: &mut Random) -> Cluster {
    let edition = random.one_of(&Edition::BOTH);
    let most = edition.most_slaves();
    let count = match random.below(8) {
        0 => random.below(2),
        1 => random.between(most - 1, most),
        2 => random.between(0, most),
        _ => random.between(1, 6),
    };
    cluster_in(random, edition, count)
}

/// A legal cluster of so many slaves, in either edition where both can hold it.
pub fn cluster_of(random: &mut Random, count: usize) -> Cluster {
    let fits_both = count <= Edition::One.most_slaves();
    let edition = if fits_both { random.one_of(&Edition::BOTH) } else { Edition::Two };
    cluster_in(random, edition, count)
}

/// A legal cluster of so many slaves in this edition.
pub fn cluster_in(random: &mut Random, edition: Edition, count: usize) -> Cluster {
    // Many slaves get few files, or the file would grow too long.
    let richness = if count > 8 { 3 } else { 12 };
    let mut slaves: Vec<Slave> = Vec::new();
    let mut names: Vec<u64> = Vec::new();
    while slaves.len() < count {
        let name = physical_name(random, &names);
        if !names.contains(&name) {
            names.push(name);
            slaves.push(slave(random, name, richness));
        }
    }
    for round in ROUNDS {
        if random.once_in(2) {
            meet(random, &mut slaves, round);
        }
        if random.once_in(4) {
            share_a_slot(random, &mut slaves, round);
        }
    }
    if random.once_in(CLUSTERS_FOR_SLEEPERS) {
        slaves.iter_mut().for_each(|slave| slave.asleep = random.once_in(2));
    }
    let any_epoch = random.byte();
    let epoch = random.one_of(&[0, 1, 127, 254, 255, any_epoch, any_epoch, any_epoch]);
    let cluster = Cluster { edition, epoch, pending: pending(random), slaves };
    debug_assert!(cluster.length() <= edition.most_bytes());
    cluster
}

/// Names that lie close together, at the ends, or anywhere.
fn physical_name(random: &mut Random, others: &[u64]) -> u64 {
    match random.below(8) {
        0 => 0,
        1 => u64::MAX,
        2 => 1 << random.below(64),
        3 => random.number() % 64,
        4 if !others.is_empty() => random.one_of(others).wrapping_add(1),
        5 if !others.is_empty() => random.one_of(others) ^ 1 << random.below(64),
        _ => random.number(),
    }
}

pub fn logical_name(random: &mut Random) -> u8 {
    match random.below(8) {
        0..=2 => 0xFF,
        3 => 0x00,
        4..=6 => random.between(1, 9) as u8,
        _ => random.byte(),
    }
}

/// A legal pending operation, or none with free bytes.
fn pending(random: &mut Random) -> Pending {
    let mut pending = Pending {
        flag: random.once_in(2),
        name: LogicalName(logical_name(random)),
        pb2: random.byte(),
        pb3: 0,
    };
    pending.pb3 = random.between(0, 5) as u8;
    if random.once_in(2) {
        pending.pb2 = 0x20 | pending.pb2 & 3;
    }
    if pending.flag && pending.pb2 & 3 == 3 {
        pending.pb2 ^= 1;
    }
    if pending.flag && pending.pb2 & 3 == 0 && pending.name == LogicalName::BROADCAST {
        pending.pb2 |= 1;
    }
    pending
}

fn slave(random: &mut Random, physical_name: u64, richness: usize) -> Slave {
    let mut numbers: Vec<u8> = vec![FileNumber::CONFIGURATION.0, FileNumber::DOCUMENTATION.0];
    for _ in 0..random.below(richness) {
        numbers.push(match random.below(4) {
            0 | 1 => random.one_of(&ROUNDS),
            2 => random.between(0x10, 0x3C) as u8,
            _ => random.below(64) as u8,
        });
    }
    numbers.sort_unstable();
    numbers.dedup();
    let files = numbers.iter().map(|&number| file(random, number, physical_name, &numbers)).collect();
    Slave { asleep: false, files }
}

fn file(random: &mut Random, number: u8, physical_name: u64, numbers: &[u8]) -> File {
    let needed = match FileNumber(number) {
        FileNumber::CONFIGURATION => 3,
        FileNumber::DOCUMENTATION => 2,
        _ => 1,
    };
    let records = needed + random.one_of(&[0, 0, 1, 2, 5, 9]);
    let mut bytes = random.bytes(4 * (records + 1));
    match FileNumber(number) {
        FileNumber::DOCUMENTATION => bytes[4..12].copy_from_slice(&physical_name.to_be_bytes()),
        FileNumber::CONFIGURATION => {
            bytes[6] = logical_name(random);
            bytes[7] = logical_name(random);
            bytes[8..16].copy_from_slice(&comparison_value(random, physical_name).to_be_bytes());
        }
        FileNumber(round) if round < 8 => {
            for record in bytes.chunks_mut(4).skip(1) {
                record.copy_from_slice(&entry(random, numbers));
            }
        }
        _ => {}
    }
    File { number: FileNumber(number), bytes }
}

fn comparison_value(random: &mut Random, physical_name: u64) -> u64 {
    match random.below(5) {
        0 => physical_name,
        1 => physical_name.wrapping_add(1),
        2 => physical_name.wrapping_sub(1),
        3 => 0,
        _ => random.number(),
    }
}

/// An entry of a round descriptor list, mostly one that does something.
fn entry(random: &mut Random, numbers: &[u8]) -> [u8; 4] {
    let file = if random.once_in(6) { random.below(64) as u8 } else { random.one_of(numbers) };
    let record = if random.once_in(6) { random.byte() } else { random.below(4) as u8 };
    let operation = if random.once_in(4) { random.below(16) as u8 } else { random.one_of(&[0, 1, 1, 2, 4, 5]) };
    let start = start_slot(random);
    entry_of(random, file, record, operation, start)
}

fn start_slot(random: &mut Random) -> u8 {
    if random.once_in(3) {
        random.below(64) as u8
    } else {
        random.below(16) as u8
    }
}

/// An entry with any alignment, length and multiplex field.
fn entry_of(random: &mut Random, file: u8, record: u8, operation: u8, start: u8) -> [u8; 4] {
    let length = if random.once_in(3) { random.below(16) as u8 } else { random.below(4) as u8 };
    [file << 2 | random.below(4) as u8, record, operation << 4 | length, (random.below(4) as u8) << 6 | start]
}

/// Has two named slaves meet in a round, if there are two: from one slot on the first sends and the second
/// receives where it may store. Entries before theirs may still cover the slots or end the list.
fn meet(random: &mut Random, slaves: &mut [Slave], round: u8) {
    let mut named: Vec<&mut Slave> = slaves.iter_mut().filter(|slave| !slave.is_unnamed()).collect();
    if named.len() < 2 {
        return;
    }
    let sender = named.swap_remove(random.below(named.len()));
    let receiver = named.swap_remove(random.below(named.len()));
    let start = start_slot(random);
    let sent = random.one_of(&numbers_of(sender));
    let stored = storing_file(random, receiver);
    let (sends, receives) = (random.one_of(&SENDS), random.one_of(&RECEIVES));
    take_part(random, sender, round, sent, sends, start);
    take_part(random, receiver, round, stored, receives, start);
}

/// Puts four or eight multiplexed entries, one for each turn, on one slot of a named slave's list for the round, if
/// there is one: all send, or all receive where they may store, each at its own place, and another slave sends there.
/// In one of three lists a plain send of the same slot comes after them.
fn share_a_slot(random: &mut Random, slaves: &mut [Slave], round: u8) {
    let mut named: Vec<&mut Slave> = slaves.iter_mut().filter(|slave| !slave.is_unnamed()).collect();
    if named.is_empty() {
        return;
    }
    let slave = named.swap_remove(random.below(named.len()));
    let sends = u8::from(random.once_in(3));
    let file = if sends == 1 { random.one_of(&numbers_of(slave)) } else { storing_file(random, slave) };
    let mut fours = random.one_of::<&[u8]>(&[&[8], &[12], &[10, 14]]).to_vec();
    let slot = start_slot(random);
    // Of eight the second four come first in half of the slots, so that they are tried before one of the others acts.
    if slot % 2 == 1 {
        fours.reverse();
    }
    let last_record = file_in(random, slave, file).last_record();
    let mut entries = Vec::new();
    for operation in fours {
        for multiplex in 0..4 {
            let record = random.between(0, last_record) as u8;
            entries.push([file << 2 | multiplex, record, (operation | sends) << 4, multiplex << 6 | slot]);
        }
    }
    if random.once_in(3) {
        entries.push(entry_of(random, FileNumber::DOCUMENTATION.0, 1, 1, slot));
    }
    let list = file_in(random, slave, round);
    list.bytes.truncate(4);
    list.bytes.extend(entries.concat());
    if sends == 0 && !named.is_empty() {
        let other = named.swap_remove(random.below(named.len()));
        take_part(random, other, round, FileNumber::DOCUMENTATION.0, 1, slot);
    }
}

fn numbers_of(slave: &Slave) -> Vec<u8> {
    slave.files.iter().map(|file| file.number.0).collect()
}

/// The number of a file in which a receive stores: one that the slave has, or a new one if it has none.
fn storing_file(random: &mut Random, slave: &Slave) -> u8 {
    let mut numbers = numbers_of(slave);
    numbers.retain(|number| (0x10..=0x3C).contains(number));
    if numbers.is_empty() {
        numbers.push(random.between(0x10, 0x3C) as u8);
    }
    random.one_of(&numbers)
}

/// Puts an entry that acts on a record of the file into the slave's list for the round, in place of another.
fn take_part(random: &mut Random, slave: &mut Slave, round: u8, file: u8, operation: u8, start: u8) {
    let last_record = file_in(random, slave, file).last_record();
    let record = random.between(0, last_record) as u8;
    let entry = entry_of(random, file, record, operation, start);
    let list = file_in(random, slave, round);
    let place = 4 * random.between(1, list.last_record());
    list.bytes[place..place + 4].copy_from_slice(&entry);
}

/// The slave's file of this number, added if it is not there.
fn file_in<'a>(random: &mut Random, slave: &'a mut Slave, number: u8) -> &'a mut File {
    let place = slave.files.partition_point(|file| file.number.0 < number);
    if slave.file(FileNumber(number)).is_none() {
        let added = file(random, number, slave.physical_name(), &numbers_of(slave));
        slave.files.insert(place, added);
    }
    &mut slave.files[place]
}

/// A cluster in which a slave has this record, and that slave's logical name.
pub fn with_record(random: &mut Random, number: u8, record: u8) -> (Cluster, u8) {
    let count = random.between(1, 6);
    let mut cluster = cluster_of(random, count);
    let slave = &mut cluster.slaves[random.below(count)];
    give_record(random, slave, number, record);
    let name = slave.logical_name().0;
    (cluster, name)
}

/// Lengthens the slave's file of this number, added if it is not there, up to this record.
pub fn give_record(random: &mut Random, slave: &mut Slave, number: u8, record: u8) {
    let file = file_in(random, slave, number);
    let missing = (4 * (usize::from(record) + 1)).saturating_sub(file.bytes.len());
    file.bytes.extend(random.bytes(missing));
}

/// A file of an edition's most bytes and slaves, its slaves' files grown to reach it; 64 files each if asked.
pub fn longest_file(random: &mut Random, edition: Edition, most_entries: bool) -> Vec<u8> {
    longest_cluster(random, edition, most_entries).encode()
}

/// So many slaves of 64 files each fit into edition 2: 8 bytes in the table, 512 of directory and 524 of files.
const SLAVES_OF_64_FILES: usize = 62;

pub fn longest_cluster(random: &mut Random, edition: Edition, most_entries: bool) -> Cluster {
    let most_slaves = edition.most_slaves();
    let count = if most_entries { most_slaves.min(SLAVES_OF_64_FILES) } else { most_slaves };
    let mut cluster = cluster_in(random, edition, count);
    if most_entries {
        for slave in &mut cluster.slaves {
            let name = slave.physical_name();
            let numbers: Vec<u8> = (0..64).collect();
            slave.files = numbers.iter().map(|&number| least_file(number, name)).collect();
        }
    }
    grow_to(random, &mut cluster, edition.most_bytes());
    cluster
}

/// Lengthens files, one after the other, until the cluster's file has so many bytes.
pub fn grow_to(random: &mut Random, cluster: &mut Cluster, length: usize) {
    let mut missing = length.saturating_sub(cluster.length());
    for file in cluster.slaves.iter_mut().flat_map(|slave| &mut slave.files) {
        let grown = missing.min(4 * (255 - file.last_record()));
        file.bytes.extend(random.bytes(grown / 4 * 4));
        missing -= grown / 4 * 4;
    }
}

/// The shortest file of this number.
fn least_file(number: u8, physical_name: u64) -> File {
    let records = match FileNumber(number) {
        FileNumber::CONFIGURATION => 3,
        FileNumber::DOCUMENTATION => 2,
        _ => 1,
    };
    let mut bytes = vec![0; 4 * (records + 1)];
    if FileNumber(number) == FileNumber::DOCUMENTATION {
        bytes[4..12].copy_from_slice(&physical_name.to_be_bytes());
    }
    if FileNumber(number) == FileNumber::CONFIGURATION {
        bytes[7] = LogicalName::UNNAMED.0;
    }
    File { number: FileNumber(number), bytes }
}

/// A file that is mostly refused, each ground having its turn.
pub fn damaged(random: &mut Random) -> Vec<u8> {
    let mut cluster = cluster(random);
    match random.below(14) {
        0 => lack_a_file(random, &mut cluster),
        1 => repeat_a_physical_name(random, &mut cluster),
        _ => {}
    }
    let (header, flag) = (cluster.edition.header_bytes(), cluster.edition.epoch_place() + 1);
    let mut file = cluster.encode();
    match random.below(12) {
        0 => file[random.below(header)] = random.byte(),
        1 => file[random.below(header)] ^= 1 << random.below(8),
        2 | 3 => damage_layout(random, &mut file),
        4 => cut(random, &mut file),
        5 => grow(random, &mut file),
        6 => file[flag..flag + 4].copy_from_slice(&[1, random.below(2) as u8, random.byte(), 0]),
        7 => file[3] = random.one_of(&[0, 31, 32, 33, 63, 64, 65, 255]),
        8 => damage_sleep_byte(random, &mut file),
        // The other edition, another one, and a file of which byte 2 is not there.
        9 if random.once_in(3) => file[2] = random.one_of(&[1, 2, 1, 2, 0, 3, 255]),
        _ => {}
    }
    if random.once_in(40) {
        file = odd_length(random);
    }
    file
}

fn lack_a_file(random: &mut Random, cluster: &mut Cluster) {
    if cluster.slaves.is_empty() {
        return;
    }
    let slave = random.below(cluster.slaves.len());
    let (number, least) = random.one_of(&[(FileNumber::CONFIGURATION, 3), (FileNumber::DOCUMENTATION, 2)]);
    let files = &mut cluster.slaves[slave].files;
    if random.once_in(2) {
        files.retain(|file| file.number != number);
    } else if let Some(file) = files.iter_mut().find(|file| file.number == number) {
        file.bytes.truncate(4 * least);
    }
}

/// Gives one slave the physical name of another, which may be itself.
pub fn repeat_a_physical_name(random: &mut Random, cluster: &mut Cluster) {
    if cluster.slaves.len() < 2 {
        return;
    }
    let from = random.below(cluster.slaves.len());
    let to = random.below(cluster.slaves.len());
    let name = cluster.slaves[from].physical_name();
    if let Some(file) = cluster.slaves[to].file_mut(FileNumber::DOCUMENTATION) {
        file.bytes[4..12].copy_from_slice(&name.to_be_bytes());
    }
}

/// Puts the sleep byte of a table entry above 1.
fn damage_sleep_byte(random: &mut Random, file: &mut [u8]) {
    let count = usize::from(file[3]);
    if count > 0 {
        let slave = random.below(count);
        file[Edition::of(file).sleep_place(slave)] = random.one_of(&[2, 3, 128, 255]);
    }
}

/// Changes a byte of the table or of a directory.
fn damage_layout(random: &mut Random, file: &mut [u8]) {
    let count = usize::from(file[3]);
    if count == 0 {
        return;
    }
    let edition = Edition::of(file);
    let (width, entry_bytes) = (edition.offset_bytes(), edition.entry_bytes());
    let table_entry = edition.header_bytes() + entry_bytes * random.below(count);
    let directory = place_in(&file[table_entry..table_entry + width]);
    let entries = usize::from(file[table_entry + width]);
    let entry = if random.once_in(3) || entries == 0 {
        table_entry
    } else {
        directory + entry_bytes * random.below(entries)
    };
    let place = entry + random.below(entry_bytes);
    if let Some(byte) = file.get_mut(place) {
        *byte = match random.below(3) {
            0 => byte.wrapping_add(1),
            1 => byte.wrapping_sub(1),
            _ => random.byte(),
        };
    }
}

fn cut(random: &mut Random, file: &mut Vec<u8>) {
    let length = if random.once_in(2) { random.below(file.len() + 1) } else { file.len() - random.below(5) };
    file.truncate(length);
    if random.once_in(2) {
        state_length(file);
    }
}

fn grow(random: &mut Random, file: &mut Vec<u8>) {
    let more = random.between(1, 8);
    file.extend(random.bytes(more));
    if random.once_in(2) {
        state_length(file);
    }
}

/// Puts the length field to the file's length, so that later grounds are reached.
fn state_length(file: &mut [u8]) {
    let length = (file.len() as u32).to_be_bytes();
    let edition = Edition::of(file);
    let (width, end) = (edition.offset_bytes(), edition.epoch_place());
    if let Some(field) = file.get_mut(end - width..end) {
        field.copy_from_slice(&length[length.len() - width..]);
    }
}

/// Turned away by its length, its mark or its edition, which damaged files seldom are.
pub fn with_wrong_front(random: &mut Random) -> Vec<u8> {
    let mut file = cluster(random).encode();
    match random.below(3) {
        0 => return odd_length(random),
        1 => file[random.below(2)] ^= 1 << random.below(8),
        _ => file[2] = random.one_of(&[0, 3, 255]),
    }
    file
}

/// The limits of ground 1 in each edition, and bytes of no meaning.
pub fn odd_length(random: &mut Random) -> Vec<u8> {
    let edition = random.one_of(&Edition::BOTH);
    match random.below(7) {
        0 => random.bytes(edition.header_bytes() - 1),
        1 => Vec::new(),
        2 => longest_file(random, edition, true),
        3 => longest_file(random, edition, false),
        4 => {
            let mut file = longest_file(random, edition, false);
            file.push(0);
            state_length(&mut file);
            file
        }
        5 => {
            // As long as the other edition's header, or its longest file.
            let most_entries = random.once_in(2);
            let mut file = longest_file(random, edition, most_entries);
            file[2] = 3 - file[2];
            state_length(&mut file);
            file.truncate(random.one_of(&[16, 23, 24, file.len()]));
            file
        }
        _ => {
            let length = random.below(200);
            random.bytes(length)
        }
    }
}
