//! The cluster files of the workloads.

use model::{Cluster, Edition, File, FileNumber, LogicalName, Pending, Slave};

/// The limits of edition 1.
const MOST_BYTES: usize = 32_768;
const MOST_SLAVES: usize = 32;

const ROUND_FILE: u8 = 2;
const ROUND_FILES: [u8; 6] = [0, 2, 3, 4, 6, 7];
const DATA_FILE: u8 = 0x10;
/// Enough for a byte in each of the slots 1 to 63 after record 0x00.
const DATA_RECORDS: usize = 16;
const SLOTS: usize = 63;
/// Of file 0x3D.
const LAST_OF_PHYSICAL_NAME: usize = 11;
/// Operations 0 and 1 become 8 and 9.
const MULTIPLEXED: u8 = 0x80;

/// Slaves with files 0x08 and 0x3D and so many more as to have `files` each, all of the least size.
pub fn small(slaves: usize, files: usize, logical_name: impl Fn(usize) -> u8) -> Vec<u8> {
    let slave = |number: usize| {
        let needed = vec![configuration(logical_name(number)), documentation(number)];
        let mut slave = Slave { asleep: false, files: needed };
        let others = (0..64).filter(|&number| slave.file(FileNumber(number)).is_none());
        let others: Vec<u8> = others.take(files - 2).collect();
        slave
            .files
            .extend(others.into_iter().map(|number| File { number: FileNumber(number), bytes: vec![0; 8] }));
        slave.files.sort_by_key(|file| file.number);
        slave
    };
    encode((0..slaves).map(slave).collect())
}

/// Slaves at 0xFF as in [`small`], of two files, whose physical names share their last byte.
pub fn sharing_a_byte(slaves: usize) -> Vec<u8> {
    let slave = |number: usize| {
        let mut documentation = documentation(number);
        documentation.bytes[LAST_OF_PHYSICAL_NAME] = 0;
        Slave { asleep: false, files: vec![configuration(LogicalName::UNNAMED.0), documentation] }
    };
    encode((0..slaves).map(slave).collect())
}

/// Two bus segments of so many slaves with 0x08 and 0x3D, named 1, 2, …; the names of the second begin in the middle of those
/// of the first, so that half of them meet where both have as many.
pub fn segments(first: usize, second: usize, edition: Edition) -> (Vec<u8>, Vec<u8>) {
    let name = |slave: usize| if slave < first { slave + 1 } else { slave + 1 - first + first / 2 };
    let mut all = model::check(&small(first + second, 2, |slave| name(slave) as u8)).expect("a legal file");
    all.edition = edition;
    let of_second = Cluster { slaves: all.slaves.split_off(first), ..all.clone() };
    (all.encode(), of_second.encode())
}

/// Slaves at 0xFF whose file 0x08 has record 4, which puts to sleep.
pub fn tired(slaves: usize) -> Vec<u8> {
    let slave = |number: usize| {
        let mut configuration = configuration(LogicalName::UNNAMED.0);
        configuration.bytes.extend([0; 4]);
        Slave { asleep: false, files: vec![configuration, documentation(number)] }
    };
    encode((0..slaves).map(slave).collect())
}

/// Slaves of 64 files, as many as an edition holds, grown to its most bytes: 32 in edition 1, 62 in edition 2.
pub fn most_entries(edition: Edition) -> Vec<u8> {
    let slaves = if edition == Edition::One { MOST_SLAVES } else { 62 };
    let mut cluster = model::check(&small(slaves, 64, |_| 0xFF)).expect("a legal file");
    cluster.edition = edition;
    grown(cluster, edition.most_bytes())
}

/// 32 slaves of 8 files in so many bytes.
pub fn sized(bytes: usize, edition: Edition) -> Vec<u8> {
    let mut cluster = model::check(&small(MOST_SLAVES, 8, |_| 0xFF)).expect("a legal file");
    cluster.edition = edition;
    grown(cluster, bytes)
}

/// With records behind those there are, file by file, up to so many bytes.
fn grown(mut cluster: Cluster, bytes: usize) -> Vec<u8> {
    let mut missing = bytes - cluster.length();
    for file in cluster.slaves.iter_mut().flat_map(|slave| &mut slave.files) {
        let grown = missing.min(4 * (255 - file.last_record()));
        file.bytes.resize(file.bytes.len() + grown, 0);
        missing -= grown;
    }
    let file = cluster.encode();
    assert_eq!(file.len(), bytes);
    file
}

/// Slaves 1, 2, … with a round file of `entries` entries that covers every slot. Each slot has one sender,
/// the slaves taking turns, and every other slave stores what it hears. The slots are covered for the first
/// time by entries spread over the whole list, in slot order; entries in between cover slot 1 again.
pub fn partners(slaves: usize, entries: usize) -> Vec<u8> {
    let slave = |number: usize| {
        let slots = spread(entries).into_iter();
        partner(number, slots.flat_map(|slot| entry_of(slot, slot % slaves == number)).collect())
    };
    encode((0..slaves).map(slave).collect())
}

/// The same with so many entries of several slots each, one behind the other from slot 1 on. Each entry has one sender.
pub fn partners_of(slaves: usize, entries: usize, slots: usize) -> Vec<u8> {
    let entry = |at: usize, sends: bool| lengthened(entry_of(1 + at * slots, sends), slots);
    let list = |number: usize| (0..entries).flat_map(|at| entry(at, at % slaves == number)).collect();
    assert!(entries * slots <= SLOTS);
    encode((0..slaves).map(|number| partner(number, list(number))).collect())
}

/// A slave of the name that follows its number, with this list for the round and a file of data.
fn partner(number: usize, list: Vec<u8>) -> Slave {
    let data = vec![number as u8 | 0x40; 4 * (DATA_RECORDS + 1)];
    Slave {
        asleep: false,
        files: vec![
            File { number: FileNumber(ROUND_FILE), bytes: [vec![0; 4], list].concat() },
            configuration(number as u8 + 1),
            File { number: FileNumber(DATA_FILE), bytes: data },
            documentation(number),
        ],
    }
}

/// Slaves 1, 2, … with a round file of four multiplexed entries for each of so many slots, one for each epoch modulo
/// 4. As in [`partners`] each slot has one sender, and every other slave stores what it hears.
pub fn multiplexed(slaves: usize, slots: usize) -> Vec<u8> {
    let entries = |number: usize, slot: usize| {
        let [place, record, operation, start] = entry_of(slot, slot % slaves == number);
        (0..4).flat_map(move |field| [place, record, operation | MULTIPLEXED, field << 6 | start])
    };
    let list = |number: usize| (1..=slots).flat_map(|slot| entries(number, slot)).collect();
    encode((0..slaves).map(|number| partner(number, list(number))).collect())
}

/// A slave that sends one byte in each of the slots 1 to 63 of every round, an entry for each slot.
pub fn owner_of_all() -> Vec<u8> {
    let list: Vec<u8> = (1..=SLOTS).flat_map(|slot| from_documentation(slot, true)).collect();
    encode(vec![with_lists(0, &ROUND_FILES.map(|round| (round, list.clone())))])
}

/// 32 slaves with as many entries as 32,768 bytes hold: one round file each, of which the rounds have five or six. In
/// each round every slot has one sender, these slaves taking turns, and the others receive there. As in [`partners`],
/// the slots are covered for the first time by entries spread over the whole list.
pub fn most_owners() -> Vec<u8> {
    let slave = |number: usize, entries: usize| {
        let round = number % ROUND_FILES.len();
        let sharing = (MOST_SLAVES - round).div_ceil(ROUND_FILES.len());
        let sends = |slot: usize| slot % sharing == number / ROUND_FILES.len();
        let list: Vec<u8> =
            spread(entries).into_iter().flat_map(|slot| from_documentation(slot, sends(slot))).collect();
        with_lists(number, &[(ROUND_FILES[round], list)])
    };
    let least = (0..MOST_SLAVES).map(|number| slave(number, SLOTS)).collect();
    let more = (MOST_BYTES - encode(least).len()) / 4;
    let entries = |number: usize| SLOTS + more / MOST_SLAVES + usize::from(number < more % MOST_SLAVES);
    let file = encode((0..MOST_SLAVES).map(|number| slave(number, entries(number))).collect());
    assert_eq!(file.len(), MOST_BYTES);
    file
}

/// Slaves with a list for every round, each of so many entries of several slots, one behind the other from slot 1 on. Each entry
/// has one sender, the slaves taking turns through all lists, and the others receive there.
pub fn owners_of(slaves: usize, entries: usize, slots: usize) -> Vec<u8> {
    let entry = |at: usize, sends: bool| lengthened(from_documentation(1 + at * slots, sends), slots);
    let list = |number: usize, before: usize| -> Vec<u8> {
        (0..entries).flat_map(|at| entry(at, (before + at) % slaves == number)).collect()
    };
    let slave = |number: usize| {
        let rounds = ROUND_FILES.iter().enumerate();
        let lists: Vec<_> = rounds.map(|(at, &round)| (round, list(number, at * entries))).collect();
        with_lists(number, &lists)
    };
    assert!(entries * slots <= SLOTS);
    encode((0..slaves).map(slave).collect())
}

/// A slave of the name that follows its number, with these lists and no file but the two it needs.
fn with_lists(number: usize, lists: &[(u8, Vec<u8>)]) -> Slave {
    let round_file = |(round, list): &(u8, Vec<u8>)| File {
        number: FileNumber(*round),
        bytes: [vec![0; 4], list.clone()].concat(),
    };
    let mut files: Vec<File> = lists.iter().map(round_file).collect();
    files.extend([configuration(number as u8 + 1), documentation(number)]);
    Slave { asleep: false, files }
}

/// The slot of each entry of a list that covers all slots.
fn spread(entries: usize) -> Vec<usize> {
    let mut slot = 0;
    let mut next = |entry: usize| {
        let first_of_next_slot = entry * SLOTS / entries == slot;
        slot += usize::from(first_of_next_slot);
        if first_of_next_slot {
            slot
        } else {
            1
        }
    };
    let slots = (0..entries).map(&mut next).collect();
    assert_eq!(slot, SLOTS);
    slots
}

/// One slot, its byte the first of file 0x3D; a receive stores nothing there.
fn from_documentation(slot: usize, sends: bool) -> [u8; 4] {
    [FileNumber::DOCUMENTATION.0 << 2, 0, u8::from(sends) << 4, slot as u8]
}

/// One slot, its byte at its own place of the data file behind record 0x00.
fn entry_of(slot: usize, sends: bool) -> [u8; 4] {
    let place = 4 + slot - 1;
    let operation = u8::from(sends);
    [DATA_FILE << 2 | (place % 4) as u8, (place / 4) as u8, operation << 4, slot as u8]
}

/// An entry of one slot made one of several, up to 16.
fn lengthened([address, record, operation, start]: [u8; 4], slots: usize) -> [u8; 4] {
    assert!((1..=16).contains(&slots));
    [address, record, operation | (slots - 1) as u8, start]
}

fn configuration(logical_name: u8) -> File {
    let mut bytes = vec![0; 16];
    bytes[7] = logical_name;
    File { number: FileNumber::CONFIGURATION, bytes }
}

/// Physical names of one series, with serial numbers in no order.
fn documentation(slave: usize) -> File {
    let series: u32 = 7;
    let serial = (slave as u32 + 1).wrapping_mul(0x0100_0193) ^ 0x811C_9DC5;
    let mut bytes = vec![0; 4];
    bytes.extend(series.to_be_bytes());
    bytes.extend(serial.to_be_bytes());
    File { number: FileNumber::DOCUMENTATION, bytes }
}

/// In edition 1, or in edition 2 where there are too many slaves for it.
fn encode(slaves: Vec<Slave>) -> Vec<u8> {
    let pending = Pending { flag: false, name: LogicalName(0), pb2: 0, pb3: 0 };
    let edition = if slaves.len() > MOST_SLAVES { Edition::Two } else { Edition::One };
    let file = Cluster { edition, epoch: 0, pending, slaves }.encode();
    assert!(model::check(&file).is_ok());
    file
}

#[cfg(test)]
mod tests {
    use super::*;

    fn last_bytes(file: &[u8]) -> Vec<u64> {
        let cluster = model::check(file).expect("a legal file");
        cluster.slaves.iter().map(|slave| slave.physical_name() % 256).collect()
    }

    /// In the other files no two names do.
    #[test]
    fn of_names_that_share_their_last_byte() {
        assert_eq!(last_bytes(&sharing_a_byte(32)), [0; 32]);
        let mut others = last_bytes(&small(64, 2, |_| LogicalName::UNNAMED.0));
        others.sort_unstable();
        others.dedup();
        assert_eq!(others.len(), 64);
    }
}
