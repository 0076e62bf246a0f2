//! Round descriptor lists: multipartner rounds and the owner file.

use super::{cluster_of, copied, file, words, LOAD, STORE, TEST};
use crate::workload::{MASTER, MOST_OWNER_BYTES};
use model::{Cluster, FileNumber, LogicalName, Slave};

const OWNED_ROUNDS: [u8; 6] = [0, 2, 3, 4, 6, 7];
/// Slot 0 never runs.
const SLOT_0: u64 = 1;
const FIRST_MULTIPLEXED: u8 = 8;

#[derive(Clone, Copy, PartialEq, Eq)]
enum Action {
    Receive,
    Send,
    End,
    Idle,
}

/// An entry, as far as it decides what is counted.
struct Entry {
    operation: u8,
    field: u8,
    file: FileNumber,
    start: usize,
    /// A bit for each slot it covers.
    slots: u64,
    /// The byte place of its start slot.
    first: usize,
}

impl Entry {
    fn of(record: &[u8]) -> Entry {
        let start = usize::from(record[3] % 64);
        Entry {
            operation: record[2] / 16,
            field: record[3] / 64,
            file: FileNumber(record[0] / 4),
            start,
            slots: ((2 << (record[2] % 16)) - 1) << start,
            first: 4 * usize::from(record[1]) + usize::from(record[0] % 4),
        }
    }

    fn action(&self) -> Action {
        match self.operation {
            6 | 7 => Action::End,
            3 => Action::Idle,
            operation if operation % 2 == 0 => Action::Receive,
            _ => Action::Send,
        }
    }

    fn is_multiplexed(&self) -> bool {
        self.operation >= FIRST_MULTIPLEXED
    }

    fn is_in_turn(&self, epoch: u8) -> bool {
        match self.operation {
            10 | 11 => self.field == epoch % 8,
            14 | 15 => self.field + 4 == epoch % 8,
            _ => self.field == epoch % 4,
        }
    }

    /// Those of these slots whose byte place lies in the slave's file, from this place of it on.
    fn within(&self, slave: &Slave, slots: u64, least: usize) -> u64 {
        let end = slave.file(self.file).map_or(0, |file| file.bytes.len());
        let is_inside = |slot: usize| (least..end).contains(&(self.first + slot - self.start));
        (self.start..64).filter(|&slot| slots >> slot & 1 == 1 && is_inside(slot)).map(|slot| 1 << slot).sum()
    }

    /// The slots in which it receives and stores.
    fn stored(&self, slave: &Slave, slots: u64) -> u64 {
        let may_store = (0x10..=0x3C).contains(&self.file.0);
        if may_store {
            self.within(slave, slots, 4)
        } else {
            0
        }
    }
}

fn entries_of(slave: &Slave, round: u8) -> Option<Vec<Entry>> {
    let file = slave.file(FileNumber(round))?;
    Some(file.bytes.chunks(4).skip(1).map(Entry::of).collect())
}

/// A slave's list while it is read: the slots that an entry covered, and the file of the entry that acted last.
struct Reader<'a> {
    slave: &'a Slave,
    covered: u64,
    known: Option<FileNumber>,
}

impl Reader<'_> {
    fn of(slave: &Slave) -> Reader<'_> {
        Reader { slave, covered: SLOT_0, known: None }
    }

    /// The slots that this entry is the first to cover.
    fn cover(&mut self, entry: &Entry) -> u64 {
        let fresh = entry.slots & !self.covered;
        self.covered |= fresh;
        fresh
    }

    /// Whether the file is that of the entry before; another one is looked up in the directory. Then the place.
    fn find(&mut self, file: FileNumber) -> u64 {
        let is_known = self.known.replace(file) == Some(file);
        TEST + if is_known { 0 } else { LOAD + TEST } + TEST
    }

    /// An entry whose turn it is: its slots, and their bytes. A receive stores where someone sent.
    fn act(&mut self, entry: &Entry, sent: u64) -> u64 {
        let fresh = self.cover(entry);
        let work = match entry.action() {
            Action::Send if fresh != 0 => {
                self.find(entry.file) + words(entry.within(self.slave, fresh, 0)) * LOAD
            }
            Action::Receive if fresh != 0 => {
                self.find(entry.file) + words(entry.stored(self.slave, fresh) & sent) * STORE
            }
            _ => 0,
        };
        TEST + work
    }

    /// An entry for the owner file: its slots; of a send its file and place, whether another sends there, and its slots'
    /// owner.
    fn plan(&mut self, entry: &Entry) -> u64 {
        let fresh = self.cover(entry);
        if fresh == 0 || entry.action() != Action::Send {
            return TEST;
        }
        TEST + self.find(entry.file) + TEST + words(entry.within(self.slave, fresh, 0)) * STORE
    }
}

/// A list in a round: of each entry its operation, of a multiplexed one its turn, and what it does; up to an end, or until
/// all slots are covered.
fn run(slave: &Slave, entries: &[Entry], epoch: u8, sent: u64) -> u64 {
    let mut reader = Reader::of(slave);
    let mut sum = 0;
    for entry in entries {
        if reader.covered == u64::MAX {
            break;
        }
        sum += LOAD + TEST + if entry.is_multiplexed() { TEST } else { 0 };
        if entry.action() == Action::End {
            break;
        }
        if !entry.is_multiplexed() || entry.is_in_turn(epoch) {
            sum += reader.act(entry, sent);
        }
    }
    sum
}

/// A list for the owner file, which is read up to an end, since a multiplexed send would refuse it.
fn planned(slave: &Slave, entries: &[Entry]) -> u64 {
    let mut reader = Reader::of(slave);
    let mut sum = 0;
    for entry in entries {
        sum += LOAD + TEST;
        match entry.action() {
            Action::End => break,
            _ if entry.is_multiplexed() => {}
            _ => sum += reader.plan(entry),
        }
    }
    sum
}

/// What a multipartner round does beside looking at the slaves' names: whether a slave has the file, and its list.
pub fn partners(cluster: &Cluster, round: u8, epoch: u8, sent: u64) -> u64 {
    let slaves = cluster.slaves.iter().filter(|slave| !slave.is_unnamed() && !slave.asleep);
    let list = |slave| entries_of(slave, round).map_or(0, |entries| run(slave, &entries, epoch, sent));
    slaves.map(|slave| TEST + list(slave)).sum()
}

/// Each slave's name, and of those named each list; the buffer; the content, which is settled only then; its length.
pub fn owner(file: &[u8]) -> u64 {
    let cluster = cluster_of(file);
    let length = model::owner(file, LogicalName(MASTER), &mut [0; MOST_OWNER_BYTES]).expect("an owner file");
    let lists = |slave: &Slave| -> u64 {
        let lists = OWNED_ROUNDS.into_iter().filter_map(|round| entries_of(slave, round));
        lists.map(|entries| TEST + planned(slave, &entries)).sum()
    };
    let names = cluster.slaves.len() as u64 * (LOAD + TEST);
    let named = cluster.slaves.iter().filter(|slave| !slave.is_unnamed());
    file::walk(&cluster) + names + named.map(lists).sum::<u64>() + TEST + copied(length) + STORE
}
