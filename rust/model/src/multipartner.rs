//! "Multipartner rounds": the round descriptor list of each slave, and what its entries do.

use crate::round::{Bus, ANSWER_BYTES};
use crate::{File, FileNumber, Slave};

/// Operations of 002, table 4: "0, 2, 4 receive; 1, 5 send; 6, 7 end", and of 8 to 15 "Even operations receive, odd ones
/// send" (document 02, request 7).
#[derive(Clone, Copy, Debug, PartialEq, Eq)]
enum EntryOperation {
    Receive,
    Send,
    End,
    /// Covers its slots and does nothing.
    Idle,
}

/// When a multiplexed entry acts: in the rounds whose epoch, modulo `rounds`, is `at`.
#[derive(Clone, Copy, Debug, PartialEq, Eq)]
struct Turn {
    rounds: u8,
    at: u8,
}

#[derive(Clone, Copy, Debug)]
struct Entry {
    file: FileNumber,
    align: usize,
    record: usize,
    operation: EntryOperation,
    length: usize,
    start: usize,
    /// None for an entry that is not multiplexed.
    turn: Option<Turn>,
}

impl Entry {
    fn of(record: &[u8]) -> Entry {
        let number = record[2] / 16;
        let operation = match number {
            0 | 2 | 4 => EntryOperation::Receive,
            1 | 5 => EntryOperation::Send,
            6 | 7 => EntryOperation::End,
            3 => EntryOperation::Idle,
            _ if number.is_multiple_of(2) => EntryOperation::Receive,
            _ => EntryOperation::Send,
        };
        Entry {
            file: FileNumber(record[0] / 4),
            align: usize::from(record[0] % 4),
            record: usize::from(record[1]),
            operation,
            length: usize::from(record[2] % 16) + 1,
            start: usize::from(record[3] % 64),
            turn: turn_of(number, record[3] / 64),
        }
    }

    /// A multiplexed entry whose turn it is not in this epoch.
    fn out_of_turn(&self, epoch: u8) -> bool {
        self.turn.is_some_and(|turn| epoch % turn.rounds != turn.at)
    }

    fn is_multiplexed(&self, operation: EntryOperation) -> bool {
        self.turn.is_some() && self.operation == operation
    }

    fn covers(&self, slot: usize) -> bool {
        (self.start..self.start + self.length).contains(&slot)
    }

    /// "The byte place is 4 × record + align + (slot − start)."
    fn place(&self, slot: usize) -> usize {
        4 * self.record + self.align + (slot - self.start)
    }
}

/// "Operations 8, 9, 12 and 13 act when the multiplex field equals the epoch modulo 4 [..] Operations 10 and 11 act
/// when it equals the epoch modulo 8; 14 and 15 when it plus 4 does."
fn turn_of(operation: u8, multiplex: u8) -> Option<Turn> {
    match operation {
        8 | 9 | 12 | 13 => Some(Turn { rounds: 4, at: multiplex }),
        10 | 11 => Some(Turn { rounds: 8, at: multiplex }),
        14 | 15 => Some(Turn { rounds: 8, at: multiplex + 4 }),
        _ => None,
    }
}

/// "From record 1, each record is an entry"
fn round_descriptor_list(file: &File) -> Vec<Entry> {
    file.bytes
        .chunks(4)
        .skip(1)
        .map(Entry::of)
        .take_while(|entry| entry.operation != EntryOperation::End)
        .collect()
}

fn list_of(slave: &Slave, round: u8) -> Vec<Entry> {
    slave.file(FileNumber(round)).map(round_descriptor_list).unwrap_or_default()
}

/// "Round r runs file r of each slave not unnamed; others take no part." Nor does "a sleeping slave" (document 02, request
/// 9). The epoch is the one "already raised for this round".
pub fn run(slaves: &mut [Slave], round: u8, epoch: u8, bus: &mut Bus) {
    let mut partners: Vec<(&mut Slave, Vec<Entry>)> = Vec::new();
    for slave in slaves.iter_mut().filter(|slave| !slave.is_unnamed() && !slave.asleep) {
        // "A multiplexed entry out of turn is passed over, and the next one covering the slot is tried"
        let mut list = list_of(slave, round);
        list.retain(|entry| !entry.out_of_turn(epoch));
        partners.push((slave, list));
    }
    for slot in 1..ANSWER_BYTES {
        for (slave, list) in &partners {
            send(slave, list, slot, bus);
        }
        if let Some(byte) = bus.heard(slot) {
            for (slave, list) in &mut partners {
                receive(slave, list, slot, byte);
            }
        }
    }
}

/// "in each, the first entry before the end that covers it acts"
fn acting(list: &[Entry], slot: usize, operation: EntryOperation) -> Option<&Entry> {
    list.iter().find(|entry| entry.covers(slot)).filter(|entry| entry.operation == operation)
}

fn send(slave: &Slave, list: &[Entry], slot: usize, bus: &mut Bus) {
    if let Some(byte) = sent(slave, list, slot) {
        bus.send(slot, byte);
    }
}

/// The byte that a slave sends in a slot. "A place outside the file, or in a file not there, does nothing"
fn sent(slave: &Slave, list: &[Entry], slot: usize) -> Option<u8> {
    let entry = acting(list, slot, EntryOperation::Send)?;
    slave.file(entry.file)?.bytes.get(entry.place(slot)).copied()
}

/// Whether a slave has a byte to send in a slot of a round, as the owner writer has it: it "passes over every
/// multiplexed receive", and the file "is planned as if every slave were awake". "Slots 1 to 63 run"
pub fn would_send(slave: &Slave, round: u8, slot: usize) -> bool {
    let mut list = list_of(slave, round);
    list.retain(|entry| !entry.is_multiplexed(EntryOperation::Receive));
    (1..ANSWER_BYTES).contains(&slot) && !slave.is_unnamed() && sent(slave, &list, slot).is_some()
}

/// "a multiplexed send before the end in file" `round` "of a slave not unnamed"
pub fn has_multiplexed_send(slave: &Slave, round: u8) -> bool {
    !slave.is_unnamed() && list_of(slave, round).iter().any(|entry| entry.is_multiplexed(EntryOperation::Send))
}

/// "a receive stores only in files 0x10 to 0x3C, outside record 0x00"
fn receive(slave: &mut Slave, list: &[Entry], slot: usize, byte: u8) {
    let Some(entry) = acting(list, slot, EntryOperation::Receive) else {
        return;
    };
    let place = entry.place(slot);
    let may_store = (0x10..=0x3C).contains(&entry.file.0) && place >= 4;
    if !may_store {
        return;
    }
    if let Some(there) = slave.file_mut(entry.file).and_then(|file| file.bytes.get_mut(place)) {
        *there = byte;
    }
}
