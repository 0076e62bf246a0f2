//! What the entries of a round file have a slave do in each slot, as a picture shows it. Rounds are carried out by the engine alone; a
//! test holds this reading to the engine's answers.

use crate::cluster::{Record, Slave, SlaveFile};
use crate::layout::RECORD_BYTES;
use ttpa::ANSWER_BYTES;

/// Slot 0 is the master's.
pub const SLOTS: usize = ANSWER_BYTES;
/// No multiplexed entry tells more rounds apart.
pub const MOST_REMAINDERS: u8 = 8;
/// A receive stores in these files alone, and not in record 00.
const STORED: std::ops::RangeInclusive<u8> = 0x10..=0x3C;

/// What the first entry that covers a slot does there.
#[derive(Clone, Copy, Debug, PartialEq, Eq)]
pub enum Deed {
    Send,
    Receive,
    /// It covers the slot and does nothing: its byte is not there, may not be stored, or the operation is none of both.
    Nothing,
}

/// An entry that covers a slot, by the number of its record.
#[derive(Clone, Copy, Debug, PartialEq, Eq)]
pub struct Act {
    pub entry: usize,
    pub deed: Deed,
    /// The byte of the file that the entry names.
    pub place: usize,
}

/// What each slot has, slot 0 first.
pub type Row = [Option<Act>; SLOTS];

struct Entry {
    record: usize,
    code: u8,
    file: u8,
    first_byte: usize,
    start: usize,
    length: usize,
    multiplex: u8,
}

impl Entry {
    fn of((record, &[place, number, action, slot]): (usize, &Record)) -> Entry {
        Entry {
            record,
            code: action >> 4,
            file: place >> 2,
            first_byte: RECORD_BYTES * usize::from(number) + usize::from(place & 3),
            start: usize::from(slot & 63),
            length: usize::from(action & 15) + 1,
            multiplex: slot >> 6,
        }
    }

    /// The modulo and the remainder of the epochs in which it acts; None for one that acts in all.
    fn turn(&self) -> Option<(u8, u8)> {
        match self.code {
            8 | 9 | 12 | 13 => Some((4, self.multiplex)),
            10 | 11 => Some((8, self.multiplex)),
            14 | 15 => Some((8, self.multiplex + 4)),
            _ => None,
        }
    }

    fn is_end(&self) -> bool {
        matches!(self.code, 6 | 7)
    }

    fn covers(&self, slot: usize) -> bool {
        (self.start..self.start + self.length).contains(&slot)
    }

    fn act(&self, slave: &Slave, slot: usize) -> Act {
        let place = self.first_byte + slot - self.start;
        let bytes = slave.file(self.file).map_or(0, |file| RECORD_BYTES * file.records.len());
        let deed = match self.code {
            1 | 5 if place < bytes => Deed::Send,
            code if code >= 8 && code % 2 == 1 && place < bytes => Deed::Send,
            0 | 2 | 4 | 8 | 10 | 12 | 14 if place < bytes && self.stores(place) => Deed::Receive,
            _ => Deed::Nothing,
        };
        Act { entry: self.record, deed, place }
    }

    fn stores(&self, place: usize) -> bool {
        STORED.contains(&self.file) && place >= RECORD_BYTES
    }
}

/// The entries before the end; record 00 is the file's header.
fn entries(file: &SlaveFile) -> impl Iterator<Item = Entry> + '_ {
    file.records.iter().enumerate().skip(1).map(Entry::of).take_while(|entry| !entry.is_end())
}

/// By how many remainders of the epoch the round file's entries differ: 1 where none is multiplexed, 4 or 8.
pub fn remainders(slave: &Slave, round: u8) -> u8 {
    let turns = slave.file(round).into_iter().flat_map(entries).filter_map(|entry| entry.turn());
    turns.map(|(modulo, _)| modulo).max().unwrap_or(1)
}

/// What a slave that takes part does in the slots of a round. An entry out of turn is passed over.
pub fn row(slave: &Slave, round: u8, epoch: u8) -> Row {
    let in_turn = |entry: &Entry| entry.turn().is_none_or(|(modulo, remainder)| epoch % modulo == remainder);
    let list: Vec<Entry> = slave.file(round).into_iter().flat_map(entries).filter(in_turn).collect();
    std::array::from_fn(|slot| {
        let first = list.iter().find(|entry| entry.covers(slot));
        first.filter(|_| slot > 0).map(|entry| entry.act(slave, slot))
    })
}
