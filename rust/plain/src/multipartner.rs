//! Multipartner rounds. Each round descriptor list is read once, and each slot has a row of the places that are stored to and
//! sent from.

use crate::edition::Edition;
use crate::survey::{find_in, for_each_bit, Survey, MOST_SLAVES};
use crate::{ANSWER_BYTES, BROADCAST};
use std::array;

/// An entry's kind is its operation, and above that the length less one. So are the kinds of one slot that are not
/// multiplexed and do not end, and all kinds of one slot.
const SIMPLE_KINDS: u8 = 6;
const ONE_SLOT_KINDS: u8 = 16;
/// Operations 6 and 7 end the list: of these bits they have those.
const END_BITS: u8 = 0b1110;
const END: u8 = 0b0110;
/// Operation 3 covers its slots and does nothing.
const NOTHING: u8 = 3;
/// Outside record 0x00.
const LEAST_STORED: u32 = 4;
/// The files that a receive stores in.
const STORED: std::ops::RangeInclusive<u8> = 0x10..=0x3C;
/// An address byte is a file number and below it the align; no such byte differs from the second one here in the align alone.
const ALIGN_BITS: u32 = 3;
const NO_ADDRESS: u32 = 0x100;

/// The places of each slot, in a row of so many as there are slaves: from the front those that are stored to, from the back
/// those that are sent from. A slave has at most one of them in a slot.
struct Plan<const SLAVES: usize> {
    rows: [[u16; SLAVES]; ANSWER_BYTES],
    /// Where the next one comes, as an index into all rows.
    next_store: [u16; ANSWER_BYTES],
    next_send: [u16; ANSWER_BYTES],
}

/// A round descriptor list that is being read: the slots that its entries cover, and the file of which the last one spoke, since
/// neighbouring entries often speak of one.
struct List<'a, const ENTRY: usize> {
    directory: &'a [[u8; ENTRY]],
    covered: [bool; ANSWER_BYTES],
    named: Named,
}

/// A file: its number as an address byte has it, its place, how many bytes it has to send, and how many to store to behind record
/// 0x00. One that is not there has none.
struct Named {
    address: u32,
    place: u32,
    sent: u32,
    stored: u32,
}

/// Runs the round, puts what was sent into the answer and returns the mask. A plan costs its size: the editions' limits have
/// one each, few slaves a smaller one, and a single slave one without loops over a row.
pub fn run<const ENTRY: usize>(
    file: &mut [u8],
    survey: &Survey<ENTRY>,
    round: u8,
    answer: &mut [u8; ANSWER_BYTES],
) -> u64 {
    match survey.slaves().len() {
        0..=1 => run_planned::<ENTRY, 1>(file, survey, round, answer),
        2..=8 => run_planned::<ENTRY, 8>(file, survey, round, answer),
        9..=32 => run_planned::<ENTRY, 32>(file, survey, round, answer),
        _ => run_planned::<ENTRY, MOST_SLAVES>(file, survey, round, answer),
    }
}

#[inline(never)]
fn run_planned<const ENTRY: usize, const SLAVES: usize>(
    file: &mut [u8],
    survey: &Survey<ENTRY>,
    round: u8,
    answer: &mut [u8; ANSWER_BYTES],
) -> u64 {
    let turns = turns_of(file[Edition::of::<ENTRY>().epoch]);
    let mut plan = Plan::<SLAVES>::new();
    // All take part but the unnamed and who sleeps.
    for_each_bit(survey.addressed(file, BROADCAST), |slave| {
        let directory = survey.directory(file, slave);
        if let Some((place, size)) = find_in(directory, round) {
            let named = Named { address: NO_ADDRESS, place: 0, sent: 0, stored: 0 };
            let mut list = List { directory, covered: [false; ANSWER_BYTES], named };
            // Slot 0 never runs.
            list.covered[0] = true;
            plan.read_list(&mut list, file[place + 4..place + size].as_chunks().0, turns);
        }
    });
    plan.carry_out(file, answer)
}

impl<const SLAVES: usize> Plan<SLAVES> {
    #[inline(always)]
    fn new() -> Plan<SLAVES> {
        let last = SLAVES as u16 - 1;
        Plan {
            rows: [[0; SLAVES]; ANSWER_BYTES],
            next_store: array::from_fn(|slot| (SLAVES * slot) as u16),
            next_send: array::from_fn(|slot| (SLAVES * slot) as u16 + last),
        }
    }

    /// On its own, since its loop needs the registers.
    #[inline(never)]
    fn read_list<const ENTRY: usize>(&mut self, list: &mut List<ENTRY>, entries: &[[u8; 4]], turns: u32) {
        for entry in entries {
            let kind = entry[2].rotate_left(4);
            let slot = usize::from(entry[3] & 63);
            if kind >= SIMPLE_KINDS {
                if is_out_of_turn(kind, entry[3] >> 6, turns) {
                    continue;
                }
                if kind & END_BITS == END {
                    return;
                }
                if kind >= ONE_SLOT_KINDS {
                    self.enter_several(list, entry);
                    continue;
                }
            }
            if !list.covered[slot] {
                list.covered[slot] = true;
                let offset = list.offset(entry);
                self.enter(slot, kind, offset, &list.named);
            }
        }
    }

    /// On its own for the same reason.
    #[inline(never)]
    fn enter_several<const ENTRY: usize>(&mut self, list: &mut List<ENTRY>, entry: &[u8; 4]) {
        let (operation, length_less_one, start) = (entry[2] >> 4, entry[2] & 15, usize::from(entry[3] & 63));
        let offset = list.offset(entry);
        let slots = list.covered[start..].iter_mut().take(usize::from(length_less_one) + 1);
        for (later, covered) in slots.enumerate().filter(|(_, covered)| !**covered) {
            *covered = true;
            self.enter(start + later, operation, offset + later as u32, &list.named);
        }
    }

    #[inline(always)]
    fn enter(&mut self, slot: usize, operation: u8, offset: u32, named: &Named) {
        let slot = slot & (ANSWER_BYTES - 1);
        let index_bits = SLAVES * ANSWER_BYTES - 1;
        let place = (named.place + offset) as u16;
        if operation & 1 == 0 {
            if offset.wrapping_sub(LEAST_STORED) < named.stored {
                let index = usize::from(self.next_store[slot]) & index_bits;
                self.rows.as_flattened_mut()[index] = place;
                self.next_store[slot] = index as u16 + 1;
            }
        } else if operation != NOTHING && offset < named.sent {
            let index = usize::from(self.next_send[slot]) & index_bits;
            self.rows.as_flattened_mut()[index] = place;
            self.next_send[slot] = (index as u16).wrapping_sub(1);
        }
    }

    /// Slot by slot, senders before receivers: a later slot sees what an earlier one stored.
    #[inline(always)]
    fn carry_out(&self, file: &mut [u8], answer: &mut [u8; ANSWER_BYTES]) -> u64 {
        let mut mask = 0;
        for slot in 1..ANSWER_BYTES {
            let first = SLAVES * slot;
            let row = &self.rows[slot];
            let sends = first + SLAVES - 1 - usize::from(self.next_send[slot]);
            if sends == 0 {
                continue;
            }
            let mut byte = 0xFF;
            for &place in &row[SLAVES - sends..] {
                byte &= file[usize::from(place)];
            }
            store(file, &row[..usize::from(self.next_store[slot]) - first], byte);
            answer[slot] = byte;
            mask |= 1 << slot;
        }
        mask
    }
}

/// Puts a byte to all these places, four at a time.
#[inline(always)]
fn store(file: &mut [u8], places: &[u16], byte: u8) {
    let (fours, rest) = places.as_chunks::<4>();
    for four in fours {
        four.iter().for_each(|&place| file[usize::from(place)] = byte);
    }
    rest.iter().for_each(|&place| file[usize::from(place)] = byte);
}

impl<const ENTRY: usize> List<'_, ENTRY> {
    /// Where an entry's start slot is in its file, which is kept.
    #[inline(always)]
    fn offset(&mut self, &[address, record, ..]: &[u8; 4]) -> u32 {
        if u32::from(address) ^ self.named.address > ALIGN_BITS {
            self.find(address >> 2);
        }
        4 * u32::from(record) + (u32::from(address) ^ self.named.address)
    }

    /// Cold, since it is the way past the file that is kept.
    #[cold]
    #[inline(never)]
    fn find(&mut self, number: u8) {
        let (place, size) = find_in(self.directory, number).unwrap_or((0, 0));
        let sent = size as u32;
        let stored = if STORED.contains(&number) { sent.saturating_sub(LEAST_STORED) } else { 0 };
        self.named = Named { address: u32::from(number << 2), place: place as u32, sent, stored };
    }
}

/// A multiplexed entry, one of operations 8 to 15, that is not among these turns.
#[inline(always)]
fn is_out_of_turn(operation: u8, field: u8, turns: u32) -> bool {
    operation & 8 != 0 && turns >> (4 * (operation & 7) + field) & 1 == 0
}

/// The turns of an epoch, four bits for each of operations 8 to 15, one for each field: of 8, 9, 12 and 13 the field
/// that is the epoch modulo 4; of 10 and 11 the same in the first half of eight epochs, of 14 and 15 in the second.
pub fn turns_of(epoch: u8) -> u32 {
    let field = 1 << (epoch & 3);
    let (first, second) = if epoch & 4 == 0 { (field, 0) } else { (0, field) };
    let twice = |fields: u32| fields | fields << 4;
    twice(field) | twice(first) << 8 | twice(field) << 16 | twice(second) << 24
}
