//! Multipartner rounds in the form that document 01 names: nested loops over slots and entries, with a
//! labelled exit at the covering entry or the end entry. It is here to tell what that form costs by itself.

use crate::edition::Edition;
use crate::multipartner::turns_of;
use crate::survey::{for_each_bit, Survey, MOST_SLAVES};
use crate::{ANSWER_BYTES, BROADCAST};

/// Set in the operations from 8 on.
const MULTIPLEXED: u32 = 0x8000;

/// A slave that takes part, awake and not unnamed: its number in the table, and where its round descriptor list begins
/// and ends, which is before its file 0x3D and so below 65,536.
#[derive(Clone, Copy)]
struct Partner {
    slave: usize,
    list: (u16, u16),
}

/// Runs the round, puts what was sent into the answer and returns the mask.
pub fn run<const ENTRY: usize>(
    file: &mut [u8],
    survey: &Survey<ENTRY>,
    round: u8,
    answer: &mut [u8; ANSWER_BYTES],
) -> u64 {
    let mut partners = [Partner { slave: 0, list: (0, 0) }; MOST_SLAVES];
    let mut count = 0;
    for_each_bit(survey.addressed(file, BROADCAST), |slave| {
        if let Some((place, size)) = survey.find(file, slave, round) {
            partners[count] = Partner { slave, list: (place as u16 + 4, (place + size) as u16) };
            count += 1;
        }
    });
    let turns = turns_of(file[Edition::of::<ENTRY>().epoch]);
    let mut mask = 0;
    for slot in 1..ANSWER_BYTES as u8 {
        if let Some(byte) = run_slot(file, survey, &partners[..count], slot, turns) {
            answer[usize::from(slot)] = byte;
            mask |= 1 << slot;
        }
    }
    mask
}

/// Senders read first; then those that receive store, if someone sent.
fn run_slot<const ENTRY: usize>(
    file: &mut [u8],
    survey: &Survey<ENTRY>,
    partners: &[Partner],
    slot: u8,
    turns: u32,
) -> Option<u8> {
    let mut byte = 0xFF;
    let mut someone_sent = false;
    let mut stores = [0u16; MOST_SLAVES];
    let mut store_count = 0;
    for partner in partners {
        let list = &file[usize::from(partner.list.0)..usize::from(partner.list.1)];
        let Some(entry) = acting(list, slot, turns) else {
            continue;
        };
        let number = entry >> 26;
        let least = match entry >> 12 & 15 {
            1 | 5 | 9 | 11 | 13 | 15 => 0,
            0 | 2 | 4 | 8 | 10 | 12 | 14 if (0x10..=0x3C).contains(&number) => 4,
            _ => continue,
        };
        let Some((place, size)) = survey.find(file, partner.slave, number as u8) else {
            continue;
        };
        let offset = (entry >> 14 & 0x3FC | entry >> 24 & 3) as usize + usize::from(slot - (entry as u8 & 63));
        if offset < least || offset >= size {
            continue;
        }
        if least == 0 {
            byte &= file[place + offset];
            someone_sent = true;
        } else {
            stores[store_count] = (place + offset) as u16;
            store_count += 1;
        }
    }
    if !someone_sent {
        return None;
    }
    for &place in &stores[..store_count] {
        file[usize::from(place)] = byte;
    }
    Some(byte)
}

/// The first entry before the end that covers the slot and is not out of turn.
fn acting(list: &[u8], slot: u8, turns: u32) -> Option<u32> {
    let mut found = None;
    'entries: for entry in list.as_chunks().0 {
        let [_, _, operation_and_length, start] = *entry;
        let is_end = operation_and_length & 0xE0 == 0x60;
        if is_end {
            break 'entries;
        }
        let covers = slot.wrapping_sub(start & 63) <= operation_and_length & 15;
        if covers && !is_out_of_turn(u32::from_be_bytes(*entry), turns) {
            found = Some(u32::from_be_bytes(*entry));
            break 'entries;
        }
    }
    found
}

/// A multiplexed entry, one of operations 8 to 15, that is not among these turns.
#[inline]
fn is_out_of_turn(entry: u32, turns: u32) -> bool {
    let operation_less_8 = entry >> 12 & 7;
    let field = entry >> 6 & 3;
    entry & MULTIPLEXED != 0 && turns >> (4 * operation_less_8 + field) & 1 == 0
}
