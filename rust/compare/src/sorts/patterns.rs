//! Sorts of nine-bit patterns of the line that have to occur.

use super::Sort;
use crate::case::{Call, Outcome};
use crate::engine::DATA_BYTE;

pub const BITS: usize = 9;
pub const PATTERNS: u16 = 512;
const FIREWORKS: [u8; 8] = [0x78, 0x49, 0xBA, 0x8B, 0x64, 0x55, 0xA6, 0x97];
const ABOVE: u8 = 31;

/// The byte of each firework with the parity bit that makes its count of ones odd.
pub fn firework_patterns() -> [u16; 8] {
    FIREWORKS.map(|byte| u16::from(byte) + 0x100 * ((byte.count_ones() as u16 + 1) % 2))
}

/// What a call is an example of; flipped bits are sorted where they are drawn.
pub fn sorts(call: &Call, outcome: &Outcome) -> Vec<Sort> {
    let Call::Pattern { pattern } = call else {
        return Vec::new();
    };
    let has_listed_byte = FIREWORKS.contains(&pattern.to_be_bytes()[1]);
    let occurs = [
        (*pattern == PATTERNS - 1, Sort::LastPattern),
        (*pattern == PATTERNS, Sort::FirstAbove),
        (*pattern == u16::MAX, Sort::GreatestPattern),
        (outcome.number == ABOVE && firework_patterns().contains(&(pattern % PATTERNS)), Sort::FireworkAbove),
        (outcome.told() == Some(DATA_BYTE) && has_listed_byte, Sort::FireworkByteAsData),
    ];
    occurs.into_iter().filter_map(|(came, sort)| came.then_some(sort)).collect()
}
