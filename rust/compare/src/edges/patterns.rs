//! The edges of nine-bit patterns of the line (document 02, request 14): all 512, each firework's byte with both parity bits,
//! patterns above 511, and fireworks with one to four of their bits flipped.

use super::Edge;
use crate::case::{Call, Outcome};
use crate::engine::{Engine, BROKEN, DATA_BYTE, FIREWORK};

/// "31, a pattern above 511"
const ABOVE: u8 = 31;
const PATTERNS: u16 = 512;
const PARITY: u16 = 0x100;

/// The list of document 01, each with the parity bit that makes its count of ones odd: 4, 3, 5, 4, 3, 4, 4 and 5 without it.
const FIREWORKS: [u16; 8] = [0x178, 0x049, 0x0BA, 0x18B, 0x064, 0x155, 0x1A6, 0x097];

/// Each set of four bits that turns one firework into another: 0 and 1, 2 and 3, 4 and 5, 6 and 7 by bits 8, 5, 4 and 0, and so
/// on. Each of the four does so with all eight.
const FOUR_REACH: [u16; 4] = [0b1_0011_0001, 0b1_1100_0010, 0b1_0001_1100, 0b0_0010_1101];

/// So many edges there are.
const EDGES: usize = 512 + 16 + 16 + 2_040;

pub fn hold(engine: &dyn Engine) {
    super::hold_all(engine, [all(), with_both_parities(), above(), flipped()], EDGES);
}

/// How many of the nine bits are 1.
fn ones(pattern: u16) -> usize {
    format!("{pattern:b}").matches('1').count()
}

fn told(what: &'static str, pattern: u16, class: u8) -> Edge {
    let call = Call::Pattern { pattern };
    Edge::new(what, call, Outcome { number: 0, class: Some(class), ..Outcome::default() })
}

/// "data byte (even count of ones), a firework (odd count and in the list), or broken"
fn all() -> Vec<Edge> {
    let class = |pattern| match ones(pattern) % 2 {
        0 => DATA_BYTE,
        _ if FIREWORKS.contains(&pattern) => FIREWORK,
        _ => BROKEN,
    };
    (0..PATTERNS).map(|pattern| told("each pattern", pattern, class(pattern))).collect()
}

/// "in the list" is a byte: with its odd parity a firework, with its even one data.
fn with_both_parities() -> Vec<Edge> {
    let both = |firework| {
        [
            told("a firework's byte with an odd count of ones", firework, FIREWORK),
            told("the same byte with an even one", firework ^ PARITY, DATA_BYTE),
        ]
    };
    FIREWORKS.into_iter().flat_map(both).collect()
}

/// Just above, the greatest, single bits above bit 8, and fireworks with one such bit.
fn above() -> Vec<Edge> {
    let plain = [512, 513, 1_023, 1_024, 32_767, 32_768, 65_534, 65_535];
    let fireworks = FIREWORKS.map(|firework| firework + PATTERNS);
    let refused = |pattern| Edge::refused("a pattern above 511", Call::Pattern { pattern }, ABOVE);
    plain.into_iter().chain(fireworks).map(refused).collect()
}

/// "No firework pattern with one to three of its nine bits flipped is read as a firework." Four make another of it exactly by
/// the masks above; an odd number of them makes a data byte.
fn flipped() -> Vec<Edge> {
    let masks: Vec<u16> = (1..PATTERNS).filter(|&mask| ones(mask) <= 4).collect();
    let class = |mask: u16| match ones(mask) % 2 {
        1 => DATA_BYTE,
        _ if FOUR_REACH.contains(&mask) => FIREWORK,
        _ => BROKEN,
    };
    let of = |firework: u16| {
        let masks = masks.clone();
        masks.into_iter().map(move |mask| told("a firework, some bits flipped", firework ^ mask, class(mask)))
    };
    FIREWORKS.into_iter().flat_map(of).collect()
}

#[cfg(test)]
mod tests {
    use super::{ones, FIREWORKS, FOUR_REACH, PATTERNS};

    /// Which flips of how many bits make a firework of a firework, counted: none of one to three, 32 of the 1,008 of four.
    #[test]
    fn four_flips_reach_another_firework_in_32_ways() {
        let flips = |count| (0..PATTERNS).filter(move |&mask| ones(mask) == count);
        let reach = |count| {
            let pairs = FIREWORKS.into_iter().flat_map(move |from| flips(count).map(move |mask| (from, mask)));
            pairs.filter(|(from, mask)| FIREWORKS.contains(&(from ^ mask))).collect::<Vec<_>>()
        };
        assert_eq!([1, 2, 3].map(|count| reach(count).len()), [0; 3]);
        assert_eq!((8 * flips(4).count(), reach(4).len()), (1_008, 32));
        let mut masks: Vec<u16> = reach(4).into_iter().map(|(_, mask)| mask).collect();
        masks.sort_unstable();
        masks.dedup();
        let mut expected = FOUR_REACH;
        expected.sort_unstable();
        assert_eq!(masks, expected);
    }
}
