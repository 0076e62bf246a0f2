//! Every safe function on examples worked out by hand: what it answers, each number by which it refuses, and that
//! lent memory is then as it was.

mod calls;
mod contents;
mod editions;
mod errors;
mod frames;
mod joins;
mod owners;
mod patterns;
mod rounds;
mod runs;
mod screens;
mod summaries;
mod traces;

use ttpa::{TtpaError, ANSWER_BYTES};

/// Case M10 of document 01: two unnamed slaves with the physical names 0x700000010 and 0x7000000A0.
const M10: &[u8] = include_bytes!("../../../../crates/listing/stdin");

/// Places in M10.
const EDITION: usize = 2;
const LENGTH_LOW: usize = 7;
const EPOCH: usize = 8;
const HEADER_ZERO: usize = 13;
const SLEEP_BYTE: usize = 0x13;
const DOCUMENTATION_NUMBER: usize = 0x1C;
const FIRST_LOGICAL_NAME: usize = 0x27;
const SECOND_LOGICAL_NAME: usize = 0x4B;
const LAST_SERIAL: usize = 0x5F;

/// What an answer buffer holds before a call.
const FILL: u8 = 0xEE;
/// A buffer with room after the answer.
const ROOMY: [u8; ANSWER_BYTES + 2] = [FILL; ANSWER_BYTES + 2];

fn m10_with(place: usize, byte: u8) -> Vec<u8> {
    let mut file = M10.to_vec();
    file[place] = byte;
    file
}

/// A file for each ground that refuses one, 1 to 8.
fn refused_files() -> [(Vec<u8>, TtpaError); 8] {
    [
        (M10[..15].to_vec(), TtpaError::FileSize),
        (m10_with(0, 0x55), TtpaError::Mark),
        (m10_with(EDITION, 3), TtpaError::Edition),
        (m10_with(LENGTH_LOW, 0x61), TtpaError::LengthField),
        (m10_with(HEADER_ZERO, 1), TtpaError::Header),
        (m10_with(SLEEP_BYTE, 2), TtpaError::Layout),
        (m10_with(DOCUMENTATION_NUMBER, 0x3E), TtpaError::NeededFile),
        (m10_with(LAST_SERIAL, 0x10), TtpaError::EqualPhysicalNames),
    ]
}

/// The buffer after an answer: the firework, the bytes sent from slot 1 on, silence, and what was there.
fn answered(firework: u8, sent: &[u8]) -> [u8; ANSWER_BYTES + 2] {
    let mut buffer = ROOMY;
    buffer[..ANSWER_BYTES].fill(0xFF);
    buffer[0] = firework;
    buffer[1..=sent.len()].copy_from_slice(sent);
    buffer
}
