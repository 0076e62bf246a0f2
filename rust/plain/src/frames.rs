//! Address and data frames.

pub const MSA: u8 = 0x55;
pub const MSD: u8 = 0x49;
const FRAME_BYTES: usize = 6;

/// The round of a firework of a multipartner frame.
#[inline(always)]
pub fn round_of(firework: u8) -> Option<u8> {
    match firework {
        0x78 => Some(0),
        0xBA => Some(2),
        0x8B => Some(3),
        0x64 => Some(4),
        0xA6 => Some(6),
        0x97 => Some(7),
        _ => None,
    }
}

pub fn read_address(frame: &[u8], parts: &mut [u8; 5]) -> u8 {
    if frame.first() != Some(&MSA) {
        return 10;
    }
    let ground = address_ground(frame);
    if ground != 0 {
        return ground;
    }
    *parts = [frame[1], frame[2], frame[3] >> 2, frame[3] & 3, frame[4]];
    0
}

pub fn write_address(frame: &mut [u8], epoch: u8, name: u8, file: u8, operation: u8, record: u8) -> u8 {
    let Some(frame) = frame.first_chunk_mut::<FRAME_BYTES>() else {
        return 9;
    };
    if operation > 2 {
        return 13;
    }
    if operation == 0 && name == 0 {
        return 14;
    }
    if file > 63 {
        return 18;
    }
    let pb2 = file << 2 | operation;
    *frame = [MSA, epoch, name, pb2, record, check_of(MSA, u32::from_be_bytes([epoch, name, pb2, record]))];
    0
}

pub fn write_data(frame: &mut [u8], b0: u8, b1: u8, b2: u8, b3: u8) -> u8 {
    let Some(frame) = frame.first_chunk_mut::<FRAME_BYTES>() else {
        return 9;
    };
    *frame = [MSD, b0, b1, b2, b3, check_of(MSD, u32::from_be_bytes([b0, b1, b2, b3]))];
    0
}

/// Grounds 11 to 14 of a frame that begins with 0x55.
#[inline(always)]
pub fn address_ground(frame: &[u8]) -> u8 {
    let ground = data_ground(frame);
    if ground != 0 {
        return ground;
    }
    match frame[3] & 3 {
        3 => 13,
        0 if frame[2] == 0 => 14,
        _ => 0,
    }
}

/// Grounds 11 and 12 of a frame of six bytes.
#[inline(always)]
pub fn data_ground(frame: &[u8]) -> u8 {
    let &[firework, a, b, c, d, check] = frame else {
        return 11;
    };
    if check_of(firework, u32::from_be_bytes([a, b, c, d])) == check {
        0
    } else {
        12
    }
}

/// The check byte after four bytes, given as one number in either order: the round's firework is folded in.
#[inline]
pub fn check_of(firework: u8, bytes: u32) -> u8 {
    let halves = bytes ^ bytes >> 16;
    (halves ^ halves >> 8) as u8 ^ firework
}
