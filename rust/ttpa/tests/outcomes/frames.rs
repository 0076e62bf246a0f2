//! Address frames and data frames.

use crate::FILL;
use ttpa::{read_address, write_address, write_data, Address, TtpaError, FRAME_BYTES};

/// Write record 3 of file 0x10 at name 0x21: no two parts are equal.
const WRITE: Address = Address { epoch: 5, name: 0x21, file: 0x10, operation: 1, record: 3 };
const WRITE_FRAME: [u8; FRAME_BYTES] = [0x55, 0x05, 0x21, 0x41, 0x03, 0x33];
const READ: Address = Address { operation: 0, ..WRITE };

#[test]
fn an_address_frame_is_read() {
    assert_eq!(read_address(&WRITE_FRAME), Ok(WRITE));
}

#[test]
fn an_address_frame_is_not_read() {
    let refused: [(&[u8], TtpaError); 7] = [
        (&[], TtpaError::Firework),
        (&[0x49, 0x05, 0x21, 0x41, 0x03, 0x2F], TtpaError::Firework),
        (&WRITE_FRAME[..5], TtpaError::FrameLength),
        (&[0x55, 0x05, 0x21, 0x41, 0x03, 0x32], TtpaError::CheckByte),
        (&[0x55, 0x05, 0x21, 0x41, 0x03, 0x66], TtpaError::CheckByte),
        (&[0x55, 0x05, 0x21, 0x43, 0x03, 0x31], TtpaError::Operation),
        (&[0x55, 0x05, 0x00, 0x40, 0x03, 0x13], TtpaError::BroadcastRead),
    ];
    for (frame, ground) in refused {
        assert_eq!(read_address(frame), Err(ground));
    }
}

#[test]
fn an_address_frame_is_written_into_the_first_six_bytes() {
    let mut buffer = [FILL; FRAME_BYTES + 2];
    assert_eq!(write_address(&mut buffer, &WRITE), Ok(()));
    assert_eq!(buffer[..FRAME_BYTES], WRITE_FRAME);
    assert_eq!(buffer[FRAME_BYTES..], [FILL; 2]);
}

#[test]
fn an_address_frame_is_not_written() {
    let refused = [
        (FRAME_BYTES - 1, WRITE, TtpaError::ShortBuffer),
        (FRAME_BYTES, Address { operation: 3, ..WRITE }, TtpaError::Operation),
        (FRAME_BYTES, Address { operation: 4, ..WRITE }, TtpaError::Operation),
        (FRAME_BYTES, Address { name: 0x00, ..READ }, TtpaError::BroadcastRead),
        (FRAME_BYTES, Address { file: 64, ..WRITE }, TtpaError::FileNumber),
    ];
    for (length, address, ground) in refused {
        let mut buffer = vec![FILL; length];
        assert_eq!(write_address(&mut buffer, &address), Err(ground));
        assert_eq!(buffer, vec![FILL; length]);
    }
}

#[test]
fn a_data_frame_is_written_into_the_first_six_bytes() {
    let mut buffer = [FILL; FRAME_BYTES + 1];
    assert_eq!(write_data(&mut buffer, [1, 2, 4, 8]), Ok(()));
    assert_eq!(buffer, [0x49, 1, 2, 4, 8, 0x46, FILL]);
}

#[test]
fn a_data_frame_is_not_written() {
    let mut buffer = [FILL; FRAME_BYTES - 1];
    assert_eq!(write_data(&mut buffer, [1, 2, 4, 8]), Err(TtpaError::ShortBuffer));
    assert_eq!(buffer, [FILL; FRAME_BYTES - 1]);
}
