//! Slaves' files that are read.

use crate::{m10_with, refused_files, FILL, FIRST_LOGICAL_NAME, M10, SECOND_LOGICAL_NAME, SLEEP_BYTE};
use ttpa::{contents, to_edition, Edition, Senders, FILE_CONFIGURATION, FILE_DOCUMENTATION, SLAVE_FILE_BYTES};

/// The second slave's 0x3D: record 0x00, series 7 and serial 0xA0.
const SECOND_DOCUMENTED: [u8; 12] = [0, 0, 0, 0, 0, 0, 0, 7, 0, 0, 0, 0xA0];

#[test]
fn the_bytes_of_a_file_stand_in_front_of_the_buffer() {
    let mut buffer = [FILL; 14];
    assert_eq!(contents(M10, 1, FILE_DOCUMENTATION, &mut buffer), Ok(12));
    assert_eq!((&buffer[..12], &buffer[12..]), (&SECOND_DOCUMENTED[..], &[FILL; 2][..]));
    let mut short = [FILL; 11];
    assert_eq!(contents(M10, 1, FILE_DOCUMENTATION, &mut short), Ok(12));
    assert_eq!(short, SECOND_DOCUMENTED[..11]);
    assert_eq!(contents(M10, 1, FILE_DOCUMENTATION, &mut []), Ok(12));
}

#[test]
fn where_there_is_no_slave_or_file_the_length_is_0() {
    let mut buffer = [FILL; SLAVE_FILE_BYTES];
    for (slave, number) in [(2, FILE_CONFIGURATION), (u64::MAX, FILE_CONFIGURATION), (0, 0x02), (1, 0xFF)] {
        assert_eq!(contents(M10, slave, number, &mut buffer), Ok(0), "{slave} {number}");
    }
    assert_eq!(buffer, [FILL; SLAVE_FILE_BYTES]);
}

#[test]
fn a_sleeper_is_read_and_so_is_who_shares_a_name() {
    let mut buffer = [FILL; 16];
    let mut file = m10_with(SLEEP_BYTE, 1);
    (file[FIRST_LOGICAL_NAME], file[SECOND_LOGICAL_NAME]) = (5, 5);
    assert_eq!(contents(&file, 0, FILE_CONFIGURATION, &mut buffer), Ok(16));
    assert_eq!(buffer, [0, 0, 0, 0, 0, 0, 0, 5, 0, 0, 0, 0, 0, 0, 0, 0]);
}

#[test]
fn both_editions_give_the_same() {
    let (mut room, mut buffer) = ([0; 200], [FILL; 12]);
    let wide = to_edition(M10, Edition::Two, &mut room).expect("room enough");
    assert_eq!(contents(wide, 1, FILE_DOCUMENTATION, &mut buffer), Ok(12));
    assert_eq!(buffer, SECOND_DOCUMENTED);
}

#[test]
fn every_ground_of_the_cluster_file_refuses() {
    for (file, error) in refused_files() {
        let mut buffer = [FILL; 16];
        assert_eq!(contents(&file, 0, FILE_CONFIGURATION, &mut buffer), Err(error));
        assert_eq!(buffer, [FILL; 16]);
    }
}

#[test]
fn the_slots_of_a_mask_come_in_their_order() {
    assert!(Senders(0).slots().eq([]));
    assert!(Senders(1 << 63 | 0b1010_0010).slots().eq([1, 5, 7, 63]));
    assert!(Senders(u64::MAX).slots().eq(0..64));
}
