//! The checker and rounds.

use crate::{
    answered, m10_with, refused_files, EPOCH, FIRST_LOGICAL_NAME, LAST_SERIAL, M10, ROOMY, SECOND_LOGICAL_NAME,
    SLEEP_BYTE,
};
use ttpa::{check, round, Senders, TtpaError, ANSWER_BYTES};

const LONGEST_FILE: usize = 32_768;
/// "M1: execute 0x08 record 2 at 0xFF, epoch 5"
const M1: [u8; 6] = [0x55, 0x05, 0xFF, 0x22, 0x02, 0x8F];
/// "M2: write 0x08 record 1 at 0xFF, epoch 0"
const M2: [u8; 6] = [0x55, 0x00, 0xFF, 0x21, 0x01, 0x8A];
const MSD: [u8; 1] = [0x49];
const ROUND_2: [u8; 1] = [0xBA];

#[test]
fn a_file_is_accepted() {
    assert_eq!(check(M10), Ok(()));
}

#[test]
fn a_file_is_refused_on_each_ground() {
    for (file, ground) in refused_files() {
        assert_eq!(check(&file), Err(ground));
    }
    assert_eq!(check(&[0; LONGEST_FILE + 1]), Err(TtpaError::FileSize));
    assert_eq!(check(&[0; LONGEST_FILE]), Err(TtpaError::Mark));
}

#[test]
fn equal_logical_names_are_refused_on_loading_only() {
    for name in [0x00, 0x01, 0xFE] {
        let mut file = m10_with(FIRST_LOGICAL_NAME, name);
        assert_eq!(check(&file), Ok(()));
        file[SECOND_LOGICAL_NAME] = name;
        assert_eq!(check(&file), Err(TtpaError::EqualLogicalNames));
        assert_eq!(round(&mut file, &ROUND_2, &mut ROOMY.clone()), Ok(Senders(0)));
        assert_eq!(check(&file), Err(TtpaError::EqualLogicalNames));
        file[LAST_SERIAL] = 0x10;
        assert_eq!(check(&file), Err(TtpaError::EqualPhysicalNames));
    }
}

/// A foreign master writes 11 22 33 05 to record 1 of 0x08 at 0xFF.
#[test]
fn a_write_renames_nobody() {
    let (mut file, mut answer) = (M10.to_vec(), ROOMY);
    assert_eq!(round(&mut file, &M2, &mut answer), Ok(Senders(0)));
    assert_eq!(round(&mut file, &[0x49, 0x11, 0x22, 0x33, 0x05, 0x4C], &mut answer), Ok(Senders(0)));
    assert_eq!(answer, answered(0x49, &[]));
    let mut written = M10.to_vec();
    written[EPOCH..EPOCH + 5].copy_from_slice(&[1, 1, 0xFF, 0x21, 1]);
    for name in [FIRST_LOGICAL_NAME, SECOND_LOGICAL_NAME] {
        written[name - 3..=name].copy_from_slice(&[0x11, 0x22, 0x33, 0xFF]);
    }
    assert_eq!(file, written);
}

#[test]
fn an_address_frame_becomes_pending() {
    let (mut file, mut answer) = (M10.to_vec(), ROOMY);
    assert_eq!(round(&mut file, &M1, &mut answer), Ok(Senders(0)));
    assert_eq!(answer, answered(0x55, &[]));
    let mut pending = M10.to_vec();
    pending[EPOCH..EPOCH + 5].copy_from_slice(&[5, 1, 0xFF, 0x22, 2]);
    assert_eq!(file, pending);
}

#[test]
fn a_data_frame_is_answered() {
    let (mut file, mut answer) = (M10.to_vec(), ROOMY);
    assert_eq!(round(&mut file, &M1, &mut answer), Ok(Senders(0)));
    // Both slaves are unnamed, and their comparison value 0 is not above their names.
    assert_eq!(round(&mut file, &MSD, &mut answer), Ok(Senders(0b10)));
    assert_eq!(answer, answered(0x49, &[0x00]));
    assert_eq!(file[EPOCH], 6);
}

#[test]
fn a_multipartner_round_is_answered() {
    // The first slave sends bytes 4 and 5 of its file 0x10; the others are unnamed.
    let mut file = include_bytes!("../../../../c/demo.cluster").to_vec();
    let mut answer = ROOMY;
    assert_eq!(round(&mut file, &ROUND_2, &mut answer), Ok(Senders(0b110)));
    assert_eq!(answer, answered(0xBA, &[0xA1, 0x5C]));
}

/// The third slave of the example, named, sends multiplexed in slot 2: operation 9 with field 1 in epochs 1 and 5,
/// operation 15 in epoch 5 alone. Where it does, the slot has the and of 5C and its 3C.
#[test]
fn a_multiplexed_entry_has_its_turns() {
    for (operation, turns) in [(0x90, &[1, 5][..]), (0xF0, &[5][..])] {
        let mut file = include_bytes!("../../../../c/demo.cluster").to_vec();
        (file[0xBF], file[0xB6], file[0xB7]) = (0x02, operation, 1 << 6 | 2);
        for epoch in 1..=8 {
            let mut answer = ROOMY;
            assert_eq!(round(&mut file, &ROUND_2, &mut answer), Ok(Senders(0b110)));
            let byte = if turns.contains(&epoch) { 0x1C } else { 0x5C };
            assert_eq!(answer, answered(0xBA, &[0xA1, byte]), "epoch {epoch}");
        }
    }
}

/// The example's slave 01 is put to sleep: a read is not answered and wakes it, the next one is answered.
#[test]
fn a_slave_sleeps_for_one_round() {
    let mut file = include_bytes!("../../../../c/demo.cluster").to_vec();
    let sleep = [0x55, 0x01, 0x01, 0x22, 0x04, 0x73];
    let read = [0x55, 0x01, 0x01, 0xF4, 0x02, 0xA3];
    let mut sent = |frame: &[u8]| {
        let mut answer = ROOMY;
        let senders = round(&mut file, frame, &mut answer);
        (senders, answer, file[SLEEP_BYTE])
    };
    assert_eq!(sent(&sleep), (Ok(Senders(0)), answered(0x55, &[]), 0));
    assert_eq!(sent(&MSD), (Ok(Senders(0)), answered(0x49, &[]), 1));
    assert_eq!(sent(&read), (Ok(Senders(0)), answered(0x55, &[]), 1));
    assert_eq!(sent(&MSD), (Ok(Senders(0)), answered(0x49, &[]), 0));
    let serial = [0x00, 0x00, 0x00, 0x42, 0x0B];
    assert_eq!(sent(&MSD), (Ok(Senders(0b11_1110)), answered(0x49, &serial), 0));
}

/// The call refuses on this ground and leaves file and answer.
fn assert_refused(file: &[u8], frame: &[u8], answer_length: usize, ground: TtpaError) {
    let mut file_after = file.to_vec();
    let mut answer = ROOMY[..answer_length].to_vec();
    assert_eq!(round(&mut file_after, frame, &mut answer), Err(ground));
    assert_eq!(file_after, file);
    assert_eq!(answer, ROOMY[..answer_length]);
}

#[test]
fn a_round_is_refused_on_each_ground() {
    for (file, ground) in refused_files() {
        assert_refused(&file, &ROUND_2, ANSWER_BYTES, ground);
    }
    assert_refused(M10, &ROUND_2, ANSWER_BYTES - 1, TtpaError::ShortBuffer);
    let frames: [(&[u8], TtpaError); 6] = [
        (&[], TtpaError::Firework),
        (&[0x54], TtpaError::Firework),
        (&[0xBA, 0x00], TtpaError::FrameLength),
        (&[0x55, 0x05, 0xFF, 0x22, 0x02, 0x8E], TtpaError::CheckByte),
        (&[0x55, 0x05, 0xFF, 0x23, 0x02, 0x8E], TtpaError::Operation),
        (&[0x55, 0x05, 0x00, 0xF4, 0x01, 0xA5], TtpaError::BroadcastRead),
    ];
    for (frame, ground) in frames {
        assert_refused(M10, frame, ANSWER_BYTES, ground);
    }
}

/// The exclusive or of the four bytes alone is no check, neither of an address nor of the data of a write.
#[test]
fn a_check_without_its_firework_is_refused() {
    let mut awaiting_data = M10.to_vec();
    assert_eq!(round(&mut awaiting_data, &M2, &mut ROOMY.clone()), Ok(Senders(0)));
    for frame in [[0x55, 0x05, 0xFF, 0x22, 0x02, 0xDA], [0x49, 0x00, 0x00, 0x01, 0xFF, 0xFE]] {
        assert_refused(&awaiting_data, &frame, ANSWER_BYTES, TtpaError::CheckByte);
    }
}

#[test]
fn senders_are_told_by_slot() {
    let senders = Senders(1 << 63 | 0b110);
    let sent: Vec<u32> = (0..200).filter(|&slot| senders.sent_in(slot)).collect();
    assert_eq!(sent, [1, 2, 63]);
    assert!(!senders.sent_in(u32::MAX));
}
