//! Owner files.

use crate::{refused_files, FILL, M10};
use ttpa::{owner, TtpaError, MOST_OWNER_BYTES};

/// The cluster of the example. Slave 01 sends in slots 1 and 2 of round 2; two unnamed slaves would send in slots 3 and
/// 2.
const DEMO: &[u8] = include_bytes!("../../../../c/demo.cluster");
/// Where it keeps the logical names of these two, and the start slot of the last one's entry.
const SECOND_NAME: usize = 0x7F;
const THIRD_NAME: usize = 0xBF;
const THIRD_SLOT: usize = 0xB7;
const THIRD_OPERATION: usize = 0xB6;
const MASTER: u8 = 0x80;

/// Rows of one record each: nobody sends.
const NOBODY: [u8; 36] = [
    0, 0, 0, 0, 3, 0, 4, 5, 6, 0, 7, 8, //
    MASTER, 0, 0, 0, MASTER, 0, 0, 0, MASTER, 0, 0, 0, //
    MASTER, 0, 0, 0, MASTER, 0, 0, 0, MASTER, 0, 0, 0,
];

fn demo_with(changes: &[(usize, u8)]) -> Vec<u8> {
    let mut file = DEMO.to_vec();
    changes.iter().for_each(|&(place, byte)| file[place] = byte);
    file
}

/// All three named, the last one sending in slot 4.
fn planned() -> Vec<u8> {
    demo_with(&[(SECOND_NAME, 0x03), (THIRD_NAME, 0x02), (THIRD_SLOT, 0x04)])
}

/// Its owner file: round 2 has five slots, and so two records.
const PLANNED: [u8; 40] = [
    0, 0, 0, 0, 3, 0, 4, 6, 7, 0, 8, 9, //
    MASTER, 0, 0, 0, MASTER, 1, 1, 3, 2, 0, 0, 0, MASTER, 0, 0, 0, //
    MASTER, 0, 0, 0, MASTER, 0, 0, 0, MASTER, 0, 0, 0,
];

#[test]
fn an_owner_file_is_written() {
    let mut buffer = [FILL; MOST_OWNER_BYTES];
    assert_eq!(owner(M10, MASTER, &mut buffer).map(|owners| owners.bytes().to_vec()), Ok(NOBODY.to_vec()));
    assert_eq!(buffer[36..], [FILL; MOST_OWNER_BYTES - 36]);
    let mut one_sender = NOBODY;
    one_sender[17..19].fill(0x01);
    assert_eq!(owner(DEMO, MASTER, &mut buffer).map(|owners| owners.bytes().to_vec()), Ok(one_sender.to_vec()));
    let mut just_enough = [FILL; PLANNED.len()];
    assert_eq!(owner(&planned(), MASTER, &mut just_enough).map(|owners| owners.bytes().len()), Ok(40));
    assert_eq!(just_enough, PLANNED);
}

#[test]
fn rows_are_those_of_the_rounds() {
    let mut buffer = [FILL; MOST_OWNER_BYTES];
    let planned = planned();
    let owners = owner(&planned, MASTER, &mut buffer).expect("no two senders in a slot");
    let alone: &[u8] = &[MASTER, 0, 0, 0];
    for round in [0, 3, 4, 6, 7] {
        assert_eq!(owners.row(round), Some(alone), "round {round}");
    }
    assert_eq!(owners.row(2), Some(&[MASTER, 1, 1, 3, 2, 0, 0, 0][..]));
    for round in [1, 5, 8, 9, u8::MAX] {
        assert_eq!(owners.row(round), None, "round {round}");
    }
}

/// The call refuses on this ground and leaves the buffer.
fn assert_refused(file: &[u8], bytes: usize, ground: TtpaError) {
    let mut buffer = vec![FILL; bytes];
    assert_eq!(owner(file, MASTER, &mut buffer), Err(ground));
    assert_eq!(buffer, vec![FILL; bytes]);
}

#[test]
fn an_owner_file_is_refused_on_each_ground() {
    for (file, ground) in refused_files() {
        assert_refused(&file, MOST_OWNER_BYTES, ground);
        // the file's number comes before that of the buffer
        assert_refused(&file, 0, ground);
    }
    // Slot 2 has two senders: of two names, of one name, and one named 0x00.
    for name in [0x02, 0x01, 0x00] {
        let clashing = demo_with(&[(THIRD_NAME, name)]);
        assert_refused(&clashing, MOST_OWNER_BYTES, TtpaError::TwoSenders);
        assert_refused(&clashing, 0, TtpaError::TwoSenders);
    }
    assert_refused(&planned(), PLANNED.len() - 1, TtpaError::OwnerBuffer);
    assert_refused(M10, NOBODY.len() - 1, TtpaError::OwnerBuffer);
    assert_refused(M10, 0, TtpaError::OwnerBuffer);
}

/// A multiplexed send is refused before two senders in a slot, a multiplexed receive is passed over.
#[test]
fn multiplexed_entries_have_no_row() {
    for operation in [0x90, 0xB0, 0xD0, 0xF0] {
        let file = demo_with(&[(THIRD_NAME, 0x02), (THIRD_OPERATION, operation)]);
        assert_refused(&file, MOST_OWNER_BYTES, TtpaError::MultiplexedSend);
        assert_refused(&file, 0, TtpaError::MultiplexedSend);
        assert_refused(
            &demo_with(&[(SECOND_NAME, 0x03), (THIRD_NAME, 0x02), (THIRD_OPERATION, operation)]),
            0,
            TtpaError::MultiplexedSend,
        );
    }
    for operation in [0x80, 0xA0, 0xC0, 0xE0] {
        let file = demo_with(&[(SECOND_NAME, 0x03), (THIRD_NAME, 0x02), (THIRD_OPERATION, operation)]);
        let mut buffer = [FILL; MOST_OWNER_BYTES];
        let owners = owner(&file, MASTER, &mut buffer).expect("nobody sends multiplexed");
        assert_eq!(owners.row(2), Some(&[MASTER, 1, 1, 3][..]));
    }
}

#[test]
fn the_round_sends_as_planned() {
    let mut file = planned();
    let mut answer = [0; ttpa::ANSWER_BYTES];
    assert_eq!(ttpa::round(&mut file, &[0xBA], &mut answer), Ok(ttpa::Senders(0b1_1110)));
}
