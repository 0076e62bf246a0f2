//! Screens that share turns.

use crate::{answered, m10_with, refused_files, EPOCH, FILL, FIRST_LOGICAL_NAME, M10, ROOMY};
use ttpa::{RecordRead, Screens, Senders, Served, TtpaError, ANSWER_BYTES, NAME_UNNAMED, SCREENS_BYTES};

/// Record 2 of 0x3D of slave 0x05, the serial number.
const SERIAL: RecordRead = RecordRead { name: 0x05, file: 0x3D, record: 2 };
/// What the first slave of M10 answers to it: 0x10, and the check with 0x49 folded in.
const SERIAL_SENT: [u8; 5] = [0, 0, 0, 0x10, 0x59];

/// M10, its first slave named 0x05.
fn file() -> Vec<u8> {
    m10_with(FIRST_LOGICAL_NAME, 0x05)
}

/// The screens that wait, all with the same read.
fn waiting(screens: &[u8], read: RecordRead) -> Screens {
    let mut state = Screens::new();
    screens.iter().for_each(|&screen| state.post(screen, &read).expect("a good read"));
    state
}

#[test]
fn no_screen_waits_at_the_start() {
    let mut state = [0; SCREENS_BYTES];
    state[0] = 7;
    assert_eq!((Screens::new().bytes(), Screens::default()), (state, Screens::from_bytes(state)));
    let (mut file, mut answer, mut screens) = (file(), ROOMY, Screens::new());
    assert_eq!(screens.turn(&mut file, &mut answer), Ok(None));
    assert_eq!((file, answer, screens), (self::file(), ROOMY, Screens::new()));
}

#[test]
fn a_post_is_in_the_state() {
    let mut screens = Screens::new();
    assert_eq!(screens.post(7, &RecordRead { name: 0x21, file: 63, record: 255 }), Ok(()));
    assert_eq!((screens.bytes()[0], &screens.bytes()[29..]), (7, &[1, 0x21, 63, 255][..]));
    assert_eq!(screens.bytes()[1..29], [0; 28]);
}

#[test]
fn screens_are_served_in_cyclic_order() {
    let (mut file, mut answer, mut screens) = (file(), ROOMY, waiting(&[6, 1, 3], SERIAL));
    for (turn, screen) in (1..).zip([1, 3, 6]) {
        let served = Served { screen, senders: Senders(0b11_1110) };
        assert_eq!(screens.turn(&mut file, &mut answer), Ok(Some(served)));
        assert_eq!((answer, file[EPOCH]), (answered(0x49, &SERIAL_SENT), 2 * turn));
        assert_eq!(file[EPOCH + 1..EPOCH + 5], [1, 0x05, 0x3D << 2, 2]);
        // it posts again at once, and has to wait for the others
        if screen == 1 {
            assert_eq!(screens.post(1, &SERIAL), Ok(()));
        }
    }
    assert_eq!(screens.turn(&mut file, &mut answer).map(|served| served.map(|told| told.screen)), Ok(Some(1)));
    assert_eq!(screens.turn(&mut file, &mut answer), Ok(None));
    assert_eq!(screens.bytes()[0], 1);
}

#[test]
fn nobody_answers_at_the_unnamed_or_where_there_is_no_record() {
    let reads = [(NAME_UNNAMED, 0x3D, 2), (0x07, 0x3D, 2), (0x05, 0x3C, 2), (0x05, 0x3D, 3)];
    for (name, number, record) in reads {
        let (mut file, mut answer) = (file(), ROOMY);
        let mut screens = waiting(&[4], RecordRead { name, file: number, record });
        let served = Served { screen: 4, senders: Senders(0) };
        assert_eq!(screens.turn(&mut file, &mut answer), Ok(Some(served)));
        assert_eq!(answer, answered(0x49, &[]));
    }
}

#[test]
fn a_post_is_refused_on_each_ground() {
    let mut screens = waiting(&[0], SERIAL);
    let before = screens;
    let bad_file = RecordRead { file: 64, ..SERIAL };
    let bad_name = RecordRead { name: 0x00, ..SERIAL };
    let both = RecordRead { name: 0x00, ..bad_file };
    let refused = [
        (8, SERIAL, TtpaError::Screen),
        (255, both, TtpaError::Screen),
        (0, SERIAL, TtpaError::ScreenWaiting),
        (0, both, TtpaError::ScreenWaiting),
        (1, bad_file, TtpaError::FileNumber),
        (1, both, TtpaError::FileNumber),
        (1, bad_name, TtpaError::BroadcastRead),
    ];
    for (screen, read, ground) in refused {
        assert_eq!((screens.post(screen, &read), screens), (Err(ground), before));
    }
    let mut state = before.bytes();
    state[0] = 8;
    assert_eq!(Screens::from_bytes(state).post(0, &both), Err(TtpaError::Screen));
}

/// The turn refuses on this ground and leaves all that is lent.
fn assert_refused(file: &[u8], state: [u8; SCREENS_BYTES], answer_length: usize, ground: TtpaError) {
    let (mut left, mut answer, mut screens) =
        (file.to_vec(), vec![FILL; answer_length], Screens::from_bytes(state));
    assert_eq!(screens.turn(&mut left, &mut answer), Err(ground));
    assert_eq!((&left[..], answer, screens.bytes()), (file, vec![FILL; answer_length], state));
}

#[test]
fn a_turn_is_refused_on_each_ground() {
    let good = waiting(&[2], SERIAL).bytes();
    let with = |place: usize, byte: u8| {
        let mut state = good;
        state[place] = byte;
        state
    };
    for (file, ground) in refused_files() {
        assert_refused(&file, good, 0, ground);
        assert_refused(&file, Screens::new().bytes(), ANSWER_BYTES, ground);
        assert_refused(&file, with(0, 8), 0, TtpaError::Screen);
        assert_refused(&file, with(11, 64), 0, TtpaError::FileNumber);
        assert_refused(&file, with(10, 0x00), 0, TtpaError::BroadcastRead);
    }
    assert_refused(M10, with(0, 255), ANSWER_BYTES, TtpaError::Screen);
    assert_refused(M10, good, ANSWER_BYTES - 1, TtpaError::ShortBuffer);
    assert_refused(M10, Screens::new().bytes(), ANSWER_BYTES - 1, TtpaError::ShortBuffer);
}

/// A read whose turn was refused is served by the next that is not; a bad one that is not due is not looked at.
#[test]
fn a_refused_turn_keeps_its_read() {
    let (mut file, mut answer, mut screens) = (file(), ROOMY, waiting(&[2], SERIAL));
    assert_eq!(screens.turn(&mut file, &mut answer[..63]), Err(TtpaError::ShortBuffer));
    let mut state = screens.bytes();
    state[13..17].copy_from_slice(&[255, 0x00, 64, 0]);
    let mut screens = Screens::from_bytes(state);
    let told = screens.turn(&mut file, &mut answer).map(|served| served.map(|told| told.screen));
    assert_eq!((told, answer), (Ok(Some(2)), answered(0x49, &SERIAL_SENT)));
    assert_eq!(screens.turn(&mut file, &mut answer), Err(TtpaError::FileNumber));
}
