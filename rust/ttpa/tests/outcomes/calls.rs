//! The C calls: what they are lent beside the safe functions' arguments is written on success only.

use crate::{FILL, M10, ROOMY};
use ttpa::calls;

const MASK_BEFORE: u64 = 0xEEEE_EEEE_EEEE_EEEE;
const FRESH: [u64; calls::RUN_WORDS] = [0; calls::RUN_WORDS];

#[test]
fn parts_are_written_on_success_only() {
    let mut parts = [FILL; 5];
    assert_eq!(calls::read_address(&[0x55, 0x05, 0x21, 0x41, 0x03, 0x32], &mut parts), 12);
    assert_eq!(parts, [FILL; 5]);
    assert_eq!(calls::read_address(&[0x55, 0x05, 0x21, 0x41, 0x03, 0x33], &mut parts), 0);
    assert_eq!(parts, [5, 0x21, 0x10, 1, 3]);
}

#[test]
fn frames_are_written_on_success_only() {
    let mut frame = [FILL; 6];
    assert_eq!(calls::write_address(&mut frame, 5, 0x21, 64, 1, 3), 18);
    assert_eq!(calls::write_data(&mut frame[..5], 1, 2, 4, 8), 9);
    assert_eq!(frame, [FILL; 6]);
    assert_eq!(calls::write_address(&mut frame, 5, 0x21, 0x10, 1, 3), 0);
    assert_eq!(frame, [0x55, 0x05, 0x21, 0x41, 0x03, 0x33]);
    assert_eq!(calls::write_data(&mut frame, 1, 2, 4, 8), 0);
    assert_eq!(frame, [0x49, 1, 2, 4, 8, 0x46]);
}

#[test]
fn the_mask_of_a_round_is_written_on_success_only() {
    let (mut file, mut answer, mut senders) = (M10.to_vec(), ROOMY, MASK_BEFORE);
    assert_eq!(calls::check(&file), 0);
    assert_eq!(calls::round(&mut file, &[0x54], &mut answer, &mut senders), 10);
    assert_eq!((&file[..], answer, senders), (M10, ROOMY, MASK_BEFORE));
    assert_eq!(calls::round(&mut file, &[0xBA], &mut answer, &mut senders), 0);
    assert_eq!((answer[0], senders), (0xBA, 0));
}

#[test]
fn a_run_is_written_on_success_only() {
    let mut run = [MASK_BEFORE; calls::RUN_WORDS];
    assert_eq!(calls::start(&[1, 1], &mut run), 16);
    assert_eq!(run, [MASK_BEFORE; calls::RUN_WORDS]);
    assert_eq!(calls::start(&[1], &mut run), 0);
    assert_eq!(run, FRESH);
}

#[test]
fn the_mask_of_a_step_is_written_by_a_running_run_only() {
    let (mut file, mut answer, mut senders) = (M10.to_vec(), ROOMY, MASK_BEFORE);
    let mut run = FRESH;
    assert_eq!(calls::step(&mut file, &mut run, &[1, 1], &mut answer, &mut senders), 16);
    assert_eq!((&file[..], run, answer, senders), (M10, FRESH, ROOMY, MASK_BEFORE));
    let mut ended = [2, 1, 0, 0, 1, 0, 7, 8];
    assert_eq!(calls::step(&mut file, &mut ended, &[1], &mut answer, &mut senders), 0);
    assert_eq!((&file[..], ended, answer, senders), (M10, [2, 1, 0, 0, 1, 0, 7, 8], ROOMY, MASK_BEFORE));
    assert_eq!(calls::step(&mut file, &mut run, &[1], &mut answer, &mut senders), 0);
    assert_eq!((run, answer[0], senders), ([0, 0, 0, 0, 1, 0, 0, 0], 0x49, 0));
}

#[test]
fn a_report_is_written_on_success_only() {
    let (mut file, mut report) = (M10.to_vec(), [MASK_BEFORE; calls::REPORT_WORDS]);
    assert_eq!(calls::trace(&mut file, &[0, 1, 0, 1, 0, 0, 2, 0xBA], &mut report), 19);
    assert_eq!(calls::trace(&mut file[..15], &[0, 1, 0, 1, 0, 0, 1, 0xBA], &mut report), 1);
    assert_eq!((&file[..], report), (M10, [MASK_BEFORE; calls::REPORT_WORDS]));
    assert_eq!(calls::trace(&mut file, &[0, 1, 0, 1, 0, 0, 1, 0xBA], &mut report), 0);
    assert_eq!((file[8], report), (1, [0, 0, 1, 0, 1]));
}

#[test]
fn the_length_of_an_owner_file_is_written_on_success_only() {
    let (mut buffer, mut length) = ([FILL; 37], MASK_BEFORE);
    assert_eq!(calls::owner(M10, 0x80, &mut buffer[..35], &mut length), 21);
    assert_eq!(calls::owner(&M10[..15], 0x80, &mut buffer, &mut length), 1);
    assert_eq!((buffer, length), ([FILL; 37], MASK_BEFORE));
    assert_eq!(calls::owner(M10, 0x80, &mut buffer, &mut length), 0);
    assert_eq!((buffer[calls::OWNER_INDEX], buffer[12], buffer[36], length), (3, 0x80, FILL, 36));
}

#[test]
fn the_length_of_a_converted_file_is_written_on_success_only() {
    let (mut buffer, mut length) = ([FILL; 130], MASK_BEFORE);
    assert_eq!(calls::to_edition_2(M10, &mut buffer[..127], &mut length), 26);
    assert_eq!(calls::to_edition_2(&M10[..15], &mut buffer, &mut length), 1);
    assert_eq!(calls::to_edition_1(M10, &mut buffer[..95], &mut length), 26);
    assert_eq!((buffer, length), ([FILL; 130], MASK_BEFORE));
    assert_eq!(calls::to_edition_1(M10, &mut buffer, &mut length), 0);
    assert_eq!((&buffer[..96], buffer[96], length), (M10, FILL, 96));
    assert_eq!(calls::to_edition_2(M10, &mut buffer, &mut length), 0);
    assert_eq!((buffer[2], buffer[127], buffer[128], length), (2, 0xA0, FILL, 128));
}

#[test]
fn the_count_of_a_summary_is_written_on_success_only() {
    let (mut held, mut count) = ([FILL; 3], MASK_BEFORE);
    assert_eq!(calls::fill(M10, &mut held[..1], &mut count), 24);
    assert_eq!(calls::fill(&M10[..15], &mut held, &mut count), 1);
    assert_eq!((held, count), ([FILL; 3], MASK_BEFORE));
    assert_eq!(calls::fill(M10, &mut held, &mut count), 0);
    assert_eq!((held, count), ([0xFF, 0xFF, FILL], 2));
    assert_eq!(calls::fill(M10, &mut held[..2], &mut count), 0);
}

#[test]
fn the_place_of_a_holder_is_written_on_success_only() {
    let (held, mut place) = ([0x05, 0xFF], MASK_BEFORE);
    for count in [3, 1 << 32, (1 << 32) + 2, u64::MAX] {
        assert_eq!(calls::holder(&held, count, 0x05, &mut place), 24);
    }
    assert_eq!(place, MASK_BEFORE);
    let mut holder = |count, name| (calls::holder(&held, count, name, &mut place), place);
    assert_eq!([holder(2, 0x05), holder(2, 0xFF)], [(0, 0), (0, 1)]);
    assert_eq!([holder(1, 0xFF), holder(0, 0x05), holder(2, 0x00)], [(0, calls::NOBODY); 3]);
    assert_eq!((calls::holder(&[], 0, 0x05, &mut place), place), (0, calls::NOBODY));
}

#[test]
fn a_summary_is_lent_with_its_room() {
    let (mut file, mut answer, mut senders) = (M10.to_vec(), ROOMY, MASK_BEFORE);
    let (mut held, mut run) = ([0xFF, 0xFF, FILL], FRESH);
    for count in [0, 1, 3, u64::MAX] {
        let round = calls::round_keeping(&mut file, &[0xBA], &mut answer, &mut senders, &mut held, count);
        let step = calls::step_keeping(&mut file, &mut run, &[1], &mut answer, &mut senders, &mut held, count);
        assert_eq!((round, step), (24, 24), "{count}");
    }
    assert_eq!(calls::round_keeping(&mut file, &[0xBA], &mut answer, &mut senders, &mut held[..1], 2), 24);
    assert_eq!((&file[..], answer, senders, run), (M10, ROOMY, MASK_BEFORE, FRESH));
    assert_eq!(calls::round_keeping(&mut file, &[0xBA], &mut answer, &mut senders, &mut held, 2), 0);
    assert_eq!((answer[0], senders, held), (0xBA, 0, [0xFF, 0xFF, FILL]));
    senders = MASK_BEFORE;
    assert_eq!(calls::step_keeping(&mut file, &mut run, &[1], &mut answer, &mut senders, &mut held, 2), 0);
    assert_eq!((run, answer[0], senders, held), ([0, 0, 0, 0, 1, 0, 0, 0], 0x49, 0, [0xFF, 0xFF, FILL]));
}

#[test]
fn mask_and_screen_of_a_turn_are_written_on_success_only() {
    let (mut file, mut answer, mut senders, mut screen) = (M10.to_vec(), ROOMY, MASK_BEFORE, FILL);
    let mut state = [FILL; 33];
    assert_eq!(calls::post(&mut state, 0, 0x05, 0x3D, 1), 27);
    assert_eq!(calls::turn(&mut file, &mut state, &mut answer, &mut senders, &mut screen), 27);
    assert_eq!((state, screen, senders), ([FILL; 33], FILL, MASK_BEFORE));
    assert_eq!(calls::screens(&mut state), 0);
    assert_eq!((state[0], state[1..] == [0; 32]), (7, true));
    let fresh = state;
    assert_eq!(calls::turn(&mut file, &mut state, &mut answer, &mut senders, &mut screen), 0);
    assert_eq!((state, screen, senders), (fresh, calls::NO_SCREEN, MASK_BEFORE));
    assert_eq!(calls::post(&mut state, 6, 0x05, 0x3D, 1), 0);
    screen = FILL;
    assert_eq!(calls::turn(&mut file, &mut state, &mut answer[..63], &mut senders, &mut screen), 9);
    assert_eq!((&file[..], answer, screen, senders), (M10, ROOMY, FILL, MASK_BEFORE));
    assert_eq!(calls::turn(&mut file, &mut state, &mut answer, &mut senders, &mut screen), 0);
    assert_eq!((answer[0], screen, senders, file[8]), (0x49, 6, 0, 2));
}

#[test]
fn the_length_of_a_join_is_written_on_success_only() {
    let mut second = M10.to_vec();
    let (mut out, mut length) = ([FILL; 180], MASK_BEFORE);
    assert_eq!(calls::join(M10, &second, &mut out, &mut length), 29);
    // the serial numbers of the two slaves, which M10 has as 0x10 and 0xA0
    (second[0x3B], second[0x5F]) = (0x11, 0xA1);
    assert_eq!(calls::join(M10, &second, &mut out[..175], &mut length), 30);
    assert_eq!(calls::join(M10, &second[..95], &mut out, &mut length), 4);
    assert_eq!((out, length), ([FILL; 180], MASK_BEFORE));
    assert_eq!(calls::join(M10, &second, &mut out, &mut length), 0);
    assert_eq!((length, out[3], &out[175..]), (176, 4, &[0xA1, FILL, FILL, FILL, FILL][..]));
}

#[test]
fn the_class_of_a_pattern_is_written_on_success_only() {
    let mut kind = FILL;
    assert_eq!((calls::pattern(512, &mut kind), kind), (31, FILL));
    assert_eq!((calls::pattern(0x155, &mut kind), kind), (0, calls::FIREWORK));
    assert_eq!((calls::pattern(u16::MAX, &mut kind), kind), (31, calls::FIREWORK));
    assert_eq!((calls::pattern(0x055, &mut kind), kind), (0, calls::DATA_BYTE));
    assert_eq!((calls::pattern(511, &mut kind), kind), (0, calls::BROKEN));
}

#[test]
fn the_length_of_a_slaves_file_is_written_on_success_only() {
    let (mut buffer, mut length) = ([FILL; 18], MASK_BEFORE);
    assert_eq!(calls::contents(&M10[..95], 0, 0x08, &mut buffer, &mut length), 4);
    assert_eq!((buffer, length), ([FILL; 18], MASK_BEFORE));
    assert_eq!(calls::contents(M10, 0, 0x08, &mut buffer, &mut length), 0);
    assert_eq!((length, buffer[7], &buffer[15..]), (16, 0xFF, &[0, FILL, FILL][..]));
    assert_eq!((calls::contents(M10, 2, 0x08, &mut buffer, &mut length), length), (0, 0));
}
