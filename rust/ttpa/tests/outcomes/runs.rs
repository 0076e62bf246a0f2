//! Naming runs.

use crate::{
    answered, m10_with, refused_files, EPOCH, FIRST_LOGICAL_NAME, M10, ROOMY, SECOND_LOGICAL_NAME, SLEEP_BYTE,
};
use ttpa::{End, Run, Senders, TtpaError, ANSWER_BYTES};

/// Steps to the end; the masks of the steps.
fn run_to_end(run: &mut Run, file: &mut [u8], names: &[u8]) -> Vec<Senders> {
    let mut masks = Vec::new();
    while run.end() == End::Running {
        masks.push(run.step(file, names, &mut ROOMY.clone()).expect("a step of a running run"));
    }
    masks
}

#[test]
fn a_run_starts_at_zero() {
    let run = Run::start(&[1, 2]).expect("a good list");
    assert_eq!(run.words(), [0; 8]);
    assert_eq!(run.last_written(), (0, 0));
    assert_eq!(run.end(), End::Running);
}

#[test]
fn a_run_over_no_names_has_ended() {
    let run = Run::start(&[]).expect("an empty list");
    assert_eq!(run.words(), [2, 0, 0, 0, 0, 0, 0, 0]);
    assert_eq!(run.end(), End::NamesUsedUp);
}

#[test]
fn a_run_is_not_started() {
    assert_eq!(Run::start(&[1, 0x00]), Err(TtpaError::ListedName));
    assert_eq!(Run::start(&[0xFF, 2]), Err(TtpaError::ListedName));
    assert_eq!(Run::start(&[1, 2, 1]), Err(TtpaError::RepeatedName));
}

#[test]
fn a_run_ends_when_all_are_named() {
    let mut file = M10.to_vec();
    let mut run = Run::start(&[1, 2, 3]).expect("a good list");
    let masks = run_to_end(&mut run, &mut file, &[1, 2, 3]);
    // The totals of M10: the extra read; bit 32 of both physical names is 1 and bit 0 is 0, so 135 rounds each; and 4.
    // The search of the third name ended at its comparison with 0, the round at place 3, and the value is still that of
    // the second: the lesser physical name.
    assert_eq!(run.end(), End::AllNamed);
    assert_eq!(run.index(), 2);
    assert_eq!(run.next_round(), 3);
    assert_eq!(run.value(), 0x7_0000_0010);
    assert_eq!(run.rounds(), 275);
    assert_eq!(run.comparisons(), 131);
    assert_eq!(run.last_written(), (0, 0));
    assert_eq!(run.words(), [1, 2, 3, 0x7_0000_0010, 275, 131, 0, 0]);
    assert_eq!((file[FIRST_LOGICAL_NAME], file[SECOND_LOGICAL_NAME]), (2, 1));
    // Nobody has the first name, which is asked for twice, two writes, and then both answer the comparison with 0.
    assert_eq!(masks[..5], [Senders(0), Senders(0), Senders(0), Senders(0), Senders(0b10)]);
    assert_eq!(masks.len(), 275);
}

#[test]
fn a_run_ends_when_its_names_are_used_up() {
    let mut file = M10.to_vec();
    let mut run = Run::start(&[7]).expect("a good list");
    run_to_end(&mut run, &mut file, &[7]);
    assert_eq!(run.end(), End::NamesUsedUp);
    assert_eq!(run.words(), [2, 1, 0, 0x7_0000_00A0, 136, 65, 0x7, 0xA0]);
    assert_eq!(run.last_written(), (0x7, 0xA0));
    assert_eq!((file[FIRST_LOGICAL_NAME], file[SECOND_LOGICAL_NAME]), (0xFF, 7));
}

#[test]
fn a_taken_name_answers_with_its_series_number() {
    let (mut file, mut answer) = (m10_with(FIRST_LOGICAL_NAME, 9), ROOMY);
    let mut run = Run::start(&[9, 8]).expect("a good list");
    // The extra read, which leaves index and step; then the read of the pass.
    for (words, epoch) in [([0, 0, 0, 0, 1, 0, 0, 0], 2), ([0, 1, 0, 0, 2, 0, 0, 0], 4)] {
        assert_eq!(run.step(&mut file, &[9, 8], &mut answer), Ok(Senders(0b11_1110)));
        assert_eq!(answer, answered(0x49, &[0x00, 0x00, 0x00, 0x07, 0x4E]));
        assert_eq!((run.words(), file[EPOCH]), (words, epoch));
    }
}

/// The holder of a listed name sleeps: the extra read wakes it, and the name is taken.
#[test]
fn a_sleeping_holder_is_woken_by_the_extra_read() {
    let mut file = m10_with(FIRST_LOGICAL_NAME, 9);
    file[SLEEP_BYTE] = 1;
    let mut run = Run::start(&[9]).expect("a good list");
    assert_eq!(run.step(&mut file, &[9], &mut ROOMY.clone()), Ok(Senders(0)));
    assert_eq!((file[SLEEP_BYTE], run.words()), (0, [0, 0, 0, 0, 1, 0, 0, 0]));
    assert_eq!(run.step(&mut file, &[9], &mut ROOMY.clone()), Ok(Senders(0b11_1110)));
    assert_eq!(run.words(), [2, 1, 0, 0, 2, 0, 0, 0]);
}

#[test]
fn a_step_of_an_ended_run_alters_nothing() {
    for (words, end) in
        [([1, 0, 3, 5, 4, 1, 8, 9], End::AllNamed), ([2, 1, 0, 5, 1, 0, 8, 9], End::NamesUsedUp)]
    {
        let (mut file, mut answer) = (M10.to_vec(), ROOMY);
        let mut run = Run::from_words(words);
        assert_eq!(run.end(), end);
        assert_eq!(run.step(&mut file, &[1], &mut answer), Ok(Senders(0)));
        assert_eq!((run.words(), &file[..], answer), (words, M10, ROOMY));
    }
}

#[test]
fn a_stored_run_goes_on() {
    let mut file = M10.to_vec();
    let mut run = Run::start(&[1, 2, 3]).expect("a good list");
    while run.end() == End::Running {
        run = Run::from_words(run.words());
        run.step(&mut file, &[1, 2, 3], &mut ROOMY.clone()).expect("a step of a running run");
    }
    assert_eq!(run.words(), [1, 2, 3, 0x7_0000_0010, 275, 131, 0, 0]);
}

/// At the high half of bit 63: what is stored tells which round the step makes, and where it then stands.
#[test]
fn a_half_written_last_is_not_written_again() {
    let bit_63 = 1 << 63;
    let high = 0x8000_0000;
    let wide = 0x1_8000_0000;
    for (stored, senders, after) in [
        ((0, 0), 0, [0, 0, 6, 0, 5, 1, high, 0]),
        ((0, 5), 0, [0, 0, 5, 0, 5, 1, high, 5]),
        ((high, 5), 0, [0, 0, 6, 0, 5, 1, high, 0]),
        ((high, 0), 0b10, [0, 0, 7, bit_63, 5, 2, high, 0]),
        ((wide, 0), 0, [0, 0, 6, 0, 5, 1, high, 0]),
    ] {
        let mut run = Run::from_words([0, 0, 4, 0, 4, 1, stored.0, stored.1]);
        let stepped = run.step(&mut M10.to_vec(), &[1], &mut ROOMY.clone());
        assert_eq!((stepped, run.words()), (Ok(Senders(senders)), after), "{stored:X?}");
    }
}

/// The step refuses on this ground and leaves file, run and answer.
fn assert_refused(file: &[u8], words: [u64; 8], names: &[u8], answer_length: usize, ground: TtpaError) {
    let mut file_after = file.to_vec();
    let mut answer = ROOMY[..answer_length].to_vec();
    let mut run = Run::from_words(words);
    assert_eq!(run.step(&mut file_after, names, &mut answer), Err(ground));
    assert_eq!((&file_after[..], run.words()), (file, words));
    assert_eq!(answer, ROOMY[..answer_length]);
}

#[test]
fn a_step_is_refused_on_each_ground() {
    let fresh = [0; 8];
    for (file, ground) in refused_files() {
        assert_refused(&file, fresh, &[1], ANSWER_BYTES, ground);
    }
    assert_refused(M10, fresh, &[1], ANSWER_BYTES - 1, TtpaError::ShortBuffer);
    assert_refused(M10, fresh, &[1, 0x00], ANSWER_BYTES, TtpaError::ListedName);
    assert_refused(M10, fresh, &[1, 1], ANSWER_BYTES, TtpaError::RepeatedName);
    let no_positions = [
        [3, 0, 0, 0, 0, 0, 0, 0],
        [0, 1, 0, 0, 0, 0, 0, 0],
        [1, 2, 0, 0, 0, 0, 0, 0],
        [0, 0, 200, 0, 0, 0, 0, 0],
        [0, 0, 0, 0, 1_000_000, 0, 0, 0],
        [0, 0, 0, 0, 0, 1_000_000, 0, 0],
    ];
    for words in no_positions {
        assert_refused(M10, words, &[1], ANSWER_BYTES, TtpaError::Position);
    }
}

#[test]
fn another_end_mark_is_unknown() {
    assert_eq!(Run::from_words([3, 0, 0, 0, 0, 0, 0, 0]).end(), End::Unknown(3));
    assert_eq!(Run::from_words([u64::MAX, 0, 0, 0, 0, 0, 0, 0]).end(), End::Unknown(u64::MAX));
}
