//! Summaries: who holds a name.

use crate::{
    answered, m10_with, refused_files, EPOCH, FIRST_LOGICAL_NAME, LAST_SERIAL, M10, ROOMY, SECOND_LOGICAL_NAME,
};
use ttpa::{round_keeping, End, Run, Senders, Summary, TtpaError, ANSWER_BYTES, MOST_SLAVES};

const ROUND_2: [u8; 1] = [0xBA];
const MSD: [u8; 1] = [0x49];
/// Execute record 1 of 0x08 at 0xFF, epoch 5.
const BAPTIZE: [u8; 6] = [0x55, 0x05, 0xFF, 0x22, 0x01, 0x8C];

fn summary(names: &[u8]) -> Summary {
    Summary::from_names(names).expect("at most 32 names")
}

#[test]
fn a_summary_has_the_names_of_its_file() {
    let empty = [0x54, 0x41, 1, 0, 0, 16, 0, 16, 0, 0, 0, 0, 0, 0, 0, 0];
    assert_eq!(Summary::of(&empty), Ok(Summary::default()));
    assert_eq!(Summary::default().names(), [0; 0]);
    assert_eq!(Summary::of(M10), Ok(summary(&[0xFF, 0xFF])));
    assert_eq!(
        Summary::of(&m10_with(SECOND_LOGICAL_NAME, 0x05)).map(|held| held.names().to_vec()),
        Ok(vec![0xFF, 5])
    );
    for (file, ground) in refused_files() {
        assert_eq!(Summary::of(&file), Err(ground));
    }
}

#[test]
fn a_stored_summary_has_its_names() {
    let names: Vec<u8> = (0..MOST_SLAVES as u8).collect();
    assert_eq!(summary(&names).names(), names);
    assert_eq!(Summary::from_names(&[0; MOST_SLAVES + 1]), Err(TtpaError::Summary));
    assert_ne!(summary(&[]), summary(&[0x00]));
    assert_eq!(format!("{:?}", summary(&[1, 2])), "Summary([1, 2])");
}

#[test]
fn the_first_holder_is_told() {
    let held = summary(&[0x06, 0x05, 0x05, 0xFF]);
    assert_eq!([0x06, 0x05, 0xFF].map(|name| held.holder(name)), [Some(0), Some(1), Some(3)]);
    // the room after the names is zeros, and nobody is named so
    assert_eq!([0x00, 0x07].map(|name| held.holder(name)), [None, None]);
    assert_eq!(summary(&[0xFF, 0x00]).holder(0x00), Some(1));
    assert_eq!(summary(&[]).holder(0xFF), None);
}

/// The slave whose comparison value is its physical name takes the new name 0x21; the data frame sent again finds nobody
/// unnamed who has it.
#[test]
fn a_round_keeps_its_summary() {
    let mut file = m10_with(SECOND_LOGICAL_NAME - 1, 0x21);
    file[SECOND_LOGICAL_NAME + 1..SECOND_LOGICAL_NAME + 9].copy_from_slice(&M10[LAST_SERIAL - 7..]);
    let (mut held, mut answer) = (Summary::of(&file).expect("a good file"), ROOMY);
    assert_eq!(round_keeping(&mut file, &BAPTIZE, &mut answer, &mut held), Ok(Senders(0)));
    assert_eq!((held, answer), (summary(&[0xFF, 0xFF]), answered(0x55, &[])));
    assert_eq!(round_keeping(&mut file, &[0x54], &mut answer, &mut held), Err(TtpaError::Firework));
    assert_eq!(held.names(), [0xFF, 0xFF]);
    for epoch in [6, 7] {
        assert_eq!(round_keeping(&mut file, &MSD, &mut answer, &mut held), Ok(Senders(0)));
        assert_eq!((held, answer), (summary(&[0xFF, 0x21]), answered(0x49, &[])));
        assert_eq!((file[EPOCH], file[SECOND_LOGICAL_NAME]), (epoch, 0x21));
        assert_eq!((held.holder(0x21), held.holder(0xFF)), (Some(1), Some(0)));
    }
}

#[test]
fn a_run_keeps_its_summary() {
    let (mut file, mut held, names) = (M10.to_vec(), summary(&[0xFF, 0xFF]), [1, 2, 3]);
    let mut run = Run::start(&names).expect("a good list");
    while run.end() == End::Running {
        run.step_keeping(&mut file, &names, &mut ROOMY.clone(), &mut held).expect("a step of a running run");
        assert_eq!(held.names(), [file[FIRST_LOGICAL_NAME], file[SECOND_LOGICAL_NAME]]);
        round_keeping(&mut file, &ROUND_2, &mut ROOMY.clone(), &mut held).expect("a round");
    }
    // as without a summary
    assert_eq!(run.words(), [1, 2, 3, 0x7_0000_0010, 275, 131, 0, 0]);
    assert_eq!((held.names(), held.holder(1), held.holder(2)), (&[2, 1][..], Some(1), Some(0)));
    let (ended, mut answer) = (run, ROOMY);
    assert_eq!(run.step_keeping(&mut file, &names, &mut answer, &mut held), Ok(Senders(0)));
    assert_eq!((run, answer), (ended, ROOMY));
    let mut wrong = summary(&[1, 2]);
    assert_eq!(run.step_keeping(&mut file, &names, &mut answer, &mut wrong), Err(TtpaError::Summary));
}

/// The round and the step refuse on this ground and leave all that is lent.
fn assert_refused(file: &[u8], names: &[u8], answer_length: usize, ground: TtpaError) {
    let mut file_after = file.to_vec();
    let (mut answer, mut held) = (ROOMY[..answer_length].to_vec(), summary(names));
    assert_eq!(round_keeping(&mut file_after, &ROUND_2, &mut answer, &mut held), Err(ground));
    let mut run = Run::start(&[1]).expect("a good list");
    assert_eq!(run.step_keeping(&mut file_after, &[1], &mut answer, &mut held), Err(ground));
    assert_eq!((file_after, run.words(), held), (file.to_vec(), [0; 8], summary(names)));
    assert_eq!(answer, ROOMY[..answer_length]);
}

#[test]
fn a_summary_is_refused_after_the_file_and_before_the_buffer() {
    for (file, ground) in refused_files() {
        assert_refused(&file, &[0xFF], 0, ground);
    }
    for names in [&[][..], &[0xFF], &[0xFF, 0xFF, 0xFF], &[0xFF, 0x00], &[0x00, 0xFF]] {
        assert_refused(M10, names, ANSWER_BYTES, TtpaError::Summary);
        assert_refused(M10, names, ANSWER_BYTES - 1, TtpaError::Summary);
    }
    assert_refused(M10, &[0xFF, 0xFF], ANSWER_BYTES - 1, TtpaError::ShortBuffer);
}

/// The grounds of a frame, a list and a position come after it.
#[test]
fn what_comes_after_a_summary_is_refused() {
    for (names, frame_ground, step_ground) in [
        (&[0xFF, 0xFF], TtpaError::FrameLength, TtpaError::RepeatedName),
        (&[0xFF, 0x05], TtpaError::Summary, TtpaError::Summary),
    ] {
        let (mut file, mut held, mut answer) = (M10.to_vec(), summary(names), ROOMY);
        assert_eq!(round_keeping(&mut file, &[0xBA, 0], &mut answer, &mut held), Err(frame_ground));
        let mut run = Run::from_words([9, 0, 0, 0, 0, 0, 0, 0]);
        assert_eq!(run.step_keeping(&mut file, &[1, 1], &mut answer, &mut held), Err(step_ground));
        assert_eq!((&file[..], held, answer), (M10, summary(names), ROOMY));
    }
}
