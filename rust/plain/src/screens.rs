//! Screens that share turns: the state's bytes in place, and the read of a turn carried out straight on the file.

use crate::edition::{in_edition, Edition};
use crate::frames::MSD;
use crate::master_slave::{read, Pending, READ};
use crate::survey::Survey;
use crate::{silence, ANSWER_BYTES};

const SCREENS: usize = 8;
const LAST_SCREEN: u8 = 7;
const NO_SCREEN: u8 = 27;
const WAITING_ALREADY: u8 = 28;
/// What a turn tells where no screen waited.
const NOBODY: u8 = 8;

/// The screen last served, then of each screen a waiting byte, name, file and record.
pub type State = [u8; 33];

pub fn screens(state: &mut State) -> u8 {
    *state = [0; 33];
    state[0] = LAST_SCREEN;
    0
}

pub fn post(state: &mut State, screen: u8, name: u8, file: u8, record: u8) -> u8 {
    if screen > LAST_SCREEN || state[0] > LAST_SCREEN {
        return NO_SCREEN;
    }
    let post = &mut state[1..].as_chunks_mut::<4>().0[usize::from(screen)];
    if post[0] != 0 {
        return WAITING_ALREADY;
    }
    let ground = read_ground(name, file);
    if ground == 0 {
        *post = [1, name, file, record];
    }
    ground
}

pub fn turn(file: &mut [u8], state: &mut State, answer: &mut [u8], senders: &mut u64, screen: &mut u8) -> u8 {
    in_edition!(file, turn_in(file, state, answer, senders, screen))
}

#[inline(always)]
fn turn_in<const ENTRY: usize>(
    file: &mut [u8],
    state: &mut State,
    answer: &mut [u8],
    senders: &mut u64,
    screen: &mut u8,
) -> u8 {
    if state[0] > LAST_SCREEN {
        return NO_SCREEN;
    }
    let due = due(state);
    if let Some((_, [_, name, number, _])) = due {
        let ground = read_ground(name, number);
        if ground != 0 {
            return ground;
        }
    }
    let mut survey = Survey::<ENTRY>::new();
    let ground = survey.walk(file);
    if ground != 0 {
        return ground;
    }
    let Some(answer) = answer.first_chunk_mut::<ANSWER_BYTES>() else {
        return 9;
    };
    let Some((served, [_, name, number, record])) = due else {
        *screen = NOBODY;
        return 0;
    };
    // The address frame puts the epoch to one more, the data frame adds one.
    let epoch = &mut file[Edition::of::<ENTRY>().epoch];
    *epoch = epoch.wrapping_add(2);
    Pending { name, pb2: number << 2 | READ, record }.store::<ENTRY>(file);
    *answer = silence(MSD);
    *senders = read(file, &survey, name, number, record, answer);
    survey.rest(file, 0);
    state[0] = served as u8;
    state[1 + 4 * served] = 0;
    *screen = served as u8;
    0
}

/// The next screen that waits after the one last served, and its four bytes.
fn due(state: &State) -> Option<(usize, [u8; 4])> {
    let posts = state[1..].as_chunks::<4>().0;
    let first = usize::from(state[0]) + 1;
    (first..first + SCREENS)
        .map(|screen| (screen % SCREENS, posts[screen % SCREENS]))
        .find(|(_, [waiting, ..])| *waiting != 0)
}

fn read_ground(name: u8, file: u8) -> u8 {
    if file > 63 {
        18
    } else if name == 0 {
        14
    } else {
        0
    }
}
