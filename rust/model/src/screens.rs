//! "Sharing diagnostic turns" (document 02, request 12): "Up to eight screens read slave records through one tester".

use crate::naming::{make_round, MasterSlaveRound};
use crate::{check, FileNumber, LogicalName, RecordNumber, Refusal, ANSWER_BYTES};

pub const SCREENS: usize = 8;
/// The screen last served, then of each screen a waiting byte, name, file and record.
pub const STATE_BYTES: usize = 1 + 4 * SCREENS;
pub type State = [u8; STATE_BYTES];

/// "27, a screen above 7, also as the one last served in a state handed in; 28, a screen already waiting"
const NO_SCREEN: Refusal = Refusal(27);
const WAITING_ALREADY: Refusal = Refusal(28);

/// "Each may post one read: name, file, record." A stored one may hold anything, so every part is a bare byte.
#[derive(Clone, Copy)]
struct Post {
    waiting: u8,
    name: u8,
    file: u8,
    record: u8,
}

/// A state by its parts.
struct Screens {
    last_served: u8,
    posts: Vec<Post>,
}

/// The screen that a turn served, and the mask of its read.
#[derive(Clone, Copy, Debug, PartialEq, Eq)]
pub struct Served {
    pub screen: u8,
    pub senders: u64,
}

/// "from screen 0 at the start": the one before it in cyclic order is the one last served.
pub fn screens() -> State {
    let nothing = Post { waiting: 0, name: 0, file: 0, record: 0 };
    Screens { last_served: SCREENS as u8 - 1, posts: vec![nothing; SCREENS] }.state()
}

/// Grounds 27 and 28, then 18 and 14 on the read posted.
pub fn post(state: &mut State, screen: u8, name: u8, file: u8, record: u8) -> Result<(), Refusal> {
    let mut screens = Screens::of(state)?;
    let post = screens.posts.get_mut(usize::from(screen)).ok_or(NO_SCREEN)?;
    if post.waits() {
        return Err(WAITING_ALREADY);
    }
    *post = Post { waiting: 1, name, file, record };
    post.check_read()?;
    *state = screens.state();
    Ok(())
}

/// One turn: 27, 18 and 14 on the read due, then the grounds of the file and 9. None where no screen waits: "a turn with
/// none waiting does nothing and says so".
pub fn turn(file: &mut [u8], state: &mut State, buffer: &mut [u8]) -> Result<Option<Served>, Refusal> {
    let mut screens = Screens::of(state)?;
    let due = screens.next_waiting();
    if let Some(screen) = due {
        screens.posts[usize::from(screen)].check_read()?;
    }
    let mut cluster = check(file)?;
    if buffer.len() < ANSWER_BYTES {
        return Err(Refusal(9));
    }
    let Some(screen) = due else {
        return Ok(None);
    };
    let answer = make_round(&mut cluster, &screens.serve(screen));
    file.copy_from_slice(&cluster.encode());
    buffer[..ANSWER_BYTES].copy_from_slice(&answer.bytes);
    *state = screens.state();
    Ok(Some(Served { screen, senders: answer.senders }))
}

impl Screens {
    /// Those of a state handed in; ground 27 on the one last served.
    fn of(state: &State) -> Result<Screens, Refusal> {
        let (last_served, posts) = (state[0], &state[1..]);
        if usize::from(last_served) >= SCREENS {
            return Err(NO_SCREEN);
        }
        let post = |bytes: &[u8]| Post { waiting: bytes[0], name: bytes[1], file: bytes[2], record: bytes[3] };
        Ok(Screens { last_served, posts: posts.chunks(4).map(post).collect() })
    }

    fn state(&self) -> State {
        let posts = self.posts.iter().flat_map(|post| [post.waiting, post.name, post.file, post.record]);
        let bytes: Vec<u8> = [self.last_served].into_iter().chain(posts).collect();
        bytes.try_into().expect("a byte and four for each screen")
    }

    /// "the next waiting screen after the one last served, in cyclic order"
    fn next_waiting(&self) -> Option<u8> {
        let after = |step: u8| (self.last_served + step) % SCREENS as u8;
        (1..=SCREENS as u8).map(after).find(|&screen| self.posts[usize::from(screen)].waits())
    }

    /// The round of the screen's read, which then waits no longer.
    fn serve(&mut self, screen: u8) -> MasterSlaveRound {
        self.last_served = screen;
        let post = &mut self.posts[usize::from(screen)];
        post.waiting = 0;
        MasterSlaveRound::read(LogicalName(post.name), FileNumber(post.file), RecordNumber(post.record))
    }
}

impl Post {
    fn waits(&self) -> bool {
        self.waiting != 0
    }

    /// "then 18 and 14 on the read posted or due"
    fn check_read(&self) -> Result<(), Refusal> {
        if FileNumber(self.file) > FileNumber::LAST {
            return Err(Refusal(18));
        }
        if LogicalName(self.name) == LogicalName::BROADCAST {
            return Err(Refusal(14));
        }
        Ok(())
    }
}
