//! Sorts of posts and turns that have to occur: who is served, what they are refused for, which ground comes first, and what a
//! turn's read finds.

use super::Sort;
use crate::case::{Call, Outcome};
use crate::engine::{Model, State, NO_SCREEN};
use crate::layout::sleepers_of;
use model::{check, Cluster, Edition, LogicalName, Operation, Slave, SCREENS};

const NO_SUCH_SCREEN: u8 = 27;
const WAITING_ALREADY: u8 = 28;
const FILE_NUMBER: u8 = 18;
const BROADCAST_READ: u8 = 14;
const SHORT_BUFFER: u8 = 9;
const LAST_SCREEN: u8 = 7;

/// What a state has of one screen.
#[derive(Clone, Copy)]
pub struct Post {
    waiting: u8,
    /// Name, file and record.
    read: [u8; 3],
}

impl Post {
    pub fn waits(&self) -> bool {
        self.waiting != 0
    }

    /// Whether 18 holds of its read, and whether 14 does.
    fn grounds(&self) -> (bool, bool) {
        let [name, file, _] = self.read;
        (file > 63, name == 0x00)
    }

    fn is_bad(&self) -> bool {
        self.grounds() != (false, false)
    }
}

pub fn posts_of(state: &State) -> [Post; SCREENS] {
    std::array::from_fn(|screen| {
        let [waiting, name, file, record] = std::array::from_fn(|part| state[1 + 4 * screen + part]);
        Post { waiting, read: [name, file, record] }
    })
}

/// The screen whose turn it is, and its read; none where none waits, and where 27 refuses the state.
pub fn read_due(state: &State) -> Option<(usize, [u8; 3])> {
    let posts = posts_of(state);
    let after = (1..=SCREENS).map(|step| (usize::from(state[0]) + step) % SCREENS);
    let due = after.filter(|_| state[0] <= LAST_SCREEN).find(|&screen| posts[screen].waits())?;
    Some((due, posts[due].read))
}

/// What a call is an example of.
pub fn sorts(call: &Call, outcome: &Outcome) -> Vec<Sort> {
    let occurs = match call {
        Call::Post { state, screen, read } => posted(state, *screen, *read, outcome.number),
        Call::Turn { file, state, answer_length } => match outcome.number {
            0 => [served(state, outcome), read_on(call, file, outcome)].concat(),
            number => refused(file, state, *answer_length, number),
        },
        _ => Vec::new(),
    };
    occurs.into_iter().filter_map(|(occurs, sort)| occurs.then_some(sort)).collect()
}

fn posted(state: &State, screen: u8, read: [u8; 3], number: u8) -> Vec<(bool, Sort)> {
    let no_such = screen > LAST_SCREEN;
    let waits = posts_of(state).get(usize::from(screen)).is_some_and(Post::waits);
    let (file, name) = Post { waiting: 1, read }.grounds();
    vec![
        (number == NO_SUCH_SCREEN && no_such && state[0] <= LAST_SCREEN, Sort::PostOfNoScreen),
        (number == NO_SUCH_SCREEN && !no_such, Sort::PostAfterNoScreen),
        (number == NO_SUCH_SCREEN && waits, Sort::ScreenBeforeWaiting),
        (number == NO_SUCH_SCREEN && (file || name), Sort::ScreenBeforeRead),
        (number == WAITING_ALREADY && (file || name), Sort::WaitingBeforeRead),
        (number == FILE_NUMBER && name, Sort::PostFileBeforeName),
        (number == 0 && screen == LAST_SCREEN, Sort::PostOfLastScreen),
        (number == 0 && read[1] == 63, Sort::PostOfLastFile),
        (number == 0 && read[0] == LogicalName::UNNAMED.0, Sort::PostAtUnnamed),
    ]
}

fn served(state: &State, outcome: &Outcome) -> Vec<(bool, Sort)> {
    let Some(screen) = outcome.served().filter(|&screen| screen != NO_SCREEN) else {
        return Vec::new();
    };
    let posts = posts_of(state);
    let others_bad = || (0..).zip(posts).any(|(other, post)| other != screen && post.waits() && post.is_bad());
    let waiting = posts.iter().filter(|post| post.waits()).count();
    vec![
        (screen == state[0], Sort::ServedAgain),
        (screen < state[0], Sort::ServedPastTheEnd),
        (screen == 0 && state[0] == LAST_SCREEN, Sort::ServedFirstAfterLast),
        (screen == LAST_SCREEN, Sort::ServedLastScreen),
        (waiting == SCREENS, Sort::ServedOfAll),
        (posts[usize::from(screen)].waiting > 1, Sort::ServedByOtherByte),
        (others_bad(), Sort::BadReadNotDue),
    ]
}

/// What the read of a turn that served a screen finds in the file.
fn read_on(call: &Call, file: &[u8], outcome: &Outcome) -> Vec<(bool, Sort)> {
    let (Ok(cluster), Some(0..=LAST_SCREEN)) = (check(file), outcome.served()) else {
        return Vec::new();
    };
    let name = outcome.file.as_deref().and_then(|left| check(left).ok()).map(|left| left.pending.name);
    let holders = cluster.slaves.iter().filter(|slave| Some(slave.logical_name()) == name).count();
    let heard = outcome.mask() != 0;
    let pending = cluster.pending;
    let operation = Operation::of_pb2(pending.pb2).filter(|_| pending.flag);
    vec![
        (name == Some(LogicalName::UNNAMED) && holders > 0, Sort::TurnAtUnnamed),
        (heard && holders > 1, Sort::TurnOfSeveral),
        (!heard && holders == 0, Sort::TurnAtNobody),
        (cluster.epoch == 254, Sort::TurnAtEpoch254),
        (cluster.epoch == 255, Sort::TurnAtEpoch255),
        (operation == Some(Operation::Write), Sort::TurnOverWrite),
        (operation == Some(Operation::Execute), Sort::TurnOverExecute),
        (sleepers_of(file).contains(&true), Sort::TurnWakes),
        (!heard && would_answer(call, &cluster), Sort::TurnAsleep),
        (cluster.edition == Edition::Two, Sort::TurnInEdition2),
    ]
}

/// Whether someone would have answered if every slave had been awake.
fn would_answer(call: &Call, cluster: &Cluster) -> bool {
    if cluster.slaves.iter().all(|slave| !slave.asleep) {
        return false;
    }
    let awake = |slave: &Slave| Slave { asleep: false, ..slave.clone() };
    let cluster = Cluster { slaves: cluster.slaves.iter().map(awake).collect(), ..cluster.clone() };
    call.on(cluster.encode()).is_some_and(|call| call.make(&Model).mask() != 0)
}

fn refused(file: &[u8], state: &State, answer_length: usize, number: u8) -> Vec<(bool, Sort)> {
    let posts = posts_of(state);
    let (bad_file, short) = (check(file).is_err(), answer_length < 64);
    let of_the_file = (1..=8).contains(&number);
    let none_waits = posts.iter().all(|post| !post.waits());
    let bad_due = |number| number == FILE_NUMBER || number == BROADCAST_READ;
    let due = read_due(state).map(|(screen, _)| posts[screen].grounds());
    vec![
        (number == NO_SUCH_SCREEN && none_waits, Sort::IdleAfterNoScreen),
        (
            number == NO_SUCH_SCREEN && posts.iter().any(|post| post.waits() && post.is_bad()),
            Sort::LastBeforeRead,
        ),
        (number == NO_SUCH_SCREEN && bad_file, Sort::LastBeforeFile),
        (number == FILE_NUMBER && due == Some((true, true)), Sort::DueFileBeforeName),
        (bad_due(number) && bad_file, Sort::ReadBeforeFile),
        (bad_due(number) && short && !bad_file, Sort::ReadBeforeBuffer),
        (of_the_file && short, Sort::FileBeforeAnswer),
        (of_the_file && none_waits, Sort::IdleOnRefusedFile),
        (of_the_file && !none_waits, Sort::FileKeepsRead),
        (number == SHORT_BUFFER && none_waits, Sort::IdleInShortBuffer),
        (number == SHORT_BUFFER && answer_length == 63 && !none_waits, Sort::BufferKeepsRead),
    ]
}
