//! Random states of screens, and posts and turns on what the last one left.

use super::random::Random;
use super::{clusters, inputs};
use crate::campaign::{any_file, Campaign};
use crate::case::Call;
use crate::engine::{State, NO_SCREEN};
use crate::frames::framed;
use crate::sorts::screens::{posts_of, read_due};
use crate::sorts::Sort;
use model::{check, Cluster, Edition, MSA, MSD, SCREENS};

/// "A posted read is served within eight accepted turns"
const MOST_TURNS: usize = 8;
/// In one of so many calls the state handed in has a screen last served that is none.
const NO_LAST_SERVED: usize = 12;
/// One in so many reads is a bad one, which no post lets in: of those posted, and of those in a state.
const BAD_POSTED: usize = 12;
const BAD_IN_STATE: usize = 5;
/// Of the turns that serve a screen, one in so many is also made as two rounds.
const TURNS_AS_ROUNDS: usize = 4;

/// Name, file and record of a read, mostly of a record that a slave of the cluster has.
fn read(random: &mut Random, cluster: &Cluster, bad: usize) -> [u8; 3] {
    let (name, file) = match cluster.slaves.get(random.below(cluster.slaves.len().max(1))) {
        Some(slave) if !random.once_in(4) => {
            let file = &slave.files[random.below(slave.files.len())];
            (slave.logical_name().0, file.number.0)
        }
        _ => inputs::address_target(random, cluster),
    };
    let record = if random.once_in(8) { random.byte() } else { random.below(4) as u8 };
    let file = if random.once_in(24) { 63 } else { file };
    let good_name = if name == 0x00 { 0xFF } else { name };
    match random.below(3 * bad) {
        0 => [0x00, file, record],
        1 => [good_name, random.one_of(&[64, 64, 128, 255]), record],
        2 => [0x00, 64, record],
        _ => [good_name, file, record],
    }
}

/// That at the start, or one with any reads waiting, most of them good.
fn state(random: &mut Random, cluster: &Cluster) -> State {
    if random.once_in(4) {
        return model::screens();
    }
    let mut bytes = vec![random.below(SCREENS) as u8];
    let waiting = random.one_of(&[[0; 4], [0, 0, 0, 1], [0, 0, 1, 255], [0, 1, 1, 2], [1; 4]]);
    for _ in 0..SCREENS {
        bytes.push(random.one_of(&waiting));
        bytes.extend(read(random, cluster, BAD_IN_STATE));
    }
    bytes.try_into().expect("33 bytes")
}

/// A file and a state, which the calls hand on, and for how many accepted turns each screen has waited.
struct Shared {
    file: Vec<u8>,
    state: State,
    waited: [usize; SCREENS],
}

/// Posts and turns one after the other, in one of three rows busy: before each turn a post, mostly of a screen that does not wait.
pub fn posts_and_turns(campaign: &mut Campaign, amount: usize, random: &mut Random) {
    let mut made = 0;
    while made < amount {
        let file = any_file(random);
        let (cluster, most) = match check(&file) {
            Ok(cluster) => (cluster, 24),
            // of a file that is turned away a few turns tell as much as many
            Err(_) => (clusters::cluster_of(random, 3), 12),
        };
        let state = state(random, &cluster);
        if state == model::screens() {
            campaign.call(&Call::Screens);
        }
        let mut shared = Shared { file: at_epoch(random, file), state, waited: [0; SCREENS] };
        let busy = random.once_in(3);
        for _ in 0..random.between(1, most) {
            if busy || random.once_in(2) {
                shared.post(campaign, random, &cluster);
                made += 1;
            }
            if busy || random.once_in(2) {
                shared.turn(campaign, random);
                made += 1;
            }
        }
    }
}

/// Now and then an epoch from which that of the address frame or of the data frame is 0.
fn at_epoch(random: &mut Random, mut file: Vec<u8>) -> Vec<u8> {
    let epoch = Edition::of(&file).epoch_place();
    if random.once_in(8) && epoch < file.len() {
        file[epoch] = random.one_of(&[254, 255]);
    }
    file
}

impl Shared {
    /// Of any screen, a busy one or not, and now and then of none.
    fn post(&mut self, campaign: &mut Campaign, random: &mut Random, cluster: &Cluster) {
        let some = random.below(SCREENS) as u8;
        let idle = (0..SCREENS as u8).find(|&screen| !posts_of(&self.state)[usize::from(screen)].waits());
        let screen = match random.below(12) {
            0 => random.one_of(&[8, 8, 9, 128, 255]),
            1..=3 => some,
            _ => idle.unwrap_or(some),
        };
        let read = read(random, cluster, BAD_POSTED);
        let outcome = campaign.call(&Call::Post { state: self.handed_in(random), screen, read });
        if outcome.number == 0 {
            self.state = outcome.state_left();
            self.waited[usize::from(screen)] = 0;
        }
    }

    fn turn(&mut self, campaign: &mut Campaign, random: &mut Random) {
        let answer_length = inputs::answer_length(random);
        let call = Call::Turn { file: self.file.clone(), state: self.handed_in(random), answer_length };
        let outcome = campaign.call(&call);
        match outcome.served() {
            None | Some(NO_SCREEN) => {}
            Some(screen) => {
                if random.once_in(TURNS_AS_ROUNDS) {
                    as_rounds(campaign, &call);
                }
                self.serve(campaign, &call, screen);
            }
        }
        match outcome.number {
            0 => (self.file, self.state) = (outcome.file.clone().expect("a lent file"), outcome.state_left()),
            18 | 14 => self.mend(),
            _ => {}
        }
    }

    /// The state that the last call left, now and then with another screen last served.
    fn handed_in(&self, random: &mut Random) -> State {
        let mut state = self.state;
        if random.once_in(NO_LAST_SERVED) {
            state[0] = random.one_of(&[8, 8, 9, 255]);
        }
        state
    }

    /// No other that waits has waited for longer than it may.
    fn serve(&mut self, campaign: &mut Campaign, call: &Call, screen: u8) {
        let waits = posts_of(&self.state).map(|post| post.waits());
        self.waited.iter_mut().zip(waits).for_each(|(turns, waits)| *turns += usize::from(waits));
        let longest = self.waited.iter().max().copied().unwrap_or(0);
        if longest > MOST_TURNS {
            campaign.differ(&format!("a read is not served within eight turns\n{call}"), "see the case");
        }
        let turns = std::mem::take(&mut self.waited[usize::from(screen)]);
        campaign.note_sorts((turns == MOST_TURNS).then_some(Sort::ServedAtEighthTurn));
    }

    /// What the caller has to do where the read due is a bad one: that read waits no longer.
    fn mend(&mut self) {
        if let Some((screen, _)) = read_due(&self.state) {
            self.state[1 + 4 * screen] = 0;
            self.waited[screen] = 0;
        }
    }
}

/// "Its answer and file changes are those of the read round, PB0 as in naming, sent alone on the file as it then is."
fn as_rounds(campaign: &mut Campaign, call: &Call) {
    let Call::Turn { file, state, answer_length } = call else {
        return;
    };
    let turn = call.make(campaign.both()[0]);
    let (_, [name, number, record]) = read_due(state).expect("a turn that served a screen");
    let epoch = file[Edition::of(file).epoch_place()].wrapping_add(1);
    let address = framed(MSA, [epoch, name, number << 2, record]);
    let answer_length = *answer_length;
    let held = campaign.call(&Call::Round { file: file.clone(), frame: address, answer_length });
    let file = held.file.expect("a lent file");
    let round = campaign.call(&Call::Round { file, frame: vec![MSD], answer_length });
    if (&turn.file, &turn.buffer, turn.senders) != (&round.file, &round.buffer, round.senders) {
        campaign.differ(&format!("the read round comes to something else\n{call}"), "see the case");
    }
    campaign.note_sorts([Sort::TurnAsRounds]);
}

/// A post and a turn between two naming steps, which leave no name; the file and the state then.
pub fn between_steps(
    campaign: &mut Campaign,
    random: &mut Random,
    file: Vec<u8>,
    state: State,
) -> (Vec<u8>, State) {
    let cluster = check(&file).expect("a file that the last call left");
    let mut shared = Shared { file, state, waited: [0; SCREENS] };
    shared.post(campaign, random, &cluster);
    shared.turn(campaign, random);
    campaign.note_sorts((shared.state[0] != state[0]).then_some(Sort::TurnBetweenSteps));
    (shared.file, shared.state)
}
