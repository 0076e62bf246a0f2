//! Sorts of owner files that have to occur, and who sends by the plan.

use super::turns::{list_of, Entry};
use super::Sort;
use crate::case::{Call, Outcome};
use crate::layout::{LAST_ROUND, LAST_SLOT, MOST_OWNER_BYTES, NOT_OWNED, ROUNDS};
use model::{check, owner, round_of, senders_of, Cluster, FileNumber, LogicalName, Slave};

/// The slots of a round that have a sender by the plan, as masks.
pub struct Planned {
    pub all: u64,
    /// Those whose sender is awake, and of them those that a multiplexed receive of the sender covers before the end of
    /// its list.
    pub awake: u64,
    pub hideable: u64,
}

impl Planned {
    /// Of the round of this firework.
    pub fn of(file: &[u8], firework: u8) -> Planned {
        let mut cluster = check(file).expect("an accepted file");
        let round = round_of(firework).expect("a firework");
        let all = sending_mask(&cluster.slaves, round);
        cluster.slaves.retain(|slave| !slave.asleep);
        Planned { all, awake: sending_mask(&cluster.slaves, round), hideable: hideable_mask(&cluster, round) }
    }
}

fn sending_mask(slaves: &[Slave], round: u8) -> u64 {
    let senders = senders_of(slaves, round);
    (0..).zip(&senders).filter(|(_, names)| !names.is_empty()).fold(0, |mask, (slot, _)| mask | 1 << slot)
}

fn hideable_mask(cluster: &Cluster, round: u8) -> u64 {
    let of_slave = |slave: &Slave| {
        let mut list = slave.file(FileNumber(round)).map(list_of).unwrap_or_default();
        list.retain(Entry::is_multiplexed_receive);
        let covered = (1..=LAST_SLOT).filter(|&slot| list.iter().any(|entry| entry.covers(slot)));
        sending_mask(std::slice::from_ref(slave), round) & covered.fold(0, |mask, slot| mask | 1 << slot)
    };
    cluster.slaves.iter().map(of_slave).fold(0, |mask, slots| mask | slots)
}

/// The slots of a planned round in which a slave sends a byte of the list that it runs.
pub fn own_list_mask(file: &[u8], firework: u8) -> u64 {
    let cluster = check(file).expect("an accepted file");
    let number = FileNumber(round_of(firework).expect("a firework"));
    let of_slave = |slave: &Slave| {
        let Some(round_file) = slave.file(number).filter(|_| !slave.is_unnamed()) else {
            return 0;
        };
        let mut list = list_of(round_file);
        list.retain(|entry| !entry.is_multiplexed_receive());
        let acting = |slot: usize| list.iter().find(|entry| entry.covers(slot));
        let sends = |&slot: &usize| {
            acting(slot).is_some_and(|entry| entry.sends_from(number, slot, round_file.bytes.len()))
        };
        (1..=LAST_SLOT).filter(sends).fold(0, |mask, slot| mask | 1 << slot)
    };
    cluster.slaves.iter().map(of_slave).fold(0, |mask, slots| mask | slots)
}

/// The owned rounds in which a named slave has a multiplexed send before the end.
fn multiplexed_rounds(cluster: &Cluster) -> Vec<u8> {
    let sends = |slave: &Slave, round: u8| {
        let list = slave.file(FileNumber(round)).map(list_of).unwrap_or_default();
        !slave.is_unnamed() && list.iter().any(Entry::is_multiplexed_send)
    };
    ROUNDS.into_iter().filter(|&round| cluster.slaves.iter().any(|slave| sends(slave, round))).collect()
}

/// Of an owner file that was written: where a multiplexed send stands all the same, and whether a receive was passed
/// over.
fn beside(cluster: &Cluster) -> Vec<(bool, Sort)> {
    let sends = |entry: &[u8; 4]| entry[2] >> 4 >= 8 && entry[2] >> 4 & 1 == 1;
    let any = |unnamed: bool, rounds: &[u8]| {
        let files =
            cluster.slaves.iter().filter(|slave| slave.is_unnamed() == unnamed).flat_map(|slave| &slave.files);
        files
            .filter(|file| rounds.contains(&file.number.0))
            .any(|file| file.bytes.as_chunks().0.iter().skip(1).any(sends))
    };
    vec![
        (any(false, &ROUNDS), Sort::OwnerMultiplexedAfterEnd),
        (any(false, &NOT_OWNED), Sort::OwnerMultiplexedInOtherFile),
        (any(true, &ROUNDS), Sort::OwnerMultiplexedUnnamed),
        (ROUNDS.iter().any(|&round| hideable_mask(cluster, round) != 0), Sort::OwnerPassesReceive),
    ]
}

/// What a call is an example of.
pub fn sorts(call: &Call, outcome: &Outcome) -> Vec<Sort> {
    let Call::Owner { file, buffer_length, .. } = call else {
        return Vec::new();
    };
    let Ok(cluster) = check(file) else {
        return Vec::new();
    };
    let plan = Plan::of(&cluster);
    let occurs = match (outcome.number, outcome.written()) {
        (0, Some(written)) => [
            plan.written(),
            beside(&cluster),
            vec![
                (written as usize == *buffer_length, Sort::OwnerFits),
                (unnamed_would_clash(&cluster), Sort::OwnerWithUnnamed),
            ],
        ]
        .concat(),
        (20, _) => plan.clashing(*buffer_length),
        (23, _) => vec![
            (plan.clashes(), Sort::OwnerMultiplexedAndClash),
            (*buffer_length == 0, Sort::OwnerMultiplexedBeforeShort),
            (multiplexed_rounds(&cluster) == [LAST_ROUND], Sort::OwnerMultiplexedInLastRound),
        ],
        (21, _) => {
            let needed = owner(file, LogicalName(0), &mut [0; MOST_OWNER_BYTES]);
            vec![(needed == Ok(buffer_length + 1), Sort::OwnerOneShort)]
        }
        _ => Vec::new(),
    };
    occurs.into_iter().filter_map(|(occurs, sort)| occurs.then_some(sort)).collect()
}

/// Who sends in each slot of each of the six rounds.
struct Plan {
    rounds: Vec<Vec<Vec<LogicalName>>>,
}

impl Plan {
    fn of(cluster: &Cluster) -> Plan {
        Plan { rounds: ROUNDS.iter().map(|&round| senders_of(&cluster.slaves, round)).collect() }
    }

    /// The last slot of each round that has a sender.
    fn last_slots(&self) -> Vec<Option<usize>> {
        self.rounds.iter().map(|slots| slots.iter().rposition(|senders| !senders.is_empty())).collect()
    }

    fn written(&self) -> Vec<(bool, Sort)> {
        let last_slots = self.last_slots();
        let zero = [LogicalName::BROADCAST];
        let ends_in = |names: &[LogicalName]| {
            let mut ends = self.rounds.iter().zip(&last_slots);
            ends.any(|(slots, &last)| last.is_some_and(|last| slots[last] == names))
        };
        let gap = |(slots, &last): (&Vec<Vec<LogicalName>>, &Option<usize>)| {
            last.is_some_and(|last| slots[1..last].iter().any(Vec::is_empty))
        };
        vec![
            (last_slots.iter().any(|last| last.is_some_and(|last| last % 4 != 3)), Sort::OwnerPadded),
            (last_slots.contains(&Some(LAST_SLOT)), Sort::OwnerOfMostSlots),
            (self.rounds.iter().flatten().any(|senders| senders == &zero), Sort::OwnerNamedZero),
            (ends_in(&zero), Sort::OwnerZeroLast),
            (last_slots.contains(&None) && last_slots.iter().any(Option::is_some), Sort::OwnerWithoutSenders),
            (self.rounds.iter().zip(&last_slots).any(gap), Sort::OwnerWithGap),
            (last_slots.iter().all(|last| last.is_some_and(|last| last > 3)), Sort::OwnerOfLongRows),
        ]
    }

    fn clashes(&self) -> bool {
        self.rounds.iter().flatten().any(|senders| senders.len() >= 2)
    }

    fn clashing(&self, buffer_length: usize) -> Vec<(bool, Sort)> {
        let clashes = |slots: &Vec<Vec<LogicalName>>| slots.iter().any(|senders| senders.len() >= 2);
        let one_name = |senders: &Vec<LogicalName>| senders.iter().all(|name| name == &senders[0]);
        let earlier = self.rounds[..ROUNDS.len() - 1].iter().any(clashes);
        let meeting = self.rounds.iter().flatten().filter(|senders| senders.len() >= 2);
        vec![
            (buffer_length == 0, Sort::OwnerClashBeforeShort),
            (meeting.into_iter().all(one_name), Sort::OwnerClashOfOneName),
            (!earlier, Sort::OwnerClashInLastRound),
        ]
    }
}

/// Whether two would send in one slot if every slave had a name.
fn unnamed_would_clash(cluster: &Cluster) -> bool {
    let mut named = cluster.slaves.clone();
    named.iter_mut().for_each(|slave| slave.set_logical_name(LogicalName(1)));
    ROUNDS.iter().any(|&round| senders_of(&named, round).iter().any(|senders| senders.len() >= 2))
}
