//! Sorts of joins that have to occur: whose names meet, what is dropped and what is kept, the limits, and which ground comes
//! first.

use super::Sort;
use crate::case::{Call, Outcome};
use model::{check, Cluster, Edition, LogicalName, Pending, Slave};

const SHARED_PHYSICAL_NAME: u8 = 29;
const JOINED_LIMITS: u8 = 30;

/// What a call is an example of.
pub fn sorts(call: &Call, outcome: &Outcome) -> Vec<Sort> {
    let Call::Join { first, second, buffer_length } = call else {
        return Vec::new();
    };
    let occurs = match (check(first), check(second)) {
        (Ok(first), Ok(second)) => {
            let pair = Pair { first, second, buffer_length: *buffer_length };
            match outcome.number {
                SHARED_PHYSICAL_NAME => pair.shared(),
                JOINED_LIMITS => pair.beyond(),
                _ => [pair.joined(), pair.names(), pair.dropped()].concat(),
            }
        }
        (Err(first), second) => vec![
            (second.as_ref().is_err_and(|number| *number != first), Sort::FirstBeforeSecond),
            (*buffer_length == 0 && second.is_ok(), Sort::FirstBeforeJoin),
        ],
        (Ok(_), Err(_)) => vec![(*buffer_length == 0, Sort::SecondBeforeJoin)],
    };
    occurs.into_iter().filter_map(|(occurs, sort)| occurs.then_some(sort)).collect()
}

/// Two accepted files, and the buffer for their join.
struct Pair {
    first: Cluster,
    second: Cluster,
    buffer_length: usize,
}

impl Pair {
    fn slaves(&self) -> usize {
        self.first.slaves.len() + self.second.slaves.len()
    }

    /// The bytes of the joined file.
    fn needed(&self) -> usize {
        let edition = self.first.edition;
        let second = Cluster { edition, ..self.second.clone() };
        self.first.length() + second.length() - edition.header_bytes()
    }

    fn has_many_slaves(&self) -> bool {
        self.slaves() > self.first.edition.most_slaves()
    }

    fn is_long(&self) -> bool {
        self.needed() > self.first.edition.most_bytes()
    }

    /// How many slaves of the first have this logical name.
    fn holders(&self, name: LogicalName) -> usize {
        holders(&self.first, name)
    }

    fn shared(&self) -> Vec<(bool, Sort)> {
        let names =
            |cluster: &Cluster| -> Vec<u64> { cluster.slaves.iter().map(Slave::physical_name).collect() };
        let (of_first, of_second) = (names(&self.first), names(&self.second));
        let common: Vec<&u64> = of_second.iter().filter(|name| of_first.contains(name)).collect();
        let last_alone = of_first.last() == of_second.last() && common.len() == 1;
        let short = self.buffer_length < self.needed();
        vec![
            (last_alone && self.slaves() > 2, Sort::SharedByTheLast),
            (self.first == self.second, Sort::JoinedWithItself),
            (self.has_many_slaves(), Sort::SharedBeforeSlaves),
            (self.is_long(), Sort::SharedBeforeLength),
            (short && !self.is_long() && !self.has_many_slaves(), Sort::SharedBeforeBuffer),
        ]
    }

    fn beyond(&self) -> Vec<(bool, Sort)> {
        let most = self.first.edition.most_bytes();
        let (many, long) = (self.has_many_slaves(), self.is_long());
        let fits = self.buffer_length >= self.needed();
        let one_more = self.slaves() == self.first.edition.most_slaves() + 1;
        let number = self.first.edition.number();
        vec![
            (fits && many && !long && one_more, Sort::JoinedSlaveTooMany(number)),
            (fits && long && !many && self.needed() == most + 4, Sort::JoinedRecordTooLong(number)),
            (!many && !long && self.buffer_length + 1 == self.needed(), Sort::JoinedOneShort),
        ]
    }

    fn joined(&self) -> Vec<(bool, Sort)> {
        let edition = self.first.edition;
        let empty = [&self.first, &self.second].map(|cluster| cluster.slaves.is_empty());
        vec![
            (true, Sort::JoinedEditions(edition.number(), self.second.edition.number())),
            (empty == [true, false], Sort::JoinedToNobody),
            (empty == [false, true], Sort::JoinedWithNobody),
            (self.slaves() == edition.most_slaves(), Sort::JoinedMostSlaves(edition.number())),
            (self.needed() == edition.most_bytes(), Sort::JoinedMostBytes(edition.number())),
            (self.buffer_length == self.needed(), Sort::JoinedFits),
            (self.narrows(), Sort::JoinedNarrowed),
        ]
    }

    /// Joined in edition 1, where the second file's own form would make the file too long.
    fn narrows(&self) -> bool {
        let both = self.first.length() + self.second.length() - Edition::Two.header_bytes();
        self.first.edition == Edition::One && both > Edition::One.most_bytes()
    }

    fn names(&self) -> Vec<(bool, Sort)> {
        let of_second = |test: &dyn Fn(LogicalName) -> bool| {
            self.second.slaves.iter().any(|slave| test(slave.logical_name()))
        };
        let is_name = |name| name != LogicalName::UNNAMED && name != LogicalName::BROADCAST;
        let only_asleep = |name| {
            let mut holders = self.first.slaves.iter().filter(|slave| slave.logical_name() == name);
            self.holders(name) > 0 && holders.all(|slave| slave.asleep)
        };
        let twice = |name| is_name(name) && holders(&self.second, name) > 1;
        let twice_in_first =
            |slave: &Slave| is_name(slave.logical_name()) && self.holders(slave.logical_name()) > 1;
        let zero = |name| name == LogicalName::BROADCAST;
        vec![
            (of_second(&|name| is_name(name) && self.holders(name) > 0), Sort::TurnedByName),
            (of_second(&|name| zero(name) && self.holders(name) > 0), Sort::TurnedByZero),
            (of_second(&|name| zero(name) && self.holders(name) == 0), Sort::ZeroKept),
            (of_second(&|name| !is_name(name) && !zero(name) && self.holders(name) > 0), Sort::UnnamedInBoth),
            (of_second(&|name| is_name(name) && only_asleep(name)), Sort::TurnedBySleeper),
            (of_second(&|name| twice(name) && self.holders(name) > 0), Sort::SeveralTurned),
            (of_second(&|name| twice(name) && self.holders(name) == 0), Sort::EqualKeptInSecond),
            (self.first.slaves.iter().any(twice_in_first), Sort::EqualKeptInFirst),
        ]
    }

    /// What the joined file does not have.
    fn dropped(&self) -> Vec<(bool, Sort)> {
        let sleeps = |cluster: &Cluster| cluster.slaves.iter().any(|slave| slave.asleep);
        let free = |Pending { flag, name, pb2, pb3 }: Pending| !flag && [name.0, pb2, pb3] != [0; 3];
        vec![
            (sleeps(&self.first), Sort::JoinWakesFirst),
            (sleeps(&self.second), Sort::JoinWakesSecond),
            (self.first.pending.flag, Sort::JoinDropsPending),
            (self.second.pending.flag, Sort::JoinDropsSecondPending),
            (free(self.first.pending), Sort::JoinDropsFreeBytes),
            (self.first.epoch != 0, Sort::JoinDropsEpoch),
        ]
    }
}

fn holders(cluster: &Cluster, name: LogicalName) -> usize {
    cluster.slaves.iter().filter(|slave| slave.logical_name() == name).count()
}
