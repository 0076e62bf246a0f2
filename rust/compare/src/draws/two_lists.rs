//! Two lists of names in two runs, one after the other, and in one run on the same file, with permitted traffic in all
//! three.

use super::clusters;
use super::random::Random;
use super::runs::{to_its_end, Given};
use crate::campaign::Campaign;
use crate::case::Call;
use crate::sorts::{self, Sort};
use crate::two_lists::{Runs, TwoLists};
use model::{Cluster, LogicalName};
use std::cmp::Ordering;

/// What the number of unnamed slaves is to that of free names of the first list, and of the second, in turn. A first list
/// that runs dry is drawn more often: then the second has slaves to name.
const BESIDE_FIRST: [Ordering; 5] =
    [Ordering::Greater, Ordering::Less, Ordering::Greater, Ordering::Equal, Ordering::Greater];
const BESIDE_SECOND: [Ordering; 4] = [Ordering::Less, Ordering::Equal, Ordering::Greater, Ordering::Less];
/// Of so many turns one each has a first list without a free name, an empty first list, an empty second, both empty, and more
/// slaves than edition 1 holds.
const TURNS: usize = 16;
const NO_FREE_NAME: usize = 2;
const FIRST_EMPTY: usize = 7;
const SECOND_EMPTY: usize = 9;
const BOTH_EMPTY: usize = 14;
const MORE_SLAVES: usize = 15;
const REPEATED_NAME: u8 = 16;

pub fn runs(campaign: &mut Campaign, random: &mut Random, turn: usize) {
    let lists = drawn(random, turn);
    common_name(campaign, random, &lists);
    let given = [(); 3].map(|()| random.one_of(&[Given::NoSummary, Given::Summary]));
    let first = to_its_end(campaign, random, lists.file.clone(), &lists.first, given[0]);
    let second = to_its_end(campaign, random, first.file.clone(), &lists.second, given[1]);
    let whole = to_its_end(campaign, random, lists.file.clone(), &lists.both(), given[2]);
    let runs = Runs { first, second, whole };
    if let Some(what) = runs.difference(&lists) {
        campaign.differ(&format!("{what}\n{lists}"), "see the case");
    }
    campaign.tally.note_two_lists(&lists, &runs);
    campaign.note_sorts(sorts::two_lists::sorts(&lists, &runs));
    campaign.note_sorts((given[1] == Given::Summary).then_some(Sort::SecondListKept));
}

/// With one name of the first in the second each list is still taken, and both as one are refused.
fn common_name(campaign: &mut Campaign, random: &mut Random, lists: &TwoLists) {
    if lists.first.is_empty() {
        return;
    }
    let mut lists = lists.clone();
    lists.second.insert(random.below(lists.second.len() + 1), random.one_of(&lists.first));
    let numbers = [lists.first.clone(), lists.second.clone(), lists.both()]
        .map(|names| campaign.call(&Call::Start { names }).number);
    if numbers == [0, 0, REPEATED_NAME] {
        campaign.note_sorts([Sort::CommonName]);
    } else {
        campaign.differ(&format!("a common name, started by {numbers:?}\n{lists}"), "see the case");
    }
}

/// Lists whose free names are fewer than, as many as or more than the unnamed slaves that their run finds, each in turn.
fn drawn(random: &mut Random, turn: usize) -> TwoLists {
    let cluster = cluster(random, turn);
    let names: Vec<u8> = cluster.slaves.iter().map(|slave| slave.logical_name().0).collect();
    let unnamed = cluster.slaves.iter().filter(|slave| slave.is_unnamed()).count();
    let in_first = match turn % TURNS {
        NO_FREE_NAME => 0,
        _ => beside(random, unnamed, BESIDE_FIRST[turn % 5]),
    };
    let in_second = beside(random, unnamed.saturating_sub(in_first), BESIDE_SECOND[turn / 5 % 4]);
    let free = free_names(random, in_first + in_second, &names);
    let (mut first, mut second) = (free[..in_first].to_vec(), free[in_first..].to_vec());
    put_held(random, &names, [&mut first, &mut second]);
    if matches!(turn % TURNS, FIRST_EMPTY | BOTH_EMPTY) {
        first.clear();
    }
    if matches!(turn % TURNS, SECOND_EMPTY | BOTH_EMPTY) {
        second.clear();
    }
    TwoLists { file: cluster.encode(), first, second }
}

/// In three of four turns three slaves at least are unnamed and one has a name; in one of four all are asleep.
fn cluster(random: &mut Random, turn: usize) -> Cluster {
    let slaves = match turn % TURNS {
        MORE_SLAVES => random.between(33, 40),
        _ if turn.is_multiple_of(4) => random.between(0, 6),
        _ => random.between(4, 6),
    };
    let mut cluster = clusters::cluster_of(random, slaves);
    if !turn.is_multiple_of(4) {
        cluster.slaves[..3].iter_mut().for_each(|slave| slave.set_logical_name(LogicalName::UNNAMED));
        cluster.slaves[3].set_logical_name(LogicalName(random.between(0x01, 0xFE) as u8));
    }
    if turn % 4 == 3 {
        cluster.slaves.iter_mut().for_each(|slave| slave.asleep = true);
    }
    cluster
}

/// So many free names that the number of unnamed slaves is less, equal or greater; of no slave it is never greater. There
/// is a free name where there may be one.
fn beside(random: &mut Random, unnamed: usize, ordering: Ordering) -> usize {
    match ordering {
        Ordering::Less => unnamed + random.between(1, 2),
        Ordering::Equal => unnamed,
        Ordering::Greater if unnamed < 2 => 0,
        Ordering::Greater => random.between(1, unnamed - 1),
    }
}

/// So many names that nobody holds.
fn free_names(random: &mut Random, count: usize, held: &[u8]) -> Vec<u8> {
    let mut free = Vec::new();
    while free.len() < count {
        let name = random.between(0x01, 0xFE) as u8;
        if !held.contains(&name) && !free.contains(&name) {
            free.push(name);
        }
    }
    free
}

/// Puts held names anywhere among the free ones, each into one list or none; one into a list that has no free name.
fn put_held(random: &mut Random, held: &[u8], mut lists: [&mut Vec<u8>; 2]) {
    let mut held = held.to_vec();
    held.retain(|&name| ![LogicalName::BROADCAST.0, LogicalName::UNNAMED.0].contains(&name));
    held.sort_unstable();
    held.dedup();
    for name in held {
        let without_free = lists.iter().position(|list| list.is_empty());
        let list = without_free.unwrap_or(random.below(3));
        if let Some(list) = lists.get_mut(list) {
            list.insert(random.below(list.len() + 1), name);
        }
    }
}
