//! Random pairs of files to be joined, the same pairs in the other edition, and naming runs on joined files.

use super::random::Random;
use super::{clusters, runs};
use crate::campaign::{any_file, Campaign};
use crate::case::{Call, Outcome};
use crate::editions::in_other_edition;
use crate::sorts::Sort;
use crate::two_lists::names_in;
use model::{join, load, Cluster, Edition, FileNumber, LogicalName, Slave};

/// Of pairs that have no physical name in common, one in so many is given one.
const PAIRS_FOR_A_SHARED_NAME: usize = 6;
/// Of the joins, one in so many is also made in the other edition.
const JOINS_IN_OTHER_EDITION: usize = 4;
/// The most slaves of each file of a pair on whose join a naming run is made.
const MOST_NAMED: usize = 4;
/// All names that a naming run can give.
const GIVEN: std::ops::RangeInclusive<u8> = 0x01..=0xFE;

/// As many joins, of good pairs mostly, some of them around the limits of the first one's edition.
pub fn joins(campaign: &mut Campaign, amount: usize, random: &mut Random) {
    for _ in 0..amount {
        let (first, second) = match random.below(20) {
            0..=2 => around_most_slaves(random),
            3 | 4 => around_most_bytes(random),
            5 | 6 => (any_file(random), clusters::damaged(random)),
            7 | 8 => (clusters::damaged(random), any_file(random)),
            9 => with_wrong_fronts(random),
            10 => with_equal_names(random),
            11 => with_itself(random),
            _ => any_pair(random),
        };
        let buffer_length = buffer_length(random, &first, &second);
        let call = Call::Join { first, second, buffer_length };
        let outcome = campaign.call(&call);
        if random.once_in(JOINS_IN_OTHER_EDITION) {
            in_the_other_edition(campaign, &call, &outcome);
        }
        if let Some(joined) = outcome.bytes_written() {
            loaded(campaign, &call, joined);
        }
    }
}

/// Two clusters of any size, one of them now and then without slaves.
fn any_pair(random: &mut Random) -> (Vec<u8>, Vec<u8>) {
    let mut clusters = [clusters::cluster(random), clusters::cluster(random)];
    if random.once_in(6) {
        clusters[random.below(2)].slaves.clear();
    }
    let [first, second] = clusters;
    pair(random, first, second)
}

/// The files of both, no physical name being in both, or now and then one: as often as not that of both last slaves.
fn pair(random: &mut Random, first: Cluster, mut second: Cluster) -> (Vec<u8>, Vec<u8>) {
    tell_apart(random, &first, &mut second);
    if random.once_in(PAIRS_FOR_A_SHARED_NAME) && !first.slaves.is_empty() && !second.slaves.is_empty() {
        let last = [first.slaves.len() - 1, second.slaves.len() - 1];
        let of = if random.once_in(2) { last } else { last.map(|last| random.between(0, last)) };
        set_physical_name(&mut second.slaves[of[1]], first.slaves[of[0]].physical_name());
    }
    (first.encode(), second.encode())
}

/// Gives each slave of the second whose physical name another one has a new name.
fn tell_apart(random: &mut Random, first: &Cluster, second: &mut Cluster) {
    let mut names: Vec<u64> = first.slaves.iter().map(Slave::physical_name).collect();
    for slave in &mut second.slaves {
        let mut name = slave.physical_name();
        while names.contains(&name) {
            name = random.number();
        }
        set_physical_name(slave, name);
        names.push(name);
    }
}

fn set_physical_name(slave: &mut Slave, name: u64) {
    let file = slave.file_mut(FileNumber::DOCUMENTATION).expect("a legal slave");
    file.bytes[4..12].copy_from_slice(&name.to_be_bytes());
}

/// Together of about as many slaves as the first one's edition holds.
fn around_most_slaves(random: &mut Random) -> (Vec<u8>, Vec<u8>) {
    let edition = random.one_of(&Edition::BOTH);
    let most = edition.most_slaves();
    let all = random.one_of(&[most - 1, most, most, most, most + 1, most + 1, most + 2]);
    let of_first = random.one_of(&[0, 1, all / 2, most - 1, most]).min(all);
    let first = clusters::cluster_in(random, edition, of_first);
    let second = clusters::cluster_of(random, (all - of_first).min(Edition::Two.most_slaves()));
    pair(random, first, second)
}

/// Together of about as many bytes: one of them is lengthened.
fn around_most_bytes(random: &mut Random) -> (Vec<u8>, Vec<u8>) {
    let edition = random.one_of(&Edition::BOTH);
    // As few slaves as have files enough to be lengthened so far, and no more than can be joined.
    let (fewest, most) = if edition == Edition::One { (6, 15) } else { (24, 31) };
    let counts = [random.between(fewest, most), random.between(fewest, most)];
    let mut first = clusters::cluster_in(random, edition, counts[0]);
    let mut second = clusters::cluster_of(random, counts[1]);
    let in_first = Cluster { edition, ..second.clone() }.length() - edition.header_bytes();
    let all = edition.most_bytes() + random.one_of(&[0, 0, 0, 4, 4, 8]);
    if random.once_in(2) {
        clusters::grow_to(random, &mut first, all - in_first);
    } else {
        let missing = all - in_first - first.length();
        let length = second.length() + missing;
        clusters::grow_to(random, &mut second, length);
    }
    pair(random, first, second)
}

/// Both turned away by their length, their mark or their edition, which damaged files seldom are, or one of them.
fn with_wrong_fronts(random: &mut Random) -> (Vec<u8>, Vec<u8>) {
    let wrong = [clusters::with_wrong_front(random), clusters::with_wrong_front(random)];
    let good = clusters::cluster(random).encode();
    let [first, second] = wrong;
    match random.below(3) {
        0 => (first, second),
        1 => (first, good),
        _ => (good, second),
    }
}

/// Mostly with two slaves of one physical name in one of them.
fn with_equal_names(random: &mut Random) -> (Vec<u8>, Vec<u8>) {
    let mut clusters = [clusters::cluster(random), clusters::cluster(random)];
    let which = random.below(2);
    clusters::repeat_a_physical_name(random, &mut clusters[which]);
    clusters.map(|cluster| cluster.encode()).into()
}

/// A file with itself, now and then one without slaves.
fn with_itself(random: &mut Random) -> (Vec<u8>, Vec<u8>) {
    let mut cluster = clusters::cluster(random);
    if random.once_in(4) {
        cluster.slaves.clear();
    }
    (cluster.encode(), cluster.encode())
}

/// Around the bytes that the joined file needs, and others.
fn buffer_length(random: &mut Random, first: &[u8], second: &[u8]) -> usize {
    let mut most = vec![0; Edition::Two.most_bytes()];
    let needed = join(first, second, &mut most).unwrap_or(first.len() + second.len());
    match random.below(10) {
        0 => 0,
        1 => needed.saturating_sub(1),
        2 => random.between(0, needed + 8),
        3..=5 => needed,
        6 => needed + 1,
        _ => needed + 9,
    }
}

/// A pair in the other edition comes to the joined file in that edition, and the second alone to the same file.
fn in_the_other_edition(campaign: &mut Campaign, call: &Call, outcome: &Outcome) {
    for (turned, expected) in in_other_edition(call, outcome) {
        if campaign.call(&turned) != expected {
            campaign
                .differ(&format!("it comes to something else in the other edition\n{turned}"), "see the case");
        }
        campaign.note_sorts((expected.number == 0).then_some(Sort::JoinedInOtherEdition));
    }
}

/// Two files that load make one that loads.
fn loaded(campaign: &mut Campaign, call: &Call, joined: &[u8]) {
    let Call::Join { first, second, .. } = call else {
        return;
    };
    if load(first).is_ok() && load(second).is_ok() {
        let outcome = campaign.call(&Call::Check { file: joined.to_vec() });
        if outcome.number != 0 {
            campaign.differ(&format!("the joined file does not load\n{call}"), "see the case");
        }
        campaign.note_sorts([Sort::JoinedLoads]);
    }
}

/// "Naming after a join takes as unnamed exactly the slaves that were at 0xFF and those the join turns": a run over all names
/// gives each of these one, and leaves the others theirs.
pub fn named(campaign: &mut Campaign, random: &mut Random) {
    let counts = [random.between(0, MOST_NAMED), random.between(1, MOST_NAMED)];
    let [first, mut second] = counts.map(|count| clusters::cluster_of(random, count));
    tell_apart(random, &first, &mut second);
    if let (Some(holder), true) = (first.slaves.first(), random.once_in(2)) {
        second.slaves[0].set_logical_name(holder.logical_name());
    }
    let call = Call::Join { first: first.encode(), second: second.encode(), buffer_length: 65_536 };
    let outcome = campaign.call(&call);
    let joined = outcome.bytes_written().expect("small files").to_vec();
    let names: Vec<u8> = GIVEN.collect();
    let left = names_in(&runs::to_its_end(campaign, random, joined, &names, runs::Given::NoSummary).file);
    let waiting = waiting(&first, &second);
    let unnamed = LogicalName::UNNAMED.0;
    let as_said = left.iter().zip(&waiting).all(|(&name, &before)| match before {
        Some(kept) => name == kept,
        None => name != unnamed,
    });
    if !as_said || left.len() != waiting.len() {
        campaign.differ(&format!("naming takes others as unnamed\n{call}"), "see the case");
    }
    let turned = second.slaves.iter().zip(&waiting[first.slaves.len()..]);
    let turns = turned.filter(|(slave, waits)| !slave.is_unnamed() && waits.is_none()).count();
    campaign.note_sorts((turns > 0).then_some(Sort::TurnedAndNamed));
}

/// Of each slave the name that it keeps; none of those that wait for one.
fn waiting(first: &Cluster, second: &Cluster) -> Vec<Option<u8>> {
    let name = |slave: &Slave| Some(slave.logical_name().0).filter(|&name| name != LogicalName::UNNAMED.0);
    let held: Vec<Option<u8>> = first.slaves.iter().map(name).collect();
    let kept = |slave: &Slave| name(slave).filter(|&name| !held.contains(&Some(name)));
    let of_second: Vec<Option<u8>> = second.slaves.iter().map(kept).collect();
    [held, of_second].concat()
}
