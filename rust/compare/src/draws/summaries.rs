//! Random summaries, right and wrong ones, and the calls that fill, ask or are given one.

use super::random::Random;
use super::{clusters, inputs};
use crate::campaign::{any_file, Campaign};
use crate::case::{Call, Outcome};
use crate::engine::RunWords;
use crate::frames::framed;
use model::{check, Cluster, LogicalName, Refusal, MSA};
use std::ops::RangeInclusive;

/// A call is refused by one of these for its file.
const OF_THE_FILE: RangeInclusive<u8> = 1..=8;
const SHORT_BUFFER: u8 = 9;
const NO_SUMMARY: u8 = 24;
/// PB2 and PB3 of an execute of record 1 of 0x08.
const EXECUTE_OF_CONFIGURATION: u8 = 0x22;
const NAMES_RECORD: u8 = 1;

/// A summary: the lent slice and the count.
#[derive(Clone)]
pub struct Held {
    pub held: Vec<u8>,
    pub count: u64,
}

impl Held {
    /// That of a file, with some room behind the names; of a refused file any.
    pub fn of(random: &mut Random, file: &[u8]) -> Held {
        let mut held: Vec<u8> = match check(file) {
            Ok(cluster) => cluster.slaves.iter().map(|slave| slave.logical_name().0).collect(),
            Err(_) => random.bytes(3),
        };
        let count = held.len() as u64;
        for _ in 0..random.one_of(&[0, 0, 1, 2, 9]) {
            held.push(clusters::logical_name(random));
        }
        Held { held, count }
    }

    /// The same with one thing wrong about it, which now and then changes nothing.
    fn spoiled(self, random: &mut Random) -> Held {
        let Held { mut held, mut count } = self;
        let last = count.saturating_sub(1) as usize;
        match random.below(10) {
            0 => {
                held.insert(count as usize, clusters::logical_name(random));
                count += 1;
            }
            1 | 2 => count = last as u64,
            3 => held.truncate(last),
            4 => held.truncate(random.below(last + 1)),
            5 => held.get_mut(last).into_iter().for_each(|name| *name = clusters::logical_name(random)),
            6 => held.first_mut().into_iter().for_each(|name| *name = clusters::logical_name(random)),
            7 => held.iter_mut().take(last + 1).for_each(|name| *name = clusters::logical_name(random)),
            8 => count = random.one_of(&[u64::MAX, count + (1 << 32), count + (1 << 63), count + 256]),
            _ => held.iter_mut().skip(last).for_each(|name| *name ^= 1),
        }
        Held { held, count }
    }
}

/// Fillings of slices that are too short, fit, or have room left.
pub fn fills(campaign: &mut Campaign, amount: usize, random: &mut Random) {
    for _ in 0..amount {
        let file = any_file(random);
        let slaves = file.get(3).map_or(0, |&count| usize::from(count));
        let room = match random.below(6) {
            0 => slaves.saturating_sub(1),
            1 => random.below(slaves + 1),
            2 | 3 => slaves,
            4 => slaves + 1,
            _ => 64,
        };
        let held = random.bytes(room);
        campaign.call(&Call::Fill { file, held });
    }
}

/// Questions of the summary of a file, held against a reading of the whole file, and of any bytes.
pub fn holders(campaign: &mut Campaign, amount: usize, random: &mut Random) {
    for _ in 0..amount {
        let file = clusters::cluster(random).encode();
        let right = random.once_in(2);
        let Held { held, count } =
            if right { Held::of(random, &file) } else { Held::of(random, &file).spoiled(random) };
        let any_name = clusters::logical_name(random);
        let one_held = held.get(random.below(held.len().max(1))).copied().unwrap_or(any_name);
        let name = random.one_of(&[0x00, 0xFF, any_name, any_name, one_held, one_held]);
        let call = Call::Holder { held, count, name };
        let told = campaign.call(&call).holder();
        if right && Ok(told) != full_reading(&file, name) {
            campaign
                .differ(&format!("a full reading of the file gives another holder\n{call}"), "see the case");
        }
    }
}

/// "what a full reading of the file gives"
fn full_reading(file: &[u8], name: u8) -> Result<Option<u64>, Refusal> {
    Ok(model::first_holder(file, LogicalName(name))?.map(|place| place as u64))
}

/// Whether the summary matches the file, and the question for the name is answered as by a full reading.
pub fn is_true(file: &[u8], Held { held, count }: &Held, name: u8) -> bool {
    let names = check(file)
        .map(|cluster| -> Vec<u8> { cluster.slaves.iter().map(|slave| slave.logical_name().0).collect() });
    let told = model::holder(held, *count, LogicalName(name));
    let of_the_summary = held.get(..*count as usize).map(<[u8]>::to_vec);
    names.ok() == of_the_summary && told == model::first_holder(file, LogicalName(name))
}

/// An execute of record 1 of 0x08, which renames, at the unnamed, at all others or at one name.
fn baptizing(random: &mut Random, cluster: &Cluster) -> Vec<u8> {
    let names: Vec<u8> =
        cluster.slaves.iter().map(|slave| slave.logical_name().0).chain([0xFF, 0x00]).collect();
    framed(MSA, [random.byte(), random.one_of(&names), EXECUTE_OF_CONFIGURATION, NAMES_RECORD])
}

fn frame(random: &mut Random, file: &[u8]) -> Vec<u8> {
    match check(file) {
        Ok(cluster) if random.once_in(8) => baptizing(random, &cluster),
        Ok(cluster) => inputs::frame(random, &cluster),
        Err(_) => random.bytes(1),
    }
}

/// A file and its summary, which the calls hand on.
struct Kept {
    file: Vec<u8>,
    summary: Held,
}

impl Kept {
    fn drawn(random: &mut Random) -> Kept {
        let file = any_file(random);
        let summary = Held::of(random, &file);
        Kept { file, summary }
    }

    /// Makes the call, given the file's summary or now and then a wrong one; file and summary become what it leaves.
    fn call(&mut self, campaign: &mut Campaign, random: &mut Random, call: Call) -> Outcome {
        let handed =
            if random.once_in(8) { Held::of(random, &self.file).spoiled(random) } else { self.summary.clone() };
        let call = call.keeping(&handed.held, handed.count);
        let outcome = campaign.call(&call);
        self.file = outcome.file.clone().expect("a lent file");
        if outcome.number == 0 {
            self.summary = Held { held: outcome.held.clone().expect("a lent slice"), count: handed.count };
            if !is_true(&self.file, &self.summary, clusters::logical_name(random)) {
                campaign.differ(&format!("the summary left does not match\n{call}"), "see the case");
            }
        }
        outcome
    }
}

/// Frames one after the other on a file, each given the summary that the last one left.
pub fn rounds(campaign: &mut Campaign, amount: usize, random: &mut Random) {
    let mut made = 0;
    while made < amount {
        let mut kept = Kept::drawn(random);
        for _ in 0..random.between(1, 20) {
            let frame = frame(random, &kept.file);
            let answer_length = inputs::answer_length(random);
            let call = Call::Round { file: kept.file.clone(), frame, answer_length };
            let number = kept.call(campaign, random, call).number;
            made += 1;
            if OF_THE_FILE.contains(&number) {
                break;
            }
        }
    }
}

/// Steps from positions of any content likewise, some of them followed on.
pub fn steps(campaign: &mut Campaign, amount: usize, random: &mut Random) {
    let mut made = 0;
    while made < amount {
        let mut kept = Kept::drawn(random);
        let (names, mut run) = names_and_position(random, &kept.file);
        for _ in 0..random.between(1, 6) {
            let answer_length = inputs::answer_length(random);
            let call = Call::Step { file: kept.file.clone(), names: names.clone(), run, answer_length };
            let outcome = kept.call(campaign, random, call);
            run = outcome.run.unwrap_or(run);
            made += 1;
            if !matches!(outcome.number, 0 | SHORT_BUFFER | NO_SUMMARY) {
                break;
            }
        }
    }
}

fn names_and_position(random: &mut Random, file: &[u8]) -> (Vec<u8>, RunWords) {
    let names = inputs::names(random);
    let run = inputs::position(random, &names);
    let held = match check(file) {
        Ok(cluster) if random.once_in(24) => inputs::poll_of_held_name(random, &cluster),
        _ => None,
    };
    held.unwrap_or((names, run))
}
