//! Sorts of calls on clusters with sleepers that have to occur: who falls asleep and who wakes, rounds that would have come
//! to something else if a sleeper had been awake, and the extra read of a naming run.

use super::{passes, Sort};
use crate::case::{Call, Outcome};
use crate::engine::{Model, RunWords};
use crate::frames::is_multipartner;
use crate::layout::sleepers_of;
use model::{
    check, senders_of, Cluster, Edition, End, FileNumber, LogicalName, Operation, RecordNumber, Slave, MSA, MSD,
};

const LAYOUT: u8 = 6;
const SLEEP_RECORD: RecordNumber = RecordNumber(4);
/// The words of a position that tell its index, its step and its rounds.
const INDEX: usize = 1;
const STEP: usize = 2;
const ROUNDS: usize = 4;

/// What a call is an example of. Traces are sorted where they are drawn.
pub fn sorts(call: &Call, outcome: &Outcome) -> Vec<Sort> {
    match call {
        Call::Check { file } if outcome.number == LAYOUT => {
            Vec::from_iter(is_accepted_asleep(file).then_some(Sort::SleepByteAbove))
        }
        Call::Round { file, frame, .. } => in_round(call, file, frame, outcome),
        Call::Step { run, .. } if outcome.number == 0 && run[0] == End::Running.number() => {
            in_step(call, run, outcome)
        }
        Call::Owner { file, .. } if outcome.number == 0 => {
            Vec::from_iter(has_slots_asleep(file).then_some(Sort::OwnerOfSleepers))
        }
        _ => Vec::new(),
    }
}

fn occurring<const N: usize>(occurs: [(bool, Sort); N]) -> Vec<Sort> {
    occurs.into_iter().filter_map(|(occurs, sort)| occurs.then_some(sort)).collect()
}

/// Whether the file would be accepted if each sleep byte above 1 were 1.
fn is_accepted_asleep(file: &[u8]) -> bool {
    let mut mended = file.to_vec();
    for slave in 0..usize::from(file[3]) {
        let sleep_byte = mended.get_mut(Edition::of(file).sleep_place(slave));
        sleep_byte.into_iter().for_each(|byte| *byte = 1.min(*byte));
    }
    check(&mended).is_ok()
}

fn has_slots_asleep(file: &[u8]) -> bool {
    check(file).is_ok_and(|mut cluster| {
        cluster.slaves.retain(|slave| slave.asleep);
        crate::layout::ROUNDS
            .into_iter()
            .any(|round| senders_of(&cluster.slaves, round).iter().any(|names| !names.is_empty()))
    })
}

/// The call with every slave of its file awake, and what that comes to.
fn if_awake(call: &Call, cluster: &Cluster) -> Outcome {
    let mut cluster = cluster.clone();
    cluster.slaves.iter_mut().for_each(|slave| slave.asleep = false);
    let mut call = call.clone();
    if let Call::Round { file, .. } | Call::Step { file, .. } = &mut call {
        *file = cluster.encode();
    }
    call.make(&Model)
}

/// Whether what slaves sent, or the bytes of their files, are others.
fn differs(one: &Outcome, other: &Outcome, before: &[u8]) -> (bool, bool) {
    let files = 16 + 4 * usize::from(before[3]);
    let stored =
        one.file.as_deref().map(|file| &file[files..]) != other.file.as_deref().map(|file| &file[files..]);
    (one.buffer != other.buffer, stored)
}

fn in_round(call: &Call, file: &[u8], frame: &[u8], outcome: &Outcome) -> Vec<Sort> {
    let Ok(cluster) = check(file) else {
        return Vec::new();
    };
    let some_slept = cluster.slaves.iter().any(|slave| slave.asleep);
    let mut sorts = match frame.first() {
        _ if outcome.number != 0 => return Vec::from_iter(some_slept.then_some(Sort::SleptThroughRefusal)),
        Some(&MSA) => return Vec::from_iter(some_slept.then_some(Sort::SleptThroughAddress)),
        Some(&MSD) => in_data(&cluster, &outcome.sleepers()),
        _ => Vec::from_iter(some_slept.then_some(Sort::WokenByMultipartner)),
    };
    if some_slept {
        let (sent, stored) = differs(outcome, &if_awake(call, &cluster), file);
        sorts.extend(asleep(&cluster, is_multipartner(frame), sent, stored));
    }
    sorts
}

/// What a data frame does to the sleep of slaves, given who sleeps after it.
fn in_data(cluster: &Cluster, after: &[bool]) -> Vec<Sort> {
    let name = cluster.pending.name;
    let woken = cluster.slaves.iter().zip(after).any(|(slave, &after)| slave.asleep && !after);
    let fell = after.contains(&true);
    let lacks_record = |slave: &Slave| {
        let addressed = match name {
            LogicalName::BROADCAST => !slave.is_unnamed(),
            name => slave.logical_name() == name,
        };
        addressed && !slave.asleep && slave.record(FileNumber::CONFIGURATION, SLEEP_RECORD).is_none()
    };
    occurring([
        (fell && name == LogicalName::UNNAMED, Sort::SleepOfUnnamed),
        (fell && name == LogicalName::BROADCAST, Sort::SleepOfOthers),
        (fell && name != LogicalName::UNNAMED && name != LogicalName::BROADCAST, Sort::SleepOfOne),
        (fell && cluster.slaves.iter().any(lacks_record), Sort::SleepWithoutRecord),
        (fell && woken, Sort::SleepAndWake),
        (woken && !cluster.pending.flag, Sort::WokenByNothing),
        (woken && cluster.pending.flag, Sort::WokenByData),
    ])
}

/// What a sleeper did not do, given whether the round would have come to something else.
fn asleep(cluster: &Cluster, multipartner: bool, sent: bool, stored: bool) -> Vec<Sort> {
    let operation = Operation::of_pb2(cluster.pending.pb2).filter(|_| cluster.pending.flag && !multipartner);
    let execute = operation == Some(Operation::Execute);
    occurring([
        (sent && operation == Some(Operation::Read), Sort::ReadAsleep),
        (stored && operation == Some(Operation::Write), Sort::WriteAsleep),
        (sent && execute, Sort::ComparisonAsleep),
        (stored && execute, Sort::BaptismAsleep),
        (sent && multipartner, Sort::SendAsleep),
        (stored && multipartner, Sort::ReceiveAsleep),
    ])
}

fn in_step(call: &Call, run: &RunWords, outcome: &Outcome) -> Vec<Sort> {
    let Call::Step { file, .. } = call else {
        return Vec::new();
    };
    let extra = run[ROUNDS] == 0;
    let would_answer = sleepers_of(file).contains(&true)
        && check(file).is_ok_and(|cluster| differs(outcome, &if_awake(call, &cluster), file).0);
    occurring([
        (extra && run[STEP] > 0, Sort::ExtraReadInPass),
        (extra && run[INDEX] > 0, Sort::ExtraReadOfLaterName),
        (extra && is_at_needless_write(call), Sort::ExtraReadAtNeedlessWrite),
        (extra && would_answer, Sort::ExtraReadAsleep),
        (!extra && run[STEP] == 0 && would_answer, Sort::PollAsleep),
    ])
}

/// Whether the step would pass over a write if a round were counted.
fn is_at_needless_write(call: &Call) -> bool {
    let mut counted = call.clone();
    if let Call::Step { run, .. } = &mut counted {
        run[ROUNDS] = 1;
    }
    let passed_over = [
        Sort::HighPassedOver,
        Sort::LowPassedOver,
        Sort::BothPassedOver,
        Sort::GivenHighPassedOver,
        Sort::GivenLowPassedOver,
        Sort::GivenBothPassedOver,
    ];
    passes::sorts(&counted, &counted.make(&Model)).iter().any(|sort| passed_over.contains(sort))
}

/// What a call with a trace on this file is an example of.
pub fn in_trace(file: &[u8], outcome: &Outcome) -> Vec<Sort> {
    let Some([_, msd, multipartner, ..]) = outcome.report_words() else {
        return Vec::new();
    };
    let (before, after) = (sleepers_of(file), outcome.sleepers());
    let changes = |from: bool| before.iter().zip(&after).any(|(&was, &is)| was == from && is != from);
    occurring([
        (changes(true), Sort::TraceWakes),
        (changes(false), Sort::TracePutsToSleep),
        (before.contains(&true) && msd + multipartner == 0, Sort::TraceLeavesAsleep),
    ])
}
