//! Frames, alone and in traces, turns of screens and naming runs. The model carries them out, so that each call is counted
//! on the file as it then is.

use super::{cluster_of, file, filled, list, loads, stores, words, LOAD, STORE, TEST};
use model::{
    Cluster, FileNumber, LogicalName, Operation, Pending, RecordNumber, Run, Slave, State, ANSWER_BYTES, MSA,
    MSD, SCREENS,
};

/// Epochs go round by eight, sleepers by two.
const CALLS: u64 = 8;
/// Of the position: the end, the index, the step and both counts.
const POSITION: u64 = 5 * (LOAD + TEST);
const REPORT_WORDS: u64 = 5;
const TRACE_HEADER_BYTES: usize = 4;
const TRACE_ROW_BYTES: usize = 3;
/// The records of 0x08 that are executed.
const BAPTIZE: RecordNumber = RecordNumber(1);
const COMPARE: RecordNumber = RecordNumber(2);
const SLEEP: RecordNumber = RecordNumber(4);

/// What a frame costs on an accepted file: for its answer, and for everything else.
#[derive(Default)]
struct Work {
    answer: u64,
    other: u64,
}

/// Whether a call has looked at the slaves' logical names before, for a summary.
#[derive(Clone, Copy, PartialEq, Eq)]
enum Names {
    Unread,
    Read,
}

impl Names {
    /// A slave's name against another.
    fn look(self) -> u64 {
        match self {
            Names::Unread => LOAD + TEST,
            Names::Read => TEST,
        }
    }
}

/// The mean of calls with one frame, the file staying as each leaves it.
pub fn again_and_again(file: &[u8], frame: &[u8], held: Option<&[u8]>) -> u64 {
    let mut cluster = cluster_of(file);
    let calls = (0..CALLS).map(|_| round(&mut cluster, frame, held));
    calls.sum::<u64>() / CALLS
}

pub fn one_by_one(file: &[u8], frames: &[Vec<u8>]) -> u64 {
    let mut cluster = cluster_of(file);
    frames.iter().map(|frame| round(&mut cluster, frame, None)).sum()
}

/// The file, the summary, the buffer, the frame, the header, and the answer.
fn round(cluster: &mut Cluster, frame: &[u8], held: Option<&[u8]>) -> u64 {
    let before = cluster.clone();
    let names = if held.is_some() { Names::Read } else { Names::Unread };
    let work = take(cluster, frame, names);
    let summary = held.map_or(0, |_| summary(&before, cluster));
    file::walk(&before) + summary + TEST + work.other + STORE + answered() + work.answer
}

/// The buffer, filled, and the mask.
fn answered() -> u64 {
    filled(ANSWER_BYTES) + STORE
}

/// The count; the names of the slice, each held against the file's; those that the call changes.
fn summary(before: &Cluster, after: &Cluster) -> u64 {
    let slaves = before.slaves.len();
    let pairs = before.slaves.iter().zip(&after.slaves);
    let renamed = pairs.filter(|(before, after)| before.logical_name() != after.logical_name()).count();
    TEST + loads(slaves) + slaves as u64 * (LOAD + TEST) + renamed as u64 * STORE
}

/// Carries out a frame. Epoch and pending bytes are not counted: a trace keeps them until its end.
fn take(cluster: &mut Cluster, frame: &[u8], names: Names) -> Work {
    let before = cluster.clone();
    let answer = cluster.take(frame).expect("a frame that is carried out");
    let mut work = match frame[0] {
        MSA => Work::default(),
        MSD if before.pending.flag => operation(&before, before.pending, names),
        MSD => Work::default(),
        firework => {
            let round = model::round_of(firework).expect("a firework");
            let looks = before.slaves.len() as u64 * names.look();
            let partners = list::partners(&before, round, cluster.epoch, answer.senders);
            Work { answer: words(answer.senders) * STORE, other: looks + partners }
        }
    };
    work.other += read(frame) + woken(&before, cluster);
    work
}

/// Its bytes, its firework, its length; of six bytes the check; of an address its operation and of a read its name.
fn read(frame: &[u8]) -> u64 {
    let check = if frame.len() > 1 { TEST } else { 0 };
    let address = match frame {
        [MSA, _, _, pb2, ..] if Operation::of_pb2(*pb2) == Some(Operation::Read) => 2 * TEST,
        [MSA, ..] => TEST,
        _ => 0,
    };
    loads(frame.len()) + 2 * TEST + check + address
}

/// A store for each slave that slept and does no longer.
fn woken(before: &Cluster, after: &Cluster) -> u64 {
    let pairs = before.slaves.iter().zip(&after.slaves);
    pairs.filter(|(before, after)| before.asleep && !after.asleep).count() as u64 * STORE
}

/// What slaves do on a pending operation: whether each is addressed, and then its record.
fn operation(cluster: &Cluster, pending: Pending, names: Names) -> Work {
    let Pending { name, pb2, pb3, .. } = pending;
    let (number, record) = (FileNumber(pb2 / 4), RecordNumber(pb3));
    let if_there = |slave: &Slave, cost: u64| if slave.record(number, record).is_some() { cost } else { 0 };
    let of_all = |work: &dyn Fn(&Slave) -> u64| -> u64 {
        let addressed = cluster.slaves.iter().filter(|slave| is_addressed(slave, name));
        cluster.slaves.len() as u64 * names.look() + addressed.map(work).sum::<u64>()
    };
    let is_execute = number == FileNumber::CONFIGURATION;
    let is_kept = number == FileNumber::DOCUMENTATION || record == RecordNumber(0);
    match Operation::of_pb2(pb2) {
        Some(Operation::Read) if name != LogicalName::UNNAMED => {
            Work { answer: of_all(&|slave| if_there(slave, LOAD)), other: 0 }
        }
        Some(Operation::Write) if !is_kept => {
            Work { answer: 0, other: of_all(&|slave| if_there(slave, STORE)) }
        }
        Some(Operation::Execute) if is_execute && record == COMPARE && name != LogicalName::BROADCAST => {
            Work { answer: compared(cluster, name, names), other: 0 }
        }
        Some(Operation::Execute) if is_execute && record == BAPTIZE => {
            Work { answer: 0, other: of_all(&baptized) }
        }
        Some(Operation::Execute) if is_execute && record == SLEEP => {
            Work { answer: 0, other: of_all(&|slave| TEST + if_there(slave, STORE)) }
        }
        _ => Work::default(),
    }
}

fn is_addressed(slave: &Slave, name: LogicalName) -> bool {
    let is_meant = match name {
        LogicalName::BROADCAST => !slave.is_unnamed(),
        _ => slave.logical_name() == name,
    };
    is_meant && !slave.asleep
}

/// The comparison value; the new name of one whose physical name it is.
fn baptized(slave: &Slave) -> u64 {
    let is_equal = slave.physical_name() == slave.comparison_value();
    LOAD + TEST + if is_equal { LOAD + STORE } else { 0 }
}

/// Names and comparison values up to the first slave that replies, which settles the answer.
fn compared(cluster: &Cluster, name: LogicalName, names: Names) -> u64 {
    let replies =
        |slave: &Slave| is_addressed(slave, name) && slave.physical_name() >= slave.comparison_value();
    let asked = cluster.slaves.iter().position(replies).map_or(cluster.slaves.len(), |place| place + 1);
    let asked = &cluster.slaves[..asked];
    let addressed = asked.iter().filter(|slave| is_addressed(slave, name)).count() as u64;
    asked.len() as u64 * names.look() + addressed * (LOAD + TEST)
}

/// The trace's header with both its numbers; of each frame its row, whose place follows, and what it does, its answer aside,
/// which nobody sees; the end of the data; the file's header, and the report.
pub fn trace(file: &[u8], trace: &[u8]) -> u64 {
    let mut cluster = cluster_of(file);
    let walk = file::walk(&cluster);
    let frame = |frame: &[u8]| LOAD + TEST + take(&mut cluster, frame, Names::Unread).other;
    let frames: u64 = frames_in(trace).into_iter().map(frame).sum();
    walk + loads(TRACE_HEADER_BYTES) + 2 * TEST + frames + TEST + STORE + REPORT_WORDS * STORE
}

fn frames_in(trace: &[u8]) -> Vec<&[u8]> {
    let (header, rest) = trace.split_at(TRACE_HEADER_BYTES);
    let count = usize::from(u16::from_be_bytes([header[0], header[1]]));
    let (rows, mut data) = rest.split_at(TRACE_ROW_BYTES * count);
    let mut frame = |row: &[u8]| {
        let (frame, rest) = data.split_at(usize::from(row[2]));
        data = rest;
        frame
    };
    rows.chunks(TRACE_ROW_BYTES).map(&mut frame).collect()
}

/// The screen last served; the waiting bytes up to that of the screen due, of which file and name are tested; the file and
/// the buffer. Then the read, which is a data frame's, both bytes of the state, and the screen.
pub fn turn(file: &[u8], state: &State) -> u64 {
    let cluster = cluster_of(file);
    let mut after = file.to_vec();
    let served = model::turn(&mut after, &mut state.clone(), &mut [0; ANSWER_BYTES]).expect("a good state");
    let call = file::walk(&cluster) + LOAD + TEST + TEST;
    let Some(served) = served else {
        return call + SCREENS as u64 * (LOAD + TEST) + STORE;
    };
    let passed = (usize::from(served.screen) + SCREENS - 1 - usize::from(state[0])) % SCREENS;
    let looked_at = passed as u64 + 1;
    call + looked_at * (LOAD + TEST)
        + 2 * TEST
        + master_slave_round(&cluster, &cluster_of(&after), Names::Unread)
        + 3 * STORE
}

/// The round that a turn or a step makes, whose frames are whole by themselves: the header, the answer, the operation.
fn master_slave_round(before: &Cluster, after: &Cluster, names: Names) -> u64 {
    let work = operation(before, after.pending, names);
    STORE + answered() + work.answer + work.other + woken(before, after)
}

/// The call that starts it, then step by step.
pub fn naming_run(file: &[u8], names: &[u8], held: Option<&[u8]>) -> u64 {
    let looked = if held.is_some() { Names::Read } else { Names::Unread };
    let mut file = file.to_vec();
    let mut run = model::start(names).expect("names without a fault");
    let mut sum = listed(names) + stores(std::mem::size_of::<Run>());
    let mut before = cluster_of(&file);
    while run.end == model::End::Running.number() {
        let position = run;
        model::step(&mut file, &mut run, names, &mut [0; ANSWER_BYTES]).expect("a good position");
        let after = cluster_of(&file);
        // What is asked before the round, and the round, which moves the position.
        sum += file::walk(&before)
            + held.map_or(0, |_| summary(&before, &after))
            + TEST
            + listed(names)
            + POSITION;
        sum += master_slave_round(&before, &after, looked) + moved(&position, &run) * STORE;
        before = after;
    }
    sum
}

/// A list of names: whether each is 0x00 or 0xFF, which is one test, and whether it came before.
fn listed(names: &[u8]) -> u64 {
    loads(names.len()) + names.len() as u64 * 2 * TEST
}

/// How many words of the position a step changes.
fn moved(before: &Run, after: &Run) -> u64 {
    let words =
        |run: &Run| [run.end, run.index, run.step, run.value, run.rounds, run.comparisons, run.high, run.low];
    words(before).iter().zip(words(after)).filter(|(before, after)| *before != after).count() as u64
}
