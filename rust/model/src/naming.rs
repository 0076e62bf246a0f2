//! "The naming run": one complete master-slave round a step.

use crate::round::Answer;
use crate::{
    check, number_of, write_data, Address, Cluster, FileNumber, LogicalName, Operation, RecordNumber, Refusal,
    ANSWER_BYTES, FRAME_BYTES, MSD,
};

/// The end marks of a run.
#[derive(Clone, Copy, Debug, PartialEq, Eq)]
pub enum End {
    Running,
    AllNamed,
    NamesUsedUp,
}

impl End {
    pub fn number(self) -> u64 {
        match self {
            End::Running => 0,
            End::AllNamed => 1,
            End::NamesUsedUp => 2,
        }
    }
}

/// A position in the list of names. A stored one may hold anything, so every part is a bare number.
#[derive(Clone, Copy, Debug, Default, PartialEq, Eq)]
pub struct Run {
    pub end: u64,
    pub index: u64,
    pub step: u64,
    pub value: u64,
    pub rounds: u64,
    pub comparisons: u64,
    /// "the position also holds the two halves last written" (document 02, request 6)
    pub high: u64,
    pub low: u64,
}

const COUNT_LIMIT: u64 = 1_000_000;
const LAST_STEP: u64 = 199;

/// A fresh run. "An empty list is ended (mark 2, the rest 0) at the start"
pub fn start(names: &[u8]) -> Result<Run, Refusal> {
    check_names(names)?;
    let end = if names.is_empty() { End::NamesUsedUp } else { End::Running };
    Ok(Run { end: end.number(), ..Run::default() })
}

/// Grounds 15 and 16, the first over the whole list before the second.
fn check_names(names: &[u8]) -> Result<(), Refusal> {
    if names.iter().any(|&name| name == LogicalName::BROADCAST.0 || name == LogicalName::UNNAMED.0) {
        return Err(Refusal(15));
    }
    let occurs_before = |place: usize| names[..place].contains(&names[place]);
    if (0..names.len()).any(occurs_before) {
        return Err(Refusal(16));
    }
    Ok(())
}

/// Ground 17.
fn no_position(run: &Run, names: &[u8]) -> bool {
    let length = names.len() as u64;
    let running = run.end == End::Running.number();
    let cannot_go_on = run.index == length
        || run.step > LAST_STEP
        || run.rounds >= COUNT_LIMIT
        || run.comparisons >= COUNT_LIMIT;
    run.end > End::NamesUsedUp.number() || run.index > length || (running && cannot_go_on)
}

/// One step: the mask of its MSD, or none where an ended run does nothing.
pub fn step(file: &mut [u8], run: &mut Run, names: &[u8], buffer: &mut [u8]) -> Result<Option<u64>, Refusal> {
    let mut cluster = check(file)?;
    if buffer.len() < ANSWER_BYTES {
        return Err(Refusal(9));
    }
    check_names(names)?;
    if no_position(run, names) {
        return Err(Refusal(17));
    }
    if run.end != End::Running.number() {
        return Ok(None);
    }
    let answer = if run.rounds == 0 {
        extra_read(&mut cluster, run, names)
    } else {
        round_of_pass(&mut cluster, run, names)
    };
    file.copy_from_slice(&cluster.encode());
    buffer[..ANSWER_BYTES].copy_from_slice(&answer.bytes);
    Ok(Some(answer.senders))
}

/// "A naming run with a non-empty list begins with one extra read of 0x3D record 1 at its first name, its reply ignored.
/// It is due exactly while a running position counts no round, and raises that count alone" (document 02, request 9)
fn extra_read(cluster: &mut Cluster, run: &mut Run, names: &[u8]) -> Answer {
    let answer = make_round(cluster, &MasterSlaveRound::poll(LogicalName(names[0])));
    run.rounds += 1;
    answer
}

fn round_of_pass(cluster: &mut Cluster, run: &mut Run, names: &[u8]) -> Answer {
    run.pass_over_needless_writes();
    let name = LogicalName(names[run.index as usize]);
    let place = Place::of(run.step);
    let answer = make_round(cluster, &place.round(name, run.value));
    let replied = answer.senders >> 1 & 1 == 1;
    run.keep_half_written(place);
    run.move_on(place, replied, names.len() as u64);
    run.pass_over_needless_writes();
    answer
}

/// The part of a comparison that a round makes.
#[derive(Clone, Copy, Debug, PartialEq, Eq)]
enum Part {
    High,
    Low,
    Reply,
}

/// The places of a pass.
#[derive(Clone, Copy, Debug, PartialEq, Eq)]
enum Place {
    /// Does anyone hold the name?
    Poll,
    /// Is anyone unnamed? ("compare with 0")
    Least(Part),
    /// Is this bit of the greatest physical name set?
    Bit(u32, Part),
    GiveName,
    GiveHigh,
    GiveLow,
    Baptize,
}

impl Place {
    fn of(step: u64) -> Place {
        let part = match (step + 2) % 3 {
            0 => Part::High,
            1 => Part::Low,
            _ => Part::Reply,
        };
        match step {
            0 => Place::Poll,
            1..=3 => Place::Least(part),
            4..=195 => Place::Bit(63 - ((step - 4) / 3) as u32, part),
            196 => Place::GiveName,
            197 => Place::GiveHigh,
            198 => Place::GiveLow,
            _ => Place::Baptize,
        }
    }

    fn round(self, name: LogicalName, value: u64) -> MasterSlaveRound {
        match (self, self.half_to_write(value)) {
            (_, Some(Half::High(bytes))) => MasterSlaveRound::write(2, bytes),
            (_, Some(Half::Low(bytes))) => MasterSlaveRound::write(3, bytes),
            (Place::Poll, _) => MasterSlaveRound::poll(name),
            (Place::GiveName, _) => MasterSlaveRound::write(1, [0, 0, name.0, LogicalName::UNNAMED.0]),
            (Place::Baptize, _) => MasterSlaveRound::execute(1),
            (_, None) => MasterSlaveRound::execute(2),
        }
    }

    /// The half of a comparison value that stands at this place. "A comparison is three rounds at 0xFF: write record 2,
    /// write record 3, execute record 2."
    fn half_to_write(self, value: u64) -> Option<Half> {
        let (part, sent) = match self {
            Place::Least(part) => (part, 0),
            Place::Bit(bit, part) => (part, value | 1 << bit),
            Place::GiveHigh => (Part::High, value),
            Place::GiveLow => (Part::Low, value),
            Place::Poll | Place::GiveName | Place::Baptize => return None,
        };
        match part {
            Part::High => Some(Half::High(((sent >> 32) as u32).to_be_bytes())),
            Part::Low => Some(Half::Low((sent as u32).to_be_bytes())),
            Part::Reply => None,
        }
    }
}

/// Four bytes for record 2 or 3.
enum Half {
    High([u8; 4]),
    Low([u8; 4]),
}

impl Run {
    /// "The first comparison of a pass writes both halves; after it, record 2 or 3 is written exactly if its four bytes
    /// differ from those last written in that pass." The step "stands at the next round really made (handed in at a
    /// needless write, it moves on to it)".
    fn pass_over_needless_writes(&mut self) {
        while self.stands_at_needless_write() {
            self.step += 1;
        }
    }

    fn stands_at_needless_write(&self) -> bool {
        let place = Place::of(self.step);
        if matches!(place, Place::Least(_)) {
            return false;
        }
        match place.half_to_write(self.value) {
            Some(Half::High(bytes)) => number_of(&bytes) == self.high,
            Some(Half::Low(bytes)) => number_of(&bytes) == self.low,
            None => false,
        }
    }

    fn keep_half_written(&mut self, place: Place) {
        match place.half_to_write(self.value) {
            Some(Half::High(bytes)) => self.high = number_of(&bytes),
            Some(Half::Low(bytes)) => self.low = number_of(&bytes),
            None => {}
        }
    }

    fn move_on(&mut self, place: Place, replied: bool, length: u64) {
        self.rounds += 1;
        if matches!(place, Place::Least(Part::Reply) | Place::Bit(_, Part::Reply)) {
            self.comparisons += 1;
        }
        match place {
            Place::Poll if replied => self.finish_name(length),
            Place::Least(Part::Reply) if !replied => self.end = End::AllNamed.number(),
            Place::Least(Part::Reply) => {
                self.value = 0;
                self.step += 1;
            }
            Place::Bit(bit, Part::Reply) if replied => {
                self.value |= 1 << bit;
                self.step += 1;
            }
            Place::Baptize => self.finish_name(length),
            _ => self.step += 1,
        }
    }

    /// "A name done raises the index and puts the step to 0"
    fn finish_name(&mut self, length: u64) {
        self.index += 1;
        self.step = 0;
        if self.index == length {
            self.end = End::NamesUsedUp.number();
        }
    }
}

/// What the master sends in one complete round, its epoch aside.
pub(crate) struct MasterSlaveRound {
    name: LogicalName,
    file: FileNumber,
    operation: Operation,
    record: RecordNumber,
    data: Option<[u8; 4]>,
}

impl MasterSlaveRound {
    /// "read 0x3D record 1 there"
    fn poll(name: LogicalName) -> MasterSlaveRound {
        Self::read(name, FileNumber::DOCUMENTATION, RecordNumber(1))
    }

    pub(crate) fn read(name: LogicalName, file: FileNumber, record: RecordNumber) -> MasterSlaveRound {
        MasterSlaveRound { name, file, operation: Operation::Read, record, data: None }
    }

    fn write(record: u8, data: [u8; 4]) -> MasterSlaveRound {
        MasterSlaveRound { data: Some(data), ..Self::to_unnamed(Operation::Write, record) }
    }

    fn execute(record: u8) -> MasterSlaveRound {
        Self::to_unnamed(Operation::Execute, record)
    }

    fn to_unnamed(operation: Operation, record: u8) -> MasterSlaveRound {
        MasterSlaveRound {
            name: LogicalName::UNNAMED,
            file: FileNumber::CONFIGURATION,
            operation,
            record: RecordNumber(record),
            data: None,
        }
    }
}

/// The two frames of a round on the cluster, "PB0 being the file's epoch plus 1 modulo 256"; the answer to
/// the second. Neither can be refused: a name that is read is not 0x00, and the frames are whole.
pub(crate) fn make_round(cluster: &mut Cluster, round: &MasterSlaveRound) -> Answer {
    let address = Address {
        epoch: cluster.epoch.wrapping_add(1),
        name: round.name,
        file: round.file,
        operation: round.operation,
        record: round.record,
    };
    cluster.take(&address.frame()).expect("an address frame of the run");
    let mut frame = [MSD; FRAME_BYTES];
    let length = match round.data {
        Some(data) => {
            write_data(&mut frame, data).expect("six bytes");
            FRAME_BYTES
        }
        None => 1,
    };
    cluster.take(&frame[..length]).expect("a data frame of the run")
}
