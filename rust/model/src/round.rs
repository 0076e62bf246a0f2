//! One frame on a cluster file: the bus, and which rule a frame calls for.

use crate::frame::{file_of_pb2, read_frame};
use crate::{
    check, multipartner, slaves, Address, Cluster, Frame, Operation, Pending, RecordNumber, Refusal, Slave,
};

pub const ANSWER_BYTES: usize = 64;

/// What was sent in each slot: the bitwise and of the senders' bytes, or nothing.
#[derive(Clone, Debug, PartialEq, Eq)]
pub struct Bus {
    slots: [Option<u8>; ANSWER_BYTES],
}

impl Bus {
    pub fn silent() -> Bus {
        Bus { slots: [None; ANSWER_BYTES] }
    }

    pub fn send(&mut self, slot: usize, byte: u8) {
        self.slots[slot] = Some(self.slots[slot].unwrap_or(0xFF) & byte);
    }

    pub fn heard(&self, slot: usize) -> Option<u8> {
        self.slots[slot]
    }
}

/// The answer of an accepted frame: bit s of the mask tells that someone sent in slot s.
#[derive(Clone, Debug, PartialEq, Eq)]
pub struct Answer {
    pub senders: u64,
    pub bytes: [u8; ANSWER_BYTES],
}

impl Answer {
    fn of(firework: u8, bus: &Bus) -> Answer {
        let mut answer = Answer { senders: 0, bytes: [0xFF; ANSWER_BYTES] };
        answer.bytes[0] = firework;
        for slot in 1..ANSWER_BYTES {
            if let Some(byte) = bus.heard(slot) {
                answer.senders |= 1 << slot;
                answer.bytes[slot] = byte;
            }
        }
        answer
    }
}

/// One frame on a file: grounds 1 to 8 on the file, 9 on the buffer, 10 to 14 on the frame.
pub fn round(file: &mut [u8], frame: &[u8], buffer: &mut [u8]) -> Result<u64, Refusal> {
    let mut cluster = check(file)?;
    if buffer.len() < ANSWER_BYTES {
        return Err(Refusal(9));
    }
    let answer = cluster.take(frame)?;
    file.copy_from_slice(&cluster.encode());
    buffer[..ANSWER_BYTES].copy_from_slice(&answer.bytes);
    Ok(answer.senders)
}

impl Cluster {
    /// Carries out one frame, or refuses it and stays as it is.
    pub fn take(&mut self, frame: &[u8]) -> Result<Answer, Refusal> {
        let taken = read_frame(frame, self.pending.operation() == Some(Operation::Write))?;
        let mut bus = Bus::silent();
        match taken {
            Frame::Address(address) => self.hold(&address),
            Frame::Data(data) => {
                self.epoch = self.epoch.wrapping_add(1);
                let asleep = self.slaves.iter().map(|slave| self.falls_asleep(slave)).collect();
                self.carry_out(data, &mut bus);
                self.rest(asleep);
            }
            Frame::Multipartner(round) => {
                self.epoch = self.epoch.wrapping_add(1);
                multipartner::run(&mut self.slaves, round, self.epoch, &mut bus);
                self.rest(vec![false; self.slaves.len()]);
            }
        }
        Ok(Answer::of(frame[0], &bus))
    }

    /// "An accepted MSA sets the epoch to PB0 and becomes pending until the next one; nobody sends."
    fn hold(&mut self, address: &Address) {
        self.epoch = address.epoch;
        self.pending = Pending { flag: true, name: address.name, pb2: address.pb2(), pb3: address.record.0 };
    }

    /// "MSD carries out the pending operation, or nothing."
    fn carry_out(&mut self, data: Option<[u8; 4]>, bus: &mut Bus) {
        let Some(operation) = self.pending.operation() else {
            return;
        };
        let (name, file) = (self.pending.name, file_of_pb2(self.pending.pb2));
        let record = RecordNumber(self.pending.pb3);
        match (operation, data) {
            (Operation::Read, _) => slaves::read(&self.slaves, name, file, record, bus),
            (Operation::Write, Some(data)) => slaves::write(&mut self.slaves, name, file, record, data),
            (Operation::Write, None) => unreachable!("the frame of a pending write has data"),
            (Operation::Execute, _) => slaves::execute(&mut self.slaves, name, file, record, bus),
        }
    }
}

impl Cluster {
    /// Whether the pending operation puts this slave to sleep, settled before any change.
    fn falls_asleep(&self, slave: &Slave) -> bool {
        let (name, file) = (self.pending.name, file_of_pb2(self.pending.pb2));
        self.pending.operation() == Some(Operation::Execute)
            && slaves::falls_asleep(slave, name, file, RecordNumber(self.pending.pb3))
    }

    /// After an MSD or a multipartner round: who fell asleep in it sleeps, and a slave that slept "is awake after the
    /// next accepted MSD or multipartner round" (document 02, request 9).
    fn rest(&mut self, asleep: Vec<bool>) {
        for (slave, asleep) in self.slaves.iter_mut().zip(asleep) {
            slave.asleep = asleep;
        }
    }
}

impl Pending {
    fn operation(&self) -> Option<Operation> {
        if self.flag {
            Operation::of_pb2(self.pb2)
        } else {
            None
        }
    }
}
