//! "Fireworks and frames", and grounds 9 to 14 and 18 as far as frames go.

use crate::{FileNumber, LogicalName, RecordNumber, Refusal};

/// The fireworks in the order of their rounds 0 to 7.
const FIREWORKS: [u8; 8] = [0x78, 0x49, 0xBA, 0x8B, 0x64, 0x55, 0xA6, 0x97];
pub const MSD: u8 = FIREWORKS[1];
pub const MSA: u8 = FIREWORKS[5];
pub const FRAME_BYTES: usize = 6;

pub fn round_of(firework: u8) -> Option<u8> {
    FIREWORKS.iter().position(|&known| known == firework).map(|round| round as u8)
}

pub fn firework_of(round: u8) -> u8 {
    FIREWORKS[usize::from(round)]
}

#[derive(Clone, Copy, Debug, PartialEq, Eq)]
pub enum Operation {
    Read,
    Write,
    Execute,
}

impl Operation {
    pub fn of(number: u8) -> Option<Operation> {
        match number {
            0 => Some(Operation::Read),
            1 => Some(Operation::Write),
            2 => Some(Operation::Execute),
            _ => None,
        }
    }

    pub fn number(self) -> u8 {
        match self {
            Operation::Read => 0,
            Operation::Write => 1,
            Operation::Execute => 2,
        }
    }

    /// "operation in the two low" bits of PB2
    pub fn of_pb2(pb2: u8) -> Option<Operation> {
        Operation::of(pb2 % 4)
    }
}

/// "file number in the six high bits" of PB2
pub(crate) fn file_of_pb2(pb2: u8) -> FileNumber {
    FileNumber(pb2 / 4)
}

/// What an address frame says.
#[derive(Clone, Copy, Debug, PartialEq, Eq)]
pub struct Address {
    pub epoch: u8,
    pub name: LogicalName,
    pub file: FileNumber,
    pub operation: Operation,
    pub record: RecordNumber,
}

impl Address {
    pub fn pb2(&self) -> u8 {
        self.file.0 * 4 + self.operation.number()
    }

    /// The frame that says this.
    pub fn frame(&self) -> [u8; FRAME_BYTES] {
        framed(MSA, [self.epoch, self.name.0, self.pb2(), self.record.0])
    }
}

/// One frame of any kind, as the bus takes it.
#[derive(Clone, Copy, Debug, PartialEq, Eq)]
pub enum Frame {
    Address(Address),
    /// The data of a write; none for the MSD of one byte.
    Data(Option<[u8; 4]>),
    /// The number of the round, 0, 2, 3, 4, 6 or 7.
    Multipartner(u8),
}

/// Grounds 10 to 14 as the round call takes them: what length fits an MSD depends on what is pending.
pub fn read_frame(frame: &[u8], write_pending: bool) -> Result<Frame, Refusal> {
    let Some(round) = frame.first().and_then(|&first| round_of(first)) else {
        return Err(Refusal(10));
    };
    match firework_of(round) {
        MSA => read_address(frame).map(Frame::Address),
        MSD if write_pending => four_bytes(frame).map(|data| Frame::Data(Some(data))),
        _ if frame.len() != 1 => Err(Refusal(11)),
        MSD => Ok(Frame::Data(None)),
        _ => Ok(Frame::Multipartner(round)),
    }
}

pub fn read_address(frame: &[u8]) -> Result<Address, Refusal> {
    if frame.first() != Some(&MSA) {
        return Err(Refusal(10));
    }
    let [epoch, name, pb2, record] = four_bytes(frame)?;
    let Some(operation) = Operation::of_pb2(pb2) else {
        return Err(Refusal(13));
    };
    let name = LogicalName(name);
    if broadcast_read(operation, name) {
        return Err(Refusal(14));
    }
    Ok(Address { epoch, name, file: file_of_pb2(pb2), operation, record: RecordNumber(record) })
}

/// The writer takes bare bytes, since it is to refuse those that are no operation or no file number.
pub fn write_address(
    buffer: &mut [u8],
    epoch: u8,
    name: u8,
    file: u8,
    operation: u8,
    record: u8,
) -> Result<(), Refusal> {
    if buffer.len() < FRAME_BYTES {
        return Err(Refusal(9));
    }
    let Some(operation) = Operation::of(operation) else {
        return Err(Refusal(13));
    };
    let (name, file) = (LogicalName(name), FileNumber(file));
    if broadcast_read(operation, name) {
        return Err(Refusal(14));
    }
    if file > FileNumber::LAST {
        return Err(Refusal(18));
    }
    let address = Address { epoch, name, file, operation, record: RecordNumber(record) };
    buffer[..FRAME_BYTES].copy_from_slice(&address.frame());
    Ok(())
}

pub fn write_data(buffer: &mut [u8], data: [u8; 4]) -> Result<(), Refusal> {
    if buffer.len() < FRAME_BYTES {
        return Err(Refusal(9));
    }
    buffer[..FRAME_BYTES].copy_from_slice(&framed(MSD, data));
    Ok(())
}

/// "A read, received or to be written, is addressed to 0x00."
fn broadcast_read(operation: Operation, name: LogicalName) -> bool {
    operation == Operation::Read && name == LogicalName::BROADCAST
}

/// "the check of MSA, of MSD data and of a slave's read reply is the exclusive or of its round's firework (0x49
/// for a read reply) and the four bytes" (document 02, request 1)
pub(crate) fn check_byte(firework: u8, bytes: [u8; 4]) -> u8 {
    bytes.into_iter().fold(firework, |check, byte| check ^ byte)
}

fn framed(firework: u8, bytes: [u8; 4]) -> [u8; FRAME_BYTES] {
    [firework, bytes[0], bytes[1], bytes[2], bytes[3], check_byte(firework, bytes)]
}

/// The bytes between firework and check of a frame of six bytes: grounds 11 and 12.
fn four_bytes(frame: &[u8]) -> Result<[u8; 4], Refusal> {
    let &[firework, a, b, c, d, check] = frame else {
        return Err(Refusal(11));
    };
    if check != check_byte(firework, [a, b, c, d]) {
        return Err(Refusal(12));
    }
    Ok([a, b, c, d])
}
