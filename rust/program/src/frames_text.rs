//! Frames and records as text. A line of frames is the bytes of one frame, `read NAME FILE RECORD`, `write NAME FILE RECORD B B B B`,
//! `execute NAME FILE RECORD` (two frames each, PB0 the epoch plus 1) or `round N`, with a time in parentheses in front or not. A
//! line of a record is `FRAME > ANSWER`.

use crate::text::{byte, byte_named, hex, quoted, Words};
use ttpa::{Address, Senders, TtpaError};

/// A complete round as a master sends it: what the address frame says, but for the epoch, and the data of a write.
#[derive(Clone, Copy, Debug, PartialEq, Eq)]
pub struct MasterSlave {
    pub name: u8,
    pub file: u8,
    pub operation: u8,
    pub record: u8,
    pub data: Option<[u8; 4]>,
}

/// What a line of frames says.
#[derive(Clone, Debug, PartialEq, Eq)]
pub enum Sent {
    Frame(Vec<u8>),
    MasterSlave(MasterSlave),
}

/// Round number and firework.
pub const ROUNDS: [(u8, u8); 6] = [
    (0, ttpa::FIREWORK_ROUND_0),
    (2, ttpa::FIREWORK_ROUND_2),
    (3, ttpa::FIREWORK_ROUND_3),
    (4, ttpa::FIREWORK_ROUND_4),
    (6, ttpa::FIREWORK_ROUND_6),
    (7, ttpa::FIREWORK_ROUND_7),
];
/// By their numbers.
pub const OPERATIONS: [&str; 3] = ["read", "write", "execute"];

/// The word in front of a round's number.
pub const ROUND: &str = "round";

/// Reads a line that has a word in it.
pub fn read(line: &str) -> Result<Sent, String> {
    let line = without_time(line)?;
    let mut words = Words::of(line);
    let sent = match words.peek() {
        Some(ROUND) => read_round(&mut words)?,
        Some(word) if OPERATIONS.contains(&word) => Sent::MasterSlave(read_operation(&mut words)?),
        _ => Sent::Frame(read_bytes(&mut words)?),
    };
    words.end()?;
    Ok(sent)
}

/// The line behind a time in parentheses, as candump's logs have it.
fn without_time(line: &str) -> Result<&str, String> {
    match line.strip_prefix('(') {
        Some(rest) => {
            rest.split_once(')').map(|(_, rest)| rest).ok_or_else(|| "the time has no ')'".to_string())
        }
        None => Ok(line),
    }
}

/// `round 2`
fn read_round(words: &mut Words) -> Result<Sent, String> {
    words.keyword(ROUND)?;
    let word = words.next("the round")?;
    let known = ROUNDS.iter().find(|(number, _)| word == number.to_string());
    let (_, firework) =
        known.ok_or_else(|| format!("{} is no multipartner round (0, 2, 3, 4, 6 or 7)", quoted(word)))?;
    Ok(Sent::Frame(vec![*firework]))
}

/// `read 01 3D 02`. Any file number may stand here: whether there is one such is the engine's to say.
pub fn read_operation(words: &mut Words) -> Result<MasterSlave, String> {
    let word = words.next("the operation")?;
    let operation = OPERATIONS.iter().position(|&known| known == word);
    let operation =
        operation.ok_or_else(|| format!("{} is none of read, write and execute", quoted(word)))? as u8;
    let name = byte_named(words.next("the name")?, "name")?;
    let file = byte_named(words.next("the file number")?, "file number")?;
    let record = byte_named(words.next("the record number")?, "record number")?;
    let mut data = None;
    if operation == ttpa::OPERATION_WRITE {
        let mut bytes = [0; 4];
        for place in &mut bytes {
            *place = byte(words.next("one of the four bytes to be written")?)?;
        }
        data = Some(bytes);
    }
    Ok(MasterSlave { name, file, operation, record, data })
}

/// All words that are left: each a byte, or several bytes without blanks.
pub fn read_bytes(words: &mut Words) -> Result<Vec<u8>, String> {
    let mut bytes = Vec::new();
    while let Some(word) = words.peek() {
        words.next("a byte")?;
        bytes.extend(bytes_of(word)?);
    }
    Ok(bytes)
}

/// `55`, `0x55` or `550201F402A0`
fn bytes_of(word: &str) -> Result<Vec<u8>, String> {
    let one = word.len() <= 2 || word.len() % 2 == 1 || word.starts_with("0x") || !word.is_ascii();
    if one {
        Ok(vec![byte(word)?])
    } else {
        pairs(word)
    }
}

fn pairs(word: &str) -> Result<Vec<u8>, String> {
    let pairs = word.as_bytes().chunks(2).map(|pair| String::from_utf8_lossy(pair));
    let bytes: Result<Vec<u8>, String> = pairs.map(|pair| byte(&pair)).collect();
    bytes.map_err(|_| format!("{} is no row of bytes (hexadecimal)", quoted(word)))
}

/// The two frames of a master-slave round, or the engine's refusal.
pub fn frames(round: MasterSlave, epoch: u8) -> Result<[Vec<u8>; 2], TtpaError> {
    let MasterSlave { name, file, operation, record, data } = round;
    let mut address = vec![0; ttpa::FRAME_BYTES];
    ttpa::write_address(&mut address, &Address { epoch, name, file, operation, record })?;
    let second = match data {
        Some(bytes) => {
            let mut frame = vec![0; ttpa::FRAME_BYTES];
            ttpa::write_data(&mut frame, bytes)?;
            frame
        }
        None => vec![ttpa::FIREWORK_MSD],
    };
    Ok([address, second])
}

/// What was typed, as a record has it where no frame came of it: `read 00 3D 01`.
pub fn typed(round: MasterSlave) -> String {
    let MasterSlave { name, file, operation, record, data } = round;
    let word = OPERATIONS.get(usize::from(operation)).unwrap_or(&"");
    let data = data.map(|data| format!(" {}", hex(&data))).unwrap_or_default();
    format!("{word} {}{data}", hex(&[name, file, record]))
}

/// `silence`, `1=A1 2=5C` or `refused 12: ..`.
pub fn answer(carried_out: Result<Senders, TtpaError>, slots: &[u8]) -> String {
    let senders = match carried_out {
        Ok(senders) => senders,
        Err(refusal) => return refusal.to_string(),
    };
    let byte = |slot: u32| slots.get(slot as usize).map(|byte| format!("{slot}={byte:02X}"));
    let words: Vec<String> = senders.slots().filter_map(byte).collect();
    if words.is_empty() {
        "silence".to_string()
    } else {
        words.join(" ")
    }
}

#[cfg(test)]
mod tests {
    use super::*;

    #[test]
    fn a_line_may_have_each_form() {
        let frame = |bytes: &[u8]| Ok(Sent::Frame(bytes.to_vec()));
        assert_eq!(read("55 02 01 F4 02 A0"), frame(&[0x55, 0x02, 0x01, 0xF4, 0x02, 0xA0]));
        assert_eq!(read("(1436509052.249713) 0x55 2"), frame(&[0x55, 0x02]));
        assert_eq!(read("550201f402a0"), frame(&[0x55, 0x02, 0x01, 0xF4, 0x02, 0xA0]));
        assert_eq!(read("5502"), frame(&[0x55, 0x02]));
        assert_eq!(read("round 2"), frame(&[0xBA]));
        let write = MasterSlave { name: 1, file: 0x10, operation: 1, record: 2, data: Some([1, 2, 3, 4]) };
        assert_eq!(read("write 01 10 02 1 2 3 4"), Ok(Sent::MasterSlave(write)));
        assert_eq!(typed(write), "write 01 10 02 01 02 03 04");
        // the engine says that there is no such file number
        assert!(read("read 01 40 01").is_ok());
    }

    /// The table of document 01: MSD is round 1, MSA round 5.
    #[test]
    fn each_round_has_its_firework() {
        let fireworks = [(0, 0x78), (2, 0xBA), (3, 0x8B), (4, 0x64), (6, 0xA6), (7, 0x97)];
        for (round, firework) in fireworks {
            assert_eq!(read(&format!("round {round}")), Ok(Sent::Frame(vec![firework])));
        }
        assert!([1, 5, 8].iter().all(|round| read(&format!("round {round}")).is_err()));
    }

    #[test]
    fn a_wrong_line_is_told() {
        let wrong = |line: &str| read(line).err().unwrap_or_default();
        assert_eq!(wrong("round 1"), "'1' is no multipartner round (0, 2, 3, 4, 6 or 7)");
        assert_eq!(wrong("55 GG"), "'GG' is no byte (hexadecimal, at most FF)");
        assert_eq!(wrong("5502G1"), "'5502G1' is no row of bytes (hexadecimal)");
        assert_eq!(wrong("read 01 3D"), "the record number is missing");
        assert_eq!(wrong("read 01 3D 01 05"), "'05' is one word too many");
        assert_eq!(wrong("write 01 10 01 05"), "one of the four bytes to be written is missing");
        assert_eq!(wrong("(1436509052 55"), "the time has no ')'");
        assert_eq!(wrong("(1436509052) 55 )"), "')' is no byte (hexadecimal, at most FF)");
    }
}
