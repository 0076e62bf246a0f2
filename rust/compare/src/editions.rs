//! A call on a file and the same call on the file in the other edition: "All calls take both editions, and rounds give
//! equal answers on a file and its converted form" (document 02, request 10).
//!
//! The file is laid out anew here, so that what an engine's own conversions write is held against something.

use crate::case::{Call, Outcome};
use crate::engine::Engine;
use model::{check, Edition};

/// The limits of edition 1.
const NARROW_SLAVES: usize = 32;
const NARROW_BYTES: usize = 32_768;
/// Of a join, whatever the editions.
const SHARED_PHYSICAL_NAME: u8 = 29;

/// The other edition, 1 or 2.
fn other(edition: u8) -> u8 {
    3 - edition
}

/// Of an edition the bytes of an offset, of the header, and of an entry of the table or of a directory.
#[derive(Clone, Copy)]
struct Sizes {
    offset: usize,
    header: usize,
    entry: usize,
}

fn sizes(edition: u8) -> Sizes {
    match edition {
        1 => Sizes { offset: 2, header: 16, entry: 4 },
        _ => Sizes { offset: 4, header: 24, entry: 8 },
    }
}

/// A file of a slave: its number, and its bytes.
pub type SlaveFile = (u8, Vec<u8>);

/// What a cluster file holds in either edition.
#[derive(Clone)]
pub struct Parts {
    /// Epoch, flag, and the pending logical name, PB2 and PB3.
    pub state: [u8; 5],
    /// Each slave's sleep byte and files.
    pub slaves: Vec<(u8, Vec<SlaveFile>)>,
}

impl Parts {
    /// Those of a file whose layout is good.
    fn of(file: &[u8]) -> Parts {
        let from = sizes(file[2]);
        // Behind mark, edition and count come the table offset and the length.
        let state = 4 + 2 * from.offset;
        let slave = |place: usize| {
            let entry = &file[from.header + from.entry * place..][..from.entry];
            let directory = number_of(&entry[..from.offset]);
            let in_directory = |place: usize| {
                let entry = &file[directory + from.entry * place..][..from.entry];
                let (first, bytes) = (number_of(&entry[from.offset..]), 4 * (usize::from(entry[1]) + 1));
                (entry[0], file[first..first + bytes].to_vec())
            };
            (entry[from.offset + 1], (0..usize::from(entry[from.offset])).map(in_directory).collect())
        };
        Parts {
            state: file[state..state + 5].try_into().expect("five bytes"),
            slaves: (0..usize::from(file[3])).map(slave).collect(),
        }
    }

    /// The file that holds them in an edition.
    pub fn laid_out(&self, edition: u8) -> Vec<u8> {
        let to = sizes(edition);
        let first = to.header + to.entry * self.slaves.len();
        let (mut table, mut rest) = (Vec::new(), Vec::new());
        for (sleep, files) in &self.slaves {
            let directory = first + rest.len();
            table.extend(offset(to, directory));
            table.extend(padded(&[files.len() as u8, *sleep], to.offset));
            let mut place = directory + to.entry * files.len();
            for (number, content) in files {
                rest.extend(padded(&[*number, (content.len() / 4 - 1) as u8], to.offset));
                rest.extend(offset(to, place));
                place += content.len();
            }
            files.iter().for_each(|(_, content)| rest.extend(content));
        }
        let front = vec![0x54, 0x41, edition, self.slaves.len() as u8];
        let places = [offset(to, to.header), offset(to, first + rest.len())].concat();
        let header = padded(&[front, places, self.state.to_vec()].concat(), to.header);
        [header, table, rest].concat()
    }
}

fn number_of(bytes: &[u8]) -> usize {
    bytes.iter().fold(0, |number, &byte| 256 * number + usize::from(byte))
}

fn offset(to: Sizes, place: usize) -> Vec<u8> {
    (place as u32).to_be_bytes()[4 - to.offset..].to_vec()
}

/// The bytes with zeros behind them, so many in all.
fn padded(bytes: &[u8], length: usize) -> Vec<u8> {
    let mut bytes = bytes.to_vec();
    bytes.resize(length, 0);
    bytes
}

/// A file whose layout is good, in the other edition; None where edition 1 cannot hold it.
pub fn turned(file: &[u8]) -> Option<Vec<u8>> {
    let parts = Parts::of(file);
    let turned = parts.laid_out(other(file[2]));
    let too_large = parts.slaves.len() > NARROW_SLAVES || turned.len() > NARROW_BYTES;
    (turned[2] == 2 || !too_large).then_some(turned)
}

/// The same call on the file in the other edition, and what then has to come of it: the same, and the file left is in
/// that edition too. None for a call that takes no file, one whose file is turned away, and where edition 1 cannot hold the
/// file. Of two files first the second alone is in the other edition, then both are.
pub fn in_other_edition(call: &Call, outcome: &Outcome) -> Vec<(Call, Outcome)> {
    match call {
        Call::Join { first, second, buffer_length } if check(first).is_ok() && check(second).is_ok() => {
            let turned_second = turned_second(first, second, *buffer_length, outcome);
            let turned_both = turned_both(first, second, *buffer_length, outcome);
            turned_second.into_iter().chain(turned_both).collect()
        }
        Call::Join { .. } => Vec::new(),
        _ => with_file_turned(call, outcome).into_iter().collect(),
    }
}

fn with_file_turned(call: &Call, outcome: &Outcome) -> Option<(Call, Outcome)> {
    let file = call.file().filter(|file| check(file).is_ok())?;
    let file_after = match &outcome.file {
        Some(left) => Some(turned(left)?),
        None => None,
    };
    let call = call.on(turned(file)?)?;
    Some((call, Outcome { file: file_after, ..outcome.clone() }))
}

/// "The result has the edition of the first" (document 02, request 13), so that of the second makes no difference, not to a
/// refusal either.
fn turned_second(
    first: &[u8],
    second: &[u8],
    buffer_length: usize,
    outcome: &Outcome,
) -> Option<(Call, Outcome)> {
    let call = Call::Join { first: first.to_vec(), second: turned(second)?, buffer_length };
    Some((call, outcome.clone()))
}

/// The join of both turned is the joined file turned, with as much room behind it. Where 30 refuses, which goes by the
/// edition, there is none.
fn turned_both(
    first: &[u8],
    second: &[u8],
    buffer_length: usize,
    outcome: &Outcome,
) -> Option<(Call, Outcome)> {
    let (first, second) = (turned(first)?, turned(second)?);
    if outcome.number == SHARED_PHYSICAL_NAME {
        return Some((Call::Join { first, second, buffer_length }, outcome.clone()));
    }
    let joined = outcome.bytes_written()?;
    let behind = &outcome.buffer.as_ref()?[joined.len()..];
    let joined = turned(joined)?;
    let (length, buffer) = (Some(joined.len() as u64), [&joined, behind].concat());
    let call = Call::Join { first, second, buffer_length: buffer.len() };
    Some((call, Outcome { length, buffer: Some(buffer), ..outcome.clone() }))
}

/// Whether the engine converts the call's file into the one that was laid out here, and back; and does on it what it does
/// on the other. True where there is none.
pub fn holds_in_other_edition(engine: &dyn Engine, call: &Call, outcome: &Outcome) -> bool {
    in_other_edition(call, outcome).iter().all(|(turned, expected)| {
        let (Some(file), Some(into)) = (call.file(), turned.file()) else {
            return false;
        };
        &turned.make(engine) == expected && converts(engine, file, into) && converts(engine, into, file)
    })
}

/// Whether the engine makes the one file of the other, in a buffer that is just long enough.
fn converts(engine: &dyn Engine, file: &[u8], into: &[u8]) -> bool {
    let mut buffer = vec![0; into.len()];
    let mut length = 0;
    let number = engine.to_edition(file, Edition::of(into), &mut buffer, &mut length);
    (number, length, &buffer[..]) == (0, into.len() as u64, into)
}
