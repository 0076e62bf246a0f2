//! Where in a cluster file a refusal has its ground: the program's own reading. It is printed only under the number that the engine
//! returned.

use crate::layout::{
    byte, number, Edition, COUNT_PLACE, EDITION_PLACE, LAST_FILE, MARK, RECORD_BYTES, TABLE_PLACE,
};
use crate::text::hex;
use ttpa::{TtpaError, FILE_CONFIGURATION, FILE_DOCUMENTATION, NAME_BROADCAST, NAME_UNNAMED};

/// What was found, and under which number.
#[derive(Clone, Debug, PartialEq, Eq)]
pub struct Place {
    pub number: u8,
    /// The byte of the file; None where it is its length.
    pub byte: Option<usize>,
    pub part: Part,
    pub words: String,
}

/// The part of the cluster that a place is in.
#[derive(Clone, Copy, Debug, PartialEq, Eq)]
pub enum Part {
    Header,
    Pending,
    /// The first slave past the most.
    SlaveTooMany(usize),
    Slave(usize),
    File(usize, u8),
}

/// The place of a refusal: None where this reading finds another number than the engine, or nothing.
pub fn of(file: &[u8], refusal: TtpaError) -> Option<Place> {
    found(file).filter(|place| place.number == refusal.number())
}

/// `byte 30: slave 0 file 02: offset 45, must be 44`
pub fn line(place: &Place) -> String {
    let byte = place.byte.map(|byte| format!("byte {byte}: ")).unwrap_or_default();
    let part = match place.part {
        Part::Header | Part::Pending | Part::SlaveTooMany(_) => String::new(),
        Part::Slave(slave) => format!("slave {slave}: "),
        Part::File(slave, file) => format!("slave {slave} file {file:02X}: "),
    };
    format!("{byte}{part}{}", place.words)
}

/// The first ground that this reading finds.
pub fn found(file: &[u8]) -> Option<Place> {
    let edition = Edition::of(file);
    match header(file, edition).and_then(|()| slaves(file, edition)) {
        Ok(slaves) => names(&slaves).err(),
        Err(place) => Some(place),
    }
}

fn at(number: u8, byte: usize, part: Part, words: String) -> Place {
    Place { number, byte: Some(byte), part, words }
}

/// The error of a place, if the ground holds.
fn unless(good: bool, place: impl FnOnce() -> Place) -> Result<(), Place> {
    if good {
        Ok(())
    } else {
        Err(place())
    }
}

/// Grounds 1 to 5.
fn header(file: &[u8], edition: Edition) -> Result<(), Place> {
    let (length, least, most) = (file.len(), edition.header_bytes(), edition.most_bytes());
    let size = |words| Place { number: 1, byte: None, part: Part::Header, words };
    unless(length >= least, || size(format!("{length} bytes, the header has {least}")))?;
    unless(length <= most, || {
        size(format!("more than {most} bytes, the most of edition {}", edition.number()))
    })?;
    let mark = &file[..MARK.len()];
    let front = |number, byte, words| at(number, byte, Part::Header, words);
    unless(mark == MARK, || front(2, 0, format!("{}, must be {}", hex(mark), hex(&MARK))))?;
    let told = file[EDITION_PLACE];
    unless(told == edition.number(), || front(3, EDITION_PLACE, format!("edition {told}")))?;
    let told = offset(file, edition, edition.length_place());
    unless(told == length as u64, || {
        front(4, edition.length_place(), format!("length {told}, the file has {length} bytes"))
    })?;
    fields(file, edition)
}

/// An offset, or the length.
fn offset(file: &[u8], edition: Edition, place: usize) -> u64 {
    number(file.get(place..place + edition.offset_bytes()).unwrap_or_default())
}

/// Ground 5.
fn fields(file: &[u8], edition: Edition) -> Result<(), Place> {
    let (count, most) = (usize::from(file[COUNT_PLACE]), edition.most_slaves());
    unless(count <= most, || {
        at(5, COUNT_PLACE, Part::SlaveTooMany(most), format!("{count} slaves, at most {most}"))
    })?;
    let (table, must) = (offset(file, edition, TABLE_PLACE), edition.header_bytes());
    let wrong = |byte, words| at(5, byte, Part::Header, words);
    unless(table == must as u64, || wrong(TABLE_PLACE, format!("table offset {table}, must be {must}")))?;
    let zeros = edition.epoch_place() + crate::layout::STATE_BYTES;
    zeros_in(file, zeros, edition.header_bytes()).map_err(|(byte, words)| wrong(byte, words))?;
    pending(file, edition.epoch_place() + 1)
}

/// The first byte of a part that is not zero, and the words for it.
fn zeros_in(file: &[u8], from: usize, to: usize) -> Result<(), (usize, String)> {
    match (from..to).find(|&place| byte(file, place) != 0) {
        Some(place) => Err((place, format!("{:02X}, must be 00", byte(file, place)))),
        None => Ok(()),
    }
}

fn pending(file: &[u8], flag_place: usize) -> Result<(), Place> {
    let [flag, name, pb2] = [0, 1, 2].map(|more| byte(file, flag_place + more));
    let wrong = |byte, words: String| at(5, byte, Part::Pending, words);
    unless(flag <= 1, || wrong(flag_place, format!("pending flag {flag}, must be 0 or 1")))?;
    let operation = pb2 & 3;
    unless(flag == 0 || operation != 3, || {
        wrong(flag_place + 2, "pending operation 3, which is none of read, write and execute".to_string())
    })?;
    let broadcast_read = operation == ttpa::OPERATION_READ && name == NAME_BROADCAST;
    unless(flag == 0 || !broadcast_read, || wrong(flag_place + 1, "pending read at 00, all slaves".to_string()))
}

/// What the later grounds need of a slave.
#[derive(Default)]
struct Found {
    /// Number, place of the directory entry, record count and place of each file.
    files: Vec<FoundFile>,
    logical: (usize, u8),
    physical: (usize, u64),
}

#[derive(Clone, Copy)]
struct FoundFile {
    number: u8,
    entry: usize,
    records: usize,
    place: usize,
}

/// Grounds 6 and 7: the walk along the file, where each part has to stand.
fn slaves(file: &[u8], edition: Edition) -> Result<Vec<Found>, Place> {
    let count = usize::from(file[COUNT_PLACE]);
    let table_end = edition.table_entry(count);
    unless(table_end <= file.len(), || {
        let words = format!("the table of {count} slaves ends at {table_end}, the file at {}", file.len());
        at(6, COUNT_PLACE, Part::Header, words)
    })?;
    let mut place = table_end;
    let mut found = Vec::new();
    for slave in 0..count {
        table_entry(file, edition, slave, place)?;
        found.push(directory(file, edition, slave, &mut place)?);
    }
    unless(place == file.len(), || {
        at(6, place, Part::Header, format!("the end, but the file has {} bytes", file.len()))
    })?;
    for (slave, found) in found.iter_mut().enumerate() {
        needed(file, edition, slave, found)?;
    }
    Ok(found)
}

fn table_entry(file: &[u8], edition: Edition, slave: usize, place: usize) -> Result<(), Place> {
    let entry = edition.table_entry(slave);
    let wrong = |byte, words| at(6, byte, Part::Slave(slave), words);
    let told = offset(file, edition, entry);
    unless(told == place as u64, || wrong(entry, format!("directory offset {told}, must be {place}")))?;
    let (count_place, sleep) = (entry + edition.offset_bytes(), edition.sleep_place(slave));
    unless(byte(file, sleep) <= 1, || {
        wrong(sleep, format!("sleep byte {}, must be 0 or 1", byte(file, sleep)))
    })?;
    zeros_in(file, sleep + 1, entry + edition.entry_bytes()).map_err(|(byte, words)| wrong(byte, words))?;
    let files = usize::from(byte(file, count_place));
    let end = place + files * edition.entry_bytes();
    unless(end <= file.len(), || {
        wrong(count_place, format!("the directory of {files} files ends at {end}, the file at {}", file.len()))
    })
}

/// The files of a slave whose directory stands at the place, which becomes the next slave's.
fn directory(file: &[u8], edition: Edition, slave: usize, place: &mut usize) -> Result<Found, Place> {
    let count = usize::from(byte(file, edition.table_entry(slave) + edition.offset_bytes()));
    let entries = *place;
    *place += count * edition.entry_bytes();
    let mut found = Found::default();
    for index in 0..count {
        let before = found.files.last().map(|file: &FoundFile| file.number);
        let entry = entries + index * edition.entry_bytes();
        let next = directory_entry(file, edition, slave, (entry, *place, before))?;
        *place += RECORD_BYTES * (next.records + 1);
        found.files.push(next);
    }
    Ok(found)
}

/// The directory entry at a place, whose file must stand at another; the number before it must be less.
fn directory_entry(
    file: &[u8],
    edition: Edition,
    slave: usize,
    (entry, place, before): (usize, usize, Option<u8>),
) -> Result<FoundFile, Place> {
    let (number, records) = (byte(file, entry), usize::from(byte(file, entry + 1)));
    let wrong = |byte, words| at(6, byte, Part::File(slave, number), words);
    unless(number <= LAST_FILE, || wrong(entry, format!("file number {number:02X}, at most {LAST_FILE:02X}")))?;
    if let Some(before) = before {
        unless(before < number, || wrong(entry, format!("file number {number:02X} after {before:02X}")))?;
    }
    unless(records > 0, || wrong(entry + 1, "0 records, at least 1".to_string()))?;
    let offset_place = entry + edition.offset_bytes();
    zeros_in(file, entry + 2, offset_place).map_err(|(byte, words)| wrong(byte, words))?;
    let told = offset(file, edition, offset_place);
    unless(told == place as u64, || wrong(offset_place, format!("offset {told}, must be {place}")))?;
    let end = place + RECORD_BYTES * (records + 1);
    unless(end <= file.len(), || {
        wrong(entry + 1, format!("{records} records, so it ends at {end}, the file at {}", file.len()))
    })?;
    Ok(FoundFile { number, entry, records, place })
}

/// Ground 7, and the names.
fn needed(file: &[u8], edition: Edition, slave: usize, found: &mut Found) -> Result<(), Place> {
    let configuration = needed_file(edition, slave, found, (FILE_CONFIGURATION, 3))?;
    let documentation = needed_file(edition, slave, found, (FILE_DOCUMENTATION, 2))?;
    let logical = configuration + RECORD_BYTES + crate::cluster::NAME_BYTE;
    let physical = documentation + RECORD_BYTES;
    found.logical = (logical, byte(file, logical));
    found.physical = (physical, number(&file[physical..physical + 2 * RECORD_BYTES]));
    Ok(())
}

/// Where the file of this number stands, with so many records at least.
fn needed_file(
    edition: Edition,
    slave: usize,
    found: &Found,
    (number, least): (u8, usize),
) -> Result<usize, Place> {
    let Some(file) = found.files.iter().find(|file| file.number == number) else {
        let count = edition.table_entry(slave) + edition.offset_bytes();
        return Err(at(7, count, Part::Slave(slave), format!("no file {number:02X}")));
    };
    let few = || format!("last record {:02X}, at least {least:02X}", file.records);
    unless(file.records >= least, || at(7, file.entry + 1, Part::File(slave, number), few()))?;
    Ok(file.place)
}

/// Grounds 8 and 22.
fn names(slaves: &[Found]) -> Result<(), Place> {
    for (slave, found) in slaves.iter().enumerate() {
        let (place, name) = found.physical;
        if let Some(other) = slaves[..slave].iter().position(|other| other.physical.1 == name) {
            let words = format!("physical name {name:016X}, as slave {other}");
            return Err(at(8, place, Part::Slave(slave), words));
        }
    }
    for (slave, found) in slaves.iter().enumerate() {
        let (place, name) = found.logical;
        let held = slaves[..slave].iter().position(|other| other.logical.1 == name);
        if let Some(other) = held.filter(|_| name != NAME_UNNAMED) {
            let words = format!("logical name {name:02X}, as slave {other}");
            return Err(at(22, place, Part::Slave(slave), words));
        }
    }
    Ok(())
}

#[cfg(test)]
mod tests {
    use super::*;

    /// Where the engine returned another number than this reading finds, nothing of it is told.
    #[test]
    fn a_place_has_the_engines_number() {
        let no_mark = [0; 16];
        assert_eq!(found(&no_mark).map(|place| place.number), Some(2));
        assert_eq!(of(&no_mark, TtpaError::Mark), found(&no_mark));
        assert_eq!(of(&no_mark, TtpaError::Layout), None);
    }
}
