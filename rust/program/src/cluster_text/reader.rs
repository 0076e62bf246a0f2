//! A text as cluster, with the lines where its parts stand.

use super::{entry, unwritten, NEEDED};
use crate::cluster::{Cluster, Pending, Record, Slave, SlaveFile};
use crate::cluster::{NAME_BYTE, NAME_RECORD, SERIAL_RECORD, SERIES_RECORD};
use crate::console::Stop;
use crate::layout::{Edition, RECORD_BYTES};
use crate::text::{byte, byte_named, decimal, file_number, hex, physical_name, quoted, Lines, Words};
use std::io::BufRead;
use ttpa::{FILE_CONFIGURATION, FILE_DOCUMENTATION};

/// The count of slaves is a byte.
const MOST_SLAVES: usize = 255;
const MOST_RECORDS: u64 = 255;

/// A cluster, and where the text has its parts, as numbers of lines.
#[derive(Debug)]
pub struct Text {
    pub cluster: Cluster,
    /// As messages name the text.
    pub name: String,
    pub cluster_line: usize,
    pending_line: Option<usize>,
    slaves: Vec<SlaveLines>,
}

#[derive(Debug)]
struct SlaveLines {
    line: usize,
    files: Vec<(u8, usize)>,
}

impl Text {
    pub fn pending_line(&self) -> usize {
        self.pending_line.unwrap_or(self.cluster_line)
    }

    /// The line of a slave, 0 the first; that of the cluster where there is no such slave.
    pub fn slave_line(&self, slave: usize) -> usize {
        self.slaves.get(slave).map_or(self.cluster_line, |slave| slave.line)
    }

    /// The line of a slave's file; that of the slave where the file is left out.
    pub fn file_line(&self, slave: usize, file: u8) -> usize {
        let lines = self.slaves.get(slave).map(|slave| slave.files.as_slice()).unwrap_or_default();
        lines.iter().find(|(number, _)| *number == file).map_or(self.slave_line(slave), |&(_, line)| line)
    }
}

/// A slave as far as it is read.
struct Draft {
    name: u8,
    physical_name: u64,
    asleep: bool,
    line: usize,
    files: Vec<DraftFile>,
}

struct DraftFile {
    number: u8,
    line: usize,
    /// None where nothing is written of a record.
    records: Vec<Option<Record>>,
}

/// Reads a text; it is not yet judged whether the engine takes its cluster.
pub fn read(input: &mut dyn BufRead, name: String) -> Result<Text, Stop> {
    let mut lines = Lines::whole(input, name);
    let first = lines.next_with_words()?.unwrap_or_default();
    let cluster = read_first(&first).map_err(|words| lines.wrong(words))?;
    let mut text = Text {
        cluster,
        name: lines.name.clone(),
        cluster_line: lines.number.max(1),
        pending_line: None,
        slaves: Vec::new(),
    };
    let mut drafts = Vec::new();
    while let Some(line) = lines.next_with_words()? {
        read_line(&line, lines.number, &mut text, &mut drafts).map_err(|words| lines.wrong(words))?;
    }
    for draft in drafts {
        let files = draft.files.iter().map(|file| (file.number, file.line)).collect();
        text.slaves.push(SlaveLines { line: draft.line, files });
        text.cluster.slaves.push(draft.finished());
    }
    Ok(text)
}

/// `cluster edition 1 epoch 00`
fn read_first(line: &str) -> Result<Cluster, String> {
    let mut words = Words::of(line);
    words.keyword("cluster")?;
    words.keyword("edition")?;
    let edition = match words.next("the edition")? {
        "1" => Edition::One,
        "2" => Edition::Two,
        word => return Err(format!("{} is no edition (1 or 2)", quoted(word))),
    };
    words.keyword("epoch")?;
    let epoch = byte_named(words.next("the epoch")?, "epoch")?;
    words.end()?;
    Ok(Cluster { edition, epoch, pending: Pending::default(), slaves: Vec::new() })
}

fn read_line(line: &str, number: usize, text: &mut Text, drafts: &mut Vec<Draft>) -> Result<(), String> {
    let mut words = Words::of(line);
    match words.peek() {
        Some(word @ ("pending" | "idle")) => {
            if text.pending_line.is_some() || !drafts.is_empty() {
                return Err(format!("'{word}' stands once, before the slaves"));
            }
            text.pending_line = Some(number);
            text.cluster.pending = read_pending(&mut words)?;
        }
        Some("slave") => {
            if drafts.len() == MOST_SLAVES {
                return Err(format!("there are more than {MOST_SLAVES} slaves"));
            }
            drafts.push(read_slave(&mut words, number)?);
        }
        Some("file") => {
            let draft = drafts.last_mut().ok_or("a file stands behind its slave's line")?;
            draft.add_file(read_file(&mut words, number)?)?;
        }
        _ => {
            let record = record_number(words.next("the record number")?)?;
            let draft = drafts.last_mut().ok_or("a record stands behind its file's line")?;
            draft.read_record(record, &mut words)?;
        }
    }
    words.end()
}

/// A line that begins with no other word is that of a record.
fn record_number(word: &str) -> Result<u8, String> {
    byte(word).map_err(|_| format!("{} is none of slave, file and a record number", quoted(word)))
}

/// `pending read name 01 file 3D record 01`, or `idle 01 F4 01`
fn read_pending(words: &mut Words) -> Result<Pending, String> {
    if words.next("the line")? == "idle" {
        let mut free = || byte(words.next("a byte")?);
        return Ok(Pending { flag: 0, name: free()?, pb2: free()?, pb3: free()? });
    }
    let operation = match words.next("the operation")? {
        "read" => ttpa::OPERATION_READ,
        "write" => ttpa::OPERATION_WRITE,
        "execute" => ttpa::OPERATION_EXECUTE,
        word => return Err(format!("{} is none of read, write and execute", quoted(word))),
    };
    words.keyword("name")?;
    let name = byte_named(words.next("the name")?, "name")?;
    words.keyword("file")?;
    let file = file_number(words.next("the file number")?)?;
    words.keyword("record")?;
    let record = byte_named(words.next("the record number")?, "record number")?;
    Ok(Pending { flag: 1, name, pb2: file << 2 | operation, pb3: record })
}

/// `slave 01 0000000700000042 asleep`
fn read_slave(words: &mut Words, line: usize) -> Result<Draft, String> {
    words.keyword("slave")?;
    let name = byte_named(words.next("the logical name")?, "logical name")?;
    let physical_name = physical_name(words.next("the physical name")?)?;
    let asleep = words.optional("asleep");
    Ok(Draft { name, physical_name, asleep, line, files: Vec::new() })
}

/// `file 02 records 2`
fn read_file(words: &mut Words, line: usize) -> Result<DraftFile, String> {
    words.keyword("file")?;
    let number = file_number(words.next("the file number")?)?;
    words.keyword("records")?;
    let records = decimal(words.next("the number of records")?, "number of records", 1, MOST_RECORDS)?;
    Ok(DraftFile { number, line, records: vec![None; records as usize + 1] })
}

/// The bytes of a record, or an entry in words.
fn read_contents(words: &mut Words, file: u8, record: usize) -> Result<Record, String> {
    if entry::is_entry(file, record) && words.peek().is_some_and(|word| byte(word).is_err()) {
        return entry::read(words);
    }
    let mut bytes = [0; RECORD_BYTES];
    for place in &mut bytes {
        *place = byte(words.next("a byte of the record")?)?;
    }
    Ok(bytes)
}

impl Draft {
    fn add_file(&mut self, file: DraftFile) -> Result<(), String> {
        if let Some(other) = self.files.iter().find(|other| other.number == file.number) {
            return Err(format!("the slave has a file {:02X} already, line {}", file.number, other.line));
        }
        self.files.push(file);
        Ok(())
    }

    /// `01 A1 5C 00 00`, of the file last begun.
    fn read_record(&mut self, number: u8, words: &mut Words) -> Result<(), String> {
        let &mut Draft { name, physical_name, .. } = self;
        let file = self.files.last_mut().ok_or("a record stands behind its file's line")?;
        let (last, record) = (file.records.len() - 1, usize::from(number));
        let no_record = || format!("'{number:02X}' is no record of the file, whose last is {last:02X}");
        let place = file.records.get_mut(record).ok_or_else(no_record)?;
        if place.is_some() {
            return Err(format!("record {number:02X} of file {:02X} stands here a second time", file.number));
        }
        let bytes = read_contents(words, file.number, record)?;
        *place = Some(bytes);
        agrees(file.number, record, bytes, unwritten(file.number, record, name, physical_name))
    }

    /// With all its records, and with the files that may be left out, in the order of their numbers.
    fn finished(self) -> Slave {
        let Draft { name, physical_name, asleep, mut files, .. } = self;
        for (number, records) in NEEDED {
            if files.iter().all(|file| file.number != number) {
                files.push(DraftFile { number, line: 0, records: vec![None; records + 1] });
            }
        }
        files.sort_by_key(|file| file.number);
        let finished = |file: DraftFile| {
            let fill = |(record, bytes): (usize, Option<Record>)| {
                bytes.unwrap_or_else(|| unwritten(file.number, record, name, physical_name))
            };
            SlaveFile {
                number: file.number,
                records: file.records.iter().copied().enumerate().map(fill).collect(),
            }
        };
        Slave { asleep, files: files.into_iter().map(finished).collect() }
    }
}

/// A record that holds a name holds that of the slave's line, which is there where it is left out.
fn agrees(file: u8, record: usize, bytes: Record, names: Record) -> Result<(), String> {
    let held = match (file, record) {
        (FILE_CONFIGURATION, NAME_RECORD) => NAME_BYTE..RECORD_BYTES,
        (FILE_DOCUMENTATION, SERIES_RECORD | SERIAL_RECORD) => 0..RECORD_BYTES,
        _ => return Ok(()),
    };
    let (says, must) = (hex(&bytes[held.clone()]), hex(&names[held]));
    if says == must {
        return Ok(());
    }
    Err(format!("record {record:02X} of file {file:02X} has the name {says}, and the slave's line {must}"))
}
