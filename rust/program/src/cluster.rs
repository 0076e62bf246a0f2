//! A cluster as texts have it: read from a file by the engine's calls, and written as the one file that holds it.

use crate::layout::{self, Edition, COUNT_PLACE, EDITION_PLACE, LAST_FILE, MARK, RECORD_BYTES, STATE_BYTES};
use ttpa::{TtpaError, FILE_CONFIGURATION, FILE_DOCUMENTATION};

pub type Record = [u8; RECORD_BYTES];

/// The record of the configuration file that holds the logical name, and its place there.
pub const NAME_RECORD: usize = 1;
pub const NAME_BYTE: usize = 3;
/// The records of the documentation file that hold the physical name.
pub const SERIES_RECORD: usize = 1;
pub const SERIAL_RECORD: usize = 2;

#[derive(Clone, Debug, PartialEq, Eq)]
pub struct Cluster {
    pub edition: Edition,
    pub epoch: u8,
    pub pending: Pending,
    pub slaves: Vec<Slave>,
}

/// The flag and the three bytes behind it, which are free while nothing is pending.
#[derive(Clone, Copy, Debug, PartialEq, Eq, Default)]
pub struct Pending {
    pub flag: u8,
    pub name: u8,
    pub pb2: u8,
    pub pb3: u8,
}

#[derive(Clone, Debug, PartialEq, Eq)]
pub struct Slave {
    pub asleep: bool,
    pub files: Vec<SlaveFile>,
}

/// All records, record 0x00 first.
#[derive(Clone, Debug, PartialEq, Eq)]
pub struct SlaveFile {
    pub number: u8,
    pub records: Vec<Record>,
}

impl Slave {
    pub fn file(&self, number: u8) -> Option<&SlaveFile> {
        self.files.iter().find(|file| file.number == number)
    }

    fn record(&self, number: u8, record: usize) -> Record {
        self.file(number).and_then(|file| file.records.get(record)).copied().unwrap_or_default()
    }

    pub fn name(&self) -> u8 {
        self.record(FILE_CONFIGURATION, NAME_RECORD)[NAME_BYTE]
    }

    pub fn physical_name(&self) -> u64 {
        let half = |record| u64::from(u32::from_be_bytes(self.record(FILE_DOCUMENTATION, record)));
        half(SERIES_RECORD) << 32 | half(SERIAL_RECORD)
    }
}

/// The two records of a physical name.
pub fn halves(physical_name: u64) -> [Record; 2] {
    [((physical_name >> 32) as u32).to_be_bytes(), (physical_name as u32).to_be_bytes()]
}

impl Cluster {
    /// The cluster of a file that is refused by none of 1 to 8: its slaves and records by the engine, the rest from the header.
    pub fn of_file(file: &[u8]) -> Result<Cluster, TtpaError> {
        let count = ttpa::Summary::of(file)?.names().len();
        let slaves: Result<Vec<Slave>, TtpaError> = (0..count).map(|place| slave(file, place)).collect();
        let edition = Edition::of(file);
        let state = edition.epoch_place();
        let [epoch, flag, name, pb2, pb3]: [u8; STATE_BYTES] =
            std::array::from_fn(|place| layout::byte(file, state + place));
        Ok(Cluster { edition, epoch, pending: Pending { flag, name, pb2, pb3 }, slaves: slaves? })
    }

    /// The one file that holds this cluster. Where it has more slaves or bytes than may be, the engine refuses it.
    pub fn encode(&self) -> Vec<u8> {
        let edition = self.edition;
        let table_end = edition.table_entry(self.slaves.len());
        let (mut table, mut rest) = (Vec::new(), Vec::new());
        for slave in &self.slaves {
            let directory = table_end + rest.len();
            table.extend(edition.offset(directory));
            table.extend(entry_half(edition, slave.files.len() as u8, u8::from(slave.asleep)));
            slave.encode(edition, directory, &mut rest);
        }
        let mut file = vec![MARK[0], MARK[1], 0, 0];
        file[EDITION_PLACE] = edition.number();
        file[COUNT_PLACE] = self.slaves.len() as u8;
        file.extend(edition.offset(edition.header_bytes()));
        file.extend(edition.offset(table_end + rest.len()));
        let Pending { flag, name, pb2, pb3 } = self.pending;
        file.extend([self.epoch, flag, name, pb2, pb3]);
        file.resize(edition.header_bytes(), 0);
        file.extend(table);
        file.extend(rest);
        file
    }
}

impl Slave {
    /// The directory, which stands at the place, and the files.
    fn encode(&self, edition: Edition, directory: usize, out: &mut Vec<u8>) {
        let mut place = directory + self.files.len() * edition.entry_bytes();
        for file in &self.files {
            // record 0x00 does not count
            let last_record = file.records.len().saturating_sub(1);
            out.extend(entry_half(edition, file.number, last_record as u8));
            out.extend(edition.offset(place));
            place += RECORD_BYTES * file.records.len();
        }
        out.extend(self.files.iter().flat_map(|file| file.records.concat()));
    }
}

/// The half of an entry beside the offset: two bytes, and zeros.
fn entry_half(edition: Edition, first: u8, second: u8) -> Vec<u8> {
    let mut half = vec![first, second];
    half.resize(edition.offset_bytes(), 0);
    half
}

/// The physical name of the slave at a place of the table.
pub fn physical_name(file: &[u8], place: usize) -> Result<u64, TtpaError> {
    let records = records(file, place, FILE_DOCUMENTATION)?;
    Ok(Slave { asleep: false, files: vec![SlaveFile { number: FILE_DOCUMENTATION, records }] }.physical_name())
}

/// A slave's files: those that the engine has bytes of.
fn slave(file: &[u8], place: usize) -> Result<Slave, TtpaError> {
    let mut files = Vec::new();
    for number in 0..=LAST_FILE {
        let records = records(file, place, number)?;
        if !records.is_empty() {
            files.push(SlaveFile { number, records });
        }
    }
    Ok(Slave { asleep: layout::sleeps(file, place), files })
}

/// All records of a slave's file, none where it has no such file.
pub fn records(file: &[u8], slave: usize, number: u8) -> Result<Vec<Record>, TtpaError> {
    let mut buffer = [0; ttpa::SLAVE_FILE_BYTES];
    let length = ttpa::contents(file, slave as u64, number, &mut buffer)? as usize;
    let bytes = buffer.get(..length).unwrap_or(&buffer);
    Ok(bytes.chunks_exact(RECORD_BYTES).map(|record| std::array::from_fn(|at| record[at])).collect())
}
