//! A cluster as its parts. The layout of its file is in `file`.

use crate::{number_of, Edition, FileNumber, LogicalName, RecordNumber};

#[derive(Clone, Debug, PartialEq, Eq)]
pub struct Cluster {
    /// That of its file. No rule of rounds looks at it.
    pub edition: Edition,
    pub epoch: u8,
    pub pending: Pending,
    pub slaves: Vec<Slave>,
}

/// The header's account of the operation that the next MSD carries out. While the flag is down the three
/// bytes are free, so they are kept and not read.
#[derive(Clone, Copy, Debug, PartialEq, Eq)]
pub struct Pending {
    pub flag: bool,
    pub name: LogicalName,
    pub pb2: u8,
    pub pb3: u8,
}

#[derive(Clone, Debug, PartialEq, Eq)]
pub struct Slave {
    /// "The zero at the end of a table entry becomes 0 awake or 1 asleep." (document 02, request 9)
    pub asleep: bool,
    /// In rising order of their numbers.
    pub files: Vec<File>,
}

#[derive(Clone, Debug, PartialEq, Eq)]
pub struct File {
    pub number: FileNumber,
    /// Records 0x00 to r, four bytes each.
    pub bytes: Vec<u8>,
}

const NAMES_RECORD: RecordNumber = RecordNumber(1);
const NEW_LOGICAL_NAME: usize = 2;
const LOGICAL_NAME: usize = 3;

impl File {
    /// r, the number of the last record.
    pub fn last_record(&self) -> usize {
        self.bytes.len() / 4 - 1
    }
}

impl Slave {
    pub fn file(&self, number: FileNumber) -> Option<&File> {
        self.files.iter().find(|file| file.number == number)
    }

    pub fn file_mut(&mut self, number: FileNumber) -> Option<&mut File> {
        self.files.iter_mut().find(|file| file.number == number)
    }

    pub fn record(&self, number: FileNumber, record: RecordNumber) -> Option<&[u8]> {
        let place = 4 * usize::from(record.0);
        self.file(number)?.bytes.get(place..place + 4)
    }

    pub fn record_mut(&mut self, number: FileNumber, record: RecordNumber) -> Option<&mut [u8]> {
        let place = 4 * usize::from(record.0);
        self.file_mut(number)?.bytes.get_mut(place..place + 4)
    }

    /// "Records 1 and 2 of 0x3D are the physical name: series number, then serial number"
    pub fn physical_name(&self) -> u64 {
        self.two_records(FileNumber::DOCUMENTATION, 1)
    }

    /// "records 2 and 3 hold the comparison value IDCV"
    pub fn comparison_value(&self) -> u64 {
        self.two_records(FileNumber::CONFIGURATION, 2)
    }

    pub fn logical_name(&self) -> LogicalName {
        LogicalName(self.names_record()[LOGICAL_NAME])
    }

    pub fn new_logical_name(&self) -> LogicalName {
        LogicalName(self.names_record()[NEW_LOGICAL_NAME])
    }

    pub fn set_logical_name(&mut self, name: LogicalName) {
        let record = self.record_mut(FileNumber::CONFIGURATION, NAMES_RECORD).expect("a checked slave");
        record[LOGICAL_NAME] = name.0;
    }

    pub fn is_unnamed(&self) -> bool {
        self.logical_name() == LogicalName::UNNAMED
    }

    fn names_record(&self) -> &[u8] {
        self.record(FileNumber::CONFIGURATION, NAMES_RECORD).expect("a checked slave")
    }

    fn two_records(&self, number: FileNumber, first: usize) -> u64 {
        let file = self.file(number).expect("a checked slave");
        number_of(&file.bytes[4 * first..4 * first + 8])
    }
}
