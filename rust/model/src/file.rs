//! "The cluster file" in both editions, and grounds 1 to 8 in their order; on loading also 22.

use crate::edition::{EDITION_PLACE, FRONT_BYTES, STATE_BYTES};
use crate::{number_of, Cluster, Edition, File, FileNumber, LogicalName, Operation, Pending, Refusal, Slave};

const MARK: [u8; 2] = [0x54, 0x41];
/// What the sleep byte of a table entry may be.
const AWAKE: u8 = 0;
const ASLEEP: u8 = 1;
/// Of a table entry behind the offset: file count and sleep byte. Of a directory entry before it: file number and
/// record count. What an entry has besides is zero.
const COUNTS: usize = 2;

/// The cluster that a file holds, or the first ground that turns it away. "numbers 3 to 5 use the edition's own values"
pub fn check(file: &[u8]) -> Result<Cluster, Refusal> {
    let edition = Edition::of(file);
    if wrong_size(edition, file) {
        return Err(Refusal(1));
    }
    if file[0..2] != MARK {
        return Err(Refusal(2));
    }
    if file[EDITION_PLACE] != edition.number() {
        return Err(Refusal(3));
    }
    let header = Header::of(edition, file);
    if header.length != file.len() as u64 {
        return Err(Refusal(4));
    }
    if header.is_wrong(edition) {
        return Err(Refusal(5));
    }
    let Some(slaves) = slaves_of(edition, file, header.slave_count) else {
        return Err(Refusal(6));
    };
    if !slaves.iter().all(has_needed_files) {
        return Err(Refusal(7));
    }
    if two_equal_physical_names(&slaves) {
        return Err(Refusal(8));
    }
    Ok(Cluster { edition, epoch: header.epoch, pending: header.pending, slaves })
}

/// "Loading a file from outside (the checker's call and the listing program, nothing else) also refuses two slaves with
/// one logical name other than 0xFF" (document 02, request 5): grounds 1 to 8, then 22.
pub fn load(file: &[u8]) -> Result<Cluster, Refusal> {
    let cluster = check(file)?;
    if two_equal_logical_names(&cluster.slaves) {
        return Err(Refusal(22));
    }
    Ok(cluster)
}

fn wrong_size(edition: Edition, file: &[u8]) -> bool {
    file.len() < edition.header_bytes() || file.len() > edition.most_bytes()
}

/// What the header says, from the slave count on.
struct Header {
    slave_count: usize,
    table_offset: u64,
    length: u64,
    epoch: u8,
    flag: u8,
    pending: Pending,
    zeros: Vec<u8>,
}

impl Header {
    fn of(edition: Edition, file: &[u8]) -> Header {
        let (table_offset, rest) = file[FRONT_BYTES..edition.header_bytes()].split_at(edition.offset_bytes());
        let (length, rest) = rest.split_at(edition.offset_bytes());
        let (state, zeros) = rest.split_at(STATE_BYTES);
        let (epoch, flag) = (state[0], state[1]);
        Header {
            slave_count: usize::from(file[3]),
            table_offset: number_of(table_offset),
            length: number_of(length),
            epoch,
            flag,
            pending: Pending { flag: flag == 1, name: LogicalName(state[2]), pb2: state[3], pb3: state[4] },
            zeros: zeros.to_vec(),
        }
    }

    fn is_wrong(&self, edition: Edition) -> bool {
        let count_above = self.slave_count > edition.most_slaves();
        let table_elsewhere = self.table_offset != edition.header_bytes() as u64;
        let not_zero = !all_zero(&self.zeros);
        let flag_above = self.flag > 1;
        let cannot_be_pending = self.pending.flag && impossible(&self.pending);
        count_above || table_elsewhere || not_zero || flag_above || cannot_be_pending
    }
}

fn all_zero(bytes: &[u8]) -> bool {
    bytes.iter().all(|&byte| byte == 0)
}

/// "the flag is 1 with operation 3 or with a broadcast read"
fn impossible(pending: &Pending) -> bool {
    match Operation::of_pb2(pending.pb2) {
        None => true,
        Some(Operation::Read) => pending.name == LogicalName::BROADCAST,
        Some(_) => false,
    }
}

/// "After the table come, slave by slave, its directory and its files in order, without gap, up to the
/// last byte": `place` is where the next part has to stand. None where the layout is broken.
fn slaves_of(edition: Edition, file: &[u8], count: usize) -> Option<Vec<Slave>> {
    let table_end = edition.header_bytes() + edition.entry_bytes() * count;
    let table = file.get(edition.header_bytes()..table_end)?;
    let mut place = table_end;
    let mut slaves = Vec::new();
    for entry in table.chunks(edition.entry_bytes()) {
        // "A table entry is offset (4), file count, sleep byte, two zeros" (document 02, request 10)
        let (offset, rest) = entry.split_at(edition.offset_bytes());
        let (counts, zeros) = rest.split_at(COUNTS);
        let directory_stands_here = number_of(offset) == place as u64;
        // "Number 6 now refuses a sleep byte above 1." (document 02, request 9)
        let asleep = match counts[1] {
            AWAKE => false,
            ASLEEP => true,
            _ => return None,
        };
        if !directory_stands_here || !all_zero(zeros) {
            return None;
        }
        let file_count = usize::from(counts[0]);
        slaves.push(Slave { asleep, files: files_of(edition, file, &mut place, file_count)? });
    }
    (place == file.len()).then_some(slaves)
}

fn files_of(edition: Edition, file: &[u8], place: &mut usize, file_count: usize) -> Option<Vec<File>> {
    let directory = file.get(*place..*place + edition.entry_bytes() * file_count)?;
    *place += directory.len();
    let mut files: Vec<File> = Vec::new();
    for entry in directory.chunks(edition.entry_bytes()) {
        // "a directory entry is file number, record count, two zeros, offset (4)" (document 02, request 10)
        let (rest, offset) = entry.split_at(edition.offset_bytes());
        let (counts, zeros) = rest.split_at(COUNTS);
        let number = FileNumber(counts[0]);
        let rising = files.last().is_none_or(|before| before.number < number);
        let file_stands_here = number_of(offset) == *place as u64;
        let record_count = usize::from(counts[1]);
        if number > FileNumber::LAST || !rising || record_count == 0 || !file_stands_here || !all_zero(zeros) {
            return None;
        }
        let bytes = file.get(*place..*place + 4 * (record_count + 1))?.to_vec();
        *place += bytes.len();
        files.push(File { number, bytes });
    }
    Some(files)
}

/// "Every slave has file 0x08 with r at least 3 and file 0x3D with r at least 2."
fn has_needed_files(slave: &Slave) -> bool {
    let reaches = |number, r| slave.file(number).is_some_and(|file| file.last_record() >= r);
    reaches(FileNumber::CONFIGURATION, 3) && reaches(FileNumber::DOCUMENTATION, 2)
}

fn two_equal_physical_names(slaves: &[Slave]) -> bool {
    let mut names: Vec<u64> = slaves.iter().map(Slave::physical_name).collect();
    names.sort_unstable();
    names.windows(2).any(|pair| pair[0] == pair[1])
}

fn two_equal_logical_names(slaves: &[Slave]) -> bool {
    let names: Vec<LogicalName> =
        slaves.iter().filter(|slave| !slave.is_unnamed()).map(Slave::logical_name).collect();
    (0..names.len()).any(|place| names[..place].contains(&names[place]))
}

impl Cluster {
    /// The length of the one file that holds this cluster in its edition, be it too long or not.
    pub fn length(&self) -> usize {
        let entry_bytes = self.edition.entry_bytes();
        let slave_bytes = |slave: &Slave| {
            let files: usize = slave.files.iter().map(|file| entry_bytes + file.bytes.len()).sum();
            entry_bytes + files
        };
        self.edition.header_bytes() + self.slaves.iter().map(slave_bytes).sum::<usize>()
    }

    /// Whether that file would have more slaves or bytes than its edition allows.
    pub fn exceeds_limits(&self) -> bool {
        self.slaves.len() > self.edition.most_slaves() || self.length() > self.edition.most_bytes()
    }

    /// The one file that holds this cluster in its edition: the layout leaves no freedom.
    pub fn encode(&self) -> Vec<u8> {
        let edition = self.edition;
        let zeros = vec![0; edition.offset_bytes() - COUNTS];
        let mut table = Vec::new();
        let mut rest = Vec::new();
        let table_end = edition.header_bytes() + edition.entry_bytes() * self.slaves.len();
        for slave in &self.slaves {
            let directory_place = table_end + rest.len();
            let sleep_byte = if slave.asleep { ASLEEP } else { AWAKE };
            table.extend(offset(edition, directory_place));
            table.extend([slave.files.len() as u8, sleep_byte]);
            table.extend(&zeros);
            let mut place = directory_place + edition.entry_bytes() * slave.files.len();
            for file in &slave.files {
                rest.extend([file.number.0, file.last_record() as u8]);
                rest.extend(&zeros);
                rest.extend(offset(edition, place));
                place += file.bytes.len();
            }
            for file in &slave.files {
                rest.extend(&file.bytes);
            }
        }
        let mut bytes = vec![MARK[0], MARK[1], edition.number(), self.slaves.len() as u8];
        bytes.extend(offset(edition, edition.header_bytes()));
        bytes.extend(offset(edition, table_end + rest.len()));
        bytes.extend([self.epoch, u8::from(self.pending.flag)]);
        bytes.extend([self.pending.name.0, self.pending.pb2, self.pending.pb3]);
        bytes.resize(edition.header_bytes(), 0);
        bytes.extend(table);
        bytes.extend(rest);
        bytes
    }
}

/// A place as the edition writes it, the most significant byte first.
fn offset(edition: Edition, place: usize) -> Vec<u8> {
    let bytes = (place as u64).to_be_bytes();
    bytes[bytes.len() - edition.offset_bytes()..].to_vec()
}
