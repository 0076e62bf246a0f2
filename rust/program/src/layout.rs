//! Where a cluster file has its parts, in both editions: what the writer of a file needs, the few bytes that no call of the engine
//! tells, and the search for the place of a refusal.

/// Of an edition everything follows from the bytes of an offset.
#[derive(Clone, Copy, Debug, PartialEq, Eq)]
pub enum Edition {
    One,
    Two,
}

pub const MARK: [u8; 2] = [0x54, 0x41];
pub const EDITION_PLACE: usize = 2;
pub const COUNT_PLACE: usize = 3;
pub const TABLE_PLACE: usize = 4;
/// A file of r records has r + 1 of this size, the first its header.
pub const RECORD_BYTES: usize = 4;
/// The last file number.
pub const LAST_FILE: u8 = 0x3F;
/// Epoch, flag, and the pending logical name, PB2 and PB3.
pub const STATE_BYTES: usize = 5;

impl Edition {
    /// The edition whose limits the engine holds the file to: byte 2, where it is 2.
    pub fn of(file: &[u8]) -> Edition {
        match file.get(EDITION_PLACE) {
            Some(2) => Edition::Two,
            _ => Edition::One,
        }
    }

    pub fn number(self) -> u8 {
        match self {
            Edition::One => 1,
            Edition::Two => 2,
        }
    }

    /// Of an offset, and of the length field.
    pub fn offset_bytes(self) -> usize {
        2 * usize::from(self.number())
    }

    pub fn header_bytes(self) -> usize {
        match self {
            Edition::One => 16,
            Edition::Two => 24,
        }
    }

    /// Of an entry of the table or of a directory.
    pub fn entry_bytes(self) -> usize {
        2 * self.offset_bytes()
    }

    pub fn most_slaves(self) -> usize {
        match self {
            Edition::One => ttpa::EDITION_1_SLAVES,
            Edition::Two => ttpa::MOST_SLAVES,
        }
    }

    pub fn most_bytes(self) -> usize {
        match self {
            Edition::One => ttpa::EDITION_1_FILE_BYTES,
            Edition::Two => ttpa::MOST_FILE_BYTES,
        }
    }

    pub fn length_place(self) -> usize {
        TABLE_PLACE + self.offset_bytes()
    }

    /// Behind it the flag, and the pending logical name, PB2 and PB3.
    pub fn epoch_place(self) -> usize {
        self.length_place() + self.offset_bytes()
    }

    /// Where the table entry of a slave begins.
    pub fn table_entry(self, slave: usize) -> usize {
        self.header_bytes() + slave * self.entry_bytes()
    }

    /// Where it has the sleep byte, behind offset and file count.
    pub fn sleep_place(self, slave: usize) -> usize {
        self.table_entry(slave) + self.offset_bytes() + 1
    }

    /// A place as the edition writes it, the most significant byte first.
    pub fn offset(self, place: usize) -> Vec<u8> {
        let bytes = (place as u64).to_be_bytes();
        bytes[bytes.len() - self.offset_bytes()..].to_vec()
    }
}

/// The epoch of an accepted file.
pub fn epoch(file: &[u8]) -> u8 {
    byte(file, Edition::of(file).epoch_place())
}

/// Whether a slave of an accepted file sleeps.
pub fn sleeps(file: &[u8], slave: usize) -> bool {
    byte(file, Edition::of(file).sleep_place(slave)) == 1
}

/// A byte of the file, 0 where there is none.
pub fn byte(file: &[u8], place: usize) -> u8 {
    file.get(place).copied().unwrap_or(0)
}

/// A number of several bytes, the most significant first.
pub fn number(bytes: &[u8]) -> u64 {
    bytes.iter().fold(0, |number, &byte| number << 8 | u64::from(byte))
}
