//! The two editions of the cluster file: "In edition 2 offsets and length have 4 bytes, the limits are 64 slaves and
//! 65,536 bytes." (document 02, request 10) What else differs follows from the width of an offset.

/// How a cluster is written as a file; what it is does not depend on it.
#[derive(Clone, Copy, Debug, PartialEq, Eq)]
pub enum Edition {
    One,
    Two,
}

/// "0 to 3 as before": the mark, the edition and the slave count.
pub const FRONT_BYTES: usize = 4;
pub const EDITION_PLACE: usize = 2;
/// Epoch, flag, and the pending logical name, PB2 and PB3.
pub const STATE_BYTES: usize = 5;

impl Edition {
    pub const BOTH: [Edition; 2] = [Edition::One, Edition::Two];

    /// "edition 2's [..] if byte 2 is present and is 2, otherwise those of edition 1": whose limits a file has to keep,
    /// before anything else of it is looked at.
    pub fn of(file: &[u8]) -> Edition {
        match file.get(EDITION_PLACE) {
            Some(2) => Edition::Two,
            _ => Edition::One,
        }
    }

    /// Byte 2.
    pub fn number(self) -> u8 {
        match self {
            Edition::One => 1,
            Edition::Two => 2,
        }
    }

    /// Of an offset, and of the length field.
    pub fn offset_bytes(self) -> usize {
        match self {
            Edition::One => 2,
            Edition::Two => 4,
        }
    }

    pub fn header_bytes(self) -> usize {
        match self {
            Edition::One => 16,
            Edition::Two => 24,
        }
    }

    /// Of a table entry, and of a directory entry: the offset and as much again.
    pub fn entry_bytes(self) -> usize {
        2 * self.offset_bytes()
    }

    pub fn most_slaves(self) -> usize {
        match self {
            Edition::One => 32,
            Edition::Two => 64,
        }
    }

    pub fn most_bytes(self) -> usize {
        match self {
            Edition::One => 32_768,
            Edition::Two => 65_536,
        }
    }

    /// Where the table entry of a slave, 0 the first, has the sleep byte.
    pub fn sleep_place(self, slave: usize) -> usize {
        self.header_bytes() + self.entry_bytes() * slave + self.offset_bytes() + 1
    }

    /// Where the header has the epoch: behind the table offset and the length.
    pub fn epoch_place(self) -> usize {
        FRONT_BYTES + 2 * self.offset_bytes()
    }
}
