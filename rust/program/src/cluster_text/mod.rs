//! The text of a cluster: `show` writes it, `make` and `draw` use it too. It has no offset, and everything else of the file, so
//! that a file is made again byte for byte of its text.
//!
//! ```text
//! cluster edition 1 epoch 00
//! slave 01 0000000700000042
//!   file 02 records 2
//!     01 send file 10 record 01 slots 1-2
//!     02 end file 00 record 00 slots 0-0
//!   file 10 records 1
//!     01 A1 5C 00 00
//! slave FF 00000007000000A0 asleep
//! ```
//!
//! Records that are not named are zeros, and files 08 (3 records) and 3D (2 records) may be left out: logical and physical name come
//! from the slave's line.

pub mod entry;
mod reader;
mod writer;

pub use reader::{read, Text};
pub use writer::{write, write_slave};

use crate::cluster::{halves, Record, NAME_BYTE, NAME_RECORD, SERIAL_RECORD, SERIES_RECORD};
use ttpa::{FILE_CONFIGURATION, FILE_DOCUMENTATION};

/// The files that every slave has, and how many records of each are needed.
pub const NEEDED: [(u8, usize); 2] = [(FILE_CONFIGURATION, 3), (FILE_DOCUMENTATION, 2)];

/// A record of which nothing is written: zeros, but for the names of the slave's line.
fn unwritten(file: u8, record: usize, name: u8, physical_name: u64) -> Record {
    let [series, serial] = halves(physical_name);
    let mut bytes = Record::default();
    match (file, record) {
        (FILE_CONFIGURATION, NAME_RECORD) => bytes[NAME_BYTE] = name,
        (FILE_DOCUMENTATION, SERIES_RECORD) => bytes = series,
        (FILE_DOCUMENTATION, SERIAL_RECORD) => bytes = serial,
        _ => {}
    }
    bytes
}
