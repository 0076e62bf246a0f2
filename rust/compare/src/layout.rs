//! What several modules need of the documents' layouts.

use model::{check, Edition};

/// Of a cluster file of edition 1: the place of the epoch.
pub const EPOCH: usize = 8;

/// The multipartner rounds, whose slots have owners, and the round files that are nobody's.
pub const ROUNDS: [u8; 6] = [0, 2, 3, 4, 6, 7];
pub const LAST_ROUND: u8 = 7;
pub const NOT_OWNED: [u8; 2] = [1, 5];
pub const LAST_SLOT: usize = 63;

/// No owner file has more bytes: three records, and six rows of 64.
pub const MOST_OWNER_BYTES: usize = 396;

/// Of a captured trace.
pub const TRACE_HEADER_BYTES: usize = 4;
pub const ROW_BYTES: usize = 3;

/// Where the slaves' directories and files begin, behind header and table.
pub fn slaves_place(file: &[u8]) -> usize {
    let (edition, slaves) = (Edition::of(file), file.get(3).map_or(0, |&count| usize::from(count)));
    edition.header_bytes() + edition.entry_bytes() * slaves
}

/// A place as a file states it, in two bytes or four.
pub fn place_in(offset: &[u8]) -> usize {
    offset.iter().fold(0, |place, &byte| place << 8 | usize::from(byte))
}

/// Whether each slave of an accepted file sleeps; of another file nobody.
pub fn sleepers_of(file: &[u8]) -> Vec<bool> {
    check(file).map(|cluster| cluster.slaves.iter().map(|slave| slave.asleep).collect()).unwrap_or_default()
}
