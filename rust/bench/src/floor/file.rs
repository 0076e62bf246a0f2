//! Calls that read or write whole files.

use super::{copied, loads, stores, LOAD, STORE, TEST, WORD_BYTES};
use model::{Cluster, Edition, LogicalName, Operation, Slave};

/// Of a directory entry: its number rises, it has records, its place follows.
const TESTS_OF_AN_ENTRY: u64 = 3 * TEST;

/// Grounds 1 to 8; at the end, that it is the end.
pub fn walk(cluster: &Cluster) -> u64 {
    let slaves: u64 = cluster.slaves.iter().map(slave).sum();
    header(cluster) + slaves + compared(cluster, |_| LOAD + TEST) + TEST
}

/// The same and 22: a name, whether it is 0xFF, whether it came before.
pub fn loading(cluster: &Cluster) -> u64 {
    let name = |slave: &Slave| LOAD + TEST + if slave.is_unnamed() { 0 } else { TEST };
    walk(cluster) + compared(cluster, name)
}

/// What each slave's name costs; a single one is compared with no other.
fn compared(cluster: &Cluster, name: impl Fn(&Slave) -> u64) -> u64 {
    match &cluster.slaves[..] {
        [_] => 0,
        slaves => slaves.iter().map(name).sum(),
    }
}

/// Each word has bytes that are settled. Beside these: the length, the edition, the count, the flag, and what is pending.
fn header(cluster: &Cluster) -> u64 {
    let bytes = cluster.edition.header_bytes();
    let words = (bytes / WORD_BYTES) as u64;
    let pending = match Operation::of_pb2(cluster.pending.pb2) {
        _ if !cluster.pending.flag => 0,
        Some(Operation::Read) => 2 * TEST,
        _ => TEST,
    };
    loads(bytes) + words * TEST + 4 * TEST + pending
}

/// Its table entry, in one comparison that leaves out the file count; that the directory lies within the file; the
/// entries; the last number; the two needed files.
fn slave(slave: &Slave) -> u64 {
    let entries = slave.files.len() as u64;
    LOAD + TEST + TEST + entries * (LOAD + TESTS_OF_AN_ENTRY) + TEST + 2 * TEST
}

/// The limits of slaves and bytes, the buffer; the file; its length.
pub fn conversion(cluster: &Cluster, edition: Edition) -> u64 {
    let file = if edition == cluster.edition {
        copied(cluster.length())
    } else {
        stores(edition.header_bytes()) + laid_out(cluster)
    };
    walk(cluster) + 3 * TEST + file + STORE
}

/// The same of two files. Of the second's slaves each physical name is held against the first's, and each logical name,
/// which is stored where it is turned.
pub fn join(first: &Cluster, second: &Cluster) -> u64 {
    let holds = |name: LogicalName| first.slaves.iter().any(|slave| slave.logical_name() == name);
    let turned = second.slaves.iter().filter(|slave| holds(slave.logical_name())).count() as u64;
    let names = first.slaves.len() as u64 * LOAD + second.slaves.len() as u64 * (TEST + LOAD + TEST);
    let files = stores(first.edition.header_bytes()) + laid_out(first) + laid_out(second);
    walk(first) + walk(second) + names + 3 * TEST + files + turned * STORE + STORE
}

/// Entries of table and directories one by one, the files of a slave in one piece.
fn laid_out(cluster: &Cluster) -> u64 {
    let slave = |slave: &Slave| {
        let bytes = slave.files.iter().map(|file| file.bytes.len()).sum();
        (1 + slave.files.len() as u64) * (LOAD + STORE) + copied(bytes)
    };
    cluster.slaves.iter().map(slave).sum()
}
