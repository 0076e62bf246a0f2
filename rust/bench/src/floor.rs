//! The floor of a workload: the loads, tests and stores that its input asks for of a program that
//! tests one thing at a time.
//!
//! The rule, one for all. A load of up to 8 bytes, a test, and a store of up to 8 bytes are an instruction each; the bytes of
//! slots in a row are such bytes. A test is a comparison with its branch, together one: a comparison can load what it compares,
//! and tests can be joined by or's under one branch. Bytes that are only copied or filled go 32 at a time, as memcpy moves them.
//! Places, sums, loops and calls are free, and so is taking a word apart, but an entry of a table, a directory or a list is a
//! load of its own. What decides is loaded once in a call, and again only where it goes into a buffer, which a refusal has to
//! leave as it was.
//!
//! What a call takes beyond it goes into places and loops, or can be saved. A program that tests several names or entries in
//! one word or vector may stay below it; bench.sh marks the line where one does.

mod file;
mod list;
mod round;

use crate::workload::{WithSummary, Workload};
use model::Cluster;

const LOAD: u64 = 1;
const TEST: u64 = 1;
const STORE: u64 = 1;
const WORD_BYTES: usize = 8;
const MOVED_BYTES: usize = 32;

/// Instructions of one workload.
pub fn of(workload: &Workload) -> u64 {
    match workload {
        Workload::Check { file } => file::loading(&cluster_of(file)),
        Workload::Frame { file, frame } => round::again_and_again(file, frame, None),
        Workload::Frames { file, frames } => round::one_by_one(file, frames),
        Workload::Naming { file, names, .. } => round::naming_run(file, names, None),
        Workload::Trace { file, trace, .. } => round::trace(file, trace),
        Workload::Owner { file } => list::owner(file),
        Workload::Convert { file, edition, .. } => file::conversion(&cluster_of(file), *edition),
        Workload::WithSummary(workload) => with_summary(workload),
        Workload::Post { .. } => post(),
        Workload::Turn { file, state } => round::turn(file, state),
        Workload::Join { first, second, .. } => file::join(&cluster_of(first), &cluster_of(second)),
        Workload::Pattern { .. } => pattern(),
        Workload::Contents { file, slave, number, buffer } => {
            contents(&cluster_of(file), *slave as usize, *number, buffer.len())
        }
    }
}

fn with_summary(workload: &WithSummary) -> u64 {
    match workload {
        WithSummary::Fill { file, .. } => filling(&cluster_of(file)),
        WithSummary::Holder { held, name } => question(held, *name),
        WithSummary::Frame { file, frame, held } => round::again_and_again(file, frame, Some(held)),
        WithSummary::Naming { file, names, held, .. } => round::naming_run(file, names, Some(held)),
    }
}

/// The room; each name from the file into the slice; the count.
fn filling(cluster: &Cluster) -> u64 {
    file::walk(cluster) + TEST + cluster.slaves.len() as u64 * (LOAD + STORE) + STORE
}

/// The count; the names up to the holder; the place.
fn question(held: &[u8], name: u8) -> u64 {
    let looked_at = held.iter().position(|&held| held == name).map_or(held.len(), |place| place + 1);
    TEST + loads(looked_at) + looked_at as u64 * TEST + STORE
}

/// The screen last served and the waiting byte; these two, the screen, file and name; the post.
fn post() -> u64 {
    2 * LOAD + 5 * TEST + STORE
}

/// That it is below 512; its class in a table; that class.
fn pattern() -> u64 {
    TEST + LOAD + STORE
}

/// That there is the slave; its table entry; the directory entries up to that of the file; the room; its bytes; their number.
fn contents(cluster: &Cluster, slave: usize, number: u8, room: usize) -> u64 {
    let files = &cluster.slaves[slave].files;
    let place = files.iter().position(|file| file.number.0 == number).expect("a file that is there");
    let looked_at = place as u64 + 1;
    let bytes = files[place].bytes.len().min(room);
    file::walk(cluster) + TEST + LOAD + looked_at * (LOAD + TEST) + TEST + copied(bytes) + STORE
}

fn loads(bytes: usize) -> u64 {
    bytes.div_ceil(WORD_BYTES) as u64 * LOAD
}

fn stores(bytes: usize) -> u64 {
    bytes.div_ceil(WORD_BYTES) as u64 * STORE
}

/// In how many words the bytes of these slots are, a bit a slot: those of slots in a row lie side by side.
fn words(mut slots: u64) -> u64 {
    let mut words = 0;
    while slots != 0 {
        let in_a_row = (slots >> slots.trailing_zeros()).trailing_ones().min(WORD_BYTES as u32);
        slots &= !(((1 << in_a_row) - 1) << slots.trailing_zeros());
        words += 1;
    }
    words
}

fn filled(bytes: usize) -> u64 {
    bytes.div_ceil(MOVED_BYTES) as u64 * STORE
}

fn copied(bytes: usize) -> u64 {
    bytes.div_ceil(MOVED_BYTES) as u64 * (LOAD + STORE)
}

fn cluster_of(file: &[u8]) -> Cluster {
    model::check(file).expect("an accepted file")
}

#[cfg(test)]
mod tests {
    use super::*;
    use crate::{growth, workload};

    fn floor(name: &str) -> u64 {
        of(&Workload::of(name).unwrap_or_else(|| panic!("no workload {name}")))
    }

    #[test]
    fn each_workload_has_one() {
        let growth = growth::workloads();
        let names = workload::TABLE.iter().copied().chain(growth.iter().map(String::as_str));
        for name in names {
            assert!(floor(name) > 0, "{name}");
        }
    }

    /// The header has 2 words, of edition 2 three, each with a test, and four more tests; then the end. A slave of two
    /// files has 3 of its table entry, 4 of each directory entry, 3 of the directory. Of two slaves each has 2 of its
    /// physical name, and 2 of a logical name that is 0xFF.
    #[test]
    fn of_checks_by_hand() {
        assert_eq!(floor("check-0-2"), 9);
        assert_eq!(floor("wide-check-0-2"), 11);
        assert_eq!(floor("check-1-2"), 9 + 14);
        assert_eq!(floor("check-2-2"), 9 + 2 * (14 + 2 + 2));
        assert_eq!(floor("check-named-2"), 9 + 2 * (14 + 2 + 3));
        assert_eq!(floor("check-32-64"), 9 + 32 * (14 + 2 + 2 + 62 * 4));
        // Which bytes names share does not matter.
        assert_eq!(floor("check-shared-byte-32"), floor("check-32-2"));
    }

    /// A check does not look at the bytes of records. A conversion moves them, 32 with a load and a store.
    #[test]
    fn of_bytes_by_hand() {
        assert_eq!(floor("check-sized-32768"), floor("check-sized-8192"));
        let bytes = floor("widen-sized-32768") - floor("widen-sized-16384");
        assert!((2 * 512 - 32..=2 * 512 + 32).contains(&bytes), "{bytes}");
    }

    /// Beside the check without logical names, 4 fewer: buffer; frame, 1 load and 5 tests; header; answer and mask.
    #[test]
    fn of_rounds_by_hand() {
        let walk = floor("check-2-2") - 4;
        assert_eq!(floor("address-2"), walk + 1 + 5 + 1 + 3);
        // A pending read has two tests more in the header, the frame one load and two tests, each slave's name as well.
        assert_eq!(floor("read-one-of-2"), walk + 2 + 1 + 3 + 1 + 3 + 2 * 2);
        // All of them send a record.
        assert_eq!(floor("read-all-2"), floor("read-one-of-2") + 2);
    }

    /// The list's entries: a load, operation, slots, file and place, and the byte, or four bytes in one word. At the end the answer's
    /// bytes in eight words.
    #[test]
    fn of_partners_by_hand() {
        let round = floor("check-1-4") + 1 + 3 + 1 + 3 + 2 + 1;
        let first_search = 2;
        assert_eq!(floor("partner-1-63"), round + 63 * (5 + 1) + first_search + 8);
        assert_eq!(floor("partner-1-15-of-4"), round + 15 * (5 + 1) + first_search + 8);
        // Each slave has every entry, and one of them sends.
        let more = floor("check-2-4") - 4 - floor("check-1-4");
        assert_eq!(
            floor("partner-2-15-of-4") - floor("partner-1-15-of-4"),
            more + 2 + 1 + 15 * (5 + 1) + first_search
        );
    }

    /// The slave's name; of six lists the search for a file and 15 entries: a load, operation, slots, file and place, whether another
    /// sends there, and the owner of four slots; the buffer, 396 bytes 32 at a time, their length.
    #[test]
    fn of_owners_by_hand() {
        let lists = 6 * (1 + 2 + 15 * (6 + 1));
        assert_eq!(floor("owner-1-15-of-4"), floor("check-1-8") + 2 + lists + 1 + 2 * 13 + 1);
    }

    /// That there is the slave, its table entry; two directory entries of a load and a test each; the room; 12 bytes moved at once;
    /// their number.
    #[test]
    fn of_contents_by_hand() {
        assert_eq!(floor("contents-1"), floor("check-1-2") + 2 + 2 * 2 + 1 + 2 + 1);
    }

    #[test]
    fn of_slots_in_a_row() {
        assert_eq!([0, 0b10, 0b1_1110, 0b1_0110, !0 << 1].map(words), [0, 1, 1, 2, 8]);
        assert_eq!([0x1FE, 0x3FE, 0x3FE_01FE, 1 << 63 | 1].map(words), [1, 2, 3, 2]);
    }

    #[test]
    fn of_calls_without_a_file() {
        assert_eq!(floor("pattern-data"), 3);
        assert_eq!(floor("post-first"), 8);
        assert_eq!(floor("holder-first-32"), 1 + 1 + 1 + 1);
        assert_eq!(floor("holder-none-32"), 1 + 4 + 32 + 1);
    }
}
