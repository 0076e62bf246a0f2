//! How calls grow: series of workloads over slaves, entries, frames and bytes, in both editions.

use model::Edition;

/// Workloads that differ in one number alone.
pub struct Series {
    pub title: &'static str,
    /// What is counted along it.
    pub unit: &'static str,
    pub lines: [Line; 2],
}

/// Those of one edition.
pub struct Line {
    pub edition: Edition,
    pub points: Vec<Point>,
}

pub struct Point {
    pub at: u64,
    pub workload: String,
}

const SLAVES: [u64; 7] = [0, 1, 2, 4, 8, 16, 32];
const MORE_SLAVES: [u64; 8] = [0, 1, 2, 4, 8, 16, 32, 64];
const FILES: [u64; 6] = [2, 4, 8, 16, 32, 64];
const BYTES: [u64; 4] = [8_192, 16_384, 24_576, 32_768];
const MORE_BYTES: [u64; 5] = [8_192, 16_384, 24_576, 32_768, 65_536];
const ENTRIES: [u64; 4] = [63, 126, 189, 220];
const READS: [u64; 5] = [1, 100, 250, 500, 1_000];

pub fn series() -> Vec<Series> {
    [files(), rounds()].into_iter().flatten().collect()
}

fn files() -> [Series; 4] {
    [
        over("Check", "slaves of 2 files", same, [("check-N-2", &SLAVES), ("wide-check-N-2", &MORE_SLAVES)]),
        over(
            "Check, 32 slaves",
            "directory entries",
            |files| 32 * files,
            [("check-32-N", &FILES), ("wide-check-32-N", &FILES)],
        ),
        over(
            "Check, 32 slaves of 8 files",
            "bytes of the file",
            same,
            [("check-sized-N", &BYTES), ("wide-check-sized-N", &MORE_BYTES)],
        ),
        over(
            "Conversion, 32 slaves of 8 files",
            "bytes of the file, which goes into the other edition",
            same,
            [("widen-sized-N", &BYTES), ("narrow-sized-N", &BYTES)],
        ),
    ]
}

fn rounds() -> [Series; 4] {
    let (some, more) = (&SLAVES[1..], &MORE_SLAVES[1..]);
    [
        over(
            "Multipartner round, lists of 63 entries",
            "slaves",
            same,
            [("partner-N-63", some), ("wide-partner-N-63", more)],
        ),
        over(
            "Multipartner round, 32 slaves",
            "entries of each list",
            same,
            [("partner-32-N", &ENTRIES), ("wide-partner-32-N", &ENTRIES)],
        ),
        over(
            "Trace of reads, 32 slaves",
            "frames",
            |reads| 2 * reads,
            [("trace-N-32", &READS), ("wide-trace-N-32", &READS)],
        ),
        over("Naming run", "slaves", same, [("naming-N", some), ("wide-naming-N", more)]),
    ]
}

fn same(number: u64) -> u64 {
    number
}

/// The names of all workloads, each once.
pub fn workloads() -> Vec<String> {
    let mut names = Vec::new();
    for line in series().into_iter().flat_map(|series| series.lines) {
        for point in line.points {
            if !names.contains(&point.workload) {
                names.push(point.workload);
            }
        }
    }
    names
}

/// One line for each edition: in the workload's name stands a number for N.
fn over(
    title: &'static str,
    unit: &'static str,
    at: impl Fn(u64) -> u64,
    [one, two]: [(&str, &[u64]); 2],
) -> Series {
    let line = |edition, (name, numbers): (&str, &[u64])| {
        let point = |&number: &u64| Point { at: at(number), workload: name.replace('N', &number.to_string()) };
        Line { edition, points: numbers.iter().map(point).collect() }
    };
    Series { title, unit, lines: [line(Edition::One, one), line(Edition::Two, two)] }
}
