//! Document 01 ("The TTP/A cluster tester: file, rounds and naming run"), with the fourteen requests of
//! document 02, as plain safe Rust.
//!
//! Written from the documents, in the order of document 01, for reading and not for speed: a cluster file is
//! taken apart into a [`Cluster`], the rules work on slaves and records, and the cluster is written out again.
//! The engine, which works on the bytes in place, shares nothing with it but the documents.

#![forbid(unsafe_code)]

mod account;
mod cluster;
mod contents;
mod conversion;
mod edition;
mod file;
mod frame;
mod join;
mod listing;
mod multipartner;
mod naming;
mod owner;
mod pattern;
mod round;
mod screens;
mod slaves;
mod summary;
mod trace;

pub use account::{closed_figures, naming_pass, naming_rounds, Account, ClosedFigures};
pub use cluster::{Cluster, File, Pending, Slave};
pub use contents::contents;
pub use conversion::to_edition;
pub use edition::Edition;
pub use file::{check, load};
pub use frame::{
    firework_of, read_address, round_of, write_address, write_data, Address, Frame, Operation, FRAME_BYTES,
    MSA, MSD,
};
pub use join::join;
pub use listing::listing;
pub use naming::{start, step, End, Run};
pub use owner::{owner, senders_of};
pub use pattern::{pattern, PatternClass};
pub use round::{round, Answer, ANSWER_BYTES};
pub use screens::{post, screens, turn, Served, State, SCREENS, STATE_BYTES};
pub use summary::{fill, first_holder, holder, round_keeping, step_keeping};
pub use trace::{encode_trace, trace, Report, MOST_TRACE_BYTES};

/// A refusal is the document's number and nothing else.
#[derive(Clone, Copy, Debug, PartialEq, Eq)]
pub struct Refusal(pub u8);

/// The number of a file of a slave, 0 to 63.
#[derive(Clone, Copy, Debug, PartialEq, Eq, PartialOrd, Ord)]
pub struct FileNumber(pub u8);

/// The number of a record of a file.
#[derive(Clone, Copy, Debug, PartialEq, Eq)]
pub struct RecordNumber(pub u8);

/// The name under which a slave is addressed.
#[derive(Clone, Copy, Debug, PartialEq, Eq)]
pub struct LogicalName(pub u8);

impl FileNumber {
    pub const CONFIGURATION: FileNumber = FileNumber(0x08);
    pub const DOCUMENTATION: FileNumber = FileNumber(0x3D);
    pub const LAST: FileNumber = FileNumber(63);
}

impl LogicalName {
    pub const BROADCAST: LogicalName = LogicalName(0x00);
    pub const UNNAMED: LogicalName = LogicalName(0xFF);
}

/// "several-byte numbers have the most significant byte first"
pub(crate) fn number_of(bytes: &[u8]) -> u64 {
    bytes.iter().fold(0, |number, &byte| number << 8 | u64::from(byte))
}
