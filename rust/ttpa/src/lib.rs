//! The TTP/A cluster engine for Rust programs: check a cluster file, read and write frames, carry out
//! rounds on the file, name its slaves, run captured traces, write the owner file, tell who holds a name, convert the file
//! between its two editions, serve the reads of several screens in turn, join the files of two clusters, tell the class of a
//! nine-bit pattern of the line, read a slave's files without a round.
//!
//! The engine keeps no state, never allocates and always returns. Everything it works on is lent to it for
//! the time of one call. A call that refuses alters nothing it was lent.
//!
//! The archive is linked as it is found: [`check_version`] says whether it is that of this crate's version.
//!
//! ```no_run
//! ttpa::check_version()?;
//! let mut file = std::fs::read("plant.cluster")?;
//! ttpa::check(&file)?;
//! let mut answer = [0; ttpa::ANSWER_BYTES];
//! let names = [1, 2, 3];
//! let mut run = ttpa::Run::start(&names)?;
//! while run.end() == ttpa::End::Running {
//!     run.step(&mut file, &names, &mut answer)?;
//! }
//! # Ok::<(), Box<dyn std::error::Error>>(())
//! ```

#![no_std]
#![deny(missing_docs)]

pub mod calls;
mod constants;
mod contents;
mod edition;
mod error;
mod join;
mod owner;
mod pattern;
mod run;
mod screens;
mod summary;
mod trace;
mod version;

pub use constants::*;
pub use contents::contents;
pub use edition::{to_edition, Edition};
pub use error::TtpaError;
pub use join::join;
pub use owner::{owner, Owners, MOST_OWNER_BYTES};
pub use pattern::{pattern, PatternClass};
pub use run::{End, Run};
pub use screens::{RecordRead, Screens, Served};
pub use summary::{round_keeping, Summary};
pub use trace::{trace, Report, MOST_TRACE_BYTES};
pub use version::{check_version, version, VersionMismatch, VERSION};

/// What an address frame says.
#[derive(Clone, Copy, Debug, PartialEq, Eq)]
pub struct Address {
    /// PB0.
    pub epoch: u8,
    /// The logical name addressed; [`NAME_UNNAMED`] are the unnamed slaves, [`NAME_BROADCAST`] all others.
    pub name: u8,
    /// The file number, 0 to 63.
    pub file: u8,
    /// [`OPERATION_READ`], [`OPERATION_WRITE`] or [`OPERATION_EXECUTE`].
    pub operation: u8,
    /// The record number.
    pub record: u8,
}

/// The slots in which someone sent.
#[derive(Clone, Copy, Debug, PartialEq, Eq)]
pub struct Senders(pub u64);

impl Senders {
    /// Whether someone sent in the slot.
    pub fn sent_in(self, slot: u32) -> bool {
        self.0.checked_shr(slot).unwrap_or(0) & 1 == 1
    }

    /// The slots in which someone sent, in their order.
    pub fn slots(self) -> impl Iterator<Item = u32> {
        (0..u64::BITS).filter(move |&slot| self.sent_in(slot))
    }
}

/// Accepts a cluster file from outside, or refuses it by one of the numbers 1 to 8, or by 22 where two slaves have one
/// logical name other than 0xFF. Only this function refuses by 22: rounds may bring such a file about, and all others
/// take it.
pub fn check(file: &[u8]) -> Result<(), TtpaError> {
    version::hold();
    TtpaError::of(calls::check(file))
}

/// Reads an address frame; refused by 10 to 14.
pub fn read_address(frame: &[u8]) -> Result<Address, TtpaError> {
    version::hold();
    let mut parts = [0; calls::ADDRESS_PARTS];
    TtpaError::of(calls::read_address(frame, &mut parts))?;
    let [epoch, name, file, operation, record] = parts;
    Ok(Address { epoch, name, file, operation, record })
}

/// Writes an address frame into the first six bytes of the buffer; refused by 9, 13, 14 and 18.
pub fn write_address(frame: &mut [u8], address: &Address) -> Result<(), TtpaError> {
    version::hold();
    let &Address { epoch, name, file, operation, record } = address;
    TtpaError::of(calls::write_address(frame, epoch, name, file, operation, record))
}

/// Writes a data frame into the first six bytes of the buffer; refused by 9.
pub fn write_data(frame: &mut [u8], [b0, b1, b2, b3]: [u8; 4]) -> Result<(), TtpaError> {
    version::hold();
    TtpaError::of(calls::write_data(frame, b0, b1, b2, b3))
}

/// Carries out one frame on a cluster file; refused by 1 to 14. The first 64 bytes of the answer become the
/// firework and then each slot's byte, 0xFF where nobody sent.
pub fn round(file: &mut [u8], frame: &[u8], answer: &mut [u8]) -> Result<Senders, TtpaError> {
    version::hold();
    let mut senders = 0;
    TtpaError::of(calls::round(file, frame, answer, &mut senders))?;
    Ok(Senders(senders))
}
