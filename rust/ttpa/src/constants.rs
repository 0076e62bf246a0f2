//! The numbers of include/ttpa.h by its names, without TTPA_.

/// A cluster file has at most this many bytes; those of edition 1 have at most [`EDITION_1_FILE_BYTES`].
pub const MOST_FILE_BYTES: usize = 65_536;
/// A cluster file of edition 1 has at most this many bytes.
pub const EDITION_1_FILE_BYTES: usize = 32_768;
/// A cluster file has at most this many slaves, and a summary as many names.
pub const MOST_SLAVES: usize = 64;
/// A cluster file of edition 1 has at most this many slaves.
pub const EDITION_1_SLAVES: usize = 32;
/// A slave's file has at most this many bytes, 4 for each of records 0x00 to 255.
pub const SLAVE_FILE_BYTES: usize = 1024;
/// A file of edition 1 has at most this many bytes when it is converted to edition 2.
pub const WIDENED_BYTES: usize = 41_096;
/// The bytes of a state of screens.
pub const SCREENS_BYTES: usize = 33;
/// An answer buffer has at least this many bytes; a call writes exactly these.
pub const ANSWER_BYTES: usize = 64;
/// An address frame and a data frame have this many bytes. The last is the check: the exclusive or of the
/// firework and the four bytes between them.
pub const FRAME_BYTES: usize = 6;

/// The firework of an address frame.
pub const FIREWORK_MSA: u8 = 0x55;
/// The firework of a data frame: 6 bytes for a write, else this byte alone.
pub const FIREWORK_MSD: u8 = 0x49;
/// The firework of multipartner round 0, whose frame is this byte alone; so with those that follow.
pub const FIREWORK_ROUND_0: u8 = 0x78;
/// The firework of multipartner round 2.
pub const FIREWORK_ROUND_2: u8 = 0xBA;
/// The firework of multipartner round 3.
pub const FIREWORK_ROUND_3: u8 = 0x8B;
/// The firework of multipartner round 4.
pub const FIREWORK_ROUND_4: u8 = 0x64;
/// The firework of multipartner round 6.
pub const FIREWORK_ROUND_6: u8 = 0xA6;
/// The firework of multipartner round 7.
pub const FIREWORK_ROUND_7: u8 = 0x97;

/// The operation of an address frame that has a record read.
pub const OPERATION_READ: u8 = 0;
/// The operation of an address frame that has a record written.
pub const OPERATION_WRITE: u8 = 1;
/// The operation of an address frame that has a record executed.
pub const OPERATION_EXECUTE: u8 = 2;

/// The logical name that addresses all slaves but the unnamed.
pub const NAME_BROADCAST: u8 = 0x00;
/// The logical name of a slave that has none; it addresses all of them.
pub const NAME_UNNAMED: u8 = 0xFF;

/// The configuration file, which every slave has. Its record 1 has the new logical name in byte 2 and the logical
/// name in byte 3, which only an execute of that record changes.
pub const FILE_CONFIGURATION: u8 = 0x08;
/// The documentation file, which every slave has. Its records 1 and 2 are the physical name.
pub const FILE_DOCUMENTATION: u8 = 0x3D;
/// The record of [`FILE_CONFIGURATION`] whose execute puts addressed slaves that have it to sleep, after its data frame. A
/// sleeping slave takes no part in rounds and is awake after the next data frame or multipartner round that is carried
/// out; the sleep byte of its entry in the slave table tells it, 0 awake and 1 asleep.
pub const RECORD_SLEEP: u8 = 4;
