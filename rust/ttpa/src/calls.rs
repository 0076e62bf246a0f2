//! The C calls one by one, with slices in place of pointers and lengths. Each but [`version`] answers 0 or the
//! documents' number. The rest of the crate is built on these; they are public for callers who want to lend every
//! buffer themselves, and with them the places in what is lent.

use crate::SCREENS_BYTES;

/// The parts of an address frame.
pub const ADDRESS_PARTS: usize = 5;
/// Place of the epoch among the parts.
pub const PART_EPOCH: usize = 0;
/// Place of the logical name.
pub const PART_NAME: usize = 1;
/// Place of the file number.
pub const PART_FILE: usize = 2;
/// Place of the operation.
pub const PART_OPERATION: usize = 3;
/// Place of the record number.
pub const PART_RECORD: usize = 4;

/// The words of a run.
pub const RUN_WORDS: usize = 8;
/// Place of the end mark among the words of a run.
pub const RUN_END: usize = 0;
/// Place of the index: the place in the list of the name that is next.
pub const RUN_INDEX: usize = 1;
/// Place of the step: the place of the next round among those for this name.
pub const RUN_STEP: usize = 2;
/// Place of the value: the physical name looked for, as far as found.
pub const RUN_VALUE: usize = 3;
/// Place of the number of rounds made.
pub const RUN_ROUNDS: usize = 4;
/// Place of the number of comparisons made.
pub const RUN_COMPARISONS: usize = 5;
/// Place of the high half of a comparison value last written.
pub const RUN_HIGH: usize = 6;
/// Place of the low half last written.
pub const RUN_LOW: usize = 7;

/// The end mark of a run that has rounds to make.
pub const RUNNING: u64 = 0;
/// The end mark of a run that left no slave unnamed.
pub const ALL_NAMED: u64 = 1;
/// The end mark of a run that finished its list.
pub const NAMES_USED_UP: u64 = 2;

/// The words of a trace's report.
pub const REPORT_WORDS: usize = 5;
/// Place of the number of address frames carried out among the words of a report.
pub const REPORT_MSA: usize = 0;
/// Place of the number of data frames carried out.
pub const REPORT_MSD: usize = 1;
/// Place of the number of multipartner frames carried out.
pub const REPORT_MULTIPARTNER: usize = 2;
/// Place of the number of frames refused.
pub const REPORT_REFUSED: usize = 3;
/// Place of the sum of the four.
pub const REPORT_SUM: usize = 4;

/// The bytes of a record of an owner file.
pub const OWNER_RECORD_BYTES: usize = 4;
/// Where the index of an owner file begins.
pub const OWNER_INDEX: usize = 4;

/// The place that [`holder`] writes where nobody holds the name.
pub const NOBODY: u64 = u64::MAX;

/// The screen that [`turn`] writes where none waited.
pub const NO_SCREEN: u8 = 8;

/// The class that [`pattern`] writes of a data byte.
pub const DATA_BYTE: u8 = 0;
/// The class that it writes of a firework.
pub const FIREWORK: u8 = 1;
/// The class that it writes of a broken pattern.
pub const BROKEN: u8 = 2;

mod c {
    extern "C" {
        pub fn ttpa_version() -> u32;
        pub fn ttpa_check(file: *const u8, n: usize) -> u8;
        pub fn ttpa_read_address(frame: *const u8, n: usize, parts: *mut u8) -> u8;
        pub fn ttpa_write_address(
            frame: *mut u8,
            n: usize,
            epoch: u8,
            name: u8,
            file: u8,
            operation: u8,
            record: u8,
        ) -> u8;
        pub fn ttpa_write_data(frame: *mut u8, n: usize, b0: u8, b1: u8, b2: u8, b3: u8) -> u8;
        pub fn ttpa_round(
            file: *mut u8,
            n: usize,
            frame: *const u8,
            m: usize,
            answer: *mut u8,
            k: usize,
            senders: *mut u64,
        ) -> u8;
        pub fn ttpa_start(names: *const u8, n: usize, run: *mut u64) -> u8;
        pub fn ttpa_step(
            file: *mut u8,
            n: usize,
            run: *mut u64,
            names: *const u8,
            m: usize,
            answer: *mut u8,
            k: usize,
            senders: *mut u64,
        ) -> u8;
        pub fn ttpa_trace(file: *mut u8, n: usize, trace: *const u8, m: usize, report: *mut u64) -> u8;
        pub fn ttpa_owner(
            file: *const u8,
            n: usize,
            master: u8,
            buffer: *mut u8,
            k: usize,
            length: *mut u64,
        ) -> u8;
        pub fn ttpa_fill(file: *const u8, n: usize, held: *mut u8, room: usize, count: *mut u64) -> u8;
        pub fn ttpa_holder(held: *const u8, room: usize, count: u64, name: u8, place: *mut u64) -> u8;
        pub fn ttpa_round_keeping(
            file: *mut u8,
            n: usize,
            frame: *const u8,
            m: usize,
            answer: *mut u8,
            k: usize,
            senders: *mut u64,
            held: *mut u8,
            room: usize,
            count: u64,
        ) -> u8;
        pub fn ttpa_step_keeping(
            file: *mut u8,
            n: usize,
            run: *mut u64,
            names: *const u8,
            m: usize,
            answer: *mut u8,
            k: usize,
            senders: *mut u64,
            held: *mut u8,
            room: usize,
            count: u64,
        ) -> u8;
        pub fn ttpa_to_edition_1(file: *const u8, n: usize, out: *mut u8, room: usize, length: *mut u64) -> u8;
        pub fn ttpa_to_edition_2(file: *const u8, n: usize, out: *mut u8, room: usize, length: *mut u64) -> u8;
        pub fn ttpa_screens(state: *mut u8) -> u8;
        pub fn ttpa_post(state: *mut u8, screen: u8, name: u8, file: u8, record: u8) -> u8;
        pub fn ttpa_turn(
            file: *mut u8,
            n: usize,
            state: *mut u8,
            answer: *mut u8,
            k: usize,
            senders: *mut u64,
            screen: *mut u8,
        ) -> u8;
        pub fn ttpa_join(
            first: *const u8,
            n: usize,
            second: *const u8,
            m: usize,
            out: *mut u8,
            room: usize,
            length: *mut u64,
        ) -> u8;
        pub fn ttpa_pattern(pattern: u16, kind: *mut u8) -> u8;
        pub fn ttpa_contents(
            file: *const u8,
            n: usize,
            slave: u64,
            number: u8,
            buffer: *mut u8,
            k: usize,
            length: *mut u64,
        ) -> u8;
    }
}

// SAFETY, for every call below: each pointer comes from a reference and is lent with the length of its own
// slice, or points to an array of the size the C signature states; mutable ones are exclusive, so no two
// overlap. The engine keeps no pointer after it returns. The C signatures are those of a library of this crate's
// version: the crate's other functions see to that, whoever calls these asks `check_version` first.

/// The library's version, as [`VERSION`](crate::VERSION) is that of the crate.
pub fn version() -> u32 {
    unsafe { c::ttpa_version() }
}

/// Checks a file from outside: 0, or 1 to 8 or 22.
pub fn check(file: &[u8]) -> u8 {
    unsafe { c::ttpa_check(file.as_ptr(), file.len()) }
}

/// Reads an address frame into epoch, name, file, operation and record: 0, or 10 to 14.
pub fn read_address(frame: &[u8], parts: &mut [u8; ADDRESS_PARTS]) -> u8 {
    unsafe { c::ttpa_read_address(frame.as_ptr(), frame.len(), parts.as_mut_ptr()) }
}

/// Writes an address frame: 0, or 9, 13, 14 or 18.
pub fn write_address(frame: &mut [u8], epoch: u8, name: u8, file: u8, operation: u8, record: u8) -> u8 {
    unsafe { c::ttpa_write_address(frame.as_mut_ptr(), frame.len(), epoch, name, file, operation, record) }
}

/// Writes a data frame: 0, or 9.
pub fn write_data(frame: &mut [u8], b0: u8, b1: u8, b2: u8, b3: u8) -> u8 {
    unsafe { c::ttpa_write_data(frame.as_mut_ptr(), frame.len(), b0, b1, b2, b3) }
}

/// Carries out one frame on a file: 0, or 1 to 14.
pub fn round(file: &mut [u8], frame: &[u8], answer: &mut [u8], senders: &mut u64) -> u8 {
    unsafe {
        c::ttpa_round(
            file.as_mut_ptr(),
            file.len(),
            frame.as_ptr(),
            frame.len(),
            answer.as_mut_ptr(),
            answer.len(),
            senders,
        )
    }
}

/// Makes a fresh run over a list of names: 0, or 15 or 16.
pub fn start(names: &[u8], run: &mut [u64; RUN_WORDS]) -> u8 {
    unsafe { c::ttpa_start(names.as_ptr(), names.len(), run.as_mut_ptr()) }
}

/// Makes one naming step: 0, or 1 to 9 or 15 to 17. A step of an ended run alters nothing.
pub fn step(
    file: &mut [u8],
    run: &mut [u64; RUN_WORDS],
    names: &[u8],
    answer: &mut [u8],
    senders: &mut u64,
) -> u8 {
    unsafe {
        c::ttpa_step(
            file.as_mut_ptr(),
            file.len(),
            run.as_mut_ptr(),
            names.as_ptr(),
            names.len(),
            answer.as_mut_ptr(),
            answer.len(),
            senders,
        )
    }
}

/// Runs a captured trace on a file: 0, or 1 to 8 or 19.
pub fn trace(file: &mut [u8], trace: &[u8], report: &mut [u64; REPORT_WORDS]) -> u8 {
    unsafe { c::ttpa_trace(file.as_mut_ptr(), file.len(), trace.as_ptr(), trace.len(), report.as_mut_ptr()) }
}

/// Writes the owner file of a cluster file: 0, or 1 to 8, 23, 20 or 21.
pub fn owner(file: &[u8], master: u8, buffer: &mut [u8], length: &mut u64) -> u8 {
    unsafe { c::ttpa_owner(file.as_ptr(), file.len(), master, buffer.as_mut_ptr(), buffer.len(), length) }
}

/// Fills a summary from a file: 0, or 1 to 8 or 24.
pub fn fill(file: &[u8], held: &mut [u8], count: &mut u64) -> u8 {
    unsafe { c::ttpa_fill(file.as_ptr(), file.len(), held.as_mut_ptr(), held.len(), count) }
}

/// Tells the place of the first slave that holds a name, or [`NOBODY`]: 0, or 24.
pub fn holder(held: &[u8], count: u64, name: u8, place: &mut u64) -> u8 {
    unsafe { c::ttpa_holder(held.as_ptr(), held.len(), count, name, place) }
}

/// Carries out one frame on a file and keeps its summary: 0, or 1 to 8, 24 or 9 to 14.
pub fn round_keeping(
    file: &mut [u8],
    frame: &[u8],
    answer: &mut [u8],
    senders: &mut u64,
    held: &mut [u8],
    count: u64,
) -> u8 {
    unsafe {
        c::ttpa_round_keeping(
            file.as_mut_ptr(),
            file.len(),
            frame.as_ptr(),
            frame.len(),
            answer.as_mut_ptr(),
            answer.len(),
            senders,
            held.as_mut_ptr(),
            held.len(),
            count,
        )
    }
}

/// Makes one naming step and keeps the file's summary: 0, or 1 to 8, 24, 9 or 15 to 17. A step of an ended run alters
/// nothing.
pub fn step_keeping(
    file: &mut [u8],
    run: &mut [u64; RUN_WORDS],
    names: &[u8],
    answer: &mut [u8],
    senders: &mut u64,
    held: &mut [u8],
    count: u64,
) -> u8 {
    unsafe {
        c::ttpa_step_keeping(
            file.as_mut_ptr(),
            file.len(),
            run.as_mut_ptr(),
            names.as_ptr(),
            names.len(),
            answer.as_mut_ptr(),
            answer.len(),
            senders,
            held.as_mut_ptr(),
            held.len(),
            count,
        )
    }
}

/// Writes a file as one of edition 1: 0, or 1 to 8, 25 or 26.
pub fn to_edition_1(file: &[u8], out: &mut [u8], length: &mut u64) -> u8 {
    unsafe { c::ttpa_to_edition_1(file.as_ptr(), file.len(), out.as_mut_ptr(), out.len(), length) }
}

/// Writes a file as one of edition 2: 0, or 1 to 8 or 26.
pub fn to_edition_2(file: &[u8], out: &mut [u8], length: &mut u64) -> u8 {
    unsafe { c::ttpa_to_edition_2(file.as_ptr(), file.len(), out.as_mut_ptr(), out.len(), length) }
}

/// Makes the state of screens at the start: always 0.
pub fn screens(state: &mut [u8; SCREENS_BYTES]) -> u8 {
    unsafe { c::ttpa_screens(state.as_mut_ptr()) }
}

/// Posts a read for a screen: 0, or 27, 28, 18 or 14.
pub fn post(state: &mut [u8; SCREENS_BYTES], screen: u8, name: u8, file: u8, record: u8) -> u8 {
    unsafe { c::ttpa_post(state.as_mut_ptr(), screen, name, file, record) }
}

/// Serves the next screen that waits: 0, or 27, 18, 14 or 1 to 9. The screen becomes [`NO_SCREEN`] where none waited, and
/// nothing else is altered then.
pub fn turn(
    file: &mut [u8],
    state: &mut [u8; SCREENS_BYTES],
    answer: &mut [u8],
    senders: &mut u64,
    screen: &mut u8,
) -> u8 {
    unsafe {
        c::ttpa_turn(
            file.as_mut_ptr(),
            file.len(),
            state.as_mut_ptr(),
            answer.as_mut_ptr(),
            answer.len(),
            senders,
            screen,
        )
    }
}

/// Writes the joined file of two cluster files: 0, or 1 to 8 for the first, 1 to 8 for the second, 29 or 30.
pub fn join(first: &[u8], second: &[u8], out: &mut [u8], length: &mut u64) -> u8 {
    unsafe {
        c::ttpa_join(
            first.as_ptr(),
            first.len(),
            second.as_ptr(),
            second.len(),
            out.as_mut_ptr(),
            out.len(),
            length,
        )
    }
}

/// Tells the class of a nine-bit pattern of the line: 0, or 31. On 0 it is [`DATA_BYTE`], [`FIREWORK`] or [`BROKEN`].
pub fn pattern(pattern: u16, kind: &mut u8) -> u8 {
    unsafe { c::ttpa_pattern(pattern, kind) }
}

/// Reads a slave's file and writes its length, 0 where there is no such slave or file: 0, or 1 to 8.
pub fn contents(file: &[u8], slave: u64, number: u8, buffer: &mut [u8], length: &mut u64) -> u8 {
    unsafe {
        c::ttpa_contents(file.as_ptr(), file.len(), slave, number, buffer.as_mut_ptr(), buffer.len(), length)
    }
}
