//! `demo FILE`: commissioning a small cluster, as firmware or test software would do it.
//!
//! Sees to it that crate and library are of one version, loads a cluster file, checks it, reads a record of a named
//! slave, has a foreign master try to name slaves by a write, names unnamed slaves until the list of names runs dry and
//! the last one by a second list, while other rounds go on in between, tells before and after it who holds a name, runs a
//! captured trace, plans who sends in which slot, has a slot multiplexed, puts the cluster to sleep and wakes it, converts
//! the file to edition 2 and back, serves three screens in turn, looks at what each slave does in round 2, joins the file
//! with that of a second segment and names whom the join left unnamed, reads the patterns of a frame on the line, and
//! prints what happened. c/demo.c does the same and prints the same.

use std::fs::File;
use std::io::Read;
use std::process::ExitCode;
use ttpa::{
    contents, join, pattern, to_edition, Address, Edition, End, Owners, PatternClass, RecordRead, Report, Run,
    Screens, Senders, Summary, TtpaError, ANSWER_BYTES, EDITION_1_FILE_BYTES, FILE_CONFIGURATION,
    FILE_DOCUMENTATION, FIREWORK_MSA, FIREWORK_MSD, FIREWORK_ROUND_2, FRAME_BYTES, MOST_FILE_BYTES,
    MOST_OWNER_BYTES, NAME_BROADCAST, NAME_UNNAMED, OPERATION_EXECUTE, OPERATION_READ, OPERATION_WRITE,
    RECORD_SLEEP, SLAVE_FILE_BYTES, WIDENED_BYTES,
};

const ROUND_2: [u8; 1] = [FIREWORK_ROUND_2];
const DATA_ALONE: [u8; 1] = [FIREWORK_MSD];
const STEPS_BETWEEN_TRAFFIC: u64 = 50;
/// The master's own logical name.
const MASTER: u8 = 0x80;
/// Where the demo's file has the logical name of its second slave, which is unnamed.
const SECOND_NAME: usize = 0x7F;
/// Where a cluster file tells how many slaves it has.
const SLAVE_COUNT: usize = 3;
/// Where a cluster file of edition 1 tells whether its first slave sleeps, and how far it is to the next slave's byte.
const FIRST_SLEEP: usize = 19;
const ENTRY_BYTES: usize = 4;
/// The bytes of a header of edition 1 and of edition 2.
const HEADER_BYTES: usize = 16;
const WIDE_HEADER_BYTES: usize = 24;
/// The screen that posts again as soon as it is served.
const BUSY_SCREEN: u8 = 2;
/// Five frames captured on site: round 2; a write of E7 7F 00 00 to record 1 of file 0x10 of slave 01, its data
/// broken at first (the check byte is D1); and round 2 again. First frame count and data length, then for each
/// frame offset and length.
#[rustfmt::skip]
const CAPTURED: [u8; 39] = [
    0x00, 0x05, 0x00, 0x14,
    0x00, 0x00, 0x01, 0x00, 0x01, 0x06, 0x00, 0x07, 0x06, 0x00, 0x0D, 0x06, 0x00, 0x13, 0x01,
    FIREWORK_ROUND_2,
    FIREWORK_MSA, 0x07, 0x01, 0x41, 0x01, 0x13,
    FIREWORK_MSD, 0xE7, 0x7F, 0x00, 0x00, 0xD0,
    FIREWORK_MSD, 0xE7, 0x7F, 0x00, 0x00, 0xD1,
    FIREWORK_ROUND_2,
];

/// A second bus segment: slaves 02, which the first has too, 07, which sleeps, and an unnamed one.
#[rustfmt::skip]
const SEGMENT: [u8; 136] = [
    0x54, 0x41, 0x01, 0x03, 0x00, 0x10, 0x00, 0x88, 0x05, 0x00, 0x00, 0x00, 0x00, 0x00, 0x00, 0x00,
    0x00, 0x1C, 0x02, 0x00, 0x00, 0x40, 0x02, 0x01, 0x00, 0x64, 0x02, 0x00,
    0x08, 0x03, 0x00, 0x24, 0x3D, 0x02, 0x00, 0x34,
    0, 0, 0, 0, 0, 0, 0, 0x02, 0, 0, 0, 0, 0, 0, 0, 0, 0, 0, 0, 0, 0, 0, 0, 7, 0, 0, 0, 0x33,
    0x08, 0x03, 0x00, 0x48, 0x3D, 0x02, 0x00, 0x58,
    0, 0, 0, 0, 0, 0, 0, 0x07, 0, 0, 0, 0, 0, 0, 0, 0, 0, 0, 0, 0, 0, 0, 0, 7, 0, 0, 0, 0x55,
    0x08, 0x03, 0x00, 0x6C, 0x3D, 0x02, 0x00, 0x7C,
    0, 0, 0, 0, 0, 0, 0, 0xFF, 0, 0, 0, 0, 0, 0, 0, 0, 0, 0, 0, 0, 0, 0, 0, 7, 0, 0, 0, 0x21,
];

/// The cluster file and what the last round answered.
struct Cluster {
    file: Vec<u8>,
    answer: [u8; ANSWER_BYTES],
    senders: Senders,
}

fn print_verdict<T>(what: &str, verdict: Result<T, TtpaError>) {
    match verdict {
        Ok(_) => println!("{what}: accepted"),
        Err(error) => println!("{what}: {error}"),
    }
}

fn print_bytes(what: &str, bytes: &[u8]) {
    let shown: String = bytes.iter().map(|byte| format!(" {byte:02X}")).collect();
    println!("{what}:{shown}");
}

impl Cluster {
    fn send(&mut self, frame: &[u8]) -> Result<(), TtpaError> {
        self.senders = ttpa::round(&mut self.file, frame, &mut self.answer)?;
        Ok(())
    }

    fn send_keeping(&mut self, frame: &[u8], summary: &mut Summary) -> Result<(), TtpaError> {
        self.senders = ttpa::round_keeping(&mut self.file, frame, &mut self.answer, summary)?;
        Ok(())
    }

    /// A complete master-slave round that writes nothing: the address frame, then the data frame, one byte.
    fn master_slave(&mut self, name: u8, file: u8, operation: u8, record: u8) -> Result<(), TtpaError> {
        let mut frame = [0; FRAME_BYTES];
        ttpa::write_address(&mut frame, &Address { epoch: 1, name, file, operation, record })?;
        self.send(&frame)?;
        self.send(&DATA_ALONE)
    }

    fn read_record(&mut self, name: u8, file: u8, record: u8) -> Result<(), TtpaError> {
        self.master_slave(name, file, OPERATION_READ, record)
    }

    /// A complete master-slave round that writes a record: the data frame has its four bytes.
    fn write_record(&mut self, name: u8, file: u8, record: u8, bytes: [u8; 4]) -> Result<(), TtpaError> {
        let mut frame = [0; FRAME_BYTES];
        ttpa::write_address(&mut frame, &Address { epoch: 1, name, file, operation: OPERATION_WRITE, record })?;
        self.send(&frame)?;
        ttpa::write_data(&mut frame, bytes)?;
        self.send(&frame)
    }

    /// Two slaves of one name: such a file is not loaded.
    fn show_equal_names(&self) {
        let mut twice = self.file.clone();
        if let Some(name) = twice.get_mut(SECOND_NAME) {
            *name = 0x01;
        }
        print_verdict("a file with 01 twice", ttpa::check(&twice));
    }

    /// A foreign master writes record 1 of 0x08 of the unnamed slaves, with 05 where their logical name stands. It
    /// stays FF: only the execute of that record, which ends a naming, renames.
    fn show_foreign_write(&mut self) {
        let written = self.write_record(NAME_UNNAMED, FILE_CONFIGURATION, 1, [0x00, 0x00, 0x05, 0x05]);
        print_verdict("a foreign master's write at FF", written);
        print_verdict("read of 05", self.read_record(0x05, FILE_DOCUMENTATION, 2));
        self.print_answer();
    }

    /// Each slot in which someone sent, with its byte.
    fn print_answer(&self) {
        let slots = self.senders.slots();
        let shown: String = slots.map(|slot| format!(" {slot}={:02X}", self.answer[slot as usize])).collect();
        println!("answer:{}", if shown.is_empty() { " silence" } else { &shown });
    }

    fn show_frames(&mut self) {
        let mut frame = [0; FRAME_BYTES];
        let mut address =
            Address { epoch: 2, name: 0x01, file: FILE_DOCUMENTATION, operation: OPERATION_READ, record: 1 };
        print_verdict("write", ttpa::write_address(&mut frame, &address));
        print_bytes("frame", &frame);
        let read = ttpa::read_address(&frame);
        print_verdict("read back", read);
        if let Ok(Address { epoch, name, file, operation, record }) = read {
            print_bytes("epoch, name, file, operation, record", &[epoch, name, file, operation, record]);
        }
        frame[5] ^= 1;
        print_verdict("a wrong check byte", ttpa::read_address(&frame));
        address.name = NAME_BROADCAST;
        print_verdict("a read at 00", ttpa::write_address(&mut frame, &address));
        print_verdict("a wrong check byte on the bus", self.send(&frame));
    }

    /// Rounds that others make meanwhile: a multipartner round, given the summary, and a read, which may do without: it
    /// renames nobody.
    fn other_traffic(&mut self, summary: &mut Summary) -> Result<(), TtpaError> {
        self.send_keeping(&ROUND_2, summary)?;
        self.read_record(0x01, FILE_DOCUMENTATION, 2)
    }

    fn name_slaves(&mut self, names: &[u8], summary: &mut Summary) -> Result<(), TtpaError> {
        let mut run = Run::start(names)?;
        while run.end() == End::Running {
            let before = run;
            if run.rounds() % STEPS_BETWEEN_TRAFFIC == STEPS_BETWEEN_TRAFFIC - 1 {
                self.other_traffic(summary)?;
            }
            run.step_keeping(&mut self.file, names, &mut self.answer, summary)?;
            if run.index() != before.index() {
                let name = names[before.index() as usize];
                if before.next_round() == 0 {
                    println!("{name:02X} is taken");
                } else {
                    println!("{name:02X} given to {:016X}", run.value());
                }
            }
        }
        let end = if run.end() == End::AllNamed { "all named" } else { "names used up" };
        println!("{end}, rounds {}, comparisons {}", run.rounds(), run.comparisons());
        Ok(())
    }

    /// The summary of the file, or of no slave where it is refused.
    fn filled_summary(&self) -> Summary {
        let filled = Summary::of(&self.file);
        print_verdict("a summary", filled);
        let summary = filled.unwrap_or_default();
        print_bytes("names held", summary.names());
        summary
    }

    /// A summary that lacks the last slave's name does not match.
    fn show_wrong_summary(&mut self, summary: &Summary) {
        let names = summary.names();
        let cut = Summary::from_names(&names[..names.len().saturating_sub(1)]);
        let sent = cut.and_then(|mut cut| self.send_keeping(&ROUND_2, &mut cut));
        print_verdict("round 2 with a name too few", sent);
    }

    fn show_trace(&mut self) {
        print_verdict("a cut trace", ttpa::trace(&mut self.file, &CAPTURED[..CAPTURED.len() - 1]));
        let run = ttpa::trace(&mut self.file, &CAPTURED);
        print_verdict("a captured trace", run);
        if let Ok(Report { msa, msd, multipartner, refused, sum }) = run {
            println!("MSA {msa}, MSD {msd}, multipartner {multipartner}, refused {refused}, sum {sum}");
        }
    }

    /// Slaves 01 and 02 both send in slot 2 of round 2. Then 02 is given slot 4: the entry of its list for round 2
    /// sends from file 0x10, record 1, one byte, in slot 4.
    fn show_owners(&mut self) {
        let mut buffer = [0; MOST_OWNER_BYTES];
        print_verdict("an owner file", ttpa::owner(&self.file, MASTER, &mut buffer));
        print_verdict("slot 4 for 02", self.write_record(0x02, 0x02, 1, [0x10 << 2, 0x01, 0x10, 4]));
        print_verdict("an owner file in 39 bytes", ttpa::owner(&self.file, MASTER, &mut buffer[..39]));
        let owners = ttpa::owner(&self.file, MASTER, &mut buffer);
        print_verdict("an owner file", owners);
        if let Ok(owners) = owners {
            print_plan(owners);
        }
    }

    /// Slot 4 becomes a multiplexed one, in which 02 sends where the epoch is a multiple of 4: no owner file has it. The
    /// write leaves epoch 2, so of the next four rounds the second has the byte.
    fn show_multiplexed(&mut self) {
        let written = self.write_record(0x02, 0x02, 1, [0x10 << 2, 0x01, 0x90, 4]);
        print_verdict("slot 4 for 02 in every fourth round", written);
        print_verdict("an owner file", ttpa::owner(&self.file, MASTER, &mut [0; MOST_OWNER_BYTES]));
        for _ in 0..4 {
            print_verdict("round 2", self.send(&ROUND_2));
            self.print_answer();
        }
    }

    /// Of each slave in table order 1 where it sleeps, else 0.
    fn print_sleep(&self, slaves: usize) {
        let bytes = self.file.iter().skip(FIRST_SLEEP).step_by(ENTRY_BYTES).take(slaves);
        let shown: String = bytes.map(|byte| format!(" {byte}")).collect();
        println!("asleep:{shown}");
    }

    /// The whole cluster is put to sleep: all slaves have names, so 0x00 addresses each, and each has record 4 of 0x08.
    /// The first read finds 01 asleep and wakes all, the second is answered.
    fn show_sleep(&mut self, slaves: usize) {
        let slept = self.master_slave(NAME_BROADCAST, FILE_CONFIGURATION, OPERATION_EXECUTE, RECORD_SLEEP);
        print_verdict("sleep at 00", slept);
        self.print_sleep(slaves);
        for _ in 0..2 {
            print_verdict("read of 01", self.read_record(0x01, FILE_DOCUMENTATION, 2));
            self.print_answer();
            self.print_sleep(slaves);
        }
    }

    /// A neighbouring tool works on the file in edition 2: a round on it has the same answer as on the file, and what it
    /// leaves is, in edition 1 again, what the round leaves of the file.
    fn show_editions(&mut self) -> Result<(), TtpaError> {
        let mut wide = vec![0; WIDENED_BYTES];
        let mut narrow = vec![0; EDITION_1_FILE_BYTES];
        print_verdict("edition 2 in 291 bytes", to_edition(&self.file, Edition::Two, &mut wide[..291]));
        let widened = to_edition(&self.file, Edition::Two, &mut wide)?;
        println!("edition 2: accepted");
        print_bytes("header", &widened[..WIDE_HEADER_BYTES]);
        println!("a tester before version 0.11.0 refuses it by {}", older_ground(widened));
        self.senders = ttpa::round(widened, &ROUND_2, &mut self.answer)?;
        println!("round 2 on it: accepted");
        self.print_answer();
        let narrowed = to_edition(widened, Edition::One, &mut narrow)?;
        println!("edition 1 again: accepted");
        print_bytes("header", &narrowed[..HEADER_BYTES]);
        print_verdict("round 2 on the file", self.send(&ROUND_2));
        self.print_answer();
        println!("both are {}", if narrowed == self.file { "the same" } else { "not the same" });
        Ok(())
    }

    /// Makes a turn and prints its answer; the screen that was served.
    fn take_turn(&mut self, screens: &mut Screens) -> Option<u8> {
        match screens.turn(&mut self.file, &mut self.answer) {
            Ok(Some(served)) => {
                self.senders = served.senders;
                println!("a turn: screen {}", served.screen);
                self.print_answer();
                return Some(served.screen);
            }
            Ok(None) => println!("a turn: no screen waits"),
            Err(error) => println!("a turn: {error}"),
        }
        None
    }

    /// Three screens read through the tester. Screen 2 posts again as soon as it is served, in the first four turns, and the
    /// others have theirs all the same.
    fn show_screens(&mut self) {
        let mut screens = Screens::new();
        println!("screens: accepted");
        print_verdict("a post of screen 8", post(&mut screens, 8, 0x01));
        print_verdict("a post of screen 2", post(&mut screens, BUSY_SCREEN, 0x01));
        print_verdict("a post of screen 2", post(&mut screens, BUSY_SCREEN, 0x01));
        print_verdict("a post of screen 5", post(&mut screens, 5, 0x03));
        print_verdict("a post of screen 0", post(&mut screens, 0, 0x02));
        for turn in 0..6 {
            if self.take_turn(&mut screens) == Some(BUSY_SCREEN) && turn < 4 {
                print_verdict("a post of screen 2", post(&mut screens, BUSY_SCREEN, 0x01));
            }
        }
    }

    /// What each slave does in round 2: its file 0x02, read without a round; and of one slave more than there are.
    fn show_contents(&self) -> Result<(), TtpaError> {
        let mut bytes = [0; SLAVE_FILE_BYTES];
        for slave in 0..=u64::from(self.file[SLAVE_COUNT]) {
            let size = contents(&self.file, slave, 0x02, &mut bytes)? as usize;
            let shown: String = bytes[..size].iter().map(|byte| format!(" {byte:02X}")).collect();
            println!("file 02 of slave {slave}:{}", if size == 0 { " none" } else { &shown });
        }
        Ok(())
    }

    /// The two segments are cabled together. The joined file takes the place of the first; its slave 02 keeps that name,
    /// the other 02 becomes unnamed, and a naming run names it and the one that was unnamed.
    fn show_join(&mut self) {
        let mut joined = vec![0; EDITION_1_FILE_BYTES];
        print_verdict("a join with itself", join(&self.file, &self.file, &mut joined));
        print_verdict("a join in 343 bytes", join(&self.file, &SEGMENT, &mut joined[..343]));
        let length = join(&self.file, &SEGMENT, &mut joined);
        print_verdict("a join", length);
        let Ok(length) = length else {
            return;
        };
        joined.truncate(length);
        self.file = joined;
        print_bytes("header", &self.file[..HEADER_BYTES]);
        let mut summary = self.filled_summary();
        let named = self.name_slaves(&[0x01, 0x02, 0x03, 0x04, 0x05, 0x06], &mut summary);
        print_verdict("naming after the join", named);
        print_bytes("names held", summary.names());
    }
}

/// A screen posts a read of the serial number of a slave.
fn post(screens: &mut Screens, screen: u8, name: u8) -> Result<(), TtpaError> {
    screens.post(screen, &RecordRead { name, file: FILE_DOCUMENTATION, record: 2 })
}

/// An address frame as the line monitor hands it over, each byte with its parity bit: 55 02 01 F4 01 A3. A bit of the fourth
/// is flipped, so that it is broken. Then a number that is no pattern.
fn show_line() {
    for nine_bits in [0x155, 0x102, 0x101, 0x1F5, 0x101, 0x0A3, 0x200] {
        let told = match pattern(nine_bits) {
            Ok(PatternClass::DataByte) => "data byte".to_string(),
            Ok(PatternClass::Firework) => "firework".to_string(),
            Ok(PatternClass::Broken) => "broken".to_string(),
            Err(error) => error.to_string(),
        };
        println!("pattern {nine_bits:03X}: {told}");
    }
}

/// What a tester that knows edition 1 alone says of a file with the right mark: 1 by its length, or 3 by byte 2.
fn older_ground(file: &[u8]) -> u8 {
    let ground = match file {
        _ if !(HEADER_BYTES..=EDITION_1_FILE_BYTES).contains(&file.len()) => TtpaError::FileSize,
        [_, _, 1, ..] => return 0,
        _ => TtpaError::Edition,
    };
    ground.number()
}

/// Who holds each of some names, asked of the summary alone.
fn print_holders(summary: &Summary) {
    for name in [0x01, 0x02, 0x03, NAME_UNNAMED] {
        match summary.holder(name) {
            Some(place) => println!("{name:02X} is held by slave {place}"),
            None => println!("{name:02X} is held by nobody"),
        }
    }
}

/// For each round who sends in which slot, the master in slot 0.
fn print_plan(owners: Owners) {
    for round in 0..8 {
        if let Some(row) = owners.row(round) {
            let names = row.iter().enumerate().filter(|&(_, &name)| name != 0x00);
            let shown: String = names.map(|(slot, name)| format!(" {slot}={name:02X}")).collect();
            println!("round {round}:{shown}");
        }
    }
}

/// The file's bytes, but no more than one above what a cluster file may have, so that a longer one is seen and refused.
fn load(path: String) -> std::io::Result<Vec<u8>> {
    let mut bytes = Vec::new();
    File::open(path)?.take(MOST_FILE_BYTES as u64 + 1).read_to_end(&mut bytes)?;
    Ok(bytes)
}

fn main() -> ExitCode {
    if let Err(mismatch) = ttpa::check_version() {
        eprintln!("{mismatch}");
        return ExitCode::FAILURE;
    }
    let Some(Ok(file)) = std::env::args().nth(1).map(load) else {
        eprintln!("usage: demo FILE");
        return ExitCode::from(2);
    };
    let mut cluster = Cluster { file, answer: [0; ANSWER_BYTES], senders: Senders(0) };
    print_verdict("a cut file", ttpa::check(&cluster.file[..cluster.file.len().saturating_sub(1)]));
    let checked = ttpa::check(&cluster.file);
    print_verdict("the file", checked);
    if checked.is_err() {
        return ExitCode::FAILURE;
    }
    cluster.show_equal_names();
    cluster.show_frames();
    print_verdict("read of 01", cluster.read_record(0x01, FILE_DOCUMENTATION, 2));
    cluster.print_answer();
    print_verdict("round 2 before naming", cluster.send(&ROUND_2));
    cluster.print_answer();
    cluster.show_foreign_write();
    let mut summary = cluster.filled_summary();
    print_holders(&summary);
    print_verdict("names with a repeat", Run::start(&[0x01, 0x02, 0x01]));
    print_verdict("naming", cluster.name_slaves(&[0x01, 0x02], &mut summary));
    print_holders(&summary);
    // A slave is left unnamed: a second list goes on with the file as it is, and leaves the names that one list of all
    // four would.
    print_verdict("naming with a second list", cluster.name_slaves(&[0x03, 0x04], &mut summary));
    print_holders(&summary);
    cluster.show_wrong_summary(&summary);
    for name in 0x02..=0x03 {
        print_verdict("read", cluster.read_record(name, FILE_DOCUMENTATION, 2));
        cluster.print_answer();
    }
    print_verdict("round 2 after naming", cluster.send(&ROUND_2));
    cluster.print_answer();
    cluster.show_trace();
    // A trace takes no summary and may have renamed slaves: it is filled again.
    summary = cluster.filled_summary();
    print_verdict("round 2 after the trace", cluster.send_keeping(&ROUND_2, &mut summary));
    cluster.print_answer();
    cluster.show_owners();
    print_verdict("round 2 as planned", cluster.send(&ROUND_2));
    cluster.print_answer();
    cluster.show_multiplexed();
    cluster.show_sleep(summary.names().len());
    if let Err(error) = cluster.show_editions() {
        println!("a conversion: {error}");
    }
    cluster.show_screens();
    if let Err(error) = cluster.show_contents() {
        println!("file 02: {error}");
    }
    cluster.show_join();
    show_line();
    let mut short = [0; ANSWER_BYTES - 1];
    print_verdict("a short answer buffer", ttpa::round(&mut cluster.file, &ROUND_2, &mut short));
    print_verdict("the file as it is now", ttpa::check(&cluster.file));
    ExitCode::SUCCESS
}
