//! `ttpa draw SEED`: the text of a cluster that the seed settles.

use crate::args::{Arguments, Choice, Subcommand};
use crate::cluster::{halves, Cluster, Pending, Record, Slave, SlaveFile};
use crate::cluster_text::entry::ROUND_FILES;
use crate::cluster_text::write;
use crate::console::{Console, Outcome, Status};
use crate::layout::Edition;
use crate::text::{decimal, quoted};
use ttpa::{FILE_CONFIGURATION, FILE_DOCUMENTATION, NAME_UNNAMED};

pub const SUBCOMMAND: Subcommand = Subcommand {
    name: "draw",
    usage: "SEED [--slaves N] [--unnamed N]",
    summary: "draw the text of a cluster, another one for each seed",
    text: "\
Writes the text of a cluster, with physical names and round entries that the seed settles: the same seed, which may be any word, gives
the same text. 'ttpa make - OUT' makes its file. With more than 32 slaves it is of edition 2.",
    operands: 1..=1,
    options: &[
        Choice { name: "--slaves", value: Some("N"), text: "how many slaves, 0 to 64; 4 if not said" },
        Choice { name: "--unnamed", value: Some("N"), text: "how many of them are unnamed; half if not said" },
    ],
    run,
};

const SLAVES: usize = 4;
const FILE_SENT: u8 = 0x10;
const FILE_RECEIVED: u8 = 0x11;
/// Slot 0 is the master's.
const SLOTS: usize = 63;
const SEND: u8 = 1;
const RECEIVE: u8 = 0;
const END: u8 = 6;
/// The series of which serial numbers are drawn.
const SERIES: [u64; 3] = [7, 8, 0x2001];

fn run(arguments: &Arguments, console: &mut Console) -> Outcome {
    let seed = arguments.operand(0).unwrap_or_default().to_string_lossy();
    let count =
        |word: &str| decimal(word, "number of slaves", 0, ttpa::MOST_SLAVES as u64).map(|count| count as usize);
    let slaves = arguments.read("--slaves", count)?.unwrap_or(SLAVES);
    let unnamed = arguments.read("--unnamed", count)?.unwrap_or(slaves.div_ceil(2));
    if unnamed > slaves {
        return Err(arguments.misused(&format!("{unnamed} unnamed of {slaves} slaves")));
    }
    writeln!(console.output, "# drawn from {}: {slaves} slaves, {unnamed} unnamed", quoted(&seed))?;
    write(&draw(&seed, slaves, unnamed), console.output)?;
    Ok(Status::Accepted)
}

pub fn draw(seed: &str, slaves: usize, unnamed: usize) -> Cluster {
    let mut draws = Draws::from(seed);
    let edition = if slaves > Edition::One.most_slaves() { Edition::Two } else { Edition::One };
    let physical_names = physical_names(&mut draws, slaves);
    let mut names: Vec<u8> = (1..=slaves - unnamed).map(|name| name as u8).collect();
    names.resize(slaves, NAME_UNNAMED);
    draws.shuffle(&mut names);
    let round = ROUND_FILES[draws.below(ROUND_FILES.len())];
    let mut slots: Vec<u8> = (1..=SLOTS).map(|slot| slot as u8).collect();
    // few slaves send in the first slots, where a record is easy to read
    slots.truncate((3 * slaves).clamp(1, SLOTS));
    draws.shuffle(&mut slots);
    let of_slave = |(place, (&name, &physical_name)): (usize, (&u8, &u64))| {
        // each may hear the next
        let [sent_in, heard_in] = [place, (place + 1) % names.len()].map(|place| slots[place % slots.len()]);
        slave(&mut draws, name, physical_name, Part { round, sent_in, heard_in })
    };
    let slaves = names.iter().zip(&physical_names).enumerate().map(of_slave).collect();
    Cluster { edition, epoch: 0, pending: Pending::default(), slaves }
}

/// Each another, in no order.
fn physical_names(draws: &mut Draws, count: usize) -> Vec<u64> {
    let mut names = Vec::new();
    while names.len() < count {
        let name = SERIES[draws.below(SERIES.len())] << 32 | draws.number() & 0xFFFF;
        if !names.contains(&name) {
            names.push(name);
        }
    }
    names
}

/// What a slave does in the round: it sends a byte in one slot, and may keep what is sent in another.
struct Part {
    round: u8,
    sent_in: u8,
    heard_in: u8,
}

fn slave(draws: &mut Draws, name: u8, physical_name: u64, part: Part) -> Slave {
    let Part { round, sent_in, heard_in } = part;
    let mut sent = [Record::default(); 2];
    sent[1] = (draws.number() as u32).to_be_bytes();
    let align = draws.below(4) as u8;
    let mut entries = vec![Record::default(), entry(SEND, FILE_SENT, align, sent_in)];
    if draws.below(2) == 1 && heard_in != sent_in {
        entries.push(entry(RECEIVE, FILE_RECEIVED, 0, heard_in));
    }
    entries.push(entry(END, 0, 0, 0));
    let [series, serial] = halves(physical_name);
    let zeros = Record::default();
    let file = |number, records: &[Record]| SlaveFile { number, records: records.to_vec() };
    let files = vec![
        file(round, &entries),
        // record 4 of it, whose execute puts the slave to sleep, is there too
        file(FILE_CONFIGURATION, &[zeros, [0, 0, 0, name], zeros, zeros, zeros]),
        file(FILE_SENT, &sent),
        file(FILE_RECEIVED, &[zeros, zeros]),
        file(FILE_DOCUMENTATION, &[zeros, series, serial]),
    ];
    Slave { asleep: false, files }
}

/// An entry of one slot for a byte of record 01.
fn entry(operation: u8, file: u8, align: u8, slot: u8) -> Record {
    let record = if operation == END { 0 } else { 1 };
    [file << 2 | align, record, operation << 4, slot]
}

/// Numbers that the seed settles: splitmix64 from a sum over its bytes (FNV-1a).
struct Draws(u64);

impl Draws {
    fn from(seed: &str) -> Draws {
        let add = |sum: u64, byte: u8| (sum ^ u64::from(byte)).wrapping_mul(0x0000_0100_0000_01B3);
        Draws(seed.bytes().fold(0xCBF2_9CE4_8422_2325, add))
    }

    fn number(&mut self) -> u64 {
        self.0 = self.0.wrapping_add(0x9E37_79B9_7F4A_7C15);
        let mixed = (self.0 ^ self.0 >> 30).wrapping_mul(0xBF58_476D_1CE4_E5B9);
        let mixed = (mixed ^ mixed >> 27).wrapping_mul(0x94D0_49BB_1331_11EB);
        mixed ^ mixed >> 31
    }

    fn below(&mut self, limit: usize) -> usize {
        (self.number() % limit as u64) as usize
    }

    fn shuffle(&mut self, items: &mut [u8]) {
        for last in (1..items.len()).rev() {
            items.swap(last, self.below(last + 1));
        }
    }
}
