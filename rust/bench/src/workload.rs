//! What is measured. Everything is prepared before the first call.

use crate::files;
use compare::engine::{Engine, ReportWords, RunWords, State, Summary, Turn};
use compare::frames::framed;
use model::{closed_figures, encode_trace, post, screens, to_edition, Edition, MSA, MSD};
use std::hint::black_box;

/// The lines of the table.
pub const TABLE: [&str; 59] = [
    "check-32-2",
    "check-named-32",
    "check-shared-byte-32",
    "check-most",
    "address-32",
    "read-one-of-32",
    "read-all-32",
    "write-all-32",
    "execute-2-all-32",
    "execute-1-all-32",
    "sleep-all-32",
    "partner-1-255",
    "partner-32-220",
    "partner-32-63",
    "partner-32-15-of-4",
    "multiplexed-1-63",
    "multiplexed-32-55",
    "naming-1",
    "naming-8",
    "naming-32",
    "trace-1000-32",
    "rounds-1000-32",
    "owner-1",
    "owner-most",
    "owner-32-15-of-4",
    "owner-none-32",
    "fill-32",
    "holder-first-32",
    "holder-last-32",
    "holder-none-32",
    "keeping-address-32",
    "keeping-read-one-of-32",
    "keeping-execute-1-all-32",
    "keeping-partner-32-63",
    "keeping-naming-32",
    "post-first",
    "post-last",
    "turn-first-32",
    "turn-last-32",
    "turn-none-32",
    "turn-as-rounds-32",
    "join-16-16",
    "pattern-data",
    "pattern-firework",
    "pattern-broken",
    "contents-32",
    "contents-long",
    "wide-check-32-2",
    "wide-check-64-2",
    "wide-check-most",
    "wide-read-one-of-32",
    "wide-read-one-of-64",
    "wide-partner-32-63",
    "wide-partner-64-63",
    "wide-naming-32",
    "widen-most",
    "narrow-most",
    "copy-most",
    "wide-join-32-32",
];

pub const MOST_OWNER_BYTES: usize = 396;
/// The most bytes of a slave's file.
const MOST_SLAVE_FILE_BYTES: usize = 1_024;
/// The name of slot 0 in an owner file.
pub const MASTER: u8 = 0x63;

/// The calls of one workload, with the memory they are lent.
pub enum Workload {
    Check {
        file: Vec<u8>,
    },
    /// One frame, again and again.
    Frame {
        file: Vec<u8>,
        frame: Vec<u8>,
    },
    /// A whole naming run from the file as it is here.
    Naming {
        file: Vec<u8>,
        names: Vec<u8>,
        rounds: u64,
    },
    /// A captured trace.
    Trace {
        file: Vec<u8>,
        trace: Vec<u8>,
        frames: u64,
    },
    /// Its frames one by one.
    Frames {
        file: Vec<u8>,
        frames: Vec<Vec<u8>>,
    },
    /// The owner file of a cluster.
    Owner {
        file: Vec<u8>,
    },
    /// A conversion into an edition.
    Convert {
        file: Vec<u8>,
        edition: Edition,
        buffer: Vec<u8>,
    },
    /// A call with a summary.
    WithSummary(WithSummary),
    /// A post of a screen, always on this state.
    Post {
        state: State,
        screen: u8,
    },
    /// A turn, always from this state.
    Turn {
        file: Vec<u8>,
        state: State,
    },
    /// Two files joined.
    Join {
        first: Vec<u8>,
        second: Vec<u8>,
        buffer: Vec<u8>,
    },
    /// The class of a pattern of the line.
    Pattern {
        pattern: u16,
    },
    /// A file of the last slave, read.
    Contents {
        file: Vec<u8>,
        slave: u64,
        number: u8,
        buffer: Vec<u8>,
    },
}

pub enum WithSummary {
    /// One is filled.
    Fill {
        file: Vec<u8>,
        held: Vec<u8>,
    },
    /// One is asked who holds a name.
    Holder {
        held: Vec<u8>,
        name: u8,
    },
    /// A frame or a naming run is given one.
    Frame {
        file: Vec<u8>,
        frame: Vec<u8>,
        held: Vec<u8>,
    },
    Naming {
        file: Vec<u8>,
        names: Vec<u8>,
        held: Vec<u8>,
        rounds: u64,
    },
}

impl Workload {
    pub fn of(name: &str) -> Option<Workload> {
        let words: Vec<&str> = name.split('-').collect();
        let number = |word: &str| word.parse::<usize>().ok();
        Some(match words[..] {
            ["check" | "widen" | "narrow" | "copy" | "join", ..] => Workload::of_files(&words, Edition::One)?,
            ["wide", "check", "most" | "sized", ..] | ["wide", "join", ..] => {
                Workload::of_files(&words[1..], Edition::Two)?
            }
            ["wide", ..] => Workload::of(name.strip_prefix("wide-")?)?.in_edition_2()?,
            ["address" | "read" | "write" | "execute" | "sleep", ..] => Workload::of_operation(&words)?,
            ["partner", slaves, entries] => {
                Workload::Frame { file: files::partners(number(slaves)?, number(entries)?), frame: vec![0xBA] }
            }
            ["partner", slaves, entries, "of", slots] => Workload::Frame {
                file: files::partners_of(number(slaves)?, number(entries)?, number(slots)?),
                frame: vec![0xBA],
            },
            ["multiplexed", slaves, slots] => {
                Workload::Frame { file: files::multiplexed(number(slaves)?, number(slots)?), frame: vec![0xBA] }
            }
            ["naming", slaves] => {
                let slaves = number(slaves)?;
                naming(files::small(slaves, 2, |_| 0xFF), (1..=slaves as u8).collect())
            }
            ["trace", reads, slaves] => reads_as_trace(number(reads)?, number(slaves)?),
            ["rounds", reads, slaves] => reads_as_rounds(number(reads)?, number(slaves)?),
            ["owner", "1"] => Workload::Owner { file: files::owner_of_all() },
            ["owner", "most"] => Workload::Owner { file: files::most_owners() },
            ["owner", slaves, entries, "of", slots] => {
                Workload::Owner { file: files::owners_of(number(slaves)?, number(entries)?, number(slots)?) }
            }
            ["owner", "none", slaves] => Workload::Owner { file: named(number(slaves)?) },
            ["fill" | "holder" | "keeping", ..] => Workload::WithSummary(WithSummary::of(name)?),
            ["post" | "turn", ..] => Workload::of_screens(&words)?,
            ["pattern", class] => Workload::Pattern { pattern: pattern_of(class)? },
            ["contents", "long"] => contents(files::owner_of_all(), 0x02),
            ["contents", slaves] => contents(named(number(slaves)?), 0x3D),
            _ => return None,
        })
    }

    /// A check, a conversion or a join of files of an edition.
    fn of_files(words: &[&str], edition: Edition) -> Option<Workload> {
        let number = |word: &str| word.parse::<usize>().ok();
        Some(match *words {
            ["check", "most"] => Workload::Check { file: files::most_entries(edition) },
            ["check", "sized", bytes] => Workload::Check { file: files::sized(number(bytes)?, edition) },
            ["check", "named", slaves] => Workload::Check { file: named(number(slaves)?) },
            ["check", "shared", "byte", slaves] => {
                Workload::Check { file: files::sharing_a_byte(number(slaves)?) }
            }
            ["check", slaves, files] => {
                Workload::Check { file: files::small(number(slaves)?, number(files)?, |_| 0xFF) }
            }
            ["widen", "most"] => convert(files::most_entries(Edition::One), Edition::Two),
            ["narrow", "most"] => convert(widened(&files::most_entries(Edition::One)), Edition::One),
            ["copy", "most"] => convert(files::most_entries(Edition::Two), Edition::Two),
            ["widen", "sized", bytes] => convert(files::sized(number(bytes)?, Edition::One), Edition::Two),
            ["narrow", "sized", bytes] => convert(files::sized(number(bytes)?, Edition::Two), Edition::One),
            ["join", first, second] => join(number(first)?, number(second)?, edition),
            _ => return None,
        })
    }

    /// A frame of a master-slave round.
    fn of_operation(words: &[&str]) -> Option<Workload> {
        let number = |word: &str| word.parse::<usize>().ok();
        Some(match *words {
            ["address", slaves] => Workload::Frame {
                file: files::small(number(slaves)?, 2, |_| 0xFF),
                frame: framed(MSA, [0x05, 0xFF, 0x22, 0x02]),
            },
            ["read", "one", "of", slaves] => {
                pending(number(slaves)?, |slave| slave as u8 + 1, [0x11, 0x3D << 2, 1], &[MSD])
            }
            ["read", "all", slaves] => pending(number(slaves)?, |_| 0x11, [0x11, 0x3D << 2, 1], &[MSD]),
            ["write", "all", slaves] => {
                pending(number(slaves)?, |_| 0xFF, [0xFF, 0x08 << 2 | 1, 2], &framed(MSD, [0x80, 0, 0, 0]))
            }
            ["execute", record, "all", slaves] => {
                let record = number(record)? as u8;
                pending(number(slaves)?, |_| 0xFF, [0xFF, 0x08 << 2 | 2, record], &[MSD])
            }
            ["sleep", "all", slaves] => sleeping(number(slaves)?),
            _ => return None,
        })
    }

    /// A post, a turn, or a turn's read by itself.
    fn of_screens(words: &[&str]) -> Option<Workload> {
        let named_slaves = |word: &str| word.parse().ok().map(named);
        Some(match *words {
            ["post", which] => Workload::Post { state: screens(), screen: screen(which)? },
            ["turn", "none", slaves] => Workload::Turn { file: named_slaves(slaves)?, state: screens() },
            ["turn", "as", "rounds", slaves] => Workload::Frames {
                file: named_slaves(slaves)?,
                frames: vec![framed(MSA, [0x05, SHOWN[0], SHOWN[1] << 2, SHOWN[2]]), vec![MSD]],
            },
            ["turn", which, slaves] => {
                Workload::Turn { file: named_slaves(slaves)?, state: waiting(screen(which)?) }
            }
            _ => return None,
        })
    }

    /// The same on a file of edition 2.
    fn in_edition_2(self) -> Option<Workload> {
        match self {
            Workload::Check { file } => Some(Workload::Check { file: widened(&file) }),
            Workload::Frame { file, frame } => Some(Workload::Frame { file: widened(&file), frame }),
            Workload::Naming { file, names, rounds } => {
                Some(Workload::Naming { file: widened(&file), names, rounds })
            }
            Workload::Trace { file, trace, frames } => {
                Some(Workload::Trace { file: widened(&file), trace, frames })
            }
            _ => None,
        }
    }

    pub fn make(&mut self, engine: &dyn Engine, times: u64) {
        let mut answer = [0; 64];
        let mut senders = 0;
        for _ in 0..times {
            match self {
                Workload::Check { file } => accepted(engine.check(black_box(file))),
                Workload::Frame { file, frame } => {
                    accepted(engine.round(black_box(file), black_box(frame), &mut answer, &mut senders));
                }
                Workload::Frames { file, frames } => {
                    for frame in frames {
                        accepted(engine.round(black_box(file), black_box(frame), &mut answer, &mut senders));
                    }
                }
                Workload::Naming { file, names, rounds } => {
                    assert_eq!(naming_run(engine, &mut file.clone(), names), *rounds);
                }
                Workload::Trace { file, trace, frames } => run_trace(engine, file, trace, *frames),
                Workload::Owner { file } => write_owner_file(engine, file),
                Workload::Convert { file, edition, buffer } => {
                    write_file(buffer, |buffer, length| {
                        engine.to_edition(black_box(file), *edition, buffer, length)
                    });
                }
                Workload::Join { first, second, buffer } => {
                    write_file(buffer, |buffer, length| {
                        engine.join(black_box(first), black_box(second), buffer, length)
                    });
                }
                Workload::WithSummary(workload) => workload.make(engine, &mut answer, &mut senders),
                Workload::Post { state, screen } => post_read(engine, *state, *screen),
                Workload::Turn { file, state } => take_turn(engine, file, *state, &mut answer, &mut senders),
                Workload::Pattern { pattern } => tell_class(engine, *pattern),
                Workload::Contents { file, slave, number, buffer } => {
                    write_file(buffer, |buffer, length| {
                        engine.contents(black_box(file), *slave, *number, buffer, length)
                    });
                }
            }
        }
        black_box(senders);
    }
}

impl WithSummary {
    fn of(name: &str) -> Option<WithSummary> {
        let words: Vec<&str> = name.split('-').collect();
        let named_slaves = |word: &str| word.parse().ok().map(named);
        match words[..] {
            ["fill", slaves] => {
                let file = named_slaves(slaves)?;
                Some(WithSummary::Fill { held: held_in(&file), file })
            }
            ["holder", which, slaves] => {
                let held = held_in(&named_slaves(slaves)?);
                let name = match which {
                    "first" => *held.first()?,
                    "last" => *held.last()?,
                    _ => 0xFE,
                };
                Some(WithSummary::Holder { held, name })
            }
            _ => match Workload::of(name.strip_prefix("keeping-")?)? {
                Workload::Frame { file, frame } => {
                    Some(WithSummary::Frame { held: held_in(&file), file, frame })
                }
                Workload::Naming { file, names, rounds } => {
                    Some(WithSummary::Naming { held: held_in(&file), file, names, rounds })
                }
                _ => None,
            },
        }
    }

    /// Once.
    fn make(&mut self, engine: &dyn Engine, answer: &mut [u8], senders: &mut u64) {
        match self {
            WithSummary::Fill { file, held } => {
                let mut count = 0;
                accepted(engine.fill(black_box(file), black_box(held), &mut count));
                black_box(count);
            }
            WithSummary::Holder { held, name } => {
                let (count, mut place) = (held.len() as u64, 0);
                accepted(engine.holder(black_box(held), count, black_box(*name), &mut place));
                black_box(place);
            }
            WithSummary::Frame { file, frame, held } => {
                let summary = Summary { count: held.len() as u64, held: black_box(held) };
                let (file, frame) = (black_box(file), black_box(frame));
                accepted(engine.round_keeping(file, frame, answer, senders, summary));
            }
            WithSummary::Naming { file, names, held, rounds } => {
                let made = naming_run_keeping(engine, &mut file.clone(), names, &mut held.clone());
                assert_eq!(made, *rounds);
            }
        }
    }
}

/// The data frame of an operation that its address frame has put into the header. It stays pending, so the
/// same call can be made many times. The comparison value is 0 for all, no physical name is equal to it.
fn pending(slaves: usize, logical_name: impl Fn(usize) -> u8, operation: [u8; 3], frame: &[u8]) -> Workload {
    pending_on(files::small(slaves, 2, logical_name), operation, frame)
}

fn pending_on(mut file: Vec<u8>, operation: [u8; 3], frame: &[u8]) -> Workload {
    let flag = Edition::of(&file).epoch_place() + 1;
    file[flag] = 1;
    file[flag + 1..flag + 4].copy_from_slice(&operation);
    Workload::Frame { file, frame: frame.to_vec() }
}

/// The file in edition 2; one that has it is copied.
fn widened(file: &[u8]) -> Vec<u8> {
    let mut buffer = vec![0; Edition::Two.most_bytes()];
    let length = to_edition(file, Edition::Two, &mut buffer).expect("an accepted file");
    buffer.truncate(length);
    buffer
}

fn convert(file: Vec<u8>, edition: Edition) -> Workload {
    Workload::Convert { file, edition, buffer: vec![0; Edition::Two.most_bytes()] }
}

fn join(first: usize, second: usize, edition: Edition) -> Workload {
    let (first, second) = files::segments(first, second, edition);
    Workload::Join { first, second, buffer: vec![0; Edition::Two.most_bytes()] }
}

/// The data frame of an execute of record 4 of 0x08: all fall asleep, and by the next call all wake.
fn sleeping(slaves: usize) -> Workload {
    pending_on(files::tired(slaves), [0xFF, 0x08 << 2 | 2, 4], &[MSD])
}

fn reads_as_trace(reads: usize, slaves: usize) -> Workload {
    let frames = reads_of(reads, slaves);
    Workload::Trace { file: named(slaves), trace: encode_trace(&frames), frames: frames.len() as u64 }
}

fn reads_as_rounds(reads: usize, slaves: usize) -> Workload {
    Workload::Frames { file: named(slaves), frames: reads_of(reads, slaves) }
}

/// The read that screens post: record 1 of 0x3D of one slave.
const SHOWN: [u8; 3] = [0x11, 0x3D, 1];

/// A file of the last slave of this cluster file, into a buffer that has room for every file.
fn contents(file: Vec<u8>, number: u8) -> Workload {
    let slaves = model::check(&file).expect("an accepted file").slaves.len() as u64;
    Workload::Contents { file, slave: slaves - 1, number, buffer: vec![0; MOST_SLAVE_FILE_BYTES] }
}

/// A pattern of this class: a data byte 0x55, an MSA, and 0x54 with an odd count of ones.
fn pattern_of(class: &str) -> Option<u16> {
    match class {
        "data" => Some(0x055),
        "firework" => Some(0x155),
        "broken" => Some(0x054),
        _ => None,
    }
}

/// The screen that is next at the start, or the last one.
fn screen(which: &str) -> Option<u8> {
    match which {
        "first" => Some(0),
        "last" => Some(7),
        _ => None,
    }
}

/// The state in which this screen alone waits, screen 7 being the one last served.
fn waiting(screen: u8) -> State {
    let mut state = screens();
    let [name, file, record] = SHOWN;
    post(&mut state, screen, name, file, record).expect("a good read");
    state
}

/// Slaves with the logical names 1, 2, …
fn named(slaves: usize) -> Vec<u8> {
    files::small(slaves, 2, |slave| slave as u8 + 1)
}

/// The frames of so many reads of record 1 of 0x3D, at each slave in its turn.
fn reads_of(reads: usize, slaves: usize) -> Vec<Vec<u8>> {
    let address = |read: usize| framed(MSA, [read as u8, (read % slaves) as u8 + 1, 0x3D << 2, 1]);
    (0..reads).flat_map(|read| [address(read), vec![MSD]]).collect()
}

/// A naming run, and how many rounds it takes.
fn naming(file: Vec<u8>, names: Vec<u8>) -> Workload {
    let cluster = model::check(&file).expect("an accepted file");
    let rounds = closed_figures(&cluster, &names).rounds;
    Workload::Naming { file, names, rounds }
}

fn run_trace(engine: &dyn Engine, file: &mut [u8], trace: &[u8], frames: u64) {
    let mut report: ReportWords = [0; 5];
    accepted(engine.trace(black_box(file), black_box(trace), &mut report));
    assert_eq!(report, [frames / 2, frames / 2, 0, 0, frames]);
}

fn write_owner_file(engine: &dyn Engine, file: &[u8]) {
    let mut buffer = [0; MOST_OWNER_BYTES];
    write_file(&mut buffer, |buffer, length| engine.owner(black_box(file), MASTER, buffer, length));
}

/// A call that writes a file into a buffer and tells its length.
fn write_file(buffer: &mut [u8], call: impl Fn(&mut [u8], &mut u64) -> u8) {
    let mut length = 0;
    accepted(call(buffer, &mut length));
    black_box((buffer, length));
}

fn post_read(engine: &dyn Engine, mut state: State, screen: u8) {
    accepted(engine.post(black_box(&mut state), black_box(screen), SHOWN));
    black_box(state);
}

fn take_turn(engine: &dyn Engine, file: &mut [u8], mut state: State, answer: &mut [u8], senders: &mut u64) {
    let mut screen = 0;
    let told = Turn { senders, screen: &mut screen };
    accepted(engine.turn(black_box(file), black_box(&mut state), answer, told));
    black_box((state, screen));
}

fn tell_class(engine: &dyn Engine, pattern: u16) {
    let mut kind = 0;
    accepted(engine.pattern(black_box(pattern), &mut kind));
    black_box(kind);
}

/// Makes the run; the rounds it counts.
fn naming_run(engine: &dyn Engine, file: &mut [u8], names: &[u8]) -> u64 {
    let mut run: RunWords = [0; 8];
    let mut answer = [0; 64];
    let mut senders = 0;
    accepted(engine.start(names, &mut run));
    while run[0] == 0 {
        accepted(engine.step(black_box(file), &mut run, black_box(names), &mut answer, &mut senders));
    }
    run[4]
}

/// The same given a summary.
fn naming_run_keeping(engine: &dyn Engine, file: &mut [u8], names: &[u8], held: &mut [u8]) -> u64 {
    let mut run: RunWords = [0; 8];
    let mut answer = [0; 64];
    let mut senders = 0;
    accepted(engine.start(names, &mut run));
    while run[0] == 0 {
        let summary = Summary { count: held.len() as u64, held };
        let (file, names) = (black_box(&mut *file), black_box(names));
        accepted(engine.step_keeping(file, &mut run, names, &mut answer, &mut senders, summary));
    }
    run[4]
}

/// The names of a summary of the file, without room behind them.
fn held_in(file: &[u8]) -> Vec<u8> {
    let cluster = model::check(file).expect("an accepted file");
    cluster.slaves.iter().map(|slave| slave.logical_name().0).collect()
}

fn accepted(number: u8) {
    assert_eq!(number, 0);
}

#[cfg(test)]
mod tests;
