//! What a student hands in: lines `$ ttpa SUBCOMMAND ..`, and below each what he says comes out.

mod marking;

pub use marking::Marked;

use crate::args::{Arguments, Subcommand, SAVE, SVG};
use crate::console::{Console, Look, Stop};
use crate::frames_text::{self, Sent};
use crate::subcommands::name::{ORDERS, RUN};
use crate::subcommands::TABLE;
use crate::text::{quoted, Lines};
use marking::{align, came, is_same};
use std::cell::RefCell;
use std::ffi::{OsStr, OsString};
use std::io::{self, Write};
use std::path::{Component, Path};
use std::rc::Rc;
use std::{env, fs};

/// What may stand on a sheet, with the places of its arguments that are files.
const PERMITTED: [(&str, &[usize]); 7] = [
    ("check", EVERY),
    ("show", &[0]),
    ("frame", &[]),
    ("round", &[0, 1]),
    ("name", &[0]),
    ("trace", &[0, 1]),
    ("owner", &[0]),
];
const EVERY: &[usize] = &[usize::MAX];
/// Options whose value is a file that is read.
const READ_FROM: [&str; 1] = ["--between"];
/// Options that write a file.
const WRITTEN_TO: [&str; 3] = [SAVE.name, RUN, SVG];
/// Commands, and runs of all `--orders` together: more would have the marker wait.
const MOST_COMMANDS: usize = 1_000;
const MOST_ORDERS: u64 = 1_000;
/// Bytes that a command of a sheet may write; the text of the longest cluster file is far below.
const MOST_WRITTEN: usize = 16 << 20;
/// What a sheet lacks that has no frame below `round`.
const A_RECORD: &str = "FRAME > ANSWER, at least once";
/// Words that begin so are a shell's, as `<<END` in a transcript.
const OF_THE_SHELL: [char; 5] = ['<', '>', '|', '&', ';'];
/// Between frame and answer.
const ANSWERED: char = '>';

/// A line `$ ttpa ..` and what stands below it.
pub struct Exercise {
    /// The number of the line.
    pub line: usize,
    subcommand: &'static Subcommand,
    words: Vec<OsString>,
    said: Vec<String>,
}

/// All exercises of a sheet. A line that may not stand there stops it, before anything is run.
pub fn read(lines: &mut Lines) -> Result<Vec<Exercise>, Stop> {
    let mut exercises: Vec<Exercise> = Vec::new();
    while let Some(line) = lines.next_with_words()? {
        let count = exercises.len();
        match (line.strip_prefix('$'), exercises.last_mut()) {
            (Some(_), _) if count == MOST_COMMANDS => {
                return Err(lines.wrong(format!("more than {MOST_COMMANDS} commands")));
            }
            (Some(command), _) => {
                exercises.push(exercise(command, lines.number).map_err(|words| lines.wrong(words))?)
            }
            (None, Some(exercise)) => exercise.said.push(line),
            (None, None) => return Err(lines.wrong("this stands above the first line '$ ttpa ..'".to_string())),
        }
    }
    if exercises.is_empty() {
        return Err(lines.wrong("there is no line '$ ttpa ..'".to_string()));
    }
    Ok(exercises)
}

fn exercise(command: &str, line: usize) -> Result<Exercise, String> {
    let mut words = command.split_whitespace();
    match words.next() {
        Some("ttpa") => {}
        other => return Err(format!("{} stands where 'ttpa' must", quoted(other.unwrap_or_default()))),
    }
    let name = words.next().unwrap_or_default();
    let names = || PERMITTED.map(|(name, _)| name).join(", ");
    let permitted = PERMITTED.iter().find(|(permitted, _)| *permitted == name);
    permitted.ok_or_else(|| format!("{} may not stand on a sheet, only {}", quoted(name), names()))?;
    let subcommand = TABLE.iter().find(|subcommand| subcommand.name == name);
    let subcommand = subcommand.ok_or_else(|| format!("there is no {}", quoted(name)))?;
    let words: Vec<&str> = words.collect();
    if let Some(word) =
        words.iter().find(|word| word.starts_with(OF_THE_SHELL) || **word == "--help" || **word == "-h")
    {
        return Err(format!("{} may not stand on a sheet", quoted(word)));
    }
    Ok(Exercise { line, subcommand, words: words.iter().map(OsString::from).collect(), said: Vec::new() })
}

impl Exercise {
    /// Whether its files are of the present folder, and none is written. Arguments that are not understood are marked as what comes
    /// out of them.
    pub fn hold_to_folder(&self) -> Result<(), String> {
        let Some(arguments) = self.arguments() else { return Ok(()) };
        if let Some(option) = WRITTEN_TO.iter().find(|option| arguments.has(option)) {
            return Err(format!("{option} may not stand on a sheet"));
        }
        let places =
            PERMITTED.iter().find(|(name, _)| *name == self.subcommand.name).map_or(EVERY, |found| found.1);
        let operands = arguments.operands().iter().enumerate();
        let operands = operands.filter(|(place, _)| places == EVERY || places.contains(place));
        let paths = operands.map(|(_, path)| path.as_os_str());
        let read_from = READ_FROM.iter().filter_map(|option| arguments.value(option));
        paths.chain(read_from).try_for_each(hold_to_folder)
    }

    /// Counts the runs of `--orders` with those of the exercises before.
    pub fn hold_orders(&self, before: &mut u64) -> Result<(), String> {
        let Some(arguments) = self.arguments() else { return Ok(()) };
        let orders = arguments.value(ORDERS).and_then(|word| word.to_string_lossy().parse::<u64>().ok());
        *before = before.saturating_add(orders.unwrap_or(0));
        if *before > MOST_ORDERS {
            return Err(format!("{ORDERS} above {MOST_ORDERS} in all may not stand on a sheet"));
        }
        Ok(())
    }

    /// None where they are not understood, or help is asked for.
    fn arguments(&self) -> Option<Arguments> {
        Arguments::parse(self.subcommand, self.words.clone()).ok().flatten()
    }

    /// The lines of the sheet below the command, each with what comes out.
    pub fn mark(&self) -> Vec<Marked> {
        if self.subcommand.name == "round" && self.takes_frames() {
            return self.mark_round();
        }
        align(&self.said, &came(&self.run(&[]).all))
    }

    /// Whether the frames in front of the answers are the input.
    fn takes_frames(&self) -> bool {
        self.arguments().is_some_and(|arguments| arguments.operand(1).is_none())
    }

    /// The frame in front of each answer is sent; of a read, write or execute the answer is that to its data frame. One without an answer
    /// is sent too, so that the others are answered as they would be.
    fn mark_round(&self) -> Vec<Marked> {
        let is_record = |line: &&String| line.contains(ANSWERED) || frames_in(line).is_ok();
        let sent: Vec<(&String, Result<usize, String>)> =
            self.said.iter().filter(is_record).map(|line| (line, frames_in(front(line)))).collect();
        let good = sent.iter().filter(|(_, frames)| frames.is_ok());
        let input: String = good.map(|(line, _)| format!("{}\n", front(line))).collect();
        let written = self.run(input.as_bytes());
        let (mut records, messages) = (written.results.lines(), came(&written.messages));
        let mut marked: Vec<Marked> = Vec::new();
        if sent.is_empty() && messages.is_empty() {
            marked.push(Marked { said: None, is: Some(A_RECORD.to_string()) });
        }
        for (line, frames) in sent {
            marked.push(match frames {
                Err(words) => Marked { said: Some(line.clone()), is: Some(format!("no frame: {words}")) },
                Ok(frames) => mark_record(line, records.by_ref().take(frames).last()),
            });
        }
        let plain: Vec<String> = self.said.iter().filter(|line| !is_record(line)).cloned().collect();
        marked.extend(align(&plain, &messages));
        marked
    }

    /// All that the subcommand writes, as on a terminal without colour.
    fn run(&self, mut input: &[u8]) -> Written {
        let all = Rc::new(RefCell::new(Vec::new()));
        let captured = || Captured { own: Vec::new(), all: Rc::clone(&all) };
        let (mut output, mut messages) = (captured(), captured());
        let mut console =
            Console { input: &mut input, output: &mut output, messages: &mut messages, look: Look::default() };
        let outcome =
            Arguments::parse(self.subcommand, self.words.clone()).and_then(|arguments| match arguments {
                Some(arguments) => (self.subcommand.run)(&arguments, &mut console).map(|_| ()),
                None => Ok(()),
            });
        if let Err(stop) = outcome {
            console.tell_stop(stop);
        }
        let text = |bytes: &[u8]| String::from_utf8_lossy(bytes).into_owned();
        let both = text(&all.borrow());
        Written { results: text(&output.own), messages: text(&messages.own), all: both }
    }
}

/// What stands in front of the answer.
fn front(line: &str) -> &str {
    line.split(ANSWERED).next().unwrap_or_default().trim()
}

fn behind(line: &str) -> Option<&str> {
    line.split_once(ANSWERED).map(|(_, answer)| answer.trim())
}

/// How many records come of a line of frames.
fn frames_in(line: &str) -> Result<usize, String> {
    Ok(match frames_text::read(line)? {
        Sent::Frame(frame) if frame.is_empty() => return Err("nothing stands in front of '>'".to_string()),
        Sent::Frame(_) => 1,
        Sent::MasterSlave(round) => frames_text::frames(round, 0).map_or(1, |frames| frames.len()),
    })
}

fn mark_record(line: &str, record: Option<&str>) -> Marked {
    let answer = record.and_then(behind);
    let right = answer.zip(behind(line)).is_some_and(|(answer, said)| is_same(said, answer));
    let is = answer.unwrap_or("nothing").to_string();
    Marked { said: Some(line.to_string()), is: (!right).then_some(is) }
}

/// A file of the present folder or one below it, also by where links lead.
fn hold_to_folder(path: &OsStr) -> Result<(), String> {
    let outside = || format!("{} is no file of the folder", quoted(&path.to_string_lossy()));
    let inside = |part: Component| matches!(part, Component::Normal(_) | Component::CurDir);
    if path.is_empty() || path == crate::files::DASH || !Path::new(path).components().all(inside) {
        return Err(outside());
    }
    // one that is not there is told by the subcommand
    let Ok(real) = fs::canonicalize(path) else { return Ok(()) };
    let folder = env::current_dir().and_then(fs::canonicalize).map_err(|_| outside())?;
    if real.starts_with(folder) && real.is_file() {
        Ok(())
    } else {
        Err(outside())
    }
}

/// What a subcommand wrote: each output by itself, and both in the order in which they were written.
struct Written {
    results: String,
    messages: String,
    all: String,
}

/// One of the two outputs of a subcommand.
struct Captured {
    own: Vec<u8>,
    all: Rc<RefCell<Vec<u8>>>,
}

impl Write for Captured {
    fn write(&mut self, bytes: &[u8]) -> io::Result<usize> {
        if self.own.len() + bytes.len() > MOST_WRITTEN {
            return Err(io::Error::other("more than may be written for a sheet"));
        }
        self.own.extend(bytes);
        self.all.borrow_mut().extend(bytes);
        Ok(bytes.len())
    }

    fn flush(&mut self) -> io::Result<()> {
        Ok(())
    }
}
