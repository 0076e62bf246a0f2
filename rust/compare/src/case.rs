//! One call as a line of text: `round FILE FRAME answer-length = number mask FILE-after ANSWER-after`.
//!
//! Bytes are hexadecimal and `-` is none; other numbers are decimal, masks sixteen hexadecimal digits. The
//! answer buffer, and that for an owner file, a converted file, a joined one or a slave's, hold EE throughout before the call. A mask, a
//! report, a length, a count or a screen that the call leaves alone is shown as 0, the place of a holder as `-` where nobody
//! holds the name.

use crate::editions::{holds_in_other_edition, in_other_edition};
use crate::engine::{Engine, ReportWords, RunWords, State, Summary, Turn, NOBODY};
use crate::layout::{slaves_place, sleepers_of};
use crate::sorts::tally::Tally;
use crate::two_lists::{self, TWO};
use model::Edition;
use std::fmt;

/// What lent memory holds before a call, so that a byte too many shows.
pub const FILL: u8 = 0xEE;
const SENDERS_BEFORE: u64 = 0xEEEE_EEEE_EEEE_EEEE;
const LENGTH_BEFORE: u64 = SENDERS_BEFORE;
const COUNT_BEFORE: u64 = SENDERS_BEFORE;
const PLACE_BEFORE: u64 = SENDERS_BEFORE;
const RUN_BEFORE: RunWords = [SENDERS_BEFORE; 8];
/// A report's five words between two that are not lent, so that a word too many shows.
type FencedReport = [u64; 7];
const REPORT_BEFORE: FencedReport = [SENDERS_BEFORE; 7];
/// A state of screens between two bytes that are not lent, likewise.
type FencedState = [u8; 35];
const STATE_BEFORE: FencedState = [FILL; 35];
const ROUND_KEEPING: &str = "round-keeping";
const STEP_KEEPING: &str = "step-keeping";
const TO_EDITION_1: &str = "to-edition-1";
const TO_EDITION_2: &str = "to-edition-2";
/// The kind of a case that holds the classes of the patterns from one on.
const PATTERNS: &str = "patterns";
/// The kind of a case that holds what the listing program writes.
pub const LISTING: &str = "list";

/// The arguments of a call.
#[derive(Clone, Debug, PartialEq, Eq)]
pub enum Call {
    Check {
        file: Vec<u8>,
    },
    Read {
        frame: Vec<u8>,
    },
    Write {
        buffer: Vec<u8>,
        parts: [u8; 5],
    },
    Data {
        buffer: Vec<u8>,
        data: [u8; 4],
    },
    Round {
        file: Vec<u8>,
        frame: Vec<u8>,
        answer_length: usize,
    },
    Start {
        names: Vec<u8>,
    },
    Step {
        file: Vec<u8>,
        names: Vec<u8>,
        run: RunWords,
        answer_length: usize,
    },
    Trace {
        file: Vec<u8>,
        trace: Vec<u8>,
    },
    Owner {
        file: Vec<u8>,
        master: u8,
        buffer_length: usize,
    },
    Convert {
        file: Vec<u8>,
        edition: Edition,
        buffer_length: usize,
    },
    Fill {
        file: Vec<u8>,
        held: Vec<u8>,
    },
    Holder {
        held: Vec<u8>,
        count: u64,
        name: u8,
    },
    /// A round or a step that is given a summary.
    Keeping {
        call: Box<Call>,
        held: Vec<u8>,
        count: u64,
    },
    /// The state of screens at the start.
    Screens,
    Post {
        state: State,
        screen: u8,
        /// Name, file and record.
        read: [u8; 3],
    },
    Turn {
        file: Vec<u8>,
        state: State,
        answer_length: usize,
    },
    Join {
        first: Vec<u8>,
        second: Vec<u8>,
        buffer_length: usize,
    },
    /// A nine-bit pattern of the line.
    Pattern {
        pattern: u16,
    },
    /// A slave's file, read.
    Contents {
        file: Vec<u8>,
        slave: u64,
        number: u8,
        buffer_length: usize,
    },
}

/// Everything a call answers and leaves in lent memory; None is memory that was not lent.
#[derive(Clone, Debug, PartialEq, Eq, Default)]
pub struct Outcome {
    pub number: u8,
    pub senders: Option<u64>,
    pub file: Option<Vec<u8>>,
    /// The frame buffer of a writer, the answer buffer, or the buffer for an owner file, a converted file, a joined one or a
    /// slave's.
    pub buffer: Option<Vec<u8>>,
    pub parts: Option<[u8; 5]>,
    pub run: Option<RunWords>,
    pub report: Option<FencedReport>,
    pub length: Option<u64>,
    /// The slice of a summary, the count that its filling tells, and the place of a holder.
    pub held: Option<Vec<u8>>,
    pub count: Option<u64>,
    pub place: Option<u64>,
    pub state: Option<FencedState>,
    /// The screen that a turn served.
    pub screen: Option<u8>,
    /// The class of a line pattern.
    pub class: Option<u8>,
}

impl Outcome {
    /// The mask, where the call set it.
    pub fn mask(&self) -> u64 {
        self.senders.filter(|&senders| senders != SENDERS_BEFORE).unwrap_or(0)
    }

    /// The report of a trace that was run.
    pub fn report_words(&self) -> Option<ReportWords> {
        let [_, msa, msd, multipartner, refused, sum, _] = self.report.filter(|_| self.number == 0)?;
        Some([msa, msd, multipartner, refused, sum])
    }

    /// The same with this report.
    pub fn with_report(mut self, words: ReportWords) -> Outcome {
        *lent_report(&mut self.report) = words;
        self
    }

    /// How many bytes of an owner file, a converted file or a joined one were written, or a slave's file has.
    pub fn written(&self) -> Option<u64> {
        self.length.filter(|_| self.number == 0)
    }

    /// These bytes.
    pub fn bytes_written(&self) -> Option<&[u8]> {
        self.buffer.as_deref()?.get(..self.written()? as usize)
    }

    /// How many names a summary was filled with.
    pub fn filled(&self) -> Option<u64> {
        self.count.filter(|_| self.number == 0)
    }

    /// The place of the holder, where there is one.
    pub fn holder(&self) -> Option<u64> {
        self.place.filter(|&place| self.number == 0 && place != NOBODY)
    }

    /// The state of screens that was left.
    pub fn state_left(&self) -> State {
        *lent_state(&mut self.state.clone())
    }

    /// The same with this state.
    pub fn with_state(mut self, state: State) -> Outcome {
        self.state = Some(fenced(state));
        self
    }

    /// What a turn told: the screen served, or `NO_SCREEN`.
    pub fn served(&self) -> Option<u8> {
        self.screen.filter(|_| self.number == 0)
    }

    /// The class of a line pattern that was told.
    pub fn told(&self) -> Option<u8> {
        self.class.filter(|_| self.number == 0)
    }

    /// Whether a byte of a slave's files is another than before: what lies behind the table, whose bytes tell who sleeps.
    pub fn alters_slaves(&self, before: &[u8]) -> bool {
        let files = slaves_place(before);
        self.file.as_deref().is_some_and(|after| after.get(files..) != before.get(files..))
    }

    /// Who sleeps in the file that was left, if it is an accepted one.
    pub fn sleepers(&self) -> Vec<bool> {
        self.file.as_deref().map(sleepers_of).unwrap_or_default()
    }
}

impl Call {
    pub fn kind(&self) -> &'static str {
        match self {
            Call::Check { .. } => "check",
            Call::Read { .. } => "read",
            Call::Write { .. } => "write",
            Call::Data { .. } => "data",
            Call::Round { .. } => "round",
            Call::Start { .. } => "start",
            Call::Step { .. } => "step",
            Call::Trace { .. } => "trace",
            Call::Owner { .. } => "owner",
            Call::Convert { edition: Edition::One, .. } => TO_EDITION_1,
            Call::Convert { edition: Edition::Two, .. } => TO_EDITION_2,
            Call::Fill { .. } => "fill",
            Call::Holder { .. } => "holder",
            Call::Keeping { call, .. } => match **call {
                Call::Round { .. } => ROUND_KEEPING,
                _ => STEP_KEEPING,
            },
            Call::Screens => "screens",
            Call::Post { .. } => "post",
            Call::Turn { .. } => "turn",
            Call::Join { .. } => "join",
            Call::Pattern { .. } => "pattern",
            Call::Contents { .. } => "contents",
        }
    }

    /// The cluster file that is handed in; of two the first.
    pub fn file(&self) -> Option<&[u8]> {
        match self {
            Call::Check { file }
            | Call::Round { file, .. }
            | Call::Step { file, .. }
            | Call::Trace { file, .. }
            | Call::Owner { file, .. }
            | Call::Convert { file, .. }
            | Call::Fill { file, .. }
            | Call::Turn { file, .. }
            | Call::Contents { file, .. }
            | Call::Join { first: file, .. } => Some(file),
            Call::Keeping { call, .. } => call.file(),
            Call::Read { .. }
            | Call::Write { .. }
            | Call::Data { .. }
            | Call::Start { .. }
            | Call::Holder { .. }
            | Call::Screens
            | Call::Post { .. }
            | Call::Pattern { .. } => None,
        }
    }

    /// The same call on this file in place of its own; None for one that has none, or two.
    pub fn on(&self, other: Vec<u8>) -> Option<Call> {
        let mut call = self.clone();
        match &mut call {
            Call::Check { file }
            | Call::Round { file, .. }
            | Call::Step { file, .. }
            | Call::Trace { file, .. }
            | Call::Owner { file, .. }
            | Call::Convert { file, .. }
            | Call::Fill { file, .. }
            | Call::Contents { file, .. }
            | Call::Turn { file, .. } => *file = other,
            Call::Keeping { call, .. } => **call = call.on(other)?,
            _ => return None,
        }
        Some(call)
    }

    /// The same round or step, given a summary.
    pub fn keeping(self, held: &[u8], count: u64) -> Call {
        assert!(matches!(self, Call::Round { .. } | Call::Step { .. }));
        Call::Keeping { call: Box::new(self), held: held.to_vec(), count }
    }

    pub fn make(&self, engine: &dyn Engine) -> Outcome {
        let mut outcome = self.before();
        outcome.number = match self {
            Call::Check { file } => engine.check(file),
            Call::Read { frame } => engine.read_address(frame, lent(&mut outcome.parts)),
            Call::Write { parts, .. } => engine.write_address(lent_bytes(&mut outcome.buffer), *parts),
            Call::Data { data, .. } => engine.write_data(lent_bytes(&mut outcome.buffer), *data),
            Call::Round { frame, .. } => engine.round(
                lent_bytes(&mut outcome.file),
                frame,
                lent_bytes(&mut outcome.buffer),
                lent(&mut outcome.senders),
            ),
            Call::Start { names } => engine.start(names, lent(&mut outcome.run)),
            Call::Step { names, .. } => engine.step(
                lent_bytes(&mut outcome.file),
                lent(&mut outcome.run),
                names,
                lent_bytes(&mut outcome.buffer),
                lent(&mut outcome.senders),
            ),
            Call::Trace { trace, .. } => {
                engine.trace(lent_bytes(&mut outcome.file), trace, lent_report(&mut outcome.report))
            }
            Call::Owner { file, master, .. } => {
                engine.owner(file, *master, lent_bytes(&mut outcome.buffer), lent(&mut outcome.length))
            }
            Call::Convert { file, edition, .. } => {
                engine.to_edition(file, *edition, lent_bytes(&mut outcome.buffer), lent(&mut outcome.length))
            }
            Call::Fill { file, .. } => {
                engine.fill(file, lent_bytes(&mut outcome.held), lent(&mut outcome.count))
            }
            Call::Holder { held, count, name } => engine.holder(held, *count, *name, lent(&mut outcome.place)),
            Call::Keeping { call, count, .. } => call.make_keeping(engine, *count, &mut outcome),
            Call::Screens | Call::Post { .. } | Call::Turn { .. } => self.make_sharing(engine, &mut outcome),
            Call::Join { first, second, .. } => {
                engine.join(first, second, lent_bytes(&mut outcome.buffer), lent(&mut outcome.length))
            }
            Call::Pattern { pattern } => engine.pattern(*pattern, lent(&mut outcome.class)),
            Call::Contents { file, slave, number, .. } => engine.contents(
                file,
                *slave,
                *number,
                lent_bytes(&mut outcome.buffer),
                lent(&mut outcome.length),
            ),
        };
        outcome
    }

    /// A call on a state of screens.
    fn make_sharing(&self, engine: &dyn Engine, outcome: &mut Outcome) -> u8 {
        let state = lent_state(&mut outcome.state);
        match self {
            Call::Screens => engine.screens(state),
            Call::Post { screen, read, .. } => engine.post(state, *screen, *read),
            Call::Turn { .. } => {
                let told = Turn { senders: lent(&mut outcome.senders), screen: lent(&mut outcome.screen) };
                engine.turn(lent_bytes(&mut outcome.file), state, lent_bytes(&mut outcome.buffer), told)
            }
            _ => unreachable!("a call on a state of screens"),
        }
    }

    fn make_keeping(&self, engine: &dyn Engine, count: u64, outcome: &mut Outcome) -> u8 {
        let Outcome { senders, file, buffer, run, held, .. } = outcome;
        let summary = Summary { held: lent_bytes(held), count };
        match self {
            Call::Step { names, .. } => engine.step_keeping(
                lent_bytes(file),
                lent(run),
                names,
                lent_bytes(buffer),
                lent(senders),
                summary,
            ),
            Call::Round { frame, .. } => {
                engine.round_keeping(lent_bytes(file), frame, lent_bytes(buffer), lent(senders), summary)
            }
            _ => unreachable!("a round or a step"),
        }
    }

    /// Lent memory before the call: what a refusal has to leave.
    pub fn before(&self) -> Outcome {
        let nothing = Outcome::default();
        let answer = |length: usize| Some(vec![FILL; length]);
        match self {
            Call::Check { .. } => nothing,
            Call::Read { .. } => Outcome { parts: Some([FILL; 5]), ..nothing },
            Call::Write { buffer, .. } | Call::Data { buffer, .. } => {
                Outcome { buffer: Some(buffer.clone()), ..nothing }
            }
            Call::Round { file, answer_length, .. } => Outcome {
                senders: Some(SENDERS_BEFORE),
                file: Some(file.clone()),
                buffer: answer(*answer_length),
                ..nothing
            },
            Call::Start { .. } => Outcome { run: Some(RUN_BEFORE), ..nothing },
            Call::Step { file, run, answer_length, .. } => Outcome {
                senders: Some(SENDERS_BEFORE),
                file: Some(file.clone()),
                buffer: answer(*answer_length),
                run: Some(*run),
                ..nothing
            },
            Call::Trace { file, .. } => {
                Outcome { file: Some(file.clone()), report: Some(REPORT_BEFORE), ..nothing }
            }
            Call::Owner { buffer_length, .. }
            | Call::Convert { buffer_length, .. }
            | Call::Contents { buffer_length, .. }
            | Call::Join { buffer_length, .. } => {
                Outcome { buffer: answer(*buffer_length), length: Some(LENGTH_BEFORE), ..nothing }
            }
            Call::Fill { held, .. } => {
                Outcome { held: Some(held.clone()), count: Some(COUNT_BEFORE), ..nothing }
            }
            Call::Holder { .. } => Outcome { place: Some(PLACE_BEFORE), ..nothing },
            Call::Keeping { call, held, .. } => Outcome { held: Some(held.clone()), ..call.before() },
            Call::Screens => Outcome { state: Some(STATE_BEFORE), ..nothing },
            Call::Post { state, .. } => nothing.with_state(*state),
            Call::Turn { file, state, answer_length } => before_turn(file, *answer_length).with_state(*state),
            Call::Pattern { .. } => Outcome { class: Some(FILL), ..nothing },
        }
    }

    /// The call with its outcome, as a case that can be kept.
    pub fn line(&self, outcome: &Outcome) -> String {
        format!("{self} = {}", self.result(outcome))
    }

    fn result(&self, outcome: &Outcome) -> String {
        let accepted = outcome.number == 0;
        let mask = outcome.mask();
        let number = outcome.number;
        let told = |words: String| format!("{number} {words}");
        match self {
            Call::Read { .. } if accepted => told(decimals(&outcome.parts.unwrap_or([0; 5]), " ")),
            Call::Write { .. } | Call::Data { .. } => told(after(&outcome.buffer)),
            Call::Round { .. } => {
                format!("{number} {mask:016X} {} {}", after(&outcome.file), after(&outcome.buffer))
            }
            Call::Start { .. } if accepted => told(decimals(&outcome.run.unwrap_or([0; 8]), " ")),
            Call::Step { .. } => format!(
                "{number} {mask:016X} {} {} {}",
                after(&outcome.file),
                decimals(&outcome.run.unwrap_or([0; 8]), ","),
                after(&outcome.buffer)
            ),
            Call::Trace { .. } => {
                let report = outcome.report_words().unwrap_or([0; 5]);
                format!("{number} {} {}", decimals(&report, " "), after(&outcome.file))
            }
            Call::Owner { .. } | Call::Convert { .. } | Call::Join { .. } | Call::Contents { .. } => {
                format!("{number} {} {}", outcome.written().unwrap_or(0), after(&outcome.buffer))
            }
            Call::Fill { .. } => {
                format!("{number} {} {}", outcome.filled().unwrap_or(0), after(&outcome.held))
            }
            Call::Holder { .. } if accepted => told(place(outcome)),
            Call::Check { .. } | Call::Read { .. } | Call::Start { .. } | Call::Holder { .. } => {
                format!("{number}")
            }
            Call::Keeping { call, .. } => format!("{} {}", call.result(outcome), after(&outcome.held)),
            Call::Screens => hex(&outcome.state_left()),
            Call::Post { .. } => told(hex(&outcome.state_left())),
            Call::Turn { .. } => turn_words(outcome),
            Call::Pattern { .. } => match outcome.told() {
                Some(class) => format!("{number} {class}"),
                None => format!("{number}"),
            },
        }
    }

    /// Reads the part of a case left of its `=`.
    pub fn parse(text: &str) -> Option<Call> {
        let words: Vec<&str> = text.split_whitespace().collect();
        Call::of_words(&words)
    }

    /// The call of this kind and these words, given a summary.
    fn given(held: &str, count: &str, kind: &str, words: &[&str]) -> Option<Call> {
        let call = Call::of_words(&[&[kind], words].concat())?;
        Some(call.keeping(&bytes(held)?, count.parse().ok()?))
    }

    fn converting(file: &str, edition: Edition, length: &str) -> Option<Call> {
        Some(Call::Convert { file: bytes(file)?, edition, buffer_length: length.parse().ok()? })
    }

    fn of_words(words: &[&str]) -> Option<Call> {
        match *words {
            ["check", file] => Some(Call::Check { file: bytes(file)? }),
            ["read", frame] => Some(Call::Read { frame: bytes(frame)? }),
            ["write", buffer, ref parts @ ..] => {
                Some(Call::Write { buffer: bytes(buffer)?, parts: numbers(parts)? })
            }
            ["data", buffer, ref data @ ..] => {
                Some(Call::Data { buffer: bytes(buffer)?, data: numbers(data)? })
            }
            ["round", file, frame, length] => Some(Call::Round {
                file: bytes(file)?,
                frame: bytes(frame)?,
                answer_length: length.parse().ok()?,
            }),
            ["start", names] => Some(Call::Start { names: bytes(names)? }),
            ["step", file, names, run, length] => Some(Call::Step {
                file: bytes(file)?,
                names: bytes(names)?,
                run: numbers(&run.split(',').collect::<Vec<&str>>())?,
                answer_length: length.parse().ok()?,
            }),
            ["trace", file, trace] => Some(Call::Trace { file: bytes(file)?, trace: bytes(trace)? }),
            ["owner", file, master, length] => Some(Call::Owner {
                file: bytes(file)?,
                master: master.parse().ok()?,
                buffer_length: length.parse().ok()?,
            }),
            [TO_EDITION_1, file, length] => Call::converting(file, Edition::One, length),
            [TO_EDITION_2, file, length] => Call::converting(file, Edition::Two, length),
            ["fill", file, held] => Some(Call::Fill { file: bytes(file)?, held: bytes(held)? }),
            ["holder", held, count, name] => {
                Some(Call::Holder { held: bytes(held)?, count: count.parse().ok()?, name: name.parse().ok()? })
            }
            [ROUND_KEEPING, ref words @ .., held, count] => Call::given(held, count, "round", words),
            [STEP_KEEPING, ref words @ .., held, count] => Call::given(held, count, "step", words),
            _ => Call::sharing(words),
        }
    }

    /// A call on a state of screens.
    fn sharing(words: &[&str]) -> Option<Call> {
        match *words {
            ["screens"] => Some(Call::Screens),
            ["post", state, screen, ref read @ ..] => Some(Call::Post {
                state: bytes(state)?.try_into().ok()?,
                screen: screen.parse().ok()?,
                read: numbers(read)?,
            }),
            ["turn", file, state, length] => Some(Call::Turn {
                file: bytes(file)?,
                state: bytes(state)?.try_into().ok()?,
                answer_length: length.parse().ok()?,
            }),
            ["join", first, second, length] => Some(Call::Join {
                first: bytes(first)?,
                second: bytes(second)?,
                buffer_length: length.parse().ok()?,
            }),
            ["pattern", pattern] => Some(Call::Pattern { pattern: pattern.parse().ok()? }),
            ["contents", file, slave, number, length] => Some(Call::Contents {
                file: bytes(file)?,
                slave: slave.parse().ok()?,
                number: number.parse().ok()?,
                buffer_length: length.parse().ok()?,
            }),
            _ => None,
        }
    }
}

impl fmt::Display for Call {
    fn fmt(&self, out: &mut fmt::Formatter) -> fmt::Result {
        match self {
            Call::Screens => write!(out, "{}", self.kind()),
            _ => write!(out, "{} {}", self.kind(), self.arguments()),
        }
    }
}

impl Call {
    /// The words of a case between its kind and its `=`.
    fn arguments(&self) -> String {
        match self {
            Call::Check { file } => hex(file),
            Call::Read { frame } => hex(frame),
            Call::Write { buffer, parts } => format!("{} {}", hex(buffer), decimals(parts, " ")),
            Call::Data { buffer, data } => format!("{} {}", hex(buffer), decimals(data, " ")),
            Call::Round { file, frame, answer_length } => {
                format!("{} {} {answer_length}", hex(file), hex(frame))
            }
            Call::Start { names } => hex(names),
            Call::Step { file, names, run, answer_length } => {
                format!("{} {} {} {answer_length}", hex(file), hex(names), decimals(run, ","))
            }
            Call::Trace { file, trace } => format!("{} {}", hex(file), hex(trace)),
            Call::Owner { file, master, buffer_length } => {
                format!("{} {master} {buffer_length}", hex(file))
            }
            Call::Convert { file, buffer_length, .. } => format!("{} {buffer_length}", hex(file)),
            Call::Fill { file, held } => format!("{} {}", hex(file), hex(held)),
            Call::Holder { held, count, name } => format!("{} {count} {name}", hex(held)),
            Call::Keeping { call, held, count } => format!("{} {} {count}", call.arguments(), hex(held)),
            Call::Screens => String::new(),
            Call::Post { state, screen, read } => {
                format!("{} {screen} {}", hex(state), decimals(read, " "))
            }
            Call::Turn { file, state, answer_length } => {
                format!("{} {} {answer_length}", hex(file), hex(state))
            }
            Call::Join { first, second, buffer_length } => {
                format!("{} {} {buffer_length}", hex(first), hex(second))
            }
            Call::Pattern { pattern } => pattern.to_string(),
            Call::Contents { file, slave, number, buffer_length } => {
                format!("{} {slave} {number} {buffer_length}", hex(file))
            }
        }
    }
}

/// What came of the kept cases of a text.
#[derive(Default)]
pub struct Held {
    /// The calls of the cases that hold, and their pairs of lists.
    pub tally: Tally,
    pub passed: u64,
    /// Those of them that hold on the file in the other edition too.
    pub turned: u64,
    /// What differs, one text a case.
    pub wrong: Vec<String>,
}

/// Makes the call of every kept case, or the runs of one about two lists, where its file is accepted and the other edition
/// can hold it also on the file in that edition. Listings are no call of an engine and are left out.
pub fn hold_all(engine: &dyn Engine, text: &str) -> Held {
    let mut held = Held::default();
    for line in text.lines().filter(|line| kind_of(line) != LISTING) {
        let turned = match kind_of(line) {
            TWO => held.two_lists(engine, line),
            PATTERNS => held.patterns(engine, line),
            _ => held.call(engine, line),
        };
        match turned {
            Ok(in_other_edition) => {
                held.passed += 1;
                held.turned += u64::from(in_other_edition.is_some());
                if in_other_edition == Some(false) {
                    held.wrong.push(format!("in the other edition it does not hold: {line}"));
                }
            }
            Err(what) => held.wrong.push(what),
        }
    }
    held
}

impl Held {
    /// Whether the call of a case that holds does so in the other edition too, where there is one; or what differs.
    fn call(&mut self, engine: &dyn Engine, line: &str) -> Result<Option<bool>, String> {
        let (call, outcome) = hold_against(engine, line)?;
        self.tally.note(&call, &outcome);
        let turned = !in_other_edition(&call, &outcome).is_empty();
        Ok(turned.then(|| holds_in_other_edition(engine, &call, &outcome)))
    }

    /// The same of the runs of a case about two lists.
    fn two_lists(&mut self, engine: &dyn Engine, line: &str) -> Result<Option<bool>, String> {
        let (lists, runs) = two_lists::hold_against(engine, line)?;
        self.tally.note_two_lists(&lists, &runs);
        Ok(two_lists::hold_in_other_edition(engine, &lists, &runs))
    }

    /// A case about the patterns from one on: the class of each is a digit, and each is a call of its own.
    fn patterns(&mut self, engine: &dyn Engine, line: &str) -> Result<Option<bool>, String> {
        let (left, classes) = line.split_once(" = ").ok_or("a case has a '='")?;
        let from = left.split_once(' ').and_then(|(_, from)| from.parse::<u16>().ok()).ok_or("no pattern")?;
        for (pattern, class) in (from..).zip(classes.trim_end().chars()) {
            let (call, outcome) = hold_against(engine, &format!("pattern {pattern} = 0 {class}"))?;
            self.tally.note(&call, &outcome);
        }
        Ok(None)
    }
}

/// A kept case: the call and what came of it, or what differs. An engine passes when the line it gives is the line that
/// was kept and a refusal has left lent memory alone.
fn hold_against(engine: &dyn Engine, line: &str) -> Result<(Call, Outcome), String> {
    let (left, _) = line.split_once('=').ok_or("a case has a '='")?;
    let call = Call::parse(left).ok_or("no call of the known kinds")?;
    let outcome = call.make(engine);
    let given = call.line(&outcome);
    if given != line.trim_end() {
        return Err(format!("expected {line}\n     got {given}"));
    }
    if outcome.number != 0 && (Outcome { number: 0, ..outcome.clone() }) != call.before() {
        return Err(format!("a refusal altered lent memory: {line}"));
    }
    Ok((call, outcome))
}

/// The first word of a case.
pub fn kind_of(line: &str) -> &str {
    line.split(' ').next().unwrap_or(line)
}

/// Lent memory before a turn, its state aside.
fn before_turn(file: &[u8], answer_length: usize) -> Outcome {
    Outcome {
        senders: Some(SENDERS_BEFORE),
        file: Some(file.to_vec()),
        buffer: Some(vec![FILL; answer_length]),
        screen: Some(FILL),
        ..Outcome::default()
    }
}

/// What a turn answers and leaves.
fn turn_words(outcome: &Outcome) -> String {
    let (number, screen, mask) = (outcome.number, outcome.served().unwrap_or(0), outcome.mask());
    let (file, state) = (after(&outcome.file), hex(&outcome.state_left()));
    format!("{number} {screen} {mask:016X} {file} {state} {}", after(&outcome.buffer))
}

/// Bytes that were left, none where none were lent.
fn after(bytes: &Option<Vec<u8>>) -> String {
    hex(bytes.as_deref().unwrap_or(&[]))
}

/// The place of the holder, `-` where nobody holds the name.
fn place(outcome: &Outcome) -> String {
    outcome.holder().map_or("-".to_string(), |place| place.to_string())
}

fn lent<T>(memory: &mut Option<T>) -> &mut T {
    memory.as_mut().expect("memory of this call")
}

fn lent_report(fenced: &mut Option<FencedReport>) -> &mut ReportWords {
    (&mut lent(fenced)[1..6]).try_into().expect("five words")
}

/// A state between its two further bytes.
fn fenced(state: State) -> FencedState {
    let mut fenced = STATE_BEFORE;
    fenced[1..34].copy_from_slice(&state);
    fenced
}

fn lent_state(fenced: &mut Option<FencedState>) -> &mut State {
    (&mut lent(fenced)[1..34]).try_into().expect("33 bytes")
}

fn lent_bytes(memory: &mut Option<Vec<u8>>) -> &mut [u8] {
    lent(memory).as_mut_slice()
}

pub fn hex(bytes: &[u8]) -> String {
    if bytes.is_empty() {
        return "-".to_string();
    }
    bytes.iter().map(|byte| format!("{byte:02X}")).collect()
}

pub fn bytes(text: &str) -> Option<Vec<u8>> {
    if text == "-" {
        return Some(Vec::new());
    }
    if !text.len().is_multiple_of(2) {
        return None;
    }
    (0..text.len() / 2).map(|i| u8::from_str_radix(text.get(2 * i..2 * i + 2)?, 16).ok()).collect()
}

fn decimals<T: fmt::Display>(numbers: &[T], between: &str) -> String {
    numbers.iter().map(T::to_string).collect::<Vec<String>>().join(between)
}

fn numbers<T: std::str::FromStr + Copy, const N: usize>(words: &[&str]) -> Option<[T; N]> {
    let read: Option<Vec<T>> = words.iter().map(|word| word.parse().ok()).collect();
    read?.try_into().ok()
}
