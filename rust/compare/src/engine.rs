//! The calls that outside code makes, each with the lent buffers of the C call and its number as answer.

pub use model::{Edition, State};

/// End, index, step, value, rounds, comparisons, and the high and the low half last written.
pub type RunWords = [u64; 8];
/// Of the frames of a trace the numbers of MSA, MSD, multipartner and refused ones, and their sum.
pub type ReportWords = [u64; 5];

/// A summary handed in: the lent slice and the count.
pub struct Summary<'a> {
    pub held: &'a mut [u8],
    pub count: u64,
}

/// The place of a holder where there is none.
pub const NOBODY: u64 = u64::MAX;

/// What a turn writes beside file, state and answer.
pub struct Turn<'a> {
    pub senders: &'a mut u64,
    pub screen: &'a mut u8,
}

/// The screen served where none waited.
pub const NO_SCREEN: u8 = 8;

/// The classes of a line pattern.
pub const DATA_BYTE: u8 = 0;
pub const FIREWORK: u8 = 1;
pub const BROKEN: u8 = 2;

/// One implementation of the twenty-one calls, the version's aside. 0 is "carried out", every other number a refusal.
pub trait Engine {
    /// What the comparison says it ran against.
    fn name(&self) -> &'static str;
    fn check(&self, file: &[u8]) -> u8;
    fn read_address(&self, frame: &[u8], parts: &mut [u8; 5]) -> u8;
    fn write_address(&self, frame: &mut [u8], parts: [u8; 5]) -> u8;
    fn write_data(&self, frame: &mut [u8], data: [u8; 4]) -> u8;
    fn round(&self, file: &mut [u8], frame: &[u8], answer: &mut [u8], senders: &mut u64) -> u8;
    fn start(&self, names: &[u8], run: &mut RunWords) -> u8;
    fn step(
        &self,
        file: &mut [u8],
        run: &mut RunWords,
        names: &[u8],
        answer: &mut [u8],
        senders: &mut u64,
    ) -> u8;
    fn trace(&self, file: &mut [u8], trace: &[u8], report: &mut ReportWords) -> u8;
    fn owner(&self, file: &[u8], master: u8, buffer: &mut [u8], length: &mut u64) -> u8;
    fn to_edition(&self, file: &[u8], edition: Edition, buffer: &mut [u8], length: &mut u64) -> u8;
    fn fill(&self, file: &[u8], held: &mut [u8], count: &mut u64) -> u8;
    fn holder(&self, held: &[u8], count: u64, name: u8, place: &mut u64) -> u8;
    fn round_keeping(
        &self,
        file: &mut [u8],
        frame: &[u8],
        answer: &mut [u8],
        senders: &mut u64,
        summary: Summary,
    ) -> u8;
    fn step_keeping(
        &self,
        file: &mut [u8],
        run: &mut RunWords,
        names: &[u8],
        answer: &mut [u8],
        senders: &mut u64,
        summary: Summary,
    ) -> u8;
    fn screens(&self, state: &mut State) -> u8;
    /// The read is its name, file and record.
    fn post(&self, state: &mut State, screen: u8, read: [u8; 3]) -> u8;
    fn turn(&self, file: &mut [u8], state: &mut State, answer: &mut [u8], told: Turn) -> u8;
    fn join(&self, first: &[u8], second: &[u8], buffer: &mut [u8], length: &mut u64) -> u8;
    fn pattern(&self, pattern: u16, kind: &mut u8) -> u8;
    fn contents(&self, file: &[u8], slave: u64, number: u8, buffer: &mut [u8], length: &mut u64) -> u8;
}

/// The documents read as plain Rust.
pub struct Model;

impl Engine for Model {
    fn name(&self) -> &'static str {
        "model"
    }

    fn check(&self, file: &[u8]) -> u8 {
        number(model::load(file).map(|_| ()))
    }

    fn read_address(&self, frame: &[u8], parts: &mut [u8; 5]) -> u8 {
        number(model::read_address(frame).map(|address| {
            let operation = address.operation.number();
            *parts = [address.epoch, address.name.0, address.file.0, operation, address.record.0];
        }))
    }

    fn write_address(&self, frame: &mut [u8], [epoch, name, file, operation, record]: [u8; 5]) -> u8 {
        number(model::write_address(frame, epoch, name, file, operation, record))
    }

    fn write_data(&self, frame: &mut [u8], data: [u8; 4]) -> u8 {
        number(model::write_data(frame, data))
    }

    fn round(&self, file: &mut [u8], frame: &[u8], answer: &mut [u8], senders: &mut u64) -> u8 {
        number(model::round(file, frame, answer).map(|mask| *senders = mask))
    }

    fn start(&self, names: &[u8], run: &mut RunWords) -> u8 {
        number(model::start(names).map(|fresh| *run = words_of(&fresh)))
    }

    fn step(
        &self,
        file: &mut [u8],
        run: &mut RunWords,
        names: &[u8],
        answer: &mut [u8],
        senders: &mut u64,
    ) -> u8 {
        let mut position = run_of(run);
        let stepped = model::step(file, &mut position, names, answer);
        *run = words_of(&position);
        number(stepped.map(|mask| {
            // A step of an ended run alters nothing, the mask included.
            if let Some(mask) = mask {
                *senders = mask;
            }
        }))
    }

    fn trace(&self, file: &mut [u8], trace: &[u8], report: &mut ReportWords) -> u8 {
        number(model::trace(file, trace).map(|counts| {
            *report = [counts.msa, counts.msd, counts.multipartner, counts.refused, counts.sum()];
        }))
    }

    fn owner(&self, file: &[u8], master: u8, buffer: &mut [u8], length: &mut u64) -> u8 {
        let written = model::owner(file, model::LogicalName(master), buffer);
        number(written.map(|bytes| *length = bytes as u64))
    }

    fn to_edition(&self, file: &[u8], edition: Edition, buffer: &mut [u8], length: &mut u64) -> u8 {
        number(model::to_edition(file, edition, buffer).map(|bytes| *length = bytes as u64))
    }

    fn fill(&self, file: &[u8], held: &mut [u8], count: &mut u64) -> u8 {
        number(model::fill(file, held).map(|names| *count = names as u64))
    }

    fn holder(&self, held: &[u8], count: u64, name: u8, place: &mut u64) -> u8 {
        let found = model::holder(held, count, model::LogicalName(name));
        number(found.map(|holder| *place = holder.map_or(NOBODY, |holder| holder as u64)))
    }

    fn round_keeping(
        &self,
        file: &mut [u8],
        frame: &[u8],
        answer: &mut [u8],
        senders: &mut u64,
        Summary { held, count }: Summary,
    ) -> u8 {
        number(model::round_keeping(file, frame, answer, held, count).map(|mask| *senders = mask))
    }

    fn step_keeping(
        &self,
        file: &mut [u8],
        run: &mut RunWords,
        names: &[u8],
        answer: &mut [u8],
        senders: &mut u64,
        Summary { held, count }: Summary,
    ) -> u8 {
        let mut position = run_of(run);
        let stepped = model::step_keeping(file, &mut position, names, answer, held, count);
        *run = words_of(&position);
        // A step of an ended run alters nothing, the mask included.
        number(stepped.map(|mask| *senders = mask.unwrap_or(*senders)))
    }

    fn screens(&self, state: &mut State) -> u8 {
        *state = model::screens();
        0
    }

    fn post(&self, state: &mut State, screen: u8, [name, file, record]: [u8; 3]) -> u8 {
        number(model::post(state, screen, name, file, record))
    }

    fn turn(&self, file: &mut [u8], state: &mut State, answer: &mut [u8], told: Turn) -> u8 {
        number(model::turn(file, state, answer).map(|served| match served {
            Some(model::Served { screen, senders }) => (*told.screen, *told.senders) = (screen, senders),
            None => *told.screen = NO_SCREEN,
        }))
    }

    fn join(&self, first: &[u8], second: &[u8], buffer: &mut [u8], length: &mut u64) -> u8 {
        number(model::join(first, second, buffer).map(|bytes| *length = bytes as u64))
    }

    fn pattern(&self, pattern: u16, kind: &mut u8) -> u8 {
        number(model::pattern(pattern).map(|class| *kind = class.number()))
    }

    fn contents(&self, file: &[u8], slave: u64, file_number: u8, buffer: &mut [u8], length: &mut u64) -> u8 {
        let read = model::contents(file, slave, model::FileNumber(file_number), buffer);
        number(read.map(|bytes| *length = bytes as u64))
    }
}

fn number(answer: Result<(), model::Refusal>) -> u8 {
    match answer {
        Ok(()) => 0,
        Err(model::Refusal(number)) => number,
    }
}

fn words_of(run: &model::Run) -> RunWords {
    [run.end, run.index, run.step, run.value, run.rounds, run.comparisons, run.high, run.low]
}

fn run_of(&[end, index, step, value, rounds, comparisons, high, low]: &RunWords) -> model::Run {
    model::Run { end, index, step, value, rounds, comparisons, high, low }
}

/// The tuned plain Rust program; its multipartner rounds in the form that document 01 names, if asked.
pub struct Plain {
    pub nested: bool,
}

impl Engine for Plain {
    fn name(&self) -> &'static str {
        "plain"
    }

    fn check(&self, file: &[u8]) -> u8 {
        plain::check(file)
    }

    fn read_address(&self, frame: &[u8], parts: &mut [u8; 5]) -> u8 {
        plain::read_address(frame, parts)
    }

    fn write_address(&self, frame: &mut [u8], [epoch, name, file, operation, record]: [u8; 5]) -> u8 {
        plain::write_address(frame, epoch, name, file, operation, record)
    }

    fn write_data(&self, frame: &mut [u8], [b0, b1, b2, b3]: [u8; 4]) -> u8 {
        plain::write_data(frame, b0, b1, b2, b3)
    }

    fn round(&self, file: &mut [u8], frame: &[u8], answer: &mut [u8], senders: &mut u64) -> u8 {
        if self.nested {
            plain::round_in_nested_loops(file, frame, answer, senders)
        } else {
            plain::round(file, frame, answer, senders)
        }
    }

    fn start(&self, names: &[u8], run: &mut RunWords) -> u8 {
        plain::start(names, run)
    }

    fn step(
        &self,
        file: &mut [u8],
        run: &mut RunWords,
        names: &[u8],
        answer: &mut [u8],
        senders: &mut u64,
    ) -> u8 {
        plain::step(file, run, names, answer, senders)
    }

    fn trace(&self, file: &mut [u8], trace: &[u8], report: &mut ReportWords) -> u8 {
        if self.nested {
            plain::trace_in_nested_loops(file, trace, report)
        } else {
            plain::trace(file, trace, report)
        }
    }

    fn owner(&self, file: &[u8], master: u8, buffer: &mut [u8], length: &mut u64) -> u8 {
        plain::owner(file, master, buffer, length)
    }

    fn to_edition(&self, file: &[u8], edition: Edition, buffer: &mut [u8], length: &mut u64) -> u8 {
        match edition {
            Edition::One => plain::to_edition_1(file, buffer, length),
            Edition::Two => plain::to_edition_2(file, buffer, length),
        }
    }

    fn fill(&self, file: &[u8], held: &mut [u8], count: &mut u64) -> u8 {
        plain::fill(file, held, count)
    }

    fn holder(&self, held: &[u8], count: u64, name: u8, place: &mut u64) -> u8 {
        plain::holder(held, count, name, place)
    }

    fn round_keeping(
        &self,
        file: &mut [u8],
        frame: &[u8],
        answer: &mut [u8],
        senders: &mut u64,
        Summary { held, count }: Summary,
    ) -> u8 {
        plain::round_keeping(file, frame, answer, senders, held, count)
    }

    fn step_keeping(
        &self,
        file: &mut [u8],
        run: &mut RunWords,
        names: &[u8],
        answer: &mut [u8],
        senders: &mut u64,
        Summary { held, count }: Summary,
    ) -> u8 {
        plain::step_keeping(file, run, names, answer, senders, held, count)
    }

    fn screens(&self, state: &mut State) -> u8 {
        plain::screens(state)
    }

    fn post(&self, state: &mut State, screen: u8, [name, file, record]: [u8; 3]) -> u8 {
        plain::post(state, screen, name, file, record)
    }

    fn turn(&self, file: &mut [u8], state: &mut State, answer: &mut [u8], told: Turn) -> u8 {
        plain::turn(file, state, answer, told.senders, told.screen)
    }

    fn join(&self, first: &[u8], second: &[u8], buffer: &mut [u8], length: &mut u64) -> u8 {
        plain::join(first, second, buffer, length)
    }

    fn pattern(&self, pattern: u16, kind: &mut u8) -> u8 {
        plain::pattern(pattern, kind)
    }

    fn contents(&self, file: &[u8], slave: u64, number: u8, buffer: &mut [u8], length: &mut u64) -> u8 {
        plain::contents(file, slave, number, buffer, length)
    }
}

/// The engine as it is linked.
#[cfg(feature = "library")]
pub struct Library;

#[cfg(feature = "library")]
impl Engine for Library {
    fn name(&self) -> &'static str {
        "library"
    }

    fn check(&self, file: &[u8]) -> u8 {
        ttpa::calls::check(file)
    }

    fn read_address(&self, frame: &[u8], parts: &mut [u8; 5]) -> u8 {
        ttpa::calls::read_address(frame, parts)
    }

    fn write_address(&self, frame: &mut [u8], [epoch, name, file, operation, record]: [u8; 5]) -> u8 {
        ttpa::calls::write_address(frame, epoch, name, file, operation, record)
    }

    fn write_data(&self, frame: &mut [u8], [b0, b1, b2, b3]: [u8; 4]) -> u8 {
        ttpa::calls::write_data(frame, b0, b1, b2, b3)
    }

    fn round(&self, file: &mut [u8], frame: &[u8], answer: &mut [u8], senders: &mut u64) -> u8 {
        ttpa::calls::round(file, frame, answer, senders)
    }

    fn start(&self, names: &[u8], run: &mut RunWords) -> u8 {
        ttpa::calls::start(names, run)
    }

    fn step(
        &self,
        file: &mut [u8],
        run: &mut RunWords,
        names: &[u8],
        answer: &mut [u8],
        senders: &mut u64,
    ) -> u8 {
        ttpa::calls::step(file, run, names, answer, senders)
    }

    fn trace(&self, file: &mut [u8], trace: &[u8], report: &mut ReportWords) -> u8 {
        ttpa::calls::trace(file, trace, report)
    }

    fn owner(&self, file: &[u8], master: u8, buffer: &mut [u8], length: &mut u64) -> u8 {
        ttpa::calls::owner(file, master, buffer, length)
    }

    fn to_edition(&self, file: &[u8], edition: Edition, buffer: &mut [u8], length: &mut u64) -> u8 {
        match edition {
            Edition::One => ttpa::calls::to_edition_1(file, buffer, length),
            Edition::Two => ttpa::calls::to_edition_2(file, buffer, length),
        }
    }

    fn fill(&self, file: &[u8], held: &mut [u8], count: &mut u64) -> u8 {
        ttpa::calls::fill(file, held, count)
    }

    fn holder(&self, held: &[u8], count: u64, name: u8, place: &mut u64) -> u8 {
        ttpa::calls::holder(held, count, name, place)
    }

    fn round_keeping(
        &self,
        file: &mut [u8],
        frame: &[u8],
        answer: &mut [u8],
        senders: &mut u64,
        Summary { held, count }: Summary,
    ) -> u8 {
        ttpa::calls::round_keeping(file, frame, answer, senders, held, count)
    }

    fn step_keeping(
        &self,
        file: &mut [u8],
        run: &mut RunWords,
        names: &[u8],
        answer: &mut [u8],
        senders: &mut u64,
        Summary { held, count }: Summary,
    ) -> u8 {
        ttpa::calls::step_keeping(file, run, names, answer, senders, held, count)
    }

    fn screens(&self, state: &mut State) -> u8 {
        ttpa::calls::screens(state)
    }

    fn post(&self, state: &mut State, screen: u8, [name, file, record]: [u8; 3]) -> u8 {
        ttpa::calls::post(state, screen, name, file, record)
    }

    fn turn(&self, file: &mut [u8], state: &mut State, answer: &mut [u8], told: Turn) -> u8 {
        ttpa::calls::turn(file, state, answer, told.senders, told.screen)
    }

    fn join(&self, first: &[u8], second: &[u8], buffer: &mut [u8], length: &mut u64) -> u8 {
        ttpa::calls::join(first, second, buffer, length)
    }

    fn pattern(&self, pattern: u16, kind: &mut u8) -> u8 {
        ttpa::calls::pattern(pattern, kind)
    }

    fn contents(&self, file: &[u8], slave: u64, number: u8, buffer: &mut [u8], length: &mut u64) -> u8 {
        ttpa::calls::contents(file, slave, number, buffer, length)
    }
}
