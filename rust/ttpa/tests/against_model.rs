//! The safe functions against the model: many random calls, in which every answer of every call occurs, and the
//! kept cases.

use compare::campaign::agrees_with_model;
use compare::case::hold_all;
use compare::edges;
use compare::engine::{self, Engine, ReportWords, RunWords, State, Summary, Turn};
use ttpa::{
    calls, Address, Edition, End, PatternClass, RecordRead, Report, Run, Screens, Senders, Served, TtpaError,
};

/// The safe functions in the form of the C calls.
struct Wrapper;

impl Engine for Wrapper {
    fn name(&self) -> &'static str {
        "wrapper"
    }

    fn check(&self, file: &[u8]) -> u8 {
        number(ttpa::check(file))
    }

    fn read_address(&self, frame: &[u8], parts: &mut [u8; 5]) -> u8 {
        number(ttpa::read_address(frame).map(|Address { epoch, name, file, operation, record }| {
            *parts = [epoch, name, file, operation, record];
        }))
    }

    fn write_address(&self, frame: &mut [u8], [epoch, name, file, operation, record]: [u8; 5]) -> u8 {
        number(ttpa::write_address(frame, &Address { epoch, name, file, operation, record }))
    }

    fn write_data(&self, frame: &mut [u8], data: [u8; 4]) -> u8 {
        number(ttpa::write_data(frame, data))
    }

    fn round(&self, file: &mut [u8], frame: &[u8], answer: &mut [u8], mask: &mut u64) -> u8 {
        number(ttpa::round(file, frame, answer).map(|Senders(slots)| *mask = slots))
    }

    fn start(&self, names: &[u8], run: &mut RunWords) -> u8 {
        number(Run::start(names).map(|fresh| *run = fresh.words()))
    }

    fn step(&self, file: &mut [u8], run: &mut RunWords, names: &[u8], answer: &mut [u8], mask: &mut u64) -> u8 {
        let mut position = Run::from_words(*run);
        let running = position.end() == End::Running;
        let stepped = position.step(file, names, answer);
        *run = position.words();
        number(stepped.map(|Senders(slots)| {
            if running {
                *mask = slots;
            } else {
                // The C call of an ended run writes no mask; here nobody sends.
                assert_eq!(slots, 0);
            }
        }))
    }

    fn trace(&self, file: &mut [u8], trace: &[u8], words: &mut ReportWords) -> u8 {
        number(ttpa::trace(file, trace).map(|Report { msa, msd, multipartner, refused, sum }| {
            *words = [msa, msd, multipartner, refused, sum];
        }))
    }

    fn owner(&self, file: &[u8], master: u8, buffer: &mut [u8], length: &mut u64) -> u8 {
        number(ttpa::owner(file, master, buffer).map(|owners| *length = owners.bytes().len() as u64))
    }

    fn to_edition(&self, file: &[u8], edition: engine::Edition, buffer: &mut [u8], length: &mut u64) -> u8 {
        let edition = match edition {
            engine::Edition::One => Edition::One,
            engine::Edition::Two => Edition::Two,
        };
        number(ttpa::to_edition(file, edition, buffer).map(|written| *length = written.len() as u64))
    }

    fn fill(&self, file: &[u8], held: &mut [u8], count: &mut u64) -> u8 {
        match ttpa::Summary::of(file) {
            Ok(summary) if summary.names().len() > held.len() => calls::fill(file, held, count),
            filled => number(filled.map(|summary| {
                held[..summary.names().len()].copy_from_slice(summary.names());
                *count = summary.names().len() as u64;
            })),
        }
    }

    fn holder(&self, held: &[u8], count: u64, name: u8, place: &mut u64) -> u8 {
        let Some(summary) = summary_of(held, count) else {
            return calls::holder(held, count, name, place);
        };
        *place = summary.holder(name).map_or(calls::NOBODY, |holder| holder as u64);
        0
    }

    fn round_keeping(
        &self,
        file: &mut [u8],
        frame: &[u8],
        answer: &mut [u8],
        mask: &mut u64,
        Summary { held, count }: Summary,
    ) -> u8 {
        let Some(mut summary) = summary_of(held, count) else {
            return calls::round_keeping(file, frame, answer, mask, held, count);
        };
        let sent = ttpa::round_keeping(file, frame, answer, &mut summary);
        held[..summary.names().len()].copy_from_slice(summary.names());
        number(sent.map(|Senders(slots)| *mask = slots))
    }

    fn step_keeping(
        &self,
        file: &mut [u8],
        run: &mut RunWords,
        names: &[u8],
        answer: &mut [u8],
        mask: &mut u64,
        Summary { held, count }: Summary,
    ) -> u8 {
        let Some(mut summary) = summary_of(held, count) else {
            return calls::step_keeping(file, run, names, answer, mask, held, count);
        };
        let mut position = Run::from_words(*run);
        let running = position.end() == End::Running;
        let stepped = position.step_keeping(file, names, answer, &mut summary);
        *run = position.words();
        held[..summary.names().len()].copy_from_slice(summary.names());
        // The C call of an ended run writes no mask.
        number(stepped.map(|Senders(slots)| *mask = if running { slots } else { *mask }))
    }

    fn screens(&self, state: &mut State) -> u8 {
        *state = Screens::new().bytes();
        0
    }

    fn post(&self, state: &mut State, screen: u8, [name, file, record]: [u8; 3]) -> u8 {
        let mut screens = Screens::from_bytes(*state);
        let posted = screens.post(screen, &RecordRead { name, file, record });
        *state = screens.bytes();
        number(posted)
    }

    fn turn(&self, file: &mut [u8], state: &mut State, answer: &mut [u8], told: Turn) -> u8 {
        let mut screens = Screens::from_bytes(*state);
        let turned = screens.turn(file, answer);
        *state = screens.bytes();
        number(turned.map(|served| match served {
            Some(Served { screen, senders: Senders(slots) }) => (*told.screen, *told.senders) = (screen, slots),
            // The C call writes no mask where none waited.
            None => *told.screen = calls::NO_SCREEN,
        }))
    }

    fn join(&self, first: &[u8], second: &[u8], buffer: &mut [u8], length: &mut u64) -> u8 {
        number(ttpa::join(first, second, buffer).map(|written| *length = written as u64))
    }

    fn pattern(&self, pattern: u16, kind: &mut u8) -> u8 {
        number(ttpa::pattern(pattern).map(|class| {
            *kind = match class {
                PatternClass::DataByte => engine::DATA_BYTE,
                PatternClass::Firework => engine::FIREWORK,
                PatternClass::Broken => engine::BROKEN,
            }
        }))
    }

    fn contents(&self, file: &[u8], slave: u64, file_number: u8, buffer: &mut [u8], length: &mut u64) -> u8 {
        number(ttpa::contents(file, slave, file_number, buffer).map(|bytes| *length = bytes))
    }
}

/// The summary that owns these names; none where there are fewer than the count, or more than a file has slaves. Such a
/// one is only lent, to the C call.
fn summary_of(held: &[u8], count: u64) -> Option<ttpa::Summary> {
    ttpa::Summary::from_names(held.get(..usize::try_from(count).ok()?)?).ok()
}

fn number(answer: Result<(), TtpaError>) -> u8 {
    answer.map_or_else(TtpaError::number, |()| 0)
}

#[test]
fn the_safe_functions_do_what_the_model_does() {
    agrees_with_model(&Wrapper, 4);
}

#[test]
fn the_safe_functions_give_the_kept_results() {
    for text in [
        include_str!("../../model/tests/data/base.txt"),
        include_str!("../../model/tests/data/base-more.txt"),
        include_str!("../../model/tests/data/request-01.txt"),
        include_str!("../../model/tests/data/request-02.txt"),
        include_str!("../../model/tests/data/cases.txt"),
        include_str!("../../model/tests/data/request-03.txt"),
        include_str!("../../model/tests/data/request-04.txt"),
        include_str!("../../model/tests/data/request-05.txt"),
        include_str!("../../model/tests/data/request-06.txt"),
        include_str!("../../model/tests/data/request-07.txt"),
        include_str!("../../model/tests/data/request-08.txt"),
        include_str!("../../model/tests/data/request-09.txt"),
        include_str!("../../model/tests/data/request-10.txt"),
        include_str!("../../model/tests/data/request-11.txt"),
        include_str!("../../model/tests/data/request-12.txt"),
        include_str!("../../model/tests/data/request-13.txt"),
        include_str!("../../model/tests/data/request-14.txt"),
    ] {
        let held = hold_all(&Wrapper, text);
        assert!(held.passed > 0);
        assert_eq!(held.wrong, [""; 0]);
    }
}

#[test]
fn the_edges_of_a_trace_hold() {
    edges::traces::hold(&Wrapper);
}

#[test]
fn the_edges_of_an_owner_file_hold() {
    edges::owners::hold(&Wrapper);
}

#[test]
fn the_edges_of_logical_names_hold() {
    edges::logical_names::hold(&Wrapper);
}

#[test]
fn the_edges_of_naming_steps_hold() {
    edges::naming_steps::hold(&Wrapper);
}

#[test]
fn the_grounds_of_a_step_hold() {
    edges::step_grounds::hold(&Wrapper);
}

#[test]
fn the_edges_of_multiplexed_entries_hold() {
    edges::multiplexed::hold(&Wrapper);
}

#[test]
fn the_edges_of_summaries_hold() {
    edges::summaries::hold(&Wrapper);
}

#[test]
fn the_edges_of_sleepers_hold() {
    edges::sleepers::hold(&Wrapper);
}

#[test]
fn the_edges_of_editions_hold() {
    edges::editions::hold(&Wrapper);
}

#[test]
fn the_edges_of_two_lists_hold() {
    edges::two_lists::hold(&Wrapper);
}

#[test]
fn the_edges_of_screens_hold() {
    edges::screens::hold(&Wrapper);
}

#[test]
fn the_edges_of_joins_hold() {
    edges::joins::hold(&Wrapper);
}

#[test]
fn the_edges_of_patterns_hold() {
    edges::patterns::hold(&Wrapper);
}

#[test]
fn the_edges_of_contents_hold() {
    edges::contents::hold(&Wrapper);
}
