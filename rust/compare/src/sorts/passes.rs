//! Sorts of naming steps that have to occur: steps handed in at a write that is needless, or that would be if the stored
//! halves were less wide or the pass not at its first comparison, and steps after which the position stands past one.

use super::Sort;
use crate::case::{Call, Outcome};
use crate::engine::RunWords;
use model::{check, End};

/// Record 1, 2 or 3 of 0x08 written, record 1 or 2 executed, or the read.
#[derive(Clone, Copy, PartialEq, Eq)]
enum Made {
    Write(u8),
    Execute(u8),
    Read,
}

/// What stands at a place of a pass.
#[derive(Clone, Copy, PartialEq, Eq)]
enum Place {
    /// A half of the first comparison.
    First,
    /// A half of a later comparison.
    High,
    Low,
    /// A half of the value, before the name is given.
    GiveHigh,
    GiveLow,
    Other,
}

fn place_of(step: u64) -> Place {
    match step {
        1 | 2 => Place::First,
        4..=195 if step % 3 == 1 => Place::High,
        4..=195 if step % 3 == 2 => Place::Low,
        197 => Place::GiveHigh,
        198 => Place::GiveLow,
        _ => Place::Other,
    }
}

/// The round that a step made, which the header still holds.
fn made_in(outcome: &Outcome) -> Option<Made> {
    let after = check(outcome.file.as_deref()?).ok()?.pending;
    Some(match after.pb2 % 4 {
        0 => Made::Read,
        1 => Made::Write(after.pb3),
        _ => Made::Execute(after.pb3),
    })
}

/// What a step is an example of.
pub fn sorts(call: &Call, outcome: &Outcome) -> Vec<Sort> {
    let (Call::Step { run, .. }, Some(after)) = (call, outcome.run) else {
        return Vec::new();
    };
    if outcome.number != 0 || run[0] != End::Running.number() {
        return Vec::new();
    }
    let Some(made) = made_in(outcome) else {
        return Vec::new();
    };
    let past_a_write = after[1] == run[1] && after[0] == run[0] && after[2] > 3 && stands_past(made, &after);
    let answered_with_zero = run[2] == 3 && matches!(after[2], 5 | 6);
    let occurs = [
        (past_a_write, Sort::StandsPastWrite),
        (answered_with_zero, Sort::ZeroAnsweredPastWrite),
        (is_wide(run, made), Sort::WideHalfWritten),
        (ends_with_halves(run, &after), Sort::AllNamedWithHalves),
    ];
    let others = occurs.into_iter().filter_map(|(occurs, sort)| occurs.then_some(sort));
    passed_over(run, made).into_iter().chain(others).collect()
}

/// The writes that a step handed in at one of them passed over; those of the first comparison it does not.
fn passed_over(run: &RunWords, made: Made) -> Option<Sort> {
    match (place_of(run[2]), made) {
        (Place::High, Made::Write(3)) => Some(Sort::HighPassedOver),
        (Place::High, Made::Execute(2)) => Some(Sort::BothPassedOver),
        (Place::Low, Made::Execute(2)) => Some(Sort::LowPassedOver),
        (Place::GiveHigh, Made::Write(3)) => Some(Sort::GivenHighPassedOver),
        (Place::GiveHigh, Made::Execute(1)) => Some(Sort::GivenBothPassedOver),
        (Place::GiveLow, Made::Execute(1)) => Some(Sort::GivenLowPassedOver),
        (Place::First, Made::Write(2)) if run[6] == 0 => Some(Sort::FirstHalfWrittenAgain),
        (Place::First, Made::Write(3)) if run[7] == 0 => Some(Sort::FirstHalfWrittenAgain),
        _ => None,
    }
}

/// Whether the position stands two or three places past the round that was made.
fn stands_past(made: Made, after: &RunWords) -> bool {
    match (made, place_of(after[2])) {
        (Made::Write(2), place) => place != Place::Low && place != Place::GiveLow,
        (Made::Execute(2), place) => place != Place::High && after[2] != 196,
        (Made::Write(1), place) => place != Place::GiveHigh,
        _ => false,
    }
}

/// Whether the run ends "all named", the halves that it was handed being others than 0.
fn ends_with_halves(run: &RunWords, after: &RunWords) -> bool {
    after[0] == End::AllNamed.number() && run[6] != 0 && run[7] != 0
}

/// Whether a half was written only because the stored one has more than 32 bits.
fn is_wide(run: &RunWords, made: Made) -> bool {
    let [_, _, step, value, _, _, high, low] = *run;
    let sent = match step {
        4..=195 => value | 1 << (63 - (step - 4) / 3),
        _ => value,
    };
    let wide = |stored: u64, half: u64| stored >> 32 != 0 && stored & 0xFFFF_FFFF == half;
    match (place_of(step), made) {
        (Place::High | Place::GiveHigh, Made::Write(2)) => wide(high, sent >> 32),
        (Place::Low | Place::GiveLow, Made::Write(3)) => wide(low, sent & 0xFFFF_FFFF),
        _ => false,
    }
}
