//! Sorts of calls with a summary that have to occur: what it is refused for, what comes before and after that, and rounds
//! and steps that rename.

use super::Sort;
use crate::case::{Call, Outcome};
use model::check;

const NO_SUMMARY: u8 = 24;
const UNNAMED: u8 = 0xFF;
const BROADCAST: u8 = 0x00;

/// What a call is an example of.
pub fn sorts(call: &Call, outcome: &Outcome) -> Vec<Sort> {
    let occurs = match call {
        Call::Fill { file, held } => {
            let one_short = names_of(file).is_some_and(|names| names.len() == held.len() + 1);
            vec![(outcome.number == NO_SUMMARY && one_short, Sort::FilledOneShort)]
        }
        Call::Holder { held, count, name } if outcome.number == 0 => asked(held, *count, *name),
        Call::Keeping { call, held, count } => match outcome.number {
            0 => renamed(call, held, *count, outcome),
            1..=8 => vec![(*count > held.len() as u64, Sort::SummaryAfterFile)],
            NO_SUMMARY => refused(call, held, *count),
            _ => Vec::new(),
        },
        _ => Vec::new(),
    };
    occurs.into_iter().filter_map(|(occurs, sort)| occurs.then_some(sort)).collect()
}

fn names_of(file: &[u8]) -> Option<Vec<u8>> {
    let cluster = check(file).ok()?;
    Some(cluster.slaves.iter().map(|slave| slave.logical_name().0).collect())
}

fn asked(held: &[u8], count: u64, name: u8) -> Vec<(bool, Sort)> {
    let (names, behind) = held.split_at(count as usize);
    let holders = names.iter().filter(|&&held| held == name).count();
    vec![
        (holders >= 2 && names[0] != name, Sort::HolderOfSeveral),
        (holders > 0 && name == UNNAMED, Sort::HolderUnnamed),
        (holders > 0 && name == BROADCAST, Sort::HolderNamedZero),
        (holders == 0 && behind.contains(&name), Sort::HolderBehindCount),
    ]
}

fn renamed(call: &Call, held: &[u8], count: u64, outcome: &Outcome) -> Vec<(bool, Sort)> {
    let renamed = outcome.held.as_deref() != Some(held);
    let is_step = matches!(call, Call::Step { .. });
    vec![
        (renamed && !is_step, Sort::RoundRenames),
        (renamed && is_step, Sort::StepRenames),
        (renamed && held.len() as u64 > count, Sort::RenamesWithRoomLeft),
    ]
}

fn refused(call: &Call, held: &[u8], count: u64) -> Vec<(bool, Sort)> {
    let (file, answer_length, ended) = match call {
        Call::Round { file, answer_length, .. } => (file, *answer_length, false),
        Call::Step { file, answer_length, run, .. } => (file, *answer_length, matches!(run[0], 1 | 2)),
        _ => return Vec::new(),
    };
    let names = names_of(file).unwrap_or_default();
    let slaves = names.len() as u64;
    let begins_right = held.starts_with(&names);
    let right_count = count == slaves && held.len() >= names.len() && slaves >= 2;
    let wrong: Vec<usize> = (0..names.len()).filter(|&place| held.get(place) != Some(&names[place])).collect();
    vec![
        (
            slaves.checked_sub(1) == Some(count) && held.starts_with(&names[..names.len() - 1]),
            Sort::SummaryOneShort,
        ),
        (begins_right && count == slaves + 1 && held.len() as u64 >= count, Sort::SummaryOneLong),
        (count == slaves && held.len() + 1 == names.len() && names.starts_with(held), Sort::SummaryWithoutRoom),
        (right_count && wrong == [0], Sort::SummaryFirstWrong),
        (right_count && wrong == [names.len() - 1], Sort::SummaryLastWrong),
        (begins_right && count > slaves && count as u32 as u64 == slaves, Sort::SummaryCountWide),
        (begins_right && count == u64::MAX, Sort::SummaryCountMost),
        (answer_length < 64, Sort::SummaryBeforeBuffer),
        (ended, Sort::SummaryOfEndedRun),
    ]
}
