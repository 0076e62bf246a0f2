//! Sorts of naming steps that have to occur: those for which several grounds hold, and those of an ended run.

use super::Sort;
use crate::case::{Call, Outcome};
use crate::engine::RunWords;

/// The order in which a step checks what is not the file.
const IN_ORDER: [u8; 4] = [9, 15, 16, 17];

/// What a step is an example of.
pub fn sorts(call: &Call, outcome: &Outcome) -> Vec<Sort> {
    let Call::Step { names, run, answer_length, .. } = call else {
        return Vec::new();
    };
    let number = outcome.number;
    let of_the_file = (1..=8).contains(&number);
    let holds = holding(names, run, *answer_length);
    let first_of_two = match holds[..] {
        [first, next, ..] if first == number => Some(Sort::StepGrounds(first, next)),
        _ => None,
    };
    let occurs = [
        (number == IN_ORDER[0] && holds == IN_ORDER, Sort::StepOfAllGrounds),
        (of_the_file && !holds.is_empty(), Sort::StepFileFirst),
        (is_ended(run) && !of_the_file, Sort::EndedStep(number)),
        (is_ended(run) && of_the_file, Sort::EndedOnRefusedFile),
    ];
    first_of_two
        .into_iter()
        .chain(occurs.into_iter().filter_map(|(occurs, sort)| occurs.then_some(sort)))
        .collect()
}

fn is_ended(run: &RunWords) -> bool {
    matches!(run[0], 1 | 2)
}

/// Those of the four that hold, whatever comes before them.
fn holding(names: &[u8], run: &RunWords, answer_length: usize) -> Vec<u8> {
    let listed = |name: &u8| matches!(name, 0x00 | 0xFF);
    let twice = (0..names.len()).any(|place| names[..place].contains(&names[place]));
    let hold = [answer_length < 64, names.iter().any(listed), twice, is_no_position(run, names.len() as u64)];
    IN_ORDER.into_iter().zip(hold).filter_map(|(number, holds)| holds.then_some(number)).collect()
}

fn is_no_position(&[end, index, step, _, rounds, comparisons, ..]: &RunWords, length: u64) -> bool {
    let cannot_go_on = index == length || step > 199 || rounds.max(comparisons) >= 1_000_000;
    end > 2 || index > length || (end == 0 && cannot_go_on)
}
