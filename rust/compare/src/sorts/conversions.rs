//! Sorts of conversions that have to occur: what they are refused for, and what they carry over; and calls on files that
//! edition 2 alone can hold.

use super::Sort;
use crate::case::{Call, Outcome};
use model::{check, Cluster, Edition};

const EDITION_LIMITS: u8 = 25;
const CONVERSION_BUFFER: u8 = 26;

/// What a call is an example of.
pub fn sorts(call: &Call, outcome: &Outcome) -> Vec<Sort> {
    let occurs = match call {
        Call::Convert { file, edition, buffer_length } => match check(file) {
            Ok(cluster) => converted(&cluster, *edition, *buffer_length, outcome),
            Err(_) => vec![(*buffer_length == 0, Sort::FileBeforeConversion)],
        },
        _ if outcome.number == 0 => call.file().map(in_edition_2).unwrap_or_default(),
        _ => Vec::new(),
    };
    occurs.into_iter().filter_map(|(occurs, sort)| occurs.then_some(sort)).collect()
}

fn converted(
    cluster: &Cluster,
    edition: Edition,
    buffer_length: usize,
    outcome: &Outcome,
) -> Vec<(bool, Sort)> {
    let form = Cluster { edition, ..cluster.clone() };
    let needed = form.length();
    let many = cluster.slaves.len() > edition.most_slaves();
    let long = needed > edition.most_bytes();
    match outcome.number {
        EDITION_LIMITS => vec![
            (many && !long, Sort::NarrowedManySlaves),
            (long && !many, Sort::NarrowedLong),
            (long && !many && needed == edition.most_bytes() + 4, Sort::NarrowedRecordTooLong),
            (buffer_length == 0, Sort::LimitsBeforeBuffer),
        ],
        CONVERSION_BUFFER => vec![(buffer_length + 1 == needed, Sort::ConvertedOneShort)],
        0 if edition == cluster.edition => vec![(true, Sort::Copied)],
        0 => {
            let narrowed = edition == Edition::One;
            let free = [cluster.pending.name.0, cluster.pending.pb2, cluster.pending.pb3];
            let sleeps = cluster.slaves.iter().any(|slave| slave.asleep);
            vec![
                (buffer_length == needed, Sort::ConvertedFits),
                (narrowed && needed == edition.most_bytes(), Sort::NarrowedToMostBytes),
                (narrowed && cluster.slaves.len() == edition.most_slaves(), Sort::NarrowedMostSlaves),
                (!cluster.pending.flag && free != [0; 3], Sort::ConvertedFreeBytes),
                (sleeps, Sort::ConvertedSleepers),
            ]
        }
        _ => Vec::new(),
    }
}

fn in_edition_2(file: &[u8]) -> Vec<(bool, Sort)> {
    let wide = Edition::of(file) == Edition::Two;
    let slaves = file.get(3).map_or(0, |&count| usize::from(count));
    vec![
        (wide, Sort::InEdition2),
        (wide && slaves > Edition::One.most_slaves(), Sort::OnMoreSlaves),
        (wide && slaves == Edition::Two.most_slaves(), Sort::OnMostSlaves),
        (wide && file.len() > Edition::One.most_bytes(), Sort::OnLongerFile),
        (wide && file.len() == Edition::Two.most_bytes(), Sort::OnLongestFile),
    ]
}
