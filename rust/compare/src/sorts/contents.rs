//! Sorts of slaves' files that are read that have to occur.

use super::Sort;
use crate::case::{Call, Outcome};
use model::{check, FileNumber};

/// The numbers of 32 bits are below.
const WIDE: u64 = 1 << 32;

/// What a call is an example of.
pub fn sorts(call: &Call, outcome: &Outcome) -> Vec<Sort> {
    let Call::Contents { file, slave, number, buffer_length } = call else {
        return Vec::new();
    };
    let (Some(length), Ok(cluster)) = (outcome.written(), check(file)) else {
        return Vec::new();
    };
    let (slaves, room) = (cluster.slaves.len() as u64, *buffer_length as u64);
    let found = cluster.slaves.get(*slave as usize).filter(|_| *slave < slaves && length != 0);
    let at = |place: Option<&model::File>| place.is_some_and(|file| file.number == FileNumber(*number));
    let occurs = [
        (found.is_some() && *slave + 1 == slaves && slaves > 1, Sort::ReadOfLastSlave),
        (found.is_some_and(|slave| at(slave.files.first())), Sort::ReadFirstFile),
        (found.is_some_and(|slave| at(slave.files.last())), Sort::ReadLastFile),
        (found.is_some_and(|slave| slave.is_unnamed()), Sort::ReadOfUnnamed),
        (found.is_some_and(|slave| slave.asleep), Sort::ReadOfSleeper),
        (length != 0 && room == length, Sort::ReadJustFits),
        (length != 0 && room + 1 == length, Sort::ReadOneShort),
        (length != 0 && room == length + 1, Sort::ReadOneMore),
        (*slave == slaves, Sort::ReadBehindLast),
        (*slave == u64::MAX, Sort::ReadAtGreatestPlace),
        (*slave >= WIDE && *slave % WIDE < slaves, Sort::ReadAtWidePlace),
        (*slave < slaves && length == 0 && *number > FileNumber::LAST.0, Sort::ReadAboveLastNumber),
        (*slave < slaves && length == 0 && is_with_another(&cluster, *slave, *number), Sort::ReadOfAnother),
    ];
    occurs.into_iter().filter_map(|(came, sort)| came.then_some(sort)).collect()
}

/// Whether a slave at another place has the file.
fn is_with_another(cluster: &model::Cluster, place: u64, number: u8) -> bool {
    let mut others = cluster.slaves.iter().enumerate().filter(|&(other, _)| other as u64 != place);
    others.any(|(_, slave)| slave.file(FileNumber(number)).is_some())
}
