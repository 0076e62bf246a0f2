//! Sorts of calls about logical names that have to occur: writes of the record that holds them, which rename nobody, and
//! files with equal ones, which only loading refuses.

use super::Sort;
use crate::case::{Call, Outcome};
use crate::layout::place_in;
use model::{check, load, Cluster, Edition, FileNumber, LogicalName, RecordNumber, Refusal, Slave, MSD};

const EQUAL_PHYSICAL_NAMES: u8 = 8;
const EQUAL_LOGICAL_NAMES: u8 = 22;
const NAMES_RECORD: RecordNumber = RecordNumber(1);
const WRITE: u8 = 1;

/// What a call is an example of.
pub fn sorts(call: &Call, outcome: &Outcome) -> Vec<Sort> {
    let carried_out = outcome.number == 0;
    match call {
        Call::Check { file } => at_loading(file, outcome.number),
        Call::Round { file, frame, .. } if carried_out => {
            [write_of_last_byte(file, frame, outcome), on_equal_names(file, Sort::RoundOnEqualNames)].concat()
        }
        Call::Step { file, run, .. } if carried_out && outcome.run != Some(*run) => {
            on_equal_names(file, Sort::StepOnEqualNames)
        }
        Call::Trace { file, .. } if carried_out => on_equal_names(file, Sort::TraceOnEqualNames),
        _ => Vec::new(),
    }
}

fn on_equal_names(file: &[u8], sort: Sort) -> Vec<Sort> {
    if load(file) == Err(Refusal(EQUAL_LOGICAL_NAMES)) {
        vec![sort]
    } else {
        Vec::new()
    }
}

fn at_loading(file: &[u8], number: u8) -> Vec<Sort> {
    let count = |slaves: &[Slave], name| slaves.iter().filter(|slave| slave.logical_name() == name).count();
    let occurs = match (number, check(file)) {
        (0, Ok(cluster)) => (count(&cluster.slaves, LogicalName::UNNAMED) >= 2, Sort::SeveralUnnamed),
        (EQUAL_LOGICAL_NAMES, Ok(cluster)) => (only_zero_twice(&cluster), Sort::OnlyZeroTwice),
        (EQUAL_PHYSICAL_NAMES, _) => (equal_names_beneath(file), Sort::BothNamesEqual),
        _ => return Vec::new(),
    };
    occurs.0.then_some(occurs.1).into_iter().collect()
}

/// Whether without the slaves named 0x00 the file would be accepted.
fn only_zero_twice(cluster: &Cluster) -> bool {
    let mut others = cluster.clone();
    others.slaves.retain(|slave| slave.logical_name() != LogicalName::BROADCAST);
    load(&others.encode()).is_ok()
}

/// Whether a file with equal physical names would be refused for equal logical ones if those were told apart.
fn equal_names_beneath(file: &[u8]) -> bool {
    let mut apart = file.to_vec();
    let edition = Edition::of(file);
    let (width, bytes) = (edition.offset_bytes(), edition.entry_bytes());
    let table = file[edition.header_bytes()..].chunks(bytes).take(usize::from(file[3]));
    for (slave, entry) in table.enumerate() {
        let directory = place_in(&entry[..width]);
        let entries = file[directory..].chunks(bytes).take(usize::from(entry[width]));
        for entry in entries.filter(|entry| entry[0] == FileNumber::DOCUMENTATION.0) {
            let place = place_in(&entry[width..]);
            apart[place + 4..place + 12].copy_from_slice(&(slave as u64).to_be_bytes());
        }
    }
    load(&apart) == Err(Refusal(EQUAL_LOGICAL_NAMES))
}

/// A data frame that writes a record, where it tells whether the record keeps its last byte.
fn write_of_last_byte(file: &[u8], frame: &[u8], outcome: &Outcome) -> Vec<Sort> {
    let (Ok(before), &[MSD, _, _, _, last, _]) = (check(file), frame) else {
        return Vec::new();
    };
    let pending = before.pending;
    if pending.pb2 % 4 != WRITE {
        return Vec::new();
    }
    let (number, record) = (FileNumber(pending.pb2 / 4), RecordNumber(pending.pb3));
    let would_alter = |slave: &Slave| {
        let addressed = match pending.name {
            LogicalName::BROADCAST => !slave.is_unnamed(),
            name => slave.logical_name() == name,
        };
        addressed && !slave.asleep && slave.record(number, record).is_some_and(|bytes| bytes[3] != last)
    };
    let altered = |slave: usize| {
        let after = outcome.file.as_deref().and_then(|file| check(file).ok());
        let bytes = after.as_ref().and_then(|after| after.slaves[slave].record(number, record));
        bytes.is_some_and(|bytes| bytes[3] == last)
    };
    let told = before.slaves.iter().any(would_alter) && outcome.alters_slaves(file);
    let takes_it = (0..).zip(&before.slaves).any(|(place, slave)| would_alter(slave) && altered(place));
    match (number, record, pending.name) {
        (FileNumber::CONFIGURATION, NAMES_RECORD, _) if !told => Vec::new(),
        (FileNumber::CONFIGURATION, NAMES_RECORD, LogicalName::UNNAMED) => vec![Sort::NamesWrittenUnnamed],
        (FileNumber::CONFIGURATION, NAMES_RECORD, LogicalName::BROADCAST) => vec![Sort::NamesWrittenAll],
        (FileNumber::CONFIGURATION, NAMES_RECORD, _) => vec![Sort::NamesWrittenOne],
        _ if !takes_it => Vec::new(),
        (FileNumber::CONFIGURATION, RecordNumber(record), _) => vec![Sort::ConfigurationWritten(record)],
        (FileNumber(number), NAMES_RECORD, _) => vec![Sort::FourBytesWritten, Sort::RecordOneWritten(number)],
        _ => Vec::new(),
    }
}
