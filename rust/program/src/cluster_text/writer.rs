//! A cluster as text.

use super::{entry, unwritten, NEEDED};
use crate::cluster::{Cluster, Pending, Record, Slave, SlaveFile};
use crate::text::hex;
use std::io::{self, Write};

const OPERATIONS: [&str; 3] = ["read", "write", "execute"];

pub fn write(cluster: &Cluster, out: &mut dyn Write) -> io::Result<()> {
    writeln!(out, "cluster edition {} epoch {:02X}", cluster.edition.number(), cluster.epoch)?;
    write_pending(cluster.pending, out)?;
    cluster.slaves.iter().try_for_each(|slave| write_slave(slave, out))
}

/// Nothing where nothing is pending and the bytes are zeros.
fn write_pending(pending: Pending, out: &mut dyn Write) -> io::Result<()> {
    let Pending { flag, name, pb2, pb3 } = pending;
    let operation = OPERATIONS.get(usize::from(pb2 & 3)).filter(|_| flag == 1);
    match operation {
        Some(operation) => {
            writeln!(out, "pending {operation} name {name:02X} file {:02X} record {pb3:02X}", pb2 >> 2)
        }
        None if pending == Pending::default() => Ok(()),
        None => writeln!(out, "idle {}", hex(&[name, pb2, pb3])),
    }
}

/// A slave's line and below it its files.
pub fn write_slave(slave: &Slave, out: &mut dyn Write) -> io::Result<()> {
    let asleep = if slave.asleep { " asleep" } else { "" };
    writeln!(out, "slave {:02X} {:016X}{asleep}", slave.name(), slave.physical_name())?;
    for file in &slave.files {
        let written = written(slave, file);
        if written.is_empty() && NEEDED.contains(&(file.number, file.records.len() - 1)) {
            continue;
        }
        writeln!(out, "  file {:02X} records {}", file.number, file.records.len() - 1)?;
        for (number, record) in written {
            writeln!(out, "    {number:02X} {}", record_text(file.number, number, record))?;
        }
    }
    Ok(())
}

/// The records that are not as they are when they are left out.
fn written(slave: &Slave, file: &SlaveFile) -> Vec<(usize, Record)> {
    let (name, physical_name) = (slave.name(), slave.physical_name());
    let records = file.records.iter().copied().enumerate();
    records.filter(|&(number, record)| record != unwritten(file.number, number, name, physical_name)).collect()
}

fn record_text(file: u8, number: usize, record: Record) -> String {
    let in_words = if entry::is_entry(file, number) { entry::words(record) } else { None };
    in_words.unwrap_or_else(|| hex(&record))
}
