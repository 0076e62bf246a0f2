//! "What slaves do": read, write and execute of addressed slaves.

use crate::frame::{check_byte, MSD};
use crate::round::Bus;
use crate::{FileNumber, LogicalName, RecordNumber, Slave};

/// The record that holds the new and the present logical name, which ends it.
const NAMES_RECORD: RecordNumber = RecordNumber(1);
const BAPTIZE: RecordNumber = RecordNumber(1);
const COMPARE: RecordNumber = RecordNumber(2);
/// "an execute of record 4 of 0x08, our choice of record" (document 02, request 9)
const SLEEP: RecordNumber = RecordNumber(4);

/// "at 0xFF the unnamed, at 0x00 all others, else those of that logical name"; but "A sleeping slave takes no part in
/// rounds" (document 02, request 9)
fn is_addressed(slave: &Slave, name: LogicalName) -> bool {
    if slave.asleep {
        false
    } else if name == LogicalName::BROADCAST {
        !slave.is_unnamed()
    } else {
        slave.logical_name() == name
    }
}

/// "addressed slaves, never unnamed ones, that have the record send its four bytes in slots 1 to 4" and the
/// check in slot 5, each that of its own bytes
pub fn read(slaves: &[Slave], name: LogicalName, file: FileNumber, record: RecordNumber, bus: &mut Bus) {
    for slave in slaves.iter().filter(|slave| is_addressed(slave, name) && !slave.is_unnamed()) {
        let Some(&[a, b, c, d]) = slave.record(file, record) else {
            continue;
        };
        for (slot, byte) in (1..).zip([a, b, c, d, check_byte(MSD, [a, b, c, d])]) {
            bus.send(slot, byte);
        }
    }
}

/// "addressed slaves that have the record replace all four bytes, except in 0x3D and in any record 0x00"; but record 1
/// of 0x08 as document 02, request 5 has it: "A write to that record replaces bytes 0 to 2 and leaves byte 3."
/// Each slave is judged before it is changed, and no slave's change touches another.
pub fn write(slaves: &mut [Slave], name: LogicalName, file: FileNumber, record: RecordNumber, data: [u8; 4]) {
    if file == FileNumber::DOCUMENTATION || record == RecordNumber(0x00) {
        return;
    }
    let replaced = if file == FileNumber::CONFIGURATION && record == NAMES_RECORD { 0..3 } else { 0..4 };
    for slave in slaves.iter_mut().filter(|slave| is_addressed(slave, name)) {
        if let Some(bytes) = slave.record_mut(file, record) {
            bytes[replaced.clone()].copy_from_slice(&data[replaced.clone()]);
        }
    }
}

pub fn execute(slaves: &mut [Slave], name: LogicalName, file: FileNumber, record: RecordNumber, bus: &mut Bus) {
    if file != FileNumber::CONFIGURATION {
        return;
    }
    let addressed = slaves.iter_mut().filter(|slave| is_addressed(slave, name));
    match record {
        COMPARE if name != LogicalName::BROADCAST => {
            addressed.filter(|slave| slave.physical_name() >= slave.comparison_value()).for_each(|_| {
                bus.send(1, 0x00);
            })
        }
        BAPTIZE => addressed
            .filter(|slave| slave.physical_name() == slave.comparison_value())
            .for_each(|slave| slave.set_logical_name(slave.new_logical_name())),
        _ => {}
    }
}

/// Whether an execute puts this slave to sleep: "addressed slaves that have it fall asleep after that round".
pub fn falls_asleep(slave: &Slave, name: LogicalName, file: FileNumber, record: RecordNumber) -> bool {
    let is_sleep = file == FileNumber::CONFIGURATION && record == SLEEP;
    is_sleep && is_addressed(slave, name) && slave.record(file, record).is_some()
}
