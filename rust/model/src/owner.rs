//! "Writing the owner file" (document 02, request 4): file 0x0B, which says who sends in which slot of each round, as
//! it follows from the slaves' round files.

use crate::multipartner::{has_multiplexed_send, would_send};
use crate::{check, LogicalName, Refusal, Slave};

/// "For each of rounds 0, 2, 3, 4, 6 and 7"; there are eight index bytes.
const OWNED: [u8; 6] = [0, 2, 3, 4, 6, 7];
const ROUNDS: u8 = 8;
/// "in round order from record 3"
const FIRST_RECORD: usize = 3;
const RECORD_BYTES: usize = 4;
const SLOTS: usize = 64;
/// "0x00 where none does", "padded with 0x00", "0x00 for rounds 1 and 5", "Record 0x00 is written as zeros."
const NOBODY: u8 = 0x00;

/// Grounds 1 to 8 on the file, then 23, 20 and 21. What is written in the front of the buffer is file 0x0B, whole; its
/// length.
pub fn owner(file: &[u8], master: LogicalName, buffer: &mut [u8]) -> Result<usize, Refusal> {
    let slaves = check(file)?.slaves;
    if OWNED.iter().any(|&round| slaves.iter().any(|slave| has_multiplexed_send(slave, round))) {
        return Err(Refusal(23));
    }
    if OWNED.iter().any(|&round| two_send_in_one_slot(&slaves, round)) {
        return Err(Refusal(20));
    }
    let content = owner_file(&slaves, master);
    let Some(front) = buffer.get_mut(..content.len()) else {
        return Err(Refusal(21));
    };
    front.copy_from_slice(&content);
    Ok(content.len())
}

/// The logical names of the slaves that send in each slot of a round, from slot 0 on, in which no slave does. "Only
/// entries that would send a byte count."
pub fn senders_of(slaves: &[Slave], round: u8) -> Vec<Vec<LogicalName>> {
    let senders_in = |slot| slaves.iter().filter(move |slave| would_send(slave, round, slot));
    (0..SLOTS).map(|slot| senders_in(slot).map(Slave::logical_name).collect()).collect()
}

/// "20, two slaves send in one slot of a round": two slaves, whatever their names.
fn two_send_in_one_slot(slaves: &[Slave], round: u8) -> bool {
    senders_of(slaves, round).iter().any(|senders| senders.len() >= 2)
}

fn owner_file(slaves: &[Slave], master: LogicalName) -> Vec<u8> {
    let mut index = Vec::new();
    let mut rows: Vec<u8> = Vec::new();
    for round in 0..ROUNDS {
        if OWNED.contains(&round) {
            index.push((FIRST_RECORD + rows.len() / RECORD_BYTES) as u8);
            rows.extend(padded(owners(slaves, master, round)));
        } else {
            index.push(NOBODY);
        }
    }
    [vec![NOBODY; RECORD_BYTES], index, rows].concat()
}

/// "the logical name that sends in slot 0 up to the last slot one sends in, 0x00 where none does, slot 0 being the
/// master's name"
fn owners(slaves: &[Slave], master: LogicalName, round: u8) -> Vec<u8> {
    let mut senders = senders_of(slaves, round);
    senders[0] = vec![master];
    while senders.last().is_some_and(Vec::is_empty) {
        senders.pop();
    }
    senders.iter().map(|names| names.first().map_or(NOBODY, |name| name.0)).collect()
}

/// "Each round begins at byte 0 of a record"
fn padded(mut row: Vec<u8>) -> Vec<u8> {
    row.resize(row.len().next_multiple_of(RECORD_BYTES), NOBODY);
    row
}
