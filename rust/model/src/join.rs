//! "Joining two clusters" (document 02, request 13): "When two bus segments are cabled together, planners join their files."

use crate::{check, Cluster, LogicalName, Pending, Refusal, Slave};

/// "29, a physical name in both files"
const SHARED_PHYSICAL_NAME: Refusal = Refusal(29);
/// "30, the joined file exceeds the edition's limits or the buffer"
const JOINED_LIMITS: Refusal = Refusal(30);

/// "in this order after 8, the first file being checked before the second": grounds 1 to 8 on the first, then on the
/// second, then 29 and 30. What is written in the front of the buffer is the joined file, whole; its length.
pub fn join(first: &[u8], second: &[u8], buffer: &mut [u8]) -> Result<usize, Refusal> {
    let (first, second) = (check(first)?, check(second)?);
    if share_a_physical_name(&first, &second) {
        return Err(SHARED_PHYSICAL_NAME);
    }
    let joined = joined(&first, &second);
    if joined.exceeds_limits() {
        return Err(JOINED_LIMITS);
    }
    let Some(front) = buffer.get_mut(..joined.length()) else {
        return Err(JOINED_LIMITS);
    };
    front.copy_from_slice(&joined.encode());
    Ok(joined.length())
}

fn share_a_physical_name(first: &Cluster, second: &Cluster) -> bool {
    let names: Vec<u64> = first.slaves.iter().map(Slave::physical_name).collect();
    second.slaves.iter().any(|slave| names.contains(&slave.physical_name()))
}

/// "The result holds the first file's slaves and then the second's, with epoch and pending bytes 0 and all awake." "The
/// result has the edition of the first."
fn joined(first: &Cluster, second: &Cluster) -> Cluster {
    let of_second = second.slaves.iter().map(|slave| beside(first, slave));
    let mut slaves: Vec<Slave> = first.slaves.iter().cloned().chain(of_second).collect();
    slaves.iter_mut().for_each(|slave| slave.asleep = false);
    let pending = Pending { flag: false, name: LogicalName(0), pb2: 0, pb3: 0 };
    Cluster { edition: first.edition, epoch: 0, pending, slaves }
}

/// "A slave of the second whose logical name the first also holds becomes 0xFF (byte 3 of record 1 of 0x08). Every other
/// byte of every record stays the same." 0x00 is a logical name too, and a sleeper holds its own.
fn beside(first: &Cluster, slave: &Slave) -> Slave {
    let mut slave = slave.clone();
    let name = slave.logical_name();
    if first.slaves.iter().any(|holder| holder.logical_name() == name) {
        slave.set_logical_name(LogicalName::UNNAMED);
    }
    slave
}
