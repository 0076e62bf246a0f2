//! Rounds on clusters with sleepers, one of which would do what is pending if it were awake.

use super::clusters::{cluster_of, give_record};
use super::inputs::fitting_data;
use super::random::Random;
use crate::campaign::Campaign;
use crate::case::Call;
use crate::frames::MULTIPARTNER;
use model::{check, Cluster, FileNumber, LogicalName, Pending, Slave};

/// PB2 of a read of 0x3D, a write of 0x08 and an execute of 0x08.
const READ_OF_DOCUMENTATION: u8 = 0xF4;
const WRITE_OF_CONFIGURATION: u8 = 0x21;
const EXECUTE_OF_CONFIGURATION: u8 = 0x22;
const NAMES_RECORD: u8 = 1;
const VALUE_RECORD: u8 = 2;
const SLEEP_RECORD: u8 = 4;
const MOST: usize = 6;

/// So many clusters, each kind of round in turn. The frame is sent twice: by the first it finds sleepers, by the second it
/// finds those awake that have slept.
pub fn rounds(campaign: &mut Campaign, amount: usize, random: &mut Random) {
    for turn in 0..amount {
        let cluster = with_sleepers(random, turn);
        let mut file = cluster.encode();
        for _ in 0..2 {
            let cluster = check(&file).expect("a file that the last call left");
            let frame = match turn % MOST {
                0 => vec![MULTIPARTNER[turn / MOST % MULTIPARTNER.len()]],
                _ => fitting_data(random, &cluster),
            };
            let outcome = campaign.call(&Call::Round { file: file.clone(), frame, answer_length: 64 });
            file = outcome.file.unwrap_or(file);
        }
    }
}

/// Half of the slaves sleep, and the first; what is pending is addressed to it, and to others if they have its name.
fn with_sleepers(random: &mut Random, turn: usize) -> Cluster {
    let count = random.between(2, MOST);
    let mut cluster = cluster_of(random, count);
    cluster.slaves.iter_mut().for_each(|slave| slave.asleep = random.once_in(2));
    let name = addressed_name(random, turn);
    let slave = &mut cluster.slaves[0];
    slave.asleep = true;
    slave.set_logical_name(name);
    let (pb2, pb3) = match turn % MOST {
        1 => (READ_OF_DOCUMENTATION, random.one_of(&[1, 2])),
        2 => (WRITE_OF_CONFIGURATION, random.one_of(&[1, 2, 3])),
        3 => (EXECUTE_OF_CONFIGURATION, compared(random, slave)),
        4 => (EXECUTE_OF_CONFIGURATION, baptized(slave)),
        _ => (EXECUTE_OF_CONFIGURATION, SLEEP_RECORD),
    };
    if turn % MOST == 5 {
        put_beside(random, &mut cluster.slaves, name);
    }
    cluster.pending = Pending { flag: true, name, pb2, pb3 };
    cluster
}

/// A read is answered by slaves that have a name, a comparison by those that are not named 0x00.
fn addressed_name(random: &mut Random, turn: usize) -> LogicalName {
    let others = if turn % MOST == 1 { 0x77 } else { 0xFF };
    LogicalName(random.one_of(&[0x77, others]))
}

/// The comparison value is the physical name or less.
fn compared(random: &mut Random, slave: &mut Slave) -> u8 {
    let less = random.one_of(&[0, 0, 1]);
    put_value(slave, slave.physical_name().saturating_sub(less));
    VALUE_RECORD
}

/// The comparison value is the physical name.
fn baptized(slave: &mut Slave) -> u8 {
    put_value(slave, slave.physical_name());
    NAMES_RECORD
}

fn put_value(slave: &mut Slave, value: u64) {
    let file = slave.file_mut(FileNumber::CONFIGURATION).expect("a slave's own file");
    file.bytes[8..16].copy_from_slice(&value.to_be_bytes());
}

/// Half of the slaves have the name, and most of them record 4.
fn put_beside(random: &mut Random, slaves: &mut [Slave], name: LogicalName) {
    for slave in slaves {
        if random.once_in(2) {
            slave.set_logical_name(name);
        }
        if !random.once_in(4) {
            give_record(random, slave, FileNumber::CONFIGURATION.0, SLEEP_RECORD);
        }
    }
}
