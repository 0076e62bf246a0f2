//! The pending operation, and what addressed slaves do.

use crate::edition::Edition;
use crate::frames::{check_of, MSD};
use crate::survey::{for_each_bit, Survey};
use crate::{u32_at, ANSWER_BYTES, BROADCAST, CONFIGURATION, DOCUMENTATION, UNNAMED};

pub const READ: u8 = 0;
pub const WRITE: u8 = 1;
/// Executes of file 0x08 have this PB2; these are their records.
pub const EXECUTE_CONFIGURATION: u8 = CONFIGURATION << 2 | 2;
pub const BAPTIZE: u8 = 1;
pub const COMPARE: u8 = 2;
pub const SLEEP: u8 = 4;

/// A read's answer is in slots 1 to 5, a comparison's in slot 1.
const READ_SLOTS: u64 = 0b11_1110;
const COMPARE_SLOTS: u64 = 0b10;

/// The operation that an MSD carries out, as the header holds it.
#[derive(Clone, Copy)]
pub struct Pending {
    pub name: u8,
    pub pb2: u8,
    pub record: u8,
}

impl Pending {
    #[inline(always)]
    pub fn of<const ENTRY: usize>(file: &[u8]) -> Option<Pending> {
        let [flag, name, pb2, record] = u32_at(file, flag_place::<ENTRY>()).to_be_bytes();
        (flag == 1).then_some(Pending { name, pb2, record })
    }

    #[inline(always)]
    pub fn store<const ENTRY: usize>(self, file: &mut [u8]) {
        let flag = flag_place::<ENTRY>();
        file[flag..flag + 4].copy_from_slice(&[1, self.name, self.pb2, self.record]);
    }

    /// Puts what is sent into the answer and returns the mask.
    #[inline(always)]
    pub fn send<const ENTRY: usize>(
        self,
        file: &[u8],
        survey: &Survey<ENTRY>,
        answer: &mut [u8; ANSWER_BYTES],
    ) -> u64 {
        match self {
            Pending { pb2, name, record } if pb2 & 3 == READ => {
                read(file, survey, name, pb2 >> 2, record, answer)
            }
            Pending { pb2: EXECUTE_CONFIGURATION, name, record: COMPARE } => {
                compare(file, survey, name, answer)
            }
            _ => 0,
        }
    }

    /// What the operation does to the slaves' records; returns who falls asleep, a bit a slave.
    #[inline(always)]
    pub fn alter<const ENTRY: usize>(self, file: &mut [u8], survey: &mut Survey<ENTRY>, data: [u8; 4]) -> u64 {
        match self {
            Pending { pb2, name, record } if pb2 & 3 == WRITE => {
                write(file, survey, name, pb2 >> 2, record, data)
            }
            Pending { pb2: EXECUTE_CONFIGURATION, name, record: BAPTIZE } => baptize(file, survey, name),
            Pending { pb2: EXECUTE_CONFIGURATION, name, record: SLEEP } => return sleep(file, survey, name),
            _ => {}
        }
        0
    }
}

/// Behind the epoch; the pending bytes come behind it.
fn flag_place<const ENTRY: usize>() -> usize {
    Edition::of::<ENTRY>().epoch + 1
}

/// Those addressed that have the record.
fn sleep<const ENTRY: usize>(file: &[u8], survey: &Survey<ENTRY>, name: u8) -> u64 {
    let mut sleepers = 0;
    for_each_bit(survey.addressed(file, name), |slave| {
        let has_it = survey.record(file, slave, CONFIGURATION, SLEEP).is_some();
        sleepers |= u64::from(has_it) << slave;
    });
    sleepers
}

/// Unnamed slaves never answer, and no accepted read is addressed to 0x00. The records that every slave has
/// are found without a search.
#[inline(always)]
pub fn read<const ENTRY: usize>(
    file: &[u8],
    survey: &Survey<ENTRY>,
    name: u8,
    number: u8,
    record: u8,
    answer: &mut [u8; ANSWER_BYTES],
) -> u64 {
    let offset = 4 * usize::from(record);
    match (number, record) {
        (_, _) if name == UNNAMED => 0,
        (DOCUMENTATION, 0..=2) => {
            read_at(file, survey, name, answer, |slave| Some(survey.documentation(slave) + offset))
        }
        (CONFIGURATION, 0..=3) => {
            read_at(file, survey, name, answer, |slave| Some(survey.configuration(slave) + offset))
        }
        _ => read_at(file, survey, name, answer, |slave| survey.record(file, slave, number, record)),
    }
}

#[inline(always)]
fn read_at<const ENTRY: usize>(
    file: &[u8],
    survey: &Survey<ENTRY>,
    name: u8,
    answer: &mut [u8; ANSWER_BYTES],
    place_of: impl Fn(usize) -> Option<usize>,
) -> u64 {
    let mut senders = 0;
    let mut bytes = u32::MAX;
    let mut checks = u8::MAX;
    for_each_bit(survey.addressed(file, name), |slave| {
        if let Some(place) = place_of(slave) {
            let sent = u32_at(file, place);
            bytes &= sent;
            checks &= check_of(MSD, sent);
            senders = READ_SLOTS;
        }
    });
    answer[1..5].copy_from_slice(&bytes.to_be_bytes());
    answer[5] = checks;
    senders
}

/// Record 1 of 0x08 keeps its last byte, the logical name.
#[inline(always)]
fn write<const ENTRY: usize>(
    file: &mut [u8],
    survey: &Survey<ENTRY>,
    name: u8,
    number: u8,
    record: u8,
    data: [u8; 4],
) {
    match (number, record) {
        (DOCUMENTATION, _) | (_, 0) => {}
        (CONFIGURATION, 1) => {
            let [b0, b1, b2, _] = data;
            write_configuration(file, survey, name, record, [b0, b1, b2]);
        }
        (CONFIGURATION, 2 | 3) => write_configuration(file, survey, name, record, data),
        _ => write_at(file, survey, name, data, |file, slave| survey.record(file, slave, number, record)),
    }
}

/// Writes a record of 0x08 that every slave has, or its first bytes.
#[inline(always)]
pub fn write_configuration<const ENTRY: usize, const BYTES: usize>(
    file: &mut [u8],
    survey: &Survey<ENTRY>,
    name: u8,
    record: u8,
    data: [u8; BYTES],
) {
    let offset = 4 * usize::from(record);
    write_at(file, survey, name, data, |_, slave| Some(survey.configuration(slave) + offset));
}

#[inline(always)]
fn write_at<const ENTRY: usize, const BYTES: usize>(
    file: &mut [u8],
    survey: &Survey<ENTRY>,
    name: u8,
    data: [u8; BYTES],
    place_of: impl Fn(&[u8], usize) -> Option<usize>,
) {
    for_each_bit(survey.addressed(file, name), |slave| {
        if let Some(place) = place_of(file, slave) {
            file[place..place + BYTES].copy_from_slice(&data);
        }
    });
}

/// Execute of record 1 of 0x08.
#[inline(always)]
pub fn baptize<const ENTRY: usize>(file: &mut [u8], survey: &mut Survey<ENTRY>, name: u8) {
    for_each_bit(survey.addressed(file, name), |slave| {
        if survey.physical_name(file, slave) == survey.comparison_value(file, slave) {
            survey.rename(file, slave);
        }
    });
}

/// Execute of record 2 of 0x08. All who reply send 0x00, so one of them settles the answer.
#[inline(always)]
pub fn compare<const ENTRY: usize>(
    file: &[u8],
    survey: &Survey<ENTRY>,
    name: u8,
    answer: &mut [u8; ANSWER_BYTES],
) -> u64 {
    if name == BROADCAST {
        return 0;
    }
    let mut addressed = survey.addressed(file, name);
    while addressed != 0 {
        let slave = (addressed.trailing_zeros() & 63) as usize;
        if survey.physical_name(file, slave) >= survey.comparison_value(file, slave) {
            answer[1] = 0;
            return COMPARE_SLOTS;
        }
        addressed &= addressed - 1;
    }
    0
}
