//! The naming run: the operation of each step is carried out straight on the file, since the frames that
//! would say it are whole by themselves.

use crate::edition::{in_edition, Edition};
use crate::frames::MSD;
use crate::master_slave::{
    baptize, compare, read, write_configuration, Pending, BAPTIZE, COMPARE, EXECUTE_CONFIGURATION, READ, WRITE,
};
use crate::survey::Survey;
use crate::{silence, ANSWER_BYTES, BROADCAST, CONFIGURATION, DOCUMENTATION, UNNAMED};

const RUNNING: u64 = 0;
const ALL_NAMED: u64 = 1;
const NAMES_USED_UP: u64 = 2;
const COUNT_LIMIT: u64 = 1_000_000;
const LAST_STEP: u64 = 199;

/// End, index, step, value, rounds, comparisons, and the halves last written.
pub type Run = [u64; 8];

pub fn start(names: &[u8], run: &mut Run) -> u8 {
    let ground = names_ground(names);
    if ground != 0 {
        return ground;
    }
    let end = if names.is_empty() { NAMES_USED_UP } else { RUNNING };
    *run = [end, 0, 0, 0, 0, 0, 0, 0];
    0
}

pub fn step(file: &mut [u8], run: &mut Run, names: &[u8], answer: &mut [u8], senders: &mut u64) -> u8 {
    in_edition!(file, step_in(file, run, names, answer, senders))
}

#[inline(always)]
fn step_in<const ENTRY: usize>(
    file: &mut [u8],
    run: &mut Run,
    names: &[u8],
    answer: &mut [u8],
    senders: &mut u64,
) -> u8 {
    let mut survey = Survey::<ENTRY>::new();
    let ground = survey.walk(file);
    if ground != 0 {
        return ground;
    }
    step_on(file, &mut survey, run, names, answer, senders)
}

/// A step on an accepted file: 0, or 9 or 15 to 17.
#[inline(always)]
pub fn step_on<const ENTRY: usize>(
    file: &mut [u8],
    survey: &mut Survey<ENTRY>,
    run: &mut Run,
    names: &[u8],
    answer: &mut [u8],
    senders: &mut u64,
) -> u8 {
    let Some(answer) = answer.first_chunk_mut::<ANSWER_BYTES>() else {
        return 9;
    };
    let ground = names_ground(names);
    if ground != 0 {
        return ground;
    }
    if is_no_position(run, names.len() as u64) {
        return 17;
    }
    if run[0] == RUNNING {
        *answer = silence(MSD);
        *senders = carry_on(file, survey, run, names, answer);
        // Each round ends with an MSD, and none of them puts anyone to sleep.
        survey.rest(file, 0);
    }
    0
}

/// Grounds 15 and 16 in one pass over the list.
#[inline(always)]
fn names_ground(names: &[u8]) -> u8 {
    if let [only] = *names {
        return if only == BROADCAST || only == UNNAMED { 15 } else { 0 };
    }
    let mut seen = [false; 256];
    let mut twice = false;
    for &name in names {
        twice |= seen[usize::from(name)];
        seen[usize::from(name)] = true;
    }
    if seen[usize::from(BROADCAST)] || seen[usize::from(UNNAMED)] {
        15
    } else if twice {
        16
    } else {
        0
    }
}

fn is_no_position(&[end, index, step, _, rounds, comparisons, ..]: &Run, length: u64) -> bool {
    if end == RUNNING {
        index >= length || step > LAST_STEP || rounds >= COUNT_LIMIT || comparisons >= COUNT_LIMIT
    } else {
        end > NAMES_USED_UP || index > length
    }
}

/// One round of a running position; returns its mask.
#[inline(always)]
fn carry_on<const ENTRY: usize>(
    file: &mut [u8],
    survey: &mut Survey<ENTRY>,
    run: &mut Run,
    names: &[u8],
    answer: &mut [u8; ANSWER_BYTES],
) -> u64 {
    let [end, index, step, value, rounds, _, high, low] = run;
    let name = names[*index as usize];
    // The address frame puts the epoch to one more, the data frame adds one.
    let epoch = &mut file[Edition::of::<ENTRY>().epoch];
    *epoch = epoch.wrapping_add(2);
    *rounds += 1;
    if *rounds == 1 {
        // The extra read, whose reply is ignored.
        return poll(file, survey, names[0], answer);
    }
    match *step {
        0 => {
            let senders = poll(file, survey, name, answer);
            *step = 1;
            if senders != 0 {
                finish_name(end, index, step, names.len());
            }
            senders
        }
        1..=195 => compare_on(file, survey, run, answer),
        196 => {
            *step = next_made(197, 197, *value, *high, *low);
            write_unnamed(file, survey, 1, [0, 0, name])
        }
        _ => give(file, survey, run, names.len()),
    }
}

/// Reads the first half of the physical name of whoever holds a name.
#[inline]
fn poll<const ENTRY: usize>(
    file: &mut [u8],
    survey: &Survey<ENTRY>,
    name: u8,
    answer: &mut [u8; ANSWER_BYTES],
) -> u64 {
    Pending { name, pb2: DOCUMENTATION << 2 | READ, record: 1 }.store::<ENTRY>(file);
    read(file, survey, name, DOCUMENTATION, 1, answer)
}

/// Places 1 to 195: comparisons of three places each, with 0 and then with each bit from 63 down.
#[inline]
fn compare_on<const ENTRY: usize>(
    file: &mut [u8],
    survey: &Survey<ENTRY>,
    run: &mut Run,
    answer: &mut [u8; ANSWER_BYTES],
) -> u64 {
    let [end, _, step, value, _, comparisons, high, low] = run;
    let comparison = (*step - 1) / 3;
    let first = 1 + 3 * comparison;
    let (sent, place) = if comparison == 0 {
        (0, *step)
    } else {
        let sent = *value | 1 << (64 - comparison);
        (sent, next_made(*step, first, sent, *high, *low))
    };
    match place - first {
        0 => {
            let is_low_written = comparison != 0 && low_half(sent) == *low;
            *step = first + 1 + u64::from(is_low_written);
            write_half(file, survey, 2, high, sent >> 32)
        }
        1 => {
            *step = first + 2;
            write_half(file, survey, 3, low, low_half(sent))
        }
        _ => {
            *comparisons += 1;
            execute_unnamed::<ENTRY>(file, COMPARE);
            let senders = compare(file, survey, UNNAMED, answer);
            if senders != 0 {
                *value = sent;
            } else if comparison == 0 {
                *end = ALL_NAMED;
                *step = 3;
                return senders;
            }
            *step = match comparison {
                64 => 196,
                _ => next_made(first + 3, first + 3, *value | 1 << (63 - comparison), *high, *low),
            };
            senders
        }
    }
}

/// Places 197 to 199: the two halves of the value, and the baptism.
#[inline]
fn give<const ENTRY: usize>(file: &mut [u8], survey: &mut Survey<ENTRY>, run: &mut Run, length: usize) -> u64 {
    let [end, index, step, value, _, _, high, low] = run;
    match next_made(*step, 197, *value, *high, *low) {
        197 => {
            *step = 198 + u64::from(low_half(*value) == *low);
            write_half(file, survey, 2, high, *value >> 32)
        }
        198 => {
            *step = 199;
            write_half(file, survey, 3, low, low_half(*value))
        }
        _ => {
            execute_unnamed::<ENTRY>(file, BAPTIZE);
            finish_name(end, index, step, length);
            baptize(file, survey, UNNAMED);
            0
        }
    }
}

/// Of three places from `first` on, which write the halves of a value and execute, the next from `place` on whose
/// round is made: a half that is the one last written is not written again.
#[inline]
fn next_made(place: u64, first: u64, sent: u64, high: u64, low: u64) -> u64 {
    if place == first && sent >> 32 != high {
        first
    } else if place <= first + 1 && low_half(sent) != low {
        first + 1
    } else {
        first + 2
    }
}

fn low_half(value: u64) -> u64 {
    value & u64::from(u32::MAX)
}

fn finish_name(end: &mut u64, index: &mut u64, step: &mut u64, length: usize) {
    *index += 1;
    *step = 0;
    if *index == length as u64 {
        *end = NAMES_USED_UP;
    }
}

fn execute_unnamed<const ENTRY: usize>(file: &mut [u8], record: u8) {
    Pending { name: UNNAMED, pb2: EXECUTE_CONFIGURATION, record }.store::<ENTRY>(file);
}

/// Writes a half of a comparison value and keeps it.
#[inline]
fn write_half<const ENTRY: usize>(
    file: &mut [u8],
    survey: &Survey<ENTRY>,
    record: u8,
    kept: &mut u64,
    half: u64,
) -> u64 {
    *kept = half;
    write_unnamed(file, survey, record, (half as u32).to_be_bytes())
}

/// Nobody sends at a write. Of record 1 the last byte, the logical name, is not written.
#[inline]
fn write_unnamed<const ENTRY: usize, const BYTES: usize>(
    file: &mut [u8],
    survey: &Survey<ENTRY>,
    record: u8,
    data: [u8; BYTES],
) -> u64 {
    Pending { name: UNNAMED, pb2: CONFIGURATION << 2 | WRITE, record }.store::<ENTRY>(file);
    write_configuration(file, survey, UNNAMED, record, data);
    0
}
