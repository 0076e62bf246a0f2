//! Who holds a name: the logical names beside the file, looked at in place of it.

use crate::edition::in_edition;
use crate::master_slave::{Pending, BAPTIZE, EXECUTE_CONFIGURATION};
use crate::survey::{Survey, BYTES_OF_A_WORD, EACH_BYTE};
use crate::{carry_out, multipartner, naming, ANSWER_BYTES};

const NO_SUMMARY: u8 = 24;
/// The place of nobody.
const NOBODY: u64 = u64::MAX;

pub fn fill(file: &[u8], held: &mut [u8], count: &mut u64) -> u8 {
    in_edition!(file, fill_in(file, held, count))
}

#[inline(always)]
fn fill_in<const ENTRY: usize>(file: &[u8], held: &mut [u8], count: &mut u64) -> u8 {
    let mut survey = Survey::<ENTRY>::new();
    let ground = survey.walk(file);
    if ground != 0 {
        return ground;
    }
    let names = survey.names();
    let Some(front) = held.get_mut(..names.len()) else {
        return NO_SUMMARY;
    };
    front.copy_from_slice(names);
    *count = names.len() as u64;
    0
}

pub fn holder(held: &[u8], count: u64, name: u8, place: &mut u64) -> u8 {
    let Some(names) = usize::try_from(count).ok().and_then(|count| held.get(..count)) else {
        return NO_SUMMARY;
    };
    *place = place_of(names, name);
    0
}

/// The first place of a name, or that of nobody; eight names are looked at together.
#[inline(always)]
fn place_of(names: &[u8], name: u8) -> u64 {
    const HIGH_BITS: u64 = 0x80 * EACH_BYTE;
    let mut rest = names;
    while let Some((word, after)) = rest.split_first_chunk::<BYTES_OF_A_WORD>() {
        let differences = u64::from_le_bytes(*word) ^ (EACH_BYTE * u64::from(name));
        // The lowest of these bits is that of the first byte without a difference.
        let equals = differences.wrapping_sub(EACH_BYTE) & !differences & HIGH_BITS;
        if equals != 0 {
            return (names.len() - rest.len()) as u64 + u64::from(equals.trailing_zeros() / u8::BITS);
        }
        rest = after;
    }
    let passed = names.len() - rest.len();
    rest.iter().position(|&held| held == name).map_or(NOBODY, |place| (passed + place) as u64)
}

pub fn round_keeping(
    file: &mut [u8],
    frame: &[u8],
    answer: &mut [u8],
    senders: &mut u64,
    held: &mut [u8],
    count: u64,
) -> u8 {
    in_edition!(file, round_keeping_in(file, frame, answer, senders, held, count))
}

#[inline(always)]
fn round_keeping_in<const ENTRY: usize>(
    file: &mut [u8],
    frame: &[u8],
    answer: &mut [u8],
    senders: &mut u64,
    held: &mut [u8],
    count: u64,
) -> u8 {
    let mut survey = Survey::<ENTRY>::new();
    let ground = survey.walk(file);
    if ground != 0 {
        return ground;
    }
    if !is_true(&survey, held, count) {
        return NO_SUMMARY;
    }
    let Some(answer) = answer.first_chunk_mut::<ANSWER_BYTES>() else {
        return 9;
    };
    let ground = carry_out(multipartner::run, file, &mut survey, frame, answer, senders);
    keep(ground, file, &survey, held)
}

pub fn step_keeping(
    file: &mut [u8],
    run: &mut naming::Run,
    names: &[u8],
    answer: &mut [u8],
    senders: &mut u64,
    held: &mut [u8],
    count: u64,
) -> u8 {
    in_edition!(file, step_keeping_in(file, run, names, answer, senders, held, count))
}

#[inline(always)]
fn step_keeping_in<const ENTRY: usize>(
    file: &mut [u8],
    run: &mut naming::Run,
    names: &[u8],
    answer: &mut [u8],
    senders: &mut u64,
    held: &mut [u8],
    count: u64,
) -> u8 {
    let mut survey = Survey::<ENTRY>::new();
    let ground = survey.walk(file);
    if ground != 0 {
        return ground;
    }
    if !is_true(&survey, held, count) {
        return NO_SUMMARY;
    }
    let ground = naming::step_on(file, &mut survey, run, names, answer, senders);
    keep(ground, file, &survey, held)
}

/// Whether the first `count` bytes are the names of the file's slaves.
#[inline(always)]
fn is_true<const ENTRY: usize>(survey: &Survey<ENTRY>, held: &[u8], count: u64) -> bool {
    let names = survey.names();
    names.len() as u64 == count && held.get(..names.len()) == Some(names)
}

/// Names change by baptizing alone, which then still stands in the header; what the call answers goes through.
#[inline(always)]
fn keep<const ENTRY: usize>(ground: u8, file: &[u8], survey: &Survey<ENTRY>, held: &mut [u8]) -> u8 {
    let pending = Pending::of::<ENTRY>(file);
    if let (0, Some(Pending { pb2: EXECUTE_CONFIGURATION, record: BAPTIZE, .. })) = (ground, pending) {
        let names = survey.names();
        held[..names.len()].copy_from_slice(names);
    }
    ground
}
