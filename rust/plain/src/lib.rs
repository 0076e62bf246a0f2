//! The calls of document 01, with the fourteen requests of document 02, as an engineer who cares for
//! speed writes them: on the bytes in place, one walk over the file a call, no copy of it and no allocation.
//! It is the measure for the engine's speed, and is itself compared with the model.
//!
//! Each call answers 0 or the document's number. A refusal alters nothing that was lent.

#![forbid(unsafe_code)]

mod contents;
mod conversion;
mod edition;
mod frames;
mod join;
mod master_slave;
mod multipartner;
mod naming;
mod nested;
mod owner;
mod pattern;
mod screens;
mod summary;
mod survey;
mod trace;

pub use contents::contents;
pub use conversion::{to_edition_1, to_edition_2};
pub use frames::{read_address, write_address, write_data};
pub use join::join;
pub use naming::{start, step};
pub use owner::owner;
pub use pattern::pattern;
pub use screens::{post, screens, turn};
pub use summary::{fill, holder, round_keeping, step_keeping};
pub use trace::{trace, trace_in_nested_loops};

use edition::{in_edition, Edition};
use frames::{round_of, MSA, MSD};
use master_slave::{Pending, WRITE};
use survey::Survey;

pub(crate) const ANSWER_BYTES: usize = 64;
pub(crate) const BROADCAST: u8 = 0x00;
pub(crate) const UNNAMED: u8 = 0xFF;
pub(crate) const CONFIGURATION: u8 = 0x08;
pub(crate) const DOCUMENTATION: u8 = 0x3D;

/// A file from outside: the grounds of every call, and 22.
pub fn check(file: &[u8]) -> u8 {
    in_edition!(file, check_in(file))
}

fn check_in<const ENTRY: usize>(file: &[u8]) -> u8 {
    let mut survey = Survey::<ENTRY>::new();
    match survey.walk(file) {
        0 if survey.equal_logical_names() => 22,
        ground => ground,
    }
}

/// One frame on a file.
pub fn round(file: &mut [u8], frame: &[u8], answer: &mut [u8], senders: &mut u64) -> u8 {
    in_edition!(file, round_in(multipartner::run, file, frame, answer, senders))
}

/// The same, with multipartner rounds in the form that document 01 names.
pub fn round_in_nested_loops(file: &mut [u8], frame: &[u8], answer: &mut [u8], senders: &mut u64) -> u8 {
    in_edition!(file, round_in(nested::run, file, frame, answer, senders))
}

#[inline(always)]
fn round_in<const ENTRY: usize>(
    run_partners: impl Fn(&mut [u8], &Survey<ENTRY>, u8, &mut [u8; ANSWER_BYTES]) -> u64,
    file: &mut [u8],
    frame: &[u8],
    answer: &mut [u8],
    senders: &mut u64,
) -> u8 {
    let mut survey = Survey::new();
    let ground = survey.walk(file);
    if ground != 0 {
        return ground;
    }
    let Some(answer) = answer.first_chunk_mut::<ANSWER_BYTES>() else {
        return 9;
    };
    carry_out(run_partners, file, &mut survey, frame, answer, senders)
}

/// One frame on an accepted file: 0, or its ground of 10 to 14.
#[inline(always)]
fn carry_out<const ENTRY: usize>(
    run_partners: impl Fn(&mut [u8], &Survey<ENTRY>, u8, &mut [u8; ANSWER_BYTES]) -> u64,
    file: &mut [u8],
    survey: &mut Survey<ENTRY>,
    frame: &[u8],
    answer: &mut [u8; ANSWER_BYTES],
    senders: &mut u64,
) -> u8 {
    match *frame {
        [] => 10,
        [MSA, ..] => {
            let ground = address_round::<ENTRY>(file, frame);
            if ground == 0 {
                *answer = silence(MSA);
                *senders = 0;
            }
            ground
        }
        [MSD, ..] => data_round(file, survey, frame, answer, senders),
        [firework, ..] => {
            let round = match partner_round(frame) {
                Ok(round) => round,
                Err(ground) => return ground,
            };
            raise_epoch::<ENTRY>(file);
            *answer = silence(firework);
            *senders = run_partners(file, survey, round, answer);
            survey.rest(file, 0);
            0
        }
    }
}

/// The round of a frame that is neither MSA nor MSD, or its ground, 10 or 11.
#[inline(always)]
pub(crate) fn partner_round(frame: &[u8]) -> Result<u8, u8> {
    match *frame {
        [firework, ref rest @ ..] => match round_of(firework) {
            Some(round) if rest.is_empty() => Ok(round),
            Some(_) => Err(11),
            None => Err(10),
        },
        [] => Err(10),
    }
}

#[inline(always)]
pub(crate) fn raise_epoch<const ENTRY: usize>(file: &mut [u8]) {
    let epoch = &mut file[Edition::of::<ENTRY>().epoch];
    *epoch = epoch.wrapping_add(1);
}

/// What an address frame does to the file: 0, or its ground.
#[inline(always)]
pub(crate) fn address_round<const ENTRY: usize>(file: &mut [u8], frame: &[u8]) -> u8 {
    let ground = frames::address_ground(frame);
    if let (0, &[_, epoch, name, pb2, record, _]) = (ground, frame) {
        file[Edition::of::<ENTRY>().epoch] = epoch;
        Pending { name, pb2, record }.store::<ENTRY>(file);
    }
    ground
}

#[inline(always)]
fn data_round<const ENTRY: usize>(
    file: &mut [u8],
    survey: &mut Survey<ENTRY>,
    frame: &[u8],
    answer: &mut [u8; ANSWER_BYTES],
    senders: &mut u64,
) -> u8 {
    let pending = Pending::of::<ENTRY>(file);
    let data = match data_of(frame, pending) {
        Ok(data) => data,
        Err(ground) => return ground,
    };
    raise_epoch::<ENTRY>(file);
    *answer = silence(MSD);
    *senders = pending.map_or(0, |pending| pending.send(file, survey, answer));
    let sleepers = pending.map_or(0, |pending| pending.alter(file, survey, data));
    survey.rest(file, sleepers);
    0
}

/// The bytes that a data frame writes, zeros where no write is pending, or its ground, 11 or 12.
#[inline(always)]
pub(crate) fn data_of(frame: &[u8], pending: Option<Pending>) -> Result<[u8; 4], u8> {
    match (pending, frame) {
        (Some(Pending { pb2, .. }), _) if pb2 & 3 == WRITE => match (frames::data_ground(frame), frame) {
            (0, &[_, a, b, c, d, _]) => Ok([a, b, c, d]),
            (ground, _) => Err(ground),
        },
        (_, [_]) => Ok([0; 4]),
        _ => Err(11),
    }
}

/// The answer to a firework before anyone has sent.
#[inline(always)]
pub(crate) fn silence(firework: u8) -> [u8; ANSWER_BYTES] {
    let mut answer = [0xFF; ANSWER_BYTES];
    answer[0] = firework;
    answer
}

/// Four bytes as one number. A place outside panics, so it is called for places of an accepted file only.
#[inline(always)]
pub(crate) fn u32_at(file: &[u8], place: usize) -> u32 {
    let bytes: [u8; 4] = file[place..place + 4].try_into().expect("four bytes");
    u32::from_be_bytes(bytes)
}

#[inline(always)]
pub(crate) fn u64_at(file: &[u8], place: usize) -> u64 {
    let bytes: [u8; 8] = file[place..place + 8].try_into().expect("eight bytes");
    u64::from_be_bytes(bytes)
}
