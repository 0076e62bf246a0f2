//! Running a captured trace: one walk over the file for all frames, each taken from the trace in place. Nobody hears the
//! answers, so they are not made: a read or a comparison does nothing but raise the epoch.

use crate::edition::in_edition;
use crate::frames::{MSA, MSD};
use crate::master_slave::Pending;
use crate::survey::Survey;
use crate::{address_round, data_of, multipartner, nested, partner_round, raise_epoch, ANSWER_BYTES};

const MOST_BYTES: usize = 16_384;
const HEADER_BYTES: usize = 4;
const ROW_BYTES: usize = 3;

/// The report's words: frames by what came of them, and their sum.
const MSA_FRAMES: usize = 0;
const MSD_FRAMES: usize = 1;
const MULTIPARTNER_FRAMES: usize = 2;
const REFUSED_FRAMES: usize = 3;

pub fn trace(file: &mut [u8], trace: &[u8], report: &mut [u64; 5]) -> u8 {
    in_edition!(file, trace_in(multipartner::run, file, trace, report))
}

/// The same, with multipartner rounds in the form that document 01 names.
pub fn trace_in_nested_loops(file: &mut [u8], trace: &[u8], report: &mut [u64; 5]) -> u8 {
    in_edition!(file, trace_in(nested::run, file, trace, report))
}

#[inline(always)]
fn trace_in<const ENTRY: usize>(
    run_partners: impl Fn(&mut [u8], &Survey<ENTRY>, u8, &mut [u8; ANSWER_BYTES]) -> u64,
    file: &mut [u8],
    trace: &[u8],
    report: &mut [u64; 5],
) -> u8 {
    let mut survey = Survey::new();
    let ground = survey.walk(file);
    if ground != 0 {
        return ground;
    }
    let Some((table, mut data)) = parts_of(trace) else {
        return 19;
    };
    let mut counts = [0; 4];
    for &[_, _, length] in table {
        let (frame, rest) = data.split_at(usize::from(length));
        data = rest;
        counts[carry_out_unheard(&run_partners, file, &mut survey, frame) & 3] += 1;
    }
    let [msa, msd, multipartner, refused] = counts;
    *report = [msa, msd, multipartner, refused, table.len() as u64];
    0
}

/// What a frame does to the file; returns as what it counts.
#[inline(always)]
fn carry_out_unheard<const ENTRY: usize>(
    run_partners: impl Fn(&mut [u8], &Survey<ENTRY>, u8, &mut [u8; ANSWER_BYTES]) -> u64,
    file: &mut [u8],
    survey: &mut Survey<ENTRY>,
    frame: &[u8],
) -> usize {
    match frame {
        [MSA, ..] => match address_round::<ENTRY>(file, frame) {
            0 => MSA_FRAMES,
            _ => REFUSED_FRAMES,
        },
        [MSD, ..] => {
            let pending = Pending::of::<ENTRY>(file);
            let Ok(data) = data_of(frame, pending) else {
                return REFUSED_FRAMES;
            };
            raise_epoch::<ENTRY>(file);
            let sleepers = pending.map_or(0, |pending| pending.alter(file, survey, data));
            survey.rest(file, sleepers);
            MSD_FRAMES
        }
        _ => {
            let Ok(round) = partner_round(frame) else {
                return REFUSED_FRAMES;
            };
            raise_epoch::<ENTRY>(file);
            run_partners(file, survey, round, &mut [0; ANSWER_BYTES]);
            survey.rest(file, 0);
            MULTIPARTNER_FRAMES
        }
    }
}

/// The rows of the table and the data, or None where the layout is broken.
fn parts_of(trace: &[u8]) -> Option<(&[[u8; ROW_BYTES]], &[u8])> {
    let &[count_high, count_low, length_high, length_low] = trace.first_chunk()?;
    let count = usize::from(u16::from_be_bytes([count_high, count_low]));
    let data_length = usize::from(u16::from_be_bytes([length_high, length_low]));
    let data_place = HEADER_BYTES + ROW_BYTES * count;
    if trace.len() > MOST_BYTES || trace.len() != data_place + data_length {
        return None;
    }
    let (table, data) = trace[HEADER_BYTES..].split_at(ROW_BYTES * count);
    let table = table.as_chunks().0;
    let mut place = 0;
    for &[offset_high, offset_low, length] in table {
        if usize::from(u16::from_be_bytes([offset_high, offset_low])) != place {
            return None;
        }
        place += usize::from(length);
    }
    // Places only rise, so if the last frame ends with the data none ends past it.
    (place == data_length).then_some((table, data))
}
