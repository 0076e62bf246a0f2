//! Random captured traces.

use super::inputs;
use super::random::Random;
use crate::layout::{ROW_BYTES, TRACE_HEADER_BYTES};
use model::{encode_trace, Cluster, MOST_TRACE_BYTES};

const MOST_FRAME_BYTES: usize = 255;
/// So many traces on one that is as long as a trace may be, or a byte longer.
const TRACES_FOR_A_LONGEST: usize = 100;

/// A trace for this cluster; the layout of every third is broken.
pub fn trace(random: &mut Random, cluster: &Cluster) -> Vec<u8> {
    let mut frames = captured(random, cluster);
    if random.once_in(TRACES_FOR_A_LONGEST) {
        let length = MOST_TRACE_BYTES + random.below(2);
        fill_up(random, &mut frames, length);
    }
    let mut trace = encode_trace(&frames);
    if random.once_in(3) {
        break_layout(random, &mut trace);
    }
    trace
}

/// Frames that follow one another, so that data frames meet what is pending; empty ones and noise among them.
fn captured(random: &mut Random, cluster: &Cluster) -> Vec<Vec<u8>> {
    let mut cluster = cluster.clone();
    let mut frames = Vec::new();
    for _ in 0..frame_count(random) {
        let frame = match random.below(20) {
            0 => Vec::new(),
            1 => noise(random),
            _ => inputs::frame(random, &cluster),
        };
        // A refused frame leaves the cluster as it is.
        let _ = cluster.take(&frame);
        frames.push(frame);
    }
    frames
}

fn frame_count(random: &mut Random) -> usize {
    match random.below(40) {
        0 | 1 => 0,
        2 => random.between(50, 200),
        _ => random.between(1, 12),
    }
}

fn noise(random: &mut Random) -> Vec<u8> {
    let length = random.between(0, MOST_FRAME_BYTES);
    random.bytes(length)
}

/// Adds noise, so that the trace has exactly so many bytes.
fn fill_up(random: &mut Random, frames: &mut Vec<Vec<u8>>, length: usize) {
    let mut missing = length.saturating_sub(encode_trace(frames).len());
    while missing >= ROW_BYTES {
        // What is left is nothing or room for another row.
        let rest = missing - ROW_BYTES;
        let taken = if rest > MOST_FRAME_BYTES { MOST_FRAME_BYTES - ROW_BYTES } else { rest };
        frames.push(random.bytes(taken));
        missing = rest - taken;
    }
}

/// Damages one thing that the layout fixes; now and then there is nothing to damage, or it turns out as it was.
fn break_layout(random: &mut Random, trace: &mut Vec<u8>) {
    let rows = (trace.len() - TRACE_HEADER_BYTES)
        .min(ROW_BYTES * usize::from(u16::from_be_bytes([trace[0], trace[1]])));
    let row = TRACE_HEADER_BYTES + ROW_BYTES * random.below((rows / ROW_BYTES).max(1));
    let last_row = (TRACE_HEADER_BYTES + rows).saturating_sub(ROW_BYTES).max(TRACE_HEADER_BYTES);
    match random.below(12) {
        0 => trace.truncate(random.between(0, TRACE_HEADER_BYTES)),
        1 => trace.truncate(random.below(trace.len())),
        2 => trace.truncate(trace.len() - 1),
        3 => trace.push(random.byte()),
        4 => alter_number(random, trace, 0),
        5 => alter_number(random, trace, 2),
        6 => alter_number(random, trace, row),
        7 => alter_number(random, trace, last_row),
        8 => alter_length(random, trace, row),
        9 => move_row(random, trace, row, last_row),
        10 => {
            trace.truncate(trace.len() - 1);
            state_data_length(trace, rows);
        }
        _ => {
            trace.push(random.byte());
            state_data_length(trace, rows);
        }
    }
}

/// Alters a number of two bytes by one, or to any value.
fn alter_number(random: &mut Random, trace: &mut [u8], place: usize) {
    let Some(bytes) = trace.get_mut(place..place + 2) else {
        return;
    };
    let number = u16::from_be_bytes([bytes[0], bytes[1]]);
    let any = random.number() as u16;
    let altered = random.one_of(&[number.wrapping_add(1), number.wrapping_sub(1), u16::MAX, any]);
    bytes.copy_from_slice(&altered.to_be_bytes());
}

/// Alters the length of a row's frame.
fn alter_length(random: &mut Random, trace: &mut [u8], row: usize) {
    if let Some(length) = trace.get_mut(row + 2) {
        *length = random.one_of(&[length.wrapping_add(1), length.wrapping_sub(1), 0, 255]);
    }
}

/// Exchanges two rows, or puts one in the place of the other, so that frames overlap and bytes are left over.
fn move_row(random: &mut Random, trace: &mut [u8], row: usize, other: usize) {
    if other + ROW_BYTES > trace.len() {
        return;
    }
    if random.once_in(2) {
        trace.copy_within(row..row + ROW_BYTES, other);
    } else {
        (0..ROW_BYTES).for_each(|place| trace.swap(row + place, other + place));
    }
}

/// Puts the data length to what follows the rows, so that only the frames can tell what is wrong.
fn state_data_length(trace: &mut [u8], rows: usize) {
    if let Some(length) = trace.len().checked_sub(TRACE_HEADER_BYTES + rows) {
        trace[2..4].copy_from_slice(&(length as u16).to_be_bytes());
    }
}
