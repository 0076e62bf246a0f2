//! The frames of a captured trace. Its layout: "frame count (2 bytes), data length (2), then for each frame its offset in the data
//! (2) and length (1), then the data, filled by the frames in order without gap" (document 02, request 2).

use crate::cluster::{Cluster, Pending};
use crate::layout::{number, Edition};
use ttpa::TtpaError;

const HEADER_BYTES: usize = 4;
const ENTRY_BYTES: usize = 3;
const NUMBER_BYTES: usize = 2;
/// The length of a frame is one byte.
pub const MOST_FRAME_BYTES: usize = u8::MAX as usize;

/// A trace of these frames, each of at most [`MOST_FRAME_BYTES`]. Where there are too many of them it is too long, and the engine
/// refuses it.
pub fn encode(frames: &[Vec<u8>]) -> Vec<u8> {
    let data = frames.concat();
    let mut trace = Vec::new();
    trace.extend((frames.len() as u16).to_be_bytes());
    trace.extend((data.len() as u16).to_be_bytes());
    let mut offset = 0;
    for frame in frames {
        trace.extend((offset as u16).to_be_bytes());
        trace.push(frame.len() as u8);
        offset += frame.len();
    }
    trace.extend(data);
    trace
}

/// The frames of a trace that the engine takes.
pub fn frames(trace: &[u8]) -> Result<Vec<&[u8]>, TtpaError> {
    judged(trace)?;
    let count = trace.get(..NUMBER_BYTES).map_or(0, number) as usize;
    let entries = trace.get(HEADER_BYTES..).unwrap_or_default().chunks(ENTRY_BYTES).take(count);
    let data = trace.get(HEADER_BYTES + ENTRY_BYTES * count..).unwrap_or_default();
    Ok(entries
        .map(|entry| {
            let (offset, length) = entry.split_at(NUMBER_BYTES);
            let offset = number(offset) as usize;
            data.get(offset..offset + number(length) as usize).unwrap_or_default()
        })
        .collect())
}

/// Whether the engine takes a trace: it is run on a cluster without slaves.
pub fn judged(trace: &[u8]) -> Result<(), TtpaError> {
    ttpa::trace(&mut without_slaves(0), trace).map(|_| ())
}

/// The file of a cluster without slaves. What frames are taken does not depend on slaves, nor does the epoch.
pub fn without_slaves(epoch: u8) -> Vec<u8> {
    Cluster { edition: Edition::One, epoch, pending: Pending::default(), slaves: Vec::new() }.encode()
}

#[cfg(test)]
mod tests {
    use super::*;

    #[test]
    fn frames_come_back() {
        let frames_of = |bytes: &[&[u8]]| bytes.iter().map(|frame| frame.to_vec()).collect::<Vec<_>>();
        for list in [vec![], vec![&[0xBA][..]], vec![&[][..], &[0x49, 1, 2], &[], &[0; 255]]] {
            let list = frames_of(&list);
            let trace = encode(&list);
            assert_eq!(frames(&trace).map(|frames| frames_of(&frames)), Ok(list));
        }
    }

    #[test]
    fn the_engine_judges_a_trace() {
        let good = encode(&[vec![0xBA], vec![0x49]]);
        assert_eq!(frames(&good[..good.len() - 1]), Err(TtpaError::Trace));
        assert_eq!(frames(&[]), Err(TtpaError::Trace));
        let too_many = vec![vec![0xBA]; 4096];
        assert_eq!(judged(&encode(&too_many[..4095])), Ok(()));
        assert_eq!(judged(&encode(&too_many)), Err(TtpaError::Trace));
    }
}
