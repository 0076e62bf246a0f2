//! Captured traces.

use crate::{refused_files, EPOCH, M10};
use ttpa::{trace, Report, TtpaError, MOST_TRACE_BYTES};

/// One address frame (M1), two data frames, three multipartner frames and four frames that are refused, by 10, 10, 11
/// and 11: no two counts are equal.
const FRAMES: [&[u8]; 10] = [
    &[0x55, 0x05, 0xFF, 0x22, 0x02, 0x8F],
    &[0x49],
    &[0x49],
    &[0xBA],
    &[0x54],
    &[0x78],
    &[],
    &[0x97],
    &[0x55],
    &[0x49, 0x00],
];
/// Frame count and data length, then the rows and the data of [`FRAMES`].
const TRACE: &[u8] = &[
    0, 10, 0, 15, //
    0, 0, 6, 0, 6, 1, 0, 7, 1, 0, 8, 1, 0, 9, 1, 0, 10, 1, 0, 11, 0, 0, 11, 1, 0, 12, 1, 0, 13, 2, //
    0x55, 0x05, 0xFF, 0x22, 0x02, 0x8F, 0x49, 0x49, 0xBA, 0x54, 0x78, 0x97, 0x55, 0x49, 0x00,
];

#[test]
fn a_trace_is_run() {
    assert_eq!(TRACE[34..], FRAMES.concat());
    let mut file = M10.to_vec();
    let report = trace(&mut file, TRACE);
    assert_eq!(report, Ok(Report { msa: 1, msd: 2, multipartner: 3, refused: 4, sum: 10 }));
    // The address frame puts the epoch to 5 and stays pending; five rounds follow.
    let mut run = M10.to_vec();
    run[EPOCH..EPOCH + 5].copy_from_slice(&[10, 1, 0xFF, 0x22, 2]);
    assert_eq!(file, run);
}

#[test]
fn a_trace_leaves_what_its_frames_leave() {
    let (mut sent, mut run) = (M10.to_vec(), M10.to_vec());
    let mut answer = [0; ttpa::ANSWER_BYTES];
    let refused = FRAMES.iter().filter(|frame| ttpa::round(&mut sent, frame, &mut answer).is_err()).count();
    let report = trace(&mut run, TRACE);
    assert_eq!(report.map(|report| report.refused), Ok(refused as u64));
    assert_eq!(run, sent);
}

#[test]
fn a_trace_without_frames_is_run() {
    let mut file = M10.to_vec();
    let report = trace(&mut file, &[0; 4]);
    assert_eq!(report, Ok(Report { msa: 0, msd: 0, multipartner: 0, refused: 0, sum: 0 }));
    assert_eq!(file, M10);
}

/// The call refuses on this ground and leaves the file.
fn assert_refused(file: &[u8], bytes: &[u8], ground: TtpaError) {
    let mut file_after = file.to_vec();
    assert_eq!(trace(&mut file_after, bytes), Err(ground));
    assert_eq!(file_after, file);
}

#[test]
fn a_trace_is_refused_on_each_ground() {
    for (file, ground) in refused_files() {
        assert_refused(&file, TRACE, ground);
        // the file's number comes before that of the trace
        assert_refused(&file, &[0; 3], ground);
    }
    assert_refused(M10, &[0; 3], TtpaError::Trace);
    assert_refused(M10, &TRACE[..TRACE.len() - 1], TtpaError::Trace);
    // Rows of empty frames up to the limit, and one more.
    assert!(trace(&mut M10.to_vec(), &empty_frames(5_460)).is_ok_and(|report| report.refused == 5_460));
    assert_eq!(empty_frames(5_460).len(), MOST_TRACE_BYTES);
    assert_refused(M10, &empty_frames(5_461), TtpaError::Trace);
}

fn empty_frames(count: u16) -> Vec<u8> {
    let mut trace = count.to_be_bytes().to_vec();
    trace.resize(4 + 3 * usize::from(count), 0);
    trace
}
