//! Sorts of captured traces that have to occur.

use super::Sort;
use crate::case::Outcome;
use crate::layout::{ROW_BYTES, TRACE_HEADER_BYTES};
use model::MOST_TRACE_BYTES;

/// What a call with this trace is an example of.
pub fn sorts(file: &[u8], trace: &[u8], outcome: &Outcome) -> Vec<Sort> {
    match outcome.report_words() {
        Some([msa, msd, multipartner, refused, _]) => {
            let occurs = [
                (msa > 0, Sort::TraceWithMsa),
                (msd > 0, Sort::TraceWithMsd),
                (multipartner > 0, Sort::TraceWithMultipartner),
                (refused > 0, Sort::TraceWithRefused),
                (outcome.alters_slaves(file), Sort::TraceAltersSlaves),
                (lengths(trace).contains(&0), Sort::TraceWithEmptyFrame),
                (trace.len() == MOST_TRACE_BYTES, Sort::TraceOfMostBytes),
            ];
            occurs.into_iter().filter_map(|(occurs, sort)| occurs.then_some(sort)).collect()
        }
        None if outcome.number == 19 => vec![fault(trace)],
        None => Vec::new(),
    }
}

/// The first thing that is wrong with a refused trace.
fn fault(trace: &[u8]) -> Sort {
    let Some(&[count_high, count_low, length_high, length_low]) = trace.first_chunk() else {
        return Sort::TraceWithoutHeader;
    };
    let stated = |high, low| usize::from(u16::from_be_bytes([high, low]));
    let rows = ROW_BYTES * stated(count_high, count_low);
    if trace.len() != TRACE_HEADER_BYTES + rows + stated(length_high, length_low) {
        return Sort::TraceOfOtherLength;
    }
    let mut place = 0;
    for row in trace[TRACE_HEADER_BYTES..TRACE_HEADER_BYTES + rows].chunks(ROW_BYTES) {
        if stated(row[0], row[1]) != place {
            return Sort::TraceWithWrongOffset;
        }
        place += usize::from(row[2]);
    }
    if place != stated(length_high, length_low) {
        return Sort::TraceNotFilled;
    }
    Sort::TraceTooLong
}

/// The lengths of the frames, of a trace whose layout holds.
fn lengths(trace: &[u8]) -> Vec<u8> {
    let rows = ROW_BYTES * usize::from(u16::from_be_bytes([trace[0], trace[1]]));
    trace[TRACE_HEADER_BYTES..TRACE_HEADER_BYTES + rows].chunks(ROW_BYTES).map(|row| row[2]).collect()
}
