//! "Running a captured trace" (document 02, request 2): frames captured on site, run on a cluster file.

use crate::{check, number_of, round, Refusal, ANSWER_BYTES, MSA, MSD};

pub const MOST_TRACE_BYTES: usize = 16_384;
const HEADER_BYTES: usize = 4;
const ROW_BYTES: usize = 3;

/// "the numbers of MSA, MSD, multipartner and refused frames and their sum"
#[derive(Clone, Copy, Debug, Default, PartialEq, Eq)]
pub struct Report {
    pub msa: u64,
    pub msd: u64,
    pub multipartner: u64,
    pub refused: u64,
}

impl Report {
    pub fn sum(&self) -> u64 {
        self.msa + self.msd + self.multipartner + self.refused
    }

    /// "a refused frame counting as refused only"
    fn count(&mut self, frame: &[u8], answer: Result<u64, Refusal>) {
        let frames_of_this_kind = match (answer, frame) {
            (Err(_), _) => &mut self.refused,
            (Ok(_), [MSA, ..]) => &mut self.msa,
            (Ok(_), [MSD, ..]) => &mut self.msd,
            (Ok(_), _) => &mut self.multipartner,
        };
        *frames_of_this_kind += 1;
    }
}

/// Grounds 1 to 8 on the file, 19 on the trace. "The end state is that of the frames sent singly in order."
pub fn trace(file: &mut [u8], trace: &[u8]) -> Result<Report, Refusal> {
    check(file)?;
    let Some(frames) = frames_of(trace) else {
        return Err(Refusal(19));
    };
    let mut report = Report::default();
    for frame in frames {
        let answer = round(file, frame, &mut [0; ANSWER_BYTES]);
        report.count(frame, answer);
    }
    Ok(report)
}

/// "frame count (2 bytes), data length (2), then for each frame its offset in the data (2) and length (1), then the
/// data, filled by the frames in order without gap": `place` is where the next frame has to begin. None where the
/// layout is broken.
fn frames_of(trace: &[u8]) -> Option<Vec<&[u8]>> {
    if trace.len() > MOST_TRACE_BYTES {
        return None;
    }
    let (header, rest) = trace.split_at_checked(HEADER_BYTES)?;
    let (frame_count, data_length) = header.split_at(2);
    let (table, data) = rest.split_at_checked(ROW_BYTES * number_of(frame_count) as usize)?;
    if number_of(data_length) != data.len() as u64 {
        return None;
    }
    let mut place = 0;
    let mut frames = Vec::new();
    for row in table.chunks(ROW_BYTES) {
        let (offset, length) = (number_of(&row[..2]), usize::from(row[2]));
        if offset != place as u64 {
            return None;
        }
        frames.push(data.get(place..place + length)?);
        place += length;
    }
    (place == data.len()).then_some(frames)
}

/// The one trace that holds these frames, each of at most 255 bytes: the layout leaves no freedom.
pub fn encode_trace(frames: &[Vec<u8>]) -> Vec<u8> {
    let data = frames.concat();
    let mut trace = Vec::new();
    trace.extend(two_bytes(frames.len()));
    trace.extend(two_bytes(data.len()));
    let mut place = 0;
    for frame in frames {
        trace.extend(two_bytes(place));
        trace.push(u8::try_from(frame.len()).expect("a frame of at most 255 bytes"));
        place += frame.len();
    }
    trace.extend(data);
    trace
}

fn two_bytes(number: usize) -> [u8; 2] {
    u16::try_from(number).expect("a number of two bytes").to_be_bytes()
}
