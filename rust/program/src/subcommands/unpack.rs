//! `ttpa unpack TRACE`: the frames of a captured trace as text.

use super::pack::EMPTY;
use crate::args::{Arguments, Subcommand};
use crate::console::{Console, Outcome, Status, Stop};
use crate::text::hex;
use crate::{files, trace_file};

pub const SUBCOMMAND: Subcommand = Subcommand {
    name: "unpack",
    usage: "TRACE",
    summary: "write the frames of a trace as text",
    text: "\
Writes the frames of a captured trace as text, one a line, which 'ttpa round' carries out and 'ttpa pack' makes the same trace of. An empty
frame is the line 'empty', which only 'ttpa pack' knows.",
    operands: 1..=1,
    options: &[],
    run,
};

fn run(arguments: &Arguments, console: &mut Console) -> Outcome {
    let path = arguments.operand(0).unwrap_or_default();
    let trace = files::read(path, console)?;
    let frames = trace_file::frames(&trace)
        .map_err(|refusal| Stop::Refused(format!("{}: {refusal}", files::shown(path))))?;
    for frame in frames {
        writeln!(console.output, "{}", frame_text(frame))?;
    }
    Ok(Status::Accepted)
}

/// `55 02 01 F4 02 A0`, or the word for an empty frame.
pub fn frame_text(frame: &[u8]) -> String {
    if frame.is_empty() {
        EMPTY.to_string()
    } else {
        hex(frame)
    }
}
