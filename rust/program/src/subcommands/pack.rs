//! `ttpa pack FRAMES TRACE`: frames as text to a captured trace.

use crate::args::{Arguments, Choice, Subcommand};
use crate::console::{Console, Outcome, Status, Stop};
use crate::frames_text::{self, Sent};
use crate::text::{byte_named, Lines};
use crate::trace_file::{self, MOST_FRAME_BYTES};
use crate::{files, layout};
use ttpa::ANSWER_BYTES;

pub const SUBCOMMAND: Subcommand = Subcommand {
    name: "pack",
    usage: "FRAMES TRACE [--epoch NN]",
    summary: "write frames as a trace",
    text: "\
Reads frames line by line, as 'ttpa round' does, and writes them to TRACE as a captured trace, which 'ttpa trace' runs. An empty frame is the
line 'empty'. 'read', 'write' and 'execute' need an epoch: it is counted as a cluster counts it, from that of --epoch on. Refused where the
trace is too long.",
    operands: 2..=2,
    options: &[Choice {
        name: "--epoch",
        value: Some("NN"),
        text: "the epoch of the cluster that the trace is for, 00 if not said",
    }],
    run,
};

/// A frame without bytes, which a trace may have.
pub const EMPTY: &str = "empty";

fn run(arguments: &Arguments, console: &mut Console) -> Outcome {
    let path = arguments.operand(0).unwrap_or_default();
    let out = arguments.operand(1).unwrap_or_default();
    let epoch = arguments.read("--epoch", |word| byte_named(word, "epoch"))?.unwrap_or(0);
    files::keep(path, out, || arguments.misused("TRACE is the text that is read, which must stay"))?;
    let frames = files::with_text(path, console, |input, name| packed(&mut Lines::whole(input, name), epoch))?;
    let trace = trace_file::encode(&frames);
    trace_file::judged(&trace)
        .map_err(|refusal| Stop::Refused(format!("{}: {refusal}", files::shown(path))))?;
    files::save(out, &trace, console)?;
    Ok(Status::Accepted)
}

/// The frames of all lines. Each is carried out on a cluster without slaves, so that the epoch is the engine's.
fn packed(lines: &mut Lines, epoch: u8) -> Result<Vec<Vec<u8>>, Stop> {
    let mut cluster = trace_file::without_slaves(epoch);
    let mut frames = Vec::new();
    while let Some(line) = lines.next_with_words()? {
        if frames.len() > ttpa::MOST_TRACE_BYTES {
            return Err(lines.wrong(format!("no trace has more than {} frames", ttpa::MOST_TRACE_BYTES)));
        }
        for frame in frames_of(&line, layout::epoch(&cluster)).map_err(|words| lines.wrong(words))? {
            // a refused frame is one of the trace all the same, and alters nothing
            let _ = ttpa::round(&mut cluster, &frame, &mut [0; ANSWER_BYTES]);
            frames.push(frame);
        }
    }
    Ok(frames)
}

fn frames_of(line: &str, epoch: u8) -> Result<Vec<Vec<u8>>, String> {
    if line == EMPTY {
        return Ok(vec![Vec::new()]);
    }
    match frames_text::read(line)? {
        Sent::Frame(frame) if frame.len() > MOST_FRAME_BYTES => {
            Err(format!("{} bytes, a frame of a trace has at most {MOST_FRAME_BYTES}", frame.len()))
        }
        Sent::Frame(frame) => Ok(vec![frame]),
        Sent::MasterSlave(round) => {
            let frames = frames_text::frames(round, epoch.wrapping_add(1));
            frames.map(Vec::from).map_err(|refusal| refusal.to_string())
        }
    }
}
