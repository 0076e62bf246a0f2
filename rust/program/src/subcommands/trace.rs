//! `ttpa trace FILE TRACE`: runs a captured trace on a cluster file.

use super::unpack::frame_text;
use crate::args::{Arguments, Choice, Subcommand, EQUAL_NAMES, SAVE};
use crate::console::{Console, Outcome, Status, Stop};
use crate::{files, frames_text, trace_file};
use std::io::Write;
use ttpa::{Report, ANSWER_BYTES};

pub const SUBCOMMAND: Subcommand = Subcommand {
    name: "trace",
    usage: "FILE TRACE [--answers] [--save OUT] [--equal-names]",
    summary: "run a captured trace on a cluster file",
    text: "\
Runs a captured trace on the cluster of a file, and tells how many of its frames were address frames, data frames, multipartner frames and
refused. A refused frame is counted, and the run goes on: the status is 1 only where the file or the whole trace is refused.",
    operands: 2..=2,
    options: &[
        Choice {
            name: "--answers",
            value: None,
            text: "tell the answer to each frame too, as 'ttpa round' does, from single rounds on a copy",
        },
        SAVE,
        EQUAL_NAMES,
    ],
    run,
};

fn run(arguments: &Arguments, console: &mut Console) -> Outcome {
    let [path, traced] = [0, 1].map(|place| arguments.operand(place).unwrap_or_default());
    if path == files::DASH && traced == files::DASH {
        return Err(Stop::Usage("trace: FILE and TRACE cannot both be standard input".to_string()));
    }
    let out = files::save_path(arguments)?;
    if let Some(out) = out {
        files::keep_file(traced, out, arguments)?;
    }
    let mut file = files::load(path, arguments, console)?;
    let trace = files::read(traced, console)?;
    let copy = file.clone();
    let refused = |refusal| Stop::Refused(format!("{}: {refusal}", files::shown(traced)));
    let Report { msa, msd, multipartner, refused: turned_away, sum } =
        ttpa::trace(&mut file, &trace).map_err(refused)?;
    if arguments.has("--answers") {
        let frames = trace_file::frames(&trace).map_err(refused)?;
        let end = tell_answers(copy, &frames, console.output)?;
        same(&end, &file).map_err(|words| Stop::Refused(format!("{}: {words}", files::shown(traced))))?;
    }
    let word = if sum == 1 { "frame" } else { "frames" };
    writeln!(
        console.output,
        "{sum} {word}: MSA {msa}, MSD {msd}, multipartner {multipartner}, refused {turned_away}"
    )?;
    if let Some(out) = out {
        files::save_cluster(out, &file, console)?;
    }
    Ok(Status::Accepted)
}

/// The record of the frames sent one by one, and the file that they leave.
fn tell_answers(mut file: Vec<u8>, frames: &[&[u8]], output: &mut dyn Write) -> Result<Vec<u8>, Stop> {
    for frame in frames {
        let mut slots = [0; ANSWER_BYTES];
        let carried_out = ttpa::round(&mut file, frame, &mut slots);
        writeln!(output, "{} > {}", frame_text(frame), frames_text::answer(carried_out, &slots))?;
    }
    Ok(file)
}

/// "The end state is that of the frames sent singly in order."
fn same(singly: &[u8], traced: &[u8]) -> Result<(), String> {
    if singly == traced {
        return Ok(());
    }
    let place = singly.iter().zip(traced).position(|(singly, traced)| singly != traced);
    let place = place.unwrap_or(singly.len().min(traced.len()));
    Err(format!("the trace leaves another file than its frames sent singly, from byte {place} on"))
}

#[cfg(test)]
mod tests {
    use super::*;

    #[test]
    fn different_ends_are_told() {
        assert_eq!(same(&[1, 2], &[1, 2]), Ok(()));
        let words = "the trace leaves another file than its frames sent singly, from byte 1 on";
        assert_eq!(same(&[1, 2], &[1, 3]), Err(words.to_string()));
        assert_eq!(same(&[1], &[1, 3]), Err(words.to_string()));
    }
}
