//! `ttpa round FILE [FRAMES]`: carries out frames on a cluster file and tells each answer.

use crate::args::{Arguments, Subcommand, EQUAL_NAMES, SAVE};
use crate::console::{Console, Outcome, Status};
use crate::frames_text::{self, Sent};
use crate::text::hex;
use crate::{files, layout};
use std::ffi::OsStr;
use std::io::Write;

pub const SUBCOMMAND: Subcommand = Subcommand {
    name: "round",
    usage: "FILE [FRAMES] [--save OUT] [--equal-names]",
    summary: "carry out frames on a cluster file, and tell the answers",
    text: "\
Carries out frames on the cluster of a file, and tells for each who sends what: 'FRAME > ANSWER', where the answer is 'silence', the slots
with their bytes, '1=A1 2=5C', or the refusal. Without FRAMES they come line by line from standard input, each answered at once.

A line is the bytes of a frame, 'read NAME FILE RECORD', 'write NAME FILE RECORD B B B B', 'execute NAME FILE RECORD' (two frames, with the
epoch plus 1) or 'round N'. A time in parentheses in front is skipped, '#' begins a comment. Status 1 if a frame is refused.
Any other line ends the work with status 1, and nothing is saved; where lines are typed it is told, and the next is waited for.",
    operands: 1..=2,
    options: &[SAVE, EQUAL_NAMES],
    run,
};

fn run(arguments: &Arguments, console: &mut Console) -> Outcome {
    let path = arguments.operand(0).unwrap_or_default();
    let frames = arguments.operand(1).unwrap_or(OsStr::new(files::DASH));
    if path == files::DASH && frames == files::DASH {
        return Err(arguments.misused("FILE and FRAMES cannot both be standard input"));
    }
    let out = files::save_path(arguments)?;
    if let Some(out) = out {
        files::keep_text(frames, out, arguments)?;
    }
    let mut file = files::load(path, arguments, console)?;
    let carried_out = files::carry_out_lines(frames, console, |line, output| {
        frames_text::read(line).map(|sent| carry_out(&mut file, sent, output))
    });
    files::save_carried_out(out, &file, carried_out, console)
}

/// One line of frames, told at once.
fn carry_out(file: &mut [u8], sent: Sent, output: &mut dyn Write) -> Outcome {
    let status = match sent {
        Sent::Frame(frame) => carry_out_frame(file, &frame, output)?,
        Sent::MasterSlave(round) => match frames_text::frames(round, layout::epoch(file).wrapping_add(1)) {
            Ok([address, data]) => {
                carry_out_frame(file, &address, output)?.max(carry_out_frame(file, &data, output)?)
            }
            Err(refusal) => {
                writeln!(output, "{} > {refusal}", frames_text::typed(round))?;
                Status::Refused
            }
        },
    };
    output.flush()?;
    Ok(status)
}

fn carry_out_frame(file: &mut [u8], frame: &[u8], output: &mut dyn Write) -> Outcome {
    let mut slots = [0; ttpa::ANSWER_BYTES];
    let carried_out = ttpa::round(file, frame, &mut slots);
    writeln!(output, "{} > {}", hex(frame), frames_text::answer(carried_out, &slots))?;
    Ok(if carried_out.is_ok() { Status::Accepted } else { Status::Refused })
}
