//! `ttpa turns FILE [POSTS]`: screens that read records through one tester, in turn.

use crate::args::{Arguments, Subcommand, EQUAL_NAMES, SAVE};
use crate::console::{Console, Outcome, Status, Stop};
use crate::text::{byte_named, decimal, hex, quoted, Words};
use crate::{files, frames_text};
use std::ffi::OsStr;
use std::io::Write;
use ttpa::{RecordRead, Screens, ANSWER_BYTES};

pub const SUBCOMMAND: Subcommand = Subcommand {
    name: "turns",
    usage: "FILE [POSTS] [--save OUT] [--equal-names]",
    summary: "have up to eight screens read records in turn",
    text: "\
Carries out the posts and turns of up to eight screens, 0 to 7, that read records through one tester, and tells what comes of each. A line
is 'post SCREEN NAME FILE RECORD', by which a screen waits, or 'turn', which serves the next screen that waits after the one last served.
Without POSTS they come line by line from standard input, each answered at once. Status 1 if one is refused.
Any other line ends the work with status 1, and nothing is saved; where lines are typed it is told, and the next is waited for.",
    operands: 1..=2,
    options: &[SAVE, EQUAL_NAMES],
    run,
};

/// What a line says.
#[derive(Debug, PartialEq, Eq)]
enum Line {
    Post(u8, RecordRead),
    Turn,
}

fn run(arguments: &Arguments, console: &mut Console) -> Outcome {
    let path = arguments.operand(0).unwrap_or_default();
    let posts = arguments.operand(1).unwrap_or(OsStr::new(files::DASH));
    if path == files::DASH && posts == files::DASH {
        return Err(Stop::Usage("turns: FILE and POSTS cannot both be standard input".to_string()));
    }
    let out = files::save_path(arguments)?;
    if let Some(out) = out {
        files::keep_text(posts, out, arguments)?;
    }
    let mut file = files::load(path, arguments, console)?;
    let mut screens = Screens::new();
    let carried_out = files::carry_out_lines(posts, console, |line, output| {
        read(line).map(|line| carry_out(&mut file, &mut screens, line, output))
    });
    files::save_carried_out(out, &file, carried_out, console)
}

/// `post 2 01 3D 02` or `turn`. Any screen and file number may stand here: whether there is one such is the engine's to say.
fn read(line: &str) -> Result<Line, String> {
    let mut words = Words::of(line);
    let line = match words.next("'post' or 'turn'")? {
        "turn" => Line::Turn,
        "post" => {
            let screen = decimal(words.next("the screen")?, "screen", 0, u64::from(u8::MAX))? as u8;
            let name = byte_named(words.next("the name")?, "name")?;
            let file = byte_named(words.next("the file number")?, "file number")?;
            let record = byte_named(words.next("the record number")?, "record number")?;
            Line::Post(screen, RecordRead { name, file, record })
        }
        word => return Err(format!("{} is neither 'post' nor 'turn'", quoted(word))),
    };
    words.end()?;
    Ok(line)
}

/// One line, told at once.
fn carry_out(file: &mut [u8], screens: &mut Screens, line: Line, output: &mut dyn Write) -> Outcome {
    let (line, told) = match line {
        Line::Post(screen, read) => (
            format!("post {screen} {}", hex(&[read.name, read.file, read.record])),
            screens.post(screen, &read).map(|()| "accepted".to_string()),
        ),
        Line::Turn => ("turn".to_string(), turn(file, screens)),
    };
    let status = if told.is_ok() { Status::Accepted } else { Status::Refused };
    writeln!(output, "{line} > {}", told.unwrap_or_else(|refusal| refusal.to_string()))?;
    output.flush()?;
    Ok(status)
}

/// `screen 2: 1=00 2=00 3=00 4=42 5=0B`
fn turn(file: &mut [u8], screens: &mut Screens) -> Result<String, ttpa::TtpaError> {
    let mut slots = [0; ANSWER_BYTES];
    Ok(match screens.turn(file, &mut slots)? {
        Some(served) => {
            format!("screen {}: {}", served.screen, frames_text::answer(Ok(served.senders), &slots))
        }
        None => "no screen waits".to_string(),
    })
}

#[cfg(test)]
mod tests {
    use super::*;

    #[test]
    fn a_line_is_a_post_or_a_turn() {
        let read_of = RecordRead { name: 1, file: 0x3D, record: 2 };
        assert_eq!(read("post 2 01 3D 02"), Ok(Line::Post(2, read_of)));
        assert_eq!(read("turn"), Ok(Line::Turn));
        let wrong = |line: &str| read(line).err().unwrap_or_default();
        assert_eq!(wrong("post 256 01 3D 02"), "'256' is no screen (decimal, 0 to 255)");
        assert_eq!(wrong("post 2 01 3D"), "the record number is missing");
        assert_eq!(wrong("turn 2"), "'2' is one word too many");
        assert_eq!(wrong("49"), "'49' is neither 'post' nor 'turn'");
    }
}
