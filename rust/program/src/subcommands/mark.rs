//! `ttpa mark SHEET`: holds what a student says comes out against what does.

use crate::args::{Arguments, Choice, Subcommand};
use crate::console::{reason, Colour, Console, Outcome, Status, Stop};
use crate::sheet::{self, Marked};
use crate::text::Lines;
use crate::{files, text};
use std::ffi::OsStr;
use std::path::PathBuf;
use std::{env, io};

pub const SUBCOMMAND: Subcommand = Subcommand {
    name: "mark",
    usage: "SHEET [--in FOLDER]",
    summary: "mark a sheet of commands and what a student says comes out",
    text: "\
A sheet has lines '$ ttpa SUBCOMMAND ..', and below each what a student says comes out. Each line is told to be right or wrong, a wrong one
with what it is; blanks between words, small letters and the words after the number of a refusal do not count. A line that is left out, or
too many, is wrong alone. Below 'round FILE' a line is 'FRAME >
ANSWER', and the frames are what is sent. '#' begins a comment. Words of a command have no blanks in them.

Only check, show, frame, round, name, trace and owner may stand on a sheet, without --save, --run and --svg, on files of the folder, at most
1000 commands and 1000 --orders in all. Status 0 if all lines are right. Commands and frames are the student's own: whether those asked for are there is for the
marker to see.",
    operands: 1..=1,
    options: &[Choice {
        name: "--in",
        value: Some("FOLDER"),
        text: "where the files of the sheet are, the present folder if not said",
    }],
    run,
};

fn run(arguments: &Arguments, console: &mut Console) -> Outcome {
    let path = arguments.operand(0).unwrap_or_default();
    let exercises = files::with_text(path, console, |input, name| {
        let mut lines = Lines::whole(input, name);
        sheet::read(&mut lines)
    })?;
    let _there = arguments.value("--in").map(There::go).transpose()?;
    let mut orders = 0;
    for exercise in &exercises {
        exercise
            .hold_to_folder()
            .and_then(|()| exercise.hold_orders(&mut orders))
            .map_err(|words| Stop::Text { place: text::place(&files::shown(path), exercise.line), words })?;
    }
    // told one by one: what came of all of them is not kept
    let (mut right, mut all) = (0, 0);
    for exercise in &exercises {
        for line in exercise.mark() {
            tell(&line, console)?;
            right += usize::from(line.is.is_none());
            all += 1;
        }
        console.output.flush()?;
    }
    writeln!(console.output, "{right} of {all} right")?;
    // a sheet on which nothing stands that could be wrong is not right
    Ok(if right == all && all > 0 { Status::Accepted } else { Status::Refused })
}

/// `wrong 49 > 1=00      is 1=0B`
fn tell(line: &Marked, console: &mut Console) -> io::Result<()> {
    let said = text::printable(line.said.as_deref().unwrap_or("nothing"));
    match &line.is {
        None => writeln!(console.output, "{} {said}", console.painted(Colour::Green, "right")),
        Some(is) => {
            let is = text::printable(is);
            writeln!(console.output, "{} {said}      is {is}", console.painted(Colour::Red, "wrong"))
        }
    }
}

/// In another folder, until it is dropped: files of the sheet are named as the student named them.
struct There {
    before: PathBuf,
}

impl There {
    fn go(folder: &OsStr) -> Result<There, Stop> {
        let gone = env::current_dir().and_then(|before| env::set_current_dir(folder).map(|()| before));
        gone.map(|before| There { before })
            .map_err(|error| Stop::Trouble(format!("{}: {}", files::shown(folder), reason(&error))))
    }
}

impl Drop for There {
    fn drop(&mut self) {
        let _ = env::set_current_dir(&self.before);
    }
}
