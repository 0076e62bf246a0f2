//! `ttpa check FILE..`: each file's verdict.

use crate::args::{Arguments, Subcommand, MANY};
use crate::console::{Colour, Console, Outcome, Status, Stop};
use crate::{files, layout, place};
use std::ffi::OsStr;

pub const SUBCOMMAND: Subcommand = Subcommand {
    name: "check",
    usage: "FILE..",
    summary: "tell of each cluster file whether it is accepted, and if not, why and where",
    text: "\
Tells of each cluster file whether the engine accepts it. Of a refused one it tells the number, what that means and where in the
file it is. Status 1 if a file is refused.",
    operands: 1..=MANY,
    options: &[],
    run,
};

fn run(arguments: &Arguments, console: &mut Console) -> Outcome {
    let mut status = Status::Accepted;
    for path in arguments.operands() {
        // the other files are told all the same
        status = status.max(match check(path, console) {
            Err(stop @ Stop::Trouble(_)) => console.tell_stop(stop),
            told => told?,
        });
    }
    Ok(status)
}

fn check(path: &OsStr, console: &mut Console) -> Outcome {
    let file = files::read(path, console)?;
    let name = files::shown(path);
    match ttpa::check(&file) {
        Ok(()) => {
            writeln!(
                console.output,
                "{name}: {}, {}",
                console.painted(Colour::Green, "accepted"),
                counts(&file)
            )?;
            Ok(Status::Accepted)
        }
        Err(refusal) => {
            writeln!(console.output, "{name}: {}", console.painted(Colour::Red, &refusal.to_string()))?;
            if let Some(place) = place::of(&file, refusal) {
                writeln!(console.output, "  {}", place::line(&place))?;
            }
            Ok(Status::Refused)
        }
    }
}

fn counts(file: &[u8]) -> String {
    let names = ttpa::Summary::of(file).map(|summary| summary.names().to_vec()).unwrap_or_default();
    let unnamed = names.iter().filter(|&&name| name == ttpa::NAME_UNNAMED).count();
    let slaves = if names.len() == 1 { "slave" } else { "slaves" };
    let asleep = match (0..names.len()).filter(|&slave| layout::sleeps(file, slave)).count() {
        0 => String::new(),
        asleep => format!(", {asleep} asleep"),
    };
    format!("{} {slaves}, {unnamed} unnamed{asleep}, {} bytes", names.len(), file.len())
}
