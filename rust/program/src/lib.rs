//! The program `ttpa`: the course's exercises and their marking, without writing C. It never judges: every verdict, answer
//! and changed file is the engine's. Where it looks at a file itself, for the place of a refusal, it prints what it found only
//! under the number that the engine returned.

#![forbid(unsafe_code)]

pub mod args;
pub mod cluster;
pub mod cluster_text;
pub mod console;
pub mod files;
pub mod frames_text;
pub mod layout;
pub mod names_text;
pub mod naming;
pub mod picture;
pub mod place;
pub mod plan;
pub mod sheet;
pub mod subcommands;
pub mod text;
pub mod trace_file;

use args::{Arguments, Subcommand};
use console::{Console, Outcome, Status, Stop};
use std::ffi::OsString;

/// Carries out what the arguments, the program's name aside, ask for.
pub fn run(arguments: Vec<OsString>, console: &mut Console) -> Status {
    let outcome = dispatch(arguments, console).and_then(|status| {
        console.output.flush()?;
        Ok(status)
    });
    outcome.unwrap_or_else(|stop| {
        // what was found before it stopped; where this fails too, one message is enough
        let _ = console.output.flush();
        console.tell_stop(stop)
    })
}

fn dispatch(mut arguments: Vec<OsString>, console: &mut Console) -> Outcome {
    if arguments.is_empty() {
        return Err(Stop::Usage(format!("no subcommand; {}", args::SEE_HELP)));
    }
    let first = arguments.remove(0);
    match first.to_str() {
        Some("--version") => return tell_version(console),
        Some("--help" | "-h") => return tell_overview(console),
        Some("help") => {
            let Some(name) = arguments.first() else { return tell_overview(console) };
            return tell_help(subcommand(name)?, console);
        }
        _ => {}
    }
    let subcommand = subcommand(&first)?;
    ttpa::check_version().map_err(|mismatch| Stop::Trouble(mismatch.to_string()))?;
    match Arguments::parse(subcommand, arguments)? {
        Some(arguments) => (subcommand.run)(&arguments, console),
        None => tell_help(subcommand, console),
    }
}

fn subcommand(name: &OsString) -> Result<&'static Subcommand, Stop> {
    subcommands::TABLE.iter().find(|subcommand| name == subcommand.name).ok_or_else(|| {
        let what = if name.to_string_lossy().starts_with('-') { "option" } else { "subcommand" };
        Stop::Usage(format!("{} is no {what}; {}", text::quoted(&name.to_string_lossy()), args::SEE_HELP))
    })
}

/// The version of this program, which is that of the header, and beside it that of the library.
fn tell_version(console: &mut Console) -> Outcome {
    let library = ttpa::version();
    let (major, minor, patch) = (library / 10_000, library / 100 % 100, library % 100);
    writeln!(console.output, "ttpa {} (library {major}.{minor}.{patch})", env!("CARGO_PKG_VERSION"))?;
    Ok(Status::Accepted)
}

fn tell_overview(console: &mut Console) -> Outcome {
    console.output.write_all(args::overview(subcommands::TABLE).as_bytes())?;
    Ok(Status::Accepted)
}

fn tell_help(subcommand: &Subcommand, console: &mut Console) -> Outcome {
    console.output.write_all(args::help(subcommand).as_bytes())?;
    Ok(Status::Accepted)
}
