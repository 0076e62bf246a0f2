#![forbid(unsafe_code)]

use program::console::{Console, Look};
use std::env;
use std::io::{self, BufWriter, IsTerminal};
use std::process::ExitCode;

fn main() -> ExitCode {
    let (mut input, mut output, mut messages) =
        (io::stdin().lock(), BufWriter::new(io::stdout().lock()), io::stderr().lock());
    let look = look();
    let arguments = env::args_os().skip(1).collect();
    let mut console = Console { input: &mut input, output: &mut output, messages: &mut messages, look };
    let status = program::run(arguments, &mut console);
    // what is left in the buffer was refused already; nothing is tried again when it is dropped
    let _ = output.into_parts();
    ExitCode::from(status as u8)
}

/// Colour and progress are for a terminal alone, and not with NO_COLOR or TERM=dumb.
fn look() -> Look {
    let set = |name| env::var_os(name).is_some_and(|value| !value.is_empty());
    let plain = set("NO_COLOR") || env::var_os("TERM").is_none_or(|term| term == "dumb");
    Look {
        typed: io::stdin().is_terminal(),
        colour: !plain && io::stdout().is_terminal(),
        progress: !plain && io::stderr().is_terminal(),
    }
}
