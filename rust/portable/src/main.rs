//! `portable CRATES MIR.. [--plain]`: the C file of the program in some files `mir.json`, written to standard output. CRATES is the folder of the
//! sources, for names and comments, and for which calls there are. The status is 1, and nothing is written, where the program has something that is
//! not known.

use portable::sources::Sources;
use portable::{translate_mir, Form};
use std::fs;
use std::io::{self, Write};
use std::path::Path;
use std::process::ExitCode;

fn main() -> ExitCode {
    let mut arguments: Vec<String> = std::env::args().skip(1).collect();
    let form = match arguments.last().map(String::as_str) {
        Some("--plain") => {
            arguments.pop();
            Form::Plain
        }
        _ => Form::Reading,
    };
    let [crates, files @ ..] = &arguments[..] else {
        eprintln!("usage: portable CRATES MIR.. [--plain]");
        return ExitCode::from(2);
    };
    match run(Path::new(crates), files, form) {
        Ok(()) => ExitCode::SUCCESS,
        Err(why) => {
            eprintln!("portable: {why}");
            ExitCode::from(1)
        }
    }
}

fn run(crates: &Path, files: &[String], form: Form) -> Result<(), String> {
    let read = |file: &String| fs::read_to_string(file).map_err(|error| format!("{file}: {error}"));
    let texts: Vec<String> = files.iter().map(read).collect::<Result<_, _>>()?;
    let sources = Sources::read(crates).map_err(|error| format!("{}: {error}", crates.display()))?;
    let file = translate_mir(&texts, &sources, form).map_err(|refused| refused.to_string())?;
    io::stdout().write_all(file.as_bytes()).map_err(|error| error.to_string())
}
