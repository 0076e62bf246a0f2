//! `bench ENGINE WORKLOAD TIMES`: makes the calls of one workload so many times, and nothing else worth
//! counting. bench.sh runs it under callgrind with k and with 2k times; the difference is k workloads.
//!
//! `bench --list` names the workloads, `bench --growth` those that show how the calls grow, `bench --floor WORKLOAD` tells
//! the floor of one, `bench --note` what stands below a table in which an engine is below its floor. Of what `bench.sh growth`
//! prints `bench --picture` makes a picture, `bench --tables` tables.

#![forbid(unsafe_code)]

mod files;
mod floor;
mod growth;
mod measured;
mod picture;
mod tables;
mod workload;

use compare::engine::{Engine, Plain};
use measured::Measured;
use std::process::ExitCode;
use workload::Workload;

const USAGE: &str =
    "usage: bench plain|nested|library WORKLOAD TIMES | --list | --growth | --floor WORKLOAD | --note
       bench --picture|--tables <WHAT-BENCH.SH-PRINTS";

fn main() -> ExitCode {
    let arguments: Vec<String> = std::env::args().skip(1).collect();
    let words: Vec<&str> = arguments.iter().map(String::as_str).collect();
    let done = match words[..] {
        ["--list"] => Ok(workload::TABLE.join("\n")),
        ["--growth"] => Ok(growth::workloads().join("\n")),
        ["--floor", name] => floor_of(name),
        ["--note"] => Ok(measured::BELOW_FLOOR_NOTE.to_string()),
        ["--picture"] => of_measured(picture::picture),
        ["--tables"] => of_measured(tables::tables),
        [engine, name, times] => return make(engine, name, times),
        _ => Err(USAGE),
    };
    match done {
        Ok(text) => {
            println!("{}", text.trim_end());
            ExitCode::SUCCESS
        }
        Err(message) => refuse(message),
    }
}

fn refuse(message: &str) -> ExitCode {
    eprintln!("{message}");
    ExitCode::from(2)
}

/// The calls, and nothing printed.
fn make(engine: &str, name: &str, times: &str) -> ExitCode {
    let (Some(engine), Some(mut workload), Ok(times)) = (engine_of(engine), Workload::of(name), times.parse())
    else {
        return refuse("no such engine or workload, or no number");
    };
    workload.make(engine, times);
    ExitCode::SUCCESS
}

fn floor_of(name: &str) -> Result<String, &'static str> {
    let workload = Workload::of(name).ok_or("no such workload")?;
    Ok(floor::of(&workload).to_string())
}

/// What is made of the lines on standard input.
fn of_measured(made: impl Fn(&Measured) -> String) -> Result<String, &'static str> {
    let lines = std::io::read_to_string(std::io::stdin()).map_err(|_| "no text")?;
    let measured = Measured::of(&lines).ok_or("not what bench.sh prints")?;
    Ok(made(&measured))
}

static PLAIN: Plain = Plain { nested: false };
static NESTED: Plain = Plain { nested: true };

/// The engine of this name, by which it also calls itself; both forms of the plain program call themselves plain.
fn engine_of(name: &str) -> Option<&'static dyn Engine> {
    let engine: &dyn Engine = match name {
        "plain" => &PLAIN,
        "nested" => return Some(&NESTED),
        #[cfg(feature = "library")]
        "library" => &compare::engine::Library,
        _ => return None,
    };
    (engine.name() == name).then_some(engine)
}

#[cfg(test)]
mod tests {
    use super::*;
    use std::ptr;

    #[test]
    fn each_engine_is_the_one_named() {
        let is = |name: &str, engine: &Plain| ptr::addr_eq(engine_of(name).expect("an engine"), engine);
        assert!(is("plain", &PLAIN) && !PLAIN.nested);
        assert!(is("nested", &NESTED) && NESTED.nested);
        let library = engine_of("library").map(|engine| engine.name());
        assert_eq!(library, cfg!(feature = "library").then_some("library"));
        assert!(engine_of("model").is_none());
    }
}
