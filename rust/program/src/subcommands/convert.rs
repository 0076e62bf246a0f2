//! `ttpa convert FILE 1|2 OUT`: a cluster file in the other edition.

use crate::args::{Arguments, Subcommand, EQUAL_NAMES};
use crate::console::{Console, Outcome, Status, Stop};
use crate::files;
use crate::text::quoted;
use ttpa::{Edition, MOST_FILE_BYTES};

pub const SUBCOMMAND: Subcommand = Subcommand {
    name: "convert",
    usage: "FILE 1|2 OUT [--equal-names]",
    summary: "write a cluster file in edition 1 or 2",
    text: "\
Writes the cluster file to OUT, which may be FILE, in the edition asked for; one that has it already is copied. Converted there and back a
file is the same, byte for byte. Refused where edition 1 cannot hold the file: more than 32 slaves, or more than 32,768 bytes in that edition.",
    operands: 3..=3,
    options: &[EQUAL_NAMES],
    run,
};

fn run(arguments: &Arguments, console: &mut Console) -> Outcome {
    let path = arguments.operand(0).unwrap_or_default();
    let out = arguments.operand(2).unwrap_or_default();
    let edition = match arguments.operand(1).unwrap_or_default().to_string_lossy().as_ref() {
        "1" => Edition::One,
        "2" => Edition::Two,
        other => return Err(Stop::Usage(format!("convert: {} is no edition (1 or 2)", quoted(other)))),
    };
    let file = files::load(path, arguments, console)?;
    let mut buffer = vec![0; MOST_FILE_BYTES];
    let converted = ttpa::to_edition(&file, edition, &mut buffer)
        .map_err(|refusal| Stop::Refused(format!("{}: {refusal}", files::shown(path))))?;
    files::save_cluster(out, converted, console)?;
    Ok(Status::Accepted)
}
