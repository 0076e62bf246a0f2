//! `ttpa who FILE NAMES`: which slave holds a logical name.

use crate::args::{Arguments, Subcommand, EQUAL_NAMES};
use crate::console::{Console, Outcome, Status};
use crate::{files, names_text};

pub const SUBCOMMAND: Subcommand = Subcommand {
    name: "who",
    usage: "FILE NAMES [--equal-names]",
    summary: "tell which slave holds a logical name",
    text: "\
Tells for each name the place in the slave table, 0 the first, of the first slave that holds it. NAMES is one name or several: 01,05-0A. FF
finds an unnamed slave. Status 1 if nobody holds one of the names.",
    operands: 2..=2,
    options: &[EQUAL_NAMES],
    run,
};

fn run(arguments: &Arguments, console: &mut Console) -> Outcome {
    let path = arguments.operand(0).unwrap_or_default();
    let names = names_text::operand(arguments, 1)?;
    let file = files::load(path, arguments, console)?;
    let summary = ttpa::Summary::of(&file).map_err(|refusal| files::refused(path, &file, refusal))?;
    let mut status = Status::Accepted;
    for name in names {
        let holder = match summary.holder(name) {
            Some(place) => format!("slave {place}"),
            None => {
                status = Status::Refused;
                "nobody".to_string()
            }
        };
        writeln!(console.output, "{name:02X} is held by {holder}")?;
    }
    Ok(status)
}
