//! `ttpa join A B OUT`: the file of two clusters that are cabled together.

use crate::args::{Arguments, Subcommand, EQUAL_NAMES};
use crate::console::{Console, Outcome, Status, Stop};
use crate::files;
use std::ffi::OsStr;
use ttpa::{Summary, MOST_FILE_BYTES, NAME_UNNAMED};

pub const SUBCOMMAND: Subcommand = Subcommand {
    name: "join",
    usage: "A B OUT [--equal-names]",
    summary: "join the files of two clusters",
    text: "\
Writes to OUT the cluster file of two segments that are cabled together: the slaves of A and then those of B, in the edition of A, with
nothing pending and all awake. OUT is neither A nor B. A slave of B whose logical name A also holds becomes unnamed, and is told. Refused where a physical name is in
both files, or where the edition cannot hold them.",
    operands: 3..=3,
    options: &[EQUAL_NAMES],
    run,
};

fn run(arguments: &Arguments, console: &mut Console) -> Outcome {
    let [a, b, out] = [0, 1, 2].map(|place| arguments.operand(place).unwrap_or_default());
    if a == files::DASH && b == files::DASH {
        return Err(Stop::Usage("join: A and B cannot both be standard input".to_string()));
    }
    files::keep_file(a, out, arguments)?;
    files::keep_file(b, out, arguments)?;
    let first = files::load(a, arguments, console)?;
    let second = files::load(b, arguments, console)?;
    let mut joined = vec![0; MOST_FILE_BYTES];
    let length = ttpa::join(&first, &second, &mut joined)
        .map_err(|refusal| Stop::Refused(format!("{} and {}: {refusal}", files::shown(a), files::shown(b))))?;
    joined.truncate(length);
    files::save_cluster(out, &joined, console)?;
    tell_unnamed(b, &second, &joined, console);
    Ok(Status::Accepted)
}

/// Each slave of the second file that had a name there and has none in the joined file, whose last slaves are those of the second.
fn tell_unnamed(path: &OsStr, second: &[u8], joined: &[u8], console: &mut Console) {
    let names = |file: &[u8]| Summary::of(file).map(|summary| summary.names().to_vec()).unwrap_or_default();
    let (before, after) = (names(second), names(joined));
    let first_slaves = after.len().saturating_sub(before.len());
    for (place, (&name, &left)) in before.iter().zip(&after[first_slaves..]).enumerate() {
        if left == NAME_UNNAMED && name != NAME_UNNAMED {
            console.tell(&format!(
                "{}: slave {place} had the name {name:02X}, which the first file holds too: now slave {} and unnamed",
                files::shown(path),
                first_slaves + place
            ));
        }
    }
}
