//! `ttpa show FILE`: a cluster file as text, or its multipartner rounds as a picture.

use crate::args::{Arguments, Choice, Subcommand, SVG};
use crate::cluster::{Cluster, Slave};
use crate::cluster_text;
use crate::console::{Console, Outcome, Status, Stop};
use crate::picture::{self, rounds};
use crate::text::{byte, decimal, quoted};
use crate::{files, place};
use std::ffi::OsStr;

pub const SUBCOMMAND: Subcommand = Subcommand {
    name: "show",
    usage: "FILE [--slave N|NAME] [--names] [--svg OUT]",
    summary: "write a cluster file as text, from which 'make' makes the same file",
    text: "\
Writes a cluster file as text. 'ttpa make' makes the same file of it, byte for byte. A file in which slaves have one logical name is
shown too, with a comment.

Of a text '#' begins a comment. A slave's line has its logical name, its physical name and 'asleep' where it sleeps. Records that are
not named are zeros; files 08 with 3 records and 3D with 2 are left out where the slave's line says all. Behind the first line what is
pending stands as 'pending read name 01 file 3D record 02' (or write, execute), and as 'idle NN NN NN' the three bytes that are free while
nothing is, where they are not zeros.

A record is four bytes, or in the files of multipartner rounds, 00, 02, 03, 04, 06 and 07, an entry in words: 'OPERATION file NN record NN
[align N] slots A-B [mux N]'. The operations are receive, send, receive-sync, execute, receive-speedup, send-speedup, end, execute-end,
receive-mux4, send-mux4, receive-mux8, send-mux8, receive-speedup-mux4, send-speedup-mux4, receive-mux8+4 and send-mux8+4.

With --svg the multipartner rounds are drawn in the text's place: slots by slaves, who sends and who receives, multiplexed entries
by the remainder of the epoch, which a round raises by 1 before it is looked at. Slaves that are unnamed or asleep are drawn pale, as they
would take part, and are counted among the senders.",
    operands: 1..=1,
    options: &[
        Choice {
            name: "--slave",
            value: Some("N|NAME"),
            text: "only the slave at place N of the table (one digit, or three: 5, 012), or those of a logical name (two: 05)",
        },
        Choice { name: NAMES, value: None, text: "one line a slave: place, logical name, physical name" },
        Choice { name: SVG, value: Some("OUT"), text: "draw the rounds to OUT, as SVG" },
    ],
    run,
};

const NAMES: &str = "--names";

/// Which slaves are asked for.
enum Which {
    All,
    Place(usize),
    Name(u8),
}

fn run(arguments: &Arguments, console: &mut Console) -> Outcome {
    let path = arguments.operand(0).unwrap_or_default();
    if arguments.has(NAMES) && arguments.has(SVG) {
        return Err(arguments.misused("--names and --svg exclude each other"));
    }
    let out = picture::path(arguments, &[path])?;
    let which = arguments.read("--slave", which)?.unwrap_or(Which::All);
    let file = files::read(path, console)?;
    let equal_names = equal_names(path, &file)?;
    let cluster = Cluster::of_file(&file).map_err(|refusal| files::refused(path, &file, refusal))?;
    let chosen =
        chosen(&cluster, &which).map_err(|words| Stop::Refused(format!("{}: {words}", files::shown(path))))?;
    if let Some(out) = out {
        files::save(out, rounds::chart(&chosen).as_bytes(), console)?;
        return Ok(Status::Accepted);
    }
    console.output.write_all(equal_names.as_bytes())?;
    if arguments.has(NAMES) {
        for (place, slave) in chosen {
            let asleep = if slave.asleep { " asleep" } else { "" };
            writeln!(console.output, "{place} {:02X} {:016X}{asleep}", slave.name(), slave.physical_name())?;
        }
        return Ok(Status::Accepted);
    }
    match which {
        Which::All => cluster_text::write(&cluster, console.output)?,
        _ => chosen.iter().try_for_each(|(_, slave)| cluster_text::write_slave(slave, console.output))?,
    }
    Ok(Status::Accepted)
}

/// The comment for a file that is refused by 22 alone.
fn equal_names(path: &OsStr, file: &[u8]) -> Result<String, Stop> {
    match ttpa::check(file) {
        Ok(()) => Ok(String::new()),
        Err(refusal @ ttpa::TtpaError::EqualLogicalNames) => {
            let place = place::of(file, refusal).map(|place| format!("# {}\n", place::line(&place)));
            Ok(format!("# {refusal}\n{}", place.unwrap_or_default()))
        }
        Err(refusal) => Err(files::refused(path, file, refusal)),
    }
}

fn which(word: &str) -> Result<Which, String> {
    const NAME_DIGITS: usize = 2;
    if word.starts_with("0x") || word.len() == NAME_DIGITS {
        return byte(word).map(Which::Name).map_err(|_| format!("{} is no logical name", quoted(word)));
    }
    decimal(word, "place in the slave table", 0, ttpa::MOST_SLAVES as u64 - 1)
        .map(|place| Which::Place(place as usize))
}

fn chosen<'a>(cluster: &'a Cluster, which: &Which) -> Result<Vec<(usize, &'a Slave)>, String> {
    let slaves = cluster.slaves.iter().enumerate();
    let (chosen, none): (Vec<_>, String) = match *which {
        Which::All => return Ok(slaves.collect()),
        Which::Place(wanted) => (
            slaves.filter(|&(place, _)| place == wanted).collect(),
            format!("there is no slave {wanted}, the file has {}", cluster.slaves.len()),
        ),
        Which::Name(name) => (
            slaves.filter(|(_, slave)| slave.name() == name).collect(),
            format!("no slave has the name {name:02X}"),
        ),
    };
    if chosen.is_empty() {
        Err(none)
    } else {
        Ok(chosen)
    }
}
