//! `ttpa make TEXT OUT`: a cluster file of a text.

use crate::args::{Arguments, Subcommand, EQUAL_NAMES};
use crate::cluster::Cluster;
use crate::cluster_text::{self, Text};
use crate::console::{Console, Outcome, Status, Stop};
use crate::layout::RECORD_BYTES;
use crate::place::{self, Part};
use crate::{files, text};
use ttpa::TtpaError;

pub const SUBCOMMAND: Subcommand = Subcommand {
    name: "make",
    usage: "TEXT OUT [--equal-names]",
    summary: "make a cluster file of its text, as 'show' writes it",
    text: "\
Makes a cluster file of a text as 'ttpa show' writes it. Nothing is said where this succeeds. OUT is written only if the engine
accepts the file, and if every record that the engine reads back from it is the text's.",
    operands: 2..=2,
    options: &[EQUAL_NAMES],
    run,
};

fn run(arguments: &Arguments, console: &mut Console) -> Outcome {
    let (path, out) = (arguments.operand(0).unwrap_or_default(), arguments.operand(1).unwrap_or_default());
    files::keep_text(path, out, arguments)?;
    let text = files::with_text(path, console, cluster_text::read)?;
    let file = make(&text, arguments.has(EQUAL_NAMES.name))?;
    files::save(out, &file, console)?;
    Ok(Status::Accepted)
}

/// The file of a text, accepted and read back.
pub fn make(text: &Text, equal_names: bool) -> Result<Vec<u8>, Stop> {
    let file = text.cluster.encode();
    match ttpa::check(&file) {
        Err(TtpaError::EqualLogicalNames) if equal_names => {}
        Err(refusal) => return Err(refused(text, &file, refusal)),
        Ok(()) => {}
    }
    read_back(text, &file)?;
    Ok(file)
}

/// Whether every record that the engine reads from the file is the text's.
fn read_back(text: &Text, file: &[u8]) -> Result<(), Stop> {
    match Cluster::of_file(file) {
        Ok(cluster) if cluster == text.cluster => Ok(()),
        _ => Err(Stop::Trouble(format!("{}: the file made of it does not read back as the text", text.name))),
    }
}

/// The engine's refusal with the line of the text that it is about.
fn refused(text: &Text, file: &[u8], refusal: TtpaError) -> Stop {
    let place = place::of(file, refusal);
    let line = match place.as_ref().map(|place| place.part) {
        Some(Part::Pending) => text.pending_line(),
        Some(Part::Slave(slave) | Part::SlaveTooMany(slave)) => text.slave_line(slave),
        Some(Part::File(slave, number)) => text.file_line(slave, number),
        Some(Part::Header) | None => match first_too_far(text) {
            Some((slave, number)) => text.file_line(slave, number),
            None => text.cluster_line,
        },
    };
    let found = place.map(|place| format!(" ({})", found(&place))).unwrap_or_default();
    Stop::Text { place: text::place(&text.name, line), words: format!("{refusal}{found}") }
}

/// What was found, without the byte of a file that nobody sees.
fn found(place: &place::Place) -> String {
    place::line(&place::Place { byte: None, ..place.clone() })
}

/// The first file of a slave with which the cluster file becomes longer than may be.
fn first_too_far(text: &Text) -> Option<(usize, u8)> {
    let Cluster { edition, slaves, .. } = &text.cluster;
    let mut length = edition.table_entry(slaves.len());
    for (place, slave) in slaves.iter().enumerate() {
        for file in &slave.files {
            length += edition.entry_bytes() + RECORD_BYTES * file.records.len();
            if length > edition.most_bytes() {
                return Some((place, file.number));
            }
        }
    }
    None
}

#[cfg(test)]
mod tests {
    use super::*;

    /// A file that the engine accepts and that is another cluster's by one bit, wherever it is, is not the text's.
    #[test]
    fn another_file_does_not_read_back() {
        let mut lines =
            "cluster edition 1 epoch 00\nslave 01 0000000700000042\n  file 10 records 1\n".as_bytes();
        let text = cluster_text::read(&mut lines, "t".to_string()).expect("a good text");
        let file = make(&text, false).expect("a good file");
        let mut others = 0;
        for place in 0..file.len() {
            let mut other = file.clone();
            other[place] ^= 1;
            if ttpa::check(&other).is_ok() {
                assert!(read_back(&text, &other).is_err(), "byte {place}");
                others += 1;
            }
        }
        // the epoch, three bytes of nothing pending, the sleep byte, the name and all records
        assert!(others > 30, "{others}");
        assert!(read_back(&text, &file).is_ok());
    }
}
