//! Cluster files for edges, their layout written out and not made by the model or an engine.

use crate::case::bytes;
use crate::editions::{Parts, SlaveFile};

pub const UNNAMED: u8 = 0xFF;
const CONFIGURATION: u8 = 0x08;
const DATA_FILE: u8 = 0x10;
const DOCUMENTATION: u8 = 0x3D;

/// A slave's logical name, and its lists: the round, and the entries from record 1 on; a file of another number may be
/// among them, and of 0x08 the records from 4 on. Beside files 0x08 and 0x3D, it has a file 0x10 of records 0x00 and 1,
/// so of the places 0 to 7, which hold 0xD0 to 0xD7.
#[derive(Clone)]
pub struct Slave {
    pub name: u8,
    pub lists: Vec<(u8, String)>,
}

/// Bytes as hexadecimal digits, with blanks anywhere.
pub fn hex(text: &str) -> Vec<u8> {
    let digits: String = text.split_whitespace().collect();
    bytes(&digits).expect("hexadecimal digits")
}

/// A slave with a list for one round.
pub fn slave(name: u8, round: u8, entries: &str) -> Slave {
    Slave { name, lists: vec![(round, entries.to_string())] }
}

/// The slave's files in rising order of their numbers, the physical name being 7 and its place in the table.
fn files_of(slave: &Slave, place: u8) -> Vec<SlaveFile> {
    let (more, lists): (Vec<_>, Vec<_>) = slave.lists.iter().partition(|(number, _)| *number == CONFIGURATION);
    let mut files: Vec<SlaveFile> =
        lists.into_iter().map(|(round, entries)| (*round, hex(&format!("00000000 {entries}")))).collect();
    let mut configuration = vec![0, 0, 0, 0, 0, 0, 0, slave.name, 0, 0, 0, 0, 0, 0, 0, 0];
    more.into_iter().for_each(|(_, records)| configuration.extend(hex(records)));
    files.push((CONFIGURATION, configuration));
    files.push((DATA_FILE, vec![0xD0, 0xD1, 0xD2, 0xD3, 0xD4, 0xD5, 0xD6, 0xD7]));
    files.push((DOCUMENTATION, vec![0, 0, 0, 0, 0, 0, 0, 7, 0, 0, 0, place]));
    files.sort_by_key(|&(number, _)| number);
    files
}

/// The cluster file of these slaves in edition 1: epoch 0, nothing pending, all awake.
pub fn cluster(slaves: &[Slave]) -> Vec<u8> {
    parts(slaves).laid_out(1)
}

/// The same as its parts, which either edition holds.
pub fn parts(slaves: &[Slave]) -> Parts {
    let awake = |(place, slave)| (0, files_of(slave, place));
    Parts { state: [0; 5], slaves: (0..).zip(slaves).map(awake).collect() }
}

/// A slave's files: those it needs, the physical name being 7 and its place, and so many others of the least size.
pub fn least_files(place: usize, name: u8, others: usize) -> Vec<SlaveFile> {
    let mut files = vec![
        (0x08, vec![0, 0, 0, 0, 0, 0, 0, name, 0, 0, 0, 0, 0, 0, 0, 0]),
        (0x3D, vec![0, 0, 0, 0, 0, 0, 0, 7, 0, 0, 0, place as u8]),
    ];
    let free = (0..64).filter(|number| ![0x08, 0x3D].contains(number));
    files.extend(free.take(others).map(|number| (number, vec![0x5A; 8])));
    files.sort_by_key(|&(number, _)| number);
    files
}

/// Unnamed slaves with so many files beside those they need.
pub fn unnamed(slaves: usize, others: usize) -> Parts {
    let awake = |place| (0, least_files(place, UNNAMED, others));
    Parts { state: [0; 5], slaves: (0..slaves).map(awake).collect() }
}

/// The same, files lengthened until there are so many bytes in an edition.
pub fn of_length(mut parts: Parts, edition: u8, length: usize) -> Parts {
    let mut missing = length - parts.laid_out(edition).len();
    for (_, content) in parts.slaves.iter_mut().flat_map(|(_, files)| files) {
        let grown = missing.min(4 * 256 - content.len());
        content.resize(content.len() + grown, 0x5A);
        missing -= grown;
    }
    assert_eq!(parts.laid_out(edition).len(), length);
    parts
}

/// Where a file keeps what is pending: flag, logical name, PB2 and PB3.
pub const PENDING: usize = 9;

/// Slaves of these names, none with a list.
pub fn named(names: &[u8]) -> Vec<u8> {
    let slaves: Vec<Slave> = names.iter().map(|&name| Slave { name, lists: Vec::new() }).collect();
    cluster(&slaves)
}

/// Where such a slave's part begins: its directory of three files, then 0x08, 0x10 and 0x3D.
pub fn slave_place(slaves: usize, slave: usize) -> usize {
    16 + 4 * slaves + slave * (12 + 16 + 8 + 12)
}

/// Two slaves of these names, in a file that each of 1 to 8 refuses: what is wrong with it, and the number.
pub fn refused_files(names: [u8; 2]) -> [(&'static str, Vec<u8>, u8); 8] {
    let file = named(&names);
    // The second slave's directory ends with the entry of 0x3D; the last byte of the file is its serial number.
    let documentation = slave_place(2, 1) + 8;
    let serial = file.len() - 1;
    [
        ("15 bytes", file[..15].to_vec(), 1),
        ("a wrong mark", changed(&file, &[(0, "55")]), 2),
        ("a wrong edition", changed(&file, &[(2, "03")]), 3),
        ("a wrong length", changed(&file, &[(7, "00")]), 4),
        ("a header zero", changed(&file, &[(13, "01")]), 5),
        ("a sleep byte of 2", changed(&file, &[(0x13, "02")]), 6),
        ("a slave without 0x3D", changed(&file, &[(documentation, "3E")]), 7),
        ("equal physical names", changed(&file, &[(serial, "00")]), 8),
    ]
}

/// Bytes of a file that are others, by their place.
pub type Changes<'a> = &'a [(usize, &'a str)];

/// The file with other bytes in places.
pub fn changed(file: &[u8], changes: Changes) -> Vec<u8> {
    let mut file = file.to_vec();
    for &(place, text) in changes {
        let new = hex(text);
        file[place..place + new.len()].copy_from_slice(&new);
    }
    file
}

/// An answer of 64 bytes: the firework, the bytes sent from slot 1 on, then silence.
pub fn answer(firework: u8, sent: &[u8]) -> Vec<u8> {
    let mut answer = [&[firework], sent].concat();
    answer.resize(64, 0xFF);
    answer
}
