//! What is said of a wrong cluster text: the line and the word.

mod common;

use common::{called, counted};
use program::console::Status;

const FIRST: &str = "cluster edition 1 epoch 00\n";
const SLAVE: &str = "slave 01 0000000700000042\n";

/// What comes behind the first line and the slave's, and what is said of it.
const OF_A_SLAVE: [(&str, &str); 26] = [
    ("fiel 02 records 1", "3: 'fiel' is none of slave, file and a record number"),
    ("cluster edition 1 epoch 00", "3: 'cluster' is none of slave, file and a record number"),
    ("01 00 00 00 00", "3: a record stands behind its file's line"),
    ("idle 00 00 00", "3: 'idle' stands once, before the slaves"),
    ("slave 02", "3: the physical name is missing"),
    ("slave 02 7", "3: '7' is no physical name (16 hexadecimal digits)"),
    ("slave 02 0000000700000043 awake", "3: 'awake' is one word too many"),
    ("file 40 records 1", "3: '40' is no file number (hexadecimal, at most 3F)"),
    ("file 10 records 0", "3: '0' is no number of records (decimal, 1 to 255)"),
    ("file 10 records 256", "3: '256' is no number of records (decimal, 1 to 255)"),
    ("file 10 record 1", "3: 'record' stands where 'records' must"),
    ("file 10 records 1\n\nfile 10 records 1", "5: the slave has a file 10 already, line 3"),
    ("file 10 records 1\n02 00 00 00 00", "4: '02' is no record of the file, whose last is 01"),
    ("file 10 records 1\n01 00 00 00", "4: a byte of the record is missing"),
    ("file 10 records 1\n01 00 00 00 00 00", "4: '00' is one word too many"),
    ("file 10 records 1\n01 1 2 3 4\n01 1 2 3 4", "5: record 01 of file 10 stands here a second time"),
    ("file 10 records 1\n01 send file 10", "4: 'send' is no byte (hexadecimal, at most FF)"),
    ("file 02 records 1\n00 send file 10", "4: 'send' is no byte (hexadecimal, at most FF)"),
    ("file 02 records 1\n01 sned", "4: 'sned' is neither a byte nor an operation of an entry"),
    ("file 02 records 1\n01 send file 10 record 01 slots 60-64", "4: '64' is no slot (decimal, 0 to 63)"),
    ("file 08 records 3\n01 00 00 00 02", "4: record 01 of file 08 has the name 02, and the slave's line 01"),
    (
        "file 3D records 2\n01 00 00 00 02",
        "4: record 01 of file 3D has the name 00 00 00 02, and the slave's line 00 00 00 07",
    ),
    (
        "file 3D records 2\n02 00 00 00 02",
        "4: record 02 of file 3D has the name 00 00 00 02, and the slave's line 00 00 00 42",
    ),
    ("file 3D records 1", "3: refused 7: "),
    ("slave 02 0000000700000042", "3: refused 8: "),
    ("slave 01 0000000700000043", "3: refused 22: "),
];

/// What stands in place of the slaves.
const OF_A_CLUSTER: [(&str, &str); 9] = [
    ("slvae 01 0000000700000042", "2: 'slvae' is none of slave, file and a record number"),
    ("file 02 records 1", "2: a file stands behind its slave's line"),
    ("01 00 00 00 00", "2: a record stands behind its file's line"),
    ("idle 00 00", "2: a byte is missing"),
    ("idle 00 00 00\nidle 00 00 00", "3: 'idle' stands once, before the slaves"),
    ("pending erase name 01 file 3D record 01", "2: 'erase' is none of read, write and execute"),
    ("pending read name 01 file 40 record 01", "2: '40' is no file number (hexadecimal, at most 3F)"),
    ("# the line behind\npending read name 00 file 3D record 01", "3: refused 5: "),
    ("pending read name 01 file 3D", "2: 'record' is missing"),
];

fn wrong(text: &str, words: &str) {
    let made = called(&["make", "-", "-"], text.as_bytes());
    assert_eq!((made.status, made.output.len()), (Status::Refused, 0), "{text}");
    assert!(made.messages.starts_with(&format!("standard input:{words}")), "{} for\n{text}", made.messages);
    assert_eq!(made.messages.lines().count(), 1, "{}", made.messages);
}

#[test]
fn a_wrong_text_is_told_with_its_line() {
    for (lines, words) in OF_A_SLAVE {
        wrong(&format!("{FIRST}{SLAVE}{lines}\n"), words);
    }
    for (lines, words) in OF_A_CLUSTER {
        wrong(&format!("{FIRST}{lines}\n"), words);
    }
    wrong("", "1: 'cluster' is missing");
    wrong("cluster edition 3 epoch 00", "1: '3' is no edition (1 or 2)");
    counted("wrong-texts", OF_A_SLAVE.len() + OF_A_CLUSTER.len() + 2);
}

/// The counts of the file are bytes, and the engine has lower limits: it is the engine that refuses up to 255 slaves.
#[test]
fn slaves_past_the_most() {
    let slaves = |count: usize| {
        let line = |slave: usize| format!("slave FF {slave:016X}\n");
        format!("{FIRST}{}", (0..count).map(line).collect::<String>())
    };
    assert_eq!(called(&["make", "-", "-"], slaves(32).as_bytes()).status, Status::Accepted);
    // the first slave past the most stands in line 34
    wrong(&slaves(33), "34: refused 5: ");
    wrong(&slaves(255), "34: refused 5: ");
    wrong(&slaves(256), "257: there are more than 255 slaves");
}

/// One record more than fits, and the line of the file it is in.
#[test]
fn bytes_past_the_most() {
    let most = ttpa::EDITION_1_FILE_BYTES;
    // header, table entry, and directory entries and files 08 and 3D of the slave, and 31 files of 255 records
    let before = 16 + 4 + 2 * 4 + 16 + 12 + 31 * (4 + 1024);
    let last_file = |records: usize| {
        let file = |number: usize| format!("file {number:02X} records 255\n");
        let files: String = (0x10..0x10 + 31).map(file).collect();
        format!("{FIRST}{SLAVE}{files}file 3E records {records}\n")
    };
    let fits = (most - before - 4) / 4 - 1;
    assert_eq!(called(&["make", "-", "-"], last_file(fits).as_bytes()).output.len(), most);
    // the first line of a file is 3
    wrong(&last_file(fits + 1), "34: refused 1: ");
    wrong(&format!("{}file 3F records 1\n", last_file(fits)), "35: refused 1: ");
}

/// A line that does not end is not read to its end.
#[test]
fn a_line_past_the_most() {
    let long = |length: usize| format!("{FIRST}#{}\n", "A".repeat(length - 2));
    assert_eq!(called(&["make", "-", "-"], long(65_536).as_bytes()).status, Status::Accepted);
    wrong(&long(65_537), "2: the line is longer than 65536 bytes");
}

/// A text that is read whole ends, whatever comes in: here lines without a word.
#[test]
fn no_text_has_lines_without_end() {
    let demo = common::here("../../c/demo.cluster").to_string_lossy().into_owned();
    let lines = "\n#\n".repeat(50_001);
    for arguments in
        [&["make", "-", "-"][..], &["mark", "-"], &["pack", "-", "-"], &["name", &demo, "02", "--between", "-"]]
    {
        let came = called(arguments, lines.as_bytes());
        assert_eq!((came.status, came.output.len()), (Status::Refused, 0), "{arguments:?}");
        assert_eq!(came.messages, "standard input:100001: more than 100000 lines\n", "{arguments:?}");
    }
    // where each line is answered before the next is read there may be any number
    let came = called(&["round", &demo], lines.as_bytes());
    assert_eq!((came.status, came.output.len()), (Status::Accepted, 0), "{}", came.messages);
}
