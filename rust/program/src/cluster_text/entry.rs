//! An entry of a round file in words: `send file 10 record 01 slots 1-2`.

use crate::cluster::Record;
use crate::text::{byte_named, decimal, file_number, quoted, Words};

/// The files whose records, from 01 on, are entries: those of the multipartner rounds.
pub const ROUND_FILES: [u8; 6] = [0, 2, 3, 4, 6, 7];

/// By their codes, table 4 of document 002.
const OPERATIONS: [&str; 16] = [
    "receive",
    "send",
    "receive-sync",
    "execute",
    "receive-speedup",
    "send-speedup",
    "end",
    "execute-end",
    "receive-mux4",
    "send-mux4",
    "receive-mux8",
    "send-mux8",
    "receive-speedup-mux4",
    "send-speedup-mux4",
    "receive-mux8+4",
    "send-mux8+4",
];
/// From this code on the multiplex field counts.
const FIRST_MULTIPLEXED: u8 = 8;
const LAST_SLOT: u8 = 63;
const MOST_SLOTS: u8 = 16;
/// Of align and multiplex field.
const MOST_OF_TWO_BITS: u64 = 3;

/// Whether a record of a file is an entry. Record 00 is the file's header.
pub fn is_entry(file: u8, record: usize) -> bool {
    ROUND_FILES.contains(&file) && record > 0
}

/// The entry in words, from which its bytes come again; None for one that covers slots past the last.
pub fn words(entry: Record) -> Option<String> {
    let [place, record, action, slot] = entry;
    let (file, align) = (place >> 2, place & 3);
    let (code, more_slots) = (action >> 4, action & 15);
    let (multiplex, start) = (slot >> 6, slot & 63);
    let last = start + more_slots;
    if last > LAST_SLOT {
        return None;
    }
    let mut words = format!("{} file {file:02X} record {record:02X}", OPERATIONS[usize::from(code)]);
    if align != 0 {
        words += &format!(" align {align}");
    }
    words += &format!(" slots {start}-{last}");
    if multiplex != 0 || code >= FIRST_MULTIPLEXED {
        words += &format!(" mux {multiplex}");
    }
    Some(words)
}

/// Whether the word is that of an operation.
pub fn is_operation(word: &str) -> bool {
    OPERATIONS.contains(&word)
}

/// The bytes of an entry in words.
pub fn read(words: &mut Words) -> Result<Record, String> {
    let operation = words.next("the operation")?;
    let code = OPERATIONS.iter().position(|&known| known == operation);
    let code = code
        .ok_or_else(|| format!("{} is neither a byte nor an operation of an entry", quoted(operation)))?
        as u8;
    words.keyword("file")?;
    let file = file_number(words.next("the file number")?)?;
    words.keyword("record")?;
    let record = byte_named(words.next("the record number")?, "record number")?;
    let align = two_bits(words, "align")?;
    words.keyword("slots")?;
    let (start, more_slots) = slots(words.next("the slots")?)?;
    let multiplex = two_bits(words, "mux")?;
    Ok([file << 2 | align, record, code << 4 | more_slots, multiplex << 6 | start])
}

/// A field of two bits behind its word, 0 where it is not there.
fn two_bits(words: &mut Words, keyword: &str) -> Result<u8, String> {
    if !words.optional(keyword) {
        return Ok(0);
    }
    let word = words.next(&format!("the number behind '{keyword}'"))?;
    decimal(word, &format!("{keyword} field"), 0, MOST_OF_TWO_BITS).map(|number| number as u8)
}

/// The first slot, and how many more there are.
fn slots(word: &str) -> Result<(u8, u8), String> {
    let (first, last) = word.split_once('-').unwrap_or((word, word));
    let slot = |word| decimal(word, "slot", 0, u64::from(LAST_SLOT)).map(|slot| slot as u8);
    let (first, last) = (slot(first)?, slot(last)?);
    match last.checked_sub(first) {
        Some(more) if more < MOST_SLOTS => Ok((first, more)),
        _ => Err(format!("{} is no row of slots (FIRST-LAST, at most {MOST_SLOTS} slots)", quoted(word))),
    }
}

#[cfg(test)]
mod tests {
    use super::*;
    use crate::subcommands::TABLE;

    #[test]
    fn help_names_each_operation() {
        let show = TABLE.iter().find(|subcommand| subcommand.name == "show").expect("an entry of the table");
        let words: Vec<&str> = show.text.split([' ', '\n', ',', '.']).collect();
        assert!(OPERATIONS.iter().all(|operation| words.contains(operation)));
    }

    /// Every operation, length and start slot, and all values of the other fields: the bytes come again, or the entry
    /// covers slots past the last.
    #[test]
    fn words_lose_nothing() {
        let (mut told, mut past) = (0, 0);
        for action in 0..=255_u8 {
            for slot in 0..=255_u8 {
                let entry = [action ^ slot, slot.wrapping_mul(7), action, slot];
                match words(entry) {
                    Some(text) => {
                        let mut words = Words::of(&text);
                        assert_eq!(read(&mut words), Ok(entry), "{text}");
                        assert_eq!(words.end(), Ok(()), "{text}");
                        told += 1;
                    }
                    None => {
                        assert!((slot & 63) + (action & 15) > 63);
                        past += 1;
                    }
                }
            }
        }
        assert_eq!((told, past), (57_856, 7_680));
    }

    #[test]
    fn words_are_those_of_the_table() {
        let told = |entry| words(entry).unwrap_or_default();
        assert_eq!(told([0x40, 0x01, 0x11, 0x01]), "send file 10 record 01 slots 1-2");
        assert_eq!(told([0x00, 0x00, 0x60, 0x00]), "end file 00 record 00 slots 0-0");
        assert_eq!(told([0x47, 0x01, 0xF0, 0x84]), "send-mux8+4 file 11 record 01 align 3 slots 4-4 mux 2");
        assert_eq!(words([0, 0, 0x1F, 0x31]), None);
    }

    /// Table 4 of document 002 from front to back, in the words of the design.
    #[test]
    fn each_code_has_its_operation() {
        let table = "receive send receive-sync execute receive-speedup send-speedup end execute-end receive-mux4 send-mux4 \
            receive-mux8 send-mux8 receive-speedup-mux4 send-speedup-mux4 receive-mux8+4 send-mux8+4";
        let told = |code: u8| words([0, 0, code << 4, 0]).unwrap_or_default();
        let first = |text: String| text.split(' ').next().unwrap_or_default().to_string();
        let operations: Vec<String> = (0..16).map(told).map(first).collect();
        assert_eq!(operations.join(" "), table);
    }

    #[test]
    fn wrong_words_are_told() {
        let wrong = |text: &str| read(&mut Words::of(text)).err().unwrap_or_default();
        assert_eq!(wrong("sned file 10"), "'sned' is neither a byte nor an operation of an entry");
        assert_eq!(wrong("send file 40"), "'40' is no file number (hexadecimal, at most 3F)");
        assert_eq!(
            wrong("send file 10 record 01 slots 1-17"),
            "'1-17' is no row of slots (FIRST-LAST, at most 16 slots)"
        );
        assert_eq!(
            wrong("send file 10 record 01 slots 2-1"),
            "'2-1' is no row of slots (FIRST-LAST, at most 16 slots)"
        );
        assert_eq!(wrong("send file 10 record 01 slots 64"), "'64' is no slot (decimal, 0 to 63)");
        assert_eq!(wrong("send file 10 record 01"), "'slots' is missing");
        assert_eq!(wrong("send file 10 record 01 slots 1 mux 4"), "'4' is no mux field (decimal, 0 to 3)");
    }
}
