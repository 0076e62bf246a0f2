//! A list of names as the command line has it: `01,05-0A`.

use crate::args::Arguments;
use crate::console::Stop;
use crate::text::{byte_named, quoted};

/// The names of an argument. An empty one is the empty list; which names may be listed is the engine's to say.
pub fn operand(arguments: &Arguments, place: usize) -> Result<Vec<u8>, Stop> {
    let word = arguments.operand(place).unwrap_or_default().to_string_lossy();
    read(&word).map_err(|words| Stop::Usage(format!("NAMES: {words}")))
}

pub fn read(word: &str) -> Result<Vec<u8>, String> {
    let mut names = Vec::new();
    if word.is_empty() {
        return Ok(names);
    }
    for part in word.split(',') {
        match part.split_once('-') {
            None => names.push(byte_named(part, "name")?),
            Some((first, last)) => {
                let (first, last) = (byte_named(first, "name")?, byte_named(last, "name")?);
                if last < first {
                    return Err(format!("{} falls: the first name of a row is the least", quoted(part)));
                }
                names.extend(first..=last);
            }
        }
    }
    Ok(names)
}

#[cfg(test)]
mod tests {
    use super::*;

    #[test]
    fn names_are_listed_one_by_one_or_as_rows() {
        assert_eq!(read("01,05-08,0xA"), Ok(vec![1, 5, 6, 7, 8, 0x0A]));
        assert_eq!(read("FF-FF"), Ok(vec![0xFF]));
        assert_eq!(read(""), Ok(vec![]));
        // the engine refuses it
        assert_eq!(read("00,00"), Ok(vec![0, 0]));
    }

    #[test]
    fn a_wrong_list_is_told() {
        let wrong = |word: &str| read(word).err().unwrap_or_default();
        assert_eq!(wrong("01,"), "'' is no name (hexadecimal, at most FF)");
        assert_eq!(wrong("01,100"), "'100' is no name (hexadecimal, at most FF)");
        assert_eq!(wrong("0A-05"), "'0A-05' falls: the first name of a row is the least");
        assert_eq!(wrong("01-"), "'' is no name (hexadecimal, at most FF)");
    }
}
