//! What all texts have in common: lines, words, numbers, and how a wrong one is told.

use crate::console::Stop;
use std::io::{self, BufRead, Read};

/// A line has at most this many bytes, so that reading one ends whatever comes in.
const MOST_LINE_BYTES: u64 = 65_536;
/// A text that is read whole before anything is done has at most this many lines, for the same reason.
const MOST_LINES: usize = 100_000;
/// Of a word that a message repeats.
const MOST_QUOTED: usize = 40;

/// Something typed, for a message: between quotes, without control characters, and not all of a long one.
pub fn quoted(word: &str) -> String {
    let shown: String = word.chars().take(MOST_QUOTED).collect();
    let more = if shown.len() < word.len() { ".." } else { "" };
    format!("'{}{more}'", printable(&shown))
}

/// The text without control characters, so that it alters no terminal.
pub fn printable(text: &str) -> String {
    text.chars().map(|character| if character.is_control() { '?' } else { character }).collect()
}

/// The lines of a text one by one, each with its number, comments and blanks at the ends cut off.
pub struct Lines<'a> {
    input: &'a mut dyn BufRead,
    /// As messages name the text.
    pub name: String,
    /// Of the line last read, from 1.
    pub number: usize,
    most: usize,
}

impl<'a> Lines<'a> {
    /// Of a text each line of which is answered before the next is read.
    pub fn of(input: &'a mut dyn BufRead, name: String) -> Lines<'a> {
        Lines { input, name, number: 0, most: usize::MAX }
    }

    /// Of a text that is read whole.
    pub fn whole(input: &'a mut dyn BufRead, name: String) -> Lines<'a> {
        Lines { input, name, number: 0, most: MOST_LINES }
    }

    /// The next line, or None at the end. Bytes that are no text become the sign for that, which no word has.
    fn line(&mut self) -> Result<Option<String>, Stop> {
        let mut bytes = Vec::new();
        let read = self.input.take(MOST_LINE_BYTES + 1).read_until(b'\n', &mut bytes);
        read.map_err(|error| self.unreadable(&error))?;
        if bytes.is_empty() {
            return Ok(None);
        }
        self.number += 1;
        if self.number > self.most {
            return Err(self.wrong(format!("more than {} lines", self.most)));
        }
        if bytes.len() as u64 > MOST_LINE_BYTES {
            return Err(self.wrong(format!("the line is longer than {MOST_LINE_BYTES} bytes")));
        }
        let line = String::from_utf8_lossy(&bytes);
        let line = if self.number == 1 { line.trim_start_matches('\u{FEFF}') } else { &line };
        let text = line.split('#').next().unwrap_or_default();
        Ok(Some(text.trim().to_string()))
    }

    /// The next line that has a word in it.
    pub fn next_with_words(&mut self) -> Result<Option<String>, Stop> {
        while let Some(line) = self.line()? {
            if !line.is_empty() {
                return Ok(Some(line));
            }
        }
        Ok(None)
    }

    fn unreadable(&self, error: &io::Error) -> Stop {
        Stop::Trouble(format!("{}: {}", self.name, crate::console::reason(error)))
    }

    /// Where the line last read stands: `plant.txt:7`.
    pub fn place(&self) -> String {
        place(&self.name, self.number)
    }

    /// The line last read is wrong.
    pub fn wrong(&self, words: String) -> Stop {
        Stop::Text { place: self.place(), words }
    }
}

/// `plant.txt:7`; a text without a line is wrong in its first.
pub fn place(name: &str, line: usize) -> String {
    format!("{name}:{}", line.max(1))
}

/// The words of a line, taken one after the other.
pub struct Words<'a> {
    words: std::iter::Peekable<std::str::SplitWhitespace<'a>>,
}

impl<'a> Words<'a> {
    pub fn of(line: &'a str) -> Words<'a> {
        Words { words: line.split_whitespace().peekable() }
    }

    /// The next word; `what` says what is missing.
    pub fn next(&mut self, what: &str) -> Result<&'a str, String> {
        self.words.next().ok_or_else(|| format!("{what} is missing"))
    }

    pub fn peek(&mut self) -> Option<&'a str> {
        self.words.peek().copied()
    }

    /// The next word is this one.
    pub fn keyword(&mut self, keyword: &str) -> Result<(), String> {
        match self.next(&format!("'{keyword}'"))? {
            word if word == keyword => Ok(()),
            word => Err(format!("{} stands where '{keyword}' must", quoted(word))),
        }
    }

    /// Takes the next word if it is this one.
    pub fn optional(&mut self, keyword: &str) -> bool {
        self.words.next_if_eq(&keyword).is_some()
    }

    /// There is no further word.
    pub fn end(&mut self) -> Result<(), String> {
        match self.words.next() {
            Some(word) => Err(format!("{} is one word too many", quoted(word))),
            None => Ok(()),
        }
    }
}

/// A byte of any meaning, which the words name: two hexadecimal digits, or one, with or without 0x.
pub fn byte_named(word: &str, what: &str) -> Result<u8, String> {
    hexadecimal(word, 2)
        .map(|number| number as u8)
        .ok_or_else(|| format!("{} is no {what} (hexadecimal, at most FF)", quoted(word)))
}

pub fn byte(word: &str) -> Result<u8, String> {
    byte_named(word, "byte")
}

/// "file number 0 to 63"
pub fn file_number(word: &str) -> Result<u8, String> {
    const LAST: u64 = 0x3F;
    match hexadecimal(word, 2) {
        Some(number) if number <= LAST => Ok(number as u8),
        _ => Err(format!("{} is no file number (hexadecimal, at most 3F)", quoted(word))),
    }
}

/// 64 bits, by all their digits.
pub fn physical_name(word: &str) -> Result<u64, String> {
    const DIGITS: usize = 16;
    let digits = without_prefix(word);
    hexadecimal(word, DIGITS)
        .filter(|_| digits.len() == DIGITS)
        .ok_or_else(|| format!("{} is no physical name (16 hexadecimal digits)", quoted(word)))
}

/// A decimal number within limits, which the words name.
pub fn decimal(word: &str, what: &str, least: u64, most: u64) -> Result<u64, String> {
    let digits = !word.is_empty() && word.bytes().all(|byte| byte.is_ascii_digit());
    word.parse()
        .ok()
        .filter(|number| digits && (least..=most).contains(number))
        .ok_or_else(|| format!("{} is no {what} (decimal, {least} to {most})", quoted(word)))
}

fn without_prefix(word: &str) -> &str {
    word.strip_prefix("0x").unwrap_or(word)
}

fn hexadecimal(word: &str, most_digits: usize) -> Option<u64> {
    let digits = without_prefix(word);
    let good = (1..=most_digits).contains(&digits.len()) && digits.bytes().all(|byte| byte.is_ascii_hexdigit());
    if good {
        u64::from_str_radix(digits, 16).ok()
    } else {
        None
    }
}

/// Bytes as texts have them: `A1 5C 00 00`.
pub fn hex(bytes: &[u8]) -> String {
    let words: Vec<String> = bytes.iter().map(|byte| format!("{byte:02X}")).collect();
    words.join(" ")
}

#[cfg(test)]
mod tests {
    use super::*;

    #[test]
    fn numbers_keep_their_limits() {
        assert_eq!(byte("0xfF"), Ok(0xFF));
        assert_eq!(byte("5"), Ok(5));
        for wrong in ["", "0x", "100", "G1", "+1", "-1", "\u{661}"] {
            assert!(byte(wrong).is_err(), "{wrong}");
        }
        assert_eq!(file_number("3F"), Ok(0x3F));
        assert_eq!(file_number("40"), Err("'40' is no file number (hexadecimal, at most 3F)".to_string()));
        assert_eq!(physical_name("0000000700000042"), Ok(0x7_0000_0042));
        assert!(physical_name("700000042").is_err());
        assert_eq!(decimal("255", "count", 1, 255), Ok(255));
        for wrong in ["0", "256", "+1", "", "99999999999999999999999"] {
            assert!(decimal(wrong, "count", 1, 255).is_err(), "{wrong}");
        }
    }

    #[test]
    fn a_message_has_no_control_character() {
        assert_eq!(quoted("\x1b[31m"), "'?[31m'");
        assert_eq!(quoted(&"A".repeat(41)), format!("'{}..'", "A".repeat(40)));
    }

    #[test]
    fn lines_lose_comments_and_blanks() {
        let text = "\u{FEFF}one # first\r\n\n#\n two\tthree ";
        let mut bytes = text.as_bytes();
        let mut lines = Lines::of(&mut bytes, "name".to_string());
        assert_eq!(lines.next_with_words().ok().flatten().as_deref(), Some("one"));
        assert_eq!(lines.next_with_words().ok().flatten().as_deref(), Some("two\tthree"));
        assert_eq!(lines.place(), "name:4");
        assert!(lines.next_with_words().is_ok_and(|line| line.is_none()));
    }
}
