//! A naming run that is kept as a text and gone on with later: the names, the eight words of the position, what the program counts
//! beside it, and a checksum, since 17 does not see every damage.

use super::{Counted, Naming};
use crate::console::{Console, Stop};
use crate::files;
use crate::text::{byte, hex, printable, Words};
use std::ffi::OsStr;
use std::fs;
use ttpa::calls::RUN_WORDS;
use ttpa::Run;

const HEADING: &str = "naming run 1";
const SUM: &str = "sum ";
const WORD_DIGITS: usize = 16;

/// A run as it was kept.
#[derive(Clone, Debug, PartialEq, Eq)]
pub struct Stored {
    pub names: Vec<u8>,
    pub run: Run,
    pub counted: Counted,
    /// The checksum of the cluster file that the run left.
    pub file_sum: u64,
}

/// The kept run, or None where there is none yet. A store that cannot be read is trouble, whatever is wrong with it.
pub fn read(path: &OsStr, console: &mut Console) -> Result<Option<Stored>, Stop> {
    if files::is_output(path) {
        return Err(Stop::Usage("name: --run needs a file, not standard input or output".to_string()));
    }
    let missing = fs::symlink_metadata(path).is_err_and(|error| error.kind() == std::io::ErrorKind::NotFound);
    if missing {
        return Ok(None);
    }
    let bytes = files::read(path, console)?;
    let stored = text_of(&bytes);
    stored.map(Some).map_err(|words| Stop::Trouble(format!("{}: {words}", files::shown(path))))
}

impl Stored {
    pub fn of(naming: &Naming) -> Stored {
        Stored {
            names: naming.names.clone(),
            run: naming.run,
            counted: naming.counted,
            file_sum: checksum(&naming.file),
        }
    }
}

/// FNV-1a: a change of one byte always changes it.
pub fn checksum(bytes: &[u8]) -> u64 {
    let add = |sum: u64, &byte: &u8| (sum ^ u64::from(byte)).wrapping_mul(0x0000_0100_0000_01B3);
    bytes.iter().fold(0xCBF2_9CE4_8422_2325, add)
}

pub fn text(stored: &Stored) -> String {
    let words = |words: &[u64]| words.iter().map(|word| format!(" {word:016X}")).collect::<String>();
    let Counted { given, misgiven, other_rounds, begun_rounds, begun_comparisons } = stored.counted;
    let names = if stored.names.is_empty() { String::new() } else { format!(" {}", hex(&stored.names)) };
    let body = format!(
        "{HEADING}\nnames{names}\nposition{}\ncounted given {given} misgiven {misgiven} others {other_rounds} begun {begun_rounds} \
         {begun_comparisons}\ncluster{}\n",
        words(&stored.run.words()),
        words(&[stored.file_sum]),
    );
    let sum = checksum(body.as_bytes());
    format!("{body}{SUM}{sum:016X}\n")
}

fn text_of(bytes: &[u8]) -> Result<Stored, String> {
    let text = std::str::from_utf8(bytes).ok().filter(|text| text.lines().next() == Some(HEADING));
    let text = text.ok_or("no naming run that was kept")?;
    let (body, sum) = text.rsplit_once(SUM).ok_or("the checksum is missing; the run is damaged")?;
    if sum.trim_end() != format!("{:016X}", checksum(body.as_bytes())) {
        return Err("the checksum is wrong; the run is damaged".to_string());
    }
    // what is wrong under a right checksum was written by someone else
    body_of(body).map_err(|words| format!("no naming run that was kept: {}", printable(&words)))
}

fn body_of(body: &str) -> Result<Stored, String> {
    let mut lines = body.lines().skip(1);
    let mut line = |keyword| -> Result<Words, String> {
        let mut words = Words::of(lines.next().unwrap_or_default());
        words.keyword(keyword)?;
        Ok(words)
    };
    let mut names = Vec::new();
    let mut words = line("names")?;
    while words.peek().is_some() {
        names.push(byte(words.next("a name")?)?);
    }
    let mut words = line("position")?;
    let mut position = [0; RUN_WORDS];
    for word in &mut position {
        *word = word_of(words.next("a word of the position")?)?;
    }
    words.end()?;
    let counted = counted_of(&mut line("counted")?)?;
    let mut words = line("cluster")?;
    let file_sum = word_of(words.next("the cluster's checksum")?)?;
    words.end()?;
    Ok(Stored { names, run: Run::from_words(position), counted, file_sum })
}

fn counted_of(words: &mut Words) -> Result<Counted, String> {
    let count = |words: &mut Words| {
        let word = words.next("a count")?;
        word.parse::<u64>().map_err(|_| format!("'{word}' is no count"))
    };
    words.keyword("given")?;
    let given = count(words)?;
    words.keyword("misgiven")?;
    let misgiven = count(words)?;
    words.keyword("others")?;
    let other_rounds = count(words)?;
    words.keyword("begun")?;
    let counted = Counted {
        given,
        misgiven,
        other_rounds,
        begun_rounds: count(words)?,
        begun_comparisons: count(words)?,
    };
    words.end()?;
    Ok(counted)
}

fn word_of(word: &str) -> Result<u64, String> {
    let good = word.len() == WORD_DIGITS && word.bytes().all(|byte| byte.is_ascii_hexdigit());
    u64::from_str_radix(word, 16).ok().filter(|_| good).ok_or_else(|| format!("'{word}' is no word"))
}

#[cfg(test)]
mod tests {
    use super::*;

    fn stored() -> Stored {
        let counted =
            Counted { given: 1, misgiven: 2, other_rounds: 283, begun_rounds: 137, begun_comparisons: 65 };
        let run = Run::from_words([0, 1, 57, 0x7_0000_0000, 150, 70, 7, u64::MAX]);
        Stored { names: vec![1, 2, 0xFE], run, counted, file_sum: 0x1234 }
    }

    #[test]
    fn a_run_comes_back() {
        assert_eq!(text_of(text(&stored()).as_bytes()), Ok(stored()));
        let empty = Stored { names: Vec::new(), ..stored() };
        assert_eq!(text_of(text(&empty).as_bytes()), Ok(empty));
    }

    /// A checksum is no licence: what no run is kept as is not gone on with.
    #[test]
    fn what_someone_else_wrote_is_seen() {
        let good = text(&stored());
        let (body, _) = good.rsplit_once(SUM).expect("a checksum");
        let summed = |body: &str| format!("{body}{SUM}{:016X}\n", checksum(body.as_bytes()));
        assert_eq!(summed(body), good);
        for (part, other) in [
            ("naming run 1", "naming run 2"),
            ("naming run 1", "naming run 10"),
            ("position ", "position 0000000000000000 "),
            (" 65\n", " 65 1\n"),
            ("cluster ", "cluster 0000000000000000 "),
            ("0000000000001234", "+000000000001234"),
            ("0000000000001234", "1234"),
        ] {
            assert!(body.contains(part), "{part}");
            assert!(text_of(summed(&body.replace(part, other)).as_bytes()).is_err(), "{other}");
        }
        for damaged in [format!("{good}0"), good.replace(SUM, "sum  ")] {
            assert!(text_of(damaged.as_bytes()).is_err(), "{damaged}");
        }
    }

    /// Every byte of it changed into every other one is seen, but for blanks at the end of the text.
    #[test]
    fn every_damage_of_one_byte_is_seen() {
        let good = text(&stored()).into_bytes();
        let mut seen = 0;
        for place in 0..good.len() - 1 {
            for change in 1..=255 {
                let mut bytes = good.clone();
                bytes[place] ^= change;
                assert!(text_of(&bytes).is_err(), "byte {place} changed by {change:02X}");
                seen += 1;
            }
        }
        assert_eq!(seen, 255 * (good.len() - 1));
        for end in 0..good.len() - 1 {
            assert!(text_of(&good[..end]).is_err(), "cut at {end}");
        }
    }
}
