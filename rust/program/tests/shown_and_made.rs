//! A file that is accepted is shown and made again byte for byte; one that is refused has its place under the engine's number. On
//! every file of the vectors, on random clusters and damaged ones, and on every one-byte change of three good files.

mod common;

use common::{called, counted, here};
use compare::draws::clusters;
use compare::draws::random::Random;
use program::console::Status;
use std::collections::BTreeSet;
use std::fs;
use ttpa::TtpaError;

/// How many files came to which end.
#[derive(Default)]
struct Ends {
    made_again: usize,
    equal_names: usize,
    placed: usize,
}

impl Ends {
    fn tell(&self, of: &str) {
        let ends =
            [("made-again", self.made_again), ("equal-names", self.equal_names), ("placed", self.placed)];
        for (end, number) in ends.into_iter().filter(|(_, number)| *number > 0) {
            counted(&format!("{end}/{of}"), number);
        }
    }

    /// Holds one file to what must come of it.
    fn hold(&mut self, file: &[u8]) {
        match ttpa::check(file) {
            Ok(()) => {
                made_again(file, &["make", "-", "-"]);
                self.made_again += 1;
            }
            Err(refusal @ TtpaError::EqualLogicalNames) => {
                placed(file, refusal);
                let text = made_again(file, &["make", "--equal-names", "-", "-"]);
                assert!(text.starts_with("# refused 22: "), "{text}");
                self.equal_names += 1;
            }
            Err(refusal) => {
                placed(file, refusal);
                let shown = called(&["show", "-"], file);
                assert_eq!((shown.status, shown.output.len()), (Status::Refused, 0), "{file:02X?}");
                self.placed += 1;
            }
        }
    }
}

/// The text of the file, of which the same file was made.
fn made_again(file: &[u8], make: &[&str]) -> String {
    let shown = called(&["show", "-"], file);
    assert_eq!(shown.status, Status::Accepted, "{} for {file:02X?}", shown.messages);
    let text = String::from_utf8_lossy(&shown.output).into_owned();
    let made = called(make, &shown.output);
    assert_eq!(made.status, Status::Accepted, "{} for\n{text}", made.messages);
    assert!(made.output == file, "another file comes of\n{text}");
    text
}

/// What `check` prints: the engine's verdict, and below it the place, which this program found under the same number.
fn placed(file: &[u8], refusal: TtpaError) {
    let found = program::place::found(file);
    assert_eq!(found.as_ref().map(|place| place.number), Some(refusal.number()), "{file:02X?}");
    let line = found.map(|place| program::place::line(&place)).unwrap_or_default();
    let checked = called(&["check", "-"], file);
    assert_eq!(checked.status, Status::Refused);
    assert_eq!(String::from_utf8_lossy(&checked.output), format!("standard input: {refusal}\n  {line}\n"));
}

/// The words of a vector's line that are cluster files: of a call on a file the first, and whatever else begins with the mark.
fn files_in(line: &str) -> Vec<Vec<u8>> {
    const ON_A_FILE: [&str; 14] = [
        "check",
        "round",
        "step",
        "trace",
        "owner",
        "fill",
        "to-edition-1",
        "to-edition-2",
        "turn",
        "join",
        "list",
        "two",
        "round-keeping",
        "step-keeping",
    ];
    let words: Vec<&str> = line.split_whitespace().collect();
    let on_a_file = words.first().is_some_and(|kind| ON_A_FILE.contains(kind));
    let is_file =
        |&(place, word): &(usize, &&str)| (on_a_file && place == 1) || (place > 0 && word.starts_with("5441"));
    words.iter().enumerate().filter(is_file).filter_map(|(_, word)| compare::case::bytes(word)).collect()
}

#[test]
fn every_file_of_the_vectors() {
    let mut files = BTreeSet::new();
    let mut sources = 0;
    for entry in fs::read_dir(here("../model/tests/data")).expect("the vectors") {
        let path = entry.expect("a file of vectors").path();
        let text = fs::read_to_string(path).expect("vectors");
        files.extend(text.lines().flat_map(files_in));
        sources += 1;
    }
    let mut ends = Ends::default();
    files.iter().for_each(|file| ends.hold(file));
    counted("sources/vectors", sources);
    ends.tell("vectors");
    assert!(ends.made_again >= 1000 && ends.equal_names > 0 && ends.placed >= 400);
}

#[test]
fn random_clusters() {
    let mut random = Random::from_seed(35);
    let mut ends = Ends::default();
    for _ in 0..10_000 {
        ends.hold(&clusters::cluster(&mut random).encode());
    }
    ends.tell("random");
    assert!(
        ends.made_again + ends.equal_names == 10_000 && ends.made_again >= 1000 && ends.equal_names >= 1000
    );
}

#[test]
fn random_damaged_files() {
    let mut random = Random::from_seed(36);
    let mut ends = Ends::default();
    for _ in 0..2_000 {
        ends.hold(&clusters::damaged(&mut random));
        ends.hold(&clusters::with_wrong_front(&mut random));
    }
    ends.tell("damaged");
    assert!(ends.placed >= 2_000 && ends.made_again >= 200);
}

/// The longest files of both editions, and the same with a byte more behind them, which is read, and refused as too long.
#[test]
fn longest_files() {
    let mut random = Random::from_seed(37);
    for edition in [model::Edition::One, model::Edition::Two] {
        for most_entries in [false, true] {
            let mut file = clusters::longest_file(&mut random, edition, most_entries);
            assert_eq!(file.len(), edition.most_bytes());
            let mut ends = Ends::default();
            ends.hold(&file);
            assert_eq!(ends.made_again + ends.equal_names, 1);
            file.push(0);
            ends.hold(&file);
            assert_eq!((ends.placed, ttpa::check(&file)), (1, Err(TtpaError::FileSize)));
        }
    }
}

/// Every byte of the file becomes every other value in turn.
fn one_byte_changed(name: &str, file: &[u8]) {
    let mut ends = Ends::default();
    for place in 0..file.len() {
        for more in 1..=255 {
            let mut changed = file.to_vec();
            changed[place] = changed[place].wrapping_add(more);
            ends.hold(&changed);
        }
    }
    assert_eq!(ends.made_again + ends.equal_names + ends.placed, 255 * file.len());
    ends.tell(name);
}

fn demo() -> Vec<u8> {
    fs::read(here("../../c/demo.cluster")).expect("the demo's cluster")
}

#[test]
fn one_byte_of_the_sample_changed() {
    one_byte_changed("sample-changed", &fs::read(here("../../crates/listing/stdin")).expect("case M10"));
}

#[test]
fn one_byte_of_the_demo_changed() {
    one_byte_changed("demo-changed", &demo());
}

#[test]
fn one_byte_of_the_demo_in_edition_2_changed() {
    let mut room = [0; ttpa::WIDENED_BYTES];
    let wide =
        ttpa::to_edition(&demo(), ttpa::Edition::Two, &mut room).expect("edition 2 of the demo's cluster");
    one_byte_changed("wide-changed", wide);
}
