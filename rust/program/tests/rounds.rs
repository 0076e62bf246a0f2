//! What `round` prints and saves is what the model says: on random clusters of both editions, with frames of every kind, whole and
//! damaged, and with reads, writes and executes in words.

mod common;

use common::{called, counted, Called, Folder};
use compare::draws::random::Random;
use compare::draws::{clusters, inputs};
use model::{Edition, Refusal, ANSWER_BYTES};
use program::console::Status;
use std::fs;
use std::path::Path;

const TIMES: usize = 400;
const OPERATIONS: [&str; 3] = ["read", "write", "execute"];
const WRITE: usize = 1;
const DATA_FIREWORK: u8 = 0x49;

fn digits(bytes: &[u8]) -> String {
    bytes.iter().map(|byte| format!("{byte:02X}")).collect::<Vec<String>>().join(" ")
}

/// What must come of a text of frames.
struct Expected {
    file: Vec<u8>,
    record: Vec<String>,
    refused: usize,
}

impl Expected {
    /// Holds one line of the record, its words behind the number of a refusal aside.
    fn tell(&mut self, front: &str, answer: Result<(u64, [u8; ANSWER_BYTES]), Refusal>) {
        let answer = match answer {
            Ok((0, _)) => "silence".to_string(),
            Ok((senders, bytes)) => {
                let slots = (1..ANSWER_BYTES).filter(|slot| senders >> slot & 1 == 1);
                slots.map(|slot| format!("{slot}={:02X}", bytes[slot])).collect::<Vec<String>>().join(" ")
            }
            Err(Refusal(number)) => {
                self.refused += 1;
                format!("refused {number}")
            }
        };
        self.record.push(format!("{front} > {answer}"));
    }

    fn frame(&mut self, frame: &[u8]) {
        let mut bytes = [0; ANSWER_BYTES];
        let answer = model::round(&mut self.file, frame, &mut bytes).map(|senders| (senders, bytes));
        self.tell(&digits(frame), answer);
    }

    /// The two frames of a line in words, "PB0 the epoch plus 1".
    fn in_words(&mut self, line: &str, operation: usize, [name, file, record]: [u8; 3], data: [u8; 4]) {
        let epoch = self.file[Edition::of(&self.file).epoch_place()].wrapping_add(1);
        let mut address = [0; 6];
        if let Err(refusal) = model::write_address(&mut address, epoch, name, file, operation as u8, record) {
            return self.tell(line, Err(refusal));
        }
        self.frame(&address);
        let check = data.iter().fold(DATA_FIREWORK, |check, byte| check ^ byte);
        let [b0, b1, b2, b3] = data;
        match operation {
            WRITE => self.frame(&[DATA_FIREWORK, b0, b1, b2, b3, check]),
            _ => self.frame(&[DATA_FIREWORK]),
        }
    }
}

/// A line of frames, and what must come of it.
fn line(random: &mut Random, expected: &mut Expected) -> String {
    let cluster = model::check(&expected.file).expect("a cluster");
    if random.once_in(2) {
        let frame = inputs::frame(random, &cluster);
        // a line without a word is none
        if !frame.is_empty() {
            expected.frame(&frame);
        }
        return digits(&frame);
    }
    let operation = random.below(OPERATIONS.len());
    let (name, file) = inputs::address_target(random, &cluster);
    let target = [name, file, random.below(4) as u8];
    let data: [u8; 4] = std::array::from_fn(|_| random.byte());
    let mut line = format!("{} {}", OPERATIONS[operation], digits(&target));
    if operation == WRITE {
        line += &format!(" {}", digits(&data));
    }
    expected.in_words(&line, operation, target, data);
    line
}

/// The record without the words behind the number of a refusal.
fn record_of(came: &Called) -> Vec<String> {
    let text = String::from_utf8_lossy(&came.output).into_owned();
    let short = |line: &str| match line.find("refused ") {
        Some(_) => line.split(':').next().unwrap_or_default().to_string(),
        None => line.to_string(),
    };
    text.lines().map(short).collect()
}

fn hold(random: &mut Random, path: &Path, counts: &mut [usize; 2]) {
    let file = clusters::cluster(random).encode();
    fs::write(path, &file).expect("a cluster file");
    let mut expected = Expected { file, record: Vec::new(), refused: 0 };
    let lines: Vec<String> = (0..random.between(1, 20)).map(|_| line(random, &mut expected)).collect();
    let (text, path) = (lines.join("\n"), path.to_string_lossy());
    let came = called(&["round", &path, "--equal-names", "--save", &path], text.as_bytes());
    assert_eq!(record_of(&came), expected.record, "{text}\n{}", came.messages);
    assert_eq!(came.status, if expected.refused > 0 { Status::Refused } else { Status::Accepted }, "{text}");
    assert!(fs::read(&*path).expect("the saved file") == expected.file, "another file after\n{text}");
    // "what `--save` wrote must be loadable again; `--save` says so where it happens"
    let equal_names = model::load(&expected.file).is_err();
    assert_eq!(
        came.messages.contains("written, but loading it is refused 22"),
        equal_names,
        "{}",
        came.messages
    );
    counts[0] += expected.record.len();
    counts[1] += expected.refused;
}

#[test]
fn answers_and_files_are_those_of_the_model() {
    let folder = Folder::new("rounds");
    let mut random = Random::from_seed(355);
    let mut counts = [0; 2];
    for _ in 0..TIMES {
        hold(&mut random, &folder.join("plant.cluster"), &mut counts);
    }
    let [frames, refused] = counts;
    counted("rounds/frames", frames);
    counted("rounds/refused", refused);
    assert!(frames >= 4_000 && refused >= 200, "{refused} of {frames}");
}
