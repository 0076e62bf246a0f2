//! `convert`, `join`, `owner` and `who` on random clusters: what they write is what the model has, or refused by its number. And
//! command lines of any words.

mod common;

use common::{called, counted, Called, Folder};
use compare::draws::random::Random;
use compare::draws::{clusters, owners};
use model::{Cluster, Edition, LogicalName, Refusal};
use program::console::Status;
use std::fs;

const TIMES: usize = 500;

/// Files by their paths in a folder of their own.
struct Files {
    folder: Folder,
}

impl Files {
    fn new(name: &str) -> Files {
        Files { folder: Folder::new(name) }
    }

    fn put(&self, name: &str, bytes: &[u8]) -> String {
        let path = self.folder.join(name);
        fs::write(&path, bytes).expect("a file");
        path.to_string_lossy().into_owned()
    }
}

/// The file that was written is this one, behind what else is told; or nothing was written, and the number is told.
fn hold(came: &Called, expected: &Result<Vec<u8>, Refusal>) -> Status {
    match expected {
        Ok(bytes) => {
            assert_eq!(came.status, Status::Accepted, "{}", came.messages);
            assert!(came.output.ends_with(bytes), "{:02X?} is not {bytes:02X?}", came.output);
        }
        Err(Refusal(number)) => {
            assert_eq!((came.status, came.output.len()), (Status::Refused, 0), "{}", came.messages);
            assert!(came.messages.contains(&format!(": refused {number}: ")), "{number}: {}", came.messages);
        }
    }
    came.status
}

fn of_buffer(made: impl FnOnce(&mut [u8]) -> Result<usize, Refusal>) -> Result<Vec<u8>, Refusal> {
    let mut buffer = vec![0; ttpa::MOST_FILE_BYTES];
    let length = made(&mut buffer)?;
    buffer.truncate(length);
    Ok(buffer)
}

/// Of any size, so that edition 1 and a join have too many slaves now and then.
fn any_cluster(random: &mut Random) -> Cluster {
    let slaves = random.one_of(&[0, 1, 3, 20, 40]);
    clusters::cluster_in(random, Edition::Two, slaves)
}

#[test]
fn conversions_are_those_of_the_model() {
    let files = Files::new("conversions");
    let mut random = Random::from_seed(43);
    let mut seen = [0; 2];
    for _ in 0..TIMES {
        let file = any_cluster(&mut random).encode();
        let edition = random.one_of(&[Edition::One, Edition::Two]);
        let word = if edition == Edition::One { "1" } else { "2" };
        let path = files.put("plant.cluster", &file);
        let came = called(&["convert", &path, word, "-", "--equal-names"], b"");
        let expected = of_buffer(|buffer| model::to_edition(&file, edition, buffer));
        seen[hold(&came, &expected) as usize] += 1;
        assert_eq!(came.output.len(), expected.map_or(0, |bytes| bytes.len()));
    }
    assert!(seen.iter().all(|&times| times > 20), "{seen:?}");
    counted("conversions", TIMES);
}

#[test]
fn joins_are_those_of_the_model() {
    let files = Files::new("joins");
    let mut random = Random::from_seed(44);
    let (mut seen, mut unnamed) = ([0; 2], 0);
    for _ in 0..TIMES {
        let (first, second) = (any_cluster(&mut random), any_cluster(&mut random));
        let (a, b) = (files.put("a.cluster", &first.encode()), files.put("b.cluster", &second.encode()));
        let came = called(&["join", &a, &b, "-", "--equal-names"], b"");
        let expected = of_buffer(|buffer| model::join(&first.encode(), &second.encode(), buffer));
        let status = hold(&came, &expected);
        seen[status as usize] += 1;
        assert_eq!(came.output.len(), expected.map_or(0, |bytes| bytes.len()));
        if status == Status::Accepted {
            let turned = turned(&first, &second);
            assert_eq!(came.messages.matches("unnamed\n").count(), turned, "{}", came.messages);
            unnamed += turned;
        }
    }
    assert!(seen.iter().all(|&times| times > 20) && unnamed > 20, "{seen:?}, {unnamed} turned");
    counted("joins", TIMES);
}

/// How many slaves of the second cluster lose their names.
fn turned(first: &Cluster, second: &Cluster) -> usize {
    let held = |name: LogicalName| first.slaves.iter().any(|slave| slave.logical_name() == name);
    let names = second.slaves.iter().map(|slave| slave.logical_name());
    names.filter(|&name| name != LogicalName::UNNAMED && held(name)).count()
}

#[test]
fn owners_are_those_of_the_model() {
    let files = Files::new("owners");
    let mut random = Random::from_seed(45);
    let mut seen = [0; 2];
    for _ in 0..TIMES {
        let planned = random.once_in(2);
        let cluster = if planned { owners::planned(&mut random) } else { clusters::cluster(&mut random) };
        let file = cluster.encode();
        let master = random.byte();
        let path = files.put("plant.cluster", &file);
        let master_word = format!("{master:02X}");
        let out = files.put("owner.bin", b"");
        let mut came = called(&["owner", &path, &master_word, "--save", &out, "--equal-names"], b"");
        let expected = of_buffer(|buffer| model::owner(&file, LogicalName(master), buffer));
        // the lines, and behind them the file
        came.output.extend(fs::read(&out).expect("the file"));
        seen[hold(&came, &expected) as usize] += 1;
        let all = expected.map(|bytes| [rows(&bytes).as_bytes(), &bytes].concat()).unwrap_or_default();
        assert_eq!(came.output, all);
    }
    assert!(seen.iter().all(|&times| times > 20), "{seen:?}");
    counted("owners", TIMES);
}

/// The lines of an owner file: records 1 and 2 have the record where each round begins.
fn rows(owner_file: &[u8]) -> String {
    let records: Vec<&[u8]> = owner_file.chunks(4).collect();
    let starts: Vec<usize> = records[1..3].concat().iter().map(|&record| usize::from(record)).collect();
    let mut told = String::new();
    for (round, &start) in starts.iter().enumerate().filter(|(_, &start)| start > 0) {
        let end = starts[round + 1..].iter().copied().find(|&next| next > 0).unwrap_or(records.len());
        let names = records[start..end].concat();
        let owned = names.iter().enumerate().filter(|&(slot, &name)| slot == 0 || name != 0);
        let slots: String = owned.map(|(slot, name)| format!(" {slot}={name:02X}")).collect();
        told += &format!("round {round}:{slots}\n");
    }
    told
}

#[test]
fn holders_are_those_of_the_model() {
    let files = Files::new("holders");
    let mut random = Random::from_seed(46);
    let mut seen = [0; 2];
    for _ in 0..TIMES {
        let file = clusters::cluster(&mut random).encode();
        let name = if random.once_in(2) { clusters::logical_name(&mut random) } else { random.byte() };
        let path = files.put("plant.cluster", &file);
        let came = called(&["who", &path, &format!("{name:02x}"), "--equal-names"], b"");
        let holder = model::first_holder(&file, LogicalName(name)).expect("a good file");
        let told = holder.map_or("nobody".to_string(), |place| format!("slave {place}"));
        assert_eq!(String::from_utf8_lossy(&came.output), format!("{name:02X} is held by {told}\n"));
        assert_eq!(came.status == Status::Accepted, holder.is_some());
        seen[came.status as usize] += 1;
    }
    assert!(seen.iter().all(|&times| times > 20), "{seen:?}");
    counted("holders", TIMES);
}

#[test]
fn patterns_are_those_of_the_model() {
    for pattern in 0..=0x20F {
        let came = called(&["pattern", &format!("{pattern:X}")], b"");
        let (told, status) = match model::pattern(pattern) {
            Ok(model::PatternClass::DataByte) => ("data byte\n", Status::Accepted),
            Ok(model::PatternClass::Firework) => ("firework\n", Status::Accepted),
            Ok(model::PatternClass::Broken) => ("broken\n", Status::Accepted),
            Err(Refusal(number)) => {
                assert_eq!(number, 31);
                ("refused 31: the line pattern is above 511, and so has more than nine bits\n", Status::Refused)
            }
        };
        assert_eq!(String::from_utf8_lossy(&came.output), format!("{pattern:03X}: {told}"));
        assert_eq!(came.status, status);
    }
}

/// Up to four digits are a pattern, and nothing else is.
#[test]
fn words_that_are_no_pattern() {
    for (word, told) in [("0155", "155: "), ("0x155", "155: "), ("FFFF", "FFFF: "), ("5", "005: ")] {
        let came = called(&["pattern", word], b"");
        assert!(String::from_utf8_lossy(&came.output).starts_with(told), "{word}: {}", came.messages);
    }
    for word in ["+155", "00155", "", "0x", "1G"] {
        let came = called(&["pattern", word], b"");
        assert_eq!((came.status, came.output.len()), (Status::Trouble, 0), "{word}");
        assert!(came.messages.contains(" is no pattern (hexadecimal, at most FFFF)"), "{}", came.messages);
    }
}

/// A slave is asked for by its place or its name; the last place that a file may have is none of this file's.
#[test]
fn a_slave_by_its_place_or_name() {
    let demo = common::here("../../c/demo.cluster").to_string_lossy().into_owned();
    let shown = |word: &str| called(&["show", &demo, "--names", "--slave", word], b"");
    for word in ["01", "0x01", "0x1", "0", "000"] {
        assert_eq!(String::from_utf8_lossy(&shown(word).output), "0 01 0000000700000042\n", "{word}");
    }
    let asleep = b"cluster edition 1 epoch 00\nslave 05 0000000700000042 asleep\n";
    let asleep = called(&["make", "-", "-"], asleep).output;
    let came = called(&["show", "-", "--names", "--slave", "05"], &asleep);
    assert_eq!(String::from_utf8_lossy(&came.output), "0 05 0000000700000042 asleep\n");
    let last = ttpa::MOST_SLAVES - 1;
    for (place, status) in [(last, Status::Refused), (last + 1, Status::Trouble)] {
        let came = shown(&format!("{place:03}"));
        assert_eq!((came.status, came.output.len()), (status, 0), "{}", came.messages);
    }
}

/// What is longer than any cluster file is refused as that, though its first bytes may be one.
#[test]
fn a_file_is_not_cut_to_the_longest() {
    let files = Files::new("longest");
    let demo = common::here("../../c/demo.cluster").to_string_lossy().into_owned();
    let mut file = called(&["convert", &demo, "2", "-"], b"").output;
    for (bytes, number) in [(ttpa::MOST_FILE_BYTES, 4), (ttpa::MOST_FILE_BYTES + 1, 1)] {
        file.resize(bytes, 0);
        let path = files.put("long.cluster", &file);
        for (path, input) in [(path.as_str(), &[][..]), ("-", &file)] {
            let told = String::from_utf8_lossy(&called(&["check", path], input).output).into_owned();
            assert!(told.contains(&format!(": refused {number}: ")), "{bytes}: {told}");
        }
    }
}

/// Two files cannot both come from standard input.
#[test]
fn standard_input_is_one_file() {
    for (line, both) in [
        (&["trace", "-", "-"][..], "FILE and TRACE"),
        (&["turns", "-", "-"], "FILE and POSTS"),
        (&["turns", "-"], "FILE and POSTS"),
        (&["join", "-", "-", "-"], "A and B"),
    ] {
        let came = called(line, b"");
        assert_eq!((came.status, came.output.len()), (Status::Trouble, 0), "{line:?}");
        assert_eq!(came.messages, format!("ttpa: {}: {both} cannot both be standard input\n", line[0]));
    }
}

/// Words of the command line that write no file, in any order.
#[test]
fn command_lines() {
    let demo = common::here("../../c/demo.cluster").to_string_lossy().into_owned();
    let words: Vec<&str> =
        "01-04 01,01 FF 00 155 200 turn -- - --between --between=- --every=3 --every --seed=5 --seed \
        --orders=2 --orders --steps=7 --steps --answers --in --in=. --help --epoch x \u{e9} 80"
            .split_whitespace()
            .chain(["", &demo, &demo, &demo])
            .collect();
    let subcommands = ["name", "trace", "unpack", "owner", "who", "turns", "pattern", "mark"];
    let mut random = Random::from_seed(47);
    let mut seen = [0; 3];
    for _ in 0..4_000 {
        let mut line = vec![random.one_of(&subcommands)];
        line.extend((0..random.below(6)).map(|_| words[random.below(words.len())]));
        let length = random.between(0, 40);
        let came = called(&line, &random.bytes(length));
        assert!(came.status != Status::Trouble || !came.messages.is_empty(), "{line:?}");
        assert!(!came.output.contains(&0x1b) && !came.messages.contains('\x1b'), "{line:?}");
        seen[came.status as usize] += 1;
    }
    assert!(seen.iter().all(|&times| times > 20), "{seen:?}");
    counted("rough/command-lines-of-runs", 4_000);
}
