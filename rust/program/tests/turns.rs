//! `ttpa turns` on random clusters against the model: each line, and the file that is left. And posts of any content.

mod common;

use common::{called, counted, Folder};
use compare::draws::clusters;
use compare::draws::random::Random;
use model::{Cluster, Refusal};
use program::console::{Console, Status};
use std::fs;

const TIMES: usize = 300;
const LINES: usize = 30;

/// A line of posts: mostly of good screens and of slaves and records that are there.
fn line(random: &mut Random, cluster: &Cluster) -> String {
    if random.once_in(2) {
        return "turn".to_string();
    }
    let screen = if random.once_in(10) { random.byte() } else { random.below(8) as u8 };
    let slave = cluster.slaves.get(random.below(cluster.slaves.len() + 1));
    let name = slave.map_or(0, |slave| slave.logical_name().0);
    let file = random.one_of(&[0x08, 0x3D, 0x3D, 0x40]);
    format!("post {screen} {name:02X} {file:02X} {:02X}", random.below(4))
}

/// What the model says of a line.
fn told(line: &str, file: &mut [u8], state: &mut model::State) -> String {
    let words: Vec<&str> = line.split(' ').collect();
    let refused = |Refusal(number)| format!("refused {number}");
    let [_, screen, name, number, record] = words[..] else {
        let mut answer = [0; model::ANSWER_BYTES];
        let served = model::turn(file, state, &mut answer);
        return served.map_or_else(refused, |served| match served {
            None => "no screen waits".to_string(),
            Some(served) => format!("screen {}: {}", served.screen, slots(served.senders, &answer)),
        });
    };
    let byte = |word| u8::from_str_radix(word, 16).expect("a byte");
    let posted = model::post(state, screen.parse().expect("a screen"), byte(name), byte(number), byte(record));
    posted.map_or_else(refused, |()| "accepted".to_string())
}

fn slots(senders: u64, answer: &[u8]) -> String {
    let sent: Vec<String> = (1..64)
        .filter(|slot| senders >> slot & 1 == 1)
        .map(|slot| format!("{slot}={:02X}", answer[slot]))
        .collect();
    if sent.is_empty() {
        "silence".to_string()
    } else {
        sent.join(" ")
    }
}

/// A line of the output up to a refusal's number.
fn to_the_number(line: &str) -> String {
    match line.split_once("> refused ") {
        Some((front, rest)) => format!("{front}> refused {}", rest.split(':').next().unwrap_or_default()),
        None => line.to_string(),
    }
}

#[test]
fn turns_are_those_of_the_model() {
    let folder = Folder::new("turns");
    let (plant, out) = (folder.join("plant.cluster"), folder.join("out.cluster"));
    let mut random = Random::from_seed(48);
    let (mut answered, mut refused) = (0, 0);
    for _ in 0..TIMES {
        let slaves = random.below(5);
        let cluster = clusters::cluster_of(&mut random, slaves);
        let (mut file, mut state) = (cluster.encode(), model::screens());
        fs::write(&plant, &file).expect("a cluster file");
        let lines: Vec<String> = (0..LINES).map(|_| line(&mut random, &cluster)).collect();
        let arguments = ["turns", &plant.to_string_lossy(), "--save", &out.to_string_lossy(), "--equal-names"];
        let came = called(&arguments, lines.join("\n").as_bytes());
        let expected: Vec<String> =
            lines.iter().map(|line| format!("{line} > {}", told(line, &mut file, &mut state))).collect();
        let output = String::from_utf8_lossy(&came.output).into_owned();
        assert_eq!(output.lines().map(to_the_number).collect::<Vec<_>>(), expected);
        assert_eq!(fs::read(&out).expect("the changed file"), file);
        let any_refused = expected.iter().any(|line| line.contains("> refused "));
        assert_eq!(came.status == Status::Refused, any_refused, "{}", came.messages);
        answered += expected.iter().filter(|line| line.contains(" 5=")).count();
        refused += usize::from(any_refused);
    }
    assert!(answered > TIMES && refused > TIMES / 10, "{answered} answered, {refused} with a refusal");
    counted("turns", TIMES);
}

/// Where lines are typed, a wrong one is told, and the rest goes on; from a file it ends the work.
#[test]
fn a_wrong_line_that_is_typed_does_not_end_the_rest() {
    let demo = common::here("../../c/demo.cluster").to_string_lossy().into_owned();
    for (typed, turns) in [(true, 2), (false, 1)] {
        let look = program::console::Look { typed, ..Default::default() };
        let came = common::called_with(look, &["turns", &demo], b"turn\n49\nturn\n");
        assert_eq!(came.messages, "standard input:2: '49' is neither 'post' nor 'turn'\n");
        assert_eq!(came.status, Status::Refused);
        assert_eq!(String::from_utf8_lossy(&came.output), "turn > no screen waits\n".repeat(turns));
    }
}

/// Keeps what was written until it is flushed, as standard output may.
#[derive(Default)]
struct Flushed {
    kept: Vec<u8>,
    flushes: usize,
}

impl std::io::Write for Flushed {
    fn write(&mut self, bytes: &[u8]) -> std::io::Result<usize> {
        self.kept.extend(bytes);
        Ok(bytes.len())
    }

    fn flush(&mut self) -> std::io::Result<()> {
        self.flushes += usize::from(!self.kept.is_empty());
        self.kept.clear();
        Ok(())
    }
}

#[test]
fn each_line_is_answered_at_once() {
    let demo = common::here("../../c/demo.cluster").into_os_string();
    let (mut output, mut messages) = (Flushed::default(), Vec::new());
    let mut input = &b"post 2 01 3D 02\nturn\nturn\n"[..];
    let look = program::console::Look::default();
    let mut console = Console { input: &mut input, output: &mut output, messages: &mut messages, look };
    assert_eq!(program::run(vec!["turns".into(), demo], &mut console), Status::Accepted);
    assert_eq!((output.flushes, messages.len()), (3, 0), "a flush for each line");
}

#[test]
fn posts_of_any_content_end_with_a_status() {
    let demo = common::here("../../c/demo.cluster").to_string_lossy().into_owned();
    let mut random = Random::from_seed(49);
    let mut ends = [0; 3];
    for turn in 0..2_000 {
        let mut text = b"post 2 01 3D 02\nturn # now\npost 0 FF 3D 01\n\nturn\nturn\n".to_vec();
        if turn % 4 == 0 {
            let length = random.between(0, 100);
            text = random.bytes(length);
        } else {
            let place = random.below(text.len());
            text[place] = random.byte();
        }
        let came = called(&["turns", &demo], &text);
        assert!(!came.output.contains(&0x1b) && !came.messages.contains('\x1b'), "{text:?}");
        ends[came.status as usize] += 1;
    }
    assert!(ends[0] > 100 && ends[1] > 100 && ends[2] == 0, "{ends:?}");
    counted("rough/posts", ends.iter().sum());
}
