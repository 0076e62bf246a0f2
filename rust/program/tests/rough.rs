//! Whatever stands in a text or in a file, the program ends with a status of 0 to 2 and says why: bytes of no meaning, and good
//! texts with a line cut, doubled or changed.

mod common;

use common::{called, counted, Called};
use compare::draws::random::Random;
use program::console::Status;

const CLUSTER: &str = "\
cluster edition 1 epoch 7F
pending write name 01 file 10 record 01
slave 01 0000000700000042
  file 02 records 3
    00 01 02 03 04
    01 send-mux4 file 10 record 01 align 1 slots 1-2 mux 3
    02 44 01 00 03
    03 end file 00 record 00 slots 0-0
  file 08 records 4
    01 00 00 05 01
  file 10 records 1
    01 A1 5C 00 00
slave FF 00000007000000A0 asleep # a comment
  file 3D records 3
    02 00 00 00 A0
    03 FF 00 FF 00
";
const FRAMES: &str = "\
BA
(1436509052.249713) 55 02 01 F4 02 A0
49
read 01 3D 02
write 01 10 01 A1 5C 00 00
execute 00 08 04
round 7
";
const TIMES: usize = 4_000;

/// A line of a text, or a part of one, is lost, stands twice, or becomes another.
fn changed(random: &mut Random, text: &str) -> Vec<u8> {
    let mut lines: Vec<Vec<u8>> = text.lines().map(|line| line.as_bytes().to_vec()).collect();
    for _ in 0..random.between(1, 3) {
        let (place, other) = (random.below(lines.len()), random.below(lines.len()));
        match random.below(8) {
            0 => lines[place].clear(),
            1 => lines.insert(other, lines[place].clone()),
            2 => lines.swap(place, other),
            3 => {
                let end = random.below(lines[place].len() + 1);
                lines[place].truncate(end);
            }
            4 => swap_words(random, &mut lines[place]),
            _ => change_byte(random, &mut lines[place]),
        }
    }
    lines.join(&b'\n')
}

fn change_byte(random: &mut Random, line: &mut [u8]) {
    if line.is_empty() {
        return;
    }
    let place = random.below(line.len());
    let any = random.byte();
    line[place] = random.one_of(&[b'0', b'3', b'F', b' ', b'-', b'#', b'x', b'\x1b', any]);
}

/// One of a line's words becomes a word of any text.
fn swap_words(random: &mut Random, line: &mut Vec<u8>) {
    let text = String::from_utf8_lossy(line).into_owned();
    let mut words: Vec<&str> = text.split_whitespace().collect();
    let others: Vec<&str> = CLUSTER.split_whitespace().chain(FRAMES.split_whitespace()).collect();
    if !words.is_empty() {
        let place = random.below(words.len());
        words[place] = random.one_of(&others);
        *line = words.join(" ").into_bytes();
    }
}

fn any_bytes(random: &mut Random) -> Vec<u8> {
    let length = random.below(300);
    random.bytes(length)
}

/// What was refused says why in words that alter no terminal, and nothing else is said.
fn told_well(called: &Called, input: &[u8]) {
    let input = || String::from_utf8_lossy(input).into_owned();
    let control = |character: char| character.is_control() && character != '\n';
    assert!(!called.messages.contains(control), "{:?} for\n{}", called.messages, input());
    assert_eq!(
        called.messages.is_empty(),
        called.status == Status::Accepted,
        "{} for\n{}",
        called.messages,
        input()
    );
    // the one status left is for files that cannot be read
    assert_ne!(called.status, Status::Trouble, "{} for\n{}", called.messages, input());
}

#[test]
fn cluster_texts() {
    let mut random = Random::from_seed(351);
    assert_eq!(called(&["make", "-", "-"], CLUSTER.as_bytes()).status, Status::Accepted);
    let mut made = 0;
    for time in 0..TIMES {
        let text = if time % 4 == 0 { any_bytes(&mut random) } else { changed(&mut random, CLUSTER) };
        let called = called(&["make", "-", "-"], &text);
        told_well(&called, &text);
        assert_eq!(called.status == Status::Accepted, ttpa::check(&called.output).is_ok());
        made += usize::from(called.status == Status::Accepted);
    }
    counted("rough/cluster-texts", TIMES);
    counted("rough/cluster-texts-made", made);
    assert!((100..TIMES - 100).contains(&made), "{made} of {TIMES}");
}

/// The cluster of the text, in a file of this test.
fn cluster_file(folder: &common::Folder) -> String {
    let path = folder.join("plant.cluster");
    std::fs::write(&path, called(&["make", "-", "-"], CLUSTER.as_bytes()).output).expect("a cluster file");
    path.to_string_lossy().into_owned()
}

#[test]
fn frames() {
    let folder = common::Folder::new("frames");
    let file = cluster_file(&folder);
    let mut random = Random::from_seed(352);
    let mut carried_out = 0;
    for time in 0..TIMES {
        let text = if time % 4 == 0 { any_bytes(&mut random) } else { changed(&mut random, FRAMES) };
        let called = called(&["round", &file], &text);
        // a refused frame is a result
        if called.status == Status::Accepted || !called.messages.is_empty() {
            told_well(&called, &text);
        }
        let record = String::from_utf8_lossy(&called.output).into_owned();
        let refused = record.contains("> refused ") || !called.messages.is_empty();
        assert_eq!(refused, called.status == Status::Refused, "{record}{}", called.messages);
        carried_out += usize::from(called.status == Status::Accepted);
    }
    counted("rough/frames", TIMES);
    counted("rough/frames-carried-out", carried_out);
    assert!((100..TIMES - 100).contains(&carried_out), "{carried_out} of {TIMES}");
}

/// The words of a command line, which may also be options that are none.
#[test]
fn command_lines() {
    let words: Vec<&str> = "read write execute round 55 02 01 F4 02 A0 49 BA 40 FF 0x5 550201F402A0 -- - --epoch --epoch=02 --slaves 7 \
        --slaves=64 --unnamed=2 --names --help -h --save --equal-names x \u{e9} --slave=FF frame show"
        .split(' ')
        .chain([""])
        .collect();
    let mut random = Random::from_seed(353);
    let mut seen = [0; 3];
    for _ in 0..TIMES {
        let mut line = vec![random.one_of(&["frame", "draw", "show", "check", "help", "--version", "round"])];
        line.extend((0..random.below(9)).map(|_| words[random.below(words.len())]));
        let input = any_bytes(&mut random);
        let called = called(&line, &input);
        assert!(called.status != Status::Trouble || !called.messages.is_empty(), "{line:?}");
        assert!(called.status == Status::Trouble || !called.messages.starts_with("ttpa: '"), "{line:?}");
        seen[called.status as usize] += 1;
    }
    counted("rough/command-lines", TIMES);
    assert!(seen.iter().all(|&times| times >= 20), "{seen:?}");
}

/// Cluster files of no meaning, for the subcommands that load one.
#[test]
fn files_of_any_bytes() {
    let mut random = Random::from_seed(354);
    for _ in 0..TIMES {
        let mut file = any_bytes(&mut random);
        let front = b"TA\x01".iter().chain(b"TA\x02").copied().collect::<Vec<u8>>();
        let from = random.one_of(&[0, 3]);
        for (byte, &mark) in file.iter_mut().zip(&front[from..from + 3]) {
            *byte = mark;
        }
        for subcommand in ["check", "show"] {
            let called = called(&[subcommand, "-"], &file);
            assert_eq!(called.status, Status::Refused);
        }
    }
    counted("rough/files", TIMES);
}
