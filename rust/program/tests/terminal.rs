//! Colour is for terminals alone; where the results go nowhere, this is said, or the program ends quietly.

mod common;

use common::{called_with, here, program, ran, Folder};
use program::console::{Look, Status};
use std::fs::OpenOptions;
use std::io::{BufRead, BufReader, Read, Write};
use std::process::{Command, Stdio};
use std::sync::mpsc;
use std::time::Duration;

const ESCAPE: char = '\x1b';
const LONG_ENOUGH: Duration = Duration::from_secs(20);

fn demo() -> String {
    here("../../c/demo.cluster").to_string_lossy().into_owned()
}

/// A command line under `script`, which gives it a terminal; all that appears there.
fn on_a_terminal(settings: &[(&str, &str)], subcommand: &str) -> String {
    let line = format!("'{}' {subcommand}", env!("CARGO_BIN_EXE_ttpa"));
    let mut script = Command::new("script");
    script.args(["-qec", &line, "/dev/null"]).env_remove("NO_COLOR").env("TERM", "xterm");
    script.envs(settings.iter().copied());
    ran(&mut script, b"").output.replace('\r', "")
}

#[test]
fn colour_is_for_terminals() {
    let check = format!("check '{}' /dev/null", demo());
    let plain = ran(program().args(["check", &demo(), "/dev/null"]).env("TERM", "xterm"), b"");
    assert!(
        !plain.output.contains(ESCAPE)
            && plain.output.contains("accepted")
            && plain.output.contains("refused 1")
    );
    let coloured = on_a_terminal(&[], &check);
    assert!(
        coloured.contains("\x1b[32maccepted\x1b[0m") && coloured.contains("\x1b[31mrefused 1"),
        "{coloured:?}"
    );
    for plain_terminal in [("NO_COLOR", "1"), ("TERM", "dumb")] {
        assert_eq!(on_a_terminal(&[plain_terminal], &check), plain.output, "{plain_terminal:?}");
    }
    // by its convention an empty NO_COLOR counts as none
    assert!(on_a_terminal(&[("NO_COLOR", "")], &check).contains(ESCAPE));
}

/// What is right is green, what is wrong is red.
#[test]
fn marks_have_their_colours() {
    let look = Look { colour: true, ..Look::default() };
    let sheet = b"$ ttpa frame BA\nmultipartner round 2\nmore\n";
    let came = called_with(look, &["mark", "-"], sheet);
    let lines =
        "\x1b[32mright\x1b[0m multipartner round 2\n\x1b[31mwrong\x1b[0m more      is nothing\n1 of 2 right\n";
    assert_eq!(String::from_utf8_lossy(&came.output), lines);
}

#[test]
fn no_escape_without_a_terminal() {
    let wrong = ["check", "no\x1b[31msuch", "-"];
    let told = ran(program().args(wrong), b"\x1b[31m");
    assert_eq!(told.status, Some(2));
    assert!(
        !told.output.contains(ESCAPE) && !told.messages.contains(ESCAPE),
        "{}{}",
        told.output,
        told.messages
    );
    let told = ran(program().args(["make", "-", "-"]), b"cluster edition 1 epoch 00\nslave \x1b[31m\n");
    assert_eq!(told.messages, "standard input:2: '?[31m' is no logical name (hexadecimal, at most FF)\n");
}

/// Where results and messages go to one place, each stands behind what came before it.
#[test]
fn messages_keep_their_place_among_the_results() {
    let script = format!("'{}' check - no-such-file '{}' 2>&1", env!("CARGO_BIN_EXE_ttpa"), demo());
    let told = ran(Command::new("sh").args(["-c", &script]), b"");
    let lines: Vec<&str> = told.output.lines().collect();
    let starts = ["standard input: refused 1: ", "  0 bytes", "ttpa: no-such-file: ", &demo()];
    assert_eq!((lines.len(), told.status), (starts.len(), Some(2)), "{}", told.output);
    assert!(lines.iter().zip(starts).all(|(line, start)| line.starts_with(start)), "{}", told.output);
}

#[test]
fn a_reader_who_leaves_is_no_trouble() {
    let mut child = program()
        .args(["make", "-", "-"])
        .stdin(Stdio::piped())
        .stdout(Stdio::piped())
        .stderr(Stdio::piped())
        .spawn()
        .expect("the program starts");
    drop(child.stdout.take());
    let mut input = child.stdin.take().expect("its input");
    input.write_all(b"cluster edition 1 epoch 00\n").expect("a text");
    drop(input);
    let mut messages = String::new();
    child.stderr.take().expect("its messages").read_to_string(&mut messages).expect("text");
    let status = child.wait().expect("the program ends");
    assert_eq!((messages.as_str(), status.code()), ("", Some(2)));
}

#[test]
fn results_that_cannot_be_written_are_told() {
    let full = OpenOptions::new().write(true).open("/dev/full").expect("the full device");
    let output = program().args(["show", &demo()]).stdout(full).output().expect("the program ends");
    assert_eq!(output.status.code(), Some(2));
    assert_eq!(String::from_utf8_lossy(&output.stderr), "ttpa: standard output: No space left on device\n");
}

/// Each line is answered before the next is sent. A program that keeps its answers is not waited for.
#[test]
fn rounds_are_answered_at_once() {
    let mut child = program()
        .args(["round", &demo()])
        .stdin(Stdio::piped())
        .stdout(Stdio::piped())
        .spawn()
        .expect("the program starts");
    let (mut input, output) =
        (child.stdin.take().expect("its input"), child.stdout.take().expect("its output"));
    let (answered, answers) = mpsc::channel();
    std::thread::spawn(move || BufReader::new(output).lines().try_for_each(|line| answered.send(line)));
    for _ in 0..2 {
        input.write_all(b"BA\n").expect("a frame");
        let answer = answers.recv_timeout(LONG_ENOUGH).expect("an answer before the next frame").expect("text");
        assert_eq!(answer, "BA > 1=A1 2=5C");
    }
    drop(input);
    assert_eq!(child.wait().expect("the program ends").code(), Some(0));
}

/// Where lines are typed, a wrong one is told, and the rest goes on; from a file it ends the work.
#[test]
fn a_wrong_line_that_is_typed_does_not_end_the_rest() {
    let frames = b"BA\nGG\nBA\n";
    for (typed, rounds) in [(true, 2), (false, 1)] {
        let came = called_with(Look { typed, ..Look::default() }, &["round", &demo()], frames);
        assert_eq!(came.messages, "standard input:2: 'GG' is no byte (hexadecimal, at most FF)\n");
        assert_eq!(came.status, Status::Refused);
        assert_eq!(String::from_utf8_lossy(&came.output), "BA > 1=A1 2=5C\n".repeat(rounds));
    }
    // a file is not typed, whoever sits there
    let folder = Folder::new("typed");
    let path = folder.join("frames.txt");
    std::fs::write(&path, frames).expect("frames");
    let typed = Look { typed: true, ..Look::default() };
    let came = called_with(typed, &["round", &demo(), &path.to_string_lossy()], b"");
    assert_eq!(String::from_utf8_lossy(&came.output), "BA > 1=A1 2=5C\n");
}
