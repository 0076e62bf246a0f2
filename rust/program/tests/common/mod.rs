//! What the tests share: folders of their own, the program as it is started, and files as hexadecimal digits.
#![allow(dead_code)]

use std::fs;
use std::io::{ErrorKind, Write};
use std::path::{Path, PathBuf};
use std::process::{self, Child, Command, Stdio};
use std::time::Duration;

/// A folder that is taken away with its files.
pub struct Folder(pub PathBuf);

impl Folder {
    pub fn new(name: &str) -> Folder {
        let path = std::env::temp_dir().join(format!("ttpa-{name}-{}", process::id()));
        fs::create_dir_all(&path).expect("a folder for the test");
        Folder(path)
    }

    pub fn join(&self, name: &str) -> PathBuf {
        self.0.join(name)
    }
}

impl Drop for Folder {
    fn drop(&mut self) {
        let _ = fs::remove_dir_all(&self.0);
    }
}

/// What came of a run of the program.
pub struct Ran {
    pub status: Option<i32>,
    pub output: String,
    pub messages: String,
}

pub fn program() -> Command {
    let mut command = Command::new(env!("CARGO_BIN_EXE_ttpa"));
    command.env_remove("NO_COLOR");
    command
}

/// Starts a command. A program that was just copied may be busy for a moment: another test that starts one then holds it open.
fn started(command: &mut Command) -> Child {
    const TRIES: usize = 100;
    command.stdin(Stdio::piped()).stdout(Stdio::piped()).stderr(Stdio::piped());
    for _ in 0..TRIES {
        match command.spawn() {
            Err(error) if error.kind() == ErrorKind::ExecutableFileBusy => {
                std::thread::sleep(Duration::from_millis(10));
            }
            spawned => return spawned.expect("the program starts"),
        }
    }
    panic!("the program is busy");
}

/// Runs a command with this input.
pub fn ran(command: &mut Command, input: &[u8]) -> Ran {
    let mut child = started(command);
    let mut stdin = child.stdin.take().expect("its input");
    let input = input.to_vec();
    // it need not read all of it
    let writer = std::thread::spawn(move || stdin.write_all(&input));
    let output = child.wait_with_output().expect("the program ends");
    let _ = writer.join();
    Ran {
        status: output.status.code(),
        output: String::from_utf8_lossy(&output.stdout).into_owned(),
        messages: String::from_utf8_lossy(&output.stderr).into_owned(),
    }
}

/// Bytes written as hexadecimal digits, with blanks and lines anywhere and comments from `#` on.
pub fn bytes_of_hex(text: &str) -> Vec<u8> {
    let line_digits = |line: &str| line.split('#').next().unwrap_or_default().to_string();
    let digits: String = text.lines().map(line_digits).collect::<String>().split_whitespace().collect();
    assert_eq!(digits.len() % 2, 0, "an odd number of digits");
    let byte = |at| u8::from_str_radix(&digits[at..at + 2], 16).expect("hexadecimal digits");
    (0..digits.len()).step_by(2).map(byte).collect()
}

/// The names of a folder's files, sorted.
pub fn names_in(folder: &Path) -> Vec<String> {
    let entries = fs::read_dir(folder).expect("a folder");
    let mut names: Vec<String> =
        entries.map(|entry| entry.expect("a file").file_name().to_string_lossy().into_owned()).collect();
    names.sort();
    names
}

/// Of this crate's folder.
pub fn here(path: &str) -> PathBuf {
    Path::new(env!("CARGO_MANIFEST_DIR")).join(path)
}

/// Tells how many of something a test went through: a line on its output, and in the file that TTPA_COUNTS names, for the least
/// numbers of the gate.
pub fn counted(name: &str, number: usize) {
    println!("program {name} {number}");
    if let Some(counts) = std::env::var_os("TTPA_COUNTS") {
        let file = fs::OpenOptions::new().append(true).create(true).open(counts);
        let written = file.and_then(|mut file| file.write_all(format!("program {name} {number}\n").as_bytes()));
        written.expect("the counts are written");
    }
}

/// What came of the program called as a function, without a process: for the many small runs.
pub struct Called {
    pub status: program::console::Status,
    pub output: Vec<u8>,
    pub messages: String,
}

pub fn called(arguments: &[&str], input: &[u8]) -> Called {
    called_with(program::console::Look::default(), arguments, input)
}

pub fn called_with(look: program::console::Look, arguments: &[&str], mut input: &[u8]) -> Called {
    let (mut output, mut messages) = (Vec::new(), Vec::new());
    let mut console =
        program::console::Console { input: &mut input, output: &mut output, messages: &mut messages, look };
    let status = program::run(arguments.iter().map(|&argument| argument.into()).collect(), &mut console);
    Called { status, output, messages: String::from_utf8_lossy(&messages).into_owned() }
}
