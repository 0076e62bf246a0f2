//! The manual page and the completion of bash against the table of subcommands: `package/ttpa.1`, `package/ttpa.bash`.

mod common;

use common::{called, counted, here, ran, Folder};
use program::args::{usage, Subcommand};
use program::console::Status;
use program::subcommands::TABLE;
use std::fs;
use std::os::unix::fs::symlink;
use std::process::Command;

/// A subcommand's section: its heading, and its options with their values.
#[derive(Debug, Default, PartialEq, Eq)]
struct Section {
    heading: String,
    options: Vec<String>,
}

fn manual() -> String {
    fs::read_to_string(here("../../package/ttpa.1")).expect("the manual page").replace("\\-", "-")
}

/// The lines from a heading up to the next of its kind.
fn part<'a>(manual: &'a str, heading: &str) -> &'a str {
    let begun = manual.split(&format!("\n.SH {heading}\n")).nth(1).expect("the heading");
    begun.split("\n.SH ").next().unwrap_or_default()
}

/// What stands behind a request of the page, without the quotes around it.
fn behind<'a>(line: &'a str, request: &str) -> Option<&'a str> {
    line.strip_prefix(request).map(|rest| rest.trim_matches('"'))
}

fn sections(part: &str) -> Vec<Section> {
    let mut sections: Vec<Section> = Vec::new();
    for line in part.lines() {
        if let Some(heading) = behind(line, ".SS ") {
            sections.push(Section { heading: heading.to_string(), options: Vec::new() });
        } else if let (Some(option), Some(section)) = (behind(line, ".B --"), sections.last_mut()) {
            section.options.push(format!("--{option}"));
        }
    }
    sections
}

fn of_table(subcommand: &Subcommand) -> Section {
    let option = |choice: &program::args::Choice| match choice.value {
        Some(value) => format!("{} {value}", choice.name),
        None => choice.name.to_string(),
    };
    Section { heading: usage(subcommand), options: subcommand.options.iter().map(option).collect() }
}

#[test]
fn the_manual_has_each_subcommand_and_option() {
    let expected: Vec<Section> = TABLE.iter().map(of_table).collect();
    assert_eq!(sections(part(&manual(), "SUBCOMMANDS")), expected);
    counted("manual", expected.len());
}

/// A section's words without requests, and the words that the program's own help has for the same.
fn words_of(text: &str) -> String {
    text.split_whitespace().collect::<Vec<_>>().join(" ")
}

/// What help says of each subcommand and option, the manual says too, word for word.
#[test]
fn the_manual_says_what_help_says() {
    let manual = manual();
    let sections: Vec<&str> = part(&manual, "SUBCOMMANDS").split(".SS ").skip(1).collect();
    assert_eq!(sections.len(), TABLE.len());
    for (section, subcommand) in sections.iter().zip(TABLE) {
        let lines = section.lines().skip(1).filter(|line| ![".TP", ".PP"].contains(line));
        let told: Vec<&str> =
            lines.map(|line| line.trim_start_matches("\\&").trim_start_matches(".B ")).collect();
        let options = subcommand
            .options
            .iter()
            .map(|choice| format!(" {} {} {}", choice.name, choice.value.unwrap_or_default(), choice.text));
        let expected = subcommand.text.to_string() + &options.collect::<String>();
        assert_eq!(words_of(&told.join(" ")), words_of(&expected), "{}", subcommand.name);
    }
}

/// What stands between `.nf` and `.fi` below a heading.
fn block(manual: &str, heading: &str) -> String {
    let begun = manual.split(heading).nth(1).and_then(|rest| rest.split("\n.nf\n").nth(1)).expect("a block");
    begun.split(".fi\n").next().unwrap_or_default().to_string()
}

/// The manual's cluster is one, and its examples do what they are for: each ends well, the last with an answer.
#[test]
fn the_manual_has_a_good_text_and_good_examples() {
    let (folder, programs, manual) = (Folder::new("manual"), Folder::new("manual-programs"), manual());
    let made = called(&["make", "-", "-"], block(&manual, ".SS \"A cluster\"").as_bytes());
    assert_eq!((made.status, made.messages.as_str()), (Status::Accepted, ""));
    symlink(env!("CARGO_BIN_EXE_ttpa"), programs.join("ttpa")).expect("a link");
    let examples = block(&manual, ".SH EXAMPLES");
    let mut answer = String::new();
    for example in examples.lines() {
        let mut shell = Command::new("/bin/sh");
        let came = ran(shell.args(["-ec", example]).current_dir(&folder.0).env("PATH", &programs.0), b"");
        assert_eq!((came.status, came.messages.as_str()), (Some(0), ""), "{example}");
        answer = came.output;
    }
    assert!(examples.lines().count() > 3 && answer.starts_with("64 > ") && answer.contains('='), "{answer}");
}

fn overview() -> String {
    let words = String::from_utf8_lossy(&called(&["--help"], b"").output).into_owned();
    words.split_whitespace().collect::<Vec<_>>().join(" ")
}

/// "Status: 0 accepted, right or the same; 1 ..", of which the manual has a paragraph for each.
#[test]
fn the_manual_has_each_status() {
    let manual = manual();
    let lines: Vec<&str> = part(&manual, "EXIT STATUS").lines().collect();
    let told =
        |paragraph: &[&str]| format!("{} {}", behind(paragraph[1], ".B ").unwrap_or_default(), paragraph[2]);
    let statuses: Vec<String> = lines.chunks(3).map(told).collect();
    assert_eq!(statuses.len(), 3, "{lines:?}");
    assert!(overview().ends_with(&format!("Status: {}.", statuses.join("; "))), "{statuses:?}");
}

/// What may be written over is said in the same words.
#[test]
fn the_manual_says_what_is_altered() {
    let sentence = |text: &str| {
        text.split("No input file").nth(1).and_then(|rest| rest.split('.').next()).map(str::to_string)
    };
    let told = sentence(&overview());
    assert!(told.is_some() && told == sentence(&manual()), "{told:?}");
}

#[test]
fn the_manual_has_the_version() {
    let heading = format!(".TH TTPA 1 \"\" \"ttpa {}\" ", env!("CARGO_PKG_VERSION"));
    assert!(manual().contains(&heading), "{heading}");
}

/// What bash offers for the last of these words.
fn completed(words: &[&str]) -> Vec<String> {
    let script =
        "source \"$0\"; COMP_WORDS=(\"$@\"); COMP_CWORD=$(($# - 1)); _ttpa; printf '%s\\n' \"${COMPREPLY[@]}\"";
    let mut bash = Command::new("bash");
    bash.args(["-c", script]).arg(here("../../package/ttpa.bash")).arg(env!("CARGO_BIN_EXE_ttpa")).args(words);
    let output = bash.output().expect("bash");
    assert_eq!(String::from_utf8_lossy(&output.stderr), "", "{words:?}");
    String::from_utf8_lossy(&output.stdout).lines().filter(|line| !line.is_empty()).map(String::from).collect()
}

fn names() -> Vec<String> {
    TABLE.iter().map(|subcommand| subcommand.name.to_string()).collect()
}

#[test]
fn bash_completes_subcommands() {
    let with = |more: &[&str]| [names(), more.iter().map(|more| more.to_string()).collect()].concat();
    assert_eq!(completed(&[""]), with(&["help", "--help", "--version"]));
    assert_eq!(completed(&["help", ""]), names());
    assert_eq!(completed(&["ch"]), ["check"]);
    assert_eq!(completed(&["--v"]), ["--version"]);
}

#[test]
fn bash_completes_options_and_leaves_files_to_itself() {
    for subcommand in TABLE {
        let mut options: Vec<String> =
            subcommand.options.iter().map(|choice| choice.name.to_string()).collect();
        options.push("--help".to_string());
        assert_eq!(completed(&[subcommand.name, "FILE", "-"]), options, "{}", subcommand.name);
        assert!(completed(&[subcommand.name, "FILE", ""]).is_empty(), "{}", subcommand.name);
    }
    assert_eq!(completed(&["show", "--na"]), ["--names"]);
    // what the program says of a word that it does not know is not for who types
    assert_eq!(completed(&["no-such", "-"]), ["--help"]);
}

/// The function is asked for words of this program, and bash itself for files where it has none.
#[test]
fn bash_knows_whom_to_ask() {
    let mut bash = Command::new("bash");
    bash.args(["-c", "source \"$0\"; complete -p ttpa"]).arg(here("../../package/ttpa.bash"));
    let output = bash.output().expect("bash");
    assert_eq!(String::from_utf8_lossy(&output.stdout), "complete -o default -F _ttpa ttpa\n");
}
