//! What `--help` and `--version` say, held against the table of subcommands.

mod common;

use common::{called, counted};
use program::console::Status;
use program::subcommands::TABLE;
use std::collections::BTreeSet;

/// What is printed on standard output with status 0 and no message.
fn printed(arguments: &[&str]) -> String {
    let called = called(arguments, b"");
    assert_eq!((called.status, called.messages.as_str()), (Status::Accepted, ""), "{arguments:?}");
    String::from_utf8_lossy(&called.output).into_owned()
}

fn fits_a_terminal(text: &str) {
    // the line of usage stands as it is
    for line in text.lines().skip(1) {
        assert!(line.chars().count() <= 79 && line.trim_end() == line, "{line}");
    }
    assert!(text.ends_with('\n') && !text.ends_with("\n\n"));
}

#[test]
fn each_subcommand_has_help() {
    for subcommand in TABLE {
        let help = printed(&[subcommand.name, "--help"]);
        assert!(help.starts_with(&format!("ttpa {} {}\n\n", subcommand.name, subcommand.usage)), "{help}");
        for choice in subcommand.options {
            let value = choice.value.map(|value| format!(" {value}")).unwrap_or_default();
            let option = format!("{}{value}", choice.name);
            assert!(help.contains(&format!("\n  {option} ")), "{option} in\n{help}");
            assert!(subcommand.usage.contains(&option), "{option} in {}", subcommand.usage);
        }
        let options = subcommand.usage.matches("--").count();
        assert_eq!(options, subcommand.options.len(), "{}", subcommand.usage);
        fits_a_terminal(&help);
        for same in
            [vec![subcommand.name, "-h"], vec![subcommand.name, "x", "--help"], vec!["help", subcommand.name]]
        {
            assert_eq!(printed(&same), help);
        }
    }
    counted("subcommands", TABLE.len());
}

#[test]
fn the_overview_lists_each_subcommand_once() {
    let overview = printed(&["--help"]);
    for subcommand in TABLE {
        assert_eq!(overview.matches(&format!("\n  {} ", subcommand.name)).count(), 1, "{}", subcommand.name);
    }
    let names: BTreeSet<&str> = TABLE.iter().map(|subcommand| subcommand.name).collect();
    assert_eq!(names.len(), TABLE.len());
    fits_a_terminal(&overview);
    assert_eq!(printed(&["help"]), overview);
    assert_eq!(printed(&["-h"]), overview);
}

#[test]
fn the_version_is_that_of_program_and_library() {
    let own = env!("CARGO_PKG_VERSION");
    assert_eq!(printed(&["--version"]), format!("ttpa {own} (library {own})\n"));
}

#[test]
fn options_stand_anywhere() {
    let text = |arguments: &[&str]| printed(arguments);
    let expected = text(&["draw", "7", "--slaves", "2"]);
    assert_eq!(text(&["draw", "--slaves=2", "7"]), expected);
    assert_eq!(text(&["draw", "--slaves", "2", "--", "7"]), expected);
    assert_ne!(text(&["draw", "--slaves", "2", "--", "--help"]), expected);
}

/// The command line, and what is said of it.
#[test]
fn a_wrong_command_line_is_told() {
    let cases: [(&[&str], &str); 9] = [
        (&[], "ttpa: no subcommand; see 'ttpa --help'\n"),
        (&["chek"], "ttpa: 'chek' is no subcommand; see 'ttpa --help'\n"),
        (&["help", "chek"], "ttpa: 'chek' is no subcommand; see 'ttpa --help'\n"),
        (&["--quiet"], "ttpa: '--quiet' is no option; see 'ttpa --help'\n"),
        (&["check"], "ttpa: check: usage: ttpa check FILE..; see 'ttpa check --help'\n"),
        (&["check", "-q", "-"], "ttpa: check: '-q' is no option: ttpa check FILE..; see 'ttpa check --help'\n"),
        (&["show", "-", "--names=1"], "--names takes no value"),
        (&["show", "-", "--slave"], "--slave needs N|NAME behind it"),
        (&["show", "-", "--slave", "1", "--slave=2"], "--slave stands twice"),
    ];
    for (arguments, words) in cases {
        let called = called(arguments, b"");
        assert_eq!((called.status, called.output.len()), (Status::Trouble, 0), "{arguments:?}");
        assert!(called.messages.contains(words), "{} must have {words}", called.messages);
    }
}
