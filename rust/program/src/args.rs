//! The command line: `ttpa SUBCOMMAND ARGUMENTS [--OPTIONS]`. Options may stand anywhere behind the subcommand, as `--save OUT`
//! or `--save=OUT`; `--` ends them, and `-` alone is an argument.

use crate::console::{Console, Outcome, Stop};
use crate::text::quoted;
use std::ffi::{OsStr, OsString};
use std::ops::RangeInclusive;

pub const SEE_HELP: &str = "see 'ttpa --help'";

/// Any number of arguments from the first on.
pub const MANY: usize = usize::MAX;

/// One entry of the table of subcommands.
pub struct Subcommand {
    pub name: &'static str,
    /// What stands behind the name.
    pub usage: &'static str,
    /// One line, for the list of all.
    pub summary: &'static str,
    /// What `--help` says besides.
    pub text: &'static str,
    /// How many arguments there are.
    pub operands: RangeInclusive<usize>,
    pub options: &'static [Choice],
    pub run: fn(&Arguments, &mut Console) -> Outcome,
}

/// An option, with the word for its value where it has one.
pub struct Choice {
    pub name: &'static str,
    pub value: Option<&'static str>,
    pub text: &'static str,
}

/// For every subcommand that loads a cluster file.
pub const EQUAL_NAMES: Choice = Choice {
    name: "--equal-names",
    value: None,
    text: "take a file in which slaves have one logical name (refused 22), as rounds may leave it",
};

/// For every subcommand that changes a cluster.
pub const SAVE: Choice = Choice {
    name: "--save",
    value: Some("OUT"),
    text: "write the changed cluster file to OUT, which may be FILE",
};

/// For every subcommand that draws.
pub const SVG: &str = "--svg";

/// What stood on the command line behind the subcommand.
pub struct Arguments {
    subcommand: &'static str,
    operands: Vec<OsString>,
    chosen: Vec<(&'static str, OsString)>,
}

impl Arguments {
    /// None where help was asked for.
    pub fn parse(subcommand: &Subcommand, words: Vec<OsString>) -> Result<Option<Arguments>, Stop> {
        let mut arguments = Arguments { subcommand: subcommand.name, operands: Vec::new(), chosen: Vec::new() };
        let mut words = words.into_iter();
        while let Some(word) = words.next() {
            match word.to_str() {
                Some("--help" | "-h") => return Ok(None),
                Some("--") => arguments.operands.extend(words.by_ref()),
                Some(option) if option.len() > 1 && option.starts_with('-') => {
                    arguments.choose(subcommand, option, &mut words)?;
                }
                _ => arguments.operands.push(word),
            }
        }
        if subcommand.operands.contains(&arguments.operands.len()) {
            Ok(Some(arguments))
        } else {
            Err(misused(subcommand, "usage"))
        }
    }

    fn choose(
        &mut self,
        subcommand: &Subcommand,
        option: &str,
        words: &mut impl Iterator<Item = OsString>,
    ) -> Result<(), Stop> {
        let (name, joined) = match option.split_once('=') {
            Some((name, value)) => (name, Some(OsString::from(value))),
            None => (option, None),
        };
        let Some(choice) = subcommand.options.iter().find(|choice| choice.name == name) else {
            return Err(misused(subcommand, &format!("{} is no option", quoted(name))));
        };
        if self.has(choice.name) {
            return Err(misused(subcommand, &format!("{name} stands twice")));
        }
        let value = match (choice.value, joined) {
            (None, None) => OsString::new(),
            (None, Some(_)) => return Err(misused(subcommand, &format!("{name} takes no value"))),
            (Some(_), Some(value)) => value,
            (Some(word), None) => {
                words.next().ok_or_else(|| misused(subcommand, &format!("{name} needs {word} behind it")))?
            }
        };
        self.chosen.push((choice.name, value));
        Ok(())
    }

    pub fn operands(&self) -> &[OsString] {
        &self.operands
    }

    /// The argument at this place, 0 the first.
    pub fn operand(&self, place: usize) -> Option<&OsStr> {
        self.operands.get(place).map(OsString::as_os_str)
    }

    pub fn has(&self, name: &str) -> bool {
        self.value(name).is_some()
    }

    /// The value of an option that was given; an empty one where it has none.
    pub fn value(&self, name: &str) -> Option<&OsStr> {
        self.chosen.iter().find(|(chosen, _)| *chosen == name).map(|(_, value)| value.as_os_str())
    }

    /// The value of an option, read by a function that says what it is not.
    pub fn read<T>(&self, name: &str, read: fn(&str) -> Result<T, String>) -> Result<Option<T>, Stop> {
        let Some(value) = self.value(name) else { return Ok(None) };
        match read(&value.to_string_lossy()) {
            Ok(value) => Ok(Some(value)),
            Err(words) => Err(self.misused(&format!("{name}: {words}"))),
        }
    }

    /// What stands on the command line is not understood.
    pub fn misused(&self, words: &str) -> Stop {
        Stop::Usage(format!("{}: {words}", self.subcommand))
    }
}

/// What help alone tells of the usage: a picture is drawn beside what was asked.
const PICTURE: &str = " [--svg OUT]";

/// The words, and how the subcommand is used.
fn misused(subcommand: &Subcommand, words: &str) -> Stop {
    let &Subcommand { name, .. } = subcommand;
    let usage = usage(subcommand).replace(PICTURE, "");
    Stop::Usage(format!("{name}: {words}: {usage}; see 'ttpa {name} --help'"))
}

/// `ttpa check FILE..`
pub fn usage(subcommand: &Subcommand) -> String {
    let &Subcommand { name, usage, .. } = subcommand;
    format!("ttpa {name} {usage}")
}

/// Help has at most this many columns.
const COLUMNS: usize = 79;
/// Where the text of an option, or of a subcommand in the list of all, begins.
const OPTION_TEXT: usize = 19;
const SUMMARY: usize = 11;

/// Words in lines of at most [`COLUMNS`], the first line behind what stands there already, the others set in.
fn wrapped(begun: &str, indent: usize, words: &str) -> String {
    let mut text = format!("{begun:<indent$}");
    let mut column = text.chars().count();
    for (place, word) in words.split_whitespace().enumerate() {
        let length = word.chars().count();
        if place > 0 && column + 1 + length > COLUMNS {
            text.push('\n');
            text.push_str(&" ".repeat(indent));
            column = indent;
        } else if place > 0 {
            text.push(' ');
            column += 1;
        }
        text.push_str(word);
        column += length;
    }
    text.push('\n');
    text
}

/// Paragraphs with an empty line between them.
fn paragraphs(text: &str) -> String {
    let paragraphs: Vec<String> = text.split("\n\n").map(|words| wrapped("", 0, words)).collect();
    paragraphs.join("\n")
}

/// What `ttpa SUBCOMMAND --help` prints.
pub fn help(subcommand: &Subcommand) -> String {
    let mut text = format!("{}\n\n{}", usage(subcommand), paragraphs(subcommand.text));
    if !subcommand.options.is_empty() {
        text.push('\n');
    }
    for choice in subcommand.options {
        let value = choice.value.map(|value| format!(" {value}")).unwrap_or_default();
        text += &wrapped(&format!("  {}{value}  ", choice.name), OPTION_TEXT, choice.text);
    }
    text
}

const INTRODUCTION: &str = "\
ttpa SUBCOMMAND ARGUMENTS [--OPTIONS]

Checks, shows and makes TTP/A cluster files, and carries out rounds on them.
";

const CONCLUSION: &str = "\
'ttpa SUBCOMMAND --help' tells more of one, 'ttpa --version' the versions of program and library.

'-' is standard input or output, '--' ends options. Names, file numbers, record numbers and bytes are hexadecimal, counts and
slots decimal. No input file is altered but a cluster file that OUT names too, and STORE.

Status: 0 accepted, right or the same; 1 refused, wrong or different; 2 usage, or a file that cannot be read or written.";

/// What `ttpa --help` prints.
pub fn overview(table: &[Subcommand]) -> String {
    let mut text = format!("{INTRODUCTION}\n");
    for subcommand in table {
        text += &wrapped(&format!("  {}  ", subcommand.name), SUMMARY, subcommand.summary);
    }
    format!("{text}\n{}", paragraphs(CONCLUSION))
}
