//! What a subcommand reads from and writes to, and how it ends.

use std::io::{self, BufRead, Write};

/// Standard input and both outputs, or what a test puts in their place.
pub struct Console<'a> {
    pub input: &'a mut dyn BufRead,
    /// Results.
    pub output: &'a mut dyn Write,
    /// Messages.
    pub messages: &'a mut dyn Write,
    pub look: Look,
}

/// What a terminal is shown beyond the plain text. All false where there is none.
#[derive(Clone, Copy, Debug, Default)]
pub struct Look {
    /// Lines are typed: a wrong one is told, and the next is waited for.
    pub typed: bool,
    /// Results may have colour.
    pub colour: bool,
    /// A line on standard error may be rewritten while something goes on.
    pub progress: bool,
}

/// Status as in grep, diff and cmp. The greater one stands for several files together.
#[derive(Clone, Copy, Debug, PartialEq, Eq, PartialOrd, Ord)]
pub enum Status {
    /// Accepted, right or the same.
    Accepted = 0,
    /// Refused, wrong or different.
    Refused = 1,
    /// Usage, or a file that cannot be read or written.
    Trouble = 2,
}

/// Why a subcommand stops before its end.
#[derive(Debug)]
pub enum Stop {
    /// Something was refused; the words say what.
    Refused(String),
    /// A line of a text is wrong: its place `FILE:LINE`, and the words.
    Text { place: String, words: String },
    /// The command line is not understood.
    Usage(String),
    /// A file cannot be read or written.
    Trouble(String),
    /// Standard output cannot be written.
    Output(io::Error),
}

pub type Outcome = Result<Status, Stop>;

/// `?` is used so on writes to standard output alone: every other error is told with its file.
impl From<io::Error> for Stop {
    fn from(error: io::Error) -> Stop {
        Stop::Output(error)
    }
}

impl Console<'_> {
    /// A message that the work goes on after, behind the results that were found before it. Where standard error cannot be written
    /// there is nobody to tell.
    pub fn tell(&mut self, words: &str) {
        // an error comes again at the end, where it is told
        let _ = self.output.flush();
        let _ = writeln!(self.messages, "ttpa: {words}");
    }

    /// Says why a subcommand stopped, and with what status.
    pub fn tell_stop(&mut self, stop: Stop) -> Status {
        match stop {
            Stop::Refused(words) => {
                self.tell(&words);
                Status::Refused
            }
            // without the program's name in front, so that an editor finds the place
            Stop::Text { place, words } => {
                let _ = writeln!(self.messages, "{place}: {words}");
                Status::Refused
            }
            Stop::Usage(words) | Stop::Trouble(words) => {
                self.tell(&words);
                Status::Trouble
            }
            // the reader has seen enough
            Stop::Output(error) if error.kind() == io::ErrorKind::BrokenPipe => Status::Trouble,
            Stop::Output(error) => {
                self.tell(&format!("standard output: {}", reason(&error)));
                Status::Trouble
            }
        }
    }

    /// The text in a colour, where there is colour.
    pub fn painted(&self, colour: Colour, text: &str) -> String {
        if self.look.colour {
            format!("\x1b[{}m{text}\x1b[0m", colour as u8)
        } else {
            text.to_string()
        }
    }
}

/// By the terminal's numbers.
#[derive(Clone, Copy)]
pub enum Colour {
    Red = 31,
    Green = 32,
}

/// An error of the system in its words, without its number.
pub fn reason(error: &io::Error) -> String {
    let words = error.to_string();
    match words.find(" (os error ") {
        Some(end) => words[..end].to_string(),
        None => words,
    }
}
