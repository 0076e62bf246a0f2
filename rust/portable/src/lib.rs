//! The proved program as one portable C file. The toolchain keeps the program that it proves and compiles with each library (`toolchain/mir.json`
//! in the library's folder below `out/rlib`); this makes C99 of it, in two forms: the plain one has a statement for each of the program, the reading
//! one is folded into expressions.
//!
//! `json` reads the files, `mir` makes a term of the functions that the calls for C reach, of which `instances` makes one for each list of arguments;
//! `term` reads a term that is written as text, `program` what a term says; `types` and `check` refuse what would not be the same program in C, or
//! not defined there; `inline` writes small functions where they are called, those of the kit's and those that `handed` names, with `forward` and
//! `blocks`, and `fold` makes the reading form, with `live`; `sources` and `names` have the names; `declare`, `write`, `text`, `helpers` and `layout` make the C text. The same input
//! gives the same bytes.

mod blocks;
mod check;
mod declare;
mod fold;
mod forward;
mod handed;
mod helpers;
mod inline;
mod instances;
mod json;
mod layout;
mod live;
mod mir;
mod names;
mod program;
pub mod sources;
mod term;
mod text;
mod tree;
mod types;
mod write;

use sources::Sources;
use std::fmt;

/// The plain form is compared with the term, the reading form is given out.
#[derive(Clone, Copy, Debug, PartialEq, Eq)]
pub enum Form {
    Plain,
    Reading,
}

/// Why there is no C file: a construct that is not known, or a rule that the term breaks, and where.
#[derive(Clone, Debug, PartialEq, Eq)]
pub struct Refused {
    why: String,
    place: Option<String>,
}

impl Refused {
    fn new(why: impl Into<String>) -> Refused {
        Refused { why: why.into(), place: None }
    }

    /// With the function or type in which it was found, unless one is named already.
    fn of(self, place: &str) -> Refused {
        Refused { place: self.place.or_else(|| Some(place.to_string())), ..self }
    }
}

impl fmt::Display for Refused {
    fn fmt(&self, f: &mut fmt::Formatter) -> fmt::Result {
        match &self.place {
            Some(place) => write!(f, "{place}: {}", self.why),
            None => write!(f, "{}", self.why),
        }
    }
}

/// The C file of a term, in one of the two forms.
pub fn translate(term: &str, sources: &Sources, form: Form) -> Result<String, Refused> {
    translate_term(&term::read(term)?, sources, form)
}

/// The C file of the program that the texts of several libraries' `mir.json` have.
pub fn translate_mir(texts: &[String], sources: &Sources, form: Form) -> Result<String, Refused> {
    translate_term(&mir::term(texts, sources)?, sources, form)
}

fn translate_term(term: &term::Node, sources: &Sources, form: Form) -> Result<String, Refused> {
    let mut program = program::program(term)?;
    check::check(&mut program)?;
    write::file(&program, sources, form)
}
