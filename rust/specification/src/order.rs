//! The order of the page: its parts, what stands in each, and the words that the libraries give.
//!
//! One line for each thing, with its kind as the first word:
//!
//! - `part TITLE` begins a part;
//! - `text WORDS` is a paragraph of it, or before the first part one of the page's beginning;
//! - `sentences SECTION` takes the sentences of a section of docs/CLAIMS.md, `sentences SECTION / SUBSECTION` those below a smaller heading;
//! - `forms SECTION` does so too, where they are about the form of the code;
//! - `aside WORDS` names by its beginning a sentence about tests or the delivery: like those about forms it needs no definition;
//! - `module PATH` takes a module of definitions, as `module file/Rules/Bytes`;
//! - `word NAME MEANING` explains a name of a library.
//!
//! Empty lines and those that begin with `#` say nothing.

/// A part: the titles of its sections and the paths of its modules.
#[derive(Debug, Default)]
pub struct Part {
    pub title: String,
    pub text: Vec<String>,
    pub sections: Vec<String>,
    pub modules: Vec<String>,
}

/// All parts, with what stands before the first.
#[derive(Debug, Default)]
pub struct Order {
    pub text: Vec<String>,
    /// Beginnings of sentences, and titles of sections, that need no definition.
    pub asides: Vec<String>,
    pub forms: Vec<String>,
    pub words: Vec<(String, String)>,
    pub parts: Vec<Part>,
}

impl Order {
    /// Reads the lines; an error has the line that says nothing known.
    pub fn new(text: &str) -> Result<Order, String> {
        let mut order = Order::default();
        let said = text.lines().map(str::trim).filter(|line| !line.is_empty() && !line.starts_with('#'));
        for line in said {
            order.take(line).ok_or_else(|| format!("the order has a line that is not known: {line}"))?;
        }
        Ok(order)
    }

    fn take(&mut self, line: &str) -> Option<()> {
        let (kind, rest) = line.split_once(' ')?;
        let rest = rest.trim().to_string();
        match (kind, self.parts.last_mut()) {
            ("part", _) => self.parts.push(Part { title: rest, ..Part::default() }),
            ("word", _) => {
                let (name, meaning) = rest.split_once(' ')?;
                self.words.push((name.to_string(), meaning.trim().to_string()));
            }
            ("text", None) => self.text.push(rest),
            ("text", Some(part)) => part.text.push(rest),
            ("sentences", Some(part)) => part.sections.push(rest),
            ("forms", Some(part)) => {
                part.sections.push(rest.clone());
                self.forms.push(rest);
            }
            ("aside", Some(_)) => self.asides.push(rest),
            ("module", Some(part)) => part.modules.push(rest),
            _ => return None,
        }
        Some(())
    }
}
