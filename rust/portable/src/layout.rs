//! Lines of C: indented, and none too long. A space is where a line may be broken, since the text has no string; a line of the
//! preprocessor stays whole.

const WIDTH: usize = 112;

#[derive(Default)]
pub struct Lines {
    text: String,
    depth: usize,
}

impl Lines {
    /// A statement or a part of one. A line that ends with an opening brace sets the next ones in, one that begins with a closing brace back.
    pub fn add(&mut self, line: &str) {
        if line.starts_with('#') {
            self.text.push_str(line);
            self.text.push('\n');
            return;
        }
        if line.starts_with('}') {
            self.depth -= 1;
        }
        let indent = "    ".repeat(self.depth);
        let mut rest = line;
        let mut first = true;
        while !rest.is_empty() {
            let room = WIDTH - indent.len() - if first { 0 } else { 8 };
            let (now, later) = broken(rest, room);
            if !first {
                self.text.push_str("        ");
            }
            self.text.push_str(&indent);
            self.text.push_str(now);
            self.text.push('\n');
            rest = later;
            first = false;
        }
        if line.ends_with('{') {
            self.depth += 1;
        }
    }

    /// A label of a switch, which stands one step less deep than what it labels.
    pub fn label(&mut self, line: &str) {
        self.depth -= 1;
        self.add(line);
        if !line.ends_with('{') {
            self.depth += 1;
        }
    }

    /// The end of a label's own block; the next label stands where it did.
    pub fn label_end(&mut self) {
        self.add("}");
        self.depth += 1;
    }

    pub fn blank(&mut self) {
        self.text.push('\n');
    }

    /// A comment of one or several lines; what would end it, or begin another, is taken apart.
    pub fn comment(&mut self, lines: &[String]) {
        let whole = lines.join(" ").replace("*/", "* /").replace("/*", "/ *");
        let indent = "    ".repeat(self.depth);
        let mut rest = whole.as_str();
        let mut start = "/* ";
        while !rest.is_empty() {
            let (now, later) = broken_words(rest, WIDTH - indent.len() - 6);
            let end = if later.is_empty() { " */" } else { "" };
            self.text.push_str(&format!("{indent}{start}{now}{end}\n"));
            rest = later;
            start = " * ";
        }
    }

    pub fn finish(self) -> String {
        self.text
    }
}

/// Where a text is broken so that it has room: at the last space, or before all.
fn last_space(text: &str, room: usize) -> Option<usize> {
    let end = text.char_indices().nth(room).map(|(at, _)| at)?;
    text[..=end].rfind(' ').or_else(|| text.find(' ')).filter(|at| *at > 0)
}

fn split(text: &str, at: Option<usize>) -> (&str, &str) {
    match at {
        Some(at) => (&text[..at], &text[at + 1..]),
        None => (text, ""),
    }
}

/// Prose up to the end of a line, and what is behind it.
fn broken_words(text: &str, room: usize) -> (&str, &str) {
    split(text, last_space(text, room))
}

/// The same of C: a space behind a comma is taken before others, unless less than half of the line would be left.
fn broken(text: &str, room: usize) -> (&str, &str) {
    let space = last_space(text, room);
    let comma = space.and_then(|end| text[..=end].rfind(", ")).map(|at| at + 1).filter(|at| 2 * at > room);
    split(text, comma.or(space))
}
