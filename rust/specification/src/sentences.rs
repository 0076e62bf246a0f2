//! Reading docs/CLAIMS.md: the documents' sentences, and what is cited for each.
//!
//! A sentence stands between `**` and `**`; several may share a paragraph, and then what is cited for one is cited for all. Below it are
//! lines `- defined: ..`, `- claimed: ..`, `- holds by: ..`, `- tested: ..`, in which names stand behind a path in backticks.

/// A name behind a path, as `number_of` behind `file/specs/Rules/Bytes`.
#[derive(Clone, Debug, PartialEq, Eq)]
pub struct Citation {
    pub path: String,
    /// Empty where the path stands alone.
    pub name: String,
    /// It stands behind the word "law" or "laws", so it holds no claim by itself.
    pub is_law: bool,
}

/// A paragraph with sentences.
#[derive(Debug, Default)]
pub struct Entry {
    pub sentences: Vec<String>,
    /// What the paragraph says besides.
    pub remark: String,
    /// The lines below it, without their dashes.
    pub answers: Vec<String>,
    pub cited: Vec<Citation>,
}

/// What stands below a heading, or below a smaller one, which has the title `LARGE / SMALL`.
#[derive(Debug, Default)]
pub struct Section {
    pub title: String,
    /// The paragraphs before the first sentence, and what they cite: it is for all sentences below.
    pub text: Vec<String>,
    pub cited: Vec<Citation>,
    pub entries: Vec<Entry>,
}

/// The sections of the page, in its order.
pub fn sections(text: &str) -> Vec<Section> {
    let mut sections: Vec<Section> = Vec::new();
    let mut large = "";
    for paragraph in paragraphs(text) {
        let title = match paragraph[0] {
            line if line.starts_with("## ") => {
                large = &line[3..];
                Some(large.to_string())
            }
            line => line.strip_prefix("### ").map(|small| format!("{large} / {small}")),
        };
        match (title, sections.last_mut()) {
            (Some(title), _) => sections.push(Section { title, ..Section::default() }),
            (None, Some(section)) => section.take(&paragraph),
            (None, None) => {}
        }
    }
    sections
}

/// The lines of each paragraph; a heading is one by itself.
fn paragraphs(text: &str) -> Vec<Vec<&str>> {
    let mut paragraphs: Vec<Vec<&str>> = vec![Vec::new()];
    for line in text.lines() {
        if line.is_empty() || line.starts_with('#') {
            paragraphs.push(Vec::new());
        }
        if let Some(paragraph) = paragraphs.last_mut().filter(|_| !line.is_empty()) {
            paragraph.push(line);
        }
        if line.starts_with('#') {
            paragraphs.push(Vec::new());
        }
    }
    paragraphs.retain(|paragraph| !paragraph.is_empty());
    paragraphs
}

impl Section {
    fn take(&mut self, paragraph: &[&str]) {
        let above = paragraph.iter().take_while(|line| !line.starts_with("- "));
        let above: Vec<&str> = above.map(|line| line.trim()).collect();
        let text = above.join(" ");
        if text.starts_with("**") {
            self.entries.push(Entry::new(&text, answers(&paragraph[above.len()..])));
        } else if self.entries.is_empty() && !text.starts_with('|') && above.len() == paragraph.len() {
            self.cited.extend(citations(&text));
            self.text.push(text);
        }
    }
}

impl Entry {
    fn new(text: &str, answers: Vec<String>) -> Entry {
        let (mut sentences, mut remarks) = (Vec::new(), Vec::new());
        for (index, piece) in text.split("**").enumerate().filter(|(_, piece)| !piece.trim().is_empty()) {
            let kind = if index % 2 == 1 { &mut sentences } else { &mut remarks };
            kind.push(piece.trim().to_string());
        }
        let cited = answers.iter().flat_map(|answer| citations(answer)).collect();
        Entry { sentences, remark: remarks.join(" "), answers, cited }
    }

    /// What the page says of it.
    pub fn said(&self) -> String {
        if self.answers.is_empty() {
            self.remark.clone()
        } else {
            self.answers.join("; ")
        }
    }

    /// The section in which it stands, of a sentence that only refers to it: `See "TITLE".`
    pub fn referred(&self) -> Option<&str> {
        let title = self.remark.strip_prefix("See \"").filter(|_| self.answers.is_empty())?;
        title.split('"').next()
    }
}

/// Lines that begin with a dash, each with those that go on with it.
fn answers(lines: &[&str]) -> Vec<String> {
    let mut answers: Vec<String> = Vec::new();
    for line in lines {
        match (line.strip_prefix("- "), answers.last_mut()) {
            (Some(answer), _) => answers.push(answer.trim().to_string()),
            (None, Some(answer)) => *answer = format!("{answer} {}", line.trim()),
            (None, None) => {}
        }
    }
    answers
}

/// The names behind a path are single words with commas between them.
fn citations(answer: &str) -> Vec<Citation> {
    let mut found = Vec::new();
    let mut is_law = false;
    let pieces: Vec<&str> = answer.split('`').collect();
    for place in pieces.windows(3).step_by(2) {
        let [before, path, behind] = place else {
            continue;
        };
        let mut words = before.split(|character: char| !character.is_ascii_alphabetic());
        is_law = is_law || words.any(|word| ["law", "laws", "Law", "Laws"].contains(&word));
        if !["/specs/", "/proofs/", "/src/"].iter().any(|folder| path.contains(folder)) {
            continue;
        }
        let names = names(behind);
        let alone = if names.is_empty() { vec![""] } else { names };
        let cite = |name: &str| Citation { path: path.to_string(), name: name.to_string(), is_law };
        found.extend(alone.into_iter().map(cite));
    }
    found
}

fn names(behind: &str) -> Vec<&str> {
    let names = behind.split([';', ':', '.', '(', '|']).next().unwrap_or(behind);
    let names = names.split(',').map(|name| name.trim().trim_end_matches(" and"));
    names.filter(|name| !name.is_empty() && !name.contains(' ')).collect()
}
