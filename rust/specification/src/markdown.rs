//! Words, links and blocks of the page.

use reach::Place;

/// Where the crates lie, from the page's own folder.
const CRATES: &str = "../crates";

/// `file/Rules/Bytes` has the mark `file-Rules-Bytes`, and a claim there that and its name.
pub fn mark(path: &str) -> String {
    path.replace('/', "-")
}

/// A heading that can be linked to by a mark.
pub fn heading(level: &str, mark: &str, words: &str) -> String {
    format!("{level} <a id=\"{mark}\"></a>{words}")
}

/// A link to a module on the page.
pub fn to_module(path: &str) -> String {
    format!("[{path}](#{})", mark(path))
}

/// A link to a claim on the page, in these words.
pub fn to_claim((path, name): &Place, words: &str) -> String {
    format!("[{words}](#{}-{name})", mark(path))
}

/// The file of a module of definitions.
pub fn to_specs(path: &str) -> String {
    let (crate_name, inside) = path.split_once('/').unwrap_or((path, ""));
    format!("[{path}]({CRATES}/{crate_name}/specs/{inside}.antt)")
}

/// A file of proofs, or one of code.
pub fn to_file(path: &str) -> String {
    let ending = if path.contains("/proofs/") { "antt" } else { "rt" };
    format!("[{path}]({CRATES}/{path}.{ending})")
}

/// Names, those of one module together: ``a`, `b` in LINK; `c` in LINK`.
pub fn grouped<'a>(places: impl IntoIterator<Item = &'a Place>, link: impl Fn(&str) -> String) -> String {
    let mut groups: Vec<(&str, Vec<String>)> = Vec::new();
    for (path, name) in places {
        let name = format!("`{name}`");
        match groups.last_mut().filter(|(last, _)| last == path) {
            Some((_, names)) => names.push(name),
            None => groups.push((path, vec![name])),
        }
    }
    let group = |(path, names): &(&str, Vec<String>)| match &names[..] {
        [alone] if alone == "``" => link(path),
        names => format!("{} in {}", names.join(", "), link(path)),
    };
    groups.iter().map(group).collect::<Vec<_>>().join("; ")
}

/// A comment's lines as a paragraph: what Markdown would read as its own signs is kept as it is.
pub fn prose(lines: &[String]) -> String {
    let words = lines.iter().map(|line| line.trim_start_matches('-').trim());
    let text = words.collect::<Vec<_>>().join(" ");
    let mut kept = String::new();
    for (index, piece) in text.split('`').enumerate() {
        let code = index % 2 == 1;
        kept.push_str(if index == 0 { "" } else { "`" });
        for character in piece.chars() {
            kept.push_str(if !code && "*_<[]#".contains(character) { "\\" } else { "" });
            kept.push(character);
        }
    }
    kept
}

/// A line of a definition without the words that are for the checker alone.
pub fn plain(line: &str) -> String {
    let rest = line.trim_start_matches(' ');
    let inset = &line[..line.len() - rest.len()];
    let bare = ["unfoldable ", "abbrev ", "pub "]
        .iter()
        .fold(rest, |rest, word| rest.strip_prefix(word).unwrap_or(rest));
    format!("{inset}{bare}")
}
