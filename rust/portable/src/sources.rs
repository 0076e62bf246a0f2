//! The sources, for names alone: what parameters, locals, fields and variants are called, the comments above functions and types, and which
//! functions are calls for C. Nothing of what the C file does is taken from here, except which functions are seen from outside: those that are
//! exported, and those of another crate that an exported one only hands its parameters on to, as they stand. It then is not in the C file.

use std::collections::BTreeMap;
use std::fs;
use std::io;
use std::path::Path;

#[derive(Clone, Debug, Default, PartialEq, Eq)]
pub struct FunctionNames {
    pub comment: Vec<String>,
    pub params: Vec<String>,
    /// What `let`, `for` and patterns bind, in their order, with a sign where the program has a local that the source does not name: `HIDDEN` for
    /// one, `LOOP` for those of a `for` over anything but a range, `COUNTED` where the pattern has its counter.
    pub bound: Vec<String>,
    pub is_exported: bool,
}

/// No names of the sources.
pub const HIDDEN: &str = "";
pub const LOOP: &str = "for";
pub const COUNTED: &str = "in";

#[derive(Clone, Debug, PartialEq, Eq)]
pub enum TypeNames {
    Fields(Vec<String>),
    Variants(Vec<(String, Vec<String>)>),
}

/// By the path that the term has too, as `file::types::Refusal`.
#[derive(Clone, Debug, Default)]
pub struct Sources {
    pub functions: BTreeMap<String, FunctionNames>,
    pub types: BTreeMap<String, (Vec<String>, TypeNames)>,
    /// By the path of an exported function that of the one that it hands its parameters on to.
    pub handed_on: BTreeMap<String, String>,
}

#[derive(Clone, Debug, PartialEq, Eq)]
enum Token {
    Word(String),
    Mark(char),
    Comment(String),
}

impl Sources {
    /// Every `NAME/src/MODULE.rt` of a folder of crates.
    pub fn read(crates: &Path) -> io::Result<Sources> {
        let mut sources = Sources::default();
        let mut names: Vec<_> = fs::read_dir(crates)?.collect::<Result<_, _>>()?;
        names.sort_by_key(|entry| entry.file_name());
        for entry in names {
            let folder = entry.path().join("src");
            if folder.is_dir() {
                sources.read_folder(&folder, &entry.file_name().to_string_lossy())?;
            }
        }
        Ok(sources)
    }

    fn read_folder(&mut self, folder: &Path, path: &str) -> io::Result<()> {
        let mut files: Vec<_> = fs::read_dir(folder)?.collect::<Result<_, _>>()?;
        // a folder has no order of its own, and the same sources give the same bytes
        files.sort_by_key(|entry| entry.file_name());
        for entry in files {
            let file = entry.path();
            let module = file.file_stem().map(|stem| stem.to_string_lossy().into_owned()).unwrap_or_default();
            let inner = if matches!(module.as_str(), "lib" | "main" | "mod") {
                path.to_string()
            } else {
                format!("{path}::{module}")
            };
            if file.is_dir() {
                self.read_folder(&file, &inner)?;
            } else if file.extension().is_some_and(|extension| extension == "rt") {
                self.add(&fs::read_to_string(&file)?, &inner);
            }
        }
        Ok(())
    }

    /// Whether a function is a call for C.
    pub fn is_exported(&self, path: &str) -> bool {
        let exported = self.functions.get(path).is_some_and(|names| names.is_exported);
        (exported && !self.handed_on.contains_key(path)) || self.handed_on.values().any(|to| to == path)
    }

    /// The calls for C, by the paths that the program has.
    pub fn exported(&self) -> impl Iterator<Item = &str> {
        let exported = self.functions.iter().filter(|(_, names)| names.is_exported);
        exported.map(|(path, _)| self.handed_on.get(path).unwrap_or(path).as_str())
    }

    /// What a text of a module declares.
    pub fn add(&mut self, text: &str, path: &str) {
        self.items(&tokens(text), path);
    }

    fn items(&mut self, tokens: &[Token], path: &str) {
        let mut comment = Vec::new();
        let mut is_exported = false;
        let mut at = 0;
        while at < tokens.len() {
            let name = word(tokens, at + 1).unwrap_or_default();
            let inner = format!("{path}::{name}");
            match &tokens[at] {
                Token::Comment(line) => {
                    comment.push(line.clone());
                    at += 1;
                    continue;
                }
                Token::Mark('#') => {
                    at = after_group(tokens, at + 1);
                    continue;
                }
                Token::Word(kind) => match kind.as_str() {
                    "pub" => {
                        at += 1;
                        continue;
                    }
                    "extern" => {
                        is_exported = true;
                        at = position(tokens, at, |token| *token == Token::Word("fn".to_string()));
                        continue;
                    }
                    "impl" => at = self.implemented(tokens, at, path),
                    "fn" => at = self.function(tokens, at + 2, inner, &comment, is_exported),
                    "struct" => at = self.declared(tokens, at + 2, inner, &comment, false),
                    "enum" => at = self.declared(tokens, at + 2, inner, &comment, true),
                    "use" | "const" | "type" | "ghost" => at = after_item(tokens, at),
                    _ => at += 1,
                },
                Token::Mark(_) => at += 1,
            }
            comment.clear();
            is_exported = false;
        }
    }

    /// What is implemented of a trait has the type's name and the trait's, with what the trait is of.
    fn implemented(&mut self, tokens: &[Token], at: usize, path: &str) -> usize {
        let open = position(tokens, at, |token| *token == Token::Mark('{'));
        let end = after_group(tokens, open);
        let heading = &tokens[after_angles(tokens, at + 1).min(open)..open];
        let of = heading.iter().position(|token| *token == Token::Word("for".to_string()));
        let (of_trait, of_type) = heading.split_at(of.map_or(0, |of| of + 1));
        let name = last_name(of_type) + &words(of_trait).concat();
        self.items(&tokens[(open + 1).min(end)..end.max(1) - 1], &format!("{path}::{name}"));
        end
    }

    fn function(
        &mut self,
        tokens: &[Token],
        at: usize,
        path: String,
        comment: &[String],
        is_exported: bool,
    ) -> usize {
        let open = position(tokens, after_angles(tokens, at), |token| *token == Token::Mark('('));
        let mut at = after_group(tokens, open);
        let params = parts(inside(tokens, open, at)).iter().filter_map(|part| declared_name(part)).collect();
        // a clause is a word and what it holds in braces; the body has no word
        let mut is_clause = false;
        while at < tokens.len() && tokens[at] != Token::Mark(';') {
            match &tokens[at] {
                Token::Mark('{') if is_clause => {
                    at = after_group(tokens, at);
                    is_clause = false;
                }
                Token::Mark('{') => break,
                Token::Word(name) => {
                    is_clause |= matches!(name.as_str(), "requires" | "ensures" | "decreases" | "where");
                    at += 1;
                }
                _ => at += 1,
            }
        }
        let end = after_group(tokens, at);
        let params: Vec<String> = params;
        if let Some(to) = handed_on(inside(tokens, at, end), &path, &params).filter(|_| is_exported) {
            self.handed_on.insert(path.clone(), to);
        }
        let names = FunctionNames {
            comment: comment.to_vec(),
            params,
            bound: bound(inside(tokens, at, end)),
            is_exported,
        };
        self.functions.insert(path, names);
        end
    }

    fn declared(
        &mut self,
        tokens: &[Token],
        at: usize,
        path: String,
        comment: &[String],
        is_enum: bool,
    ) -> usize {
        let open = position(tokens, at, |token| matches!(token, Token::Mark('{' | '(' | ';')));
        let end = after_group(tokens, open);
        let body = inside(tokens, open, end);
        let names = if is_enum {
            let variant = |part: &Vec<Token>| {
                let name = word(part, 0).unwrap_or_default();
                let inner = if part.len() > 1 { fields(&part[1..]) } else { Vec::new() };
                (name, inner)
            };
            TypeNames::Variants(parts(body).iter().map(variant).collect())
        } else {
            TypeNames::Fields(fields(&tokens[open.min(tokens.len())..end]))
        };
        self.types.insert(path, (comment.to_vec(), names));
        end
    }
}

/// The function of another crate that a body is nothing but a call of, which has the same name and is given the parameters in their order.
fn handed_on(body: &[Token], path: &str, params: &[String]) -> Option<String> {
    let name = path.rsplit("::").next()?;
    let other = word(body, 0)?;
    let text: Vec<String> = body
        .iter()
        .map(|token| match token {
            Token::Word(word) => word.clone(),
            Token::Mark(mark) => mark.to_string(),
            Token::Comment(_) => String::new(),
        })
        .collect();
    (text.concat() == format!("{other}::{name}({})", params.join(","))).then(|| format!("{other}::{name}"))
}

/// The fields within parentheses, which have numbers, or within braces, which have names.
fn fields(group: &[Token]) -> Vec<String> {
    let inner = parts(inside(group, 0, group.len()));
    match group.first() {
        Some(Token::Mark('(')) => (0..inner.len()).map(|number| format!("f{number}")).collect(),
        _ => inner.iter().filter_map(|part| declared_name(part)).collect(),
    }
}

/// The name before a colon; a ghost has no name, since it is not in the term.
fn declared_name(part: &[Token]) -> Option<String> {
    let words = part.iter().filter_map(|token| match token {
        Token::Word(name) => Some(name.as_str()),
        _ => None,
    });
    let mut words = words.skip_while(|name| matches!(*name, "pub" | "mut"));
    match words.next() {
        Some("ghost") | None => None,
        Some(name) => Some(name.to_string()),
    }
}

/// The names that `let`, `for` and the patterns of `match` bind; `?` has a local for the value and one for what is returned.
fn bound(body: &[Token]) -> Vec<String> {
    let body: Vec<Token> = body.iter().filter(|token| !matches!(token, Token::Comment(_))).cloned().collect();
    let mut names = Vec::new();
    for at in 0..body.len() {
        if body[at] == Token::Word("let".to_string()) {
            let end = position(&body, at, |token| *token == Token::Mark('='));
            names.extend(pattern_names(&body[at + 1..end.min(body.len())]));
        } else if body[at] == Token::Mark('=') && body.get(at + 1) == Some(&Token::Mark('>')) {
            names.extend(pattern_names(&body[pattern_start(&body, at)..at]));
        } else if body[at] == Token::Mark('?') {
            names.extend([HIDDEN, HIDDEN].map(String::from));
        } else if body[at] == Token::Word("for".to_string()) {
            let of = position(&body, at, |token| *token == Token::Word("in".to_string()));
            let end = position(&body, of, |token| *token == Token::Mark('{'));
            let over = inside(&body, of, end + 1);
            if over.contains(&Token::Word("enumerate".to_string())) {
                names.push(COUNTED.to_string());
            } else if !is_range(over) {
                names.push(LOOP.to_string());
            }
            names.extend(pattern_names(&body[at + 1..of.min(body.len())]));
        }
    }
    names
}

/// Whether a `for` goes over a range, or over one within parentheses.
fn is_range(of: &[Token]) -> bool {
    if let [Token::Mark('('), ..] = of {
        return is_range(inside(of, 0, after_group(of, 0)));
    }
    let mut at = 0;
    while at < of.len() {
        if of[at] == Token::Mark('.') && of.get(at + 1) == Some(&Token::Mark('.')) {
            return true;
        }
        at = after_group(of, at);
    }
    false
}

/// Where the pattern before `=>` begins: behind the comma or brace that ends what is before it.
fn pattern_start(body: &[Token], arrow: usize) -> usize {
    let mut at = arrow;
    if at > 0 && matches!(body[at - 1], Token::Mark(')' | '}')) {
        let mut depth = 0;
        while at > 0 {
            at -= 1;
            match body[at] {
                Token::Mark(')' | '}') => depth += 1,
                Token::Mark('(' | '{') => depth -= 1,
                _ => {}
            }
            if depth == 0 {
                break;
            }
        }
    }
    while at > 0 && !matches!(body[at - 1], Token::Mark(',' | '{' | '}')) {
        at -= 1;
    }
    at
}

fn pattern_names(pattern: &[Token]) -> Vec<String> {
    let mut names = Vec::new();
    for (at, token) in pattern.iter().enumerate() {
        let Token::Word(name) = token else { continue };
        let is_name = name.starts_with(|c: char| c.is_ascii_lowercase());
        let is_keyword = matches!(name.as_str(), "mut" | "ref" | "true" | "false");
        let colon = |at: usize| pattern.get(at) == Some(&Token::Mark(':'));
        // `field: name` and `path::name`; the type behind `name: T` does not come here in a pattern without braces
        let is_path = colon(at + 1) && colon(at + 2);
        let is_field = colon(at + 1) && !colon(at + 2) && pattern.contains(&Token::Mark('{'));
        let is_type = at > 1 && colon(at - 1) && !pattern.contains(&Token::Mark('{'));
        if is_name && !is_keyword && !is_path && !is_field && !is_type {
            names.push(name.clone());
        }
    }
    names
}

fn tokens(text: &str) -> Vec<Token> {
    let mut tokens = Vec::new();
    let mut rest = text.trim_start();
    while let Some(first) = rest.chars().next() {
        if let Some(comment) = rest.strip_prefix("//") {
            let line = comment.lines().next().unwrap_or_default();
            tokens.push(Token::Comment(line.trim().to_string()));
            rest = &comment[line.len()..];
        } else if first.is_alphanumeric() || first == '_' {
            let end = rest.find(|c: char| !c.is_alphanumeric() && c != '_').unwrap_or(rest.len());
            tokens.push(Token::Word(rest[..end].to_string()));
            rest = &rest[end..];
        } else {
            tokens.push(Token::Mark(first));
            rest = &rest[first.len_utf8()..];
        }
        rest = rest.trim_start();
    }
    tokens
}

fn word(tokens: &[Token], at: usize) -> Option<String> {
    match tokens.get(at) {
        Some(Token::Word(word)) => Some(word.clone()),
        _ => None,
    }
}

fn position(tokens: &[Token], from: usize, is_it: impl Fn(&Token) -> bool) -> usize {
    tokens.iter().skip(from).position(is_it).map_or(tokens.len(), |at| from + at)
}

/// The place behind the group that opens at a place; behind the token there, where it opens none.
fn after_group(tokens: &[Token], at: usize) -> usize {
    let mut depth = 0;
    for (place, token) in tokens.iter().enumerate().skip(at) {
        match token {
            Token::Mark('(' | '[' | '{') => depth += 1,
            Token::Mark(')' | ']' | '}') => depth -= 1,
            _ => {}
        }
        if depth == 0 {
            return place + 1;
        }
    }
    tokens.len()
}

/// The place behind parameters in angle brackets, where there are any.
fn after_angles(tokens: &[Token], at: usize) -> usize {
    let mut depth = 0;
    for place in at..tokens.len() {
        match tokens[place] {
            Token::Mark('<') => depth += 1,
            Token::Mark('>') if tokens[place - 1] != Token::Mark('-') => depth -= 1,
            _ => {}
        }
        if depth == 0 {
            return place + usize::from(tokens[place] == Token::Mark('>'));
        }
    }
    tokens.len()
}

/// The last name of a type's path, without its arguments.
fn last_name(of: &[Token]) -> String {
    let end = position(of, 0, |token| *token == Token::Mark('<'));
    words(&of[..end]).pop().unwrap_or_default()
}

/// The last name of each path, with a capital.
fn words(of: &[Token]) -> Vec<String> {
    let is_path = |at: usize| of.get(at + 1) == Some(&Token::Mark(':'));
    let named = of.iter().enumerate().filter_map(|(at, token)| match token {
        Token::Word(name) if !is_path(at) && !matches!(name.as_str(), "for" | "where" | "mut") => {
            let mut characters = name.chars();
            characters.next().map(|first| first.to_uppercase().chain(characters).collect())
        }
        _ => None,
    });
    named.collect()
}

fn after_item(tokens: &[Token], at: usize) -> usize {
    let mut at = at;
    while at < tokens.len() && tokens[at] != Token::Mark(';') {
        at = after_group(tokens, at);
    }
    at + 1
}

/// What stands between the marks that open and close a group, which ends before a place.
fn inside(tokens: &[Token], open: usize, end: usize) -> &[Token] {
    if open + 1 < end {
        &tokens[open + 1..end - 1]
    } else {
        &[]
    }
}

/// The parts between commas, comments aside; none for what is empty. A comma between the arguments of a type parts nothing.
fn parts(tokens: &[Token]) -> Vec<Vec<Token>> {
    let mut parts = vec![Vec::new()];
    let mut within = 0usize;
    let mut at = 0;
    while at < tokens.len() {
        let end = after_group(tokens, at);
        match tokens[at] {
            Token::Mark('<') => within += 1,
            Token::Mark('>') if at == 0 || tokens[at - 1] != Token::Mark('-') => {
                within = within.saturating_sub(1)
            }
            _ => {}
        }
        if tokens[at] == Token::Mark(',') && within == 0 {
            parts.push(Vec::new());
        } else if let Some(part) = parts.last_mut() {
            part.extend(tokens[at..end].iter().filter(|token| !matches!(token, Token::Comment(_))).cloned());
        }
        at = end;
    }
    parts.retain(|part| !part.is_empty());
    parts
}
