//! Reading modules of definitions, contracts of functions and statements of theorems.

use crate::{Folder, Place, LINE_CHARACTERS};
use std::collections::{BTreeMap, BTreeSet};

/// A definition: a function with its type and clauses, a type with its constructors, or a record.
#[derive(Default)]
pub struct Definition {
    pub name: String,
    pub constructors: Vec<String>,
    pub words: BTreeSet<String>,
    pub lines: usize,
    /// As it stands, with the comments above it and in it.
    pub text: Vec<String>,
}

impl Definition {
    fn named(name: &str) -> Definition {
        Definition { name: name.to_string(), ..Definition::default() }
    }

    /// Takes a line of its own, which is `bare` without its comment, and the comments and empty lines above that line.
    fn take(&mut self, line: &str, bare: &str, above: &mut Vec<&str>) {
        self.lines += bare.chars().count().div_ceil(LINE_CHARACTERS);
        self.words.extend(words(bare));
        self.constructors.extend(constructors(bare));
        let first = self.text.is_empty();
        let lines = above.drain(..).chain([line]).map(str::to_string);
        self.text.extend(lines.skip_while(|line| first && line.trim().is_empty()));
    }
}

/// A module of definitions, what its names from elsewhere stand for, and which of those it hands on.
pub struct Module {
    /// The comment at its head.
    pub heading: Vec<String>,
    /// The names that it takes from the libraries.
    pub library: BTreeSet<String>,
    pub imports: BTreeMap<String, Place>,
    pub handed_on: BTreeMap<String, Place>,
    pub definitions: Vec<Definition>,
}

/// The words of a function's contract, or of a theorem's statement, and what they stand for.
pub struct Contract {
    /// The function, or the theorem.
    pub name: String,
    pub promised: bool,
    pub words: BTreeSet<String>,
    /// The line itself.
    pub text: String,
    pub imports: BTreeMap<String, Place>,
}

/// A claim and the theorem that has it as its type.
pub struct Held {
    pub claim: Place,
    pub theorem: Place,
}

/// How a module hands on a definition of another, to be unfolded or not.
const HANDED_ON: [&str; 2] = ["unfoldable pub use ", "pub use "];

pub fn module(text: &str) -> Module {
    let heading: Vec<String> =
        text.lines().take_while(|line| line.starts_with("--")).map(str::to_string).collect();
    let handed_on: BTreeMap<String, Place> =
        HANDED_ON.into_iter().flat_map(|start| imports(text, start)).collect();
    Module {
        library: library(text),
        imports: imports(text, "use ").into_iter().chain(handed_on.clone()).collect(),
        handed_on,
        definitions: definitions(text.lines().skip(heading.len())),
        heading,
    }
}

/// Comments and empty lines belong to the definition that they stand above or in, those at the end to the last one.
fn definitions<'a>(lines: impl Iterator<Item = &'a str>) -> Vec<Definition> {
    let mut definitions: Vec<Definition> = Vec::new();
    let mut above = Vec::new();
    let is_use =
        |line: &&str| line.starts_with("use ") || HANDED_ON.iter().any(|start| line.starts_with(start));
    for line in lines.filter(|line| !is_use(line)) {
        let bare = without_comment(line);
        if bare.trim().is_empty() {
            above.push(line);
            continue;
        }
        definitions.extend(declared(bare).map(Definition::named));
        if let Some(definition) = definitions.last_mut() {
            definition.take(line, bare, &mut above);
        }
    }
    while above.last().is_some_and(|line| line.trim().is_empty()) {
        above.pop();
    }
    if let Some(definition) = definitions.last_mut() {
        definition.text.extend(above.into_iter().map(str::to_string));
    }
    definitions
}

/// The contracts of those functions of a program whose heading is wanted.
pub fn contracts(text: &str, wanted: impl Fn(&str) -> bool) -> Vec<Contract> {
    let imports = imports(text, "ghost use ");
    let mut found = Vec::new();
    let mut heading = None;
    let mut lines = text.lines();
    while let Some(line) = lines.next() {
        if let Some(name) = function(line) {
            heading = wanted(line).then_some(name);
        }
        let promised = is_clause(line, "ensures");
        if let Some(name) = heading.filter(|_| promised || is_clause(line, "requires")) {
            let (name, text) = (name.to_string(), clause(line, &mut lines));
            found.push(Contract { name, promised, words: words(&text), text, imports: imports.clone() });
        }
    }
    found
}

/// `ensures { .. }`, `ensures name { .. }` or `ensures* { .. }`.
fn is_clause(line: &str, kind: &str) -> bool {
    line.trim_start().strip_prefix(kind).is_some_and(|rest| rest.starts_with([' ', '*']))
}

/// A clause of a contract, with the lines that it goes on in, up to the bracket that closes it.
fn clause<'a>(first: &str, lines: &mut impl Iterator<Item = &'a str>) -> String {
    let mut clause = first.trim().to_string();
    let count = |text: &str, bracket: char| text.matches(bracket).count();
    while count(&clause, '}') == 0 || count(&clause, '{') > count(&clause, '}') {
        let Some(line) = lines.next() else {
            break;
        };
        clause = format!("{clause} {}", line.trim());
    }
    clause
}

/// The function that a line is the heading of.
fn function(line: &str) -> Option<&str> {
    let begins = ["fn ", "pub fn ", "pub extern "].iter().any(|start| line.starts_with(start));
    let rest = begins.then(|| line.split_once("fn "))?.map(|(_, rest)| rest)?;
    rest.split(['(', '<']).next()
}

/// The theorems of a module of proofs that have a claim as their type: the lines that give a name one word as its type.
pub fn theorems(text: &str) -> Vec<Contract> {
    let imports = imports(text, "use ");
    let stated = text.lines().map(without_comment).filter(|line| line.starts_with("pub "));
    let claims = stated.filter_map(|line| Some((line, line.strip_prefix("pub ")?.split_once(" : ")?)));
    let claims = claims.filter(|(_, (_, claim))| !claim.contains(' '));
    let theorem = |(line, (name, claim)): (&str, (&str, &str))| Contract {
        name: name.to_string(),
        promised: true,
        words: words(claim),
        text: line.to_string(),
        imports: imports.clone(),
    };
    claims.map(theorem).collect()
}

/// The lines `pub held-.. : CLAIM` and `held-.. = THEOREM` of a module of proofs.
pub fn held(text: &str) -> Vec<Held> {
    let imports = imports(text, "use ");
    let mut found = Vec::new();
    for (stated, given) in text.lines().zip(text.lines().skip(1)) {
        let stated = stated.strip_prefix("pub ").and_then(|rest| rest.split_once(" : "));
        let (Some((name, claim)), Some((also, theorem))) = (stated, given.split_once(" = ")) else {
            continue;
        };
        let places = (imports.get(claim), imports.get(theorem));
        if let (true, (Some(claim), Some(theorem))) = (name == also, places) {
            found.push(Held { claim: claim.clone(), theorem: theorem.clone() });
        }
    }
    found
}

/// `use Rattle.std.specs.Prelude.{eqb, leb}` takes both from a library, `use Prim.Native.String as text` all of it, as `text`. What comes from
/// the modules of a crate here does not.
fn library(text: &str) -> BTreeSet<String> {
    let uses = text.lines().filter_map(|line| line.strip_prefix("use "));
    let is_of_crate = |rest: &str| rest.split_once(".{").and_then(|(path, _)| module_path(path)).is_some();
    let uses = uses.filter(|rest| !is_of_crate(rest));
    let names = uses.flat_map(|rest| match rest.split_once(".{") {
        Some((_, names)) => names.trim_end_matches(['}', ';']).split(',').collect(),
        None => vec![rest],
    });
    names.map(|name| name.rsplit(" as ").next().unwrap_or(name).trim().to_string()).collect()
}

/// The name that a line declares.
fn declared(line: &str) -> Option<&str> {
    let rest =
        ["unfoldable ", "abbrev "].iter().fold(line, |rest, word| rest.strip_prefix(word).unwrap_or(rest));
    let rest = rest.strip_prefix("pub ")?;
    let rest = ["data ", "record "].iter().fold(rest, |rest, word| rest.strip_prefix(word).unwrap_or(rest));
    rest.split(' ').next()
}

/// Constructors are set in and given their type, several of one type on a line; a field of a record has `pub` before it.
fn constructors(line: &str) -> Vec<String> {
    let set_in = line.strip_prefix("  ").filter(|rest| !rest.starts_with(' ') && !rest.starts_with("pub "));
    let names = set_in.and_then(|rest| rest.split_once(" : ")).map(|(names, _)| names);
    names.into_iter().flat_map(|names| names.split(' ')).map(str::to_string).collect()
}

fn without_comment(line: &str) -> &str {
    if line.starts_with("--") {
        return "";
    }
    line.find(" --").map_or(line, |at| &line[..at]).trim_end()
}

fn words(line: &str) -> BTreeSet<String> {
    let apart = |character: char| character.is_whitespace() || "(){}[],;.".contains(character);
    line.split(apart).filter(|word| !word.is_empty()).map(str::to_string).collect()
}

/// `use Rattle.file.specs.Rules.Bytes.{part, number_of as number}`: what each name stands for.
fn imports(text: &str, start: &str) -> BTreeMap<String, Place> {
    let mut imports = BTreeMap::new();
    for line in text.lines() {
        let Some((path, names)) = line.strip_prefix(start).and_then(|rest| rest.split_once(".{")) else {
            continue;
        };
        let Some(module) = module_path(path) else {
            continue;
        };
        for name in names.trim_end_matches(['}', ';']).split(',').map(str::trim) {
            let (there, here) = name.split_once(" as ").unwrap_or((name, name));
            // `Type.constructor` is that constructor
            let there = there.rsplit('.').next().unwrap_or(there);
            imports.insert(here.to_string(), (module.clone(), there.to_string()));
        }
    }
    imports
}

/// `Rattle.file.specs.Rules.Bytes` is `file/Rules/Bytes`, `Rattle.file.proofs.Bytes` is `file/proofs/Bytes`. A library's modules of definitions,
/// as `Rattle.std.specs.Prelude`, stand in none of the folders.
fn module_path(path: &str) -> Option<String> {
    let (crate_name, rest) = path.strip_prefix("Rattle.")?.split_once('.')?;
    let inside = |inside: &str| inside.replace('.', "/");
    match rest.strip_prefix("specs.") {
        Some(rest) => Some(format!("{crate_name}/{}", inside(rest))).filter(|path| Folder::of(path).is_some()),
        None => Some(format!("{crate_name}/proofs/{}", inside(rest.strip_prefix("proofs.")?))),
    }
}
