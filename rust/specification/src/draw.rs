//! Of a sentence of docs/CLAIMS.md its definitions, its claims with their theorems, and what the code promises.

use crate::cited::Cited;
use crate::markdown::plain;
use crate::order::Order;
use crate::sentences::{Entry, Section};
use crate::sources::{Function, Sources};
use reach::Place;
use std::collections::BTreeSet;

/// What was found of all sentences.
#[derive(Debug, Default)]
pub struct Told {
    pub lines: Vec<String>,
    pub passed: usize,
    pub wrong: Vec<String>,
}

/// A sentence, its paragraph, and its section.
struct Drawn<'a> {
    section: &'a Section,
    sentence: &'a str,
    entry: &'a Entry,
}

/// What there is of a sentence.
struct Found<'a> {
    definitions: Vec<Place>,
    claims: Vec<Place>,
    promises: Vec<&'a Function>,
    /// Where neither a claim nor a promise is cited for it or its section: claims that reach the definitions, with little besides.
    reaching: Vec<Place>,
}

/// How many definitions, claims and promises each sentence has; wrong are those without, the ones aside that need none.
pub fn all(order: &Order, sections: &[Section], sources: &Sources) -> Told {
    let reaches = Reaches::new(sources);
    let mut told = Told::default();
    let mut unused: BTreeSet<&String> = order.asides.iter().collect();
    for drawn in sentences(sections) {
        let found = Found::new(&drawn, sources, &reaches);
        let aside = order.asides.iter().find(|start| drawn.sentence.starts_with(&start[..]));
        unused.retain(|start| Some(*start) != aside);
        if found.is_held() && aside.is_none() {
            told.passed += 1;
            told.lines.push(format!("{}: {}", drawn.section.title, found.counted(drawn.sentence)));
        } else if !found.is_held() && (aside.is_some() || drawn.needs_none(order, sections)) {
            told.lines.push(format!(
                "{}: aside ({}): {}",
                drawn.section.title,
                drawn.entry.said(),
                drawn.sentence
            ));
        } else {
            let what = if found.is_held() { "aside, but defined" } else { "no definition or no theorem" };
            told.wrong.push(format!("{}: {what}: {}", drawn.section.title, drawn.sentence));
        }
    }
    told.wrong.extend(unused.iter().map(|start| format!("no sentence begins with: {start}")));
    told
}

/// So many sentences, chosen by the seed, each with the texts of its definitions, claims and promises.
pub fn drawn(sections: &[Section], sources: &Sources, number: usize, seed: u64) -> Vec<String> {
    let reaches = Reaches::new(sources);
    let mut left = sentences(sections);
    let mut state = seed;
    let mut lines = Vec::new();
    for _ in 0..number.min(left.len()) {
        let place = usize::try_from(next(&mut state) % left.len() as u64).unwrap_or(0);
        let drawn = left.swap_remove(place);
        lines.push(format!("==== {}\n\n\"{}\" {}\n", drawn.section.title, drawn.sentence, drawn.entry.remark));
        lines.extend(Found::new(&drawn, sources, &reaches).printed(sources));
        lines.extend(drawn.entry.answers.iter().filter(|answer| answer.starts_with("tested")).cloned());
        lines.push(String::new());
    }
    lines
}

/// The next of a sequence of numbers that looks random (splitmix64).
fn next(state: &mut u64) -> u64 {
    *state = state.wrapping_add(0x9E37_79B9_7F4A_7C15);
    let mixed = (*state ^ (*state >> 30)).wrapping_mul(0xBF58_476D_1CE4_E5B9);
    let mixed = (mixed ^ (mixed >> 27)).wrapping_mul(0x94D0_49BB_1331_11EB);
    mixed ^ (mixed >> 31)
}

fn sentences(sections: &[Section]) -> Vec<Drawn<'_>> {
    let entries = sections.iter().flat_map(|section| section.entries.iter().map(move |entry| (section, entry)));
    let all = entries.flat_map(|(section, entry)| {
        entry.sentences.iter().map(move |sentence| Drawn { section, sentence, entry })
    });
    all.collect()
}

impl Drawn<'_> {
    /// It is about the form of the code, or stands in another section, which has sentences.
    fn needs_none(&self, order: &Order, sections: &[Section]) -> bool {
        let refers =
            self.entry.referred().is_some_and(|title| sections.iter().any(|other| other.title == title));
        refers || order.forms.contains(&self.section.title)
    }
}

impl<'a> Found<'a> {
    fn new(drawn: &Drawn, sources: &'a Sources, reaches: &Reaches) -> Found<'a> {
        let mut cited = Cited::new(&drawn.entry.cited, sources);
        let definitions = cited.defined.iter().flat_map(|place| whole(place, sources));
        let definitions: Vec<Place> = definitions.filter(|place| sources.definition(place).is_some()).collect();
        let promised = |cited: &Cited| -> Vec<&'a Function> {
            sources.functions.iter().filter(|function| cited.code.contains(&function.place)).collect()
        };
        let mut promises = promised(&cited);
        if cited.claimed.is_empty() && promises.is_empty() && !definitions.is_empty() {
            cited = Cited::new(&drawn.section.cited, sources);
            promises = promised(&cited);
        }
        let mut found = Found { definitions, claims: cited.claimed, promises, reaching: Vec::new() };
        if found.claims.is_empty() && found.promises.is_empty() {
            found.reach(sources, reaches);
        }
        found
    }

    /// What computes the definitions, and the claims that are closest to them.
    fn reach(&mut self, sources: &'a Sources, reaches: &Reaches) {
        self.promises = self.definitions.iter().flat_map(|place| sources.computing(place)).collect();
        self.reaching = self.definitions.iter().filter_map(|place| reaches.closest(place)).collect();
        self.reaching.sort();
        self.reaching.dedup();
    }

    fn is_held(&self) -> bool {
        let is_said = !self.definitions.is_empty() || !self.claims.is_empty();
        is_said && !(self.claims.is_empty() && self.promises.is_empty() && self.reaching.is_empty())
    }

    fn counted(&self, sentence: &str) -> String {
        let held = self.claims.len() + self.reaching.len();
        format!(
            "{} definitions, {held} theorems, {} promises: {sentence}",
            self.definitions.len(),
            self.promises.len()
        )
    }

    fn printed(&self, sources: &Sources) -> Vec<String> {
        let mut lines = Vec::new();
        for place in &self.definitions {
            lines.push(format!("definition, crates/{}:\n", file_of(place)));
            lines.extend(text_of(place, sources));
        }
        for (sort, claims) in [("claim", &self.claims), ("claim that reaches it", &self.reaching)] {
            for claim in claims {
                lines.push(format!("{sort}, crates/{}:\n", file_of(claim)));
                lines.extend(text_of(claim, sources));
                let (path, name) = &sources.theorems[claim];
                lines.push(format!("theorem {name} : {}, crates/{path}.antt\n", claim.1));
            }
        }
        for function in &self.promises {
            lines.push(format!("promise of {}, crates/{}.rt:\n", function.place.1, function.place.0));
            lines.extend(function.contract.iter().map(|line| format!("    {line}")));
            lines.push(String::new());
        }
        lines
    }
}

/// A definition, or all of a module.
fn whole((path, name): &Place, sources: &Sources) -> Vec<Place> {
    let module = sources.specs.modules().get(path).filter(|_| name.is_empty());
    let all = module
        .map(|module| module.definitions.iter().map(|definition| (path.clone(), definition.name.clone())));
    all.map_or_else(|| vec![(path.clone(), name.clone())], Iterator::collect)
}

/// `file/Rules/Bytes` is `file/specs/Rules/Bytes.antt`.
fn file_of((path, _): &Place) -> String {
    format!("{}.antt", path.replacen('/', "/specs/", 1))
}

fn text_of(place: &Place, sources: &Sources) -> Vec<String> {
    let lines = sources.definition(place).into_iter().flat_map(|definition| &definition.text);
    lines.map(|line| format!("    {}", plain(line))).chain([String::new()]).collect()
}

/// What each claim with a theorem reaches.
struct Reaches(Vec<(BTreeSet<Place>, Place)>);

impl Reaches {
    fn new(sources: &Sources) -> Reaches {
        let claims = sources.theorems.keys();
        Reaches(claims.map(|claim| (sources.specs.reached(vec![claim.clone()]), claim.clone())).collect())
    }

    /// Of the claims that reach a definition the one that reaches the fewest.
    fn closest(&self, place: &Place) -> Option<Place> {
        let reaching = self.0.iter().filter(|(reached, _)| reached.contains(place));
        reaching.min_by_key(|(reached, _)| reached.len()).map(|(_, claim)| claim.clone())
    }
}
