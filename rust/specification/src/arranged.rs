//! What stands where: each part with its sections and its modules, which come in the order of dependence.

use crate::order::{Order, Part};
use crate::sentences::Section;
use crate::sources::Sources;
use reach::source::Module;
use reach::Folder;
use std::collections::{BTreeMap, BTreeSet};

/// A part of the page.
pub struct Chapter<'a> {
    pub part: &'a Part,
    pub sections: Vec<&'a Section>,
    /// The modules of rules and then those of claims, each behind those that it takes names from.
    pub rules: Vec<&'a str>,
    pub claims: Vec<&'a str>,
}

/// All parts; or what has no place, or a wrong one.
pub fn arranged<'a>(
    order: &'a Order,
    sections: &'a [Section],
    sources: &Sources,
) -> Result<Vec<Chapter<'a>>, Vec<String>> {
    let modules = sources.specs.modules();
    let mut wrong = misplaced_modules(order, modules);
    wrong.extend(misplaced_sections(order, sections));
    wrong.extend(unexplained(order, modules));
    wrong.extend(without_theorem(sources));
    if wrong.is_empty() {
        let chapters: Vec<Chapter> = order.parts.iter().map(|part| chapter(part, sections, modules)).collect();
        wrong = used_before(&chapters, modules);
        if wrong.is_empty() {
            return Ok(chapters);
        }
    }
    Err(wrong)
}

fn chapter<'a>(part: &'a Part, sections: &'a [Section], modules: &BTreeMap<String, Module>) -> Chapter<'a> {
    let section = |title: &String| sections.iter().find(|section| section.title == *title);
    let of =
        |folder| part.modules.iter().map(|path| &path[..]).filter(move |path| Folder::of(path) == Some(folder));
    Chapter {
        part,
        sections: part.sections.iter().filter_map(section).collect(),
        rules: by_dependence(of(Folder::Rules).collect(), modules),
        claims: by_dependence(of(Folder::Claims).collect(), modules),
    }
}

/// The given order, but each module behind those of them that it takes names from.
fn by_dependence<'a>(mut left: Vec<&'a str>, modules: &BTreeMap<String, Module>) -> Vec<&'a str> {
    let mut done = Vec::new();
    while !left.is_empty() {
        let waits =
            |path: &&str| taken_from(modules, path).any(|other| other != *path && left.contains(&other));
        let next = left.iter().position(|path| !waits(path)).unwrap_or(0);
        done.push(left.remove(next));
    }
    done
}

/// The modules that one takes names from.
fn taken_from<'a>(modules: &'a BTreeMap<String, Module>, path: &str) -> impl Iterator<Item = &'a str> {
    let module = modules.get(path);
    module.into_iter().flat_map(|module| module.imports.values().map(|(from, _)| &from[..]))
}

fn misplaced_modules(order: &Order, modules: &BTreeMap<String, Module>) -> Vec<String> {
    let placed = order.parts.iter().flat_map(|part| &part.modules);
    let on_page = |path: &&String| matches!(Folder::of(path), Some(Folder::Rules | Folder::Claims));
    let all: BTreeSet<&String> = modules.keys().filter(on_page).collect();
    misplaced("module", placed, &all, &all)
}

fn misplaced_sections(order: &Order, sections: &[Section]) -> Vec<String> {
    let placed = order.parts.iter().flat_map(|part| &part.sections);
    let all = sections.iter().map(|section| &section.title).collect();
    let with_sentences = sections.iter().filter(|section| !section.entries.is_empty());
    misplaced("section", placed, &all, &with_sentences.map(|section| &section.title).collect())
}

/// What is placed is there, once; what needs a place has one.
fn misplaced<'a>(
    kind: &str,
    placed: impl Iterator<Item = &'a String>,
    all: &BTreeSet<&String>,
    needed: &BTreeSet<&String>,
) -> Vec<String> {
    let (mut seen, mut wrong) = (BTreeSet::new(), Vec::new());
    for name in placed {
        if !all.contains(name) {
            wrong.push(format!("the order has the {kind} {name}, which is not there"));
        }
        if !seen.insert(name) {
            wrong.push(format!("the order has the {kind} {name} twice"));
        }
    }
    let without = needed.iter().filter(|name| !seen.contains(*name));
    wrong.extend(without.map(|name| format!("no part of the order has the {kind} {name}")));
    wrong
}

/// Words of the libraries that the order does not explain, and explained ones that no module takes.
fn unexplained(order: &Order, modules: &BTreeMap<String, Module>) -> Vec<String> {
    let of_page = modules.iter().filter(|(path, _)| Folder::of(path) != Some(Folder::Inner));
    let taken: BTreeSet<&String> = of_page.flat_map(|(_, module)| &module.library).collect();
    let explained: Vec<&String> = order.words.iter().map(|(word, _)| word).collect();
    misplaced("word", explained.into_iter(), &taken, &taken)
}

fn without_theorem(sources: &Sources) -> Vec<String> {
    let claims = sources.all(Folder::Claims).into_iter();
    let bare = claims.filter(|place| sources.is_claim(place) && !sources.theorems.contains_key(place));
    let theorem = |(path, name): &(String, String)| format!("the claim {name} of {path} has no theorem");
    let mut wrong: Vec<String> = bare.map(|place| theorem(&place)).collect();
    let lost = sources.theorems.iter().filter(|(claim, _)| sources.specs.defined(claim).is_none());
    wrong.extend(
        lost.map(|((path, name), _)| format!("a theorem has the claim {name} of {path}, which is not there")),
    );
    wrong
}

/// Modules that take names from one that stands behind them, or on no page.
fn used_before(chapters: &[Chapter], modules: &BTreeMap<String, Module>) -> Vec<String> {
    let (mut seen, mut wrong) = (BTreeSet::new(), Vec::new());
    for path in chapters.iter().flat_map(|chapter| chapter.rules.iter().chain(&chapter.claims)) {
        let later: BTreeSet<&str> = taken_from(modules, path).filter(|from| !seen.contains(from)).collect();
        wrong.extend(later.iter().map(|from| format!("{path} uses {from}, which does not stand before it")));
        seen.insert(*path);
    }
    wrong
}
