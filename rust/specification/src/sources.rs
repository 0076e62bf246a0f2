//! What the crates have: definitions and claims, the theorem of each claim, and the functions with what they promise.

use reach::source::{contracts, held, Contract, Definition, Held};
use reach::tree::{files, folders, modules};
use reach::{Folder, Place, Specs};
use std::collections::{BTreeMap, BTreeSet};
use std::fs;
use std::io;
use std::path::Path;

/// A function, with its contract.
pub struct Function {
    /// As `cluster/src/round` and `round`.
    pub place: Place,
    /// The lines `requires` and `ensures`.
    pub contract: Vec<String>,
    /// The definitions that one of its equations has alone on its right: what it computes.
    pub computes: BTreeSet<Place>,
}

/// The sources of all crates.
pub struct Sources {
    pub specs: Specs,
    /// The theorem of each claim, as `cluster/proofs/Sleep` and `data-wakes`.
    pub theorems: BTreeMap<Place, Place>,
    pub functions: Vec<Function>,
}

impl Sources {
    pub fn new(specs: Specs, held: Vec<Held>, programs: Vec<(String, Vec<Contract>)>) -> Sources {
        let theorems = held.into_iter().map(|held| (held.claim, held.theorem)).collect();
        let mut functions: Vec<Function> = Vec::new();
        for (path, contract) in programs.iter().flat_map(|(path, all)| all.iter().map(move |one| (path, one))) {
            let place = (path.clone(), contract.name.clone());
            if functions.last().is_none_or(|function| function.place != place) {
                functions.push(Function { place, contract: Vec::new(), computes: BTreeSet::new() });
            }
            if let Some(function) = functions.last_mut() {
                function.contract.push(contract.text.clone());
                function.computes.extend(computed(&specs, contract));
            }
        }
        Sources { specs, theorems, functions }
    }

    /// All crates below a folder.
    pub fn read(crates: &Path) -> io::Result<Sources> {
        let (mut claimed, mut programs) = (Vec::new(), Vec::new());
        for (name, folder) in folders(crates)? {
            if let Ok(text) = fs::read_to_string(folder.join("proofs/Claimed.antt")) {
                claimed.extend(held(&text));
            }
            // a crate without definitions has test programs or callers
            let has_specs = folder.join("specs").is_dir();
            for path in files(&folder.join("src"), "rt")?.iter().filter(|_| has_specs) {
                let inside = path.strip_prefix(&folder).unwrap_or(path).with_extension("");
                let contracts = contracts(&fs::read_to_string(path)?, |_| true);
                programs.push((format!("{name}/{}", inside.display()), contracts));
            }
        }
        Ok(Sources::new(Specs::new(modules(crates)?), claimed, programs))
    }

    /// The definition of a name, which may be a constructor or a field of it.
    pub fn definition(&self, (path, name): &Place) -> Option<&Definition> {
        let definitions = &self.specs.modules().get(path)?.definitions;
        let by_name = definitions.iter().find(|definition| definition.name == *name);
        let field = format!("  pub {name} ");
        let has = |definition: &&Definition| {
            definition.constructors.contains(name)
                || definition.text.iter().any(|line| line.starts_with(&field))
        };
        by_name.or_else(|| definitions.iter().find(has))
    }

    /// A claim: a statement that stands for itself, and so needs a theorem. A record without parameters is one unless another
    /// definition speaks of it, which makes it data.
    pub fn is_claim(&self, place: &Place) -> bool {
        if self.theorems.contains_key(place) {
            return true;
        }
        let own = self.definition(place).filter(|_| Folder::of(&place.0) == Some(Folder::Claims));
        let first = own.and_then(|definition| definition.text.iter().find(|line| !line.starts_with("--")));
        let Some(first) = first else {
            return false;
        };
        let is_record = *first == format!("pub record {} : Type 0 where", place.1);
        *first == format!("abbrev pub {} : Type 0", place.1) || (is_record && !self.is_named(place))
    }

    /// Whether another definition names it.
    fn is_named(&self, place: &Place) -> bool {
        self.all(Folder::Claims)
            .iter()
            .any(|other| other != place && self.specs.named_by(other).contains(place))
    }

    /// The definitions of a folder of all crates.
    pub fn all(&self, folder: Folder) -> Vec<Place> {
        let modules = self.specs.modules().iter().filter(|(path, _)| Folder::of(path) == Some(folder));
        modules
            .flat_map(|(path, module)| module.definitions.iter().map(|d| (path.clone(), d.name.clone())))
            .collect()
    }

    /// The functions that compute a definition.
    pub fn computing(&self, place: &Place) -> Vec<&Function> {
        self.functions.iter().filter(|function| function.computes.contains(place)).collect()
    }

    /// Of what a claim speaks of what functions compute, without what another one of it is made of.
    pub fn computed_of(&self, claim: &Place) -> BTreeSet<Place> {
        let spoken_of = self.spoken_of(claim).into_iter();
        let computed: BTreeSet<Place> = spoken_of.filter(|place| !self.computing(place).is_empty()).collect();
        let parts = |place: &Place| {
            let mut reached = self.specs.reached(vec![place.clone()]);
            reached.remove(place);
            reached
        };
        let inner: BTreeSet<Place> = computed.iter().flat_map(parts).collect();
        computed.difference(&inner).cloned().collect()
    }

    /// What a claim speaks of: the rules that it names, itself or through other definitions of claims.
    fn spoken_of(&self, claim: &Place) -> BTreeSet<Place> {
        let (mut waiting, mut seen, mut rules) = (vec![claim.clone()], BTreeSet::new(), BTreeSet::new());
        while let Some(place) = waiting.pop() {
            if !seen.insert(place.clone()) {
                continue;
            }
            for named in self.specs.named_by(&place) {
                match Folder::of(&named.0) {
                    Some(Folder::Claims) => waiting.push(named),
                    _ => drop(rules.insert(named)),
                }
            }
        }
        rules
    }
}

/// Of `ensures { result ≡ the_call file.now }` the definition that `the_call` stands for, if it is of what was lent.
fn computed(specs: &Specs, contract: &Contract) -> Vec<Place> {
    // a constructor only puts together what was lent
    let rule = |word: &str| {
        let there = contract.imports.get(word)?;
        specs.defined(there).filter(|(path, name)| Folder::of(path) == Some(Folder::Rules) && *name == there.1)
    };
    let promised = if contract.promised { &contract.text[..] } else { "" };
    let promised = promised.strip_suffix('}').unwrap_or(promised);
    let sides = promised.split("≡ ").skip(1).map(|right| right.split('×').next().unwrap_or(right).trim());
    let heads = sides.filter_map(|side| head_of_lent(side, |word| rule(word).is_some()));
    heads.filter_map(rule).cloned().collect()
}

/// The first word of an equation's right side, if any other rule there is of lent memory itself, as in `decode file.now`, and if the side is
/// no part of what its first word gives, as `(decode file.now).epoch` is.
fn head_of_lent(side: &str, is_rule: impl Fn(&str) -> bool) -> Option<&str> {
    let words: Vec<&str> = side.split([' ', '(', ')']).filter(|word| !word.is_empty()).collect();
    let is_part = side.starts_with('(') && side.rsplit(')').next().is_some_and(|end| end.starts_with('.'));
    let others = words.iter().zip(words.iter().skip(1).chain([&""])).skip(1);
    let is_lent = |word: &str| [".now", ".old", ".new"].iter().any(|end| word.ends_with(end));
    let is_of_lent = others.filter(|(word, _)| is_rule(word)).all(|(_, next)| is_lent(next));
    words.first().filter(|_| is_of_lent && !is_part).copied()
}
