//! Which definitions of `crates/*/specs` a reader has to believe: those that can be reached, through what each one names and the
//! imports of its module, from the contracts of the C calls, from that of the listing, and from the claims that a theorem has.
//!
//! A definition is told by its module, as `file/Rules/Bytes`, and its name. It begins with a line of its own that names it and goes on
//! to the next such line; comments, imports and empty lines belong to none.

pub mod source;
pub mod tree;

use source::{Contract, Module};
use std::collections::{BTreeMap, BTreeSet};

/// A line that is longer counts as several.
pub const LINE_CHARACTERS: usize = 130;

/// The rules of document 01 and of all fourteen requests have fewer lines than this; the claims have no limit.
pub const RULES_LIMIT: usize = 1800;

/// Where a definition stands, and its name.
pub type Place = (String, String);

/// What may be found in a module's folder.
#[derive(Clone, Copy, Debug, PartialEq, Eq, PartialOrd, Ord)]
pub enum Folder {
    Rules,
    Claims,
    Inner,
}

impl Folder {
    pub const ALL: [Folder; 3] = [Folder::Rules, Folder::Claims, Folder::Inner];

    pub fn name(self) -> &'static str {
        match self {
            Folder::Rules => "Rules",
            Folder::Claims => "Claims",
            Folder::Inner => "Inner",
        }
    }

    pub fn of(module: &str) -> Option<Folder> {
        let folder = module.split('/').nth(1)?;
        Folder::ALL.into_iter().find(|known| known.name() == folder)
    }
}

/// Definitions and their lines.
#[derive(Clone, Copy, Debug, Default, PartialEq, Eq)]
pub struct Size {
    pub definitions: usize,
    pub lines: usize,
}

/// All modules, with the way from a name in one of them to its definition.
pub struct Specs {
    modules: BTreeMap<String, Module>,
    /// A constructor is reached with its type, so its name leads there.
    places: BTreeMap<Place, Place>,
}

impl Specs {
    pub fn new(modules: BTreeMap<String, Module>) -> Specs {
        let mut places = BTreeMap::new();
        for (path, module) in &modules {
            for definition in &module.definitions {
                let place = (path.clone(), definition.name.clone());
                places.insert(place.clone(), place.clone());
                for constructor in &definition.constructors {
                    places.insert((path.clone(), constructor.clone()), place.clone());
                }
            }
        }
        Specs { modules, places }
    }

    pub fn modules(&self) -> &BTreeMap<String, Module> {
        &self.modules
    }

    /// The definitions that words stand for, by imports and by the module itself.
    fn named<'a>(
        &'a self,
        words: &'a BTreeSet<String>,
        imports: &'a BTreeMap<String, Place>,
        own: Option<&'a str>,
    ) -> impl Iterator<Item = &'a Place> {
        words.iter().filter_map(move |word| {
            let here = own.and_then(|module| self.places.get(&(module.to_string(), word.clone())));
            here.or_else(|| imports.get(word).and_then(|place| self.defined(place)))
        })
    }

    /// The definitions that one names.
    pub fn named_by(&self, (path, name): &Place) -> BTreeSet<Place> {
        let Some(module) = self.modules.get(path) else {
            return BTreeSet::new();
        };
        let definitions = module.definitions.iter().filter(|definition| definition.name == *name);
        definitions
            .flat_map(|definition| self.named(&definition.words, &module.imports, Some(path)))
            .cloned()
            .collect()
    }

    /// Where an imported name is defined: in the module named, or in one whose definition that hands on.
    pub fn defined<'a>(&'a self, place: &'a Place) -> Option<&'a Place> {
        self.places.get(place).or_else(|| self.defined(self.modules.get(&place.0)?.handed_on.get(&place.1)?))
    }

    /// Everything that can be reached from contracts.
    pub fn from_contracts(&self, contracts: &[Contract]) -> BTreeSet<Place> {
        let roots = contracts.iter().flat_map(|contract| self.named(&contract.words, &contract.imports, None));
        self.reached(roots.cloned().collect())
    }

    /// Everything that can be reached from the claims that theorems are about.
    pub fn from_claims(&self, theorems: &[Contract]) -> BTreeSet<Place> {
        let named = theorems.iter().flat_map(|theorem| self.named(&theorem.words, &theorem.imports, None));
        self.reached(named.filter(|(module, _)| Folder::of(module) == Some(Folder::Claims)).cloned().collect())
    }

    /// Everything that can be reached from definitions, and these.
    pub fn reached(&self, mut waiting: Vec<Place>) -> BTreeSet<Place> {
        let mut reached = BTreeSet::new();
        while let Some(place) = waiting.pop() {
            if reached.insert(place.clone()) {
                waiting.extend(self.named_by(&place));
            }
        }
        reached
    }

    /// Names that a module takes from another one of these which does not have them.
    pub fn lost(&self) -> Vec<(&str, &Place)> {
        let all = self
            .modules
            .iter()
            .flat_map(|(path, module)| module.imports.values().map(move |place| (&path[..], place)));
        all.filter(|(_, place)| self.modules.contains_key(&place.0) && self.defined(place).is_none()).collect()
    }

    /// The definitions of a folder that are not among those reached.
    pub fn unreached(&self, folder: Folder, reached: &BTreeSet<Place>) -> Vec<Place> {
        let all = self.modules.iter().filter(|(path, _)| Folder::of(path) == Some(folder));
        all.flat_map(|(path, module)| module.definitions.iter().map(|d| (path.clone(), d.name.clone())))
            .filter(|place| !reached.contains(place))
            .collect()
    }

    /// How much of a folder was reached.
    pub fn size(&self, folder: Folder, reached: &BTreeSet<Place>) -> Size {
        let mut size = Size::default();
        for (path, name) in reached.iter().filter(|(path, _)| Folder::of(path) == Some(folder)) {
            size.definitions += 1;
            let named = self.modules[path].definitions.iter().filter(|definition| definition.name == *name);
            size.lines += named.map(|definition| definition.lines).sum::<usize>();
        }
        size
    }
}

/// What is wrong with rules of this size, if they have grown beyond their limit.
pub fn too_many(rules: Size) -> Option<String> {
    (rules.lines >= RULES_LIMIT)
        .then(|| format!("the rules have {} lines, not fewer than {RULES_LIMIT}", rules.lines))
}

/// Those of a folder among the definitions reached.
pub fn within(folder: Folder, reached: &BTreeSet<Place>) -> Vec<&Place> {
    reached.iter().filter(|(path, _)| Folder::of(path) == Some(folder)).collect()
}

#[cfg(test)]
mod tests {
    use super::source::{contracts, module, theorems};
    use super::*;

    fn specs(texts: &[(&str, &str)]) -> Specs {
        Specs::new(texts.iter().map(|&(path, text)| (path.to_string(), module(text))).collect())
    }

    const CALLS: &str = "ghost use Rattle.ttpa.specs.Rules.Calls.{call as the_call};\n\
        pub extern \"C\" fn ttpa_one(file: &[u8]) -> u8\n    ensures { result ≡ the_call file.now }\n{\n    other\n}\n";

    #[test]
    fn a_constructor_leads_to_its_type_and_an_import_to_its_module() {
        let specs = specs(&[
            ("ttpa/Rules/Calls", "use Rattle.file.specs.Rules.Sort.{good}\nunfoldable pub call : ℕ\ncall = good\n"),
            ("file/Rules/Sort", "-- a comment with alone in it\npub data Sort : Type 0 where\n  good : Sort\n\nabbrev pub alone : ℕ\nalone = 0\n"),
        ]);
        let reached = specs.from_contracts(&contracts(CALLS, |_| true));
        assert_eq!(specs.size(Folder::Rules, &reached), Size { definitions: 2, lines: 4 });
        assert_eq!(
            specs.unreached(Folder::Rules, &reached),
            [("file/Rules/Sort".to_string(), "alone".to_string())]
        );
    }

    #[test]
    fn constructors_on_one_line_lead_to_their_type() {
        let specs = specs(&[
            (
                "ttpa/Rules/Calls",
                "use Rattle.file.specs.Rules.Sort.{bad}\nunfoldable pub call : ℕ\ncall = bad\n",
            ),
            ("file/Rules/Sort", "pub data Sort : Type 0 where\n  good bad : Sort\n"),
        ]);
        let reached = specs.from_contracts(&contracts(CALLS, |_| true));
        assert_eq!(specs.size(Folder::Rules, &reached), Size { definitions: 2, lines: 4 });
    }

    #[test]
    fn a_definition_handed_on_is_found() {
        let specs = specs(&[
            (
                "ttpa/Rules/Calls",
                "use Rattle.frame.specs.Rules.Grounds.{ground}\nunfoldable pub call : ℕ\ncall = ground\n",
            ),
            ("frame/Rules/Grounds", "unfoldable pub use Rattle.file.specs.Rules.Cluster.{ground}\n"),
            ("file/Rules/Cluster", "unfoldable pub ground : ℕ\nground = 0\n"),
        ]);
        let reached = specs.from_contracts(&contracts(CALLS, |_| true));
        assert_eq!(specs.size(Folder::Rules, &reached), Size { definitions: 2, lines: 4 });
    }

    #[test]
    fn a_name_that_is_not_there_is_lost() {
        let specs = specs(&[
            (
                "ttpa/Rules/Calls",
                "use Rattle.file.specs.Rules.Cluster.{ground, gone}\nunfoldable pub call : ℕ\ncall = ground\n",
            ),
            ("file/Rules/Cluster", "unfoldable pub ground : ℕ\nground = 0\n"),
        ]);
        assert_eq!(
            specs.lost(),
            [("ttpa/Rules/Calls", &("file/Rules/Cluster".to_string(), "gone".to_string()))]
        );
    }

    #[test]
    fn an_inner_definition_under_a_call_is_seen() {
        let specs = specs(&[
            (
                "ttpa/Rules/Calls",
                "use Rattle.file.specs.Inner.Places.{place}\nunfoldable pub call : ℕ\ncall = place\n",
            ),
            ("file/Inner/Places", "unfoldable pub place : ℕ\nplace = 0\n"),
        ]);
        let reached = specs.from_contracts(&contracts(CALLS, |_| true));
        assert_eq!(within(Folder::Inner, &reached), [&("file/Inner/Places".to_string(), "place".to_string())]);
    }

    #[test]
    fn a_claim_counts_where_a_theorem_has_it() {
        let specs = specs(&[(
            "file/Claims/Exact",
            "abbrev pub Proved : Type 0\nProved = Unit\n\nabbrev pub Bare : Type 0\nBare = Unit\n",
        )]);
        let proofs = "use Rattle.file.specs.Claims.Exact.{Proved, Bare}\npub proved : Proved\nproved = Bare\n";
        let reached = specs.from_claims(&theorems(proofs));
        assert_eq!(
            specs.unreached(Folder::Claims, &reached),
            [("file/Claims/Exact".to_string(), "Bare".to_string())]
        );
    }

    #[test]
    fn a_long_line_counts_as_several() {
        let text = format!("unfoldable pub long : ℕ\nlong = {}\n", "9".repeat(2 * LINE_CHARACTERS));
        assert_eq!(module(&text).definitions[0].lines, 4);
    }
    #[test]
    fn rules_are_fewer_than_their_limit() {
        let of = |lines| Size { definitions: 1, lines };
        assert_eq!(too_many(of(RULES_LIMIT - 1)), None);
        assert_eq!(
            too_many(of(RULES_LIMIT)).as_deref(),
            Some("the rules have 1800 lines, not fewer than 1800")
        );
    }
}
