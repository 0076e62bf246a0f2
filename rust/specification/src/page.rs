//! The page itself.

use crate::arranged::{arranged, Chapter};
use crate::cited::Cited;
use crate::markdown::{grouped, heading, mark, plain, prose, to_claim, to_file, to_module, to_specs};
use crate::order::Order;
use crate::sentences::{Entry, Section};
use crate::sources::Sources;
use reach::{Folder, Place};
use std::collections::{BTreeMap, BTreeSet};

/// How a comment begins that heads several definitions.
const HEADING: &str = "-- ---- ";

/// The page, or what has no place on it.
pub fn page(order: &Order, sections: &[Section], sources: &Sources) -> Result<String, Vec<String>> {
    let chapters = arranged(order, sections, sources)?;
    let mut page = Page { sources, places: places(sources), shown: BTreeSet::new(), text: String::new() };
    page.beginning(order, &chapters);
    for (index, chapter) in chapters.iter().enumerate() {
        page.chapter(index + 1, chapter);
    }
    page.index();
    Ok(page.text)
}

/// The modules in which each name of the page is defined.
fn places(sources: &Sources) -> BTreeMap<String, BTreeSet<String>> {
    let mut places: BTreeMap<String, BTreeSet<String>> = BTreeMap::new();
    for (path, name) in [Folder::Rules, Folder::Claims].into_iter().flat_map(|folder| sources.all(folder)) {
        places.entry(name).or_default().insert(path);
    }
    places
}

struct Page<'a> {
    sources: &'a Sources,
    places: BTreeMap<String, BTreeSet<String>>,
    /// The modules that stand on it already.
    shown: BTreeSet<String>,
    text: String,
}

impl Page<'_> {
    /// A paragraph, a heading or a block; none where it is empty.
    fn put(&mut self, paragraph: &str) {
        if !paragraph.is_empty() {
            self.text.push_str(paragraph);
            self.text.push_str("\n\n");
        }
    }

    fn beginning(&mut self, order: &Order, chapters: &[Chapter]) {
        self.put("# Specification");
        order.text.iter().for_each(|paragraph| self.put(paragraph));
        let counted = |folder| self.sources.all(folder).len();
        let (rules, claims) = (counted(Folder::Rules), counted(Folder::Claims));
        let proved = self.sources.theorems.len();
        self.put(&format!(
            "There are {rules} definitions of rules and {claims} of claims; {proved} of these are claims with a theorem."
        ));
        let parts = chapters.iter().enumerate();
        let parts: Vec<String> = parts.map(|(index, chapter)| self.content(index + 1, chapter)).collect();
        self.put(&parts.join("\n"));
        self.put("[Index of names](#index)");
        self.put("## Words of the libraries");
        let words = order.words.iter().map(|(word, meaning)| format!("| `{word}` | {meaning} |\n"));
        let table = format!("| word | meaning |\n|---|---|\n{}", words.collect::<String>());
        self.put(table.trim_end());
    }

    /// The line of a part in the list of contents.
    fn content(&self, number: usize, chapter: &Chapter) -> String {
        let sentences: usize = chapter
            .sections
            .iter()
            .flat_map(|section| &section.entries)
            .map(|entry| entry.sentences.len())
            .sum();
        let modules = chapter.rules.iter().chain(&chapter.claims);
        let definitions: usize =
            modules.map(|path| self.sources.specs.modules()[*path].definitions.len()).sum();
        let of_part = |(path, _): &&Place| chapter.claims.contains(&&path[..]);
        let claims = self.sources.theorems.keys().filter(of_part).count();
        let counts = format!("{sentences} sentences, {} definitions, {claims} claims", definitions - claims);
        format!("{number}. [{}](#part-{number}): {counts}", chapter.part.title)
    }

    fn chapter(&mut self, number: usize, chapter: &Chapter) {
        self.put(&heading("##", &format!("part-{number}"), &format!("{number}. {}", chapter.part.title)));
        chapter.part.text.iter().for_each(|paragraph| self.put(paragraph));
        for section in &chapter.sections {
            self.section(section);
        }
        for path in chapter.rules.iter().chain(&chapter.claims) {
            self.module(path);
        }
    }

    fn section(&mut self, section: &Section) {
        let title = section.title.rsplit(" / ").next().unwrap_or(&section.title);
        if !section.entries.is_empty() {
            self.put(&format!("### Sentences: {title}"));
        }
        section.text.iter().for_each(|paragraph| self.put(paragraph));
        section.entries.iter().for_each(|entry| self.entry(entry));
    }

    /// Sentences, and where they are defined and held; where nothing is, what the page of claims says of them.
    fn entry(&mut self, entry: &Entry) {
        let quoted = entry.sentences.iter().map(|sentence| format!("> {sentence}"));
        self.put(&quoted.collect::<Vec<_>>().join("\n>\n"));
        self.put(&entry.remark);
        let cited = Cited::new(&entry.cited, self.sources);
        let claims: Vec<String> = cited.claimed.iter().map(|claim| self.claim(claim)).collect();
        let lines = [
            ("Defined", grouped(&cited.defined, |path| self.to_definitions(path))),
            ("Claimed", claims.join(", ")),
            ("Code", grouped(&cited.code, to_file)),
        ];
        let found: Vec<String> = lines
            .into_iter()
            .filter(|(_, what)| !what.is_empty())
            .map(|(sort, what)| format!("- {sort}: {what}"))
            .collect();
        let answers = entry.answers.iter().map(|answer| format!("- {answer}")).collect();
        let lines: Vec<String> = if found.is_empty() { answers } else { found };
        self.put(&lines.join("\n"));
    }

    /// A claim by its name, and by its crate too where several have that name.
    fn claim(&self, claim: &Place) -> String {
        let crate_name = claim.0.split('/').next().unwrap_or(&claim.0);
        let is_clear = self.places.get(&claim.1).is_none_or(|modules| modules.len() == 1);
        let of_crate = if is_clear { String::new() } else { format!(" of {crate_name}") };
        to_claim(claim, &format!("`{}`{of_crate}", claim.1))
    }

    /// A module of the page, or else the file that has it.
    fn to_definitions(&self, path: &str) -> String {
        if Folder::of(path) == Some(Folder::Inner) {
            to_specs(path)
        } else {
            to_module(path)
        }
    }

    fn module(&mut self, path: &str) {
        let sources = self.sources;
        let module = &sources.specs.modules()[path];
        self.put(&heading("###", &mark(path), &to_specs(path)));
        self.put(&prose(&module.heading));
        self.put(&self.meant(path));
        self.shown.insert(path.to_string());
        let mut block = Block::default();
        for definition in &module.definitions {
            let place = (path.to_string(), definition.name.clone());
            block = self.lines(block, &definition.text);
            block.defined.push(place.clone());
            if sources.theorems.contains_key(&place) {
                self.block(std::mem::take(&mut block), Some(&place));
            }
        }
        self.block(block, None);
    }

    /// Puts the lines of a definition into a block. A heading among them, with the comment that goes on with it, begins a new one.
    fn lines(&mut self, mut block: Block, text: &[String]) -> Block {
        let mut lines = text.iter().peekable();
        while let Some(line) = lines.next() {
            let Some(heading) = line.strip_prefix(HEADING) else {
                block.lines.push(plain(line));
                continue;
            };
            let mut heading = vec![heading.to_string()];
            while let Some(more) = lines.next_if(|line| line.starts_with("--") && !line.starts_with(HEADING)) {
                heading.push(more.clone());
            }
            self.block(std::mem::take(&mut block), None);
            self.put(&format!("**{}**", prose(&heading)));
        }
        block.lines.push(String::new());
        block
    }

    /// Which definition a name means that several modules have so far, or that has another name where it is defined.
    fn meant(&self, path: &str) -> String {
        let shown = |module: &&String| self.shown.contains(*module);
        let imports = &self.sources.specs.modules()[path].imports;
        let (mut same, mut renamed) = (BTreeSet::new(), Vec::new());
        for (here, place) in imports {
            let places = self.places.get(&place.1);
            if *here == place.1 && places.is_some_and(|modules| modules.iter().filter(shown).count() > 1) {
                same.insert(place);
            } else if *here != place.1 && !here.ends_with(&format!(".{}", place.1)) {
                renamed.push(format!("`{here}` is `{}` in {}", place.1, to_module(&place.0)));
            }
        }
        let said = [grouped(same, to_module)].into_iter().chain(renamed).filter(|text| !text.is_empty());
        let said: Vec<String> = said.collect();
        if said.is_empty() {
            String::new()
        } else {
            format!("Meant here: {}.", said.join("; "))
        }
    }

    /// Definitions, the last of which may be a claim, and what the code has to do with them.
    fn block(&mut self, block: Block, claim: Option<&Place>) {
        let text = block.lines.join("\n");
        if text.trim().is_empty() {
            return;
        }
        if let Some((path, name)) = claim {
            self.put(&heading("####", &format!("{}-{name}", mark(path)), name));
        }
        self.put(&format!("```\n{}\n```", text.trim_matches('\n')));
        match claim {
            Some(claim) => self.put(&self.theorem(claim)),
            None => self.put(&self.computed(&block.defined)),
        }
    }

    fn theorem(&self, claim: &Place) -> String {
        let (path, name) = &self.sources.theorems[claim];
        let code = self.code_of(&self.sources.computed_of(claim));
        let code = if code.is_empty() { code } else { format!(" Code: {code}.") };
        format!("Theorem `{name}` in {}.{code}", to_file(path))
    }

    /// The functions whose contracts are equations with definitions.
    fn code_of<'a>(&self, definitions: impl IntoIterator<Item = &'a Place>) -> String {
        let functions = definitions.into_iter().flat_map(|place| self.sources.computing(place));
        let places: BTreeSet<&Place> = functions.map(|function| &function.place).collect();
        grouped(places, to_file)
    }

    fn computed(&self, defined: &[Place]) -> String {
        let computed = defined.iter().map(|place| (place, self.code_of([place])));
        let lines = computed.filter(|(_, code)| !code.is_empty());
        lines
            .map(|((_, name), code)| format!("- `{name}` is computed by {code}"))
            .collect::<Vec<_>>()
            .join("\n")
    }

    fn index(&mut self) {
        self.put(&heading("##", "index", "Index of names"));
        let names = self.places.iter().map(|(name, modules)| {
            let links: Vec<String> = modules.iter().map(|path| self.to_name(path, name)).collect();
            format!("`{name}` {}", links.join(", "))
        });
        let names = names.collect::<Vec<_>>().join(" ·\n");
        self.text.push_str(&names);
        self.text.push('\n');
    }

    fn to_name(&self, path: &str, name: &str) -> String {
        let place = (path.to_string(), name.to_string());
        if self.sources.theorems.contains_key(&place) {
            to_claim(&place, path)
        } else {
            to_module(path)
        }
    }
}

/// Lines of the sources, and the definitions in them.
#[derive(Default)]
struct Block {
    lines: Vec<String>,
    defined: Vec<Place>,
}
