//! `reach CRATES CLAIMS`: counts what a reader has to believe, and fails where a definition of Rules or Claims is reached by
//! nothing, where a C call's contract reaches one of Inner, where the rules have grown beyond their limit, or where the document of
//! claims does not have the figures.
//!
//! The last line is `N passed, M failed`; the status is 1 if something failed.

use reach::source::contracts;
use reach::tree::{modules, theorems};
use reach::{too_many, within, Folder, Place, Specs};
use std::collections::{BTreeMap, BTreeSet};
use std::fs;
use std::io;
use std::path::Path;
use std::process::ExitCode;

fn main() -> ExitCode {
    let arguments: Vec<String> = std::env::args().skip(1).collect();
    let [crates, claims] = &arguments[..] else {
        eprintln!("usage: reach CRATES CLAIMS");
        return ExitCode::from(2);
    };
    match wrong(Path::new(crates), Path::new(claims)) {
        Ok(wrong) => {
            wrong.iter().for_each(|what| println!("failed: {what}"));
            println!("{} passed, {} failed", u8::from(wrong.is_empty()), wrong.len());
            ExitCode::from(u8::from(!wrong.is_empty()))
        }
        Err(error) => {
            eprintln!("{error}");
            ExitCode::from(2)
        }
    }
}

fn wrong(crates: &Path, claims: &Path) -> io::Result<Vec<String>> {
    let specs = Specs::new(modules(crates)?);
    let calls = specs
        .from_contracts(&contracts(&fs::read_to_string(crates.join("ttpa_c/src/lib.rt"))?, |heading| {
            heading.contains("extern \"C\"")
        }));
    let listing = fs::read_to_string(crates.join("listing_text/src/run.rt"))?;
    let listing = specs.from_contracts(&contracts(&listing, |heading| heading.starts_with("pub fn list(")));
    let claimed = specs.from_claims(&theorems(crates)?);
    let every: BTreeSet<Place> = calls.iter().chain(&listing).chain(&claimed).cloned().collect();
    let mut wrong = Vec::new();
    for folder in [Folder::Rules, Folder::Claims] {
        let unreached = specs.unreached(folder, &every);
        wrong.extend(unreached.iter().map(|(path, name)| format!("nothing reaches {path} {name}")));
    }
    wrong.extend(
        within(Folder::Inner, &calls).iter().map(|(path, name)| format!("a C call reaches {path} {name}")),
    );
    wrong.extend(specs.lost().iter().map(|(module, (path, name))| format!("{module}: no {name} in {path}")));
    wrong.extend(too_many(specs.size(Folder::Rules, &every)));
    let document = fs::read_to_string(claims)?;
    let mut rows = vec![
        ("the C calls".to_string(), calls),
        ("the listing".to_string(), listing),
        ("the claims".to_string(), claimed),
        ("all".to_string(), every.clone()),
    ];
    rows.extend(by_crate(&every));
    for (from, reached) in &rows {
        let sizes = Folder::ALL.map(|folder| specs.size(folder, reached));
        let figures = sizes.map(|size| format!("{} in {}", size.definitions, size.lines)).join(" | ");
        let row = format!("| {from} | {figures} |");
        println!("{row}");
        if !document.lines().any(|line| line == row) {
            wrong.push(format!("not in {}: {row}", claims.display()));
        }
    }
    Ok(wrong)
}

/// The definitions reached, apart by crate.
fn by_crate(every: &BTreeSet<Place>) -> Vec<(String, BTreeSet<Place>)> {
    let mut apart: BTreeMap<String, BTreeSet<Place>> = BTreeMap::new();
    for place in every {
        let name = place.0.split('/').next().unwrap_or(&place.0);
        apart.entry(format!("`{name}`")).or_default().insert(place.clone());
    }
    apart.into_iter().collect()
}
