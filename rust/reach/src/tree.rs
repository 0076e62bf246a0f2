//! Finding the sources below a folder of crates, each in the order of its path.

use crate::source::{self, Contract, Module};
use crate::Folder;
use std::collections::BTreeMap;
use std::fs;
use std::io;
use std::path::{Path, PathBuf};

/// All modules of definitions, by their paths.
pub fn modules(crates: &Path) -> io::Result<BTreeMap<String, Module>> {
    let mut modules = BTreeMap::new();
    for (name, folder) in folders(crates)? {
        for kind in Folder::ALL {
            for path in files(&folder.join("specs").join(kind.name()), "antt")? {
                let inside = path.strip_prefix(folder.join("specs")).unwrap_or(&path).with_extension("");
                let module = source::module(&fs::read_to_string(&path)?);
                modules.insert(format!("{name}/{}", inside.display()), module);
            }
        }
    }
    Ok(modules)
}

/// The theorems of all crates that have a claim as their type.
pub fn theorems(crates: &Path) -> io::Result<Vec<Contract>> {
    let mut found = Vec::new();
    for (_, folder) in folders(crates)? {
        for path in files(&folder.join("proofs"), "antt")? {
            found.extend(source::theorems(&fs::read_to_string(&path)?));
        }
    }
    Ok(found)
}

/// The crates: their names and folders.
pub fn folders(crates: &Path) -> io::Result<Vec<(String, PathBuf)>> {
    let entries: io::Result<Vec<_>> = fs::read_dir(crates)?.collect();
    let mut folders: Vec<(String, PathBuf)> = entries?
        .into_iter()
        .map(|entry| (entry.file_name().to_string_lossy().into_owned(), entry.path()))
        .collect();
    folders.sort();
    Ok(folders)
}

/// The files of an ending in a folder and in those in it; none where there is no such folder.
pub fn files(folder: &Path, ending: &str) -> io::Result<Vec<PathBuf>> {
    let mut found = Vec::new();
    if !folder.is_dir() {
        return Ok(found);
    }
    for entry in fs::read_dir(folder)? {
        let path = entry?.path();
        if path.is_dir() {
            found.extend(files(&path, ending)?);
        } else if path.extension().is_some_and(|extension| extension == ending) {
            found.push(path);
        }
    }
    found.sort();
    Ok(found)
}
