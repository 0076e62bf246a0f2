//! Each folder of `samples` is one run of the program: `args` its arguments, words with blanks or lines between them, `in` its
//! standard input, `out`, `err` and `status` what must come of it. Its other files are put beside it, those ending in `.hex` as the
//! bytes that they tell; `after-NAME` is what file NAME must be afterwards.

mod common;

use common::{bytes_of_hex, here, program, ran, Folder};
use std::collections::BTreeMap;
use std::fs;
use std::path::Path;

const NEEDED: [&str; 5] = ["args", "in", "out", "err", "status"];
const AFTER: &str = "after-";
const HEX: &str = ".hex";
/// Subcommands that refuse nothing.
const NEVER_REFUSE: [&str; 1] = ["draw"];

/// A file's name and bytes.
type Part = (String, Vec<u8>);

fn parts_of(sample: &Path) -> Vec<Part> {
    let mut parts = Vec::new();
    for entry in fs::read_dir(sample).expect("a folder") {
        let path = entry.expect("a file").path();
        let name = path.file_name().and_then(|name| name.to_str()).expect("a name").to_string();
        let bytes = fs::read(&path).expect("a readable file");
        parts.push(match name.strip_suffix(HEX) {
            Some(name) => (name.to_string(), bytes_of_hex(&String::from_utf8_lossy(&bytes))),
            None => (name, bytes),
        });
    }
    parts
}

fn part<'a>(parts: &'a [Part], name: &str) -> Option<&'a [u8]> {
    parts.iter().find(|(other, _)| other == name).map(|(_, bytes)| bytes.as_slice())
}

fn text(parts: &[Part], name: &str) -> String {
    part(parts, name).map(|bytes| String::from_utf8_lossy(bytes).into_owned()).unwrap_or_default()
}

/// What is wrong with a sample, and its subcommand and status.
fn run(sample: &Path) -> (Vec<String>, (String, String)) {
    let parts = parts_of(sample);
    let mut wrong: Vec<String> = NEEDED
        .iter()
        .filter(|name| part(&parts, name).is_none())
        .map(|name| format!("no file {name}"))
        .collect();
    let arguments: Vec<String> = text(&parts, "args").split_whitespace().map(String::from).collect();
    let Some(subcommand) = arguments.first().cloned() else {
        wrong.push("args lists nothing".to_string());
        return (wrong, Default::default());
    };
    let folder =
        Folder::new(&format!("sample-{}", sample.file_name().and_then(|name| name.to_str()).unwrap_or("")));
    for (name, bytes) in &parts {
        if !NEEDED.contains(&name.as_str()) && !name.starts_with(AFTER) {
            fs::write(folder.join(name), bytes).expect("a file beside the program");
        }
    }
    let ran = ran(program().args(&arguments).current_dir(&folder.0), part(&parts, "in").unwrap_or_default());
    let status = ran.status.map_or("a signal".to_string(), |status| status.to_string());
    let came = [("out", &ran.output), ("err", &ran.messages), ("status", &format!("{status}\n"))];
    for (name, came) in came {
        if *came != text(&parts, name) {
            wrong.push(format!("{name} is\n{came}and must be\n{}", text(&parts, name)));
        }
    }
    for (name, bytes) in &parts {
        let Some(name) = name.strip_prefix(AFTER) else { continue };
        match fs::read(folder.join(name)) {
            Ok(after) if after == *bytes => {}
            Ok(after) => wrong.push(format!("{name} is {after:02X?} afterwards")),
            Err(error) => wrong.push(format!("{name} afterwards: {error}")),
        }
    }
    (wrong, (subcommand, status))
}

#[test]
fn each_sample_comes_out_as_written() {
    let mut failed = Vec::new();
    let mut seen: BTreeMap<(String, String), usize> = BTreeMap::new();
    for entry in fs::read_dir(here("tests/samples")).expect("the samples") {
        let sample = entry.expect("a sample").path();
        let (wrong, outcome) = run(&sample);
        failed.extend(wrong.into_iter().map(|wrong| format!("{}: {wrong}", sample.display())));
        *seen.entry(outcome).or_default() += 1;
    }
    for subcommand in program::subcommands::TABLE {
        for status in ["0", "1", "2"] {
            let never = status == "1" && NEVER_REFUSE.contains(&subcommand.name);
            if !never && !seen.contains_key(&(subcommand.name.to_string(), status.to_string())) {
                failed.push(format!("no sample of {} ends with status {status}", subcommand.name));
            }
        }
    }
    assert!(failed.is_empty(), "{}", failed.join("\n"));
    common::counted("samples", seen.values().sum());
}
