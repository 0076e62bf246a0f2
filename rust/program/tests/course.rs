//! docs/COURSE.md as it stands: every command in an empty folder with the program alone, from the first to the last, and what it prints.

mod common;

use common::{counted, here, ran, Folder, Ran};
use std::fs;
use std::os::unix::fs::symlink;
use std::path::Path;
use std::process::Command;

/// A command of a transcript, its further lines with it, and what it has to print.
struct Step {
    line: usize,
    command: String,
    output: String,
}

/// The steps of a page: lines that are set in, a command behind `$`, its further lines behind `>`, and the rest is printed.
fn steps(page: &str) -> Vec<Step> {
    let mut steps: Vec<Step> = Vec::new();
    let mut is_typed = false;
    for (at, line) in page.lines().enumerate() {
        let Some(text) = line.strip_prefix("    ") else { continue };
        if let Some(command) = text.strip_prefix("$ ") {
            steps.push(Step { line: at + 1, command: format!("{command}\n"), output: String::new() });
            is_typed = true;
            continue;
        }
        let step = steps.last_mut().expect("a command before what it prints");
        match text.strip_prefix("> ").filter(|_| is_typed) {
            Some(more) => step.command.push_str(&format!("{more}\n")),
            None => {
                is_typed = false;
                step.output.push_str(&format!("{text}\n"));
            }
        }
    }
    steps
}

/// The shell has its own words and no other program than that in a folder of its own.
fn typed(step: &Step, folder: &Path, programs: &Path) -> Ran {
    let mut shell = Command::new("/bin/sh");
    shell.args(["-c", &format!("exec 2>&1\n{}", step.command)]).current_dir(folder);
    shell.env_clear().env("PATH", programs);
    ran(&mut shell, b"")
}

#[test]
fn every_command_prints_what_the_page_says() {
    let page = fs::read_to_string(here("../../docs/COURSE.md")).expect("the page");
    let (folder, programs) = (Folder::new("course"), Folder::new("course-programs"));
    symlink(env!("CARGO_BIN_EXE_ttpa"), programs.join("ttpa")).expect("a link");
    let steps = steps(&page);
    for step in &steps {
        let came = typed(step, &folder.0, &programs.0);
        assert_eq!(came.output, step.output, "docs/COURSE.md:{}: {}", step.line, step.command);
        // what fails says so
        let silent = step.output.is_empty();
        assert!(!silent || came.status == Some(0), "docs/COURSE.md:{}: {:?}", step.line, came.status);
    }
    assert!(steps.iter().any(|step| step.command.contains("<<END")), "no command has lines of its own");
    // what looks like a transcript is one
    assert!(!page.contains("```") && !page.contains('\t'), "a block that is not run");
    assert_eq!(page.lines().filter(|line| line.trim_start().starts_with("$ ")).count(), steps.len());
    counted("course", steps.len());
}
