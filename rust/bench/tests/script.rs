//! bench.sh with a program in callgrind's place that tells made-up numbers: what stands in which column, which way round the ratios
//! are, and which lines are marked.

use std::env;
use std::fs;
use std::os::unix::fs::PermissionsExt;
use std::path::{Path, PathBuf};
use std::process::{Command, Output};

/// Beside 50,000 instructions at the start, so many for each time, which is the last word: of plain 1,000, of nested 4,000, of the
/// library 1,500. For no other engine it tells a number.
const CALLGRIND: &str = r#"#!/bin/sh
case $4 in plain) each=1000 ;; nested) each=4000 ;; library) each=1500 ;; *) exit 2 ;; esac
echo "==1== Collected : $((50000 + each * $6))" >&2
"#;
const CARGO: &str = "#!/bin/sh\n";
const NOTE: &str =
    "* An engine is below its floor, which is a limit only for programs that test one thing at a time.";

/// A folder of its own for a test, with these programs; the workloads' program is the one that was built.
fn folder(test: &str, callgrind: &str) -> PathBuf {
    let folder = Path::new(env!("CARGO_TARGET_TMPDIR")).join(test);
    let _ = fs::remove_dir_all(&folder);
    fs::create_dir_all(folder.join("release")).expect("a folder");
    // a copy: `rt ci` passes no link in the checkout
    fs::copy(env!("CARGO_BIN_EXE_bench"), folder.join("release/bench")).expect("a copy");
    for (name, text) in [("valgrind", callgrind), ("cargo", CARGO)] {
        fs::write(folder.join(name), text).expect("a program");
        fs::set_permissions(folder.join(name), fs::Permissions::from_mode(0o755)).expect("one that can be run");
    }
    folder
}

fn run(folder: &Path, arguments: &[&str]) -> Output {
    let before = env::var_os("PATH").unwrap_or_default();
    let path = env::join_paths([folder.to_path_buf()].into_iter().chain(env::split_paths(&before)));
    let script = Path::new(env!("CARGO_MANIFEST_DIR")).join("../bench.sh");
    let mut bash = Command::new("bash");
    bash.arg(script).args(arguments).env("PATH", path.expect("a path")).env("CARGO_TARGET_DIR", folder);
    bash.output().expect("bash")
}

/// What the script prints, line by line, the words with one space between them.
fn printed(folder: &Path, arguments: &[&str]) -> Vec<String> {
    let output = run(folder, arguments);
    assert!(output.status.success(), "{output:?}");
    let text = String::from_utf8(output.stdout).expect("a text");
    text.lines().map(|line| line.split_whitespace().collect::<Vec<_>>().join(" ")).collect()
}

/// Nested is told apart in multipartner rounds only. A check of 64 slaves has a floor of 1,163, which is more than plain's number.
#[test]
fn of_the_library_beside_plain() {
    let folder = folder("library", CALLGRIND);
    assert_eq!(
        printed(&folder, &["library", "check-1-2", "partner-1-63", "check-64-2"]),
        [
            "workload floor plain nested library library/plain library/nested library/floor plain/floor",
            "check-1-2 23 1000 1000 1500 1.50 1.50 65.22 43.48",
            "partner-1-63 430 1000 4000 1500 1.50 0.38 3.49 2.33",
            "check-64-2 1163 1000 1000 1500 1.50 1.50 1.29 0.86 *",
            "",
            NOTE,
        ]
    );
}

#[test]
fn of_plain_alone() {
    let folder = folder("plain", CALLGRIND);
    assert_eq!(
        printed(&folder, &["check-1-2", "partner-1-63"]),
        [
            "workload floor plain nested plain/floor",
            "check-1-2 23 1000 1000 43.48",
            "partner-1-63 430 1000 4000 2.33",
        ]
    );
}

/// The table is read back with its marked lines. 1,000 of 1,500 instructions are two thirds up the first plot.
#[test]
fn of_growth() {
    let folder = folder("growth", CALLGRIND);
    let picture = folder.join("growth.svg");
    let lines = printed(&folder, &["library", "growth", picture.to_str().expect("a text")]);
    for line in [
        "check-1-2 23 1000 1000 1500 1.50 1.50 65.22 43.48",
        "| 1 | 23 | 1,000 | 1,500 | 1.50 | 25 | 1,000 | 1,500 | 1.50 |",
        "| 64 | | | | | 1,163 | 1,000 * | 1,500 | 1.50 |",
    ] {
        assert!(lines.iter().any(|printed| printed == line), "{line}");
    }
    assert_eq!(lines.iter().filter(|line| *line == NOTE).count(), 2);
    let svg = fs::read_to_string(picture).expect("a picture");
    assert!(svg.contains(r#"<circle cx="146.0" cy="136.0" "#), "{svg}");
}

/// No figure is made of a run that failed, though it was counted, nor of no count.
#[test]
fn of_runs_that_fail() {
    let refused = format!("{CALLGRIND}exit 101\n");
    for (test, callgrind) in [("refused", refused.as_str()), ("not-counted", "#!/bin/sh\n")] {
        let output = run(&folder(test, callgrind), &["library", "check-1-2"]);
        assert!(!output.status.success(), "{output:?}");
        assert!(!String::from_utf8_lossy(&output.stdout).contains("check-1-2"), "{output:?}");
        assert_eq!(String::from_utf8_lossy(&output.stderr), "failed: plain check-1-2 20\n");
    }
    assert!(!run(&folder("unknown", CALLGRIND), &["no-such-workload"]).status.success());
}
