//! `specification write ROOT` writes docs/SPECIFICATION.md of a repository; `specification check ROOT` holds it to its sources, and every
//! sentence to having a definition and a theorem.
//! `specification sentence ROOT N [SEED]` draws N sentences and prints the definitions and theorems of each, `sentence ROOT --all` says of
//! every sentence how many there are.
//!
//! The last line of `check` and `--all` is `N passed, M failed`; the status is 1 if something failed.

#![forbid(unsafe_code)]

use specification::draw;
use specification::order::Order;
use specification::page::page;
use specification::sentences::{sections, Section};
use specification::sources::Sources;
use std::fs;
use std::io::{self, Write};
use std::path::Path;
use std::process::ExitCode;
use std::time::SystemTime;

const ORDER: &str = "rust/specification/order.txt";
const CLAIMS: &str = "docs/CLAIMS.md";
const PAGE: &str = "docs/SPECIFICATION.md";

fn main() -> ExitCode {
    let arguments: Vec<String> = std::env::args().skip(1).collect();
    let arguments: Vec<&str> = arguments.iter().map(|argument| &argument[..]).collect();
    let done = match arguments[..] {
        ["write", root] => write(Path::new(root)),
        ["check", root] => check(Path::new(root)),
        ["sentence", root, "--all"] => all(Path::new(root)),
        ["sentence", root, number] => some(Path::new(root), number, &now()),
        ["sentence", root, number, seed] => some(Path::new(root), number, seed),
        _ => {
            eprintln!("usage: specification write ROOT | check ROOT | sentence ROOT (--all | N [SEED])");
            return ExitCode::from(2);
        }
    };
    done.unwrap_or_else(|error| {
        eprintln!("{error}");
        ExitCode::from(2)
    })
}

fn read(root: &Path) -> io::Result<(Vec<Section>, Sources)> {
    let claims = fs::read_to_string(root.join(CLAIMS))?;
    Ok((sections(&claims), Sources::read(&root.join("crates"))?))
}

fn order(root: &Path) -> io::Result<Order> {
    Order::new(&fs::read_to_string(root.join(ORDER))?).map_err(io::Error::other)
}

fn made(root: &Path) -> io::Result<Result<String, Vec<String>>> {
    let (sections, sources) = read(root)?;
    Ok(page(&order(root)?, &sections, &sources))
}

fn write(root: &Path) -> io::Result<ExitCode> {
    match made(root)? {
        Ok(text) => fs::write(root.join(PAGE), text).map(|()| ExitCode::SUCCESS),
        Err(wrong) => Ok(ended(0, &wrong)),
    }
}

/// The page is what its sources make, and no sentence is without definition and theorem.
fn check(root: &Path) -> io::Result<ExitCode> {
    let (sections, sources) = read(root)?;
    let mut wrong = match made(root)? {
        Ok(text) if fs::read_to_string(root.join(PAGE)).is_ok_and(|kept| kept == text) => Vec::new(),
        Ok(_) => vec![format!("{PAGE} is not what its sources make: `specification write` writes it")],
        Err(wrong) => wrong,
    };
    wrong.extend(draw::all(&order(root)?, &sections, &sources).wrong);
    Ok(ended(usize::from(wrong.is_empty()), &wrong))
}

fn all(root: &Path) -> io::Result<ExitCode> {
    let (sections, sources) = read(root)?;
    let told = draw::all(&order(root)?, &sections, &sources);
    print(&told.lines)?;
    Ok(ended(told.passed, &told.wrong))
}

fn some(root: &Path, number: &str, seed: &str) -> io::Result<ExitCode> {
    let (Ok(number), Ok(seed)) = (number.parse(), seed.parse()) else {
        eprintln!("the number of sentences and the seed are numbers");
        return Ok(ExitCode::from(2));
    };
    let (sections, sources) = read(root)?;
    let lines = draw::drawn(&sections, &sources, number, seed);
    print(&lines)?;
    print(&[format!("seed {seed}")])?;
    Ok(ExitCode::SUCCESS)
}

fn now() -> String {
    let since = SystemTime::now().duration_since(SystemTime::UNIX_EPOCH);
    since.map_or(0, |time| time.as_secs()).to_string()
}

fn print(lines: &[String]) -> io::Result<()> {
    let text: String = lines.iter().map(|line| format!("{line}\n")).collect();
    io::stdout().write_all(text.as_bytes())
}

/// Prints what is wrong, and the closing line.
fn ended(passed: usize, wrong: &[String]) -> ExitCode {
    wrong.iter().for_each(|what| println!("failed: {what}"));
    println!("{passed} passed, {} failed", wrong.len());
    ExitCode::from(u8::from(!wrong.is_empty()))
}
