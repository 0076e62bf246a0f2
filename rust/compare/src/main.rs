//! `compare [--long | --seed N | --cases FILE | --sample N]`: compares an engine with the model, call by call.
//!
//! Built with the feature `library` it is the linked library, otherwise the plain program. With `--cases`
//! it runs kept cases instead; with `--sample` it also prints N cases of each sort. It prints `engine NAME`
//! first, then `made KIND N` for each kind of call and `outcome KIND NUMBER N` for each outcome, as `tally`
//! names them; with `--cases` also `made other-edition N`, the cases that were made on the file in the other edition as
//! well. The last line is `N passed, M failed`; the status is 1 on a difference, and where no call
//! was made.

use compare::campaign::{Amounts, Campaign};
use compare::case::hold_all;
use compare::engine::{Engine, Model};
use std::process::ExitCode;

#[cfg(feature = "library")]
const ENGINE: &dyn Engine = &compare::engine::Library;
#[cfg(not(feature = "library"))]
const ENGINE: &dyn Engine = &compare::engine::Plain { nested: false };

const SEED: u64 = 0x7474_7061_0000_0000;
const LONG: usize = 10;

fn main() -> ExitCode {
    let arguments: Vec<String> = std::env::args().skip(1).collect();
    let words: Vec<&str> = arguments.iter().map(String::as_str).collect();
    println!("engine {}", ENGINE.name());
    let (passed, failed) = match words[..] {
        [] => campaign(&Amounts::USUAL, SEED, 0),
        ["--long"] => campaign(&Amounts::USUAL.times(LONG), SEED + 1, 0),
        ["--seed", seed] => campaign(&Amounts::USUAL, seed.parse().unwrap_or(SEED), 0),
        ["--sample", cases] => campaign(&Amounts::USUAL, SEED, cases.parse().unwrap_or(1)),
        ["--cases", path] => cases(path),
        _ => {
            eprintln!("usage: compare [--long | --seed N | --cases FILE | --sample N]");
            return ExitCode::from(2);
        }
    };
    println!("{passed} passed, {failed} failed");
    ExitCode::from(u8::from(failed != 0 || passed == 0))
}

fn campaign(amounts: &Amounts, seed: u64, sample: u64) -> (u64, u64) {
    let mut campaign = Campaign::new(ENGINE, &Model).with_sample(sample);
    campaign.all(amounts, seed);
    campaign.tally.print();
    (campaign.passed, campaign.failed)
}

fn cases(path: &str) -> (u64, u64) {
    let text = match std::fs::read_to_string(path) {
        Ok(text) => text,
        Err(error) => {
            println!("{path}: {error}");
            return (0, 1);
        }
    };
    let held = hold_all(ENGINE, &text);
    held.wrong.iter().for_each(|what| println!("{what}"));
    held.tally.print();
    if held.turned > 0 {
        println!("made other-edition {}", held.turned);
    }
    (held.passed, held.wrong.len() as u64)
}
