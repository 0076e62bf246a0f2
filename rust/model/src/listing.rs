//! "The listing program": its whole output for one file.

use crate::{load, start, step, End, Refusal, ANSWER_BYTES};
use std::fmt::Write;

const FIRST_NAME: u8 = 0x01;
const LAST_NAME: u8 = 0xFE;

pub fn listing(file: &[u8]) -> String {
    match lines(file) {
        Ok(text) => text,
        Err(Refusal(number)) => format!("refused {number}\n"),
    }
}

fn lines(file: &[u8]) -> Result<String, Refusal> {
    load(file)?;
    let names: Vec<u8> = (FIRST_NAME..=LAST_NAME).collect();
    let mut file = file.to_vec();
    let mut run = start(&names)?;
    let mut buffer = [0; ANSWER_BYTES];
    let mut text = String::new();
    let (mut named, mut comparisons_before) = (0, 0);
    while run.end == End::Running.number() {
        let before = run;
        step(&mut file, &mut run, &names, &mut buffer)?;
        let pass_done = run.index > before.index;
        let gave_a_name = pass_done && before.step > 0;
        if gave_a_name {
            let comparisons = run.comparisons - comparisons_before;
            let name = names[before.index as usize];
            writeln!(text, "{name:02X} {:016X} {comparisons}", run.value).expect("text takes every line");
            named += 1;
        }
        if pass_done {
            comparisons_before = run.comparisons;
        }
    }
    writeln!(text, "named {named} compares {} rounds {}", run.comparisons, run.rounds)
        .expect("text takes every line");
    Ok(text)
}
