//! `ttpa pattern NNN..`: the class of a nine-bit pattern of the line.

use crate::args::{Arguments, Subcommand, MANY};
use crate::console::{Console, Outcome, Status, Stop};
use crate::text::quoted;
use ttpa::PatternClass;

pub const SUBCOMMAND: Subcommand = Subcommand {
    name: "pattern",
    usage: "NNN..",
    summary: "tell the class of a nine-bit pattern of the line",
    text: "\
Tells of each pattern, hexadecimal, the byte in bits 7 to 0 and the parity bit in bit 8, whether it is a data byte, a firework or broken.
Status 1 if one is refused, being above 1FF.",
    operands: 1..=MANY,
    options: &[],
    run,
};

fn run(arguments: &Arguments, console: &mut Console) -> Outcome {
    let words = arguments.operands().iter().map(|word| read(&word.to_string_lossy()));
    let patterns: Vec<u16> = words.collect::<Result<_, Stop>>()?;
    let mut status = Status::Accepted;
    for pattern in patterns {
        let told = match ttpa::pattern(pattern) {
            Ok(PatternClass::DataByte) => "data byte".to_string(),
            Ok(PatternClass::Firework) => "firework".to_string(),
            Ok(PatternClass::Broken) => "broken".to_string(),
            Err(refusal) => {
                status = Status::Refused;
                refusal.to_string()
            }
        };
        writeln!(console.output, "{pattern:03X}: {told}")?;
    }
    Ok(status)
}

/// Up to four digits: whether a number has more than nine bits is the engine's to say.
fn read(word: &str) -> Result<u16, Stop> {
    const MOST_DIGITS: usize = 4;
    let digits = word.strip_prefix("0x").unwrap_or(word);
    let good = digits.len() <= MOST_DIGITS && digits.bytes().all(|byte| byte.is_ascii_hexdigit());
    let number = u16::from_str_radix(digits, 16).ok().filter(|_| good);
    number.ok_or_else(|| {
        Stop::Usage(format!("pattern: {} is no pattern (hexadecimal, at most FFFF)", quoted(word)))
    })
}
