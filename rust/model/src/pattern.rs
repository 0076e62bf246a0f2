//! "Nine-bit line patterns" (document 02, request 14): "The line monitor hands over nine bits, the byte in bits 7 to 0 and the
//! parity bit in bit 8."

use crate::{round_of, Refusal};

/// "data byte (even count of ones), a firework (odd count and in the list), or broken"
#[derive(Clone, Copy, Debug, PartialEq, Eq)]
pub enum PatternClass {
    DataByte,
    Firework,
    Broken,
}

/// "31, a pattern above 511, checked first."
const ABOVE: Refusal = Refusal(31);
const LAST_PATTERN: u16 = 511;
const BITS: u32 = 9;

pub fn pattern(pattern: u16) -> Result<PatternClass, Refusal> {
    if pattern > LAST_PATTERN {
        return Err(ABOVE);
    }
    let [_, byte] = pattern.to_be_bytes();
    let ones = (0..BITS).filter(|bit| pattern >> bit & 1 == 1).count();
    Ok(match (ones % 2, round_of(byte)) {
        (0, _) => PatternClass::DataByte,
        (_, Some(_)) => PatternClass::Firework,
        (_, None) => PatternClass::Broken,
    })
}

impl PatternClass {
    /// The number of the C call, our choice.
    pub fn number(self) -> u8 {
        match self {
            PatternClass::DataByte => 0,
            PatternClass::Firework => 1,
            PatternClass::Broken => 2,
        }
    }
}
