use crate::{calls, version, TtpaError};

/// The class of a nine-bit pattern that a line monitor hands over.
#[derive(Clone, Copy, Debug, PartialEq, Eq)]
pub enum PatternClass {
    /// An even count of ones, the parity bit among them, whatever the byte.
    DataByte,
    /// An odd count, and the byte opens a round.
    Firework,
    /// An odd count, and the byte opens none.
    Broken,
}

/// The class of a pattern: the byte in bits 7 to 0 and the parity bit in bit 8. No firework with one to three of its nine bits
/// flipped is read as a firework; four can make another of it.
///
/// Refused by 31 above 511.
///
/// ```no_run
/// use ttpa::{pattern, PatternClass};
/// assert_eq!(pattern(0x155)?, PatternClass::Firework);
/// assert_eq!(pattern(0x055)?, PatternClass::DataByte);
/// # Ok::<(), ttpa::TtpaError>(())
/// ```
pub fn pattern(pattern: u16) -> Result<PatternClass, TtpaError> {
    version::hold();
    let mut kind = calls::BROKEN;
    TtpaError::of(calls::pattern(pattern, &mut kind))?;
    Ok(match kind {
        calls::DATA_BYTE => PatternClass::DataByte,
        calls::FIREWORK => PatternClass::Firework,
        _ => PatternClass::Broken,
    })
}
