use crate::calls;
use core::fmt;

/// The version of this crate as one number, 10,000 times its first part, 100 times the second and the third:
/// TTPA_VERSION of include/ttpa.h.
pub const VERSION: u32 =
    of(env!("CARGO_PKG_VERSION_MAJOR"), env!("CARGO_PKG_VERSION_MINOR"), env!("CARGO_PKG_VERSION_PATCH"));

const fn of(major: &str, minor: &str, patch: &str) -> u32 {
    10_000 * number(major) + 100 * number(minor) + number(patch)
}

const fn number(digits: &str) -> u32 {
    let digits = digits.as_bytes();
    let (mut value, mut at) = (0, 0);
    while at < digits.len() {
        value = 10 * value + (digits[at] - b'0') as u32;
        at += 1;
    }
    value
}

/// The linked library is of another version than this crate: its calls may write past what this crate lends.
#[derive(Clone, Copy, Debug, PartialEq, Eq)]
pub struct VersionMismatch {
    /// The library's version, as [`VERSION`] is that of the crate.
    pub library: u32,
}

impl fmt::Display for VersionMismatch {
    fn fmt(&self, out: &mut fmt::Formatter) -> fmt::Result {
        let parts = |version: u32| (version / 10_000, version / 100 % 100, version % 100);
        let ((a, b, c), (x, y, z)) = (parts(self.library), parts(VERSION));
        write!(out, "the linked library is version {a}.{b}.{c}, and not {x}.{y}.{z}")
    }
}

impl core::error::Error for VersionMismatch {}

/// The version of the linked library, as [`VERSION`] is that of this crate.
pub fn version() -> u32 {
    calls::version()
}

/// That the linked library is of this crate's version. A program asks at its start, before any other call, and makes
/// none on an error: with a library of another version every function of this crate but this one and [`version`]
/// panics, and those of [`calls`] may write past what is lent.
pub fn check_version() -> Result<(), VersionMismatch> {
    fits(version())
}

/// Panics where the linked library is of another version: what is lent need not be what its calls expect.
pub(crate) fn hold() {
    fits_or_panic(version());
}

fn fits_or_panic(library: u32) {
    if let Err(mismatch) = fits(library) {
        panic!("{mismatch}");
    }
}

fn fits(library: u32) -> Result<(), VersionMismatch> {
    if library == VERSION {
        Ok(())
    } else {
        Err(VersionMismatch { library })
    }
}

#[cfg(test)]
mod tests {
    use super::*;

    #[test]
    fn only_a_library_of_the_same_version_fits() {
        assert_eq!(fits(VERSION), Ok(()));
        for library in [0, VERSION - 1, VERSION + 1, VERSION + 10_000] {
            assert_eq!(fits(library), Err(VersionMismatch { library }));
        }
    }

    #[test]
    #[should_panic(expected = "the linked library is version 0.0.1, and not")]
    fn no_call_is_made_of_another_version() {
        fits_or_panic(VERSION);
        fits_or_panic(1);
    }

    #[test]
    fn a_number_has_all_its_digits() {
        assert_eq!(of("12", "34", "56"), 123_456);
        assert_eq!([number("0"), number("8"), number("10"), number("205")], [0, 8, 10, 205]);
    }
}
