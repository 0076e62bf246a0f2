use crate::{calls, version, TtpaError};

/// How a cluster file is laid out. Every function takes both, and no rule of rounds, names or traces looks at it.
#[derive(Clone, Copy, Debug, PartialEq, Eq)]
pub enum Edition {
    /// Offsets of 2 bytes, at most [`EDITION_1_SLAVES`](crate::EDITION_1_SLAVES) slaves and
    /// [`EDITION_1_FILE_BYTES`](crate::EDITION_1_FILE_BYTES) bytes.
    One,
    /// Offsets of 4 bytes, at most [`MOST_SLAVES`](crate::MOST_SLAVES) slaves and
    /// [`MOST_FILE_BYTES`](crate::MOST_FILE_BYTES) bytes.
    Two,
}

/// Writes a cluster file in an edition into the front of the buffer, and gives that front, which other functions may then
/// be lent; a file that has the edition is copied. Refused by 1 to 8, by 25 where edition 1 cannot hold the file (more than
/// 32 slaves, or more than 32,768 bytes in that edition), and by 26 where the buffer is shorter than the file written.
/// [`WIDENED_BYTES`](crate::WIDENED_BYTES) are enough for every file of edition 1, and
/// [`MOST_FILE_BYTES`](crate::MOST_FILE_BYTES) for every file. The file handed in is not altered.
///
/// Converted there and back a file is the same, byte for byte.
///
/// ```no_run
/// let file = std::fs::read("plant.cluster").unwrap();
/// let mut buffer = [0; ttpa::MOST_FILE_BYTES];
/// let converted = ttpa::to_edition(&file, ttpa::Edition::Two, &mut buffer)?;
/// let mut answer = [0; ttpa::ANSWER_BYTES];
/// ttpa::round(converted, &[ttpa::FIREWORK_ROUND_2], &mut answer)?;
/// # Ok::<(), ttpa::TtpaError>(())
/// ```
pub fn to_edition<'a>(file: &[u8], edition: Edition, buffer: &'a mut [u8]) -> Result<&'a mut [u8], TtpaError> {
    version::hold();
    let mut length = 0;
    TtpaError::of(match edition {
        Edition::One => calls::to_edition_1(file, buffer, &mut length),
        Edition::Two => calls::to_edition_2(file, buffer, &mut length),
    })?;
    Ok(&mut buffer[..length as usize])
}
