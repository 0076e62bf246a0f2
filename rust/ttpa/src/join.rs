use crate::{calls, version, TtpaError};

/// Joins the files of two clusters whose bus segments are cabled together: writes into the front of the buffer one cluster
/// file, in the edition of the first, with the slaves of the first and then those of the second; the length of that front.
/// Neither file is altered, and they may be the same one.
///
/// Epoch and pending bytes of the joined file are 0, and all slaves are awake. A slave of the second whose logical name the
/// first also holds becomes unnamed, 0xFF; every other byte of every record is as it was. A naming run on the joined file
/// takes as unnamed exactly these slaves and those that were at 0xFF.
///
/// Refused by 1 to 8 for the first file, then by 1 to 8 for the second, by 29 where a physical name is in both, and by 30
/// where the joined file would have more slaves or bytes than the edition of the first, or more bytes than the buffer;
/// [`MOST_FILE_BYTES`](crate::MOST_FILE_BYTES) are always enough.
///
/// ```no_run
/// let (first, second) = (std::fs::read("hall.cluster").unwrap(), std::fs::read("yard.cluster").unwrap());
/// let mut buffer = [0; ttpa::MOST_FILE_BYTES];
/// let length = ttpa::join(&first, &second, &mut buffer)?;
/// ttpa::check(&buffer[..length])?;
/// # Ok::<(), ttpa::TtpaError>(())
/// ```
pub fn join(first: &[u8], second: &[u8], out: &mut [u8]) -> Result<usize, TtpaError> {
    version::hold();
    let mut length = 0;
    TtpaError::of(calls::join(first, second, out, &mut length))?;
    Ok(length as usize)
}
