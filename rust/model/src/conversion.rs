//! "Converting" between the editions (document 02, request 10): the same cluster in the other edition's layout.

use crate::{check, Cluster, Edition, Refusal};

/// Grounds 1 to 8 on the file, then 25 and 26. What is written in the front of the buffer is the file in that edition,
/// whole; its length. "Converting to the edition a file already has copies it": the layout leaves no freedom.
pub fn to_edition(file: &[u8], edition: Edition, buffer: &mut [u8]) -> Result<usize, Refusal> {
    let converted = Cluster { edition, ..check(file)? };
    // "25, narrowing a file with more than 32 slaves or an edition-1 form above 32,768 bytes": a file that is widened or
    // copied never exceeds the limits, since each entry has twice the bytes at most, and so has the header.
    if converted.exceeds_limits() {
        return Err(Refusal(25));
    }
    let Some(front) = buffer.get_mut(..converted.length()) else {
        return Err(Refusal(26));
    };
    front.copy_from_slice(&converted.encode());
    Ok(converted.length())
}
