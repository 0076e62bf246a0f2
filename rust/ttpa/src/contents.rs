use crate::{calls, version, TtpaError};

/// Reads a file of a slave, with record 0x00 in front, and tells its length: `slave` is its place in the slave table, 0 the
/// first. Where there is no such slave or no such file, it is 0. No round is made, so it also tells of an unnamed or
/// sleeping slave, and the cluster file stays as it is.
///
/// The front of the buffer becomes the file, or as much of it as there is room for; the rest stays. An empty buffer asks for
/// the length alone, and [`SLAVE_FILE_BYTES`](crate::SLAVE_FILE_BYTES) are always enough. Refused by 1 to 8.
///
/// ```no_run
/// let file = std::fs::read("plant.cluster").unwrap();
/// let mut buffer = [0; ttpa::SLAVE_FILE_BYTES];
/// let length = ttpa::contents(&file, 0, ttpa::FILE_DOCUMENTATION, &mut buffer)?;
/// println!("{:02X?}", &buffer[..length as usize]);
/// # Ok::<(), ttpa::TtpaError>(())
/// ```
pub fn contents(file: &[u8], slave: u64, number: u8, buffer: &mut [u8]) -> Result<u64, TtpaError> {
    version::hold();
    let mut length = 0;
    TtpaError::of(calls::contents(file, slave, number, buffer, &mut length))?;
    Ok(length)
}
