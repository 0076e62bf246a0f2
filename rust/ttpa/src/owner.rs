use crate::calls::{self, OWNER_INDEX, OWNER_RECORD_BYTES};
use crate::{version, TtpaError};

/// An owner file has at most this many bytes.
pub const MOST_OWNER_BYTES: usize = 396;
const ROUNDS: usize = 8;

/// An owner file as [`owner`] wrote it: who sends in which slot of each multipartner round.
#[derive(Clone, Copy, Debug, PartialEq, Eq)]
pub struct Owners<'a> {
    bytes: &'a [u8],
}

impl<'a> Owners<'a> {
    /// The whole file 0x0B: record 0x00 of zeros, eight index bytes, then the rows.
    pub fn bytes(self) -> &'a [u8] {
        self.bytes
    }

    /// The row of a round: for slot 0 the master's name, for each slot after it the logical name that sends there, 0x00
    /// where none does. It goes up to the last slot in which a slave sends, and is filled up with 0x00 to a multiple of
    /// four slots. Rounds 1 and 5 have no row, nor has a number above 7.
    pub fn row(self, round: u8) -> Option<&'a [u8]> {
        let index = self.bytes.get(OWNER_INDEX..OWNER_INDEX + ROUNDS)?;
        let (&first, later) = index.get(usize::from(round)..)?.split_first()?;
        let place = |record: u8| OWNER_RECORD_BYTES * usize::from(record);
        let end = later.iter().find(|&&record| record != 0).map_or(self.bytes.len(), |&record| place(record));
        if first == 0 {
            None
        } else {
            self.bytes.get(place(first)..end)
        }
    }
}

/// Writes the owner file of a cluster file into the front of the buffer, with the master's name for slot 0; refused by 1
/// to 8, by 23 where a slave sends multiplexed in a round, by 20 where two slaves send in one slot of a round, and by 21
/// where the buffer is shorter than this cluster's owner file. [`MOST_OWNER_BYTES`] are enough for every cluster. The
/// cluster file is not altered.
///
/// A slave sends in a slot if it would put a byte there in the round as [`round`](crate::round) carries it out.
/// Multiplexed receives are passed over: in some epochs a slave may receive in a slot that it has here.
///
/// ```no_run
/// let file = std::fs::read("plant.cluster").unwrap();
/// let mut buffer = [0; ttpa::MOST_OWNER_BYTES];
/// let owners = ttpa::owner(&file, 0x80, &mut buffer)?;
/// println!("round 2: {:02X?}", owners.row(2));
/// # Ok::<(), ttpa::TtpaError>(())
/// ```
pub fn owner<'a>(file: &[u8], master: u8, buffer: &'a mut [u8]) -> Result<Owners<'a>, TtpaError> {
    version::hold();
    let mut length = 0;
    TtpaError::of(calls::owner(file, master, buffer, &mut length))?;
    Ok(Owners { bytes: &buffer[..length as usize] })
}
