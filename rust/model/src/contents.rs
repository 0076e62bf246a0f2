//! A slave's file, read without a round. The documents have no such call (docs/DECISIONS.md, C55).

use crate::{check, FileNumber, Refusal, Slave};

/// How many bytes the file of that number has of the slave at this place of the table, 0 the first: none where there is no
/// such slave or file. The front of the buffer becomes as much of the file as it has room for. Refused by the cluster
/// file's grounds alone.
pub fn contents(file: &[u8], place: u64, number: FileNumber, buffer: &mut [u8]) -> Result<usize, Refusal> {
    let cluster = check(file)?;
    let slave = usize::try_from(place).ok().and_then(|place| cluster.slaves.get(place));
    let bytes = slave.and_then(|slave: &Slave| slave.file(number)).map_or(&[][..], |file| &file.bytes);
    for (to, from) in buffer.iter_mut().zip(bytes) {
        *to = *from;
    }
    Ok(bytes.len())
}
