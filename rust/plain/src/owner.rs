//! Writing the owner file: each slave's directory is read once, up to its round files, and each round descriptor list
//! once.

use crate::edition::in_edition;
use crate::survey::{find_in, range_in, Survey};
use crate::UNNAMED;

const SLOTS: usize = 64;
/// Files 0 to 7 are round files, but 1 and 5 are nobody's.
const ROUNDS: usize = 8;
const OWNED: [usize; 6] = [0, 2, 3, 4, 6, 7];
/// Rounds 1 and 5, as a set of bits.
const NOT_OWNED: u32 = 0b0010_0010;
/// An entry's kind is its operation, and above that the length less one. So are the kinds of one slot that are not
/// multiplexed and do not end.
const SIMPLE_KINDS: u8 = 6;
/// Operations from 8 on are multiplexed, and of these the odd ones send. Of the others 6 and 7 end, 1 and 5 send:
/// these bits of an operation are set so.
const MULTIPLEXED: u8 = 8;
const ODD: u8 = 1;
const END_BITS: u8 = 6;
const END: u8 = 6;
const SEND_BITS: u8 = 3;
const SEND: u8 = 1;
/// An address byte is a file number and below it the align; no such byte differs from the second one here in the align alone.
const ALIGN_BITS: u32 = 3;
const NO_ADDRESS: u32 = 0x100;
const RECORD_BYTES: usize = 4;
/// Record 0x00, then the index bytes.
const INDEX: usize = RECORD_BYTES;
const ROWS: usize = INDEX + ROUNDS;
const MOST_BYTES: usize = ROWS + OWNED.len() * SLOTS;

/// The slots of a round that have a sender and who it is; the last of them; and whether one has two.
#[derive(Clone, Copy)]
struct Row {
    sent: [bool; SLOTS],
    owners: [u8; SLOTS],
    last: usize,
    sent_twice: bool,
}

/// A round descriptor list that is being read: the slots that its entries cover, and the file of which the last one spoke, since
/// neighbouring entries often speak of one: its number as an address byte has it, and its size, none where it is not there.
struct List<'a, const ENTRY: usize> {
    directory: &'a [[u8; ENTRY]],
    name: u8,
    covered: [bool; SLOTS],
    address: u32,
    size: u32,
}

pub fn owner(file: &[u8], master: u8, buffer: &mut [u8], length: &mut u64) -> u8 {
    in_edition!(file, owner_in(file, master, buffer, length))
}

#[inline(always)]
fn owner_in<const ENTRY: usize>(file: &[u8], master: u8, buffer: &mut [u8], length: &mut u64) -> u8 {
    let mut survey = Survey::<ENTRY>::new();
    let ground = survey.walk(file);
    if ground != 0 {
        return ground;
    }
    let mut rows = [Row { sent: [false; SLOTS], owners: [0; SLOTS], last: 0, sent_twice: false }; ROUNDS];
    for (slave, &name) in survey.names().iter().enumerate() {
        if name != UNNAMED && !plan_slave(&mut rows, file, survey.directory(file, slave), name) {
            return 23;
        }
    }
    if rows.iter().any(|row| row.sent_twice) {
        return 20;
    }
    let (content, written) = laid_out(&rows, master);
    let Some(front) = buffer.get_mut(..written) else {
        return 21;
    };
    front.copy_from_slice(&content[..written]);
    *length = written as u64;
    0
}

/// False where the slave has a multiplexed send. Numbers rise, so the round files are the first.
#[inline(always)]
fn plan_slave<const ENTRY: usize>(
    rows: &mut [Row; ROUNDS],
    file: &[u8],
    directory: &[[u8; ENTRY]],
    name: u8,
) -> bool {
    for entry in directory {
        let Some(row) = rows.get_mut(usize::from(entry[0])) else {
            return true;
        };
        if 1 << entry[0] & NOT_OWNED == 0 {
            let mut list = List { directory, name, covered: [false; SLOTS], address: NO_ADDRESS, size: 0 };
            // Slot 0 is the master's.
            list.covered[0] = true;
            if !row.plan(&mut list, file[range_in(entry)][RECORD_BYTES..].as_chunks().0) {
                return false;
            }
        }
    }
    true
}

impl Row {
    /// On its own, since its loop needs the registers.
    #[inline(never)]
    fn plan<const ENTRY: usize>(&mut self, list: &mut List<ENTRY>, entries: &[[u8; 4]]) -> bool {
        for entry in entries {
            let kind = entry[2].rotate_left(4);
            if kind >= SIMPLE_KINDS {
                if kind & MULTIPLEXED != 0 {
                    if kind & ODD != 0 {
                        return false;
                    }
                    continue;
                }
                if kind & END_BITS == END {
                    return true;
                }
                self.enter_several(list, entry);
                continue;
            }
            let slot = usize::from(entry[3] & 63);
            if list.covered[slot] {
                continue;
            }
            list.covered[slot] = true;
            if kind & SEND_BITS == SEND && list.offset(entry) < list.size {
                self.enter(slot, list.name);
            }
        }
        true
    }

    /// On its own for the same reason.
    #[inline(never)]
    fn enter_several<const ENTRY: usize>(&mut self, list: &mut List<ENTRY>, entry: &[u8; 4]) {
        let is_send = entry[2] >> 4 & SEND_BITS == SEND;
        let (length, start) = (usize::from(entry[2] & 15) + 1, usize::from(entry[3] & 63));
        let offset = list.offset(entry);
        for later in 0..length.min(SLOTS - start) {
            let is_inside = offset + (later as u32) < list.size;
            if !std::mem::replace(&mut list.covered[start + later], true) && is_send && is_inside {
                self.enter(start + later, list.name);
            }
        }
    }

    #[inline(always)]
    fn enter(&mut self, slot: usize, name: u8) {
        self.sent_twice |= self.sent[slot];
        self.sent[slot] = true;
        self.owners[slot] = name;
        self.last = self.last.max(slot);
    }
}

impl<const ENTRY: usize> List<'_, ENTRY> {
    /// Where an entry's start slot is in its file, whose size is kept.
    #[inline(always)]
    fn offset(&mut self, &[address, record, ..]: &[u8; 4]) -> u32 {
        if u32::from(address) ^ self.address > ALIGN_BITS {
            self.find(address >> 2);
        }
        4 * u32::from(record) + (u32::from(address) ^ self.address)
    }

    /// Cold, since it is the way past the file that is kept.
    #[cold]
    #[inline(never)]
    fn find(&mut self, number: u8) {
        self.address = u32::from(number << 2);
        self.size = find_in(self.directory, number).map_or(0, |(_, size)| size as u32);
    }
}

/// The content, and how many of its bytes belong to it. Each row is laid out whole; the next one is laid over what
/// it does not need, and after the last there is nothing to be read.
fn laid_out(rows: &[Row; ROUNDS], master: u8) -> ([u8; MOST_BYTES], usize) {
    let mut content = [0; MOST_BYTES];
    let mut place = ROWS;
    for round in OWNED {
        let row = &rows[round];
        content[INDEX + round] = (place / RECORD_BYTES) as u8;
        content[place..place + SLOTS].copy_from_slice(&row.owners);
        content[place] = master;
        place += (row.last + RECORD_BYTES) & !(RECORD_BYTES - 1);
    }
    (content, place)
}
