//! Grounds 1 to 8 in one walk over a file, which keeps the logical names and where each slave has the two files that
//! every round asks for.

use crate::edition::{header_ground, Edition, NARROW_ENTRY};
use crate::{u64_at, BROADCAST, CONFIGURATION, DOCUMENTATION, UNNAMED};
use std::mem::size_of_val;
use std::ops::Range;

pub const MOST_SLAVES: usize = 64;
/// Where file 0x08 has the logical name, and the comparison value behind it.
pub const LOGICAL_NAME: usize = 7;
const COMPARISON_VALUE: usize = 8;
/// Where file 0x3D has the physical name, and its last byte.
const PHYSICAL_NAME: usize = 4;
const PHYSICAL_NAME_END: usize = 11;
const BROKEN_LAYOUT: u8 = 6;
/// From so many entries on it is worth it to walk directories without an exit from the loop; a power of two.
const LONG_DIRECTORY: u32 = 16;
/// So many pairs of entries the vectors of that loop take.
const PAIRS_AT_ONCE: usize = 8;
/// Of the end of a table entry.
const COUNT_BITS: u32 = 0xFF;
const SLEEP_BIT: u32 = 0x100;
/// File numbers are below.
const FILES: u8 = 64;
pub const BYTES_OF_A_WORD: usize = 8;
/// A word of eight bytes 1; times a byte, of that byte.
pub const EACH_BYTE: u64 = 0x0101_0101_0101_0101;

/// What the walk over an accepted file found.
pub struct Survey<const ENTRY: usize> {
    count: usize,
    /// Whether anyone sleeps; who does stands in the table.
    someone_sleeps: bool,
    places: [Places; MOST_SLAVES],
    names: [u8; MOST_SLAVES],
}

/// Where the bytes of a slave's files 0x08 and 0x3D begin: below 65,536, the most bytes that a file has.
#[derive(Clone, Copy)]
struct Places {
    configuration: u16,
    documentation: u16,
}

impl<const ENTRY: usize> Survey<ENTRY> {
    #[inline(always)]
    pub fn new() -> Survey<ENTRY> {
        Survey {
            count: 0,
            someone_sleeps: false,
            places: [Places { configuration: 0, documentation: 0 }; MOST_SLAVES],
            names: [0; MOST_SLAVES],
        }
    }

    /// Fills the survey: 0, or the ground that turns the file away.
    #[inline]
    pub fn walk(&mut self, file: &[u8]) -> u8 {
        let ground = header_ground::<ENTRY>(file);
        if ground != 0 {
            return ground;
        }
        self.count = usize::from(file[3]);
        let header = Edition::of::<ENTRY>().header_bytes;
        let Some(table) = file.get(header..header + ENTRY * self.count) else {
            return BROKEN_LAYOUT;
        };
        let table = table.as_chunks().0;
        // A bit that none may have shows in the or of all, and so does a high count.
        let all_ends = table.iter().fold(0, |all, entry| all | end_of(entry));
        self.someone_sleeps = all_ends & SLEEP_BIT != 0;
        let ground = if all_ends & !(SLEEP_BIT | COUNT_BITS) != 0 {
            BROKEN_LAYOUT
        } else if all_ends & COUNT_BITS < LONG_DIRECTORY {
            self.walk_directories(file, table, walk_directory)
        } else {
            self.walk_directories(file, table, walk_long_directory)
        };
        if ground == 0 && self.read_names(file) {
            return 8;
        }
        ground
    }

    /// Ground 6 or 7, or 0. Each directory is walked by this function, which returns the place behind the last file.
    #[inline(always)]
    fn walk_directories(
        &mut self,
        file: &[u8],
        table: &[[u8; ENTRY]],
        walk: impl Fn(&[[u8; ENTRY]], u32) -> Option<u32>,
    ) -> u8 {
        let mut place = self.body() as u32;
        for (entry, places) in table.iter().zip(&mut self.places) {
            let Some(directory) = directory_at(file, entry, place) else {
                return BROKEN_LAYOUT;
            };
            let files = place + size_of_val(directory) as u32;
            let Some(behind) = walk(directory, files) else {
                return BROKEN_LAYOUT;
            };
            let Some(found) = Places::find(directory, files) else {
                return ground_of_lacking(file, table, self.body() as u32);
            };
            *places = found;
            place = behind;
        }
        // Places that are past the end are found out by the next directory, or here.
        if place as usize == file.len() {
            0
        } else {
            BROKEN_LAYOUT
        }
    }

    /// Of a file of the right layout; returns whether two slaves have equal physical names.
    #[inline(never)]
    fn read_names(&mut self, file: &[u8]) -> bool {
        let places = &self.places[..self.count.min(MOST_SLAVES)];
        match places {
            [] => false,
            [only] => {
                self.names[0] = only.logical_name(file);
                false
            }
            [first, second] => {
                [self.names[0], self.names[1]] = [first, second].map(|slave| slave.logical_name(file));
                first.physical_name(file) == second.physical_name(file)
            }
            _ => {
                let mut seen = [false; 256];
                let mut seen_twice = false;
                for (slave, name) in places.iter().zip(&mut self.names) {
                    *name = slave.logical_name(file);
                    let mark = &mut seen[usize::from(slave.last_of_physical_name(file))];
                    seen_twice |= *mark;
                    *mark = true;
                }
                seen_twice && equal_physical_names(file, places)
            }
        }
    }

    /// Ground 22, which only the loading of a file asks for: two slaves of one logical name other than 0xFF.
    #[inline(always)]
    pub fn equal_logical_names(&self) -> bool {
        match *self.names() {
            [] | [_] => false,
            [first, second] => first == second && first != UNNAMED,
            ref names => {
                let mut seen = [false; 256];
                let mut twice = false;
                for &name in names {
                    twice |= seen[usize::from(name)];
                    seen[usize::from(name)] = true;
                    seen[usize::from(UNNAMED)] = false;
                }
                twice
            }
        }
    }

    #[inline(always)]
    pub fn slaves(&self) -> Range<usize> {
        0..self.count.min(MOST_SLAVES)
    }

    /// The logical names in the order of the table.
    #[inline(always)]
    pub fn names(&self) -> &[u8] {
        &self.names[self.slaves()]
    }

    /// Those whom a name addresses, a bit a slave; who sleeps is not addressed.
    #[inline(always)]
    pub fn addressed(&self, file: &[u8], name: u8) -> u64 {
        let addressed = match name {
            BROADCAST => self.everyone() & !self.holders(UNNAMED),
            _ => self.holders(name),
        };
        if self.someone_sleeps {
            addressed & !self.sleepers(file)
        } else {
            addressed
        }
    }

    fn everyone(&self) -> u64 {
        u64::MAX.checked_shr(u64::BITS - self.slaves().len() as u32).unwrap_or(0)
    }

    /// Those of a name, eight at a time. Behind the last slave the names are 0x00, which is not asked for.
    #[inline(always)]
    fn holders(&self, name: u8) -> u64 {
        let words = self.names.as_chunks().0.iter().take(self.slaves().len().div_ceil(BYTES_OF_A_WORD));
        let mut holders = 0;
        for (at, word) in words.enumerate() {
            let differences = u64::from_le_bytes(*word) ^ (EACH_BYTE * u64::from(name));
            holders |= bits_of_zeros(differences) << (BYTES_OF_A_WORD * at);
        }
        holders
    }

    /// Cold, since who sleeps is awake after the next round.
    #[cold]
    #[inline(never)]
    fn sleepers(&self, file: &[u8]) -> u64 {
        self.slaves().map(|slave| u64::from(file[sleep_place::<ENTRY>(slave)]) << slave).sum()
    }

    /// After a round: these sleep, a bit a slave, and everyone else is awake. Mostly nobody slept and nobody does, so
    /// that nothing is stored.
    #[inline(always)]
    pub fn rest(&mut self, file: &mut [u8], sleepers: u64) {
        if self.someone_sleeps || sleepers != 0 {
            self.store_sleepers(file, sleepers);
        }
    }

    /// Cold for the same reason.
    #[cold]
    #[inline(never)]
    fn store_sleepers(&mut self, file: &mut [u8], sleepers: u64) {
        for slave in self.slaves() {
            file[sleep_place::<ENTRY>(slave)] = (sleepers >> slave & 1) as u8;
        }
        self.someone_sleeps = sleepers != 0;
    }

    /// Gives a slave its new logical name, here and in the file.
    #[inline(always)]
    pub fn rename(&mut self, file: &mut [u8], slave: usize) {
        let place = self.configuration(slave) + LOGICAL_NAME;
        self.names[slave] = file[place - 1];
        file[place] = self.names[slave];
    }

    /// Where the bytes of file 0x08 begin.
    #[inline(always)]
    pub fn configuration(&self, slave: usize) -> usize {
        usize::from(self.places[slave].configuration)
    }

    /// Where the bytes of file 0x3D begin.
    #[inline(always)]
    pub fn documentation(&self, slave: usize) -> usize {
        usize::from(self.places[slave].documentation)
    }

    #[inline(always)]
    pub fn physical_name(&self, file: &[u8], slave: usize) -> u64 {
        self.places[slave].physical_name(file)
    }

    #[inline(always)]
    pub fn comparison_value(&self, file: &[u8], slave: usize) -> u64 {
        u64_at(file, self.configuration(slave) + COMPARISON_VALUE)
    }

    /// Where a slave keeps a file, and how many bytes it has.
    #[inline(always)]
    pub fn find(&self, file: &[u8], slave: usize, number: u8) -> Option<(usize, usize)> {
        find_in(self.directory(file, slave), number)
    }

    /// Where a slave keeps a record, if it has it.
    #[inline(always)]
    pub fn record(&self, file: &[u8], slave: usize, number: u8, record: u8) -> Option<usize> {
        let (place, size) = self.find(file, slave, number)?;
        let offset = 4 * usize::from(record);
        (offset < size).then_some(place + offset)
    }

    /// The directory entries of a slave.
    #[inline(always)]
    pub fn directory<'a>(&self, file: &'a [u8], slave: usize) -> &'a [[u8; ENTRY]] {
        let entry = Edition::of::<ENTRY>().header_bytes + ENTRY * slave;
        let entry: &[u8; ENTRY] = file[entry..entry + ENTRY].try_into().expect("a table entry");
        let place = directory_place(entry) as usize;
        file[place..place + ENTRY * file_count(entry)].as_chunks().0
    }

    /// The entries of the table.
    #[inline(always)]
    pub fn table<'a>(&self, file: &'a [u8]) -> &'a [[u8; ENTRY]] {
        file[Edition::of::<ENTRY>().header_bytes..self.body()].as_chunks().0
    }

    /// Where the slaves' directories and files begin, behind the table.
    #[inline(always)]
    pub fn body(&self) -> usize {
        Edition::of::<ENTRY>().header_bytes + ENTRY * self.slaves().len()
    }
}

/// The byte of a table entry that is 0 awake, 1 asleep.
fn sleep_place<const ENTRY: usize>(slave: usize) -> usize {
    Edition::of::<ENTRY>().header_bytes + ENTRY * slave + ENTRY / 2 + 1
}

impl Places {
    /// In a walked directory whose files begin at this place: 0x08 with at least 3 records and 0x3D with at least 2. Mostly they
    /// are the first and the last. None where one lacks or a number is too high.
    #[inline(always)]
    fn find<const ENTRY: usize>(directory: &[[u8; ENTRY]], files: u32) -> Option<Places> {
        let ([first, ..], [.., last]) = (directory, directory) else {
            return None;
        };
        let configuration = match first[..2] {
            [CONFIGURATION, 3..=255] => files as u16,
            _ => configuration_in(directory)?,
        };
        let documentation = match last[..2] {
            [DOCUMENTATION, 2..=255] => place_in(last),
            // Numbers rise, so if the last one is not too high none is.
            [FILES..=255, _] => return None,
            _ => documentation_in(directory)?,
        };
        Some(Places { configuration, documentation })
    }

    #[inline(always)]
    fn logical_name(self, file: &[u8]) -> u8 {
        file[usize::from(self.configuration) + LOGICAL_NAME]
    }

    #[inline(always)]
    fn last_of_physical_name(self, file: &[u8]) -> u8 {
        file[usize::from(self.documentation) + PHYSICAL_NAME_END]
    }

    #[inline(always)]
    fn physical_name(self, file: &[u8]) -> u64 {
        u64_at(file, usize::from(self.documentation) + PHYSICAL_NAME)
    }
}

/// Only a physical name whose last byte was seen is compared with those before.
fn equal_physical_names(file: &[u8], places: &[Places]) -> bool {
    let mut seen = [false; 256];
    places.iter().enumerate().any(|(slave, of_slave)| {
        let name = of_slave.physical_name(file);
        let is_seen = std::mem::replace(&mut seen[name as usize & 0xFF], true);
        is_seen && places[..slave].iter().any(|other| other.physical_name(file) == name)
    })
}

/// The directory of a table entry, which states this place.
#[inline(always)]
fn directory_at<'a, const ENTRY: usize>(
    file: &'a [u8],
    entry: &[u8; ENTRY],
    place: u32,
) -> Option<&'a [[u8; ENTRY]]> {
    if directory_place(entry) != place {
        return None;
    }
    let place = place as usize;
    Some(file.get(place..place + ENTRY * file_count(entry))?.as_chunks().0)
}

/// Ground 6 or 7 of a file in which a slave lacks one of its two files, or has a number that is too high. Cold, since it turns the
/// file away.
#[cold]
#[inline(never)]
fn ground_of_lacking<const ENTRY: usize>(file: &[u8], table: &[[u8; ENTRY]], place: u32) -> u8 {
    let walked = table.iter().try_fold(place, |place, entry| {
        let directory = directory_at(file, entry, place)?;
        let is_right = directory.last().is_none_or(|last| last[0] < FILES);
        walk_directory(directory, place + size_of_val(directory) as u32).filter(|_| is_right)
    });
    if walked == Some(file.len() as u32) {
        7
    } else {
        BROKEN_LAYOUT
    }
}

/// The place of the directory that a table entry states, its first half.
#[inline(always)]
pub fn directory_place<const ENTRY: usize>(entry: &[u8; ENTRY]) -> u32 {
    match entry[..] {
        [a, b, _, _] => u16::from_be_bytes([a, b]).into(),
        [a, b, c, d, ..] => u32::from_be_bytes([a, b, c, d]),
        _ => unreachable!("four bytes or eight"),
    }
}

/// The second half of a table entry, its first byte the lowest: file count, sleep byte and, in the wider one, two zeros.
#[inline(always)]
fn end_of<const ENTRY: usize>(entry: &[u8; ENTRY]) -> u32 {
    match entry[..] {
        [_, _, a, b] => u16::from_le_bytes([a, b]).into(),
        [_, _, _, _, a, b, c, d] => u32::from_le_bytes([a, b, c, d]),
        _ => unreachable!("four bytes or eight"),
    }
}

/// How many files a table entry counts.
#[inline(always)]
pub fn file_count<const ENTRY: usize>(entry: &[u8; ENTRY]) -> usize {
    usize::from(entry[ENTRY / 2])
}

/// The place behind the slave's last file, or None where an entry breaks the layout; that its number is not too high is left to
/// [`Places::find`]. Places are compared modulo 65,536: where they pass that, the one returned is past the end.
#[inline(always)]
fn walk_directory<const ENTRY: usize>(directory: &[[u8; ENTRY]], place: u32) -> Option<u32> {
    let [first, rest @ ..] = directory else {
        return Some(place);
    };
    let mut place = behind(first, place)?;
    let mut number_before = first[0];
    for entry in rest {
        if entry[0] <= number_before {
            return None;
        }
        number_before = entry[0];
        place = behind(entry, place)?;
    }
    Some(place)
}

/// The place behind the file of an entry, which has records, states this place and has zeros where it has to.
#[inline(always)]
fn behind<const ENTRY: usize>(entry: &[u8; ENTRY], place: u32) -> Option<u32> {
    let records = u32::from(entry[1]);
    (records != 0 && place_in(entry) == place as u16 && are_zeros_right(entry))
        .then_some(place + 4 * records + 4)
}

/// The same for long directories: each entry is held against the next, whatever comes out, as many pairs as vectors take first and
/// then the last ones, some of them again.
#[inline(never)]
fn walk_long_directory<const ENTRY: usize>(directory: &[[u8; ENTRY]], place: u32) -> Option<u32> {
    let ([first, rest @ ..], [.., last], Some(last_pairs)) =
        (directory, directory, directory.last_chunk::<{ PAIRS_AT_ONCE + 1 }>())
    else {
        return walk_directory(directory, place);
    };
    let pairs = rest.len() / PAIRS_AT_ONCE * PAIRS_AT_ONCE;
    let is_right = u32::from(place_in(first)) == place
        && are_zeros_right(first)
        && are_pairs_right(&directory[..pairs + 1])
        && are_pairs_right(last_pairs)
        && last[1] != 0;
    is_right.then_some(u32::from(place_in(last)) + size_in(last) as u32)
}

/// Nothing leaves the loop, so that the compiler makes it one over vectors.
#[inline(always)]
fn are_pairs_right<const ENTRY: usize>(entries: &[[u8; ENTRY]]) -> bool {
    let mut wrong = 0;
    // Below 0 where a number does not rise, or there is no record.
    let mut differences = 0;
    for (entry, next) in entries.iter().zip(&entries[1..]) {
        let behind = place_in_halves(entry) + 4 * records_in(entry) + 4;
        wrong |= place_in_halves(next) ^ behind | zeros_in(next);
        differences |= number_in(next).wrapping_sub(number_in(entry) + 1) | records_in(entry).wrapping_sub(1);
    }
    wrong == 0 && differences as i32 >= 0
}

/// The halves of the wider entry, or twice the narrower one, their first bytes the lowest.
#[inline(always)]
fn halves_of<const ENTRY: usize>(entry: &[u8; ENTRY]) -> [u32; 2] {
    let half = |at: usize| u32::from_le_bytes([entry[at], entry[at + 1], entry[at + 2], entry[at + 3]]);
    [half(0), half(ENTRY - 4)]
}

#[inline(always)]
fn number_in<const ENTRY: usize>(entry: &[u8; ENTRY]) -> u32 {
    halves_of(entry)[0] & 0xFF
}

#[inline(always)]
fn records_in<const ENTRY: usize>(entry: &[u8; ENTRY]) -> u32 {
    halves_of(entry)[0] >> 8 & 0xFF
}

#[inline(always)]
fn place_in_halves<const ENTRY: usize>(entry: &[u8; ENTRY]) -> u32 {
    let half = halves_of(entry)[1];
    half >> 8 & 0xFF00 | half >> 24
}

/// The bits of the wider entry between its record count and the last two bytes of the place, which have to be zeros.
#[inline(always)]
fn zeros_in<const ENTRY: usize>(entry: &[u8; ENTRY]) -> u32 {
    if ENTRY == NARROW_ENTRY {
        return 0;
    }
    let [first, second] = halves_of(entry);
    first >> 16 | second & 0xFFFF
}

/// The place of file 0x08 with at least 3 records. Numbers rise, so it is among the first nine.
#[inline(always)]
fn configuration_in<const ENTRY: usize>(directory: &[[u8; ENTRY]]) -> Option<u16> {
    let entry = directory.iter().find(|entry| entry[0] >= CONFIGURATION)?;
    (entry[0] == CONFIGURATION && entry[1] >= 3).then_some(place_in(entry))
}

/// The place of file 0x3D with at least 2 records. Only 0x3E and 0x3F can come after it.
#[inline(always)]
fn documentation_in<const ENTRY: usize>(directory: &[[u8; ENTRY]]) -> Option<u16> {
    let entry = directory.iter().rfind(|entry| entry[0] <= DOCUMENTATION)?;
    (entry[0] == DOCUMENTATION && entry[1] >= 2).then_some(place_in(entry))
}

/// Place and size of the file of this number. Numbers rise, so the search ends at the first that is not below.
#[inline(always)]
pub fn find_in<const ENTRY: usize>(directory: &[[u8; ENTRY]], number: u8) -> Option<(usize, usize)> {
    let entry = directory.iter().find(|entry| entry[0] >= number)?;
    (entry[0] == number).then_some((usize::from(place_in(entry)), size_in(entry)))
}

/// The range of the bytes of the file of a directory entry.
#[inline(always)]
pub fn range_in<const ENTRY: usize>(entry: &[u8; ENTRY]) -> Range<usize> {
    let place = usize::from(place_in(entry));
    place..place + size_in(entry)
}

/// How many bytes the file of a directory entry has.
#[inline(always)]
pub fn size_in<const ENTRY: usize>(entry: &[u8; ENTRY]) -> usize {
    4 * usize::from(entry[1]) + 4
}

/// The place that a directory entry states, in its last bytes; it is below 65,536.
#[inline(always)]
pub fn place_in<const ENTRY: usize>(entry: &[u8; ENTRY]) -> u16 {
    u16::from_be_bytes([entry[ENTRY - 2], entry[ENTRY - 1]])
}

/// Whether the wider entry has zeros between its record count and the last two bytes of the place.
#[inline(always)]
fn are_zeros_right<const ENTRY: usize>(entry: &[u8; ENTRY]) -> bool {
    ENTRY == NARROW_ENTRY || u32::from_le_bytes([entry[2], entry[3], entry[ENTRY - 4], entry[ENTRY - 3]]) == 0
}

/// Which of a word's bytes are zero, the first one the lowest bit.
#[inline(always)]
fn bits_of_zeros(word: u64) -> u64 {
    const LOW_BITS: u64 = 0x7F * EACH_BYTE;
    /// Moves the bit of each byte, from the lowest on, to its place in the highest byte.
    const GATHER: u64 = 0x0102_0408_1020_4080;
    let zeros = !(((word & LOW_BITS) + LOW_BITS) | word | LOW_BITS);
    (zeros >> 7).wrapping_mul(GATHER) >> 56
}

/// Calls for each bit from the lowest on.
#[inline(always)]
pub fn for_each_bit(mut bits: u64, mut act: impl FnMut(usize)) {
    while bits != 0 {
        act((bits.trailing_zeros() & 63) as usize);
        bits &= bits - 1;
    }
}
