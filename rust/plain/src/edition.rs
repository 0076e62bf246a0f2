//! The two editions of the file: where each has what, and grounds 1 to 5.

/// The bytes of an entry of the table or of a directory. They tell the editions apart: code that goes by the edition has them as
/// a parameter, so that the numbers of an edition are constants there.
pub const NARROW_ENTRY: usize = 4;
pub const WIDE_ENTRY: usize = 8;

/// The numbers of an edition.
pub struct Edition {
    pub number: u8,
    pub header_bytes: usize,
    pub most_bytes: usize,
    pub most_slaves: u8,
    /// Where the header has the epoch, behind the table offset and the length.
    pub epoch: usize,
}

const NARROW: Edition = Edition { number: 1, header_bytes: 16, most_bytes: 32_768, most_slaves: 32, epoch: 8 };
const WIDE: Edition = Edition { number: 2, header_bytes: 24, most_bytes: 65_536, most_slaves: 64, epoch: 12 };

const MARK: [u8; 2] = [0x54, 0x41];

/// Calls a function in the form for the edition of a file, which byte 2 alone tells.
macro_rules! in_edition {
    ($file:expr, $function:ident($($argument:expr),*)) => {
        if $crate::edition::is_wide($file) {
            $function::<{ $crate::edition::WIDE_ENTRY }>($($argument),*)
        } else {
            $function::<{ $crate::edition::NARROW_ENTRY }>($($argument),*)
        }
    };
}
pub(crate) use in_edition;

pub fn is_wide(file: &[u8]) -> bool {
    file.get(2) == Some(&WIDE.number)
}

impl Edition {
    /// The edition whose entries have so many bytes.
    pub const fn of<const ENTRY: usize>() -> Edition {
        if ENTRY == WIDE_ENTRY {
            WIDE
        } else {
            NARROW
        }
    }

    /// Writes the header of a file of so many bytes; epoch, flag and pending bytes are 0.
    #[inline(always)]
    pub fn put_header<const ENTRY: usize>(slaves: usize, front: &mut [u8]) {
        let edition = Edition::of::<ENTRY>();
        let offsets = offsets::<ENTRY>(front.len());
        front[..edition.header_bytes].fill(0);
        front[..4].copy_from_slice(&[MARK[0], MARK[1], edition.number, slaves as u8]);
        front[4..4 + ENTRY].copy_from_slice(&bytes_of::<ENTRY>(offsets));
    }
}

/// Grounds 1 to 5: the first that holds, or 0.
#[inline(always)]
pub fn header_ground<const ENTRY: usize>(file: &[u8]) -> u8 {
    if is_header_right::<ENTRY>(file) {
        0
    } else {
        first_header_ground::<ENTRY>(file)
    }
}

/// Whether none of the grounds 1 to 5 holds, in a few tests of several bytes each.
#[inline(always)]
fn is_header_right<const ENTRY: usize>(file: &[u8]) -> bool {
    let edition = Edition::of::<ENTRY>();
    let Some(header) = file.get(..edition.header_bytes) else {
        return false;
    };
    // Behind the last pending byte there are zeros only.
    let (Some(offsets), Some(end)) = (header[4..].first_chunk(), header.last_chunk()) else {
        return false;
    };
    let [_, flag, name, pb2] = [0, 1, 2, 3].map(|at| header[edition.epoch + at]);
    file.len() <= edition.most_bytes
        && header[..3] == [MARK[0], MARK[1], edition.number]
        && header[3] <= edition.most_slaves
        && word_of::<ENTRY>(offsets) == self::offsets::<ENTRY>(file.len())
        && word_of::<ENTRY>(end) << 8 << (64 - 8 * ENTRY) == 0
        && (flag == 0 || flag == 1 && is_pending_right(name, pb2))
}

/// No operation 3, and no read at 0x00.
fn is_pending_right(name: u8, pb2: u8) -> bool {
    pb2 & 3 != 3 && (pb2 & 3 != 0 || name != 0)
}

/// Of a file that one of the grounds 1 to 5 turns away, and cold for that.
#[cold]
#[inline(never)]
fn first_header_ground<const ENTRY: usize>(file: &[u8]) -> u8 {
    let edition = Edition::of::<ENTRY>();
    if file.len() < edition.header_bytes || file.len() > edition.most_bytes {
        1
    } else if file[..2] != MARK {
        2
    } else if file[2] != edition.number {
        3
    } else if file[4 + ENTRY / 2..]
        .iter()
        .zip(&bytes_of::<ENTRY>(file.len() as u64)[ENTRY / 2..])
        .any(|(a, b)| a != b)
    {
        4
    } else {
        5
    }
}

/// Table offset and length, as the header of a file of so many bytes has them.
fn offsets<const ENTRY: usize>(length: usize) -> u64 {
    (Edition::of::<ENTRY>().header_bytes as u64) << (4 * ENTRY) | length as u64
}

/// Four or eight bytes as one number.
#[inline(always)]
pub fn word_of<const ENTRY: usize>(entry: &[u8; ENTRY]) -> u64 {
    match entry[..] {
        [a, b, c, d] => u32::from_be_bytes([a, b, c, d]).into(),
        [a, b, c, d, e, f, g, h] => u64::from_be_bytes([a, b, c, d, e, f, g, h]),
        _ => unreachable!("four bytes or eight"),
    }
}

/// The number in so many bytes.
#[inline(always)]
pub fn bytes_of<const ENTRY: usize>(word: u64) -> [u8; ENTRY] {
    *word.to_be_bytes().last_chunk().expect("four bytes or eight")
}
