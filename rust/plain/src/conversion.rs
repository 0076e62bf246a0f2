//! Between the editions: header, table and directories are written anew, the files of a slave copied in one piece.

use crate::edition::{bytes_of, in_edition, Edition, NARROW_ENTRY, WIDE_ENTRY};
use crate::survey::{file_count, place_in, range_in, Survey};

const EDITION_LIMITS: u8 = 25;
const SHORT_BUFFER: u8 = 26;
/// Epoch, flag and the three pending bytes.
const STATE_BYTES: usize = 5;

pub fn to_edition_1(file: &[u8], buffer: &mut [u8], length: &mut u64) -> u8 {
    in_edition!(file, to_narrow(file, buffer, length))
}

pub fn to_edition_2(file: &[u8], buffer: &mut [u8], length: &mut u64) -> u8 {
    in_edition!(file, to_wide(file, buffer, length))
}

#[inline(always)]
fn to_narrow<const FROM: usize>(file: &[u8], buffer: &mut [u8], length: &mut u64) -> u8 {
    convert::<FROM, NARROW_ENTRY>(file, buffer, length)
}

#[inline(always)]
fn to_wide<const FROM: usize>(file: &[u8], buffer: &mut [u8], length: &mut u64) -> u8 {
    convert::<FROM, WIDE_ENTRY>(file, buffer, length)
}

#[inline(always)]
fn convert<const FROM: usize, const TO: usize>(file: &[u8], buffer: &mut [u8], length: &mut u64) -> u8 {
    let mut survey = Survey::<FROM>::new();
    let ground = survey.walk(file);
    if ground != 0 {
        return ground;
    }
    let converted = converted_length::<FROM, TO>(file, &survey);
    let to = Edition::of::<TO>();
    if survey.slaves().len() > usize::from(to.most_slaves) || converted > to.most_bytes {
        return EDITION_LIMITS;
    }
    let Some(front) = buffer.get_mut(..converted) else {
        return SHORT_BUFFER;
    };
    if FROM == TO {
        front.copy_from_slice(file);
    } else {
        put::<FROM, TO>(file, &survey, front);
    }
    *length = converted as u64;
    0
}

/// Header and entries change their size, the bytes of files do not.
#[inline(always)]
pub fn converted_length<const FROM: usize, const TO: usize>(file: &[u8], survey: &Survey<FROM>) -> usize {
    if FROM == TO {
        return file.len();
    }
    let entries: usize = survey.table(file).iter().map(|entry| 1 + file_count(entry)).sum();
    let without_entries = file.len() - Edition::of::<FROM>().header_bytes - FROM * entries;
    Edition::of::<TO>().header_bytes + TO * entries + without_entries
}

/// The front is as long as the converted file. Entries of FROM bytes become such of TO bytes.
#[inline(always)]
fn put<const FROM: usize, const TO: usize>(file: &[u8], survey: &Survey<FROM>, front: &mut [u8]) {
    let (from, to) = (Edition::of::<FROM>(), Edition::of::<TO>());
    Edition::put_header::<TO>(survey.slaves().len(), front);
    front[to.epoch..to.epoch + STATE_BYTES].copy_from_slice(&file[from.epoch..from.epoch + STATE_BYTES]);
    let (table, place) = (to.header_bytes, to.header_bytes + TO * survey.slaves().len());
    put_slaves::<FROM, TO>(file, survey, front, table, place, |_, _, _| ());
}

/// Writes the slaves one by one: the table entries at their place of the front, directories and files at theirs. Behind each one
/// the front is handed on with the slave and with how much the places of its files have risen, which may wrap.
#[inline(always)]
pub fn put_slaves<const FROM: usize, const TO: usize>(
    file: &[u8],
    survey: &Survey<FROM>,
    front: &mut [u8],
    table: usize,
    mut place: usize,
    mut finish: impl FnMut(&mut [u8], usize, usize),
) {
    for (slave, entry) in survey.table(file).iter().enumerate() {
        let directory = survey.directory(file, slave);
        let at = table + TO * slave;
        front[at..at + TO].copy_from_slice(&table_entry::<TO>(place, directory.len(), entry[FROM / 2 + 1]));
        // Each slave has two files at least.
        let [first, .., last] = directory else { continue };
        let files = range_in(first).start..range_in(last).end;
        let rise = (place + TO * directory.len()).wrapping_sub(files.start);
        place = put_directory::<FROM, TO>(directory, front, place, rise);
        let end = place + files.len();
        front[place..end].copy_from_slice(&file[files]);
        place = end;
        finish(front, slave, rise);
    }
}

#[inline(always)]
pub fn table_entry<const ENTRY: usize>(directory: usize, count: usize, sleep: u8) -> [u8; ENTRY] {
    let end = (count as u64) << 8 | u64::from(sleep);
    bytes_of((directory as u64) << (4 * ENTRY) | end << (4 * ENTRY - 16))
}

/// A slave's directory at this place of the front. Its files stand in one piece in both editions, so that all their places rise
/// by the same number. Returns the place behind the directory.
#[inline(always)]
fn put_directory<const FROM: usize, const TO: usize>(
    directory: &[[u8; FROM]],
    front: &mut [u8],
    place: usize,
    rise: usize,
) -> usize {
    let files = place + TO * directory.len();
    for (entry, into) in directory.iter().zip(front[place..files].as_chunks_mut::<TO>().0) {
        (into[0], into[1]) = (entry[0], entry[1]);
        into[2..TO - 2].fill(0);
        [into[TO - 2], into[TO - 1]] = place_in(entry).wrapping_add(rise as u16).to_be_bytes();
    }
    files
}
