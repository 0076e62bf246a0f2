//! A slave's file, read without a round.

use crate::edition::in_edition;
use crate::survey::Survey;

pub fn contents(file: &[u8], slave: u64, number: u8, buffer: &mut [u8], length: &mut u64) -> u8 {
    in_edition!(file, contents_in(file, slave, number, buffer, length))
}

#[inline(always)]
fn contents_in<const ENTRY: usize>(
    file: &[u8],
    slave: u64,
    number: u8,
    buffer: &mut [u8],
    length: &mut u64,
) -> u8 {
    let mut survey = Survey::<ENTRY>::new();
    let ground = survey.walk(file);
    if ground != 0 {
        return ground;
    }
    let there = slave < survey.slaves().len() as u64;
    let found = there.then(|| survey.find(file, slave as usize, number)).flatten();
    let (place, size) = found.unwrap_or((0, 0));
    let fits = size.min(buffer.len());
    buffer[..fits].copy_from_slice(&file[place..place + fits]);
    *length = size as u64;
    0
}
