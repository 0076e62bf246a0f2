//! Two files in one. What lies behind a table stays as it is but for its places, which all rise by the same number, so that a
//! file of the first one's edition is copied in one piece; one of the other edition is laid out as in a conversion.

use crate::conversion::{converted_length, put_slaves, table_entry};
use crate::edition::{bytes_of, in_edition, is_wide, word_of, Edition, NARROW_ENTRY, WIDE_ENTRY};
use crate::survey::{directory_place, file_count, Survey, LOGICAL_NAME};
use crate::UNNAMED;

const SHARED_PHYSICAL_NAME: u8 = 29;
const JOINED_LIMITS: u8 = 30;

/// A file that was walked.
struct Walked<'a, const ENTRY: usize> {
    file: &'a [u8],
    survey: Survey<ENTRY>,
}

pub fn join(first: &[u8], second: &[u8], buffer: &mut [u8], length: &mut u64) -> u8 {
    in_edition!(first, join_to(first, second, buffer, length))
}

fn join_to<const TO: usize>(first: &[u8], second: &[u8], buffer: &mut [u8], length: &mut u64) -> u8 {
    let mut first = Walked::<TO> { file: first, survey: Survey::new() };
    let ground = first.survey.walk(first.file);
    if ground != 0 {
        return ground;
    }
    if is_wide(second) {
        first.join::<WIDE_ENTRY>(second, buffer, length)
    } else {
        first.join::<NARROW_ENTRY>(second, buffer, length)
    }
}

impl<const TO: usize> Walked<'_, TO> {
    /// With a second file, whose entries have FROM bytes.
    fn join<const FROM: usize>(&self, second: &[u8], buffer: &mut [u8], length: &mut u64) -> u8 {
        let mut second = Walked::<FROM> { file: second, survey: Survey::new() };
        let ground = second.survey.walk(second.file);
        if ground != 0 {
            return ground;
        }
        if self.shares_a_physical_name(&second) {
            return SHARED_PHYSICAL_NAME;
        }
        let to = Edition::of::<TO>();
        let slaves = self.survey.slaves().len() + second.survey.slaves().len();
        let joined =
            self.file.len() - to.header_bytes + converted_length::<FROM, TO>(second.file, &second.survey);
        if slaves > usize::from(to.most_slaves) || joined > to.most_bytes {
            return JOINED_LIMITS;
        }
        let Some(front) = buffer.get_mut(..joined) else {
            return JOINED_LIMITS;
        };
        self.put(&second, slaves, front);
        *length = joined as u64;
        0
    }

    /// Only a name whose last byte one of the first has is compared with those.
    #[inline(always)]
    fn shares_a_physical_name<const FROM: usize>(&self, second: &Walked<FROM>) -> bool {
        let mut seen = [false; 256];
        for slave in self.survey.slaves() {
            seen[self.survey.physical_name(self.file, slave) as usize & 0xFF] = true;
        }
        second.survey.slaves().any(|slave| {
            let name = second.survey.physical_name(second.file, slave);
            seen[name as usize & 0xFF] && self.has(name)
        })
    }

    fn has(&self, physical_name: u64) -> bool {
        self.survey.slaves().any(|slave| self.survey.physical_name(self.file, slave) == physical_name)
    }

    /// The front is as long as the joined file.
    #[inline(always)]
    fn put<const FROM: usize>(&self, second: &Walked<FROM>, slaves: usize, front: &mut [u8]) {
        let table = Edition::of::<TO>().header_bytes;
        Edition::put_header::<TO>(slaves, front);
        let place = self.put_moved(front, table, table + TO * slaves);
        let table = table + TO * self.survey.slaves().len();
        let mut held = [false; 256];
        for &name in self.survey.names() {
            held[usize::from(name)] = true;
        }
        if FROM == TO {
            second.put_moved(front, table, place);
            second.turn(front, place - second.survey.body(), &held);
        } else {
            second.put_converted::<TO>(front, table, place, &held);
        }
    }
}

impl<const FROM: usize> Walked<'_, FROM> {
    /// Turns the slaves whose name is held; their places in the front are so much greater than in the file.
    #[inline(always)]
    fn turn(&self, front: &mut [u8], rise: usize, held: &[bool; 256]) {
        for (slave, &name) in self.survey.names().iter().enumerate() {
            if held[usize::from(name)] {
                front[self.survey.configuration(slave) + rise + LOGICAL_NAME] = UNNAMED;
            }
        }
    }

    /// Copies what lies behind the table to this place of the front, and writes the table entries at theirs, all awake; the
    /// place behind it.
    #[inline(always)]
    fn put_moved(&self, front: &mut [u8], table: usize, place: usize) -> usize {
        let body = self.survey.body();
        let (rise, end) = ((place - body) as u64, place + self.file.len() - body);
        front[place..end].copy_from_slice(&self.file[body..]);
        for (slave, entry) in self.survey.table(self.file).iter().enumerate() {
            let directory = directory_place(entry) as usize + rise as usize;
            let at = table + FROM * slave;
            front[at..at + FROM].copy_from_slice(&table_entry::<FROM>(directory, file_count(entry), 0));
            let directory = directory..directory + FROM * file_count(entry);
            for entry in front[directory].as_chunks_mut::<FROM>().0 {
                *entry = bytes_of(word_of(entry) + rise);
            }
        }
        end
    }

    /// Writes the slaves one by one in the other edition likewise, and turns those whose name is held.
    #[inline(always)]
    fn put_converted<const TO: usize>(&self, front: &mut [u8], table: usize, place: usize, held: &[bool; 256]) {
        put_slaves::<FROM, TO>(self.file, &self.survey, front, table, place, |front, slave, rise| {
            front[table + TO * slave + TO / 2 + 1] = 0;
            if held[usize::from(self.survey.names()[slave])] {
                let name = self.survey.configuration(slave) + LOGICAL_NAME;
                front[name.wrapping_add(rise)] = UNNAMED;
            }
        });
    }
}
