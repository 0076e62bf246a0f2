//! Sorts of multipartner rounds with multiplexed entries that have to occur: which operation acted, and what was tried
//! after an entry out of turn.

use super::Sort;
use crate::case::{Call, Outcome};
use crate::frames::is_multipartner;
use crate::layout::LAST_SLOT;
use model::{check, round_of, File, FileNumber, Slave};

/// An entry of a round descriptor list before its end.
pub struct Entry {
    bytes: [u8; 4],
}

impl Entry {
    pub fn operation(&self) -> u8 {
        self.bytes[2] >> 4
    }

    pub fn is_multiplexed(&self) -> bool {
        self.operation() >= 8
    }

    pub fn is_multiplexed_send(&self) -> bool {
        self.is_multiplexed() && self.operation() % 2 == 1
    }

    pub fn is_multiplexed_receive(&self) -> bool {
        self.is_multiplexed() && self.operation().is_multiple_of(2)
    }

    pub fn covers(&self, slot: usize) -> bool {
        let (start, more) = (usize::from(self.bytes[3] & 63), usize::from(self.bytes[2] & 15));
        (start..=start + more).contains(&slot)
    }

    fn in_turn(&self, epoch: u8) -> bool {
        let multiplex = self.bytes[3] >> 6;
        match self.operation() {
            8 | 9 | 12 | 13 => epoch % 4 == multiplex,
            10 | 11 => epoch % 8 == multiplex,
            14 | 15 => epoch % 8 == multiplex + 4,
            _ => true,
        }
    }

    /// Whether it would do the opposite in this epoch if operations 8, 9, 12 and 13 went by the epoch modulo 8, and 10, 11,
    /// 14 and 15 by the epoch modulo 4.
    fn by_other_modulo(&self, epoch: u8) -> bool {
        let multiplex = self.bytes[3] >> 6;
        match self.operation() {
            8 | 9 | 12 | 13 => self.in_turn(epoch) && epoch % 8 != multiplex,
            _ => !self.in_turn(epoch) && epoch % 4 == multiplex,
        }
    }

    /// Whether it is a plain send of a byte of this file, which has so many.
    pub fn sends_from(&self, number: FileNumber, slot: usize, length: usize) -> bool {
        matches!(self.operation(), 1 | 5) && self.bytes[0] >> 2 == number.0 && self.place(slot) < length
    }

    fn place(&self, slot: usize) -> usize {
        4 * usize::from(self.bytes[1]) + usize::from(self.bytes[0] & 3) + slot - usize::from(self.bytes[3] & 63)
    }

    /// Whether the slave has a byte to send there, or a place where it stores what someone has sent.
    fn can_act(&self, slave: &Slave, slot: usize, someone_sent: bool) -> bool {
        let place = self.place(slot);
        let number = FileNumber(self.bytes[0] >> 2);
        let inside = slave.file(number).is_some_and(|file| place < file.bytes.len());
        let stores = someone_sent && place >= 4 && (0x10..=0x3C).contains(&number.0);
        inside && (self.operation() % 2 == 1 || stores)
    }
}

/// The entries of a round file before its end.
pub fn list_of(file: &File) -> Vec<Entry> {
    let entries = file.bytes.as_chunks().0.iter().skip(1).map(|&bytes| Entry { bytes });
    entries.take_while(|entry| !matches!(entry.operation(), 6 | 7)).collect()
}

/// What a round is an example of.
pub fn sorts(call: &Call, outcome: &Outcome) -> Vec<Sort> {
    let Call::Round { file, frame, .. } = call else {
        return Vec::new();
    };
    let (true, true, Ok(cluster)) = (outcome.number == 0, is_multipartner(frame), check(file)) else {
        return Vec::new();
    };
    let number = FileNumber(round_of(frame[0]).expect("a firework"));
    let mut sorts = Vec::new();
    for slave in cluster.slaves.iter().filter(|slave| !slave.is_unnamed() && !slave.asleep) {
        let list = slave.file(number).map(list_of).unwrap_or_default();
        if list.iter().any(Entry::is_multiplexed) {
            let in_slot = |slot| in_slot(slave, &list, slot, cluster.epoch.wrapping_add(1), outcome.mask());
            sorts.extend((1..=LAST_SLOT).flat_map(in_slot));
        }
    }
    let acted = sorts.iter().any(|sort| matches!(sort, Sort::Multiplexed(_)));
    sorts.extend((acted && cluster.epoch == u8::MAX).then_some(Sort::MultiplexedAfter255));
    sorts.sort_unstable();
    sorts.dedup();
    sorts
}

/// What a slave does in a slot that a multiplexed entry covers before any other.
fn in_slot(slave: &Slave, list: &[Entry], slot: usize, epoch: u8, mask: u64) -> Vec<Sort> {
    let covering: Vec<&Entry> = list.iter().filter(|entry| entry.covers(slot)).collect();
    if !covering.first().is_some_and(|entry| entry.is_multiplexed()) {
        return Vec::new();
    }
    let able = |entry: &Entry| entry.can_act(slave, slot, mask >> slot & 1 == 1);
    let turn = covering.iter().position(|entry| entry.in_turn(epoch));
    let mut sorts = Vec::new();
    for entry in covering[..turn.unwrap_or(covering.len())].iter().filter(|entry| able(entry)) {
        sorts.push(Sort::PassedOver(entry.operation()));
        sorts.extend(entry.by_other_modulo(epoch).then_some(Sort::OtherModulo(entry.operation())));
    }
    let Some(place) = turn else {
        sorts.push(Sort::NobodyInTurn);
        return sorts;
    };
    let (acting, hides) = (covering[place], place + 1 < covering.len());
    let can_act = able(acting);
    let acts_by_modulo = acting.is_multiplexed() && can_act && acting.by_other_modulo(epoch);
    let occurs = [
        (acts_by_modulo, Sort::OtherModulo(acting.operation())),
        (acting.is_multiplexed() && can_act, Sort::Multiplexed(acting.operation())),
        (acting.is_multiplexed() && !can_act && hides, Sort::MultiplexedHides),
        (place > 0 && acting.is_multiplexed(), Sort::PassedToMultiplexed),
        (place > 0 && !acting.is_multiplexed(), Sort::PassedToPlain),
    ];
    sorts.extend(occurs.into_iter().filter_map(|(occurs, sort)| occurs.then_some(sort)));
    sorts
}
