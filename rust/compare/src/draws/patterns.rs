//! Random nine-bit patterns of the line, among them fireworks with some of their bits flipped.

use super::random::Random;
use crate::campaign::Campaign;
use crate::case::Call;
use crate::engine::FIREWORK;
use crate::sorts::patterns::{firework_patterns, BITS, PATTERNS};
use crate::sorts::Sort;

/// One in so many is a pattern just within or just above the 512.
const AT_THE_END: usize = 24;
/// "No firework pattern with one to three of its nine bits flipped is read as a firework."
const SAFE_FLIPS: usize = 3;

pub fn patterns(campaign: &mut Campaign, amount: usize, random: &mut Random) {
    for _ in 0..amount {
        match random.below(4) {
            0 => any(campaign, random),
            1 => above(campaign, random),
            _ => flipped(campaign, random),
        }
    }
}

fn any(campaign: &mut Campaign, random: &mut Random) {
    let pattern = if random.once_in(AT_THE_END) {
        random.one_of(&[0, PATTERNS - 1, PATTERNS, u16::MAX])
    } else {
        random.below(usize::from(PATTERNS)) as u16
    };
    campaign.call(&Call::Pattern { pattern });
}

/// Any bits above the nine, in half of them on a firework.
fn above(campaign: &mut Campaign, random: &mut Random) {
    let low = if random.once_in(2) {
        random.one_of(&firework_patterns())
    } else {
        random.below(usize::from(PATTERNS)) as u16
    };
    let high = random.between(1, usize::from(u16::MAX / PATTERNS)) as u16;
    campaign.call(&Call::Pattern { pattern: PATTERNS * high + low });
}

/// A firework with none to four of its bits flipped, four of which may make another of it.
fn flipped(campaign: &mut Campaign, random: &mut Random) {
    let firework = random.one_of(&firework_patterns());
    let mut mask = 0u16;
    let count = random.below(SAFE_FLIPS + 2);
    while mask.count_ones() < count as u32 {
        mask |= 1 << random.below(BITS);
    }
    let call = Call::Pattern { pattern: firework ^ mask };
    let outcome = campaign.call(&call);
    let is_firework = outcome.told() == Some(FIREWORK);
    if (1..=SAFE_FLIPS).contains(&count) && is_firework {
        campaign.differ(&call.line(&outcome), "a firework with flipped bits is read as one");
    }
    campaign.note_sorts([Sort::Flipped(count as u8)]);
    campaign.note_sorts((count > SAFE_FLIPS && is_firework).then_some(Sort::FlippedToFirework));
}
