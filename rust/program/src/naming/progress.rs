//! The line on a terminal's standard error that tells how far a run is. It is rewritten at most ten times a second, and cleared at the
//! end.

use super::Naming;
use crate::console::Console;
use std::time::{Duration, Instant};

const LEAST_PAUSE: Duration = Duration::from_millis(100);
const CLEAR: &str = "\r\x1b[K";

/// The places of a pass, among 200: the read, the question whether anyone is there, three rounds for each bit, the name, the value, the
/// execute.
const PLACES: u64 = 200;
const QUESTION: u64 = 1;
const FIRST_BIT: u64 = 4;
const NEW_NAME: u64 = 196;
const BAPTIZE: u64 = 199;
const ROUNDS_OF_A_BIT: u64 = 3;
const HIGHEST_BIT: u64 = 63;
const DIGIT_BITS: u64 = 4;

pub struct Progress {
    last: Instant,
    shown: bool,
}

impl Progress {
    /// Nothing is shown in the first tenth of a second: most runs have ended by then.
    pub fn from(now: Instant) -> Progress {
        Progress { last: now, shown: false }
    }

    /// Shows the line, where there is a terminal and the last one is old enough.
    pub fn show(&mut self, console: &mut Console, line: impl FnOnce() -> String) {
        if console.look.progress && self.is_due(Instant::now()) {
            self.shown = true;
            let _ = write!(console.messages, "{CLEAR}{}", line());
            let _ = console.messages.flush();
        }
    }

    fn is_due(&mut self, now: Instant) -> bool {
        let due = now.duration_since(self.last) >= LEAST_PAUSE;
        if due {
            self.last = now;
        }
        due
    }

    /// Takes the line away, so that another one can be written.
    pub fn clear(&mut self, console: &mut Console) {
        if self.shown {
            self.shown = false;
            let _ = write!(console.messages, "{CLEAR}");
            let _ = console.messages.flush();
        }
    }
}

/// `03  bit 42  00000.........  place 68 of 200  207 rounds`
pub fn line(naming: &Naming) -> String {
    let run = &naming.run;
    let name = naming.names.get(run.index() as usize).map_or(String::new(), |name| format!("{name:02X}"));
    let place = run.next_round();
    let doing = match place {
        0 => "read".to_string(),
        QUESTION..FIRST_BIT => "anyone".to_string(),
        FIRST_BIT..NEW_NAME => format!("bit {:2}", bit(place)),
        NEW_NAME..BAPTIZE => "write".to_string(),
        _ => "baptize".to_string(),
    };
    let rounds = run.rounds();
    format!("{name}  {doing}  {}  place {place} of {PLACES}  {rounds} rounds", known(place, run.value()))
}

/// The bit that a place among those of the bits asks for.
fn bit(place: u64) -> u64 {
    HIGHEST_BIT.saturating_sub((place - FIRST_BIT) / ROUNDS_OF_A_BIT)
}

/// The digits of the value that are settled, points for the others.
fn known(place: u64, value: u64) -> String {
    let settled = match place {
        0..FIRST_BIT => 0,
        FIRST_BIT..NEW_NAME => (HIGHEST_BIT - bit(place)) / DIGIT_BITS,
        _ => (HIGHEST_BIT + 1) / DIGIT_BITS,
    };
    let shown = |(at, digit)| if (at as u64) < settled { digit } else { '.' };
    format!("{value:016X}").chars().enumerate().map(shown).collect()
}

#[cfg(test)]
mod tests {
    use super::*;

    #[test]
    fn the_line_is_rewritten_at_most_ten_times_a_second() {
        let start = Instant::now();
        let mut progress = Progress::from(start);
        let due = (0..=1000).filter(|&tick| progress.is_due(start + Duration::from_millis(tick)));
        assert_eq!(due.collect::<Vec<_>>(), [100, 200, 300, 400, 500, 600, 700, 800, 900, 1000]);
    }

    /// The line of a run over 01, 02 and 03 that is at its second name.
    fn line_at(place: u64) -> String {
        let run = ttpa::Run::from_words([0, 1, place, 0x7_0000_0042, 207, 66, 0, 0]);
        line(&Naming {
            file: Vec::new(),
            names: vec![1, 2, 3],
            run,
            counted: Default::default(),
            given: Vec::new(),
            search: None,
        })
    }

    #[test]
    fn the_line_tells_what_is_done() {
        assert_eq!(line_at(0), "02  read  ................  place 0 of 200  207 rounds");
        assert_eq!(line_at(1), "02  anyone  ................  place 1 of 200  207 rounds");
        assert_eq!(line_at(3), "02  anyone  ................  place 3 of 200  207 rounds");
        assert_eq!(line_at(4), "02  bit 63  ................  place 4 of 200  207 rounds");
        assert_eq!(line_at(195), "02  bit  0  000000070000004.  place 195 of 200  207 rounds");
        assert_eq!(line_at(196), "02  write  0000000700000042  place 196 of 200  207 rounds");
        assert_eq!(line_at(198), "02  write  0000000700000042  place 198 of 200  207 rounds");
        assert_eq!(line_at(199), "02  baptize  0000000700000042  place 199 of 200  207 rounds");
    }

    #[test]
    fn digits_are_shown_when_all_their_bits_are_settled() {
        assert_eq!((bit(4), bit(6), bit(7), bit(195)), (63, 63, 62, 0));
        assert_eq!(known(0, 0x7_0000_0042), "................");
        assert_eq!(known(4, 0x7_0000_0042), "................");
        // bit 60 is asked for: three bits are settled
        assert_eq!(known(4 + 9, u64::MAX), "................");
        assert_eq!(known(4 + 12, u64::MAX), "F...............");
        assert_eq!(known(4 + 3 * 32, 0x7_0000_0042), "00000007........");
        assert_eq!(known(196, 0x7_0000_0042), "0000000700000042");
    }
}
