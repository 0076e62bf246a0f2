//! Frames of a text that are sent between the steps of a run.

use crate::console::Stop;
use crate::frames_text::{self, Sent, OPERATIONS};
use crate::layout;
use crate::text::Lines;
use ttpa::{
    Address, ANSWER_BYTES, FILE_CONFIGURATION, FIREWORK_MSD, NAME_UNNAMED, OPERATION_READ, OPERATION_WRITE,
};

/// The record of file 08 that a naming run and others may both write.
const RECORD_NAMES: u8 = 1;

/// What is sent at once: a line, or an address frame and the data frame in the line below it.
#[derive(Clone, Debug, PartialEq, Eq)]
pub struct Unit {
    sent: Sent,
    data: Option<Vec<u8>>,
}

/// What became of a unit.
#[derive(Clone, Debug, PartialEq, Eq)]
pub enum Became {
    /// A complete round that the naming rule permits.
    Permitted,
    /// A complete round that it does not permit, and which.
    Uncovered(String),
    /// An address frame without its data frame or the other way round, which is no complete round.
    Lone(&'static str),
    /// Nothing, since the engine refuses it: the naming rule permits that too.
    Refused(ttpa::TtpaError),
}

impl Unit {
    pub fn of(sent: Sent) -> Unit {
        Unit { sent, data: None }
    }

    fn waits_for_data(&self) -> bool {
        let address = matches!(&self.sent, Sent::Frame(frame) if ttpa::read_address(frame).is_ok());
        address && self.data.is_none()
    }

    /// Sends the frames, those of a read, write or execute with the epoch plus 1.
    pub fn send(&self, file: &mut [u8]) -> Became {
        let frames = match &self.sent {
            Sent::Frame(frame) => Ok([frame.clone()].into_iter().chain(self.data.clone()).collect()),
            Sent::MasterSlave(round) => {
                frames_text::frames(*round, layout::epoch(file).wrapping_add(1)).map(Vec::from)
            }
        };
        let frames: Vec<Vec<u8>> = match frames {
            Ok(frames) => frames,
            Err(refusal) => return Became::Refused(refusal),
        };
        let results: Vec<_> =
            frames.iter().map(|frame| ttpa::round(file, frame, &mut [0; ANSWER_BYTES])).collect();
        let address = frames.first().and_then(|frame| ttpa::read_address(frame).ok());
        match (results.as_slice(), address) {
            ([Err(refusal), ..], _) => Became::Refused(*refusal),
            ([Ok(_), Ok(_)], Some(address)) => judge(&address),
            (_, Some(_)) => Became::Lone("an address frame without its data frame"),
            (_, None) if frames.first().is_some_and(|frame| frame.first() == Some(&FIREWORK_MSD)) => {
                Became::Lone("a data frame without its address frame")
            }
            (_, None) => Became::Permitted,
        }
    }
}

/// "permitted rounds (complete ones, but no write to or execute of 0x08)" (document 01, the naming run); "The naming theorem now permits
/// writes to record 1 of slaves with names 0x01 to 0xFE as well." (document 02, request 5)
fn judge(address: &Address) -> Became {
    let writes_names =
        address.operation == OPERATION_WRITE && address.record == RECORD_NAMES && address.name != NAME_UNNAMED;
    if address.file != FILE_CONFIGURATION || address.operation == OPERATION_READ || writes_names {
        return Became::Permitted;
    }
    let operation = OPERATIONS.get(usize::from(address.operation)).unwrap_or(&"");
    Became::Uncovered(format!("{operation} of file {FILE_CONFIGURATION:02X}"))
}

/// The units of a text in turn, from the first again after the last.
pub struct Between {
    /// As messages name the text.
    name: String,
    units: Vec<Line>,
    /// Before each step of a number that is a multiple of it.
    every: u64,
}

struct Line {
    unit: Unit,
    number: usize,
    /// Something was said of it.
    told: bool,
}

impl Between {
    pub fn read(mut lines: Lines, every: u64) -> Result<Between, Stop> {
        let mut units: Vec<Line> = Vec::new();
        while let Some(line) = lines.next_with_words()? {
            let sent = frames_text::read(&line).map_err(|words| lines.wrong(words))?;
            match (sent, units.last_mut().filter(|last| last.unit.waits_for_data())) {
                (Sent::Frame(data), Some(last)) if data.first() == Some(&FIREWORK_MSD) => {
                    last.unit.data = Some(data);
                }
                (sent, _) => units.push(Line { unit: Unit::of(sent), number: lines.number, told: false }),
            }
        }
        Ok(Between { name: lines.name, units, every })
    }

    /// Sends what is due after so many steps, and tells of each line once what is not as the naming rule has it; how many complete
    /// rounds it was.
    pub fn send(&mut self, made: u64, file: &mut [u8], tell: &mut dyn FnMut(&str)) -> u64 {
        let turn = match (made.checked_div(self.every), self.units.len()) {
            (Some(turn), count) if count > 0 && made % self.every == 0 => turn - 1,
            _ => return 0,
        };
        let place = (turn % self.units.len() as u64) as usize;
        let Line { unit, number, told } = &mut self.units[place];
        let became = unit.send(file);
        if let Some(words) = words(&became).filter(|_| !*told) {
            *told = true;
            tell(&format!("{}: line {number}: {words}", self.name));
        }
        match became {
            Became::Permitted | Became::Uncovered(_) => 1,
            Became::Lone(_) | Became::Refused(_) => 0,
        }
    }
}

/// `execute of file 08: the naming rule does not cover it`
fn words(became: &Became) -> Option<String> {
    const NOT_COVERED: &str = "the naming rule does not cover it";
    match became {
        Became::Permitted => None,
        Became::Uncovered(what) => Some(format!("{what}: {NOT_COVERED}")),
        Became::Lone(what) => Some(format!("{what}: {NOT_COVERED}")),
        Became::Refused(refusal) => Some(refusal.to_string()),
    }
}

#[cfg(test)]
mod tests {
    use super::*;
    use crate::trace_file::without_slaves;

    fn became(line: &str) -> Became {
        let sent = frames_text::read(line).expect("a line of frames");
        Unit::of(sent).send(&mut without_slaves(0))
    }

    #[test]
    fn the_rule_is_that_of_the_documents() {
        for permitted in [
            "round 2",
            "read 01 08 01",
            "read FF 08 02",
            "write FF 10 01 1 2 3 4",
            "write 01 08 01 1 2 3 4",
            "write 00 08 01 1 2 3 4",
            "execute FF 10 01",
            "execute 01 07 04",
        ] {
            assert_eq!(became(permitted), Became::Permitted, "{permitted}");
        }
        for (line, operation) in [
            ("write FF 08 01 0 0 5 5", "write"),
            ("write 01 08 02 0 0 0 0", "write"),
            ("write FF 08 03 0 0 0 0", "write"),
            ("execute FF 08 01", "execute"),
            ("execute 01 08 02", "execute"),
            ("execute 00 08 04", "execute"),
        ] {
            assert_eq!(became(line), Became::Uncovered(format!("{operation} of file 08")), "{line}");
        }
        assert_eq!(became("55 02 01 F4 02 A0"), Became::Lone("an address frame without its data frame"));
        assert_eq!(became("49"), Became::Lone("a data frame without its address frame"));
        assert_eq!(became("55 02 01 F4 02 A1"), Became::Refused(ttpa::TtpaError::CheckByte));
        assert_eq!(became("read 00 3D 01"), Became::Refused(ttpa::TtpaError::BroadcastRead));
    }

    fn between(text: &str, every: u64) -> Between {
        let mut bytes = text.as_bytes();
        Between::read(Lines::whole(&mut bytes, "t".to_string()), every).expect("good lines")
    }

    #[test]
    fn an_address_frame_and_its_data_frame_are_one_round() {
        let mut between = between("round 2\n55 02 01 F4 02 A0\n# its data\n49\n49\n", 1);
        assert_eq!(between.units.iter().map(|line| line.number).collect::<Vec<_>>(), [1, 2, 5]);
        let (mut file, mut told) = (without_slaves(0), Vec::new());
        let rounds: Vec<u64> = (1..=6)
            .map(|made| between.send(made, &mut file, &mut |words| told.push(words.to_string())))
            .collect();
        assert_eq!(rounds, [1, 1, 0, 1, 1, 0]);
        let lone = "t: line 5: a data frame without its address frame: the naming rule does not cover it";
        assert_eq!(told, [lone], "once");
    }

    /// What is no data frame is sent by itself.
    #[test]
    fn another_frame_below_an_address_frame_is_another_line() {
        let mut between = between("55 02 01 F4 02 A0\nBA\n", 1);
        assert_eq!(between.units.iter().map(|line| line.number).collect::<Vec<_>>(), [1, 2]);
        let mut file = without_slaves(0);
        let rounds: Vec<u64> = (1..=2).map(|made| between.send(made, &mut file, &mut |_| {})).collect();
        assert_eq!(rounds, [0, 1]);
    }

    #[test]
    fn a_text_has_at_most_so_many_lines() {
        let long = |lines: usize| format!("{}round 2\n", "\n".repeat(lines - 1));
        assert_eq!(between(&long(100_000), 1).units.len(), 1);
        let text = long(100_001);
        let stopped = Between::read(Lines::whole(&mut text.as_bytes(), "t".to_string()), 1);
        assert!(matches!(stopped, Err(Stop::Text { place, .. }) if place == "t:100001"));
    }

    #[test]
    fn lines_are_sent_before_each_so_manyth_step() {
        let mut between = between("round 2", 3);
        let mut file = without_slaves(0);
        let rounds: Vec<u64> = (1..8).map(|made| between.send(made, &mut file, &mut |_| {})).collect();
        assert_eq!(rounds, [0, 0, 1, 0, 0, 1, 0]);
    }
}
