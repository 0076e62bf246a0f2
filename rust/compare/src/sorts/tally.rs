//! How many calls were made, by kind, number and, of those carried out, what they did.

use crate::case::{Call, Outcome};
use crate::engine::{ReportWords, RunWords, DATA_BYTE, FIREWORK, NO_SCREEN};
use crate::two_lists::{Runs, TwoLists, TWO};
use model::{check, Cluster, Edition, End, FileNumber, Pending, Slave, MSA, MSD};
use std::collections::BTreeMap;

/// Each kind of call with what it can do when it is carried out, and the numbers that can refuse it. A whole run is a
/// kind of its own, and so are the runs over two lists.
const OUTCOMES: [(&str, &[&str], &[u8]); 23] = [
    ("check", &[PLAIN], CHECK_NUMBERS),
    ("read", &["read", "write", "execute"], READ_NUMBERS),
    ("write", &["read", "write", "execute"], WRITE_NUMBERS),
    ("data", &[PLAIN], DATA_NUMBERS),
    ("round", IN_A_ROUND, ROUND_NUMBERS),
    ("start", &["running", "ended"], START_NUMBERS),
    ("step", IN_A_STEP, STEP_NUMBERS),
    ("trace", &["no-frames", "none-refused", "some-refused", "all-refused"], TRACE_NUMBERS),
    ("owner", &[PLAIN], OWNER_NUMBERS),
    ("to-edition-1", IN_A_CONVERSION, TO_EDITION_1_NUMBERS),
    ("to-edition-2", IN_A_CONVERSION, TO_EDITION_2_NUMBERS),
    ("fill", &["no-slave", "no-room-left", "room-left"], FILL_NUMBERS),
    ("holder", &["first-slave", "later-slave", "nobody"], HOLDER_NUMBERS),
    ("round-keeping", IN_A_ROUND, ROUND_KEEPING_NUMBERS),
    ("step-keeping", IN_A_STEP, STEP_KEEPING_NUMBERS),
    ("screens", &[PLAIN], &[]),
    ("post", &[PLAIN], POST_NUMBERS),
    ("turn", &["answered", "silent", "none-waiting"], TURN_NUMBERS),
    ("join", &["no-slave", "none-turned", "some-turned"], JOIN_NUMBERS),
    ("pattern", &["data-byte", "firework", "broken"], PATTERN_NUMBERS),
    ("contents", &["no-slave", "no-file", "whole", "in-part", "length-alone"], CONTENTS_NUMBERS),
    (TWO, &[EMPTY_LIST, ALL_NAMED, USED_UP], &[]),
    (RUN, &[ALL_NAMED, USED_UP], &[]),
];

/// What a round does, given a summary or not.
const IN_A_ROUND: &[&str] = &[
    "address",
    "nothing-pending",
    "read-answered",
    "read-silent",
    "write-stored",
    "write-left",
    "comparison-answered",
    "comparison-silent",
    "baptism-named",
    "baptism-left",
    "sleep-fell",
    "sleep-nobody",
    "other-execute",
    "multipartner-stored",
    "multipartner-answered",
    "multipartner-silent",
];

/// What a step does, likewise.
const IN_A_STEP: &[&str] = &[
    "ended",
    "extra-answered",
    "extra-silent",
    "free",
    "taken",
    "taken-last",
    "name-written",
    "high-written",
    "low-written",
    "reply",
    "silence",
    "all-named",
    "named",
    "named-last",
    "nobody-named",
];

/// What a conversion does: the file has the other edition, or that one already.
const IN_A_CONVERSION: &[&str] = &["converted", "copied"];

// The numbers of each call in the order in which it checks them; one of two files has each number for the first file, and then
// for the second.
// .ci/refusals writes from here: calls
const CHECK_NUMBERS: &[u8] = &[1, 2, 3, 4, 5, 6, 7, 8, 22];
const READ_NUMBERS: &[u8] = &[10, 11, 12, 13, 14];
const WRITE_NUMBERS: &[u8] = &[9, 13, 14, 18];
const DATA_NUMBERS: &[u8] = &[9];
const ROUND_NUMBERS: &[u8] = &[1, 2, 3, 4, 5, 6, 7, 8, 9, 10, 11, 12, 13, 14];
const START_NUMBERS: &[u8] = &[15, 16];
const STEP_NUMBERS: &[u8] = &[1, 2, 3, 4, 5, 6, 7, 8, 9, 15, 16, 17];
const TRACE_NUMBERS: &[u8] = &[1, 2, 3, 4, 5, 6, 7, 8, 19];
const OWNER_NUMBERS: &[u8] = &[1, 2, 3, 4, 5, 6, 7, 8, 23, 20, 21];
const FILL_NUMBERS: &[u8] = &[1, 2, 3, 4, 5, 6, 7, 8, 24];
const HOLDER_NUMBERS: &[u8] = &[24];
const ROUND_KEEPING_NUMBERS: &[u8] = &[1, 2, 3, 4, 5, 6, 7, 8, 24, 9, 10, 11, 12, 13, 14];
const STEP_KEEPING_NUMBERS: &[u8] = &[1, 2, 3, 4, 5, 6, 7, 8, 24, 9, 15, 16, 17];
const TO_EDITION_1_NUMBERS: &[u8] = &[1, 2, 3, 4, 5, 6, 7, 8, 25, 26];
const TO_EDITION_2_NUMBERS: &[u8] = &[1, 2, 3, 4, 5, 6, 7, 8, 26];
const POST_NUMBERS: &[u8] = &[27, 28, 18, 14];
const TURN_NUMBERS: &[u8] = &[27, 18, 14, 1, 2, 3, 4, 5, 6, 7, 8, 9];
const JOIN_NUMBERS: &[u8] = &[1, 2, 3, 4, 5, 6, 7, 8, 1, 2, 3, 4, 5, 6, 7, 8, 29, 30];
const PATTERN_NUMBERS: &[u8] = &[31];
const CONTENTS_NUMBERS: &[u8] = &[1, 2, 3, 4, 5, 6, 7, 8];
// .ci/refusals writes to here

/// A call that does one thing only.
const PLAIN: &str = "";
const RUN: &str = "run";
const ALL_NAMED: &str = "all-named";
const USED_UP: &str = "names-used-up";
const EMPTY_LIST: &str = "empty-list";
/// Which of two files was refused.
const FIRST: &str = "first";
const SECOND: &str = "second";

/// A call's kind and number, and what it did if it was carried out, or of two files which was refused.
type Came = (&'static str, u8, &'static str);

#[derive(Default)]
pub struct Tally {
    counts: BTreeMap<Came, u64>,
}

impl Tally {
    pub fn note(&mut self, call: &Call, outcome: &Outcome) {
        let done = if outcome.number == 0 { done(call, outcome) } else { refused(call, outcome.number) };
        self.add(call.kind(), outcome.number, done);
    }

    pub fn note_run(&mut self, end: End) {
        self.add(RUN, 0, if end == End::AllNamed { ALL_NAMED } else { USED_UP });
    }

    /// By the end of the first run; where a list is empty, the other's run is the whole.
    pub fn note_two_lists(&mut self, lists: &TwoLists, runs: &Runs) {
        let done = if lists.first.is_empty() || lists.second.is_empty() {
            EMPTY_LIST
        } else {
            either(runs.first.named_all(), ALL_NAMED, USED_UP)
        };
        self.add(TWO, 0, done);
    }

    fn add(&mut self, kind: &'static str, number: u8, done: &'static str) {
        *self.counts.entry((kind, number, done)).or_insert(0) += 1;
    }

    /// How many calls of each kind.
    pub fn kinds(&self) -> BTreeMap<&'static str, u64> {
        let mut kinds = BTreeMap::new();
        for (&(kind, ..), count) in &self.counts {
            *kinds.entry(kind).or_insert(0) += count;
        }
        kinds
    }

    /// The outcomes that never came about.
    pub fn missing(&self) -> Vec<String> {
        outcomes().filter(|outcome| !self.counts.contains_key(outcome)).map(shown).collect()
    }

    /// The outcomes that came about and that no call can have.
    pub fn impossible(&self) -> Vec<String> {
        self.counts
            .keys()
            .filter(|&&came| outcomes().all(|outcome| outcome != came))
            .map(|&came| shown(came))
            .collect()
    }

    /// `made KIND N` for each kind, and `outcome KIND NUMBER N` or `outcome KIND NUMBER/DONE N` for each outcome.
    pub fn print(&self) {
        self.kinds().iter().for_each(|(kind, count)| println!("made {kind} {count}"));
        for outcome in outcomes() {
            if let Some(count) = self.counts.get(&outcome) {
                println!("outcome {} {count}", shown(outcome));
            }
        }
    }
}

/// All outcomes, kind by kind.
fn outcomes() -> impl Iterator<Item = Came> {
    OUTCOMES.into_iter().flat_map(|(kind, dones, numbers)| {
        let carried_out = dones.iter().map(move |&done| (kind, 0, done));
        carried_out.chain((0..numbers.len()).map(move |place| (kind, numbers[place], whose(numbers, place))))
    })
}

/// For which of two files a number stands at this place of a call's numbers: it is there once more for the other.
fn whose(numbers: &[u8], place: usize) -> &'static str {
    let number = numbers[place];
    if numbers[..place].contains(&number) {
        SECOND
    } else {
        either(numbers[place + 1..].contains(&number), FIRST, PLAIN)
    }
}

/// Which of a call's two files was refused.
fn refused(call: &Call, number: u8) -> &'static str {
    match call {
        Call::Join { first, .. } if number <= 8 => either(check(first).is_err(), FIRST, SECOND),
        _ => PLAIN,
    }
}

fn shown((kind, number, done): Came) -> String {
    if done == PLAIN {
        format!("{kind} {number}")
    } else {
        format!("{kind} {number}/{done}")
    }
}

/// What a call did that was carried out.
fn done(call: &Call, outcome: &Outcome) -> &'static str {
    match call {
        Call::Check { .. } | Call::Data { .. } | Call::Owner { .. } | Call::Screens | Call::Post { .. } => {
            PLAIN
        }
        Call::Convert { file, edition, .. } => either(Edition::of(file) == *edition, "copied", "converted"),
        Call::Read { .. } => operation(outcome.parts.map_or(0, |parts| parts[3])),
        Call::Write { parts, .. } => operation(parts[3]),
        Call::Round { file, frame, .. } => in_round(file, frame, outcome),
        Call::Start { names } => either(names.is_empty(), "ended", "running"),
        Call::Step { file, run, .. } => in_step(file, run, outcome),
        Call::Trace { .. } => in_trace(outcome.report_words()),
        Call::Fill { held, .. } => in_filling(held.len() as u64, outcome.filled()),
        Call::Holder { .. } => match outcome.holder() {
            Some(0) => "first-slave",
            Some(_) => "later-slave",
            None => "nobody",
        },
        Call::Keeping { call, .. } => done(call, outcome),
        Call::Turn { .. } if outcome.served() == Some(NO_SCREEN) => "none-waiting",
        Call::Turn { .. } => either(outcome.mask() != 0, "answered", "silent"),
        Call::Join { second, .. } => in_join(second, outcome.bytes_written()),
        Call::Pattern { .. } => match outcome.told() {
            Some(DATA_BYTE) => "data-byte",
            Some(FIREWORK) => "firework",
            _ => "broken",
        },
        Call::Contents { file, slave, buffer_length, .. } => {
            in_contents(file, *slave, *buffer_length as u64, outcome.written())
        }
    }
}

/// Whether there is the slave and the file, and how much of it the buffer has room for.
fn in_contents(file: &[u8], slave: u64, room: u64, length: Option<u64>) -> &'static str {
    let slaves = check(file).map_or(0, |cluster| cluster.slaves.len() as u64);
    match length {
        Some(0) => either(slave < slaves, "no-file", "no-slave"),
        _ if room == 0 => "length-alone",
        _ => either(length <= Some(room), "whole", "in-part"),
    }
}

/// Whether a slave of the second that had a name is unnamed in the joined file, which ends with its slaves.
fn in_join(second: &[u8], joined: Option<&[u8]>) -> &'static str {
    let unnamed = |file: &[u8]| check(file).map_or(Vec::new(), |cluster| is_unnamed(&cluster));
    let (before, after) = (unnamed(second), unnamed(joined.unwrap_or_default()));
    if after.is_empty() {
        return "no-slave";
    }
    either(after.ends_with(&before), "none-turned", "some-turned")
}

/// Of each slave whether it is unnamed.
fn is_unnamed(cluster: &Cluster) -> Vec<bool> {
    cluster.slaves.iter().map(Slave::is_unnamed).collect()
}

fn in_filling(room: u64, count: Option<u64>) -> &'static str {
    match count {
        Some(0) => "no-slave",
        _ => either(count == Some(room), "no-room-left", "room-left"),
    }
}

fn either(test: bool, yes: &'static str, no: &'static str) -> &'static str {
    if test {
        yes
    } else {
        no
    }
}

fn operation(number: u8) -> &'static str {
    match number {
        0 => "read",
        1 => "write",
        _ => "execute",
    }
}

fn in_round(file: &[u8], frame: &[u8], outcome: &Outcome) -> &'static str {
    let (answered, altered) = (outcome.mask() != 0, outcome.alters_slaves(file));
    let fell = outcome.sleepers().contains(&true);
    match frame.first() {
        Some(&MSA) => "address",
        Some(&MSD) => check(file).map_or(PLAIN, |cluster| in_data(&cluster.pending, answered, altered, fell)),
        _ if altered => "multipartner-stored",
        _ => either(answered, "multipartner-answered", "multipartner-silent"),
    }
}

/// What the pending operation came to. A write of the bytes that stand there leaves the slaves as they are, and so
/// does a new name that is the old one.
fn in_data(pending: &Pending, answered: bool, altered: bool, fell: bool) -> &'static str {
    if !pending.flag {
        return "nothing-pending";
    }
    match (operation(pending.pb2 % 4), FileNumber(pending.pb2 / 4), pending.pb3) {
        ("read", ..) => either(answered, "read-answered", "read-silent"),
        ("write", ..) => either(altered, "write-stored", "write-left"),
        (_, FileNumber::CONFIGURATION, 1) => either(altered, "baptism-named", "baptism-left"),
        (_, FileNumber::CONFIGURATION, 2) => either(answered, "comparison-answered", "comparison-silent"),
        (_, FileNumber::CONFIGURATION, 4) => either(fell, "sleep-fell", "sleep-nobody"),
        _ => "other-execute",
    }
}

/// By the round that was made, which the header still holds: operation and record at 0xFF, or the read.
fn in_step(file: &[u8], &[end, _, _, _, rounds, ..]: &RunWords, outcome: &Outcome) -> &'static str {
    let end_after = outcome.run.map_or(end, |run| run[0]);
    let answered = outcome.mask() >> 1 & 1 == 1;
    let last = end_after == End::NamesUsedUp.number();
    let pending = outcome.file.as_deref().and_then(|after| check(after).ok()).map(|after| after.pending);
    let (operation, record) = pending.map_or(("", 0), |made| (operation(made.pb2 % 4), made.pb3));
    match (operation, record) {
        _ if end != End::Running.number() => "ended",
        _ if rounds == 0 => either(answered, "extra-answered", "extra-silent"),
        ("read", _) if answered => either(last, "taken-last", "taken"),
        ("read", _) => "free",
        ("write", 1) => "name-written",
        ("write", 2) => "high-written",
        ("write", _) => "low-written",
        (_, 1) if outcome.alters_slaves(file) => either(last, "named-last", "named"),
        (_, 1) => "nobody-named",
        _ if end_after == End::AllNamed.number() => "all-named",
        _ => either(answered, "reply", "silence"),
    }
}

fn in_trace(report: Option<ReportWords>) -> &'static str {
    match report {
        Some([.., 0]) => "no-frames",
        Some([_, _, _, 0, _]) => "none-refused",
        Some([.., refused, sum]) if refused == sum => "all-refused",
        _ => "some-refused",
    }
}

#[cfg(test)]
mod tests {
    use super::*;
    use crate::case::bytes;
    use crate::engine::Model;

    /// M10: two unnamed slaves, 00000007000000A0 and 0000000700000010.
    fn m10() -> Vec<u8> {
        bytes(concat!(
            "5441010200100060000000000000000000180200003C0200",
            "080300203D02003000000000000000FF0000000000000000000000000000000700000010",
            "080300443D02005400000000000000FF00000000000000000000000000000007000000A0"
        ))
        .expect("hexadecimal digits")
    }

    fn count(tally: &Tally, done: &str) -> u64 {
        tally.counts.iter().filter(|((_, _, came), _)| *came == done).map(|(_, count)| count).sum()
    }

    /// The run begins with the extra read, at a name that nobody has. A pass that gives a name polls once and compares 65
    /// times: with 0 and for each bit, where those of the bits that are 1 are replied to. It writes the high half for 0
    /// and the upper 32 bits, the low half for 0, the lower 32 bits and, since bit 0 of both names is 0, once more before
    /// the name is given; bit 32 of both is 1.
    #[test]
    fn the_steps_of_m10() {
        let mut tally = Tally::default();
        let (mut file, mut run) = (m10(), [0; 8]);
        for _ in 0..276 {
            let call = Call::Step { file, names: vec![1, 2, 3], run, answer_length: 64 };
            let outcome = call.make(&Model);
            tally.note(&call, &outcome);
            (file, run) = (outcome.file.expect("a lent file"), outcome.run.expect("a lent run"));
        }
        let counted = ["extra-silent", "free", "reply", "silence", "named", "all-named", "ended"];
        assert_eq!(counted.map(|done| count(&tally, done)), [1, 3, 6 + 5, 59 + 60, 2, 1, 1]);
        let written = ["name-written", "high-written", "low-written"];
        assert_eq!(written.map(|done| count(&tally, done)), [2, 2 * 33 + 1, 2 * 34 + 1]);
        assert_eq!(tally.kinds(), BTreeMap::from([("step", 276)]));
        assert_eq!(tally.impossible(), [""; 0]);
    }

    #[test]
    fn rounds_by_what_was_pending() {
        let (mut tally, mut file) = (Tally::default(), m10());
        // Nothing, then at 0xFF: a comparison with 0, a write of record 1, a read, a baptism of nobody, a sleep of those
        // that have record 4, which nobody has, round 2.
        let frames = [
            "49",
            "5505FF22028F",
            "49",
            "5500FF21018A",
            "49000001FFB7",
            "5501FF20018A",
            "49",
            "5501FF220188",
            "49",
            "5501FF22048D",
            "49",
            "BA",
        ];
        for frame in frames {
            let frame = bytes(frame).expect("hexadecimal digits");
            let call = Call::Round { file, frame, answer_length: 64 };
            let outcome = call.make(&Model);
            assert_eq!(outcome.number, 0, "{call}");
            tally.note(&call, &outcome);
            file = outcome.file.expect("a lent file");
        }
        let counted = [
            "nothing-pending",
            "address",
            "comparison-answered",
            "write-stored",
            "read-silent",
            "baptism-left",
            "sleep-nobody",
            "multipartner-silent",
        ];
        assert_eq!(counted.map(|done| count(&tally, done)), [1, 5, 1, 1, 1, 1, 1, 1]);
    }
}
