//! Two lists of names in two runs, and in one: "running list A and then list B from one accepted file, each to its end,
//! the two having no name in common and both acceptable, leaves every slave with the logical name that one run over A
//! followed by B leaves" (document 02, request 11).
//!
//! As a line of text, `two FILE NAMES-A NAMES-B = logical names after`, in table order; `-` is no name.

use crate::case::{bytes, hex, Call};
use crate::editions::turned;
use crate::engine::{Engine, RunWords};
use model::{check, End};
use std::fmt;

/// The kind of such a case.
pub const TWO: &str = "two";
/// No run makes more rounds: an extra read, 64 slaves of 136 rounds, 254 taken names, and 4 to find nobody.
const MOST_ROUNDS: usize = 1 + 64 * 136 + 254 + 4;

/// The logical names of an accepted file, in table order.
pub fn names_in(file: &[u8]) -> Vec<u8> {
    let cluster = check(file).expect("an accepted file");
    cluster.slaves.iter().map(|slave| slave.logical_name().0).collect()
}

/// An accepted file, and the names of A and of B.
#[derive(Clone)]
pub struct TwoLists {
    pub file: Vec<u8>,
    pub first: Vec<u8>,
    pub second: Vec<u8>,
}

impl fmt::Display for TwoLists {
    fn fmt(&self, out: &mut fmt::Formatter) -> fmt::Result {
        write!(out, "{TWO} {} {} {}", hex(&self.file), hex(&self.first), hex(&self.second))
    }
}

/// A run that was made to its end: its words, and the file that it left.
#[derive(Clone, Debug, PartialEq, Eq)]
pub struct Ended {
    pub run: RunWords,
    pub file: Vec<u8>,
}

impl Ended {
    /// End mark, rounds and comparisons.
    pub fn figures(&self) -> [u64; 3] {
        let [end, _, _, _, rounds, comparisons, ..] = self.run;
        [end, rounds, comparisons]
    }

    pub fn named_all(&self) -> bool {
        self.run[0] == End::AllNamed.number()
    }
}

/// The run over A, the one over B on the file that it left, and the one over A followed by B.
#[derive(Clone)]
pub struct Runs {
    pub first: Ended,
    pub second: Ended,
    pub whole: Ended,
}

impl TwoLists {
    /// A followed by B.
    pub fn both(&self) -> Vec<u8> {
        [&self.first[..], &self.second].concat()
    }

    /// The runs on an engine, `between` before each step and after each end; None where one does not end.
    pub fn made_by(&self, engine: &dyn Engine, between: &dyn Fn(Vec<u8>) -> Vec<u8>) -> Option<Runs> {
        let first = to_its_end(engine, self.file.clone(), &self.first, between)?;
        let second = to_its_end(engine, first.file.clone(), &self.second, between)?;
        let whole = to_its_end(engine, self.file.clone(), &self.both(), between)?;
        Some(Runs { first, second, whole })
    }

    /// By how many rounds and comparisons the two runs together are longer than the one. Where A is used up it is the
    /// extra read of B's run. Where all are named it is that run whole: the extra read, the taken names before the first
    /// free one, and, where there is a free one, 4 rounds to find nobody.
    fn longer(&self, first: &Ended) -> [u64; 2] {
        if self.first.is_empty() || self.second.is_empty() {
            return [0, 0];
        }
        if !first.named_all() {
            return [1, 0];
        }
        let held = names_in(&first.file);
        let taken = self.second.iter().take_while(|name| held.contains(name)).count();
        let asks = u64::from(taken < self.second.len());
        [1 + taken as u64 + 4 * asks, asks]
    }
}

impl Runs {
    /// What the runs over these lists differ in from what the request says, if they do.
    pub fn difference(&self, lists: &TwoLists) -> Option<&'static str> {
        let [[first_end, first_rounds, first_comparisons], [second_end, rounds, comparisons], whole] =
            [&self.first, &self.second, &self.whole].map(Ended::figures);
        let [more_rounds, more_comparisons] = lists.longer(&self.first);
        let end = if self.first.named_all() { first_end } else { second_end };
        if names_in(&self.second.file) != names_in(&self.whole.file) {
            Some("two runs leave other names than one over both lists")
        } else if whole[0] != end {
            Some("the run over both lists has another end")
        } else if first_rounds + rounds != whole[1] + more_rounds {
            Some("rounds of two runs and of one over both lists")
        } else if first_comparisons + comparisons != whole[2] + more_comparisons {
            Some("comparisons of two runs and of one over both lists")
        } else {
            None
        }
    }

    /// The same runs on the file in the other edition; None where edition 1 cannot hold it.
    fn turned(&self) -> Option<[Ended; 3]> {
        let turned = |ended: &Ended| Some(Ended { run: ended.run, file: turned(&ended.file)? });
        Some([turned(&self.first)?, turned(&self.second)?, turned(&self.whole)?])
    }
}

fn to_its_end(
    engine: &dyn Engine,
    mut file: Vec<u8>,
    names: &[u8],
    between: &dyn Fn(Vec<u8>) -> Vec<u8>,
) -> Option<Ended> {
    let started = Call::Start { names: names.to_vec() }.make(engine);
    let mut run = started.run.filter(|_| started.number == 0)?;
    for _ in 0..MOST_ROUNDS {
        file = between(file);
        if run[0] != End::Running.number() {
            return Some(Ended { run, file });
        }
        let step = Call::Step { file, names: names.to_vec(), run, answer_length: 64 }.make(engine);
        (file, run) = (step.file.filter(|_| step.number == 0)?, step.run?);
    }
    None
}

/// A kept case: the lists and their runs, or what differs. An engine passes when both ways leave the names that were
/// kept, with the ends and counts that the request gives.
pub fn hold_against(engine: &dyn Engine, line: &str) -> Result<(TwoLists, Runs), String> {
    let (lists, left) = parse(line).ok_or_else(|| format!("no case of two lists: {line}"))?;
    let runs = lists.made_by(engine, &|file| file).ok_or_else(|| format!("a run does not end: {line}"))?;
    let given = [&runs.second, &runs.whole].map(|ended| names_in(&ended.file));
    if given.iter().any(|names| *names != left) {
        return Err(format!("expected {line}\n     got {} and {}", hex(&given[0]), hex(&given[1])));
    }
    match runs.difference(&lists) {
        Some(what) => Err(format!("{what}: {line}")),
        None => Ok((lists, runs)),
    }
}

fn parse(line: &str) -> Option<(TwoLists, Vec<u8>)> {
    let words: Vec<&str> = line.split_whitespace().collect();
    match words[..] {
        [TWO, file, first, second, "=", left] => {
            Some((TwoLists { file: bytes(file)?, first: bytes(first)?, second: bytes(second)? }, bytes(left)?))
        }
        _ => None,
    }
}

/// Whether the engine makes the same runs on the file in the other edition; None where edition 1 cannot hold it.
pub fn hold_in_other_edition(engine: &dyn Engine, lists: &TwoLists, runs: &Runs) -> Option<bool> {
    let expected = runs.turned()?;
    let on = TwoLists { file: turned(&lists.file)?, ..lists.clone() };
    let made = on.made_by(engine, &|file| file);
    Some(made.is_some_and(|Runs { first, second, whole }| [first, second, whole] == expected))
}

#[cfg(test)]
mod tests {
    use super::*;
    use crate::engine::Model;

    /// M10, two unnamed slaves, and a name for each.
    fn m10() -> TwoLists {
        let file = bytes(concat!(
            "5441010200100060000000000000000000180200003C0200",
            "080300203D02003000000000000000FF0000000000000000000000000000000700000010",
            "080300443D02005400000000000000FF00000000000000000000000000000007000000A0"
        ));
        TwoLists { file: file.expect("hexadecimal digits"), first: vec![0x01], second: vec![0x02] }
    }

    fn made(lists: &TwoLists) -> Runs {
        lists.made_by(&Model, &|file| file).expect("runs that end")
    }

    #[test]
    fn both_ways_leave_the_same() {
        assert_eq!(made(&m10()).difference(&m10()), None);
        let line = format!("{} = 0201", m10());
        assert!(hold_against(&Model, &line).is_ok());
        assert!(hold_against(&Model, &line.replace("0201", "0102")).is_err());
    }

    #[test]
    fn the_second_list_before_the_first_does_not() {
        let turned_about = TwoLists { first: m10().second, second: m10().first, ..m10() };
        let runs = Runs { whole: made(&turned_about).whole, ..made(&m10()) };
        assert_eq!(runs.difference(&m10()), Some("two runs leave other names than one over both lists"));
    }

    #[test]
    fn the_second_list_on_the_first_file_does_not() {
        let on_first_file = TwoLists { first: m10().second, second: Vec::new(), ..m10() };
        let runs = Runs { second: made(&on_first_file).first, ..made(&m10()) };
        assert_eq!(runs.difference(&m10()), Some("two runs leave other names than one over both lists"));
    }

    #[test]
    fn a_round_too_many_is_noticed() {
        let mut runs = made(&m10());
        runs.second.run[4] += 1;
        assert_eq!(runs.difference(&m10()), Some("rounds of two runs and of one over both lists"));
    }

    #[test]
    fn lists_with_a_common_name_make_no_run_over_both() {
        let common = TwoLists { second: vec![0x02, 0x01], ..m10() };
        assert!(common.made_by(&Model, &|file| file).is_none());
    }
}
