//! The search of a naming run as a picture shows it: what each comparison asked, and which slaves replied. That someone replied is the
//! engine's answer; who, is read from the file as it was when the slaves were asked, and a test holds the one to the other.

use crate::cluster::{physical_name, records};
use crate::layout;
use crate::layout::number;
use ttpa::{Run, Senders, Summary, TtpaError, FILE_CONFIGURATION, NAME_UNNAMED};

/// The question whether anyone is there, and one for each bit, the highest first.
pub const QUESTIONS: usize = 65;
/// The records of the configuration file that hold the comparison value.
const HIGH_RECORD: usize = 2;
const LOW_RECORD: usize = 3;
/// A pass asks at every third place from this one on.
const FIRST_QUESTION: u64 = 3;
const PLACES_OF_A_QUESTION: u64 = 3;

/// An unnamed slave that was asked.
#[derive(Clone, Debug, PartialEq, Eq)]
pub struct Asked {
    /// In the slave table.
    pub place: usize,
    pub physical_name: u64,
    /// What it compares with: that of its own file, which others may have written.
    pub value: u64,
    pub replied: bool,
}

/// One comparison.
#[derive(Clone, Debug, PartialEq, Eq)]
pub struct Comparison {
    /// 0 whether anyone is there, then bit 63 and so on.
    pub question: usize,
    pub slaves: Vec<Asked>,
    /// Someone replied, by the engine.
    pub answered: bool,
}

/// The comparisons for one name of the list.
#[derive(Clone, Debug, PartialEq, Eq)]
pub struct Pass {
    pub name: u8,
    pub comparisons: Vec<Comparison>,
    /// What came of it, where the run got so far.
    pub came: Option<String>,
}

/// What a run asked so far.
#[derive(Clone, Debug, Default, PartialEq, Eq)]
pub struct Search {
    pub passes: Vec<Pass>,
}

/// Which question a running position asks next, if it does. The first round of a run is the extra read.
pub fn question(run: &Run) -> Option<usize> {
    if run.rounds() == 0 {
        return None;
    }
    let place = run.next_round().checked_sub(FIRST_QUESTION)?;
    let question = (place / PLACES_OF_A_QUESTION) as usize;
    (place % PLACES_OF_A_QUESTION == 0 && question < QUESTIONS).then_some(question)
}

/// The slaves that are unnamed, and whether each replies to the comparison that its file holds.
pub fn asked(file: &[u8]) -> Result<Vec<Asked>, TtpaError> {
    let names = Summary::of(file)?.names().to_vec();
    let unnamed = names.iter().enumerate().filter(|(_, &name)| name == NAME_UNNAMED);
    unnamed.map(|(place, _)| asked_slave(file, place)).collect()
}

fn asked_slave(file: &[u8], place: usize) -> Result<Asked, TtpaError> {
    let physical_name = physical_name(file, place)?;
    let records = records(file, place, FILE_CONFIGURATION)?;
    let half = |at: usize| records.get(at).map_or(0, |record| number(record));
    let value = half(HIGH_RECORD) << 32 | half(LOW_RECORD);
    let replied = !layout::sleeps(file, place) && physical_name >= value;
    Ok(Asked { place, physical_name, value, replied })
}

impl Search {
    /// Adds a comparison that was made for a name: the position before it, whom it asked, and the engine's answer.
    pub fn add(&mut self, name: u8, before: &Run, slaves: Vec<Asked>, senders: Senders) {
        let Some(question) = question(before) else { return };
        let comparison = Comparison { question, slaves, answered: senders != Senders(0) };
        match self.passes.last_mut() {
            Some(pass) if pass.name == name && pass.came.is_none() => pass.comparisons.push(comparison),
            _ => self.passes.push(Pass { name, comparisons: vec![comparison], came: None }),
        }
    }

    /// What the last pass came to.
    pub fn came(&mut self, words: String) {
        if let Some(pass) = self.passes.last_mut().filter(|pass| pass.came.is_none()) {
            pass.came = Some(words);
        }
    }
}
