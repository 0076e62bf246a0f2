//! A naming run with rounds of others between its steps: what the engine says of it, and what the program counts.

pub mod between;
pub mod drawn;
pub mod orders;
pub mod progress;
pub mod search;
pub mod store;

use crate::cluster;
use between::Between;
use drawn::Drawn;
use search::{Asked, Search};
use std::fmt;
use ttpa::{End, Run, Senders, Summary, TtpaError, ANSWER_BYTES, NAME_UNNAMED};

/// A run on a cluster file. Position, names and file are the engine's.
#[derive(Clone)]
pub struct Naming {
    pub file: Vec<u8>,
    pub names: Vec<u8>,
    pub run: Run,
    pub counted: Counted,
    /// The names given in this call, and the physical names to which.
    pub given: Vec<(u8, u64)>,
    /// What was asked so far, where a picture of it is wanted.
    pub search: Option<Search>,
}

/// What the program counts beside the position.
#[derive(Clone, Copy, Debug, Default, PartialEq, Eq)]
pub struct Counted {
    /// Names given to the slave that was found.
    pub given: u64,
    /// Names that another slave has then, too or alone, or no slave: only rounds that the naming rule does not cover bring this about.
    pub misgiven: u64,
    /// Complete rounds of others.
    pub other_rounds: u64,
    /// The totals at which the pass of the present name began: its figures are differences from them.
    pub begun_rounds: u64,
    pub begun_comparisons: u64,
}

/// What a step came to, where it is worth a line.
#[derive(Clone, Copy, Debug, PartialEq, Eq)]
pub enum Event {
    ExtraRead { name: u8 },
    Taken { name: u8 },
    Given { name: u8, physical_name: u64, rounds: u64, comparisons: u64, holder: Holder },
}

/// Who has a name that was given. Only a run that was turned aside comes to another than the one found.
#[derive(Clone, Copy, Debug, PartialEq, Eq)]
pub enum Holder {
    Found,
    /// The slave found, and this one.
    Both(u64),
    Other(u64),
    Nobody,
}

/// Rounds of others between two steps.
pub enum Traffic {
    None,
    Frames(Between),
    Drawn(Drawn),
}

impl Naming {
    /// A fresh run over the names; refused by 15 and 16.
    pub fn start(file: Vec<u8>, names: Vec<u8>) -> Result<Naming, TtpaError> {
        let run = Run::start(&names)?;
        Ok(Naming { file, names, run, counted: Counted::default(), given: Vec::new(), search: None })
    }

    pub fn ended(&self) -> bool {
        matches!(self.run.end(), End::AllNamed | End::NamesUsedUp)
    }

    /// One step, after what others send before it. A step of an ended run alters nothing.
    pub fn step(
        &mut self,
        traffic: &mut Traffic,
        tell: &mut dyn FnMut(&str),
    ) -> Result<Option<Event>, TtpaError> {
        let before = self.run;
        // between two steps, so not before the first
        if before.rounds() > 0 && !self.ended() {
            self.counted.other_rounds += traffic.send(before.rounds(), &mut self.file, tell);
        }
        let asked = self.whom_it_asks()?;
        let senders = self.run.step(&mut self.file, &self.names, &mut [0; ANSWER_BYTES])?;
        let event = self.event(&before);
        self.note(&before, asked, senders, event);
        Ok(event)
    }

    /// The slaves that the next step asks, where it does and a picture is wanted.
    fn whom_it_asks(&self) -> Result<Vec<Asked>, TtpaError> {
        let asks = self.search.is_some() && !self.ended() && search::question(&self.run).is_some();
        if asks {
            search::asked(&self.file)
        } else {
            Ok(Vec::new())
        }
    }

    /// Keeps what a step asked, and what its pass came to.
    fn note(&mut self, before: &Run, asked: Vec<Asked>, senders: Senders, event: Option<Event>) {
        // a step of an ended run asks nobody
        let (Some(search), Some(&name), End::Running) =
            (&mut self.search, self.names.get(before.index() as usize), before.end())
        else {
            return;
        };
        search.add(name, before, asked, senders);
        if let Some(Event::Given { physical_name, rounds, comparisons, holder, .. }) = event {
            let to = if holder == Holder::Found { "given to" } else { "found" };
            let words = format!(
                "{to} {physical_name:016X}, {rounds} rounds, {comparisons} comparisons{}",
                holder.but()
            );
            search.came(words);
        } else if self.run.end() == End::AllNamed {
            search.came("nobody replied".to_string());
        }
    }

    /// "if the index has risen, the name before it is done: it was taken already if the step was 0 before the call, else the slave whose
    /// physical name is the value has it now" (the header, of a step)
    fn event(&mut self, before: &Run) -> Option<Event> {
        if before.end() == End::Running && before.rounds() == 0 {
            self.begin_pass();
            return self.names.first().map(|&name| Event::ExtraRead { name });
        }
        if self.run.index() == before.index() {
            return None;
        }
        let name = self.names.get(before.index() as usize).copied()?;
        let rounds = self.run.rounds().saturating_sub(self.counted.begun_rounds);
        let comparisons = self.run.comparisons().saturating_sub(self.counted.begun_comparisons);
        self.begin_pass();
        if before.next_round() == 0 {
            return Some(Event::Taken { name });
        }
        let physical_name = self.run.value();
        let holder = self.holder(name, physical_name);
        if holder == Holder::Found {
            self.counted.given += 1;
            self.given.push((name, physical_name));
        } else {
            self.counted.misgiven += 1;
        }
        Some(Event::Given { name, physical_name, rounds, comparisons, holder })
    }

    /// Who has the name by now: the slave of the physical name that was found, or another.
    fn holder(&self, name: u8, found: u64) -> Holder {
        let names = self.names_held();
        let places = (0..names.len()).filter(|&place| names[place] == name);
        let holders: Vec<u64> =
            places.filter_map(|place| cluster::physical_name(&self.file, place).ok()).collect();
        let other = holders.iter().copied().find(|&holder| holder != found);
        match (other, holders.contains(&found)) {
            (None, true) => Holder::Found,
            (Some(other), true) => Holder::Both(other),
            (Some(other), false) => Holder::Other(other),
            (None, false) => Holder::Nobody,
        }
    }

    fn begin_pass(&mut self) {
        self.counted.begun_rounds = self.run.rounds();
        self.counted.begun_comparisons = self.run.comparisons();
    }

    /// `all named: 2 given, 276 rounds, 131 comparisons`, and where others may send `, 283 other rounds`.
    pub fn last_line(&self, traffic: &Traffic) -> String {
        let end = match self.run.end() {
            End::AllNamed => "all named".to_string(),
            End::NamesUsedUp => "names used up".to_string(),
            End::Running | End::Unknown(_) => match self.names.get(self.run.index() as usize) {
                Some(name) => format!("running, at {name:02X}"),
                None => "running".to_string(),
            },
        };
        let Counted { given, other_rounds, .. } = self.counted;
        let (rounds, comparisons) = (self.run.rounds(), self.run.comparisons());
        let others = match traffic {
            Traffic::None if other_rounds == 0 => String::new(),
            _ => format!(", {}", number_of(other_rounds, "other round")),
        };
        let [rounds, comparisons] = [number_of(rounds, "round"), number_of(comparisons, "comparison")];
        format!("{end}: {given} given, {rounds}, {comparisons}{others}{}", self.but())
    }

    /// What was told of a name, or of the end, is not what the file has.
    pub fn turned_aside(&self) -> bool {
        self.counted.misgiven > 0 || !self.but().is_empty()
    }

    /// A run that was turned aside may end "all named" though slaves are unnamed, and a name that was given need not stay:
    /// `, but 2 slaves have no name`.
    fn but(&self) -> String {
        let unnamed = self.names_held().iter().filter(|&&name| name == NAME_UNNAMED).count();
        let left = match (self.run.end(), unnamed) {
            (End::AllNamed, 1) => ", but 1 slave has no name".to_string(),
            (End::AllNamed, 2..) => format!(", but {unnamed} slaves have no name"),
            _ => String::new(),
        };
        let mut given = self.given.iter().map(|&(name, found)| (name, self.holder(name, found)));
        match given.find(|(_, holder)| *holder != Holder::Found) {
            Some((name, holder)) => format!("{left}, but {name:02X} did not stay so: {holder}"),
            None => left,
        }
    }

    /// The logical names that the slaves have by now, in table order.
    pub fn names_held(&self) -> Vec<u8> {
        Summary::of(&self.file).map(|summary| summary.names().to_vec()).unwrap_or_default()
    }
}

/// `1 round`, `2 rounds`
fn number_of(count: u64, what: &str) -> String {
    let more = if count == 1 { "" } else { "s" };
    format!("{count} {what}{more}")
}

impl Traffic {
    /// Sends what is due before the next step, after so many made; how many complete rounds it was. What is sent depends on that
    /// number alone, so that a run that is taken up again goes on as it would have.
    fn send(&mut self, made: u64, file: &mut [u8], tell: &mut dyn FnMut(&str)) -> u64 {
        match self {
            Traffic::None => 0,
            Traffic::Frames(between) => between.send(made, file, tell),
            Traffic::Drawn(drawn) => drawn.send(made, file),
        }
    }
}

impl fmt::Display for Event {
    fn fmt(&self, out: &mut fmt::Formatter) -> fmt::Result {
        match *self {
            Event::ExtraRead { name } => write!(out, "extra read at {name:02X}"),
            Event::Taken { name } => write!(out, "{name:02X} taken"),
            Event::Given { name, physical_name, rounds, comparisons, holder } => {
                let but = holder.but();
                write!(out, "{name:02X} {physical_name:016X} {rounds} rounds {comparisons} comparisons{but}")
            }
        }
    }
}

impl Holder {
    /// What is added to the line of a name, where it is not as it has to be.
    fn but(&self) -> String {
        if *self == Holder::Found {
            String::new()
        } else {
            format!(", but {self}")
        }
    }
}

impl fmt::Display for Holder {
    fn fmt(&self, out: &mut fmt::Formatter) -> fmt::Result {
        match *self {
            Holder::Found => write!(out, "the slave found has the name"),
            Holder::Both(other) => write!(out, "{other:016X} has the name too"),
            Holder::Other(other) => write!(out, "{other:016X} has the name"),
            Holder::Nobody => write!(out, "no slave has the name"),
        }
    }
}

#[cfg(test)]
mod tests {
    use super::*;
    use crate::cluster_text;

    /// Rounds of others may bring equal names about: the first of the others is told.
    #[test]
    fn the_holder_is_looked_for_among_all() {
        let mut text = "cluster edition 1 epoch 00\nslave 05 0000000700000010\nslave 05 00000007000000A0\n\
                        slave FF 00000007000000A1\n"
            .as_bytes();
        let text = cluster_text::read(&mut text, "t".to_string()).expect("a good text");
        let naming = Naming::start(text.cluster.encode(), vec![5]).expect("good names");
        assert_eq!(naming.holder(5, 0x7_0000_0010), Holder::Both(0x7_0000_00A0));
        assert_eq!(naming.holder(5, 0x7_0000_00A0), Holder::Both(0x7_0000_0010));
        assert_eq!(naming.holder(0xFF, 0x7_0000_00A1), Holder::Found);
        assert_eq!(naming.holder(5, 0x7_0000_00A1), Holder::Other(0x7_0000_0010));
        assert_eq!(naming.holder(6, 0x7_0000_00A1), Holder::Nobody);
    }
}
