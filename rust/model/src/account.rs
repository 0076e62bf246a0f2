//! "The plain account" (the document's term) that the naming run is measured against, and its closed
//! figures. It knows nothing of frames and records; which rounds of a pass are comparisons it tells from the pass
//! written out.

use crate::{Cluster, End, LogicalName, Slave, ANSWER_BYTES};

/// "the run is one round longer" (document 02, request 9), where the list is not empty
const EXTRA_READS: u64 = 1;
const ROUNDS_OF_A_TAKEN_NAME: u64 = 1;
const COMPARISONS_OF_A_NAMING: u64 = 65;
const ROUNDS_OF_THE_LAST_QUESTION: u64 = 4;

/// "A pass that names a slave then makes exactly 134 rounds, plus 1 if bit 32 of its physical name is 0, plus 1 if bit 0
/// is 0." (document 02, request 6)
pub fn naming_rounds(physical_name: u64) -> u64 {
    let one_if_clear = |bit: u32| 1 - (physical_name >> bit & 1);
    134 + one_if_clear(32) + one_if_clear(0)
}

/// The pass that names this slave, the greatest of those unnamed, round by round: whether each is the execute of a
/// comparison. A half is written where it is another than the one written last.
pub fn naming_pass(physical_name: u64) -> Vec<bool> {
    let writes = |last: u64, next: u64| {
        let halves = [last >> 32 != next >> 32, last as u32 != next as u32];
        halves.into_iter().filter(|&differs| differs).map(|_| false)
    };
    // The read; then the comparison with 0, which writes both halves.
    let mut rounds = vec![false, false, false, true];
    let (mut value, mut last) = (0, 0);
    for bit in (0..64).rev() {
        let tried = value | 1 << bit;
        rounds.extend(writes(last, tried));
        rounds.push(true);
        last = tried;
        if physical_name >= tried {
            value = tried;
        }
    }
    // The new name, the value, the baptism.
    rounds.push(false);
    rounds.extend(writes(last, value));
    rounds.push(false);
    rounds
}

#[derive(Clone, Debug)]
pub struct Account {
    names_left: Vec<u8>,
    /// In falling order.
    unnamed: Vec<u64>,
    physical_names: Vec<u64>,
    logical_names: Vec<u8>,
    held_at_start: Vec<u8>,
    end: End,
    rounds: u64,
    comparisons_of_passes_done: u64,
    /// k, the rounds of this pass.
    k: u64,
}

impl Account {
    pub fn start(cluster: &Cluster, names: &[u8]) -> Account {
        let mut unnamed = unnamed_names(cluster);
        unnamed.sort_unstable_by(|a, b| b.cmp(a));
        let logical_names: Vec<u8> = cluster.slaves.iter().map(|slave| slave.logical_name().0).collect();
        Account {
            names_left: names.to_vec(),
            unnamed,
            physical_names: cluster.slaves.iter().map(Slave::physical_name).collect(),
            held_at_start: logical_names.clone(),
            logical_names,
            end: if names.is_empty() { End::NamesUsedUp } else { End::Running },
            rounds: 0,
            comparisons_of_passes_done: 0,
            k: 0,
        }
    }

    /// A step with an answer buffer of this length, the only thing that can refuse it.
    pub fn step(&mut self, buffer_length: usize) {
        if buffer_length < ANSWER_BYTES || self.end != End::Running {
            return;
        }
        self.rounds += 1;
        // The extra read is no round of a pass.
        if self.rounds <= EXTRA_READS {
            return;
        }
        self.k += 1;
        if self.k < self.rounds_of_this_pass() {
            return;
        }
        match self.unnamed.first() {
            _ if self.is_held() => self.finish_pass(),
            Some(&greatest) => {
                self.comparisons_of_passes_done += COMPARISONS_OF_A_NAMING;
                self.name_slave(greatest);
                self.finish_pass();
            }
            None => self.end = End::AllNamed,
        }
    }

    fn rounds_of_this_pass(&self) -> u64 {
        match self.unnamed.first() {
            _ if self.is_held() => ROUNDS_OF_A_TAKEN_NAME,
            Some(&greatest) => naming_rounds(greatest),
            None => ROUNDS_OF_THE_LAST_QUESTION,
        }
    }

    fn name_slave(&mut self, greatest: u64) {
        let slave = self.physical_names.iter().position(|&name| name == greatest).expect("a slave of the file");
        self.logical_names[slave] = self.names_left[0];
        self.unnamed.remove(0);
    }

    /// Whether the name of this pass was held at the start.
    fn is_held(&self) -> bool {
        self.names_left.first().is_some_and(|name| self.held_at_start.contains(name))
    }

    fn finish_pass(&mut self) {
        self.k = 0;
        self.names_left.remove(0);
        if self.names_left.is_empty() {
            self.end = End::NamesUsedUp;
        }
    }

    /// "it counts a comparison at its execute": among the first k rounds of a pass
    fn comparisons_of_this_pass(&self) -> u64 {
        let executes =
            |pass: Vec<bool>| pass.into_iter().take(self.k as usize).filter(|&execute| execute).count();
        match self.unnamed.first() {
            _ if self.is_held() => 0,
            Some(&greatest) => executes(naming_pass(greatest)) as u64,
            None => u64::from(self.k >= ROUNDS_OF_THE_LAST_QUESTION),
        }
    }

    pub fn logical_names(&self) -> &[u8] {
        &self.logical_names
    }

    pub fn end(&self) -> End {
        self.end
    }

    pub fn rounds(&self) -> u64 {
        self.rounds
    }

    pub fn comparisons(&self) -> u64 {
        self.comparisons_of_passes_done + self.comparisons_of_this_pass()
    }
}

fn unnamed_names(cluster: &Cluster) -> Vec<u64> {
    cluster.slaves.iter().filter(|slave| slave.is_unnamed()).map(Slave::physical_name).collect()
}

/// What a whole run comes to, worked out without running it.
#[derive(Clone, Copy, Debug, PartialEq, Eq)]
pub struct ClosedFigures {
    pub named: u64,
    pub rounds: u64,
    pub comparisons: u64,
    pub end: End,
}

/// With u unnamed slaves and f free names: the min(u, f) greatest are named. "Taken names tried are the listed
/// names held at the start, if u < f only those before free name number u + 1."
pub fn closed_figures(cluster: &Cluster, names: &[u8]) -> ClosedFigures {
    let is_held = |&name: &u8| cluster.slaves.iter().any(|slave| slave.logical_name() == LogicalName(name));
    let mut unnamed_names = unnamed_names(cluster);
    unnamed_names.sort_unstable_by(|a, b| b.cmp(a));
    let unnamed = unnamed_names.len() as u64;
    let free = names.iter().filter(|&name| !is_held(name)).count() as u64;
    let mut free_before = 0;
    let mut taken_tried = 0;
    for name in names {
        if is_held(name) {
            taken_tried += 1;
        } else if free_before == unnamed {
            break;
        } else {
            free_before += 1;
        }
    }
    let named = unnamed.min(free);
    let asks_in_vain = unnamed < free;
    let naming_sum: u64 = unnamed_names.into_iter().take(named as usize).map(naming_rounds).sum();
    ClosedFigures {
        named,
        rounds: naming_sum
            + if names.is_empty() { 0 } else { EXTRA_READS }
            + ROUNDS_OF_A_TAKEN_NAME * taken_tried
            + if asks_in_vain { ROUNDS_OF_THE_LAST_QUESTION } else { 0 },
        comparisons: COMPARISONS_OF_A_NAMING * named + u64::from(asks_in_vain),
        end: if asks_in_vain { End::AllNamed } else { End::NamesUsedUp },
    }
}
