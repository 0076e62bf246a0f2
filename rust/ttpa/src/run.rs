use crate::calls::{self, ALL_NAMED, NAMES_USED_UP, RUNNING, RUN_WORDS};
use crate::{version, Senders, Summary, TtpaError};

/// How far a run is.
#[derive(Clone, Copy, Debug, PartialEq, Eq)]
pub enum End {
    /// There are rounds to make.
    Running,
    /// No slave is unnamed.
    AllNamed,
    /// The list of names is finished.
    NamesUsedUp,
    /// A stored position with another mark; a step refuses it.
    Unknown(u64),
}

/// A naming run: a position in the caller's list of names. It can be stored and taken up again; a position
/// of any content is judged by the next step.
#[derive(Clone, Copy, Debug, PartialEq, Eq)]
pub struct Run {
    words: [u64; RUN_WORDS],
}

impl Run {
    /// A fresh run; refused by 15 and 16. After a run has ended, a second list without a name of the first may be started
    /// on the same file: made to their ends, both leave the names that one run over the first list followed by the second
    /// would leave.
    pub fn start(names: &[u8]) -> Result<Run, TtpaError> {
        version::hold();
        let mut words = [0; RUN_WORDS];
        TtpaError::of(calls::start(names, &mut words))?;
        Ok(Run { words })
    }

    /// One complete master-slave round; refused by 1 to 9 and 15 to 17. The answer becomes that to its data
    /// frame. A step of an ended run alters nothing, and nobody sends. A run over a list that is not empty begins with an
    /// extra read at its first name, which wakes all slaves and whose reply is ignored: it is due while no round is
    /// counted, and raises that count alone.
    pub fn step(&mut self, file: &mut [u8], names: &[u8], answer: &mut [u8]) -> Result<Senders, TtpaError> {
        version::hold();
        let mut senders = 0;
        TtpaError::of(calls::step(file, &mut self.words, names, answer, &mut senders))?;
        Ok(Senders(senders))
    }

    /// The same, and keeps the file's summary matching; refused by 24 where it does not match the file, after 8 and before
    /// 9, also at a step of an ended run.
    pub fn step_keeping(
        &mut self,
        file: &mut [u8],
        names: &[u8],
        answer: &mut [u8],
        summary: &mut Summary,
    ) -> Result<Senders, TtpaError> {
        summary.step(file, &mut self.words, names, answer)
    }

    /// A stored position.
    pub fn from_words(words: [u64; RUN_WORDS]) -> Run {
        Run { words }
    }

    /// The position to be stored: end, index, step, value, rounds, comparisons, and the halves last written.
    pub fn words(&self) -> [u64; RUN_WORDS] {
        self.words
    }

    /// Whether and how the run has ended.
    pub fn end(&self) -> End {
        match self.words[calls::RUN_END] {
            RUNNING => End::Running,
            ALL_NAMED => End::AllNamed,
            NAMES_USED_UP => End::NamesUsedUp,
            other => End::Unknown(other),
        }
    }

    /// The place in the list of names.
    pub fn index(&self) -> u64 {
        self.words[calls::RUN_INDEX]
    }

    /// The place of the next round that this pass makes, among 200; writes that are not needed are left out.
    pub fn next_round(&self) -> u64 {
        self.words[calls::RUN_STEP]
    }

    /// The comparison value so far; after a name is given, the physical name of its slave.
    pub fn value(&self) -> u64 {
        self.words[calls::RUN_VALUE]
    }

    /// Rounds made, the extra read too.
    pub fn rounds(&self) -> u64 {
        self.words[calls::RUN_ROUNDS]
    }

    /// Comparisons made.
    pub fn comparisons(&self) -> u64 {
        self.words[calls::RUN_COMPARISONS]
    }

    /// The high and the low half of a comparison value that were last written to the unnamed slaves; both 0 in a fresh
    /// run. A half is not written again while it stays the same, the first comparison for a name aside.
    pub fn last_written(&self) -> (u64, u64) {
        (self.words[calls::RUN_HIGH], self.words[calls::RUN_LOW])
    }
}
