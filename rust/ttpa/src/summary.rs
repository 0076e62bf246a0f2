use crate::calls::{self, NOBODY, RUN_WORDS};
use crate::{version, Senders, TtpaError, MOST_SLAVES};
use core::fmt;

/// A summary of a cluster file: each slave's logical name in table order, so that who holds a name is told without a look
/// at the file. It owns its names. The default is that of a file without slaves.
///
/// [`round_keeping`](crate::round_keeping) and [`Run::step_keeping`](crate::Run::step_keeping) are given it and leave it
/// matching the file that they leave. It is to be made anew with [`Summary::of`] where the file was changed without it: by
/// [`trace`](crate::trace), which takes no summary, and by [`round`](crate::round) and [`Run::step`](crate::Run::step), if
/// a frame of theirs had record 1 of 0x08 executed. Nothing else renames a slave.
///
/// ```no_run
/// let mut file = std::fs::read("plant.cluster").unwrap();
/// let mut summary = ttpa::Summary::of(&file)?;
/// let mut answer = [0; ttpa::ANSWER_BYTES];
/// ttpa::round_keeping(&mut file, &[ttpa::FIREWORK_ROUND_2], &mut answer, &mut summary)?;
/// match summary.holder(0x05) {
///     Some(place) => println!("slave {place}"),
///     None => println!("nobody"),
/// }
/// # Ok::<(), ttpa::TtpaError>(())
/// ```
#[derive(Clone, Copy, PartialEq, Eq)]
pub struct Summary {
    /// All 0 after the names.
    held: [u8; MOST_SLAVES],
    /// At most [`MOST_SLAVES`].
    count: u64,
}

impl Summary {
    /// The summary of a cluster file; refused by 1 to 8. There is room for the names of every file, so 24 does not occur.
    pub fn of(file: &[u8]) -> Result<Summary, TtpaError> {
        version::hold();
        let mut summary = Summary::default();
        TtpaError::of(calls::fill(file, &mut summary.held, &mut summary.count))?;
        Ok(summary)
    }

    /// A summary that was stored as its names; refused by 24 where there are more than [`MOST_SLAVES`], as no file has.
    /// Whether it matches is judged by the next round or step that is given it.
    pub fn from_names(names: &[u8]) -> Result<Summary, TtpaError> {
        let mut held = [0; MOST_SLAVES];
        held.get_mut(..names.len()).ok_or(TtpaError::Summary)?.copy_from_slice(names);
        Ok(Summary { held, count: names.len() as u64 })
    }

    /// The logical names in table order.
    pub fn names(&self) -> &[u8] {
        &self.held[..self.count as usize]
    }

    /// The place in the slave table, 0 the first, of the first slave that holds the name, or none where nobody does. Any
    /// name may be asked for: 0xFF finds an unnamed slave. If the summary matches its file, this is what a reading of the
    /// whole file finds.
    pub fn holder(&self, name: u8) -> Option<usize> {
        version::hold();
        let mut place = NOBODY;
        // refused only where the count is above the slice's length, which it never is
        let number = calls::holder(&self.held, self.count, name, &mut place);
        (number == 0 && place != NOBODY).then_some(place as usize)
    }

    /// The step of [`Run::step_keeping`](crate::Run::step_keeping).
    pub(crate) fn step(
        &mut self,
        file: &mut [u8],
        run: &mut [u64; RUN_WORDS],
        names: &[u8],
        answer: &mut [u8],
    ) -> Result<Senders, TtpaError> {
        version::hold();
        let mut senders = 0;
        let Summary { held, count } = self;
        TtpaError::of(calls::step_keeping(file, run, names, answer, &mut senders, held, *count))?;
        Ok(Senders(senders))
    }
}

impl Default for Summary {
    fn default() -> Summary {
        Summary { held: [0; MOST_SLAVES], count: 0 }
    }
}

impl fmt::Debug for Summary {
    fn fmt(&self, out: &mut fmt::Formatter) -> fmt::Result {
        out.debug_tuple("Summary").field(&self.names()).finish()
    }
}

/// Carries out one frame as [`round`](crate::round) does, and keeps the file's summary matching; refused by 1 to 8, by 24
/// where the summary does not match the file, and by 9 to 14. Refused, it leaves file, answer and summary.
pub fn round_keeping(
    file: &mut [u8],
    frame: &[u8],
    answer: &mut [u8],
    summary: &mut Summary,
) -> Result<Senders, TtpaError> {
    version::hold();
    let mut senders = 0;
    let Summary { held, count } = summary;
    TtpaError::of(calls::round_keeping(file, frame, answer, &mut senders, held, *count))?;
    Ok(Senders(senders))
}
