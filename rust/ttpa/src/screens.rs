use crate::calls::{self, NO_SCREEN};
use crate::{version, Senders, TtpaError, SCREENS_BYTES};

/// The screens that read slave records through one tester, up to eight, 0 to 7: which of them wait, with what read, and
/// which was served last. None of them starves the others: a read that waits is served within eight turns that are carried
/// out, however often the others post. The default is the state at the start, screen 0 being next.
///
/// It can be stored and taken up again, and belongs to no cluster file; a state of any content is judged by the next post or
/// turn.
///
/// ```no_run
/// let mut file = std::fs::read("plant.cluster").unwrap();
/// let mut screens = ttpa::Screens::new();
/// screens.post(3, &ttpa::RecordRead { name: 0x05, file: ttpa::FILE_DOCUMENTATION, record: 2 })?;
/// let mut answer = [0; ttpa::ANSWER_BYTES];
/// while let Some(served) = screens.turn(&mut file, &mut answer)? {
///     println!("screen {}: {:?}", served.screen, &answer[1..5]);
/// }
/// # Ok::<(), ttpa::TtpaError>(())
/// ```
#[derive(Clone, Copy, Debug, PartialEq, Eq)]
pub struct Screens {
    state: [u8; SCREENS_BYTES],
}

/// A read that a screen posts.
#[derive(Clone, Copy, Debug, PartialEq, Eq)]
pub struct RecordRead {
    /// The logical name of the slave. Nobody answers a read at [`NAME_UNNAMED`](crate::NAME_UNNAMED).
    pub name: u8,
    /// The file number, 0 to 63.
    pub file: u8,
    /// The record number.
    pub record: u8,
}

/// What a turn that found a screen waiting came to.
#[derive(Clone, Copy, Debug, PartialEq, Eq)]
pub struct Served {
    /// The screen whose read was made.
    pub screen: u8,
    /// The slots in which someone sent: none where nobody answered.
    pub senders: Senders,
}

impl Screens {
    /// The state at the start: no screen waits.
    pub fn new() -> Screens {
        version::hold();
        let mut state = [0; SCREENS_BYTES];
        // the call refuses nothing
        calls::screens(&mut state);
        Screens { state }
    }

    /// Posts a read for a screen, which then waits; refused by 27 where the screen, or the one last served, is above 7, by 28
    /// where it waits already, by 18 where the file number is above 63, and by 14 at 0x00. Whether a slave has the name and
    /// the record is seen at its turn.
    pub fn post(&mut self, screen: u8, read: &RecordRead) -> Result<(), TtpaError> {
        version::hold();
        let &RecordRead { name, file, record } = read;
        TtpaError::of(calls::post(&mut self.state, screen, name, file, record))
    }

    /// Serves the next screen that waits after the one last served, in cyclic order, and tells which; none where no screen
    /// waits, and then nothing is altered. Its read is a complete round with the file's epoch plus 1, as two calls of
    /// [`round`](crate::round) carry out its frames, and the answer becomes that to its data frame.
    ///
    /// Refused by 27 where the one last served is above 7, by 18 and 14 for the read that is due, by 1 to 8 for the file, and
    /// by 9. A read whose turn is refused waits on.
    pub fn turn(&mut self, file: &mut [u8], answer: &mut [u8]) -> Result<Option<Served>, TtpaError> {
        version::hold();
        let (mut senders, mut screen) = (0, NO_SCREEN);
        TtpaError::of(calls::turn(file, &mut self.state, answer, &mut senders, &mut screen))?;
        Ok((screen != NO_SCREEN).then_some(Served { screen, senders: Senders(senders) }))
    }

    /// A stored state: the screen last served, then of each screen whether it waits, 0 no and any other byte yes, and the
    /// name, file and record of its read.
    pub fn from_bytes(state: [u8; SCREENS_BYTES]) -> Screens {
        Screens { state }
    }

    /// The state to be stored.
    pub fn bytes(&self) -> [u8; SCREENS_BYTES] {
        self.state
    }
}

impl Default for Screens {
    fn default() -> Screens {
        Screens::new()
    }
}
