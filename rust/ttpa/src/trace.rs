use crate::calls::{self, REPORT_WORDS};
use crate::{version, TtpaError};

/// A trace has at most this many bytes.
pub const MOST_TRACE_BYTES: usize = 16_384;

/// What came of the frames of a trace. Each frame is counted once: in `refused`, or by its firework.
#[derive(Clone, Copy, Debug, PartialEq, Eq)]
pub struct Report {
    /// Address frames carried out.
    pub msa: u64,
    /// Data frames carried out, those with nothing pending too.
    pub msd: u64,
    /// Multipartner frames carried out.
    pub multipartner: u64,
    /// Frames that a round would have refused, by 10 to 14.
    pub refused: u64,
    /// The sum of the four: the frame count in the trace's header.
    pub sum: u64,
}

/// Runs a captured trace on a cluster file; refused by 1 to 8 and 19. The file becomes what its frames leave when each
/// is sent by a call of [`round`](crate::round), in order; a frame refused there is counted, and the run goes on.
///
/// A trace is: frame count (2 bytes, the most significant first, like all numbers here), data length (2); for each
/// frame its offset in the data (2) and its length (1); then the data, which the frames fill in order without gap.
/// It has at most [`MOST_TRACE_BYTES`].
///
/// ```no_run
/// let mut file = std::fs::read("plant.cluster").unwrap();
/// let report = ttpa::trace(&mut file, &std::fs::read("site.trace").unwrap())?;
/// println!("{} of {} frames were refused", report.refused, report.sum);
/// # Ok::<(), ttpa::TtpaError>(())
/// ```
pub fn trace(file: &mut [u8], trace: &[u8]) -> Result<Report, TtpaError> {
    version::hold();
    let mut words = [0; REPORT_WORDS];
    TtpaError::of(calls::trace(file, trace, &mut words))?;
    let [msa, msd, multipartner, refused, sum] = words;
    Ok(Report { msa, msd, multipartner, refused, sum })
}
