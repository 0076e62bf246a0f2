//! "Who holds this name" (document 02, request 8): "a summary beside the file: a count and, in a lent slice that a call
//! fills from the file, each slave's logical name in table order."

use crate::{check, round, step, Cluster, LogicalName, Refusal, Run, Slave};

/// "24, a summary that does not match its file when handed in for a round or naming step, or for the question or the
/// filling a count above the slice's length, after 8"
const NO_SUMMARY: Refusal = Refusal(24);

fn names_of(cluster: &Cluster) -> Vec<u8> {
    cluster.slaves.iter().map(|slave| slave.logical_name().0).collect()
}

/// The names of a summary: the first `count` of the slice. None where there are not so many.
fn names_in(held: &[u8], count: u64) -> Option<&[u8]> {
    held.get(..usize::try_from(count).ok()?)
}

/// Grounds 1 to 8 on the file, then 24, the count being that of the file's slaves, which is answered. What the names do
/// not need of the slice stays.
pub fn fill(file: &[u8], held: &mut [u8]) -> Result<usize, Refusal> {
    let names = names_of(&check(file)?);
    let Some(front) = held.get_mut(..names.len()) else {
        return Err(NO_SUMMARY);
    };
    front.copy_from_slice(&names);
    Ok(names.len())
}

/// "The question stops at the first holder": its place in the table, or that nobody holds the name.
pub fn holder(held: &[u8], count: u64, name: LogicalName) -> Result<Option<usize>, Refusal> {
    let names = names_in(held, count).ok_or(NO_SUMMARY)?;
    Ok(names.iter().position(|&held| held == name.0))
}

/// "what a full reading of the file gives, or that nobody holds it"; grounds 1 to 8.
pub fn first_holder(file: &[u8], name: LogicalName) -> Result<Option<usize>, Refusal> {
    let holds = |slave: &Slave| slave.logical_name() == name;
    Ok(check(file)?.slaves.iter().position(holds))
}

/// Grounds 1 to 8 on the file, then 24 on its summary.
fn check_summary(file: &[u8], held: &[u8], count: u64) -> Result<(), Refusal> {
    let cluster = check(file)?;
    if names_in(held, count) == Some(&names_of(&cluster)) {
        Ok(())
    } else {
        Err(NO_SUMMARY)
    }
}

/// "Every round and naming step may be given the summary and keeps it true." The grounds of a round, 24 after 8.
pub fn round_keeping(
    file: &mut [u8],
    frame: &[u8],
    buffer: &mut [u8],
    held: &mut [u8],
    count: u64,
) -> Result<u64, Refusal> {
    check_summary(file, held, count)?;
    let senders = round(file, frame, buffer)?;
    fill(file, held)?;
    Ok(senders)
}

/// The same of a step: the mask of its MSD, or none where an ended run does nothing.
pub fn step_keeping(
    file: &mut [u8],
    run: &mut Run,
    names: &[u8],
    buffer: &mut [u8],
    held: &mut [u8],
    count: u64,
) -> Result<Option<u64>, Refusal> {
    check_summary(file, held, count)?;
    let senders = step(file, run, names, buffer)?;
    fill(file, held)?;
    Ok(senders)
}
