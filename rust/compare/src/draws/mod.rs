//! Random inputs: numbers, clusters, frames, positions, traces, owner files, summaries, sleepers, conversions, screens,
//! pairs of files to be joined, line patterns, files that are read, whole naming runs and pairs of lists.

pub mod clusters;
pub mod contents;
pub mod conversions;
pub mod inputs;
pub mod joins;
pub mod owners;
pub mod patterns;
pub mod random;
pub mod runs;
pub mod screens;
pub mod sleepers;
pub mod summaries;
pub mod traces;
pub mod two_lists;
