//! What calls are examples of: the sorts that have to occur, and the tally of outcomes.

pub mod contents;
pub mod conversions;
pub mod grounds;
pub mod joins;
pub mod names;
pub mod owners;
pub mod passes;
pub mod patterns;
pub mod screens;
pub mod sleepers;
mod sort;
pub mod summaries;
pub mod tally;
pub mod traces;
pub mod turns;
pub mod two_lists;

use crate::case::{Call, Outcome};
pub use sort::{Reached, Sort};

/// What any call is an example of. Traces, owner files, pairs of lists and flipped bits are sorted where they are drawn.
pub fn of(call: &Call, outcome: &Outcome) -> Vec<Sort> {
    let mut sorts = Vec::from_iter(Sort::of(call, outcome));
    sorts.extend(names::sorts(call, outcome));
    sorts.extend(passes::sorts(call, outcome));
    sorts.extend(grounds::sorts(call, outcome));
    sorts.extend(turns::sorts(call, outcome));
    sorts.extend(summaries::sorts(call, outcome));
    sorts.extend(sleepers::sorts(call, outcome));
    sorts.extend(conversions::sorts(call, outcome));
    sorts.extend(screens::sorts(call, outcome));
    sorts.extend(joins::sorts(call, outcome));
    sorts.extend(patterns::sorts(call, outcome));
    sorts.extend(contents::sorts(call, outcome));
    sorts
}
