//! Cases by hand, each chosen for one thing that is just right or just wrong. Every expected result is worked out from the
//! documents, and no input is made by the model or an engine. An engine, the model too, has to give what stands here, and on
//! the file in the other edition the same.

pub mod contents;
pub mod editions;
mod files;
pub mod joins;
pub mod logical_names;
pub mod multiplexed;
pub mod naming_steps;
pub mod owners;
pub mod patterns;
pub mod screens;
pub mod sleepers;
pub mod step_grounds;
pub mod summaries;
pub mod traces;
pub mod two_lists;

use crate::case::{Call, Outcome};
use crate::editions::holds_in_other_edition;
use crate::engine::Engine;

/// One call, or the same one on several buffers, and what each has to answer and leave.
#[derive(Clone)]
struct Edge {
    what: &'static str,
    calls: Vec<(Call, Outcome)>,
}

impl Edge {
    fn new(what: &'static str, call: Call, expected: Outcome) -> Edge {
        Edge { what, calls: vec![(call, expected)] }
    }

    /// By this number, nothing altered.
    fn refused(what: &'static str, call: Call, number: u8) -> Edge {
        let expected = Outcome { number, ..call.before() };
        Edge::new(what, call, expected)
    }

    fn hold(&self, engine: &dyn Engine) {
        assert!(!self.calls.is_empty(), "{}: no call", self.what);
        for (call, expected) in &self.calls {
            assert_eq!(&call.make(engine), expected, "{}: {call}", self.what);
            let turned = holds_in_other_edition(engine, call, expected);
            assert!(turned, "{}, in the other edition: {call}", self.what);
        }
    }
}

/// Panics at the first edge at which the engine does something else, and where there are not so many.
fn hold_all<E: Into<Edge>>(engine: &dyn Engine, groups: impl IntoIterator<Item = Vec<E>>, count: usize) {
    let edges: Vec<Edge> = groups.into_iter().flatten().map(Into::into).collect();
    assert_eq!(edges.len(), count);
    edges.iter().for_each(|edge| edge.hold(engine));
}

#[cfg(test)]
mod tests {
    use super::{hold_all, Edge};
    use crate::case::{Call, Outcome};
    use crate::engine::Model;

    fn empty_file(number: u8) -> Edge {
        let call = Call::Check { file: Vec::new() };
        let expected = Outcome { number, ..call.before() };
        Edge::new("an empty file", call, expected)
    }

    #[test]
    fn a_right_answer_holds() {
        hold_all(&Model, [vec![empty_file(1)]], 1);
    }

    #[test]
    #[should_panic(expected = "an empty file")]
    fn a_wrong_answer_does_not() {
        hold_all(&Model, [vec![empty_file(2)]], 1);
    }

    #[test]
    #[should_panic(expected = "no call")]
    fn an_edge_without_a_call_does_not() {
        hold_all(&Model, [vec![Edge { what: "nothing", calls: Vec::new() }]], 1);
    }
}
