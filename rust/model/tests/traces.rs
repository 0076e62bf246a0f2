//! Captured traces: the edges, by hand.

use compare::edges;
use compare::engine::Model;

#[test]
fn the_edges_of_a_trace_hold() {
    edges::traces::hold(&Model);
}
