//! Summaries: the edges, by hand.

use compare::edges;
use compare::engine::Model;

#[test]
fn the_edges_of_summaries_hold() {
    edges::summaries::hold(&Model);
}
