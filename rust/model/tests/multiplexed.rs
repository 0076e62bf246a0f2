//! Multiplexed entries: the edges, by hand.

use compare::edges;
use compare::engine::Model;

#[test]
fn the_edges_of_multiplexed_entries_hold() {
    edges::multiplexed::hold(&Model);
}
