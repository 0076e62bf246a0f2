//! Sleep and wake: the edges, by hand.

use compare::edges;
use compare::engine::Model;

#[test]
fn the_edges_of_sleepers_hold() {
    edges::sleepers::hold(&Model);
}
