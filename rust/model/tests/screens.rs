//! Screens that share turns: the edges, by hand.

use compare::edges;
use compare::engine::Model;

#[test]
fn the_edges_of_screens_hold() {
    edges::screens::hold(&Model);
}
