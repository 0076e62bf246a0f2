//! Logical names: the edges, by hand.

use compare::edges;
use compare::engine::Model;

#[test]
fn the_edges_of_logical_names_hold() {
    edges::logical_names::hold(&Model);
}
