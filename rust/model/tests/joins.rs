//! Joins of two cluster files: the edges, by hand.

use compare::edges;
use compare::engine::Model;

#[test]
fn the_edges_of_joins_hold() {
    edges::joins::hold(&Model);
}
