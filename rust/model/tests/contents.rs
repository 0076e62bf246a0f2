//! Slaves' files that are read: the edges, by hand.

use compare::edges;
use compare::engine::Model;

#[test]
fn the_edges_of_contents_hold() {
    edges::contents::hold(&Model);
}
