//! Both editions: the edges, by hand.

use compare::edges;
use compare::engine::Model;

#[test]
fn the_edges_of_editions_hold() {
    edges::editions::hold(&Model);
}
