//! A second list of names: the edges, by hand.

use compare::edges;
use compare::engine::Model;

#[test]
fn the_edges_of_two_lists_hold() {
    edges::two_lists::hold(&Model);
}
