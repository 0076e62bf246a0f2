//! Owner files: the edges, by hand.

use compare::edges;
use compare::engine::Model;

#[test]
fn the_edges_of_an_owner_file_hold() {
    edges::owners::hold(&Model);
}
