//! Nine-bit patterns of the line: the edges, by hand, and the counts of the classes.

use compare::edges;
use compare::engine::Model;
use model::{pattern, PatternClass};

#[test]
fn the_edges_of_patterns_hold() {
    edges::patterns::hold(&Model);
}

#[test]
fn the_classes_are_counted() {
    let count = |class| (0..512).filter(|&of| pattern(of) == Ok(class)).count();
    let counts = [PatternClass::DataByte, PatternClass::Firework, PatternClass::Broken].map(count);
    assert_eq!(counts, [256, 8, 248]);
}
