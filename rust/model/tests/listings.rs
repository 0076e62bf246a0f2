//! The model against the listings that the test program of the listing writes.

use compare::case::bytes;

/// So many of them are given by their bytes alone; one more has a length beside them.
const LISTINGS: usize = 77;

#[test]
fn the_listings_of_the_test_program_hold() {
    let mut lines = include_str!("../../../crates/listing_cases/stdout").lines().peekable();
    let mut held = 0;
    while let Some(line) = lines.next() {
        let mut expected = String::new();
        while let Some(listed) = lines.next_if(|line| !line.starts_with('#') && !line.starts_with("list ")) {
            expected += listed;
            expected += "\n";
        }
        if let Some(file) = line.strip_prefix("list ").and_then(bytes) {
            assert_eq!(model::listing(&file), expected, "{line}");
            held += 1;
        }
    }
    assert_eq!(held, LISTINGS);
}
