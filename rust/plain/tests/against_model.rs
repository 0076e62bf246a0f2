//! The tuned program against the model on many random calls.

use compare::campaign::agrees_with_model;
use compare::edges;
use compare::engine::{Engine, Model, Plain};

#[test]
fn plain_does_what_the_model_does() {
    agrees_with_model(&Plain { nested: false }, 2);
}

#[test]
fn nested_loops_do_what_the_model_does() {
    agrees_with_model(&Plain { nested: true }, 3);
}

#[test]
fn the_edges_of_a_trace_hold() {
    edges::traces::hold(&Plain { nested: false });
    edges::traces::hold(&Plain { nested: true });
}

#[test]
fn the_edges_of_logical_names_hold() {
    edges::logical_names::hold(&Plain { nested: false });
    edges::logical_names::hold(&Plain { nested: true });
}

#[test]
fn the_edges_of_naming_steps_hold() {
    edges::naming_steps::hold(&Plain { nested: false });
    edges::naming_steps::hold(&Plain { nested: true });
}

#[test]
fn the_grounds_of_a_step_hold() {
    edges::step_grounds::hold(&Plain { nested: false });
}

#[test]
fn the_edges_of_multiplexed_entries_hold() {
    edges::multiplexed::hold(&Plain { nested: false });
    edges::multiplexed::hold(&Plain { nested: true });
}

#[test]
fn the_edges_of_an_owner_file_hold() {
    edges::owners::hold(&Plain { nested: false });
}

#[test]
fn the_edges_of_summaries_hold() {
    edges::summaries::hold(&Plain { nested: false });
}

#[test]
fn the_edges_of_sleepers_hold() {
    edges::sleepers::hold(&Plain { nested: false });
    edges::sleepers::hold(&Plain { nested: true });
}

#[test]
fn the_edges_of_editions_hold() {
    edges::editions::hold(&Plain { nested: false });
    edges::editions::hold(&Plain { nested: true });
}

#[test]
fn the_edges_of_two_lists_hold() {
    edges::two_lists::hold(&Plain { nested: false });
    edges::two_lists::hold(&Plain { nested: true });
}

#[test]
fn the_edges_of_screens_hold() {
    edges::screens::hold(&Plain { nested: false });
}

#[test]
fn the_edges_of_joins_hold() {
    edges::joins::hold(&Plain { nested: false });
}

#[test]
fn the_edges_of_patterns_hold() {
    edges::patterns::hold(&Plain { nested: false });
}

#[test]
fn the_edges_of_contents_hold() {
    edges::contents::hold(&Plain { nested: false });
}

/// A file of edition 2 of 65,536 bytes whose second slave has its directory at the end, with places from 0 on as if they went round:
/// 64 files of 1,024 bytes, which end at 65,536 again.
#[test]
fn places_that_go_round_are_refused() {
    const DIRECTORY_BYTES: usize = 64 * 8;
    const LENGTH: usize = 65_536;
    let directory = |first: usize, last_record: fn(usize) -> usize| -> Vec<u8> {
        let mut place = first;
        let entry = |number: usize| {
            let [_, _, high, low] = (place as u32).to_be_bytes();
            place += 4 * (last_record(number) + 1);
            [number as u8, last_record(number) as u8, 0, 0, 0, 0, high, low]
        };
        (0..64).flat_map(entry).collect()
    };
    let (first, second) = (40, LENGTH - DIRECTORY_BYTES);
    let mut file = vec![0x54, 0x41, 2, 2, 0, 0, 0, 24, 0, 1, 0, 0, 0, 0, 0, 0, 0, 0, 0, 0, 0, 0, 0, 0];
    for place in [first, second] {
        file.extend((place as u32).to_be_bytes());
        file.extend([64, 0, 0, 0]);
    }
    file.extend(directory(first + DIRECTORY_BYTES, |number| if number < 62 { 255 } else { 122 }));
    file.resize(second, 0);
    file.extend(directory(0, |_| 255));
    assert_eq!(file.len(), LENGTH);
    assert_eq!(Model.check(&file), 6);
    assert_eq!(Plain { nested: false }.check(&file), 6);
}
