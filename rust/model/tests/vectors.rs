//! The model against kept cases: vectors from another reading of documents 01 and 02, and cases of our own.

use compare::case::{bytes, hold_all, kind_of, LISTING};
use compare::editions::turned;
use compare::engine::Model;

/// The kinds of every file but `base.txt`. Steps of files before request 6 had positions of six words, and listings of
/// files before request 9 counted a round less: those lines are not kept.
const EVERY_FILE: [&str; 6] = ["check", "data", "read", "round", "start", "write"];

/// The kinds of a file that has these beside those of every file.
fn with(more: &[&'static str]) -> Vec<&'static str> {
    let mut kinds = [&EVERY_FILE[..], more].concat();
    kinds.sort_unstable();
    kinds.push(LISTING);
    kinds
}

/// The kinds of the cases in a text, all of which have to hold.
fn kinds_that_hold(text: &str) -> Vec<&str> {
    let held = hold_all(&Model, text);
    let mut kinds: Vec<&str> = held.tally.kinds().into_keys().collect();
    let mut wrong = held.wrong;
    for line in text.lines().filter(|line| kind_of(line) == LISTING) {
        kinds.push(LISTING);
        wrong.extend(listing_holds(line).err());
    }
    assert!(wrong.is_empty(), "{} differ:\n{}", wrong.len(), wrong.join("\n"));
    kinds.dedup();
    kinds
}

fn listing_holds(line: &str) -> Result<(), String> {
    let (left, expected) = line.split_once(" = ").ok_or("a case has a '='")?;
    let file = left.split_once(' ').and_then(|(_, file)| bytes(file)).ok_or("no bytes")?;
    let text = model::listing(&file);
    let given = text.strip_suffix('\n').ok_or("the last line has no end")?.replace('\n', " / ");
    let in_other_edition = model::check(&file).ok().and_then(|_| turned(&file));
    if given != expected {
        Err(format!("expected {expected}\n     got {given}\n     for {left}"))
    } else if in_other_edition.is_some_and(|turned| model::listing(&turned) != text) {
        Err(format!("another listing in the other edition, for {left}"))
    } else {
        Ok(())
    }
}

#[test]
fn base_vectors_hold() {
    let kinds = kinds_that_hold(include_str!("data/base.txt"));
    assert_eq!(kinds, ["check", "read", "round", "write"]);
}

#[test]
fn further_base_vectors_hold() {
    assert_eq!(kinds_that_hold(include_str!("data/base-more.txt")), with(&[]));
}

#[test]
fn vectors_of_request_1_hold() {
    assert_eq!(kinds_that_hold(include_str!("data/request-01.txt")), with(&[]));
}

#[test]
fn vectors_of_request_2_hold() {
    assert_eq!(kinds_that_hold(include_str!("data/request-02.txt")), with(&["trace"]));
}

#[test]
fn vectors_of_request_3_hold() {
    assert_eq!(kinds_that_hold(include_str!("data/request-03.txt")), with(&["trace"]));
}

#[test]
fn vectors_of_request_4_hold() {
    assert_eq!(kinds_that_hold(include_str!("data/request-04.txt")), with(&["owner", "trace"]));
}

#[test]
fn vectors_of_request_5_hold() {
    assert_eq!(kinds_that_hold(include_str!("data/request-05.txt")), with(&["owner", "trace"]));
}

#[test]
fn vectors_of_request_6_hold() {
    assert_eq!(kinds_that_hold(include_str!("data/request-06.txt")), with(&["owner", "step", "trace"]));
}

#[test]
fn vectors_of_request_7_hold() {
    assert_eq!(kinds_that_hold(include_str!("data/request-07.txt")), with(&["owner", "step", "trace"]));
}

#[test]
fn vectors_of_request_8_hold() {
    let about_summaries = ["fill", "holder", "round-keeping", "step-keeping"];
    let kinds = [&about_summaries[..], &["owner", "step", "trace"]].concat();
    assert_eq!(kinds_that_hold(include_str!("data/request-08.txt")), with(&kinds));
}

#[test]
fn vectors_of_request_9_hold() {
    let about_summaries = ["fill", "holder", "round-keeping", "step-keeping"];
    let kinds = [&about_summaries[..], &["owner", "step", "trace"]].concat();
    assert_eq!(kinds_that_hold(include_str!("data/request-09.txt")), with(&kinds));
}

#[test]
fn vectors_of_request_10_hold() {
    let about_summaries = ["fill", "holder", "round-keeping", "step-keeping"];
    let about_editions = ["to-edition-1", "to-edition-2"];
    let kinds = [&about_summaries[..], &about_editions, &["owner", "step", "trace"]].concat();
    assert_eq!(kinds_that_hold(include_str!("data/request-10.txt")), with(&kinds));
}

#[test]
fn vectors_of_request_11_hold() {
    let about_summaries = ["fill", "holder", "round-keeping", "step-keeping"];
    let about_editions = ["to-edition-1", "to-edition-2"];
    let kinds = [&about_summaries[..], &about_editions, &["owner", "step", "trace", "two"]].concat();
    assert_eq!(kinds_that_hold(include_str!("data/request-11.txt")), with(&kinds));
}

#[test]
fn vectors_of_request_12_hold() {
    let about_summaries = ["fill", "holder", "round-keeping", "step-keeping"];
    let about_editions = ["to-edition-1", "to-edition-2"];
    let about_screens = ["screens", "post", "turn"];
    let others = ["owner", "step", "trace", "two"];
    let kinds = [&about_summaries[..], &about_editions, &about_screens, &others].concat();
    assert_eq!(kinds_that_hold(include_str!("data/request-12.txt")), with(&kinds));
}

#[test]
fn vectors_of_request_13_hold() {
    let about_summaries = ["fill", "holder", "round-keeping", "step-keeping"];
    let about_editions = ["to-edition-1", "to-edition-2"];
    let others = ["join", "owner", "post", "step", "trace", "turn", "two"];
    let kinds = [&about_summaries[..], &about_editions, &others].concat();
    assert_eq!(kinds_that_hold(include_str!("data/request-13.txt")), with(&kinds));
}

#[test]
fn vectors_of_request_14_hold() {
    let about_summaries = ["fill", "holder", "round-keeping", "step-keeping"];
    let about_editions = ["to-edition-1", "to-edition-2"];
    let others = ["join", "owner", "pattern", "post", "step", "trace", "turn", "two"];
    let kinds = [&about_summaries[..], &about_editions, &others].concat();
    assert_eq!(kinds_that_hold(include_str!("data/request-14.txt")), with(&kinds));
}

#[test]
fn cases_of_our_own_hold() {
    assert!(!kinds_that_hold(include_str!("data/cases.txt")).is_empty());
}

/// The whole of another file of cases, named by TTPA_CASES.
#[test]
#[ignore = "needs a file of cases"]
fn another_file_holds() {
    let path = std::env::var("TTPA_CASES").expect("TTPA_CASES names a file of cases");
    let text = std::fs::read_to_string(path).expect("a readable file");
    assert!(!kinds_that_hold(&text).is_empty());
}
