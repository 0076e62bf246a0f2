//! The grounds: numbers and texts.

use std::collections::BTreeSet;
use std::error::Error;
use ttpa::TtpaError;

/// Each ground with its number in the documents and a word that its text cannot do without.
// .ci/refusals writes from here: grounds
const GROUNDS: [(TtpaError, u8, &str); 32] = [
    (TtpaError::FileSize, 1, "65,536"),
    (TtpaError::Mark, 2, "mark"),
    (TtpaError::Edition, 3, "edition"),
    (TtpaError::LengthField, 4, "as long as its header"),
    (TtpaError::Header, 5, "header"),
    (TtpaError::Layout, 6, "layout"),
    (TtpaError::NeededFile, 7, "0x3D"),
    (TtpaError::EqualPhysicalNames, 8, "physical name"),
    (TtpaError::ShortBuffer, 9, "buffer"),
    (TtpaError::Firework, 10, "firework"),
    (TtpaError::FrameLength, 11, "length"),
    (TtpaError::CheckByte, 12, "firework and the four bytes"),
    (TtpaError::Operation, 13, "operation"),
    (TtpaError::BroadcastRead, 14, "a read is"),
    (TtpaError::ListedName, 15, "0xFF"),
    (TtpaError::RepeatedName, 16, "twice"),
    (TtpaError::Position, 17, "stored naming run"),
    (TtpaError::FileNumber, 18, "file number"),
    (TtpaError::Trace, 19, "the trace"),
    (TtpaError::TwoSenders, 20, "two slaves send"),
    (TtpaError::OwnerBuffer, 21, "owner file"),
    (TtpaError::EqualLogicalNames, 22, "logical name;"),
    (TtpaError::MultiplexedSend, 23, "multiplexed"),
    (TtpaError::Summary, 24, "summary"),
    (TtpaError::EditionLimits, 25, "edition 1"),
    (TtpaError::ConversionBuffer, 26, "converted"),
    (TtpaError::Screen, 27, "above 7"),
    (TtpaError::ScreenWaiting, 28, "waiting already"),
    (TtpaError::SharedPhysicalName, 29, "of the other"),
    (TtpaError::JoinedLimits, 30, "joined"),
    (TtpaError::Pattern, 31, "above 511"),
    (TtpaError::Other(32), 32, "no text"),
];
// .ci/refusals writes to here

#[test]
fn every_ground_has_its_number_and_text() {
    for (ground, number, word) in GROUNDS {
        assert_eq!(ground.number(), number);
        let text = ground.to_string();
        let says = text.strip_prefix(&format!("refused {number}: "));
        assert!(says.is_some_and(|says| says.contains(word)), "{text}");
    }
}

#[test]
fn no_two_grounds_have_one_text() {
    let says = |ground: TtpaError| ground.to_string().split_once(": ").map(|(_, says)| says.to_string());
    let texts: BTreeSet<Option<String>> = GROUNDS.into_iter().map(|(ground, ..)| says(ground)).collect();
    assert_eq!(texts.len(), GROUNDS.len());
}

#[test]
fn a_ground_is_an_error() {
    let refused = || -> Result<(), Box<dyn Error>> { Ok(ttpa::check(&[])?) };
    assert!(refused().is_err_and(|error| error.to_string().starts_with("refused 1: ")));
}
