//! Both editions, and conversions between them.

use crate::{refused_files, FILL, M10};
use ttpa::{check, to_edition, Edition, TtpaError, EDITION_1_SLAVES, MOST_SLAVES};

/// M10 in edition 2: places of 4 bytes, a header of 24 bytes and entries of 8.
const WIDE_M10: [u8; 128] = [
    0x54, 0x41, 2, 2, 0, 0, 0, 24, 0, 0, 0, 128, 0, 0, 0, 0, 0, 0, 0, 0, 0, 0, 0, 0, //
    0, 0, 0, 0x28, 2, 0, 0, 0, 0, 0, 0, 0x54, 2, 0, 0, 0, //
    0x08, 3, 0, 0, 0, 0, 0, 0x38, 0x3D, 2, 0, 0, 0, 0, 0, 0x48, //
    0, 0, 0, 0, 0, 0, 0, 0xFF, 0, 0, 0, 0, 0, 0, 0, 0, 0, 0, 0, 0, 0, 0, 0, 7, 0, 0, 0, 0x10, //
    0x08, 3, 0, 0, 0, 0, 0, 0x64, 0x3D, 2, 0, 0, 0, 0, 0, 0x74, //
    0, 0, 0, 0, 0, 0, 0, 0xFF, 0, 0, 0, 0, 0, 0, 0, 0, 0, 0, 0, 0, 0, 0, 0, 7, 0, 0, 0, 0xA0,
];

/// A file of edition 2 with so many slaves of two files each, which are 52 bytes a slave.
fn slaves(count: usize) -> Vec<u8> {
    let four = |number: usize| (number as u32).to_be_bytes();
    let (table, length) = (24 + 8 * count, 24 + 52 * count);
    let mut file = vec![0x54, 0x41, 2, count as u8, 0, 0, 0, 24];
    file.extend(four(length));
    file.extend([0; 12]);
    for slave in 0..count {
        file.extend(four(table + 44 * slave));
        file.extend([2, 0, 0, 0]);
    }
    for slave in 0..count {
        let directory = table + 44 * slave;
        file.extend([0x08, 3, 0, 0]);
        file.extend(four(directory + 16));
        file.extend([0x3D, 2, 0, 0]);
        file.extend(four(directory + 32));
        file.extend([0, 0, 0, 0, 0, 0, 0, 0xFF, 0, 0, 0, 0, 0, 0, 0, 0]);
        file.extend([0, 0, 0, 0, 0, 0, 0, 7]);
        file.extend(four(slave));
    }
    file
}

#[test]
fn both_editions_are_accepted() {
    assert_eq!((check(M10), check(&WIDE_M10)), (Ok(()), Ok(())));
    assert_eq!(
        (check(&slaves(MOST_SLAVES)), check(&slaves(MOST_SLAVES + 1))),
        (Ok(()), Err(TtpaError::Header))
    );
    // the length in the places of edition 1, and of edition 2 in a file that says it is of edition 1
    let with_edition = |file: &[u8], edition: u8| [&file[..2], &[edition], &file[3..]].concat();
    assert_eq!(check(&with_edition(M10, 2)), Err(TtpaError::LengthField));
    assert_eq!(check(&with_edition(&WIDE_M10, 1)), Err(TtpaError::LengthField));
    assert_eq!(check(&with_edition(&WIDE_M10, 3)), Err(TtpaError::Edition));
    assert_eq!(check(&WIDE_M10[..23]), Err(TtpaError::FileSize));
    assert_eq!(check(&WIDE_M10[..24]), Err(TtpaError::LengthField));
}

/// The file in the edition, the bytes behind it being as they were.
fn converted(file: &[u8], edition: Edition) -> Result<Vec<u8>, TtpaError> {
    let mut buffer = [FILL; 10_000];
    let converted = to_edition(file, edition, &mut buffer)?.to_vec();
    assert_eq!(buffer[converted.len()..], [FILL; 10_000][converted.len()..]);
    Ok(converted)
}

#[test]
fn files_are_converted_and_copied() {
    assert_eq!(converted(M10, Edition::Two), Ok(WIDE_M10.to_vec()));
    assert_eq!(converted(&WIDE_M10, Edition::One), Ok(M10.to_vec()));
    assert_eq!(converted(M10, Edition::One), Ok(M10.to_vec()));
    assert_eq!(converted(&WIDE_M10, Edition::Two), Ok(WIDE_M10.to_vec()));
    let most = slaves(EDITION_1_SLAVES);
    let narrow = converted(&most, Edition::One).expect("32 slaves");
    assert_eq!((narrow.len(), converted(&narrow, Edition::Two)), (16 + 40 * 32, Ok(most)));
}

/// The call refuses on this ground and leaves the buffer.
fn assert_refused(file: &[u8], edition: Edition, bytes: usize, ground: TtpaError) {
    let mut buffer = vec![FILL; bytes];
    assert_eq!(to_edition(file, edition, &mut buffer), Err(ground));
    assert_eq!(buffer, vec![FILL; bytes]);
}

#[test]
fn a_conversion_is_refused_on_each_ground() {
    for edition in [Edition::One, Edition::Two] {
        for (file, ground) in refused_files() {
            assert_refused(&file, edition, 1_000, ground);
            // the file's number comes before that of the buffer
            assert_refused(&file, edition, 0, ground);
        }
        assert_refused(M10, edition, 0, TtpaError::ConversionBuffer);
    }
    let one_more = slaves(EDITION_1_SLAVES + 1);
    assert_refused(&one_more, Edition::One, 10_000, TtpaError::EditionLimits);
    assert_refused(&one_more, Edition::One, 0, TtpaError::EditionLimits);
    assert_refused(M10, Edition::Two, WIDE_M10.len() - 1, TtpaError::ConversionBuffer);
    assert_refused(&WIDE_M10, Edition::One, M10.len() - 1, TtpaError::ConversionBuffer);
    assert_refused(&WIDE_M10, Edition::Two, WIDE_M10.len() - 1, TtpaError::ConversionBuffer);
}

/// A round on both forms: the same answer, and the files left are each other's conversion.
#[test]
fn a_round_gives_equal_answers_on_both_forms() {
    let (mut narrow, mut wide) = (M10.to_vec(), WIDE_M10.to_vec());
    for frame in [&[0x55, 0x05, 0xFF, 0x22, 0x02, 0x8F][..], &[0x49], &[0xBA]] {
        let mut answers = [[FILL; ttpa::ANSWER_BYTES]; 2];
        let [on_narrow, on_wide] = &mut answers;
        assert_eq!(ttpa::round(&mut narrow, frame, on_narrow), ttpa::round(&mut wide, frame, on_wide));
        assert_eq!(on_narrow, on_wide);
        assert_eq!(converted(&wide, Edition::One), Ok(narrow.clone()));
    }
    assert_eq!((narrow[8], wide[12]), (7, 7));
}
