//! Joins of two cluster files.

use crate::{
    m10_with, refused_files, EPOCH, FILL, FIRST_LOGICAL_NAME, LAST_SERIAL, M10, SECOND_LOGICAL_NAME, SLEEP_BYTE,
};
use ttpa::{check, join, to_edition, Edition, End, Run, TtpaError, ANSWER_BYTES, NAME_UNNAMED};

/// Where M10 has the first slave's serial number.
const FIRST_SERIAL: usize = 0x3B;

/// M10 with these serial numbers and logical names.
fn segment(serials: [u8; 2], names: [u8; 2]) -> Vec<u8> {
    let mut file = M10.to_vec();
    (file[FIRST_SERIAL], file[LAST_SERIAL]) = (serials[0], serials[1]);
    (file[FIRST_LOGICAL_NAME], file[SECOND_LOGICAL_NAME]) = (names[0], names[1]);
    file
}

/// The joined file, the bytes behind it being as they were.
fn joined(first: &[u8], second: &[u8]) -> Result<Vec<u8>, TtpaError> {
    let mut buffer = [FILL; 400];
    let length = join(first, second, &mut buffer)?;
    assert_eq!(buffer[length..], [FILL; 400][length..]);
    Ok(buffer[..length].to_vec())
}

/// Two segments like M10: a table of four entries, and behind it the slaves, 36 bytes each.
fn four_slaves(serials: [u8; 4], names: [u8; 4]) -> Vec<u8> {
    let mut file = vec![0x54, 0x41, 1, 4, 0, 0x10, 0, 0xB0, 0, 0, 0, 0, 0, 0, 0, 0];
    (0..4).for_each(|slave| file.extend([0, 0x20 + 36 * slave, 2, 0]));
    for (slave, (serial, name)) in (0..4).zip(serials.into_iter().zip(names)) {
        let place = 0x20 + 36 * slave;
        file.extend([0x08, 3, 0, place + 8, 0x3D, 2, 0, place + 24]);
        file.extend([0, 0, 0, 0, 0, 0, 0, name, 0, 0, 0, 0, 0, 0, 0, 0]);
        file.extend([0, 0, 0, 0, 0, 0, 0, 7, 0, 0, 0, serial]);
    }
    file
}

#[test]
fn the_slaves_of_the_second_come_behind_those_of_the_first() {
    let (first, second) = (segment([0x10, 0xA0], [1, 2]), segment([0x11, 0x0A], [3, 4]));
    assert_eq!(joined(&first, &second), Ok(four_slaves([0x10, 0xA0, 0x11, 0x0A], [1, 2, 3, 4])));
    assert_eq!(joined(&second, &first), Ok(four_slaves([0x11, 0x0A, 0x10, 0xA0], [3, 4, 1, 2])));
}

#[test]
fn a_name_that_the_first_holds_is_turned() {
    let all = [0x10, 0xA0, 0x11, 0x0A];
    for (of_first, of_second, turned) in [
        ([1, 2], [2, 1], [NAME_UNNAMED, NAME_UNNAMED]),
        ([1, 2], [3, 1], [3, NAME_UNNAMED]),
        ([1, NAME_UNNAMED], [NAME_UNNAMED, 2], [NAME_UNNAMED, 2]),
        ([0, 2], [0, 3], [NAME_UNNAMED, 3]),
        ([1, 2], [0, 0], [0, 0]),
        ([1, 1], [3, 3], [3, 3]),
        ([1, 1], [1, 1], [NAME_UNNAMED, NAME_UNNAMED]),
    ] {
        let (first, second) = (segment([0x10, 0xA0], of_first), segment([0x11, 0x0A], of_second));
        let names = [of_first[0], of_first[1], turned[0], turned[1]];
        assert_eq!(joined(&first, &second), Ok(four_slaves(all, names)));
    }
}

#[test]
fn epoch_pending_bytes_and_sleep_are_dropped() {
    let restless = |mut file: Vec<u8>| {
        file[EPOCH..EPOCH + 5].copy_from_slice(&[9, 1, 5, 0x21, 1]);
        (file[SLEEP_BYTE], file[SLEEP_BYTE + 4]) = (1, 1);
        file
    };
    let (first, second) = (segment([0x10, 0xA0], [1, 2]), segment([0x11, 0x0A], [2, 4]));
    let expected = four_slaves([0x10, 0xA0, 0x11, 0x0A], [1, 2, NAME_UNNAMED, 4]);
    assert_eq!(joined(&restless(first), &restless(second)), Ok(expected));
}

/// The file in edition 2.
fn wide(file: &[u8]) -> Vec<u8> {
    let mut buffer = [0; 400];
    to_edition(file, Edition::Two, &mut buffer).expect("a small file").to_vec()
}

#[test]
fn the_edition_is_that_of_the_first() {
    let (first, second) = (segment([0x10, 0xA0], [1, 2]), segment([0x11, 0x0A], [2, 4]));
    let narrow = four_slaves([0x10, 0xA0, 0x11, 0x0A], [1, 2, NAME_UNNAMED, 4]);
    assert_eq!(joined(&first, &wide(&second)), Ok(narrow.clone()));
    assert_eq!(joined(&wide(&first), &second), Ok(wide(&narrow)));
    assert_eq!(joined(&wide(&first), &wide(&second)), Ok(wide(&narrow)));
}

/// The call refuses on this ground and leaves the buffer.
fn assert_refused(first: &[u8], second: &[u8], bytes: usize, ground: TtpaError) {
    let mut buffer = vec![FILL; bytes];
    assert_eq!(join(first, second, &mut buffer), Err(ground));
    assert_eq!(buffer, vec![FILL; bytes]);
}

#[test]
fn a_join_is_refused_on_each_ground() {
    let second = segment([0x11, 0x0A], [3, 4]);
    for (file, ground) in refused_files() {
        for bytes in [0, 400] {
            assert_refused(&file, &second, bytes, ground);
            assert_refused(&second, &file, bytes, ground);
            // the first file's number comes before the second's, whichever it is
            for (other, _) in refused_files() {
                assert_refused(&file, &other, bytes, ground);
            }
        }
    }
    for bytes in [0, 400] {
        assert_refused(M10, M10, bytes, TtpaError::SharedPhysicalName);
        assert_refused(M10, &wide(M10), bytes, TtpaError::SharedPhysicalName);
        assert_refused(M10, &segment([0x11, 0xA0], [3, 4]), bytes, TtpaError::SharedPhysicalName);
    }
    assert_refused(M10, &second, 0, TtpaError::JoinedLimits);
    assert_refused(M10, &second, 175, TtpaError::JoinedLimits);
    assert_refused(&wide(M10), &second, 24 + 4 * 52 - 1, TtpaError::JoinedLimits);
}

#[test]
fn two_files_that_load_make_one_that_loads() {
    let (first, second) = (segment([0x10, 0xA0], [1, 0]), segment([0x11, 0x0A], [0, 1]));
    assert_eq!((check(&first), check(&second)), (Ok(()), Ok(())));
    assert_eq!(joined(&first, &second).and_then(|file| check(&file)), Ok(()));
    // equal names in one file stay
    let alike = segment([0x11, 0x0A], [5, 5]);
    assert_eq!(joined(&first, &alike).and_then(|file| check(&file)), Err(TtpaError::EqualLogicalNames));
}

/// The unnamed slave of the first and the turned one of the second get names, the greater physical name first.
#[test]
fn naming_after_a_join_names_whom_it_left_unnamed() {
    let (first, second) = (segment([0x10, 0xA0], [1, NAME_UNNAMED]), segment([0xB1, 0x0A], [1, 2]));
    let mut file = joined(&first, &second).expect("small files");
    let (names, mut answer) = ([1, 2, 3, 4, 5], [0; ANSWER_BYTES]);
    let mut run = Run::start(&names).expect("good names");
    while run.end() == End::Running {
        run.step(&mut file, &names, &mut answer).expect("a good step");
    }
    let held: Vec<u8> = (0..4).map(|slave| file[0x20 + 36 * slave + 8 + 7]).collect();
    assert_eq!((run.end(), held), (End::AllNamed, vec![1, 4, 3, 2]));
}

#[test]
fn neither_file_is_altered() {
    let (first, second) = (m10_with(EPOCH, 7), segment([0x11, 0x0A], [NAME_UNNAMED, 4]));
    let before = (first.clone(), second.clone());
    assert!(joined(&first, &second).is_ok());
    assert_eq!((first, second), before);
}
