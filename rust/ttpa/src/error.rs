use core::fmt;

/// Why a call turned something away: the grounds of documents 01 and 02.
#[derive(Clone, Copy, Debug, PartialEq, Eq)]
#[non_exhaustive]
pub enum TtpaError {
    // .ci/refusals writes from here: variants
    /// 1: the file is shorter than 16 or longer than 32,768 bytes; if byte 2 is 2, than 24 or 65,536.
    FileSize,
    /// 2: the mark is wrong.
    Mark,
    /// 3: the edition is neither 1 nor 2.
    Edition,
    /// 4: the length field is not the file's length.
    LengthField,
    /// 5: a header field is wrong.
    Header,
    /// 6: the layout is broken.
    Layout,
    /// 7: a slave lacks file 0x08 or 0x3D in the needed size.
    NeededFile,
    /// 8: two slaves have equal physical names.
    EqualPhysicalNames,
    /// 9: the buffer is too short.
    ShortBuffer,
    /// 10: the frame is empty or its first byte is no firework that fits here.
    Firework,
    /// 11: the frame's length does not fit its firework.
    FrameLength,
    /// 12: the check byte is not the exclusive or of the firework and the four bytes.
    CheckByte,
    /// 13: there is no such operation.
    Operation,
    /// 14: a read is addressed to 0x00.
    BroadcastRead,
    /// 15: a listed name is 0x00 or 0xFF.
    ListedName,
    /// 16: a listed name occurs twice.
    RepeatedName,
    /// 17: the stored run position is none.
    Position,
    /// 18: the file number is above 63.
    FileNumber,
    /// 19: the trace's header, an offset or its length breaks the layout.
    Trace,
    /// 20: two slaves send in one slot of a round.
    TwoSenders,
    /// 21: the buffer is too short for the owner file.
    OwnerBuffer,
    /// 22: two slaves of a file that is loaded have one logical name other than 0xFF.
    EqualLogicalNames,
    /// 23: a slave has a multiplexed send before the end of its list for one of the six rounds, able to send or not.
    MultiplexedSend,
    /// 24: the summary does not match its cluster file, or its count is above its slice's length.
    Summary,
    /// 25: a file to be narrowed to edition 1 has more than 32 slaves, or would have more than 32,768 bytes there.
    EditionLimits,
    /// 26: the buffer is too short for the converted file.
    ConversionBuffer,
    /// 27: the screen, or the one last served in the state, is above 7.
    Screen,
    /// 28: the screen waits already.
    ScreenWaiting,
    /// 29: a physical name is in both files.
    SharedPhysicalName,
    /// 30: the joined file has more slaves or bytes than its edition, which is the first file's, or than the buffer has bytes.
    JoinedLimits,
    /// 31: the pattern is above 511.
    Pattern,
    // .ci/refusals writes to here
    /// A number that this edition of the crate does not know.
    Other(u8),
}

/// The variants in the order of their numbers, from 1.
// .ci/refusals writes from here: numbered
const NUMBERED: [TtpaError; 31] = [
    TtpaError::FileSize,
    TtpaError::Mark,
    TtpaError::Edition,
    TtpaError::LengthField,
    TtpaError::Header,
    TtpaError::Layout,
    TtpaError::NeededFile,
    TtpaError::EqualPhysicalNames,
    TtpaError::ShortBuffer,
    TtpaError::Firework,
    TtpaError::FrameLength,
    TtpaError::CheckByte,
    TtpaError::Operation,
    TtpaError::BroadcastRead,
    TtpaError::ListedName,
    TtpaError::RepeatedName,
    TtpaError::Position,
    TtpaError::FileNumber,
    TtpaError::Trace,
    TtpaError::TwoSenders,
    TtpaError::OwnerBuffer,
    TtpaError::EqualLogicalNames,
    TtpaError::MultiplexedSend,
    TtpaError::Summary,
    TtpaError::EditionLimits,
    TtpaError::ConversionBuffer,
    TtpaError::Screen,
    TtpaError::ScreenWaiting,
    TtpaError::SharedPhysicalName,
    TtpaError::JoinedLimits,
    TtpaError::Pattern,
];
// .ci/refusals writes to here

impl TtpaError {
    /// The answer of a call: 0 is success.
    pub(crate) fn of(number: u8) -> Result<(), TtpaError> {
        let Some(place) = number.checked_sub(1) else { return Ok(()) };
        Err(NUMBERED.get(usize::from(place)).copied().unwrap_or(TtpaError::Other(number)))
    }

    /// The documents' number.
    pub fn number(self) -> u8 {
        match self {
            TtpaError::Other(number) => number,
            _ => NUMBERED.iter().position(|&known| known == self).map_or(0, |place| place as u8 + 1),
        }
    }

    /// The texts of include/ttpa.h.
    fn text(self) -> &'static str {
        match self {
            // .ci/refusals writes from here: arms
            TtpaError::FileSize => {
                "the cluster file is shorter than its header or longer than 32,768 bytes, 65,536 in edition 2"
            }
            TtpaError::Mark => "the file is no cluster file: it does not begin with the mark 0x54 0x41",
            TtpaError::Edition => "the cluster file's edition, byte 2 of its header, is neither 1 nor 2",
            TtpaError::LengthField => "the cluster file is not as long as its header says",
            TtpaError::Header => {
                "the cluster file's header has a wrong count, table offset, pending operation or zero byte"
            }
            TtpaError::Layout => {
                "the cluster file's slave table, a slave's directory or the file's end breaks the layout"
            }
            TtpaError::NeededFile => {
                "a slave lacks file 0x08 (configuration) with record 3 or 0x3D (documentation) with record 2"
            }
            TtpaError::EqualPhysicalNames => "two slaves have the same physical name",
            TtpaError::ShortBuffer => {
                "the buffer is too short: 64 bytes are needed for an answer, 6 for a frame"
            }
            TtpaError::Firework => {
                "the frame is empty or begins with no firework; an address frame begins with 0x55"
            }
            TtpaError::FrameLength => {
                "the frame's length does not fit its firework: 6 for an address or written data, else 1"
            }
            TtpaError::CheckByte => {
                "the frame's check byte does not fit the firework and the four bytes before it"
            }
            TtpaError::Operation => "the address frame's operation is none of read, write and execute",
            TtpaError::BroadcastRead => "a read is addressed to all slaves, logical name 0x00",
            TtpaError::ListedName => {
                "the list of names has 0x00 (broadcast) or 0xFF (unnamed), which a naming run does not give"
            }
            TtpaError::RepeatedName => "the list of names has a name twice",
            TtpaError::Position => "the stored naming run is damaged or belongs to another list of names",
            TtpaError::FileNumber => "the file number of an address frame or a read is above 63",
            TtpaError::Trace => {
                "the trace is longer than 16,384 bytes, or its header, an offset or its length is wrong"
            }
            TtpaError::TwoSenders => {
                "two slaves send in one slot of a round, so that the slot has no single owner"
            }
            TtpaError::OwnerBuffer => "the buffer is too short for this cluster's owner file",
            TtpaError::EqualLogicalNames => {
                "two slaves have the same logical name; 0xFF (unnamed) alone may occur more than once"
            }
            TtpaError::MultiplexedSend => {
                "a slave has a multiplexed send in a round, and its slot need not have one owner in all epochs"
            }
            TtpaError::Summary => {
                "the summary does not match the cluster file, or has more names than there is room for"
            }
            TtpaError::EditionLimits => {
                "the cluster file does not fit into edition 1, which has at most 32 slaves and 32,768 bytes"
            }
            TtpaError::ConversionBuffer => "the buffer is too short for the converted cluster file",
            TtpaError::Screen => "the screen, or the screen last served in the stored state, is above 7",
            TtpaError::ScreenWaiting => "the screen has a read waiting already",
            TtpaError::SharedPhysicalName => {
                "a slave of one cluster file has the same physical name as a slave of the other"
            }
            TtpaError::JoinedLimits => {
                "the joined cluster file has more slaves or bytes than its edition may have, or more bytes than the buffer"
            }
            TtpaError::Pattern => "the line pattern is above 511, and so has more than nine bits",
            TtpaError::Other(_) => "refused on a ground that this version has no text for",
            // .ci/refusals writes to here
        }
    }
}

impl fmt::Display for TtpaError {
    fn fmt(&self, out: &mut fmt::Formatter) -> fmt::Result {
        write!(out, "refused {}: {}", self.number(), self.text())
    }
}

impl core::error::Error for TtpaError {}

#[cfg(test)]
mod tests {
    use super::{TtpaError, NUMBERED};

    #[test]
    fn every_number_comes_back() {
        assert_eq!(TtpaError::of(0), Ok(()));
        for number in 1..=u8::MAX {
            assert_eq!(TtpaError::of(number).map_err(TtpaError::number), Err(number));
        }
    }

    #[test]
    fn texts_are_those_of_the_header() {
        let returned = |line: &'static str| line.trim().strip_prefix("return \"")?.strip_suffix("\";");
        let header = include_str!("../../../include/ttpa.h").lines().filter_map(returned);
        let own = NUMBERED.into_iter().chain([TtpaError::Other(u8::MAX)]).map(TtpaError::text);
        assert!(header.eq(["accepted"].into_iter().chain(own)));
    }

    #[test]
    fn numbers_are_those_of_the_document() {
        // .ci/refusals writes from here: asserts
        assert_eq!(TtpaError::FileSize.number(), 1);
        assert_eq!(TtpaError::Mark.number(), 2);
        assert_eq!(TtpaError::Edition.number(), 3);
        assert_eq!(TtpaError::LengthField.number(), 4);
        assert_eq!(TtpaError::Header.number(), 5);
        assert_eq!(TtpaError::Layout.number(), 6);
        assert_eq!(TtpaError::NeededFile.number(), 7);
        assert_eq!(TtpaError::EqualPhysicalNames.number(), 8);
        assert_eq!(TtpaError::ShortBuffer.number(), 9);
        assert_eq!(TtpaError::Firework.number(), 10);
        assert_eq!(TtpaError::FrameLength.number(), 11);
        assert_eq!(TtpaError::CheckByte.number(), 12);
        assert_eq!(TtpaError::Operation.number(), 13);
        assert_eq!(TtpaError::BroadcastRead.number(), 14);
        assert_eq!(TtpaError::ListedName.number(), 15);
        assert_eq!(TtpaError::RepeatedName.number(), 16);
        assert_eq!(TtpaError::Position.number(), 17);
        assert_eq!(TtpaError::FileNumber.number(), 18);
        assert_eq!(TtpaError::Trace.number(), 19);
        assert_eq!(TtpaError::TwoSenders.number(), 20);
        assert_eq!(TtpaError::OwnerBuffer.number(), 21);
        assert_eq!(TtpaError::EqualLogicalNames.number(), 22);
        assert_eq!(TtpaError::MultiplexedSend.number(), 23);
        assert_eq!(TtpaError::Summary.number(), 24);
        assert_eq!(TtpaError::EditionLimits.number(), 25);
        assert_eq!(TtpaError::ConversionBuffer.number(), 26);
        assert_eq!(TtpaError::Screen.number(), 27);
        assert_eq!(TtpaError::ScreenWaiting.number(), 28);
        assert_eq!(TtpaError::SharedPhysicalName.number(), 29);
        assert_eq!(TtpaError::JoinedLimits.number(), 30);
        assert_eq!(TtpaError::Pattern.number(), 31);
        assert_eq!(TtpaError::Other(32).number(), 32);
        // .ci/refusals writes to here
    }
}
