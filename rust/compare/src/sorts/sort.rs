//! Sorts of calls that random inputs must reach, besides every answer of every call.

use crate::case::{Call, Outcome};
use crate::frames::{is_multipartner, is_unfolded};
use model::{check, Cluster, FileNumber, Pending, RecordNumber, MSA, MSD};
use std::cmp::Ordering;

/// What a call is an example of.
#[derive(Clone, Copy, PartialEq, Eq, PartialOrd, Ord)]
pub enum Sort {
    /// A multipartner round that alters a slave's file.
    Stores,
    /// An address frame whose check is that of its four bytes alone, and which is therefore not read.
    UnfoldedNotRead,
    /// The same in a round.
    UnfoldedAddress,
    /// Data of a write with such a check.
    UnfoldedData,
    /// A read in which several answer, and slot 5 tells that each folds the firework into its own check.
    ChecksDiffer,
    /// A trace that was run and has a frame of the kind: so this count of its report rises.
    TraceWithMsa,
    TraceWithMsd,
    TraceWithMultipartner,
    TraceWithRefused,
    /// One that was run and alters a slave's file.
    TraceAltersSlaves,
    /// One that was run and has an empty frame.
    TraceWithEmptyFrame,
    /// One that was run and is as long as a trace may be.
    TraceOfMostBytes,
    /// A trace refused by 19 that is shorter than a header.
    TraceWithoutHeader,
    /// One that is not as long as its header says.
    TraceOfOtherLength,
    /// One of the stated length in which an offset is not where the frame before it ends.
    TraceWithWrongOffset,
    /// One of the stated length whose frames are in their order and do not end with the data.
    TraceNotFilled,
    /// One in which nothing is wrong but that it is too long.
    TraceTooLong,
    /// An owner file that was written and in which a row does not fill its last record.
    OwnerPadded,
    /// One in which a round's last sender is in slot 63.
    OwnerOfMostSlots,
    /// One in which a slave named 0x00 sends.
    OwnerNamedZero,
    /// One in which a slave named 0x00 sends in the last slot of a row.
    OwnerZeroLast,
    /// One in which nobody sends in a round, and someone in another.
    OwnerWithoutSenders,
    /// One in which nobody sends in a slot before the last.
    OwnerWithGap,
    /// One in which every round has a row of several records.
    OwnerOfLongRows,
    /// One written into a buffer of exactly its bytes.
    OwnerFits,
    /// One refused by 21 where one byte more would do.
    OwnerOneShort,
    /// One refused by 20 where the buffer is empty.
    OwnerClashBeforeShort,
    /// One refused by 20 where only slaves of one name send in one slot.
    OwnerClashOfOneName,
    /// One refused by 20 for round 7 alone.
    OwnerClashInLastRound,
    /// One that was written although two slaves would clash if unnamed ones took part.
    OwnerWithUnnamed,
    /// A file loaded in which several slaves are unnamed.
    SeveralUnnamed,
    /// One refused by 22 for slaves named 0x00 alone.
    OnlyZeroTwice,
    /// One refused by 8 in which two logical names are equal as well.
    BothNamesEqual,
    /// A write of record 1 of 0x08 at 0xFF, its last byte another than the name that an addressed slave keeps.
    NamesWrittenUnnamed,
    /// The same at 0x00.
    NamesWrittenAll,
    /// The same at another name.
    NamesWrittenOne,
    /// A write of record 1 of another file that alters its last byte, and the same of the file of this number.
    FourBytesWritten,
    RecordOneWritten(u8),
    /// A write of this record of 0x08, 2 to 4, that alters its last byte.
    ConfigurationWritten(u8),
    /// A round, a step and a trace carried out on a file that loading refuses by 22.
    RoundOnEqualNames,
    StepOnEqualNames,
    TraceOnEqualNames,
    /// A write of record 1 of 0x08 between the steps of a naming run, at another name than 0xFF, that alters a slave,
    /// with a refused call between its two frames.
    NamesWrittenBetweenSteps,
    /// A step handed in at the write of the high half, the low half, or both halves of a comparison, which are those
    /// last written: it makes the next round.
    HighPassedOver,
    LowPassedOver,
    BothPassedOver,
    /// The same at the halves of the value, before a name is given.
    GivenHighPassedOver,
    GivenLowPassedOver,
    GivenBothPassedOver,
    /// A write of the first comparison of a pass, though the stored half is the same.
    FirstHalfWrittenAgain,
    /// A half written though the lower 32 bits of the stored one are the same.
    WideHalfWritten,
    /// A step after which the position stands past a needless write.
    StandsPastWrite,
    /// The comparison with 0 answered, after which it stands past a write of the next.
    ZeroAnsweredPastWrite,
    /// A step that ends the run "all named", both stored halves being others than 0.
    AllNamedWithHalves,
    /// A step refused by the first of these two of the grounds 9, 15, 16 and 17, the second being the next that holds.
    StepGrounds(u8, u8),
    /// One refused by 9 for which all four hold.
    StepOfAllGrounds,
    /// One refused by 1 to 8 for which one of the four holds.
    StepFileFirst,
    /// A step of an ended run, and its number: 0, or 9, 15, 16 or 17.
    EndedStep(u8),
    /// One refused by 1 to 8.
    EndedOnRefusedFile,
    /// A naming run whose steps engine and model made in turn, the words and the file handed over.
    RunInTurn,
    /// A multipartner round in which a multiplexed entry of this operation is in turn and sends or stores. The first
    /// entry that covers the slot is multiplexed, here and in the next six.
    Multiplexed(u8),
    /// One in which a multiplexed entry of this operation is out of turn, and would send or store if it were not.
    PassedOver(u8),
    /// One in which such an entry would do the opposite if operations 8, 9, 12 and 13 went by the epoch modulo 8, or 10, 11,
    /// 14 and 15 by the epoch modulo 4.
    OtherModulo(u8),
    /// One in which such an entry is in turn and can do nothing, so that it hides a later one.
    MultiplexedHides,
    /// One in which such an entry is out of turn and a plain entry acts.
    PassedToPlain,
    /// One in which such an entry is out of turn and another multiplexed one acts.
    PassedToMultiplexed,
    /// One in which all entries that cover a slot are out of turn.
    NobodyInTurn,
    /// One in which a multiplexed entry acts and the epoch went from 255 to 0.
    MultiplexedAfter255,
    /// A round between the steps of a naming run in which a multiplexed entry acts.
    MultiplexedBetweenSteps,
    /// An owner file refused by 23 where two slaves send in one slot.
    OwnerMultiplexedAndClash,
    /// One refused by 23 where the buffer is empty.
    OwnerMultiplexedBeforeShort,
    /// One refused by 23 for round 7 alone.
    OwnerMultiplexedInLastRound,
    /// One that was written, with a multiplexed send after an end, in file 1 or 5, or of an unnamed slave.
    OwnerMultiplexedAfterEnd,
    OwnerMultiplexedInOtherFile,
    OwnerMultiplexedUnnamed,
    /// One that was written, a multiplexed receive covering a slot in which the slave sends.
    OwnerPassesReceive,
    /// A round planned in which such a receive, in turn, keeps the slave from sending, and one in which it does not.
    PlannedAndHidden,
    PlannedAndNotHidden,
    /// A round planned in which a slave sends a byte of the list that it runs.
    PlannedFromOwnList,
    /// A trace between the steps of a naming run that was run and has a round and a refused frame in it.
    TraceBetweenSteps,
    /// A filling refused by 24 where one byte more would do.
    FilledOneShort,
    /// A question answered by the first of several holders, which is not the first slave.
    HolderOfSeveral,
    /// One for 0xFF and one for 0x00 that finds a slave.
    HolderUnnamed,
    HolderNamedZero,
    /// One that finds nobody, though the name stands in the slice behind the count.
    HolderBehindCount,
    /// A round or step refused by 24 for a summary that lacks the last name, or has one more.
    SummaryOneShort,
    SummaryOneLong,
    /// One whose names are right, the slice ending before the last.
    SummaryWithoutRoom,
    /// One in which the first name alone is wrong, or the last alone.
    SummaryFirstWrong,
    SummaryLastWrong,
    /// One whose names are right and whose count is right in its lower 32 bits alone, or is 2^64 - 1.
    SummaryCountWide,
    SummaryCountMost,
    /// One whose buffer is too short as well.
    SummaryBeforeBuffer,
    /// A step of an ended run refused by 24.
    SummaryOfEndedRun,
    /// A round or step refused by 1 to 8, the count being above the slice's length.
    SummaryAfterFile,
    /// A round that renames a slave, and so the summary; a step; and either with room left behind the names.
    RoundRenames,
    StepRenames,
    RenamesWithRoomLeft,
    /// A data frame after which slaves sleep, the sleep having been addressed to 0xFF, to 0x00, or to another name.
    SleepOfUnnamed,
    SleepOfOthers,
    SleepOfOne,
    /// One in which an addressed slave has no record 4 and another falls asleep.
    SleepWithoutRecord,
    /// One in which a slave that slept wakes and another that is addressed falls asleep.
    SleepAndWake,
    /// A data frame with nothing pending, another data frame, and a multipartner round, after which a slave that slept is
    /// awake.
    WokenByNothing,
    WokenByData,
    WokenByMultipartner,
    /// An address frame and a refused frame on a file with a sleeper.
    SleptThroughAddress,
    SleptThroughRefusal,
    /// A round that would have come to something else if a sleeper had been awake: a read, a write, a comparison, a
    /// baptism, and a multipartner round that would have had another answer or stored something else.
    ReadAsleep,
    WriteAsleep,
    ComparisonAsleep,
    BaptismAsleep,
    SendAsleep,
    ReceiveAsleep,
    /// The extra read of a naming run: from a position in mid-pass, of another index than 0, at a needless write, and one
    /// that only a sleeper would have answered.
    ExtraReadInPass,
    ExtraReadOfLaterName,
    ExtraReadAtNeedlessWrite,
    ExtraReadAsleep,
    /// A step with a round counted whose poll only a sleeper would have answered.
    PollAsleep,
    /// A trace that wakes a slave, one that puts one to sleep, and one without MSD and multipartner frame on a file with a
    /// sleeper.
    TraceWakes,
    TracePutsToSleep,
    TraceLeavesAsleep,
    /// An owner file written in which a sleeper has a slot, and a round in which it does not send there.
    OwnerOfSleepers,
    PlannedAndAsleep,
    /// A file refused by 6 for a sleep byte alone.
    SleepByteAbove,
    /// A naming run that named a slave, begun on a file with an unnamed sleeper.
    RunOverSleepers,
    /// A naming run of which all steps and rounds but a few were given the summary.
    RunKept,
    /// A naming run over more slaves than edition 1 holds.
    RunOverMoreSlaves,
    /// Two lists, the unnamed slaves that the run over the first, or the second, finds being less, equal or greater in number
    /// than its free names.
    UnnamedBesideFirst(Ordering),
    UnnamedBesideSecond(Ordering),
    /// Two lists of which the first, or the second, has a name that is held at the start; of which the first has no other.
    FirstListHeld,
    SecondListHeld,
    FirstListTaken,
    /// Two lists of which only the first, only the second, or both are empty; the others have names in both.
    FirstListEmpty,
    SecondListEmpty,
    BothListsEmpty,
    /// The first run ended "names used up"; it ended "all named", and the second list has a free name, or none.
    FirstListUsedUp,
    SecondAsksInVain,
    SecondTakenAfterAll,
    /// Each of two runs named a slave; the second list before the first would leave other names.
    BothListsName,
    OrderOfListsTells,
    /// The file is of edition 1, or of edition 2; an unnamed slave sleeps at the start; the second run was given a summary.
    TwoListsInEdition1,
    TwoListsInEdition2,
    TwoListsOverSleepers,
    SecondListKept,
    /// A name of the first list in the second, by which the start over both is refused.
    CommonName,
    /// A conversion refused by 25 for its slaves alone, for its length alone, and for a length that is a record too much.
    NarrowedManySlaves,
    NarrowedLong,
    NarrowedRecordTooLong,
    /// One refused by 25 where the buffer is empty, and one of a file that is turned away likewise.
    LimitsBeforeBuffer,
    FileBeforeConversion,
    /// One refused by 26 where one byte more would do.
    ConvertedOneShort,
    /// One into the edition that the file has.
    Copied,
    /// One into the other edition: into a buffer of exactly its bytes, to 32,768 bytes, of 32 slaves to edition 1, with
    /// pending bytes that are free and not zero, and with sleepers.
    ConvertedFits,
    NarrowedToMostBytes,
    NarrowedMostSlaves,
    ConvertedFreeBytes,
    ConvertedSleepers,
    /// One after which the way back restored the file.
    ThereAndBack,
    /// A call carried out alike on a file and its converted form.
    CarriedOutOnBothForms,
    /// A call other than a conversion carried out on a file of edition 2; of more slaves or bytes than edition 1 has; of
    /// the most.
    InEdition2,
    OnMoreSlaves,
    OnMostSlaves,
    OnLongerFile,
    OnLongestFile,
    /// A post refused by 27 for its screen alone, and one for the screen last served alone.
    PostOfNoScreen,
    PostAfterNoScreen,
    /// One refused by 27 where the screen waits, and where its read is a bad one; by 28 where it is; by 18 where 14 holds.
    ScreenBeforeWaiting,
    ScreenBeforeRead,
    WaitingBeforeRead,
    PostFileBeforeName,
    /// One carried out of screen 7, of file 63, and at 0xFF.
    PostOfLastScreen,
    PostOfLastFile,
    PostAtUnnamed,
    /// A turn that serves the screen last served, one before it, screen 0 after 7, and screen 7.
    ServedAgain,
    ServedPastTheEnd,
    ServedFirstAfterLast,
    ServedLastScreen,
    /// One with all eight waiting, and one by a waiting byte above 1.
    ServedOfAll,
    ServedByOtherByte,
    /// One of a read that had to wait for eight turns.
    ServedAtEighthTurn,
    /// One with a bad read waiting that is not due.
    BadReadNotDue,
    /// One that was made as two rounds as well.
    TurnAsRounds,
    /// One at 0xFF with an unnamed slave, one that several answer, and one at a name that nobody holds.
    TurnAtUnnamed,
    TurnOfSeveral,
    TurnAtNobody,
    /// One of which the epoch of the data frame or of the address frame is 0.
    TurnAtEpoch254,
    TurnAtEpoch255,
    /// One with the operation of another master pending.
    TurnOverWrite,
    TurnOverExecute,
    /// One that wakes, and one that a sleeper would have answered.
    TurnWakes,
    TurnAsleep,
    TurnInEdition2,
    /// A turn refused by 27 with none waiting, with a bad read waiting, and on a file that is turned away.
    IdleAfterNoScreen,
    LastBeforeRead,
    LastBeforeFile,
    /// One refused for its read: by 18 where 14 holds, on a file that is turned away, and with a short buffer.
    DueFileBeforeName,
    ReadBeforeFile,
    ReadBeforeBuffer,
    /// One refused by 1 to 8 with a short buffer, with none waiting, and with a read that waits on.
    FileBeforeAnswer,
    IdleOnRefusedFile,
    FileKeepsRead,
    /// One refused by 9 with none waiting, and with a read that waits on where one byte more would do.
    IdleInShortBuffer,
    BufferKeepsRead,
    /// A turn that serves a screen between two naming steps.
    TurnBetweenSteps,
    /// A join of files of these editions.
    JoinedEditions(u8, u8),
    /// One of which the first alone, or the second alone, has no slaves.
    JoinedToNobody,
    JoinedWithNobody,
    /// One to as many slaves, or bytes, as this edition has at most.
    JoinedMostSlaves(u8),
    JoinedMostBytes(u8),
    /// One into a buffer of exactly its bytes.
    JoinedFits,
    /// One to edition 1 that is possible only since the entries of the second are shorter there.
    JoinedNarrowed,
    /// One that turns a slave of a name that the first holds, at 0x00, held by sleepers alone, and several of one name.
    TurnedByName,
    TurnedByZero,
    TurnedBySleeper,
    SeveralTurned,
    /// One with a slave at 0x00 in the second alone, and with unnamed ones in both files.
    ZeroKept,
    UnnamedInBoth,
    /// One with two slaves of one name that stay, in the first or in the second.
    EqualKeptInFirst,
    EqualKeptInSecond,
    /// One of a file with a sleeper, first or second; with an operation pending; with free pending bytes; with an epoch.
    JoinWakesFirst,
    JoinWakesSecond,
    JoinDropsPending,
    JoinDropsSecondPending,
    JoinDropsFreeBytes,
    JoinDropsEpoch,
    /// One that was made in the other edition too, one of two files that load, and one after which a turned slave was named.
    JoinedInOtherEdition,
    JoinedLoads,
    TurnedAndNamed,
    /// A join refused by 29 for the last slaves alone, and of a file with itself; where 30 holds for slaves, length or buffer.
    SharedByTheLast,
    JoinedWithItself,
    SharedBeforeSlaves,
    SharedBeforeLength,
    SharedBeforeBuffer,
    /// One refused by 30 for one slave or one record beyond this edition, the buffer being long enough; for a byte of buffer.
    JoinedSlaveTooMany(u8),
    JoinedRecordTooLong(u8),
    JoinedOneShort,
    /// One of two files that are turned away by different numbers; one of which the first or the second is, with no buffer.
    FirstBeforeSecond,
    FirstBeforeJoin,
    SecondBeforeJoin,
    /// A firework's pattern with so many of its bits flipped.
    Flipped(u8),
    /// One of them with four flipped, which is read as a firework.
    FlippedToFirework,
    /// A pattern with the byte of a firework and an even count of ones.
    FireworkByteAsData,
    /// 511, 512 and 65,535.
    LastPattern,
    FirstAbove,
    GreatestPattern,
    /// A pattern above 511 whose lower nine bits are a firework's.
    FireworkAbove,
    /// A file that is read of the last of several slaves, the first and the last of a slave's files, one of a slave that is
    /// unnamed, and of one that sleeps.
    ReadOfLastSlave,
    ReadFirstFile,
    ReadLastFile,
    ReadOfUnnamed,
    ReadOfSleeper,
    /// One that just fits into the buffer, one that is a byte longer, and one that leaves a byte.
    ReadJustFits,
    ReadOneShort,
    ReadOneMore,
    /// One asked of the place behind the last slave, of the greatest place, and of one whose lower 32 bits are a slave's.
    ReadBehindLast,
    ReadAtGreatestPlace,
    ReadAtWidePlace,
    /// One that the slave has not, of a number above 63, and of one that another slave has.
    ReadAboveLastNumber,
    ReadOfAnother,
}

/// A sort, one in how many calls has to be of it, and what is printed of it.
pub type Reached = (Sort, usize, &'static str);

impl Sort {
    /// Each sort with one in how many of the rounds asked for has to be of it.
    pub const REACHED: [Reached; 5] = [
        (Sort::Stores, 80, "multipartner rounds that stored"),
        (Sort::UnfoldedNotRead, 2_000, "address frames not read, the firework missing in their check"),
        (Sort::UnfoldedAddress, 80, "address frames refused, the firework missing in their check"),
        (Sort::UnfoldedData, 160, "data frames refused, the firework missing in their check"),
        (Sort::ChecksDiffer, 4_000, "reads in which slot 5 tells that each sender folds the firework in"),
    ];

    /// Sorts of calls about logical names likewise, with one in how many of the rounds asked for.
    pub const REACHED_ABOUT_NAMES: [Reached; 13] = [
        (Sort::SeveralUnnamed, 20, "files loaded, with several slaves unnamed"),
        (Sort::OnlyZeroTwice, 100, "files not loaded, only the name 0x00 occurring twice"),
        (Sort::BothNamesEqual, 2_000, "files not loaded, physical and logical names occurring twice"),
        (Sort::NamesWrittenUnnamed, 800, "writes of record 1 of 0x08 at 0xFF that would rename"),
        (Sort::NamesWrittenAll, 800, "writes of record 1 of 0x08 at 0x00 that would rename"),
        (Sort::NamesWrittenOne, 400, "writes of record 1 of 0x08 at another name that would rename"),
        (Sort::FourBytesWritten, 100, "writes of record 1 of another file that alter its last byte"),
        (Sort::ConfigurationWritten(2), 2_000, "writes of record 2 of 0x08 that alter its last byte"),
        (Sort::ConfigurationWritten(3), 2_000, "writes of record 3 of 0x08 that alter its last byte"),
        (Sort::ConfigurationWritten(4), 2_000, "writes of record 4 of 0x08 that alter its last byte"),
        (Sort::RoundOnEqualNames, 10, "rounds on a file with equal logical names"),
        (Sort::StepOnEqualNames, 40, "steps on a file with equal logical names"),
        (Sort::TraceOnEqualNames, 80, "traces on a file with equal logical names"),
    ];

    /// Sorts of multipartner rounds with multiplexed entries, with one in how many of the rounds asked for.
    pub const REACHED_BY_TURNS: [Reached; 29] = [
        (Sort::Multiplexed(8), 2_000, "rounds in which operation 8 acts"),
        (Sort::Multiplexed(9), 2_000, "rounds in which operation 9 acts"),
        (Sort::Multiplexed(10), 4_000, "rounds in which operation 10 acts"),
        (Sort::Multiplexed(11), 4_000, "rounds in which operation 11 acts"),
        (Sort::Multiplexed(12), 2_000, "rounds in which operation 12 acts"),
        (Sort::Multiplexed(13), 2_000, "rounds in which operation 13 acts"),
        (Sort::Multiplexed(14), 4_000, "rounds in which operation 14 acts"),
        (Sort::Multiplexed(15), 4_000, "rounds in which operation 15 acts"),
        (Sort::PassedOver(8), 2_000, "rounds in which operation 8 is passed over"),
        (Sort::PassedOver(9), 2_000, "rounds in which operation 9 is passed over"),
        (Sort::PassedOver(10), 2_000, "rounds in which operation 10 is passed over"),
        (Sort::PassedOver(11), 2_000, "rounds in which operation 11 is passed over"),
        (Sort::PassedOver(12), 2_000, "rounds in which operation 12 is passed over"),
        (Sort::PassedOver(13), 2_000, "rounds in which operation 13 is passed over"),
        (Sort::PassedOver(14), 2_000, "rounds in which operation 14 is passed over"),
        (Sort::PassedOver(15), 2_000, "rounds in which operation 15 is passed over"),
        (Sort::OtherModulo(8), 4_000, "rounds in which operation 8 acts, and would not modulo 8"),
        (Sort::OtherModulo(9), 4_000, "rounds in which operation 9 acts, and would not modulo 8"),
        (Sort::OtherModulo(10), 4_000, "rounds in which operation 10 is passed over, and would act modulo 4"),
        (Sort::OtherModulo(11), 4_000, "rounds in which operation 11 is passed over, and would act modulo 4"),
        (Sort::OtherModulo(12), 4_000, "rounds in which operation 12 acts, and would not modulo 8"),
        (Sort::OtherModulo(13), 4_000, "rounds in which operation 13 acts, and would not modulo 8"),
        (Sort::OtherModulo(14), 4_000, "rounds in which operation 14 is passed over, and would act modulo 4"),
        (Sort::OtherModulo(15), 4_000, "rounds in which operation 15 is passed over, and would act modulo 4"),
        (Sort::MultiplexedHides, 400, "rounds in which an entry in turn that can do nothing hides another"),
        (Sort::PassedToPlain, 200, "rounds in which a plain entry acts after one out of turn"),
        (Sort::PassedToMultiplexed, 200, "rounds in which a multiplexed entry acts after one out of turn"),
        (Sort::NobodyInTurn, 100, "rounds in which all entries for a slot are out of turn"),
        (Sort::MultiplexedAfter255, 8_000, "rounds in which a multiplexed entry acts after epoch 255"),
    ];

    /// Sorts of naming steps, with one in how many of those asked for; those of naming runs count too.
    pub const REACHED_BY_STEPS: [Reached; 25] = [
        (Sort::HighPassedOver, 400, "steps that pass over a comparison's high half"),
        (Sort::LowPassedOver, 200, "steps that pass over a comparison's low half"),
        (Sort::BothPassedOver, 400, "steps that pass over both halves of a comparison"),
        (Sort::GivenHighPassedOver, 4_000, "steps that pass over the value's high half"),
        (Sort::GivenLowPassedOver, 4_000, "steps that pass over the value's low half"),
        (Sort::GivenBothPassedOver, 4_000, "steps that pass over both halves of the value"),
        (Sort::FirstHalfWrittenAgain, 600, "steps that write a half of the first comparison again"),
        (Sort::WideHalfWritten, 200, "steps that write a half since the stored one is wider"),
        (Sort::StandsPastWrite, 4, "steps after which the run stands past a needless write"),
        (
            Sort::ZeroAnsweredPastWrite,
            4_000,
            "comparisons with 0 after which the run stands past a needless write",
        ),
        (Sort::AllNamedWithHalves, 4_000, "steps that end a run \"all named\", with halves other than 0"),
        (Sort::StepGrounds(9, 15), 400, "steps refused by 9 for which 15 holds too"),
        (Sort::StepGrounds(9, 16), 400, "steps refused by 9 for which 16 holds too, and not 15"),
        (Sort::StepGrounds(9, 17), 40, "steps refused by 9 for which 17 holds too, and not 15 and 16"),
        (Sort::StepGrounds(15, 16), 400, "steps refused by 15 for which 16 holds too"),
        (Sort::StepGrounds(15, 17), 400, "steps refused by 15 for which 17 holds too, and not 16"),
        (Sort::StepGrounds(16, 17), 400, "steps refused by 16 for which 17 holds too"),
        (Sort::StepOfAllGrounds, 4_000, "steps refused by 9 for which 15, 16 and 17 hold too"),
        (Sort::StepFileFirst, 40, "steps refused by 1 to 8 for which 9, 15, 16 or 17 holds too"),
        (Sort::EndedStep(0), 40, "steps of an ended run"),
        (Sort::EndedStep(9), 40, "steps of an ended run refused by 9"),
        (Sort::EndedStep(15), 400, "steps of an ended run refused by 15"),
        (Sort::EndedStep(16), 400, "steps of an ended run refused by 16"),
        (Sort::EndedStep(17), 400, "steps of an ended run refused by 17"),
        (Sort::EndedOnRefusedFile, 100, "steps of an ended run refused by 1 to 8"),
    ];

    /// Sorts of traces likewise, with one in how many of the traces asked for; those of naming runs do not count.
    pub const REACHED_BY_TRACES: [Reached; 12] = [
        (Sort::TraceWithMsa, 6, "traces run, with an MSA"),
        (Sort::TraceWithMsd, 6, "traces run, with an MSD"),
        (Sort::TraceWithMultipartner, 8, "traces run, with a multipartner frame"),
        (Sort::TraceWithRefused, 5, "traces run, with a refused frame"),
        (Sort::TraceAltersSlaves, 20, "traces run that altered slaves"),
        (Sort::TraceWithEmptyFrame, 20, "traces run, with an empty frame"),
        (Sort::TraceOfMostBytes, 1_000, "traces run, of the most bytes"),
        (Sort::TraceWithoutHeader, 200, "traces refused, shorter than a header"),
        (Sort::TraceOfOtherLength, 20, "traces refused, not as long as the header says"),
        (Sort::TraceWithWrongOffset, 30, "traces refused, an offset wrong"),
        (Sort::TraceNotFilled, 50, "traces refused, their frames not ending with the data"),
        (Sort::TraceTooLong, 1_000, "traces refused, nothing wrong but too long"),
    ];

    /// Sorts of owner files, with one in how many of those asked for.
    pub const REACHED_BY_OWNERS: [Reached; 23] = [
        (Sort::OwnerPadded, 10, "owner files written, a row padded"),
        (Sort::OwnerOfMostSlots, 20, "owner files written, with a row of 64 slots"),
        (Sort::OwnerNamedZero, 20, "owner files written, with a sender named 0x00"),
        (Sort::OwnerZeroLast, 40, "owner files written, with a sender named 0x00 in a row's last slot"),
        (Sort::OwnerWithoutSenders, 20, "owner files written, with a round without senders and one with some"),
        (Sort::OwnerWithGap, 20, "owner files written, with a slot before a row's last that nobody sends in"),
        (Sort::OwnerOfLongRows, 50, "owner files written, every row of several records"),
        (Sort::OwnerFits, 20, "owner files written, the buffer just long enough"),
        (Sort::OwnerOneShort, 40, "owner files refused, the buffer one byte too short"),
        (Sort::OwnerClashBeforeShort, 300, "owner files refused, two senders in a slot and no buffer"),
        (Sort::OwnerClashOfOneName, 400, "owner files refused, only slaves of one name sending in one slot"),
        (Sort::OwnerClashInLastRound, 300, "owner files refused, two senders in round 7 alone"),
        (Sort::OwnerWithUnnamed, 150, "owner files written, in which unnamed slaves would clash"),
        (Sort::OwnerMultiplexedAndClash, 200, "owner files refused by 23, two senders in a slot"),
        (Sort::OwnerMultiplexedBeforeShort, 200, "owner files refused by 23, no buffer"),
        (Sort::OwnerMultiplexedInLastRound, 400, "owner files refused by 23 for round 7 alone"),
        (Sort::OwnerMultiplexedAfterEnd, 200, "owner files written, with a multiplexed send after an end"),
        (Sort::OwnerMultiplexedInOtherFile, 400, "owner files written, with a multiplexed send in file 1 or 5"),
        (
            Sort::OwnerMultiplexedUnnamed,
            200,
            "owner files written, with a multiplexed send of an unnamed slave",
        ),
        (Sort::OwnerPassesReceive, 100, "owner files written, a multiplexed receive in a sender's slot"),
        (Sort::PlannedAndHidden, 200, "rounds as planned, a sender hidden by its multiplexed receive"),
        (Sort::PlannedAndNotHidden, 200, "rounds as planned, a sender not hidden by its multiplexed receive"),
        (Sort::PlannedFromOwnList, 400, "rounds as planned, a byte of the list that is run sent"),
    ];

    /// Sorts of calls with a summary, with one in how many of the rounds asked for that are given one.
    pub const REACHED_BY_SUMMARIES: [Reached; 18] = [
        (Sort::FilledOneShort, 80, "fillings refused where one byte more would do"),
        (Sort::HolderOfSeveral, 80, "questions answered by the first of several holders"),
        (Sort::HolderUnnamed, 80, "questions for 0xFF that find a slave"),
        (Sort::HolderNamedZero, 80, "questions for 0x00 that find a slave"),
        (Sort::HolderBehindCount, 100, "questions that find nobody, the name standing behind the count"),
        (Sort::SummaryOneShort, 80, "summaries refused, a name too few"),
        (Sort::SummaryOneLong, 200, "summaries refused, a name too many"),
        (Sort::SummaryWithoutRoom, 200, "summaries refused, the last name without room"),
        (Sort::SummaryFirstWrong, 200, "summaries refused, the first name wrong"),
        (Sort::SummaryLastWrong, 200, "summaries refused, the last name wrong"),
        (Sort::SummaryCountWide, 400, "summaries refused, the count right in its lower 32 bits alone"),
        (Sort::SummaryCountMost, 400, "summaries refused, the count 2^64 - 1"),
        (Sort::SummaryBeforeBuffer, 80, "summaries refused before a short buffer"),
        (Sort::SummaryOfEndedRun, 400, "summaries refused at a step of an ended run"),
        (Sort::SummaryAfterFile, 800, "files refused before a summary"),
        (Sort::RoundRenames, 200, "rounds that rename, given a summary"),
        (Sort::StepRenames, 1_000, "steps that rename, given a summary"),
        (Sort::RenamesWithRoomLeft, 200, "rounds and steps that rename, with room left in the summary"),
    ];

    /// Sorts of calls on clusters with sleepers, with one in how many of the rounds asked for; naming runs count too.
    pub const REACHED_BY_SLEEPERS: [Reached; 27] = [
        (Sort::SleepOfUnnamed, 800, "data frames that put unnamed slaves to sleep"),
        (Sort::SleepOfOthers, 2_000, "data frames that put all others to sleep"),
        (Sort::SleepOfOne, 800, "data frames that put slaves of a name to sleep"),
        (Sort::SleepWithoutRecord, 800, "sleeps in which an addressed slave has no record 4"),
        (Sort::SleepAndWake, 800, "sleeps in which a slave wakes and another falls asleep"),
        (Sort::WokenByNothing, 800, "data frames with nothing pending that wake"),
        (Sort::WokenByData, 200, "other data frames that wake"),
        (Sort::WokenByMultipartner, 200, "multipartner rounds that wake"),
        (Sort::SleptThroughAddress, 200, "address frames that leave sleepers"),
        (Sort::SleptThroughRefusal, 200, "refused frames that leave sleepers"),
        (Sort::ReadAsleep, 800, "reads that a sleeper would have answered"),
        (Sort::WriteAsleep, 800, "writes that a sleeper would have taken"),
        (Sort::ComparisonAsleep, 800, "comparisons that a sleeper would have answered"),
        (Sort::BaptismAsleep, 800, "baptisms that would have renamed a sleeper"),
        (Sort::SendAsleep, 800, "multipartner rounds that a sleeper would have answered otherwise"),
        (Sort::ReceiveAsleep, 2_000, "multipartner rounds in which a sleeper would have stored"),
        (Sort::ExtraReadInPass, 800, "extra reads in mid-pass"),
        (Sort::ExtraReadOfLaterName, 800, "extra reads at a later index"),
        (Sort::ExtraReadAtNeedlessWrite, 2_000, "extra reads at a needless write"),
        (Sort::ExtraReadAsleep, 10_000, "extra reads that a sleeper would have answered"),
        (Sort::PollAsleep, 8_000, "polls that a sleeper would have answered"),
        (Sort::TraceWakes, 800, "traces that wake"),
        (Sort::TracePutsToSleep, 2_000, "traces that put to sleep"),
        (Sort::TraceLeavesAsleep, 2_000, "traces that leave sleepers"),
        (Sort::OwnerOfSleepers, 400, "owner files with a sleeper's slot"),
        (Sort::PlannedAndAsleep, 800, "rounds as planned, a sleeper silent in its slot"),
        (Sort::SleepByteAbove, 800, "files refused for a sleep byte above 1"),
    ];

    /// Sorts of conversions, and of calls on files of edition 2, with one in how many of the conversions asked for.
    pub const REACHED_BY_CONVERSIONS: [Reached; 19] = [
        (Sort::NarrowedManySlaves, 40, "conversions refused by 25 for more than 32 slaves alone"),
        (Sort::NarrowedLong, 80, "conversions refused by 25 for the length alone"),
        (Sort::NarrowedRecordTooLong, 200, "conversions refused by 25 for four bytes too many"),
        (Sort::LimitsBeforeBuffer, 200, "conversions refused by 25, no buffer"),
        (Sort::FileBeforeConversion, 100, "conversions of files turned away, no buffer"),
        (Sort::ConvertedOneShort, 20, "conversions refused by 26 where one byte more would do"),
        (Sort::Copied, 10, "conversions into the edition that the file has"),
        (Sort::ConvertedFits, 20, "files converted, the buffer just long enough"),
        (Sort::NarrowedToMostBytes, 200, "files narrowed to 32,768 bytes"),
        (Sort::NarrowedMostSlaves, 100, "files of 32 slaves narrowed"),
        (Sort::ConvertedFreeBytes, 20, "files converted, with free pending bytes other than 0"),
        (Sort::ConvertedSleepers, 40, "files converted, with sleepers"),
        (Sort::ThereAndBack, 10, "files converted there and back"),
        (Sort::CarriedOutOnBothForms, 10, "calls carried out alike on a file and its converted form"),
        (Sort::InEdition2, 1, "other calls carried out on a file of edition 2"),
        (Sort::OnMoreSlaves, 4, "other calls carried out on more than 32 slaves"),
        (Sort::OnMostSlaves, 20, "other calls carried out on 64 slaves"),
        (Sort::OnLongerFile, 40, "other calls carried out on more than 32,768 bytes"),
        (Sort::OnLongestFile, 200, "other calls carried out on 65,536 bytes"),
    ];

    /// Sorts of posts and turns of screens, with one in how many of those asked for.
    pub const REACHED_BY_SCREENS: [Reached; 39] = [
        (Sort::PostOfNoScreen, 100, "posts refused by 27 for their screen alone"),
        (Sort::PostAfterNoScreen, 100, "posts refused by 27 for the screen last served alone"),
        (Sort::ScreenBeforeWaiting, 400, "posts refused by 27, the screen waiting"),
        (Sort::ScreenBeforeRead, 400, "posts refused by 27, the read a bad one"),
        (Sort::WaitingBeforeRead, 400, "posts refused by 28, the read a bad one"),
        (Sort::PostFileBeforeName, 400, "posts refused by 18 for which 14 holds too"),
        (Sort::PostOfLastScreen, 100, "posts of screen 7"),
        (Sort::PostOfLastFile, 400, "posts of file 63"),
        (Sort::PostAtUnnamed, 40, "posts at 0xFF"),
        (Sort::ServedAgain, 100, "turns that serve the screen last served"),
        (Sort::ServedPastTheEnd, 40, "turns that serve a screen before the one last served"),
        (Sort::ServedFirstAfterLast, 100, "turns that serve screen 0 after 7"),
        (Sort::ServedLastScreen, 100, "turns that serve screen 7"),
        (Sort::ServedOfAll, 200, "turns with all eight waiting"),
        (Sort::ServedByOtherByte, 200, "turns by a waiting byte above 1"),
        (Sort::ServedAtEighthTurn, 2_000, "turns that serve a read at its eighth turn"),
        (Sort::BadReadNotDue, 100, "turns with a bad read waiting that is not due"),
        (Sort::TurnAsRounds, 20, "turns made as two rounds as well"),
        (Sort::TurnAtUnnamed, 20, "turns at 0xFF, with unnamed slaves"),
        (Sort::TurnOfSeveral, 100, "turns that several slaves answer"),
        (Sort::TurnAtNobody, 40, "turns at a name that nobody holds"),
        (Sort::TurnAtEpoch254, 400, "turns after epoch 254"),
        (Sort::TurnAtEpoch255, 400, "turns after epoch 255"),
        (Sort::TurnOverWrite, 400, "turns with another master's write pending"),
        (Sort::TurnOverExecute, 400, "turns with another master's execute pending"),
        (Sort::TurnWakes, 400, "turns that wake"),
        (Sort::TurnAsleep, 8_000, "turns that a sleeper would have answered"),
        (Sort::TurnInEdition2, 20, "turns on a file of edition 2"),
        (Sort::IdleAfterNoScreen, 400, "turns refused by 27, none waiting"),
        (Sort::LastBeforeRead, 400, "turns refused by 27, a bad read waiting"),
        (Sort::LastBeforeFile, 1_000, "turns refused by 27 on a file that is turned away"),
        (Sort::DueFileBeforeName, 800, "turns refused by 18 for which 14 holds too"),
        (Sort::ReadBeforeFile, 4_000, "turns refused for their read on a file that is turned away"),
        (Sort::ReadBeforeBuffer, 800, "turns refused for their read, the buffer short"),
        (Sort::FileBeforeAnswer, 400, "turns refused by 1 to 8, the buffer short"),
        (Sort::IdleOnRefusedFile, 2_000, "turns refused by 1 to 8, none waiting"),
        (Sort::FileKeepsRead, 80, "turns refused by 1 to 8, the read waiting on"),
        (Sort::IdleInShortBuffer, 400, "turns refused by 9, none waiting"),
        (Sort::BufferKeepsRead, 40, "turns refused by 9 for a byte, the read waiting on"),
    ];

    /// Sorts of joins, with one in how many of those asked for.
    pub const REACHED_BY_JOINS: [Reached; 41] = [
        (Sort::JoinedEditions(1, 1), 20, "joins of edition 1 and 1"),
        (Sort::JoinedEditions(1, 2), 20, "joins of edition 1 and 2"),
        (Sort::JoinedEditions(2, 1), 20, "joins of edition 2 and 1"),
        (Sort::JoinedEditions(2, 2), 20, "joins of edition 2 and 2"),
        (Sort::JoinedToNobody, 100, "joins of a first file without slaves"),
        (Sort::JoinedWithNobody, 100, "joins of a second file without slaves"),
        (Sort::JoinedMostSlaves(1), 100, "joins to 32 slaves in edition 1"),
        (Sort::JoinedMostSlaves(2), 100, "joins to 64 slaves in edition 2"),
        (Sort::JoinedMostBytes(1), 400, "joins to 32,768 bytes in edition 1"),
        (Sort::JoinedMostBytes(2), 400, "joins to 65,536 bytes in edition 2"),
        (Sort::JoinedFits, 20, "joins, the buffer just long enough"),
        (Sort::JoinedNarrowed, 800, "joins to edition 1 that the wider entries of the second would exceed"),
        (Sort::TurnedByName, 40, "joins that turn a slave of a name that the first holds"),
        (Sort::TurnedByZero, 40, "joins that turn a slave at 0x00"),
        (Sort::TurnedBySleeper, 200, "joins that turn a slave whose name only sleepers hold"),
        (Sort::SeveralTurned, 100, "joins that turn several slaves of one name"),
        (Sort::ZeroKept, 40, "joins that leave a slave of the second at 0x00"),
        (Sort::UnnamedInBoth, 10, "joins with unnamed slaves in both files"),
        (Sort::EqualKeptInFirst, 40, "joins that leave equal names in the first"),
        (Sort::EqualKeptInSecond, 100, "joins that leave equal names in the second"),
        (Sort::JoinWakesFirst, 40, "joins that wake slaves of the first"),
        (Sort::JoinWakesSecond, 40, "joins that wake slaves of the second"),
        (Sort::JoinDropsPending, 10, "joins with an operation pending in the first"),
        (Sort::JoinDropsSecondPending, 10, "joins with an operation pending in the second"),
        (Sort::JoinDropsFreeBytes, 10, "joins with free pending bytes in the first"),
        (Sort::JoinDropsEpoch, 10, "joins with an epoch in the first"),
        (Sort::JoinedInOtherEdition, 20, "joins made in the other edition too"),
        (Sort::JoinedLoads, 40, "joins of files that load"),
        (Sort::SharedByTheLast, 80, "joins refused by 29 for the last slaves alone"),
        (Sort::JoinedWithItself, 40, "joins of a file with itself refused by 29"),
        (Sort::SharedBeforeSlaves, 100, "joins refused by 29 with too many slaves"),
        (Sort::SharedBeforeLength, 800, "joins refused by 29 with too many bytes"),
        (Sort::SharedBeforeBuffer, 100, "joins refused by 29 with a short buffer"),
        (Sort::JoinedSlaveTooMany(1), 200, "joins refused by 30 for 33 slaves in edition 1"),
        (Sort::JoinedSlaveTooMany(2), 200, "joins refused by 30 for 65 slaves in edition 2"),
        (Sort::JoinedRecordTooLong(1), 800, "joins refused by 30 for 32,772 bytes in edition 1"),
        (Sort::JoinedRecordTooLong(2), 800, "joins refused by 30 for 65,540 bytes in edition 2"),
        (Sort::JoinedOneShort, 20, "joins refused by 30 where one byte of buffer more would do"),
        (Sort::FirstBeforeSecond, 100, "joins of two files that are turned away by different numbers"),
        (Sort::FirstBeforeJoin, 200, "joins of a first file that is turned away, no buffer"),
        (Sort::SecondBeforeJoin, 200, "joins of a second file that is turned away, no buffer"),
    ];

    /// Sorts of line patterns, with one in how many of those asked for.
    pub const REACHED_BY_PATTERNS: [Reached; 11] = [
        (Sort::Flipped(0), 20, "fireworks on the line"),
        (Sort::Flipped(1), 20, "fireworks with one bit flipped"),
        (Sort::Flipped(2), 20, "fireworks with two bits flipped"),
        (Sort::Flipped(3), 20, "fireworks with three bits flipped"),
        (Sort::Flipped(4), 20, "fireworks with four bits flipped"),
        (Sort::FlippedToFirework, 1_000, "fireworks that four flipped bits make another of"),
        (Sort::FireworkByteAsData, 200, "bytes of fireworks with even parity"),
        (Sort::LastPattern, 1_000, "patterns of nine ones"),
        (Sort::FirstAbove, 1_000, "patterns 512"),
        (Sort::GreatestPattern, 1_000, "patterns 65,535"),
        (Sort::FireworkAbove, 20, "patterns above 511 whose nine bits are a firework's"),
    ];

    /// Sorts of slaves' files that are read, with one in how many of those asked for.
    pub const REACHED_BY_CONTENTS: [Reached; 13] = [
        (Sort::ReadOfLastSlave, 20, "files read of the last slave"),
        (Sort::ReadFirstFile, 20, "first files of a slave read"),
        (Sort::ReadLastFile, 20, "last files of a slave read"),
        (Sort::ReadOfUnnamed, 20, "files read of an unnamed slave"),
        (Sort::ReadOfSleeper, 100, "files read of a sleeper"),
        (Sort::ReadJustFits, 20, "files read into as many bytes as they have"),
        (Sort::ReadOneShort, 20, "files read into a byte less"),
        (Sort::ReadOneMore, 60, "files read into a byte more"),
        (Sort::ReadBehindLast, 40, "files asked of the slave behind the last"),
        (Sort::ReadAtGreatestPlace, 100, "files asked of the greatest place"),
        (Sort::ReadAtWidePlace, 100, "files asked of a place whose lower 32 bits are a slave's"),
        (Sort::ReadAboveLastNumber, 100, "files asked by a number above 63"),
        (Sort::ReadOfAnother, 100, "files asked that another slave has"),
    ];

    /// Sorts of calls in naming runs, with one in how many of the runs asked for.
    pub const REACHED_BY_RUNS: [Reached; 9] = [
        (Sort::RunOverMoreSlaves, 10, "naming runs over more than 32 slaves"),
        (Sort::TraceBetweenSteps, 1, "traces run between naming steps, with a round and a refused frame"),
        (
            Sort::NamesWrittenBetweenSteps,
            1,
            "writes of record 1 of 0x08 at a name between naming steps, around a refused call",
        ),
        (Sort::MultiplexedBetweenSteps, 1, "rounds between naming steps in which a multiplexed entry acts"),
        (Sort::TurnBetweenSteps, 1, "turns that serve a screen between naming steps"),
        (Sort::TurnedAndNamed, 8, "naming runs on joined files in which a slave was turned"),
        (Sort::RunInTurn, 4, "naming runs made in turn"),
        (Sort::RunKept, 4, "naming runs given a summary"),
        (Sort::RunOverSleepers, 10, "naming runs begun over unnamed sleepers"),
    ];

    /// Sorts of runs over two lists, with one in how many of the runs asked for.
    pub const REACHED_BY_TWO_LISTS: [Reached; 22] = [
        (Sort::UnnamedBesideFirst(Ordering::Less), 8, "two lists, fewer unnamed than free names of the first"),
        (
            Sort::UnnamedBesideFirst(Ordering::Equal),
            16,
            "two lists, as many unnamed as free names of the first",
        ),
        (
            Sort::UnnamedBesideFirst(Ordering::Greater),
            8,
            "two lists, more unnamed than free names of the first",
        ),
        (
            Sort::UnnamedBesideSecond(Ordering::Less),
            8,
            "two lists, fewer unnamed than free names of the second",
        ),
        (
            Sort::UnnamedBesideSecond(Ordering::Equal),
            8,
            "two lists, as many unnamed as free names of the second",
        ),
        (
            Sort::UnnamedBesideSecond(Ordering::Greater),
            16,
            "two lists, more unnamed than free names of the second",
        ),
        (Sort::FirstListHeld, 8, "two lists, a name of the first held"),
        (Sort::SecondListHeld, 8, "two lists, a name of the second held"),
        (Sort::FirstListTaken, 16, "two lists, every name of the first held"),
        (Sort::FirstListEmpty, 16, "two lists, the first empty"),
        (Sort::SecondListEmpty, 16, "two lists, the second empty"),
        (Sort::BothListsEmpty, 16, "two lists, both empty"),
        (Sort::FirstListUsedUp, 4, "two lists, the first used up"),
        (Sort::SecondAsksInVain, 16, "two lists, all named by the first, the second with a free name"),
        (Sort::SecondTakenAfterAll, 16, "two lists, all named by the first, the second without a free name"),
        (Sort::BothListsName, 8, "two lists, each of which names"),
        (Sort::OrderOfListsTells, 8, "two lists that would leave other names in the other order"),
        (Sort::TwoListsInEdition1, 8, "two lists in edition 1"),
        (Sort::TwoListsInEdition2, 8, "two lists in edition 2"),
        (Sort::TwoListsOverSleepers, 8, "two lists over unnamed sleepers"),
        (Sort::SecondListKept, 8, "two lists, the second run given a summary"),
        (Sort::CommonName, 4, "two lists with a common name, refused as one"),
    ];

    /// What a call is an example of; logical names, naming steps, their grounds, multiplexed entries, traces, owner files,
    /// summaries, sleepers, conversions, screens, joins and line patterns are sorted in `names`, `passes`, `grounds`, `turns`,
    /// `traces`, `owners`, `summaries`, `sleepers`, `conversions`, `screens`, `joins` and `patterns`.
    pub fn of(call: &Call, outcome: &Outcome) -> Option<Sort> {
        match call {
            Call::Read { frame } if outcome.number == 12 && is_unfolded(frame) => Some(Sort::UnfoldedNotRead),
            Call::Round { frame, .. } if outcome.number == 12 && is_unfolded(frame) => {
                Some(if frame[0] == MSA { Sort::UnfoldedAddress } else { Sort::UnfoldedData })
            }
            Call::Round { file, frame, .. } if is_multipartner(frame) => {
                outcome.alters_slaves(file).then_some(Sort::Stores)
            }
            Call::Round { file, frame, .. } if frame == &[MSD] && outcome.mask() == SLOTS_OF_A_READ => {
                check(file).is_ok_and(|cluster| checks_differ(&cluster)).then_some(Sort::ChecksDiffer)
            }
            _ => None,
        }
    }
}

/// Slots 1 to 5.
const SLOTS_OF_A_READ: u64 = 0b11_1110;

/// Whether the and of the checks that slaves send after the pending read is another byte than the firework
/// folded once into the and of their records' exclusive ors.
fn checks_differ(cluster: &Cluster) -> bool {
    let Pending { name, pb2, pb3, .. } = cluster.pending;
    let records = cluster
        .slaves
        .iter()
        .filter(|slave| !slave.asleep && slave.logical_name() == name)
        .filter_map(|slave| slave.record(FileNumber(pb2 / 4), RecordNumber(pb3)));
    let (each, all) = records.fold((0xFF, 0xFF), |(each, all), record| {
        let folded = record.iter().fold(0, |folded, byte| folded ^ byte);
        (each & (MSD ^ folded), all & folded)
    });
    each != MSD ^ all
}
