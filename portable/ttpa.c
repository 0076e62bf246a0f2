/* The TTP/A cluster engine as portable C99, made from the proved program by rust/portable; not written by
 * hand. This is the reading form: the program's temporaries are folded into the statements that use them.
 * Compile it with ttpa.h beside it, and link nothing else: it needs memcpy, memset and the compiler's 64-bit
 * arithmetic. Above each function stands its name in the sources and what is said of it there. */
#include "ttpa.h"

#include <string.h>

typedef struct {
    const uint8_t *at;
    uint64_t len;
} slice_u8;

/* file::types::LogicalName. */
typedef struct {
    uint8_t f0;
} file_types_LogicalName;

/* file::types::Operation. Any byte can be handed to the frame writer, so an operation is a byte; the values
 * that have a meaning are the constants. */
typedef struct {
    uint8_t f0;
} file_types_Operation;

/* file::types::Refusal. Why something is turned away: document 01's number ("Grounds for turning something
 * away"), or document 02's. */
typedef struct {
    uint8_t tag; /* 0 Size, 1 Mark, 2 Edition, 3 Length, 4 Header, 5 Layout, 6 NeededFile, 7 PhysicalNames,
            8 Buffer, 9 Firework, 10 FrameLength, 11 Check, 12 Operation, 13 BroadcastRead, 14 ListedName,
            15 NameTwice, 16 RunPosition, 17 FileNumber, 18 Trace, 19 TwoSenders, 20 OwnerBuffer,
            21 LogicalNames, 22 MultiplexedSend, 23 Summary, 24 EditionLimits, 25 ConversionBuffer, 26 Screen,
            27 ScreenWaiting, 28 SharedName, 29 JoinedLimits, 30 Pattern */
} file_types_Refusal;

/* core::result::Result<unit, file::types::Refusal>. */
typedef struct {
    uint8_t tag; /* 0 Ok, 1 Err */
    union {
        struct {
            file_types_Refusal f0;
        } Err;
    } as;
} Result_unit_file_types_Refusal;

/* file::walk::DirectoryEnd. Where the files of a directory end that fits so far, and the least number that
 * may follow its last one. */
typedef struct {
    uint64_t low;
    uint64_t place;
} file_walk_DirectoryEnd;

/* core::option::Option<file::walk::DirectoryEnd>. */
typedef struct {
    uint8_t tag; /* 0 None, 1 Some */
    union {
        struct {
            file_walk_DirectoryEnd f0;
        } Some;
    } as;
} Option_file_walk_DirectoryEnd;

/* file::types::FileNumber. */
typedef struct {
    uint8_t f0;
} file_types_FileNumber;

/* file::walk::SlaveFound. What the walk of a good slave found: where its files end, and where 0x08 and 0x3D
 * lie in the needed size, 0 where they do not. */
typedef struct {
    uint64_t end;
    uint16_t configuration;
    uint16_t documentation;
} file_walk_SlaveFound;

/* core::option::Option<file::walk::SlaveFound>. */
typedef struct {
    uint8_t tag; /* 0 None, 1 Some */
    union {
        struct {
            file_walk_SlaveFound f0;
        } Some;
    } as;
} Option_file_walk_SlaveFound;

/* core::option::Option<u64>. */
typedef struct {
    uint8_t tag; /* 0 None, 1 Some */
    union {
        struct {
            uint64_t f0;
        } Some;
    } as;
} Option_u64;

typedef struct {
    uint16_t *at;
    uint64_t len;
} slice_mut_u16;

typedef struct {
    const uint16_t *at;
    uint64_t len;
} slice_u16;

/* file::records::FileBytes. Where a slave keeps a file, and how many bytes it has. */
typedef struct {
    uint64_t place;
    uint64_t size;
} file_records_FileBytes;

/* core::option::Option<file::records::FileBytes>. */
typedef struct {
    uint8_t tag; /* 0 None, 1 Some */
    union {
        struct {
            file_records_FileBytes f0;
        } Some;
    } as;
} Option_file_records_FileBytes;

typedef struct {
    uint8_t *at;
    uint64_t len;
} slice_mut_u8;

/* core::result::Result<u64, file::types::Refusal>. */
typedef struct {
    uint8_t tag; /* 0 Ok, 1 Err */
    union {
        struct {
            uint64_t f0;
        } Ok;
        struct {
            file_types_Refusal f0;
        } Err;
    } as;
} Result_u64_file_types_Refusal;

/* core::result::Result<core::option::Option<u64>, file::types::Refusal>. */
typedef struct {
    uint8_t tag; /* 0 Ok, 1 Err */
    union {
        struct {
            Option_u64 f0;
        } Ok;
        struct {
            file_types_Refusal f0;
        } Err;
    } as;
} Result_Option_u64_file_types_Refusal;

/* convert::table::SleepBytes. Whether a table keeps the sleep bytes of the file that it lists, or lists all
 * slaves awake. */
typedef struct {
    uint8_t tag; /* 0 Kept, 1 AllAwake */
} convert_table_SleepBytes;

/* convert::slaves::SlaveEnds. Where a slave ends, in the file and in the buffer. */
typedef struct {
    uint64_t file;
    uint64_t out;
} convert_slaves_SlaveEnds;

/* multipartner::round_files::RoundFile. Where a slave's entries of a round begin, and where they end: both 0
 * where there are none, as `planned_file` promises, so that a loop over them needs no test, as it would of
 * an Option. A Range is not Copy. */
typedef struct {
    uint64_t start;
    uint64_t end;
} multipartner_round_files_RoundFile;

/* owner::entries::SlavePlan. The slots that a slave's entries hide from later ones, those in which it sends,
 * whether it has a multiplexed send, and the file that was looked for last, with its size. No `Option` of
 * the two: a number that no file has says that there was none, so that each send compares numbers alone. */
typedef struct {
    uint64_t hidden;
    uint64_t sends;
    _Bool multiplexed;
    file_types_FileNumber number;
    uint64_t size;
} owner_entries_SlavePlan;

/* owner::plan::Planner. What the rounds of a file are planned by: the file with the places of its slaves,
 * the name of the master, and which slaves have a file for which round. */
typedef struct {
    slice_u8 file;
    const uint16_t *places;
    file_types_LogicalName master;
    slice_u8 held;
} owner_plan_Planner;

/* owner::plan::RoundPlan. The slots of a round in which someone sends, those in which two slaves do, and
 * whether a slave has a multiplexed send. */
typedef struct {
    uint64_t senders;
    uint64_t clashes;
    _Bool multiplexed;
} owner_plan_RoundPlan;

/* owner::rounds::Rows. What is written so far: how many bytes of rows, whether two slaves send in one slot,
 * and whether a slave has a multiplexed send. No `Result` of the length: a multiplexed send in a later round
 * is told before a clash in an earlier one, so all rounds are gone through. */
typedef struct {
    uint64_t length;
    _Bool clash;
    _Bool multiplexed;
} owner_rounds_Rows;

/* line::pattern::PatternClass. */
typedef struct {
    uint8_t tag; /* 0 DataByte, 1 Firework, 2 Broken */
} line_pattern_PatternClass;

/* core::result::Result<line::pattern::PatternClass, file::types::Refusal>. */
typedef struct {
    uint8_t tag; /* 0 Ok, 1 Err */
    union {
        struct {
            line_pattern_PatternClass f0;
        } Ok;
        struct {
            file_types_Refusal f0;
        } Err;
    } as;
} Result_line_pattern_PatternClass_file_types_Refusal;

/* file::types::RecordNumber. */
typedef struct {
    uint8_t f0;
} file_types_RecordNumber;

/* master_slave::types::RecordAddress. The slaves of a logical name, and a record of theirs. */
typedef struct {
    file_types_LogicalName name;
    file_types_FileNumber number;
    file_types_RecordNumber record;
} master_slave_types_RecordAddress;

/* frame::types::AddressFrame. */
typedef struct {
    uint8_t epoch;
    file_types_LogicalName name;
    file_types_FileNumber file;
    file_types_Operation operation;
    file_types_RecordNumber record;
} frame_types_AddressFrame;

/* core::result::Result<frame::types::AddressFrame, file::types::Refusal>. */
typedef struct {
    uint8_t tag; /* 0 Ok, 1 Err */
    union {
        struct {
            frame_types_AddressFrame f0;
        } Ok;
        struct {
            file_types_Refusal f0;
        } Err;
    } as;
} Result_frame_types_AddressFrame_file_types_Refusal;

/* frame::firework::Firework. */
typedef struct {
    uint8_t tag; /* 0 Multipartner, 1 Data, 2 Address */
    union {
        struct {
            uint8_t f0;
        } Multipartner;
    } as;
} frame_firework_Firework;

/* core::option::Option<frame::firework::Firework>. */
typedef struct {
    uint8_t tag; /* 0 None, 1 Some */
    union {
        struct {
            frame_firework_Firework f0;
        } Some;
    } as;
} Option_frame_firework_Firework;

/* file::readers::Pending. The pending flag and the pending operation, PB2 split into file number and
 * operation. */
typedef struct {
    uint8_t flag;
    file_types_LogicalName name;
    file_types_FileNumber number;
    file_types_Operation operation;
    file_types_RecordNumber record;
} file_readers_Pending;

/* master_slave::types::DataBytes. The four bytes of a data frame; of one that has none, 0. */
typedef struct {
    uint8_t b0;
    uint8_t b1;
    uint8_t b2;
    uint8_t b3;
} master_slave_types_DataBytes;

/* core::result::Result<master_slave::types::DataBytes, file::types::Refusal>. */
typedef struct {
    uint8_t tag; /* 0 Ok, 1 Err */
    union {
        struct {
            master_slave_types_DataBytes f0;
        } Ok;
        struct {
            file_types_Refusal f0;
        } Err;
    } as;
} Result_master_slave_types_DataBytes_file_types_Refusal;

/* master_slave::pending::Duty. */
typedef struct {
    uint8_t tag; /* 0 Nothing, 1 Read, 2 Write, 3 Compare, 4 Baptize, 5 Sleep */
} master_slave_pending_Duty;

/* master_slave::pending::PendingDuty. A duty, and the slaves and the record that it is about. */
typedef struct {
    master_slave_pending_Duty duty;
    master_slave_types_RecordAddress address;
} master_slave_pending_PendingDuty;

/* multipartner::round_files::OpenEntries. Where the entries begin that a slave still has to look at, and
 * where they end, in four bytes each, for the stack. */
typedef struct {
    uint32_t start;
    uint32_t end;
} multipartner_round_files_OpenEntries;

/* multipartner::entry::EntryOperation. What an entry does, one case for each operation code of 002, table 4.
 * Only the multiplexed ones evaluate their multiplex field. */
typedef struct {
    uint8_t tag; /* 0 Receive, 1 Send, 2 ReceiveSync, 3 Execute, 4 ReceiveSpeedup, 5 SendSpeedup, 6 EndOfRound,
            7 ExecuteAndEnd, 8 ReceiveMux4, 9 SendMux4, 10 ReceiveMux8, 11 SendMux8, 12 ReceiveSpeedupMux4,
            13 SendSpeedupMux4, 14 ReceiveMux8High, 15 SendMux8High */
    union {
        struct {
            uint8_t f0;
        } ReceiveMux4;
        struct {
            uint8_t f0;
        } SendMux4;
        struct {
            uint8_t f0;
        } ReceiveMux8;
        struct {
            uint8_t f0;
        } SendMux8;
        struct {
            uint8_t f0;
        } ReceiveSpeedupMux4;
        struct {
            uint8_t f0;
        } SendSpeedupMux4;
        struct {
            uint8_t f0;
        } ReceiveMux8High;
        struct {
            uint8_t f0;
        } SendMux8High;
    } as;
} multipartner_entry_EntryOperation;

/* multipartner::entry::EntryAddress. Where an entry's first byte lies: in a record, align bytes after its
 * start. */
typedef struct {
    file_types_FileNumber file;
    file_types_RecordNumber record;
    uint64_t align;
} multipartner_entry_EntryAddress;

/* multipartner::entry::Entry. */
typedef struct {
    multipartner_entry_EntryAddress address;
    multipartner_entry_EntryOperation operation;
    uint64_t length;
    uint64_t slot;
} multipartner_entry_Entry;

/* multipartner::kept_files::KeptFile. Where a file lies and how many bytes it has, at most 1,024, with its
 * number: eight bytes in this order, for the stack and for the step from slave to slave. */
typedef struct {
    uint32_t place;
    uint16_t size;
    file_types_FileNumber number;
} multipartner_kept_files_KeptFile;

/* multipartner::entry::EntryAction. What a slave does for an entry in a slot that it covers. */
typedef struct {
    uint8_t tag; /* 0 Receives, 1 Sends, 2 Ends, 3 Rests */
} multipartner_entry_EntryAction;

/* multipartner::slot_act::SlotAct. What a slave does in a slot: it sends a byte, stores the slot's byte at a
 * place of the file, or neither. */
typedef struct {
    uint8_t tag; /* 0 Sends, 1 Stores, 2 Rests */
    union {
        struct {
            uint8_t f0;
        } Sends;
        struct {
            uint64_t f0;
        } Stores;
    } as;
} multipartner_slot_act_SlotAct;

typedef struct {
    const uint32_t *at;
    uint64_t len;
} slice_u32;

typedef struct {
    uint8_t at[33];
} array_u8_33;

/* convert::editions::Edition. */
typedef struct {
    uint8_t tag; /* 0 One, 1 Two */
} convert_editions_Edition;

/* cluster::answer::Unheard. What came of a frame that nobody hears: whether it was carried out, and whether
 * someone may be asleep afterwards. Neither is a value that the other tells of, as in an Option: of a
 * refused frame both are told (`take_unheard`, LeftUnheard). */
typedef struct {
    _Bool carried;
    _Bool sleepers;
} cluster_answer_Unheard;

/* trace::report::Report. */
typedef struct {
    uint64_t msa;
    uint64_t msd;
    uint64_t multipartner;
    uint64_t refused;
} trace_report_Report;

/* trace::run::Progress. The frames counted so far, and whether someone may be asleep after them. */
typedef struct {
    trace_report_Report report;
    _Bool sleepers;
} trace_run_Progress;

/* core::result::Result<trace::report::Report, file::types::Refusal>. */
typedef struct {
    uint8_t tag; /* 0 Ok, 1 Err */
    union {
        struct {
            trace_report_Report f0;
        } Ok;
        struct {
            file_types_Refusal f0;
        } Err;
    } as;
} Result_trace_report_Report_file_types_Refusal;

typedef struct {
    uint64_t at[5];
} array_u64_5;

/* core::option::Option<u8>. */
typedef struct {
    uint8_t tag; /* 0 None, 1 Some */
    union {
        struct {
            uint8_t f0;
        } Some;
    } as;
} Option_u8;

/* master_slave::types::MasterSlaveRound. A complete master-slave round: what its address frame asks for, and
 * the data of a write. */
typedef struct {
    file_types_LogicalName name;
    file_types_FileNumber number;
    file_types_Operation operation;
    file_types_RecordNumber record;
    uint8_t b0;
    uint8_t b1;
    uint8_t b2;
    uint8_t b3;
} master_slave_types_MasterSlaveRound;

/* screens::turn::Served. A screen that was served, and the mask of its read's data frame. */
typedef struct {
    uint8_t screen;
    uint64_t senders;
} screens_turn_Served;

/* core::option::Option<screens::turn::Served>. */
typedef struct {
    uint8_t tag; /* 0 None, 1 Some */
    union {
        struct {
            screens_turn_Served f0;
        } Some;
    } as;
} Option_screens_turn_Served;

/* core::result::Result<core::option::Option<screens::turn::Served>, file::types::Refusal>. */
typedef struct {
    uint8_t tag; /* 0 Ok, 1 Err */
    union {
        struct {
            Option_screens_turn_Served f0;
        } Ok;
        struct {
            file_types_Refusal f0;
        } Err;
    } as;
} Result_Option_screens_turn_Served_file_types_Refusal;

typedef struct {
    uint8_t at[4];
} array_u8_4;

/* naming::position::RunPlace. The name by its index, the step of its pass, and the value so far. */
typedef struct {
    uint64_t index;
    uint64_t step;
    uint64_t value;
} naming_position_RunPlace;

/* naming::position::RunCounts. The rounds and comparisons made. */
typedef struct {
    uint64_t rounds;
    uint64_t comparisons;
} naming_position_RunCounts;

/* naming::position::RunHalves. The halves last written. */
typedef struct {
    uint64_t high;
    uint64_t low;
} naming_position_RunHalves;

/* naming::position::RunPosition. The caller keeps it between steps, and may hand in any content: the C
 * interface has these words, so that end and step are numbers, of which ground 17 (`unfit_position`) tells
 * the unfit ones. That its parts fit (FitCounts, GoesOn) is asked function by function: a round more may
 * bring a count to its limit, and a type of positions that fit would be left by each function that takes it. */
typedef struct {
    uint64_t end;
    naming_position_RunPlace place;
    naming_position_RunCounts counts;
    naming_position_RunHalves halves;
} naming_position_RunPosition;

/* core::result::Result<naming::position::RunPosition, file::types::Refusal>. */
typedef struct {
    uint8_t tag; /* 0 Ok, 1 Err */
    union {
        struct {
            naming_position_RunPosition f0;
        } Ok;
        struct {
            file_types_Refusal f0;
        } Err;
    } as;
} Result_naming_position_RunPosition_file_types_Refusal;

typedef struct {
    uint64_t at[8];
} array_u64_8;

/* naming::run::MadeStep. A step that made its round: the mask of its data frame, and the run. */
typedef struct {
    uint64_t senders;
    naming_position_RunPosition run;
} naming_run_MadeStep;

/* naming::pass::Writing. What the round at a step writes: which half, REPLY where none, and the value that
 * it is a half of; at the execute of a comparison the value that is compared with. */
typedef struct {
    uint64_t part;
    uint64_t value;
} naming_pass_Writing;

/* naming::standing::Standing. A position at the next round really made, at a step of a pass, and what that
 * round writes. */
typedef struct {
    naming_position_RunPosition run;
    naming_pass_Writing writing;
} naming_standing_Standing;

/* naming::advance::Reply. Whether someone sent in slot 1 of a round. */
typedef struct {
    uint8_t tag; /* 0 Heard, 1 Silence */
} naming_advance_Reply;

/* core::option::Option<naming::run::MadeStep>. */
typedef struct {
    uint8_t tag; /* 0 None, 1 Some */
    union {
        struct {
            naming_run_MadeStep f0;
        } Some;
    } as;
} Option_naming_run_MadeStep;

/* core::result::Result<core::option::Option<naming::run::MadeStep>, file::types::Refusal>. */
typedef struct {
    uint8_t tag; /* 0 Ok, 1 Err */
    union {
        struct {
            Option_naming_run_MadeStep f0;
        } Ok;
        struct {
            file_types_Refusal f0;
        } Err;
    } as;
} Result_Option_naming_run_MadeStep_file_types_Refusal;

/* How many zero bits stand above the highest that is one; 64 where none is. */
static inline uint32_t leading_zeros(uint64_t bits)
{
#if defined(__GNUC__) && !defined(TTPA_WITHOUT_BUILTINS)
    return bits == 0 ? 64 : (uint32_t)__builtin_clzll(bits);
#else
    uint32_t zeros = 0;
    if (bits == 0) {
        return 64;
    }
    if ((bits >> 32) == 0) {
        zeros += 32;
        bits <<= 32;
    }
    if ((bits >> 48) == 0) {
        zeros += 16;
        bits <<= 16;
    }
    if ((bits >> 56) == 0) {
        zeros += 8;
        bits <<= 8;
    }
    if ((bits >> 60) == 0) {
        zeros += 4;
        bits <<= 4;
    }
    if ((bits >> 62) == 0) {
        zeros += 2;
        bits <<= 2;
    }
    if ((bits >> 63) == 0) {
        zeros += 1;
        bits <<= 1;
    }
    return zeros;
#endif
}

/* How many zero bits stand below the lowest that is one; 64 where none is. */
static inline uint32_t trailing_zeros(uint64_t bits)
{
#if defined(__GNUC__) && !defined(TTPA_WITHOUT_BUILTINS)
    return bits == 0 ? 64 : (uint32_t)__builtin_ctzll(bits);
#else
    uint32_t zeros = 0;
    if (bits == 0) {
        return 64;
    }
    if ((bits & UINT64_C(0xffffffff)) == 0) {
        zeros += 32;
        bits >>= 32;
    }
    if ((bits & UINT64_C(0xffff)) == 0) {
        zeros += 16;
        bits >>= 16;
    }
    if ((bits & UINT64_C(0xff)) == 0) {
        zeros += 8;
        bits >>= 8;
    }
    if ((bits & UINT64_C(0xf)) == 0) {
        zeros += 4;
        bits >>= 4;
    }
    if ((bits & UINT64_C(0x3)) == 0) {
        zeros += 2;
        bits >>= 2;
    }
    if ((bits & UINT64_C(0x1)) == 0) {
        zeros += 1;
        bits >>= 1;
    }
    return zeros;
#endif
}

/* Where a slice begins that is cut from another: nothing is added to a pointer that may be NULL. */
static inline const uint8_t *cut_u8(const uint8_t *at, uint64_t from)
{
    return from == 0 ? at : at + from;
}

/* Where a slice begins that is cut from another: nothing is added to a pointer that may be NULL. */
static inline uint8_t *cut_mut_u8(uint8_t *at, uint64_t from)
{
    return from == 0 ? at : at + from;
}

/* A slice lent for reading alone. */
static inline slice_u8 lend_u8(slice_mut_u8 slice)
{
    return (slice_u8){slice.at, slice.len};
}

/* file::readers::width_of. The bytes of an offset in a file, by its edition: "edition 2's .. if byte 2 is
 * present and is 2, otherwise those of edition 1". */
static inline uint64_t file_readers_width_of(slice_u8 file)
{
    if (file.len <= 2) {
        return 2;
    }
    if (file.at[2] != 2) {
        return 2;
    }
    return 4;
}

/* file::header::wrong_size. */
static inline _Bool file_header_wrong_size(slice_u8 file, uint64_t width)
{
    uint64_t header = 8 + 4 * width;
    uint64_t longest = 16384 * width;
    _Bool t6 = file.len < header;
    if (!t6) {
        t6 = longest < file.len;
    }
    return t6;
}

/* file::numbers::byte_at. The byte at a place, as an index. */
static inline uint64_t file_numbers_byte_at(slice_u8 file, uint64_t at)
{
    return (uint64_t)file.at[at];
}

/* file::header::wrong_mark. */
static inline _Bool file_header_wrong_mark(slice_u8 file)
{
    if (file_numbers_byte_at(file, 0) != 84) {
        return 1;
    }
    return file_numbers_byte_at(file, 1) != 65;
}

/* file::header::wrong_edition. */
static inline _Bool file_header_wrong_edition(slice_u8 file, uint64_t width)
{
    uint64_t t3 = file_numbers_byte_at(file, 2);
    return t3 != width / 2;
}

/* file::numbers::u16_at. The two-byte number at a place, as an index. */
static inline uint64_t file_numbers_u16_at(slice_u8 file, uint64_t at)
{
    uint64_t high = file_numbers_byte_at(file, at);
    uint64_t low = file_numbers_byte_at(file, at + 1);
    return (high << 8) | low;
}

/* file::numbers::offset_at. The offset at a place, of the width of its edition. */
static inline uint64_t file_numbers_offset_at(slice_u8 file, uint64_t width, uint64_t at)
{
    if (width == 2) {
        return file_numbers_u16_at(file, at);
    }
    uint64_t high = file_numbers_u16_at(file, at);
    uint64_t low = file_numbers_u16_at(file, at + 2);
    return (high << 16) | low;
}

/* file::header::wrong_length. */
static inline _Bool file_header_wrong_length(slice_u8 file, uint64_t width)
{
    uint64_t t3 = file_numbers_offset_at(file, width, 4 + width);
    return t3 != file.len;
}

/* file::header::more_zeros. The four zeros that edition 2's header has more. */
static inline _Bool file_header_more_zeros(slice_u8 file, uint64_t width, uint64_t at)
{
    if (width == 2) {
        return 1;
    }
    return file_numbers_offset_at(file, width, at) == 0;
}

/* file::types::LogicalName::new. */
static inline file_types_LogicalName file_types_LogicalName_new(uint8_t name)
{
    return (file_types_LogicalName){.f0 = name};
}

/* file::operations::operation_of. */
static inline file_types_Operation file_operations_operation_of(uint8_t pb2)
{
    return (file_types_Operation){.f0 = (uint8_t)(pb2 % 4)};
}

/* file::operations::is_no_operation. Operation 3, or any above it: the bytes are compared, since an
 * operation has no order of its own. */
static inline _Bool file_operations_is_no_operation(file_types_Operation operation)
{
    return 2 < operation.f0;
}

/* file::operations::is_broadcast_read. */
static inline _Bool file_operations_is_broadcast_read(file_types_Operation operation,
        file_types_LogicalName name)
{
    _Bool t5 = operation.f0 == 0;
    if (t5) {
        t5 = name.f0 == 0;
    }
    return t5;
}

/* file::header::wrong_pending. A pending operation is no operation 3 and no broadcast read. */
static inline _Bool file_header_wrong_pending(uint8_t flag, file_types_LogicalName name, uint8_t pb2)
{
    if (1 < flag) {
        return 1;
    }
    if (flag != 1) {
        return 0;
    }
    file_types_Operation operation = file_operations_operation_of(pb2);
    if (file_operations_is_no_operation(operation)) {
        return 1;
    }
    return file_operations_is_broadcast_read(operation, name);
}

/* file::header::wrong_header. */
static inline _Bool file_header_wrong_header(slice_u8 file, uint64_t width)
{
    if (16 * width < file_numbers_byte_at(file, 3)) {
        return 1;
    }
    uint64_t header = 8 + 4 * width;
    if (file_numbers_offset_at(file, width, 4) != header) {
        return 1;
    }
    uint64_t epoch = 4 + 2 * width;
    if (file_numbers_byte_at(file, epoch + 5) != 0) {
        return 1;
    }
    if (file_numbers_byte_at(file, epoch + 6) != 0) {
        return 1;
    }
    if (file_numbers_byte_at(file, epoch + 7) != 0) {
        return 1;
    }
    if (!file_header_more_zeros(file, width, epoch + 8)) {
        return 1;
    }
    file_types_LogicalName name = file_types_LogicalName_new(file.at[epoch + 2]);
    return file_header_wrong_pending(file.at[epoch + 1], name, file.at[epoch + 3]);
}

/* file::header::header_ground_at<2>. Refused by the first of grounds 1 to 5 that holds, in an edition: the
 * compiler writes the tests once for each width, with its numbers. */
static inline Result_unit_file_types_Refusal file_header_header_ground_at_2(slice_u8 file)
{
    if (file_header_wrong_size(file, 2)) {
        return (Result_unit_file_types_Refusal){.tag = 1, .as.Err.f0 = (file_types_Refusal){.tag = 0}};
    }
    if (file_header_wrong_mark(file)) {
        return (Result_unit_file_types_Refusal){.tag = 1, .as.Err.f0 = (file_types_Refusal){.tag = 1}};
    }
    if (file_header_wrong_edition(file, 2)) {
        return (Result_unit_file_types_Refusal){.tag = 1, .as.Err.f0 = (file_types_Refusal){.tag = 2}};
    }
    if (file_header_wrong_length(file, 2)) {
        return (Result_unit_file_types_Refusal){.tag = 1, .as.Err.f0 = (file_types_Refusal){.tag = 3}};
    }
    if (file_header_wrong_header(file, 2)) {
        return (Result_unit_file_types_Refusal){.tag = 1, .as.Err.f0 = (file_types_Refusal){.tag = 4}};
    }
    return (Result_unit_file_types_Refusal){.tag = 0};
}

/* file::header::header_ground_at<4>. Refused by the first of grounds 1 to 5 that holds, in an edition: the
 * compiler writes the tests once for each width, with its numbers. */
static inline Result_unit_file_types_Refusal file_header_header_ground_at_4(slice_u8 file)
{
    if (file_header_wrong_size(file, 4)) {
        return (Result_unit_file_types_Refusal){.tag = 1, .as.Err.f0 = (file_types_Refusal){.tag = 0}};
    }
    if (file_header_wrong_mark(file)) {
        return (Result_unit_file_types_Refusal){.tag = 1, .as.Err.f0 = (file_types_Refusal){.tag = 1}};
    }
    if (file_header_wrong_edition(file, 4)) {
        return (Result_unit_file_types_Refusal){.tag = 1, .as.Err.f0 = (file_types_Refusal){.tag = 2}};
    }
    if (file_header_wrong_length(file, 4)) {
        return (Result_unit_file_types_Refusal){.tag = 1, .as.Err.f0 = (file_types_Refusal){.tag = 3}};
    }
    if (file_header_wrong_header(file, 4)) {
        return (Result_unit_file_types_Refusal){.tag = 1, .as.Err.f0 = (file_types_Refusal){.tag = 4}};
    }
    return (Result_unit_file_types_Refusal){.tag = 0};
}

/* file::header::header_ground. */
static inline Result_unit_file_types_Refusal file_header_header_ground(slice_u8 file, uint64_t width)
{
    if (width == 2) {
        return file_header_header_ground_at_2(file);
    }
    return file_header_header_ground_at_4(file);
}

/* file::walk::is_filled. Whether the zeros that fill an entry up are zero: none in edition 1, two in edition
 * 2. */
static inline _Bool file_walk_is_filled(slice_u8 file, uint64_t width, uint64_t at)
{
    if (width == 2) {
        return 1;
    }
    return file_numbers_u16_at(file, at) == 0;
}

/* file::walk::is_next. Whether a directory entry may come next: its file number is low or more, it counts
 * records, its zeros are zero, and its offset is the running place. */
static inline _Bool file_walk_is_next(slice_u8 file, uint64_t width, uint64_t entry, uint64_t number,
        uint64_t last, uint64_t low, uint64_t place)
{
    if (number < low) {
        return 0;
    }
    if (last < 1) {
        return 0;
    }
    if (!file_walk_is_filled(file, width, entry + 2)) {
        return 0;
    }
    return file_numbers_offset_at(file, width, entry + width) == place;
}

/* file::walk::walk_directory. The directory at a place that the running place has come to, of count entries,
 * but whether it fits; none where it is broken. The first entry follows no file number. */
static inline Option_file_walk_DirectoryEnd file_walk_walk_directory(slice_u8 file, uint64_t width,
        uint64_t directory, uint64_t count)
{
    if (count == 0) {
        return (Option_file_walk_DirectoryEnd){.tag = 1, .as.Some.f0 = (file_walk_DirectoryEnd){.low = 0,
                .place = directory}};
    }
    uint64_t size = 2 * width;
    uint64_t end = directory + size * count;
    uint64_t first = file_numbers_byte_at(file, directory);
    uint64_t records = file_numbers_byte_at(file, directory + 1);
    if (!file_walk_is_next(file, width, directory, first, records, 0, end)) {
        return (Option_file_walk_DirectoryEnd){.tag = 0};
    }
    uint64_t entry = directory + size;
    uint64_t low = first + 1;
    uint64_t place = end + 4 * (records + 1);
    while (entry < end) {
        uint64_t number = file_numbers_byte_at(file, entry);
        uint64_t last = file_numbers_byte_at(file, entry + 1);
        if (!file_walk_is_next(file, width, entry, number, last, low, place)) {
            return (Option_file_walk_DirectoryEnd){.tag = 0};
        }
        low = number + 1;
        place = place + 4 * (last + 1);
        entry = entry + size;
    }
    return (Option_file_walk_DirectoryEnd){.tag = 1, .as.Some.f0 = (file_walk_DirectoryEnd){.low = low,
            .place = place}};
}

/* file::walk::walk_entry. The slave of a table entry, its directory at the running place, but whether its
 * files fit; none where it is broken. */
static inline Option_file_walk_DirectoryEnd file_walk_walk_entry(slice_u8 file, uint64_t width, uint64_t entry,
        uint64_t place)
{
    uint64_t after = entry + width;
    uint64_t count = file_numbers_byte_at(file, after);
    if (file_numbers_offset_at(file, width, entry) != place) {
        return (Option_file_walk_DirectoryEnd){.tag = 0};
    }
    if (1 < file_numbers_byte_at(file, after + 1)) {
        return (Option_file_walk_DirectoryEnd){.tag = 0};
    }
    if (!file_walk_is_filled(file, width, after + 2)) {
        return (Option_file_walk_DirectoryEnd){.tag = 0};
    }
    uint64_t size = 2 * width;
    if (file.len < place + size * count) {
        return (Option_file_walk_DirectoryEnd){.tag = 0};
    }
    return file_walk_walk_directory(file, width, place, count);
}

/* file::walk::fits_so_far. Whether no file number was above the last one and no file ended past the bytes:
 * numbers and places rise, so it is enough to look at those of the last entry. */
static inline _Bool file_walk_fits_so_far(slice_u8 file, uint64_t low, uint64_t place)
{
    if (64 < low) {
        return 0;
    }
    return place <= file.len;
}

/* file::walk::is_stated. Whether a directory entry states the wanted file with enough records. */
static inline _Bool file_walk_is_stated(slice_u8 file, uint64_t entry, file_types_FileNumber wanted,
        uint8_t least)
{
    if (file.at[entry] != wanted.f0) {
        return 0;
    }
    return least <= file.at[entry + 1];
}

/* file::walk::stated_from_front. Where a walked directory states the wanted file to lie, 0 where it does
 * not: found from the front, for a low file number. It and the next stay two functions: they differ in each
 * line of the loop, so one would choose between both loops. */
static inline uint16_t file_walk_stated_from_front(slice_u8 file, uint64_t width, uint64_t directory,
        uint64_t count, file_types_FileNumber wanted, uint8_t least)
{
    uint64_t size = 2 * width;
    uint64_t end = directory + size * count;
    uint64_t entry = directory;
    while (entry < end) {
        if (file_walk_is_stated(file, entry, wanted, least)) {
            return (uint16_t)file_numbers_offset_at(file, width, entry + width);
        }
        entry = entry + size;
    }
    return 0;
}

/* file::walk::configuration_place. Where a walked directory states 0x08 to lie in the needed size. Mostly it
 * is the first file, which lies behind the directory. */
static inline uint16_t file_walk_configuration_place(slice_u8 file, uint64_t width, uint64_t directory,
        uint64_t count)
{
    if (count == 0) {
        return 0;
    }
    file_types_FileNumber number = (file_types_FileNumber){.f0 = 8};
    if (file_walk_is_stated(file, directory, number, 3)) {
        uint64_t size = 2 * width;
        return (uint16_t)(directory + size * count);
    }
    return file_walk_stated_from_front(file, width, directory, count, number, 3);
}

/* file::walk::stated_from_back. The same from the back, for a high file number. */
static inline uint16_t file_walk_stated_from_back(slice_u8 file, uint64_t width, uint64_t directory,
        uint64_t count, file_types_FileNumber wanted, uint8_t least)
{
    uint64_t size = 2 * width;
    uint64_t entry = directory + size * count;
    while (directory < entry) {
        entry = entry - size;
        if (file_walk_is_stated(file, entry, wanted, least)) {
            return (uint16_t)file_numbers_offset_at(file, width, entry + width);
        }
    }
    return 0;
}

/* file::walk::with_places. The same with where its directory states 0x08 and 0x3D, of a walked slave. */
static inline file_walk_SlaveFound file_walk_with_places(slice_u8 file, uint64_t width, uint64_t entry,
        uint64_t place, uint64_t end)
{
    uint64_t count = file_numbers_byte_at(file, entry + width);
    uint16_t t8 = file_walk_configuration_place(file, width, place, count);
    return (file_walk_SlaveFound){.end = end, .configuration = t8,
            .documentation = file_walk_stated_from_back(file, width, place, count,
            (file_types_FileNumber){.f0 = 61}, 2)};
}

/* file::walk::walk_edition<2>. A slave in an edition. The compiler writes the walk once for each width, with
 * its numbers; each is a function of its own, since it inlines only functions below a size, which both in
 * one exceed. */
static inline Option_file_walk_SlaveFound file_walk_walk_edition_2(slice_u8 file, uint64_t entry,
        uint64_t place)
{
    Option_file_walk_DirectoryEnd t8 = file_walk_walk_entry(file, 2, entry, place);
    if (t8.tag != 1) {
        return (Option_file_walk_SlaveFound){.tag = 0};
    }
    file_walk_DirectoryEnd end = t8.as.Some.f0;
    if (!file_walk_fits_so_far(file, end.low, end.place)) {
        return (Option_file_walk_SlaveFound){.tag = 0};
    }
    return (Option_file_walk_SlaveFound){.tag = 1, .as.Some.f0 = file_walk_with_places(file, 2, entry, place,
            end.place)};
}

/* file::walk::walk_edition<4>. A slave in an edition. The compiler writes the walk once for each width, with
 * its numbers; each is a function of its own, since it inlines only functions below a size, which both in
 * one exceed. */
static inline Option_file_walk_SlaveFound file_walk_walk_edition_4(slice_u8 file, uint64_t entry,
        uint64_t place)
{
    Option_file_walk_DirectoryEnd t8 = file_walk_walk_entry(file, 4, entry, place);
    if (t8.tag != 1) {
        return (Option_file_walk_SlaveFound){.tag = 0};
    }
    file_walk_DirectoryEnd end = t8.as.Some.f0;
    if (!file_walk_fits_so_far(file, end.low, end.place)) {
        return (Option_file_walk_SlaveFound){.tag = 0};
    }
    return (Option_file_walk_SlaveFound){.tag = 1, .as.Some.f0 = file_walk_with_places(file, 4, entry, place,
            end.place)};
}

/* file::walk::walk_slave. */
static inline Option_file_walk_SlaveFound file_walk_walk_slave(slice_u8 file, uint64_t width, uint64_t entry,
        uint64_t place)
{
    if (width == 2) {
        return file_walk_walk_edition_2(file, entry, place);
    }
    return file_walk_walk_edition_4(file, entry, place);
}

/* file::walk::walk_slaves. Where the files of all slaves end, their places put in front of the lent ones;
 * none where a slave is broken. */
static inline Option_u64 file_walk_walk_slaves(slice_u8 file, uint64_t width, uint64_t count,
        slice_mut_u16 places)
{
    uint64_t size = 2 * width;
    uint64_t entry = 8 + 4 * width;
    uint64_t place = entry + size * count;
    uint64_t slave = 0;
    while (slave < count) {
        Option_file_walk_SlaveFound t15 = file_walk_walk_slave(file, width, entry, place);
        if (t15.tag != 1) {
            return (Option_u64){.tag = 0};
        }
        file_walk_SlaveFound found = t15.as.Some.f0;
        places.at[2 * slave] = found.configuration;
        places.at[2 * slave + 1] = found.documentation;
        place = found.end;
        entry = entry + size;
        slave = slave + 1;
    }
    return (Option_u64){.tag = 1, .as.Some.f0 = place};
}

/* file::survey::walk_body. Ground 6 after a good header: whether the layout is whole; the places that its
 * directories state are put into the lent array. */
static inline _Bool file_survey_walk_body(slice_u8 file, uint64_t width, slice_mut_u16 places)
{
    uint64_t count = file_numbers_byte_at(file, 3);
    uint64_t header = 8 + 4 * width;
    uint64_t size = 2 * width;
    if (file.len < header + size * count) {
        return 0;
    }
    Option_u64 t12 = file_walk_walk_slaves(file, width, count, places);
    uint64_t end;
    switch (t12.tag) {
    case 1:
        end = t12.as.Some.f0;
        break;
    case 0:
    default:
        return 0;
    }
    return end == file.len;
}

/* file::survey::is_missing. Whether a slave lacks a file: its place is 0. Without an exit the compiler looks
 * at several places at a time. */
static inline _Bool file_survey_is_missing(slice_u16 places)
{
    _Bool missing = 0;
    uint64_t t3 = 0;
    uint64_t t5 = places.len;
    while (t3 < t5) {
        const uint16_t *place = places.at + t3;
        if (*place == 0) {
            missing = 1;
        }
        t3 = t3 + 1;
    }
    return missing;
}

/* file::numbers::u64_at. The eight-byte number at a place. Eight shifted bytes joined in one row are
 * compiled to one load; two halves of four are not. Each shift stands here, and in `u16_at`, and is not left
 * to `from_be_bytes`: the edits u64_second_byte_by_47_bits and u16_high_byte_by_7_bits change one of them. */
static inline uint64_t file_numbers_u64_at(slice_u8 file, uint64_t at)
{
    uint64_t b0 = file_numbers_byte_at(file, at);
    uint64_t b1 = file_numbers_byte_at(file, at + 1);
    uint64_t b2 = file_numbers_byte_at(file, at + 2);
    uint64_t b3 = file_numbers_byte_at(file, at + 3);
    uint64_t b4 = file_numbers_byte_at(file, at + 4);
    uint64_t b5 = file_numbers_byte_at(file, at + 5);
    uint64_t b6 = file_numbers_byte_at(file, at + 6);
    uint64_t b7 = file_numbers_byte_at(file, at + 7);
    uint64_t high = (((b0 << 56) | (b1 << 48)) | (b2 << 40)) | (b3 << 32);
    return (((high | (b4 << 24)) | (b5 << 16)) | (b6 << 8)) | b7;
}

/* file::names::name_at. A slave's physical name: the number in the eight bytes after record 0x00 of its
 * documentation. */
static inline uint64_t file_names_name_at(slice_u8 file, slice_u16 places, uint64_t slave)
{
    uint64_t place = (uint64_t)places.at[2 * slave + 1];
    return file_numbers_u64_at(file, place + 4);
}

/* file::names::remainder_at. Its remainder: the name's last byte. */
static inline uint64_t file_names_remainder_at(slice_u8 file, slice_u16 places, uint64_t slave)
{
    uint64_t place = (uint64_t)places.at[2 * slave + 1];
    return file_numbers_byte_at(file, place + 4 + 7);
}

/* file::names::is_named_from. Whether one of the slaves from a slave on has the name. */
static inline _Bool file_names_is_named_from(slice_u8 file, slice_u16 places, uint64_t from, uint64_t name)
{
    uint64_t slave = from;
    uint64_t t6 = places.len / 2;
    while (slave < t6) {
        if (file_names_name_at(file, places, slave) == name) {
            return 1;
        }
        slave = slave + 1;
    }
    return 0;
}

/* file::names::is_repeated. Whether a slave after this one has its name, whose remainder may be new: then
 * none has. */
static inline _Bool file_names_is_repeated(slice_u8 file, slice_u16 places, uint64_t slave, _Bool seen)
{
    if (!seen) {
        return 0;
    }
    uint64_t name = file_names_name_at(file, places, slave);
    return file_names_is_named_from(file, places, slave + 1, name);
}

/* file::names::equal_names. From the last slave to the first: a name is compared with those of the slaves
 * after it only where its remainder is not new. Fewer than two slaves are not looked at, and two are
 * compared without the marks. */
static inline _Bool file_names_equal_names(slice_u8 file, slice_u16 places)
{
    uint64_t count = places.len / 2;
    if (count < 2) {
        return 0;
    }
    if (count == 2) {
        uint64_t t9 = file_names_name_at(file, places, 0);
        return t9 == file_names_name_at(file, places, 1);
    }
    _Bool seen[256];
    memset(seen, 0, sizeof seen);
    uint64_t slave = count;
    while (0 < slave) {
        slave = slave - 1;
        uint64_t remainder = file_names_remainder_at(file, places, slave);
        if (file_names_is_repeated(file, places, slave, seen[remainder])) {
            return 1;
        }
        seen[remainder] = 1;
    }
    return 0;
}

/* file::survey::slaves_ground. Grounds 7 and 8, by the places that the directories of all slaves state. */
static inline Result_unit_file_types_Refusal file_survey_slaves_ground(slice_u8 file, uint64_t width,
        slice_u16 places)
{
    (void)width;
    uint64_t count = file_numbers_byte_at(file, 3);
    slice_u16 stated = (slice_u16){places.at, 2 * count};
    if (file_survey_is_missing(stated)) {
        return (Result_unit_file_types_Refusal){.tag = 1, .as.Err.f0 = (file_types_Refusal){.tag = 6}};
    }
    if (file_names_equal_names(file, stated)) {
        return (Result_unit_file_types_Refusal){.tag = 1, .as.Err.f0 = (file_types_Refusal){.tag = 7}};
    }
    return (Result_unit_file_types_Refusal){.tag = 0};
}

/* file::survey::survey. The answer to a file; where it is accepted, the lent array holds its places. */
static inline Result_unit_file_types_Refusal file_survey_survey(slice_u8 file, uint16_t *places)
{
    slice_u8 bytes = file;
    uint64_t width = file_readers_width_of(bytes);
    Result_unit_file_types_Refusal t9 = file_header_header_ground(bytes, width);
    if (t9.tag != 0) {
        return (Result_unit_file_types_Refusal){.tag = 1, .as.Err.f0 = t9.as.Err.f0};
    }
    if (!file_survey_walk_body(bytes, width, (slice_mut_u16){places, 130})) {
        return (Result_unit_file_types_Refusal){.tag = 1, .as.Err.f0 = (file_types_Refusal){.tag = 5}};
    }
    return file_survey_slaves_ground(bytes, width, (slice_u16){places, 130});
}

/* file::readers::slave_count. The number of slaves. */
static inline uint64_t file_readers_slave_count(slice_u8 file)
{
    return file_numbers_byte_at(file, 3);
}

/* file::readers::logical_name. A slave's logical name. */
static inline file_types_LogicalName file_readers_logical_name(slice_u8 file, const uint16_t *places,
        uint64_t slave)
{
    uint64_t place = (uint64_t)places[2 * slave];
    uint64_t at = place + 7;
    return file_types_LogicalName_new(file.at[at]);
}

/* file::held::is_seen_twice. From the last slave to the first: which names the slaves after this one hold,
 * 0xFF left out. */
static inline _Bool file_held_is_seen_twice(slice_u8 file, const uint16_t *places)
{
    _Bool seen[256];
    memset(seen, 0, sizeof seen);
    uint64_t slave = file_readers_slave_count(file);
    while (0 < slave) {
        slave = slave - 1;
        file_types_LogicalName name = file_readers_logical_name(file, places, slave);
        uint64_t mark = (uint64_t)name.f0;
        if (seen[mark]) {
            return 1;
        }
        seen[mark] = name.f0 != 255;
    }
    return 0;
}

/* file::held::is_held_twice. Fewer than two slaves are not looked at, and two are compared without the
 * marks. */
static inline _Bool file_held_is_held_twice(slice_u8 file, const uint16_t *places)
{
    uint64_t count = file_readers_slave_count(file);
    if (count < 2) {
        return 0;
    }
    if (2 < count) {
        return file_held_is_seen_twice(file, places);
    }
    file_types_LogicalName first = file_readers_logical_name(file, places, 0);
    if (first.f0 == 255) {
        return 0;
    }
    file_types_LogicalName second = file_readers_logical_name(file, places, 1);
    return first.f0 == second.f0;
}

/* file::survey::check. The checker's call: a file from outside is accepted, or refused by the first of its
 * grounds that holds. */
static inline Result_unit_file_types_Refusal file_survey_check(slice_u8 file)
{
    uint16_t places[130];
    memset(places, 0, sizeof places);
    Result_unit_file_types_Refusal t6 = file_survey_survey(file, places);
    if (t6.tag != 0) {
        return (Result_unit_file_types_Refusal){.tag = 1, .as.Err.f0 = t6.as.Err.f0};
    }
    if (file_held_is_held_twice(file, places)) {
        return (Result_unit_file_types_Refusal){.tag = 1, .as.Err.f0 = (file_types_Refusal){.tag = 21}};
    }
    return (Result_unit_file_types_Refusal){.tag = 0};
}

/* file::types::Refusal::number. "A refusal returns its number". */
static inline uint8_t file_types_Refusal_number(file_types_Refusal self)
{
    return (uint8_t)(self.tag + 1);
}

/* ttpa::ttpa_check. */
uint8_t ttpa_check(const uint8_t *file_at, size_t file_len)
{
    slice_u8 file = {file_at, file_len};
    Result_unit_file_types_Refusal t2 = file_survey_check(file);
    switch (t2.tag) {
    case 0:
        return 0;
    case 1:
    default:
        return file_types_Refusal_number(t2.as.Err.f0);
    }
}

/* file::records::search_directory. What a directory states for a file number. */
static inline Option_file_records_FileBytes file_records_search_directory(slice_u8 file, uint64_t width,
        uint64_t directory, uint64_t count, uint64_t number)
{
    uint64_t entry_size = 2 * width;
    uint64_t end = directory + entry_size * count;
    uint64_t entry = directory;
    while (entry < end) {
        if (file_numbers_byte_at(file, entry) == number) {
            uint64_t last = file_numbers_byte_at(file, entry + 1);
            uint64_t place = file_numbers_offset_at(file, width, entry + width);
            uint64_t size = 4 * (last + 1);
            return (Option_file_records_FileBytes){.tag = 1, .as.Some.f0 = (file_records_FileBytes){.place =
                    place, .size = size}};
        }
        entry = entry + entry_size;
    }
    return (Option_file_records_FileBytes){.tag = 0};
}

/* file::records::find_file_at<4>. Where a slave keeps a file, or that it has none, in an edition: the
 * compiler writes the search once for each width, with its numbers, since a round asks it of every slave. */
static inline Option_file_records_FileBytes file_records_find_file_at_4(slice_u8 file, uint64_t slave,
        file_types_FileNumber number)
{
    uint64_t table = 8 + UINT64_C(4) * UINT64_C(4);
    uint64_t size = UINT64_C(2) * UINT64_C(4);
    uint64_t entry = table + size * slave;
    uint64_t directory = file_numbers_offset_at(file, 4, entry);
    uint64_t count = file_numbers_byte_at(file, entry + 4);
    return file_records_search_directory(file, 4, directory, count, (uint64_t)number.f0);
}

/* file::records::find_file_at<2>. Where a slave keeps a file, or that it has none, in an edition: the
 * compiler writes the search once for each width, with its numbers, since a round asks it of every slave. */
static inline Option_file_records_FileBytes file_records_find_file_at_2(slice_u8 file, uint64_t slave,
        file_types_FileNumber number)
{
    uint64_t table = 8 + UINT64_C(4) * UINT64_C(2);
    uint64_t size = UINT64_C(2) * UINT64_C(2);
    uint64_t entry = table + size * slave;
    uint64_t directory = file_numbers_offset_at(file, 2, entry);
    uint64_t count = file_numbers_byte_at(file, entry + 2);
    return file_records_search_directory(file, 2, directory, count, (uint64_t)number.f0);
}

/* file::records::find_file. */
static inline Option_file_records_FileBytes file_records_find_file(slice_u8 file, uint64_t slave,
        file_types_FileNumber number)
{
    if (file.at[2] == 2) {
        return file_records_find_file_at_4(file, slave, number);
    }
    return file_records_find_file_at_2(file, slave, number);
}

/* file::copying::copy. A part copied to the front of a buffer that has room for it; what is behind it stays.
 * How many bytes it has. The loop is compiled to moves of many bytes. */
static inline uint64_t file_copying_copy(slice_u8 part, slice_mut_u8 buffer)
{
    uint64_t done = 0;
    uint64_t t4 = part.len;
    while (done < t4) {
        buffer.at[done] = part.at[done];
        done = done + 1;
    }
    return part.len;
}

/* contents::read::put_front. The first bytes of a part of the file, as many as the buffer has room for, put
 * in front of whatever else it holds. */
static inline void contents_read_put_front(slice_u8 file, uint64_t place, uint64_t size, slice_mut_u8 buffer)
{
    uint64_t t7 = buffer.len;
    uint64_t t6;
    if (t7 < size) {
        t6 = t7;
    } else {
        t6 = size;
    }
    uint64_t end = place + t6;
    t6 = file_copying_copy((slice_u8){cut_u8(file.at, place), end - place}, buffer);
}

/* contents::read::read_contents. A file of the slave at a place of the table: the cluster file is refused by
 * its number, with the buffer as it was, or the buffer has in front as many of the file's bytes as it has
 * room for, and the answer is how many bytes the file has, none where there is no such slave or file. The
 * cluster file is checked once and not altered. */
static inline Result_u64_file_types_Refusal contents_read_read_contents(slice_u8 file, uint64_t slave,
        file_types_FileNumber number, slice_mut_u8 buffer)
{
    uint16_t places[130];
    memset(places, 0, sizeof places);
    Result_unit_file_types_Refusal t10 = file_survey_survey(file, places);
    if (t10.tag != 0) {
        return (Result_u64_file_types_Refusal){.tag = 1, .as.Err.f0 = t10.as.Err.f0};
    }
    if (file_readers_slave_count(file) <= slave) {
        return (Result_u64_file_types_Refusal){.tag = 0, .as.Ok.f0 = 0};
    }
    Option_file_records_FileBytes t14 = file_records_find_file(file, slave, number);
    file_records_FileBytes bytes;
    switch (t14.tag) {
    case 1:
        bytes = t14.as.Some.f0;
        break;
    case 0:
    default:
        return (Result_u64_file_types_Refusal){.tag = 0, .as.Ok.f0 = 0};
    }
    contents_read_put_front(file, bytes.place, bytes.size, buffer);
    return (Result_u64_file_types_Refusal){.tag = 0, .as.Ok.f0 = bytes.size};
}

/* ttpa::ttpa_contents. */
uint8_t ttpa_contents(const uint8_t *file_at, size_t file_len, uint64_t slave, uint8_t number,
        uint8_t *buffer_at, size_t buffer_len, uint64_t *length)
{
    slice_u8 file = {file_at, file_len};
    slice_mut_u8 buffer = {buffer_at, buffer_len};
    Result_u64_file_types_Refusal t7 = contents_read_read_contents(file, slave,
            (file_types_FileNumber){.f0 = number}, buffer);
    Result_u64_file_types_Refusal t38;
    if (t7.tag != 0) {
        t38 = (Result_u64_file_types_Refusal){.tag = 1, .as.Err.f0 = t7.as.Err.f0};
    } else {
        t38 = (Result_u64_file_types_Refusal){.tag = 0, .as.Ok.f0 = t7.as.Ok.f0};
    }
    switch (t38.tag) {
    case 1:
        return file_types_Refusal_number(t38.as.Err.f0);
    case 0:
    default:
        *length = t38.as.Ok.f0;
        return 0;
    }
}

/* file::readers::logical_names. Each slave's logical name, in the order of the slave table, put in front of
 * whatever else the lent slice holds. */
static inline void file_readers_logical_names(slice_u8 file, const uint16_t *places, slice_mut_u8 names)
{
    uint64_t count = file_readers_slave_count(file);
    uint64_t slave = 0;
    while (slave < count) {
        file_types_LogicalName name = file_readers_logical_name(file, places, slave);
        names.at[slave] = name.f0;
        slave = slave + 1;
    }
}

/* summary::fill::fill. A file is refused, or its slaves' names are filled in, with how many there are. */
static inline Result_u64_file_types_Refusal summary_fill_fill(slice_u8 file, slice_mut_u8 held)
{
    uint16_t places[130];
    memset(places, 0, sizeof places);
    Result_unit_file_types_Refusal t8 = file_survey_survey(file, places);
    if (t8.tag != 0) {
        return (Result_u64_file_types_Refusal){.tag = 1, .as.Err.f0 = t8.as.Err.f0};
    }
    uint64_t count = file_readers_slave_count(file);
    if (held.len < count) {
        return (Result_u64_file_types_Refusal){.tag = 1, .as.Err.f0 = (file_types_Refusal){.tag = 23}};
    }
    file_readers_logical_names(file, places, held);
    return (Result_u64_file_types_Refusal){.tag = 0, .as.Ok.f0 = count};
}

/* ttpa::ttpa_fill. */
uint8_t ttpa_fill(const uint8_t *file_at, size_t file_len, uint8_t *held_at, size_t held_len, uint64_t *count)
{
    slice_u8 file = {file_at, file_len};
    slice_mut_u8 held = {held_at, held_len};
    Result_u64_file_types_Refusal t5 = summary_fill_fill(file, held);
    Result_u64_file_types_Refusal t34;
    if (t5.tag != 0) {
        t34 = (Result_u64_file_types_Refusal){.tag = 1, .as.Err.f0 = t5.as.Err.f0};
    } else {
        t34 = (Result_u64_file_types_Refusal){.tag = 0, .as.Ok.f0 = t5.as.Ok.f0};
    }
    switch (t34.tag) {
    case 1:
        return file_types_Refusal_number(t34.as.Err.f0);
    case 0:
    default:
        *count = t34.as.Ok.f0;
        return 0;
    }
}

/* summary::holder::find_holder. The place in the slave table of the first slave that holds the name, or none
 * where nobody does. The C interface hands in slice and count apart. */
static inline Result_Option_u64_file_types_Refusal summary_holder_find_holder(slice_u8 held, uint64_t count,
        file_types_LogicalName name)
{
    file_types_LogicalName place = name;
    if (held.len < count) {
        return (Result_Option_u64_file_types_Refusal){.tag = 1, .as.Err.f0 = (file_types_Refusal){.tag = 23}};
    }
    uint64_t t5 = 0;
    while (t5 < count) {
        if (held.at[t5] == place.f0) {
            return (Result_Option_u64_file_types_Refusal){.tag = 0, .as.Ok.f0 = (Option_u64){.tag = 1,
                    .as.Some.f0 = t5}};
        }
        t5 = t5 + 1;
    }
    return (Result_Option_u64_file_types_Refusal){.tag = 0, .as.Ok.f0 = (Option_u64){.tag = 0}};
}

/* ttpa::ttpa_holder. */
uint8_t ttpa_holder(const uint8_t *held_at, size_t held_len, uint64_t count, uint8_t name, uint64_t *place)
{
    slice_u8 held = {held_at, held_len};
    Result_Option_u64_file_types_Refusal t8 = summary_holder_find_holder(held, count,
            file_types_LogicalName_new(name));
    switch (t8.tag) {
    case 1: {
        file_types_Refusal why = t8.as.Err.f0;
        return file_types_Refusal_number(why);
    }
    case 0:
    default: {
        Option_u64 found = t8.as.Ok.f0;
        uint8_t t12;
        switch (found.tag) {
        case 1: {
            uint64_t at = found.as.Some.f0;
            *place = at;
            t12 = 0;
            break;
        }
        case 0:
        default:
            *place = UINT64_C(0xFFFFFFFFFFFFFFFF);
            t12 = 0;
            break;
        }
        return t12;
    }
    }
}

/* file::readers::physical_name. A slave's physical name. */
static inline uint64_t file_readers_physical_name(slice_u8 file, const uint16_t *places, uint64_t slave)
{
    uint64_t place = (uint64_t)places[2 * slave + 1];
    return file_numbers_u64_at(file, place + 4);
}

/* join::names::mark_remainders. Marks the remainders of their physical names. The two functions differ in
 * the reader that they call: one for both would take a closure, and be longer than either. */
static inline void join_names_mark_remainders(slice_u8 file, const uint16_t *places, _Bool *seen)
{
    uint64_t slave = file_readers_slave_count(file);
    while (0 < slave) {
        slave = slave - 1;
        uint64_t name = file_readers_physical_name(file, places, slave);
        seen[name % 256] = 1;
    }
}

/* file::names::is_named_again. Whether one has a name whose remainder may be new: then none has it. */
static inline _Bool file_names_is_named_again(slice_u8 file, slice_u16 places, uint64_t name, _Bool seen)
{
    if (!seen) {
        return 0;
    }
    return file_names_is_named_from(file, places, 0, name);
}

/* join::names::is_any_named. Whether a slave of the second file has the physical name of one of the first:
 * it is compared with theirs only where its remainder is not new. */
static inline _Bool join_names_is_any_named(slice_u8 first, slice_u16 first_places, slice_u8 second,
        const uint16_t *second_places, const _Bool *seen)
{
    uint64_t t11 = 2 * file_readers_slave_count(first);
    slice_u16 stated = (slice_u16){first_places.at, t11};
    uint64_t slave = 0;
    uint64_t t13 = file_readers_slave_count(second);
    while (slave < t13) {
        uint64_t name = file_readers_physical_name(second, second_places, slave);
        uint64_t remainder = name % 256;
        if (file_names_is_named_again(first, stated, name, seen[remainder])) {
            return 1;
        }
        slave = slave + 1;
    }
    return 0;
}

/* join::names::shares_name. Ground 29: "a physical name in both files". */
static inline _Bool join_names_shares_name(slice_u8 first, const uint16_t *first_places, slice_u8 second,
        const uint16_t *second_places)
{
    _Bool seen[256];
    memset(seen, 0, sizeof seen);
    join_names_mark_remainders(first, first_places, seen);
    return join_names_is_any_named(first, (slice_u16){first_places, 130}, second, second_places, seen);
}

/* convert::sizes::files_in. How many files all its slaves have. The loop goes from file count to file count
 * in the table: the compiler unrolls one that counts the slaves, and not this one, whose step is known at
 * run time only. A `while`: `step_by` compares twice for each slave, eight instructions in place of five. */
static inline uint64_t convert_sizes_files_in(slice_u8 file, uint64_t own)
{
    uint64_t size = 2 * own;
    uint64_t place = 8 + 4 * own + own;
    uint64_t end = place + size * file_readers_slave_count(file);
    uint64_t files = 0;
    while (place < end) {
        files = files + file_numbers_byte_at(file, place);
        place = place + size;
    }
    return files;
}

/* convert::sizes::length_in. The length of the file's form at that width: its own, or with header and
 * entries of the other size. */
static inline uint64_t convert_sizes_length_in(slice_u8 file, uint64_t width)
{
    uint64_t own = file_readers_width_of(file);
    if (width == own) {
        return file.len;
    }
    uint64_t t8 = file_readers_slave_count(file);
    uint64_t entries = t8 + convert_sizes_files_in(file, own);
    uint64_t front = 8 + 4 * own + (2 * own) * entries;
    uint64_t contents = file.len - front;
    return contents + (8 + 4 * width + (2 * width) * entries);
}

/* convert::convert::is_over. Whether a form of so many slaves and of that length exceeds the limits of its
 * width: "the limits are 64 slaves and 65,536 bytes". */
static inline _Bool convert_convert_is_over(uint64_t width, uint64_t count, uint64_t size)
{
    _Bool t4 = 16 * width < count;
    if (!t4) {
        t4 = 16384 * width < size;
    }
    return t4;
}

/* join::names::mark_names. Marks the logical names that a file's slaves hold, 0x00 and 0xFF among them. */
static inline void join_names_mark_names(slice_u8 file, const uint16_t *places, _Bool *held)
{
    uint64_t slave = file_readers_slave_count(file);
    while (0 < slave) {
        slave = slave - 1;
        file_types_LogicalName name = file_readers_logical_name(file, places, slave);
        held[(uint64_t)name.f0] = 1;
    }
}

/* convert::put::put_u16. A number in two bytes, most significant byte first. */
static inline void convert_put_put_u16(slice_mut_u8 out, uint64_t at, uint64_t number)
{
    out.at[at] = (uint8_t)(number / 256);
    out.at[at + 1] = (uint8_t)(number % 256);
}

/* convert::put::put_offset. An offset of that width. */
static inline void convert_put_put_offset(slice_mut_u8 out, uint64_t width, uint64_t at, uint64_t offset)
{
    if (width == 2) {
        convert_put_put_u16(out, at, offset);
    } else {
        convert_put_put_u16(out, at, offset / 65536);
        convert_put_put_u16(out, at + 2, offset % 65536);
    }
}

/* convert::header::put_front. Its front: "the mark", "the edition", "the slave count", "the offset of the
 * slave table", "the file's length". */
static inline void convert_header_put_front(slice_mut_u8 out, uint64_t width, uint64_t count, uint64_t size)
{
    out.at[0] = 84;
    out.at[1] = 65;
    out.at[2] = (uint8_t)(width / 2);
    out.at[3] = (uint8_t)count;
    convert_put_put_offset(out, width, 4, 8 + 4 * width);
    convert_put_put_offset(out, width, 4 + width, size);
}

/* convert::put::put_zeros. Zeros. */
static inline void convert_put_put_zeros(slice_mut_u8 out, uint64_t at, uint64_t count)
{
    uint64_t done = 0;
    while (done < count) {
        out.at[at + done] = 0;
        done = done + 1;
    }
}

/* join::form::put_joined_header. The header of so many slaves and so many bytes, "with epoch and pending
 * bytes 0". */
static inline void join_form_put_joined_header(slice_mut_u8 out, uint64_t width, uint64_t count, uint64_t size)
{
    convert_header_put_front(out, width, count, size);
    uint64_t fields = 4 + 2 * width;
    convert_put_put_zeros(out, fields, 5 + 2 * width - 1);
}

/* convert::put::put_run. The bytes of a file from one place up to another. */
static inline void convert_put_put_run(slice_mut_u8 out, uint64_t at, slice_u8 file, uint64_t start,
        uint64_t end)
{
    uint64_t behind = at + (end - start);
    (void)file_copying_copy((slice_u8){cut_u8(file.at, start), end - start}, (slice_mut_u8){cut_mut_u8(out.at,
            at), behind - at});
}

/* convert::sizes::file_count. How many files a slave of a file has, whose offsets have that width. File,
 * width and slave stay three parameters: the loops over the slaves have the first two once and the third
 * anew in each turn. */
static inline uint64_t convert_sizes_file_count(slice_u8 file, uint64_t own, uint64_t slave)
{
    uint64_t table = 8 + 4 * own;
    return file_numbers_byte_at(file, table + (2 * own) * slave + own);
}

/* convert::put::put_fill. The zeros that fill an entry up: none in edition 1, two in edition 2. Two stores,
 * where a loop of that length is compiled to a call. */
static inline void convert_put_put_fill(slice_mut_u8 out, uint64_t width, uint64_t at)
{
    if (width == 2) {
        return;
    }
    convert_put_put_u16(out, at, 0);
}

/* convert::directory::put_directory_entry. A directory entry: "file number", "record count", the zeros that
 * fill its first half up, "offset". The offset is put first: behind the other bytes its four stores are not
 * compiled to one. */
static inline void convert_directory_put_directory_entry(slice_mut_u8 out, uint64_t width, uint64_t at,
        uint64_t place, uint8_t number, uint8_t last)
{
    convert_put_put_offset(out, width, at + width, place);
    out.at[at] = number;
    out.at[at + 1] = last;
    convert_put_put_fill(out, width, at + 2);
}

/* convert::directory::put_directory. The directory of a slave of a file, put from a place on; its files lie
 * behind it, up to the place that is returned. `own` is the width of the file's offsets, and the slave
 * starts at `start` in the file. */
static inline uint64_t convert_directory_put_directory(slice_mut_u8 out, uint64_t width, uint64_t at,
        slice_u8 file, uint64_t own, uint64_t slave, uint64_t start)
{
    uint64_t count = convert_sizes_file_count(file, own, slave);
    uint64_t from = 2 * own;
    uint64_t size = 2 * width;
    uint64_t entry = start;
    uint64_t to = at;
    uint64_t place = at + size * count;
    uint64_t last = 0;
    while (last < count) {
        uint8_t t15 = file.at[entry + 1];
        convert_directory_put_directory_entry(out, width, to, place, file.at[entry], t15);
        place = place + 4 * ((uint64_t)t15 + 1);
        entry = entry + from;
        to = to + size;
        last = last + 1;
    }
    return place;
}

/* convert::table::put_table_entry. A table entry: "directory offset", "file count", "sleep byte", and the
 * zeros that fill it up. */
static inline void convert_table_put_table_entry(slice_mut_u8 out, uint64_t width, uint64_t at, uint64_t place,
        uint8_t count, uint8_t asleep)
{
    convert_put_put_offset(out, width, at, place);
    uint64_t behind = at + width;
    out.at[behind] = count;
    out.at[behind + 1] = asleep;
    convert_put_put_fill(out, width, behind + 2);
}

/* convert::slaves::put_moved_at<2>. The table of a file's slaves at its own width, all awake, and their
 * directories, over those of slaves that were copied to a place. */
static inline void convert_slaves_put_moved_at_2(slice_mut_u8 out, uint64_t at, uint64_t place, slice_u8 file)
{
    uint64_t count = file_readers_slave_count(file);
    uint64_t entry = at;
    uint64_t start = 8 + UINT64_C(4) * UINT64_C(2) + (UINT64_C(2) * UINT64_C(2)) * count;
    uint64_t to = place;
    uint64_t slave = 0;
    while (slave < count) {
        uint8_t files = (uint8_t)convert_sizes_file_count(file, 2, slave);
        uint64_t end = convert_directory_put_directory(out, 2, to, file, 2, slave, start);
        convert_table_put_table_entry(out, 2, entry, to, files, 0);
        entry = entry + UINT64_C(2) * UINT64_C(2);
        start = start + (end - to);
        to = end;
        slave = slave + 1;
    }
}

/* convert::slaves::put_moved_at<4>. The table of a file's slaves at its own width, all awake, and their
 * directories, over those of slaves that were copied to a place. */
static inline void convert_slaves_put_moved_at_4(slice_mut_u8 out, uint64_t at, uint64_t place, slice_u8 file)
{
    uint64_t count = file_readers_slave_count(file);
    uint64_t entry = at;
    uint64_t start = 8 + UINT64_C(4) * UINT64_C(4) + (UINT64_C(2) * UINT64_C(4)) * count;
    uint64_t to = place;
    uint64_t slave = 0;
    while (slave < count) {
        uint8_t files = (uint8_t)convert_sizes_file_count(file, 4, slave);
        uint64_t end = convert_directory_put_directory(out, 4, to, file, 4, slave, start);
        convert_table_put_table_entry(out, 4, entry, to, files, 0);
        entry = entry + UINT64_C(2) * UINT64_C(4);
        start = start + (end - to);
        to = end;
        slave = slave + 1;
    }
}

/* convert::slaves::put_moved. The table and the slaves at the file's own width, all awake: the slaves are
 * copied at once, then their directories are put over the copied ones. That loop is written once for each
 * edition, with its numbers; the copy stands before the choice, where it is compiled once. */
static inline void convert_slaves_put_moved(slice_mut_u8 out, uint64_t width, uint64_t at, uint64_t place,
        slice_u8 file)
{
    uint64_t body = 8 + 4 * width + (2 * width) * file_readers_slave_count(file);
    convert_put_put_run(out, place, file, body, file.len);
    if (width == 2) {
        convert_slaves_put_moved_at_2(out, at, place, file);
        return;
    }
    convert_slaves_put_moved_at_4(out, at, place, file);
}

/* convert::table::listed_sleep. The sleep byte that a slave of a file is listed with, whose offsets have
 * that width. */
static inline uint8_t convert_table_listed_sleep(slice_u8 file, uint64_t own, uint64_t slave,
        convert_table_SleepBytes sleep)
{
    switch (sleep.tag) {
    case 1:
        return 0;
    case 0:
    default: {
        uint64_t table = 8 + 4 * own;
        return file.at[table + (2 * own) * slave + own + 1];
    }
    }
}

/* convert::slaves::put_slave. A slave of a file, put from a place on: its directory and, behind it, its
 * files, which in both editions lie in one run. */
static inline convert_slaves_SlaveEnds convert_slaves_put_slave(slice_mut_u8 out, uint64_t width, uint64_t at,
        slice_u8 file, uint64_t own, uint64_t slave, uint64_t start)
{
    uint64_t count = convert_sizes_file_count(file, own, slave);
    uint64_t from = start + (2 * own) * count;
    uint64_t files = at + (2 * width) * count;
    uint64_t end = convert_directory_put_directory(out, width, at, file, own, slave, start);
    uint64_t behind = from + (end - files);
    convert_put_put_run(out, files, file, from, behind);
    return (convert_slaves_SlaveEnds){.file = behind, .out = end};
}

/* convert::slaves::put_slaves. The table of a file's slaves from one place on, and the slaves from another
 * on, one behind the other. */
static inline void convert_slaves_put_slaves(slice_mut_u8 out, uint64_t width, uint64_t at, uint64_t place,
        slice_u8 file, convert_table_SleepBytes sleep)
{
    uint64_t own = file_readers_width_of(file);
    uint64_t count = file_readers_slave_count(file);
    uint64_t entry = at;
    uint64_t start = 8 + 4 * own + (2 * own) * count;
    uint64_t to = place;
    uint64_t slave = 0;
    while (slave < count) {
        uint8_t files = (uint8_t)convert_sizes_file_count(file, own, slave);
        uint8_t asleep = convert_table_listed_sleep(file, own, slave, sleep);
        convert_slaves_SlaveEnds ends = convert_slaves_put_slave(out, width, to, file, own, slave, start);
        convert_table_put_table_entry(out, width, entry, to, files, asleep);
        entry = entry + 2 * width;
        start = ends.file;
        to = ends.out;
        slave = slave + 1;
    }
}

/* join::form::put_second. The second file's slaves with their table, all awake, at the first's width. */
static inline void join_form_put_second(slice_mut_u8 out, uint64_t width, uint64_t at, uint64_t place,
        slice_u8 second)
{
    if (width == file_readers_width_of(second)) {
        convert_slaves_put_moved(out, width, at, place, second);
        return;
    }
    convert_slaves_put_slaves(out, width, at, place, second, (convert_table_SleepBytes){.tag = 1});
}

/* join::form::put_both. The table of both files' slaves, all awake, and the slaves of both as they are. The
 * first's form alone has `alone` bytes: the second's slaves begin behind these and its own table entries. */
static inline void join_form_put_both(slice_mut_u8 out, uint64_t width, uint64_t alone, slice_u8 first,
        slice_u8 second)
{
    uint64_t table = 8 + 4 * width;
    uint64_t behind = table + (2 * width) * file_readers_slave_count(first);
    uint64_t more = (2 * width) * file_readers_slave_count(second);
    convert_slaves_put_moved(out, width, table, behind + more, first);
    join_form_put_second(out, width, behind, alone + more, second);
}

/* join::slaves::turn_name. The logical name at a place, where the first file holds it. */
static inline void join_slaves_turn_name(slice_mut_u8 out, uint64_t at, _Bool is_held)
{
    if (!is_held) {
        return;
    }
    out.at[at] = 255;
}

/* join::slaves::turn_names. All the slaves of a file that are put from a place on, by the names that are
 * held. A slave's files lie as far behind those of the slaves before it as in the file, but for the
 * directories: `lost` is where the first slave starts in the file, with the directories up to this slave's
 * at its width, and `gained` the same in the buffer. */
static inline void join_slaves_turn_names(slice_mut_u8 out, uint64_t width, uint64_t at, slice_u8 file,
        const uint16_t *places, const _Bool *held)
{
    uint64_t own = file_readers_width_of(file);
    uint64_t count = file_readers_slave_count(file);
    uint64_t lost = 8 + 4 * own + (2 * own) * count;
    uint64_t gained = at;
    uint64_t slave = 0;
    while (slave < count) {
        uint64_t files = convert_sizes_file_count(file, own, slave);
        lost = lost + (2 * own) * files;
        gained = gained + (2 * width) * files;
        file_types_LogicalName name = file_readers_logical_name(file, places, slave);
        uint64_t place = (uint64_t)places[2 * slave];
        uint64_t to = place + 7 - lost + gained;
        join_slaves_turn_name(out, to, held[(uint64_t)name.f0]);
        slave = slave + 1;
    }
}

/* join::form::put_joined_body. All that stands behind the header: both files, and the second's slaves by the
 * names that the first holds. */
static inline void join_form_put_joined_body(slice_mut_u8 out, uint64_t width, uint64_t alone, slice_u8 first,
        slice_u8 second, const uint16_t *places, const _Bool *held)
{
    join_form_put_both(out, width, alone, first, second);
    uint64_t place = alone + (2 * width) * file_readers_slave_count(second);
    join_slaves_turn_names(out, width, place, second, places, held);
}

/* join::form::write_joined. The two files' join in the first's edition, in front of whatever else the buffer
 * holds: of `size` bytes, the first's form of `alone`. */
static inline void join_form_write_joined(slice_u8 first, const uint16_t *first_places, slice_u8 second,
        const uint16_t *second_places, slice_mut_u8 out, uint64_t alone, uint64_t size)
{
    uint64_t width = file_readers_width_of(first);
    uint64_t t11 = file_readers_slave_count(first);
    uint64_t count = t11 + file_readers_slave_count(second);
    _Bool held[256];
    memset(held, 0, sizeof held);
    join_names_mark_names(first, first_places, held);
    join_form_put_joined_header(out, width, count, size);
    join_form_put_joined_body(out, width, alone, first, second, second_places, held);
}

/* join::join::join_apart. Two accepted files that share no physical name: 30, or their join in the first's
 * edition. */
static inline Result_u64_file_types_Refusal join_join_join_apart(slice_u8 first, const uint16_t *first_places,
        slice_u8 second, const uint16_t *second_places, slice_mut_u8 out)
{
    uint64_t width = file_readers_width_of(first);
    uint64_t alone = convert_sizes_length_in(first, width);
    uint64_t more = convert_sizes_length_in(second, width);
    uint64_t size = alone + more - (8 + 4 * width);
    uint64_t t11 = file_readers_slave_count(first);
    uint64_t count = t11 + file_readers_slave_count(second);
    if (convert_convert_is_over(width, count, size)) {
        return (Result_u64_file_types_Refusal){.tag = 1, .as.Err.f0 = (file_types_Refusal){.tag = 29}};
    }
    if (out.len < size) {
        return (Result_u64_file_types_Refusal){.tag = 1, .as.Err.f0 = (file_types_Refusal){.tag = 29}};
    }
    join_form_write_joined(first, first_places, second, second_places, out, alone, size);
    return (Result_u64_file_types_Refusal){.tag = 0, .as.Ok.f0 = size};
}

/* join::join::join_both. Two accepted files: 29, or the answer to files that share no physical name. */
static inline Result_u64_file_types_Refusal join_join_join_both(slice_u8 first, const uint16_t *first_places,
        slice_u8 second, const uint16_t *second_places, slice_mut_u8 out)
{
    if (join_names_shares_name(first, first_places, second, second_places)) {
        return (Result_u64_file_types_Refusal){.tag = 1, .as.Err.f0 = (file_types_Refusal){.tag = 28}};
    }
    return join_join_join_apart(first, first_places, second, second_places, out);
}

/* join::join::join_second. The first file is accepted: the grounds of the second, or the answer to two
 * accepted files. */
static inline Result_u64_file_types_Refusal join_join_join_second(slice_u8 first, const uint16_t *first_places,
        slice_u8 second, slice_mut_u8 out)
{
    uint16_t places[130];
    memset(places, 0, sizeof places);
    Result_unit_file_types_Refusal t9 = file_survey_survey(second, places);
    if (t9.tag != 0) {
        return (Result_u64_file_types_Refusal){.tag = 1, .as.Err.f0 = t9.as.Err.f0};
    }
    return join_join_join_both(first, first_places, second, places, out);
}

/* join::join::join. The two files joined, written into the buffer: refused by its number, with the buffer as
 * it was, or written, with how many bytes it has. Each file is checked once, and the files of its slaves are
 * copied once. */
static inline Result_u64_file_types_Refusal join_join_join(slice_u8 first, slice_u8 second, slice_mut_u8 out)
{
    uint16_t places[130];
    memset(places, 0, sizeof places);
    Result_unit_file_types_Refusal t8 = file_survey_survey(first, places);
    if (t8.tag != 0) {
        return (Result_u64_file_types_Refusal){.tag = 1, .as.Err.f0 = t8.as.Err.f0};
    }
    return join_join_join_second(first, places, second, out);
}

/* ttpa::ttpa_join. Two files joined: the number, and the joined file's length in the lent word. */
uint8_t ttpa_join(const uint8_t *first_at, size_t first_len, const uint8_t *second_at, size_t second_len,
        uint8_t *out_at, size_t out_len, uint64_t *length)
{
    slice_u8 first = {first_at, first_len};
    slice_u8 second = {second_at, second_len};
    slice_mut_u8 out = {out_at, out_len};
    Result_u64_file_types_Refusal t6 = join_join_join(first, second, out);
    Result_u64_file_types_Refusal t35;
    if (t6.tag != 0) {
        t35 = (Result_u64_file_types_Refusal){.tag = 1, .as.Err.f0 = t6.as.Err.f0};
    } else {
        t35 = (Result_u64_file_types_Refusal){.tag = 0, .as.Ok.f0 = t6.as.Ok.f0};
    }
    switch (t35.tag) {
    case 1:
        return file_types_Refusal_number(t35.as.Err.f0);
    case 0:
    default:
        *length = t35.as.Ok.f0;
        return 0;
    }
}

/* owner::held::mark_rounds. The numbers below 8 of a directory's files, a bit each. A `while`: `step_by`
 * compares twice for each entry, seven instructions in place of five. */
static inline uint8_t owner_held_mark_rounds(slice_u8 file, uint64_t width, uint64_t directory, uint64_t count)
{
    uint64_t entry_size = 2 * width;
    uint64_t end = directory + entry_size * count;
    uint64_t marks = 0;
    uint64_t entry = directory;
    while (entry < end) {
        uint64_t number = file_numbers_byte_at(file, entry) % 64;
        marks = marks | (UINT64_C(1) << number);
        entry = entry + entry_size;
    }
    return (uint8_t)(marks % 256);
}

/* owner::held::rounds_held. The rounds that a slave has a file for, a bit each. */
static inline uint8_t owner_held_rounds_held(slice_u8 file, uint64_t width, uint64_t slave)
{
    uint64_t table = 8 + 4 * width;
    uint64_t size = 2 * width;
    uint64_t entry = table + size * slave;
    uint64_t directory = file_numbers_offset_at(file, width, entry);
    uint64_t count = file_numbers_byte_at(file, entry + width);
    return owner_held_mark_rounds(file, width, directory, count);
}

/* owner::held::all_held. Those of every slave: each directory is read once for all rounds. */
static inline void owner_held_all_held(slice_u8 file, slice_mut_u8 held)
{
    uint64_t width = file_readers_width_of(file);
    uint64_t slave = 0;
    uint64_t t5 = file_readers_slave_count(file);
    while (slave < t5) {
        uint8_t t7 = owner_held_rounds_held(file, width, slave);
        held.at[slave] = t7;
        slave = slave + 1;
    }
}

/* owner::rounds::is_owned. "For each of rounds 0, 2, 3, 4, 6 and 7". */
static inline _Bool owner_rounds_is_owned(uint64_t round)
{
    _Bool t2 = round != 1;
    if (t2) {
        t2 = round != 5;
    }
    return t2;
}

/* owner::rounds::index_byte. A round's index byte, by how many bytes the rows before it have. That of rounds
 * 1 and 5 is 0x00. */
static inline uint8_t owner_rounds_index_byte(uint64_t round, uint64_t start)
{
    if (!owner_rounds_is_owned(round)) {
        return 0;
    }
    return (uint8_t)(3 + start / 4);
}

/* multipartner::round_files::planned_file. The entries planned for a slave, awake or asleep. */
static inline multipartner_round_files_RoundFile multipartner_round_files_planned_file(slice_u8 file,
        const uint16_t *places, uint64_t slave, file_types_FileNumber round)
{
    file_types_LogicalName name = file_readers_logical_name(file, places, slave);
    if (name.f0 == 255) {
        return (multipartner_round_files_RoundFile){.start = 0, .end = 0};
    }
    Option_file_records_FileBytes found = file_records_find_file(file, slave, round);
    file_records_FileBytes bytes;
    switch (found.tag) {
    case 1:
        bytes = found.as.Some.f0;
        break;
    case 0:
    default:
        return (multipartner_round_files_RoundFile){.start = 0, .end = 0};
    }
    return (multipartner_round_files_RoundFile){.start = bytes.place + 4, .end = bytes.place + bytes.size};
}

/* owner::entries::is_single. By byte 2: one slot, neither multiplexed nor an end. The byte's halves
 * exchanged, one comparison tells. */
static inline _Bool owner_entries_is_single(uint8_t kind)
{
    return (uint8_t)((uint8_t)((uint8_t)(kind % 16) * 16) + (uint8_t)(kind / 16)) < 6;
}

/* owner::entries::is_plain_send. Of the operations that are not multiplexed. */
static inline _Bool owner_entries_is_plain_send(uint8_t operation)
{
    _Bool t2 = operation == 1;
    if (!t2) {
        t2 = operation == 5;
    }
    return t2;
}

/* owner::entries::file_size. How many bytes a slave's file has, 0 where there is none. */
static inline uint64_t owner_entries_file_size(slice_u8 file, uint64_t slave, file_types_FileNumber number)
{
    Option_file_records_FileBytes found = file_records_find_file(file, slave, number);
    switch (found.tag) {
    case 1: {
        file_records_FileBytes bytes = found.as.Some.f0;
        return bytes.size;
    }
    case 0:
    default:
        return 0;
    }
}

/* owner::entries::known_size. The same: the size of the file that was looked for last is known. */
static inline uint64_t owner_entries_known_size(slice_u8 file, uint64_t slave, file_types_FileNumber number,
        owner_entries_SlavePlan plan)
{
    if (plan.number.f0 == number.f0) {
        return plan.size;
    }
    return owner_entries_file_size(file, slave, number);
}

/* owner::entries::first_byte. The byte of its file that an entry's first slot is about. */
static inline uint64_t owner_entries_first_byte(slice_u8 file, uint64_t at)
{
    uint64_t record = file_numbers_byte_at(file, at + 1);
    uint64_t t5 = file_numbers_byte_at(file, at);
    uint64_t align = t5 % UINT64_C(4);
    return 4 * record + align;
}

/* owner::entries::with_slot. An entry of one slot, neither multiplexed nor an end, as most are. Where its
 * slot is hidden, nothing more is read of it. */
static inline owner_entries_SlavePlan owner_entries_with_slot(slice_u8 file, uint64_t slave, uint64_t at,
        owner_entries_SlavePlan plan)
{
    uint64_t start = (uint64_t)(uint8_t)(file.at[at + 3] % 64);
    if ((plan.hidden >> start) % 2 == 1) {
        return plan;
    }
    uint64_t slot = UINT64_C(1) << start;
    owner_entries_SlavePlan next = plan;
    next.hidden = plan.hidden | slot;
    if (!owner_entries_is_plain_send((uint8_t)(file.at[at + 2] / 16))) {
        return next;
    }
    file_types_FileNumber number = (file_types_FileNumber){.f0 = (uint8_t)(file.at[at] / 4)};
    uint64_t size = owner_entries_known_size(file, slave, number, plan);
    next.number = number;
    next.size = size;
    if (size <= owner_entries_first_byte(file, at)) {
        return next;
    }
    next.sends = plan.sends | slot;
    return next;
}

/* owner::entries::is_end. */
static inline _Bool owner_entries_is_end(uint8_t kind)
{
    uint8_t operation = (uint8_t)(kind / 16);
    _Bool t3 = operation == 6;
    if (!t3) {
        t3 = operation == 7;
    }
    return t3;
}

/* owner::masks::slots_from. So many slots from a start on; those past 63 are cut. */
static inline uint64_t owner_masks_slots_from(uint64_t start, uint64_t length)
{
    return ((UINT64_C(1) << length) - 1) << start;
}

/* owner::entries::is_send. */
static inline _Bool owner_entries_is_send(uint8_t operation)
{
    if (8 <= operation) {
        return (uint8_t)(operation % 2) == 1;
    }
    return owner_entries_is_plain_send(operation);
}

/* owner::entries::sending_slots. The slots in which a send would send a byte, if it acted there: as far as
 * its file has bytes for them. */
static inline uint64_t owner_entries_sending_slots(slice_u8 file, uint64_t slave, uint64_t at)
{
    uint64_t start = (uint64_t)(uint8_t)(file.at[at + 3] % 64);
    uint64_t length = (uint64_t)(uint8_t)(file.at[at + 2] % 16) + 1;
    uint64_t size = owner_entries_file_size(file, slave, (file_types_FileNumber){.f0 = (uint8_t)(file.at[at] /
            4)});
    uint64_t first = owner_entries_first_byte(file, at);
    if (size <= first) {
        return 0;
    }
    if (size - first < length) {
        return owner_masks_slots_from(start, size - first);
    }
    return owner_masks_slots_from(start, length);
}

/* owner::entries::with_slots. Any other entry. A multiplexed receive is passed over. */
static inline owner_entries_SlavePlan owner_entries_with_slots(slice_u8 file, uint64_t slave, uint64_t at,
        owner_entries_SlavePlan plan)
{
    uint8_t kind = file.at[at + 2];
    uint8_t operation = (uint8_t)(kind / 16);
    _Bool multiplexed = 8 <= operation;
    uint64_t start = (uint64_t)(uint8_t)(file.at[at + 3] % 64);
    uint64_t slots = owner_masks_slots_from(start, (uint64_t)(uint8_t)(kind % 16) + 1);
    uint64_t hidden = plan.hidden | slots;
    owner_entries_SlavePlan next = plan;
    if (owner_entries_is_send(operation)) {
        uint64_t sending = owner_entries_sending_slots(file, slave, at);
        next.hidden = hidden;
        next.sends = plan.sends | (sending & (plan.hidden ^ UINT64_C(0xFFFFFFFFFFFFFFFF)));
        next.multiplexed = (_Bool)(plan.multiplexed | multiplexed);
        return next;
    }
    if (multiplexed) {
        return plan;
    }
    next.hidden = hidden;
    return next;
}

/* owner::plan::Planner::plan_slave. Its entries are read once, first to last: a slot that an earlier one
 * covers is hidden from a later one, so the entry that finds its slot free is the one that acts there. An
 * entry that is passed over hides no slot. A `while`: `step_by` compares twice for each entry, with four
 * instructions more. */
static inline owner_entries_SlavePlan owner_plan_Planner_plan_slave(const owner_plan_Planner *self,
        uint64_t slave, file_types_FileNumber round)
{
    slice_u8 file = self->file;
    multipartner_round_files_RoundFile found = multipartner_round_files_planned_file(file, self->places, slave,
            round);
    uint64_t end = found.end;
    owner_entries_SlavePlan plan = (owner_entries_SlavePlan){.hidden = 1, .sends = 0, .multiplexed = 0,
            .number = (file_types_FileNumber){.f0 = 255}, .size = 0};
    uint64_t at = found.start;
    while (at < end) {
        uint8_t kind = file.at[at + 2];
        if (owner_entries_is_single(kind)) {
            plan = owner_entries_with_slot(file, slave, at, plan);
        } else {
            if (owner_entries_is_end(kind)) {
                return plan;
            }
            plan = owner_entries_with_slots(file, slave, at, plan);
        }
        at = at + 4;
    }
    return plan;
}

/* owner::plan::put_name. A name put into a row at every slot of a mask: a turn for each bit that is set,
 * where a `for` over the slots has 64. */
static inline void owner_plan_put_name(slice_mut_u8 row, uint64_t mask, file_types_LogicalName name)
{
    uint64_t rest = mask;
    while (rest != 0) {
        uint64_t slot = (uint64_t)trailing_zeros(rest);
        row.at[slot] = name.f0;
        rest = rest & (rest - 1);
    }
}

/* owner::plan::Planner::add_slave. One slave more. Its name is put where it sends and none before it does. */
static inline owner_plan_RoundPlan owner_plan_Planner_add_slave(const owner_plan_Planner *self, uint64_t slave,
        file_types_FileNumber round, owner_plan_RoundPlan before, slice_mut_u8 row)
{
    owner_entries_SlavePlan plan = owner_plan_Planner_plan_slave(self, slave, round);
    uint64_t sends = plan.sends;
    file_types_LogicalName name = file_readers_logical_name(self->file, self->places, slave);
    owner_plan_put_name(row, sends & (before.senders ^ UINT64_C(0xFFFFFFFFFFFFFFFF)), name);
    return (owner_plan_RoundPlan){.senders = before.senders | sends,
            .clashes = before.clashes | (before.senders & sends),
            .multiplexed = (_Bool)(before.multiplexed | plan.multiplexed)};
}

/* owner::plan::Planner::plan_round. A round's owners put into a row of zeros. A slave without a file for the
 * round sends nothing. */
static inline owner_plan_RoundPlan owner_plan_Planner_plan_round(const owner_plan_Planner *self,
        file_types_FileNumber round, slice_mut_u8 row)
{
    uint64_t count = file_readers_slave_count(self->file);
    owner_plan_RoundPlan plan = (owner_plan_RoundPlan){.senders = 0, .clashes = 0, .multiplexed = 0};
    row.at[0] = self->master.f0;
    uint64_t slave = 0;
    while (slave < count) {
        if ((uint8_t)((uint8_t)(self->held.at[slave] >> round.f0) % 2) == 1) {
            plan = owner_plan_Planner_add_slave(self, slave, round, plan, row);
        }
        slave = slave + 1;
    }
    return plan;
}

/* owner::masks::last_slot. The last slot of a mask, 0 where it has none. */
static inline uint64_t owner_masks_last_slot(uint64_t mask)
{
    if (mask == 0) {
        return 0;
    }
    return (uint64_t)(63 - leading_zeros(mask));
}

/* owner::plan::Planner::write_row. */
static inline owner_rounds_Rows owner_plan_Planner_write_row(const owner_plan_Planner *t1,
        file_types_FileNumber t2, slice_mut_u8 t3)
{
    owner_plan_RoundPlan t4 = owner_plan_Planner_plan_round(t1, t2, t3);
    uint64_t t10 = 4 * (owner_masks_last_slot(t4.senders) / 4 + 1);
    return (owner_rounds_Rows){.length = t10, .clash = t4.clashes != 0, .multiplexed = t4.multiplexed};
}

/* owner::plan::Planner::write_round. */
static inline owner_rounds_Rows owner_plan_Planner_write_round(const owner_plan_Planner *t1, uint64_t t2,
        owner_rounds_Rows t3, slice_mut_u8 t4)
{
    if (!owner_rounds_is_owned(t2)) {
        return t3;
    }
    uint64_t t5 = t3.length;
    owner_rounds_Rows t7 = owner_plan_Planner_write_row(t1, (file_types_FileNumber){.f0 = (uint8_t)t2},
            (slice_mut_u8){cut_mut_u8(t4.at, t5), t5 + 64 - t5});
    return (owner_rounds_Rows){.length = t5 + t7.length, .clash = (_Bool)(t3.clash | t7.clash),
            .multiplexed = (_Bool)(t3.multiplexed | t7.multiplexed)};
}

/* owner::rounds::write_rounds. All rounds: the head and the rows of the owner file. Not written into its
 * call: there the loop along a slave's entries, which is written into this function, keeps the file's place
 * in memory, with four instructions more for each entry. */
static inline owner_rounds_Rows owner_rounds_write_rounds(slice_u8 file, const uint16_t *places,
        file_types_LogicalName master, slice_mut_u8 head, slice_mut_u8 rows)
{
    uint8_t held[64];
    memset(held, 0, sizeof held);
    owner_held_all_held(file, (slice_mut_u8){held, 64});
    owner_plan_Planner planner = (owner_plan_Planner){.file = file, .places = places, .master = master,
            .held = (slice_u8){held, 64}};
    owner_rounds_Rows written = (owner_rounds_Rows){.length = 0, .clash = 0, .multiplexed = 0};
    uint64_t round = 0;
    while (round < 8) {
        uint8_t t16 = owner_rounds_index_byte(round, written.length);
        head.at[4 + round] = t16;
        written = owner_plan_Planner_write_round(&planner, round, written, rows);
        round = round + 1;
    }
    return written;
}

/* owner::write::put_file. The head and the rows, one after the other. */
static inline void owner_write_put_file(slice_mut_u8 buffer, slice_u8 head, slice_u8 rows)
{
    uint64_t start = file_copying_copy(head, buffer);
    (void)file_copying_copy(rows, (slice_mut_u8){cut_mut_u8(buffer.at, start), buffer.len - start});
}

/* owner::write::write_owner. The owner file 0x0B of a cluster file, written into the buffer: refused by its
 * number, with the buffer as it was, or written, with how many bytes it has. The file is checked once and
 * not copied. */
static inline Result_u64_file_types_Refusal owner_write_write_owner(slice_u8 file,
        file_types_LogicalName master, slice_mut_u8 buffer)
{
    uint16_t places[130];
    memset(places, 0, sizeof places);
    Result_unit_file_types_Refusal t12 = file_survey_survey(file, places);
    if (t12.tag != 0) {
        return (Result_u64_file_types_Refusal){.tag = 1, .as.Err.f0 = t12.as.Err.f0};
    }
    uint8_t head[12];
    memset(head, 0, sizeof head);
    uint8_t rows[512];
    memset(rows, 0, sizeof rows);
    owner_rounds_Rows written = owner_rounds_write_rounds(file, places, master, (slice_mut_u8){head, 12},
            (slice_mut_u8){rows, 512});
    if (written.multiplexed) {
        return (Result_u64_file_types_Refusal){.tag = 1, .as.Err.f0 = (file_types_Refusal){.tag = 22}};
    }
    if (written.clash) {
        return (Result_u64_file_types_Refusal){.tag = 1, .as.Err.f0 = (file_types_Refusal){.tag = 19}};
    }
    uint64_t end = written.length;
    if (buffer.len < 12 + end) {
        return (Result_u64_file_types_Refusal){.tag = 1, .as.Err.f0 = (file_types_Refusal){.tag = 20}};
    }
    owner_write_put_file(buffer, (slice_u8){head, 12}, (slice_u8){rows, end});
    return (Result_u64_file_types_Refusal){.tag = 0, .as.Ok.f0 = 12 + end};
}

/* ttpa::ttpa_owner. */
uint8_t ttpa_owner(const uint8_t *file_at, size_t file_len, uint8_t master, uint8_t *buffer_at,
        size_t buffer_len, uint64_t *length)
{
    slice_u8 file = {file_at, file_len};
    slice_mut_u8 buffer = {buffer_at, buffer_len};
    file_types_LogicalName t7 = file_types_LogicalName_new(master);
    Result_u64_file_types_Refusal t6 = owner_write_write_owner(file, t7, buffer);
    Result_u64_file_types_Refusal t36;
    if (t6.tag != 0) {
        t36 = (Result_u64_file_types_Refusal){.tag = 1, .as.Err.f0 = t6.as.Err.f0};
    } else {
        t36 = (Result_u64_file_types_Refusal){.tag = 0, .as.Ok.f0 = t6.as.Ok.f0};
    }
    switch (t36.tag) {
    case 1:
        return file_types_Refusal_number(t36.as.Err.f0);
    case 0:
    default:
        *length = t36.as.Ok.f0;
        return 0;
    }
}

/* line::pattern::row_at. Each row by a number of its own, and the compiler makes the table read-only data;
 * indexed by a variable it is laid out on the stack in each call. */
static inline uint64_t line_pattern_row_at(uint16_t row)
{
    switch (row) {
    case 0:
        return UINT64_C(0x8228288228828228);
    case 1:
        return UINT64_C(0x2882822882282882);
    case 2:
        return UINT64_C(0x2882822882242882);
    case 3:
        return UINT64_C(0x8228288228828128);
    case 4:
        return UINT64_C(0x2882422882282882);
    case 5:
        return UINT64_C(0x8218288228828228);
    case 6:
        return UINT64_C(0x8228288228828228);
    case 7:
        return UINT64_C(0x2882822882282882);
    case 8:
        return UINT64_C(0x2882822882282882);
    case 9:
        return UINT64_C(0x8228288228828228);
    case 10:
        return UINT64_C(0x8228248228828228);
    case 11:
        return UINT64_C(0x2881822882282882);
    case 12:
        return UINT64_C(0x8228288228428228);
    case 13:
        return UINT64_C(0x2882822882281882);
    case 14:
        return UINT64_C(0x2882822882282882);
    default:
        return UINT64_C(0x8228288228828228);
    }
}

/* line::pattern::read_pattern. */
static inline Result_line_pattern_PatternClass_file_types_Refusal line_pattern_read_pattern(uint16_t pattern)
{
    if (511 < pattern) {
        return (Result_line_pattern_PatternClass_file_types_Refusal){.tag = 1,
                .as.Err.f0 = (file_types_Refusal){.tag = 30}};
    }
    uint64_t row = line_pattern_row_at((uint16_t)(pattern / 32));
    switch ((row >> (uint64_t)(uint16_t)(2 * (uint16_t)(pattern % 32))) % 4) {
    case 0:
        return (Result_line_pattern_PatternClass_file_types_Refusal){.tag = 0,
                .as.Ok.f0 = (line_pattern_PatternClass){.tag = 0}};
    case 1:
        return (Result_line_pattern_PatternClass_file_types_Refusal){.tag = 0,
                .as.Ok.f0 = (line_pattern_PatternClass){.tag = 1}};
    case 2:
        return (Result_line_pattern_PatternClass_file_types_Refusal){.tag = 0,
                .as.Ok.f0 = (line_pattern_PatternClass){.tag = 2}};
    default:
        return (Result_line_pattern_PatternClass_file_types_Refusal){.tag = 0,
                .as.Ok.f0 = (line_pattern_PatternClass){.tag = 2}};
    }
}

/* ttpa::class_number. */
static inline uint8_t ttpa_class_number(line_pattern_PatternClass class)
{
    switch (class.tag) {
    case 0:
        return 0;
    case 1:
        return 1;
    case 2:
    default:
        return 2;
    }
}

/* ttpa::ttpa_pattern. */
uint8_t ttpa_pattern(uint16_t pattern, uint8_t *kind)
{
    Result_line_pattern_PatternClass_file_types_Refusal t5 = line_pattern_read_pattern(pattern);
    switch (t5.tag) {
    case 1: {
        file_types_Refusal why = t5.as.Err.f0;
        return file_types_Refusal_number(why);
    }
    case 0:
    default: {
        line_pattern_PatternClass class = t5.as.Ok.f0;
        *kind = ttpa_class_number(class);
        return 0;
    }
    }
}

/* screens::state::place_of. */
static inline uint64_t screens_state_place_of(uint8_t screen)
{
    return 1 + 4 * (uint64_t)screen;
}

/* screens::state::is_waiting. */
static inline _Bool screens_state_is_waiting(const uint8_t *state, uint8_t screen)
{
    uint64_t place = screens_state_place_of(screen);
    return state[place] != 0;
}

/* screens::post::read_ground. 18 and 14 on a read that is posted or due. */
static inline Result_unit_file_types_Refusal screens_post_read_ground(master_slave_types_RecordAddress read)
{
    if (63 < read.number.f0) {
        return (Result_unit_file_types_Refusal){.tag = 1, .as.Err.f0 = (file_types_Refusal){.tag = 17}};
    }
    if (read.name.f0 == 0) {
        return (Result_unit_file_types_Refusal){.tag = 1, .as.Err.f0 = (file_types_Refusal){.tag = 13}};
    }
    return (Result_unit_file_types_Refusal){.tag = 0};
}

/* screens::post::post_ground. */
static inline Result_unit_file_types_Refusal screens_post_post_ground(const uint8_t *state, uint8_t screen,
        master_slave_types_RecordAddress read)
{
    if (7 < screen) {
        return (Result_unit_file_types_Refusal){.tag = 1, .as.Err.f0 = (file_types_Refusal){.tag = 26}};
    }
    if (7 < state[0]) {
        return (Result_unit_file_types_Refusal){.tag = 1, .as.Err.f0 = (file_types_Refusal){.tag = 26}};
    }
    if (screens_state_is_waiting(state, screen)) {
        return (Result_unit_file_types_Refusal){.tag = 1, .as.Err.f0 = (file_types_Refusal){.tag = 27}};
    }
    return screens_post_read_ground(read);
}

/* screens::post::post. "Each may post one read: name, file, record." */
static inline Result_unit_file_types_Refusal screens_post_post(uint8_t *state, uint8_t screen,
        master_slave_types_RecordAddress read)
{
    Result_unit_file_types_Refusal t8 = screens_post_post_ground(state, screen, read);
    if (t8.tag != 0) {
        return (Result_unit_file_types_Refusal){.tag = 1, .as.Err.f0 = t8.as.Err.f0};
    }
    uint64_t place = screens_state_place_of(screen);
    state[place] = 1;
    state[place + 1] = read.name.f0;
    state[place + 2] = read.number.f0;
    state[place + 3] = read.record.f0;
    return (Result_unit_file_types_Refusal){.tag = 0};
}

/* ttpa::ttpa_post. */
uint8_t ttpa_post(uint8_t state[33], uint8_t screen, uint8_t name, uint8_t file, uint8_t record)
{
    file_types_LogicalName t7 = file_types_LogicalName_new(name);
    master_slave_types_RecordAddress read = (master_slave_types_RecordAddress){.name = t7,
            .number = (file_types_FileNumber){.f0 = file}, .record = (file_types_RecordNumber){.f0 = record}};
    Result_unit_file_types_Refusal t10 = screens_post_post(state, screen, read);
    switch (t10.tag) {
    case 0:
        return 0;
    case 1:
    default:
        return file_types_Refusal_number(t10.as.Err.f0);
    }
}

/* frame::reader::is_no_address. */
static inline _Bool frame_reader_is_no_address(slice_u8 frame)
{
    if (frame.len == 0) {
        return 1;
    }
    return frame.at[0] != 85;
}

/* frame::check::check_of. */
static inline uint8_t frame_check_check_of(uint8_t firework, const uint8_t *bytes)
{
    return (uint8_t)(firework ^ (uint8_t)(bytes[0] ^ (uint8_t)(bytes[1] ^ (uint8_t)(bytes[2] ^ bytes[3]))));
}

/* frame::check::address_check. */
static inline uint8_t frame_check_address_check(uint8_t b0, uint8_t b1, uint8_t b2, uint8_t b3)
{
    uint8_t t5[4];
    t5[0] = b0;
    t5[1] = b1;
    t5[2] = b2;
    t5[3] = b3;
    return frame_check_check_of(85, t5);
}

/* frame::reader::is_wrong_check. */
static inline _Bool frame_reader_is_wrong_check(slice_u8 frame)
{
    uint8_t check = frame_check_address_check(frame.at[1], frame.at[2], frame.at[3], frame.at[4]);
    return frame.at[5] != check;
}

/* file::operations::file_number_of. */
static inline file_types_FileNumber file_operations_file_number_of(uint8_t pb2)
{
    return (file_types_FileNumber){.f0 = (uint8_t)(pb2 / 4)};
}

/* frame::reader::read_address. */
static inline Result_frame_types_AddressFrame_file_types_Refusal frame_reader_read_address(slice_u8 frame)
{
    if (frame_reader_is_no_address(frame)) {
        return (Result_frame_types_AddressFrame_file_types_Refusal){.tag = 1,
                .as.Err.f0 = (file_types_Refusal){.tag = 9}};
    }
    if (frame.len != 6) {
        return (Result_frame_types_AddressFrame_file_types_Refusal){.tag = 1,
                .as.Err.f0 = (file_types_Refusal){.tag = 10}};
    }
    if (frame_reader_is_wrong_check(frame)) {
        return (Result_frame_types_AddressFrame_file_types_Refusal){.tag = 1,
                .as.Err.f0 = (file_types_Refusal){.tag = 11}};
    }
    uint8_t pb2 = frame.at[3];
    file_types_LogicalName name = file_types_LogicalName_new(frame.at[2]);
    file_types_Operation operation = file_operations_operation_of(pb2);
    if (file_operations_is_no_operation(operation)) {
        return (Result_frame_types_AddressFrame_file_types_Refusal){.tag = 1,
                .as.Err.f0 = (file_types_Refusal){.tag = 12}};
    }
    if (file_operations_is_broadcast_read(operation, name)) {
        return (Result_frame_types_AddressFrame_file_types_Refusal){.tag = 1,
                .as.Err.f0 = (file_types_Refusal){.tag = 13}};
    }
    uint8_t t13 = frame.at[1];
    file_types_FileNumber t20 = file_operations_file_number_of(pb2);
    return (Result_frame_types_AddressFrame_file_types_Refusal){.tag = 0,
            .as.Ok.f0 = (frame_types_AddressFrame){.epoch = t13, .name = name, .file = t20,
            .operation = operation, .record = (file_types_RecordNumber){.f0 = frame.at[4]}}};
}

/* ttpa::ttpa_read_address. */
uint8_t ttpa_read_address(const uint8_t *frame_at, size_t frame_len, uint8_t parts[5])
{
    slice_u8 frame = {frame_at, frame_len};
    Result_frame_types_AddressFrame_file_types_Refusal t5 = frame_reader_read_address(frame);
    switch (t5.tag) {
    case 1: {
        file_types_Refusal why = t5.as.Err.f0;
        return file_types_Refusal_number(why);
    }
    case 0:
    default: {
        frame_types_AddressFrame read = t5.as.Ok.f0;
        parts[0] = read.epoch;
        parts[1] = read.name.f0;
        parts[2] = read.file.f0;
        parts[3] = read.operation.f0;
        parts[4] = read.record.f0;
        return 0;
    }
    }
}

/* frame::firework::high_bits. A byte is a firework exactly if its bits 7 to 3 are those that its bits 2 to
 * 0, the round's number, ask for: 01111 in round 0; each bit set in the number turns two of them over: its
 * bit 0 turns over bits 5 and 4 of the byte, bit 1 bits 7 and 6, bit 2 bits 4 and 3. */
static inline uint8_t frame_firework_high_bits(uint8_t round)
{
    uint8_t by_bit_0 = (uint8_t)(6 * (uint8_t)(round % 2));
    uint8_t by_bit_1 = (uint8_t)(24 * (uint8_t)((uint8_t)(round / 2) % 2));
    uint8_t by_bit_2 = (uint8_t)(3 * (uint8_t)((uint8_t)(round / 4) % 2));
    return (uint8_t)(15 ^ (uint8_t)(by_bit_0 ^ (uint8_t)(by_bit_1 ^ by_bit_2)));
}

/* frame::firework::firework_of. */
static inline Option_frame_firework_Firework frame_firework_firework_of(uint8_t byte)
{
    uint8_t round = (uint8_t)(byte % 8);
    if ((uint8_t)(byte / 8) != frame_firework_high_bits(round)) {
        return (Option_frame_firework_Firework){.tag = 0};
    }
    switch (round) {
    case 1:
        return (Option_frame_firework_Firework){.tag = 1, .as.Some.f0 = (frame_firework_Firework){.tag = 1}};
    case 5:
        return (Option_frame_firework_Firework){.tag = 1, .as.Some.f0 = (frame_firework_Firework){.tag = 2}};
    default: {
        uint8_t round_2 = round;
        return (Option_frame_firework_Firework){.tag = 1, .as.Some.f0 = (frame_firework_Firework){.tag = 0,
                .as.Multipartner.f0 = round_2}};
    }
    }
}

/* cluster::round::firework_in. The round that a frame opens, by its first byte. */
static inline Option_frame_firework_Firework cluster_round_firework_in(slice_u8 frame)
{
    if (frame.len == 0) {
        return (Option_frame_firework_Firework){.tag = 0};
    }
    return frame_firework_firework_of(frame.at[0]);
}

/* file::readers::accepted_width. The same of an accepted file: its third byte is 1 or 2, and an offset has
 * twice as many bytes. It is a product and no choice, since a round asks it of every slave. */
static inline uint64_t file_readers_accepted_width(slice_u8 file)
{
    return 2 * file_numbers_byte_at(file, 2);
}

/* file::readers::epoch_place. Where the header keeps the epoch. The pending operation stands behind it. */
static inline uint64_t file_readers_epoch_place(slice_u8 file)
{
    return 4 + 2 * file_readers_accepted_width(file);
}

/* file::writers::set_epoch. */
static inline void file_writers_set_epoch(slice_mut_u8 file, uint8_t epoch)
{
    uint64_t at = file_readers_epoch_place(lend_u8(file));
    file.at[at] = epoch;
}

/* file::operations::pb2_of. */
static inline uint8_t file_operations_pb2_of(file_types_FileNumber file, file_types_Operation operation)
{
    return (uint8_t)((uint8_t)(4 * file.f0) + operation.f0);
}

/* file::writers::set_pending. An operation becomes pending. */
static inline void file_writers_set_pending(slice_mut_u8 file, file_types_LogicalName name,
        file_types_FileNumber number, file_types_Operation operation, file_types_RecordNumber record)
{
    uint8_t pb2 = file_operations_pb2_of(number, operation);
    uint64_t epoch = file_readers_epoch_place(lend_u8(file));
    file.at[epoch + 1] = 1;
    file.at[epoch + 2] = name.f0;
    file.at[epoch + 3] = pb2;
    file.at[epoch + 4] = record.f0;
}

/* master_slave::pending::become_pending. "An accepted MSA sets the epoch to PB0 and becomes pending until
 * the next one". */
static inline void master_slave_pending_become_pending(slice_mut_u8 file, uint8_t epoch,
        file_types_LogicalName name, file_types_FileNumber number, file_types_Operation operation,
        file_types_RecordNumber record)
{
    file_writers_set_epoch(file, epoch);
    file_writers_set_pending(file, name, number, operation, record);
}

/* cluster::msa::pend_address. An address frame, whoever hears. */
static inline Result_u64_file_types_Refusal cluster_msa_pend_address(slice_mut_u8 file, slice_u8 frame)
{
    Result_frame_types_AddressFrame_file_types_Refusal t7 = frame_reader_read_address(frame);
    if (t7.tag != 0) {
        return (Result_u64_file_types_Refusal){.tag = 1, .as.Err.f0 = t7.as.Err.f0};
    }
    frame_types_AddressFrame read = t7.as.Ok.f0;
    master_slave_pending_become_pending(file, read.epoch, read.name, read.file, read.operation, read.record);
    return (Result_u64_file_types_Refusal){.tag = 0, .as.Ok.f0 = 0};
}

/* master_slave::slots::silence. The buffer of a round in which nobody sends. */
static inline void master_slave_slots_silence(slice_mut_u8 buffer, uint8_t firework)
{
    buffer.at[0] = firework;
    uint64_t slot = 1;
    while (slot < 64) {
        buffer.at[slot] = 255;
        slot = slot + 1;
    }
}

/* cluster::msa::take_address. The same with its buffer. */
static inline Result_u64_file_types_Refusal cluster_msa_take_address(slice_mut_u8 file, slice_u8 frame,
        slice_mut_u8 buffer)
{
    Result_u64_file_types_Refusal t8 = cluster_msa_pend_address(file, frame);
    if (t8.tag != 0) {
        return (Result_u64_file_types_Refusal){.tag = 1, .as.Err.f0 = t8.as.Err.f0};
    }
    uint64_t mask = t8.as.Ok.f0;
    master_slave_slots_silence(buffer, 85);
    return (Result_u64_file_types_Refusal){.tag = 0, .as.Ok.f0 = mask};
}

/* file::readers::read_pending. */
static inline file_readers_Pending file_readers_read_pending(slice_u8 file)
{
    uint64_t epoch = file_readers_epoch_place(file);
    uint8_t pb2 = file.at[epoch + 3];
    uint8_t t6 = file.at[epoch + 1];
    file_types_LogicalName t8 = file_types_LogicalName_new(file.at[epoch + 2]);
    file_types_FileNumber t12 = file_operations_file_number_of(pb2);
    file_types_Operation t13 = file_operations_operation_of(pb2);
    return (file_readers_Pending){.flag = t6, .name = t8, .number = t12, .operation = t13,
            .record = (file_types_RecordNumber){.f0 = file.at[epoch + 4]}};
}

/* cluster::msd::is_write_pending. */
static inline _Bool cluster_msd_is_write_pending(slice_u8 file)
{
    file_readers_Pending pending = file_readers_read_pending(file);
    if (pending.flag != 1) {
        return 0;
    }
    return pending.operation.f0 == 1;
}

/* frame::check::data_check. The check of an MSD's data, and of a slave's reply to a read. */
static inline uint8_t frame_check_data_check(uint8_t b0, uint8_t b1, uint8_t b2, uint8_t b3)
{
    uint8_t t5[4];
    t5[0] = b0;
    t5[1] = b1;
    t5[2] = b2;
    t5[3] = b3;
    return frame_check_check_of(73, t5);
}

/* cluster::msd::read_data. A data frame is refused, or has these bytes. */
static inline Result_master_slave_types_DataBytes_file_types_Refusal cluster_msd_read_data(slice_u8 file,
        slice_u8 frame)
{
    if (!cluster_msd_is_write_pending(file)) {
        if (frame.len != 1) {
            return (Result_master_slave_types_DataBytes_file_types_Refusal){.tag = 1,
                    .as.Err.f0 = (file_types_Refusal){.tag = 10}};
        }
        return (Result_master_slave_types_DataBytes_file_types_Refusal){.tag = 0,
                .as.Ok.f0 = (master_slave_types_DataBytes){.b0 = 0, .b1 = 0, .b2 = 0, .b3 = 0}};
    }
    if (frame.len != 6) {
        return (Result_master_slave_types_DataBytes_file_types_Refusal){.tag = 1,
                .as.Err.f0 = (file_types_Refusal){.tag = 10}};
    }
    uint8_t b0 = frame.at[1];
    uint8_t b1 = frame.at[2];
    uint8_t b2 = frame.at[3];
    uint8_t b3 = frame.at[4];
    uint8_t t16 = frame.at[5];
    if (t16 != frame_check_data_check(b0, b1, b2, b3)) {
        return (Result_master_slave_types_DataBytes_file_types_Refusal){.tag = 1,
                .as.Err.f0 = (file_types_Refusal){.tag = 11}};
    }
    return (Result_master_slave_types_DataBytes_file_types_Refusal){.tag = 0,
            .as.Ok.f0 = (master_slave_types_DataBytes){.b0 = b0, .b1 = b1, .b2 = b2, .b3 = b3}};
}

/* master_slave::pending::execution_of. "Execute 0x08 record 2", "Record 1", "an execute of record 4 of
 * 0x08", "Any other: nothing." */
static inline master_slave_pending_Duty master_slave_pending_execution_of(master_slave_types_RecordAddress
        address)
{
    if (address.number.f0 != 8) {
        return (master_slave_pending_Duty){.tag = 0};
    }
    if (address.record.f0 == 2) {
        return (master_slave_pending_Duty){.tag = 3};
    }
    if (address.record.f0 == 1) {
        return (master_slave_pending_Duty){.tag = 4};
    }
    if (address.record.f0 == 4) {
        return (master_slave_pending_Duty){.tag = 5};
    }
    return (master_slave_pending_Duty){.tag = 0};
}

/* master_slave::pending::duty_of. The duty of a pending operation, by its number. */
static inline master_slave_pending_Duty master_slave_pending_duty_of(file_types_Operation operation,
        master_slave_types_RecordAddress address)
{
    if (operation.f0 == 0) {
        return (master_slave_pending_Duty){.tag = 1};
    }
    if (operation.f0 == 1) {
        return (master_slave_pending_Duty){.tag = 2};
    }
    if (operation.f0 != 2) {
        return (master_slave_pending_Duty){.tag = 0};
    }
    return master_slave_pending_execution_of(address);
}

/* master_slave::pending::pending_duty. */
static inline master_slave_pending_PendingDuty master_slave_pending_pending_duty(slice_u8 file)
{
    file_readers_Pending pending = file_readers_read_pending(file);
    file_types_LogicalName name = pending.name;
    file_types_FileNumber number = pending.number;
    file_types_RecordNumber record = pending.record;
    master_slave_types_RecordAddress address = (master_slave_types_RecordAddress){.name = name,
            .number = number, .record = record};
    if (pending.flag != 1) {
        master_slave_pending_Duty duty = (master_slave_pending_Duty){.tag = 0};
        return (master_slave_pending_PendingDuty){.duty = duty, .address = address};
    }
    master_slave_pending_Duty duty_2 = master_slave_pending_duty_of(pending.operation, address);
    return (master_slave_pending_PendingDuty){.duty = duty_2, .address = address};
}

/* file::readers::read_epoch. */
static inline uint8_t file_readers_read_epoch(slice_u8 file)
{
    const uint8_t *t3 = file.at + file_readers_epoch_place(file);
    return *t3;
}

/* master_slave::epoch::next_epoch. One more, "255 going to 0". */
static inline uint8_t master_slave_epoch_next_epoch(uint8_t epoch)
{
    if (epoch == 255) {
        return 0;
    }
    return (uint8_t)(epoch + 1);
}

/* master_slave::epoch::raise_epoch. "Any other round first adds 1 to the epoch". */
static inline void master_slave_epoch_raise_epoch(slice_mut_u8 file)
{
    uint8_t epoch = master_slave_epoch_next_epoch(file_readers_read_epoch(lend_u8(file)));
    file_writers_set_epoch(file, epoch);
}

/* file::readers::sleep_place. Where the slave table keeps a slave's sleep byte: behind the header, the
 * entries before, its directory's offset and its file count. */
static inline uint64_t file_readers_sleep_place(slice_u8 file, uint64_t slave)
{
    uint64_t width = file_readers_accepted_width(file);
    uint64_t offsets = 5 + 2 * slave;
    return 9 + width * offsets;
}

/* file::readers::is_awake. Whether a slave is awake. */
static inline _Bool file_readers_is_awake(slice_u8 file, uint64_t slave)
{
    const uint8_t *t4 = file.at + file_readers_sleep_place(file, slave);
    return *t4 == 0;
}

/* master_slave::slaves::is_read. The same for a read: never an unnamed slave. */
static inline _Bool master_slave_slaves_is_read(file_types_LogicalName name, file_types_LogicalName own)
{
    if (own.f0 == name.f0) {
        return own.f0 != 255;
    }
    if (name.f0 == 0) {
        return own.f0 != 255;
    }
    return 0;
}

/* file::records::is_documented. Whether a record is one of 0x3D that every slave has: one test, which a loop
 * along the slaves makes once. */
static inline _Bool file_records_is_documented(file_types_FileNumber number, file_types_RecordNumber record)
{
    if (number.f0 != 61) {
        return 0;
    }
    return record.f0 <= 2;
}

/* file::records::find_record. Where a slave keeps a record of a file, or that it has none. */
static inline Option_u64 file_records_find_record(slice_u8 file, uint64_t slave, file_types_FileNumber number,
        file_types_RecordNumber record)
{
    Option_file_records_FileBytes t10 = file_records_find_file(file, slave, number);
    if (t10.tag != 1) {
        return (Option_u64){.tag = 0};
    }
    file_records_FileBytes bytes = t10.as.Some.f0;
    uint64_t start = 4 * (uint64_t)record.f0;
    if (bytes.size < start + 4) {
        return (Option_u64){.tag = 0};
    }
    return (Option_u64){.tag = 1, .as.Some.f0 = bytes.place + start};
}

/* file::records::place_of_record. The same, for a write or a read in a round: the records of 0x08 that every
 * slave has need no search. */
static inline Option_u64 file_records_place_of_record(slice_u8 file, const uint16_t *places, uint64_t slave,
        file_types_FileNumber number, file_types_RecordNumber record)
{
    file_types_FileNumber place = number;
    if (place.f0 == 8) {
        if (record.f0 <= 3) {
            return (Option_u64){.tag = 1, .as.Some.f0 = (uint64_t)places[2 * slave] + 4 * (uint64_t)record.f0};
        }
    }
    return file_records_find_record(file, slave, place, record);
}

/* file::records::read_place. The same for a read alone: the records of 0x3D that every slave has need none
 * either. */
static inline Option_u64 file_records_read_place(slice_u8 file, const uint16_t *places, uint64_t slave,
        file_types_FileNumber number, file_types_RecordNumber record)
{
    if (file_records_is_documented(number, record)) {
        uint64_t place = (uint64_t)places[2 * slave + 1];
        return (Option_u64){.tag = 1, .as.Some.f0 = place + 4 * (uint64_t)record.f0};
    }
    return file_records_place_of_record(file, places, slave, number, record);
}

/* master_slave::slots::send_record. One more sender, which sends the record at a place and its check in
 * slots 1 to 5. */
static inline void master_slave_slots_send_record(slice_mut_u8 buffer, slice_u8 file, uint64_t place)
{
    uint8_t b0 = file.at[place];
    uint8_t b1 = file.at[place + 1];
    uint8_t b2 = file.at[place + 2];
    uint8_t b3 = file.at[place + 3];
    uint8_t check = frame_check_data_check(b0, b1, b2, b3);
    buffer.at[1] = (uint8_t)(buffer.at[1] & b0);
    buffer.at[2] = (uint8_t)(buffer.at[2] & b1);
    buffer.at[3] = (uint8_t)(buffer.at[3] & b2);
    buffer.at[4] = (uint8_t)(buffer.at[4] & b3);
    buffer.at[5] = (uint8_t)(buffer.at[5] & check);
}

/* master_slave::slaves::read_slave. Read: the slave's reply joined into the buffer; the last slot that
 * someone has sent in. */
static inline uint64_t master_slave_slaves_read_slave(slice_u8 file, const uint16_t *places, uint64_t slave,
        master_slave_types_RecordAddress address, slice_mut_u8 buffer, uint64_t last)
{
    if (!file_readers_is_awake(file, slave)) {
        return last;
    }
    file_types_LogicalName own = file_readers_logical_name(file, places, slave);
    if (!master_slave_slaves_is_read(address.name, own)) {
        return last;
    }
    Option_u64 found = file_records_read_place(file, places, slave, address.number, address.record);
    uint64_t place;
    switch (found.tag) {
    case 1:
        place = found.as.Some.f0;
        break;
    case 0:
    default:
        return last;
    }
    master_slave_slots_send_record(buffer, file, place);
    return 5;
}

/* master_slave::duty::read_round. The loop stands in each round: what a slave's step is lent differs (the
 * file read or written, buffer and last slot or data), and a closure that takes them is no form of the
 * portable C file. */
static inline uint64_t master_slave_duty_read_round(slice_u8 file, const uint16_t *places,
        master_slave_types_RecordAddress address, slice_mut_u8 buffer)
{
    master_slave_slots_silence(buffer, 73);
    uint64_t last = 0;
    uint64_t slave = 0;
    uint64_t t10 = file_readers_slave_count(file);
    while (slave < t10) {
        last = master_slave_slaves_read_slave(file, places, slave, address, buffer, last);
        slave = slave + 1;
    }
    return last;
}

/* master_slave::slots::with_sender. The mask with one more slot in which someone sent, above all others. */
static inline uint64_t master_slave_slots_with_sender(uint64_t mask, uint64_t slot)
{
    return mask | (UINT64_C(1) << slot);
}

/* master_slave::slots::mask_to. The mask of the slots 1 to last. */
static inline uint64_t master_slave_slots_mask_to(uint64_t last)
{
    uint64_t mask = 0;
    uint64_t slot = 1;
    uint64_t t4 = last + 1;
    while (slot < t4) {
        mask = master_slave_slots_with_sender(mask, slot);
        slot = slot + 1;
    }
    return mask;
}

/* master_slave::duty::may_write. Whether a write may change the record. */
static inline _Bool master_slave_duty_may_write(file_types_FileNumber number, file_types_RecordNumber record)
{
    if (number.f0 == 61) {
        return 0;
    }
    return record.f0 != 0;
}

/* master_slave::slaves::is_addressed. Whether a slave with its own logical name is addressed. */
static inline _Bool master_slave_slaves_is_addressed(file_types_LogicalName name, file_types_LogicalName own)
{
    if (name.f0 == 255) {
        return own.f0 == 255;
    }
    if (name.f0 == 0) {
        return own.f0 != 255;
    }
    return own.f0 == name.f0;
}

/* master_slave::slaves::is_name_record. Whether a record is the one that holds the logical name. */
static inline _Bool master_slave_slaves_is_name_record(file_types_FileNumber number,
        file_types_RecordNumber record)
{
    if (number.f0 != 8) {
        return 0;
    }
    return record.f0 == 1;
}

/* master_slave::slaves::last_byte. The last byte that a write leaves in the record at a place: a logical
 * name that stands there is kept. */
static inline uint8_t master_slave_slaves_last_byte(slice_u8 file, uint64_t place,
        master_slave_types_RecordAddress address, uint8_t byte)
{
    if (master_slave_slaves_is_name_record(address.number, address.record)) {
        return file.at[place + 3];
    }
    return byte;
}

/* file::writers::store_record. The four bytes of the record at a place. */
static inline void file_writers_store_record(slice_mut_u8 file, uint64_t place, uint8_t b0, uint8_t b1,
        uint8_t b2, uint8_t b3)
{
    file.at[place] = b0;
    file.at[place + 1] = b1;
    file.at[place + 2] = b2;
    file.at[place + 3] = b3;
}

/* master_slave::slaves::put_data. The data put into the record at a place. */
static inline void master_slave_slaves_put_data(slice_mut_u8 file, uint64_t place,
        master_slave_types_RecordAddress address, master_slave_types_DataBytes bytes)
{
    uint8_t last = master_slave_slaves_last_byte(lend_u8(file), place, address, bytes.b3);
    file_writers_store_record(file, place, bytes.b0, bytes.b1, bytes.b2, last);
}

/* master_slave::slaves::write_slave. Write: an addressed slave that has the record replaces its bytes by
 * these, the logical name aside. */
static inline void master_slave_slaves_write_slave(slice_mut_u8 file, const uint16_t *places, uint64_t slave,
        master_slave_types_RecordAddress address, master_slave_types_DataBytes bytes)
{
    if (!file_readers_is_awake(lend_u8(file), slave)) {
        return;
    }
    file_types_LogicalName own = file_readers_logical_name(lend_u8(file), places, slave);
    if (!master_slave_slaves_is_addressed(address.name, own)) {
        return;
    }
    Option_u64 found = file_records_place_of_record(lend_u8(file), places, slave, address.number,
            address.record);
    uint64_t place;
    switch (found.tag) {
    case 1:
        place = found.as.Some.f0;
        break;
    case 0:
    default:
        return;
    }
    master_slave_slaves_put_data(file, place, address, bytes);
}

/* master_slave::duty::write_round. */
static inline void master_slave_duty_write_round(slice_mut_u8 file, const uint16_t *places,
        master_slave_types_RecordAddress address, master_slave_types_DataBytes bytes)
{
    if (!master_slave_duty_may_write(address.number, address.record)) {
        return;
    }
    uint64_t slave = 0;
    uint64_t t10 = file_readers_slave_count(lend_u8(file));
    while (slave < t10) {
        master_slave_slaves_write_slave(file, places, slave, address, bytes);
        slave = slave + 1;
    }
}

/* master_slave::slaves::is_compared. The same for a compare: none at broadcast. */
static inline _Bool master_slave_slaves_is_compared(file_types_LogicalName name, file_types_LogicalName own)
{
    if (name.f0 == 0) {
        return 0;
    }
    return master_slave_slaves_is_addressed(name, own);
}

/* file::readers::comparison_value. A slave's comparison value. */
static inline uint64_t file_readers_comparison_value(slice_u8 file, const uint16_t *places, uint64_t slave)
{
    uint64_t place = (uint64_t)places[2 * slave];
    return file_numbers_u64_at(file, place + 8);
}

/* master_slave::slots::send_byte. One more sender, which sends a byte in slot 1. */
static inline void master_slave_slots_send_byte(slice_mut_u8 buffer, uint8_t byte)
{
    buffer.at[1] = (uint8_t)(buffer.at[1] & byte);
}

/* master_slave::slaves::compare_slave. Compare: the same, where the physical name is at least the comparison
 * value. */
static inline uint64_t master_slave_slaves_compare_slave(slice_u8 file, const uint16_t *places, uint64_t slave,
        file_types_LogicalName name, slice_mut_u8 buffer, uint64_t last)
{
    if (!file_readers_is_awake(file, slave)) {
        return last;
    }
    file_types_LogicalName own = file_readers_logical_name(file, places, slave);
    if (!master_slave_slaves_is_compared(name, own)) {
        return last;
    }
    uint64_t value = file_readers_comparison_value(file, places, slave);
    if (file_readers_physical_name(file, places, slave) < value) {
        return last;
    }
    master_slave_slots_send_byte(buffer, 0);
    return 1;
}

/* master_slave::duty::compare_round. Who replies sends 0x00 in slot 1, and the byte stays 0x00 whoever
 * replies too: the first reply settles the round. */
static inline uint64_t master_slave_duty_compare_round(slice_u8 file, const uint16_t *places,
        file_types_LogicalName name, slice_mut_u8 buffer)
{
    master_slave_slots_silence(buffer, 73);
    uint64_t last = 0;
    uint64_t slave = 0;
    uint64_t t10 = file_readers_slave_count(file);
    while (slave < t10) {
        last = master_slave_slaves_compare_slave(file, places, slave, name, buffer, last);
        if (last == 1) {
            return 1;
        }
        slave = slave + 1;
    }
    return last;
}

/* file::writers::take_new_name. A slave's new logical name becomes its logical name. */
static inline void file_writers_take_new_name(slice_mut_u8 file, const uint16_t *places, uint64_t slave)
{
    uint64_t at = (uint64_t)places[2 * slave];
    uint8_t name = file.at[at + 6];
    file.at[at + 7] = name;
}

/* master_slave::slaves::baptize_slave. Execute of record 1: an addressed slave whose physical name is the
 * comparison value takes its new logical name. */
static inline void master_slave_slaves_baptize_slave(slice_mut_u8 file, const uint16_t *places, uint64_t slave,
        file_types_LogicalName name)
{
    if (!file_readers_is_awake(lend_u8(file), slave)) {
        return;
    }
    file_types_LogicalName own = file_readers_logical_name(lend_u8(file), places, slave);
    if (!master_slave_slaves_is_addressed(name, own)) {
        return;
    }
    uint64_t value = file_readers_comparison_value(lend_u8(file), places, slave);
    if (file_readers_physical_name(lend_u8(file), places, slave) != value) {
        return;
    }
    file_writers_take_new_name(file, places, slave);
}

/* master_slave::duty::baptize_round. */
static inline void master_slave_duty_baptize_round(slice_mut_u8 file, const uint16_t *places,
        file_types_LogicalName name)
{
    uint64_t slave = 0;
    uint64_t t5 = file_readers_slave_count(lend_u8(file));
    while (slave < t5) {
        master_slave_slaves_baptize_slave(file, places, slave, name);
        slave = slave + 1;
    }
}

/* master_slave::duty::do_duty. The duty done, with the data where it is a write. The mask of the slots in
 * which someone sent. */
static inline uint64_t master_slave_duty_do_duty(slice_mut_u8 file, const uint16_t *places,
        master_slave_pending_Duty duty, master_slave_types_RecordAddress address,
        master_slave_types_DataBytes bytes, slice_mut_u8 buffer)
{
    switch (duty.tag) {
    case 0:
        master_slave_slots_silence(buffer, 73);
        return 0;
    case 1: {
        uint64_t last = master_slave_duty_read_round(lend_u8(file), places, address, buffer);
        return master_slave_slots_mask_to(last);
    }
    case 2:
        master_slave_slots_silence(buffer, 73);
        master_slave_duty_write_round(file, places, address, bytes);
        return 0;
    case 3: {
        uint64_t last_2 = master_slave_duty_compare_round(lend_u8(file), places, address.name, buffer);
        return master_slave_slots_mask_to(last_2);
    }
    case 4:
        master_slave_slots_silence(buffer, 73);
        master_slave_duty_baptize_round(file, places, address.name);
        return 0;
    case 5:
    default:
        master_slave_slots_silence(buffer, 73);
        return 0;
    }
}

/* master_slave::sleep::puts_to_sleep. Whether a duty puts slaves to sleep. */
static inline _Bool master_slave_sleep_puts_to_sleep(master_slave_pending_Duty duty)
{
    switch (duty.tag) {
    case 5:
        return 1;
    case 0:
    case 1:
    case 2:
    case 3:
    case 4:
    default:
        return 0;
    }
}

/* master_slave::slaves::falls_asleep. Execute of record 4: whether an addressed slave that is awake has the
 * record. */
static inline _Bool master_slave_slaves_falls_asleep(slice_u8 file, const uint16_t *places, uint64_t slave,
        file_types_LogicalName name)
{
    if (!file_readers_is_awake(file, slave)) {
        return 0;
    }
    file_types_LogicalName own = file_readers_logical_name(file, places, slave);
    if (!master_slave_slaves_is_addressed(name, own)) {
        return 0;
    }
    Option_u64 found = file_records_find_record(file, slave, (file_types_FileNumber){.f0 = 8},
            (file_types_RecordNumber){.f0 = 4});
    return found.tag == 1;
}

/* file::writers::set_sleep. A slave's sleep byte: 0 awake, 1 asleep. */
static inline void file_writers_set_sleep(slice_mut_u8 file, uint64_t slave, uint8_t asleep)
{
    uint64_t at = file_readers_sleep_place(lend_u8(file), slave);
    file.at[at] = asleep;
}

/* master_slave::slaves::sleep_slave. The same slave after that round: asleep, or awake. */
static inline void master_slave_slaves_sleep_slave(slice_mut_u8 file, const uint16_t *places, uint64_t slave,
        file_types_LogicalName name)
{
    if (master_slave_slaves_falls_asleep(lend_u8(file), places, slave, name)) {
        file_writers_set_sleep(file, slave, 1);
        return;
    }
    file_writers_set_sleep(file, slave, 0);
}

/* master_slave::sleep::sleep_round. */
static inline void master_slave_sleep_sleep_round(slice_mut_u8 file, const uint16_t *places,
        file_types_LogicalName name)
{
    uint64_t slave = 0;
    uint64_t t5 = file_readers_slave_count(lend_u8(file));
    while (slave < t5) {
        master_slave_slaves_sleep_slave(file, places, slave, name);
        slave = slave + 1;
    }
}

/* master_slave::sleep::wake_slaves. After any other round than a sleep everyone is awake. The loop stands
 * here and in `sleep_round`, as in `duty`'s rounds. */
static inline void master_slave_sleep_wake_slaves(slice_mut_u8 file)
{
    uint64_t slave = 0;
    uint64_t t3 = file_readers_slave_count(lend_u8(file));
    while (slave < t3) {
        file_writers_set_sleep(file, slave, 0);
        slave = slave + 1;
    }
}

/* master_slave::sleep::rest_slaves. Who is awake after a round with that duty: all but those that it puts to
 * sleep. */
static inline void master_slave_sleep_rest_slaves(slice_mut_u8 file, const uint16_t *places,
        master_slave_pending_Duty duty, master_slave_types_RecordAddress address)
{
    if (master_slave_sleep_puts_to_sleep(duty)) {
        master_slave_sleep_sleep_round(file, places, address.name);
        return;
    }
    master_slave_sleep_wake_slaves(file);
}

/* master_slave::master_slave::carry_data. The data part of a round: what is pending is settled, the epoch
 * raised, the slaves do their duty, and fall asleep or wake. The mask of the slots in which someone sent. */
static inline uint64_t master_slave_master_slave_carry_data(slice_mut_u8 file, const uint16_t *places,
        master_slave_types_DataBytes bytes, slice_mut_u8 buffer)
{
    master_slave_pending_PendingDuty pending = master_slave_pending_pending_duty(lend_u8(file));
    master_slave_pending_Duty duty = pending.duty;
    master_slave_types_RecordAddress address = pending.address;
    master_slave_epoch_raise_epoch(file);
    uint64_t mask = master_slave_duty_do_duty(file, places, duty, address, bytes, buffer);
    master_slave_sleep_rest_slaves(file, places, duty, address);
    return mask;
}

/* cluster::msd::take_data. A data frame: the pending operation is carried out. */
static inline Result_u64_file_types_Refusal cluster_msd_take_data(slice_mut_u8 file, const uint16_t *places,
        slice_u8 frame, slice_mut_u8 buffer)
{
    Result_master_slave_types_DataBytes_file_types_Refusal t9 = cluster_msd_read_data(lend_u8(file), frame);
    if (t9.tag != 0) {
        return (Result_u64_file_types_Refusal){.tag = 1, .as.Err.f0 = t9.as.Err.f0};
    }
    master_slave_types_DataBytes bytes = t9.as.Ok.f0;
    return (Result_u64_file_types_Refusal){.tag = 0, .as.Ok.f0 = master_slave_master_slave_carry_data(file,
            places, bytes, buffer)};
}

/* multipartner::round_files::round_file. Those that it runs. */
static inline multipartner_round_files_RoundFile multipartner_round_files_round_file(slice_u8 file,
        const uint16_t *places, uint64_t slave, file_types_FileNumber round)
{
    if (!file_readers_is_awake(file, slave)) {
        return (multipartner_round_files_RoundFile){.start = 0, .end = 0};
    }
    return multipartner_round_files_planned_file(file, places, slave, round);
}

/* multipartner::round_files::round_files. All that it runs, of every slave, put in front of whatever else
 * the lent array holds. */
static inline void multipartner_round_files_round_files(slice_u8 file, const uint16_t *places,
        file_types_FileNumber round, multipartner_round_files_OpenEntries *lists)
{
    uint64_t count = file_readers_slave_count(file);
    uint64_t slave = 0;
    while (slave < count) {
        multipartner_round_files_RoundFile found = multipartner_round_files_round_file(file, places, slave,
                round);
        lists[slave] = (multipartner_round_files_OpenEntries){.start = (uint32_t)found.start,
                .end = (uint32_t)found.end};
        slave = slave + 1;
    }
}

/* multipartner::entry::ends_at. Whether the entry at a place ends the round. */
static inline _Bool multipartner_entry_ends_at(slice_u8 file, uint64_t at)
{
    uint8_t kind = file.at[at + 2];
    if (kind < 96) {
        return 0;
    }
    return kind < 128;
}

/* multipartner::entry::waits_at. Whether its first slot is yet to come. */
static inline _Bool multipartner_entry_waits_at(slice_u8 file, uint64_t at, uint64_t slot)
{
    uint8_t start = file.at[at + 3];
    return slot < (uint64_t)(uint8_t)(start % 64);
}

/* multipartner::entry::is_in_turn. Whether an entry of that kind and start is in turn in a round of that
 * epoch. Those that are not multiplexed always are. */
static inline _Bool multipartner_entry_is_in_turn(uint8_t kind, uint8_t start, uint8_t epoch)
{
    if (kind < 128) {
        return 1;
    }
    if ((uint8_t)(start / 64) != (uint8_t)(epoch % 4)) {
        return 0;
    }
    if ((uint8_t)((uint8_t)(kind / 32) % 2) == 0) {
        return 1;
    }
    return (uint8_t)((uint8_t)(epoch / 4) % 2) == (uint8_t)((uint8_t)(kind / 64) % 2);
}

/* multipartner::entry::acts_at. Whether the entry at a place acts in a slot if none before it does: it
 * covers the slot and is in turn. */
static inline _Bool multipartner_entry_acts_at(slice_u8 file, uint64_t at, uint64_t slot, uint8_t epoch)
{
    uint8_t kind = file.at[at + 2];
    uint8_t start = file.at[at + 3];
    uint64_t first = (uint64_t)(uint8_t)(start % 64);
    if (slot < first) {
        return 0;
    }
    if ((uint64_t)(uint8_t)(kind % 16) < slot - first) {
        return 0;
    }
    return multipartner_entry_is_in_turn(kind, start, epoch);
}

/* multipartner::entry::entry_operation. The one code that is left is 15, SendMux8High. */
static inline multipartner_entry_EntryOperation multipartner_entry_entry_operation(uint8_t code,
        uint8_t multiplex)
{
    switch (code) {
    case 0:
        return (multipartner_entry_EntryOperation){.tag = 0};
    case 1:
        return (multipartner_entry_EntryOperation){.tag = 1};
    case 2:
        return (multipartner_entry_EntryOperation){.tag = 2};
    case 3:
        return (multipartner_entry_EntryOperation){.tag = 3};
    case 4:
        return (multipartner_entry_EntryOperation){.tag = 4};
    case 5:
        return (multipartner_entry_EntryOperation){.tag = 5};
    case 6:
        return (multipartner_entry_EntryOperation){.tag = 6};
    case 7:
        return (multipartner_entry_EntryOperation){.tag = 7};
    case 8:
        return (multipartner_entry_EntryOperation){.tag = 8, .as.ReceiveMux4.f0 = multiplex};
    case 9:
        return (multipartner_entry_EntryOperation){.tag = 9, .as.SendMux4.f0 = multiplex};
    case 10:
        return (multipartner_entry_EntryOperation){.tag = 10, .as.ReceiveMux8.f0 = multiplex};
    case 11:
        return (multipartner_entry_EntryOperation){.tag = 11, .as.SendMux8.f0 = multiplex};
    case 12:
        return (multipartner_entry_EntryOperation){.tag = 12, .as.ReceiveSpeedupMux4.f0 = multiplex};
    case 13:
        return (multipartner_entry_EntryOperation){.tag = 13, .as.SendSpeedupMux4.f0 = multiplex};
    case 14:
        return (multipartner_entry_EntryOperation){.tag = 14, .as.ReceiveMux8High.f0 = multiplex};
    default:
        return (multipartner_entry_EntryOperation){.tag = 15, .as.SendMux8High.f0 = multiplex};
    }
}

/* multipartner::entry::entry_of. The entry of a record's four bytes. Not of an array: a contract would have
 * to name each byte by its index, as the one caller does. */
static inline multipartner_entry_Entry multipartner_entry_entry_of(uint8_t b0, uint8_t b1, uint8_t b2,
        uint8_t b3)
{
    multipartner_entry_EntryOperation t11 = multipartner_entry_entry_operation((uint8_t)(b2 / 16),
            (uint8_t)(b3 / 64));
    return (multipartner_entry_Entry){.address = (multipartner_entry_EntryAddress){.file =
            (file_types_FileNumber){.f0 = (uint8_t)(b0 / 4)}, .record = (file_types_RecordNumber){.f0 = b1},
            .align = (uint64_t)(uint8_t)(b0 % 4)}, .operation = t11, .length = (uint64_t)(uint8_t)(b2 % 16) + 1,
            .slot = (uint64_t)(uint8_t)(b3 % 64)};
}

/* multipartner::entry::entry_at. The entry at a place of the file. */
static inline multipartner_entry_Entry multipartner_entry_entry_at(slice_u8 file, uint64_t at)
{
    return multipartner_entry_entry_of(file.at[at], file.at[at + 1], file.at[at + 2], file.at[at + 3]);
}

/* multipartner::kept_files::bytes_of. Where a slave keeps a file, and how many bytes it has: none where it
 * is not there. */
static inline file_records_FileBytes multipartner_kept_files_bytes_of(slice_u8 file, uint64_t slave,
        file_types_FileNumber number)
{
    Option_file_records_FileBytes t5 = file_records_find_file(file, slave, number);
    switch (t5.tag) {
    case 1: {
        file_records_FileBytes bytes = t5.as.Some.f0;
        return bytes;
    }
    case 0:
    default:
        return (file_records_FileBytes){.place = 0, .size = 0};
    }
}

/* multipartner::kept_files::keep_file. Neighbouring entries often name one file: of each slave the file
 * named last is kept, by its number, place and size. Looked for is another one only. No round moves or
 * resizes a file. */
static inline void multipartner_kept_files_keep_file(slice_u8 file, uint64_t slave,
        file_types_FileNumber number, multipartner_kept_files_KeptFile *kept)
{
    file_types_FileNumber last = number;
    multipartner_kept_files_KeptFile bytes = kept[slave];
    if (bytes.number.f0 == last.f0) {
        return;
    }
    file_records_FileBytes t7 = multipartner_kept_files_bytes_of(file, slave, last);
    kept[slave] = (multipartner_kept_files_KeptFile){.place = (uint32_t)t7.place, .size = (uint16_t)t7.size,
            .number = last};
}

/* multipartner::entry::byte_place. The byte of the entry's file that a slot is about. */
static inline uint64_t multipartner_entry_byte_place(multipartner_entry_Entry entry, uint64_t slot)
{
    uint64_t record = (uint64_t)entry.address.record.f0;
    return 4 * record + entry.address.align + (slot - entry.slot);
}

/* multipartner::entry::action_of. One arm for each code, as in the table: patterns joined by `|` stand in as
 * many lines. */
static inline multipartner_entry_EntryAction multipartner_entry_action_of(multipartner_entry_EntryOperation
        operation)
{
    switch (operation.tag) {
    case 0:
        return (multipartner_entry_EntryAction){.tag = 0};
    case 1:
        return (multipartner_entry_EntryAction){.tag = 1};
    case 2:
        return (multipartner_entry_EntryAction){.tag = 0};
    case 3:
        return (multipartner_entry_EntryAction){.tag = 3};
    case 4:
        return (multipartner_entry_EntryAction){.tag = 0};
    case 5:
        return (multipartner_entry_EntryAction){.tag = 1};
    case 6:
        return (multipartner_entry_EntryAction){.tag = 2};
    case 7:
        return (multipartner_entry_EntryAction){.tag = 2};
    case 8:
        return (multipartner_entry_EntryAction){.tag = 0};
    case 9:
        return (multipartner_entry_EntryAction){.tag = 1};
    case 10:
        return (multipartner_entry_EntryAction){.tag = 0};
    case 11:
        return (multipartner_entry_EntryAction){.tag = 1};
    case 12:
        return (multipartner_entry_EntryAction){.tag = 0};
    case 13:
        return (multipartner_entry_EntryAction){.tag = 1};
    case 14:
        return (multipartner_entry_EntryAction){.tag = 0};
    case 15:
    default:
        return (multipartner_entry_EntryAction){.tag = 1};
    }
}

/* multipartner::slot_act::may_store. */
static inline _Bool multipartner_slot_act_may_store(multipartner_entry_Entry entry, uint64_t slot)
{
    if (entry.address.file.f0 < 16) {
        return 0;
    }
    if (60 < entry.address.file.f0) {
        return 0;
    }
    return 4 <= multipartner_entry_byte_place(entry, slot);
}

/* multipartner::slot_act::slot_act. What an entry that covers a slot makes its slave do, by where its file
 * lies and how many bytes that has. */
static inline multipartner_slot_act_SlotAct multipartner_slot_act_slot_act(slice_u8 file,
        multipartner_entry_Entry entry, uint64_t slot, uint64_t place, uint64_t size)
{
    uint64_t byte = multipartner_entry_byte_place(entry, slot);
    multipartner_entry_EntryOperation operation = entry.operation;
    multipartner_entry_EntryAction action = multipartner_entry_action_of(operation);
    switch (action.tag) {
    case 0:
        if (size <= byte) {
            return (multipartner_slot_act_SlotAct){.tag = 2};
        }
        if (!multipartner_slot_act_may_store(entry, slot)) {
            return (multipartner_slot_act_SlotAct){.tag = 2};
        }
        return (multipartner_slot_act_SlotAct){.tag = 1, .as.Stores.f0 = place + byte};
    case 1:
        if (size <= byte) {
            return (multipartner_slot_act_SlotAct){.tag = 2};
        }
        return (multipartner_slot_act_SlotAct){.tag = 0, .as.Sends.f0 = file.at[place + byte]};
    case 2:
        return (multipartner_slot_act_SlotAct){.tag = 2};
    case 3:
    default:
        return (multipartner_slot_act_SlotAct){.tag = 2};
    }
}

/* multipartner::slot_act::act_at. What the entry at a place makes its slave do. */
static inline multipartner_slot_act_SlotAct multipartner_slot_act_act_at(slice_u8 file, uint64_t slave,
        uint64_t at, uint64_t slot, multipartner_kept_files_KeptFile *kept)
{
    multipartner_entry_Entry entry = multipartner_entry_entry_at(file, at);
    multipartner_kept_files_keep_file(file, slave, entry.address.file, kept);
    return multipartner_slot_act_slot_act(file, entry, slot, (uint64_t)kept[slave].place,
            (uint64_t)kept[slave].size);
}

/* multipartner::slot_act::bus_with. The bus byte with what a slave sends. */
static inline uint8_t multipartner_slot_act_bus_with(uint8_t bus, multipartner_slot_act_SlotAct act)
{
    switch (act.tag) {
    case 0: {
        uint8_t byte = act.as.Sends.f0;
        return (uint8_t)(bus & byte);
    }
    case 1:
        return bus;
    case 2:
    default:
        return bus;
    }
}

/* multipartner::slot_act::heard_with. Whether someone sent, with what a slave does. */
static inline _Bool multipartner_slot_act_heard_with(_Bool heard, multipartner_slot_act_SlotAct act)
{
    switch (act.tag) {
    case 0:
        return 1;
    case 1:
        return heard;
    case 2:
    default:
        return heard;
    }
}

/* multipartner::stores::put_store. The places that the slot's byte is stored at, with what a slave does, and
 * how many they are. */
static inline uint64_t multipartner_stores_put_store(uint32_t *stores, uint64_t stored,
        multipartner_slot_act_SlotAct act)
{
    switch (act.tag) {
    case 0:
        return stored;
    case 1: {
        uint64_t place = act.as.Stores.f0;
        stores[stored] = (uint32_t)place;
        return stored + 1;
    }
    case 2:
    default:
        return stored;
    }
}

/* multipartner::entry::is_last. Whether a slot is its last, for an entry that has begun. */
static inline _Bool multipartner_entry_is_last(slice_u8 file, uint64_t at, uint64_t slot)
{
    uint8_t kind = file.at[at + 2];
    uint8_t start = file.at[at + 3];
    return slot - (uint64_t)(uint8_t)(start % 64) == (uint64_t)(uint8_t)(kind % 16);
}

/* multipartner::multipartner::next_past. Where the search of the next slot begins, with one more entry over:
 * past it, if the search began there. */
static inline uint64_t multipartner_multipartner_next_past(uint64_t next, uint64_t at)
{
    if (next != at) {
        return next;
    }
    return at + 4;
}

/* multipartner::multipartner::next_after. The same after a slot in which the entry acts: it is over if that
 * slot is its last. */
static inline uint64_t multipartner_multipartner_next_after(slice_u8 file, uint64_t next, uint64_t at,
        uint64_t slot)
{
    if (!multipartner_entry_is_last(file, at, slot)) {
        return next;
    }
    return multipartner_multipartner_next_past(next, at);
}

/* multipartner::stores::store. The slot's byte stored at each of those places. */
static inline void multipartner_stores_store(slice_mut_u8 file, slice_u32 places, uint8_t byte)
{
    uint64_t t4 = 0;
    uint64_t t6 = places.len;
    while (t4 < t6) {
        const uint32_t *place = places.at + t4;
        file.at[(uint64_t)*place] = byte;
        t4 = t4 + 1;
    }
}

/* multipartner::multipartner::run_slots. Slots 1 to 63 of a multipartner round. Where each slave's entries
 * lie is found once, before the first slot: no receive stores in a round file or in 0x08. From slot to slot
 * `lists` leaves out the entries in front that cannot act again: those that cover no later slot, and
 * multiplexed ones out of turn, which go by the round's epoch. */
static inline uint64_t multipartner_multipartner_run_slots(slice_mut_u8 file, const uint16_t *places,
        uint8_t round, uint8_t epoch, uint8_t firework, slice_mut_u8 buffer)
{
    uint64_t count = file_readers_slave_count(lend_u8(file));
    multipartner_round_files_OpenEntries t23 = (multipartner_round_files_OpenEntries){.start = 0, .end = 0};
    multipartner_round_files_OpenEntries lists[64];
    for (size_t at_each = 0; at_each < 64; at_each++) {
        lists[at_each] = t23;
    }
    multipartner_round_files_round_files(lend_u8(file), places, (file_types_FileNumber){.f0 = round}, lists);
    multipartner_kept_files_KeptFile t29 = (multipartner_kept_files_KeptFile){.place = 0, .size = 0,
            .number = (file_types_FileNumber){.f0 = 255}};
    multipartner_kept_files_KeptFile kept[64];
    for (size_t at_each = 0; at_each < 64; at_each++) {
        kept[at_each] = t29;
    }
    uint32_t stores[64];
    memset(stores, 0, sizeof stores);
    uint64_t mask = 0;
    buffer.at[0] = firework;
    uint64_t slot = 1;
    while (slot < 64) {
        uint8_t bus = 255;
        _Bool heard = 0;
        uint64_t stored = 0;
        uint64_t slave = 0;
        while (slave < count) {
            uint64_t end = (uint64_t)lists[slave].end;
            uint64_t at = (uint64_t)lists[slave].start;
            uint64_t next = at;
            while (at < end) {
                if (multipartner_entry_ends_at(lend_u8(file), at)) {
                    break;
                }
                if (!multipartner_entry_waits_at(lend_u8(file), at, slot)) {
                    if (multipartner_entry_acts_at(lend_u8(file), at, slot, epoch)) {
                        multipartner_slot_act_SlotAct act = multipartner_slot_act_act_at(lend_u8(file), slave,
                                at, slot, kept);
                        bus = multipartner_slot_act_bus_with(bus, act);
                        heard = multipartner_slot_act_heard_with(heard, act);
                        stored = multipartner_stores_put_store(stores, stored, act);
                        next = multipartner_multipartner_next_after(lend_u8(file), next, at, slot);
                        break;
                    }
                    next = multipartner_multipartner_next_past(next, at);
                }
                at = at + 4;
            }
            lists[slave].start = (uint32_t)next;
            slave = slave + 1;
        }
        if (heard) {
            mask = master_slave_slots_with_sender(mask, slot);
            multipartner_stores_store(file, (slice_u32){stores, stored}, bus);
        }
        buffer.at[slot] = bus;
        slot = slot + 1;
    }
    return mask;
}

/* multipartner::multipartner::carry_multipartner. One multipartner frame: the round of that number, after
 * which everyone is awake. The mask of the slots in which someone sent. */
static inline uint64_t multipartner_multipartner_carry_multipartner(slice_mut_u8 file, const uint16_t *places,
        uint8_t round, uint8_t firework, slice_mut_u8 buffer)
{
    master_slave_epoch_raise_epoch(file);
    uint8_t epoch = file_readers_read_epoch(lend_u8(file));
    uint64_t mask = multipartner_multipartner_run_slots(file, places, round, epoch, firework, buffer);
    master_slave_sleep_wake_slaves(file);
    return mask;
}

/* cluster::round::one_frame. One frame of any bytes on a file that is known to be accepted, with the places
 * that its survey handed back. */
static inline Result_u64_file_types_Refusal cluster_round_one_frame(slice_mut_u8 file, const uint16_t *places,
        slice_u8 frame, slice_mut_u8 buffer)
{
    Option_frame_firework_Firework t7 = cluster_round_firework_in(frame);
    frame_firework_Firework firework;
    switch (t7.tag) {
    case 1:
        firework = t7.as.Some.f0;
        break;
    case 0:
    default:
        return (Result_u64_file_types_Refusal){.tag = 1, .as.Err.f0 = (file_types_Refusal){.tag = 9}};
    }
    switch (firework.tag) {
    case 2:
        return cluster_msa_take_address(file, frame, buffer);
    case 1:
        return cluster_msd_take_data(file, places, frame, buffer);
    case 0:
    default: {
        uint8_t round = firework.as.Multipartner.f0;
        if (frame.len != 1) {
            return (Result_u64_file_types_Refusal){.tag = 1, .as.Err.f0 = (file_types_Refusal){.tag = 10}};
        }
        return (Result_u64_file_types_Refusal){.tag = 0, .as.Ok.f0 =
                multipartner_multipartner_carry_multipartner(file, places, round, frame.at[0], buffer)};
    }
    }
}

/* cluster::round::round. One frame on a file: refused by its number, with nothing altered, or carried out,
 * with the mask of the slots in which someone sent. */
static inline Result_u64_file_types_Refusal cluster_round_round(slice_mut_u8 file, slice_u8 frame,
        slice_mut_u8 buffer)
{
    uint16_t places[130];
    memset(places, 0, sizeof places);
    Result_unit_file_types_Refusal t8 = file_survey_survey(lend_u8(file), places);
    if (t8.tag != 0) {
        return (Result_u64_file_types_Refusal){.tag = 1, .as.Err.f0 = t8.as.Err.f0};
    }
    if (buffer.len < 64) {
        return (Result_u64_file_types_Refusal){.tag = 1, .as.Err.f0 = (file_types_Refusal){.tag = 8}};
    }
    return cluster_round_one_frame(file, places, frame, buffer);
}

/* ttpa::ttpa_round. */
uint8_t ttpa_round(uint8_t *file_at, size_t file_len, const uint8_t *frame_at, size_t frame_len,
        uint8_t *answer_at, size_t answer_len, uint64_t *senders)
{
    slice_mut_u8 file = {file_at, file_len};
    slice_u8 frame = {frame_at, frame_len};
    slice_mut_u8 answer = {answer_at, answer_len};
    Result_u64_file_types_Refusal t5 = cluster_round_round(file, frame, answer);
    switch (t5.tag) {
    case 1:
        return file_types_Refusal_number(t5.as.Err.f0);
    case 0:
    default:
        *senders = t5.as.Ok.f0;
        return 0;
    }
}

/* summary::matching::is_wrong. Whether the count is not that of the file's slaves, or the slice does not
 * begin with their names. The C interface hands in slice and count apart, here and in the calls, and 24
 * speaks of a count above the slice's length too. File and places stay two arguments, as `naming::run` says. */
static inline _Bool summary_matching_is_wrong(slice_u8 file, const uint16_t *places, slice_u8 held,
        uint64_t count)
{
    if (held.len < count) {
        return 1;
    }
    if (count != file_readers_slave_count(file)) {
        return 1;
    }
    uint64_t slave = 0;
    while (slave < count) {
        file_types_LogicalName name = file_readers_logical_name(file, places, slave);
        if (held.at[slave] != name.f0) {
            return 1;
        }
        slave = slave + 1;
    }
    return 0;
}

/* summary::round::carry_keeping. One frame on a file that is known to be accepted; where it is carried out,
 * the names that the file then holds are put into the slice. */
static inline Result_u64_file_types_Refusal summary_round_carry_keeping(slice_mut_u8 file,
        const uint16_t *places, slice_u8 frame, slice_mut_u8 buffer, slice_mut_u8 held)
{
    Result_u64_file_types_Refusal t10 = cluster_round_one_frame(file, places, frame, buffer);
    if (t10.tag != 0) {
        return (Result_u64_file_types_Refusal){.tag = 1, .as.Err.f0 = t10.as.Err.f0};
    }
    uint64_t mask = t10.as.Ok.f0;
    file_readers_logical_names(lend_u8(file), places, held);
    return (Result_u64_file_types_Refusal){.tag = 0, .as.Ok.f0 = mask};
}

/* summary::round::round_keeping. One frame on a file with its summary: refused by its number, with nothing
 * altered, or carried out, with the mask of the slots in which someone sent. The file is checked once. */
static inline Result_u64_file_types_Refusal summary_round_round_keeping(slice_mut_u8 file, slice_u8 frame,
        slice_mut_u8 buffer, slice_mut_u8 held, uint64_t count)
{
    uint16_t places[130];
    memset(places, 0, sizeof places);
    Result_unit_file_types_Refusal t10 = file_survey_survey(lend_u8(file), places);
    if (t10.tag != 0) {
        return (Result_u64_file_types_Refusal){.tag = 1, .as.Err.f0 = t10.as.Err.f0};
    }
    if (summary_matching_is_wrong(lend_u8(file), places, lend_u8(held), count)) {
        return (Result_u64_file_types_Refusal){.tag = 1, .as.Err.f0 = (file_types_Refusal){.tag = 23}};
    }
    if (buffer.len < 64) {
        return (Result_u64_file_types_Refusal){.tag = 1, .as.Err.f0 = (file_types_Refusal){.tag = 8}};
    }
    return summary_round_carry_keeping(file, places, frame, buffer, held);
}

/* ttpa::ttpa_round_keeping. */
uint8_t ttpa_round_keeping(uint8_t *file_at, size_t file_len, const uint8_t *frame_at, size_t frame_len,
        uint8_t *answer_at, size_t answer_len, uint64_t *senders, uint8_t *held_at, size_t held_len,
        uint64_t count)
{
    slice_mut_u8 file = {file_at, file_len};
    slice_u8 frame = {frame_at, frame_len};
    slice_mut_u8 answer = {answer_at, answer_len};
    slice_mut_u8 held = {held_at, held_len};
    Result_u64_file_types_Refusal t7 = summary_round_round_keeping(file, frame, answer, held, count);
    switch (t7.tag) {
    case 1:
        return file_types_Refusal_number(t7.as.Err.f0);
    case 0:
    default:
        *senders = t7.as.Ok.f0;
        return 0;
    }
}

/* screens::state::fresh_state. "from screen 0 at the start": the one last served is the last. */
static inline array_u8_33 screens_state_fresh_state(void)
{
    uint8_t state[33];
    memset(state, 0, sizeof state);
    state[0] = 7;
    array_u8_33 t0;
    memcpy(t0.at, state, sizeof t0.at);
    return t0;
}

/* ttpa::ttpa_screens. */
uint8_t ttpa_screens(uint8_t state[33])
{
    array_u8_33 t2 = screens_state_fresh_state();
    memcpy(state, t2.at, 33);
    return 0;
}

/* convert::editions::width_in. The bytes of an offset in an edition: "In edition 2 offsets and length have 4
 * bytes". A number and no enum: each size and place is a product with it. */
static inline uint64_t convert_editions_width_in(convert_editions_Edition edition)
{
    switch (edition.tag) {
    case 0:
        return 2;
    case 1:
    default:
        return 4;
    }
}

/* convert::header::put_header. The header of a file's form at a width: the epoch and the pending bytes are
 * the file's. */
static inline void convert_header_put_header(slice_mut_u8 out, uint64_t width, uint64_t size, slice_u8 file)
{
    convert_header_put_front(out, width, file_readers_slave_count(file), size);
    uint64_t epoch = file_readers_epoch_place(file);
    uint64_t fields = 4 + 2 * width;
    convert_put_put_run(out, fields, file, epoch, epoch + 5);
    convert_put_put_zeros(out, fields + 5, 2 * width - 1);
}

/* convert::convert::put_form. A file's form at a width other than its own, of that length: the header, then
 * each slave and its table entry. */
static inline void convert_convert_put_form(slice_mut_u8 out, uint64_t width, uint64_t size, slice_u8 file)
{
    uint64_t table = 8 + 4 * width;
    uint64_t place = table + (2 * width) * file_readers_slave_count(file);
    convert_header_put_header(out, width, size, file);
    convert_slaves_put_slaves(out, width, table, place, file, (convert_table_SleepBytes){.tag = 0});
}

/* convert::convert::put_file. A file's form at a width, of that length: "Converting to the edition a file
 * already has copies it." */
static inline void convert_convert_put_file(slice_mut_u8 out, uint64_t width, uint64_t size, slice_u8 file)
{
    if (width == file_readers_width_of(file)) {
        convert_put_put_run(out, 0, file, 0, size);
        return;
    }
    convert_convert_put_form(out, width, size, file);
}

/* convert::convert::convert. The file's form in an edition, written into the buffer: refused by its number,
 * with the buffer as it was, or written, with how many bytes it has. The file is checked once, and each byte
 * is written once. */
static inline Result_u64_file_types_Refusal convert_convert_convert(slice_u8 file,
        convert_editions_Edition edition, slice_mut_u8 out)
{
    uint16_t places[130];
    memset(places, 0, sizeof places);
    Result_unit_file_types_Refusal t10 = file_survey_survey(file, places);
    if (t10.tag != 0) {
        return (Result_u64_file_types_Refusal){.tag = 1, .as.Err.f0 = t10.as.Err.f0};
    }
    uint64_t width = convert_editions_width_in(edition);
    uint64_t size = convert_sizes_length_in(file, width);
    if (convert_convert_is_over(width, file_readers_slave_count(file), size)) {
        return (Result_u64_file_types_Refusal){.tag = 1, .as.Err.f0 = (file_types_Refusal){.tag = 24}};
    }
    if (out.len < size) {
        return (Result_u64_file_types_Refusal){.tag = 1, .as.Err.f0 = (file_types_Refusal){.tag = 25}};
    }
    convert_convert_put_file(out, width, size, file);
    return (Result_u64_file_types_Refusal){.tag = 0, .as.Ok.f0 = size};
}

/* ttpa::to_edition. A file's form in an edition: the number, and the form's length in the lent word. */
static inline uint8_t ttpa_to_edition(slice_u8 file, convert_editions_Edition edition, slice_mut_u8 out,
        uint64_t *length)
{
    Result_u64_file_types_Refusal t6 = convert_convert_convert(file, edition, out);
    Result_u64_file_types_Refusal t35;
    if (t6.tag != 0) {
        t35 = (Result_u64_file_types_Refusal){.tag = 1, .as.Err.f0 = t6.as.Err.f0};
    } else {
        t35 = (Result_u64_file_types_Refusal){.tag = 0, .as.Ok.f0 = t6.as.Ok.f0};
    }
    switch (t35.tag) {
    case 1:
        return file_types_Refusal_number(t35.as.Err.f0);
    case 0:
    default:
        *length = t35.as.Ok.f0;
        return 0;
    }
}

/* ttpa::ttpa_to_edition_1. */
uint8_t ttpa_to_edition_1(const uint8_t *file_at, size_t file_len, uint8_t *out_at, size_t out_len,
        uint64_t *length)
{
    slice_u8 file = {file_at, file_len};
    slice_mut_u8 out = {out_at, out_len};
    return ttpa_to_edition(file, (convert_editions_Edition){.tag = 0}, out, length);
}

/* ttpa::ttpa_to_edition_2. */
uint8_t ttpa_to_edition_2(const uint8_t *file_at, size_t file_len, uint8_t *out_at, size_t out_len,
        uint64_t *length)
{
    slice_u8 file = {file_at, file_len};
    slice_mut_u8 out = {out_at, out_len};
    return ttpa_to_edition(file, (convert_editions_Edition){.tag = 1}, out, length);
}

/* trace::layout::whole_rows. Whether the rows from the header on state frames that fill the data in order
 * without gap. */
static inline _Bool trace_layout_whole_rows(slice_u8 trace, uint64_t count)
{
    uint64_t place = 0;
    uint64_t index = 0;
    while (index < count) {
        uint64_t row = 4 + 3 * index;
        if (file_numbers_u16_at(trace, row) != place) {
            return 0;
        }
        place = place + file_numbers_byte_at(trace, row + 2);
        index = index + 1;
    }
    return place == file_numbers_u16_at(trace, 2);
}

/* trace::layout::is_broken. "19, a trace whose header, offsets or length break this layout" */
static inline _Bool trace_layout_is_broken(slice_u8 trace)
{
    if (trace.len < 4) {
        return 1;
    }
    if (16384 < trace.len) {
        return 1;
    }
    uint64_t count = file_numbers_u16_at(trace, 0);
    if (trace.len != 4 + 3 * count + file_numbers_u16_at(trace, 2)) {
        return 1;
    }
    return !trace_layout_whole_rows(trace, count);
}

/* cluster::answer::is_carried. Whether a frame was carried out. */
static inline _Bool cluster_answer_is_carried(Result_u64_file_types_Refusal answer)
{
    return answer.tag == 0;
}

/* master_slave::sleep::leaves_slaves. Whether a duty leaves slaves that are awake as they are: they send, or
 * do nothing. */
static inline _Bool master_slave_sleep_leaves_slaves(master_slave_pending_Duty duty)
{
    switch (duty.tag) {
    case 0:
    case 1:
    case 3:
        return 1;
    case 2:
    case 4:
    case 5:
    default:
        return 0;
    }
}

/* cluster::msd::carry_unheard. The data part of a round that nobody hears. Whether someone may be asleep,
 * before and afterwards: where nobody is, a duty that leaves the slaves as they are raises the epoch alone. */
static inline _Bool cluster_msd_carry_unheard(slice_mut_u8 file, const uint16_t *places,
        master_slave_types_DataBytes bytes, slice_mut_u8 buffer, _Bool sleepers)
{
    master_slave_pending_PendingDuty pending = master_slave_pending_pending_duty(lend_u8(file));
    master_slave_pending_Duty duty = pending.duty;
    if (master_slave_sleep_leaves_slaves(duty)) {
        if (!sleepers) {
            master_slave_epoch_raise_epoch(file);
            return 0;
        }
    }
    (void)master_slave_master_slave_carry_data(file, places, bytes, buffer);
    return master_slave_sleep_puts_to_sleep(duty);
}

/* cluster::msd::take_unheard. A data frame that nobody hears. No twin of `take_data`: it carries out less
 * (`carry_unheard`) and answers who may be asleep, and no mask. */
static inline cluster_answer_Unheard cluster_msd_take_unheard(slice_mut_u8 file, const uint16_t *places,
        slice_u8 frame, slice_mut_u8 buffer, _Bool sleepers)
{
    Result_master_slave_types_DataBytes_file_types_Refusal reading = cluster_msd_read_data(lend_u8(file),
            frame);
    switch (reading.tag) {
    case 1:
        return (cluster_answer_Unheard){.carried = 0, .sleepers = sleepers};
    case 0:
    default: {
        master_slave_types_DataBytes bytes = reading.as.Ok.f0;
        _Bool asleep = cluster_msd_carry_unheard(file, places, bytes, buffer, sleepers);
        return (cluster_answer_Unheard){.carried = 1, .sleepers = asleep};
    }
    }
}

/* cluster::round::one_unheard. The same of a frame that nobody hears, by the round that it opens. Whether
 * someone may be asleep before it, and afterwards. Each of its four arms calls another function than that of
 * `one_frame` or answers otherwise: the two differ in more than a type or a constant. */
static inline cluster_answer_Unheard cluster_round_one_unheard(slice_mut_u8 file, const uint16_t *places,
        Option_frame_firework_Firework firework, slice_u8 frame, slice_mut_u8 buffer, _Bool sleepers)
{
    frame_firework_Firework opened;
    switch (firework.tag) {
    case 1:
        opened = firework.as.Some.f0;
        break;
    case 0:
    default:
        return (cluster_answer_Unheard){.carried = 0, .sleepers = sleepers};
    }
    switch (opened.tag) {
    case 2: {
        Result_u64_file_types_Refusal answer = cluster_msa_pend_address(file, frame);
        return (cluster_answer_Unheard){.carried = cluster_answer_is_carried(answer), .sleepers = sleepers};
    }
    case 1:
        return cluster_msd_take_unheard(file, places, frame, buffer, sleepers);
    case 0:
    default: {
        uint8_t round = opened.as.Multipartner.f0;
        if (frame.len != 1) {
            return (cluster_answer_Unheard){.carried = 0, .sleepers = sleepers};
        }
        (void)multipartner_multipartner_carry_multipartner(file, places, round, frame.at[0], buffer);
        return (cluster_answer_Unheard){.carried = 1, .sleepers = 0};
    }
    }
}

/* trace::report::one_carried. A frame that was carried out, by its firework. None without one is. */
static inline trace_report_Report trace_report_one_carried(trace_report_Report report,
        Option_frame_firework_Firework firework)
{
    frame_firework_Firework opened;
    switch (firework.tag) {
    case 1:
        opened = firework.as.Some.f0;
        break;
    case 0:
    default:
        return (trace_report_Report){.msa = report.msa, .msd = report.msd, .multipartner = report.multipartner,
                .refused = report.refused + 1};
    }
    switch (opened.tag) {
    case 2:
        return (trace_report_Report){.msa = report.msa + 1, .msd = report.msd,
                .multipartner = report.multipartner, .refused = report.refused};
    case 1:
        return (trace_report_Report){.msa = report.msa, .msd = report.msd + 1,
                .multipartner = report.multipartner, .refused = report.refused};
    case 0:
    default:
        return (trace_report_Report){.msa = report.msa, .msd = report.msd,
                .multipartner = report.multipartner + 1, .refused = report.refused};
    }
}

/* trace::report::counted. One frame more: "a refused frame counting as refused only". Two arguments and no
 * Option: a refused frame has its firework too, and an Option would be made of the two at the one call. */
static inline trace_report_Report trace_report_counted(trace_report_Report report, _Bool carried,
        Option_frame_firework_Firework firework)
{
    if (!carried) {
        return (trace_report_Report){.msa = report.msa, .msd = report.msd, .multipartner = report.multipartner,
                .refused = report.refused + 1};
    }
    return trace_report_one_carried(report, firework);
}

/* trace::run::run_frame. One frame sent and counted. Nobody hears its answer: the buffer is one for all
 * frames. File and places stay two arguments, as `naming::run` says. */
static inline trace_run_Progress trace_run_run_frame(slice_mut_u8 file, const uint16_t *places, slice_u8 frame,
        uint8_t *buffer, trace_run_Progress before)
{
    Option_frame_firework_Firework firework = cluster_round_firework_in(frame);
    cluster_answer_Unheard sent = cluster_round_one_unheard(file, places, firework, frame,
            (slice_mut_u8){buffer, 64}, before.sleepers);
    trace_report_Report report = trace_report_counted(before.report, sent.carried, firework);
    return (trace_run_Progress){.report = report, .sleepers = sent.sleepers};
}

/* trace::run::run_frames. The frames of a trace that does not break the layout, each sent and counted. No
 * frame moves the slaves' files, so the places stay what they are. */
static inline trace_report_Report trace_run_run_frames(slice_mut_u8 file, const uint16_t *places,
        slice_u8 trace)
{
    uint64_t count = file_numbers_u16_at(trace, 0);
    uint8_t buffer[64];
    memset(buffer, 0, sizeof buffer);
    trace_run_Progress progress = (trace_run_Progress){.report = (trace_report_Report){.msa = 0, .msd = 0,
            .multipartner = 0, .refused = 0}, .sleepers = 1};
    uint64_t start = 4 + 3 * count;
    uint64_t index = 0;
    while (index < count) {
        uint64_t row = 4 + 3 * index;
        uint64_t end = start + file_numbers_byte_at(trace, row + 2);
        progress = trace_run_run_frame(file, places, (slice_u8){cut_u8(trace.at, start), end - start}, buffer,
                progress);
        start = end;
        index = index + 1;
    }
    return progress.report;
}

/* trace::run::run_trace. A trace on a file: refused by its number, with the file as it was, or run, with the
 * report. The file is checked once. */
static inline Result_trace_report_Report_file_types_Refusal trace_run_run_trace(slice_mut_u8 file,
        slice_u8 trace)
{
    uint16_t places[130];
    memset(places, 0, sizeof places);
    Result_unit_file_types_Refusal t7 = file_survey_survey(lend_u8(file), places);
    if (t7.tag != 0) {
        return (Result_trace_report_Report_file_types_Refusal){.tag = 1, .as.Err.f0 = t7.as.Err.f0};
    }
    if (trace_layout_is_broken(trace)) {
        return (Result_trace_report_Report_file_types_Refusal){.tag = 1,
                .as.Err.f0 = (file_types_Refusal){.tag = 18}};
    }
    return (Result_trace_report_Report_file_types_Refusal){.tag = 0, .as.Ok.f0 = trace_run_run_frames(file,
            places, trace)};
}

/* ttpa::report_words. */
static inline array_u64_5 ttpa_report_words(trace_report_Report report)
{
    return (array_u64_5){{report.msa, report.msd, report.multipartner, report.refused,
            report.msa + report.msd + report.multipartner + report.refused}};
}

/* ttpa::ttpa_trace. */
uint8_t ttpa_trace(uint8_t *file_at, size_t file_len, const uint8_t *trace_at, size_t trace_len,
        uint64_t report[5])
{
    slice_mut_u8 file = {file_at, file_len};
    slice_u8 trace = {trace_at, trace_len};
    Result_trace_report_Report_file_types_Refusal t6 = trace_run_run_trace(file, trace);
    switch (t6.tag) {
    case 1: {
        file_types_Refusal why = t6.as.Err.f0;
        return file_types_Refusal_number(why);
    }
    case 0:
    default: {
        trace_report_Report counts = t6.as.Ok.f0;
        array_u64_5 t10 = ttpa_report_words(counts);
        memcpy(report, t10.at, 5 * sizeof(uint64_t));
        return 0;
    }
    }
}

/* screens::state::next_screen. */
static inline uint8_t screens_state_next_screen(uint8_t screen)
{
    return (uint8_t)((uint8_t)(screen + 1) % 8);
}

/* screens::state::due_screen. "the next waiting screen after the one last served, in cyclic order": that one
 * itself is asked last. None where nobody waits. */
static inline Option_u8 screens_state_due_screen(const uint8_t *state)
{
    uint8_t screen = state[0];
    uint8_t asked = 0;
    while (asked < 8) {
        screen = screens_state_next_screen(screen);
        if (screens_state_is_waiting(state, screen)) {
            return (Option_u8){.tag = 1, .as.Some.f0 = screen};
        }
        asked = (uint8_t)(asked + 1);
    }
    return (Option_u8){.tag = 0};
}

/* screens::state::read_at. The read in a screen's four bytes. Of a slice, since the elements of a lent array
 * are not known to be bytes. */
static inline master_slave_types_RecordAddress screens_state_read_at(slice_u8 state, uint64_t place)
{
    file_types_LogicalName name = file_types_LogicalName_new(state.at[place + 1]);
    file_types_FileNumber number = (file_types_FileNumber){.f0 = state.at[place + 2]};
    file_types_RecordNumber record = (file_types_RecordNumber){.f0 = state.at[place + 3]};
    return (master_slave_types_RecordAddress){.name = name, .number = number, .record = record};
}

/* screens::state::posted_read. */
static inline master_slave_types_RecordAddress screens_state_posted_read(const uint8_t *state, uint8_t screen)
{
    uint64_t place = screens_state_place_of(screen);
    return screens_state_read_at((slice_u8){state, 33}, place);
}

/* screens::turn::due_ground. 18 and 14 on the read that is due, of a state that 27 does not refuse. Neither
 * holds where nobody waits. */
static inline Result_unit_file_types_Refusal screens_turn_due_ground(const uint8_t *state, Option_u8 next)
{
    switch (next.tag) {
    case 0:
        return (Result_unit_file_types_Refusal){.tag = 0};
    case 1:
    default: {
        uint8_t screen = next.as.Some.f0;
        return screens_post_read_ground(screens_state_posted_read(state, screen));
    }
    }
}

/* screens::turn::read_round. A read, as a complete round. */
static inline master_slave_types_MasterSlaveRound screens_turn_read_round(master_slave_types_RecordAddress read)
{
    return (master_slave_types_MasterSlaveRound){.name = read.name, .number = read.number,
            .operation = (file_types_Operation){.f0 = 0}, .record = read.record, .b0 = 0, .b1 = 0, .b2 = 0,
            .b3 = 0};
}

/* master_slave::master_slave::master_slave. The operation becomes pending and is carried out. The mask of
 * the data part. */
static inline uint64_t master_slave_master_slave_master_slave(slice_mut_u8 file, const uint16_t *places,
        uint8_t epoch, master_slave_types_MasterSlaveRound round, slice_mut_u8 buffer)
{
    master_slave_pending_become_pending(file, epoch, round.name, round.number, round.operation, round.record);
    master_slave_types_DataBytes bytes = (master_slave_types_DataBytes){.b0 = round.b0, .b1 = round.b1,
            .b2 = round.b2, .b3 = round.b3};
    return master_slave_master_slave_carry_data(file, places, bytes, buffer);
}

/* cluster::sending::send. The round as a master sends it, "PB0 being the file's epoch plus 1 modulo 256".
 * The mask of its data frame. */
static inline uint64_t cluster_sending_send(slice_mut_u8 file, const uint16_t *places,
        master_slave_types_MasterSlaveRound round, slice_mut_u8 buffer)
{
    uint8_t epoch = master_slave_epoch_next_epoch(file_readers_read_epoch(lend_u8(file)));
    return master_slave_master_slave_master_slave(file, places, epoch, round, buffer);
}

/* screens::state::mark_served. A screen that is served is the one last served, and waits no more. */
static inline void screens_state_mark_served(uint8_t *state, uint8_t screen)
{
    uint64_t place = screens_state_place_of(screen);
    state[0] = screen;
    state[place] = 0;
}

/* screens::turn::serve. The turn, where no ground refuses it: nothing where nobody waits, or the round of
 * the read that is due. File and places stay two arguments, as `naming::run` says. */
static inline Option_screens_turn_Served screens_turn_serve(slice_mut_u8 file, const uint16_t *places,
        uint8_t *state, Option_u8 next, slice_mut_u8 buffer)
{
    switch (next.tag) {
    case 0:
        return (Option_screens_turn_Served){.tag = 0};
    case 1:
    default: {
        uint8_t screen = next.as.Some.f0;
        master_slave_types_RecordAddress read = screens_state_posted_read(state, screen);
        master_slave_types_MasterSlaveRound t13 = screens_turn_read_round(read);
        uint64_t senders = cluster_sending_send(file, places, t13, buffer);
        screens_state_mark_served(state, screen);
        return (Option_screens_turn_Served){.tag = 1, .as.Some.f0 = (screens_turn_Served){.screen = screen,
                .senders = senders}};
    }
    }
}

/* screens::turn::turn. "A turn serves the next waiting screen after the one last served" */
static inline Result_Option_screens_turn_Served_file_types_Refusal screens_turn_turn(slice_mut_u8 file,
        uint8_t *state, slice_mut_u8 buffer)
{
    if (7 < state[0]) {
        return (Result_Option_screens_turn_Served_file_types_Refusal){.tag = 1,
                .as.Err.f0 = (file_types_Refusal){.tag = 26}};
    }
    Option_u8 next = screens_state_due_screen(state);
    Result_unit_file_types_Refusal t17 = screens_turn_due_ground(state, next);
    if (t17.tag != 0) {
        return (Result_Option_screens_turn_Served_file_types_Refusal){.tag = 1, .as.Err.f0 = t17.as.Err.f0};
    }
    uint16_t places[130];
    memset(places, 0, sizeof places);
    t17 = file_survey_survey(lend_u8(file), places);
    if (t17.tag != 0) {
        return (Result_Option_screens_turn_Served_file_types_Refusal){.tag = 1, .as.Err.f0 = t17.as.Err.f0};
    }
    if (buffer.len < 64) {
        return (Result_Option_screens_turn_Served_file_types_Refusal){.tag = 1,
                .as.Err.f0 = (file_types_Refusal){.tag = 8}};
    }
    return (Result_Option_screens_turn_Served_file_types_Refusal){.tag = 0, .as.Ok.f0 = screens_turn_serve(file,
            places, state, next, buffer)};
}

/* ttpa::ttpa_turn. */
uint8_t ttpa_turn(uint8_t *file_at, size_t file_len, uint8_t state[33], uint8_t *answer_at, size_t answer_len,
        uint64_t *senders, uint8_t *screen)
{
    slice_mut_u8 file = {file_at, file_len};
    slice_mut_u8 answer = {answer_at, answer_len};
    Result_Option_screens_turn_Served_file_types_Refusal t9 = screens_turn_turn(file, state, answer);
    switch (t9.tag) {
    case 1: {
        file_types_Refusal why = t9.as.Err.f0;
        return file_types_Refusal_number(why);
    }
    case 0:
    default: {
        Option_screens_turn_Served done = t9.as.Ok.f0;
        uint8_t t16;
        switch (done.tag) {
        case 0:
            *screen = 8;
            t16 = 0;
            break;
        case 1:
        default: {
            screens_turn_Served served = done.as.Some.f0;
            *senders = served.senders;
            *screen = served.screen;
            t16 = 0;
            break;
        }
        }
        return t16;
    }
    }
}

/* ttpa::ttpa_version. */
uint32_t ttpa_version(void)
{
    return 10100;
}

/* frame::writer::put_frame. "MSD is 6 bytes (0x49, four data bytes, check)": at the same places. */
static inline void frame_writer_put_frame(slice_mut_u8 buf, uint8_t firework, const uint8_t *bytes,
        uint8_t check)
{
    buf.at[0] = firework;
    buf.at[1] = bytes[0];
    buf.at[2] = bytes[1];
    buf.at[3] = bytes[2];
    buf.at[4] = bytes[3];
    buf.at[5] = check;
}

/* frame::writer::write_address. */
static inline Result_unit_file_types_Refusal frame_writer_write_address(slice_mut_u8 buf, uint8_t epoch,
        file_types_LogicalName name, file_types_FileNumber file, file_types_Operation operation,
        file_types_RecordNumber record)
{
    file_types_FileNumber pb2 = file;
    if (buf.len < 6) {
        return (Result_unit_file_types_Refusal){.tag = 1, .as.Err.f0 = (file_types_Refusal){.tag = 8}};
    }
    if (file_operations_is_no_operation(operation)) {
        return (Result_unit_file_types_Refusal){.tag = 1, .as.Err.f0 = (file_types_Refusal){.tag = 12}};
    }
    if (file_operations_is_broadcast_read(operation, name)) {
        return (Result_unit_file_types_Refusal){.tag = 1, .as.Err.f0 = (file_types_Refusal){.tag = 13}};
    }
    if (63 < pb2.f0) {
        return (Result_unit_file_types_Refusal){.tag = 1, .as.Err.f0 = (file_types_Refusal){.tag = 17}};
    }
    uint8_t check = file_operations_pb2_of(pb2, operation);
    uint8_t t9 = frame_check_address_check(epoch, name.f0, check, record.f0);
    uint8_t t25[4];
    t25[0] = epoch;
    t25[1] = name.f0;
    t25[2] = check;
    t25[3] = record.f0;
    frame_writer_put_frame(buf, 85, t25, t9);
    return (Result_unit_file_types_Refusal){.tag = 0};
}

/* ttpa::ttpa_write_address. */
uint8_t ttpa_write_address(uint8_t *frame_at, size_t frame_len, uint8_t epoch, uint8_t name, uint8_t file,
        uint8_t operation, uint8_t record)
{
    slice_mut_u8 frame = {frame_at, frame_len};
    file_types_LogicalName t10 = file_types_LogicalName_new(name);
    Result_unit_file_types_Refusal t7 = frame_writer_write_address(frame, epoch, t10,
            (file_types_FileNumber){.f0 = file}, (file_types_Operation){.f0 = operation},
            (file_types_RecordNumber){.f0 = record});
    switch (t7.tag) {
    case 0:
        return 0;
    case 1:
    default:
        return file_types_Refusal_number(t7.as.Err.f0);
    }
}

/* frame::writer::write_data. */
static inline Result_unit_file_types_Refusal frame_writer_write_data(slice_mut_u8 buf, uint8_t b0, uint8_t b1,
        uint8_t b2, uint8_t b3)
{
    if (buf.len < 6) {
        return (Result_unit_file_types_Refusal){.tag = 1, .as.Err.f0 = (file_types_Refusal){.tag = 8}};
    }
    uint8_t check = frame_check_data_check(b0, b1, b2, b3);
    uint8_t t13[4];
    t13[0] = b0;
    t13[1] = b1;
    t13[2] = b2;
    t13[3] = b3;
    frame_writer_put_frame(buf, 73, t13, check);
    return (Result_unit_file_types_Refusal){.tag = 0};
}

/* ttpa::ttpa_write_data. */
uint8_t ttpa_write_data(uint8_t *frame_at, size_t frame_len, uint8_t b0, uint8_t b1, uint8_t b2, uint8_t b3)
{
    slice_mut_u8 frame = {frame_at, frame_len};
    Result_unit_file_types_Refusal t6 = frame_writer_write_data(frame, b0, b1, b2, b3);
    switch (t6.tag) {
    case 0:
        return 0;
    case 1:
    default:
        return file_types_Refusal_number(t6.as.Err.f0);
    }
}

/* naming::names::marked_ground. Both grounds in one loop without an exit, from the last name to the first:
 * which names there are, and whether one is there twice. */
static inline Result_unit_file_types_Refusal naming_names_marked_ground(slice_u8 names)
{
    _Bool seen[256];
    memset(seen, 0, sizeof seen);
    _Bool twice = 0;
    uint64_t i = names.len;
    while (0 < i) {
        i = i - 1;
        uint64_t mark = (uint64_t)names.at[i];
        if (seen[mark]) {
            twice = 1;
        }
        seen[mark] = 1;
    }
    if (seen[UINT64_C(0)]) {
        return (Result_unit_file_types_Refusal){.tag = 1, .as.Err.f0 = (file_types_Refusal){.tag = 14}};
    }
    if (seen[UINT64_C(255)]) {
        return (Result_unit_file_types_Refusal){.tag = 1, .as.Err.f0 = (file_types_Refusal){.tag = 14}};
    }
    if (twice) {
        return (Result_unit_file_types_Refusal){.tag = 1, .as.Err.f0 = (file_types_Refusal){.tag = 15}};
    }
    return (Result_unit_file_types_Refusal){.tag = 0};
}

/* naming::names::is_unfit_name. Ground 15, of one name. */
static inline _Bool naming_names_is_unfit_name(file_types_LogicalName name)
{
    _Bool t3 = name.f0 == 0;
    if (!t3) {
        t3 = name.f0 == 255;
    }
    return t3;
}

/* naming::names::names_ground. A list of names is accepted, or refused by its ground. One name needs no
 * marks. */
static inline Result_unit_file_types_Refusal naming_names_names_ground(slice_u8 names)
{
    if (names.len != 1) {
        return naming_names_marked_ground(names);
    }
    if (naming_names_is_unfit_name(file_types_LogicalName_new(names.at[0]))) {
        return (Result_unit_file_types_Refusal){.tag = 1, .as.Err.f0 = (file_types_Refusal){.tag = 14}};
    }
    return (Result_unit_file_types_Refusal){.tag = 0};
}

/* naming::position::end_at. */
static inline uint64_t naming_position_end_at(uint64_t count, uint64_t index)
{
    if (index < count) {
        return 0;
    }
    return 2;
}

/* naming::position::first_position. A fresh run over a list of so many names. */
static inline naming_position_RunPosition naming_position_first_position(slice_u8 names)
{
    uint64_t t2 = naming_position_end_at(names.len, 0);
    return (naming_position_RunPosition){.end = t2, .place = (naming_position_RunPlace){.index = 0, .step = 0,
            .value = 0}, .counts = (naming_position_RunCounts){.rounds = 0, .comparisons = 0},
            .halves = (naming_position_RunHalves){.high = 0, .low = 0}};
}

/* naming::run::start. A fresh run over a list of names. */
static inline Result_naming_position_RunPosition_file_types_Refusal naming_run_start(slice_u8 names)
{
    Result_unit_file_types_Refusal t5 = naming_names_names_ground(names);
    if (t5.tag != 0) {
        return (Result_naming_position_RunPosition_file_types_Refusal){.tag = 1, .as.Err.f0 = t5.as.Err.f0};
    }
    return (Result_naming_position_RunPosition_file_types_Refusal){.tag = 0,
            .as.Ok.f0 = naming_position_first_position(names)};
}

/* ttpa::words_of. */
static inline array_u64_8 ttpa_words_of(naming_position_RunPosition position)
{
    return (array_u64_8){{position.end, position.place.index, position.place.step, position.place.value,
            position.counts.rounds, position.counts.comparisons, position.halves.high, position.halves.low}};
}

/* ttpa::ttpa_start. */
uint8_t ttpa_start(const uint8_t *names_at, size_t names_len, uint64_t run[8])
{
    slice_u8 names = {names_at, names_len};
    Result_naming_position_RunPosition_file_types_Refusal t5 = naming_run_start(names);
    switch (t5.tag) {
    case 1: {
        file_types_Refusal why = t5.as.Err.f0;
        return file_types_Refusal_number(why);
    }
    case 0:
    default: {
        naming_position_RunPosition fresh = t5.as.Ok.f0;
        array_u64_8 t7 = ttpa_words_of(fresh);
        memcpy(run, t7.at, 8 * sizeof(uint64_t));
        return 0;
    }
    }
}

/* ttpa::position_in. */
static inline naming_position_RunPosition ttpa_position_in(const uint64_t *run)
{
    return (naming_position_RunPosition){.end = run[0], .place = (naming_position_RunPlace){.index = run[1],
            .step = run[2], .value = run[3]}, .counts = (naming_position_RunCounts){.rounds = run[4],
            .comparisons = run[5]}, .halves = (naming_position_RunHalves){.high = run[6], .low = run[7]}};
}

/* naming::position::is_unfit. Ground 17. */
static inline _Bool naming_position_is_unfit(slice_u8 names, naming_position_RunPosition run)
{
    uint64_t count = names.len;
    if (2 < run.end) {
        return 1;
    }
    if (count < run.place.index) {
        return 1;
    }
    if (run.end != 0) {
        return 0;
    }
    if (run.place.index == count) {
        return 1;
    }
    if (199 < run.place.step) {
        return 1;
    }
    if (1000000 <= run.counts.rounds) {
        return 1;
    }
    return 1000000 <= run.counts.comparisons;
}

/* naming::run::run_ground. Grounds 15 to 17. */
static inline Result_unit_file_types_Refusal naming_run_run_ground(slice_u8 names,
        naming_position_RunPosition run)
{
    Result_unit_file_types_Refusal t6 = naming_names_names_ground(names);
    if (t6.tag != 0) {
        return (Result_unit_file_types_Refusal){.tag = 1, .as.Err.f0 = t6.as.Err.f0};
    }
    if (naming_position_is_unfit(names, run)) {
        return (Result_unit_file_types_Refusal){.tag = 1, .as.Err.f0 = (file_types_Refusal){.tag = 16}};
    }
    return (Result_unit_file_types_Refusal){.tag = 0};
}

/* naming::sending::poll_round. The read that finds out whether a name is taken; at the first name also the
 * extra one that a run begins with. */
static inline master_slave_types_MasterSlaveRound naming_sending_poll_round(file_types_LogicalName name)
{
    return (master_slave_types_MasterSlaveRound){.name = name, .number = (file_types_FileNumber){.f0 = 61},
            .operation = (file_types_Operation){.f0 = 0}, .record = (file_types_RecordNumber){.f0 = 1}, .b0 = 0,
            .b1 = 0, .b2 = 0, .b3 = 0};
}

/* naming::run::extra_step. The extra read that a run begins with, at its first name: its reply is ignored,
 * and only the count of rounds changes. File and places, here and in what calls this, stay two arguments
 * with a clause on them (Placed): of a struct that holds the lent file, each function has to promise besides
 * that it holds the same file still. So do position and names: each step makes another position, and the
 * list stays. */
static inline naming_run_MadeStep naming_run_extra_step(slice_mut_u8 file, const uint16_t *places,
        naming_position_RunPosition run, slice_u8 names, slice_mut_u8 answer)
{
    file_types_LogicalName first = file_types_LogicalName_new(names.at[0]);
    master_slave_types_MasterSlaveRound next = naming_sending_poll_round(first);
    uint64_t senders = cluster_sending_send(file, places, next, answer);
    naming_position_RunPosition run_2 = (naming_position_RunPosition){.end = run.end, .place = run.place,
            .counts = (naming_position_RunCounts){.rounds = run.counts.rounds + 1,
            .comparisons = run.counts.comparisons}, .halves = run.halves};
    return (naming_run_MadeStep){.senders = senders, .run = run_2};
}

/* naming::pass::given_part. The half that a round of the four that give a name writes. */
static inline uint64_t naming_pass_given_part(uint64_t step)
{
    if (step == 197) {
        return 0;
    }
    if (step == 198) {
        return 1;
    }
    return 2;
}

/* naming::pass::tried_value. The value that a comparison sends, by its number in the pass: 0, then the value
 * so far with bit 63 down to bit 0 set. */
static inline uint64_t naming_pass_tried_value(uint64_t question, uint64_t value)
{
    if (question == 0) {
        return 0;
    }
    return value | (UINT64_C(1) << (64 - question));
}

/* naming::pass::writing_at. */
static inline naming_pass_Writing naming_pass_writing_at(uint64_t step, uint64_t value)
{
    if (step == 0) {
        return (naming_pass_Writing){.part = 2, .value = value};
    }
    if (196 <= step) {
        return (naming_pass_Writing){.part = naming_pass_given_part(step), .value = value};
    }
    uint64_t asked = step - 1;
    return (naming_pass_Writing){.part = asked % 3, .value = naming_pass_tried_value(asked / 3, value)};
}

/* naming::standing::needless_writes. How many needless writes follow one another from its step on: after the
 * first comparison of a pass, a half that is the one last written. */
static inline uint64_t naming_standing_needless_writes(naming_position_RunPosition run,
        naming_pass_Writing writing)
{
    if (run.place.step <= 3) {
        return 0;
    }
    if (writing.part == 0) {
        if (writing.value / UINT64_C(0x100000000) != run.halves.high) {
            return 0;
        }
        if (writing.value % UINT64_C(0x100000000) != run.halves.low) {
            return 1;
        }
        return 2;
    }
    if (writing.part != 1) {
        return 0;
    }
    if (writing.value % UINT64_C(0x100000000) != run.halves.low) {
        return 0;
    }
    return 1;
}

/* naming::standing::standing_at. */
static inline naming_standing_Standing naming_standing_standing_at(naming_position_RunPosition run)
{
    naming_pass_Writing writing = naming_pass_writing_at(run.place.step, run.place.value);
    uint64_t needless = naming_standing_needless_writes(run, writing);
    return (naming_standing_Standing){.run = (naming_position_RunPosition){.end = run.end,
            .place = (naming_position_RunPlace){.index = run.place.index, .step = run.place.step + needless,
            .value = run.place.value}, .counts = run.counts, .halves = run.halves},
            .writing = (naming_pass_Writing){.part = writing.part + needless, .value = writing.value}};
}

/* naming::sending::write_round. A write to a record of 0x08 of the unnamed slaves. */
static inline master_slave_types_MasterSlaveRound naming_sending_write_round(file_types_RecordNumber record,
        uint8_t b0, uint8_t b1, uint8_t b2, uint8_t b3)
{
    return (master_slave_types_MasterSlaveRound){.name = (file_types_LogicalName){.f0 = 255},
            .number = (file_types_FileNumber){.f0 = 8}, .operation = (file_types_Operation){.f0 = 1},
            .record = record, .b0 = b0, .b1 = b1, .b2 = b2, .b3 = b3};
}

/* naming::sending::half_round. The same with the four bytes of a number. */
static inline master_slave_types_MasterSlaveRound naming_sending_half_round(file_types_RecordNumber record,
        uint64_t value)
{
    uint8_t b0 = (uint8_t)(((value / 256) / 256) / 256);
    uint8_t b1 = (uint8_t)(((value / 256) / 256) % 256);
    uint8_t b2 = (uint8_t)((value / 256) % 256);
    uint8_t b3 = (uint8_t)(value % 256);
    return naming_sending_write_round(record, b0, b1, b2, b3);
}

/* naming::sending::execute_round. An execute of a record of 0x08 of the unnamed slaves. Not one function
 * with the write: a write's content is its four bytes, that of an execute is none, and the promise would
 * have to tell them apart by the operation. */
static inline master_slave_types_MasterSlaveRound naming_sending_execute_round(file_types_RecordNumber record)
{
    return (master_slave_types_MasterSlaveRound){.name = (file_types_LogicalName){.f0 = 255},
            .number = (file_types_FileNumber){.f0 = 8}, .operation = (file_types_Operation){.f0 = 2},
            .record = record, .b0 = 0, .b1 = 0, .b2 = 0, .b3 = 0};
}

/* naming::sending::other_round. The round at a step of a pass that writes no half. */
static inline master_slave_types_MasterSlaveRound naming_sending_other_round(uint64_t step,
        file_types_LogicalName name)
{
    if (step == 0) {
        return naming_sending_poll_round(name);
    }
    if (step == 196) {
        return naming_sending_write_round((file_types_RecordNumber){.f0 = 1}, 0, 0, name.f0, 255);
    }
    if (step == 199) {
        return naming_sending_execute_round((file_types_RecordNumber){.f0 = 1});
    }
    return naming_sending_execute_round((file_types_RecordNumber){.f0 = 2});
}

/* naming::sending::round_at. The round at a position that stands there, for a name. */
static inline master_slave_types_MasterSlaveRound naming_sending_round_at(naming_standing_Standing at,
        file_types_LogicalName name)
{
    if (at.writing.part == 0) {
        return naming_sending_half_round((file_types_RecordNumber){.f0 = 2},
                at.writing.value / UINT64_C(0x100000000));
    }
    if (at.writing.part == 1) {
        return naming_sending_half_round((file_types_RecordNumber){.f0 = 3},
                at.writing.value % UINT64_C(0x100000000));
    }
    return naming_sending_other_round(at.run.place.step, name);
}

/* naming::sending::reply_in. Whether someone sent in slot 1. */
static inline naming_advance_Reply naming_sending_reply_in(uint64_t senders)
{
    if ((senders >> 1) % 2 == 1) {
        return (naming_advance_Reply){.tag = 0};
    }
    return (naming_advance_Reply){.tag = 1};
}

/* naming::advance::wrote. With the half that its round wrote. */
static inline naming_position_RunPosition naming_advance_wrote(naming_standing_Standing at)
{
    naming_position_RunPosition run = at.run;
    if (at.writing.part == 0) {
        naming_position_RunHalves halves = (naming_position_RunHalves){.high = at.writing.value /
                UINT64_C(0x100000000), .low = run.halves.low};
        return (naming_position_RunPosition){.end = run.end, .place = run.place, .counts = run.counts,
                .halves = halves};
    }
    if (at.writing.part == 1) {
        naming_position_RunHalves halves_2 = (naming_position_RunHalves){.high = run.halves.high,
                .low = at.writing.value % UINT64_C(0x100000000)};
        return (naming_position_RunPosition){.end = run.end, .place = run.place, .counts = run.counts,
                .halves = halves_2};
    }
    return run;
}

/* naming::advance::written. After a round that writes a half, at the next round really made: the next step
 * is about the same value. */
static inline naming_position_RunPosition naming_advance_written(naming_standing_Standing at)
{
    naming_position_RunPosition run = naming_advance_wrote(at);
    naming_position_RunPosition next = (naming_position_RunPosition){.end = run.end,
            .place = (naming_position_RunPlace){.index = run.place.index, .step = run.place.step + 1,
            .value = run.place.value}, .counts = (naming_position_RunCounts){.rounds = run.counts.rounds + 1,
            .comparisons = run.counts.comparisons + 0}, .halves = run.halves};
    naming_pass_Writing writing = (naming_pass_Writing){.part = at.writing.part + 1, .value = at.writing.value};
    uint64_t needless = naming_standing_needless_writes(next, writing);
    return (naming_position_RunPosition){.end = next.end, .place = (naming_position_RunPlace){.index =
            next.place.index, .step = next.place.step + needless, .value = next.place.value},
            .counts = next.counts, .halves = next.halves};
}

/* naming::position::next_name. The name is done. */
static inline naming_position_RunPosition naming_position_next_name(naming_position_RunPosition run,
        uint64_t count)
{
    uint64_t index = run.place.index + 1;
    uint64_t t4 = naming_position_end_at(count, index);
    return (naming_position_RunPosition){.end = t4, .place = (naming_position_RunPlace){.index = index,
            .step = 0, .value = run.place.value}, .counts = (naming_position_RunCounts){.rounds =
            run.counts.rounds + 1, .comparisons = run.counts.comparisons}, .halves = run.halves};
}

/* naming::advance::polled. After the poll: a name that is taken ends its pass. */
static inline naming_position_RunPosition naming_advance_polled(naming_position_RunPosition run, uint64_t count,
        naming_advance_Reply answer)
{
    switch (answer.tag) {
    case 1:
        break;
    case 0:
    default:
        return naming_position_next_name(run, count);
    }
    return (naming_position_RunPosition){.end = run.end, .place = (naming_position_RunPlace){.index =
            run.place.index, .step = run.place.step + 1, .value = run.place.value},
            .counts = (naming_position_RunCounts){.rounds = run.counts.rounds + 1,
            .comparisons = run.counts.comparisons + 0}, .halves = run.halves};
}

/* naming::advance::compared_with_0. After the first comparison: "Else compare with 0; silence ends the run". */
static inline naming_position_RunPosition naming_advance_compared_with_0(naming_position_RunPosition run,
        uint64_t value, naming_advance_Reply answer)
{
    switch (answer.tag) {
    case 0:
        break;
    case 1:
    default:
        return (naming_position_RunPosition){.end = 1, .place = run.place,
                .counts = (naming_position_RunCounts){.rounds = run.counts.rounds + 1,
                .comparisons = run.counts.comparisons + 1}, .halves = run.halves};
    }
    return (naming_position_RunPosition){.end = run.end, .place = (naming_position_RunPlace){.index =
            run.place.index, .step = run.place.step + 1, .value = value},
            .counts = (naming_position_RunCounts){.rounds = run.counts.rounds + 1,
            .comparisons = run.counts.comparisons + 1}, .halves = run.halves};
}

/* naming::advance::compared. After the execute of a comparison with a value: a reply keeps the value. */
static inline naming_position_RunPosition naming_advance_compared(naming_position_RunPosition run,
        uint64_t value, naming_advance_Reply answer)
{
    if (run.place.step == 3) {
        return naming_advance_compared_with_0(run, value, answer);
    }
    switch (answer.tag) {
    case 0:
        return (naming_position_RunPosition){.end = run.end, .place = (naming_position_RunPlace){.index =
                run.place.index, .step = run.place.step + 1, .value = value},
                .counts = (naming_position_RunCounts){.rounds = run.counts.rounds + 1,
                .comparisons = run.counts.comparisons + 1}, .halves = run.halves};
    case 1:
    default:
        return (naming_position_RunPosition){.end = run.end, .place = (naming_position_RunPlace){.index =
                run.place.index, .step = run.place.step + 1, .value = run.place.value},
                .counts = (naming_position_RunCounts){.rounds = run.counts.rounds + 1,
                .comparisons = run.counts.comparisons + 1}, .halves = run.halves};
    }
}

/* naming::advance::moved. After a round that writes no half, by the answer. The step is tested, not looked
 * up in a table of functions: of 200 steps four kinds are told apart, and what is done at each takes other
 * arguments. */
static inline naming_position_RunPosition naming_advance_moved(naming_standing_Standing at, uint64_t count,
        naming_advance_Reply answer)
{
    naming_position_RunPosition run = at.run;
    if (run.place.step == 0) {
        return naming_advance_polled(run, count, answer);
    }
    if (run.place.step < 196) {
        return naming_advance_compared(run, at.writing.value, answer);
    }
    if (run.place.step == 199) {
        return naming_position_next_name(run, count);
    }
    return (naming_position_RunPosition){.end = run.end, .place = (naming_position_RunPlace){.index =
            run.place.index, .step = run.place.step + 1, .value = run.place.value},
            .counts = (naming_position_RunCounts){.rounds = run.counts.rounds + 1,
            .comparisons = run.counts.comparisons + 0}, .halves = run.halves};
}

/* naming::advance::advanced. From its round really made to the next one, by the answer. */
static inline naming_position_RunPosition naming_advance_advanced(naming_standing_Standing at, uint64_t count,
        naming_advance_Reply answer)
{
    if (at.writing.part < 2) {
        return naming_advance_written(at);
    }
    naming_standing_Standing next = naming_standing_standing_at(naming_advance_moved(at, count, answer));
    return next.run;
}

/* naming::run::pass_step. A step that makes a round of its pass. */
static inline naming_run_MadeStep naming_run_pass_step(slice_mut_u8 file, const uint16_t *places,
        naming_position_RunPosition run, slice_u8 names, slice_mut_u8 answer)
{
    naming_standing_Standing at = naming_standing_standing_at(run);
    uint64_t index = at.run.place.index;
    file_types_LogicalName name = file_types_LogicalName_new(names.at[index]);
    master_slave_types_MasterSlaveRound next = naming_sending_round_at(at, name);
    uint64_t senders = cluster_sending_send(file, places, next, answer);
    naming_position_RunPosition run_2 = naming_advance_advanced(at, names.len,
            naming_sending_reply_in(senders));
    return (naming_run_MadeStep){.senders = senders, .run = run_2};
}

/* naming::run::make_step. A step of a running position, on an accepted file and with the places of its
 * slaves: the extra read while it counts no round. */
static inline naming_run_MadeStep naming_run_make_step(slice_mut_u8 file, const uint16_t *places,
        naming_position_RunPosition run, slice_u8 names, slice_mut_u8 answer)
{
    if (run.counts.rounds == 0) {
        return naming_run_extra_step(file, places, run, names, answer);
    }
    return naming_run_pass_step(file, places, run, names, answer);
}

/* naming::run::step_on. A step on an accepted file, with the places of its slaves: none of an ended run. */
static inline Result_Option_naming_run_MadeStep_file_types_Refusal naming_run_step_on(slice_mut_u8 file,
        const uint16_t *places, naming_position_RunPosition run, slice_u8 names, slice_mut_u8 answer)
{
    if (answer.len < 64) {
        return (Result_Option_naming_run_MadeStep_file_types_Refusal){.tag = 1,
                .as.Err.f0 = (file_types_Refusal){.tag = 8}};
    }
    Result_unit_file_types_Refusal t12 = naming_run_run_ground(names, run);
    if (t12.tag != 0) {
        return (Result_Option_naming_run_MadeStep_file_types_Refusal){.tag = 1, .as.Err.f0 = t12.as.Err.f0};
    }
    if (run.end != 0) {
        return (Result_Option_naming_run_MadeStep_file_types_Refusal){.tag = 0,
                .as.Ok.f0 = (Option_naming_run_MadeStep){.tag = 0}};
    }
    return (Result_Option_naming_run_MadeStep_file_types_Refusal){.tag = 0,
            .as.Ok.f0 = (Option_naming_run_MadeStep){.tag = 1, .as.Some.f0 = naming_run_make_step(file, places,
            run, names, answer)}};
}

/* naming::run::step. One step: the file is checked once, and its round is carried out on it. */
static inline Result_Option_naming_run_MadeStep_file_types_Refusal naming_run_step(slice_mut_u8 file,
        naming_position_RunPosition run, slice_u8 names, slice_mut_u8 answer)
{
    uint16_t places[130];
    memset(places, 0, sizeof places);
    Result_unit_file_types_Refusal t9 = file_survey_survey(lend_u8(file), places);
    if (t9.tag != 0) {
        return (Result_Option_naming_run_MadeStep_file_types_Refusal){.tag = 1, .as.Err.f0 = t9.as.Err.f0};
    }
    return naming_run_step_on(file, places, run, names, answer);
}

/* ttpa::step_number. A step's number; its senders and its run are put into lent memory where it made a
 * round. */
static inline uint8_t ttpa_step_number(Result_Option_naming_run_MadeStep_file_types_Refusal stepped,
        uint64_t *senders, uint64_t *run)
{
    switch (stepped.tag) {
    case 1: {
        file_types_Refusal why = stepped.as.Err.f0;
        return file_types_Refusal_number(why);
    }
    case 0:
    default: {
        Option_naming_run_MadeStep done = stepped.as.Ok.f0;
        uint8_t t8;
        switch (done.tag) {
        case 0:
            t8 = 0;
            break;
        case 1:
        default: {
            naming_run_MadeStep made = done.as.Some.f0;
            *senders = made.senders;
            array_u64_8 t10 = ttpa_words_of(made.run);
            memcpy(run, t10.at, 8 * sizeof(uint64_t));
            t8 = 0;
            break;
        }
        }
        return t8;
    }
    }
}

/* ttpa::ttpa_step. */
uint8_t ttpa_step(uint8_t *file_at, size_t file_len, uint64_t run[8], const uint8_t *names_at, size_t names_len,
        uint8_t *answer_at, size_t answer_len, uint64_t *senders)
{
    slice_mut_u8 file = {file_at, file_len};
    slice_u8 names = {names_at, names_len};
    slice_mut_u8 answer = {answer_at, answer_len};
    naming_position_RunPosition t9 = ttpa_position_in(run);
    Result_Option_naming_run_MadeStep_file_types_Refusal stepped = naming_run_step(file, t9, names, answer);
    return ttpa_step_number(stepped, senders, run);
}

/* summary::step::keep_step. A step on a file that is known to be accepted; unless it is refused the names
 * that the file then holds are put into the slice. */
static inline Result_Option_naming_run_MadeStep_file_types_Refusal summary_step_keep_step(slice_mut_u8 file,
        const uint16_t *places, naming_position_RunPosition run, slice_u8 names, slice_mut_u8 answer,
        slice_mut_u8 held)
{
    Result_Option_naming_run_MadeStep_file_types_Refusal t11 = naming_run_step_on(file, places, run, names,
            answer);
    if (t11.tag != 0) {
        return (Result_Option_naming_run_MadeStep_file_types_Refusal){.tag = 1, .as.Err.f0 = t11.as.Err.f0};
    }
    Option_naming_run_MadeStep stepped = t11.as.Ok.f0;
    file_readers_logical_names(lend_u8(file), places, held);
    return (Result_Option_naming_run_MadeStep_file_types_Refusal){.tag = 0, .as.Ok.f0 = stepped};
}

/* summary::step::step_keeping. One step with the file's summary: the file is checked once, and its round is
 * carried out on it. */
static inline Result_Option_naming_run_MadeStep_file_types_Refusal summary_step_step_keeping(slice_mut_u8 file,
        naming_position_RunPosition run, slice_u8 names, slice_mut_u8 answer, slice_mut_u8 held, uint64_t count)
{
    uint16_t places[130];
    memset(places, 0, sizeof places);
    Result_unit_file_types_Refusal t11 = file_survey_survey(lend_u8(file), places);
    if (t11.tag != 0) {
        return (Result_Option_naming_run_MadeStep_file_types_Refusal){.tag = 1, .as.Err.f0 = t11.as.Err.f0};
    }
    if (summary_matching_is_wrong(lend_u8(file), places, lend_u8(held), count)) {
        return (Result_Option_naming_run_MadeStep_file_types_Refusal){.tag = 1,
                .as.Err.f0 = (file_types_Refusal){.tag = 23}};
    }
    return summary_step_keep_step(file, places, run, names, answer, held);
}

/* ttpa::ttpa_step_keeping. */
uint8_t ttpa_step_keeping(uint8_t *file_at, size_t file_len, uint64_t run[8], const uint8_t *names_at,
        size_t names_len, uint8_t *answer_at, size_t answer_len, uint64_t *senders, uint8_t *held_at,
        size_t held_len, uint64_t count)
{
    slice_mut_u8 file = {file_at, file_len};
    slice_u8 names = {names_at, names_len};
    slice_mut_u8 answer = {answer_at, answer_len};
    slice_mut_u8 held = {held_at, held_len};
    naming_position_RunPosition t11 = ttpa_position_in(run);
    Result_Option_naming_run_MadeStep_file_types_Refusal stepped = summary_step_step_keeping(file, t11, names,
            answer, held, count);
    return ttpa_step_number(stepped, senders, run);
}

