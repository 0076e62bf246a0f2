/* The TTP/A cluster engine for C and C++: check a cluster file, read and write frames, carry out rounds on
 * the file, name its slaves, run captured traces, write the owner file, tell who holds a logical name, convert a
 * file between its two editions, serve the reads of several screens in turn, join the files of two clusters, tell
 * the class of a pattern of the line and read a slave's files without a round. The words and rules are those of document
 * 01, the scope document, and of document 02, the change requests.
 *
 * Numbers. Every call but ttpa_version returns 0 or the number of the ground on which it refused, see enum
 * ttpa_refusal. The comment of a call gives its numbers in the order in which it checks them; the first that
 * holds is returned. A refused call alters nothing that was lent.
 *
 * Memory. All memory is the caller's, lent until the call returns; no pointer is kept. No byte is read or
 * written outside the length that is given with a pointer.
 * - NULL: a pointer with length 0 is not followed and may be NULL. With any other length it points to that
 *   many bytes. parts, run, senders, report, length, place, state, screen, kind and the count that ttpa_fill writes
 *   are lent without a length and are never NULL, not in a refused call either.
 * - Alignment: run, senders, report, length, place and that count as uint64_t has it, so not inside a packed
 *   structure; all others none.
 * - Overlap: what a call may write (each pointer without const) overlaps nothing else of the same call.
 * The calls keep no state, allocate nothing, never wait and always return, whatever the bytes hold. Calls on
 * different memory may run at the same time.
 *
 * The language. C99 or later, C++11 or later.
 *
 * The library, on one of two ways.
 * - libttpa.a, for x86-64 alone. It follows the System V calling convention, uses SSE2 registers and the 128 bytes below the stack pointer
 *   (the red zone), and needs at most memcpy, memmove and memset from the program that it is linked into.
 * - portable/ttpa.c, for any processor: one file of C99, compiled with this header. It needs memcpy, memset and what the compiler itself
 *   needs for 64-bit arithmetic, has no data but constants, and does not recurse. Code and constants of all calls, and the most stack that a
 *   call uses, without what memcpy, memset and the compiler's own functions take, with gcc 12.2 at -Os:
 *
 *       Cortex-M4   15,796 bytes of code, 2,028 of stack
 *       Cortex-M0   18,548 bytes of code, 2,108 of stack
 *       RV32IMAC    19,754 bytes of code, 2,000 of stack
 *
 *   With -ffunction-sections and -Wl,--gc-sections a program has only what the calls that it makes need. */
#ifndef TTPA_H
#define TTPA_H

#include <stddef.h>
#include <stdint.h>

#ifdef __cplusplus
extern "C" {
#endif

/* The version of this header, and as one number, for #if too. ttpa_version returns that of the library: a program
 * compares the two before any other call, and makes none where they differ,
 *
 *     if (ttpa_version() != TTPA_VERSION) { .. }
 *
 * A call that is lent an array of another size than before gets another name, so that a program with an older header
 * does not link (docs/DECISIONS.md has what was before 1.0.0). */
#define TTPA_VERSION_MAJOR 1
#define TTPA_VERSION_MINOR 1
#define TTPA_VERSION_PATCH 0
#define TTPA_VERSION (10000 * TTPA_VERSION_MAJOR + 100 * TTPA_VERSION_MINOR + TTPA_VERSION_PATCH)

/* What libttpa.a takes: code and constants of all calls, and the most stack that a call uses, with its
 * return address and arguments. No other memory. Both are measured, and rounded up. */
#define TTPA_CODE_BYTES 21504
#define TTPA_STACK_BYTES 2048

/* What the calls return: 0, or the documents' number for the ground on which something was refused. */
enum ttpa_refusal {
    /* .ci/refusals writes from here: enum */
    TTPA_ACCEPTED = 0,
    /* a cluster file: 1 to 8 */
    TTPA_REFUSED_FILE_SIZE = 1,
    TTPA_REFUSED_MARK = 2,
    TTPA_REFUSED_EDITION = 3,
    TTPA_REFUSED_LENGTH_FIELD = 4,
    TTPA_REFUSED_HEADER = 5,
    TTPA_REFUSED_LAYOUT = 6,
    TTPA_REFUSED_NEEDED_FILE = 7,
    TTPA_REFUSED_EQUAL_PHYSICAL_NAMES = 8,
    /* the buffer for an answer or a frame */
    TTPA_REFUSED_SHORT_BUFFER = 9,
    /* a frame: 10 to 14, and 18 below */
    TTPA_REFUSED_FIREWORK = 10,
    TTPA_REFUSED_FRAME_LENGTH = 11,
    TTPA_REFUSED_CHECK_BYTE = 12,
    TTPA_REFUSED_OPERATION = 13,
    TTPA_REFUSED_BROADCAST_READ = 14,
    /* a list of names, and a run over it */
    TTPA_REFUSED_LISTED_NAME = 15,
    TTPA_REFUSED_REPEATED_NAME = 16,
    TTPA_REFUSED_POSITION = 17,
    /* a file number handed to the writer of address frames, or of a read that is posted or due */
    TTPA_REFUSED_FILE_NUMBER = 18,
    /* a captured trace */
    TTPA_REFUSED_TRACE = 19,
    /* an owner file: the cluster it is for, and the buffer for it */
    TTPA_REFUSED_TWO_SENDERS = 20,
    TTPA_REFUSED_OWNER_BUFFER = 21,
    /* a cluster file that is loaded from outside, see ttpa_check */
    TTPA_REFUSED_EQUAL_LOGICAL_NAMES = 22,
    /* an owner file, before 20 */
    TTPA_REFUSED_MULTIPLEXED_SEND = 23,
    /* a summary of the logical names, after 8 */
    TTPA_REFUSED_SUMMARY = 24,
    /* a conversion to another edition, after 8 */
    TTPA_REFUSED_EDITION_LIMITS = 25,
    TTPA_REFUSED_CONVERSION_BUFFER = 26,
    /* screens that share the tester's turns, before a read's 18 and 14 and before a file's numbers */
    TTPA_REFUSED_SCREEN = 27,
    TTPA_REFUSED_SCREEN_WAITING = 28,
    /* a join of two cluster files, after both files' 1 to 8 */
    TTPA_REFUSED_SHARED_PHYSICAL_NAME = 29,
    TTPA_REFUSED_JOINED_LIMITS = 30,
    /* a nine-bit pattern of the line */
    TTPA_REFUSED_PATTERN = 31
    /* .ci/refusals writes to here */
};

/* What a returned number means, for an installer's screen: English, ASCII, without a full stop, never NULL.
 * A program that does not call it does not contain the texts. */
static inline const char *ttpa_refusal_text(uint8_t number)
{
    switch (number) {
    /* .ci/refusals writes from here: cases */
    case TTPA_ACCEPTED:
        return "accepted";
    case TTPA_REFUSED_FILE_SIZE:
        return "the cluster file is shorter than its header or longer than 32,768 bytes, 65,536 in edition 2";
    case TTPA_REFUSED_MARK:
        return "the file is no cluster file: it does not begin with the mark 0x54 0x41";
    case TTPA_REFUSED_EDITION:
        return "the cluster file's edition, byte 2 of its header, is neither 1 nor 2";
    case TTPA_REFUSED_LENGTH_FIELD:
        return "the cluster file is not as long as its header says";
    case TTPA_REFUSED_HEADER:
        return "the cluster file's header has a wrong count, table offset, pending operation or zero byte";
    case TTPA_REFUSED_LAYOUT:
        return "the cluster file's slave table, a slave's directory or the file's end breaks the layout";
    case TTPA_REFUSED_NEEDED_FILE:
        return "a slave lacks file 0x08 (configuration) with record 3 or 0x3D (documentation) with record 2";
    case TTPA_REFUSED_EQUAL_PHYSICAL_NAMES:
        return "two slaves have the same physical name";
    case TTPA_REFUSED_SHORT_BUFFER:
        return "the buffer is too short: 64 bytes are needed for an answer, 6 for a frame";
    case TTPA_REFUSED_FIREWORK:
        return "the frame is empty or begins with no firework; an address frame begins with 0x55";
    case TTPA_REFUSED_FRAME_LENGTH:
        return "the frame's length does not fit its firework: 6 for an address or written data, else 1";
    case TTPA_REFUSED_CHECK_BYTE:
        return "the frame's check byte does not fit the firework and the four bytes before it";
    case TTPA_REFUSED_OPERATION:
        return "the address frame's operation is none of read, write and execute";
    case TTPA_REFUSED_BROADCAST_READ:
        return "a read is addressed to all slaves, logical name 0x00";
    case TTPA_REFUSED_LISTED_NAME:
        return "the list of names has 0x00 (broadcast) or 0xFF (unnamed), which a naming run does not give";
    case TTPA_REFUSED_REPEATED_NAME:
        return "the list of names has a name twice";
    case TTPA_REFUSED_POSITION:
        return "the stored naming run is damaged or belongs to another list of names";
    case TTPA_REFUSED_FILE_NUMBER:
        return "the file number of an address frame or a read is above 63";
    case TTPA_REFUSED_TRACE:
        return "the trace is longer than 16,384 bytes, or its header, an offset or its length is wrong";
    case TTPA_REFUSED_TWO_SENDERS:
        return "two slaves send in one slot of a round, so that the slot has no single owner";
    case TTPA_REFUSED_OWNER_BUFFER:
        return "the buffer is too short for this cluster's owner file";
    case TTPA_REFUSED_EQUAL_LOGICAL_NAMES:
        return "two slaves have the same logical name; 0xFF (unnamed) alone may occur more than once";
    case TTPA_REFUSED_MULTIPLEXED_SEND:
        return "a slave has a multiplexed send in a round, and its slot need not have one owner in all epochs";
    case TTPA_REFUSED_SUMMARY:
        return "the summary does not match the cluster file, or has more names than there is room for";
    case TTPA_REFUSED_EDITION_LIMITS:
        return "the cluster file does not fit into edition 1, which has at most 32 slaves and 32,768 bytes";
    case TTPA_REFUSED_CONVERSION_BUFFER:
        return "the buffer is too short for the converted cluster file";
    case TTPA_REFUSED_SCREEN:
        return "the screen, or the screen last served in the stored state, is above 7";
    case TTPA_REFUSED_SCREEN_WAITING:
        return "the screen has a read waiting already";
    case TTPA_REFUSED_SHARED_PHYSICAL_NAME:
        return "a slave of one cluster file has the same physical name as a slave of the other";
    case TTPA_REFUSED_JOINED_LIMITS:
        return "the joined cluster file has more slaves or bytes than its edition may have, or more bytes than the buffer";
    case TTPA_REFUSED_PATTERN:
        return "the line pattern is above 511, and so has more than nine bits";
    default:
        return "refused on a ground that this version has no text for";
    /* .ci/refusals writes to here */
    }
}

/* The cluster file, in its two editions. A number of several bytes has the most significant byte first. In edition 1
 * offsets and the file's length have 2 bytes, in edition 2 they have 4; the rest follows, with other limits:
 *
 *     header, from byte 0       edition 1      edition 2
 *     mark 0x54 0x41            0 and 1        0 and 1
 *     edition                   2, it is 1     2, it is 2
 *     slave count               3, 0 to 32     3, 0 to 64
 *     offset of the table       4 to 5, 16     4 to 7, 24
 *     length of the file        6 to 7         8 to 11
 *     epoch                     8              12
 *     pending flag, 0 or 1      9              13
 *     pending logical name      10             14
 *     pending PB2               11             15
 *     pending PB3               12             16
 *     zeros                     13 to 15       17 to 23
 *
 *     entry of the slave table, from its first byte
 *     offset of the directory   0 to 1         0 to 3
 *     file count                2              4
 *     sleep byte, 0 or 1        3              5
 *     zeros                     none           6 and 7
 *
 *     entry of a directory, from its first byte
 *     file number, 0 to 63      0              0
 *     record count r, 1 to 255  1              1
 *     zeros                     none           2 and 3
 *     offset of the file        2 to 3         4 to 7
 *
 *     bytes of a header         16             24
 *     bytes of an entry         4              8
 *     bytes of a file, at most  32,768         65,536
 *
 * Behind the header comes the slave table, an entry for each slave; then, slave by slave, its directory, an entry for
 * each of its files, and these files in the order of their entries; all without gap, up to the last byte. So each
 * offset, counted from byte 0 of the cluster file, has one value that fits. File numbers rise strictly in a directory.
 * A slave's file has 4 (r + 1) bytes, records 0x00 to r of 4 bytes each; record 0x00 is free.
 *
 * Every slave has file 0x08 with r at least 3 and file 0x3D with r at least 2. Of 0x08, record 1 has the new logical name
 * in byte 2 and the logical name in byte 3, 0xFF for a slave that has none; records 2 and 3 are the comparison value.
 * Records 1 and 2 of 0x3D are the physical name, series and serial number, 32 bits each; no two slaves have the same.
 * The pending bytes are free while the flag is 0. With flag 1 the two low bits of PB2, the operation, are not 3, and not
 * 0 if the pending logical name is 0x00; its six high bits are a file number.
 *
 * Every call takes both editions, and gives equal answers on a file and on the same file converted. Which limits of
 * length hold is told by byte 2 before anything else is looked at: those of edition 2 if there is a byte 2 and it is 2,
 * else those of edition 1. A tester with a library before 0.11.0 refuses a file of edition 2 by 3, or by 1 where it has
 * more than 32,768 bytes. */
#define TTPA_FILE_BYTES 65536
#define TTPA_EDITION_1_FILE_BYTES 32768

/* The most slaves that a cluster file has, and of those of edition 1. */
#define TTPA_MOST_SLAVES 64
#define TTPA_EDITION_1_SLAVES 32

/* The most bytes of a slave's file, 4 for each of records 0x00 to 255. */
#define TTPA_SLAVE_FILE_BYTES 1024

/* No file of edition 1 has more bytes than this when it is converted to edition 2. */
#define TTPA_WIDENED_BYTES 41096

/* The bytes of an address frame and of a data frame with data, and those of the answer to a frame. */
#define TTPA_FRAME_BYTES 6
#define TTPA_ANSWER_BYTES 64

/* The fireworks: a frame's first byte tells its round. MSA opens an address frame, MSD the data frame after
 * it, which has 6 bytes for a write and else this byte alone. The others are the multipartner rounds, whose
 * frame is this byte alone.
 *
 * The check byte, the last of 6, is the exclusive or of the firework and the four bytes between them. A slave
 * that answers a read sends a record in slots 1 to 4 and its check, over MSD and these four bytes, in slot 5.
 * Where several answer, each slot, slot 5 too, holds the bitwise and of what they send. */
#define TTPA_FIREWORK_ROUND_0 0x78
#define TTPA_FIREWORK_MSD 0x49
#define TTPA_FIREWORK_ROUND_2 0xBA
#define TTPA_FIREWORK_ROUND_3 0x8B
#define TTPA_FIREWORK_ROUND_4 0x64
#define TTPA_FIREWORK_MSA 0x55
#define TTPA_FIREWORK_ROUND_6 0xA6
#define TTPA_FIREWORK_ROUND_7 0x97

/* The parts of an address frame, by their place in parts. */
#define TTPA_PART_EPOCH 0
#define TTPA_PART_NAME 1
#define TTPA_PART_FILE 2
#define TTPA_PART_OPERATION 3
#define TTPA_PART_RECORD 4
#define TTPA_ADDRESS_PARTS 5

/* The operations of an address frame. */
#define TTPA_OPERATION_READ 0
#define TTPA_OPERATION_WRITE 1
#define TTPA_OPERATION_EXECUTE 2

/* The logical names that address many: 0x00 all slaves but the unnamed, 0xFF the unnamed. */
#define TTPA_NAME_BROADCAST 0x00
#define TTPA_NAME_UNNAMED 0xFF

/* The files that every slave has. Record 1 of 0x08 has the new logical name in byte 2 and the logical name in byte
 * 3, which no write changes: a slave takes its new logical name by an execute of that record alone. */
#define TTPA_FILE_CONFIGURATION 0x08
#define TTPA_FILE_DOCUMENTATION 0x3D

/* The record of 0x08 that puts to sleep. An execute of it has the slaves that are addressed and have this record fall
 * asleep after its data frame. The sleep byte of a slave's entry in the slave table tells it, which for slave s, 0 the
 * first, is byte 19 + 4 s of the file in edition 1 and byte 29 + 8 s in edition 2: 0 awake, 1 asleep; 6 refuses a byte
 * above 1. A sleeping slave takes no part in rounds: it is not addressed, sends nothing and keeps every byte of its
 * files. It is awake after the next data frame or multipartner round that is carried out, also one of a trace, of a
 * naming step or of a turn that serves a screen; an address frame, a refused call and a refused frame of a trace wake
 * nobody.
 *
 * At 0x00 all slaves but the unnamed are addressed, at 0xFF the unnamed. So where some slaves have names and some do
 * not, no number of executes of this record puts the whole cluster to sleep: one at 0x00 leaves the unnamed awake, and
 * one at 0xFF after it wakes the others. A data frame sent again after an execute of this record wakes whoever slept, and
 * puts to sleep those addressed that have the record and were awake. */
#define TTPA_RECORD_SLEEP 4

/* The words of a naming run, by their place in run. A run may be stored, together with its list of names,
 * and taken up later, by another program too: it is eight numbers of 64 bits, and in which byte order they are
 * stored is the caller's matter. 17 refuses an end mark above 2 and words outside their limits; other words are
 * carried on as they stand, so a store that may be damaged needs a check of its own.
 *
 * The rounds for a name have 200 places: 0 asks whether it is taken; 1 to 195 are 65 comparisons, with 0 and then
 * with each bit from 63 to 0, each of which writes the high half of its value, writes the low half and asks who
 * replies; 196 to 199 write the new name and both halves of the value, and give the name. After the first
 * comparison a half that equals the one last written is not written again; the step stands at the next place whose
 * round is made. A run stored with the step at a write that is not needed goes on with the next round that is.
 *
 * Before them a run over a list that is not empty makes one extra read, of record 1 of 0x3D at the list's first name,
 * which has no place among the 200 and whose reply is ignored; it wakes all slaves. It is due at every step of a
 * running position that counts no round, whatever its index and step, and raises the rounds alone. */
#define TTPA_RUN_END 0         /* an end mark, see below */
#define TTPA_RUN_INDEX 1       /* place in the list of the name that is next */
#define TTPA_RUN_STEP 2        /* place of the next round among those for this name, 0 to 199 */
#define TTPA_RUN_VALUE 3       /* the physical name looked for, as far as found; whole when a name is given */
#define TTPA_RUN_ROUNDS 4      /* rounds made in the whole run, the extra read too */
#define TTPA_RUN_COMPARISONS 5 /* comparisons made in the whole run */
#define TTPA_RUN_HIGH 6        /* the high half last written, below 2^32; 0 in a fresh run */
#define TTPA_RUN_LOW 7         /* the low half last written, likewise */
#define TTPA_RUN_WORDS 8

/* The end marks. */
#define TTPA_RUNNING 0
#define TTPA_ALL_NAMED 1
#define TTPA_NAMES_USED_UP 2

/* The most bytes that a captured trace has. A trace is: frame count (2 bytes), data length (2); for each frame
 * its offset in the data (2) and its length (1); then the data, which the frames fill in order without gap, and
 * nothing more. Of two bytes the first is the most significant. A frame may be empty, a trace have no frame. */
#define TTPA_TRACE_BYTES 16384

/* The words of a trace's report, by their place in report: how many of its frames were carried out, by their
 * firework, and how many were refused. A refused frame counts in no other word. */
#define TTPA_REPORT_MSA 0
#define TTPA_REPORT_MSD 1
#define TTPA_REPORT_MULTIPARTNER 2
#define TTPA_REPORT_REFUSED 3
#define TTPA_REPORT_SUM 4 /* the sum of the four, which is the frame count */
#define TTPA_REPORT_WORDS 5

/* The most bytes that an owner file (file 0x0B) has, the bytes of its records, and where its index begins. It
 * tells who sends in which slot of each multipartner round: record 0x00 is zeros; records 1 and 2 are the index,
 * a byte for each of rounds 0 to 7: the record where the round's row begins, 0x00 for rounds 1 and 5, which have
 * none. The rows follow in the order of the rounds, from record 3 on. A row has a byte for each slot from 0 up to
 * the last in which a slave sends: the master's name for slot 0, else the logical name of the slave that sends,
 * 0x00 where none does (or one that is named 0x00); then zeros up to a whole record. It ends where the next row
 * begins, the last one with the file; that of a round in which nobody sends is one record, slot 0 alone. */
#define TTPA_OWNER_BYTES 396
#define TTPA_OWNER_RECORD_BYTES 4
#define TTPA_OWNER_INDEX 4

/* A summary of a cluster file tells who holds a logical name without a look at the file. It is a count and, in the
 * first count of the room bytes at held, each slave's logical name in the order of the slave table; the bytes after
 * them are free. It matches its file if the count is not above room and these names are exactly the file's, so that
 * the count is the number of its slaves. TTPA_MOST_SLAVES bytes are room enough for every cluster.
 *
 * ttpa_fill fills it. ttpa_round_keeping and ttpa_step_keeping are given it and leave it matching the file that they
 * leave; refused, they leave both. It has to be filled again where the file was changed without it: after a file is
 * loaded, always; after ttpa_trace, which takes no summary, ttpa_round and ttpa_step where a data frame had record 1 of
 * 0x08 executed, which a step does when it gives a name. Every other call leaves it matching, and it matches the same
 * file converted. */
/* What ttpa_holder tells in the place of a slave where nobody holds the name. */
#define TTPA_NOBODY UINT64_MAX

/* Up to eight screens, 0 to 7, read slave records through one tester, and none of them starves the others. Each may post
 * one read, of a record of a file at a logical name, and then waits. A turn serves the next screen that waits after the
 * one last served, in cyclic order, from screen 0 at the start: so a read that waits is served within eight turns that
 * are carried out, however often the others post, if each call is given the state that the last one left.
 *
 * The state is these bytes, and may be stored; it belongs to no cluster file:
 *
 *     the screen last served    0, it is 7 at the start
 *     of screen s, 0 to 7
 *     whether it waits          1 + 4 s, 0 no and any other byte yes
 *     logical name              2 + 4 s
 *     file number               3 + 4 s
 *     record number             4 + 4 s
 *
 * At the start all but the first are 0. A post makes the waiting byte 1 and writes the three behind it; a turn that
 * serves makes it 0 and byte 0 the screen's number; every other byte stays. A state of any content may be handed in: 27
 * refuses a screen last served above 7, 18 and 14 a read that no post would have let in. At a turn they look at the read
 * that is due alone, and refuse every turn at which it is due: until the caller has mended the state, or another screen
 * that comes before it has posted (then until that one is served). */
#define TTPA_SCREENS_BYTES 33

/* What ttpa_turn tells in the place of a screen where none waited. */
#define TTPA_NO_SCREEN 8

/* A line monitor hands over nine bits, the byte in bits 7 to 0 and the parity bit in bit 8. Each of these 512 patterns is
 * of one class: a data byte if its count of ones, the parity bit among them, is even, whatever the byte; a firework if
 * the count is odd and the byte opens a round, as TTPA_FIREWORK_MSA and seven others do; else broken. No firework with
 * one to three of its nine bits flipped is read as a firework. Four can make another of it: 0x178 (round 0) of 0x155
 * (MSA), say. */
#define TTPA_DATA_BYTE 0
#define TTPA_FIREWORK 1
#define TTPA_BROKEN 2

/* The version of the library, as TTPA_VERSION is that of the header. Refuses nothing. */
uint32_t ttpa_version(void);

/* Checks a cluster file of n bytes that comes from outside. Two slaves of one logical name (0x00 counts, 0xFF
 * does not) are refused here alone: rounds that baptize may bring such a file about, and every other call takes
 * it.
 * Refuses by 1, 2, 3, 4, 5, 6, 7, 8, 22 in this order. Writes nothing. */
uint8_t ttpa_check(const uint8_t *file, size_t n);

/* Reads an address frame of n bytes into parts.
 * Refuses by 10, 11, 12, 13, 14 in this order. On 0 all of parts is written. */
uint8_t ttpa_read_address(const uint8_t *frame, size_t n, uint8_t parts[TTPA_ADDRESS_PARTS]);

/* Writes an address frame into the first 6 of the n bytes at frame.
 * Refuses by 9, 13, 14, 18 in this order. On 0 these 6 bytes are written, and no other. */
uint8_t ttpa_write_address(uint8_t *frame, size_t n, uint8_t epoch, uint8_t name, uint8_t file,
                           uint8_t operation, uint8_t record);

/* Writes a data frame with the four bytes given into the first 6 of the n bytes at frame.
 * Refuses by 9. On 0 these 6 bytes are written, and no other. */
uint8_t ttpa_write_data(uint8_t *frame, size_t n, uint8_t b0, uint8_t b1, uint8_t b2, uint8_t b3);

/* Carries out one frame of m bytes on the cluster file of n bytes; answer has k bytes.
 * Refuses by 1, 2, 3, 4, 5, 6, 7, 8, 9, 10, 11, 12, 13, 14 in this order. On 0 the file is as the round
 * leaves it, the first 64 bytes of answer, and no other, are the firework and then the byte of each slot 1
 * to 63 (0xFF where nobody sent), and bit s of *senders is set exactly when a slave sent in slot s. A multipartner
 * round adds 1 to the epoch before anyone sends; by this epoch multiplexed entries have their
 * turns, and one out of turn is passed over. */
uint8_t ttpa_round(uint8_t *file, size_t n, const uint8_t *frame, size_t m, uint8_t *answer, size_t k,
                   uint64_t *senders);

/* Makes a fresh naming run over the list of n names; over an empty list it has ended already.
 *
 * When a run has ended, its list having run dry, say, a second list may be started on the same file. If each run is made
 * to its end, with other rounds before, in and after it only as ttpa_step has them, and the two lists have no name in
 * common, every slave then has the logical name that one run over the first list followed by the second leaves
 * it with. Such a joined list is accepted if both are; with a common name 16 refuses it. The second run goes by the file as the
 * first left it: a name that a slave has by then is taken, and rounds and comparisons count from 0. It begins with an
 * extra read of its own. So where the first ended "names used up" the two runs, neither list being empty, make one round
 * more than the one; where it ended "all named", they make the second run's rounds more.
 * Refuses by 15, 16 in this order. On 0 all of run is written. */
uint8_t ttpa_start(const uint8_t *names, size_t n, uint64_t run[TTPA_RUN_WORDS]);

/* Makes the run's next round, an address frame and a data frame, on the cluster file of n bytes, over the
 * same list of m names as at the start; answer has k bytes. Between two steps other rounds may be made on
 * the file, one by one, as traces or as turns of screens: multipartner rounds, and address frames each with its data
 * frame, but of file 0x08 only reads, and writes of record 1 at another name than 0xFF. So no sleep: after one between
 * two steps a slave that holds a name is not heard, and its name may be given a second time.
 * Refuses by 1, 2, 3, 4, 5, 6, 7, 8, 9, 15, 16, 17 in this order. On 0 file and run have moved on, and
 * answer and *senders are those of the data frame, as ttpa_round has them. In a run from ttpa_start: if the
 * index has risen, the name before it is done: it was taken already if the step was 0 before the call, else
 * the slave whose physical name is the value has it now. A step of an ended run returns 0 and alters
 * nothing. The extra read of a run is a step of its own: index and step stay. */
uint8_t ttpa_step(uint8_t *file, size_t n, uint64_t run[TTPA_RUN_WORDS], const uint8_t *names, size_t m,
                  uint8_t *answer, size_t k, uint64_t *senders);

/* Runs a captured trace of m bytes on the cluster file of n bytes: its frames in order, each as ttpa_round
 * carries it out. A frame that ttpa_round would refuse (10 to 14) is counted as refused and leaves the file as it
 * was, and the run goes on. What slaves answer is not kept.
 * Refuses by 1, 2, 3, 4, 5, 6, 7, 8, 19 in this order. On 0 the file is as the frames leave it, and all of
 * report is written. */
uint8_t ttpa_trace(uint8_t *file, size_t n, const uint8_t *trace, size_t m,
                   uint64_t report[TTPA_REPORT_WORDS]);

/* Writes the owner file of the cluster file of n bytes into the front of the k bytes at buffer, with the name
 * master, any byte, for slot 0 of each round. A slave sends in a slot if it would put a byte there in the round
 * as ttpa_round carries it out with every slave awake: unnamed slaves and entries that cannot send do not count,
 * though an entry that covers a slot and cannot send there still hides later ones of its list. Multiplexed entries
 * have their turns: a receive is passed over here, so a slave that sends after it has the slot, though it does not
 * send there in the epochs of that receive, and a send is refused. TTPA_OWNER_BYTES are enough for every cluster.
 * Refuses by 1, 2, 3, 4, 5, 6, 7, 8, 23, 20, 21 in this order; 23 is for a multiplexed send before the end of a list
 * for one of the six rounds, of a slave not unnamed, also one that could not send; 20 counts slaves, also those of
 * one name, and 21 is for a buffer shorter than this cluster's owner file. On 0 *length is the length of the owner
 * file, and the first *length bytes of buffer, and no other, are written. */
uint8_t ttpa_owner(const uint8_t *file, size_t n, uint8_t master, uint8_t *buffer, size_t k,
                   uint64_t *length);

/* Fills a summary from the cluster file of n bytes into the front of the room bytes at held.
 * Refuses by 1, 2, 3, 4, 5, 6, 7, 8, 24 in this order; 24 is for fewer bytes than the file has slaves. On 0 *count is
 * the number of slaves, and the first *count bytes of held, and no other, are their logical names. */
uint8_t ttpa_fill(const uint8_t *file, size_t n, uint8_t *held, size_t room, uint64_t *count);

/* Tells the place in the slave table, 0 the first, of the first slave that holds the name, any byte: 0xFF finds an
 * unnamed slave, 0x00 one that is named so. It looks at the summary alone and stops at the first holder; if the
 * summary matches its file, a reading of the whole file finds the same.
 * Refuses by 24, for a count above room. On 0 *place is that place, or TTPA_NOBODY. */
uint8_t ttpa_holder(const uint8_t *held, size_t room, uint64_t count, uint8_t name, uint64_t *place);

/* Carries out one frame as ttpa_round does, given a summary of the file, and keeps it matching.
 * Refuses by 1, 2, 3, 4, 5, 6, 7, 8, 24, 9, 10, 11, 12, 13, 14 in this order; 24 is for a summary that does not match
 * the file handed in. On 0 file, answer and *senders are as ttpa_round leaves them, and the first count bytes of held
 * are the names of the file left; those after them are as they were. */
uint8_t ttpa_round_keeping(uint8_t *file, size_t n, const uint8_t *frame, size_t m, uint8_t *answer, size_t k,
                           uint64_t *senders, uint8_t *held, size_t room, uint64_t count);

/* Makes a run's next round as ttpa_step does, given a summary of the file, and keeps it matching.
 * Refuses by 1, 2, 3, 4, 5, 6, 7, 8, 24, 9, 15, 16, 17 in this order; 24 is for a summary that does not match the file
 * handed in, also at a step of an ended run. On 0 file, run, answer and *senders are as ttpa_step leaves them, and the
 * first count bytes of held are the names of the file left; those after them are as they were. */
uint8_t ttpa_step_keeping(uint8_t *file, size_t n, uint64_t run[TTPA_RUN_WORDS], const uint8_t *names, size_t m,
                          uint8_t *answer, size_t k, uint64_t *senders, uint8_t *held, size_t room,
                          uint64_t count);

/* Writes the cluster file of n bytes as one of edition 1 into the front of the room bytes at out: a file of edition 2 is
 * narrowed, one of edition 1 copied. It is the same cluster: epoch, pending flag and bytes, also free ones, sleep bytes
 * and every record are carried over. What ttpa_to_edition_2 made of a file of edition 1 becomes that file again, byte
 * for byte.
 * Refuses by 1, 2, 3, 4, 5, 6, 7, 8, 25, 26 in this order; 25 is for a file of edition 2 with more than 32 slaves, or
 * which would have more than 32,768 bytes in edition 1, and 26 is for less room than the file written needs, for which
 * TTPA_EDITION_1_FILE_BYTES are always enough. On 0 *length is the length of the file written, and the first *length
 * bytes of out, and no other, are written. */
uint8_t ttpa_to_edition_1(const uint8_t *file, size_t n, uint8_t *out, size_t room, uint64_t *length);

/* Writes the cluster file of n bytes as one of edition 2 likewise: a file of edition 1 is widened, one of edition 2
 * copied. What ttpa_to_edition_1 made of a file of edition 2 becomes that file again.
 * Refuses by 1, 2, 3, 4, 5, 6, 7, 8, 26 in this order; 26 is for less room than the file written needs, for which
 * TTPA_FILE_BYTES are always enough and TTPA_WIDENED_BYTES for one of edition 1. On 0 *length and out are as
 * ttpa_to_edition_1 has them. */
uint8_t ttpa_to_edition_2(const uint8_t *file, size_t n, uint8_t *out, size_t room, uint64_t *length);

/* Makes the state at the start: no screen waits, and screen 0 is next; reads that waited are dropped. Refuses nothing
 * and returns 0; all of state is written. */
uint8_t ttpa_screens(uint8_t state[TTPA_SCREENS_BYTES]);

/* Posts a read of a record of a file at a logical name for a screen, which then waits. Whether a slave has the name and
 * the record is seen at its turn; a read at 0xFF may be posted, and nobody answers it.
 * Refuses by 27, 28, 18, 14 in this order; 27 is for a screen above 7, the one that posts or the one last served, and 28
 * for one that waits already. On 0 the screen's four bytes of state, and no other, are written. */
uint8_t ttpa_post(uint8_t state[TTPA_SCREENS_BYTES], uint8_t screen, uint8_t name, uint8_t file, uint8_t record);

/* Serves the screen that is next on the cluster file of n bytes; answer has k bytes. Its read is a complete round, an
 * address frame with the file's epoch plus 1 modulo 256 and a data frame, as two calls of ttpa_round carry them out. It
 * may stand between two naming steps, but not between the address frame and the data frame of another round, whose
 * operation it would replace.
 * Refuses by 27, 18, 14, 1, 2, 3, 4, 5, 6, 7, 8, 9 in this order; 27 is for a screen last served above 7, 18 and 14 are
 * for the read that is due. A read whose turn is refused waits on. On 0 *screen is the screen served, and file, answer
 * and *senders are those of the data frame, as ttpa_round has them. Where no screen waited *screen is TTPA_NO_SCREEN and
 * nothing else is altered, *senders neither. */
uint8_t ttpa_turn(uint8_t *file, size_t n, uint8_t state[TTPA_SCREENS_BYTES], uint8_t *answer, size_t k,
                  uint64_t *senders, uint8_t *screen);

/* Joins two cluster files, for two bus segments that are cabled together: writes into the front of the room bytes at out
 * one cluster file, in the edition of first, that has the slaves of first (n bytes) and behind them those of second (m
 * bytes), each in its order. The two may be of different editions. Epoch, pending flag and pending bytes of the file
 * written are 0, and all its slaves are awake. A slave of second whose logical name a slave of first holds too becomes
 * unnamed, 0xFF in byte 3 of record 1 of its file 0x08; 0x00 is a name like any other here, and sleepers hold theirs.
 * Every other byte of every record is as it was, and neither file is altered. Equal names within one file are no ground:
 * first's stay, and those of second stay or, where first holds that name, all become 0xFF. Where ttpa_check takes both
 * files, it takes the file written.
 *
 * A naming run on the file written takes as unnamed exactly the slaves that were at 0xFF and those that have become so.
 * A summary for it is filled anew, by ttpa_fill.
 *
 * out overlaps neither file. first and second may overlap, or be the same memory: with a slave in it that is 29.
 * Refuses by 1, 2, 3, 4, 5, 6, 7, 8, 1, 2, 3, 4, 5, 6, 7, 8, 29, 30 in this order, 1 to 8 for first and then for second;
 * 29 is for a physical name that is in both files, and 30 for a file that would have more slaves or bytes than the
 * edition of first may have, or more bytes than room, for which TTPA_FILE_BYTES are always enough, or
 * TTPA_EDITION_1_FILE_BYTES if first is of edition 1. On 0 *length is the length of the file written, and the first
 * *length bytes of out, and no other, are written. */
uint8_t ttpa_join(const uint8_t *first, size_t n, const uint8_t *second, size_t m, uint8_t *out, size_t room,
                  uint64_t *length);

/* Tells the class of a pattern of the line.
 * Refuses by 31, for a pattern above 511. On 0 *kind is TTPA_DATA_BYTE, TTPA_FIREWORK or TTPA_BROKEN. */
uint8_t ttpa_pattern(uint16_t pattern, uint8_t *kind);

/* Reads a file of a slave from the cluster file of n bytes, with record 0x00 in front: slave is its place in the slave
 * table, 0 the first, and number the file's. No round is made, so it also tells of an unnamed or sleeping slave, and the
 * cluster file, its epoch and its pending operation stay as they are.
 * Refuses by 1, 2, 3, 4, 5, 6, 7, 8 in this order. On 0 *length is the length of that file, 0 where there is no such
 * slave or no such file. The front of the k bytes at buffer is the file, or as much of it as they have room for, and no
 * other byte is written; a buffer of 0 bytes asks for the length alone, and TTPA_SLAVE_FILE_BYTES are always enough. */
uint8_t ttpa_contents(const uint8_t *file, size_t n, uint64_t slave, uint8_t number, uint8_t *buffer, size_t k,
                      uint64_t *length);

#ifdef __cplusplus
}
#endif

#endif
