/* stack: how much stack the calls of include/ttpa.h use, in bytes, and of all the most.
 *
 * Each call is made on a stack of its own that was filled with one byte value; the deepest byte that has
 * another value afterwards is the deepest that was used. The calls are made on a cluster file of the
 * greatest length with the most slaves in each edition: every kind of frame, a whole naming run over all names, both
 * without and with a summary, the frames again as a trace, owner files, conversions, turns of all screens, joins, and
 * refusals; every file of every slave is read, and every pattern of the line is told. All of it runs three times: first to
 * have the linker's work done, then with two different fillings, since a byte may be written with the value that it has. */
#define _XOPEN_SOURCE 700
#include <stdio.h>
#include <string.h>
#include <ucontext.h>

#include "ttpa.h"

#define RECORD_BYTES 4
#define SLOTS 63
#define ROUND_FILE 0x02
#define DATA_FILE 0x10
#define NAMES 254
#define MOST_FRAMES 256
#define STACK_BYTES 32768

static uint8_t cluster[TTPA_FILE_BYTES];
static size_t cluster_bytes;
static uint8_t frame[TTPA_FRAME_BYTES];
static size_t frame_bytes;
static uint8_t parts[TTPA_ADDRESS_PARTS];
static uint8_t answer[TTPA_ANSWER_BYTES];
static uint64_t senders;
static uint8_t names[NAMES];
static uint64_t run[TTPA_RUN_WORDS];
static uint8_t trace[TTPA_TRACE_BYTES];
static size_t trace_bytes;
static uint64_t report[TTPA_REPORT_WORDS];
static uint8_t owner[TTPA_OWNER_BYTES];
static size_t owner_bytes;
static uint64_t owner_length;
static uint8_t held[TTPA_MOST_SLAVES];
static uint64_t held_count;
static uint64_t place;
static uint8_t converted[TTPA_FILE_BYTES];
static size_t converted_room;
static uint64_t converted_length;
static uint8_t state[TTPA_SCREENS_BYTES];
static uint8_t screen;
static uint16_t pattern;
static uint8_t kind_of_pattern;
static uint64_t slave;
static uint8_t file_number;
static uint8_t contents[TTPA_SLAVE_FILE_BYTES];
static uint64_t contents_length;
static uint8_t number;
static uint32_t version;

/* ---- a cluster file of the most bytes and slaves that its edition has */

static uint8_t edition;
static size_t slaves;
/* the bytes of an offset, from which follow those of the header and of an entry */
static size_t width;
static size_t end;
/* where file 0x08 of the last slave begins */
static size_t last_configuration;

static void put(unsigned byte)
{
    cluster[end++] = (uint8_t)byte;
}

static void put_record(unsigned b0, unsigned b1, unsigned b2, unsigned b3)
{
    put(b0);
    put(b1);
    put(b2);
    put(b3);
}

static size_t header_bytes(void)
{
    return 8 + 4 * width;
}

static size_t entry_bytes(void)
{
    return 2 * width;
}

static void put_place(size_t at, size_t place)
{
    for (size_t i = 0; i < width; i++) {
        cluster[at + i] = (uint8_t)(place >> 8 * (width - 1 - i));
    }
}

/* An entry of a directory: a file of records 0x00 to last at the place; and the place after it. */
static size_t put_entry(unsigned file, size_t last, size_t place)
{
    cluster[end] = (uint8_t)file;
    cluster[end + 1] = (uint8_t)last;
    put_place(end + width, place);
    end += entry_bytes();
    return place + RECORD_BYTES * (last + 1);
}

/* Its file of round 2 stores slots 1 to 16 where the epoch is a multiple of 4, by a multiplexed entry; besides it sends
 * 16 bytes of its data file in the slots from its own on, and stores slots 1 to 16. The first slave is named 0x01,
 * the others are unnamed. */
static void put_slave(unsigned slave, size_t data_last)
{
    size_t place = end + 4 * entry_bytes();
    place = put_entry(ROUND_FILE, 3, place);
    last_configuration = place;
    place = put_entry(TTPA_FILE_CONFIGURATION, TTPA_RECORD_SLEEP, place);
    place = put_entry(DATA_FILE, data_last, place);
    put_entry(TTPA_FILE_DOCUMENTATION, 2, place);
    put_record(0, 0, 0, 0);
    put_record(DATA_FILE << 2, 2, 8 << 4 | 15, 0 << 6 | 1);
    put_record(DATA_FILE << 2, 1, 1 << 4 | 15, 1 + slave % SLOTS);
    put_record(DATA_FILE << 2, 60, 0 << 4 | 15, 1);
    put_record(0, 0, 0, 0);
    put_record(0, 0, 0, slave == 0 ? 0x01 : TTPA_NAME_UNNAMED);
    put_record(0, 0, 0, 0);
    put_record(0, 0, 0, 0);
    put_record(0, 0, 0, 0);
    for (size_t i = 0; i <= data_last; i++) {
        put_record(slave, 0x5A, 0xC3, 0x0F);
    }
    put_record(0, 0, 0, 0);
    put_record(0, 0, 0, 7);
    put_record(0x80, 0x55, 0, slave);
}

/* The data files fill what is left, the first ones by a record more where it does not divide. */
static void make_cluster(void)
{
    slaves = edition == 1 ? TTPA_EDITION_1_SLAVES : TTPA_MOST_SLAVES;
    cluster_bytes = edition == 1 ? TTPA_EDITION_1_FILE_BYTES : TTPA_FILE_BYTES;
    width = 2 * (size_t)edition;
    const uint8_t front[4] = {0x54, 0x41, edition, (uint8_t)slaves};
    size_t first = header_bytes() + slaves * entry_bytes();
    size_t records = (cluster_bytes - first) / RECORD_BYTES;
    size_t directory = 4 * entry_bytes() / RECORD_BYTES;
    memset(cluster, 0, sizeof cluster);
    memcpy(cluster, front, sizeof front);
    put_place(4, header_bytes());
    put_place(4 + width, cluster_bytes);
    end = first;
    for (unsigned slave = 0; slave < slaves; slave++) {
        size_t entry = header_bytes() + slave * entry_bytes();
        size_t own = records / slaves + (slave < records % slaves);
        put_place(entry, end);
        cluster[entry + width] = 4;
        put_slave(slave, own - (directory + 4 + 5 + 3) - 1);
    }
}

/* ---- one call each, on a stack of its own */

static void no_call(void)
{
}

static void version_call(void)
{
    version = ttpa_version();
}

static void check_call(void)
{
    number = ttpa_check(cluster, cluster_bytes);
}

static void read_address_call(void)
{
    number = ttpa_read_address(frame, frame_bytes, parts);
}

static void write_address_call(void)
{
    number = ttpa_write_address(frame, sizeof frame, parts[TTPA_PART_EPOCH], parts[TTPA_PART_NAME],
                                parts[TTPA_PART_FILE], parts[TTPA_PART_OPERATION], parts[TTPA_PART_RECORD]);
}

static void write_data_call(void)
{
    number = ttpa_write_data(frame, sizeof frame, 0x12, 0x34, 0x56, 0x78);
}

static void round_call(void)
{
    number = ttpa_round(cluster, cluster_bytes, frame, frame_bytes, answer, sizeof answer, &senders);
}

static void start_call(void)
{
    number = ttpa_start(names, sizeof names, run);
}

static void step_call(void)
{
    number = ttpa_step(cluster, cluster_bytes, run, names, sizeof names, answer, sizeof answer, &senders);
}

static void trace_call(void)
{
    number = ttpa_trace(cluster, cluster_bytes, trace, trace_bytes, report);
}

static void owner_call(void)
{
    number = ttpa_owner(cluster, cluster_bytes, 0xFE, owner, owner_bytes, &owner_length);
}

static void fill_call(void)
{
    number = ttpa_fill(cluster, cluster_bytes, held, sizeof held, &held_count);
}

static void holder_call(void)
{
    number = ttpa_holder(held, sizeof held, held_count, held[slaves - 1], &place);
}

static void round_keeping_call(void)
{
    number = ttpa_round_keeping(cluster, cluster_bytes, frame, frame_bytes, answer, sizeof answer, &senders, held,
                                sizeof held, held_count);
}

static void step_keeping_call(void)
{
    number = ttpa_step_keeping(cluster, cluster_bytes, run, names, sizeof names, answer, sizeof answer, &senders,
                               held, sizeof held, held_count);
}

/* Into the two editions, from the file or from what was last converted. */
static const uint8_t *source;
static size_t source_bytes;

static void to_edition_1_call(void)
{
    number = ttpa_to_edition_1(source, source_bytes, converted, converted_room, &converted_length);
}

static void to_edition_2_call(void)
{
    number = ttpa_to_edition_2(source, source_bytes, converted, converted_room, &converted_length);
}

/* The second of two files that are joined; the first is the source. */
static const uint8_t *joined;
static size_t joined_bytes;

static void join_call(void)
{
    number = ttpa_join(source, source_bytes, joined, joined_bytes, converted, converted_room, &converted_length);
}

static void screens_call(void)
{
    number = ttpa_screens(state);
}

static void post_call(void)
{
    number = ttpa_post(state, screen, parts[TTPA_PART_NAME], parts[TTPA_PART_FILE], parts[TTPA_PART_RECORD]);
}

static void turn_call(void)
{
    number = ttpa_turn(cluster, cluster_bytes, state, answer, sizeof answer, &senders, &screen);
}

static void pattern_call(void)
{
    number = ttpa_pattern(pattern, &kind_of_pattern);
}

static void contents_call(void)
{
    number = ttpa_contents(cluster, cluster_bytes, slave, file_number, contents, sizeof contents, &contents_length);
}

enum kind {
    NOTHING,
    VERSION,
    CHECK,
    READ_ADDRESS,
    WRITE_ADDRESS,
    WRITE_DATA,
    ROUND,
    START,
    STEP,
    TRACE,
    OWNER,
    FILL,
    HOLDER,
    ROUND_KEEPING,
    STEP_KEEPING,
    TO_EDITION_1,
    TO_EDITION_2,
    SCREENS,
    POST,
    TURN,
    JOIN,
    PATTERN,
    CONTENTS,
    KINDS
};

struct call {
    const char *name;
    void (*make)(void);
};

static const struct call calls[KINDS] = {
    [NOTHING] = {"nothing", no_call},
    [VERSION] = {"ttpa_version", version_call},
    [CHECK] = {"ttpa_check", check_call},
    [READ_ADDRESS] = {"ttpa_read_address", read_address_call},
    [WRITE_ADDRESS] = {"ttpa_write_address", write_address_call},
    [WRITE_DATA] = {"ttpa_write_data", write_data_call},
    [ROUND] = {"ttpa_round", round_call},
    [START] = {"ttpa_start", start_call},
    [STEP] = {"ttpa_step", step_call},
    [TRACE] = {"ttpa_trace", trace_call},
    [OWNER] = {"ttpa_owner", owner_call},
    [FILL] = {"ttpa_fill", fill_call},
    [HOLDER] = {"ttpa_holder", holder_call},
    [ROUND_KEEPING] = {"ttpa_round_keeping", round_keeping_call},
    [STEP_KEEPING] = {"ttpa_step_keeping", step_keeping_call},
    [TO_EDITION_1] = {"ttpa_to_edition_1", to_edition_1_call},
    [TO_EDITION_2] = {"ttpa_to_edition_2", to_edition_2_call},
    [SCREENS] = {"ttpa_screens", screens_call},
    [POST] = {"ttpa_post", post_call},
    [TURN] = {"ttpa_turn", turn_call},
    [JOIN] = {"ttpa_join", join_call},
    [PATTERN] = {"ttpa_pattern", pattern_call},
    [CONTENTS] = {"ttpa_contents", contents_call},
};

/* The most stack that a call of each kind has used. */
static size_t most[KINDS];
static uint8_t stack[STACK_BYTES];
static uint8_t filling;
static int failed;

static size_t deepest(void)
{
    size_t at = 0;
    while (at < sizeof stack && stack[at] == filling) {
        at++;
    }
    return sizeof stack - at;
}

/* Makes a call, keeps the most stack of its kind, and compares its answer with the expected one. */
static void make(enum kind kind, uint8_t expected)
{
    ucontext_t here, there;
    memset(stack, filling, sizeof stack);
    number = expected;
    if (getcontext(&there) != 0) {
        failed = 1;
        return;
    }
    there.uc_stack.ss_sp = stack;
    there.uc_stack.ss_size = sizeof stack;
    there.uc_link = &here;
    makecontext(&there, calls[kind].make, 0);
    if (swapcontext(&here, &there) != 0 || number != expected) {
        fprintf(stderr, "%s: %u, not %u\n", calls[kind].name, (unsigned)number, (unsigned)expected);
        failed = 1;
    }
    size_t used = deepest();
    most[kind] = used > most[kind] ? used : most[kind];
}

/* ---- the frames sent, kept as a captured trace */

static uint8_t lengths[MOST_FRAMES];
static uint8_t data[MOST_FRAMES * TTPA_FRAME_BYTES];
static size_t frames;
static size_t data_bytes;

/* The file as it was before calls that are made again without a summary. */
static uint8_t before[TTPA_FILE_BYTES];

/* Carries out the frame as a round, with a summary and again without, and keeps it. */
static void send(uint8_t expected)
{
    memcpy(before, cluster, sizeof cluster);
    make(FILL, TTPA_ACCEPTED);
    make(ROUND_KEEPING, expected);
    memcpy(cluster, before, sizeof cluster);
    memcpy(data + data_bytes, frame, frame_bytes);
    data_bytes += frame_bytes;
    lengths[frames++] = (uint8_t)frame_bytes;
    make(ROUND, expected);
}

static void put_number(size_t at, size_t value)
{
    trace[at] = (uint8_t)(value >> 8);
    trace[at + 1] = (uint8_t)value;
}

static void make_trace(void)
{
    size_t row = 4, place = 0;
    put_number(0, frames);
    put_number(2, data_bytes);
    for (size_t i = 0; i < frames; i++) {
        put_number(row, place);
        trace[row + 2] = lengths[i];
        row += 3;
        place += lengths[i];
    }
    memcpy(trace + row, data, data_bytes);
    trace_bytes = row + data_bytes;
}

/* ---- all calls */

static void check_files(void)
{
    uint8_t *serial = &cluster[cluster_bytes - 1];
    uint8_t *sleep = &cluster[header_bytes() + width + 1];
    uint8_t *last_name = &cluster[last_configuration + 7];
    make(CHECK, TTPA_ACCEPTED);
    *serial = 0;
    make(CHECK, TTPA_REFUSED_EQUAL_PHYSICAL_NAMES);
    *serial = (uint8_t)(slaves - 1);
    *last_name = 0x01;
    make(CHECK, TTPA_REFUSED_EQUAL_LOGICAL_NAMES);
    *last_name = TTPA_NAME_UNNAMED;
    *sleep = 2;
    make(CHECK, TTPA_REFUSED_LAYOUT);
    *sleep = 0;
}

/* A complete master-slave round: its address frame written, read and carried out, then its data frame. */
static void master_slave(uint8_t name, uint8_t file, uint8_t operation, uint8_t record)
{
    const uint8_t address[TTPA_ADDRESS_PARTS] = {9, name, file, operation, record};
    memcpy(parts, address, sizeof parts);
    make(WRITE_ADDRESS, TTPA_ACCEPTED);
    frame_bytes = sizeof frame;
    make(READ_ADDRESS, TTPA_ACCEPTED);
    send(TTPA_ACCEPTED);
    make(WRITE_DATA, TTPA_ACCEPTED);
    frame_bytes = operation == TTPA_OPERATION_WRITE ? sizeof frame : 1;
    send(TTPA_ACCEPTED);
}

/* Records that every slave has, and others; at one slave, at all that are named, and at the unnamed. */
static void master_slave_rounds(void)
{
    static const uint8_t files[] = {TTPA_FILE_CONFIGURATION, DATA_FILE, TTPA_FILE_DOCUMENTATION, 0x3F};
    for (size_t i = 0; i < sizeof files; i++) {
        for (uint8_t record = 0; record <= 4; record++) {
            master_slave(0x01, files[i], TTPA_OPERATION_READ, record);
            master_slave(TTPA_NAME_UNNAMED, files[i], TTPA_OPERATION_READ, record);
        }
        for (uint8_t record = 1; record <= 2; record++) {
            master_slave(0x01, files[i], TTPA_OPERATION_WRITE, record);
            master_slave(TTPA_NAME_BROADCAST, files[i], TTPA_OPERATION_WRITE, record);
            master_slave(TTPA_NAME_UNNAMED, files[i], TTPA_OPERATION_WRITE, record);
        }
    }
    for (uint8_t record = 1; record <= TTPA_RECORD_SLEEP; record++) {
        master_slave(TTPA_NAME_BROADCAST, TTPA_FILE_CONFIGURATION, TTPA_OPERATION_EXECUTE, record);
        master_slave(TTPA_NAME_UNNAMED, TTPA_FILE_CONFIGURATION, TTPA_OPERATION_EXECUTE, record);
    }
}

static void multipartner_rounds(void)
{
    static const uint8_t fireworks[] = {
        TTPA_FIREWORK_ROUND_0, TTPA_FIREWORK_ROUND_2, TTPA_FIREWORK_ROUND_3,
        TTPA_FIREWORK_ROUND_4, TTPA_FIREWORK_ROUND_6, TTPA_FIREWORK_ROUND_7,
    };
    frame_bytes = 1;
    for (size_t i = 0; i < sizeof fireworks; i++) {
        frame[0] = fireworks[i];
        send(TTPA_ACCEPTED);
        failed |= fireworks[i] == TTPA_FIREWORK_ROUND_2 && senders == 0;
    }
}

static void refused_frames(void)
{
    make(WRITE_ADDRESS, TTPA_ACCEPTED);
    frame[5] ^= 1;
    frame_bytes = sizeof frame;
    make(READ_ADDRESS, TTPA_REFUSED_CHECK_BYTE);
    send(TTPA_REFUSED_CHECK_BYTE);
    frame[0] = 0;
    send(TTPA_REFUSED_FIREWORK);
}

/* A whole run by steps of this kind, and calls that are refused. */
static void name_all(enum kind step)
{
    for (unsigned i = 0; i < NAMES; i++) {
        names[i] = (uint8_t)(i + 1);
    }
    make(START, TTPA_ACCEPTED);
    while (!failed && run[TTPA_RUN_END] == TTPA_RUNNING) {
        make(step, TTPA_ACCEPTED);
    }
    make(step, TTPA_ACCEPTED);
    names[NAMES - 1] = names[0];
    make(START, TTPA_REFUSED_REPEATED_NAME);
    make(step, TTPA_REFUSED_REPEATED_NAME);
}

/* With a summary, which then tells that the last name is held by the last slave; and calls that refuse it. */
static void name_all_keeping(void)
{
    memcpy(before, cluster, sizeof cluster);
    make(FILL, TTPA_ACCEPTED);
    name_all(STEP_KEEPING);
    make(HOLDER, TTPA_ACCEPTED);
    failed |= place != slaves - 1;
    held_count = sizeof held + 1;
    make(HOLDER, TTPA_REFUSED_SUMMARY);
    make(STEP_KEEPING, TTPA_REFUSED_SUMMARY);
    memcpy(cluster, before, sizeof cluster);
}

static void run_trace(void)
{
    make_trace();
    make(TRACE, TTPA_ACCEPTED);
    failed |= report[TTPA_REPORT_SUM] != frames || report[TTPA_REPORT_REFUSED] != 2;
    trace_bytes--;
    make(TRACE, TTPA_REFUSED_TRACE);
}

/* Before the naming run only the first slave has a name, and sends in slots 1 to 16: a row of 17 slots, five
 * records; with the three before it and five rows of one record, 52 bytes. After it all send, and many in one slot. */
static void write_owner(uint8_t expected)
{
    owner_bytes = sizeof owner;
    make(OWNER, expected);
    owner_bytes = 51;
    make(OWNER, expected == TTPA_ACCEPTED ? TTPA_REFUSED_OWNER_BUFFER : expected);
    failed |= expected == TTPA_ACCEPTED && owner_length != 52;
}

/* The multiplexed entry of the last slave's list, which has four records before file 0x08, as a send. */
static void refuse_multiplexed(void)
{
    uint8_t *operation = &cluster[last_configuration - 3 * RECORD_BYTES + 2];
    *operation ^= 1 << 4;
    make(OWNER, TTPA_REFUSED_MULTIPLEXED_SEND);
    *operation ^= 1 << 4;
}

/* The file copied, and where edition 1 holds it widened and narrowed again; and in a buffer that is a byte too short. */
static void convert(void)
{
    enum kind copy = edition == 1 ? TO_EDITION_1 : TO_EDITION_2;
    enum kind turn = edition == 1 ? TO_EDITION_2 : TO_EDITION_1;
    source = cluster;
    source_bytes = cluster_bytes;
    converted_room = cluster_bytes;
    make(copy, TTPA_ACCEPTED);
    failed |= converted_length != cluster_bytes || memcmp(converted, cluster, cluster_bytes) != 0;
    converted_room = cluster_bytes - 1;
    make(copy, TTPA_REFUSED_CONVERSION_BUFFER);
    converted_room = sizeof converted;
    make(turn, edition == 1 ? TTPA_ACCEPTED : TTPA_REFUSED_EDITION_LIMITS);
    if (edition == 1) {
        memcpy(before, converted, sizeof converted);
        source = before;
        source_bytes = (size_t)converted_length;
        make(copy, TTPA_ACCEPTED);
        failed |= converted_length != cluster_bytes || memcmp(converted, cluster, cluster_bytes) != 0;
    }
}

/* Files without slaves, and one of each edition with a slave named 0x05, which is turned where it comes second. */
static const uint8_t nobody[] = {0x54, 0x41, 0x01, 0, 0, 0x10, 0, 0x10, 0, 0, 0, 0, 0, 0, 0, 0};
static const uint8_t wide_nobody[] = {0x54, 0x41, 0x02, 0, 0, 0, 0, 0x18, 0, 0, 0, 0x18, 0, 0, 0, 0, 0, 0, 0, 0, 0, 0, 0, 0};
static const uint8_t narrow_5[] = {
    0x54, 0x41, 0x01, 0x01, 0x00, 0x10, 0x00, 0x38, 0x09, 0x01, 0x05, 0x41, 0x01, 0x00, 0x00, 0x00,
    0x00, 0x14, 0x02, 0x00, 0x08, 0x03, 0x00, 0x1C, 0x3D, 0x02, 0x00, 0x2C, 0x01, 0x02, 0x03, 0x04,
    0x05, 0x06, 0x07, 0x05, 0x08, 0x09, 0x0A, 0x0B, 0x0C, 0x0D, 0x0E, 0x0F, 0x10, 0x11, 0x12, 0x13,
    0x00, 0x00, 0x00, 0x07, 0x00, 0x00, 0x00, 0x10,
};
static const uint8_t wide_5[] = {
    0x54, 0x41, 0x02, 0x01, 0x00, 0x00, 0x00, 0x18, 0x00, 0x00, 0x00, 0x4C, 0xFF, 0x00, 0x03, 0x04,
    0x05, 0x00, 0x00, 0x00, 0x00, 0x00, 0x00, 0x00, 0x00, 0x00, 0x00, 0x20, 0x02, 0x01, 0x00, 0x00,
    0x08, 0x03, 0x00, 0x00, 0x00, 0x00, 0x00, 0x30, 0x3D, 0x02, 0x00, 0x00, 0x00, 0x00, 0x00, 0x40,
    0x21, 0x22, 0x23, 0x24, 0x25, 0x26, 0x27, 0x05, 0x28, 0x29, 0x2A, 0x2B, 0x2C, 0x2D, 0x2E, 0x2F,
    0x30, 0x31, 0x32, 0x33, 0x00, 0x00, 0x00, 0x07, 0x00, 0x00, 0x00, 0xA0,
};

static void join_files(const uint8_t *first, size_t n, const uint8_t *second, size_t m, uint8_t expected)
{
    source = first;
    source_bytes = n;
    joined = second;
    joined_bytes = m;
    make(JOIN, expected);
}

static void join_whole(const uint8_t *first, size_t n, const uint8_t *second, size_t m)
{
    join_files(first, n, second, m, TTPA_ACCEPTED);
    failed |= converted_length != cluster_bytes || memcmp(converted, cluster, cluster_bytes) != 0;
}

/* The file and one without slaves, in either order and in the other edition, and with itself; two that turn a slave. */
static void join(void)
{
    const uint8_t *none = edition == 1 ? nobody : wide_nobody, *other = edition == 1 ? wide_nobody : nobody;
    size_t none_bytes = edition == 1 ? sizeof nobody : sizeof wide_nobody;
    size_t other_bytes = edition == 1 ? sizeof wide_nobody : sizeof nobody;
    converted_room = cluster_bytes;
    join_whole(cluster, cluster_bytes, none, none_bytes);
    join_whole(cluster, cluster_bytes, other, other_bytes);
    join_whole(none, none_bytes, cluster, cluster_bytes);
    converted_room = cluster_bytes - 1;
    join_files(none, none_bytes, cluster, cluster_bytes, TTPA_REFUSED_JOINED_LIMITS);
    converted_room = sizeof converted;
    join_files(other, other_bytes, cluster, cluster_bytes,
               edition == 1 ? TTPA_ACCEPTED : TTPA_REFUSED_JOINED_LIMITS);
    join_files(cluster, cluster_bytes, cluster, cluster_bytes, TTPA_REFUSED_SHARED_PHYSICAL_NAME);
    join_files(narrow_5, sizeof narrow_5, wide_5, sizeof wide_5, TTPA_ACCEPTED);
    failed |= converted[3] != 2 || converted[0x4B] != TTPA_NAME_UNNAMED;
    join_files(wide_5, sizeof wide_5, narrow_5, sizeof narrow_5, TTPA_ACCEPTED);
    failed |= converted[3] != 2 || converted[0x6B] != TTPA_NAME_UNNAMED;
    join_files(cluster, cluster_bytes, cluster, cluster_bytes - 1, TTPA_REFUSED_LENGTH_FIELD);
}

static void post(uint8_t of_screen, uint8_t name, uint8_t file, uint8_t expected)
{
    const uint8_t read[TTPA_ADDRESS_PARTS] = {0, name, file, TTPA_OPERATION_READ, 1};
    memcpy(parts, read, sizeof parts);
    screen = of_screen;
    make(POST, expected);
}

/* All eight screens post, reads that are answered and others, and are served; then none waits. And calls that are refused. */
static void serve_screens(void)
{
    static const uint8_t files[] = {TTPA_FILE_CONFIGURATION, DATA_FILE, TTPA_FILE_DOCUMENTATION, 0x3F};
    make(SCREENS, TTPA_ACCEPTED);
    post(TTPA_NO_SCREEN, 0x01, DATA_FILE, TTPA_REFUSED_SCREEN);
    post(0, 0x01, 64, TTPA_REFUSED_FILE_NUMBER);
    post(0, TTPA_NAME_BROADCAST, DATA_FILE, TTPA_REFUSED_BROADCAST_READ);
    for (uint8_t i = 0; i < TTPA_NO_SCREEN; i++) {
        post(i, i < 4 ? 0x01 : TTPA_NAME_UNNAMED, files[i % 4], TTPA_ACCEPTED);
        post(i, 0x01, DATA_FILE, TTPA_REFUSED_SCREEN_WAITING);
    }
    for (uint8_t i = 0; i <= TTPA_NO_SCREEN; i++) {
        make(TURN, TTPA_ACCEPTED);
        failed |= screen != i;
    }
    cluster[0] ^= 1;
    make(TURN, TTPA_REFUSED_MARK);
    cluster[0] ^= 1;
    state[0] = TTPA_NO_SCREEN;
    make(TURN, TTPA_REFUSED_SCREEN);
}

/* Every pattern, and one that is refused. */
static void tell_patterns(void)
{
    for (pattern = 0; pattern < 512; pattern++) {
        make(PATTERN, TTPA_ACCEPTED);
    }
    make(PATTERN, TTPA_REFUSED_PATTERN);
}

/* Every number of the first slave, of the last and of the one behind it; then a refused file. */
static void read_files(void)
{
    const uint64_t asked[] = {0, slaves - 1, slaves};
    for (size_t i = 0; i < sizeof asked / sizeof *asked; i++) {
        slave = asked[i];
        for (file_number = 0; file_number <= 64; file_number++) {
            make(CONTENTS, TTPA_ACCEPTED);
            int there = slave < slaves && (file_number == TTPA_FILE_CONFIGURATION || file_number == TTPA_FILE_DOCUMENTATION);
            failed |= there && contents_length == 0;
            failed |= (slave == slaves || file_number == 64) && contents_length != 0;
        }
    }
    cluster[0] ^= 1;
    make(CONTENTS, TTPA_REFUSED_MARK);
    cluster[0] ^= 1;
}

static void all_calls_on(uint8_t of_edition)
{
    edition = of_edition;
    frames = 0;
    data_bytes = 0;
    make_cluster();
    check_files();
    read_files();
    convert();
    join();
    multipartner_rounds();
    write_owner(TTPA_ACCEPTED);
    name_all_keeping();
    name_all(STEP);
    serve_screens();
    write_owner(TTPA_REFUSED_TWO_SENDERS);
    refuse_multiplexed();
    multipartner_rounds();
    master_slave_rounds();
    refused_frames();
    run_trace();
}

static void all_calls(void)
{
    make(NOTHING, TTPA_ACCEPTED);
    make(VERSION, TTPA_ACCEPTED);
    failed |= version != TTPA_VERSION;
    tell_patterns();
    all_calls_on(1);
    all_calls_on(2);
}

int main(void)
{
    size_t deepest_call = 0;
    all_calls();
    memset(most, 0, sizeof most);
    filling = 0xA5;
    all_calls();
    filling = 0x5A;
    all_calls();
    /* counted from the caller's frame on, where a function that calls nothing begins too */
    for (enum kind kind = VERSION; kind < KINDS; kind++) {
        size_t used = most[kind] - most[NOTHING];
        printf("%s %zu\n", calls[kind].name, used);
        deepest_call = used > deepest_call ? used : deepest_call;
    }
    printf("deepest %zu\n", deepest_call);
    return failed;
}
