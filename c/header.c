/* header: holds include/ttpa.h against documents 01 and 02 and the library. The gate compiles it as C and as
 * C++.
 *
 * Every constant is held by its value and every prototype by its exact type, or this does not compile; the
 * gate sees to it that none is left out. Every call is made, and what it returns and leaves in lent memory
 * is compared. Prints the number of comparisons; one that fails is printed with its line, and the status
 * is 1. */
#include <assert.h>
#include <stdio.h>
#include <string.h>

#include "ttpa.h"

#define VALUE(name, value) static_assert((name) == (value), #name)

#ifdef __cplusplus
#include <type_traits>
#define PROTOTYPE(name, type) static_assert(std::is_same<decltype(name), type>::value, #name)
#else
#define PROTOTYPE(name, type) static_assert(_Generic(&(name), type *: 1, default: 0), #name)
#endif

/* ---- the version: one number, for the preprocessor too, of three below 100 */

#if TTPA_VERSION / 10000 != TTPA_VERSION_MAJOR || TTPA_VERSION / 100 % 100 != TTPA_VERSION_MINOR || \
    TTPA_VERSION % 100 != TTPA_VERSION_PATCH
#error "TTPA_VERSION is not made of its three numbers"
#endif

/* ---- the constants. A call that is lent an array whose size changes here gets another name. */

/* .ci/refusals writes from here: values */
VALUE(TTPA_ACCEPTED, 0);
VALUE(TTPA_REFUSED_FILE_SIZE, 1);
VALUE(TTPA_REFUSED_MARK, 2);
VALUE(TTPA_REFUSED_EDITION, 3);
VALUE(TTPA_REFUSED_LENGTH_FIELD, 4);
VALUE(TTPA_REFUSED_HEADER, 5);
VALUE(TTPA_REFUSED_LAYOUT, 6);
VALUE(TTPA_REFUSED_NEEDED_FILE, 7);
VALUE(TTPA_REFUSED_EQUAL_PHYSICAL_NAMES, 8);
VALUE(TTPA_REFUSED_SHORT_BUFFER, 9);
VALUE(TTPA_REFUSED_FIREWORK, 10);
VALUE(TTPA_REFUSED_FRAME_LENGTH, 11);
VALUE(TTPA_REFUSED_CHECK_BYTE, 12);
VALUE(TTPA_REFUSED_OPERATION, 13);
VALUE(TTPA_REFUSED_BROADCAST_READ, 14);
VALUE(TTPA_REFUSED_LISTED_NAME, 15);
VALUE(TTPA_REFUSED_REPEATED_NAME, 16);
VALUE(TTPA_REFUSED_POSITION, 17);
VALUE(TTPA_REFUSED_FILE_NUMBER, 18);
VALUE(TTPA_REFUSED_TRACE, 19);
VALUE(TTPA_REFUSED_TWO_SENDERS, 20);
VALUE(TTPA_REFUSED_OWNER_BUFFER, 21);
VALUE(TTPA_REFUSED_EQUAL_LOGICAL_NAMES, 22);
VALUE(TTPA_REFUSED_MULTIPLEXED_SEND, 23);
VALUE(TTPA_REFUSED_SUMMARY, 24);
VALUE(TTPA_REFUSED_EDITION_LIMITS, 25);
VALUE(TTPA_REFUSED_CONVERSION_BUFFER, 26);
VALUE(TTPA_REFUSED_SCREEN, 27);
VALUE(TTPA_REFUSED_SCREEN_WAITING, 28);
VALUE(TTPA_REFUSED_SHARED_PHYSICAL_NAME, 29);
VALUE(TTPA_REFUSED_JOINED_LIMITS, 30);
VALUE(TTPA_REFUSED_PATTERN, 31);
/* .ci/refusals writes to here */

VALUE(TTPA_FILE_BYTES, 65536);
VALUE(TTPA_EDITION_1_FILE_BYTES, 32768);
VALUE(TTPA_MOST_SLAVES, 64);
VALUE(TTPA_EDITION_1_SLAVES, 32);
VALUE(TTPA_WIDENED_BYTES, 41096);
VALUE(TTPA_FRAME_BYTES, 6);
VALUE(TTPA_ANSWER_BYTES, 64);

VALUE(TTPA_FIREWORK_ROUND_0, 0x78);
VALUE(TTPA_FIREWORK_MSD, 0x49);
VALUE(TTPA_FIREWORK_ROUND_2, 0xBA);
VALUE(TTPA_FIREWORK_ROUND_3, 0x8B);
VALUE(TTPA_FIREWORK_ROUND_4, 0x64);
VALUE(TTPA_FIREWORK_MSA, 0x55);
VALUE(TTPA_FIREWORK_ROUND_6, 0xA6);
VALUE(TTPA_FIREWORK_ROUND_7, 0x97);

VALUE(TTPA_PART_EPOCH, 0);
VALUE(TTPA_PART_NAME, 1);
VALUE(TTPA_PART_FILE, 2);
VALUE(TTPA_PART_OPERATION, 3);
VALUE(TTPA_PART_RECORD, 4);
VALUE(TTPA_ADDRESS_PARTS, 5);

VALUE(TTPA_OPERATION_READ, 0);
VALUE(TTPA_OPERATION_WRITE, 1);
VALUE(TTPA_OPERATION_EXECUTE, 2);

VALUE(TTPA_NAME_BROADCAST, 0x00);
VALUE(TTPA_NAME_UNNAMED, 0xFF);

VALUE(TTPA_FILE_CONFIGURATION, 0x08);
VALUE(TTPA_FILE_DOCUMENTATION, 0x3D);
VALUE(TTPA_RECORD_SLEEP, 4);

VALUE(TTPA_RUN_END, 0);
VALUE(TTPA_RUN_INDEX, 1);
VALUE(TTPA_RUN_STEP, 2);
VALUE(TTPA_RUN_VALUE, 3);
VALUE(TTPA_RUN_ROUNDS, 4);
VALUE(TTPA_RUN_COMPARISONS, 5);
VALUE(TTPA_RUN_HIGH, 6);
VALUE(TTPA_RUN_LOW, 7);
VALUE(TTPA_RUN_WORDS, 8);

VALUE(TTPA_RUNNING, 0);
VALUE(TTPA_ALL_NAMED, 1);
VALUE(TTPA_NAMES_USED_UP, 2);

VALUE(TTPA_TRACE_BYTES, 16384);
VALUE(TTPA_REPORT_MSA, 0);
VALUE(TTPA_REPORT_MSD, 1);
VALUE(TTPA_REPORT_MULTIPARTNER, 2);
VALUE(TTPA_REPORT_REFUSED, 3);
VALUE(TTPA_REPORT_SUM, 4);
VALUE(TTPA_REPORT_WORDS, 5);

VALUE(TTPA_OWNER_BYTES, 396);
VALUE(TTPA_OWNER_RECORD_BYTES, 4);
VALUE(TTPA_OWNER_INDEX, 4);

VALUE(TTPA_NOBODY, UINT64_C(0xFFFFFFFFFFFFFFFF));

VALUE(TTPA_SCREENS_BYTES, 33);
VALUE(TTPA_NO_SCREEN, 8);

VALUE(TTPA_DATA_BYTE, 0);
VALUE(TTPA_FIREWORK, 1);
VALUE(TTPA_BROKEN, 2);
VALUE(TTPA_SLAVE_FILE_BYTES, 1024);

/* ---- the prototypes */

typedef const char *text_type(uint8_t);
typedef uint32_t version_type(void);
typedef uint8_t check_type(const uint8_t *, size_t);
typedef uint8_t read_address_type(const uint8_t *, size_t, uint8_t *);
typedef uint8_t write_address_type(uint8_t *, size_t, uint8_t, uint8_t, uint8_t, uint8_t, uint8_t);
typedef uint8_t write_data_type(uint8_t *, size_t, uint8_t, uint8_t, uint8_t, uint8_t);
typedef uint8_t round_type(uint8_t *, size_t, const uint8_t *, size_t, uint8_t *, size_t, uint64_t *);
typedef uint8_t start_type(const uint8_t *, size_t, uint64_t *);
typedef uint8_t step_type(uint8_t *, size_t, uint64_t *, const uint8_t *, size_t, uint8_t *, size_t,
                          uint64_t *);
typedef uint8_t trace_type(uint8_t *, size_t, const uint8_t *, size_t, uint64_t *);
typedef uint8_t owner_type(const uint8_t *, size_t, uint8_t, uint8_t *, size_t, uint64_t *);
typedef uint8_t fill_type(const uint8_t *, size_t, uint8_t *, size_t, uint64_t *);
typedef uint8_t holder_type(const uint8_t *, size_t, uint64_t, uint8_t, uint64_t *);
typedef uint8_t round_keeping_type(uint8_t *, size_t, const uint8_t *, size_t, uint8_t *, size_t, uint64_t *,
                                   uint8_t *, size_t, uint64_t);
typedef uint8_t step_keeping_type(uint8_t *, size_t, uint64_t *, const uint8_t *, size_t, uint8_t *, size_t,
                                  uint64_t *, uint8_t *, size_t, uint64_t);
typedef uint8_t to_edition_type(const uint8_t *, size_t, uint8_t *, size_t, uint64_t *);
typedef uint8_t screens_type(uint8_t *);
typedef uint8_t post_type(uint8_t *, uint8_t, uint8_t, uint8_t, uint8_t);
typedef uint8_t turn_type(uint8_t *, size_t, uint8_t *, uint8_t *, size_t, uint64_t *, uint8_t *);
typedef uint8_t join_type(const uint8_t *, size_t, const uint8_t *, size_t, uint8_t *, size_t, uint64_t *);
typedef uint8_t pattern_type(uint16_t, uint8_t *);
typedef uint8_t contents_type(const uint8_t *, size_t, uint64_t, uint8_t, uint8_t *, size_t, uint64_t *);

PROTOTYPE(ttpa_refusal_text, text_type);
PROTOTYPE(ttpa_version, version_type);
PROTOTYPE(ttpa_check, check_type);
PROTOTYPE(ttpa_read_address, read_address_type);
PROTOTYPE(ttpa_write_address, write_address_type);
PROTOTYPE(ttpa_write_data, write_data_type);
PROTOTYPE(ttpa_round, round_type);
PROTOTYPE(ttpa_start, start_type);
PROTOTYPE(ttpa_step, step_type);
PROTOTYPE(ttpa_trace, trace_type);
PROTOTYPE(ttpa_owner, owner_type);
PROTOTYPE(ttpa_fill, fill_type);
PROTOTYPE(ttpa_holder, holder_type);
PROTOTYPE(ttpa_round_keeping, round_keeping_type);
PROTOTYPE(ttpa_step_keeping, step_keeping_type);
PROTOTYPE(ttpa_to_edition_1, to_edition_type);
PROTOTYPE(ttpa_to_edition_2, to_edition_type);
PROTOTYPE(ttpa_screens, screens_type);
PROTOTYPE(ttpa_post, post_type);
PROTOTYPE(ttpa_turn, turn_type);
PROTOTYPE(ttpa_join, join_type);
PROTOTYPE(ttpa_pattern, pattern_type);
PROTOTYPE(ttpa_contents, contents_type);

/* ---- the comparisons */

static int comparisons;
static int failures;

static void compare(int holds, int line)
{
    comparisons++;
    if (!holds) {
        failures++;
        fprintf(stderr, "c/header.c:%d does not hold\n", line);
    }
}

#define EXPECT(condition) compare(condition, __LINE__)

/* Case M10 of document 01: two unnamed slaves, 0x0000000700000010 and 0x00000007000000A0. */
static const uint8_t m10[] = {
    0x54, 0x41, 0x01, 0x02, 0x00, 0x10, 0x00, 0x60, 0x00, 0x00, 0x00, 0x00, 0x00, 0x00, 0x00, 0x00,
    0x00, 0x18, 0x02, 0x00, 0x00, 0x3C, 0x02, 0x00, 0x08, 0x03, 0x00, 0x20, 0x3D, 0x02, 0x00, 0x30,
    0x00, 0x00, 0x00, 0x00, 0x00, 0x00, 0x00, 0xFF, 0x00, 0x00, 0x00, 0x00, 0x00, 0x00, 0x00, 0x00,
    0x00, 0x00, 0x00, 0x00, 0x00, 0x00, 0x00, 0x07, 0x00, 0x00, 0x00, 0x10, 0x08, 0x03, 0x00, 0x44,
    0x3D, 0x02, 0x00, 0x54, 0x00, 0x00, 0x00, 0x00, 0x00, 0x00, 0x00, 0xFF, 0x00, 0x00, 0x00, 0x00,
    0x00, 0x00, 0x00, 0x00, 0x00, 0x00, 0x00, 0x00, 0x00, 0x00, 0x00, 0x07, 0x00, 0x00, 0x00, 0xA0,
};

/* Where M10 keeps what the calls change: the epoch, whether each slave sleeps, and the logical name of each. */
#define EPOCH 8
#define FIRST_SLEEP 19
#define SECOND_SLEEP 23
#define FIRST_NAME 39
#define SECOND_NAME 75

/* What a buffer and *senders hold before a call. */
#define OLD 0xEE
#define OLD_SENDERS UINT64_C(0x0123456789ABCDEF)

static uint8_t cluster[sizeof m10];
static uint8_t answer[TTPA_ANSWER_BYTES + 1];
static uint64_t senders;

static void renew(void)
{
    memcpy(cluster, m10, sizeof m10);
    memset(answer, OLD, sizeof answer);
    senders = OLD_SENDERS;
}

static int is_old(const uint8_t *bytes, size_t count)
{
    size_t i = 0;
    while (i < count && bytes[i] == OLD) {
        i++;
    }
    return i == count;
}

/* The answer is the firework, then 0xFF from the slot on, and the byte after it is old. */
static int silent_from(uint8_t firework, size_t slot)
{
    size_t i = slot;
    while (i < TTPA_ANSWER_BYTES && answer[i] == 0xFF) {
        i++;
    }
    return answer[0] == firework && i == TTPA_ANSWER_BYTES && answer[TTPA_ANSWER_BYTES] == OLD;
}

/* ---- texts */

static int is_printable(const char *text)
{
    size_t i = 0;
    while (text[i] >= ' ' && text[i] <= '~') {
        i++;
    }
    return i > 0 && text[i] == '\0';
}

static int first_with(const char *text)
{
    int number = 0;
    while (strcmp(ttpa_refusal_text((uint8_t)number), text) != 0) {
        number++;
    }
    return number;
}

/* The known numbers, each with a word that its text cannot do without. */
static const struct {
    int number;
    const char *word;
} words[] = {
    /* .ci/refusals writes from here: words */
    {TTPA_ACCEPTED, "accepted"},
    {TTPA_REFUSED_FILE_SIZE, "65,536"},
    {TTPA_REFUSED_MARK, "mark"},
    {TTPA_REFUSED_EDITION, "edition"},
    {TTPA_REFUSED_LENGTH_FIELD, "as long as its header"},
    {TTPA_REFUSED_HEADER, "header"},
    {TTPA_REFUSED_LAYOUT, "layout"},
    {TTPA_REFUSED_NEEDED_FILE, "0x3D"},
    {TTPA_REFUSED_EQUAL_PHYSICAL_NAMES, "physical name"},
    {TTPA_REFUSED_SHORT_BUFFER, "buffer"},
    {TTPA_REFUSED_FIREWORK, "firework"},
    {TTPA_REFUSED_FRAME_LENGTH, "length"},
    {TTPA_REFUSED_CHECK_BYTE, "firework and the four bytes"},
    {TTPA_REFUSED_OPERATION, "operation"},
    {TTPA_REFUSED_BROADCAST_READ, "a read is"},
    {TTPA_REFUSED_LISTED_NAME, "0xFF"},
    {TTPA_REFUSED_REPEATED_NAME, "twice"},
    {TTPA_REFUSED_POSITION, "stored naming run"},
    {TTPA_REFUSED_FILE_NUMBER, "file number"},
    {TTPA_REFUSED_TRACE, "the trace"},
    {TTPA_REFUSED_TWO_SENDERS, "two slaves send"},
    {TTPA_REFUSED_OWNER_BUFFER, "owner file"},
    {TTPA_REFUSED_EQUAL_LOGICAL_NAMES, "logical name;"},
    {TTPA_REFUSED_MULTIPLEXED_SEND, "multiplexed"},
    {TTPA_REFUSED_SUMMARY, "summary"},
    {TTPA_REFUSED_EDITION_LIMITS, "edition 1"},
    {TTPA_REFUSED_CONVERSION_BUFFER, "converted"},
    {TTPA_REFUSED_SCREEN, "above 7"},
    {TTPA_REFUSED_SCREEN_WAITING, "waiting already"},
    {TTPA_REFUSED_SHARED_PHYSICAL_NAME, "of the other"},
    {TTPA_REFUSED_JOINED_LIMITS, "joined"},
    {TTPA_REFUSED_PATTERN, "above 511"},
    /* .ci/refusals writes to here */
};

/* Each known number has a text of its own with a word of its ground; all others have one text. */
static void texts(void)
{
    const int known = sizeof words / sizeof words[0];
    for (int number = 0; number < known; number++) {
        const char *text = ttpa_refusal_text((uint8_t)number);
        EXPECT(words[number].number == number);
        EXPECT(is_printable(text) && strstr(text, words[number].word) != NULL);
        EXPECT(first_with(text) == number);
    }
    EXPECT(is_printable(ttpa_refusal_text(UINT8_MAX)));
    for (int number = known; number <= UINT8_MAX; number++) {
        EXPECT(first_with(ttpa_refusal_text((uint8_t)number)) == known);
    }
}

/* ---- files */

static uint8_t check_with(size_t place, uint8_t byte)
{
    renew();
    cluster[place] = byte;
    return ttpa_check(cluster, sizeof cluster);
}

static void files(void)
{
    static uint8_t longest[TTPA_FILE_BYTES + 1];
    EXPECT(ttpa_check(m10, sizeof m10) == TTPA_ACCEPTED);
    EXPECT(ttpa_check(NULL, 0) == TTPA_REFUSED_FILE_SIZE);
    EXPECT(ttpa_check(longest, TTPA_EDITION_1_FILE_BYTES + 1) == TTPA_REFUSED_FILE_SIZE);
    EXPECT(ttpa_check(longest, TTPA_EDITION_1_FILE_BYTES) == TTPA_REFUSED_MARK);
    longest[2] = 2;
    EXPECT(ttpa_check(longest, TTPA_FILE_BYTES + 1) == TTPA_REFUSED_FILE_SIZE);
    EXPECT(ttpa_check(longest, TTPA_FILE_BYTES) == TTPA_REFUSED_MARK);
    EXPECT(ttpa_check(longest, 24) == TTPA_REFUSED_MARK && ttpa_check(longest, 23) == TTPA_REFUSED_FILE_SIZE);
    EXPECT(ttpa_check(longest, 3) == TTPA_REFUSED_FILE_SIZE && ttpa_check(longest, 2) == TTPA_REFUSED_FILE_SIZE);
    EXPECT(check_with(1, 0x42) == TTPA_REFUSED_MARK);
    EXPECT(check_with(2, 9) == TTPA_REFUSED_EDITION);
    EXPECT(check_with(2, 2) == TTPA_REFUSED_LENGTH_FIELD);
    EXPECT(ttpa_check(m10, sizeof m10 - 1) == TTPA_REFUSED_LENGTH_FIELD);
    EXPECT(check_with(3, 33) == TTPA_REFUSED_HEADER);
    EXPECT(check_with(FIRST_SLEEP, 1) == TTPA_ACCEPTED);
    EXPECT(check_with(FIRST_SLEEP, 2) == TTPA_REFUSED_LAYOUT);
    EXPECT(check_with(28, 0x3C) == TTPA_REFUSED_NEEDED_FILE);
    EXPECT(check_with(sizeof m10 - 1, 0x10) == TTPA_REFUSED_EQUAL_PHYSICAL_NAMES);
}

static void name_both(uint8_t name)
{
    renew();
    cluster[FIRST_NAME] = name;
    cluster[SECOND_NAME] = name;
}

/* Two slaves of one name: loading refuses it, 0xFF aside and after 8; a round does not. */
static void equal_names(void)
{
    static const uint8_t round[] = {TTPA_FIREWORK_ROUND_2};
    static const uint8_t refused[] = {0x00, 0x01, 0xFE};
    for (size_t i = 0; i < sizeof refused; i++) {
        name_both(refused[i]);
        EXPECT(ttpa_check(cluster, sizeof cluster) == TTPA_REFUSED_EQUAL_LOGICAL_NAMES);
        EXPECT(ttpa_round(cluster, sizeof cluster, round, sizeof round, answer, sizeof answer, &senders) ==
               TTPA_ACCEPTED);
        EXPECT(ttpa_check(cluster, sizeof cluster) == TTPA_REFUSED_EQUAL_LOGICAL_NAMES);
        cluster[sizeof cluster - 1] = 0x10;
        EXPECT(ttpa_check(cluster, sizeof cluster) == TTPA_REFUSED_EQUAL_PHYSICAL_NAMES);
    }
    name_both(0x05);
    cluster[SECOND_NAME] = 0x06;
    EXPECT(ttpa_check(cluster, sizeof cluster) == TTPA_ACCEPTED);
}

/* ---- frames: cases M1 to M5, and the order of the grounds */

static void written_addresses(void)
{
    static const uint8_t m1[] = {0x55, 0x05, 0xFF, 0x22, 0x02, 0x8F};
    static const uint8_t m2[] = {0x55, 0x00, 0xFF, 0x21, 0x01, 0x8A};
    static const uint8_t m4[] = {0x55, 0x02, 0x01, 0xF4, 0x01, 0xA3};
    uint8_t frame[TTPA_FRAME_BYTES + 1];
    memset(frame, OLD, sizeof frame);
    EXPECT(ttpa_write_address(frame, sizeof frame, 5, TTPA_NAME_UNNAMED, TTPA_FILE_CONFIGURATION,
                              TTPA_OPERATION_EXECUTE, 2) == TTPA_ACCEPTED);
    EXPECT(memcmp(frame, m1, sizeof m1) == 0 && frame[TTPA_FRAME_BYTES] == OLD);
    EXPECT(ttpa_write_address(frame, TTPA_FRAME_BYTES, 0, TTPA_NAME_UNNAMED, TTPA_FILE_CONFIGURATION,
                              TTPA_OPERATION_WRITE, 1) == TTPA_ACCEPTED);
    EXPECT(memcmp(frame, m2, sizeof m2) == 0);
    EXPECT(ttpa_write_address(frame, sizeof frame, 2, 0x01, TTPA_FILE_DOCUMENTATION, TTPA_OPERATION_READ,
                              1) == TTPA_ACCEPTED);
    EXPECT(memcmp(frame, m4, sizeof m4) == 0 && frame[TTPA_FRAME_BYTES] == OLD);
}

static void refused_addresses(void)
{
    uint8_t frame[TTPA_FRAME_BYTES];
    memset(frame, OLD, sizeof frame);
    EXPECT(ttpa_write_address(NULL, 0, 1, 0x00, 64, 3, 1) == TTPA_REFUSED_SHORT_BUFFER);
    EXPECT(ttpa_write_address(frame, TTPA_FRAME_BYTES - 1, 1, 0x00, 64, 3, 1) == TTPA_REFUSED_SHORT_BUFFER);
    EXPECT(ttpa_write_address(frame, sizeof frame, 1, 0x00, 64, 3, 1) == TTPA_REFUSED_OPERATION);
    EXPECT(ttpa_write_address(frame, sizeof frame, 1, 0x00, 64, 0, 1) == TTPA_REFUSED_BROADCAST_READ);
    EXPECT(ttpa_write_address(frame, sizeof frame, 1, 0x00, 64, 1, 1) == TTPA_REFUSED_FILE_NUMBER);
    EXPECT(is_old(frame, sizeof frame));
}

static void data_frames(void)
{
    static const uint8_t m3[] = {0x49, 0x00, 0x00, 0x01, 0xFF, 0xB7};
    static const uint8_t four_bytes[] = {0x49, 0x12, 0x34, 0x56, 0x7F, 0x46};
    uint8_t frame[TTPA_FRAME_BYTES + 1];
    memset(frame, OLD, sizeof frame);
    EXPECT(ttpa_write_data(NULL, 0, 1, 2, 3, 4) == TTPA_REFUSED_SHORT_BUFFER);
    EXPECT(ttpa_write_data(frame, TTPA_FRAME_BYTES - 1, 1, 2, 3, 4) == TTPA_REFUSED_SHORT_BUFFER);
    EXPECT(is_old(frame, sizeof frame));
    EXPECT(ttpa_write_data(frame, sizeof frame, 0x00, 0x00, 0x01, 0xFF) == TTPA_ACCEPTED);
    EXPECT(memcmp(frame, m3, sizeof m3) == 0 && frame[TTPA_FRAME_BYTES] == OLD);
    EXPECT(ttpa_write_data(frame, TTPA_FRAME_BYTES, 0x12, 0x34, 0x56, 0x7F) == TTPA_ACCEPTED);
    EXPECT(memcmp(frame, four_bytes, sizeof four_bytes) == 0);
}

static void read_addresses(void)
{
    static const uint8_t m1[] = {0x55, 0x05, 0xFF, 0x22, 0x02, 0x8F, 0x00};
    static const uint8_t m5[] = {0x55, 0x05, 0xFF, 0x22, 0x02, 0x8E};
    static const uint8_t operation_3[] = {0x55, 0x05, 0x00, 0x23, 0x02, 0x71};
    static const uint8_t broadcast_read[] = {0x55, 0x05, 0x00, 0x20, 0x02, 0x72};
    static const uint8_t data[] = {0x49, 0x00, 0x00, 0x01, 0xFF, 0xB7};
    uint8_t parts[TTPA_ADDRESS_PARTS + 1];
    memset(parts, OLD, sizeof parts);
    EXPECT(ttpa_read_address(NULL, 0, parts) == TTPA_REFUSED_FIREWORK);
    EXPECT(ttpa_read_address(data, sizeof data, parts) == TTPA_REFUSED_FIREWORK);
    EXPECT(ttpa_read_address(m1, TTPA_FRAME_BYTES + 1, parts) == TTPA_REFUSED_FRAME_LENGTH);
    EXPECT(ttpa_read_address(m5, sizeof m5, parts) == TTPA_REFUSED_CHECK_BYTE);
    EXPECT(ttpa_read_address(operation_3, sizeof operation_3, parts) == TTPA_REFUSED_OPERATION);
    EXPECT(ttpa_read_address(broadcast_read, sizeof broadcast_read, parts) == TTPA_REFUSED_BROADCAST_READ);
    EXPECT(is_old(parts, sizeof parts));
    EXPECT(ttpa_read_address(m1, TTPA_FRAME_BYTES, parts) == TTPA_ACCEPTED);
    EXPECT(parts[TTPA_PART_EPOCH] == 5);
    EXPECT(parts[TTPA_PART_NAME] == TTPA_NAME_UNNAMED);
    EXPECT(parts[TTPA_PART_FILE] == TTPA_FILE_CONFIGURATION);
    EXPECT(parts[TTPA_PART_OPERATION] == TTPA_OPERATION_EXECUTE);
    EXPECT(parts[TTPA_PART_RECORD] == 2);
    EXPECT(parts[TTPA_ADDRESS_PARTS] == OLD);
}

/* ---- rounds */

static uint8_t send(const uint8_t *frame, size_t bytes)
{
    return ttpa_round(cluster, sizeof cluster, frame, bytes, answer, sizeof answer, &senders);
}

/* The comparison with 0, at which both slaves answer 0x00 in slot 1. */
static void master_slave(void)
{
    static const uint8_t m1[] = {0x55, 0x05, 0xFF, 0x22, 0x02, 0x8F};
    static const uint8_t data[] = {TTPA_FIREWORK_MSD};
    static const uint8_t pending[] = {0x05, 0x01, 0xFF, 0x22, 0x02};
    renew();
    EXPECT(send(m1, sizeof m1) == TTPA_ACCEPTED);
    EXPECT(senders == 0 && silent_from(TTPA_FIREWORK_MSA, 1));
    EXPECT(memcmp(cluster + EPOCH, pending, sizeof pending) == 0);
    EXPECT(send(data, sizeof data) == TTPA_ACCEPTED);
    EXPECT(senders == 1 << 1 && answer[1] == 0x00 && silent_from(TTPA_FIREWORK_MSD, 2));
    EXPECT(cluster[EPOCH] == 6);
}

/* One byte as a frame: 0x55 is too short, seven are whole frames, all others are no fireworks. */
static void fireworks(void)
{
    static const uint8_t whole[] = {
        TTPA_FIREWORK_ROUND_0, TTPA_FIREWORK_MSD,     TTPA_FIREWORK_ROUND_2, TTPA_FIREWORK_ROUND_3,
        TTPA_FIREWORK_ROUND_4, TTPA_FIREWORK_ROUND_6, TTPA_FIREWORK_ROUND_7,
    };
    for (unsigned byte = 0; byte < 256; byte++) {
        const uint8_t frame[] = {(uint8_t)byte};
        renew();
        if (memchr(whole, (int)byte, sizeof whole) != NULL) {
            EXPECT(send(frame, sizeof frame) == TTPA_ACCEPTED);
            EXPECT(senders == 0 && silent_from(frame[0], 1));
        } else {
            unsigned number = byte == TTPA_FIREWORK_MSA ? TTPA_REFUSED_FRAME_LENGTH : TTPA_REFUSED_FIREWORK;
            EXPECT(send(frame, sizeof frame) == number);
            EXPECT(senders == OLD_SENDERS && is_old(answer, sizeof answer));
        }
    }
}

static void refused_rounds(void)
{
    static const uint8_t m5[] = {0x55, 0x05, 0xFF, 0x22, 0x02, 0x8E};
    static const uint8_t operation_3[] = {0x55, 0x05, 0x00, 0x23, 0x02, 0x71};
    static const uint8_t broadcast_read[] = {0x55, 0x05, 0x00, 0x20, 0x02, 0x72};
    renew();
    EXPECT(ttpa_round(NULL, 0, NULL, 0, NULL, 0, &senders) == TTPA_REFUSED_FILE_SIZE);
    EXPECT(ttpa_round(cluster, sizeof cluster - 1, NULL, 0, NULL, 0, &senders) == TTPA_REFUSED_LENGTH_FIELD);
    EXPECT(ttpa_round(cluster, sizeof cluster, NULL, 0, NULL, 0, &senders) == TTPA_REFUSED_SHORT_BUFFER);
    EXPECT(ttpa_round(cluster, sizeof cluster, NULL, 0, answer, TTPA_ANSWER_BYTES - 1, &senders) ==
           TTPA_REFUSED_SHORT_BUFFER);
    EXPECT(ttpa_round(cluster, sizeof cluster, NULL, 0, answer, TTPA_ANSWER_BYTES, &senders) ==
           TTPA_REFUSED_FIREWORK);
    EXPECT(send(m5, sizeof m5 - 1) == TTPA_REFUSED_FRAME_LENGTH);
    EXPECT(send(m5, sizeof m5) == TTPA_REFUSED_CHECK_BYTE);
    EXPECT(send(operation_3, sizeof operation_3) == TTPA_REFUSED_OPERATION);
    EXPECT(send(broadcast_read, sizeof broadcast_read) == TTPA_REFUSED_BROADCAST_READ);
    EXPECT(senders == OLD_SENDERS && is_old(answer, sizeof answer));
    EXPECT(memcmp(cluster, m10, sizeof m10) == 0);
}

/* The exclusive or of the four bytes alone is no check, neither of an address nor of the data of a write. */
static void checks_without_firework(void)
{
    static const uint8_t m2[] = {0x55, 0x00, 0xFF, 0x21, 0x01, 0x8A};
    static const uint8_t address[] = {0x55, 0x00, 0xFF, 0x21, 0x01, 0xDF};
    static const uint8_t data[] = {0x49, 0x00, 0x00, 0x01, 0xFF, 0xFE};
    uint8_t parts[TTPA_ADDRESS_PARTS];
    uint8_t pending[sizeof cluster];
    EXPECT(ttpa_read_address(address, sizeof address, parts) == TTPA_REFUSED_CHECK_BYTE);
    renew();
    EXPECT(send(address, sizeof address) == TTPA_REFUSED_CHECK_BYTE);
    EXPECT(send(m2, sizeof m2) == TTPA_ACCEPTED);
    memcpy(pending, cluster, sizeof pending);
    EXPECT(send(data, sizeof data) == TTPA_REFUSED_CHECK_BYTE);
    EXPECT(memcmp(cluster, pending, sizeof pending) == 0);
}

/* A foreign master writes 11 22 33 05 to record 1 of 0x08 at 0xFF: bytes 0 to 2 are replaced, and nobody is 05. */
static void written_names(void)
{
    static const uint8_t m2[] = {0x55, 0x00, 0xFF, 0x21, 0x01, 0x8A};
    static const uint8_t data[] = {0x49, 0x11, 0x22, 0x33, 0x05, 0x4C};
    static const uint8_t record[] = {0x11, 0x22, 0x33, TTPA_NAME_UNNAMED};
    renew();
    EXPECT(send(m2, sizeof m2) == TTPA_ACCEPTED);
    EXPECT(send(data, sizeof data) == TTPA_ACCEPTED);
    EXPECT(senders == 0 && silent_from(TTPA_FIREWORK_MSD, 1));
    EXPECT(memcmp(cluster + FIRST_NAME - 3, record, sizeof record) == 0);
    EXPECT(memcmp(cluster + SECOND_NAME - 3, record, sizeof record) == 0);
    EXPECT(memcmp(cluster + FIRST_NAME + 1, m10 + FIRST_NAME + 1, SECOND_NAME - 3 - (FIRST_NAME + 1)) == 0);
}

/* ---- sleep and wake */

/* One slave, named 05, with record 4 in its 0x08. */
static const uint8_t named_5[] = {
    0x54, 0x41, 0x01, 0x01, 0x00, 0x10, 0x00, 0x3C, 0x00, 0x00, 0x00, 0x00, 0x00, 0x00, 0x00, 0x00,
    0x00, 0x14, 0x02, 0x00, 0x08, 0x04, 0x00, 0x1C, 0x3D, 0x02, 0x00, 0x30, 0x00, 0x00, 0x00, 0x00,
    0x00, 0x00, 0x00, 0x05, 0x00, 0x00, 0x00, 0x00, 0x00, 0x00, 0x00, 0x00, 0x00, 0x00, 0x00, 0x00,
    0x00, 0x00, 0x00, 0x00, 0x00, 0x00, 0x00, 0x07, 0x00, 0x00, 0x00, 0x10,
};

static uint8_t send_to_5(const uint8_t *frame, size_t bytes)
{
    return ttpa_round(cluster, sizeof named_5, frame, bytes, answer, sizeof answer, &senders);
}

/* The execute of record 4 at 0x00 puts it to sleep with its data frame. A read finds it asleep: the address frame and a
 * refused frame leave it so, the data frame is not answered and wakes it, and the same again is answered. */
static void sleep_and_wake(void)
{
    static const uint8_t sleep[] = {0x55, 0x01, 0x00, 0x22, TTPA_RECORD_SLEEP, 0x72};
    static const uint8_t read[] = {0x55, 0x05, 0x05, 0xF4, 0x01, 0xA0};
    static const uint8_t data[] = {TTPA_FIREWORK_MSD, 0x00};
    static const uint8_t series[] = {0x00, 0x00, 0x00, 0x07, 0x4E};
    renew();
    memcpy(cluster, named_5, sizeof named_5);
    EXPECT(send_to_5(sleep, sizeof sleep) == TTPA_ACCEPTED && cluster[FIRST_SLEEP] == 0);
    EXPECT(send_to_5(data, 1) == TTPA_ACCEPTED && cluster[FIRST_SLEEP] == 1);
    EXPECT(senders == 0 && silent_from(TTPA_FIREWORK_MSD, 1));
    EXPECT(send_to_5(read, sizeof read) == TTPA_ACCEPTED && cluster[FIRST_SLEEP] == 1);
    EXPECT(send_to_5(data, 2) == TTPA_REFUSED_FRAME_LENGTH && cluster[FIRST_SLEEP] == 1);
    EXPECT(send_to_5(data, 1) == TTPA_ACCEPTED && cluster[FIRST_SLEEP] == 0);
    EXPECT(senders == 0 && silent_from(TTPA_FIREWORK_MSD, 1));
    EXPECT(send_to_5(data, 1) == TTPA_ACCEPTED && senders == 0x3E);
    EXPECT(memcmp(answer + 1, series, sizeof series) == 0 && silent_from(TTPA_FIREWORK_MSD, 6));
}

/* ---- naming */

static const uint8_t names[] = {0x21, 0x22, 0x23};

#define OLD_WORD UINT64_C(0xEEEEEEEEEEEEEEEE)

/* The words of a run, and a word after them. */
static uint64_t run[TTPA_RUN_WORDS + 1];

static void put_run(uint64_t end, uint64_t index, uint64_t step, uint64_t value)
{
    memset(run, 0, sizeof run);
    run[TTPA_RUN_END] = end;
    run[TTPA_RUN_INDEX] = index;
    run[TTPA_RUN_STEP] = step;
    run[TTPA_RUN_VALUE] = value;
    run[TTPA_RUN_WORDS] = OLD_WORD;
}

static int run_is(uint64_t end, uint64_t index, uint64_t step, uint64_t value)
{
    return run[TTPA_RUN_END] == end && run[TTPA_RUN_INDEX] == index && run[TTPA_RUN_STEP] == step &&
           run[TTPA_RUN_VALUE] == value && run[TTPA_RUN_WORDS] == OLD_WORD;
}

static int counts_are(uint64_t rounds, uint64_t compared)
{
    return run[TTPA_RUN_ROUNDS] == rounds && run[TTPA_RUN_COMPARISONS] == compared;
}

static int halves_are(uint64_t high, uint64_t low)
{
    return run[TTPA_RUN_HIGH] == high && run[TTPA_RUN_LOW] == low;
}

static uint8_t step(const uint8_t *list, size_t listed, size_t answer_bytes)
{
    return ttpa_step(cluster, sizeof cluster, run, list, listed, answer, answer_bytes, &senders);
}

static void starts(void)
{
    static const uint8_t broadcast[] = {0x21, TTPA_NAME_BROADCAST, 0x21};
    static const uint8_t unnamed[] = {0x21, 0x21, TTPA_NAME_UNNAMED};
    static const uint8_t twice[] = {0x21, 0x22, 0x21};
    memset(run, OLD, sizeof run);
    EXPECT(ttpa_start(broadcast, sizeof broadcast, run) == TTPA_REFUSED_LISTED_NAME);
    EXPECT(ttpa_start(unnamed, sizeof unnamed, run) == TTPA_REFUSED_LISTED_NAME);
    EXPECT(ttpa_start(twice, sizeof twice, run) == TTPA_REFUSED_REPEATED_NAME);
    EXPECT(run_is(OLD_WORD, OLD_WORD, OLD_WORD, OLD_WORD));
    EXPECT(counts_are(OLD_WORD, OLD_WORD) && halves_are(OLD_WORD, OLD_WORD));
    EXPECT(ttpa_start(NULL, 0, run) == TTPA_ACCEPTED);
    EXPECT(run_is(TTPA_NAMES_USED_UP, 0, 0, 0) && counts_are(0, 0) && halves_are(0, 0));
    EXPECT(ttpa_start(names, sizeof names, run) == TTPA_ACCEPTED);
    EXPECT(run_is(TTPA_RUNNING, 0, 0, 0) && counts_are(0, 0) && halves_are(0, 0));
}

/* Steps over the first names of the list, at most so many; the number of the last one. */
static uint8_t steps(size_t listed, unsigned most)
{
    uint8_t number = TTPA_ACCEPTED;
    for (unsigned made = 0; made < most && run[TTPA_RUN_END] == TTPA_RUNNING; made++) {
        number = step(names, listed, sizeof answer);
    }
    return number;
}

/* One name. The first round is the extra read, which leaves the step and wakes the slaves. The fourth of the pass is
 * the comparison with 0, at which both answer; the fifth writes the high half of bit 63; the low half is 0 as before,
 * so the place after it is left out. The slave with the greater physical name, whose bit 32 is 1 and bit 0 is 0, takes
 * the name in 135 rounds with 65 comparisons. */
static void one_name(void)
{
    renew();
    put_run(9, 9, 9, 9);
    cluster[FIRST_SLEEP] = 1;
    EXPECT(ttpa_start(names, 1, run) == TTPA_ACCEPTED);
    EXPECT(steps(1, 1) == TTPA_ACCEPTED);
    EXPECT(run_is(TTPA_RUNNING, 0, 0, 0) && counts_are(1, 0) && halves_are(0, 0));
    EXPECT(senders == 0 && silent_from(TTPA_FIREWORK_MSD, 1) && cluster[FIRST_SLEEP] == 0);
    EXPECT(steps(1, 4) == TTPA_ACCEPTED);
    EXPECT(run_is(TTPA_RUNNING, 0, 4, 0) && counts_are(5, 1) && halves_are(0, 0));
    EXPECT(senders == 1 << 1 && answer[1] == 0x00 && silent_from(TTPA_FIREWORK_MSD, 2));
    EXPECT(steps(1, 1) == TTPA_ACCEPTED);
    EXPECT(run_is(TTPA_RUNNING, 0, 6, 0) && counts_are(6, 1) && halves_are(0x80000000, 0));
    EXPECT(steps(1, 1000) == TTPA_ACCEPTED);
    EXPECT(run_is(TTPA_NAMES_USED_UP, 1, 0, UINT64_C(0x00000007000000A0)));
    EXPECT(counts_are(136, 65) && halves_are(0x00000007, 0x000000A0));
    EXPECT(cluster[FIRST_NAME] == TTPA_NAME_UNNAMED && cluster[SECOND_NAME] == names[0]);
    EXPECT(cluster[EPOCH] == 272 % 256);
}

/* A run at the high half of bit 63, with these halves stored. */
static void put_halves(uint64_t rounds, uint64_t high, uint64_t low)
{
    put_run(TTPA_RUNNING, 0, 4, 0);
    run[TTPA_RUN_ROUNDS] = rounds;
    run[TTPA_RUN_HIGH] = high;
    run[TTPA_RUN_LOW] = low;
}

/* With both halves stored the step asks who replies; with another low half it writes that one; a stored half of more
 * than 32 bits is never the one to be written. With no round counted the step makes the extra read and stays. */
static void needless_writes(void)
{
    renew();
    put_halves(1, 0x80000000, 0);
    EXPECT(steps(1, 1) == TTPA_ACCEPTED);
    EXPECT(run_is(TTPA_RUNNING, 0, 7, UINT64_C(1) << 63) && counts_are(2, 1) && halves_are(0x80000000, 0));
    EXPECT(senders == 1 << 1);
    put_halves(1, 0x80000000, 5);
    EXPECT(steps(1, 1) == TTPA_ACCEPTED);
    EXPECT(run_is(TTPA_RUNNING, 0, 6, 0) && counts_are(2, 0) && halves_are(0x80000000, 0));
    put_halves(1, UINT64_C(0x180000000), 0);
    EXPECT(steps(1, 1) == TTPA_ACCEPTED);
    EXPECT(run_is(TTPA_RUNNING, 0, 6, 0) && counts_are(2, 0) && halves_are(0x80000000, 0));
    EXPECT(senders == 0);
    put_halves(0, 0x80000000, 0);
    EXPECT(steps(1, 1) == TTPA_ACCEPTED);
    EXPECT(run_is(TTPA_RUNNING, 0, 4, 0) && counts_are(1, 0) && halves_are(0x80000000, 0));
}

/* Three names for two slaves: the figures of M10, the extra read, two passes of 135 rounds and one of 4. Then a step
 * alters nothing. */
static void all_names(void)
{
    uint8_t named[sizeof cluster];
    renew();
    put_run(9, 9, 9, 9);
    EXPECT(ttpa_start(names, sizeof names, run) == TTPA_ACCEPTED);
    EXPECT(steps(sizeof names, 1000) == TTPA_ACCEPTED);
    EXPECT(run_is(TTPA_ALL_NAMED, 2, 3, UINT64_C(0x0000000700000010)));
    EXPECT(counts_are(275, 131) && halves_are(0, 0));
    EXPECT(cluster[FIRST_NAME] == names[1] && cluster[SECOND_NAME] == names[0]);
    EXPECT(senders == 0 && silent_from(TTPA_FIREWORK_MSD, 1));
    memcpy(named, cluster, sizeof named);
    memset(answer, OLD, sizeof answer);
    senders = OLD_SENDERS;
    EXPECT(step(names, sizeof names, sizeof answer) == TTPA_ACCEPTED);
    EXPECT(run_is(TTPA_ALL_NAMED, 2, 3, UINT64_C(0x0000000700000010)));
    EXPECT(counts_are(275, 131) && halves_are(0, 0));
    EXPECT(senders == OLD_SENDERS && is_old(answer, sizeof answer));
    EXPECT(memcmp(cluster, named, sizeof named) == 0);
}

static void refused_steps(void)
{
    static const uint8_t unfit[] = {0x21, 0x21, TTPA_NAME_UNNAMED};
    static const uint8_t twice[] = {0x21, 0x21, 0x22};
    renew();
    put_run(TTPA_NAMES_USED_UP + 1, 0, 0, 0);
    run[TTPA_RUN_HIGH] = 5;
    run[TTPA_RUN_LOW] = 6;
    EXPECT(ttpa_step(NULL, 0, run, unfit, sizeof unfit, NULL, 0, &senders) == TTPA_REFUSED_FILE_SIZE);
    EXPECT(ttpa_step(cluster, sizeof cluster - 1, run, unfit, sizeof unfit, NULL, 0, &senders) ==
           TTPA_REFUSED_LENGTH_FIELD);
    EXPECT(step(unfit, sizeof unfit, TTPA_ANSWER_BYTES - 1) == TTPA_REFUSED_SHORT_BUFFER);
    EXPECT(step(unfit, sizeof unfit, TTPA_ANSWER_BYTES) == TTPA_REFUSED_LISTED_NAME);
    EXPECT(step(twice, sizeof twice, TTPA_ANSWER_BYTES) == TTPA_REFUSED_REPEATED_NAME);
    EXPECT(step(NULL, 0, TTPA_ANSWER_BYTES) == TTPA_REFUSED_POSITION);
    EXPECT(run_is(TTPA_NAMES_USED_UP + 1, 0, 0, 0) && counts_are(0, 0) && halves_are(5, 6));
    EXPECT(senders == OLD_SENDERS && is_old(answer, sizeof answer));
    EXPECT(memcmp(cluster, m10, sizeof m10) == 0);
}

/* ---- captured traces */

/* One address frame (M1), two data frames, three multipartner frames and four that are refused: an empty one,
 * one without a firework, and two of a wrong length. */
static const uint8_t captured[] = {
    /* frame count and data length; then of each frame offset and length */
    0x00, 0x0A, 0x00, 0x0F,
    0x00, 0x00, 0x06, 0x00, 0x06, 0x01, 0x00, 0x07, 0x01, 0x00, 0x08, 0x01, 0x00, 0x09, 0x01,
    0x00, 0x0A, 0x01, 0x00, 0x0B, 0x00, 0x00, 0x0B, 0x01, 0x00, 0x0C, 0x01, 0x00, 0x0D, 0x02,
    /* M1, 49, 49, BA, 54 (no firework), 78, an empty frame, 97, 55 (too short), 49 00 (too long) */
    0x55, 0x05, 0xFF, 0x22, 0x02, 0x8F, 0x49, 0x49, 0xBA, 0x54, 0x78, 0x97, 0x55, 0x49, 0x00,
};

/* The report, and a word after it. */
static uint64_t report[TTPA_REPORT_WORDS + 1];

static int report_is(uint64_t msa, uint64_t msd, uint64_t multipartner, uint64_t refused, uint64_t sum)
{
    return report[TTPA_REPORT_MSA] == msa && report[TTPA_REPORT_MSD] == msd &&
           report[TTPA_REPORT_MULTIPARTNER] == multipartner && report[TTPA_REPORT_REFUSED] == refused &&
           report[TTPA_REPORT_SUM] == sum && report[TTPA_REPORT_WORDS] == OLD_WORD;
}

static void renew_report(void)
{
    memset(report, OLD, sizeof report);
}

static uint8_t run_trace(const uint8_t *trace, size_t bytes)
{
    return ttpa_trace(cluster, sizeof cluster, trace, bytes, report);
}

/* The address frame puts the epoch to 5 and stays pending; five rounds follow. */
static void traces(void)
{
    static const uint8_t no_frame[] = {0x00, 0x00, 0x00, 0x00};
    static const uint8_t header[] = {0x0A, 0x01, 0xFF, 0x22, 0x02};
    renew();
    renew_report();
    EXPECT(run_trace(captured, sizeof captured) == TTPA_ACCEPTED);
    EXPECT(report_is(1, 2, 3, 4, 10));
    EXPECT(memcmp(cluster, m10, EPOCH) == 0 && memcmp(cluster + EPOCH, header, sizeof header) == 0);
    EXPECT(memcmp(cluster + EPOCH + sizeof header, m10 + EPOCH + sizeof header,
                  sizeof m10 - EPOCH - sizeof header) == 0);
    renew();
    EXPECT(run_trace(no_frame, sizeof no_frame) == TTPA_ACCEPTED);
    EXPECT(report_is(0, 0, 0, 0, 0));
    EXPECT(memcmp(cluster, m10, sizeof m10) == 0);
}

/* Rows of empty frames, as many as fit, and one more. */
static void longest_traces(void)
{
    static uint8_t empty[4 + 3 * 5461];
    empty[0] = 5460 / 256;
    empty[1] = 5460 % 256;
    renew();
    renew_report();
    EXPECT(run_trace(empty, TTPA_TRACE_BYTES) == TTPA_ACCEPTED);
    EXPECT(report_is(0, 0, 0, 5460, 5460));
    renew_report();
    empty[1]++;
    EXPECT(run_trace(empty, sizeof empty) == TTPA_REFUSED_TRACE);
    EXPECT(report_is(OLD_WORD, OLD_WORD, OLD_WORD, OLD_WORD, OLD_WORD));
}

static void refused_traces(void)
{
    renew();
    renew_report();
    EXPECT(ttpa_trace(NULL, 0, NULL, 0, report) == TTPA_REFUSED_FILE_SIZE);
    EXPECT(ttpa_trace(cluster, sizeof cluster - 1, NULL, 0, report) == TTPA_REFUSED_LENGTH_FIELD);
    EXPECT(run_trace(NULL, 0) == TTPA_REFUSED_TRACE);
    EXPECT(run_trace(captured, 3) == TTPA_REFUSED_TRACE);
    EXPECT(run_trace(captured, sizeof captured - 1) == TTPA_REFUSED_TRACE);
    EXPECT(report_is(OLD_WORD, OLD_WORD, OLD_WORD, OLD_WORD, OLD_WORD));
    EXPECT(memcmp(cluster, m10, sizeof m10) == 0);
}

/* ---- owner files */

/* Three slaves, each with a list for round 2 and a file 0x10 of 8 bytes. The first, 0x21, sends in slots 1 and
 * 2, the second, 0x22, in slot 4; the third, unnamed, would send in slot 2. */
static const uint8_t partners[] = {
    0x54, 0x41, 0x01, 0x03, 0x00, 0x10, 0x00, 0xD0, 0x00, 0x00, 0x00, 0x00, 0x00, 0x00, 0x00, 0x00,
    0x00, 0x1C, 0x04, 0x00, 0x00, 0x58, 0x04, 0x00, 0x00, 0x94, 0x04, 0x00,
    /* the first slave at 0x1C: its directory, then its list, 0x08, 0x10 and 0x3D */
    0x02, 0x01, 0x00, 0x2C, 0x08, 0x03, 0x00, 0x34, 0x10, 0x01, 0x00, 0x44, 0x3D, 0x02, 0x00, 0x4C,
    0x00, 0x00, 0x00, 0x00, 0x40, 0x01, 0x11, 0x01,
    0x00, 0x00, 0x00, 0x00, 0x00, 0x00, 0x00, 0x21, 0x00, 0x00, 0x00, 0x00, 0x00, 0x00, 0x00, 0x00,
    0x00, 0x00, 0x00, 0x00, 0xA1, 0xA2, 0x00, 0x00,
    0x00, 0x00, 0x00, 0x00, 0x00, 0x00, 0x00, 0x07, 0x00, 0x00, 0x00, 0x01,
    /* the second at 0x58 */
    0x02, 0x01, 0x00, 0x68, 0x08, 0x03, 0x00, 0x70, 0x10, 0x01, 0x00, 0x80, 0x3D, 0x02, 0x00, 0x88,
    0x00, 0x00, 0x00, 0x00, 0x40, 0x01, 0x10, 0x04,
    0x00, 0x00, 0x00, 0x00, 0x00, 0x00, 0x00, 0x22, 0x00, 0x00, 0x00, 0x00, 0x00, 0x00, 0x00, 0x00,
    0x00, 0x00, 0x00, 0x00, 0xB1, 0xB2, 0x00, 0x00,
    0x00, 0x00, 0x00, 0x00, 0x00, 0x00, 0x00, 0x07, 0x00, 0x00, 0x00, 0x02,
    /* the third at 0x94 */
    0x02, 0x01, 0x00, 0xA4, 0x08, 0x03, 0x00, 0xAC, 0x10, 0x01, 0x00, 0xBC, 0x3D, 0x02, 0x00, 0xC4,
    0x00, 0x00, 0x00, 0x00, 0x40, 0x01, 0x10, 0x02,
    0x00, 0x00, 0x00, 0x00, 0x00, 0x00, 0x00, 0xFF, 0x00, 0x00, 0x00, 0x00, 0x00, 0x00, 0x00, 0x00,
    0x00, 0x00, 0x00, 0x00, 0xC1, 0xC2, 0x00, 0x00,
    0x00, 0x00, 0x00, 0x00, 0x00, 0x00, 0x00, 0x07, 0x00, 0x00, 0x00, 0x03,
};

/* Where the third slave's logical name stands, and the operation and multiplex field of the second's entry. */
#define THIRD_NAME 0xB3
#define SECOND_OPERATION 0x6E
#define SECOND_SLOT 0x6F

/* Their owner file for a master named 0x11: round 2 has five slots, so two records from record 4 on. */
static const uint8_t owners[] = {
    0x00, 0x00, 0x00, 0x00, 0x03, 0x00, 0x04, 0x06, 0x07, 0x00, 0x08, 0x09,
    0x11, 0x00, 0x00, 0x00, 0x11, 0x21, 0x21, 0x00, 0x22, 0x00, 0x00, 0x00,
    0x11, 0x00, 0x00, 0x00, 0x11, 0x00, 0x00, 0x00, 0x11, 0x00, 0x00, 0x00, 0x11, 0x00, 0x00, 0x00,
};

static uint8_t owner_buffer[TTPA_OWNER_BYTES + 1];
static uint64_t owner_length;

static uint8_t write_owner(const uint8_t *file, size_t bytes, size_t buffer_bytes)
{
    memset(owner_buffer, OLD, sizeof owner_buffer);
    owner_length = OLD_WORD;
    return ttpa_owner(file, bytes, 0x11, owner_buffer, buffer_bytes, &owner_length);
}

/* The owner file stands in the front of the buffer, and after it nothing is written. */
static int owner_is(const uint8_t *expected, size_t bytes)
{
    return owner_length == bytes && memcmp(owner_buffer, expected, bytes) == 0 &&
           is_old(owner_buffer + bytes, sizeof owner_buffer - bytes);
}

/* The call refuses by the number and writes nothing. */
static int owner_refused(const uint8_t *file, size_t bytes, size_t buffer_bytes, uint8_t number)
{
    return write_owner(file, bytes, buffer_bytes) == number && owner_length == OLD_WORD &&
           is_old(owner_buffer, sizeof owner_buffer);
}

static void owner_files(void)
{
    static const uint8_t nobody[] = {
        0x00, 0x00, 0x00, 0x00, 0x03, 0x00, 0x04, 0x05, 0x06, 0x00, 0x07, 0x08,
        0x11, 0x00, 0x00, 0x00, 0x11, 0x00, 0x00, 0x00, 0x11, 0x00, 0x00, 0x00,
        0x11, 0x00, 0x00, 0x00, 0x11, 0x00, 0x00, 0x00, 0x11, 0x00, 0x00, 0x00,
    };
    EXPECT(ttpa_check(partners, sizeof partners) == TTPA_ACCEPTED);
    EXPECT(write_owner(partners, sizeof partners, sizeof owner_buffer) == TTPA_ACCEPTED);
    EXPECT(owner_is(owners, sizeof owners));
    EXPECT(write_owner(partners, sizeof partners, sizeof owners) == TTPA_ACCEPTED);
    EXPECT(owner_is(owners, sizeof owners));
    EXPECT(owners[TTPA_OWNER_INDEX + 2] * TTPA_OWNER_RECORD_BYTES == 16);
    EXPECT(write_owner(m10, sizeof m10, TTPA_OWNER_BYTES) == TTPA_ACCEPTED);
    EXPECT(owner_is(nobody, sizeof nobody));
}

static void refused_owners(void)
{
    uint8_t clashing[sizeof partners];
    memcpy(clashing, partners, sizeof partners);
    clashing[THIRD_NAME] = 0x23;
    EXPECT(ttpa_owner(NULL, 0, 0x11, NULL, 0, &owner_length) == TTPA_REFUSED_FILE_SIZE);
    EXPECT(owner_refused(clashing, sizeof clashing - 1, 0, TTPA_REFUSED_LENGTH_FIELD));
    EXPECT(owner_refused(clashing, sizeof clashing, 0, TTPA_REFUSED_TWO_SENDERS));
    EXPECT(owner_refused(clashing, sizeof clashing, TTPA_OWNER_BYTES, TTPA_REFUSED_TWO_SENDERS));
    clashing[THIRD_NAME] = 0x21;
    EXPECT(owner_refused(clashing, sizeof clashing, TTPA_OWNER_BYTES, TTPA_REFUSED_TWO_SENDERS));
    EXPECT(owner_refused(partners, sizeof partners, 0, TTPA_REFUSED_OWNER_BUFFER));
    EXPECT(owner_refused(partners, sizeof partners, sizeof owners - 1, TTPA_REFUSED_OWNER_BUFFER));
    EXPECT(ttpa_owner(partners, sizeof partners, 0x11, NULL, 0, &owner_length) == TTPA_REFUSED_OWNER_BUFFER);
    EXPECT(owner_length == OLD_WORD);
}

/* The second slave's entry as a multiplexed one, with its turn in every fourth round: a send is refused, before 20; a
 * receive is passed over, and there is nothing after it. */
static void multiplexed_owners(void)
{
    uint8_t file[sizeof partners];
    memcpy(file, partners, sizeof partners);
    file[SECOND_OPERATION] = 0x90;
    EXPECT(owner_refused(file, sizeof file, 0, TTPA_REFUSED_MULTIPLEXED_SEND));
    EXPECT(owner_refused(file, sizeof file, TTPA_OWNER_BYTES, TTPA_REFUSED_MULTIPLEXED_SEND));
    file[THIRD_NAME] = 0x23;
    EXPECT(owner_refused(file, sizeof file, TTPA_OWNER_BYTES, TTPA_REFUSED_MULTIPLEXED_SEND));
    file[SECOND_OPERATION] = 0x80;
    EXPECT(owner_refused(file, sizeof file, TTPA_OWNER_BYTES, TTPA_REFUSED_TWO_SENDERS));
    file[THIRD_NAME] = TTPA_NAME_UNNAMED;
    EXPECT(write_owner(file, sizeof file, sizeof owner_buffer) == TTPA_ACCEPTED);
    EXPECT(owner_length == 36);
}

/* The same entry in eight rounds, from epoch 0 on: field 1 sends B1 in slot 4 in epochs 1 and 5, and as operation 15 in
 * epoch 5 alone. */
static void multiplexed_rounds(void)
{
    static const uint8_t round[] = {TTPA_FIREWORK_ROUND_2};
    uint8_t file[sizeof partners];
    for (int operation = 9; operation <= 15; operation += 6) {
        memcpy(file, partners, sizeof partners);
        file[SECOND_OPERATION] = (uint8_t)(operation << 4);
        file[SECOND_SLOT] = 1 << 6 | 4;
        for (int epoch = 1; epoch <= 8; epoch++) {
            int sends = epoch == 5 || (epoch == 1 && operation == 9);
            EXPECT(ttpa_round(file, sizeof file, round, sizeof round, answer, sizeof answer, &senders) ==
                   TTPA_ACCEPTED);
            EXPECT(senders == (sends ? 0x16 : 0x06) && answer[4] == (sends ? 0xB1 : 0xFF));
        }
    }
}

/* ---- summaries */

/* The names held, a byte more room than M10 has slaves, and what *count and *place hold. */
static uint8_t held[3];
static uint64_t held_count;
static uint64_t place;

static void renew_held(uint8_t first, uint8_t second)
{
    held[0] = first;
    held[1] = second;
    held[2] = OLD;
    held_count = OLD_WORD;
    place = OLD_WORD;
}

static int held_is(uint8_t first, uint8_t second)
{
    return held[0] == first && held[1] == second && held[2] == OLD;
}

/* M10 with these names: room for one more, exactly room, and one byte too few; then no slaves and no room. */
static void filled(void)
{
    static const uint8_t empty[] = {0x54, 0x41, 1, 0, 0, 16, 0, 16, 0, 0, 0, 0, 0, 0, 0, 0};
    renew();
    cluster[FIRST_NAME] = 0x05;
    renew_held(OLD, OLD);
    EXPECT(ttpa_fill(cluster, sizeof cluster, held, sizeof held, &held_count) == TTPA_ACCEPTED);
    EXPECT(held_count == 2 && held_is(0x05, TTPA_NAME_UNNAMED));
    renew_held(OLD, OLD);
    EXPECT(ttpa_fill(cluster, sizeof cluster, held, 2, &held_count) == TTPA_ACCEPTED);
    EXPECT(held_count == 2 && held_is(0x05, TTPA_NAME_UNNAMED));
    renew_held(OLD, OLD);
    EXPECT(ttpa_fill(cluster, sizeof cluster, held, 1, &held_count) == TTPA_REFUSED_SUMMARY);
    EXPECT(ttpa_fill(cluster, sizeof cluster, NULL, 0, &held_count) == TTPA_REFUSED_SUMMARY);
    EXPECT(ttpa_fill(cluster, sizeof cluster - 1, NULL, 0, &held_count) == TTPA_REFUSED_LENGTH_FIELD);
    EXPECT(ttpa_fill(NULL, 0, NULL, 0, &held_count) == TTPA_REFUSED_FILE_SIZE);
    EXPECT(held_count == OLD_WORD && held_is(OLD, OLD));
    EXPECT(ttpa_fill(empty, sizeof empty, NULL, 0, &held_count) == TTPA_ACCEPTED);
    EXPECT(held_count == 0);
}

/* The place of a name among the first count of two bytes; OLD_WORD where the call refuses by 24. */
static uint64_t holder_of(uint8_t name, uint64_t count)
{
    place = OLD_WORD;
    uint8_t answered = ttpa_holder(held, 2, count, name, &place);
    return answered == TTPA_ACCEPTED || (answered == TTPA_REFUSED_SUMMARY && place == OLD_WORD) ? place : 99;
}

static void holders(void)
{
    renew_held(0x05, TTPA_NAME_UNNAMED);
    EXPECT(holder_of(0x05, 2) == 0 && holder_of(TTPA_NAME_UNNAMED, 2) == 1);
    EXPECT(holder_of(TTPA_NAME_UNNAMED, 1) == TTPA_NOBODY && holder_of(0x06, 2) == TTPA_NOBODY);
    EXPECT(holder_of(TTPA_NAME_BROADCAST, 2) == TTPA_NOBODY && holder_of(0x05, 0) == TTPA_NOBODY);
    EXPECT(holder_of(0x05, 3) == OLD_WORD && holder_of(0x05, UINT64_MAX) == OLD_WORD);
    EXPECT(holder_of(0x05, (UINT64_C(1) << 32) + 2) == OLD_WORD);
    renew_held(0x00, 0x00);
    EXPECT(holder_of(TTPA_NAME_BROADCAST, 2) == 0);
    EXPECT(ttpa_holder(NULL, 0, 0, 0x05, &place) == TTPA_ACCEPTED && place == TTPA_NOBODY);
    EXPECT(held_is(0x00, 0x00));
}

static uint8_t send_keeping(const uint8_t *frame, size_t bytes, size_t answer_bytes, uint64_t count)
{
    return ttpa_round_keeping(cluster, sizeof cluster, frame, bytes, answer, answer_bytes, &senders, held,
                              sizeof held, count);
}

/* Both slaves hold their physical names as comparison values: the second is to become 0x22, the first 0x21. */
static void renew_to_baptize(void)
{
    renew();
    cluster[FIRST_NAME - 1] = 0x21;
    cluster[SECOND_NAME - 1] = 0x22;
    memcpy(cluster + FIRST_NAME + 1, m10 + sizeof m10 - 8, 8);
    memcpy(cluster + SECOND_NAME + 1, m10 + sizeof m10 - 8, 8);
    cluster[FIRST_NAME + 8] = 0x10;
}

/* An execute of record 1 at 0xFF: the address frame leaves the names, the data frame renames, and again nobody. */
static void kept_rounds(void)
{
    static const uint8_t baptize[] = {0x55, 0x05, 0xFF, 0x22, 0x01, 0x8C};
    static const uint8_t data[] = {TTPA_FIREWORK_MSD};
    renew_to_baptize();
    renew_held(TTPA_NAME_UNNAMED, TTPA_NAME_UNNAMED);
    EXPECT(send_keeping(baptize, sizeof baptize, sizeof answer, 2) == TTPA_ACCEPTED);
    EXPECT(senders == 0 && silent_from(TTPA_FIREWORK_MSA, 1) && held_is(0xFF, 0xFF));
    EXPECT(send_keeping(data, 0, sizeof answer, 2) == TTPA_REFUSED_FIREWORK && held_is(0xFF, 0xFF));
    EXPECT(send_keeping(data, sizeof data, sizeof answer, 2) == TTPA_ACCEPTED);
    EXPECT(senders == 0 && silent_from(TTPA_FIREWORK_MSD, 1) && held_is(0x21, 0x22));
    EXPECT(cluster[FIRST_NAME] == 0x21 && cluster[SECOND_NAME] == 0x22 && cluster[EPOCH] == 6);
    EXPECT(send_keeping(data, sizeof data, sizeof answer, 2) == TTPA_ACCEPTED);
    EXPECT(cluster[EPOCH] == 7 && held_is(0x21, 0x22));
    EXPECT(send_keeping(data, sizeof data, sizeof answer, 1) == TTPA_REFUSED_SUMMARY);
    EXPECT(cluster[EPOCH] == 7 && held_is(0x21, 0x22));
}

/* 24 after the file's numbers and before 9, and what it is for: count, room and each name. */
static void refused_summaries(void)
{
    static const uint8_t round[] = {TTPA_FIREWORK_ROUND_2};
    renew();
    renew_held(TTPA_NAME_UNNAMED, TTPA_NAME_UNNAMED);
    EXPECT(ttpa_round_keeping(cluster, sizeof cluster - 1, NULL, 0, NULL, 0, &senders, NULL, 0, 9) ==
           TTPA_REFUSED_LENGTH_FIELD);
    EXPECT(ttpa_round_keeping(cluster, sizeof cluster, NULL, 0, NULL, 0, &senders, NULL, 0, 9) ==
           TTPA_REFUSED_SUMMARY);
    EXPECT(ttpa_round_keeping(cluster, sizeof cluster, round, 1, answer, sizeof answer, &senders, held, 1, 2) ==
           TTPA_REFUSED_SUMMARY);
    EXPECT(send_keeping(round, sizeof round, TTPA_ANSWER_BYTES - 1, 2) == TTPA_REFUSED_SHORT_BUFFER);
    EXPECT(send_keeping(round, sizeof round, sizeof answer, 0) == TTPA_REFUSED_SUMMARY);
    EXPECT(send_keeping(round, sizeof round, sizeof answer, 1) == TTPA_REFUSED_SUMMARY);
    EXPECT(send_keeping(round, sizeof round, sizeof answer, 3) == TTPA_REFUSED_SUMMARY);
    EXPECT(send_keeping(round, sizeof round, sizeof answer, UINT64_MAX) == TTPA_REFUSED_SUMMARY);
    for (int wrong = 0; wrong < 2; wrong++) {
        renew_held(TTPA_NAME_UNNAMED, TTPA_NAME_UNNAMED);
        held[wrong] = 0x05;
        EXPECT(send_keeping(round, sizeof round, 0, 2) == TTPA_REFUSED_SUMMARY);
        EXPECT(held[wrong] == 0x05 && held[1 - wrong] == TTPA_NAME_UNNAMED && held[2] == OLD);
    }
    EXPECT(senders == OLD_SENDERS && is_old(answer, sizeof answer));
    EXPECT(memcmp(cluster, m10, sizeof m10) == 0);
}

static uint8_t step_keeping(const uint8_t *list, size_t listed, size_t answer_bytes)
{
    return ttpa_step_keeping(cluster, sizeof cluster, run, list, listed, answer, answer_bytes, &senders, held,
                             sizeof held, 2);
}

/* The run of all_names by steps that keep the summary, with a round that keeps it between any two; then a step of the
 * ended run, with the summary and with a wrong one. */
static void kept_steps(void)
{
    static const uint8_t round[] = {TTPA_FIREWORK_ROUND_2};
    renew();
    renew_held(TTPA_NAME_UNNAMED, TTPA_NAME_UNNAMED);
    put_run(9, 9, 9, 9);
    EXPECT(ttpa_start(names, sizeof names, run) == TTPA_ACCEPTED);
    int refused = 0, matching = 1;
    while (refused == 0 && run[TTPA_RUN_END] == TTPA_RUNNING) {
        refused |= step_keeping(names, sizeof names, sizeof answer);
        matching &= held_is(cluster[FIRST_NAME], cluster[SECOND_NAME]);
        refused |= send_keeping(round, sizeof round, sizeof answer, 2);
    }
    EXPECT(refused == 0 && matching);
    EXPECT(run_is(TTPA_ALL_NAMED, 2, 3, UINT64_C(0x0000000700000010)) && counts_are(275, 131));
    EXPECT(held_is(names[1], names[0]) && holder_of(names[0], 2) == 1 && holder_of(names[1], 2) == 0);
    senders = OLD_SENDERS;
    EXPECT(step_keeping(names, sizeof names, sizeof answer) == TTPA_ACCEPTED);
    EXPECT(senders == OLD_SENDERS && held_is(names[1], names[0]) && counts_are(275, 131));
    held[1] = names[1];
    EXPECT(step_keeping(names, sizeof names, sizeof answer) == TTPA_REFUSED_SUMMARY);
    EXPECT(held_is(names[1], names[1]) && cluster[SECOND_NAME] == names[0]);
}

/* The order of the grounds of a step that keeps a summary. */
static void refused_kept_steps(void)
{
    static const uint8_t unfit[] = {0x21, 0x21, TTPA_NAME_UNNAMED};
    static const uint8_t twice[] = {0x21, 0x21, 0x22};
    renew();
    put_run(TTPA_NAMES_USED_UP + 1, 0, 0, 0);
    renew_held(TTPA_NAME_UNNAMED, 0x05);
    EXPECT(ttpa_step_keeping(cluster, sizeof cluster - 1, run, unfit, sizeof unfit, NULL, 0, &senders, held, 1,
                             2) == TTPA_REFUSED_LENGTH_FIELD);
    EXPECT(step_keeping(unfit, sizeof unfit, 0) == TTPA_REFUSED_SUMMARY);
    EXPECT(held_is(TTPA_NAME_UNNAMED, 0x05));
    renew_held(TTPA_NAME_UNNAMED, TTPA_NAME_UNNAMED);
    EXPECT(step_keeping(unfit, sizeof unfit, TTPA_ANSWER_BYTES - 1) == TTPA_REFUSED_SHORT_BUFFER);
    EXPECT(step_keeping(unfit, sizeof unfit, TTPA_ANSWER_BYTES) == TTPA_REFUSED_LISTED_NAME);
    EXPECT(step_keeping(twice, sizeof twice, TTPA_ANSWER_BYTES) == TTPA_REFUSED_REPEATED_NAME);
    EXPECT(step_keeping(names, sizeof names, TTPA_ANSWER_BYTES) == TTPA_REFUSED_POSITION);
    EXPECT(run_is(TTPA_NAMES_USED_UP + 1, 0, 0, 0) && counts_are(0, 0));
    EXPECT(senders == OLD_SENDERS && is_old(answer, sizeof answer));
    EXPECT(held_is(TTPA_NAME_UNNAMED, TTPA_NAME_UNNAMED) && memcmp(cluster, m10, sizeof m10) == 0);
}

/* ---- conversions */

/* M10 in edition 2. */
static const uint8_t wide_m10[] = {
    0x54, 0x41, 0x02, 0x02, 0x00, 0x00, 0x00, 0x18, 0x00, 0x00, 0x00, 0x80, 0x00, 0x00, 0x00, 0x00,
    0x00, 0x00, 0x00, 0x00, 0x00, 0x00, 0x00, 0x00, 0x00, 0x00, 0x00, 0x28, 0x02, 0x00, 0x00, 0x00,
    0x00, 0x00, 0x00, 0x54, 0x02, 0x00, 0x00, 0x00, 0x08, 0x03, 0x00, 0x00, 0x00, 0x00, 0x00, 0x38,
    0x3D, 0x02, 0x00, 0x00, 0x00, 0x00, 0x00, 0x48, 0x00, 0x00, 0x00, 0x00, 0x00, 0x00, 0x00, 0xFF,
    0x00, 0x00, 0x00, 0x00, 0x00, 0x00, 0x00, 0x00, 0x00, 0x00, 0x00, 0x00, 0x00, 0x00, 0x00, 0x07,
    0x00, 0x00, 0x00, 0x10, 0x08, 0x03, 0x00, 0x00, 0x00, 0x00, 0x00, 0x64, 0x3D, 0x02, 0x00, 0x00,
    0x00, 0x00, 0x00, 0x74, 0x00, 0x00, 0x00, 0x00, 0x00, 0x00, 0x00, 0xFF, 0x00, 0x00, 0x00, 0x00,
    0x00, 0x00, 0x00, 0x00, 0x00, 0x00, 0x00, 0x00, 0x00, 0x00, 0x00, 0x07, 0x00, 0x00, 0x00, 0xA0,
};

/* Where edition 2 has the epoch, the flag and pending bytes behind it, and the sleep byte of the first slave. */
#define WIDE_EPOCH 12
#define WIDE_FIRST_SLEEP 29

static uint8_t converted[TTPA_FILE_BYTES];
static uint64_t converted_length;

static uint8_t convert(to_edition_type *to_edition, const uint8_t *file, size_t bytes, size_t room)
{
    memset(converted, OLD, sizeof converted);
    converted_length = OLD_SENDERS;
    return to_edition(file, bytes, converted, room, &converted_length);
}

/* The file written, and past it old bytes. */
static int converted_is(const uint8_t *file, size_t bytes)
{
    return converted_length == bytes && memcmp(converted, file, bytes) == 0 &&
           is_old(converted + bytes, sizeof converted - bytes);
}

static int not_converted(void)
{
    return converted_length == OLD_SENDERS && is_old(converted, sizeof converted);
}

/* Into the edition, in a buffer just long enough and in a longer one; and refused in one a byte shorter, and in none. */
static void becomes(to_edition_type *to_edition, const uint8_t *file, size_t bytes, const uint8_t *into, size_t needed)
{
    EXPECT(convert(to_edition, file, bytes, needed) == TTPA_ACCEPTED);
    EXPECT(converted_is(into, needed));
    EXPECT(convert(to_edition, file, bytes, needed + 1) == TTPA_ACCEPTED);
    EXPECT(converted_is(into, needed));
    EXPECT(convert(to_edition, file, bytes, needed - 1) == TTPA_REFUSED_CONVERSION_BUFFER);
    EXPECT(not_converted());
    EXPECT(convert(to_edition, file, bytes, 0) == TTPA_REFUSED_CONVERSION_BUFFER);
    EXPECT(to_edition(file, bytes, NULL, 0, &converted_length) == TTPA_REFUSED_CONVERSION_BUFFER);
    EXPECT(not_converted());
}

static void both_ways(const uint8_t *narrow, const uint8_t *wide)
{
    becomes(ttpa_to_edition_2, narrow, sizeof m10, wide, sizeof wide_m10);
    becomes(ttpa_to_edition_1, wide, sizeof wide_m10, narrow, sizeof m10);
    becomes(ttpa_to_edition_1, narrow, sizeof m10, narrow, sizeof m10);
    becomes(ttpa_to_edition_2, wide, sizeof wide_m10, wide, sizeof wide_m10);
}

/* Free pending bytes, an epoch and a sleep byte are carried over. */
static void conversions(void)
{
    static const uint8_t state[] = {0xFE, 0x00, 0x03, 0xFF, 0x04};
    uint8_t wide[sizeof wide_m10];
    EXPECT(ttpa_check(wide_m10, sizeof wide_m10) == TTPA_ACCEPTED);
    both_ways(m10, wide_m10);
    renew();
    memcpy(wide, wide_m10, sizeof wide);
    memcpy(cluster + EPOCH, state, sizeof state);
    memcpy(wide + WIDE_EPOCH, state, sizeof state);
    cluster[FIRST_SLEEP] = 1;
    wide[WIDE_FIRST_SLEEP] = 1;
    both_ways(cluster, wide);
}

/* The file's number comes before that of the buffer. */
static void refused_conversions(void)
{
    uint8_t wide[sizeof wide_m10];
    memcpy(wide, wide_m10, sizeof wide);
    wide[23] = 1;
    EXPECT(convert(ttpa_to_edition_1, wide, sizeof wide, 0) == TTPA_REFUSED_HEADER);
    EXPECT(convert(ttpa_to_edition_2, wide, sizeof wide, sizeof converted) == TTPA_REFUSED_HEADER);
    wide[23] = 0;
    wide[WIDE_FIRST_SLEEP + 1] = 1;
    EXPECT(convert(ttpa_to_edition_2, wide, sizeof wide, 0) == TTPA_REFUSED_LAYOUT);
    wide[WIDE_FIRST_SLEEP + 1] = 0;
    EXPECT(convert(ttpa_to_edition_1, m10, sizeof m10 - 1, 0) == TTPA_REFUSED_LENGTH_FIELD);
    EXPECT(convert(ttpa_to_edition_1, NULL, 0, sizeof converted) == TTPA_REFUSED_FILE_SIZE);
    EXPECT(convert(ttpa_to_edition_2, wide, 23, sizeof converted) == TTPA_REFUSED_FILE_SIZE);
    EXPECT(not_converted());
}

/* A file of edition 2 whose slaves are the first of M10 but for their serial numbers: 52 bytes a slave, 8 of them in the table. */
static uint8_t many[24 + 52 * (TTPA_MOST_SLAVES + 1)];

static void put_four(size_t at, size_t number)
{
    for (size_t i = 0; i < 4; i++) {
        many[at + i] = (uint8_t)(number >> 8 * (3 - i));
    }
}

static size_t put_many(size_t slaves)
{
    size_t bytes = 24 + 52 * slaves;
    memcpy(many, wide_m10, 24);
    many[3] = (uint8_t)slaves;
    put_four(8, bytes);
    for (size_t slave = 0; slave < slaves; slave++) {
        size_t entry = 24 + 8 * slave, directory = 24 + 8 * slaves + 44 * slave;
        memcpy(many + entry, wide_m10 + 24, 8);
        memcpy(many + directory, wide_m10 + 0x28, 44);
        put_four(entry, directory);
        put_four(directory + 4, directory + 16);
        put_four(directory + 12, directory + 32);
        put_four(directory + 40, slave);
    }
    return bytes;
}

/* 25 by the slave count, before 26; and what edition 2 holds. */
static void most_slaves(void)
{
    size_t bytes = put_many(TTPA_EDITION_1_SLAVES);
    EXPECT(convert(ttpa_to_edition_1, many, bytes, sizeof converted) == TTPA_ACCEPTED);
    EXPECT(converted_length == 16 + 40 * TTPA_EDITION_1_SLAVES && converted[3] == TTPA_EDITION_1_SLAVES);
    bytes = put_many(TTPA_EDITION_1_SLAVES + 1);
    EXPECT(convert(ttpa_to_edition_1, many, bytes, sizeof converted) == TTPA_REFUSED_EDITION_LIMITS);
    EXPECT(convert(ttpa_to_edition_1, many, bytes, 0) == TTPA_REFUSED_EDITION_LIMITS);
    EXPECT(not_converted());
    bytes = put_many(TTPA_MOST_SLAVES);
    EXPECT(ttpa_check(many, bytes) == TTPA_ACCEPTED);
    EXPECT(convert(ttpa_to_edition_2, many, bytes, sizeof converted) == TTPA_ACCEPTED && converted_is(many, bytes));
    bytes = put_many(TTPA_MOST_SLAVES + 1);
    EXPECT(ttpa_check(many, bytes) == TTPA_REFUSED_HEADER);
}

/* Rounds on both forms: equal answers, and the files left are each other's conversion. */
static void rounds_on_both_forms(void)
{
    static const uint8_t compare_with_0[] = {TTPA_FIREWORK_MSA, 0x05, 0xFF, 0x22, 0x02, 0x8F};
    static const uint8_t data[] = {TTPA_FIREWORK_MSD};
    uint8_t wide[sizeof wide_m10], wide_answer[sizeof answer];
    uint64_t wide_senders;
    memcpy(wide, wide_m10, sizeof wide);
    renew();
    for (int i = 0; i < 2; i++) {
        const uint8_t *frame = i == 0 ? compare_with_0 : data;
        size_t bytes = i == 0 ? sizeof compare_with_0 : sizeof data;
        memset(wide_answer, OLD, sizeof wide_answer);
        EXPECT(ttpa_round(wide, sizeof wide, frame, bytes, wide_answer, sizeof wide_answer, &wide_senders) ==
               TTPA_ACCEPTED);
        EXPECT(ttpa_round(cluster, sizeof cluster, frame, bytes, answer, sizeof answer, &senders) == TTPA_ACCEPTED);
        EXPECT(senders == wide_senders && memcmp(answer, wide_answer, sizeof answer) == 0);
        both_ways(cluster, wide);
    }
    EXPECT(senders == 2 && answer[1] == 0x00 && cluster[EPOCH] == 6 && wide[WIDE_EPOCH] == 6);
}

/* ---- screens that share turns */

/* The state, and a byte behind it that no call writes. */
static uint8_t state[TTPA_SCREENS_BYTES + 1];
static uint8_t screen;

/* M10 with its first slave named 0x05, which answers a read of its serial number with 00 00 00 10 and the check 59. */
static void renew_screens(void)
{
    renew();
    cluster[FIRST_NAME] = 0x05;
    memset(state, OLD, sizeof state);
    EXPECT(ttpa_screens(state) == TTPA_ACCEPTED);
    screen = OLD;
}

/* The screen last served, the four bytes of one screen, and of all others zeros. */
static int state_is(uint8_t last, size_t of, uint8_t waiting, uint8_t name, uint8_t file, uint8_t record)
{
    uint8_t expected[TTPA_SCREENS_BYTES] = {0};
    expected[0] = last;
    expected[1 + 4 * of] = waiting;
    expected[2 + 4 * of] = name;
    expected[3 + 4 * of] = file;
    expected[4 + 4 * of] = record;
    return memcmp(state, expected, sizeof expected) == 0 && state[TTPA_SCREENS_BYTES] == OLD;
}

static uint8_t turn(size_t answer_bytes)
{
    return ttpa_turn(cluster, sizeof cluster, state, answer, answer_bytes, &senders, &screen);
}

/* The answer is that of 0x05 to a read of its serial number. */
static int serial_heard(void)
{
    return senders == 0x3E && answer[1] == 0x00 && answer[3] == 0x00 && answer[4] == 0x10 && answer[5] == 0x59 &&
           silent_from(TTPA_FIREWORK_MSD, 6);
}

static void posts(void)
{
    renew_screens();
    EXPECT(state_is(7, 0, 0, 0, 0, 0));
    EXPECT(ttpa_post(state, 0, 0x05, TTPA_FILE_DOCUMENTATION, 2) == TTPA_ACCEPTED);
    EXPECT(state_is(7, 0, 1, 0x05, TTPA_FILE_DOCUMENTATION, 2));
    EXPECT(ttpa_post(state, 0, 0x05, TTPA_FILE_DOCUMENTATION, 2) == TTPA_REFUSED_SCREEN_WAITING);
    EXPECT(ttpa_post(state, 0, 0x00, 64, 2) == TTPA_REFUSED_SCREEN_WAITING);
    EXPECT(ttpa_post(state, 8, 0x00, 64, 2) == TTPA_REFUSED_SCREEN);
    EXPECT(ttpa_post(state, 255, 0x05, 0, 2) == TTPA_REFUSED_SCREEN);
    EXPECT(ttpa_post(state, 7, 0x00, 64, 2) == TTPA_REFUSED_FILE_NUMBER);
    EXPECT(ttpa_post(state, 7, 0x00, 63, 2) == TTPA_REFUSED_BROADCAST_READ);
    EXPECT(state_is(7, 0, 1, 0x05, TTPA_FILE_DOCUMENTATION, 2));
    renew_screens();
    EXPECT(ttpa_post(state, 7, TTPA_NAME_UNNAMED, 63, 255) == TTPA_ACCEPTED);
    EXPECT(state_is(7, 7, 1, TTPA_NAME_UNNAMED, 63, 255));
    state[0] = 8;
    EXPECT(ttpa_post(state, 7, 0x05, 64, 2) == TTPA_REFUSED_SCREEN);
    EXPECT(state_is(8, 7, 1, TTPA_NAME_UNNAMED, 63, 255));
}

/* Screens 0 and 6 in turn; 0 posts again as soon as it is served, and waits for 6. Each read adds 2 to the epoch. */
static void turns(void)
{
    static const uint8_t served[] = {0, 6, 0, TTPA_NO_SCREEN};
    renew_screens();
    EXPECT(ttpa_post(state, 6, 0x05, TTPA_FILE_DOCUMENTATION, 2) == TTPA_ACCEPTED);
    EXPECT(ttpa_post(state, 0, 0x05, TTPA_FILE_DOCUMENTATION, 2) == TTPA_ACCEPTED);
    for (size_t i = 0; i < sizeof served; i++) {
        memset(answer, OLD, sizeof answer);
        senders = OLD_SENDERS;
        EXPECT(turn(sizeof answer) == TTPA_ACCEPTED && screen == served[i]);
        EXPECT(i < 3 ? serial_heard() : senders == OLD_SENDERS && is_old(answer, sizeof answer));
        EXPECT(cluster[EPOCH] == (i < 3 ? 2 * (i + 1) : 6));
        EXPECT(i > 0 || ttpa_post(state, 0, 0x05, TTPA_FILE_DOCUMENTATION, 2) == TTPA_ACCEPTED);
    }
    EXPECT(cluster[EPOCH + 1] == 1 && cluster[EPOCH + 2] == 0x05 && cluster[EPOCH + 3] == 0xF4);
    EXPECT(state[0] == 0 && state[1] == 0 && state[2] == 0x05 && state[TTPA_SCREENS_BYTES] == OLD);
    EXPECT(ttpa_post(state, 3, TTPA_NAME_UNNAMED, TTPA_FILE_DOCUMENTATION, 2) == TTPA_ACCEPTED);
    EXPECT(turn(TTPA_ANSWER_BYTES) == TTPA_ACCEPTED && screen == 3 && senders == 0);
    EXPECT(silent_from(TTPA_FIREWORK_MSD, 1));
}

/* The order of a turn's grounds; a read that is not due is not looked at, and one whose turn is refused waits on. */
static void refused_turns(void)
{
    renew_screens();
    EXPECT(turn(TTPA_ANSWER_BYTES - 1) == TTPA_REFUSED_SHORT_BUFFER);
    EXPECT(ttpa_turn(NULL, 0, state, NULL, 0, &senders, &screen) == TTPA_REFUSED_FILE_SIZE);
    EXPECT(ttpa_post(state, 1, 0x05, TTPA_FILE_DOCUMENTATION, 2) == TTPA_ACCEPTED);
    state[2 + 4] = TTPA_NAME_BROADCAST;
    EXPECT(ttpa_turn(cluster, 15, state, NULL, 0, &senders, &screen) == TTPA_REFUSED_BROADCAST_READ);
    state[3 + 4] = 64;
    EXPECT(ttpa_turn(cluster, 15, state, NULL, 0, &senders, &screen) == TTPA_REFUSED_FILE_NUMBER);
    state[0] = 8;
    EXPECT(ttpa_turn(cluster, 15, state, NULL, 0, &senders, &screen) == TTPA_REFUSED_SCREEN);
    state[0] = 7;
    EXPECT(state_is(7, 1, 1, TTPA_NAME_BROADCAST, 64, 2));
    EXPECT(ttpa_post(state, 0, 0x05, TTPA_FILE_DOCUMENTATION, 2) == TTPA_ACCEPTED);
    EXPECT(ttpa_turn(cluster, 15, state, NULL, 0, &senders, &screen) == TTPA_REFUSED_FILE_SIZE);
    EXPECT(turn(TTPA_ANSWER_BYTES - 1) == TTPA_REFUSED_SHORT_BUFFER);
    EXPECT(screen == OLD && senders == OLD_SENDERS && is_old(answer, sizeof answer) && cluster[EPOCH] == 0);
    EXPECT(turn(TTPA_ANSWER_BYTES) == TTPA_ACCEPTED && screen == 0 && serial_heard());
    EXPECT(turn(TTPA_ANSWER_BYTES) == TTPA_REFUSED_FILE_NUMBER && screen == 0 && cluster[EPOCH] == 2);
}

/* Epoch 254, all asleep and another master's write pending: the read is silent, wakes all and has the write's place. */
static void turn_on_sleepers(void)
{
    static const uint8_t pending[] = {0xFE, 0x01, 0x05, 0x41, 0x01};
    renew_screens();
    memcpy(cluster + EPOCH, pending, sizeof pending);
    cluster[FIRST_SLEEP] = 1;
    cluster[SECOND_SLEEP] = 1;
    state[1] = 255;
    state[2] = 0x05;
    state[3] = TTPA_FILE_DOCUMENTATION;
    state[4] = 2;
    EXPECT(turn(sizeof answer) == TTPA_ACCEPTED && screen == 0 && senders == 0);
    EXPECT(silent_from(TTPA_FIREWORK_MSD, 1) && cluster[EPOCH] == 0);
    EXPECT(cluster[FIRST_SLEEP] == 0 && cluster[SECOND_SLEEP] == 0);
    EXPECT(cluster[EPOCH + 3] == 0xF4 && cluster[EPOCH + 4] == 2 && state_is(0, 0, 0, 0x05, TTPA_FILE_DOCUMENTATION, 2));
}

/* ---- joins */

/* A slave named 0x05 in a file of each edition: in the first with epoch 9 and a write pending, in the second with free
 * pending bytes and asleep; and the two joined in either order, the second slave being turned. */
static const uint8_t narrow_5[] = {
    0x54, 0x41, 0x01, 0x01, 0x00, 0x10, 0x00, 0x38, 0x09, 0x01, 0x05, 0x41, 0x01, 0x00, 0x00, 0x00,
    0x00, 0x14, 0x02, 0x00, 0x08, 0x03, 0x00, 0x1C, 0x3D, 0x02, 0x00, 0x2C, 0x01, 0x02, 0x03, 0x04,
    0x05, 0x06, 0x07, 0x05, 0x08, 0x09, 0x0A, 0x0B, 0x0C, 0x0D, 0x0E, 0x0F, 0x10, 0x11, 0x12, 0x13,
    0x00, 0x00, 0x00, 0x07, 0x00, 0x00, 0x00, 0x10,
};

static const uint8_t wide_5[] = {
    0x54, 0x41, 0x02, 0x01, 0x00, 0x00, 0x00, 0x18, 0x00, 0x00, 0x00, 0x4C, 0xFF, 0x00, 0x03, 0x04,
    0x05, 0x00, 0x00, 0x00, 0x00, 0x00, 0x00, 0x00, 0x00, 0x00, 0x00, 0x20, 0x02, 0x01, 0x00, 0x00,
    0x08, 0x03, 0x00, 0x00, 0x00, 0x00, 0x00, 0x30, 0x3D, 0x02, 0x00, 0x00, 0x00, 0x00, 0x00, 0x40,
    0x21, 0x22, 0x23, 0x24, 0x25, 0x26, 0x27, 0x05, 0x28, 0x29, 0x2A, 0x2B, 0x2C, 0x2D, 0x2E, 0x2F,
    0x30, 0x31, 0x32, 0x33, 0x00, 0x00, 0x00, 0x07, 0x00, 0x00, 0x00, 0xA0,
};

static const uint8_t narrow_then_wide[] = {
    0x54, 0x41, 0x01, 0x02, 0x00, 0x10, 0x00, 0x60, 0x00, 0x00, 0x00, 0x00, 0x00, 0x00, 0x00, 0x00,
    0x00, 0x18, 0x02, 0x00, 0x00, 0x3C, 0x02, 0x00, 0x08, 0x03, 0x00, 0x20, 0x3D, 0x02, 0x00, 0x30,
    0x01, 0x02, 0x03, 0x04, 0x05, 0x06, 0x07, 0x05, 0x08, 0x09, 0x0A, 0x0B, 0x0C, 0x0D, 0x0E, 0x0F,
    0x10, 0x11, 0x12, 0x13, 0x00, 0x00, 0x00, 0x07, 0x00, 0x00, 0x00, 0x10, 0x08, 0x03, 0x00, 0x44,
    0x3D, 0x02, 0x00, 0x54, 0x21, 0x22, 0x23, 0x24, 0x25, 0x26, 0x27, 0xFF, 0x28, 0x29, 0x2A, 0x2B,
    0x2C, 0x2D, 0x2E, 0x2F, 0x30, 0x31, 0x32, 0x33, 0x00, 0x00, 0x00, 0x07, 0x00, 0x00, 0x00, 0xA0,
};

static const uint8_t wide_then_narrow[] = {
    0x54, 0x41, 0x02, 0x02, 0x00, 0x00, 0x00, 0x18, 0x00, 0x00, 0x00, 0x80, 0x00, 0x00, 0x00, 0x00,
    0x00, 0x00, 0x00, 0x00, 0x00, 0x00, 0x00, 0x00, 0x00, 0x00, 0x00, 0x28, 0x02, 0x00, 0x00, 0x00,
    0x00, 0x00, 0x00, 0x54, 0x02, 0x00, 0x00, 0x00, 0x08, 0x03, 0x00, 0x00, 0x00, 0x00, 0x00, 0x38,
    0x3D, 0x02, 0x00, 0x00, 0x00, 0x00, 0x00, 0x48, 0x21, 0x22, 0x23, 0x24, 0x25, 0x26, 0x27, 0x05,
    0x28, 0x29, 0x2A, 0x2B, 0x2C, 0x2D, 0x2E, 0x2F, 0x30, 0x31, 0x32, 0x33, 0x00, 0x00, 0x00, 0x07,
    0x00, 0x00, 0x00, 0xA0, 0x08, 0x03, 0x00, 0x00, 0x00, 0x00, 0x00, 0x64, 0x3D, 0x02, 0x00, 0x00,
    0x00, 0x00, 0x00, 0x74, 0x01, 0x02, 0x03, 0x04, 0x05, 0x06, 0x07, 0xFF, 0x08, 0x09, 0x0A, 0x0B,
    0x0C, 0x0D, 0x0E, 0x0F, 0x10, 0x11, 0x12, 0x13, 0x00, 0x00, 0x00, 0x07, 0x00, 0x00, 0x00, 0x10,
};

/* Joins into the front of converted, of which the first room bytes are lent. */
static uint8_t join(const uint8_t *first, size_t n, const uint8_t *second, size_t m, size_t room)
{
    memset(converted, OLD, sizeof converted);
    converted_length = OLD_SENDERS;
    return ttpa_join(first, n, second, m, converted, room, &converted_length);
}

/* Just enough room, more of it, and a byte too little. Neither file is altered. */
static void joined(const uint8_t *first, size_t n, const uint8_t *second, size_t m, const uint8_t *into, size_t needed)
{
    uint8_t left[sizeof wide_5], right[sizeof wide_5];
    memcpy(left, first, n);
    memcpy(right, second, m);
    EXPECT(join(left, n, right, m, needed) == TTPA_ACCEPTED && converted_is(into, needed));
    EXPECT(join(left, n, right, m, sizeof converted) == TTPA_ACCEPTED && converted_is(into, needed));
    EXPECT(join(left, n, right, m, needed - 1) == TTPA_REFUSED_JOINED_LIMITS && not_converted());
    EXPECT(join(left, n, right, m, 0) == TTPA_REFUSED_JOINED_LIMITS && not_converted());
    EXPECT(ttpa_join(left, n, right, m, NULL, 0, &converted_length) == TTPA_REFUSED_JOINED_LIMITS && not_converted());
    EXPECT(memcmp(left, first, n) == 0 && memcmp(right, second, m) == 0);
}

static void joins(void)
{
    static const uint8_t nobody[] = {0x54, 0x41, 0x01, 0, 0, 0x10, 0, 0x10, 0, 0, 0, 0, 0, 0, 0, 0};
    uint8_t awake[sizeof narrow_5];
    joined(narrow_5, sizeof narrow_5, wide_5, sizeof wide_5, narrow_then_wide, sizeof narrow_then_wide);
    joined(wide_5, sizeof wide_5, narrow_5, sizeof narrow_5, wide_then_narrow, sizeof wide_then_narrow);
    memcpy(awake, narrow_5, sizeof awake);
    memset(awake + EPOCH, 0, 5);
    joined(narrow_5, sizeof narrow_5, nobody, sizeof nobody, awake, sizeof awake);
    joined(nobody, sizeof nobody, narrow_5, sizeof narrow_5, awake, sizeof awake);
    EXPECT(ttpa_check(narrow_then_wide, sizeof narrow_then_wide) == TTPA_ACCEPTED);
    /* one and the same memory */
    EXPECT(join(nobody, sizeof nobody, nobody, sizeof nobody, sizeof converted) == TTPA_ACCEPTED);
    EXPECT(converted_is(nobody, sizeof nobody));
    EXPECT(join(wide_5, sizeof wide_5, wide_5, sizeof wide_5, sizeof converted) ==
           TTPA_REFUSED_SHARED_PHYSICAL_NAME);
    EXPECT(not_converted());
}

/* The first file's number, then the second's, then 29, then 30. */
static void refused_joins(void)
{
    renew();
    EXPECT(join(NULL, 0, NULL, 0, 0) == TTPA_REFUSED_FILE_SIZE);
    EXPECT(join(wide_5, 23, m10, 15, 0) == TTPA_REFUSED_FILE_SIZE);
    cluster[0] ^= 1;
    EXPECT(join(cluster, sizeof cluster, m10, 15, 0) == TTPA_REFUSED_MARK);
    EXPECT(join(m10, 15, cluster, sizeof cluster, 0) == TTPA_REFUSED_FILE_SIZE);
    EXPECT(join(m10, sizeof m10, cluster, sizeof cluster, 0) == TTPA_REFUSED_MARK);
    cluster[0] ^= 1;
    EXPECT(join(m10, sizeof m10, cluster, sizeof cluster - 1, sizeof converted) == TTPA_REFUSED_LENGTH_FIELD);
    EXPECT(join(cluster, sizeof cluster, m10, sizeof m10, 0) == TTPA_REFUSED_SHARED_PHYSICAL_NAME);
    EXPECT(join(m10, sizeof m10, wide_5, sizeof wide_5, sizeof converted) == TTPA_REFUSED_SHARED_PHYSICAL_NAME);
    /* the second slave's serial number becomes the first's */
    cluster[sizeof cluster - 1] = 0x10;
    EXPECT(join(cluster, sizeof cluster, cluster, sizeof cluster, 0) == TTPA_REFUSED_EQUAL_PHYSICAL_NAMES);
    EXPECT(join(wide_5, sizeof wide_5, cluster, sizeof cluster, 0) == TTPA_REFUSED_EQUAL_PHYSICAL_NAMES);
    EXPECT(not_converted());
}

/* 63 slaves and one more are joined, 64 and one more are refused. Their serial numbers are below 64. */
static void most_joined(void)
{
    size_t bytes = put_many(TTPA_MOST_SLAVES - 1);
    EXPECT(join(many, bytes, wide_5, sizeof wide_5, sizeof converted) == TTPA_ACCEPTED);
    EXPECT(converted_length == bytes + 52 && converted[3] == TTPA_MOST_SLAVES);
    EXPECT(ttpa_check(converted, (size_t)converted_length) == TTPA_ACCEPTED);
    EXPECT(converted[converted_length - 1] == 0xA0 && converted[converted_length - 12 - 16 + 7] == 0x05);
    EXPECT(join(narrow_5, sizeof narrow_5, many, bytes, sizeof converted) == TTPA_REFUSED_SHARED_PHYSICAL_NAME);
    bytes = put_many(TTPA_MOST_SLAVES);
    EXPECT(join(many, bytes, wide_5, sizeof wide_5, sizeof converted) == TTPA_REFUSED_JOINED_LIMITS);
    EXPECT(join(wide_5, sizeof wide_5, many, bytes, sizeof converted) == TTPA_REFUSED_JOINED_LIMITS);
    EXPECT(not_converted());
}

static void with_summaries(void)
{
    filled();
    holders();
    kept_rounds();
    refused_summaries();
    kept_steps();
    refused_kept_steps();
}

static void in_both_editions(void)
{
    conversions();
    refused_conversions();
    most_slaves();
    rounds_on_both_forms();
}

static void shared_turns(void)
{
    posts();
    turns();
    refused_turns();
    turn_on_sleepers();
}

static void joined_files(void)
{
    joins();
    refused_joins();
    most_joined();
}

/* ---- patterns of the line */

/* Each firework's byte with its odd parity, and with its even one. */
static void firework_patterns(void)
{
    static const uint16_t fireworks[] = {0x178, 0x049, 0x0BA, 0x18B, 0x064, 0x155, 0x1A6, 0x097};
    for (size_t i = 0; i < sizeof fireworks / sizeof *fireworks; i++) {
        uint8_t kind = OLD;
        EXPECT(ttpa_pattern(fireworks[i], &kind) == TTPA_ACCEPTED && kind == TTPA_FIREWORK);
        EXPECT(ttpa_pattern(fireworks[i] ^ 0x100, &kind) == TTPA_ACCEPTED && kind == TTPA_DATA_BYTE);
    }
}

/* The last pattern has nine ones; above it nothing is told, also where the lower nine bits are a firework's. */
static void patterns(void)
{
    uint8_t kind = OLD;
    EXPECT(ttpa_pattern(512, &kind) == TTPA_REFUSED_PATTERN && kind == OLD);
    EXPECT(ttpa_pattern(0x155 + 512, &kind) == TTPA_REFUSED_PATTERN && kind == OLD);
    EXPECT(ttpa_pattern(65535, &kind) == TTPA_REFUSED_PATTERN && kind == OLD);
    EXPECT(ttpa_pattern(511, &kind) == TTPA_ACCEPTED && kind == TTPA_BROKEN);
    EXPECT(ttpa_pattern(0, &kind) == TTPA_ACCEPTED && kind == TTPA_DATA_BYTE);
    EXPECT(ttpa_pattern(0x100, &kind) == TTPA_ACCEPTED && kind == TTPA_BROKEN);
}

/* How many of the nine bits are 1. */
static int ones(uint16_t pattern)
{
    int count = 0;
    for (int bit = 0; bit < 9; bit++) {
        count += pattern >> bit & 1;
    }
    return count;
}

/* An MSA with one to four of its bits flipped: four make one of four other fireworks of it. */
static void flipped_patterns(void)
{
    int reached[5] = {0};
    for (uint16_t flips = 1; flips < 512; flips++) {
        uint8_t kind = OLD;
        if (ones(flips) <= 4) {
            EXPECT(ttpa_pattern(0x155 ^ flips, &kind) == TTPA_ACCEPTED);
            reached[ones(flips)] += kind == TTPA_FIREWORK;
        }
    }
    EXPECT(reached[1] == 0 && reached[2] == 0 && reached[3] == 0 && reached[4] == 4);
}

static void line_patterns(void)
{
    firework_patterns();
    patterns();
    flipped_patterns();
}

/* ---- slaves' files */

/* A slave's file, or a part of it, with two bytes more, and its length. */
static uint8_t contents[14];
static uint64_t contents_length;

static uint8_t read_contents(const uint8_t *file, size_t n, uint64_t slave, uint8_t number, size_t room)
{
    memset(contents, OLD, sizeof contents);
    contents_length = OLD;
    return ttpa_contents(file, n, slave, number, room == 0 ? NULL : contents, room, &contents_length);
}

/* Whether the first bytes of the buffer are those of the second slave's 0x3D in M10, and the others are as they were. */
static int contents_are(size_t bytes, uint64_t length)
{
    static const uint8_t documented[] = {0, 0, 0, 0, 0, 0, 0, 0x07, 0, 0, 0, 0xA0};
    int stay = 1;
    for (size_t i = bytes; i < sizeof contents; i++) {
        stay &= contents[i] == OLD;
    }
    return stay && memcmp(contents, documented, bytes) == 0 && contents_length == length;
}

/* In both editions: room left, just enough, a byte too little, none; then no such slave and no such file. */
static void contents_of(const uint8_t *file, size_t n)
{
    EXPECT(read_contents(file, n, 1, TTPA_FILE_DOCUMENTATION, 14) == TTPA_ACCEPTED && contents_are(12, 12));
    EXPECT(read_contents(file, n, 1, TTPA_FILE_DOCUMENTATION, 12) == TTPA_ACCEPTED && contents_are(12, 12));
    EXPECT(read_contents(file, n, 1, TTPA_FILE_DOCUMENTATION, 11) == TTPA_ACCEPTED && contents_are(11, 12));
    EXPECT(read_contents(file, n, 1, TTPA_FILE_DOCUMENTATION, 0) == TTPA_ACCEPTED && contents_are(0, 12));
    EXPECT(read_contents(file, n, 0, TTPA_FILE_CONFIGURATION, 0) == TTPA_ACCEPTED && contents_are(0, 16));
    EXPECT(read_contents(file, n, 2, TTPA_FILE_DOCUMENTATION, 14) == TTPA_ACCEPTED && contents_are(0, 0));
    EXPECT(read_contents(file, n, UINT64_MAX, TTPA_FILE_DOCUMENTATION, 14) == TTPA_ACCEPTED && contents_are(0, 0));
    EXPECT(read_contents(file, n, 1, 0x02, 14) == TTPA_ACCEPTED && contents_are(0, 0));
    EXPECT(read_contents(file, n, 1, 0xFF, 14) == TTPA_ACCEPTED && contents_are(0, 0));
    EXPECT(read_contents(file, n - 1, 1, TTPA_FILE_DOCUMENTATION, 14) == TTPA_REFUSED_LENGTH_FIELD);
    EXPECT(contents_are(0, OLD));
}

static void slave_files(void)
{
    contents_of(m10, sizeof m10);
    contents_of(wide_m10, sizeof wide_m10);
    EXPECT(read_contents(NULL, 0, 0, TTPA_FILE_CONFIGURATION, 14) == TTPA_REFUSED_FILE_SIZE && contents_are(0, OLD));
    /* both slaves named 0x05, and the second asleep: it is read all the same */
    renew();
    cluster[FIRST_NAME] = 0x05;
    cluster[SECOND_NAME] = 0x05;
    cluster[SECOND_SLEEP] = 1;
    EXPECT(ttpa_check(cluster, sizeof cluster) == TTPA_REFUSED_EQUAL_LOGICAL_NAMES);
    EXPECT(read_contents(cluster, sizeof cluster, 1, TTPA_FILE_DOCUMENTATION, 12) == TTPA_ACCEPTED);
    EXPECT(contents_are(12, 12));
}

int main(void)
{
    EXPECT(ttpa_version() == TTPA_VERSION);
    texts();
    files();
    equal_names();
    written_addresses();
    refused_addresses();
    data_frames();
    read_addresses();
    master_slave();
    fireworks();
    refused_rounds();
    checks_without_firework();
    written_names();
    sleep_and_wake();
    starts();
    one_name();
    needless_writes();
    all_names();
    refused_steps();
    traces();
    longest_traces();
    refused_traces();
    owner_files();
    refused_owners();
    multiplexed_owners();
    multiplexed_rounds();
    with_summaries();
    in_both_editions();
    shared_turns();
    joined_files();
    line_patterns();
    slave_files();
    printf("%d comparisons, %d failed\n", comparisons, failures);
    return failures == 0 ? 0 : 1;
}
