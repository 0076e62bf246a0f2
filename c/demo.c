/* demo FILE: commissioning a small cluster, as firmware or test software would do it.
 *
 * Sees to it that header and library are of one version, loads a cluster file, checks it, reads a record of a named
 * slave, has a foreign master try to name slaves by a write, names unnamed slaves until the list of names runs dry and
 * the last one by a second list, while other rounds go on in between, tells before and after it who holds a name, runs a
 * captured trace, plans who sends in which slot, has a slot multiplexed, puts the cluster to sleep and wakes it, converts
 * the file to edition 2 and back, serves three screens in turn, looks at what each slave does in round 2, joins the file
 * with that of a second segment and names whom the join left unnamed, reads the patterns of a frame on the line, and
 * prints what happened. examples/demo.rs of the Rust crate does the same and prints the same. */
#include <inttypes.h>
#include <stdio.h>
#include <string.h>

#include "ttpa.h"

#define STEPS_BETWEEN_TRAFFIC 50
/* the master's own logical name */
#define MASTER 0x80
/* where the demo's file has the logical name of its second slave, which is unnamed */
#define SECOND_NAME 0x7F
/* where a cluster file tells how many slaves it has */
#define SLAVE_COUNT 3
/* where a cluster file of edition 1 tells whether its first slave sleeps, and how far it is to the next slave's byte */
#define FIRST_SLEEP 19
#define ENTRY_BYTES 4
/* the bytes of a header of edition 1 and of edition 2 */
#define HEADER_BYTES 16
#define WIDE_HEADER_BYTES 24
/* the screen that posts again as soon as it is served */
#define BUSY_SCREEN 2

/* The cluster file and what the last round answered. One byte more than a file may have, so that a longer
 * one is seen and refused. */
static uint8_t cluster[TTPA_FILE_BYTES + 1];
static size_t length;
static uint8_t answer[TTPA_ANSWER_BYTES];
static uint64_t senders;

/* A summary of the file: each slave's logical name in table order. */
static uint8_t held[TTPA_MOST_SLAVES];
static uint64_t held_count;

static void print_version(const char *what, uint32_t version)
{
    fprintf(stderr, "%s %u.%u.%u", what, (unsigned)(version / 10000), (unsigned)(version / 100 % 100),
            (unsigned)(version % 100));
}

/* Calls of a library of another version may write past what this header says. */
static int fits_library(void)
{
    if (ttpa_version() == TTPA_VERSION) {
        return 1;
    }
    print_version("the linked library is version", ttpa_version());
    print_version(", and not", TTPA_VERSION);
    fprintf(stderr, "\n");
    return 0;
}

static int load(const char *path)
{
    FILE *in = fopen(path, "rb");
    if (in == NULL) {
        return 0;
    }
    length = fread(cluster, 1, sizeof cluster, in);
    fclose(in);
    return 1;
}

static void print_verdict(const char *what, uint8_t number)
{
    if (number == TTPA_ACCEPTED) {
        printf("%s: accepted\n", what);
    } else {
        printf("%s: refused %u: %s\n", what, (unsigned)number, ttpa_refusal_text(number));
    }
}

static void print_bytes(const char *what, const uint8_t *bytes, size_t count)
{
    printf("%s:", what);
    for (size_t i = 0; i < count; i++) {
        printf(" %02X", (unsigned)bytes[i]);
    }
    printf("\n");
}

/* Two slaves of one name: such a file is not loaded. */
static void show_equal_names(void)
{
    uint8_t name = cluster[SECOND_NAME];
    cluster[SECOND_NAME] = 0x01;
    print_verdict("a file with 01 twice", ttpa_check(cluster, length));
    cluster[SECOND_NAME] = name;
}

/* Each slot in which someone sent, with its byte. */
static void print_answer(const char *what)
{
    printf("%s:", what);
    for (int slot = 1; slot < TTPA_ANSWER_BYTES; slot++) {
        if (senders >> slot & 1) {
            printf(" %d=%02X", slot, (unsigned)answer[slot]);
        }
    }
    printf("%s\n", senders == 0 ? " silence" : "");
}

static uint8_t send(const uint8_t *frame, size_t bytes)
{
    return ttpa_round(cluster, length, frame, bytes, answer, sizeof answer, &senders);
}

static uint8_t send_keeping(const uint8_t *frame, size_t bytes)
{
    return ttpa_round_keeping(cluster, length, frame, bytes, answer, sizeof answer, &senders, held, sizeof held,
                              held_count);
}

/* A complete master-slave round that writes nothing: the address frame, then the data frame, which is one byte. */
static uint8_t master_slave(uint8_t name, uint8_t file, uint8_t operation, uint8_t record)
{
    static const uint8_t data[1] = {TTPA_FIREWORK_MSD};
    uint8_t frame[TTPA_FRAME_BYTES];
    uint8_t number = ttpa_write_address(frame, sizeof frame, 1, name, file, operation, record);
    if (number == TTPA_ACCEPTED) {
        number = send(frame, sizeof frame);
    }
    if (number == TTPA_ACCEPTED) {
        number = send(data, sizeof data);
    }
    return number;
}

static uint8_t read_record(uint8_t name, uint8_t file, uint8_t record)
{
    return master_slave(name, file, TTPA_OPERATION_READ, record);
}

static void show_frames(void)
{
    uint8_t frame[TTPA_FRAME_BYTES];
    uint8_t parts[TTPA_ADDRESS_PARTS];
    print_verdict("write", ttpa_write_address(frame, sizeof frame, 2, 0x01, TTPA_FILE_DOCUMENTATION,
                                              TTPA_OPERATION_READ, 1));
    print_bytes("frame", frame, sizeof frame);
    print_verdict("read back", ttpa_read_address(frame, sizeof frame, parts));
    print_bytes("epoch, name, file, operation, record", parts, sizeof parts);
    frame[5] ^= 1;
    print_verdict("a wrong check byte", ttpa_read_address(frame, sizeof frame, parts));
    print_verdict("a read at 00", ttpa_write_address(frame, sizeof frame, 2, TTPA_NAME_BROADCAST,
                                                     TTPA_FILE_DOCUMENTATION, TTPA_OPERATION_READ, 1));
    print_verdict("a wrong check byte on the bus", send(frame, sizeof frame));
}

/* Rounds that others make meanwhile: a multipartner round, given the summary, and a read, which may do without: it
 * renames nobody. */
static uint8_t other_traffic(void)
{
    static const uint8_t round[1] = {TTPA_FIREWORK_ROUND_2};
    uint8_t number = send_keeping(round, sizeof round);
    return number != TTPA_ACCEPTED ? number : read_record(0x01, TTPA_FILE_DOCUMENTATION, 2);
}

static uint8_t name_slaves(const uint8_t *names, size_t count)
{
    uint64_t run[TTPA_RUN_WORDS];
    uint8_t number = ttpa_start(names, count, run);
    while (number == TTPA_ACCEPTED && run[TTPA_RUN_END] == TTPA_RUNNING) {
        uint64_t index = run[TTPA_RUN_INDEX];
        uint64_t step = run[TTPA_RUN_STEP];
        if (run[TTPA_RUN_ROUNDS] % STEPS_BETWEEN_TRAFFIC == STEPS_BETWEEN_TRAFFIC - 1) {
            number = other_traffic();
        }
        if (number == TTPA_ACCEPTED) {
            number = ttpa_step_keeping(cluster, length, run, names, count, answer, sizeof answer, &senders, held,
                                       sizeof held, held_count);
        }
        if (number == TTPA_ACCEPTED && run[TTPA_RUN_INDEX] != index) {
            if (step == 0) {
                printf("%02X is taken\n", (unsigned)names[index]);
            } else {
                printf("%02X given to %016" PRIX64 "\n", (unsigned)names[index], run[TTPA_RUN_VALUE]);
            }
        }
    }
    if (number == TTPA_ACCEPTED) {
        printf("%s, rounds %" PRIu64 ", comparisons %" PRIu64 "\n",
               run[TTPA_RUN_END] == TTPA_ALL_NAMED ? "all named" : "names used up",
               run[TTPA_RUN_ROUNDS], run[TTPA_RUN_COMPARISONS]);
    }
    return number;
}

/* Who holds a name, asked of the summary alone. */
static void print_holder(uint8_t name)
{
    uint64_t place;
    uint8_t number = ttpa_holder(held, sizeof held, held_count, name, &place);
    if (number != TTPA_ACCEPTED) {
        print_verdict("a holder", number);
    } else if (place == TTPA_NOBODY) {
        printf("%02X is held by nobody\n", (unsigned)name);
    } else {
        printf("%02X is held by slave %" PRIu64 "\n", (unsigned)name, place);
    }
}

static void print_holders(void)
{
    for (uint8_t name = 0x01; name <= 0x03; name++) {
        print_holder(name);
    }
    print_holder(TTPA_NAME_UNNAMED);
}

static void fill_summary(void)
{
    print_verdict("a summary", ttpa_fill(cluster, length, held, sizeof held, &held_count));
    print_bytes("names held", held, (size_t)held_count);
}

/* A summary that lacks the last slave's name does not match. */
static void show_wrong_summary(void)
{
    static const uint8_t round[1] = {TTPA_FIREWORK_ROUND_2};
    held_count--;
    print_verdict("round 2 with a name too few", send_keeping(round, sizeof round));
    held_count++;
}

/* Five frames captured on site: round 2; a write of E7 7F 00 00 to record 1 of file 0x10 of slave 01, its data
 * broken at first (the check byte is D1); and round 2 again. */
static const uint8_t captured[] = {
    /* frame count and data length; then of each frame offset and length */
    0x00, 0x05, 0x00, 0x14,
    0x00, 0x00, 0x01, 0x00, 0x01, 0x06, 0x00, 0x07, 0x06, 0x00, 0x0D, 0x06, 0x00, 0x13, 0x01,
    TTPA_FIREWORK_ROUND_2,
    TTPA_FIREWORK_MSA, 0x07, 0x01, 0x41, 0x01, 0x13,
    TTPA_FIREWORK_MSD, 0xE7, 0x7F, 0x00, 0x00, 0xD0,
    TTPA_FIREWORK_MSD, 0xE7, 0x7F, 0x00, 0x00, 0xD1,
    TTPA_FIREWORK_ROUND_2,
};

static void show_trace(void)
{
    uint64_t report[TTPA_REPORT_WORDS];
    print_verdict("a cut trace", ttpa_trace(cluster, length, captured, sizeof captured - 1, report));
    uint8_t number = ttpa_trace(cluster, length, captured, sizeof captured, report);
    print_verdict("a captured trace", number);
    if (number == TTPA_ACCEPTED) {
        printf("MSA %" PRIu64 ", MSD %" PRIu64 ", multipartner %" PRIu64, report[TTPA_REPORT_MSA],
               report[TTPA_REPORT_MSD], report[TTPA_REPORT_MULTIPARTNER]);
        printf(", refused %" PRIu64 ", sum %" PRIu64 "\n", report[TTPA_REPORT_REFUSED],
               report[TTPA_REPORT_SUM]);
    }
}

/* A complete master-slave round that writes a record: the data frame has its four bytes. */
static uint8_t write_record(uint8_t name, uint8_t file, uint8_t record, const uint8_t *bytes)
{
    uint8_t frame[TTPA_FRAME_BYTES];
    uint8_t number = ttpa_write_address(frame, sizeof frame, 1, name, file, TTPA_OPERATION_WRITE, record);
    if (number == TTPA_ACCEPTED) {
        number = send(frame, sizeof frame);
    }
    if (number == TTPA_ACCEPTED) {
        number = ttpa_write_data(frame, sizeof frame, bytes[0], bytes[1], bytes[2], bytes[3]);
    }
    if (number == TTPA_ACCEPTED) {
        number = send(frame, sizeof frame);
    }
    return number;
}

/* A foreign master writes record 1 of 0x08 of the unnamed slaves, with 05 where their logical name stands. It stays
 * FF: only the execute of that record, which ends a naming, renames. */
static void show_foreign_write(void)
{
    static const uint8_t record[] = {0x00, 0x00, 0x05, 0x05};
    print_verdict("a foreign master's write at FF",
                  write_record(TTPA_NAME_UNNAMED, TTPA_FILE_CONFIGURATION, 1, record));
    print_verdict("read of 05", read_record(0x05, TTPA_FILE_DOCUMENTATION, 2));
    print_answer("answer");
}

/* The rounds that an owner file has rows of. */
static const int owned[] = {0, 2, 3, 4, 6, 7};
#define OWNED (sizeof owned / sizeof owned[0])

/* For each round who sends in which slot, the master in slot 0; 0x00 is nobody, or a slave of that name. A row ends
 * where the next begins, the last one with the file. */
static void print_plan(const uint8_t *owners, size_t bytes)
{
    for (size_t i = 0; i < OWNED; i++) {
        size_t begin = (size_t)TTPA_OWNER_RECORD_BYTES * owners[TTPA_OWNER_INDEX + owned[i]];
        size_t end = bytes;
        if (i + 1 < OWNED) {
            end = (size_t)TTPA_OWNER_RECORD_BYTES * owners[TTPA_OWNER_INDEX + owned[i + 1]];
        }
        printf("round %d:", owned[i]);
        for (size_t slot = 0; slot < end - begin; slot++) {
            if (owners[begin + slot] != 0x00) {
                printf(" %u=%02X", (unsigned)slot, (unsigned)owners[begin + slot]);
            }
        }
        printf("\n");
    }
}

/* Slaves 01 and 02 both send in slot 2 of round 2. Then 02 is given slot 4: the entry of its list for round 2
 * sends from file 0x10, record 1, one byte, in slot 4. */
static void show_owners(void)
{
    static const uint8_t entry[] = {0x10 << 2, 0x01, 0x10, 4};
    uint8_t owners[TTPA_OWNER_BYTES];
    uint64_t bytes;
    print_verdict("an owner file", ttpa_owner(cluster, length, MASTER, owners, sizeof owners, &bytes));
    print_verdict("slot 4 for 02", write_record(0x02, 0x02, 1, entry));
    print_verdict("an owner file in 39 bytes", ttpa_owner(cluster, length, MASTER, owners, 39, &bytes));
    uint8_t number = ttpa_owner(cluster, length, MASTER, owners, sizeof owners, &bytes);
    print_verdict("an owner file", number);
    if (number == TTPA_ACCEPTED) {
        print_plan(owners, (size_t)bytes);
    }
}

/* Slot 4 becomes a multiplexed one, in which 02 sends where the epoch is a multiple of 4: no owner file has it. The
 * write leaves epoch 2, so of the next four rounds the second has the byte. */
static void show_multiplexed(void)
{
    static const uint8_t round[1] = {TTPA_FIREWORK_ROUND_2};
    static const uint8_t entry[] = {0x10 << 2, 0x01, 0x90, 4};
    uint8_t owners[TTPA_OWNER_BYTES];
    uint64_t bytes;
    print_verdict("slot 4 for 02 in every fourth round", write_record(0x02, 0x02, 1, entry));
    print_verdict("an owner file", ttpa_owner(cluster, length, MASTER, owners, sizeof owners, &bytes));
    for (int i = 0; i < 4; i++) {
        print_verdict("round 2", send(round, sizeof round));
        print_answer("answer");
    }
}

/* Of each slave in table order 1 where it sleeps, else 0. */
static void print_sleep(void)
{
    printf("asleep:");
    for (size_t slave = 0; slave < held_count; slave++) {
        printf(" %u", (unsigned)cluster[FIRST_SLEEP + ENTRY_BYTES * slave]);
    }
    printf("\n");
}

/* The whole cluster is put to sleep: all slaves have names, so 0x00 addresses each, and each has record 4 of 0x08. The
 * first read finds 01 asleep and wakes all, the second is answered. */
static void show_sleep(void)
{
    print_verdict("sleep at 00", master_slave(TTPA_NAME_BROADCAST, TTPA_FILE_CONFIGURATION,
                                              TTPA_OPERATION_EXECUTE, TTPA_RECORD_SLEEP));
    print_sleep();
    for (int i = 0; i < 2; i++) {
        print_verdict("read of 01", read_record(0x01, TTPA_FILE_DOCUMENTATION, 2));
        print_answer("answer");
        print_sleep();
    }
}

/* What a tester that knows edition 1 alone says of a file with the right mark: 1 by its length, or 3 by byte 2. */
static uint8_t older_ground(const uint8_t *file, size_t bytes)
{
    if (bytes < HEADER_BYTES || bytes > TTPA_EDITION_1_FILE_BYTES) {
        return TTPA_REFUSED_FILE_SIZE;
    }
    return file[2] == 1 ? TTPA_ACCEPTED : TTPA_REFUSED_EDITION;
}

/* A neighbouring tool works on the file in edition 2: a round on it has the same answer as on the file, and what it leaves
 * is, in edition 1 again, what the round leaves of the file. */
static void show_editions(void)
{
    static const uint8_t round[1] = {TTPA_FIREWORK_ROUND_2};
    static uint8_t wide[TTPA_WIDENED_BYTES];
    static uint8_t narrow[TTPA_EDITION_1_FILE_BYTES];
    uint64_t wide_length = 0, narrow_length = 0;
    print_verdict("edition 2 in 291 bytes", ttpa_to_edition_2(cluster, length, wide, 291, &wide_length));
    print_verdict("edition 2", ttpa_to_edition_2(cluster, length, wide, sizeof wide, &wide_length));
    print_bytes("header", wide, WIDE_HEADER_BYTES);
    printf("a tester before version 0.11.0 refuses it by %u\n", (unsigned)older_ground(wide, (size_t)wide_length));
    print_verdict("round 2 on it",
                  ttpa_round(wide, (size_t)wide_length, round, sizeof round, answer, sizeof answer, &senders));
    print_answer("answer");
    print_verdict("edition 1 again",
                  ttpa_to_edition_1(wide, (size_t)wide_length, narrow, sizeof narrow, &narrow_length));
    print_bytes("header", narrow, HEADER_BYTES);
    print_verdict("round 2 on the file", send(round, sizeof round));
    print_answer("answer");
    printf("both are %s\n",
           narrow_length == length && memcmp(narrow, cluster, length) == 0 ? "the same" : "not the same");
}

/* A screen posts a read of the serial number of a slave. */
static uint8_t post(uint8_t state[TTPA_SCREENS_BYTES], uint8_t screen, uint8_t name)
{
    return ttpa_post(state, screen, name, TTPA_FILE_DOCUMENTATION, 2);
}

/* Makes a turn and prints its answer; the screen that was served. */
static uint8_t take_turn(uint8_t state[TTPA_SCREENS_BYTES])
{
    uint8_t screen = TTPA_NO_SCREEN;
    uint8_t number = ttpa_turn(cluster, length, state, answer, sizeof answer, &senders, &screen);
    if (number != TTPA_ACCEPTED) {
        print_verdict("a turn", number);
    } else if (screen == TTPA_NO_SCREEN) {
        printf("a turn: no screen waits\n");
    } else {
        printf("a turn: screen %u\n", (unsigned)screen);
        print_answer("answer");
    }
    return screen;
}

/* Three screens read through the tester. Screen 2 posts again as soon as it is served, in the first four turns, and the
 * others have theirs all the same. */
static void show_screens(void)
{
    uint8_t state[TTPA_SCREENS_BYTES];
    print_verdict("screens", ttpa_screens(state));
    print_verdict("a post of screen 8", post(state, 8, 0x01));
    print_verdict("a post of screen 2", post(state, BUSY_SCREEN, 0x01));
    print_verdict("a post of screen 2", post(state, BUSY_SCREEN, 0x01));
    print_verdict("a post of screen 5", post(state, 5, 0x03));
    print_verdict("a post of screen 0", post(state, 0, 0x02));
    for (int turn = 0; turn < 6; turn++) {
        if (take_turn(state) == BUSY_SCREEN && turn < 4) {
            print_verdict("a post of screen 2", post(state, BUSY_SCREEN, 0x01));
        }
    }
}

/* A second bus segment: slaves 02, which the first has too, 07, which sleeps, and an unnamed one. */
static const uint8_t segment[] = {
    0x54, 0x41, 0x01, 0x03, 0x00, 0x10, 0x00, 0x88, 0x05, 0x00, 0x00, 0x00, 0x00, 0x00, 0x00, 0x00,
    0x00, 0x1C, 0x02, 0x00, 0x00, 0x40, 0x02, 0x01, 0x00, 0x64, 0x02, 0x00,
    0x08, 0x03, 0x00, 0x24, 0x3D, 0x02, 0x00, 0x34,
    0, 0, 0, 0, 0, 0, 0, 0x02, 0, 0, 0, 0, 0, 0, 0, 0, 0, 0, 0, 0, 0, 0, 0, 7, 0, 0, 0, 0x33,
    0x08, 0x03, 0x00, 0x48, 0x3D, 0x02, 0x00, 0x58,
    0, 0, 0, 0, 0, 0, 0, 0x07, 0, 0, 0, 0, 0, 0, 0, 0, 0, 0, 0, 0, 0, 0, 0, 7, 0, 0, 0, 0x55,
    0x08, 0x03, 0x00, 0x6C, 0x3D, 0x02, 0x00, 0x7C,
    0, 0, 0, 0, 0, 0, 0, 0xFF, 0, 0, 0, 0, 0, 0, 0, 0, 0, 0, 0, 0, 0, 0, 0, 7, 0, 0, 0, 0x21,
};

/* The two segments are cabled together. The joined file takes the place of the first; its slave 02 keeps that name, the
 * other 02 becomes unnamed, and a naming run names it and the one that was unnamed. */
static void show_join(void)
{
    static const uint8_t names[] = {0x01, 0x02, 0x03, 0x04, 0x05, 0x06};
    static uint8_t joined[TTPA_EDITION_1_FILE_BYTES];
    uint64_t bytes = 0;
    print_verdict("a join with itself", ttpa_join(cluster, length, cluster, length, joined, sizeof joined, &bytes));
    print_verdict("a join in 343 bytes",
                  ttpa_join(cluster, length, segment, sizeof segment, joined, 343, &bytes));
    uint8_t number = ttpa_join(cluster, length, segment, sizeof segment, joined, sizeof joined, &bytes);
    print_verdict("a join", number);
    if (number != TTPA_ACCEPTED) {
        return;
    }
    length = (size_t)bytes;
    memcpy(cluster, joined, length);
    print_bytes("header", cluster, HEADER_BYTES);
    fill_summary();
    print_verdict("naming after the join", name_slaves(names, sizeof names));
    print_bytes("names held", held, (size_t)held_count);
}

/* An address frame as the line monitor hands it over, each byte with its parity bit: 55 02 01 F4 01 A3. A bit of the fourth is
 * flipped, so that it is broken. Then a number that is no pattern. */
static void show_line(void)
{
    static const uint16_t line[] = {0x155, 0x102, 0x101, 0x1F5, 0x101, 0x0A3, 0x200};
    static const char *const classes[] = {"data byte", "firework", "broken"};
    for (size_t i = 0; i < sizeof line / sizeof *line; i++) {
        uint8_t kind = TTPA_BROKEN;
        uint8_t number = ttpa_pattern(line[i], &kind);
        printf("pattern %03X: ", (unsigned)line[i]);
        if (number == TTPA_ACCEPTED) {
            printf("%s\n", classes[kind]);
        } else {
            printf("refused %u: %s\n", (unsigned)number, ttpa_refusal_text(number));
        }
    }
}

/* What each slave does in round 2: its file 0x02, read without a round; and of one slave more than there are. */
static void show_contents(void)
{
    uint8_t bytes[TTPA_SLAVE_FILE_BYTES];
    for (uint64_t slave = 0; slave <= cluster[SLAVE_COUNT]; slave++) {
        uint64_t size = 0;
        uint8_t number = ttpa_contents(cluster, length, slave, 0x02, bytes, sizeof bytes, &size);
        if (number != TTPA_ACCEPTED) {
            print_verdict("file 02", number);
            return;
        }
        printf("file 02 of slave %" PRIu64 ":", slave);
        for (uint64_t i = 0; i < size; i++) {
            printf(" %02X", (unsigned)bytes[i]);
        }
        fputs(size == 0 ? " none\n" : "\n", stdout);
    }
}

int main(int count, char **arguments)
{
    static const uint8_t names[] = {0x01, 0x02};
    static const uint8_t more_names[] = {0x03, 0x04};
    static const uint8_t bad_names[] = {0x01, 0x02, 0x01};
    static const uint8_t round[1] = {TTPA_FIREWORK_ROUND_2};
    uint64_t run[TTPA_RUN_WORDS];

    if (!fits_library()) {
        return 1;
    }
    if (count != 2 || !load(arguments[1])) {
        fprintf(stderr, "usage: demo FILE\n");
        return 2;
    }
    print_verdict("a cut file", ttpa_check(cluster, length > 0 ? length - 1 : 0));
    uint8_t number = ttpa_check(cluster, length);
    print_verdict("the file", number);
    if (number != TTPA_ACCEPTED) {
        return 1;
    }
    show_equal_names();
    show_frames();
    number = read_record(0x01, TTPA_FILE_DOCUMENTATION, 2);
    print_verdict("read of 01", number);
    print_answer("answer");
    number = send(round, sizeof round);
    print_verdict("round 2 before naming", number);
    print_answer("answer");
    show_foreign_write();
    fill_summary();
    print_holders();
    print_verdict("names with a repeat", ttpa_start(bad_names, sizeof bad_names, run));
    number = name_slaves(names, sizeof names);
    print_verdict("naming", number);
    print_holders();
    /* a slave is left unnamed: a second list goes on with the file as it is, and leaves the names that one list of all
     * four would */
    number = name_slaves(more_names, sizeof more_names);
    print_verdict("naming with a second list", number);
    print_holders();
    show_wrong_summary();
    for (uint8_t name = 0x02; name <= 0x03; name++) {
        number = read_record(name, TTPA_FILE_DOCUMENTATION, 2);
        print_verdict("read", number);
        print_answer("answer");
    }
    number = send(round, sizeof round);
    print_verdict("round 2 after naming", number);
    print_answer("answer");
    show_trace();
    /* a trace takes no summary and may have renamed slaves: it is filled again */
    fill_summary();
    number = send_keeping(round, sizeof round);
    print_verdict("round 2 after the trace", number);
    print_answer("answer");
    show_owners();
    number = send(round, sizeof round);
    print_verdict("round 2 as planned", number);
    print_answer("answer");
    show_multiplexed();
    show_sleep();
    show_editions();
    show_screens();
    show_contents();
    show_join();
    show_line();
    print_verdict("a short answer buffer", ttpa_round(cluster, length, round, sizeof round, answer,
                                                      TTPA_ANSWER_BYTES - 1, &senders));
    print_verdict("the file as it is now", ttpa_check(cluster, length));
    return 0;
}
