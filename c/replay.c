/* Replays the vectors in C alone, so that a firmware team can run them on its own board, with whatever it links: the archive or
 * portable/ttpa.c.
 *
 *     replay VECTORS..
 *
 * A vector is a line 'CALL ARGUMENTS = RESULT': bytes as hexadecimal digits, '-' for none, numbers in decimal, the mask of senders as
 * sixteen digits; files, runs and buffers stand in the result as the call left them. What a refused call was lent for its answer is
 * held to be left alone. Lines 'list' belong to the listing program and are left out; so is a line that is longer than the room here.
 *
 * It needs fopen, fgets and printf of the board's library, and 4 * REPLAY_BYTES + REPLAY_LINE bytes for what is lent and read.
 * The last line is 'N vectors hold, M do not, K left out'; the status is 1 if one does not hold, or none was replayed. */
#include <stdint.h>
#include <stdio.h>
#include <string.h>

#include "ttpa.h"

#ifndef REPLAY_LINE
#define REPLAY_LINE 600000
#endif
#ifndef REPLAY_BYTES
#define REPLAY_BYTES 70000
#endif

#define MOST_WORDS 12
#define ANSWER_BYTE 0xEE
#define UNTOLD UINT64_C(0xEEEEEEEEEEEEEEEE)
#define NOT_LENT 0x5A
#define NAMING_ANSWER 64

/* Lent memory, one array each: a call may write into one while it reads another. Behind what is lent stands a byte that is not. */
struct bytes {
    uint8_t at[REPLAY_BYTES + 1];
    size_t n;
};

static struct bytes first, second, third;
static struct bytes held;
static char line[REPLAY_LINE];

/* The words left and right of the '='. */
struct vector {
    const char *kind;
    const char *given[MOST_WORDS];
    int given_count;
    const char *wanted[MOST_WORDS];
    int wanted_count;
};

static void lend(struct bytes *of, size_t n)
{
    of->n = n;
    of->at[n] = NOT_LENT;
}

static int is_left_alone(const struct bytes *of)
{
    return of->at[of->n] == NOT_LENT;
}

static int digit(char c)
{
    if (c >= '0' && c <= '9') {
        return c - '0';
    }
    return c >= 'A' && c <= 'F' ? c - 'A' + 10 : -1;
}

/* Whether a word is bytes that there is room for, which are put there. */
static int take_bytes(const char *word, struct bytes *to)
{
    size_t n = 0;
    if (strcmp(word, "-") == 0) {
        word = "";
    }
    for (; word[0] != '\0'; word += 2) {
        int high = digit(word[0]);
        int low = high < 0 ? -1 : digit(word[1]);
        if (low < 0 || n == REPLAY_BYTES) {
            return 0;
        }
        to->at[n] = (uint8_t)(16 * high + low);
        n += 1;
    }
    lend(to, n);
    return 1;
}

/* A number in decimal; what stands behind it is left for the caller. */
static uint64_t number_at(const char **word)
{
    uint64_t number = 0;
    while (digit(**word) >= 0 && digit(**word) < 10) {
        number = 10 * number + (uint64_t)digit(**word);
        *word += 1;
    }
    return number;
}

static uint64_t number(const char *word)
{
    return number_at(&word);
}

static uint8_t byte(const char *word)
{
    return (uint8_t)number(word);
}

/* A buffer of so many bytes, as the vectors have it before a call. */
static int take_answer(const char *word, struct bytes *to)
{
    uint64_t n = number(word);
    if (n > REPLAY_BYTES) {
        return 0;
    }
    lend(to, (size_t)n);
    memset(to->at, ANSWER_BYTE, to->n);
    return 1;
}

static int is_number(const char *word, uint64_t wanted)
{
    const char *rest = word;
    return *word != '\0' && number_at(&rest) == wanted && *rest == '\0';
}

static int is_bytes(const char *word, const uint8_t *at, size_t n)
{
    size_t i;
    if (n == 0) {
        return strcmp(word, "-") == 0;
    }
    for (i = 0; i < n; i += 1) {
        int high = digit(word[2 * i]);
        int low = high < 0 ? -1 : digit(word[2 * i + 1]);
        if (low < 0 || at[i] != (uint8_t)(16 * high + low)) {
            return 0;
        }
    }
    return word[2 * n] == '\0';
}

/* The mask of senders, 0 where none was told. */
static int is_mask(const char *word, uint64_t senders)
{
    uint64_t mask = senders == UNTOLD ? 0 : senders;
    int i;
    for (i = 0; i < 16; i += 1) {
        if (digit(word[i]) != (int)(mask >> (60 - 4 * i) & 15)) {
            return 0;
        }
    }
    return word[16] == '\0';
}

/* Words of a run, with commas between them. */
static int take_run(const char *word, uint64_t run[TTPA_RUN_WORDS])
{
    int i;
    for (i = 0; i < TTPA_RUN_WORDS; i += 1) {
        run[i] = number_at(&word);
        if (*word != (i + 1 < TTPA_RUN_WORDS ? ',' : '\0')) {
            return 0;
        }
        word += 1;
    }
    return 1;
}

static int is_run(const char *word, const uint64_t run[TTPA_RUN_WORDS])
{
    uint64_t wanted[TTPA_RUN_WORDS];
    return take_run(word, wanted) && memcmp(wanted, run, sizeof wanted) == 0;
}

/* Words that are left alone where a call is refused, and otherwise are those of the vector. */
static int are_words(const struct vector *v, uint8_t refusal, const uint64_t *words, int count)
{
    int i;
    for (i = 0; i < count; i += 1) {
        if (refusal != 0 ? words[i] != UNTOLD : !is_number(v->wanted[1 + i], words[i])) {
            return 0;
        }
    }
    return refusal != 0 || v->wanted_count == 1 + count;
}

static int holds_check(const struct vector *v)
{
    return take_bytes(v->given[0], &first) && is_number(v->wanted[0], ttpa_check(first.at, first.n));
}

static int holds_read(const struct vector *v)
{
    uint8_t parts[TTPA_ADDRESS_PARTS];
    uint8_t refusal;
    int i;
    memset(parts, ANSWER_BYTE, sizeof parts);
    if (!take_bytes(v->given[0], &first)) {
        return 0;
    }
    refusal = ttpa_read_address(first.at, first.n, parts);
    for (i = 0; i < TTPA_ADDRESS_PARTS; i += 1) {
        if (refusal != 0 ? parts[i] != ANSWER_BYTE : !is_number(v->wanted[1 + i], parts[i])) {
            return 0;
        }
    }
    return is_number(v->wanted[0], refusal);
}

static int holds_write(const struct vector *v)
{
    return take_bytes(v->given[0], &first) &&
           is_number(v->wanted[0], ttpa_write_address(first.at, first.n, byte(v->given[1]), byte(v->given[2]),
                                                      byte(v->given[3]), byte(v->given[4]), byte(v->given[5]))) &&
           is_bytes(v->wanted[1], first.at, first.n);
}

static int holds_data(const struct vector *v)
{
    return take_bytes(v->given[0], &first) &&
           is_number(v->wanted[0], ttpa_write_data(first.at, first.n, byte(v->given[1]), byte(v->given[2]),
                                                   byte(v->given[3]), byte(v->given[4]))) &&
           is_bytes(v->wanted[1], first.at, first.n);
}

/* Whether a call wrote a word exactly where it has to: a refused one writes none. */
static int told(int tells, uint64_t word)
{
    return tells == (word != UNTOLD);
}

static int is_round(const struct vector *v, uint8_t refusal, uint64_t senders)
{
    return is_number(v->wanted[0], refusal) && told(refusal == 0, senders) && is_mask(v->wanted[1], senders) &&
           is_bytes(v->wanted[2], first.at, first.n) && is_bytes(v->wanted[3], third.at, third.n);
}

static int take_round(const struct vector *v)
{
    return take_bytes(v->given[0], &first) && take_bytes(v->given[1], &second) && take_answer(v->given[2], &third);
}

static int holds_round(const struct vector *v)
{
    uint64_t senders = UNTOLD;
    uint8_t refusal;
    if (!take_round(v)) {
        return 0;
    }
    refusal = ttpa_round(first.at, first.n, second.at, second.n, third.at, third.n, &senders);
    return is_round(v, refusal, senders);
}

static int holds_round_keeping(const struct vector *v)
{
    uint64_t senders = UNTOLD;
    uint8_t refusal;
    if (!take_round(v) || !take_bytes(v->given[3], &held)) {
        return 0;
    }
    refusal = ttpa_round_keeping(first.at, first.n, second.at, second.n, third.at, third.n, &senders, held.at, held.n,
                                 number(v->given[4]));
    return is_round(v, refusal, senders) && is_bytes(v->wanted[4], held.at, held.n);
}

static int holds_start(const struct vector *v)
{
    uint64_t run[TTPA_RUN_WORDS];
    uint8_t refusal;
    int i;
    for (i = 0; i < TTPA_RUN_WORDS; i += 1) {
        run[i] = UNTOLD;
    }
    if (!take_bytes(v->given[0], &first)) {
        return 0;
    }
    refusal = ttpa_start(first.at, first.n, run);
    return is_number(v->wanted[0], refusal) && are_words(v, refusal, run, TTPA_RUN_WORDS);
}

/* A step of a run that had ended tells nothing, refused or not. */
static int is_step(const struct vector *v, uint8_t refusal, uint64_t senders, const uint64_t run[TTPA_RUN_WORDS],
                   int had_ended)
{
    return is_number(v->wanted[0], refusal) && told(refusal == 0 && !had_ended, senders) && is_mask(v->wanted[1], senders) &&
           is_bytes(v->wanted[2], first.at, first.n) && is_run(v->wanted[3], run) &&
           is_bytes(v->wanted[4], third.at, third.n);
}

static int take_step(const struct vector *v, uint64_t run[TTPA_RUN_WORDS])
{
    return take_bytes(v->given[0], &first) && take_bytes(v->given[1], &second) && take_run(v->given[2], run) &&
           take_answer(v->given[3], &third);
}

static int holds_step(const struct vector *v)
{
    uint64_t run[TTPA_RUN_WORDS];
    uint64_t senders = UNTOLD;
    uint8_t refusal;
    int had_ended;
    if (!take_step(v, run)) {
        return 0;
    }
    had_ended = run[TTPA_RUN_END] != TTPA_RUNNING;
    refusal = ttpa_step(first.at, first.n, run, second.at, second.n, third.at, third.n, &senders);
    return is_step(v, refusal, senders, run, had_ended);
}

static int holds_step_keeping(const struct vector *v)
{
    uint64_t run[TTPA_RUN_WORDS];
    uint64_t senders = UNTOLD;
    uint8_t refusal;
    int had_ended;
    if (!take_step(v, run) || !take_bytes(v->given[4], &held)) {
        return 0;
    }
    had_ended = run[TTPA_RUN_END] != TTPA_RUNNING;
    refusal = ttpa_step_keeping(first.at, first.n, run, second.at, second.n, third.at, third.n, &senders, held.at,
                                held.n, number(v->given[5]));
    return is_step(v, refusal, senders, run, had_ended) && is_bytes(v->wanted[5], held.at, held.n);
}

/* A trace that is refused has a report of zeros in its vector. */
static int holds_trace(const struct vector *v)
{
    uint64_t report[TTPA_REPORT_WORDS];
    uint8_t refusal;
    int i;
    for (i = 0; i < TTPA_REPORT_WORDS; i += 1) {
        report[i] = UNTOLD;
    }
    if (!take_bytes(v->given[0], &first) || !take_bytes(v->given[1], &second)) {
        return 0;
    }
    refusal = ttpa_trace(first.at, first.n, second.at, second.n, report);
    for (i = 0; i < TTPA_REPORT_WORDS; i += 1) {
        if (refusal != 0 ? report[i] != UNTOLD : !is_number(v->wanted[1 + i], report[i])) {
            return 0;
        }
    }
    return is_number(v->wanted[0], refusal) && is_bytes(v->wanted[1 + TTPA_REPORT_WORDS], first.at, first.n);
}

/* What came of a call that writes a file into a buffer and tells its length, or a summary and its count. */
static int is_written(const struct vector *v, uint8_t refusal, uint64_t length, const struct bytes *buffer)
{
    return is_number(v->wanted[0], refusal) && is_number(v->wanted[1], refusal == 0 ? length : 0) &&
           told(refusal == 0, length) && is_bytes(v->wanted[2], buffer->at, buffer->n);
}

static int holds_owner(const struct vector *v)
{
    uint64_t length = UNTOLD;
    uint8_t refusal;
    if (!take_bytes(v->given[0], &first) || !take_answer(v->given[2], &third)) {
        return 0;
    }
    refusal = ttpa_owner(first.at, first.n, byte(v->given[1]), third.at, third.n, &length);
    return is_written(v, refusal, length, &third);
}

static int holds_to_edition(const struct vector *v)
{
    uint64_t length = UNTOLD;
    uint8_t refusal;
    if (!take_bytes(v->given[0], &first) || !take_answer(v->given[1], &third)) {
        return 0;
    }
    if (strcmp(v->kind, "to-edition-1") == 0) {
        refusal = ttpa_to_edition_1(first.at, first.n, third.at, third.n, &length);
    } else {
        refusal = ttpa_to_edition_2(first.at, first.n, third.at, third.n, &length);
    }
    return is_written(v, refusal, length, &third);
}

static int holds_join(const struct vector *v)
{
    uint64_t length = UNTOLD;
    uint8_t refusal;
    if (!take_bytes(v->given[0], &first) || !take_bytes(v->given[1], &second) || !take_answer(v->given[2], &third)) {
        return 0;
    }
    refusal = ttpa_join(first.at, first.n, second.at, second.n, third.at, third.n, &length);
    return is_written(v, refusal, length, &third);
}

static int holds_contents(const struct vector *v)
{
    uint64_t length = UNTOLD;
    uint8_t refusal;
    if (!take_bytes(v->given[0], &first) || !take_answer(v->given[3], &third)) {
        return 0;
    }
    refusal = ttpa_contents(first.at, first.n, number(v->given[1]), byte(v->given[2]), third.at, third.n, &length);
    return is_written(v, refusal, length, &third);
}

static int holds_fill(const struct vector *v)
{
    uint64_t count = UNTOLD;
    uint8_t refusal;
    if (!take_bytes(v->given[0], &first) || !take_bytes(v->given[1], &held)) {
        return 0;
    }
    refusal = ttpa_fill(first.at, first.n, held.at, held.n, &count);
    return is_written(v, refusal, count, &held);
}

static int holds_holder(const struct vector *v)
{
    uint64_t place = UNTOLD;
    uint8_t refusal;
    if (!take_bytes(v->given[0], &held)) {
        return 0;
    }
    refusal = ttpa_holder(held.at, held.n, number(v->given[1]), byte(v->given[2]), &place);
    if (refusal != 0 || !is_number(v->wanted[0], 0)) {
        return is_number(v->wanted[0], refusal) && told(refusal == 0, place);
    }
    return place == TTPA_NOBODY ? strcmp(v->wanted[1], "-") == 0 : is_number(v->wanted[1], place);
}

static int holds_screens(const struct vector *v)
{
    uint8_t state[TTPA_SCREENS_BYTES];
    memset(state, ANSWER_BYTE, sizeof state);
    return ttpa_screens(state) == 0 && is_bytes(v->wanted[0], state, sizeof state);
}

static int holds_post(const struct vector *v)
{
    return take_bytes(v->given[0], &first) && first.n == TTPA_SCREENS_BYTES &&
           is_number(v->wanted[0], ttpa_post(first.at, byte(v->given[1]), byte(v->given[2]), byte(v->given[3]),
                                             byte(v->given[4]))) &&
           is_bytes(v->wanted[1], first.at, first.n);
}

static int holds_turn(const struct vector *v)
{
    uint64_t senders = UNTOLD;
    uint8_t screen = ANSWER_BYTE;
    uint8_t refusal;
    if (!take_bytes(v->given[0], &first) || !take_bytes(v->given[1], &second) || second.n != TTPA_SCREENS_BYTES ||
        !take_answer(v->given[2], &third)) {
        return 0;
    }
    refusal = ttpa_turn(first.at, first.n, second.at, third.at, third.n, &senders, &screen);
    return is_number(v->wanted[0], refusal) && is_number(v->wanted[1], refusal == 0 ? screen : 0) &&
           told(refusal == 0 && screen != TTPA_NO_SCREEN, senders) && (refusal == 0 || screen == ANSWER_BYTE) &&
           is_mask(v->wanted[2], senders) &&
           is_bytes(v->wanted[3], first.at, first.n) && is_bytes(v->wanted[4], second.at, second.n) &&
           is_bytes(v->wanted[5], third.at, third.n);
}

static int holds_pattern(const struct vector *v)
{
    uint8_t kind = ANSWER_BYTE;
    uint8_t refusal = ttpa_pattern((uint16_t)number(v->given[0]), &kind);
    if (refusal != 0) {
        return is_number(v->wanted[0], refusal) && v->wanted_count == 1 && kind == ANSWER_BYTE;
    }
    return is_number(v->wanted[0], 0) && v->wanted_count == 2 && is_number(v->wanted[1], kind);
}

/* The classes of the patterns from one on, a digit each. */
static int holds_patterns(const struct vector *v)
{
    uint64_t pattern = number(v->given[0]);
    const char *class;
    for (class = v->wanted[0]; *class != '\0'; class += 1) {
        uint8_t kind = ANSWER_BYTE;
        if (ttpa_pattern((uint16_t)pattern, &kind) != 0 || kind != digit(*class)) {
            return 0;
        }
        pattern += 1;
    }
    return 1;
}

/* A naming run over a list to its end, on the file in first. */
static int named(const uint8_t *names, size_t n)
{
    uint64_t run[TTPA_RUN_WORDS];
    uint64_t senders;
    if (ttpa_start(names, n, run) != 0) {
        return 0;
    }
    lend(&third, NAMING_ANSWER);
    while (run[TTPA_RUN_END] == TTPA_RUNNING) {
        if (ttpa_step(first.at, first.n, run, names, n, third.at, third.n, &senders) != 0) {
            return 0;
        }
    }
    return 1;
}

/* The names that the slaves of the file in first have. */
static int are_names(const char *word)
{
    uint64_t count = 0;
    lend(&held, REPLAY_BYTES);
    return ttpa_fill(first.at, first.n, held.at, held.n, &count) == 0 && is_bytes(word, held.at, (size_t)count);
}

/* Two lists of names, one after the other and as one list, leave the same names. */
static int holds_two(const struct vector *v)
{
    size_t n;
    if (!take_bytes(v->given[0], &first) || !take_bytes(v->given[1], &second)) {
        return 0;
    }
    n = second.n;
    if (!take_bytes(v->given[2], &third) || n + third.n > REPLAY_BYTES) {
        return 0;
    }
    memcpy(second.at + n, third.at, third.n);
    lend(&second, n + third.n);
    if (!named(second.at, n) || !named(second.at + n, second.n - n) || !are_names(v->wanted[0])) {
        return 0;
    }
    return take_bytes(v->given[0], &first) && named(second.at, second.n) && are_names(v->wanted[0]);
}

static const struct {
    const char *kind;
    int given;
    int wanted;
    int (*holds)(const struct vector *);
} kinds[] = {
    {"check", 1, 1, holds_check},
    {"read", 1, 1, holds_read},
    {"write", 6, 2, holds_write},
    {"data", 5, 2, holds_data},
    {"round", 3, 4, holds_round},
    {"round-keeping", 5, 5, holds_round_keeping},
    {"start", 1, 1, holds_start},
    {"step", 4, 5, holds_step},
    {"step-keeping", 6, 6, holds_step_keeping},
    {"trace", 2, 7, holds_trace},
    {"owner", 3, 3, holds_owner},
    {"to-edition-1", 2, 3, holds_to_edition},
    {"to-edition-2", 2, 3, holds_to_edition},
    {"join", 3, 3, holds_join},
    {"fill", 2, 3, holds_fill},
    {"holder", 3, 1, holds_holder},
    {"screens", 0, 1, holds_screens},
    {"post", 5, 2, holds_post},
    {"turn", 3, 6, holds_turn},
    {"pattern", 1, 1, holds_pattern},
    {"patterns", 1, 1, holds_patterns},
    {"contents", 4, 3, holds_contents},
    {"two", 3, 1, holds_two},
};

/* Takes a line apart, in place. A word that is missing is an empty one. */
static void split(char *text, struct vector *v)
{
    static const char empty[] = "";
    char *word = strtok(text, " \r\n");
    int is_wanted = 0;
    int i;
    v->kind = word == NULL ? empty : word;
    v->given_count = 0;
    v->wanted_count = 0;
    for (i = 0; i < MOST_WORDS; i += 1) {
        v->given[i] = empty;
        v->wanted[i] = empty;
    }
    while (word != NULL && (word = strtok(NULL, " \r\n")) != NULL) {
        if (!is_wanted && strcmp(word, "=") == 0) {
            is_wanted = 1;
        } else if (is_wanted && v->wanted_count < MOST_WORDS) {
            v->wanted[v->wanted_count] = word;
            v->wanted_count += 1;
        } else if (!is_wanted && v->given_count < MOST_WORDS) {
            v->given[v->given_count] = word;
            v->given_count += 1;
        }
    }
}

static int holds(const struct vector *v)
{
    size_t i;
    for (i = 0; i < sizeof kinds / sizeof kinds[0]; i += 1) {
        if (strcmp(v->kind, kinds[i].kind) == 0) {
            return v->given_count == kinds[i].given && v->wanted_count >= kinds[i].wanted && kinds[i].holds(v) &&
                   is_left_alone(&first) && is_left_alone(&second) && is_left_alone(&third) && is_left_alone(&held);
        }
    }
    return 0;
}

static unsigned long held_count, broken_count, left_out;

static void replay(const char *name)
{
    FILE *file = fopen(name, "r");
    unsigned long at = 0;
    struct vector v;
    if (file == NULL) {
        printf("cannot be read: %s\n", name);
        broken_count += 1;
        return;
    }
    while (fgets(line, sizeof line, file) != NULL) {
        size_t n = strlen(line);
        int is_whole = n > 0 && (line[n - 1] == '\n' || n + 1 < sizeof line);
        at += 1;
        while (n > 0 && line[n - 1] != '\n' && fgets(line, sizeof line, file) != NULL) {
            n = strlen(line);
        }
        if (!is_whole || strncmp(line, "list ", 5) == 0) {
            left_out += 1;
            continue;
        }
        split(line, &v);
        if (holds(&v)) {
            held_count += 1;
        } else {
            printf("does not hold: %s, line %lu, %s\n", name, at, v.kind);
            broken_count += 1;
        }
    }
    fclose(file);
}

int main(int count, char **names)
{
    int i;
    if (ttpa_version() != TTPA_VERSION) {
        printf("the linked library is of another version than the header\n");
        return 1;
    }
    lend(&first, 0);
    lend(&second, 0);
    lend(&third, 0);
    lend(&held, 0);
    for (i = 1; i < count; i += 1) {
        replay(names[i]);
    }
    printf("%lu vectors hold, %lu do not, %lu left out\n", held_count, broken_count, left_out);
    return broken_count == 0 && held_count > 0 ? 0 : 1;
}
