/* The proved checker from C, and from C++: what it replies to files, to changes of the sample, to states in another order, to unknown
   facts, to facts needed off, by the small limits, to lists of rule numbers, in rounds and to questions, printed for comparison with
   `expected`. The first file is the sample. */
#include "certificate.h"

#include <stdio.h>
#include <stdlib.h>
#include <string.h>

enum { LIMIT = 65537, SMALL = 16384, RULES = 28, STEP = 12 };

/* Places in the sample: where version 2 has its mask, the ends of the goal's mask and of its two actions, which is where the count of its
   action sets stands, the end of these, its list of states, its step count and steps. */
enum {
    SAMPLE_MASK = 14,
    SAMPLE_GOAL_END = 22,
    SAMPLE_ACTION_0_END = 48,
    SAMPLE_ACTION_SETS = 72,
    SAMPLE_STATE_SETS = 77,
    SAMPLE_LIST = 88,
    SAMPLE_COUNT = 136,
    SAMPLE_STEPS = 138
};

/* A change of the sample: one byte, for each refusal that one byte makes; `print_orders` has 7. */
static const struct change {
    size_t at;
    uint8_t byte;
} changes[] = {
    {3, 231},  /* the length field: 1 */
    {4, 9},    /* the version: 2 */
    {137, 9},  /* one step more than there are: 3 */
    {5, 0},    /* no facts: 4 */
    {21, 7},   /* the forbidden mask names fact 2: 5 */
    {119, 9},  /* set 4 names set 9: 6 */
    {138, 99}, /* a rule that there is not: 8 */
    {141, 1},  /* ED of the initial state: 9 */
    {150, 1},  /* a progression in B1: 10 */
    {106, 0},  /* a state twice, another missing: 11 */
    {114, 3},  /* a state that leads out of the set: 11 */
};

static void print_reply(const char *what, uint64_t code) {
    uint32_t number = CERTIFICATE_NUMBER(code);
    if (number == CERTIFICATE_ACCEPTED) {
        printf("%s: %s\n", what, certificate_text(number));
    } else {
        printf("%s: refused %u %u: %s\n", what, (unsigned)number, (unsigned)CERTIFICATE_PLACE(code), certificate_text(number));
    }
}

static void print_answer(const char *what, uint64_t code) {
    if (code == CERTIFICATE_IN || code == CERTIFICATE_OUT) {
        printf("%s: %s\n", what, code == CERTIFICATE_IN ? "in" : "out");
    } else {
        print_reply(what, code);
    }
}

/* Whether a round's code is the step to go on from. */
static int goes_on(uint64_t code) {
    return code != 0 && CERTIFICATE_NUMBER(code) == 0;
}

static void print_round(const char *what, uint64_t code) {
    if (goes_on(code)) {
        printf("%s: go on from %u\n", what, (unsigned)code);
    } else if (code == 0) {
        printf("%s: ended\n", what);
    } else {
        print_reply(what, code);
    }
}

static size_t read_file(const char *path, uint8_t *bytes) {
    FILE *stream = fopen(path, "rb");
    size_t length;
    if (stream == NULL) {
        perror(path);
        exit(2);
    }
    length = fread(bytes, 1, LIMIT, stream);
    if (ferror(stream)) {
        perror(path);
        exit(2);
    }
    fclose(stream);
    return length;
}

static void print_names(void) {
#define PRINT(name, number, text) printf("%s %d: %s\n", #name, (int)name, certificate_text(number));
    CERTIFICATE_NUMBERS(PRINT)
#undef PRINT
    printf("another: %s\n", certificate_text(UINT32_MAX));
}

static void print_changes(const uint8_t *sample, size_t length) {
    static uint8_t changed[LIMIT];
    size_t i;
    for (i = 0; i < sizeof changes / sizeof changes[0]; i++) {
        char what[32];
        memcpy(changed, sample, length);
        changed[changes[i].at] = changes[i].byte;
        sprintf(what, "byte %u", (unsigned)changes[i].at);
        print_reply(what, certificate_check(changed, length));
    }
}

/* A number of two bytes, as a file has it. */
static void put(uint8_t *at, size_t number) {
    at[0] = (uint8_t)(number >> 8);
    at[1] = (uint8_t)number;
}

/* Puts bytes before those at a place and mends the length field: how long the file is then. */
static size_t insert(uint8_t *file, size_t length, size_t at, const uint8_t *bytes, size_t count) {
    memmove(file + at + count, file + at, length - at);
    memcpy(file + at, bytes, count);
    put(file + 2, length + count - 4);
    return length + count;
}

/* The sample with its last state before the others as well, by each function; with a state that there is not among them, with one
   missing; and with a list of its actions, which has to ascend. */
static void print_orders(const uint8_t *sample, size_t length) {
    static uint8_t file[LIMIT];
    static const uint8_t list[] = {0, 5, 1, 0, 1, 0, 0};
    size_t longer;
    memcpy(file, sample, length);
    longer = insert(file, length, SAMPLE_LIST + 3, sample + SAMPLE_LIST + 19, 8);
    put(file + SAMPLE_LIST, 1 + 8 * 4);
    print_reply("states 2 0 1 2", certificate_check(file, longer));
    print_reply("small, states 2 0 1 2", certificate_check_small(file, longer));
    print_round("8 steps, states 2 0 1 2", certificate_round(file, longer, 0, 8));
    print_answer("state 1 among 2 0 1 2", certificate_ask(file, longer, 3, 1));
    print_answer("state 3 among 2 0 1 2", certificate_ask(file, longer, 3, 3));
    file[SAMPLE_LIST + 26] = 4;
    print_reply("states 2 0 4 2", certificate_check(file, longer));
    file[SAMPLE_LIST + 26] = 0;
    print_reply("states 2 0 0 2", certificate_check(file, longer));
    memcpy(file, sample, length);
    longer = insert(file, length, SAMPLE_STATE_SETS, list, sizeof list);
    put(file + SAMPLE_ACTION_SETS, 2);
    print_reply("actions 1 0", certificate_check(file, longer));
    put(file + SAMPLE_STATE_SETS + 3, 0);
    print_reply("actions 0 0", certificate_check(file, longer));
    put(file + SAMPLE_STATE_SETS + 5, 1);
    print_reply("actions 0 1", certificate_check(file, longer));
}

/* The sample as version 2, with a mask of unknown facts after the start: no fact, one, both, one that is on in the start, one that there is
   not, and this with a forbidden mask of such a fact. */
static void print_unknown(const uint8_t *sample, size_t length) {
    static uint8_t file[LIMIT];
    static const uint8_t none[8] = {0};
    size_t longer;
    memcpy(file, sample, length);
    longer = insert(file, length, SAMPLE_MASK, none, sizeof none);
    file[4] = 2;
    print_reply("version 2", certificate_check(file, longer));
    print_answer("state 1 in set 1", certificate_ask(file, longer, 1, 1));
    file[SAMPLE_MASK + 7] = 1;
    print_reply("fact 0 unknown", certificate_check(file, longer));
    print_reply("small, fact 0 unknown", certificate_check_small(file, longer));
    print_round("8 steps, fact 0 unknown", certificate_round(file, longer, 0, 8));
    print_answer("state 1 in set 1, fact 0 unknown", certificate_ask(file, longer, 1, 1));
    print_answer("state 2 in set 1, fact 0 unknown", certificate_ask(file, longer, 1, 2));
    file[SAMPLE_MASK + 7] = 3;
    print_reply("facts 0 and 1 unknown", certificate_check(file, longer));
    file[SAMPLE_MASK - 1] = 1;
    print_reply("fact 0 on in the start and unknown", certificate_check(file, longer));
    print_answer("a question about that file", certificate_ask(file, longer, 1, 1));
    file[SAMPLE_MASK + 15] = 7;
    print_reply("with a forbidden fact 2 as well", certificate_check(file, longer));
    file[SAMPLE_MASK + 7] = 5;
    print_reply("fact 2 unknown", certificate_check(file, longer));
}

/* Places in the sample as version 3, each a mask's last byte but for the list: the goal's two masks, what the actions need off, what the
   second one needs on. */
enum { THIRD_GOAL = 29, THIRD_GOAL_OFF = 37, THIRD_OFF_0 = 71, THIRD_ON_1 = 79, THIRD_OFF_1 = 103, THIRD_LIST = 120 };

/* The sample as version 3: how long the file is. The new masks are put in from the last one on, so that the places before them hold. */
static size_t third(uint8_t *file, const uint8_t *sample, size_t length) {
    static const uint8_t none[8] = {0};
    static const size_t ends[] = {SAMPLE_ACTION_SETS, SAMPLE_ACTION_0_END, SAMPLE_GOAL_END, SAMPLE_MASK};
    size_t i;
    memcpy(file, sample, length);
    for (i = 0; i < sizeof ends / sizeof ends[0]; i++) {
        length = insert(file, length, ends[i], none, sizeof none);
    }
    file[4] = 3;
    return length;
}

/* The sample as version 3: with no fact off; with states 0 and 1 alone listed, which no action leads out of only where the second one,
   which makes fact 1 on, never applies; with a goal of facts off, of both masks, of a fact on and off; and with a fact that there is not
   in each new mask. */
static void print_off(const uint8_t *sample, size_t length) {
    static uint8_t file[LIMIT];
    size_t longer = third(file, sample, length);
    print_reply("version 3", certificate_check(file, longer));
    file[THIRD_LIST + 26] = 1;
    file[THIRD_ON_1] = 1;
    print_reply("states 0 1, action 1 needs fact 0 on", certificate_check(file, longer));
    file[THIRD_OFF_1] = 1;
    print_reply("states 0 1, on and off", certificate_check(file, longer));
    print_reply("small, on and off", certificate_check_small(file, longer));
    print_round("8 steps, on and off", certificate_round(file, longer, 0, 8));
    file[THIRD_ON_1] = 0;
    print_reply("states 0 1, off", certificate_check(file, longer));
    file[THIRD_LIST + 26] = 2;
    print_reply("states 0 1 2, off", certificate_check(file, longer));
    file[THIRD_GOAL_OFF] = 1;
    print_reply("fact 0 on and off is forbidden, which no state is", certificate_check(file, longer));
    print_answer("state 3 in that set", certificate_ask(file, longer, 2, 3));
    file[THIRD_GOAL] = 2;
    print_reply("fact 1 on and fact 0 off is forbidden", certificate_check(file, longer));
    print_answer("state 2 in that set", certificate_ask(file, longer, 2, 2));
    print_answer("state 3 in that set", certificate_ask(file, longer, 2, 3));
    file[THIRD_OFF_1] = 4;
    print_reply("fact 2 needed off by action 1", certificate_check(file, longer));
    file[THIRD_OFF_0] = 4;
    print_reply("and by action 0", certificate_check(file, longer));
    file[THIRD_GOAL_OFF] = 4;
    print_reply("and off in a forbidden state", certificate_check(file, longer));
    file[SAMPLE_MASK - 1] = 1;
    file[SAMPLE_MASK + 7] = 1;
    print_reply("and fact 0 on in the start and unknown", certificate_check(file, longer));
}

/* The sample with zeros after it, at each small limit and one past it: bytes; states that the length of its list says; steps that its
   count says. */
static void print_small(const uint8_t *sample, size_t length) {
    static uint8_t file[SMALL + 1];
    memcpy(file, sample, length);
    print_reply("small, the sample", certificate_check_small(sample, length));
    print_reply("small, no bytes", certificate_check_small(NULL, 0));
    put(file + 2, SMALL - 4);
    print_reply("small, 16,384 bytes", certificate_check_small(file, SMALL));
    print_reply("small, 16,385 bytes, a wrong length field", certificate_check_small(file, SMALL + 1));
    put(file + 2, SMALL - 3);
    print_reply("small, 16,385 bytes", certificate_check_small(file, SMALL + 1));
    print_reply("these 16,385 bytes", certificate_check(file, SMALL + 1));
    put(file + 2, SMALL - 4);
    put(file + SAMPLE_LIST, 1 + 8 * 512);
    print_reply("small, 512 states", certificate_check_small(file, SMALL));
    put(file + SAMPLE_LIST, 1 + 8 * 513);
    print_reply("small, 513 states", certificate_check_small(file, SMALL));
    print_reply("these 513 states", certificate_check(file, SMALL));
    memcpy(file + SAMPLE_LIST, sample + SAMPLE_LIST, 2);
    put(file + SAMPLE_COUNT, 256);
    print_reply("small, 256 steps", certificate_check_small(file, SMALL));
    put(file + SAMPLE_COUNT, 257);
    print_reply("small, 257 steps", certificate_check_small(file, SMALL));
    print_reply("these 257 steps", certificate_check(file, SMALL));
    put(file + SAMPLE_COUNT, 2049);
    print_reply("small, 2,049 steps", certificate_check_small(file, SMALL));
}

/* The sample with its rule bytes rewritten by a list, one byte longer than a list may be, that gives rule k the number 255 - k. */
static void print_numbered(const uint8_t *sample, size_t length) {
    static uint8_t file[LIMIT];
    uint8_t numbers[RULES + 1];
    size_t i;
    for (i = 0; i < sizeof numbers; i++) {
        numbers[i] = (uint8_t)(254 - i);
    }
    memcpy(file, sample, length);
    for (i = SAMPLE_STEPS; i < length; i += STEP) {
        file[i] = numbers[file[i] - 1];
    }
    print_reply("numbered", certificate_check_numbered(file, length, numbers, RULES));
    print_reply("numbered, without its list", certificate_check(file, length));
    print_reply("the sample with that list", certificate_check_numbered(sample, length, numbers, RULES));
    print_reply("numbered, cut short", certificate_check_numbered(file, length - 1, numbers, RULES));
    print_reply("no bytes with that list", certificate_check_numbered(NULL, 0, numbers, RULES));
    print_reply("a list of 29", certificate_check_numbered(file, length, numbers, RULES + 1));
    print_reply("a list of 27", certificate_check_numbered(file, length, numbers, RULES - 1));
    print_reply("no list", certificate_check_numbered(file, length, NULL, 0));
    print_reply("no list and no bytes", certificate_check_numbered(NULL, 0, NULL, 0));
    file[SAMPLE_STEPS + STEP] = 0;
    print_reply("rule byte 0 at step 1", certificate_check_numbered(file, length, numbers, RULES));
    numbers[9] = numbers[3];
    print_reply("a number used before", certificate_check_numbered(file, length, numbers, RULES));
    numbers[5] = 0;
    print_reply("a zero", certificate_check_numbered(file, length, numbers, RULES));
    print_reply("a zero and no bytes", certificate_check_numbered(NULL, 0, numbers, RULES));
}

/* A whole check in rounds of `count` steps, with a question after each: a round begins where the one before it got to. */
static void print_run(const uint8_t *file, size_t length, uint64_t count) {
    uint64_t code = 0;
    do {
        char what[64];
        sprintf(what, "%u steps from step %u", (unsigned)count, (unsigned)code);
        code = certificate_round(file, length, code, count);
        print_round(what, code);
        print_answer("meanwhile, state 2 in set 3", certificate_ask(file, length, 3, 2));
    } while (goes_on(code));
    print_reply("so the file is", code);
}

static void print_rounds(const uint8_t *sample, size_t length) {
    static uint8_t changed[LIMIT];
    print_run(sample, length, 3);
    print_run(sample, length, 8);
    memcpy(changed, sample, length);
    changed[114] = 3; /* as above: step 1 is untrue */
    print_run(changed, length, 1);
    print_round("that file from step 3", certificate_round(changed, length, 3, 2048));
    print_round("no steps", certificate_round(sample, length, 0, 0));
    print_round("2,049 steps", certificate_round(sample, length, 0, 2049));
    print_round("2^64 - 1 steps from step 2", certificate_round(sample, length, 2, UINT64_MAX));
    print_round("from step 8 of 8", certificate_round(sample, length, 8, 1));
    print_round("2 steps from step 2^64 - 1", certificate_round(sample, length, UINT64_MAX, 2));
    print_round("no steps of no bytes", certificate_round(NULL, 0, 0, 0));
}

static void print_questions(const uint8_t *sample, size_t length) {
    print_answer("state 2 in set 3", certificate_ask(sample, length, 3, 2));
    print_answer("state 3 in set 3", certificate_ask(sample, length, 3, 3));
    print_answer("state 4 in set 3", certificate_ask(sample, length, 3, 4));
    print_answer("state 0 in set 2^64 - 1", certificate_ask(sample, length, UINT64_MAX, 0));
    print_answer("state 0 in set 0 of a file cut short", certificate_ask(sample, length - 1, 0, 0));
}

int main(int count, char **paths) {
    static uint8_t bytes[LIMIT];
    size_t length;
    int i;
    if (count < 2) {
        fputs("usage: replies SAMPLE FILE..\n", stderr);
        return 2;
    }
    print_names();
    print_reply("no bytes", certificate_check(NULL, 0));
    print_answer("a question about no bytes", certificate_ask(NULL, 0, 0, 0));
    length = read_file(paths[1], bytes);
    print_changes(bytes, length);
    print_orders(bytes, length);
    print_unknown(bytes, length);
    print_off(bytes, length);
    print_small(bytes, length);
    print_numbered(bytes, length);
    print_rounds(bytes, length);
    print_questions(bytes, length);
    for (i = 1; i < count; i++) {
        length = read_file(paths[i], bytes);
        print_reply(paths[i], certificate_check(bytes, length));
    }
    return 0;
}
