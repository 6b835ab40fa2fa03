/* The header itself: how its numbers fit together, and its helpers. */

#include "testing.h"

#include <stdio.h>
#include <string.h>

#define QUOTED(x) #x
#define QUOTE(x) QUOTED(x)

/* Each layout ends where its buffer does, and each limit is the sum of its parts. */
_Static_assert(8 * TPAL_PROGRAM_CELLS == TPAL_PROGRAM_BYTES, "program");
_Static_assert(TPAL_PROGRAM_BLOCK(TPAL_MAX_BLOCKS) == TPAL_PROGRAM_INSTRUCTION(0), "blocks");
_Static_assert(TPAL_PROGRAM_INSTRUCTION(TPAL_MAX_INSTRUCTIONS) == TPAL_PROGRAM_CELLS, "cells");
_Static_assert(8 * TPAL_STATE_NUMBERS == TPAL_STATE_BYTES, "state");
_Static_assert(TPAL_STATE_SLOT(TPAL_SLOT_COUNT) == TPAL_STATE_NUMBERS, "slots");
_Static_assert(TPAL_SLOT_FORK(TPAL_MAX_FORKS) == TPAL_SLOT_REGISTER(0), "forks");
_Static_assert(TPAL_SLOT_REGISTER(TPAL_REGISTER_COUNT) == TPAL_SLOT_HEIGHT, "slot's registers");
_Static_assert(TPAL_SLOT_HEIGHT + 1 == TPAL_SLOT_STACK(0), "height");
_Static_assert(TPAL_SLOT_STACK(TPAL_STACK_COUNT) == TPAL_SLOT_NUMBERS, "slot");
_Static_assert(8 * TPAL_REPORT_NUMBERS == TPAL_REPORT_BYTES, "report");
_Static_assert(TPAL_REPORT_REGISTER(TPAL_REGISTER_COUNT) == TPAL_REPORT_NUMBERS, "registers");
_Static_assert(8 * TPAL_ROUNDS_REPORT_NUMBERS == TPAL_ROUNDS_REPORT_BYTES, "report with rounds");
_Static_assert(TPAL_REPORT_ROUNDS == TPAL_REPORT_NUMBERS, "rounds after a report's numbers");
_Static_assert(TPAL_REPORT_ROUNDS + 1 == TPAL_ROUNDS_REPORT_NUMBERS, "rounds last");
_Static_assert(8 * TPAL_REGISTER_COUNT == TPAL_REGISTERS_BYTES, "registers' bytes");
_Static_assert(TPAL_IMAGE_BYTES(TPAL_IMAGE_VERSION_2, TPAL_MAX_BLOCKS, TPAL_MAX_INSTRUCTIONS)
                   == TPAL_MAX_IMAGE_BYTES,
               "image");
_Static_assert(TPAL_BLOCK_BYTES(TPAL_IMAGE_VERSION_2) == 6 + TPAL_MAX_PAIRS, "block record");
_Static_assert(TPAL_JOB_BYTES(TPAL_MAX_IMAGE_BYTES, TPAL_MAX_WORDS) == TPAL_MAX_JOB_BYTES, "job");
_Static_assert(TPAL_JOB_BYTES(65535, 65535) == TPAL_MAX_INPUT_BYTES, "input");
_Static_assert(TPAL_JOB_REGISTERS_AT(0) + TPAL_REGISTERS_BYTES == TPAL_JOB_WORD_COUNT_AT(0),
               "job's registers");

static void try_version(void)
{
    const char *numbers = QUOTE(TPAL_VERSION_MAJOR) "." QUOTE(TPAL_VERSION_MINOR) "."
        QUOTE(TPAL_VERSION_PATCH);
    int equal = strcmp(numbers, TPAL_VERSION_STRING) == 0;

    expect("version " TPAL_VERSION_STRING, equal, 1, (unsigned)equal);
}

static void try_numbers(void)
{
    static const uint64_t numbers[] = {0, 1, 255, 256, UINT64_C(0x0123456789abcdef), UINT64_MAX};
    uint8_t bytes[24];
    size_t i;

    for (i = 0; i < sizeof numbers / sizeof *numbers; i++) {
        int right;

        memset(bytes, FILL, sizeof bytes);
        tpal_put_number(bytes, 1, numbers[i]);
        right = tpal_number(bytes, 1) == numbers[i] && bytes[8] == (uint8_t)numbers[i]
            && bytes[15] == numbers[i] >> 56 && bytes[7] == FILL && bytes[16] == FILL;
        expect("a number put and read", right, 1, (unsigned)right);
    }
}

static void try_ended(const char *name, const uint8_t *state, int expected)
{
    int ended = tpal_state_ended(state);
    char line[64];

    snprintf(line, sizeof line, "whether it has ended: %s", name);
    expect(line, ended == expected, (unsigned)expected, (unsigned)ended);
}

/* F, started and run to its end, and with one place to its fault. */
static void try_state(void)
{
    static uint8_t state[TPAL_STATE_BYTES];
    static const uint8_t order[] = {0, 0, 0, 0, 1, 1, 0, 0, 0};
    uint8_t job[JOB_LEN];
    uint64_t r2;
    size_t picks;

    make_job(job);
    for (picks = 0; picks <= sizeof order; picks++) {
        tpal_replay(job, sizeof job, order, picks, state, sizeof state);
        try_ended("F after some picks", state, picks == sizeof order);
    }
    r2 = tpal_slot_number(state, 0, TPAL_SLOT_REGISTER(2) + TPAL_REGISTER_VALUE);
    expect("r2", r2 == 7, 7, (unsigned)r2);
    job[PLACES_AT] = 1;
    tpal_replay(job, sizeof job, order, sizeof order, state, sizeof state);
    try_ended("F with a fault", state, 1);
    tpal_put_number(state, TPAL_STATE_SLOT(0) + TPAL_SLOT_DEPTH, 1);
    try_ended("a side with a fault", state, 0);
}

/* A job made of these parts, in room of this length. */
static void try_make(const char *name, const struct tpal_job_parts *parts, size_t room,
                     unsigned expected, const uint8_t *job, size_t job_len)
{
    static uint8_t made[TPAL_MAX_JOB_BYTES + 1];
    static uint8_t untouched[sizeof made];
    size_t made_len = FILL;
    size_t written = expected == TPAL_ACCEPTED ? job_len : 0;
    char line[128];
    unsigned answer;
    int right;

    memset(made, FILL, sizeof made);
    memset(untouched, FILL, sizeof untouched);
    answer = tpal_job_make(parts, made, room, &made_len);
    right = made_len == (expected == TPAL_ACCEPTED ? job_len : FILL)
        && memcmp(made, job, written) == 0
        && memcmp(made + written, untouched, sizeof made - written) == 0;
    snprintf(line, sizeof line, "make %s in %zu bytes%s", name, room,
             right ? "" : " (wrong bytes)");
    expect(line, answer == expected && right, expected, answer);
}

static void try_jobs(void)
{
    static const uint8_t image[TPAL_MAX_IMAGE_BYTES + 1];
    static const int64_t zeros[TPAL_MAX_WORDS + 1];
    static const int64_t words[] = {-1, 2};
    static uint8_t largest[TPAL_MAX_JOB_BYTES];
    const int64_t four[] = {4};
    const struct tpal_job_parts none = {0};
    uint8_t f[F_LEN];
    uint8_t job[TPAL_JOB_BYTES(F_LEN, 2)] = {0};
    struct tpal_job_parts parts = {f, F_LEN, 2, 0, four, 1, NULL, 0};

    make_f(f);
    make_job(job);
    try_make("F", &parts, JOB_LEN, TPAL_ACCEPTED, job, JOB_LEN);
    try_make("F", &parts, JOB_LEN + 1, TPAL_ACCEPTED, job, JOB_LEN);
    try_make("F", &parts, JOB_LEN - 1, TPAL_REFUSED_BUFFER, job, 0);
    try_make("F", &parts, 0, TPAL_REFUSED_BUFFER, job, 0);
    parts.words = words;
    parts.word_count = 2;
    parts.interval = 0x0102;
    job[INTERVAL_AT] = 2;
    job[INTERVAL_AT + 1] = 1;
    job[WORD_COUNT_AT] = 2;
    memset(job + JOB_LEN, 0xff, 8);
    job[JOB_LEN + 8] = 2;
    try_make("F with two words", &parts, sizeof job, TPAL_ACCEPTED, job, sizeof job);
    try_make("F with two words", &parts, sizeof job - 1, TPAL_REFUSED_BUFFER, job, 0);
    try_make("nothing", &none, TPAL_JOB_BYTES(0, 0), TPAL_ACCEPTED, largest, TPAL_JOB_BYTES(0, 0));

    parts.words = zeros;
    parts.word_count = TPAL_MAX_WORDS;
    parts.image = image;
    parts.image_len = TPAL_MAX_IMAGE_BYTES;
    parts.places = TPAL_MAX_PLACES;
    parts.interval = TPAL_MAX_INTERVAL;
    parts.registers = zeros;
    parts.register_count = TPAL_REGISTER_COUNT;
    largest[0] = TPAL_MAX_IMAGE_BYTES & 0xff;
    largest[1] = TPAL_MAX_IMAGE_BYTES >> 8;
    largest[TPAL_JOB_PLACES_AT(TPAL_MAX_IMAGE_BYTES)] = TPAL_MAX_PLACES;
    memset(largest + TPAL_JOB_INTERVAL_AT(TPAL_MAX_IMAGE_BYTES), 0xff, 2);
    largest[TPAL_JOB_WORD_COUNT_AT(TPAL_MAX_IMAGE_BYTES) + 1] = TPAL_MAX_WORDS >> 8;
    try_make("the largest job", &parts, sizeof largest, TPAL_ACCEPTED, largest, sizeof largest);
    try_make("the largest job", &parts, sizeof largest - 1, TPAL_REFUSED_BUFFER, largest, 0);
    parts.word_count++;
    try_make("a word more", &parts, sizeof largest, TPAL_REFUSED_WORDS, largest, 0);
    parts.word_count = SIZE_MAX;
    try_make("2^64 - 1 words", &parts, sizeof largest, TPAL_REFUSED_WORDS, largest, 0);
    parts.register_count++;
    try_make("and a register more", &parts, sizeof largest, TPAL_REFUSED_REGISTERS, largest, 0);
    parts.interval++;
    try_make("and a longer interval", &parts, sizeof largest, TPAL_REFUSED_INTERVAL, largest, 0);
    parts.places++;
    try_make("and more places", &parts, sizeof largest, TPAL_REFUSED_PLACES, largest, 0);
    parts.image_len++;
    try_make("and a longer image", &parts, sizeof largest, TPAL_REFUSED_LENGTH, largest, 0);
    parts.image_len = SIZE_MAX;
    try_make("and the longest image", &parts, sizeof largest, TPAL_REFUSED_LENGTH, largest, 0);
}

struct numbers {
    unsigned first;
    unsigned last;
};

static int among(unsigned number, const struct numbers *ranges, size_t count)
{
    size_t i;

    for (i = 0; i < count; i++)
        if (number >= ranges[i].first && number <= ranges[i].last)
            return 1;
    return 0;
}

/* Each number that has a name has words of its own, and no other number has any. */
static void try_messages(const char *name, const char *(*message)(unsigned),
                         const struct numbers *ranges, size_t count)
{
    const char *none = message(255);
    unsigned number;
    unsigned other;

    for (number = 0; number < 256; number++) {
        int named = among(number, ranges, count);
        int right = (strcmp(message(number), none) != 0) == named;

        for (other = 0; named && other < number; other++)
            right = right && strcmp(message(number), message(other)) != 0;
        if (named || !right)
            expect(name, right, number, number);
    }
}

void try_helpers(void)
{
    static const struct numbers refusals[] = {
        {TPAL_ACCEPTED, TPAL_REFUSED_BUFFER},
        {TPAL_REFUSED_SHAPE, TPAL_REFUSED_WORK},
        {TPAL_REFUSED_LANES, TPAL_REFUSED_LANES}
    };
    static const struct numbers faults[] = {
        {TPAL_FAULT_INTEGERS, TPAL_FAULT_OPEN_FORK},
        {TPAL_FAULT_STACK_FULL, TPAL_FAULT_STACK_EMPTY}
    };

    try_version();
    try_numbers();
    try_state();
    try_jobs();
    try_messages("words for a refusal", tpal_refusal_message, refusals,
                 sizeof refusals / sizeof *refusals);
    try_messages("words for a fault", tpal_fault_message, faults, sizeof faults / sizeof *faults);
}
