/* Runs with budgets, to a report and to a text, and in rounds on lanes: F's job, refused ones, and
 * lengths of buffers. */

#include "testing.h"

#include <inttypes.h>
#include <stdio.h>
#include <string.h>

/* Registers with integers 0 have only zeros. */
static const uint64_t f_report[TPAL_REPORT_NUMBERS] = {
    [TPAL_REPORT_END] = TPAL_END_HALT,
    [TPAL_REPORT_PICKS] = 9,
    [TPAL_REPORT_WORK] = 9,
    [TPAL_REPORT_SPAN] = 7,
    [TPAL_REPORT_REGISTER(0) + TPAL_REGISTER_VALUE] = 12,
    [TPAL_REPORT_REGISTER(1) + TPAL_REGISTER_KIND] = TPAL_KIND_RECORD,
    [TPAL_REPORT_REGISTER(1) + TPAL_REGISTER_VALUE] = 2,
    [TPAL_REPORT_REGISTER(2) + TPAL_REGISTER_VALUE] = 7
};
static const uint64_t f_fault_report[TPAL_REPORT_NUMBERS] = {
    [TPAL_REPORT_END] = TPAL_END_FAULT,
    [TPAL_REPORT_FAULT] = TPAL_FAULT_PLACES,
    [TPAL_REPORT_PICKS] = 2,
    [TPAL_REPORT_WORK] = 2,
    [TPAL_REPORT_SPAN] = 2
};

#define ZEROS_FROM_R3 \
    "r3 int 0\nr4 int 0\nr5 int 0\nr6 int 0\nr7 int 0\nr8 int 0\nr9 int 0\nr10 int 0\n" \
    "r11 int 0\nr12 int 0\nr13 int 0\nr14 int 0\nr15 int 0\n"

static const char f_text[] =
    "end halt\nwork 9\nspan 7\nr0 int 12\nr1 rec 2 0\nr2 int 7\n" ZEROS_FROM_R3;
static const char f_fault_text[] =
    "end fault 37\nwork 2\nspan 2\nr0 int 0\nr1 int 0\nr2 int 0\n" ZEROS_FROM_R3;

/* `numbers` is what an accepted call reports. */
static void try_report(const char *name, const uint8_t *job, size_t job_len, uint64_t budget,
                       size_t report_len, unsigned expected, const uint64_t *numbers)
{
    uint8_t report[2 * TPAL_REPORT_BYTES];
    uint8_t untouched[sizeof report];
    size_t written = expected == TPAL_ACCEPTED ? TPAL_REPORT_BYTES : 0;
    char line[160];
    unsigned answer;
    size_t index;
    int right;

    memset(report, FILL, sizeof report);
    memset(untouched, FILL, sizeof untouched);
    answer = tpal_job_run(job, job_len, budget, report, report_len);
    right = memcmp(report + written, untouched, sizeof report - written) == 0;
    for (index = 0; index < written / 8; index++)
        right = right && tpal_number(report, index) == numbers[index];
    snprintf(line, sizeof line, "run %s into %zu bytes%s", name, report_len,
             right ? "" : " (wrong bytes in report)");
    expect(line, answer == expected && right, expected, answer);
}

/* An empty text where the buffer has another length. */
static void try_text(const char *name, const uint8_t *job, size_t job_len, uint64_t budget,
                     size_t text_len, const char *expected)
{
    uint8_t text[2 * TPAL_TEXT_BYTES];
    uint8_t untouched[sizeof text];
    size_t length = strlen(expected);
    char line[160];
    uint64_t answer;
    int right;

    memset(text, FILL, sizeof text);
    memset(untouched, FILL, sizeof untouched);
    answer = tpal_job_text(job, job_len, budget, text, text_len);
    right = memcmp(text, expected, length) == 0
        && memcmp(text + length, untouched, sizeof text - length) == 0;
    snprintf(line, sizeof line, "text of %s in %zu bytes%s", name, text_len,
             right ? "" : " (wrong bytes in text)");
    expect(line, answer == length && right, (unsigned)length, (unsigned)answer);
}

/* `numbers` is what an accepted call reports before the rounds. */
static void try_dispatch(const char *name, const uint8_t *job, size_t job_len, uint64_t lanes,
                         uint64_t budget, size_t report_len, unsigned expected,
                         const uint64_t *numbers, uint64_t rounds)
{
    uint8_t report[2 * TPAL_ROUNDS_REPORT_BYTES];
    uint8_t untouched[sizeof report];
    size_t written = expected == TPAL_ACCEPTED ? TPAL_ROUNDS_REPORT_BYTES : 0;
    char line[160];
    unsigned answer;
    size_t index;
    int right;

    memset(report, FILL, sizeof report);
    memset(untouched, FILL, sizeof untouched);
    answer = tpal_job_dispatch(job, job_len, lanes, budget, report, report_len);
    right = memcmp(report + written, untouched, sizeof report - written) == 0;
    for (index = 0; index < written / 8; index++)
        right = right
            && tpal_number(report, index)
                == (index == TPAL_REPORT_ROUNDS ? rounds : numbers[index]);
    snprintf(line, sizeof line, "dispatch %s, lanes %" PRIu64 ", rounds %" PRIu64
             ", into %zu bytes%s", name, lanes, budget, report_len,
             right ? "" : " (wrong bytes in report)");
    expect(line, answer == expected && right, expected, answer);
}

static void try_accepted(const char *name, const uint8_t *job, uint64_t budget,
                         const uint64_t *numbers, const char *text)
{
    try_report(name, job, JOB_LEN, budget, TPAL_REPORT_BYTES, TPAL_ACCEPTED, numbers);
    try_text(name, job, JOB_LEN, budget, TPAL_TEXT_BYTES, text);
}

static void try_refused(const char *name, const uint8_t *job, size_t job_len, unsigned number)
{
    char text[16];

    snprintf(text, sizeof text, "refused %u\n", number);
    try_report(name, job, job_len, TPAL_RUN_BUDGET, TPAL_REPORT_BYTES, number, NULL);
    try_report(name, job, job_len, 0, 0, number, NULL);
    try_text(name, job, job_len, TPAL_RUN_BUDGET, TPAL_TEXT_BYTES, text);
    try_text(name, job, job_len, 0, TPAL_TEXT_BYTES, text);
    try_dispatch(name, job, job_len, 2, TPAL_RUN_BUDGET, TPAL_ROUNDS_REPORT_BYTES, number, NULL, 0);
    try_dispatch(name, job, job_len, TPAL_MAX_LANES + 1, 0, 0, number, NULL, 0);
}

static void try_budgets(uint8_t *job)
{
    uint64_t spent[TPAL_REPORT_NUMBERS] = {[TPAL_REPORT_END] = TPAL_END_SPENT};
    char name[32];
    char text[32];
    unsigned budget;

    for (budget = 0; budget < 9; budget++) {
        spent[TPAL_REPORT_PICKS] = spent[TPAL_REPORT_WORK] = budget;
        snprintf(name, sizeof name, "F with budget %u", budget);
        snprintf(text, sizeof text, "end spent\nwork %u\n", budget);
        try_accepted(name, job, budget, spent, text);
    }
    try_accepted("F with budget 9", job, 9, f_report, f_text);
    try_accepted("F with budget 10", job, 10, f_report, f_text);
    try_accepted("F", job, TPAL_RUN_BUDGET, f_report, f_text);
    try_accepted("F with the largest budget", job, UINT64_MAX, f_report, f_text);
    job[PLACES_AT] = 1;
    try_accepted("F with P 1", job, TPAL_RUN_BUDGET, f_fault_report, f_fault_text);
}

/* A job that ends after `rounds`, of which `work` has what was carried out before each. */
static void try_rounds(const char *name, const uint8_t *job, uint64_t lanes, const uint64_t *ended,
                       const uint64_t *work, uint64_t rounds)
{
    uint64_t spent[TPAL_REPORT_NUMBERS] = {[TPAL_REPORT_END] = TPAL_END_SPENT};
    const uint64_t enough[] = {rounds, rounds + 1, TPAL_RUN_BUDGET, UINT64_MAX};
    uint64_t budget;
    size_t i;

    for (budget = 0; budget < rounds; budget++) {
        spent[TPAL_REPORT_PICKS] = spent[TPAL_REPORT_WORK] = work[budget];
        try_dispatch(name, job, JOB_LEN, lanes, budget, TPAL_ROUNDS_REPORT_BYTES, TPAL_ACCEPTED,
                     spent, budget);
    }
    for (i = 0; i < sizeof enough / sizeof *enough; i++)
        try_dispatch(name, job, JOB_LEN, lanes, enough[i], TPAL_ROUNDS_REPORT_BYTES, TPAL_ACCEPTED,
                     ended, rounds);
}

/* F has two tasks at once in its third and fourth round, where there are lanes for both; more lanes
 * than two change nothing. */
static void try_lanes(uint8_t *job)
{
    static const uint64_t on_one[] = {0, 1, 2, 3, 4, 5, 6, 7, 8};
    static const uint64_t on_two[] = {0, 1, 2, 4, 6, 7, 8};
    static const uint64_t others[] = {
        0, TPAL_MAX_LANES + 1, 255, 256 + 2, (UINT64_C(1) << 32) + 2, UINT64_MAX
    };
    static const size_t lengths[] = {
        0, TPAL_REPORT_BYTES, TPAL_ROUNDS_REPORT_BYTES - 1, TPAL_ROUNDS_REPORT_BYTES + 1,
        TPAL_ROUNDS_REPORT_BYTES + 8, 2 * TPAL_ROUNDS_REPORT_BYTES
    };
    uint64_t lanes;
    size_t i;

    try_rounds("F", job, 1, f_report, on_one, 9);
    for (lanes = 2; lanes <= TPAL_MAX_LANES; lanes++)
        try_rounds("F", job, lanes, f_report, on_two, 7);
    for (i = 0; i < sizeof others / sizeof *others; i++) {
        try_dispatch("F", job, JOB_LEN, others[i], TPAL_RUN_BUDGET, TPAL_ROUNDS_REPORT_BYTES,
                     TPAL_REFUSED_LANES, NULL, 0);
        try_dispatch("F", job, JOB_LEN, others[i], 0, TPAL_ROUNDS_REPORT_BYTES, TPAL_REFUSED_LANES,
                     NULL, 0);
    }
    for (i = 0; i < sizeof lengths / sizeof *lengths; i++) {
        try_dispatch("F", job, JOB_LEN, 2, TPAL_RUN_BUDGET, lengths[i], TPAL_REFUSED_BUFFER, NULL, 0);
        try_dispatch("F", job, JOB_LEN, TPAL_MAX_LANES + 1, TPAL_RUN_BUDGET, lengths[i],
                     TPAL_REFUSED_BUFFER, NULL, 0);
    }
    job[PLACES_AT] = 1;
    try_rounds("F with P 1", job, 1, f_fault_report, on_one, 2);
    try_rounds("F with P 1", job, 2, f_fault_report, on_one, 2);
}

/* F's job with one byte changed. */
static void try_damaged(const char *name, size_t at, uint8_t byte, unsigned number)
{
    uint8_t job[JOB_LEN];

    make_job(job);
    job[at] = byte;
    try_refused(name, job, JOB_LEN, number);
}

static void try_refusals(void)
{
    enum { MANY = TPAL_MAX_WORDS + 1, LONGEST = 65535 };
    static uint8_t longest[TPAL_MAX_INPUT_BYTES + 1];
    static uint8_t many_words[TPAL_JOB_BYTES(F_LEN, MANY)];
    uint8_t short_image[TPAL_JOB_BYTES(7, 0)] = {7};
    uint8_t job[JOB_LEN + 1] = {0};

    try_refused("a job with an image of 7 bytes", short_image, sizeof short_image,
                TPAL_REFUSED_HEADER);
    try_damaged("F with mark TPC", IMAGE_AT + 2, 'C', TPAL_REFUSED_MARK);
    try_damaged("F with version 0", IMAGE_AT + 3, 0, TPAL_REFUSED_VERSION);
    try_damaged("F with version 3", IMAGE_AT + 3, 3, TPAL_REFUSED_VERSION);
    try_damaged("F with 0 blocks", IMAGE_AT + 5, 0, TPAL_REFUSED_COUNTS);
    try_damaged("F with 3 blocks", IMAGE_AT + 5, 3, TPAL_REFUSED_LENGTH);
    try_damaged("F with block 0 at 1", IMAGE_AT + 8, 1, TPAL_REFUSED_BLOCK_START);
    try_damaged("F with annotation 3", IMAGE_AT + 30, 3, TPAL_REFUSED_ANNOTATION);
    try_damaged("F with opcode 0", IMAGE_AT + 48, 0, TPAL_REFUSED_FIELDS);
    try_damaged("F with block 1 at 3", IMAGE_AT + 18, 3, TPAL_REFUSED_LAST_IN_BLOCK);
    try_damaged("F with P 3", PLACES_AT, 3, TPAL_REFUSED_PLACES);
    try_damaged("F with interval 7", INTERVAL_AT, 7, TPAL_REFUSED_INTERVAL);
    make_job(many_words);
    many_words[WORD_COUNT_AT] = MANY % 256;
    many_words[WORD_COUNT_AT + 1] = MANY / 256;
    try_refused("F with 4,097 words", many_words, sizeof many_words, TPAL_REFUSED_WORDS);

    make_job(job);
    try_refused("no bytes", job, 0, TPAL_REFUSED_INPUT);
    try_refused("F less a byte", job, JOB_LEN - 1, TPAL_REFUSED_INPUT);
    try_refused("F and a byte", job, JOB_LEN + 1, TPAL_REFUSED_INPUT);
    memset(longest, 0xff, 2);
    memset(longest + TPAL_JOB_WORD_COUNT_AT(LONGEST), 0xff, 2);
    try_refused("the longest job", longest, TPAL_MAX_INPUT_BYTES, TPAL_REFUSED_MARK);
    try_refused("the longest job and a byte", longest, TPAL_MAX_INPUT_BYTES + 1,
                TPAL_REFUSED_INPUT);
}

void try_runs(void)
{
    static const size_t off_by[] = {1, 8, TPAL_REPORT_BYTES};
    uint8_t job[JOB_LEN];
    size_t i;

    make_job(job);
    for (i = 0; i < sizeof off_by / sizeof *off_by; i++) {
        try_report("F", job, JOB_LEN, TPAL_RUN_BUDGET, TPAL_REPORT_BYTES - off_by[i],
                   TPAL_REFUSED_BUFFER, NULL);
        try_report("F", job, JOB_LEN, TPAL_RUN_BUDGET, TPAL_REPORT_BYTES + off_by[i],
                   TPAL_REFUSED_BUFFER, NULL);
        try_text("F", job, JOB_LEN, TPAL_RUN_BUDGET, TPAL_TEXT_BYTES - off_by[i], "");
        try_text("F", job, JOB_LEN, TPAL_RUN_BUDGET, TPAL_TEXT_BYTES + off_by[i], "");
    }
    try_text("F", job, JOB_LEN, TPAL_RUN_BUDGET, 0, "");
    try_text("F less a byte", job, JOB_LEN - 1, TPAL_RUN_BUDGET, 0, "");
    try_budgets(job);
    make_job(job);
    try_lanes(job);
    try_refusals();
}
