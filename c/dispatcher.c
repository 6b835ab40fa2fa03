/* A dispatcher of four lanes. It reads a job on standard input, carries it out through tpal_start
 * and tpal_pick in an order that it draws by lot, and prints what the run program prints for it.
 *
 *     dispatcher SEED [BUDGET] <JOB
 *
 * The seed decides the order; the result is the same for each. The budget is the most picks that
 * are carried out, where none is given 1,000,000, as in the run program.
 *
 * The lanes take turns in one thread. Lanes with threads of their own need a lock around tpal_pick:
 * each pick writes the job's state, and no two calls may write one buffer at once. */

#include "tpal.h"

#include <errno.h>
#include <inttypes.h>
#include <stdio.h>
#include <stdlib.h>

enum { LANES = 4 };

/* A job's input: where its parts are. Registers and words go to the engine as they stand there. */
struct job {
    const uint8_t *image;
    size_t image_len;
    uint64_t places;
    uint64_t interval;
    const uint8_t *registers;
    const uint8_t *words;
    size_t words_len;
};

static uint64_t little_endian(const uint8_t *bytes, size_t len)
{
    uint64_t number = 0;

    while (len-- > 0)
        number = number << 8 | bytes[len];
    return number;
}

/* Collects the slots that have a running task. Answers how many there are. */
static size_t running_slots(const uint8_t *state, size_t slots[TPAL_SLOT_COUNT])
{
    size_t count = 0;
    size_t slot;

    for (slot = 0; slot < TPAL_SLOT_COUNT; slot++)
        if (tpal_slot_number(state, slot, TPAL_SLOT_STATUS) == TPAL_STATUS_RUNNING)
            slots[count++] = slot;
    return count;
}

/* Finds the job's parts. Question 10: does the input end exactly after its last word? */
static uint8_t divide_input(const uint8_t *input, size_t len, struct job *job)
{
    size_t image_len;

    if (len < TPAL_JOB_IMAGE_AT)
        return TPAL_REFUSED_INPUT;
    image_len = little_endian(input, 2);
    if (len < TPAL_JOB_BYTES(image_len, 0))
        return TPAL_REFUSED_INPUT;
    job->image = input + TPAL_JOB_IMAGE_AT;
    job->image_len = image_len;
    job->places = little_endian(input + TPAL_JOB_PLACES_AT(image_len), 1);
    job->interval = little_endian(input + TPAL_JOB_INTERVAL_AT(image_len), 2);
    job->registers = input + TPAL_JOB_REGISTERS_AT(image_len);
    job->words = input + TPAL_JOB_WORDS_AT(image_len);
    job->words_len = 8 * little_endian(input + TPAL_JOB_WORD_COUNT_AT(image_len), 2);
    if (len != TPAL_JOB_WORDS_AT(image_len) + job->words_len)
        return TPAL_REFUSED_INPUT;
    return TPAL_ACCEPTED;
}

/* The next number of a sequence that the seed decides (splitmix64). */
static uint64_t draw(uint64_t *seed)
{
    uint64_t z = *seed += UINT64_C(0x9e3779b97f4a7c15);

    z = (z ^ z >> 30) * UINT64_C(0xbf58476d1ce4e5b9);
    z = (z ^ z >> 27) * UINT64_C(0x94d049bb133111eb);
    return z ^ z >> 31;
}

/* One turn of a job that has not ended, and so has a running task. Every lane draws one of the
 * slots that are running when the turn begins, and picks it. Two lanes may draw the same: then the
 * second issues the task's next instruction, or is refused, since the first has ended the task (23)
 * or the job (22), and is idle this turn. No other refusal comes up: the buffers have their lengths,
 * the state is the one that the engine left, the slots are below P, and the budget keeps the work
 * below its limit. Answers 0, or such a refusal's number all the same. */
static uint8_t take_turn(const uint8_t *program, const struct job *job, uint8_t *state,
                         uint64_t budget, uint64_t *seed)
{
    size_t slots[TPAL_SLOT_COUNT];
    size_t count = running_slots(state, slots);
    int lane;

    for (lane = 0; lane < LANES && tpal_number(state, TPAL_STATE_WORK) < budget; lane++) {
        size_t slot = slots[draw(seed) % count];
        uint8_t answer = tpal_pick(program, TPAL_PROGRAM_BYTES, job->words, job->words_len, slot,
                                   state, TPAL_STATE_BYTES);

        if (answer != TPAL_ACCEPTED && answer != TPAL_REFUSED_NOT_RUNNING
            && answer != TPAL_REFUSED_ENDED)
            return answer;
    }
    return TPAL_ACCEPTED;
}

static void print_register(const uint8_t *state, size_t index)
{
    size_t at = TPAL_SLOT_REGISTER(index);
    uint64_t value = tpal_slot_number(state, 0, at + TPAL_REGISTER_VALUE);
    uint64_t depth = tpal_slot_number(state, 0, at + TPAL_REGISTER_DEPTH);

    switch (tpal_slot_number(state, 0, at + TPAL_REGISTER_KIND)) {
    case TPAL_KIND_INTEGER:
        printf("r%zu int %" PRId64 "\n", index, (int64_t)value);
        break;
    case TPAL_KIND_LABEL:
        printf("r%zu lab %" PRIu64 "\n", index, value);
        break;
    case TPAL_KIND_RECORD:
        printf("r%zu rec %" PRIu64 " %" PRIu64 "\n", index, value, depth);
        break;
    }
}

static void print_result(const uint8_t *state)
{
    size_t i;

    if (!tpal_state_ended(state)) {
        printf("end spent\nwork %" PRIu64 "\n", tpal_number(state, TPAL_STATE_WORK));
        return;
    }
    if (tpal_slot_number(state, 0, TPAL_SLOT_STATUS) == TPAL_STATUS_HALTED)
        printf("end halt\n");
    else
        printf("end fault %" PRIu64 "\n", tpal_slot_number(state, 0, TPAL_SLOT_FAULT));
    printf("work %" PRIu64 "\n", tpal_number(state, TPAL_STATE_WORK));
    printf("span %" PRIu64 "\n", tpal_slot_number(state, 0, TPAL_SLOT_SPAN));
    for (i = 0; i < TPAL_REGISTER_COUNT; i++)
        print_register(state, i);
}

/* The questions come in the run program's order: 10; the image's, 1 to 9; then 11, 12 and 14. Of
 * start's others those about the program are answered, and the buffers have the right lengths. */
static uint8_t start_job(const uint8_t *input, size_t len, struct job *job, uint8_t *program,
                         uint8_t *state)
{
    uint8_t refusal = divide_input(input, len, job);

    if (refusal == TPAL_ACCEPTED)
        refusal = tpal_program_read(job->image, job->image_len, program, TPAL_PROGRAM_BYTES);
    if (refusal == TPAL_ACCEPTED)
        refusal = tpal_start(program, TPAL_PROGRAM_BYTES, job->places, job->interval,
                             job->registers, TPAL_REGISTERS_BYTES, job->words, job->words_len,
                             state, TPAL_STATE_BYTES);
    return refusal;
}

/* A decimal number, whole. */
static int read_number(const char *text, uint64_t *number)
{
    char *end;

    errno = 0;
    *number = strtoull(text, &end, 10);
    return errno == 0 && end != text && *end == '\0' && text[0] != '-';
}

int main(int argc, char **argv)
{
    static uint8_t input[TPAL_MAX_INPUT_BYTES + 1]; /* a longer input is refused as well */
    static uint8_t program[TPAL_PROGRAM_BYTES];
    static uint8_t state[TPAL_STATE_BYTES];
    struct job job;
    uint64_t seed;
    uint64_t budget = TPAL_RUN_BUDGET;
    uint8_t answer;
    size_t len;

    if (argc < 2 || argc > 3 || !read_number(argv[1], &seed)
        || (argc == 3 && !read_number(argv[2], &budget))) {
        fprintf(stderr, "usage: dispatcher SEED [BUDGET] <JOB\n");
        return 2;
    }
    if (budget > TPAL_MAX_WORK)
        budget = TPAL_MAX_WORK;
    len = fread(input, 1, sizeof input, stdin);
    if (ferror(stdin)) {
        fprintf(stderr, "dispatcher: standard input could not be read\n");
        return 1;
    }

    answer = start_job(input, len, &job, program, state);
    if (answer != TPAL_ACCEPTED) {
        printf("refused %u\n", answer);
        return 0;
    }
    while (!tpal_state_ended(state) && tpal_number(state, TPAL_STATE_WORK) < budget) {
        answer = take_turn(program, &job, state, budget, &seed);
        if (answer != TPAL_ACCEPTED) {
            fprintf(stderr, "dispatcher: a pick was refused with %u: %s\n", answer,
                    tpal_refusal_message(answer));
            return 1;
        }
    }
    print_result(state);
    return 0;
}
