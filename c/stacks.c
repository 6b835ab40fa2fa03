/* Programs of version 2: a call and its return, stacks that are full or empty, stacks across a fork,
 * eight pairs, and versions that there are not. */

#include "testing.h"

#include <stdio.h>
#include <string.h>

enum { ADD = 2, JRALLOC = 11, FORK = 12, JUMP = 13, HALT = 14, JOIN = 15, PUSH = 16, POP = 17 };

#define REG TPAL_OPERAND_REGISTER
#define LAB TPAL_OPERAND_LABEL
#define INT TPAL_OPERAND_INTEGER

/* Instructions with the cells that they have, and where blocks begin. */
typedef uint8_t instruction[TPAL_INSTRUCTION_CELLS];

/* A subroutine, block 2, that adds 5 to r0 and is called from blocks 0 and 1. */
static const uint8_t call_blocks[] = {0, 2, 4, 7};
static const instruction calls[] = {
    {PUSH, 0, 0, LAB, 1}, {JUMP, 0, 0, LAB, 2},
    {PUSH, 0, 0, LAB, 3}, {JUMP, 0, 0, LAB, 2},
    {ADD, 0, 0, INT, 5}, {POP, 1}, {JUMP, 0, 0, REG, 1},
    {HALT}
};

/* A task that pushes for ever, and one that pops at once. */
static const uint8_t one_block[] = {0};
static const instruction pushes[] = {{PUSH, 0, 0, INT, 7}, {JUMP, 0, 0, LAB, 0}};
static const instruction pops[] = {{POP, 3}, {HALT}};

/* The task pushes 10 and forks; the parent pushes 20, the child 7, and the joined task pops r3 and
 * r4. Block 2 is the join target, block 3 combines. */
static const uint8_t fork_blocks[] = {0, 5, 7, 8};
static const instruction forks[] = {
    {JRALLOC, 1, 0, LAB, 2}, {PUSH, 0, 0, INT, 10}, {FORK, 0, 1, LAB, 1}, {PUSH, 0, 0, INT, 20},
    {JOIN, 0, 0, REG, 1},
    {PUSH, 0, 0, INT, 7}, {JOIN, 0, 0, REG, 1},
    {HALT},
    {POP, 3}, {POP, 4}, {JOIN, 0, 0, REG, 1}
};

/* The program and the state at hand. */
static uint8_t program[TPAL_PROGRAM_BYTES];
static uint8_t state[TPAL_STATE_BYTES];

static void make_second(const uint8_t *firsts, size_t block_count, const instruction *code,
                        size_t count)
{
    size_t i;
    size_t cell;

    memset(program, 0, sizeof program);
    tpal_put_number(program, TPAL_PROGRAM_VERSION, TPAL_IMAGE_VERSION_2);
    tpal_put_number(program, TPAL_PROGRAM_BLOCK_COUNT, block_count);
    tpal_put_number(program, TPAL_PROGRAM_INSTRUCTION_COUNT, count);
    for (i = 0; i < block_count; i++)
        tpal_put_number(program, TPAL_PROGRAM_BLOCK(i) + TPAL_BLOCK_FIRST, firsts[i]);
    for (i = 0; i < count; i++)
        for (cell = 0; cell < TPAL_INSTRUCTION_CELLS; cell++)
            tpal_put_number(program, TPAL_PROGRAM_INSTRUCTION(i) + cell, code[i][cell]);
}

#define MAKE(firsts, code) \
    make_second(firsts, sizeof firsts, code, sizeof code / sizeof *code)

static void make_forks(void)
{
    size_t target = TPAL_PROGRAM_BLOCK(2);

    MAKE(fork_blocks, forks);
    tpal_put_number(program, target + TPAL_BLOCK_ANNOTATION, TPAL_ANNOTATION_JOIN_TARGET);
    tpal_put_number(program, target + TPAL_BLOCK_LABEL, 3);
}

static void start(const char *name, uint64_t places)
{
    static const uint8_t registers[TPAL_REGISTERS_BYTES];
    unsigned answer = tpal_start(program, sizeof program, places, 0, registers, sizeof registers,
                                 registers, 0, state, sizeof state);

    expect(name, answer == TPAL_ACCEPTED, TPAL_ACCEPTED, answer);
}

static unsigned pick_answer(uint64_t slot)
{
    return tpal_pick(program, sizeof program, program, 0, slot, state, sizeof state);
}

static void picks(const uint8_t *order, size_t count)
{
    size_t i;

    for (i = 0; i < count; i++) {
        unsigned answer = pick_answer(order[i]);

        if (answer != TPAL_ACCEPTED)
            expect("a pick", 0, TPAL_ACCEPTED, answer);
    }
}

#define PICK(...) \
    do { \
        static const uint8_t order[] = {__VA_ARGS__}; \
        picks(order, sizeof order); \
    } while (0)

static void number_is(const char *name, size_t place, uint64_t expected)
{
    uint64_t number = tpal_number(state, place);

    expect(name, number == expected, (unsigned)expected, (unsigned)number);
}

#define IN_SLOT(slot, name) (TPAL_STATE_SLOT(slot) + TPAL_SLOT_##name)
#define IN_STACK(slot, i, name) (IN_SLOT(slot, STACK(i)) + TPAL_REGISTER_##name)
#define IN_REGISTER(i, name) (IN_SLOT(0, REGISTER(i)) + TPAL_REGISTER_##name)

static void try_call_and_return(void)
{
    MAKE(call_blocks, calls);
    start("start a job with calls", 1);
    PICK(0);
    number_is("a call's label on the stack", IN_SLOT(0, HEIGHT), 1);
    number_is("its kind", IN_STACK(0, 0, KIND), TPAL_KIND_LABEL);
    number_is("its block", IN_STACK(0, 0, VALUE), 1);
    PICK(0, 0, 0);
    number_is("after the return's pop", IN_SLOT(0, HEIGHT), 0);
    number_is("the value is not left behind", IN_STACK(0, 0, KIND), TPAL_KIND_INTEGER);
    PICK(0, 0, 0, 0, 0, 0, 0);
    number_is("called twice: status", IN_SLOT(0, STATUS), TPAL_STATUS_HALTED);
    number_is("called twice: r0", IN_REGISTER(0, VALUE), 10);
    number_is("called twice: work", TPAL_STATE_WORK, 11);
}

static void try_full(void)
{
    uint8_t report[TPAL_REPORT_BYTES];
    unsigned answer;

    MAKE(one_block, pushes);
    start("start a job that pushes", 1);
    /* Thirty-two pushes and jumps, and the push that faults. */
    answer = tpal_run(program, sizeof program, program, 0, 64, state, sizeof state, report,
                      sizeof report);
    expect("run", answer == TPAL_ACCEPTED, TPAL_ACCEPTED, answer);
    number_is("a full stack", IN_SLOT(0, HEIGHT), TPAL_STACK_COUNT);
    number_is("its last value", IN_STACK(0, 31, VALUE), 7);
    answer = tpal_run(program, sizeof program, program, 0, 64, state, sizeof state, report,
                      sizeof report);
    expect("run", answer == TPAL_ACCEPTED, TPAL_ACCEPTED, answer);
    answer = (unsigned)tpal_number(report, TPAL_REPORT_FAULT);
    expect("the 33rd push", answer == TPAL_FAULT_STACK_FULL, TPAL_FAULT_STACK_FULL, answer);
    number_is("its work", TPAL_STATE_WORK, 65);
    number_is("a fault's stack", IN_SLOT(0, HEIGHT), 0);
    number_is("and its first value", IN_STACK(0, 0, VALUE), 0);
}

static void try_empty(void)
{
    MAKE(one_block, pops);
    start("start a job that pops", 1);
    PICK(0);
    number_is("a pop from an empty stack: status", IN_SLOT(0, STATUS), TPAL_STATUS_FAULTED);
    number_is("a pop from an empty stack: fault", IN_SLOT(0, FAULT), TPAL_FAULT_STACK_EMPTY);
}

static void try_fork(void)
{
    make_forks();
    start("start a job that forks with a stack", 2);
    PICK(0, 0, 0);
    number_is("the parent keeps its stack", IN_SLOT(0, HEIGHT), 1);
    number_is("the child has none", IN_SLOT(1, HEIGHT), 0);
    PICK(1, 1, 0, 0);
    number_is("the joined task has the parent's", IN_SLOT(0, HEIGHT), 2);
    number_is("as its side left it", IN_STACK(0, 1, VALUE), 20);
    number_is("the child's is dropped", IN_SLOT(1, HEIGHT), 0);
    PICK(0, 0, 0, 0);
    number_is("popped: r3", IN_REGISTER(3, VALUE), 20);
    number_is("popped: r4, from before the fork", IN_REGISTER(4, VALUE), 10);

    make_forks();
    tpal_put_number(program, TPAL_PROGRAM_INSTRUCTION(5) + TPAL_INSTRUCTION_OPCODE, POP);
    tpal_put_number(program, TPAL_PROGRAM_INSTRUCTION(5) + TPAL_INSTRUCTION_KIND, 0);
    tpal_put_number(program, TPAL_PROGRAM_INSTRUCTION(5) + TPAL_INSTRUCTION_OPERAND, 0);
    start("start a job whose child pops", 2);
    PICK(0, 0, 0, 1);
    number_is("the child's stack is empty", IN_SLOT(1, FAULT), TPAL_FAULT_STACK_EMPTY);
}

/* What a state may say of stacks. */
static void try_states(void)
{
    static const struct {
        const char *name;
        size_t place;
        uint64_t number;
        unsigned expected;
    } cases[] = {
        {"height 32", IN_SLOT(0, HEIGHT), 32, TPAL_ACCEPTED},
        {"height 33", IN_SLOT(0, HEIGHT), 33, TPAL_REFUSED_SHAPE},
        {"height 2^32", IN_SLOT(0, HEIGHT), UINT64_C(1) << 32, TPAL_REFUSED_SHAPE},
        {"a value from the height on", IN_STACK(0, 0, VALUE), 1, TPAL_REFUSED_SHAPE},
        {"a label from the height on", IN_STACK(0, 31, KIND), 1, TPAL_REFUSED_SHAPE},
        {"a vacant slot's height", IN_SLOT(1, HEIGHT), 1, TPAL_REFUSED_SHAPE},
        {"slot 63's last value", TPAL_STATE_NUMBERS - 1, 1, TPAL_REFUSED_SHAPE}
    };
    size_t i;
    unsigned answer;

    MAKE(call_blocks, calls);
    for (i = 0; i < sizeof cases / sizeof *cases; i++) {
        start("start", 1);
        tpal_put_number(state, cases[i].place, cases[i].number);
        if (cases[i].number == 32)
            tpal_put_number(state, IN_SLOT(0, PC), 2);
        answer = pick_answer(0);
        if (cases[i].number == 32)
            answer = tpal_slot_number(state, 0, TPAL_SLOT_FAULT) == TPAL_FAULT_STACK_FULL
                ? TPAL_ACCEPTED : 255;
        expect(cases[i].name, answer == cases[i].expected, cases[i].expected, answer);
    }
    /* 42 is a number of version 2 alone. */
    make_program(program);
    start("start F", 1);
    PICK(0, 0);
    number_is("F with one place", IN_SLOT(0, FAULT), TPAL_FAULT_PLACES);
    tpal_put_number(state, IN_SLOT(0, FAULT), TPAL_FAULT_STACK_FULL);
    answer = pick_answer(0);
    expect("42 with version 1", answer == TPAL_REFUSED_SHAPE, TPAL_REFUSED_SHAPE, answer);
    tpal_put_number(program, TPAL_PROGRAM_VERSION, TPAL_IMAGE_VERSION_2);
    answer = pick_answer(0);
    expect("42 with version 2", answer == TPAL_REFUSED_ENDED, TPAL_REFUSED_ENDED, answer);
}

/* The image of the program at hand, and back. */
static void try_image(const char *name, size_t len, unsigned expected)
{
    static uint8_t again[TPAL_PROGRAM_BYTES];
    uint8_t image[256];
    unsigned answer = tpal_program_write(program, sizeof program, image, len);
    int right = answer == expected;

    if (right && expected == TPAL_ACCEPTED)
        right = tpal_image_check(image, len) == TPAL_ACCEPTED
            && tpal_program_read(image, len, again, sizeof again) == TPAL_ACCEPTED
            && memcmp(again, program, sizeof program) == 0;
    expect(name, right, expected, answer);
}

static void try_versions(void)
{
    enum { BLOCKS = 4, INSTRUCTIONS = 8 };
    size_t first = TPAL_IMAGE_BYTES(TPAL_IMAGE_VERSION_1, BLOCKS, INSTRUCTIONS);
    size_t second = TPAL_IMAGE_BYTES(TPAL_IMAGE_VERSION_2, BLOCKS, INSTRUCTIONS);
    size_t target = TPAL_PROGRAM_BLOCK(3);

    MAKE(call_blocks, calls);
    try_image("an image of version 2", second, TPAL_ACCEPTED);
    try_image("in room for version 1", first, TPAL_REFUSED_BUFFER);
    tpal_put_number(program, target + TPAL_BLOCK_ANNOTATION, TPAL_ANNOTATION_JOIN_TARGET);
    tpal_put_number(program, target + TPAL_BLOCK_PAIR_COUNT, TPAL_MAX_PAIRS);
    tpal_put_number(program, target + TPAL_BLOCK_PAIRS, UINT64_C(0x0f0e0d0504030201));
    try_image("eight pairs", second, TPAL_ACCEPTED);
    tpal_put_number(program, target + TPAL_BLOCK_PAIR_COUNT, TPAL_MAX_PAIRS + 1);
    try_image("nine pairs", second, TPAL_REFUSED_ANNOTATION);
    tpal_put_number(program, target + TPAL_BLOCK_PAIR_COUNT, 5);
    tpal_put_number(program, target + TPAL_BLOCK_PAIRS, UINT64_C(0x0504030201));
    try_image("five pairs", second, TPAL_ACCEPTED);
    tpal_put_number(program, TPAL_PROGRAM_VERSION, TPAL_IMAGE_VERSION_1);
    try_image("five pairs of version 1", first, TPAL_REFUSED_ANNOTATION);
    MAKE(call_blocks, calls);
    tpal_put_number(program, TPAL_PROGRAM_VERSION, TPAL_IMAGE_VERSION_1);
    try_image("a push of version 1", first, TPAL_REFUSED_FIELDS);
    tpal_put_number(program, TPAL_PROGRAM_VERSION, 3);
    tpal_put_number(program, TPAL_PROGRAM_BLOCK_COUNT, 0);
    try_image("version 3 and no blocks", second, TPAL_REFUSED_VERSION);
    expect("and for a pick", pick_answer(0) == TPAL_REFUSED_VERSION, TPAL_REFUSED_VERSION,
           pick_answer(0));
}

/* The job's bytes, run as a whole. */
static void try_job(void)
{
    enum { LEN = TPAL_IMAGE_BYTES(TPAL_IMAGE_VERSION_2, 4, 8) };
    uint8_t image[LEN];
    uint8_t job[TPAL_JOB_BYTES(LEN, 0)];
    uint8_t text[TPAL_TEXT_BYTES];
    const struct tpal_job_parts parts = {image, LEN, 1, 0, NULL, 0, NULL, 0};
    static const char begin[] = "end halt\nwork 11\nspan 11\nr0 int 10\nr1 lab 3\n";
    size_t job_len;
    int right;

    MAKE(call_blocks, calls);
    tpal_program_write(program, sizeof program, image, sizeof image);
    tpal_job_make(&parts, job, sizeof job, &job_len);
    tpal_job_text(job, job_len, TPAL_RUN_BUDGET, text, sizeof text);
    right = memcmp(text, begin, sizeof begin - 1) == 0;
    expect("the text of a job with calls", right, 1, (unsigned)right);
}

void try_stacks(void)
{
    try_call_and_return();
    try_full();
    try_empty();
    try_fork();
    try_states();
    try_versions();
    try_job();
}
