/*
 * The block engine's functions for C and C++. `make` puts libtpal.a and libtpal.so in target/lib;
 * `make install` installs them with this header, and pkg-config knows them as tpal.
 *
 * Buffers. A buffer is lent for the call alone, as a pointer and a length in bytes, and needs no
 * alignment. A pointer may not be null: for an empty buffer pass any other pointer with length 0.
 * A buffer that is written may overlap no other, and nobody may write to a lent buffer during the
 * call. The engine keeps none: a job that goes on from call to call is in the caller's buffers.
 *
 * Threads. The engine has no global state, takes no memory from the heap and makes no system
 * calls. Each function may be called from any thread, by several at once. Leave 64 KiB of stack for
 * tpal_image_check and tpal_image_rewrite and 512 KiB for any other call. docs/api.md has the
 * measured figures, and what holds in a signal handler; docs/numbers.md says what to do about each
 * number.
 *
 * Answers. 0 is accepted; any other answer is the number of the first question that was answered
 * with no. A refused call leaves every buffer as it was. Only tpal_job_text answers otherwise.
 *
 * Names. TPAL_REFUSED_ is a refusal, TPAL_FAULT_ a fault, TPAL_MAX_ a limit, and a name that ends
 * with _BYTES the length of a buffer. TPAL_STATE_, TPAL_SLOT_, TPAL_REPORT_ and TPAL_PROGRAM_ are
 * places of numbers, for tpal_number below.
 */
#ifndef TPAL_H
#define TPAL_H

#include <stddef.h>
#include <stdint.h>

#ifdef __cplusplus
extern "C" {
#endif

/* A major version changes names or meanings, a minor one adds to them. */
#define TPAL_VERSION_MAJOR 2
#define TPAL_VERSION_MINOR 0
#define TPAL_VERSION_PATCH 0
#define TPAL_VERSION_STRING "2.0.0"

/* ---- Refusals and faults */

#define TPAL_ACCEPTED 0
/* Questions about an image of B blocks and I instructions, in the order in which they are put.
 * 6 and 7 are put block by block, then 8 and 9 instruction by instruction. A program buffer gets 3, 4
 * and 6 to 9. What 5, 7 and 8 ask for is the version's. */
#define TPAL_REFUSED_HEADER 1        /* 8 bytes or more? */
#define TPAL_REFUSED_MARK 2          /* mark TPB? */
#define TPAL_REFUSED_VERSION 3       /* version 1 or 2? */
#define TPAL_REFUSED_COUNTS 4        /* B in 1 to 128 and I in 1 to 1,024? */
#define TPAL_REFUSED_LENGTH 5        /* length 8 + 10 B + 12 I, in version 2 8 + 14 B + 12 I? */
#define TPAL_REFUSED_BLOCK_START 6   /* block 0 at 0, a later one after its predecessor, all below I? */
#define TPAL_REFUSED_ANNOTATION 7    /* annotation as laid out, label below B? */
#define TPAL_REFUSED_FIELDS 8        /* opcode, registers, labels and zeros as laid out? */
#define TPAL_REFUSED_LAST_IN_BLOCK 9 /* opcode 13, 14 or 15 exactly when last in its block? */
/* Questions about a job: 10 before all others, then those about its image or program, then the rest
 * in this order. */
#define TPAL_REFUSED_INPUT 10        /* job ends exactly after its last word? */
#define TPAL_REFUSED_PLACES 11       /* P 1, 2, 4, 8, 16, 32 or 64? */
#define TPAL_REFUSED_INTERVAL 12     /* interval 0 or 8 to 65,535? */
#define TPAL_REFUSED_REGISTERS 13    /* sixteen registers? */
#define TPAL_REFUSED_WORDS 14        /* at most 4,096 words? */
#define TPAL_REFUSED_BUFFER 15       /* every lent buffer of the right length? */
/* The question about a dispatcher, put after 15 and before 20. */
#define TPAL_REFUSED_LANES 41        /* 1 to 8 lanes? */
/* Questions about a state, put last. */
#define TPAL_REFUSED_SHAPE 20        /* bytes of a state that fits the program? (tpal_pick, below) */
#define TPAL_REFUSED_SLOT 21         /* slot below P? */
#define TPAL_REFUSED_ENDED 22        /* job not ended? */
#define TPAL_REFUSED_NOT_RUNNING 23  /* a running task there? */
#define TPAL_REFUSED_WORK 24         /* work below 4,294,967,295? */

/* Faults inside a task, in the order in which their questions are put to an instruction. */
#define TPAL_FAULT_INTEGERS 31    /* both operands of opcodes 2 to 8, index, if-jump register integers? */
#define TPAL_FAULT_DIVISOR 32     /* divisor not 0? */
#define TPAL_FAULT_INDEX 33       /* index inside the call record? */
#define TPAL_FAULT_RECORD 36      /* fork or join operand a record that fits? */
#define TPAL_FAULT_TARGET 34      /* jump or fork target a label? (if-jump looks only when it jumps) */
#define TPAL_FAULT_JOIN_TARGET 35 /* jralloc operand a label of a join target? */
#define TPAL_FAULT_PLACES 37      /* two places to fork? */
#define TPAL_FAULT_OPEN_FORK 38   /* no open fork at halt? */
#define TPAL_FAULT_STACK_FULL 42  /* fewer than 32 values on the stack, for a push? */
#define TPAL_FAULT_STACK_EMPTY 43 /* a value on the stack, for a pop? */

/* ---- Limits */

#define TPAL_REGISTER_COUNT 16 /* of each task */
#define TPAL_STACK_COUNT 32    /* values that a task's stack has room for */
#define TPAL_SLOT_COUNT 64     /* in a state; a job has the first P of them */

#define TPAL_MAX_BLOCKS 128
#define TPAL_MAX_INSTRUCTIONS 1024
#define TPAL_MAX_PAIRS 8           /* of a block; 4 in version 1 */
#define TPAL_MAX_IMAGE_BYTES 14088 /* version 2, 128 blocks and 1,024 instructions */
#define TPAL_MAX_PLACES 64
#define TPAL_MAX_FORKS 6           /* open at once, of one task */
#define TPAL_MAX_INTERVAL 65535
#define TPAL_MAX_WORDS 4096
#define TPAL_MAX_LANES 8           /* of a dispatcher */
#define TPAL_MAX_WORK 4294967295u  /* a job that stands there is spent */
#define TPAL_MAX_JOB_BYTES 46991   /* of a job that is accepted: the largest image, 4,096 words */
/* Of a job that passes question 10, with an image of 65,535 bytes and 65,535 words; no such job is
 * accepted. A caller that reads a job from elsewhere and has more bytes need not read on: the answer
 * is 10. */
#define TPAL_MAX_INPUT_BYTES 589950

/* ---- Images and programs */

/* The versions of an image. Version 2 has opcodes 16 and 17 besides, push and pop, and block records
 * with room for eight pairs in place of four. */
#define TPAL_IMAGE_VERSION_1 1
#define TPAL_IMAGE_VERSION_2 2

/* Length of a block record, and of an image. */
#define TPAL_BLOCK_BYTES(version) ((version) == TPAL_IMAGE_VERSION_2 ? 14 : 10)
#define TPAL_IMAGE_BYTES(version, blocks, instructions) \
    (8 + TPAL_BLOCK_BYTES(version) * (blocks) + 12 * (instructions))

/* Tests an image of any length. Answers 0, or 1 to 9. */
uint8_t tpal_image_check(const uint8_t *image, size_t image_len);

/* Reads an image of any length and writes its program back: `out`, of the image's length, then
 * holds the image's bytes again. Answers 0; or 1 to 9; or 15 when out_len is not image_len. */
uint8_t tpal_image_rewrite(const uint8_t *image, size_t image_len, uint8_t *out, size_t out_len);

/* A program buffer: 5,891 cells of 64 bits, little-endian, the same for both versions. Cells of blocks
 * from B on and of instructions from I on are unused: no question looks at them. */
#define TPAL_PROGRAM_BYTES 47128
#define TPAL_PROGRAM_CELLS 5891
#define TPAL_PROGRAM_VERSION 0           /* of the image, 1 or 2 */
#define TPAL_PROGRAM_BLOCK_COUNT 1       /* B */
#define TPAL_PROGRAM_INSTRUCTION_COUNT 2 /* I */
#define TPAL_PROGRAM_BLOCK(b) (3 + TPAL_BLOCK_CELLS * (b))               /* block b, 0 to 127 */
#define TPAL_PROGRAM_INSTRUCTION(i) (771 + TPAL_INSTRUCTION_CELLS * (i)) /* i, 0 to 1,023 */
/* The cells of a block, counted from its first. */
#define TPAL_BLOCK_CELLS 6
#define TPAL_BLOCK_FIRST 0      /* first instruction */
#define TPAL_BLOCK_ANNOTATION 1
#define TPAL_BLOCK_POLICY 2
#define TPAL_BLOCK_LABEL 3      /* handler block or combining block */
#define TPAL_BLOCK_PAIR_COUNT 4
#define TPAL_BLOCK_PAIRS 5      /* the pair bytes as one number, the first in its low eight bits */
#define TPAL_ANNOTATION_NONE 0
#define TPAL_ANNOTATION_PROMOTION_READY 1
#define TPAL_ANNOTATION_JOIN_TARGET 2
#define TPAL_POLICY_ASSOC 0
#define TPAL_POLICY_ASSOC_COMM 1
/* The cells of an instruction. */
#define TPAL_INSTRUCTION_CELLS 5
#define TPAL_INSTRUCTION_OPCODE 0
#define TPAL_INSTRUCTION_R 1
#define TPAL_INSTRUCTION_S 2
#define TPAL_INSTRUCTION_KIND 3 /* of the operand */
#define TPAL_INSTRUCTION_OPERAND 4
#define TPAL_OPERAND_ABSENT 0
#define TPAL_OPERAND_REGISTER 1
#define TPAL_OPERAND_LABEL 2
#define TPAL_OPERAND_INTEGER 3

/* Reads an image of any length into `program`, unused cells 0. Answers 0; or 1 to 9; or 15 when
 * program_len is not TPAL_PROGRAM_BYTES. */
uint8_t tpal_program_read(const uint8_t *image, size_t image_len, uint8_t *program,
                          size_t program_len);

/* Writes a program's image, of which there is one: the version is the program's. A program buffer of
 * another length has the cells that are whole; a version that it lacks is a no to 3, a count to 4, a
 * block or instruction to 6 or 8. Answers 0; or 3, 4 or 6 to 9; or 15 when program_len is not
 * TPAL_PROGRAM_BYTES, or image_len not TPAL_IMAGE_BYTES of its version, B and I. */
uint8_t tpal_program_write(const uint8_t *program, size_t program_len, uint8_t *image,
                           size_t image_len);

/* ---- Jobs */

/* A job's bytes, little-endian: image length (16 bits), image, P (8 bits), interval (16 bits), 16
 * registers (64 bits), word count (16 bits), words (64 bits). Where each part begins, in bytes, and
 * the length of all; tpal_job_make below puts them together. */
#define TPAL_JOB_IMAGE_AT 2
#define TPAL_JOB_PLACES_AT(image_len) (2 + (image_len))
#define TPAL_JOB_INTERVAL_AT(image_len) (3 + (image_len))
#define TPAL_JOB_REGISTERS_AT(image_len) (5 + (image_len))
#define TPAL_JOB_WORD_COUNT_AT(image_len) (133 + (image_len))
#define TPAL_JOB_WORDS_AT(image_len) (135 + (image_len))
#define TPAL_JOB_BYTES(image_len, word_count) (135 + (image_len) + 8 * (word_count))

/* The three numbers of a register, in a state and in a report, and of a value on a stack, in a state,
 * counted from its first. */
#define TPAL_REGISTER_NUMBERS 3
#define TPAL_REGISTER_KIND 0
#define TPAL_REGISTER_VALUE 1 /* the integer, the label, or the record's continuation */
#define TPAL_REGISTER_DEPTH 2 /* the record's depth, else 0 */
#define TPAL_KIND_INTEGER 0
#define TPAL_KIND_LABEL 1
#define TPAL_KIND_RECORD 2

/* A state: 10,499 numbers of 64 bits, little-endian. */
#define TPAL_STATE_BYTES 83992
#define TPAL_STATE_NUMBERS 10499
#define TPAL_STATE_PLACES 0 /* P */
#define TPAL_STATE_INTERVAL 1
#define TPAL_STATE_WORK 2
#define TPAL_STATE_SLOT(k) (3 + TPAL_SLOT_NUMBERS * (k)) /* slot k, 0 to 63 */
/* The numbers of a slot, counted from its first. */
#define TPAL_SLOT_NUMBERS 164
#define TPAL_SLOT_STATUS 0
#define TPAL_SLOT_FAULT 1               /* fault number, 0 where not faulted */
#define TPAL_SLOT_PLACES 2
#define TPAL_SLOT_PC 3                  /* program counter, 0 where not running */
#define TPAL_SLOT_COUNTER 4             /* 0 where not running */
#define TPAL_SLOT_SPAN 5
#define TPAL_SLOT_DEPTH 6               /* number of open forks */
#define TPAL_SLOT_FORK(i) (7 + 2 * (i)) /* open fork i, 0 to 5, the outermost first; unused ones 0 */
#define TPAL_SLOT_REGISTER(i) (19 + TPAL_REGISTER_NUMBERS * (i)) /* register i, 0 to 15 */
#define TPAL_SLOT_HEIGHT 67             /* of the stack: how many values it holds, 0 to 32 */
#define TPAL_SLOT_STACK(i) (68 + TPAL_REGISTER_NUMBERS * (i)) /* value i, 0 to 31, the lowest first;
                                                                  from the height on integers 0 */
/* The two numbers of an open fork. */
#define TPAL_FORK_CONTINUATION 0
#define TPAL_FORK_DEPTH 1
/* A vacant slot is all 0, and so are a faulted task's registers and its stack. The job has ended when
 * slot 0 is halted, or faulted at depth 0. */
#define TPAL_STATUS_VACANT 0
#define TPAL_STATUS_RUNNING 1
#define TPAL_STATUS_WAITING 2
#define TPAL_STATUS_HALTED 3
#define TPAL_STATUS_FAULTED 4
/* Bytes stand for a state when each number fits its field; no number is cut to size.
 *   any number  P, places, an integer
 *   32 bits     work, counter, span, depth, height, an open fork's two numbers, a label, a record's two
 *   16 bits     interval, program counter
 *   8 bits      fault number, of a faulted task; of any other it is 0
 *   0 to 4      status
 *   0 to 2      kind; the third number of an integer or a label is 0 */

/* Starts a job and carries out one pick for each byte of `order`, a slot's number; a pick that is
 * refused is passed over. Then writes the whole state to `state`. Answers 0; or 10; or 1 to 9; or
 * 11, 12 or 14; or 15 when state_len is not TPAL_STATE_BYTES. */
uint8_t tpal_replay(const uint8_t *job, size_t job_len, const uint8_t *order, size_t order_len,
                    uint8_t *state, size_t state_len);

/* A job in steps: tpal_start makes its state, tpal_pick and tpal_run go on from a state's bytes. All
 * calls for a job get the same program and words; `registers` and `words` have 64 bits each,
 * little-endian, in two's complement. A buffer whose length is no multiple of 8 has the cells,
 * registers or words that are whole, and gets 15 in 15's place. */
#define TPAL_REGISTERS_BYTES 128

/* Starts a job: writes the state in which slot 0 has a task with these registers and all P places,
 * and nothing is carried out. `places` is P. Answers 0; or 3, 4 or 6 to 9; or 11 or 12; or 13 when
 * `registers` has not sixteen; or 14; or 15 when a length is not TPAL_PROGRAM_BYTES,
 * TPAL_REGISTERS_BYTES, a multiple of 8 for the words, or TPAL_STATE_BYTES. */
uint8_t tpal_start(const uint8_t *program, size_t program_len, uint64_t places, uint64_t interval,
                   const uint8_t *registers, size_t registers_len, const uint8_t *words,
                   size_t words_len, uint8_t *state, size_t state_len);

/* Issues one instruction of the task in this slot: `state` goes in, and the new state is written over
 * the whole of it. Answers 0; or 3, 4 or 6 to 9; or 14; or 15 when a length is not TPAL_PROGRAM_BYTES, a
 * multiple of 8 for the words, or TPAL_STATE_BYTES; or 20 when the bytes stand for no state, or for
 * one that does not meet the shape test (docs/machine.md) for this program; or 21 to 24. The state of
 * an accepted call passes 20 with that call's program. */
uint8_t tpal_pick(const uint8_t *program, size_t program_len, const uint8_t *words,
                  size_t words_len, uint64_t slot, uint8_t *state, size_t state_len);

/* A report: 53 numbers of 64 bits, little-endian. Of a job that is spent, the span and the registers'
 * numbers are 0. After a fault the registers are integers 0. */
#define TPAL_REPORT_BYTES 424
#define TPAL_REPORT_NUMBERS 53
#define TPAL_REPORT_END 0
#define TPAL_REPORT_FAULT 1 /* fault number, 0 where the job has not ended with a fault */
#define TPAL_REPORT_PICKS 2 /* that this call has carried out */
#define TPAL_REPORT_WORK 3
#define TPAL_REPORT_SPAN 4
#define TPAL_REPORT_REGISTER(i) (5 + TPAL_REGISTER_NUMBERS * (i)) /* register i, 0 to 15 */
#define TPAL_END_SPENT 0 /* the budget is used up, or the work stands at its limit */
#define TPAL_END_HALT 1
#define TPAL_END_FAULT 2

/* The budget of the run program. */
#define TPAL_RUN_BUDGET 1000000

/* Starts a job and runs it: passes over the slots again and again and picks each that has a running
 * task when reached, until the job has ended or `budget` picks are carried out. A job that ends on
 * the last of them has ended. Then writes the report to `report`. Answers 0; or 10; or 1 to 9; or
 * 11, 12 or 14; or 15 when report_len is not TPAL_REPORT_BYTES. The budget bounds the time of the
 * call: not every job ends. */
uint8_t tpal_job_run(const uint8_t *job, size_t job_len, uint64_t budget, uint8_t *report,
                     size_t report_len);

/* A report with rounds: 54 numbers of 64 bits, little-endian. The first 53 are a report's, above. */
#define TPAL_ROUNDS_REPORT_BYTES 432
#define TPAL_ROUNDS_REPORT_NUMBERS 54
#define TPAL_REPORT_ROUNDS 53 /* begun by this call: one that the work's limit cuts short counts */

/* Starts a job and runs it in rounds on so many lanes. A round takes the first tasks, in the order of
 * their slots, that run when it begins, one a lane, until the lanes or the tasks are used up, and
 * picks each once; a task that is made in a round, by a fork or a join, waits for the next. Goes on
 * until the job has ended, `rounds` of them are done or the work stands at its limit; a job that ends
 * in the last of them has ended. Then writes the report with rounds to `report`. Answers 0; or 10; or
 * 1 to 9; or 11, 12 or 14; or 15 when report_len is not TPAL_ROUNDS_REPORT_BYTES; or 41 when `lanes`
 * is not 1 to 8. Of a job that has ended, lanes * rounds <= work + (lanes - 1) * span. */
uint8_t tpal_job_dispatch(const uint8_t *job, size_t job_len, uint64_t lanes, uint64_t rounds,
                          uint8_t *report, size_t report_len);

/* Runs a job on from a state, as tpal_job_run does from a fresh start: the passes begin at slot 0.
 * The new state is written over `state`, and the report to `report`: its picks are this call's, its
 * work is the state's. A job that had ended before is reported with 0 picks. Answers 0; or 3, 4 or 6
 * to 9; or 14; or 15, for tpal_pick's reasons or when report_len is not TPAL_REPORT_BYTES; or 20. */
uint8_t tpal_run(const uint8_t *program, size_t program_len, const uint8_t *words,
                 size_t words_len, uint64_t budget, uint8_t *state, size_t state_len,
                 uint8_t *report, size_t report_len);

/* Length of a buffer for a text; every text is shorter. */
#define TPAL_TEXT_BYTES 1024

/* Runs a job as tpal_job_run does and writes what the run program would print for it with this
 * budget to the start of `text`, `refused n` included: ASCII, lines that end with a line feed, no
 * zero byte after them. Answers the text's length; the bytes after it are left as they were. When
 * text_len is not TPAL_TEXT_BYTES it answers 0 and leaves `text` as it was. */
uint64_t tpal_job_text(const uint8_t *job, size_t job_len, uint64_t budget, uint8_t *text,
                       size_t text_len);

/* ---- Helpers. Plain C in this header: neither proved nor in the library. */

/* The number at this place of a state, a report or a program. An integer's two's complement is cast
 * to int64_t:
 *   tpal_number(report, TPAL_REPORT_WORK)
 *   (int64_t)tpal_number(report, TPAL_REPORT_REGISTER(2) + TPAL_REGISTER_VALUE) */
static inline uint64_t tpal_number(const uint8_t *bytes, size_t place)
{
    uint64_t number = 0;
    size_t byte;

    for (byte = 8; byte-- > 0;)
        number = number << 8 | bytes[8 * place + byte];
    return number;
}

/* Puts a number there; also into `registers` and `words`. */
static inline void tpal_put_number(uint8_t *bytes, size_t place, uint64_t number)
{
    size_t byte;

    for (byte = 0; byte < 8; byte++, number >>= 8)
        bytes[8 * place + byte] = number & 0xff;
}

/* A number of a slot of a state: tpal_slot_number(state, 0, TPAL_SLOT_STATUS). */
static inline uint64_t tpal_slot_number(const uint8_t *state, size_t slot, size_t place)
{
    return tpal_number(state, TPAL_STATE_SLOT(slot) + place);
}

/* Whether the job has ended: 1, or 0. */
static inline int tpal_state_ended(const uint8_t *state)
{
    uint64_t status = tpal_slot_number(state, 0, TPAL_SLOT_STATUS);

    return status == TPAL_STATUS_HALTED
        || (status == TPAL_STATUS_FAULTED && tpal_slot_number(state, 0, TPAL_SLOT_DEPTH) == 0);
}

/* What a job is put together from. Registers from register_count on are 0. A pointer whose count is
 * 0 may be null. */
struct tpal_job_parts {
    const uint8_t *image;
    size_t image_len;
    uint64_t places;
    uint64_t interval;
    const int64_t *registers;
    size_t register_count;
    const int64_t *words;
    size_t word_count;
};

/* Writes the job to the start of `job`, which has room for `room` bytes, and its length,
 * TPAL_JOB_BYTES(image_len, word_count), to `*job_len`; TPAL_MAX_JOB_BYTES are always enough. Answers
 * 0; or, with nothing written, 5 when the image is longer than any that is accepted; 11 or 12 when
 * places or interval are above their limits; 13 with more than 16 registers; 14 with more than 4,096
 * words; 15 when the room is too small. All else about a job the engine asks itself. */
static inline uint8_t tpal_job_make(const struct tpal_job_parts *parts, uint8_t *job, size_t room,
                                    size_t *job_len)
{
    uint8_t *at = job;
    size_t i;

    if (parts->image_len > TPAL_MAX_IMAGE_BYTES)
        return TPAL_REFUSED_LENGTH;
    if (parts->places > TPAL_MAX_PLACES)
        return TPAL_REFUSED_PLACES;
    if (parts->interval > TPAL_MAX_INTERVAL)
        return TPAL_REFUSED_INTERVAL;
    if (parts->register_count > TPAL_REGISTER_COUNT)
        return TPAL_REFUSED_REGISTERS;
    if (parts->word_count > TPAL_MAX_WORDS)
        return TPAL_REFUSED_WORDS;
    if (room < TPAL_JOB_BYTES(parts->image_len, parts->word_count))
        return TPAL_REFUSED_BUFFER;

    *at++ = parts->image_len & 0xff;
    *at++ = parts->image_len >> 8 & 0xff;
    for (i = 0; i < parts->image_len; i++)
        *at++ = parts->image[i];
    *at++ = parts->places & 0xff;
    *at++ = parts->interval & 0xff;
    *at++ = parts->interval >> 8 & 0xff;
    for (i = 0; i < TPAL_REGISTER_COUNT; i++)
        tpal_put_number(at, i, i < parts->register_count ? (uint64_t)parts->registers[i] : 0);
    at += TPAL_REGISTERS_BYTES;
    *at++ = parts->word_count & 0xff;
    *at++ = parts->word_count >> 8 & 0xff;
    for (i = 0; i < parts->word_count; i++)
        tpal_put_number(at, i, (uint64_t)parts->words[i]);
    *job_len = TPAL_JOB_BYTES(parts->image_len, parts->word_count);
    return TPAL_ACCEPTED;
}

/* A refusal in words. */
static inline const char *tpal_refusal_message(unsigned number)
{
    switch (number) {
    case TPAL_ACCEPTED:
        return "accepted";
    case TPAL_REFUSED_HEADER:
        return "the image has fewer than 8 bytes";
    case TPAL_REFUSED_MARK:
        return "the image does not begin with the letters TPB";
    case TPAL_REFUSED_VERSION:
        return "the version is neither 1 nor 2";
    case TPAL_REFUSED_COUNTS:
        return "there are not 1 to 128 blocks and 1 to 1024 instructions";
    case TPAL_REFUSED_LENGTH:
        return "the image's length does not fit its blocks and instructions";
    case TPAL_REFUSED_BLOCK_START:
        return "block 0 does not start at instruction 0, or a later block not after the one before "
               "it, or one starts beyond the last instruction";
    case TPAL_REFUSED_ANNOTATION:
        return "a block's annotation is not as its version lays it out";
    case TPAL_REFUSED_FIELDS:
        return "an instruction's opcode, registers, label or zeros are not as its version lays them "
               "out";
    case TPAL_REFUSED_LAST_IN_BLOCK:
        return "a jump, halt or join is not the last of its block, or a block ends with none";
    case TPAL_REFUSED_INPUT:
        return "the job does not end exactly after its last word";
    case TPAL_REFUSED_PLACES:
        return "the places are not 1, 2, 4, 8, 16, 32 or 64";
    case TPAL_REFUSED_INTERVAL:
        return "the interval is neither 0 nor 8 to 65535";
    case TPAL_REFUSED_REGISTERS:
        return "there are not sixteen registers";
    case TPAL_REFUSED_WORDS:
        return "there are more than 4096 words";
    case TPAL_REFUSED_BUFFER:
        return "a buffer is not of the right length";
    case TPAL_REFUSED_LANES:
        return "the lanes are not 1 to 8";
    case TPAL_REFUSED_SHAPE:
        return "the bytes are no state that fits the program";
    case TPAL_REFUSED_SLOT:
        return "the slot is not below the number of places";
    case TPAL_REFUSED_ENDED:
        return "the job has ended";
    case TPAL_REFUSED_NOT_RUNNING:
        return "the slot has no running task";
    case TPAL_REFUSED_WORK:
        return "the work stands at its limit, 4294967295";
    default:
        return "no refusal has this number";
    }
}

/* A fault in words. */
static inline const char *tpal_fault_message(unsigned number)
{
    switch (number) {
    case TPAL_FAULT_INTEGERS:
        return "an operand, an index or the register of if-jump is not an integer";
    case TPAL_FAULT_DIVISOR:
        return "the divisor is 0";
    case TPAL_FAULT_INDEX:
        return "the index is outside the call record";
    case TPAL_FAULT_RECORD:
        return "the operand of fork or join is no join record that fits";
    case TPAL_FAULT_TARGET:
        return "the target of a jump or fork is not a label";
    case TPAL_FAULT_JOIN_TARGET:
        return "the operand of jralloc is not the label of a join target";
    case TPAL_FAULT_PLACES:
        return "the task has not two places to fork";
    case TPAL_FAULT_OPEN_FORK:
        return "a fork is open at halt";
    case TPAL_FAULT_STACK_FULL:
        return "the task's stack has no room for the value of a push";
    case TPAL_FAULT_STACK_EMPTY:
        return "there is no value on the task's stack, for a pop";
    default:
        return "no fault has this number";
    }
}

#ifdef __cplusplus
}
#endif

#endif
