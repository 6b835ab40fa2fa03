/* What the parts of the C test share. */
#ifndef TESTING_H
#define TESTING_H

#include "tpal.h"

enum {
    F_BLOCKS = 4,
    F_INSTRUCTIONS = 9,
    F_LEN = TPAL_IMAGE_BYTES(TPAL_IMAGE_VERSION_1, F_BLOCKS, F_INSTRUCTIONS)
};
enum { FILL = 0xa5, MARGIN = 8 };

/* F's job; it has no words. */
enum {
    IMAGE_AT = TPAL_JOB_IMAGE_AT,
    PLACES_AT = TPAL_JOB_PLACES_AT(F_LEN),
    INTERVAL_AT = TPAL_JOB_INTERVAL_AT(F_LEN),
    REGISTERS_AT = TPAL_JOB_REGISTERS_AT(F_LEN),
    WORD_COUNT_AT = TPAL_JOB_WORD_COUNT_AT(F_LEN),
    JOB_LEN = TPAL_JOB_BYTES(F_LEN, 0)
};

/* Counts a test and prints its line. */
void expect(const char *name, int ok, unsigned expected, unsigned answer);

/* Program F of document 01. Answers its length, F_LEN. */
size_t make_f(uint8_t *image);

/* F's job with P 2, interval 0 and r0 4, JOB_LEN bytes. */
void make_job(uint8_t *job);

/* F's program buffer, TPAL_PROGRAM_BYTES. */
void make_program(uint8_t *program);

/* A program that is refused: the first `len` bytes of F's buffer with a cell changed, or with none
 * where `cell` is NO_CELL. */
enum { NO_CELL = TPAL_PROGRAM_CELLS };
struct bad_program {
    const char *name;
    size_t len;
    size_t cell;
    uint64_t number;
    unsigned expected;
};
extern const struct bad_program bad_programs[];
extern const size_t bad_program_count;

/* Makes the program, in room for MARGIN bytes more than F's. */
void make_bad_program(uint8_t *program, const struct bad_program *bad);

/* The parts. */
void try_helpers(void);
void try_images(void);
void try_programs(void);
void try_replays(void);
void try_runs(void);
void try_stacks(void);
void try_steps(void);

#endif
