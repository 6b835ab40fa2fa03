/* Program F of document 01: its image, its program buffer, its job, and refused programs. */

#include "testing.h"

#include <string.h>

/* F's records: first instruction, annotation, policy, label, number of pairs, first pair byte. */
static const uint8_t blocks[F_BLOCKS][TPAL_BLOCK_CELLS] = {
    {0},
    {4},
    {6, TPAL_ANNOTATION_JOIN_TARGET, TPAL_POLICY_ASSOC, 3, 1, 0x02}, /* pair r0 to r2 */
    {7}
};

/* Opcode, r, s, operand kind, operand. */
static const uint8_t instructions[F_INSTRUCTIONS][TPAL_INSTRUCTION_CELLS] = {
    {11, 1, 0, TPAL_OPERAND_LABEL, 2},    /* r1 := jralloc 2 */
    {12, 0, 1, TPAL_OPERAND_LABEL, 1},    /* fork r1, 1 */
    {2, 0, 0, TPAL_OPERAND_INTEGER, 1},   /* r0 := r0 + 1 */
    {15, 0, 0, TPAL_OPERAND_REGISTER, 1}, /* join r1 */
    {1, 0, 0, TPAL_OPERAND_INTEGER, 7},   /* r0 := 7 */
    {15, 0, 0, TPAL_OPERAND_REGISTER, 1}, /* join r1 */
    {14},                                 /* halt */
    {2, 0, 0, TPAL_OPERAND_REGISTER, 2},  /* r0 := r0 + r2 */
    {15, 0, 0, TPAL_OPERAND_REGISTER, 1}  /* join r1 */
};

size_t make_f(uint8_t *image)
{
    enum { HEADER = 8, BLOCK_RECORD = 10, INSTRUCTION_RECORD = 12 };
    const uint8_t header[HEADER] = {'T', 'P', 'B', 1, 0, F_BLOCKS, F_INSTRUCTIONS, 0};
    uint8_t *at = image;
    size_t i;

    memset(image, 0, F_LEN);
    memcpy(at, header, sizeof header);
    at += sizeof header;
    for (i = 0; i < F_BLOCKS; i++, at += BLOCK_RECORD) {
        at[0] = blocks[i][0];
        memcpy(at + 2, blocks[i] + 1, TPAL_BLOCK_CELLS - 1);
    }
    for (i = 0; i < F_INSTRUCTIONS; i++, at += INSTRUCTION_RECORD)
        memcpy(at, instructions[i], TPAL_INSTRUCTION_CELLS);
    return (size_t)(at - image);
}

void make_program(uint8_t *program)
{
    size_t i;
    size_t cell;

    memset(program, 0, TPAL_PROGRAM_BYTES);
    tpal_put_number(program, TPAL_PROGRAM_VERSION, TPAL_IMAGE_VERSION_1);
    tpal_put_number(program, TPAL_PROGRAM_BLOCK_COUNT, F_BLOCKS);
    tpal_put_number(program, TPAL_PROGRAM_INSTRUCTION_COUNT, F_INSTRUCTIONS);
    for (i = 0; i < F_BLOCKS; i++)
        for (cell = 0; cell < TPAL_BLOCK_CELLS; cell++)
            tpal_put_number(program, TPAL_PROGRAM_BLOCK(i) + cell, blocks[i][cell]);
    for (i = 0; i < F_INSTRUCTIONS; i++)
        for (cell = 0; cell < TPAL_INSTRUCTION_CELLS; cell++)
            tpal_put_number(program, TPAL_PROGRAM_INSTRUCTION(i) + cell, instructions[i][cell]);
}

enum {
    WHOLE = TPAL_PROGRAM_BYTES,
    BLOCKS_END = TPAL_PROGRAM_BLOCK(F_BLOCKS),
    USED_END = TPAL_PROGRAM_INSTRUCTION(F_INSTRUCTIONS)
};

/* Cells of a block and of an instruction, by the ends of their names. */
#define BLOCK(b, name) (TPAL_PROGRAM_BLOCK(b) + TPAL_BLOCK_##name)
#define INSTRUCTION(i, name) (TPAL_PROGRAM_INSTRUCTION(i) + TPAL_INSTRUCTION_##name)

const struct bad_program bad_programs[] = {
    {"no program bytes", 0, NO_CELL, 0, TPAL_REFUSED_VERSION},
    {"a cell less a byte", 7, NO_CELL, 0, TPAL_REFUSED_VERSION},
    {"version 0", WHOLE, TPAL_PROGRAM_VERSION, 0, TPAL_REFUSED_VERSION},
    {"version 3", WHOLE, TPAL_PROGRAM_VERSION, 3, TPAL_REFUSED_VERSION},
    {"version 2^16 + 1", WHOLE, TPAL_PROGRAM_VERSION, 65536 + 1, TPAL_REFUSED_VERSION},
    {"version 2^32 + 2", WHOLE, TPAL_PROGRAM_VERSION, (UINT64_C(1) << 32) + 2,
     TPAL_REFUSED_VERSION},
    {"version 3 alone", 8, TPAL_PROGRAM_VERSION, 3, TPAL_REFUSED_VERSION},
    {"one cell", 8, NO_CELL, 0, TPAL_REFUSED_COUNTS},
    {"three cells less a byte", 23, NO_CELL, 0, TPAL_REFUSED_COUNTS},
    {"0 blocks", WHOLE, TPAL_PROGRAM_BLOCK_COUNT, 0, TPAL_REFUSED_COUNTS},
    {"129 blocks", WHOLE, TPAL_PROGRAM_BLOCK_COUNT, 129, TPAL_REFUSED_COUNTS},
    {"2^32 + 4 blocks", WHOLE, TPAL_PROGRAM_BLOCK_COUNT, (UINT64_C(1) << 32) + F_BLOCKS,
     TPAL_REFUSED_COUNTS},
    {"0 instructions", WHOLE, TPAL_PROGRAM_INSTRUCTION_COUNT, 0, TPAL_REFUSED_COUNTS},
    {"1,025 instructions", WHOLE, TPAL_PROGRAM_INSTRUCTION_COUNT, 1025, TPAL_REFUSED_COUNTS},
    {"three cells", 24, NO_CELL, 0, TPAL_REFUSED_BLOCK_START},
    {"no cell of its last block", 8 * TPAL_PROGRAM_BLOCK(F_BLOCKS - 1), NO_CELL, 0,
     TPAL_REFUSED_BLOCK_START},
    {"its blocks less a byte", 8 * BLOCKS_END - 1, NO_CELL, 0, TPAL_REFUSED_BLOCK_START},
    {"block 0 at 1", WHOLE, BLOCK(0, FIRST), 1, TPAL_REFUSED_BLOCK_START},
    {"block 3 at 9", WHOLE, BLOCK(3, FIRST), 9, TPAL_REFUSED_BLOCK_START},
    {"block 3 at 2^16 + 7", WHOLE, BLOCK(3, FIRST), 65536 + 7, TPAL_REFUSED_BLOCK_START},
    {"annotation 3", WHOLE, BLOCK(2, ANNOTATION), 3, TPAL_REFUSED_ANNOTATION},
    {"annotation 2^8 + 2", WHOLE, BLOCK(2, ANNOTATION), 256 + 2, TPAL_REFUSED_ANNOTATION},
    {"combining block 4", WHOLE, BLOCK(2, LABEL), 4, TPAL_REFUSED_ANNOTATION},
    {"five pairs", WHOLE, BLOCK(2, PAIR_COUNT), 5, TPAL_REFUSED_ANNOTATION},
    {"pair bytes of 2^32", WHOLE, BLOCK(2, PAIRS), UINT64_C(1) << 32 | 0x02,
     TPAL_REFUSED_ANNOTATION},
    {"its blocks alone", 8 * BLOCKS_END, NO_CELL, 0, TPAL_REFUSED_FIELDS},
    {"its used cells less a byte", 8 * USED_END - 1, NO_CELL, 0, TPAL_REFUSED_FIELDS},
    {"opcode 0", WHOLE, INSTRUCTION(0, OPCODE), 0, TPAL_REFUSED_FIELDS},
    {"opcode 16", WHOLE, INSTRUCTION(0, OPCODE), 16, TPAL_REFUSED_FIELDS},
    {"opcode 2^8 + 11", WHOLE, INSTRUCTION(0, OPCODE), 256 + 11, TPAL_REFUSED_FIELDS},
    {"r16", WHOLE, INSTRUCTION(0, R), 16, TPAL_REFUSED_FIELDS},
    {"label 4", WHOLE, INSTRUCTION(0, OPERAND), 4, TPAL_REFUSED_FIELDS},
    {"block 1 at 3", WHOLE, BLOCK(1, FIRST), 3, TPAL_REFUSED_LAST_IN_BLOCK},
    {"its used cells alone", 8 * USED_END, NO_CELL, 0, TPAL_REFUSED_BUFFER},
    {"a cell less", WHOLE - 8, NO_CELL, 0, TPAL_REFUSED_BUFFER},
    {"a byte less", WHOLE - 1, NO_CELL, 0, TPAL_REFUSED_BUFFER},
    {"a byte more", WHOLE + 1, NO_CELL, 0, TPAL_REFUSED_BUFFER},
    {"a cell more", WHOLE + 8, NO_CELL, 0, TPAL_REFUSED_BUFFER}
};
const size_t bad_program_count = sizeof bad_programs / sizeof *bad_programs;

void make_bad_program(uint8_t *program, const struct bad_program *bad)
{
    make_program(program);
    if (bad->cell != NO_CELL)
        tpal_put_number(program, bad->cell, bad->number);
    memset(program + TPAL_PROGRAM_BYTES, 0, MARGIN);
}

void make_job(uint8_t *job)
{
    memset(job, 0, JOB_LEN);
    job[0] = F_LEN;
    make_f(job + IMAGE_AT);
    job[PLACES_AT] = 2;
    job[REGISTERS_AT] = 4;
}
