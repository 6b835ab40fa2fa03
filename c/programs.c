/* Program buffers: F's image read into one and written back, damaged ones, and lengths. */

#include "testing.h"

#include <stdio.h>
#include <string.h>

/* Whether all bytes but `len` from `at` on are as they were before the call. */
static int kept_but(const uint8_t *space, size_t space_len, size_t at, size_t len)
{
    size_t i;

    for (i = 0; i < space_len; i++)
        if (space[i] != FILL && (i < at || i >= at + len))
            return 0;
    return 1;
}

static void try_read(const char *name, const uint8_t *image, size_t image_len, size_t program_len,
                     unsigned expected)
{
    static uint8_t space[MARGIN + TPAL_PROGRAM_BYTES + MARGIN];
    static uint8_t f[TPAL_PROGRAM_BYTES];
    size_t written = expected == TPAL_ACCEPTED ? TPAL_PROGRAM_BYTES : 0;
    char line[128];
    unsigned answer;
    int right;

    memset(space, FILL, sizeof space);
    make_program(f);
    answer = tpal_program_read(image, image_len, space + MARGIN, program_len);
    right = kept_but(space, sizeof space, MARGIN, written)
        && memcmp(space + MARGIN, f, written) == 0;
    snprintf(line, sizeof line, "read %s into %zu bytes%s", name, program_len,
             right ? "" : " (wrong bytes in program)");
    expect(line, answer == expected && right, expected, answer);
}

static void try_write(const char *name, const uint8_t *program, size_t program_len,
                      size_t image_len, unsigned expected)
{
    uint8_t space[MARGIN + 2 * F_LEN + MARGIN];
    uint8_t f[F_LEN];
    size_t written = expected == TPAL_ACCEPTED ? F_LEN : 0;
    char line[128];
    unsigned answer;
    int right;

    memset(space, FILL, sizeof space);
    make_f(f);
    answer = tpal_program_write(program, program_len, space + MARGIN, image_len);
    right = kept_but(space, sizeof space, MARGIN, written)
        && memcmp(space + MARGIN, f, written) == 0;
    snprintf(line, sizeof line, "write %s into %zu bytes%s", name, image_len,
             right ? "" : " (wrong bytes in image)");
    expect(line, answer == expected && right, expected, answer);
}

/* F's image with one byte changed, into a buffer of the right length and an empty one. */
static void try_damaged(const char *name, size_t at, uint8_t byte, unsigned expected)
{
    uint8_t image[F_LEN];

    make_f(image);
    image[at] = byte;
    try_read(name, image, F_LEN, TPAL_PROGRAM_BYTES, expected);
    try_read(name, image, F_LEN, 0, expected);
}

static void try_reads(void)
{
    uint8_t f[F_LEN + 1] = {0};

    make_f(f);
    try_read("F", f, F_LEN, TPAL_PROGRAM_BYTES, TPAL_ACCEPTED);
    try_read("F", f, F_LEN, 0, TPAL_REFUSED_BUFFER);
    try_read("F", f, F_LEN, TPAL_PROGRAM_BYTES - 8, TPAL_REFUSED_BUFFER);
    try_read("F", f, F_LEN, TPAL_PROGRAM_BYTES - 1, TPAL_REFUSED_BUFFER);
    try_read("F", f, F_LEN, TPAL_PROGRAM_BYTES + 1, TPAL_REFUSED_BUFFER);
    try_read("F", f, F_LEN, TPAL_PROGRAM_BYTES + 8, TPAL_REFUSED_BUFFER);

    try_read("no bytes", f, 0, TPAL_PROGRAM_BYTES, TPAL_REFUSED_HEADER);
    try_read("7 bytes of F", f, 7, TPAL_PROGRAM_BYTES, TPAL_REFUSED_HEADER);
    try_read("8 bytes of F", f, 8, TPAL_PROGRAM_BYTES, TPAL_REFUSED_LENGTH);
    try_read("F less a byte", f, F_LEN - 1, TPAL_PROGRAM_BYTES, TPAL_REFUSED_LENGTH);
    try_read("F and a byte", f, F_LEN + 1, TPAL_PROGRAM_BYTES, TPAL_REFUSED_LENGTH);
    try_damaged("F with mark TPC", 2, 'C', TPAL_REFUSED_MARK);
    try_damaged("F with version 0", 3, 0, TPAL_REFUSED_VERSION);
    try_damaged("F with version 3", 3, 3, TPAL_REFUSED_VERSION);
    try_damaged("F with version 2, too short", 3, 2, TPAL_REFUSED_LENGTH);
    try_damaged("F with 0 blocks", 5, 0, TPAL_REFUSED_COUNTS);
    try_damaged("F with 129 blocks", 5, 129, TPAL_REFUSED_COUNTS);
    try_damaged("F with 3 blocks", 5, 3, TPAL_REFUSED_LENGTH);
    try_damaged("F with block 0 at 1", 8, 1, TPAL_REFUSED_BLOCK_START);
    try_damaged("F with annotation 3", 30, 3, TPAL_REFUSED_ANNOTATION);
    try_damaged("F with opcode 0", 48, 0, TPAL_REFUSED_FIELDS);
    try_damaged("F with its last byte 1", F_LEN - 1, 1, TPAL_REFUSED_FIELDS);
    try_damaged("F with block 1 at 3", 18, 3, TPAL_REFUSED_LAST_IN_BLOCK);
}

static void try_writes(void)
{
    static uint8_t program[TPAL_PROGRAM_BYTES + MARGIN];
    char name[64];
    size_t i;

    make_program(program);
    try_write("F", program, TPAL_PROGRAM_BYTES, F_LEN, TPAL_ACCEPTED);
    try_write("F", program, TPAL_PROGRAM_BYTES, 0, TPAL_REFUSED_BUFFER);
    try_write("F", program, TPAL_PROGRAM_BYTES, F_LEN - 1, TPAL_REFUSED_BUFFER);
    try_write("F", program, TPAL_PROGRAM_BYTES, F_LEN + 1, TPAL_REFUSED_BUFFER);
    tpal_put_number(program, NO_CELL - 1, UINT64_MAX);
    try_write("F with its last, unused cell filled", program, TPAL_PROGRAM_BYTES, F_LEN,
              TPAL_ACCEPTED);
    for (i = 0; i < bad_program_count; i++) {
        const struct bad_program *bad = &bad_programs[i];

        make_bad_program(program, bad);
        snprintf(name, sizeof name, "F with %s", bad->name);
        try_write(name, program, bad->len, F_LEN, bad->expected);
        try_write(name, program, bad->len, 0, bad->expected);
    }
}

/* There and back. */
static void try_round_trip(void)
{
    static uint8_t program[TPAL_PROGRAM_BYTES];
    uint8_t f[F_LEN];
    uint8_t image[F_LEN];
    unsigned answer;

    make_f(f);
    answer = tpal_program_read(f, sizeof f, program, sizeof program);
    expect("F read", answer == TPAL_ACCEPTED, TPAL_ACCEPTED, answer);
    answer = tpal_program_write(program, sizeof program, image, sizeof image);
    expect("and written back", answer == TPAL_ACCEPTED && memcmp(image, f, sizeof f) == 0,
           TPAL_ACCEPTED, answer);
}

void try_programs(void)
{
    try_reads();
    try_writes();
    try_round_trip();
}
