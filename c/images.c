/* The calls on an image: program F's, damaged and short ones, and lengths of `out`. */

#include "testing.h"

#include <stdio.h>
#include <string.h>

enum { ROOM = 2 * F_LEN };

/* Both functions on one image; `expected` is check's answer, rewrite's differs only by 15. */
static void try_image(const char *name, const uint8_t *image, size_t image_len, size_t out_len,
                      unsigned expected)
{
    uint8_t out[ROOM];
    uint8_t untouched[ROOM];
    char line[128];
    unsigned answer = tpal_image_check(image, image_len);
    unsigned expected_rewrite = expected;
    int kept;

    snprintf(line, sizeof line, "check %s", name);
    expect(line, answer == expected, expected, answer);

    if (expected == TPAL_ACCEPTED && out_len != image_len)
        expected_rewrite = TPAL_REFUSED_BUFFER;
    memset(out, FILL, sizeof out);
    memset(untouched, FILL, sizeof untouched);
    answer = tpal_image_rewrite(image, image_len, out, out_len);
    if (expected_rewrite == TPAL_ACCEPTED)
        kept = memcmp(out, image, image_len) == 0
            && memcmp(out + image_len, untouched, sizeof out - image_len) == 0;
    else
        kept = memcmp(out, untouched, sizeof out) == 0;
    snprintf(line, sizeof line, "rewrite %s into %zu bytes%s", name, out_len,
             kept ? "" : " (wrong bytes in out)");
    expect(line, answer == expected_rewrite && kept, expected_rewrite, answer);
}

static void try_damaged(const char *name, const uint8_t *f, size_t at, uint8_t byte,
                        unsigned expected)
{
    uint8_t image[F_LEN];

    memcpy(image, f, F_LEN);
    image[at] = byte;
    try_image(name, image, F_LEN, F_LEN, expected);
}

void try_images(void)
{
    uint8_t f[F_LEN + 1] = {0};
    uint8_t bad[F_LEN];
    size_t len = make_f(f);

    expect("length of F", len == F_LEN, F_LEN, (unsigned)len);
    try_image("F", f, F_LEN, F_LEN, TPAL_ACCEPTED);
    try_image("F", f, F_LEN, 0, TPAL_ACCEPTED);
    try_image("F", f, F_LEN, F_LEN - 1, TPAL_ACCEPTED);
    try_image("F", f, F_LEN, F_LEN + 1, TPAL_ACCEPTED);

    try_image("no bytes", f, 0, 0, TPAL_REFUSED_HEADER);
    try_image("no bytes", f, 0, F_LEN, TPAL_REFUSED_HEADER);
    try_image("7 bytes of F", f, 7, 7, TPAL_REFUSED_HEADER);
    try_image("8 bytes of F", f, 8, 8, TPAL_REFUSED_LENGTH);
    try_image("F less a byte", f, F_LEN - 1, F_LEN - 1, TPAL_REFUSED_LENGTH);
    try_image("F and a byte", f, F_LEN + 1, F_LEN + 1, TPAL_REFUSED_LENGTH);

    try_damaged("F with mark TPC", f, 2, 'C', TPAL_REFUSED_MARK);
    try_damaged("F with version 0", f, 3, 0, TPAL_REFUSED_VERSION);
    try_damaged("F with version 3", f, 3, 3, TPAL_REFUSED_VERSION);
    try_damaged("F with version 2, too short", f, 3, 2, TPAL_REFUSED_LENGTH);
    try_damaged("F with version 257", f, 4, 1, TPAL_REFUSED_VERSION);
    try_damaged("F with 0 blocks", f, 5, 0, TPAL_REFUSED_COUNTS);
    try_damaged("F with 129 blocks", f, 5, 129, TPAL_REFUSED_COUNTS);
    try_damaged("F with 3 blocks", f, 5, 3, TPAL_REFUSED_LENGTH);
    try_damaged("F with block 0 at 1", f, 8, 1, TPAL_REFUSED_BLOCK_START);
    try_damaged("F with block 3 at 9", f, 38, 9, TPAL_REFUSED_BLOCK_START);
    try_damaged("F with annotation 3", f, 30, 3, TPAL_REFUSED_ANNOTATION);
    try_damaged("F with combining block 4", f, 32, 4, TPAL_REFUSED_ANNOTATION);
    try_damaged("F with opcode 0", f, 48, 0, TPAL_REFUSED_FIELDS);
    try_damaged("F with opcode 16", f, 48, 16, TPAL_REFUSED_FIELDS);
    try_damaged("F with r16", f, 49, 16, TPAL_REFUSED_FIELDS);
    try_damaged("F with its last byte 1", f, F_LEN - 1, 1, TPAL_REFUSED_FIELDS);
    try_damaged("F with block 1 at 3", f, 18, 3, TPAL_REFUSED_LAST_IN_BLOCK);
    try_damaged("F with a literal 255", f, 76, 255, TPAL_ACCEPTED);

    memcpy(bad, f, F_LEN);
    bad[F_LEN - 1] = 1;
    try_image("F damaged", bad, F_LEN, 0, TPAL_REFUSED_FIELDS);
    try_image("F damaged", bad, F_LEN, F_LEN + 1, TPAL_REFUSED_FIELDS);
}
