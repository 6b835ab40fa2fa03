/* The run program with a budget: reads a job on standard input and prints what the run program
 * would print for it with that budget.
 *
 *     run [BUDGET] <JOB
 *
 * Without a budget it is the run program's, 1,000,000. Status 0 when something was printed, else 1;
 * 2 for a bad command line. */

#include "tpal.h"

#include <errno.h>
#include <stdio.h>
#include <stdlib.h>

/* A decimal number, whole. */
static int read_number(const char *text, uint64_t *number)
{
    char *end;

    errno = 0;
    *number = strtoull(text, &end, 10);
    return errno == 0 && *end == '\0' && text[0] >= '0' && text[0] <= '9';
}

int main(int argc, char **argv)
{
    static uint8_t job[TPAL_MAX_INPUT_BYTES + 1]; /* a longer input is refused as well */
    uint8_t text[TPAL_TEXT_BYTES];
    uint64_t budget = TPAL_RUN_BUDGET;
    uint64_t text_len;
    size_t job_len;

    if (argc > 2 || (argc == 2 && !read_number(argv[1], &budget))) {
        fprintf(stderr, "usage: run [BUDGET] <JOB; the budget is a number of picks\n");
        return 2;
    }
    job_len = fread(job, 1, sizeof job, stdin);
    if (ferror(stdin)) {
        fprintf(stderr, "run: standard input could not be read\n");
        return 1;
    }
    text_len = tpal_job_text(job, job_len, budget, text, sizeof text);
    if (fwrite(text, 1, text_len, stdout) != text_len || fflush(stdout) != 0) {
        fprintf(stderr, "run: standard output could not be written\n");
        return 1;
    }
    return 0;
}
