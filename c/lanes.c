/* The dispatcher from a command line: reads a job on standard input, runs it in rounds on so many
 * lanes, and prints what the run program prints, and then 'rounds n'.
 *
 *     lanes LANES [ROUNDS] <JOB
 *
 * Without a number of rounds at most 1,000,000. Status 0 when something was printed, else 1; 2 for a
 * bad command line. */

#include "tpal.h"

#include <errno.h>
#include <inttypes.h>
#include <stdio.h>
#include <stdlib.h>

/* A decimal number, whole. */
static int read_number(const char *text, uint64_t *number)
{
    char *end;

    errno = 0;
    *number = strtoull(text, &end, 10);
    return errno == 0 && *end == '\0' && text[0] >= '0' && text[0] <= '9';
}

int main(int argc, char **argv)
{
    static uint8_t job[TPAL_MAX_INPUT_BYTES + 1]; /* a longer input is refused as well */
    uint8_t report[TPAL_ROUNDS_REPORT_BYTES];
    uint8_t text[TPAL_TEXT_BYTES];
    uint64_t lanes;
    uint64_t rounds = TPAL_RUN_BUDGET;
    uint64_t text_len;
    size_t job_len;
    unsigned no;
    int printed;

    if (argc < 2 || argc > 3 || !read_number(argv[1], &lanes) ||
        (argc == 3 && !read_number(argv[2], &rounds))) {
        fprintf(stderr, "usage: lanes LANES [ROUNDS] <JOB\n");
        return 2;
    }
    job_len = fread(job, 1, sizeof job, stdin);
    if (ferror(stdin)) {
        fprintf(stderr, "lanes: standard input could not be read\n");
        return 1;
    }
    no = tpal_job_dispatch(job, job_len, lanes, rounds, report, sizeof report);
    if (no != 0) {
        printed = printf("refused %u\n", no);
    } else {
        /* After as many picks, in whichever order, a job has ended so or is spent. */
        text_len = tpal_job_text(job, job_len, tpal_number(report, TPAL_REPORT_PICKS), text,
                                 sizeof text);
        printed = fwrite(text, 1, text_len, stdout) == text_len
                      ? printf("rounds %" PRIu64 "\n", tpal_number(report, TPAL_REPORT_ROUNDS))
                      : -1;
    }
    if (printed < 0 || fflush(stdout) != 0) {
        fprintf(stderr, "lanes: standard output could not be written\n");
        return 1;
    }
    return 0;
}
