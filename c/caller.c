/* Calls the engine from C: the header's helpers, images, program buffers, replays, runs, rounds on
 * lanes, jobs in steps and stacks, mostly of program F. The last line is the total, 'N passed, M failed'. */

#include "testing.h"

#include <stdio.h>

static int passed;
static int failed;

void expect(const char *name, int ok, unsigned expected, unsigned answer)
{
    if (ok) {
        passed++;
        printf("ok      %s: %u\n", name, answer);
    } else {
        failed++;
        printf("FAILED  %s: expected %u, answered %u\n", name, expected, answer);
    }
}

int main(void)
{
    try_helpers();
    try_images();
    try_programs();
    try_replays();
    try_runs();
    try_steps();
    try_stacks();
    printf("%d passed, %d failed\n", passed, failed);
    return failed == 0 ? 0 : 1;
}
