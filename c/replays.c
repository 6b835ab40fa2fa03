/* Replays: F's job in several orders, refused ones, and lengths of `state`. */

#include "testing.h"

#include <stdio.h>
#include <string.h>

/* `state` has room for a byte more than a state, and is left with what the call wrote. */
static void try_replay(const char *name, const uint8_t *job, size_t job_len, const uint8_t *order,
                       size_t order_len, uint8_t *state, size_t state_len, unsigned expected)
{
    static uint8_t untouched[TPAL_STATE_BYTES + 1];
    size_t kept_from = expected == TPAL_ACCEPTED ? TPAL_STATE_BYTES : 0;
    char line[128];
    unsigned answer;
    int kept;

    memset(state, FILL, TPAL_STATE_BYTES + 1);
    memset(untouched, FILL, sizeof untouched);
    answer = tpal_replay(job, job_len, order, order_len, state, state_len);
    kept = memcmp(state + kept_from, untouched + kept_from, sizeof untouched - kept_from) == 0;
    snprintf(line, sizeof line, "replay %s into %zu bytes%s", name, state_len,
             kept ? "" : " (wrong bytes in state)");
    expect(line, answer == expected && kept, expected, answer);
}

static void try_number(const char *name, const uint8_t *state, size_t index, unsigned expected)
{
    uint64_t number = tpal_number(state, index);
    expect(name, number == expected, expected, (unsigned)number);
}

void try_replays(void)
{
    enum { SLOT_0 = TPAL_STATE_SLOT(0), R0 = SLOT_0 + TPAL_SLOT_REGISTER(0) };
    static const uint8_t parent_first[] = {0, 0, 0, 0, 1, 1, 0, 0, 0};
    static const uint8_t child_first[] = {1, 0, 0, 1, 1, 255, 0, 0, 0, 2, 0, 0, 0};
    static uint8_t one[TPAL_STATE_BYTES + 1];
    static uint8_t other[TPAL_STATE_BYTES + 1];
    uint8_t job[JOB_LEN + 1] = {0};
    int equal;

    make_job(job);
    try_replay("F, the parent first", job, JOB_LEN, parent_first, sizeof parent_first, one,
               TPAL_STATE_BYTES, TPAL_ACCEPTED);
    try_number("status", one, SLOT_0 + TPAL_SLOT_STATUS, TPAL_STATUS_HALTED);
    try_number("work", one, TPAL_STATE_WORK, 9);
    try_number("span", one, SLOT_0 + TPAL_SLOT_SPAN, 7);
    try_number("r0", one, R0 + TPAL_REGISTER_VALUE, 12);
    try_replay("F, the child first", job, JOB_LEN, child_first, sizeof child_first, other,
               TPAL_STATE_BYTES, TPAL_ACCEPTED);
    equal = memcmp(one, other, TPAL_STATE_BYTES) == 0;
    expect("equal states", equal, 1, (unsigned)equal);
    try_replay("F, no picks", job, JOB_LEN, parent_first, 0, one, TPAL_STATE_BYTES, TPAL_ACCEPTED);
    try_number("work", one, TPAL_STATE_WORK, 0);

    try_replay("F", job, JOB_LEN, parent_first, sizeof parent_first, one, 0, TPAL_REFUSED_BUFFER);
    try_replay("F", job, JOB_LEN, parent_first, sizeof parent_first, one, TPAL_STATE_BYTES - 1,
               TPAL_REFUSED_BUFFER);
    try_replay("F", job, JOB_LEN, parent_first, sizeof parent_first, one, TPAL_STATE_BYTES + 1,
               TPAL_REFUSED_BUFFER);
    try_replay("F less a byte", job, JOB_LEN - 1, parent_first, sizeof parent_first, one,
               TPAL_STATE_BYTES, TPAL_REFUSED_INPUT);
    try_replay("F and a byte", job, JOB_LEN + 1, parent_first, sizeof parent_first, one, 0,
               TPAL_REFUSED_INPUT);

    job[INTERVAL_AT] = 7;
    try_replay("F with interval 7", job, JOB_LEN, parent_first, sizeof parent_first, one, 0,
               TPAL_REFUSED_INTERVAL);
    job[PLACES_AT] = 3;
    try_replay("F with P 3", job, JOB_LEN, parent_first, sizeof parent_first, one,
               TPAL_STATE_BYTES, TPAL_REFUSED_PLACES);
    job[IMAGE_AT] = 'X';
    try_replay("F with mark XPB", job, JOB_LEN, parent_first, sizeof parent_first, one,
               TPAL_STATE_BYTES, TPAL_REFUSED_MARK);

    make_job(job);
    job[PLACES_AT] = 1;
    try_replay("F with P 1", job, JOB_LEN, parent_first, sizeof parent_first, one,
               TPAL_STATE_BYTES, TPAL_ACCEPTED);
    try_number("status", one, SLOT_0 + TPAL_SLOT_STATUS, TPAL_STATUS_FAULTED);
    try_number("fault", one, SLOT_0 + TPAL_SLOT_FAULT, TPAL_FAULT_PLACES);
    try_number("work", one, TPAL_STATE_WORK, 2);
}
