/* A job in steps: F started, picked and run on from states, with good and bad programs, registers,
 * words, states and lengths. */

#include "testing.h"

#include <stdio.h>
#include <string.h>

/* What the calls get. MARGIN bytes on both sides of what is written show a write outside it, and
 * leave room for lengths that are too large. */
struct steps {
    uint64_t places;
    uint64_t interval;
    uint64_t slot;
    uint64_t budget;
    size_t program_len;
    size_t registers_len;
    size_t words_len;
    size_t state_len;
    size_t report_len;
    uint8_t program[TPAL_PROGRAM_BYTES + MARGIN];
    uint8_t registers[TPAL_REGISTERS_BYTES + MARGIN];
    uint8_t words[8 * TPAL_MAX_WORDS + MARGIN];
    uint8_t before_state[MARGIN];
    uint8_t state[TPAL_STATE_BYTES + MARGIN];
    uint8_t before_report[MARGIN];
    uint8_t report[TPAL_REPORT_BYTES + MARGIN];
};

/* A call, and whether it writes a report beside the state. */
struct door {
    const char *name;
    uint8_t (*call)(struct steps *steps);
    int reports;
};

static uint8_t call_start(struct steps *s)
{
    return tpal_start(s->program, s->program_len, s->places, s->interval, s->registers,
                      s->registers_len, s->words, s->words_len, s->state, s->state_len);
}

static uint8_t call_pick(struct steps *s)
{
    return tpal_pick(s->program, s->program_len, s->words, s->words_len, s->slot, s->state,
                     s->state_len);
}

static uint8_t call_run(struct steps *s)
{
    return tpal_run(s->program, s->program_len, s->words, s->words_len, s->budget, s->state,
                    s->state_len, s->report, s->report_len);
}

static const struct door start = {"start", call_start, 0};
static const struct door pick = {"pick", call_pick, 0};
static const struct door run = {"run", call_run, 1};

/* Places in a state, and statuses, by the ends of their names. */
#define IN_SLOT(slot, name) (TPAL_STATE_SLOT(slot) + TPAL_SLOT_##name)
#define IN_FORK(fork, name) (IN_SLOT(0, FORK(fork)) + TPAL_FORK_##name)
#define IN_REGISTER(slot, i, name) (IN_SLOT(slot, REGISTER(i)) + TPAL_REGISTER_##name)
#define STATUSES(slot_0, slot_1) {TPAL_STATUS_##slot_0, TPAL_STATUS_##slot_1}

/* Where the next number of 16 or 32 bits would be 0 again. */
#define WRAP_16 UINT64_C(65536)
#define WRAP_32 UINT64_C(4294967296)

/* One call. A refused one leaves everything as it was, an accepted one all but what it writes. */
static void try_call(const struct door *door, const char *name, struct steps *steps,
                     unsigned expected)
{
    static struct steps before;
    char line[160];
    unsigned answer;
    int kept;

    memcpy(&before, steps, sizeof before);
    answer = door->call(steps);
    if (expected == TPAL_ACCEPTED) {
        memcpy(before.state, steps->state, TPAL_STATE_BYTES);
        if (door->reports)
            memcpy(before.report, steps->report, TPAL_REPORT_BYTES);
    }
    kept = memcmp(&before, steps, sizeof before) == 0;
    snprintf(line, sizeof line, "%s %s%s", door->name, name, kept ? "" : " (wrong bytes)");
    expect(line, answer == expected && kept, expected, answer);
}

static void try_equal(const char *name, const uint8_t *bytes, const uint8_t *others, size_t len)
{
    int equal = memcmp(bytes, others, len) == 0;
    expect(name, equal, 1, (unsigned)equal);
}

static void try_number(const char *name, const uint8_t *bytes, size_t index, uint64_t expected)
{
    uint64_t number = tpal_number(bytes, index);
    expect(name, number == expected, (unsigned)expected, (unsigned)number);
}

/* The state is that of the replay of this order. */
static void try_replayed(const char *name, const struct steps *steps, const uint8_t *order,
                         size_t order_len)
{
    static uint8_t state[TPAL_STATE_BYTES];
    uint8_t job[JOB_LEN];

    make_job(job);
    tpal_replay(job, sizeof job, order, order_len, state, sizeof state);
    try_equal(name, steps->state, state, sizeof state);
}

/* F with P 2, interval 0, r0 4 and no words; no state yet. */
static void make_f_steps(struct steps *steps)
{
    memset(steps, FILL, sizeof *steps);
    make_program(steps->program);
    memset(steps->registers, 0, TPAL_REGISTERS_BYTES);
    tpal_put_number(steps->registers, 0, 4);
    steps->places = 2;
    steps->interval = 0;
    steps->slot = 0;
    steps->budget = TPAL_RUN_BUDGET;
    steps->program_len = TPAL_PROGRAM_BYTES;
    steps->registers_len = TPAL_REGISTERS_BYTES;
    steps->words_len = 0;
    steps->state_len = TPAL_STATE_BYTES;
    steps->report_len = TPAL_REPORT_BYTES;
}

/* F after these picks. */
static void make_state(struct steps *steps, const uint8_t *order, size_t order_len)
{
    size_t i;

    make_f_steps(steps);
    call_start(steps);
    for (i = 0; i < order_len; i++) {
        steps->slot = order[i];
        call_pick(steps);
    }
    steps->slot = 0;
}

/* F with both sides running, in slots 0 and 1. */
static void make_forked(struct steps *steps)
{
    static const uint8_t order[] = {0, 0};
    make_state(steps, order, sizeof order);
}

/* The parent waits, the child runs. */
static void make_waiting(struct steps *steps)
{
    static const uint8_t order[] = {0, 0, 0, 0};
    make_state(steps, order, sizeof order);
}

/* Questions 4, 6 to 9, and 15 for the program, before anything that the state may say. */
static void try_bad_programs(struct steps *steps, const struct door *door)
{
    char name[64];
    size_t i;

    make_forked(steps);
    for (i = 0; i < bad_program_count; i++) {
        const struct bad_program *bad = &bad_programs[i];

        make_bad_program(steps->program, bad);
        steps->program_len = bad->len;
        snprintf(name, sizeof name, "F with %s", bad->name);
        try_call(door, name, steps, bad->expected);
    }
}

/* Questions 14 and 15 for words and state. */
static void try_lengths(struct steps *steps, const struct door *door)
{
    static const size_t off_by[] = {1, 7, 8};
    size_t i;

    make_forked(steps);
    steps->state_len = 0;
    try_call(door, "F with no state bytes", steps, TPAL_REFUSED_BUFFER);
    for (i = 0; i < sizeof off_by / sizeof *off_by; i++) {
        make_forked(steps);
        steps->state_len = TPAL_STATE_BYTES - off_by[i];
        try_call(door, "F with a short state", steps, TPAL_REFUSED_BUFFER);
        steps->state_len = TPAL_STATE_BYTES + off_by[i];
        try_call(door, "F with a long state", steps, TPAL_REFUSED_BUFFER);
        steps->state_len = TPAL_STATE_BYTES;
        steps->words_len = off_by[i];
        try_call(door, "F with 1, 7 or 8 bytes of words", steps,
                 off_by[i] == 8 ? TPAL_ACCEPTED : TPAL_REFUSED_BUFFER);
        steps->words_len = 8 * TPAL_MAX_WORDS + off_by[i];
        try_call(door, "F with 4,096 words and as many bytes", steps,
                 off_by[i] == 8 ? TPAL_REFUSED_WORDS : TPAL_REFUSED_BUFFER);
    }
    make_forked(steps);
    steps->words_len = 8 * TPAL_MAX_WORDS;
    try_call(door, "F with 4,096 words", steps, TPAL_ACCEPTED);
}

static void try_settings(struct steps *steps)
{
    static const uint64_t bad_places[] = {0, 3, 65, 128, WRAP_32 + 2, UINT64_MAX};
    static const uint64_t bad_intervals[] = {1, 7, WRAP_16, WRAP_16 + 8, UINT64_MAX};
    static const uint64_t intervals[] = {0, 8, 65535};
    size_t i;

    make_f_steps(steps);
    for (steps->places = 1; steps->places <= 64; steps->places *= 2) {
        try_call(&start, "F with P from 1 to 64", steps, TPAL_ACCEPTED);
        try_number("P", steps->state, TPAL_STATE_PLACES, steps->places);
        try_number("the task's places", steps->state, IN_SLOT(0, PLACES), steps->places);
    }
    make_f_steps(steps);
    for (i = 0; i < sizeof intervals / sizeof *intervals; i++) {
        steps->interval = intervals[i];
        try_call(&start, "F with interval 0, 8 or 65,535", steps, TPAL_ACCEPTED);
        try_number("interval", steps->state, TPAL_STATE_INTERVAL, intervals[i]);
    }
    make_f_steps(steps);
    for (i = 0; i < sizeof bad_places / sizeof *bad_places; i++) {
        steps->places = bad_places[i];
        try_call(&start, "F with another P", steps, TPAL_REFUSED_PLACES);
    }
    make_f_steps(steps);
    for (i = 0; i < sizeof bad_intervals / sizeof *bad_intervals; i++) {
        steps->interval = bad_intervals[i];
        try_call(&start, "F with another interval", steps, TPAL_REFUSED_INTERVAL);
    }
}

static void try_registers(struct steps *steps)
{
    make_f_steps(steps);
    steps->registers_len = 0;
    try_call(&start, "F with no registers", steps, TPAL_REFUSED_REGISTERS);
    steps->registers_len = TPAL_REGISTERS_BYTES - 1;
    try_call(&start, "F with 15 registers and 7 bytes", steps, TPAL_REFUSED_REGISTERS);
    steps->registers_len = TPAL_REGISTERS_BYTES + 1;
    try_call(&start, "F with 16 registers and a byte", steps, TPAL_REFUSED_BUFFER);
    steps->registers_len = TPAL_REGISTERS_BYTES + 8;
    try_call(&start, "F with 17 registers", steps, TPAL_REFUSED_REGISTERS);
    make_f_steps(steps);
    tpal_put_number(steps->registers, 15, UINT64_MAX);
    try_call(&start, "F with r15 -1", steps, TPAL_ACCEPTED);
    try_number("r15", steps->state, IN_REGISTER(0, 15, VALUE), UINT64_MAX);
}

static void try_starts(struct steps *steps)
{
    make_f_steps(steps);
    try_call(&start, "F", steps, TPAL_ACCEPTED);
    try_replayed("the replay of no picks", steps, steps->words, 0);
    try_call(&start, "F over that state", steps, TPAL_ACCEPTED);
    try_replayed("the same again", steps, steps->words, 0);
    try_settings(steps);
    try_registers(steps);
    try_lengths(steps, &start);
    try_bad_programs(steps, &start);

    /* One more no at a time, each put before the last. */
    make_f_steps(steps);
    steps->state_len = 0;
    try_call(&start, "F with no state bytes", steps, TPAL_REFUSED_BUFFER);
    steps->words_len = 8 * (TPAL_MAX_WORDS + 1);
    try_call(&start, "and 4,097 words", steps, TPAL_REFUSED_WORDS);
    steps->registers_len = 0;
    try_call(&start, "and no registers", steps, TPAL_REFUSED_REGISTERS);
    steps->interval = 7;
    try_call(&start, "and interval 7", steps, TPAL_REFUSED_INTERVAL);
    steps->places = 3;
    try_call(&start, "and P 3", steps, TPAL_REFUSED_PLACES);
    tpal_put_number(steps->program, TPAL_PROGRAM_BLOCK_COUNT, 0);
    try_call(&start, "and 0 blocks", steps, TPAL_REFUSED_COUNTS);
    tpal_put_number(steps->program, TPAL_PROGRAM_VERSION, 3);
    try_call(&start, "and version 3", steps, TPAL_REFUSED_VERSION);
}

/* F's picks one by one, and what they leave of slots 0 and 1. */
static const struct {
    const char *name;
    uint64_t slot;
    unsigned expected;
    unsigned statuses[2];
    unsigned work;
} f_picks[] = {
    {"F's slot 1, vacant", 1, TPAL_REFUSED_NOT_RUNNING, STATUSES(RUNNING, VACANT), 0},
    {"F's slot 2, beyond P", 2, TPAL_REFUSED_SLOT, STATUSES(RUNNING, VACANT), 0},
    {"F's slot 64", 64, TPAL_REFUSED_SLOT, STATUSES(RUNNING, VACANT), 0},
    {"F's slot 2^32", WRAP_32, TPAL_REFUSED_SLOT, STATUSES(RUNNING, VACANT), 0},
    {"F's slot 2^64 - 1", UINT64_MAX, TPAL_REFUSED_SLOT, STATUSES(RUNNING, VACANT), 0},
    {"r1 := jralloc 2", 0, TPAL_ACCEPTED, STATUSES(RUNNING, VACANT), 1},
    {"fork r1, 1", 0, TPAL_ACCEPTED, STATUSES(RUNNING, RUNNING), 2},
    {"the child's r0 := 7", 1, TPAL_ACCEPTED, STATUSES(RUNNING, RUNNING), 3},
    {"the child's join r1", 1, TPAL_ACCEPTED, STATUSES(RUNNING, WAITING), 4},
    {"the child, waiting", 1, TPAL_REFUSED_NOT_RUNNING, STATUSES(RUNNING, WAITING), 4},
    {"the parent's r0 := r0 + 1", 0, TPAL_ACCEPTED, STATUSES(RUNNING, WAITING), 5},
    {"the parent's join r1", 0, TPAL_ACCEPTED, STATUSES(RUNNING, VACANT), 6},
    {"the child's slot, vacant again", 1, TPAL_REFUSED_NOT_RUNNING, STATUSES(RUNNING, VACANT), 6},
    {"r0 := r0 + r2", 0, TPAL_ACCEPTED, STATUSES(RUNNING, VACANT), 7},
    {"join r1", 0, TPAL_ACCEPTED, STATUSES(RUNNING, VACANT), 8},
    {"halt", 0, TPAL_ACCEPTED, STATUSES(HALTED, VACANT), 9},
    {"slot 0 after the end", 0, TPAL_REFUSED_ENDED, STATUSES(HALTED, VACANT), 9},
    {"slot 1 after the end", 1, TPAL_REFUSED_ENDED, STATUSES(HALTED, VACANT), 9},
    {"slot 2 after the end", 2, TPAL_REFUSED_SLOT, STATUSES(HALTED, VACANT), 9}
};
enum { F_PICKS = sizeof f_picks / sizeof *f_picks };

static void try_order(struct steps *steps)
{
    uint8_t order[F_PICKS];
    size_t i;

    make_f_steps(steps);
    call_start(steps);
    for (i = 0; i < F_PICKS; i++) {
        steps->slot = f_picks[i].slot;
        order[i] = steps->slot > 255 ? 255 : (uint8_t)steps->slot;
        try_call(&pick, f_picks[i].name, steps, f_picks[i].expected);
        try_number("slot 0", steps->state, IN_SLOT(0, STATUS), f_picks[i].statuses[0]);
        try_number("slot 1", steps->state, IN_SLOT(1, STATUS), f_picks[i].statuses[1]);
        try_number("work", steps->state, TPAL_STATE_WORK, f_picks[i].work);
        try_replayed("the replay of these picks", steps, order, i + 1);
    }
    try_number("span", steps->state, IN_SLOT(0, SPAN), 7);
    try_number("r0", steps->state, IN_REGISTER(0, 0, VALUE), 12);
}

/* A state's bytes are all there is of a job: from a copy it goes on as before. */
static void try_saved(struct steps *steps)
{
    static const uint8_t parent_first[] = {0, 0, 1, 1, 0, 0, 0};
    static const uint8_t child_first[] = {1, 1, 0, 0, 0, 0, 0};
    static uint8_t saved[TPAL_STATE_BYTES];
    static uint8_t end[TPAL_STATE_BYTES];
    size_t i;

    make_forked(steps);
    memcpy(saved, steps->state, sizeof saved);
    for (i = 0; i < sizeof parent_first; i++) {
        steps->slot = parent_first[i];
        try_call(&pick, "F, the parent first", steps, TPAL_ACCEPTED);
    }
    memcpy(end, steps->state, sizeof end);
    memcpy(steps->state, saved, sizeof saved);
    for (i = 0; i < sizeof child_first; i++) {
        steps->slot = child_first[i];
        try_call(&pick, "F from the saved state, the child first", steps, TPAL_ACCEPTED);
    }
    try_equal("equal states", steps->state, end, sizeof end);
}

/* Changes of one number of the forked state that no call takes. */
static const struct {
    const char *name;
    size_t index;
    uint64_t number;
} bad_numbers[] = {
    {"P 0", TPAL_STATE_PLACES, 0},
    {"P 3", TPAL_STATE_PLACES, 3},
    {"P 4", TPAL_STATE_PLACES, 4},
    {"P 2^32 + 2", TPAL_STATE_PLACES, WRAP_32 + 2},
    {"interval 7", TPAL_STATE_INTERVAL, 7},
    {"interval 2^16", TPAL_STATE_INTERVAL, WRAP_16},
    {"interval 2^16 + 8", TPAL_STATE_INTERVAL, WRAP_16 + 8},
    {"work 1", TPAL_STATE_WORK, 1},
    {"work 2^32 + 2", TPAL_STATE_WORK, WRAP_32 + 2},
    {"a vacant parent", IN_SLOT(0, STATUS), TPAL_STATUS_VACANT},
    {"a halted parent at depth 1", IN_SLOT(0, STATUS), TPAL_STATUS_HALTED},
    {"a faulted parent without a number", IN_SLOT(0, STATUS), TPAL_STATUS_FAULTED},
    {"status 5", IN_SLOT(0, STATUS), 5},
    {"status 9", IN_SLOT(0, STATUS), 9},
    {"status 2^8 + 1", IN_SLOT(0, STATUS), 256 + TPAL_STATUS_RUNNING},
    {"a fault number of a running task", IN_SLOT(0, FAULT), TPAL_FAULT_PLACES},
    {"fault number 2^8", IN_SLOT(0, FAULT), 256},
    {"places 2", IN_SLOT(0, PLACES), 2},
    {"places 2^32 + 1", IN_SLOT(0, PLACES), WRAP_32 + 1},
    {"program counter 9", IN_SLOT(0, PC), 9},
    {"program counter 2^16 + 2", IN_SLOT(0, PC), WRAP_16 + 2},
    {"counter 3", IN_SLOT(0, COUNTER), 3},
    {"counter 2^32 + 2", IN_SLOT(0, COUNTER), WRAP_32 + 2},
    {"span 3", IN_SLOT(0, SPAN), 3},
    {"span 2^32 + 2", IN_SLOT(0, SPAN), WRAP_32 + 2},
    {"depth 0", IN_SLOT(0, DEPTH), 0},
    {"depth 7", IN_SLOT(0, DEPTH), 7},
    {"depth 2^32 + 1", IN_SLOT(0, DEPTH), WRAP_32 + 1},
    {"a fork under block 3", IN_FORK(0, CONTINUATION), 3},
    {"a fork under block 2^32 + 2", IN_FORK(0, CONTINUATION), WRAP_32 + 2},
    {"a fork of depth 2^32", IN_FORK(0, DEPTH), WRAP_32},
    {"an entry of a fork that is not open", IN_FORK(1, CONTINUATION), 2},
    {"the last fork entry 2^32", IN_FORK(TPAL_MAX_FORKS - 1, DEPTH), WRAP_32},
    {"label 4", IN_REGISTER(0, 0, KIND), TPAL_KIND_LABEL},
    {"a record under block 4", IN_REGISTER(0, 0, KIND), TPAL_KIND_RECORD},
    {"kind 3", IN_REGISTER(0, 0, KIND), 3},
    {"kind 2^32", IN_REGISTER(0, 0, KIND), WRAP_32},
    {"an integer with a second number", IN_REGISTER(0, 0, DEPTH), 1},
    {"a record under block 0", IN_REGISTER(0, 1, VALUE), 0},
    {"a record under block 2^32 + 2", IN_REGISTER(0, 1, VALUE), WRAP_32 + 2},
    {"a record of depth 2^32", IN_REGISTER(0, 1, DEPTH), WRAP_32},
    {"a vacant child", IN_SLOT(1, STATUS), TPAL_STATUS_VACANT},
    {"a vacant slot's span", IN_SLOT(2, SPAN), 1},
    {"a vacant slot's kind", IN_REGISTER(2, 0, KIND), TPAL_KIND_LABEL},
    {"a vacant slot's last number", TPAL_STATE_SLOT(3) - 1, 1},
    {"slot 63's last number", TPAL_STATE_NUMBERS - 1, UINT64_MAX}
};

static void try_bad_numbers(struct steps *steps)
{
    char name[96];
    size_t i;

    for (i = 0; i < sizeof bad_numbers / sizeof *bad_numbers; i++) {
        make_forked(steps);
        tpal_put_number(steps->state, bad_numbers[i].index, bad_numbers[i].number);
        snprintf(name, sizeof name, "F with %s", bad_numbers[i].name);
        try_call(&pick, name, steps, TPAL_REFUSED_SHAPE);
        try_call(&run, name, steps, TPAL_REFUSED_SHAPE);
    }
}

/* A state with one more number changed; a pick of the child's slot. */
static void try_changed(struct steps *steps, const char *name, size_t index, uint64_t number,
                        unsigned expected)
{
    static uint8_t unchanged[TPAL_STATE_BYTES];

    memcpy(unchanged, steps->state, sizeof unchanged);
    tpal_put_number(steps->state, index, number);
    steps->slot = 1;
    try_call(&pick, name, steps, expected);
    memcpy(steps->state, unchanged, sizeof unchanged);
}

static void try_changes(struct steps *steps)
{
    make_forked(steps);
    try_changed(steps, "F with r0 -1", IN_REGISTER(0, 0, VALUE), UINT64_MAX, TPAL_ACCEPTED);
    try_changed(steps, "F with a record of depth 2^32 - 1", IN_REGISTER(0, 1, DEPTH), WRAP_32 - 1,
                TPAL_ACCEPTED);
    tpal_put_number(steps->state, IN_REGISTER(0, 0, KIND), TPAL_KIND_LABEL);
    try_changed(steps, "F with label 3", IN_REGISTER(0, 0, VALUE), 3, TPAL_ACCEPTED);
    try_changed(steps, "F with label 2^32 + 3", IN_REGISTER(0, 0, VALUE), WRAP_32 + 3,
                TPAL_REFUSED_SHAPE);
    tpal_put_number(steps->state, IN_REGISTER(0, 0, VALUE), 3);
    try_changed(steps, "F with a label with a second number", IN_REGISTER(0, 0, DEPTH), 1,
                TPAL_REFUSED_SHAPE);

    make_waiting(steps);
    try_changed(steps, "F, its parent waiting", IN_SLOT(0, STATUS), TPAL_STATUS_WAITING,
                TPAL_ACCEPTED);
    try_changed(steps, "F with a waiting task's program counter", IN_SLOT(0, PC), 1,
                TPAL_REFUSED_SHAPE);
    try_changed(steps, "F with a waiting task's counter", IN_SLOT(0, COUNTER), 1,
                TPAL_REFUSED_SHAPE);
    tpal_put_number(steps->state, IN_SLOT(0, STATUS), TPAL_STATUS_FAULTED);
    try_changed(steps, "F with a faulted task's registers", IN_SLOT(0, FAULT), TPAL_FAULT_INDEX,
                TPAL_REFUSED_SHAPE);
    memset(steps->state + 8 * IN_REGISTER(0, 0, KIND), 0,
           8 * TPAL_REGISTER_COUNT * TPAL_REGISTER_NUMBERS);
    try_changed(steps, "F, its parent faulted", IN_SLOT(0, FAULT), TPAL_FAULT_INDEX, TPAL_ACCEPTED);
    try_changed(steps, "F with fault 30", IN_SLOT(0, FAULT), 30, TPAL_REFUSED_SHAPE);
    try_changed(steps, "F with fault 39", IN_SLOT(0, FAULT), 39, TPAL_REFUSED_SHAPE);
    try_changed(steps, "F with fault 2^8 + 33", IN_SLOT(0, FAULT), 256 + TPAL_FAULT_INDEX,
                TPAL_REFUSED_SHAPE);

    make_state(steps, steps->words, 0);
    try_changed(steps, "F, the child's slot vacant", IN_SLOT(0, STATUS), TPAL_STATUS_RUNNING,
                TPAL_REFUSED_NOT_RUNNING);
    try_changed(steps, "F with a waiting task at depth 0", IN_SLOT(0, STATUS), TPAL_STATUS_WAITING,
                TPAL_REFUSED_SHAPE);
    try_changed(steps, "F, halted", IN_SLOT(0, STATUS), TPAL_STATUS_HALTED, TPAL_REFUSED_ENDED);
}

/* Where questions stand in the order. */
static void try_precedence(struct steps *steps)
{
    make_forked(steps);
    steps->slot = 64;
    try_call(&pick, "F's slot 64", steps, TPAL_REFUSED_SLOT);
    tpal_put_number(steps->state, TPAL_STATE_WORK, 1);
    try_call(&pick, "and work 1", steps, TPAL_REFUSED_SHAPE);
    try_call(&run, "F with work 1", steps, TPAL_REFUSED_SHAPE);
    steps->report_len = 0;
    try_call(&run, "and no report bytes", steps, TPAL_REFUSED_BUFFER);
    steps->words_len = 1;
    try_call(&pick, "and a byte of words", steps, TPAL_REFUSED_BUFFER);
    steps->words_len = 8 * (TPAL_MAX_WORDS + 1);
    try_call(&pick, "and 4,097 words", steps, TPAL_REFUSED_WORDS);
    try_call(&run, "and 4,097 words", steps, TPAL_REFUSED_WORDS);
    tpal_put_number(steps->program, TPAL_PROGRAM_BLOCK_COUNT, 0);
    try_call(&pick, "and 0 blocks", steps, TPAL_REFUSED_COUNTS);
    try_call(&run, "and 0 blocks", steps, TPAL_REFUSED_COUNTS);
    tpal_put_number(steps->program, TPAL_PROGRAM_VERSION, 3);
    try_call(&pick, "and version 3", steps, TPAL_REFUSED_VERSION);
    try_call(&run, "and version 3", steps, TPAL_REFUSED_VERSION);

    make_forked(steps);
    memset(steps->state, FILL, TPAL_STATE_BYTES);
    try_call(&pick, "F with no state in the buffer", steps, TPAL_REFUSED_SHAPE);
    try_call(&run, "F with no state in the buffer", steps, TPAL_REFUSED_SHAPE);
    steps->words_len = 1;
    try_call(&pick, "and a byte of words", steps, TPAL_REFUSED_BUFFER);
    steps->words_len = 0;
    steps->report_len = 0;
    try_call(&run, "and no report bytes", steps, TPAL_REFUSED_BUFFER);
    make_forked(steps);
    memset(steps->state, 0, TPAL_STATE_BYTES);
    try_call(&pick, "F with a state of zeros", steps, TPAL_REFUSED_SHAPE);
    try_call(&run, "F with a state of zeros", steps, TPAL_REFUSED_SHAPE);
}

/* Block 2 is no join target any more. */
static void try_other_program(struct steps *steps)
{
    make_forked(steps);
    tpal_put_number(steps->program, TPAL_PROGRAM_BLOCK(2) + TPAL_BLOCK_ANNOTATION,
                    TPAL_ANNOTATION_NONE);
    tpal_put_number(steps->program, TPAL_PROGRAM_BLOCK(2) + TPAL_BLOCK_LABEL, 0);
    tpal_put_number(steps->program, TPAL_PROGRAM_BLOCK(2) + TPAL_BLOCK_PAIR_COUNT, 0);
    tpal_put_number(steps->program, TPAL_PROGRAM_BLOCK(2) + TPAL_BLOCK_PAIRS, 0);
    try_call(&pick, "F's state with another program", steps, TPAL_REFUSED_SHAPE);
    try_call(&run, "F's state with another program", steps, TPAL_REFUSED_SHAPE);
    call_start(steps);
    try_call(&pick, "that program, started", steps, TPAL_ACCEPTED);
    try_number("its fault", steps->state, IN_SLOT(0, FAULT), TPAL_FAULT_JOIN_TARGET);
}

static void try_picks(struct steps *steps)
{
    try_order(steps);
    try_saved(steps);
    try_lengths(steps, &pick);
    try_bad_programs(steps, &pick);
    try_bad_numbers(steps);
    try_changes(steps);
    try_precedence(steps);
    try_other_program(steps);
}

/* The report's first five numbers. */
static void try_report(const struct steps *steps, uint64_t end, uint64_t fault, uint64_t picks,
                       uint64_t work, uint64_t span)
{
    try_number("end", steps->report, TPAL_REPORT_END, end);
    try_number("fault", steps->report, TPAL_REPORT_FAULT, fault);
    try_number("picks", steps->report, TPAL_REPORT_PICKS, picks);
    try_number("work", steps->report, TPAL_REPORT_WORK, work);
    try_number("span", steps->report, TPAL_REPORT_SPAN, span);
    try_number("the state's work", steps->state, TPAL_STATE_WORK, work);
}

/* F run on from call to call. The passes begin at slot 0 each time. */
static void try_budgets(struct steps *steps)
{
    static const uint8_t order[] = {0, 0, 1, 0, 0, 1, 0, 0, 0};
    uint8_t job[JOB_LEN];
    uint8_t report[TPAL_REPORT_BYTES];

    make_f_steps(steps);
    call_start(steps);
    steps->budget = 0;
    try_call(&run, "F with budget 0", steps, TPAL_ACCEPTED);
    try_report(steps, TPAL_END_SPENT, 0, 0, 0, 0);
    try_replayed("a fresh start", steps, order, 0);
    steps->budget = 1;
    try_call(&run, "F with budget 1", steps, TPAL_ACCEPTED);
    try_report(steps, TPAL_END_SPENT, 0, 1, 1, 0);
    try_replayed("one pick", steps, order, 1);
    steps->budget = 3;
    try_call(&run, "and budget 3", steps, TPAL_ACCEPTED);
    try_report(steps, TPAL_END_SPENT, 0, 3, 4, 0);
    try_replayed("four picks", steps, order, 4);
    steps->budget = UINT64_MAX;
    try_call(&run, "and the largest budget", steps, TPAL_ACCEPTED);
    try_report(steps, TPAL_END_HALT, 0, 5, 9, 7);
    try_replayed("all picks", steps, order, sizeof order);
    make_job(job);
    tpal_job_run(job, sizeof job, TPAL_RUN_BUDGET, report, sizeof report);
    try_equal("the registers of the job's run", steps->report + 8 * TPAL_REPORT_REGISTER(0),
              report + 8 * TPAL_REPORT_REGISTER(0), sizeof report - 8 * TPAL_REPORT_REGISTER(0));
    try_call(&run, "F after its end", steps, TPAL_ACCEPTED);
    try_report(steps, TPAL_END_HALT, 0, 0, 9, 7);
    steps->budget = 0;
    try_call(&run, "F after its end with budget 0", steps, TPAL_ACCEPTED);
    try_report(steps, TPAL_END_HALT, 0, 0, 9, 7);

    make_waiting(steps);
    steps->budget = 5;
    try_call(&run, "F from four picks on with a budget to its end", steps, TPAL_ACCEPTED);
    try_report(steps, TPAL_END_HALT, 0, 5, 9, 7);
    make_f_steps(steps);
    steps->places = 1;
    call_start(steps);
    try_call(&run, "F with P 1", steps, TPAL_ACCEPTED);
    try_report(steps, TPAL_END_FAULT, TPAL_FAULT_PLACES, 2, 2, 2);
}

/* Work just below its limit. */
static void try_limit(struct steps *steps)
{
    make_waiting(steps);
    tpal_put_number(steps->state, TPAL_STATE_WORK, TPAL_MAX_WORK - 1);
    steps->slot = 1;
    try_call(&pick, "F with one instruction to the limit", steps, TPAL_ACCEPTED);
    try_number("work", steps->state, TPAL_STATE_WORK, TPAL_MAX_WORK);
    try_call(&pick, "F at the limit", steps, TPAL_REFUSED_WORK);
    steps->slot = 0;
    try_call(&pick, "F's waiting parent at the limit", steps, TPAL_REFUSED_NOT_RUNNING);
    steps->slot = 2;
    try_call(&pick, "F's slot 2 at the limit", steps, TPAL_REFUSED_SLOT);
    try_call(&run, "F at the limit", steps, TPAL_ACCEPTED);
    try_report(steps, TPAL_END_SPENT, 0, 0, TPAL_MAX_WORK, 0);

    make_waiting(steps);
    tpal_put_number(steps->state, TPAL_STATE_WORK, TPAL_MAX_WORK - 2);
    try_call(&run, "F with two instructions to the limit", steps, TPAL_ACCEPTED);
    try_report(steps, TPAL_END_SPENT, 0, 2, TPAL_MAX_WORK, 0);

    make_waiting(steps);
    tpal_put_number(steps->state, TPAL_STATE_WORK, TPAL_MAX_WORK - 5);
    try_call(&run, "F with five instructions to the limit", steps, TPAL_ACCEPTED);
    try_report(steps, TPAL_END_HALT, 0, 5, TPAL_MAX_WORK, 7);
    try_call(&pick, "F ended at the limit", steps, TPAL_REFUSED_ENDED);
}

static void try_runs_on(struct steps *steps)
{
    static const size_t off_by[] = {1, 8, TPAL_REPORT_BYTES};
    size_t i;

    try_budgets(steps);
    try_limit(steps);
    try_lengths(steps, &run);
    try_bad_programs(steps, &run);
    make_forked(steps);
    for (i = 0; i < sizeof off_by / sizeof *off_by; i++) {
        steps->report_len = TPAL_REPORT_BYTES - off_by[i];
        try_call(&run, "F with a short report", steps, TPAL_REFUSED_BUFFER);
    }
    for (i = 0; i < 2; i++) {
        steps->report_len = TPAL_REPORT_BYTES + off_by[i];
        try_call(&run, "F with a long report", steps, TPAL_REFUSED_BUFFER);
    }
}

void try_steps(void)
{
    static struct steps steps;

    try_starts(&steps);
    try_picks(&steps);
    try_runs_on(&steps);
}
