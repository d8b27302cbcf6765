// The engine with one call spoiled, SPOIL of the list below, to show that tests/calls.c can fail. Linked with -Wl,--wrap=FUNCTION for
// each call, so that tests/calls.c calls the __wrap functions here, and these the engine by its __real names.
#include "cuddystove.h"
#include <stdlib.h>
#include <string.h>

enum spoil {
    READS_BEYOND_PROGRAM = 1, // check
    READS_BEYOND_TEXT,        // read_text
    WRITES_THE_TEXT,          // read_text: the byte that was there
    WRITES_BEYOND_TABLE,      // read_text
    PLACE_0_OF_A_TEXT,        // read_text: of one that is accepted
    NO_TABLE,                 // read_text: number and place are right
    CLEARS_THE_REST,          // read_text: of the slice, behind the table
    WRITES_ALL_THE_SAME,      // read_text: a byte, of a text that is refused
    NO_ROOM_FIRST,            // read_text: 13 before all else
    LEAVES_A_CELL,            // fresh: the last
    READS_BEFORE_LIST,        // event
    NEVER_STORES,             // event: the answers are right
    WRITES_A_CELL,            // event: one that no event here has to do with
    KEEPS_THE_AGES,           // event: a fire ages nothing
    AGES_A_FAULT,             // event: a fire that divides by 0 ages too
    FADES_THE_DISTANCE,       // event: with the slots of a sender
    AGES_BEFORE_READING,      // event: a fire's nbr-lag gives what the ages are after it
    LAG_AS_RANGE,             // event: nbr-lag is nbr-range
    WRITES_BEYOND_SPACE,      // run
    WRITES_THE_PROGRAM,       // run: the byte that was there
    WRONG_PLACE,              // run: of a refusal
    SECOND_AS_FIRST,          // run_both: answers the first list in the second space
    USES_HEAP,                // run: only valgrind sees it
    READS_UNWRITTEN           // run: only valgrind sees it
};
#define PROGRAM const uint8_t *program, size_t program_length
#define TEXT const uint8_t *text, size_t text_length, uint8_t *table, size_t table_length
#define REST int32_t *network, size_t network_length, const uint8_t *list, size_t list_length, int32_t *space, size_t space_length
#define TWICE                                                                                                                    \
    int32_t *network1, size_t network1_length, int32_t *network2, size_t network2_length, const uint8_t *list1,                \
        size_t list1_length, const uint8_t *list2, size_t list2_length, int32_t *space1, size_t space1_length, int32_t *space2, \
        size_t space2_length
struct cuddystove_verdict __real_cuddystove_check(PROGRAM), __wrap_cuddystove_check(PROGRAM);
struct cuddystove_verdict __real_cuddystove_read_text(TEXT), __wrap_cuddystove_read_text(TEXT);
struct cuddystove_verdict __real_cuddystove_fresh(int32_t *, size_t), __wrap_cuddystove_fresh(int32_t *, size_t);
struct cuddystove_verdict __real_cuddystove_event(PROGRAM, REST), __wrap_cuddystove_event(PROGRAM, REST);
struct cuddystove_verdict __real_cuddystove_run(PROGRAM, REST), __wrap_cuddystove_run(PROGRAM, REST);
struct cuddystove_verdicts __real_cuddystove_run_both(PROGRAM, TWICE), __wrap_cuddystove_run_both(PROGRAM, TWICE);

static volatile int seen;
static void look(const volatile uint8_t *at) { seen += *at; }

struct cuddystove_verdict __wrap_cuddystove_check(PROGRAM) {
    if (SPOIL == READS_BEYOND_PROGRAM) look(program + program_length);
    return __real_cuddystove_check(program, program_length);
}

struct cuddystove_verdict __wrap_cuddystove_read_text(TEXT) {
    static uint8_t kept[4096];
    const size_t whole = table_length < sizeof kept ? table_length : sizeof kept;
    struct cuddystove_verdict v;
    if (whole > 0) memcpy(kept, table, whole);
    if (SPOIL == READS_BEYOND_TEXT) look(text + text_length);
    if (SPOIL == WRITES_THE_TEXT && text_length > 0) *(volatile uint8_t *)text = text[0];
    v = __real_cuddystove_read_text(text, text_length, table, table_length);
    if (SPOIL == WRITES_BEYOND_TABLE) ((volatile uint8_t *)table)[table_length] = 0;
    if (SPOIL == NO_TABLE && whole > 0) memcpy(table, kept, whole);
    if (SPOIL == CLEARS_THE_REST && v.number == 0 && v.place < table_length) memset(table + v.place, 0, table_length - v.place);
    if (SPOIL == PLACE_0_OF_A_TEXT && v.number == 0) v.place = 0;
    if (SPOIL == WRITES_ALL_THE_SAME && v.number != 0 && table_length > 0) table[0] = 0;
    if (SPOIL == NO_ROOM_FIRST && table_length == 0) v.number = CUDDYSTOVE_SHORT_SPACE, v.place = 0;
    return v;
}

struct cuddystove_verdict __wrap_cuddystove_fresh(int32_t *network, size_t length) {
    int32_t kept = length > 0 ? network[length - 1] : 0;
    struct cuddystove_verdict v = __real_cuddystove_fresh(network, length);
    if (SPOIL == LEAVES_A_CELL && length > 0) network[length - 1] = kept;
    return v;
}

// What an event of `tag`, answered by `answer`, made of one age, made wrong.
static void spoil_age(int32_t *network, const int32_t *kept, int a, int b, uint8_t tag, int32_t answer) {
    const size_t age = cuddystove_at_age(a, b);
    const int fires = tag == CUDDYSTOVE_TAG_FIRE, had = kept[age] != CUDDYSTOVE_MARK, has = network[age] != CUDDYSTOVE_MARK;
    if (SPOIL == KEEPS_THE_AGES && fires) network[age] = kept[age];
    if (SPOIL == AGES_A_FAULT && fires && had && answer == CUDDYSTOVE_DIVIDED_BY_0) network[age]++;
    if (SPOIL == FADES_THE_DISTANCE && had && !has) network[cuddystove_at_distance(a, b)] = CUDDYSTOVE_MARK;
}

// Before a fire of a, ages of 0 and 1 get 1 more; after it they and the slots beside them are as the fire should leave them, which has
// added `added`. So nothing but nbr-lag has seen it.
static void age_early(int32_t *network, int a) {
    for (int b = 1; b <= CUDDYSTOVE_DEVICES; b++) {
        const size_t age = cuddystove_at_age(a, b);
        if (network[age] == 0 || network[age] == 1) network[age]++;
    }
}
static void as_it_should_be(int32_t *network, const int32_t *kept, int a, int32_t added) {
    for (int b = 1; b <= CUDDYSTOVE_DEVICES; b++) {
        const size_t age = cuddystove_at_age(a, b), slots = cuddystove_at_heard(a, b, 1);
        if (kept[age] != 0 && kept[age] != 1) continue;
        network[age] = kept[age] + added;
        memcpy(network + slots, kept + slots, 4 * (CUDDYSTOVE_ROW - 1));
    }
}

// The program with nbr-range for each nbr-lag; their bodies have one form.
static const uint8_t *with_ranges(PROGRAM) {
    static uint8_t changed[2048];
    if (program_length == 0 || program_length > sizeof changed) return program;
    memcpy(changed, program, program_length);
    for (size_t at = 0; at + 3 < program_length; at += 3 + 256u * changed[at + 1] + changed[at + 2])
        if (changed[at] == CUDDYSTOVE_TAG_NODE && changed[at + 3] == CUDDYSTOVE_NBR_LAG) changed[at + 3] = CUDDYSTOVE_NBR_RANGE;
    return changed;
}

struct cuddystove_verdict __wrap_cuddystove_event(PROGRAM, REST) {
    static int32_t kept[CUDDYSTOVE_CELLS];
    const int whole = network_length == CUDDYSTOVE_CELLS;
    const int fires = SPOIL == AGES_BEFORE_READING && whole && list_length == 4 && list[0] == CUDDYSTOVE_TAG_FIRE &&
                      cuddystove_within(list[3], 1, CUDDYSTOVE_DEVICES);
    struct cuddystove_verdict v;
    if (whole) memcpy(kept, network, sizeof kept);
    if (SPOIL == READS_BEFORE_LIST) look(list - 1);
    if (fires) age_early(network, list[3]);
    if (SPOIL == LAG_AS_RANGE) program = with_ranges(program, program_length);
    v = __real_cuddystove_event(program, program_length, network, network_length, list, list_length, space, space_length);
    if (fires) as_it_should_be(network, kept, list[3], v.number == 0 && space[0] == 0);
    for (int a = 1; SPOIL == NEVER_STORES && whole && a <= CUDDYSTOVE_DEVICES; a++)
        memcpy(network + cuddystove_at_variable(a, 0), kept + cuddystove_at_variable(a, 0), 4 * CUDDYSTOVE_VARIABLES);
    if (SPOIL == WRITES_A_CELL && whole && v.number == 0) network[cuddystove_at_heard(13, 12, 11)] = 0;
    for (int a = 1; whole && v.number == 0 && a <= CUDDYSTOVE_DEVICES; a++) {
        for (int b = 1; b <= CUDDYSTOVE_DEVICES; b++) spoil_age(network, kept, a, b, list[0], space[0]);
    }
    return v;
}

struct cuddystove_verdict __wrap_cuddystove_run(PROGRAM, REST) {
    struct cuddystove_verdict v =
        __real_cuddystove_run(program, program_length, network, network_length, list, list_length, space, space_length);
    if (SPOIL == WRITES_BEYOND_SPACE) ((volatile int32_t *)space)[space_length] = 0;
    if (SPOIL == WRITES_THE_PROGRAM && program_length > 0) *(volatile uint8_t *)program = program[0];
    if (SPOIL == WRONG_PLACE && v.number != 0) v.place++;
    if (SPOIL == USES_HEAP) {
        void *volatile block = malloc(16);
        free(block);
    }
    if (SPOIL == READS_UNWRITTEN) {
        volatile uint8_t unwritten[16];
        if (unwritten[seen & 15] == 7) seen++;
    }
    return v;
}

struct cuddystove_verdicts __wrap_cuddystove_run_both(PROGRAM, TWICE) {
    if (SPOIL == SECOND_AS_FIRST) list2 = list1, list2_length = list1_length;
    return __real_cuddystove_run_both(program, program_length, network1, network1_length, network2, network2_length, list1,
                                      list1_length, list2, list2_length, space1, space1_length, space2, space2_length);
}
