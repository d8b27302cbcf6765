// How much stack a public call takes: the call runs on a thread whose stack is filled with a pattern, and what is no longer the
// pattern afterwards was used. A thread that does nothing is taken off. Each call is then done again on a thread that has no more
// stack than the limit. Prints a line a case and 'N passed, M failed'.
#define _GNU_SOURCE
#include "cuddystove.h"
#include "bytes.h"
#include <pthread.h>
#include <stdio.h>
#include <stdlib.h>
#include <string.h>

#ifndef CHECK_LIMIT
#define CHECK_LIMIT (128 << 10)
#endif
#ifndef CALL_LIMIT
#define CALL_LIMIT (256 << 10)
#endif
enum { STACK = 1 << 20, PATTERN = 0xa5, LONG = 1000000 };

static uint8_t program[8192];
static size_t length;
static int nodes, definitions;
static struct cuddystove_verdict verdict, other_verdict;
static int32_t network[CUDDYSTOVE_CELLS], other_network[CUDDYSTOVE_CELLS];
static int32_t answer[2], other_answer[2];
static const uint8_t fire[] = {FIRE(1)};
static uint8_t text[LONG], table[4096];
static size_t text_length;
static size_t idle;
static int passed, failed;

// ---- Programs

static void start(void) {
    length = 0;
    nodes = 0;
    definitions = 0;
}

static void bytes(int count, const int *from) {
    for (int i = 0; i < count; i++) program[length++] = (uint8_t)from[i];
}
#define PUT(...) bytes(sizeof((int[]){__VA_ARGS__}) / sizeof(int), (int[]){__VA_ARGS__})
// A node; gives its number.
#define NODE(...) (PUT(1, 0, sizeof((int[]){__VA_ARGS__}) / sizeof(int)), PUT(__VA_ARGS__), nodes++)

static int constant(int n) { return NODE(CUDDYSTOVE_CONSTANT, 0, 0, 0, n); }
static int plus(int left, int right) { return NODE(CUDDYSTOVE_OPERATOR, CUDDYSTOVE_PLUS, left, right); }
static int define(int parameters, int body) {
    PUT(2, 0, 2, parameters, body);
    return definitions++;
}
static void end(int node) { PUT(3, 0, 1, node); }

// Senses around a node.
static int senses(int count, int node) {
    while (count-- > 0) node = NODE(CUDDYSTOVE_SENSE, node);
    return node;
}

// A chain of sense nodes over 1, as long as a table may be. Sensor 1 is lit, so each gives 1.
static void chain(int count) {
    start();
    end(senses(count - 1, constant(1)));
}

// 1 + (1 + (.. 1)), or the other way round: as many ones as there is room for.
static void sums(int right) {
    int node;
    start();
    node = constant(1);
    while (nodes + 2 <= CUDDYSTOVE_NODES) {
        int one = constant(1);
        node = plus(right ? one : node, right ? node : one);
    }
    end(node);
}

// Ifs or muxes in each other's operand `at`: condition, then, else. The operand is taken, and all is 1.
static void choices(int kind, int at) {
    int node;
    start();
    node = constant(1);
    while (nodes + 3 <= CUDDYSTOVE_NODES) {
        int operand[3] = {node, node, node};
        for (int i = 0; i < 3; i++) {
            if (i != at) operand[i] = constant(i == 0 && at == 2 ? 0 : 1);
        }
        node = NODE(kind, operand[0], operand[1], operand[2]);
    }
    end(node);
}

// Reps in each other's update (the sixteen there are), senses around.
static void reps(void) {
    int node;
    start();
    node = constant(1);
    for (int v = 0; v < CUDDYSTOVE_VARIABLES; v++) {
        int initial = constant(1);
        node = NODE(CUDDYSTOVE_REP, v, initial, node);
    }
    end(senses(CUDDYSTOVE_NODES - nodes, node));
}

// Calls in each other's argument.
static void arguments(void) {
    int node;
    start();
    define(1, NODE(CUDDYSTOVE_PARAMETER, 0));
    node = constant(1);
    while (nodes < CUDDYSTOVE_NODES) node = NODE(CUDDYSTOVE_CALL, 0, node);
    end(node);
}

// Calls through 32 definitions, with senses in each, or all at the bottom.
static void calls(int spread) {
    int left = CUDDYSTOVE_NODES - CUDDYSTOVE_DEFINITIONS - 1;
    start();
    define(0, senses(spread ? left - left / 32 * 31 : left, constant(1)));
    while (definitions < CUDDYSTOVE_DEFINITIONS) define(0, senses(spread ? left / 32 : 0, NODE(CUDDYSTOVE_CALL, definitions - 1)));
    end(NODE(CUDDYSTOVE_CALL, definitions - 1));
}

// Calls through 31 definitions, at the bottom a fold by definition, whose body is a chain of senses. Sensors 10 and 0 are not lit: 0.
static void fold_by(void) {
    int initial, range;
    start();
    define(2, senses(CUDDYSTOVE_NODES - 1 - 3 - 31, NODE(CUDDYSTOVE_PARAMETER, 1)));
    initial = constant(7);
    range = NODE(CUDDYSTOVE_NBR_RANGE, 1);
    define(0, NODE(CUDDYSTOVE_FOLD_BY, 0, initial, range));
    while (definitions < CUDDYSTOVE_DEFINITIONS) define(0, NODE(CUDDYSTOVE_CALL, definitions - 1));
    end(NODE(CUDDYSTOVE_CALL, definitions - 1));
}

// A fold of a chain of field operators, at the bottom of calls through that many definitions: each device's range or lag and a 1 a level.
static void fields(int kind, int through, int right) {
    int initial, field, node, levels = (CUDDYSTOVE_NODES - 3 - through) / 2;
    start();
    initial = constant(0);
    field = NODE(kind, 1);
    for (int i = 0; i < levels; i++) {
        int one = constant(1);
        field = plus(right ? one : field, right ? field : one);
    }
    node = NODE(CUDDYSTOVE_FOLD, CUDDYSTOVE_PLUS, initial, field);
    for (int d = 0; d < through; d++) {
        define(0, node);
        node = NODE(CUDDYSTOVE_CALL, d);
    }
    end(node);
}

// Folds in each other's nbr, with sums on the way, fifteen deep.
static void folds(void) {
    int node, more;
    start();
    node = constant(1);
    for (int slot = 1; slot < CUDDYSTOVE_ROW; slot++) {
        int initial = constant(1), field = NODE(CUDDYSTOVE_NBR, slot, node);
        for (more = 0; more < 6; more++) {
            int one = constant(1);
            field = plus(field, one);
        }
        node = NODE(CUDDYSTOVE_FOLD, CUDDYSTOVE_TIMES, initial, field);
    }
    end(node);
}

// Definitions that each call the one before twice: more than 2^32 nodes, if they were written out.
static void tower(int count) {
    start();
    define(0, constant(1));
    while (definitions < count) {
        int left = NODE(CUDDYSTOVE_CALL, definitions - 1), right = NODE(CUDDYSTOVE_CALL, definitions - 1);
        define(0, plus(left, right));
    }
    end(NODE(CUDDYSTOVE_CALL, count - 1));
}

// ---- Texts

// To the end of the text, so many times.
static void says(int times, const char *words) {
    while (times-- > 0) {
        const size_t more = strlen(words);
        if (more > LONG - text_length) abort();
        memcpy(text + text_length, words, more);
        text_length += more;
    }
}
// A text of three parts, the first and last so many times.
static void nests(int times, const char *first, const char *middle, const char *last) {
    text_length = 0;
    says(times, first);
    says(1, middle);
    says(times, last);
}
// A call through that many definitions, each of which calls the one before.
static void definitions_of(int count) {
    char words[40];
    text_length = 0;
    says(1, "(def f0()1)");
    for (int d = 1; d < count; d++) {
        snprintf(words, sizeof words, "(def f%d()(f%d))", d, d - 1);
        says(1, words);
    }
    snprintf(words, sizeof words, "(f%d)", count - 1);
    says(1, words);
}

// ---- Calls

static void *nothing(void *unused) { return unused; }
static void *check(void *unused) {
    verdict = cuddystove_check(program, length);
    return unused;
}
static void *read_text(void *unused) {
    verdict = cuddystove_read_text(text, text_length, table, sizeof table);
    return unused;
}
static void *event(void *unused) {
    verdict = cuddystove_event(program, length, network, CUDDYSTOVE_CELLS, fire, sizeof fire, answer, 2);
    return unused;
}
static void *run(void *unused) {
    verdict = cuddystove_run(program, length, network, CUDDYSTOVE_CELLS, fire, sizeof fire, answer, 2);
    return unused;
}
static void *run_both(void *unused) {
    struct cuddystove_verdicts v =
        cuddystove_run_both(program, length, network, CUDDYSTOVE_CELLS, other_network, CUDDYSTOVE_CELLS, fire, sizeof fire, fire,
                            sizeof fire, answer, 2, other_answer, 2);
    verdict = (struct cuddystove_verdict){v.number1, v.place1};
    other_verdict = (struct cuddystove_verdict){v.number2, v.place2};
    return unused;
}
static void *fresh(void *unused) {
    verdict = cuddystove_fresh(network, CUDDYSTOVE_CELLS);
    return unused;
}

// Device 1 with sensor 1 lit, every variable 1, and each other device at 10, heard two rounds ago with 0 in slot 1: folds go over fifteen
// devices, of lag 2, and the round lets them all fade.
static void prepare(int32_t *cells) {
    if (cuddystove_fresh(cells, CUDDYSTOVE_CELLS).number != CUDDYSTOVE_DONE) exit(1);
    cells[cuddystove_at_sensors(1)] = 1 << 1;
    for (int v = 0; v < CUDDYSTOVE_VARIABLES; v++) cells[cuddystove_at_variable(1, v)] = 1;
    for (int b = 2; b <= CUDDYSTOVE_DEVICES; b++) {
        cells[cuddystove_at_distance(1, b)] = 10;
        cells[cuddystove_at_heard(1, b, 1)] = 0;
        cells[cuddystove_at_age(1, b)] = CUDDYSTOVE_OLDEST;
    }
}

static void on_thread(pthread_attr_t *how, void *(*work)(void *)) {
    pthread_t thread;
    prepare(network);
    prepare(other_network);
    answer[0] = answer[1] = other_answer[0] = other_answer[1] = -1;
    if (pthread_create(&thread, how, work, NULL) != 0) abort();
    pthread_join(thread, NULL);
}

static size_t used(void *(*work)(void *)) {
    unsigned char *stack = aligned_alloc(4096, STACK);
    pthread_attr_t how;
    size_t untouched = 0;
    if (stack == NULL) abort();
    memset(stack, PATTERN, STACK);
    pthread_attr_init(&how);
    pthread_attr_setstack(&how, stack, STACK);
    on_thread(&how, work);
    while (untouched < STACK && stack[untouched] == PATTERN) untouched++;
    free(stack);
    return STACK - untouched;
}

// Whether the call did what it should, each time.
static int as_expected(void *(*work)(void *), uint32_t number, size_t place, int32_t value) {
    if (verdict.number != number || verdict.place != place) return 0;
    if (work == check || work == read_text || work == fresh) return 1;
    if (work == run_both && (other_verdict.number != number || other_verdict.place != place)) return 0;
    if (work == run_both && (other_answer[0] != 0 || other_answer[1] != value)) return 0;
    return answer[0] == 0 && answer[1] == value;
}

static void expect(const char *what, void *(*work)(void *), uint32_t number, size_t place, int32_t value) {
    size_t stack = used(work) - idle, limit = work == check || work == read_text ? CHECK_LIMIT : CALL_LIMIT;
    int good = as_expected(work, number, place, value) && stack + idle <= limit;
    if (good) {
        pthread_attr_t how;
        pthread_attr_init(&how);
        if (pthread_attr_setstacksize(&how, limit) != 0) abort();
        on_thread(&how, work);
        good = as_expected(work, number, place, value);
    }
    printf("%s: %u %zu", what, verdict.number, verdict.place);
    if (work != check && work != read_text && work != fresh) printf(", answer %d %d", answer[0], answer[1]);
    printf(", %zu bytes of stack%s\n", stack, good ? "" : ": FAILED");
    if (good) passed++;
    else failed++;
}

// A fold over fifteen devices, each with `each` in the field at the bottom and a 1 a sum.
static void over_fields(const char *of, int kind, int32_t each) {
    printf("fields by %s:\n", of);
    fields(kind, 0, 0);
    expect("check, 126 sums of fields in a fold, nested left", check, 0, 0, 0);
    expect("event, 126 sums of fields in a fold, nested left", event, 0, 0, 15 * (each + 126));
    fields(kind, 0, 1);
    expect("event, 126 sums of fields in a fold, nested right", event, 0, 0, 15 * (each + 126));
    fields(kind, 32, 0);
    expect("event, 110 sums of fields in a fold, below calls through 32 definitions", event, 0, 0, 15 * (each + 110));
    expect("run, the same", run, 0, 0, 15 * (each + 110));
    expect("run_both, the same", run_both, 0, 0, 15 * (each + 110));
}

// Texts of 1 MB, deep and flat, and those of tables with as many nodes as there may be.
static void over_texts(void) {
    nests(LONG / 2, "(f", "", "");
    expect("read_text, 500,000 brackets that call, none closed", read_text, 19, LONG, 0);
    nests(LONG / 8, "(sense ", "", ")");
    expect("read_text, 125,000 senses around nothing", read_text, 19, 7 * (LONG / 8), 0);
    nests(1, "(def f()1)(f", "", "");
    says((LONG - 13) / 2, " 1");
    says(1, ")");
    expect("read_text, a call with 499,993 operands", read_text, 2, 257, 0);
    nests(LONG - 1, " ", "1", "");
    expect("read_text, 999,999 blanks and a number", read_text, 0, 12, 0);
    nests(LONG, "a", "", "");
    expect("read_text, a word of 1,000,000 letters", read_text, 19, 16, 0);
    nests(255, "(sense ", "1", ")");
    expect("read_text, 255 senses", read_text, 0, 8 + 255 * 5 + 4, 0);
    nests(127, "(+ 1 ", "1", ")");
    expect("read_text, 127 sums, each the right side of the next", read_text, 0, 128 * 8 + 127 * 7 + 4, 0);
    nests(127, "(+ ", "1", " 1)");
    expect("read_text, 127 sums, each the left side of the next", read_text, 0, 128 * 8 + 127 * 7 + 4, 0);
    nests(128, "(+ 1 ", "1", ")");
    expect("read_text, 128 sums: 257 nodes", read_text, 2, 256, 0);
    definitions_of(32);
    expect("read_text, calls through 32 definitions", read_text, 0, 8 + 5 + 31 * (5 + 5) + 5 + 4, 0);
}

int main(void) {
    idle = used(nothing);
    chain(256);
    expect("check, a chain of 256 nodes", check, 0, 0, 0);
    expect("event, a chain of 256 nodes: senses", event, 0, 0, 1);
    chain(257);
    expect("check, a chain of 257 nodes", check, 2, 256, 0);
    tower(32);
    expect("check, a tower of 32 definitions", check, 10, 0, 0);
    tower(16);
    expect("check, a tower of 16 definitions", check, 0, 0, 0);
    expect("event, a tower of 16 definitions", event, 0, 0, 1 << 15);
    sums(0);
    expect("event, 127 sums, each the left side of the next", event, 0, 0, 128);
    sums(1);
    expect("check, 127 sums, each the right side of the next", check, 0, 0, 0);
    expect("event, 127 sums, each the right side of the next", event, 0, 0, 128);
    for (int at = 0; at < 3; at++) {
        static const char *const operand[] = {"condition", "then", "else"};
        char what[80];
        snprintf(what, sizeof what, "event, 85 ifs, each the %s of the next", operand[at]);
        choices(CUDDYSTOVE_IF, at);
        expect(what, event, 0, 0, 1);
        snprintf(what, sizeof what, "event, 85 muxes, each the %s of the next", operand[at]);
        choices(CUDDYSTOVE_MUX, at);
        expect(what, event, 0, 0, 1);
    }
    reps();
    expect("event, 16 reps, each in the update of the next, in 223 senses", event, 0, 0, 1);
    arguments();
    expect("check, 254 calls, each the argument of the next", check, 0, 0, 0);
    expect("event, 254 calls, each the argument of the next", event, 0, 0, 1);
    calls(0);
    expect("check, calls through 32 definitions, 223 senses at the bottom", check, 0, 0, 0);
    expect("event, calls through 32 definitions, 223 senses at the bottom", event, 0, 0, 1);
    calls(1);
    expect("check, calls through 32 definitions, 223 senses among them", check, 0, 0, 0);
    expect("event, calls through 32 definitions, 223 senses among them", event, 0, 0, 1);
    fold_by();
    expect("check, calls through 31 definitions to a fold by definition, 221 senses in its body", check, 0, 0, 0);
    expect("event, calls through 31 definitions to a fold by definition, 221 senses in its body", event, 0, 0, 0);
    over_fields("nbr-range", CUDDYSTOVE_NBR_RANGE, 10);
    over_fields("nbr-lag", CUDDYSTOVE_NBR_LAG, CUDDYSTOVE_OLDEST);
    folds();
    expect("event, 15 folds, each in the nbr of the next, of 6 sums each", event, 0, 0, 1);
    over_texts();
    expect("fresh", fresh, 0, 0, 0);
    printf("%d passed, %d failed\n", passed, failed);
    return failed != 0;
}
