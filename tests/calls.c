// Every call on accepted and refused inputs, each refusal but 18, rounds with every kind of node, ages and lags, texts. Each slice lies
// against a page that cannot be touched, once at its end and once at its start, and what a call only reads cannot be written: a stray
// access ends this program. It uses no heap and no stdio, so that valgrind counts the library's own allocations. Prints the cases that
// failed and 'N passed, M failed'.
#define _GNU_SOURCE
#include "cuddystove.h"
#include "bytes.h"
#include <stdio.h>
#include <string.h>
#include <sys/mman.h>
#include <unistd.h>

enum { PAGE = 4096, ROOM = 10 * PAGE, SPACE_ROOM = 80, UNTOUCHED = -77 };
static int passed, failed;

// ---- Printing

static void say(const char *text) {
    if (write(1, text, strlen(text)) < 0) _exit(3);
}
static void say_number(int n) {
    char digits[12], *at = digits + 11;
    *at = 0;
    do *--at = (char)('0' + n % 10);
    while ((n /= 10) > 0);
    say(at);
}
static void judge(const char *what, int good) {
    if (good) passed++;
    else failed++;
    if (!good) say(what), say(": FAILED\n");
}

// ---- Lent memory

enum slice { PROGRAM, TEXT, TABLE, NETWORK, NETWORK2, LIST, LIST2, SPACE, SPACE2, SLICES };
static uint8_t *room[SLICES];

static void make_rooms(void) {
    for (int s = 0; s < SLICES; s++) {
        uint8_t *all = mmap(NULL, ROOM + 2 * PAGE, PROT_NONE, MAP_PRIVATE | MAP_ANONYMOUS, -1, 0);
        if (all == MAP_FAILED) _exit(4);
        room[s] = all + PAGE;
    }
}
// Where a slice of so many bytes stands: against the page before, or the page after, to which an empty one then points; or, the third
// way, an empty one has a null pointer and all others are as in the first.
enum place { FIRST, LAST, NULLS, PLACES };
static void *at(enum slice s, size_t bytes, enum place place) {
    if (place == NULLS && bytes == 0) return NULL;
    return room[s] + (place == LAST ? ROOM - bytes : 0);
}
static void *lend(enum slice s, const void *from, size_t bytes, enum place place) {
    if (bytes > ROOM || mprotect(room[s], ROOM, PROT_READ | PROT_WRITE) != 0) _exit(5);
    if (bytes > 0) memcpy(at(s, bytes, place), from, bytes);
    if ((s == PROGRAM || s == TEXT || s == LIST || s == LIST2) && mprotect(room[s], ROOM, PROT_READ) != 0) _exit(6);
    return at(s, bytes, place);
}
static int holds(enum slice s, const void *expected, size_t bytes, enum place place) {
    return bytes == 0 || memcmp(at(s, bytes, place), expected, bytes) == 0;
}

// ---- One case: what is lent, and what should come back

enum call { CHECK, FRESH, EVENT, RUN, BOTH };
static const uint8_t *program;
static size_t program_length;
static int32_t network[CUDDYSTOVE_CELLS + 1], after[CUDDYSTOVE_CELLS + 1], space[SPACE_ROOM], answered[SPACE_ROOM];
static size_t network_length, space_length;

#define PROGRAM_IS(bytes) (program = (bytes), program_length = sizeof(bytes))

// What one run should leave: the network `after`, the space `answered`.
static int left(enum slice net, enum slice spc, enum place place) {
    return holds(net, after, 4 * network_length, place) && holds(spc, answered, 4 * space_length, place);
}

static void expect(const char *what, enum call call, const uint8_t *list, size_t list_length, uint32_t number, size_t place) {
    int good = 1;
    for (int i = FIRST; i < PLACES; i++) {
        const enum place there = (enum place)i;
        const uint8_t *p = lend(PROGRAM, program, program_length, there), *l = lend(LIST, list, list_length, there);
        int32_t *n = lend(NETWORK, network, 4 * network_length, there), *s = lend(SPACE, space, 4 * space_length, there);
        struct cuddystove_verdict v = {0, 0};
        switch (call) {
        case CHECK: v = cuddystove_check(p, program_length); break;
        case FRESH: v = cuddystove_fresh(n, network_length); break;
        case EVENT: v = cuddystove_event(p, program_length, n, network_length, l, list_length, s, space_length); break;
        case RUN: v = cuddystove_run(p, program_length, n, network_length, l, list_length, s, space_length); break;
        case BOTH: {
            // The list on both sides: both must do what one run does.
            const uint8_t *k = lend(LIST2, list, list_length, there);
            int32_t *m = lend(NETWORK2, network, 4 * network_length, there), *t = lend(SPACE2, space, 4 * space_length, there);
            struct cuddystove_verdicts w =
                cuddystove_run_both(p, program_length, n, network_length, m, network_length, l, list_length, k, list_length, s,
                                    space_length, t, space_length);
            good = good && w.number2 == number && w.place2 == place && left(NETWORK2, SPACE2, there);
            v.number = w.number1;
            v.place = w.place1;
        }
        }
        good = good && v.number == number && v.place == place && left(NETWORK, SPACE, there);
    }
    judge(what, good);
}

// Before a case: what a call should leave is what it is lent, but for what the case then says.
static void same(void) {
    memcpy(after, network, sizeof after);
    memcpy(answered, space, sizeof answered);
}
static void fresh(size_t space_now) {
    for (int i = 0; i <= CUDDYSTOVE_CELLS; i++) network[i] = CUDDYSTOVE_MARK;
    for (int a = 1; a <= CUDDYSTOVE_DEVICES; a++) {
        network[cuddystove_at_sensors(a)] = 0;
        for (int b = 1; b <= CUDDYSTOVE_DEVICES; b++) network[cuddystove_at_is_pending(a, b)] = 0;
    }
    for (int i = 0; i < SPACE_ROOM; i++) space[i] = UNTOUCHED;
    network_length = CUDDYSTOVE_CELLS;
    space_length = space_now;
    same();
}
static void answer(int k, int32_t code, int32_t value) {
    answered[2 * k] = code;
    answered[2 * k + 1] = value;
}
static void refused_call(const char *what, enum call call, const uint8_t *list, size_t length, uint32_t number, size_t place) {
    same();
    expect(what, call, list, length, number, place);
}
static void one_event(const char *what, const uint8_t *list, size_t length, int32_t code, int32_t value) {
    answer(0, code, value);
    expect(what, EVENT, list, length, 0, 0);
    expect(what, RUN, list, length, 0, 0);
    expect(what, BOTH, list, length, 0, 0);
    memcpy(network, after, sizeof network);
    same();
}
#define LIST(...) (const uint8_t[]){__VA_ARGS__}, sizeof((const uint8_t[]){__VA_ARGS__})
#define EMPTY (const uint8_t *)"", 0
static void refused_program(const char *what, uint32_t number, size_t place) {
    fresh(2);
    refused_call(what, CHECK, EMPTY, number, place);
    refused_call(what, EVENT, LIST(FIRE(1)), number, place);
    refused_call(what, RUN, EMPTY, number, place);
    refused_call(what, BOTH, LIST(9), number, place);
}
#define BAD_TABLE(what, number, place, ...)           \
    do {                                              \
        static const uint8_t table[] = {__VA_ARGS__}; \
        PROGRAM_IS(table);                            \
        refused_program(what, number, place);         \
    } while (0)
// To the end of `table`, which is `length` long.
#define GROW(...) (memcpy(table + length, LIST(__VA_ARGS__)), length += sizeof((const uint8_t[]){__VA_ARGS__}))

#define CONST(n) 1, 0, 5, CUDDYSTOVE_CONSTANT, BYTES(n)
#define PARAMETER(p) 1, 0, 2, CUDDYSTOVE_PARAMETER, p
#define VARIABLE(v) 1, 0, 2, CUDDYSTOVE_VARIABLE, v
#define OPERATOR(o, left, right) 1, 0, 4, CUDDYSTOVE_OPERATOR, CUDDYSTOVE_##o, left, right
#define SENSE(child) 1, 0, 2, CUDDYSTOVE_SENSE, child
#define REP(v, initial, update) 1, 0, 4, CUDDYSTOVE_REP, v, initial, update
#define IF(condition, one, other) 1, 0, 4, CUDDYSTOVE_IF, condition, one, other
#define MUX(condition, one, other) 1, 0, 4, CUDDYSTOVE_MUX, condition, one, other
#define NBR(slot, child) 1, 0, 3, CUDDYSTOVE_NBR, slot, child
#define RANGE(slot) 1, 0, 2, CUDDYSTOVE_NBR_RANGE, slot
#define LAG(slot) 1, 0, 2, CUDDYSTOVE_NBR_LAG, slot
#define FOLD(o, initial, field) 1, 0, 4, CUDDYSTOVE_FOLD, CUDDYSTOVE_##o, initial, field
#define FOLD_BY(d, initial, field) 1, 0, 4, CUDDYSTOVE_FOLD_BY, d, initial, field
#define CALL0(d) 1, 0, 2, CUDDYSTOVE_CALL, d
#define CALL1(d, a) 1, 0, 3, CUDDYSTOVE_CALL, d, a
#define CALL2(d, a, b) 1, 0, 4, CUDDYSTOVE_CALL, d, a, b
#define CALL4(d, a, b, c, e) 1, 0, 6, CUDDYSTOVE_CALL, d, a, b, c, e
#define DEFINITION(parameters, body) 2, 0, 2, parameters, body
#define MAIN(n) 3, 0, 1, n

// 01's program (i).
static const uint8_t counter[] = {CONST(0), VARIABLE(0), CONST(1), OPERATOR(PLUS, 1, 2), REP(0, 0, 3), MAIN(4)};
// The sum of what is heard in slot 3, from 100 on; sends 5 in it.
static const uint8_t gossip[] = {CONST(100), CONST(5), NBR(3, 1), FOLD(PLUS, 0, 2), MAIN(3)};
static const uint8_t divides[] = {CONST(1), CONST(0), OPERATOR(DIVIDE, 0, 1), MAIN(2)};
// 000's distance-to, as in examples/host.c: (rep d inf (mux (sense 1) 0 (fold-hood* min inf (+ (nbr d) (nbr-range)))))
static const uint8_t distance[] = {
    PARAMETER(0), PARAMETER(1), OPERATOR(LESS, 0, 1), PARAMETER(0), PARAMETER(1), IF(2, 3, 4), //  0 to 5
    DEFINITION(2, 5),                                                                          // min
    CONST(CUDDYSTOVE_INF), CONST(1), SENSE(7), CONST(0), CONST(CUDDYSTOVE_INF),                //  6 to 10
    VARIABLE(0), NBR(1, 11), RANGE(2), OPERATOR(PLUS, 12, 13), FOLD_BY(0, 10, 14),             // 11 to 15
    MUX(8, 9, 15), REP(0, 6, 16), MAIN(17),                                                    // 16 to 17
};
// (def down (n) (rep y n (- y 1))) (def twice (n) (down (+ n n)))
// (if (sense 1) (+ (rep x 0 (+ x 1)) (fold-hood* + 0 (nbr 7))) (twice 5)), with y as variable 15 and the nbr by slot 15
static const uint8_t branches[] = {
    PARAMETER(0), VARIABLE(15), CONST(1), OPERATOR(MINUS, 1, 2), REP(15, 0, 3),  //  0 to 4
    DEFINITION(1, 4),                                                            // down
    PARAMETER(0), PARAMETER(0), OPERATOR(PLUS, 5, 6), CALL1(0, 7),               //  5 to 8
    DEFINITION(1, 8),                                                            // twice
    CONST(1), SENSE(9),                                                          //  9, 10
    CONST(0), VARIABLE(0), CONST(1), OPERATOR(PLUS, 12, 13), REP(0, 11, 14),     // 11 to 15
    CONST(0), CONST(7), NBR(15, 17), FOLD(PLUS, 16, 18), OPERATOR(PLUS, 15, 19), // 16 to 20
    CONST(5), CALL1(1, 21), IF(10, 20, 22), MAIN(23),                            // 21 to 23
};
// (+ (fold-hood* - 1000 (/ 120 (nbr-range)))
//    (* 10 (+ (fold-hood* > 5 (- (nbr (sense 2)) 1))
//             (fold-hood* * 1 (if (sense 3) (+ (nbr 6) (nbr-range)) (/ (nbr-range) 8))))))
static const uint8_t fields[] = {
    CONST(1000), CONST(120), RANGE(1), OPERATOR(DIVIDE, 1, 2), FOLD(MINUS, 0, 3),                              //  0 to 4
    CONST(10),                                                                                                 //  5
    CONST(5), CONST(2), SENSE(7), NBR(2, 8), CONST(1), OPERATOR(MINUS, 9, 10), FOLD(GREATER, 6, 11),           //  6 to 12
    CONST(1), CONST(3), SENSE(14), CONST(6), NBR(3, 16), RANGE(4), OPERATOR(PLUS, 17, 18),                     // 13 to 19
    RANGE(5), CONST(8), OPERATOR(DIVIDE, 20, 21), IF(15, 19, 22), FOLD(TIMES, 13, 23), OPERATOR(PLUS, 12, 24), // 20 to 25
    OPERATOR(TIMES, 5, 25), OPERATOR(PLUS, 4, 26), MAIN(27),                                                   // 26, 27
};
// (def four (a b c d) (- (* a b) (/ c d))) (def weigh (s n) (four s 2 n 3))
// (mux (== (fold-hood* weigh 1 (nbr 9)) -12) (four 7 6 5 2) (rep x 1 (* x 2)))
static const uint8_t weighs[] = {
    PARAMETER(0), PARAMETER(1), PARAMETER(2), PARAMETER(3),                                              //  0 to 3
    OPERATOR(TIMES, 0, 1), OPERATOR(DIVIDE, 2, 3), OPERATOR(MINUS, 4, 5), DEFINITION(4, 6),              //  4 to 6: four
    PARAMETER(0), CONST(2), PARAMETER(1), CONST(3), CALL4(0, 7, 8, 9, 10), DEFINITION(2, 11),            //  7 to 11: weigh
    CONST(1), CONST(9), NBR(1, 13), FOLD_BY(1, 12, 14), CONST(-12), OPERATOR(EQUAL, 15, 16),             // 12 to 17
    CONST(7), CONST(6), CONST(5), CONST(2), CALL4(0, 18, 19, 20, 21),                                    // 18 to 22
    CONST(1), VARIABLE(0), CONST(2), OPERATOR(TIMES, 24, 25), REP(0, 23, 26), MUX(17, 22, 27), MAIN(28), // 23 to 28
};
// Three divisions by 0 (nodes 2, 5 and 8), and what divides first.
#define THREE CONST(1), CONST(0), OPERATOR(DIVIDE, 0, 1), CONST(2), CONST(0), OPERATOR(DIVIDE, 3, 4), CONST(3), CONST(0), \
              OPERATOR(DIVIDE, 6, 7)
static const uint8_t mux_first[] = {THREE, MUX(2, 5, 8), MAIN(9)};
static const uint8_t if_first[] = {THREE, IF(2, 5, 8), MAIN(9)};
static const uint8_t left_first[] = {THREE, OPERATOR(PLUS, 5, 2), OPERATOR(PLUS, 9, 8), MAIN(10)};
static const uint8_t fold_first[] = {THREE, NBR(1, 2), FOLD(PLUS, 5, 9), OPERATOR(PLUS, 10, 8), MAIN(11)};
static const uint8_t rep_first[] = {THREE, REP(0, 5, 2), OPERATOR(PLUS, 9, 8), MAIN(10)};
#define SUM PARAMETER(0), PARAMETER(1), OPERATOR(PLUS, 9, 10), DEFINITION(2, 11)
static const uint8_t fold_by_first[] = {THREE, SUM, NBR(1, 2), FOLD_BY(0, 5, 12), OPERATOR(PLUS, 13, 8), MAIN(14)};
static const uint8_t argument_first[] = {THREE, SUM, CALL2(0, 5, 2), OPERATOR(PLUS, 12, 8), MAIN(13)};
// (def over (a b) (/ a b)), its division node 2; (over 8 (sense 3)), and (fold-hood* over 100 (nbr (sense 3)))
#define OVER PARAMETER(0), PARAMETER(1), OPERATOR(DIVIDE, 0, 1), DEFINITION(2, 2)
static const uint8_t calls_over[] = {OVER, CONST(8), CONST(3), SENSE(4), CALL2(0, 3, 5), MAIN(6)};
static const uint8_t folds_over[] = {OVER, CONST(100), CONST(3), SENSE(4), NBR(1, 5), FOLD_BY(0, 3, 6), MAIN(7)};
// (fold-hood* * 3 (/ (nbr 1) 0)), and without the division
static const uint8_t empty_over[] = {CONST(3), CONST(1), NBR(1, 1), CONST(0), OPERATOR(DIVIDE, 2, 3), FOLD(TIMES, 0, 4), MAIN(5)};
static const uint8_t product[] = {CONST(3), CONST(1), NBR(1, 1), FOLD(TIMES, 0, 2), MAIN(3)};
// (mux 2 5 6), (if 2 5 6)
static const uint8_t mux_2[] = {CONST(2), CONST(5), CONST(6), MUX(0, 1, 2), MAIN(3)};
static const uint8_t if_2[] = {CONST(2), CONST(5), CONST(6), IF(0, 1, 2), MAIN(3)};
// (rep x 1 (+ x (rep y x (+ x y))))
static const uint8_t nested[] = {
    CONST(1), VARIABLE(0), VARIABLE(0), VARIABLE(0), VARIABLE(1), OPERATOR(PLUS, 3, 4), REP(1, 2, 5), OPERATOR(PLUS, 1, 6),
    REP(0, 0, 7), MAIN(8),
};
// (if (sense 0) 5 (/ 1 0))
static const uint8_t spared[] = {CONST(0), SENSE(0), CONST(5), CONST(1), CONST(0), OPERATOR(DIVIDE, 3, 4), IF(1, 2, 5), MAIN(6)};
// (rep x (/ 6 (sense 1)) (+ x 1))
static const uint8_t initial_again[] = {
    CONST(6), CONST(1), SENSE(1), OPERATOR(DIVIDE, 0, 2), VARIABLE(0), CONST(1), OPERATOR(PLUS, 4, 5), REP(0, 3, 6), MAIN(7),
};

// (fold-hood* + 0 (* (nbr 1) (+ 5 (nbr-lag)))), by slots 2 and 4
static const uint8_t lags[] = {
    CONST(0), CONST(1), NBR(2, 1), CONST(5), LAG(4), OPERATOR(PLUS, 3, 4), OPERATOR(TIMES, 2, 5), FOLD(PLUS, 0, 6), MAIN(7),
};
// (fold-hood* + 100 (+ 5 (nbr-lag))), by slot 3: 5 and its age for each device heard
static const uint8_t late[] = {CONST(100), CONST(5), LAG(3), OPERATOR(PLUS, 1, 2), FOLD(PLUS, 0, 3), MAIN(4)};
// (fold-hood* min inf (+ (nbr-range) (* 25 (nbr-lag)))), by slots 1 and 2
static const uint8_t nearest[] = {
    PARAMETER(0), PARAMETER(1), OPERATOR(LESS, 0, 1), PARAMETER(0), PARAMETER(1), IF(2, 3, 4), DEFINITION(2, 5), //  0 to 5
    CONST(CUDDYSTOVE_INF), RANGE(1), CONST(25), LAG(2), OPERATOR(TIMES, 8, 9), OPERATOR(PLUS, 7, 10),            //  6 to 11
    FOLD_BY(0, 6, 11), MAIN(12),
};
// (fold-hood* + 0 (if (sense 1) (nbr-lag) (nbr-range))), by slots 1 and 15
static const uint8_t lag_or_range[] = {
    CONST(0), CONST(1), SENSE(1), LAG(1), RANGE(15), IF(2, 3, 4), FOLD(PLUS, 0, 5), MAIN(6),
};
// (mux (sense 1) 7 (fold-hood* + 0 (nbr-lag))), by slot 9
static const uint8_t lag_aside[] = {
    CONST(1), SENSE(0), CONST(7), CONST(0), LAG(9), FOLD(PLUS, 3, 4), MUX(1, 2, 5), MAIN(6),
};
// (fold-hood* + 0 (/ 6 (nbr-lag)))
static const uint8_t over_lag[] = {CONST(0), CONST(6), LAG(1), OPERATOR(DIVIDE, 1, 2), FOLD(PLUS, 0, 3), MAIN(4)};

static void programs(void) {
    static uint8_t many[257 * 5 + 20];
    size_t length = 0;
    fresh(2);
    PROGRAM_IS(counter);
    expect("check", CHECK, EMPTY, 0, 0);
    PROGRAM_IS(gossip);
    expect("check", CHECK, EMPTY, 0, 0);
    program = counter;
    program_length = sizeof counter - 1;
    refused_call("1", CHECK, EMPTY, 1, 5);
    program_length = 0;
    refused_call("empty table", CHECK, EMPTY, 6, 0);
    refused_call("empty table", RUN, EMPTY, 6, 0);
    BAD_TABLE("1", 1, 0, 9, 0, 0);
    BAD_TABLE("3", 3, 0, 1, 0, 1, 14);
    BAD_TABLE("4", 4, 0, 1, 0, 2, CUDDYSTOVE_SENSE, 0);
    BAD_TABLE("5", 5, 2, CONST(1), 1, 0, 2, CUDDYSTOVE_SENSE, 0, 1, 0, 2, CUDDYSTOVE_SENSE, 0);
    BAD_TABLE("6", 6, 0, CONST(1));
    BAD_TABLE("7", 7, 0, 1, 0, 2, CUDDYSTOVE_NBR_RANGE, 1, MAIN(0));
    BAD_TABLE("8", 8, 0, 1, 0, 2, CUDDYSTOVE_PARAMETER, 0, MAIN(0));
    BAD_TABLE("9", 9, 3, 1, 0, 2, CUDDYSTOVE_PARAMETER, 0, 2, 0, 2, 1, 0, CONST(1), 1, 0, 2, CUDDYSTOVE_NBR_RANGE, 1, 1, 0, 4,
              CUDDYSTOVE_FOLD_BY, 0, 1, 2, MAIN(3));
    // 257 nodes, the last of them one too many.
    for (int n = 0; n <= CUDDYSTOVE_NODES; n++) {
        const uint8_t first[] = {CONST(1)}, next[] = {1, 0, 2, CUDDYSTOVE_SENSE, (uint8_t)(n - 1)};
        memcpy(many + length, n == 0 ? first : next, n == 0 ? sizeof first : sizeof next);
        length += n == 0 ? sizeof first : sizeof next;
    }
    program = many;
    program_length = length;
    fresh(2);
    refused_call("2", CHECK, EMPTY, 2, 256);
    // Nineteen definitions that each call the one before twice cost 2^20 - 3.
    length = 0;
    for (int d = 0; d < 20; d++) {
        const uint8_t n = (uint8_t)(3 * d - 2), c = (uint8_t)(d - 1);
        const uint8_t first[] = {CONST(1), 2, 0, 2, 0, 0};
        const uint8_t next[] = {1, 0, 2, CUDDYSTOVE_CALL, c, 1, 0, 2, CUDDYSTOVE_CALL, c, 1, 0, 4, CUDDYSTOVE_OPERATOR,
                                CUDDYSTOVE_PLUS, n, (uint8_t)(n + 1), 2, 0, 2, 0, (uint8_t)(n + 2)};
        const uint8_t last[] = {1, 0, 2, CUDDYSTOVE_CALL, 18, MAIN(55)};
        const uint8_t *from = d == 0 ? first : d == 19 ? last : next;
        const size_t size = d == 0 ? sizeof first : d == 19 ? sizeof last : sizeof next;
        memcpy(many + length, from, size);
        length += size;
    }
    program_length = length;
    refused_call("10", CHECK, EMPTY, 10, 0);
    refused_call("10", EVENT, LIST(FIRE(1)), 10, 0);
}

// Each refusal of a node that is nbr-lag, up to 6, and of kinds beyond it; 2 comes next, and 4 it can't get: it names no node.
static void lag_nodes_refused(void) {
    BAD_TABLE("nbr-lag: no slot", 1, 0, 1, 0, 1, CUDDYSTOVE_NBR_LAG);
    BAD_TABLE("nbr-lag: a child", 1, 1, CONST(0), 1, 0, 3, CUDDYSTOVE_NBR_LAG, 1, 0);
    BAD_TABLE("nbr-lag: cut short", 1, 0, 1, 0, 2, CUDDYSTOVE_NBR_LAG);
    BAD_TABLE("nbr-lag: its length before its slot", 1, 0, 1, 0, 3, CUDDYSTOVE_NBR_LAG, 0, 0);
    BAD_TABLE("nbr-lag: kind 14 before its length", 3, 0, 1, 0, 3, 14, 1, 0);
    BAD_TABLE("nbr-lag: kind 14 after it", 3, 1, LAG(1), 1, 0, 2, 14, 2);
    BAD_TABLE("nbr-lag: kind 255 after it", 3, 1, LAG(1), 1, 0, 2, 255, 2);
    BAD_TABLE("nbr-lag: slot 0", 3, 0, LAG(0));
    BAD_TABLE("nbr-lag: slot 16", 3, 1, LAG(15), LAG(16));
    BAD_TABLE("nbr-lag: slot 17", 3, 1, LAG(15), LAG(17));
    BAD_TABLE("nbr-lag: slot 255", 3, 0, LAG(255));
    BAD_TABLE("nbr-lag: twice by one slot", 5, 1, LAG(1), LAG(1));
    BAD_TABLE("nbr-lag: by nbr-range's slot", 5, 1, RANGE(15), LAG(15));
    BAD_TABLE("nbr-lag: nbr-range by its slot", 5, 1, LAG(15), RANGE(15));
    BAD_TABLE("nbr-lag: by nbr's slot", 5, 2, CONST(0), NBR(7, 0), LAG(7));
    BAD_TABLE("nbr-lag: nbr by its slot", 5, 2, LAG(7), CONST(0), NBR(7, 1));
    BAD_TABLE("nbr-lag: named twice", 5, 1, LAG(1), OPERATOR(PLUS, 0, 0));
    BAD_TABLE("nbr-lag: nothing names it", 6, 0, CONST(0), LAG(1), MAIN(0));
}
// As the 257th node it is one too many, before its length and slot are looked at.
static void lag_after_256_nodes(void) {
    static uint8_t table[CUDDYSTOVE_NODES * 5 + 20];
    size_t length = 0;
    GROW(CONST(1));
    for (int n = 1; n < CUDDYSTOVE_NODES; n++) GROW(SENSE((uint8_t)(n - 1)));
    const size_t full = length;
    program = table;
    GROW(LAG(1));
    program_length = length;
    refused_program("nbr-lag: the 257th node", 2, CUDDYSTOVE_NODES);
    length = full;
    GROW(LAG(0));
    program_length = length;
    refused_program("nbr-lag: the 257th node, slot 0", 2, CUDDYSTOVE_NODES);
    length = full;
    GROW(1, 0, 1, CUDDYSTOVE_NBR_LAG);
    program_length = length;
    refused_program("nbr-lag: the 257th node, no slot", 2, CUDDYSTOVE_NODES);
}
// A field where a number belongs (7), and spatial definitions (9).
static void lags_misplaced(void) {
    BAD_TABLE("nbr-lag: main", 7, 0, LAG(1), MAIN(0));
    BAD_TABLE("nbr-lag: a definition's body", 7, 0, LAG(1), DEFINITION(0, 0), CONST(0), MAIN(1));
    BAD_TABLE("nbr-lag: sense of it", 7, 1, LAG(1), SENSE(0), MAIN(1));
    BAD_TABLE("nbr-lag: a sum of it and a number", 7, 2, LAG(1), CONST(0), OPERATOR(PLUS, 0, 1), MAIN(2));
    BAD_TABLE("nbr-lag: nbr of it", 7, 1, LAG(1), NBR(2, 0), CONST(0), FOLD(PLUS, 2, 1), MAIN(3));
    BAD_TABLE("nbr-lag: the initial part of a rep", 7, 2, LAG(1), CONST(0), REP(0, 0, 1), MAIN(2));
    BAD_TABLE("nbr-lag: the update of a rep", 7, 2, CONST(0), LAG(1), REP(0, 0, 1), MAIN(2));
    BAD_TABLE("nbr-lag: the condition of an if", 7, 3, LAG(1), CONST(0), CONST(0), IF(0, 1, 2), MAIN(3));
    BAD_TABLE("nbr-lag: then of an if", 7, 3, CONST(0), LAG(1), CONST(0), IF(0, 1, 2), MAIN(3));
    BAD_TABLE("nbr-lag: else of an if", 7, 3, CONST(0), CONST(0), LAG(1), IF(0, 1, 2), MAIN(3));
    BAD_TABLE("nbr-lag: the condition of a mux", 7, 3, LAG(1), CONST(0), CONST(0), MUX(0, 1, 2), MAIN(3));
    BAD_TABLE("nbr-lag: then of a mux", 7, 3, CONST(0), LAG(1), CONST(0), MUX(0, 1, 2), MAIN(3));
    BAD_TABLE("nbr-lag: else of a mux", 7, 3, CONST(0), CONST(0), LAG(1), MUX(0, 1, 2), MAIN(3));
    BAD_TABLE("nbr-lag: a fold's initial part", 7, 2, LAG(1), LAG(2), FOLD(PLUS, 0, 1), MAIN(2));
    BAD_TABLE("nbr-lag: the initial part of a fold by definition", 7, 3, PARAMETER(0), DEFINITION(2, 0), LAG(1), LAG(2),
              FOLD_BY(0, 1, 2), MAIN(3));
    BAD_TABLE("nbr-lag: an argument", 7, 2, PARAMETER(0), DEFINITION(1, 0), LAG(1), CALL1(0, 1), MAIN(2));
#define SUM_OF_LAGS CONST(0), LAG(1), FOLD(PLUS, 0, 1), DEFINITION(0, 2)
    BAD_TABLE("nbr-lag: its definition called twice", 9, 4, SUM_OF_LAGS, CALL0(0), CALL0(0), OPERATOR(PLUS, 3, 4), MAIN(5));
    BAD_TABLE("nbr-lag: its definition called by one that is called twice", 9, 5, SUM_OF_LAGS, CALL0(0), DEFINITION(0, 3), CALL0(1),
              CALL0(1), OPERATOR(PLUS, 4, 5), MAIN(6));
    BAD_TABLE("nbr-lag: folded by its definition", 9, 5, PARAMETER(0), LAG(1), FOLD(PLUS, 0, 1), DEFINITION(2, 2), CONST(0), LAG(2),
              FOLD_BY(0, 3, 4), MAIN(5));
}
// nbr-lag costs 1: a main that folds it costs 1,000,000 and passes, and one with a sense around it does not.
static void lag_costs_1(void) {
    static const uint8_t called[] = {17, 16, 15, 14, 12, 7, 4}; // a call of definition d, added, costs 2^(d + 2) - 1
    static uint8_t table[600];
    size_t length = 0;
    uint8_t n = 0; // the last node
    GROW(CONST(1), DEFINITION(0, 0));
    for (uint8_t d = 0; d < 17; d++, n += 3) GROW(CALL0(d), CALL0(d), OPERATOR(PLUS, n + 1, n + 2), DEFINITION(0, n + 3));
    GROW(CONST(0), LAG(1), FOLD(PLUS, n + 1, n + 2)), n += 3;
    for (size_t i = 0; i < sizeof called; i++, n += 2) GROW(CALL0(called[i]), OPERATOR(PLUS, n, n + 1));
    for (int i = 0; i < 2; i++, n += 2) GROW(CONST(0), OPERATOR(PLUS, n, n + 1));
    GROW(MAIN(n));
    fresh(2);
    program = table;
    program_length = length;
    expect("a cost of 1,000,000", CHECK, EMPTY, 0, 0);
    length -= 4;
    GROW(SENSE(n), MAIN(n + 1));
    program_length = length;
    refused_call("a cost of 1,000,001", CHECK, EMPTY, 10, 0);
}

// A network that is fresh but for this number in this cell.
static void refused_cell(size_t cell, int32_t number) {
    fresh(2);
    network[cell] = number;
    refused_call("11", EVENT, LIST(FIRE(1)), 11, cell);
    refused_call("11", RUN, EMPTY, 11, cell);
    refused_call("11", BOTH, EMPTY, 11, cell);
}

static void networks(void) {
    PROGRAM_IS(counter);
    fresh(2);
    for (int i = 0; i < CUDDYSTOVE_CELLS; i++) network[i] = i;
    expect("fresh", FRESH, EMPTY, 0, 0);
    for (size_t length = 0; length <= CUDDYSTOVE_CELLS + 1; length += length == 0 ? CUDDYSTOVE_CELLS - 1 : 2) {
        fresh(2);
        network_length = length;
        refused_call("fresh of a wrong length", FRESH, EMPTY, 11, 0);
        refused_call("event on a wrong length", EVENT, LIST(FIRE(1)), 11, 0);
        refused_call("run on a wrong length", RUN, EMPTY, 11, 0);
    }
    const struct { size_t cell; int32_t number; } unsound[] = {
        {cuddystove_at_sensors(2), 65536},
        {cuddystove_at_distance(3, 4), CUDDYSTOVE_FARTHEST + 1},
        {cuddystove_at_distance(3, 5), -1},
        {cuddystove_at_distance(5, 5), 0},
        {cuddystove_at_is_pending(6, 7), 2},
        {cuddystove_at_pending(16, 15, 15), 0},
        {cuddystove_at_pending(16, 16, 15), 0},
    };
    for (size_t i = 0; i < sizeof unsound / sizeof unsound[0]; i++) refused_cell(unsound[i].cell, unsound[i].number);
    // The lowest of two is named; the program is tested before the network, and the network before the list.
    fresh(2);
    network[cuddystove_at_sensors(2)] = -1;
    network[cuddystove_at_sensors(3)] = -1;
    refused_call("11 before 12", EVENT, LIST(9), 11, cuddystove_at_sensors(2));
    refused_call("11 before 12", RUN, LIST(9), 11, cuddystove_at_sensors(2));
    program_length--;
    refused_call("1 before 11", EVENT, LIST(FIRE(1)), 1, 5);
    refused_call("1 before 11", RUN, EMPTY, 1, 5);
}

// A slot that was heard asks for an age, and the age's cell offends; an age asks for no slot.
static void networks_of_ages(void) {
    const size_t age = cuddystove_at_age(9, 2);
    PROGRAM_IS(counter);
    refused_cell(age, CUDDYSTOVE_OLDEST + 1);
    refused_cell(cuddystove_at_age(1, 2), -1);
    refused_cell(cuddystove_at_age(16, 15), CUDDYSTOVE_INF);
    refused_cell(cuddystove_at_age(5, 5), 0);
    refused_cell(cuddystove_at_age(16, 16), CUDDYSTOVE_OLDEST);
    for (int slot = 1; slot < CUDDYSTOVE_ROW; slot++) {
        fresh(2);
        network[cuddystove_at_heard(9, 2, slot)] = -slot;
        refused_call("a slot without an age", RUN, EMPTY, 11, age);
        refused_call("a slot without an age", EVENT, LIST(FIRE(1)), 11, age);
        network[age] = slot % 3;
        same();
        expect("a slot with an age", RUN, EMPTY, 0, 0);
        network[age] = -1;
        refused_call("a slot with a bad age", RUN, EMPTY, 11, age);
    }
    for (int32_t k = 0; k <= CUDDYSTOVE_OLDEST; k++) {
        fresh(2);
        network[age] = k;
        same();
        expect("an age without a slot", RUN, EMPTY, 0, 0);
        expect("an age without a slot", BOTH, EMPTY, 0, 0);
    }
    // As long as a network was without ages.
    fresh(2);
    network_length = 8464;
    refused_call("fresh without ages", FRESH, EMPTY, 11, 0);
    refused_call("run without ages", RUN, EMPTY, 11, 0);
}
// The lowest cell is named: an age stands behind the pending rows of its device and before the next device.
static void lowest_of_ages(void) {
    const size_t age = cuddystove_at_age(9, 2);
    fresh(2);
    network[cuddystove_at_distance(9, 2)] = 40;
    same();
    expect("a distance without an age", RUN, EMPTY, 0, 0);
    network[cuddystove_at_heard(9, 2, 1)] = 5;
    network[cuddystove_at_heard(9, 16, 15)] = 5;
    network[cuddystove_at_sensors(10)] = -1;
    refused_call("the lower of two ages, before the next device", RUN, EMPTY, 11, age);
    network[cuddystove_at_pending(9, 16, 15)] = 0;
    refused_call("a pending slot before an age", RUN, EMPTY, 11, cuddystove_at_pending(9, 16, 15));
    network[cuddystove_at_sensors(8)] = -1;
    refused_call("the device before it", RUN, EMPTY, 11, cuddystove_at_sensors(8));
    // Of a device's own row the slot's cell offends, as before.
    fresh(2);
    network[cuddystove_at_heard(9, 9, 3)] = 5;
    refused_call("a slot heard from itself", RUN, EMPTY, 11, cuddystove_at_heard(9, 9, 3));
}

static void lists(void) {
    PROGRAM_IS(counter);
    fresh(4);
    refused_call("12, no event", EVENT, EMPTY, 12, 0);
    refused_call("12, a byte after the event", EVENT, LIST(FIRE(1), 0), 12, 1);
    refused_call("12, unknown tag", EVENT, LIST(0x15, 0, 1, 1), 12, 0);
    refused_call("12, cut short", RUN, LIST(FIRE(1), 0x10), 12, 1);
    refused_call("12, wrong length", RUN, LIST(FIRE(1), FIRE(2), 0x10, 0, 2, 1, 1), 12, 2);
    refused_call("12", BOTH, LIST(FIRE(1), 0x10, 0), 12, 1);
    refused_call("13", RUN, LIST(FIRE(1), FIRE(1), FIRE(1)), 13, 0);
    refused_call("13", BOTH, LIST(FIRE(1), FIRE(1), FIRE(1)), 13, 0);
    for (size_t short_space = 0; short_space < 2; short_space++) {
        fresh(short_space);
        refused_call("13", EVENT, LIST(FIRE(1)), 13, 0);
    }
    fresh(0);
    expect("an empty list", RUN, EMPTY, 0, 0);
    expect("an empty list", BOTH, EMPTY, 0, 0);
    fresh(1);
    expect("an empty list", RUN, EMPTY, 0, 0);
    // 01's example, and a space that is longer.
    fresh(9);
    answer(0, 0, 0);
    answer(1, CUDDYSTOVE_ITSELF, 0);
    answer(2, 0, 1);
    answer(3, CUDDYSTOVE_NOTHING_PENDING, 0);
    after[cuddystove_at_variable(1, 0)] = 1;
    expect("01's list", RUN, LIST(FIRE(1), DELIVER(1, 1), FIRE(1), DELIVER(1, 2)), 0, 0);
    expect("01's list", BOTH, LIST(FIRE(1), DELIVER(1, 1), FIRE(1), DELIVER(1, 2)), 0, 0);
}

// Each event alone: the cells that it changes, and no others.
static void events(void) {
    PROGRAM_IS(gossip);
    fresh(3);
    one_event("16", LIST(DELIVER(2, 9)), CUDDYSTOVE_NOTHING_PENDING, 0);
    one_event("16", LIST(LOSE(2, 9)), CUDDYSTOVE_NOTHING_PENDING, 0);
    after[cuddystove_at_distance(2, 9)] = CUDDYSTOVE_FARTHEST;
    one_event("link", LIST(LINK(2, 9, CUDDYSTOVE_FARTHEST)), 0, 0);
    after[cuddystove_at_sensors(2)] = 1 << 15;
    one_event("signal", LIST(SIGNAL(2, 15, 1)), 0, 0);
    after[cuddystove_at_is_pending(2, 9)] = 1;
    after[cuddystove_at_pending(2, 9, 3)] = 5;
    one_event("fire", LIST(FIRE(2)), 0, 100);
    after[cuddystove_at_is_pending(2, 9)] = 0;
    after[cuddystove_at_pending(2, 9, 3)] = CUDDYSTOVE_MARK;
    after[cuddystove_at_heard(9, 2, 3)] = 5;
    after[cuddystove_at_age(9, 2)] = 0;
    one_event("deliver", LIST(DELIVER(2, 9)), 0, 0);
    after[cuddystove_at_age(9, 2)] = 1;
    one_event("fire of one that heard", LIST(FIRE(9)), 0, 105);
    after[cuddystove_at_is_pending(2, 9)] = 1;
    after[cuddystove_at_pending(2, 9, 3)] = 5;
    one_event("fire", LIST(FIRE(2)), 0, 100);
    after[cuddystove_at_is_pending(2, 9)] = 0;
    after[cuddystove_at_pending(2, 9, 3)] = CUDDYSTOVE_MARK;
    one_event("lose", LIST(LOSE(2, 9)), 0, 0);
    after[cuddystove_at_is_pending(2, 9)] = 1;
    after[cuddystove_at_pending(2, 9, 3)] = 5;
    one_event("fire", LIST(FIRE(2)), 0, 100);
    after[cuddystove_at_distance(2, 9)] = 0;
    one_event("another distance, a message pending", LIST(LINK(2, 9, 0)), 0, 0);
    after[cuddystove_at_distance(2, 9)] = CUDDYSTOVE_MARK;
    one_event("the end of a link, a message pending", LIST(LINK(2, 9, CUDDYSTOVE_MARK)), 0, 0);
    after[cuddystove_at_is_pending(2, 9)] = 0;
    after[cuddystove_at_pending(2, 9, 3)] = CUDDYSTOVE_MARK;
    one_event("fire without a link", LIST(FIRE(2)), 0, 100);
    after[cuddystove_at_sensors(2)] = 1 << 15 | 1;
    one_event("signal another", LIST(SIGNAL(2, 0, 1)), 0, 0);
    after[cuddystove_at_sensors(2)] = 1;
    one_event("signal off", LIST(SIGNAL(2, 15, 0)), 0, 0);
    after[cuddystove_at_sensors(2)] = 0;
    one_event("signal off", LIST(SIGNAL(2, 0, 0)), 0, 0);
    one_event("14", LIST(FIRE(17)), CUDDYSTOVE_BAD_ITEM, 0);
    one_event("14", LIST(LINK(1, 2, CUDDYSTOVE_FARTHEST + 1)), CUDDYSTOVE_BAD_ITEM, 0);
    one_event("14", LIST(SIGNAL(1, 16, 1)), CUDDYSTOVE_BAD_ITEM, 0);
    one_event("14", LIST(DELIVER(0, 1)), CUDDYSTOVE_BAD_ITEM, 0);
    one_event("14", LIST(SIGNAL(1, 1, 2)), CUDDYSTOVE_BAD_ITEM, 0);
    one_event("14 before 15", LIST(LOSE(17, 17)), CUDDYSTOVE_BAD_ITEM, 0);
    one_event("14 before 15", LIST(LINK(4, 4, -1)), CUDDYSTOVE_BAD_ITEM, 0);
    one_event("15", LIST(LOSE(4, 4)), CUDDYSTOVE_ITSELF, 0);
    PROGRAM_IS(divides);
    one_event("17", LIST(FIRE(1)), CUDDYSTOVE_DIVIDED_BY_0, 2);
    PROGRAM_IS(counter);
    after[cuddystove_at_variable(16, 0)] = 0;
    one_event("rep, first", LIST(FIRE(16)), 0, 0);
    after[cuddystove_at_variable(16, 0)] = 1;
    one_event("rep, second", LIST(FIRE(16)), 0, 1);
}

// ---- Rounds of devices that have heard others, worked out from 01, L1 and L2

// A fire of a: what was pending goes, and each b with a link from a gets a message, as yet without slots.
static void message(int a) {
    for (int b = 1; b <= CUDDYSTOVE_DEVICES; b++) {
        after[cuddystove_at_is_pending(a, b)] = after[cuddystove_at_distance(a, b)] != CUDDYSTOVE_MARK;
        for (int i = 1; i < CUDDYSTOVE_ROW; i++) after[cuddystove_at_pending(a, b, i)] = CUDDYSTOVE_MARK;
    }
}
// This slot is in it.
static void sends(int a, int slot, int32_t number) {
    for (int b = 1; b <= CUDDYSTOVE_DEVICES; b++) {
        if (after[cuddystove_at_is_pending(a, b)]) after[cuddystove_at_pending(a, b, slot)] = number;
    }
}
// A round of a: what it has heard is a round older, and what three rounds have read is gone, but for the distance.
static void ages(int a) {
    for (int b = 1; b <= CUDDYSTOVE_DEVICES; b++) {
        const size_t age = cuddystove_at_age(a, b);
        if (after[age] == CUDDYSTOVE_MARK || ++after[age] < 3) continue;
        after[age] = CUDDYSTOVE_MARK;
        for (int i = 1; i < CUDDYSTOVE_ROW; i++) after[cuddystove_at_heard(a, b, i)] = CUDDYSTOVE_MARK;
    }
}
// The message pending from a to b arrives: what b heard from a becomes just that, absent slots too, at age 0.
static void arrives(const char *what, int a, int b) {
    for (int i = 1; i < CUDDYSTOVE_ROW; i++) {
        after[cuddystove_at_heard(b, a, i)] = after[cuddystove_at_pending(a, b, i)];
        after[cuddystove_at_pending(a, b, i)] = CUDDYSTOVE_MARK;
    }
    after[cuddystove_at_is_pending(a, b)] = 0;
    after[cuddystove_at_age(b, a)] = 0;
    one_event(what, LIST(DELIVER(a, b)), 0, 0);
}
// A cell of which the compiler cannot see that there is one.
static size_t there(size_t cell) {
    if (cell == CUDDYSTOVE_NO_CELL) _exit(7);
    return cell;
}
// What was before: written into the network, then same().
static void linked(int a, int b, int32_t distance) { network[cuddystove_at_distance(a, b)] = distance; }
static void heard(int a, int b, int slot, int32_t number) {
    network[there(cuddystove_at_heard(a, b, slot))] = number;
    network[there(cuddystove_at_age(a, b))] = 0;
}
static void fires(const char *what, int a, int32_t value) {
    ages(a);
    one_event(what, LIST(FIRE(a)), 0, value);
}
static void faults(const char *what, int a, int32_t node) {
    same();
    one_event(what, LIST(FIRE(a)), CUDDYSTOVE_DIVIDED_BY_0, node);
}
// What a case leaves in such a cell.
static void leaves(size_t cell, int32_t number) { after[there(cell)] = number; }
// Just these sensors are lit from now on.
static void senses(int a, int32_t lit) {
    network[cuddystove_at_sensors(a)] = lit;
    same();
}

// What 2 has heard in 01's run (iii), from 1 and 3
static void hears_as_in_iii(void) {
    heard(2, 1, 1, 10), heard(2, 3, 1, CUDDYSTOVE_INF), heard(2, 1, 2, 0), heard(2, 3, 2, 0);
    same();
}

static void distances(void) {
    PROGRAM_IS(distance);
    // In its first round a rep skips its update, so nothing is sent, but the message still goes.
    fresh(3);
    linked(2, 1, 10);
    heard(1, 2, 2, 0);
    network[cuddystove_at_age(1, 2)] = 2;
    same();
    message(2);
    after[cuddystove_at_variable(2, 0)] = CUDDYSTOVE_INF;
    fires("distance-to, first", 2, CUDDYSTOVE_INF);
    arrives("distance-to, an empty message", 2, 1);
    // 01's run (iii): 10 + 10 and inf + 10, so 20; the variable is sent as it was.
    fresh(3);
    network[cuddystove_at_variable(2, 0)] = CUDDYSTOVE_INF;
    linked(2, 1, 10), linked(2, 3, 10);
    hears_as_in_iii();
    message(2), sends(2, 1, CUDDYSTOVE_INF), sends(2, 2, 0);
    after[cuddystove_at_variable(2, 0)] = 20;
    fires("01's run (iii)", 2, 20);
    // Its next round sends the 20.
    message(2), sends(2, 1, 20), sends(2, 2, 0);
    fires("a round after (iii)", 2, 20);
    // Lit: 0, and the other side of the mux still sends.
    senses(2, 1 << 1);
    message(2), sends(2, 1, 20), sends(2, 2, 0);
    after[cuddystove_at_variable(2, 0)] = 0;
    fires("distance-to, lit", 2, 0);
    // Three rounds have read what was heard: as much is heard again. The link to 1 has ended, so 1 is out of nbr-range, and no message
    // goes to it: inf + 10.
    senses(2, 0);
    linked(2, 1, CUDDYSTOVE_MARK);
    hears_as_in_iii();
    message(2), sends(2, 1, 0), sends(2, 2, 0);
    after[cuddystove_at_variable(2, 0)] = CUDDYSTOVE_INF;
    fires("distance-to, a link that has ended", 2, CUDDYSTOVE_INF);
    // 3 is heard with 7 in slot 1, but not with 0 in slot 2; 1 has a link again.
    linked(2, 1, 0);
    heard(2, 3, 1, 7), heard(2, 3, 2, 1);
    same();
    message(2), sends(2, 1, CUDDYSTOVE_INF), sends(2, 2, 0);
    after[cuddystove_at_variable(2, 0)] = 10;
    fires("distance-to, a range slot that is not 0", 2, 10);
    // 01's run (iv): nobody is heard in slot 2.
    heard(2, 1, 2, CUDDYSTOVE_MARK), heard(2, 3, 2, CUDDYSTOVE_MARK);
    same();
    message(2), sends(2, 1, 10), sends(2, 2, 0);
    after[cuddystove_at_variable(2, 0)] = CUDDYSTOVE_INF;
    fires("01's run (iv)", 2, CUDDYSTOVE_INF);

    // The shift of examples/host.c as one list: 1 to 2 is 40, 2 to 3 is 30, 1 is lit.
    static const int32_t values[4][3] = {{CUDDYSTOVE_INF, CUDDYSTOVE_INF, CUDDYSTOVE_INF},
                                         {0, CUDDYSTOVE_INF, CUDDYSTOVE_INF},
                                         {0, 40, CUDDYSTOVE_INF},
                                         {0, 40, 70}};
    fresh(67);
    for (int k = 0; k < 33; k++) answer(k, 0, 0);
    for (int round = 0; round < 4; round++) {
        answer(5 + 7 * round, 0, values[round][0]);
        answer(7 + 7 * round, 0, values[round][1]);
        answer(10 + 7 * round, 0, values[round][2]);
    }
    static const struct { uint8_t a, b; int32_t distance, slot1, age; } last[] = {
        {2, 1, 40, 0, 1}, {1, 2, 40, 40, 0}, {3, 2, 30, 40, 1}, {2, 3, 30, CUDDYSTOVE_INF, 0}};
    for (int i = 0; i < 4; i++) {
        leaves(cuddystove_at_distance(last[i].a, last[i].b), last[i].distance);
        leaves(cuddystove_at_heard(last[i].a, last[i].b, 1), last[i].slot1);
        leaves(cuddystove_at_heard(last[i].a, last[i].b, 2), 0);
        leaves(cuddystove_at_age(last[i].a, last[i].b), last[i].age);
    }
    after[cuddystove_at_sensors(1)] = 1 << 1;
    after[cuddystove_at_variable(1, 0)] = 0;
    after[cuddystove_at_variable(2, 0)] = 40;
    after[cuddystove_at_variable(3, 0)] = 70;
#define ROUND FIRE(1), DELIVER(1, 2), FIRE(2), DELIVER(2, 1), DELIVER(2, 3), FIRE(3), DELIVER(3, 2)
    static const uint8_t shift[] = {
        LINK(1, 2, 40), LINK(2, 1, 40), LINK(2, 3, 30), LINK(3, 2, 30), SIGNAL(1, 1, 1), ROUND, ROUND, ROUND, ROUND,
    };
    expect("a shift of distance-to", RUN, shift, sizeof shift, 0, 0);
    expect("a shift of distance-to", BOTH, shift, sizeof shift, 0, 0);
}

// A rep in each branch, one of them in a definition below a definition: what is not taken becomes absent, and sends nothing.
static void choices(void) {
    PROGRAM_IS(branches);
    fresh(2);
    linked(5, 6, 1000);
    heard(5, 6, 15, 30), heard(5, 9, 15, 12), heard(5, 9, 14, 999), heard(6, 5, 1, 1);
    same();
    message(5);
    after[cuddystove_at_variable(5, 15)] = 10;
    fires("if, else", 5, 10);
    message(5);
    after[cuddystove_at_variable(5, 15)] = 9;
    fires("if, else again", 5, 9);
    senses(5, 1 << 1);
    message(5), sends(5, 15, 7);
    after[cuddystove_at_variable(5, 0)] = 0;
    after[cuddystove_at_variable(5, 15)] = CUDDYSTOVE_MARK;
    fires("if, then", 5, 0 + 30 + 12);
    heard(5, 6, 15, 30), heard(5, 9, 15, 12);
    same();
    message(5), sends(5, 15, 7);
    after[cuddystove_at_variable(5, 0)] = 1;
    fires("if, then again", 5, 1 + 30 + 12);
    arrives("if, what then sent", 5, 6);
    senses(5, 0xffff & ~(1 << 1));
    message(5);
    after[cuddystove_at_variable(5, 0)] = CUDDYSTOVE_MARK;
    after[cuddystove_at_variable(5, 15)] = 10;
    fires("if, back to else", 5, 10);
    arrives("if, that else sent nothing", 5, 6);
    senses(5, 0xffff);
    message(5), sends(5, 15, 7);
    after[cuddystove_at_variable(5, 0)] = 0;
    after[cuddystove_at_variable(5, 15)] = CUDDYSTOVE_MARK;
    fires("if, back to then", 5, 0 + 30 + 12);

    PROGRAM_IS(spared);
    fresh(2);
    faults("if, the branch that divides", 5, 5);
    senses(5, 1);
    fires("if, a division that is not reached", 5, 5);
    fresh(2);
    PROGRAM_IS(mux_first);
    faults("mux evaluates then first", 5, 5);
    PROGRAM_IS(if_first);
    faults("if evaluates its condition first", 5, 2);
    PROGRAM_IS(left_first);
    faults("an operator evaluates its left side first", 5, 5);
    PROGRAM_IS(fold_first);
    faults("a fold evaluates its initial part first", 5, 5);
    PROGRAM_IS(fold_by_first);
    faults("a fold by definition evaluates its initial part first", 5, 5);
    PROGRAM_IS(argument_first);
    faults("a call evaluates its first argument first", 5, 5);
    PROGRAM_IS(rep_first);
    network[cuddystove_at_variable(5, 0)] = 1;
    faults("rep evaluates its initial part first", 5, 5);
    fresh(2);
    PROGRAM_IS(mux_2);
    fires("mux, condition 2", 5, 6);
    PROGRAM_IS(if_2);
    fires("if, condition 2", 5, 6);
    PROGRAM_IS(nested);
    after[cuddystove_at_variable(5, 0)] = 1;
    fires("a rep in a rep, first", 5, 1);
    after[cuddystove_at_variable(5, 0)] = 1 + 1;
    after[cuddystove_at_variable(5, 1)] = 1;
    fires("a rep in a rep, second", 5, 2);
    after[cuddystove_at_variable(5, 0)] = 2 + 3;
    after[cuddystove_at_variable(5, 1)] = 2 + 1;
    fires("a rep in a rep, third", 5, 5);
    fresh(2);
    PROGRAM_IS(initial_again);
    faults("rep, no initial part", 5, 3);
    senses(5, 1 << 1);
    after[cuddystove_at_variable(5, 0)] = 6;
    fires("rep, initial", 5, 6);
    after[cuddystove_at_variable(5, 0)] = 7;
    fires("rep, update", 5, 7);
    senses(5, 0);
    faults("rep evaluates its initial part every round", 5, 3);
}

// Fields with a number on either side, with each other, and by an if; folds by operators and definitions, lowest device first.
static void folds(void) {
    PROGRAM_IS(fields);
    fresh(2);
    linked(8, 1, 40), linked(8, 3, 7), linked(8, 7, 9);
    // Ranges by slot 1: 1 at 40, 3 at 7; 16 has no link, 7 was not heard with 0. 120 / 40 = 3, 120 / 7 = 17: 1000 - 3 - 17 = 980.
    heard(8, 1, 1, 0), heard(8, 3, 1, 0), heard(8, 16, 1, 0), heard(8, 7, 1, 5);
    // Slot 2: 1 has 3, 3 has 0 when 1 is taken off, and the fold is 01's run (x): 1.
    heard(8, 1, 2, 4), heard(8, 3, 2, 1);
    // Slots 3 and 4: 1, 3, 7 and 16 with 3, 7 and 16, of which 16 has no link: 5 + 7 = 12 and -2 + 9 = 7, so 1 x 12 x 7 = 84.
    heard(8, 1, 3, 2), heard(8, 3, 3, 5), heard(8, 7, 3, -2), heard(8, 16, 3, 8);
    heard(8, 3, 4, 0), heard(8, 7, 4, 0), heard(8, 16, 4, 0);
    // Slot 5: 1 at 40, and 40 / 8 = 5.
    heard(8, 1, 5, 0);
    same();
    message(8), sends(8, 1, 0), sends(8, 2, 0), sends(8, 5, 0);
    fires("fields, else", 8, 980 + 10 * (1 + 5));
    senses(8, 1 << 2 | 1 << 3);
    message(8), sends(8, 1, 0), sends(8, 2, 1), sends(8, 3, 6), sends(8, 4, 0);
    fires("fields, then", 8, 980 + 10 * (1 + 84));
    linked(8, 1, 0);
    faults("a field divides by 0", 8, 3);
    linked(8, 1, CUDDYSTOVE_FARTHEST);
    same();
    message(8), sends(8, 1, 0), sends(8, 2, 1), sends(8, 3, 6), sends(8, 4, 0);
    fires("fields, far", 8, 1000 - 0 - 17 + 10 * (1 + 84));
    // A device that has heard nobody folds nothing: 1000, 5 and 1.
    fires("fields, nobody heard", 2, 1000 + 10 * (5 + 1));

    PROGRAM_IS(weighs);
    fresh(2);
    linked(2, 7, 5);
    heard(2, 1, 1, 3), heard(2, 3, 1, 9), heard(2, 16, 1, 30);
    same();
    // 1 x 2 - 3 / 3 = 1, 1 x 2 - 9 / 3 = -1, -1 x 2 - 30 / 3 = -12: then, 7 x 6 - 5 / 2 = 40; the rep of the other side goes on.
    for (int round = 0; round < 3; round++) {
        message(2), sends(2, 1, 9);
        after[cuddystove_at_variable(2, 0)] = 1 << round;
        fires("a fold by definition, mux, calls", 2, 40);
    }
    // Heard again; -1 x 2 - 33 / 3 = -13: else.
    heard(2, 1, 1, 3), heard(2, 3, 1, 9), heard(2, 16, 1, 33);
    same();
    message(2), sends(2, 1, 9);
    after[cuddystove_at_variable(2, 0)] = 8;
    fires("mux, else", 2, 8);

    // Divisions in a definition and over fields: the node that divides is named.
    PROGRAM_IS(calls_over);
    fresh(2);
    faults("a call divides by 0", 2, 2);
    senses(2, 1 << 3);
    fires("a call divides", 2, 8);
    PROGRAM_IS(folds_over);
    fires("a fold by definition of nobody", 2, 100);
    heard(2, 5, 1, 3), heard(2, 6, 1, -4);
    same();
    fires("a fold by definition divides", 2, -8);
    heard(2, 7, 1, 0);
    faults("a fold by definition divides by 0", 2, 2);
    PROGRAM_IS(product);
    fires("a fold over 3, -4 and 0", 2, 0);
    PROGRAM_IS(empty_over);
    faults("a field over 0", 2, 4);
    fires("a field of nobody over 0", 3, 3);

    // All fifteen others heard, each with its number.
    PROGRAM_IS(gossip);
    fresh(2);
    for (int b = 1; b < 16; b++) heard(16, b, 3, b);
    same();
    fires("a fold over fifteen", 16, 100 + 120);
}

// ---- What was heard fades: ages written out

// 2 and 9 have links to each other, and 2 has sent 5 in slot 3.
static void sent_to_9(void) {
    PROGRAM_IS(gossip);
    fresh(2);
    linked(2, 9, 40), linked(9, 2, 70);
    same();
    message(2), sends(2, 3, 5);
    fires("2 sends", 2, 100);
}
// A round of 9 gives this sum, and leaves its age for 2 and slot 3 of what it heard so. The link to 2 stays, and a message goes there.
static void round_of_9(const char *what, int32_t sum, int32_t age, int32_t slot) {
    message(9), sends(9, 3, 5);
    after[cuddystove_at_age(9, 2)] = age;
    after[cuddystove_at_heard(9, 2, 3)] = slot;
    one_event(what, LIST(FIRE(9)), 0, sum);
}
// Three rounds read a message, and it is gone for the fourth. A fault between them counts for nothing, nor does what is refused.
static void three_rounds(void) {
    sent_to_9();
    arrives("2 is heard", 2, 9);
    round_of_9("the first round reads it", 105, 1, 5);
    PROGRAM_IS(divides);
    faults("a fault ages nothing", 9, 2);
    PROGRAM_IS(gossip);
    one_event("14 ages nothing", LIST(FIRE(0)), CUDDYSTOVE_BAD_ITEM, 0);
    one_event("16 sets no age", LIST(DELIVER(2, 9)), CUDDYSTOVE_NOTHING_PENDING, 0);
    one_event("15 sets no age", LIST(DELIVER(9, 9)), CUDDYSTOVE_ITSELF, 0);
    round_of_9("the second round reads it", 105, 2, 5);
    PROGRAM_IS(divides);
    faults("a fault before it would fade", 9, 2);
    PROGRAM_IS(gossip);
    round_of_9("the third round reads it", 105, CUDDYSTOVE_MARK, CUDDYSTOVE_MARK);
    round_of_9("the fourth does not", 100, CUDDYSTOVE_MARK, CUDDYSTOVE_MARK);
}
// A second receipt counts anew; a loss, links and signals count for nothing.
static void heard_anew(void) {
    sent_to_9();
    arrives("2 is heard", 2, 9);
    round_of_9("the first round", 105, 1, 5);
    round_of_9("the second round", 105, 2, 5);
    message(2), sends(2, 3, 5);
    fires("2 sends again", 2, 100);
    after[cuddystove_at_is_pending(2, 9)] = 0;
    after[cuddystove_at_pending(2, 9, 3)] = CUDDYSTOVE_MARK;
    one_event("a loss sets no age", LIST(LOSE(2, 9)), 0, 0);
    after[cuddystove_at_distance(9, 2)] = 0;
    one_event("a link sets no age", LIST(LINK(9, 2, 0)), 0, 0);
    after[cuddystove_at_sensors(9)] = 1;
    one_event("a signal sets no age", LIST(SIGNAL(9, 0, 1)), 0, 0);
    message(2), sends(2, 3, 5);
    fires("2 sends once more", 2, 100);
    arrives("2 is heard again", 2, 9);
    round_of_9("the first round after it", 105, 1, 5);
    round_of_9("the second round after it", 105, 2, 5);
    round_of_9("the third round after it", 105, CUDDYSTOVE_MARK, CUDDYSTOVE_MARK);
    round_of_9("the fourth round after it", 100, CUDDYSTOVE_MARK, CUDDYSTOVE_MARK);
}
// An empty message has an age too.
static void empty_message(void) {
    sent_to_9();
    arrives("2 is heard", 2, 9);
    round_of_9("a round", 105, 1, 5);
    PROGRAM_IS(counter);
    message(2);
    after[cuddystove_at_variable(2, 0)] = 0;
    fires("2 sends no slot", 2, 0);
    arrives("an empty message", 2, 9);
    PROGRAM_IS(gossip);
    round_of_9("nothing to read, first", 100, 1, CUDDYSTOVE_MARK);
    round_of_9("nothing to read, second", 100, 2, CUDDYSTOVE_MARK);
    round_of_9("nothing to read, third", 100, CUDDYSTOVE_MARK, CUDDYSTOVE_MARK);
}
// Each sender has its age, also where the program reads nothing, and only the device that fires gets older.
static void each_age(void) {
    PROGRAM_IS(counter);
    fresh(2);
    linked(9, 16, 30);
    heard(9, 1, 1, 7), heard(9, 4, 3, 8), heard(9, 16, 1, 1), heard(9, 16, 15, 9), heard(2, 9, 1, 6), heard(16, 9, 1, 6);
    network[cuddystove_at_age(9, 4)] = 1;
    network[cuddystove_at_age(9, 16)] = network[cuddystove_at_age(2, 9)] = 2;
    network[cuddystove_at_age(9, 5)] = 2; // of an empty message
    same();
    after[cuddystove_at_age(9, 1)] = 1;
    after[cuddystove_at_age(9, 4)] = 2;
    after[cuddystove_at_age(9, 5)] = after[cuddystove_at_age(9, 16)] = CUDDYSTOVE_MARK;
    after[cuddystove_at_heard(9, 16, 1)] = after[cuddystove_at_heard(9, 16, 15)] = CUDDYSTOVE_MARK;
    after[cuddystove_at_is_pending(9, 16)] = 1;
    after[cuddystove_at_variable(9, 0)] = 0;
    one_event("each age by itself", LIST(FIRE(9)), 0, 0);
    // All that a device can have heard.
    for (int a = 1; a <= CUDDYSTOVE_DEVICES; a += CUDDYSTOVE_DEVICES - 1) {
        fresh(2);
        for (int b = 1; b <= CUDDYSTOVE_DEVICES; b++) {
            for (int i = 1; b != a && i < CUDDYSTOVE_ROW; i++) heard(a, b, i, b * i);
        }
        same();
        for (int32_t round = 0; round < 4; round++) {
            leaves(cuddystove_at_variable(a, 0), round);
            fires("fifteen senders, fifteen slots", a, round);
        }
    }
}
// As one list; and in another order, in which events that clash keep theirs: the ages end equal too. The program sends a number in slot 3.
static void ages_in_lists(const uint8_t *table, size_t length, int32_t sent, const int32_t *values1, const int32_t *values2) {
    static const uint8_t one[] = {LINK(1, 2, 10), LINK(3, 2, 20), FIRE(1),       FIRE(3), DELIVER(1, 2),
                                  FIRE(2),        FIRE(1),        DELIVER(3, 2), FIRE(2), FIRE(2)};
    static const uint8_t two[] = {LINK(3, 2, 20), FIRE(3), LINK(1, 2, 10), FIRE(1), DELIVER(1, 2),
                                  FIRE(1),        FIRE(2), DELIVER(3, 2),  FIRE(2), FIRE(2)};
    program = table;
    program_length = length;
    fresh(20);
    after[cuddystove_at_distance(1, 2)] = 10;
    after[cuddystove_at_distance(3, 2)] = 20;
    after[cuddystove_at_is_pending(1, 2)] = 1; // of its second round
    after[cuddystove_at_pending(1, 2, 3)] = sent;
    after[cuddystove_at_heard(2, 3, 3)] = sent; // three rounds of 2 have read what 1 sent first, two what 3 sent
    after[cuddystove_at_age(2, 3)] = 2;
    for (int k = 0; k < 10; k++) answer(k, 0, values1[k]);
    expect("ages in a list", RUN, one, sizeof one, 0, 0);
    for (int k = 0; k < 10; k++) answer(k, 0, values2[k]);
    expect("ages in a list of another order", RUN, two, sizeof two, 0, 0);
    int32_t *n1 = lend(NETWORK, network, 4 * CUDDYSTOVE_CELLS, LAST), *n2 = lend(NETWORK2, network, 4 * CUDDYSTOVE_CELLS, LAST);
    int32_t *s1 = lend(SPACE, space, 80, LAST), *s2 = lend(SPACE2, space, 80, LAST);
    struct cuddystove_verdicts v =
        cuddystove_run_both(table, length, n1, CUDDYSTOVE_CELLS, n2, CUDDYSTOVE_CELLS, one, sizeof one, two, sizeof two, s1, 20, s2, 20);
    judge("ages in two orders", v.number1 == 0 && v.number2 == 0 && memcmp(n1, after, 4 * CUDDYSTOVE_CELLS) == 0 &&
                                    memcmp(n2, after, 4 * CUDDYSTOVE_CELLS) == 0 && memcmp(s2, answered, 80) == 0);
}

// What was heard, and how long ago.
static void ages_in_two_orders(void) {
    static const int32_t heard1[] = {0, 0, 100, 100, 0, 105, 100, 0, 110, 110}, heard2[] = {0, 100, 0, 100, 0, 100, 105, 0, 110, 110};
    static const int32_t lags1[] = {0, 0, 100, 100, 0, 105, 100, 0, 106 + 5, 107 + 6}, lags2[] = {0, 100, 0, 100, 0, 100, 105, 0, 111, 113};
    ages_in_lists(gossip, sizeof gossip, 5, heard1, heard2);
    ages_in_lists(late, sizeof late, 0, lags1, lags2);
}

// ---- Lags: ages as nbr-lag gives them

// Those heard with 0 in its slot are in the field, link or none. Each device has a digit: 5 and its age, 0 where it is not in the field.
static void lags_of_whom(void) {
    static const uint8_t digits[] = {1, 3, 16, 7, 10, 5, 9};
    PROGRAM_IS(lags);
    fresh(2);
    linked(8, 1, 40), linked(8, 7, 9), linked(8, 9, 0), linked(8, 11, 5);
    for (int32_t i = 0, digit = 1; i < 7; i++, digit *= 10) heard(8, digits[i], 2, digit);
    heard(8, 1, 4, 0), heard(8, 3, 4, 0), heard(8, 16, 4, 0);                 // of these 1 alone has a link
    heard(8, 7, 4, 5), heard(8, 10, 4, CUDDYSTOVE_FLOOR), heard(8, 5, 3, 0);  // not with 0, or in another slot; 9 in neither
    network[cuddystove_at_age(8, 3)] = network[cuddystove_at_age(8, 12)] = 1; // 12: of an empty message
    network[cuddystove_at_age(8, 16)] = 2;
    same();
    static const int32_t values[] = {765, 76, 7, 0};
    for (int round = 0; round < 4; round++) {
        message(8), sends(8, 2, 1), sends(8, 4, 0);
        fires("lags of 0, 1 and 2, with a link and without", 8, values[round]);
    }
    // All fifteen others, of ages 0, 1 and 2, five each; no link.
    PROGRAM_IS(late);
    for (int a = 1; a <= CUDDYSTOVE_DEVICES; a += CUDDYSTOVE_DEVICES - 1) {
        fresh(2);
        for (int b = 1; b <= CUDDYSTOVE_DEVICES; b++) {
            if (b != a) heard(a, b, 3, 0), network[there(cuddystove_at_age(a, b))] = b % 3;
        }
        same();
        fires("lags of fifteen", a, 100 + 15 * 5 + 5 * (0 + 1 + 2));
    }
}
// From the receipt on: 0, and 1 more with each round of the hearer; after the third it is gone. A fault between them counts for nothing.
static void lag_grows(void) {
    PROGRAM_IS(late);
    fresh(2);
    linked(2, 9, 40); // and no link from 9 to 2
    same();
    for (int32_t rounds = 3; rounds > 0; rounds--) { // the receipts after the first come where it is gone, and where it is 2
        message(2), sends(2, 3, 0);
        fires("nbr-lag sends 0", 2, 100);
        arrives("2 is heard", 2, 9);
        for (int32_t lag = 0; lag < rounds; lag++) {
            fires("a lag", 9, 105 + lag);
            PROGRAM_IS(divides);
            faults("a fault before the next lag", 9, 2);
            PROGRAM_IS(late);
        }
        if (rounds == 3) fires("nobody is heard", 9, 100);
    }
}
// The nearer of two counts as 25 farther for each round since it was heard: it is passed over, and taken again when it is heard anew.
static void lag_weighs(void) {
    static const struct { int hears1, hears2; int32_t value; } rounds[] = {
        {1, 1, 30}, {0, 1, 50}, {1, 1, 30}, {0, 1, 50}, {0, 1, 50}, {1, 1, 30}, {0, 0, 55}, {0, 0, 80}, {0, 0, CUDDYSTOVE_INF}, {1, 0, 30}};
    PROGRAM_IS(nearest);
    fresh(2);
    linked(3, 1, 30), linked(3, 2, 50);
    for (size_t i = 0; i < sizeof rounds / sizeof rounds[0]; i++) {
        if (rounds[i].hears1) heard(3, 1, 1, 0), heard(3, 1, 2, 0);
        if (rounds[i].hears2) heard(3, 2, 1, 0), heard(3, 2, 2, 0);
        same();
        message(3), sends(3, 1, 0), sends(3, 2, 0);
        fires("the nearer, or the one just heard", 3, rounds[i].value);
    }
    // Without a link 1 has no range, so it is in no sum of range and lag.
    linked(3, 1, CUDDYSTOVE_MARK);
    same();
    message(3), sends(3, 1, 0), sends(3, 2, 0);
    fires("no link, no range", 3, CUDDYSTOVE_INF);
}
// What is not evaluated sends nothing: an if evaluates one branch, a mux both. And lags as divisors.
static void lag_in_branches(void) {
    PROGRAM_IS(lag_or_range);
    fresh(2);
    linked(6, 1, 40);
    heard(6, 1, 1, 0), heard(6, 1, 15, 0), heard(6, 4, 1, 0), heard(6, 4, 15, 0);
    network[cuddystove_at_age(6, 4)] = 1;
    same();
    message(6), sends(6, 15, 0);
    fires("if, nbr-range: 40, and 4 has no link", 6, 40);
    arrives("the slot of nbr-lag is not sent", 6, 1);
    senses(6, 1 << 1);
    message(6), sends(6, 1, 0);
    fires("if, nbr-lag: 1 and 2", 6, 3);
    arrives("the slot of nbr-range is not sent", 6, 1);
    PROGRAM_IS(lag_aside);
    message(6), sends(6, 9, 0);
    fires("mux, the other side sends", 6, 7);
    PROGRAM_IS(over_lag);
    fresh(2);
    heard(6, 1, 1, 0);
    faults("a lag of 0 divides", 6, 3);
    faults("and does so again, as a fault ages nothing", 6, 3);
    network[cuddystove_at_age(6, 1)] = 2;
    same();
    fires("a lag of 2 divides", 6, 3);
}

// The program is one operator on two constants.
static void operate(uint8_t o, int32_t left, int32_t right) {
    const uint8_t bytes[] = {CONST(left), CONST(right), 1, 0, 4, CUDDYSTOVE_OPERATOR, o, 0, 1, MAIN(2)};
    static uint8_t table[sizeof bytes];
    memcpy(table, bytes, sizeof table);
    PROGRAM_IS(table);
    fresh(2);
}
// What the header says of the operators, as rounds.
static void operators(void) {
    enum { INF = CUDDYSTOVE_INF, FLOOR = CUDDYSTOVE_FLOOR };
    static const struct { uint8_t o; int32_t left, right, value; } rounds[] = {
        {CUDDYSTOVE_PLUS, 2, 3, 5},
        {CUDDYSTOVE_PLUS, INF, -5, INF},
        {CUDDYSTOVE_PLUS, FLOOR, INF, INF},
        {CUDDYSTOVE_PLUS, INF - 1, 7, INF},
        {CUDDYSTOVE_PLUS, FLOOR, -1, FLOOR},
        {CUDDYSTOVE_MINUS, 2, 3, -1},
        {CUDDYSTOVE_MINUS, 5, INF, FLOOR},
        {CUDDYSTOVE_MINUS, INF, 5, INF},
        {CUDDYSTOVE_MINUS, INF, INF, INF},
        {CUDDYSTOVE_MINUS, 0, FLOOR, INF},
        {CUDDYSTOVE_TIMES, -3, 7, -21},
        {CUDDYSTOVE_TIMES, 65536, 32768, INF},
        {CUDDYSTOVE_TIMES, 65536, -32768, FLOOR},
        {CUDDYSTOVE_TIMES, 0, INF, 0},
        {CUDDYSTOVE_TIMES, INF, 0, 0},
        {CUDDYSTOVE_TIMES, -1, INF, FLOOR},
        {CUDDYSTOVE_DIVIDE, -7, 2, -3},
        {CUDDYSTOVE_DIVIDE, 7, -2, -3},
        {CUDDYSTOVE_DIVIDE, INF, 2, INF},
        {CUDDYSTOVE_DIVIDE, INF, INF, INF},
        {CUDDYSTOVE_DIVIDE, INF, -2, FLOOR},
        {CUDDYSTOVE_DIVIDE, 7, INF, 0},
        {CUDDYSTOVE_DIVIDE, FLOOR, INF, 0},
        {CUDDYSTOVE_DIVIDE, FLOOR, -1, INF},
        {CUDDYSTOVE_LESS, 2, INF, 1},
        {CUDDYSTOVE_LESS, INF, INF, 0},
        {CUDDYSTOVE_LESS, 3, 2, 0},
        {CUDDYSTOVE_GREATER, INF, FLOOR, 1},
        {CUDDYSTOVE_GREATER, 2, 2, 0},
        {CUDDYSTOVE_GREATER, 2, 3, 0},
        {CUDDYSTOVE_AT_LEAST, INF, INF, 1},
        {CUDDYSTOVE_AT_LEAST, 3, 2, 1},
        {CUDDYSTOVE_AT_LEAST, 2, 3, 0},
        {CUDDYSTOVE_EQUAL, INF, INF, 1},
        {CUDDYSTOVE_EQUAL, 2, -2, 0},
        {CUDDYSTOVE_UNEQUAL, 2, -2, 1},
        {CUDDYSTOVE_UNEQUAL, INF, INF, 0},
    };
    static const int32_t divided[] = {7, INF, 0, FLOOR};
    for (size_t i = 0; i < sizeof rounds / sizeof rounds[0]; i++) {
        operate(rounds[i].o, rounds[i].left, rounds[i].right);
        fires("an operator", 1, rounds[i].value);
    }
    for (size_t i = 0; i < sizeof divided / sizeof divided[0]; i++) {
        operate(CUDDYSTOVE_DIVIDE, divided[i], 0);
        faults("a divisor 0", 1, 2);
    }
    // All sensors lit, of which 0 and 15 are the first and the last.
    static const struct { int32_t sensor, value; } sensed[] = {{0, 1},  {15, 1}, {16, 0}, {32, 0},    {33, 0},
                                                               {-1, 0}, {-16, 0}, {256, 0}, {INF, 0}, {FLOOR, 0}};
    for (size_t i = 0; i < sizeof sensed / sizeof sensed[0]; i++) {
        const uint8_t bytes[] = {CONST(sensed[i].sensor), SENSE(0), MAIN(1)};
        static uint8_t table[sizeof bytes];
        memcpy(table, bytes, sizeof table);
        PROGRAM_IS(table);
        fresh(2);
        senses(1, 0xffff);
        fires("sense", 1, sensed[i].value);
    }
}

// ---- Texts

// A text lent with a slice of so many bytes: what comes back. The slice then starts with that table, and its rest is as before.
static void reads(const char *text, size_t text_length, size_t slice, uint32_t number, size_t place, const uint8_t *table, size_t length) {
    static uint8_t before[2600], expected[2600];
    int good = slice <= sizeof before && length <= slice;
    for (size_t i = 0; i < sizeof before; i++) before[i] = expected[i] = (uint8_t)(0x80 + i % 101);
    if (good && length > 0) memcpy(expected, table, length);
    for (int i = FIRST; good && i < PLACES; i++) {
        const enum place there = (enum place)i;
        const uint8_t *t = lend(TEXT, text, text_length, there);
        uint8_t *s = lend(TABLE, before, slice, there);
        const struct cuddystove_verdict v = cuddystove_read_text(t, text_length, s, slice);
        good = v.number == number && v.place == place && holds(TABLE, expected, slice, there);
    }
    judge(text, good);
}
// A refused text: whatever slice there is, nothing is written.
static void refused_bytes(const char *text, size_t text_length, uint32_t number, size_t place) {
    static const size_t slices[] = {0, 1, 4, 39, 2560};
    for (size_t i = 0; i < sizeof slices / sizeof slices[0]; i++) reads(text, text_length, slices[i], number, place, NULL, 0);
}
static void refused_text(const char *text, uint32_t number, size_t place) { refused_bytes(text, strlen(text), number, place); }
// A text and its table: in a slice that is longer, exactly as long, one too short, too short by all but a byte, and empty.
static void text_of(const char *text, const uint8_t *table, size_t length) {
    const size_t text_length = strlen(text);
    reads(text, text_length, 2560, 0, length, table, length);
    reads(text, text_length, length + 1, 0, length, table, length);
    reads(text, text_length, length, 0, length, table, length);
    reads(text, text_length, length - 1, 13, 0, NULL, 0);
    reads(text, text_length, 1, 13, 0, NULL, 0);
    reads(text, text_length, 0, 13, 0, NULL, 0);
}
#define TEXT_OF(text, ...)                            \
    do {                                              \
        static const uint8_t table[] = {__VA_ARGS__}; \
        text_of(text, table, sizeof table);           \
    } while (0)
#define MIN_TEXT "(def min (a b) (if (< a b) a b))\n"

// Texts that are accepted, each with its table; most are those of the rounds above, as their comments have them.
static void texts(void) {
    // 01's program (i), in 01's hex.
    TEXT_OF("(rep x 0 (+ x 1))", 0x01, 0x00, 0x05, 0x00, 0x00, 0x00, 0x00, 0x00, 0x01, 0x00, 0x02, 0x02, 0x00, 0x01, 0x00, 0x05, 0x00, 0x00,
            0x00, 0x00, 0x01, 0x01, 0x00, 0x04, 0x03, 0x00, 0x01, 0x02, 0x01, 0x00, 0x04, 0x05, 0x00, 0x00, 0x03, 0x03, 0x00, 0x01, 0x04);
    text_of("(rep x 0 (+ x 1))", counter, sizeof counter);
    text_of("\r\n ( rep\rx 00\n(+ x 1 ) )   \n", counter, sizeof counter);
    text_of(MIN_TEXT "(rep d inf (mux (sense 1) 0 (fold-hood* min inf (+ (nbr d) (nbr-range)))))", distance, sizeof distance);
    // 000's distance-to, as examples/line-of-four has it.
    TEXT_OF(MIN_TEXT "(def distance-to (source)\n  (rep d inf\n    (mux source 0\n      (fold-hood* min inf (+ (nbr d) (nbr-range))))))\n"
                     "(distance-to (sense 1))\n",
            PARAMETER(0), PARAMETER(1), OPERATOR(LESS, 0, 1), PARAMETER(0), PARAMETER(1), IF(2, 3, 4), DEFINITION(2, 5), //  0 to 5
            CONST(CUDDYSTOVE_INF), PARAMETER(0), CONST(0), CONST(CUDDYSTOVE_INF), VARIABLE(0), NBR(1, 10), RANGE(2),     //  6 to 12
            OPERATOR(PLUS, 11, 12), FOLD_BY(0, 9, 13), MUX(7, 8, 14), REP(0, 6, 15), DEFINITION(1, 16),                  // 13 to 16
            CONST(1), SENSE(17), CALL1(1, 18), MAIN(19));                                                                // 17 to 19
    text_of("(+ (fold-hood* - 1000 (/ 120 (nbr-range)))\n"
            "   (* 10 (+ (fold-hood* > 5 (- (nbr (sense 2)) 1))\n"
            "            (fold-hood* * 1 (if (sense 3) (+ (nbr 6) (nbr-range)) (/ (nbr-range) 8))))))", fields, sizeof fields);
    text_of("(def over (a b) (/ a b)) (over 8 (sense 3))", calls_over, sizeof calls_over);
    text_of("(def over (a b) (/ a b)) (fold-hood* over 100 (nbr (sense 3)))", folds_over, sizeof folds_over);
    text_of("(fold-hood* * 3 (/ (nbr 1) 0))", empty_over, sizeof empty_over);
    text_of("(mux 2 5 6)", mux_2, sizeof mux_2);
    text_of("(if 2 5 6)", if_2, sizeof if_2);
    text_of("(rep x 1 (+ x (rep y x (+ x y))))", nested, sizeof nested);
    text_of("(if (sense 0) 5 (/ 1 0))", spared, sizeof spared);
    text_of("(rep x (/ 6 (sense 1)) (+ x 1))", initial_again, sizeof initial_again);
    text_of(MIN_TEXT "(fold-hood* min inf (+ (nbr-range) (* 25 (nbr-lag))))", nearest, sizeof nearest);
    text_of("(fold-hood* + 0 (/ 6 (nbr-lag)))", over_lag, sizeof over_lag);
    TEXT_OF("(def f()1)2", CONST(1), DEFINITION(0, 0), CONST(2), MAIN(1));
    // A definition and a parameter of one name; a rep within a rep of that name, whose initial part reads the outer one.
    TEXT_OF("(def f (f) f) (f 1)", PARAMETER(0), DEFINITION(1, 0), CONST(1), CALL1(0, 1), MAIN(2));
    TEXT_OF("(rep x 0 (+ (rep x x x) x))", CONST(0), VARIABLE(0), VARIABLE(1), REP(1, 1, 2), VARIABLE(0), OPERATOR(PLUS, 3, 4), REP(0, 0, 5),
            MAIN(6));
    // The outer nbr has the lower slot, and its node comes later.
    TEXT_OF("(fold-hood* + 0 (nbr (fold-hood* - 1 (nbr 2))))", CONST(0), CONST(1), CONST(2), NBR(2, 2), FOLD(MINUS, 1, 3), NBR(1, 4),
            FOLD(PLUS, 0, 5), MAIN(6));
    TEXT_OF("(def share (a-1 b* c9 inf-) b*) (share 1 2 3 4)", PARAMETER(1), DEFINITION(4, 0), CONST(1), CONST(2), CONST(3), CONST(4),
            CALL4(0, 1, 2, 3, 4), MAIN(5));
}
// A text that is one number.
static void constant_of(const char *text, int32_t n) {
    const uint8_t table[] = {CONST(n), MAIN(0)};
    text_of(text, table, sizeof table);
}
static void words_of_texts(void) {
    static const char *const signs[] = {"+", "-", "*", "/", "<", ">", ">=", "==", "!="};
    for (uint8_t o = 0; o < 9; o++) {
        const uint8_t table[] = {CONST(1), CONST(2), 1, 0, 4, CUDDYSTOVE_OPERATOR, o, 0, 1, MAIN(2)};
        char text[] = "(      1 2)";
        memcpy(text + 1, signs[o], strlen(signs[o]));
        text_of(text, table, sizeof table);
    }
    constant_of("0", 0);
    constant_of("-0", 0);
    constant_of("-007", -7);
    constant_of("inf", CUDDYSTOVE_INF);
    constant_of("2147483647", CUDDYSTOVE_INF);
    constant_of("-2147483647", CUDDYSTOVE_FLOOR);
    constant_of("000000000002147483646", CUDDYSTOVE_INF - 1);
}
// 19, with the length of the longest beginning that is shared with a text of the notation.
static void outside_texts(void) {
    static const struct { const char *text; size_t place; } outside[] = {
        {"", 0}, {" ", 1}, {"(def f () 1)", 12}, {"(def f () 1) ", 13}, {"1 2", 2}, {"1)", 1}, {"(f) 1", 4}, {"1 (def f () 1)", 2},
        {"(+ (def f () 1) 2)", 7}, {"(def f (a b c d e) 1) 2", 16}, {"(def f 1) 1", 7}, {"(def", 4}, {"(def f () 1 2) 3", 12},
        {"(def + (a b) a) 1", 5}, {"(def 1 () 1) 1", 5}, {"(rep 1 0 0)", 5}, {"if", 2}, {"if ", 2}, {"(f if)", 5}, {"(inf)", 4},
        {"nbr-range", 9}, {"+", 0}, {"(sense +)", 7}, {"(+ 1)", 4}, {"(+ 1 2 3)", 7}, {"(if 1 2)", 7}, {"(sense)", 6}, {"(sense 1 2)", 9},
        {"(nbr-range 1)", 11}, {"(rep x 0)", 8}, {"(fold-hood* if 1 2)", 14}, {"(fold-hood* 1 1 2)", 12}, {"(<= 1 2)", 2}, {"(-1 2)", 2},
        {"(= 1 2)", 2}, {"()", 1}, {"((f))", 1}, {")", 0}, {"2147483648", 9}, {"002147483648", 11}, {"-2147483648", 10}, {"-inf", 1},
        {"1x", 1}, {"abcdefghijklmnopq", 16}, {"(f abcdefghijklmnopq)", 19}, {"X", 0}, {"xX", 1}, {"*x", 0}, {"(+ 1\t2)", 4}, {"\t1", 0},
        {"1;2", 1}, {"1\xc3\xa9", 1}, {"\xff", 0},
        // 19 before 20
        {"(def if () y) (+ x)", 18},
    };
    for (size_t i = 0; i < sizeof outside / sizeof outside[0]; i++) refused_text(outside[i].text, 19, outside[i].place);
    refused_bytes("\0", 1, 19, 0);
    refused_bytes("1\0", 2, 19, 1);
}
// 20, which has no place and comes before the table's refusals; then these, of fields (1 to 3), nodes (7, 9) and none (10).
static void refused_texts(void) {
    static const char *const names[] = {
        "x", "floor", "(f)", "(def f () (f)) 1", "(def f () (g)) (def g () 1) (f)", "(def f () 1) f", "(def f (g) (g)) 1", "(rep x x 1)",
        "(+ (rep x 0 x) x)", "(def f (a) 1) a", "(fold-hood* f 0 (nbr 1))", "(def f () 1) (def f () 2) (f)", "(def f (a a) a) (f 1 2)",
        "(def if () 1) 1", "(def f (inf) 1) (f 1)", "(rep nbr-lag 0 1)", "(nbr x)", "(def f (a) (f)) (f 1 2)",
    };
    static char text[4096];
    size_t length = 0;
    for (size_t i = 0; i < sizeof names / sizeof names[0]; i++) refused_text(names[i], 20, 0);
    refused_text("(def f (a) a) (f 1 2)", 1, 4);
    refused_text("(def f (a) a) (f)", 1, 2);
    refused_text("(nbr-range)", 7, 0);
    refused_text("(nbr 1)", 7, 1);
    refused_text("(def f () (nbr-lag)) 1", 7, 0);
    refused_text("(def f () (rep x 0 x)) (+ (f) (f))", 9, 4);
    refused_text("(def f (a) a) (fold-hood* f 0 (nbr 1))", 9, 4);
#define ADD(words) (memcpy(text + length, words, sizeof(words)), length += sizeof(words) - 1)
    // 257 nodes.
    for (int n = 0; n < 256; n++) ADD("(sense ");
    ADD("1");
    for (int n = 0; n < 256; n++) ADD(")");
    refused_text(text, 2, 256);
    // Sixteen slots, of which the innermost, the sixteenth, is in the third field; seventeen variables, the innermost read first.
    length = 0;
    ADD("(fold-hood* + 0 ");
    for (int n = 0; n < 16; n++) ADD("(nbr ");
    ADD("1");
    for (int n = 0; n < 17; n++) ADD(")");
    refused_text(text, 3, 2);
    // 257 slots: the innermost is no slot 1 again, as by its low byte.
    length = 0;
    ADD("(fold-hood* + 0 ");
    for (int n = 0; n < 257; n++) ADD("(nbr ");
    ADD("1");
    for (int n = 0; n < 258; n++) ADD(")");
    refused_text(text, 3, 2);
    length = 0;
    for (int n = 0; n < 17; n++) ADD("(rep x 0 ");
    ADD("x");
    for (int n = 0; n < 17; n++) ADD(")");
    refused_text(text, 3, 17);
    // 33 definitions.
    length = 0;
    for (int n = 0; n < 33; n++) length += (size_t)snprintf(text + length, sizeof text - length, "(def f%d()1)", n);
    ADD("1");
    refused_text(text, 2, 65);
    // Nineteen definitions that each call the one before twice.
    length = 0;
    ADD("(def a () 1)");
    for (char d = 'b'; d <= 's'; d++) {
        ADD("(def ? () (+ (!) (!)))");
        for (size_t i = length - 22; i < length; i++) text[i] = text[i] == '?' ? d : text[i] == '!' ? (char)(d - 1) : text[i];
    }
    ADD("(s)");
    refused_text(text, 10, 0);
}

// Two orders of one shift: all ends alike. And one side refused alone.
static void orders(void) {
    static const uint8_t one[] = {FIRE(1), FIRE(2), FIRE(1), DELIVER(3, 3)};
    static const uint8_t two[] = {DELIVER(3, 3), FIRE(1), FIRE(1), FIRE(2)};
    static const int32_t answers1[] = {0, 0, 0, 0, 0, 1, 15, 0}, answers2[] = {15, 0, 0, 0, 0, 1, 0, 0};
    PROGRAM_IS(counter);
    fresh(8);
    for (int end = FIRST; end <= LAST; end++) {
        for (int refuse = 0; refuse < 3; refuse++) {
            const size_t length1 = sizeof one - (refuse == 1), length2 = sizeof two - (refuse == 2);
            const uint8_t *p = lend(PROGRAM, counter, sizeof counter, end);
            const uint8_t *l = lend(LIST, one, length1, end), *m = lend(LIST2, two, length2, end);
            int32_t *n1 = lend(NETWORK, network, 4 * CUDDYSTOVE_CELLS, end), *n2 = lend(NETWORK2, network, 4 * CUDDYSTOVE_CELLS, end);
            int32_t *s1 = lend(SPACE, space, sizeof answers1, end), *s2 = lend(SPACE2, space, sizeof answers2, end);
            struct cuddystove_verdicts v =
                cuddystove_run_both(p, sizeof counter, n1, CUDDYSTOVE_CELLS, n2, CUDDYSTOVE_CELLS, l, length1, m, length2, s1, 8, s2, 8);
            after[cuddystove_at_variable(1, 0)] = 1;
            after[cuddystove_at_variable(2, 0)] = 0;
            judge("orders, first",
                  v.number1 == (refuse == 1 ? 12 : 0) && v.place1 == (refuse == 1 ? 3 : 0) &&
                      memcmp(n1, refuse == 1 ? network : after, 4 * CUDDYSTOVE_CELLS) == 0 &&
                      memcmp(s1, refuse == 1 ? space : answers1, sizeof answers1) == 0);
            judge("orders, second",
                  v.number2 == (refuse == 2 ? 12 : 0) && v.place2 == (refuse == 2 ? 3 : 0) &&
                      memcmp(n2, refuse == 2 ? network : after, 4 * CUDDYSTOVE_CELLS) == 0 &&
                      memcmp(s2, refuse == 2 ? space : answers2, sizeof answers2) == 0);
        }
    }
}

int main(void) {
    make_rooms();
    programs();
    lag_nodes_refused();
    lag_after_256_nodes();
    lags_misplaced();
    lag_costs_1();
    networks();
    networks_of_ages();
    lowest_of_ages();
    lists();
    events();
    distances();
    choices();
    folds();
    three_rounds();
    heard_anew();
    empty_message();
    each_age();
    ages_in_two_orders();
    lags_of_whom();
    lag_grows();
    lag_weighs();
    lag_in_branches();
    operators();
    texts();
    words_of_texts();
    outside_texts();
    refused_texts();
    orders();
    say_number(passed);
    say(" passed, ");
    say_number(failed);
    say(" failed\n");
    return failed != 0;
}
