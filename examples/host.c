// A host of the engine: three ambulances in a row, and how far each is from the nearest free crew.
// Build: gcc -std=c99 -Iinclude examples/host.c target/staticlib/libcuddystove.a. It prints examples/host.expected.
#include "cuddystove.h"
#include <inttypes.h>
#include <stdio.h>
#include <stdlib.h>

// (rep d inf (mux (sense 1) 0 (fold-by min inf (+ (nbr d) nbr-range)))), with min of two numbers as definition 0.
// A node names nodes that stand before it; the comments count them. A constant has four bytes, high byte first.
#define INF 0x7f, 0xff, 0xff, 0xff
static const uint8_t program[] = {
    1, 0, 2, CUDDYSTOVE_PARAMETER, 0,                      //  0
    1, 0, 2, CUDDYSTOVE_PARAMETER, 1,                      //  1
    1, 0, 4, CUDDYSTOVE_OPERATOR, CUDDYSTOVE_LESS, 0, 1,   //  2: is the first less?
    1, 0, 2, CUDDYSTOVE_PARAMETER, 0,                      //  3
    1, 0, 2, CUDDYSTOVE_PARAMETER, 1,                      //  4
    1, 0, 4, CUDDYSTOVE_IF, 2, 3, 4,                       //  5
    2, 0, 2, 2, 5,                                         // definition 0, min: two parameters, body 5
    1, 0, 5, CUDDYSTOVE_CONSTANT, INF,                     //  6
    1, 0, 5, CUDDYSTOVE_CONSTANT, 0, 0, 0, 1,              //  7
    1, 0, 2, CUDDYSTOVE_SENSE, 7,                          //  8: is sensor 1 lit, is this crew free?
    1, 0, 5, CUDDYSTOVE_CONSTANT, 0, 0, 0, 0,              //  9
    1, 0, 5, CUDDYSTOVE_CONSTANT, INF,                     // 10
    1, 0, 2, CUDDYSTOVE_VARIABLE, 0,                       // 11: d, the distance so far
    1, 0, 3, CUDDYSTOVE_NBR, 1, 11,                        // 12: the neighbours' d, by slot 1
    1, 0, 2, CUDDYSTOVE_NBR_RANGE, 2,                      // 13: how far they are, by slot 2
    1, 0, 4, CUDDYSTOVE_OPERATOR, CUDDYSTOVE_PLUS, 12, 13, // 14
    1, 0, 4, CUDDYSTOVE_FOLD_BY, 0, 10, 14,                // 15: the least of the sums
    1, 0, 4, CUDDYSTOVE_MUX, 8, 9, 15,                     // 16
    1, 0, 4, CUDDYSTOVE_REP, 0, 6, 16,                     // 17
    3, 0, 1, 17,                                           // main is node 17
};

static int32_t network[CUDDYSTOVE_CELLS];

// The list that the next call gets: an event, or a few.
static uint8_t bytes[64];
static struct cuddystove_list list = {bytes, sizeof bytes, 0};

// A number as people read it.
static const char *text(int32_t number) {
    static char digits[16];
    if (number == CUDDYSTOVE_MARK) return "absent";
    if (number == CUDDYSTOVE_INF) return "inf";
    snprintf(digits, sizeof digits, "%" PRId32, number);
    return digits;
}

// Says what came of a call.
static void say(const char *what, struct cuddystove_verdict v) {
    printf("%s: %" PRIu32 " %zu (%s)\n", what, v.number, v.place, cuddystove_name(v.number));
}

// A mistake of this host: an event that could not be written, or a call that was refused as a whole.
static void stop(const char *why) {
    printf("%s\n", why);
    exit(1);
}

// Does the event that was just added, and gives its value; says so where it was refused. `written` is what its function gave.
static int32_t event(size_t written) {
    int32_t answer[2];
    struct cuddystove_verdict v;
    if (written == 0) stop("an item of the event has no byte");
    v = cuddystove_event(program, sizeof program, network, CUDDYSTOVE_CELLS, list.bytes, list.length, answer, 2);
    list.length = 0;
    if (v.number != CUDDYSTOVE_DONE) stop(cuddystove_sentence(v.number));
    if (answer[0] != CUDDYSTOVE_DONE) printf("the event was refused: %" PRId32 ": %s\n", answer[0], cuddystove_sentence(answer[0]));
    return answer[1];
}

// The radio side: what is pending from a, to whom, slot by slot.
static void show_pending(int a) {
    for (int b = 1; b <= CUDDYSTOVE_DEVICES; b++) {
        if (network[cuddystove_at_is_pending(a, b)] == 0) continue;
        printf("pending from %d to %d:", a, b);
        for (int slot = 1; slot < CUDDYSTOVE_ROW; slot++) {
            int32_t sent = network[cuddystove_at_pending(a, b, slot)];
            if (sent != CUDDYSTOVE_MARK) printf(" slot %d is %s,", slot, text(sent));
        }
        printf(" no more\n");
    }
}

// All that is pending from a arrives. Here every vehicle is in one network; tablets.c has one for each.
static void deliver_all(int a) {
    for (int b = 1; b <= CUDDYSTOVE_DEVICES; b++) {
        if (network[cuddystove_at_is_pending(a, b)] != 0) event(cuddystove_add_deliver(&list, a, b));
    }
}

// 2 drives off, and nothing comes from it any more. Three rounds of 3 read what it last sent, a fourth no longer.
static void drives_off(void) {
    for (int round = 1; round <= 4; round++) {
        printf("vehicle 3 fires: %s;", text(event(cuddystove_add_fire(&list, 3))));
        printf(" its age for 2 is %s then\n", text(network[cuddystove_at_age(3, 2)]));
    }
}

// A whole list at the office: two numbers an event.
static void run(void) {
    int32_t answers[8];
    if (cuddystove_add_signal(&list, 3, 1, 1) == 0 || cuddystove_add_fire(&list, 3) == 0 || cuddystove_add_fire(&list, 4) == 0 ||
        cuddystove_add_deliver(&list, 4, 4) == 0) {
        stop("the list is full, or an item has no byte");
    }
    say("run", cuddystove_run(program, sizeof program, network, CUDDYSTOVE_CELLS, list.bytes, list.length, answers, 8));
    for (int k = 0; k < 4; k++) printf("  event %d: %" PRId32 " %s\n", k, answers[2 * k], text(answers[2 * k + 1]));
}

int main(void) {
    say("check", cuddystove_check(program, sizeof program));
    say("check of the table without its last byte", cuddystove_check(program, sizeof program - 1));
    say("fresh", cuddystove_fresh(network, CUDDYSTOVE_CELLS));
    printf("variable 0 of vehicle 2 is %s\n", text(network[cuddystove_at_variable(2, 0)]));

    // 1 and 2 are 40 apart, 2 and 3 are 30 apart; the crew of 1 is free.
    event(cuddystove_add_link(&list, 1, 2, 40));
    event(cuddystove_add_link(&list, 2, 1, 40));
    event(cuddystove_add_link(&list, 2, 3, 30));
    event(cuddystove_add_link(&list, 3, 2, 30));
    event(cuddystove_add_signal(&list, 1, 1, 1));

    for (int round = 1; round <= 4; round++) {
        printf("round %d:", round);
        for (int a = 1; a <= 3; a++) {
            printf(" %s", text(event(cuddystove_add_fire(&list, a))));
            deliver_all(a);
        }
        printf("\n");
    }

    // The next round of 2: its messages, one that arrives and one that doesn't.
    printf("vehicle 2 fires: %s\n", text(event(cuddystove_add_fire(&list, 2))));
    show_pending(2);
    event(cuddystove_add_deliver(&list, 2, 3));
    event(cuddystove_add_lose(&list, 2, 1));
    show_pending(2);
    printf("vehicle 3 last heard %s from 2,", text(network[cuddystove_at_heard(3, 2, 1)]));
    printf(" at age %s\n", text(network[cuddystove_at_age(3, 2)]));
    event(cuddystove_add_deliver(&list, 2, 1)); // nothing is pending any more: 16
    drives_off();
    run();
    return 0;
}
