// The static inline functions of include/cuddystove.h: each at its edges, with wrong arguments, and with the library behind it. Built as
// C99, C11, C++11 and C++17. Prints the cases that failed and 'N passed, M failed'.
#ifndef _GNU_SOURCE
#define _GNU_SOURCE
#endif
#include "cuddystove.h"
#include <stdio.h>
#include <string.h>
#include <sys/mman.h>

static int passed, failed;

static void judge(const char *what, int good) {
    if (good) passed++;
    else failed++;
    if (!good) printf("%s: FAILED\n", what);
}

// No byte has these. Cut to 8, 16 or 32 bits some would be devices 1, 2 and 9, which the cases below use.
static const int64_t far_off[] = {-1,        256,           257,       258,       265,           512,       0x10001, 0x10002, 0x10009,
                                  -255,      -254,          -247,      INT32_MIN, INT32_MAX,     INT64_MAX, INT64_MIN, INT64_MIN + 1,
                                  INT64_C(0x100000001), INT64_C(0x100000002), INT64_C(0x100000009), INT64_C(1) << 40};
enum { FAR_OFF = sizeof far_off / sizeof far_off[0] };

// ---- Lists

enum { BEFORE = 2, ROOM = 24 };
static const uint8_t untouched = 0xa5;
static uint8_t bytes[ROOM];
static struct cuddystove_list list;

// A list with room for this many bytes more behind two that are there.
static void start(size_t room) {
    memset(bytes, untouched, sizeof bytes);
    list.bytes = bytes;
    list.room = BEFORE + room;
    list.length = BEFORE;
}
// The bytes behind the two are these, and nothing else was written.
static int holds(const uint8_t *expected, size_t length) {
    size_t i;
    for (i = 0; i < ROOM; i++) {
        const int inside = i >= BEFORE && i < BEFORE + length;
        if (bytes[i] != (inside ? expected[i - BEFORE] : untouched)) return 0;
    }
    return list.length == BEFORE + length;
}
// An event by its word: f(a), d(a, b), l(a, b), k(a, b, c), u(a, b), s(a, b, c).
static size_t add(char what, int64_t a, int64_t b, int64_t c) {
    switch (what) {
    case 'f': return cuddystove_add_fire(&list, a);
    case 'd': return cuddystove_add_deliver(&list, a, b);
    case 'l': return cuddystove_add_lose(&list, a, b);
    case 'k': return cuddystove_add_link(&list, a, b, c);
    case 'u': return cuddystove_add_unlink(&list, a, b);
    default: return cuddystove_add_signal(&list, a, b, c);
    }
}
static const struct { char what; int64_t a, b, c; uint8_t length, bytes[CUDDYSTOVE_LONGEST_EVENT]; } built[] = {
    {'f', 1, 0, 0, 4, {0x10, 0, 1, 1, 0, 0, 0, 0, 0}},
    {'f', 255, 0, 0, 4, {0x10, 0, 1, 255, 0, 0, 0, 0, 0}},
    {'f', 0, 0, 0, 4, {0x10, 0, 1, 0, 0, 0, 0, 0, 0}},
    {'d', 3, 16, 0, 5, {0x11, 0, 2, 3, 16, 0, 0, 0, 0}},
    {'l', 16, 4, 0, 5, {0x12, 0, 2, 16, 4, 0, 0, 0, 0}},
    {'k', 5, 6, 0, 9, {0x13, 0, 6, 5, 6, 0, 0, 0, 0}},
    {'k', 5, 6, 1000000, 9, {0x13, 0, 6, 5, 6, 0x00, 0x0f, 0x42, 0x40}},
    {'k', 5, 6, 0x12345678, 9, {0x13, 0, 6, 5, 6, 0x12, 0x34, 0x56, 0x78}},
    {'k', 5, 6, INT32_MAX, 9, {0x13, 0, 6, 5, 6, 0x7f, 0xff, 0xff, 0xff}},
    {'u', 5, 6, 0, 9, {0x13, 0, 6, 5, 6, 0x80, 0, 0, 0}},
    {'s', 7, 15, 1, 6, {0x14, 0, 3, 7, 15, 1, 0, 0, 0}},
    {'s', 7, 0, 0, 6, {0x14, 0, 3, 7, 0, 0, 0, 0, 0}},
    {'s', 7, 16, 2, 6, {0x14, 0, 3, 7, 16, 2, 0, 0, 0}},
};

static void lists(void) {
    static const int64_t seven[] = {1, 1, 1, 1, 1, 1, 1};
    size_t i, room;
    for (i = 0; i < sizeof built / sizeof built[0]; i++) {
        const size_t length = built[i].length;
        start(length);
        judge("an event that just fits", add(built[i].what, built[i].a, built[i].b, built[i].c) == length && holds(built[i].bytes, length));
        for (room = 0; room < length; room++) {
            start(room);
            judge("an event that does not fit", add(built[i].what, built[i].a, built[i].b, built[i].c) == 0 && holds(bytes, 0));
        }
        start(20);
        list.length = list.room + 1;
        judge("a list longer than its room", add(built[i].what, built[i].a, built[i].b, built[i].c) == 0 && list.length == list.room + 1);
        list.bytes = NULL;
        list.room = list.length = 0;
        judge("a list without room", add(built[i].what, built[i].a, built[i].b, built[i].c) == 0 && list.length == 0);
    }
    // More items than any event has; of many more, the count would not fit its byte.
    start(20);
    judge("seven items", cuddystove_add(&list, CUDDYSTOVE_TAG_LINK, seven, 7) == 0 && holds(bytes, 0));
    // One behind the other.
    start(20);
    judge("two events", add('f', 9, 0, 0) == 4 && add('d', 1, 2, 0) == 5 && list.length == BEFORE + 9 && bytes[BEFORE + 4] == 0x11);
}

static void wrong_items(void) {
    static const char kinds[] = "fdlkus";
    size_t k, i;
    for (i = 0; i < FAR_OFF; i++) {
        const int64_t n = far_off[i];
        for (k = 0; kinds[k] != 0; k++) {
            start(20);
            judge("no byte for the first item", add(kinds[k], n, 1, 1) == 0 && holds(bytes, 0));
            judge("no byte for the second item", kinds[k] == 'f' || (add(kinds[k], 1, n, 1) == 0 && holds(bytes, 0)));
        }
        judge("no byte for the switch", add('s', 1, 1, n) == 0 && holds(bytes, 0));
    }
    start(20);
    judge("a distance below 0", add('k', 1, 2, -1) == 0 && add('k', 1, 2, -40) == 0 && add('k', 1, 2, INT64_MIN) == 0 && holds(bytes, 0));
    judge("the mark is no distance", add('k', 1, 2, CUDDYSTOVE_MARK) == 0 && holds(bytes, 0));
    judge("a distance of 2^31", add('k', 1, 2, INT64_C(0x80000000)) == 0 && holds(bytes, 0));
    judge("a distance of 2^32 + 40", add('k', 1, 2, INT64_C(0x100000028)) == 0 && holds(bytes, 0));
    judge("a distance of 2^63 - 1", add('k', 1, 2, INT64_MAX) == 0 && holds(bytes, 0));
    judge("unsigned numbers from 2^63 on", cuddystove_add_link(&list, 1, 2, CUDDYSTOVE_AS(int64_t, UINT64_MAX - 7)) == 0 && holds(bytes, 0));
}

// Arguments are evaluated once.
static int evaluated;
static int64_t gps(void) { return 0x01020304 * ++evaluated; }
static void once(void) {
    static const uint8_t expected[] = {0x13, 0, 6, 1, 2, 1, 2, 3, 4};
    start(20);
    judge("an argument is evaluated once", cuddystove_add_link(&list, 1, 2, gps()) == 9 && evaluated == 1 && holds(expected, 9));
}

// ---- Cells

static int seen[CUDDYSTOVE_CELLS];
static int is_cell(size_t cell, int64_t expected) {
    if (cell >= CUDDYSTOVE_CELLS || cell != CUDDYSTOVE_AS(size_t, expected)) return 0;
    seen[cell]++;
    return 1;
}
static void cells(void) {
    int64_t a, b, i;
    int good = 1;
    for (a = 1; a <= 16; a++) {
        const int64_t block = 545 * (a - 1);
        good = good && cuddystove_at_block(a) == CUDDYSTOVE_AS(size_t, block);
        for (i = 0; i < 16; i++) good = good && is_cell(cuddystove_at_variable(a, i), block + i);
        good = good && is_cell(cuddystove_at_sensors(a), block + 16);
        for (b = 1; b <= 16; b++) {
            good = good && is_cell(cuddystove_at_distance(a, b), block + 17 + 16 * (b - 1));
            good = good && is_cell(cuddystove_at_is_pending(a, b), block + 273 + 16 * (b - 1));
            good = good && is_cell(cuddystove_at_age(a, b), block + 529 + (b - 1));
            for (i = 1; i < 16; i++) {
                good = good && is_cell(cuddystove_at_heard(a, b, i), block + 17 + 16 * (b - 1) + i);
                good = good && is_cell(cuddystove_at_pending(a, b, i), block + 273 + 16 * (b - 1) + i);
            }
        }
    }
    judge("each cell where 01 and L1 have it", good);
    for (i = 0; i < CUDDYSTOVE_CELLS; i++) good = good && seen[i] == 1;
    judge("each cell by one function", good);
}
// Every function of cells with one argument that there is not.
static int no_cell(int64_t device, int64_t variable, int64_t slot) {
    const size_t none = CUDDYSTOVE_NO_CELL;
    return cuddystove_at_block(device) == none && cuddystove_at_sensors(device) == none && cuddystove_at_variable(device, 1) == none &&
           cuddystove_at_variable(1, variable) == none && cuddystove_at_distance(device, 1) == none &&
           cuddystove_at_distance(1, device) == none && cuddystove_at_is_pending(device, 1) == none &&
           cuddystove_at_is_pending(1, device) == none && cuddystove_at_heard(device, 1, 1) == none &&
           cuddystove_at_heard(1, device, 1) == none && cuddystove_at_heard(1, 2, slot) == none &&
           cuddystove_at_pending(device, 1, 1) == none && cuddystove_at_pending(1, device, 1) == none &&
           cuddystove_at_pending(1, 2, slot) == none && cuddystove_at_age(device, 1) == none && cuddystove_at_age(1, device) == none &&
           cuddystove_at_age(device, device) == none;
}
static void no_cells(void) {
    size_t i;
    judge("device 0, variable 16, slot 0", no_cell(0, 16, 0));
    judge("device 17, variable -1, slot 16", no_cell(17, -1, 16));
    judge("cell 16 of a row", cuddystove_at_row(1, CUDDYSTOVE_FIRST_HEARD, 1, 16) == CUDDYSTOVE_NO_CELL);
    judge("cell -1 of a row", cuddystove_at_row(1, CUDDYSTOVE_FIRST_HEARD, 1, -1) == CUDDYSTOVE_NO_CELL);
    judge("rows from elsewhere", cuddystove_at_row(1, CUDDYSTOVE_FIRST_SENSORS, 1, 1) == CUDDYSTOVE_NO_CELL);
    judge("no cell, cut to 32 bits", CUDDYSTOVE_AS(uint32_t, CUDDYSTOVE_NO_CELL & UINT32_MAX) == UINT32_C(0x80000000));
    for (i = 0; i < FAR_OFF; i++) judge("no such cell", no_cell(far_off[i], far_off[i], far_off[i]));
}

// ---- Messages

static int32_t network[CUDDYSTOVE_CELLS], other[CUDDYSTOVE_CELLS], kept[CUDDYSTOVE_CELLS];
static uint8_t message[CUDDYSTOVE_LONGEST_MESSAGE + 1];
enum { MOST = CUDDYSTOVE_LONGEST_MESSAGE };

static void fresh(int32_t *cells_of) {
    if (cuddystove_fresh(cells_of, CUDDYSTOVE_CELLS).number != CUDDYSTOVE_DONE) judge("fresh", 0);
}
// Bytes against a page that cannot be touched: to read beyond them ends this program.
static const uint8_t *at_end(const uint8_t *from, size_t length) {
    enum { PAGE = 4096 };
    static uint8_t *page;
    if (page == NULL) {
        void *pages = mmap(NULL, 2 * PAGE, PROT_READ | PROT_WRITE, MAP_PRIVATE | MAP_ANONYMOUS, -1, 0);
        page = CUDDYSTOVE_AS(uint8_t *, pages);
        if (pages == MAP_FAILED || mprotect(page + PAGE, PAGE, PROT_NONE) != 0) judge("pages", 0);
    }
    if (length > 0) memcpy(page + PAGE - length, from, length);
    return page + PAGE - length;
}
static int same(const int32_t *one, const int32_t *two) { return memcmp(one, two, sizeof network) == 0; }
// A message pending from a to b with these slots (bit i for slot i), numbers from the edges of their range.
static void pend(int64_t a, int64_t b, int slots) {
    static const int32_t numbers[] = {CUDDYSTOVE_FLOOR, CUDDYSTOVE_INF, -1, 0, 1, 0x01020304, -0x01020304, 255, 256, -256};
    int i;
    const size_t row = cuddystove_at_is_pending(a, b);
    if (row == CUDDYSTOVE_NO_CELL) return;
    fresh(network);
    network[row] = 1;
    for (i = 1; i < 16; i++) {
        if ((slots >> i & 1) != 0) network[row + CUDDYSTOVE_AS(size_t, i)] = numbers[(slots + i) % 10];
    }
    memcpy(kept, network, sizeof kept);
}
static void round_trip(int64_t a, int64_t b, int slots) {
    size_t length, put, expected = 4;
    int i;
    for (i = 1; i < 16; i++) expected += (slots >> i & 1) != 0 ? 4 : 0;
    pend(a, b, slots);
    fresh(other);
    memset(message, untouched, sizeof message);
    length = cuddystove_take(network, CUDDYSTOVE_CELLS, a, b, message, MOST);
    judge("take gives the bytes", length == expected && message[length] == untouched && message[0] == a && message[1] == b);
    judge("take leaves no message", same(network, other));
    put = cuddystove_put(other, CUDDYSTOVE_CELLS, message, length);
    judge("put gives the same message", put == length && same(other, kept));
    judge("a second take gives nothing", cuddystove_take(network, CUDDYSTOVE_CELLS, a, b, message, MOST) == 0);
}
static void by_hand(void) {
    static const uint8_t expected[] = {2, 9, 0x80, 0x08, 0, 0, 0, 5, 0xff, 0xff, 0xff, 0xfe};
    const size_t row = cuddystove_at_is_pending(2, 9);
    fresh(network);
    network[row] = 1;
    network[row + 3] = 5;
    network[row + 15] = -2;
    judge("a message by hand", cuddystove_take(network, CUDDYSTOVE_CELLS, 2, 9, message, MOST) == 12 && memcmp(message, expected, 12) == 0);
}
static int takes_nothing(int32_t *cells_of, size_t cell_count, int64_t a, int64_t b, size_t room) {
    memset(message, untouched, sizeof message);
    return cuddystove_take(cells_of, cell_count, a, b, message, room) == 0 && message[0] == untouched && message[4] == untouched;
}
static void takes(void) {
    size_t i;
    pend(2, 9, 0xfffe);
    judge("no room", takes_nothing(network, CUDDYSTOVE_CELLS, 2, 9, MOST - 1) && takes_nothing(network, CUDDYSTOVE_CELLS, 2, 9, 0));
    judge("a short network", takes_nothing(network, CUDDYSTOVE_CELLS - 1, 2, 9, MOST));
    judge("a long network", takes_nothing(network, CUDDYSTOVE_CELLS + 1, 2, 9, MOST));
    judge("none pending that way", takes_nothing(network, CUDDYSTOVE_CELLS, 9, 2, MOST));
    judge("device 0", takes_nothing(network, CUDDYSTOVE_CELLS, 0, 9, MOST) && takes_nothing(network, CUDDYSTOVE_CELLS, 2, 0, MOST));
    judge("device 17", takes_nothing(network, CUDDYSTOVE_CELLS, 17, 9, MOST) && takes_nothing(network, CUDDYSTOVE_CELLS, 2, 17, MOST));
    for (i = 0; i < FAR_OFF; i++) {
        judge("no such devices", takes_nothing(network, CUDDYSTOVE_CELLS, far_off[i], 9, MOST) &&
                                     takes_nothing(network, CUDDYSTOVE_CELLS, 2, far_off[i], MOST));
    }
    judge("nothing was changed", same(network, kept));
    pend(3, 3, 2);
    judge("from a device to itself", takes_nothing(network, CUDDYSTOVE_CELLS, 3, 3, MOST) && same(network, kept));
    pend(2, 9, 2);
    network[cuddystove_at_is_pending(2, 9)] = 2;
    memcpy(kept, network, sizeof kept);
    judge("a mark that is unsound", takes_nothing(network, CUDDYSTOVE_CELLS, 2, 9, MOST) && same(network, kept));
}
// Put refuses what take never gives (0); bytes that it accepts leave a sound network and come back byte for byte (1).
static const uint8_t zero[] = {1, 0, 5, 0, 0, 0, 0, 0, 3, 0, 1, 0};
static int exact(const uint8_t *written, size_t length) {
    static uint8_t again[CUDDYSTOVE_LONGEST_MESSAGE];
    const uint8_t *from = at_end(written, length);
    fresh(network);
    memcpy(kept, network, sizeof kept);
    if (cuddystove_put(network, CUDDYSTOVE_CELLS, from, length) == 0) return same(network, kept) ? 0 : -1;
    if (cuddystove_run(zero, sizeof zero, network, CUDDYSTOVE_CELLS, NULL, 0, NULL, 0).number != CUDDYSTOVE_DONE) return -1;
    if (cuddystove_take(network, CUDDYSTOVE_CELLS, from[0], from[1], again, MOST) != length) return -1;
    return memcmp(again, from, length) == 0 && same(network, kept) ? 1 : -1;
}
static void puts_exactly(int slots) {
    static uint8_t changed[CUDDYSTOVE_LONGEST_MESSAGE + 5];
    size_t length, i;
    int bit, good = 1, refused = 0;
    pend(5, 16, slots);
    length = cuddystove_take(network, CUDDYSTOVE_CELLS, 5, 16, changed, MOST);
    judge("put accepts what take gave", exact(changed, length) == 1);
    for (i = 0; i < 8 * length; i++) {
        bit = 1 << i % 8;
        changed[i / 8] = CUDDYSTOVE_AS(uint8_t, changed[i / 8] ^ bit);
        good = good && exact(changed, length) >= 0;
        refused += exact(changed, length) == 0;
        changed[i / 8] = CUDDYSTOVE_AS(uint8_t, changed[i / 8] ^ bit);
    }
    judge("one bit changed: refused, or another message", good && refused >= 16);
    for (i = 0; i <= length + 4; i++) good = good && exact(changed, i) == (i == length);
    judge("cut short, or longer", good);
    judge("no bytes at all", exact(changed, 0) == 0 && cuddystove_put(network, CUDDYSTOVE_CELLS, NULL, 0) == 0);
}
static void puts_refuses(void) {
    static const uint8_t with_mark[] = {1, 2, 0, 2, 0x80, 0, 0, 0}, floor_number[] = {1, 2, 0, 2, 0x80, 0, 0, 1};
    static const uint8_t slot_0[] = {1, 2, 0, 1, 0, 0, 0, 5}, itself[] = {3, 3, 0, 0}, from_0[] = {0, 3, 0, 0}, to_17[] = {3, 17, 0, 0};
    static const uint8_t good[] = {1, 2, 0, 2, 0, 0, 0, 5}, empty[] = {1, 2, 0, 0};
    judge("a slot with the mark", exact(with_mark, 8) == 0 && exact(floor_number, 8) == 1);
    judge("slot 0", exact(slot_0, 8) == 0);
    judge("a message to itself", exact(itself, 4) == 0);
    judge("devices that there are not", exact(from_0, 4) == 0 && exact(to_17, 4) == 0);
    fresh(network);
    memcpy(kept, network, sizeof kept);
    judge("a network of another length", cuddystove_put(network, CUDDYSTOVE_CELLS - 1, good, 8) == 0 &&
                                             cuddystove_put(network, CUDDYSTOVE_CELLS + 1, good, 8) == 0 && same(network, kept));
    judge("a second message replaces the first", cuddystove_put(network, CUDDYSTOVE_CELLS, good, 8) == 8 &&
                                                     cuddystove_put(network, CUDDYSTOVE_CELLS, empty, 4) == 4 &&
                                                     network[cuddystove_at_pending(1, 2, 1)] == CUDDYSTOVE_MARK);
}
// (fold-hood* + 100 (nbr 5)), by slot 3
static const uint8_t gossip[] = {1, 0, 5, 0, 0, 0, 0, 100, 1, 0, 5, 0, 0, 0, 0, 5, 1, 0, 3, 8, 3, 1, 1, 0, 4, 10, 0, 0, 2, 3, 0, 1, 3};
// The value of the event that was just added, done on these cells; -1 where it was not done. The list is empty then.
static int32_t does(int32_t *cells_of, size_t written) {
    int32_t answer[2] = {-1, -1};
    const uint32_t number = cuddystove_event(gossip, sizeof gossip, cells_of, CUDDYSTOVE_CELLS, bytes, list.length, answer, 2).number;
    list.length = 0;
    return written > 0 && number == CUDDYSTOVE_DONE && answer[0] == CUDDYSTOVE_DONE ? answer[1] : -1;
}
// A round of 9 gives this value, and 9's age for 2 is this after it.
static void reads(const char *what, int32_t value, int32_t age) {
    judge(what, does(other, add('f', 9, 0, 0)) == value && other[cuddystove_at_age(9, 2)] == age);
}
// 2 fires, 9 receives its message on a network of its own and fires. The receipt sets the age, and rounds add to it; take and put don't.
static void between_tablets(void) {
    const size_t age = cuddystove_at_age(9, 2);
    size_t length;
    start(20);
    list.length = 0;
    fresh(network);
    fresh(other);
    judge("tablet 2: link, fire", does(network, add('k', 2, 9, 40)) == 0 && does(network, add('f', 2, 0, 0)) == 100);
    length = cuddystove_take(network, CUDDYSTOVE_CELLS, 2, 9, message, MOST);
    judge("tablet 2: take", length == 8);
    judge("tablet 9: put", cuddystove_put(other, CUDDYSTOVE_CELLS, message, length) == 8 && other[age] == CUDDYSTOVE_MARK);
    judge("tablet 9: deliver", does(other, cuddystove_add_deliver(&list, message[0], message[1])) == 0 && other[age] == 0);
    judge("tablet 9 heard it", other[cuddystove_at_heard(9, 2, 3)] == 5);
    reads("a first round", 105, 1);
    reads("a second round", 105, 2);
    judge("put at age 2", cuddystove_put(other, CUDDYSTOVE_CELLS, message, length) == 8 && other[age] == 2);
    judge("take at age 2", cuddystove_take(other, CUDDYSTOVE_CELLS, 2, 9, message, MOST) == 8 && other[age] == 2);
    judge("put once more", cuddystove_put(other, CUDDYSTOVE_CELLS, message, length) == 8);
    judge("a second receipt", does(other, add('d', 2, 9, 0)) == 0 && other[age] == 0);
    reads("a first round of it", 105, 1);
    reads("a second round of it", 105, 2);
    reads("the last round that reads it", 105, CUDDYSTOVE_MARK);
    judge("it has faded", other[cuddystove_at_heard(9, 2, 3)] == CUDDYSTOVE_MARK);
    reads("a round without it", 100, CUDDYSTOVE_MARK);
}

// ---- Refusals in words

static const char *const names[] = {
    "done",    "bad field",          "too many",   "out of range",    "not given", "taken",              "bad end",  "wrong sort",
    "misread", "misused definition", "too costly", "unsound network", "bad list",  "short space",        "bad item", "to itself",
    "nothing pending", "divided by 0", "bad file", "outside the notation", "bad name",
};
static void words(void) {
    int64_t n, m;
    size_t i;
    for (n = 0; n <= 20; n++) judge("the name", strcmp(cuddystove_name(n), names[n]) == 0);
    for (n = -1; n <= 21; n++) {
        const char *name = cuddystove_name(n), *sentence = cuddystove_sentence(n);
        const size_t length = strlen(sentence);
        judge("a name and a sentence", name[0] != 0 && length > 2 && sentence[length - 1] == '.');
        for (m = 0; m < n; m++) {
            judge("words of its own", strcmp(name, cuddystove_name(m)) != 0 && strcmp(sentence, cuddystove_sentence(m)) != 0);
        }
    }
    for (i = 0; i < FAR_OFF; i++) {
        judge("unknown", strcmp(cuddystove_name(far_off[i]), "unknown refusal") == 0 && strcmp(cuddystove_counted(far_off[i], 1), "") == 0 &&
                             strcmp(cuddystove_sentence(far_off[i]), cuddystove_sentence(21)) == 0);
    }
    judge("21 and -1", strcmp(cuddystove_name(21), "unknown refusal") == 0 && strcmp(cuddystove_name(-1), "unknown refusal") == 0);
    for (n = -1; n <= 21; n++) {
        const char *expected = n >= 1 && n <= 5 ? "field of the program" : n >= 7 && n <= 9 ? "node" : n == 11 ? "cell" : n == 12 ? "event" :
                               n == 19 ? "byte of the text" : "";
        judge("what a place counts", strcmp(cuddystove_counted(n, 3), expected) == 0);
        judge("what place 0 counts", strcmp(cuddystove_counted(n, 0), n == 11 ? "" : expected) == 0);
    }
}

int main(void) {
    static const int some_slots[] = {0, 2, 0x8000, 0x8008, 0xfffe, 0x0180};
    size_t i;
    lists();
    wrong_items();
    once();
    cells();
    no_cells();
    for (i = 0; i < sizeof some_slots / sizeof some_slots[0]; i++) {
        round_trip(1, 16, some_slots[i]);
        round_trip(16, 1, some_slots[i]);
        round_trip(2, 3, some_slots[i]);
        puts_exactly(some_slots[i]);
    }
    by_hand();
    takes();
    puts_refuses();
    between_tablets();
    words();
    printf("%d passed, %d failed\n", passed, failed);
    return failed != 0;
}
