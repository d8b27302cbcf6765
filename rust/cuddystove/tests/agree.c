// What the header's inline functions give, line by line; tests/agree.rs writes the same of the wrapper.
#include "cuddystove.h"
#include <inttypes.h>
#include <stdio.h>

static const int64_t items[] = {
    INT64_MIN, -4294967295, -256, -1, 0, 1, 2, 15, 16, 17, 40, 255, 256, 257, 65536, 1000001,
    INT32_MIN, INT32_MAX, 2147483648, 4294967295, 4294967297, 4294967336, INT64_MAX,
};
#define COUNT (sizeof items / sizeof items[0])

static uint64_t state = 1;
static uint32_t next(uint32_t below) {
    state = state * UINT64_C(6364136223846793005) + UINT64_C(1442695040888963407);
    return (uint32_t)(state >> 33) % below;
}

static void index_is(size_t cell) {
    if (cell == CUDDYSTOVE_NO_CELL) printf(" -");
    else printf(" %zu", cell);
}
static void bytes_are(const uint8_t *bytes, size_t length) {
    size_t i;
    if (length == 0) printf(" -");
    for (i = 0; i < length; i++) printf("%s%02x", i == 0 ? " " : "", bytes[i]);
}

static void cells(int64_t a, int64_t b, int64_t i) {
    index_is(cuddystove_at_block(a));
    index_is(cuddystove_at_variable(a, b));
    index_is(cuddystove_at_sensors(a));
    index_is(cuddystove_at_distance(a, b));
    index_is(cuddystove_at_heard(a, b, i));
    index_is(cuddystove_at_age(a, b));
    index_is(cuddystove_at_is_pending(a, b));
    index_is(cuddystove_at_pending(a, b, i));
}

static void events(int64_t a, int64_t b, int64_t c, size_t room) {
    int which;
    for (which = 0; which < 6; which++) {
        uint8_t bytes[CUDDYSTOVE_LONGEST_EVENT];
        struct cuddystove_list list = {bytes, room, 0};
        const size_t written = which == 0   ? cuddystove_add_fire(&list, a)
                               : which == 1 ? cuddystove_add_deliver(&list, a, b)
                               : which == 2 ? cuddystove_add_lose(&list, a, b)
                               : which == 3 ? cuddystove_add_link(&list, a, b, c)
                               : which == 4 ? cuddystove_add_unlink(&list, a, b)
                                            : cuddystove_add_signal(&list, a, b, c);
        bytes_are(bytes, written);
    }
}

static int32_t network[CUDDYSTOVE_CELLS];

static void messages(void) {
    static const uint32_t numbers[] = {0, 1, 0x7fffffff, 0x80000001, 0xffffffff, 0x80000000};
    uint8_t message[80], out[CUDDYSTOVE_LONGEST_MESSAGE];
    const uint32_t masks[] = {0xffff, 0xfffe, 0xfffe, 0xfffe, 0xfffe, 0xfffe, 0, 0};
    const uint32_t more[] = {0, 0, 0, 0, 0, 0, 0, 0xfffe};
    const uint32_t sort = next(8), kinds = next(8) == 0 ? 6 : 5, off = next(4), sum_at = next(CUDDYSTOVE_CELLS);
    const uint32_t slots = (next(65536) & masks[sort]) | more[sort], sender = next(18), hearer = next(18);
    size_t length = 4, i;
    uint32_t sum = 0, a, b;
    message[0] = (uint8_t)sender, message[1] = (uint8_t)hearer;
    message[2] = (uint8_t)(slots >> 8), message[3] = (uint8_t)slots;
    for (i = 0; i < 16; i++) {
        const uint32_t number = numbers[next(kinds)];
        int shift;
        for (shift = 24; shift >= 0 && slots >> i & 1; shift -= 8) message[length++] = (uint8_t)(number >> shift);
    }
    if (off == 0) length -= next(4);
    if (off == 1) message[length++] = 0;
    printf("put %zu", cuddystove_put(network, CUDDYSTOVE_CELLS, message, length));
    for (i = sum_at; i < CUDDYSTOVE_CELLS; i++) sum = sum * 31 + (uint32_t)network[i];
    printf(" %" PRIu32, sum);
    a = next(18);
    b = next(18);
    bytes_are(out, cuddystove_take(network, CUDDYSTOVE_CELLS, a, b, out, sizeof out));
    printf("\n");
}

int main(void) {
    size_t a, b, c;
    int i;
    for (a = 0; a < COUNT; a++) {
        for (b = 0; b < COUNT; b++) {
            for (c = 0; c < COUNT; c++) {
                printf("%" PRId64 " %" PRId64 " %" PRId64 ":", items[a], items[b], items[c]);
                cells(items[a], items[b], items[c]);
                events(items[a], items[b], items[c], (a + b + c) % (CUDDYSTOVE_LONGEST_EVENT + 1));
                events(items[a], items[b], items[c], CUDDYSTOVE_LONGEST_EVENT);
                printf("\n");
            }
        }
    }
    for (i = 0; i < 20000; i++) messages();
    return 0;
}
