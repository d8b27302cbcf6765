// The numbers of include/cuddystove.h against those of 01 and 02, written out again; built as C11 and as C++11, linked and run. Its functions are
// tried by tests/inline.c.
#include "cuddystove.h"
#include "bytes.h"
#include <assert.h>
#ifdef __cplusplus
#include <vector>
#endif

static_assert(sizeof(struct cuddystove_verdict) == 16 && sizeof(struct cuddystove_verdicts) == 32, "sizes");
static_assert(offsetof(struct cuddystove_verdict, number) == 0 && offsetof(struct cuddystove_verdict, place) == 8, "verdict");
static_assert(offsetof(struct cuddystove_verdicts, number1) == 0 && offsetof(struct cuddystove_verdicts, place1) == 8, "verdict 1");
static_assert(offsetof(struct cuddystove_verdicts, number2) == 16 && offsetof(struct cuddystove_verdicts, place2) == 24, "verdict 2");

static_assert(CUDDYSTOVE_MARK == -2147483647 - 1 && CUDDYSTOVE_FLOOR == -2147483647 && CUDDYSTOVE_INF == 2147483647, "numbers");
static_assert(CUDDYSTOVE_DEVICES == 16 && CUDDYSTOVE_BLOCK == 545 && CUDDYSTOVE_CELLS == 8720, "network");
static_assert(CUDDYSTOVE_DEVICES * CUDDYSTOVE_BLOCK == CUDDYSTOVE_CELLS, "blocks");
static_assert(CUDDYSTOVE_VARIABLES == 16 && CUDDYSTOVE_SENSORS == 16 && CUDDYSTOVE_ROW == 16, "counts");
static_assert(CUDDYSTOVE_FARTHEST == 1000000 && CUDDYSTOVE_OLDEST == 2 && CUDDYSTOVE_LARGEST_COST == 1000000, "largest");
static_assert(CUDDYSTOVE_NODES == 256 && CUDDYSTOVE_DEFINITIONS == 32 && CUDDYSTOVE_PARAMETERS == 4, "table");

static_assert(CUDDYSTOVE_FIRST_SENSORS == 16 && CUDDYSTOVE_FIRST_HEARD == 17, "in a block");
static_assert(CUDDYSTOVE_FIRST_PENDING == 273 && CUDDYSTOVE_FIRST_AGE == 529, "further in a block");
static_assert(CUDDYSTOVE_FIRST_AGE + CUDDYSTOVE_DEVICES == CUDDYSTOVE_BLOCK, "the ages end a block");
static_assert(CUDDYSTOVE_NO_CELL == 0x1fffffff80000000 && CUDDYSTOVE_LONGEST_EVENT == 9 && CUDDYSTOVE_LONGEST_MESSAGE == 64, "for hosts");
static_assert(CUDDYSTOVE_VERSION_NUMBER == 400, "version");

static_assert(CUDDYSTOVE_DONE == 0 && CUDDYSTOVE_BAD_FIELD == 1 && CUDDYSTOVE_TOO_MANY == 2 && CUDDYSTOVE_OUT_OF_RANGE == 3 &&
                  CUDDYSTOVE_NOT_GIVEN == 4 && CUDDYSTOVE_TAKEN == 5 && CUDDYSTOVE_BAD_END == 6 && CUDDYSTOVE_WRONG_SORT == 7 &&
                  CUDDYSTOVE_MISREAD == 8 && CUDDYSTOVE_MISUSED == 9 && CUDDYSTOVE_TOO_COSTLY == 10 && CUDDYSTOVE_UNSOUND == 11 &&
                  CUDDYSTOVE_BAD_LIST == 12 && CUDDYSTOVE_SHORT_SPACE == 13 && CUDDYSTOVE_BAD_ITEM == 14 &&
                  CUDDYSTOVE_ITSELF == 15 && CUDDYSTOVE_NOTHING_PENDING == 16 && CUDDYSTOVE_DIVIDED_BY_0 == 17 &&
                  CUDDYSTOVE_BAD_FILE == 18 && CUDDYSTOVE_OUTSIDE == 19 && CUDDYSTOVE_BAD_NAME == 20,
              "refusals");
static_assert(CUDDYSTOVE_TAG_NODE == 1 && CUDDYSTOVE_TAG_DEFINITION == 2 && CUDDYSTOVE_TAG_MAIN == 3 && CUDDYSTOVE_TAG_FIRE == 0x10 &&
                  CUDDYSTOVE_TAG_DELIVER == 0x11 && CUDDYSTOVE_TAG_LOSE == 0x12 && CUDDYSTOVE_TAG_LINK == 0x13 &&
                  CUDDYSTOVE_TAG_SIGNAL == 0x14,
              "tags");
static_assert(CUDDYSTOVE_CONSTANT == 0 && CUDDYSTOVE_PARAMETER == 1 && CUDDYSTOVE_VARIABLE == 2 && CUDDYSTOVE_OPERATOR == 3 &&
                  CUDDYSTOVE_SENSE == 4 && CUDDYSTOVE_REP == 5 && CUDDYSTOVE_IF == 6 && CUDDYSTOVE_MUX == 7 &&
                  CUDDYSTOVE_NBR == 8 && CUDDYSTOVE_NBR_RANGE == 9 && CUDDYSTOVE_FOLD == 10 && CUDDYSTOVE_FOLD_BY == 11 &&
                  CUDDYSTOVE_CALL == 12 && CUDDYSTOVE_NBR_LAG == 13,
              "kinds");
static_assert(CUDDYSTOVE_PLUS == 0 && CUDDYSTOVE_MINUS == 1 && CUDDYSTOVE_TIMES == 2 && CUDDYSTOVE_DIVIDE == 3 &&
                  CUDDYSTOVE_LESS == 4 && CUDDYSTOVE_GREATER == 5 && CUDDYSTOVE_AT_LEAST == 6 && CUDDYSTOVE_EQUAL == 7 &&
                  CUDDYSTOVE_UNEQUAL == 8,
              "operators");

// 01's program (i) and its list, in 01's hex.
static const uint8_t program[] = {0x01, 0x00, 0x05, 0x00, 0x00, 0x00, 0x00, 0x00, 0x01, 0x00, 0x02, 0x02, 0x00,
                                  0x01, 0x00, 0x05, 0x00, 0x00, 0x00, 0x00, 0x01, 0x01, 0x00, 0x04, 0x03, 0x00,
                                  0x01, 0x02, 0x01, 0x00, 0x04, 0x05, 0x00, 0x00, 0x03, 0x03, 0x00, 0x01, 0x04};
static const uint8_t list[] = {0x10, 0x00, 0x01, 0x01, 0x11, 0x00, 0x02, 0x01, 0x01,
                               0x10, 0x00, 0x01, 0x01, 0x11, 0x00, 0x02, 0x01, 0x02};
static const uint8_t same[] = {FIRE(1), DELIVER(1, 1), FIRE(1), DELIVER(1, 2)};
static const int32_t answers[] = {0, 0, 15, 0, 0, 1, 16, 0};

static int32_t network[2][CUDDYSTOVE_CELLS];
static int32_t space[2][8];

// Program (i) as text, its characters as the bytes that both languages give them.
static int reads_text(void) {
    static const uint8_t text[] = {'(', 'r', 'e', 'p', ' ', 'x', ' ', '0', ' ', '(', '+', ' ', 'x', ' ', '1', ')', ')'};
    uint8_t table[sizeof program];
    const struct cuddystove_verdict v = cuddystove_read_text(text, sizeof text, table, sizeof table);
    for (size_t i = 0; i < sizeof program; i++) {
        if (v.number != 0 || table[i] != program[i]) return 0;
    }
    return v.place == sizeof program;
}

// An empty slice as C and C++ hosts have it: a null pointer, here a vector's.
static int without_events(void) {
#ifdef __cplusplus
    std::vector<uint8_t> none;
    std::vector<int32_t> nothing;
    if (none.data() != nullptr || nothing.data() != nullptr) return 0; // else this shows nothing
    return cuddystove_run(program, sizeof program, network[0], CUDDYSTOVE_CELLS, none.data(), none.size(), nothing.data(), 0).number == 0 &&
           cuddystove_check(none.data(), none.size()).number == CUDDYSTOVE_BAD_END &&
           cuddystove_read_text(none.data(), none.size(), none.data(), none.size()).number == CUDDYSTOVE_OUTSIDE;
#else
    return cuddystove_run(program, sizeof program, network[0], CUDDYSTOVE_CELLS, NULL, 0, NULL, 0).number == 0 &&
           cuddystove_check(NULL, 0).number == CUDDYSTOVE_BAD_END && cuddystove_read_text(NULL, 0, NULL, 0).number == CUDDYSTOVE_OUTSIDE;
#endif
}

int main(void) {
    static_assert(sizeof list == sizeof same, "lengths");
    for (size_t i = 0; i < sizeof list; i++) {
        if (list[i] != same[i]) return 1;
    }
    if (cuddystove_check(program, sizeof program).number != 0) return 2;
    for (int i = 0; i < 2; i++) {
        if (cuddystove_fresh(network[i], CUDDYSTOVE_CELLS).number != 0) return 3;
    }
    struct cuddystove_verdicts v =
        cuddystove_run_both(program, sizeof program, network[0], CUDDYSTOVE_CELLS, network[1], CUDDYSTOVE_CELLS, list, sizeof list,
                            same, sizeof same, space[0], 8, space[1], 8);
    if (v.number1 != 0 || v.place1 != 0 || v.number2 != 0 || v.place2 != 0) return 4;
    for (int i = 0; i < 8; i++) {
        if (space[0][i] != answers[i] || space[1][i] != answers[i]) return 5;
    }
    if (cuddystove_event(program, sizeof program, network[0], CUDDYSTOVE_CELLS, same, 4, space[0], 8).number != 0) return 6;
    if (cuddystove_run(program, sizeof program, network[1], CUDDYSTOVE_CELLS, same, 4, space[1], 8).number != 0) return 7;
    if (!without_events()) return 9;
    if (!reads_text()) return 10;
    return space[0][1] == 2 && space[1][1] == 2 ? 0 : 8;
}
