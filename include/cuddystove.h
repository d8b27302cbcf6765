// Cuddystove, the proved Proto round engine: its functions for C99, C11 and C++11. Link with libcuddystove.a, which needs nothing but
// memcpy and memset. Every call is proved to do what the definitions say, on every input; docs/MANUAL.md says it in words. The
// functions at the end of this header (static inline) are for hosts: they are tested (tests/inline.c), not proved.
//
// Platform: x86-64 with the System V calling convention, ELF; Linux as built here. Another target needs the Rattle kit's compiler for
// it (`tools/build library` builds for x86-64 only); this header then holds as it is, where size_t has 64 bits.
//
// A slice is passed as a pointer and its length in elements. What the host owes, and all that it owes:
// - the pointer is aligned for its type and points to that many elements, which can be read (and written, where it isn't const);
// - what a call may write (network, space, table) overlaps none of its other arguments; what it only reads may overlap;
// - until the call returns nobody else writes what it was lent, nor reads what it may write. Bytes of a mapped file are lent only if
//   nothing changes or shortens the file meanwhile; else copy them;
// - 256 KiB of free stack (128 KiB for cuddystove_check and cuddystove_read_text): measured on the deepest programs, and on texts of
//   1 MB, by tests/host, not proved.
// A slice of length 0 may have any pointer, NULL too, as an empty std::vector gives it: nothing is read or written through it.
// What the slices hold is free: a call has no condition on it, answers a bad table, text, network or list with a refusal, and always
// ends.
// The library uses no heap and keeps nothing between calls, so threads may call it at the same time, each on slices of its own.
#ifndef CUDDYSTOVE_H
#define CUDDYSTOVE_H // this header was read

#include <stddef.h>
#include <stdint.h>

#define CUDDYSTOVE_VERSION "0.4.0"    // of this header and its library; a change of cells, bytes or answers raises the middle number
#define CUDDYSTOVE_VERSION_NUMBER 400 // the same to compare: 10,000, 100 and 1 times its numbers

// A result that must be looked at: the compiler warns where it is dropped (gcc also where it is cast to void).
#if defined(__cplusplus) && __cplusplus >= 201703L
#define CUDDYSTOVE_LOOK [[nodiscard]] // in C++17
#elif defined(__GNUC__)
#define CUDDYSTOVE_LOOK __attribute__((warn_unused_result)) // in gcc and clang
#else
#define CUDDYSTOVE_LOOK // elsewhere nothing
#endif
// A conversion that neither language warns of.
#ifdef __cplusplus
#define CUDDYSTOVE_AS(type, value) static_cast<type>(value) // in C++
#else
#define CUDDYSTOVE_AS(type, value) ((type)(value)) // in C
#endif

#ifdef __cplusplus
extern "C" {
#endif

// What a call returns: number 0 when it did its work, else a refusal, 1 to 13, 19 or 20, and its place (below). With number 0 comes
// place 0, but for cuddystove_read_text, whose place is then the table's length. A refused call changed no buffer.
struct cuddystove_verdict {
    uint32_t number; // 0, or the refusal: enum cuddystove_refusal
    size_t place;    // where it was found, 0 where a refusal has no place; with number 0 as said above
};

// What the two runs of cuddystove_run_both returned, each as in struct cuddystove_verdict.
struct cuddystove_verdicts {
    uint32_t number1; // of list1 on network1
    size_t place1;    // its place
    uint32_t number2; // of list2 on network2
    size_t place2;    // its place
};

// Checks a program table: 0 and 0 if it is accepted, else a refusal from 1 to 10. Nothing is written.
CUDDYSTOVE_LOOK
struct cuddystove_verdict cuddystove_check(const uint8_t *program, size_t program_length);

// Reads a program as text (docs/MANUAL.md, 4) and writes its table to the start of the slice: number 0, and the place is the table's
// length; the rest of the slice is as before. The table has then passed the check. Else, in this order, 19, 20, what the check says of
// the table (1, 2, 3, 7, 9 or 10), or 13 where the slice is shorter than the table; nothing is written. The text may be any bytes, of
// any length and depth; the time goes with the square of its length at worst, so a host bounds the length of texts that come from
// elsewhere. 4,096 bytes are room for every table.
CUDDYSTOVE_LOOK
struct cuddystove_verdict cuddystove_read_text(const uint8_t *text, size_t text_length, uint8_t *table, size_t table_length);

// Makes a network fresh, whatever it held: sensors and pending marks 0, all other cells absent. 11 and place 0, with nothing
// written, if its length is not CUDDYSTOVE_CELLS.
CUDDYSTOVE_LOOK
struct cuddystove_verdict cuddystove_fresh(int32_t *network, size_t network_length);

// Does one event. The list is exactly one event, else 12: place 0 for an empty list or a bad event, 1 for bytes after a whole one.
// After 0 and 0 the network is as the event left it and the first two numbers of space are its answer (below); the rest of space
// is as before. Space has at least 2 numbers, else 13.
CUDDYSTOVE_LOOK
struct cuddystove_verdict cuddystove_event(const uint8_t *program, size_t program_length, int32_t *network, size_t network_length,
                                           const uint8_t *list, size_t list_length, int32_t *space, size_t space_length);

// Does every event of a list from first to last, each on the network that the one before left; the list may be empty. After 0 and 0
// the numbers 2 k and 2 k + 1 of space are the answer to event k, counted from 0; the rest of space is as before. An event that is
// refused (14 to 17) changes nothing but its answer, and the run goes on. Space has at least two numbers an event, else 13.
CUDDYSTOVE_LOOK
struct cuddystove_verdict cuddystove_run(const uint8_t *program, size_t program_length, int32_t *network, size_t network_length,
                                         const uint8_t *list, size_t list_length, int32_t *space, size_t space_length);

// cuddystove_run twice: list1 on network1 with answers in space1, then list2 on network2 with answers in space2. Each run is
// refused by itself. Proved of it: if the networks were equal and the lists are orders of the same events in which clashing events
// keep their order (docs/MANUAL.md, 12), and neither run is refused, then the networks end equal, and the k-th copy of each event has the
// same answer in both.
CUDDYSTOVE_LOOK
struct cuddystove_verdicts cuddystove_run_both(const uint8_t *program, size_t program_length, int32_t *network1,
                                               size_t network1_length, int32_t *network2, size_t network2_length,
                                               const uint8_t *list1, size_t list1_length, const uint8_t *list2,
                                               size_t list2_length, int32_t *space1, size_t space1_length, int32_t *space2,
                                               size_t space2_length);

// ---- Numbers

// A number is from floor to inf, both included. Results beyond are brought to the nearer of the two.
#define CUDDYSTOVE_MARK INT32_MIN     // no number, -2,147,483,648: absent in a cell; in a link event it ends the link
#define CUDDYSTOVE_FLOOR (-INT32_MAX) // floor, the least number: -2,147,483,647
#define CUDDYSTOVE_INF INT32_MAX      // inf, the largest number: 2,147,483,647

// ---- A network: 16 blocks of 545 cells, one for each device. Devices a, b are 1 to 16.

#define CUDDYSTOVE_DEVICES 16        // of a network, numbered 1 to 16
#define CUDDYSTOVE_BLOCK 545         // cells of a device's block
#define CUDDYSTOVE_CELLS 8720        // cells of a network, 16 blocks: the only length that a network may have
#define CUDDYSTOVE_VARIABLES 16      // of a device, 0 to 15
#define CUDDYSTOVE_SENSORS 16        // of a device, 0 to 15
#define CUDDYSTOVE_ROW 16            // cells of a heard or pending row: 0, then slots 1 to 15
#define CUDDYSTOVE_FIRST_SENSORS 16  // where in a block the sensors' cell stands,
#define CUDDYSTOVE_FIRST_HEARD 17    // the first heard row, that for device 1,
#define CUDDYSTOVE_FIRST_PENDING 273 // the first pending row, that for device 1,
#define CUDDYSTOVE_FIRST_AGE 529     // and the first age, that for device 1
#define CUDDYSTOVE_FARTHEST 1000000  // the largest distance
#define CUDDYSTOVE_OLDEST 2          // the largest age

// What stands in which cell: below, at the functions that give a cell's index. A host reads cells as it likes, and writes none but by
// cuddystove_take and cuddystove_put. (A test that writes heard slots itself writes an age beside them, else 11 names the age's cell.)
//
// What is heard fades. A delivery, of an empty message too, sets the hearer's age for that sender to 0. Each round that the hearer
// completes adds 1 to all its ages, after it has read. An age that would become 3 becomes absent instead, and with it slots 1 to 15
// heard from that sender; the distance stays. So three rounds read a message, and the fourth no longer. Rounds are counted, not time:
// nothing else changes an age, neither a round that divides by 0 (17) nor a loss, a link, a signal or a refused event.

// ---- Refusals. Returned: 1 to 13, 19 and 20. In answers: 14 to 17. Of ./replay alone: 18.

// The number of a verdict, and the first number of an answer.
enum cuddystove_refusal {
    CUDDYSTOVE_DONE = 0,             // not refused
    CUDDYSTOVE_BAD_FIELD = 1,        // A field of the program is cut short, of unknown tag, of the wrong length or without a kind byte.
    CUDDYSTOVE_TOO_MANY = 2,         // A field of the program is the 257th node or the 33rd definition.
    CUDDYSTOVE_OUT_OF_RANGE = 3,     // A field of the program has an unknown kind, or a byte or constant out of its range.
    CUDDYSTOVE_NOT_GIVEN = 4,        // A field of the program names a node or definition that is not yet given.
    CUDDYSTOVE_TAKEN = 5,            // A field of the program names a node, slot or variable that is taken already.
    CUDDYSTOVE_BAD_END = 6,          // The program has no main node, bytes after it, or a node that nothing names.
    CUDDYSTOVE_WRONG_SORT = 7,       // A node has a field where a number belongs, or the other way round.
    CUDDYSTOVE_MISREAD = 8,          // A node reads a parameter that its tree does not have, or a variable outside its rep's update.
    CUDDYSTOVE_MISUSED = 9,          // A node calls a spatial definition a second time, or folds by one that may not fold.
    CUDDYSTOVE_TOO_COSTLY = 10,      // A round of the program costs more than 1,000,000.
    CUDDYSTOVE_UNSOUND = 11,         // The network is not 8,720 cells long (place 0), or a cell holds what it may not.
    CUDDYSTOVE_BAD_LIST = 12,        // An event of the list is of unknown tag, of the wrong length, cut short, missing or one too many.
    CUDDYSTOVE_SHORT_SPACE = 13,     // The answer space is shorter than two numbers an event, or the table's slice than the table.
    CUDDYSTOVE_BAD_ITEM = 14,        // A device, sensor, switch or distance of the event is out of range.
    CUDDYSTOVE_ITSELF = 15,          // The event goes from a device to itself.
    CUDDYSTOVE_NOTHING_PENDING = 16, // No message is pending to be delivered or lost.
    CUDDYSTOVE_DIVIDED_BY_0 = 17,    // The round divided by 0, and the fire changed nothing.
    CUDDYSTOVE_BAD_FILE = 18,        // A file of the replay is absent, cannot be read or has more than 4,096 bytes.
    CUDDYSTOVE_OUTSIDE = 19,         // The text is outside the notation: no program is written so.
    CUDDYSTOVE_BAD_NAME = 20         // A name of the text is unresolved, repeated or reserved.
};
// The place of 1 to 5 and 12 is the number of whole fields before the bad one, that of 7 to 9 the lowest offending node, that of 11
// the lowest offending cell, that of 19 how many bytes of the text, from its first on, are shared with a text of the notation (what is
// wrong stands there, or just before); all others have place 0. With number 0 the place of cuddystove_read_text is the table's length.
//
// An answer is two numbers: 0 and the value (that of a fire; 0 for other events), or the refusal and 0, or 17 and the node that
// divided.

// ---- A program table: fields of a tag byte, two bytes of length (high byte first) and a body.

#define CUDDYSTOVE_NODES 256            // the most nodes of a table; they are numbered from 0 by appearance
#define CUDDYSTOVE_DEFINITIONS 32       // the most definitions of a table; they are numbered from 0 too
#define CUDDYSTOVE_PARAMETERS 4         // the most parameters of a definition, numbered from 0
#define CUDDYSTOVE_LARGEST_COST 1000000 // the most that main may cost: a node costs 1 and its children, a call its definition's body
                                        // besides, a fold by definition 15 times that body

// The first byte of a field of a program table or an event list, and what its body holds: one byte each, but for the distance.
enum cuddystove_tag {
    CUDDYSTOVE_TAG_NODE = 1,       // program: kind, then what enum cuddystove_kind says; names only what was given before it
    CUDDYSTOVE_TAG_DEFINITION = 2, // program: parameter count 0 to 4, body node
    CUDDYSTOVE_TAG_MAIN = 3,       // program: the main node; the last field
    CUDDYSTOVE_TAG_FIRE = 0x10,    // list: a. Device a does a round.
    CUDDYSTOVE_TAG_DELIVER = 0x11, // list: a, b. The message pending from a to b arrives.
    CUDDYSTOVE_TAG_LOSE = 0x12,    // list: a, b. The message pending from a to b goes.
    CUDDYSTOVE_TAG_LINK = 0x13,    // list: a, b, distance in four bytes, high byte first; the mark ends the link.
    CUDDYSTOVE_TAG_SIGNAL = 0x14   // list: a, sensor 0 to 15, 1 for lit or 0.
};

// The first byte of a node, the bytes after it, and what the node gives. Operands are numbers of nodes. A field, a map from some
// devices to numbers, is what nbr, nbr-range and nbr-lag give, an operator with a field on a side, and an if with fields for branches.
// All else is a number. What has faded (above) is no longer heard. nbr-lag gives ages as they are before the round adds 1 to them.
enum cuddystove_kind {
    CUDDYSTOVE_CONSTANT = 0,  // four bytes, high byte first, not the mark: that number
    CUDDYSTOVE_PARAMETER = 1, // number 0 to 3: that argument of the call
    CUDDYSTOVE_VARIABLE = 2,  // number 0 to 15: what is stored; only under the update of its rep
    CUDDYSTOVE_OPERATOR = 3,  // operator, left, right: on two fields at the devices of both, on field and number at each device
    CUDDYSTOVE_SENSE = 4,     // child: 1 if the sensor of that number is lit, else 0, also outside 0 to 15
    CUDDYSTOVE_REP = 5,       // variable, initial, update: evaluates initial every round; stores and gives it if absent, else update
    CUDDYSTOVE_IF = 6,        // condition, then, else: 1 takes then, all else takes else; the other branch's variables become absent
    CUDDYSTOVE_MUX = 7,       // condition, then, else: the same choice, with then, else and condition evaluated, in that order
    CUDDYSTOVE_NBR = 8,       // slot 1 to 15, child: sends the child's number in the slot; the field of what was heard in it
    CUDDYSTOVE_NBR_RANGE = 9, // slot 1 to 15: sends 0; the field of the distances to devices heard with 0 in it that have a link
    CUDDYSTOVE_FOLD = 10,     // operator, initial, field: initial op first, op second and so on, lowest device first
    CUDDYSTOVE_FOLD_BY = 11,  // definition of two parameters, initial, field: the same by f(so far, next)
    CUDDYSTOVE_CALL = 12,     // definition, as many arguments as it has parameters: its body
    CUDDYSTOVE_NBR_LAG = 13   // slot 1 to 15: sends 0; the field of the ages for devices heard with 0 in it, link or none
};

// Results are exact, then brought into floor..inf, but for what is said of inf. A comparison gives 1 or 0; to it inf is the largest
// number, and equal to itself.
enum cuddystove_operator {
    CUDDYSTOVE_PLUS = 0,     // left + right; with an inf, on either side, inf
    CUDDYSTOVE_MINUS = 1,    // left - right; inf - n is inf, also inf - inf; n - inf is floor for other n
    CUDDYSTOVE_TIMES = 2,    // left x right; inf is a number like others: 0 x inf is 0, -1 x inf is floor
    CUDDYSTOVE_DIVIDE = 3,   // left / right without the fraction: -7 / 2 is -3; inf / n is inf for n > 0, also inf / inf, and floor
                             // for n < 0; n / inf is 0 for other n; a divisor 0 faults always (17)
    CUDDYSTOVE_LESS = 4,     // 1 if left < right, else 0
    CUDDYSTOVE_GREATER = 5,  // 1 if left > right, else 0
    CUDDYSTOVE_AT_LEAST = 6, // 1 if left >= right, else 0
    CUDDYSTOVE_EQUAL = 7,    // 1 if left == right, else 0
    CUDDYSTOVE_UNEQUAL = 8   // 1 if left != right, else 0
};

// ---- For hosts: static inline functions over the bytes and cells above. Items (devices, sensors, distances ..) are int64_t, so that
// each whole number that a host may have comes as it is; one that is out of range is refused, never brought into range. (C itself cuts
// off the fraction of a double; -Wconversion warns of it.)

// A refusal's short name; 'done' for 0, 'unknown refusal' for a number that is none.
static inline const char *cuddystove_name(int64_t number) {
    static const char *const names[] = {
        "done",     "bad field",            "too many", "out of range",       "not given",       "taken",
        "bad end",  "wrong sort",           "misread",  "misused definition", "too costly",      "unsound network",
        "bad list", "short space",          "bad item", "to itself",          "nothing pending", "divided by 0",
        "bad file", "outside the notation", "bad name",
    };
    return number >= 0 && number <= CUDDYSTOVE_BAD_NAME ? names[number] : "unknown refusal";
}

// What a refusal means, in a sentence for people: the comments of enum cuddystove_refusal.
static inline const char *cuddystove_sentence(int64_t number) {
    switch (number) {
    case CUDDYSTOVE_DONE: return "Not refused.";
    case CUDDYSTOVE_BAD_FIELD: return "A field of the program is cut short, of unknown tag, of the wrong length or without a kind byte.";
    case CUDDYSTOVE_TOO_MANY: return "A field of the program is the 257th node or the 33rd definition.";
    case CUDDYSTOVE_OUT_OF_RANGE: return "A field of the program has an unknown kind, or a byte or constant out of its range.";
    case CUDDYSTOVE_NOT_GIVEN: return "A field of the program names a node or definition that is not yet given.";
    case CUDDYSTOVE_TAKEN: return "A field of the program names a node, slot or variable that is taken already.";
    case CUDDYSTOVE_BAD_END: return "The program has no main node, bytes after it, or a node that nothing names.";
    case CUDDYSTOVE_WRONG_SORT: return "A node has a field where a number belongs, or the other way round.";
    case CUDDYSTOVE_MISREAD: return "A node reads a parameter that its tree does not have, or a variable outside its rep's update.";
    case CUDDYSTOVE_MISUSED: return "A node calls a spatial definition a second time, or folds by one that may not fold.";
    case CUDDYSTOVE_TOO_COSTLY: return "A round of the program costs more than 1,000,000.";
    case CUDDYSTOVE_UNSOUND: return "The network is not 8,720 cells long (place 0), or a cell holds what it may not.";
    case CUDDYSTOVE_BAD_LIST: return "An event of the list is of unknown tag, of the wrong length, cut short, missing or one too many.";
    case CUDDYSTOVE_SHORT_SPACE: return "The answer space is shorter than two numbers an event, or the table's slice than the table.";
    case CUDDYSTOVE_BAD_ITEM: return "A device, sensor, switch or distance of the event is out of range.";
    case CUDDYSTOVE_ITSELF: return "The event goes from a device to itself.";
    case CUDDYSTOVE_NOTHING_PENDING: return "No message is pending to be delivered or lost.";
    case CUDDYSTOVE_DIVIDED_BY_0: return "The round divided by 0, and the fire changed nothing.";
    case CUDDYSTOVE_BAD_FILE: return "A file of the replay is absent, cannot be read or has more than 4,096 bytes.";
    case CUDDYSTOVE_OUTSIDE: return "The text is outside the notation: no program is written so.";
    case CUDDYSTOVE_BAD_NAME: return "A name of the text is unresolved, repeated or reserved.";
    default: return "No refusal of the engine has this number.";
    }
}

// What the place of a returned refusal counts, from 0: a field of the program, a node, a cell, an event, a byte of the text (of one that
// only lacks its end, that behind its last); "" where it has none, as 11 has none for a network of a wrong length.
static inline const char *cuddystove_counted(int64_t number, size_t place) {
    if (number >= CUDDYSTOVE_BAD_FIELD && number <= CUDDYSTOVE_TAKEN) return "field of the program";
    if (number >= CUDDYSTOVE_WRONG_SORT && number <= CUDDYSTOVE_MISUSED) return "node";
    if (number == CUDDYSTOVE_UNSOUND && place != 0) return "cell";
    if (number == CUDDYSTOVE_OUTSIDE) return "byte of the text";
    return number == CUDDYSTOVE_BAD_LIST ? "event" : "";
}

// Is the number from least to most?
static inline int cuddystove_within(int64_t number, int64_t least, int64_t most) { return number >= least && number <= most; }

// ---- The index of a cell, for instance network[cuddystove_at_variable(2, 0)]; CUDDYSTOVE_NO_CELL where there is no such device,
// variable or slot. Devices a and b are 1 to 16. Look at an index whose items may be wrong before it is used.

// No such cell. Used as an index all the same it is no address on this platform, so the program ends; cut to an int it is 8 GiB before the
// network.
#define CUDDYSTOVE_NO_CELL (SIZE_MAX / 8 - INT32_MAX)

// The first cell of a's block.
CUDDYSTOVE_LOOK
static inline size_t cuddystove_at_block(int64_t a) {
    if (!cuddystove_within(a, 1, CUDDYSTOVE_DEVICES)) return CUDDYSTOVE_NO_CELL;
    return CUDDYSTOVE_AS(size_t, a - 1) * CUDDYSTOVE_BLOCK;
}
// Variable v, 0 to 15, of a: the mark or a number.
CUDDYSTOVE_LOOK
static inline size_t cuddystove_at_variable(int64_t a, int64_t v) {
    if (!cuddystove_within(a, 1, CUDDYSTOVE_DEVICES) || !cuddystove_within(v, 0, CUDDYSTOVE_VARIABLES - 1)) return CUDDYSTOVE_NO_CELL;
    return cuddystove_at_block(a) + CUDDYSTOVE_AS(size_t, v);
}
// The lit sensors of a: bit s for sensor s, 0 to 65,535.
CUDDYSTOVE_LOOK
static inline size_t cuddystove_at_sensors(int64_t a) {
    if (!cuddystove_within(a, 1, CUDDYSTOVE_DEVICES)) return CUDDYSTOVE_NO_CELL;
    return cuddystove_at_block(a) + CUDDYSTOVE_FIRST_SENSORS;
}
// Cell i, 0 to 15, of a's row for b; first is CUDDYSTOVE_FIRST_HEARD or CUDDYSTOVE_FIRST_PENDING. For the four functions below.
CUDDYSTOVE_LOOK
static inline size_t cuddystove_at_row(int64_t a, size_t first, int64_t b, int64_t i) {
    if (!cuddystove_within(a, 1, CUDDYSTOVE_DEVICES) || !cuddystove_within(b, 1, CUDDYSTOVE_DEVICES)) return CUDDYSTOVE_NO_CELL;
    if (first != CUDDYSTOVE_FIRST_HEARD && first != CUDDYSTOVE_FIRST_PENDING) return CUDDYSTOVE_NO_CELL;
    if (!cuddystove_within(i, 0, CUDDYSTOVE_ROW - 1)) return CUDDYSTOVE_NO_CELL;
    return cuddystove_at_block(a) + first + CUDDYSTOVE_AS(size_t, b - 1) * CUDDYSTOVE_ROW + CUDDYSTOVE_AS(size_t, i);
}
// The distance of the link from a to b, 0 to 1,000,000, the mark where there is none.
CUDDYSTOVE_LOOK
static inline size_t cuddystove_at_distance(int64_t a, int64_t b) { return cuddystove_at_row(a, CUDDYSTOVE_FIRST_HEARD, b, 0); }
// Slot i, 1 to 15, that a last heard from b: a number; the mark where it was not in the message, and where the message has faded.
CUDDYSTOVE_LOOK
static inline size_t cuddystove_at_heard(int64_t a, int64_t b, int64_t i) {
    return i == 0 ? CUDDYSTOVE_NO_CELL : cuddystove_at_row(a, CUDDYSTOVE_FIRST_HEARD, b, i);
}
// The age of what a last heard from b: how many rounds a has completed since, 0 to 2; the mark where nothing was heard, where it has
// faded, and for a itself. It is present where a slot heard from b is; of an empty message it is present without one. Programs read
// it by nbr-lag.
CUDDYSTOVE_LOOK
static inline size_t cuddystove_at_age(int64_t a, int64_t b) {
    if (!cuddystove_within(a, 1, CUDDYSTOVE_DEVICES) || !cuddystove_within(b, 1, CUDDYSTOVE_DEVICES)) return CUDDYSTOVE_NO_CELL;
    return cuddystove_at_block(a) + CUDDYSTOVE_FIRST_AGE + CUDDYSTOVE_AS(size_t, b - 1);
}
// 1 if a message is pending from a to b, else 0.
CUDDYSTOVE_LOOK
static inline size_t cuddystove_at_is_pending(int64_t a, int64_t b) { return cuddystove_at_row(a, CUDDYSTOVE_FIRST_PENDING, b, 0); }
// Slot i, 1 to 15, of the message pending from a to b: the mark where it isn't in the message, and where no message is pending.
CUDDYSTOVE_LOOK
static inline size_t cuddystove_at_pending(int64_t a, int64_t b, int64_t i) {
    return i == 0 ? CUDDYSTOVE_NO_CELL : cuddystove_at_row(a, CUDDYSTOVE_FIRST_PENDING, b, i);
}

// ---- Lists of events. Each function appends one event and gives the bytes that it wrote; 0, with nothing written, where the event
// does not fit, or where an item has no byte: a device, sensor or switch outside 0 to 255, a distance outside 0 to 2,147,483,647.
// An item that has its bytes and is out of range all the same, as device 17, is written: the engine answers it with 14.
//     uint8_t bytes[CUDDYSTOVE_LONGEST_EVENT];
//     struct cuddystove_list list = {bytes, sizeof bytes, 0};
//     if (cuddystove_add_fire(&list, 1) == 0) ..  // then list.bytes and list.length are the list of a call
//     list.length = 0;                            // an empty list again

#define CUDDYSTOVE_LONGEST_EVENT 9 // bytes of the longest event, a link

// A list of events that grows.
struct cuddystove_list {
    uint8_t *bytes; // where the events stand
    size_t room;    // so many bytes may be written there
    size_t length;  // so many are, from the first; a host may set it to 0, or back to what it was
};

// A field with this tag and these items, a byte each, at most six. For the functions below.
CUDDYSTOVE_LOOK
static inline size_t cuddystove_add(struct cuddystove_list *list, enum cuddystove_tag tag, const int64_t *items, size_t count) {
    uint8_t *to;
    size_t i;
    if (count > CUDDYSTOVE_LONGEST_EVENT - 3 || list->length > list->room || list->room - list->length < 3 + count) return 0;
    for (i = 0; i < count; i++) {
        if (!cuddystove_within(items[i], 0, UINT8_MAX)) return 0;
    }
    to = list->bytes + list->length;
    to[0] = CUDDYSTOVE_AS(uint8_t, tag);
    to[1] = 0;
    to[2] = CUDDYSTOVE_AS(uint8_t, count);
    for (i = 0; i < count; i++) to[3 + i] = CUDDYSTOVE_AS(uint8_t, items[i]);
    list->length += 3 + count;
    return 3 + count;
}
// Device a does a round: its variables are stored, what it has heard ages or fades, and each b that a has a link to has a message of
// a's pending.
CUDDYSTOVE_LOOK
static inline size_t cuddystove_add_fire(struct cuddystove_list *list, int64_t a) {
    return cuddystove_add(list, CUDDYSTOVE_TAG_FIRE, &a, 1);
}
// The message pending from a to b becomes what b last heard from a, at age 0, and is no longer pending.
CUDDYSTOVE_LOOK
static inline size_t cuddystove_add_deliver(struct cuddystove_list *list, int64_t a, int64_t b) {
    const int64_t items[] = {a, b};
    return cuddystove_add(list, CUDDYSTOVE_TAG_DELIVER, items, 2);
}
// The message pending from a to b goes.
CUDDYSTOVE_LOOK
static inline size_t cuddystove_add_lose(struct cuddystove_list *list, int64_t a, int64_t b) {
    const int64_t items[] = {a, b};
    return cuddystove_add(list, CUDDYSTOVE_TAG_LOSE, items, 2);
}
// There is a link from a to b of that distance. The mark is no distance here: cuddystove_add_unlink ends a link.
CUDDYSTOVE_LOOK
static inline size_t cuddystove_add_link(struct cuddystove_list *list, int64_t a, int64_t b, int64_t distance) {
    const int64_t items[] = {a, b, distance >> 24 & 255, distance >> 16 & 255, distance >> 8 & 255, distance & 255};
    return cuddystove_within(distance, 0, INT32_MAX) ? cuddystove_add(list, CUDDYSTOVE_TAG_LINK, items, 6) : 0;
}
// There is no link from a to b: a link event with the mark.
CUDDYSTOVE_LOOK
static inline size_t cuddystove_add_unlink(struct cuddystove_list *list, int64_t a, int64_t b) {
    const int64_t items[] = {a, b, 0x80, 0, 0, 0};
    return cuddystove_add(list, CUDDYSTOVE_TAG_LINK, items, 6);
}
// The sensor of a, 0 to 15, is lit (1) or not (0).
CUDDYSTOVE_LOOK
static inline size_t cuddystove_add_signal(struct cuddystove_list *list, int64_t a, int64_t sensor, int64_t lit) {
    const int64_t items[] = {a, sensor, lit};
    return cuddystove_add(list, CUDDYSTOVE_TAG_SIGNAL, items, 3);
}

// ---- Messages between tablets. Each tablet has a network of its own and does its own device's events on it. The way of a message
// from tablet a to tablet b:
//   a: does fire a; then, for each b, cuddystove_take gives the message to b as bytes, takes it out of a's network, and a sends it;
//   b: looks whether it is for b (message[1]); cuddystove_put puts it into b's network, as pending; then b does deliver a b at once,
//      which sets b's age for a to 0. On its way a message has no age; cuddystove_take and cuddystove_put touch none;
//   lost: nobody does anything, and what b heard from a before goes on ageing. Where a hears of it before its next fire, and its log
//      shall have it: cuddystove_put on a's network, then lose a b. After that fire it must not: at the office lose would throw away
//      the newer message.
// What the hosts see to: a message arrives as it was sent, once, and before its sender's next fire, or is thrown away (a later one
// is gone in the office's network); send along how often a has fired, rounds that faulted too, and log it with the receipt, so that
// the office can set the delivery between the right two fires. A message is logged as received or as lost, not as both.
// Proved (demand 3): any two orders of all the tablets' events that keep clashing events in order give the office equal networks
// and answers. Not proved, and tried by examples/tablets.c: that tablet a has in its own block, but for the pending rows, and answers,
// what the office's one network has and answers; it follows from what each event reads and writes (docs/MANUAL.md, 11).
//
// A message as bytes: sender, hearer, the slots that it has (two bytes, high byte first, bit i for slot i), then each slot's number
// (four bytes, high byte first), lowest slot first. Each message has just one such form.

#define CUDDYSTOVE_LONGEST_MESSAGE 64 // bytes of a message with all fifteen slots

// Takes the message pending from a to b out of the network: its bytes are in message, and it is no longer pending. Gives how many they
// are, 4 to 64; 0, with nothing written, where none is pending, where there are no such two devices, where the network is not
// CUDDYSTOVE_CELLS long, and where room is less than CUDDYSTOVE_LONGEST_MESSAGE.
CUDDYSTOVE_LOOK
static inline size_t cuddystove_take(int32_t *network, size_t network_length, int64_t a, int64_t b, uint8_t *message, size_t room) {
    const size_t row = cuddystove_at_is_pending(a, b);
    size_t length = 4, slots = 0, i;
    if (a == b || row == CUDDYSTOVE_NO_CELL || network_length != CUDDYSTOVE_CELLS || room < CUDDYSTOVE_LONGEST_MESSAGE) return 0;
    if (network[row] != 1) return 0;
    for (i = 1; i < CUDDYSTOVE_ROW; i++) {
        const uint32_t number = CUDDYSTOVE_AS(uint32_t, network[row + i]);
        int shift;
        if (network[row + i] == CUDDYSTOVE_MARK) continue;
        slots |= CUDDYSTOVE_AS(size_t, 1) << i;
        for (shift = 24; shift >= 0; shift -= 8) message[length++] = CUDDYSTOVE_AS(uint8_t, number >> shift & 255);
        network[row + i] = CUDDYSTOVE_MARK;
    }
    network[row] = 0;
    message[0] = CUDDYSTOVE_AS(uint8_t, a);
    message[1] = CUDDYSTOVE_AS(uint8_t, b);
    message[2] = CUDDYSTOVE_AS(uint8_t, slots >> 8);
    message[3] = CUDDYSTOVE_AS(uint8_t, slots & 255);
    return length;
}

// The number in four bytes, high byte first. For cuddystove_put.
CUDDYSTOVE_LOOK
static inline int32_t cuddystove_number(const uint8_t *bytes) {
    const int64_t n = CUDDYSTOVE_AS(int64_t, bytes[0]) << 24 | bytes[1] << 16 | bytes[2] << 8 | bytes[3];
    return CUDDYSTOVE_AS(int32_t, n > INT32_MAX ? n - UINT32_MAX - 1 : n);
}

// Are these the bytes of a message: two devices, not the same, slots 1 to 15, and a number for each? For cuddystove_put.
CUDDYSTOVE_LOOK
static inline int cuddystove_is_message(const uint8_t *message, size_t message_length) {
    size_t length = 4, i;
    if (message_length < length || message[0] == message[1] || message[3] % 2 != 0) return 0;
    if (cuddystove_at_is_pending(message[0], message[1]) == CUDDYSTOVE_NO_CELL) return 0;
    for (i = 1; i < CUDDYSTOVE_ROW; i++) {
        if ((message[i < 8 ? 3 : 2] >> i % 8 & 1) == 0) continue;
        if (message_length - length < 4 || cuddystove_number(message + length) == CUDDYSTOVE_MARK) return 0;
        length += 4;
    }
    return length == message_length;
}

// Puts a message that was received, as cuddystove_take gave it, into the network as pending from message[0] to message[1], in place of
// what may be pending there. Gives message_length; 0, with nothing written, for bytes that cuddystove_take never gives, and where the
// network is not CUDDYSTOVE_CELLS long.
CUDDYSTOVE_LOOK
static inline size_t cuddystove_put(int32_t *network, size_t network_length, const uint8_t *message, size_t message_length) {
    size_t row, length = 4, i;
    if (network_length != CUDDYSTOVE_CELLS || !cuddystove_is_message(message, message_length)) return 0;
    row = cuddystove_at_is_pending(message[0], message[1]);
    network[row] = 1;
    for (i = 1; i < CUDDYSTOVE_ROW; i++) {
        const int has = (message[i < 8 ? 3 : 2] >> i % 8 & 1) != 0;
        network[row + i] = has ? cuddystove_number(message + length) : CUDDYSTOVE_MARK;
        length += has ? 4 : 0;
    }
    return message_length;
}

#ifdef __cplusplus
}
#endif

#endif
