// Sixteen tablets, each with a network and a log of its own, against the office's one network. The tablets do a shift: rounds, messages by
// radio, some of them lost, links that change, a vehicle that gets stuck. Then the office joins the sixteen logs, which share no clock,
// and runs the list on one network: every answer, and every cell of each vehicle's own block, ages too, is what the tablet had.
// Build: gcc -std=c99 -Iinclude examples/tablets.c target/staticlib/libcuddystove.a -o tablets
// Run: ./tablets examples/shift-of-sixteen/program.pf. It prints examples/tablets.expected. With one of two words after it a tablet once does
// what hosts must not do, and the office finds out: `late` takes an older message behind a newer one, `lost` logs a loss after the next round.
#include "cuddystove.h"
#include <inttypes.h>
#include <stdio.h>
#include <stdlib.h>
#include <string.h>

enum { FLEET = CUDDYSTOVE_DEVICES, ROW = 4, SWEEPS = 13, LOG = 200 };

static uint8_t program[4096];
static size_t program_length;

// An entry of a tablet's log.
struct entry {
    uint8_t bytes[CUDDYSTOVE_LONGEST_EVENT]; // the event
    size_t length;                           // of its bytes
    int32_t answer[2];                       // as the tablet had it
    int count;                               // of a receipt: how often the sender had fired
};

// A tablet, by its device; 0 is nobody's.
static struct tablet {
    int32_t network[CUDDYSTOVE_CELLS];
    struct entry log[LOG];
    int entries, fired;
} tablets[FLEET + 1];

// The radio: the message on its way from a to b, and how often a had fired. In the office's network it is pending.
static struct message {
    uint8_t bytes[CUDDYSTOVE_LONGEST_MESSAGE];
    size_t length; // 0: none
    int count;
    int is_over; // a has fired since: it must not arrive any more
} air[FLEET + 1][FLEET + 1];

// The event that a tablet does next.
static uint8_t bytes[CUDDYSTOVE_LONGEST_EVENT];
static struct cuddystove_list event = {bytes, sizeof bytes, 0};

static int received, lost, unheard, underway, faults, faded;

static void stop(const char *why) {
    printf("%s\n", why);
    exit(1);
}
static void look(struct cuddystove_verdict v) {
    if (v.number != CUDDYSTOVE_DONE) stop(cuddystove_sentence(v.number));
}

// ---- A tablet

// Tablet a does the event that was just added, and logs it; `written` is what its function gave.
static struct entry *does(int a, size_t written) {
    struct tablet *t = &tablets[a];
    struct entry *e = &t->log[t->entries];
    if (written == 0 || t->entries++ == LOG) stop("the log is full, or an item has no byte");
    look(cuddystove_event(program, program_length, t->network, CUDDYSTOVE_CELLS, event.bytes, event.length, e->answer, 2));
    memcpy(e->bytes, event.bytes, event.length);
    e->length = event.length;
    event.length = 0;
    return e;
}

// How many others tablet a has heard whose message has not faded.
static int hears(int a) {
    int count = 0;
    for (int b = 1; b <= FLEET; b++) count += tablets[a].network[cuddystove_at_age(a, b)] != CUDDYSTOVE_MARK;
    return count;
}

// A round, and its messages taken out and sent. What is still on its way from the round before must not arrive any more. A round that
// faults sends nothing, and leaves that pending in the office's network.
static void fires(int a) {
    const int heard = hears(a);
    const int is_done = does(a, cuddystove_add_fire(&event, a))->answer[0] == CUDDYSTOVE_DONE;
    tablets[a].fired++;
    faults += !is_done;
    faded += heard - hears(a);
    for (int b = 1; b <= FLEET; b++) {
        struct message *m = &air[a][b];
        unheard += m->length != 0 && !m->is_over;
        m->is_over = !is_done;
        if (!is_done) continue;
        m->length = cuddystove_take(tablets[a].network, CUDDYSTOVE_CELLS, a, b, m->bytes, sizeof m->bytes);
        m->count = tablets[a].fired;
    }
}

// Tablet b receives a message that is for it: in, and the receipt handed over at once.
static void receives(int b, struct message *m) {
    if (cuddystove_put(tablets[b].network, CUDDYSTOVE_CELLS, m->bytes, m->length) == 0 || m->bytes[1] != b) stop("no message for it");
    does(b, cuddystove_add_deliver(&event, m->bytes[0], m->bytes[1]))->count = m->count;
    m->length = 0;
    received++;
}

// Tablet a hears that its message was lost, and says so: back in, and out by the event.
static void hears_of_loss(int a, struct message *m) {
    if (cuddystove_put(tablets[a].network, CUDDYSTOVE_CELLS, m->bytes, m->length) == 0) stop("no message");
    does(a, cuddystove_add_lose(&event, m->bytes[0], m->bytes[1]));
    m->length = 0;
    lost++;
}

// ---- The shift

// A number below n, the same in every run.
static int chance(int n) {
    static uint32_t state = 1;
    state = state * UINT32_C(1664525) + UINT32_C(1013904223);
    return (int)((state >> 16) % (uint32_t)n);
}

// Of what is on its way from a, some arrives, some is lost, and some nobody hears of.
static void radio(int a) {
    for (int b = 1; b <= FLEET; b++) {
        const int fate = chance(8);
        if (air[a][b].length == 0 || air[a][b].is_over || fate == 0) continue;
        if (fate == 1) hears_of_loss(a, &air[a][b]);
        else receives(b, &air[a][b]);
    }
}

// Four rows of four, 10 apart; crew 1 is free. Each tablet does its own vehicle's links.
static void drive_up(void) {
    for (int a = 1; a <= FLEET; a++) {
        look(cuddystove_fresh(tablets[a].network, CUDDYSTOVE_CELLS));
        if (a % ROW != 0) does(a, cuddystove_add_link(&event, a, a + 1, 10));
        if (a % ROW != 1) does(a, cuddystove_add_link(&event, a, a - 1, 10));
        if (a + ROW <= FLEET) does(a, cuddystove_add_link(&event, a, a + ROW, 10));
        if (a > ROW) does(a, cuddystove_add_link(&event, a, a - ROW, 10));
    }
    does(1, cuddystove_add_signal(&event, 1, 1, 1));
}

// What happens between two sweeps: refused events too.
static void incident(int sweep) {
    if (sweep == 4) does(6, cuddystove_add_signal(&event, 6, 2, 1)); // 6 is stuck: its rounds divide by 0
    if (sweep == 6) does(6, cuddystove_add_signal(&event, 6, 2, 0));
    if (sweep == 5) does(2, cuddystove_add_unlink(&event, 2, 3)); // 2 and 3 lose sight of each other
    if (sweep == 5) does(3, cuddystove_add_unlink(&event, 3, 2));
    if (sweep == 7) does(16, cuddystove_add_signal(&event, 16, 1, 1)); // a second crew is free
    if (sweep == 7) does(9, cuddystove_add_signal(&event, 9, 16, 1));  // 14: no such sensor
    if (sweep == 7) does(9, cuddystove_add_link(&event, 9, 9, 10));    // 15: to itself
}

// 5 fires a second time while its message to 6 is on its way: what hosts must not do then.
static void misdeed(const char *word) {
    struct message older = air[5][6];
    if (older.length == 0 || strcmp(word, "") == 0) return;
    fires(5);
    if (strcmp(word, "lost") == 0) hears_of_loss(5, &older);
    receives(6, &air[5][6]);
    if (strcmp(word, "late") == 0) receives(6, &older);
}

static void do_shift(const char *word) {
    drive_up();
    for (int sweep = 1; sweep <= SWEEPS; sweep++) {
        incident(sweep);
        for (int k = 0; k < FLEET; k++) {
            const int a = (7 * k + sweep) % FLEET + 1; // an order of its own each time
            fires(a);
            if (a == 5 && sweep == 8) misdeed(word);
            if (chance(4) > 0) radio(a);
        }
        for (int a = 1; a <= FLEET; a++) radio(a); // what was slow
    }
}

// ---- The office

static uint8_t joined_bytes[FLEET * LOG * CUDDYSTOVE_LONGEST_EVENT];
static struct cuddystove_list joined = {joined_bytes, sizeof joined_bytes, 0};
static const struct entry *order[FLEET * LOG]; // where each event of the list comes from
static int32_t office[CUDDYSTOVE_CELLS], answers[2 * FLEET * LOG];
static int events;
static int next[FLEET + 1];            // the first entry of each log that is not in the list yet
static int fired[FLEET + 1];           // fires of each device in the list
static int owed[FLEET + 1][LOG + 1];   // receipts of a's k-th message that are not in the list

// May tablet a's next entry follow in the list? A receipt stands behind the fire that sent the message and before the sender's next.
static int may_follow(int a) {
    const struct entry *e = &tablets[a].log[next[a]];
    if (next[a] == tablets[a].entries) return 0;
    if (e->bytes[0] == CUDDYSTOVE_TAG_FIRE) return owed[a][fired[a]] == 0;
    return e->bytes[0] != CUDDYSTOVE_TAG_DELIVER || fired[e->bytes[3]] == e->count;
}

static void follow(int a) {
    const struct entry *e = &tablets[a].log[next[a]++];
    memcpy(joined.bytes + joined.length, e->bytes, e->length);
    joined.length += e->length;
    order[events++] = e;
    fired[a] += e->bytes[0] == CUDDYSTOVE_TAG_FIRE;
    if (e->bytes[0] == CUDDYSTOVE_TAG_DELIVER) owed[e->bytes[3]][e->count]--;
}

// One list of all logs, each log in its own order; where several may follow, the lowest device.
static void join(void) {
    int all = 0;
    for (int b = 1; b <= FLEET; b++) {
        for (int k = 0; k < tablets[b].entries; k++) {
            const struct entry *e = &tablets[b].log[k];
            if (e->bytes[0] == CUDDYSTOVE_TAG_DELIVER) owed[e->bytes[3]][e->count]++;
        }
        all += tablets[b].entries;
    }
    while (events < all) {
        int a = 1;
        while (a <= FLEET && !may_follow(a)) a++;
        if (a > FLEET) stop("the logs contradict each other: no entry may follow");
        follow(a);
    }
}

// Is vehicle a's block the same? What is still on its way is put back first.
static int block_is_same(int a) {
    const size_t first = cuddystove_at_block(a);
    if (first == CUDDYSTOVE_NO_CELL) return 0;
    for (int b = 1; b <= FLEET; b++) {
        struct message *m = &air[a][b];
        if (m->length != 0 && cuddystove_put(tablets[a].network, CUDDYSTOVE_CELLS, m->bytes, m->length) == 0) stop("no message");
        underway += m->length != 0;
    }
    return memcmp(tablets[a].network + first, office + first, CUDDYSTOVE_BLOCK * sizeof office[0]) == 0;
}

static int differences(void) {
    int differ = 0;
    look(cuddystove_fresh(office, CUDDYSTOVE_CELLS));
    look(cuddystove_run(program, program_length, office, CUDDYSTOVE_CELLS, joined.bytes, joined.length, answers, 2 * FLEET * LOG));
    for (int k = 0; k < events; k++) {
        const int32_t *one = order[k]->answer, *two = answers + 2 * k;
        if (one[0] == two[0] && one[1] == two[1]) continue;
        printf("event %d: the tablet had %" PRId32 " %" PRId32 ", the office %" PRId32 " %" PRId32 "\n", k, one[0], one[1], two[0], two[1]);
        differ++;
    }
    for (int a = 1; a <= FLEET; a++) {
        if (block_is_same(a)) continue;
        printf("vehicle %d: the tablet's block is not the office's\n", a);
        differ++;
    }
    return differ;
}

int main(int count, char **words) {
    FILE *file = count > 1 ? fopen(words[1], "rb") : NULL;
    if (file == NULL) stop("usage: tablets PROGRAM.pf [late|lost]");
    program_length = fread(program, 1, sizeof program, file);
    fclose(file);
    look(cuddystove_check(program, program_length));
    do_shift(count > 2 ? words[2] : "");
    join();
    if (differences() != 0) return 1;
    printf("%d events: %d messages received, %d lost, %d never heard of, %d still on their way; %d rounds faulted\n", events, received,
           lost, unheard, underway, faults);
    printf("%d messages faded: three rounds of the hearer without a newer one\n", faded);
    printf("all answers and the blocks of all %d vehicles are the office's\n", FLEET);
    for (int a = 1; a <= FLEET; a++) {
        printf("%" PRId32 "%s", office[cuddystove_at_variable(a, 0)], a % ROW == 0 ? "\n" : " ");
    }
    return 0;
}
