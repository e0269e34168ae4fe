/* Lists and tables of the greatest length, and one longer, called from C. */
#include "bench.h"

enum { MOST = 65536, OVER = MOST + 1, ROOM = PRINTED_HEAD_BYTES + 9 * OVER + 5 };

static uint32_t flows[OVER], numbers[OVER];
static uint8_t out[ROOM];

static struct {
    uint32_t flows[OVER];
    int32_t counts[OVER];
    uint32_t queue[BUCKETS], marks[BUCKETS];
} walk;

static int all_are(uint8_t byte, const void *memory, size_t n) {
    const uint8_t *bytes = memory;
    for (size_t i = 0; i < n; i++)
        if (bytes[i] != byte)
            return 0;
    return 1;
}

/* The lists are as they were made. */
static int listed(void) {
    for (uint32_t i = 0; i < OVER; i++)
        if (flows[i] != i + 1 || numbers[i] != i % 1000 + 1)
            return 0;
    return 1;
}

static struct returned write_stream(const uint32_t *params, size_t flows_len, size_t numbers_len, size_t *length) {
    struct returned t = nothing_yet();
    memset(out, 0xa5, sizeof out);
    memset(length, 0xa5, sizeof *length);
    t.number = gabunlitik_write_stream(params, flows, flows_len, numbers, numbers_len, out, ROOM, length, &t.place);
    return t;
}

static struct returned insert_listed(const uint32_t *params, struct sketch *s, size_t n) {
    struct returned t = nothing_yet();
    t.number = gabunlitik_insert_all(params, s->counts, BUCKETS, s->idsums, BUCKETS, flows, n, numbers, n, &t.place);
    return t;
}

/* The file of the longest list has `due` bytes. */
static void lists(const uint32_t *params, size_t due) {
    const size_t refused[][2] = {{OVER, OVER}, {MOST, MOST - 1}, {MOST - 1, MOST}, {OVER, MOST}, {MOST, OVER}};
    struct sketch s = fresh_sketch(), wanted = fresh_sketch();
    struct returned t = nothing_yet();
    size_t length;
    for (uint32_t i = 0; i < OVER; i++) {
        flows[i] = i + 1;
        numbers[i] = i % 1000 + 1;
    }
    for (size_t i = 0; i < sizeof refused / sizeof refused[0]; i++) {
        CHECK_RETURNS(write_stream(params, refused[i][0], refused[i][1], &length), GABUNLITIK_LENGTH, 0);
        CHECK(length == 0 && all_are(0xa5, out, ROOM));
    }
    CHECK_DONE(write_stream(params, MOST, MOST, &length));
    CHECK(length == due && all_are(0xa5, out + due, ROOM - due));
    CHECK_DONE(insert_listed(params, &wanted, MOST));
    t.number = gabunlitik_read_stream(params, s.counts, BUCKETS, s.idsums, BUCKETS, out, length, &t.place);
    CHECK_DONE(t);
    CHECK(same(&s, &wanted));
    CHECK_DONE(insert_listed(params, &wanted, OVER)); /* which takes any length */
    CHECK(listed());
}

static struct returned peel(struct sketch *s, size_t flows_len, size_t counts_len, uint64_t figures[GABUNLITIK_FIGURES]) {
    struct returned t = nothing_yet();
    memset(&walk, 0xa5, sizeof walk);
    memset(figures, 0xa5, GABUNLITIK_FIGURES * sizeof figures[0]);
    t.number = gabunlitik_peel(K, s->counts, BUCKETS, s->idsums, BUCKETS, walk.flows, flows_len, walk.counts, counts_len,
                               walk.queue, BUCKETS, walk.marks, BUCKETS, 80, figures, &t.place);
    return t;
}

static void tables(void) {
    const size_t refused[][2] = {{OVER, OVER}, {MOST, MOST - 1}, {OVER, MOST}, {MOST, OVER}};
    struct sketch s = e1(), kept = s;
    uint64_t figures[GABUNLITIK_FIGURES];
    for (size_t i = 0; i < sizeof refused / sizeof refused[0]; i++) {
        CHECK_REFUSED(peel(&s, refused[i][0], refused[i][1], figures), GABUNLITIK_LENGTH, 0, &s, &kept);
        CHECK(all_are(0, figures, sizeof figures) && all_are(0xa5, &walk, sizeof walk));
    }
    CHECK_DONE(peel(&s, MOST, MOST, figures)); /* E2 */
    CHECK(figures[GABUNLITIK_ENDING] == GABUNLITIK_ENDED_CLEAN && figures[GABUNLITIK_ENTRIES] == 2);
    CHECK(walk.flows[0] == 12 && walk.counts[0] == 2 && walk.flows[1] == 7 && walk.counts[1] == 1);
    CHECK(all_are(0, walk.flows + 2, (MOST - 2) * sizeof walk.flows[0]));
    CHECK(all_are(0, walk.counts + 2, (MOST - 2) * sizeof walk.counts[0]));
    CHECK(all_are(0xa5, walk.flows + MOST, sizeof walk.flows[0]));
    CHECK(all_are(0xa5, walk.counts + MOST, sizeof walk.counts[0]));
    CHECK(used(&s) == 0);
}

void test_longest(void) {
    lists(K, HEAD_BYTES + 9 * MOST + 5);
    lists(PRINTED, PRINTED_HEAD_BYTES + 9 * MOST + 5);
    tables();
}
