/* What a walk finds where flows have fingerprints, called from C. */
#include "fingerprints.h"

static const uint64_t P = 2147483647;

/* One flow, by some number of packets lost or, below 0, extra. */
static void check_walk(uint32_t flow, int32_t number) {
    struct sketch s = fresh_sketch();
    struct walk w = unwalked();
    if (number > 0)
        CHECK_DONE(insert_under(PRINTED, &s, flow, (uint32_t)number));
    else
        CHECK_DONE(withdraw_under(PRINTED, &s, flow, (uint32_t)-number));
    CHECK_DONE(peel_under(PRINTED, &s, &w, MOST_SLOTS, 80));
    CHECK(figures_are(&w, GABUNLITIK_ENDED_CLEAN, 1, number > 0 ? (uint32_t)number : 0, number > 0 ? 0 : (uint32_t)-number, 1));
    CHECK(w.flows[0] == flow && w.counts[0] == number);
    CHECK(cleared(&w));
    CHECK(used(&s) == 0);
}

static void walks(void) {
    struct sketch s = printed_e1(), kept = s;
    struct walk w = unwalked();
    CHECK_DONE(peel_under(PRINTED, &s, &w, MOST_SLOTS, 80));
    CHECK(figures_are(&w, GABUNLITIK_ENDED_CLEAN, 2, 3, 0, 3));
    CHECK(w.flows[0] == 17 && w.counts[0] == 2 && w.flows[1] == 7 && w.counts[1] == 1);
    CHECK(cleared(&w));
    CHECK(used(&s) == 0);
    s = kept;
    w = unwalked();
    CHECK_DONE(peel_under(PRINTED, &s, &w, 0, 80)); /* index 2 is not pure, and flow 17 needs a slot */
    CHECK(figures_are(&w, GABUNLITIK_ENDED_FULL, 0, 0, 0, 2));
    CHECK(same(&s, &kept));
    check_walk(1, 1);
    check_walk(7, -4);
    check_walk(8388606, 1);
    check_walk(8388606, 2147483646);
    check_walk(8388606, -2147483646);
}

/* Flows 2 and 12 share both buckets. In the plain profile their numbers pass as 1935, which is taken out and put in without end; but that
 * is 7 * 256 + 143, and flow 7 has the fingerprint 15. */
static void told_apart(void) {
    struct sketch s = two(2, 12), kept = s;
    struct walk w = unwalked();
    CHECK_DONE(peel_under(PRINTED, &s, &w, MOST_SLOTS, 80));
    CHECK(figures_are(&w, GABUNLITIK_ENDED_STUCK, 0, 0, 0, 2));
    CHECK(cleared(&w));
    CHECK(same(&s, &kept));
    w = unwalked();
    CHECK_DONE(peel_under(PRINTED, &s, &w, 0, 2)); /* nothing is taken, so that no slot is needed, and stuck comes before spent */
    CHECK(figures_are(&w, GABUNLITIK_ENDED_STUCK, 0, 0, 0, 2));
    CHECK(same(&s, &kept));
    w = unwalked();
    CHECK_DONE(peel_under(PRINTED, &s, &w, MOST_SLOTS, 1));
    CHECK(figures_are(&w, GABUNLITIK_ENDED_SPENT, 0, 0, 0, 1));
    CHECK(same(&s, &kept));
    w = unwalked();
    CHECK_DONE(peel_under(K, &s, &w, MOST_SLOTS, 10));
    CHECK(figures_are(&w, GABUNLITIK_ENDED_SPENT, 1, 2, 0, 10));
    CHECK(w.flows[0] == 1935 && w.counts[0] == 2);
    CHECK(cleared(&w));
    CHECK_DONE(insert_under(K, &s, 1935, 2)); /* the balance */
    CHECK(same(&s, &kept));
}

/* Flows 1 and 61 share both buckets, and their fingerprint with flow 31, which is midway and stands there too: it passes for them. */
static void not_told_apart(void) {
    struct sketch s = two(1, 61), kept = s;
    struct walk w = unwalked();
    CHECK_DONE(peel_under(PRINTED, &s, &w, MOST_SLOTS, 80));
    CHECK(figures_are(&w, GABUNLITIK_ENDED_CLEAN, 1, 2, 0, 1));
    CHECK(w.flows[0] == 31 && w.counts[0] == 2);
    CHECK(cleared(&w));
    CHECK(used(&s) == 0);
    CHECK_DONE(insert_under(PRINTED, &s, 31, 2));
    CHECK(same(&s, &kept));
}

/* A number by itself in its buckets: found where it is that of a flow, and else left; in the plain profile always found. */
static void check_number(uint32_t number, int32_t count) {
    struct sketch s = fresh_sketch(), kept;
    struct walk w = unwalked();
    uint32_t flow = number / 256;
    hold(&s, number, count);
    kept = s;
    CHECK_DONE(peel_under(PRINTED, &s, &w, MOST_SLOTS, 80));
    CHECK(cleared(&w));
    if (is_flow(flow) && number % 256 == fingerprint(flow)) {
        CHECK(w.figures[GABUNLITIK_ENDING] == GABUNLITIK_ENDED_CLEAN && w.figures[GABUNLITIK_POPS] == 1);
        CHECK(w.figures[GABUNLITIK_ENTRIES] == 1 && w.flows[0] == flow && w.counts[0] == count);
        CHECK(used(&s) == 0);
    } else {
        CHECK(figures_are(&w, GABUNLITIK_ENDED_STUCK, 0, 0, 0, 2));
        CHECK(same(&s, &kept));
    }
    s = kept;
    w = unwalked();
    CHECK_DONE(peel_under(K, &s, &w, MOST_SLOTS, 80));
    CHECK(w.figures[GABUNLITIK_ENDING] == GABUNLITIK_ENDED_CLEAN && w.figures[GABUNLITIK_ENTRIES] == 1);
    CHECK(w.flows[0] == number && w.counts[0] == count);
}

/* All last eight bits with flow 7; for others the fingerprint and its neighbours. 0 and 8388607 have fingerprints by the formula, 7 and 44,
 * and are no flows. */
static void numbers(void) {
    static const uint32_t rests[] = {0, 1, 2, 31, 4194304, 8388605, 8388606, 8388607};
    static const int32_t counts[] = {1, -3, 2147483646, -2147483646};
    for (uint32_t print = 0; print < 256; print++)
        check_number(7 * 256 + print, print % 2 ? 1 : -1);
    for (size_t i = 0; i < sizeof rests / sizeof rests[0]; i++)
        for (size_t j = 0; j < sizeof counts / sizeof counts[0]; j++) {
            check_number(extended(rests[i]) - 1, counts[j]);
            check_number(extended(rests[i]), counts[j]);
            check_number(extended(rests[i]) + 1, counts[j]);
        }
    check_number(2147483646, 1);
}

/* The fifth pair (256, 0) gives every flow the fingerprint 0, and these pairs give 256 times a number the places that K gives it. */
static const uint32_t BY_256[GABUNLITIK_PARAMS] = {D, M, 8388608, 4194304, 0, 0, 0, 0, 0, 0, GABUNLITIK_FIRST_PRIME,
                                                   256, 0, GABUNLITIK_PLAIN_SORT};

enum { LISTED = 6 };

/* Packets put in or, below 0, taken out, and how the walk ends. */
static const struct list {
    uint32_t flows[LISTED];
    int32_t numbers[LISTED];
    size_t slots;
    uint32_t allowance;
    uint64_t ending;
} lists[] = {
    {{7, 12}, {1, 2}, MOST_SLOTS, 80, GABUNLITIK_ENDED_CLEAN},
    {{7, 12}, {1, 2}, 0, 80, GABUNLITIK_ENDED_FULL},
    {{7, 12}, {1, 2}, MOST_SLOTS, 0, GABUNLITIK_ENDED_SPENT},
    {{2, 12}, {1, 1}, MOST_SLOTS, 9, GABUNLITIK_ENDED_SPENT},
    {{2, 12}, {1, 1}, MOST_SLOTS, 10, GABUNLITIK_ENDED_SPENT},
    {{2, 12}, {1, -1}, MOST_SLOTS, 80, GABUNLITIK_ENDED_STUCK},
    {{7}, {-4}, MOST_SLOTS, 80, GABUNLITIK_ENDED_CLEAN},
    {{2, 12, 4}, {1000000000, 1000000000, -1000000000}, MOST_SLOTS, 80, GABUNLITIK_ENDED_RANGE},
    {{2, 12, 4}, {1000000000, 1000000000, -1000000000}, 0, 80, GABUNLITIK_ENDED_RANGE},
    {{2, 12, 20, 4}, {1, 1, 3, -4}, MOST_SLOTS, 6, GABUNLITIK_ENDED_SPENT},
    {{7, 20, 11, 4, 3, 2},
     {2147483646, -2147483646, 2147483645, -2147483644, 2147483643, -2147483642},
     MOST_SLOTS,
     80,
     GABUNLITIK_ENDED_CLEAN},
};

static struct sketch sketch_of(const struct list *list, const uint32_t *params) {
    struct sketch s = fresh_sketch();
    for (size_t i = 0; i < LISTED && list->flows[i] != 0; i++)
        if (list->numbers[i] > 0)
            CHECK_DONE(insert_under(params, &s, list->flows[i], (uint32_t)list->numbers[i]));
        else
            CHECK_DONE(withdraw_under(params, &s, list->flows[i], (uint32_t)-list->numbers[i]));
    return s;
}

/* The same counts, and 256 times the idsums. */
static int is_by_256(const struct sketch *s, const struct sketch *plain) {
    for (size_t k = 0; k < BUCKETS; k++)
        if (!bucket_is(s, k, plain->counts[k], (uint32_t)((uint64_t)plain->idsums[k] * 256 % P)))
            return 0;
    return 1;
}

/* Where no fingerprint tells numbers apart, false flows come out as in the plain profile, and every ending is that of there. */
static void as_plain(void) {
    for (size_t i = 0; i < sizeof lists / sizeof lists[0]; i++) {
        struct sketch s = sketch_of(&lists[i], BY_256), plain = sketch_of(&lists[i], K);
        struct walk w = unwalked(), plain_walk = unwalked();
        CHECK(is_by_256(&s, &plain));
        CHECK_DONE(peel_under(BY_256, &s, &w, lists[i].slots, lists[i].allowance));
        CHECK_DONE(peel_under(K, &plain, &plain_walk, lists[i].slots, lists[i].allowance));
        CHECK(w.figures[GABUNLITIK_ENDING] == lists[i].ending);
        CHECK(memcmp(&w, &plain_walk, sizeof w) == 0);
        CHECK(is_by_256(&s, &plain));
    }
}

static void own_buckets(void) {
    static const uint32_t flows[OWNERS] = {2, 3, 7, 1, 5};
    check_own_buckets(PRINTED, flows);
}

void test_fingerprint_walks(void) {
    walks();
    told_apart();
    not_told_apart();
    numbers();
    as_plain();
    own_buckets();
}
