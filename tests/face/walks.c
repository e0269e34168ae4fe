/* Peeling, called from C. */
#include "walks.h"

struct walk unwalked(void) {
    struct walk w;
    memset(&w, 0xa5, sizeof w);
    return w;
}

struct returned peel_under(const uint32_t *params, struct sketch *s, struct walk *w, size_t slots, uint32_t allowance) {
    struct returned t = nothing_yet();
    t.number = gabunlitik_peel(params, s->counts, BUCKETS, s->idsums, BUCKETS, w->flows, slots, w->counts, slots, w->queue,
                               BUCKETS, w->marks, BUCKETS, allowance, w->figures, &t.place);
    return t;
}

static struct returned peel(struct sketch *s, struct walk *w, size_t slots, uint32_t allowance) {
    return peel_under(K, s, w, slots, allowance);
}

int figures_are(const struct walk *w, uint64_t ending, uint64_t entries, uint64_t lost, uint64_t extra, uint64_t pops) {
    return w->figures[GABUNLITIK_ENDING] == ending && w->figures[GABUNLITIK_ENTRIES] == entries &&
           w->figures[GABUNLITIK_LOST] == lost && w->figures[GABUNLITIK_EXTRA] == extra &&
           w->figures[GABUNLITIK_POPS] == pops;
}

int cleared(const struct walk *w) {
    uint32_t rest = 0;
    for (size_t i = (size_t)w->figures[GABUNLITIK_ENTRIES]; i < MOST_SLOTS; i++)
        rest |= w->flows[i] | (uint32_t)w->counts[i];
    for (size_t k = 0; k < BUCKETS; k++)
        rest |= w->queue[k] | w->marks[k];
    return rest == 0;
}

static void clean(void) {
    struct sketch s = e1();
    struct walk w = unwalked();
    CHECK_DONE(peel(&s, &w, MOST_SLOTS, 80)); /* E2 */
    CHECK(figures_are(&w, GABUNLITIK_ENDED_CLEAN, 2, 3, 0, 3));
    CHECK(w.flows[0] == 12 && w.counts[0] == 2 && w.flows[1] == 7 && w.counts[1] == 1);
    CHECK(cleared(&w));
    CHECK(used(&s) == 0);
    s = e6();
    w = unwalked();
    CHECK_DONE(peel(&s, &w, MOST_SLOTS, 80)); /* E6 */
    CHECK(figures_are(&w, GABUNLITIK_ENDED_CLEAN, 1, 0, 4, 1));
    CHECK(w.flows[0] == 7 && w.counts[0] == -4);
    CHECK(cleared(&w));
    CHECK(used(&s) == 0);
    s = fresh_sketch();
    CHECK_DONE(peel(&s, &w, MOST_SLOTS, 0)); /* E9 */
    CHECK(figures_are(&w, GABUNLITIK_ENDED_CLEAN, 0, 0, 0, 0));
    CHECK(cleared(&w));
}

/* What a flow lost is not hidden by what another gained. */
static void lost_beside_extra(void) {
    struct sketch s = fresh_sketch();
    struct walk w = unwalked();
    CHECK_DONE(insert(&s, 7, 5));
    CHECK_DONE(withdraw(&s, 20, 5));
    CHECK_DONE(peel(&s, &w, MOST_SLOTS, 80));
    CHECK(figures_are(&w, GABUNLITIK_ENDED_CLEAN, 2, 5, 5, 2));
    CHECK(w.flows[0] == 20 && w.counts[0] == -5 && w.flows[1] == 7 && w.counts[1] == 5);
    CHECK(cleared(&w));
    CHECK(used(&s) == 0);
    w = unwalked();
    CHECK_DONE(insert(&s, 7, 5));
    CHECK_DONE(withdraw(&s, 20, 5));
    CHECK_DONE(peel(&s, &w, MOST_SLOTS, 1)); /* of what is listed alone: flow 7 is still to come */
    CHECK(figures_are(&w, GABUNLITIK_ENDED_SPENT, 1, 0, 5, 1));
    CHECK(w.flows[0] == 20 && w.counts[0] == -5);
    CHECK(cleared(&w));
    s = of_flow_0();
    w = unwalked();
    CHECK_DONE(insert(&s, 7, 5));
    CHECK_DONE(withdraw(&s, 11, 4));
    CHECK_DONE(peel(&s, &w, MOST_SLOTS, 80)); /* both, where something is left */
    CHECK(figures_are(&w, GABUNLITIK_ENDED_STUCK, 2, 5, 4, 6));
    CHECK(w.flows[0] == 11 && w.counts[0] == -4 && w.flows[1] == 7 && w.counts[1] == 5);
    CHECK(cleared(&w));
}

/* Sums that need more than 32 bits. */
static void large_sums(void) {
    struct sketch s = fresh_sketch();
    struct walk w = unwalked();
    CHECK_DONE(insert(&s, 7, 2147483646));
    CHECK_DONE(withdraw(&s, 20, 2147483646));
    CHECK_DONE(insert(&s, 11, 2147483645));
    CHECK_DONE(withdraw(&s, 4, 2147483644));
    CHECK_DONE(insert(&s, 3, 2147483643));
    CHECK_DONE(withdraw(&s, 2, 2147483642));
    CHECK_DONE(peel(&s, &w, MOST_SLOTS, 80));
    CHECK(figures_are(&w, GABUNLITIK_ENDED_CLEAN, 6, 6442450934, 6442450932, 8));
    CHECK(w.flows[0] == 20 && w.counts[0] == -2147483646 && w.flows[5] == 7 && w.counts[5] == 2147483646);
    CHECK(cleared(&w));
    CHECK(used(&s) == 0);
}

/* An entry that comes to 0 between two others goes: the first stays in its slot, and the last moves down. */
static void entry_at_0(void) {
    struct sketch s = e3(), kept = s;
    struct walk w = unwalked();
    CHECK_DONE(insert(&s, 20, 3));
    CHECK_DONE(withdraw(&s, 4, 4));
    CHECK_DONE(peel(&s, &w, MOST_SLOTS, 6));
    CHECK(figures_are(&w, GABUNLITIK_ENDED_SPENT, 2, 3, 4, 6));
    CHECK(w.flows[0] == 20 && w.counts[0] == 3 && w.flows[1] == 4 && w.counts[1] == -4);
    CHECK(cleared(&w));
    CHECK(same(&s, &kept));
}

static void spent(void) {
    struct sketch s = e3(), kept = s;
    struct walk w = unwalked();
    CHECK_DONE(peel(&s, &w, MOST_SLOTS, 9)); /* E4 */
    CHECK(figures_are(&w, GABUNLITIK_ENDED_SPENT, 0, 0, 0, 9));
    CHECK(cleared(&w));
    CHECK(same(&s, &kept));
    CHECK_DONE(peel(&s, &w, MOST_SLOTS, 10)); /* E3 */
    CHECK(figures_are(&w, GABUNLITIK_ENDED_SPENT, 1, 2, 0, 10));
    CHECK(w.flows[0] == 7 && w.counts[0] == 2);
    CHECK(cleared(&w));
    CHECK(used(&s) == 2);
    CHECK(bucket_is(&s, 6, 2, 14));
    CHECK(bucket_is(&s, 7, -2, 2147483633));
    s = kept = e1();
    CHECK_DONE(peel(&s, &w, MOST_SLOTS, 0)); /* E9 */
    CHECK(figures_are(&w, GABUNLITIK_ENDED_SPENT, 0, 0, 0, 0));
    CHECK(same(&s, &kept));
}

static void stuck_and_full(void) {
    struct sketch s = e5(), kept = s;
    struct walk w = unwalked();
    CHECK_DONE(peel(&s, &w, MOST_SLOTS, 80)); /* E5 */
    CHECK(figures_are(&w, GABUNLITIK_ENDED_STUCK, 0, 0, 0, 0));
    CHECK(cleared(&w));
    CHECK(same(&s, &kept));
    w = unwalked();
    CHECK_DONE(peel(&s, &w, MOST_SLOTS, 0)); /* stuck comes before spent */
    CHECK(figures_are(&w, GABUNLITIK_ENDED_STUCK, 0, 0, 0, 0));
    CHECK(same(&s, &kept));
    s = kept = e1();
    CHECK_DONE(peel(&s, &w, 0, 80)); /* E10 */
    CHECK(figures_are(&w, GABUNLITIK_ENDED_FULL, 0, 0, 0, 2));
    CHECK(cleared(&w));
    CHECK(same(&s, &kept));
}

/* What an old sketch holds of flow 0 is never listed: it is stuck by itself, and where all else is listed. */
static void flow_0(void) {
    struct sketch s = of_flow_0(), kept = s, other = e1();
    struct walk w = unwalked();
    CHECK_DONE(peel(&s, &w, MOST_SLOTS, 80));
    CHECK(figures_are(&w, GABUNLITIK_ENDED_STUCK, 0, 0, 0, 2));
    CHECK(cleared(&w));
    CHECK(same(&s, &kept));
    w = unwalked();
    CHECK_DONE(peel(&s, &w, 0, 80)); /* nothing is taken, so that no slot is needed */
    CHECK(figures_are(&w, GABUNLITIK_ENDED_STUCK, 0, 0, 0, 2));
    CHECK(same(&s, &kept));
    w = unwalked();
    CHECK_DONE(peel(&s, &w, MOST_SLOTS, 1)); /* a bucket that is not pure is a pop */
    CHECK(figures_are(&w, GABUNLITIK_ENDED_SPENT, 0, 0, 0, 1));
    CHECK(same(&s, &kept));
    CHECK_DONE(add(&s, &other));
    w = unwalked();
    CHECK_DONE(peel(&s, &w, MOST_SLOTS, 80));
    CHECK(figures_are(&w, GABUNLITIK_ENDED_STUCK, 2, 3, 0, 6));
    CHECK(w.flows[0] == 12 && w.counts[0] == 2 && w.flows[1] == 7 && w.counts[1] == 1);
    CHECK(cleared(&w));
    CHECK(same(&s, &kept));
    other = fresh_sketch();
    CHECK_DONE(subtract(&other, &s)); /* more of flow 0 downstream */
    s = kept = other;
    w = unwalked();
    CHECK_DONE(peel(&s, &w, MOST_SLOTS, 80));
    CHECK(figures_are(&w, GABUNLITIK_ENDED_STUCK, 0, 0, 0, 2));
    CHECK(same(&s, &kept));
    other = of_flow_0();
    CHECK_DONE(add(&s, &other)); /* as much on both sides */
    CHECK_DONE(peel(&s, &w, MOST_SLOTS, 0));
    CHECK(figures_are(&w, GABUNLITIK_ENDED_CLEAN, 0, 0, 0, 0));
    s = of_flow_0();
    CHECK_DONE(insert(&s, 20, 3)); /* which stands beside flow 0 in both arrays: the two pass as flow 10 */
    w = unwalked();
    CHECK_DONE(peel(&s, &w, MOST_SLOTS, 80));
    CHECK(figures_are(&w, GABUNLITIK_ENDED_CLEAN, 1, 6, 0, 1));
    CHECK(w.flows[0] == 10 && w.counts[0] == 6);
    CHECK(used(&s) == 0);
}

/* Index 2 passes as flow 7, whose other bucket would come to -3000000000. */
static void range(void) {
    struct sketch s = fresh_sketch(), other = fresh_sketch(), kept;
    struct walk w = unwalked();
    CHECK_DONE(insert(&s, 2, 1000000000));
    CHECK_DONE(insert(&s, 12, 1000000000));
    CHECK_DONE(insert(&other, 4, 1000000000));
    CHECK_DONE(subtract(&s, &other));
    kept = s;
    CHECK_DONE(peel(&s, &w, MOST_SLOTS, 80));
    CHECK(figures_are(&w, GABUNLITIK_ENDED_RANGE, 0, 0, 0, 1));
    CHECK(cleared(&w));
    CHECK(same(&s, &kept));
    w = unwalked();
    CHECK_DONE(peel(&s, &w, 0, 80)); /* range comes before full */
    CHECK(figures_are(&w, GABUNLITIK_ENDED_RANGE, 0, 0, 0, 1));
    CHECK(same(&s, &kept));
}

/* The greatest and the least count have their flow like any other. One further are the multiples of the prime, which are damage. */
static void edges(void) {
    struct sketch s = e7(), kept;
    struct walk w = unwalked();
    CHECK_DONE(peel(&s, &w, MOST_SLOTS, 80));
    CHECK(figures_are(&w, GABUNLITIK_ENDED_CLEAN, 1, 2147483646, 0, 1));
    CHECK(w.flows[0] == 2147483646 && w.counts[0] == 2147483646);
    CHECK(cleared(&w));
    CHECK(used(&s) == 0);
    s = fresh_sketch();
    w = unwalked();
    CHECK_DONE(withdraw(&s, 2147483646, 2147483646));
    CHECK_DONE(peel(&s, &w, MOST_SLOTS, 80));
    CHECK(figures_are(&w, GABUNLITIK_ENDED_CLEAN, 1, 0, 2147483646, 1));
    CHECK(w.flows[0] == 2147483646 && w.counts[0] == -2147483646);
    CHECK(cleared(&w));
    CHECK(used(&s) == 0);
    s = e7();
    s.counts[8] = 2147483647;
    kept = s;
    CHECK_REFUSED(peel(&s, &w, MOST_SLOTS, 80), GABUNLITIK_DAMAGE, 8, &s, &kept);
    s.counts[8] = kept.counts[8] = -2147483647;
    CHECK_REFUSED(peel(&s, &w, MOST_SLOTS, 80), GABUNLITIK_DAMAGE, 8, &s, &kept);
}

/* A refused walk tells figures that are all 0, and alters nothing else. */
static void check_unwalked(struct walk *w) {
    struct walk untouched = unwalked();
    CHECK(figures_are(w, 0, 0, 0, 0, 0));
    memset(w->figures, 0xa5, sizeof w->figures);
    CHECK(memcmp(w, &untouched, sizeof untouched) == 0);
}

static void refused(void) {
    struct sketch s = e1(), kept = s;
    struct walk w = unwalked();
    struct returned t = nothing_yet();
    t.number = gabunlitik_peel(BAD, s.counts, BUCKETS, s.idsums, BUCKETS, w.flows, 4, w.counts, 4, w.queue, BUCKETS,
                               w.marks, BUCKETS, 80, w.figures, &t.place);
    CHECK_REFUSED(t, GABUNLITIK_PARAM, 0, &s, &kept);
    check_unwalked(&w);
    t = nothing_yet();
    t.number = gabunlitik_peel(K, s.counts, BUCKETS, s.idsums, BUCKETS, w.flows, 4, w.counts, 3, w.queue, BUCKETS,
                               w.marks, BUCKETS, 80, w.figures, &t.place);
    CHECK_REFUSED(t, GABUNLITIK_LENGTH, 0, &s, &kept);
    check_unwalked(&w);
    t = nothing_yet();
    t.number = gabunlitik_peel(K, s.counts, BUCKETS, s.idsums, BUCKETS, w.flows, 4, w.counts, 4, w.queue, BUCKETS - 1,
                               w.marks, BUCKETS, 80, w.figures, &t.place);
    CHECK_REFUSED(t, GABUNLITIK_LENGTH, 0, &s, &kept);
    check_unwalked(&w);
    t = nothing_yet();
    t.number = gabunlitik_peel(K, s.counts, BUCKETS, s.idsums, BUCKETS, w.flows, 4, w.counts, 4, w.queue, BUCKETS,
                               w.marks, BUCKETS - 1, 80, w.figures, &t.place);
    CHECK_REFUSED(t, GABUNLITIK_LENGTH, 0, &s, &kept);
    check_unwalked(&w);
    t = nothing_yet();
    t.number = gabunlitik_peel(K, s.counts, BUCKETS - 1, s.idsums, BUCKETS, w.flows, 4, w.counts, 4, w.queue, BUCKETS,
                               w.marks, BUCKETS, 80, w.figures, &t.place);
    CHECK_REFUSED(t, GABUNLITIK_LENGTH, 0, &s, &kept);
    check_unwalked(&w);
    s.idsums[4] = kept.idsums[4] = 2147483647;
    CHECK_REFUSED(peel(&s, &w, MOST_SLOTS, 80), GABUNLITIK_DAMAGE, 4, &s, &kept);
    check_unwalked(&w);
}

/* The list of a number: each digit, to the base 3, says whether a flow is not in it, lost or gained. Returns how many are in it. */
static size_t list_of(unsigned number, const uint32_t flows[OWNERS], uint32_t listed[OWNERS], int32_t counts[OWNERS]) {
    size_t many = 0;
    for (unsigned i = 0; i < OWNERS; i++, number /= 3)
        if (number % 3 != 0) {
            listed[many] = flows[i];
            counts[many++] = number % 3 == 1 ? (int32_t)(i + 1) : -(int32_t)(10 * i + 1);
        }
    return many;
}

/* The first entries of a list are in the table, and what was not lent of it is as it was. */
static int lists(const struct walk *w, const uint32_t listed[OWNERS], const int32_t counts[OWNERS], size_t entries, size_t slots) {
    struct walk before = unwalked();
    for (size_t i = 0; i < entries; i++)
        if (w->flows[i] != listed[i] || w->counts[i] != counts[i])
            return 0;
    for (size_t i = slots; i < MOST_SLOTS; i++)
        if (w->flows[i] != before.flows[i] || w->counts[i] != before.counts[i])
            return 0;
    return w->figures[GABUNLITIK_ENTRIES] == entries;
}

void check_own_buckets(const uint32_t *params, const uint32_t flows[OWNERS]) {
    for (unsigned number = 1; number < 3 * 3 * 3 * 3 * 3; number++) {
        uint32_t listed[OWNERS];
        int32_t counts[OWNERS];
        size_t many = list_of(number, flows, listed, counts);
        struct sketch whole = fresh_sketch();
        for (size_t i = many; i-- > 0;)
            if (counts[i] > 0)
                CHECK_DONE(insert_under(params, &whole, listed[i], (uint32_t)counts[i]));
            else
                CHECK_DONE(withdraw_under(params, &whole, listed[i], (uint32_t)-counts[i]));
        struct sketch s = whole;
        struct walk w = unwalked();
        CHECK_DONE(peel_under(params, &s, &w, many, (uint32_t)many));
        CHECK(w.figures[GABUNLITIK_ENDING] == GABUNLITIK_ENDED_CLEAN && w.figures[GABUNLITIK_POPS] == many);
        CHECK(lists(&w, listed, counts, many, many));
        CHECK(used(&s) == 0);
        s = whole;
        w = unwalked();
        CHECK_DONE(peel_under(params, &s, &w, many - 1, 80));
        CHECK(w.figures[GABUNLITIK_ENDING] == GABUNLITIK_ENDED_FULL && w.figures[GABUNLITIK_POPS] == many);
        CHECK(lists(&w, listed, counts, many - 1, many - 1));
        s = whole;
        w = unwalked();
        CHECK_DONE(peel_under(params, &s, &w, MOST_SLOTS, (uint32_t)many - 1));
        CHECK(w.figures[GABUNLITIK_ENDING] == GABUNLITIK_ENDED_SPENT && w.figures[GABUNLITIK_POPS] == many - 1);
        CHECK(lists(&w, listed, counts, many - 1, MOST_SLOTS));
        CHECK(cleared(&w));
    }
}

static void own_buckets(void) {
    static const uint32_t flows[OWNERS] = {5, 6, 7, 8, 4};
    check_own_buckets(K, flows);
}

void test_walks(void) {
    clean();
    lost_beside_extra();
    large_sums();
    entry_at_0();
    spent();
    stuck_and_full();
    flow_0();
    range();
    edges();
    refused();
    own_buckets();
}
