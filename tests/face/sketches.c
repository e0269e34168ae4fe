/* Fresh sketches and packets, called from C. */
#include "bench.h"

static void examples(void) {
    struct sketch s = e1();
    CHECK(used(&s) == 3);
    CHECK(bucket_is(&s, 2, 3, 31));
    CHECK(bucket_is(&s, 6, 2, 24));
    CHECK(bucket_is(&s, 7, 1, 7));
    s = e3();
    CHECK(used(&s) == 2);
    CHECK(bucket_is(&s, 2, 2, 14));
    CHECK(bucket_is(&s, 6, 2, 14));
    s = e5();
    CHECK(used(&s) == 2);
    CHECK(bucket_is(&s, 2, 0, 2147483637));
    CHECK(bucket_is(&s, 6, 0, 2147483637));
    s = e6();
    CHECK(used(&s) == 2);
    CHECK(bucket_is(&s, 2, -4, 2147483619));
    CHECK(bucket_is(&s, 7, -4, 2147483619));
    s = e7();
    CHECK(used(&s) == 2);
    CHECK(bucket_is(&s, 1, 2147483646, 1));
    CHECK(bucket_is(&s, 8, 2147483646, 1));
}

static void packets(void) {
    const uint32_t flows[] = {7, 12}, numbers[] = {1, 2};
    struct sketch s = fresh_sketch(), wanted = e1();
    CHECK_DONE(insert_all(&s, flows, numbers, 0));
    CHECK(used(&s) == 0);
    CHECK_DONE(insert_all(&s, flows, numbers, 2));
    CHECK(same(&s, &wanted));
}

/* E1 without 12 by 2 is 7 by 1, and so on down to nothing; four packets of 7 that never went in are E6. */
static void withdrawals(void) {
    struct sketch s = e1(), wanted = fresh_sketch();
    CHECK_DONE(insert(&wanted, 7, 1));
    CHECK_DONE(withdraw(&s, 12, 2));
    CHECK(same(&s, &wanted));
    CHECK_DONE(withdraw(&s, 7, 1));
    CHECK(used(&s) == 0);
    wanted = e6();
    CHECK_DONE(withdraw(&s, 7, 4));
    CHECK(same(&s, &wanted));
}

static void refused_packets(void) {
    struct sketch s = e7(), kept = s;
    CHECK_REFUSED(insert(&s, 1, 1), GABUNLITIK_RANGE, 1, &s, &kept);
    CHECK_REFUSED(insert(&s, 2147483647, 1), GABUNLITIK_FLOW, 0, &s, &kept);
    CHECK_REFUSED(insert(&s, 2147483647, 0), GABUNLITIK_FLOW, 0, &s, &kept);
    CHECK_REFUSED(insert(&s, 0, 1), GABUNLITIK_FLOW, 0, &s, &kept);
    CHECK_REFUSED(insert(&s, 0, 0), GABUNLITIK_FLOW, 0, &s, &kept);
    CHECK_REFUSED(insert(&s, 1, 0), GABUNLITIK_COUNT, 0, &s, &kept);
    CHECK_REFUSED(insert(&s, 1, 2147483647), GABUNLITIK_COUNT, 0, &s, &kept);
    s.counts[7] = kept.counts[7] = -2147483647;
    CHECK_REFUSED(insert(&s, 7, 1), GABUNLITIK_DAMAGE, 7, &s, &kept);
    CHECK_DONE(insert(&s, 12, 1)); /* whose buckets are whole */
}

/* The lower limit is that of E7 taken out of nothing: -2147483646 at indexes 1 and 8. */
static void refused_withdrawals(void) {
    struct sketch s = fresh_sketch(), kept;
    CHECK_DONE(withdraw(&s, 2147483646, 2147483646));
    CHECK(used(&s) == 2);
    CHECK(bucket_is(&s, 1, -2147483646, 2147483646));
    CHECK(bucket_is(&s, 8, -2147483646, 2147483646));
    kept = s;
    CHECK_REFUSED(withdraw(&s, 1, 1), GABUNLITIK_RANGE, 1, &s, &kept);
    CHECK_REFUSED(withdraw(&s, 2147483646, 1), GABUNLITIK_RANGE, 1, &s, &kept);
    CHECK_REFUSED(withdraw(&s, 2147483647, 0), GABUNLITIK_FLOW, 0, &s, &kept);
    CHECK_REFUSED(withdraw(&s, 0, 1), GABUNLITIK_FLOW, 0, &s, &kept);
    CHECK_REFUSED(withdraw(&s, 0, 0), GABUNLITIK_FLOW, 0, &s, &kept);
    CHECK_REFUSED(withdraw(&s, 1, 0), GABUNLITIK_COUNT, 0, &s, &kept);
    CHECK_REFUSED(withdraw(&s, 1, 2147483647), GABUNLITIK_COUNT, 0, &s, &kept);
    s.idsums[9] = kept.idsums[9] = 2147483647; /* where flow 11 stands, beside index 1 */
    CHECK_REFUSED(withdraw(&s, 11, 1), GABUNLITIK_DAMAGE, 9, &s, &kept);
    CHECK_DONE(withdraw(&s, 12, 1)); /* whose buckets are whole */
}

/* Flow 0 is refused before its buckets are looked at, also where packets of it stand from before, and after the parameters and the
 * lengths; flow 1 is the lowest. */
static void flow_0(void) {
    struct sketch s = of_flow_0(), kept = s;
    struct returned t = nothing_yet();
    CHECK_REFUSED(withdraw(&s, 0, 3), GABUNLITIK_FLOW, 0, &s, &kept);
    t.number = gabunlitik_insert(BAD, s.counts, BUCKETS, s.idsums, BUCKETS, 0, 1, &t.place);
    CHECK_REFUSED(t, GABUNLITIK_PARAM, 0, &s, &kept);
    t = nothing_yet();
    t.number = gabunlitik_insert(K, s.counts, BUCKETS - 1, s.idsums, BUCKETS, 0, 1, &t.place);
    CHECK_REFUSED(t, GABUNLITIK_LENGTH, 0, &s, &kept);
    s.counts[0] = kept.counts[0] = -2147483647;
    CHECK_REFUSED(insert(&s, 0, 1), GABUNLITIK_FLOW, 0, &s, &kept);
    CHECK_REFUSED(withdraw(&s, 0, 1), GABUNLITIK_FLOW, 0, &s, &kept);
    s = fresh_sketch();
    CHECK_DONE(insert(&s, 1, 1));
    CHECK(used(&s) == 2);
    CHECK(bucket_is(&s, 1, 1, 1));
    CHECK(bucket_is(&s, 9, 1, 1));
}

/* A bucket of flow 7 by itself, at its limits and past them, and what one packet more is answered; index 3 is not one of 7's. */
static void limits(void) {
    static const struct {
        size_t index;
        int32_t count;
        uint32_t idsum, inserted, withdrawn;
    } buckets[] = {
        {7, -2147483647 - 1, 0, GABUNLITIK_DAMAGE, GABUNLITIK_DAMAGE},
        {7, -2147483647, 0, GABUNLITIK_DAMAGE, GABUNLITIK_DAMAGE},
        {7, -2147483646, 0, GABUNLITIK_DONE, GABUNLITIK_RANGE},
        {7, -2147483645, 0, GABUNLITIK_DONE, GABUNLITIK_DONE},
        {2, 2147483645, 0, GABUNLITIK_DONE, GABUNLITIK_DONE},
        {2, 2147483646, 0, GABUNLITIK_RANGE, GABUNLITIK_DONE},
        {2, 2147483647, 0, GABUNLITIK_DAMAGE, GABUNLITIK_DAMAGE},
        {7, 0, 2147483646, GABUNLITIK_DONE, GABUNLITIK_DONE},
        {7, 0, 2147483647, GABUNLITIK_DAMAGE, GABUNLITIK_DAMAGE},
        {3, 0, 2147483647, GABUNLITIK_DONE, GABUNLITIK_DONE},
    };
    for (size_t i = 0; i < sizeof buckets / sizeof buckets[0]; i++) {
        struct sketch s = fresh_sketch(), kept;
        s.counts[buckets[i].index] = buckets[i].count;
        s.idsums[buckets[i].index] = buckets[i].idsum;
        kept = s;
        CHECK_RETURNS(insert(&s, 7, 1), buckets[i].inserted, buckets[i].inserted ? buckets[i].index : 0);
        CHECK(buckets[i].inserted == GABUNLITIK_DONE || same(&s, &kept));
        s = kept;
        CHECK_RETURNS(withdraw(&s, 7, 1), buckets[i].withdrawn, buckets[i].withdrawn ? buckets[i].index : 0);
        CHECK(buckets[i].withdrawn == GABUNLITIK_DONE || same(&s, &kept));
    }
}

/* Of several faults the lowest number is returned, and of one number the lowest index. */
static void several_faults(void) {
    struct sketch s = fresh_sketch(), kept;
    s.counts[2] = s.counts[7] = 2147483646;
    kept = s;
    CHECK_REFUSED(insert(&s, 7, 1), GABUNLITIK_RANGE, 2, &s, &kept);
    s.idsums[7] = kept.idsums[7] = 2147483647;
    CHECK_REFUSED(insert(&s, 7, 1), GABUNLITIK_DAMAGE, 7, &s, &kept);
    s.idsums[2] = kept.idsums[2] = 2147483647;
    CHECK_REFUSED(insert(&s, 7, 1), GABUNLITIK_DAMAGE, 2, &s, &kept);
}

/* The lists are static and const, so that a write to them would end the program. */
static void refused_lists(void) {
    static const uint32_t flows[] = {7, 12, 1}, numbers[] = {1, 2, 1}, no_number[] = {1, 2, 0};
    static const uint32_t no_flow[] = {1, 2147483647}, no_number_first[] = {0, 1, 1};
    static const uint32_t flow_0_last[] = {7, 12, 0};
    struct sketch s = e7(), kept = s;
    CHECK_REFUSED(insert_all(&s, flows, numbers, 3), GABUNLITIK_RANGE, 1, &s, &kept);
    CHECK_REFUSED(insert_all(&s, flows, no_number, 3), GABUNLITIK_COUNT, 0, &s, &kept);
    s.counts[7] = kept.counts[7] = -2147483647;
    CHECK_REFUSED(insert_all(&s, flows, numbers, 1), GABUNLITIK_DAMAGE, 7, &s, &kept);
    /* The first packet that is refused decides, though the second has a lower number. */
    s = kept = e1();
    CHECK_REFUSED(insert_all(&s, no_flow, no_number_first, 2), GABUNLITIK_COUNT, 0, &s, &kept);
    CHECK_REFUSED(insert_all(&s, no_flow, numbers, 2), GABUNLITIK_FLOW, 0, &s, &kept);
    CHECK_REFUSED(insert_all(&s, flow_0_last, numbers, 3), GABUNLITIK_FLOW, 0, &s, &kept);
    CHECK_REFUSED(insert_all(&s, flow_0_last, no_number_first, 3), GABUNLITIK_COUNT, 0, &s, &kept);
}

static void refused_parameters(void) {
    static const uint32_t flow = 7, number = 1;
    struct sketch s = e1(), kept = s;
    struct returned t = nothing_yet();
    t.number = gabunlitik_fresh(BAD, s.counts, BUCKETS, s.idsums, BUCKETS, &t.place);
    CHECK_REFUSED(t, GABUNLITIK_PARAM, 0, &s, &kept);
    t = nothing_yet();
    t.number = gabunlitik_insert(BAD, s.counts, BUCKETS, s.idsums, BUCKETS, flow, number, &t.place);
    CHECK_REFUSED(t, GABUNLITIK_PARAM, 0, &s, &kept);
    t = nothing_yet();
    t.number = gabunlitik_withdraw(BAD, s.counts, BUCKETS, s.idsums, BUCKETS, flow, number, &t.place);
    CHECK_REFUSED(t, GABUNLITIK_PARAM, 0, &s, &kept);
    t = nothing_yet();
    t.number = gabunlitik_insert_all(BAD, s.counts, BUCKETS, s.idsums, BUCKETS, &flow, 1, &number, 1, &t.place);
    CHECK_REFUSED(t, GABUNLITIK_PARAM, 0, &s, &kept);
}

/* PARAM for each rule, before LENGTH; pairs that differ in their offsets alone keep the rules. */
static void rules(void) {
    static const uint32_t apart[GABUNLITIK_PARAMS] = {D, M, 1, 1, 0, 0, 7, 8, 0, 0, PLAIN};
    struct sketch s = e1(), kept = s;
    struct returned t = nothing_yet();
    for (size_t i = 0; i < WAYS; i++) {
        t = nothing_yet();
        t.number = gabunlitik_fresh(BROKEN[i], s.counts, BUCKETS - 1, s.idsums, BUCKETS, &t.place);
        CHECK_REFUSED(t, GABUNLITIK_PARAM, 0, &s, &kept);
        t = nothing_yet();
        t.number = gabunlitik_withdraw(BROKEN[i], s.counts, BUCKETS, s.idsums, BUCKETS, 7, 1, &t.place);
        CHECK_REFUSED(t, GABUNLITIK_PARAM, 0, &s, &kept);
    }
    t = nothing_yet();
    t.number = gabunlitik_fresh(apart, s.counts, BUCKETS, s.idsums, BUCKETS, &t.place);
    CHECK_DONE(t);
}

static void refused_lengths(void) {
    static const uint32_t flows[] = {7, 12}, numbers[] = {1, 2};
    struct sketch s = e1(), kept = s;
    struct returned t = nothing_yet();
    t.number = gabunlitik_fresh(K, s.counts, BUCKETS - 1, s.idsums, BUCKETS, &t.place);
    CHECK_REFUSED(t, GABUNLITIK_LENGTH, 0, &s, &kept);
    t = nothing_yet();
    t.number = gabunlitik_insert(K, s.counts, BUCKETS, s.idsums, BUCKETS - 1, 2147483647, 0, &t.place);
    CHECK_REFUSED(t, GABUNLITIK_LENGTH, 0, &s, &kept);
    t = nothing_yet();
    t.number = gabunlitik_withdraw(K, s.counts, BUCKETS, s.idsums, BUCKETS - 1, 2147483647, 0, &t.place);
    CHECK_REFUSED(t, GABUNLITIK_LENGTH, 0, &s, &kept);
    t = nothing_yet();
    t.number = gabunlitik_withdraw(K, s.counts, BUCKETS - 1, s.idsums, BUCKETS, 7, 1, &t.place);
    CHECK_REFUSED(t, GABUNLITIK_LENGTH, 0, &s, &kept);
    t = nothing_yet();
    t.number = gabunlitik_insert_all(K, s.counts, BUCKETS, s.idsums, BUCKETS, flows, 2, numbers, 1, &t.place);
    CHECK_REFUSED(t, GABUNLITIK_LENGTH, 0, &s, &kept);
    t = nothing_yet();
    t.number = gabunlitik_insert_all(K, s.counts, BUCKETS, s.idsums, BUCKETS, flows, 1, numbers, 2, &t.place);
    CHECK_REFUSED(t, GABUNLITIK_LENGTH, 0, &s, &kept);
}

void test_sketches(void) {
    examples();
    packets();
    withdrawals();
    refused_packets();
    refused_withdrawals();
    flow_0();
    limits();
    several_faults();
    refused_lists();
    refused_parameters();
    rules();
    refused_lengths();
}
