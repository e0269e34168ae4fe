/* Flows with fingerprints: what is sketched for them, where they stand, and which there are, called from C. */
#include "fingerprints.h"

static const uint64_t P = 2147483647;

const uint32_t edges[EDGES] = {0, 1, 8388606, 8388607, 2147483646, 2147483647, 4294967295};

int is_flow(uint32_t number) { return 1 <= number && number <= 8388606; }

uint32_t fingerprint(uint32_t flow) {
    return (uint32_t)(((uint64_t)PRINTED[GABUNLITIK_FIFTH_MULTIPLIER] * flow + PRINTED[GABUNLITIK_FIFTH_OFFSET]) % P % 256);
}

uint32_t extended(uint32_t flow) { return flow * 256 + fingerprint(flow); }

size_t index_of(size_t array, uint32_t number) {
    return array * M + (size_t)((uint64_t)PRINTED[GABUNLITIK_MULTIPLIERS + array] * number % P % M);
}

void hold(struct sketch *s, uint32_t number, int32_t count) {
    for (size_t i = 0; i < D; i++) {
        size_t k = index_of(i, number);
        s->counts[k] += count;
        s->idsums[k] = (uint32_t)((s->idsums[k] + (count + P) % P * number) % P);
    }
}

struct sketch two(uint32_t flow, uint32_t other) {
    struct sketch s = fresh_sketch();
    CHECK_DONE(insert_under(PRINTED, &s, flow, 1));
    CHECK_DONE(insert_under(PRINTED, &s, other, 1));
    return s;
}

static void examples(void) {
    struct sketch s = printed_e1();
    CHECK(used(&s) == 3);
    CHECK(bucket_is(&s, 2, 3, 10711));
    CHECK(bucket_is(&s, 6, 2, 8904));
    CHECK(bucket_is(&s, 7, 1, 1807));
    s = two(2, 12);
    CHECK(used(&s) == 2);
    CHECK(bucket_is(&s, 0, 2, 3870));
    CHECK(bucket_is(&s, 5, 2, 3870));
    s = two(1, 61);
    CHECK(used(&s) == 2);
    CHECK(bucket_is(&s, 3, 2, 16106));
    CHECK(bucket_is(&s, 5, 2, 16106));
    s = fresh_sketch();
    CHECK_DONE(insert_under(PRINTED, &s, 8388606, 1));
    CHECK(used(&s) == 2);
    CHECK(bucket_is(&s, 0, 1, 2147483325));
    CHECK(bucket_is(&s, 6, 1, 2147483325));
}

/* A fresh sketch is the same in either profile, and so is a list of no packets. */
static void packets(void) {
    static const uint32_t flows[] = {7, 17}, numbers[] = {1, 2};
    struct sketch s = printed_e1(), wanted = fresh_sketch();
    struct returned t = nothing_yet();
    t.number = gabunlitik_fresh(PRINTED, s.counts, BUCKETS, s.idsums, BUCKETS, &t.place);
    CHECK_DONE(t);
    CHECK(same(&s, &wanted));
    for (size_t n = 0; n <= 2; n++) {
        s = fresh_sketch();
        t = nothing_yet();
        t.number = gabunlitik_insert_all(PRINTED, s.counts, BUCKETS, s.idsums, BUCKETS, flows, n, numbers, n, &t.place);
        CHECK_DONE(t);
        CHECK(same(&s, &wanted));
        if (n < 2)
            hold(&wanted, extended(flows[n]), (int32_t)numbers[n]);
    }
    CHECK_DONE(withdraw_under(PRINTED, &s, 17, 2));
    CHECK_DONE(withdraw_under(PRINTED, &s, 7, 5));
    CHECK(used(&s) == 2);
    CHECK(bucket_is(&s, 2, -4, 2147476419));
    CHECK(bucket_is(&s, 7, -4, 2147476419));
}

typedef uint32_t sum(const uint32_t *params, const uint32_t *other_params, int32_t *counts, size_t counts_len,
                     uint32_t *idsums, size_t idsums_len, const int32_t *other_counts, size_t other_counts_len,
                     const uint32_t *other_idsums, size_t other_idsums_len, size_t *place);

static struct returned combine(sum *call, struct sketch *s, const struct sketch *other) {
    struct returned t = nothing_yet();
    t.number = call(PRINTED, PRINTED, s->counts, BUCKETS, s->idsums, BUCKETS, other->counts, BUCKETS, other->idsums, BUCKETS,
                    &t.place);
    return t;
}

static void sums(void) {
    struct sketch s = printed_e1(), other = printed_e1(), kept = other;
    CHECK_DONE(combine(gabunlitik_add, &s, &other));
    CHECK(bucket_is(&s, 2, 6, 21422));
    CHECK(bucket_is(&s, 6, 4, 17808));
    CHECK(bucket_is(&s, 7, 2, 3614));
    CHECK_DONE(combine(gabunlitik_subtract, &s, &other));
    CHECK(same(&s, &kept));
    CHECK_DONE(combine(gabunlitik_subtract, &s, &other));
    CHECK(used(&s) == 0);
    CHECK_DONE(combine(gabunlitik_subtract, &s, &other));
    CHECK(bucket_is(&s, 2, -3, 2147472936));
    CHECK(bucket_is(&s, 6, -2, 2147474743));
    CHECK(bucket_is(&s, 7, -1, 2147481840));
    CHECK(same(&other, &kept));
}

/* Folded to one bucket an array, the sketch has all of its packets in each; the fifth pair stays. */
static void folded(void) {
    static const uint32_t narrow[GABUNLITIK_PARAMS] = {D, 1, 1, 1073741824, 0, 0, 0, 0, 0, 0, GABUNLITIK_FIRST_PRIME,
                                                       2000000110, 7, GABUNLITIK_PLAIN_SORT};
    uint32_t params[GABUNLITIK_PARAMS];
    struct sketch s = printed_e1();
    struct returned t = nothing_yet();
    memset(params, 0xa5, sizeof params);
    t.number = gabunlitik_fold(PRINTED, s.counts, BUCKETS, s.idsums, BUCKETS, 1, params, &t.place);
    CHECK_DONE(t);
    CHECK(memcmp(params, narrow, sizeof params) == 0);
    CHECK(used(&s) == 2);
    CHECK(bucket_is(&s, 0, 3, 10711));
    CHECK(bucket_is(&s, 1, 3, 10711));
}

typedef uint32_t finding(const uint32_t *params, uint32_t array, uint32_t flow, size_t *found, size_t *place);

/* What is found is 0 where the call is refused. */
static void check_found(finding *call, uint32_t array, uint32_t flow, size_t wanted, uint32_t number) {
    struct returned t = nothing_yet();
    size_t found;
    memset(&found, 0xa5, sizeof found);
    t.number = call(PRINTED, array, flow, &found, &t.place);
    CHECK_RETURNS(t, number, 0);
    CHECK(found == wanted);
}

/* A flow stands where its extended number does. */
static void places(void) {
    static const uint32_t flows[] = {1, 2, 7, 12, 17, 31, 61, 8388606};
    static const size_t positions[][D] = {{3, 0}, {0, 0}, {2, 2}, {0, 0}, {2, 1}, {3, 0}, {3, 0}, {0, 1}};
    for (size_t i = 0; i < sizeof flows / sizeof flows[0]; i++)
        for (uint32_t array = 1; array <= D; array++) {
            size_t position = positions[i][array - 1], index = (array - 1) * M + position;
            CHECK(index == index_of(array - 1, extended(flows[i])));
            check_found(gabunlitik_position, array, flows[i], position, GABUNLITIK_DONE);
            check_found(gabunlitik_index, array, flows[i], index, GABUNLITIK_DONE);
        }
}

/* FLOW comes after PARAM, which an array is that there is not. */
static void edges_of_places(void) {
    for (size_t i = 0; i < EDGES; i++)
        for (uint32_t array = 0; array <= D + 1; array++) {
            uint32_t number = array == 0 || array > D ? GABUNLITIK_PARAM : is_flow(edges[i]) ? GABUNLITIK_DONE : GABUNLITIK_FLOW;
            size_t index = number == GABUNLITIK_DONE ? index_of(array - 1, extended(edges[i])) : 0;
            check_found(gabunlitik_position, array, edges[i], index % M, number);
            check_found(gabunlitik_index, array, edges[i], index, number);
        }
}

typedef uint32_t packet(const uint32_t *params, int32_t *counts, size_t counts_len, uint32_t *idsums, size_t idsums_len,
                        uint32_t flow, uint32_t number, size_t *place);

static struct returned move(packet *call, struct sketch *s, size_t buckets, uint32_t flow, uint32_t number) {
    struct returned t = nothing_yet();
    t.number = call(PRINTED, s->counts, buckets, s->idsums, BUCKETS, flow, number, &t.place);
    return t;
}

/* FLOW comes after LENGTH, before COUNT, and before damage is looked for. */
static void check_edge(packet *call, uint32_t flow, int32_t sign) {
    struct sketch s = fresh_sketch(), wanted = s, kept;
    if (is_flow(flow))
        hold(&wanted, extended(flow), sign);
    CHECK_RETURNS(move(call, &s, BUCKETS, flow, 1), is_flow(flow) ? GABUNLITIK_DONE : GABUNLITIK_FLOW, 0);
    CHECK(same(&s, &wanted));
    memset(s.idsums, 0xff, sizeof s.idsums);
    kept = s;
    CHECK_REFUSED(move(call, &s, BUCKETS - 1, flow, 0), GABUNLITIK_LENGTH, 0, &s, &kept);
    CHECK_REFUSED(move(call, &s, BUCKETS, flow, 0), is_flow(flow) ? GABUNLITIK_COUNT : GABUNLITIK_FLOW, 0, &s, &kept);
    CHECK_REFUSED(move(call, &s, BUCKETS, flow, 2147483647), is_flow(flow) ? GABUNLITIK_COUNT : GABUNLITIK_FLOW, 0, &s, &kept);
    CHECK_REFUSED(move(call, &s, BUCKETS, flow, 1), is_flow(flow) ? GABUNLITIK_DAMAGE : GABUNLITIK_FLOW,
                  is_flow(flow) ? index_of(0, extended(flow)) : 0, &s, &kept);
}

/* A list with such a number last, which alters nothing where that is no flow; the first packet that is refused decides. */
static void check_edge_of_list(uint32_t flow) {
    static const uint32_t numbers[] = {1, 1}, no_number_first[] = {0, 1};
    const uint32_t flows[] = {7, flow};
    struct sketch s = fresh_sketch(), wanted = s;
    struct returned t = nothing_yet();
    t.number = gabunlitik_insert_all(PRINTED, s.counts, BUCKETS, s.idsums, BUCKETS, flows, 2, no_number_first, 2, &t.place);
    CHECK_REFUSED(t, GABUNLITIK_COUNT, 0, &s, &wanted);
    if (is_flow(flow)) {
        hold(&wanted, extended(7), 1);
        hold(&wanted, extended(flow), 1);
    }
    t = nothing_yet();
    t.number = gabunlitik_insert_all(PRINTED, s.counts, BUCKETS, s.idsums, BUCKETS, flows, 2, numbers, 2, &t.place);
    CHECK_RETURNS(t, is_flow(flow) ? GABUNLITIK_DONE : GABUNLITIK_FLOW, 0);
    CHECK(same(&s, &wanted));
}

static void edges_of_packets(void) {
    for (size_t i = 0; i < EDGES; i++) {
        check_edge(gabunlitik_insert, edges[i], 1);
        check_edge(gabunlitik_withdraw, edges[i], -1);
        check_edge_of_list(edges[i]);
    }
}

/* The greatest flow by the greatest number is at indexes 0 and 6, beside flows 2 and 12 at 0, and flow 17 at 6. */
static void limits(void) {
    struct sketch s = fresh_sketch(), kept;
    CHECK_DONE(insert_under(PRINTED, &s, 8388606, 2147483646));
    CHECK(bucket_is(&s, 0, 2147483646, 322));
    CHECK(bucket_is(&s, 6, 2147483646, 322));
    kept = s;
    CHECK_REFUSED(insert_under(PRINTED, &s, 2, 1), GABUNLITIK_RANGE, 0, &s, &kept);
    CHECK_REFUSED(insert_under(PRINTED, &s, 17, 1), GABUNLITIK_RANGE, 6, &s, &kept);
    s = fresh_sketch();
    CHECK_DONE(withdraw_under(PRINTED, &s, 8388606, 2147483646));
    CHECK(bucket_is(&s, 0, -2147483646, 2147483325));
    CHECK(bucket_is(&s, 6, -2147483646, 2147483325));
    kept = s;
    CHECK_REFUSED(withdraw_under(PRINTED, &s, 12, 1), GABUNLITIK_RANGE, 0, &s, &kept);
    CHECK_REFUSED(withdraw_under(PRINTED, &s, 17, 1), GABUNLITIK_RANGE, 6, &s, &kept);
    s.idsums[6] = kept.idsums[6] = 2147483647;
    CHECK_REFUSED(insert_under(PRINTED, &s, 17, 1), GABUNLITIK_DAMAGE, 6, &s, &kept);
    CHECK_REFUSED(withdraw_under(PRINTED, &s, 8388606, 1), GABUNLITIK_DAMAGE, 6, &s, &kept);
    CHECK_DONE(insert_under(PRINTED, &s, 7, 1)); /* whose buckets are whole */
}

void test_fingerprints(void) {
    examples();
    packets();
    sums();
    folded();
    places();
    edges_of_places();
    edges_of_packets();
    limits();
}
