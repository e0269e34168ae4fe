/* Sums and differences of sketches, called from C. */
#include "bench.h"

static void sums(void) {
    struct sketch s = e1(), other = e1(), kept = other;
    CHECK_DONE(add(&s, &other));
    CHECK(bucket_is(&s, 2, 6, 62));
    CHECK(bucket_is(&s, 6, 4, 48));
    CHECK(same(&other, &kept));
    CHECK_DONE(subtract(&s, &other));
    CHECK(same(&s, &kept));
    CHECK_DONE(subtract(&s, &other));
    CHECK(used(&s) == 0);
    CHECK(same(&other, &kept));
}

/* E7 and flow 1 by 1 meet at index 1: a sum past the limit, and a difference through zero. */
static void at_the_limits(void) {
    struct sketch s = e7(), other = fresh_sketch(), kept = s;
    CHECK_DONE(insert(&other, 1, 1));
    CHECK_REFUSED(add(&s, &other), GABUNLITIK_RANGE, 1, &s, &kept);
    CHECK_DONE(subtract(&s, &other));
    CHECK(used(&s) == 3);
    CHECK(bucket_is(&s, 1, 2147483645, 0));
    CHECK(bucket_is(&s, 8, 2147483646, 1));
    CHECK(bucket_is(&s, 9, -1, 2147483646));
}

static void refused_content(void) {
    struct sketch s = e7(), other = e7(), kept = s, other_kept = other;
    CHECK_REFUSED(add(&s, &other), GABUNLITIK_RANGE, 1, &s, &kept);
    CHECK(same(&other, &other_kept));
    s = e6();
    CHECK_DONE(subtract(&s, &other));
    CHECK(bucket_is(&s, 1, -2147483646, 2147483646));
    kept = s;
    CHECK_REFUSED(subtract(&s, &other), GABUNLITIK_RANGE, 1, &s, &kept);
    CHECK(same(&other, &other_kept));
    other.idsums[3] = other_kept.idsums[3] = 2147483647;
    CHECK_REFUSED(subtract(&s, &other), GABUNLITIK_DAMAGE, 3, &s, &kept);
    CHECK(same(&other, &other_kept));
    s.counts[0] = kept.counts[0] = -2147483647;
    CHECK_REFUSED(add(&s, &other), GABUNLITIK_DAMAGE, 0, &s, &kept);
    CHECK(same(&other, &other_kept));
}

enum slice { NONE, COUNTS, IDSUMS, OTHER_COUNTS, OTHER_IDSUMS };

typedef uint32_t sum(const uint32_t *params, const uint32_t *other_params, int32_t *counts, size_t counts_len,
                     uint32_t *idsums, size_t idsums_len, const int32_t *other_counts, size_t other_counts_len,
                     const uint32_t *other_idsums, size_t other_idsums_len, size_t *place);

/* Both sketches have damage and would leave the range, so that what is returned comes before these; `slice` is lent too short. */
static void check_sum(sum *call, const uint32_t *params, const uint32_t *other_params, enum slice slice,
                      uint32_t number, const char *file, int line, const char *what) {
    struct sketch s = e7(), other = e7(), kept, other_kept;
    struct returned t = nothing_yet();
    s.counts[4] = other.counts[4] = -2147483647;
    kept = s;
    other_kept = other;
    t.number = call(params, other_params, s.counts, BUCKETS - (slice == COUNTS), s.idsums, BUCKETS - (slice == IDSUMS),
                    other.counts, BUCKETS - (slice == OTHER_COUNTS), other.idsums, BUCKETS - (slice == OTHER_IDSUMS),
                    &t.place);
    check_returns(t, number, 0, file, line, what);
    check(same(&s, &kept) && same(&other, &other_kept), file, line, what);
}

#define CHECK_SUMS(params, other_params, slice, number) \
    do { \
        check_sum(gabunlitik_add, params, other_params, slice, number, __FILE__, __LINE__, "add"); \
        check_sum(gabunlitik_subtract, params, other_params, slice, number, __FILE__, __LINE__, "subtract"); \
    } while (0)

static void refused_parameters(void) {
    CHECK_SUMS(BAD, K, NONE, GABUNLITIK_PARAM);
    CHECK_SUMS(K, BAD, NONE, GABUNLITIK_PARAM);
    CHECK_SUMS(BAD, BAD, NONE, GABUNLITIK_PARAM);
    CHECK_SUMS(K, BAD, COUNTS, GABUNLITIK_PARAM);
    CHECK_SUMS(K, OTHER, NONE, GABUNLITIK_MISMATCH);
    CHECK_SUMS(OTHER, K, NONE, GABUNLITIK_MISMATCH);
    CHECK_SUMS(K, OTHER, OTHER_IDSUMS, GABUNLITIK_MISMATCH);
}

static void refused_lengths(void) {
    CHECK_SUMS(K, K, COUNTS, GABUNLITIK_LENGTH);
    CHECK_SUMS(K, K, IDSUMS, GABUNLITIK_LENGTH);
    CHECK_SUMS(K, K, OTHER_COUNTS, GABUNLITIK_LENGTH);
    CHECK_SUMS(K, K, OTHER_IDSUMS, GABUNLITIK_LENGTH);
}

void test_sums(void) {
    sums();
    at_the_limits();
    refused_content();
    refused_parameters();
    refused_lengths();
}
