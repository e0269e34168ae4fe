/* The bench of the tests: checks, the scope's example sketches, and short forms of the calls. Runs all tests. */
#include "bench.h"

#include <stdio.h>

const uint32_t K[GABUNLITIK_PARAMS] = {D, M, 1, 1073741824, 0, 0, 0, 0, 0, 0, PLAIN};
const uint32_t PRINTED[GABUNLITIK_PARAMS] = {D, M, 1, 1073741824, 0, 0, 0, 0, 0, 0,
                                             GABUNLITIK_FIRST_PRIME, 2000000110, 7, GABUNLITIK_PLAIN_SORT};
const uint32_t OTHER[GABUNLITIK_PARAMS] = {D, M, 1, 1073741824, 0, 0, 0, 1, 0, 0, PLAIN};
const uint32_t BAD[GABUNLITIK_PARAMS] = {5, M, 1, 1073741824, 0, 0, 0, 0, 0, 0, PLAIN};

const uint32_t BROKEN[WAYS][GABUNLITIK_PARAMS] = {
    {5, M, 1, 1073741824, 0, 0, 0, 0, 0, 0, PLAIN},          /* d */
    {0, M, 0, 0, 0, 0, 0, 0, 0, 0, PLAIN},
    {1, M, 1, 0, 0, 0, 0, 0, 0, 0, PLAIN},
    {5, M, 1, 2, 3, 4, 0, 0, 0, 0, PLAIN},
    {D, 0, 1, 1073741824, 0, 0, 0, 0, 0, 0, PLAIN},          /* m */
    {D, 16385, 1, 1073741824, 0, 0, 0, 0, 0, 0, PLAIN},
    {D, M, 1, 0, 0, 0, 0, 0, 0, 0, PLAIN},                   /* a multiplier */
    {D, M, 1, 2147483647, 0, 0, 0, 0, 0, 0, PLAIN},
    {D, M, 1, 1073741824, 0, 0, 0, 2147483647, 0, 0, PLAIN}, /* an offset */
    {D, M, 1, 1, 0, 0, 7, 7, 0, 0, PLAIN},                   /* two equal pairs */
    {3, M, 1, 2, 1, 0, 5, 5, 5, 0, PLAIN},
    {D, M, 1, 1073741824, 1, 0, 0, 0, 0, 0, PLAIN},          /* a pair past the last array */
    {D, M, 1, 1073741824, 0, 0, 0, 0, 0, 1, PLAIN},
    {D, M, 1, 1073741824, 0, 0, 0, 0, 0, 0, 0, 0, 0, 0},     /* the number of the prime */
    {D, M, 1, 1073741824, 0, 0, 0, 0, 0, 0, 2, 0, 0, 0},
    {D, M, 1, 1073741824, 0, 0, 0, 0, 0, 0, 2, 1, 0, 0},
    {D, M, 1, 1073741824, 0, 0, 0, 0, 0, 0, 1, 0, 1, 0},     /* the fifth pair */
    {D, M, 1, 1073741824, 0, 0, 0, 0, 0, 0, 1, 2147483647, 0, 0},
    {D, M, 1, 1073741824, 0, 0, 0, 0, 0, 0, 1, 1, 2147483647, 0},
    {D, M, 1, 1073741824, 0, 0, 0, 0, 0, 0, 1, 0, 0, 1},     /* the last number */
    {D, M, 1, 1073741824, 0, 0, 0, 0, 0, 0, 1, 1, 0, 1},
};

static const int32_t GUARD = -2023406815;
static int checks, failures;

void check(int held, const char *file, int line, const char *what) {
    checks++;
    if (held)
        return;
    failures++;
    printf("%s:%d: does not hold: %s\n", file, line, what);
}

void check_returns(struct returned returned, uint32_t number, size_t place, const char *file, int line, const char *what) {
    check(returned.number == number && returned.place == place, file, line, what);
    if (returned.number != number || returned.place != place)
        printf("    returned %u at %zu, expected %u at %zu\n", returned.number, returned.place, number, place);
}

struct returned nothing_yet(void) {
    struct returned t;
    memset(&t, 0xa5, sizeof t);
    return t;
}

struct sketch fresh_sketch(void) {
    struct sketch s;
    struct returned t = nothing_yet();
    memset(&s, 0x80, sizeof s);
    s.counts_guard = GUARD;
    s.idsums_guard = (uint32_t)GUARD;
    t.number = gabunlitik_fresh(K, s.counts, BUCKETS, s.idsums, BUCKETS, &t.place);
    CHECK_DONE(t);
    CHECK(used(&s) == 0);
    return s;
}

struct sketch e1(void) {
    struct sketch s = fresh_sketch();
    CHECK_DONE(insert(&s, 7, 1));
    CHECK_DONE(insert(&s, 12, 2));
    return s;
}

struct sketch e3(void) {
    struct sketch s = fresh_sketch();
    CHECK_DONE(insert(&s, 2, 1));
    CHECK_DONE(insert(&s, 12, 1));
    return s;
}

struct sketch e5(void) {
    struct sketch s = fresh_sketch(), t = fresh_sketch();
    CHECK_DONE(insert(&s, 2, 1));
    CHECK_DONE(insert(&t, 12, 1));
    CHECK_DONE(subtract(&s, &t));
    return s;
}

struct sketch e6(void) {
    struct sketch s = fresh_sketch(), t = fresh_sketch();
    CHECK_DONE(insert(&t, 7, 4));
    CHECK_DONE(subtract(&s, &t));
    return s;
}

struct sketch e7(void) {
    struct sketch s = fresh_sketch();
    CHECK_DONE(insert(&s, 2147483646, 2147483646));
    return s;
}

struct sketch printed_e1(void) {
    struct sketch s = fresh_sketch();
    CHECK_DONE(insert_under(PRINTED, &s, 7, 1));
    CHECK_DONE(insert_under(PRINTED, &s, 17, 2));
    return s;
}

struct sketch of_flow_0(void) {
    struct sketch s = fresh_sketch();
    s.counts[0] = s.counts[5] = 3;
    return s;
}

struct returned insert_under(const uint32_t *params, struct sketch *s, uint32_t flow, uint32_t number) {
    struct returned t = nothing_yet();
    t.number = gabunlitik_insert(params, s->counts, BUCKETS, s->idsums, BUCKETS, flow, number, &t.place);
    return t;
}

struct returned withdraw_under(const uint32_t *params, struct sketch *s, uint32_t flow, uint32_t number) {
    struct returned t = nothing_yet();
    t.number = gabunlitik_withdraw(params, s->counts, BUCKETS, s->idsums, BUCKETS, flow, number, &t.place);
    return t;
}

struct returned insert(struct sketch *s, uint32_t flow, uint32_t number) { return insert_under(K, s, flow, number); }

struct returned withdraw(struct sketch *s, uint32_t flow, uint32_t number) { return withdraw_under(K, s, flow, number); }

struct returned insert_all(struct sketch *s, const uint32_t *flows, const uint32_t *numbers, size_t n) {
    struct returned t = nothing_yet();
    t.number = gabunlitik_insert_all(K, s->counts, BUCKETS, s->idsums, BUCKETS, flows, n, numbers, n, &t.place);
    return t;
}

struct returned add(struct sketch *s, const struct sketch *other) {
    struct returned t = nothing_yet();
    t.number = gabunlitik_add(K, K, s->counts, BUCKETS, s->idsums, BUCKETS, other->counts, BUCKETS, other->idsums,
                              BUCKETS, &t.place);
    return t;
}

struct returned subtract(struct sketch *s, const struct sketch *other) {
    struct returned t = nothing_yet();
    t.number = gabunlitik_subtract(K, K, s->counts, BUCKETS, s->idsums, BUCKETS, other->counts, BUCKETS, other->idsums,
                                   BUCKETS, &t.place);
    return t;
}

int same(const struct sketch *s, const struct sketch *t) { return memcmp(s, t, sizeof *s) == 0; }

int bucket_is(const struct sketch *s, size_t index, int32_t count, uint32_t idsum) {
    return s->counts[index] == count && s->idsums[index] == idsum && s->counts_guard == GUARD &&
           s->idsums_guard == (uint32_t)GUARD;
}

int used(const struct sketch *s) {
    int n = 0;
    for (size_t k = 0; k < BUCKETS; k++)
        n += !bucket_is(s, k, 0, 0);
    return n;
}

void put(uint8_t *bytes, uint32_t number) {
    for (size_t i = 0; i < 4; i++)
        bytes[i] = (uint8_t)(number >> (24 - 8 * i));
}

size_t put_head(uint8_t *bytes, const uint32_t *params) {
    int printed = params[GABUNLITIK_FIFTH_MULTIPLIER] != 0 || params[GABUNLITIK_FIFTH_OFFSET] != 0;
    bytes[0] = printed ? 10 : 1;
    bytes[1] = (uint8_t)params[GABUNLITIK_D];
    put(bytes + 2, params[GABUNLITIK_M]);
    for (size_t i = 0; i < 4; i++) {
        put(bytes + 6 + 8 * i, params[GABUNLITIK_MULTIPLIERS + i]);
        put(bytes + 10 + 8 * i, params[GABUNLITIK_OFFSETS + i]);
    }
    if (!printed)
        return HEAD_BYTES;
    put(bytes + 38, params[GABUNLITIK_FIFTH_MULTIPLIER]);
    put(bytes + 42, params[GABUNLITIK_FIFTH_OFFSET]);
    return PRINTED_HEAD_BYTES;
}

int main(void) {
    test_parameters();
    test_sketches();
    test_sums();
    test_folds();
    test_fold_limits();
    test_arrays();
    test_walks();
    test_places();
    test_files();
    test_fingerprints();
    test_fingerprint_walks();
    test_fingerprint_files();
    test_longest();
    printf("face: %d checks, %d failed\n", checks, failures);
    return failures != 0;
}
