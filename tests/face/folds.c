/* What a fold makes of a sketch, called from C. */
#include "folds.h"

enum { MOST_BYTES = 51 + 13 * SIZE, DIVISORS = 6, FLOWS = 5, PROFILES = 2 };

static const uint64_t P = 2147483647;

const uint32_t WIDE[GABUNLITIK_PARAMS] = {ARRAYS, WIDTH, 1, 1073741824, 2147483645, 123456789,
                                          3, 2147483645, 1000000007, 987654321, PLAIN};

/* The same with fingerprints. */
static const uint32_t PRINTED_WIDE[GABUNLITIK_PARAMS] = {
    ARRAYS, WIDTH, 1, 1073741824, 2147483645, 123456789, 3, 2147483645, 1000000007, 987654321,
    GABUNLITIK_FIRST_PRIME, 1876543210, 2147483646, GABUNLITIK_PLAIN_SORT};

/* In either profile, packets put in or, below 0, taken out. */
static const struct profile {
    const uint32_t *params;
    uint32_t flows[FLOWS];
} profiles[PROFILES] = {{WIDE, {1, 2, 20, 1999999999, 2147483646}}, {PRINTED_WIDE, {1, 2, 20, 7999999, 8388606}}};
static const int32_t numbers[FLOWS] = {1, 2, -4, 300000000, -1000};

static const uint32_t divisors[DIVISORS] = {1, 2, 3, 4, 6, WIDTH};

struct params with_width(const uint32_t *params, uint32_t m) {
    struct params p;
    for (size_t i = 0; i < GABUNLITIK_PARAMS; i++)
        p.numbers[i] = i == GABUNLITIK_M ? m : params[i];
    return p;
}

size_t size_of(const uint32_t *params) { return (size_t)params[GABUNLITIK_D] * params[GABUNLITIK_M]; }

struct slices nothing(void) {
    struct slices s;
    memset(&s, 0, sizeof s);
    s.counts[SIZE] = -2147483647;
    s.idsums[SIZE] = 2147483647;
    return s;
}

struct slices full(void) {
    struct slices s = nothing();
    for (size_t k = 0; k < SIZE; k++) {
        s.counts[k] = (k % 5 < 2 ? -1 : 1) * (int32_t)(1000003 * (k + 1));
        s.idsums[k] = (uint32_t)(987654321 * (uint64_t)(k + 1) % P);
    }
    return s;
}

int alike(const struct slices *s, const struct slices *t) { return memcmp(s, t, sizeof *s) == 0; }

struct folded fold_lent(const uint32_t *params, int32_t *counts, size_t counts_len, uint32_t *idsums, size_t idsums_len,
                        uint32_t m2) {
    struct params given = with_width(params, params[GABUNLITIK_M]);
    struct folded f;
    f.returned = nothing_yet();
    memset(f.params, 0xa5, sizeof f.params);
    f.returned.number =
        gabunlitik_fold(given.numbers, counts, counts_len, idsums, idsums_len, m2, f.params, &f.returned.place);
    CHECK(memcmp(given.numbers, params, sizeof given.numbers) == 0);
    return f;
}

struct folded fold(const uint32_t *params, struct slices *s, uint32_t m2) {
    return fold_lent(params, s->counts, size_of(params), s->idsums, size_of(params), m2);
}

static struct folded fold_example(struct sketch *s, uint32_t m2) {
    return fold_lent(K, s->counts, BUCKETS, s->idsums, BUCKETS, m2);
}

/* Folded to one bucket an array, a sketch has all of its packets in each. */
static void examples(void) {
    struct sketch s = e1(), kept = s;
    CHECK_FOLDED(fold_example(&s, M), K, M);
    CHECK(same(&s, &kept));
    CHECK_FOLDED(fold_example(&s, 1), K, 1);
    CHECK(used(&s) == 2);
    CHECK(bucket_is(&s, 0, 3, 31));
    CHECK(bucket_is(&s, 1, 3, 31));
    s = e5();
    CHECK_FOLDED(fold_example(&s, 1), K, 1);
    CHECK(used(&s) == 2);
    CHECK(bucket_is(&s, 0, 0, 2147483637));
    CHECK(bucket_is(&s, 1, 0, 2147483637));
    s = e7();
    CHECK_FOLDED(fold_example(&s, 1), K, 1);
    CHECK(used(&s) == 2);
    CHECK(bucket_is(&s, 0, 2147483646, 1));
    CHECK(bucket_is(&s, 1, 2147483646, 1));
    s = e7();
    CHECK_DONE(insert(&s, 7, 1)); /* for which there is no room beside E7 in one bucket */
    kept = s;
    CHECK_UNFOLDED(fold_example(&s, 1), GABUNLITIK_RANGE, 0, &s, &kept);
}

/* The folded sketch, with zeros behind it, computed bucket by bucket. */
static struct slices expected(const struct slices *s, uint32_t m2) {
    struct slices e = nothing();
    for (size_t k = 0; k < SIZE; k++) {
        size_t target = k / WIDTH * m2 + k % WIDTH % m2;
        e.counts[target] += s->counts[k];
        e.idsums[target] = (uint32_t)(((uint64_t)e.idsums[target] + s->idsums[k]) % P);
    }
    return e;
}

static void check_folded(struct slices *s, uint32_t from, uint32_t m2) {
    struct params given = with_width(WIDE, from);
    struct slices all = full(), wanted = expected(&all, m2);
    CHECK_FOLDED(fold(given.numbers, s, m2), given.numbers, m2);
    CHECK(alike(s, &wanted));
}

/* To each divisor of m, and from there to each divisor of that: the same as at once. */
static void buckets(void) {
    for (size_t i = 0; i < DIVISORS; i++)
        for (size_t j = 0; j <= i; j++)
            if (divisors[i] % divisors[j] == 0) {
                struct slices s = full();
                check_folded(&s, WIDTH, divisors[i]);
                check_folded(&s, divisors[i], divisors[j]);
            }
}

/* Idsums are added modulo the prime: here they reach it, pass it, and pass twice of it. */
static void idsums(void) {
    struct slices s = nothing(), zeros = nothing();
    s.idsums[1] = s.idsums[2] = s.idsums[6] = s.idsums[39] = s.idsums[43] = s.idsums[47] = 2147483646;
    s.idsums[5] = 1;
    CHECK_FOLDED(fold(WIDE, &s, 4), WIDE, 4);
    CHECK(s.idsums[1] == 0 && s.idsums[2] == 2147483645 && s.idsums[15] == 2147483644);
    s.idsums[2] = s.idsums[15] = 0;
    CHECK(alike(&s, &zeros));
}

/* The sketch of the profile's packets with m buckets an array. */
static struct slices sketch_with(const struct profile *profile, uint32_t m) {
    struct params given = with_width(profile->params, m);
    struct slices s = nothing();
    size_t n = size_of(given.numbers);
    for (size_t i = 0; i < FLOWS; i++) {
        struct returned t = nothing_yet();
        uint32_t flow = profile->flows[i];
        if (numbers[i] > 0)
            t.number = gabunlitik_insert(given.numbers, s.counts, n, s.idsums, n, flow, (uint32_t)numbers[i], &t.place);
        else
            t.number = gabunlitik_withdraw(given.numbers, s.counts, n, s.idsums, n, flow, (uint32_t)-numbers[i], &t.place);
        CHECK_DONE(t);
    }
    return s;
}

struct walk {
    uint32_t flows[SIZE];
    int32_t counts[SIZE];
    uint32_t queue[SIZE], marks[SIZE];
    uint64_t figures[GABUNLITIK_FIGURES];
};

static struct walk peel(const uint32_t *params, struct slices *s) {
    struct walk w;
    struct returned t = nothing_yet();
    size_t n = size_of(params);
    memset(&w, 0xa5, sizeof w);
    t.number = gabunlitik_peel(params, s->counts, n, s->idsums, n, w.flows, SIZE, w.counts, SIZE, w.queue, n, w.marks, n,
                               8 * (uint32_t)n, w.figures, &t.place);
    CHECK_DONE(t);
    return w;
}

static int lists(const struct walk *w, uint32_t flow, int32_t number) {
    for (size_t i = 0; i < w->figures[GABUNLITIK_ENTRIES]; i++)
        if (w->flows[i] == flow)
            return w->counts[i] == number;
    return 0;
}

static void check_table(const struct walk *w, const struct profile *profile) {
    CHECK(w->figures[GABUNLITIK_ENDING] == GABUNLITIK_ENDED_CLEAN && w->figures[GABUNLITIK_ENTRIES] == FLOWS);
    CHECK(w->figures[GABUNLITIK_LOST] == 300000003 && w->figures[GABUNLITIK_EXTRA] == 1004);
    for (size_t i = 0; i < FLOWS; i++)
        CHECK(lists(w, profile->flows[i], numbers[i]));
}

/* A folded sketch is the one that the same packets make with m2 from the start, and peels as that one does. Three buckets an array are
 * enough for all of them. */
static void as_from_the_start(const struct profile *profile) {
    for (size_t i = 0; i < DIVISORS; i++) {
        struct params narrow = with_width(profile->params, divisors[i]);
        struct slices s = sketch_with(profile, WIDTH), wanted = sketch_with(profile, divisors[i]);
        CHECK_FOLDED(fold(profile->params, &s, divisors[i]), profile->params, divisors[i]);
        CHECK(alike(&s, &wanted));
        struct walk w = peel(narrow.numbers, &s), wanted_walk = peel(narrow.numbers, &wanted);
        CHECK(memcmp(&w, &wanted_walk, sizeof w) == 0);
        CHECK(alike(&s, &wanted));
        if (divisors[i] >= 3)
            check_table(&w, profile);
    }
}

typedef uint32_t sum(const uint32_t *params, const uint32_t *other_params, int32_t *counts, size_t counts_len,
                     uint32_t *idsums, size_t idsums_len, const int32_t *other_counts, size_t other_counts_len,
                     const uint32_t *other_idsums, size_t other_idsums_len, size_t *place);

static void combine(sum *call, const uint32_t *params, struct slices *s, const struct slices *other) {
    struct returned t = nothing_yet();
    size_t n = size_of(params);
    t.number = call(params, params, s->counts, n, s->idsums, n, other->counts, n, other->idsums, n, &t.place);
    CHECK_DONE(t);
}

/* The sum, or the difference, of two folded sketches is theirs folded. */
static void check_sum(sum *call, const struct profile *profile, uint32_t m2) {
    const uint32_t *wide = profile->params;
    struct params narrow = with_width(wide, m2);
    struct slices s = full(), other = sketch_with(profile, WIDTH), both = s;
    combine(call, wide, &both, &other);
    CHECK_FOLDED(fold(wide, &both, m2), wide, m2);
    CHECK_FOLDED(fold(wide, &s, m2), wide, m2);
    CHECK_FOLDED(fold(wide, &other, m2), wide, m2);
    combine(call, narrow.numbers, &s, &other);
    CHECK(alike(&s, &both));
}

static void sums(const struct profile *profile) {
    for (size_t i = 0; i < DIVISORS; i++) {
        check_sum(gabunlitik_add, profile, divisors[i]);
        check_sum(gabunlitik_subtract, profile, divisors[i]);
    }
}

struct output {
    uint8_t bytes[MOST_BYTES];
    size_t length;
};

static struct output write_sketch(const uint32_t *params, const struct slices *s) {
    struct output o;
    struct returned t = nothing_yet();
    memset(&o, 0xa5, sizeof o);
    t.number = gabunlitik_write_sketch(params, s->counts, size_of(params), s->idsums, size_of(params), o.bytes, MOST_BYTES,
                                       &o.length, &t.place);
    CHECK_DONE(t);
    return o;
}

static void read_sketch(const uint32_t *params, struct slices *s, const struct output *o) {
    struct returned t = nothing_yet();
    t.number = gabunlitik_read_sketch(params, s->counts, size_of(params), s->idsums, size_of(params), o->bytes, o->length,
                                      &t.place);
    CHECK_DONE(t);
}

/* A stored sketch, read and folded, is stored in the one file that the sketch with m2 from the start has, and read back with the
 * parameters of its head. */
static void files(const struct profile *profile) {
    const uint32_t *wide = profile->params;
    for (size_t i = 0; i < DIVISORS; i++) {
        struct params narrow = with_width(wide, divisors[i]), head;
        struct slices s = sketch_with(profile, WIDTH), wanted = sketch_with(profile, divisors[i]), back = full();
        struct output stored = write_sketch(wide, &s), wanted_file = write_sketch(narrow.numbers, &wanted);
        struct returned t = nothing_yet();
        s = full();
        read_sketch(wide, &s, &stored);
        CHECK_FOLDED(fold(wide, &s, divisors[i]), wide, divisors[i]);
        stored = write_sketch(narrow.numbers, &s);
        CHECK(stored.length == wanted_file.length);
        CHECK(memcmp(stored.bytes, wanted_file.bytes, sizeof stored.bytes) == 0);
        t.number = gabunlitik_read_head(stored.bytes, stored.length, head.numbers, &t.place);
        CHECK_DONE(t);
        CHECK(memcmp(&head, &narrow, sizeof head) == 0);
        CHECK_FOLDED(fold(wide, &back, divisors[i]), wide, divisors[i]);
        read_sketch(head.numbers, &back, &stored);
        CHECK(alike(&back, &wanted));
    }
}

void test_folds(void) {
    examples();
    buckets();
    idsums();
    for (size_t i = 0; i < PROFILES; i++) {
        as_from_the_start(&profiles[i]);
        sums(&profiles[i]);
        files(&profiles[i]);
    }
}
