/* Four arrays, so that all numbers of the parameters count, in the plain profile and with fingerprints. What is expected is computed here,
 * by the scope's formula and by that of the fingerprints. */
#include "bench.h"

enum { ARRAYS = 4, WIDTH = 11, SIZE = ARRAYS * WIDTH, MOST_BYTES = 46 + 5 };

static const uint64_t P = 2147483647;
static const uint32_t multipliers[ARRAYS] = {1, 1073741824, 2147483645, 123456789};
static const uint32_t offsets[ARRAYS] = {3, 2147483645, 1000000007, 987654321};

/* The fifth pair, two flows that share no bucket, and the head of a file: its kind and its length. */
struct profile {
    uint32_t multiplier, offset, first, second;
    uint8_t kind;
    size_t head;
};

static const struct profile profiles[] = {{0, 0, 1999999999, 12, 1, 38}, {1876543210, 2147483646, 7999999, 12, 10, 46}};

struct slices {
    int32_t counts[SIZE];
    uint32_t idsums[SIZE];
};

static void set(const struct profile *profile, uint32_t params[GABUNLITIK_PARAMS]) {
    params[GABUNLITIK_D] = ARRAYS;
    params[GABUNLITIK_M] = WIDTH;
    for (size_t i = 0; i < ARRAYS; i++) {
        params[GABUNLITIK_MULTIPLIERS + i] = multipliers[i];
        params[GABUNLITIK_OFFSETS + i] = offsets[i];
    }
    params[GABUNLITIK_PRIME] = GABUNLITIK_FIRST_PRIME;
    params[GABUNLITIK_FIFTH_MULTIPLIER] = profile->multiplier;
    params[GABUNLITIK_FIFTH_OFFSET] = profile->offset;
    params[GABUNLITIK_SORT] = GABUNLITIK_PLAIN_SORT;
}

/* What is sketched for a flow. */
static uint64_t sketched(const struct profile *profile, uint32_t flow) {
    if (profile->multiplier == 0)
        return flow;
    return (uint64_t)flow * 256 + ((uint64_t)profile->multiplier * flow + profile->offset) % P % 256;
}

/* Where a flow stands in an array; here arrays count from 0. */
static size_t position(const struct profile *profile, size_t array, uint32_t flow) {
    return (size_t)((multipliers[array] * sketched(profile, flow) + offsets[array]) % P % WIDTH);
}

/* Puts an entry into the sketch that is expected. */
static void expect(const struct profile *profile, struct slices *s, uint32_t flow, int32_t number) {
    for (size_t i = 0; i < ARRAYS; i++) {
        size_t k = i * WIDTH + position(profile, i, flow);
        s->counts[k] += number;
        s->idsums[k] = (uint32_t)((s->idsums[k] + (number + P) % P * sketched(profile, flow)) % P);
    }
}

static struct slices nothing(void) {
    struct slices s;
    memset(&s, 0, sizeof s);
    return s;
}

static struct returned insert_four(const uint32_t *params, struct slices *s, uint32_t flow, uint32_t number) {
    struct returned t = nothing_yet();
    t.number = gabunlitik_insert(params, s->counts, SIZE, s->idsums, SIZE, flow, number, &t.place);
    return t;
}

/* The sketch of the first flow by 3 and the second by -4, and the walk that finds both. */
static void lost_and_doubled(const struct profile *profile) {
    uint32_t params[GABUNLITIK_PARAMS], flows[2], queue[SIZE], marks[SIZE];
    int32_t counts[2];
    uint64_t figures[GABUNLITIK_FIGURES];
    struct slices s = nothing(), other = nothing(), expected = nothing(), zeros = nothing();
    struct returned t = nothing_yet();
    set(profile, params);
    CHECK_DONE(insert_four(params, &s, profile->first, 3));
    CHECK_DONE(insert_four(params, &s, profile->second, 5));
    CHECK_DONE(insert_four(params, &other, profile->second, 9));
    expect(profile, &expected, profile->first, 3);
    expect(profile, &expected, profile->second, 5);
    CHECK(memcmp(&s, &expected, sizeof s) == 0);
    t.number = gabunlitik_withdraw(params, s.counts, SIZE, s.idsums, SIZE, profile->first, 7, &t.place);
    CHECK_DONE(t);
    expect(profile, &expected, profile->first, -7);
    CHECK(memcmp(&s, &expected, sizeof s) == 0);
    CHECK_DONE(insert_four(params, &s, profile->first, 7));
    expect(profile, &expected, profile->first, 7);
    CHECK(memcmp(&s, &expected, sizeof s) == 0);
    t = nothing_yet();
    t.number = gabunlitik_subtract(params, params, s.counts, SIZE, s.idsums, SIZE, other.counts, SIZE, other.idsums,
                                   SIZE, &t.place);
    CHECK_DONE(t);
    expect(profile, &expected, profile->second, -9);
    CHECK(memcmp(&s, &expected, sizeof s) == 0);
    /* The flows share no bucket, so each is found in array 1, in the order of their places there. */
    for (size_t i = 0; i < ARRAYS; i++)
        CHECK(position(profile, i, profile->first) != position(profile, i, profile->second));
    size_t first = position(profile, 0, profile->first) > position(profile, 0, profile->second), second = 1 - first;
    t = nothing_yet();
    t.number = gabunlitik_peel(params, s.counts, SIZE, s.idsums, SIZE, flows, 2, counts, 2, queue, SIZE, marks, SIZE,
                               100, figures, &t.place);
    CHECK_DONE(t);
    CHECK(figures[GABUNLITIK_ENDING] == GABUNLITIK_ENDED_CLEAN && figures[GABUNLITIK_ENTRIES] == 2);
    CHECK(figures[GABUNLITIK_LOST] == 3 && figures[GABUNLITIK_EXTRA] == 4 && figures[GABUNLITIK_POPS] == 2);
    CHECK(flows[first] == profile->first && counts[first] == 3);
    CHECK(flows[second] == profile->second && counts[second] == -4);
    CHECK(memcmp(&s, &zeros, sizeof s) == 0);
}

/* The file of an empty sketch: a head with every number in its place, and an end that counts 0 records. */
static void head(const struct profile *profile) {
    uint32_t params[GABUNLITIK_PARAMS];
    uint8_t written[MOST_BYTES], expected[MOST_BYTES] = {profile->kind, ARRAYS};
    struct slices s = nothing();
    struct returned t = nothing_yet();
    size_t length, file = profile->head + 5;
    set(profile, params);
    put(expected + 2, WIDTH);
    for (size_t i = 0; i < ARRAYS; i++) {
        put(expected + 6 + 8 * i, multipliers[i]);
        put(expected + 10 + 8 * i, offsets[i]);
    }
    put(expected + 38, profile->multiplier);
    put(expected + 42, profile->offset);
    expected[profile->head] = 4;
    put(expected + profile->head + 1, 0);
    memset(&length, 0xa5, sizeof length);
    t.number = gabunlitik_write_sketch(params, s.counts, SIZE, s.idsums, SIZE, written, file, &length, &t.place);
    CHECK_DONE(t);
    CHECK(length == file && memcmp(written, expected, file) == 0);
    uint32_t read[GABUNLITIK_PARAMS];
    memset(read, 0xa5, sizeof read);
    t = nothing_yet();
    t.number = gabunlitik_read_head(written, file, read, &t.place);
    CHECK_DONE(t);
    CHECK(memcmp(read, params, sizeof read) == 0);
}

/* Where both flows stand in every array. */
static void places(const struct profile *profile) {
    uint32_t params[GABUNLITIK_PARAMS];
    set(profile, params);
    for (size_t i = 0; i < 2 * ARRAYS; i++) {
        uint32_t array = (uint32_t)(i / 2 + 1), flow = i % 2 ? profile->first : profile->second;
        size_t wanted = position(profile, array - 1, flow), found;
        struct returned t = nothing_yet();
        memset(&found, 0xa5, sizeof found);
        t.number = gabunlitik_position(params, array, flow, &found, &t.place);
        CHECK_DONE(t);
        CHECK(found == wanted);
        t = nothing_yet();
        t.number = gabunlitik_index(params, array, flow, &found, &t.place);
        CHECK_DONE(t);
        CHECK(found == (array - 1) * WIDTH + wanted);
    }
}

/* Whether the parameters break a rule when this number of them is one less: with three arrays the fourth pair is one too many; the first
 * multiplier and the number of the prime become 0; and what is 0 becomes the greatest number there is. */
static int breaks(const uint32_t *params, size_t i) {
    return i == GABUNLITIK_D || i == GABUNLITIK_MULTIPLIERS || i == GABUNLITIK_PRIME || params[i] == 0;
}

/* A change of any of the fourteen numbers is seen. */
static void changed(const struct profile *profile) {
    uint32_t params[GABUNLITIK_PARAMS], other[GABUNLITIK_PARAMS];
    struct slices s = nothing(), t = nothing(), zeros = nothing();
    set(profile, params);
    expect(profile, &t, profile->first, 3);
    struct slices kept = t;
    for (size_t i = 0; i < GABUNLITIK_PARAMS; i++) {
        struct returned returned = nothing_yet();
        set(profile, other);
        other[i]--;
        uint32_t number = breaks(params, i) ? GABUNLITIK_PARAM : GABUNLITIK_MISMATCH;
        returned.number = gabunlitik_add(params, other, s.counts, SIZE, s.idsums, SIZE, t.counts, SIZE, t.idsums, SIZE,
                                     &returned.place);
        CHECK_RETURNS(returned, number, 0);
        CHECK(memcmp(&s, &zeros, sizeof s) == 0 && memcmp(&t, &kept, sizeof t) == 0);
    }
}

void test_arrays(void) {
    for (size_t i = 0; i < sizeof profiles / sizeof profiles[0]; i++) {
        lost_and_doubled(&profiles[i]);
        head(&profiles[i]);
        places(&profiles[i]);
        changed(&profiles[i]);
    }
}
