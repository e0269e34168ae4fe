/* How far a fold goes, and what it is refused for, called from C. */
#include "folds.h"

/* A third of m: three buckets meet in one. */
enum { FEWER = WIDTH / 3, FOLDED_SIZE = ARRAYS * FEWER };

/* Three counts, and their sum where it is within the limits. One more than the limit still fits 32 bits, and below zero so do two more; a
 * third of it, 715827882, is the greatest count of which three surely fit; the last two sums are 0 and 1 in 32 bits. */
static const struct meeting {
    int32_t counts[3], sum;
    uint32_t number;
} meetings[] = {
    {{2147483646, 0, 0}, 2147483646, GABUNLITIK_DONE},
    {{2147483646, 1, 0}, 0, GABUNLITIK_RANGE},
    {{2147483646, 2, 0}, 0, GABUNLITIK_RANGE},
    {{2147483646, 1, -1}, 2147483646, GABUNLITIK_DONE},
    {{2147483646, 2147483646, -2147483646}, 2147483646, GABUNLITIK_DONE},
    {{2147483646, 2147483646, -2147483645}, 0, GABUNLITIK_RANGE},
    {{1073741823, 1073741823, 0}, 2147483646, GABUNLITIK_DONE},
    {{1073741823, 1073741823, 1}, 0, GABUNLITIK_RANGE},
    {{715827882, 715827882, 715827882}, 2147483646, GABUNLITIK_DONE},
    {{715827883, 715827882, 715827881}, 2147483646, GABUNLITIK_DONE},
    {{715827883, 715827882, 715827882}, 0, GABUNLITIK_RANGE},
    {{2147483646, 2147483646, 4}, 0, GABUNLITIK_RANGE},
    {{2147483646, 2147483646, 5}, 0, GABUNLITIK_RANGE},
};

/* The counts, or with the sign -1 their opposites, meet in a bucket of the folded sketch, beginning with that of index `first`. */
static void check_meeting(const struct meeting *meeting, int32_t sign, size_t first, size_t target) {
    struct slices s = nothing(), kept, wanted = nothing();
    for (size_t i = 0; i < 3; i++)
        s.counts[target / FEWER * WIDTH + target % FEWER + i * FEWER] = sign * meeting->counts[(first + i) % 3];
    kept = s;
    wanted.counts[target] = sign * meeting->sum;
    if (meeting->number == GABUNLITIK_DONE) {
        CHECK_FOLDED(fold(WIDE, &s, FEWER), WIDE, FEWER);
        CHECK(alike(&s, &wanted));
    } else {
        CHECK_UNFOLDED(fold(WIDE, &s, FEWER), meeting->number, target, &s, &kept);
    }
}

/* The whole sum decides, not what it comes to on the way, so that the order of the counts does not matter. */
static void limits(void) {
    static const size_t targets[] = {0, 9, FOLDED_SIZE - 1};
    for (size_t i = 0; i < sizeof meetings / sizeof meetings[0]; i++)
        for (size_t first = 0; first < 3; first++) {
            check_meeting(&meetings[i], 1, first, targets[(i + first) % 3]);
            check_meeting(&meetings[i], -1, first, targets[(i + first) % 3]);
        }
}

/* RANGE has the lowest index in the folded sketch: 1, though what it is made of stands behind what 2 is made of; and of 7 and 12, which
 * are in other arrays, 7. */
static void lowest_range(void) {
    struct slices s = nothing(), kept;
    s.counts[2] = s.counts[6] = 2147483646;
    s.counts[5] = s.counts[9] = -2147483646;
    kept = s;
    CHECK_UNFOLDED(fold(WIDE, &s, FEWER), GABUNLITIK_RANGE, 1, &s, &kept);
    s = nothing();
    s.counts[36] = s.counts[40] = s.counts[19] = s.counts[23] = 2147483646;
    kept = s;
    CHECK_UNFOLDED(fold(WIDE, &s, FEWER), GABUNLITIK_RANGE, 7, &s, &kept);
    CHECK_FOLDED(fold(WIDE, &s, WIDTH), WIDE, WIDTH); /* where nothing is added */
    CHECK(alike(&s, &kept));
}

/* Damage is refused with its index in the sketch that is lent, also where nothing is to change. */
static void check_damage(size_t index, int32_t count, uint32_t idsum) {
    struct slices s = full(), kept;
    s.counts[index] = count;
    s.idsums[index] = idsum;
    kept = s;
    CHECK_UNFOLDED(fold(WIDE, &s, FEWER), GABUNLITIK_DAMAGE, index, &s, &kept);
    CHECK_UNFOLDED(fold(WIDE, &s, WIDTH), GABUNLITIK_DAMAGE, index, &s, &kept);
}

static void damage(void) {
    static const size_t indexes[] = {0, WIDTH - 1, WIDTH, 29, SIZE - 1};
    for (size_t i = 0; i < sizeof indexes / sizeof indexes[0]; i++) {
        check_damage(indexes[i], -2147483647 - 1, 0);
        check_damage(indexes[i], -2147483647, 0);
        check_damage(indexes[i], 2147483647, 0);
        check_damage(indexes[i], 0, 2147483647);
        check_damage(indexes[i], 0, 4294967295);
    }
}

/* Of several damaged buckets, in either slice, the lowest; the sums are all within their limits. */
static void lowest_damage(void) {
    struct slices s = nothing(), kept;
    s.counts[8] = 2147483647;
    s.counts[4] = -1;
    kept = s;
    CHECK_UNFOLDED(fold(WIDE, &s, FEWER), GABUNLITIK_DAMAGE, 8, &s, &kept);
    s.idsums[5] = kept.idsums[5] = 2147483647;
    CHECK_UNFOLDED(fold(WIDE, &s, FEWER), GABUNLITIK_DAMAGE, 5, &s, &kept);
    s.counts[3] = kept.counts[3] = -2147483647;
    s.counts[7] = kept.counts[7] = 1;
    CHECK_UNFOLDED(fold(WIDE, &s, FEWER), GABUNLITIK_DAMAGE, 3, &s, &kept);
}

/* FOLD for 0 and for all that does not divide m. */
static void widths(void) {
    static const uint32_t large[] = {16384, 16385, 2147483647, 2147483648, 4294967284, 4294967295};
    struct slices kept = full(), s = kept;
    for (uint32_t m2 = 0; m2 <= 2 * WIDTH + 1; m2++)
        if (m2 == 0 || WIDTH % m2 != 0)
            CHECK_UNFOLDED(fold(WIDE, &s, m2), GABUNLITIK_FOLD, 0, &s, &kept);
    for (size_t i = 0; i < sizeof large / sizeof large[0]; i++)
        CHECK_UNFOLDED(fold(WIDE, &s, large[i]), GABUNLITIK_FOLD, 0, &s, &kept);
}

/* A prime m has two divisors, and an m of 1 has one. */
static void few_divisors(void) {
    struct params prime = with_width(WIDE, 11), narrowest = with_width(WIDE, 1);
    struct slices kept = full(), s = kept;
    for (uint32_t m2 = 2; m2 < 11; m2++)
        CHECK_UNFOLDED(fold(prime.numbers, &s, m2), GABUNLITIK_FOLD, 0, &s, &kept);
    CHECK_FOLDED(fold(prime.numbers, &s, 11), WIDE, 11);
    CHECK(alike(&s, &kept));
    CHECK_UNFOLDED(fold(narrowest.numbers, &s, 0), GABUNLITIK_FOLD, 0, &s, &kept);
    CHECK_UNFOLDED(fold(narrowest.numbers, &s, 2), GABUNLITIK_FOLD, 0, &s, &kept);
    CHECK_FOLDED(fold(narrowest.numbers, &s, 1), WIDE, 1);
    CHECK(alike(&s, &kept));
    CHECK_FOLDED(fold(prime.numbers, &s, 1), WIDE, 1);
}

/* Index 46 is damaged, and index 0 of the folded sketch would leave the limits. */
static struct slices with_faults(void) {
    struct slices s = full();
    s.counts[0] = s.counts[FEWER] = 2147483646;
    s.idsums[46] = 2147483647;
    return s;
}

/* PARAM for each rule, where all that comes later is wrong too, and LENGTH for each slice, where m2 is right and where it is wrong. */
static void before_fold(void) {
    static const size_t lengths[][2] = {{SIZE - 1, SIZE}, {SIZE, SIZE - 1}, {SIZE + 1, SIZE}, {SIZE, SIZE + 1},
                                        {0, SIZE}, {SIZE, 0}, {FOLDED_SIZE, FOLDED_SIZE}};
    struct slices s = with_faults(), kept = s;
    for (size_t i = 0; i < WAYS; i++)
        CHECK_UNFOLDED(fold_lent(BROKEN[i], s.counts, SIZE, s.idsums, SIZE - 1, 0), GABUNLITIK_PARAM, 0, &s, &kept);
    for (size_t i = 0; i < sizeof lengths / sizeof lengths[0]; i++)
        for (uint32_t m2 = FEWER; m2 <= FEWER + 1; m2++)
            CHECK_UNFOLDED(fold_lent(WIDE, s.counts, lengths[i][0], s.idsums, lengths[i][1], m2), GABUNLITIK_LENGTH, 0, &s,
                           &kept);
}

/* FOLD, then DAMAGE, then RANGE, each mended in turn. */
static void from_fold_on(void) {
    struct slices s = with_faults(), kept = s;
    CHECK_UNFOLDED(fold(WIDE, &s, FEWER + 1), GABUNLITIK_FOLD, 0, &s, &kept);
    CHECK_UNFOLDED(fold(WIDE, &s, 0), GABUNLITIK_FOLD, 0, &s, &kept);
    CHECK_UNFOLDED(fold(WIDE, &s, FEWER), GABUNLITIK_DAMAGE, 46, &s, &kept);
    s.idsums[46] = kept.idsums[46] = 0;
    CHECK_UNFOLDED(fold(WIDE, &s, FEWER), GABUNLITIK_RANGE, 0, &s, &kept);
    s.counts[FEWER] = -2147483646;
    CHECK_FOLDED(fold(WIDE, &s, FEWER), WIDE, FEWER);
}

enum { MOST_WIDTH = 16384, MOST = ARRAYS * MOST_WIDTH };

/* The largest sketch, and what it is to become. */
static struct largest {
    int32_t counts[MOST];
    uint32_t idsums[MOST];
} largest, wanted;

static struct folded fold_largest(uint32_t m2) {
    struct params widest = with_width(WIDE, MOST_WIDTH);
    return fold_lent(widest.numbers, largest.counts, MOST, largest.idsums, MOST, m2);
}

/* All of its buckets have the greatest idsum; those in the lower half of an array have one count, those in the upper half another. */
static void fill(int32_t lower, int32_t upper) {
    for (size_t k = 0; k < MOST; k++) {
        largest.counts[k] = k % MOST_WIDTH < MOST_WIDTH / 2 ? lower : upper;
        largest.idsums[k] = 2147483646;
    }
    wanted = largest;
}

/* It is to become n buckets of one count and one idsum, and zeros. */
static void want(size_t n, int32_t count, uint32_t idsum) {
    memset(&wanted, 0, sizeof wanted);
    for (size_t k = 0; k < n; k++) {
        wanted.counts[k] = count;
        wanted.idsums[k] = idsum;
    }
}

/* As many counts meet as can: 16384 by 131071 each, and 16382 more, are the limit. As many greatest idsums are 2147467263. */
static void all_in_one(void) {
    fill(131071, 131071);
    for (size_t i = 0; i < ARRAYS; i++)
        largest.counts[i * MOST_WIDTH + 5] += 16382;
    largest.counts[MOST - 1]++;
    wanted = largest;
    CHECK_UNFOLDED(fold_largest(1), GABUNLITIK_RANGE, ARRAYS - 1, &largest, &wanted);
    largest.counts[MOST - 1]--;
    want(ARRAYS, 2147483646, 2147467263);
    CHECK_FOLDED(fold_largest(1), WIDE, 1);
    CHECK(memcmp(&largest, &wanted, sizeof wanted) == 0);
}

/* Half of an array is at one limit and half at the other, so that a sum needs 45 bits on its way to 0. */
static void at_both_limits(void) {
    fill(-2147483646, 2147483646);
    CHECK_FOLDED(fold_largest(MOST_WIDTH), WIDE, MOST_WIDTH);
    CHECK(memcmp(&largest, &wanted, sizeof wanted) == 0);
    want(ARRAYS, 0, 2147467263);
    CHECK_FOLDED(fold_largest(1), WIDE, 1);
    CHECK(memcmp(&largest, &wanted, sizeof wanted) == 0);
    fill(2147483646, -2147483646);
    want(MOST / 2, 0, 2147483645);
    CHECK_FOLDED(fold_largest(MOST_WIDTH / 2), WIDE, MOST_WIDTH / 2);
    CHECK(memcmp(&largest, &wanted, sizeof wanted) == 0);
    fill(0, -2147483646);
    CHECK_UNFOLDED(fold_largest(MOST_WIDTH / 4), GABUNLITIK_RANGE, 0, &largest, &wanted);
    largest.idsums[MOST - 1] = wanted.idsums[MOST - 1] = 2147483647;
    CHECK_UNFOLDED(fold_largest(MOST_WIDTH / 4), GABUNLITIK_DAMAGE, MOST - 1, &largest, &wanted);
}

void test_fold_limits(void) {
    limits();
    lowest_range();
    damage();
    lowest_damage();
    widths();
    few_divisors();
    before_fold();
    from_fold_on();
    all_in_one();
    at_both_limits();
}
