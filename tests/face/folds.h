/* What the tests of the fold share: parameters of four arrays, slices for them, and checks. */
#ifndef FOLDS_H
#define FOLDS_H

#include "bench.h"

enum { ARRAYS = 4, WIDTH = 12, SIZE = ARRAYS * WIDTH };

/* Parameters of which every number counts, in the plain profile. */
extern const uint32_t WIDE[GABUNLITIK_PARAMS];

struct params {
    uint32_t numbers[GABUNLITIK_PARAMS];
};

/* The same with another m. */
struct params with_width(const uint32_t *params, uint32_t m);

/* d * m. */
size_t size_of(const uint32_t *params);

/* Slices, each with one place behind that is never lent to be changed, and holds damage. */
struct slices {
    int32_t counts[SIZE + 1];
    uint32_t idsums[SIZE + 1];
};

struct slices nothing(void);

/* No two buckets are alike, with counts of both signs, of which any sum is within the limits. */
struct slices full(void);

int alike(const struct slices *s, const struct slices *t);

/* What a fold returned, and the parameters that it wrote. */
struct folded {
    struct returned returned;
    uint32_t params[GABUNLITIK_PARAMS];
};

/* The parameters are handed over in memory that could be written, and are to stay as they are. */
struct folded fold_lent(const uint32_t *params, int32_t *counts, size_t counts_len, uint32_t *idsums, size_t idsums_len,
                        uint32_t m2);
struct folded fold(const uint32_t *params, struct slices *s, uint32_t m2);

/* Done, and the parameters are those that were given, save for m2. */
#define CHECK_FOLDED(call, given, m2) \
    do { \
        struct folded folded = (call); \
        struct params due = with_width(given, m2); \
        CHECK_DONE(folded.returned); \
        CHECK(memcmp(folded.params, due.numbers, sizeof due.numbers) == 0); \
    } while (0)

/* A refusal returns parameters that are all 0, and leaves memory as `kept`, a copy from before. */
#define CHECK_UNFOLDED(call, number, place, memory, kept) \
    do { \
        static const uint32_t zeros[GABUNLITIK_PARAMS]; \
        struct folded folded = (call); \
        CHECK_RETURNS(folded.returned, number, place); \
        CHECK(memcmp(folded.params, zeros, sizeof zeros) == 0); \
        CHECK(memcmp(memory, kept, sizeof *(kept)) == 0); \
    } while (0)

#endif
