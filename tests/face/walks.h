/* What the tests of peeling share: all that a walk is lent beside the sketch, and checks. */
#ifndef WALKS_H
#define WALKS_H

#include "bench.h"

enum { MOST_SLOTS = 6 };

/* What a walk is lent, and the figures it tells. */
struct walk {
    uint32_t flows[MOST_SLOTS];
    int32_t counts[MOST_SLOTS];
    uint32_t queue[BUCKETS];
    uint32_t marks[BUCKETS];
    uint64_t figures[GABUNLITIK_FIGURES];
};

/* Full of what has no effect on a walk. */
struct walk unwalked(void);

struct returned peel_under(const uint32_t *params, struct sketch *s, struct walk *w, size_t slots, uint32_t allowance);

int figures_are(const struct walk *w, uint64_t ending, uint64_t entries, uint64_t lost, uint64_t extra, uint64_t pops);

/* The slots past the entries, the queue and the marks are 0. */
int cleared(const struct walk *w);

/* Five flows, of which the first stands at position 0 of array 1, the next at 1 and so on: each list of losses and gains of any of them, with
 * a slot and a pop for each flow, one slot fewer and one pop fewer. */
enum { OWNERS = 5 };
void check_own_buckets(const uint32_t *params, const uint32_t flows[OWNERS]);

#endif
