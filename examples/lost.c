/* Two switches sketch the packets that pass them; what was lost between them is the difference, peeled. A packet of flow 11 arrives
 * twice. Prints
 *
 *     loss 11 -1
 *     loss 12 2
 *     loss 7 1
 *     ending 1, 4 pops, 3 packets lost, 1 extra
 */
#include <stdio.h>

#include "gabunlitik.h"

enum { D = 2, M = 5, BUCKETS = D * M, SLOTS = BUCKETS };

/* Two arrays of five buckets with the pairs (1, 0) and (1073741824, 0), the first prime, and no fingerprints. */
static const uint32_t params[GABUNLITIK_PARAMS] = {
    D, M, 1, 1073741824, 0, 0, 0, 0, 0, 0, GABUNLITIK_FIRST_PRIME, 0, 0, GABUNLITIK_PLAIN_SORT};

struct sketch {
    int32_t counts[BUCKETS];
    uint32_t idsums[BUCKETS];
};

/* Says what was refused, and gives back whether something was. */
static int refused(const char *call, uint32_t number, size_t place) {
    if (number != GABUNLITIK_DONE)
        printf("%s: refused %u at %zu\n", call, number, place);
    return number != GABUNLITIK_DONE;
}

static int build(struct sketch *s, const uint32_t *flows, const uint32_t *numbers, size_t n) {
    size_t place;
    uint32_t refusal = gabunlitik_fresh(params, s->counts, BUCKETS, s->idsums, BUCKETS, &place);
    if (refused("fresh", refusal, place))
        return 1;
    refusal = gabunlitik_insert_all(params, s->counts, BUCKETS, s->idsums, BUCKETS, flows, n, numbers, n, &place);
    return refused("insert_all", refusal, place);
}

int main(void) {
    static const uint32_t sent_flows[] = {7, 12, 11}, sent[] = {3, 2, 1};
    static const uint32_t arrived_flows[] = {7, 11}, arrived[] = {2, 2};
    struct sketch upstream = {{0}, {0}}, downstream = {{0}, {0}};
    if (build(&upstream, sent_flows, sent, 3) || build(&downstream, arrived_flows, arrived, 2))
        return 1;

    size_t place;
    uint32_t refusal = gabunlitik_subtract(params, params, upstream.counts, BUCKETS, upstream.idsums, BUCKETS,
                                        downstream.counts, BUCKETS, downstream.idsums, BUCKETS, &place);
    if (refused("subtract", refusal, place))
        return 1;

    uint32_t flows[SLOTS] = {0}, queue[BUCKETS] = {0}, marks[BUCKETS] = {0};
    int32_t counts[SLOTS] = {0};
    uint64_t figures[GABUNLITIK_FIGURES];
    refusal = gabunlitik_peel(params, upstream.counts, BUCKETS, upstream.idsums, BUCKETS, flows, SLOTS, counts, SLOTS,
                           queue, BUCKETS, marks, BUCKETS, 8 * BUCKETS, figures, &place);
    if (refused("peel", refusal, place))
        return 1;
    for (uint64_t i = 0; i < figures[GABUNLITIK_ENTRIES]; i++)
        printf("loss %u %d\n", flows[i], counts[i]);
    printf("ending %llu, %llu pops, %llu packets lost, %llu extra\n", (unsigned long long)figures[GABUNLITIK_ENDING],
           (unsigned long long)figures[GABUNLITIK_POPS], (unsigned long long)figures[GABUNLITIK_LOST],
           (unsigned long long)figures[GABUNLITIK_EXTRA]);
    return 0;
}
