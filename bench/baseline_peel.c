// The walk that peels a sketch into a table of flows.
#include "baseline.h"

#include <string.h>

// The parts of a walk that move.
struct walk {
    uint32_t size;    // buckets
    uint32_t head;    // where the ring of waiting buckets begins
    uint32_t waiting; // how many wait
    uint32_t left;    // how many buckets are not all zero
    uint32_t entries; // how many entries the table has
    uint32_t pops;
};

static int is_dirty(int32_t count, uint32_t idsum) {
    return count != 0 || idsum != 0;
}

static void push(struct walk *walk, struct room *room, uint32_t bucket) {
    if (room->waiting[bucket])
        return;
    uint32_t place = walk->head + walk->waiting;
    room->queue[place < walk->size ? place : place - walk->size] = bucket;
    room->waiting[bucket] = 1;
    walk->waiting++;
}

static uint32_t pop(struct walk *walk, struct room *room) {
    uint32_t bucket = room->queue[walk->head];
    room->waiting[bucket] = 0;
    walk->head = walk->head + 1 < walk->size ? walk->head + 1 : 0;
    walk->waiting--;
    walk->pops++;
    return bucket;
}

static struct walk start(const struct sketch *sketch, struct room *room) {
    struct walk walk = {.size = size_of(&sketch->params)};
    memset(room->waiting, 0, walk.size);
    memset(room->cells, 0, sizeof *room->cells << room->cells_log2);
    for (uint32_t k = 0; k < walk.size; k++) {
        if (sketch->counts[k] != 0)
            push(&walk, room, k);
        walk.left += is_dirty(sketch->counts[k], sketch->idsums[k]);
    }
    return walk;
}

// 1 / a modulo the prime, by Euclid; a is 1 to PRIME - 1.
static uint32_t inverse(uint32_t a) {
    int64_t x = 1, next = 0;
    uint32_t rest = a, divisor = PRIME;
    while (rest > 1) {
        uint32_t quotient = divisor / rest;
        int64_t before = next - quotient * x;
        next = x;
        x = before;
        uint32_t remainder = divisor % rest;
        divisor = rest;
        rest = remainder;
    }
    return (uint32_t)(x < 0 ? x + PRIME : x);
}

// The number that a bucket holds if it holds one alone. A count of 0 is not asked for.
static uint32_t number_of(int32_t count, uint32_t idsum) {
    uint32_t raised = count < 0 ? (uint32_t)count + PRIME : (uint32_t)count;
    return (uint32_t)((uint64_t)idsum * inverse(raised) % PRIME);
}

// The cell that leads to a flow's entry, or the empty one where it belongs. A cell holds 1 + a slot of the table.
static uint32_t *find_cell(const struct room *room, const struct table *table, uint32_t flow) {
    uint32_t last = (1u << room->cells_log2) - 1;
    uint32_t at = flow * 2654435769u >> (32 - room->cells_log2);
    while (room->cells[at] != 0 && table->flows[room->cells[at] - 1] != flow)
        at = (at + 1) & last;
    return &room->cells[at];
}

// Whether all of a flow's buckets stay within the limits less a count.
static int can_take(const struct sketch *sketch, const uint32_t buckets[4], int32_t count) {
    for (uint32_t array = 0; array < sketch->params.d; array++)
        if (!is_within((int64_t)sketch->counts[buckets[array]] - count))
            return 0;
    return 1;
}

static void take_from_buckets(struct walk *walk, struct sketch *sketch, struct room *room, const uint32_t buckets[4],
                              int32_t count, uint32_t idsum) {
    for (uint32_t array = 0; array < sketch->params.d; array++) {
        uint32_t k = buckets[array];
        walk->left -= is_dirty(sketch->counts[k], sketch->idsums[k]);
        sketch->counts[k] -= count;
        sketch->idsums[k] = subtract_idsums(sketch->idsums[k], idsum);
        walk->left += is_dirty(sketch->counts[k], sketch->idsums[k]);
        if (sketch->counts[k] != 0)
            push(walk, room, k);
    }
}

// Takes the flow of which a number is sketched out of its buckets into the table; the ending where that cannot be done, or 0.
static enum ending take(struct walk *walk, struct sketch *sketch, struct table *table, struct room *room, uint32_t number,
                        int32_t count, uint32_t idsum) {
    uint32_t buckets[4];
    find_buckets(&sketch->params, number, buckets);
    if (!can_take(sketch, buckets, count))
        return OUT_OF_RANGE;
    uint32_t flow = flow_sketched_as(&sketch->params, number);
    uint32_t *cell = find_cell(room, table, flow);
    if (*cell != 0) {
        if (!is_within((int64_t)table->counts[*cell - 1] + count))
            return OUT_OF_RANGE;
        table->counts[*cell - 1] += count;
    } else {
        if (walk->entries == table->slots)
            return FULL;
        table->flows[walk->entries] = flow;
        table->counts[walk->entries] = count;
        *cell = ++walk->entries;
    }
    take_from_buckets(walk, sketch, room, buckets, count, idsum);
    return 0;
}

static enum ending run(struct walk *walk, struct sketch *sketch, struct table *table, struct room *room,
                       uint32_t allowance) {
    for (;;) {
        if (walk->left == 0)
            return CLEAN;
        if (walk->waiting == 0)
            return STUCK;
        if (walk->pops == allowance)
            return SPENT;
        uint32_t k = pop(walk, room);
        int32_t count = sketch->counts[k];
        uint32_t idsum = sketch->idsums[k];
        if (count == 0)
            continue;
        uint32_t number = number_of(count, idsum);
        if (!is_sketched(&sketch->params, number))
            continue;
        uint32_t array = k / sketch->params.m;
        if (array * sketch->params.m + position(&sketch->params, array, number) != k)
            continue;
        enum ending ending = take(walk, sketch, table, room, number, count, idsum);
        if (ending != 0)
            return ending;
    }
}

void baseline_close(struct table *table, uint32_t entries, struct figures *figures) {
    uint32_t kept = 0;
    uint64_t lost = 0, extra = 0;
    for (uint32_t slot = 0; slot < entries; slot++) {
        int64_t count = table->counts[slot];
        if (count == 0)
            continue;
        if (count < 0)
            extra += (uint64_t)-count;
        else
            lost += (uint64_t)count;
        table->flows[kept] = table->flows[slot];
        table->counts[kept] = table->counts[slot];
        kept++;
    }
    memset(table->flows + kept, 0, sizeof *table->flows * (table->slots - kept));
    memset(table->counts + kept, 0, sizeof *table->counts * (table->slots - kept));
    figures->entries = kept;
    figures->lost = lost;
    figures->extra = extra;
}

struct figures baseline_peel(struct sketch *sketch, struct table *table, struct room *room, uint32_t allowance) {
    struct walk walk = start(sketch, room);
    struct figures figures;
    figures.ending = run(&walk, sketch, table, room, allowance);
    figures.pops = walk.pops;
    baseline_close(table, walk.entries, &figures);
    return figures;
}
