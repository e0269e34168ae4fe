// The baseline: Fermat sketches as plain C has them, to measure the library against.
#ifndef BASELINE_H
#define BASELINE_H

#include <stddef.h>
#include <stdint.h>

#define PRIME 2147483647u
#define MOST_COUNT 2147483646
#define MOST_FLOW (PRIME - 1)

// Flows that leave room for a fingerprint in a number below the prime.
#define MOST_FINGERPRINT_FLOW 8388606u

// What a call answers, with the library's numbers.
enum refusal { DONE, PARAM, LENGTH, FLOW, COUNT, DAMAGE, RANGE, MISMATCH, FORM, FOLD };

// How a walk ends, with the library's numbers.
enum ending { CLEAN = 1, STUCK = 2, SPENT = 3, OUT_OF_RANGE = 5, FULL = 6 };

enum { HEAD_BYTES = 38, FINGERPRINT_HEAD_BYTES = 46, PACKETS_BYTES = 9, END_BYTES = 5 };

// The kinds of a stream's records. A head with fingerprints has the fifth pair too.
enum kind { HEAD = 1, PACKETS = 2, END = 4, FINGERPRINT_HEAD = 10 };

// The fifth pair is that of the fingerprints; both of its numbers are 0 where there are none.
struct params {
    uint32_t d;
    uint32_t m;
    uint32_t a[4];
    uint32_t b[4];
    uint32_t fifth_a;
    uint32_t fifth_b;
};

// Whoever makes a sketch has checked its parameters and gives it d * m counts and idsums: no call judges them again, save the fold.
struct sketch {
    struct params params;
    int32_t *counts;
    uint32_t *idsums;
};

struct table {
    uint32_t *flows;
    int32_t *counts;
    uint32_t slots;
};

// Memory for a walk: d * m places of queue and waiting, and cells, whose number is a power of two above the table's slots.
struct room {
    uint32_t *queue;
    uint8_t *waiting;
    uint32_t *cells;
    uint32_t cells_log2;
};

struct figures {
    enum ending ending;
    uint32_t entries;
    uint64_t lost;
    uint64_t extra;
    uint32_t pops;
};

// The word of an ending in a report.
static inline const char *word_of(enum ending ending) {
    switch (ending) {
    case CLEAN:
        return "clean";
    case STUCK:
        return "stuck";
    case SPENT:
        return "spent";
    case OUT_OF_RANGE:
        return "range";
    case FULL:
        return "full";
    }
    return "";
}

static inline uint32_t size_of(const struct params *params) {
    return params->d * params->m;
}

static inline int has_fingerprints(const struct params *params) {
    return params->fifth_a != 0;
}

static inline uint32_t most_flow(const struct params *params) {
    return has_fingerprints(params) ? MOST_FINGERPRINT_FLOW : MOST_FLOW;
}

static inline uint32_t fingerprint(const struct params *params, uint32_t flow) {
    return (uint32_t)(((uint64_t)params->fifth_a * flow + params->fifth_b) % PRIME) % 256;
}

// What is sketched of a flow: its number, with the fingerprint behind it where there are fingerprints; 0 for what is no flow.
static inline uint32_t sketched(const struct params *params, uint32_t flow) {
    if (!has_fingerprints(params))
        return flow <= MOST_FLOW ? flow : 0;
    return 1 <= flow && flow <= MOST_FINGERPRINT_FLOW ? flow << 8 | fingerprint(params, flow) : 0;
}

// Whether a number below the prime is what is sketched of a flow.
static inline int is_sketched(const struct params *params, uint32_t number) {
    if (!has_fingerprints(params))
        return number != 0;
    uint32_t flow = number >> 8;
    return 1 <= flow && flow <= MOST_FINGERPRINT_FLOW && fingerprint(params, flow) == number % 256;
}

// The flow of which a number is sketched.
static inline uint32_t flow_sketched_as(const struct params *params, uint32_t number) {
    return has_fingerprints(params) ? number >> 8 : number;
}

// Where a number that is sketched stands in an array.
static inline uint32_t position(const struct params *params, uint32_t array, uint32_t number) {
    return (uint32_t)(((uint64_t)params->a[array] * number + params->b[array]) % PRIME) % params->m;
}

static inline uint32_t add_idsums(uint32_t s, uint32_t t) {
    uint32_t sum = s + t;
    return sum < PRIME ? sum : sum - PRIME;
}

static inline uint32_t subtract_idsums(uint32_t s, uint32_t t) {
    return s < t ? s + PRIME - t : s - t;
}

static inline int is_within(int64_t count) {
    return -MOST_COUNT <= count && count <= MOST_COUNT;
}

static inline uint32_t word_at(const uint8_t *bytes) {
    return (uint32_t)bytes[0] << 24 | (uint32_t)bytes[1] << 16 | (uint32_t)bytes[2] << 8 | bytes[3];
}

// The buckets of a number that is sketched.
static inline void find_buckets(const struct params *params, uint32_t number, uint32_t buckets[4]) {
    for (uint32_t array = 0; array < params->d; array++)
        buckets[array] = array * params->m + position(params, array, number);
}

// A refusal goes with a place: the index of the bucket at fault, or the offset of a stream's record.
// Inlined, so that loops over packets pay for no call.
static inline enum refusal insert_packets(struct sketch *sketch, uint32_t flow, uint32_t number, size_t *place) {
    uint32_t in_sketch = sketched(&sketch->params, flow);
    if (in_sketch == 0)
        return FLOW;
    if (number < 1 || number >= PRIME)
        return COUNT;
    uint32_t buckets[4];
    uint32_t d = sketch->params.d;
    find_buckets(&sketch->params, in_sketch, buckets);
    for (uint32_t array = 0; array < d; array++) {
        if (!is_within((int64_t)sketch->counts[buckets[array]] + number)) {
            *place = buckets[array];
            return RANGE;
        }
    }
    uint32_t weight = (uint32_t)((uint64_t)number * in_sketch % PRIME);
    for (uint32_t array = 0; array < d; array++) {
        sketch->counts[buckets[array]] += (int32_t)number;
        sketch->idsums[buckets[array]] = add_idsums(sketch->idsums[buckets[array]], weight);
    }
    return DONE;
}

enum refusal baseline_insert(struct sketch *sketch, uint32_t flow, uint32_t number, size_t *place);
enum refusal baseline_insert_all(struct sketch *sketch, const uint32_t *flows, const uint32_t *numbers, size_t packets,
                                 size_t *place);
enum refusal baseline_subtract(struct sketch *sketch, const struct sketch *other, size_t *place);

// Adds bucket j of each array into bucket j mod m2, within the sketch's own memory, and zeros what is freed behind. A sketch that is folded
// was stored, maybe by others: here all is judged that the library judges, parameters, lengths and damage too.
enum refusal baseline_fold(struct sketch *sketch, size_t counts_length, size_t idsums_length, uint32_t m2, size_t *place);

// How long a head of this kind is, or 0 for a kind that is no head's.
static inline size_t head_bytes(uint8_t kind) {
    return kind == HEAD ? HEAD_BYTES : kind == FINGERPRINT_HEAD ? FINGERPRINT_HEAD_BYTES : 0;
}

// Reads the parameters of a head that is whole, and says whether they keep the rules.
enum refusal baseline_read_head(const uint8_t *bytes, struct params *params);
enum refusal baseline_read_stream(struct sketch *sketch, const uint8_t *bytes, size_t length, size_t *place);

struct figures baseline_peel(struct sketch *sketch, struct table *table, struct room *room, uint32_t allowance);

// Drops the entries that have become 0, sums up the others, and zeros the slots past them.
void baseline_close(struct table *table, uint32_t entries, struct figures *figures);

#endif
