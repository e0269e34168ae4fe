// Packets put into a sketch one by one, many at once or from a stream, the difference of two sketches, and a sketch folded.
#include "baseline.h"

#include <string.h>

// Takes out packets that were put in before: no limit is in reach.
static void withdraw(struct sketch *sketch, uint32_t flow, uint32_t number) {
    uint32_t buckets[4];
    uint32_t in_sketch = sketched(&sketch->params, flow);
    find_buckets(&sketch->params, in_sketch, buckets);
    uint32_t weight = (uint32_t)((uint64_t)number * in_sketch % PRIME);
    for (uint32_t array = 0; array < sketch->params.d; array++) {
        sketch->counts[buckets[array]] -= (int32_t)number;
        sketch->idsums[buckets[array]] = subtract_idsums(sketch->idsums[buckets[array]], weight);
    }
}

enum refusal baseline_insert(struct sketch *sketch, uint32_t flow, uint32_t number, size_t *place) {
    *place = 0;
    return insert_packets(sketch, flow, number, place);
}

enum refusal baseline_insert_all(struct sketch *sketch, const uint32_t *flows, const uint32_t *numbers, size_t packets,
                                 size_t *place) {
    *place = 0;
    for (size_t i = 0; i < packets; i++) {
        enum refusal refusal = insert_packets(sketch, flows[i], numbers[i], place);
        if (refusal != DONE) {
            while (i-- > 0)
                withdraw(sketch, flows[i], numbers[i]);
            return refusal;
        }
    }
    return DONE;
}

enum refusal baseline_subtract(struct sketch *sketch, const struct sketch *other, size_t *place) {
    *place = 0;
    if (memcmp(&sketch->params, &other->params, sizeof sketch->params) != 0)
        return MISMATCH;
    uint32_t size = size_of(&sketch->params);
    for (uint32_t k = 0; k < size; k++) {
        if (!is_within((int64_t)sketch->counts[k] - other->counts[k])) {
            *place = k;
            return RANGE;
        }
    }
    for (uint32_t k = 0; k < size; k++) {
        sketch->counts[k] -= other->counts[k];
        sketch->idsums[k] = subtract_idsums(sketch->idsums[k], other->idsums[k]);
    }
    return DONE;
}

static int is_pair_in_use(uint32_t a, uint32_t b) {
    return a >= 1 && a < PRIME && b < PRIME;
}

static int keep_the_rules(const struct params *params) {
    if (params->d < 2 || params->d > 4 || params->m < 1 || params->m > 16384)
        return 0;
    for (uint32_t i = 0; i < 4; i++) {
        uint32_t a = params->a[i], b = params->b[i];
        if (i < params->d ? !is_pair_in_use(a, b) : a != 0 || b != 0)
            return 0;
        for (uint32_t j = 0; i < params->d && j < i; j++)
            if (params->a[j] == a && params->b[j] == b)
                return 0;
    }
    if (has_fingerprints(params))
        return is_pair_in_use(params->fifth_a, params->fifth_b);
    return params->fifth_b == 0;
}

// The lowest damaged bucket, or the size of the sketch where there is none.
static uint32_t find_damage(const struct sketch *sketch) {
    uint32_t size = size_of(&sketch->params);
    uint32_t k = 0;
    while (k < size && is_within(sketch->counts[k]) && sketch->idsums[k] < PRIME)
        k++;
    return k;
}

// The sum of the counts that meet in bucket j: those of buckets j, j + m2, and so on.
static int64_t sum_counts(const int32_t *counts, uint32_t m, uint32_t m2, uint32_t j) {
    int64_t sum = 0;
    for (uint32_t k = j; k < m; k += m2)
        sum += counts[k];
    return sum;
}

static uint32_t sum_idsums(const uint32_t *idsums, uint32_t m, uint32_t m2, uint32_t j) {
    uint64_t sum = 0;
    for (uint32_t k = j; k < m; k += m2)
        sum += idsums[k];
    return (uint32_t)(sum % PRIME);
}

// The lowest bucket of the folded sketch that would leave the limits, or the size of that sketch where there is none.
static uint32_t find_leaving(const struct sketch *sketch, uint32_t m2) {
    uint32_t m = sketch->params.m;
    for (uint32_t array = 0; array < sketch->params.d; array++)
        for (uint32_t j = 0; j < m2; j++)
            if (!is_within(sum_counts(sketch->counts + array * m, m, m2, j)))
                return array * m2 + j;
    return sketch->params.d * m2;
}

// In rising order: what a bucket holds goes into that bucket or into one before it, so that it is read before it is written over.
static void fold_buckets(struct sketch *sketch, uint32_t m2) {
    uint32_t m = sketch->params.m;
    for (uint32_t array = 0; array < sketch->params.d; array++) {
        for (uint32_t j = 0; j < m2; j++) {
            sketch->counts[array * m2 + j] = (int32_t)sum_counts(sketch->counts + array * m, m, m2, j);
            sketch->idsums[array * m2 + j] = sum_idsums(sketch->idsums + array * m, m, m2, j);
        }
    }
}

enum refusal baseline_fold(struct sketch *sketch, size_t counts_length, size_t idsums_length, uint32_t m2, size_t *place) {
    struct params *params = &sketch->params;
    *place = 0;
    if (!keep_the_rules(params))
        return PARAM;
    uint32_t size = size_of(params);
    if (counts_length != size || idsums_length != size)
        return LENGTH;
    if (m2 == 0 || params->m % m2 != 0)
        return FOLD;
    uint32_t folded_size = params->d * m2;
    *place = find_damage(sketch);
    if (*place < size)
        return DAMAGE;
    *place = find_leaving(sketch, m2);
    if (*place < folded_size)
        return RANGE;
    *place = 0;
    fold_buckets(sketch, m2);
    memset(sketch->counts + folded_size, 0, sizeof *sketch->counts * (size - folded_size));
    memset(sketch->idsums + folded_size, 0, sizeof *sketch->idsums * (size - folded_size));
    params->m = m2;
    return DONE;
}

enum refusal baseline_read_head(const uint8_t *bytes, struct params *params) {
    params->d = bytes[1];
    params->m = word_at(bytes + 2);
    for (uint32_t i = 0; i < 4; i++) {
        params->a[i] = word_at(bytes + 6 + 8 * i);
        params->b[i] = word_at(bytes + 10 + 8 * i);
    }
    params->fifth_a = bytes[0] == FINGERPRINT_HEAD ? word_at(bytes + 38) : 0;
    params->fifth_b = bytes[0] == FINGERPRINT_HEAD ? word_at(bytes + 42) : 0;
    // A head with fingerprints that has no multiplier for them is not one without them.
    if (bytes[0] == FINGERPRINT_HEAD && params->fifth_a == 0)
        return PARAM;
    return keep_the_rules(params) ? DONE : PARAM;
}

// A whole end that says how many records stood since the head, and no byte after it.
static enum refusal judge_end(const uint8_t *bytes, size_t length, size_t at, size_t records, size_t *place) {
    *place = at;
    if (length - at < END_BYTES || bytes[at] != END || word_at(bytes + at + 1) != records)
        return FORM;
    *place = at + END_BYTES;
    return length - at > END_BYTES ? FORM : DONE;
}

// Takes out the packets of the records that stand from a place on.
static void withdraw_records(struct sketch *sketch, const uint8_t *bytes, size_t records) {
    while (records-- > 0) {
        const uint8_t *record = bytes + PACKETS_BYTES * records;
        withdraw(sketch, word_at(record + 1), word_at(record + 5));
    }
}

static enum refusal read_records(struct sketch *sketch, const uint8_t *bytes, size_t length, size_t *place) {
    size_t first = head_bytes(bytes[0]), at = first;
    size_t records = 0;
    enum refusal refusal = DONE;
    while (length - at >= PACKETS_BYTES && bytes[at] == PACKETS) {
        refusal = insert_packets(sketch, word_at(bytes + at + 1), word_at(bytes + at + 5), place);
        if (refusal != DONE) {
            *place = at;
            break;
        }
        at += PACKETS_BYTES;
        records++;
    }
    if (refusal == DONE)
        refusal = judge_end(bytes, length, at, records, place);
    if (refusal != DONE)
        withdraw_records(sketch, bytes + first, records);
    return refusal;
}

enum refusal baseline_read_stream(struct sketch *sketch, const uint8_t *bytes, size_t length, size_t *place) {
    *place = 0;
    if (length == 0 || head_bytes(bytes[0]) == 0 || length < head_bytes(bytes[0]))
        return FORM;
    struct params params;
    enum refusal refusal = baseline_read_head(bytes, &params);
    if (refusal != DONE)
        return refusal;
    if (memcmp(&params, &sketch->params, sizeof params) != 0)
        return MISMATCH;
    return read_records(sketch, bytes, length, place);
}
