// Seeded data for the measurements: parameters, packets, streams and tables.
#include "data.h"

// Splitmix64: the same numbers for the same seed on every machine.
static uint64_t next_number(uint64_t *seed) {
    uint64_t z = *seed += 0x9e3779b97f4a7c15u;
    z = (z ^ z >> 30) * 0xbf58476d1ce4e5b9u;
    z = (z ^ z >> 27) * 0x94d049bb133111ebu;
    return z ^ z >> 31;
}

static uint32_t number_below(uint64_t *seed, uint32_t limit) {
    return (uint32_t)(next_number(seed) % limit);
}

struct params make_params(uint64_t *seed, uint32_t d, uint32_t m) {
    struct params params = {.d = d, .m = m};
    for (uint32_t i = 0; i < d; i++) {
        params.a[i] = 1 + number_below(seed, PRIME - 1);
        params.b[i] = number_below(seed, PRIME);
    }
    return params;
}

void add_fingerprints(struct params *params, uint64_t *seed) {
    params->fifth_a = 1 + number_below(seed, PRIME - 1);
    params->fifth_b = number_below(seed, PRIME);
}

// Any number but 0, which no flow has.
static uint32_t draw_flow(uint64_t *seed, uint32_t most_flow) {
    uint32_t flow;
    do
        flow = number_below(seed, most_flow + 1);
    while (flow == 0);
    return flow;
}

void make_packets(struct packets *packets, uint64_t *seed, size_t length, uint32_t most_flow, uint32_t most_number) {
    packets->length = length;
    for (size_t i = 0; i < length; i++) {
        packets->flows[i] = draw_flow(seed, most_flow);
        packets->numbers[i] = 1 + number_below(seed, most_number);
    }
}

static uint32_t power(uint32_t base, uint32_t exponent) {
    uint64_t result = 1;
    for (uint64_t square = base; exponent > 0; exponent /= 2, square = square * square % PRIME)
        if (exponent % 2)
            result = result * square % PRIME;
    return (uint32_t)result;
}

// A flow's value in array 1 is a * f + b modulo the prime; those at place 0 are the multiples of m.
void gather(struct packets *packets, uint64_t *seed, const struct params *params) {
    uint64_t inverse = power(params->a[0], PRIME - 2);
    for (size_t i = 0; i < packets->length; i++) {
        do {
            uint64_t value = (uint64_t)params->m * number_below(seed, PRIME / params->m);
            packets->flows[i] = (uint32_t)((value + PRIME - params->b[0]) % PRIME * inverse % PRIME);
        } while (packets->flows[i] == 0);
    }
}

void make_tables(struct entries *entries, uint64_t *seed, size_t slots, enum zeros zeros, uint32_t most_number) {
    size_t dropped = 0;
    for (size_t i = 0; i < MOST_BUCKETS; i++) {
        if (i % 2 == 0)
            dropped = number_below(seed, 2);
        int is_zero = zeros == HALF ? i % 2 == dropped : zeros == ALL_BUT_ONE && i % slots != slots - 1;
        int32_t number = 1 + (int32_t)number_below(seed, most_number);
        int is_extra = number_below(seed, 2) == 1;
        entries->flows[i] = draw_flow(seed, MOST_FLOW);
        entries->counts[i] = is_zero ? 0 : is_extra ? -number : number;
    }
}

static uint8_t *put_word(uint8_t *at, uint32_t word) {
    for (int shift = 24; shift >= 0; shift -= 8)
        *at++ = (uint8_t)(word >> shift);
    return at;
}

void make_stream(struct stream *stream, const struct params *params, const struct packets *packets) {
    uint8_t *at = stream->bytes;
    *at++ = has_fingerprints(params) ? FINGERPRINT_HEAD : HEAD;
    *at++ = (uint8_t)params->d;
    at = put_word(at, params->m);
    for (uint32_t i = 0; i < 4; i++)
        at = put_word(put_word(at, params->a[i]), params->b[i]);
    if (has_fingerprints(params))
        at = put_word(put_word(at, params->fifth_a), params->fifth_b);
    for (size_t i = 0; i < packets->length; i++) {
        *at++ = PACKETS;
        at = put_word(put_word(at, packets->flows[i]), packets->numbers[i]);
    }
    *at++ = END;
    at = put_word(at, (uint32_t)packets->length);
    stream->length = (size_t)(at - stream->bytes);
}
