// Seeded data for the measurements: parameters, packets, streams and tables.
#ifndef DATA_H
#define DATA_H

#include "baseline.h"

enum { MOST_BUCKETS = 65536, MOST_PACKETS = 65536 };

// Packets of flows, each flow by its number.
struct packets {
    size_t length;
    uint32_t flows[MOST_PACKETS];
    uint32_t numbers[MOST_PACKETS];
};

struct stream {
    size_t length;
    uint8_t bytes[FINGERPRINT_HEAD_BYTES + PACKETS_BYTES * MOST_PACKETS + END_BYTES];
};

struct params make_params(uint64_t *seed, uint32_t d, uint32_t m);

// Draws the pair of the fingerprints.
void add_fingerprints(struct params *params, uint64_t *seed);

// Flows anywhere from 1 to most_flow, each by 1 to most_number packets.
void make_packets(struct packets *packets, uint64_t *seed, size_t length, uint32_t most_flow, uint32_t most_number);

// Puts other flows in their stead that all stand at one place of array 1, for parameters without fingerprints.
void gather(struct packets *packets, uint64_t *seed, const struct params *params);

// Which entries of a table have come to 0: none, one of each two neighbours, or all but the last.
enum zeros { NONE, HALF, ALL_BUT_ONE };

// Flows in the order of first takes, each with its count.
struct entries {
    uint32_t flows[MOST_BUCKETS];
    int32_t counts[MOST_BUCKETS];
};

// Full tables of so many slots each, as many as there is room for. A count that is not 0 is 1 to most_number, lost or extra.
void make_tables(struct entries *entries, uint64_t *seed, size_t slots, enum zeros zeros, uint32_t most_number);

void make_stream(struct stream *stream, const struct params *params, const struct packets *packets);

#endif
