// The library and the baseline, called in one way: what a call is given, and what each side has of its own.
#ifndef SIDES_H
#define SIDES_H

#include "data.h"

// What both sides are given. No call changes it.
struct given {
    struct params params;
    uint32_t m2;
    struct packets packets;
    struct stream stream;
    int32_t start_counts[MOST_BUCKETS];
    uint32_t start_idsums[MOST_BUCKETS];
    int32_t other_counts[MOST_BUCKETS];
    uint32_t other_idsums[MOST_BUCKETS];
    struct entries entries;
};

// A side's own memory, and what its last call answered.
struct side {
    int32_t counts[MOST_BUCKETS];
    uint32_t idsums[MOST_BUCKETS];
    uint32_t table_flows[MOST_BUCKETS];
    int32_t table_counts[MOST_BUCKETS];
    uint32_t answer;
    size_t place;
    struct figures figures;
    struct params folded;
};

typedef void call(const struct given *given, struct side *side);

// The same work done by either side; `start` sets a side up before each run.
struct operation {
    const char *name;
    call *start;
    call *ours;
    call *baseline;
};

extern const struct operation insert, insert_all, read_stream, subtract, peel, fold, close_tables;

#endif
