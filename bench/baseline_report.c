// The report program in plain C: two streams from standard input, read through a buffer; the table of lost flows out.
#include "baseline.h"

#include <stdio.h>
#include <string.h>
#include <unistd.h>

enum { MOST_BUCKETS = 1536, CELLS_LOG2 = 12, BUFFER_BYTES = 65536 };

// The part of the input that is at hand, and the offset of its first byte.
struct input {
    uint8_t bytes[BUFFER_BYTES];
    uint8_t *next;
    uint8_t *end;
    uint64_t offset;
};

struct memory {
    int32_t counts[MOST_BUCKETS];
    uint32_t idsums[MOST_BUCKETS];
};

static struct input input = {.next = input.bytes, .end = input.bytes};
static struct memory upstream_memory, downstream_memory;

// Moves what is left to the front and reads on behind it, until the buffer is full or the input ends.
static void read_on(void) {
    size_t held = (size_t)(input.end - input.next);
    memmove(input.bytes, input.next, held);
    input.next = input.bytes;
    input.end = input.bytes + held;
    while (input.end < input.bytes + BUFFER_BYTES) {
        long got = read(0, input.end, (size_t)(input.bytes + BUFFER_BYTES - input.end));
        if (got <= 0)
            return;
        input.end += got;
    }
}

// Whether so many bytes of the input are left; they are then at hand.
static int is_at_hand(size_t bytes) {
    if ((size_t)(input.end - input.next) < bytes)
        read_on();
    return (size_t)(input.end - input.next) >= bytes;
}

static void go_on(size_t bytes) {
    input.next += bytes;
    input.offset += bytes;
}

// Reads a head, and leaves it to the caller to go on.
static enum refusal read_head(struct params *params) {
    if (!is_at_hand(1) || head_bytes(input.next[0]) == 0 || !is_at_hand(head_bytes(input.next[0])))
        return FORM;
    enum refusal refusal = baseline_read_head(input.next, params);
    if (refusal == DONE && size_of(params) > MOST_BUCKETS)
        refusal = PARAM;
    return refusal;
}

// The packets of a stream and its end, at most one of them past what is at hand.
static enum refusal take_records(struct sketch *sketch) {
    uint64_t records = 0;
    size_t bucket;
    while (is_at_hand(PACKETS_BYTES) && input.next[0] == PACKETS) {
        enum refusal refusal = insert_packets(sketch, word_at(input.next + 1), word_at(input.next + 5), &bucket);
        if (refusal != DONE)
            return refusal;
        go_on(PACKETS_BYTES);
        records++;
    }
    if (!is_at_hand(END_BYTES) || input.next[0] != END || word_at(input.next + 1) != records)
        return FORM;
    go_on(END_BYTES);
    return DONE;
}

static enum refusal take_both(struct sketch *upstream, struct sketch *downstream) {
    enum refusal refusal = read_head(&upstream->params);
    if (refusal != DONE)
        return refusal;
    go_on(head_bytes(input.next[0]));
    refusal = take_records(upstream);
    if (refusal != DONE)
        return refusal;
    refusal = read_head(&downstream->params);
    if (refusal != DONE)
        return refusal;
    if (memcmp(&upstream->params, &downstream->params, sizeof upstream->params) != 0)
        return MISMATCH;
    go_on(head_bytes(input.next[0]));
    refusal = take_records(downstream);
    if (refusal != DONE)
        return refusal;
    return is_at_hand(1) ? FORM : DONE;
}

static void print_walk(const struct sketch *sketch, const struct table *table, struct figures figures) {
    for (uint32_t slot = 0; slot < figures.entries; slot++)
        printf("loss %u %d\n", table->flows[slot], table->counts[slot]);
    for (uint32_t k = 0; k < size_of(&sketch->params); k++)
        if (sketch->counts[k] != 0 || sketch->idsums[k] != 0)
            printf("left %u %d %u\n", k, sketch->counts[k], sketch->idsums[k]);
    printf("end %s pops %u lost %lu extra %lu\n", word_of(figures.ending), figures.pops, figures.lost, figures.extra);
}

static void peel_and_print(struct sketch *sketch) {
    static struct memory table_memory;
    static uint32_t queue[MOST_BUCKETS];
    static uint8_t waiting[MOST_BUCKETS];
    static uint32_t cells[1 << CELLS_LOG2];
    struct table table = {table_memory.idsums, table_memory.counts, size_of(&sketch->params)};
    struct room room = {queue, waiting, cells, CELLS_LOG2};
    struct figures figures = baseline_peel(sketch, &table, &room, 8 * size_of(&sketch->params));
    print_walk(sketch, &table, figures);
}

int main(void) {
    struct sketch upstream = {.counts = upstream_memory.counts, .idsums = upstream_memory.idsums};
    struct sketch downstream = {.counts = downstream_memory.counts, .idsums = downstream_memory.idsums};
    size_t bucket;
    enum refusal refusal = take_both(&upstream, &downstream);
    if (refusal != DONE) {
        printf("refused %d at %lu\n", refusal, input.offset);
        return 0;
    }
    baseline_subtract(&upstream, &downstream, &bucket);
    peel_and_print(&upstream);
    return 0;
}
