/* The calls of gabunlitik.h on the memory of a script, each with the line that says what it returned. */
#include "script.h"

#include <stdio.h>
#include <string.h>

/* The place of the call that is made; it is full of other bytes before, so that one which is not written is seen. */
static size_t place;

static struct sketch *chosen(struct given given) {
    return &memory.sketches[given.sketch];
}

/* Prints a refusal, and says whether there is one. `zeros` is whether all else that a refused call writes is 0. What is to be 0
 * and is not is printed too, so that it is seen. */
static int refused(uint32_t number, int zeros) {
    if (number == GABUNLITIK_DONE && place != 0)
        printf("place %zu ", place);
    if (number != GABUNLITIK_DONE && !zeros)
        printf("not zero ");
    if (number != GABUNLITIK_DONE)
        printf("refused %u at %zu\n", number, place);
    return number != GABUNLITIK_DONE;
}

static void done(uint32_t number) {
    if (!refused(number, 1))
        printf("done\n");
}

static void fresh(struct sketch *s) {
    done(gabunlitik_fresh(s->params, counts_of(&s->counts), s->counts.length, s->idsums.room, s->idsums.length, &place));
}

typedef uint32_t packets(const uint32_t *params, int32_t *counts, size_t counts_len, uint32_t *idsums, size_t idsums_len,
                         uint32_t flow, uint32_t number, size_t *place);

static void move(packets *call, struct given given) {
    struct sketch *s = chosen(given);
    done(call(s->params, counts_of(&s->counts), s->counts.length, s->idsums.room, s->idsums.length, operand(given, 0),
              operand(given, 1), &place));
}

static void insert_all(struct sketch *s) {
    done(gabunlitik_insert_all(s->params, counts_of(&s->counts), s->counts.length, s->idsums.room, s->idsums.length,
                               memory.packet_flows.room, memory.packet_flows.length, memory.packet_numbers.room,
                               memory.packet_numbers.length, &place));
}

typedef uint32_t sum(const uint32_t *params, const uint32_t *other_params, int32_t *counts, size_t counts_len,
                     uint32_t *idsums, size_t idsums_len, const int32_t *other_counts, size_t other_counts_len,
                     const uint32_t *other_idsums, size_t other_idsums_len, size_t *place);

static void combine(sum *call, struct given given) {
    struct sketch *s = chosen(given), *other = &memory.sketches[1 - given.sketch];
    done(call(s->params, other->params, counts_of(&s->counts), s->counts.length, s->idsums.room, s->idsums.length,
              counts_of(&other->counts), other->counts.length, other->idsums.room, other->idsums.length, &place));
}

static const char *ending_of(uint64_t ending) {
    switch (ending) {
    case GABUNLITIK_ENDED_CLEAN:
        return "clean";
    case GABUNLITIK_ENDED_STUCK:
        return "stuck";
    case GABUNLITIK_ENDED_SPENT:
        return "spent";
    case GABUNLITIK_ENDED_RANGE:
        return "range";
    case GABUNLITIK_ENDED_FULL:
        return "full";
    default:
        return "unknown";
    }
}

static void peel(struct given given) {
    struct sketch *s = chosen(given);
    uint64_t figures[GABUNLITIK_FIGURES];
    static const uint64_t none[GABUNLITIK_FIGURES];
    memset(figures, 0xa5, sizeof figures);
    uint32_t number = gabunlitik_peel(
        s->params, counts_of(&s->counts), s->counts.length, s->idsums.room, s->idsums.length, memory.table_flows.room,
        memory.table_flows.length, counts_of(&memory.table_counts), memory.table_counts.length, memory.queue.room,
        memory.queue.length, memory.marks.room, memory.marks.length, operand(given, 0), figures, &place);
    if (!refused(number, memcmp(figures, none, sizeof none) == 0))
        printf("entries %llu end %s pops %llu lost %llu extra %llu\n", (unsigned long long)figures[GABUNLITIK_ENTRIES],
               ending_of(figures[GABUNLITIK_ENDING]), (unsigned long long)figures[GABUNLITIK_POPS],
               (unsigned long long)figures[GABUNLITIK_LOST], (unsigned long long)figures[GABUNLITIK_EXTRA]);
}

/* The file that was last written, or as much of it as is lent. */
static size_t written_length(void) {
    return memory.written < memory.output_length ? memory.written : memory.output_length;
}

typedef uint32_t reading(const uint32_t *params, int32_t *counts, size_t counts_len, uint32_t *idsums, size_t idsums_len,
                         const uint8_t *bytes, size_t bytes_len, size_t *place);

static void read_file(reading *call, struct sketch *s, const uint8_t *bytes, size_t length) {
    done(call(s->params, counts_of(&s->counts), s->counts.length, s->idsums.room, s->idsums.length, bytes, length, &place));
}

/* A file that was written can be read back; the one before it where none was. */
static void written(uint32_t number, size_t length) {
    if (refused(number, length == 0))
        return;
    printf("%zu bytes\n", length);
    memory.written = length;
}

static void write_stream(struct sketch *s) {
    size_t length;
    memset(&length, 0xa5, sizeof length);
    uint32_t number = gabunlitik_write_stream(s->params, memory.packet_flows.room, memory.packet_flows.length,
                                              memory.packet_numbers.room, memory.packet_numbers.length, memory.output,
                                              memory.output_length, &length, &place);
    written(number, length);
}

static void write_sketch(struct sketch *s) {
    size_t length;
    memset(&length, 0xa5, sizeof length);
    uint32_t number = gabunlitik_write_sketch(s->params, counts_of(&s->counts), s->counts.length, s->idsums.room,
                                              s->idsums.length, memory.output, memory.output_length, &length, &place);
    written(number, length);
}

typedef uint32_t finding(const uint32_t *params, uint32_t array, uint32_t flow, size_t *found, size_t *place);

static void find(finding *call, struct given given) {
    size_t found;
    memset(&found, 0xa5, sizeof found);
    uint32_t number = call(chosen(given)->params, operand(given, 0), operand(given, 1), &found, &place);
    if (!refused(number, found == 0))
        printf("%zu\n", found);
}

static const uint32_t no_params[GABUNLITIK_PARAMS];

/* The answer of a call that gives parameters. */
static void show_params(const uint32_t *params) {
    printf("done d %u m %u pairs", params[GABUNLITIK_D], params[GABUNLITIK_M]);
    for (size_t i = 0; i < 4; i++)
        printf(" %u %u", params[GABUNLITIK_MULTIPLIERS + i], params[GABUNLITIK_OFFSETS + i]);
    printf(" prime %u fifth %u %u sort %u\n", params[GABUNLITIK_PRIME], params[GABUNLITIK_FIFTH_MULTIPLIER],
           params[GABUNLITIK_FIFTH_OFFSET], params[GABUNLITIK_SORT]);
}

static void head(const uint8_t *bytes, size_t length) {
    uint32_t params[GABUNLITIK_PARAMS];
    memset(params, 0xa5, sizeof params);
    uint32_t number = gabunlitik_read_head(bytes, length, params, &place);
    if (!refused(number, memcmp(params, no_params, sizeof params) == 0))
        show_params(params);
}

/* The room that a fold frees is to be zero. Later commands are lent the folded sketch alone, so that it is looked at here. */
static void fold(struct given given) {
    struct sketch *s = chosen(given);
    uint32_t params[GABUNLITIK_PARAMS];
    memset(params, 0xa5, sizeof params);
    uint32_t number = gabunlitik_fold(s->params, counts_of(&s->counts), s->counts.length, s->idsums.room, s->idsums.length,
                                      operand(given, 0), params, &place);
    if (refused(number, memcmp(params, no_params, sizeof params) == 0))
        return;
    size_t size = (size_t)params[GABUNLITIK_D] * params[GABUNLITIK_M];
    if (!zeros_from(&s->counts, size) || !zeros_from(&s->idsums, size))
        printf("not zero ");
    show_params(params);
    resize(s, params);
}

void call(struct given given) {
    struct sketch *s = chosen(given);
    memset(&place, 0xa5, sizeof place);
    switch (given.command) {
    case FRESH:
        fresh(s);
        break;
    case INSERT:
        move(gabunlitik_insert, given);
        break;
    case WITHDRAW:
        move(gabunlitik_withdraw, given);
        break;
    case INSERT_ALL:
        insert_all(s);
        break;
    case ADD:
        combine(gabunlitik_add, given);
        break;
    case SUBTRACT:
        combine(gabunlitik_subtract, given);
        break;
    case PEEL:
        peel(given);
        break;
    case READ_STREAM:
        read_file(gabunlitik_read_stream, s, after(given, 1), operand(given, 0));
        break;
    case READ_SKETCH:
        read_file(gabunlitik_read_sketch, s, after(given, 1), operand(given, 0));
        break;
    case READ_STREAM_BACK:
        read_file(gabunlitik_read_stream, s, memory.output, written_length());
        break;
    case READ_SKETCH_BACK:
        read_file(gabunlitik_read_sketch, s, memory.output, written_length());
        break;
    case WRITE_STREAM:
        write_stream(s);
        break;
    case WRITE_SKETCH:
        write_sketch(s);
        break;
    case POSITION:
        find(gabunlitik_position, given);
        break;
    case INDEX:
        find(gabunlitik_index, given);
        break;
    case HEAD:
        head(after(given, 1), operand(given, 0));
        break;
    case HEAD_BACK:
        head(memory.output, written_length());
        break;
    case FOLD:
        fold(given);
        break;
    default:
        break;
    }
}
