// Each operation as the library does it, through its C face, and as the baseline does it.
#include "sides.h"

#include "close_alone.h"
#include "gabunlitik.h"

#include <string.h>

enum { CELLS_LOG2 = 17 };

// What a walk needs beside the sketch and the table. Neither side reads what it held before.
static uint32_t queue[MOST_BUCKETS];
static uint32_t marks[MOST_BUCKETS];
static uint8_t waiting[MOST_BUCKETS];
static uint32_t cells[1 << CELLS_LOG2];

// The parameters as the face takes them.
struct words {
    uint32_t words[GABUNLITIK_PARAMS];
};

static struct words words_of(const struct params *params) {
    struct words w = {{
        [GABUNLITIK_D] = params->d,
        [GABUNLITIK_M] = params->m,
        [GABUNLITIK_PRIME] = 1,
        [GABUNLITIK_FIFTH_MULTIPLIER] = params->fifth_a,
        [GABUNLITIK_FIFTH_OFFSET] = params->fifth_b,
    }};
    for (int i = 0; i < 4; i++) {
        w.words[GABUNLITIK_MULTIPLIERS + i] = params->a[i];
        w.words[GABUNLITIK_OFFSETS + i] = params->b[i];
    }
    return w;
}

static struct params params_of(const struct words *w) {
    struct params params = {
        .d = w->words[GABUNLITIK_D],
        .m = w->words[GABUNLITIK_M],
        .fifth_a = w->words[GABUNLITIK_FIFTH_MULTIPLIER],
        .fifth_b = w->words[GABUNLITIK_FIFTH_OFFSET],
    };
    for (int i = 0; i < 4; i++) {
        params.a[i] = w->words[GABUNLITIK_MULTIPLIERS + i];
        params.b[i] = w->words[GABUNLITIK_OFFSETS + i];
    }
    return params;
}

static struct sketch sketch_of(const struct given *given, struct side *side) {
    return (struct sketch){given->params, side->counts, side->idsums};
}

static void start_sketch(const struct given *given, struct side *side) {
    memcpy(side->counts, given->start_counts, sizeof *side->counts * size_of(&given->params));
    memcpy(side->idsums, given->start_idsums, sizeof *side->idsums * size_of(&given->params));
}

static void start_tables(const struct given *given, struct side *side) {
    memcpy(side->table_flows, given->entries.flows, sizeof side->table_flows);
    memcpy(side->table_counts, given->entries.counts, sizeof side->table_counts);
}

static void our_insert(const struct given *given, struct side *side) {
    struct words w = words_of(&given->params);
    size_t n = size_of(&given->params);
    side->answer = DONE;
    for (size_t i = 0; i < given->packets.length && side->answer == DONE; i++)
        side->answer = gabunlitik_insert(w.words, side->counts, n, side->idsums, n, given->packets.flows[i],
                                         given->packets.numbers[i], &side->place);
}

static void baseline_insert_each(const struct given *given, struct side *side) {
    struct sketch sketch = sketch_of(given, side);
    side->answer = DONE;
    for (size_t i = 0; i < given->packets.length && side->answer == DONE; i++)
        side->answer =
            baseline_insert(&sketch, given->packets.flows[i], given->packets.numbers[i], &side->place);
}

static void our_insert_all(const struct given *given, struct side *side) {
    struct words w = words_of(&given->params);
    size_t n = size_of(&given->params);
    const struct packets *packets = &given->packets;
    side->answer = gabunlitik_insert_all(w.words, side->counts, n, side->idsums, n, packets->flows, packets->length,
                                         packets->numbers, packets->length, &side->place);
}

static void baseline_insert_all_at_once(const struct given *given, struct side *side) {
    struct sketch sketch = sketch_of(given, side);
    const struct packets *packets = &given->packets;
    side->answer = baseline_insert_all(&sketch, packets->flows, packets->numbers, packets->length, &side->place);
}

static void our_read_stream(const struct given *given, struct side *side) {
    struct words w = words_of(&given->params);
    size_t n = size_of(&given->params);
    side->answer = gabunlitik_read_stream(w.words, side->counts, n, side->idsums, n, given->stream.bytes,
                                          given->stream.length, &side->place);
}

static void baseline_read_whole_stream(const struct given *given, struct side *side) {
    struct sketch sketch = sketch_of(given, side);
    side->answer = baseline_read_stream(&sketch, given->stream.bytes, given->stream.length, &side->place);
}

static void our_subtract(const struct given *given, struct side *side) {
    struct words w = words_of(&given->params);
    size_t n = size_of(&given->params);
    side->answer = gabunlitik_subtract(w.words, w.words, side->counts, n, side->idsums, n, given->other_counts, n,
                                       given->other_idsums, n, &side->place);
}

static void baseline_subtract_other(const struct given *given, struct side *side) {
    struct sketch sketch = sketch_of(given, side);
    struct sketch other = {given->params, (int32_t *)given->other_counts, (uint32_t *)given->other_idsums};
    side->answer = baseline_subtract(&sketch, &other, &side->place);
}

static void our_fold(const struct given *given, struct side *side) {
    struct words w = words_of(&given->params), folded;
    size_t n = size_of(&given->params);
    side->answer = gabunlitik_fold(w.words, side->counts, n, side->idsums, n, given->m2, folded.words, &side->place);
    side->folded = params_of(&folded);
}

static void baseline_fold_sketch(const struct given *given, struct side *side) {
    struct sketch sketch = sketch_of(given, side);
    size_t n = size_of(&given->params);
    side->answer = baseline_fold(&sketch, n, n, given->m2, &side->place);
    side->folded = side->answer == DONE ? sketch.params : (struct params){0};
}

// As many pops and slots as the report program allows.
static void our_peel(const struct given *given, struct side *side) {
    struct words w = words_of(&given->params);
    size_t n = size_of(&given->params);
    uint64_t told[GABUNLITIK_FIGURES];
    side->answer = gabunlitik_peel(w.words, side->counts, n, side->idsums, n, side->table_flows, n, side->table_counts, n,
                                   queue, n, marks, n, 8 * (uint32_t)n, told, &side->place);
    side->figures = (struct figures){
        .ending = (enum ending)told[GABUNLITIK_ENDING],
        .entries = (uint32_t)told[GABUNLITIK_ENTRIES],
        .lost = told[GABUNLITIK_LOST],
        .extra = told[GABUNLITIK_EXTRA],
        .pops = (uint32_t)told[GABUNLITIK_POPS],
    };
}

// The cells are the fewest that are at least twice the slots, so that clearing them costs no more than it must.
static void baseline_peel_whole(const struct given *given, struct side *side) {
    struct sketch sketch = sketch_of(given, side);
    uint32_t n = size_of(&given->params);
    struct table table = {side->table_flows, side->table_counts, n};
    struct room room = {queue, waiting, cells, 1};
    while (1u << room.cells_log2 < 2 * n)
        room.cells_log2++;
    side->answer = DONE;
    side->figures = baseline_peel(&sketch, &table, &room, 8 * n);
}

static void add_figures(struct figures *sums, const struct figures *figures) {
    sums->entries += figures->entries;
    sums->lost += figures->lost;
    sums->extra += figures->extra;
}

// As many entries as there can be, in tables of d * m slots.
static void our_close_tables(const struct given *given, struct side *side) {
    size_t slots = size_of(&given->params);
    side->answer = DONE;
    side->figures = (struct figures){0};
    for (size_t first = 0; first + slots <= MOST_BUCKETS; first += slots) {
        uint64_t told[CLOSE_FIGURES] = {0};
        close_alone(side->table_flows + first, slots, side->table_counts + first, slots, slots, told);
        struct figures figures = {
            .entries = (uint32_t)told[CLOSE_ENTRIES], .lost = told[CLOSE_LOST], .extra = told[CLOSE_EXTRA]};
        add_figures(&side->figures, &figures);
    }
}

static void baseline_close_tables(const struct given *given, struct side *side) {
    uint32_t slots = size_of(&given->params);
    side->answer = DONE;
    side->figures = (struct figures){0};
    for (size_t first = 0; first + slots <= MOST_BUCKETS; first += slots) {
        struct table table = {side->table_flows + first, side->table_counts + first, slots};
        struct figures figures;
        baseline_close(&table, slots, &figures);
        add_figures(&side->figures, &figures);
    }
}

const struct operation insert = {"insert", start_sketch, our_insert, baseline_insert_each};
const struct operation insert_all = {"insert_all", start_sketch, our_insert_all, baseline_insert_all_at_once};
const struct operation read_stream = {"read_stream", start_sketch, our_read_stream, baseline_read_whole_stream};
const struct operation subtract = {"subtract", start_sketch, our_subtract, baseline_subtract_other};
const struct operation peel = {"peel", start_sketch, our_peel, baseline_peel_whole};
const struct operation fold = {"fold", start_sketch, our_fold, baseline_fold_sketch};
const struct operation close_tables = {"close", start_tables, our_close_tables, baseline_close_tables};
