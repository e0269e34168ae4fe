// Seeded walks and crowded buckets, tallied: the figures of docs/CAPACITY.md.
#include "data.h"

#include <stdio.h>
#include <stdlib.h>
#include <string.h>

enum { CELLS_LOG2 = 17, MOST_ENDING = FULL, MOST_CROWD = 8 };

// Without fingerprints, of flows anywhere; without them, of the flows that fingerprints leave room for; with them. Behind it those whose
// fifth pair is not drawn: its multiplier is a number, or that of pair 1 by 256, or the pair is pair 1.
enum profile { PLAIN, NARROW, FINGERPRINTS, BY_1, BY_2, BY_3, BY_256, BY_MINUS_256, BY_256_OF_PAIR_1, AS_PAIR_1, PROFILES };

// Walks of one setting differ in their seed alone. A flow loses least to most packets; the allowance is pops a bucket.
struct setting {
    enum profile profile;
    uint32_t d;
    uint32_t m;
    uint32_t pops;
    uint32_t flows;
    uint32_t least;
    uint32_t most;
};

// Flows with their numbers, rising: a flow in the upper half of a word, its number in the lower.
struct list {
    size_t length;
    uint64_t entries[MOST_BUCKETS];
};

// Listed entries, right ones and the buckets that are left are summed over the walks of an ending.
struct tally {
    uint64_t walks[MOST_ENDING + 1];
    uint64_t listed[MOST_ENDING + 1];
    uint64_t right[MOST_ENDING + 1];
    uint64_t left[MOST_ENDING + 1];
    uint64_t wrong_clean;
    uint64_t clean_pops;
    uint64_t told_apart;
};

static const char *const profile_words[] = {"plain", "narrow",       "fingerprints",     "by_1",     "by_2", "by_3",
                                            "by_256", "by_minus_256", "by_256_of_pair_1", "as_pair_1"};

static struct packets packets;
static struct list lost, listed;
static int32_t counts[MOST_BUCKETS], table_counts[MOST_BUCKETS];
static uint32_t idsums[MOST_BUCKETS], table_flows[MOST_BUCKETS];
static uint32_t queue[MOST_BUCKETS], cells[1 << CELLS_LOG2];
static uint8_t waiting[MOST_BUCKETS];

static uint64_t entry_of(uint32_t flow, uint32_t number) {
    return (uint64_t)flow << 32 | number;
}

static uint32_t flow_of_entry(uint64_t entry) {
    return (uint32_t)(entry >> 32);
}

static int compare_entries(const void *left, const void *right) {
    uint64_t x = *(const uint64_t *)left, y = *(const uint64_t *)right;
    return (x > y) - (x < y);
}

static void sort(struct list *list) {
    qsort(list->entries, list->length, sizeof *list->entries, compare_entries);
}

static uint32_t most_flow_of(enum profile profile) {
    return profile == PLAIN ? MOST_FLOW : MOST_FINGERPRINT_FLOW;
}

static void choose_fifth(enum profile profile, struct params *params) {
    static const uint32_t multipliers[PROFILES] = {
        [BY_1] = 1, [BY_2] = 2, [BY_3] = 3, [BY_256] = 256, [BY_MINUS_256] = PRIME - 256};
    if (multipliers[profile] != 0)
        params->fifth_a = multipliers[profile];
    if (profile == BY_256_OF_PAIR_1)
        params->fifth_a = (uint32_t)(256ull * params->a[0] % PRIME);
    if (profile == AS_PAIR_1) {
        params->fifth_a = params->a[0];
        params->fifth_b = params->b[0];
    }
}

// The pair of the fingerprints has numbers of its own, so that a seed has the same flows in the profiles that have the same range.
static struct params draw_params(enum profile profile, uint64_t *seed, uint32_t d, uint32_t m) {
    uint64_t own_seed = ~*seed;
    struct params params = make_params(seed, d, m);
    if (profile >= FINGERPRINTS)
        add_fingerprints(&params, &own_seed);
    choose_fifth(profile, &params);
    return params;
}

// Draws the lost flows. One that is drawn twice loses the packets of both: it has one right entry.
static void draw_lost(const struct setting *setting, uint64_t *seed) {
    make_packets(&packets, seed, setting->flows, most_flow_of(setting->profile), setting->most - setting->least + 1);
    lost.length = setting->flows;
    for (size_t i = 0; i < lost.length; i++)
        lost.entries[i] = entry_of(packets.flows[i], packets.numbers[i] + setting->least - 1);
    sort(&lost);
    size_t kept = 0;
    for (size_t i = 0; i < lost.length; i++) {
        if (kept > 0 && flow_of_entry(lost.entries[kept - 1]) == flow_of_entry(lost.entries[i]))
            lost.entries[kept - 1] += (uint32_t)lost.entries[i];
        else
            lost.entries[kept++] = lost.entries[i];
    }
    lost.length = kept;
}

static struct sketch fresh(const struct params *params) {
    memset(counts, 0, sizeof *counts * size_of(params));
    memset(idsums, 0, sizeof *idsums * size_of(params));
    return (struct sketch){*params, counts, idsums};
}

// Nothing here comes near a limit; were a flow refused all the same, no figure would be worth printing.
static void insert(struct sketch *sketch, uint32_t flow, uint32_t number) {
    size_t place;
    if (baseline_insert(sketch, flow, number, &place) != DONE)
        exit(1);
}

// Cells enough for the table, and no more: a walk clears them all.
static uint32_t cells_log2(uint32_t slots) {
    uint32_t log2 = 1;
    while (1u << log2 <= slots)
        log2++;
    return log2;
}

static struct figures peel(struct sketch *sketch, uint32_t allowance) {
    uint32_t size = size_of(&sketch->params);
    struct table table = {table_flows, table_counts, size};
    struct room room = {queue, waiting, cells, cells_log2(size)};
    return baseline_peel(sketch, &table, &room, allowance);
}

// The difference of a seed: the sketch of the lost flows.
static struct sketch difference(const struct setting *setting, uint64_t seed) {
    struct params params = draw_params(setting->profile, &seed, setting->d, setting->m);
    draw_lost(setting, &seed);
    struct sketch sketch = fresh(&params);
    for (size_t i = 0; i < lost.length; i++)
        insert(&sketch, flow_of_entry(lost.entries[i]), (uint32_t)lost.entries[i]);
    return sketch;
}

// Its walk, over a table with a slot a bucket, as the report program has it.
static struct figures walk(const struct setting *setting, uint64_t seed, struct params *params) {
    struct sketch sketch = difference(setting, seed);
    *params = sketch.params;
    return peel(&sketch, setting->pops * size_of(params));
}

// How many entries of the table are lost flows with their very numbers.
static size_t count_right(size_t entries) {
    listed.length = entries;
    for (size_t slot = 0; slot < entries; slot++)
        listed.entries[slot] = entry_of(table_flows[slot], (uint32_t)table_counts[slot]);
    sort(&listed);
    size_t right = 0;
    for (size_t i = 0, k = 0; i < lost.length && k < listed.length;) {
        right += lost.entries[i] == listed.entries[k];
        if (lost.entries[i] <= listed.entries[k])
            i++;
        else
            k++;
    }
    return right;
}

// How many buckets the walk has left that are not all zero.
static size_t count_left(uint32_t size) {
    size_t left = 0;
    for (uint32_t k = 0; k < size; k++)
        left += counts[k] != 0 || idsums[k] != 0;
    return left;
}

// Enters the lost flows into buckets that keep how many flows they have and the sum of their places in the list.
static void count_flows(const struct params *params, uint32_t *flows_in, uint32_t *places_in) {
    uint32_t buckets[4];
    memset(flows_in, 0, sizeof *flows_in * size_of(params));
    memset(places_in, 0, sizeof *places_in * size_of(params));
    for (uint32_t place = 0; place < lost.length; place++) {
        find_buckets(params, sketched(params, flow_of_entry(lost.entries[place])), buckets);
        for (uint32_t array = 0; array < params->d; array++) {
            flows_in[buckets[array]]++;
            places_in[buckets[array]] += place;
        }
    }
}

// Whether a test that never errs would tell all flows apart: a flow that is alone in a bucket is taken out, over and over.
static int are_told_apart(const struct params *params) {
    static uint32_t flows_in[MOST_BUCKETS], places_in[MOST_BUCKETS], alone[MOST_BUCKETS];
    uint32_t buckets[4];
    size_t waits = 0, taken = 0;
    count_flows(params, flows_in, places_in);
    for (uint32_t k = 0; k < size_of(params); k++)
        if (flows_in[k] == 1)
            alone[waits++] = k;
    while (waits > 0) {
        uint32_t bucket = alone[--waits];
        if (flows_in[bucket] == 0)
            continue;
        uint32_t place = places_in[bucket];
        find_buckets(params, sketched(params, flow_of_entry(lost.entries[place])), buckets);
        for (uint32_t array = 0; array < params->d; array++) {
            places_in[buckets[array]] -= place;
            if (--flows_in[buckets[array]] == 1)
                alone[waits++] = buckets[array];
        }
        taken++;
    }
    return taken == lost.length;
}

static void add_walk(struct tally *tally, const struct setting *setting, uint64_t seed) {
    struct params params;
    struct figures figures = walk(setting, seed, &params);
    size_t right = count_right(figures.entries);
    tally->walks[figures.ending]++;
    tally->listed[figures.ending] += figures.entries;
    tally->right[figures.ending] += right;
    tally->left[figures.ending] += count_left(size_of(&params));
    if (figures.ending == CLEAN) {
        tally->wrong_clean += right != lost.length || figures.entries != lost.length;
        tally->clean_pops += figures.pops;
    }
    tally->told_apart += (uint64_t)are_told_apart(&params);
}

// Prints one line of the data file: what became of the walks of seeds 1 to the last.
static void print_tally(const struct setting *setting, uint64_t last_seed) {
    static const enum ending endings[] = {CLEAN, STUCK, SPENT, OUT_OF_RANGE, FULL};
    struct tally tally = {0};
    for (uint64_t seed = 1; seed <= last_seed; seed++)
        add_walk(&tally, setting, seed);
    printf("%s,%u,%u,%u,%u,%u,%u,%lu,%lu", profile_words[setting->profile], setting->d, setting->d * setting->m, setting->pops, setting->flows,
           setting->least, setting->most, (unsigned long)last_seed, (unsigned long)tally.told_apart);
    for (size_t i = 0; i < sizeof endings / sizeof *endings; i++)
        printf(",%lu", (unsigned long)tally.walks[endings[i]]);
    printf(",%lu,%lu", (unsigned long)tally.wrong_clean, (unsigned long)tally.clean_pops);
    for (int ending = STUCK; ending <= SPENT; ending++)
        printf(",%lu,%lu,%lu", (unsigned long)tally.listed[ending], (unsigned long)tally.right[ending],
               (unsigned long)tally.left[ending]);
    printf("\n");
}

// How many packets of flow 0 a walk left, where its lines say so and nothing else is left; else 0.
static int32_t left_of_flow_0(const struct params *params) {
    uint32_t buckets[4];
    find_buckets(params, 0, buckets);
    int32_t number = counts[position(params, 0, 0)];
    for (uint32_t array = 0; array < params->d; array++)
        if (counts[buckets[array]] != number || idsums[buckets[array]] != 0)
            return 0;
    return count_left(size_of(params)) == params->d ? number : 0;
}

// Of walks of old sketches, where packets of flow 0 are lost besides, prints how many leave only such, and how many of them
// tell their number and that of each other lost flow.
static void print_flow_0(const struct setting *setting, uint64_t last_seed) {
    uint64_t only = 0, right = 0;
    for (uint64_t seed = 1; seed <= last_seed; seed++) {
        struct sketch sketch = difference(setting, seed);
        int32_t number = (int32_t)(1 + seed % 64);
        uint32_t buckets[4];
        find_buckets(&sketch.params, 0, buckets);
        for (uint32_t array = 0; array < setting->d; array++)
            counts[buckets[array]] += number;
        struct figures figures = peel(&sketch, setting->pops * size_of(&sketch.params));
        int32_t told = left_of_flow_0(&sketch.params);
        only += told != 0;
        right += told == number && figures.entries == lost.length && count_right(figures.entries) == lost.length;
    }
    printf("%u,%u,%u,%u,%u,%lu,%lu,%lu\n", setting->d, setting->d * setting->m, setting->flows, setting->least, setting->most,
           (unsigned long)last_seed, (unsigned long)only, (unsigned long)right);
}

// Whether each lost flow has a bucket of its own in array 1.
static int have_own_buckets(const struct params *params) {
    static uint8_t is_taken[MOST_BUCKETS];
    memset(is_taken, 0, params->m);
    for (size_t i = 0; i < lost.length; i++) {
        uint32_t at = position(params, 0, sketched(params, flow_of_entry(lost.entries[i])));
        if (is_taken[at])
            return 0;
        is_taken[at] = 1;
    }
    return 1;
}

// Whether the table rises in array 1.
static int rises(const struct params *params, uint32_t entries) {
    for (uint32_t slot = 1; slot < entries; slot++)
        if (position(params, 0, sketched(params, table_flows[slot - 1])) >= position(params, 0, sketched(params, table_flows[slot])))
            return 0;
    return 1;
}

// Prints in how many walks each lost flow has a bucket of its own in array 1, how many of these end as is proved of them, and how many of
// all walks are clean with the right table.
static void print_own(const struct setting *setting, uint64_t last_seed) {
    uint64_t own = 0, promised = 0, clean = 0;
    for (uint64_t seed = 1; seed <= last_seed; seed++) {
        struct params params;
        struct figures figures = walk(setting, seed, &params);
        int is_own = have_own_buckets(&params);
        int is_right = figures.ending == CLEAN && figures.entries == lost.length && count_right(figures.entries) == lost.length;
        own += (uint64_t)is_own;
        promised += is_own && is_right && figures.pops == lost.length && rises(&params, figures.entries);
        clean += (uint64_t)is_right;
    }
    printf("%s,%u,%u,%u,%u,%u,%lu,%lu,%lu,%lu\n", profile_words[setting->profile], setting->d, setting->d * setting->m, setting->flows,
           setting->least, setting->most, (unsigned long)last_seed, (unsigned long)own, (unsigned long)promised, (unsigned long)clean);
}

// Writes the input that has the report program do this walk: all lost packets upstream, none downstream.
static void write_input(const struct setting *setting, uint64_t seed) {
    static struct stream stream;
    struct params params = draw_params(setting->profile, &seed, setting->d, setting->m);
    draw_lost(setting, &seed);
    packets.length = lost.length;
    for (size_t i = 0; i < lost.length; i++) {
        packets.flows[i] = flow_of_entry(lost.entries[i]);
        packets.numbers[i] = (uint32_t)lost.entries[i];
    }
    make_stream(&stream, &params, &packets);
    fwrite(stream.bytes, 1, stream.length, stdout);
    packets.length = 0;
    make_stream(&stream, &params, &packets);
    fwrite(stream.bytes, 1, stream.length, stdout);
}

// Prints the table and the end of a walk with the words of the report program.
static void print_walk(const struct setting *setting, uint64_t seed) {
    struct params params;
    struct figures figures = walk(setting, seed, &params);
    for (uint32_t slot = 0; slot < figures.entries; slot++)
        printf("loss %u %d\n", table_flows[slot], table_counts[slot]);
    printf("end %s pops %u lost %lu extra %lu\n", word_of(figures.ending), figures.pops, (unsigned long)figures.lost,
           (unsigned long)figures.extra);
}

static uint32_t draw_flow(enum profile profile, uint64_t *seed) {
    make_packets(&packets, seed, 1, most_flow_of(profile), 1);
    return packets.flows[0];
}

static uint32_t position_of_flow(const struct params *params, uint32_t flow) {
    return position(params, 0, sketched(params, flow));
}

// Draws a flow that stands in this bucket of array 1 and is none of those before it.
static uint32_t draw_neighbour(enum profile profile, const struct params *params, uint32_t bucket, const uint32_t *flows,
                               int length, uint64_t *seed) {
    for (;;) {
        uint32_t flow = draw_flow(profile, seed);
        int is_new = position_of_flow(params, flow) == bucket;
        for (int i = 0; i < length; i++)
            is_new &= flows[i] != flow;
        if (is_new)
            return flow;
    }
}

// Whether a bucket of several flows passes the purity test. All stand in one bucket of array 1, so it is the first that
// the walk pops, and an allowance of one pop leaves an entry exactly where it passed.
static int passes(enum profile profile, uint32_t m, const uint32_t *numbers, int length, uint64_t seed) {
    struct params params = draw_params(profile, &seed, 2, m);
    struct sketch sketch = fresh(&params);
    uint32_t flows[MOST_CROWD];
    flows[0] = draw_flow(profile, &seed);
    uint32_t bucket = position_of_flow(&params, flows[0]);
    insert(&sketch, flows[0], numbers[0]);
    for (int i = 1; i < length; i++) {
        flows[i] = draw_neighbour(profile, &params, bucket, flows, i, &seed);
        insert(&sketch, flows[i], numbers[i]);
    }
    return peel(&sketch, 1).entries == 1;
}

static uint32_t number_of(const char *word) {
    return (uint32_t)strtoul(word, NULL, 10);
}

static enum profile profile_of(const char *word) {
    enum profile profile = PLAIN;
    while (strcmp(word, profile_words[profile]) != 0)
        if (++profile == PROFILES)
            exit(1);
    return profile;
}

static int print_passes(char **words, int length) {
    uint32_t numbers[MOST_CROWD];
    int flows = length - 3;
    if (flows < 1 || flows > MOST_CROWD)
        return 1;
    for (int i = 0; i < flows; i++)
        numbers[i] = number_of(words[3 + i]);
    uint32_t last_seed = number_of(words[2]), passed = 0;
    for (uint64_t seed = 1; seed <= last_seed; seed++)
        passed += (uint32_t)passes(profile_of(words[0]), number_of(words[1]), numbers, flows, seed);
    printf("%u\n", passed);
    return 0;
}

// capacity tally|flow0|own|input|walk PROFILE D M POPS FLOWS LEAST MOST SEED, or capacity passes PROFILE M SEEDS NUMBER ..
// A profile is one of profile_words.
int main(int length, char **words) {
    if (length > 3 && strcmp(words[1], "passes") == 0)
        return print_passes(words + 2, length - 2);
    if (length != 10)
        return 1;
    struct setting setting = {profile_of(words[2]), number_of(words[3]), number_of(words[4]), number_of(words[5]),
                              number_of(words[6]),  number_of(words[7]), number_of(words[8])};
    uint32_t seed = number_of(words[9]);
    if (strcmp(words[1], "tally") == 0)
        print_tally(&setting, seed);
    else if (strcmp(words[1], "flow0") == 0)
        print_flow_0(&setting, seed);
    else if (strcmp(words[1], "own") == 0)
        print_own(&setting, seed);
    else if (strcmp(words[1], "input") == 0)
        write_input(&setting, seed);
    else if (strcmp(words[1], "walk") == 0)
        print_walk(&setting, seed);
    else
        return 1;
    return 0;
}
