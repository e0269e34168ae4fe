// Measures the library against the baseline, case by case: equal results first, then alternating timed runs.
// `measure time` times every case and prints a line for each; `measure list` only says what the cases are.
// `measure CASE ours|baseline RUNS` does one side's runs of a case untimed, for whoever counts its instructions.
#include "sides.h"

#include <stdio.h>
#include <stdlib.h>
#include <string.h>
#include <time.h>

enum { MOST_CASES = 144, MOST_ROUNDS = 7, MOST_NUMBER = 64, SEED = 6 };

// Instructions are counted over fewer packets than are timed, since counting is slow and they are the same for every packet.
enum { TIMED_PACKETS = MOST_PACKETS, COUNTED_PACKETS = 2048 };

// A sample is as many runs as take so long together, and a case takes no new round once it has had its time.
static const double sample_seconds = 0.004;
static const double case_seconds = 0.5;

// Bytes in front of all other code, PADDING of them: where code lies in its pages, and in its cache lines, decides what jumps cost.
#define TEXT(number) #number
#define SKIPPED(number) ".skip " TEXT(number)
__asm__(".text\n" SKIPPED(PADDING) "\n");

static const struct shape {
    uint32_t d;
    uint32_t m;
} shapes[] = {{3, 341}, {3, 1365}, {3, 5461}, {3, 16384}, {4, 16384}};

// An m that can be folded to its half and to a sixteenth. A table that is closed has d * m slots, and there is no sketch.
static const struct shape even_shapes[] = {{4, 256}, {4, 1024}, {4, 4096}, {4, 16384}};

enum { SHAPES = sizeof shapes / sizeof *shapes, EVEN_SHAPES = sizeof even_shapes / sizeof *even_shapes };

// What is measured: an operation under parameters of a shape. A walk has so many lost flows in a hundred buckets, each by up to
// most_lost packets, which stand anywhere or all at one place of array 1. `zeros` says which entries of a close have come to 0. A fold
// is to m2 buckets an array, and `large` says whether the sketch has a flow of large_number packets besides. `fingerprints` says whether
// the parameters have the pair for them.
struct plan {
    const struct operation *operation;
    struct shape shape;
    uint32_t load;
    uint32_t most_lost;
    uint32_t one_place;
    enum zeros zeros;
    uint32_t m2;
    uint32_t large;
    uint32_t fingerprints;
};

// More than half of what a count may be: where two buckets meet, only their sum can tell that it is within the limits.
static const uint32_t large_number = 2000000000;

struct plans {
    size_t length;
    struct plan plans[MOST_CASES];
};

static struct given given;
static struct side our_side, baseline_side;

// A fold to m / parts buckets an array, or to 1 where `parts` is 0, at every size.
static void add_folds(struct plans *all, uint32_t parts, uint32_t large) {
    for (size_t j = 0; j < EVEN_SHAPES; j++) {
        uint32_t m2 = parts > 0 ? even_shapes[j].m / parts : 1;
        all->plans[all->length++] = (struct plan){.operation = &fold, .shape = even_shapes[j], .m2 = m2, .large = large};
    }
}

// An operation at every size.
static void add_plain(struct plans *all, const struct operation *operation, uint32_t fingerprints) {
    for (size_t j = 0; j < SHAPES; j++)
        all->plans[all->length++] =
            (struct plan){.operation = operation, .shape = shapes[j], .fingerprints = fingerprints};
}

// Walks of equal losses, then of losses that differ, at three loads and every size.
static void add_peels(struct plans *all, const uint32_t loads[3], uint32_t fingerprints) {
    static const uint32_t most_lost[] = {1, MOST_NUMBER};
    for (size_t k = 0; k < 2; k++)
        for (size_t i = 0; i < 3; i++)
            for (size_t j = 0; j < SHAPES; j++)
                all->plans[all->length++] = (struct plan){.operation = &peel,
                                                          .shape = shapes[j],
                                                          .load = loads[i],
                                                          .most_lost = most_lost[k],
                                                          .fingerprints = fingerprints};
}

static struct plans all_plans(void) {
    static const uint32_t loads[] = {40, 60, 80}, fingerprint_loads[] = {40, 60, 70};
    struct plans all = {0};
    add_plain(&all, &insert, 0);
    add_plain(&all, &insert_all, 0);
    add_plain(&all, &read_stream, 0);
    add_plain(&all, &subtract, 0);
    add_peels(&all, loads, 0);
    for (size_t j = 0; j < SHAPES; j++)
        all.plans[all.length++] = (struct plan){
            .operation = &peel, .shape = shapes[j], .load = loads[0], .most_lost = MOST_NUMBER, .one_place = 1};
    add_plain(&all, &insert, 1);
    add_plain(&all, &insert_all, 1);
    add_plain(&all, &read_stream, 1);
    add_peels(&all, fingerprint_loads, 1);
    for (enum zeros zeros = NONE; zeros <= ALL_BUT_ONE; zeros++)
        for (size_t j = 0; j < EVEN_SHAPES; j++)
            all.plans[all.length++] = (struct plan){.operation = &close_tables, .shape = even_shapes[j], .zeros = zeros};
    add_folds(&all, 2, 0);
    add_folds(&all, 16, 0);
    add_folds(&all, 0, 0);
    add_folds(&all, 2, 1);
    return all;
}

static void put_in(int32_t *counts, uint32_t *idsums, size_t packets) {
    struct sketch sketch = {given.params, counts, idsums};
    size_t place;
    memset(counts, 0, sizeof *counts * size_of(&given.params));
    memset(idsums, 0, sizeof *idsums * size_of(&given.params));
    baseline_insert_all(&sketch, given.packets.flows, given.packets.numbers, packets, &place);
}

static void put_in_large(int32_t *counts, uint32_t *idsums) {
    struct sketch sketch = {given.params, counts, idsums};
    size_t place;
    baseline_insert(&sketch, given.packets.flows[0], large_number, &place);
}

// The data of a plan. Packets go into an empty sketch; a difference, a walk and a fold begin with all of them in it.
static void prepare(const struct plan *plan, size_t packets) {
    uint64_t seed = SEED;
    given.params = make_params(&seed, plan->shape.d, plan->shape.m);
    if (plan->fingerprints)
        add_fingerprints(&given.params, &seed);
    size_t size = size_of(&given.params);
    uint32_t most = most_flow(&given.params);
    if (plan->operation == &peel)
        make_packets(&given.packets, &seed, size * plan->load / 100, most, plan->most_lost);
    else
        make_packets(&given.packets, &seed, packets, most, MOST_NUMBER);
    if (plan->one_place)
        gather(&given.packets, &seed, &given.params);
    make_stream(&given.stream, &given.params, &given.packets);
    make_tables(&given.entries, &seed, size, plan->zeros, MOST_NUMBER);
    given.m2 = plan->m2;
    int begins_full = plan->operation == &subtract || plan->operation == &peel || plan->operation == &fold;
    put_in(given.start_counts, given.start_idsums, begins_full ? given.packets.length : 0);
    if (plan->large)
        put_in_large(given.start_counts, given.start_idsums);
    put_in(given.other_counts, given.other_idsums, given.packets.length / 2);
}

static void run(const struct operation *operation, call *call, struct side *side) {
    operation->start(&given, side);
    call(&given, side);
}

static int have_equal_results(void) {
    const struct side *x = &our_side, *y = &baseline_side;
    return x->answer == y->answer && (x->answer == DONE || x->place == y->place) &&
           memcmp(x->counts, y->counts, sizeof x->counts) == 0 && memcmp(x->idsums, y->idsums, sizeof x->idsums) == 0 &&
           memcmp(x->table_flows, y->table_flows, sizeof x->table_flows) == 0 &&
           memcmp(x->table_counts, y->table_counts, sizeof x->table_counts) == 0 &&
           x->figures.ending == y->figures.ending && x->figures.entries == y->figures.entries &&
           x->figures.lost == y->figures.lost && x->figures.extra == y->figures.extra &&
           x->figures.pops == y->figures.pops && memcmp(&x->folded, &y->folded, sizeof x->folded) == 0;
}

static double now(void) {
    struct timespec t;
    clock_gettime(CLOCK_PROCESS_CPUTIME_ID, &t);
    return (double)t.tv_sec + 1e-9 * (double)t.tv_nsec;
}

// The seconds of a run of either side.
struct round {
    double ours;
    double baseline;
};

// Each side once; the program ends where they differ, or where the answer is not the one that is due.
static struct round check(const struct plan *plan, uint32_t due) {
    double start = now();
    run(plan->operation, plan->operation->ours, &our_side);
    double middle = now();
    run(plan->operation, plan->operation->baseline, &baseline_side);
    double end = now();
    if (!have_equal_results() || our_side.answer != due) {
        printf("%s, d * m = %u: the results differ\n", plan->operation->name, size_of(&given.params));
        exit(1);
    }
    return (struct round){middle - start, end - middle};
}

// A stream with a wrong end is refused, and its packets are taken out again.
static void check_refused_stream(const struct plan *plan) {
    uint8_t *last = &given.stream.bytes[given.stream.length - 1];
    *last ^= 1;
    check(plan, FORM);
    *last ^= 1;
}

// A fold is refused for its m2, for damage in the last bucket, and where that and one that it meets come to more than the limit.
static void check_refused_folds(const struct plan *plan) {
    int32_t *last = &given.start_counts[size_of(&given.params) - 1], *met = last - plan->m2;
    int32_t last_kept = *last, met_kept = *met;
    given.m2 = 0;
    check(plan, FOLD);
    given.m2 = plan->m2;
    *last = MOST_COUNT + 1;
    check(plan, DAMAGE);
    *last = *met = MOST_COUNT;
    check(plan, RANGE);
    *last = last_kept;
    *met = met_kept;
}

// The seconds of one run.
static double sample(const struct operation *operation, call *call, struct side *side) {
    double spent = 0;
    uint32_t runs = 0;
    while (spent < sample_seconds) {
        operation->start(&given, side);
        double before = now();
        call(&given, side);
        spent += now() - before;
        runs++;
    }
    return spent / runs;
}

static int compare_numbers(const void *first, const void *second) {
    double x = *(const double *)first, y = *(const double *)second;
    return (x > y) - (x < y);
}

static double median(double *numbers, size_t length) {
    qsort(numbers, length, sizeof *numbers, compare_numbers);
    return length % 2 ? numbers[length / 2] : (numbers[length / 2 - 1] + numbers[length / 2]) / 2;
}

static void print_plan(size_t number, const struct plan *plan) {
    printf("%zu\t%s\t%u\t%u\t%u\t%u\t%u\t%d\t%u\t%u\t%u", number, plan->operation->name, plan->shape.d * plan->shape.m,
           plan->shape.d, plan->load, plan->most_lost, plan->one_place, plan->zeros, plan->m2, plan->large,
           plan->fingerprints);
}

// How many packets, buckets or entries a run is over.
static double units_of(const struct plan *plan) {
    if (plan->operation == &subtract || plan->operation == &peel || plan->operation == &fold)
        return size_of(&given.params);
    return plan->operation == &close_tables ? MOST_BUCKETS : TIMED_PACKETS;
}

// Behind the plan: how the walk ended, the rounds, the nanoseconds a packet, bucket or entry of ours and of the baseline, the ratio.
static void print_result(const struct plan *plan, size_t rounds, struct round medians, double ratio) {
    double units = units_of(plan);
    struct figures walk = plan->operation == &peel ? our_side.figures : (struct figures){0};
    printf("\t%d\t%u\t%zu\t%.2f\t%.2f\t%.3f\n", walk.ending, walk.pops, rounds, 1e9 * medians.ours / units,
           1e9 * medians.baseline / units, ratio);
    fflush(NULL);
}

// Rounds of a sample of each side, which goes first in turn. The run of the check is the only round where it took the case's time.
static void measure(const struct plan *plan, struct round checked) {
    if (checked.ours + checked.baseline > case_seconds) {
        print_result(plan, 1, checked, checked.ours / checked.baseline);
        return;
    }
    double ours[MOST_ROUNDS], baseline[MOST_ROUNDS], ratios[MOST_ROUNDS];
    size_t rounds = 0;
    double start = now();
    while (rounds < MOST_ROUNDS && (rounds == 0 || now() - start < case_seconds)) {
        if (rounds % 2 == 0)
            ours[rounds] = sample(plan->operation, plan->operation->ours, &our_side);
        baseline[rounds] = sample(plan->operation, plan->operation->baseline, &baseline_side);
        if (rounds % 2 != 0)
            ours[rounds] = sample(plan->operation, plan->operation->ours, &our_side);
        ratios[rounds] = ours[rounds] / baseline[rounds];
        rounds++;
    }
    struct round medians = {median(ours, rounds), median(baseline, rounds)};
    print_result(plan, rounds, medians, median(ratios, rounds));
}

static void check_and_measure_all(const struct plans *all) {
    for (size_t i = 0; i < all->length; i++) {
        const struct plan *plan = &all->plans[i];
        prepare(plan, TIMED_PACKETS);
        if (plan->operation == &read_stream)
            check_refused_stream(plan);
        if (plan->operation == &fold)
            check_refused_folds(plan);
        struct round checked = check(plan, DONE);
        print_plan(i, plan);
        measure(plan, checked);
    }
}

static void list_all(const struct plans *all) {
    for (size_t i = 0; i < all->length; i++) {
        print_plan(i, &all->plans[i]);
        printf("\n");
    }
}

static void repeat(const struct plan *plan, const char *side, int runs) {
    prepare(plan, COUNTED_PACKETS);
    for (int i = 0; i < runs; i++) {
        if (strcmp(side, "ours") == 0)
            run(plan->operation, plan->operation->ours, &our_side);
        else
            run(plan->operation, plan->operation->baseline, &baseline_side);
    }
}

int main(int words, char **word) {
    struct plans all = all_plans();
    if (words == 2 && strcmp(word[1], "time") == 0) {
        check_and_measure_all(&all);
    } else if (words == 2 && strcmp(word[1], "list") == 0) {
        list_all(&all);
    } else if (words == 4 && (size_t)atoi(word[1]) < all.length) {
        repeat(&all.plans[atoi(word[1])], word[2], atoi(word[3]));
    } else {
        printf("usage: measure time | list | CASE ours|baseline RUNS\n");
        return 1;
    }
    return 0;
}
