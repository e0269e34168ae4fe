/* What is lent, as lines: each slice with its length, and a line for each place that is not zero. */
#include "script.h"

#include <stdio.h>

/* The longest output whose bytes are printed, beside a sum of them. */
enum { SHORT = 256 };

static size_t longest(const struct numbers *some, const struct numbers *others) {
    return some->length > others->length ? some->length : others->length;
}

/* Where another slice is longer a place counts as zero. */
static uint32_t at(const struct numbers *numbers, size_t i) {
    return i < numbers->length ? numbers->room[i] : 0;
}

static int32_t count_at(struct numbers *numbers, size_t i) {
    return i < numbers->length ? counts_of(numbers)[i] : 0;
}

static void show_sketch(struct sketch *s) {
    printf("counts %zu idsums %zu\n", s->counts.length, s->idsums.length);
    for (size_t i = 0; i < longest(&s->counts, &s->idsums); i++)
        if (at(&s->counts, i) != 0 || at(&s->idsums, i) != 0)
            printf("left %zu %d %u\n", i, count_at(&s->counts, i), at(&s->idsums, i));
}

static void show_table(struct numbers *flows, struct numbers *counts) {
    printf("flows %zu numbers %zu\n", flows->length, counts->length);
    for (size_t i = 0; i < longest(flows, counts); i++)
        if (at(flows, i) != 0 || at(counts, i) != 0)
            printf("slot %zu loss %u %d\n", i, at(flows, i), count_at(counts, i));
}

static void show_numbers(const char *name, const struct numbers *numbers) {
    printf("%s %zu\n", name, numbers->length);
    for (size_t i = 0; i < numbers->length; i++)
        if (numbers->room[i] != 0)
            printf("slot %zu %u\n", i, numbers->room[i]);
}

static void show_output(void) {
    uint32_t sum = 5381;
    for (size_t i = 0; i < memory.output_length; i++)
        sum = 33 * sum + memory.output[i];
    printf("output %zu sum %u", memory.output_length, sum);
    if (memory.output_length <= SHORT) {
        printf(" bytes ");
        for (size_t i = 0; i < memory.output_length; i++)
            printf("%02x", memory.output[i]);
    }
    printf("\n");
}

void show(struct given given) {
    show_sketch(&memory.sketches[given.sketch]);
    show_table(&memory.table_flows, &memory.table_counts);
    show_numbers("queue", &memory.queue);
    show_numbers("marks", &memory.marks);
    show_output();
}
