/* The memory that is lent to calls: parameters, lengths and numbers as a script sets them. */
#include "script.h"

struct memory memory;

/* The slices by their numbers; the first two are those of the sketch that a command works on. */
enum slice { COUNTS, IDSUMS, TABLE_FLOWS, TABLE_COUNTS, QUEUE, MARKS, PACKET_FLOWS, PACKET_NUMBERS, OUTPUT };

/* The slice of a number; none for the output, which has bytes, and where there is no such slice. */
static struct numbers *slice_of(struct given given, uint32_t slice) {
    struct sketch *sketch = &memory.sketches[given.sketch];
    switch (slice) {
    case COUNTS:
        return &sketch->counts;
    case IDSUMS:
        return &sketch->idsums;
    case TABLE_FLOWS:
        return &memory.table_flows;
    case TABLE_COUNTS:
        return &memory.table_counts;
    case QUEUE:
        return &memory.queue;
    case MARKS:
        return &memory.marks;
    case PACKET_FLOWS:
        return &memory.packet_flows;
    case PACKET_NUMBERS:
        return &memory.packet_numbers;
    default:
        return NULL;
    }
}

int32_t *counts_of(struct numbers *numbers) {
    return (int32_t *)numbers->room;
}

/* In a script each multiplier stands before its offset. The numbers after the four pairs stand as in the array. */
void set_params(struct given given) {
    uint32_t *params = memory.sketches[given.sketch].params;
    params[GABUNLITIK_D] = operand(given, 0);
    params[GABUNLITIK_M] = operand(given, 1);
    for (size_t i = 0; i < 4; i++) {
        params[GABUNLITIK_MULTIPLIERS + i] = operand(given, 2 + 2 * i);
        params[GABUNLITIK_OFFSETS + i] = operand(given, 3 + 2 * i);
    }
    params[GABUNLITIK_PRIME] = operand(given, 10);
    params[GABUNLITIK_FIFTH_MULTIPLIER] = operand(given, 11);
    params[GABUNLITIK_FIFTH_OFFSET] = operand(given, 12);
    params[GABUNLITIK_SORT] = operand(given, 13);
}

static size_t least(size_t m, size_t n) {
    return m < n ? m : n;
}

/* No slice is lent longer than its room. */
void set_length(struct given given) {
    uint32_t slice = operand(given, 0), length = operand(given, 1);
    struct numbers *numbers = slice_of(given, slice);
    if (numbers != NULL)
        numbers->length = least(length, MOST);
    else if (slice == OUTPUT)
        memory.output_length = least(length, MOST_OUTPUT);
}

int zeros_from(const struct numbers *numbers, size_t from) {
    for (size_t i = from; i < numbers->length; i++)
        if (numbers->room[i] != 0)
            return 0;
    return 1;
}

void resize(struct sketch *sketch, const uint32_t *params) {
    for (size_t i = 0; i < GABUNLITIK_PARAMS; i++)
        sketch->params[i] = params[i];
    size_t size = least((size_t)params[GABUNLITIK_D] * params[GABUNLITIK_M], MOST);
    sketch->counts.length = size;
    sketch->idsums.length = size;
}

/* Puts numbers into a slice from a place on: those after the operands, or one many times. What would lie past the end of what is
 * lent is left out. */
void store(struct given given) {
    uint32_t slice = operand(given, 0), from = operand(given, 1), many = operand(given, 2);
    struct numbers *numbers = slice_of(given, slice);
    size_t lent = numbers != NULL ? numbers->length : slice == OUTPUT ? memory.output_length : 0;
    size_t end = least(lent, (size_t)from + many);
    for (size_t i = from; i < end; i++) {
        uint32_t number = operand(given, 3 + (given.command == FILL ? 0 : i - from));
        if (numbers != NULL)
            numbers->room[i] = number;
        else
            memory.output[i] = (uint8_t)(number % 256);
    }
}
