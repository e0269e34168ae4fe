/* What the parts of the script program share. tests/README.md says what a script is and what each command prints. */
#ifndef SCRIPT_H
#define SCRIPT_H

#include "gabunlitik.h"

/* One number more than the largest sketch has buckets, one byte more than its file has, and the bytes of a script. */
enum { MOST = 65537, MOST_OUTPUT = 852020, MOST_SCRIPT = 65536 };

enum command {
    PARAMS = 1,
    LENGTH,
    STORE,
    FILL,
    FRESH,
    INSERT,
    INSERT_ALL,
    ADD,
    SUBTRACT,
    PEEL,
    READ_STREAM,
    READ_SKETCH,
    READ_STREAM_BACK,
    READ_SKETCH_BACK,
    WRITE_STREAM,
    WRITE_SKETCH,
    POSITION,
    INDEX,
    SHOW,
    WITHDRAW,
    HEAD,
    HEAD_BACK,
    FOLD
};

/* A command as it stands in a script: its number, the sketch it works on (0 or 1), and what follows its byte. */
struct given {
    enum command command;
    int sketch;
    const uint8_t *bytes;
    size_t length;
};

/* Whether there is a command of this number; its name; and how many bytes follow its byte, where these do. */
int is_command(int number);
const char *name_of(enum command command);
size_t length_of(enum command command, const uint8_t *bytes, size_t length);

/* The operand that k others stand before, and the bytes after so many operands. */
uint32_t operand(struct given given, size_t k);
const uint8_t *after(struct given given, size_t operands);

/* Room for numbers, the first of which are lent. */
struct numbers {
    uint32_t room[MOST];
    size_t length;
};

struct sketch {
    uint32_t params[GABUNLITIK_PARAMS];
    struct numbers counts, idsums;
};

/* All that is lent to calls, and how long the file is that was last written. All of it starts as zeros. */
struct memory {
    struct sketch sketches[2];
    struct numbers table_flows, table_counts, queue, marks, packet_flows, packet_numbers;
    uint8_t output[MOST_OUTPUT];
    size_t output_length;
    size_t written;
};

extern struct memory memory;

/* Counts stand as what their bits are without a sign. */
int32_t *counts_of(struct numbers *numbers);

/* Whether the places of a slice from one on are all zero. */
int zeros_from(const struct numbers *numbers, size_t from);

/* Gives a sketch these parameters, and lends its slices as long as they say. */
void resize(struct sketch *sketch, const uint32_t *params);

/* The commands that set what calls are lent, the calls, and what is lent as lines. */
void set_params(struct given given);
void set_length(struct given given);
void store(struct given given);
void call(struct given given);
void show(struct given given);

#endif
