/* What the tests of files share: an output, short forms of the calls, and checks. */
#ifndef FILING_H
#define FILING_H

#include "bench.h"

enum { ROOM = 160 };

/* An output, and the length that a writer returned. */
struct output {
    uint8_t bytes[ROOM];
    size_t length;
};

struct output unwritten(void);

/* The file, with the rest of the output as it was. */
int holds(const struct output *o, const uint8_t *file, size_t length);

/* A refused writer tells the length 0 and leaves its output alone, which can be handed to the next. */
void check_unwritten(struct output *o);

/* A copy of a file, and one with a byte changed. */
struct output copied(const uint8_t *file, size_t length);
struct output changed(const uint8_t *file, size_t length, size_t at, uint8_t byte);

struct returned read_stream_under(const uint32_t *params, struct sketch *s, const uint8_t *bytes, size_t length);
struct returned read_sketch_under(const uint32_t *params, struct sketch *s, const uint8_t *bytes, size_t length);
struct returned write_stream_under(const uint32_t *params, struct output *o, size_t room, const uint32_t *of, size_t n,
                                   const uint32_t *by);
struct returned write_sketch_under(const uint32_t *params, struct output *o, size_t room, const struct sketch *s);

/* What a call returned of a head, and the parameters that it wrote. */
struct headed {
    struct returned returned;
    uint32_t params[GABUNLITIK_PARAMS];
};

struct headed read_head(const uint8_t *bytes, size_t length);

/* The head of these parameters. */
void check_headed(struct headed h, const uint32_t *params);

/* Every byte of the parameters is 0 after a refusal. */
void check_headless(struct headed h, uint32_t number);

#endif
