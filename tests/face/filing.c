/* Stream files and sketch files, read and written, and their heads, called from C. */
#include "filing.h"

#define HEAD 1, 2, 0, 0, 0, 5, 0, 0, 0, 1, 0, 0, 0, 0, 64, 0, 0, 0, 0, 0, 0, 0, ZEROS_16
#define ZEROS_16 0, 0, 0, 0, 0, 0, 0, 0, 0, 0, 0, 0, 0, 0, 0, 0

enum { STREAM = 38 + 2 * 9 + 5, SKETCH = 38 + 3 * 13 + 5 };

/* E1's packets, and E1's sketch. */
static const uint32_t flows[] = {7, 12}, numbers[] = {1, 2};
static const uint8_t stream[STREAM] = {HEAD, 2, 0, 0, 0, 7, 0, 0, 0, 1, 2, 0, 0, 0, 12, 0, 0, 0, 2, 4, 0, 0, 0, 2};
static const uint8_t stored[SKETCH] = {HEAD, 3, 0, 0, 0, 2, 0, 0, 0, 3, 0, 0, 0, 31, 3, 0, 0, 0, 6, 0, 0, 0, 2,
                                       0, 0, 0, 24, 3, 0, 0, 0, 7, 0, 0, 0, 1, 0, 0, 0, 7, 4, 0, 0, 0, 3};

struct output unwritten(void) {
    struct output o;
    memset(&o, 0xa5, sizeof o);
    return o;
}

int holds(const struct output *o, const uint8_t *file, size_t length) {
    struct output rest = unwritten();
    return o->length == length && memcmp(o->bytes, file, length) == 0 &&
           memcmp(o->bytes + length, rest.bytes + length, ROOM - length) == 0;
}

void check_unwritten(struct output *o) {
    CHECK(holds(o, stream, 0));
    memset(&o->length, 0xa5, sizeof o->length);
}

struct output copied(const uint8_t *file, size_t length) {
    struct output o = unwritten();
    for (size_t i = 0; i < length; i++)
        o.bytes[i] = file[i];
    o.length = length;
    return o;
}

struct output changed(const uint8_t *file, size_t length, size_t at, uint8_t byte) {
    struct output o = copied(file, length);
    o.bytes[at] = byte;
    return o;
}

struct returned read_stream_under(const uint32_t *params, struct sketch *s, const uint8_t *bytes, size_t length) {
    struct returned t = nothing_yet();
    t.number = gabunlitik_read_stream(params, s->counts, BUCKETS, s->idsums, BUCKETS, bytes, length, &t.place);
    return t;
}

struct returned read_sketch_under(const uint32_t *params, struct sketch *s, const uint8_t *bytes, size_t length) {
    struct returned t = nothing_yet();
    t.number = gabunlitik_read_sketch(params, s->counts, BUCKETS, s->idsums, BUCKETS, bytes, length, &t.place);
    return t;
}

struct returned write_stream_under(const uint32_t *params, struct output *o, size_t room, const uint32_t *of, size_t n,
                                   const uint32_t *by) {
    struct returned t = nothing_yet();
    t.number = gabunlitik_write_stream(params, of, n, by, n, o->bytes, room, &o->length, &t.place);
    return t;
}

struct returned write_sketch_under(const uint32_t *params, struct output *o, size_t room, const struct sketch *s) {
    struct returned t = nothing_yet();
    t.number = gabunlitik_write_sketch(params, s->counts, BUCKETS, s->idsums, BUCKETS, o->bytes, room, &o->length, &t.place);
    return t;
}

static struct returned read_stream(struct sketch *s, const uint8_t *bytes, size_t length) {
    return read_stream_under(K, s, bytes, length);
}

static struct returned read_sketch(struct sketch *s, const uint8_t *bytes, size_t length) {
    return read_sketch_under(K, s, bytes, length);
}

static struct returned write_stream(struct output *o, size_t room, const uint32_t *of, size_t n, const uint32_t *by) {
    return write_stream_under(K, o, room, of, n, by);
}

static struct returned write_sketch(struct output *o, size_t room, const struct sketch *s) {
    return write_sketch_under(K, o, room, s);
}

static void there_and_back(void) {
    struct sketch s = fresh_sketch(), wanted = e1();
    struct output o = unwritten();
    CHECK_DONE(write_stream(&o, ROOM, flows, 2, numbers));
    CHECK(holds(&o, stream, STREAM));
    CHECK_DONE(read_stream(&s, o.bytes, o.length));
    CHECK(same(&s, &wanted));
    o = unwritten();
    CHECK_DONE(write_sketch(&o, SKETCH, &s));
    CHECK(holds(&o, stored, SKETCH));
    s = e7();
    s.counts[9] = -2147483647; /* damage, which is not looked at */
    CHECK_DONE(read_sketch(&s, o.bytes, o.length));
    CHECK(same(&s, &wanted));
    CHECK_DONE(read_stream(&s, stream, STREAM));
    CHECK_DONE(subtract(&s, &wanted));
    CHECK(same(&s, &wanted));
}

static struct returned read_changed_stream(struct sketch *s, size_t at, uint8_t byte) {
    struct output o = changed(stream, STREAM, at, byte);
    return read_stream(s, o.bytes, o.length);
}

static struct returned read_changed_sketch(struct sketch *s, size_t at, uint8_t byte) {
    struct output o = changed(stored, SKETCH, at, byte);
    return read_sketch(s, o.bytes, o.length);
}

struct headed read_head(const uint8_t *bytes, size_t length) {
    struct headed h;
    h.returned = nothing_yet();
    memset(h.params, 0xa5, sizeof h.params);
    h.returned.number = gabunlitik_read_head(bytes, length, h.params, &h.returned.place);
    return h;
}

void check_headed(struct headed h, const uint32_t *params) {
    CHECK_DONE(h.returned);
    CHECK(memcmp(h.params, params, sizeof h.params) == 0);
}

void check_headless(struct headed h, uint32_t number) {
    static const uint32_t none[GABUNLITIK_PARAMS];
    CHECK_RETURNS(h.returned, number, 0);
    CHECK(memcmp(h.params, none, sizeof none) == 0);
}

/* The head of both files is K; what stands after it does not matter. */
static void heads(void) {
    struct output o = changed(stream, STREAM, 38, 255);
    check_headed(read_head(stream, STREAM), K);
    check_headed(read_head(stored, SKETCH), K);
    check_headed(read_head(stream, 38), K);
    check_headed(read_head(o.bytes, o.length), K);
    for (size_t length = 0; length < 38; length++)
        check_headless(read_head(stream, length), GABUNLITIK_FORM);
    for (unsigned kind = 0; kind < 256; kind++)
        if (kind != 1 && kind != 10) {
            o = changed(stream, STREAM, 0, (uint8_t)kind);
            check_headless(read_head(o.bytes, o.length), GABUNLITIK_FORM);
        }
    for (size_t i = 0; i < HEAD_WAYS; i++) {
        put_head(o.bytes, BROKEN[i]);
        check_headless(read_head(o.bytes, o.length), GABUNLITIK_PARAM);
        check_headless(read_head(o.bytes, 37), GABUNLITIK_FORM);
    }
}

static void refused_streams(void) {
    struct sketch s = e7(), kept = s;
    struct output longer = changed(stream, STREAM, STREAM, 0);
    struct returned t = nothing_yet();
    t.number = gabunlitik_read_stream(BAD, s.counts, BUCKETS, s.idsums, BUCKETS, stream, STREAM, &t.place);
    CHECK_REFUSED(t, GABUNLITIK_PARAM, 0, &s, &kept);
    t = nothing_yet();
    t.number = gabunlitik_read_stream(OTHER, s.counts, BUCKETS, s.idsums, BUCKETS, stream, STREAM, &t.place);
    CHECK_REFUSED(t, GABUNLITIK_MISMATCH, 0, &s, &kept);
    t = nothing_yet();
    t.number = gabunlitik_read_stream(K, s.counts, BUCKETS, s.idsums, BUCKETS - 1, stream, STREAM, &t.place);
    CHECK_REFUSED(t, GABUNLITIK_LENGTH, 0, &s, &kept);
    CHECK_REFUSED(read_stream(&s, stream, 0), GABUNLITIK_FORM, 0, &s, &kept);
    CHECK_REFUSED(read_stream(&s, stream, 37), GABUNLITIK_FORM, 0, &s, &kept);
    CHECK_REFUSED(read_stream(&s, stream, 55), GABUNLITIK_FORM, 47, &s, &kept);
    CHECK_REFUSED(read_changed_stream(&s, 0, 5), GABUNLITIK_FORM, 0, &s, &kept);  /* an unknown kind first */
    CHECK_REFUSED(read_changed_stream(&s, 1, 5), GABUNLITIK_PARAM, 0, &s, &kept); /* d 5 in the head */
    CHECK_REFUSED(read_changed_stream(&s, 5, 6), GABUNLITIK_MISMATCH, 0, &s, &kept); /* m 6 in the head */
    CHECK_REFUSED(read_changed_stream(&s, 47, 3), GABUNLITIK_FORM, 47, &s, &kept); /* a bucket for the second record */
    CHECK_REFUSED(read_changed_stream(&s, 47, 9), GABUNLITIK_FORM, 47, &s, &kept); /* an unknown kind for it */
    CHECK_REFUSED(read_changed_stream(&s, 60, 4), GABUNLITIK_FORM, 56, &s, &kept); /* an end that says 4 */
    CHECK_REFUSED(read_changed_stream(&s, 52, 128), GABUNLITIK_COUNT, 47, &s, &kept); /* number 2147483650 */
    CHECK_REFUSED(read_stream(&s, stream, STREAM - 1), GABUNLITIK_FORM, 56, &s, &kept);
    CHECK_REFUSED(read_stream(&s, stream, 56), GABUNLITIK_FORM, 56, &s, &kept);
    CHECK_REFUSED(read_stream(&s, longer.bytes, STREAM + 1), GABUNLITIK_FORM, STREAM, &s, &kept);
    CHECK_REFUSED(read_stream(&s, stored, SKETCH), GABUNLITIK_FORM, 38, &s, &kept);
    CHECK_REFUSED(read_changed_stream(&s, 48, 255), GABUNLITIK_FLOW, 47, &s, &kept);
    CHECK_REFUSED(read_changed_stream(&s, 42, 0), GABUNLITIK_FLOW, 38, &s, &kept); /* flow 0 first */
    CHECK_REFUSED(read_changed_stream(&s, 51, 0), GABUNLITIK_FLOW, 47, &s, &kept); /* flow 0 after a packet that goes in */
    CHECK_REFUSED(read_changed_stream(&s, 55, 0), GABUNLITIK_COUNT, 47, &s, &kept);
    CHECK_REFUSED(read_changed_stream(&s, 51, 1), GABUNLITIK_RANGE, 47, &s, &kept); /* flow 1 */
    s.counts[9] = kept.counts[9] = -2147483647;
    CHECK_REFUSED(read_stream(&s, stream, STREAM), GABUNLITIK_DAMAGE, 9, &s, &kept);
}

static void refused_sketches(void) {
    struct sketch s = e7(), kept = s;
    struct output longer = changed(stored, SKETCH, SKETCH, 4);
    struct returned t = nothing_yet();
    t.number = gabunlitik_read_sketch(BAD, s.counts, BUCKETS, s.idsums, BUCKETS, stored, SKETCH, &t.place);
    CHECK_REFUSED(t, GABUNLITIK_PARAM, 0, &s, &kept);
    t = nothing_yet();
    t.number = gabunlitik_read_sketch(OTHER, s.counts, BUCKETS, s.idsums, BUCKETS, stored, SKETCH, &t.place);
    CHECK_REFUSED(t, GABUNLITIK_MISMATCH, 0, &s, &kept);
    t = nothing_yet();
    t.number = gabunlitik_read_sketch(K, s.counts, BUCKETS - 1, s.idsums, BUCKETS, stored, SKETCH, &t.place);
    CHECK_REFUSED(t, GABUNLITIK_LENGTH, 0, &s, &kept);
    CHECK_REFUSED(read_sketch(&s, longer.bytes, SKETCH + 1), GABUNLITIK_FORM, SKETCH, &s, &kept);
    CHECK_REFUSED(read_sketch(&s, stream, STREAM), GABUNLITIK_FORM, 38, &s, &kept);
    CHECK_REFUSED(read_changed_sketch(&s, 60, 255), GABUNLITIK_DAMAGE, 51, &s, &kept); /* an idsum above its limit */
    CHECK_REFUSED(read_changed_sketch(&s, 55, 2), GABUNLITIK_FORM, 51, &s, &kept);     /* index 2 again */
    CHECK_REFUSED(read_changed_sketch(&s, 81, 2), GABUNLITIK_FORM, 77, &s, &kept);     /* a wrong end count */
    CHECK_REFUSED(read_changed_sketch(&s, 68, 10), GABUNLITIK_FORM, 64, &s, &kept);    /* an index past the last */
    CHECK_REFUSED(read_changed_sketch(&s, 51, 2), GABUNLITIK_FORM, 51, &s, &kept);     /* packets */
    CHECK_REFUSED(read_changed_sketch(&s, 5, 4), GABUNLITIK_MISMATCH, 0, &s, &kept);   /* m 4 in the head */
    CHECK_DONE(read_changed_sketch(&s, 43, 128)); /* a count of -2147483645 is within its limits */
    CHECK(bucket_is(&s, 2, -2147483645, 31));
}

/* An old sketch file with flow 0 in it is read, and written again byte for byte. */
static void old_sketch(void) {
    static const uint8_t old[] = {HEAD, 3, 0, 0, 0, 0, 0, 0, 0, 3, 0, 0, 0, 0, 3, 0, 0, 0, 5, 0, 0, 0, 3, 0, 0, 0, 0, 4, 0, 0, 0, 2};
    struct sketch s = e7(), wanted = of_flow_0();
    struct output o = unwritten();
    CHECK_DONE(read_sketch(&s, old, sizeof old));
    CHECK(same(&s, &wanted));
    CHECK_DONE(write_sketch(&o, ROOM, &s));
    CHECK(holds(&o, old, sizeof old));
    CHECK_DONE(read_stream(&s, stream, STREAM)); /* packets go in beside it */
    CHECK_DONE(subtract(&s, &wanted));
    wanted = e1();
    CHECK(same(&s, &wanted));
}

static void refused_writing(void) {
    static const uint32_t no_flow[] = {7, 2147483647}, flow_0[] = {7, 0}, no_number[] = {0, 1};
    struct sketch s = e1(), kept = s;
    struct output o = unwritten();
    struct returned t = nothing_yet();
    t.number = gabunlitik_write_stream(BAD, flows, 2, numbers, 2, o.bytes, ROOM, &o.length, &t.place);
    CHECK_RETURNS(t, GABUNLITIK_PARAM, 0);
    check_unwritten(&o);
    t = nothing_yet();
    t.number = gabunlitik_write_stream(K, flows, 2, numbers, 1, o.bytes, ROOM, &o.length, &t.place);
    CHECK_RETURNS(t, GABUNLITIK_LENGTH, 0);
    check_unwritten(&o);
    t = nothing_yet();
    t.number = gabunlitik_write_stream(K, flows, 1, numbers, 2, o.bytes, ROOM, &o.length, &t.place);
    CHECK_RETURNS(t, GABUNLITIK_LENGTH, 0);
    check_unwritten(&o);
    CHECK_RETURNS(write_stream(&o, STREAM - 1, flows, 2, numbers), GABUNLITIK_LENGTH, 0);
    check_unwritten(&o);
    CHECK_RETURNS(write_stream(&o, ROOM, no_flow, 2, no_number), GABUNLITIK_FLOW, 0);
    check_unwritten(&o);
    CHECK_RETURNS(write_stream(&o, ROOM, flow_0, 2, no_number), GABUNLITIK_FLOW, 0);
    check_unwritten(&o);
    CHECK_RETURNS(write_stream(&o, ROOM, flows, 2, no_number), GABUNLITIK_COUNT, 0);
    check_unwritten(&o);
    t = nothing_yet();
    t.number = gabunlitik_write_sketch(BAD, s.counts, BUCKETS, s.idsums, BUCKETS, o.bytes, ROOM, &o.length, &t.place);
    CHECK_REFUSED(t, GABUNLITIK_PARAM, 0, &s, &kept);
    check_unwritten(&o);
    CHECK_REFUSED(write_sketch(&o, SKETCH - 1, &s), GABUNLITIK_LENGTH, 0, &s, &kept);
    check_unwritten(&o);
    s.idsums[7] = kept.idsums[7] = 2147483647;
    CHECK_REFUSED(write_sketch(&o, ROOM, &s), GABUNLITIK_DAMAGE, 7, &s, &kept);
    check_unwritten(&o);
}

/* Damaged buckets count as records, so that an output which is one byte too short for them is LENGTH. */
static void damaged_writing(void) {
    static uint8_t out[43 + 13 * BUCKETS], kept[43 + 13 * BUCKETS];
    struct sketch s = fresh_sketch();
    for (size_t room = sizeof out - 1; room <= sizeof out; room++) {
        struct returned t = nothing_yet();
        size_t length;
        memset(&length, 0xa5, sizeof length);
        memset(s.idsums, 0xff, sizeof s.idsums);
        t.number = gabunlitik_write_sketch(K, s.counts, BUCKETS, s.idsums, BUCKETS, out, room, &length, &t.place);
        CHECK_RETURNS(t, room == sizeof out ? GABUNLITIK_DAMAGE : GABUNLITIK_LENGTH, 0);
        CHECK(length == 0 && memcmp(out, kept, sizeof out) == 0);
    }
}

void test_files(void) {
    there_and_back();
    heads();
    refused_streams();
    refused_sketches();
    old_sketch();
    refused_writing();
    damaged_writing();
}
