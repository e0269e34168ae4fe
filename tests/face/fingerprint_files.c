/* Stream files and sketch files of flows with fingerprints, read and written, and their heads, called from C. */
#include "filing.h"
#include "fingerprints.h"

#define ZEROS_16 0, 0, 0, 0, 0, 0, 0, 0, 0, 0, 0, 0, 0, 0, 0, 0
#define BODY 2, 0, 0, 0, 5, 0, 0, 0, 1, 0, 0, 0, 0, 64, 0, 0, 0, 0, 0, 0, 0, ZEROS_16
#define PLAIN_HEAD 1, BODY
#define HEAD 10, BODY, 0x77, 0x35, 0x94, 0x6e, 0, 0, 0, 7

enum { FIRST = PRINTED_HEAD_BYTES, STREAM = FIRST + 2 * 9 + 5, SKETCH = FIRST + 3 * 13 + 5 };

/* 7 by 1 and 17 by 2, the packets and the sketch. */
static const uint32_t flows[] = {7, 17}, numbers[] = {1, 2};
static const uint8_t stream[STREAM] = {HEAD, 2, 0, 0, 0, 7, 0, 0, 0, 1, 2, 0, 0, 0, 17, 0, 0, 0, 2, 4, 0, 0, 0, 2};
static const uint8_t stored[SKETCH] = {HEAD, 3, 0, 0, 0, 2, 0, 0, 0, 3, 0, 0, 0x29, 0xd7, 3, 0, 0, 0, 6, 0, 0, 0, 2,
                                       0, 0, 0x22, 0xc8, 3, 0, 0, 0, 7, 0, 0, 0, 1, 0, 0, 0x07, 0x0f, 4, 0, 0, 0, 3};

static void there_and_back(void) {
    struct sketch s = fresh_sketch(), wanted = printed_e1();
    struct output o = unwritten();
    CHECK_DONE(write_stream_under(PRINTED, &o, STREAM, flows, 2, numbers));
    CHECK(holds(&o, stream, STREAM));
    CHECK_DONE(read_stream_under(PRINTED, &s, o.bytes, o.length));
    CHECK(same(&s, &wanted));
    o = unwritten();
    CHECK_DONE(write_sketch_under(PRINTED, &o, SKETCH, &s));
    CHECK(holds(&o, stored, SKETCH));
    memset(s.idsums, 0xff, sizeof s.idsums); /* damage, which is not looked at */
    CHECK_DONE(read_sketch_under(PRINTED, &s, o.bytes, o.length));
    CHECK(same(&s, &wanted));
    CHECK_DONE(read_stream_under(PRINTED, &s, stream, STREAM)); /* packets go in beside the others */
    CHECK_DONE(withdraw_under(PRINTED, &s, 7, 1));
    CHECK_DONE(withdraw_under(PRINTED, &s, 17, 2));
    CHECK(same(&s, &wanted));
}

/* A file of no packets, and one of a sketch that is all zero, are the same: a head and an end. */
static void empty(void) {
    static const uint8_t file[] = {HEAD, 4, 0, 0, 0, 0};
    struct sketch s = fresh_sketch(), kept = s;
    struct output o = unwritten();
    CHECK_DONE(write_stream_under(PRINTED, &o, ROOM, flows, 0, numbers));
    CHECK(holds(&o, file, sizeof file));
    CHECK_DONE(read_stream_under(PRINTED, &s, file, sizeof file));
    CHECK(same(&s, &kept));
    o = unwritten();
    CHECK_DONE(write_sketch_under(PRINTED, &o, ROOM, &s));
    CHECK(holds(&o, file, sizeof file));
    s = printed_e1();
    CHECK_DONE(read_sketch_under(PRINTED, &s, file, sizeof file));
    CHECK(same(&s, &kept));
}

/* What stands after the head does not matter. A head of kind 1 has no fifth pair, whatever comes behind it. */
static void heads(void) {
    struct output o = changed(stream, STREAM, FIRST, 255);
    check_headed(read_head(stream, STREAM), PRINTED);
    check_headed(read_head(stored, SKETCH), PRINTED);
    check_headed(read_head(stream, FIRST), PRINTED);
    check_headed(read_head(o.bytes, o.length), PRINTED);
    for (size_t length = 0; length < FIRST; length++)
        check_headless(read_head(stream, length), GABUNLITIK_FORM);
    for (unsigned kind = 0; kind < 256; kind++) {
        o = changed(stream, STREAM, 0, (uint8_t)kind);
        if (kind == 1)
            check_headed(read_head(o.bytes, o.length), K);
        else if (kind != 10)
            check_headless(read_head(o.bytes, o.length), GABUNLITIK_FORM);
    }
}

/* A plain stream file whose first byte is 10: the eight bytes after the four pairs are taken for the fifth. */
static void plain_with_kind_10(void) {
    static const uint8_t file[] = {10, BODY, 2, 0, 0, 0, 7, 0, 0, 0, 1, 4, 0, 0, 0, 1};
    static const uint32_t read[GABUNLITIK_PARAMS] = {D, M, 1, 1073741824, 0, 0, 0, 0, 0, 0, GABUNLITIK_FIRST_PRIME,
                                                     33554432, 117440512, GABUNLITIK_PLAIN_SORT};
    struct sketch s = printed_e1(), kept = s;
    check_headed(read_head(file, sizeof file), read);
    check_headless(read_head(file, HEAD_BYTES), GABUNLITIK_FORM);
    CHECK_REFUSED(read_stream_under(read, &s, file, sizeof file), GABUNLITIK_FORM, FIRST, &s, &kept); /* a 1 for the kind */
    CHECK_REFUSED(read_stream_under(PRINTED, &s, file, sizeof file), GABUNLITIK_MISMATCH, 0, &s, &kept);
    CHECK_REFUSED(read_stream_under(K, &s, file, sizeof file), GABUNLITIK_MISMATCH, 0, &s, &kept);
}

/* A fifth pair at its limits and past them: in a head of kind 10 it is in use, so that (0, 0) breaks a rule too. */
static void fifth_pairs(void) {
    static const uint32_t at[] = {0, 1, 2147483646, 2147483647, 4294967295};
    for (size_t i = 0; i < 5; i++)
        for (size_t j = 0; j < 5; j++) {
            const uint32_t wanted[GABUNLITIK_PARAMS] = {D, M, 1, 1073741824, 0, 0, 0, 0, 0, 0, GABUNLITIK_FIRST_PRIME,
                                                        at[i], at[j], GABUNLITIK_PLAIN_SORT};
            uint8_t head[FIRST] = {HEAD};
            put(head + 38, at[i]);
            put(head + 42, at[j]);
            if (1 <= i && i <= 2 && j <= 2)
                check_headed(read_head(head, FIRST), wanted);
            else
                check_headless(read_head(head, FIRST), GABUNLITIK_PARAM);
            check_headless(read_head(head, FIRST - 1), GABUNLITIK_FORM);
        }
}

/* With (0, 0) it is not K either, for a caller who gives K. */
static void no_fifth_pair(void) {
    static const uint8_t file[] = {10, BODY, 0, 0, 0, 0, 0, 0, 0, 0, 4, 0, 0, 0, 0};
    struct sketch s = e1(), kept = s;
    CHECK_REFUSED(read_stream_under(K, &s, file, sizeof file), GABUNLITIK_PARAM, 0, &s, &kept);
    CHECK_REFUSED(read_stream_under(PRINTED, &s, file, sizeof file), GABUNLITIK_PARAM, 0, &s, &kept);
    CHECK_REFUSED(read_sketch_under(K, &s, file, sizeof file), GABUNLITIK_PARAM, 0, &s, &kept);
    CHECK_REFUSED(read_sketch_under(PRINTED, &s, file, sizeof file), GABUNLITIK_PARAM, 0, &s, &kept);
}

/* Each rule of the other numbers, after FORM. */
static void broken_heads(void) {
    for (size_t i = 0; i < HEAD_WAYS; i++) {
        uint8_t head[FIRST] = {HEAD};
        put_head(head, BROKEN[i]);
        head[0] = 10;
        check_headless(read_head(head, FIRST), GABUNLITIK_PARAM);
        check_headless(read_head(head, FIRST - 1), GABUNLITIK_FORM);
    }
}

typedef struct returned reading(const uint32_t *params, struct sketch *s, const uint8_t *bytes, size_t length);

/* FORM at the record that is cut, or at the file's length where one is missing; a head that is cut comes before the parameters that are
 * given, and these before what stands after it. */
static void check_cut(reading *read, const uint8_t *file, size_t length, size_t record) {
    struct sketch s = printed_e1(), kept = s;
    for (size_t cut = 0; cut < length; cut++) {
        int headless = cut < FIRST;
        CHECK_REFUSED(read(PRINTED, &s, file, cut), GABUNLITIK_FORM, headless ? 0 : cut - (cut - FIRST) % record, &s, &kept);
        CHECK_REFUSED(read(K, &s, file, cut), headless ? GABUNLITIK_FORM : GABUNLITIK_MISMATCH, 0, &s, &kept);
        CHECK_REFUSED(read(BAD, &s, file, cut), headless ? GABUNLITIK_FORM : GABUNLITIK_PARAM, 0, &s, &kept);
    }
}

static void cut(void) {
    check_cut(read_stream_under, stream, STREAM, 9);
    check_cut(read_sketch_under, stored, SKETCH, 13);
}

/* A kind in place of that of each record: FORM, save where it is the one that is due. */
static void check_kind(reading *read, const uint8_t *file, size_t length, size_t record, uint8_t kind) {
    struct sketch s = printed_e1(), kept = s;
    for (size_t at = FIRST; at < length; at += record) {
        struct output o = changed(file, length, at, kind);
        if (kind != file[at])
            CHECK_REFUSED(read(PRINTED, &s, o.bytes, o.length), GABUNLITIK_FORM, at, &s, &kept);
    }
}

static void check_both(const uint32_t *params, const uint8_t *file, size_t length, uint32_t number, size_t place) {
    struct sketch s = printed_e1(), kept = s;
    CHECK_REFUSED(read_stream_under(params, &s, file, length), number, place, &s, &kept);
    CHECK_REFUSED(read_sketch_under(params, &s, file, length), number, place, &s, &kept);
}

/* A head where a record is due, whole or not, of either kind and behind either kind. */
static void misplaced_heads(void) {
    static const uint8_t twice[] = {HEAD, HEAD, 4, 0, 0, 0, 1}, then_plain[] = {HEAD, PLAIN_HEAD, 4, 0, 0, 0, 1};
    static const uint8_t after_plain[] = {PLAIN_HEAD, HEAD, 4, 0, 0, 0, 1}, after_end[] = {HEAD, 4, 0, 0, 0, 0, HEAD};
    static const uint8_t after_packets[] = {PLAIN_HEAD, 2, 0, 0, 0, 7, 0, 0, 0, 1, HEAD, 4, 0, 0, 0, 2};
    struct sketch s = e1(), kept = s;
    check_both(PRINTED, twice, sizeof twice, GABUNLITIK_FORM, FIRST);
    check_both(PRINTED, then_plain, sizeof then_plain, GABUNLITIK_FORM, FIRST);
    check_both(K, after_plain, sizeof after_plain, GABUNLITIK_FORM, HEAD_BYTES);
    check_both(PRINTED, after_plain, sizeof after_plain, GABUNLITIK_MISMATCH, 0);
    check_both(PRINTED, after_end, sizeof after_end, GABUNLITIK_FORM, FIRST + 5);
    CHECK_REFUSED(read_stream_under(K, &s, after_packets, sizeof after_packets), GABUNLITIK_FORM, HEAD_BYTES + 9, &s, &kept);
    for (unsigned kind = 0; kind < 256; kind++) {
        check_kind(read_stream_under, stream, STREAM, 9, (uint8_t)kind);
        check_kind(read_sketch_under, stored, SKETCH, 13, (uint8_t)kind);
    }
}

/* The number of the second record's flow; and with a number of packets that is none. */
static void refused_packets(void) {
    for (size_t i = 0; i < EDGES; i++) {
        struct sketch s = fresh_sketch(), wanted = s, kept = s;
        struct output o = copied(stream, STREAM);
        uint32_t number = is_flow(edges[i]) ? GABUNLITIK_DONE : GABUNLITIK_FLOW;
        put(o.bytes + FIRST + 10, edges[i]);
        if (is_flow(edges[i])) {
            hold(&wanted, extended(7), 1);
            hold(&wanted, extended(edges[i]), 2);
        }
        CHECK_RETURNS(read_stream_under(PRINTED, &s, o.bytes, o.length), number, number == GABUNLITIK_DONE ? 0 : FIRST + 9);
        CHECK(same(&s, &wanted));
        s = kept;
        put(o.bytes + FIRST + 14, 0);
        number = is_flow(edges[i]) ? GABUNLITIK_COUNT : GABUNLITIK_FLOW;
        CHECK_REFUSED(read_stream_under(PRINTED, &s, o.bytes, o.length), number, FIRST + 9, &s, &kept);
    }
}

/* The greatest flow by the greatest number leaves no room for flow 17; damage has its bucket. */
static void refused_streams(void) {
    struct sketch s = fresh_sketch(), kept;
    CHECK_DONE(insert_under(PRINTED, &s, 8388606, 2147483646));
    kept = s;
    CHECK_REFUSED(read_stream_under(PRINTED, &s, stream, STREAM), GABUNLITIK_RANGE, FIRST + 9, &s, &kept);
    CHECK_REFUSED(read_stream_under(PRINTED, &s, stored, SKETCH), GABUNLITIK_FORM, FIRST, &s, &kept);
    s.idsums[9] = kept.idsums[9] = 2147483647;
    CHECK_REFUSED(read_stream_under(PRINTED, &s, stream, STREAM), GABUNLITIK_DAMAGE, 9, &s, &kept);
}

/* One byte of the sketch file is another. */
static void check_changed(size_t at, uint8_t byte, uint32_t number, size_t place) {
    struct sketch s = fresh_sketch(), kept = s;
    struct output o = changed(stored, SKETCH, at, byte);
    CHECK_REFUSED(read_sketch_under(PRINTED, &s, o.bytes, o.length), number, place, &s, &kept);
}

static void refused_sketches(void) {
    struct sketch s = printed_e1(), kept = s;
    struct output longer = changed(stored, SKETCH, SKETCH, 4);
    CHECK_REFUSED(read_sketch_under(PRINTED, &s, stream, STREAM), GABUNLITIK_FORM, FIRST, &s, &kept);
    CHECK_REFUSED(read_sketch_under(PRINTED, &s, longer.bytes, SKETCH + 1), GABUNLITIK_FORM, SKETCH, &s, &kept);
    check_changed(68, 255, GABUNLITIK_DAMAGE, 59); /* an idsum above its limit */
    check_changed(63, 2, GABUNLITIK_FORM, 59);     /* index 2 again */
    check_changed(76, 10, GABUNLITIK_FORM, 72);    /* an index past the last */
    check_changed(89, 2, GABUNLITIK_FORM, 85);     /* a wrong end count */
}

/* Idsums are sums: whether a number is that of a flow is asked by the walk alone. The last bucket, index 7, has 7 * 256 + 16. */
static void other_idsums(void) {
    struct output file = changed(stored, SKETCH, SKETCH - 6, 0x10), o = unwritten();
    struct sketch s = fresh_sketch();
    CHECK_DONE(read_sketch_under(PRINTED, &s, file.bytes, file.length));
    CHECK(bucket_is(&s, 7, 1, 1808));
    CHECK_DONE(write_sketch_under(PRINTED, &o, ROOM, &s));
    CHECK(holds(&o, file.bytes, file.length));
}

/* FLOW after LENGTH, and over all flows before COUNT over all numbers; the rest of the output is not touched. */
static void refused_lists(void) {
    static const uint32_t no_number[] = {0, 2};
    for (size_t i = 0; i < EDGES; i++) {
        const uint32_t of[] = {7, edges[i]};
        uint32_t number = is_flow(edges[i]) ? GABUNLITIK_DONE : GABUNLITIK_FLOW;
        struct output o = unwritten(), file = copied(stream, STREAM);
        put(file.bytes + FIRST + 10, edges[i]);
        CHECK_RETURNS(write_stream_under(PRINTED, &o, STREAM - 1, of, 2, no_number), GABUNLITIK_LENGTH, 0);
        check_unwritten(&o);
        CHECK_RETURNS(write_stream_under(PRINTED, &o, STREAM, of, 2, no_number), number ? number : GABUNLITIK_COUNT, 0);
        check_unwritten(&o);
        CHECK_RETURNS(write_stream_under(PRINTED, &o, STREAM, of, 2, numbers), number, 0);
        if (number == GABUNLITIK_DONE)
            CHECK(holds(&o, file.bytes, STREAM));
        else
            check_unwritten(&o);
    }
}

/* An output that would do without the fifth pair is LENGTH; damaged buckets count as records. */
static void refused_writing(void) {
    struct sketch s = printed_e1(), kept = s;
    struct output o = unwritten();
    for (size_t room = SKETCH - 8; room < SKETCH; room++) {
        CHECK_REFUSED(write_sketch_under(PRINTED, &o, room, &s), GABUNLITIK_LENGTH, 0, &s, &kept);
        check_unwritten(&o);
    }
    for (size_t room = STREAM - 8; room < STREAM; room++) {
        CHECK_RETURNS(write_stream_under(PRINTED, &o, room, flows, 2, numbers), GABUNLITIK_LENGTH, 0);
        check_unwritten(&o);
    }
    s.idsums[7] = kept.idsums[7] = 2147483647;
    CHECK_REFUSED(write_sketch_under(PRINTED, &o, SKETCH - 1, &s), GABUNLITIK_LENGTH, 0, &s, &kept);
    check_unwritten(&o);
    CHECK_REFUSED(write_sketch_under(PRINTED, &o, SKETCH, &s), GABUNLITIK_DAMAGE, 7, &s, &kept);
    check_unwritten(&o);
}

void test_fingerprint_files(void) {
    there_and_back();
    empty();
    heads();
    plain_with_kind_10();
    fifth_pairs();
    no_fifth_pair();
    broken_heads();
    cut();
    misplaced_heads();
    refused_packets();
    refused_streams();
    refused_sketches();
    other_idsums();
    refused_lists();
    refused_writing();
}
