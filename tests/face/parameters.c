/* The fourteen numbers of the parameters, at every call that is given them. */
#include "bench.h"

enum { SLOTS = 3, ROOM = 96 };

/* The calls. The last four are given two sets of parameters: those of a second sketch, or those in a file's head. */
enum call { FRESH, INSERT, WITHDRAW, INSERT_ALL, FOLD, PEEL, POSITION, INDEX, WRITE_STREAM, WRITE_SKETCH,
            ADD, SUBTRACT, READ_STREAM, READ_SKETCH, CALLS };

static const char *const names[CALLS] = {"fresh", "insert", "withdraw", "insert_all", "fold", "peel", "position", "index",
                                         "write_stream", "write_sketch", "add", "subtract", "read_stream", "read_sketch"};

/* What the calls are lent to write, with the other sketch; and what they return beside a number and a place. */
struct lent {
    struct sketch sketch, other;
    uint32_t table_flows[SLOTS];
    int32_t table_counts[SLOTS];
    uint32_t queue[BUCKETS], marks[BUCKETS];
    uint8_t out[ROOM];
    struct told {
        size_t found, length;
        uint64_t figures[GABUNLITIK_FIGURES];
        uint32_t params[GABUNLITIK_PARAMS];
    } told;
};

static struct sketch sound;

static struct lent lend(int faulty) {
    struct lent l;
    memset(&l, 0xa5, sizeof l);
    l.sketch = l.other = sound;
    if (faulty)
        l.sketch.counts[0] = -2147483647;
    return l;
}

/* A stream file with one packet, or a sketch file with one bucket. */
static size_t put_file(uint8_t *bytes, const uint32_t *params, uint8_t kind) {
    size_t at = put_head(bytes, params);
    bytes[at++] = kind;
    for (uint32_t i = 0; i < (kind == 2 ? 2 : 3); i++, at += 4)
        put(bytes + at, 7 + i);
    bytes[at] = 4;
    put(bytes + at + 1, 1);
    return at + 5;
}

/* In a faulty call the lengths, m2, the flow, its number, the room of the output and the end of the file are wrong too. */
static struct returned make(enum call call, const uint32_t *params, const uint32_t *other_params, struct lent *l, int faulty) {
    const uint32_t flow = faulty ? 0 : 7, number = faulty ? 0 : 1, m2 = faulty ? 0 : M;
    const size_t n = BUCKETS - (size_t)faulty, room = faulty ? 0 : ROOM;
    struct sketch *s = &l->sketch, *o = &l->other;
    struct returned t = nothing_yet();
    uint8_t file[ROOM];
    size_t length = 0;
    if (call == READ_STREAM || call == READ_SKETCH)
        length = put_file(file, other_params, call == READ_STREAM ? 2 : 3) - (size_t)faulty;
    switch (call) {
    case FRESH:
        t.number = gabunlitik_fresh(params, s->counts, n, s->idsums, n, &t.place);
        break;
    case INSERT:
        t.number = gabunlitik_insert(params, s->counts, n, s->idsums, n, flow, number, &t.place);
        break;
    case WITHDRAW:
        t.number = gabunlitik_withdraw(params, s->counts, n, s->idsums, n, flow, number, &t.place);
        break;
    case INSERT_ALL:
        t.number = gabunlitik_insert_all(params, s->counts, n, s->idsums, n, &flow, 1, &number, 1, &t.place);
        break;
    case FOLD:
        t.number = gabunlitik_fold(params, s->counts, n, s->idsums, n, m2, l->told.params, &t.place);
        break;
    case PEEL:
        t.number = gabunlitik_peel(params, s->counts, n, s->idsums, n, l->table_flows, SLOTS, l->table_counts, SLOTS, l->queue,
                                   n, l->marks, n, 80, l->told.figures, &t.place);
        break;
    case POSITION:
        t.number = gabunlitik_position(params, 1, flow, &l->told.found, &t.place);
        break;
    case INDEX:
        t.number = gabunlitik_index(params, 1, flow, &l->told.found, &t.place);
        break;
    case WRITE_STREAM:
        t.number = gabunlitik_write_stream(params, &flow, 1, &number, 1, l->out, room, &l->told.length, &t.place);
        break;
    case WRITE_SKETCH:
        t.number = gabunlitik_write_sketch(params, s->counts, n, s->idsums, n, l->out, room, &l->told.length, &t.place);
        break;
    case ADD:
        t.number = gabunlitik_add(params, other_params, s->counts, n, s->idsums, n, o->counts, n, o->idsums, n, &t.place);
        break;
    case SUBTRACT:
        t.number = gabunlitik_subtract(params, other_params, s->counts, n, s->idsums, n, o->counts, n, o->idsums, n, &t.place);
        break;
    case READ_STREAM:
        t.number = gabunlitik_read_stream(params, s->counts, n, s->idsums, n, file, length, &t.place);
        break;
    case READ_SKETCH:
        t.number = gabunlitik_read_sketch(params, s->counts, n, s->idsums, n, file, length, &t.place);
        break;
    case CALLS:
        break;
    }
    return t;
}

/* What a refused call returns is 0. */
static void tell_nothing(struct told *told, enum call call) {
    if (call == FOLD)
        memset(told->params, 0, sizeof told->params);
    if (call == PEEL)
        memset(told->figures, 0, sizeof told->figures);
    if (call == POSITION || call == INDEX)
        told->found = 0;
    if (call == WRITE_STREAM || call == WRITE_SKETCH)
        told->length = 0;
}

/* Refused, also where all that is judged later is wrong too, and nothing is altered. */
static void check_refused(enum call call, const uint32_t *params, const uint32_t *other_params, uint32_t number) {
    for (int faulty = 0; faulty < 2; faulty++) {
        struct lent l = lend(faulty), kept = l;
        struct returned t = make(call, params, other_params, &l, faulty);
        tell_nothing(&kept.told, call);
        check_returns(t, number, 0, __FILE__, __LINE__, names[call]);
        check(memcmp(&l, &kept, sizeof l) == 0, __FILE__, __LINE__, names[call]);
    }
}

/* Every call takes the parameters. */
static void check_good(const uint32_t *params) {
    for (int call = 0; call < CALLS; call++) {
        struct lent l = lend(0);
        check_returns(make(call, params, params, &l, 0), GABUNLITIK_DONE, 0, __FILE__, __LINE__, names[call]);
    }
}

/* Every call refuses the parameters that it is given, beside good ones of either profile too. */
static void check_broken(const uint32_t *params) {
    for (int call = 0; call < ADD; call++)
        check_refused(call, params, params, GABUNLITIK_PARAM);
    for (int call = ADD; call < CALLS; call++) {
        check_refused(call, params, K, GABUNLITIK_PARAM);
        check_refused(call, params, PRINTED, GABUNLITIK_PARAM);
    }
}

/* The second set of parameters, and both. */
static void check_broken_second(enum call call, const uint32_t *params) {
    check_refused(call, K, params, GABUNLITIK_PARAM);
    check_refused(call, PRINTED, params, GABUNLITIK_PARAM);
    check_refused(call, params, params, GABUNLITIK_PARAM);
}

static void check_all_broken(const uint32_t *params) {
    check_broken(params);
    check_broken_second(ADD, params);
    check_broken_second(SUBTRACT, params);
}

/* The same with another number at one place; K with another fifth pair. */
struct params {
    uint32_t numbers[GABUNLITIK_PARAMS];
};

static struct params with(const uint32_t *params, size_t at, uint32_t number) {
    struct params p;
    for (size_t i = 0; i < GABUNLITIK_PARAMS; i++)
        p.numbers[i] = i == at ? number : params[i];
    return p;
}

static struct params with_fifth(uint32_t multiplier, uint32_t offset) {
    struct params p = with(K, GABUNLITIK_FIFTH_MULTIPLIER, multiplier);
    return with(p.numbers, GABUNLITIK_FIFTH_OFFSET, offset);
}

/* A head can break the first rules too. */
static void broken(void) {
    check_good(K);
    check_good(PRINTED);
    for (size_t i = 0; i < WAYS; i++)
        check_all_broken(BROKEN[i]);
    for (size_t i = 0; i < HEAD_WAYS; i++) {
        struct params printed = with(BROKEN[i], GABUNLITIK_FIFTH_MULTIPLIER, 2000000110);
        check_all_broken(printed.numbers);
        check_broken_second(READ_STREAM, BROKEN[i]);
        check_broken_second(READ_SKETCH, BROKEN[i]);
        check_broken_second(READ_STREAM, printed.numbers);
        check_broken_second(READ_SKETCH, printed.numbers);
    }
}

/* A prime other than the first, and another last number, in either profile. The prime is told by its number, not by itself. */
static void prime_and_sort(void) {
    static const uint32_t primes[] = {0, 2, 257, 2147483647, 4294967291, 4294967295};
    static const uint32_t sorts[] = {1, 2, 256, 2147483648, 4294967295};
    for (int printed = 0; printed < 2; printed++) {
        const uint32_t *params = printed ? PRINTED : K;
        for (size_t i = 0; i < sizeof primes / sizeof primes[0]; i++) {
            struct params p = with(params, GABUNLITIK_PRIME, primes[i]);
            check_all_broken(p.numbers);
        }
        for (size_t i = 0; i < sizeof sorts / sizeof sorts[0]; i++) {
            struct params p = with(params, GABUNLITIK_SORT, sorts[i]);
            check_all_broken(p.numbers);
        }
    }
}

/* A fifth pair that is in use has the limits of any other, and may equal another, as (1, 0) does here; one that is not is (0, 0). A head
 * can hold each of them. */
static void fifth_pair(void) {
    static const uint32_t numbers[] = {0, 1, 2147483646, 2147483647, 4294967295};
    for (size_t i = 0; i < 5; i++)
        for (size_t j = 0; j < 5; j++) {
            struct params p = with_fifth(numbers[i], numbers[j]);
            if (i == 0 ? j == 0 : i <= 2 && j <= 2) {
                check_good(p.numbers);
            } else {
                check_all_broken(p.numbers);
                check_broken_second(READ_STREAM, p.numbers);
                check_broken_second(READ_SKETCH, p.numbers);
            }
        }
}

/* Sketches and files of the other profile, and of another fifth pair, both ways round. */
static void mismatches(void) {
    const uint32_t fifths[][2] = {{0, 0}, {2000000111, 7}, {2000000109, 7}, {2000000110, 8}, {2000000110, 6}, {7, 2000000110}};
    for (size_t i = 0; i < sizeof fifths / sizeof fifths[0]; i++) {
        struct params p = with_fifth(fifths[i][0], fifths[i][1]);
        for (int call = ADD; call < CALLS; call++) {
            check_refused(call, PRINTED, p.numbers, GABUNLITIK_MISMATCH);
            check_refused(call, p.numbers, PRINTED, GABUNLITIK_MISMATCH);
        }
    }
}

void test_parameters(void) {
    sound = e1();
    broken();
    prime_and_sort();
    fifth_pair();
    mismatches();
}
