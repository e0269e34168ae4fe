"""Scripts of calls on sketches in memory: each kind a function, with a line on what it makes."""

from generator import sound
from generator.commands import OUTPUT_ROOM, ROOM, SLICES, Script
from generator.files import LAST, MOST, P, WORD, sketch_length, stream_length
from generator.values import (
    any_divisor, any_flow, any_params, any_pair, bad_fifth, broken, extended, four_pairs, has_fingerprints, last_flow,
    no_divisor, no_flow, other_profile, owners, params_of, place, position, small_entries, stands, uniform_flow, with_constant)

# Sound differences whose walks are short enough to be tried with one allowance after the other.
DIFFERENCES = (
    sound.tiny, sound.tiny, sound.many_flows, sound.wide, sound.meets_the_range, sound.meets_the_table, sound.searched,
    sound.false_pure, sound.comes_out_as_zero, sound.cancelled, sound.at_the_limits, sound.duplicates, sound.ring_link,
    sound.shared_buckets, sound.shared_buckets, sound.comes_out_at_the_edge, sound.circling)

# Where both counts are at most this in size, the library looks no further for a sum that leaves the limits.
QUIET = 10**9

# Counts and idsums at their limits and past them.
COUNTS = (0, 1, -1, MOST, -MOST, MOST - 1, 1 - MOST, QUIET, -QUIET, QUIET + 1, -QUIET - 1)
IDSUMS = (0, 1, P - 1)
DAMAGED_COUNTS = (P, -P, -2**31)
DAMAGED_IDSUMS = (P, 2**31, WORD)


def indexes(params, flow):
    return [i * params.m + position(params, i, flow) for i in range(params.d)]


def any_number(rng, params):
    """A number that a bucket may come out as: one that is sketched for a flow; for 0 or, with fingerprints, for 8388607, which are none; one
    with a wrong fingerprint; any."""
    if not has_fingerprints(params):
        return rng.choice((any_flow(rng, params), any_flow(rng, params), 0))
    flow = any_flow(rng, params)
    right = extended(params, flow)
    wrong = right ^ rng.choice((1, 128, rng.randint(1, 255)))
    return rng.choice((right, right, right, wrong, flow, extended(params, 0), 0, extended(params, LAST + 1), P - 1, rng.randint(0, P - 1))) % P


def any_count(rng):
    return rng.choice(COUNTS + (rng.randint(-9, 9), rng.randint(-MOST, MOST)))


def any_idsum(rng):
    return rng.choice(IDSUMS + (rng.randint(0, 9), rng.randint(0, P - 1)))


def damaged(rng):
    """A count and an idsum, one of them or both outside their limits."""
    return rng.choice((
        (rng.choice(DAMAGED_COUNTS), any_idsum(rng)), (any_count(rng), rng.choice(DAMAGED_IDSUMS)),
        (rng.choice(DAMAGED_COUNTS), rng.choice(DAMAGED_IDSUMS))))


def damage(rng, script, sketch, index):
    """Damages the count, the idsum or both of a bucket."""
    script.bucket(index, *damaged(rng), sketch)


def any_content(rng, script, sketch, params):
    """Buckets of any content within the limits, or none."""
    size = params.d * params.m
    for _ in range(rng.choice((0, 1, 3, min(size, 12)))):
        script.bucket(rng.randrange(size), any_count(rng), any_idsum(rng), sketch)


def put_in(rng, script, sketch, entries):
    """Packets put in one by one, or all at once."""
    if rng.random() < 0.5:
        for entry in entries:
            script.add("insert", sketch, entry)
    else:
        script.packets(entries)
        script.add("insert all", sketch)


def walks(rng):
    """A sound difference, peeled with a table of any length and a usual, a small or the largest allowance."""
    params, upstream, downstream = rng.choice(DIFFERENCES + (sound.lost, sound.crowded))(rng)
    size = params.d * params.m
    script = Script()
    script.sketch(1, params)
    script.sketch(2, params)
    put_in(rng, script, 1, upstream)
    put_in(rng, script, 2, downstream)
    script.add("subtract")
    slots = rng.choice((size, size, size, 0, 1, rng.randint(0, size), 2 * size))
    script.table(params, slots, rng.choice((0, 9, WORD)))
    script.add("peel", 1, (rng.choice((8 * size, 8 * size, 8 * size, rng.randint(0, 3 * size), 20 * size)),))
    script.show()
    if rng.random() < 0.3:
        script.add("peel", 1, (rng.randint(0, size),))
        script.show()
    return script.bytes


def each_allowance(rng):
    """One difference peeled with every small allowance, or every small table, so that each ending also meets its last pop or slot."""
    params, upstream, downstream = rng.choice(DIFFERENCES)(rng)
    size = params.d * params.m
    script = Script()
    script.sketch(1, params)
    script.sketch(2, params)
    put_in(rng, script, 2, upstream)
    put_in(rng, script, 1, downstream)
    script.add("subtract", 2)
    by_slots = rng.random() < 0.4
    for number in range(rng.choice((4, 8, 16))):
        script.add("fresh")
        script.add("add")
        script.table(params, number if by_slots else size, number)
        script.add("peel", 1, (8 * size if by_slots else number,))
        script.add("show")
    return script.bytes


def own_buckets(rng):
    """Flows that each have a bucket of their own in the first array, whose numbers may come to the limit, peeled with just enough slots and pops,
    or one fewer."""
    params = any_params(rng, 1, rng.choice((3, 8, 30)))
    entries = owners(rng, params, MOST)
    script = Script()
    script.sketch(1, params)
    for flow, number in entries:
        script.add("insert" if number > 0 else "withdraw", 1, (flow, abs(number)))
    many = len(entries)
    slots = rng.choice((many, many, many - 1, many + 1))
    script.table(params, slots, rng.choice((0, 9, WORD)))
    script.add("peel", 1, (rng.choice((many, many, many - 1, params.d * many)),))
    script.show()
    return script.bytes


# Arrays, and buckets in each, of sketches whose walks find more flows than there are buckets: four times two do so most often.
CIRCLING = ((4, 2),) * 5 + ((3, 2),) * 2 + ((4, 1), (3, 1), (2, 2))


def long_tables(rng):
    """Few buckets of any content, walked round and round: many tables go on past the queue's length, and flows there are taken again."""
    d, m = rng.choice(CIRCLING)
    params = params_of(rng, d, m)
    if has_fingerprints(params):
        return long_tables_with_fingerprints(rng, with_constant(rng, params))
    size = d * m
    script = Script()
    script.sketch(1, params)
    script.sketch(2, params)
    for _ in range(rng.randint(2, 5)):
        most = rng.choice((3, 1000, 10**6, 10**6, MOST // 50))
        if rng.random() < 0.8:
            for index in range(size):
                script.bucket(index, rng.choice((-1, 1)) * rng.randint(1, most), rng.randint(0, P - 1))
        else:
            put_in(rng, script, 2, [(uniform_flow(rng, params), rng.randint(1, most)) for _ in range(rng.randint(2, size))])
            script.add("subtract")
        script.table(params, rng.choice((size + 1, 2 * size, 5 * size, 1000, 1000)), rng.choice((0, 9, WORD)))
        script.add("peel", 1, (rng.choice((100, 500, 2000)),))
        script.add("show")
    return script.bytes


def long_tables_with_fingerprints(rng, params):
    """With fingerprints that are all one number, buckets of few packets of flows whose distances have many divisors: what comes out of a bucket
    after some takes is a flow often enough that some tables grow as long."""
    size = params.d * params.m
    script = Script()
    script.sketch(1, params)
    for _ in range(rng.randint(2, 5)):
        factor = rng.choice((1, 1, 1000))
        for index in range(size):
            count = factor * rng.choice((1, -1, 1, -1, 2, -2, 3))
            script.bucket(index, count, count * extended(params, LAST // 2 + 2**9 * 3**3 * rng.randint(-100, 100)) % P)
        script.table(params, rng.choice((size + 1, 2 * size, 5 * size, 1000, 1000)), rng.choice((0, 9, WORD)))
        script.add("peel", 1, (rng.choice((100, 500, 2000)),))
        script.add("show")
    return script.bytes


def any_buckets(rng):
    """Buckets of any content peeled: such as no packets made, at the limits, of flow 0, with a count of 0 and an idsum that is not; with
    fingerprints, such as come out as a number that no flow has."""
    params = any_params(rng, 1, rng.choice((1, 3, 6)))
    size = params.d * params.m
    script = Script()
    script.sketch(1, params)
    for index in range(size):
        number = any_number(rng, params)
        count = any_count(rng)
        pure = index % params.m == stands(params, index // params.m, number) or rng.random() < 0.3
        script.bucket(index, count, count * number % P if pure else any_idsum(rng))
    script.table(params, rng.choice((size, size, 0, 1, 2)), 5)
    if rng.random() < 0.2:
        damage(rng, script, 1, place(rng, 0, size - 1))
    script.add("peel", 1, (rng.choice((8 * size, 500, rng.randint(0, 9))),))
    script.show()
    return script.bytes


def one_flow(rng):
    """A single flow peeled with the largest allowance, also flow 0 as old sketches hold it: any other sketch could be walked without end."""
    params = any_params(rng, 1, 9)
    script = Script()
    script.sketch(1, params)
    script.sketch(2, params)
    number = rng.choice((1, QUIET, QUIET + 1, MOST, rng.randint(1, MOST)))
    if rng.random() < 0.7:
        script.add("insert", 2, (any_flow(rng, params), number))
    else:
        for index in indexes(params, 0):
            script.bucket(index, number, number * extended(params, 0) % P, 2)
    script.add(rng.choice(("add", "subtract")))
    script.table(params, rng.choice((0, 1, 1, 5)), 3)
    script.add("peel", 1, (rng.choice((0, 1, WORD, WORD)),))
    script.show()
    return script.bytes


def moved(rng, name, sign):
    """Packets put in, or taken out where the sign is -1, with the buckets of a flow near the limit on that side, damaged, or both."""
    params = any_params(rng, 1, 8)
    script = Script()
    script.sketch(1, params)
    any_content(rng, script, 1, params)
    for _ in range(rng.randint(1, 4)):
        flow = any_flow(rng, params)
        numbers = (1, MOST, rng.randint(1, MOST), 0, P, WORD) if rng.random() < 0.2 else (1, rng.randint(1, 9), QUIET, QUIET + 1, MOST)
        number = rng.choice(numbers)
        for index in indexes(params, flow):
            reached = rng.choice((MOST, MOST, MOST + 1, 0, 5))
            if rng.random() < 0.6:
                script.bucket(index, sign * max(reached - number, -MOST) if 0 < number <= MOST else 3, any_idsum(rng))
            if rng.random() < 0.1:
                damage(rng, script, 1, index)
        if rng.random() < 0.2:
            damage(rng, script, 1, rng.randrange(params.d * params.m))
        script.add(name, 1, (flow if rng.random() < 0.9 else no_flow(rng, params), number))
        script.add("show")
    return params, script


def inserts(rng):
    """Packets into any content, with the buckets of a flow near the limits, damaged, or both, and damage elsewhere."""
    return moved(rng, "insert", 1)[1].bytes


def withdrawals(rng):
    """Packets out of any content, likewise near the lower limit; then some put in and taken out again, or the other way round."""
    params, script = moved(rng, "withdraw", -1)
    entry = (any_flow(rng, params), rng.choice((1, rng.randint(1, 9), QUIET, QUIET + 1, MOST)))
    for name in rng.choice((("insert", "withdraw"), ("withdraw", "insert"), ("withdraw", "withdraw"))):
        script.add(name, 1, entry)
        script.add("show")
    return script.bytes


def lists(rng):
    """Many packets at once, the first, a middle or the last of which may be at fault; lists of two lengths."""
    params = any_params(rng, 1, 6)
    script = Script()
    script.sketch(1, params)
    any_content(rng, script, 1, params)
    entries = small_entries(rng, params, 8) + [(any_flow(rng, params), 1)]
    for _ in range(rng.choice((0, 1, 1, 2))):
        at = place(rng, 0, len(entries) - 1)
        flow, number = entries[at]
        entries[at] = rng.choice((
            (no_flow(rng, params), number), (no_flow(rng, params), 0), (flow, 0), (flow, P), (flow, MOST), (flow, MOST),
            (flow, MOST - rng.randint(0, 9))))
    if len(entries) > 1 and rng.random() < 0.1:
        # The first packet that is refused decides: COUNT there comes before FLOW at the last one.
        entries[0], entries[-1] = (any_flow(rng, params), rng.choice((0, P))), (no_flow(rng, params), 1)
    script.packets(entries)
    if rng.random() < 0.2:
        flow, _ = rng.choice(entries)
        damage(rng, script, 1, rng.choice(indexes(params, min(flow, last_flow(params)))))
    if rng.random() < 0.1:
        script.length(rng.choice(("packet flows", "packet numbers")), rng.choice((0, len(entries) - 1, len(entries) + 1)))
    script.add("insert all")
    script.add("show")
    return script.bytes


def sums(rng):
    """Sketches of any content added and subtracted, some to the limits and past them, some damaged in either."""
    params = any_params(rng, 1, 6)
    size = params.d * params.m
    script = Script()
    for sketch in (1, 2):
        script.sketch(sketch, params)
        any_content(rng, script, sketch, params)
    sign = rng.choice((1, -1))
    for _ in range(rng.randint(0, 3)):
        index = place(rng, 0, size - 1)
        count, other = any_count(rng), any_count(rng)
        if rng.random() < 0.6:
            reached = rng.choice((-1, 1)) * rng.choice((MOST, MOST + 1, MOST + 2))
            other = max(-MOST, min(MOST, sign * (reached - count)))
        script.bucket(index, count, any_idsum(rng))
        script.bucket(index, other, any_idsum(rng), 2)
    for _ in range(rng.choice((0, 0, 0, 1, 2))):
        damage(rng, script, rng.choice((1, 2)), place(rng, 0, size - 1))
    script.add("add" if sign == 1 else "subtract", rng.choice((1, 1, 2)))
    script.show()
    script.add(rng.choice(("add", "subtract")))
    script.show()
    return script.bytes


def changed(rng, params):
    """Sound parameters that differ in one thing from the given ones."""
    d, m, pairs = params.d, params.m, list(params.pairs)
    thing = rng.choice(("d", "m", "pair", "order", "profile", "profile"))
    if thing == "profile":
        return other_profile(rng, params)
    if thing == "d":
        d = rng.choice([each for each in (2, 3, 4) if each != d])
        return params._replace(d=d, pairs=four_pairs(rng, d))
    if thing == "m":
        return params._replace(m=m + rng.choice((1, -1)) if m > 1 else 2)
    if thing == "pair":
        a, b = pairs[d - 1]
        pairs[rng.randrange(d)] = rng.choice(((a % (P - 1) + 1, b), (a, (b + 1) % P), any_pair(rng)))
    else:
        first, second = rng.sample(range(d), 2)
        pairs[first], pairs[second] = pairs[second], pairs[first]
    return params._replace(pairs=tuple(pairs))


def bad_params(rng, params):
    """Parameters that break one rule, also those of too few or too many arrays whose pairs are right, and numbers that a head does not have."""
    pairs, none = params.pairs, ((0, 0),)
    return rng.choice((
        broken(rng, params), broken(rng, params), broken(rng, params), params._replace(d=0, pairs=none * 4),
        params._replace(d=1, pairs=pairs[:1] + none * 3), params._replace(d=5, pairs=four_pairs(rng, 4)), params._replace(d=WORD),
        params._replace(fifth=bad_fifth(rng)), params._replace(prime=rng.choice((0, 2, 3, P, WORD))),
        params._replace(sort=rng.choice((1, 2, P, WORD)))))


def wrong_length(rng, length):
    return rng.choice([each for each in (0, length - 1, length + 1, 2 * length, ROOM, WORD) if each >= 0 and each != length])


def orders(rng):
    """Several faults of a call at once: bad parameters of either sketch, other ones, lengths of any slice, damage, range."""
    params = any_params(rng, 1, 6)
    size = params.d * params.m
    script = Script()
    for sketch in (1, 2):
        script.sketch(sketch, params)
        any_content(rng, script, sketch, params)
    script.packets(small_entries(rng, params, 3))
    script.table(params, 3, 7)
    script.length("output", rng.choice((60, 200)))
    script.fill("output", 170)
    for sketch in (1, 2):
        if rng.random() < 0.3:
            damage(rng, script, sketch, place(rng, 0, size - 1))
    for sketch in (1, 2):
        if rng.random() < 0.2:
            script.params(sketch, rng.choice((bad_params, changed))(rng, params))
    for _ in range(rng.choice((0, 1, 1, 2))):
        wrong_slice(rng, script, size)
    call_all(rng, script, params)
    return script.bytes


def wrong_slice(rng, script, size):
    slice_name = rng.choice(SLICES)
    right = {"output": 43, "table flows": 3, "table counts": 3}.get(slice_name, size)
    script.length(slice_name, wrong_length(rng, right), rng.choice((1, 1, 1, 2)))


def calls(rng, params):
    """All calls that have no file as operand, in any order."""
    flow = rng.choice((any_flow(rng, params), any_flow(rng, params), no_flow(rng, params)))
    made = [
        ("insert", (flow, rng.choice((1, 1, 0, MOST)))), ("withdraw", (flow, rng.choice((1, 1, 0, MOST)))), ("insert all", ()), ("add", ()), ("subtract", ()),
        ("peel", (rng.randint(0, 30),)), ("write stream", ()), ("write sketch", ()), ("read stream back", ()),
        ("read sketch back", ()), ("position", (rng.randint(0, params.d + 1), flow)),
        ("index", (rng.randint(0, params.d + 1), flow)), ("fresh", ()),
        ("fold", (rng.choice((params.m, any_divisor(rng, params.m), no_divisor(rng, params))),))]
    rng.shuffle(made)
    return made


def call_all(rng, script, params):
    """All these calls; a show comes before each that may write over what a refused one altered, and at the end. The fold comes last, since
    it alters the parameters."""
    for name, operands in sorted(calls(rng, params), key=lambda call: call[0] == "fold"):
        if name in ("fresh", "peel", "read sketch back", "write stream", "write sketch", "fold"):
            script.show()
        script.add(name, 1, operands)
    script.show()


def lengths(rng):
    """One slice of a wrong length for one call; the call again when it is right."""
    params = any_params(rng, 1, 5)
    size = params.d * params.m
    script = Script()
    for sketch in (1, 2):
        script.sketch(sketch, params)
        any_content(rng, script, sketch, params)
    script.packets(small_entries(rng, params, 3))
    script.table(params, 4, 3)
    script.length("output", 400)
    script.fill("output", 85)
    name, operands = rng.choice(calls(rng, params))
    wrong_slice(rng, script, size)
    script.add(name, 1, operands)
    script.show()
    for sketch in (1, 2):
        script.sketch(sketch, params)
    script.table(params, 4, 3)
    script.add(name, 1, operands)
    script.show()
    return script.bytes


def parameters(rng):
    """Every call with parameters that break one rule."""
    params = any_params(rng, 1, 5)
    script = Script()
    for sketch in (1, 2):
        script.sketch(sketch, params)
        any_content(rng, script, sketch, params)
    script.packets(small_entries(rng, params, 3))
    script.table(params, 4, 3)
    script.length("output", 100)
    script.params(rng.choice((1, 1, 2)), bad_params(rng, params))
    call_all(rng, script, params)
    return script.bytes


def places(rng):
    """Positions and indexes of flows in arrays, also such as there are not."""
    params = any_params(rng, 1, 16384)
    params = params._replace(m=rng.choice((params.m, 16384, 1)))
    script = Script()
    script.params(1, params if rng.random() < 0.8 else bad_params(rng, params))
    for _ in range(rng.randint(1, 12)):
        array = rng.choice((0, 1, params.d, params.d + 1, rng.randint(1, 4), WORD))
        flow = rng.choice((any_flow(rng, params), any_flow(rng, params), no_flow(rng, params)))
        script.add(rng.choice(("position", "index")), 1, (array, flow))
    return script.bytes


def long_lists(rng):
    """A small sketch with a table and a list of packets of the greatest length, or one longer."""
    params = any_params(rng, 1, 4)
    script = Script()
    script.sketch(1, params)
    for entry in small_entries(rng, params, 3):
        script.add("insert", 1, entry)
    script.table(params, rng.choice((65536, ROOM)), 7, 3)
    script.add("peel", 1, (rng.randint(0, 50),))
    listed = rng.choice((65535, 65536, ROOM))
    for slice_name, number in (("packet flows", any_flow(rng, params)), ("packet numbers", rng.choice((0, 1, 40000)))):
        script.length(slice_name, listed)
        script.fill(slice_name, number)
    exact = stream_length(params, listed)
    script.length("output", rng.choice((OUTPUT_ROOM, exact, exact - 1)))
    script.fill("output", 0, 0, OUTPUT_ROOM)
    script.add("write stream")
    script.add("read stream back")
    script.add("show")
    return script.bytes


def largest(rng):
    """The largest sketch, or nearly: packets, a file of all its buckets, a long table, a long list."""
    d = rng.choice((4, 4, 3, 2))
    params = params_of(rng, d, rng.choice((16384, 16384, 16383)))
    size = params.d * params.m
    exact = sketch_length(params, size)
    script = Script()
    script.sketch(1, params)
    script.sketch(2, params)
    for _ in range(rng.randint(1, 30)):
        script.add("insert", rng.choice((1, 2)), (any_flow(rng, params), rng.randint(1, 9)))
    script.add("subtract")
    script.length("output", rng.choice((OUTPUT_ROOM, exact, exact - 1)))
    many = rng.choice((0, 0, size, size, 3))
    script.fill("counts", rng.randint(1, 9), 0, many, 2)
    script.add("write sketch", 2)
    script.add("read sketch back", 2)
    slots = rng.choice((65536, 65536, ROOM, size))
    script.table(params, slots, 1, 5)
    if many < size:
        script.add("peel", 1, (rng.randint(0, 200),))
    script.add("show", 1)
    listed = rng.choice((65536, ROOM, 3000))
    for slice_name, number in (("packet flows", any_flow(rng, params)), ("packet numbers", rng.choice((1, 1, 40000)))):
        script.length(slice_name, listed)
        script.fill(slice_name, number)
    script.add("write stream")
    script.add("read stream back")
    script.add("insert all")
    script.add("show", 1)
    return script.bytes
