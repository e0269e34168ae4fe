"""Scripts about the two profiles: the numbers that tell them apart at their edges, flows at theirs, calls and files across profiles, buckets that
come out as a number with a wrong fingerprint or with a right one, and crowded buckets in both profiles."""

from generator import sound
from generator.commands import Script
from generator.files import LAST, MOST, P, WORD, end, head, head_of_one, head_of_ten, sketch_file, stream
from generator.script_calls import any_content, any_count, call_all, calls, put_in
from generator.script_files import any_file, any_sketch_file, any_stream, sketched
from generator.values import (
    any_fifth, any_flow, any_params, extended, other_profile, place, plain, small_entries, stands)

# What the numbers after the four pairs may be, and the next ones that they may not.
FIFTHS = (
    (0, 0), (0, 1), (0, P - 1), (0, P), (0, WORD), (1, 0), (1, P - 1), (1, P), (1, WORD), (P - 1, 0), (P - 1, P - 1), (P - 1, P), (P, 0),
    (P + 1, 0), (2**31, 0), (WORD, 0), (WORD, WORD))
PRIMES = (0, 1, 1, 2, 3, WORD)
SORTS = (0, 0, 1, 2, WORD)

# Flows at the edges of both profiles.
FLOWS = (0, 1, LAST - 1, LAST, LAST + 1, LAST + 2, 2**24, P - 1, P, WORD)


def with_fingerprints(rng, least, most):
    params = any_params(rng, least, most)
    return params._replace(fifth=any_fifth(rng, params.pairs))


def at_an_edge(rng, params):
    """One of the numbers after the four pairs at its edge, in a few cases two of them."""
    way = rng.choice(("fifth", "fifth", "fifth", "prime", "sort", "two"))
    if way in ("fifth", "two"):
        params = params._replace(fifth=rng.choice(FIFTHS))
    if way in ("prime", "two"):
        params = params._replace(prime=rng.choice(PRIMES))
    if way == "sort":
        params = params._replace(sort=rng.choice(SORTS))
    return params


def lent(rng, params, least_output=400):
    """Two sketches of these parameters with any content, and all else that calls are lent."""
    script = Script()
    for sketch in (1, 2):
        script.sketch(sketch, params)
        any_content(rng, script, sketch, params)
    script.packets(small_entries(rng, params, 3))
    script.table(params, 4, 3)
    script.length("output", least_output)
    return script


def fifth_pairs(rng):
    """Calls with a fifth pair, a number of the prime or a last number at its edge or past it, in one sketch or in both."""
    params = any_params(rng, 1, 4)
    script = lent(rng, params)
    for _ in range(rng.randint(1, 4)):
        edge = at_an_edge(rng, params)
        for sketch in rng.choice(((1,), (2,), (1, 2), (1, 2))):
            script.params(sketch, edge)
        for name, operands in rng.sample(calls(rng, edge), 5):
            script.add(name, 1, operands)
        script.show()
        # A fold may have altered the sizes.
        for sketch in (1, 2):
            script.params(sketch, params)
            script.length("counts", params.d * params.m, sketch)
            script.length("idsums", params.d * params.m, sketch)
    call_all(rng, script, params)
    return script.bytes


def edge_flows(rng):
    """The first and the last flow of each profile and the numbers next to them, in every call that takes a flow."""
    params = any_params(rng, 1, 8)
    params = params if rng.random() < 0.3 else params._replace(fifth=any_fifth(rng, params.pairs))
    script = Script()
    script.sketch(1, params)
    script.length("output", 150)
    for flow in rng.sample(FLOWS, rng.randint(3, len(FLOWS))):
        number = rng.choice((1, 1, 7, 0, P))
        for name in rng.sample(("insert", "withdraw", "position", "index", "list", "write", "read"), 4):
            if name in ("insert", "withdraw"):
                script.add(name, 1, (flow, number))
            elif name in ("position", "index"):
                script.add(name, 1, (rng.choice((0, 1, params.d, params.d + 1)), flow))
            elif name == "read":
                script.read("read stream", b"".join(stream(params, [(1, 1), (flow, number)])))
            else:
                script.packets([(any_flow(rng, params), 2), (flow, number)])
                script.add("insert all" if name == "list" else "write stream")
        script.add("show")
    script.add("read stream back")
    script.add("show")
    return script.bytes


def across_profiles(rng):
    """Two sketches that differ in the fifth pair: sums, differences, and the files of each read into the other. Then the same where they do
    not differ."""
    params = any_params(rng, 1, 5)
    other = other_profile(rng, params)
    both = (params, other) if rng.random() < 0.5 else (other, params)
    script = lent(rng, params)
    for sketch, own in zip((1, 2), both):
        script.params(sketch, own)
    for name in rng.sample(("add", "subtract", "stream", "sketch", "written stream", "written sketch"), 4):
        sketch = rng.choice((1, 2))
        theirs = both[2 - sketch]
        if name in ("add", "subtract"):
            script.add(name, sketch)
        elif name == "stream":
            script.read("read stream", b"".join(any_stream(rng, theirs)), sketch)
        elif name == "sketch":
            script.read("read sketch", b"".join(any_sketch_file(rng, theirs)), sketch)
        else:
            script.packets(small_entries(rng, theirs, 3))
            script.add("write stream" if name == "written stream" else "write sketch", 3 - sketch)
            script.add("head back", sketch)
            script.add("read stream back" if name == "written stream" else "read sketch back", sketch)
        script.show()
    same = rng.choice(both)
    for sketch in (1, 2):
        script.params(sketch, same)
    script.add(rng.choice(("add", "subtract")))
    script.read("read stream", b"".join(any_stream(rng, same)))
    script.show()
    return script.bytes


# The offset of each field in a head of kind 10, and how many bytes it has.
FIELDS = ((1, 1), (2, 4)) + tuple((6 + 4 * i, 4) for i in range(10))


def any_field(rng, data):
    """A head with one field changed."""
    at, size = rng.choice(FIELDS[-2:] + FIELDS)
    values = (0, 1, 2, 5, 255) if size == 1 else (0, 1, P - 1, P, P + 1, 2**31, WORD)
    return data[:at] + rng.choice(values).to_bytes(size, "big") + data[at + size:]


def heads_of_ten(rng):
    """Heads of kind 10 in files and alone: with any field changed, without a fifth pair, with the other kind, of the length of the other kind,
    where a record or an end is due, twice."""
    params = with_fingerprints(rng, 1, 6)
    script = Script()
    script.sketch(1, params if rng.random() < 0.8 else plain(params))
    any_content(rng, script, 1, params)
    kind = rng.choice(("stream", "sketch"))
    for _ in range(rng.randint(2, 6)):
        records = any_stream(rng, params) if kind == "stream" else any_sketch_file(rng, params)
        whole = records[0]
        way = rng.choice(("sound", "field", "field", "field", "none", "kind", "short", "long", "record", "twice", "one"))
        if way == "field":
            records[0] = any_field(rng, whole)
        elif way == "none":
            records[0] = head_of_ten(plain(params))
        elif way == "kind":
            records[0] = b"\x01" + whole[1:]
        elif way == "one":
            records[0] = head_of_one(params)
        elif way == "short":
            records[0] = whole[:rng.choice((37, 38, 39, 45))]
        elif way == "long":
            records[0] = whole + bytes(8)
        elif way == "record":
            records.insert(place(rng, 1, len(records)), rng.choice((whole, any_field(rng, whole), head_of_one(params))))
        elif way == "twice":
            records[0:1] = [whole, whole]
        data = b"".join(records)
        script.read("read " + kind, data)
        script.read("head", rng.choice((data, data, whole, records[0])))
    script.add("show")
    return script.bytes


def cut_heads(rng):
    """A head of kind 10 cut at every byte, read as a head and as a file; and the file whole."""
    params = with_fingerprints(rng, 1, 5)
    script = Script()
    script.sketch(1, params)
    kind = rng.choice(("stream", "sketch"))
    whole = head(params) if rng.random() < 0.7 else any_field(rng, head(params))
    for length in range(len(whole) + 1):
        script.read("head", whole[:length])
        script.read("read " + kind, whole[:length])
    script.read("read " + kind, whole + end(0))
    script.read("read " + kind, any_file(rng, params, kind))
    script.add("show")
    return script.bytes


def near(rng, params):
    """A number that may come out of a bucket: one of a flow; one that differs from it in the fingerprint alone; one of 0 or 8388607 with the
    right fingerprint or another; a flow's fingerprint with another flow. The last may be p or more, and then no number comes out as it."""
    flow = any_flow(rng, params)
    right = extended(params, flow)
    edge = rng.choice((0, LAST + 1))
    return rng.choice((
        right, right, right ^ rng.randint(1, 255), right ^ 1, extended(params, edge), extended(params, edge), 256 * edge + rng.randint(0, 254),
        256 * any_flow(rng, params) + right % 256)) % P


def near_fingerprints(rng):
    """Buckets that stand where the number that they come out as does, so that they pass in the plain profile, with right fingerprints and wrong
    ones; peeled in both profiles."""
    params = with_fingerprints(rng, 1, rng.choice((2, 4, 9)))
    size = params.d * params.m
    script = Script()
    script.sketch(1, params)
    script.sketch(2, plain(params))
    for _ in range(rng.randint(1, 6)):
        number, count = near(rng, params), rng.choice((1, -1, 2, rng.randint(1, 99), any_count(rng)))
        # In one array, in some of them, or in all.
        for i in rng.sample(range(params.d), rng.choice((1, params.d, params.d, rng.randint(1, params.d)))):
            for sketch in (1, 2):
                script.bucket(i * params.m + stands(params, i, number), count, count * number % P, sketch)
    slots, allowance = rng.choice((size, size, 1, 0)), rng.choice((8 * size, 8 * size, rng.randint(0, size)))
    for sketch in (1, 2):
        script.table(params, slots, rng.choice((0, 9)))
        script.add("peel", sketch, (allowance,))
        script.show()
    return script.bytes


def in_both_profiles(rng):
    """Flows of which two or three share buckets, and their extended numbers as flows in the plain profile: the same buckets, in files with
    other heads. Both are peeled; what passes as another number is taken in the plain profile alone."""
    params, upstream, downstream = rng.choice((sound.shared_buckets, sound.shared_buckets, sound.circling, sound.comes_out_at_the_edge))(rng)
    size = params.d * params.m
    script = Script()
    for sketch, own in ((1, params), (2, plain(params))):
        script.sketch(sketch, own)
        for name, entries in (("insert", upstream), ("withdraw", downstream)):
            for flow, number in entries:
                script.add(name, sketch, (flow if sketch == 1 else extended(params, flow), number))
    script.length("output", 300)
    for sketch in (1, 2):
        script.add("write sketch", sketch)
        script.show()
        script.add("head back")
        script.add("read sketch back", rng.choice((sketch, sketch, 3 - sketch)))
    for sketch in (1, 2):
        script.table(params, size, 0)
        script.add("peel", sketch, (rng.choice((8 * size, 8 * size, rng.randint(0, 9))),))
        script.show()
    return script.bytes


def folded_profiles(rng):
    """Sketches of flows with fingerprints, folded in one profile and, over extended numbers, in the other; files and differences of both, and
    the fold subtracted from the sketch that was made as small from the start."""
    params = with_fingerprints(rng, 1, 4)
    small, params = params, params._replace(m=params.m * rng.choice((2, 2, 3, 4)))
    entries = small_entries(rng, params, 8) + [(any_flow(rng, params), rng.randint(1, MOST // 30))]
    taken = [entry for entry in entries if rng.random() < 0.6]
    script = Script()
    script.sketch(1, params)
    put_in(rng, script, 1, entries)
    for entry in taken:
        script.add("withdraw", 1, entry)
    script.sketch(2, plain(params))
    put_in(rng, script, 2, [(extended(params, flow), number) for flow, number in entries])
    for flow, number in taken:
        script.add("withdraw", 2, (extended(params, flow), number))
    for sketch in (1, 2):
        script.add("fold", sketch, (small.m,))
    script.length("output", 400)
    script.add("write sketch", rng.choice((1, 2)))
    script.show()
    script.add("head back")
    # The two sketches have the same buckets, and are of two profiles.
    script.add("subtract", rng.choice((1, 2)))
    script.sketch(2, small)
    left = [(flow, number) for flow, number in entries] + [(flow, -number) for flow, number in taken]
    script.read("read sketch", b"".join(sketch_file(small, sketched(small, left))), 2)
    script.add("subtract", 2)
    script.show()
    size = small.d * small.m
    script.table(small, rng.choice((size, size, 2)), 0)
    script.add("peel", 1, (8 * size,))
    script.show()
    return script.bytes
