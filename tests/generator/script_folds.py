"""Scripts of folds: sums at the limits, every refusal, folds of folds, and folded sketches in all that a sketch is for."""

from generator.commands import Script
from generator.files import MOST, P, WORD, sketch_file, stream
from generator.script_calls import DIFFERENCES, any_count, any_idsum, bad_params, damaged, put_in, wrong_length
from generator.script_files import sketched
from generator.values import any_divisor, any_flow, divisors, no_divisor, params_of, place, small_entries

# Buckets in an array before a fold: most of these numbers have several divisors.
SIZES = (1, 2, 3, 4, 5, 6, 6, 7, 8, 9, 12, 12, 12, 15, 16, 18, 20, 24, 30, 36)

# Whole sums that leave the limits: by one on either side, by more, and such as 32 bits would take for small ones.
LEAVING = (MOST + 1, -MOST - 1) * 4 + (MOST + 2, -MOST - 2, 2**31, -2**31, 2 * MOST, -2 * MOST, 2**32, 1 - 2**32, 2**32 + 5)


def any_sizes(rng):
    return params_of(rng, rng.randint(2, 4), rng.choice(SIZES))


def shrinking(rng):
    """Parameters, and a divisor by which each target gets two buckets or more, mostly so many that their sum can leave the limits and
    come back."""
    while True:
        params = any_sizes(rng)
        smaller = divisors(params.m)[:-1]
        if smaller:
            m2 = rng.choice(smaller)
            if params.m // m2 > 2 or rng.random() < 0.2:
                return params, m2


def with_size(params, m):
    return params._replace(m=m)


def sources(params, m2, target):
    """The indexes of the buckets that are added into a target, in rising order."""
    array, j = divmod(target, m2)
    return range(array * params.m + j, (array + 1) * params.m, m2)


def parts(rng, many, whole):
    """Counts that have this sum, most of them at the limits, so that sums of some of them leave these. In falling order the sum is
    above the upper limit on the way, in rising order below the lower one."""
    counts = [rng.choice((MOST, -MOST, any_count(rng))) for _ in range(many)]
    missing = whole - sum(counts)
    for i in rng.sample(range(many), many):
        part = max(-MOST, min(MOST, counts[i] + missing))
        missing -= part - counts[i]
        counts[i] = part
    order = rng.choice(("falling", "rising", "any"))
    return counts if order == "any" else sorted(counts, reverse=order == "falling")


def fitting(rng):
    """A whole sum within the limits, mostly at one of them."""
    return rng.choice((MOST, -MOST, MOST, -MOST, MOST - 1, 1 - MOST, 0, rng.randint(-MOST, MOST)))


def leaving(rng, many):
    """A whole sum of so many counts that leaves the limits, mostly by one."""
    return rng.choice([each for each in LEAVING if abs(each) <= many * MOST])


def whole_sums(rng, params, m2, leave):
    """Counts of a whole sketch whose targets have sums within the limits, save for so many of them. A count alone does not leave them."""
    targets, many = params.d * m2, params.m // m2
    sums = [fitting(rng) for _ in range(targets)]
    for target in {place(rng, 0, targets - 1) for _ in range(leave if many > 1 else 0)}:
        sums[target] = leaving(rng, many)
    counts = [0] * (params.d * params.m)
    for target, whole in enumerate(sums):
        for index, count in zip(sources(params, m2, target), parts(rng, many, whole)):
            counts[index] = count
    return counts


def few_or_small(rng, size):
    """Counts of a quiet sketch: mostly zeros, or small ones."""
    if rng.random() < 0.5:
        return [any_count(rng) if rng.random() < 0.1 else 0 for _ in range(size)]
    return [rng.randint(-9, 9) for _ in range(size)]


def any_idsums(rng, size):
    """Any idsums, or all of them the greatest, so that their sums pass the prime many times."""
    return [P - 1] * size if rng.random() < 0.2 else [any_idsum(rng) for _ in range(size)]


def put(script, sketch, counts, idsums):
    script.store("counts", counts, 0, sketch)
    script.store("idsums", idsums, 0, sketch)


def lend(rng, script, sketch, params):
    """A fresh sketch with other numbers behind it, which a fold has to leave alone."""
    size = params.d * params.m
    set_lengths(script, sketch, size + 2)
    put(script, sketch, [any_count(rng)] * (size + 2), [any_idsum(rng)] * (size + 2))
    script.sketch(sketch, params)


def set_lengths(script, sketch, length):
    script.length("counts", length, sketch)
    script.length("idsums", length, sketch)


def show_room(script, sketch, params):
    """All that was lent before any fold, and what stands behind it: the freed room is zero where a fold was done."""
    set_lengths(script, sketch, params.d * params.m + 2)
    script.show()


def folds(rng):
    """Quiet sketches folded to any number of buckets, also such as do not divide; some are damaged. Then folded again."""
    params = any_sizes(rng)
    size = params.d * params.m
    sketch = rng.choice((1, 1, 2))
    script = Script()
    script.sketch(3 - sketch, params)
    lend(rng, script, sketch, params)
    put(script, sketch, few_or_small(rng, size), any_idsums(rng, size))
    if rng.random() < 0.15:
        script.bucket(place(rng, 0, size - 1), *damaged(rng), sketch)
    for _ in range(rng.choice((1, 2, 3))):
        m2 = any_divisor(rng, params.m) if rng.random() < 0.75 else no_divisor(rng, params)
        script.add("fold", sketch, (m2,))
        script.show()
    show_room(script, sketch, params)
    return script.bytes


def fold_limits(rng):
    """Whole sums that just fit, and in many scripts one or two that just do not, most of them outside the limits on the way."""
    params, m2 = shrinking(rng)
    size = params.d * params.m
    sketch = rng.choice((1, 1, 2))
    script = Script()
    lend(rng, script, sketch, params)
    put(script, sketch, whole_sums(rng, params, m2, rng.choice((0, 0, 0, 1, 1, 2, 3))), any_idsums(rng, size))
    script.add("fold", sketch, (m2,))
    script.add("show", sketch)
    # A bucket at its limit takes no packet more, folded or not.
    script.add(rng.choice(("insert", "withdraw")), sketch, (any_flow(rng, params), 1))
    script.add("fold", sketch, (any_divisor(rng, m2),))
    script.add("show", sketch)
    show_room(script, sketch, params)
    return script.bytes


def fold_orders(rng):
    """Several faults of a fold at once, mended one after the other with a fold before and after each: bad parameters, lengths of either
    slice, a number that does not divide, damaged buckets, sums that leave the limits."""
    params, m2 = shrinking(rng)
    size = params.d * params.m
    sketch = rng.choice((1, 1, 2))
    faults = rng.sample(("params", "length", "m2", "damage", "range"), rng.choice((1, 2, 2, 3, 3, 5)))
    leave = rng.choice((1, 2)) if "range" in faults else 0
    counts = whole_sums(rng, params, m2, leave) if rng.random() < 0.7 or leave else few_or_small(rng, size)
    idsums = any_idsums(rng, size)
    script = Script()
    lend(rng, script, sketch, params)
    put(script, sketch, counts, idsums)
    hurt = {place(rng, 0, size - 1) for _ in range(rng.choice((1, 2)))} if "damage" in faults else ()
    for index in hurt:
        script.bucket(index, *damaged(rng), sketch)

    def fold(to):
        script.add("fold", sketch, (to,))
        script.add("show", sketch)

    asked = rng.choice((m2, m2, m2, params.m))
    if "m2" in faults:
        asked = no_divisor(rng, params)
    if "length" in faults:
        # Slices as long as the folded sketch are too short to be folded.
        length = rng.choice((wrong_length(rng, size), params.d * m2))
        for slice_name in rng.choice((("counts",), ("idsums",), ("counts", "idsums"), ("counts", "idsums"))):
            script.length(slice_name, length, sketch)
    if "params" in faults:
        script.params(sketch, bad_params(rng, params))
        fold(asked)
        script.params(sketch, params)
    fold(asked)
    # Where a fold is done already the slices are too long from here on.
    for slice_name in rng.sample(("counts", "idsums"), 2):
        script.length(slice_name, size, sketch)
        fold(asked)
    # From the lowest on, so that the index moves on with each.
    for index in sorted(hurt):
        fold(rng.choice((m2, m2, params.m)))
        script.bucket(index, counts[index], idsums[index], sketch)
    fold(m2)
    for target in range(params.d * m2):
        own = sources(params, m2, target)
        if abs(sum(counts[index] for index in own)) > MOST:
            for index, count in zip(own, parts(rng, len(own), fitting(rng))):
                script.store("counts", [count], index, sketch)
            fold(m2)
    show_room(script, sketch, params)
    return script.bytes


def folds_of_folds(rng):
    """A sketch folded in steps, and the same one folded at once: the steps may be refused where the fold at once is not."""
    params = any_sizes(rng)
    size = params.d * params.m
    steps = [any_divisor(rng, params.m)]
    for _ in range(rng.choice((1, 1, 2))):
        steps.append(any_divisor(rng, steps[-1]))
    if rng.random() < 0.4:
        counts = whole_sums(rng, params, steps[-1], rng.choice((0, 0, 0, 1)))
    else:
        counts = few_or_small(rng, size)
    idsums = any_idsums(rng, size)
    script = Script()
    for sketch in (1, 2):
        lend(rng, script, sketch, params)
        put(script, sketch, counts, idsums)
    for m2 in steps:
        script.add("fold", 1, (m2,))
        script.add("show")
    script.add("fold", 2, (steps[-1],))
    script.show()
    script.add(rng.choice(("subtract", "subtract", "add")), rng.choice((1, 2)))
    for sketch in (1, 2):
        show_room(script, sketch, params)
    return script.bytes


def any_entries(rng, params):
    return small_entries(rng, params, 20) + [(any_flow(rng, params), rng.randint(1, MOST // 30)) for _ in range(rng.choice((0, 3)))]


def folded_lists(rng):
    """A list of packets in a sketch that is folded, and in one made so from the start; then further packets in both. They are the same."""
    params = any_sizes(rng)
    m2 = any_divisor(rng, params.m)
    small = with_size(params, m2)
    script = Script()
    script.sketch(1, params)
    script.sketch(2, small)
    entries, further = any_entries(rng, params), small_entries(rng, params, 5)
    put_in(rng, script, 1, entries)
    script.add("fold", 1, (m2,))
    put_in(rng, script, 2, entries)
    script.show()
    for sketch in rng.choice(((1,), (1, 2), (1, 2))):
        put_in(rng, script, sketch, further)
        script.add("fold", sketch, (m2,))
    script.add("subtract", rng.choice((1, 2)))
    script.show()
    return script.bytes


def finer(rng, params):
    """Parameters with some times as many buckets an array."""
    return with_size(params, params.m * rng.choice((1, 2, 2, 3, 4, 5, 7)))


def difference_by_folds(rng, script, params, upstream, downstream):
    """The difference of two lists in the first sketch: both are folded, one is, or what they differ by."""
    way = rng.choice(("both", "one", "difference", "difference"))
    sizes = [finer(rng, params)] * 2
    if way == "both":
        sizes[1] = finer(rng, params)
    elif way == "one":
        sizes[rng.randrange(2)] = params
    for sketch, size, entries in zip((1, 2), sizes, (upstream, downstream)):
        script.sketch(sketch, size)
        put_in(rng, script, sketch, entries)
    if way == "difference":
        script.add("subtract")
        script.add("fold", 1, (params.m,))
        return
    for sketch in rng.sample((1, 2), 2):
        # Too early where they are of different sizes.
        if sizes[0] != sizes[1] and rng.random() < 0.5:
            script.add("subtract")
            script.show()
        script.add("fold", sketch, (params.m,))
        sizes[sketch - 1] = params
    script.add("subtract")


def folded_differences(rng):
    """A sound difference by folded sketches, peeled; it is the same as the fold of all packets put into and taken out of one sketch."""
    params, upstream, downstream = rng.choice(DIFFERENCES)(rng)
    size = params.d * params.m
    script = Script()
    difference_by_folds(rng, script, params, upstream, downstream)
    script.show()
    script.sketch(2, finer(rng, params))
    put_in(rng, script, 2, upstream)
    for entry in downstream:
        script.add("withdraw", 2, entry)
    script.add("fold", 2, (params.m,))
    script.add("subtract", 2)
    script.show()
    script.table(params, rng.choice((size, size, rng.randint(0, size))), rng.choice((0, 9, WORD)))
    script.add("peel", 1, (rng.choice((8 * size, 8 * size, rng.randint(0, 3 * size))),))
    script.show()
    return script.bytes


def folded_files(rng):
    """A sketch file read, also an old one with flow 0 in it, and folded; written, read back and read into, and compared with the file that
    the packets would have had."""
    params = any_sizes(rng)
    m2 = any_divisor(rng, params.m)
    small = with_size(params, m2)
    entries = small_entries(rng, params, 9) + rng.choice(([], [(0, 5)]))
    further = small_entries(rng, params, 4)
    script = Script()
    script.sketch(1, params)
    script.sketch(2, small)
    script.read("read sketch", b"".join(sketch_file(params, sketched(params, entries))))
    script.add("fold", 1, (m2,))
    whole = sketch_file(small, sketched(small, entries))
    exact = sum(map(len, whole))
    script.length("output", rng.choice((exact, exact, exact, exact - 1, exact + 9)))
    script.fill("output", 119)
    script.add("write sketch")
    script.show()
    script.add("head back")
    # The folded sketch's file is of other parameters than the sketch before the fold.
    script.params(2, rng.choice((small, small, small, params)))
    script.add("read sketch back", 2)
    script.sketch(2, small)
    script.read("read sketch", b"".join(whole), 2)
    script.read("read stream", b"".join(stream(small, further)))
    put_in(rng, script, 2, further)
    script.add(rng.choice(("subtract", "subtract", "add")), rng.choice((1, 2)))
    script.show()
    return script.bytes


def largest_folds(rng):
    """The largest sketch, or nearly: all of one count, half at either limit, or empty; folded to any divisor, filled further and folded again."""
    d = rng.randint(2, 4)
    params = params_of(rng, d, rng.choice((16384, 16384, 16383, 16380)))
    size = params.d * params.m
    m2 = any_divisor(rng, params.m)
    many = params.m // m2
    script = Script()
    script.sketch(1, params)
    if rng.random() < 0.7:
        script.fill("counts", rng.choice((1, -1)) * rng.choice((MOST // many, MOST // many, MOST // many + 1, MOST)))
        script.fill("idsums", rng.choice((P - 1, P - 1, rng.randint(0, P - 1))))
    if rng.random() < 0.5:
        # The sums of the first and the last halves of an array leave the limits by far, and cancel out.
        for array in range(d):
            script.fill("counts", MOST, array * params.m, params.m // 2)
            script.fill("counts", -MOST, array * params.m + params.m // 2, params.m // 2)
    if rng.random() < 0.2:
        script.bucket(place(rng, 0, size - 1), *damaged(rng))
    script.add("fold", 1, (m2,))
    put_in(rng, script, 1, small_entries(rng, params, 9))
    script.add("fold", 1, (any_divisor(rng, m2),))
    set_lengths(script, 1, size)
    script.add("show")
    return script.bytes
