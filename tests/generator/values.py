"""Values that inputs are made of: parameters of either profile, sound or not, sizes to fold to, flows and numbers that are none, what is
sketched for them, entries and records of any kind."""

import collections

from generator.files import LAST, P, WORD, Params, bucket, end, head, head_of_one, head_of_ten, packets

# As many buckets as the report accepts.
MOST_BUCKETS = 1536

# As many packets as `split` may put beside others: at most 4 times, at most 5.
MOST_BESIDE = 20


def any_pair(rng):
    a = rng.choice((1, 2, 2**30, P - 1, rng.randint(1, P - 1), rng.randint(1, P - 1)))
    b = rng.choice((0, 0, P - 1, rng.randint(0, P - 1)))
    return a, b


def four_pairs(rng, d):
    pairs = []
    while len(pairs) < d:
        pair = any_pair(rng)
        if pair not in pairs:
            pairs.append(pair)
    return tuple(pairs) + ((0, 0),) * (4 - d)


def any_fifth(rng, pairs):
    """A pair for fingerprints: of few of them, of one alone (256, and an offset that is not too large), of all, or one of the pairs."""
    small = rng.choice((1, 2, 3, 128, 255, 257)), rng.choice((0, 1, 255, 256, rng.randint(0, 10**6)))
    constant = 256, rng.randint(0, 510)
    return rng.choice((small, constant, rng.choice(pairs[:2]), any_pair(rng), any_pair(rng)))


def any_profile(rng, pairs):
    """The fifth pair: none in two of three."""
    return any_fifth(rng, pairs) if rng.random() < 1 / 3 else (0, 0)


def params_of(rng, d, m):
    """Parameters of these sizes, in either profile."""
    pairs = four_pairs(rng, d)
    return Params(d, m, pairs, any_profile(rng, pairs))


def any_params(rng, least=1, most=MOST_BUCKETS):
    d = rng.randint(2, 4)
    return params_of(rng, d, rng.randint(least, min(most, MOST_BUCKETS // d)))


def with_constant(rng, params):
    """The same places with fingerprints that are all one number: what false flow comes out of a bucket is as in the plain profile, as far as it
    is one. It is so for the numbers next to the flows, 0 and 8388607, too."""
    fingerprint = rng.choice((0, 254, rng.randint(0, 254)))
    inverse = pow(256, -1, P)
    pairs = tuple((a * inverse % P, (b - a * inverse * fingerprint) % P) for a, b in params.pairs)
    return params._replace(pairs=pairs, fifth=(256, fingerprint))


def sometimes_constant(rng, params):
    """Plain parameters, in one of three brought into the other profile."""
    return with_constant(rng, params) if rng.random() < 1 / 3 else params


def divisors(m):
    return [each for each in range(1, m + 1) if m % each == 0]


def any_divisor(rng, m):
    """1, the number itself, a prime that divides it, the number without one such prime, or any divisor."""
    prime = rng.choice([each for each in divisors(m) if len(divisors(each)) == 2] or [1])
    return rng.choice((1, m, prime, m // prime, rng.choice(divisors(m)), rng.choice(divisors(m))))


def no_divisor(rng, params):
    """A number that a sketch cannot be folded to: 0, or one that does not divide m, below it or above, also where it divides d * m."""
    d, m = params.d, params.m
    tried = (0, 0, d, m - 1, m + 1, 2 * m, d * m, P, 2**31, WORD) + tuple(rng.randint(1, m) for _ in range(6))
    return rng.choice([each for each in tried if each == 0 or m % each != 0])


def has_fingerprints(params):
    return params.fifth != (0, 0)


def extended(params, flow):
    """What is sketched for a flow; also for a number that is none."""
    a, b = params.fifth
    return flow * 256 + (a * flow + b) % P % 256 if has_fingerprints(params) else flow


def plain(params):
    """The parameters of the plain profile that have all else the same: its sketch of the extended numbers is the sketch of the flows."""
    return params._replace(fifth=(0, 0))


def stands(params, i, number):
    """Where a sketched number stands in an array; here arrays count from 0."""
    a, b = params.pairs[i]
    return (a * number + b) % P % params.m


def position(params, i, flow):
    """Where a flow stands in an array, likewise."""
    return stands(params, i, extended(params, flow))


def last_flow(params):
    return LAST if has_fingerprints(params) else P - 1


def uniform_flow(rng, params):
    return rng.randint(1, last_flow(params))


def any_flow(rng, params):
    return rng.choice((rng.randint(1, 30), uniform_flow(rng, params), uniform_flow(rng, params), 1, last_flow(params)))


def no_flow(rng, params):
    """A number that no flow has."""
    last = last_flow(params)
    between = (2**24, P - 1, P) if has_fingerprints(params) else ()
    return rng.choice((0, 0, last + 1, last + 2, 2**31, WORD) + between)


def small_entries(rng, params, most):
    return [(any_flow(rng, params), rng.randint(1, 5)) for _ in range(rng.randint(0, most))]


def place(rng, least, most):
    """The first, the last or a middle one of the numbers least to most."""
    return rng.choice((least, most, rng.randint(least, most)))


def split(rng, params, entries):
    """Two streams' entries whose difference is a list of signed entries, with packets beside that cancel out."""
    upstream = [(flow, number) for flow, number in entries if number > 0]
    downstream = [(flow, -number) for flow, number in entries if number < 0]
    for flow, number in small_entries(rng, params, 4):
        upstream.append((flow, number))
        downstream.append((flow, number))
    rng.shuffle(upstream)
    rng.shuffle(downstream)
    return upstream, downstream


def most_in_a_bucket(params, entries):
    """The greatest sum over a bucket, of the losses in it or of the gains."""
    sums = collections.Counter()
    for i in range(params.d):
        for flow, number in entries:
            sums[i, position(params, i, flow), number > 0] += abs(number)
    return max(sums.values(), default=0)


def owners(rng, params, most):
    """Entries whose flows each have a bucket of their own in the first array; in every bucket the losses are at most `most`, and so are the gains."""
    signs = rng.choice(((1,), (1,), (-1,), (-1, 1)))
    greatest = rng.choice((1, 9, 10**6, most))
    entries = {}
    for _ in range(rng.choice((1, 2, 5, params.m, 3 * params.m))):
        flow = any_flow(rng, params)
        number = rng.choice(signs) * rng.choice((greatest, rng.randint(1, greatest)))
        entries.setdefault(position(params, 0, flow), (flow, number))
    entries = list(entries.values())
    while most_in_a_bucket(params, entries) > most:
        entries.pop()
    rng.shuffle(entries)
    return entries


def bad_fifth(rng):
    """A fifth pair that breaks a rule: a multiplier of 0 with an offset that is not, one that is too large, or an offset that is."""
    a, b = any_pair(rng)
    none, large = rng.choice((1, P - 1, P, WORD)), rng.choice((P, P + 1, WORD))
    return rng.choice(((0, none), (0, none), (large, b), (large, 0), (a, large), (large, large)))


def broken(rng, params):
    """Parameters that break one rule, also as they stand in a head."""
    pairs = [list(pair) for pair in params.pairs]
    d, m = params.d, params.m
    rule = rng.choice(("d", "m", "size", "a", "b", "equal", "past") + ("fifth",) * (4 if has_fingerprints(params) else 1))
    if rule == "fifth":
        return params._replace(fifth=bad_fifth(rng))
    if rule == "d":
        d = rng.choice([value for value in (0, 1, 2, 3, 4, 5, 6, 255) if value != d])
    elif rule == "m":
        m = rng.choice((0, 16385, 2**31, WORD))
    elif rule == "size":
        m = MOST_BUCKETS // d + 1
    elif rule == "a":
        pairs[rng.randrange(d)][0] = rng.choice((0, P, P + 1, WORD))
    elif rule == "b":
        pairs[rng.randrange(d)][1] = rng.choice((P, P + 1, WORD))
    elif rule == "equal":
        first, second = rng.sample(range(d), 2)
        pairs[second] = pairs[first]
    elif d == 4:
        d = 3
    else:
        pairs[rng.randrange(d, 4)][rng.randrange(2)] = rng.choice((1, P - 1, P, WORD))
    return params._replace(d=d, m=m, pairs=tuple(map(tuple, pairs)))


def broken_head(rng, params):
    """A head whose parameters break a rule; one of kind 10 without a fifth pair does."""
    if rng.random() < (0.2 if has_fingerprints(params) else 0.1):
        return head_of_ten(plain(params))
    return head(broken(rng, params))


def other_profile(rng, params):
    """Parameters that differ in the fifth pair alone: one that there was not, another, or none."""
    if not has_fingerprints(params):
        return params._replace(fifth=any_fifth(rng, params.pairs))
    a, b = params.fifth
    fifth = rng.choice(((0, 0), (0, 0), (a % (P - 1) + 1, b), (a, (b + 1) % P), any_fifth(rng, params.pairs)))
    return params._replace(fifth=fifth)


def some_record(rng, params):
    """A whole record of any kind, sound or not, or a byte of any other kind with some bytes after it."""
    return rng.choice((
        head(params),
        head(other_profile(rng, params)),
        broken_head(rng, params),
        rng.choice((head_of_one, head_of_ten))(params),
        bucket(rng.randint(0, 5), rng.randint(-3, 3), rng.randint(0, 9)),
        bucket(WORD, -2**31, WORD),
        end(rng.randint(0, 3)),
        packets(any_flow(rng, params), 1),
        packets(no_flow(rng, params), 0),
        bytes([rng.choice((0, 5, 6, 7, 8, 9, 10, 11, 127, 128, 255, rng.randint(5, 255)))]) + rng.randbytes(rng.randint(0, 40)),
    ))
