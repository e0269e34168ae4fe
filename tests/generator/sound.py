"""Sound pairs of streams, each walked to an ending: parameters, and the packets upstream and downstream."""

from generator.files import LAST, MOST, P, Params
from generator.values import (
    MOST_BESIDE, MOST_BUCKETS, any_fifth, any_flow, any_pair, any_params, extended, four_pairs, last_flow, most_in_a_bucket, owners,
    params_of, position, small_entries, sometimes_constant, split, uniform_flow, with_constant)


def lost(rng):
    """Some packets of some flows are lost on the way."""
    params = any_params(rng, 2, 60)
    upstream = [(any_flow(rng, params), rng.randint(1, 1000)) for _ in range(rng.randint(1, params.m * params.d))]
    downstream = []
    for flow, number in upstream:
        arrived = rng.choice((number, number, number, 0, rng.randint(0, number)))
        if arrived:
            downstream.append((flow, arrived))
    rng.shuffle(downstream)
    return params, upstream, downstream


def duplicates(rng):
    """Flows of which more arrives than was sent, or that were never sent."""
    params = any_params(rng, 2, 40)
    entries = [(any_flow(rng, params), rng.choice((-1, -1, 1)) * rng.randint(1, 50)) for _ in range(rng.randint(1, params.m))]
    return params, *split(rng, params, entries)


def ring_link(rng):
    """As many packets extra of some flows as are lost of others, in small numbers or up to sums that need more than 32 bits."""
    params = any_params(rng, 20, 80)
    most = rng.choice((9, MOST // 2))
    while True:
        numbers = [rng.randint(1, most) for _ in range(rng.randint(1, 14))]
        losses = [(uniform_flow(rng, params), number) for number in numbers]
        # The same sum on the other side, by the same numbers or by one packet more here and one less there.
        if len(numbers) > 1 and rng.random() < 0.5:
            numbers[0], numbers[1] = numbers[0] + 1, numbers[1] - 1
        gains = [(uniform_flow(rng, params), number) for number in numbers if number]
        if fits(params, losses) and fits(params, gains):
            return params, *split(rng, params, losses + [(flow, -number) for flow, number in gains])


def fits(params, entries):
    """Whether a sketch takes the entries, and those that `split` puts beside them."""
    return most_in_a_bucket(params, entries) <= MOST - MOST_BESIDE


def own_buckets(rng):
    """Each flow that lost packets, or of which there are more, has a bucket of its own in the first array: the walk surely works."""
    params = any_params(rng, 1, rng.choice((4, 40, 400)))
    return params, *split(rng, params, owners(rng, params, MOST - MOST_BESIDE))


def crowded(rng):
    """About as many lost flows as a sketch can give back, or more."""
    params = any_params(rng, 3, 40)
    flows = int(params.d * params.m * rng.uniform(0.5, 1.4)) + 1
    return params, *split(rng, params, [(uniform_flow(rng, params), rng.randint(1, 3)) for _ in range(flows)])


def tiny(rng):
    """So few buckets that many pass as pure which are not: any ending."""
    params = any_params(rng, 1, 4)
    numbers = rng.choice(((1, 3), (-3, 3), (-1000, 1000)))
    most = rng.choice((4, 10, 3 * params.d * params.m))
    entries = [(any_flow(rng, params), rng.randint(*numbers)) for _ in range(rng.randint(1, most))]
    return params, *split(rng, params, entries)


def many_flows(rng):
    """Four arrays of two or three buckets: the walk finds flow after flow that never was, and some tables fill up."""
    params = params_of(rng, 4, rng.choice((2, 2, 3)))
    return params, *split(rng, params, [(uniform_flow(rng, params), rng.randint(-9, 9)) for _ in range(rng.randint(4, 20))])


def wide(rng):
    """Few buckets, and both streams' numbers add up to about the limit, so that takes leave the range."""
    params = any_params(rng, 2, 3)

    def entries():
        total = MOST - rng.randint(0, 5)
        cuts = sorted(rng.sample(range(1, total), rng.randint(0, 3)))
        return [(any_flow(rng, params), stop - start) for start, stop in zip([0] + cuts, cuts + [total])]

    return params, entries(), entries()


def meets_the_range(rng):
    """Two flows pass as a third in the first bucket, and taking it brings a bucket of a fourth flow to the limit or past it."""
    m = rng.randint(3, 8)
    low, step = rng.randint(1, 1000), rng.randint(1, 1000)
    first, third, second = (m * (low + i * step) for i in range(3))
    last = rng.choice((P - 1, P - 1, LAST))
    while True:
        d = rng.randint(2, 4)
        pairs = tuple(pair for pair in four_pairs(rng, 4) if pair != (1, 0))
        params = Params(d, m, ((1, 0),) + pairs[:d - 1] + ((0, 0),) * (4 - d))
        fourth = rng.randint(1, last)
        array = rng.randrange(1, d)
        at = position(params, array, third)
        apart = all(position(params, array, flow) != at for flow in (first, second))
        if fourth % m != 0 and position(params, array, fourth) == at and apart:
            break
    half = rng.randint(1, MOST // 2 - 1)
    reached = rng.choice((MOST - 1, MOST, MOST + 1, MOST + 2))
    streams = [[(first, half), (second, half)], [(fourth, reached - 2 * half)]]
    rng.shuffle(streams)
    return with_constant(rng, params) if last == LAST else params, *streams


def meets_the_table(rng):
    """A flow is taken rightly; then two others, one of them false, pass as the same flow, and its entry comes to the limit or past it."""
    m = rng.randint(4, 8)
    y, step = rng.randint(1000, 2000), rng.randint(1, 1000)
    x = rng.randint(y, 2 * y)
    taken, false = m * x, m * y + 1
    # The false flow is the middle of two lost ones, and the taken flow that of the false one and this one.
    beside = 2 * taken - false
    # It hides in the first array behind another flow, so that it is not found before.
    hiding = m * rng.randint(0, 10**6) + m - 1
    while True:
        params = Params(2, m, ((1, 0), (rng.randint(2, P - 1), rng.randint(0, P - 1)), (0, 0), (0, 0)))
        at = position(params, 1, taken)
        together = all(position(params, 1, flow) == at for flow in (false, beside))
        if together and all(position(params, 1, flow) != at for flow in (false - m * step, false + m * step, hiding)):
            break
    quarter = rng.randint(1, MOST // 4 - 1)
    reached = rng.choice((MOST - 1, MOST, MOST + 1, MOST + 2))
    streams = [
        [(taken, reached - 4 * quarter), (beside, 2 * quarter), (hiding, rng.randint(1, 9))],
        [(false - m * step, quarter), (false + m * step, quarter)],
    ]
    rng.shuffle(streams)
    return sometimes_constant(rng, params), *streams


# Differences whose walk ends in a way that is too rare to meet by chance; these were searched for. Each is the greatest
# factor for the counts, the parameters, the entries.
SEARCHED = (
    # clean at the very last pop of the allowance
    (10**7, Params(4, 3, ((9, 1), (210527478, 1166237653), (7686487, 819898772), (2, 0))),
     ((397919708, 3), (1946263669, 3), (33, 1), (358920152, 1), (1577172762, -1), (65, 1))),
    (10**7, Params(4, 3, ((2074935211, 1362396483), (6, 0), (1193249094, 2081638648), (362145491, 319394984))),
     ((973929866, 3), (23, 2), (61, -2), (1212850942, 1), (18, -3), (71039079, 3), (1781204086, 1))),
    (10**7, Params(4, 5, ((583384947, 2051306513), (251061890, 893301582), (963070174, 31523795), (7, 1))),
     ((24, 2), (748536904, -2), (243624265, -2), (953232601, 2), (42, 1), (615208891, -2), (756167812, -3), (1931638407, 1),
      (1706982847, 3))),
    # stuck at the last pop
    (10**7, Params(4, 5, ((4, 2), (1851633522, 650842801), (9, 4), (1194003945, 1695260548))),
     ((93, 3), (718416182, 2), (43, 1), (1549370413, 1), (8, -4), (72, -1), (4, -1), (734070520, 4), (15, -3), (41, 4))),
    # range at the last pop
    (1, Params(3, 2, ((1, 2), (7, 1), (3, 0), (0, 0))),
     ((34, 28602418), (96, 93919945), (1244391239, 128158940), (1114493712, 167936625), (50, -255901520), (74, -284758822),
      (445594366, -278974123), (17, 255509634))),
    (1, Params(3, 2, ((6, 4), (629980407, 984889357), (7, 4), (0, 0))),
     ((60, -146655171), (702791890, 164487121), (86, 174407781), (829446208, 292172487), (4, 218103409), (133011642, 144937106),
      (11, -22941132))),
    # full at the last pop
    (10**5, Params(3, 3, ((4, 1), (1389596241, 784093013), (7, 0), (0, 0))),
     ((75, -2), (13, -1), (293766384, -1), (40, 2), (98, 2), (2061444227, 1))),
    (10**5, Params(4, 2, ((269976182, 1414656492), (663468170, 1029317218), (6, 7), (1139113819, 475588730))),
     ((62, 4), (45, 1), (28, -2), (43, -1), (87, 4), (74, -1), (58, 2))),
    # range where full applies as well
    (1, Params(4, 2, ((4, 3), (866555776, 1661128421), (3, 4), (5, 7))),
     ((86, -137870365), (21395132, 202882020), (531892956, -168578622), (37, -74620159), (83, -379363033), (274409524, -446464823))),
    (1, Params(4, 2, ((2086913578, 2093708425), (1684422012, 1776518335), (701113786, 1847181087), (2, 3))),
     ((534396409, 335910717), (2, -247335896), (81, -352950523), (87, 367575853))),
)


# Likewise for fingerprints that are all one number: the places are those of the plain profile, and all flows that are found are in both.
SEARCHED_WITH_FINGERPRINTS = (
    # full
    (10**6, Params(3, 3, ((1, 2), (930337942, 388909317), (543282571, 509004467), (0, 0))),
     ((31, -1), (26, -1), (3, 1), (7, -3), (37, -4), (21, 4), (28, 2))),
    (10**6, Params(4, 2, ((1300144367, 1834380567), (466904369, 675720487), (1753497478, 1989047189), (1, 5))),
     ((179, 1), (122, -2), (164, -1), (171, 2), (167, -3), (182, 1))),
    (10**6, Params(4, 3, ((1, 1), (1252059487, 1319964003), (2077510020, 124086053), (744761767, 2097505795))),
     ((100005, 2), (100001, 4), (100034, -2), (100030, -2), (100012, 1))),
    # full at the last pop
    (10**6, Params(4, 2, ((1254291871, 2046344619), (1849126323, 912354005), (1, 0), (892580228, 600129672))),
     ((100040, -4), (100814, 2), (100684, 2), (100685, 4), (100655, -4), (100743, 1), (100414, 3), (100772, -4), (100046, -4))),
    (10**6, Params(4, 3, ((2012993015, 313009152), (974901886, 1534212256), (4, 7), (1218702796, 137468996))),
     ((115, 2), (116, 2), (129, 1), (164, -1), (110, -2), (172, 1))),
    # stuck at the last pop
    (10**6, Params(4, 2, ((4, 1), (1, 1), (1442994003, 1570345034), (1551274440, 1852597129))),
     ((137, -3), (111, -4), (139, 2), (105, 4), (139, -3), (125, 2), (105, -3), (131, 1), (104, -2), (102, -2), (108, -2), (104, 4))),
    # range at the last pop
    (1, Params(3, 2, ((1, 4), (101727904, 1587593261), (4, 2), (0, 0))),
     ((645, -72880160), (490, -145760320), (505, -109320240), (401, -109320240), (827, 109320240), (791, 36440080))),
    (1, Params(4, 2, ((3, 9), (1, 5), (1883479774, 330195916), (4, 3))),
     ((118, -75452610), (119, -75452610), (107, 301810440), (116, 301810440), (114, 301810440), (113, -150905220), (107, 75452610),
      (117, -75452610), (116, -75452610), (116, -301810440))),
)


def searched(rng):
    """An ending of the tables above. The flows that a walk finds stay the same where all counts are multiplied by one factor."""
    most, params, entries = rng.choice(SEARCHED + SEARCHED_WITH_FINGERPRINTS)
    if (most, params, entries) in SEARCHED_WITH_FINGERPRINTS:
        params = with_constant(rng, params)
    factor = rng.choice((-1, 1)) * rng.choice((1, rng.randint(1, min(most, 10)), rng.randint(1, most)))
    return params, *split(rng, params, [(flow, number * factor) for flow, number in entries])


def false_pure(rng):
    """Two flows in one bucket that together pass as a third: their places differ by a multiple of the sum of their counts."""
    d = rng.randint(2, 4)
    m = rng.randint(2, 40)
    pairs = ((1, 0),) + tuple(pair for pair in four_pairs(rng, 4) if pair != (1, 0))
    params = sometimes_constant(rng, Params(d, m, pairs[:d] + ((0, 0),) * (4 - d)))
    entries = []
    for _ in range(rng.randint(1, 3)):
        first, second = rng.choice(((1, 1), (1, 2), (2, 1), (3, -1), (-1, -1), (-2, 1), (rng.randint(1, 50), rng.randint(1, 50))))
        step = abs(first + second) * rng.randint(1, 3)
        at, row = rng.randint(1, 41), rng.randint(0, m - 1)
        entries += [(row + m * at, first), (row + m * (at + step), second)]
    return params, *split(rng, params, entries)


def comes_out_as_zero(rng):
    """Two flows in one bucket, where flow 0 would stand too: the bucket's flow comes out as 0, and so it is not pure."""
    d = rng.randint(2, 4)
    m = rng.randint(1, 40)
    first, second, step = rng.randint(1, 9), rng.randint(1, 9), m * rng.randint(1, 1000)
    # Multiplied by a, the two flows lie on either side of 0, so that first times the one and second times the other cancel out.
    above, below = second * step, first * step
    a, b = any_pair(rng)[0], rng.randint(below, P - 1 - above)
    flows = above * pow(a, -1, P) % P, -below * pow(a, -1, P) % P
    pairs = ((a, b),) + tuple(pair for pair in four_pairs(rng, 4) if pair != (a, b))
    params = Params(d, m, pairs[:d] + ((0, 0),) * (4 - d))
    sign = rng.choice((1, -1))
    entries = list(zip(flows, (sign * first, sign * second))) + rng.choice(([], small_entries(rng, params, 3)))
    return params, *split(rng, params, entries)


def crowd(rng, params, many, fits):
    """So many flows in one bucket of the first array, whose pair is (1, 0), whose extended numbers have a mean that stands there too. Where that
    is not too rare, in half of the cases they are together in all arrays, and the mean fits."""
    first = any_flow(rng, params)
    flows = [first]
    together = params.m ** (params.d - 1) < 60 and rng.random() < 0.5
    for _ in range(20000):
        flow = rng.choice((uniform_flow, any_flow))(rng, params)
        if (extended(params, flow) - extended(params, first)) % (many * params.m):
            continue
        if together and any(position(params, i, flow) != position(params, i, first) for i in range(1, params.d)):
            continue
        if len(flows) < many - 1 or fits(sum(extended(params, each) for each in flows + [flow]) // many):
            flows.append(flow)
        if len(flows) == many:
            break
    return flows


def shared_buckets(rng):
    """With fingerprints, two or three flows of one count in one bucket. Over their extended numbers the bucket passes as another number, which
    mostly no flow has; in some cases one that a flow has was looked for."""
    d, m = rng.randint(2, 4), rng.choice((1, 1, 2, 2, 3, 5, 8))
    pairs = ((1, 0),) + tuple(pair for pair in four_pairs(rng, 4) if pair != (1, 0))
    params = Params(d, m, pairs[:d] + ((0, 0),) * (4 - d), any_fifth(rng, pairs))
    fits = rng.choice((lambda mean: True, lambda mean: True, lambda mean: extended(params, mean // 256) == mean))
    entries = []
    for _ in range(rng.choice((1, 1, 2))):
        number = rng.choice((1, 1, -1, rng.randint(1, 99), MOST // 8))
        entries += [(flow, number) for flow in crowd(rng, params, rng.choice((2, 2, 3)), fits)]
    return params, *split(rng, params, entries + rng.choice(([], small_entries(rng, params, 3))))


def comes_out_at_the_edge(rng):
    """With fingerprints, two flows in one bucket that come out as flow 1 or 8388606, which is taken, or as 0 or 8388607 with the right
    fingerprint, which is no flow."""
    d, m = rng.randint(2, 4), rng.randint(1, 40)
    pairs = ((1, 0),) + tuple(pair for pair in four_pairs(rng, 4) if pair != (1, 0))
    params = with_constant(rng, Params(d, m, pairs[:d] + ((0, 0),) * (4 - d)))
    edge, side = rng.choice(((0, 1), (1, 1), (LAST, -1), (LAST + 1, -1)))
    times, step = rng.randint(1, 9), side * m * rng.randint(1, 1000)
    number = rng.choice((1, -1)) * rng.choice((1, rng.randint(1, 10**6)))
    # By one more of the flow that is nearer than of the other, which is taken away, the edge is met.
    entries = [(edge + times * step, (times + 1) * number), (edge + (times + 1) * step, -times * number)]
    return params, *split(rng, params, entries + rng.choice(([], small_entries(rng, params, 3))))


def circling(rng):
    """With fingerprints that are all one number, few buckets of small flows and small numbers: false flows are found again and again."""
    d = rng.randint(2, 4)
    params = with_constant(rng, Params(d, rng.choice((1, 2, 2, 2, 3, 4)), four_pairs(rng, d)))
    most, numbers = rng.choice((20, 100, 5000)), rng.choice(((1, 1), (-1, 1), (1, 3), (-4, 4)))
    factor = rng.choice((1, 1, rng.randint(1, 10**6)))
    entries = [(rng.randint(1, most), factor * rng.randint(*numbers)) for _ in range(rng.randint(2, 3 * params.d * params.m))]
    return params, *split(rng, params, entries)


def cancelled(rng):
    """Buckets whose count is 0 and whose idsum is not: as much of one flow lost as of another one doubled."""
    params = any_params(rng, 1, 3)
    number = rng.randint(1, 5)
    entries = []
    for _ in range(rng.randint(1, 3)):
        entries += [(any_flow(rng, params), number), (any_flow(rng, params), -number)]
    return params, *split(rng, params, entries)


def at_the_limits(rng):
    """Counts that reach the limit exactly, at once or in two steps, in either stream or both; the first and the last flow."""
    params = any_params(rng, 1, 6)

    def entries(flow):
        first = rng.choice((MOST, 1, MOST - 1, rng.randint(1, MOST)))
        return [(flow, first)] + ([(flow, MOST - first)] if first < MOST else [])

    flow = rng.choice((1, last_flow(params), any_flow(rng, params)))
    other = rng.choice((flow, any_flow(rng, params)))
    sides = rng.choice(((True, False), (False, True), (True, True)))
    upstream = entries(flow) if sides[0] else small_entries(rng, params, 3)
    downstream = entries(other) if sides[1] else small_entries(rng, params, 3)
    return params, upstream, downstream


def nothing_lost(rng):
    """Two streams of one sketch: empty, or the same packets in another order or in other portions."""
    params = any_params(rng)
    entries = small_entries(rng, params, 6)
    portions = [(flow, 1) for flow, number in entries for _ in range(number)]
    rng.shuffle(portions)
    return params, entries, rng.choice((entries, portions))


def at_the_size(rng):
    """As many buckets as the report accepts, one fewer or one more in each array; far more; and the fewest."""
    d = rng.randint(2, 4)
    m = rng.choice((MOST_BUCKETS // d,) * 3 + (MOST_BUCKETS // d - 1, MOST_BUCKETS // d + 1, 1, 1535, 1536, 1537, 16384, 16385))
    params = params_of(rng, d, m)
    return params, *split(rng, params, small_entries(rng, params, 20))


def large(rng):
    """Some thousands of records."""
    params = any_params(rng, 200)
    upstream = [(uniform_flow(rng, params), rng.randint(1, 9)) for _ in range(rng.randint(1000, 6000))]
    chance = rng.choice((0.02, 0.1, 0.2, 0.5))
    downstream = [entry for entry in upstream if rng.random() > chance]
    return params, upstream, downstream
