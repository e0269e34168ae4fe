"""Faulty inputs of the report: a sound one of a few records, changed in one place or cut."""

from generator.files import MOST, P, WORD, end, head, joined, packets, stream
from generator.values import (
    MOST_BUCKETS, any_flow, any_pair, any_params, broken, broken_head, has_fingerprints, no_flow, other_profile, place, small_entries,
    some_record)


def sound(rng):
    params = any_params(rng, 1, 50)
    upstream = small_entries(rng, params, 7)
    downstream = [entry for entry in upstream if rng.random() < 0.7]
    return params, [stream(params, upstream), stream(params, downstream)]


def with_packets(rng):
    """A sound input whose chosen stream has packets, that stream, and the first, a middle or the last packet in it."""
    params, streams = sound(rng)
    which = rng.randint(0, 1)
    entries = small_entries(rng, params, 6) + [(any_flow(rng, params), 1)]
    streams[which] = stream(params, entries)
    return params, streams, which, place(rng, 1, len(entries))


def bad_packet_in(rng, params, streams, which, at):
    flow = no_flow(rng, params)
    number = rng.choice((0, P, P + 1, WORD))
    good_flow, good_number = any_flow(rng, params), rng.randint(1, 5)
    streams[which][at] = packets(*rng.choice(((flow, good_number), (good_flow, number), (flow, number))))


def bad_packet(rng):
    """A flow, a number or both that a packet record may not have."""
    params, streams, which, at = with_packets(rng)
    bad_packet_in(rng, params, streams, which, at)
    return joined(streams)


def two_bad_packets(rng):
    """A fault in each of two records: the earlier one decides."""
    params, streams, which, at = with_packets(rng)
    bad_packet_in(rng, params, streams, which, at)
    streams[which].insert(at, packets(any_flow(rng, params), 1))
    bad_packet_in(rng, params, streams, which, place(rng, 1, at))
    return joined(streams)


def over_the_limit(rng):
    """A packet that brings a count past its limit; some have another fault before or after it."""
    params, streams, which, at = with_packets(rng)
    records = streams[which]
    flow, number = any_flow(rng, params), rng.randint(1, MOST)
    records.insert(at, packets(flow, number))
    over = packets(rng.choice((flow, any_flow(rng, params))), rng.choice((MOST - number + 1, MOST)))
    records.insert(place(rng, at + 1, len(records) - 1), over)
    records[-1] = end(len(records) - 2)
    if rng.random() < 0.2:
        bad_packet_in(rng, params, streams, which, place(rng, 1, len(records) - 2))
    return joined(streams)


def bad_head(rng):
    """A head that breaks a rule, in either stream or in both."""
    params, streams = sound(rng)
    for which in rng.choice(((0,), (1,), (0, 1))):
        streams[which][0] = broken_head(rng, params)
    return joined(streams)


def other_head(rng):
    """A second head that differs in one thing, most of them sound ones."""
    params, streams = sound(rng)
    pairs = list(params.pairs)
    d, m = params.d, params.m
    thing = rng.choice(("d", "m", "pair", "order", "size", "profile", "profile", "profile"))
    if thing == "profile":
        params = other_profile(rng, params)
        # It is PARAM where it breaks a rule besides.
        params = broken(rng, params) if rng.random() < 0.2 else params
        d, m, pairs = params.d, params.m, params.pairs
    elif thing == "d":
        d = rng.choice([value for value in (2, 3, 4) if value != d])
        kept = pairs[:min(d, params.d)]
        while len(kept) < d:
            pair = any_pair(rng)
            if pair not in kept:
                kept.append(pair)
        pairs = kept + [(0, 0)] * (4 - d)
    elif thing == "m":
        m += rng.choice((-1, 1)) if m > 1 else 1
    elif thing == "pair":
        at = rng.randrange(d)
        a, b = pairs[at]
        pairs[at] = rng.choice(((a % (P - 1) + 1, b), (a, (b + 1) % P)))
    elif thing == "order":
        first, second = rng.sample(range(d), 2)
        pairs[first], pairs[second] = pairs[second], pairs[first]
    else:
        m = rng.choice((MOST_BUCKETS // d, MOST_BUCKETS // d + 1, 16384))
    streams[1][0] = head(params._replace(d=d, m=m, pairs=tuple(pairs)))
    return joined(streams)


def head_cut(rng):
    """A head of either kind cut at any byte, alone, as the second one, or with the rest of the input after it; or a head of one kind with the
    body of the other."""
    params, streams = sound(rng)
    which = rng.randint(0, 1)
    first = joined(streams[:which])
    whole = streams[which][0]
    way = rng.choice(("cut", "cut", "cut", "shortened", "other"))
    if way == "cut":
        return first + whole[:rng.choice((0, 1, 37, 38, 39, 45, rng.randrange(len(whole))))]
    if way == "shortened":
        streams[which][0] = whole[:rng.randrange(len(whole))]
    else:
        streams[which][0] = bytes([1 if has_fingerprints(params) else 10]) + whole[1:]
    return joined(streams)


def bad_end(rng):
    """A wrong end count, with or without a byte after it."""
    _, streams = sound(rng)
    which = rng.randint(0, 1)
    right = len(streams[which]) - 2
    others = (0, right - 1, right + 1, right + 2, right + 2**16, right + 2**31, WORD)
    wrong = rng.choice([value for value in others if value >= 0 and value != right])
    streams[which][-1] = end(wrong)
    return joined(streams) + rng.choice((b"", b"\x01"))


def misplaced(rng):
    """A record of any kind put in place of another, or before or after it: the first, a middle or the last of a stream."""
    params, streams = sound(rng)
    records = streams[rng.randint(0, 1)]
    at = place(rng, 0, len(records) - 1)
    length = rng.choice((0, 1))
    after = rng.choice((0, 1))
    records[at + after:at + after + length] = [some_record(rng, params)]
    return joined(streams)


def dropped(rng):
    """A record that is missing, or one that stands twice: the first, a middle or the last of a stream."""
    _, streams = sound(rng)
    records = streams[rng.randint(0, 1)]
    at = place(rng, 0, len(records) - 1)
    records[at:at + 1] = rng.choice(([], [records[at]] * 2))
    return joined(streams)


def other_kind(rng):
    """A kind byte changed, the body kept."""
    _, streams = sound(rng)
    records = streams[rng.randint(0, 1)]
    at = place(rng, 0, len(records) - 1)
    records[at] = bytes([rng.choice((0, 1, 2, 3, 4, 5, 10, rng.randint(0, 255)))]) + records[at][1:]
    return joined(streams)


def past_a_portion(rng):
    """A fault, or none, in the last records of an input that is a little longer or shorter than 65536 or 131072 bytes, by
    which a reader may well take its input: records lie across that place."""
    params = any_params(rng, 200)
    portion = rng.choice((65536, 131072))
    records = (portion - len(head(params)) - len(end(0))) // len(packets(1, 1)) + rng.randint(-6, 2)
    flow = any_flow(rng, params)
    streams = [stream(params, [(flow, 1)] * records), stream(params, small_entries(rng, params, 6) + [(flow, records)])]
    fault = rng.choice(("none", "packet", "end", "head", "cut", "trailing"))
    if fault == "packet":
        which = rng.randint(0, 1)
        last = len(streams[which]) - 2
        bad_packet_in(rng, params, streams, which, rng.randint(max(1, last - 8), last))
    elif fault == "end":
        streams[rng.randint(0, 1)][-1] = end(1)
    elif fault == "head":
        streams[1][0] = broken_head(rng, params)
    whole = joined(streams)
    if fault == "cut":
        return whole[:rng.randint(portion - 40, len(whole) - 1)]
    return whole + (b"\x01" if fault == "trailing" else b"")


def cut(rng):
    """Cut at any byte; some have a fault as well."""
    params, streams, which, at = with_packets(rng)
    if rng.random() < 0.4:
        bad_packet_in(rng, params, streams, which, at)
    whole = joined(streams)
    return whole[:rng.randrange(len(whole))]


def cut_between(rng):
    """Cut where a record ends, so that a record is missing."""
    _, streams = sound(rng)
    records = [record for records in streams for record in records]
    return b"".join(records[:rng.randrange(len(records))])


def trailing(rng):
    """Bytes after the second end: one of any kind, a record, a whole third stream."""
    params, streams = sound(rng)
    after = rng.choice((bytes([rng.randint(0, 255)]), some_record(rng, params), b"".join(streams[1]), rng.randbytes(rng.randint(1, 50))))
    return joined(streams) + after


def one_stream(rng):
    """The upstream file alone, or nothing at all."""
    _, streams = sound(rng)
    return rng.choice((b"", b"".join(streams[0])))


def flipped(rng):
    """Some bits of a sound input changed."""
    _, streams = sound(rng)
    changed = bytearray(joined(streams))
    for _ in range(rng.randint(1, 3)):
        changed[rng.randrange(len(changed))] ^= 1 << rng.randint(0, 7)
    return bytes(changed)


def noise(rng):
    """Bytes that mean nothing, some of them after a sound head."""
    params, _ = sound(rng)
    return rng.choice((b"", head(params))) + rng.randbytes(rng.randint(0, 60))
