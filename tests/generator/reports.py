"""Inputs of the report: which kinds there are, and how often each is made."""

from generator import faulty, sound
from generator.files import joined, stream

# How often each kind is made, out of the sum of both lists.
SOUND = (
    (sound.lost, 12), (sound.duplicates, 10), (sound.ring_link, 10), (sound.crowded, 8), (sound.tiny, 16), (sound.many_flows, 6),
    (sound.wide, 10), (sound.meets_the_range, 4), (sound.meets_the_table, 4), (sound.searched, 9), (sound.false_pure, 12),
    (sound.comes_out_as_zero, 8), (sound.cancelled, 6), (sound.at_the_limits, 10), (sound.nothing_lost, 4),
    (sound.at_the_size, 8), (sound.large, 1), (sound.shared_buckets, 10), (sound.comes_out_at_the_edge, 6), (sound.circling, 12),
    (sound.own_buckets, 10),
)
FAULTY = (
    (faulty.bad_packet, 10), (faulty.two_bad_packets, 4), (faulty.over_the_limit, 8), (faulty.bad_head, 10),
    (faulty.other_head, 12), (faulty.head_cut, 6), (faulty.bad_end, 5), (faulty.misplaced, 10), (faulty.dropped, 4), (faulty.other_kind, 5),
    (faulty.cut, 8), (faulty.cut_between, 3), (faulty.trailing, 4), (faulty.one_stream, 1), (faulty.flipped, 8),
    (faulty.noise, 2), (faulty.past_a_portion, 1),
)
KINDS = [kind for kind, _ in SOUND + FAULTY]
WEIGHTS = [weight for _, weight in SOUND + FAULTY]


def made(rng):
    """The name of a kind and an input of it."""
    kind = rng.choices(KINDS, WEIGHTS)[0]
    if kind.__module__ == faulty.__name__:
        return kind.__name__, kind(rng)
    params, upstream, downstream = kind(rng)
    return kind.__name__, joined([stream(params, upstream), stream(params, downstream)])
