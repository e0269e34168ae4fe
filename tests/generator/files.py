"""Parameters, and files as lists of their records: a head, packets or buckets, an end."""

import struct
from typing import NamedTuple

P = 2147483647
MOST = P - 1
WORD = 2**32 - 1

# The last flow where flows have fingerprints.
LAST = 8388606


class Params(NamedTuple):
    """A fifth pair that is not (0, 0) gives flows fingerprints. The number of the prime is always 1 and the last one 0 where no rule is
    broken; a head has neither."""
    d: int
    m: int
    pairs: tuple
    fifth: tuple = (0, 0)
    prime: int = 1
    sort: int = 0


def head(params):
    """A head of kind 1, or of kind 10 where there is a fifth pair."""
    return head_of_ten(params) if params.fifth != (0, 0) else head_of_one(params)


def head_of_one(params):
    return struct.pack(">BBI", 1, params.d, params.m) + b"".join(struct.pack(">II", *pair) for pair in params.pairs)


def head_of_ten(params):
    """The fifth pair may be any, (0, 0) too."""
    return b"\x0a" + head_of_one(params)[1:] + struct.pack(">II", *params.fifth)


def packets(flow, number):
    return struct.pack(">BII", 2, flow, number)


def bucket(index, count, idsum):
    return struct.pack(">BIiI", 3, index, count, idsum)


def end(number):
    return struct.pack(">BI", 4, number)


def stream(params, entries):
    return [head(params)] + [packets(*entry) for entry in entries] + [end(len(entries))]


def sketch_file(params, buckets):
    """The file of a sketch whose buckets, each with its index, stand in rising order."""
    return [head(params)] + [bucket(*each) for each in buckets] + [end(len(buckets))]


def stream_length(params, many):
    """How long the file of so many packet records is."""
    return len(head(params)) + len(packets(1, 1)) * many + len(end(many))


def sketch_length(params, many):
    """How long the file of so many buckets is."""
    return len(head(params)) + len(bucket(0, 1, 1)) * many + len(end(many))


def joined(streams):
    return b"".join(b"".join(records) for records in streams)
