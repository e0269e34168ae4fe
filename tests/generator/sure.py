"""Which reports surely work (request A9), and what is then printed: judged by the packets of both streams alone, without a walk. That
all losses and gains are within the limits is no question here, since both sketches are."""

import collections
import struct

from generator.files import Params
from generator.values import position

HEADS = {1: 38, 10: 46}


def streams(data):
    """The parameters of a sound input, and the net loss of each flow where it is not 0; a gain is negative."""
    net, sign, at = collections.Counter(), 1, 0
    while at < len(data):
        kind = data[at]
        if kind in HEADS:
            d, m, *numbers = struct.unpack(f">BI{(HEADS[kind] - 6) // 4}I", data[at + 1:at + HEADS[kind]])
            pairs = tuple(zip(numbers[::2], numbers[1::2]))
            params = Params(d, m, pairs[:4], *pairs[4:])
            at += HEADS[kind]
        elif kind == 2:
            flow, number = struct.unpack(">II", data[at + 1:at + 9])
            net[flow] += sign * number
            at += 9
        else:
            sign = -1
            at += 5
    return params, [(flow, number) for flow, number in net.items() if number]


def report(data):
    """What is printed of a sound input that surely works, and None of any other."""
    params, entries = streams(data)
    rising = sorted((position(params, 0, flow), flow, number) for flow, number in entries)
    if len({at for at, _, _ in rising}) < len(rising):
        return None
    lost, extra = (sum(max(sign * number, 0) for _, number in entries) for sign in (1, -1))
    lines = [f"loss {flow} {number}" for _, flow, number in rising] + [f"end clean pops {len(rising)} lost {lost} extra {extra}"]
    return "\n".join(lines) + "\n"
