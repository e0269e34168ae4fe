"""Scripts: commands put one after the other, and the readable text of a script."""

import struct

# The commands by their numbers, with the names of their operands. After STORE and those of WITH_BYTES come as many numbers or bytes
# as the last operand says.
PAIRS = ("a1", "b1", "a2", "b2", "a3", "b3", "a4", "b4")
COMMANDS = {
    1: ("params", ("d", "m") + PAIRS + ("prime", "a5", "b5", "sort")), 2: ("length", ("slice", "length")), 3: ("store", ("slice", "from", "many")),
    4: ("fill", ("slice", "from", "many", "number")), 5: ("fresh", ()), 6: ("insert", ("flow", "number")), 7: ("insert all", ()),
    8: ("add", ()), 9: ("subtract", ()), 10: ("peel", ("allowance",)), 11: ("read stream", ("bytes",)),
    12: ("read sketch", ("bytes",)), 13: ("read stream back", ()), 14: ("read sketch back", ()), 15: ("write stream", ()),
    16: ("write sketch", ()), 17: ("position", ("array", "flow")), 18: ("index", ("array", "flow")), 19: ("show", ()),
    20: ("withdraw", ("flow", "number")), 21: ("head", ("bytes",)), 22: ("head back", ()), 23: ("fold", ("m2",)),
}
WITH_BYTES = ("read stream", "read sketch", "head")
NUMBERS = {name: number for number, (name, _) in COMMANDS.items()}
SLICES = (
    "counts", "idsums", "table flows", "table counts", "queue", "marks", "packet flows", "packet numbers", "output")

# As many slots as there is room for in a slice of numbers, and bytes in the output; the most bytes of a script.
ROOM = 65537
OUTPUT_ROOM = 852020
MOST_BYTES = 65536


class Script:
    """A script that grows by commands. Those on a sketch take the number of the sketch, 1 or 2."""

    def __init__(self):
        self.bytes = b""

    def add(self, name, sketch=1, operands=(), after=b""):
        byte = NUMBERS[name] + (128 if sketch == 2 else 0)
        self.bytes += struct.pack(f">B{len(operands)}I", byte, *operands) + after

    def params(self, sketch, params):
        pairs = [each for pair in params.pairs for each in pair]
        self.add("params", sketch, (params.d, params.m, *pairs, params.prime, *params.fifth, params.sort))

    def length(self, slice_name, length, sketch=1):
        self.add("length", sketch, (SLICES.index(slice_name), length))

    def store(self, slice_name, numbers, start=0, sketch=1):
        words = [number % 2**32 for number in numbers]
        operands = (SLICES.index(slice_name), start, len(words))
        self.add("store", sketch, operands, struct.pack(f">{len(words)}I", *words))

    def fill(self, slice_name, number, start=0, many=ROOM, sketch=1):
        self.add("fill", sketch, (SLICES.index(slice_name), start, many, number % 2**32))

    def read(self, name, data, sketch=1):
        self.add(name, sketch, (len(data),), data)

    def bucket(self, index, count, idsum, sketch=1):
        self.store("counts", [count], index, sketch)
        self.store("idsums", [idsum], index, sketch)

    def packets(self, entries):
        """The list of packets that the next calls are lent."""
        self.length("packet flows", len(entries))
        self.length("packet numbers", len(entries))
        self.store("packet flows", [flow for flow, _ in entries])
        self.store("packet numbers", [number for _, number in entries])

    def sketch(self, sketch, params):
        """A fresh sketch with slices as they should be; another script may have been done before."""
        self.params(sketch, params)
        self.length("counts", params.d * params.m, sketch)
        self.length("idsums", params.d * params.m, sketch)
        self.add("fresh", sketch)

    def table(self, params, slots, garbage, many=ROOM):
        """A table, a queue and marks as they should be, with any content in their first places."""
        size = params.d * params.m
        for slice_name, length in (("table flows", slots), ("table counts", slots), ("queue", size), ("marks", size)):
            self.length(slice_name, length)
            self.fill(slice_name, garbage, 0, many)

    def show(self):
        self.add("show", 1)
        self.add("show", 2)


def commands(script):
    """Each command with its offset, its operands and the bytes after them; the last has no name where it is unknown or cut."""
    at = 0
    while at < len(script):
        name, operands = COMMANDS.get(script[at] % 128, (None, ()))
        end = at + 1 + 4 * len(operands)
        if name is None or end > len(script):
            yield at, None, (), script[at:]
            return
        values = struct.unpack(f">{len(operands)}I", script[at + 1:end])
        after = 4 * values[2] if name == "store" else values[0] if name in WITH_BYTES else 0
        if end + after > len(script):
            yield at, None, (), script[at:]
            return
        yield at, name, values, script[end:end + after]
        at = end + after


def is_whole(script):
    """Whether a script is done to its last byte."""
    return all(name is not None for _, name, _, _ in commands(script))


def readable(script):
    """A line for each command."""
    lines = []
    for at, name, values, after in commands(script):
        if name is None:
            lines.append(f"{at}: unknown or cut: {after.hex()}")
            continue
        _, operands = COMMANDS[NUMBERS[name]]
        words = [f"{operand} {value}" for operand, value in zip(operands, values)]
        if operands[:1] == ("slice",) and values[0] < len(SLICES):
            words[0] = SLICES[values[0]]
        if name == "store":
            words.append(" ".join(str(number) for number, in struct.iter_unpack(">i", after)))
        elif after:
            words.append(after.hex())
        lines.append(f"{at}: sketch {1 + script[at] // 128} {name} " + ", ".join(words))
    return "\n".join(lines)
