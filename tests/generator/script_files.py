"""Scripts about files: sound and faulty ones read, old ones with flow 0 in them, their heads alone, and files written and read back."""

from generator.commands import Script
from generator.files import (
    LAST, MOST, P, WORD, bucket, end, head, head_of_one, head_of_ten, packets, sketch_file, sketch_length, stream, stream_length)
from generator.script_calls import (
    DAMAGED_COUNTS, DAMAGED_IDSUMS, any_content, any_count, any_idsum, bad_params, changed, damage, indexes, wrong_length)
from generator.values import any_flow, any_params, extended, has_fingerprints, no_flow, place, small_entries, some_record


def any_stream(rng, params):
    entries = [(any_flow(rng, params), rng.choice((1, rng.randint(1, 99)))) for _ in range(rng.randint(0, 7))]
    return stream(params, entries)


def any_sketch_file(rng, params):
    size = params.d * params.m
    chosen = sorted(rng.sample(range(size), rng.randint(0, min(size, 7))))
    buckets = [(index, any_count(rng), any_idsum(rng)) for index in chosen]
    return sketch_file(params, [each for each in buckets if each[1:] != (0, 0)])


def bad_packets(rng, params):
    flow, number = no_flow(rng, params), rng.choice((0, P, WORD))
    return packets(*rng.choice(((flow, 1), (flow, 1), (any_flow(rng, params), number), (flow, number), (flow, number), (any_flow(rng, params), MOST))))


def index_of(record):
    return int.from_bytes(record[1:5], "big")


def bad_bucket(rng, size, previous, replaced):
    """A bucket with a fault in one of its fields, or in several, in place of one that stood after the previous record."""
    before = index_of(previous) if previous[0] == 3 else 0
    here = min(index_of(replaced), size - 1)
    index = rng.choice((size, size + 1, WORD, before, before, max(before - 1, 0), 0, size - 1))
    count = rng.choice(DAMAGED_COUNTS + (0, 1))
    idsum = rng.choice(DAMAGED_IDSUMS + (0, 1))
    return bucket(*rng.choice((
        (index, any_count(rng), any_idsum(rng)), (index, 1, 1), (here, 0, 0), (here, count, 1), (here, 1, idsum),
        (here, count, idsum), (index, count, idsum))))


def spoilt(rng, params, records, bad_record):
    """A file's records with one change: the first, a middle or the last of them at fault, misplaced, missing or twice."""
    at = place(rng, 0, len(records) - 1)
    way = rng.choice(("bad", "bad", "bad", "misplaced", "kind", "twice", "end", "head"))
    if way == "bad" and len(records) > 2:
        at = place(rng, 1, len(records) - 2)
        records[at] = bad_record(records[at - 1], records[at])
    elif way == "bad":
        records.insert(1, bad_record(records[0], end(0)))
    elif way == "misplaced":
        records[at:at + rng.choice((0, 1))] = [some_record(rng, params)]
    elif way == "kind":
        records[at] = bytes([rng.choice((0, 1, 2, 3, 4, 5, 10, 255))]) + records[at][1:]
    elif way == "twice":
        records[at:at + 1] = rng.choice(([], [records[at]] * 2))
    elif way == "end":
        records[-1] = end(rng.choice((0, len(records) - 1, len(records), WORD)))
    else:
        other = rng.choice((bad_params, changed))(rng, params)
        records[0] = rng.choice((head, head, head, head_of_one, head_of_ten))(other._replace(d=min(other.d, 255)))
    return records


def any_file(rng, params, kind):
    """A sound file, or one that is spoilt, cut at any byte, or followed by more bytes."""
    if kind == "stream":
        records = any_stream(rng, params)
        bad_record = lambda _previous, _replaced: bad_packets(rng, params)
    else:
        records = any_sketch_file(rng, params)
        bad_record = lambda previous, replaced: bad_bucket(rng, params.d * params.m, previous, replaced)
    for _ in range(rng.choice((0, 1, 1, 1, 2))):
        records = spoilt(rng, params, records, bad_record)
    data = b"".join(records)
    if rng.random() < 0.2:
        return data[:rng.randrange(len(data) + 1)]
    if rng.random() < 0.15:
        return data + rng.choice((b"\x00", b"\x02", end(0), rng.randbytes(9), data))
    return data


def reading(rng, kind):
    params = any_params(rng, 1, rng.choice((2, 6, 30)))
    size = params.d * params.m
    script = Script()
    script.sketch(1, params)
    any_content(rng, script, 1, params)
    if rng.random() < 0.15:
        damage(rng, script, 1, place(rng, 0, size - 1))
    if rng.random() < 0.1:
        script.params(1, rng.choice((bad_params, changed))(rng, params))
    if rng.random() < 0.1:
        script.length(rng.choice(("counts", "idsums")), wrong_length(rng, size))
    # A stream in a place for a sketch file, and the other way round, is a fault as well.
    told = kind if rng.random() < 0.95 else rng.choice(("stream", "sketch"))
    for _ in range(rng.choice((1, 1, 2))):
        script.read("read " + kind, any_file(rng, params, told))
        script.add("show")
    if rng.random() < 0.3:
        script.length("output", 600)
        script.add("write sketch")
        script.add("show")
    return script.bytes


def streams_read(rng):
    """Stream files, sound or with a fault in any field of any record, cut, with bytes after them; bad sketches to read into."""
    return reading(rng, "stream")


def sketches_read(rng):
    """Sketch files, likewise."""
    return reading(rng, "sketch")


def sketched(params, entries):
    """The buckets of a list of entries, each with its index, in rising order; those that are all zero are left out."""
    counts, idsums = {}, {}
    for flow, number in entries:
        for index in indexes(params, flow):
            counts[index] = counts.get(index, 0) + number
            idsums[index] = (idsums.get(index, 0) + number * extended(params, flow)) % P
    return [(index, counts[index], idsums[index]) for index in sorted(counts) if (counts[index], idsums[index]) != (0, 0)]


def old_sketches(rng):
    """Sketch files of switches that took flow 0 for a flow, or with fingerprints 8388607: read, written again, added or subtracted, and peeled;
    the flow itself is refused."""
    params = any_params(rng, 1, rng.choice((2, 6, 30)))
    size = params.d * params.m
    script = Script()
    nobody = rng.choice((0, LAST + 1)) if has_fingerprints(params) else 0
    for sketch in (1, 2):
        script.sketch(sketch, params)
        entries = [(nobody, rng.choice((0, 1, 7, rng.randint(1, MOST // 2))))] + rng.choice(([], small_entries(rng, params, 4)))
        script.read("read sketch", b"".join(sketch_file(params, sketched(params, entries))), sketch)
    script.length("output", sketch_length(params, size))
    script.add("write sketch")
    script.show()
    script.add("read sketch back", rng.choice((1, 1, 1, 2)))
    script.add(rng.choice(("subtract", "subtract", "add")))
    script.add(rng.choice(("insert", "withdraw")), 1, (nobody, rng.choice((0, 1, P))))
    script.add(rng.choice(("position", "index")), 1, (rng.randint(0, params.d + 1), nobody))
    script.table(params, size, rng.choice((0, 9, WORD)))
    script.add("peel", 1, (rng.choice((8 * size, rng.randint(0, 2 * params.d))),))
    script.show()
    return script.bytes


def every_cut(rng):
    """A short file cut at every byte, or with every length of zeros after it."""
    params = any_params(rng, 1, 3)
    kind = rng.choice(("stream", "sketch"))
    records = any_stream(rng, params)[:2] if kind == "stream" else any_sketch_file(rng, params)[:2]
    records = [records[0]] + [record for record in records[1:] if record[0] != 4]
    data = b"".join(records + [end(len(records) - 1)])
    script = Script()
    script.sketch(1, params)
    any_content(rng, script, 1, params)
    for length in range(len(data) + 3):
        script.read("read " + kind, (data + bytes(2))[:length])
        script.read("head", (data + bytes(2))[:length])
    script.add("show")
    return script.bytes


def any_head(rng):
    """A head of any sizes, of which one thing may be wrong: its parameters, its length or its kind."""
    params = any_params(rng, 1, 16384)
    params = params._replace(m=rng.choice((params.m, 16384, 1)))
    way = rng.choice(("sound", "sound", "param", "param", "param", "cut", "kind"))
    if way == "param":
        params = bad_params(rng, params)
        params = params._replace(d=min(params.d, 255))
    data = rng.choice((head, head, head, head, head_of_one, head_of_ten))(params)
    if way == "cut":
        return data[:rng.choice((0, 1, len(data) - 1, rng.randrange(len(data))))]
    if way == "kind":
        return rng.choice((bytes([rng.choice((0, 1, 2, 3, 4, 5, 10, 255))]) + data[1:], some_record(rng, params)))
    return data


def heads(rng):
    """Heads alone or with any bytes after them, of a file or not; the heads of whole files, sound or spoilt."""
    script = Script()
    for _ in range(rng.randint(1, 6)):
        script.read("head", any_head(rng) + rng.choice((b"", b"", b"\x00", rng.randbytes(9))))
    script.read("head", any_file(rng, any_params(rng, 1, 30), rng.choice(("stream", "sketch"))))
    return script.bytes


def streams_written(rng):
    """A stream written from a list, some of it at fault, to an output that just holds it or not, and read back."""
    params = any_params(rng, 1, 8)
    script = Script()
    script.sketch(1, params)
    any_content(rng, script, 1, params)
    entries = small_entries(rng, params, 9)
    for _ in range(rng.choice((0, 0, 1, 2)) if entries else 0):
        at = place(rng, 0, len(entries) - 1)
        entries[at] = rng.choice(((no_flow(rng, params), 1), (no_flow(rng, params), 0), (3, 0), (3, P), (3, MOST)))
    if len(entries) > 1 and rng.random() < 0.1:
        # FLOW at the last entry comes before COUNT at the first.
        entries[0], entries[-1] = (any_flow(rng, params), rng.choice((0, P))), (no_flow(rng, params), 1)
    script.packets(entries)
    if rng.random() < 0.1:
        script.length(rng.choice(("packet flows", "packet numbers")), wrong_length(rng, len(entries)))
    if rng.random() < 0.1:
        script.params(1, bad_params(rng, params))
    exact = stream_length(params, len(entries))
    script.length("output", rng.choice((exact, exact, exact + 1, exact - 1, 0, exact + 50)))
    script.fill("output", 204)
    script.add("write stream")
    script.add("show")
    if rng.random() < 0.2:
        script.store("output", [rng.choice((0, 1, 2, 3, 4, 128, 255))], rng.randrange(exact))
    script.add("head back")
    script.add("read stream back")
    script.add("show")
    return script.bytes


def sketches_written(rng):
    """A sketch written to an output that just holds it or not, some of it damaged; read back into the other one and written again."""
    params = any_params(rng, 1, 8)
    size = params.d * params.m
    script = Script()
    script.sketch(1, params)
    script.sketch(2, params if rng.random() < 0.9 else changed(rng, params))
    chosen = rng.sample(range(size), rng.randint(0, min(size, 9)))
    buckets = {index: (any_count(rng), any_idsum(rng)) for index in chosen}
    for index, (count, idsum) in buckets.items():
        script.bucket(index, count, idsum)
    any_content(rng, script, 2, params)
    if rng.random() < 0.25 and chosen:
        damage(rng, script, 1, rng.choice(chosen))
    if rng.random() < 0.1:
        script.length(rng.choice(("counts", "idsums")), wrong_length(rng, size))
    exact = sketch_length(params, sum(each != (0, 0) for each in buckets.values()))
    script.length("output", rng.choice((exact, exact, exact + 1, exact - 1, 0, exact + 50)))
    script.fill("output", 51)
    script.add("write sketch")
    script.show()
    if rng.random() < 0.2:
        script.store("output", [rng.choice((0, 1, 2, 3, 4, 127, 128, 255))], rng.randrange(exact))
    script.add("head back")
    script.add("read sketch back", 2)
    script.fill("output", 0)
    script.add("write sketch", 2)
    script.show()
    return script.bytes
