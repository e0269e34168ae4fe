"""Scripts: which kinds there are, how often each is made, and those that break off or mean nothing."""

from generator import script_calls, script_files, script_fingerprints, script_folds
from generator.commands import COMMANDS, MOST_BYTES, WITH_BYTES, Script
from generator.files import MOST, P, WORD
from generator.values import any_flow, any_params, small_entries


def any_calls(rng):
    """Commands of every kind in any order on two small sketches."""
    params = any_params(rng, 1, 4)
    script = Script()
    for sketch in (1, 2):
        script.sketch(sketch, params)
    script.packets(small_entries(rng, params, 5))
    script.table(params, rng.randint(0, 6), 0)
    script.length("output", rng.choice((60, 120, 250)))
    for _ in range(rng.randint(5, 25)):
        sketch = rng.choice((1, 1, 2))
        name, operands = rng.choice(script_calls.calls(rng, params)[:6] + [("insert", (any_flow(rng, params), rng.randint(1, 9)))] * 3)
        script.add(name, sketch, operands)
        if rng.random() < 0.1:
            script.bucket(rng.randrange(params.d * params.m), rng.randint(-3, 3), rng.randint(0, P - 1), sketch)
    script.show()
    return script.bytes


def any_operands(rng):
    """Commands with operands of any value, also slices that there are not and places past their ends."""
    params = any_params(rng, 1, 4)
    script = Script()
    for sketch in (1, 2):
        script.sketch(sketch, params)
    small = (0, 1, 2, 3, 5, 8, 9, 10)
    for _ in range(rng.randint(3, 20)):
        name, names = COMMANDS[rng.choice([each for each in COMMANDS if each not in (1, 10)])]
        values = [rng.choice(small + (rng.randint(0, 12), P, MOST, WORD)) for _ in names]
        if name == "store":
            values[2] = rng.randint(0, 5)
        after = 4 * values[2] if name == "store" else 0
        if name in WITH_BYTES:
            values[0] = after = rng.randint(0, 60)
        script.add(name, rng.choice((1, 1, 2)), values, rng.randbytes(after))
    script.show()
    return script.bytes


def broken_off(rng):
    """A script cut at any byte, or with an unknown command in it."""
    whole = rng.choice((any_calls, any_operands, script_files.streams_written))(rng)
    if rng.random() < 0.5:
        return whole[:rng.randrange(len(whole) + 1)]
    unknown = rng.choice((0, 24, 25, 127, 128, 152, 255, rng.randint(0, 255)))
    return whole + bytes([unknown]) + rng.randbytes(rng.randint(0, 20))


def empty(_rng):
    """Nothing at all."""
    return b""


KINDS = (
    (script_calls.walks, 14), (script_calls.each_allowance, 10), (script_calls.own_buckets, 8), (script_calls.long_tables, 6),
    (script_calls.any_buckets, 10),
    (script_calls.one_flow, 2), (script_calls.inserts, 10), (script_calls.withdrawals, 8), (script_calls.lists, 8),
    (script_calls.sums, 10),
    (script_calls.orders, 10), (script_calls.lengths, 8), (script_calls.parameters, 6), (script_calls.places, 4),
    (script_calls.long_lists, 0.5), (script_calls.largest, 0.3),
    (script_files.streams_read, 14), (script_files.sketches_read, 16), (script_files.old_sketches, 8), (script_files.every_cut, 3), (script_files.heads, 6),
    (script_files.streams_written, 8), (script_files.sketches_written, 8),
    (script_folds.folds, 8), (script_folds.fold_limits, 10), (script_folds.fold_orders, 12), (script_folds.folds_of_folds, 5),
    (script_folds.folded_lists, 5), (script_folds.folded_differences, 8), (script_folds.folded_files, 6),
    (script_folds.largest_folds, 1.5),
    (script_fingerprints.fifth_pairs, 8), (script_fingerprints.edge_flows, 8), (script_fingerprints.across_profiles, 8),
    (script_fingerprints.heads_of_ten, 8), (script_fingerprints.cut_heads, 2), (script_fingerprints.near_fingerprints, 12),
    (script_fingerprints.in_both_profiles, 10), (script_fingerprints.folded_profiles, 6),
    (any_calls, 10), (any_operands, 6), (broken_off, 4), (empty, 0.1),
)


def made(rng):
    """The name of a kind and a script of it."""
    kind = rng.choices([kind for kind, _ in KINDS], [weight for _, weight in KINDS])[0]
    script = kind(rng)
    assert len(script) <= MOST_BYTES, f"{kind.__name__} made a script that is too long"
    return kind.__name__, script
