"""Tables with an event each, in the form of docs/TABLES.md, and what one call of the checked entry costs on them."""
import os
import random
import struct

from counting import NEAR, fail
from ends import DESTINATION, SOURCE

RECORD, EVENT = 20, 16  # octets
UNCHECKED = 32768  # added to the count of a case that is not to be checked
MULTIPLIER, CHAIN = 2654435761, 8  # of crates/distinct: what spreads the keys, and how far a chain is followed
STEPS, SETS = 4096, 1000
OPENING, TRIGGER = 0, 1
RELEASE = {SOURCE: 6, DESTINATION: 7}  # from the party that this end stands by
IDLE, AWAITING = (1, 1, 0, 1), (7, 1, 2, 2)  # the state's number, incumbent, rerouting, last number


def record(key, held):
    state, incumbent, rerouting, last = held
    return struct.pack(">IBBBxHHHIxx", key, 1, 2, state, incumbent, rerouting, last, 0)


def unchecked(cases):
    """The same cases, none of them to be checked; the last of them may be bad."""
    octets, at = bytearray(cases), 0
    while at + 2 <= len(octets):
        (records,) = struct.unpack_from(">H", octets, at)
        struct.pack_into(">H", octets, at, records | UNCHECKED)
        at += 2 + records * RECORD + EVENT
    return bytes(octets)


def at_random(count):
    return random.Random(1).sample(range(1, 1 << 32), count)


def slot(key):
    """As in crates/distinct."""
    return key * MULTIPLIER // 4194304 % 1024


def in_one_slot(count):
    """Their products with the multiplier are 1, 2, 3 .. modulo 2^32, all in slot 0."""
    keys = [pow(MULTIPLIER, -1, 1 << 32) * product % (1 << 32) for product in range(1, count + 1)]
    assert all(slot(key) == 0 for key in keys)
    return keys


def comparisons(keys):
    """How many pairs of these keys crates/distinct compares, and whether some slot has more than a chain's steps."""
    held, compared = [0] * 1024, 0
    for place, key in enumerate(keys):
        at = slot(key)
        compared += held[at] if held[at] < CHAIN else CHAIN + place
        held[at] += 1
    return compared, max(held) > CHAIN


def crowded():
    """Rows on which keys are bad: those of which some slot holds more than a chain's steps."""
    steps = {step: comparisons([step * turn for turn in range(1, 1025)]) for step in range(1, STEPS + 1)}
    bad = {step: compared for step, (compared, full) in steps.items() if full}
    draw = random.Random(1)
    sets = sum(comparisons(draw.sample(range(1, 1 << 32), 1024))[1] for _ in range(SETS))
    yield [f"of the steps 1 to {STEPS:,}, those that put more than {CHAIN} of 1,024 keys into one slot", len(bad)]
    yield ["the smallest of them", min(bad)]
    yield ["the one with the most comparisons", max(bad, key=bad.get)]
    yield [f"of {SETS:,} random sets of 1,024 keys, those with more than {CHAIN} in one slot", sets]


def meets(place, kind):
    return lambda keys, records: (kind, keys[place], records)


def opens_last(keys, records):
    return OPENING, keys[-1], records[:-1] + [bytes(RECORD)]


def last_unfit(keys, records):
    return TRIGGER, keys[0], records[:-1] + [record(keys[-1], (1, 1, 0, 0))]


def last_key_again(keys, records):
    return TRIGGER, keys[0], records[:-1] + [records[0]]


def no_such_key(keys, records):
    return TRIGGER, keys[-1], records[:-1] + [record(keys[-1] ^ 1, IDLE)]


def runs(end):
    """Of an end: keys, what each record holds, event, answer, and what a line calls it."""
    release = meets(-1, RELEASE[end])
    return [
        (lambda count: range(1, count + 1), IDLE, meets(-1, TRIGGER), 0, "keys 1 to n, trigger on the last record"),
        (at_random, IDLE, meets(-1, TRIGGER), 0, "random keys, trigger on the last record"),
        (at_random, IDLE, meets(0, TRIGGER), 0, "random keys, trigger on the first record"),
        (at_random, IDLE, opens_last, 0, "random keys, opening into the last record"),
        (at_random, IDLE, no_such_key, 105, "random keys, refused 105: no such key"),
        (at_random, IDLE, last_unfit, 101, "random keys, refused 101: last record unfit"),
        (at_random, IDLE, last_key_again, 101, "random keys, refused 101: last key is the first"),
        (at_random, AWAITING, release, 0, "random keys, Awaiting, release on the last"),
        (lambda count: range(842, 842 * count + 1, 842), IDLE, meets(-1, TRIGGER), 0, "keys in steps of 842, trigger on the last"),
        (in_one_slot, IDLE, meets(-1, TRIGGER), 0, "keys of one slot, trigger on the last record"),
        (in_one_slot, AWAITING, release, 0, "keys of one slot, Awaiting, release on the last"),
    ]


def ordinary(end):
    """Their lines, without those whose keys fall into few slots."""
    return [run[4] for run in runs(end)[:-3]]


def input_of(run, count):
    keys_of, held, event = run[:3]
    keys = keys_of(count)
    kind, key, records = event(keys, [record(key, held) for key in keys])
    return struct.pack(">H", count) + b"".join(records) + struct.pack(">BxxxI8x", kind, key)


def cost(machine, words, symbol, run, count, *wanted):
    """What `Machine.calls` tells of the one call of the entry, which must give the answer that is expected."""
    case, output = (os.path.join(machine.folder, name) for name in ("case", "output"))
    with open(case, "wb") as file:
        file.write(input_of(run, count))
    calls = machine.calls(symbol, words, case, output, *wanted)
    with open(output) as file:
        shown = file.readline()
    if not shown.startswith(f"case 1 answer {run[3]} n {count} "):
        fail(f"{run[4]}, {count} records: it prints {shown!r}, and the answer {run[3]} is expected")
    if len(calls) != 1:
        fail(f"{symbol} was seen {len(calls)} times, not once: is it still a function of its own?")
    return calls[0]


def stack(machine, end, words, symbol):
    """The most octets of stack that a call takes, over all runs at 64 records; the emulator alone tells it."""
    place = cost(machine, words, symbol, runs(end)[0], 64)[3]
    near = ("-d", "exec,cpu,nochain", "-dfilter", f"{place - NEAR:#x}..{place + NEAR:#x}")
    return max(cost(machine, words, symbol, run, 64, near)[2] for run in runs(end))
