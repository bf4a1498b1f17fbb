"""Script lines of one run that meets every cell which a run from an empty table can reach at an end of a call: each state, under all
services that allow it, with every event and its variants; every event for key 0 and for a key that is not on record; a full table; and
each row that reads the last connection number, at 65,534 and at 65,535."""
from ends import SOURCE

RECORD_NUMBER = 100  # on record of a call that can take a setup when an event is tried on it
NUMBERS = (0, 99, 100, 101, 4294967295)
CODES = ("clearing", "immediate", "2", "255")
CONNECTIONS = (0, 1, 2, 3, 4, 65535)
CAUSES = ("", " cause 0", " cause 1", " cause 2", " cause 4", " cause 255")
CRANKBACKS = ("", " alternate", " noalternate")
SERVICES = [(hard, soft) for hard in ("nohard", "hard") for soft in ("none", "asymmetric", "symmetric")]
RECORDS = 64
LAST = 65535
WORN = 65532  # setups that bring a call to connection 65,533
UNKNOWN = "200"  # a switchover code without a meaning


def line(event, key):
    """An event is written without its key, which stands behind the first word."""
    word, _, rest = event.partition(" ")
    return f"{word} {key} {rest}".rstrip()


def every_event(node):
    yield from ("open", "trigger", "path", "nopath", "ready", "expiry")
    yield from (f"connect {connection} {policy}" for connection in CONNECTIONS for policy in ("yes", "no"))
    yield from (f"setup {code} {number}" for code in CODES for number in NUMBERS)
    yield from (f"{node.party}{cause}" for cause in CAUSES)
    yield from (f"{node.domain} {connection}{cause}{crankback}" for connection in CONNECTIONS for cause in CAUSES for crankback in CRANKBACKS)


def moved(node, setup):
    """Connection 2 comes and goes, so that one has ended and a number is on record; then a setup is taken, on connection 3."""
    return [f"setup clearing {RECORD_NUMBER - 1}", f"{node.domain} 2", f"setup {setup} {RECORD_NUMBER}"]


def ways(node, hard, soft):
    """The events that bring a call with these services into each state that it can reach, by the state's number."""
    lost = f"{node.domain} 1"
    ways = {1: []}
    if hard == "hard":
        # the source alone looks for a hard path
        ways |= {2: [lost]} | ({3: [lost, "path"]} if node is SOURCE else {})
    if soft == "symmetric" or node is SOURCE and soft == "asymmetric":
        ways |= {4: ["trigger"], 5: ["trigger", "path"]}
    if not takes_setups(node, hard, soft):
        return ways
    # the same, where a connection has ended and a number is on record
    ways = {state: [f"setup clearing {RECORD_NUMBER}", f"{node.domain} 2"] + way for state, way in ways.items()}
    soft_initiated = moved(node, "clearing")
    ways |= {6: soft_initiated, 7: soft_initiated + ["ready"]}
    if "immediate" in node.accepted:
        hard_initiated = moved(node, "immediate")
        # with hard off only a hard setup that fails leads to Hard Indicated
        ways = {3: hard_initiated, 2: hard_initiated + [f"{node.domain} 3"]} | ways
    return ways


def takes_setups(node, hard, soft):
    return soft == "symmetric" if node is SOURCE else (hard, soft) != ("nohard", "none")


def tried_cells(node):
    """Lines, and beside each the number of the state that its call must be in after it, where that is known."""
    key = 1000
    for hard, soft in SERVICES:
        for state, way in ways(node, hard, soft).items():
            for event in every_event(node):
                key += 1
                moves = [f"open {hard} {soft}", *way]
                yield from ((line(move, key), None) for move in moves[:-1])
                yield line(moves[-1], key), state
                yield line(event, key), None
                yield line(node.party, key), 0


def strange_keys(node):
    for key in (0, 999):
        yield from (line(event, key) for event in every_event(node) if key == 0 or event != "open")


def full_table(node):
    yield from (f"open {key}" for key in range(1, RECORDS + 1))
    yield from (f"open {key}{services}" for key in (1, RECORDS, RECORDS + 1, 0) for services in ("", " hard none", " nohard symmetric"))
    yield from (f"{node.party} {key}" for key in range(1, RECORDS + 1))


def setups(first):
    """One that is too old, and one of each code with a number of its own; the first has that code."""
    codes = [first] + [code for code in ("immediate", "clearing", UNKNOWN) if code != first]
    return ["setup clearing 9"] + [f"setup {code} {70000 + place}" for place, code in enumerate(codes)]


def ways_to_last(node, last):
    """What brings a call in Soft Initiated (1,65533), last number 65,533 and 65,532 on record, into each state at that last number, and
    the events that then read it beside setups."""
    taken = [f"setup clearing {number}" for number in range(LAST - 2, last)]
    idle = taken + [f"{node.domain} {last}"]
    # the last number is the one that the path takes
    before = taken[:-1] + [f"{node.domain} {last - 1}"]
    lost = f"{node.domain} 1"
    underway = before + [lost, "path"] if node is SOURCE else taken + [lost]
    retries = [f"{node.domain} {last}{event}" for event in ("", " alternate", " noalternate", " cause 2 alternate")]
    yield from ((taken, []), (taken + ["ready"], []), (idle, []))
    yield from ((idle + ["trigger"], ["path"]), (idle + [lost], ["path"]))
    yield from ((before + ["trigger", "path"], retries), (underway, retries))


def endings(node):
    """What is done with such a call: to each state at 65,534 and at 65,535, and there each event that reads the last number. At 65,534 a
    setup that is accepted takes the last one, so each code is the first once; at 65,535 none is accepted, and the others follow."""
    for way, events in ways_to_last(node, LAST - 1):
        yield from (way + setups(code) for code in node.accepted)
        yield from (way + [event] for event in events)
    for way, events in ways_to_last(node, LAST):
        yield from (way + setups("immediate") + [event] for event in events or ["trigger"])


def worn_calls(node):
    every = list(endings(node))
    assert len(every) <= RECORDS, "each has a call of its own, and the table has no more"
    keys = range(1, len(every) + 1)
    yield from (f"open {key} hard symmetric" for key in keys)
    for number in range(1, WORN + 1):
        yield from (f"setup {key} clearing {number}" for key in keys)
    for key, ending in zip(keys, every):
        yield from (line(event, key) for event in ending)
    yield from (f"{node.party} {key}" for key in keys)
