"""What an entry of the table reads of the lent row, from what the compiled program does: its loads, as seen_run sees them.

An entry reads between the time when the row is filled and the return of `call_table::decide_fit`, which every entry
calls once, behind its reading; what follows puts a record back. Where the row lies is told by the records that are put
back: an event that is accepted at the next place stores a record's size further on. A case of 64 records that is to be
checked goes to `handle64`, which lends its own copy to `handle`: that copy is the row then.
"""
import dataclasses
import struct

from counting import fail
from event_cases import IDLE, OPENING, RECORD, TRIGGER, UNCHECKED, at_random, record
from seen_run import Run

DECIDES = "call_table::decide_fit"
KEY = 4  # octets of a key, with which a record begins
PUT = 64  # a record is put back among so many stores behind the decision
FRONT, MIDDLE, END, ABSENT, ZERO = "at the front", "in the middle", "at the end", "absent", "0"
PLACES = (FRONT, MIDDLE, END)


def answer_to(kind, key, empty):
    if key == ZERO:
        return 102
    if kind == OPENING:
        return 103 if key in PLACES else 0 if empty in PLACES else 104
    return 0 if key in PLACES else 105


# what is asked, where its key stands, where the one empty record stands, and the answer: all that there is
ASKED = [
    (kind, key, empty, answer_to(kind, key, empty))
    for kind in (OPENING, TRIGGER)
    for key in (ABSENT, *PLACES, ZERO)
    for empty in (ABSENT, *PLACES)
    if key != empty or key == ABSENT
]


def has_a_line(asked):
    """Whether it has a line of its own in the tables: each place of what is sought, and one case in which the other stands before it."""
    kind, key, empty, _ = asked
    if key == ZERO:
        return empty == END
    return empty == ABSENT or (kind, key) == (OPENING, ABSENT) or (key, empty) == (END, FRONT)


def in_words(asked):
    kind, key, empty, answer = asked
    keyed = [] if (kind, key) == (OPENING, ABSENT) else [f"key {key}"]
    stands = [f"the empty record {empty}"] if empty in PLACES else [] if keyed else ["no record empty"]
    return ", ".join(["opening" if kind == OPENING else "event", *keyed, *stands]) + (f": {answer}" if answer else "")


def places(count):
    return dict(zip(PLACES, (0, count // 2, count - 1)))


def needed(asked, count, unchecked):
    """How many records have to be read, and of how many more than the key (02, Ask 4; decision 80)."""
    kind, key_at, _, _ = asked
    if not unchecked:
        return count, count  # 101 needs them all
    if key_at == ZERO:
        return 0, 0
    if key_at == ABSENT:
        return count, 0
    return places(count)[key_at] + 1, int(kind != OPENING)


def case_of(asked, count, unchecked):
    """In octets. The keys are random; one more than there are records is the absent one."""
    kind, key_at, empty_at, _ = asked
    at = places(count)
    *keys, absent = at_random(count + 1)
    records = [record(key, IDLE) for key in keys]
    if empty_at in at:
        records[at[empty_at]] = bytes(RECORD)
    key = keys[at[key_at]] if key_at in at else {ABSENT: absent, ZERO: 0}[key_at]
    return head(count, unchecked) + b"".join(records) + event(kind, key)


def accepted_at(place, count, unchecked):
    keys = at_random(count)
    return head(count, unchecked) + b"".join(record(key, IDLE) for key in keys) + event(TRIGGER, keys[place])


def head(count, unchecked):
    return struct.pack(">H", count + UNCHECKED * unchecked)


def event(kind, key):
    return struct.pack(">BxxxI8x", kind, key)


@dataclasses.dataclass(frozen=True)
class Row:
    """Where the records lie."""
    start: int
    record: int
    count: int

    def holds(self, at, size):
        return self.start < at + size and at < self.start + self.record * self.count


class Reading:
    """One call over a row: the loads of it and the instructions before the decision has returned, and the first stores behind that."""

    def __init__(self, program, octets, row=Row(0, 0, 0)):
        self.row, self.loads, self.instructions, self.stores, self.decisions, self.decided = row, [], 0, [], 0, False
        self.run = Run(program, octets, self.load, self.store, self.step)
        self.run.at(program.place(DECIDES), self.deciding)
        self.printed = self.run.go()
        if self.decisions != 1:
            fail(f"{program.path}: {DECIDES} was seen {self.decisions} times, not once")

    def deciding(self):
        self.decisions += 1
        self.run.on_return(self.returned)

    def returned(self):
        self.decided = True

    def step(self):
        self.instructions += not self.decided

    def load(self, at, size):
        if not self.decided and self.row.holds(at, size):
            self.loads.append((at, size))

    def store(self, at, size):
        if self.decided:
            self.stores += [(at, size)] * (len(self.stores) < PUT)
        elif self.row.holds(at, size) and not self.decisions:  # it is still being filled
            self.loads.clear()
            self.instructions = 0

    def answered(self, answer):
        if not self.printed.startswith(f"case 1 answer {answer} n "):
            fail(f"{self.run.program.path} prints {self.printed[:60]!r}, and the answer {answer} is expected")
        return self

    def octets(self):
        return sum(size for _, size in self.loads)

    def visits(self):
        """For each time that a record is read, whether more than its key was loaded; its loads with no other record's in between are one."""
        row, found, last = self.row, [], None
        for at, size in self.loads:
            for place in range((at - row.start) // row.record, (at + size - 1 - row.start) // row.record + 1):
                if place != last:
                    found.append(False)
                    last = place
                found[-1] |= at + size > row.start + place * row.record + KEY
        return found


def row_of(program, count, unchecked):
    """Where the row lies in this program, for cases of so many records."""
    stores = [Reading(program, accepted_at(place, count, unchecked)).answered(0).stores for place in (0, 1, count - 1)]
    apart = [(first, second[0] - first[0], last[0] - first[0]) for first, second, last in zip(*stores) if first != second]
    start = min((at for (at, _), *_ in apart), default=0)
    size = max((at + size for (at, size), *_ in apart), default=0) - start
    if not apart or any((step, far) != (size, size * (count - 1)) for _, step, far in apart):
        fail(f"{program.path}: where a record is put back does not tell where the row of {count} lies: {apart[:4]}")
    return Row(start, size, count)


def reads(program, count, unchecked):
    """By what is asked: how many records are read, of how many more than the key, the octets loaded, and the instructions meanwhile."""
    row = row_of(program, count, unchecked)
    found = {}
    for asked in ASKED:
        reading = Reading(program, case_of(asked, count, unchecked), row).answered(asked[3])
        visits = reading.visits()
        found[asked] = (len(visits), sum(visits), reading.octets(), reading.instructions)
    return found


def too_much(found, count, unchecked):
    """What is asked of which more, or less, was seen to be read than is needed; an opening without the check loads keys, and each once."""
    for asked, (records, more, octets, _) in found.items():
        keys_alone = not unchecked or asked[0] != OPENING or octets == KEY * records
        if (records, more) != needed(asked, count, unchecked) or not keys_alone:
            yield f"{in_words(asked)}, of {count:,}"
