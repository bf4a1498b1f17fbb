"""The two ends of a call, the source node and the destination node, as the tests from outside go over them: a test says once what is
tried, and finds here what differs between the ends."""
import dataclasses
import pathlib

BENCH = pathlib.Path(__file__).resolve().parents[1] / "bench"
LAST_NUMBERS = ("setups", "soft", "hard")  # stories that are made, at either end
RUN_EVENTS = 500_000  # of a run that is made from one of the seeds below

# the kinds of event records, by their number
KINDS = ("open", "trigger", "path", "nopath", "connect", "setup", "calling", "called", "ready", "expiry")


@dataclasses.dataclass(frozen=True)
class Node:
    name: str
    prefix: str  # of the names of its programs
    maker: str  # what the names of its makers begin with
    rows: str  # the file with the list of its rows
    seeds: tuple  # runs made from these meet every row together
    domain: str  # the release from across the domain, which names a connection and has crankback
    party: str  # the release from the node's own party, which names none and ends every call
    accepted: tuple  # switchover codes of which a setup can be accepted
    states: tuple  # their names, by number
    bench: pathlib.Path  # the folder of its stories
    stories: frozenset  # those that have to be there
    steps: tuple  # of its bench run, as the comments tell them
    places: str  # what may stand behind an event of a story, beside the places that both ends have

    def program(self, name):
        return self.prefix + name

    def make(self, name):
        """The name of the maker of such cases: `make-trace` and so on."""
        return self.maker + name

    def story(self, name):
        return self.bench / f"{name}.txt"


def states(waiting, underway):
    """The states' names, of which the Hard ones differ."""
    return ("Null", "Rerouting Idle", f"Hard Reroute {waiting}", f"Hard Reroute {underway}",
            "Soft Reroute Triggered", "Soft Reroute Proceeding", "Soft Reroute Initiated", "Awaiting Switchover")


SOURCE = Node(
    name="source", prefix="", maker="make-", rows="oracle/rows.txt", seeds=(1, 2, 3, 4, 8),
    domain="called", party="calling", accepted=("clearing",), states=states("Triggered", "Proceeding"), bench=BENCH,
    stories=frozenset({"bench_run", "flat_battery", "hard_reroute", "far_end", "refusals", "turned_away"}),
    steps=tuple(f"B{number}" for number in range(1, 17)),
    # a B number, a row of setups, an item of Annex D, or a section
    places=r"B\d+|Setup row [1-5]|D1[4-9]-\d+|D20-\d|6\.2\.\d",
)
DESTINATION = Node(
    name="destination", prefix="destination_", maker="make-destination-", rows="oracle/destination_rows.txt", seeds=(1, 2, 3, 4, 6),
    domain="calling", party="called", accepted=("immediate", "clearing", "200"), states=states("Indicated", "Initiated"), bench=BENCH / "destination",
    stories=frozenset({"bench_run", "hard_reroute", "soft_far_side", "symmetric_move", "preemption", "flat_battery", "releases", "refusals",
                       "default_services"}),
    steps=tuple(f"step {number}" for number in range(1, 21)),
    # an item of Annex D, a section, or a decision
    places=r"D2[89]-\d+|D3\d-\d+|6\.3\.\d|decisions? \d",
)
ENDS = (SOURCE, DESTINATION)


def asked_end(words):
    """The end that the words of a command ask for, by their first or else the source; and the words behind it."""
    return (DESTINATION, words[1:]) if words[:1] == [DESTINATION.name] else (SOURCE, words)
