"""What the tests of the bench share: the programs of both sides, and how a difference is told."""
import concurrent.futures
import os
import pathlib
import subprocess

import tally
from tally import count, end

ROOT = pathlib.Path(__file__).resolve().parents[1]
ORACLE = ROOT / "target/oracle/release/oracle"
RECORD = 16
WORKERS = 2
SHOWN = 10  # records that are shown up to a difference
LONG = bool(os.environ.get("LONG_TESTS"))

commands = {}


def need(*names):
    """Finds how the proved programs are run. Where one is missing, or the independent program is, that is told and nothing else is tried."""
    for name in names:
        found = subprocess.run([ROOT / "tests/run-program", "--command", name], stdout=subprocess.PIPE, stderr=subprocess.PIPE, text=True)
        commands[name] = found.stdout.splitlines()
        if found.returncode != 0:
            count(f"the proved program {name} is there", [found.stderr.strip()])
    if not ORACLE.is_file():
        count("the independent program is there", [f"{ORACLE.relative_to(ROOT)} is missing: tests/outside/30-oracle builds it"])
    if tally.failed:
        end()


def proved(name):
    return commands[name]


def oracle(*words):
    return [str(ORACLE), *map(str, words)]


def made(*words):
    """What the independent program makes or prints without any input."""
    return subprocess.run(oracle(*words), stdout=subprocess.PIPE, stdin=subprocess.DEVNULL, check=True).stdout


def output(command, octets):
    """What a program prints of these octets, and what it complains of: an exit status that is not 0 too."""
    done = subprocess.run(command, input=octets, stdout=subprocess.PIPE, stderr=subprocess.PIPE, timeout=3600)
    return done.stdout, done.stderr or (b"exit status %d" % done.returncode if done.returncode else b"")


def lines_of(octets):
    return octets.decode("utf-8", "replace").splitlines()


def shared(ours, theirs):
    """How many octets two outputs have alike at their front."""
    low, high = 0, min(len(ours), len(theirs))
    while low < high:
        middle = (low + high + 1) // 2
        low, high = (middle, high) if ours[low:middle] == theirs[low:middle] else (low, middle - 1)
    return low


def line_at(text, start):
    end = text.find(b"\n", start)
    line = text[start:] if end < 0 else text[start : end + 1]
    # an end that is missing is a difference too
    return repr(line.decode("utf-8", "replace")) if line else "(no more lines)"


def same(name, pair, ours, theirs, records=None, lister="list"):
    """Faults of two outputs that must be the same bytes: the first line that differs, as each of the pair has it, and the records up to it,
    as that program lists them."""
    if ours == theirs:
        return []
    at = shared(ours, theirs)
    start = ours.rfind(b"\n", 0, at) + 1
    number = ours.count(b"\n", 0, at)  # line 1 is the one of columns, and record n prints line n + 1
    text = [f"{name}: line {number + 1} differs"] + [f"  {side}: {line_at(whole, start)}" for side, whole in zip(pair, (ours, theirs))]
    if records is not None:
        before = output(oracle(lister), records[: number * RECORD])[0]
        text += ["  the records up to it:"] + [f"    {line}" for line in lines_of(before)[-SHOWN:]]
    return ["\n".join(text)]


def both(name, node, program, records):
    """Faults of a node's proved program against the independent one on these records, and what the proved one prints."""
    program = node.program(program)
    ours, complaint = output(proved(program), records)
    faults = [f"{name}: {program} complains: {complaint.decode(errors='replace').strip()}"] if complaint else []
    theirs = output(oracle(program), records)[0]
    return faults + same(f"{name}, {program}", ("proved", "oracle"), ours, theirs, records, node.program("list")), ours


def failures_told(program, octets):
    """Faults of a proved program of which reading or writing fails, since a folder cannot be read and a full device cannot be written: it
    tells so in one line, and writes nothing."""
    faults = []
    for elsewhere, what in (("</", "reading"), (">/dev/full", "writing")):
        done = output(["bash", "-c", f'exec "$@" {elsewhere}', "bash", *proved(program)], octets)
        wanted = (b"", f"{program}: {what} fails\n".encode())
        faults += [] if done == wanted else [f"{what} fails: {done}, where {wanted} has to be"]
    return faults


def in_parallel(function, items):
    with concurrent.futures.ThreadPoolExecutor(WORKERS) as pool:
        return list(pool.map(function, items))
