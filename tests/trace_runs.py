"""What the independent program makes to measure by, and what a run of the trace costs by function."""
import collections
import os
import subprocess

from counting import ROOT, fail

RECORD = 16
ORACLE = os.path.join(ROOT, "target/oracle/release/oracle")


def make(words, name):
    """What the independent program makes from these words, in a file; the program is built first."""
    settings = {**os.environ, "CARGO_TARGET_DIR": os.path.join(ROOT, "target/oracle")}
    build = ["cargo", "build", "--release", "--offline", "--quiet", "--manifest-path", os.path.join(ROOT, "oracle/Cargo.toml")]
    try:
        subprocess.run(build, check=True, env=settings)
        with open(name, "wb") as file:
            subprocess.run([ORACLE, *words], stdout=file, check=True)
    except (OSError, subprocess.CalledProcessError) as problem:
        fail(f"the independent program makes nothing: {problem}")


def make_records(end, count, name):
    """So many records of one run of an end."""
    make([end.make("trace"), "1", str(count)], name)


def by_function(machine, words, records, count):
    """Instructions a record in each function, over the second half of the first 2 * count records."""
    found = collections.Counter()
    part, output = (os.path.join(machine.folder, name) for name in ("part", "output"))
    for times, sign in ((2, 1), (1, -1)):
        with open(records, "rb") as whole, open(part, "wb") as file:
            file.write(whole.read(times * count * RECORD))
        for name, cost in machine.instructions(words, part, output).items():
            found[name] += sign * cost / count
        with open(output, "rb") as file:
            lines = file.read().count(b"\n")
        if lines != times * count + 1:
            fail(f"{words[0]} prints {lines:,} lines of {times * count:,} records, and one more than those is expected")
    return found
