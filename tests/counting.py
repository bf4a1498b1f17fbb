"""Runs x86-64 programs on any machine and counts their instructions, for tests/speed, tests/count-trace and ./measure.

On x86-64 a program runs as it is, and valgrind counts. Elsewhere the kit's emulator runs it, with the kit's
loader and C library, and logs each instruction. There a repeated instruction (`rep stosb`, in the C library)
counts as one; valgrind counts it once a turn.
"""
import collections
import os
import platform
import re
import shutil
import subprocess
import sys

ROOT = os.path.dirname(os.path.dirname(os.path.abspath(__file__)))
NATIVE = platform.machine() == "x86_64"
NEAR = 1 << 24  # a program's own code is nearer to its functions than this; the C library is not
LONGEST_CALL = 7  # octets of a call instruction, behind which a function returns
RED_ZONE = 128  # what a function may use below the stack pointer on x86-64, if it calls no other
LIBRARY = "the C library"


def fail(what):
    sys.exit(f"{os.path.basename(sys.argv[0])}: {what}")


def tell(what):
    """Progress, for the person who waits."""
    print(f"{os.path.basename(sys.argv[0])}: {what}", file=sys.stderr, flush=True)


def program_of(name):
    """Where `rt ci`, and `rt run` in the program's folder, leave a proved program."""
    return os.path.join(ROOT, "crates", name, "out", name)


def toolchain():
    """The folder of the kit's tools for this machine, where it is no x86-64."""
    guide = subprocess.run(["rt", "doc"], capture_output=True, text=True, check=True).stdout.strip()
    folder = os.path.join(os.path.dirname(guide), "on", platform.machine(), "toolchain")
    return folder if os.path.isdir(folder) else fail("this kit has no emulator for this machine, and programs are compiled for x86-64")


class Machine:
    """What runs and counts here. It keeps what it needs in a folder of the caller's."""

    def __init__(self, folder):
        needed, what = ("valgrind", "valgrind") if NATIVE else ("rt", "rt, whose kit has the emulator")
        if not shutil.which(needed):
            fail(f"not found, and needed here: {what}")
        self.folder = folder
        self.emulator = []
        if not NATIVE:
            tools = toolchain()
            os.symlink(os.path.join(tools, "lib"), os.path.join(folder, "lib64"))
            settings = ["-L", folder, "-E", f"LD_LIBRARY_PATH={tools}/lib", "-E", "LD_BIND_NOW=1"]
            self.emulator = [os.path.join(tools, "bin", "qemu-x86_64"), *settings]

    def command(self, *words):
        """The words that run a program with its own words."""
        return [*self.emulator, *words]

    def instructions(self, words, given, output):
        """How many instructions a run takes in each of its functions."""
        if NATIVE:
            found = collections.Counter()
            for of_program, function, cost in self.collected(words, given, output):
                found[function if of_program else LIBRARY] += cost
            return found
        return self.logged_by_function(words, given, output)

    def calls(self, symbol, words, given, output, *wanted):
        """(own, library, stack, place) of each call of a function; valgrind tells neither stack nor place."""
        if not NATIVE:
            return self.logged_calls(symbol, words, given, output, *wanted)
        cost = {True: 0, False: 0}
        for of_program, _, more in self.collected(words, given, output, f"--toggle-collect={symbol}"):
            cost[of_program] += more
        return [(cost[True], cost[False], None, None)] if cost[True] else []

    def log(self, words, given, output, wanted):
        """The lines of the emulator's log, an instruction at a time."""
        command = [self.emulator[0], "-one-insn-per-tb", *wanted, *self.emulator[1:], *words]
        with open(given, "rb") as source, open(output, "wb") as out:
            run = subprocess.Popen(command, stdin=source, stdout=out, stderr=subprocess.PIPE)
        yield from run.stderr
        if run.wait() != 0:
            fail(f"{words[0]} fails under the emulator: exit status {run.returncode}")

    def logged_by_function(self, words, given, output):
        met, names, before = collections.Counter(), {}, b""
        for line in self.log(words, given, output, ("-d", "exec,nochain")):
            if line.startswith(b"Trace "):
                at = line.split(b"/", 2)[1]
                if at != before:  # a `rep` instruction has a line for each of its turns
                    met[at] += 1
                    before = at
                if at not in names:
                    names[at] = line.partition(b"] ")[2].strip().decode() or LIBRARY
        found = collections.Counter()
        for at, count in met.items():
            found[plain(names[at])] += count
        return found

    def logged_calls(self, symbol, words, given, output, wanted=("-d", "exec,nochain")):
        """A line `Trace` of the log is an instruction, by its place and, in the program, its function; the
        registers before it follow, where they are wanted."""
        calls, before, call = [], 0, None
        for line in self.log(words, given, output, wanted):
            if line.startswith(b"Trace "):
                at = int(line.split(b"/", 2)[1], 16)
                if call is None and line.endswith(b"] " + symbol.encode() + b"\n"):
                    start, call, own, library, top, low = at, before, 0, 0, 0, 0
                elif call is not None and call < at <= call + LONGEST_CALL:
                    calls.append((own, library, top + 8 - low + RED_ZONE, start))
                    call = None
                if call is not None and at != before:
                    own, library = (own + 1, library) if abs(at - start) < NEAR else (own, library + 1)
                before = at
            elif call is not None and b"RSP=" in line:
                pointer = int(line.split(b"RSP=")[1][:16], 16)
                top, low = top or pointer, min(low or pointer, pointer)
        if call is not None:
            fail(f"{symbol} does not return")
        return calls

    def collected(self, words, given, output, *wanted):
        """(whether it is of the program, function, its own cost) again and again, from valgrind."""
        found = os.path.join(self.folder, "callgrind")
        command = ["valgrind", "-q", "--tool=callgrind", f"--callgrind-out-file={found}", *wanted, *words]
        with open(given, "rb") as source, open(output, "wb") as out:
            subprocess.run(command, stdin=source, stdout=out, check=True, env={**os.environ, "LD_BIND_NOW": "1"})
        names, here, inclusive = {}, {"ob": "", "fn": ""}, False
        for line in open(found):
            kind, _, value = line.partition("=")
            if kind in ("ob", "cob", "fn", "cfn"):
                number, _, name = value.strip().partition(" ")
                known = names.setdefault((kind[-2:], number), name)
                if kind in here:
                    here[kind] = known
            elif kind == "calls":
                inclusive = True  # the next line is what the callee cost, which stands at the callee too
            elif line[0] in "0123456789+-*":
                if not inclusive:
                    yield here["ob"] == os.path.realpath(words[0]), plain(here["fn"]), int(line.split()[1])
                inclusive = False


def plain(name):
    """A function's name without what Rust's compiler puts around it, and valgrind behind a recursive one."""
    name = re.sub(r"'\d+$", "", name)
    mangled = re.match(r"_ZN(.*)17h[0-9a-f]{16}E", name)
    if not mangled:
        return name
    parts, rest = [], mangled[1]
    while rest[:1].isdigit():
        length = re.match(r"\d+", rest)[0]
        parts.append(rest[len(length) : len(length) + int(length)])
        rest = rest[len(length) + int(length) :]
    return "::".join(parts)
