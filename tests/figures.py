"""The tables of docs/FIGURES.md that ./measure writes: between markers, each part with a line for where it was measured.

Where there is no Rust for x86-64, what an earlier run found of Rust is kept, and its line says so.
"""
import datetime
import os
import platform
import re
import subprocess
import textwrap

import rust_builds
from counting import NATIVE, ROOT, fail

PAGE = os.path.join(ROOT, "docs/FIGURES.md")
KEPT = " Kept from that run: where the rest was measured there was no Rust for x86-64."
WIDTH = 120


def markers(part):
    return f"<!-- `./measure {part} --write` writes from here -->\n", "<!-- to here -->\n"


def split(part):
    """The page in front of a part, the part, and the page behind it."""
    with open(PAGE, encoding="utf-8") as file:
        page = file.read()
    first, last = markers(part)
    front, found, rest = page.partition(first)
    inside, ended, behind = rest.partition(last)
    if not (found and ended):
        fail(f"docs/FIGURES.md has no place for the part {part}, between {first.strip()} and {last.strip()}")
    return front, inside, behind


def write(part, blocks):
    """Puts tables and notes, in the page's words, into the place of a part."""
    front, _, behind = split(part)
    first, last = markers(part)
    with open(PAGE, "w", encoding="utf-8") as file:
        file.write(front + first + "\n" + "\n\n".join(blocks) + "\n\n" + last + behind)


def earlier(part):
    """What the page has of a part: its rows by table and name, and its notes by name."""
    inside = split(part)[1]
    tables = {}
    for block in inside.split("\n\n"):
        rows = [[cell.strip() for cell in line.strip("|").split("|")] for line in block.strip().splitlines() if line.startswith("|")]
        if rows:
            tables[rows[0][0]] = {row[0]: row[1:] for row in rows[2:]}
    notes = re.findall(r"^- ([^:\n]+): ((?:.|\n  )*)", inside, re.M)
    return tables, {name: " ".join(place.split()) for name, place in notes}


def table(columns, rows):
    lines = [f"| {' | '.join(map(str, line))} |" for line in [columns, *rows]]
    return "\n".join([lines[0], "|" + "---|" * len(columns), *lines[1:]])


def notes(places):
    """A line for each of these names, with where that was measured."""
    return "\n".join(textwrap.fill(f"- {name}: {place}", WIDTH, subsequent_indent="  ") for name, place in places.items() if place)


def number(cell):
    """The number of a cell; nothing where it holds none."""
    try:
        return float(cell.replace(",", ""))
    except ValueError:
        return None


def measured(*more):
    """When this run measures, and with what, for a note."""
    kit = subprocess.run(["rt", "version"], capture_output=True, text=True, check=True).stdout.strip()
    return ", ".join([datetime.date.today().isoformat(), kit, *more]) + "."


def here(*more):
    """The same, with where."""
    machine = f"x86-64 programs {'as they are' if NATIVE else 'under the emulator of the kit'} on {platform.machine()}"
    return measured(*more, machine)


def here_with_rust():
    return here(rust_builds.version())


def kept(note):
    """The note of an earlier run whose figures stay."""
    return note if not note or note.endswith(KEPT) else note + KEPT
