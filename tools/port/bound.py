#!/usr/bin/env python3
"""Gives what is bound within a file of specs/ and proofs/ another name.

usage: bound.py    at the top of the repository, after after.py

`crankback`, bound in patterns beside the constructor `NoCrankback`, becomes `tried`: today's check refuses a variable that is spelled
like a constructor. Names that an import gives with `as` are in snake case. Comments, strings, fields and src/ stay.
"""
import os
import re

BOUND = {
    "crankback": "tried",
    "notHeld": "not_held",
    "calledIn": "called_in",
    "callingIn": "calling_in",
    "calledGets": "called_gets",
    "callingGets": "calling_gets",
    "calledAndReroutingGet": "called_and_rerouting_get",
    "callingAndReroutingGet": "calling_and_rerouting_get",
    "any-run": "any_run",
    "any-control": "any_control",
    "the-run": "the_run",
    "standing-of": "standing_of",
    "serve-tables": "serve_tables",
    "serve-script": "serve_script",
    "serve-list": "serve_list",
    "serve-cells": "serve_cells",
}
WORD = re.compile(r"(?<![\w.'-])(?:" + "|".join(BOUND) + r")(?![\w'-])")


def respelled(line):
    code, mark, words = line.partition("--")
    if mark and code and not code[-1].isspace():
        code, mark, words = line, "", ""
    pieces = re.split(r'("(?:[^"\\]|\\.)*")', code)
    pieces = [it if it.startswith('"') else WORD.sub(lambda found: BOUND[found[0]], it) for it in pieces]
    return "".join(pieces) + mark + words


def main():
    for folder, dirs, files in os.walk("crates"):
        dirs[:] = [it for it in dirs if it != "out"]
        for name in files:
            path = os.path.join(folder, name)
            if not name.endswith((".antt", ".edit")):
                continue
            with open(path, encoding="utf-8") as file:
                old = file.read()
            if name.endswith(".edit"):
                part = ""
                lines = []
                for line in old.split("\n"):
                    part = line[6:] if line.startswith("file: ") else part
                    turns = line.startswith(("old: ", "new: ")) and part.endswith(".antt")
                    lines.append(respelled(line) if turns else line)
                new = "\n".join(lines)
            else:
                new = "\n".join(respelled(it) for it in old.split("\n"))
            if new != old:
                with open(path, "w", encoding="utf-8") as file:
                    file.write(new)


main()
