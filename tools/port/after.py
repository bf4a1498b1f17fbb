#!/usr/bin/env python3
"""Brings this repository's own definitions and lemmas to the spelling of today's Rattle, after port.py.

usage: after.py [--list]    at the top of the repository; --list prints the names that change, old and new, and writes nothing

Words of specs/ and proofs/ are in snake case: `releaseWith` becomes `release_with`, `key-1-is-not-on-record` becomes
`key_1_is_not_on_record`, and a prime is an apostrophe. Types, modules, functions of src/, strings, and names that Rattle
or its library makes stay. A name that a file imports from a library stays in that file.
"""
import os
import re
import sys

# What before.py hid from port.py.
ALIASES = {
    "aliasPutByte": "put_byte",
    "aliasPutWord": "put_word",
    "aliasPutCount": "put_count",
    "aliasClassOf": "class_of",
    "aliasKindAt": "kind_at",
}

WORD = re.compile(r"[^\s(){};,.\[\]|\"@`«»:]+")
DECLARED = re.compile(
    r"\s*(?:abbrev |unfoldable )?(?:pub )?(?:abbrev |unfoldable |record |data )?(?:pub )?([^\s(){};,.\[\]|:=λ]+)(?:\s+[^:]*?)?\s*:(?!=)"
)
OPENED = re.compile(r"^\s*(?:pub )?(?:ghost )?use ([^\s{;]+?)(?:\.?\{([^}]*)\})?(?: as \S+)?;?\s*$", re.M)


def texts(ending):
    for folder, dirs, files in os.walk("crates"):
        dirs[:] = sorted(it for it in dirs if it != "out")
        for name in sorted(files):
            if name.endswith(ending):
                yield os.path.join(folder, name)


def read(path):
    with open(path, encoding="utf-8") as file:
        return file.read()


def snake(name):
    if name.endswith("-has-one-answer"):
        return name[: -len("-has-one-answer")] + "-has_one_answer"
    if re.match(r"[a-z]", name):
        name = re.sub(r"(?<=[a-z0-9'])(?=[A-Z])", "_", name).lower()
    return name.replace("-", "_").replace("′", "'")


def of_a_function(path):
    """proofs/F/Proof.antt: its goals have names that Rattle makes."""
    parts = path.split(os.sep)
    return parts[2] == "proofs" and len(parts) > 4


def declared():
    """The names that this repository's own files declare, with the new spelling."""
    names = {}
    plain = set()
    for path in texts(".antt"):
        for line in read(path).splitlines():
            found = DECLARED.match(line.split("--")[0])
            if not found:
                continue
            name = found[1]
            if of_a_function(path) and not name.endswith("-spec"):
                continue
            if not re.search(r"[a-z]", name) or not re.match(r"[\w'′-]+$", name):
                continue
            if "-" not in name and not re.match(r"\s+pub ", line):
                plain.add(name)
            new = snake(name)
            if new != name:
                names[name] = new
    # A lemma that would have its function's name says that it is one.
    functions = {names.get(it, it) for it in plain}
    for name, new in names.items():
        if "-" in name and new in functions:
            names[name] = new + "_lem"
    return names


def own_crates():
    return {it for it in os.listdir("crates") if os.path.isdir(os.path.join("crates", it))}


def from_libraries(text, own):
    """What a file imports by name from a library."""
    names = set()
    for path, items in OPENED.findall(text):
        parts = path.split(".")
        if items and not (parts[0] == "Rattle" and len(parts) > 1 and parts[1] in own):
            names |= {it.split(" as ")[-1].strip() for it in items.split(",")}
    return names


def respell(text, names, kept, comment):
    """The text with its words respelled: outside strings, and within comments only camel case and what stands in backquotes."""

    def word(it):
        return it[0] if it[0] in kept else names.get(it[0], it[0])

    def spoken(it):
        return it[0] if "-" in it[0] or it[0] in kept else names.get(it[0], it[0])

    out = []
    for line in text.split("\n"):
        pieces = re.split(r'(b?"(?:[^"\\]|\\.)*")', line) if comment == "//" else [line]
        done = ""
        said = False
        for piece in pieces:
            if comment == "//" and re.match(r'b?"', piece):
                done += piece
                continue
            code, mark, words = piece.partition(comment) if not said else ("", "", piece)
            if comment == "--" and mark and code and not code[-1].isspace():
                code, mark, words = piece, "", ""
            done += WORD.sub(word, code)
            if mark:
                said = True
            if mark or said:
                parts = re.split(r"(`[^`]*`)", words)
                done += mark + "".join(WORD.sub(word if it.startswith("`") else spoken, it) for it in parts)
        out.append(done)
    return "\n".join(out)


def fallen_together(path, old, names, kept):
    """Two words of one file that become the same."""
    words = set(WORD.findall("\n".join(it.split("--")[0] for it in old.split("\n")))) - kept
    made = {}
    for it in words:
        made.setdefault(names.get(it, it), set()).add(it)
    return [(path, new, sorted(olds)) for new, olds in made.items() if len(olds) > 1]


def main():
    names = declared()
    if sys.argv[1:] == ["--list"]:
        print("\n".join(f"{a} {b}" for a, b in sorted(names.items())))
        return 0
    own = own_crates()
    together = []
    for ending, comment in ((".antt", "--"), (".rt", "//")):
        for path in texts(ending):
            old = read(path)
            kept = from_libraries(old, own)
            together += fallen_together(path, old, names, kept)
            new = respell(old, names, kept, comment)
            for was, now in ALIASES.items():
                new = re.sub(rf"\b{was}\b", now, new)
            if new != old:
                with open(path, "w", encoding="utf-8") as file:
                    file.write(new)
    for path, new, olds in together:
        print(f"look: {path}: {', '.join(olds)} are all {new} now")
    return 0


if __name__ == "__main__":
    raise SystemExit(main())
