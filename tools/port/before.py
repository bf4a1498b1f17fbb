#!/usr/bin/env python3
"""Gives five module aliases of proof files a spelling that port.py does not take for a name of its own.

usage: before.py        at the top of the repository, before /opt/rattle/port/port.py; after.py gives the old spelling back

port.py holds a tree that has one of its library's new names for turned already, and leaves most steps out.
Five functions of this repository share such a name, and proof files import their contracts under it.
"""
import os
import re

ALIASES = {"put_byte": "aliasPutByte", "put_word": "aliasPutWord", "put_count": "aliasPutCount", "class_of": "aliasClassOf", "kind_at": "aliasKindAt"}


def main():
    for folder, _, files in os.walk("crates"):
        for name in files:
            if not name.endswith(".antt"):
                continue
            path = os.path.join(folder, name)
            with open(path, encoding="utf-8") as f:
                old = f.read()
            new = old
            for was, now in ALIASES.items():
                if re.search(rf" as {was}$", new, re.M):
                    new = re.sub(rf" as {was}$", f" as {now}", new, flags=re.M)
                    new = re.sub(rf"(?<![\w.·'-]){was}(?=\.| \.)", now, new)
            if new != old:
                with open(path, "w", encoding="utf-8") as f:
                    f.write(new)


main()
