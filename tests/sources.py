"""What the tests over sources and pages share: the root that is asked for, its crates, and the names that stand in them."""
import pathlib
import re
import sys

root = pathlib.Path(sys.argv[1] if len(sys.argv) > 1 else pathlib.Path(__file__).resolve().parents[1])

# The proof language (.antt). A name ends at a blank, a bracket or a separator, and nowhere else.
NAME = r'[^\s(){}.;,@"«»]+'
NAME_START = r'(?<![^\s(){}.;,@"«»])'
PROOF_COMMENT = re.compile(r'"(?:\\.|[^"\\\n])*"|\{-.*?-\}|' + NAME_START + r"--[^\n]*", re.S)
DECLARATION = re.compile(
    r"\s*(?:(?:pub|abbrev|unfoldable|axiom)\s+)*"
    rf"(?:(?P<kind>data|record)\s+«?(?P<type>{NAME})|«?(?P<name>{NAME})»?\s+(?:\{{[^}}]*\}}\s+)?:(?!\S))"
)

# Rattle (.rt).
SOURCE_COMMENT = re.compile(
    r"//[^\n]*|/\*.*?\*/|b?\"(?:\\.|[^\"\\])*\"|\bb'(?:\\'|\\[^']+|[^'\\])'", re.S
)
DECLARED = re.compile(r"\b(?:fn|struct|enum|const)\s+(\w+)")


def blanked(text, pattern):
    """The text with each match overwritten by blanks, so that every position and line stays."""
    return pattern.sub(lambda match: re.sub(r"[^\n]", " ", match.group()), text)


def text_of(file):
    """The text of a source file without comments and quoted text."""
    return blanked(file.read_text(encoding="utf-8"), SOURCE_COMMENT if file.suffix == ".rt" else PROOF_COMMENT)


def declared_names(text):
    """Each name that a file declares, with its line. A record's field is no name of the file."""
    record = None  # the indent of the record that the line stands in
    for number, line in enumerate(text.splitlines(), 1):
        indent = len(line) - len(line.lstrip())
        if record is not None and line.strip() and indent <= record:
            record = None
        match = DECLARATION.match(line)
        if match and record is None:
            yield number, match["type"] or match["name"]
            if match["kind"] == "record":
                record = indent


def uses():
    """Each crate of crates.txt, with those that it uses."""
    entries = [line.partition("#")[0].partition(":") for line in (root / "crates.txt").read_text().splitlines()]
    return {name.strip(): used.split() for name, colon, used in entries if colon}


def listed_crates():
    return list(uses())


def texts_of(folder):
    """Each source file in one folder of the crates, src, specs or proofs, with its text."""
    for crate in listed_crates():
        for file in sorted((root / "crates" / crate / folder).rglob("*")):
            if file.suffix in (".rt", ".antt"):
                yield file, text_of(file)


def words_of(folder):
    return {word for _, text in texts_of(folder) for word in re.findall(r"[^\s(){}\[\],;.:⌜⌝]+", text)}


def declared_in(folder):
    """The names that the files of a folder declare: definitions, types and theorems; of code, functions, types and constants."""
    names = set()
    for file, text in texts_of(folder):
        names.update(DECLARED.findall(text) if file.suffix == ".rt" else (name for _, name in declared_names(text)))
    return names


def edits_of(crate):
    return sorted((root / "crates" / crate / "must-fail").glob("*.edit"))


def known_names():
    """The names that a page may give: identifiers of the sources, labels of edits, and crates."""
    crates = listed_crates()
    labels = {edit.stem for crate in crates for edit in edits_of(crate)}
    return words_of("src") | words_of("specs") | words_of("proofs") | labels | set(crates)


def named_in(text):
    """What stands in backticks."""
    return set(re.findall(r"`([^`]+)`", text))


def unknown(page, names, known):
    """Of names that a page gives, a fault for each that is not known, or not in each of its parts."""
    return [f"{page}: `{name}` is nowhere in the sources" for name in sorted(names) if not set(name.split("::")) <= known]
