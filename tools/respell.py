#!/usr/bin/env python3
"""Brings the repository's own names of definitions and lemmas to the library's spelling: words in snake case, types in camel case.

usage: tools/respell.py          at the top of the repository, after the kit's port.py; a second run changes nothing

A dash in a name that specs/ or proofs/*.antt declares becomes an underscore, and so does the seam before a capital in a name that begins with a small
letter. Names of answers (proofs/FUNCTION/*.antt) stay, since goals name them.
Where two names would fall together, SPECIAL has another. A name that a file brings from the logic's libraries stays in that file.
"""
import os
import re

WORD = re.compile(r'[^\s(){}.;,@"`]+')
DECLARED = re.compile(r'\s*(?:(?:abbrev|pub|unfoldable|data|record|module|let|where) )*([^\s(){}.;,@"]+)\s*:\s')
BINDER = re.compile(r'(?<!\S)(?:let|λ)\s+([^\s(){}.;,@"]+)')
# a lemma that would have its function's name gets _lem; a fact is spelled as a type
SPECIAL = {"last-of": "last_of_lem", "key-at": "key_at_lem", "value-at": "value_at_lem"}
SPECIAL |= {"ackOutcome": "ack_outcome_of", "turnedPlace": "turned_place_of", "processedPlace": "processed_place_of", "getD_row": "get_or_row", "getD-row": "get_or_row"}
LEMMAS = {
    "crates/upstream/proofs/Views.antt": ["ack-of"],
    "crates/upstream/proofs/Receives.antt": ["ack-of"],
    "crates/upstream/proofs/Told.antt": ["on-number"],
    "crates/protocol/proofs/Whole.antt": ["key-in"],
    "crates/world/proofs/Claimed.antt": ["way-claims", "transfer-claims", "host-claims"],
    "crates/world/proofs/Carried.antt": ["in-room"],
    "crates/processing/proofs/Laws.antt": ["is-message"],
}
ONE_FILE = {path: {old: name.replace("-", "_") + "_lem" for name in names for old in (name, name.replace("-", "_"))} for path, names in LEMMAS.items()}
ONE_FILE["crates/upstream/proofs/Keys.antt"] = {"told": "Told"}


def files(top, *endings):
    for folder, dirs, names in os.walk(top):
        dirs[:] = sorted(d for d in dirs if d not in ("out", "target", ".git"))
        for name in sorted(names):
            if name.endswith(endings):
                yield os.path.join(folder, name)


def read(path):
    with open(path, encoding="utf-8") as f:
        return f.read()


def is_answers(path):
    parts = path.split("/")
    return parts[2] == "proofs" and len(parts) > 4


def snake(name):
    name = name.replace("-", "_")
    return re.sub(r"(?<=[a-z0-9])([A-Z])", lambda m: "_" + m.group(1).lower(), name) if name[0].islower() else name


def declared(text):
    found = set()
    for line in text.splitlines():
        if line.lstrip().startswith("--"):
            continue
        m = DECLARED.match(line)
        if m:
            found.add(m.group(1))
        found.update(BINDER.findall(line))
    return found


def brought(text, crates):
    """The names that a file brings from outside the repository."""
    found = set()
    for m in re.finditer(r"^(?:ghost )?use ([^\s{]+)\.\{([^}]*)\}", text, re.M):
        if not re.match(r"Rattle\.(?:" + "|".join(crates) + r")\.", m.group(1)):
            found.update(i.strip().split(" as ")[0] for i in m.group(2).split(","))
    return found


def main():
    crates = sorted(os.listdir("crates"))
    table = {}
    for path in files("crates", ".antt"):
        if not is_answers(path):
            for name in declared(read(path)):
                new = SPECIAL.get(name, snake(name))
                if new != name and re.match(r"\w", name):
                    table[name] = new
    changed = 0
    paths = list(files("crates", ".antt", ".rt", ".edit")) + list(files("docs", ".md")) + ["README.md"]
    for path in paths:
        text = read(path)
        lemmas = ONE_FILE.get(path, {})
        own = table if any(new in WORD.findall(text) for new in lemmas.values()) else {**table, **lemmas}
        stays = brought(text, crates)
        if path.endswith(".antt") and is_answers(path):
            stays |= {m.group(1) for m in map(DECLARED.match, text.splitlines()) if m and not m.group(0)[0].isspace()}

        def turn(m):
            word = m.group(0)
            return word if word in stays else own.get(word, word)

        if path.endswith(".md"):
            new = re.sub(r"`[^`\n]+`", lambda m: WORD.sub(turn, m.group(0)), text)
        else:
            new = WORD.sub(turn, text)
        if new != text:
            changed += 1
            with open(path, "w", encoding="utf-8") as f:
                f.write(new)
    print(f"{len(table)} names, {changed} files changed")


if __name__ == "__main__":
    main()
