#!/usr/bin/env python3
"""Respells the names of this repository's definitions and lemmas in snake case, after the port.py of the Rattle kit ran.

usage: python3 tools/respell.py [ROOT]      (the folder of the repository, unless given the one in which this script stands)

A name that specs/ or a lemma file of proofs/ declares, and that begins with a small letter, has its words joined by `_`: maxBlocks is
max_blocks. A definition may then have the name of the function that meets it. The dash of a lemma's name stays, which sets off what it
is about: walk-ends. Types, modules, functions of src/, generated names, strings, inputs and outputs stay. It changes
.antt and .rt files, and in the papers the names in backquotes. A second run changes nothing.
"""
import os
import re
import sys

ROOT = sys.argv[1] if len(sys.argv) > 1 else os.path.dirname(os.path.dirname(os.path.abspath(__file__)))
WORD = r"[^\W\d](?:[\w′'₀-₉]|-(?=[^\W_]))*"
TOKEN = re.compile(WORD)
DECLARED = re.compile(r"\s*(?:(?:pub|abbrev|unfoldable|opaque|private)\s+)*(" + WORD + r")\s*:(?!=)")
IMPORT = re.compile(r"^\s*(?:ghost\s+)?(?:pub\s+)?use\s+([^\s{]+?)\.?\{([^}]*)\}", re.M)


def files(*endings):
    for folder, inside, names in os.walk(os.path.join(ROOT, "crates")):
        inside[:] = sorted(d for d in inside if d not in ("out", "must-fail"))
        for name in sorted(names):
            if name.endswith(endings):
                yield os.path.join(folder, name)


def text_of(path):
    with open(path, encoding="utf-8") as handle:
        return handle.read()


def snake(name):
    return re.sub(r"(?<=[a-z0-9₀-₉])([A-Z])", lambda m: "_" + m[1].lower(), name)


def lemma_file(path):
    """Whether a file of proofs/ or specs/ declares names that others cite, so that it is no file of a function's answers."""
    parts = os.path.relpath(path, os.path.join(ROOT, "crates")).split(os.sep)
    return parts[1] == "specs" or (parts[1] == "proofs" and len(parts) == 3)


# Lemmas that port.py gave the name that a definition has now: their dash comes back.
DASHED = {"run_length": "run-length", "fit_at": "fit-at"}


def names():
    """What specs/ and lemmas declare, and the old and new spelling of each name that changes."""
    declared, imported = set(), set()
    crates = set(os.listdir(os.path.join(ROOT, "crates")))
    for path in files(".antt", ".rt"):
        text = text_of(path)
        for module, list_ in IMPORT.findall(text):
            if module.split(".")[0] != "Rattle" or module.split(".")[1] not in crates:
                imported.update(word.strip() for word in list_.split(","))
        if path.endswith(".antt") and lemma_file(path):
            for line in text.splitlines():
                found = DECLARED.match(line)
                if found and not line.lstrip().startswith("--"):
                    declared.add(found[1])
    renamed = {n: snake(n) for n in declared - imported if n[0].islower() and snake(n) != n}
    if renamed:
        renamed.update(DASHED)
    return declared, renamed


def paper_name(declared, name):
    """A name as the sources spell it now."""
    if name in declared:
        return name
    for other in (snake(name), name.replace("-", "_"), snake(name).replace("-", "_"), name.replace("′", "'")):
        if other in declared:
            return other
    return name


def write(path, old, new):
    if new != old:
        with open(path, "w", encoding="utf-8") as handle:
            handle.write(new)


def main():
    declared, renamed = names()
    declared = {renamed.get(name, name) for name in declared}
    for path in files(".antt", ".rt"):
        text = text_of(path)
        write(path, text, TOKEN.sub(lambda m: renamed.get(m[0], m[0]), text))
    papers = [os.path.join(ROOT, "README.md")]
    papers += sorted(os.path.join(ROOT, "docs", name) for name in os.listdir(os.path.join(ROOT, "docs")) if name.endswith(".md"))
    for path in papers:
        text = text_of(path)
        write(path, text, re.sub(r"`[^`\n]+`", lambda m: TOKEN.sub(lambda n: paper_name(declared, n[0]), m[0]), text))
    print(f"respell: {len(renamed)} names")
    return 0


if __name__ == "__main__":
    sys.exit(main())
