#!/usr/bin/env python3
"""Looks over what the documents name. Each path in README.md and docs/ exists, from the top, from crates/, or in
a crate that the page names; the table of docs/definitions.md has each file of
definitions of each crate, with the file's own first line.

    docs.py             looks, and tells what does not hold
    docs.py --write     writes the table of docs/definitions.md anew
"""

import glob
import os
import re
import sys

TOP = os.path.dirname(os.path.dirname(os.path.abspath(__file__)))
BEGIN, END = "<!-- made by tests/docs.py --write -->", "<!-- end -->"


def read(path):
    with open(os.path.join(TOP, path), encoding="utf-8") as it:
        return it.read()


def crates():
    """Returns the crates in the order of crates.txt."""
    return re.findall(r"^(\w+)(?: \w+)?:", read("crates.txt"), re.M)


def definitions():
    rows = [BEGIN, "", "| File | Says |", "|---|---|"]
    for crate in crates():
        for path in sorted(glob.glob(f"{TOP}/crates/{crate}/specs/*.antt")):
            name = os.path.basename(path)[: -len(".antt")]
            if name != "Lib":
                first = read(path).splitlines()[0]
                says = first[3:].strip() if first.startswith("-- ") else "?"
                rows.append(f"| `{crate}/specs/{name}` | {says} |")
    return "\n".join([*rows, "", END])


def stands(path, named):
    places = [path, f"crates/{path}", *(f"crates/{crate}/{path}" for crate in named)]
    return any(os.path.exists(os.path.join(TOP, place + end)) for place in places for end in ("", ".antt", ".rt", ".md"))


def missing_paths(page):
    text = read(page)
    named = [crate for crate in crates() if re.search(rf"\b{crate}\b", text)]
    for number, line in enumerate(text.splitlines(), 1):
        for path in re.findall(r"`(?:\./)?([\w.+-]+(?:/[\w.+-]+)+)/?`", line):
            if not stands(path, named):
                yield f"{page}:{number}: {path} is not there"


def main():
    page = read("docs/definitions.md")
    before, _, rest = page.partition(BEGIN)
    _, _, behind = rest.partition(END)
    made = before + definitions() + behind
    if sys.argv[1:] == ["--write"]:
        with open(os.path.join(TOP, "docs/definitions.md"), "w", encoding="utf-8") as it:
            it.write(made)
        return 0
    faults = [fault for name in ["README.md", *sorted(f"docs/{it}" for it in os.listdir(f"{TOP}/docs"))] for fault in missing_paths(name)]
    if made != page:
        faults.append("docs/definitions.md: not the first lines of the files of definitions: run tests/docs.py --write")
    if "| ? |" in made:
        faults.append("a file of definitions does not begin with a line that says what it defines")
    print("\n".join(faults) if faults else "each path stands, and each file of definitions is named")
    return 1 if faults else 0


sys.exit(main())
