#!/usr/bin/env python3
"""Looks over docs/rules.md. Each text is that of crates/hs_base/specs/Rules.antt, and the rules in their order are those that
base_table prints. Of each source of the rules on tokens, on the grammar, on names and on declarations the program tells that rule
at that place; each other source is a file of the grammar, by the recogniser of tests/told.py.

    rules.py            at the top of the repository, once ./hs is built
"""

import os
import re
import subprocess
import sys
import tempfile

TOP = os.path.dirname(os.path.dirname(os.path.abspath(__file__)))


def read(path):
    with open(os.path.join(TOP, path), encoding="utf-8") as it:
        return it.read()


def is_told(rule):
    return rule[0] in "XGN"


def told_by_program(source):
    with tempfile.NamedTemporaryFile("w", suffix=".rs", encoding="utf-8") as it:
        it.write(source)
        it.flush()
        ran = subprocess.run([os.path.join(TOP, "hs"), "print", "fstar", "M", it.name], capture_output=True, text=True)
        return ran.stderr.removeprefix(it.name + ":").strip()


def told_by_grammar(sources):
    ran = subprocess.run([sys.executable, os.path.join(TOP, "tests/told.py"), "-"], input="\n".join(sources) + "\n", capture_output=True, text=True)
    return ran.stdout.splitlines()


def main():
    texts = dict(re.findall(r'^row_for (\w+) = \(\d+, codes "\w+", codes "(.*)"\)$', read("crates/hs_base/specs/Rules.antt"), re.M))
    page = read("docs/rules.md")
    faults = []
    rows = re.findall(r"^\| ([A-Z]\d+) \| (.*?) \| (.*?) \|", page, re.M)
    for rule, text, _ in rows:
        if texts.get(rule) != text:
            faults.append(f"{rule}: another text")
    if sorted(rule for rule, _, _ in rows) != sorted(texts):
        faults.append("a rule is missing, or stands twice")
    numbered = [f"{number} {rule} {text}" for number, (rule, text, _) in enumerate(rows, 1)]
    if read("crates/base_table/stdout").splitlines()[: len(rows)] != numbered:
        faults.append("crates/base_table/stdout does not begin with these rules in this order")
    sources = re.findall(r"^\| ([A-Z]\d+) \| (.*?) \| `(.*)` \| (\d+:\d+) \|$", page, re.M)
    for rule, text, source, place in sources:
        if is_told(rule) and told_by_program(source) != f"{place}: {rule} {text}":
            faults.append(f"{rule}: the program tells {told_by_program(source)}")
    others = [(rule, source) for rule, _, source, _ in sources if not is_told(rule)]
    for (rule, _), told in zip(others, told_by_grammar([source for _, source in others])):
        if told != "a file":
            faults.append(f"{rule}: its source is no file: {told}")
    print("\n".join(faults) if faults else f"{len(rows)} rules, {len(sources)} sources")
    return 1 if faults else 0


sys.exit(main())
