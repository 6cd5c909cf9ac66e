#!/usr/bin/env python3
"""Writes what tokens_table has to print: the tokens of each text of two tables, as the grammar sees them, and where the tokens of
each line of a third end. The texts are cut by the lexer of told.py.

    tokens.py FOLDER    prints it, from FOLDER/table.txt, FOLDER/texts.txt and FOLDER/marks.txt
"""

import re
import sys

import told

MARKS = {
    "(": "LeftParenthesis",
    ")": "RightParenthesis",
    "[": "LeftBracket",
    "]": "RightBracket",
    "{": "LeftBrace",
    "}": "RightBrace",
    ",": "Comma",
    ";": "Semicolon",
    ":": "Colon",
    "::": "PathSeparator",
    ".": "Dot",
    "..": "DotDot",
    "->": "Arrow",
    "=>": "FatArrow",
    "?": "Question",
    "#": "Hash",
    "_": "Underscore",
    "==": "EqualsEquals",
    "!=": "NotEquals",
    "<": "Less",
    "<=": "LessEquals",
    ">": "Greater",
    ">=": "GreaterEquals",
    "&&": "AndAnd",
    "||": "OrOr",
    "!": "Not",
}
# the operators that can stand before a =
ASSIGNED = {"": "", "+": "Plus", "-": "Minus", "*": "Star", "/": "Slash", "%": "Percent", "&": "And", "|": "Or", "^": "Caret"}
ASSIGNED |= {"<<": "ShiftLeft", ">>": "ShiftRight"}
MARKS |= {mark: name for mark, name in ASSIGNED.items() if mark} | {mark + "=": name + "Equals" for mark, name in ASSIGNED.items()}

# the words that the grammar has
WORDS = "as const else enum false fn for if in let match mut pub return struct true type use".split()
NAMES = "array bytes nat_mod hacspec_lib derive type_name type_of_canvas bit_size_of_field modulo_value".split()


def number(word):
    """The value of an integer, and its suffix."""
    base = {"0x": 16, "0o": 8, "0b": 2}.get(word[:2], 10)
    suffix = next((it for it in told.SUFFIXES if word.endswith(it)), "")
    digits = word[0 if base == 10 else 2 : len(word) - len(suffix)]
    return int(digits.replace("_", ""), base), suffix


def kinds(kind, text):
    """What the grammar sees of a token."""
    if kind == "mark":
        return ["ShiftFront", "ShiftBack"] if text == ">>" else [MARKS[text]]
    if kind == "reserved":
        return [text.capitalize() if text in WORDS else "Unused"]
    if kind == "name":
        return [text.title().replace("_", "") if text in NAMES else "Name"]
    return [{"string": "Text", "digits": "Digits", "int": "Int"}[kind]]


def seen(kind, text, at):
    value = ""
    if kind in ("digits", "int"):
        bits, suffix = number(text)
        value = f"={bits}" + (f":P{suffix.capitalize()}" if suffix else "")
    return [f" {name} {at}..{at + len(text)}{value}" for name in kinds(kind, text)]


def cut(text, write):
    """What is written of each token, or what breaks."""
    try:
        tokens = told.lex(text)
    except told.Broken as broken:
        rule, at = broken.args
        return f" {rule} at byte {at}, {told.place(text, at)}"
    return "".join(it for token in tokens for it in write(*token))


def read(path):
    with open(path, encoding="latin-1", newline="") as it:
        return it.read()


def main(folder):
    for text in read(folder + "/table.txt").split("\n")[:-1] + read(folder + "/texts.txt").split("`"):
        print(cut(text, seen))
    for text in read(folder + "/marks.txt").split("\n")[:-1]:
        print(cut(text, lambda _, text, at: [f" {at + len(text)}"]))
    # blanks, as many as a text may have, and one more
    print()
    print(" S1 at byte 0, 1:1")


main(sys.argv[1]) if len(sys.argv) == 2 else sys.exit(__doc__)
