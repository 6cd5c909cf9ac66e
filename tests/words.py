#!/usr/bin/env python3
"""Writes what crates/words_table has to print, from whole numbers without bound: what each operation gives at the edges of the
sixteen kinds of machine integers. The crate's first lines say what a line has.
"""

UNSIGNED = {"PU8": 8, "PU16": 16, "PU32": 32, "PU64": 64, "PU128": 128, "PUsize": 64}
SIGNED = {"PI8": 8, "PI16": 16, "PI32": 32, "PI64": 64, "PI128": 128}
SECRET = {"SU8": 8, "SU16": 16, "SU32": 32, "SU64": 64, "SU128": 128}
KINDS = {**UNSIGNED, **SIGNED, **SECRET}


def number(kind, bits):
    """The number that the bits of a kind stand for."""
    width = KINDS[kind]
    return bits - 2**width if kind in SIGNED and bits >= 2 ** (width - 1) else bits


def low(kind, value):
    """The bits of a number, without those that the kind has no room for."""
    return f"{value % 2 ** KINDS[kind]:x}"


def fitted(kind, value):
    """The bits of a number that must lie in the range of a public kind; of a secret kind the low ones."""
    width = KINDS[kind]
    least = -(2 ** (width - 1)) if kind in SIGNED else 0
    return low(kind, value) if kind in SECRET or least <= value < least + 2**width else "Overflow"


def toward_zero(a, b):
    return abs(a) // abs(b) * (1 if (a < 0) == (b < 0) else -1)


def divided(kind, a, b, give):
    if b == 0:
        return "Division"
    over = kind in SIGNED and a == -(2 ** (KINDS[kind] - 1)) and b == -1
    return "Overflow" if over else low(kind, give(a, b))


OPERATIONS = {
    "Add": lambda k, a, b: fitted(k, a + b),
    "Sub": lambda k, a, b: fitted(k, a - b),
    "Mul": lambda k, a, b: fitted(k, a * b),
    "Div": lambda k, a, b: None if k in SECRET else divided(k, a, b, toward_zero),
    "Rem": lambda k, a, b: None if k in SECRET else divided(k, a, b, lambda a, b: a - b * toward_zero(a, b)),
    "WrappingAdd": lambda k, a, b: low(k, a + b),
    "WrappingSub": lambda k, a, b: low(k, a - b),
    "WrappingMul": lambda k, a, b: low(k, a * b),
    "And": lambda k, a, b: low(k, a & b),
    "Or": lambda k, a, b: low(k, a | b),
    "Xor": lambda k, a, b: low(k, a ^ b),
}


def turned(kind, bits, places):
    """The bits turned to the left."""
    width = KINDS[kind]
    places %= width
    return low(kind, bits << places | bits >> (width - places))


MOVES = {
    "ShiftLeft": lambda k, bits, n: low(k, bits << n) if n < KINDS[k] else "Shift",
    "ShiftRight": lambda k, bits, n: low(k, number(k, bits) >> n) if n < KINDS[k] else "Shift",
    "TurnLeft": lambda k, bits, n: None if k in SIGNED else turned(k, bits, n),
    "TurnRight": lambda k, bits, n: None if k in SIGNED else turned(k, bits, -n),
}


def row(first, answers):
    print(" ".join([first, *(it for it in answers if it is not None)]))


for kind, width in KINDS.items():
    edges = [0, 1, 2 ** (width - 1) - 1, 2 ** (width - 1), 2**width - 1]
    pairs = [(a, b) for a in edges for b in edges]
    for name, give in OPERATIONS.items():
        row(f"{kind} {name}", [give(kind, number(kind, a), number(kind, b)) for a, b in pairs])
    for name, give in MOVES.items():
        row(f"{kind} {name}", [give(kind, bits, n) for bits in edges for n in (0, 1, width - 1, width, width + 3)])
    for bits in edges:
        value = number(kind, bits)
        negative = ["neg", fitted(kind, -value)] if kind in SIGNED else []
        row(f"{kind} {bits:x} not", [low(kind, ~value), *negative, "cast", *(low(to, value) for to in KINDS)])
    order = [(number(kind, a), number(kind, b)) for a, b in pairs]
    row(f"{kind} order", [str(a == b).lower() + ("" if kind in SECRET else f"/{str(a < b).lower()}") for a, b in order])
