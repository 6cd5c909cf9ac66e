#!/usr/bin/env python3
"""Writes the rows of the table of operations, from the families of docs/operations.md: for each row its name, the kinds of its
arguments, the kind of its value, and its panics, in the order of names. The program ops_table has to print the same lines."""

WIDTHS = ("8", "16", "32", "64", "128")
UNSIGNED = ["u" + w for w in WIDTHS] + ["usize"]
SIGNED = ["i" + w for w in WIDTHS]
SECRET = ["s" + w for w in WIDTHS]
PUBLIC = UNSIGNED + SIGNED
ALL = PUBLIC + SECRET
BYTED = [k for k in UNSIGNED + SECRET if k != "usize"]
SIZE = "Int(PUsize)"

rows = {}


def row(name, args, result, *panics):
    assert name not in rows, name
    line = " ".join([name] + args + ["->", result] + list(panics))
    rows[name] = line


def kind(k):
    letter = {"u": "PU", "i": "PI", "s": "SU"}[k[0]]
    return letter + k[1:] if k != "usize" else "PUsize"


def number(k):
    return "Int(%s)" % kind(k)


def byte(k):
    return "Bytes(SU8)" if k in SECRET else "Bytes(PU8)"


for k in ALL:
    n = number(k)
    for op in ("add", "sub", "mul"):
        row("%s_%s" % (k, op), [n, n], n, *(["Overflow"] if k in PUBLIC else []))
    for op in ("and", "or", "xor"):
        row("%s_%s" % (k, op), [n, n], n)
    row("%s_not" % k, [n], n)
    for op in ("shl", "shr"):
        row("%s_%s" % (k, op), [n, SIZE], n, "Shift")
for k in PUBLIC:
    n = number(k)
    for op in ("div", "rem"):
        row("%s_%s" % (k, op), [n, n], n, "Division", *(["Overflow"] if k in SIGNED else []))
    for op in ("wadd", "wsub", "wmul"):
        row("%s_%s" % (k, op), [n, n], n)
    for op in ("lt", "le", "gt", "ge"):
        row("%s_%s" % (k, op), [n, n], "Bool")
for k in SIGNED:
    row("%s_neg" % k, [number(k)], number(k), "Overflow")
for k in UNSIGNED + SECRET:
    for op in ("rotl", "rotr"):
        row("%s_%s" % (k, op), [number(k), SIZE], number(k))
for s in PUBLIC:
    for t in PUBLIC:
        row("%s_of_%s" % (t, s), [number(s)], number(t))
for s in SECRET:
    for t in SECRET:
        if s != t:
            row("%s_of_%s" % (t, s), [number(s)], number(t))
for s in SECRET:
    public = number("u" + s[1:])
    row("%s_classify" % s, [public], number(s))
    row("%s_declassify" % s, [number(s)], public)
for k in BYTED:
    for end in ("le", "be"):
        row("%s_to_%s" % (k, end), [number(k)], byte(k))
        row("%s_from_%s" % (k, end), [byte(k)], number(k), "Length")

row("bool_not", ["Bool"], "Bool")
row("same", ["Any", "Any"], "Bool")
row("differ", ["Any", "Any"], "Bool")
row("clone", ["Any"], "Any")
row("q_item", ["Row", SIZE], "Any", "Index")
row("q_set", ["Row", SIZE, "Any"], "Row", "Index")
row("q_len", ["Row"], SIZE)
row("q_make", ["Any", SIZE], "Row", "Length")
row("q_list", ["Each"], "Row")
row("q_concat", ["Row", "Row"], "Row", "Length")
row("q_push", ["Row", "Any"], "Row", "Length")
row("q_slice", ["Row", SIZE, SIZE], "Row", "Index")
row("q_put", ["Row", SIZE, "Row"], "Row", "Index")
row("q_num_chunks", ["Row", SIZE], SIZE, "Division")
row("q_get_chunk", ["Row", SIZE, SIZE], "Tuple(2)", "Division", "Index")
row("q_set_chunk", ["Row", SIZE, SIZE, "Row"], "Row", "Division", "Index", "Length")
row("q_to_array", [SIZE, "Row"], "Row", "Length")
row("q_to_seq", ["Row"], "Row")
for n in range(2, 13):
    for i in range(n):
        row("tup%d_%d" % (n, i), ["Tuple(%d)" % n], "Any")
        row("tup%d_set_%d" % (n, i), ["Tuple(%d)" % n, "Any"], "Tuple(%d)" % n)
row("opt_unwrap", ["Option"], "Any", "Unwrap")
row("opt_is_some", ["Option"], "Bool")
row("opt_is_none", ["Option"], "Bool")
row("res_unwrap", ["Result"], "Any", "Unwrap")
row("res_is_ok", ["Result"], "Bool")
row("res_is_err", ["Result"], "Bool")

for name in sorted(rows, key=lambda text: text.encode()):
    print(rows[name])
print("%d rows, %d found by their names" % (len(rows), len(rows)))
