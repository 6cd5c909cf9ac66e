#!/usr/bin/env python3
"""Writes what told_table has to print: what is told of each front of a source, of each line of two tables of sources, and of sources
that nest deeply. It recognises token lists straight from the grammar below, after Earley: a list begins a file exactly where
its last set of items is not empty. It knows no limits: what is told of the sources that pass one is worked out here by hand.

    told.py FOLDER      prints it, from FOLDER/chacha20.rs, FOLDER/table.txt and FOLDER/chosen.txt
    told.py -           reads sources, one a line, and prints what is told of each
"""

import re
import sys

# ---- the grammar; a form's name with @ comes in three kinds: any expression, one that does not begin with a block (B), and one
# that begins with neither a block, an if nor a match (S)

GRAMMAR = """
File = Item*
Item = 'use' 'hacspec_lib' '::' '*' ';'
     | 'pub'? 'const' NAME ':' Type '=' Exp ';'
     | 'pub'? 'type' NAME '=' Type ';'
     | Derive? 'pub'? 'struct' NAME '(' list(Type) ')' ';'
     | Derive? 'pub'? 'enum' NAME '{' list(Ctor) '}'
     | 'pub'? 'fn' NAME '(' list(Param)? ')' Result? Block
     | 'array' '!' '(' NAME ',' INT ',' Type ')' ';'
     | 'bytes' '!' '(' NAME ',' INT ')' ';'
     | 'nat_mod' '!' '(' 'type_name' ':' NAME ',' 'type_of_canvas' ':' NAME ',' 'bit_size_of_field' ':' INT ',' 'modulo_value' ':' STRING ')' ';'
Result = '->' Type
Derive = '#' '[' 'derive' '(' list(NAME) ')' ']'
Ctor = NAME Parts?
Parts = '(' list(Type) ')'
Param = 'mut'? NAME ':' Type | NAME ':' '&' 'mut'? Type
Type = NAME | '(' ')' | '(' Type ',' list(Type) ')' | NAME '<' list1(Type) '>' | NAME '<' Before* Open '>>'
Before = Type ','
Open = NAME '<' list1(Type)
Block = '{' Stmt* ExpS? '}'
Stmt = 'let' Pat Typed? '=' Exp ';'
     | '*'? NAME Step* Assign Exp ';'
     | 'for' Variable 'in' Exp '..' Exp Block
     | 'return' Exp? ';'
     | Alone ';'?
     | ExpS ';'
Typed = ':' Type
Variable = NAME | '_'
Assign = '=' | '+=' | '-=' | '*=' | '/=' | '%=' | '&=' | '|=' | '^=' | '<<=' | '>>='
Alone = If | Match | Block
Step = '[' Exp ']' | '.' DIGITS
Pat = 'mut'? NAME | '_' | '(' Pat ',' list(Pat) ')' | NAME '(' list(Pat) ')'
If = 'if' Exp Block Else?
Else = 'else' If | 'else' Block
Match = 'match' Exp '{' Arms '}'
Arms = Arm+ | Arm* Last
Arm = ArmPat '=>' Block ','? | ArmPat '=>' ExpB ','
Last = ArmPat '=>' ExpB
ArmPat = '_' | NAME | NAME Pats | NAME '::' NAME Pats?
Pats = '(' list(Pat) ')'
Exp@ = And@ OrMore*
OrMore = '||' And
And@ = Cmp@ AndMore*
AndMore = '&&' Cmp
Cmp@ = Bor@ CmpMore?
CmpMore = '==' Bor | '!=' Bor | '<' Bor | '<=' Bor | '>' Bor | '>=' Bor
Bor@ = Bxor@ BorMore*
BorMore = '|' Bxor
Bxor@ = Band@ BxorMore*
BxorMore = '^' Band
Band@ = Shift@ BandMore*
BandMore = '&' Shift
Shift@ = Sum@ ShiftMore*
ShiftMore = '<<' Sum | '>>' Sum
Sum@ = Prod@ SumMore*
SumMore = '+' Prod | '-' Prod
Prod@ = Cast@ ProdMore*
ProdMore = '*' Cast | '/' Cast | '%' Cast
Cast@ = Unary@ CastMore*
CastMore = 'as' NAME
Unary@ = '-' Unary | '!' Unary | '*' Unary | Post@
Post@ = Prim@ PostMore*
PostMore = '?' | '.' NAME '(' list(Arg)? ')' | Step
PrimS = INT | 'true' | 'false' | '(' ')' | '(' Exp ')' | '(' Exp ',' list(Exp) ')' | Path Args?
PrimB = PrimS | If | Match
Prim = PrimB | Block
Args = '(' list(Arg)? ')'
Path = NAME | NAME '::' NAME | NAME '::' '<' Type '>' '::' NAME | NAME '::' '<' Open '>>' '::' NAME
Arg = Exp | '&' Exp | '&' 'mut' NAME | '[' list(Exp) ']'
"""

RESERVED = set(
    "as break const continue crate else enum extern false fn for if impl in let loop match mod move mut pub ref return self Self "
    "static struct super trait true type unsafe use where while async await dyn abstract become box do final macro override priv typeof "
    "unsized virtual yield try".split()
)
MARKS = "( ) [ ] { } , ; : :: . .. -> => = == != < <= > >= + - * / % & && | || ^ ! << >> += -= *= /= %= &= |= ^= <<= >>= ? # _".split()
SUFFIXES = "u8 u16 u32 u64 u128 usize i8 i16 i32 i64 i128".split()


def productions():
    rules = {}
    fresh = [0]

    def helper(symbols):
        fresh[0] += 1
        name = "%d" % fresh[0]
        rules[name] = symbols
        return name

    def item(words):
        word = words.pop(0)
        found = re.fullmatch(r"(list1?)\((\w+)\)(\??)", word)
        if found:
            kind, inner, optional = found.groups()
            more = helper(None)
            rules[more] = [[], [more, "','", inner]]
            ends = [[inner, more]] + ([[inner, more, "','"]] if kind == "list" else [])
            return helper(ends + ([[]] if optional else []))
        found = re.fullmatch(r"(.*\w|'.*')([?*+]?)", word)
        inner, suffix = found.groups()
        if suffix == "?":
            return helper([[], [inner]])
        if suffix == "*":
            name = helper(None)
            rules[name] = [[], [name, inner]]
            return name
        if suffix == "+":
            name = helper(None)
            rules[name] = [[inner], [name, inner]]
            return name
        return inner

    lines = re.sub(r"\n\s+", " ", GRAMMAR.strip()).split("\n")
    for line in lines:
        name, right = line.split(" = ", 1)
        for kind in ("", "B", "S") if "@" in name else ("",):
            alternatives = []
            words = [word.replace("@", kind) for word in right.split()]
            while words:
                symbols = []
                while words and words[0] != "|":
                    symbols.append(item(words))
                words = words[1:]
                alternatives.append(symbols)
            rules[name.replace("@", kind)] = alternatives
    return rules


RULES = productions()
NULLABLE = set()
while True:
    more = {n for n, rights in RULES.items() if n not in NULLABLE and any(all(s in NULLABLE for s in r) for r in rights)}
    if not more:
        break
    NULLABLE |= more


def fits(symbol, token):
    kind, text = token
    if symbol == "NAME":
        return kind == "name"
    if symbol == "INT":
        return kind in ("int", "digits")
    if symbol == "DIGITS":
        return kind == "digits"
    if symbol == "STRING":
        return kind == "string"
    return symbol[1:-1] == text and kind in ("name", "reserved", "mark")


class Chart:
    """The sets of items behind each token of a list."""

    def __init__(self):
        self.sets = []
        self.waits = []
        self.add({("File", tuple(r), 0, 0) for r in RULES["File"]})

    def closed(self, start, at):
        items = set()
        waits = {}
        work = list(start)

        def reach(new):
            if new not in items:
                items.add(new)
                work.append(new)

        items.update(start)
        while work:
            name, right, dot, origin = work.pop()
            if dot == len(right):
                for n, r, d, o in waits.get(name, []) if origin == at else self.waits[origin].get(name, []):
                    reach((n, r, d + 1, o))
                continue
            symbol = right[dot]
            waits.setdefault(symbol, []).append((name, right, dot, origin))
            if symbol in RULES:
                for r in RULES[symbol]:
                    reach((symbol, tuple(r), 0, at))
                if symbol in NULLABLE:
                    reach((name, right, dot + 1, origin))
        return items, waits

    def add(self, start):
        items, waits = self.closed(start, len(self.sets))
        self.sets.append(items)
        self.waits.append(waits)

    def scan(self, token):
        start = set()
        for symbol, items in self.waits[-1].items():
            if symbol not in RULES and fits(symbol, token):
                start |= {(n, r, d + 1, o) for n, r, d, o in items}
        return start

    def is_file(self):
        return any(n == "File" and d == len(r) and o == 0 for n, r, d, o in self.sets[-1])


class Broken(Exception):
    pass


def lex(text):
    """The tokens, each with its place; raises the first broken rule with its place."""
    tokens = []
    at = 0
    while at < len(text):
        rest = text[at:]
        c = rest[0]
        if c in " \t\r\n":
            at += 1
        elif rest.startswith("//"):
            end = rest.find("\n")
            at += len(rest) if end < 0 else end
        elif rest.startswith("/*"):
            depth, i = 0, 0
            while True:
                if rest.startswith("/*", i):
                    depth, i = depth + 1, i + 2
                elif rest.startswith("*/", i):
                    depth, i = depth - 1, i + 2
                else:
                    i += 1
                if depth == 0:
                    break
                if i >= len(rest):
                    raise Broken("X2", at)
            at += i
        elif c == '"':
            found = re.match(r'"[ !#-\[\]-~]*"', rest)
            if not found:
                raise Broken("X1", at)
            tokens.append(("string", found.group(), at))
            at += len(found.group())
        elif re.match(r"\w", c, re.A) and c != "_" or re.match(r"_\w", rest, re.A):
            word = re.match(r"\w+", rest, re.A).group()
            if c.isdigit():
                tokens.append((number(word, at), word, at))
            elif word in RESERVED:
                tokens.append(("reserved", word, at))
            elif len(word) > 64:
                raise Broken("S9", at)
            else:
                tokens.append(("name", word, at))
            at += len(word)
        else:
            mark = max((m for m in MARKS if rest.startswith(m)), key=len, default=None)
            if mark is None:
                raise Broken("X1", at)
            tokens.append(("mark", mark, at))
            at += len(mark)
    return tokens


def number(word, at):
    base = {"0x": 16, "0o": 8, "0b": 2}.get(word[:2], 10)
    body = word if base == 10 else word[2:]
    digits = "0123456789abcdef"[:base]
    i = 0
    while i < len(body) and body[i].lower() in digits + "_":
        i += 1
    front = body[:i].replace("_", "")
    if not front:
        raise Broken("X3", at)
    if body[i:] not in SUFFIXES + [""]:
        raise Broken("X4", at)
    value = int(front, base)
    if value >= 2**128:
        raise Broken("X5", at)
    if body[i:]:
        width = 64 if body[i:].endswith("size") else int(body[i + 1 :])
        if value >= 2**width and body[i] == "u" or value > 2 ** (width - 1) and body[i] == "i":
            raise Broken("X6", at)
    return "digits" if word.isdigit() else "int"


USED = {symbol[1:-1] for rights in RULES.values() for right in rights for symbol in right if symbol.startswith("'")}


def rule(tokens, at):
    """The rule of the token that cannot stand there."""
    kind, text, _ = tokens[at]
    if kind == "reserved" and text not in USED:
        return "G8"
    if text == "!" and kind == "mark" and at > 0 and tokens[at - 1][0] == "name":
        return "G7"
    if kind == "mark" and text in ")]}":
        return "G6"
    brackets = []
    for kind, text, _ in tokens[:at]:
        if kind == "mark" and text in "([{":
            brackets.append(text)
        elif kind == "mark" and text in ")]}":
            brackets.pop()
    return {"": "G1", "(": "G3", "[": "G4", "{": "G5"}["".join(brackets[-1:])]


def place(text, at):
    before = text[:at]
    line = before.count("\n") + 1
    return "%d:%d" % (line, at - (before.rfind("\n") + 1) + 1)


class Teller:
    """What is told of texts; keeps the chart of the last text for the next with the same tokens at its front."""

    def __init__(self):
        self.chart = Chart()
        self.read = []

    def told(self, text):
        try:
            tokens = lex(text)
        except Broken as broken:
            return "%s %s" % (broken.args[0], place(text, broken.args[1]))
        same = 0
        while same < min(len(tokens), len(self.read)) and self.read[same][:2] == tokens[same][:2]:
            same += 1
        del self.chart.sets[same + 1 :]
        del self.chart.waits[same + 1 :]
        del self.read[same:]
        for at in range(same, len(tokens)):
            start = self.chart.scan(tokens[at][:2])
            if not start:
                return "%s %s" % (rule(tokens, at), place(text, tokens[at][2]))
            self.chart.add(start)
            self.read.append(tokens[at])
        return "a file" if self.chart.is_file() else "G2 " + place(text, len(text))


# ---- the nested sources: what stands before, how each form begins, what is innermost, how each form ends, and what stands behind
# all; how often it nests at most; how often it surely may nest; the height of what is innermost, and where in a form the nodes
# begin that it adds to the height, from the inside out (of types and patterns, which have no limit on heights, none)

NESTS = [
    ("fn f() { ", "(", "1", ")", " }", 100000, 500, 1, [0]),
    ("fn f() { ", "{", "1", "}", " }", 60000, 500, 1, [0]),
    ("fn f() { ", "-", "1", "", " }", 100000, 500, 1, [0]),
    ("fn f() { ", "a[", "1", "]", " }", 60000, 500, 1, [0]),
    ("fn f() { ", "if a {", "1", "}", " }", 30000, 500, 1, [5, 0]),
    ("fn f() { ", "match a { _ => ", "1", "}", " }", 16000, 500, 1, [0]),
    ("fn f() { ", "f(", "1", ")", " }", 60000, 500, 1, [0]),
    ("fn f() { ", "if a {} else ", "{}", "", " }", 16000, 500, 1, [0]),
    ("fn f() { ", "f([", "1", "])", " }", 50000, 500, 1, [0]),
    ("fn f() { ", "f(&", "1", ")", " }", 60000, 500, 1, [0]),
    ("fn f() { ", "a.f(", "1", ")", " }", 50000, 500, 1, [0]),
    ("fn f() { ", "(1, ", "1", ")", " }", 50000, 500, 1, [0]),
    ("fn f() { ", "(", "1", " as u8)", " }", 30000, 500, 1, [1, 0]),
    ("fn f() { ", "a + (", "1", ")", " }", 40000, 500, 1, [4, 0]),
    ("fn f() { ", "if ", "a", " {}", " }", 40000, 500, 1, [0]),
    ("fn f() { ", "match ", "a", " { _ => 1 }", " }", 14000, 500, 1, [0]),
    ("fn f() { ", "for i in 0..1 {", "1;", "}", " }", 16000, 500, 2, [14, 0]),
    ("fn f() { ", "let a = {", "1;", "};", " }", 20000, 170, 2, [8, 0]),
    ("fn f() { ", "a || a && a == a | a ^ a & a << a + a * (", "1", ")", " }", 6000, 170, 1, [40, 36, 32, 27, 23, 19, 15, 10, 5, 0]),
    ("fn f() { let x: ", "A<", "u8", ">", " = 1; }", 80000, 500, 1, None),
    ("fn f() { let x: ", "A<u8, ", "u8", ">", " = 1; }", 30000, 500, 1, None),
    ("fn f() { let x: ", "(u8, ", "u8", ")", " = 1; }", 40000, 500, 1, None),
    ("fn f() { f(A::<", "A<", "u8", ">", ">::b(1)) }", 80000, 800, 1, None),
    ("fn f() { let ", "S(", "a", ")", " = 1; }", 80000, 500, 1, None),
    ("fn f() { let ", "(a, ", "a", ")", " = 1; }", 50000, 500, 1, None),
    ("fn f() { match a { ", "S(", "a", ")", " => 1 } }", 80000, 500, 1, None),
]


def nested(nest, count, closed):
    head, before, inside, behind, tail = nest[:5]
    return head + before * count + inside + behind * closed + (tail if closed else "")


def high(nest, count):
    """The first byte of the innermost node of height 65, or None where there is none."""
    head, before, base, offsets = nest[0], nest[1], nest[7], nest[8]
    if offsets is None:
        return None
    above = 64 - base  # the nodes between what is innermost and the node of height 65
    level = count - 1 - above // len(offsets)
    if level >= 0:
        return len(head) + len(before) * level + offsets[above % len(offsets)]
    return len("fn f() ") if base + count * len(offsets) == 64 else None


def nested_told(teller, nest, count, closed):
    if count > nest[6]:
        return "too deep"
    text = nested(nest, count, closed)
    told = teller.told(text)
    if told != "a file" or high(nest, count) is None:
        return told
    return "S2 " + place(text, high(nest, count))


# ---- the sources that were chosen one by one: the parts of a row have a ~ between, 3*a is aaa, and \n is a line feed. Of those that
# pass a limit, what is told of each

OVER = {
    "fn f() { ~1025*();~ }": "S6 1:3082",
    "fn f(~33*a: u8, ~) { }": "S4 1:230",
    "fn f() { (~13*1, ~) }": "S8 1:47",
    "enum E { ~257*C, ~}": "S8 1:778",
    "pub fn f() -> u32 {~63*(~1~63*)~}": "S2 1:19",
    "pub fn f() -> u32 {~64*(~1~64*)~}": "S2 1:20",
    "const A: u8 = ~64*(~1~64*)~;": "S2 1:15",
    "const A: u8 = 1~65* + 1~;": "S2 1:15",
    "const A: u8 = 1~63* + 1~ + (~13*1, ~)~ + 1~;": "S8 1:308",
    "const A: u8 = 1~64* + 1~ + (~13*1, ~)~;": "S2 1:15",
    "const A: u8 = 1~65* as u8~;": "S2 1:15",
    "const A: u8 = (1~13*, 1~);": "S8 1:52",
    "const A: u8 = ~63*(~(1~11*, 1~)~63*)~;": "S2 1:15",
    "const A: u8 = ~63*(~f(1~12*, 1~)~63*)~;": "S2 1:15",
    "const A: (u8~12*, u8~) = 1;": "S8 1:59",
    "fn f() { let (_~12*, _~) = 1; }": "S8 1:51",
    "fn f() { ~1026*(); ~() }": "S6 1:4106",
    "const A: u8 = ~62*(~{ ~1024*(); ~() }~62*)~;": "S2 1:15",
    "fn f() { ~1024*(); ~63*(~1~63*)~; () }": "S2 1:4106",
    "fn f() { ~1024*(); ~64*(~1~64*)~; () }": "S2 1:4106",
    "const A: u8 = ~63*(~(1~12*, 1~)~63*)~;": "S8 1:115",
    "const A: u8 = (~64*(~1~64*)~, (1~12*, 1~));": "S2 1:16",
    "struct S(u8~12*, u8~);": "S8 1:58",
    "enum E { C~256*, C~ }": "S8 1:778",
    "enum E { C(u8~12*, u8~) }": "S8 1:60",
    "fn f(a: u8~33*, a: u8~) {}": "S4 1:230",
}


def source_of(row):
    text = ""
    for part in row.split("~"):
        number, star, unit = part.partition("*")
        if star and number.isdigit():
            text += unit * int(number)
        else:
            text += "\n" if part == "\\n" else part
    return text


def chosen_told(teller, row):
    told = teller.told(source_of(row))
    return OVER.get(row, told) if told == "a file" else told


# ---- other sources: parts, each so many times

OTHERS = [
    [],
    [("const A: u8 = 1; ", 800)],
    [("fn f() -> Seq<u8> { if a { f([1]) } else { - 1 } } ", 1500)],
    [("\n", 70000), ("1", 1)],
    [("(1 2)", 1)],
    [("1", 1), ("(", 2000)],
    [("fn f() { 1 2 ", 1), ("(", 2000)],
    [("fn f() { f(A::<", 1), ("A<", 800), ("u8", 1), (">", 800), (">::b(1)) }", 1)],
]


def table(folder):
    teller = Teller()
    source = open(folder + "/chacha20.rs").read()
    for length in range(len(source)):
        print("%d: %s" % (length, teller.told(source[:length])))
    print(teller.told(source))
    for line in open(folder + "/table.txt").read().splitlines():
        print(teller.told(line))
    chosen = open(folder + "/chosen.txt").read().splitlines()
    if not OVER.keys() <= set(chosen):
        sys.exit("a source that passes a limit is not in chosen.txt")
    for row in chosen:
        print(chosen_told(teller, row))
    for nest in NESTS:
        for count in (20, 64, 170, 500, nest[5]):
            for closed in (0, count):
                print("%s %d %d: %s" % (nest[1], count, closed, nested_told(teller, nest, count, closed)))
    for parts in OTHERS:
        print(teller.told("".join(part * count for part, count in parts)))


if __name__ == "__main__":
    if sys.argv[1:] == ["-"]:
        teller = Teller()
        for line in sys.stdin.read().splitlines():
            print(teller.told(line))
    elif len(sys.argv) == 2:
        table(sys.argv[1])
    else:
        sys.exit(__doc__)
