#!/usr/bin/env python3
"""Where the tokens of a text stop to be a prefix of a program, by the grammar alone.

A small recogniser that shares nothing with the parser: Earley's, over kinds of tokens. A list of tokens is a prefix
of a program exactly where the sets of items are not empty up to its end. The limits of nesting are counted apart from
it, by what opens and closes. It writes two tables, of 1,000 texts together: crates/language_tests/src/places.rt has
mistakes that people make, each program of a list cut, thinned and altered, and the limits; random_places.rt has random
kinds of tokens, from an empty text on and at the limits.

    tests/places.py --write     writes the tables anew
    tests/places.py             fails where a table isn't what this program says
"""
import random
import re
import sys
from pathlib import Path

TABLES = Path(__file__).resolve().parent.parent / "crates/language_tests/src"

# All texts of both tables, and where the random ones begin.
TEXTS = 1000
SEED = 15

WORDS = "var array proc do end print read if then else for to while limit div mod".split()
TOKEN = re.compile(r"\s*([A-Za-z][A-Za-z0-9_]*|[0-9]+|:=|\.\.|<=|<>|>=|[:;,()\[\]+\-*<>=])")

# "?" stands for a name, "0" for a number; each alternative is a list of symbols, and capitals are rules
RULES = {
    "PROGRAM": ["DECLARATIONS STATEMENTS"],
    "DECLARATIONS": ["", "DECLARATION DECLARATIONS"],
    "DECLARATION": [
        "var ? : RANGE ;",
        "array ? [ 0 ] : RANGE ;",
        "proc ? ( PARAMS ) LOCALS do STATEMENTS end",
    ],
    "PARAMS": ["", "PARAM MOREPARAMS"],
    "MOREPARAMS": ["", ", PARAM MOREPARAMS"],
    "PARAM": ["? : RANGE"],
    "LOCALS": ["", "var ? : RANGE ; LOCALS"],
    "RANGE": ["BOUND .. BOUND"],
    "BOUND": ["0", "- 0"],
    "STATEMENTS": ["", "STATEMENT STATEMENTS"],
    "STATEMENT": [
        "PLACE := EXPR ;",
        "print EXPR ;",
        "read PLACE ;",
        "if COND then STATEMENTS end",
        "if COND then STATEMENTS else STATEMENTS end",
        "for ? := EXPR to EXPR do STATEMENTS end",
        "while COND limit 0 do STATEMENTS end",
        "? ( ARGUMENTS ) ;",
    ],
    "ARGUMENTS": ["", "EXPR MOREARGUMENTS"],
    "MOREARGUMENTS": ["", ", EXPR MOREARGUMENTS"],
    "PLACE": ["?", "? [ EXPR ]"],
    "COND": [f"EXPR {sign} EXPR" for sign in "< <= > >= = <>".split()],
    "EXPR": ["TERM", "EXPR + TERM", "EXPR - TERM"],
    "TERM": ["FACTOR", "TERM * FACTOR", "TERM div FACTOR", "TERM mod FACTOR"],
    "FACTOR": ["- FACTOR", "0", "?", "? [ EXPR ]", "( EXPR )"],
}
RULES = {name: [alternative.split() for alternative in told] for name, told in RULES.items()}


def kinds(text):
    found, at = [], 0
    text = text.rstrip()
    while at < len(text):
        token = TOKEN.match(text, at)
        word, at = token.group(1), token.end()
        if word in WORDS or not word[0].isalnum():
            found.append(word)
        else:
            found.append("0" if word[0].isdigit() else "?")
    return found


def closed(items, sets):
    """The items, with all that they call for and all that the whole ones among them complete."""
    items, queue = set(items), list(items)
    here = len(sets)
    empty = set()

    def add(item):
        if item not in items:
            items.add(item)
            queue.append(item)

    while queue:
        name, body, dot, start = queue.pop()
        if dot < len(body):
            wanted = body[dot]
            if wanted in RULES:
                for alternative in RULES[wanted]:
                    add((wanted, tuple(alternative), 0, here))
                if wanted in empty:
                    add((name, body, dot + 1, start))
        else:
            if start == here:
                empty.add(name)
            for other in list(items if start == here else sets[start]):
                if other[2] < len(other[1]) and other[1][other[2]] == name:
                    add((other[0], other[1], other[2] + 1, other[3]))
    return items


def begun():
    """The items before any token."""
    return closed({("PROGRAM", tuple(body), 0, 0) for body in RULES["PROGRAM"]}, [])


def went_on(items, token, sets):
    """The items after a token more; none where no program goes on with it."""
    sets.append(items)
    items = {(n, b, d + 1, s) for n, b, d, s in items if d < len(b) and b[d] == token}
    return closed(items, sets) if items else items


def stop(tokens):
    """The first token that no program goes on with; their number where more are wanted; None where they are whole."""
    sets = []
    items = begun()
    for place, token in enumerate(tokens):
        items = went_on(items, token, sets)
        if not items:
            return place
    whole = any(n == "PROGRAM" and d == len(b) and s == 0 for n, b, d, s in items)
    return None if whole else len(tokens)


def deep(tokens):
    """The first token over a limit, of tokens that are a prefix of a program."""
    blocks = []  # what each `end` will close
    weight = None  # of the outermost expression, where one is open
    brackets = 0  # open in it
    previous = None
    declares = False  # between the first word of a declaration and its `;` or `do`
    for place, token in enumerate(tokens):
        if weight is None and not declares:
            # after these words and signs an outermost expression begins, and in the index of a place or a call
            if token in ("print", ":=", "if", "while", "to") or token in ("[", "(") and previous == "?":
                weight, brackets = 0, 0
        elif weight is not None:
            closes = token in (")", "]") and brackets == 0
            if closes or token in (";", "to", "do", "then", "limit"):
                weight = None
            elif token in ("<", "<=", ">", ">=", "=", "<>") or token == "," and brackets == 0:
                weight, brackets = 0, 0
            elif token in ("+", "-", "*", "div", "mod", "(", "["):
                weight += 1
                if weight > 200:
                    return place
            if token in ("(", "["):
                brackets += 1
            if token in (")", "]") and not closes:
                brackets -= 1
            if token == "to":
                weight, brackets = 0, 0
        if token in ("if", "for", "while"):
            blocks.append(token)
            if sum(block != "proc" for block in blocks) > 64:
                return place
        if token == "proc":
            blocks.append(token)
        if token == "end":
            blocks.pop()
        if token in ("var", "array", "proc"):
            declares = True
        if token in (";", "do"):
            declares = False
        previous = token
    return None


def reported(text):
    tokens = kinds(text)
    place = stop(tokens)
    over = deep(tokens[: len(tokens) if place is None else place])
    if over is not None:
        return f"deep {over}"
    return "ok" if place is None else f"stops {place}"


# Programs that have each rule of the grammar once, each with its neighbours.
WHOLE = [
    "var x: 0..9; var y: -9..-1; x := 1; y := 0 - 2;",
    "array a[3]: -1..1; a[0] := 1; read a[1 + 1]; print a[a[2]];",
    "proc p() do end p();",
    "proc q(x: 0..9, y: 1..2) var z: 0..1; var w: 3..4; do z := x; print w; end q(1, 2 + 3);",
    "if x < 1 then print 1; end",
    "if x <= 1 then else end",
    "if x > 1 then x := 1; else x := 2; y := 3; end",
    "for i := 1 to 2 * 3 do print i; end",
    "while x >= 1 limit 5 do x := x - 1; end",
    "while - x = ( 1 ) limit 0 do if 1 <> 2 then end end",
    "print 1 + 2 * 3 div 4 mod 5 - - 6;",
    "print ( 1 + ( 2 ) ) * a[ ( 3 ) ];",
    "read x; f(a[1], (2), -3);",
]

# Tokens that stand where another should.
OTHERS = ["?", "0", ";", "end", ")", "+", "then", "var"]
SPELLED = {"?": "n", "0": "7"}

# What people write by mistake, and the limits.
BY_HAND = [
    "",
    "var x 0..9;",
    "print 1",
    "x = 1;",
    "if 1 then end",
    "print ;",
    "print 1 2;",
    "print (1;",
    "print 1);",
    "print a[1;",
    "print a[1);",
    "print 1 +;",
    "print * 1;",
    "print - - - 1;",
    "print 1 < 2;",
    "if 1 < 2 < 3 then end",
    "if 1 < 2 do end",
    "if 1 < 2 then else else end",
    "if 1 < 2 then end else end",
    "else",
    "end",
    "x := 1; var y: 0..1;",
    "proc p() do proc q() do end end",
    "proc p() do var x: 0..1; end",
    "proc p(x: 0..1,) do end",
    "proc p(x) do end",
    "proc p() end",
    "array a[]: 0..1;",
    "array a[-1]: 0..1;",
    "array a[n]: 0..1;",
    "var x: 0..--1;",
    "var x: 0..n;",
    "var x: (0)..1;",
    "var x, y: 0..1;",
    "var if: 0..1;",
    "for i = 1 to 2 do end",
    "for a[1] := 1 to 2 do end",
    "for i := 1 do end",
    "for i := 1 to 2 limit 3 do end",
    "while 1 < 2 do end",
    "while 1 < 2 limit n do end",
    "while 1 < 2 limit 1 + 1 do end",
    "while 1 < 2 limit -1 do end",
    "f;",
    "f() := 1;",
    "f(,);",
    "f(1,);",
    "f(1 2);",
    "f()",
    "a[1];",
    "a[1](2);",
    "read 1;",
    "read f();",
    "print f();",
    "1 := x;",
    "x := y := 1;",
    "x := ;",
    "; print 1;",
    "print 1;;",
]


def repeated(text):
    """`{N TEXT}` stands for TEXT N times, in a table that a reader can take in."""
    return re.sub(r"\{(\d+) ([^{}]*)\}", lambda found: found.group(2) * int(found.group(1)), text)


LIMITS = [
    "print {200 (}1{200 )};",
    "print {201 (}1{201 )};",
    "print {200 -}1;",
    "print {201 -}1;",
    "print 1{200 +1};",
    "print 1{201 *1};",
    "print {100 -}1{100  mod 1};",
    "print {100 -}1{101  div 1};",
    "print {200 a[}1{200 ]};",
    "print {201 a[}1{201 ]};",
    "a[{200 -}1] := {200 -}1;",
    "a[{201 -}1] := 1;",
    "a[1] := {201 -}1;",
    "read a[{200 -}1];",
    "read a[{201 -}1];",
    "f({200 -}1, {200 -}1);",
    "f({200 -}1, {201 -}1);",
    "if {200 -}1 < {200 -}1 then end",
    "if {201 -}1 < 1 then end",
    "if 1 < {201 -}1 then end",
    "for i := {200 -}1 to {200 -}1 do end",
    "for i := {201 -}1 to 1 do end",
    "for i := 1 to {201 -}1 do end",
    "while {200 -}1 = {201 -}1 limit 1 do end",
    "{64 if 1 < 2 then }{64 end }",
    "{65 if 1 < 2 then }{65 end }",
    "{32 for i := 1 to 2 do while 1 < 2 limit 3 do }{64 end }",
    "{32 for i := 1 to 2 do while 1 < 2 limit 3 do }for",
    "{64 if 1 < 2 then }end {64 if 1 < 2 then }",
    "proc p() do {64 if 1 < 2 then }{64 end }end {64 if 1 < 2 then }{64 end }",
    "proc p() do {65 if 1 < 2 then }",
    "{64 if 1 < 2 then else }while",
    "{64 if 1 < 2 then }print;",
    "print {200 -};",
    "print {201 -};",
    "print {200 (}1{201 )};",
    "if 1 < {200 -};",
]


def chosen():
    found = {}
    for text in BY_HAND + LIMITS:
        found[text] = None
    for number, text in enumerate(WHOLE):
        found[text] = None
        spelled = [word for word in TOKEN.findall(text)]
        for place in range(len(spelled)):
            # the text up to a token, without it, and with another in its place, by turns
            turn = (place + number) % 3
            if turn == 0:
                found[" ".join(spelled[:place])] = None
            elif turn == 1:
                found[" ".join(spelled[:place] + spelled[place + 1 :])] = None
            else:
                other = OTHERS[(place + 2 * number) % len(OTHERS)]
                found[" ".join(spelled[:place] + [SPELLED.get(other, other)] + spelled[place + 1 :])] = None
    return list(found)


# Fronts that leave room for none to two more of what is limited, in each place where an expression or a block stands.
AT_LIMITS = [
    "",
    "print {199 -}",
    "print {200 -}",
    "print {198 (}n",
    "print {200 (}7",
    "print 7{199 +n}",
    "print 7{200  div n}",
    "print {100 n[}7{99 *n}",
    "n[{199 -}",
    "n[{200 (}n",
    "n[n] := {200 -}",
    "read n[{200 -}",
    "n({200 -}n, {199 -}",
    "n(n, {200 (}",
    "if {200 -}n < {199 -}",
    "if {200 (}",
    "for n := {200 -}",
    "for n := {200 -}n to {199 -}",
    "while n = {200 -}",
    "var n: -7..-7; print {200 -}",
    "{63 if n < n then }",
    "{64 if n < n then }",
    "{62 while n < n limit 7 do }if n = n then else",
    "{64 for n := 7 to n do }",
    "proc n() do {64 if n < n then }",
    "{64 if n < n then }{64 end }",
    "{64 if n < n then }print {200 -}",
]

KINDS = sorted({symbol for told in RULES.values() for body in told for symbol in body if symbol not in RULES})


def random_text(chance, front):
    """A front and 1 to 12 random kinds after it; most times one with which a program goes on, where there is one."""
    sets, items = [], begun()
    for token in kinds(repeated(front)):
        items = went_on(items, token, sets)
    words = []
    for _ in range(chance.randint(1, 12)):
        may_come = sorted({b[d] for n, b, d, s in items if d < len(b) and b[d] not in RULES})
        token = chance.choice(may_come if may_come and chance.random() < 0.9 else KINDS)
        words.append(SPELLED.get(token, token))
        items = went_on(items, token, sets) if items else items
    return f"{front} {' '.join(words)}".strip()


def random_texts(known):
    """As many as are wanted besides the others, one at a limit for each two from an empty text on."""
    chance = random.Random(SEED)
    found = {}
    while len(known) + len(found) < TEXTS:
        front = chance.choice(AT_LIMITS) if len(found) % 3 == 0 else ""
        text = random_text(chance, front)
        if text not in known:
            found[text] = None
    return list(found)


def said(texts):
    return [f"{reported(repeated(text))} | {text}\\n" for text in texts]


def filled(parts):
    """The parts, several in a line of a file."""
    lines = [""]
    for part in parts:
        if lines[-1] and len(lines[-1]) + len(part) > 110:
            lines.append("")
        lines[-1] += part
    return lines


def tables():
    texts = chosen()
    others = random_texts(set(texts))
    return {
        "places.rt": (
            "//! Texts, and where their tokens stop to be a prefix of a program, nest too deep, or are one. `tests/places.py` wrote\n"
            "//! it, by a recogniser of its own. `{N TEXT}` stands for TEXT N times.\n"
            "\n"
            "/// What is reported of a text, a bar, and the text.\n"
            'pub const PLACES: &str = "\\\n    ' + "\\\n    ".join(said(texts)) + '\\\n    ";\n'
        ),
        "random_places.rt": (
            f"//! The same of {len(others)} random texts, from the seed {SEED} on.\n"
            "\n"
            "/// What is reported of a text, a bar, and the text.\n"
            'pub const RANDOM_PLACES: &str = "\\\n    ' + "\\\n    ".join(filled(said(others))) + '\\\n    ";\n'
        ),
    }


if __name__ == "__main__":
    wanted = tables()
    print(f"{TEXTS} texts, the random ones from the seed {SEED} on")
    for name, text in wanted.items():
        if "--write" in sys.argv:
            (TABLES / name).write_text(text)
        elif (TABLES / name).read_text() != text:
            print(f"the table {name} is not what the grammar says")
            sys.exit(1)
