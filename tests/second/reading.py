"""From the bytes of a source to its tree, or its first fault of tokens or grammar.

The grammar is read from the left with one token ahead: a token is taken only where some program goes on with it, so the
first one that can't be taken is where the text stops to be a prefix of a program.
"""
import re
from dataclasses import dataclass, field

KEYWORDS = "var array proc do end print read if then else for to while limit div mod".split()
BLANK = re.compile(rb"(?:[ \t\r\n]+|#[^\n]*)+")
TOKEN = re.compile(rb"[A-Za-z][A-Za-z0-9_]*|[0-9]+|:=|\.\.|<=|<>|>=|[:;,()\[\]+\-*<>=]")
GREATEST_NUMBER = 2**127 - 1
MOST_DIGITS = len(str(GREATEST_NUMBER))
MOST_OPEN = 64
MOST_WEIGHT = 200
WEIGHTY = ("+", "-", "*", "div", "mod", "(", "[")
COMPARISONS = ("<", "<=", ">", ">=", "=", "<>")
# What a statement begins with.
STATEMENT_WORDS = ("print", "read", "if", "for", "while", "name")


class Refused(Exception):
    """A source is refused: the kind of its first fault, as it is printed, and the line."""

    def __init__(self, kind, line):
        super().__init__(f"{kind} {line}")
        self.kind = kind
        self.line = line


@dataclass
class Token:
    kind: str  # "name", "number", or the keyword or symbol itself
    value: object
    line: int


@dataclass
class Name:
    text: bytes
    line: int


@dataclass
class Number:
    value: int
    line: int


@dataclass
class Variable:
    """A name as an expression, or as a place."""

    name: Name

    @property
    def line(self):
        return self.name.line


@dataclass
class Element:
    """A name with an index, as an expression or as a place."""

    name: Name
    index: object

    @property
    def line(self):
        return self.name.line


@dataclass
class Neg:
    operand: object
    line: int


@dataclass
class Binary:
    left: object
    operator: str
    right: object
    line: int


@dataclass
class Condition:
    left: object
    comparison: str
    right: object


@dataclass
class Range:
    low: int
    high: int


@dataclass
class Declared:
    """A variable, parameter or local, or an array where it has a length; `line` is that of its first token."""

    name: Name
    range: Range
    line: int
    length: object = None


@dataclass
class Procedure:
    name: Name
    parameters: list
    locals: list
    body: list
    line: int


@dataclass
class Statement:
    """`kind` is assign, print, read, if, for, while or call; `parts` has what the kind has, in text order."""

    kind: str
    line: int
    parts: dict = field(default_factory=dict)

    def __getattr__(self, part):
        try:
            return self.__dict__["parts"][part]
        except KeyError:
            raise AttributeError(part) from None


@dataclass
class Program:
    declarations: list
    statements: list


def tokens_of(text):
    tokens, at, line = [], 0, 1
    while True:
        blank = BLANK.match(text, at)
        if blank:
            line += text.count(b"\n", at, blank.end())
            at = blank.end()
        if at == len(text):
            return tokens
        found = TOKEN.match(text, at)
        if not found:
            raise Refused("byte", line)
        word = found.group()
        at = found.end()
        if word[:1].isdigit():
            digits = word.lstrip(b"0") or b"0"
            if len(digits) > MOST_DIGITS or int(digits) > GREATEST_NUMBER:
                raise Refused("long-number", line)
            tokens.append(Token("number", int(digits), line))
        elif word[:1].isalpha() and word.decode() not in KEYWORDS:
            tokens.append(Token("name", word, line))
        else:
            tokens.append(Token(word.decode(), None, line))


class Reader:
    def __init__(self, text):
        self.tokens = tokens_of(text)
        self.place = 0
        self.last_line = text.count(b"\n") + 1
        self.open = 0
        self.weight = 0

    def kind(self):
        return self.tokens[self.place].kind if self.place < len(self.tokens) else "the end"

    def line(self):
        return self.tokens[self.place].line if self.place < len(self.tokens) else self.last_line

    def take(self, *kinds):
        """The next token, which has one of these kinds in every program that begins so."""
        if self.kind() not in kinds:
            raise Refused("syntax", self.line())
        self.place += 1
        return self.tokens[self.place - 1]

    def take_weighty(self, *kinds):
        """The same of a token of an expression, counted where it is one of those that weigh."""
        token = self.take(*kinds)
        if token.kind in WEIGHTY:
            self.weight += 1
            if self.weight > MOST_WEIGHT:
                raise Refused("too-deep", token.line)
        return token

    def name(self):
        token = self.take("name")
        return Name(token.value, token.line)

    # ---- declarations
    def program(self):
        declarations = []
        while self.kind() in ("var", "array", "proc"):
            declarations.append(self.declaration())
        return Program(declarations, self.statements("the end"))

    def declaration(self):
        line = self.line()
        if self.kind() == "var":
            return self.variable()
        if self.kind() == "array":
            self.take("array")
            name = self.name()
            self.take("[")
            length = self.take("number").value
            self.take("]")
            self.take(":")
            declared = Declared(name, self.range(), line, length)
            self.take(";")
            return declared
        self.take("proc")
        name = self.name()
        self.take("(")
        parameters = []
        if self.kind() == "name":
            parameters.append(self.parameter())
            while self.kind() == ",":
                self.take(",")
                parameters.append(self.parameter())
        self.take(")")
        declared_inside = []
        while self.kind() == "var":
            declared_inside.append(self.variable())
        self.take("do")
        body = self.statements("end")
        self.take("end")
        return Procedure(name, parameters, declared_inside, body, line)

    def variable(self):
        line = self.take("var").line
        name = self.name()
        self.take(":")
        declared = Declared(name, self.range(), line)
        self.take(";")
        return declared

    def parameter(self):
        name = self.name()
        self.take(":")
        return Declared(name, self.range(), name.line)

    def range(self):
        low = self.bound()
        self.take("..")
        return Range(low, self.bound())

    def bound(self):
        if self.kind() == "-":
            self.take("-")
            return -self.take("number").value
        return self.take("number").value

    # ---- statements
    def statements(self, *ends):
        """Statements up to one of these kinds, which isn't taken."""
        found = []
        while self.kind() not in ends:
            if self.kind() not in STATEMENT_WORDS:
                raise Refused("syntax", self.line())
            found.append(self.statement())
        return found

    def statement(self):
        line = self.line()
        token = self.take(*STATEMENT_WORDS)
        if token.kind == "name":
            return self.assignment_or_call(Name(token.value, token.line))
        if token.kind in ("print", "read"):
            parts = {"value": self.outermost()} if token.kind == "print" else {"target": self.target(self.name())}
            self.take(";")
            return Statement(token.kind, line, parts)
        self.open += 1
        if self.open > MOST_OPEN:
            raise Refused("too-deep", token.line)
        statement = Statement(token.kind, line, getattr(self, f"parts_of_{token.kind}")())
        self.open -= 1
        return statement

    def assignment_or_call(self, name):
        if self.kind() == "(":
            return self.call(name)
        if self.kind() not in ("[", ":="):
            raise Refused("syntax", self.line())
        target = self.target(name)
        self.take(":=")
        value = self.outermost()
        self.take(";")
        return Statement("assign", name.line, {"target": target, "value": value})

    def call(self, name):
        self.take("(")
        arguments = []
        if self.kind() != ")":
            arguments.append(self.outermost())
            while self.kind() == ",":
                self.take(",")
                arguments.append(self.outermost())
        self.take(")")
        self.take(";")
        return Statement("call", name.line, {"name": name, "arguments": arguments})

    def target(self, name):
        if self.kind() != "[":
            return Variable(name)
        self.take("[")
        index = self.outermost()
        self.take("]")
        return Element(name, index)

    def parts_of_if(self):
        condition = self.condition()
        self.take("then")
        first = self.statements("else", "end")
        second = []
        if self.kind() == "else":
            self.take("else")
            second = self.statements("end")
        self.take("end")
        return {"condition": condition, "first": first, "second": second}

    def parts_of_for(self):
        name = self.name()
        self.take(":=")
        low = self.outermost()
        self.take("to")
        high = self.outermost()
        self.take("do")
        body = self.statements("end")
        self.take("end")
        return {"name": name, "low": low, "high": high, "body": body}

    def parts_of_while(self):
        condition = self.condition()
        self.take("limit")
        limit = self.take("number").value
        self.take("do")
        body = self.statements("end")
        self.take("end")
        return {"condition": condition, "limit": limit, "body": body}

    # ---- expressions
    def condition(self):
        left = self.outermost()
        comparison = self.take(*COMPARISONS).kind
        return Condition(left, comparison, self.outermost())

    def outermost(self):
        """An expression that isn't inside another."""
        self.weight = 0
        return self.expression()

    def expression(self):
        return self.chain(("+", "-"), lambda: self.chain(("*", "div", "mod"), self.factor))

    def chain(self, operators, operand):
        """Operands with operators of one level between them, grouped from the left."""
        node = operand()
        while self.kind() in operators:
            token = self.take_weighty(*operators)
            node = Binary(node, token.kind, operand(), token.line)
        return node

    def factor(self):
        token = self.take_weighty("-", "number", "name", "(")
        if token.kind == "-":
            return Neg(self.factor(), token.line)
        if token.kind == "number":
            return Number(token.value, token.line)
        if token.kind == "(":
            inner = self.expression()
            self.take(")")
            return inner
        name = Name(token.value, token.line)
        if self.kind() != "[":
            return Variable(name)
        self.take_weighty("[")
        index = self.expression()
        self.take("]")
        return Element(name, index)


def program_of(text):
    """The tree of a source; raises Refused by its first fault of tokens, or else of grammar."""
    return Reader(text).program()
