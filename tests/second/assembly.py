"""Assembly text: an assembler with all refusals, and the listing of objects. Bytes go in; the bytes of an object, the
bytes of a listing, or the line of a refusal come out."""
import re

from second.objects import MOST, OPERANDS, SETS, Instr, Refused, check, read, written

REFUSED = 11
MOST_REGISTER = 255
MOST_NUMBER = 2**32 - 1
LEAST_CONSTANT, MOST_CONSTANT = -(2**127), 2**127 - 1
NAME = re.compile(rb"[A-Za-z][A-Za-z0-9_]*")
LABEL = re.compile(NAME.pattern + b":")
REGISTER = re.compile(rb"r[0-9]{1,3}")
DIGITS = re.compile(rb"[0-9]+")
CONSTANT = re.compile(rb"-?[0-9]+")
# More digits than any number here; Python reads no more than some thousands of them.
MANY = 50


class BadText(Exception):
    """A text that is no program: the words behind `refused assembly`."""


class BadForm(Exception):
    """Words that are no line."""


# ---- lines and words
def lines_of(text):
    """The words of each line. A CR right before the LF that ends a line is none of it."""
    *ended, last = text.split(b"\n")
    for line in [line.removesuffix(b"\r") for line in ended] + [last]:
        yield re.findall(rb"[^ \t]+", line.partition(b"#")[0])


def value(digits):
    """The value of digits, with a minus or without; where they are too many, one past all numbers."""
    sign = -1 if digits.startswith(b"-") else 1
    short = digits.lstrip(b"-").lstrip(b"0") or b"0"
    return sign * (int(short) if len(short) < MANY else 10**MANY)


def number(word, form, least, most):
    if form.fullmatch(word) is None:
        raise BadForm
    found = value(word.lstrip(b"r"))
    if not least <= found <= most:
        raise BadForm
    return found


def field_of(word, field, kind):
    """What a word writes for a field of an instruction; a target may be a name, which stays as it is."""
    if field in ("a", "b", "c"):
        return number(word, REGISTER, 0, MOST_REGISTER)
    if kind == "constant":
        return number(word, CONSTANT, LEAST_CONSTANT, MOST_CONSTANT)
    if kind == "target" and NAME.fullmatch(word):
        return word
    return number(word, DIGITS, 0, MOST_NUMBER)


def instr_of(words):
    """The instruction of words, its target perhaps a name."""
    operands = OPERANDS.get(words[0].decode("latin-1"))
    if operands is None or len(words) != len(operands) + 1:
        raise BadForm
    values = {}
    for word, operand in zip(words[1:], operands):
        field, _, kind = operand.partition(" ")
        values[field] = field_of(word, field, kind)
    return Instr(words[0].decode(), **values)


# ---- programs
class Assembly:
    """What the lines of a text say, and the line of each instruction, data word and label."""

    def __init__(self, text):
        self.set = None
        self.code, self.code_lines = [], []
        self.words, self.data_lines = [], []
        self.places = {}
        for line, words in enumerate(lines_of(text), 1):
            try:
                self.take(line, words)
            except BadForm:
                raise BadText(f"line {line}") from None
        if self.set is None:
            raise BadText("line 1")

    def take(self, line, words):
        if not words:
            return
        if self.set is None:
            if len(words) != 2 or words[0] != b"set" or words[1].decode("latin-1") not in SETS:
                raise BadForm
            self.set = words[1].decode()
        elif words[0] == b"data":
            if len(words) != 2:
                raise BadForm
            self.words.append(field_of(words[1], "p", "constant"))
            self.data_lines.append(line)
        else:
            self.take_instr(line, words)

    def take_instr(self, line, words):
        """A label, an instruction, or both; the whole line has its form before its label is looked at."""
        label = words[0] if LABEL.fullmatch(words[0]) else None
        rest = words if label is None else words[1:]
        it = instr_of(rest) if rest else None
        if label is not None:
            name = label[:-1]
            if name in self.places:
                raise BadText(f"twice-named {line}")
            self.places[name] = len(self.code)
        if it is not None:
            self.code.append(it)
            self.code_lines.append(line)

    def tied(self):
        """The instructions with a number for each target."""
        found = []
        for it, line in zip(self.code, self.code_lines):
            if isinstance(it.p, bytes):
                if it.p not in self.places:
                    raise BadText(f"unknown-name {line}")
                it = it._replace(p=self.places[it.p])
            found.append(it)
        return found

    def line_of(self, rule, place):
        """The line of a fault by the rules of objects."""
        if rule in ("code", "data"):
            place = MOST
        return (self.data_lines if rule in ("data", "datum") else self.code_lines)[place]


def assembled(text):
    """The bytes of the object that a text spells; raises BadText where it spells none."""
    assembly = Assembly(text)
    code = assembly.tied()
    try:
        check(assembly.set, code, assembly.words)
    except Refused as refused:
        _, rule, place = refused.args[0].split()
        raise BadText(f"unsound {rule} {assembly.line_of(rule, int(place))}") from None
    return written(assembly.set, code, assembly.words)


def line_of_instr(it):
    words = [it.name]
    for operand in OPERANDS[it.name]:
        field = operand.split()[0]
        words.append(("r" if field in ("a", "b", "c") else "") + str(getattr(it, field)))
    return " ".join(words)


def listing(program):
    """The listing of an object."""
    lines = [f"set {program.set}", *(f"data {word}" for word in program.words), *map(line_of_instr, program.code)]
    return "".join(f"{line}\n" for line in lines).encode()


# ---- answers
def asm_answer(text):
    """What `asm` writes of a text, and its status."""
    try:
        return assembled(text), 0
    except BadText as refused:
        return f"refused assembly {refused.args[0]}\n".encode(), REFUSED


def list_answer(content):
    """What `list` writes of an object, and its status."""
    try:
        return listing(read(content)), 0
    except Refused as refused:
        return f"refused object {refused.args[0]}\n".encode(), REFUSED
