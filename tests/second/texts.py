"""Random sound objects with the extremes of their fields, texts that spell them, and texts with faults."""
import re

from second.objects import BOUND, FIELDS, KIND, MOST, NAMES, OPERANDS, REGISTERS, SETS, Object
from second.programs import an_instr, constant

NAME_BYTES = "abcxyzABZ019_"
GAPS = [" ", " ", " ", "  ", "\t", " \t "]
EDGES = ["", "", "", "", " ", "\t", "  \t"]
COMMENTS = ["", "", "", "", "#", "# a comment", "#a: HALT", "## # data 1", "#\r x", "# \u00e9\u4e16", "#\x00\x0b"]
NUMBERS = [
    0, 1, 15, 16, 255, 256, 999, 1000, MOST, 2**31, 2**32 - 1, 2**32, 2**64, 2**127 - 1, 2**127, 2**128, 10**39, 10**60,
    *BOUND.values(), *(bound + 1 for bound in BOUND.values())]
BYTES = b" \t\r\n\n#::-_0019rasxHALTJMPdet\x00\x0b\x0c\x7f\x80\xff+,.;/@[`{"
NEW_WORDS = [
    b"HALT", b"halt", b"NOP", b"data", b"set", b"pocket", b"a", b"a:", b"r1", b"r16", b"r256", b"r0001", b"R1", b"r",
    b"r-1", b"-", b"-0", b"--1", b"+1", b"00", b"0x1", b"1a", b":", b"1:", b"_a:", b"a_:", b"a::", b"a:b:", b"data:",
    b"set:", b"HALT:", b"\xc3\xa9:"]
NEW_LINES = [
    b"", b" \t ", b"\r", b"set pocket", b"set desk", b"set", b"data 0", b"data", b"a: data 0", b"a:", b"b: HALT",
    b"HALT", b"a: a:", b"JMP b", b"CALL a 9", b"# set hall"]


# ---- objects
def an_object(chance):
    set_ = chance.choice(SETS)
    words = [constant(chance, BOUND[set_]) for _ in range(chance.choice([0, 0, 1, 2, 5, 12]))]
    length = chance.choice([0, 1, 2, 5, 12, 30, 60])
    code = []
    while len(code) < length:
        name = chance.choice(NAMES)
        if words or "address" not in KIND[name].values():
            it = an_instr(chance, name, len(code), length, set_, len(words))
            registers = sorted(FIELDS[name] & {"a", "b", "c"})
            code.append(it._replace(**{field: chance.randrange(REGISTERS) for field in registers}))
    return Object(set_, code, words)


# ---- texts of an object
def a_name(chance):
    length = chance.choice([0, 0, 1, 2, 9])
    return chance.choice("abcxyzABZ") + "".join(chance.choice(NAME_BYTES) for _ in range(length))


def labels_of(chance, length):
    """For some places, the next instruction of which may be none, the names that they have."""
    labels = {}
    for _ in range(chance.choice([0, 1, 3, length // 2])):
        name = a_name(chance)
        if all(name not in names for names in labels.values()):
            labels.setdefault(chance.randint(0, length), []).append(name)
    return labels


def zeros(chance):
    return "0" * chance.choice([0, 0, 0, 0, 1, 3, 50])


def written_number(chance, number):
    if number == 0 and chance.random() < 0.2:
        return "-" + zeros(chance) + "0"
    return ("-" if number < 0 else "") + zeros(chance) + str(abs(number))


def written_field(chance, it, operand, labels):
    field, _, kind = operand.partition(" ")
    number = getattr(it, field)
    if field in ("a", "b", "c"):
        digits = str(number)
        return "r" + digits.rjust(chance.randint(len(digits), 3), "0")
    if kind == "constant":
        return written_number(chance, number)
    if kind == "target" and number in labels and chance.random() < 0.8:
        return chance.choice(labels[number])
    return zeros(chance) + str(number)


def written_words(chance, words):
    line = chance.choice(EDGES) + words[0]
    for word in words[1:]:
        line += chance.choice(GAPS) + word
    return line + chance.choice(EDGES) + chance.choice(COMMENTS)


def words_of_code(chance, program, labels):
    """A list of words for each line of the instructions and labels."""
    for place in range(len(program.code) + 1):
        names = [f"{name}:" for name in labels.get(place, [])]
        alone = names if place == len(program.code) or chance.random() < 0.5 else names[:-1]
        yield from ([name] for name in alone)
        if place < len(program.code):
            it = program.code[place]
            fields = [written_field(chance, it, operand, labels) for operand in OPERANDS[it.name]]
            yield [*names[len(alone) :], it.name, *fields]


def passed_over(chance):
    return chance.choice(EDGES) + chance.choice(COMMENTS)


def a_text(chance, program):
    """A text that spells the object."""
    labels = labels_of(chance, len(program.code))
    lines = [*words_of_code(chance, program, labels)]
    at = 0
    for word in program.words:
        # In their order, but anywhere among the instructions, most often before them.
        at = chance.randint(at, len(lines)) if chance.random() < 0.1 else at
        lines.insert(at, ["data", written_number(chance, word)])
        at += 1
    text = [written_words(chance, words) for words in [["set", program.set], *lines]]
    for _ in range(chance.choice([0, 0, 1, 4])):
        text.insert(chance.randint(0, len(text)), passed_over(chance))
    ends = chance.choice([["\n"], ["\n"], ["\r\n"], ["\n", "\r\n"]])
    whole = "".join(line + chance.choice(ends) for line in text).encode()
    return whole.removesuffix(b"\n").removesuffix(b"\r") if chance.random() < 0.2 else whole


# ---- texts with faults
def a_place(chance, text, pattern):
    """A part of the text that the pattern finds; an empty one where there is none."""
    found = [it.span() for it in re.finditer(pattern, text)]
    return chance.choice(found) if found else (len(text), len(text))


def replaced(text, span, other):
    return text[: span[0]] + other + text[span[1] :]


def other_byte(chance, text):
    place = chance.randint(0, len(text))
    return replaced(text, (place, place + chance.randint(0, 1)), bytes([chance.choice(BYTES)]))


def no_byte(chance, text):
    place = chance.randint(0, len(text))
    return replaced(text, (place, place + 1), b"")


def other_lines(chance, text):
    """A line dropped, doubled, put in or exchanged with another one."""
    lines = text.split(b"\n")
    place, other = chance.randrange(len(lines)), chance.randrange(len(lines))
    match chance.randrange(4):
        case 0:
            del lines[place]
        case 1:
            lines.insert(other, lines[place])
        case 2:
            lines.insert(place, chance.choice(NEW_LINES))
        case 3:
            lines[place], lines[other] = lines[other], lines[place]
    return b"\n".join(lines)


def other_word(chance, text):
    """A word cut, doubled, replaced or left out."""
    begin, end = a_place(chance, text, rb"[^ \t\r\n#]+")
    word = text[begin:end]
    others = [word[: len(word) // 2], word[1:], word + b" " + word, word.swapcase(), b"", chance.choice(NEW_WORDS)]
    return replaced(text, (begin, end), chance.choice(others))


def other_number(chance, text):
    number = chance.choice([b"", b"", b"-", b"00", b"0" * 4_400]) + str(chance.choice(NUMBERS)).encode()
    return replaced(text, a_place(chance, text, rb"[0-9]+"), number)


def other_name(chance, text):
    """A target or a label with another name, most often that of a label."""
    names = re.findall(rb"\w+(?=:)", text) * 9 + re.findall(rb"[A-Za-z]\w*", text) + [b"away"]
    pattern = chance.choice([rb"(?<=JMP )\S+", rb"(?<=CALL )\S+", rb"(?m)(?<=r\d )[0-9A-Za-z]\w*$", rb"\w+(?=:)"])
    return replaced(text, a_place(chance, text, pattern), chance.choice(names))


def other_returns(chance, text):
    """A CR moved to another place, or put before an LF, or at the end."""
    match chance.randrange(3):
        case 0:
            text = replaced(text, a_place(chance, text, rb"\r"), b"")
            place = chance.randint(0, len(text))
            return replaced(text, (place, place), b"\r")
        case 1:
            return replaced(text, a_place(chance, text, rb"\n"), chance.choice([b"\r\n", b"\r\r\n", b"\n\r"]))
    return text.removesuffix(b"\n") + b"\r"


def other_end(chance, text):
    return text[: chance.randint(0, len(text))]


CHANGES = [
    other_byte, other_byte, no_byte, other_lines, other_lines, other_word, other_word, other_number, other_number,
    other_name, other_name, other_name, other_returns, other_end]


def a_faulty_text(chance, program):
    """A text of the object with a few changes, most often one."""
    text = a_text(chance, program)
    for _ in range(chance.choice([1, 1, 1, 1, 2, 3])):
        text = chance.choice(CHANGES)(chance, text)
    return text
