"""Objects as bytes: a writer, a reader with all refusals, and instructions as text for the tests."""
from typing import NamedTuple

MAGIC = b"RNMO"
HEADER = 16
RECORD = 40
WORD = 16
MOST = 65_536
REGISTERS = 16
WIDE = 2**32  # what is no constant is below it
KINDS = 7

INFORMATION = {
    "pocket": (13, 15),
    "desk": (239, 241, 247, 251, 253),
    "hall": (32707, 32713, 32717, 32719, 32749),
}
REDUNDANT = {"pocket": (16, 17, 19), "desk": (255, 256, 257), "hall": (32767, 32768, 32769)}
SETS = list(INFORMATION)
NUMBER_OF_SET = {name: number for number, name in enumerate(SETS, 1)}
CHANNELS = {name: len(INFORMATION[name]) + len(REDUNDANT[name]) for name in SETS}


def product(numbers):
    of_all = 1
    for number in numbers:
        of_all *= number
    return of_all


BOUND = {name: (product(INFORMATION[name]) - 1) // 2 for name in SETS}

# An instruction's operands in the order of its text: registers a, b, c, the line L, and p and q by their kind.
OPERANDS = {
    "HALT": [],
    "LDI": ["a", "p constant"],
    "LD": ["a", "p address"],
    "ST": ["a", "p address"],
    "LDX": ["a", "b", "p address", "q length", "L"],
    "STX": ["a", "b", "p address", "q length", "L"],
    "MOV": ["a", "b"],
    "ADD": ["a", "b", "c"],
    "SUB": ["a", "b", "c"],
    "MUL": ["a", "b", "c"],
    "NEG": ["a", "b"],
    "MAC": ["a", "b", "c"],
    "DIV": ["a", "b", "c", "L"],
    "MOD": ["a", "b", "c", "L"],
    "SCL": ["a", "b", "p channel"],
    "JMP": ["p target"],
    "BLT": ["a", "b", "p target"],
    "BEQ": ["a", "b", "p target"],
    "CHK": ["a", "p constant", "q constant", "L"],
    "IN": ["a", "p constant", "q constant", "L"],
    "OUT": ["a"],
    "CALL": ["p target", "L"],
    "RET": ["L"],
    "TRP": ["p kind", "L"],
}
NAMES = list(OPERANDS)
FIELDS = {name: {operand.split()[0] for operand in operands} for name, operands in OPERANDS.items()}
KIND = {name: dict(operand.split() for operand in operands if " " in operand) for name, operands in OPERANDS.items()}
# Where a field begins in a record, and its length.
PLACE = {"a": (1, 1), "b": (2, 1), "c": (3, 1), "L": (4, 4), "p": (8, 16), "q": (24, 16)}


class Instr(NamedTuple):
    name: str
    a: int = 0
    b: int = 0
    c: int = 0
    L: int = 0
    p: int = 0
    q: int = 0


class Object(NamedTuple):
    set: str
    code: list
    words: list


def instr(text):
    """The instruction of a text, `LDI 0 -97`."""
    name, *given = text.split()
    fields = [operand.split()[0] for operand in OPERANDS[name]]
    if len(fields) != len(given):
        raise ValueError(f"{text!r}: {name} has {len(fields)} operands")
    return Instr(name, **dict(zip(fields, map(int, given))))


def code(text):
    """The instructions of a text, parted by semicolons or ends of lines."""
    return [instr(part) for part in text.replace("\n", ";").split(";") if part.strip()]


def text_of(it):
    return " ".join([it.name, *(str(getattr(it, operand.split()[0])) for operand in OPERANDS[it.name])])


def record(it):
    """The 40 bytes of an instruction."""
    return (
        bytes([NAMES.index(it.name), it.a, it.b, it.c]) + it.L.to_bytes(4, "big")
        + it.p.to_bytes(16, "big", signed=True) + it.q.to_bytes(16, "big", signed=True))


def header(name, instructions, words):
    return MAGIC + bytes([1, NUMBER_OF_SET[name], 0, 0]) + instructions.to_bytes(4, "big") + words.to_bytes(4, "big")


def written(name, instructions, words=()):
    """The bytes of a program: of a set's name, instructions or their text, and data words."""
    if isinstance(instructions, str):
        instructions = code(instructions)
    return (
        header(name, len(instructions), len(words)) + b"".join(map(record, instructions))
        + b"".join(word.to_bytes(WORD, "big", signed=True) for word in words))


class Refused(Exception):
    """Bytes that are no object: the words behind `refused object`."""


def constants(it):
    return [getattr(it, field) for field, kind in KIND[it.name].items() if kind == "constant"]


def fault_of(it, name, instructions, words):
    """The first fault of an instruction, in the order of the table, or None."""
    kinds = KIND[it.name]
    if any(getattr(it, field) >= REGISTERS for field in FIELDS[it.name] & {"a", "b", "c"}):
        return "register"
    if "target" in kinds.values() and it.p > instructions:
        return "target"
    if "address" in kinds.values():
        length = it.q if "length" in kinds.values() else 1
        if length == 0 or it.p >= words or it.p + length > words:
            return "address"
    bound = BOUND[name]
    if any(not -bound <= it <= bound for it in constants(it)):
        return "constant"
    if it.name in ("CHK", "IN") and it.p > it.q:
        return "constant"
    if it.name == "SCL" and it.p >= len(INFORMATION[name]):
        return "constant"
    if it.name == "TRP" and it.p >= KINDS:
        return "constant"
    return None


def check(name, instructions, words):
    """Raises Refused where a program breaks a rule of objects."""
    if len(instructions) > MOST:
        raise Refused("unsound code 0")
    if len(words) > MOST:
        raise Refused("unsound data 0")
    for number, it in enumerate(instructions):
        fault = fault_of(it, name, len(instructions), len(words))
        if fault is not None:
            raise Refused(f"unsound {fault} {number}")
    for number, word in enumerate(words):
        if abs(word) > BOUND[name]:
            raise Refused(f"unsound datum {number}")


def fields_of(given):
    """The instruction of 40 bytes; raises Refused with the place of a bad byte in it."""
    if given[0] >= len(NAMES):
        raise Refused(0)
    name = NAMES[given[0]]
    values, bad = {}, []
    for field, (begin, length) in PLACE.items():
        part = given[begin : begin + length]
        if field not in FIELDS[name]:
            bad += [begin + place for place, byte in enumerate(part) if byte]
            continue
        values[field] = int.from_bytes(part, "big", signed=field in "pq")
        if field in "pq" and KIND[name][field] != "constant" and not 0 <= values[field] < WIDE:
            bad.append(begin)
    if bad:
        raise Refused(min(bad))
    return Instr(name, **values)


def read(given):
    """The object of the bytes; raises Refused where there is none."""
    if len(given) < HEADER:
        raise Refused(f"short {len(given)}")
    if given[:4] != MAGIC:
        raise Refused("magic")
    if given[4] != 1:
        raise Refused(f"version {given[4]}")
    if not 1 <= given[5] <= len(SETS):
        raise Refused(f"set {given[5]}")
    for place in (6, 7):
        if given[place]:
            raise Refused(f"record {place}")
    name = SETS[given[5] - 1]
    instructions, words = (int.from_bytes(given[place : place + 4], "big") for place in (8, 12))
    if instructions > MOST:
        raise Refused("unsound code 0")
    if words > MOST:
        raise Refused("unsound data 0")
    end = HEADER + RECORD * instructions
    whole = end + WORD * words
    if len(given) < whole:
        raise Refused(f"short {len(given)}")
    if len(given) > whole:
        raise Refused(f"long {len(given) - whole}")
    program = []
    for begin in range(HEADER, end, RECORD):
        try:
            program.append(fields_of(given[begin : begin + RECORD]))
        except Refused as refused:
            raise Refused(f"record {begin + refused.args[0]}") from None
    data = [int.from_bytes(given[begin : begin + WORD], "big", signed=True) for begin in range(end, whole, WORD)]
    check(name, program, data)
    return Object(name, program, data)
