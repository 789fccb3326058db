"""Each instruction at the ends of its fields, on each set."""
from rows.row import program
from second.objects import BOUND, CHANNELS, FIELDS, INFORMATION, KIND, NAMES, SETS, Instr

LINE = 2**32 - 1
MOST = 2**127 - 1
WORDS = (5, 6, 7, 8)


def sound(name, register=15, **fields):
    """An instruction whose fields are lawful where an object has four words."""
    values = {field: register for field in FIELDS[name] & {"a", "b", "c"}}
    if "L" in FIELDS[name]:
        values["L"] = LINE
    for field, kind in KIND[name].items():
        values[field] = 4 if kind == "length" else 0
    return Instr(name, **{**values, **fields})


def registers():
    for name in NAMES:
        yield program(f"{name} at register 15 and the last line", "pocket", [sound(name)], WORDS)
        for field in sorted(FIELDS[name] & {"a", "b", "c"}):
            for register in (16, 255):
                yield program(f"{name} with {field} {register}", "pocket", [sound(name, **{field: register})], WORDS)


def targets():
    for name in ("JMP", "BLT", "BEQ", "CALL"):
        for target in (0, 1, 2, 3, 4, 2**32 - 1):
            yield program(f"{name} to {target} of 3", "pocket", [Instr("OUT"), sound(name, p=target), Instr("OUT", 1)], steps=20)


def addresses():
    for name in ("LD", "ST"):
        for address in (0, 3, 4, 2**32 - 1):
            yield program(f"{name} of word {address} of 4", "pocket", [sound(name, p=address), Instr("OUT", 15)], WORDS)
        yield program(f"{name} without words", "pocket", [sound(name)])
    for name in ("LDX", "STX"):
        for address, length in ((0, 0), (0, 1), (0, 4), (0, 5), (3, 1), (3, 2), (4, 0), (4, 1), (1, 3), (1, 4), (1, 2**32 - 1),
                                (2**32 - 1, 1), (2**32 - 1, 2**32 - 1), (0, 2**32 - 1)):
            yield program(f"{name} of {length} words from {address} of 4", "pocket", [sound(name, p=address, q=length)], WORDS)
        yield program(f"{name} without words", "pocket", [sound(name, q=0)])
        for index in (-97, -1, 0, 1, 2, 3, 97):
            code = f"LDI 1 {index}; LDI 2 44; {name} 2 1 1 2 77; OUT 2; LD 3 0; OUT 3; LD 3 1; OUT 3; LD 3 2; OUT 3; LD 3 3; OUT 3"
            yield program(f"{name} at {index} of 2", "pocket", code, WORDS)


def constants():
    for name in SETS:
        bound = BOUND[name]
        for value in (bound - 1, bound, bound + 1, -bound, -bound - 1, MOST, -MOST - 1):
            yield program(f"LDI of {value}", name, [Instr("LDI", 1, p=value), Instr("OUT", 1)])
            yield program(f"a word {value}", name, "LD 2 1; OUT 2", (0, value))
        for word in ("CHK", "IN"):
            for low, high in ((-bound, bound), (-bound - 1, bound), (-bound, bound + 1), (0, 0), (1, 0), (bound, bound),
                              (bound, -bound), (-bound, -bound), (MOST, MOST), (-MOST - 1, 0)):
                yield program(f"{word} from {low} to {high}", name, [Instr(word, 0, L=9, p=low, q=high), Instr("OUT")],
                              given=b"0" if low else str(high).encode())
        for text in (bound, -bound, bound + 1, -bound - 1, MOST, MOST + 1, -MOST - 1, -MOST - 2, 10**60, -(10**60)):
            yield program(f"IN of {text}", name, f"IN 0 {-bound} {bound} 3; OUT 0", given=str(text).encode())
        for value in (-2, -1, 0, 1, 2):
            yield program(f"CHK of {value} in -1 to 1", name, f"LDI 0 {value}; CHK 0 -1 1 6; OUT 0")


def channels():
    for name in SETS:
        bound = BOUND[name]
        for channel, modulus in enumerate(INFORMATION[name]):
            code = ""
            for value in (bound, -bound, 0, 1, -1, modulus - 1, modulus, modulus + 1, -modulus + 1, -modulus, -modulus - 1):
                code += f"LDI 0 {value}; SCL 1 0 {channel}; OUT 1; SCL 0 0 {channel}; OUT 0;"
            yield program(f"SCL by channel {channel}", name, code)
        for channel in (CHANNELS[name] - 3, CHANNELS[name] - 1, CHANNELS[name], 2**32 - 1):
            yield program(f"SCL by channel {channel}", name, f"SCL 0 0 {channel}")


def kinds():
    for kind in (0, 6, 7, 2**32 - 1):
        for line in (0, 1, LINE):
            yield program(f"TRP of kind {kind} in line {line}", "pocket", f"OUT 3; TRP {kind} {line}")


def arithmetic():
    for name in SETS:
        top = BOUND[name]
        half = top // 2
        code = (f"LDI 0 {top}; LDI 1 -{top}; LDI 2 {half}; ADD 3 0 1; OUT 3; SUB 3 0 0; OUT 3; ADD 3 2 2; OUT 3; NEG 3 0; OUT 3;"
                f"NEG 4 3; OUT 4; NEG 5 15; OUT 5; LDI 6 1; MUL 7 0 6; OUT 7; LDI 6 -1; MUL 7 0 6; OUT 7; MUL 7 1 6; OUT 7;"
                f"MUL 7 0 15; OUT 7; MOV 8 1; OUT 8; MOV 8 8; OUT 8; SUB 9 15 0; OUT 9; ADD 9 9 0; OUT 9")
        yield program("sums, differences and products at the ends", name, code)
        yield program("a register that is read and written", name,
                      "LDI 0 3; ADD 0 0 0; OUT 0; MUL 0 0 0; OUT 0; NEG 0 0; OUT 0; SUB 0 0 0; OUT 0; LDI 1 4; MAC 1 1 1; OUT 1;"
                      "LDI 2 -2; MAC 1 2 1; OUT 1; MAC 2 1 2; OUT 2")
        yield program("a product past the range within a multiply-add", name,
                      f"LDI 0 -{top}; LDI 1 {top}; LDI 2 2; MAC 0 1 2; OUT 0; LDI 2 -2; MAC 0 1 2; OUT 0")
        code = f"LDI 0 {top}; LDI 1 -{top};"
        for word in ("BLT", "BEQ"):
            for left, right in ((0, 1), (1, 0), (0, 0), (1, 1), (0, 15), (1, 15), (15, 0), (15, 15)):
                place = code.count(";")
                code += f"{word} {left} {right} {place + 2}; OUT 1; OUT 2;"
        yield program("comparisons at the ends", name, code)
    for left in (-97, -1, 0, 1, 97):
        for right in (-97, -1, 0, 1, 97):
            yield program(f"comparisons of {left} and {right}", "pocket",
                          f"LDI 0 {left}; LDI 1 {right}; BLT 0 1 4; OUT 0; BEQ 0 1 6; OUT 1; HALT")


def calls():
    # register 0 counts the calls
    deep = "LDI 1 1; LDI 2 {}; CALL 4 50; HALT; ADD 0 0 1; OUT 0; BEQ 0 2 8; CALL 4 51; SUB 3 0 1; OUT 3; RET 52"
    for depth in (1, 2, 63, 64, 65, 66):
        yield program(f"{depth} calls deep", "pocket", deep.format(depth))
    yield program("a return more than calls", "pocket", "CALL 2 1; JMP 3; RET 2; RET 3")
    yield program("calls of one place one after another", "pocket",
                  "LDI 1 1; LDI 2 97; CALL 5 1; BLT 0 2 2; JMP 7; ADD 0 0 1; RET 9; OUT 0", steps=100_000)
    yield program("a call to the end", "pocket", "CALL 1 4")
    yield program("a jump back into a procedure", "pocket", "CALL 2 1; HALT; OUT 0; RET 7")


def limits():
    for name in SETS:
        for steps in (1, 2, 3, 4, 5, 6, 7, 1_000_000_000):
            yield program(f"the limit {steps}", name, "LDI 0 5; OUT 0; JMP 4; OUT 1; NEG 0 0; OUT 0", steps=steps)
            yield program(f"a trap and the limit {steps}", name, "LDI 0 5; OUT 0; DIV 0 0 1 5", steps=steps)
    yield program("the default limit", "pocket", "JMP 0")
    yield program("999,999 steps and the end", "pocket", "LDI 0 1; LDI 1 10; LDI 2 9; BLT 3 1 3", steps=10)


def inputs():
    takes = "IN 0 -97 97 1; OUT 0; JMP 0"
    for text in (b"", b" ", b"\n", b"1", b"1\n", b"\t1\r\n2 3", b"-0", b"007 -007", b"-97 97", b"1 2 x", b"--1", b"-", b"1-", b"+1", b"1.5",
                 b"1\x0b2", b"1\x0c", b"1\x00", b"\xff", b"0x1", b"1" * 300, b"0" * 300 + b"5", b"-" + b"9" * 5000, b"  \r\n-1-", b"1,2"):
        yield program(f"the input {text[:20]!r}", "pocket", takes, given=text)
    yield program("numbers that nothing reads", "pocket", "OUT 0", given=b"1 2 3 " + b"9" * 60)


def rows():
    for part in (registers, targets, addresses, constants, channels, kinds, arithmetic, calls, limits, inputs):
        yield from part()
