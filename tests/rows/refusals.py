"""Bytes that are no object, each refusal of the loader in its order, and files that are large, cut or random."""
import random

from rows.row import Row
from second.objects import FIELDS, KIND, NAMES, PLACE, Instr, header, record, written
from rows.ends import WORDS, sound

FILE = 4_194_304
MOST = 65_536
WHOLE = 16 + 40 * MOST + 16 * MOST


def changed(content, place, *to):
    return content[:place] + bytes(to) + content[place + len(to) :]


def header_bytes():
    good = written("pocket", "LDI 0 42; OUT 0", (1,))
    for place in range(8):
        for byte in (0, 1, 2, 3, 4, 127, 128, 255):
            yield Row(f"byte {place} is {byte}", changed(good, place, byte))
    for place in (8, 12):
        for count in (0, 1, 2, 3, MOST, MOST + 1, 2**24, 2**31, 2**32 - 1):
            yield Row(f"the count at {place} is {count}", changed(good, place, *count.to_bytes(4, "big")))
    for code, data in ((MOST, MOST), (MOST + 1, MOST), (MOST, MOST + 1), (2**32 - 1, 2**32 - 1), (0, 2**32 - 1), (2**32 - 1, 0),
                       (107_374_182, 0), (0, 268_435_456)):
        yield Row(f"nothing but a header of {code} instructions and {data} words", header("desk", code, data))


def order():
    """All faults at once, and then one less of the first each time."""
    bad = bytearray(b"NORM" + bytes([7, 9, 1, 1]) + b"\xff" * 8 + bytes([99]) + bytes(20))
    yield Row("every fault, cut", bytes(bad[:15]))
    for place, good in ((0, b"RNMO"), (4, b"\1"), (5, b"\1"), (6, b"\0"), (7, b"\0"), (8, bytes([0, 0, 0, 2])), (12, bytes([0, 0, 0, 1]))):
        yield Row(f"every fault from byte {place} on", bytes(bad))
        bad[place : place + len(good)] = good
    yield Row("the length, before the records", bytes(bad))
    # whole: two bad records, and a bad word
    records = [changed(record(sound("OUT", 16)), 3, 1), changed(record(Instr("LDI", 99, p=98)), 0, 99)]
    end = (98).to_bytes(16, "big")
    yield Row("one byte more, before the records", bytes(bad[:16]) + b"".join(records) + end + b"\0")
    yield Row("the first of two bad records", bytes(bad[:16]) + b"".join(records) + end)
    records[0] = record(sound("OUT", 16))
    yield Row("the second record, before the rules", bytes(bad[:16]) + b"".join(records) + end)
    records[1] = record(Instr("LDI", 99, p=98))
    yield Row("a register, before what comes later", bytes(bad[:16]) + b"".join(records) + end)
    records[0] = record(sound("OUT"))
    yield Row("a register, before its constant", bytes(bad[:16]) + b"".join(records) + end)
    records[1] = record(Instr("LDI", 9, p=98))
    yield Row("a constant, before a word", bytes(bad[:16]) + b"".join(records) + end)
    records[1] = record(Instr("LDI", 9, p=97))
    yield Row("a word", bytes(bad[:16]) + b"".join(records) + end)
    yield Row("no fault", bytes(bad[:16]) + b"".join(records) + (97).to_bytes(16, "big"))
    for it in (Instr("BLT", 16, 0, p=9), Instr("BLT", 0, 16, p=9), Instr("LDX", 16, 0, p=9, q=0), Instr("SCL", 16, 0, p=9),
               Instr("CHK", 16, p=99, q=98), Instr("IN", 16, p=9, q=0), Instr("CHK", 0, p=9, q=8), Instr("BEQ", 0, 0, p=9)):
        yield Row(f"the first fault of {it.name}", written("pocket", [it]))
    for first, second in (("TRP 7 0", "OUT 16"), ("LDI 0 98", "JMP 9"), ("LD 0 0", "OUT 16"), ("JMP 9", "OUT 16")):
        yield Row(f"{first} before {second}", written("pocket", f"{first}; {second}", (98,)))


def numbers():
    for number in range(256):
        yield Row(f"a record of number {number}", header("hall", 1, 0) + bytes([number]) + bytes(39))


def fields():
    """Each field that an instruction hasn't, at its first and last byte; each p and q that is no constant past its ends."""
    for name in NAMES:
        good = written("pocket", [sound(name, 0)], WORDS)
        for field, (begin, length) in PLACE.items():
            places = sorted({begin, begin + length - 1})
            if field not in FIELDS[name]:
                for place in places:
                    yield Row(f"{name}: byte {place} of its record", changed(good, 16 + place, 1))
            elif field in "pq" and KIND[name][field] != "constant":
                for value in (-1, 2**32, 2**64, -(2**127), 2**127 - 1, 2**32 - 1):
                    yield Row(f"{name}: {field} is {value}", changed(good, 16 + begin, *value.to_bytes(16, "big", signed=True)))
    # the lowest place counts, whichever field it is of
    both = record(sound("LDX", 0, p=2**32, q=2**32))
    for shows, one in (("c, and then p and q", changed(both, 3, 1)), ("p and q", both), ("q", record(sound("LDX", 0, q=-1)))):
        yield Row(f"LDX: {shows}", header("pocket", 1, 4) + one + bytes(64))
    kind = record(sound("TRP", p=2**32))
    for shows, one in (("a, and then p", changed(kind, 1, 1)), ("p, and then q", changed(kind, 39, 1)),
                       ("q", changed(record(sound("TRP")), 39, 1))):
        yield Row(f"TRP: {shows}", header("pocket", 1, 0) + one)


def cuts():
    good = written("pocket", "LDI 0 42; OUT 0", (1,))
    for length in range(len(good) + 3):
        yield Row(f"the first {length} bytes", (good + bytes(2))[:length])


def large(seed):
    chance = random.Random(f"{seed} large")
    yield Row("4 MB of zeros", bytes(FILE))
    yield Row("4 MB of one byte", b"\xff" * FILE)
    yield Row("4 MB of random bytes", chance.randbytes(FILE))
    yield Row("as many instructions and words as can be, all zeros", header("hall", MOST, MOST) + bytes(WHOLE - 16))
    yield Row("the same with the room that is left", header("hall", MOST, MOST) + bytes(FILE - 16))
    yield Row("the same cut by one", header("hall", MOST, MOST) + bytes(WHOLE - 17))
    yield Row("records of random bytes", header("desk", MOST, MOST) + chance.randbytes(WHOLE - 16))
    yield Row("words of random bytes", header("desk", MOST, MOST) + bytes(40 * MOST) + chance.randbytes(16 * MOST))
    last = changed(bytes(40 * MOST), 40 * (MOST - 1), 255)
    yield Row("the last record", header("pocket", MOST, 0) + last)
    yield Row("the last word", header("pocket", 0, MOST) + bytes(16 * MOST - 1) + b"\x62")
    yield Row("a whole program of jumps to the next", written("pocket", [Instr("JMP", p=at + 1) for at in range(MOST)]))
    jumps = [Instr("JMP", p=MOST)] * (MOST - 1)
    yield Row("a jump to the last, and a jump past it", written("pocket", [*jumps, Instr("JMP", p=MOST + 1)]))
    words = [number % 195 - 97 for number in range(MOST)]
    code = "LD 0 65535; OUT 0; LD 0 65534; OUT 0; ST 0 0; LD 1 0; OUT 1"
    yield Row("the last of as many words as can be", written("pocket", code, words))
    yield Row("a word past them", written("pocket", "LD 0 65536", words))
    code = f"LDI 0 {MOST - 1}; LDX 1 0 0 {MOST} 3; OUT 1; LDI 2 1; ADD 0 0 2; LDX 1 0 0 {MOST} 4"
    yield Row("an array of all of them", written("desk", code, words))
    yield Row("an array of one more", written("desk", f"LDX 1 0 0 {MOST + 1} 3", words))
    yield Row("an array of all but the first, and one more", written("desk", f"LDX 1 0 1 {MOST} 3", words))
    for length in sorted(chance.sample(range(WHOLE), 5)):
        yield Row(f"the first {length} of {WHOLE} bytes", (header("hall", MOST, MOST) + bytes(WHOLE - 16))[:length])


def random_bytes(seed):
    for number in range(100):
        chance = random.Random(f"{seed} {number}")
        begin = header(chance.choice(["pocket", "desk", "hall"]), chance.randrange(3), chance.randrange(3))
        content = begin[: chance.choice([0, 4, 6, 16, 16, 16])]
        yield Row(f"random bytes, number {number}", content + chance.randbytes(chance.choice([10, 40, 56, 80, 96, 112])))
        good = written("pocket", "LDI 0 42; LDX 1 2 0 2 5; OUT 0; TRP 1 7", (1, 2))
        place = chance.randrange(len(good))
        yield Row(f"one random byte at {place}, number {number}", changed(good, place, chance.randrange(256)))


def rows(seed):
    for part in (header_bytes, order, numbers, fields, cuts):
        yield from part()
    yield from large(seed)
    yield from random_bytes(seed)
