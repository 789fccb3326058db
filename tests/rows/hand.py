"""Objects whose answers are worked out by hand."""
from rows.row import by_hand, refused
from second.objects import header, written

HALL = 18754376393575156082078
DESK = 451727098179


def rows():
    h = by_hand
    yield h("no instruction at all", "pocket", "", "end", 0)
    yield h("no instruction, and one step, which is the last", "pocket", "", "end", 0, steps=1)
    yield h("HALT is the one step", "pocket", "HALT", "end", 0, steps=1)
    yield h("what is behind HALT isn't performed", "pocket", "HALT; OUT 0", "end", 0)
    yield h("registers hold 0", "pocket", "OUT 0; OUT 15", "0 / 0 / end", 0)
    yield h("the end is a step of its own", "pocket", "OUT 0", "0 / spent", 10, steps=1)
    yield h("the end as the last step of the limit", "pocket", "OUT 0", "0 / end", 0, steps=2)
    yield h("both ends of the range", "pocket", "LDI 0 97; OUT 0; LDI 15 -97; OUT 15", "97 / -97 / end", 0)
    yield h("both ends of the range", "desk", f"LDI 0 {DESK}; OUT 0; LDI 0 -{DESK}; OUT 0", f"{DESK} / -{DESK} / end", 0)
    yield h("both ends of the range", "hall", f"LDI 0 {HALL}; OUT 0; LDI 0 -{HALL}; OUT 0", f"{HALL} / -{HALL} / end", 0)
    yield h("one past the range", "pocket", "LDI 0 98", "refused object unsound constant 0", 11)
    yield h("one past the range", "desk", "HALT; LDI 0 -451727098180", "refused object unsound constant 1", 11)
    yield h("one past the range", "hall", "LDI 0 18754376393575156082079", "refused object unsound constant 0", 11)
    yield h("a jump to the end halts", "pocket", "JMP 1", "end", 0)
    yield h("a jump past the end", "pocket", "JMP 2", "refused object unsound target 0", 11)
    yield h("a jump to itself", "pocket", "JMP 0", "spent", 10, steps=1000)
    yield h("a jump over a print", "pocket", "JMP 2; OUT 0; LDI 1 3; OUT 1", "3 / end", 0)
    yield h("a loop that counts down", "pocket", "LDI 0 3; LDI 1 1; OUT 0; SUB 0 0 1; BLT 2 0 2", "3 / 2 / 1 / end", 0)
    yield h("the steps of that loop, all", "pocket", "LDI 0 3; LDI 1 1; OUT 0; SUB 0 0 1; BLT 2 0 2", "3 / 2 / 1 / end",
            0, steps=12)
    yield h("the steps of that loop but one", "pocket", "LDI 0 3; LDI 1 1; OUT 0; SUB 0 0 1; BLT 2 0 2",
            "3 / 2 / 1 / spent", 10, steps=11)
    yield h("an address of no word", "pocket", "LD 0 0", "refused object unsound address 0", 11)
    yield h("words are read", "pocket", "LD 0 0; OUT 0; LD 1 2; OUT 1", "97 / -3 / end", 0, words=(97, 0, -3))
    yield h("words are written", "pocket", "LDI 0 7; ST 0 1; LD 1 1; OUT 1; LD 1 0; OUT 1", "7 / 1 / end", 0, words=(1, 2))
    yield h("a word past the range", "pocket", "HALT", "refused object unsound datum 1", 11, words=(97, -98, 98))
    yield h("the last of an array", "pocket", "LDI 0 3; LDX 1 0 1 4 7; OUT 1", "15 / end", 0, words=(11, 12, 13, 14, 15))
    yield h("one past an array", "pocket", "LDI 0 4; LDX 1 0 1 4 7; OUT 1", "trap index 7", 8, words=(11, 12, 13, 14, 15))
    yield h("one before an array", "pocket", "LDI 0 -1; LDX 1 0 1 4 7; OUT 1", "trap index 7", 8, words=(11, 12, 13, 14, 15))
    yield h("the first of an array is written", "pocket", "LDI 1 9; STX 1 0 1 2 7; LD 2 1; OUT 2; LD 2 0; OUT 2",
            "9 / 5 / end", 0,
            words=(5, 6, 7))
    yield h("one past an array is written", "pocket", "LDI 0 2; STX 1 0 1 2 7", "trap index 7", 8, words=(5, 6, 7))
    yield h("7 by -2", "pocket", "LDI 0 7; LDI 1 -2; DIV 2 0 1 3; OUT 2; MOD 2 0 1 3; OUT 2", "-4 / -1 / end", 0)
    yield h("-7 by 2", "pocket", "LDI 0 -7; LDI 1 2; DIV 2 0 1 3; OUT 2; MOD 2 0 1 3; OUT 2", "-4 / 1 / end", 0)
    yield h("-7 by -2", "pocket", "LDI 0 -7; LDI 1 -2; DIV 2 0 1 3; OUT 2; MOD 2 0 1 3; OUT 2", "3 / -1 / end", 0)
    yield h("7 by 2", "pocket", "LDI 0 7; LDI 1 2; DIV 2 0 1 3; OUT 2; MOD 2 0 1 3; OUT 2", "3 / 1 / end", 0)
    yield h("-6 by 3, with nothing left", "pocket", "LDI 0 -6; LDI 1 3; DIV 2 0 1 3; OUT 2; MOD 2 0 1 3; OUT 2",
            "-2 / 0 / end", 0)
    yield h("6 by -3, with nothing left", "pocket", "LDI 0 6; LDI 1 -3; DIV 2 0 1 3; OUT 2; MOD 2 0 1 3; OUT 2",
            "-2 / 0 / end", 0)
    yield h("the least by -1", "desk", f"LDI 0 -{DESK}; LDI 1 -1; DIV 2 0 1 3; OUT 2", f"{DESK} / end", 0)
    yield h("the least by -1", "hall", f"LDI 0 -{HALL}; LDI 1 -1; DIV 2 0 1 3; OUT 2", f"{HALL} / end", 0)
    yield h("the least by the greatest", "hall", f"LDI 0 -{HALL}; LDI 1 {HALL}; DIV 2 0 1 3; OUT 2; MOD 2 0 1 3; OUT 2",
            "-1 / 0 / end", 0)
    yield h("-1 by the greatest", "hall", f"LDI 0 -1; LDI 1 {HALL}; DIV 2 0 1 3; OUT 2; MOD 2 0 1 3; OUT 2",
            "-1 / 18754376393575156082077 / end", 0)
    yield h("by zero", "pocket", "OUT 0; DIV 0 0 1 3", "0 / trap zero 3", 8)
    yield h("what is left by zero", "pocket", "MOD 0 0 0 4", "trap zero 4", 8)
    yield h("97 and -97 scaled by 13", "pocket", "LDI 0 97; SCL 1 0 0; OUT 1; LDI 0 -97; SCL 1 0 0; OUT 1",
            "7 / -8 / end", 0)
    yield h("97 and -97 scaled by 15", "pocket", "LDI 0 97; SCL 1 0 1; OUT 1; LDI 0 -97; SCL 1 0 1; OUT 1",
            "6 / -7 / end", 0)
    yield h("-1, 0 and 12 scaled by 13", "pocket",
            "LDI 0 -1; SCL 1 0 0; OUT 1; SCL 1 2 0; OUT 1; LDI 0 12; SCL 0 0 0; OUT 0",
            "-1 / 0 / 0 / end", 0)
    yield h("scaled by a redundant modulus", "pocket", "SCL 0 0 2", "refused object unsound constant 0", 11)
    yield h("a product past the range whose sum is in it", "pocket", "LDI 0 -97; LDI 1 12; LDI 2 16; MAC 0 1 2; OUT 0",
            "95 / end", 0)
    yield h("a sum at the end of the range", "pocket", "LDI 0 96; LDI 1 1; ADD 0 0 1; OUT 0; NEG 2 0; OUT 2",
            "97 / -97 / end", 0)
    yield h("a number isn't below itself", "pocket", "BLT 0 0 3; LDI 1 1; BEQ 0 0 4; LDI 1 2; OUT 1", "1 / end", 0)
    yield h("both ends of an interval are in it", "pocket",
            "LDI 0 5; CHK 0 5 9 1; CHK 0 0 5 2; CHK 0 5 5 3; CHK 0 0 4 4", "trap range 4", 8)
    yield h("the input is taken in order", "pocket", "IN 0 -97 97 1; OUT 0; IN 0 -97 97 2; OUT 0; IN 0 -97 97 3",
            "4 / -5 / trap input-end 3", 8,
            given=b"4\n-5\n")
    yield h("a number of the input past its interval", "pocket", "IN 0 0 9 1; OUT 0; IN 0 0 9 2",
            "9 / trap input-range 2", 8, given=b"9 10")
    yield h("no input", "pocket", "IN 0 0 9 4294967295", "trap input-end 4294967295", 8)
    yield h("a call and its return", "pocket", "CALL 3 1; OUT 0; HALT; LDI 0 8; RET 2", "8 / end", 0)
    yield h("a return without a call", "pocket", "RET 9", "trap stack 9", 8)
    yield h("the 65th call", "pocket", "CALL 0 5", "trap stack 5", 8, steps=65)
    yield h("the 64th call", "pocket", "CALL 0 5", "spent", 10, steps=64)
    yield h("a call as the last instruction returns to the end", "pocket", "JMP 2; RET 4; CALL 1 5", "end", 0)
    for kind, word in enumerate(["zero", "range", "index", "input-end", "input-range", "turns", "stack"]):
        yield h(f"a trap of kind {kind}", "pocket", f"TRP {kind} 0", f"trap {word} 0", 8)
    yield h("no kind", "pocket", "TRP 7 0", "refused object unsound constant 0", 11)
    yield h("an object is refused before its input", "pocket", "OUT 16", "refused object unsound register 0", 11, given=b"x")
    yield h("an input is refused before the run", "pocket", "OUT 0", "refused input 3", 6, given=b"1\n -")
    yield refused("an empty file", b"", "short 0")
    yield refused("fifteen bytes", header("pocket", 1, 0)[:15], "short 15")
    yield refused("another magic", b"RNMo" + header("pocket", 0, 0)[4:], "magic")
    yield refused("another version", b"RNMO" + bytes([2, 1]) + bytes(10), "version 2")
    yield refused("no set", b"RNMO" + bytes([1, 4]) + bytes(10), "set 4")
    yield refused("byte 6", b"RNMO" + bytes([1, 1, 1, 1]) + bytes(8), "record 6")
    yield refused("byte 7", b"RNMO" + bytes([1, 1, 0, 1]) + bytes(8), "record 7")
    yield refused("one byte more", written("pocket", "HALT") + b"\0", "long 1")
    yield refused("one byte less", written("pocket", "HALT")[:-1], "short 55")
    yield refused("no instruction of that number", header("pocket", 1, 0) + bytes([24]) + bytes(39), "record 16")
    # HALT has no field; LDX has no c, which is byte 19, its p begins at 24 and its q at 40; TRP has no q, whose last byte is 55
    yield refused("a register of HALT", header("pocket", 1, 0) + bytes([0, 1]) + bytes(38), "record 17")
    yield refused("the last byte of HALT", header("pocket", 1, 0) + bytes(39) + b"\1", "record 55")
    big = (2**32).to_bytes(16, "big")
    yield refused("c of LDX, before p and q", header("pocket",
                  1, 0) + bytes([4, 0, 0, 1]) + bytes(4) + big + big, "record 19")
    yield refused("p of LDX, before q", header("pocket", 1, 0) + bytes([4, 0, 0, 0]) + bytes(4) + big + big, "record 24")
    yield refused("q of LDX", header("pocket", 1, 0) + bytes([4, 0, 0, 0]) + bytes(20) + big, "record 40")
    yield refused("p of TRP, before its last byte", header("pocket",
                  1, 0) + bytes([23]) + bytes(7) + big + bytes(15) + b"\1", "record 24")
    yield refused("the last byte of TRP", header("pocket", 1, 0) + bytes([23]) + bytes(38) + b"\1", "record 55")
    yield refused("p of SCL is below 0", written("pocket", "SCL 0 0 -1"), "record 24")
    yield refused("the first record at fault, before a rule that an earlier one breaks", written("pocket",
                  "OUT 16; JMP -1"), "record 64")
    yield refused("a length of 0", written("pocket", "LDX 0 0 0 0 1", (1,)), "unsound address 0")
    yield refused("an address and a length whose sum is past 32 bits", written("pocket", f"STX 0 0 1 {2**32 - 1} 1",
                  (1, 2)), "unsound address 0")
    yield refused("an empty interval", written("pocket", "CHK 0 1 1 1; CHK 0 1 0 1"), "unsound constant 1")
    yield refused("a register, before a target", written("pocket", "BLT 16 0 2"), "unsound register 0")
    yield refused("an instruction, before a later one", written("pocket", "TRP 7 0; OUT 16"), "unsound constant 0")
    yield refused("65,537 instructions", header("hall", 65_537, 65_537), "unsound code 0")
    yield refused("65,537 words", header("hall", 65_536, 65_537), "unsound data 0")
