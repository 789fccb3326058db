"""Divisions with all signs, on each set, at both ends of the range."""
from rows.row import program
from second.objects import BOUND, SETS


def ends(bound):
    return [bound, bound - 1, bound // 2 + 1, bound // 2, 2, 1]


def both(numbers):
    return [sign * number for number in numbers for sign in (1, -1)]


def rows():
    for name in SETS:
        bound = BOUND[name]
        for dividend in [0, *both(ends(bound))]:
            code = f"LDI 0 {dividend};"
            for divisor in both([*ends(bound), 3, 7]):
                code += f"LDI 1 {divisor}; DIV 2 0 1 4; OUT 2; MOD 3 0 1 4; OUT 3;"
            yield program(f"{dividend} by the ends of the range", name, code)
        for word in ("DIV", "MOD"):
            yield program(f"{word} by itself", name, f"LDI 0 {-bound}; {word} 0 0 0 1; OUT 0")
            yield program(f"{word} into the dividend", name, f"LDI 0 {-bound}; LDI 1 7; {word} 0 0 1 1; OUT 0; OUT 1")
            yield program(f"{word} into the divisor", name, f"LDI 0 {bound}; LDI 1 -7; {word} 1 0 1 1; OUT 0; OUT 1")
            for dividend in (bound, 0, -bound):
                yield program(f"{word} of {dividend} by zero", name, f"LDI 0 {dividend}; OUT 0; {word} 1 0 2 {2**32 - 1}; OUT 1")
    for dividend in (-97, -96, -15, -14, -1, 0, 1, 14, 15, 96, 97):
        code = f"LDI 0 {dividend};"
        for divisor in [*range(-20, 0), *range(1, 21)]:
            code += f"LDI 1 {divisor}; DIV 2 0 1 4; OUT 2; MOD 3 0 1 4; OUT 3;"
        yield program(f"{dividend} by all from -20 to 20", "pocket", code)
