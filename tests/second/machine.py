"""The machine over plain integers, and what `exec` writes of an object without faults."""
import re

from second.objects import BOUND, CHANNELS, INFORMATION, Refused, read

KINDS = ["zero", "range", "index", "input-end", "input-range", "turns", "stack"]
MOST_HELD = 64
DEFAULT_STEPS = 1_000_000
STATUS = {"end": 0, "trap": 8, "spent": 10}


class Unfit(Exception):
    """A sum, difference, product or multiply-add is out of range: nothing is said of the run."""


class Trap(Exception):
    pass


class Machine:
    def __init__(self, program, numbers):
        self.set, self.code, words = program
        self.bound = BOUND[self.set]
        self.counter = 0
        self.registers = [0] * 16
        self.words = list(words)
        self.held = []
        self.input = list(numbers)
        self.taken = 0  # numbers of the input
        self.prints = []

    def fit(self, number):
        if abs(number) > self.bound:
            raise Unfit
        return number

    def place(self, it):
        index = self.registers[it.b]
        if not 0 <= index < it.q:
            raise Trap("index", it.L)
        return it.p + index

    def quotient(self, it):
        """The floor of a quotient, and what is left."""
        divisor = self.registers[it.c]
        if divisor == 0:
            raise Trap("zero", it.L)
        return divmod(self.registers[it.b], divisor)

    def step(self):
        """One instruction; whether the run goes on. Raises Trap and Unfit."""
        if self.counter == len(self.code):
            return False
        it = self.code[self.counter]
        r, after = self.registers, self.counter + 1
        match it.name:
            case "HALT":
                return False
            case "LDI":
                r[it.a] = it.p
            case "LD":
                r[it.a] = self.words[it.p]
            case "ST":
                self.words[it.p] = r[it.a]
            case "LDX":
                r[it.a] = self.words[self.place(it)]
            case "STX":
                self.words[self.place(it)] = r[it.a]
            case "MOV":
                r[it.a] = r[it.b]
            case "ADD":
                r[it.a] = self.fit(r[it.b] + r[it.c])
            case "SUB":
                r[it.a] = self.fit(r[it.b] - r[it.c])
            case "MUL":
                r[it.a] = self.fit(r[it.b] * r[it.c])
            case "NEG":
                r[it.a] = -r[it.b]
            case "MAC":
                r[it.a] = self.fit(r[it.b] * r[it.c] + r[it.a])
            case "DIV":
                r[it.a] = self.quotient(it)[0]
            case "MOD":
                r[it.a] = self.quotient(it)[1]
            case "SCL":
                r[it.a] = r[it.b] // INFORMATION[self.set][it.p]
            case "JMP":
                after = it.p
            case "BLT":
                after = it.p if r[it.a] < r[it.b] else after
            case "BEQ":
                after = it.p if r[it.a] == r[it.b] else after
            case "CHK":
                if not it.p <= r[it.a] <= it.q:
                    raise Trap("range", it.L)
            case "IN":
                if self.taken == len(self.input):
                    raise Trap("input-end", it.L)
                if not it.p <= self.input[self.taken] <= it.q:
                    raise Trap("input-range", it.L)
                r[it.a] = self.input[self.taken]
                self.taken += 1
            case "OUT":
                self.prints.append(r[it.a])
            case "CALL":
                if len(self.held) == MOST_HELD:
                    raise Trap("stack", it.L)
                self.held.append(after)
                after = it.p
            case "RET":
                if not self.held:
                    raise Trap("stack", it.L)
                after = self.held.pop()
            case "TRP":
                raise Trap(KINDS[it.p], it.L)
        self.counter = after
        return True

    def run(self, steps):
        """The ending of at most so many instructions."""
        for _ in range(steps):
            try:
                if not self.step():
                    return "end"
            except Trap as trap:
                return "trap {} {}".format(*trap.args)
        return "spent"


def numbers_of(text):
    """The numbers of an input; raises ValueError with the place of the first word that is none."""
    found = []
    for word in re.finditer(rb"[^ \t\r\n]+", text):
        if re.fullmatch(rb"-?[0-9]+", word[0]) is None:
            raise ValueError(word.start())
        digits = word[0].lstrip(b"-").lstrip(b"0") or b"0"
        # The longest are past every constant, and Python reads no more than some thousands of digits.
        value = int(digits) if len(digits) < 50 else 10**50
        found.append(-value if word[0].startswith(b"-") else value)
    return found


def exec_answer(content, text, steps=DEFAULT_STEPS):
    """What `exec` writes, and its status; None where the integers leave the range, so that nothing is said."""
    try:
        program = read(content)
    except Refused as refused:
        return f"refused object {refused.args[0]}\n".encode(), 11
    try:
        numbers = numbers_of(text)
    except ValueError as place:
        return f"refused input {place}\n".encode(), 6
    machine = Machine(program, numbers)
    try:
        ending = machine.run(steps)
    except Unfit:
        return None
    corrected = "corrected" + " 0" * CHANNELS[program.set]
    lines = [*map(str, machine.prints), ending, corrected]
    return "".join(f"{line}\n" for line in lines).encode(), STATUS[ending.split()[0]]
