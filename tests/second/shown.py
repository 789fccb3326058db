"""The machine on residues, whose control goes by the integers that are shown, and what `exec` writes with faults, with a
schedule and with a journal."""
from second.faults import BadFaults, faults_of
from second.lanes import Damage, Lanes, word
from second.machine import DEFAULT_STEPS, KINDS, MOST_HELD, STATUS, Trap, numbers_of
from second.objects import CHANNELS, Refused, read
from second.plans import divide, scale
from second.schedules import BadTurn, schedule_of
from second.turns import Kept, journal, journal_text


class ShownMachine:
    def __init__(self, program, numbers, book):
        self.code = program.code
        self.lanes = Lanes(program.set, program.words, book)
        self.counter = 0
        self.held = []
        self.input = list(numbers)
        self.prints = []  # the number of the Show and the integer

    def element(self, it):
        """The data word of LDX and STX."""
        index = self.lanes.show(it.b)
        if not 0 <= index < it.q:
            raise Trap("index", it.L)
        return word(it.p + index)

    def take(self, it):
        if not self.input:
            raise Trap("input-end", it.L)
        if not it.p <= self.input[0] <= it.q:
            raise Trap("input-range", it.L)
        return self.input.pop(0)

    def print(self, place):
        number = self.lanes.performed
        self.prints.append((number, self.lanes.show(place)))

    def compute(self, it):
        """An instruction that neither jumps nor ends the run but by a trap."""
        lanes = self.lanes
        match it.name:
            case "LDI":
                lanes.put(it.a, it.p)
            case "LD":
                lanes.copy(it.a, word(it.p))
            case "ST":
                lanes.copy(word(it.p), it.a)
            case "LDX":
                lanes.copy(it.a, self.element(it))
            case "STX":
                lanes.copy(self.element(it), it.a)
            case "MOV":
                lanes.copy(it.a, it.b)
            case "ADD":
                lanes.add(it.a, it.b, it.c)
            case "SUB":
                lanes.sub(it.a, it.b, it.c)
            case "MUL":
                lanes.mul(it.a, it.b, it.c)
            case "NEG":
                lanes.neg(it.a, it.b)
            case "MAC":
                lanes.mul_add(it.a, it.b, it.c, it.a)
            case "DIV" | "MOD":
                if not divide(lanes, it):
                    raise Trap("zero", it.L)
            case "SCL":
                scale(lanes, it)
            case "CHK":
                if not it.p <= lanes.show(it.a) <= it.q:
                    raise Trap("range", it.L)
            case "IN":
                lanes.put(it.a, self.take(it))
            case "OUT":
                self.print(it.a)

    def next_place(self, it):
        """The counter after an instruction; None where it ends the run."""
        after = self.counter + 1
        match it.name:
            case "HALT":
                return None
            case "JMP":
                return it.p
            case "BLT" | "BEQ":
                left = self.lanes.show(it.a)
                right = self.lanes.show(it.b)
                return it.p if (left < right if it.name == "BLT" else left == right) else after
            case "CALL":
                if len(self.held) == MOST_HELD:
                    raise Trap("stack", it.L)
                self.held.append(after)
                return it.p
            case "RET":
                if not self.held:
                    raise Trap("stack", it.L)
                return self.held.pop()
            case "TRP":
                raise Trap(KINDS[it.p], it.L)
            case _:
                self.compute(it)
                return after

    def run(self, steps):
        """The ending of at most so many instructions."""
        for _ in range(steps):
            if self.counter == len(self.code):
                return "end"
            try:
                after = self.next_place(self.code[self.counter])
            except Trap as trap:
                return "trap {} {}".format(*trap.args)
            except Damage as damage:
                number, column = damage.args
                return " ".join(["damage", *map(str, [number, *column])])
            if after is None:
                return "end"
            self.counter = after
        return "spent"


def text_of(prints, ending, corrected):
    """What `exec` writes of a run, and its status."""
    lines = [*map(str, prints), ending, " ".join(["corrected", *map(str, corrected)])]
    return "".join(f"{line}\n" for line in lines).encode(), (STATUS | {"damage": 9})[ending.split()[0]]


def shown_answer(content, given, faults=b"", steps=DEFAULT_STEPS, schedule=b"", has_journal=False):
    """What `exec` writes of an object, an input, a text of faults and one of a schedule, and its status."""
    try:
        program = read(content)
        channels = CHANNELS[program.set]
        numbers = numbers_of(given)
        book = faults_of(faults, channels)
        turns = schedule_of(schedule, channels)
    except Refused as refused:
        return f"refused object {refused.args[0]}\n".encode(), 11
    except ValueError as place:
        return f"refused input {place}\n".encode(), 6
    except BadFaults as line:
        return f"refused faults {line}\n".encode(), 7
    except BadTurn as turn:
        return f"refused schedule {turn}\n".encode(), 7
    machine = ShownMachine(program, numbers, book)
    machine.lanes = Kept(program.set, program.words, book)
    ending = machine.run(steps)
    text, status = text_of((it for _, it in machine.prints), ending, machine.lanes.corrected)
    if has_journal:
        text += journal_text(journal(machine.lanes.operations, turns, channels))
    return text, status
