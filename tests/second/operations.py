"""How many operations each channel performs in a run over plain integers."""
from second.machine import Machine
from second.objects import read

OPERATIONS = {
    "HALT": 0, "LDI": 1, "LD": 1, "ST": 1, "LDX": 2, "STX": 2, "MOV": 1, "ADD": 1, "SUB": 1, "MUL": 1, "NEG": 1, "MAC": 1,
    "SCL": 2, "JMP": 0, "BLT": 2, "BEQ": 2, "CHK": 1, "IN": 1, "OUT": 1, "CALL": 0, "RET": 0, "TRP": 0,
}


def of_division(name, dividend, divisor):
    """The operations of the plan of DIV or MOD: s0 to s6 are its scratch places."""
    if divisor == 0:
        return 2  # both were shown
    turned = (dividend < 0 < divisor) or (divisor < 0 < dividend)
    count = 7 if turned else 5
    s0, s1 = (dividend, divisor) if divisor > 0 else (-dividend, -divisor)
    if turned:
        s0 = -1 - s0
    s5 = 0
    while True:
        count += 2
        s4 = s0 - s1
        if s4 < 0:
            break
        count += 2
        s2, s3 = s1, 1
        while True:
            count += 2
            s6 = s4 - s2
            if s6 < 0:
                break
            count += 3
            s2, s3, s4 = 2 * s2, 2 * s3, s6
        count += 2
        s0, s5 = s4, s5 + s3
    quotient = -1 - s5 if turned else s5
    assert quotient == dividend // divisor
    if turned:
        return count + (2 if name == "DIV" else 4)
    return count + 1


class Counted(Machine):
    def __init__(self, *given):
        super().__init__(*given)
        self.operations = 0

    def step(self):
        if self.counter < len(self.code):
            it = self.code[self.counter]
            if it.name in ("DIV", "MOD"):
                self.operations += of_division(it.name, self.registers[it.b], self.registers[it.c])
            else:
                self.operations += OPERATIONS[it.name]
        return super().step()


def operations_of(content, steps):
    """The operations of a run without input and without a trap, of at most so many instructions."""
    machine = Counted(read(content), [])
    machine.run(steps)
    return machine.operations
