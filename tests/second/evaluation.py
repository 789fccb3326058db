"""What a source means, and the text and status that `mean` answers with."""
import re
import sys
from functools import lru_cache

from second.reading import Element, Neg, Number, Procedure, Refused, Variable, program_of
from second.rules import check_names, check_widths

STATUSES = {"end": 0, "trap": 8, "spent": 10}
WORD = re.compile(rb"[^ \t\r\n]+")
HOLDS = {
    "<": lambda x, y: x < y,
    "<=": lambda x, y: x <= y,
    ">": lambda x, y: x > y,
    ">=": lambda x, y: x >= y,
    "=": lambda x, y: x == y,
    "<>": lambda x, y: x != y,
}


class Trap(Exception):
    def __init__(self, kind, line):
        super().__init__(f"{kind} {line}")


class Spent(Exception):
    pass


class BadInput(Exception):
    pass


def start_of(declared):
    """The number of a range that is nearest to 0."""
    return max(declared.range.low, min(declared.range.high, 0))


class Evaluation:
    def __init__(self, program, numbers, limit):
        self.numbers = iter(numbers)
        self.left = limit
        self.printed = []
        self.known = {declaration.name.text: declaration for declaration in program.declarations}
        self.inside = {}  # the parameters and locals of the procedure that runs
        self.values = {}  # by the declaration: a value, or those elements of an array that aren't at their start
        self.program = program

    def visit(self):
        if self.left == 0:
            raise Spent
        self.left -= 1

    def find(self, name):
        return self.inside.get(name.text) or self.known[name.text]

    def get(self, declared):
        return self.values.get(id(declared), start_of(declared))

    def run(self):
        self.statements(self.program.statements)

    # ---- expressions
    def value(self, node):
        self.visit()
        if isinstance(node, Number):
            return node.value
        if isinstance(node, Variable):
            return self.get(self.find(node.name))
        if isinstance(node, Element):
            index = self.value(node.index)
            array = self.find(node.name)
            if not 0 <= index < array.length:
                raise Trap("index", node.line)
            return self.values.get((id(array), index), start_of(array))
        if isinstance(node, Neg):
            return -self.value(node.operand)
        x = self.value(node.left)
        y = self.value(node.right)
        if node.operator in ("div", "mod"):
            if y == 0:
                raise Trap("zero", node.line)
            # Python's floor division and its remainder with the divisor's sign are the language's.
            return x // y if node.operator == "div" else x % y
        return x + y if node.operator == "+" else x - y if node.operator == "-" else x * y

    def holds(self, condition):
        self.visit()
        x = self.value(condition.left)
        return HOLDS[condition.comparison](x, self.value(condition.right))

    # ---- statements
    def statements(self, statements):
        for statement in statements:
            self.visit()
            getattr(self, f"do_{statement.kind}")(statement)

    def put(self, declared, value, kind, line):
        if not declared.range.low <= value <= declared.range.high:
            raise Trap(kind, line)
        self.values[id(declared)] = value

    def put_into(self, target, value, kind, line, index_line):
        declared = self.find(target.name)
        if isinstance(target, Variable):
            self.put(declared, value, kind, line)
            return
        if not declared.range.low <= value <= declared.range.high:
            raise Trap(kind, line)
        index = self.value(target.index)
        if not 0 <= index < declared.length:
            raise Trap("index", index_line)
        self.values[id(declared), index] = value

    def do_assign(self, statement):
        value = self.value(statement.value)
        self.put_into(statement.target, value, "range", statement.line, statement.line)

    def do_print(self, statement):
        self.printed.append(self.value(statement.value))

    def do_read(self, statement):
        number = next(self.numbers, None)
        if number is None:
            raise Trap("input-end", statement.line)
        self.put_into(statement.target, number, "input-range", statement.line, statement.target.line)

    def do_if(self, statement):
        self.statements(statement.first if self.holds(statement.condition) else statement.second)

    def do_for(self, statement):
        low = self.value(statement.low)
        for turn in range(low, self.value(statement.high) + 1):
            self.visit()
            self.put(self.find(statement.name), turn, "range", statement.line)
            self.statements(statement.body)

    def do_while(self, statement):
        turns = 0
        while self.holds(statement.condition):
            if turns == statement.limit:
                raise Trap("turns", statement.line)
            turns += 1
            self.visit()
            self.statements(statement.body)

    def do_call(self, statement):
        procedure = self.find(statement.name)
        for argument, parameter in zip(statement.arguments, procedure.parameters):
            self.put(parameter, self.value(argument), "range", statement.line)
        for local in procedure.locals:
            self.visit()
            self.values[id(local)] = start_of(local)
        around = self.inside
        self.inside = {declared.name.text: declared for declared in procedure.parameters + procedure.locals}
        self.statements(procedure.body)
        self.inside = around


def numbers_of(text):
    numbers = []
    for word in WORD.finditer(text):
        if not re.fullmatch(rb"-?[0-9]+", word.group()):
            raise BadInput(word.start())
        sign, digits = (-1, word.group()[1:]) if word.group()[:1] == b"-" else (1, word.group())
        # A number of many digits is past every range, whatever it is.
        numbers.append(sign * int(digits.lstrip(b"0")[:60] or b"0"))
    return numbers


def run_text(program, numbers, steps):
    """The printed numbers and the ending line, and the visits that were made."""
    evaluation = Evaluation(program, numbers, steps)
    try:
        evaluation.run()
        ending = "end"
    except Trap as trap:
        ending = f"trap {trap}"
    except Spent:
        ending = "spent"
    return [*map(str, evaluation.printed), ending], steps - evaluation.left


@lru_cache(maxsize=1)
def lawful(source, set_name):
    """The tree of a source without a fault on a set; raises Refused by its first one."""
    program = program_of(source)
    check_names(program)
    check_widths(program, set_name)
    return program


def answer(source, given, set_name="desk", steps=1_000_000):
    """What `mean` writes of a source and an input, its status, and the visits that were made."""
    sys.setrecursionlimit(20_000)
    try:
        program = lawful(source, set_name)
        numbers = numbers_of(given)
    except Refused as fault:
        return f"refused source {fault}\n".encode(), 5, 0
    except BadInput as place:
        return f"refused input {place}\n".encode(), 6, 0
    lines, visits = run_text(program, numbers, steps)
    status = STATUSES[lines[-1].split()[0]]
    return "".join(f"{line}\n" for line in lines).encode(), status, visits
