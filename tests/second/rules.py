"""The rules that a tree keeps: of names, and of the intervals of its expressions on a set."""
from second.reading import Binary, Declared, Element, Neg, Number, Procedure, Range, Refused, Variable

BOUNDS = {"pocket": 97, "desk": 451727098179, "hall": 18754376393575156082078}
MOST_PROCEDURES = 64


# ---- names
class Names:
    """What is visible at a place: by its name a Declared or a Procedure."""

    def __init__(self):
        self.outer = {}
        self.inner = {}
        self.loops = []  # the variables of the `for`s around the place, in this body

    def find(self, name):
        found = self.inner.get(name.text) or self.outer.get(name.text)
        if found is None:
            raise Refused("unknown-name", name.line)
        return found

    def declare(self, name):
        if name.text in self.inner or name.text in self.outer:
            raise Refused("name-twice", name.line)

    def variable(self, name):
        found = self.find(name)
        if not isinstance(found, Declared) or found.length is not None:
            raise Refused("wrong-kind", name.line)
        return found

    def array(self, name):
        found = self.find(name)
        if not isinstance(found, Declared) or found.length is None:
            raise Refused("wrong-kind", name.line)
        return found

    def procedure(self, name):
        found = self.find(name)
        if not isinstance(found, Procedure):
            raise Refused("wrong-kind", name.line)
        return found

    def assigned(self, name):
        self.variable(name)
        if name.text in self.loops:
            raise Refused("loop-assigned", name.line)


def check_range(declared, line):
    if declared.range.low > declared.range.high:
        raise Refused("bad-range", line)


def check_names(program):
    names = Names()
    procedures = 0
    for declaration in program.declarations:
        names.declare(declaration.name)
        if isinstance(declaration, Procedure):
            if procedures == MOST_PROCEDURES:
                raise Refused("too-many", declaration.name.line)
            procedures += 1
            check_procedure(declaration, names)
        else:
            if declaration.length == 0:
                raise Refused("empty-array", declaration.name.line)
            check_range(declaration, declaration.line)
        names.outer[declaration.name.text] = declaration
    check_statements(program.statements, names)


def check_procedure(procedure, names):
    names.inner = {}
    for declared in procedure.parameters + procedure.locals:
        names.declare(declared.name)
        check_range(declared, declared.name.line)
        names.inner[declared.name.text] = declared
    check_statements(procedure.body, names)
    names.inner = {}


def check_expression(node, names):
    if isinstance(node, Variable):
        names.variable(node.name)
    elif isinstance(node, Element):
        names.array(node.name)
        check_expression(node.index, names)
    elif isinstance(node, Neg):
        check_expression(node.operand, names)
    elif isinstance(node, Binary):
        check_expression(node.left, names)
        check_expression(node.right, names)


def check_target(target, names):
    if isinstance(target, Variable):
        names.assigned(target.name)
    else:
        check_expression(target, names)


def check_statements(statements, names):
    for statement in statements:
        check_statement(statement, names)


def check_statement(statement, names):
    kind = statement.kind
    if kind in ("assign", "read"):
        check_target(statement.target, names)
    if kind in ("assign", "print"):
        check_expression(statement.value, names)
    if kind in ("if", "while"):
        check_expression(statement.condition.left, names)
        check_expression(statement.condition.right, names)
    if kind == "if":
        check_statements(statement.first, names)
        check_statements(statement.second, names)
    if kind == "while":
        check_statements(statement.body, names)
    if kind == "for":
        names.assigned(statement.name)
        check_expression(statement.low, names)
        check_expression(statement.high, names)
        names.loops.append(statement.name.text)
        check_statements(statement.body, names)
        names.loops.pop()
    if kind == "call":
        procedure = names.procedure(statement.name)
        if len(statement.arguments) != len(procedure.parameters):
            raise Refused("arguments", statement.name.line)
        for argument in statement.arguments:
            check_expression(argument, names)


# ---- intervals
def interval_by(operator, left, right):
    (l1, h1), (l2, h2) = left, right
    if operator == "+":
        return l1 + l2, h1 + h2
    if operator == "-":
        return l1 - h2, h1 - l2
    if operator == "*":
        corners = [l1 * l2, l1 * h2, h1 * l2, h1 * h2]
        return min(corners), max(corners)
    if operator == "div":
        if l2 == h2 != 0:
            ends = [l1 // l2, h1 // l2]
            return min(ends), max(ends)
        size = max(abs(l1), abs(h1))
        return -size, size
    return min(0, l2 + 1), max(0, h2 - 1)


class Widths:
    def __init__(self, bound):
        self.bound = bound
        self.ranges = {}

    def demand(self, low, high, line):
        if not (-self.bound <= low <= self.bound and -self.bound <= high <= self.bound):
            raise Refused("too-wide", line)

    def declare(self, declared, line):
        self.demand(declared.range.low, declared.range.high, line)
        self.ranges[declared.name.text] = (declared.range.low, declared.range.high)

    def interval(self, node):
        if isinstance(node, Number):
            found = node.value, node.value
        elif isinstance(node, Variable):
            found = self.ranges[node.name.text]
        elif isinstance(node, Element):
            self.interval(node.index)
            found = self.ranges[node.name.text]
        elif isinstance(node, Neg):
            low, high = self.interval(node.operand)
            found = -high, -low
        else:
            left = self.interval(node.left)
            found = interval_by(node.operator, left, self.interval(node.right))
        self.demand(*found, node.line)
        return found

    def program(self, program):
        for declaration in program.declarations:
            if isinstance(declaration, Procedure):
                outer = dict(self.ranges)
                for declared in declaration.parameters + declaration.locals:
                    self.declare(declared, declared.name.line)
                self.statements(declaration.body)
                self.ranges = outer
            else:
                self.declare(declaration, declaration.line)
        self.statements(program.statements)

    def statements(self, statements):
        for statement in statements:
            self.statement(statement)

    def statement(self, statement):
        kind = statement.kind
        if kind in ("assign", "read") and isinstance(statement.target, Element):
            self.interval(statement.target.index)
        if kind in ("assign", "print"):
            self.interval(statement.value)
        if kind in ("if", "while"):
            self.interval(statement.condition.left)
            self.interval(statement.condition.right)
        if kind == "if":
            self.statements(statement.first)
            self.statements(statement.second)
        if kind == "while":
            self.demand(statement.limit, statement.limit, statement.line)
        if kind == "for":
            self.interval(statement.low)
            self.interval(statement.high)
        if kind in ("while", "for"):
            self.statements(statement.body)
        if kind == "call":
            for argument in statement.arguments:
                self.interval(argument)


def check_widths(program, set_name):
    Widths(BOUNDS[set_name]).program(program)
