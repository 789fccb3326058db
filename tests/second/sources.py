"""Random sources, with an input, a set and a limit of visits each; most of them are lawful."""
from second.evaluation import answer
from second.reading import KEYWORDS
from second.rules import BOUNDS, interval_by

NAMES = [f"{letter}{tail}" for letter in "abcxyz" for tail in ("", "1", "_2", "Long")] + ["vars", "End", "to_"]
OPERATORS = ("+", "+", "-", "-", "*", "*", "div", "mod")
COMPARISONS = ("<", "<=", ">", ">=", "=", "<>")
# Between these and whatever stands beside them no blank is needed.
ALONE = set("()[];,+-*")
# No random run makes more visits than this.
MOST_VISITS = 5_000


class Source:
    """One random source, as a list of tokens."""

    def __init__(self, chance, bound):
        self.chance = chance
        self.bound = bound
        self.tokens = []
        self.variables = {}  # the range of each that is visible
        self.arrays = {}  # length and range
        self.procedures = {}  # ranges of the parameters
        self.loops = []
        self.inside = []  # the parameters and locals of the procedure that is being written
        self.room = chance.choice((4, 8, 16))  # statements

    def put(self, *tokens):
        self.tokens += tokens

    def once_in(self, n):
        return self.chance.randrange(n) == 0

    # ---- ranges and names
    def new_name(self):
        taken = [*self.variables, *self.arrays, *self.procedures]
        free = [name for name in NAMES if name not in taken]
        return self.chance.choice(NAMES) if not free or self.once_in(150) else self.chance.choice(free)

    def new_range(self):
        chance, bound = self.chance, self.bound
        sort = chance.randrange(8)
        if sort == 0:
            low, high = -bound, bound
        elif sort == 1:
            low, high = chance.randint(0, bound), bound
        elif sort == 2:
            low = chance.randint(-9, 9)
            high = low + chance.randint(0, 3)
        elif sort == 3:
            low, high = chance.randint(-20, -2), -1
        else:
            low, high = chance.choice((0, 0, 1, -9)), chance.choice((9, 9, 20, 40))
        if self.once_in(250):
            low, high = high, low
        if self.once_in(250):
            high = bound + 1
        return low, high

    def number(self, n):
        zeros = "00" if self.once_in(20) else ""
        return ["-", f"{zeros}{-n}"] if n < 0 else [f"{zeros}{n}"]

    def put_range(self, low, high):
        self.put(":", *self.number(low), "..", *self.number(high))

    # ---- expressions: the tokens, how loosely they hold (0 a factor, 1 a term, 2 a sum), and the interval
    def leaf(self, depth):
        chance = self.chance
        sort = chance.randrange(10)
        if sort < 5 and self.variables:
            name = chance.choice(self.inside if self.inside and self.once_in(2) else list(self.variables))
            return [name], 0, self.variables[name]
        if sort < 7 and self.arrays:
            name = chance.choice(list(self.arrays))
            length, span = self.arrays[name]
            return [name, "[", *self.index(length, depth - 1), "]"], 0, span
        n = self.bound if self.once_in(40) else chance.choice((0, 1, 2, 3, 5, 7, 10, 13))
        n = n if n <= self.bound else 1
        return self.number(n), 0, (n, n)

    def index(self, length, depth=1):
        if depth < 0 or self.chance.randrange(5) < 2:
            return self.number(self.chance.randrange(length + self.once_in(9)))
        tokens, loose, _ = self.expression(depth)
        if self.once_in(8):
            return tokens
        return [*self.held(tokens, loose, 1), "mod", str(length)]

    def held(self, tokens, loose, most):
        return ["(", *tokens, ")"] if loose > most or self.once_in(12) else tokens

    def any_expression(self, depth):
        if depth == 0 or self.once_in(4):
            return self.leaf(depth)
        if self.once_in(8):
            tokens, loose, (low, high) = self.expression(depth - 1)
            return ["-", *self.held(tokens, loose, 0)], 0, (-high, -low)
        operator = self.chance.choice(OPERATORS)
        level = 2 if operator in "+-" else 1
        left, left_loose, left_span = self.expression(depth - 1)
        right, right_loose, right_span = self.expression(depth - 1)
        if operator in ("div", "mod") and right_span[0] <= 0 <= right_span[1] and not self.once_in(6):
            divisor = self.chance.choice((1, 2, 3, 7, 13, -1, -2, -5))
            right, right_loose, right_span = self.number(divisor), 0, (divisor, divisor)
        tokens = [*self.held(left, left_loose, level), operator, *self.held(right, right_loose, level - 1)]
        return tokens, level, interval_by(operator, left_span, right_span)

    def expression(self, depth=3):
        """One whose nodes are within the range of the set, but for a few."""
        for _ in range(4):
            tokens, loose, span = self.any_expression(depth)
            if max(abs(span[0]), abs(span[1])) <= self.bound or self.once_in(600):
                return tokens, loose, span
        n = self.chance.randint(0, 5)
        return self.number(n), 0, (n, n)

    def fitted(self, low, high):
        """An expression for a place with this range: most times its values are there, where that is easy."""
        tokens, loose, span = self.expression()
        if low <= span[0] and span[1] <= high or self.once_in(6):
            return tokens
        if self.once_in(2) and low <= 0 < high:
            return [*self.held(tokens, loose, 1), "mod", *self.number(high)]
        return self.number(self.chance.choice((low, high, max(low, min(high, 0)))))

    def put_condition(self):
        left, right = self.expression(2)[0], self.expression(2)[0]
        self.put(*left, self.chance.choice(COMPARISONS), *right)

    # ---- statements
    def statements(self, depth, most):
        for _ in range(self.chance.randint(0 if depth else 1, most)):
            if self.room == 0:
                return
            self.room -= 1
            self.statement(depth)

    def statement(self, depth):
        sorts = ["assign"] * 5 + ["print"] * 4 + ["read"] * 2 + ["call"] * 3
        if depth < 3:
            sorts += ["if"] * 2 + ["for"] * 2 + ["while"] * 2
        sort = self.chance.choice(sorts)
        getattr(self, f"put_{sort}")(depth)

    def target(self):
        """The tokens of a place and its range."""
        free = [name for name in self.variables if name not in self.loops or self.once_in(60)]
        if self.arrays and (not free or self.once_in(3)):
            name = self.chance.choice(list(self.arrays))
            length, span = self.arrays[name]
            return [name, "[", *self.index(length), "]"], span
        if not free:
            return None
        near = [name for name in self.inside if name in free]
        name = self.chance.choice(near if near and self.once_in(2) else free)
        return [name], self.variables[name]

    def put_assign(self, depth):
        target = self.target()
        if target:
            self.put(*target[0], ":=", *self.fitted(*target[1]), ";")

    def put_print(self, depth):
        tokens, loose, (low, high) = self.expression()
        sort = self.chance.randrange(8)
        over = self.once_in(16)
        if sort == 0 and high >= over:
            # An end of the interval comes to the end of the set's range, or one past it.
            tokens = [*self.held(tokens, loose, 2), "+", str(self.bound - high + over)]
        elif sort == 1 and low <= -over:
            tokens = [*self.held(tokens, loose, 2), "-", str(self.bound + low + over)]
        self.put("print", *tokens, ";")

    def put_read(self, depth):
        target = self.target()
        if target:
            self.put("read", *target[0], ";")

    def put_call(self, depth):
        if self.procedures:
            name = self.chance.choice(list(self.procedures))
            spans = self.procedures[name]
            arguments = [self.fitted(*span) for span in spans]
            if self.once_in(60):
                arguments = arguments[1:] or [[self.chance.choice(NAMES)]]
            self.put(name, "(")
            for place, argument in enumerate(arguments):
                self.put(*([","] if place else []), *argument)
            self.put(")", ";")

    def put_if(self, depth):
        self.put("if")
        self.put_condition()
        self.put("then")
        self.statements(depth + 1, 3)
        if self.once_in(2):
            self.put("else")
            self.statements(depth + 1, 3)
        self.put("end")

    def put_for(self, depth):
        free = [name for name in self.variables if name not in self.loops]
        if not free:
            return
        name = self.chance.choice(free)
        low, high = self.variables[name]
        low = max(low, min(high, self.chance.randint(-3, 5)))
        high = min(high, low + self.chance.randint(-1, 6))
        first = self.number(low) if self.once_in(2) else self.fitted(low, high)
        last = self.number(high + self.once_in(8)) if self.once_in(2) else self.fitted(low, high)
        self.put("for", name, ":=", *first, "to", *last, "do")
        self.loops.append(name)
        self.statements(depth + 1, 3)
        self.loops.pop()
        self.put("end")

    def put_while(self, depth):
        self.put("while")
        self.put_condition()
        self.put("limit", str(self.chance.choice((0, 1, 2, 5, 9, 30))), "do")
        self.statements(depth + 1, 3)
        self.put("end")

    # ---- declarations
    def put_variable(self):
        name, span = self.new_name(), self.new_range()
        self.put("var", name)
        self.put_range(*span)
        self.put(";")
        self.variables[name] = span
        return name

    def put_array(self):
        name, span = self.new_name(), self.new_range()
        length = 0 if self.once_in(120) else self.chance.choice((1, 2, 3, 8, 16))
        self.put("array", name, "[", str(length), "]")
        self.put_range(*span)
        self.put(";")
        self.arrays[name] = max(length, 1), span

    def put_procedure(self):
        name = self.new_name()
        outer, room = dict(self.variables), self.room
        spans = []
        self.inside = []
        self.put("proc", name, "(")
        for place in range(self.chance.randrange(4)):
            parameter, span = self.new_name(), self.new_range()
            self.put(*([","] if place else []), parameter)
            self.put_range(*span)
            self.variables[parameter] = span
            self.inside.append(parameter)
            spans.append(span)
        self.put(")")
        for _ in range(self.chance.randrange(3)):
            self.inside.append(self.put_variable())
        self.put("do")
        self.room = 6
        if self.inside and self.once_in(2):
            self.put("print", self.inside[-1], ";")
        self.statements(1, 4)
        self.put("end")
        self.variables, self.room, self.inside = outer, room, []
        self.procedures[name] = spans

    def write(self):
        for _ in range(self.chance.randint(0, 7)):
            self.chance.choice((self.put_variable, self.put_variable, self.put_array, self.put_procedure))()
        self.statements(0, 12)


def with_fault(chance, tokens):
    """The tokens with one of them left out, put in, or exchanged: most times a name for another name."""
    tokens = list(tokens)
    if not tokens:
        return tokens
    places = [place for place, token in enumerate(tokens) if token[0].isalpha() and token not in KEYWORDS]
    sort = chance.randrange(6)
    if sort < 4 and places:
        tokens[chance.choice(places)] = chance.choice((chance.choice(NAMES), tokens[chance.choice(places)]))
    else:
        place = chance.randrange(len(tokens))
        tokens[place : place + chance.randrange(2)] = [chance.choice(tokens + ["?", "else", "0", "@"])][: chance.randrange(2)]
    return tokens


def text_of(chance, tokens):
    """The tokens with blanks, lines and comments between them, where they may stand without one sometimes without."""
    parts, before = [], "("
    for token in tokens:
        needs_none = before in ALONE or token in ALONE
        blank = chance.choice(("", "", " ")) if needs_none else " "
        if chance.randrange(9) == 0 or before == ";" and chance.randrange(2):
            blank = chance.choice(("\n", "\n", "\n", "\t", "\r\n", " # it; end\n", "\n\n"))
        parts += [blank, token]
        before = token
    return ("".join(parts) + chance.choice(("", "\n"))).encode()


def random_input(chance, bound):
    words = [str(chance.choice((0, 1, 2, 3, 5, 7, 9, -1, 12, "007", "-0"))) for _ in range(chance.choice((0, 1, 4, 12)))]
    if chance.randrange(6) == 0:
        words.append(str(chance.choice((bound, -bound, bound + 1, 10**60, -(10**45)))))
    if chance.randrange(25) == 0:
        words.insert(chance.randint(0, len(words)), chance.choice(("12x", "-", "+3", "--1", "\v", "1.5")))
    return "".join(word + chance.choice((" ", "\n", "\t", " \r\n")) for word in words).encode()


def random_job(chance):
    """The words of a job and its files."""
    set_name = chance.choice(("pocket", "desk", "hall"))
    source = Source(chance, BOUNDS[set_name])
    source.write()
    tokens = with_fault(chance, source.tokens) if chance.randrange(9) == 0 else source.tokens
    files = {"a.src": text_of(chance, tokens)}
    given = "-"
    if chance.randrange(4):
        given = "b.txt"
        files[given] = random_input(chance, source.bound)
    words = ["mean", "a.src", given]
    if set_name != "desk" or chance.randrange(2):
        words.insert(chance.randint(1, len(words)), f"--set={set_name}")
    if chance.randrange(4) == 0:
        return [*words, f"--steps={chance.randint(1, 60)}"], files
    visits = answer(files["a.src"], files.get(given, b""), set_name, MOST_VISITS)[2]
    if visits == MOST_VISITS or chance.randrange(3) == 0:
        # As many as it makes, one less, or any number.
        limit = chance.choice((visits, visits - 1, chance.randint(1, MOST_VISITS)))
        words.append(f"--steps={max(limit, 1)}")
    return words, files
