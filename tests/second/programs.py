"""Random objects that are sound, with random inputs, whose integers stay in the range."""
from second.machine import Machine, Unfit, exec_answer, numbers_of
from second.objects import BOUND, FIELDS, INFORMATION, KIND, NAMES, SETS, Instr, Object, written

# How often an instruction comes; those that aren't named come ten times.
WEIGHT = {"HALT": 1, "TRP": 1, "RET": 12, "CALL": 6, "CHK": 6, "MUL": 6, "OUT": 25, "LDI": 25, "IN": 12}
WEIGHTS = [WEIGHT.get(name, 10) for name in NAMES]
REGISTERS = [0, 1, 2, 3, 4, 15]
SPACES = [" ", "\n", "\t", "\r\n", "  "]
MOST_MENDS = 60


def constant(chance, bound):
    kind = chance.randrange(10)
    if kind < 6:
        return chance.randint(-9, 9)
    if kind < 8:
        return chance.randint(-bound, bound)
    if kind < 9:
        root = int(bound**0.5)
        return chance.randint(-root, root)
    return chance.choice([bound, -bound, bound - 1, 1 - bound])


def interval(chance, bound):
    if chance.random() < 0.6:
        return -bound, bound
    return sorted((constant(chance, bound), constant(chance, bound)))


def line(chance):
    return chance.choice([0, 1, 9, chance.randrange(2**32), 2**32 - 1])


def target(chance, place, length):
    """Most often a place behind the jump, so that most runs end."""
    return chance.randint(place + 1, length) if chance.random() < 0.8 else chance.randint(0, length)


def an_instr(chance, name, place, length, set_, words):
    """The instruction of that name at a place, lawful in a program of that length with so many words."""
    bound = BOUND[set_]
    values = {field: chance.choice(REGISTERS) for field in sorted(FIELDS[name] & {"a", "b", "c"})}
    if "L" in FIELDS[name]:
        values["L"] = line(chance)
    if name in ("CHK", "IN"):
        values["p"], values["q"] = interval(chance, bound)
        return Instr(name, **values)
    for field, kind in KIND[name].items():
        match kind:
            case "constant":
                values[field] = constant(chance, bound)
            case "address":
                values[field] = chance.randrange(words)
            case "length":
                values[field] = chance.randint(1, words - values["p"])
            case "channel":
                values[field] = chance.randrange(len(INFORMATION[set_]))
            case "target":
                values[field] = target(chance, place, length)
            case "kind":
                values[field] = chance.randrange(7)
    return Instr(name, **values)


def index(chance, it):
    """What makes an index of LDX or STX lawful most often: what is left of a division by the length, in register 15."""
    if it.q == 1 or it.b == 15 or chance.random() < 0.3:
        return []
    return [Instr("LDI", 15, p=min(it.q, 9)), Instr("MOD", it.b, it.b, 15, L=7)]


def a_program(chance, set_):
    words = [constant(chance, BOUND[set_]) for _ in range(chance.choice([0, 1, 2, 5, 12]))]
    length = chance.choice([1, 3, 20, 20, 40, 60])
    program = first_values(chance, set_) if length > 3 else []
    while len(program) < length:
        name = chance.choices(NAMES, WEIGHTS)[0]
        if not words and "address" in KIND[name].values():
            continue
        it = an_instr(chance, name, len(program), length, set_, len(words))
        if name in ("LDX", "STX") and len(program) + 3 <= length:
            program += index(chance, it)
        program.append(it)
    return program, words


def is_refused(given):
    try:
        numbers_of(given)
    except ValueError:
        return True
    return False


def a_number(chance, bound):
    kind = chance.randrange(12)
    if kind == 0:
        return str(chance.choice([bound, -bound, bound + 1, -bound - 1, 10**45]))
    if kind == 1:
        return chance.choice(["-0", "007", "-0012"])
    return str(constant(chance, bound))


def an_input(chance, bound):
    words = [a_number(chance, bound) for _ in range(chance.choice([0, 1, 3, 10, 30]))]
    if words and chance.random() < 0.03:
        words[chance.randrange(len(words))] = chance.choice(["x", "-", "1-", "--2", "\x0b"])
    return "".join(word + chance.choice(SPACES) for word in words).encode()


def first_values(chance, set_):
    """Instructions that fill the registers, so that few are 0."""
    return [Instr("LDI", a, p=constant(chance, BOUND[set_]) or 1) for a in REGISTERS]


def mended(chance, set_, program, words, given, steps):
    """The program with other instructions in place of those that leave the range, and of most that trap."""
    numbers = numbers_of(given)
    for _ in range(MOST_MENDS):
        machine = Machine(Object(set_, program, words), numbers)
        try:
            ending = machine.run(steps)
        except Unfit:
            ending = "unfit"
        place = machine.counter
        if ending == "unfit":
            other = Instr("SCL", program[place].a, program[place].b, p=chance.randrange(len(INFORMATION[set_])))
        elif ending in ("end", "spent") or chance.random() < 0.25:
            return program
        else:
            other = an_instr(chance, chance.choice(["MOV", "OUT", "NEG", "JMP", "BLT", "LDI"]), place, len(program), set_, len(words))
        program = [*program[:place], other, *program[place + 1 :]]
    return program


def random_run(chance):
    """The words and files of a run of a random object, and what is written, by the second machine."""
    set_ = chance.choice(SETS)
    while True:
        program, words = a_program(chance, set_)
        given = an_input(chance, BOUND[set_])
        steps = chance.choice([1, 5, 20, 100, 300, 300, 300])
        if not is_refused(given):
            program = mended(chance, set_, program, words, given, steps)
        content = written(set_, program, words)
        wanted = exec_answer(content, given, steps)
        if wanted is not None:
            return ["exec", "a.obj", "b.txt", f"--steps={steps}"], {"a.obj": content, "b.txt": given}, wanted
