"""Random texts of faults for a run of an object."""
from second.faults import MOST_NUMBER, MOST_VALUE
from second.lanes import Lanes
from second.machine import numbers_of
from second.objects import BOUND, CHANNELS, product, read
from second.residues import MODULI, vector_of
from second.shown import ShownMachine

MOST_ENTRIES = 3_000
BAD_LINES = [
    "x", "0 1", "0 1 2 3", "-0 1 2", "0 1 -2", "0 1 4294967296", "0 18446744073709551616 2", "12 0 0", " # ", "0 1 2\r\r"]


class Told(Lanes):
    """Lanes that keep their answers, and what was shown by which operation."""

    def __init__(self, *given):
        super().__init__(*given)
        self.kept = []
        self.shown = {}

    def answers(self, right):
        self.kept.append(super().answers(right))
        return self.kept[-1]

    def show(self, place):
        number = self.performed
        self.shown[number] = super().show(place)
        return self.shown[number]


def told(content, given, steps):
    """The lanes after a run without faults."""
    program = read(content)
    machine = ShownMachine(program, numbers_of(given), {})
    machine.lanes = Told(program.set, program.words, {})
    machine.run(steps)
    return machine.lanes


def right_value(chance, lanes, channel, number):
    """A value that leaves the answer as it is, in a run without other faults."""
    if number >= len(lanes.kept):
        return chance.randint(0, MOST_VALUE)
    modulus = lanes.moduli[channel]
    residue = lanes.kept[number][channel]
    return residue + modulus * chance.choice([0, 1, chance.randint(0, (MOST_VALUE - residue) // modulus)])


def wrong_value(chance, lanes, channel):
    return chance.choice([chance.randrange(lanes.moduli[channel]), chance.randint(0, MOST_VALUE), 0, MOST_VALUE])


def a_number(chance, lanes):
    """An answer number: of a Show, of another operation, or past the end."""
    kind = chance.randrange(10)
    if kind < 4 and lanes.shown:
        return chance.choice(list(lanes.shown))
    if kind < 9:
        return chance.randrange(lanes.performed + 1)
    return chance.choice([lanes.performed, lanes.performed + chance.randrange(1000), MOST_NUMBER])


def scattered(chance, lanes, channels):
    """A few entries of each channel."""
    return [
        (channel, a_number(chance, lanes), wrong_value(chance, lanes, channel))
        for channel in channels for _ in range(chance.choice([1, 1, 2, 6]))
    ]


def throughout(chance, lanes, channels):
    """Each answer of the channels, or most of them, from some number on."""
    dense = chance.choice([1, 1, 0.5, 0.05])
    first = chance.choice([0, 0, chance.randrange(lanes.performed + 1)])
    numbers = range(first, min(lanes.performed + 2, first + MOST_ENTRIES // len(channels)))
    return [
        (channel, number, wrong_value(chance, lanes, channel))
        for channel in channels for number in numbers if chance.random() < dense
    ]


def in_turn(chance, lanes, channels):
    """Faults of which no two channels have one at the same answer."""
    return [
        (channel, number, wrong_value(chance, lanes, channel))
        for number in range(min(lanes.performed, MOST_ENTRIES)) for channel in [chance.choice(channels)]
        if chance.random() < 0.3
    ]


def all_right(chance, lanes, channels):
    """Values that are right, or past the end of the run."""
    numbers = range(min(lanes.performed + 5, MOST_ENTRIES // len(channels)))
    return [(channel, number, right_value(chance, lanes, channel, number)) for channel in channels for number in numbers]


def misleading(chance, lanes, channels):
    """Faults by which shown columns come near to other integers: those that agree with the right one in all channels that
    have no fault, but for one."""
    name, entries = lanes.name, []
    others = [it for it in range(len(lanes.moduli)) if it not in channels]
    for number, right in lanes.shown.items():
        turned = chance.choice(others)
        step = product(lanes.moduli[it] for it in others if it != turned)
        least, greatest = -((right + BOUND[name]) // step), (BOUND[name] - right) // step
        turns = chance.randint(least, greatest)
        if turns and len(entries) < MOST_ENTRIES and chance.random() < 0.5:
            vector = vector_of(name, right + turns * step)
            entries += [(channel, number, vector[channel]) for channel in channels]
    return entries


def entries_of(chance, lanes):
    """Entries of no channel, one, two or three, and whether all values are right in a run without others."""
    count = chance.choice([1, 2, 3] * 10 + [0])
    channels = sorted(chance.sample(range(CHANNELS[lanes.name]), count))
    if not channels:
        return [], True
    kinds = [scattered] * 4 + [throughout] * 2 + [in_turn, all_right] + [misleading] * (8 if count == 3 else 0)
    kind = chance.choice(kinds)
    entries = kind(chance, lanes, channels)
    chance.shuffle(entries)
    return list({entry[:2]: entry for entry in entries}.values()), kind is all_right


def number_text(chance, number):
    return "0" * chance.choice([0, 0, 0, 0, 1, 30]) + str(number)


def line_of(chance, entry):
    ends = chance.choice(["", "", "", " ", "\t "])
    return ends + chance.choice([" ", " ", "\t", "  "]).join(number_text(chance, it) for it in entry) + ends


def text_of(chance, entries):
    """A text of the entries, with lines that are passed over, and seldom with a bad one."""
    lines = []
    for entry in entries:
        if chance.random() < 0.1:
            lines.append(chance.choice(["", " \t", "#", "# 0 0 0", "#0 0 0 0"]))
        lines.append(line_of(chance, entry))
    if chance.random() < 0.03:
        bad = chance.choice([*BAD_LINES, *(line for line in lines if line.strip() and line[0] != "#")])
        lines.insert(chance.randint(0, len(lines)), bad)
    end = chance.choice(["\n", "\n", "\r\n"])
    return (end.join(lines) + chance.choice(["", end])).encode()


def random_faults(chance, content, given, steps):
    """A text of faults for a run, and whether all values are right."""
    lanes = told(content, given, steps)
    entries, is_right = entries_of(chance, lanes)
    return text_of(chance, entries), is_right
