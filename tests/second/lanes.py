"""The channels as lists of residues: each operation in every lane, with wrong answers by a book of faults."""
from second.residues import MODULI, differences, nearest, vector_of

# The places of a lane in one list: 16 registers, 8 scratch places, and the data words.
FIRST_SCRATCH = 16
FIRST_WORD = 24


def scratch(number):
    return FIRST_SCRATCH + number


def word(number):
    return FIRST_WORD + number


class Damage(Exception):
    """The number of a Show, and its column, which no integer explains."""


class Lanes:
    def __init__(self, name, words, book):
        self.name = name
        self.moduli = MODULI[name]
        self.lanes = [[0] * FIRST_WORD + [it % modulus for it in words] for modulus in self.moduli]
        self.book = book
        self.performed = 0  # operations, which are answers of each channel
        self.corrected = [0] * len(self.moduli)

    def answers(self, right):
        """The answers to the next operation, `right` of a lane and its channel or what the book has in its place."""
        number = self.performed
        self.performed += 1
        return [
            self.book.get((channel, number), right(self.lanes[channel], channel)) % modulus
            for channel, modulus in enumerate(self.moduli)
        ]

    def write(self, to, right):
        for lane, answer in zip(self.lanes, self.answers(right)):
            lane[to] = answer

    def put(self, to, constant):
        self.write(to, lambda lane, _: constant)

    def copy(self, to, source):
        self.write(to, lambda lane, _: lane[source])

    def neg(self, to, source):
        self.write(to, lambda lane, _: -lane[source])

    def add(self, to, left, right):
        self.write(to, lambda lane, _: lane[left] + lane[right])

    def sub(self, to, left, right):
        self.write(to, lambda lane, _: lane[left] - lane[right])

    def mul(self, to, left, right):
        self.write(to, lambda lane, _: lane[left] * lane[right])

    def mul_add(self, to, left, right, third):
        self.write(to, lambda lane, _: lane[left] * lane[right] + lane[third])

    def unscale(self, to, source, by, take, give):
        """By the modulus of the channel `by`, which is given its own residue."""

        def right(lane, channel):
            if channel == by:
                return give
            return (lane[source] - take) * pow(self.moduli[by], -1, self.moduli[channel])

        self.write(to, right)

    def show(self, place):
        """The nearest integer of the column of a place; raises Damage."""
        number = self.performed
        column = self.answers(lambda lane, _: lane[place])
        told = nearest(self.name, column)
        if told is None:
            raise Damage(number, column)
        for channel in differences(column, vector_of(self.name, told)):
            self.corrected[channel] += 1
        return told
