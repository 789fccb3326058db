"""Random texts of schedules for a run of an object."""
from second.schedules import CONTROL

SEPARATORS = [" "] * 6 + ["\n", "\t", "\r\n", "\r", "  \n\t"]
BAD_WORDS = [
    "c", "CC", "C1", "1C", "-1", "+1", "1x", "x", "C\x00", "0\x0b", "\x0c", "256", str(2**32), str(2**64), "1" + "0" * 39]
LONG = [1, 2, 7, 8, 9, 10, 30, 300]
MOST_TURNS = 5_000


def in_any_order(chance, channels, length):
    """Turns one by one, of control more or less often."""
    weight = chance.choice([1, channels, 5 * channels])
    return chance.choices([CONTROL, *range(channels)], [weight, *[1] * channels], k=length)


def in_runs(chance, channels, length):
    """The same turn again and again, and then another."""
    turns = []
    while len(turns) < length:
        turns += [chance.choice([CONTROL, CONTROL, *range(channels)])] * chance.choice(LONG)
    return turns


def control_first(chance, channels, length):
    """Control alone, and then one channel alone."""
    first, then = chance.choice([1, 7, 8, 9, 10, length]), chance.choice([0, 1, 8, 9, length])
    return [CONTROL] * first + [chance.randrange(channels)] * then


def control_alone(chance, channels, length):
    return [CONTROL] * length


def one_channel(chance, channels, length):
    return [chance.randrange(channels)] * length


def all_but_one(chance, channels, length):
    """Rounds without one of the channels, which waits with all that is issued."""
    others, turns = list(range(channels)), []
    others.remove(chance.choice(others))
    while len(turns) < length:
        chance.shuffle(others)
        turns += [CONTROL] * chance.choice([1, 1, 2, 9]) + others * chance.choice([1, 1, 8])
    return turns


def backward(chance, channels, length):
    """Rounds from the last channel down."""
    round_ = [CONTROL] * chance.choice([1, 2, 8]) + list(range(channels))[::-1]
    return round_ * (length // len(round_) + 1)


def none(chance, channels, length):
    return []


KINDS = [
    *[in_any_order] * 3, *[in_runs] * 3, *[all_but_one] * 3, *[control_first] * 2, control_alone, one_channel, backward, none]


def word_of(chance, turn):
    return turn if turn == CONTROL else "0" * chance.choice([0] * 8 + [1, 40]) + str(turn)


def text_of(chance, turns):
    """A text of the turns, seldom with a word that is none."""
    words = [word_of(chance, it) for it in turns]
    if chance.random() < 0.04:
        words.insert(chance.randint(0, len(words)), chance.choice(BAD_WORDS))
    ends = chance.choice(["", "", " ", "\r\n"])
    return (ends + "".join(word + chance.choice(SEPARATORS) for word in words)).encode()


def random_schedule(chance, channels):
    """A text of turns for so many channels; now and then with the first channel that there isn't."""
    length = chance.choice([1, 5, 20, 100, 100, 500, 2_000])
    turns = chance.choice(KINDS)(chance, channels, length)[:MOST_TURNS]
    if turns and chance.random() < 0.01:
        turns[chance.randrange(len(turns))] = channels
    return text_of(chance, turns)
