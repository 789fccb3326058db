"""The text of faults: its reader."""
import re

MOST_CHANNEL = 2**32 - 1
MOST_NUMBER = 2**64 - 1
MOST_VALUE = 2**32 - 1
MOST = (MOST_CHANNEL, MOST_NUMBER, MOST_VALUE)
MOST_DIGITS = 20


class BadFaults(Exception):
    """A line, counted from 1, that is no line of faults."""


def is_number(word, most):
    if re.fullmatch(rb"[0-9]+", word) is None:
        return False
    digits = word.lstrip(b"0") or b"0"
    return len(digits) <= MOST_DIGITS and int(digits) <= most


def value_of(word):
    return int(word.lstrip(b"0") or b"0")


def entry_of(line):
    """The channel, answer number and value of a line; None where it is passed over. Raises ValueError where it is bad."""
    if line.startswith(b"#") or not line.strip(b" \t"):
        return None
    words = re.findall(rb"[^ \t]+", line)
    if len(words) != len(MOST) or not all(map(is_number, words, MOST)):
        raise ValueError
    return tuple(map(value_of, words))


def faults_of(text, channels):
    """The value of each channel and answer number that a text names; raises BadFaults."""
    book = {}
    for number, line in enumerate(text.split(b"\n"), 1):
        try:
            entry = entry_of(line.removesuffix(b"\r"))
        except ValueError:
            raise BadFaults(number) from None
        if entry is None:
            continue
        channel, answer, value = entry
        if channel >= channels or (channel, answer) in book:
            raise BadFaults(number)
        book[channel, answer] = value
    return book
