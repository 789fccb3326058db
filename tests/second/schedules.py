"""The text of a schedule: its reader."""
import re

CONTROL = "C"
MOST_DIGITS = 2


class BadTurn(Exception):
    """The number of a word, counted from 1, that is no turn."""


def turn_of(word, channels):
    """Control, or the number of a channel; raises ValueError."""
    if word == b"C":
        return CONTROL
    digits = word.lstrip(b"0")
    if re.fullmatch(rb"[0-9]+", word) is None or len(digits) > MOST_DIGITS or int(digits or b"0") >= channels:
        raise ValueError
    return int(digits or b"0")


def schedule_of(text, channels):
    """The turns that a text names; raises BadTurn."""
    turns = []
    for number, word in enumerate(re.findall(rb"[^ \t\r\n]+", text), 1):
        try:
            turns.append(turn_of(word, channels))
        except ValueError:
            raise BadTurn(number) from None
    return turns
