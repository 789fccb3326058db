"""A row: an object's bytes, an input, a limit of steps, and what `exec` writes of them."""
from typing import NamedTuple, Optional

from second.objects import CHANNELS, written


class Row(NamedTuple):
    shows: str
    content: bytes
    given: Optional[bytes] = None  # None is `-`
    steps: Optional[int] = None  # None is the default
    wanted: Optional[tuple] = None  # what is written and the status; None where the second machine is to say it


def program(shows, name, code, words=(), given=None, steps=None):
    """A row whose answer the second machine says."""
    return Row(f"{name}: {shows}", written(name, code, words), given, steps)


def by_hand(shows, name, code, lines, status, words=(), given=None, steps=None):
    """A row whose answer is worked out by hand: its lines parted by ` / `, without the last, which has no corrections."""
    text = lines.replace(" / ", "\n") + "\n"
    if status in (0, 8, 10):
        text += "corrected" + " 0" * CHANNELS[name] + "\n"
    return Row(f"{name}: {shows}", written(name, code, words), given, steps, (text.encode(), status))


def refused(shows, content, words, given=None):
    """A row whose bytes are refused by these words."""
    return Row(shows, content, given, None, (f"refused object {words}\n".encode(), 11))
