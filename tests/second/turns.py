"""Turns of control and channels, with a queue for each channel, and the journal of what they perform."""
from itertools import chain, cycle

from second.lanes import Lanes
from second.schedules import CONTROL

MOST_WAITING = 8  # operations, of a channel
MOST_KEPT = 100_000  # entries of the journal


class Operation:
    """An operation of a run: its number, whether it is a Show, and its answers, one of each channel."""

    def __init__(self, number, is_show, answers):
        self.number = number
        self.is_show = is_show
        self.answers = answers


class Kept(Lanes):
    """Lanes that keep their operations."""

    def __init__(self, *given):
        super().__init__(*given)
        self.operations = []

    def answers(self, right):
        number, given = self.performed, super().answers(right)
        self.operations.append(Operation(number, False, given))
        return given

    def show(self, place):
        number = self.performed
        try:
            return super().show(place)
        finally:
            self.operations[number].is_show = True


def turns(schedule, channels):
    """Those of the schedule, and then rounds without end."""
    return chain(schedule, cycle([CONTROL, *range(channels)]))


def journal(operations, schedule, channels):
    """What the turns perform, up to as many entries as are kept: channel, number of the operation, answer."""
    to_issue, queues, entries = list(operations), [[] for _ in range(channels)], []
    for turn in turns(schedule, channels):
        if not to_issue and not any(queues) or len(entries) == MOST_KEPT:
            return entries
        if turn == CONTROL:
            is_full = any(len(queue) == MOST_WAITING for queue in queues)
            is_open = any(it.is_show for queue in queues for it in queue)
            if to_issue and not is_full and not is_open:
                operation = to_issue.pop(0)
                for queue in queues:
                    queue.append(operation)
        elif queues[turn]:
            operation = queues[turn].pop(0)
            entries.append((turn, operation.number, operation.answers[turn]))


def journal_by_counts(operations, schedule, channels):
    """The same by counts alone: how many operations are issued, and how many each channel has performed."""
    issued, performed, entries = 0, [0] * channels, []
    for turn in turns(schedule, channels):
        if min(performed) == len(operations) or len(entries) == MOST_KEPT:
            return entries
        if turn != CONTROL:
            if performed[turn] < issued:
                entries.append((turn, performed[turn], operations[performed[turn]].answers[turn]))
                performed[turn] += 1
        elif issued < len(operations) and issued - min(performed) < MOST_WAITING:
            # The last one alone may be a Show that is open, since nothing is issued after it.
            if not (issued and operations[issued - 1].is_show and min(performed) < issued):
                issued += 1


def journal_text(entries):
    """A line for each entry."""
    return "".join(f"j {channel} {number} {answer}\n" for channel, number, answer in entries).encode()
