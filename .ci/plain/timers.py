"""Timers: each has a period, a tolerance, a count of ticks and a mark; tables have them by their numbers."""

COUNT_MOST = 4294967295


class Timer:
    def __init__(self, period, tolerance, is_marked=False):
        self.period = period
        self.tolerance = tolerance
        self.count = 0
        self.is_marked = is_marked

    def tick(self):
        """A count that is full stands still."""
        self.count = min(self.count + 1, COUNT_MOST)

    def is_due(self):
        return self.is_marked and self.count >= self.period + self.tolerance

    def fire(self):
        self.count = 0
        self.is_marked = False


def ticked(timers):
    """A tick of timers by their tables: the tables that are told, which are all that are marked where one is due."""
    for timer in timers.values():
        timer.tick()
    return fired(timers) if any(timer.is_due() for timer in timers.values()) else []


def fired(timers):
    """The tables that are marked, whose timers fire, by rising number."""
    return sorted(table for table, timer in timers.items() if timer.is_marked)
