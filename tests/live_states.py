#!/usr/bin/env python3
"""Counts the states that live along a report's journal, by the script behind it: for each column of the page's chart
the greatest number of states that lived at once in its seconds. It goes second by second over the states of
tests/reference.py, as tests/audit.py asks them; nothing of the program is asked.

usage: tests/live_states.py REPORT SCRIPT      prints for each column the second at which it begins, and its count;
                                               'line L' where the journal isn't what the script gives,
                                               by line L of the report: one of no form first, as an audit does
"""

import sys

sys.dont_write_bytecode = True

import audit
import reference

MOST_COLUMNS = 200


class Watched(reference.States):
    """States that note behind each ask and each publication the clock, and when the states die."""

    def __init__(self, settings):
        super().__init__(settings)
        self.noted = []

    def note(self):
        self.noted.append((self.clock, [state["expiry"] for state in self.states]))

    def lookup(self, *asked):
        reply = super().lookup(*asked)
        self.note()
        return reply

    def install(self, *asked):
        reply = super().install(*asked)
        self.note()
        return reply

    def publish(self, config):
        super().publish(config)
        self.note()


def journal_of(report):
    """The journal's lines, and the number of the line before them."""
    lines = report.splitlines(keepends=True)
    head = next(at for at, line in enumerate(lines) if line.startswith("journal 2 "))
    return lines[head + 1 : head + 1 + int(lines[head].split()[2])], head + 1


def columns_of(lines):
    """The first second of each column, and how many seconds each has."""
    seconds = [int(line.split()[2]) for line in lines if line.startswith("ask ")]
    if not seconds:
        return [], 1
    size = (max(seconds) - min(seconds) + 1) // MOST_COLUMNS + 1
    return list(range(min(seconds), max(seconds) + 1, size)), size


def live_at_most(noted, second):
    """The most that lived at once in a second: at its beginning, or behind an ask in it."""
    before = [expiries for clock, expiries in noted if clock < second][-1:]
    at_first = [sum(expiry > second for expiry in expiries) for expiries in before]
    return max([0] + at_first + [len(expiries) for clock, expiries in noted if clock == second])


def live_counts(report, script):
    """The first second and the count of each column; audit.Wrong where a line isn't what the script gives."""
    lines, before_them = journal_of(report)
    states = Watched(dict(reference.DEFAULTS))
    for number, line in enumerate(lines, 1):
        if not audit.is_formed(line):
            raise audit.Wrong(before_them + number)
    try:
        audit.replayed(lines, audit.editions_of(script).editions, states)
    except audit.Wrong as wrong:
        raise audit.Wrong(before_them + wrong.line) from None
    begins, size = columns_of(lines)
    return [(begin, max(live_at_most(states.noted, begin + at) for at in range(size))) for begin in begins]


def main():
    with open(sys.argv[1], encoding="latin-1", newline="") as file:
        report = file.read()
    with open(sys.argv[2], "rb") as file:
        script = file.read()
    try:
        for begin, count in live_counts(report, script):
            print(begin, count)
    except audit.Wrong as wrong:
        print("line", wrong.line)


if __name__ == "__main__":
    main()
