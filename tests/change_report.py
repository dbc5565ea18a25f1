#!/usr/bin/env python3
"""Changes one thing of a report, which one a number says, so that an audit has to refuse it: a digit, a word, or a
line that is dropped, doubled or swapped with another.

usage: tests/change_report.py NUMBER <REPORT >CHANGED
"""

import random
import re
import sys


def changed_digit(choose, lines):
    places = [(at, found.start()) for at, line in enumerate(lines) for found in re.finditer(r"\d", line)]
    at, column = choose.choice(places)
    other = choose.choice([digit for digit in "0123456789" if digit != lines[at][column]])
    lines[at] = lines[at][:column] + other + lines[at][column + 1 :]


def changed_word(choose, lines):
    at = choose.randrange(len(lines))
    words = lines[at].split(" ")
    place = choose.randrange(len(words))
    pool = {word for line in lines for word in line.split(" ")} - {words[place]}
    words[place] = choose.choice(sorted(pool))
    lines[at] = " ".join(words)


def dropped_line(choose, lines):
    lines.pop(choose.randrange(len(lines)))


def doubled_line(choose, lines):
    at = choose.randrange(len(lines))
    lines.insert(choose.randrange(len(lines) + 1), lines[at])


def swapped_lines(choose, lines):
    first, second = choose.sample(range(len(lines)), 2)
    lines[first], lines[second] = lines[second], lines[first]


CHANGES = [changed_digit, changed_digit, changed_word, changed_word, dropped_line, doubled_line, swapped_lines]


def main():
    choose = random.Random(int(sys.argv[1]))
    text = sys.stdin.read()
    made = text
    while made == text:
        lines = text.split("\n")[:-1]
        choose.choice(CHANGES)(choose, lines)
        made = "".join(f"{line}\n" for line in lines)
    sys.stdout.write(made)


if __name__ == "__main__":
    main()
