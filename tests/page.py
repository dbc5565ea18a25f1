#!/usr/bin/env python3
"""Parses a page of report_view, and compares its figures with counts over the report.

usage: page.py [--script SCRIPT] PAGE REPORT [MOVED VERDICTS STAYED]
                                  the script by which the page tells live states, which tests/live_states.py counts;
                                  how many records moved, how many of them to another verdict, and how many stayed,
                                  as the page is to tell them

Prints one line for each figure that differs; nothing where all is as it should be.
"""
import re
import sys
from collections import Counter
from html.parser import HTMLParser

sys.dont_write_bytecode = True

import live_states

VOID = {"meta", "rect", "br"}


class Page(HTMLParser):
    """The text of each element with an id, the cells of the tables, and what the strips' titles tell."""

    def __init__(self):
        super().__init__(convert_charrefs=True)
        self.open, self.ids, self.rows, self.titles, self.faults = [], {}, {}, [], []
        self.cell = None

    def handle_starttag(self, tag, attributes):
        given = dict(attributes)
        if tag in ("script", "link", "img", "iframe", "base"):
            self.faults.append(f"an element {tag}")
        for name, value in given.items():
            if name.startswith("on") or name in ("href", "src") or "http" in (value or ""):
                self.faults.append(f"an attribute {name}")
        if tag not in VOID:
            self.open.append((tag, given.get("id")))
        if tag == "tr":
            self.rows.setdefault(self.table(), []).append([])
        if tag == "td":
            self.rows[self.table()][-1].append("")

    def handle_startendtag(self, tag, attributes):
        if tag not in VOID:
            self.faults.append(f"an empty element {tag}")

    def handle_endtag(self, tag):
        if not self.open or self.open[-1][0] != tag:
            self.faults.append(f"an end of {tag}")
        else:
            self.open.pop()

    def table(self):
        return next((i for t, i in reversed(self.open) if t == "table"), None)

    def handle_data(self, data):
        for _, identity in self.open:
            if identity is not None:
                self.ids[identity] = self.ids.get(identity, "") + data
        if any(t == "td" for t, _ in self.open):
            self.rows[self.table()][-1][-1] += data
        if self.open and self.open[-1][0] == "title" and any(t == "g" for t, _ in self.open):
            self.titles.append(data)


def columns(page, form):
    """What the titles of this form tell: the second of a column, and its count."""
    told = [re.match(form, title) for title in page.titles]
    return [(int(one.group(1)), int(one.group(2))) for one in told if one]


def main():
    script = None
    if sys.argv[1] == "--script":
        script = open(sys.argv[2], "rb").read()
        del sys.argv[1:3]
    page, report = Page(), open(sys.argv[2], encoding="utf-8", errors="replace").read().split("\n")
    page.feed(open(sys.argv[1], encoding="utf-8").read())
    page.close()
    for fault in page.faults:
        print("not well formed:", fault)
    if page.open:
        print("not ended:", page.open)

    records = [line.split() for line in report if re.match(r"[0-9]+\.[0-9]+ ", line)]
    at = {line.split()[0]: i for i, line in enumerate(report) if line.split()[:1] in (["editions"], ["states"])}
    first = next(i for i in range(at["editions"], len(report)) if report[i].startswith("rules "))
    rules = [line.split(" ", 3) for line in report[first + 1:first + 1 + int(report[first].split()[1])]]

    def same(name, wanted, got):
        if str(wanted) != str(got):
            print(f"{name}: {got} in the page, {wanted} in the report")

    same("records", len(records), page.ids.get("records"))
    same("captures", sum(bool(re.match("(end|fault) [0-9]+ record", line)) for line in report), page.ids.get("captures"))
    same("editions", report[at["editions"]].split()[1], page.ids.get("editions"))
    same("states", report[at["states"]].split()[1], page.ids.get("states"))
    same("rules", len(rules), page.ids.get("rules"))
    same("never", sum(rule[1] == "0" for rule in rules), page.ids.get("never"))
    packets = sum(int(rule[1]) for rule in rules)
    last = sum(int(rule[1]) for rule in rules if rule[0] == "65535")
    share = last * 1000 // max(packets, 1)
    same("share", f"{share // 10}.{share % 10} %", page.ids.get("share"))
    rows = [row for row in page.rows.get("counted", []) if row]
    same("rows", len(rules), len(rows))
    for rule, row in zip(rules, rows):
        same(f"rule {rule[0]}", (int(rule[0]), rule[3], rule[1], rule[2]), (int(row[0]), row[1], row[2], row[4]))

    words = {"allow": "allowed", "deny": "denied", "reset": "denied with an answer", "unreach": "denied with an answer"}
    wanted = Counter(words.get(line[1], "not judged") for line in records)
    got = Counter()
    for title in page.titles:
        if not title.startswith("records "):
            continue
        told = re.match(r"records ([0-9]+) to ([0-9]+):(.*)", title)
        parts = re.findall(r"([0-9]+) (allowed|denied with an answer|denied|not judged|moved|stayed)", told.group(3))
        same(f"the bin {title!r}", int(told.group(2)) - int(told.group(1)) + 1, sum(int(n) for n, _ in parts))
        for count, word in parts:
            got[word] += int(count)
    ids = {"allowed": "allowed", "denied": "denied", "denied with an answer": "answered", "not judged": "unread"}
    for word, identity in ids.items():
        same(f"records {word} in the strips", wanted[word], got[word])
        same(f"records {word}", wanted[word], page.ids.get(identity))

    disabled = next((line.split(" ", 1)[1] for line in report if line.startswith("disabled ")), None)
    same("disabled sets", disabled, page.ids.get("disabled"))
    journal = next((line.split()[2] for line in report if line.startswith("journal 2 ")), None)
    same("entries", journal, page.ids.get("entries"))
    seconds = [re.match(r"from second [0-9]+: ([0-9]+) asks, ([0-9]+) states made$", title) for title in page.titles]
    seconds = [told for told in seconds if told]
    same("asks", sum(line.startswith("ask ") for line in report), sum(int(told.group(1)) for told in seconds))
    made = sum(line.startswith("ask ") and line.endswith(" created") for line in report)
    same("states made", made, sum(int(told.group(2)) for told in seconds))
    if seconds:
        same("all states made", made, page.ids.get("made"))
    begins = [int(re.match(r"from second ([0-9]+):", told.group(0)).group(1)) for told in seconds]
    counts = [sum(int(told.group(2)) for told in seconds[:at + 1]) for at in range(len(seconds))]
    so_far = list(zip(begins, counts)) if made and script is None else []
    same("states made so far", so_far, columns(page, r"up to the column of second ([0-9]+): ([0-9]+) states made$"))
    live = live_states.live_counts("\n".join(report), script) if script is not None else []
    most = max((count for _, count in live), default=0)
    same("live states", live if most else [], columns(page, r"in the column of second ([0-9]+): at most ([0-9]+) live states$"))
    same("most live states", most if live else None, page.ids.get("most"))
    if len(sys.argv) > 3:
        same("moved", sys.argv[3], page.ids.get("moved"))
        same("verdicts", sys.argv[4], page.ids.get("verdicts"))
        same("stayed", sys.argv[5], page.ids.get("stayed"))
        if sys.argv[3] != "0":
            same("records moved in the strips", sys.argv[3], got["moved"])
        same("records of the moves", sys.argv[3], sum(int(row[0]) for row in page.rows.get("moves", []) if row))


main()
