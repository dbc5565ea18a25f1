#!/usr/bin/env python3
"""What moved between two reports, and the flows of each move by the captures behind them, by a reading of its own.

usage: flows.py OLD NEW CAPTURE ..

Prints the part of `report_view moves` that tells what moved. The reports have one edition.
"""
import re
import sys
from pathlib import Path

import reference

NO_FLOW = "no flow"


def outcomes(name):
    """For each capture what its records came to: the verdict, and the rule by its text."""
    lines = Path(name).read_text(encoding="utf-8").split("\n")
    begin = lines.index("editions 1")
    count = next(at for at in range(begin, len(lines)) if lines[at].startswith("rules "))
    texts = {}
    for line in lines[count + 1:count + 1 + int(lines[count].split()[1])]:
        number, _, _, text = line.split(" ", 3)
        texts[number] = texts.get(number, "") + ", by " + text
    captures = {}
    for line in lines:
        told = re.match(r"([0-9]+)\.[0-9]+ (.*)$", line)
        if not told:
            continue
        judged = re.match(r"(.*) ([0-9]{5}) at 1( limit [0-9]+| full [0-9]+)?$", told.group(2))
        if judged:
            causes = {None: "", " limit": " at a limit", " full": " with all states taken"}
            cause = judged.group(3) and judged.group(3).rsplit(" ", 1)[0]
            text = judged.group(1) + causes[cause] + texts[judged.group(2)]
        else:
            text = re.sub("^malformed ", "malformed, kind ", told.group(2)).replace("other", "no IP")
        captures.setdefault(int(told.group(1)), []).append(text)
    return captures


def flow(link, frame):
    packet = reference.read_frame(link, frame)
    if isinstance(packet, str) or not packet["has_header"]:
        return NO_FLOW
    text = reference.ip4_text if packet["version"] == 4 else reference.ip6_text
    ends = ((packet["source"], packet["sport"]), (packet["destination"], packet["dport"]))
    words = [f"{text(address)} {port or 0}" for address, port in ends]
    return " ".join([reference.protocol_text(packet["protocol"])] + words)


def add(spans, key, number):
    records, first, _ = spans.get(key, (0, number, number))
    spans[key] = (records + 1, first, number)


def main():
    old, new, names = outcomes(sys.argv[1]), outcomes(sys.argv[2]), sys.argv[3:]
    moves, flows = {}, {}
    for capture, name in enumerate(names, 1):
        link, records, fault = reference.read_capture(Path(name).read_bytes(), 4194304)
        assert fault is None and len(records) == len(old.get(capture, []))
        for number, (was, now, (_, _, frame)) in enumerate(zip(old[capture], new[capture], records), 1):
            if was != now:
                add(moves, (capture, was, now), number)
                add(flows.setdefault((capture, was, now), {}), flow(link, frame), number)
    if not moves:
        return
    width = max(len(was) for _, was, _ in moves)
    print("  records  capture    first     last  " + "then".ljust(width) + "  now")
    for move, (records, first, last) in sorted(moves.items(), key=lambda m: (-m[1][0], m[0][0], m[1][1])):
        capture, was, now = move
        print(f"{records:9}{capture:9}{first:9}{last:9}  {was.ljust(width)}  {now}")
        told = sorted(flows[move].items(), key=lambda f: (-f[1][0], f[1][1]))
        shown = told if len(told) <= 11 else told[:10]
        for text, (records, first, last) in shown:
            print(f"{records:9}{'':9}{first:9}{last:9}    {text}")
        if len(told) > len(shown):
            rest = told[len(shown):]
            print(f"{'':36}    and {len(rest)} flows more with {sum(f[1][0] for f in rest)} records")


main()
