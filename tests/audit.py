#!/usr/bin/env python3
"""Audits a report that was printed with --journal: is it the report of a legal record of this script and these
captures? It reads docs/RULES.md by itself, as tests/reference.py does, whose rules, states and evaluation it
takes; nothing of the program is asked.

usage: tests/audit.py REPORT SCRIPT in|out:IF:CAPTURE ..      prints 'audit yes', or 'audit no line L'

There are four passes, and the line named is the first that fails in the first pass that fails: the form of each
line; the journal beside the editions and the one state object; each record beside its evaluation with the
journal's replies, then the asks and 'lane' lines that are left; and the whole text, written again.
"""

import re
import sys

import reference

OCTET = r"(?:0|[1-9]\d?|1\d\d|2[0-4]\d|25[0-5])"
ADDRESS = rf"{OCTET}(?:\.{OCTET}){{3}}"
NUMBER = r"(?:0|[1-9]\d*)"
POSITIVE = r"[1-9]\d*"
LANE = r"(?:[1-9]|1[0-6])"
NAME = r":\S+"
VERDICT = r"(?:allow|deny|reset|unreach \S+)"
RECORD = re.compile(
    rf"({LANE})\.({POSITIVE}) (?:(other)|malformed ([1-5])|({VERDICT}) (\d{{5}}) at ({POSITIVE})(?: (limit|full) ({NUMBER}))?)"
)
PUBLISH = re.compile(rf"publish ({POSITIVE})")
ASK = re.compile(
    rf"ask ({LANE})\.({POSITIVE}) ({NUMBER}) "
    rf"(?:lookup ({NAME})|install ({NUMBER}) (?:(keep)|limit (src-addr|src-port|dst-addr|dst-port) ({POSITIVE})) ({NAME})) "
    rf"(\S+ {ADDRESS} {NUMBER} {ADDRESS} {NUMBER}) (F?S?R?|-) "
    rf"(found {NUMBER} (?:forward|reverse)|notfound|created|exists|limit {NUMBER}|full {NUMBER})"
)
LANE_LINE = re.compile(rf"lane ({LANE}) refused ({NUMBER}) tracker ({NUMBER})")
ENTRY = re.compile(rf"{ADDRESS}/\d+ {NUMBER}|{NUMBER} {NUMBER}")
HEADS = ("end ", "fault ", "refused ", "list ", "table ", "editions ", "disabled ", "rules ", "clock ", "states ", "journal ")
WIDTHS = {"second": 2**32, "word": 2**64, "port": 2**16}


class Wrong(Exception):
    def __init__(self, line):
        super().__init__(line)
        self.line = line


def is_formed(line):
    """Whether a line, with its end, is one of the kinds of lines that a report has."""
    if not line.endswith("\n"):
        return False
    text = line[:-1]
    if record := RECORD.fullmatch(text):
        return is_record_in_range(record)
    if ask := ASK.fullmatch(text):
        return is_ask_in_range(ask)
    if lane := LANE_LINE.fullmatch(text):
        return int(lane[2]) < WIDTHS["word"] and int(lane[3]) < WIDTHS["word"]
    if publish := PUBLISH.fullmatch(text):
        return int(publish[1]) < WIDTHS["word"]
    if re.match(r"\d{5} ", text) or ENTRY.fullmatch(text):
        return True
    return text.startswith(HEADS)


def is_record_in_range(record):
    _, at, other, kind, verdict, rule, edition, cause, states = record.groups()
    if int(at) >= WIDTHS["word"]:
        return False
    if other or kind:
        return True
    return (
        (not verdict.startswith("unreach ") or is_code(verdict[8:]))
        and int(rule) < WIDTHS["port"]
        and int(edition) < WIDTHS["word"]
        and (cause is None or int(states) < WIDTHS["second"])
    )


def is_code(text):
    """Whether this is how a code of unreach is printed."""
    return any(reference.code_text(code) == text for code in range(256))


def is_ask_in_range(ask):
    flow = ask[10].split(" ")
    protocols = {reference.protocol_text(number): number for number in range(256)}
    numbers = [int(ask[3]), int(ask[5] or 0)] + [int(word) for word in re.findall(r"\d+", ask[12])]
    return (
        int(ask[2]) < WIDTHS["word"]
        and flow[0] in protocols
        and int(flow[2]) < WIDTHS["port"]
        and int(flow[4]) < WIDTHS["port"]
        and int(ask[8] or 1) < WIDTHS["port"]
        and all(number < WIDTHS["second"] for number in numbers)
        and ask[11] != ""
    )


class Ask:
    """A line of the journal that asks: what was asked, what was replied, and behind which publication."""

    def __init__(self, line, ask, after, is_late):
        self.line, self.after, self.is_late = line, after, is_late
        self.lane, self.at, self.second = int(ask[1]), int(ask[2]), int(ask[3])
        self.name = (ask[4] or ask[9])[1:]
        self.rule = None if ask[4] else int(ask[5])
        self.limit = (ask[7], int(ask[8])) if ask[7] else None
        words = ask[10].split(" ")
        protocols = {reference.protocol_text(number): number for number in range(256)}
        self.flow = (
            protocols[words[0]], reference.ip4(words[1]), int(words[2]), reference.ip4(words[3]), int(words[4])
        )
        self.flags = sum({"F": 1, "S": 2, "R": 4, "-": 0}[letter] for letter in ask[11])
        words = ask[12].split(" ")
        self.reply = (words[0], *(int(word) if word.isdigit() else word for word in words[1:]))


def names_of(config):
    """The flow names that rules of the configuration have, or had."""
    return set(config.names)


def editions_of(script_text):
    """The editions that the script makes, and its answers, as reference.Run keeps them."""
    before, live = reference.script(script_text)
    config, listings = reference.Config(), []
    for line, command in before:
        if command == ["list"] or command[0] == "table" and command[2:] == ["list"]:
            listings.append((line, command))
        else:
            config = config.apply(command)
    run = reference.Run(config)
    for line, command in listings + [step for step in live if step[1][0] != "after"]:
        run.command(line, command)
    return run


def replayed(lines, editions, states=None):
    """The asks of the journal, whose replies are the state object's; Wrong where one isn't."""
    states = states or reference.States(dict(reference.DEFAULTS))
    numbers = {}
    asks, published, greatest = [], 0, {}
    for number, line in enumerate(lines, 1):
        text = line[:-1]
        if PUBLISH.fullmatch(text):
            published += 1
            if int(text.split()[1]) != published or published > len(editions):
                raise Wrong(number)
            states.publish(editions[published - 1])
            numbers.update({rule["id"]: rule["number"] for rule in editions[published - 1].rules})
        elif found := ASK.fullmatch(text):
            if published == 0:
                raise Wrong(number)
            lane, at = int(found[1]), int(found[2])
            ask = Ask(number, found, published, at < greatest.get(lane, 0))
            greatest[lane] = max(at, greatest.get(lane, 0))
            if reply_to(ask, states, editions[published - 1]) != ask.reply:
                raise Wrong(number)
            asks.append(ask)
    if published < len(editions):
        raise Wrong(len(lines) + 1)
    return asks, states


def reply_to(ask, states, config):
    """What the states reply; None where nobody could have asked so."""
    names = names_of(config)
    if ask.rule is None:
        if ask.name not in names | {"any"}:
            return None
        reply = states.lookup(ask.flow, ask.flags, ask.second, ask.name)
        return ("found", reply[1][0], reply[2]) if reply[0] == "found" else reply
    rule = next((rule for rule in config.rules if rule["id"] == ask.rule), None)
    if rule is None or ask.name not in names:
        return None
    return states.install(ask.flow, ask.flags, ask.second, (rule["id"], rule["number"]), ask.limit, ask.name)


class Lane:
    """What the audit keeps of one capture: its records, and where its lines stand."""

    def __init__(self, word):
        self.direction, self.interface, name = word.split(":", 2)
        with open(name, "rb") as file:
            self.bytes = file.read()
        self.editions, self.counts = [], {}


def audited(report, script_text, words):
    lines = re.findall(r"[^\n]*\n|[^\n]+", report)
    if not lines:
        raise Wrong(1)
    for number, line in enumerate(lines, 1):
        if not is_formed(line):
            raise Wrong(number)
    run = editions_of(script_text)
    asks, states = replayed(lines, run.editions)
    first_records, first_lanes = {}, {}
    for number, line in enumerate(lines, 1):
        if found := RECORD.fullmatch(line[:-1]):
            first_records.setdefault((int(found[1]), int(found[2])), (number, found))
        elif found := LANE_LINE.fullmatch(line[:-1]):
            first_lanes.setdefault(int(found[1]), (number, found))
    asked = {}
    for ask in asks:
        asked.setdefault((ask.lane, ask.at), []).append(ask)
    limit = min(4194304, 33554432 // len(words))
    lanes, judged = [], set()
    for place, word in enumerate(words, 1):
        lane = Lane(word)
        lanes.append(lane)
        link, records, fault = reference.read_capture(lane.bytes, limit)
        lane.fault, lane.records = fault, len(records)
        for at, record in enumerate(records, 1):
            number, found = first_records.get((place, at), (len(lines) + 1, None))
            packet = reference.read_frame(link, record[2])
            if found is None or not is_told(found, packet, asked.get((place, at), []), run, lane, record[0]):
                raise Wrong(number)
            if isinstance(packet, dict):
                judged.add((place, at))
    left_over(lines, words, lanes, judged, first_lanes, run)
    return written_again(lines, run, states, lanes, first_records, first_lanes)


def is_told(found, packet, asks, run, lane, second):
    """Whether the line of a record is what the record comes to with these replies to its asks."""
    if not isinstance(packet, dict):
        text = packet if isinstance(packet, str) else " ".join(map(str, packet))
        return found[0].split(" ", 1)[1] == text
    if found[5] is None:
        return False
    number = int(found[7])
    if number > len(run.editions) or any(ask.is_late or ask.after != number for ask in asks):
        return False
    config, left = run.editions[number - 1], list(asks)
    if any(ask.second != second for ask in asks):
        return False

    class AskedOtherwise(Exception):
        pass

    def ask(op, flow, flags):
        if not left:
            raise AskedOtherwise
        told = left.pop(0)
        if op[0] == "lookup":
            same = told.rule is None and told.name == op[1]
        else:
            _, rule, limit, name = op
            same = (told.rule, told.limit, told.name) == (rule[0], limit, name)
        if not same or told.flow != flow or told.flags != flags & 7:
            raise AskedOtherwise
        if told.reply[0] == "found":
            rules = {rule["id"]: rule["number"] for rule in config.rules}
            rule = told.reply[1] if told.reply[1] in rules else 0
            return ("found", (rule, rules.get(rule)), told.reply[2])
        return told.reply

    hits = []
    try:
        verdict, rule, cause = reference.evaluate(
            config, packet, lane.direction, lane.interface, ask, lambda rule, total: hits.append((rule, total))
        )
    except (AskedOtherwise, StopIteration):
        return False
    text = f"{verdict} {rule['number']:05} at {number}" + (f" {cause[0]} {cause[1]}" if cause else "")
    if left or found[0].split(" ", 1)[1] != text:
        return False
    for hit, total in hits:
        packets, size = run.counts.get(hit["counter"], (0, 0))
        run.counts[hit["counter"]] = packets + 1, size + total
    lane.editions.append(number)
    return True


def left_over(lines, words, lanes, judged, first_lanes, run):
    """Lines of records that no capture gives, asks that no judged record makes, and the 'lane' lines."""
    for number, line in enumerate(lines, 1):
        if found := RECORD.fullmatch(line[:-1]):
            lane, at = int(found[1]), int(found[2])
            if lane > len(words) or at > lanes[lane - 1].records:
                raise Wrong(number)
        elif found := ASK.fullmatch(line[:-1]):
            if (int(found[1]), int(found[2])) not in judged:
                raise Wrong(number)
        elif found := LANE_LINE.fullmatch(line[:-1]):
            lane = int(found[1])
            if lane <= len(lanes) and first_lanes[lane][0] == number and not counts(found, lanes[lane - 1], run):
                raise Wrong(number)
    if any(place not in first_lanes for place in range(1, len(words) + 1)):
        raise Wrong(len(lines) + 1)


def counts(found, lane, run):
    """Whether a 'lane' line tells the sections of its docket, whose editions never fall."""
    refused, tracker = int(found[2]), int(found[3])
    is_rising = all(now >= before for before, now in zip(lane.editions, lane.editions[1:]))
    return is_rising and refused < len(run.editions) and tracker == 2 * (len(lane.editions) + refused) % 2**64


def written_again(lines, run, states, lanes, first_records, first_lanes):
    run.states = states
    run.journal = [line[:-1] for line in lines if PUBLISH.fullmatch(line[:-1]) or ASK.fullmatch(line[:-1])]
    told = []
    for place, lane in enumerate(lanes, 1):
        texts = [first_records[place, at][1][0].split(" ", 1)[1] for at in range(1, lane.records + 1)]
        told.append((texts, lane.fault))
    wanted = list(reference.report(run, told, True))[: -len(lanes)]
    wanted += [first_lanes[place][1][0] for place in range(1, len(lanes) + 1)]
    wanted = [f"{line}\n" for line in wanted]
    for number in range(max(len(lines), len(wanted))):
        if lines[number : number + 1] != wanted[number : number + 1]:
            raise Wrong(number + 1)


def main():
    report, script, *words = sys.argv[1:]
    with open(report, encoding="latin-1", newline="") as file:
        text = file.read()
    with open(script, "rb") as file:
        script_text = file.read()
    try:
        audited(text, script_text, words)
    except Wrong as wrong:
        print(f"audit no line {wrong.line}")
        sys.exit(7)
    print("audit yes")


if __name__ == "__main__":
    main()
