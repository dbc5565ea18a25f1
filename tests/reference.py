#!/usr/bin/env python3
"""A second reading of docs/RULES.md: prints the report that a serial run is to print. It is slow and plain,
shares nothing with the program, and is what tests/run holds the built program against.

usage: tests/reference.py [--journal] SCRIPT in|out:IF:CAPTURE ..

It takes scripts of the grammar without faults; a refused command before `live` ends it. Its status is that of the
run: 0, or 2, 3 or 4 behind a report.
"""

import struct
import sys

SERVICES = {
    "ftp": 21, "ssh": 22, "telnet": 23, "smtp": 25, "domain": 53, "bootps": 67, "bootpc": 68, "tftp": 69, "http": 80,
    "pop3": 110, "ntp": 123, "imap": 143, "snmp": 161, "https": 443, "imaps": 993, "pop3s": 995,
}
CODES = (
    "net host protocol port needfrag srcfail net-unknown host-unknown isolated net-prohib host-prohib tosnet toshost "
    "filter-prohib host-precedence precedence-cutoff"
).split()
FLAGS = {"fin": 1, "syn": 2, "rst": 4, "psh": 8, "ack": 16, "urg": 32}
IP_OPTIONS = {"ssrr": 137, "lsrr": 131, "rr": 7, "ts": 68}
PROTOCOLS = {"ip": 0, "all": 0, "icmp": 1, "tcp": 6, "udp": 17, "ipv6-icmp": 58, "ip4": 0, "ipv4": 0, "ip6": 0, "ipv6": 0}
FAMILIES = {"ip4": 4, "ipv4": 4, "ip6": 6, "ipv6": 6}
MASKS = {"src-addr": "source", "src-port": "sport", "dst-addr": "destination", "dst-port": "dport"}
FIELDS = {"src-ip": "source", "dst-ip": "destination", "src-port": "sport", "dst-port": "dport"}
PLAIN_OPTIONS = {"in", "out", "established", "setup", "frag"}
DEFAULTS = {"ack": 300, "syn": 20, "fin": 1, "rst": 1, "udp": 10, "short": 5, "max": 16384, "keep": 0}
LAST = 65535


class Refused(Exception):
    """A command that is refused, and why."""


# Addresses


def ip4(text):
    a, b, c, d = (int(part) for part in text.split("."))
    return a << 24 | b << 16 | c << 8 | d


def ip4_text(address):
    return ".".join(str(address >> shift & 255) for shift in (24, 16, 8, 0))


def ip6(text):
    head, gap, tail = text.partition("::")
    left = [int(group, 16) for group in head.split(":") if group]
    right = [int(group, 16) for group in tail.split(":") if group]
    groups = left + [0] * ((8 - len(left) - len(right)) if gap else 0) + right
    value = 0
    for group in groups:
        value = value << 16 | group
    return value


def ip6_text(address):
    groups = [address >> shift & 0xFFFF for shift in range(112, -1, -16)]
    best, best_length, place = 0, 1, 0
    while place < 8:
        end = place
        while end < 8 and groups[end] == 0:
            end += 1
        if end - place > best_length:
            best, best_length = place, end - place
        place = max(end, place + 1)
    texts = [f"{group:x}" for group in groups]
    if best_length < 2:
        return ":".join(texts)
    return ":".join(texts[:best]) + "::" + ":".join(texts[best + best_length:])


def prefix(text):
    """A prefix as its version, its address with the host bits cleared, and its length."""
    address, _, length = text.partition("/")
    version, width, value = (6, 128, ip6(address)) if ":" in address else (4, 32, ip4(address))
    length = int(length) if length else width
    return version, value >> width - length << width - length, length


def prefix_text(version, address, length):
    text = ip6_text(address) if version == 6 else ip4_text(address)
    return text if length == (128 if version == 6 else 32) else f"{text}/{length}"


def has(version, address, length, other_version, other):
    width = 128 if version == 6 else 32
    return version == other_version and address >> width - length == other >> width - length


# Scripts


class Words:
    """The words of a line, read from left to right."""

    def __init__(self, words):
        self.words = words

    def next(self):
        return self.words.pop(0)

    def peek(self):
        return self.words[0] if self.words else None

    def take(self, word):
        if self.peek() == word:
            self.words.pop(0)
            return True
        return False


def address_list(words):
    negated = words.take("not")
    text, items = words.next(), []
    while text:
        if text.startswith("table("):
            item, _, text = text.partition(")")
            text = text[1:]
            name, _, value = item[6:].partition(",")
            items.append(("table", name, int(value) if value else None))
        else:
            item, _, text = text.partition(",")
            items.append((item,) if item in ("any", "me") else ("net", *prefix(item)))
    return negated, items


def port(text):
    return SERVICES[text] if text in SERVICES else int(text)


def is_port_list(word):
    return word is not None and (word[0].isdigit() or word.replace("-", ",").split(",")[0] in SERVICES)


def port_list(words):
    negated = words.take("not")
    ranges = []
    for text in words.next().split(","):
        if text in SERVICES:
            ranges.append((SERVICES[text],) * 2)
        else:
            low, _, high = text.partition("-")
            ranges.append((port(low), port(high or low)))
    return negated, ranges


def signed(text, table):
    """The names that are set and those that are clear, as masks by their place in the table."""
    bits = {name: 1 << place for place, name in enumerate(table)}
    on = off = 0
    for name in text.split(","):
        if name.startswith("!"):
            off |= bits[name[1:]]
        else:
            on |= bits[name]
    return on, off


def flow_name(words):
    word = words.peek()
    return words.next()[1:] if word is not None and word.startswith(":") else "default"


def options(words):
    """The options in order, and the state option with its place among them."""
    found, state, place = [], None, 0
    while words.peek() is not None:
        negated = words.take("not")
        word = words.next()
        if word == "keep-state":
            state, place = ("keep", None, 0, flow_name(words)), len(found)
        elif word == "limit":
            mask, most = words.next(), int(words.next())
            state, place = ("limit", mask, most, flow_name(words)), len(found)
        elif word in PLAIN_OPTIONS:
            found.append((negated, word))
        elif word in ("recv", "xmit", "via"):
            found.append((negated, word, words.next()))
        elif word == "tcpflags":
            found.append((negated, word, *signed(words.next(), FLAGS)))
        elif word == "ipoptions":
            found.append((negated, word, *signed(words.next(), IP_OPTIONS)))
        elif word in ("icmptypes", "icmp6types"):
            found.append((negated, word, frozenset(int(type) for type in words.next().split(","))))
        elif word == "lookup":
            found.append((negated, word, words.next(), words.next()))
    return found, state, place


def rule_body(words):
    word = words.next()
    protocol = PROTOCOLS[word] if word in PROTOCOLS else int(word)
    body = {"family": FAMILIES.get(word), "protocol": protocol}
    words.take("from")
    body["source"] = address_list(words)
    body["sports"] = None if words.peek() == "to" else port_list(words)
    words.take("to")
    body["destination"] = address_list(words)
    after_not = words.words[1] if len(words.words) > 1 else None
    is_list = is_port_list(after_not) if words.peek() == "not" else is_port_list(words.peek())
    body["dports"] = port_list(words) if is_list else None
    body["options"], body["state"], body["state_at"] = options(words)
    return body


def draft(words):
    rule = {"number": int(words.next()) if words.peek()[0].isdigit() else 0, "set": 0, "log": None, "body": None}
    if words.take("set"):
        rule["set"] = int(words.next())
    word = words.next()
    if word == "check-state":
        rule["action"] = ("check-state", flow_name(words))
        return rule
    if word in ("allow", "accept", "pass", "permit"):
        rule["action"] = ("allow",)
    elif word in ("deny", "drop"):
        rule["action"] = ("deny",)
    elif word == "reject":
        rule["action"] = ("unreach", 1)
    elif word == "unreach":
        code = words.next()
        rule["action"] = ("unreach", CODES.index(code) if code in CODES else int(code))
    elif word in ("skipto", "call"):
        rule["action"] = (word, int(words.next()))
    else:
        rule["action"] = (word,)
    if words.take("log"):
        rule["log"] = int(words.next()) if words.take("logamount") else 0
    rule["body"] = rule_body(words)
    return rule


def script(text):
    """The commands before `live`, and the commands and waits behind it, each with its line."""
    before, live, is_live = [], [], False
    for line, whole in enumerate(text.split(b"\n"), 1):
        words = whole.partition(b"#")[0].decode().split()
        if not words:
            continue
        if words == ["live"]:
            is_live = True
        elif is_live:
            live.append((line, words))
        else:
            before.append((line, words))
    return before, live


# Configurations


class Config:
    """A plain configuration. A command makes a new one."""

    def __init__(self):
        last = {
            "number": LAST, "set": 31, "id": 0, "counter": 0, "action": ("deny",), "log": None,
            "body": rule_body(Words("ip from any to any".split())),
        }
        self.rules = [last]
        self.disabled = set()
        self.tables = {}
        self.locals = []
        self.settings = dict(DEFAULTS)
        self.names = ["default"]
        self.greatest_id = 0
        self.counters = 1

    def copy(self):
        other = Config()
        other.rules = list(self.rules)
        other.disabled = set(self.disabled)
        other.tables = {name: (kind, dict(entries)) for name, (kind, entries) in self.tables.items()}
        other.locals = list(self.locals)
        other.settings = dict(self.settings)
        other.names = list(self.names)
        other.greatest_id = self.greatest_id
        other.counters = self.counters
        return other

    def apply(self, words):
        made = self.copy()
        first = words[0]
        getattr(made, f"apply_{first}")(Words(list(words[1:])))
        return made

    def apply_add(self, words):
        rule = draft(words)
        if rule["number"] == 0:
            greatest = max([r["number"] for r in self.rules if r["number"] < LAST], default=0)
            rule["number"] = greatest + 100 if greatest + 100 <= LAST - 1 else greatest
        if rule["number"] == LAST:
            raise Refused("ReservedRule")
        if len(self.rules) >= 65535:
            raise Refused("TooManyRules")
        if self.counters >= 16777216:
            raise Refused("TooManyCounters")
        name = name_of(rule)
        if name not in (None, "any") and name not in self.names:
            if len(self.names) >= 64:
                raise Refused("TooManyNames")
            self.names.append(name)
        for table, kind in uses_of(rule["body"]):
            if self.tables.setdefault(table, (kind, {}))[0] != kind:
                raise Refused("WrongType")
        self.greatest_id += 1
        rule["id"], rule["counter"] = self.greatest_id, self.counters
        self.counters += 1
        place = next(place for place, other in enumerate(self.rules) if other["number"] > rule["number"])
        self.rules.insert(place, rule)

    def apply_delete(self, words):
        if words.take("set"):
            number = int(words.next())
            self.rules = [r for r in self.rules if r["set"] != number or r["number"] == LAST]
            return
        numbers = [int(word) for word in words.words]
        for number in numbers:
            if number == LAST:
                raise Refused("ReservedRule")
            self.demand(number)
        self.rules = [r for r in self.rules if r["number"] not in numbers]

    def demand(self, number):
        if all(r["number"] != number for r in self.rules):
            raise Refused("NoSuchRule")

    def apply_flush(self, _words):
        self.rules = [r for r in self.rules if r["set"] == 31]

    def apply_zero(self, words):
        numbers = [int(word) for word in words.words]
        for number in numbers:
            self.demand(number)
        named = [r for r in self.rules if not numbers or r["number"] in numbers]
        if self.counters + len(named) > 16777216:
            raise Refused("TooManyCounters")
        for place, rule in enumerate(self.rules):
            if not numbers or rule["number"] in numbers:
                self.rules[place] = {**rule, "counter": self.counters}
                self.counters += 1

    def apply_set(self, words):
        if words.take("move"):
            self.move(words)
        elif words.take("swap"):
            first, second = int(words.next()), int(words.next())
            if 31 in (first, second):
                raise Refused("ReservedSet")
            self.in_sets(lambda r: {first: second, second: first}.get(r["set"], r["set"]))
        else:
            disable, enable, chosen = set(), set(), None
            for word in words.words:
                if word in ("disable", "enable"):
                    chosen = disable if word == "disable" else enable
                else:
                    chosen.add(int(word))
            if 31 in disable:
                raise Refused("ReservedSet")
            self.disabled = (self.disabled | disable) - enable

    def move(self, words):
        if words.take("rule"):
            number, _, to = int(words.next()), words.next(), int(words.next())
            if to == 31:
                raise Refused("ReservedSet")
            if number == LAST:
                raise Refused("ReservedRule")
            self.demand(number)
            self.in_sets(lambda r: to if r["number"] == number else r["set"])
        else:
            origin, _, to = int(words.next()), words.next(), int(words.next())
            if 31 in (origin, to):
                raise Refused("ReservedSet")
            self.in_sets(lambda r: to if r["set"] == origin else r["set"])

    def in_sets(self, chosen):
        self.rules = [{**r, "set": chosen(r)} for r in self.rules]

    def apply_table(self, words):
        name, what = words.next(), words.next()
        if what == "create":
            if name in self.tables:
                raise Refused("EntryExists")
            kind = words.words[1] if words.words else "addr"
            self.tables[name] = (kind, {})
            return
        if what == "add":
            kind, entries = self.tables.setdefault(name, ("addr", {}))
        elif name in self.tables:
            kind, entries = self.tables[name]
        else:
            raise Refused("NoSuchTable")
        if what in ("add", "delete"):
            key = table_key(kind, words.next())
            if (key in entries) != (what == "delete"):
                raise Refused("EntryExists" if what == "add" else "NoSuchEntry")
            if what == "add":
                entries[key] = int(words.next()) if words.words else 0
            else:
                del entries[key]
        elif what == "flush":
            entries.clear()
        elif what == "destroy":
            if any(table == name for r in self.rules for table, _ in uses_of(r["body"])):
                raise Refused("TableInUse")
            del self.tables[name]
        elif what == "swap":
            other = words.next()
            if other not in self.tables:
                raise Refused("NoSuchTable")
            if self.tables[other][0] != kind:
                raise Refused("WrongType")
            self.tables[name], self.tables[other] = self.tables[other], self.tables[name]

    def apply_sysctl(self, words):
        name, _, value = words.next().removeprefix("net.inet.ip.fw.").partition("=")
        short = {"dyn_max": "max", "dyn_keep_states": "keep"}.get(name, name[4:-9])
        self.settings[short] = int(value)

    def apply_local(self, words):
        for word in words.words:
            if ip4(word) not in self.locals:
                self.locals.append(ip4(word))


def name_of(rule):
    """The flow name that a rule names, if any."""
    if rule["action"][0] == "check-state":
        return rule["action"][1]
    return rule["body"]["state"][3] if rule["body"] and rule["body"]["state"] else None


def uses_of(body):
    """The tables that a body names, each with the type that it wants, in the order of its text."""
    if body is None:
        return []
    uses = [(item[1], "addr") for end in ("source", "destination") for item in body[end][1] if item[0] == "table"]
    uses += [(o[3], "addr" if o[2].endswith("ip") else "number") for o in body["options"] if o[1] == "lookup"]
    return uses


def table_key(kind, text):
    is_address = "." in text
    if is_address != (kind == "addr"):
        raise Refused("WrongType")
    return prefix(text)[1:] if is_address else int(text)


# Canonical texts


def list_text(negated, texts):
    return " not " * negated + " " * (not negated) + ",".join(texts)


def item_text(item):
    if item[0] == "net":
        return prefix_text(*item[1:])
    if item[0] == "table":
        return f"table({item[1]})" if item[2] is None else f"table({item[1]},{item[2]})"
    return item[0]


def range_text(low, high):
    return str(low) if low == high else f"{low}-{high}"


def end_text(body, addresses, ports):
    negated, items = body[addresses]
    text = list_text(negated, map(item_text, items))
    if body[ports] is not None:
        text += list_text(body[ports][0], (range_text(*r) for r in body[ports][1]))
    return text


def masks_text(on, off, table):
    return ",".join(
        "!" * bool(off >> place & 1) + name for place, name in enumerate(table) if (on | off) >> place & 1
    )


def option_text(option):
    negated, word, *rest = option
    text = " not" * negated + f" {word}"
    if word == "tcpflags":
        text += " " + masks_text(*rest, FLAGS)
    elif word == "ipoptions":
        text += " " + masks_text(*rest, IP_OPTIONS)
    elif word in ("icmptypes", "icmp6types"):
        text += " " + ",".join(map(str, sorted(rest[0])))
    elif rest:
        text += " " + " ".join(rest)
    return text


def name_text(name):
    return "" if name == "default" else f" :{name}"


def state_text(state):
    kind, mask, most, name = state
    return (" keep-state" if kind == "keep" else f" limit {mask} {most}") + name_text(name)


def protocol_text(number):
    return {0: "ip", 1: "icmp", 6: "tcp", 17: "udp"}.get(number, str(number))


def rule_text(rule):
    """All but the number."""
    action = rule["action"]
    text = f" set {rule['set']}" * (rule["set"] != 0)
    if action[0] == "check-state":
        return text + " check-state" + name_text(action[1])
    text += f" {action[0]}"
    if action[0] == "unreach":
        text += f" {code_text(action[1])}"
    elif len(action) > 1:
        text += f" {action[1]}"
    if rule["log"] is not None:
        text += " log" + f" logamount {rule['log']}" * (rule["log"] != 0)
    body = rule["body"]
    text += f" ip{body['family']}" if body["family"] else f" {protocol_text(body['protocol'])}"
    text += " from" + end_text(body, "source", "sports") + " to" + end_text(body, "destination", "dports")
    texts = [option_text(option) for option in body["options"]]
    if body["state"]:
        texts.insert(body["state_at"], state_text(body["state"]))
    return text + "".join(texts)


def code_text(code):
    return CODES[code] if code < len(CODES) else str(code)


# Captures and headers


def read_capture(data, limit):
    """The link type, the records as second, nanosecond and bytes, and the fault with its record, if there is one."""
    if len(data) < 24:
        return None, [], (0, "ShortHeader")
    for order in "<>":
        magic = struct.unpack(order + "I", data[:4])[0]
        if magic in (0xA1B2C3D4, 0xA1B23C4D):
            break
    else:
        return None, [], (0, "BadMagic")
    if struct.unpack(order + "HH", data[4:8]) != (2, 4):
        return None, [], (0, "BadVersion")
    link = struct.unpack(order + "I", data[20:24])[0]
    if link not in (0, 1, 101, 113):
        return None, [], (0, "UnknownLink")
    scale, at, records = (1000 if magic == 0xA1B2C3D4 else 1), 24, []
    while at < len(data):
        if len(records) == limit:
            return link, records, (len(records) + 1, "TooManyPackets")
        if len(data) - at < 16:
            return link, records, (len(records) + 1, "ShortRecordHeader")
        second, fraction, captured, _ = struct.unpack(order + "IIII", data[at:at + 16])
        if captured > 262144:
            return link, records, (len(records) + 1, "RecordTooLong")
        if len(data) - at - 16 < captured:
            return link, records, (len(records) + 1, "ShortRecord")
        records.append((second, fraction * scale, data[at + 16:at + 16 + captured]))
        at += 16 + captured
    return link, records, None


def read_frame(link, frame):
    """A packet as its fields, 'other', or 'malformed K'."""
    if link == 0:
        if len(frame) < 4:
            return "malformed 1"
        families = {int.from_bytes(frame[:4], order) for order in ("little", "big")}
        version, rest = (4 if 2 in families else 6 if families & {24, 28, 30} else 0), frame[4:]
    elif link == 1:
        if len(frame) < 14:
            return "malformed 1"
        kind, rest = frame[12:14], frame[14:]
        if kind == b"\x81\x00":
            if len(frame) < 18:
                return "malformed 1"
            kind, rest = frame[16:18], frame[18:]
        version = {b"\x08\x00": 4, b"\x86\xdd": 6}.get(kind, 0)
    elif link == 113:
        if len(frame) < 16:
            return "malformed 1"
        version, rest = {b"\x08\x00": 4, b"\x86\xdd": 6}.get(frame[14:16], 0), frame[16:]
    else:
        version, rest = (6 if frame and frame[0] >> 4 == 6 else 4), frame
    return {0: lambda data: "other", 4: read_ip4, 6: read_ip6}[version](rest)


def read_ip4(data):
    if len(data) < 20:
        return "malformed 2"
    if data[0] >> 4 != 4:
        return "malformed 3"
    header = 4 * (data[0] & 15)
    if header < 20:
        return "malformed 4"
    if len(data) < header:
        return "malformed 2"
    total = int.from_bytes(data[2:4], "big") or len(data)
    if total < header:
        return "malformed 5"
    packet = {
        "version": 4, "protocol": data[9], "source": int.from_bytes(data[12:16], "big"),
        "destination": int.from_bytes(data[16:20], "big"), "total": total,
        "offset": int.from_bytes(data[6:8], "big") & 0x1FFF, "ip_options": option_types(data[20:header]),
    }
    needs = {6: 20, 17: 8, 1: 8}
    return with_transport(packet, data[header:total], needs.get(packet["protocol"], 0))


def option_types(data):
    found, at = set(), 0
    while at < len(data) and data[at] != 0:
        if data[at] == 1:
            at += 1
            continue
        if at + 1 >= len(data) or data[at + 1] < 2 or at + data[at + 1] > len(data):
            break
        found.add(data[at])
        at += data[at + 1]
    return found


def read_ip6(data):
    if len(data) < 40:
        return "malformed 2"
    if data[0] >> 4 != 6:
        return "malformed 3"
    payload = int.from_bytes(data[4:6], "big")
    total = 40 + payload if payload else len(data)
    packet = {
        "version": 6, "source": int.from_bytes(data[8:24], "big"), "destination": int.from_bytes(data[24:40], "big"),
        "total": total, "offset": 0, "ip_options": set(),
    }
    data, at, header = data[:total], 40, data[6]
    while header in (0, 43, 44, 51, 60):
        length = 8
        if header != 44:
            if at + 2 > len(data):
                break
            length = 4 * data[at + 1] + 8 if header == 51 else 8 * data[at + 1] + 8
        if at + length > len(data):
            break
        if header == 44:
            packet["offset"] = int.from_bytes(data[at + 2:at + 4], "big") >> 3
            if packet["offset"]:
                packet["protocol"] = data[at]
                return with_transport(packet, b"", None)
        header, at = data[at], at + length
    packet["protocol"] = header
    if header in (0, 43, 44, 51, 60):
        return with_transport(packet, b"", None)
    return with_transport(packet, data[at:], {6: 20, 17: 8, 58: 4}.get(header, 0))


def with_transport(packet, data, needed):
    """Ports, flags and types, where the transport header is there."""
    protocol, version = packet["protocol"], packet["version"]
    packet.update(sport=None, dport=None, flags=None, icmp=None, icmp6=None)
    packet["has_header"] = needed is not None and packet["offset"] == 0 and len(data) >= needed
    if packet["has_header"]:
        if protocol in (6, 17):
            packet["sport"], packet["dport"] = struct.unpack(">HH", data[:4])
        if protocol == 6:
            packet["flags"] = data[13]
        if protocol == 1 and version == 4:
            packet["icmp"] = data[0]
        if protocol == 58 and version == 6:
            packet["icmp6"] = data[0]
    return packet


# Bodies


def table_answer(config, name, kind, key):
    if name not in config.tables or config.tables[name][0] != kind or key is None:
        return None
    entries = config.tables[name][1]
    if kind == "number":
        return entries.get(key)
    for length in range(32, -1, -1):
        found = entries.get((key >> 32 - length << 32 - length, length))
        if found is not None:
            return found
    return None


def address_holds(config, version, address, item):
    if item[0] == "any":
        return True
    if item[0] == "me":
        return version == 4 and address in config.locals
    if item[0] == "net":
        return has(*item[1:], version, address)
    answer = table_answer(config, item[1], "addr", address) if version == 4 else None
    return answer is not None and item[2] in (None, answer)


def list_holds(config, version, address, listed):
    negated, items = listed
    return negated != any(address_holds(config, version, address, item) for item in items)


def ports_hold(number, listed):
    if listed is None:
        return True
    negated, ranges = listed
    return negated != (number is not None and any(low <= number <= high for low, high in ranges))


def interface_holds(name, pattern):
    return pattern == "any" or (name.startswith(pattern[:-1]) if pattern.endswith("*") else name == pattern)


def test_holds(config, packet, direction, interface, word, rest):
    flags = packet["flags"]
    if word in ("in", "out"):
        return direction == word
    if word == "recv":
        return direction == "in" and interface_holds(interface, rest[0])
    if word == "xmit":
        return direction == "out" and interface_holds(interface, rest[0])
    if word == "via":
        return interface_holds(interface, rest[0])
    if word == "established":
        return flags is not None and flags & 20 != 0
    if word == "setup":
        return flags is not None and flags & 18 == 2
    if word == "frag":
        return packet["offset"] != 0
    if word == "tcpflags":
        return flags is not None and flags & rest[0] == rest[0] and flags & rest[1] == 0
    if word == "icmptypes":
        return packet["icmp"] in rest[0]
    if word == "icmp6types":
        return packet["icmp6"] in rest[0]
    if word == "ipoptions":
        if packet["version"] == 6:
            return False
        there = sum(1 << place for place, kind in enumerate(IP_OPTIONS.values()) if kind in packet["ip_options"])
        return there & rest[0] == rest[0] and there & rest[1] == 0
    field, table = rest
    key = packet[FIELDS[field]]
    if field.endswith("ip"):
        return packet["version"] == 4 and table_answer(config, table, "addr", key) is not None
    return table_answer(config, table, "number", key) is not None


def body_holds(config, body, packet, direction, interface):
    version = packet["version"]
    return (
        body["family"] in (None, version)
        and body["protocol"] in (0, packet["protocol"])
        and list_holds(config, version, packet["source"], body["source"])
        and ports_hold(packet["sport"], body["sports"])
        and list_holds(config, version, packet["destination"], body["destination"])
        and ports_hold(packet["dport"], body["dports"])
        and all(
            negated != test_holds(config, packet, direction, interface, word, rest)
            for negated, word, *rest in body["options"]
        )
    )


# Dynamic states


class States:
    def __init__(self, settings):
        self.states, self.clock, self.settings = [], 0, settings

    def lifetime(self, state):
        if state["flow"][0] == 17:
            return self.settings["udp"]
        if state["flow"][0] != 6:
            return self.settings["short"]
        forward, reverse = state["forward"], state["reverse"]
        if (forward, reverse) == (2, 0):
            return self.settings["syn"]
        if forward & 2 and reverse & 2 and not (forward | reverse) & 4:
            return self.settings["fin" if forward & reverse & 1 else "ack"]
        return self.settings["rst"]

    def raise_clock(self, second):
        self.clock = max(self.clock, second)
        self.states = [s for s in self.states if s["expiry"] > self.clock]

    def lookup(self, flow, flags, second, name):
        self.raise_clock(second)
        for state in self.states:
            if flow in (state["flow"], reversed_flow(state["flow"])) and name in ("any", state["name"]):
                way = "forward" if flow == state["flow"] else "reverse"
                state[way] |= flags & 7
                state["expiry"] = self.clock + self.lifetime(state)
                return ("found", state["rule"], way)
        return ("notfound",)

    def install(self, flow, flags, second, rule, limit, name):
        self.raise_clock(second)
        if any(flow in (s["flow"], reversed_flow(s["flow"])) and s["name"] == name for s in self.states):
            return ("exists",)
        if limit:
            mask, most = limit
            count = sum(s["rule"][0] == rule[0] and masked(mask, s["flow"]) == masked(mask, flow) for s in self.states)
            if count >= most:
                return ("limit", count)
        if len(self.states) >= self.settings["max"]:
            return ("full", len(self.states))
        state = {"flow": flow, "rule": rule, "name": name, "forward": flags & 7, "reverse": 0}
        state["expiry"] = self.clock + self.lifetime(state)
        self.states.append(state)
        return ("created",)

    def publish(self, config):
        self.settings = config.settings
        ids = {r["id"] for r in config.rules}
        if self.settings["keep"]:
            for state in self.states:
                if state["rule"][0] not in ids:
                    state["rule"] = (0, LAST)
        else:
            self.states = [s for s in self.states if s["rule"][0] in ids]


def reversed_flow(flow):
    protocol, source, sport, destination, dport = flow
    return protocol, destination, dport, source, sport


def masked(mask, flow):
    return flow[{"src-addr": 1, "src-port": 2, "dst-addr": 3, "dst-port": 4}[mask]]


def flow_of(packet):
    if packet["version"] == 6 or not packet["has_header"]:
        return None
    return (
        packet["protocol"], packet["source"], packet["sport"] or 0, packet["destination"], packet["dport"] or 0
    )


# Evaluation


def evaluate(config, packet, direction, interface, ask, hit):
    """The verdict, the deciding rule, and the cause."""
    rules, place, calls, looked, found = config.rules, 0, [], set(), False
    flow, flags = flow_of(packet), packet["flags"] or 0

    def first_from(number, least=0):
        return next(at for at in range(least, len(rules) + 1) if at == len(rules) or rules[at]["number"] >= number)

    while True:
        rule = rules[place]
        name, state = name_of(rule), rule["body"]["state"] if rule["body"] else None
        if rule["set"] in config.disabled:
            place += 1
            continue
        acts = False
        is_due = name is not None and not found and name not in looked and "any" not in looked
        if is_due and flow:
            reply = ask(("lookup", name), flow, flags)
            if reply[0] == "found":
                place = next(at for at, r in enumerate(rules) if r["id"] == reply[1][0])
                rule, found, acts = rules[place], True, True
            else:
                looked.add(name)
        if not acts:
            if rule["action"][0] == "check-state" or not body_holds(config, rule["body"], packet, direction, interface):
                place += 1
                continue
            if state:
                if not flow:
                    place += 1
                    continue
                limit = (state[1], state[2]) if state[0] == "limit" else None
                reply = ask(("install", (rule["id"], rule["number"]), limit, name), flow, flags)
                if reply[0] in ("limit", "full"):
                    return "deny", rule, reply
        hit(rule, packet["total"])
        action = rule["action"]
        if action[0] in ("allow", "deny", "reset"):
            return action[0], rule, None
        if action[0] == "unreach":
            return f"unreach {code_text(action[1])}", rule, None
        if action[0] == "skipto":
            place = first_from(action[1], place + 1)
        elif action[0] == "call" and len(calls) < 16:
            calls.append(rule["number"])
            place = first_from(action[1])
        elif action[0] == "return" and calls:
            place = first_from(calls.pop() + 1)
        else:
            place += 1


# The run


class Run:
    def __init__(self, config):
        self.editions = [config]
        self.states = States(dict(DEFAULTS))
        self.states.publish(config)
        self.journal = ["publish 1"]
        self.counts = {}
        self.answers = []

    def command(self, line, words):
        config = self.editions[-1]
        if words == ["list"]:
            self.answers.append((line, "list", len(self.editions)))
        elif words[0] == "table" and words[2:] == ["list"]:
            if words[1] in config.tables:
                self.answers.append((line, words[1], len(self.editions), "table"))
            else:
                self.answers.append((line, "refused", "NoSuchTable"))
        else:
            try:
                made = config.apply(words)
            except Refused as refusal:
                self.answers.append((line, "refused", str(refusal)))
                return
            self.editions.append(made)
            self.states.publish(made)
            self.journal.append(f"publish {len(self.editions)}")

    def judge(self, lane, at, second, packet, direction, interface):
        config = self.editions[-1]

        def ask(op, flow, flags):
            if op[0] == "lookup":
                reply = self.states.lookup(flow, flags, second, op[1])
                text = f"lookup :{op[1]}"
            else:
                _, rule, limit, name = op
                reply = self.states.install(flow, flags, second, rule, limit, name)
                kind = f"limit {limit[0]} {limit[1]}" if limit else "keep"
                text = f"install {rule[0]} {kind} :{name}"
            letters = "".join(letter for letter, bit in (("F", 1), ("S", 2), ("R", 4)) if flags & bit) or "-"
            rest = f"found {reply[1][0]} {reply[2]}" if reply[0] == "found" else " ".join(map(str, reply))
            self.journal.append(f"ask {lane}.{at} {second} {text} {flow_text(flow)} {letters} {rest}")
            return reply

        def hit(rule, total):
            packets, size = self.counts.get(rule["counter"], (0, 0))
            self.counts[rule["counter"]] = packets + 1, size + total

        verdict, rule, cause = evaluate(config, packet, direction, interface, ask, hit)
        text = f"{verdict} {rule['number']:05} at {len(self.editions)}"
        return text + (f" {cause[0]} {cause[1]}" if cause else "")


def flow_text(flow):
    protocol, source, sport, destination, dport = flow
    return f"{protocol_text(protocol)} {ip4_text(source)} {sport} {ip4_text(destination)} {dport}"


def entry_lines(kind, entries):
    for key, value in sorted(entries.items()):
        yield f"{ip4_text(key[0])}/{key[1]} {value}" if kind == "addr" else f"{key} {value}"


def answer_lines(run, answer):
    line, what, *rest = answer
    if what == "refused":
        yield f"refused line {line} {rest[0]}"
        return
    config = run.editions[rest[0] - 1]
    if len(rest) == 1:
        yield f"list line {line} edition {rest[0]}"
        yield f"rules {len(config.rules)}"
        yield from (f"{r['number']:05}{rule_text(r)}" for r in config.rules)
    else:
        kind, entries = config.tables[what]
        yield f"table {what} {kind} {len(entries)} line {line} edition {rest[0]}"
        yield from entry_lines(kind, entries)


def report(run, lanes, with_journal):
    for lane, (lines, fault) in enumerate(lanes, 1):
        for at, line in enumerate(lines, 1):
            yield f"{lane}.{at} {line}"
        yield f"fault {lane} record {fault[0]} {fault[1]}" if fault else f"end {lane} records {len(lines)}"
    for answer in sorted(run.answers, key=lambda answer: answer[0]):
        yield from answer_lines(run, answer)
    last = run.editions[-1]
    yield f"editions {len(run.editions)}"
    if last.disabled:
        yield "disabled " + " ".join(map(str, sorted(last.disabled)))
    yield f"rules {len(last.rules)}"
    for rule in last.rules:
        packets, size = run.counts.get(rule["counter"], (0, 0))
        yield f"{rule['number']:05} {packets} {size}{rule_text(rule)}"
    yield f"clock {run.states.clock}"
    yield f"states {len(run.states.states)}"
    for state in run.states.states:
        yield f"{state['rule'][1]:05} {flow_text(state['flow'])} expires {state['expiry']}" + name_text(state["name"])
    if with_journal:
        yield f"journal 2 {len(run.journal)}"
        yield from run.journal
        for lane, (lines, _) in enumerate(lanes, 1):
            editions = [int(line.split(" at ")[1].split()[0]) for line in lines if " at " in line]
            refused = sum(now > before for before, now in zip([1] + editions, editions))
            yield f"lane {lane} refused {refused} tracker {2 * (len(editions) + refused)}"


def replay(script_text, words, with_journal):
    """The lines of the report, and the status."""
    before, live = script(script_text)
    config = Config()
    listings = []
    for line, command in before:
        if command == ["list"] or command[0] == "table" and command[2:] == ["list"]:
            listings.append((line, command))
            continue
        try:
            config = config.apply(command)
        except Refused as refusal:
            return [f"script line {line} {refusal}"], 2
    run = Run(config)
    for line, command in listings:
        run.command(line, command)
        if run.answers[-1][1] == "refused":
            return [f"script line {line} {run.answers[-1][2]}"], 2
    ports, captures, lanes = [], [], []
    limit = min(4194304, 33554432 // len(words))
    for word in words:
        direction, interface, name = word.split(":", 2)
        with open(name, "rb") as file:
            link, records, fault = read_capture(file.read(), limit)
        ports.append((direction, interface))
        captures.append((link, records))
        lanes.append(([], fault))
    live_answers = len(run.answers)
    for taken, (lane, at) in enumerate(merged(captures)):
        while live and not (live[0][1][0] == "after" and int(live[0][1][1]) > taken):
            line, command = live.pop(0)
            if command[0] != "after":
                run.command(line, command)
        link, records = captures[lane]
        packet = read_frame(link, records[at][2])
        if isinstance(packet, dict):
            packet = run.judge(lane + 1, at + 1, records[at][0], packet, *ports[lane])
        lanes[lane][0].append(packet)
    for line, command in live:
        if command[0] != "after":
            run.command(line, command)
    refused = any(answer[1] == "refused" for answer in run.answers[live_answers:])
    status = 3 if any(fault for _, fault in lanes) else 2 if refused else 0
    return report(run, lanes, with_journal), status


def merged(captures):
    """The records in their turn: of those that come next the least by second, nanosecond and capture."""
    heads, order = [0] * len(captures), []
    while True:
        ready = [
            (records[at][0], records[at][1], lane)
            for lane, ((_, records), at) in enumerate(zip(captures, heads)) if at < len(records)
        ]
        if not ready:
            return order
        lane = min(ready)[2]
        order.append((lane, heads[lane]))
        heads[lane] += 1


def main():
    words = sys.argv[1:]
    with_journal = "--journal" in words
    if with_journal:
        words.remove("--journal")
    with open(words[0], "rb") as file:
        text = file.read()
    lines, status = replay(text, words[1:], with_journal)
    sys.stdout.write("".join(f"{line}\n" for line in lines))
    sys.exit(status)


if __name__ == "__main__":
    main()
