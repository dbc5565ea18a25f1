#!/usr/bin/env python3
"""Makes a script and captures from a number, the same at each run, for tests/reference.py and the program to be
held against each other: rules of every action and option over few hosts and ports, so that much of them is met.

usage: tests/generate.py NUMBER FOLDER [TIMES]      writes FOLDER/script, FOLDER/1 and on, and FOLDER/words, one word
                                                    a line; the captures' seconds lie TIMES times as far apart
"""

import os
import random
import struct
import sys

HOSTS = ["10.0.0.1", "10.0.0.2", "10.0.1.1", "192.0.2.1", "192.0.2.80"]
HOSTS6 = ["2001:db8::1", "2001:db8::2", "fe80::1"]
PORTS = [22, 53, 80, 1025, 5000]
NUMBERS = [100, 100, 200, 300, 400, 500, 600, 700, 65534]
NAMES = ["", "", "", " :web", " :dns", " :default"]


class Maker:
    def __init__(self, number, times):
        self.random, self.times = random.Random(number), times
        self.choice = self.random.choice
        self.chance = lambda share: self.random.random() < share

    def address(self):
        if self.chance(0.3):
            return "any"
        if self.chance(0.1):
            return self.choice(["me", "table(t)", "table(t,1)", "table(u)"])
        if self.chance(0.1):
            return self.choice(["2001:db8::/32", "2001:db8::1", "fe80::/10", "::/0"])
        return self.choice(HOSTS) + self.choice(["", "", "/24", "/16", "/8", "/31", "/0"])

    def addresses(self):
        items = ",".join(self.address() for _ in range(self.choice([1, 1, 1, 2, 3])))
        return "not " * self.chance(0.1) + items

    def ports(self):
        if self.chance(0.6):
            return ""
        ranges = [str(self.choice(PORTS)), "1024-65535", "http", f"{self.choice(PORTS)},22", "domain-100"]
        return " not" * self.chance(0.1) + " " + self.choice(ranges)

    def option(self):
        plain = [
            "in", "out", "established", "setup", "frag", "recv em0", "xmit em*", "via any", "tcpflags syn,!ack",
            "tcpflags fin", "tcpflags !rst,!urg", "icmptypes 0,8", "icmptypes 3", "icmp6types 128,129", "ipoptions !rr",
            "ipoptions rr,ts", "lookup src-ip t", "lookup dst-port n", "lookup src-port n",
        ]
        return " not" * self.chance(0.2) + " " + self.choice(plain)

    def state(self):
        name = self.choice(NAMES)
        if self.chance(0.6):
            return " keep-state" + name
        mask = self.choice(["src-addr", "src-port", "dst-addr", "dst-port"])
        return f" limit {mask} {self.choice([1, 2, 3])}" + name

    def action(self):
        share = self.random.random()
        if share < 0.35:
            return self.choice(["allow", "pass", "permit", "accept"])
        if share < 0.5:
            return self.choice(["deny", "drop", "reset", "reject", "unreach port", "unreach 77"])
        if share < 0.7:
            return "count"
        if share < 0.8:
            return f"skipto {self.choice(NUMBERS)}"
        if share < 0.9:
            return f"call {self.choice(NUMBERS)}"
        return "return"

    def add(self):
        number = f" {self.choice(NUMBERS)}" if self.chance(0.8) else ""
        group = f" set {self.choice([1, 2, 3, 31])}" if self.chance(0.25) else ""
        if self.chance(0.12):
            return f"add{number}{group} check-state" + self.choice(NAMES + [" :any"])
        log = self.choice([" log", " log logamount 7"]) if self.chance(0.05) else ""
        protocol = self.choice(["ip", "ip", "all", "tcp", "tcp", "udp", "udp", "icmp", "ip4", "ip6", "58", "47"])
        options = [self.option() for _ in range(self.choice([0, 0, 0, 1, 1, 2]))]
        if self.chance(0.35):
            options.insert(self.random.randrange(len(options) + 1), self.state())
        return (
            f"add{number}{group} {self.action()}{log} {protocol} from {self.addresses()}{self.ports()} "
            f"to {self.addresses()}{self.ports()}" + "".join(options)
        )

    def edit(self, may_list=True):
        """A command that may be refused."""
        number, group, other = self.choice(NUMBERS), self.choice([0, 1, 2, 31]), self.choice([0, 1, 2, 3])
        edits = [
            self.add(), self.add(), f"delete {number}", f"delete set {group}", f"zero {number}", "zero",
            f"set disable {group}", f"set disable {other} enable {group}", f"set enable {other}",
            f"set move {other} to {group}", f"set move rule {number} to {other}", f"set swap {other} {group}",
            f"table t add {self.choice(HOSTS)}/{self.choice([8, 16, 24, 32])} {self.choice([1, 2])}",
            f"table t delete {self.choice(HOSTS)}", "table t swap u", "table u flush", f"table n add {self.choice(PORTS)}",
            f"table n delete {self.choice(PORTS)}", f"local {self.choice(HOSTS)}", "sysctl dyn_udp_lifetime=2",
            f"sysctl dyn_max={self.choice([1, 3, 16384])}", f"sysctl dyn_keep_states={self.choice([0, 1])}",
            "sysctl net.inet.ip.fw.dyn_ack_lifetime=4", "flush",
        ]
        if may_list:
            edits += ["list", "table t list", "table n list", "table w list"]
        return self.choice(edits)

    def script(self):
        lines = ["# made from a number", f"local {self.choice(HOSTS)}", "table t create", "table u create type addr",
                 "table n create type number", f"table n add {self.choice(PORTS)} 3"]
        for place, length in enumerate(self.random.sample([0, 8, 16, 24, 32], 3)):
            lines.append(f"table t add {HOSTS[place]}/{length} {place}")
        if self.chance(0.5):
            lines.append(f"sysctl dyn_max={self.choice([2, 4, 6])}")
        lines += [self.add() for _ in range(self.random.randrange(2, 14))]
        if self.chance(0.3):
            lines.append(self.choice(["set disable 1", "set disable 2 3", "set swap 1 2"]))
        if self.chance(0.3):
            lines.append(self.choice(["list", "table t list"]))
        if self.chance(0.8):
            lines.append("live")
            taken = 0
            for _ in range(self.random.randrange(8)):
                if self.chance(0.6):
                    taken += self.random.randrange(30)
                    lines.append(f"after {taken}")
                lines.append(self.edit())
        return "".join(f"{line}\n" for line in lines)

    def packet(self):
        share = self.random.random()
        if share < 0.05:
            return bytes(self.random.randrange(256) for _ in range(self.random.randrange(48)))
        if share < 0.15:
            return self.packet6()
        source, destination = self.random.sample(HOSTS, 2)
        protocol = self.choice([6, 6, 6, 17, 17, 1, 47])
        offset = self.choice([0] * 12 + [185])
        options = self.choice([b""] * 10 + [b"\x07\x07\x04\x00\x00\x00\x00\x00", b"\x44\x04\x05\x00"])
        payload = self.transport(protocol)
        total = self.choice([8, 24]) if self.chance(0.03) else 20 + len(options) + len(payload)
        header = struct.pack(">BBHHHBBH", 0x45 + len(options) // 4, 0, total, 0, offset, 64, protocol, 0)
        whole = header + quad(source) + quad(destination) + options + payload
        return whole[:self.random.randrange(len(whole))] if self.chance(0.03) else whole

    def packet6(self):
        source, destination = self.random.sample(HOSTS6, 2)
        protocol = self.choice([6, 17, 58, 59])
        payload = self.transport(protocol)
        first = protocol
        if self.chance(0.3):
            payload, first = struct.pack(">BBHI", protocol, 0, self.choice([0, 8, 1]), 7) + payload, 44
        return struct.pack(">IHBB", 6 << 28, len(payload), first, 64) + eight(source) + eight(destination) + payload

    def transport(self, protocol):
        source, destination = self.choice(PORTS), self.choice(PORTS)
        if protocol == 6:
            flags = self.choice([2, 2, 2, 18, 16, 16, 17, 1, 4, 20, 0, 24, 255])
            return struct.pack(">HHIIBBHHH", source, destination, 0, 0, 0x50, flags, 65535, 0, 0)
        if protocol == 17:
            return struct.pack(">HHHH", source, destination, 8, 0)
        if protocol in (1, 58):
            return bytes([self.choice([0, 3, 8, 128, 129])]) + bytes(7)
        return bytes(4)

    def frame(self, link):
        """A packet behind a link header, which a raw frame doesn't have. Some headers tell a type that is no IP, or the
        other version's, and some frames end within the header or right behind it."""
        packet = self.packet()
        is_six = (packet[:1] != b"" and packet[0] >> 4 == 6) != self.chance(0.02)
        kind = b"\x08\x06" if self.chance(0.03) else b"\x86\xdd" if is_six else b"\x08\x00"
        if link == 0:
            family = self.choice([24, 28, 30]) if is_six else 2
            header = struct.pack(self.choice("<>") + "I", 7 if self.chance(0.03) else family)
        elif link == 1:
            tags = self.choice([b""] * 4 + [b"\x81\x00\x00\x07", b"\x81\x00\x00\x07" * 2, b"\x88\xa8\x00\x07"])
            header = bytes(12) + tags + kind
        elif link == 113:
            header = bytes(14) + kind
        else:
            header = b""
        whole = header + packet
        return whole[:self.random.randrange(len(header) + 1)] if self.chance(0.03) else whole

    def capture(self):
        """A capture of one of the four link types, in either byte order, in microseconds or nanoseconds; some end too
        early."""
        order, is_nanos = self.choice("<<<>"), self.chance(0.2)
        magic = 0xA1B23C4D if is_nanos else 0xA1B2C3D4
        link = self.choice([101, 101, 1, 1, 0, 113])
        data = struct.pack(order + "IHHIIII", magic, 2, 4, 0, 0, 262144, link)
        second = 1000
        for _ in range(self.random.randrange(60)):
            second = max(0, second + self.choice([0, 0, 0, 0, 1, 1, 2, 5, -3]))
            frame = self.frame(link)
            fraction = self.random.randrange(1000)
            data += struct.pack(order + "IIII", second * self.times, fraction, len(frame), len(frame)) + frame
        return data[:self.random.randrange(len(data))] if self.chance(0.08) else data


def quad(text):
    return bytes(int(part) for part in text.split("."))


def eight(text):
    head, _, tail = text.partition("::")
    groups = [int(group, 16) for group in head.split(":")]
    return struct.pack(">8H", *groups, *[0] * (7 - len(groups)), int(tail, 16))


def main():
    number, folder = int(sys.argv[1]), sys.argv[2]
    maker = Maker(number, int(sys.argv[3]) if len(sys.argv) > 3 else 1)
    with open(os.path.join(folder, "script"), "w", encoding="ascii") as file:
        file.write(maker.script())
    words = ["--journal"] if maker.chance(0.8) else []
    words.append("script")
    for capture in range(1, maker.choice([1, 1, 2, 3, 5, 16]) + 1):
        with open(os.path.join(folder, str(capture)), "wb") as file:
            file.write(maker.capture())
        words.append(f"{maker.choice(['in', 'out'])}:{maker.choice(['em0', 'em1', 'lo0'])}:{capture}")
    with open(os.path.join(folder, "words"), "w", encoding="ascii") as file:
        file.write("".join(f"{word}\n" for word in words))


if __name__ == "__main__":
    main()
