#!/usr/bin/env python3
"""Checks of generate2.py: same bytes again, right lengths, and how far its files reach, which is
counted over what the twin of the MultiKron II answers for seeds 0 to 7. Needs rustc."""

import collections
import os
import struct
import subprocess
import sys
import tempfile

sys.dont_write_bytecode = True
from generate2 import generate  # noqa: E402

COUNT = 32768
KINDS = ("hardware reset", "write", "read", "Timestamp ticks", "node ticks", "external events", "send", "buffer send")
FIELDS = {8: "Enable", 10: "Mode", 12: "Clock Select"}
CLOCKS = ("", "node", "tenth", "hundredth", "Timestamp", "node", "tenth", "hundredth")  # by Clock Select's codes
EVENTS = ("software", "external", *CLOCKS[1:5], *["gated " + clock for clock in CLOCKS[1:5]])
seen = collections.Counter()
checks = []  # whether each is good, and what it is about


class Follower:
    """What a chip would hold, as far as the counts need it; replies are the twin's."""

    def __init__(self, time=0):
        self.time, self.phase, self.high, self.narrow, self.counter = time, 0, 0, False, [0] * 16
        self.field = {8: [1] * 16, 10: [4] * 16, 12: [4] * 16}
        self.busy = self.inside = False  # a Resource sample held, no word sent since; in the middle of a sample

    def event(self, i, kind, amount=1):  # counter i's own Mode and Clock Select choose it
        paired = self.field[10][i & 14] & 8
        if paired and i % 2:
            seen["paired odd counter, " + kind] += self.field[8][i] >> 1 & 1
        elif self.field[8][i] & 2:
            total = self.counter[i] + amount
            self.counter[i] = total % 2**32
            seen["%s: over 2^32, %s" % ("paired" if paired else "single", kind)] += total >> 32
            if paired and total >> 32:
                self.counter[i + 1] = (self.counter[i + 1] + 1) % 2**32
                seen["paired: over 2^64, " + kind] += self.counter[i + 1] == 0

    def ticks(self, kind, count, high):
        before, after = self.phase, self.phase + count
        self.time, self.phase = (self.time + count, before) if kind == 3 else (self.time, after % 100)
        amounts = {"Timestamp": count} if kind == 3 else {
            "node": count, "tenth": after // 10 - before // 10, "hundredth": after // 100}
        for i in range(16):
            mode, clock = self.field[10][i] & 7, CLOCKS[self.field[12][i] & 7]
            if amounts.get(clock) and (mode in (1, 5) or mode in (3, 7) and high >> i & 1):
                self.event(i, clock if mode in (1, 5) else "gated " + clock, amounts[clock])

    def write_fields(self, address, data):
        fields = [data >> 4 * i & 15 for i in range(16)]
        heeded = [code & (3 if address == 8 else 7) != 0 for code in fields]
        seen[FIELDS[address] + " with one field among others that change nothing"] += sum(heeded) == 1
        for i, code in enumerate(fields):
            seen[FIELDS[address], i, code] += 1
            if address == 10 and i % 2 == 0 and heeded[i] and (code ^ self.field[10][i]) & 8:
                seen["paired in mid-count" if code & 8 else "parted in mid-count"] += self.counter[i] > 0
            if address == 8 and code & 3 == 3:
                seen["one half of a pair reset"] += self.field[10][i & 14] & 8 > 0 and fields[i ^ 1] & 3 != 3
                self.counter[i] = 0
            self.field[address][i] = code if heeded[i] else self.field[address][i]

    def write(self, address, number, reply):
        if address == 1 and number & 0xC000:
            self.narrow = not number & 0x8000
        elif address == 7:
            self.high = number % 2**32
        elif address in FIELDS:
            full = number % 2**32 | self.high << 32 if self.narrow else number
            seen["wide write in 32-bit mode, upper halves differ"] += full != number
            self.write_fields(address, full)
        elif 64 <= address < 80:
            seen["one half of a pair written"] += self.field[10][address & 14] & 8 > 0
            self.counter[address - 64] = number % 2**32
        elif 80 <= address < 96 and self.field[10][address - 80] & 7 in (2, 6):
            self.event(address - 80, "software")
        elif 96 <= address < 128:
            seen["%s trigger, reply %d" % ("Resource" if address >= 112 else "Trace", reply)] += 1
            seen["sample with a Timestamp above 2^40"] += reply == 0 and self.time >> 40 > 0
            self.busy = self.busy or address >= 112 and reply == 0

    def follow(self, data, reply, value, *words):
        kind, address, lines, zero, high, zeros, number = struct.unpack("<BBBBHHQ", data)
        seen["reply", reply] += 1
        if reply == 9:
            seen["bad: " + ("kind" if kind > 7 else "zero bytes" if zero or zeros else KINDS[kind])] += 1
            return
        seen.update([KINDS[kind], (KINDS[kind], address)])
        seen["high lines where they are ignored"] += kind not in (3, 4) and high > 0
        if kind == 0 or kind == 1 and address == 0:
            seen["%s, reset in a sample" % KINDS[kind]] += self.inside
            self.__init__(self.time if kind == 1 else 0)
        elif kind == 1:
            self.write(address, number, reply)
        elif kind == 2:
            seen["read of 7 in %d-bit mode" % (32 if self.narrow else 64)] += address == 7
            if 64 <= address < 96:
                seen["read at %d, reply %d%s" % (address & 80, reply, ", busy" if self.busy else "")] += 1
                seen["wrong count"] += address < 80 and reply == 0 and value % 2**32 != self.counter[address - 64]
            self.high = value >> 32 if reply == 0 and address != 7 else self.high
        elif kind in (3, 4):
            self.ticks(kind, number, high)
        elif kind == 5:
            for i in [i for i in range(16) if number >> i & 1 and self.field[10][i] & 7 == 4]:
                self.event(i, "external")
        else:
            seen.update([("places", number), ("words of a buffer send", value)] if kind == 7 else [])
            if reply == 0 and (kind == 6 or words):
                self.busy, self.inside = False, (value if kind == 6 else words[-1]) < 512


with tempfile.TemporaryDirectory() as folder:
    twin, source = os.path.join(folder, "twin2"), os.path.join(sys.path[0], "..", "twin2", "main.rs")
    subprocess.run(["rustc", "--edition", "2021", "-O", "-o", twin, source], check=True)
    for seed in range(8):
        whole = b"".join(generate(seed, COUNT))
        part = len(whole) - 16 * COUNT
        lines = subprocess.run([twin], input=whole, stdout=subprocess.PIPE, check=True).stdout.split(b"\n")[1:-1]
        checks += [(0 < part < 16 if seed % 4 == 3 else part == 0, "the length"),
                   (len(lines) == COUNT + (part > 0), "a line for each record"),
                   (b"".join(generate(seed, COUNT + 999)).startswith(whole[:16 * COUNT]), "the same beginning again")]
        follower = Follower()
        for place in range(COUNT):
            follower.follow(whole[16 * place:16 * place + 16], *map(int, lines[place].split()))

often = [("reply", number) for number in range(12)] + list(KINDS) + [
    "paired in mid-count", "parted in mid-count", "one half of a pair reset", "one half of a pair written",
    "wide write in 32-bit mode, upper halves differ", "read of 7 in 32-bit mode", "read of 7 in 64-bit mode",
    "hardware reset, reset in a sample", "write, reset in a sample", "sample with a Timestamp above 2^40",
    "high lines where they are ignored", "read at 64, reply 0", "read at 80, reply 0",
    *["read at " + case + ", busy" for case in ("64, reply 10", "64, reply 11", "80, reply 0")]]
often += ["bad: " + name for name in ("kind", "zero bytes", *KINDS[3:6], KINDS[7])]
often += ["%s trigger, reply %d" % (name, reply) for name in ("Trace", "Resource") for reply in (0, 4, 6, 7, 8, 10)]
often += [name + " with one field among others that change nothing" for name in FIELDS.values()]
often += [("places", n) for n in (0, 1, 20, 84, 1000)] + [("words of a buffer send", n) for n in (0, 1, 20, 84)]
often += [what + kind for what in ("paired: over 2^32, ", "paired odd counter, ") for kind in EVENTS]
seldom = [what + kind for what in ("paired: over 2^64, ", "single: over 2^32, ") for kind in EVENTS]
seldom += [(way, address) for way in ("write", "read") for address in range(256)]
seldom += [(name, i, code) for name in FIELDS.values() for i in range(16) for code in range(16)]
for name, least in [(name, 100) for name in often] + [(name, 10) for name in seldom]:
    checks.append((seen[name] >= least, "%s: seen %d times, not %d" % (name, seen[name], least)))
checks.append((seen["wrong count"] == 0, "the twin's counters are as followed here"))
if not all(good for good, _ in checks):
    sys.exit("\n".join("FAILED: " + about for good, about in checks if not good))
print("generate2: %d checks passed" % len(checks))
