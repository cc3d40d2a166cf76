#!/usr/bin/env python3
"""Checks of the generator: same bytes again, right lengths, and how far its files reach.

    compare/test_generate.py

Prints what the files of a few seeds hold. The last line tells how many checks
passed; the exit status is 1 if one failed.
"""

import collections
import hashlib
import os
import subprocess
import sys
import time

sys.dont_write_bytecode = True
HERE = os.path.dirname(os.path.abspath(__file__))
sys.path.insert(0, HERE)
import generate as generator  # noqa: E402
from generate import generate  # noqa: E402

passed = 0


def check(good, about):
    """Count one check; stop with a message where it fails."""
    global passed
    if not good:
        print("FAILED: " + about)
        sys.exit(1)
    passed += 1


def file_of(seed, count, ragged=None):
    return b"".join(generate(seed, count, ragged))


WRITABLE = {0, 1, 4, 5, 6, 8, 10, 11, 12, *range(16, 24), *range(32, 48), *range(96, 128)}
READABLE = {1, 2, 4, 5, 6, 8, 11, *range(16, 24), *range(32, 48)}
EVENT_KINDS = ("slow clock", "external", "software", "node clock")
PERIODS = {0: 10, 1: 100}  # Timestamp ticks from one slow event to the next, for each good data of a hardware reset
SPEEDS = {10: "tenth", 100: "hundredth"}
FLAGS = {0: "no flag", 0x100: "flag 8 alone", 0x200: "flag 9 alone", 0x300: "both flags"}
# Why a trigger lacks room, the last reset before it, and what became of the setting for such triggers since.
REASONS = ("full queue", "busy shadows", "both reasons")
FRESH = "fresh start"
RESETS = ("hardware reset to the tenth", "hardware reset to the hundredth",
          "software reset at the tenth", "software reset at the hundredth")
LEFT_ALONE, DISCARD, WAIT_AGAIN, WAIT = "left alone", "discard chosen", "write wait chosen again", "write wait chosen"


def left_alone(reset, found):
    """The setting as a reset left it that found write wait or discard set."""
    return "%s since the %s that found %s" % (LEFT_ALONE, reset, found)


def chosen(setting, reset):
    return "%s since the %s" % (setting, reset)


def still_off(setting, reset):
    """Sampling or read wait, not written since a reset that found it on."""
    return "%s not written since the %s that found it on" % (setting, reset)


class Follower:
    """Follows records far enough to tell their replies, and counts what happens on the way."""

    def __init__(self):
        self.seen = collections.Counter()
        self.replies = collections.Counter()
        self.kinds = collections.Counter()
        self.written = set()
        self.read = set()
        self.speeds = collections.Counter()  # records followed at each speed
        self.phases = {10: set(), 100: set()}  # where ticks ended at each speed
        self.bad_reset_data = collections.Counter()
        self.fresh()

    def fresh(self):
        self.timestamp = 0
        self.period = 10
        self.sampling = self.read_wait = False
        self.reset(FRESH, None)

    def reset(self, name, found):
        self.last_reset, self.found = name, found
        self.setting = LEFT_ALONE
        self.found_on = [setting for setting, on in (("sampling", self.sampling), ("read wait", self.read_wait)) if on]
        self.sampling = self.read_wait = False
        self.write_wait = True
        self.filter = self.mux = self.enabled = self.phase = 0
        self.counters = [0] * 16
        self.slow_counted = [0] * 16  # the slow events in each counter
        self.held = []  # words left, whether it is a Resource sample, and its lost mark, oldest first
        self.lost_mark = False
        self.overrun = self.wait = self.flags = 0
        self.waited = False  # whether a trigger was told to wait since the last sample taken
        self.ended = None  # where the last ticks ended, if that was beside a slow event and only reads came since

    def speed(self):
        return SPEEDS[self.period]

    def busy(self):
        return any(resource for _, resource, _ in self.held)

    def wait_or_discard(self):
        return "write wait" if self.write_wait else "discard"

    def setting_since(self):
        """What became of the setting for triggers that lack room since the last reset."""
        if self.setting == LEFT_ALONE and self.found:
            return left_alone(self.last_reset, self.found)
        return chosen(self.setting, self.last_reset)

    def note_reset(self, name):
        if self.held:
            left, resource, _ = self.held[0]
            if left < (80 if resource else 16):
                self.seen["%s reset in the middle of a %s sample" % (name, "Resource" if resource else "Trace")] += 1
        self.seen["%s reset at the %s" % (name, self.speed())] += 1
        self.seen["%s reset finds %s" % (name, self.wait_or_discard())] += 1
        if self.phase:
            self.seen["%s reset at the %s between slow events" % (name, self.speed())] += 1

    def hardware_reset(self, data):
        self.note_reset("hardware")
        before, now = self.speed(), SPEEDS[PERIODS[data]]
        self.seen["hardware reset to the " + now] += 1
        if before != now and self.timestamp:
            # The clock has run at the speed before.
            self.seen["change of speed in mid-run, %s to %s" % (before, now)] += 1
        self.timestamp = 0
        self.period = PERIODS[data]
        self.reset("hardware reset to the " + now, self.wait_or_discard())

    def kind_of_counter(self, index):
        return (self.mux >> (32 + index) & 1) * 2 + (self.mux >> index & 1)

    def count_events(self, wanted, amount, mask=0xFFFF):
        for index in range(16):
            kind = self.kind_of_counter(index)
            if kind == wanted and self.enabled & mask & 1 << index:
                total = self.counters[index] + amount
                if total >> 32:
                    self.seen["counter wraps, " + EVENT_KINDS[kind]] += 1
                    self.seen["counter %d wraps" % index] += 1
                    if kind == 0:
                        self.seen["counter wraps, slow clock at the " + self.speed()] += 1
                self.counters[index] = total & 0xFFFFFFFF
                if kind == 0:
                    self.slow_counted[index] += amount

    def trigger(self, address, lines):
        if lines not in (1, 2, 4, 8, 16, 32, 64, 128):
            self.seen["trigger with %s" % ("several lines" if lines else "no line")] += 1
            return 4
        if not self.sampling:
            return 6
        if not self.filter >> (address & 15) & 1:
            return 7
        resource = address >= 112
        full = len(self.held) == 8
        busy = resource and self.busy()
        if full or busy:
            reason = "both reasons" if full and busy else "full queue" if full else "busy shadows"
            name = "trigger %s, %s" % ("waits" if self.write_wait else "lost", reason)
            self.seen[name] += 1
            self.seen["%s, %s" % (name, self.setting_since())] += 1
            if self.write_wait:
                self.wait += 1
                self.waited = True
                return 10
            self.overrun += 1
            self.flags |= full << 8 | busy << 9
            self.lost_mark = True
            return 8
        if self.lost_mark:
            self.seen["sample with the lost mark"] += 1
        elif self.waited:
            self.seen["sample without the lost mark after a trigger that waited"] += 1
        if self.timestamp >> 40:
            self.seen["sample with a Timestamp above 2^40"] += 1
        self.held.append([80 if resource else 16, resource, self.lost_mark])
        self.lost_mark = self.waited = False
        if len(self.held) == 8:
            self.seen["queue gets full, %d Resource sample held" % self.busy()] += 1
        return 0

    def write(self, address, lines, data):
        self.written.add(address)
        if address > 127:
            return 1
        if address not in WRITABLE | READABLE:
            return 2
        if address not in WRITABLE:
            return 3
        if address == 0:
            self.note_reset("software")
            self.reset("software reset at the " + self.speed(), self.wait_or_discard())
        elif address == 1:
            if data & 8:
                self.setting = DISCARD
            elif data & 4:
                self.setting = WAIT_AGAIN if self.setting in (DISCARD, WAIT_AGAIN) else WAIT
            for bits, name in ((0x03, "sampling"), (0x30, "read wait")):
                if data & bits and name in self.found_on:
                    self.found_on.remove(name)
            for bit, name in ((0, "sampling"), (2, "write_wait"), (4, "read_wait")):
                if data >> bit & 3 == 3:
                    self.seen["CSR bits %d and %d together" % (bit, bit + 1)] += 1
                if data >> bit & 2:
                    setattr(self, name, False)
                elif data >> bit & 1:
                    setattr(self, name, True)
            for bit in (14, 15):
                if data >> bit & 1:
                    self.seen["CSR bit %d written at the %s" % (bit, self.speed())] += 1
        elif address == 4:
            self.filter = data & 0xFFFF
        elif address == 5:
            self.wait = 0
        elif address == 6:
            self.overrun = self.flags = 0
        elif address == 8:
            self.mux = data & 0x0000FFFF_0000FFFF
        elif address == 10:
            self.counters = [0 if data >> index & 1 else count for index, count in enumerate(self.counters)]
            self.slow_counted = [0 if data >> index & 1 else count for index, count in enumerate(self.slow_counted)]
        elif address == 11:
            self.enabled |= data & 0xFFFF
        elif address == 12:
            self.enabled &= ~data & 0xFFFF
        elif 32 <= address < 48:
            self.count_events(2, 1, 1 << (address - 32))
        elif address >= 96:
            return self.trigger(address, lines)
        return 0

    def read_address(self, address):
        self.read.add(address)
        if address > 127:
            return 1
        if address not in WRITABLE | READABLE:
            return 2
        if address not in READABLE:
            return 3
        if address == 1:
            self.seen["CSR read, " + self.setting_since()] += 1
            for setting in self.found_on:
                self.seen["CSR read, " + still_off(setting, self.last_reset)] += 1
            self.seen["CSR read with " + FLAGS[self.flags]] += 1
        elif address == 5 and self.wait:
            self.seen["Wait Counter read above 0, " + self.setting] += 1
        elif address == 6 and self.overrun:
            self.seen["Overrun Counter read above 0, " + self.setting] += 1
        elif 32 <= address < 48:
            if self.busy():
                if self.read_wait:
                    self.wait += 1
                    return 10
                return 11
            self.seen["counter read with the shadows free"] += 1
            index = address - 32
            if self.counters[index] and self.slow_counted[index]:
                self.seen["counter read shows slow counts at the " + self.speed()] += 1
            if self.ended and self.enabled >> index & 1 and self.kind_of_counter(index) == 0:
                self.seen["slow counter read where " + self.ended] += 1
        return 0

    def send(self):
        if not self.held:
            return 5
        left, resource, marked = self.held[0]
        if marked and left == (80 if resource else 16):
            self.seen["header sent with the lost mark"] += 1
        self.held[0][0] -= 1
        if left == 1:
            self.seen["sample sent whole, " + ("Resource" if resource else "Trace")] += 1
            self.held.pop(0)
        return 0

    def ticks(self, count):
        before = self.timestamp
        self.timestamp = (before + count) % 2**56
        for width in (32, 40):
            if before >> width != self.timestamp >> width:
                self.seen["Timestamp passes a multiple of 2^%d" % width] += 1
        phase = self.phase
        slow, self.phase = divmod(phase + count, self.period)
        self.count_events(0, slow)
        self.phases[self.period].add(self.phase)
        if slow:
            self.seen["slow event at the " + self.speed()] += 1
        if 2 <= slow <= 1000:
            self.seen["several slow events in one count at the " + self.speed()] += 1
        if count > 1 and phase:
            # Steered from between two slow events: single ticks and counts that start on an event are left out.
            place = {self.period - 1: "one before", 0: "on", 1: "one after"}.get(self.phase)
            if place:
                self.ended = "ticks end %s a slow event at the %s" % (place, self.speed())
                self.seen[self.ended] += 1

    def bad(self, kind, zero, data):
        """Why the bench program refuses a whole record with 9, or None."""
        if kind > 6:
            return "kind"
        if zero:
            return "fourth byte"
        if kind == 3 and data >> 32:
            return "Timestamp tick count"
        if kind == 4 and data >> 32:
            return "node tick count"
        if kind == 5 and data >> 16:
            return "event mask"
        if kind == 0 and data not in PERIODS:
            return "reset data"
        return None

    def ignored_bits(self, kind, address, lines, data):
        """Whether a record has bits set in a field that its kind doesn't need."""
        if kind == 1:
            return bool(lines and not 96 <= address < 128 or data & generator.IGNORED_DATA[address])
        return bool(lines or (kind != 2 and address) or (kind in (2, 6) and data))

    def follow(self, kind, address, lines, zero, data):
        """The reply to one whole record."""
        self.kinds[min(kind, 7)] += 1
        self.speeds[self.period] += 1
        reason = self.bad(kind, zero, data)
        if kind != 2:
            self.ended = None
        if reason:
            self.seen["bad record, " + reason] += 1
            if reason == "reset data":
                self.bad_reset_data[data] += 1
                if self.phase:
                    self.seen["refused hardware reset at the %s between slow events" % self.speed()] += 1
                self.seen["refused hardware reset finds " + self.wait_or_discard()] += 1
            reply = 9
        else:
            if self.ignored_bits(kind, address, lines, data):
                self.seen["bits that must be ignored"] += 1
                if kind == 0:
                    self.seen["hardware reset to the %s with bits that must be ignored" % SPEEDS[PERIODS[data]]] += 1
            reply = 0
            if kind == 0:
                self.hardware_reset(data)
            elif kind == 1:
                reply = self.write(address, lines, data)
            elif kind == 2:
                reply = self.read_address(address)
            elif kind == 3:
                self.ticks(data)
            elif kind == 4:
                self.count_events(3, data)
            elif kind == 5:
                self.count_events(1, 1, data)
            else:
                reply = self.send()
        self.replies[reply] += 1
        return reply


def records_of(data):
    for start in range(0, len(data) - 11, 12):
        yield data[start], data[start + 1], data[start + 2], data[start + 3], \
            int.from_bytes(data[start + 4:start + 12], "little")


def share_text(counts, names):
    total = sum(counts.values())
    return ", ".join("%s %.1f %%" % (names[key], 100 * counts[key] / total) for key in sorted(counts))


# ---- the random numbers and the bytes are always the same ----

draw = generator.splitmix64(0)
check([draw(), draw()] == [0xE220A8397B1DCDAF, 0x6E789E6AA1B965F4], "the first numbers of splitmix64 from 0")

# A change of the generator changes these; nothing else does.
DIGESTS = {
    1: "88a002fa6bd61a72fd51ae263540cd84d9b8b23241822aa006151b1ddaf695ff",
    2: "5800df1f4091121f063cb2a3e77f17342cf99802693321845929eec530ff63e0",
    15: "b63dca69774f850f40c137468ac20557fcc69cc7a1882a7fb70a238e9e931fbd",
    2**64 - 1: "49ec4dc25f3632f31517ac8b10033b6a5dd05b39d8b6bef0f4e53a8ac094f4e2",
}
for seed, digest in DIGESTS.items():
    found = hashlib.sha256(file_of(seed, 50_000)).hexdigest()
    check(found == digest, "seed %d gives the digest %s" % (seed, found))

for seed in range(40):
    first = file_of(seed, 3000)
    check(first == file_of(seed, 3000), "seed %d twice" % seed)
    check(len(first) // 12 == 3000, "seed %d has 3000 whole records" % seed)
    check((len(first) % 12 != 0) == (seed % 16 == 15), "seed %d ends with a part of a record if 15 is left" % seed)
    check(len(file_of(seed, 3000, ragged=True)) % 12 != 0, "seed %d made ragged" % seed)
    check(len(file_of(seed, 3000, ragged=False)) == 36000, "seed %d made whole" % seed)
    check(file_of(seed, 1000, ragged=False) == first[:12000], "a smaller count gives the beginning")
    check(first[:12000] != file_of(seed + 1, 1000)[:12000], "another seed gives other records")
check({len(file_of(seed, 0, ragged=True)) for seed in range(200)} == set(range(1, 12)), "parts of all lengths")
check(file_of(1, 0) == b"" and len(file_of(1, 1)) == 12, "no record and one record")

# ---- as a command ----


def run(*arguments):
    done = subprocess.run([sys.executable, "-B", os.path.join(HERE, "generate.py"), *arguments], capture_output=True)
    return done.returncode, done.stdout


check(run("7", "500") == (0, file_of(7, 500)), "as a command")
check(run("7", "500", "--ragged") == (0, file_of(7, 500, ragged=True)), "as a command, ragged")
check(run("0xF", "500", "--whole") == (0, file_of(15, 500, ragged=False)), "as a command, whole")
for wrong in ([], ["1"], ["1", "-1"], ["x", "1"], ["1", "2", "3"], [str(2**64), "1"], ["1", "2", "--odd"],
              ["1", "2", "--ragged", "--whole"]):
    check(run(*wrong) == (2, b""), "wrong command line %r" % wrong)

# ---- speed ----

start = time.perf_counter()
made = sum(len(piece) for seed in range(4) for piece in generate(seed, 250_000)) // 12
speed = made / (time.perf_counter() - start)
print("speed: %d records a second" % speed)

# ---- what the files hold ----

SEEDS, COUNT = 16, 25_000
follower = Follower()
replies_by_seed = []
for seed in range(SEEDS):
    before = follower.replies.copy()
    # Each file meets a fresh chip.
    follower.fresh()
    maker = generator.Maker(seed)
    followed = 0
    while followed < COUNT:
        # The maker's guess of the queue, settings and slow clock holds after each stretch.
        for fields in records_of(maker.stretch()):
            follower.follow(*fields)
            followed += 1
        check((maker.sampling, maker.filter, maker.held, maker.held_kinds, maker.busy, maker.timestamp)
              == (follower.sampling, follower.filter, [left for left, _, _ in follower.held],
                  [resource for _, resource, _ in follower.held], follower.busy(), follower.timestamp),
              "the guess after a stretch of seed %d" % seed)
        check(maker.write_wait == follower.write_wait, "the guess of write wait after a stretch of seed %d" % seed)
        check((maker.period, maker.phase) == (follower.period, follower.phase),
              "the guess of the slow clock after a stretch of seed %d" % seed)
    replies_by_seed.append(follower.replies - before)

KIND_NAMES = ["reset", "write", "read", "Timestamp ticks", "node ticks", "events", "send", "above 6"]
print("records of %d seeds: %d" % (SEEDS, sum(follower.kinds.values())))
print("kinds: " + share_text(follower.kinds, KIND_NAMES))
print("replies: " + share_text(follower.replies, {reply: "%d:" % reply for reply in range(16)}))
print("speeds of the slow clock: " + share_text(follower.speeds, SPEEDS))
print("addresses: %d written, %d read" % (len(follower.written), len(follower.read)))
for name in sorted(follower.seen):
    print("  %7d  %s" % (follower.seen[name], name))

check(len(follower.kinds) == 8, "all kinds, and kinds above 6")
check(len(follower.written) == 256, "all addresses written")
check(len(follower.read) == 256, "all addresses read")
for reply in range(12):
    check(follower.replies[reply] > 300, "reply %d comes often enough" % reply)
check(max(follower.replies) == 11, "no reply but 0 to 11")
for period, speed in SPEEDS.items():
    check(follower.speeds[period] > SEEDS * COUNT // 3, "a third of the records or more at the " + speed)
    check(len(follower.phases[period]) == period, "ticks end at each place between slow events at the " + speed)
for data in (2, 3, 256, 257, 2**32, 2**32 + 1, 2**63, 2**64 - 1):
    check(follower.bad_reset_data[data] >= 20, "often enough: hardware reset with data %d" % data)
for seed, replies in enumerate(replies_by_seed):
    check(len(replies) == 12, "seed %d meets all replies" % seed)
    check(replies[9] < COUNT // 3, "seed %d is not mostly bad records" % seed)

OCCASIONS = [
    "trigger lost, full queue", "trigger lost, busy shadows", "trigger lost, both reasons",
    "trigger waits, full queue", "trigger waits, busy shadows", "trigger waits, both reasons",
    "trigger with no line", "trigger with several lines",
    "sample with the lost mark", "sample with a Timestamp above 2^40",
    "queue gets full, 0 Resource sample held", "queue gets full, 1 Resource sample held",
    "sample sent whole, Trace", "sample sent whole, Resource",
    "software reset in the middle of a Trace sample", "software reset in the middle of a Resource sample",
    "hardware reset in the middle of a Trace sample", "hardware reset in the middle of a Resource sample",
    "counter read with the shadows free",
    "counter wraps, slow clock", "counter wraps, external", "counter wraps, software", "counter wraps, node clock",
    "Timestamp passes a multiple of 2^32", "Timestamp passes a multiple of 2^40",
    "CSR bits 0 and 1 together", "CSR bits 2 and 3 together", "CSR bits 4 and 5 together",
    "bad record, kind", "bad record, fourth byte", "bad record, Timestamp tick count",
    "bad record, node tick count", "bad record, event mask", "bits that must be ignored",
    "bad record, reset data",
    "refused hardware reset finds write wait", "refused hardware reset finds discard",
    "sample without the lost mark after a trigger that waited", "header sent with the lost mark",
    "CSR read with flag 8 alone", "CSR read with flag 9 alone", "CSR read with both flags",
    "change of speed in mid-run, tenth to hundredth", "change of speed in mid-run, hundredth to tenth",
]
for speed in SPEEDS.values():
    OCCASIONS += [
        "hardware reset to the " + speed,
        "hardware reset to the %s with bits that must be ignored" % speed,
        "software reset at the " + speed,
        "software reset at the %s between slow events" % speed,
        "hardware reset at the %s between slow events" % speed,
        "refused hardware reset at the %s between slow events" % speed,
        "slow event at the " + speed,
        "several slow events in one count at the " + speed,
        "counter read shows slow counts at the " + speed,
        "counter wraps, slow clock at the " + speed,
        "CSR bit 14 written at the " + speed,
        "CSR bit 15 written at the " + speed,
    ]
    for place in ("one before", "on", "one after"):
        ended = "ticks end %s a slow event at the %s" % (place, speed)
        OCCASIONS += [ended, "slow counter read where " + ended]
OCCASIONS += ["counter %d wraps" % index for index in range(16)]
# After each reset at each speed: write wait left alone, whatever the reset found; discard; write wait again; sampling and read wait seen
# off that were on.
for reset in RESETS:
    waiting = [left_alone(reset, "write wait"), left_alone(reset, "discard"), chosen(WAIT_AGAIN, reset)]
    discarding = chosen(DISCARD, reset)
    OCCASIONS += ["CSR read, " + setting for setting in (*waiting, discarding)]
    OCCASIONS += ["CSR read, " + still_off(setting, reset) for setting in ("sampling", "read wait")]
    for reason in REASONS:
        OCCASIONS += ["trigger waits, %s, %s" % (reason, setting) for setting in waiting]
        OCCASIONS.append("trigger lost, %s, %s" % (reason, discarding))
OCCASIONS += [
    "Wait Counter read above 0, " + LEFT_ALONE,  # nothing is lost there
    "Wait Counter read above 0, " + DISCARD, "Overrun Counter read above 0, " + DISCARD,
    "Wait Counter read above 0, " + WAIT_AGAIN, "Overrun Counter read above 0, " + WAIT_AGAIN,
]
for occasion in OCCASIONS:
    check(follower.seen[occasion] >= 20, "often enough: " + occasion)
# A fresh start comes once in a file.
for reason in REASONS:
    occasion = "trigger waits, %s, left alone since the fresh start" % reason
    check(follower.seen[occasion] >= SEEDS // 2, "often enough: " + occasion)

# Each mode with triggers lets some wait and loses some. Each with hardware resets changes the speed in both directions,
# and has triggers wait after resets that found discard set, with nothing written to CSR bits 2 and 3 between.
WITH_RESETS = ("queue", "resets", "counters", "wraps", "stamps", "slow", "mixed", "near")
for name in (*WITH_RESETS, "triggers", "sends", "registers", "sweep"):
    follower = Follower()
    maker = generator.Maker(5)
    getattr(maker, name)(12 * 20_000)
    for fields in records_of(bytes(maker.out)):
        follower.follow(*fields)
    waits = sum(follower.seen["trigger waits, " + reason] for reason in REASONS)
    lost = sum(follower.seen["trigger lost, " + reason] for reason in REASONS)
    print("20000 records of %s: %d triggers wait, %d are lost" % (name, waits, lost))
    check(min(waits, lost) >= 50, "the mode %s has triggers wait and loses some" % name)
    if name in WITH_RESETS:
        changes = [follower.seen["change of speed in mid-run, " + change]
                   for change in ("tenth to hundredth", "hundredth to tenth")]
        print("  changes of speed: %d and %d" % tuple(changes))
        check(min(changes) >= 2, "the mode %s changes the speed" % name)
        waits = sum(follower.seen["trigger waits, %s, %s" % (reason, left_alone(reset, "discard"))]
                    for reason in REASONS for reset in RESETS)
        print("  triggers that wait, %s since a reset that found discard: %d" % (LEFT_ALONE, waits))
        check(waits >= 5, "the mode %s has triggers wait after resets that found discard" % name)

# ---- the wrap of the Timestamp at 2^56, in a very long file ----

ticks = length = 0
rest = bytearray()
for piece in generate(3, generator.WRAP_COUNT):
    length += len(piece)
    if piece == generator.MOST_TICKS_RECORD * 4096:
        ticks += 4096 * generator.MOST_TICKS
    elif len(rest) < 100_000:
        rest += piece
check(length == 12 * generator.WRAP_COUNT, "a very long file has its length")
follower = Follower()
wrapped = 0
stamps = []  # the Timestamps of the samples taken
places = []  # where counters are read, counted from one tick before a slow event
after_run = False
for fields in records_of(rest):
    if fields[0] == 3 and not after_run:
        # The long run of ticks stood just before the first other ticks.
        follower.timestamp = ticks
        follower.phase = ticks % follower.period
        after_run = True
    before = follower.timestamp
    reply = follower.follow(*fields)
    if fields[0] == 3 and follower.timestamp < before:
        wrapped += 1
    if fields[0] == 1 and 96 <= fields[1] < 128 and reply == 0:
        stamps.append(follower.timestamp)
    if fields[0] == 2 and 32 <= fields[1] < 48 and wrapped:
        places.append((follower.phase + 1) % follower.period)
check(ticks == 2**24 * (2**32 - 1), "the very long file has its run of ticks")
check(wrapped == 1, "the very long file takes the Timestamp over 2^56 once")
check(stamps[0] >= 2**56 - 4 and stamps[1] < 8, "samples are taken just before and just after the wrap")
check(set(places[:16]) == {0, 1, 2}, "counters are read one before, on and one after a slow event after the wrap")
short = file_of(3, 30_000)
check(generator.MOST_TICKS_RECORD * 400 not in short, "a file of usual length has no such run")

print("generator: %d checks passed" % passed)
