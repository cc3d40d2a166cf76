#!/usr/bin/env python3
"""Builds the twin and checks it from outside, against document 01 and Wishes 2
and 7 of document 02."""

import collections
import itertools
import os
import random
import struct
import subprocess
import sys
import tempfile
import threading

HERE = os.path.dirname(os.path.abspath(__file__))
HEADING = b"answer value\n"
ALL = 0xFFFF
TOP32 = 0xFFFFFFFF
TOP64 = (1 << 64) - 1
BUSY = (11, 1 << 63)
# Wish 2: the slow clock's speeds, each with its data in a hardware reset and
# its ticks from one slow event to the next; then data that chooses no speed.
SPEEDS = [("tenth", 0, 10), ("hundredth", 1, 100)]
NO_SPEED = [2, 3, 255, 256, 257, 1 << 32, (1 << 32) + 1, 1 << 63, TOP64]

# ------------------------------------------------------------- records


def record(kind, address=0, lines=0, data=0, zero=0):
    return struct.pack("<BBBBQ", kind, address, lines, zero, data)


def hard(speed=0):
    return record(0, data=speed)


def write(address, data=0, lines=0):
    return record(1, address, lines, data)


def read(address):
    return record(2, address)


def stamp(count):
    return record(3, data=count)


def node(count):
    return record(4, data=count)


def external(mask):
    return record(5, data=mask)


def send():
    return record(6)


# ------------------------------------------------------------- running

program = None
passed = 0
failed = 0


def check(name, got, want):
    global passed, failed
    if got == want:
        passed += 1
        return
    failed += 1
    print("FAILED %s\n  got  %.2000s\n  want %.2000s" % (name, got, want))


def raw(data):
    """The whole output for some input bytes."""
    done = subprocess.run([program], input=data, stdout=subprocess.PIPE)
    if done.returncode != 0:
        return b"exit %d" % done.returncode
    return done.stdout


def run(records):
    """The replies to a list of records, as (number, value)."""
    output = raw(b"".join(records))
    if not output.startswith(HEADING) or not output.endswith(b"\n"):
        return output
    lines = output[len(HEADING):].decode("ascii").split("\n")[:-1]
    return [tuple(int(part) for part in line.split(" ")) for line in lines]


def play(name, steps):
    """Runs (record, reply) steps and checks every reply. A bare number as
    reply stands for that number with value 0; None is not looked at."""
    got = run([step[0] for step in steps])
    want = []
    for place, (_, reply) in enumerate(steps):
        if reply is None:
            reply = got[place] if place < len(got) else "missing"
        want.append(reply if isinstance(reply, tuple) else (reply, 0))
    check(name, got, want)


def quiet(records):
    return [(each, 0) for each in records]


def sends(data):
    """Steps that send one whole sample of these bytes."""
    steps = []
    for place, byte in enumerate(data):
        word = byte
        if bin(byte).count("1") % 2 == 0:
            word += 256
        if place == len(data) - 1:
            word += 512
        steps.append((send(), (0, word)))
    return steps


def sample(header, source=0, time=0, user=0, counters=None):
    data = bytes([header]) + source.to_bytes(4, "little")
    data += time.to_bytes(5, "little") + user.to_bytes(6, "little")
    for counter in counters or []:
        data += counter.to_bytes(4, "little")
    return data


# Sampling on, discard, every level on. Wish 7: discard must be chosen first.
ON = quiet([write(1, 9), write(4, ALL)])


def value(number):
    return (0, number)


# ------------------------------------------------------ document's own


def listing_b():
    records = [write(1, 1), write(4, 1), write(16, 5), stamp(3), write(96, 258, 1),
               send(), send(), write(97, 0, 1), read(2), read(3)]
    want = (b"answer value\n0 0\n0 0\n0 0\n0 0\n0 0\n"
            b"0 256\n0 261\n7 0\n0 3\n2 0\n")
    check("Listing B", raw(b"".join(records)), want)


def marked_examples():
    play("M1", [(read(128), 1)])
    play("M2", [(read(127), 3)])
    play("M3", [(write(2), 3)])
    play("M4", [(write(95), 2)])
    play("M5", [(write(96, 0, 0), 4), (write(96, 0, 3), 4), (write(96, 0, 1), 6)])
    play("M5 with sampling on", ON + [(write(96, 0, 0), 4), (write(96, 0, 3), 4)])

    on = quiet([write(1, 9), write(4, 1)])
    m6 = on + [(write(96, 0, 1), 0)] * 8 + [(write(96, 0, 1), 8)]
    m6 += [(send(), None)] * 15 + [(write(96, 0, 1), 8), (send(), None)]
    m6 += [(write(96, 0, 1), 0)]
    play("M6", m6)
    m6_each = on + [(write(96, 0, 1), 0)] * 8
    for _ in range(15):
        m6_each += [(send(), None), (write(96, 0, 1), 8)]
    m6_each += [(send(), None), (write(96, 0, 1), 0), (write(96, 0, 1), 8)]
    play("M6, a trigger after every send", m6_each)

    play("M7", on + [(write(112, 0, 1), 0), (write(112, 0, 1), 8),
                     (read(1), value(641)), (read(6), value(1))])

    counter_at_top = [
        (write(8, 0x0000FFFF0000FFFF), 0), (write(11, 1), 0), (node(TOP32), 0),
        (read(32), value(TOP32))]
    for name, mux, event in [
            ("node", 0x0000000100000001, node(1)),
            ("software", 0x0000000100000000, write(32)),
            ("external", 0x0000000000000001, external(1)),
            ("slow", 0, stamp(10))]:
        play("M8 " + name, counter_at_top + [
            (write(8, mux), 0), (event, 0), (read(32), 0), (event, 0),
            (read(32), value(1))])

    m9 = quiet([write(8, 0x0000AAAA0000FFFF), write(11, ALL)])
    m9 += [(read(8), value(0x0000AAAA0000FFFF)), (node(5), 0), (external(ALL), 0)]
    m9 += quiet([stamp(100)] + [write(32 + i) for i in range(16)])
    m9 += [(read(32 + i), value(5 if i % 2 else 1)) for i in range(16)]
    play("M9", m9)

    play("M10", [(write(11, 1), 0), (stamp(9), 0), (read(32), value(0)),
                 (stamp(1), 0), (read(32), value(1))])

    data = bytes([0, 5, 0, 0, 0, 3, 0, 0, 0, 0, 2, 1, 0, 0, 0, 0])
    m11 = quiet([write(1, 1), write(4, 1), write(16, 5), stamp(3), write(96, 258, 1)])
    play("M11", m11 + sends(data) + [(send(), 5)])
    got = run([step[0] for step in m11 + sends(data)])
    check("M11, last word", got[-1], (0, 768))


# ---------------------------------------------------------- easy errors


def easy_errors():
    # A place is freed by the last word, for a Resource sample too.
    steps = ON + [(write(112, 0, 1), 0)]
    for _ in range(79):
        steps += [(send(), None), (write(112, 0, 1), 8), (read(32), BUSY)]
    steps += [(send(), None), (read(32), 0), (write(112, 0, 1), 0)]
    play("Resource place freed by its eightieth word", steps)
    play("FIFO full until the sixteenth word", ON + [(write(96, 0, 1), 0)] * 8 +
         [(send(), None)] * 15 + [(read(1), value(1 | 1 << 6)), (send(), None),
                                  (read(1), value(1))])

    # The counters and the other fields are those of the trigger.
    steps = ON + quiet([write(8, 0x0000FFFF0000FFFF), write(11, ALL), node(7),
                        write(17, 0x01020304), stamp(1000), write(112, 99, 2),
                        node(11), write(10, 0x00FF), node(2), write(12, ALL),
                        write(17, 5), stamp(77), write(8, 0)])
    steps += sends(sample(1 | 8, 0x01020304, 1000, 99, [7] * 16))
    steps += [(read(32), value(2)), (read(40), value(20))]
    play("fields fixed at the trigger", steps)
    steps = ON + quiet([write(8, 0x0000FFFF0000FFFF), write(11, ALL), node(7),
                        write(112, 0, 1)])
    whole = sends(sample(8, 0, 0, 0, [7] * 16))
    for step in whole:
        steps += [step, (node(1), 0), (write(10, 1 << 15), 0)]
    play("counters change between the words", steps)
    steps = ON + quiet([write(11, ALL), write(96, 0, 1), stamp(10), write(112, 1, 1),
                        stamp(10), write(96, 2, 1)])
    steps += sends(sample(0)) + sends(sample(8, 0, 10, 1, [1] * 16))
    steps += sends(sample(0, 0, 20, 2)) + [(send(), 5)]
    play("samples are sent in their order", steps)

    # Lost for both reasons: one loss, two flags.
    steps = ON + [(write(112, 0, 1), 0)] + [(write(96, 0, 1), 0)] * 7
    steps += [(read(1), value(1 | 3 << 6)), (write(112, 0, 1), 8), (read(6), value(1)),
              (read(1), value(1 | 15 << 6))]
    play("lost for both reasons counts once", steps)
    steps = ON + [(write(96, 0, 1), 0)] * 8 + [(write(112, 0, 1), 8), (read(6), value(1)),
                                               (read(1), value(1 | 1 << 6 | 1 << 8))]
    play("lost for 8 held alone: only flag 8", steps)
    steps = ON + [(write(112, 0, 1), 0)] + [(write(96, 0, 1), 0)] * 7
    steps += [(write(96, 0, 1), 8), (read(6), value(1)), (read(1), value(1 | 3 << 6 | 1 << 8))]
    play("lost Trace trigger with the shadows busy: only flag 8", steps)

    # The halves of MUX SEL.
    play("MUX SEL 01 is external", quiet([write(8, 1), write(11, 1), write(32), node(3),
                                          stamp(50), external(1)]) + [(read(32), value(1))])
    play("MUX SEL 10 is software", quiet([write(8, 1 << 32), write(11, 1), external(1),
                                          node(3), stamp(50), write(32)]) +
         [(read(32), value(1))])
    play("MUX SEL halves are read back in place", [
        (write(8, 0x0000123400005678), 0), (read(8), value(0x0000123400005678))])

    # Software reset.
    play("software reset zeroes the phase", quiet([
        stamp(9), write(0), write(11, 1), stamp(9)]) + [
        (read(32), 0), (stamp(1), 0), (read(32), value(1)), (read(2), value(19))])
    play("hardware reset zeroes the phase", quiet([
        stamp(9), hard(), write(11, 1), stamp(9)]) + [
        (read(32), 0), (stamp(1), 0), (read(32), value(1)), (read(2), value(10))])
    for name, reset, time in [("software", write(0, TOP64, 255), 12345), ("hardware", hard(), 0),
                              ("hardware hundredth", hard(1), 0)]:
        steps = ON + quiet([write(11, ALL), stamp(12345), write(16, 77)])
        steps += [(write(112, 0, 1), 0), (write(112, 0, 1), 8), (reset, 0)]
        steps += ON + [(write(96, 0, 1), 0)] + sends(sample(0, 0, time)) + [(send(), 5)]
        play(name + " reset clears the lost mark", steps)
        steps = ON + quiet([write(112, 0, 1), reset]) + [(read(32), 0), (send(), 5)]
        steps += ON + [(write(112, 0, 1), 0)] + sends(sample(8, 0, 0, 0, [0] * 16))
        play(name + " reset frees the shadows", steps)
        steps = ON + quiet([write(96, 5, 1)] * 8) + [(send(), None)] * 5 + [(reset, 0)]
        steps += [(send(), 5), (read(1), value(4))] + ON + [(write(96, 9, 1), 0)]
        play(name + " reset drops a sample half sent", steps + sends(sample(0, 0, 0, 9)))
        steps = [(write(1, 0x15), 0), (write(4, ALL), 0), (write(8, TOP64), 0),
                 (write(11, ALL), 0), (stamp(12345), 0), (node(5), 0)]
        steps += quiet([write(16 + i, 1 + i) for i in range(8)])
        steps += [(write(112, 0, 1), 0), (write(112, 0, 1), 10), (read(32), 10),
                  (write(1, 8), 0), (write(112, 0, 1), 8), (reset, 0), (read(1), value(4))]
        steps += [(read(i), 0) for i in [4, 5, 6, 8, 11] + list(range(16, 24)) +
                  list(range(32, 48))]
        play(name + " reset zeroes every register but write wait",
             steps + [(read(2), value(time))])

    # Ticks decide: the sample's Timestamp turns over at 2^40.
    steps = ON + quiet([stamp(TOP32)] * 256 + [stamp(255)])
    steps += [(read(2), value((1 << 40) - 1)), (write(96, 0, 1), 0), (stamp(1), 0),
              (write(96, 0, 1), 0), (stamp(5), 0), (write(96, 0, 1), 0),
              (read(2), value((1 << 40) + 5))]
    steps += sends(sample(0, 0, (1 << 40) - 1)) + sends(sample(0)) + sends(sample(0, 0, 5))
    play("the sample keeps 40 bits of the Timestamp", steps)


# ------------------------------------------------------------ registers

READ_ONLY = {2}
WRITE_ONLY = {0, 10, 12} | set(range(96, 128))
BOTH = {1, 4, 5, 6, 8, 11} | set(range(16, 24)) | set(range(32, 48))


def address_map():
    for address in range(256):
        if address > 127:
            want = (1, 1)
        elif address == 1:
            want = (0, value(4))
        elif address in BOTH:
            want = (0, 0)
        elif address in READ_ONLY:
            want = (3, 0)
        elif address in WRITE_ONLY:
            want = (6 if address >= 96 else 0, 3)
        else:
            want = (2, 2)
        play("address %d" % address, [(write(address, 0, 1), want[0]), (read(address), want[1])])


def registers():
    play("Filter has 16 bits", [(write(4, TOP64), 0), (read(4), value(ALL)),
                                (write(4, 0xABCD1234), 0), (read(4), value(0x1234))])
    play("MUX SEL keeps its 32 bits", [
        (write(8, TOP64), 0), (read(8), value(0x0000FFFF0000FFFF)),
        (write(8, 0xFFFF0000FFFF0000), 0), (read(8), 0)])
    steps = []
    for i in range(8):
        steps.append((write(16 + i, 0xFEDCBA9800000000 + 0x11111111 * (i + 1)), 0))
    for i in range(8):
        steps.append((read(16 + i), value(0x11111111 * (i + 1))))
    play("Source Addresses have 32 bits", steps)
    play("enable and disable act on the set bits", [
        (write(11, 0xFFFF0F0F), 0), (read(11), value(0x0F0F)), (write(11, 0x00F0), 0),
        (read(11), value(0x0FFF)), (write(12, 0xFFFF003C), 0), (read(11), value(0x0FC3)),
        (write(11, TOP64 - ALL), 0), (write(12, TOP64 - ALL), 0), (read(11), value(0x0FC3)),
        (write(11, 0), 0), (write(12, 0), 0), (read(11), value(0x0FC3))])
    steps = quiet([write(8, TOP64), write(11, ALL), node(3), write(10, 0xFFFFA5A5)])
    steps += [(read(32 + i), value(0 if 0xA5A5 >> i & 1 else 3)) for i in range(16)]
    play("clear acts on the set bits", steps)
    play("clear acts on disabled counters and keeps the enabled set", quiet([
        write(8, TOP64), write(11, 3), node(3), write(12, 1), write(10, 3)]) + [
        (read(32), 0), (read(33), 0), (read(11), value(2)), (node(1), 0),
        (read(32), 0), (read(33), value(1))])

    # CSR: every write from every setting.
    for start in range(8):
        settings = (start & 1) | (start & 2) << 1 | (start & 4) << 2
        steps = []
        for bits in range(64):
            want = 0
            for pair in range(3):
                on, off = bits >> 2 * pair & 1, bits >> 2 * pair + 1 & 1
                was = settings >> 2 * pair & 1
                want |= (0 if off else 1 if on else was) << 2 * pair
            steps += [(write(1, 0x2A), 0), (write(1, settings), 0), (read(1), value(settings)),
                      (write(1, bits), 0), (read(1), value(want))]
        play("CSR writes from settings %d" % settings, steps)
    play("other CSR bits do nothing", [
        (write(1, TOP64 - 63), 0), (read(1), value(4)), (write(1, 0x2A), 0),
        (write(1, TOP64 - 63), 0), (read(1), 0), (write(1, 0x15), 0),
        (write(1, TOP64 - 63), 0), (read(1), value(0x15))])
    play("a CSR write keeps the flags", ON + [
        (write(112, 0, 1), 0), (write(112, 0, 1), 8), (write(1, 0x3C0), 0),
        (read(1), value(1 | 1 << 7 | 1 << 9)), (write(1, 2), 0),
        (read(1), value(1 << 7 | 1 << 9))])


# ------------------------------------------------------------- counters


def counters():
    fields = [0, 1, 1 << 32, 1 << 32 | 1]  # slow, external, software, node
    for i, (name, speed, period) in itertools.product(range(16), SPEEDS):
        events = [stamp(period), external(1 << i), write(32 + i), node(1)]
        steps = []
        for kind, field in enumerate(fields):
            steps += [(hard(speed), 0), (write(8, field << i), 0)]
            for turn, enable in enumerate([0, 1 << i]):
                steps += [(write(11, enable), 0)]
                for place, event in enumerate(events):
                    want = turn if place >= kind else 0
                    steps += [(event, 0), (read(32 + i), value(want))]
        play("counter %d counts its own kind when enabled, at the %s" % (i, name), steps)
    # One event acts on its own counter alone.
    steps = quiet([write(8, 0x0000FFFF00000000), write(11, ALL)])
    for i in range(16):
        steps += [(write(32 + i, TOP64, 255), 0)] * (i + 1)
    steps += [(read(32 + i), value(i + 1)) for i in range(16)]
    play("a software event is for one counter, its data and lines ignored", steps)
    steps = quiet([write(8, ALL), write(11, ALL)])
    steps += [(external(ALL >> i), 0) for i in range(16)]
    steps += [(read(32 + i), value(16 - i)) for i in range(16)]
    play("external events by mask", steps)
    play("the phase runs on without any counter", quiet([
        stamp(9), write(11, 1), stamp(1)]) + [(read(32), value(1)), (stamp(9), 0),
                                              (read(32), value(1)), (stamp(1), 0),
                                              (read(32), value(2))])
    play("the phase runs on under another MUX SEL", quiet([
        write(11, 1), write(8, 1), stamp(7), write(8, 0), stamp(3)]) + [(read(32), value(1))])

    # Large counts.
    play("the largest tick counts", quiet([
        write(11, ALL), write(8, 0x0000FF000000FF00), stamp(TOP32), node(TOP32)]) + [
        (read(2), value(TOP32)), (read(32), value(429496729)), (read(47), value(TOP32)),
        (stamp(4), 0), (read(32), value(429496729)), (stamp(1), 0), (read(32), value(429496730)),
        (stamp(TOP32), 0), (read(32), value(858993459)), (read(2), value(2 * TOP32 + 5)),
        (node(TOP32), 0), (read(47), value(TOP32 - 1)), (node(0), 0), (stamp(0), 0),
        (read(47), value(TOP32 - 1)), (read(2), value(2 * TOP32 + 5)), (read(33), value(858993459))])
    ticks, total = [], 0
    for _ in range(12):
        ticks.append((stamp(TOP32), 0))
        total += TOP32
    play("slow counter wraps at 2^32", [(write(11, 1), 0)] + ticks + [
        (read(32), value(total // 10 % (1 << 32))), (read(2), value(total))])
    for (name, tick), (_, speed, period) in itertools.product(
            [("Timestamp", stamp), ("node", node)], SPEEDS):
        setup = [hard(speed), write(11, ALL), write(8, 0x0000F0F00000FF00), write(1, 1),
                 write(4, ALL)]
        tail = [read(2)] + [read(32 + i) for i in range(16)] + [write(112, 0, 1)] + [send()] * 80
        chance = random.Random(7)
        for count in [0, 1, 9, 10, 11, 99, 100, 101, 199, 200, 201, 1003]:
            before = [stamp(chance.randrange(period))]
            once = run(setup + before + [tick(count)] + tail)[-len(tail):]
            single = run(setup + before + [tick(1)] * count + tail)[-len(tail):]
            check("%d %s ticks at once and singly, slow events every %d" % (
                count, name, period), once, single)

    # The shadows.
    play("counter read with the shadows free", quiet([
        write(8, TOP64), write(11, ALL), node(TOP32)]) + [
        (read(32), value(TOP32)), (node(2), 0), (read(32), value(1)), (read(1), value(4))])
    play("shadows busy, not waiting", ON + [
        (write(112, 0, 1), 0)] + [(read(32 + i), BUSY) for i in range(16)] + [(read(5), 0)])
    play("shadows busy, read wait", ON + [(write(1, 16), 0), (write(112, 0, 1), 0)] +
         [(read(32 + i), 10) for i in range(16)] +
         [(read(5), value(16)), (write(5, TOP64), 0), (read(5), 0), (read(32), 10),
          (read(5), value(1)), (write(1, 32), 0), (read(33), BUSY), (read(5), value(1))])
    play("write wait doesn't make a read wait", ON + [
        (write(1, 4), 0), (write(112, 0, 1), 0), (read(32), BUSY), (read(5), 0)])
    play("counting goes on with the shadows busy", ON + quiet([
        write(8, TOP64), write(11, ALL), write(112, 0, 1), node(4)]) +
        [(send(), None)] * 80 + [(read(32), value(4))])
    play("a Trace sample leaves the shadows free", ON + [
        (write(96, 0, 1), 0), (read(32), 0), (read(1), value(1))])


# ----------------------------------------------------------- slow clock


def speed_shown(speed):
    """Steps right after a reset that tell the speed and a zero phase."""
    below, at = [(9, 10), (0, 1)][speed]
    return [(write(11, 1), 0), (stamp(9), 0), (read(32), 0), (stamp(90), 0),
            (read(32), value(below)), (stamp(1), 0), (read(32), value(at))]


def slow_clock():
    for count, tenth, hundredth in [(9, 0, 0), (10, 1, 0), (99, 9, 0), (100, 10, 1),
                                    (199, 19, 1), (200, 20, 2)]:
        after = [(write(11, ALL), 0), (stamp(count), 0), (read(2), value(count))]
        play("%d ticks on a fresh chip" % count, after + [(read(32), value(tenth))])
        play("%d ticks at the tenth" % count,
             [(hard(0), 0)] + after + [(read(32 + i), value(tenth)) for i in range(16)])
        play("%d ticks at the hundredth" % count,
             [(hard(1), 0)] + after + [(read(32 + i), value(hundredth)) for i in range(16)])
    for name, speed, period in SPEEDS:
        start = [(hard(speed), 0), (write(11, 1), 0)]
        steps = list(start)
        for tick in range(1, 301):
            steps += [(stamp(1), 0), (read(32), value(tick // period))]
        play("300 single ticks at the %s" % name, steps)
        steps = []
        for first in range(202):
            steps += start + [(stamp(first), 0), (read(32), value(first // period)),
                              (stamp(201 - first), 0), (read(32), value(201 // period))]
        play("201 ticks in two parts at the %s" % name, steps)
        play("the last counter value at the %s" % name, [(hard(speed), 0)] + quiet([
            write(8, TOP64), write(11, 1), node(TOP32), write(8, 0), stamp(period - 1)]) + [
            (read(32), value(TOP32)), (stamp(1), 0), (read(32), 0)])
        play("the phase runs on at the %s" % name, [(hard(speed), 0)] + quiet([
            stamp(period - 4), write(11, 1), write(8, 1), stamp(3), node(period),
            write(8, 0), node(period), stamp(0)]) + [
            (read(32), 0), (stamp(1), 0), (read(32), value(1))])
        play("a Resource sample's slow counts at the %s" % name, [(hard(speed), 0)] + ON + quiet([
            write(11, ALL), stamp(2 * period + 1), write(112, 0, 1), stamp(period)]) + sends(
            sample(8, 0, 2 * period + 1, 0, [2] * 16)) + [(read(32), value(3))])

        # Resets in the middle of a period.
        for phase in [0, 1, period // 2, period - 1]:
            play("software reset zeroes phase %d at the %s" % (phase, name), start + quiet([
                stamp(phase), write(0), write(11, 1), stamp(period - 1)]) + [
                (read(32), 0), (stamp(1), 0), (read(32), value(1)),
                (read(2), value(phase + period))])
            for later, later_speed, later_period in SPEEDS:
                play("hardware reset zeroes phase %d, %s to %s" % (phase, name, later),
                     start + quiet([stamp(phase), hard(later_speed), write(11, 1),
                                    stamp(later_period - 1)]) + [
                         (read(32), 0), (stamp(1), 0), (read(32), value(1)),
                         (read(2), value(later_period))])
        for data in [0, 1, 2, TOP64]:
            play("software reset with data %d keeps the %s" % (data, name), start + [
                (write(0, data, data % 256), 0)] + speed_shown(speed) + [(write(0, data), 0)] +
                speed_shown(speed) + [(read(2), value(200))])

        # Fields of a hardware reset.
        for address, lines in itertools.product([0, 1, 2, 127, 128, 255], [0, 1, 3, 255]):
            for before in [0, 1]:
                play("hardware reset with address %d and lines %d, to the %s" % (
                    address, lines, name), [(hard(before), 0), (stamp(55), 0)] + ON + [
                    (record(0, address, lines, speed), 0), (read(2), 0), (read(1), value(4)),
                    (read(4), 0)] + speed_shown(speed))
        bad = [record(0, data=data) for data in NO_SPEED]
        bad += [record(0, 255, 255, data) for data in NO_SPEED]
        bad += [record(0, 0, 0, data, zero) for data in [0, 1, 2] for zero in [1, 128, 255]]
        for each in bad:
            play("refused hardware reset %s at the %s" % (each.hex(), name), unchanged_by(
                [(each, 9), (each, 9)], speed, period))

        # The report's bits 14 and 15 of the CSR aren't taken up.
        for bits in [1 << 14, 1 << 15, 3 << 14]:
            play("CSR bits %x at the %s" % (bits, name), unchanged_by(
                [(write(1, bits), 0)], speed, period))
            play("CSR bits %x with settings at the %s" % (bits, name), start + [
                (write(1, bits), 0), (read(1), value(4)), (write(1, bits | 0x15), 0),
                (read(1), value(0x15)), (write(1, bits), 0), (read(1), value(0x15)),
                (write(1, bits | 0x2A), 0), (read(1), 0)] + speed_shown(speed) + [
                (write(1, bits), 0), (write(0), 0), (read(1), value(4))] + speed_shown(speed))

    # The last hardware reset chooses, software resets keep the choice.
    for length in range(5):
        for resets in itertools.product(["tenth", "hundredth", "software"], repeat=length):
            steps, speed, time = [], 0, 0
            for reset in resets:
                steps.append((stamp(55), 0))
                time += 55
                if reset == "software":
                    steps.append((write(0), 0))
                else:
                    speed, time = int(reset == "hundredth"), 0
                    steps.append((hard(speed), 0))
            play("resets: %s" % " ".join(resets),
                 steps + [(read(2), value(time))] + speed_shown(speed))
    play("two software resets in a row", [(hard(1), 0), (write(0), 0), (write(0), 0)] +
         speed_shown(1) + [(hard(0), 0)] + speed_shown(0))

    # Large counts: 42,949,672 hundreds and 95, 429,496,729 tens and 5.
    play("the largest count at the hundredth", quiet([hard(1), write(11, ALL), stamp(TOP32)]) + [
        (read(2), value(TOP32)), (read(32), value(42949672)), (stamp(4), 0),
        (read(32), value(42949672)), (stamp(1), 0), (read(47), value(42949673)),
        (stamp(TOP32), 0), (read(32), value(85899345)), (read(2), value(2 * TOP32 + 5))])
    play("the largest count from the last phase, hundredth", quiet([
        hard(1), write(11, ALL), stamp(99), stamp(TOP32)]) + [
        (read(32), value(42949673)), (stamp(5), 0), (read(32), value(42949673)),
        (stamp(1), 0), (read(32), value(42949674))])
    play("the largest count from the last phase, tenth", quiet([
        hard(0), write(11, ALL), stamp(9), stamp(TOP32)]) + [
        (read(32), value(429496730)), (stamp(5), 0), (read(32), value(429496730)),
        (stamp(1), 0), (read(32), value(429496731))])
    chance = random.Random(11)
    splits = [[TOP32], [1, TOP32 - 1], [99, TOP32 - 99], [TOP32 - 100, 100], [TOP32 - 95, 95],
              [1 << 31, (1 << 31) - 1], [9, 10, 11, 99, 100, 101, TOP32 - 330]]
    for parts in [2, 3, 5, 8, 13]:
        cuts = sorted(chance.randrange(TOP32) for _ in range(parts - 1))
        splits.append([end - begin for begin, end in zip([0] + cuts, cuts + [TOP32])])
    for (name, speed, period), split in itertools.product(SPEEDS, splits):
        steps, total = quiet([hard(speed), write(11, 1)]), 0
        for count in split:
            total += count
            steps += [(stamp(count), 0), (read(32), value(total // period))]
        to_event = period - TOP32 % period
        steps += [(read(2), value(TOP32)), (stamp(to_event - 1), 0),
                  (read(32), value(TOP32 // period)), (stamp(1), 0),
                  (read(32), value(TOP32 // period + 1))]
        play("%d ticks at the %s as %s" % (TOP32, name, split), steps)
    play("slow counter wraps at 2^32, hundredth", quiet([hard(1), write(11, 1)] +
         [stamp(TOP32)] * 120) + [(read(32), value(120 * TOP32 // 100 - (1 << 32)))])


def unchanged_by(idle, speed, period):
    """Steps around some idle ones, which may change nothing of a busy chip:
    no register, no counter, no sample, neither phase, speed nor Timestamp."""
    steps = [(hard(speed), 0)] + ON + quiet([write(1, 0x14), write(8, 0x0000AAAA0000FFFE)])
    steps += quiet([write(16 + i, 70 + i) for i in range(8)])
    steps += quiet([write(11, 0x7FFF), stamp(3 * period - 1), node(6), external(0x0010)])
    steps += quiet([write(96, 7, 1), write(97, 8, 2)])
    steps += sends(sample(0, 70, 3 * period - 1, 7))[:5] + idle
    steps += [(read(1), value(0x15)), (read(2), value(3 * period - 1)), (read(4), value(ALL)),
              (read(5), 0), (read(6), 0), (read(8), value(0x0000AAAA0000FFFE)),
              (read(11), value(0x7FFF))]
    steps += [(read(16 + i), value(70 + i)) for i in range(8)]
    counts = [2] + [6 if i % 2 else 0 for i in range(1, 15)] + [0]
    counts[4] = 1
    steps += [(read(32 + i), value(counts[i])) for i in range(16)]
    steps += sends(sample(0, 70, 3 * period - 1, 7))[5:] + idle
    steps += sends(sample(1, 71, 3 * period - 1, 8)) + [(send(), 5)] + idle
    for ticks, count in [(1, 3), (period - 1, 3), (1, 4)]:
        steps += [(stamp(ticks), 0)] + idle + [(read(32), value(count))]
    return steps


# ------------------------------------------------------------- triggers


def triggers():
    for address in [96, 127]:
        steps = list(ON)
        for lines in range(256):
            good = bin(lines).count("1") == 1
            steps += [(write(0), 0)] + ON + [(write(address, 0, lines), 0 if good else 4)]
        play("all line values at %d" % address, steps)
    steps = []
    for lines in range(256):
        want = 6 if bin(lines).count("1") == 1 else 4
        steps += [(write(96, 0, lines), want), (write(112, 0, lines), want)]
    play("reply 4 before 6, all line values", steps)
    full = ON + [(write(112, 0, 1), 0)] + [(write(96, 0, 1), 0)] * 7
    for wait in [0, 4]:
        steps = full + [(write(1, wait), 0), (write(112, 0, 6), 4), (write(1, 2), 0),
                        (write(4, 0), 0), (write(112, 0, 0), 4), (write(112, 0, 1), 6),
                        (write(4, ALL), 0), (write(96, 0, 1), 6), (write(1, 1), 0),
                        (write(4, 0xFFFE), 0), (write(112, 0, 1), 7), (write(96, 0, 1), 7),
                        (read(5), 0), (read(6), 0), (write(112, 0, 0), 4),
                        (write(4, 1), 0), (write(112, 0, 1), 10 if wait else 8)]
        play("order of replies with a full queue, wait %d" % wait, steps)
    for level in range(16):
        steps = [(write(1, 1), 0)]
        for other in range(16):
            want = 0 if other == level else 7
            steps += [(write(4, 1 << level), 0), (write(96 + other, 0, 1), want),
                      (write(112 + other, 0, 1), want)]
        play("filter level %d" % level, steps)

    # Header, Source Address, widths of the fields.
    for line in range(8):
        steps = ON + quiet([write(16 + i, 0xA0B0C0D0 + i) for i in range(8)])
        steps += [(write(98, 3, 1 << line), 0), (write(115, 4, 1 << line), 0)]
        steps += sends(sample(line, 0xA0B0C0D0 + line, 0, 3))
        steps += sends(sample(8 | line, 0xA0B0C0D0 + line, 0, 4, [0] * 16))
        play("line %d" % line, steps)
    user = 0xFEDCBA9876543210
    play("user data keeps 48 bits", ON + [(write(96, user, 1), 0), (write(112, user, 1), 0)] +
         sends(sample(0, 0, 0, user % (1 << 48))) +
         sends(sample(8, 0, 0, user % (1 << 48), [0] * 16)))
    for first in range(0, 256, 6):
        data = bytes((first + i) % 256 for i in range(6))
        number = int.from_bytes(data, "little")
        play("parity of bytes from %d" % first,
             ON + [(write(96, number, 1), 0)] + sends(sample(0, 0, 0, number)))
    steps = quiet([write(8, TOP64), write(11, ALL)])
    for i in range(16):
        steps += quiet([write(12, ALL), write(11, 1 << i), node(0x01020408 * (i + 1))])
    steps += ON + [(write(112, 0, 1), 0)]
    play("sixteen different counters", steps + sends(
        sample(8, 0, 0, 0, [0x01020408 * (i + 1) for i in range(16)])))

    # The lost mark.
    eight = [(write(96, i, 1), 0) for i in range(8)]
    steps = ON + eight + [(write(96, 0, 1), 8)] * 3 + [(read(6), value(3)), (write(6), 0)]
    steps += [(read(6), 0), (read(1), value(1 | 1 << 6))]
    for i in range(2):
        steps += sends(sample(0, 0, 0, i))
    steps += [(write(96, 50, 1), 0), (write(96, 51, 1), 0)]
    for i in range(2, 8):
        steps += sends(sample(0, 0, 0, i))
    steps += sends(sample(16, 0, 0, 50)) + sends(sample(0, 0, 0, 51)) + [(send(), 5)]
    play("write 6 keeps the lost mark, one sample carries it", steps)
    steps = ON + [(write(112, 0, 1), 0), (write(112, 0, 1), 8), (write(96, 1, 1), 0),
                  (write(96, 2, 1), 0)]
    steps += sends(sample(8, 0, 0, 0, [0] * 16)) + sends(sample(16, 0, 0, 1))
    play("a Trace sample carries a lost Resource trigger", steps + sends(sample(0, 0, 0, 2)))
    steps = ON + eight + [(write(96, 0, 1), 8)]
    steps += sends(sample(0)) + [(write(112, 1, 1), 0), (write(112, 1, 1), 8)]
    for i in range(1, 8):
        steps += sends(sample(0, 0, 0, i))
    steps += [(write(96, 5, 1), 0)]
    steps += sends(sample(24, 0, 0, 1, [0] * 16)) + sends(sample(16, 0, 0, 5))
    play("a Resource sample carries the mark, the next loss sets it again", steps)
    play("refused triggers set no mark", ON + [
        (write(96, 0, 0), 4), (write(1, 2), 0), (write(96, 0, 1), 6), (write(1, 1), 0),
        (write(4, 1), 0), (write(97, 0, 1), 7), (write(96, 0, 1), 0), (read(6), 0),
        (read(5), 0)] + sends(sample(0)))

    # Write wait.
    steps = ON + [(write(1, 4), 0)] + eight + [(write(96, 0, 1), 10), (write(112, 0, 1), 10)]
    steps += [(read(5), value(2)), (read(6), 0), (read(1), value(5 | 1 << 6))]
    steps += sends(sample(0)) + [(write(96, 60, 1), 0)]
    for i in range(1, 8):
        steps += sends(sample(0, 0, 0, i))
    steps += sends(sample(0, 0, 0, 60)) + [(send(), 5), (read(5), value(2))]
    play("write wait: 10, no loss, no mark", steps)
    play("write wait with the shadows busy", ON + [
        (write(1, 4), 0), (write(112, 0, 1), 0), (write(112, 0, 1), 10), (write(96, 0, 1), 0),
        (read(5), value(1)), (read(6), 0), (read(1), value(5 | 1 << 7)), (write(1, 8), 0),
        (write(112, 0, 1), 8), (read(5), value(1)), (read(6), value(1))])
    play("read wait doesn't make a trigger wait", ON + [
        (write(1, 16), 0), (write(112, 0, 1), 0), (write(112, 0, 1), 8), (read(5), 0)])
    play("a wait keeps an earlier lost mark", ON + [
        (write(112, 0, 1), 0), (write(112, 0, 1), 8), (write(1, 4), 0), (write(112, 0, 1), 10),
        (write(96, 0, 1), 0)] + sends(sample(8, 0, 0, 0, [0] * 16)) + sends(sample(16)))
    play("write 5 and write 6 clear their own counter", ON + [
        (write(112, 0, 1), 0), (write(112, 0, 1), 8), (write(1, 4), 0), (write(112, 0, 1), 10),
        (write(5), 0), (read(5), 0), (read(6), value(1)), (read(1), value(5 | 1 << 7 | 1 << 9)),
        (write(112, 0, 1), 10), (write(6), 0), (read(5), value(1)), (read(6), 0),
        (read(1), value(5 | 1 << 7))])
    play("flags stay when room comes back", ON + [(write(112, 0, 1), 0), (write(112, 0, 1), 8)] +
         [(send(), None)] * 80 + [(read(1), value(1 | 1 << 9)), (write(6), 0), (read(1), value(1))])
    steps = ON + [(write(112, 0, 1), 0)] + [(write(96, 0, 1), 0)] * 7
    steps += [(send(), None)] * 80 + [(write(112, 9, 1), 0), (read(1), value(1 | 3 << 6))]
    play("a Resource place serves again", steps + [(send(), None)] * 7 * 16 +
         sends(sample(8, 0, 0, 9, [0] * 16)) + [(send(), 5)])
    play("sampling off keeps held samples", ON + [
        (write(96, 7, 1), 0), (write(1, 2), 0), (write(4, 0), 0)] + sends(sample(0, 0, 0, 7)))
    play("nothing to send", [(send(), 5), (send(), 5)])
    steps = list(ON)
    for i in range(40):
        steps += [(write(96 + i % 16, i, 1 << i % 8), 0)] + sends(sample(i % 8, 0, 0, i))
        steps += [(send(), 5)]
    play("the queue goes round", steps)


# ------------------------------------------------------ wait by default


def reset_chips():
    """Wish 7: a fresh chip, and ways to a reset from chips of both speeds, busy
    or not, under discard or write wait. Each is a name and its steps."""
    yield "fresh chip", []
    fill = [(write(112, 0, 1), 0)] + [(write(96, 0, 1), 0)] * 7
    chosen = [("discard", quiet([write(1, 0x19), write(4, ALL)]) + fill + [
                  (write(112, 0, 1), 8), (read(6), value(1)), (read(1), value(0x11 | 15 << 6))]),
              ("write wait", quiet([write(1, 0x15), write(4, ALL)]) + fill + [
                  (write(112, 0, 1), 10), (read(5), value(1)), (read(1), value(0x15 | 3 << 6))]),
              ("discard, then write wait", ON + fill + [
                  (write(96, 0, 1), 8), (write(1, 4), 0), (read(1), value(5 | 7 << 6))]),
              ("write wait, then discard", quiet([write(1, 5), write(4, ALL)]) + fill + [
                  (write(96, 0, 1), 10), (write(1, 8), 0), (read(1), value(1 | 3 << 6))]),
              ("discard alone", [(write(1, 8), 0), (read(1), 0)]),
              ("nothing", [])]
    resets = [("software reset", write(0)), ("software reset with data 8", write(0, 8)),
              ("hardware reset to the tenth", hard(0)),
              ("hardware reset to the hundredth", hard(1)),
              ("hardware reset with address 1 and lines 8", record(0, 1, 8, 0))]
    for (before, steps), (name, reset), (old, speed, _) in itertools.product(
            chosen, resets, SPEEDS):
        yield "%s after %s at the %s" % (name, before, old), [(hard(speed), 0)] + steps + [
            (reset, 0)]


def wait_by_default():
    on = [(write(1, 1), 0), (write(4, 1), 0)]
    eight = [(write(96, i, 1), 0) for i in range(8)]
    all_zero = [0] * 16
    for name, start in reset_chips():
        play("%s: write wait alone is set" % name, start + [
            (read(1), value(4)), (write(96, 0, 1), 6), (write(112, 0, 1), 6), (read(5), 0),
            (read(6), 0), (read(1), value(4))])
        steps = start + on + eight + [(write(96, 8, 1), 10), (read(5), value(1)), (read(6), 0),
                                      (read(1), value(69))]
        first = sends(sample(0))
        steps += first[:15] + [(write(96, 8, 1), 10), (read(5), value(2))] + first[15:]
        steps += [(read(1), value(5)), (write(96, 8, 1), 0), (read(1), value(69))]
        for i in range(1, 9):
            steps += sends(sample(0, 0, 0, i))
        steps += [(send(), 5), (read(5), value(2)), (read(6), 0), (read(1), value(5))]
        play("%s: the ninth Trace trigger waits" % name, steps)
        steps = start + on + [(write(112, 1, 1), 0), (write(112, 2, 1), 10), (read(5), value(1)),
                              (read(6), 0), (read(1), value(5 | 1 << 7)), (read(32), BUSY),
                              (read(5), value(1))]
        steps += sends(sample(8, 0, 0, 1, all_zero)) + [(read(32), 0), (write(112, 2, 1), 0)]
        steps += sends(sample(8, 0, 0, 2, all_zero)) + [(send(), 5), (read(1), value(5))]
        play("%s: the second Resource trigger waits" % name, steps)
        play("%s: both reasons make one wait" % name, start + on + [(write(112, 0, 1), 0)] +
             eight[:7] + [(write(112, 0, 1), 10), (read(5), value(1)), (read(6), 0),
                          (read(1), value(5 | 3 << 6))])
        play("%s: read wait is off" % name, start + on + [(write(112, 0, 1), 0)] +
             [(read(32 + i), BUSY) for i in range(16)] + [(read(5), 0)])
        play("%s: bit 3 chooses discard" % name, start + on + [
            (write(1, 8), 0), (read(1), value(1))] + eight + [
            (write(96, 8, 1), 8), (read(5), 0), (read(6), value(1)),
            (read(1), value(1 | 5 << 6))] + sends(sample(0)) + [(write(96, 9, 1), 0)] +
            [(send(), None)] * 7 * 16 + sends(sample(16, 0, 0, 9)))

    # Every row of four from CSR writes and resets, one after the other.
    resets = [write(0), hard(0), hard(1)]
    steps, settings = [(read(1), value(4))], 4
    for row in itertools.product([write(1, 0x19), write(1, 0x15), write(1, 0x22)] + resets,
                                 repeat=4):
        for each in row:
            if each == write(1, 0x19):
                settings = 0x11
            elif each == write(1, 0x15):
                settings = 0x15
            elif each == write(1, 0x22):
                settings = settings & 4
            else:
                settings = 4
            steps += [(each, 0), (read(1), value(settings))]
    play("rows of CSR writes and resets", steps)

    # A refused hardware reset brings nothing back.
    steps = ON + eight
    refused = [hard(data) for data in NO_SPEED] + [record(0, data=1, zero=255)]
    for each in refused:
        steps += [(each, 9), (read(1), value(1 | 1 << 6))]
    play("a refused hardware reset keeps discard", steps + [
        (write(96, 0, 1), 8), (read(5), 0), (read(6), value(1))])


# --------------------------------------------------------------- format


def record_format():
    check("empty input", raw(b""), HEADING)
    for length in range(1, 12):
        check("%d bytes alone" % length, raw(bytes(length)), HEADING + b"9 0\n")
        check("%d bytes after two records" % length, raw((stamp(3) + read(2) + read(2)[:length])),
              HEADING + b"0 0\n0 3\n9 0\n")
    before = quiet([stamp(3), write(4, 5)])
    after = [(read(2), value(3)), (read(4), value(5)), (read(1), value(4)), (read(5), 0),
             (read(6), 0)]
    steps = list(before)
    for kind in range(7, 256):
        steps.append((record(kind, 4, 1, 1), 9))
    play("unknown kinds", steps + after)
    steps = list(before)
    for kind in range(256):
        for zero in [1, 2, 128, 255] if kind > 6 else range(1, 256):
            steps.append((record(kind, 0, 1, 1, zero), 9))
    play("nonzero fourth byte", steps + after)
    play("9 before every other reply", [
        (record(1, 200, 0, 0, 1), 9), (record(2, 3, 0, 0, 1), 9), (record(6, zero=1), 9),
        (record(1, 96, 0, 0, 1), 9)])
    steps = [(write(8, TOP64), 0), (write(11, ALL), 0)] + before
    for count in [1 << 32, (1 << 32) + 5, 1 << 40, 1 << 63, TOP64]:
        steps += [(stamp(count), 9), (node(count), 9)]
    play("tick counts above 2^32 - 1", steps + after + [(read(32), 0)])
    steps = [(write(8, ALL), 0), (write(11, ALL), 0)] + before
    for mask in [65536, 65537, 131071, TOP32, 1 << 32, TOP64]:
        steps += [(external(mask), 9)]
    play("masks above 65535", steps + [(external(65535), 0)] + after +
         [(read(32 + i), value(1)) for i in range(16)])
    play("unneeded fields are ignored", ON + [
        (record(3, 255, 255, 4), 0), (record(4, 255, 255, 4), 0), (record(5, 255, 255, 4), 0),
        (record(2, 2, 255, TOP64), value(4)), (record(1, 4, 255, 3), 0), (read(4), value(3)),
        (record(6, 255, 255, TOP64), 5), (record(1, 128, 1, 1), 1), (record(1, 255, 0, 1), 1),
        (record(0, 255, 255, TOP64), 9), (read(2), value(4)), (read(4), value(3)),
        (record(0, 255, 255, 1), 0), (read(2), 0), (read(4), 0)])

    # Records across the borders of reads, and many blocks.
    chance = random.Random(3)
    many = [write(1, 9), write(4, ALL), write(11, ALL)]
    for _ in range(60000):
        many.append(chance.choice([write(96 + chance.randrange(32), chance.getrandbits(64),
                                         1 << chance.randrange(8)),
                                   send(), send(), send(), read(chance.randrange(48)),
                                   stamp(chance.getrandbits(32)), read(2), b"\x07" + bytes(11)]))
    many = b"".join(many) + b"\x01\x02"
    whole = raw(many)
    check("many blocks: one line each", whole.count(b"\n"), 60000 + 3 + 1 + 1)
    check("many blocks: last line", whole[-5:], b"\n9 0\n")
    for size in [1009, 4096 + 5, 65536 + 1]:
        check("input in pieces of %d" % size, in_pieces(many, size), whole)
    check("input byte by byte", in_pieces(many[:7007], 1), raw(many[:7007]))


def in_pieces(data, size):
    pipe = subprocess.PIPE
    running = subprocess.Popen([program], stdin=pipe, stdout=pipe, bufsize=0)

    def feed():
        for at in range(0, len(data), size):
            running.stdin.write(data[at:at + size])
        running.stdin.close()

    feeder = threading.Thread(target=feed)
    feeder.start()
    output = running.stdout.read()
    feeder.join()
    running.stdout.close()
    running.wait()
    return output


def long_input():
    """2^24 records bring the Timestamp to its end, in constant memory. The
    slow clock goes on over that end: 2^56 ticks are 36 above a hundred."""
    pipe = subprocess.PIPE
    running = subprocess.Popen([program], stdin=pipe, stdout=pipe, bufsize=0)
    block = stamp(TOP32) * 4096
    head = hard(1) + write(11, 1)
    slow = value((1 << 56) // 100 % (1 << 32))
    slow_next = value(((1 << 56) // 100 + 1) % (1 << 32))
    tail = ON + [(stamp((1 << 24) - 1), 0), (read(2), value((1 << 56) - 1)),
                 (write(96, 0, 1), 0), (stamp(1), 0), (read(2), 0), (stamp(6), 0),
                 (read(2), value(6)), (write(96, 0, 1), 0)]
    tail += sends(sample(0, 0, (1 << 40) - 1)) + sends(sample(0, 0, 6))
    tail += [(read(32), slow), (stamp(57), 0), (read(32), slow), (stamp(1), 0),
             (read(32), slow_next), (read(2), value(64))]

    def feed():
        running.stdin.write(head)
        for _ in range(4096):
            running.stdin.write(block)
        running.stdin.write(b"".join(step[0] for step in tail))
        running.stdin.close()

    feeder = threading.Thread(target=feed)
    feeder.start()
    lines, end = 0, b""
    while True:
        part = running.stdout.read(1 << 20)
        if not part:
            break
        lines += part.count(b"\n")
        end = (end + part)[-4096:]
    feeder.join()
    running.stdout.close()
    _, status, usage = os.wait4(running.pid, 0)
    running.returncode = status
    want = []
    for _, answer in tail:
        want.append("%d %d" % (answer if isinstance(answer, tuple) else (answer, 0)))
    check("long input: exit", status, 0)
    check("long input: number of lines", lines, 1 + 2 + (1 << 24) + len(tail))
    check("Timestamp wraps at 2^56", end.decode("ascii").split("\n")[:-1][-len(want):], want)
    scale = 1 if sys.platform == "darwin" else 1024
    check("long input: memory below 64 MiB", usage.ru_maxrss * scale < 64 << 20, True)


# ----------------------------------------------------------- slow model


class Slow:
    """Document 01, Wishes 2 and 7 again, with no thought for speed: every tick
    singly, the held samples told from the samples taken and the words sent."""

    def __init__(self, slow_period=10, last_reset="no reset"):
        self.time = 0
        self.slow_period = slow_period
        self.reset(last_reset)

    def reset(self, last_reset):
        # For the notes alone: the kind of reset, and whether the script has
        # chosen between write wait and discard since then.
        self.last_reset = last_reset
        self.chosen = False
        self.ticks_since_reset = 0
        # Wish 7: sampling off, write wait set, read wait off.
        self.settings = {0: 0, 2: 1, 4: 0}
        self.flags = set()
        self.lost = False
        self.filter = self.waits = self.overruns = self.mux = 0
        self.enabled = set()
        self.source = [0] * 8
        self.counter = [0] * 16
        self.taken = []
        self.sent = 0

    def held(self):
        end, still = 0, []
        for words in self.taken:
            end += len(words)
            if end > self.sent:
                still.append(words)
        return still

    def shadows_busy(self):
        return any(len(words) == 80 for words in self.held())

    def event(self, i, kind):
        field = (self.mux >> 32 + i & 1) * 2 + (self.mux >> i & 1)
        if i in self.enabled and field == kind:
            self.counter[i] = (self.counter[i] + 1) % 2**32

    def wait(self):
        self.waits = (self.waits + 1) % 2**32
        return (10, 0)

    def step(self, data):
        kind, address, lines, zero, number = struct.unpack("<BBBBQ", data)
        if kind > 6 or zero or kind in (3, 4) and number > TOP32 or kind == 5 and number > ALL:
            return (9, 0)
        if kind == 0 and number not in (0, 1):
            return (9, 0)
        if kind == 0:
            self.__init__({0: 10, 1: 100}[number], "hardware reset")
        elif kind == 1:
            return self.write(address, number, lines)
        elif kind == 2:
            return self.read(address)
        elif kind == 3:
            for _ in range(number):
                self.time = (self.time + 1) % 2**56
                self.ticks_since_reset += 1
                if self.ticks_since_reset % self.slow_period == 0:
                    for i in range(16):
                        self.event(i, 0)
        elif kind == 4:
            for _ in range(number):
                for i in range(16):
                    self.event(i, 3)
        elif kind == 5:
            for i in range(16):
                if number >> i & 1:
                    self.event(i, 1)
        else:
            stream = [word for words in self.taken for word in words]
            if self.sent == len(stream):
                return (5, 0)
            self.sent += 1
            return (0, stream[self.sent - 1])
        return (0, 0)

    def write(self, address, data, lines):
        if address > 127:
            return (1, 0)
        if address in READ_ONLY:
            return (3, 0)
        if address not in BOTH | WRITE_ONLY:
            return (2, 0)
        chosen = {i for i in range(16) if data >> i & 1}
        if address == 0:
            self.reset("software reset")
        elif address == 1:
            self.chosen = self.chosen or data & 12 != 0
            for bit in self.settings:
                if data >> bit & 1:
                    self.settings[bit] = 1
                if data >> bit + 1 & 1:
                    self.settings[bit] = 0
        elif address == 4:
            self.filter = data % 2**16
        elif address == 5:
            self.waits = 0
        elif address == 6:
            self.overruns = 0
            self.flags = set()
        elif address == 8:
            self.mux = data & 0x0000FFFF0000FFFF
        elif address == 10:
            for i in chosen:
                self.counter[i] = 0
        elif address == 11:
            self.enabled |= chosen
        elif address == 12:
            self.enabled -= chosen
        elif address < 32:
            self.source[address - 16] = data % 2**32
        elif address < 48:
            self.event(address - 32, 2)
        else:
            return self.trigger(address >= 112, address % 16, data, lines)
        return (0, 0)

    def trigger(self, resource, level, data, lines):
        if bin(lines).count("1") != 1:
            return (4, 0)
        if not self.settings[0]:
            return (6, 0)
        if not self.filter >> level & 1:
            return (7, 0)
        reasons = set()
        if len(self.held()) == 8:
            reasons.add(8)
        if resource and self.shadows_busy():
            reasons.add(9)
        if reasons:
            if self.settings[2]:
                return self.wait()
            self.overruns = (self.overruns + 1) % 2**32
            self.flags |= reasons
            self.lost = True
            return (8, 0)
        line = lines.bit_length() - 1
        header = line + (8 if resource else 0) + (16 if self.lost else 0)
        data = sample(header, self.source[line], self.time % 2**40, data % 2**48,
                      self.counter if resource else None)
        self.taken.append([step[1][1] for step in sends(data)])
        self.lost = False
        return (0, 0)

    def read(self, address):
        if address > 127:
            return (1, 0)
        if address in WRITE_ONLY:
            return (3, 0)
        if address not in BOTH | READ_ONLY:
            return (2, 0)
        if 32 <= address < 48:
            if not self.shadows_busy():
                return (0, self.counter[address - 32])
            return self.wait() if self.settings[4] else BUSY
        if address >= 16:
            return (0, self.source[address - 16])
        csr = sum(bit << place for place, bit in self.settings.items())
        csr += sum(1 << flag for flag in self.flags)
        csr += (len(self.held()) == 8) * 64 + self.shadows_busy() * 128
        enabled = sum(1 << i for i in self.enabled)
        return (0, {1: csr, 2: self.time, 4: self.filter, 5: self.waits, 6: self.overruns,
                    8: self.mux, 11: enabled}[address])


def set_up(chance):
    """Most often what a script needs after a reset, else nothing."""
    if chance.random() < 0.1:
        return []
    settings = chance.choice([1, 5, 9, 9, 0x11, 0x15, 0x19, 0x19])
    return [write(1, settings), write(4, ALL), write(11, ALL), write(8, chance.getrandbits(64))]


def any_reset(chance):
    """A reset of either kind, to either speed, its idle fields at random."""
    address, lines = chance.randrange(256), chance.randrange(256)
    return chance.choice([write(0, chance.randrange(3), lines), record(0, address, lines, 0),
                          record(0, address, lines, 1)])


def tick_count(chance):
    """A small count, or one just below, at or just above tens or hundreds."""
    if chance.random() < 0.5:
        return chance.randrange(40)
    return chance.choice([10, 100]) * chance.randrange(1, 4) + chance.choice([-1, 0, 1])


def random_records(chance, length):
    """Records of a random temper: some scripts trigger much, some send much."""
    weights = [chance.random() ** 2 for _ in range(13)]
    records = [hard(1)] if chance.random() < 0.5 else []
    records += set_up(chance)
    while len(records) < length:
        data = chance.getrandbits(chance.choice([4, 16, 48, 64]))
        line = 1 << chance.randrange(8)
        what = chance.choices(range(13), weights)[0]
        if what == 0:
            records.append(write(96 + chance.randrange(16), data, line))
        elif what == 1:
            records.append(write(112 + chance.randrange(16), data, line))
        elif what == 2:
            records += [send()] * chance.choice([1, 2, 15, 16, 17, 79, 80, 81])
        elif what == 3:
            records.append(stamp(tick_count(chance)))
        elif what == 4:
            records.append(node(chance.randrange(20)))
        elif what == 5:
            records.append(external(chance.getrandbits(16)))
        elif what == 6:
            records.append(write(32 + chance.randrange(16), data))
        elif what == 7:
            records.append(read(chance.choice([1, 2, 5, 6, 32 + chance.randrange(16)])))
        elif what == 8:
            records.append(read(chance.randrange(256)))
        elif what == 9:
            address = chance.choice([1, 1, 1, 5, 6, 8, 10, 11, 12, 16 + chance.randrange(8)])
            records.append(write(address, data, chance.randrange(256)))
        elif what == 10 and chance.random() < 0.1:
            records.append(chance.choice([
                any_reset(chance), write(4, data), write(chance.randrange(256), data, line),
                write(96 + chance.randrange(32), data, chance.randrange(256))]))
        elif what == 11 and chance.random() < 0.1:
            records.append(chance.choice([
                stamp(1 << 32), node(TOP64), external(1 << 16), hard(chance.choice(NO_SPEED)),
                record(7 + chance.randrange(249)),
                record(chance.randrange(7), chance.randrange(256), 1, data,
                       1 + chance.randrange(255))]))
        elif what == 12 and chance.random() < 0.2:
            records += [any_reset(chance)] + set_up(chance)
    return records


def speed_records(chance, length):
    """Records about the slow clock: resets of both kinds in the middle of a
    run, and ticks to just below, at and just above a slow event."""
    records, since_reset = [], 0
    while len(records) < length:
        what = chance.choices(range(6), [60, 20, 6, 6, 6, 2])[0]
        if what == 0:
            period = chance.choice([10, 100])
            to_event = period - since_reset % period
            count = chance.choice([
                to_event - 1, to_event, to_event + 1, to_event + period * chance.randrange(4),
                tick_count(chance), chance.randrange(250)])
            records += [stamp(count), read(32 + chance.randrange(16))]
            since_reset += count
        elif what == 1:
            records += [any_reset(chance) for _ in range(chance.choice([1, 1, 1, 2, 3]))]
            records += [write(11, ALL)] if chance.random() < 0.9 else []
            since_reset = 0
        elif what == 2:
            bad = chance.choice([(chance.choice(NO_SPEED), 0),
                                 (chance.randrange(2), chance.randrange(1, 256))])
            records.append(record(0, chance.randrange(256), chance.randrange(256), *bad))
        elif what == 3:
            records += [write(1, chance.randrange(1, 4) << 14), read(1)]
        elif what == 4:
            mux = 1 << chance.randrange(16) + 32 * chance.randrange(2)
            records += [write(chance.choice([11, 12]), chance.getrandbits(16)),
                        write(8, chance.choice([0, 0, mux])), node(3)]
        else:
            records += [write(1, 1), write(4, ALL), write(112, 5, 4)] + [send()] * 80
    return records


def room_records(chance, length):
    """Records about losses and waits: resets of both kinds, after which the
    script may choose write wait or discard, and bursts of triggers and of sends."""
    settings = [1, 1, 5, 9, 9, 9, 0x11, 0x11, 0x15, 0x19, 0x19, 0x19]
    records = [write(1, chance.choice(settings)), write(4, ALL)]
    while len(records) < length:
        what = chance.choices(range(6), [30, 10, 20, 20, 10, 5])[0]
        if what == 0:
            first = chance.choice([96, 96, 112])
            records += [write(first + chance.randrange(16), chance.getrandbits(64),
                              1 << chance.randrange(8)) for _ in range(chance.randrange(1, 13))]
        elif what == 1:
            records += [send()] * chance.choice([1, 15, 16, 17, 80])
        elif what == 2:
            records += [any_reset(chance), write(1, chance.choice(settings)), write(4, ALL)]
        elif what == 3:
            records += [read(1), read(32 + chance.randrange(16)), read(5), read(6)]
        elif what == 4:
            records += [write(1, chance.getrandbits(6)), read(1), write(1, 1)]
        else:
            records.append(write(chance.choice([5, 6])))
    return records


def step_and_note(slow, each, met):
    """One step of the slow model, and what it meets of the slow clock, of
    losses and of waits."""
    period, write_wait, reply = slow.slow_period, slow.settings[2], slow.step(each)
    since = (slow.last_reset, slow.slow_period)
    if each[0] == 0 and reply == (0, 0):
        met["hardware reset", period, slow.slow_period] += 1
        met["reset under write wait" if write_wait else "reset under discard", since] += 1
    elif each[:2] == bytes([1, 0]) and reply == (0, 0):
        met["software reset", period] += 1
        met["reset under write wait" if write_wait else "reset under discard", since] += 1
    elif reply[0] == 8:
        met["loss", since] += 1
    elif reply[0] == 10 and each[0] == 1:
        met["wait of a trigger", since] += 1
        if not slow.chosen:
            met["wait of a trigger by default", since] += 1
    elif each[0] == 3 and reply == (0, 0):
        phase = slow.ticks_since_reset % period
        if phase in (period - 1, 0, 1):
            met["ticks to phase", phase, period] += 1
    return reply


def random_scripts():
    seen, met = set(), collections.Counter()
    for seed in range(1200):
        some_records = [random_records, speed_records, room_records, room_records][seed // 300]
        records = some_records(random.Random(seed), 300)
        slow = Slow()
        want = [step_and_note(slow, each, met) for each in records]
        seen |= {number for number, _ in want}
        check("random script %d" % seed, run(records), want)
    check("random scripts meet every reply", seen, set(range(12)))
    often = [("hardware reset", old, new) for old in (10, 100) for new in (10, 100)]
    for period in (10, 100):
        often.append(("software reset", period))
        often += [("ticks to phase", phase, period) for phase in (period - 1, 0, 1)]
    # Losses and waits before any reset, and since each kind of reset.
    resets = [(name, period) for name in ("hardware reset", "software reset")
              for period in (10, 100)]
    for since in [("no reset", 10)] + resets:
        often += [("loss", since), ("wait of a trigger", since),
                  ("wait of a trigger by default", since)]
    for since in resets:
        often += [("reset under discard", since), ("reset under write wait", since)]
    for what in often:
        check("random scripts often meet %s %s" % (what[0], what[1:]), met[what] >= 500, True)


def main():
    global program
    with tempfile.TemporaryDirectory() as folder:
        program = os.path.join(folder, "twin")
        command = ["rustc", "--edition", "2021", "-O", "-o", program,
                   os.path.join(HERE, "main.rs")]
        if subprocess.run(command).returncode != 0:
            print("twin: the build failed")
            return 1
        listing_b()
        marked_examples()
        easy_errors()
        address_map()
        registers()
        counters()
        slow_clock()
        triggers()
        wait_by_default()
        record_format()
        random_scripts()
        long_input()
    if failed:
        print("twin: %d checks failed, %d passed" % (failed, passed))
        return 1
    print("twin: %d checks passed" % passed)
    return 0


if __name__ == "__main__":
    sys.exit(main())
