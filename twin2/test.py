#!/usr/bin/env python3
"""Builds the twin of the MultiKron II and checks it from outside, against its
papers: vectors worked by hand, then random records against a slow model."""

import functools
import itertools
import os
import random
import struct
import subprocess
import sys
import tempfile
import threading

HERE = os.path.dirname(os.path.abspath(__file__))
HEADING = b"answer value\n"
TOP32, TOP64 = 2**32 - 1, 2**64 - 1
EVERY, EVEN = 0x1111111111111111, 0x0101010101010101  # bit 0 of every field, of the even counters' fields
BUSY = (11, 2**63)
ENABLE, MODE, CLOCK = 8, 10, 12


def record(kind, address=0, lines=0, data=0, high=0, zero=0, zeros=0):
    return struct.pack("<BBBBHHQ", kind, address, lines, zero, high, zeros, data)


def write(address, data=0, lines=0):
    return record(1, address, lines, data)


read = functools.partial(record, 2)
stamp, node, external, buffer = (
    lambda number, high=0, kind=kind: record(kind, 0, 0, number, high) for kind in (3, 4, 5, 7))
HARD, SOFT, SEND = record(0), write(0), record(6)
ON = [write(1, 9), write(4, 0xFFFF)]  # sampling, discard, every level

program = None
results = []


def check(name, got, want):
    results.append(got == want)
    if got != want:
        print("FAILED %s\n  got  %.2000s\n  want %.2000s" % (name, got, want))


def raw(data):
    """The whole output for some input bytes."""
    done = subprocess.run([program], input=data, stdout=subprocess.PIPE)
    return done.stdout if done.returncode == 0 else b"exit %d" % done.returncode


def run(records):
    """The lines for a list of records, as tuples of numbers: reply, value, words."""
    output = raw(b"".join(records))
    if not output.startswith(HEADING) or not output.endswith(b"\n"):
        return [output]
    return [tuple(map(int, line.split(b" "))) for line in output[len(HEADING):].split(b"\n")[:-1]]


def play(name, steps):
    """Runs steps and checks every reply. A step is a record that gets 0 with value 0, or
    a record with its reply: a bare number has value 0, None is not looked at."""
    steps = [step if isinstance(step, tuple) else (step, 0) for step in steps]
    got = run([each for each, _ in steps])
    check(name, got, [line if reply is None else reply if isinstance(reply, tuple) else (reply, 0)
                      for (_, reply), line in zip(steps, got + ["missing"] * len(steps))])


def codes(enable, mode, clock=0):
    """Writes of the three field registers; a code 0 changes nothing."""
    return [write(8, enable), write(10, mode), write(12, clock)]


def narrow(number, width=32):
    """The reply that reads a register of this width: ones above it."""
    return (0, number | TOP64 << width & TOP64)


def sees(address, number, width=32):
    """A read that gives this number."""
    return (read(address), narrow(number, width))


def counts(*numbers, first=64):
    """Reads of neighbouring counters (64: with copy, 80: without)."""
    return [sees(first + i, number) for i, number in enumerate(numbers)]


def words(data):
    """The words of one whole sample of these bytes."""
    result = [byte | (bin(byte).count("1") % 2 == 0) << 8 for byte in data]
    return result[:-1] + [result[-1] | 512]


def sample(header, source=0, time=0, user=0, counters=()):
    data = bytes([header]) + struct.pack("<I", source) + struct.pack("<Q", time)[:7] + struct.pack("<Q", user)
    return words(data + b"".join(struct.pack("<I", counter) for counter in counters))


def sends(stream):
    """Single sends that give just this stream."""
    return [(SEND, (0, word)) for word in stream] + [(SEND, 5)]


def whole(stream):
    """A buffer send that gives just this stream."""
    return (buffer(1000), (0, len(stream), *stream))


csr = functools.partial(sees, 1, width=64)


def registers():
    fresh = [sees(7, 0), csr(32772), sees(2, 0, 56), sees(4, 0, 16), sees(5, 0), sees(6, 0), sees(8, EVERY, 64),
             sees(10, 4 * EVERY, 64), sees(12, 4 * EVERY, 64), *counts(*[0] * 8, first=32),
             *counts(*[0] * 16, first=80), *counts(*[0] * 16)]
    play("a fresh chip", fresh)
    full = ON + [write(1, 0x4010), write(7, 0x22222222), *codes(0xEEEEEEEE, 0x99999999, 0x11111111), node(55), stamp(5),
                 write(112, 0, 1), write(33, 5), write(64, 9), (write(112, 0, 1), 8), (read(64), 10), (buffer(3), None)]
    for name, reset, time in [("hardware", HARD, 0), ("software", write(0, TOP64, 255), 5)]:
        again = [sees(2, time, 56) if step == sees(2, 0, 56) else step for step in fresh]
        play(name + " reset in a sample", full + [reset] + again + [(SEND, 5), whole([])] + ON + [
            write(112, 3, 1), whole(sample(8, 0, time, 3, [0] * 16))])
        play(name + " reset zeroes the node clock's phase", [node(99), reset] + codes(2 * EVERY, EVERY, 0x23) + [
            node(9), *counts(0, 0), node(1), *counts(0, 1), node(89), *counts(0, 9), node(1), *counts(1, 10)])
    both = {1, 4, 5, 6, 7, 8, 10, 12, *range(32, 40), *range(64, 96)}
    for address in range(256):
        want = (1, 1) if address > 127 else (6, 3) if address > 95 else (0, 0) if address in both else \
            {0: (0, 3), 2: (3, 0)}.get(address, (2, 2))
        check("address %d" % address, tuple(line[0] for line in run([write(address, 0, 1), read(address)])), want)
    for address, width in [(4, 16), *[(place, 32) for place in (7, *range(32, 40), *range(64, 80))]]:
        play("width of %d" % address, [write(address, TOP64), sees(address, TOP64), write(
            address, TOP64 << width & TOP64 | 0x1234), sees(address, 0x1234, width)])
    # CSR: every write of its eight bits from every setting; the odd bit wins.
    for on in itertools.product((0, 1), repeat=4):
        first, steps = sum(1 << place + (not setting) for place, setting in zip((0, 2, 4, 14), on)), []
        for bits in range(256):
            data = bits & 63 | bits >> 6 << 14
            want = sum([setting, 1, 0, 0][data >> place & 3] << place for place, setting in zip((0, 2, 4, 14), on))
            want += 0 if want >> 14 else 1 << 15
            steps += [write(1, first), write(1, data | TOP64 & ~0xC03F), csr(want)]
        play("CSR from settings %d, %d, %d, %d" % on, steps)


def high_order():
    play("upper halves go into 7", [
        write(10, 0x1234567100000001), sees(10, 0x1234567144444441, 64), sees(7, 0x12345671), sees(7, 0x12345671),
        csr(32772), sees(7, 0), sees(4, 0, 16), sees(7, TOP32), stamp(5), sees(2, 5, 56), sees(7, 0xFF000000),
        sees(8, EVERY, 64), sees(80, 0), sees(7, TOP32)])
    keep = [write(7, 77)]
    for address, number in [(0, 3), (3, 2), (16, 2), (25, 2), (96, 3), (127, 3), (128, 1), (135, 1), (255, 1)]:
        keep += [(read(address), number), sees(7, 77)]
    play("refusals, 10 and 11 leave 7", keep + ON + [
        write(112, 0, 1), (read(64), BUSY), sees(7, 77), write(1, 16), (read(64), 10), sees(7, 77), sees(80, 0),
        sees(7, TOP32)])
    for address, default in [(8, 1), (10, 4), (12, 4)]:
        play("32-bit mode, %d" % address, [
            write(1, 0x4000), write(address, 0x6666666622222222),  # 7 holds 0: the upper fields change nothing
            sees(address, default * 0x1111111100000000 | 0x22222222, 64), write(7, 0xFFFFFFFF33333333),
            write(address, 0x5555555511111111), sees(address, 0x3333333311111111, 64), sees(7, 0x33333333),
            write(1, 0xC000), write(7, 5), write(address, 0x7777777766666666), sees(address, 0x7777777766666666, 64)])
    play("a write takes what the last read left in 7", [
        write(1, 0x4000), stamp(1), sees(2, 1, 56), write(8, 0), sees(8, 0xFF11111111111111, 64), sees(4, 0, 16),
        write(12, 0), sees(12, 0xFFFFFFFF44444444, 64)])
    play("a trigger's data in both modes", ON + [
        write(7, 0xABCDEF01), write(96, 2**40 + 3, 1), write(1, 0x4000), write(96, 2**40 + 3, 1), write(1, 0x8000),
        csr(0x8001), whole(sample(0, 0, 0, 2**40 + 3) + sample(0, 0, 0, 0xABCDEF0100000003))])


def fields():
    for name, address, default, heeded in [("Enable", 8, 1, 3), ("Mode", 10, 4, 7), ("Clock Select", 12, 4, 7)]:
        for code in range(16):
            held = code if code & heeded else default
            steps = [write(address, code * EVERY), sees(address, held * EVERY, 64), HARD]
            for i in range(16):  # one field among fields that change nothing
                place = 15 << 4 * i
                steps += [write(address, (8 * EVERY if i % 2 else 0) & ~place | code << 4 * i),
                          sees(address, default * EVERY & ~place | held << 4 * i, 64), HARD]
            play("%s code %d" % (name, code), steps + [write(address, 13 * EVERY), write(address, code * EVERY), sees(
                address, (code if code & heeded else 13) * EVERY, 64)])
    for code in range(16):
        after = [0 if i == 6 and code & 3 == 3 else 5 for i in range(16)]
        steps = [write(64 + i, 5) for i in range(16)] + [write(8, code << 24)] + counts(*after)
        after[5:7] = [0, 8]
        play("Enable %d resets at its own write alone" % code, steps + [
            write(70, 8), write(8, 0), write(8, 12 << 24), write(8, 3 << 20), *counts(*after)])
    # Tables B5, B6, B7: every code, and what each event adds then.
    for i, upper in [(0, 0), (1, 0), (6, 8), (7, 8), (14, 0), (15, 8)]:
        line, rest = 1 << i, 65535 - (1 << i)
        for mode, clock in itertools.product(range(1, 8), range(1, 8)):
            by_stamp = 300 if clock == 4 else 0
            by_node = {1: 300, 2: 30, 3: 3, 5: 300, 6: 30, 7: 3}.get(clock, 0)
            events = [(write(80 + i, TOP64, 255), mode in (2, 6)), (external(line), mode == 4), (external(rest), 0)]
            for high in (0, line, rest, 65535):
                counting = mode in (1, 5) or mode in (3, 7) and high & line != 0
                events += [(stamp(300, high), counting and by_stamp), (node(300, high), counting and by_node)]
            steps, total = [], 0
            for enable in (1, 2, 3, 4 | 1, 8 | 2, 12 | 3):
                steps += codes(enable << 4 * i, (mode | upper) << 4 * i, (clock | upper) << 4 * i)
                total = 0 if enable & 3 == 3 else total
                for event, adds in events:
                    total += adds if enable & 2 else 0
                    steps += [event, sees(64 + i, total)]
            play("counter %d, Mode %d, Clock Select %d" % (i, mode | upper, clock | upper), steps)


def clocks():
    play("tenths and hundredths go on without a counter", [node(7)] + codes(2 * EVERY, EVERY, 0x12) + [
        node(2), stamp(50), *counts(0, 2), write(12, 0x32), node(1), *counts(1, 2), node(89), *counts(9, 2), node(1),
        *counts(10, 3)])
    total = TOP32 * 12 + 5
    play("the largest counts", codes(2 * EVERY, EVERY, 0x4321) + [
        node(TOP32), *counts(TOP32, 429496729, 42949672, 0), node(4), *counts(3, 429496729, 42949672),
        node(1), *counts(4, 429496730, 42949673), node(0), *[node(TOP32)] * 11, stamp(TOP32),
        *counts(total % 2**32, total // 10 % 2**32, total // 100, TOP32)])
    play("counters wrap at 2^32", codes(2 * EVERY, EVERY) + [
        write(64, TOP32), write(65, TOP32), stamp(1), *counts(0, 0, 1, 1), stamp(TOP32), *counts(TOP32, TOP32, 0, 0)])


def pairs():
    top = write(64, TOP32)
    for name, mode, clock, *event in [
            ("software", 0xA, 1, write(80)), ("external", 0xC, 1, external(1)), ("Timestamp", 0x9, 4, stamp(1)),
            ("node", 0xD, 5, node(1)), ("tenth", 0x9, 2, node(10)), ("hundredth", 0x9, 7, node(100)),
            ("gated", 0xF, 1, node(9, 0xFFFE), node(1, 1))]:
        setup, part = codes(0x12, mode, clock), write(10, mode & 7)
        play(name + ": carry over 2^32", setup + [top, *event, *counts(0, 1), *event, *counts(1, 1, 0)])
        play(name + ": carry over 2^64", setup + [top, write(65, TOP32), *event, *counts(0, 0, 0)])
        play(name + ": no carry unpaired", setup + [part, top, *event, *counts(0, 0)])
        play(name + ": parted in mid-count", setup + [
            write(64, TOP32 - 1), write(65, 6), *event, *counts(TOP32, 6), part, *counts(TOP32, 6), *event,
            *counts(0, 6), write(10, mode), top, *event, *counts(0, 7)])
    play("many ticks", codes(0xE, 9, 1) + [node(TOP32), node(TOP32), node(5), *counts(3, 2), top, node(TOP32),
                                           *counts(TOP32 - 1, 3)])
    # The odd one's fields, enabling and events count nothing while it is paired; parted they do.
    for mode, clock, event in [(2, 1, write(81)), (4, 1, external(2)), (1, 1, node(1)), (7, 4, stamp(1, 2)),
                               (5, 4, stamp(1))]:
        for enable, even in [(0x21, 4), (0x22, 4 if mode == 2 else 2)]:
            play("events for the odd half, Mode %d" % mode, codes(enable, 8 | even | mode << 4, 2 | clock << 4) + [
                event, event, *counts(0, 0), write(10, even), event, *counts(0, 1), write(10, 8 | even), event,
                *counts(0, 1)])
    play("the odd half is disabled, the pair counts", codes(0x12, 0xA) + [
        top, write(80), *counts(0, 1), write(8, 1), write(80), *counts(0, 1)])
    play("one half written or reset", codes(0x22, 0xA) + [
        write(64, 5), write(65, 6), *counts(5, 6), write(8, 0x30), *counts(5, 0), write(65, 9), write(8, 0x3),
        write(80), *counts(1, 9), write(65, 2**40 + 3), *counts(1, 3)])
    play("an odd field's bit 3 means nothing", codes(2 * EVERY, 0x22A2) + [
        *[write(64 + i, TOP32) for i in range(4)], write(80), write(81), *counts(0, 0, TOP32, TOP32)])
    play("1000 neither pairs nor parts", codes(2, 2) + [
        write(10, 8), top, write(80), *counts(0, 0), write(10, 10), write(10, 8), write(10, 0), top, write(80),
        *counts(0, 1)])
    after = [(TOP32 - i + 9) % 2**32 if i % 2 == 0 else TOP32 - i + (i <= 9) for i in range(16)]
    play("all eight pairs, in a sample too", ON + codes(2 * EVEN, 9 * EVEN, EVEN) + [
        *[write(64 + i, TOP32 - i) for i in range(16)], node(9), write(112, 7, 128), whole(sample(15, 0, 0, 7, after))])


def shadows():
    after, later = counts(*range(100, 116), first=80), counts(100, 101, 102, 5, first=80)
    filled = [write(64 + i, 100 + i) for i in range(16)]
    play("with and without copy", filled + counts(*[0] * 16, first=80) + [
        sees(64, 100), *after, write(67, 5), *after, sees(70, 106), *later])
    held = ON + filled + [write(112, 0, 1)]
    play("busy without read wait", held + after + [write(67, 5)] + [(read(64 + i), BUSY) for i in range(16)] + after + [
        sees(5, 0), (buffer(83), None), (read(67), BUSY), csr(0x8081), (SEND, None), *after, sees(67, 5), csr(0x8001),
        *later])
    play("busy with read wait", held + [
        write(1, 16), write(67, 5), (read(64), 10), (read(79), 10), *after, sees(5, 2), (buffer(1000), None),
        sees(67, 5), sees(5, 2), write(5), sees(5, 0)])
    play("a Resource sample keeps its counters", held + [write(64 + i, 0) for i in range(16)] + sends(
        sample(8, 0, 0, 0, range(100, 116))))


def samples():
    for line in range(8):
        data = bytes([line, 1 + line, 2, 3, 4, 13, 12, 11, 10, 0, 0, 0, 0x88, 0x77, 0x66, 0x55, 0x44, 0x33, 0x22, 0x11])
        play("twenty words, line %d" % line, ON + [
            write(32 + line, 0x04030201 + line), stamp(0x0A0B0C0D), write(96 + line, 0x1122334455667788, 1 << line),
            stamp(1), write(32 + line, 0), *sends(words(data))])
    trace, resource, eight = write(96, 0, 1), write(112, 0, 1), [write(96, i, 1) for i in range(8)]
    play("lines", [(write(address, 0, lines), 4) for lines in (0, 3, 0x81, 0xFF) for address in (96, 127)])
    play("order 4, 6, 7, room", [
        (write(96, 0, 3), 4), (trace, 6), write(1, 1), (write(96, 0, 3), 4), (trace, 7), write(4, 1 << 5),
        write(101, 0, 1), write(117, 0, 1), (write(100, 0, 1), 7), (write(118, 0, 1), 7), (write(117, 0, 1), 10),
        write(1, 2), (write(101, 0, 1), 6)])
    play("a ninth trigger is lost", ON + eight + [
        (trace, 8), sees(6, 1), csr(0x8141), (buffer(19), None), (trace, 8), (SEND, None), csr(0x8101), write(6),
        csr(0x8001), sees(6, 0), write(98, 9, 2), (trace, 8), (buffer(140), None), whole(sample(17, 0, 0, 9)),
        trace, whole(sample(16)), trace, whole(sample(0))])
    play("a ninth trigger waits", [write(1, 1), write(4, 1)] + eight + [
        (trace, 10), (resource, 10), sees(5, 2), sees(6, 0), (buffer(19), None), (trace, 10), csr(0x8045), (SEND, None),
        write(96, 8, 1), (buffer(140), None), whole(sample(0, 0, 0, 8))])
    play("two Resource triggers", ON + [
        resource, (resource, 8), csr(0x8281), (buffer(83), None), (resource, 8), (SEND, None), resource])
    play("flags stay", ON + eight + [
        (trace, 8), (buffer(40), None), resource, (resource, 8), csr(0x8381), write(6), csr(0x8081)])
    play("lost for both reasons", ON + [resource] + eight[1:] + [
        (resource, 8), sees(6, 1), csr(0x83C1), (trace, 8), sees(6, 2)])
    stream = sample(8, 0, 0, 1, [0] * 16) + sample(0, 0, 0, 2) * 7
    taken = ON + [write(112, 1, 1)] + [write(96, 2, 1)] * 7
    play("buffer sends", taken + [
        buffer(0), (buffer(1), (0, 1, stream[0])), (SEND, (0, stream[1])), (buffer(81), (0, 81, *stream[2:83])),
        (buffer(22), (0, 22, *stream[83:105])), (buffer(1001), 9), whole(stream[105:]), buffer(1000), buffer(0),
        (SEND, 5)])
    for size in (1, 7, 20, 21, 84, 223, 224, 225, 999, 1000):
        pieces = [stream[at:at + size] for at in range(0, 225, size)]
        play("pieces of %d" % size, taken + [(buffer(size), (0, len(piece), *piece)) for piece in pieces] + [(SEND, 5)])


def record_format():
    check("empty input", raw(b""), HEADING)
    for length in range(1, 16):
        check("%d bytes" % length, raw(stamp(3) + read(1) + bytes(length)), HEADING + b"0 0\n0 32772\n9 0\n")
    setup = ON + [write(8, 2 * EVERY), write(10, 4 * EVERY), write(96, 1, 1), stamp(3)]
    after = [sees(2, 3, 56), sees(4, TOP64), csr(0x8001), whole(sample(0, 0, 0, 1)), *counts(*[0] * 16)]
    play("kinds above 7", setup + [(record(kind, 4, 1, 1), 9) for kind in range(8, 256)] + after)
    play("zero bytes", setup + [(record(kind, 0, 1, 1, 0, 1 << bit & 255, 1 << bit >> 8), 9)
                                for kind in range(9) for bit in range(24)] + after)
    play("numbers too large", setup + [(record(kind, data=data), 9) for kind, least in (
        (3, 2**32), (4, 2**32), (5, 2**16), (7, 1001)) for data in (least, least + 1, 2**33 + 3, 2**63, TOP64)] + after)
    play("fields not needed", ON + [
        record(3, 255, 255, 4), record(4, 255, 255, 4, 9), record(5, 255, 255, 4, 9),
        (record(2, 2, 255, TOP64, 65535), narrow(4, 56)), record(1, 33, 255, 3, 65535), sees(33, 3),
        (record(6, 255, 255, TOP64, 65535), 5), record(7, 255, 255, 9, 65535), record(1, 64, 0, 6, 65535), sees(64, 6),
        record(0, 255, 255, TOP64, 65535), sees(2, 0, 56), sees(64, 0)])
    many = b"".join(random_records(random.Random(3), 20000)) + b"\1\2\3"
    output = raw(many)
    for size in (1009, 65537):
        pieces = [many[at:at + size] for at in range(0, len(many), size)]
        check("pieces of %d bytes" % size, feed(pieces)[:2], (len(many) // 16 + 2, output[-4096:]))


def feed(pieces):
    """The number of lines, the end of the output, and the memory used, for input in pieces."""
    running = subprocess.Popen([program], stdin=subprocess.PIPE, stdout=subprocess.PIPE)
    feeder = threading.Thread(target=lambda: (running.stdin.writelines(pieces), running.stdin.close()))
    feeder.start()
    lines, end = 0, b""
    for part in iter(lambda: running.stdout.read(1 << 20), b""):
        lines += part.count(b"\n")
        end = (end + part)[-4096:]
    feeder.join()
    running.stdout.close()
    _, running.returncode, usage = os.wait4(running.pid, 0)
    return lines, end, usage.ru_maxrss * (1 if sys.platform == "darwin" else 1024)


def long_input():
    """2^24 records bring the Timestamp to its end, in constant memory; a pair counts on."""
    head = write(1, 9) + write(4, 1) + write(8, 2) + write(10, 9)
    tail = [stamp(2**24 - 1), read(2), write(96, 0, 1), stamp(1), read(2), write(96, 0, 1), read(64), read(81),
            buffer(40)]
    lines, end, memory = feed([head] + [stamp(TOP32) * 4096] * 4096 + tail)
    want = [(0, 0), (0, TOP64), (0, 0), (0, 0), narrow(0, 56), (0, 0), narrow(0), narrow(2**24),
            (0, 40, *sample(0, 0, 2**56 - 1), *sample(0))]
    check("long input: lines", lines, 1 + 4 + 2**24 + 9)
    check("Timestamp wraps at 2^56", [tuple(map(int, line.split())) for line in end.split(b"\n")[-10:-1]], want)
    check("long input: memory below 64 MiB", memory < 64 << 20, True)


# Clock Select's codes: the kind of record that ticks the clock, and its ticks from one event to the next.
CLOCKS = {1: (4, 1), 5: (4, 1), 2: (4, 10), 6: (4, 10), 3: (4, 100), 7: (4, 100), 4: (3, 1)}


class Slow:
    """The papers again, with no thought for speed: every tick singly, fields as
    lists, the held samples told from the samples taken and the words sent."""

    def __init__(self, time=0):
        self.time, self.nodes = time, 0
        self.on = {0: 0, 2: 1, 4: 0, 14: 0}  # the settings by their CSR bits
        self.flags, self.lost = set(), False
        self.field = {ENABLE: [1] * 16, MODE: [4] * 16, CLOCK: [4] * 16}
        self.register = {4: 0, 5: 0, 6: 0, 7: 0, **{32 + i: 0 for i in range(8)}}
        self.counter, self.shadow = [0] * 16, [0] * 16
        self.taken, self.sent = [], 0

    def held(self):
        ends = itertools.accumulate(len(stream) for stream in self.taken)
        return [len(stream) for stream, end in zip(self.taken, ends) if end > self.sent]

    def event(self, kind, chosen, high=0):
        """For the chosen counters, one event of a kind of record: 1 software, 3 and 4 a clock's tick, 5 external."""
        for i in chosen:
            mode, clock, paired = self.field[MODE][i] & 7, self.field[CLOCK][i] & 7, self.field[MODE][i & 14] & 8
            source, period = {2: (1, 1), 6: (1, 1), 4: (5, 1)}.get(mode, CLOCKS[clock])
            if i % 2 and paired or not self.field[ENABLE][i] & 2 or mode in (3, 7) and not high >> i & 1:
                continue
            if source == kind and self.nodes % period == 0:
                self.counter[i] = (self.counter[i] + 1) % 2**32
                if paired and self.counter[i] == 0:
                    self.counter[i + 1] = (self.counter[i + 1] + 1) % 2**32

    def step(self, data):
        kind, address, lines, zero, high, zeros, number = struct.unpack("<BBBBHHQ", data)
        if kind > 7 or zero or zeros or number > {3: TOP32, 4: TOP32, 5: 65535, 7: 1000}.get(kind, TOP64):
            return (9, 0)
        if kind == 0:
            self.__init__()
        elif kind == 1:
            if self.on[14]:
                number = number % 2**32 + self.register[7] * 2**32
            return (self.write(address, number, lines), 0)
        elif kind == 2:
            reply = self.read(address)
            if reply[0] == 0 and address != 7:
                self.register[7] = reply[1] >> 32
            return reply
        elif kind in (3, 4):
            for _ in range(number):
                self.time, self.nodes = (self.time + (kind == 3)) % 2**56, self.nodes + (kind == 4)
                self.event(kind, range(16), high)
        elif kind == 5:
            self.event(5, [i for i in range(16) if number >> i & 1])
        else:
            left = [word for stream in self.taken for word in stream][self.sent:][:1 if kind == 6 else number]
            self.sent += len(left)
            return (0, len(left), *left) if kind == 7 else (0, left[0]) if left else (5, 0)
        return (0, 0)

    def write(self, address, data, lines):
        if address == 0:
            self.__init__(self.time)
        elif address == 1:
            for place in self.on:
                self.on[place] = [self.on[place], 1, 0, 0][data >> place & 3]
        elif address in self.field:
            for i in range(16):
                code = data >> 4 * i & 15
                if code % (4 if address == ENABLE else 8):
                    self.field[address][i] = code
                    if address == ENABLE and code % 4 == 3:
                        self.counter[i] = 0
        elif address in self.register:
            self.register[address] = 0 if address in (5, 6) else data % (2**16 if address == 4 else 2**32)
            self.flags = set() if address == 6 else self.flags
        elif 64 <= address < 80:
            self.counter[address - 64] = data % 2**32
        elif 80 <= address < 96:
            self.event(1, [address - 80])
        elif 96 <= address < 128:
            return self.trigger(address >= 112, address % 16, data, lines)
        else:
            return 1 if address > 127 else 3 if address == 2 else 2
        return 0

    def trigger(self, resource, level, data, lines):
        if lines not in (1, 2, 4, 8, 16, 32, 64, 128):
            return 4
        if not self.on[0] or not self.register[4] >> level & 1:
            return 7 if self.on[0] else 6
        reasons = {8} if len(self.held()) == 8 else set()
        reasons |= {9} if resource and 84 in self.held() else set()
        if reasons:
            self.register[5 if self.on[2] else 6] += 1
            if not self.on[2]:
                self.flags, self.lost = self.flags | reasons, True
            return 10 if self.on[2] else 8
        line = lines.bit_length() - 1
        self.taken.append(sample(line + 8 * resource + 16 * self.lost, self.register[32 + line], self.time, data,
                                 self.counter if resource else ()))
        self.shadow = list(self.counter) if resource else self.shadow
        self.lost = False
        return 0

    def read(self, address):
        if 64 <= address < 80:
            if 84 in self.held():
                self.register[5] += self.on[4]
                return (10, 0) if self.on[4] else BUSY
            self.shadow = list(self.counter)
        if 64 <= address < 96:
            return narrow(self.shadow[address % 16])
        if address in self.field:
            return (0, sum(code << 4 * i for i, code in enumerate(self.field[address])))
        if address in self.register:
            return narrow(self.register[address], 16 if address == 4 else 32)
        if address == 1:
            bits = self.flags | {place for place in self.on if self.on[place]} | (set() if self.on[14] else {15})
            return (0, sum(1 << bit for bit in bits) + 64 * (len(self.held()) == 8) + 128 * (84 in self.held()))
        if address == 2:
            return narrow(self.time, 56)
        return (1 if address > 127 else 3 if address > 95 or address == 0 else 2, 0)


def random_records(chance, length):
    """Records of a random temper: some scripts trigger much, some count much."""
    pick, below, bits = chance.choice, chance.randrange, chance.getrandbits
    weights = [chance.random() ** 2 for _ in range(11)]
    records = [write(1, 9), write(4, 65535)]
    while len(records) < length:
        data, i, high, near = bits(pick([4, 16, 32, 64])), below(16), pick([0, 65535, bits(16)]), TOP32 - below(12)
        fields = pick([data, (data & 15) * EVERY, bits(64), (data & 15) << 4 * i])
        records += chance.choices([
            [write(1, pick([1, 5, 9, 0x19, 0x29, 0x11, 0x4001, 0x8009])), write(4, pick([65535, 65535, 0x0FF0]))],
            [write(pick([96, 112]) + i, data, 1 << below(8))] * below(10),
            pick([[SEND] * pick([1, 19, 20, 84]), [buffer(pick([0, 1, 20, 84, 230]))]]),
            [pick([stamp, node])(pick([1, 2, 9, 10, 11, 99, 100, 101]), high)],
            [pick([external(high), write(80 + i)])],
            [write(7, fields >> 32), write(pick([ENABLE, ENABLE, MODE, CLOCK]), fields)],
            [write(64 + i, near), write(64 + (i ^ 1), pick([near, data])), read(64 + i), read(80 + (i ^ 1))],
            [read(pick([1, 5, 6, 7, 8, 10, 12, 64 + i, 80 + i])), read(7)],
            [pick([read, write])(below(256))],
            [record(below(9), below(1, 256), 1, data % 1100, high, *pick([(0, 0)] * 4 + [(1, 0), (0, 256)]))],
            [pick([HARD, SOFT]), write(1, 1), write(4, 65535), write(8, 2 * EVERY)] if below(8) == 0 else [],
        ], weights)[0]
    return records


def random_scripts():
    seen = []
    for seed in range(400):
        records, slow = random_records(random.Random(seed), 250), Slow()
        want = [slow.step(each) for each in records]
        seen += [reply[0] for reply in want]
        check("random script %d" % seed, run(records), want)
    for number in range(12):
        check("random scripts often meet reply %d" % number, seen.count(number) >= 100, True)


def main():
    global program
    with tempfile.TemporaryDirectory() as folder:
        program = os.path.join(folder, "twin2")
        subprocess.run(["rustc", "--edition", "2021", "-O", "-o", program, os.path.join(HERE, "main.rs")], check=True)
        for part in (registers, high_order, fields, clocks, pairs, shadows, samples, record_format, random_scripts,
                     long_input):
            part()
    if not all(results):
        sys.exit("twin2: %d checks failed" % results.count(False))
    print("twin2: %d checks passed" % len(results))


if __name__ == "__main__":
    main()
