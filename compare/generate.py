#!/usr/bin/env python3
"""Write a file of bench records made from a seed, to compare chips record by record.

    compare/generate.py SEED COUNT [--ragged | --whole] > FILE

SEED is a number from 0 to 2^64 - 1, COUNT the number of 12-byte records. The
bytes depend on SEED, COUNT and the flag alone: the random numbers come from
the splitmix64 rule below and not from Python's own generator. With the same
seed a smaller COUNT gives the beginning of the larger file (but see the
Timestamp's wrap), so that a difference found can be cut down.

A file is a chain of stretches of about 200 to 3,000 records (noise: to 800;
short ones are likelier), each in one mode. The seed chooses which modes are
frequent. Most stretches go on from the state the last one left; some start with
a hardware or software reset. A hardware reset chooses the slow clock's tenth or
hundredth, one as often as the other, so about every second one changes the
speed.

Either reset leaves write wait set, as it is on a fresh chip. Often triggers run
out of room before anything is written to CSR bits 2 and 3, and wait; then bit 3
chooses discard, so that triggers are lost, and bit 2 write wait again. About
every third reset finds discard set.

    queue      triggers, sends and looks in balance, full queues, losses, waits
    triggers   the same with many triggers: full for most of the time
    sends      the same with many sends: drained until reply 5 again and again
    resets     the same with software and hardware resets, many in the middle of
               a sample
    counters   MUX SEL, enable, disable, clear, the four kinds of event, reads
               with the shadows free and busy, resets of both kinds
    wraps      counters driven over 2^32: by node ticks close to 2^32, then by
               each kind of event; for the slow clock by records of 2^32 - 1
               Timestamp ticks, ten at the tenth and a hundred at the hundredth
    stamps     Timestamp ticks around slow events and around multiples of 2^32
               and of 2^40, where a sample's Timestamp wraps
    slow       the slow clock at both speeds: counts that end one before, on and
               one after a slow event, counters read there, resets of both kinds
               between two slow events, refused ones, CSR bits 14 and 15
    registers  each register written with all sorts of data and read back; CSR
               with both bits of its pairs and with bits that do nothing
    sweep      every address from 0 to 255 written and read, in changing order
    mixed      all operations, all addresses, all sorts of data, few resets
    near       records close to legal ones, each field wrong now and then
    noise      random bytes

Into all but the last two come bad records now and then (a bad kind, a nonzero
fourth byte, a tick count above 2^32 - 1, a mask above 65535, a hardware reset
with data above 1), and about one record in sixteen gets odd bits where they
must be ignored: fields its kind doesn't need, and data bits beyond a register's
width.

A part of a record: a file of a SEED that leaves 15 when divided by 16 ends
with 1 to 11 bytes more than COUNT records. `--ragged` does so for any seed,
`--whole` for none.

The Timestamp's wrap at 2^56 needs more than 2^24 records of ticks. A file of a
SEED that leaves 3 when divided by 4, with a COUNT of at least 16,842,752
(2^24 + 2^16, about 202 million bytes), begins with them, crosses the wrap
taking samples, reads slow counts, and goes on as usual. Smaller files don't
reach it, so it has to be covered elsewhere. The same holds for the wraps of the
Wait and Overrun Counters, which no file reaches: they need 2^32 records.

The maker keeps a guess of the chip's settings, queue and slow clock to steer by.
It only shapes the records and says nothing about the right answers.
"""

import os
import struct
import sys

RECORD_LENGTH = 12
record = struct.Struct("<BBBBQ").pack  # kind, address, lines, zero byte, data

RESET, WRITE, READ, TICKS, NODE, EVENTS, SEND = range(7)
SOFT_RESET, CSR, TIMESTAMP, FILTER, WAIT, OVERRUN, MUX, CLEAR, ENABLE, DISABLE = 0, 1, 2, 4, 5, 6, 8, 10, 11, 12
SOURCE, COUNTER, TRACE, RESOURCE = 16, 32, 96, 112

PLACES = 8
TRACE_WORDS, RESOURCE_WORDS = 16, 80

MOST_64 = 2**64 - 1
MOST_TICKS = 2**32 - 1
STAMP_WRAP = 2**56

# A hardware reset's data for the slow clock's two speeds, and the Timestamp ticks from one slow event to the next.
TENTH, HUNDREDTH = 0, 1
PERIODS = (10, 100)

ONE_SEND = record(SEND, 0, 0, 0, 0)
MOST_TICKS_RECORD = record(TICKS, 0, 0, 0, MOST_TICKS)

# Files at least this long, of certain seeds, cross the Timestamp's wrap.
WRAP_TICK_RECORDS = 2**24
WRAP_COUNT = WRAP_TICK_RECORDS + 2**16

# Lines bytes: mostly one line, now and then none or several.
LINES = [1 << (n & 7) for n in range(56)] + [0, 0, 3, 0x81, 0x18, 0x50, 0x7F, 0xFF]
HAS_ONE_LINE = [n in (1, 2, 4, 8, 16, 32, 64, 128) for n in range(256)]

# CSR data that mostly keeps sampling on: single settings, pairs with both bits, bits that do nothing.
CSR_DATA = [0x01, 0x05, 0x09, 0x11, 0x21, 0x15, 0x25, 0x19, 0x29, 0x04, 0x08, 0x10, 0x20, 0x14, 0x28, 0x00,
            0x0D, 0x31, 0x3D, 0x3C, 0x0C, 0x30, 0x02, 0x03, 0x3F, 0x2A, 0x17, 0x2B, 0xC0, 0x3C1, 0x4001, 0x8085]

MUX_NODE = 0x0000FFFF_0000FFFF
MUX_SOFTWARE = 0x0000FFFF_00000000
MUX_EXTERNAL = 0x00000000_0000FFFF
MUX_SLOW = 0
MUX_DATA = [MUX_NODE, MUX_SOFTWARE, MUX_EXTERNAL, MUX_SLOW, 0x0000AAAA_0000FFFF, 0x00005555_0000AAAA,
            0x0000FF00_0000F0F0, MOST_64]

# Reads that show the state; counters are added by the modes themselves.
LOOKS = [CSR, CSR, CSR, OVERRUN, OVERRUN, WAIT, WAIT, TIMESTAMP, ENABLE, MUX, FILTER, SOURCE, SOURCE + 7,
         COUNTER, COUNTER + 7, COUNTER + 15]

# The first sixteen are small. Multiples of ten and of a hundred have their neighbours; 2^32 - 96 is one of both.
TICK_COUNTS = [0, 1, 1, 2, 3, 5, 9, 9, 10, 10, 11, 20, 21, 99, 100, 101,
               4, 6, 7, 8, 15, 19, 29, 30, 31, 50, 89, 90, 91, 109, 110, 111,
               199, 200, 201, 299, 300, 301, 990, 999, 1000, 1001, 1009, 1010, 1011, 9999, 10000, 65535,
               65536, 2**31, 2**32 - 97, 2**32 - 96, 2**32 - 95, 2**32 - 10, 2**32 - 9, 2**32 - 7, 2**32 - 6, 2**32 - 5,
               2**32 - 2, 2**32 - 2, 2**32 - 1, 2**32 - 1, 2**32 - 1, 2**32 - 1]

# How many slow events a steered count of ticks leaves out before the one that it aims at.
EVENTS_BEFORE = [0, 0, 0, 0, 0, 0, 0, 0, 0, 0, 1, 1, 2, 3, 9, 99]

# Data that a hardware reset refuses, some of it with a good number in its low byte or half.
BAD_RESET_DATA = [2, 3, 256, 257, 2**32, 2**32 + 1, 2**63, MOST_64]

# Addresses of the mixed modes: those with a meaning often, all others too.
KNOWN = [0, 1, 1, 1, 2, 4, 4, 5, 6, 6, 8, 8, 10, 11, 11, 12] + list(range(16, 24)) + list(range(32, 48)) \
    + list(range(96, 128)) + [3, 7, 9, 13, 14, 15, 24, 31, 48, 95, 128, 255]
ADDRESSES = [address for address in KNOWN if address != SOFT_RESET] * 3 + list(range(256))
ADDRESSES += [CSR] * (512 - len(ADDRESSES))

REFUSED_WRITES = [2, 3, 7, 9, 13, 14, 15, *range(24, 32), *range(48, 96), 128, 129, 160, 192, 224, 240, 254, 255]
REFUSED_READS = [0, 10, 12, *range(96, 128), 3, 7, 9, 13, 14, 15, 24, 31, 48, 95, 128, 129, 160, 192, 224, 240, 254,
                 255]


def ignored_data_bits():
    """For each address, the data bits that a write there must ignore."""
    bits = [MOST_64] * 256
    bits[CSR] = MOST_64 ^ 0x3F
    for address in (FILTER, CLEAR, ENABLE, DISABLE):
        bits[address] = MOST_64 ^ 0xFFFF
    bits[MUX] = MOST_64 ^ MUX_NODE
    for address in range(SOURCE, SOURCE + 8):
        bits[address] = MOST_64 ^ 0xFFFFFFFF
    for address in range(TRACE, TRACE + 32):
        bits[address] = MOST_64 ^ (2**48 - 1)
    return bits


IGNORED_DATA = ignored_data_bits()


def splitmix64(seed):
    """A function that gives the next 64-bit number of the splitmix64 sequence."""
    state = seed & MOST_64

    def draw():
        nonlocal state
        state = (state + 0x9E3779B97F4A7C15) & MOST_64
        mixed = ((state ^ (state >> 30)) * 0xBF58476D1CE4E5B9) & MOST_64
        mixed = ((mixed ^ (mixed >> 27)) * 0x94D049BB133111EB) & MOST_64
        return mixed ^ (mixed >> 31)

    return draw


class Maker:
    """Makes records and keeps a guess of the state they lead to.

    Each mode is a method that adds records to `out` until it holds at least
    `goal` bytes. Random numbers are drawn 64 bits at a time and used in slices.
    """

    def __init__(self, seed):
        self.draw = splitmix64(seed)
        self.out = bytearray()
        self.guess_hard_reset(TENTH)
        self.begun = False  # whether a stretch was made
        self.modes = self.chosen_modes()

    # ---- the guess ----

    def guess_hard_reset(self, speed):
        self.timestamp = 0
        self.period = PERIODS[speed]  # Timestamp ticks from one slow event to the next
        self.forget()

    def forget(self):
        """What both resets do; the Timestamp and the slow clock's speed are the hardware reset's alone."""
        self.phase = 0        # Timestamp ticks since the last slow event, or since the reset
        self.sampling = False
        self.write_wait = True
        self.filter = 0
        self.held = []        # words left of each held sample, oldest first
        self.held_kinds = []  # beside it: whether it is a Resource sample
        self.busy = False     # whether a Resource sample is held

    def guess_trigger(self, address, lines):
        if not (self.sampling and HAS_ONE_LINE[lines] and self.filter >> (address & 15) & 1):
            return
        resource = address >= RESOURCE
        if len(self.held) == PLACES or (resource and self.busy):
            return
        self.held.append(RESOURCE_WORDS if resource else TRACE_WORDS)
        self.held_kinds.append(resource)
        if resource:
            self.busy = True

    def guess_sends(self, amount):
        held = self.held
        while amount and held:
            if held[0] > amount:
                held[0] -= amount
                return
            amount -= held.pop(0)
            if self.held_kinds.pop(0):
                self.busy = False

    def guess_ticks(self, count):
        self.timestamp = (self.timestamp + count) % STAMP_WRAP
        self.phase = (self.phase + count) % self.period

    def guess_csr(self, data):
        if data & 2:
            self.sampling = False
        elif data & 1:
            self.sampling = True
        if data & 8:
            self.write_wait = False
        elif data & 4:
            self.write_wait = True

    def guess(self, kind, address, lines, data):
        """Follow any record whose fourth byte is zero."""
        if kind == WRITE:
            if address >= TRACE:
                if address < 128:
                    self.guess_trigger(address, lines)
            elif address == SOFT_RESET:
                self.forget()
            elif address == CSR:
                self.guess_csr(data)
            elif address == FILTER:
                self.filter = data & 0xFFFF
        elif kind == SEND:
            self.guess_sends(1)
        elif kind == TICKS:
            if data <= MOST_TICKS:
                self.guess_ticks(data)
        elif kind == RESET:
            if data <= HUNDREDTH:
                self.guess_hard_reset(data)

    # ---- single records ----

    def put_any(self, kind, address, lines, data):
        self.out += record(kind, address, lines, 0, data)
        self.guess(kind, address, lines, data)

    def put_write(self, address, data):
        """A write that the guess need not follow."""
        self.out += record(WRITE, address, 0, 0, data)

    def put_read(self, address):
        self.out += record(READ, address, 0, 0, 0)

    def put_trigger(self, address, lines, data):
        self.out += record(WRITE, address, lines, 0, data)
        self.guess_trigger(address, lines)

    def put_sends(self, amount):
        self.out += ONE_SEND * amount
        self.guess_sends(amount)

    def put_ticks(self, count):
        self.out += record(TICKS, 0, 0, 0, count)
        self.guess_ticks(count)

    def put_most_ticks(self, amount):
        """So many records with the highest count."""
        self.out += MOST_TICKS_RECORD * amount
        self.guess_ticks(amount * MOST_TICKS)

    def put_csr(self, data):
        self.out += record(WRITE, CSR, 0, 0, data)
        self.guess_csr(data)

    def put_filter(self, data):
        self.out += record(WRITE, FILTER, 0, 0, data)
        self.filter = data & 0xFFFF

    def put_reset(self, hardware):
        if hardware:
            speed = self.draw() & 1
            self.out += record(RESET, 0, 0, 0, speed)
            self.guess_hard_reset(speed)
        else:
            self.out += record(WRITE, SOFT_RESET, 0, 0, 0)
            self.forget()

    def put_bad_reset(self, number):
        """A hardware reset with data above 1: a striking number, one bit beside a good number, or anything above."""
        striking = BAD_RESET_DATA[number >> 2 & 7]
        data = (striking, striking, 2 << (number >> 5) % 63 | number >> 50 & 1, number | 2)[number & 3]
        self.out += record(RESET, 0, 0, 0, data)

    def put_bad(self):
        """A record that gets reply 9 and must change nothing."""
        number = self.draw()
        choice = number & 7
        data = number >> 8
        if choice < 2:
            # A kind above 6, otherwise like a write that would matter.
            kind = 7 if number & 8 else 7 + (number >> 16) % 249
            self.out += record(kind, KNOWN[(number >> 4) % len(KNOWN)], LINES[number >> 10 & 63], 0, data)
        elif choice < 4:
            # A good record but for its fourth byte; resets and sends are among them.
            kind = (number >> 3) % 7
            fourth = 1 << (number >> 20 & 7)
            data >>= 48
            if kind == RESET:
                data &= 1
            self.out += record(kind, KNOWN[(number >> 6) % len(KNOWN)], LINES[number >> 12 & 63], fourth, data)
        elif choice == 4:
            # A hardware reset that chooses no speed.
            self.put_bad_reset(data)
        elif choice < 7:
            # Too many ticks: just above, one high bit, or anything above.
            kind = NODE if number & 8 else TICKS
            high = (1 << 32, 1 << (32 + (number >> 16 & 31)), number | 1 << 63, 1 << 32 | number >> 32)[number >> 4 & 3]
            self.out += record(kind, 0, 0, 0, high)
        else:
            # A mask with a bit above the sixteenth.
            high = (1 << 16, 1 << (16 + (number >> 16) % 48), number | 1 << 63, 0x1FFFF)[number >> 4 & 3]
            self.out += record(EVENTS, 0, 0, 0, high)

    # ---- small groups of records ----

    def open_up(self):
        """Sampling on and filters open, with a mixture of the other settings."""
        number = self.draw()
        self.put_csr(1 | (0, 8, 8, 4)[number & 3] | (0, 16, 32, 16)[number >> 2 & 3])
        self.put_filter(0xFFFF if number & 0x30 else number >> 16)

    def fill_up(self, number):
        """Triggers until some lack room, under the setting in force and then mostly under the other one too."""
        if not (self.sampling and self.filter == 0xFFFF):
            # CSR bits 2 and 3 stay out of it: after a reset, the setting that it left is in force.
            self.put_csr((0x01, 0x11, 0x21, 0xC1)[number & 3])
            self.put_filter(0xFFFF)
        # The shadows get busy, the queue full, or both.
        if number & 12 and not self.busy:
            self.put_trigger(RESOURCE + (number >> 16 & 15), 1 << (number >> 20 & 7), number >> 16)
        if number & 12 != 4:
            while len(self.held) < PLACES:
                step = self.draw()
                self.put_trigger(TRACE + (step & 15), 1 << (step >> 4 & 7), step >> 7)
        self.put_without_room(number >> 24)
        for turn in range((0, 1, 1, 2)[number >> 4 & 3]):
            # Discard after write wait, write wait after discard.
            number >>= 6
            self.put_csr(((0x08, 0x09, 0x0C, 0x28) if self.write_wait else (0x04, 0x05, 0x14, 0x24))[number & 3])
            self.put_without_room(number >> 24)

    def put_without_room(self, number):
        """One to four triggers with the queue full or the shadows busy, and what flags and counts show then."""
        for turn in range(1 + (number & 3)):
            step = self.draw()
            resource = len(self.held) < PLACES or step & 1
            self.put_trigger((RESOURCE if resource else TRACE) + (step >> 1 & 15), 1 << (step >> 5 & 7), step >> 8)
        self.put_read(CSR)
        self.put_read(OVERRUN if number & 4 else WAIT)

    def fill_between_resets(self, hardware):
        """A reset, triggers that lack room after it, and a reset that empties the queue, once or twice."""
        self.put_reset(hardware)
        for turn in range(1 + (self.draw() & 1)):
            number = self.draw()
            self.fill_up(number)
            self.put_reset(number >> 60 & 1)

    def put_looks(self, number):
        """One to four reads that show the state."""
        for turn in range(1 + (number & 3)):
            number >>= 4
            address = LOOKS[number & 15]
            if address >= COUNTER:
                address = COUNTER + (number >> 20 & 15)
            self.put_read(address)

    def put_events(self, number):
        """One event record of some kind, with a small or a striking count."""
        choice = number & 3
        if choice == 0:
            self.put_ticks(self.count_to_slow_event(number >> 2) if number & 0x100 else TICK_COUNTS[number >> 2 & 63])
        elif choice == 1:
            self.out += record(NODE, 0, 0, 0, TICK_COUNTS[number >> 2 & 63])
        elif choice == 2:
            self.out += record(EVENTS, 0, 0, 0, number >> 2 & 0xFFFF)
        else:
            self.put_write(COUNTER + (number >> 2 & 15), 0)

    def count_to_slow_event(self, number):
        """Timestamp ticks that end one before, on or one after a slow event, mostly the next one."""
        left = self.period * (1 + EVENTS_BEFORE[number >> 2 & 15]) - self.phase
        return left + (-1, 0, 0, 1)[number & 3]

    def all_sorts_of_data(self):
        number = self.draw()
        choice = number & 7
        number >>= 3
        if choice == 0:
            return number & 15
        if choice == 1:
            return 1 << (number & 63)
        if choice == 2:
            return number & 0xFFFF
        if choice == 3:
            return number & 0xFFFFFFFF
        if choice == 4:
            return 0 if number & 1 else MOST_64
        if choice == 5:
            return number & MUX_NODE
        return number << 3 | choice

    # ---- modes around the queue ----

    def queue_steps(self, goal, triggers, sends, resets):
        """Steps of triggers, sends, looks and settings; the shares are out of 64 and leave at least 20."""
        draw = self.draw
        out = self.out
        resource_share = (1, 2, 4, 8)[draw() & 3]  # out of 16 triggers
        sends += triggers
        resets += sends
        # The rest: looks, settings, clears, events, other registers, bad records and refused addresses.
        looks = resets + (64 - resets) // 3
        settings = looks + (64 - looks) // 4
        clears = settings + 3
        events = clears + (64 - clears) // 2
        self.open_up()
        while len(out) < goal:
            number = draw()
            choice = number & 63
            number >>= 6
            if choice < triggers:
                for turn in range(1 + (number & 15)):
                    number = draw()
                    address = (RESOURCE if number >> 5 & 15 < resource_share else TRACE) + (number & 15)
                    # A shift by the top bits makes data of every length.
                    self.put_trigger(address, LINES[number >> 9 & 63], number >> (number >> 58))
            elif choice < sends:
                self.put_sends(self.some_sends(number))
            elif choice < resets:
                if number & 7 and self.held:
                    # Into the middle of a sample first.
                    self.put_sends(1 + (number >> 8) % max(1, self.held[0] - 1))
                self.put_reset(number & 0x18 == 0)
                if number & 0x60:
                    if number & 0x80:
                        self.put_read(CSR)
                    if number >> 40 & 3 == 0:
                        self.fill_up(draw())
                    elif number & 0x700:
                        self.open_up()
                    self.put_looks(number >> 16)
            elif choice < looks:
                self.put_looks(number)
            elif choice < settings:
                if number & 3:
                    self.put_csr(CSR_DATA[number >> 2 & 31])
                elif number & 12:
                    self.put_filter(0xFFFF)
                else:
                    self.put_filter(number >> 4)
                if not self.sampling and number & 0xF000:
                    self.put_csr(1)
            elif choice < clears:
                self.put_write(OVERRUN if number & 3 else WAIT, 0)
                if number & 0x1C:
                    # One trigger alone, so that its flags and counts show.
                    address = (RESOURCE if number & 0x60 else TRACE) + (number >> 8 & 15)
                    self.put_trigger(address, 1 << (number >> 12 & 7), number >> 16)
                self.put_read(CSR)
                self.put_read(OVERRUN)
                self.put_read(WAIT)
            elif choice < events:
                self.put_events(number)
            elif number & 3 == 0:
                self.put_bad()
            elif number & 3 == 1:
                self.put_write(SOURCE + (number >> 2 & 7), number >> 5)
            elif number & 3 == 2:
                self.put_write(ENABLE if number & 4 else MUX, number >> 3 & MUX_NODE)
            elif not (self.sampling and self.filter):
                self.open_up()
            elif number & 4:
                # Refused for its address, whatever the state.
                self.put_write(REFUSED_WRITES[(number >> 3) % len(REFUSED_WRITES)], number >> 20)
            else:
                self.put_read(REFUSED_READS[(number >> 3) % len(REFUSED_READS)])

    def some_sends(self, number):
        """How many words to send: mostly to a striking place in the queue."""
        choice = number & 7
        held = self.held
        if choice == 0 or not held:
            return 1 + (number >> 3 & 3)
        if choice == 1:
            return max(1, held[0] - 1)
        if choice == 2:
            return held[0]
        if choice == 3:
            return held[0] + 1
        if choice == 4:
            return 1 + (number >> 3) % 100
        if choice == 5:
            return max(1, sum(held) - 1)
        if choice == 6:
            return sum(held)
        return sum(held) + 1 + (number >> 3 & 1)

    def queue(self, goal):
        self.queue_steps(goal, triggers=16, sends=10, resets=1)

    def triggers(self, goal):
        self.queue_steps(goal, triggers=34, sends=5, resets=0)

    def sends(self, goal):
        self.queue_steps(goal, triggers=8, sends=30, resets=0)

    def resets(self, goal):
        self.queue_steps(goal, triggers=16, sends=8, resets=16)

    # ---- modes around the counters ----

    def counters(self, goal):
        draw = self.draw
        out = self.out
        self.put_write(ENABLE, 0xFFFF)
        self.put_write(MUX, draw())
        while len(out) < goal:
            number = draw()
            choice = number & 31
            number >>= 5
            if choice < 10:
                self.put_events(number)
            elif choice < 14:
                for turn in range(1 + (number & 7)):
                    number >>= 3
                    self.put_write(COUNTER + (number & 15), number >> 30)
            elif choice < 18:
                for turn in range(1 + (number & 3)):
                    number >>= 4
                    self.put_read(COUNTER + (number & 15))
            elif choice == 18:
                for index in range(16):
                    self.put_read(COUNTER + index)
            elif choice < 21:
                self.put_write(MUX, MUX_DATA[number >> 1 & 7] if number & 1 else draw())
                self.put_read(MUX)
            elif choice < 24:
                mask = 0xFFFF if number & 3 == 0 else 1 << (number >> 2 & 15) if number & 3 == 1 else number >> 2
                self.put_write((ENABLE, ENABLE, DISABLE, CLEAR)[number >> 50 & 3], mask)
                self.put_read(ENABLE if number >> 52 & 1 else COUNTER + (number >> 53 & 15))
            elif choice < 27:
                # A Resource sample keeps the shadows busy while counters are read and events go on.
                if not (self.sampling and self.filter):
                    self.open_up()
                self.put_trigger(RESOURCE + (number & 15), LINES[number >> 4 & 63], number)
                self.put_events(number >> 10)
                self.put_read(COUNTER + (number >> 16 & 15))
                if number >> 20 & 1:
                    self.put_csr((0x10, 0x20, 0x30, 0x11)[number >> 21 & 3])
                    self.put_read(COUNTER + (number >> 24 & 15))
                    self.put_read(WAIT)
            elif choice < 30:
                if self.held:
                    self.put_sends(sum(self.held) if number & 3 else self.some_sends(number >> 2))
            elif choice == 30:
                self.put_bad()
            elif number & 1:
                if number >> 40 & 1:
                    self.fill_between_resets(number & 2)
                else:
                    self.put_reset(number & 2)
                self.put_write(ENABLE, 0xFFFF)
                if number & 4:
                    self.put_write(MUX, MUX_DATA[number >> 3 & 7])
            else:
                self.put_read(CSR)

    def wraps(self, goal):
        draw = self.draw
        out = self.out
        while len(out) < goal:
            number = draw()
            if self.held and number & 3:
                self.put_sends(sum(self.held))
            few = number >> 2 & (1 if number >> 8 & 7 > 5 else 7)  # events left to the wrap
            self.put_write(ENABLE, 0xFFFF)
            if number >> 5 & 3:
                self.put_write(CLEAR, 0xFFFF)
            ending = number >> 8 & 7
            if number >> 11 & 7 == 0:
                # The slow clock alone: 2^32 - 1 slow events, ten or a hundred ticks for each.
                self.put_write(MUX, MUX_SLOW)
                if number >> 14 & 1:
                    self.put_ticks(few)
                self.put_most_ticks(self.period)
                ending = 3
            else:
                self.put_write(MUX, MUX_NODE)
                out += record(NODE, 0, 0, 0, MOST_TICKS - few)
                self.put_write(MUX, draw() if ending == 5 else MUX_DATA[(0, 1, 2, 3, 4, 5, 1, 2)[ending]])
            self.put_read(COUNTER + (number >> 16 & 15))
            if ending > 5:
                self.wrap_each(number >> 16, few, software=ending == 6)
            for turn in range(4 + (number >> 20 & 15)):
                step = draw()
                if ending == 0:
                    out += record(NODE, 0, 0, 0, step & 3)
                elif ending == 1:
                    self.put_write(COUNTER + (number >> 16 & 15 if step & 3 else step >> 2 & 15), 0)
                elif ending == 2:
                    out += record(EVENTS, 0, 0, 0, step >> 8 & 0xFFFF | step >> 24 & 0xFFFF)
                elif ending == 3:
                    self.put_ticks(self.count_to_slow_event(step) if step & 0x700 else step >> 11 & 31)
                else:
                    # Every second count is a small one.
                    self.put_events(step >> 8 if step & 1 else step >> 8 & ~0xFC | 4)
                if step >> 60 < 8:
                    self.put_read(COUNTER + (number >> 16 & 15))
            if number >> 30 & 3 == 0:
                # Let a Resource sample carry the counts.
                if not (self.sampling and self.filter == 0xFFFF):
                    self.open_up()
                self.put_trigger(RESOURCE + (number >> 32 & 15), LINES[number >> 36 & 63], number)
                self.put_events(number >> 42)
                if self.busy and number >> 54 & 1:
                    self.put_without_room(number >> 55)
                self.put_sends(max(1, sum(self.held)))
            if number >> 58 == 0:
                self.put_bad()
            elif number >> 58 < 8:
                if number >> 52 & 1:
                    self.fill_between_resets(number >> 58 & 1)
                else:
                    self.put_reset(number >> 58 & 1)

    def wrap_each(self, number, few, software):
        """One counter after the other over its wrap, by single events of its own."""
        stride = number & 15 | 1  # odd, so that all sixteen come by
        index = number >> 4 & 15
        for turn in range(16):
            index = (index + stride) & 15
            for event in range(few + 1):
                if software:
                    self.put_write(COUNTER + index, 0)
                else:
                    self.out += record(EVENTS, 0, 0, 0, 1 << index)
            self.put_read(COUNTER + index)

    def stamps(self, goal):
        draw = self.draw
        out = self.out
        self.open_up()
        self.put_write(MUX, MUX_SLOW)
        self.put_write(ENABLE, draw() | 1)
        while len(out) < goal:
            number = draw()
            choice = number & 15
            number >>= 4
            if choice < 7:
                for turn in range(1 + (number & 7)):
                    number >>= 5
                    self.put_ticks(TICK_COUNTS[number & 15] if number & 0x80 else self.count_to_slow_event(number))
                    if number & 0x30 == 0:
                        self.put_read(TIMESTAMP if number & 0x40 else COUNTER)
            elif choice < 9:
                self.put_ticks(TICK_COUNTS[number & 63])
                self.put_read(TIMESTAMP)
            elif choice == 9:
                self.put_most_ticks(1 + (number & 31))
            elif choice == 10:
                # Multiples of 2^40 are up to 256 records of ticks away: not every time.
                self.cross_stamp(2**40 if number & 7 < 3 else 2**32, number >> 3)
            elif choice < 13:
                self.put_trigger(TRACE + (number & 31), LINES[number >> 5 & 63], number)
                self.put_read(TIMESTAMP)
            elif choice == 13:
                self.put_sends(self.some_sends(number))
            elif choice == 14:
                self.put_looks(number)
                if number >> 40 & 3 == 0:
                    self.fill_up(draw())
                elif not (self.sampling and self.filter):
                    self.open_up()
            elif number & 3 == 0:
                if number >> 40 & 1:
                    self.fill_between_resets(number & 4)
                else:
                    self.put_reset(number & 4)
                self.put_read(TIMESTAMP)
                self.open_up()
                self.put_write(ENABLE, number >> 8 | 1)
            elif number & 15 == 1:
                self.put_bad()

    def cross_stamp(self, modulus, number):
        """Ticks to just before the next multiple, then over it in small steps with samples."""
        distance = modulus - self.timestamp % modulus
        amount, rest = divmod(distance, MOST_TICKS)
        self.put_most_ticks(amount)
        before = number & 3
        if rest >= before:
            self.put_ticks(rest - before)
        if self.held:
            self.put_sends(sum(self.held))
        self.put_trigger(TRACE + (number >> 2 & 15), 1 << (number >> 6 & 7), number >> 20)
        self.put_ticks(1)
        self.put_read(TIMESTAMP)
        self.put_ticks(before)
        self.put_trigger(TRACE + (number >> 9 & 31), 1 << (number >> 14 & 7), number >> 20)
        self.put_read(TIMESTAMP)
        self.put_ticks(1 + (number >> 17 & 3))
        self.put_read(TIMESTAMP)
        if self.held:
            self.put_sends(sum(self.held))

    def slow(self, goal):
        draw = self.draw
        out = self.out
        if self.held:
            # The shadows free, so that the counters can be read.
            self.put_sends(sum(self.held))
        self.start_slow(draw())
        while len(out) < goal:
            number = draw()
            choice = number & 63
            number >>= 6
            if choice < 24:
                self.put_slow_event(number)
            elif choice < 30:
                # Over a slow event in single ticks.
                self.put_ticks(self.period - self.phase - 1)
                for turn in range(1 + (number & 3)):
                    self.put_read(COUNTER + (number >> 2 & 15))
                    self.put_ticks(1)
                self.put_read(COUNTER + (number >> 2 & 15))
            elif choice < 34:
                # To any phase.
                self.put_ticks(number & 127)
            elif choice < 36:
                self.put_ticks(TICK_COUNTS[number & 63])
            elif choice < 44:
                left = self.period - self.phase
                if number >> 40 & 15 == 0:
                    self.fill_between_resets(number & 1)
                else:
                    self.put_reset(number & 1)
                self.start_slow(number >> 1)
                if number & 0x18 == 0:
                    # To where a slow event would have fallen without the reset.
                    self.put_ticks(left)
                    self.put_read(COUNTER + (number >> 5 & 15))
                self.put_slow_event(number >> 9)
            elif choice < 48:
                # A refused reset changes neither speed nor phase.
                self.put_bad_reset(draw())
                self.put_slow_event(number)
                self.put_read(TIMESTAMP if number >> 20 & 1 else ENABLE)
            elif choice < 51:
                # Bits that do nothing: no speed is chosen here.
                self.put_csr((0x4000, 0x8000, 0xC000, 0xC015)[number & 3])
                self.put_read(CSR)
                self.put_slow_event(number >> 2)
            elif choice < 53:
                # Other kinds of event, with the clock going on.
                self.put_write(MUX, number & MUX_NODE)
                self.put_events(number >> 16)
                self.put_slow_event(number >> 32)
                self.put_write(MUX, MUX_SLOW)
            elif choice < 55:
                # Counters that come and go, with the clock going on.
                self.put_write((DISABLE, CLEAR)[number & 1], number >> 1)
                self.put_slow_event(number >> 32)
                self.put_write(ENABLE, 0xFFFF)
            elif choice == 55:
                # A Resource sample carries the slow counts out.
                if not (self.sampling and self.filter):
                    self.open_up()
                self.put_trigger(RESOURCE + (number & 15), 1 << (number >> 4 & 7), number)
                self.put_slow_event(number >> 7)
                if self.busy and number >> 40 & 1:
                    self.put_without_room(number >> 41)
                if self.held:
                    self.put_sends(sum(self.held))
            elif choice < 58:
                self.put_bad()
            else:
                self.put_looks(number)

    def start_slow(self, number):
        """All counters on the slow clock, all or some of them enabled."""
        if number & 3:
            self.put_write(MUX, MUX_SLOW)
        self.put_write(ENABLE, 0xFFFF if number & 12 else number >> 4)

    def put_slow_event(self, number):
        """Ticks to just about a slow event, and what a counter shows there."""
        self.put_ticks(self.count_to_slow_event(number))
        self.put_read(COUNTER + (number >> 6 & 15))

    # ---- modes around addresses and fields ----

    def registers(self, goal):
        draw = self.draw
        out = self.out
        while len(out) < goal:
            number = draw()
            choice = number & 15
            number >>= 4
            if choice < 4:
                self.put_csr(CSR_DATA[number & 31] if number & 0x20 else number >> 6)
                self.put_read(CSR)
            elif choice < 6:
                self.put_filter(number)
                self.put_read(FILTER)
            elif choice < 9:
                self.put_write(MUX, self.all_sorts_of_data())
                self.put_read(MUX)
            elif choice < 11:
                address = SOURCE + (number & 7)
                self.put_write(address, self.all_sorts_of_data())
                self.put_read(address if number & 8 else SOURCE + (number >> 4 & 7))
            elif choice < 14:
                self.put_write((ENABLE, DISABLE, CLEAR)[choice - 11], self.all_sorts_of_data())
                self.put_read(ENABLE)
            elif choice == 14:
                # A Trace sample carries the chosen source register out.
                self.put_trigger(TRACE + (number & 31), LINES[number >> 5 & 63], number)
                self.put_sends(1 + (number >> 11 & 15))
            else:
                self.put_write((WAIT, OVERRUN, TIMESTAMP)[number % 3], number)
                self.put_looks(number >> 2)
                if number & 0xF00 == 0:
                    self.put_bad()
                elif number & 0xF00 == 0x100:
                    self.fill_up(draw())

    def sweep(self, goal):
        draw = self.draw
        out = self.out
        while len(out) < goal:
            number = draw()
            address = number & 255
            stride = number >> 8 & 255 | 1  # odd, so that all 256 come by
            both = number >> 16 & 3
            for turn in range(256):
                address = (address + stride) & 255
                if both != 1:
                    self.put_any(READ, address, 0, 0)
                # The software reset only in one sweep out of four.
                if both != 2 and (address != SOFT_RESET or number >> 20 & 3 == 0):
                    data = self.all_sorts_of_data()
                    if address == CSR:
                        # Turn sampling off only in one sweep out of four.
                        data &= MOST_64 if number >> 22 & 3 == 0 else MOST_64 ^ 2
                    self.put_any(WRITE, address, LINES[data >> 50 & 63], data)
                if both == 3:
                    self.put_any(READ, address, 0, 0)
            self.open_up()
            self.put_sends(self.some_sends(number >> 24))
            if number >> 60 < 4:
                self.put_bad()

    def mixed(self, goal):
        draw = self.draw
        out = self.out
        # Out of 32: the rest are sends.
        writes = 8 + (draw() & 7)
        reads = writes + 5
        self.open_up()
        while len(out) < goal:
            number = draw()
            choice = number & 31
            address = ADDRESSES[number >> 5 & 511]
            if choice < writes:
                if address == SOFT_RESET and number >> 14 & 7:
                    address = CSR
                data = number >> (number >> 58) if number & 0x4000 else self.all_sorts_of_data()
                if address == CSR and number >> 20 & 7:
                    data &= ~2
                if address == FILTER and number >> 20 & 1:
                    data |= 0xFF0F
                self.put_any(WRITE, address, LINES[number >> 24 & 63], data)
            elif choice < reads:
                self.put_read(address)
            elif choice < 22:
                self.put_events(number >> 14)
            elif choice == 22:
                if number >> 14 & 15 == 0:
                    self.put_reset(number >> 18 & 1)
                    if number >> 40 & 1:
                        self.fill_up(draw())
                elif number >> 14 & 7 == 1:
                    self.put_bad()
                elif not (self.sampling and self.filter):
                    self.open_up()
            else:
                self.put_sends(1 + (number >> 14 & 7))

    def near(self, goal):
        draw = self.draw
        out = self.out
        while len(out) < goal:
            number = draw()
            # Kinds 0 to 7, a good reset seldom, and now and then any byte at all.
            kind = number & 7
            if kind == RESET and number & 8 or kind == 7 and number & 0x18:
                kind = number >> 3 & 255 if number >> 11 & 7 == 0 else SEND
            address = ADDRESSES[number >> 14 & 511]
            if address == SOFT_RESET and number >> 23 & 7:
                address = CSR
            lines = LINES[number >> 26 & 63] if number >> 32 & 3 else number >> 34 & 255
            zero = 0 if number >> 42 & 15 else number >> 46 & 255
            data = self.all_sorts_of_data()
            if kind == RESET:
                data = data | 2 if number & 0xF0 else number >> 54 & 1
            out += record(kind, address, lines, zero, data)
            if zero == 0:
                self.guess(kind, address, lines, data)
                if kind == RESET and data <= HUNDREDTH and number >> 55 & 3 == 0:
                    self.fill_up(draw())

    def noise(self, goal):
        draw = self.draw
        out = self.out
        while len(out) < goal:
            low, high = draw(), draw()
            out += record(low & 255, low >> 8 & 255, low >> 16 & 255, low >> 24 & 255, high)
            if low & 0xFF0000FF <= 6:
                self.guess(low & 255, low >> 8 & 255, low >> 16 & 255, high)

    # ---- stretches ----

    def chosen_modes(self):
        """The seed's mixture: each mode as often as its share says, from rare to frequent."""
        shares = ((self.queue, 4), (self.triggers, 3), (self.sends, 2), (self.resets, 3), (self.counters, 4),
                  (self.wraps, 3), (self.stamps, 3), (self.slow, 3), (self.registers, 2), (self.sweep, 2),
                  (self.mixed, 4), (self.near, 2), (self.noise, 1))
        number = self.draw()
        modes = []
        for mode, share in shares:
            modes += [mode] * (share * (1, 1, 2, 4)[number & 3])
            number >>= 2
        return modes

    def sprinkle(self):
        """Put odd bits where they must be ignored, in about one record of sixteen."""
        draw = self.draw
        out = self.out
        amount = len(out) // RECORD_LENGTH
        for turn in range(amount // 16):
            number = draw()
            start = (number >> 32) * amount >> 32
            start *= RECORD_LENGTH
            kind = out[start]
            if kind > SEND or out[start + 3]:
                continue
            if kind == WRITE:
                address = out[start + 1]
                if not TRACE <= address < 128:
                    out[start + 2] = number & 255
                data = int.from_bytes(out[start + 4:start + 12], "little")
                data |= draw() & IGNORED_DATA[address]
                out[start + 4:start + 12] = data.to_bytes(8, "little")
                continue
            out[start + 2] = number & 255
            if kind != READ:
                out[start + 1] = number >> 8 & 255
            if kind in (READ, SEND):
                out[start + 4:start + 12] = draw().to_bytes(8, "little")

    def stretch(self):
        """The records of the next stretch."""
        number = self.draw()
        self.out = bytearray()
        mode = self.modes[(number & 0xFFFF) * len(self.modes) >> 16]
        # The product of two numbers makes short stretches likelier than long ones.
        spread = (number >> 16 & 0xFFFF) * (number >> 32 & 0xFFFF)
        amount = 200 + (spread * (600 if mode == self.noise else 2800) >> 32)
        if number >> 60 < 3:
            self.put_reset(number >> 60 == 0)
            if number >> 48 & 1:
                self.fill_up(self.draw())
        elif not self.begun and number >> 48 & 3:
            # The start of a file: a fresh chip, unless a wrap of the Timestamp came first.
            self.fill_up(self.draw())
        self.begun = True
        mode(amount * RECORD_LENGTH)
        # What a last step added beyond the amount is kept, so that the guess stays right.
        if mode not in (self.near, self.noise):
            self.sprinkle()
        return bytes(self.out)

    def stamp_wrap(self):
        """Records that take the Timestamp over 2^56, in pieces."""
        self.out = bytearray()
        self.put_reset(True)
        self.put_csr(1)
        self.put_filter(0xFFFF)
        self.put_write(ENABLE, 0xFFFF)
        yield bytes(self.out)
        piece = 4096
        for turn in range(WRAP_TICK_RECORDS // piece):
            yield MOST_TICKS_RECORD * piece
        self.guess_ticks(WRAP_TICK_RECORDS * MOST_TICKS)
        self.out = bytearray()
        self.cross_stamp(STAMP_WRAP, self.draw())
        # The slow clock doesn't start again at the wrap.
        for turn in range(16):
            self.put_slow_event(self.draw())
        yield bytes(self.out)


def generate(seed, count, ragged=None):
    """The file as pieces of bytes; `ragged` None lets the seed decide."""
    maker = Maker(seed)

    def pieces():
        if count >= WRAP_COUNT and seed % 4 == 3:
            yield from maker.stamp_wrap()
        while True:
            yield maker.stretch()

    left = count * RECORD_LENGTH
    endless = pieces()
    while left:
        piece = next(endless)[:left]
        left -= len(piece)
        yield piece
    if seed % 16 == 15 if ragged is None else ragged:
        # The part of a record comes from its own numbers, so that it doesn't depend on the count.
        number = splitmix64(seed ^ 0x5241474745445F5F)()
        part = record(number & 7, KNOWN[(number >> 3) % len(KNOWN)], LINES[number >> 9 & 63], 0, number >> 32)
        yield part[:1 + (number >> 16) % 11]


def main(arguments):
    flags = [argument for argument in arguments if argument.startswith("--")]
    numbers = [argument for argument in arguments if not argument.startswith("--")]
    if flags == ["--help"]:
        print(__doc__.strip())
        return 0
    try:
        seed, count = (int(number, 0) for number in numbers)
        if not (0 <= seed <= MOST_64 and count >= 0):
            raise ValueError
        ragged = {(): None, ("--ragged",): True, ("--whole",): False}[tuple(flags)]
    except (ValueError, KeyError):
        print("usage: generate.py SEED COUNT [--ragged | --whole] > FILE", file=sys.stderr)
        return 2
    try:
        for piece in generate(seed, count, ragged):
            sys.stdout.buffer.write(piece)
        sys.stdout.buffer.flush()
    except BrokenPipeError:
        # The reader went away early, as `head` does: let the last flush at exit go nowhere.
        os.dup2(os.open(os.devnull, os.O_WRONLY), sys.stdout.fileno())
    return 0


if __name__ == "__main__":
    sys.exit(main(sys.argv[1:]))
