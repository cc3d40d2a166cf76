#!/usr/bin/env python3
"""Write a file of MultiKron II records made from a seed, to compare chips record by record.

    compare/generate2.py SEED COUNT > FILE

SEED is a number from 0 to 2^64 - 1, COUNT the number of 16-byte records. The
bytes depend on SEED and COUNT alone, by the splitmix64 rule below. With the same
seed a smaller COUNT gives the beginning of the larger file, so that a difference
found can be cut down.

A file is a chain of stretches of about 80 to 1,000 records (short ones are
likelier), each in one mode. The seed chooses which modes are frequent. Most
stretches go on from the state the last one left; some start with a reset. As a
reset leaves sampling off and the Filter 0, stretches open both, again and again.

    queue      triggers, single sends and buffer sends of all sizes in balance,
               looks, write wait and discard, full queues, losses, waits
    full       the same with many triggers; drained: the same with many sends
    resets     the same with resets of both kinds, many in the middle of a sample
    stamps     the same with the Timestamp driven over 2^40, where the first chip's stamp ends
    registers  Enable, Mode and Clock Select: each code in all fields, in one
               field among fields that change nothing, and all codes at random;
               every other register too, CSR with both bits of its pairs
    counting   counters with codes at random, all kinds of events, all kinds of reads
    clocks     counters on the four clocks, gated by their lines or not, node
               ticks that end about a tenth and a hundredth, resets between
    pairs      counters paired and parted in mid-count, carries over 2^32 and
               2^64, writes and resets of one half, events for the odd half
    bus        both modes of the bus: writes at 7 before wide writes, or none;
               reads of 7 after reads, after refused ones, and twice
    shadows    reads with and without copy, shadows free and busy, read wait on
               and off, counters that change while a Resource sample is held
    sweep      every address from 0 to 255 written and read, in changing order
    mixed      all operations, all addresses, all sorts of data, few resets
    near       records close to legal ones; noise: random bytes, half with few bits set

Into most modes come bad records (a kind above 7, a nonzero zero byte, a tick
count above 2^32 - 1, a mask of events above 65535, more than 1,000 places), and
about one record in sixteen gets odd bits where they must be ignored: fields its
kind doesn't need, the mask of high lines too, data bits beyond a register's width.
A file of a SEED that leaves 3 when divided by 4 ends with a part of a record. No
file reaches the Timestamp's wrap at 2^56, which needs 2^24 records, nor those of
the Wait and Overrun Counters, which need 2^32.

The maker keeps a guess of the bus's mode alone, to write at 7 before wide
writes. It only shapes the records and says nothing about the right answers.
"""

import struct
import sys

RECORD_LENGTH = 16
record = struct.Struct("<BBBBHHQ").pack  # kind, address, lines, zero byte, high lines, two zero bytes, data

RESET, WRITE, READ, TICKS, NODE, EVENTS, SEND, BUFFER = range(8)
SOFT_RESET, CSR, TIMESTAMP, FILTER, WAIT, OVERRUN, HIGH_ORDER, ENABLE, MODE, CLOCK = 0, 1, 2, 4, 5, 6, 7, 8, 10, 12
SOURCE, COUNTER, SOFTWARE, SHADOW, TRACE, RESOURCE = 32, 64, 80, 80, 96, 112
FIELD_REGISTERS = (ENABLE, MODE, CLOCK, MODE)
MOST_64, MOST_32, MOST_PLACES = 2**64 - 1, 2**32 - 1, 1000
# A code times EVERY stands in all fields of a field register, times EVEN in those of the even counters.
EVERY, EVEN = 0x1111111111111111, 0x0101010101010101
# Lines bytes: mostly one line, now and then none or several.
LINES = [1 << (n & 7) for n in range(58)] + [0, 3, 0x81, 0x18, 0x7F, 0xFF]
# CSR data that mostly keeps sampling on: single settings, pairs with both bits, bits that do nothing.
CSR_DATA = [0x01, 0x05, 0x09, 0x11, 0x21, 0x15, 0x25, 0x19, 0x29, 0x04, 0x08, 0x10, 0x20, 0x18, 0x28, 0x00,
            0x0D, 0x31, 0x3D, 0x3C, 0x0C, 0x30, 0x02, 0x03, 0x3F, 0x2B, 0x3FC1, 0x3000, 0x4001, 0x8001, 0xC001, 0x4009]
BUS_DATA = [0x4000, 0x4001, 0x8000, 0xC000]
# Reads that show the state; to those from SOURCE on, 0 to 7 is added.
LOOKS = [CSR, CSR, CSR, OVERRUN, OVERRUN, WAIT, WAIT, TIMESTAMP, HIGH_ORDER, HIGH_ORDER, FILTER, SOURCE,
         COUNTER, COUNTER + 8, SHADOW, SHADOW + 8]
# Small counts first. Multiples of ten and of a hundred have their neighbours; 2^32 - 96 is one of both.
TICK_COUNTS = [0, 1, 1, 1, 2, 3, 5, 9, 9, 10, 10, 11, 19, 20, 99, 100, 101, 109, 110, 189, 190, 200, 990, 1000,
               65536, 2**31, 2**32 - 97, 2**32 - 96, 2**32 - 10, 2**32 - 2, MOST_32, MOST_32]
# Written to counters: mostly a few steps below 2^32.
NEAR_TOP = [MOST_32, MOST_32, MOST_32, MOST_32 - 1, MOST_32 - 2, MOST_32 - 9, MOST_32 - 99, 0]
PLACES = [0, 1, 1, 2, 3, 4, 5, 7, 9, 13, 19, 20, 20, 21, 39, 40, 41, 64, 83, 84, 84, 85, 103, 104, 140, 160, 223,
          224, 225, 500, 999, MOST_PLACES]
# Addresses of the mixed modes: those with a meaning often, all others too.
KNOWN = [1, 1, 1, 2, 4, 5, 6, 7, 7, 8, 8, 10, 10, 12, 12, *range(32, 40), *range(64, 128)]
ADDRESSES = KNOWN * 2 + list(range(256))
ADDRESSES += [CSR] * (512 - len(ADDRESSES))
# The data bits that a write at an address heeds; where nothing stands it heeds none.
HEEDED = {CSR: 0xC03F, FILTER: 0xFFFF, HIGH_ORDER: MOST_32, ENABLE: MOST_64, MODE: MOST_64, CLOCK: MOST_64,
          **{address: MOST_32 for address in (*range(SOURCE, SOURCE + 8), *range(COUNTER, COUNTER + 16))},
          **{address: MOST_64 for address in range(TRACE, 128)}}
# Each mode's share among the modes, and the steps that it takes with the share of each.
MODES = {
    "queue": (4, "triggers 16 sends 24 looks 10 settings 3 open_up 2 event 3 fields 1 register 1 bad 1"),
    "full": (3, "triggers 30 sends 16 looks 10 settings 3 open_up 2 event 3 bad 1"),
    "drained": (3, "triggers 10 sends 36 looks 10 settings 3 open_up 2 event 3 bad 1"),
    "resets": (3, "triggers 16 sends 14 reset_in_sample 14 looks 10 settings 3 open_up 2 event 3 counter 2"),
    "stamps": (2, "stamp_run 1 triggers 10 sends 12 looks 4 open_up 2 event 4"),
    "registers": (4, "fields 32 register 24 event 4 counter 2 one_trigger 2 sends 2 settings 2 bad 1"),
    "counting": (4, "fields 10 event 28 counter 20 held 2 looks 2 bad 1 reset 1"),
    "clocks": (4, "clock_codes 8 event 50 counter 40 reset 2 held 1"),
    "pairs": (7, "pair_codes 5 pair_change 42 odd_half 6 pair_event 9 held 2"),
    "bus": (3, "settings 20 bus_write 24 bus_read 24 event 2 open_up 1 any_access 1"),
    "shadows": (3, "held 6 one_trigger 4 sends 4 counter 28 event 10 open_up 6 fields 4"),
    "sweep": (2, "sweep 7 sends 1"),
    "mixed": (3, "any_access 34 event 12 sends 12 bad 2 reset 1 open_up 3"),
    "near": (2, "near 1"),
    "noise": (1, "noise 1"),
}
RAW_MODES = ("near", "noise")  # without opening and odd bits


def splitmix64(state):
    """The 64-bit numbers of the splitmix64 sequence."""
    while True:
        state = (state + 0x9E3779B97F4A7C15) & MOST_64
        mixed = ((state ^ (state >> 30)) * 0xBF58476D1CE4E5B9) & MOST_64
        mixed = ((mixed ^ (mixed >> 27)) * 0x94D049BB133111EB) & MOST_64
        yield mixed ^ (mixed >> 31)


class Maker:
    """Makes records. A step is given a random number of 64 bits and uses slices of it."""

    def __init__(self, seed):
        self.draw = splitmix64(seed).__next__
        self.narrow = False  # the guess: 32-bit mode was chosen last
        self.mode = self.clock = 4  # the codes that pair_codes wrote last
        number = self.draw()
        self.modes = []  # each as often as its share says, more often by the seed's choice
        self.steps = {}  # each mode's steps, as often as their shares say
        for name, (share, steps) in MODES.items():
            self.modes += [name] * (share * (1, 1, 2, 3)[number & 3])
            number >>= 2
            words = steps.split()
            self.steps[name] = [getattr(self, step) for step, times in zip(words[::2], words[1::2])
                                for turn in range(int(times))]

    def put(self, kind, data=0, high=0, address=0, lines=0):
        self.out += record(kind, address, lines, 0, high, 0, data)

    def write(self, address, data=0, lines=0):
        self.out += record(WRITE, address, lines, 0, 0, 0, data)
        if address == CSR and data & 0xC000:
            self.narrow = not data & 0x8000
        elif address == SOFT_RESET:
            self.narrow = False

    def wide(self, address, data):
        """A write of a 64-bit register; in 32-bit mode mostly with a write at 7 before it."""
        if self.narrow and data % 8 != 5:
            self.write(HIGH_ORDER, data >> 32)
        self.write(address, data)

    def read(self, address):
        self.out += record(READ, address, 0, 0, 0, 0, 0)

    def all_sorts_of_data(self):
        number = self.draw()
        data = number >> 3
        return (data & 15, 1 << (data & 63), data & 0xFFFF, data & MOST_32, 0, MOST_64, number, number)[number & 7]

    def field_data(self, number):
        """Data for a field register."""
        data = self.draw()
        if number & 7 < 2:
            return data
        if number & 7 < 4:
            return (data & 15) * EVERY
        if number & 7 < 6:
            # One code among fields that change nothing: 0 or 8 in all three registers, 4 and 12 in Enable too.
            others = (0, 8 * EVERY, 0, data & 8 * EVERY)[number >> 3 & 3] | (4 * EVERY if number & 0x60 == 0 else 0)
            place = 4 * (data >> 4 & 15)
            return others & ~(15 << place) | (data & 15) << place
        return data & (self.draw() & EVERY) * 15

    # ---- steps around the queue ----

    def open_up(self, number):
        """Sampling on and filters open, with a mixture of the other settings."""
        self.write(CSR, 1 | (0, 8, 8, 4)[number & 3] | (0, 16, 32, 16)[number >> 2 & 3] | (number & 0x30 == 0) << 15)
        self.write(FILTER, 0xFFFF if number & 0x1C0 else number >> 16 & 0xFFFF)

    def one_trigger(self, number):
        """One out of four is for a Resource sample. A shift by the top bits makes data of every length."""
        first = RESOURCE if number & 3 == 0 else TRACE
        self.write(first + (number >> 4 & 15), number >> (number >> 58), LINES[number >> 8 & 63])

    def triggers(self, number):
        for turn in range(1 + (number & 7)):
            self.one_trigger(self.draw())

    def sends(self, number):
        """Single sends, few or a whole sample's, or a buffer send."""
        if number & 3:
            self.put(BUFFER, PLACES[number >> 2 & 31] if number & 0x180 else number >> 9 & 255)
        else:
            amount = (20, 19, 84, 21)[number >> 2 & 3] if number & 0xF0 == 0 else 1 + (number >> 2 & 7)
            self.out += record(SEND, 0, 0, 0, 0, 0, 0) * amount

    def looks(self, number):
        """One to four reads that show the state, now and then after a write that clears an error counter."""
        if number >> 60 == 0:
            self.write((WAIT, OVERRUN, OVERRUN, OVERRUN)[number >> 58 & 3])
            self.one_trigger(number >> 20)
        for turn in range(1 + (number & 3)):
            number >>= 4
            address = LOOKS[number & 15]
            self.read(address + (number >> 20 & 7) if address >= SOURCE else address)

    def settings(self, number):
        self.write(CSR, CSR_DATA[number >> 4 & 31] if number & 3 else BUS_DATA[number >> 2 & 3])

    def reset(self, number):
        if number & 1:
            self.put(RESET)
            self.narrow = False
        else:
            self.write(SOFT_RESET)

    def reset_in_sample(self, number):
        """Some words of a sample, a reset, looks, and triggers, often until some lack room."""
        self.put(BUFFER, (number >> 8) % (20, 84, 8, 3)[number & 3])
        self.reset(number >> 2)
        self.looks(self.draw())
        self.open_up(number >> 20)
        for turn in range(number >> 40 & 15):
            self.one_trigger(self.draw())

    def stamp_run(self, number):
        self.out += record(TICKS, 0, 0, 0, number & 0xFFFF, 0, MOST_32) * 260

    # ---- steps around registers and the bus ----

    def fields(self, number):
        address = FIELD_REGISTERS[number & 3]
        self.wide(address, self.field_data(number >> 2))
        self.read(address)

    def register(self, number):
        some = (CSR, CSR, FILTER, HIGH_ORDER, HIGH_ORDER, WAIT, OVERRUN, TIMESTAMP)
        address = some[number & 7] if number & 8 else (SOURCE + (number & 7), COUNTER + (number & 15))[number >> 4 & 1]
        data = self.all_sorts_of_data()
        self.write(address, CSR_DATA[data & 31] if address == CSR and number & 0x20 else data, number >> 8 & 255)
        self.read(address)

    def bus_write(self, number):
        """A wide write whose upper half often differs from the High Order register, and what came of it."""
        data = self.field_data(number)
        if number & 0x300:
            self.write(HIGH_ORDER, self.draw() if number & 0x400 else data >> 32)
        address = (ENABLE, MODE, CLOCK, TRACE + (number >> 16 & 31))[number >> 12 & 3]
        self.write(address, data, LINES[number >> 24 & 63])
        if address >= TRACE:
            self.put(BUFFER, PLACES[number >> 40 & 31])
        else:
            self.read(address)

    def bus_read(self, number):
        self.read(ADDRESSES[number & 511] if number & 0x800 else (ENABLE, MODE, CLOCK, TIMESTAMP)[number & 3])
        for turn in range((0, 1, 1, 2)[number >> 12 & 3]):
            self.read(HIGH_ORDER)

    # ---- steps around counters and pairs ----

    def event(self, number):
        """One event record of some kind; ticks with a small or a striking count, half with some external lines high."""
        choice, lines = number & 7, number >> 8 & 0xFFFF
        if choice < 4:
            high = (0, 0, 0, 0, 0xFFFF, lines, lines, 1 << (lines & 15))[number >> 24 & 7]
            self.put(NODE if choice else TICKS, TICK_COUNTS[number >> 3 & 31], high)
        elif choice < 6:
            self.put(EVENTS, lines if number >> 24 & 7 else 0xFFFF)
        else:
            self.write(SOFTWARE + (number >> 3 & 15))

    def counter(self, number):
        """A read with copy, one without, or a write, often near the top."""
        index = number >> 2 & 15
        if number & 3:
            self.read((COUNTER if number & 1 else SHADOW) + index)
        else:
            self.write(COUNTER + index, NEAR_TOP[number >> 6 & 7] if number >> 9 & 1 else number >> 10)

    def held(self, number):
        """A Resource sample, and reads and changes of counters while it is held."""
        self.open_up(number >> 8)
        self.write(RESOURCE + (number & 15), number, 1 << (number >> 4 & 7))
        for turn in range(1 + (number >> 20 & 3)):
            self.event(self.draw())
            self.counter(number >> 24 + 6 * turn)
        self.sends(number >> 48)

    def clock_codes(self, number):
        """Counters on their clock or gated, single or paired, all on one clock or each on its own."""
        self.put(BUFFER, MOST_PLACES)
        self.wide(MODE, self.draw() & 14 * EVERY | EVERY)
        self.wide(CLOCK, self.draw() if number & 8 else (1 + (number >> 4) % 7) * EVERY)
        self.wide(ENABLE, (2 | number >> 8 & 13) * EVERY)

    def pair_codes(self, number):
        """All even counters alike; the odd ones' codes are their own and mean nothing while they are paired."""
        self.put(BUFFER, MOST_PLACES)
        self.mode, self.clock = 8 | 1 + number % 7, 1 + (number >> 4) % 7
        self.wide(MODE, (self.mode | 1 + (number >> 8) % 15 << 4) * EVEN)
        self.wide(CLOCK, (self.clock | (number >> 12 & 7) << 4) * EVEN)
        self.wide(ENABLE, ((2, 3, 14, 2)[number >> 16 & 3] | (1, 2, 3, 6)[number >> 18 & 3] << 4) * EVEN)

    def pair_event(self, number):
        """An event that the pair counts if it has the codes written last, often for others too, and both halves."""
        even, kind, clock = 2 * (number & 7), self.mode & 7, self.clock & 7
        lines = 1 << even | number >> 8 & 0xFFFF
        if kind in (2, 6):
            self.write(SOFTWARE + even)
        elif kind == 4:
            self.put(EVENTS, lines)
        else:
            count = TICK_COUNTS[number >> 24 & 31] * (1, 1, 10, 100, 1, 1, 10, 100)[clock]
            self.put(TICKS if clock == 4 else NODE, min(count, MOST_32), lines)
        if number >> 30 & 3:
            self.read(COUNTER + even)
            self.read(SHADOW + even + 1)

    def pair_change(self, number):
        """Halves written, a pair parted or paired with the other fields as they are, one half reset; then an event."""
        even, what, number = 2 * (number & 7), number >> 3 & 15, number >> 7
        if what < 9:
            # A carry over 2^32 comes next; over 2^64 if the upper half is full too.
            if what:
                self.write(COUNTER + even + 1, NEAR_TOP[number >> 40 & 7] if number >> 43 & 1 else number)
            if what < 8:
                self.write(COUNTER + even, NEAR_TOP[number >> 44 & 7])
        elif what < 14:
            code = self.mode & 7 if number >> 40 & 1 else self.mode
            self.wide(MODE, code << 4 * even | (8 << 4 * even + 4 if number >> 41 & 1 else 0))
        else:
            self.wide(ENABLE, (3, 3, 7, 1, 2, 10, 15, 5)[number >> 40 & 7] << 4 * (even + (what & 1)))
        self.pair_event(number & ~7 | even >> 1)

    def odd_half(self, number):
        """Events of every kind for the odd half."""
        odd = 2 * (number & 7) + 1
        self.write(SOFTWARE + odd)
        self.put(EVENTS, 1 << odd)
        self.put(NODE if number >> 40 & 1 else TICKS, TICK_COUNTS[number >> 41 & 31], 1 << odd)
        self.read(COUNTER + odd)

    # ---- steps around addresses and whole records ----

    def bad(self, number):
        """A record that gets reply 9 and must change nothing."""
        choice, some = number & 7, number >> 8
        if choice < 4:
            # A kind above 7, or a good record but for one bit of its zero bytes; resets and sends are among them.
            kind, bit = (8 + (some % 248 if number & 8 else 0), 0) if choice < 2 else (number >> 4 & 7, 1 << some % 24)
            address = KNOWN[(number >> 20) % len(KNOWN)]
            self.out += record(kind, address, 1, bit >> 16, 0, bit & 0xFFFF, number >> 40 & 255)
        else:
            kind, above = ((TICKS, 2**32), (NODE, 2**32), (EVENTS, 2**16), (BUFFER, MOST_PLACES + 1))[choice & 3]
            self.put(kind, (above, above + (some & 255), above << some % 32, number | 2**63)[number >> 3 & 3])

    def any_access(self, number):
        address = ADDRESSES[number & 511]
        if number >> 9 & 1:
            self.read(address)
        elif address != SOFT_RESET or number & 0xE000 == 0:
            data = self.all_sorts_of_data()
            if address == CSR and number & 0xE000:
                data &= ~2
            self.write(address, data | 0xFF0F if address == FILTER else data, LINES[number >> 16 & 63])

    def sweep(self, number):
        address = number & 255
        stride = number >> 8 & 255 | 1  # odd, so that all 256 come by
        for turn in range(256):
            address = (address + stride) & 255
            self.read(address)
            # The software reset only in one sweep out of four.
            if address != SOFT_RESET or number >> 20 & 3 == 0:
                data = self.all_sorts_of_data()
                self.write(address, data & ~2 if address == CSR else data, LINES[data >> 50 & 63])
        self.open_up(number >> 24)

    def near(self, number):
        kind = number & 7 if number & 0x78 else number >> 8 & 255
        if kind == RESET and number & 0xF000:
            kind = SEND
        bit = 1 << (number >> 32) % 24 if number >> 60 == 0 else 0
        self.out += record(kind, ADDRESSES[number >> 16 & 511], LINES[number >> 26 & 63], bit >> 16,
                           number >> 40 & 0xFFFF, bit & 0xFFFF, self.all_sorts_of_data())

    def noise(self, number):
        data = self.draw()
        if number >> 63:
            number &= 0x0000FFFF00FFFF07
            data >>= data & 63
        self.out += struct.pack("<QQ", number, data)

    def sprinkle(self):
        """Put odd bits where they must be ignored, in about one record of sixteen."""
        out = self.out
        amount = len(out) // RECORD_LENGTH
        for turn in range(amount // 16):
            number = self.draw()
            start = ((number >> 32) * amount >> 32) * RECORD_LENGTH
            kind, address = out[start], out[start + 1]
            if kind not in (TICKS, NODE):
                out[start + 4:start + 6] = (number >> 16 & 0xFFFF).to_bytes(2, "little")
            if kind != WRITE or not TRACE <= address < 128:
                out[start + 2] = number & 255
            if kind not in (WRITE, READ):
                out[start + 1] = number >> 8 & 255
            if kind in (RESET, WRITE, READ, SEND):
                heeded = HEEDED.get(address, 0) if kind == WRITE else 0
                data = int.from_bytes(out[start + 8:start + 16], "little") | self.draw() & ~heeded
                out[start + 8:start + 16] = data.to_bytes(8, "little")

    def stretch(self):
        """The records of the next stretch."""
        draw, out = self.draw, bytearray()
        self.out = out
        number = draw()
        name = self.modes[(number & 0xFFFF) * len(self.modes) >> 16]
        steps = self.steps[name]
        # The product of two numbers makes short stretches likelier than long ones.
        goal = (80 + ((number >> 16 & 0xFFFF) * (number >> 32 & 0xFFFF) * 920 >> 32)) * RECORD_LENGTH
        if number >> 60 < 3:
            self.reset(number >> 60)
        if number >> 56 & 3 == 0:
            # Into 32-bit mode or out of it.
            self.write(CSR, 0x4001 if number >> 58 & 3 == 0 else 0x8001)
        if name not in RAW_MODES:
            self.open_up(draw())
        while len(out) < goal:
            steps[draw() * len(steps) >> 64](draw())
        if name not in RAW_MODES:
            self.sprinkle()
        return bytes(out)


def generate(seed, count):
    """The file as pieces of bytes."""
    maker = Maker(seed)
    left = count * RECORD_LENGTH
    while left > 0:
        piece = maker.stretch()[:left]
        left -= len(piece)
        yield piece
    if seed % 4 == 3:
        # The part of a record comes from its own numbers, so that it doesn't depend on the count.
        number = next(splitmix64(seed ^ 0x5241474745445F5F))
        part = record(number & 7, KNOWN[(number >> 3) % len(KNOWN)], 1, 0, 0, 0, number >> 32)
        yield part[:1 + (number >> 16) % 15]


if __name__ == "__main__":
    try:
        seed, count = (int(number, 0) for number in sys.argv[1:])
    except ValueError:
        sys.exit("usage: generate2.py SEED COUNT > FILE")
    for piece in generate(seed, count):
        sys.stdout.buffer.write(piece)
