#!/usr/bin/env python3
"""Checks of the script tool: exact bytes, every error message, round trips, the table of answers.

    tools/test_script.py

The last line tells how many checks passed; the exit status is 1 if one failed.
"""

import os
import random
import subprocess
import sys

sys.dont_write_bytecode = True
HERE = os.path.dirname(os.path.abspath(__file__))
EXAMPLES = os.path.join(os.path.dirname(HERE), "examples")
sys.path.insert(0, HERE)
import script  # noqa: E402

passed = 0


def check(found, expected, about):
    """Count one check; stop with a message where it fails."""
    global passed
    if found != expected:
        print("FAILED: %s\n  expected %r\n  found    %r" % (about, expected, found))
        sys.exit(1)
    passed += 1


def errors_of(text):
    """The messages that packing a text gives, or None if it packs."""
    try:
        script.pack(text)
    except script.BadInput as bad:
        return list(bad.args)
    return None


def run(arguments, standard_input=b""):
    """Run the tool as a command: exit status, standard output, standard error."""
    done = subprocess.run([sys.executable, "-B", os.path.join(HERE, "script.py"), *arguments],
                          input=standard_input, capture_output=True)
    return done.returncode, done.stdout, done.stderr.decode()


def hexadecimal(text):
    return bytes.fromhex(text)


# ---- the bytes of each operation ----

BYTES_OF_LINE = [
    ("reset", "00 00 00 00 00 00 00 00 00 00 00 00"),
    ("reset tenth", "00 00 00 00 00 00 00 00 00 00 00 00"),
    ("reset hundredth", "00 00 00 00 01 00 00 00 00 00 00 00"),
    ("Reset Hundredth # and no faster", "00 00 00 00 01 00 00 00 00 00 00 00"),
    ("hardreset", "00 00 00 00 00 00 00 00 00 00 00 00"),
    ("hardreset tenth", "00 00 00 00 00 00 00 00 00 00 00 00"),
    ("hardreset hundredth", "00 00 00 00 01 00 00 00 00 00 00 00"),
    ("softreset", "01 00 00 00 00 00 00 00 00 00 00 00"),
    ("write softreset", "01 00 00 00 00 00 00 00 00 00 00 00"),
    ("write csr 1", "01 01 00 00 01 00 00 00 00 00 00 00"),
    ("write 1 1", "01 01 00 00 01 00 00 00 00 00 00 00"),
    ("WRITE CSR 0X1", "01 01 00 00 01 00 00 00 00 00 00 00"),
    ("write filter 0xFFFF", "01 04 00 00 ff ff 00 00 00 00 00 00"),
    ("write mux 0x0000AAAA_0000FFFF", "01 08 00 00 ff ff 00 00 aa aa 00 00"),
    ("write muxsel 1", "01 08 00 00 01 00 00 00 00 00 00 00"),
    ("write clear 1_0", "01 0a 00 00 0a 00 00 00 00 00 00 00"),
    ("write 200 18446744073709551615", "01 c8 00 00 ff ff ff ff ff ff ff ff"),
    ("write 0xff 0x0102030405060708", "01 ff 00 00 08 07 06 05 04 03 02 01"),
    ("write csr line 3", "01 01 08 00 00 00 00 00 00 00 00 00"),
    ("write csr 2 lines 0xff", "01 01 ff 00 02 00 00 00 00 00 00 00"),
    ("write counter15", "01 2f 00 00 00 00 00 00 00 00 00 00"),
    ("write trace0", "01 60 00 00 00 00 00 00 00 00 00 00"),
    ("read csr", "02 01 00 00 00 00 00 00 00 00 00 00"),
    ("read 255", "02 ff 00 00 00 00 00 00 00 00 00 00"),
    ("trigger trace0 258 line 0", "01 60 01 00 02 01 00 00 00 00 00 00"),
    ("trigger trace0 258 lines 1", "01 60 01 00 02 01 00 00 00 00 00 00"),
    ("trigger resource15 line 7", "01 7f 80 00 00 00 00 00 00 00 00 00"),
    ("trigger 112 line 0 2", "01 70 05 00 00 00 00 00 00 00 00 00"),
    ("trigger 96 lines 0", "01 60 00 00 00 00 00 00 00 00 00 00"),
    ("trigger 0x60 lines 255", "01 60 ff 00 00 00 00 00 00 00 00 00"),
    ("ticks 3", "03 00 00 00 03 00 00 00 00 00 00 00"),
    ("tick 0", "03 00 00 00 00 00 00 00 00 00 00 00"),
    ("ticks 4_294_967_295", "03 00 00 00 ff ff ff ff 00 00 00 00"),
    ("node 4294967295", "04 00 00 00 ff ff ff ff 00 00 00 00"),
    ("nodes 1", "04 00 00 00 01 00 00 00 00 00 00 00"),
    ("events 0xffff", "05 00 00 00 ff ff 00 00 00 00 00 00"),
    ("event 1", "05 00 00 00 01 00 00 00 00 00 00 00"),
    ("send", "06 00 00 00 00 00 00 00 00 00 00 00"),
    ("send 2", "06 00 00 00 00 00 00 00 00 00 00 00" * 2),
    ("raw 07 00 01 02 03 04 05 06 07 08 09 fF", "07 00 01 02 03 04 05 06 07 08 09 ff"),
    ("raw 07", "07"),
    ("raw 00 01 02 03 04 05 06 07 08 09 0a", "00 01 02 03 04 05 06 07 08 09 0a"),
    ("", ""),
    ("   \t ", ""),
    ("# send", ""),
    ("send # twice? no, once", "06 00 00 00 00 00 00 00 00 00 00 00"),
    ("send#", "06 00 00 00 00 00 00 00 00 00 00 00"),
    ("  send\r", "06 00 00 00 00 00 00 00 00 00 00 00"),
]

for line, expected in BYTES_OF_LINE:
    check(script.pack(line + "\n"), hexadecimal(expected), "bytes of %r" % line)
    check(script.pack(line), hexadecimal(expected), "bytes of %r without a line feed" % line)

# Every name stands for its address, and the reading of the address gives the name back.
NAMES = [(0, "softreset"), (1, "csr"), (2, "timestamp"), (4, "filter"), (5, "wait"), (6, "overrun"), (8, "mux"),
         (10, "clear"), (11, "enable"), (12, "disable")]
NAMES += [(16 + n, "source%d" % n) for n in range(8)] + [(32 + n, "counter%d" % n) for n in range(16)]
NAMES += [(96 + n, "trace%d" % n) for n in range(16)] + [(112 + n, "resource%d" % n) for n in range(16)]
for address, name in NAMES:
    record = bytes([2, address]) + bytes(10)
    check(script.pack("read " + name), record, "address of " + name)
    check(script.unpack(record), "read %s\n" % name, "name of %d" % address)
named = {address for address, _ in NAMES}
for address in set(range(256)) - named:
    check(script.unpack(bytes([2, address]) + bytes(10)), "read %d\n" % address, "no name for %d" % address)

# ---- Listing B of document 01, written out by hand ----

LISTING_B = hexadecimal("""
    01 01 00 00 01 00 00 00 00 00 00 00
    01 04 00 00 01 00 00 00 00 00 00 00
    01 10 00 00 05 00 00 00 00 00 00 00
    03 00 00 00 03 00 00 00 00 00 00 00
    01 60 01 00 02 01 00 00 00 00 00 00
    06 00 00 00 00 00 00 00 00 00 00 00
    06 00 00 00 00 00 00 00 00 00 00 00
    01 61 01 00 00 00 00 00 00 00 00 00
    02 02 00 00 00 00 00 00 00 00 00 00
    02 03 00 00 00 00 00 00 00 00 00 00
""")
LISTING_B_TEXT = """\
write csr 0x1
write filter 0x1
write source0 5
ticks 3
trigger trace0 258 line 0
send 2
trigger trace1 line 0
read timestamp
read 3
"""
LISTING_B_ANSWERS = "answer value\n0 0\n0 0\n0 0\n0 0\n0 0\n0 256\n0 261\n7 0\n0 3\n2 0\n"
check(script.pack(LISTING_B_TEXT), LISTING_B, "Listing B's bytes")
check(script.unpack(LISTING_B), LISTING_B_TEXT, "Listing B's text")

# ---- the examples pack, and the first of them is Listing B ----

EXAMPLE_NAMES = ["counters.txt", "listing-b.txt", "overrun.txt", "resource.txt", "slow-clock.txt", "waiting-ends.txt", "waiting.txt"]
check(sorted(name for name in os.listdir(EXAMPLES) if name.endswith(".txt")), EXAMPLE_NAMES, "all examples are here")
# The records that an example shows the bench refusing with 9; all others have a text of their own.
RAW_OF_EXAMPLE = {"slow-clock.txt": ["raw 00 00 00 00 02 00 00 00 00 00 00 00"]}
for name in EXAMPLE_NAMES:
    with open(os.path.join(EXAMPLES, name), encoding="utf-8") as file:
        text = file.read()
    check(text.startswith("# "), True, name + " starts with a comment")
    packed = script.pack(text)
    check(len(packed) > 0 and len(packed) % 12 == 0, True, name + " packs to whole records")
    check(script.pack(script.unpack(packed)), packed, name + " comes back the same")
    raw_lines = [line for line in script.unpack(packed).splitlines() if line.startswith("raw")]
    check(raw_lines, RAW_OF_EXAMPLE.get(name, []), name + " has no other raw records")
    if name == "listing-b.txt":
        check(packed, LISTING_B, "bytes of " + name)

# ---- text of records ----

TEXT_OF_RECORDS = [
    ("", ""),
    ("06 00 00 00 00 00 00 00 00 00 00 00" * 3, "send 3\n"),
    ("06 00 00 00 00 00 00 00 00 00 00 00", "send\n"),
    ("06 00 00 00 00 00 00 00 00 00 00 01" * 2, "raw 06 00 00 00 00 00 00 00 00 00 00 01\n" * 2),
    ("06 01 00 00 00 00 00 00 00 00 00 00", "raw 06 01 00 00 00 00 00 00 00 00 00 00\n"),
    ("06 00 00 00 00 00 00 00 00 00 00 00 06", "send\nraw 06\n"),
    ("00 00 00 00 00 00 00 00 00 00 00 00", "reset\n"),
    ("00 00 00 00 01 00 00 00 00 00 00 00", "reset hundredth\n"),
    ("00 00 00 00 02 00 00 00 00 00 00 00", "raw 00 00 00 00 02 00 00 00 00 00 00 00\n"),
    ("00 00 00 00 00 01 00 00 00 00 00 00", "raw 00 00 00 00 00 01 00 00 00 00 00 00\n"),
    ("00 00 00 00 01 00 00 00 01 00 00 00", "raw 00 00 00 00 01 00 00 00 01 00 00 00\n"),
    ("00 00 00 00 ff ff ff ff ff ff ff ff", "raw 00 00 00 00 ff ff ff ff ff ff ff ff\n"),
    ("00 00 01 00 00 00 00 00 00 00 00 00", "raw 00 00 01 00 00 00 00 00 00 00 00 00\n"),
    ("00 00 01 00 01 00 00 00 00 00 00 00", "raw 00 00 01 00 01 00 00 00 00 00 00 00\n"),
    ("00 01 00 00 00 00 00 00 00 00 00 00", "raw 00 01 00 00 00 00 00 00 00 00 00 00\n"),
    ("00 01 00 00 01 00 00 00 00 00 00 00", "raw 00 01 00 00 01 00 00 00 00 00 00 00\n"),
    ("00 00 00 01 01 00 00 00 00 00 00 00", "raw 00 00 00 01 01 00 00 00 00 00 00 00\n"),
    ("01 00 00 00 00 00 00 00 00 00 00 00", "write softreset\n"),
    ("01 04 00 00 00 00 00 00 00 00 00 00", "write filter 0x0\n"),
    ("01 05 00 00 07 00 00 00 00 00 00 00", "write wait 7\n"),
    ("01 01 06 00 01 00 00 00 00 00 00 00", "write csr 0x1 lines 0x06\n"),
    ("01 01 00 01 01 00 00 00 00 00 00 00", "raw 01 01 00 01 01 00 00 00 00 00 00 00\n"),
    ("01 60 00 00 00 00 00 00 00 00 00 00", "trigger trace0 lines 0x00\n"),
    ("01 7f 40 00 00 00 01 00 00 00 00 00", "trigger resource15 0x10000 line 6\n"),
    ("02 01 00 00 01 00 00 00 00 00 00 00", "raw 02 01 00 00 01 00 00 00 00 00 00 00\n"),
    ("03 00 00 00 ff ff ff ff 00 00 00 00", "ticks 4294967295\n"),
    ("03 00 00 00 00 00 00 00 01 00 00 00", "raw 03 00 00 00 00 00 00 00 01 00 00 00\n"),
    ("04 00 00 00 0a 00 00 00 00 00 00 00", "node 10\n"),
    ("05 00 00 00 ff ff 00 00 00 00 00 00", "events 0xffff\n"),
    ("05 00 00 00 00 00 01 00 00 00 00 00", "raw 05 00 00 00 00 00 01 00 00 00 00 00\n"),
    ("07 00 00 00 00 00 00 00 00 00 00 00", "raw 07 00 00 00 00 00 00 00 00 00 00 00\n"),
]
for records, expected in TEXT_OF_RECORDS:
    check(script.unpack(hexadecimal(records)), expected, "text of " + (records or "nothing"))
    check(script.pack(expected), hexadecimal(records), "bytes of that text again")
check(script.unpack(hexadecimal("06" + "00" * 11) * 1_000_001), "send 1000000\nsend\n",
      "a run longer than one line allows")

# ---- every error message ----

AN_ADDRESS = "an address (a number from 0 to 255 or a name such as csr)"
A_TRIGGER_ADDRESS = "a trigger's address (a number from 96 to 127 or a name such as trace0 or resource15)"
DATA = "data (a number from 0 to 18446744073709551615), 'line' or 'lines'"
A_LINE = "a processor line (a number from 0 to 7)"
A_LINES_MASK = "a mask of processor lines (a number from 0 to 255)"
TICKS = "a count of Timestamp ticks (a number from 0 to 4294967295)"
NODE = "a count of node ticks (a number from 0 to 4294967295)"
EVENTS = "a mask of external events (a number from 0 to 65535)"
SENDS = "how many words to send (a number from 1 to 1000000)"
SPEED = "'tenth', 'hundredth' or the end of the line"
A_BYTE = "a byte of two hexadecimal digits such as 0f"
AN_OPERATION = "an operation (reset, write, read, trigger, ticks, node, events, send or raw)"
END = "the end of the line"

ERRORS = [
    ("wrte csr 1", AN_OPERATION, "'wrte'"),
    ("12", AN_OPERATION, "'12'"),
    ("write", AN_ADDRESS, END),
    ("write cxr 1", AN_ADDRESS, "'cxr'"),
    ("write CXR 1", AN_ADDRESS, "'CXR'"),
    ("write 256 1", AN_ADDRESS, "'256'"),
    ("write -1", AN_ADDRESS, "'-1'"),
    ("write source8 1", AN_ADDRESS, "'source8'"),
    ("write counter16", AN_ADDRESS, "'counter16'"),
    ("read", AN_ADDRESS, END),
    ("read 1__0", AN_ADDRESS, "'1__0'"),
    ("read 1_", AN_ADDRESS, "'1_'"),
    ("read 0x", AN_ADDRESS, "'0x'"),
    ("read ff", AN_ADDRESS, "'ff'"),
    ("read \u0661", AN_ADDRESS, "'\u0661'"),
    ("write csr one", DATA, "'one'"),
    ("write csr 18446744073709551616", DATA, "'18446744073709551616'"),
    ("write csr " + "9" * 5000, DATA, "'" + "9" * 37 + "...'"),
    ("write csr 1 2", "'line' or 'lines'", "'2'"),
    ("write csr 1 line", A_LINE, END),
    ("write csr 1 line 8", A_LINE, "'8'"),
    ("write csr 1 line 0 x", A_LINE, "'x'"),
    ("write csr 1 line 0 0x0", "each processor line once", "'0x0' again"),
    ("write csr 1 lines", A_LINES_MASK, END),
    ("write csr 1 lines 256", A_LINES_MASK, "'256'"),
    ("write csr 1 lines 1 2", END, "'2'"),
    ("trigger", A_TRIGGER_ADDRESS, END),
    ("trigger csr line 0", A_TRIGGER_ADDRESS, "'csr'"),
    ("trigger 95 line 0", A_TRIGGER_ADDRESS, "'95'"),
    ("trigger 128 line 0", A_TRIGGER_ADDRESS, "'128'"),
    ("trigger trace16 line 0", A_TRIGGER_ADDRESS, "'trace16'"),
    ("trigger trace0 data line 0", DATA, "'data'"),
    ("trigger trace0", "'line' or 'lines'", END),
    ("trigger trace0 5", "'line' or 'lines'", END),
    ("trigger trace0 5 6", "'line' or 'lines'", "'6'"),
    ("trigger trace0 5 line", A_LINE, END),
    ("trigger trace0 lines 0x100", A_LINES_MASK, "'0x100'"),
    ("ticks", TICKS, END),
    ("ticks 4294967296", TICKS, "'4294967296'"),
    ("ticks 1 2", END, "'2'"),
    ("node", NODE, END),
    ("node 4294967296", NODE, "'4294967296'"),
    ("node 1.5", NODE, "'1.5'"),
    ("events", EVENTS, END),
    ("events 65536", EVENTS, "'65536'"),
    ("send 0", SENDS, "'0'"),
    ("send 1000001", SENDS, "'1000001'"),
    ("send all", SENDS, "'all'"),
    ("send 1 1", END, "'1'"),
    ("read csr 1", END, "'1'"),
    ("reset now", SPEED, "'now'"),
    ("reset 0", SPEED, "'0'"),
    ("reset 1", SPEED, "'1'"),
    ("reset Tenths", SPEED, "'Tenths'"),
    ("reset tenth hundredth", END, "'hundredth'"),
    ("reset hundredth 1", END, "'1'"),
    ("hardreset slow", SPEED, "'slow'"),
    ("hardreset hundredth 1", END, "'1'"),
    ("tenth", AN_OPERATION, "'tenth'"),
    ("softreset hundredth", END, "'hundredth'"),
    ("softreset 1", END, "'1'"),
    ("raw", A_BYTE, END),
    ("raw 0", A_BYTE, "'0'"),
    ("raw 0x07", A_BYTE, "'0x07'"),
    ("raw 00 zz", A_BYTE, "'zz'"),
    ("raw" + " 00" * 13, "at most 12 bytes", "13"),
]
for line, expected, found in ERRORS:
    message = "line %%d: expected %s, found %s" % (expected, found)
    check(errors_of(line), [message % 1], "message for %r" % line)
    check(errors_of("# a comment\n\nsend\n" + line + "  # another\nsend\n"), [message % 4], "line of %r" % line)

ONLY_LAST = "expected 12 bytes, as only the last operation may be a part of a record, found %d"
check(errors_of("raw 07 00\nsend\n"), ["line 1: " + ONLY_LAST % 2], "a part of a record before another record")
check(errors_of("raw 07 00\nraw 01\n"), ["line 1: " + ONLY_LAST % 2], "two parts of a record")
check(errors_of("raw 07 00\n# the end\n\n"), None, "a part of a record before comments")
check(errors_of("send x\nsend\nread cxr\n"),
      ["line 1: expected %s, found 'x'" % SENDS, "line 3: expected %s, found 'cxr'" % AN_ADDRESS], "two bad lines")

# ---- round trips ----

numbers = random.Random(4737)


def plausible_record():
    """A record close to a legal one, so that every branch of the text is met."""
    kind = numbers.choice((0, 1, 1, 1, 2, 2, 3, 4, 5, 6, 6, 6, 7, 9, 255))
    address = numbers.choice((0, 0, numbers.randrange(256), numbers.randrange(96, 128), numbers.randrange(48)))
    lines = numbers.choice((0, 0, 0, 1 << numbers.randrange(8), numbers.randrange(256)))
    zero = numbers.choice((0, 0, 0, 0, 0, 0, 0, 0, 0, 1, 128))
    data = numbers.choice((0, 0, 0, 1, numbers.randrange(20), 0xFFFF, 0x10000, 2**32 - 1, 2**32, 2**64 - 1,
                           numbers.getrandbits(numbers.randrange(1, 65))))
    if kind in (0, 3, 4, 5, 6) and numbers.random() < 0.7:
        address = lines = 0
    return script.RECORD.pack(kind, address, lines, zero, data)


round_trips = 0
for turn in range(2000):
    if turn % 4 == 0:
        records = numbers.randbytes(numbers.randrange(0, 121))
    else:
        records = b"".join(plausible_record() for _ in range(numbers.randrange(20)))
        if turn % 4 == 1:
            records += plausible_record()[:numbers.randrange(12)]
        if turn % 4 == 2:
            records += script.RECORD.pack(6, 0, 0, 0, 0) * numbers.randrange(200)
    text = script.unpack(records)
    check(script.pack(text), records, "round trip of %s" % records.hex())
    check(script.unpack(script.pack(text)), text, "the text of a round trip stays the same")
    round_trips += len(records) // 12
for kind in range(8):
    for address in range(256):
        for lines in (0, 1, 6, 128):
            for data in (0, 1, 2, 0x10000, 2**64 - 1):
                record = script.RECORD.pack(kind, address, lines, 0, data)
                check(script.pack(script.unpack(record)), record, "round trip of %s" % record.hex())
                round_trips += 1
print("%d records went there and back" % round_trips)

# ---- text beside answers ----

table, message = script.show("# Listing B\n\n" + LISTING_B_TEXT, LISTING_B_ANSWERS)
check(message, None, "Listing B has an answer for each record")
check(table, """\
line  reply  value  meaning                  script
   1                                         # Listing B
   2
   3      0      0  done, or sample taken    write csr 0x1
   4      0      0  done, or sample taken    write filter 0x1
   5      0      0  done, or sample taken    write source0 5
   6      0      0  done, or sample taken    ticks 3
   7      0      0  done, or sample taken    trigger trace0 258 line 0
   8      0    256  done, or sample taken    send 2
   8      0    261  done, or sample taken      word 2 of 2
   9      7      0  filtered                 trigger trace1 line 0
  10      0      3  done, or sample taken    read timestamp
  11      2      0  nothing at this address  read 3
""", "Listing B beside its answers")

TABLE_MEANINGS = """\
0 done, or sample taken
1 address above 127
2 nothing at this address
3 write of a read-only or read of a write-only address
4 trigger without exactly one active processor line
5 no word to send (single send)
6 sampling is off
7 filtered
8 lost
9 bad bench record (bench only)
10 wait and try again
11 shadows busy, not waiting
15 record outside its bounds (any operation but hardware reset)
12 not a number of the reply table
"""
for row in TABLE_MEANINGS.splitlines():
    reply, meaning = row.split(" ", 1)
    table, message = script.show("send\n", "answer value\n%s 9223372036854775808\n" % reply)
    check(table.splitlines()[1].split(), ["1", reply, "9223372036854775808", *meaning.split(), "send"],
          "meaning of reply " + reply)

table, message = script.show("send 3\nraw 07\n", "answer value\n5 0\n5 0\n")
check(message, "expected 4 answers for the records of the text, found 2", "too few answers")
check(table, """\
line  reply  value  meaning                        script
   1      5      0  no word to send (single send)  send 3
   1      5      0  no word to send (single send)    word 2 of 3
   1      -      -  no answer                        word 3 of 3
   2      -      -  no answer                      raw 07
""", "too few answers, the table")
check(script.show("send\n", "answer value\n5 0\n5 0\n")[1],
      "expected 1 answers for the records of the text, found 2", "too many answers")
check(script.show("", "answer value\n"), ("line  reply  value  meaning  script\n", None),
      "nothing asked, nothing answered")

BAD_ANSWERS = [
    ("", "answers, line 1: expected the heading 'answer value', found nothing"),
    ("0 0\n", "answers, line 1: expected the heading 'answer value', found '0 0'"),
    ("answer value\n0\n", "answers, line 2: expected a reply, a space and a value, found '0'"),
    ("answer value\n0 0\n0  0\n", "answers, line 3: expected a reply, a space and a value, found '0  0'"),
]
for answers, expected in BAD_ANSWERS:
    try:
        found = script.show("send\n", answers)
    except script.BadInput as bad:
        found = bad.args[0]
    check(found, expected, "message for the answers %r" % answers)

# ---- the tool as a command ----

listing = os.path.join(EXAMPLES, "listing-b.txt")
with open(listing, "rb") as file:
    listing_text = file.read()
check(run(["pack", listing]), (0, LISTING_B, ""), "pack a file")
check(run(["pack"], listing_text), (0, LISTING_B, ""), "pack standard input")
check(run(["pack", "-"], listing_text.replace(b"\n", b"\r\n")), (0, LISTING_B, ""), "pack lines that end as elsewhere")
check(run(["pack", "-"], b"\xef\xbb\xbf" + listing_text), (0, LISTING_B, ""), "pack a text with a byte order mark")
check(run(["unpack"], LISTING_B), (0, LISTING_B_TEXT.encode(), ""), "unpack standard input")
check(run(["pack"], b"send\nsend\nsend\nsend\nsend\nsend\nread cxr\n"),
      (1, b"", "line 7: expected %s, found 'cxr'\n" % AN_ADDRESS), "bad text as a command")
status, output, errors = run(["show", listing, "-"], LISTING_B_ANSWERS.encode())
check((status, errors), (0, ""), "show as a command")
check(output.decode(), script.show(listing_text.decode(), LISTING_B_ANSWERS)[0], "show's table as a command")
status, output, errors = run(["show", listing, "-"], b"answer value\n0 0\n")
check((status, errors), (1, "expected 10 answers for the records of the text, found 1\n"), "show with too few answers")
check(output.count(b"no answer"), 9, "show with too few answers still shows the rest")
status, output, errors = run(["show", "-", listing], b"read cxr\n")
check((status, output), (1, b""), "show with bad text")
status, output, errors = run(["pack", os.path.join(EXAMPLES, "no-such-file.txt")])
check((status, output, errors.endswith("no-such-file.txt: No such file or directory\n")), (1, b"", True),
      "no such file")
for arguments in ([], ["pakc"], ["pack", "a", "b"], ["show", "a"], ["show", "-", "-"]):
    status, output, errors = run(arguments)
    check((status, output, errors.startswith("usage: ")), (2, b"", True), "usage for %r" % arguments)
check(run(["help"])[1].decode(), script.__doc__.strip() + "\n", "help")

print("script tool: %d checks passed" % passed)
