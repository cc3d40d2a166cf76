#!/usr/bin/env python3
"""Turn a plain text script into the bench program's 12-byte records and back.

    tools/script.py pack [FILE]          text to records, on standard output
    tools/script.py unpack [FILE]        records to text, on standard output
    tools/script.py show TEXT ANSWERS    each line of the text beside its answer

FILE, TEXT or ANSWERS may be `-` for standard input; a FILE left out means the
same. ANSWERS is what the bench program wrote for the records of TEXT.

The text has one operation to a line. `#` starts a comment that runs to the end
of the line, and blank lines are ignored. Capital letters count as small ones.

    reset [SPEED]                    hardware reset; SPEED left out is tenth
    write ADDRESS [DATA] [LINES]     write; DATA left out is 0
    read ADDRESS                     read
    trigger ADDRESS [DATA] LINES     write to an address from 96 to 127
    ticks COUNT                      Timestamp ticks, 0 to 4294967295
    node COUNT                       node ticks, 0 to 4294967295
    events MASK                      external events, 0 to 65535
    send [TIMES]                     send one word, TIMES times, 1 to 1000000
    raw BYTE ...                     the 12 bytes of a record as they are

SPEED is the slow clock's, until the next hardware reset: `tenth` or `hundredth`
of the Timestamp clock.

After either reset write wait is set, as on a fresh chip: a script that wants
lost triggers writes CSR bit 3 first, as `write csr 9` does.

LINES is `line N [N ...]`, each N a line from 0 to 7, or `lines MASK` with the
whole byte: `line 0` and `lines 1` are the same, and so are `line 0 2` and
`lines 5`. A write without LINES has the lines byte 0.

Numbers are decimal or hexadecimal after 0x, with `_` allowed between digits.
The bytes of `raw` are two hexadecimal digits each, without 0x. `raw` with
fewer than 12 bytes makes a last part of a record, so it must come last.

ADDRESS is a number from 0 to 255 or one of these names:

    softreset 0    csr 1    timestamp 2    filter 4    wait 5    overrun 6
    mux 8    clear 10    enable 11    disable 12    source0..source7 16..23
    counter0..counter15 32..47    trace0..trace15 96..111
    resource0..resource15 112..127

Other spellings: `reset tenth` for `reset` alone, `hardreset` for reset, before
a SPEED too, `softreset` alone for `write softreset`, `tick` for ticks, `nodes`
for node, `event` for events, `muxsel` for mux.

Bad text gives a message for each bad line on standard error, exit status 1 and
nothing on standard output.
"""

import os
import re
import struct
import sys

# Kind, address, lines, zero byte, data; low byte first.
RECORD = struct.Struct("<BBBBQ")
RECORD_LENGTH = RECORD.size

KIND_RESET, KIND_WRITE, KIND_READ, KIND_TICKS, KIND_NODE, KIND_EVENTS, KIND_SEND = range(7)

# The data of a hardware reset for each speed of the slow clock.
DATA_OF_SPEED = {"tenth": 0, "hundredth": 1}

MOST_DATA = 2**64 - 1
MOST_TICKS = 2**32 - 1
MOST_EVENTS = 2**16 - 1
MOST_SENDS = 1_000_000

FIRST_TRIGGER, LAST_TRIGGER = 96, 127

# The reply numbers and their meanings, in the words of document 01's table.
MEANINGS = {
    0: "done, or sample taken",
    1: "address above 127",
    2: "nothing at this address",
    3: "write of a read-only or read of a write-only address",
    4: "trigger without exactly one active processor line",
    5: "no word to send (single send)",
    6: "sampling is off",
    7: "filtered",
    8: "lost",
    9: "bad bench record (bench only)",
    10: "wait and try again",
    11: "shadows busy, not waiting",
    15: "record outside its bounds (any operation but hardware reset)",
}
UNKNOWN_MEANING = "not a number of the reply table"

HEADING = "answer value"


def address_names():
    """The address of every name."""
    names = {
        "softreset": 0, "csr": 1, "timestamp": 2, "filter": 4, "wait": 5, "overrun": 6,
        "mux": 8, "clear": 10, "enable": 11, "disable": 12,
    }
    for start, name, amount in ((16, "source", 8), (32, "counter", 16), (96, "trace", 16), (112, "resource", 16)):
        for index in range(amount):
            names[name + str(index)] = start + index
    return names


ADDRESS_OF_NAME = address_names()
NAME_OF_ADDRESS = {address: name for name, address in ADDRESS_OF_NAME.items()}
ADDRESS_OF_NAME["muxsel"] = ADDRESS_OF_NAME["mux"]

# Registers whose data is best read as a set of bits.
BIT_SETS = frozenset(ADDRESS_OF_NAME[name] for name in ("csr", "filter", "mux", "clear", "enable", "disable"))
# Addresses where a write's data is ignored, so that a zero need not be written out.
DATA_IGNORED = frozenset([0, 5, 6, *range(32, 48)])

OTHER_SPELLINGS = {"hardreset": "reset", "tick": "ticks", "nodes": "node", "event": "events"}


class BadInput(Exception):
    """Input that cannot be used; each argument is one message."""


class BadLine(Exception):
    """A line of text that is not an operation: what was expected and what was found."""

    def __init__(self, expected, found):
        super().__init__("expected %s, found %s" % (expected, found))


# ---- text to records ----

NUMBER = re.compile(r"0x(?:_?[0-9a-f])+|[0-9](?:_?[0-9])*")
RAW_BYTE = re.compile(r"[0-9a-f]{2}")
END_OF_LINE = "the end of the line"


def quoted(word):
    """A word as it stands in a message, shortened if it is long."""
    return repr(word if len(word) <= 40 else word[:37] + "...")


def number_in(word):
    """The number a word stands for, or None if it is not a number."""
    # A hundred digits are far more than any number here needs.
    if word is None or len(word) > 100 or not NUMBER.fullmatch(word):
        return None
    digits = word.replace("_", "")
    return int(digits[2:], 16) if digits.startswith("0x") else int(digits)


class Words:
    """The words of one line, taken from left to right."""

    def __init__(self, words):
        self.words = words
        self.place = 0

    def peek(self):
        """The next word in small letters, or None at the end of the line."""
        return self.words[self.place].lower() if self.place < len(self.words) else None

    def take(self):
        word = self.peek()
        self.place += 1
        return word

    def found(self):
        """The word last taken, as it was typed."""
        return quoted(self.words[self.place - 1]) if self.place <= len(self.words) else END_OF_LINE

    def take_number(self, what, most, least=0):
        number = number_in(self.take())
        if number is None or not least <= number <= most:
            raise BadLine(what, self.found())
        return number

    def expect_end(self):
        if self.take() is not None:
            raise BadLine(END_OF_LINE, self.found())


def take_address(words):
    word = words.take()
    address = ADDRESS_OF_NAME.get(word, number_in(word))
    if address is None or address > 255:
        raise BadLine("an address (a number from 0 to 255 or a name such as csr)", words.found())
    return address


def take_trigger_address(words):
    word = words.take()
    address = ADDRESS_OF_NAME.get(word, number_in(word))
    if address is None or not FIRST_TRIGGER <= address <= LAST_TRIGGER:
        raise BadLine("a trigger's address (a number from 96 to 127 or a name such as trace0 or resource15)",
                      words.found())
    return address


def take_data(words):
    """Data, or 0 where the line goes on with its processor lines or ends."""
    if words.peek() in (None, "line", "lines"):
        return 0
    return words.take_number("data (a number from 0 to 18446744073709551615), 'line' or 'lines'", MOST_DATA)


def take_lines(words):
    """The lines byte from `line N [N ...]` or `lines MASK`."""
    word = words.take()
    if word == "lines":
        return words.take_number("a mask of processor lines (a number from 0 to 255)", 255)
    if word != "line":
        raise BadLine("'line' or 'lines'", words.found())
    mask = 1 << words.take_number("a processor line (a number from 0 to 7)", 7)
    while words.peek() is not None:
        bit = 1 << words.take_number("a processor line (a number from 0 to 7)", 7)
        if mask & bit:
            raise BadLine("each processor line once", words.found() + " again")
        mask |= bit
    return mask


def take_speed(words):
    """The data for a speed of the slow clock, or for the tenth where the line ends."""
    word = words.take()
    if word is None:
        return DATA_OF_SPEED["tenth"]
    if word not in DATA_OF_SPEED:
        raise BadLine("'tenth', 'hundredth' or " + END_OF_LINE, words.found())
    return DATA_OF_SPEED[word]


def parse_reset(words):
    return RECORD.pack(KIND_RESET, 0, 0, 0, take_speed(words))


def parse_softreset(words):
    return RECORD.pack(KIND_WRITE, ADDRESS_OF_NAME["softreset"], 0, 0, 0)


def parse_write(words):
    address = take_address(words)
    data = take_data(words)
    lines = take_lines(words) if words.peek() is not None else 0
    return RECORD.pack(KIND_WRITE, address, lines, 0, data)


def parse_read(words):
    return RECORD.pack(KIND_READ, take_address(words), 0, 0, 0)


def parse_trigger(words):
    address = take_trigger_address(words)
    data = take_data(words)
    return RECORD.pack(KIND_WRITE, address, take_lines(words), 0, data)


def parse_ticks(words):
    count = words.take_number("a count of Timestamp ticks (a number from 0 to 4294967295)", MOST_TICKS)
    return RECORD.pack(KIND_TICKS, 0, 0, 0, count)


def parse_node(words):
    count = words.take_number("a count of node ticks (a number from 0 to 4294967295)", MOST_TICKS)
    return RECORD.pack(KIND_NODE, 0, 0, 0, count)


def parse_events(words):
    mask = words.take_number("a mask of external events (a number from 0 to 65535)", MOST_EVENTS)
    return RECORD.pack(KIND_EVENTS, 0, 0, 0, mask)


def parse_send(words):
    times = 1
    if words.peek() is not None:
        times = words.take_number("how many words to send (a number from 1 to 1000000)", MOST_SENDS, least=1)
    return RECORD.pack(KIND_SEND, 0, 0, 0, 0) * times


def parse_raw(words):
    record = bytearray()
    while words.peek() is not None or not record:
        word = words.take()
        if word is None or not RAW_BYTE.fullmatch(word):
            raise BadLine("a byte of two hexadecimal digits such as 0f", words.found())
        record.append(int(word, 16))
    if len(record) > RECORD_LENGTH:
        raise BadLine("at most 12 bytes", "%d" % len(record))
    return bytes(record)


PARSERS = {
    "reset": parse_reset, "softreset": parse_softreset, "write": parse_write, "read": parse_read,
    "trigger": parse_trigger, "ticks": parse_ticks, "node": parse_node, "events": parse_events,
    "send": parse_send, "raw": parse_raw,
}
OPERATIONS = "an operation (reset, write, read, trigger, ticks, node, events, send or raw)"


def parse_line(line):
    """The records of one line of text: empty bytes where it holds no operation."""
    words = Words(line.split("#", 1)[0].split())
    operation = words.take()
    if operation is None:
        return b""
    parser = PARSERS.get(OTHER_SPELLINGS.get(operation, operation))
    if parser is None:
        raise BadLine(OPERATIONS, words.found())
    records = parser(words)
    words.expect_end()
    return records


def text_lines(text):
    """The lines of a text, cut at line feeds alone so that the numbers match an editor's."""
    lines = [line.rstrip("\r") for line in text.split("\n")]
    if lines[-1] == "":
        lines.pop()
    return lines


def parse_script(text):
    """The records of each line, in order; BadInput tells of every bad line."""
    messages = []
    parts = []
    part_of_record = None  # number and length of a line that holds less than a record
    for number, line in enumerate(text_lines(text), 1):
        try:
            records = parse_line(line)
        except BadLine as bad:
            messages.append("line %d: %s" % (number, bad))
            records = b""
        if records and part_of_record:
            messages.append("line %d: expected 12 bytes, as only the last operation may be a part of a record, found %d"
                            % part_of_record)
            part_of_record = None
        if len(records) % RECORD_LENGTH:
            part_of_record = (number, len(records))
        parts.append(records)
    if messages:
        raise BadInput(*messages)
    return parts


def pack(text):
    """The records of a text script."""
    return b"".join(parse_script(text))


# ---- records to text ----

def raw_text(record):
    return "raw " + " ".join("%02x" % byte for byte in record)


def data_text(address, data):
    if address in BIT_SETS or data > 0xFFFF:
        return "0x%x" % data
    return str(data)


def lines_text(lines):
    if lines and lines & (lines - 1) == 0:
        return "line %d" % (lines.bit_length() - 1)
    return "lines 0x%02x" % lines


def write_text(address, lines, data):
    trigger = FIRST_TRIGGER <= address <= LAST_TRIGGER
    words = ["trigger" if trigger else "write", NAME_OF_ADDRESS.get(address, str(address))]
    if data or not (trigger or address in DATA_IGNORED):
        words.append(data_text(address, data))
    if trigger or lines:
        words.append(lines_text(lines))
    return " ".join(words)


def record_text(record):
    """One record as a line of text that packs to the same bytes."""
    if len(record) != RECORD_LENGTH:
        return raw_text(record)
    kind, address, lines, zero, data = RECORD.unpack(record)
    if zero == 0:
        if kind == KIND_WRITE:
            return write_text(address, lines, data)
        if lines == 0:
            if kind == KIND_READ and data == 0:
                return "read " + NAME_OF_ADDRESS.get(address, str(address))
            if address == 0:
                if kind == KIND_RESET and data == DATA_OF_SPEED["tenth"]:
                    return "reset"
                if kind == KIND_RESET and data == DATA_OF_SPEED["hundredth"]:
                    return "reset hundredth"
                if kind == KIND_TICKS and data <= MOST_TICKS:
                    return "ticks %d" % data
                if kind == KIND_NODE and data <= MOST_TICKS:
                    return "node %d" % data
                if kind == KIND_EVENTS and data <= MOST_EVENTS:
                    return "events 0x%x" % data
                if kind == KIND_SEND and data == 0:
                    return "send"
    return raw_text(record)


def unpack(records):
    """The text script of any bytes: packing it gives the same bytes again."""
    lines = []
    sends = 0  # plain sends not yet written out
    for start in range(0, len(records), RECORD_LENGTH):
        line = record_text(records[start:start + RECORD_LENGTH])
        if line == "send" and sends < MOST_SENDS:
            sends += 1
            continue
        if sends:
            lines.append("send" if sends == 1 else "send %d" % sends)
            sends = 0
        if line == "send":
            sends = 1
        else:
            lines.append(line)
    if sends:
        lines.append("send" if sends == 1 else "send %d" % sends)
    return "".join(line + "\n" for line in lines)


# ---- text beside answers ----

ANSWER = re.compile(r"([0-9]{1,20}) ([0-9]{1,20})")


def parse_answers(text):
    """The reply and value of each answer, as the bench program wrote them."""
    lines = text_lines(text)
    if not lines or lines[0] != HEADING:
        raise BadInput("answers, line 1: expected the heading '%s', found %s"
                       % (HEADING, quoted(lines[0]) if lines else "nothing"))
    answers = []
    for number, line in enumerate(lines[1:], 2):
        match = ANSWER.fullmatch(line)
        if match is None:
            raise BadInput("answers, line %d: expected a reply, a space and a value, found %s" % (number, quoted(line)))
        answers.append((int(match.group(1)), int(match.group(2))))
    return answers


def show(text, answers_text):
    """A table of the text and its answers, and a message if their numbers differ (else None)."""
    parts = parse_script(text)
    answers = parse_answers(answers_text)
    rows = [("line", "reply", "value", "meaning", "script")]
    used = 0
    for number, (line, records) in enumerate(zip(text_lines(text), parts), 1):
        amount = -(-len(records) // RECORD_LENGTH)
        if amount == 0:
            rows.append((str(number), "", "", "", line))
        for turn in range(amount):
            if used < len(answers):
                reply, value = answers[used]
                answer = (str(reply), str(value), MEANINGS.get(reply, UNKNOWN_MEANING))
            else:
                answer = ("-", "-", "no answer")
            used += 1
            rows.append((str(number), *answer, line if turn == 0 else "  word %d of %d" % (turn + 1, amount)))
    widths = [max(len(row[column]) for row in rows) for column in range(4)]
    table = []
    for number, reply, value, meaning, line in rows:
        table.append("%s  %s  %s  %s  %s" % (number.rjust(widths[0]), reply.rjust(widths[1]), value.rjust(widths[2]),
                                             meaning.ljust(widths[3]), line))
    message = None
    if used != len(answers):
        message = "expected %d answers for the records of the text, found %d" % (used, len(answers))
    return "".join(row.rstrip() + "\n" for row in table), message


# ---- command line ----

def read_bytes(name):
    if name == "-":
        return sys.stdin.buffer.read()
    with open(name, "rb") as file:
        return file.read()


def read_text(name):
    # Bytes that are no text can only matter outside comments, where they are found and told of.
    return read_bytes(name).decode("utf-8-sig", errors="replace")


def write_out(data):
    try:
        sys.stdout.buffer.write(data)
        sys.stdout.buffer.flush()
    except BrokenPipeError:
        # The reader went away early, as `head` does: let the last flush at exit go nowhere.
        os.dup2(os.open(os.devnull, os.O_WRONLY), sys.stdout.fileno())


def main(arguments):
    command, names = (arguments[0], arguments[1:]) if arguments else ("", [])
    if command in ("help", "-h", "--help"):
        print(__doc__.strip())
        return 0
    try:
        if command == "pack" and len(names) <= 1:
            write_out(pack(read_text(names[0] if names else "-")))
            return 0
        if command == "unpack" and len(names) <= 1:
            write_out(unpack(read_bytes(names[0] if names else "-")).encode())
            return 0
        if command == "show" and len(names) == 2 and names != ["-", "-"]:
            table, message = show(read_text(names[0]), read_text(names[1]))
            write_out(table.encode())
            if message:
                raise BadInput(message)
            return 0
    except BadInput as bad:
        for message in bad.args:
            print(message, file=sys.stderr)
        return 1
    except OSError as problem:
        print("%s: %s" % (problem.filename or "input or output", problem.strerror), file=sys.stderr)
        return 1
    print("usage: script.py pack [FILE] | unpack [FILE] | show TEXT ANSWERS | help", file=sys.stderr)
    return 2


if __name__ == "__main__":
    sys.exit(main(sys.argv[1:]))
