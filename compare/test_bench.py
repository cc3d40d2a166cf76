#!/usr/bin/env python3
"""Talk to the bench through pipes, as an emulator would, and hold its errors and its exit status to what is said of them.

    compare/test_bench.py

A part of a record waits for its rest, whole records are answered at once, and an input that comes in pieces gives the output
of the whole. The last line tells how many checks passed; the exit status is 1 if one failed.
"""

import os
import random
import select
import signal
import struct
import subprocess
import sys
import tempfile
import time

ROOT = os.path.dirname(os.path.dirname(os.path.abspath(__file__)))
BENCH = os.path.join(ROOT, "run-bench")
SIGNALS = (signal.SIGTERM, signal.SIGINT, signal.SIGHUP)
LONG, SHORT = 60, 0.3  # seconds: to wait for what must come, and to see that nothing comes

passed = 0


def check(found, expected, about):
    """Count one check; stop with a message where it fails."""
    global passed
    if found != expected:
        print("FAILED: %s\n  expected %r\n  found    %r" % (about, expected, found))
        sys.exit(1)
    passed += 1


def record(kind, address=0, lines=0, data=0, fourth=0):
    return struct.pack("<BBBBQ", kind, address, lines, fourth, data)


def records(count, seed):
    """A script that takes and sends samples, with a bad record now and then."""
    chance = random.Random(seed)
    out = [record(1, 1, 0, 1), record(1, 4, 0, 0xFFFF)]
    while len(out) < count:
        trigger = record(1, 96, 1, chance.getrandbits(64))
        out.append(chance.choice((trigger, record(6), record(6), record(3, 0, 0, 7), record(2, 2), record(9))))
    return b"".join(out)


def whole(data):
    """The bench's output on a file that holds all of an input."""
    with tempfile.TemporaryFile() as file:
        file.write(data)
        file.seek(0)
        done = subprocess.run([BENCH], stdin=file, stdout=subprocess.PIPE, stderr=subprocess.PIPE, timeout=LONG)
    check((done.returncode, done.stderr), (0, b""), "a run that fails nowhere has status 0 and says nothing")
    return done.stdout


def heed_signals():
    """What a shell starts in the background ignores SIGINT, and so would this program's bench: the test is of one that doesn't."""
    for number in SIGNALS:
        signal.signal(number, signal.SIG_DFL)


class Talk:
    """A bench that runs beside this program."""

    def __init__(self):
        pipe = subprocess.PIPE
        self.run = subprocess.Popen([BENCH], stdin=pipe, stdout=pipe, stderr=pipe, bufsize=0, preexec_fn=heed_signals)
        self.text = b""

    def send(self, data):
        while data:
            data = data[self.run.stdin.write(data) :]

    def comes(self, seconds):
        """Whether a part of the output, or its end, comes within so many seconds; a part is kept."""
        if not select.select([self.run.stdout], [], [], seconds)[0]:
            return False
        part = os.read(self.run.stdout.fileno(), 65536)
        self.text += part
        return bool(part)

    def lines(self, count):
        """How many lines there are, once there are so many or no more come."""
        end = time.monotonic() + LONG
        while self.text.count(b"\n") < count and self.comes(max(0, end - time.monotonic())):
            pass
        return self.text.count(b"\n")

    def end(self):
        """The whole output, the exit status and standard error, after the end of the input."""
        self.run.stdin.close()
        while self.comes(LONG):
            pass
        return self.text, self.run.wait(LONG), self.run.stderr.read()


def test_talk():
    data = records(10, 1)[: 12 * 4 + 5]
    talk = Talk()
    check(talk.lines(1), 1, "the heading comes before any record")
    talk.send(data[:5])
    check(talk.comes(SHORT), False, "five bytes of a record are not answered")
    talk.send(data[5:12])
    check(talk.lines(2), 2, "a record is answered when its last seven bytes have come")
    talk.send(data[12 : 12 + 30])
    check(talk.lines(4), 4, "of two records and a half, two are answered")
    check(talk.comes(SHORT), False, "and half a record waits")
    talk.send(data[42:48])
    check(talk.lines(5), 5, "until its rest comes")
    talk.send(data[48:])
    check(talk.comes(SHORT), False, "a part of a record waits")
    text, status, said = talk.end()
    check(text.endswith(b"\n9 0\n"), True, "and is answered with 9 at the end of the input")
    check((text, status, said), (whole(data), 0, b""), "pieces of an input give the output of the whole")


def test_pieces():
    for seed in range(5):
        chance = random.Random(seed)
        data = records(400, seed)[: 12 * 399 + chance.randrange(13)]
        talk, sent = Talk(), 0
        while sent < len(data):
            piece = data[sent : sent + chance.choice((1, 3, 11, 12, 13, 100, 1000))]
            talk.send(piece)
            sent += len(piece)
            check(talk.lines(1 + sent // 12), 1 + sent // 12, "seed %d: the whole records of %d bytes are answered" % (seed, sent))
        check(talk.end(), (whole(data), 0, b""), "seed %d: pieces give the output of the whole" % seed)


def test_long():
    # More than two buffers of 4,096 records, through a pipe in pieces that no record fits.
    data = records(10000, 7) + b"\x06"
    piped = subprocess.run([BENCH], input=data, stdout=subprocess.PIPE, stderr=subprocess.PIPE, timeout=LONG)
    check(piped.stdout.count(b"\n"), 10002, "a heading, a line for each record, and one for the last part")
    check(piped.stdout, whole(data), "a pipe gives the output of a file")
    check((piped.returncode, piped.stderr), (0, b""), "a pipe that fails nowhere has status 0 and says nothing")


def failed(command):
    """The status and standard error of a shell command in which @ stands for the bench."""
    done = subprocess.run(["bash", "-c", command.replace("@", BENCH)], stdout=subprocess.PIPE, stderr=subprocess.PIPE, timeout=LONG)
    return done.returncode, done.stderr


def test_errors():
    full = (1, b"bench: write: No space left on device\n")
    check(failed("@ </dev/null >/dev/full"), full, "a heading that can't be written")
    check(failed("head -c 1200000 /dev/zero | @ >/dev/full"), full, "a full disk, with the input from a pipe")
    check(failed("@ </"), (1, b"bench: read: Is a directory\n"), "an input that can't be read")
    check(failed("@ <&-"), (1, b"run-bench: file descriptor 0 is closed\n"), "no standard input")
    check(failed("@ </dev/null >&-"), (1, b"run-bench: file descriptor 1 is closed\n"), "no standard output")
    small = "out=$(mktemp); trap 'rm $out' EXIT; trap '' XFSZ; ulimit -f 1; head -c 120000 /dev/zero | @ >$out"
    check(failed(small), (1, b"bench: write: File too large\n"), "a file that may grow no more: its text is cut, and that is said")


def test_signals():
    for number in SIGNALS:
        talk = Talk()
        check(talk.lines(1), 1, "the heading comes")
        talk.run.send_signal(number)
        while talk.comes(LONG):
            pass
        check(talk.run.wait(LONG) in (-number, 128 + number, 143), True, "signal %d ends the bench though its input goes on" % number)
        talk.run.stdin.close()


def main():
    # The first run builds the bench if it has to.
    subprocess.run([BENCH], stdin=subprocess.DEVNULL, stdout=subprocess.DEVNULL, check=True)
    for test in (test_talk, test_pieces, test_long, test_errors, test_signals):
        test()
    print("%d checks passed" % passed)


if __name__ == "__main__":
    main()
