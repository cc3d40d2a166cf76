#!/usr/bin/env python3
"""Run the examples of the MultiKron II, examples/second/*.txt, and hold each answer to the one that stands beside it.

    compare/examples2.py [PROGRAM]

PROGRAM takes 16-byte records and prints their lines; without it, the
repository's chip2_run. Each line of an example is an operation, an equals sign
and the whole line that the program must print, with a comment behind `#`:

    write ADDRESS DATA [lines L]   read ADDRESS   send   reset
    ticks COUNT [high MASK]   nodes COUNT [high MASK]   events MASK   fill PLACES

Numbers are decimal or, behind 0x, hexadecimal. WORDS in an answer stands for
as many numbers as the answer's value says, whatever they are. The answers were
worked out from the papers before any program was run.
"""

import glob
import os
import subprocess
import sys

ROOT = os.path.dirname(os.path.dirname(os.path.abspath(__file__)))
KINDS = {"reset": 0, "write": 1, "read": 2, "ticks": 3, "nodes": 4, "events": 5, "send": 6, "fill": 7}


def record(words):
    """The 16 bytes of an operation."""
    words = list(words)
    options = {}
    for name in ("lines", "high"):
        if name in words:
            at = words.index(name)
            options[name] = int(words[at + 1], 0)
            del words[at : at + 2]
    kind, numbers = words[0], [int(word, 0) for word in words[1:]]
    address = numbers.pop(0) if kind in ("write", "read") else 0
    data = numbers.pop(0) if numbers else 0
    assert not numbers, words
    return bytes([KINDS[kind], address, options.get("lines", 0), 0]) + options.get("high", 0).to_bytes(2, "little") + bytes(2) + data.to_bytes(8, "little")


def fits(line, wanted):
    """Whether a line is the answer that is wanted."""
    have, want = line.split(" "), wanted.split()
    if want[-1:] == ["WORDS"]:
        return have[:2] == want[:2] and len(have) == 2 + int(want[1])
    return have == want


def main():
    program = sys.argv[1:] or [os.path.join(ROOT, "compare", "run-chip2")]
    checked = 0
    for path in sorted(glob.glob(os.path.join(ROOT, "examples", "second", "*.txt"))):
        with open(path, encoding="utf-8") as file:
            steps = [(number, line.split("#")[0].strip()) for number, line in enumerate(file, 1)]
        steps = [(number, *line.split(" = ")) for number, line in steps if line]
        data = b"".join(record(operation.split()) for _, operation, _ in steps)
        done = subprocess.run(program, input=data, stdout=subprocess.PIPE, check=True)
        lines = done.stdout.decode().split("\n")
        if lines[0] != "answer value" or len(lines) != len(steps) + 2:
            sys.exit(f"examples2: {os.path.basename(path)}: {len(lines) - 2} lines for {len(steps)} operations")
        for (number, operation, wanted), line in zip(steps, lines[1:]):
            if not fits(line, wanted):
                sys.exit(f"examples2: {os.path.basename(path)}:{number}: {operation}: {line!r}, not {wanted!r}")
            checked += 1
    print(f"examples2: {checked} answers as they stand beside their operations")


main()
