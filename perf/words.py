#!/usr/bin/env python3
"""Time the writer, the reader and the queue's sends by themselves, in nanoseconds and instructions a word, for one or more trees.

    perf/words.py [NAME=TREE ..]

TREE is a checkout of this repository; without any it is the one that the script stands in, named "now". The program perf/words.rt.txt is
built over a copy of each tree's code, and the programs run in turn, nine times each, so that before and after are of one run. A tree whose
reader gives no place yet is asked for the count a second time, which is the same number. The least time of each counts, less that of a
run of a few turns, and callgrind's instructions likewise where valgrind is there: start-up counts in neither. The compiler is told to keep
each of the four a function of its own, so that the program around them doesn't change the figures. The script ends where the programs
don't give the same words and the same sum. perf/trial.py builds and times. It needs rt and gcc.

These builds are NOT PROVED and are no verdict of any kind: they are made by the kit's front end and its compiler at -O3 with no proof,
so that a form can be timed before it is proved. The verdict is `rt ci`.
"""

import struct
import subprocess
import sys
import tempfile

sys.dont_write_bytecode = True
from measure import ROOT, processor  # noqa: E402
from trial import Program, Work, build, cells, figures, head_cells, named_trees  # noqa: E402

# What is measured, how the program is told, and the words of a turn.
WORK = (
    ("write, Trace", b"WT", 64 * 16),
    ("write, Resource", b"WR", 64 * 80),
    ("read, Trace", b"RT", 64 * 16),
    ("read, Resource", b"RR", 64 * 80),
    ("buffer send, eight Trace", b"ST", 8 * 16),
    ("buffer send, one Resource and seven Trace", b"SR", 80 + 7 * 16),
    ("single sends, eight Trace", b"OT", 8 * 16),
)
FEW_TURNS = 10
# The words beyond the few turns: 3 * 64 * 80 are whole turns of every work.
TIMED = 2000 * 3 * 64 * 80
COUNTED = 32 * 3 * 64 * 80


def text_for(tree):
    """The program's text for a tree: where the reader gives no place, the count stands for it."""
    with open(f"{ROOT}/perf/words.rt.txt", encoding="utf-8") as file, open(f"{tree}/crates/samples/src/reader.rt", encoding="utf-8") as reader:
        return file.read() if "pub place:" in reader.read() else file.read().replace("answer.place", "answer.count")


PROGRAM = Program("words_timing", "samples queue io libc", text_for, ("write_all", "read_all", "send_all", "send_each"))


def given(folder, mode, turns):
    """A file with the program's input: so many turns beyond the few."""
    path = f"{folder}/{mode.decode()}{turns}"
    with open(path, "wb") as file:
        file.write(mode + struct.pack("<I", FEW_TURNS + turns)[:3])
    return path


def check(programs, folder):
    """Ends the script where a program has other words than it should, or another sum than the first one."""
    for work, mode, words in WORK:
        first = None
        for name, program in programs:
            with open(given(folder, mode, TIMED // words), "rb") as file:
                said = subprocess.run([program], stdin=file, stdout=subprocess.PIPE, check=True).stdout
            count, total = struct.unpack("<QQ", said)
            first = total if first is None else first
            if (count, total) != (FEW_TURNS * words + TIMED, first):
                sys.exit(f"{work}: {name} has {count} words and the sum {total}, not {FEW_TURNS * words + TIMED} and {first}")


def main():
    trees = named_trees(sys.argv[1:]) or sys.exit(__doc__)
    print(f"machine: {processor()}; builds without proof, no verdict", flush=True)
    with tempfile.TemporaryDirectory() as folder:
        programs = [(name, build(PROGRAM, tree, f"{folder}/{at}")) for at, (name, tree) in enumerate(trees)]
        check(programs, folder)
        works = []
        for _, mode, words in WORK:
            few, timed, counted = (given(folder, mode, total // words) for total in (0, TIMED, COUNTED))
            works.append(Work(few, timed, TIMED, counted, COUNTED))
        print("| Work | " + " | ".join(head_cells(programs)) + " |")
        print("|---" * (2 * len(programs) + 1) + "|")
        for (work, _, _), row in zip(WORK, figures(programs, works, folder)):
            print(f"| {work} | " + " | ".join(cells(row)) + " |", flush=True)


if __name__ == "__main__":
    main()
