#!/usr/bin/env python3
"""Compare a program and its twin byte by byte on record files made from seeds.

    compare/compare.py [second] [FIRST [SEEDS [COUNT]]]

Runs bench and twin, or with `second` the MultiKron II's chip2_run and its twin,
on the files of SEEDS seeds from FIRST on, COUNT records each, and says how many
records were the same. Without numbers: seeds 0 to 63, 32,768 records each,
which is what the gate compares; other seeds are other files. A difference ends
it with status 1, the seed, the line and both answers. It needs rustc for the
twin; the bench is built by run-bench if need be, chip2_run by
compare/run-chip2.
"""

import concurrent.futures
import os
import subprocess
import sys
import tempfile

ROOT = os.path.dirname(os.path.dirname(os.path.abspath(__file__)))
# For each edition: the program's name, how it is run, its twin, the generator of its records and their size.
FIRST = ("bench", ["./run-bench"], "twin/main.rs", "compare/generate.py", 12)
SECOND = ("chip2_run", ["compare/run-chip2"], "twin2/main.rs", "compare/generate2.py", 16)


def output(command, data=b""):
    """What a command writes, given data on standard input; a failure of its own ends the comparison."""
    done = subprocess.run(command, input=data, stdout=subprocess.PIPE, cwd=ROOT)
    if done.returncode != 0:
        sys.exit(f"compare: {command[0]} ended with status {done.returncode}")
    return done.stdout


def first_difference(ours, theirs):
    """The number of the first line that differs, counted from 1, and both lines."""
    left, right = ours.split(b"\n"), theirs.split(b"\n")
    for place in range(max(len(left), len(right))):
        one = left[place] if place < len(left) else b"(no line)"
        two = right[place] if place < len(right) else b"(no line)"
        if one != two:
            return place + 1, one.decode(), two.decode()
    return None


def compare(seed, count, edition, twin):
    name, program, _, generator, size = edition
    records = output([sys.executable, generator, str(seed), str(count)])
    ours = output(program, records)
    theirs = output([twin], records)
    if ours == theirs:
        return len(records) // size, None
    line, one, two = first_difference(ours, theirs)
    return 0, f"compare: seed {seed}, {count} records, line {line} of the output: {name} {one!r}, twin {two!r}"


def main():
    given = sys.argv[1:]
    edition = SECOND if given[:1] == ["second"] else FIRST
    given = given[1:] if edition is SECOND else given
    words = [int(word) for word in given] + [0, 64, 32768][len(given) :]
    if len(words) != 3:
        sys.exit(__doc__)
    first, seeds, count = words
    name, program, source, _, _ = edition
    with tempfile.TemporaryDirectory() as folder:
        twin = os.path.join(folder, "twin")
        output(["rustc", "--edition", "2021", "-O", "-o", twin, source])
        # The program is run once, and so built if need be, before it is run twice at a time.
        output(program)
        with concurrent.futures.ThreadPoolExecutor(2) as pool:
            results = list(pool.map(lambda seed: compare(seed, count, edition, twin), range(first, first + seeds)))
    differences = [said for _, said in results if said]
    for said in differences:
        print(said)
    if differences:
        sys.exit(1)
    print(f"compare: {name} and twin agree on {sum(same for same, _ in results)} records, seeds {first} to {first + seeds - 1}")


main()
