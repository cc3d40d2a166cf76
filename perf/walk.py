#!/usr/bin/env python3
"""Time the walk over a capture beside a plain Rust program, in nanoseconds and instructions a word, or check that they answer alike.

    perf/walk.py [check [N]] [NAME=TREE ..]

TREE is a checkout of this repository; without any it is the one that the script stands in, named "now". The program perf/walk.rt.txt is
built over a copy of each tree's code, and perf/walk.rs, the plain one, by rustc. First all programs walk N small random captures, 2,000
unless given, and each capture that is timed; the script ends where they don't give the same numbers, and with check that is all.
The captures that are timed have about 65,000 words, undamaged and damaged; of two the first half is timed by itself, to show that the time
is linear. The programs run in turn, nine times each, and the least time of each counts, less that of a run of a few turns, and callgrind's
instructions likewise where valgrind is there: start-up counts in neither. The compilers are told to keep the walk over a whole capture a
function of its own. The last columns are each tree's time divided by the plain program's. It needs rt, gcc and rustc.

A program reads the edition (a byte), the turns (three bytes) and the capture's words (two bytes each), and prints the samples, gaps and
skipped words of all turns and a sum over all answers (eight bytes each), everything low byte first.

The builds of the trees are NOT PROVED and are no verdict of any kind (perf/trial.py). The verdict is `rt ci`.
"""

import itertools
import random
import struct
import subprocess
import sys
import tempfile

sys.dont_write_bytecode = True
from measure import ROOT, processor, seconds  # noqa: E402
from trial import Program, Work, build, cells, figures, head_cells, named_trees  # noqa: E402

WORDS = 65_000
FEW_TURNS = 10
COUNTED_TURNS = 10
MOST_TURNS = 2**24 - 1
RUN_SECONDS = 0.3
# A program that takes longer for a capture than this walks in a circle.
LIMIT_SECONDS = 20
CHECKS = 2000
SMALL = 300
SMALL_SEED, FIRST_SEED = 20, 21
# By edition, the bytes of the Timestamp and of the user data.
WIDTHS = {1: (5, 6), 2: (7, 8)}
TRACE, RESOURCE = (False,), (True,)
BOTH = TRACE + RESOURCE
END = 512


def text_for(_):
    """The program's text, the same for every tree."""
    with open(f"{ROOT}/perf/walk.rt.txt", encoding="utf-8") as file:
        return file.read()


PROGRAM = Program("walk_timing", "walk samples io libc", text_for, ("walked",))


def build_plain(path):
    subprocess.run(["rustc", "-O", "--edition", "2021", "-o", path, f"{ROOT}/perf/walk.rs"], check=True)
    return path


def even(number):
    return number.bit_count() % 2 == 0


def word(byte, end=False):
    """Data bits 0..7, parity bit 8 so that bits 0..8 have an odd number of ones, end mark bit 9."""
    return byte | even(byte) << 8 | end << 9


def sample(chance, edition, resource):
    """A sample with random fields as words: header, Source Address, Timestamp, user data, counters if any."""
    stamp, user = WIDTHS[edition]
    header = chance.randrange(32) & ~8 | resource << 3
    data = bytes([header]) + chance.randbytes(4 + stamp + user + 64 * resource)
    return [word(byte) for byte in data[:-1]] + [word(data[-1], True)]


def samples(chance, edition=1, sorts=BOTH, size=WORDS):
    """Samples of the sorts at random, each a list, as many as fit into so many words."""
    made = []
    while True:
        one = sample(chance, edition, chance.choice(sorts))
        size -= len(one)
        if size < 0:
            return made
        made.append(one)


def joined(lists):
    return list(itertools.chain.from_iterable(lists))


def one_damaged(chance):
    """One bit of one word flipped in each sample."""
    made = samples(chance)
    for one in made:
        one[chance.randrange(len(one))] ^= 1 << chance.randrange(16)
    return joined(made)


def bad_parity(chance):
    """Every word's parity bit flipped: each sample is a gap."""
    return [one ^ 256 for one in joined(samples(chance))]


def short_gaps(chance):
    """Every word bad and a boundary: each word is a gap."""
    return chance.choices([one for one in range(END, 1024) if even(one % END)], k=WORDS)


def no_boundary(chance):
    """The first word bad and no end mark anywhere: one gap to the end."""
    return [0] + [chance.randrange(END) for _ in range(WORDS - 1)]


# A capture's name, its edition, the function that makes it, and whether its first half is timed too.
CAPTURES = (
    ("undamaged, Trace", 1, lambda chance: joined(samples(chance, sorts=TRACE)), False),
    ("undamaged, Resource", 1, lambda chance: joined(samples(chance, sorts=RESOURCE)), False),
    ("undamaged, both, second edition", 2, lambda chance: joined(samples(chance, 2)), False),
    ("a word damaged in each sample", 1, one_damaged, True),
    ("every parity bit flipped", 1, bad_parity, False),
    ("every word bad and a boundary", 1, short_gaps, True),
    ("one gap to the end", 1, no_boundary, False),
    ("random 16-bit words", 1, lambda chance: [chance.getrandbits(16) for _ in range(WORDS)], False),
    ("random words below 1024", 1, lambda chance: [chance.getrandbits(10) for _ in range(WORDS)], False),
)


def timed_captures():
    """The name, the edition and the words of each capture that is timed."""
    for seed, (name, edition, make, halved) in enumerate(CAPTURES, FIRST_SEED):
        words = make(random.Random(seed))
        yield name, edition, words
        if halved:
            yield f"{name}, the first half", edition, words[: len(words) // 2]


def damage(chance, edition, words):
    """Something done to a capture that isn't empty, in place."""
    place = chance.randrange(len(words))
    choice = chance.randrange(9)
    if choice == 0:
        words[place] ^= 1 << chance.randrange(16)
    elif choice == 1:
        words[place] ^= END
    elif choice == 2:  # other data with its parity right, in a header too
        words[place] = word(chance.randrange(256), words[place] & END != 0)
    elif choice == 3:
        words[0] = word(words[0] & 31 | chance.randrange(1, 8) << 5, chance.random() < 0.2)
    elif choice == 4:
        words[place] = chance.getrandbits(16)
    elif choice == 5:
        del words[place : place + chance.randrange(1, 4)]
    elif choice == 6:
        words[place:place] = words[place : place + chance.randrange(1, 4)]
    elif choice == 7:
        del words[place:]
    else:  # a sample of the other edition
        words[place:place] = sample(chance, 3 - edition, chance.choice(BOTH))


def small_capture(chance):
    """An edition and up to 300 words: samples mostly, now and then random words, damaged up to six times."""
    edition = chance.choice((1, 2))
    size = chance.randrange(SMALL + 1)
    sort = chance.randrange(10)
    if sort == 0:
        words = [chance.getrandbits(16) for _ in range(size)]
    elif sort == 1:
        words = [chance.getrandbits(10) for _ in range(size)]
    else:
        words = joined(samples(chance, edition, chance.choice((TRACE, RESOURCE, BOTH)), size))
    for _ in range(chance.randrange(7)):
        if words:
            damage(chance, edition, words)
    return edition, words[:SMALL]


def given(path, edition, words, turns):
    """The path, and there a file with a program's input."""
    with open(path, "wb") as file:
        file.write(bytes([edition]) + struct.pack("<I", turns)[:3] + struct.pack(f"<{len(words)}H", *words))
    return path


def answer(program, path):
    """The four numbers that a program prints, or words for what it did instead."""
    with open(path, "rb") as file:
        try:
            run = subprocess.run([program], stdin=file, stdout=subprocess.PIPE, timeout=LIMIT_SECONDS)
        except subprocess.TimeoutExpired:
            return f"no end in {LIMIT_SECONDS} s"
    if run.returncode != 0 or len(run.stdout) != 32:
        return f"{len(run.stdout)} bytes and exit code {run.returncode}"
    return struct.unpack("<4Q", run.stdout)


def same_answer(programs, path, capture):
    """The four numbers that all programs print; ends the script where there are no such."""
    answers = [answer(program, path) for _, program in programs]
    if isinstance(answers[0], str) or any(one != answers[0] for one in answers):
        told = "; ".join(f"{name} {one}" for (name, _), one in zip(programs, answers))
        sys.exit(f"the programs differ: {told}; the capture: {capture}")
    return answers[0]


def check(programs, count, captures, folder):
    """Ends the script where the programs differ on one of so many small captures or on one that is timed."""
    chance = random.Random(SMALL_SEED)
    for number in range(count):
        edition, words = small_capture(chance)
        same_answer(programs, given(f"{folder}/small", edition, words, 1), f"small one {number}, edition {edition}, {words}")
    for name, edition, words in captures:
        same_answer(programs, given(f"{folder}/checked", edition, words, FEW_TURNS), name)
    print(f"{count} small captures and {len(captures)} that are timed walked alike by {', '.join(name for name, _ in programs)}", flush=True)


def turns_for(program, folder, edition, words):
    """How many turns beyond the few take a program about as long as a run should."""
    turns = FEW_TURNS
    few = seconds(program, given(f"{folder}/tried", edition, words, turns))
    while True:
        turns = min(4 * turns, MOST_TURNS)
        took = seconds(program, given(f"{folder}/tried", edition, words, turns)) - few
        if took > RUN_SECONDS / 6 or turns == MOST_TURNS:
            return min(max(1, int((turns - FEW_TURNS) * RUN_SECONDS / max(took, 1e-3))), MOST_TURNS - FEW_TURNS)


def measure(programs, captures, folder):
    """Prints the table; the last program is the plain one."""
    works, starts = [], []
    for number, (name, edition, words) in enumerate(captures):
        turns = turns_for(programs[-1][1], folder, edition, words)
        paths = [given(f"{folder}/{number}-{kind}", edition, words, FEW_TURNS + more) for kind, more in enumerate((0, turns, COUNTED_TURNS))]
        met = [total // (FEW_TURNS + turns) for total in same_answer(programs, paths[1], name)[:2]]
        works.append(Work(paths[0], paths[1], turns * len(words), paths[2], COUNTED_TURNS * len(words)))
        starts.append([name, len(words), *met])
    heads = ["Capture", "Words", "Samples", "Gaps", *head_cells(programs), *(f"{name} to plain" for name, _ in programs[:-1])]
    print("| " + " | ".join(heads) + " |")
    print("|---" * len(heads) + "|")
    for start, row in zip(starts, figures(programs, works, folder)):
        *times, plain = (time for time, _ in row)
        print("| " + " | ".join(map(str, start + cells(row) + [f"{time / plain:.2f}" for time in times])) + " |", flush=True)


def main():
    words = sys.argv[1:]
    checking = words[:1] == ["check"]
    counted = checking and len(words) > 1 and words[1].isdigit()
    trees = named_trees(words[checking + counted :]) or sys.exit(__doc__)
    captures = list(timed_captures())
    with tempfile.TemporaryDirectory() as folder:
        programs = [(name, build(PROGRAM, tree, f"{folder}/tree{at}")) for at, (name, tree) in enumerate(trees)]
        programs.append(("plain", build_plain(f"{folder}/plain")))
        check(programs, int(words[1]) if counted else CHECKS, captures, folder)
        if not checking:
            print(f"machine: {processor()}; builds of the trees without proof, no verdict", flush=True)
            measure(programs, captures, folder)


if __name__ == "__main__":
    main()
