"""Trial builds of a timing program over the code of one or more trees, and what they take for a word: for perf/words.py and perf/walk.py.

These builds are NOT PROVED and are no verdict of any kind: they are made by the kit's front end and its compiler at -O3 with no proof,
so that a form can be timed before it is proved. The verdict is `rt ci`.
"""

import collections
import glob
import itertools
import math
import os
import platform
import re
import shutil
import subprocess
import sys

from measure import ROOT, instructions, seconds

# A timing program: its crate's name, what it stands on, a function that gives its text for a tree, and the functions that the compiler is
# told to keep functions of their own.
Program = collections.namedtuple("Program", "crate stands_on text kept")
# Three inputs of one work, of few turns, of the turns to time and of those to count, and how many words the last two have beyond the first.
Work = collections.namedtuple("Work", "few timed timed_words counted counted_words")
RUNS = 9
# A compiler that keeps the module it is given to compile at -O3, and the words that say how.
KEEPER = """#!/usr/bin/env bash
for word in "$@"; do case $word in *.bc) module=$word ;; -O3) keep=1 ;; esac; done
if [ -n "${{keep-}}" ]; then cp "$module" "{work}/module.bc"; printf '%s\\n' "$@" >"{work}/words"; fi
exec "{tools}/bin/clang" "$@"
"""


def named_trees(words):
    """The names and trees of words NAME=TREE, or without any the tree that the scripts stand in; None where a word is something else."""
    named = [word.partition("=") for word in words]
    if not all(name and tree for name, _, tree in named):
        return None
    return [(name, os.path.abspath(tree)) for name, _, tree in named] or [("now", ROOT)]


def copy(program, tree, work):
    """The tree's code with the program as one more crate; the crates that it stands on."""
    if not os.path.exists(f"{tree}/crates.txt"):
        sys.exit(f"{tree}: it has no crates.txt")
    for source in glob.glob(f"{tree}/crates/*/src"):
        shutil.copytree(source, f"{work}/{os.path.relpath(source, tree)}")
    os.makedirs(f"{work}/crates/{program.crate}/src")
    with open(f"{work}/crates/{program.crate}/src/main.rt", "w", encoding="utf-8") as file:
        file.write(program.text(tree))
    shutil.copy(f"{tree}/crates.txt", work)
    with open(f"{work}/crates.txt", "a+", encoding="utf-8") as file:
        file.write(f"\n{program.crate}: {program.stands_on}\n")
        file.seek(0)
        below = dict(line.split(":", 1) for line in file if ":" in line and not line.startswith("#"))
    crates = [program.crate]
    for crate in crates:
        crates += [one for one in below.get(crate, "").split() if one not in crates]
    return crates[1:]


def module_of(program, tree, work, kit, tools):
    """The text of the module that the kit's front end hands to its compiler for -O3, and the words that go with it."""
    crates = ["std"] + copy(program, tree, work)
    shutil.copytree(tools, f"{work}/tools", copy_function=os.symlink)
    os.remove(f"{work}/tools/bin/clang")
    with open(f"{work}/tools/bin/clang", "w", encoding="utf-8") as file:
        file.write(KEEPER.format(work=work, tools=tools))
    os.chmod(f"{work}/tools/bin/clang", 0o755)
    command = [f"{os.path.dirname(tools)}/bin/rattle-cases", "--toolchain", f"{work}/tools", "--stdin", os.devnull]
    command += [f"{work}/crates/{program.crate}/src/main.rt", "--crate-name", program.crate]
    for crate in crates:
        home = f"{work}/crates" if os.path.isdir(f"{work}/crates/{crate}") else f"{kit}/libs"
        command += ["--lib", f"{crate}={home}/{crate}/src/lib.rt"]
    # It also runs the program and complains of what that prints, which doesn't matter here.
    said = subprocess.run(command, stdout=subprocess.PIPE, stderr=subprocess.STDOUT)
    if not os.path.exists(f"{work}/words"):
        sys.exit(f"{tree}: the program wasn't built\n{said.stdout.decode(errors='replace')}")
    command = [f"{tools}/bin/clang", "--target=x86_64-unknown-linux-gnu", "-x", "ir", f"{work}/module.bc", "-S", "-emit-llvm"]
    command += ["-Xclang", "-disable-llvm-passes", "-o", f"{work}/module.ll"]
    subprocess.run(command, check=True, stderr=subprocess.DEVNULL)
    with open(f"{work}/module.ll", encoding="utf-8") as text, open(f"{work}/words", encoding="utf-8") as words:
        return text.read(), words.read().splitlines()


def build(program, tree, work):
    """The program over a tree's code as native code."""
    kit = os.path.dirname(os.path.dirname(os.path.realpath(shutil.which("rt") or sys.exit("rt is missing"))))
    machine = platform.machine()
    tools = f"{kit}/on/{machine}/toolchain"
    text, words = module_of(program, tree, work, kit, tools)
    text, kept = re.subn(rf'(?m)^(define .*@"{program.crate}::(?:{"|".join(program.kept)})".*\)) ', r"\1 noinline ", text)
    if kept != len(program.kept):
        sys.exit(f"{tree}: {kept} of {len(program.kept)} functions kept by themselves")
    # The kit compiles for x86-64 alone.
    if machine != "x86_64":
        text = re.sub(r"(?m)^target datalayout.*\n", "", text)
        text = re.sub(r"(?m)^target triple.*", f'target triple = "{machine}-unknown-linux-gnu"', text)
        text = re.sub(r'"(?:target-cpu|target-features|tune-cpu)"="[^"]*"', "", text)
        words = [word.replace("x86_64", machine) for word in words if not word.startswith("-march=")]
    with open(f"{work}/native.ll", "w", encoding="utf-8") as file:
        file.write(text)
    words = [re.sub(r".*\.bc$", f"{work}/native.ll", re.sub(r".*\.o$", f"{work}/native.o", word)) for word in words]
    subprocess.run([f"{tools}/bin/clang"] + words, check=True)
    subprocess.run(["gcc", f"{work}/native.o", "-o", f"{work}/program"], check=True)
    return f"{work}/program"


def figures(programs, works, folder):
    """For each work and of it each program the nanoseconds and the instructions a word, None where they aren't counted; without start-up."""
    # Every work in each round, so that what else the machine does for a while doesn't fall on one row.
    least = collections.defaultdict(lambda: math.inf)
    for _, work, (_, program) in itertools.product(range(RUNS), works, programs):
        for path in (work.timed, work.few):
            least[program, path] = min(seconds(program, path), least[program, path])
    for work in works:
        row = []
        for _, program in programs:
            time = (least[program, work.timed] - least[program, work.few]) * 1e9 / work.timed_words
            more, few = (instructions(program, path, folder) for path in (work.counted, work.few))
            row.append((time, None if None in (more, few) else (more - few) / work.counted_words))
        yield row


def head_cells(programs):
    return [cell for name, _ in programs for cell in (f"{name} ns a word", f"{name} instructions a word")]


def cells(row):
    """A row of figures as a table has it."""
    return [cell for time, count in row for cell in (f"{time:.2f}", "not counted" if count is None else f"{count:.2f}")]
