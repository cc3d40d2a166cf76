#!/usr/bin/env python3
"""Count the places in src/ that today's Rattle has another form for.

    tools/places.py [-v] [FOLDER]

FOLDER is a checkout, this one if none is named. A line for each point of
docs/DESIGN-PASS.md: how many places a rule by text finds there, and with -v
each of them. What a rule finds is a place to look at and no verdict: the page
says of each what became of it.
"""

import collections
import difflib
import glob
import os
import re
import sys

INTEGER = r"(?:u8|u16|u32|u64|usize)"


def functions(path, lines):
    """Each function of a file: its name, its first line's number, its head and its body without comments and clauses."""
    start = None
    for number, line in enumerate(lines):
        found = re.match(r"( *)(?:pub(?:\(crate\))? )?fn (\w+)", line)
        if found:
            start, indent, name = number, found[1], found[2]
        elif start is not None and line == indent + "}":
            part = lines[start : number + 1]
            body = [one.strip() for one in part if not re.match(r" *(//|requires|ensures|\{$|\}$|\)$)", one)]
            yield path, name, start + 1, part, body
            start = None


def level(body):
    """A body with its numbers, types and own names made alike."""
    text = re.sub(r"\b\d\w*\b", "N", "\n".join(body))
    text = re.sub(r"\b" + INTEGER + r"\b", "T", text)
    return re.sub(r"\b[A-Z]\w*2?\b", "T", text).split("\n")[1:]


def twins(found):
    """Pairs of functions whose bodies are the same, or nearly so, once numbers, types and names of types are left out."""
    long = [(entry, level(entry[4])) for entry in found]
    long = [(entry, body) for entry, body in long if len(body) >= 3]
    for place, (one, first) in enumerate(long):
        for other, second in long[place + 1 :]:
            if abs(len(first) - len(second)) > 3:
                continue
            ratio = difflib.SequenceMatcher(None, first, second).ratio()
            if ratio == 1 or (ratio >= 0.8 and len(first) >= 6):
                yield f"{one[0]}:{one[2]} {one[1]} ~ {other[0]}:{other[2]} {other[1]}"


def by_line(files, *rules):
    for path, lines in files:
        for number, line in enumerate(lines):
            if any(re.search(rule, line) for rule in rules):
                yield f"{path}:{number + 1} {line.strip()}"


def repeated_facts(files):
    facts = collections.defaultdict(list)
    for path, lines in files:
        crate = path.split("/")[1]
        for number, line in enumerate(lines):
            found = re.match(r" *requires (?:\w+ )?(\{.*\})", line)
            if found:
                facts[crate, found[1]].append(number + 1)
    for (crate, fact), places in sorted(facts.items()):
        if len(places) >= 3:
            yield f"{crate}: {fact}: {len(places)} contracts"


def travelling(found):
    """Three parameters or more with the same names and types in three functions or more of a crate."""
    heads = collections.defaultdict(list)
    for path, name, number, part, _ in found:
        head = re.sub(r"\s+", " ", " ".join(part)).split("{")[0]
        given = re.findall(r"(\w+: (?:&mut |&)?\[?\w+(?:; \d+)?\]?)", head)
        for one in range(len(given) - 1):
            pair = ", ".join(given[one : one + 2])
            if not pair.startswith("edition"):
                heads[path.split("/")[1], pair].append(name)
    for (crate, pair), names in sorted(heads.items()):
        if len(names) >= 3:
            yield f"{crate}: {pair}: {', '.join(names)}"


def switches(files):
    """Enums without a value that a test program asks or does one of several things by."""
    for path, lines in files:
        for number, line in enumerate(lines):
            found = re.match(r"(?:pub )?enum (\w+)", line)
            if found and "_test/" in path:
                yield f"{path}:{number + 1} {line.strip()}"


def main():
    args = [arg for arg in sys.argv[1:] if arg != "-v"]
    os.chdir(args[0] if args else os.path.dirname(os.path.dirname(os.path.abspath(__file__))))
    files = []
    for path in sorted(glob.glob("crates/*/src/*.rt")):
        with open(path, encoding="utf-8") as file:
            files.append((path, file.read().split("\n")))
    found = [entry for path, lines in files for entry in functions(path, lines)]
    points = {
        "1a enums": by_line(files, r"^(pub )?enum "),
        "1b a flag or a number for a kind in a struct": by_line(files, r"^    (pub )?(verdict|ended|failed|fine|number|reply|fault): "),
        "1c functions that give a number for a kind, or a flag for success": by_line(files, r"fn \w*(number|number_of|value_of|count)\((answer|reply|verdict|fault)", r"out: &mut .* -> bool"),
        "2 twins": twins(found),
        "3 loops by while or loop": by_line(files, r"^ *(while |loop |let \w+ = loop)"),
        "4a equality, copying, printing or choosing written by hand": by_line(files, r"fn (same\w*|chosen|no_\w+|one|wide|least|is_good|held|one_less)\("),
        "4b a method's older spelling": by_line(files, r"std::num::wrapping_", r"\b" + INTEGER + r"::(count_ones|trailing_zeros)\("),
        "4c a value moved through a name of its own": by_line(files, r"let (next|reply|values|places|shadows|queue|bank|counters|verdict) = \w+(\.\w+)+;"),
        "5a a fact in three contracts of a crate or more": repeated_facts(files),
        "5b two parameters beside each other in three functions of a crate or more": travelling(found),
        "6 a length beside a buffer, or an array of places with a count": by_line(files, r"&(mut )?\[\w+\].*, (size|count|end|held|room): usize", r"^    (pub )?(held|size|written): usize"),
        "7 enums of the test programs": switches(files),
    }
    for name, places in points.items():
        places = list(places)
        print(f"{len(places):4} {name}")
        if "-v" in sys.argv:
            for place in places:
                print("       ", place)
    answers = 0
    lines = 0
    for path in glob.glob("crates/*/proofs/**/*.antt", recursive=True):
        with open(path, encoding="utf-8") as file:
            text = file.read()
        lines += text.count("\n")
        answers += len(re.findall(r"^pub [\w-]+ : goal\.", text, re.M))
    print(f"{answers:4} 8 answers in proofs/, in {lines} lines of proof")


main()
