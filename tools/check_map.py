#!/usr/bin/env python3
"""Hold the reader's map, docs/STATEMENTS.md and docs/WRONG-PROGRAMS.md, to the files of the repository.

    tools/check_map.py

Of both pages:
- Every name in backticks is a definition, theorem, function, type, edit, crate,
  file or folder; and where a file stands in brackets behind a list of names,
  the names stand in that file.

Of STATEMENTS:
- It has at most 5,100 words, the rows of document 02 apart (5,000 before the
  second chip).
- The lines of definitions that it gives for each folder of specs are right.
- Every must-fail edit stands in one row of the table of edits, with something
  that refuses it; if it changes code alone, with the function that it changes.
- Every version of tools/idle.py has a row with the crates that it leaves proved
  and the laws that refuse it.

Of WRONG-PROGRAMS:
- Every public function of a library crate stands there once, in a row with an
  edit or version that tries a wrong program, or in the closing paragraph; and
  nothing else stands there.

Of the files themselves:
- Every old text of an edit, in the gate or in tools/edits, or of a version
  occurs as often as it has to in the file that it changes.
- No public function has a `requires`, of a program neither, but for the two
  of MAY_CALL, which ask only that the closure that they are lent may be called.

Faults are listed, and the status is 1; else one line says what was checked.
"""

import glob
import os
import re
import sys

from idle import VERSIONS

ROOT = os.path.dirname(os.path.dirname(os.path.abspath(__file__)))
PAGE = "docs/STATEMENTS.md"
PROGRAMS = "docs/WRONG-PROGRAMS.md"
MOST_WORDS = 5100
EDITS = "## Edits that must be refused"
UNTRIED = "No wrong program was tried"

# Words of the languages that the pages have in backticks.
ALLOWED = {"Result", "pub", "requires", "src", "u32", "u64", "use"}
# Definitions that no theorem stands on: they are the test programs'.
NOT_READ = {"printing"}

# The public functions that ask that a closure of their caller's may be called with what they call it with, and nothing else.
MAY_CALL = {"words::number::number_by", "counters::bank::each_value"}
# `F.pre f i v`, or `F.IsAlwaysCallable f`, for all numbers below a bound.
CALLABLE = re.compile(r"\s*requires \{ (?:\([\w ]+ : ℕ\) → (?:\w+ < \w+ → )*F\.pre|F\.IsAlwaysCallable) [\w ]+ \}")

NAME = re.compile(r"[\w./:′-]*[^\W\d_][\w./:′-]*")
# `a`, `b` and `c` (`crate/folder/file`
LISTED = re.compile(r"((?:`[^`]+`(?:,\sthen\s|,\s|\sand\s))*`[^`]+`)\s\(`(\w+/(?:specs|proofs|src)/[^`]+)`")
# A declaration of a definition, theorem, field or constructor; names further in are local ones, unless they are public.
DECLARED = re.compile(
    r"^(?: {0,2}(?:abbrev |unfoldable )?(?:pub )?| +pub )(?:data |record )?((?:[^\s:(){}=]+ )+)(?:\([^:\n]+ : [^)\n]+\) )*: ", re.M
)


def text_of(path):
    with open(os.path.join(ROOT, path), encoding="utf-8") as file:
        return file.read()


def files(pattern):
    """The files that fit a pattern, as paths from the top of the repository."""
    found = glob.glob(os.path.join(ROOT, pattern))
    return sorted(os.path.relpath(path, ROOT) for path in found)


def definitions():
    """For each antt file, as `crate/folder/file`, the names that it declares."""
    declared = {}
    for path in files("crates/*/specs/*.antt") + files("crates/*/proofs/*.antt"):
        names = " ".join(DECLARED.findall(text_of(path))).split()
        declared[path[len("crates/") : -len(".antt")]] = set(names)
    return declared


def items():
    """The code: paths of functions, types, variants and modules with the file of each, the public functions of library crates, and for
    each file the function that each of its lines stands in, or none."""
    paths, public, inside = {}, [], {}
    for path in files("crates/*/src/*.rt"):
        crate, module = path.split("/")[1], os.path.basename(path)[: -len(".rt")]
        base = (crate,) if module in ("lib", "main") else (crate, module)
        library = os.path.exists(os.path.join(ROOT, "crates", crate, "src", "lib.rt"))
        paths[base] = path
        block, here, indent, inside[path] = (), None, "", []
        for line in text_of(path).split("\n"):
            opened = re.match(r"(?:pub(?:\(crate\))? )?(?:impl(?:<[^>]*>)? (?:\w+(?:<[^>]*>)? for )?|(?:struct|enum|trait) )(\w+)", line)
            function = re.match(r"( *)(pub )?fn (\w+)", line)
            variant = re.match(r"    (\w+)(?:\([^)]*\)| \{[^}]*\})?,$", line)
            if opened:
                block = (opened.group(1),)
                paths[base + block] = path
            elif line == "}":
                block = ()
            elif function:
                indent = function.group(1)
                here = base + (block if indent else ()) + (function.group(3),)
                paths[here] = path
                if function.group(2) and library:
                    public.append("::".join(here))
            elif variant and block:
                paths[base + block + (variant.group(1),)] = path
            inside[path].append(here)
            if here and line == indent + "}":
                here = None
    return paths, public, inside


def edits():
    """Each edit as `crate/name`, with its file."""
    return {f"{path.split('/')[1]}/{os.path.basename(path)[: -len('.edit')]}": path for path in files("crates/*/must-fail/*.edit")}


def edits_outside():
    """Each edit that tools/try_edits.py tries outside the gate, likewise."""
    return {f"{path.split('/')[2]}/{os.path.basename(path)[: -len('.edit')]}": path for path in files("tools/edits/*/*.edit")}


def is_path(name):
    """Whether a name is a file or folder, from the top of the repository or from crates/, its ending left out or not."""
    places = [os.path.join(ROOT, name), os.path.join(ROOT, "crates", name)]
    return any(os.path.exists(place + ending) for place in places for ending in ("", ".antt"))


def rows_of(text):
    """The cells of each row of the tables in a text, their headings left out."""
    rows = [[cell.strip() for cell in line.strip().strip("|").split("|")] for line in text.split("\n") if line.startswith("|")]
    return [cells for cells in rows if backticked(" ".join(cells))]


def backticked(text):
    return re.findall(r"`([^`]+)`", text)


def check_names(page, text, declared, paths, known):
    """The names that a page has, and the faults of those that nothing has or that stand elsewhere."""
    every = set().union(*declared.values()) | {path[-1] for path in paths} | ALLOWED | set(VERSIONS) | set(known)
    ends = {path[start:] for path in paths for start in range(len(path))}
    names, faults = set(), []
    for number, line in enumerate(text.split("\n"), 1):
        for name in backticked(line):
            if NAME.fullmatch(name):
                names.add(name)
                if not (tuple(name.split("::")) in ends if "::" in name else name in every or is_path(name)):
                    faults.append(f"{page}:{number}: `{name}` is nowhere")
    for found in LISTED.finditer(text):
        number, place = text.count("\n", 0, found.start()) + 1, found.group(2)
        if place.endswith(".rt"):
            here = {path[-1] for path, file in paths.items() if file == "crates/" + place}
        else:
            here = declared.get(place, set())
        for name in backticked(found.group(1)):
            if NAME.fullmatch(name) and name not in here:
                faults.append(f"{page}:{number}: `{name}` is not in {place}")
    return names, faults


def check_words(page):
    """How many words the page has, and whether that is too many."""
    words = len("\n".join(line for line in page.split("\n") if not line.startswith("| Document 02")).split())
    return words, [f"{PAGE}: {words} words, more than {MOST_WORDS}"] if words > MOST_WORDS else []


def check_sizes(page):
    """The folders of specs whose lines of definitions and of comments the page doesn't give, or not as they are."""
    given = {name: (int(lines), int(comments)) for name, lines, comments in re.findall(r"`(\w+/specs)`\s(\d+)\s\((\d+)\)", page)}
    given["together"] = tuple(int(n) for n in re.search(r"together\s(\d+)\s\((\d+)\)|$", page).groups(0))
    counted = {}
    for path in files("crates/*/specs/*.antt"):
        crate, module = path.split("/")[1], os.path.basename(path)
        if crate in NOT_READ or module == "Lib.antt":
            continue
        lines = [line.strip() for line in text_of(path).split("\n") if line.strip() and not line.startswith("use ")]
        comments = sum(line.startswith("--") for line in lines)
        for name in (f"{crate}/specs", "together"):
            before = counted.get(name, (0, 0))
            counted[name] = (before[0] + len(lines) - comments, before[1] + comments)
    faults = []
    for name in sorted(set(given) | set(counted)):
        if given.get(name) != counted.get(name):
            faults.append("%s: the lines of %s are %d (%d)" % (PAGE, name, *counted.get(name, (0, 0))))
    return faults


def check_edits(page, known, inside):
    """The edits without one row of the table of edits, or with a row that doesn't name the function that they change; and the old texts
    that don't stand exactly once in their file."""
    rows = rows_of(page.partition(f"\n{EDITS}\n")[2].partition("\n**")[0])
    faults = []
    for name, path in known.items():
        named = [row for row in rows if name in backticked(row[0])]
        if len(named) != 1:
            faults.append(f"{PAGE}: the edit {name} is in {len(named)} rows of the table of edits")
            refusing = None
        elif len(named[0]) < 2 or not backticked(named[0][-1]):
            faults.append(f"{PAGE}: nothing is said to refuse the edit {name}")
            refusing = None
        else:
            refusing = [tuple(shown.split("::")) for shown in backticked(named[0][-1])]
        target, olds, functions = None, 0, set()
        for line in text_of(path).split("\n"):
            key, _, rest = line.partition(": ")
            if key == "file":
                target = f"crates/{name.split('/')[0]}/{rest}"
            elif key == "old":
                olds += 1
                text = text_of(target) if target and os.path.exists(os.path.join(ROOT, target)) else ""
                if text.count(rest) != 1:
                    faults.append(f"{path}: {text.count(rest)} times in {target}: {rest.strip()}")
                elif os.path.basename(target) == "Answers.antt" and os.path.dirname(target).count("/") > 2:
                    # a goal's name follows the code, so the answer's name is changed with it
                    continue
                elif target in inside:
                    functions.add(inside[target][text.count("\n", 0, text.index(rest))])
                else:
                    functions.add(None)
        if not olds:
            faults.append(f"{path}: it has no old text")
        for function in functions if refusing and None not in functions else ():
            if not any(function[-len(shown) :] == shown for shown in refusing):
                faults.append(f"{PAGE}: the edit {name} changes {'::'.join(function)}, which its row doesn't name")
    return faults


def check_outside():
    """The edits outside the gate that have the name of one inside it, and their old texts that don't stand exactly once in their file."""
    faults = [f"{path}: crates has an edit of this name too" for name, path in edits_outside().items() if name in edits()]
    for name, path in edits_outside().items():
        target = None
        for line in text_of(path).split("\n"):
            key, _, rest = line.partition(": ")
            if key == "file":
                target = f"crates/{name.split('/')[0]}/{rest}"
            elif key == "old" and text_of(target).count(rest) != 1:
                faults.append(f"{path}: {text_of(target).count(rest)} times in {target}: {rest.strip()}")
    return faults


def check_versions(page):
    """What the rows of the idle versions leave out, and their old texts that don't stand exactly once in their file."""
    faults = []
    for name, (_, changes, proved, refused) in VERSIONS.items():
        row = "".join(line for line in page.split("\n") if line.startswith(f"| `{name}` |"))
        for word in proved + [law for _, law in refused]:
            if f"`{word}`" not in row:
                faults.append(f"{PAGE}: the row of the idle version {name} doesn't name `{word}`")
        texts = {}
        for path, old, new, *times in changes:
            text = texts.get(path) or text_of(path)
            if [text.count(old)] != (times or [1]):
                faults.append(f"tools/idle.py: {name}: {text.count(old)} times in {path}: {old.strip()}")
            texts[path] = text.replace(old, new)
    return faults


def check_public(programs, public, known):
    """The public functions that don't stand once on the page of wrong programs, what else stands there, and rows that try nothing."""
    table, _, closing = programs.partition(f"\n{UNTRIED}")
    rows = rows_of(table)
    stated = [name for row in rows for name in backticked(row[0])] + backticked(closing)
    faults = [f"{PROGRAMS}: {name} stands there {stated.count(name)} times" for name in public if stated.count(name) != 1]
    faults += [f"{PROGRAMS}: `{name}` is no public function" for name in stated if name not in public]
    for first, *others in rows:
        if not any(name in known or name in VERSIONS for name in backticked(" ".join(others))):
            faults.append(f"{PROGRAMS}: no edit or version tries a wrong program for {first}")
    return faults


def check_asks(inside):
    """The public functions, those of programs too, that ask something of their caller which they may not, and those that no longer ask what
    they may."""
    faults, asked = [], set()
    for path, lines in inside.items():
        public = set()
        for line, here in zip(text_of(path).split("\n"), lines):
            if re.match(r" *pub fn ", line):
                public.add(here)
            if here in public and re.match(r"\s*requires\b", line):
                name = "::".join(here)
                asked.add(name)
                if name not in MAY_CALL or not CALLABLE.fullmatch(line):
                    faults.append(f"{path}: the public function {name} asks something of its caller")
    return faults + [f"tools/check_map.py: {name} asks nothing" for name in sorted(MAY_CALL - asked)]


def main():
    if len(sys.argv) != 1:
        sys.exit(__doc__)
    page, programs, declared, known = text_of(PAGE), text_of(PROGRAMS), definitions(), edits()
    tried = {**known, **edits_outside()}
    paths, public, inside = items()
    names, faults = check_names(PAGE, page, declared, paths, known)
    more, others = check_names(PROGRAMS, programs, declared, paths, tried)
    words, long = check_words(page)
    faults += others + long + check_sizes(page) + check_edits(page, known, inside) + check_versions(page)
    faults += check_public(programs, public, tried) + check_asks(inside) + check_outside()
    for fault in faults:
        print(fault)
    if faults:
        sys.exit(1)
    print(f"map: {len(names | more)} names, {len(known)} edits, {len(public)} public functions, {words} words")


if __name__ == "__main__":
    main()
