#!/usr/bin/env python3
"""Spell the repository's own definitions and lemmas as today's Rattle does.

    tools/port_names.py [--dry]      at the top, once, after the kit's port.py

port.py respelled only names that a library has too. Here every definition, field, constructor and lemma of specs/ and proofs/ gets the
one spelling: words in snake case, types and modules in camel case, a prime as an apostrophe. Functions of src/, exported names, strings,
inputs and outputs keep theirs. A lemma that would fall together with a definition ends in `_lem`. In edits and pages the same names are
respelled, and what port.py respells in files: projections, holes of operators, three words of the library.

Prints what fell together, and which edits no longer fit.
"""

import collections
import glob
import os
import re
import sys

TOP = os.path.dirname(os.path.dirname(os.path.abspath(__file__)))
IDENT = r"[\w'′·-]"
TOKEN = re.compile(r"(?<![\w'′·-])([^\W\d]" + IDENT + r"*)(?![\w'′·-])")
MARKS = r"(?:(?:pattern|unfoldable|abbrev|pub|axiom) )*"
DECLARED = re.compile(r"^(\s*)" + MARKS + r"((?:[^\s:(){}.,;λ\"≔=]+ )+)(?:\{[^}]*\} )?(?:\([^:\n]+ : [^)\n]+\) )*: ")
DATA = re.compile(r"^(\s*)" + MARKS + r"(data|record) ([^\s:(){}]+)")
IMPORT = re.compile(r"^(?:ghost )?(?:pub )?use ([\w.·+-]+?)\.(?:\{([^}]*)\}|([^\s.{};]+))(?: as [\w-]+)?;?\s*$", re.M)

# where a camel hump begins a word
HUMP = re.compile(r"(?<=[a-z0-9])([A-Z])")


def snake(name):
    """`wordOf` and `word-of` are `word_of`; a type keeps its capital."""
    name = name.replace("′", "'")
    if name[:1].isupper():
        return name
    name = name.replace("-", "_")
    return HUMP.sub(lambda m: "_" + m.group(1).lower(), name)


def own_files():
    for path in sorted(glob.glob(os.path.join(TOP, "crates/*/specs/**/*.antt"), recursive=True)):
        yield "specs", path
    for path in sorted(glob.glob(os.path.join(TOP, "crates/*/proofs/**/*.antt"), recursive=True)):
        lemmas = os.path.basename(os.path.dirname(path)) == "proofs"
        if not lemmas and os.path.basename(path) in ("Proof.antt", "Answers.antt", "Invariants.antt"):
            yield "function", path
        else:
            yield "proofs", path


def text_of(path):
    with open(path, encoding="utf-8") as file:
        return file.read()


def declared_in(text):
    """Each name that a file declares: the indent, the name."""
    for line in text.split("\n"):
        data = DATA.match(line)
        if data:
            yield len(data.group(1)), data.group(3)
            continue
        found = DECLARED.match(line)
        if found and not line.lstrip().startswith(("--", "use ", "let ", "in ", "module ", "∙")):
            for name in found.group(2).split():
                yield len(found.group(1)), name


def crates():
    return {os.path.basename(os.path.dirname(p)) for p in glob.glob(os.path.join(TOP, "crates/*/"))}


def foreign_in(text, own):
    """The names that a file imports from the kit."""
    names = set()
    for path, many, one in IMPORT.findall(text):
        parts = path.split(".")
        if parts[0] == "Rattle" and len(parts) > 1 and parts[1] in own:
            continue
        for name in (many or one).split(","):
            name = name.strip().split(" as ")[0].strip()
            if name:
                names.add(name)
    return names


def collect():
    """name -> new name, of definitions and lemmas, and of fields, which may stand behind a dot."""
    specs, lemmas, fields = set(), set(), set()
    for kind, path in own_files():
        if kind == "function":
            continue
        for indent, name in declared_in(text_of(path)):
            if not re.match(r"[^\W\d]", name) or name in ("_",):
                continue
            if kind == "specs":
                specs.add(name)
            else:
                lemmas.add(name)
            if indent:
                fields.add(name)
    # a name of the kit's that stands in one file with a name of ours that would be spelled alike
    kit, own = set(), crates()
    for _, path in own_files():
        text = text_of(path)
        words, foreign = set(TOKEN.findall(text)), foreign_in(text, own)
        kit |= {name for name in words & (specs | lemmas) if name not in foreign and snake(name) != name and snake(name) in foreign}
    new, taken = {}, collections.defaultdict(set)
    for name in sorted(specs):
        new[name] = snake(name) + ("_lem" if name in kit else "")
        taken[new[name]].add(name)
    fell = []
    for name in sorted(lemmas - specs, key=lambda n: ("-" in n, n)):
        to = snake(name)
        if name in kit or any(other != name for other in taken[to]):
            fell.append((name, to, sorted(taken[to]) or "the kit's"))
            to += "_lem"
        new[name] = to
        taken[to].add(name)
    for to, names in sorted(taken.items()):
        if len(names) > 1:
            fell.append((to, sorted(names)))
    return new, fields, fell


def renamed(text, new, fields, skip):
    def one(match):
        name = match.group(1)
        if name not in new or name in skip:
            return name
        before = text[max(0, match.start() - 1) : match.start()]
        if before == "." and name not in fields:
            # a path of modules that ends in the name: `proofs.Laws.name`
            line = text[text.rfind("\n", 0, match.start()) + 1 : match.start()]
            if not re.match(r"^(ghost )?use ", line):
                return name
        return new[name]

    return TOKEN.sub(one, text.replace("line-11-2^63", "line_11_2^63"))


# ---- edits and pages, which port.py leaves


def as_ported(text):
    """The spelling that port.py gave to files, in one line of an edit."""
    text = re.sub(r"(?<=[\w)'′]) \.(?=[\w])", ".", text)
    text = re.sub(r"(?<![\w'])\(([\w']+(?:\.[\w']+)+)\)", r"\1", text)
    text = re.sub(r"Rattle·(\w+)·(specs|proofs)\.\2", r"Rattle.\1.\2", text)
    text = text.replace("getD", "get_or").replace("the-variants", "TheVariants").replace("⌜ ", "").replace(" ⌝", "")
    return text.replace("′", "'")


def main():
    dry = "--dry" in sys.argv[1:]
    own = crates()
    new, fields, fell = collect()
    for line in fell:
        print("together:", *line)
    changed = 0
    for path in sorted(glob.glob(os.path.join(TOP, "crates/*/src/**/*.rt"), recursive=True)) + [p for _, p in own_files()]:
        text = text_of(path)
        skip = foreign_in(text, own)
        words = set(TOKEN.findall(text))
        for name in sorted(words & set(new)):
            if new[name] != name and name not in skip and new[name] in words and new.get(new[name], new[name]) == new[name]:
                print("already there:", os.path.relpath(path, TOP), name, new[name])
        rust = path.endswith(".rt")
        if rust:
            out = "\n".join(line if re.match(r"^\s*(//)", line) else code_line(line, new, fields, skip) for line in text.split("\n"))
        else:
            out = renamed(text, new, fields, skip)
        if out != text:
            changed += 1
            if not dry:
                with open(path, "w", encoding="utf-8") as file:
                    file.write(out)
    print("files renamed:", changed)
    edits(new, dry)


CLAUSE = re.compile(r"^\s*(ghost |requires|ensures)")


def code_line(line, new, fields, skip):
    """In code only the ghost lines and clauses speak of these names."""
    if CLAUSE.match(line):
        return renamed(line, new, fields, skip)
    # a clause that is broken over lines has no Rust word that is spelled with humps
    return TOKEN.sub(lambda m: new[m.group(1)] if HUMP.search(m.group(1)) and not m.group(1)[0].isupper() and m.group(1) in new and m.group(1) not in skip else m.group(1), line)


def edits(new, dry):
    by_snake = collections.defaultdict(list)
    for name, to in new.items():
        by_snake[snake(name)].append((name, to))

    def word(match):
        name = match.group(1)
        if name in new:
            return new[name]
        found = by_snake.get(snake(name), [])
        if len(found) == 1:
            return found[0][1]
        if found:
            same = [to for old, to in found if ("-" in old) == ("-" in name)]
            return same[0] if same else found[0][1]
        return name

    def page_word(match):
        # only a name with a hump or a dash is surely one of ours
        return word(match) if snake(match.group(1)) != match.group(1) else match.group(1)

    for path in sorted(glob.glob(os.path.join(TOP, "crates/*/must-fail/*.edit"))) + sorted(glob.glob(os.path.join(TOP, "tools/edits/*/*.edit"))):
        lines, out, target = text_of(path).split("\n"), [], ""
        crate = os.path.basename(os.path.dirname(os.path.dirname(path))) if "must-fail" in path else os.path.basename(os.path.dirname(path))
        for line in lines:
            if line.startswith("file: "):
                target = line[6:].strip()
            if line.startswith(("old:", "new:")) and target.endswith(".antt"):
                line = line[:4] + TOKEN.sub(word, as_ported(line[4:]))
            out.append(line)
        if out != lines and not dry:
            with open(path, "w", encoding="utf-8") as file:
                file.write("\n".join(out))
        check(path, crate, out)
    # pages: what stands in backticks
    for path in sorted(glob.glob(os.path.join(TOP, "docs/**/*.md"), recursive=True)) + [os.path.join(TOP, "README.md")]:
        text = text_of(path)
        out = re.sub(r"`[^`\n]+`", lambda m: m.group(0) if "/" in m.group(0) and ".edit" in m.group(0) else TOKEN.sub(page_word, m.group(0)), text)
        if out != text and not dry:
            with open(path, "w", encoding="utf-8") as file:
                file.write(out)


def check(path, crate, lines):
    target, text = "", ""
    for line in lines:
        if line.startswith("file: "):
            target = os.path.join(TOP, "crates", crate, line[6:].strip())
            text = text_of(target) if os.path.exists(target) else ""
        if line.startswith("old: "):
            old = line[5:]
            if text.count(old) != 1:
                print("edit:", os.path.relpath(path, TOP), text.count(old), old)
        if line.startswith("new: "):
            text = text.replace(old, line[5:], 1)


if __name__ == "__main__":
    main()
