#!/usr/bin/env python3
"""Try the edits of tools/edits, which must be refused as those of crates/*/must-fail, outside the gate.

    tools/try_edits.py [NAME ..]

tools/edits/CRATE/NAME.edit changes the crate CRATE. Each edit is applied to a
copy of the repository and the crate checked by `rt check`; the first error is
printed, or the first fact that isn't proved. Without names all are tried, some
ten seconds each. The status is 1 if one of them isn't refused. The gate has an edit for each statement; these are
others for the same statements, too many for its time.
"""

import glob
import os
import shutil
import subprocess
import sys
import tempfile

ROOT = os.path.dirname(os.path.dirname(os.path.abspath(__file__)))


def apply(path, folder):
    """Makes the changes of an edit, and gives the files as they were."""
    before, target, old = {}, None, None
    with open(path, encoding="utf-8") as file:
        for line in file.read().split("\n"):
            key, _, rest = line.partition(": ")
            if key == "file":
                target = os.path.join(folder, rest)
                with open(target, encoding="utf-8") as changed:
                    before.setdefault(target, changed.read())
            elif key == "old":
                old = rest
            elif key == "new":
                with open(target, encoding="utf-8") as changed:
                    text = changed.read()
                if text.count(old) != 1:
                    sys.exit(f"try_edits: {path}: {text.count(old)} times: {old}")
                write(target, text.replace(old, rest))
    return before


def write(path, text):
    with open(path, "w", encoding="utf-8") as file:
        file.write(text)


def main():
    paths = sorted(glob.glob(os.path.join(ROOT, "tools", "edits", "*", "*.edit")))
    paths = [path for path in paths if not sys.argv[1:] or os.path.basename(path)[: -len(".edit")] in sys.argv[1:]]
    taken = []
    with tempfile.TemporaryDirectory() as folder:
        copy = os.path.join(folder, "copy")
        shutil.copytree(ROOT, copy, symlinks=True, ignore=shutil.ignore_patterns(".git", "out"))
        for path in paths:
            crate, name = os.path.basename(os.path.dirname(path)), os.path.basename(path)[: -len(".edit")]
            before = apply(path, os.path.join(copy, "crates", crate))
            done = subprocess.run(["rt", "check", "--jobs", "1"], cwd=os.path.join(copy, "crates", crate), stdout=subprocess.PIPE, stderr=subprocess.STDOUT, text=True)
            said = [line.replace(copy + "/", "") for line in done.stdout.split("\n") if ": error: " in line or "is not proved that" in line or ": no proof: " in line]
            for target, text in before.items():
                write(target, text)
            print(f"{crate}/{name}: {said[0][:120] if done.returncode and said else 'TAKEN'}", flush=True)
            if not (done.returncode and said):
                taken.append(name)
    if taken:
        sys.exit(1)
    print(f"try_edits: {len(paths)} edits refused")


main()
