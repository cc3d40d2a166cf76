#!/usr/bin/env python3
"""Run the bench on each script of examples/ and hold its answers to the script's comments.

    compare/examples.py

After an operation, `# -> REPLY VALUE` says what each of its records answers, and
`# -> REPLY each` the reply alone. Each operation of an example has such a comment.
A difference gives status 1, the file, the line and both answers.
"""

import glob
import os
import re
import subprocess
import sys

ROOT = os.path.dirname(os.path.dirname(os.path.abspath(__file__)))
sys.dont_write_bytecode = True
sys.path.insert(0, os.path.join(ROOT, "tools"))
import script  # noqa: E402

EXPECTED = re.compile(r"#\s*->\s*([0-9]+)\s+([0-9]+|each)\b")


def differences(path):
    """What is wrong with one example, and how many answers were looked at."""
    with open(path, encoding="utf-8") as file:
        text = file.read()
    parts = script.parse_script(text)
    done = subprocess.run([os.path.join(ROOT, "run-bench")], input=b"".join(parts), stdout=subprocess.PIPE)
    if done.returncode != 0:
        return ["the bench ended with status %d" % done.returncode], 0
    answers = script.parse_answers(done.stdout.decode("ascii"))
    wrong, used = [], 0
    for number, (line, records) in enumerate(zip(script.text_lines(text), parts), 1):
        amount = -(-len(records) // script.RECORD_LENGTH)
        expected = EXPECTED.search(line)
        if amount and expected is None:
            wrong.append("line %d: no comment says the answer" % number)
        for reply, value in answers[used : used + amount] if expected else []:
            wanted_reply, wanted_value = expected.groups()
            if str(reply) != wanted_reply or wanted_value not in ("each", str(value)):
                wrong.append("line %d: expected %s %s, found %d %d" % (number, wanted_reply, wanted_value, reply, value))
        used += amount
    if used != len(answers):
        wrong.append("%d records and %d answers" % (used, len(answers)))
    return wrong, used


def main():
    total, failed = 0, False
    for path in sorted(glob.glob(os.path.join(ROOT, "examples", "*.txt"))):
        wrong, used = differences(path)
        total += used
        for said in wrong:
            print("examples: %s, %s" % (os.path.basename(path), said))
            failed = True
    if failed or total == 0:
        sys.exit(1)
    print("examples: %d answers as the comments say" % total)


main()
