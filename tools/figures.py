#!/usr/bin/env python3
"""figures.py [GATE_LOG] > docs/FIGURES.md: sizes and times of the project.

Sizes are counted from the files; check times, the gate's time and its verdict are read from a log of the gate:

    (time .ci/run) > gate.log 2>&1
    tools/figures.py gate.log > docs/FIGURES.md

Without a log it gives the sizes alone.

A line of code, specs or proof is a line that is neither blank nor only a comment.
"""
import os
import re
import sys

ROOT = os.path.dirname(os.path.dirname(os.path.abspath(__file__)))


def lines_of(folder, ending, comment):
    """The lines that count in the files below a folder, and the text of all of them."""
    count, text = 0, []
    for where, _, names in sorted(os.walk(folder)):
        for name in sorted(names):
            if name.endswith(ending):
                with open(os.path.join(where, name), encoding='utf-8') as file:
                    body = file.read()
                text.append(body)
                count += sum(1 for line in body.split('\n') if line.strip() and not line.strip().startswith(comment))
    return count, '\n'.join(text)


def crates():
    with open(os.path.join(ROOT, 'crates.txt'), encoding='utf-8') as file:
        for line in file:
            name = line.split('#')[0].split(':')[0].strip()
            if name:
                yield name


def statements(text):
    """How many public laws and theorems a text has; fields of its records and the proofs of contracts are none."""
    count, fields = 0, False
    for line in text.split('\n'):
        if re.match(r'pub record .* where$', line):
            fields = True
        elif not line.startswith(' '):
            fields = False
        if not fields and re.match(r' *pub [^\s:]+ : ', line) and not re.search(r' : goal\.\S+$', line):
            count += 1
    return count


def axioms_in(log):
    """For each crate that a log calls proved, how many axioms its check counts, and their names."""
    found, count, names = {}, 0, []
    for line in log.split('\n'):
        listed, counted = re.match(r'axioms \w+: (.*) \(', line), re.search(r' axioms=(\d+)', line)
        proved = re.match(r'rt: (\w+) proved', line)
        if listed:
            names += listed.group(1).split(', ')
        elif counted:
            count = int(counted.group(1))
        elif proved:
            found[proved.group(1)] = (count, names)
            count, names = 0, []
    return found


def clock(log, word):
    """The seconds behind a word of bash's `time` at the end of a log, or none."""
    found = re.findall(r'^%s\s+(\d+)m([\d.]+)s' % word, log, re.M)
    return int(found[-1][0]) * 60 + float(found[-1][1]) if found else None


def main():
    if len(sys.argv) > 2:
        sys.exit(__doc__)
    log = ''
    if sys.argv[1:]:
        with open(sys.argv[1], encoding='utf-8', errors='replace') as file:
            log = file.read()
    seconds = dict(re.findall(r'^rt: (\w+) proved \((\d+) s\)', log, re.M))
    edit_times = [int(n) for n in re.findall(r'^rt: must-fail \S+: refused.*?(\d+) s\)', log, re.M)]
    verdict = re.findall(r'^\d+ passed, \d+ failed', log, re.M)
    axioms = axioms_in(log)
    kit = re.search(r'^gate: kit (.*)', log, re.M)
    compared = re.findall(r'^compare: (\w+ and twin agree on \d+ records.*)$', log, re.M)

    rows, total = [], [0] * 8
    for name in crates():
        base = os.path.join(ROOT, 'crates', name)
        code, source = lines_of(os.path.join(base, 'src'), '.rt', '//')
        specs, definitions = lines_of(os.path.join(base, 'specs'), '.antt', '--')
        proof, proved = lines_of(os.path.join(base, 'proofs'), '.antt', '--')
        bodies = re.sub(r'^(?:pub )?trait .*?^}', '', source, flags=re.M | re.S)
        functions = len(re.findall(r'^\s*(?:pub )?fn ', bodies, re.M))
        named = r'^(?:unfoldable |abbrev )?(?:pub )?(?:data |record )?[^\s:]+ : .*|^ *pub (?:data|record) |^ +(?:unfoldable|abbrev) '
        defined = len(re.findall(named, definitions, re.M))
        theorems = statements(proved)
        folder = os.path.join(base, 'must-fail')
        edits = len([n for n in os.listdir(folder) if n.endswith('.edit')]) if os.path.isdir(folder) else 0
        row = [functions, defined, theorems, edits, code, specs, proof, int(seconds.get(name, 0))]
        total = [a + b for a, b in zip(total, row)]
        rows.append((name, row))

    print('# Figures\n')
    print('Made by `tools/figures.py` from the files%s; see there how to make them again.\n' % (' and a log of the gate' if log else ' alone, without the times of a gate'))
    if kit:
        print(f'Kit: `{kit.group(1)}`.\n')
    print(f'Crates: {len(rows)}.\n')
    heads = ['functions', 'definitions', 'laws and theorems', 'must-fail edits', 'lines of code', 'of specs', 'of proof', 'check, s'][: None if seconds else -1]
    print('| crate | %s |' % ' | '.join(heads))
    print('|' + '---|' * (len(heads) + 1))
    for name, row in rows + [('all', total)]:
        print('| %s | %s |' % (name if name == 'all' else f'`{name}`', ' | '.join(str(n) for n in row[: len(heads)])))
    print()
    if total[4]:
        print(f'Proof lines for each line of code: {total[6] / total[4]:.1f} (with specs {(total[5] + total[6]) / total[4]:.1f}).\n')
    print('Functions are those with a body; laws and theorems are the named statements that other files can cite.\n')
    if edit_times:
        print(f'Checks of the must-fail edits: {len(edit_times)}, together {sum(edit_times)} s.\n')
    for words in compared:
        print(f'{words[0].upper()}{words[1:]}.\n')
    real, user, system = (clock(log, word) for word in ('real', 'user', 'sys'))
    if real is not None:
        print(f'Whole gate, by the clock: {real:.0f} s.' + (f' Of processors: {user + system:.0f} s.' if user and system else '') + '\n')
    some = [f'`{name}` {count} ({", ".join("`%s`" % word for word in names)})' for name, (count, names) in axioms.items() if count]
    if some:
        print(f'Axioms that the checks count: {", ".join(some)};')
        print(f'the other {len(axioms) - len(some)} crates of the log count none. They are contracts of the C library\'s calls, which programs make')
        print('through the kit\'s `io`.\n')
    if verdict:
        print(f'The gate\'s last line: `{verdict[-1]}`.')


if __name__ == '__main__':
    main()
