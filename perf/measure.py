#!/usr/bin/env python3
"""Time bench and twin, both as native code, on a Trace-heavy, a Resource-heavy and a mixed file of records.

    perf/measure.py [RECORDS] [NAME=PROGRAM ..]
    perf/measure.py kinds [NAME=PROGRAM ..]

RECORDS is the size of each file, 100,000,000 unless given. The programs run in turn, five times each, and the least
time of each counts; those that are named (earlier builds of bench) run with bench and twin, so that before and after
are of one run. Beside the times: bench's time on half the file and its largest memory, and callgrind's instructions
for each record where valgrind is there; then the table of kinds. It needs rt and rustc.

kinds prints a table alone, as docs/PERFORMANCE.md has it: callgrind's instructions a record for each kind of operation by
itself, of bench and twin, or of the programs that are named (earlier builds of bench) and the twin. It is repeatable.
"""

import os
import platform
import random
import shutil
import struct
import subprocess
import sys
import tempfile
import time

ROOT = os.path.dirname(os.path.dirname(os.path.abspath(__file__)))
RESET, WRITE, READ, TICKS, NODES, EVENTS, SEND = range(7)
RUNS = 5
KIND_RECORDS = 100_000


def record(kind, address=0, lines=0, data=0):
    return struct.pack("<BBBBQ", kind, address, lines, 0, data)


# Odd counters on the node clock, even ones on external events, all enabled.
COUNTING = record(WRITE, 8, 0, 0x0000AAAA0000FFFF) + record(WRITE, 11, 0, 0xFFFF)


def settings():
    """Sampling on, discard, every level passes, half of the counters on each pair of kinds, all enabled, eight sources."""
    # Discard is chosen, so that builds with and without write wait after a reset lose the same triggers.
    yield record(WRITE, 1, 0, 9)
    yield record(WRITE, 4, 0, 0xFFFF)
    yield record(WRITE, 8, 0, 0x0000FF000000F0F0)
    yield record(WRITE, 11, 0, 0xFFFF)
    for line in range(8):
        yield record(WRITE, 16 + line, 0, 0x01020304 * (line + 1))


def trace(chance):
    """The queue filled with Trace samples and ticks between them, one lost, three reads, every word sent."""
    for _ in range(8):
        yield record(WRITE, 96 + chance.randrange(16), 1 << chance.randrange(8), chance.getrandbits(64))
        yield record(TICKS, 0, 0, chance.randrange(1000))
    yield record(WRITE, 96, 1)
    for address in (1, 2, 6):
        yield record(READ, address)
    for _ in range(129):
        yield record(SEND)


def resource_samples(chance):
    """Events of all four kinds, a counter read, a Resource sample, one lost, a busy read, every word sent."""
    yield record(NODES, 0, 0, chance.randrange(1000))
    yield record(EVENTS, 0, 0, chance.getrandbits(16))
    yield record(TICKS, 0, 0, chance.randrange(1000))
    yield record(WRITE, 32 + chance.randrange(16))
    yield record(READ, 32 + chance.randrange(16))
    yield record(WRITE, 112 + chance.randrange(16), 1 << chance.randrange(8), chance.getrandbits(64))
    yield record(WRITE, 112, 1)
    yield record(READ, 32 + chance.randrange(16))
    for _ in range(81):
        yield record(SEND)


def mixed(chance):
    """One operation at a time: of ten records a trigger, a tick record, a read and seven sends, in any order."""
    for _ in range(20):
        choice = chance.randrange(10)
        if choice == 0:
            yield record(WRITE, 96 + chance.randrange(16), 1 << chance.randrange(8), chance.getrandbits(64))
        elif choice == 1:
            yield record(TICKS, 0, 0, chance.randrange(1000))
        elif choice == 2:
            yield record(READ, chance.choice((1, 2, 6, 32, 33)))
        else:
            yield record(SEND)


def kinds():
    """For each kind of operation its name, what goes before it, and a function that makes its records."""
    held = record(WRITE, 96, 1) * 8
    hundredth = record(RESET, 0, 0, 1) + COUNTING
    some = lambda chance: chance.getrandbits(48)
    return (
        ("hardware reset", b"", lambda chance: record(RESET)),
        ("software reset", b"", lambda chance: record(WRITE, 0)),
        ("Source Address write", b"", lambda chance: record(WRITE, 16 + chance.randrange(8), 0, chance.getrandbits(32))),
        ("Filter write", b"", lambda chance: record(WRITE, 4, 0, 0xFFFF)),
        ("CSR write", b"", lambda chance: record(WRITE, 1, 0, 1)),
        ("MUX SEL write", b"", lambda chance: record(WRITE, 8, 0, chance.getrandbits(64))),
        ("enabling write", b"", lambda chance: record(WRITE, 11, 0, chance.getrandbits(16))),
        ("clear of a counter", b"", lambda chance: record(WRITE, 10, 0, 1)),
        ("software event", b"", lambda chance: record(WRITE, 33)),
        ("lost trigger", held, lambda chance: record(WRITE, 96, 1, some(chance))),
        ("trigger with no active line", b"", lambda chance: record(WRITE, 96, 0, some(chance))),
        ("Trace sample, then 16 sends", b"", lambda chance: record(WRITE, 96, 1, some(chance)) + record(SEND) * 16),
        ("Resource sample, then 80 sends", b"", lambda chance: record(WRITE, 112, 1, some(chance)) + record(SEND) * 80),
        ("send with nothing held", b"", lambda chance: record(SEND)),
        ("CSR read", b"", lambda chance: record(READ, 1)),
        ("Timestamp read", b"", lambda chance: record(READ, 2)),
        ("counter read", b"", lambda chance: record(READ, 32)),
        ("read of an address with nothing", b"", lambda chance: record(READ, 3)),
        ("Timestamp ticks", b"", lambda chance: record(TICKS, 0, 0, chance.randrange(2000))),
        ("Timestamp ticks at a hundredth", hundredth, lambda chance: record(TICKS, 0, 0, chance.randrange(2000))),
        ("node ticks", b"", lambda chance: record(NODES, 0, 0, chance.randrange(2000))),
        ("external events", b"", lambda chance: record(EVENTS, 0, 0, chance.getrandbits(16))),
    )


def write_kind(path, before, make):
    """A file of one kind of operation: settings that let a trigger be lost, odd counters on node clock, all enabled."""
    chance = random.Random(7)
    body = bytearray()
    while len(body) < KIND_RECORDS * 12:
        body += make(chance)
    with open(path, "wb") as file:
        file.write(record(WRITE, 1, 0, 9) + record(WRITE, 4, 0, 0xFFFF) + COUNTING)
        file.write(before + body[: KIND_RECORDS * 12])


def print_kinds(programs, folder):
    """The table of instructions a record by kind of operation, a column for each program."""
    if shutil.which("valgrind") is None:
        print("no table by kind of operation: valgrind is missing (on Debian: apt-get install valgrind)")
        return
    print("| Operation | " + " | ".join(name for name, _ in programs) + " |")
    print("|---" * (len(programs) + 1) + "|")
    for kind, before, make in kinds():
        write_kind(f"{folder}/kind", before, make)
        counts = [instructions(program, f"{folder}/kind", folder) for _, program in programs]
        each = ["failed" if count is None else f"{count / KIND_RECORDS:.0f}" for count in counts]
        print(f"| {kind} | " + " | ".join(each) + " |", flush=True)


def write_file(path, rounds, records):
    """A file of about so many records: the settings, then two hundred rounds over and over."""
    chance = random.Random(1)
    block = b"".join(one for _ in range(200) for one in rounds(chance))
    with open(path, "wb") as file:
        file.write(b"".join(settings()))
        for _ in range(max(1, records * 12 // len(block))):
            file.write(block)
    return os.path.getsize(path) // 12


def seconds(program, path):
    with open(path, "rb") as file:
        start = time.monotonic()
        subprocess.run([program], stdin=file, stdout=subprocess.DEVNULL, check=True)
        return time.monotonic() - start


def instructions(program, path, folder):
    """Callgrind's count of instructions, or None without valgrind."""
    command = ["valgrind", "--tool=callgrind", f"--callgrind-out-file={folder}/callgrind", program]
    try:
        with open(path, "rb") as file:
            said = subprocess.run(command, stdin=file, stdout=subprocess.DEVNULL, stderr=subprocess.PIPE, check=True)
    except (FileNotFoundError, subprocess.CalledProcessError):
        return None
    return next((int(line.split(b":")[1]) for line in said.stderr.split(b"\n") if b"Collected" in line), None)


def memory(program, path):
    """The largest memory of one run, in KiB, as the system saw it while it ran."""
    most = 0
    with open(path, "rb") as file:
        with subprocess.Popen([program], stdin=file, stdout=subprocess.DEVNULL) as run:
            while run.poll() is None:
                with open(f"/proc/{run.pid}/status", encoding="ascii") as status:
                    most = max([most] + [int(line.split()[1]) for line in status if line.startswith("VmHWM")])
                time.sleep(0.01)
    return most


def processor():
    """The machine, and the processor's name where the system tells it."""
    with open("/proc/cpuinfo", encoding="ascii", errors="replace") as file:
        names = [line.split(":")[1].strip() for line in file if line.startswith("model name")]
    return f"{platform.machine()}, {names[0] if names else 'no model name'}, {os.cpu_count()} cores"


def build_bench(path):
    subprocess.run([f"{ROOT}/perf/native-build", path], check=True, stdout=sys.stderr)
    return path


def build_twin(path):
    subprocess.run(["rustc", "--edition", "2021", "-O", "-o", path, f"{ROOT}/twin/main.rs"], check=True)
    return path


def time_files(programs, records, folder):
    """Times, memory and instructions on the three files; the first program is bench, the last the twin."""
    bench = programs[0][1]
    for name, rounds in (("Trace", trace), ("Resource", resource_samples), ("Mixed", mixed)):
        path, half, small = f"{folder}/all", f"{folder}/half", f"{folder}/small"
        count = write_file(path, rounds, records)
        write_file(half, rounds, records // 2)
        few = write_file(small, rounds, 1_000_000)
        turns = [[seconds(program, path) for _, program in programs] for _ in range(RUNS)]
        times = [min(column) for column in zip(*turns)]
        print(f"{name}: {count} records, {beside(programs, times, 's', 2)}", flush=True)
        halved = min(seconds(bench, half) for _ in range(RUNS))
        print(f"{name}: half of them, bench {halved:.2f} s; memory {memory(bench, half)} KiB for half, {memory(bench, path)} KiB for all")
        counts = [instructions(program, small, folder) for _, program in programs]
        if None in counts:
            print(f"{name}: no instructions counted of {[one for (one, _), number in zip(programs, counts) if number is None]}")
        else:
            print(f"{name}: a record, {beside(programs, [number / few for number in counts], 'instructions', 0)}", flush=True)


def beside(programs, figures, unit, places):
    """Each program's figure, and its ratio to the twin's, which is the last."""
    said = [f"{name} {figure:.{places}f} {unit} ({figure / figures[-1]:.2f})" for (name, _), figure in zip(programs, figures)]
    return ", ".join(said)


def main():
    print(f"machine: {processor()}")
    with tempfile.TemporaryDirectory() as folder:
        twin = ("twin", build_twin(f"{folder}/twin"))
        words = sys.argv[1:]
        only_kinds = words[:1] == ["kinds"]
        named = [tuple(word.split("=", 1)) for word in words if "=" in word]
        named = [(name, os.path.abspath(program)) for name, program in named]
        sizes = [word for word in words[only_kinds:] if "=" not in word]
        if len(sizes) > (not only_kinds) or not all(size.isdigit() for size in sizes):
            sys.exit(__doc__)
        if only_kinds and named:
            print_kinds(named + [twin], folder)
            return
        programs = [("bench", build_bench(f"{folder}/bench"))] + named + [twin]
        if not only_kinds:
            time_files(programs, int(sizes[0]) if sizes else 100_000_000, folder)
        print_kinds(programs, folder)


if __name__ == "__main__":
    main()
