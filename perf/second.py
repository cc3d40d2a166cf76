#!/usr/bin/env python3
"""Count the instructions of chip2_run, the MultiKron II's program, and of its twin, both as native code.

    perf/second.py [SEED ..]

For each seed, 1000 to 1002 unless given, a file of 20,000 records by compare/generate2.py: callgrind's instructions a
record of both, and their ratio, which is to be 1.5 at most. It needs rt, rustc and valgrind.
"""

import os
import subprocess
import sys
import tempfile

from measure import ROOT, instructions, processor

RECORDS = 20_000


def main():
    seeds = [int(word) for word in sys.argv[1:]] or [1000, 1001, 1002]
    with tempfile.TemporaryDirectory() as folder:
        ours, twin = os.path.join(folder, "ours"), os.path.join(folder, "twin")
        subprocess.run([f"{ROOT}/perf/native-build", ours, "chip2_run"], check=True, stdout=sys.stderr)
        subprocess.run(["rustc", "--edition", "2021", "-O", "-o", twin, f"{ROOT}/twin2/main.rs"], check=True)
        print(f"{processor()}: instructions a record")
        sums = [0, 0]
        for seed in seeds:
            path = os.path.join(folder, "records")
            with open(path, "wb") as file:
                subprocess.run([sys.executable, f"{ROOT}/compare/generate2.py", str(seed), str(RECORDS)], stdout=file, check=True)
            counts = [instructions(program, path, folder) for program in (ours, twin)]
            sums = [before + count for before, count in zip(sums, counts)]
            print(f"seed {seed}: {counts[0] / RECORDS:.0f}, twin {counts[1] / RECORDS:.0f}, ratio {counts[0] / counts[1]:.2f}")
        print(f"all: {sums[0] / RECORDS / len(seeds):.0f}, twin {sums[1] / RECORDS / len(seeds):.0f}, ratio {sums[0] / sums[1]:.2f}")


if __name__ == "__main__":
    main()
