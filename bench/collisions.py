#!/usr/bin/env python3
"""Times adding arrays to an arena whose lengths were chosen so that all nodes begin their search in one place of its table, against as
many arrays of the lengths 1, 2, 3 and so on.

An arena hashes its nodes with a fixed seed, so whoever writes a file can choose them so. bench/collisions, a Go program, finds the lengths by
trying; where Go is missing nothing is measured. Each run times both, one after the other. A run of as many words of which none is a number is
taken off both. Build the program first, by `rt run` in crates/node_bench.

usage: bench/collisions.py [PROGRAM]
"""
import os
import shutil
import statistics
import subprocess
import sys
import tempfile
import time

# how many nodes, and how many bits tell the group in a table of so many
SIZES = [(10_000, 11), (20_000, 12), (40_000, 13), (80_000, 14)]
RUNS = 5


def seconds(program, words):
    start = time.perf_counter()
    subprocess.run([program, "arrays"] + words, stdout=subprocess.DEVNULL, check=True)
    return time.perf_counter() - start


def main():
    here = os.path.dirname(os.path.abspath(__file__))
    program = os.path.abspath(sys.argv[1] if len(sys.argv) > 1 else os.path.join(here, "../crates/node_bench/out/node_bench"))
    if shutil.which("go") is None:
        print("skipped: no Go")
        return
    with tempfile.TemporaryDirectory() as folder:
        search = os.path.join(folder, "collisions")
        settings = dict(os.environ, GO111MODULE="off", GOFLAGS="-p=1", GOCACHE=os.path.join(folder, "cache"))
        subprocess.run(["go", "build", "-o", search, os.path.join(here, "collisions/main.go")], env=settings, check=True)
        for count, groups in SIZES:
            chosen = subprocess.run([search, str(count), str(groups)], capture_output=True, text=True, check=True).stdout.split()
            plain = [str(length) for length in range(1, count + 1)]
            rows = []
            for _ in range(RUNS):
                start = seconds(program, ["x" * len(word) for word in chosen])
                rows.append((seconds(program, chosen) - start, seconds(program, plain) - start))
            chosen_ms, plain_ms = (statistics.median(row[k] for row in rows) * 1000 for k in (0, 1))
            print(f"{count} arrays: chosen {chosen_ms:.1f} ms, others {plain_ms:.1f} ms (medians of {RUNS} runs)")


main()
