#!/usr/bin/env python3
"""Times replacing a type parameter in a graph of nodes, and opening an interface that embeds many others.

Each run times `set_bench` with a number and with ten times as many, so that growth is seen. A run of none is taken off,
which is what it costs to start a program. Build the program first, by `rt run` in crates/set_bench.

usage: bench/sets.py [PROGRAM]
"""
import os
import statistics
import subprocess
import sys
import time

RUNS = 7
COUNTS = {"replaced": (10_000, 100_000), "opened": (6_000, 60_000)}


def seconds(program, what, count):
    start = time.perf_counter()
    subprocess.run([program, what, str(count)], stdout=subprocess.DEVNULL, check=True)
    return time.perf_counter() - start


def main():
    here = os.path.dirname(os.path.abspath(__file__))
    program = os.path.abspath(sys.argv[1] if len(sys.argv) > 1 else os.path.join(here, "../crates/set_bench/out/set_bench"))
    for what, counts in COUNTS.items():
        for count in counts:
            rows = []
            for _ in range(RUNS):
                start = seconds(program, what, 0)
                rows.append((seconds(program, what, count) - start) * 1000)
            print(f"{what} {count}: median {statistics.median(rows):.1f} ms, least {min(rows):.1f}, greatest {max(rows):.1f}")


main()
