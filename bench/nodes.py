#!/usr/bin/env python3
"""Times adding 200,000 nodes to an arena against putting as many numbers into the kit's index map.

Each run times both, one after the other, and the ratio of the two times is taken within the run. A run of no nodes is
taken off both, which is what it costs to start a program. Build the program first, by `rt run` in crates/node_bench.

usage: bench/nodes.py [PROGRAM]
"""
import os
import statistics
import subprocess
import sys
import time

COUNT = 200_000
RUNS = 11


def seconds(program, what, count):
    start = time.perf_counter()
    subprocess.run([program, what, str(count)], stdout=subprocess.DEVNULL, check=True)
    return time.perf_counter() - start


def main():
    here = os.path.dirname(os.path.abspath(__file__))
    program = os.path.abspath(sys.argv[1] if len(sys.argv) > 1 else os.path.join(here, "../crates/node_bench/out/node_bench"))
    rows = []
    for _ in range(RUNS):
        start = seconds(program, "nodes", 0)
        rows.append((seconds(program, "nodes", COUNT) - start, seconds(program, "numbers", COUNT) - start))
    ratios = [nodes / numbers for nodes, numbers in rows]
    print(f"{COUNT} of each, {RUNS} runs")
    print(f"nodes {statistics.median(r[0] for r in rows) * 1000:.1f} ms, numbers {statistics.median(r[1] for r in rows) * 1000:.1f} ms (medians)")
    print(f"ratio: median {statistics.median(ratios):.1f}, least {min(ratios):.1f}, greatest {max(ratios):.1f}")


main()
