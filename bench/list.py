#!/usr/bin/env python3
"""Times `exportdata list` on a full file near 16 MiB against `cat` of the text that it prints.

The file has one package with as many names as fit. Each run times both, one after the other, each into a file, and the
ratio of the two times is taken within the run, on the clock and of a processor. Build the program first, as README.md says.

usage: bench/list.py [PROGRAM]
"""
import os
import statistics
import sys
import tempfile

from spelling import uvarint
from timing import timed

NAMES = 480_000
RUNS = 11


def full_file():
    """A full file: its strings are the empty path, the package's name and the names, which rise."""
    strings = bytearray(b"\0\1p")
    entries = bytearray()
    for i in range(NAMES):
        name = b"Name%06dOfSomeLength" % i
        entries += uvarint(len(strings)) + uvarint(i)
        strings += uvarint(len(name)) + name
    body = bytes(NAMES)
    head = b"i" + uvarint(2) + uvarint(len(strings)) + uvarint(len(body))
    index = uvarint(1) + uvarint(0) + uvarint(1) + uvarint(0) + uvarint(NAMES) + bytes(entries)
    return head + bytes(strings) + body + index


def show(what, ours, theirs):
    ratios = [a / b for a, b in zip(ours, theirs)]
    print(f"{what}: list {statistics.median(ours) * 1000:.1f} ms, cat {statistics.median(theirs) * 1000:.1f} ms (medians);"
          f" ratio: median {statistics.median(ratios):.1f}, least {min(ratios):.1f}, greatest {max(ratios):.1f}")


def main():
    here = os.path.dirname(os.path.abspath(__file__))
    program = os.path.abspath(sys.argv[1] if len(sys.argv) > 1 else os.path.join(here, "../crates/exportdata/out/exportdata"))
    with tempfile.TemporaryDirectory() as folder:
        path = os.path.join(folder, "p.x")
        with open(path, "wb") as file:
            file.write(full_file())
        size = os.path.getsize(path)
        assert size <= 16 << 20, size
        printed = os.path.join(folder, "printed")
        copied = os.path.join(folder, "copied")
        command = [program, "list", "f:p=" + path]
        timed(command, printed)
        with open(printed, "rb") as file:
            assert file.read().count(b"\n") == NAMES + 1
        rows = [(timed(command, printed), timed(["cat", printed], copied)) for _ in range(RUNS)]
        print(f"{size} bytes, {NAMES} names, {os.path.getsize(printed)} bytes printed, {RUNS} runs")
        for k, what in enumerate(["on the clock", "of a processor"]):
            show(what, [ours[k] for ours, _ in rows], [theirs[k] for _, theirs in rows])


main()
