#!/usr/bin/env python3
"""Times `exportdata check` of full files that double in size: many small declarations, one struct that as many variables share
as it has fields, and constants whose type is the end of a chain of as many aliases.

A check of time near linear in the file takes about twice as long for each next row. Build the program first, as README.md says.

usage: bench/check.py [PROGRAM]
"""
import os
import statistics
import sys
import tempfile

from show import File, group
from spelling import uvarint, varint
from timing import timed

RUNS = 5
INT = 1


def declarations(count):
    """A defined type, a function, a constant and a variable, so many times."""
    file = File()
    for i in range(count):
        group(file, i)
    return file


def shared(count):
    """One struct of so many fields, and so many variables of it."""
    file = File()

    def struct():
        fields = b"".join(file.pos(2, 2) + file.text(b"f%06d" % i) + uvarint(INT) + uvarint(0) + file.text(b"") for i in range(count))
        return uvarint(7) + file.text(b"") + uvarint(count) + fields

    number = file.descriptor(struct)
    for i in range(count):
        file.declare(b"V%06d" % i, lambda: b"V" + file.pos(i + 3, 5) + uvarint(number))
    return file


def aliases(count):
    """So many aliases, each of the one before it, and so many constants of the last."""
    file = File()
    of = INT
    for i in range(count):
        name = b"A%06d" % i
        file.declare(name, lambda: b"A" + file.pos(i + 2, 6) + uvarint(of))
        of = file.descriptor(lambda: uvarint(12) + file.text(name) + file.text(b""))
    for i in range(count):
        file.declare(b"C%06d" % i, lambda: b"C" + file.pos(i + count + 2, 7) + uvarint(of) + varint(3) + bytes([2]))
    return file


def main():
    here = os.path.dirname(os.path.abspath(__file__))
    program = os.path.abspath(sys.argv[1] if len(sys.argv) > 1 else os.path.join(here, "../crates/exportdata/out/exportdata"))
    for what, make, counts in [("declarations", declarations, (2_500, 5_000, 10_000, 20_000, 40_000)),
                               ("a shared struct", shared, (2_000, 4_000, 8_000, 16_000, 32_000)),
                               ("a chain of aliases", aliases, (12_500, 25_000, 50_000, 100_000))]:
        print(what)
        for count in counts:
            file = make(count)
            data = file.bytes()
            with tempfile.TemporaryDirectory() as folder:
                path, printed = os.path.join(folder, "p.x"), os.path.join(folder, "printed")
                with open(path, "wb") as out:
                    out.write(data)
                runs = [timed([program, "check", "f:p=" + path], printed) for _ in range(RUNS)]
                with open(printed, "rb") as text:
                    said = text.read()
            assert said.endswith(b" ok %d\n" % len(file.names)), said[:200]
            took = statistics.median(run[1] for run in runs)
            print(f"  {len(data):>9} bytes, {len(file.names):>6} names: {took * 1000:7.1f} ms of a processor,"
                  f" {took / len(data) * 1e9:4.0f} ns a byte")


main()
