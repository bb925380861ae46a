#!/usr/bin/env python3
"""Times `exportdata show` of all names of a full file of some megabytes against `cat` of the text that it prints and a plain scan of the file.

The file declares groups of a defined type (a struct that names itself, with a method), a function, a constant and a variable. The scan is `wc -l`, which looks
at each byte once. Each run times the three one after the other, each into a file, and the ratios are taken within the run. Build the program first, as README.md
says.

usage: bench/show.py [PROGRAM [GROUPS]]
"""
import os
import statistics
import sys
import tempfile

from spelling import uvarint, varint
from timing import timed

GROUPS = 10_000
RUNS = 7
INT, STRING, BYTE, ERROR = 1, 16, 17, 19


class File:
    """A full file in the making: its strings, its data and its names."""

    def __init__(self):
        self.strings, self.offsets = bytearray(), {}
        self.body, self.names = bytearray(), {}
        self.place = None

    def text(self, text):
        if text not in self.offsets:
            self.offsets[text] = len(self.strings)
            self.strings += uvarint(len(text)) + text
        return uvarint(self.offsets[text])

    def pos(self, line, column):
        """A position in `p.go`, after the one before it in the block."""
        old_line, old_column = self.place or (0, 0)
        first = self.place is None
        moved = first or line != old_line
        out = varint(2 * (column - old_column) + moved)
        if moved:
            out += varint(2 * (line - old_line) + first)
        if first:
            out += self.text(b"p.go")
        self.place = (line, column)
        return out

    def descriptor(self, make):
        """Adds a descriptor, whose parts are made once its place is known, and gives the number that names it."""
        self.place = None
        number = 32 + len(self.body)
        self.body += make()
        return number

    def declare(self, name, make):
        self.place = None
        self.names[name] = len(self.body)
        self.body += make()

    def bytes(self):
        index = bytearray(uvarint(1) + self.text(b"") + self.text(b"p") + uvarint(0) + uvarint(len(self.names)))
        for name in sorted(self.names):
            index += self.text(name) + uvarint(self.names[name])
        head = b"i" + uvarint(2) + uvarint(len(self.strings)) + uvarint(len(self.body))
        return head + bytes(self.strings) + bytes(self.body) + bytes(index)


def group(file, i):
    """A type `Ti` with a method, a function `Fi`, a constant `Ci` and a variable `Vi`."""
    line = 10 * i + 2
    name = b"Tree%05d" % i
    named = file.descriptor(lambda: uvarint(0) + file.text(name) + file.text(b""))
    pointer = file.descriptor(lambda: uvarint(1) + uvarint(named))
    names = file.descriptor(lambda: uvarint(5) + uvarint(STRING) + uvarint(pointer))
    octets = file.descriptor(lambda: uvarint(2) + uvarint(BYTE))

    def field(k, what, ty):
        return file.pos(line + k, 2) + file.text(what) + uvarint(ty) + uvarint(0) + file.text(b"")

    def param(what, ty, column):
        return file.pos(line + 7, column) + file.text(what) + uvarint(ty)

    struct = file.descriptor(lambda: uvarint(7) + file.text(b"") + uvarint(4) + field(1, b"key", INT) + field(2, b"next", pointer)
                             + field(3, b"names", names) + field(4, b"data", octets))
    file.declare(name, lambda: b"T" + file.pos(line, 6) + uvarint(struct) + uvarint(1) + file.pos(line + 6, 15) + file.text(b"Find")
                 + param(b"t", pointer, 7) + uvarint(1) + param(b"key", INT, 20) + uvarint(2) + param(b"", named, 30) + param(b"", ERROR, 40) + uvarint(0))
    file.declare(b"Func%05d" % i, lambda: b"F" + file.pos(line + 7, 6) + uvarint(2) + param(b"t", named, 17) + param(b"data", octets, 27)
                 + uvarint(1) + param(b"err", ERROR, 42) + uvarint(0))
    file.declare(b"Size%05d" % i, lambda: b"C" + file.pos(line + 8, 7) + uvarint(INT) + varint(3) + bytes([2 * (i % 100)]))
    file.declare(b"Root%05d" % i, lambda: b"V" + file.pos(line + 9, 5) + uvarint(pointer))


def main():
    here = os.path.dirname(os.path.abspath(__file__))
    program = os.path.abspath(sys.argv[1] if len(sys.argv) > 1 else os.path.join(here, "../crates/exportdata/out/exportdata"))
    groups = int(sys.argv[2]) if len(sys.argv) > 2 else GROUPS
    file = File()
    for i in range(groups):
        group(file, i)
    data = file.bytes()
    with tempfile.TemporaryDirectory() as folder:
        path = os.path.join(folder, "p.x")
        with open(path, "wb") as out:
            out.write(data)
        printed, copied = os.path.join(folder, "printed"), os.path.join(folder, "copied")
        command = [program, "show", "f:p=" + path, "--"] + ["p:" + name.decode() for name in sorted(file.names)]
        timed(command, printed)
        with open(printed, "rb") as text:
            last = text.read().splitlines()[-1]
        assert last == b"decoded %d of %d" % (len(file.names), len(file.names)), last
        rows = [(timed(command, printed), timed(["cat", printed], copied), timed(["wc", "-l", path], copied)) for _ in range(RUNS)]
        size = os.path.getsize(printed)
    ours = statistics.median(row[0][0] for row in rows)
    print(f"{len(data)} bytes, {len(file.names)} names, {size} bytes printed, {RUNS} runs")
    print(f"show: {ours * 1000:.1f} ms (median), {ours / len(data) * 1e9:.0f} ns a byte of the file, {max(row[0][2] for row in rows) / len(data):.1f} bytes of memory a byte")
    for k, what in [(1, "cat of the text"), (2, "a scan of the file")]:
        ratios = [row[0][0] / row[k][0] for row in rows]
        print(f"ratio to {what}: median {statistics.median(ratios):.1f}, least {min(ratios):.1f}, greatest {max(ratios):.1f}")


if __name__ == "__main__":
    main()
