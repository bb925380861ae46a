#!/usr/bin/env python3
"""Makes the full files that were written by hand: the program's example, the tests' file with every kind of declaration, and
small ones that sessions of several files are made of.

The descriptions below say what each declaration is; what lays them out follows docs/FORMAT.md and uses nothing of ours.

usage: bench/worked_files.py shapes|every|of_int|of_string|of_int8|of_other|of_user|of_const|roles > FILE
"""
import sys

from spelling import uvarint, varint


class File:
    """A full file. Texts and descriptors are placed at their first mention; what holds them comes behind."""

    def __init__(self, name, others=()):
        self.name, self.others = name, others
        self.texts, self.strings = {}, b""
        self.descriptors, self.data = {}, b""
        self.index = []

    def text(self, text):
        if text not in self.texts:
            self.texts[text] = len(self.strings)
            self.strings += uvarint(len(text)) + text.encode()
        return uvarint(self.texts[text])

    def place(self, block):
        self.data += block
        return len(self.data) - len(block)

    def type(self, of):
        """A predeclared type is its number, another one a function that fills a block."""
        if isinstance(of, int):
            return uvarint(of)
        block = Block(self)
        of(block)
        if block.out not in self.descriptors:
            self.descriptors[block.out] = self.place(block.out)
        return uvarint(32 + self.descriptors[block.out])

    def declare(self, name, tag, fill):
        block = Block(self).numbers(ord(tag))
        fill(block)
        self.index.append((name, self.place(block.out)))

    def bytes(self):
        index = uvarint(1 + len(self.others)) + self.text("") + self.text(self.name) + uvarint(0)
        index += uvarint(len(self.index))
        for name, offset in sorted(self.index):
            index += self.text(name) + uvarint(offset)
        for path in self.others:
            index += self.text(path) + self.text("") + uvarint(0) + uvarint(0)
        head = b"i" + uvarint(2) + uvarint(len(self.strings)) + uvarint(len(self.data))
        return head + self.strings + self.data + index


class Block:
    """The bytes of a declaration or descriptor. A position is a file, a line and a column, or None."""

    def __init__(self, file):
        self.file, self.out, self.before = file, b"", ("", 0, 0)

    def numbers(self, *numbers):
        self.out += b"".join(map(uvarint, numbers))
        return self

    def text(self, text):
        self.out += self.file.text(text)
        return self

    def type(self, of):
        self.out += self.file.type(of)
        return self

    def types(self, types):
        self.numbers(len(types))
        for of in types:
            self.type(of)
        return self

    def pos(self, pos):
        pos = pos or ("", 0, 0)
        (file, line, column), self.before = self.before, pos
        other = pos[0] != file
        rises = other or pos[1] != line
        self.out += varint(2 * (pos[2] - column) + rises)
        if rises:
            self.out += varint(2 * (pos[1] - line) + other)
        if other:
            self.text(pos[0])
        return self

    def param(self, pos, name, of):
        return self.pos(pos).text(name).type(of)

    def sig(self, params, results, variadic=0):
        for each in (params, results):
            self.numbers(len(each))
            for param in each:
                self.param(*param)
        return self.numbers(variadic) if params else self

    def methods(self, methods):
        self.numbers(len(methods))
        for pos, name, receiver, params, results in methods:
            self.pos(pos).text(name).param(*receiver).sig(params, results)
        return self


def leaf(tag, name, path=""):
    return lambda b: b.numbers(tag).text(name).text(path)


def named(name, path=""):
    return leaf(0, name, path)


def param(name):
    return leaf(9, name)


def alias(name, path=""):
    return leaf(12, name, path)


def pointer(of):
    return lambda b: b.numbers(1).type(of)


def slice_of(of):
    return lambda b: b.numbers(2).type(of)


def array(length, of):
    return lambda b: b.numbers(3, length).type(of)


def chan(direction, of):
    return lambda b: b.numbers(4, direction).type(of)


def map_of(key, of):
    return lambda b: b.numbers(5).type(key).type(of)


def func(params, results):
    return lambda b: b.numbers(6).text("").sig(params, results)


def struct(*fields):
    def fill(b):
        b.numbers(7).text("").numbers(len(fields))
        for pos, name, of, embedded, tag in fields:
            b.param(pos, name, of).numbers(embedded).text(tag)
    return fill


def interface(embedded, methods):
    def fill(b):
        b.numbers(8).text("").numbers(len(embedded))
        for pos, of in embedded:
            b.pos(pos).type(of)
        b.numbers(len(methods))
        for pos, name, params, results in methods:
            b.pos(pos).text(name).sig(params, results)
    return fill


def instance(args, base):
    return lambda b: b.numbers(10).pos(None).types(args).type(base)


def union(*terms):
    def fill(b):
        b.numbers(11, len(terms))
        for tilde, of in terms:
            b.numbers(tilde).type(of)
    return fill


BOOL, INT, INT8, FLOAT64, STRING, ERROR, UNTYPED_INT, UNTYPED_STRING, COMPARABLE, ANY = 0, 1, 2, 13, 16, 19, 21, 25, 30, 31


def shapes():
    """The declarations of crates/exportdata/data/shapes.go."""
    file = File("shapes")

    def at(line, column):
        return "shapes.go", line, column

    element, square = param("List.E"), named("Square")
    next_type = pointer(instance([element], named("List")))
    file.declare("List", "U", lambda b: b.pos(at(16, 6)).types([element]).type(struct(
        (at(17, 2), "Item", element, 0, ""), (at(18, 2), "Next", next_type, 0, ""))).methods([]))
    file.declare("Shape", "T", lambda b: b.pos(at(5, 6)).type(interface([], [
        (at(6, 2), "Area", [], [(at(6, 9), "", FLOAT64)]), (at(7, 2), "Name", [], [(at(7, 9), "", STRING)])])))
    file.declare("Sides", "C", lambda b: b.pos(at(3, 7)).type(UNTYPED_INT).numbers(6, 8))
    file.declare("Square", "T", lambda b: b.pos(at(10, 6)).type(struct((at(11, 2), "Side", FLOAT64, 0, ""))).methods([
        (at(14, 17), "Area", (at(14, 7), "s", square), [], [(at(14, 24), "", FLOAT64)])]))
    file.declare("List.E", "P", lambda b: b.pos(at(16, 11)).numbers(0).type(ANY))
    return file


def every():
    """Each tag of a declaration and each of a descriptor at least once."""
    file = File("p", ["q"])

    def at(line, column):
        return "p.go", line, column

    of_b, of_g, of_u, of_get = param("B.P"), param("G.Q"), param("U.K"), param("U.Get.R")
    to_t = pointer(named("T"))
    file.declare("A", "A", lambda b: b.pos(at(2, 6)).type(alias("W", "q")))
    file.declare("B", "B", lambda b: b.pos(at(3, 6)).types([of_b]).type(slice_of(of_b)))
    file.declare("B.P", "P", lambda b: b.pos(at(3, 8)).numbers(0).type(ANY))
    file.declare("C", "C", lambda b: b.pos(at(4, 7)).type(UNTYPED_STRING).numbers(4).text('a "'))
    file.declare("F", "F", lambda b: b.pos(at(5, 6)).sig(
        [(None, "x", INT), (None, "", slice_of(INT))], [(None, "", ERROR)], 1))
    file.declare("G", "G", lambda b: b.pos(at(6, 6)).types([of_g]).sig([(None, "x", of_g)], []))
    file.declare("G.Q", "P", lambda b: b.pos(at(6, 8)).numbers(1).type(
        interface([(None, union((1, INT), (0, slice_of(STRING))))], [])))
    file.declare("T", "T", lambda b: b.pos(at(7, 6)).type(struct(
        (None, "f", func([], [(None, "", BOOL)]), 0, "t"), (None, "T", to_t, 1, ""))).methods([
            (at(8, 13), "M", (None, "t", to_t), [(None, "x", INT)], [])]))
    file.declare("U", "U", lambda b: b.pos(at(9, 6)).types([of_u]).type(map_of(STRING, of_u)).methods([
        (None, "Get", (None, "", instance([of_get], named("U"))), [], [(None, "r", of_get)])]))
    file.declare("I", "T", lambda b: b.pos(at(10, 6)).type(interface(
        [(None, COMPARABLE)], [(None, "M", [(None, "x", named("T"))], [(None, "", ERROR)])])))
    file.declare("V", "V", lambda b: b.pos(at(11, 5)).type(map_of(
        array(3, chan(1, INT)), chan(2, chan(3, instance([INT], alias("B")))))))
    return file


def of(name, of_type):
    """package p with `type NAME TYPE` at line 2, column 6."""
    file = File("p")
    file.declare(name, "T", lambda b: b.pos(("p.go", 2, 6)).type(of_type).methods([]))
    return file


def of_other():
    """package q with `const X p.D = -3`, where D is an int8."""
    file = File("q", ["p"])
    file.declare("X", "C", lambda b: b.pos(("q.go", 2, 7)).type(named("D", "p")).numbers(6, 5))
    return file


def roles():
    """package p, whose variables use names of it in roles that they have, and in such as they don't."""
    file = File("p")

    def at(line, column):
        return "p.go", line, column

    element = param("E.P")
    file.declare("C", "C", lambda b: b.pos(at(2, 7)).type(UNTYPED_INT).numbers(6, 2))
    file.declare("D", "T", lambda b: b.pos(at(3, 6)).type(INT).methods([]))
    file.declare("E", "U", lambda b: b.pos(at(4, 6)).types([element]).type(slice_of(element)).methods([]))
    file.declare("E.P", "P", lambda b: b.pos(at(4, 8)).numbers(0).type(ANY))
    uses = [
        ("A", named("C")), ("B", named("E")), ("F", instance([INT, INT], named("E"))), ("G", instance([INT], named("D"))),
        ("H", alias("D")), ("I", param("D")), ("J", named("E.P")), ("K", instance([INT], named("E"))),
        ("L", map_of(named("X"), named("D"))),
    ]
    for line, (name, of_type) in enumerate(uses, 5):
        file.declare(name, "V", lambda b: b.pos(at(line, 5)).type(of_type))
    return file


def of_user():
    """package p with `type T int` and `var V T`."""
    file = of("T", INT)
    file.declare("V", "V", lambda b: b.pos(("p.go", 3, 5)).type(named("T")))
    return file


def of_const():
    """package p with `const T = 1`."""
    file = File("p")
    file.declare("T", "C", lambda b: b.pos(("p.go", 2, 7)).type(UNTYPED_INT).numbers(6, 2))
    return file


FILES = {
    "shapes": shapes,
    "every": every,
    "of_int": lambda: of("T", INT),
    "of_string": lambda: of("T", STRING),
    "of_int8": lambda: of("D", INT8),
    "of_other": of_other,
    "of_user": of_user,
    "of_const": of_const,
    "roles": roles,
}

if __name__ == "__main__":
    sys.stdout.buffer.write(FILES[sys.argv[1]]().bytes())
