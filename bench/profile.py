#!/usr/bin/env python3
"""Counts the instructions of `exportdata show` by what they are for, on three files that Go's own exporter wrote.

The files are made as bench/peer.py makes its file: `small` has many small declarations, `wide` ten structs with 2,000 fields and 2,000
methods each, and `values` constants and instances of generic types. `valgrind --tool=callgrind` counts, once all, once what is called in
reading a declaration and once what is called in printing one; what is left is the session, the words and the output. Reading is told by
its parts, and what the compiler put into its caller counts with the caller. Build exportdata first, as README.md says; nothing is
measured where Go, x/tools or valgrind is missing.

usage: bench/profile.py [PROGRAM]
"""
import os
import re
import shutil
import subprocess
import sys
import tempfile

from peer import build, source

# The functions within which a declaration is read, and printed.
READING = "decl_reader::declaration::read_decl*"
PRINTING = "decl_text::rendering::put_decl*"

# What the functions of reading are for: the first that fits.
PARTS = [
    ("getting memory", r"malloc\.c:(?!_int_free|malloc_consolidate|unlink)|rattle_(re)?alloc|Vec::(grow|move_to)"),
    ("giving it back", r"free|malloc_consolidate|unlink_chunk|rattle_dealloc|drop|destroy|Destruct"),
    ("numbers", r"wire_bytes::(number|cursor)"),
    ("texts", r"read_text|read_path|wire_bytes::(text|strings)|file_parts|go_values::byte_list"),
    ("positions", r"read_pos|position_codec"),
    ("places", r"decl_reader::(places|table|reading::Reading::known_at)|btree|arrayvec"),
    ("nodes", r"type_terms|decl_reader::nodes|indexmap|hash|smallvec"),
    ("descriptors", r"decl_reader|block_reader|session_env"),
    ("basic types", r"session_files|RefSliceOrd"),
    ("copying bytes", r"memcpy|memmove|memset|Vec::extend"),
]


def small(count):
    return source(count), [f"{kind}{i:05}" for kind in ("Func", "Root", "Size", "Tree") for i in range(count)]


def wide(count, members):
    lines, names = ["package p"], [f"Wide{i:03}" for i in range(count)]
    for name in names:
        types = ["int", "string", "[]byte", f"*{name}", "map[string]int", "error"]
        lines.append(f"type {name} struct {{")
        lines += [f"\tField{j:04} {types[j % 6]}" for j in range(members)] + ["}"]
        lines += [f"func (w *{name}) Method{j:04}(key int, name string) (found bool, err error) {{ panic(0) }}" for j in range(members)]
    return "\n".join(lines), names


def values(count):
    lines = ["package p", "type Pair[A, B any] struct { First A; Second B }", "type List[E any] struct { Item E; Next *List[E] }"]
    types, names = ["int", "string", "[]byte", "bool", "error", "*Pair[int, bool]"], []
    for i in range(count):
        a, b = types[i % 6], types[i // 6 % 6]
        declared = ["const %s = " + str(i * i), f'const %s = "text {i}"', f"const %s uint32 = {i}", "const %s = true",
                    f"var %s Pair[{a}, {b}]", f"var %s List[{a}]", f"var %s []List[Pair[{b}, {a}]]", f"var %s map[string]List[{b}]"][i % 8]
        names.append(f"Value{i:05}")
        lines.append(declared % names[-1])
    return "\n".join(lines), names


def counts(program, path, names, folder, within=None):
    """The instructions of each function, of all that runs or of what is called within one."""
    out = os.path.join(folder, "callgrind.out")
    command = ["valgrind", "--tool=callgrind", "--callgrind-out-file=" + out] + (["--toggle-collect=" + within] if within else [])
    command += [program, "show", "f:p=" + path, "--"] + ["p:" + name for name in names]
    subprocess.run(command, stdout=subprocess.DEVNULL, stderr=subprocess.DEVNULL, check=True)
    text = subprocess.run(["callgrind_annotate", "--threshold=100", out], capture_output=True, text=True, check=True).stdout
    return [(int(number.replace(",", "")), what) for number, what in re.findall(r"^ *([\d,]+) \([^)]*\)  (\S+:.*?)(?: \[.*)?$", text, re.M)]


def total(counted):
    return sum(number for number, _ in counted)


def parts(counted):
    """The instructions of each part of reading."""
    sums = dict.fromkeys([name for name, _ in PARTS] + ["other"], 0)
    for number, what in counted:
        sums[next((name for name, pattern in PARTS if re.search(pattern, what)), "other")] += number
    return sums


def main():
    here = os.path.dirname(os.path.abspath(__file__))
    program = os.path.abspath(sys.argv[1] if len(sys.argv) > 1 else os.path.join(here, "../crates/exportdata/out/exportdata"))
    with tempfile.TemporaryDirectory() as folder:
        peer = build(folder)
        if peer is None or shutil.which("valgrind") is None:
            print("skipped: no Go, no x/tools or no valgrind")
            return
        for kind, (text, names) in {"small": small(7_500), "wide": wide(10, 2_000), "values": values(40_000)}.items():
            go, path = os.path.join(folder, kind + ".go"), os.path.join(folder, kind + ".x")
            with open(go, "w") as out:
                out.write(text)
            subprocess.run([peer, "write", go, path], check=True)
            size = os.path.getsize(path)
            every, read, printed = (counts(program, path, names, folder, within) for within in (None, READING, PRINTING))
            rest = total(every) - total(read) - total(printed)
            print(f"{kind}: {size} bytes, {len(names)} names, {total(every) / size:.1f} instructions a byte: reading {total(read) / size:.1f}, "
                  f"printing {total(printed) / size:.1f}, session, words and output {rest / size:.1f}")
            print("  reading: " + "; ".join(f"{name} {number / size:.1f}" for name, number in parts(read).items()))


main()
