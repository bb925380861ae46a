#!/usr/bin/env python3
"""Measures what the gate takes for each crate from nothing, in seconds of a processor: its proof (with its tests), and its
must-fail edits (with the check before them).

It works on a copy, in which each crate's root file gets a comment that no other run has, so nothing of it is kept. Each
crate is measured twice, lowest first: without its edits, and then with them.

usage: bench/gate.py [CRATE ..]
"""
import os
import re
import shutil
import subprocess
import sys
import tempfile
import time


def crates(top):
    """The crates and what each stands on, in the order of crates.txt, which has the lowest first."""
    rows = []
    with open(os.path.join(top, "crates.txt")) as file:
        for line in file:
            row = re.match(r"(\w+)[^:]*:(.*)", line)
            if row:
                rows.append((row[1], row[2].split()))
    return rows


def processor_seconds(top, crate):
    """What `rt ci CRATE` takes of processors, and its last line."""
    with tempfile.TemporaryFile() as out:
        child = subprocess.Popen(["rt", "ci", crate], cwd=top, stdout=out, stderr=subprocess.STDOUT)
        _, status, used = os.wait4(child.pid, 0)
        out.seek(0)
        lines = out.read().decode().splitlines()
    verdict = next((line for line in reversed(lines) if re.match(r"\d+ passed", line)), "no verdict")
    if os.waitstatus_to_exitcode(status) != 0:
        sys.exit(f"{crate}: {verdict}")
    return used.ru_utime + used.ru_stime


def main():
    here = os.path.abspath(os.path.join(os.path.dirname(__file__), ".."))
    asked = sys.argv[1:]
    with tempfile.TemporaryDirectory() as folder:
        top = os.path.join(folder, "copy")
        shutil.copytree(here, top, ignore=shutil.ignore_patterns("out", ".git"))
        sums = [0.0, 0.0]
        for name, _ in crates(top):
            if asked and name not in asked:
                continue
            crate = os.path.join(top, "crates", name)
            root = next(path for path in (os.path.join(crate, "src", file) for file in ("lib.rt", "main.rt")) if os.path.exists(path))
            with open(root, "a") as file:
                file.write(f"// Measured at {time.time_ns()}.\n")
            edits, aside = os.path.join(crate, "must-fail"), os.path.join(folder, "edits")
            has_edits = os.path.isdir(edits)
            if has_edits:
                shutil.move(edits, aside)
            proof, tried = processor_seconds(top, name), 0.0
            if has_edits:
                shutil.move(aside, edits)
                tried = processor_seconds(top, name)
            sums = [sums[0] + proof, sums[1] + tried]
            print(f"| `{name}` | {proof:.0f} | {tried:.0f} |", flush=True)
        print(f"| all | {sums[0]:.0f} | {sums[1]:.0f} |")


main()
