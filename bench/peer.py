#!/usr/bin/env python3
"""Times `exportdata show` of all names against golang.org/x/tools, on one file that its exporter wrote.

The peer is bench/peer, a program over x/tools' public `gcexportdata`. It is built here, from Debian's packages `golang-go`
and `golang-golang-x-tools-dev`; where they are missing nothing is measured. A Go source is made with groups of a defined
type (a struct that names itself, with a method), a function, a constant and a variable. The peer writes its file, and
each run times both programs reading it and printing all that it declares, and the peer reading it alone. Build exportdata
first, as README.md says.

usage: bench/peer.py [PROGRAM [GROUPS]]
"""
import os
import shutil
import statistics
import subprocess
import sys
import tempfile

from timing import timed

GROUPS = 7_500
RUNS = 7
GOPATH = "/usr/share/gocode"

GROUP = """
// Tree{0} is a tree.
type Tree{0} struct {{
	Key   int
	Next  *Tree{0}
	Names map[string]*Tree{0}
	Data  []byte
}}

func (t *Tree{0}) Find(key int) (found Tree{0}, err error) {{ panic(0) }}
func Func{0}(t Tree{0}, data []byte) (err error)          {{ panic(0) }}

const Size{0} int = {1}

var Root{0} *Tree{0}
"""


def source(groups):
    return "package p\n" + "".join(GROUP.format(f"{i:05}", i % 100) for i in range(groups))


def build(folder):
    """The peer, or nothing where Go or x/tools is missing."""
    tools = os.path.join(GOPATH, "src/golang.org/x/tools/go/gcexportdata")
    if shutil.which("go") is None or not os.path.isdir(tools):
        return None
    peer = os.path.join(folder, "peer")
    main = os.path.join(os.path.dirname(os.path.abspath(__file__)), "peer/main.go")
    settings = dict(os.environ, GO111MODULE="off", GOPATH=GOPATH, GOFLAGS="-p=1", GOCACHE=os.path.join(folder, "cache"))
    subprocess.run(["go", "build", "-o", peer, main], env=settings, check=True)
    return peer


def spread(values):
    return f"median {statistics.median(values):.2f}, least {min(values):.2f}, greatest {max(values):.2f}"


def main():
    here = os.path.dirname(os.path.abspath(__file__))
    program = os.path.abspath(sys.argv[1] if len(sys.argv) > 1 else os.path.join(here, "../crates/exportdata/out/exportdata"))
    groups = int(sys.argv[2]) if len(sys.argv) > 2 else GROUPS
    with tempfile.TemporaryDirectory() as folder:
        peer = build(folder)
        if peer is None:
            print("skipped: no Go, or no x/tools")
            return
        text, path, printed = (os.path.join(folder, name) for name in ("p.go", "p.x", "printed"))
        with open(text, "w") as out:
            out.write(source(groups))
        subprocess.run([peer, "write", text, path], check=True)
        names = [f"p:{kind}{i:05}" for kind in ("Func", "Root", "Size", "Tree") for i in range(groups)]
        ours = [program, "show", "f:p=" + path, "--"] + names
        timed(ours, printed)
        with open(printed, "rb") as lines:
            last = lines.read().splitlines()[-1]
        assert last == b"decoded %d of %d" % (len(names), len(names)), last
        rows = [(timed(ours, printed), timed([peer, "show", path], printed), timed([peer, "read", path], printed))
                for _ in range(RUNS)]
        size = os.path.getsize(path)
    print(f"{size} bytes, {len(names)} names, {RUNS} runs; seconds of a processor")
    for k, what in enumerate(["exportdata show", "x/tools, reading and printing", "x/tools, reading alone"]):
        taken = [row[k][1] for row in rows]
        memory = max(row[k][2] for row in rows)
        print(f"{what}: {spread(taken)}; {statistics.median(taken) / size * 1e9:.0f} ns a byte; {memory / size:.1f} bytes of memory a byte")
    print(f"x/tools to exportdata, reading and printing: {spread([row[1][1] / row[0][1] for row in rows])}")


if __name__ == "__main__":
    main()
