#!/usr/bin/env python3
"""Doubles what the cost of a call grows with, and in turn each thing that it doesn't grow with.

Usage: checks/costs.py [--over-gate] [ROW..]

docs/ARCHITECTURE.md says of each call of a book what its cost grows with. checks/costs.c makes a lock table for a row and makes one call,
whose instructions callgrind counts: once with ordinary quantities, and once for each quantity with that one doubled and all others the
same. The count may be at most 2.2 times the first if the row's cost grows with the quantity, and has to be more than 1.2 times the first
if it grows mainly with that; at most 1.6 times if most of the cost grows with others; 1.25 times if it grows with words of bits or vectors
of the quantity; and else 1.1 times. What the rows here say is what the document says, not what was counted.

Builds the library first, if it isn't built; with --over-gate, takes the one that checks/embedding has left. Needs a C compiler, `$CC` or
cc, and valgrind, without which nothing is counted. Prints a line for each row. With names of rows counts those alone, and prints what it
has counted. The last line is 'N passed, M failed', and what was left out.
"""
import argparse
import os
import re
import shlex
import shutil
import subprocess
import sys
import tempfile
from concurrent.futures import ThreadPoolExecutor
from pathlib import Path

TOP = Path(__file__).resolve().parent.parent

# what the doubled count may be at most, as a multiple of the first
SQUARE, GROWS, PARTLY, WORDS, STAYS = 4.4, 2.2, 1.6, 1.25, 1.1
# what it has to be more than, of the quantity that a row's cost grows with mainly: the first one that the row names
LEAST = 1.2
# what every row has; checks/costs.c says what each is
USUAL = {"sessions": 512, "resources": 1500, "others": 700, "elsewhere": 50, "history": 2000, "own": 40}
HERE = {"holders": 100, "queue": 60, "kept": 20}


class Row:
    """A call, with the quantities that it has beside the usual ones, and how its cost grows with each."""

    def __init__(self, name, has=(), square=(), grows=(), partly=(), words=(), n=0, usual=USUAL, kept=()):
        self.name = name
        self.kept = kept
        self.quantities = {**usual, **{what: HERE[what] for what in has}, **({"n": n} if n else {})}
        self.main = [*square, *grows][:1]
        self.factors = {what: factor for names, factor in ((words, WORDS), (partly, PARTLY), (grows, GROWS), (square, SQUARE)) for what in names}

    def changes(self):
        """Each quantity with another number, and the greatest multiple of the count with it: doubled, or as many deadlocks kept in place of none."""
        return [("kept", *pair) for pair in self.kept] or [(what, 2 * number, self.factors.get(what, STAYS)) for what, number in self.quantities.items()]

    def variants(self):
        """The quantities as they are, and then with each change in turn."""
        return [self.quantities, *({**self.quantities, what: number} for what, number, _ in self.changes())]

    def line(self, quantities):
        """A line of the input of checks/costs.c."""
        return f"{self.name}: {' '.join(f'{what}={number}' for what, number in quantities.items())}\n"


BOTH = ("holders", "queue")
ROWS = [
    Row("begin"),
    Row("poll"),
    Row("lock, of a free resource"),
    Row("lock, below four ancestors"),
    Row("lock, beside other holders", ["holders"], words=["holders"]),
    Row("convert, of a single holder"),
    Row("convert, beside other holders", ["holders"], words=["holders"]),
    Row("convert, before a queue", ["queue"], grows=["queue"]),
    Row("try, of a free resource"),
    Row("try, refused", BOTH, words=["holders"]),
    Row("lock, that waits for holders", ["holders"], grows=["holders"], words=["sessions"]),
    Row("lock, that waits behind requests for its mode", BOTH, grows=["queue", "elsewhere"], words=["sessions"]),
    Row("lock, that waits behind requests for other modes", BOTH, grows=["queue", "holders", "elsewhere"], words=["sessions"]),
    Row("convert, that waits", BOTH, grows=["queue", "holders", "elsewhere"], words=["sessions"]),
    Row("lock, that closes a cycle", grows=["n"], partly=["sessions"], words=["elsewhere"], n=100),
    Row("lock, that closes many cycles", square=["n"], partly=["sessions"], words=["elsewhere"], n=100),
    Row("lock, that makes 1000 victims", n=1000, usual={"sessions": 1024}, kept=[(1, 2.5), (1000, 20)]),
    Row("lock, that closes a cycle that is kept", ["kept"], grows=["n", "sessions"], words=["elsewhere"], n=100),
    Row("lock, that closes many cycles that are kept", ["kept"], square=["n"], grows=["sessions"], partly=["kept", "elsewhere"], n=100),
    Row("release, the first", grows=["own"]),
    Row("release, the next"),
    Row("release, that frees requests", ["queue"], grows=["queue", "own"], words=["sessions"]),
    Row("commit", grows=["own"]),
    Row("commit, beside other holders", ["holders"], grows=["own"], words=["holders"]),
    Row("commit, that frees requests", ["queue"], grows=["queue", "own"], words=["sessions"]),
    Row("commit, that frees readers before writers", ["queue"], grows=["queue", "own"], words=["sessions"]),
    Row("commit, that frees eight readers before writers", ["queue"], grows=["queue", "own"], words=["sessions"]),
    Row("commit, that frees the first of a queue", ["queue"], grows=["own", "queue"], words=["sessions"]),
    Row("withdraw", BOTH, grows=["queue"], words=["holders", "sessions"]),
    Row("abort", BOTH, grows=["queue", "own"], words=["holders", "sessions"]),
    Row("restart", BOTH, grows=["queue", "own"], words=["holders", "sessions"]),
    Row("serve_batch", grows=["n"], n=100),
    Row("run", grows=["own"]),
    Row("held", ["holders"]),
    Row("transaction"),
    Row("request", BOTH, grows=["queue"]),
    Row("holders", ["holders"], grows=["holders"]),
    Row("blockers", BOTH, grows=["sessions"], words=["holders", "queue"]),
    Row("blockers, of a session that doesn't wait", BOTH),
    Row("dump", BOTH, grows=["resources", "others", "holders", "queue", "elsewhere", "own", "sessions"], n=8),
    Row("dump_line, of all lines", square=["queue"], usual={"sessions": 512, "queue": 240}),
    Row("counts", BOTH, grows=["sessions"]),
    Row("locks_held", BOTH),
    Row("locks_of, of few", BOTH, grows=["own", "n"], n=8),
    Row("locks_of, of many", BOTH, grows=["own"], n=100),
    Row("ended", ["queue"], words=["queue"]),
    Row("length"),
    Row("keep_at_most"),
    Row("history", grows=["n"], n=200),
    Row("take_history", grows=["n"], n=200),
    Row("reserve, resources", grows=["resources"], partly=["n"], n=3000),
    Row("shrink", grows=["n"], partly=["resources", "sessions", "history", "others"], n=2000),
    Row("deadlocks", grows=["n"], usual={"sessions": 512, "kept": 600}, n=50),
    Row("open", grows=["sessions"], usual={"sessions": 512}),
    Row("open, to keep deadlocks", grows=["kept"], square=["sessions"], usual={"sessions": 512, "kept": 100}),
    Row("close", grows=["elsewhere", "sessions"], partly=["resources", "others", "own", "n"], n=600),
]


def build_program(folder):
    """Builds checks/costs.c against the library for C."""
    program = folder / "costs"
    compiler = shlex.split(os.environ.get("CC", "cc"))
    flags = ["-O1", f"-I{TOP}/out", f"-L{TOP}/out", "-lpelgaisti"]
    subprocess.run([*compiler, TOP / "checks/costs.c", *flags, "-o", program], check=True)
    return program


def counts_of(row, program):
    """The instructions of the row's call, with its quantities as they are and then with each doubled in turn."""
    # the first one is counted twice, since the first time a program calls a function of a shared library this is looked up
    variants = row.variants()
    variants.insert(0, variants[0])
    with tempfile.TemporaryDirectory() as folder:
        out = Path(folder) / "out"
        flags = [f"--callgrind-out-file={out}", "--toggle-collect=measured_call", "--dump-after=measured_call"]
        ran = subprocess.run(["valgrind", "--tool=callgrind", *flags, program], input="".join(map(row.line, variants)), text=True,
                             stdout=subprocess.DEVNULL, stderr=subprocess.PIPE, timeout=300)
        if ran.returncode:
            sys.exit(f"{row.name}: callgrind failed: {ran.stderr}")
        dumps = [Path(f"{out}.{number}").read_text() for number in range(2, len(variants) + 1)]
    return [int(re.search(r"^totals: (\d+)$", dump, re.MULTILINE)[1]) for dump in dumps]


def faults_of(row, counts):
    """What is wrong with the counts."""
    first, *changed = counts
    for (quantity, number, most), count in zip(row.changes(), changed):
        times = count / first
        if times > most:
            yield f"{times:.2f} times as many with {number} {quantity}, at most {most}"
        if quantity in row.main and times <= LEAST:
            yield f"{times:.2f} times as many with {number} {quantity}, which it is said to grow with"


def main():
    parser = argparse.ArgumentParser(description=__doc__, formatter_class=argparse.RawDescriptionHelpFormatter)
    parser.add_argument("--over-gate", action="store_true", help="takes what a full run of the gate has left")
    parser.add_argument("rows", nargs="*", metavar="ROW", help="the names of rows, or their beginnings")
    given = parser.parse_args()
    if not shutil.which("valgrind"):
        print("0 passed, 0 failed; instructions left out, since valgrind isn't on the path")
        return
    if not given.over_gate:
        subprocess.run(["./embed"], cwd=TOP, stdout=subprocess.DEVNULL, check=True)
    rows = [row for row in ROWS if not given.rows or row.name.startswith(tuple(given.rows))]
    passed = 0
    with tempfile.TemporaryDirectory() as name, ThreadPoolExecutor(os.cpu_count()) as pool:
        program = build_program(Path(name))
        for row, counts in zip(rows, pool.map(lambda row: counts_of(row, program), rows)):
            faults = list(faults_of(row, counts))
            passed += not faults
            print(f"{row.name}: {counts[0]} instructions{''.join(f'; {fault}' for fault in faults)}")
            if given.rows:
                for (quantity, number, _), count in zip(row.changes(), counts[1:]):
                    print(f"    {quantity} {row.quantities.get(quantity, 0)}, then {number}: {count / counts[0]:.3f} times")
    print(f"{passed} passed, {len(rows) - passed} failed")
    sys.exit(1 if passed < len(rows) else 0)


if __name__ == "__main__":
    main()
