#!/usr/bin/env python3
"""Counts what no contract sees: the instructions of the lock table's fast ways, and the memory that idle cells give back.

Usage: checks/instructions.py [--over-gate]

Each case has calls that go a fast way, and a bound on the instructions of one of them, counted by callgrind through the library for
C (checks/instructions.c). A new book serves the calls behind what leads up to them, and what leads up alone: the count is the
difference. A pass of an office serves locks, and calls of one thread are performed at once, with no waker and with one that has
nobody to wake. A transfer is made by single calls and by programs, of an office and of a book: what the office takes beyond the
book is its hand-over. A bound is some 20 per cent above what was counted when it was set (more for the smallest count), and below
what the calls cost without the fast way, as tried in builds in which it was broken; for a second holder, with the least that two
requests for memory take. If calls have become dearer for a good reason, set the bound anew.

The dearest calls known are counted, too: searches for cycles (bench/worst.py) by `glm replay`, as the difference between traces with
them and without, and others through the library for C (checks/dear_calls.c). A search for cycles that takes the square of the sessions
for each victim goes far beyond their bounds. Names of resources that collide with one seed of the hash cost with another seed what
ordinary names do; with that seed they cost many times as much, or the choice of names is wrong.

Memory is the peak of `glm replay` over short transactions on ever new resources, against as many rows on few resources.

Builds the programs and the library first, if they aren't built; with --over-gate, takes those that a full run of the gate and
checks/embedding have left. Needs a C compiler, `$CC` or cc. Without valgrind no instructions are counted. Prints a line for each
case. The last line is 'N passed, M failed', and what was left out.
"""
import argparse
import os
import re
import shlex
import shutil
import subprocess
import sys
import tempfile
from concurrent.futures import ThreadPoolExecutor
from pathlib import Path

TOP = Path(__file__).resolve().parent.parent
sys.dont_write_bytecode = True
sys.path.insert(0, str(TOP / "bench"))
import worst  # noqa: E402

GLM = TOP / "crates/glm_main/out/glm_main"
# the greatest peak over ever new resources, as a multiple of the peak over few
MOST_MEMORY = 1.05
# the greatest cost of ordinary names, as a part of the cost of names that collide with the seed; and the greatest of names that collide
# with another seed, as a multiple of the cost of ordinary names
MOST_ORDINARY, MOST_CHOSEN = 0.3, 1.1


def transaction(session, *calls):
    return [f"{session},begin,,", *calls, f"{session},commit,,"]


# Each case returns the rows that lead up to the calls, the calls, and the calls without which they are counted, if any.


def first_locks():
    """4,000 locks of databases of one's own, of one transaction."""
    return ["1,begin,,"], [f"1,lock,{number},X" for number in range(4000)], []


def parents():
    """What locks of records take beyond locks of databases. The session holds them already, with the records' parents."""
    records = [f"1,lock,1/1/1/{record},X" for record in range(20)]
    databases = [f"1,lock,{2 + database},X" for database in range(20)]
    lead = ["1,begin,,", *databases, "1,lock,1,IX", "1,lock,1/1,IX", "1,lock,1/1/1,IX", *records]
    return lead, records * 100, databases * 100


def ends():
    """4,000 locks are given back by a commit. Counts as 4,000 calls."""
    lead, locks, _ = first_locks()
    return lead + locks, ["1,commit,,"], []


def readers():
    return [row for session in range(1, 251) for row in (f"{session},begin,,", f"{session},lock,1,S")]


def readers_beside_readers():
    """A reader comes to a database that 250 others read."""
    return readers(), transaction(251, "251,lock,1,S") * 1000, []


def writers_beside_readers():
    """A writer waits for 250 readers of a database, and aborts."""
    return readers(), ["251,begin,,", "251,lock,1,X", "251,abort,,"] * 1000, []


def new_resources():
    """What locks of ever new databases take if two sessions share each, beyond locks that none share. 12 each, and commits."""

    def turns(apart):
        rows = []
        for turn in range(100):
            first = 1000 + 24 * turn
            locks = [f"{session},lock,{first + number + apart * session},S" for session in (1, 2) for number in range(12)]
            rows += ["1,begin,,", "2,begin,,", *locks, "1,commit,,", "2,commit,,"]
        return rows

    return [], turns(0), turns(12)


# Each case: the fast way, its calls, how many they count as (None: as many as they are), the most instructions of one of them.
CASES = [
    ("a single holder is kept in its cell, without a list", first_locks, None, 975),
    ("the parent's cell is found at the noted place, without a hash", parents, None, 105),
    ("the cell of a lock that ends is found at the noted place, without a hash", ends, 4000, 205),
    ("modes of many holders are tested 16 at a time", readers_beside_readers, None, 635),
    ("a wait for many holders is written by their mask", writers_beside_readers, None, 1660),
    ("a second holder joins the first without memory", new_resources, None, 86),
]
# Each of the dearest calls: what it is, its rows, the sessions, the most instructions of one.
DEAREST = [
    ("a request on a line of 1,024, 1,023 victims", worst.line, 1024, 30_000_000),
    ("a request on a line of 256, 255 victims", worst.line, 256, 1_900_000),
    ("a cycle of 1,024 whose asker is its victim, again and again", worst.again, 1024, 260_000),
    ("cycles with each of 1,022, 1,022 victims", worst.victims, 1024, 13_000_000),
    ("a request that leads on to 1,021, 1,021 victims", worst.fan, 1024, 13_000_000),
    ("the same, each waiting for those of higher numbers", worst.stairs, 1024, 15_000_000),
]
# What a thread alone does through the library for C: what it is, what checks/instructions.c does, the function of which the
# instructions are counted, how often it is called, how many calls it makes each time, the most instructions of one.
THROUGH_C = [
    ("locks are granted by a pass of an office", "locks", "pass_of_locks", 200, 32, 1250),
    ("a call is performed at once", "performs", "perform_transaction", 2000, 3, 770),
    ("a call is performed at once in an office with a waker", "wakes", "perform_transaction", 2000, 3, 770),
]

# Dear calls through the library for C: what it is, what checks/dear_calls.c does, how many calls or items it counts as, the most
# instructions of one.
DEAR_THROUGH_C = [
    ("a lock of 4,096, as the table grows", "growth", 4096, 935),
    ("a lock of 4,096, behind a reserve", "reserved", 4096, 720),
    ("a dump of 8,192 locks", "dump", 1, 3_100_000),
    ("a pass that serves 63 commits of 4,096 locks, for each lock", "commits", 63 * 4096, 280),
    ("a commit before 1,023 readers", "readers", 1, 375_000),
    ("a withdrawal from the front of a queue of 1,023", "withdraw", 1, 32_000),
    ("a poll of 4,096, of which 1,024 are kept", "history", 4096, 310),
    ("a shrink of 8,192 idle cells, for each", "idle", 8192, 22),
]

# A transfer of seven calls: by single calls and by two programs of an office, each with how a book is called for the same, and a bound.
# What an office takes beyond the book is its hand-over: that of programs is bounded by so much of that of calls.
TRANSFERS = ("calls", "served", 7050), ("programs", "ran", 6300)
MOST_OF_CALLS = 0.38


def counted(words, *flags, given=subprocess.DEVNULL):
    """The instructions of a command, as callgrind counts them."""
    valgrind = ["valgrind", "--tool=callgrind", "--callgrind-out-file=/dev/null", *flags]
    ran = subprocess.run([*valgrind, *words], stdin=given, stdout=subprocess.DEVNULL, stderr=subprocess.PIPE, text=True, timeout=120)
    found = re.search(r"Collected : (\d+)", ran.stderr)
    if ran.returncode or not found:
        sys.exit(f"callgrind failed on {words[0]}: {ran.stderr}")
    return int(found[1])


def instructions_of_rows(rows, program, folder):
    """The instructions by which a new book serves the rows."""
    with tempfile.NamedTemporaryFile("w", dir=folder, suffix=".csv") as trace:
        trace.writelines(row + "\n" for row in rows)
        trace.flush()
        return counted([program, "rows", trace.name], "--toggle-collect=serve_rows")


def instructions_of_a_call(case, program, folder):
    _, make, number, _ = case
    lead, calls, others = make()
    of_calls, of_others = (instructions_of_rows(lead + rows, program, folder) for rows in (calls, others))
    return (of_calls - of_others) / (number or len(calls))


def instructions_of_a_replay(rows, sessions, folder):
    """The instructions by which the program replays a trace."""
    with tempfile.TemporaryFile("w+", dir=folder) as trace:
        trace.writelines(row + "\n" for row in rows)
        trace.seek(0)
        return counted([GLM, "replay", "--sessions", str(sessions)], given=trace)


def instructions_of_a_dear_call(case, folder):
    _, make, sessions, _ = case
    rows, others, number = make(sessions)
    return (instructions_of_a_replay(rows, sessions, folder) - instructions_of_a_replay(others, sessions, folder)) / number


def program_through_c(name, folder):
    """Builds a source of checks/ against the library for C."""
    program = folder / name
    compiler = shlex.split(os.environ.get("CC", "cc"))
    source = TOP / f"checks/{name}.c"
    flags = ["-O1", f"-I{TOP}/out", f"-L{TOP}/out", "-lpelgaisti"]
    subprocess.run([*compiler, source, *flags, "-o", program], check=True)
    return program


def instructions_through_c(case, program):
    """The instructions of a call through the library for C."""
    _, what, function, times, calls, _ = case
    return counted([program, what, str(times)], f"--toggle-collect={function}") / (times * calls)


def instructions_of_dear_calls(what, program):
    """The instructions of what checks/dear_calls.c does."""
    return counted([program, what], "--toggle-collect=dear_call")


def instructions_of_a_transfer(way, program):
    """The instructions of a transfer, made this way."""
    times = 500
    return counted([program, way, str(times)], "--toggle-collect=make_transfer") / times


def peak(trace, folder):
    """The peak memory of a replay, in KiB. It is at least that of this process, which so keeps no rows."""
    file = folder / "memory.csv"
    with file.open("w") as out:
        out.writelines(trace)
    with file.open() as given:
        ran = subprocess.Popen([GLM, "replay"], stdin=given, stdout=subprocess.DEVNULL)
        _, status, used = os.wait4(ran.pid, 0)
    if status:
        sys.exit("the replay failed")
    return used.ru_maxrss


def transactions(databases):
    """100,000 transactions of one session, each on one of so many databases. A page below is asked for and refused."""
    for turn in range(100_000):
        database = 1_000_000 + turn % databases
        rows = [f"1,lock,{database},X", f"1,lock,{database}/1/1,S"] + [f"1,release,{database},"] * (turn % 2)
        yield "\n".join(transaction(1, *rows)) + "\n"


def build(is_over_gate):
    """Builds the programs and the library for C, if they aren't built."""
    if is_over_gate:
        return
    for words in ["./glm", "--help"], ["./embed"]:
        subprocess.run(words, cwd=TOP, stdout=subprocess.DEVNULL, check=True)


def main():
    parser = argparse.ArgumentParser(description=__doc__, formatter_class=argparse.RawDescriptionHelpFormatter)
    parser.add_argument("--over-gate", action="store_true", help="takes what a full run of the gate has left")
    build(parser.parse_args().over_gate)
    passed = failed = 0

    def judge(name, found, most, unit, digits=0):
        nonlocal passed, failed
        is_within = found <= most
        passed, failed = passed + is_within, failed + (not is_within)
        print(f"{name}: {found:.{digits}f} {unit}, at most {most:.{digits}f}{'' if is_within else ': TOO MANY'}")

    with tempfile.TemporaryDirectory() as name, ThreadPoolExecutor(os.cpu_count()) as pool:
        folder = Path(name)
        has_valgrind = shutil.which("valgrind") is not None
        if has_valgrind:
            program = program_through_c("instructions", folder)
            dear_calls = program_through_c("dear_calls", folder)
            through_c = pool.map(lambda case: instructions_through_c(case, program), THROUGH_C)
            found = pool.map(lambda case: instructions_of_a_call(case, program, folder), CASES)
            dear = pool.map(lambda case: instructions_of_a_dear_call(case, folder), DEAREST)
            for (name, *_, most), instructions in zip(CASES + DEAREST + THROUGH_C, [*found, *dear, *through_c]):
                judge(name, instructions, most, "instructions")
            whats = [what for _, what, _, _ in DEAR_THROUGH_C] + ["chosen", "known"]
            counts = dict(zip(whats, pool.map(lambda what: instructions_of_dear_calls(what, dear_calls), whats)))
            for name, what, number, most in DEAR_THROUGH_C:
                judge(name, counts[what] / number, most, "instructions")
            judge("names that collide with another seed", counts["chosen"] / counts["growth"], MOST_CHOSEN, "times ordinary ones", digits=2)
            judge("ordinary names", counts["growth"] / counts["known"], MOST_ORDINARY, "times those that collide", digits=2)
            ways = [way for office, book, _ in TRANSFERS for way in (office, book)]
            transfers = dict(zip(ways, pool.map(lambda way: instructions_of_a_transfer(way, program), ways)))
            for office, _, most in TRANSFERS:
                judge(f"a transfer by {office} of an office", transfers[office], most, "instructions")
            by_calls, by_programs = (transfers[office] - transfers[book] for office, book, _ in TRANSFERS)
            judge("hand-over of a transfer by programs", by_programs / by_calls, MOST_OF_CALLS, "of that by calls", digits=2)
        few, new = (peak(transactions(databases), folder) for databases in (8, 100_000))
        judge("idle cells serve ever new resources", new / few, MOST_MEMORY, "times the memory of few", digits=2)
    left_out = "" if has_valgrind else "; instructions left out, since valgrind isn't on the path"
    print(f"{passed} passed, {failed} failed{left_out}")
    sys.exit(1 if failed else 0)


if __name__ == "__main__":
    main()
