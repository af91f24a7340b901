#!/usr/bin/env python3
"""Times glm replay on two kinds of trace.

Usage: bench/replay.py [ROWS..]     (default: 100000 1000000)

Uncontended: the transactions of 8 sessions, one whole transaction after another. Each has 14 rows: begin, 12 locks on
databases of the session's own, commit. So nothing ever waits. A line for each number of rows, and one with the history
written in pieces, by --stream.

Waits: of 256 sessions 252 hold databases of their own, few or many. Then, a third of ROWS times, one
session begins, waits for a database behind a writer and another session, and aborts. A line for each
number of rows and of databases held: what the rows with waits cost beyond the rows before them.

bench/measure.py times these traces too, and one of 64 sessions whose calls are drawn at random.

The traces and the histories are files of a temporary folder.
"""
import os
import random
import subprocess
import sys
import tempfile
import time
from pathlib import Path

SESSIONS = 8
LOCKS = 12
HELD = [252, 252_000]
TOP = Path(__file__).resolve().parent.parent
PROGRAM = TOP / "crates/glm_main/out/glm_main"


def uncontended(count):
    """Yields the rows of a trace, transaction by transaction."""
    made = 0
    while True:
        for session in range(1, SESSIONS + 1):
            calls = ["begin,,"]
            calls += [f"lock,{session * 100 + number},{'S' if number % 2 else 'X'}" for number in range(LOCKS)]
            calls += ["commit,,"]
            for call in calls:
                if made == count:
                    return
                yield f"{session},{call}\n"
                made += 1


def holders(held):
    """Yields the rows by which sessions 4 to 255 hold so many databases, and 1 and 2 stand in the way of 3."""
    for session in range(4, 256):
        yield f"{session},begin,,\n"
        for number in range(held // 252):
            yield f"{session},lock,{session * 10_000 + number},X\n"
    yield from ["1,begin,,\n", "1,lock,1,X\n", "2,begin,,\n", "2,lock,1,S\n"]


def waits(session, count):
    for _ in range(count):
        yield from [f"{session},begin,,\n", f"{session},lock,1,X\n", f"{session},abort,,\n"]


def drawn(count):
    """Yields rows of 64 sessions, drawn at random, the same ones at each call: locks of 500 databases, many of which wait."""
    draw = random.Random(1976)
    is_open = set()
    for _ in range(count):
        session = draw.randint(1, 64)
        lock = f"lock,{draw.randint(1, 500)},{draw.choice(['IS', 'IX', 'S', 'S', 'X'])}"
        call = draw.choices([lock, "poll,,", "commit,,", "abort,,"], [8, 3, 1, 1])[0] if session in is_open else "begin,,"
        is_open.add(session)
        if call in ("commit,,", "abort,,"):
            is_open.discard(session)
        yield f"{session},{call}\n"


def write(trace, rows):
    """Writes the rows, and returns how many they are."""
    count = 0
    with trace.open("w") as out:
        for row in rows:
            out.write(row)
            count += 1
    return count


def timed(words, given, made):
    """The seconds of a run of the program by the clock and of processors."""
    with given.open() as rows, made.open("w") as out:
        start = time.monotonic()
        ran = subprocess.Popen([PROGRAM, *words], stdin=rows, stdout=out)
        _, status, used = os.wait4(ran.pid, 0)
        seconds = time.monotonic() - start
    if status:
        raise subprocess.CalledProcessError(status, ["glm", *words])
    return seconds, used.ru_utime + used.ru_stime


def replayed(rows, folder, *flags):
    """Seconds of a replay of these rows, with these flags."""
    trace, history = folder / "trace.csv", folder / "history.csv"
    asked = write(trace, rows)
    seconds, _ = timed(["replay", *flags], trace, history)
    with history.open() as made:
        answers = sum(1 for _ in made)
    if answers != asked:
        sys.exit(f"{asked} rows gave {answers} entries")
    return seconds


def main():
    counts = sorted(int(word) for word in sys.argv[1:]) or [100_000, 1_000_000]
    subprocess.run([TOP / "glm", "--help"], stdout=subprocess.DEVNULL, check=True)
    with tempfile.TemporaryDirectory() as name:
        folder = Path(name)
        for count in counts:
            for flags in [], ["--stream"]:
                seconds = replayed(uncontended(count), folder, *flags)
                named = " ".join([f"{count} rows", *flags])
                print(f"{named}: {seconds:.2f} s, {count / seconds:.0f} rows a second")
        for held in HELD:
            before = replayed(holders(held), folder)
            for count in counts:
                seconds = replayed(list(holders(held)) + list(waits(3, count // 3)), folder)
                each = (seconds - before) * 1e6 / (count // 3)
                print(f"{count // 3} waits beside {held} databases: {seconds - before:.2f} s, {each:.1f} microseconds a wait")


if __name__ == "__main__":
    main()
