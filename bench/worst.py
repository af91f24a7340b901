#!/usr/bin/env python3
"""Times the dearest calls that a lock table can be asked for, each by its own trace, with the program `glm`.

Usage: bench/worst.py [ROUNDS [SESSIONS]]     (default: 20 rounds, 256 sessions; at least 4 and at most 1024 sessions)

Each case has a trace with many such calls, and one in which each of them is a poll instead, or is left out; the time of a call
is the difference, of each trace the least of five times, divided by the number of the calls.

queue     a wait behind all others but one, in one queue
chain     a wait that leads on to all others but one, each of which waits for the next
circle    a wait that closes a circle of all sessions, whose asker is the youngest and becomes the victim
again     the same, if the asker waits for all others too
victims   a wait that closes a circle with each of all others but one, who all become victims, one after another
line      a wait for all others, each of whom waits for the next on the way back, who all become victims
fan       a wait for one who waits for all others but one, who wait for the asker and become victims
stairs    the same, if each of them waits for those of the next higher numbers too
release   a release of one lock of 4096, where locks are released in neither the order in which they came nor the reverse
whole     a transaction of 4096 locks, from its begin to its commit, beside an empty trace
"""
import subprocess
import sys
import tempfile
import time
from pathlib import Path

TOP = Path(__file__).resolve().parent.parent
PROGRAM = TOP / "crates/glm_main/out/glm_main"


def begins(sessions):
    return [f"{s},begin,," for s in sessions]


def aborts(sessions):
    return [f"{s},abort,," for s in sessions]


# Each case, for n sessions, gives the rows of a round with the calls, those of one without them, and how many calls there are.


def repeated(n, lead, call, rest):
    """A round in which one call is made 200 times, each time with the rows that lead back to where it was."""
    end, poll = aborts(range(1, n + 1)), call.split(",")[0] + ",poll,,"
    return lead + ([call] + rest) * 200 + end, lead + ([poll] + rest) * 200 + end, 200


def once(n, lead, call):
    """A round in which one call is made once."""
    end = aborts(range(n, 0, -1))
    return lead + [call] + end, lead + end, 1


def queue(n):
    lead = begins(range(1, n + 1)) + [f"{s},lock,1,X" for s in range(1, n)]
    return repeated(n, lead, f"{n},lock,1,X", [f"{n},abort,,", f"{n},begin,,"])


def chain(n):
    lead = begins(range(1, n + 1)) + [f"{s},lock,{s},X" for s in range(1, n)] + [f"{s},lock,{s - 1},X" for s in range(2, n)]
    return repeated(n, lead, f"{n},lock,{n - 1},X", [f"{n},abort,,", f"{n},begin,,"])


def circle(n):
    locks = [f"{s},lock,{s},X" for s in range(1, n + 1)]
    lead = begins(range(1, n + 1)) + locks + [f"{s},lock,{s - 1},X" for s in range(2, n)] + [f"1,lock,{n},X"]
    rest = [f"{n},abort,,", f"1,release,{n},", f"{n},begin,,", f"{n},lock,{n},X", f"1,lock,{n},X"]
    return repeated(n, lead, f"{n},lock,{n - 1},X", rest)


def on_a_line(n, begun):
    """The rows by which sessions of a line wait, each for the one before it, and the first for session n. In the line are the first
    session and then those from the highest number down. All of it hold database 0."""
    line = [1, *range(n - 1, 1, -1)]
    waits = [f"{s},lock,{before},S" for s, before in zip(line, [n, *line])]
    return begins(begun(line)) + [f"{s},lock,0,S" for s in line] + [f"{s},lock,{s},X" for s in [n, *line]] + waits


def again(n):
    lead = on_a_line(n, lambda line: [*line, n])
    rest = [f"{n},abort,,", f"1,release,{n},", f"{n},begin,,", f"{n},lock,{n},X", f"1,lock,{n},S"]
    return repeated(n, lead, f"{n},lock,0,X", rest)


def line(n):
    return once(n, on_a_line(n, lambda line: [n, *line]), f"{n},lock,0,X")


def victims(n):
    others = range(2, n)
    lead = begins(range(1, n + 1)) + ["1,lock,1,X"] + [f"{s},lock,2,S" for s in others] + [f"{s},lock,1,S" for s in others]
    return once(n, lead, "1,lock,2,X")


def fan_of(n, others):
    """The asker is to wait for session 2, which waits for the others. These wait for the asker, and each for those before it."""
    lead = begins([1, 2, *others, n]) + ["1,lock,1,X", "2,lock,2,X"]
    lead += [f"{s},lock,3,S" for s in others] + [f"{s},lock,1,S" for s in others] + ["2,lock,3,X"]
    return once(n, lead, "1,lock,2,X")


def fan(n):
    return fan_of(n, range(3, n))


def stairs(n):
    return fan_of(n, range(n - 1, 2, -1))


def release(_n):
    locks = list(range(1, 4097))
    # from the middle outwards, in turn to either side
    mixed = [n for pair in zip(locks[2048:], reversed(locks[:2048])) for n in pair][:1024]
    lead = begins([1]) + [f"1,lock,{n},X" for n in locks]
    return lead + [f"1,release,{n}," for n in mixed] + aborts([1]), lead + aborts([1]), len(mixed)


def whole(_n):
    return begins([1]) + [f"1,lock,{n},X" for n in range(1, 4097)] + ["1,commit,,"], [], 1


CASES = [queue, chain, circle, again, victims, line, fan, stairs, release, whole]


def write_traces(case, sessions, rounds, folder):
    """Writes the trace with the calls of a case and the one without. Returns both, and the number of the calls."""
    rows, others, calls = case(sessions)
    traces = folder / f"{case.__name__}.{sessions}.with.csv", folder / f"{case.__name__}.{sessions}.without.csv"
    for trace, lines in zip(traces, (rows, others)):
        trace.write_text("".join(row + "\n" for row in lines * rounds))
    return *traces, rounds * calls


def time_of(trace, sessions):
    """The seconds of a replay."""
    with trace.open() as given:
        start = time.monotonic()
        subprocess.run([PROGRAM, "replay", "--sessions", str(sessions)], stdin=given, stdout=subprocess.DEVNULL, check=True)
        return time.monotonic() - start


def time_of_a_call(traces, sessions, times=5):
    """The microseconds of one call of a case, by the traces that `write_traces` has written, each replayed so many times in turn."""
    with_calls, without, calls = traces
    runs = [(time_of(with_calls, sessions), time_of(without, sessions)) for _ in range(times)]
    most, least = map(min, zip(*runs))
    return (most - least) * 1e6 / calls


def main():
    rounds = int(sys.argv[1]) if len(sys.argv) > 1 else 20
    sessions = int(sys.argv[2]) if len(sys.argv) > 2 else 256
    subprocess.run([TOP / "glm", "--help"], stdout=subprocess.DEVNULL, check=True)
    with tempfile.TemporaryDirectory() as name:
        for case in CASES:
            each = time_of_a_call(write_traces(case, sessions, rounds, Path(name)), sessions)
            print(f"{case.__name__}: {each:,.1f} microseconds")


if __name__ == "__main__":
    main()
