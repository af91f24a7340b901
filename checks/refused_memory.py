#!/usr/bin/env python3
"""Refuses each allocation in turn: of replays, checks, states, dumps, explanations and runs by glm, and of tests of sequential
objects and of what is below the lock table. (checks/scripts_of_calls does the same with scripts of calls of the lock table,
checks/embedding with cases of offices and with each call of the library for C that may lack memory.)

Usage: checks/refused_memory.py [--over-gate [--all]]

In each round one allocation is refused: the first one in the first round, the second one in the second round, and so on. The last
round is the first one in which nothing was refused. With --over-gate and without --all, a command's rounds behind the first 200 refuse
every tenth allocation.

A replay, a check, a state, a dump and an explanation have to end with status 4, their line on standard error and nothing on
standard output, in every round but a few, in which they end as with ample memory: room for all words of the command line is only
a hint, and so is room for the first keys of a lock table. The look-up of the first lock makes it, in four allocations, and if one
of them is refused, the entry of that lock asks once more. Room for the lines of a dump and for the fields of each row is a hint,
too. A shell may have answered its first lines, and room for the words of each line is a hint, too. A replay in pieces may have
written whole pieces of its history, and some round has to see one piece written, and some round two. A run may also end with
status 5, if the refusal kept a thread from starting, or with status 0, if it met the refusal by serving calls one after another:
what it writes has to be a legal history in which each session's rows stand in their order. A run of one session has one try for
each call: a pass that found no memory for the call ends the run. A run in pieces may also end with these statuses and whole rows
of a legal history behind it, in which each session's rows are the first ones of its own. In further rounds of runs all later
allocations are refused too: a run that goes on after its refusal fails. Threads allocate in any order, so a run's last rounds are
the first three in a row without a refusal.

A replay with hints of a row that is refused ends with status 1 and that row's line also if memory is refused for the hint.

A test has to pass: it makes a call that found no memory once more, and wants the answer that ample memory gives. Tests that print
what became of a refusal have to print each case in some round.

Builds the program and the tests first, if they aren't built; with --over-gate, takes those that a full run of the gate has left.
Needs a C compiler, `$CC` or cc. The last line is 'N passed, M failed', one for each round.
"""
import argparse
import os
import shlex
import subprocess
import sys
import tempfile
from concurrent.futures import ThreadPoolExecutor
from itertools import chain, count, islice
from pathlib import Path

TOP = Path(__file__).resolve().parent.parent
PROGRAM = TOP / "crates/glm_main/out/glm_main"
PROCESSORS = os.cpu_count() or 1
# how many allocations are refused one by one, and of how many of the others one, if not all are
FIRST, ONE_IN = 200, 10
REFUSED = (4, b"", b"glm: out of memory\n")
UNSTARTED = (5, b"", b"glm: device\n")
# how many rows a piece of a history has that `replay --stream` writes
PIECE = 4096
# the allocations of the room for the first keys of a lock table
KEYS = 4
# the most allocations of the room for a row of a dump, in its lines and for its fields
HINTS_OF_A_ROW = 3

# the tests whose allocations are refused, by the crate: all whose names begin so
TESTED = {
    "base_tests": ("reports::refused_", "traces::reports_the_row_in_which_memory_was_refused", "waits::refused_"),
    "object_tests": ("refusals::",),
}
# what tests print of a refusal: for each of these texts there has to be a round that prints it and nothing else
TOLD = {
    "refusals::a_refused_batch_goes_on_at_the_second_try": {"ended early"},
    "refusals::a_refused_call_of_an_object_is_made_at_the_second_try": {"refused call"},
    "refusals::a_refused_key_is_added_at_the_second_try": {"refused key"},
    "reports::refused_texts_are_written_at_the_second_try": {"refused"},
    "traces::reports_the_row_in_which_memory_was_refused": {"refused in row 1", "refused in row 3", "refused in row 5"},
    "waits::refused_rows_are_made_at_the_second_try": {"refused"},
}
# and these print it in every round: all that they allocate is what they make
ALWAYS = {
    "reports::refused_texts_are_written_at_the_second_try",
    "waits::refused_rows_are_made_at_the_second_try",
}


def begun(sessions):
    return [f"{session},begin,,,began,{session}" for session in range(1, sessions + 1)]


# Traces, each row with its reply.
DOWN_THE_TREE = begun(1) + [
    *("1,lock,1,IX,granted,IX", "1,lock,1/2,IX,granted,IX", "1,lock,1/2/3,X,granted,X", "1,commit,,,committed,3"),
]
CONVERSION = begun(3) + [
    *("1,lock,1,S,granted,S", "2,lock,1,S,granted,S", "3,lock,1,X,waiting,", "1,lock,1,IX,waiting,"),
    *("2,commit,,,committed,1", "1,poll,,,clear,", "3,poll,,,waiting,"),
]
TWO_VICTIMS = begun(3) + [
    *("1,lock,1,IX,granted,IX", "1,lock,1/1,X,granted,X", "1,lock,1/2,X,granted,X"),
    *("2,lock,1,IS,granted,IS", "2,lock,1/3,S,granted,S", "3,lock,1,IS,granted,IS", "3,lock,1/3,S,granted,S"),
    *("2,lock,1/1,S,waiting,", "3,lock,1/2,S,waiting,", "1,lock,1/3,X,waiting,", "3,poll,,,deadlock,", "2,poll,,,deadlock,"),
    *("3,abort,,,aborted,2", "1,poll,,,waiting,", "2,abort,,,aborted,2", "1,poll,,,clear,"),
]
GRANTED_BY_A_VICTIM = begun(3) + [
    *("1,lock,2,X,granted,X", "2,lock,1,S,granted,S", "3,lock,1,X,waiting,", "2,lock,2,S,waiting,"),
    *("1,lock,1,S,granted,S", "3,poll,,,deadlock,", "2,poll,,,waiting,"),
]
CROWD = begun(256) + [
    "1,lock,1,X,granted,X",
    *(f"{session},lock,1,IS,waiting," for session in range(2, 257)),
    "1,commit,,,committed,1",
    *(f"{session},poll,,,clear," for session in range(2, 257)),
]
THREE_PIECES = begun(1) + ["1,poll,,,clear,"] * (2 * PIECE)
TRACES = {
    "locks down the tree": DOWN_THE_TREE,
    "a conversion ahead of a queue": CONVERSION,
    "two victims of one wait": TWO_VICTIMS,
    "a grant by a victim": GRANTED_BY_A_VICTIM,
    "255 readers behind a writer": CROWD,
}


def trace_of(rows):
    return "".join(",".join(row.split(",")[:4]) + "\n" for row in rows).encode()


def history_of(rows):
    return "".join(f"{place},{row}\n" for place, row in enumerate(rows)).encode()


# what some round of the replay in pieces has written: one piece of its history, or two
TOLD["replay --stream of three pieces"] = {history_of(THREE_PIECES[: count * PIECE]).decode().strip() for count in (1, 2)}


def by_session(rows):
    """The calls of each session, of rows that begin with the session."""
    calls = {}
    for row in rows:
        session, *call = row.split(",")[:4]
        calls.setdefault(session, []).append(call)
    return calls


class Trial:
    """A command whose allocations are refused, one in each round."""

    def __init__(self, name, words, is_right, given=b"", refuses_all=False, quiet=1):
        self.name, self.words, self.is_right, self.given = name, words, is_right, given
        self.refuses_all = refuses_all
        # how many rounds in a row without a refusal are the end
        self.quiet = quiet

    def round(self, number, library, folder):
        """Makes one round. Returns whether memory was refused, and how the command ended."""
        told = folder / f"told{id(self)}-{number}"
        env = os.environ | {"REFUSE": str(number), "REFUSE_TOLD": str(told), "LD_PRELOAD": str(library)}
        if self.refuses_all:
            env["REFUSE_ALL"] = "1"
        try:
            ran = subprocess.run(self.words, input=self.given, env=env, capture_output=True, timeout=60)
            ended = ran.returncode, ran.stdout, ran.stderr
        except subprocess.TimeoutExpired:
            ended = "none within 60 seconds", b"", b""
        was_refused = told.exists()
        told.unlink(missing_ok=True)
        return was_refused, ended

    def rounds(self, library, folder, pool, is_all):
        """Yields the number of each allocation that was refused, and how the command ended."""
        quiet, left = 0, count(1) if is_all else chain(range(1, FIRST), count(FIRST, ONE_IN))
        while True:
            numbers = [*islice(left, 4 * PROCESSORS)]
            for number, (was_refused, ended) in zip(numbers, pool.map(lambda it: self.round(it, library, folder), numbers)):
                quiet = 0 if was_refused else quiet + 1
                if quiet == self.quiet:
                    return
                if was_refused:
                    yield number, ended


def ends(status, output, errors=b"", tables=1, more=0):
    """Whether the program ended for want of memory, in every round but that in which it was refused the room for its words, those in
    which it was refused the room for the first keys of so many lock tables, and some more."""
    otherwise = []

    def is_right(ended):
        if ended == (status, output, errors):
            otherwise.append(ended)
            return len(otherwise) <= 1 + KEYS * tables + more
        return ended == REFUSED

    return is_right


def ends_with_hint(line, hint):
    """Whether the program ended for want of memory, or with status 1 and the line of the row, with the hint or without it."""
    return lambda ended: ended in (REFUSED, (1, b"", line), (1, b"", line + hint))


def ends_in_pieces(history):
    """Like `ends` with status 0, but whole pieces of the history may have been written before memory was refused."""
    rows = history.splitlines(keepends=True)
    beginnings = [b"".join(rows[:count]) for count in range(0, len(rows), PIECE)]
    is_whole = ends(0, history)

    def is_right(ended):
        status, output, errors = ended
        return (status, errors) == (4, REFUSED[2]) and output in beginnings or is_whole(ended)

    return is_right


def runs(rows):
    """Whether a run of these rows was refused memory or a thread, or wrote a history of them."""

    def is_right(ended):
        status, output, errors = ended
        if status != 0:
            return ended in (REFUSED, UNSTARTED)
        written = [line.partition(",")[2] for line in output.decode().splitlines()]
        judged = subprocess.run([PROGRAM, "check"], input=output, capture_output=True, timeout=60)
        return not errors and judged.stdout == b"legal %d\n" % len(rows) and by_session(written) == by_session(rows)

    return is_right


def runs_in_pieces(rows):
    """Like `runs`, but whole rows of a legal history may have been written before the run ended."""
    is_whole, calls = runs(rows), by_session(rows)

    def is_right(ended):
        status, output, errors = ended
        if status == 0:
            return is_whole(ended)
        written = [line.partition(",")[2] for line in output.decode().splitlines()]
        judged = subprocess.run([PROGRAM, "check"], input=output, capture_output=True, timeout=60)
        return (
            (status, errors) in ((REFUSED[0], REFUSED[2]), (UNSTARTED[0], UNSTARTED[2]))
            and output[-1:] in (b"", b"\n")
            and judged.stdout == b"legal %d\n" % len(written)
            and all(made == calls[session][: len(made)] for session, made in by_session(written).items())
        )

    return is_right


def ends_in_shell(given):
    """Like `ends` with status 0, but the answers to the first lines may have been written before memory was refused, and room for the
    words of each line and for the first keys of a lock table is only a hint, too."""
    lines = given.splitlines(keepends=True)
    answers = [
        subprocess.run([PROGRAM, "shell"], input=b"".join(lines[:count]), capture_output=True, check=True, timeout=60).stdout
        for count in range(len(lines) + 1)
    ]
    hints = []

    def is_right(ended):
        status, output, errors = ended
        if ended == (0, answers[-1], b""):
            # one for each line that has words, a few more were seen where rounds side by side save to one file, and two tables for each
            # time that calls are taken back or explained from the first on
            hints.append(ended)
            return len(hints) <= 2 * len(lines) + 8 * KEYS
        return (status, errors) == (4, REFUSED[2]) and output in (b"", *answers[:-1])

    return is_right


def ends_in_file(target, history):
    """Like `ends` with status 0, but the history is in a file, of which nothing else is ever seen."""
    # rounds run side by side, and two more were seen where they write to one file
    is_ended = ends(0, b"", more=2)

    def is_right(ended):
        return is_ended(ended) and (ended[0] != 0 or target.read_bytes() == history)

    return is_right


def trials_of_the_program(folder):
    for name, rows in TRACES.items():
        trace, history = trace_of(rows), history_of(rows)
        yield Trial(f"replay of {name}", [PROGRAM, "replay"], ends(0, history), trace)
        for form in ([], ["--stream"]):
            words = ["check", *form]
            yield Trial(f"{' '.join(words)} of {name}", [PROGRAM, *words], ends(0, b"legal %d\n" % len(rows)), history)
        # each reader behind the writer has a line for each request ahead of its own
        commands = ("show",) if rows is CROWD else ("show", "explain")
        forms = [[command, *form] for command in commands for form in ([], ["--csv"], ["--dot"])]
        drawn = [] if rows is CROWD else [["timeline"]]
        for words in [*forms, ["show", "--waits"], ["stats"], ["stats", "--csv"], *drawn]:
            whole = subprocess.run([PROGRAM, *words], input=history, capture_output=True, check=True, timeout=60).stdout
            # those of books, and the maps that a timeline keeps
            tables = {"show": 1, "explain": 2, "stats": 1, "timeline": 4}[words[0]]
            yield Trial(f"{' '.join(words)} of {name}", [PROGRAM, *words], ends(0, whole, tables=tables), history)
        # a session that is alone is served at the first try
        one_try = ["--turns", "1"] if len(by_session(rows)) == 1 else []
        yield Trial(f"run of {name}", [PROGRAM, "run", *one_try], runs(rows), trace, quiet=3)
        if rows is not CROWD:
            # a thread whose pass left its call without memory stops at once, not after its last try; fewer tries run out on a busy machine
            words = [PROGRAM, "run", "--turns", "1000000"]
            yield Trial(f"run of {name}, all refused", words, runs(rows), trace, refuses_all=True, quiet=3)
            words = [PROGRAM, "run", "--stream", "--turns", "1000000"]
            yield Trial(f"run --stream of {name}", words, runs_in_pieces(rows), trace, quiet=3)
            yield Trial(f"run --stream of {name}, all refused", words, runs_in_pieces(rows), trace, refuses_all=True, quiet=3)
    words, history = [PROGRAM, "replay", "--stream"], history_of(THREE_PIECES)
    yield Trial("replay --stream of three pieces", words, ends_in_pieces(history), trace_of(THREE_PIECES))
    words = [PROGRAM, "run", "--stream"]
    yield Trial("run --stream of three pieces", words, runs_in_pieces(THREE_PIECES), trace_of(THREE_PIECES), quiet=3)
    trace, history = TOP / "examples/tree.csv", (TOP / "examples/tree.history.csv").read_bytes()
    yield Trial("replay of a file", [PROGRAM, "replay", trace], ends(0, history))
    commented = b"# a tree\n" + trace.read_bytes()
    yield Trial("replay with comments", [PROGRAM, "replay", "--comments"], ends(0, history), commented)
    for name, target in ("a file", folder / "history.csv"), ("a link", folder / "link.csv"):
        if name == "a link":
            target.symlink_to("linked.csv")
            (folder / "linked.csv").write_bytes(history)
        words = [PROGRAM, "replay", trace, "-o", target]
        yield Trial(f"replay to {name}", words, ends_in_file(target, history))
    calls = b"1 begin\n2 begin\n1 path 1/1 X\n2 path 1/2 X\n1 lock 1/2 S\n2 lock 1/1 S\nwhy 2\nshow\n2 abort\nundo\n3 lock\n"
    # rounds run side by side, so what is saved isn't what is loaded
    (folder / "loaded.csv").write_text("3,begin,,\n3,lock,2,IX\n3,lock,2/1,X\n")
    given = calls + f"save {folder}/saved.csv\nload {folder}/loaded.csv\nhelp\nquit\n".encode()
    yield Trial("shell", [PROGRAM, "shell"], ends_in_shell(given), given)
    for case in ("show-state", "show-state-csv", "show-state-dot", "show-state-waits"):
        words, dump, whole = ((TOP / "checks/program-cases" / case / name).read_bytes() for name in ("args", "stdin", "stdout"))
        words = words.decode().split()
        # room for the lines and for the fields of each row is only a hint, too
        hints = HINTS_OF_A_ROW * dump.count(b"\n")
        yield Trial(f"{' '.join(words)} of a dump", [PROGRAM, *words], ends(0, whole, tables=0, more=hints), dump)
    illegal = (TOP / "examples/illegal.csv").read_bytes()
    yield Trial("check of a history that isn't legal", [PROGRAM, "check"], ends(3, b"illegal 2\n"), illegal)
    faulty = b"1,begin,,\n1,lock,01,S\n"
    yield Trial("replay of a faulty row", [PROGRAM, "replay"], ends(1, b"", b"glm: row 2: Path LeadingZero\n", tables=0), faulty)


    line = b"glm: row 2: Path LeadingZero\n"
    expected = b"  expected 1 to 5 numbers up to 4294967295 without leading zeros, joined by '/'\n"
    hint = b"  line 2: 1,lock,01,S\n                 ^~\n" + expected
    yield Trial("replay --hints of a faulty row", [PROGRAM, "replay", "--hints"], ends_with_hint(line, hint), faulty)


def trials_of_tests():
    for crate, tested in TESTED.items():
        program = TOP / "crates" / crate / "out" / f"{crate}_tests"
        listed = subprocess.run([program, "--list"], capture_output=True, text=True, check=True).stdout
        for test in (line.split(": ")[0] for line in listed.splitlines() if line.endswith(": test")):
            if test.startswith(tested):
                yield Trial(test, [program, test], lambda ended: ended[0] == 0)


def build(folder, is_over_gate):
    """Builds the library that refuses, and the program and the tests if they aren't built."""
    if not is_over_gate:
        subprocess.run([TOP / "glm", "--help"], stdout=subprocess.DEVNULL, check=True)
        for crate in TESTED:
            subprocess.run(["rt", "test"], cwd=TOP / "crates" / crate, stdout=subprocess.DEVNULL, check=True)
    library, source = folder / "refuse.so", TOP / "checks/refuse_allocation.c"
    compiler = shlex.split(os.environ.get("CC", "cc"))
    subprocess.run([*compiler, "-shared", "-fPIC", "-O1", "-o", library, source, "-ldl"], check=True)
    return library


def main():
    parser = argparse.ArgumentParser(description=__doc__, formatter_class=argparse.RawDescriptionHelpFormatter)
    parser.add_argument("--over-gate", action="store_true", help="takes what a full run of the gate has left")
    parser.add_argument("--all", action="store_true", help="refuses each allocation also over the gate")
    words = parser.parse_args()
    passed, failed = 0, []
    with tempfile.TemporaryDirectory() as name, ThreadPoolExecutor(PROCESSORS) as pool:
        folder = Path(name)
        library = build(folder, words.over_gate)
        for trial in (*trials_of_the_program(folder), *trials_of_tests()):
            before, told = passed, set()
            # what some round has to print may be told of a single allocation
            is_all = words.all or not words.over_gate or trial.name in TOLD or PROGRAM not in trial.words
            for number, ended in trial.rounds(library, folder, pool, is_all):
                if trial.is_right(ended):
                    passed += 1
                    told.add(ended[1].decode().replace("test result: ok", "").strip())
                else:
                    failed.append(f"{trial.name}, allocation {number}: status {ended[0]}")
            if passed == before and PROGRAM in trial.words:
                failed.append(f"{trial.name}: memory was refused in no round that passed")
            for text in sorted(TOLD.get(trial.name, set()) - told):
                failed.append(f"{trial.name}: no round printed '{text[-60:]}'")
            if trial.name in ALWAYS and told - TOLD[trial.name]:
                failed.append(f"{trial.name}: a round printed something else")
    for line in failed:
        print(line)
    print(f"{passed} passed, {len(failed)} failed")
    sys.exit(1 if failed or not passed else 0)


if __name__ == "__main__":
    main()
