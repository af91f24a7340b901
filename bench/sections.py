"""The sections of bench/README.md that bench/measure.py measures: how each is measured, and its tables."""
import os
import re
import shlex
import shutil
import subprocess
from pathlib import Path

import replay
import worst

TOP = Path(__file__).resolve().parent.parent
GLM = TOP / "crates/glm_main/out/glm_main"
LIBRARY = TOP / "out/libpelgaisti.a"
# how a program is built against it, and against the library of ./embed --try
LINKED = [f"-I{TOP}/out", f"-L{TOP}/out", "-lpelgaisti"]
UNPROVED = [f"-I{TOP}/out/try", f"-L{TOP}/out/try", "-lpelgaisti_unproved"]
# --quick makes so many times fewer repetitions and rows
LESS = 100


def output_of(words, stream="stdout", **more):
    """What a command writes on standard output, or on standard error."""
    return getattr(subprocess.run(words, check=True, text=True, timeout=600, **{stream: subprocess.PIPE}, **more), stream)


def numbers_of(words):
    """What a command writes, as numbers by their names: each number stands behind its name and '='."""
    return {name: float(number) for name, number in re.findall(r"(\w+)=(-?\d+)", output_of(words))}


def table(head, rows):
    """The lines of a table in Markdown."""
    lines = ["| " + " | ".join(map(str, row)) + " |" for row in (head, *rows)]
    return [lines[0], "|" + "---|" * len(head), *lines[1:]]


class Section:
    """A section of bench/README.md. Its `cases` are pairs of a key and a function that measures once, and returns numbers by their
    names; `tables` returns the lines that show the figures, `short_tables` those of bench/README.md."""

    needs, how, short_how, most_rounds = (), "", "", None
    # a section of many short runs tells quartiles, and sees by itself to runs that are robbed
    is_by_runs = False

    def __init__(self, folder, is_quick):
        self.folder, self.is_quick = folder, is_quick

    def short_tables(self, found):
        return self.tables(found.medians())

    def few(self, number):
        """So many repetitions or rows, or fewer of them with --quick."""
        return max(1, number // LESS) if self.is_quick else number

    def built(self, name, *flags, library=True):
        """The program that a source of bench/ makes, built against the library."""
        program = self.folder / name
        linked = [*LINKED, "-lpthread"] if library else []
        compiler = shlex.split(os.environ.get("CC", "cc"))
        # what goes wrong without the library of Berkeley DB is no message for a reader
        errors = subprocess.DEVNULL if flags else None
        command = [*compiler, "-O2", TOP / f"bench/{name}.c", *linked, *flags, "-o", program]
        subprocess.run(command, check=True, stderr=errors)
        return program


def peak(program, words, given=subprocess.DEVNULL):
    """The peak memory of a command in bytes, by bench/peak.c."""
    told = output_of([program, *words], "stderr", stdin=given, stdout=subprocess.DEVNULL)
    return 1024 * int(re.search(r"peak=(\d+)", told)[1])


class Replay(Section):
    name, heading, needs = "replay", "The program: `bench/replay.py`", (GLM,)
    how = "Each time is the least of three runs."
    TIMES = 3
    FLAGS = {"": [], " with `--stream`": ["--stream"]}

    def trace(self, name, rows):
        path = self.folder / name
        replay.write(path, rows)
        return path

    def least(self, words, given, rows):
        runs = [replay.timed(words, given, self.folder / "made.csv") for _ in range(self.few(self.TIMES))]
        return {"seconds": min(run[0] for run in runs), "each": min(run[1] for run in runs) / rows * 1e9}

    def least_with_peak(self, words, given, rows):
        told = self.least(words, given, rows)
        with given.open() as lines:
            return told | {"peak": peak(self.peaks, [GLM, *words], lines)}

    def waits(self, before, behind, count):
        seconds = self.least(["replay"], behind, 1)["seconds"] - self.least(["replay"], before, 1)["seconds"]
        return {"seconds": seconds, "each": seconds / count * 1e6}

    def cases(self):
        self.peaks = self.built("peak", library=False)
        cases = []
        for count in (self.few(100_000), self.few(1_000_000)):
            trace = self.trace(f"{count}.csv", replay.uncontended(count))
            for name, flags in self.FLAGS.items():
                words = ["replay", *flags]
                cases.append((f"{count:,} rows, nothing waits{name}", lambda w=words, t=trace, n=count: self.least_with_peak(w, t, n)))
        cases.append((f"`glm run` of the {count:,} rows, by 8 sessions", lambda: self.least(["run"], trace, count)))
        drawn = self.few(300_000)
        history, given = self.folder / "history.csv", self.trace("drawn.csv", replay.drawn(drawn))
        replay.timed(["replay"], given, history)
        for command in ("explain", "check", "show"):
            key = f"`glm {command}` of {drawn:,} rows drawn at random"
            cases.append((key, lambda c=command: self.least([c], history, drawn)))
        self.rows = [key for key, _ in cases]
        self.waiting = []
        for held in replay.HELD:
            count = self.few(1_000_000) // 3
            before = self.trace(f"{held}.before.csv", replay.holders(held))
            behind = self.trace(f"{held}.csv", (row for rows in (replay.holders(held), replay.waits(3, count)) for row in rows))
            self.waiting.append(f"{count:,} waits, begun and aborted, beside {held:,} databases that are held")
            cases.append((self.waiting[-1], lambda b=before, w=behind, n=count: self.waits(b, w, n)))
        return cases

    def tables(self, found):
        rows = [[key, found.text(key, "seconds", 3), found.text(key, "each"), found.text(key, "peak", 0, 1 << 20)] for key in self.rows]
        waits = [[key, found.text(key, "seconds", 3), found.text(key, "each", 2)] for key in self.waiting]
        return [
            *table(["trace", "seconds", "ns of a processor a row", "peak memory, MiB"], rows),
            "",
            *table(["beyond the rows before them", "seconds", "µs a wait"], waits),
        ]


class Worst(Section):
    name, heading, needs = "worst", "The dearest calls: `bench/worst.py`", (GLM,)
    how = "Microseconds of a call; in a round the least of five times."
    CASES = {
        worst.line: "a wait for all others, each of whom waits for the next on the way back; all become victims",
        worst.fan: "a wait for one who waits for all others but one, who wait for the asker and become victims",
        worst.stairs: "the same, if each of them waits for those of higher numbers, too",
        worst.victims: "a wait that closes a cycle with each of all others but one, who all become victims",
        worst.circle: "a wait that closes a cycle of all",
        worst.again: "the same, if the asker waits for all others, too",
        worst.queue: "a wait behind all others but one in one queue",
        worst.chain: "a wait that leads on to all others but one, each of which waits for the next",
        worst.release: "a release of one lock of 4096, in neither the order in which they came nor the reverse",
        worst.whole: "a whole transaction of 4096 locks, from its begin to its commit",
    }
    TIMES = 5
    # what bench/README.md has of the cases
    SHOWN = (worst.line, worst.victims, worst.circle, worst.queue, worst.release, worst.whole)
    # how often a trace has a case's rows, by the sessions
    REPEATED = {256: 20, 1024: 10}

    def cases(self):
        cases = []
        for sessions, repeated in self.REPEATED.items():
            for case in self.CASES:
                traces = worst.write_traces(case, sessions, self.few(repeated), self.folder)
                cases.append(((case, sessions), lambda t=traces, n=sessions: {"each": worst.time_of_a_call(t, n, self.few(self.TIMES))}))
        return cases

    def tables(self, found):
        return self.rows_of(self.CASES, found)

    def short_tables(self, found):
        return self.rows_of(self.SHOWN, found.medians())

    def rows_of(self, cases, found):
        head = ["call", *(f"{sessions:,} sessions" for sessions in self.REPEATED)]
        return table(head, [[self.CASES[case], *(found.text((case, n), "each", 1) for n in self.REPEATED)] for case in cases])


class Memory(Section):
    name, heading, needs = "memory", "Memory of a process: `bench/memory.c`", (LIBRARY,)
    how = "First the peak of the whole process, in which 64 sessions of one book begin, take three locks and commit."
    # how many entries are kept, what that is, and over how many calls
    CASES = [
        ("0", "none: a bound of 0", 20_000_000),
        ("1024", "a bound of 1,024", 20_000_000),
        ("taken", "the history taken every 4,000 calls", 20_000_000),
        ("all", "all", 10_000_000),
    ]
    LOCKS = (64, 4096)

    def cases(self):
        peaks, program = self.built("peak", library=False), self.built("memory")
        asked = {kept: [program, "calls", kept, str(self.few(calls))] for kept, _, calls in self.CASES}
        held = [(locks, lambda n=locks: numbers_of([program, "held", str(n)])) for locks in self.LOCKS]
        return [(kept, lambda w=words: {"peak": peak(peaks, w)}) for kept, words in asked.items()] + held

    def tables(self, found):
        rows = [[told, f"{self.few(calls):,}", found.text(kept, "peak", 1, 1e6)] for kept, told, calls in self.CASES]
        held = [[f"{locks:,}", *(found.text(locks, name) for name in ("held", "idle", "shrunk"))] for locks in self.LOCKS]
        head = ["locks on databases of its own that each of 64 sessions holds", "bytes of the C library's heap, a lock with its resource"]
        head += ["that stay behind the commits", "behind a shrink"]
        return [*table(["entries kept", "calls", "memory at most, MB"], rows), "", *table(head, held)]


class Growth(Section):
    name, heading, needs = "growth", "What grows with the number of sessions: `bench/memory.c`", (LIBRARY,)
    how = "In a round the median of 51 times; memory by the C library's heap."
    SESSIONS = (256, 1024)
    TIMES = 51

    def cases(self):
        program = self.built("memory")
        return [(n, lambda n=n: numbers_of([program, "new", str(n), str(self.few(self.TIMES))])) for n in self.SESSIONS]

    def tables(self, found):
        rows = [
            ("a new book, KB", "book_bytes", 0, 1000),
            ("a new book, µs", "book_ns", 1, 1000),
            ("a new office with its book, KB", "office_bytes", 0, 1000),
            ("a new office with its book, µs", "office_ns", 1, 1000),
            ("to hand in all sessions and close the office, µs", "close_ns", 1, 1000),
        ]
        shown = [[told, *(found.text(n, name, digits, per) for n in self.SESSIONS)] for told, name, digits, per in rows]
        return table(["what, in C", *(f"{n:,} sessions" for n in self.SESSIONS)], shown)


class Waiting(Section):
    name, heading, needs = "waiting", "How threads wait for locks: `bench/waiting.c`", (LIBRARY,)
    how = "Processor time and calls are those of a transaction; the time to the grant is that of requests that wait."
    short_how = "Transactions a second; µs of processors for one; the 99th of 100 µs to a grant."
    WAYS = ("sleep", "poll", "yield")
    # what bench/README.md has of the numbers, with the digits behind the point
    SHOWN = {"transactions": 0, "processors": 1, "99th": 0}
    # threads, records, microseconds held; and the transactions of a thread by each way, which take half a second to two
    CASES = {
        ("64", "16", "20"): {"sleep": 1000, "poll": 500, "yield": 1000},
        ("8", "4", "20"): {"sleep": 4000, "poll": 1000, "yield": 4000},
        ("8", "4", "0"): {"sleep": 20_000, "poll": 1000, "yield": 20_000},
    }
    # where the numbers are in the line that the program prints
    NUMBERS = {"transactions": 2, "processors": 3, "calls": 4, "median": 7, "99th": 8}

    def cases(self):
        program = self.built("waiting")
        asked = [(case, way, self.few(count)) for case, ways in self.CASES.items() for way, count in ways.items()]
        return [((case, way), lambda c=case, w=way, n=count: self.told([program, w, *c[:2], str(n), c[2]])) for case, way, count in asked]

    def told(self, words):
        numbers = re.findall(r"[\d.]+", output_of(words))
        return {name: float(numbers[at]) for name, at in self.NUMBERS.items()}

    def named(self, case):
        threads, records, held = case
        return f"{threads}, {records}, " + (f"{held} µs" if held != "0" else "not held")

    def tables(self, found):
        told = {"transactions": "transactions a second", "processors": "µs of processors", "median": "median µs to the grant"}
        told["99th"] = "99th of 100, µs to the grant"
        digits = {"processors": 1, "calls": 1}
        rows = []
        for case in self.CASES:
            for way in self.WAYS:
                rows.append([self.named(case), way, *(found.text((case, way), name, digits.get(name, 0)) for name in self.NUMBERS)])
        return table(["threads, records, held", "way", *(told.get(name, name) for name in self.NUMBERS)], rows)

    def short_tables(self, found):
        def cell(key):
            return "; ".join(found.medians().text(key, name, digits) for name, digits in self.SHOWN.items())

        rows = [[self.named(case), *(cell((case, way)) for way in self.WAYS)] for case in self.CASES]
        return table(["threads, records, held", *self.WAYS], rows)


def own(session, turn):
    """The calls of a transaction in a database, a file and a page of the session's own."""
    page = f"{session}/{turn % 4}/{turn % 64}"
    above = [f"lock,{path},IX" for path in (session, f"{session}/{turn % 4}", page)]
    return ["begin,,", *above, *(f"lock,{page}/{(turn * 7 + record) % 1000},X" for record in range(10)), "commit,,"]


def shared(session, turn):
    """The calls of a transaction in a page that all sessions share, on records of the session's own."""
    numbers = [session * 1000 + (turn * 3 + record) % 1000 for record in range(4)]
    records = [f"lock,1/1/1/{number},{'SX'[record % 2]}" for record, number in enumerate(numbers)]
    return ["begin,,", "lock,1,IX", "lock,1/1,IX", "lock,1/1/1,IX", *records, "commit,,"]


def transactions(kind, count, is_side_by_side):
    """Rows of 8 sessions, of so many calls at least: one whole transaction behind another, or 8 of them open side by side."""
    made = turn = 0
    while made < count:
        sessions = [[f"{session},{call}\n" for call in kind(session, turn)] for session in range(1, 9)]
        for rows in zip(*sessions) if is_side_by_side else sessions:
            yield from rows
        made += sum(map(len, sessions))
        turn += 1


# the numbers of threads that bench/README.md has
SHOWN_THREADS = (1, 4, 16)


def short_table(head, rows, ways, base, digits, found):
    """A row for each of `rows`, the beginnings of keys by their names, and a column for each of `SHOWN_THREADS`: thousands of transactions
    a second by the way `base`, and behind it, of each other way, the ratio to that. A line says which ways."""

    def cell(begin, count):
        if ((*begin, count, base), "second") not in found.found:
            return ""
        rate = found.middle((*begin, count, base), "second")
        keys = [((*begin, count, way), "second") for way in ways if way != base]
        ratios = [f"{found.middle(*key) / rate:.2f}" if key in found.found else "-" for key in keys]
        return f"{rate / 1000:,.{digits}f}: {', '.join(ratios)}"

    others = "; ".join(f"*{told}*" for way, told in ways.items() if way != base)
    line = f"Thousands of transactions a second, *{ways[base]}*; behind the colon the ratios to it: {others}."
    shown = [[name, *(cell(begin, count) for count in SHOWN_THREADS)] for name, begin in rows.items()]
    return [line, "", *table([head, *(f"{count} threads" if count > 1 else "1 thread" for count in SHOWN_THREADS)], shown)]


class Threads(Section):
    name, heading, needs = "threads", "How threads share a lock table: `bench/threads.c`", (LIBRARY,)
    how = (
        "NORM: transactions, for one of a single thread by *mutex each program* in the same milliseconds; thousands of transactions a"
        " second; µs of processors; switches of 1,000 transactions; 50th and 99th of 100, 999th of 1,000, µs; transactions of the thread"
        " that made least and most in a run; as a mean, ticks stolen in it."
    )
    short_how = "NORM/µs of processors for a transaction/switches of 1,000 transactions."
    is_by_runs, THREADS = True, (1, 2, 4, 8, 16, 32, 64)
    # the ways that are measured up to this number of threads alone
    FEW, UP_TO = ("adaptive", "mcs", "mutexes", "berkeley"), 16
    # workload, nanoseconds of work before each path, place of the threads
    LOADS = {("bank", "0", place): place for place in ("pinned", "free", "robbed")}
    # the numbers of threads that bench/README.md has of each place
    SHOWN_COUNTS = {"pinned": THREADS, "free": (16, 64), "robbed": (4, 16)}
    WAYS = {
        "calls": "office, single calls",
        "programs": "**office, programs**",
        "mutex-calls": "mutex each call",
        "mutex": "mutex each program",
        "adaptive": "adaptive mutex",
        "barging": "barging mutex",
        "mcs": "MCS",
        "ccsynch": "CC-Synch",
        "server": "server thread",
        "mutexes": "16 books, mutexes",
        "spins": "16 books, spin locks",
        "berkeley": "Berkeley DB",
    }
    # those that bench/README.md has
    SHOWN = ("calls", "programs", "mutex-calls", "mutex", "ccsynch", "server")
    # what is told of a run: the digits behind the point, and by how much it is divided
    TIMES = {name: (1, 1000) for name in ("median", "99th", "999th")}
    NUMBERS = {"second": (0, 1000), "processor": (1, 1000), "switches": (0,), **TIMES, "least": (0,), "most": (0,)}

    def cases(self):
        try:
            program = self.built("threads", "-DBERKELEY_DB", "-ldb")
        except subprocess.CalledProcessError:
            program, self.WAYS = self.built("threads"), {way: told for way, told in self.WAYS.items() if way != "berkeley"}
        keys = [(load, count, way) for load in self.LOADS for count in self.counts(load) for way in self.WAYS]
        return [(key, lambda k=key: self.told(program, *k)) for key in keys if self.is_measured(*key)]

    def is_measured(self, load, count, way):
        # a transaction of several books can't wait for those of `hot`
        return (load[0] != "hot" or way not in ("mutexes", "spins")) and (count <= self.UP_TO or way not in self.FEW)

    def told(self, program, load, count, way):
        # the turns of many threads on few processors are of milliseconds
        words = [program, way, load[0], str(count), *load[1:], str(self.few(25 if count <= 16 else 100))]
        # a run in which a tick was stolen is made again, twice at most
        for _ in range(3):
            told = {name: float(number) for name, number in re.findall(r"(\w+)=([\d.]+)", output_of(words))}
            if not told["stolen"]:
                break
        return told | {"switches": told["voluntary"] + told["involuntary"]}

    def rows(self, head, columns, cell, ways=WAYS):
        """A table with a row for each way, and columns of loads and numbers of threads by their titles."""
        rows = [[told, *(cell((*of, way)) for of in columns.values())] for way, told in self.WAYS.items() if way in ways]
        return ["", *table([head, *columns], rows)]

    def tables(self, found):
        def cell(key):
            if (key, "norm") not in found.found:
                return "-"
            told = [found.text(key, "norm", 2), *(found.medians().text(key, name, *of) for name, of in self.NUMBERS.items())]
            return "; ".join([*told, f"{found.mean(key, 'stolen'):.1f}"])

        return self.rows("load, threads", self.columns({load: f"{told}, " for load, told in self.LOADS.items()}), cell)[1:]

    def counts(self, load):
        """The numbers of threads with which a load is measured."""
        return self.THREADS

    def columns(self, loads):
        return {f"{told}{count}": (load, count) for load, told in loads.items() for count in self.counts(load)}

    def shown(self, head, columns, found, *told):
        """The same with some of the numbers, of which `told` has the names and the digits behind the point."""

        def cell(key):
            shown = [(name, digits) for name, digits in told if (key, name) in found.found]
            return "/".join(found.text(key, name, digits, 1 if name == "norm" else 1000) for name, digits in shown) or "-"

        return self.rows(head, columns, cell, self.SHOWN)

    def short_tables(self, found):
        ways, medians = [way for way in self.SHOWN if way in self.WAYS], found.medians()

        def cell(key):
            if (key, "norm") not in found.found:
                return "-"
            return "/".join(medians.text(key, *of) for of in (("norm", 2), ("processor", 1, 1000), ("switches",)))

        shown = [(load, count) for load in self.LOADS for count in self.SHOWN_COUNTS[load[2]]]
        rows = [[f"{load[2]}, {count}", *(cell((load, count, way)) for way in ways)] for load, count in shown]
        return table(["threads", *(self.WAYS[way] for way in ways)], rows)


class Loads(Threads):
    name, heading = "loads", "Other loads of threads: `bench/threads.c`"
    short_how = "4 threads: NORM, to one thread that does the same/99th of 100, µs."
    SHOWN = ("calls", "programs", "mutex-calls", "mutex", "barging", "ccsynch", "server", "mutexes")
    LOADS = {
        **{(load, "0", "pinned"): load for load in ("hot", "reads", "own")},
        **{(load, work, "pinned"): f"{load}, {int(work) / 1000:g} µs" for work in ("500", "2000") for load in ("bank", "hot", "reads", "own")},
    }

    def counts(self, load):
        return (4, 16) if load[0] == "bank" or load[1] == "0" else (4,)

    def short_tables(self, found):
        shown = {told: (load, 4) for load, told in self.LOADS.items() if load[0] == "bank" or load[1] == "0"}
        return self.shown("way", shown, found.medians(), ("norm", 2), ("99th", 0))[1:]


class Engine(Section):
    name, heading, needs = "engine", "An engine with many threads: `bench/engine.c`", (LIBRARY,)
    how = (
        "Thousands of commits a second; for a commit µs of processors; for 1,000 commits switches, victims and time-outs; commits of the"
        " thread that made least, and most, in a quarter of a second; 50th and 99th of 100, 999th of 1,000, and the longest transaction, ms."
    )
    short_how = (
        "Thousands of commits a second/µs of processors for a commit/commits of the thread that made least–most in a quarter of a second/"
        "the 999th of 1,000 transactions, ms."
    )
    MILLISECONDS, THREADS = 250, (1, 4, 8, 16, 32, 64)
    COLUMNS = {(way, beside): f"{way}, {beside}" for beside in ("quiet", "busy") for way in ("office", "mutex")}
    PER_COMMITS = ("switches", "victims", "timeouts")
    MS = {name: (2, 1e6) for name in ("median", "99th", "999th", "longest")}
    NUMBERS = {"processor": (1, 1000), **dict.fromkeys(PER_COMMITS, (0,)), "least": (0,), "most": (0,), **MS}

    def cases(self):
        program = self.built("engine")
        keys = [(*column, count) for count in self.THREADS for column in self.COLUMNS]
        return [(key, lambda k=key: self.told(program, *k)) for key in keys]

    def told(self, program, way, beside, count):
        milliseconds = self.few(self.MILLISECONDS)
        told = numbers_of([program, way, str(count), str(milliseconds), beside])
        commits = max(1, told["second"] * milliseconds / 1000)
        told["switches"] = told["voluntary"] + told["involuntary"]
        return told | {name: 1000 * told[name] / commits for name in ("victims", "timeouts")}

    def rows(self, cell):
        rows = [[count, *(cell((*column, count)) for column in self.COLUMNS)] for count in self.THREADS]
        return table(["threads", *self.COLUMNS.values()], rows)

    def tables(self, found):
        def cell(key):
            told = (found.medians().text(key, name, *of) for name, of in self.NUMBERS.items())
            return "; ".join([found.text(key, "second", 1, 1000), *told])

        return self.rows(cell)

    def short_tables(self, found):
        def cell(key):
            told = {name: found.medians().text(key, name, *of) for name, of in self.NUMBERS.items()}
            ends = f"{told['least']}–{told['most']}"
            return "/".join([found.medians().text(key, "second", 1, 1000), told["processor"], ends, told["999th"]])

        return self.rows(cell)


class Looks(Section):
    name, heading, needs = "looks", "How long a monitor waits: `bench/looks.c`", (LIBRARY,)
    how = "Looks at an office whose threads make transfers by programs, one each 200 µs; and how many of 100 takes of history are OK."
    MILLISECONDS, THREADS = 250, (1, 4, 16, 64)
    COLUMNS = {
        "looks": ("looks", 0, 1),
        "median, µs": ("median", 1, 1000),
        "99th of 100": ("99th", 1, 1000),
        "longest": ("longest", 1, 1000),
        "transfers a second, thousands": ("second", 0, 1000),
        "takes in 100": ("taken", 0, 10),
    }

    def cases(self):
        program = self.built("looks")
        return [(count, lambda n=count: self.told(program, str(n))) for count in self.THREADS]

    def told(self, program, count):
        words = [program, count, str(self.few(self.MILLISECONDS))]
        return numbers_of(words) | {"taken": numbers_of([*words, "take"])["taken"]}

    def tables(self, found):
        rows = [[count, *(found.text(count, *of) for of in self.COLUMNS.values())] for count in self.THREADS]
        return table(["threads", *self.COLUMNS], rows)


class Store(Section):
    name, heading, needs = "store", "The store: `bench/store.cpp`", (LIBRARY,)
    how = (
        "Thousands of transactions a second; the ratio of the medians to one office; µs of processors for a transaction; and the 99th of 100"
        " times of one, in µs. The program says what each workload does, and each way."
    )
    short_how = "The program says what each workload does, and each way."
    TRANSACTIONS = 20_000
    THREADS = (1, 2, 4, 8, 16)
    WAREHOUSES = (2, 8)
    WORKLOADS = ("orders", "bank")
    WAYS = {
        "office": "one office",
        "offices": "an office for each warehouse",
        "kept": "intention locks kept",
        "rocksdb": "RocksDB's own",
        "berkeley": "Berkeley DB",
        "none": "no locks",
    }
    # the way to which the others have their ratios, the digits of microseconds behind the point, and further words of the program
    BASE, DIGITS, WORDS = "office", 0, ()

    def build(self, *flags):
        program = self.folder / "store"
        compiler = shlex.split(os.environ.get("CXX", "c++"))
        linked = [*LINKED, "-lrocksdb", *flags, "-lpthread"]
        # what goes wrong without the library of Berkeley DB is no message for a reader
        errors = subprocess.DEVNULL if flags else None
        subprocess.run([*compiler, "-std=c++17", "-O2", TOP / "bench/store.cpp", *linked, "-o", program], check=True, stderr=errors)
        return program

    def cases(self):
        try:
            program = self.build("-DBERKELEY_DB", "-ldb")
        except subprocess.CalledProcessError:
            program, self.WAYS = self.build(), {way: told for way, told in self.WAYS.items() if way != "berkeley"}
        keys = [(work, n, threads, way) for work in self.WORKLOADS for n in self.WAREHOUSES for threads in self.THREADS for way in self.WAYS]
        return [(key, lambda k=key: self.told(program, *k)) for key in keys if key[2] == 1 or key[3] != "none"]

    def told(self, program, workload, warehouses, threads, way):
        rows = self.folder / "rows"
        count = max(threads, self.few(self.TRANSACTIONS))
        line = output_of([program, way, workload, str(warehouses), str(threads), str(count), rows, *self.WORDS])
        shutil.rmtree(rows)
        return {name: float(number) for name, number in re.findall(r"(\w+)=([\d.]+)", line)}

    def cell(self, found, key):
        if (key, "second") not in found.found:
            return ""
        ratio = found.middle(key, "second") / found.middle((*key[:3], self.BASE), "second")
        told = [found.text(key, "second", 1, 1000), f"{ratio:.2f}"]
        return ", ".join([*told, *(f"{found.middle(key, name) / 1000:.{self.DIGITS}f}" for name in ("processor", "99th"))])

    def tables(self, found):
        lines = []
        for work in self.WORKLOADS:
            for n in self.WAREHOUSES:
                rows = [[threads, *(self.cell(found, (work, n, threads, way)) for way in self.WAYS)] for threads in self.THREADS]
                lines += ["", *table([f"{work}, {n} warehouses, threads", *self.WAYS.values()], rows)]
        return lines[1:]

    def short_tables(self, found):
        rows = {f"{work}, {n}": (work, n) for work in self.WORKLOADS for n in self.WAREHOUSES}
        return short_table("workload, warehouses", rows, self.WAYS, self.BASE, 1, found)


class StoreInMemory(Store):
    name, heading = "hash_table", "The store over a hash table: `bench/store.cpp`"
    how = (
        "Thousands of transactions a second; the ratio of the medians to RocksDB's locks; µs of processors for a transaction; and the 99th"
        " of 100 times of one, in µs."
    )
    TRANSACTIONS = 60_000
    WORKLOADS = ("orders",)
    WAYS = {
        "office": "one office",
        "offices": "an office for each warehouse",
        "kept": "intention locks kept",
        "mutex": "a book behind a mutex",
        "rocksdb": "RocksDB's locks",
        "berkeley": "Berkeley DB",
        "plain": "reader-writer locks",
        "none": "no locks",
    }
    BASE, DIGITS, WORDS = "rocksdb", 1, ("memory",)


class Embedding(Section):
    name, heading, needs = "embedding", "One thread: `bench/embedding.c`", (LIBRARY,)
    how = "Nanoseconds a call, one thread, 8 sessions, 100,000 rows in which nothing waits; in a round the least of 50 times."
    TIMES = 50
    ROWS = 100_000
    CASES = {
        "databases": "12 databases of one's own a transaction, as `bench/replay.py` makes them",
        "own": "a database, a file and a page of one's own by IX, and 10 records by X",
        "shared": "the same with 4 records, the rest shared by all, whose transactions are open side by side",
    }
    COLUMNS = {"book": "`pelgaisti_book_serve`", "mutex": "with a mutex round each call"}

    def cases(self):
        program, rows = self.built("embedding"), self.few(self.ROWS)
        traces = {case: self.folder / f"{case}.csv" for case in self.CASES}
        replay.write(traces["databases"], replay.uncontended(rows))
        replay.write(traces["own"], transactions(own, rows, False))
        replay.write(traces["shared"], transactions(shared, rows, True))
        return [(case, lambda t=trace: self.told(program, t)) for case, trace in traces.items()]

    def told(self, program, trace):
        lines = output_of([program, trace, str(self.few(self.TIMES))]).splitlines()
        return dict(zip(self.COLUMNS, (float(line.split()[0]) for line in lines)))

    def tables(self, found):
        rows = [[told, *(found.text(case, name, 1) for name in self.COLUMNS)] for case, told in self.CASES.items()]
        return table(["rows", *self.COLUMNS.values()], rows)


class Instructions(Section):
    name, heading, needs = "instructions", "Instructions: `checks/instructions.py`", (GLM, LIBRARY)
    how = "Counted once by callgrind, which sees no clock."
    most_rounds = 1

    def cases(self):
        if shutil.which("valgrind") is None:
            raise OSError("valgrind isn't on the path")
        return [("lines", self.count)]

    def count(self):
        # its status is 1 if a count is beyond its bound, which the table shows
        ran = subprocess.run([TOP / "checks/instructions.py", "--over-gate"], stdout=subprocess.PIPE, text=True, timeout=600)
        self.lines = re.findall(r"^(.*): ([\d.]+) instructions, at most ([\d.]+)", ran.stdout, re.MULTILINE)
        if not self.lines:
            raise OSError("checks/instructions.py counted nothing")
        return {}

    def tables(self, _found):
        return table(["calls", "instructions", "at most"], [[told, f"{int(a):,}", f"{int(b):,}"] for told, a, b in self.lines])


SECTIONS = [Replay, Worst, Memory, Growth, Threads, Loads, Engine, Looks, Store, StoreInMemory, Waiting, Embedding, Instructions]

