#!/usr/bin/env python3
"""Measures anew what bench/README.md tells by the clock, and prints its tables, or pastes them.

Usage: bench/measure.py [--over-gate | --try] [--rounds N] [--seconds N] [--quick] [--paste] [--only SECTION]..

A section makes its cases in rounds (5 by default): each case once in a round, and every second round backwards. With --seconds it
makes as many as fit. A figure is the median of the rounds, with the least and the greatest in brackets, or between the other quartiles.
Before the tables of a section a line says on which machine, when and in how many rounds they were measured, and which share of all ticks
of the processors was stolen by others than this system, or idle, by /proc/stat. Rounds in which more than 1 in 100 was stolen are robbed:
their figures come in tables of their own. The sections of threads make a run anew, twice at most, in which a tick was stolen.

A section has two texts: all its figures, which are printed, and a short one of medians alone, of the clean rounds if there are any.

The sections, with the minutes that they take on 4 free processors:
    replay        glm replay, run, explain, check and show, on the traces of bench/replay.py                 1
    worst         the dearest calls, with 256 and with 1,024 sessions, by bench/worst.py                     3
    memory        the peak memory of a whole process, by bench/memory.c                                      1/2
    growth        a new book and a new office of 256 and of 1,024 sessions, by bench/memory.c                0
    threads       an office beside ten other ways to share a lock table, up to 64 threads, pinned or not,
                  beside busy processes, by bench/threads.c                                                  2
    loads         the same with hot rows, shared reads, own files, work between calls                        1
    engine        an engine of up to 64 threads that wait, beside busy processes, too, by bench/engine.c     1/2
    looks         how long a monitor waits for a look at an office of many threads, by bench/looks.c         1/4
    store         examples/store over offices, RocksDB's own transactions and Berkeley DB, by bench/store.cpp  15
    hash_table    its orders over a hash table, by these, a mutex and reader-writer locks, by bench/store.cpp  15
    waiting       three ways to wait for locks, by bench/waiting.c                                           1
    embedding     calls by one thread, with a mutex and without, by bench/embedding.c                        1/2
    instructions  what checks/instructions.py counts; needs valgrind; once                                   1/2

The sections come out one by one, and what they are at goes to standard error. --paste also writes all figures of each into
bench/results/SECTION.md, and puts the short text in the place of what bench/README.md has of it, up to the next heading; of
`instructions` it has a link alone. --try measures the library of ./embed --try --untrapped, which isn't proved. --quick makes one round
with few repetitions, to try this script: its figures are none. Needs a C compiler, `$CC` or cc; `store` and `hash_table` need RocksDB,
and `$CXX` or c++ for C++17. Builds the programs and the library first, if they aren't built; with --over-gate, takes those that a full
run of the gate and checks/embedding have left. Status 1: a section was left out.
"""
import argparse
import os
import platform
import re
import statistics
import subprocess
import sys
import tempfile
import time
from pathlib import Path

sys.dont_write_bytecode = True
from sections import GLM, LIBRARY, LINKED, SECTIONS, TOP, UNPROVED  # noqa: E402

# what builds each of these, and where
BUILDS = {
    GLM: (["./glm", "--help"], TOP),
    LIBRARY: (["./embed"], TOP),
}
README = TOP / "bench/README.md"
RESULTS = TOP / "bench/results"
# a round is robbed if more than one tick in so many was stolen
ROBBED = 100


def tell(words):
    print(f"measure: {words}", file=sys.stderr, flush=True)


class Ticks:
    """The ticks of all processors since the system's start: all of them, those stolen by others, and the idle ones."""

    def __init__(self):
        user, nice, system, idle, wait, irq, softirq, stolen = map(int, Path("/proc/stat").read_text().split()[1:9])
        self.all = user + nice + system + idle + wait + irq + softirq + stolen
        self.stolen, self.idle = stolen, idle + wait

    def since(self, earlier):
        self.all, self.stolen, self.idle = self.all - earlier.all, self.stolen - earlier.stolen, self.idle - earlier.idle
        return self

    def is_robbed(self):
        return self.stolen * ROBBED > self.all

    def told(self):
        return f"stolen {one_in(self.stolen, self.all)}, idle {one_in(self.idle, self.all, 1)}"


def one_in(part, whole, digits=0):
    return f"1 in {whole / part:,.{digits}f}" if part else "none"


def processor():
    found = re.search(r"^model name\s*: (.*)$", Path("/proc/cpuinfo").read_text(), re.MULTILINE)
    return f"{os.cpu_count()} processors, {' '.join(found[1].split()) if found else platform.machine()}"


def today():
    return time.strftime("%d %B %Y").lstrip("0")


class Figures:
    """What each case has told, round by round: numbers by their names."""

    def __init__(self, has_quartiles=False):
        self.found, self.has_spread, self.part = {}, True, 4 if has_quartiles else 1

    def medians(self):
        """The same figures, which are printed without their spread."""
        short = Figures()
        short.found, short.has_spread = self.found, False
        return short

    def add(self, key, told):
        for name, number in told.items():
            self.found.setdefault((key, name), []).append(number)

    def middle(self, key, name):
        """The median."""
        return statistics.median(self.found[key, name])

    def end(self, column, is_upper):
        """The least or the greatest, or a quartile."""
        return sorted(column, reverse=is_upper)[(len(column) - 1) // self.part if self.part > 1 else 0]

    def mean(self, key, name):
        return statistics.mean(self.found[key, name])

    def text(self, key, name, digits=0, per=1):
        """The median, and in brackets the least and the greatest, if they differ as they are printed; or the three quartiles."""
        return self.pair(key, [name], digits, per)

    def pair(self, key, names, digits=0, per=1):
        """The same of several figures, with a stroke between them."""
        columns = [self.found[key, name] for name in names if (key, name) in self.found]
        if len(columns) < len(names):
            return ""
        ends = (lambda column: self.end(column, False)), (lambda column: self.end(column, True))
        middle, least, greatest = ("/".join(f"{of(column) / per:,.{digits}f}" for column in columns) for of in (statistics.median, *ends))
        if not self.has_spread or least == greatest:
            return middle
        return f"{least}–{middle}–{greatest}" if self.part > 1 else f"{middle} ({least} to {greatest})"


def make_rounds(section, count, seconds):
    """Makes so many rounds, or as many as fit into so many seconds, at least one. Returns the figures of those that are clean and of
    those that are robbed, how many there are of each, and the ticks of all."""
    cases = section.cases()
    found, numbers, start = {is_robbed: Figures(section.is_by_runs) for is_robbed in (False, True)}, {False: 0, True: 0}, Ticks()
    begun = time.monotonic()
    for turn in range(count):
        if seconds and turn and (time.monotonic() - begun) * (turn + 1) / turn > seconds:
            break
        before = Ticks()
        told = [(key, make()) for key, make in (cases if turn % 2 == 0 else cases[::-1])]
        spent = Ticks().since(before)
        robbed = spent.is_robbed() and not section.is_by_runs
        numbers[robbed] += 1
        for key, numbers_told in told:
            found[robbed].add(key, numbers_told)
        tell(f"{section.name}: round {turn + 1}, {spent.told()}{', ROBBED' if robbed else ''}")
    return found, numbers, Ticks().since(start)


def head_of(rounds, day, spent, more, how):
    """The line that says where, when and how a section was measured."""
    of = f"median of {rounds} rounds" if rounds > 1 else "1 round"
    return f"{processor()}, {day}: {of}{more}; {spent.told()}. {how}"


def told_of(numbers, rounds, is_robbed):
    """The line before tables of some of the rounds; None if it were of all, and they are clean."""
    if is_robbed:
        return f"ROBBED: {numbers[True]} of {rounds} rounds, in which more than 1 tick in {ROBBED} was stolen."
    return f"Clean: {numbers[False]} of {rounds} rounds." if numbers[True] else None


def texts_of(section, rounds, seconds, tried):
    """All figures of a section, and its short text: how it was measured, and its tables."""
    day, start = today(), time.monotonic()
    found, numbers, spent = make_rounds(section, rounds, seconds)
    rounds = sum(numbers.values())
    spread = ", in brackets the least and the greatest" if rounds > 1 and not section.is_by_runs else ""
    whole = [head_of(rounds, day, spent, spread + tried, section.how)]
    short = [head_of(rounds, day, spent, f" ([all figures](results/{section.name}.md)){tried}", section.short_how or section.how)]
    shown = not numbers[False]
    for is_robbed in (False, True):
        if not numbers[is_robbed]:
            continue
        line = told_of(numbers, rounds, is_robbed)
        told = ["", line] if line else []
        whole += [*told, "", *section.tables(found[is_robbed])]
        if is_robbed == shown:
            short += [*told, "", *section.short_tables(found[is_robbed])]
    tell(f"{section.name}: {time.monotonic() - start:.0f} seconds")
    return "\n".join(whole), "\n".join(short)


def paste(section, whole, short):
    """Writes all figures of a section into bench/results, and puts its short text in the place of what bench/README.md has of it, if it has
    any: from the comment that names it to the next heading."""
    line = f"<!-- bench/measure.py --only {section.name} replaces what follows, up to the next heading -->\n"
    before, comment, behind = README.read_text().partition(line)
    if comment:
        next_heading = behind.find("\n#")
        README.write_text(f"{before}{line}\n{short}\n{behind[next_heading:] if next_heading >= 0 else ''}")
    RESULTS.mkdir(exist_ok=True)
    title = section.heading.replace("`", "")
    (RESULTS / f"{section.name}.md").write_text(f"# {title}\n\nWritten by `bench/measure.py --paste --only {section.name}`.\n\n{whole}\n")


def build(needs, is_over_gate):
    for made in needs:
        words, folder = BUILDS[made]
        if not is_over_gate:
            subprocess.run(words, cwd=folder, stdout=subprocess.DEVNULL, check=True)
        elif not made.exists():
            raise OSError(f"{made.relative_to(TOP)} isn't built")


def asked_of_the_words():
    asked = argparse.ArgumentParser(description=__doc__, formatter_class=argparse.RawDescriptionHelpFormatter)
    asked.add_argument("--over-gate", action="store_true", help="takes what a full run of the gate has left")
    asked.add_argument("--try", action="store_true", dest="tried", help="measures an unproved library")
    asked.add_argument("--rounds", type=int)
    asked.add_argument("--seconds", type=int, help="makes as many rounds of a section as fit")
    asked.add_argument("--quick", action="store_true", help="one round with few repetitions, to try this script")
    asked.add_argument("--paste", action="store_true", help="puts the sections into bench/README.md and bench/results, too")
    asked.add_argument("--only", action="append", choices=[kind.name for kind in SECTIONS], metavar="SECTION")
    asked = asked.parse_args()
    if asked.rounds is None:
        asked.rounds = sys.maxsize if asked.seconds else 5
    if asked.rounds < 1:
        sys.exit("measure: at least one round")
    return asked


def main():
    asked = asked_of_the_words()
    failed = []
    if asked.tried:
        BUILDS[LIBRARY] = (["./embed", "--try", "--untrapped"], TOP)
        LINKED[:] = UNPROVED
    quick = "; QUICK: what follows are no figures" if asked.quick else ""
    print(f"{today()}, {processor()}, {platform.system()} {platform.release()}{quick}", flush=True)
    for kind in SECTIONS:
        if asked.only and kind.name not in asked.only:
            continue
        with tempfile.TemporaryDirectory() as name:
            try:
                build(kind.needs, asked.over_gate)
                rounds = 1 if asked.quick else min(asked.rounds, kind.most_rounds or asked.rounds)
                print(f"\n## {kind.heading}\n", flush=True)
                tried = ", an unproved library" if asked.tried else ""
                whole, short = texts_of(kind(Path(name), asked.quick), rounds, asked.seconds, tried)
                print(whole, flush=True)
                if asked.paste:
                    paste(kind, whole, short)
            except (OSError, subprocess.SubprocessError) as error:
                failed.append(kind.name)
                print(f"\nLeft out: {kind.name} couldn't be measured.", flush=True)
                tell(f"{kind.name}: {error}")
    sys.exit(f"measure: left out: {', '.join(failed)}" if failed else 0)


if __name__ == "__main__":
    main()
