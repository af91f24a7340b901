#!/usr/bin/env python3
"""A small engine in Python, by ctypes over the shared library: accounts, and four threads that move money between them. Each move locks
the two accounts that it changes, sleeps while it waits for a lock, and starts again if it is chosen as a deadlock's victim, or has waited
for too long. Meanwhile the main thread looks at the lock table by a session of its own. While a thread is in a call of the library, other
threads run.

    ./embed && python3 examples/engine.py

It takes the shared library and the header, from which the numbers of statuses, calls and replies are read, out of the folder that the
first argument or PELGAISTI_PREFIX names: the prefix of an install, or a folder that has both. Else it takes those of the archive or of the
checkout that it lies in; of a checkout also those of ./embed --try, of which nothing is proved, and says so. Each thread makes 200 moves, or as many as a second argument says.
"""
import ctypes
import os
import random
import re
import sys
import threading
from ctypes import POINTER, Structure, byref, c_char_p, c_uint32, c_uint64, c_void_p
from pathlib import Path


def found():
    """Returns the folder of the header and the shared library: one that is proved, where there is any."""
    above = list(Path(__file__).resolve().parents)
    given = sys.argv[1] if len(sys.argv) > 1 else os.environ.get("PELGAISTI_PREFIX")
    for prefix in [Path(given)] if given else [above[1] / "out", *above[4:5], above[1] / "out/try"]:
        for include, lib in ((prefix / "include", prefix / "lib"), (prefix, prefix)):
            for library in [*lib.glob("libpelgaisti.so.*"), *lib.glob("libpelgaisti_unproved.so.*")]:
                if (include / "pelgaisti.h").is_file():
                    return include, library.resolve()
    sys.exit(f"engine.py: neither {given or 'the folder that it lies in'} nor its include and lib have pelgaisti.h and libpelgaisti.so: "
             "name a folder, or set PELGAISTI_PREFIX")


INCLUDE, FILE = found()
MOVES = int(sys.argv[2]) if len(sys.argv) > 2 else 200
ACCOUNTS, BALANCE, THREADS = 6, 100, 4

HEADER = (INCLUDE / "pelgaisti.h").read_text(encoding="utf-8")
# the numbers of the header's enums, by their names without PELGAISTI_
N = {name: int(number) for name, number in re.findall(r"\bPELGAISTI_(\w+) = (\d+)", HEADER)}
VERSION = int(re.search(r"^#define PELGAISTI_HEADER_VERSION (\d+)$", HEADER, re.MULTILINE)[1])


class Resource(Structure):
    _fields_ = [("level", c_uint32), ("numbers", c_uint32 * 5)]


class Call(Structure):
    _fields_ = [("op", c_uint32), ("mode", c_uint32), ("resource", Resource)]


class Reply(Structure):
    _fields_ = [("kind", c_uint32), ("value", c_uint64)]


class Answer(Structure):
    _fields_ = [("place", c_uint64), ("reply", Reply)]


class LockAnswer(Structure):
    _fields_ = [("level", c_uint32), ("why", c_uint32), ("place", c_uint64)]


class Options(Structure):
    _fields_ = [(name, c_uint32) for name in ("sessions", "pass_calls", "pass_locks", "pass_rounds")] + [
        (name, c_uint64) for name in ("keep", "deadlocks", "seed")] + [("waker", c_void_p)]


class Gauges(Structure):
    _fields_ = [(name, c_uint64) for name in ("transactions", "locks", "waiting", "longest_queue", "idle_cells")]


class Session(Structure):
    _fields_ = [("is_open", c_uint32), ("note", c_uint32), ("at", c_void_p)]


class Book(Structure):
    _fields_ = [("is_open", c_uint32), ("note", c_uint32), ("at", c_void_p), ("look", c_void_p)]


if "unproved" in FILE.name:
    print(f"engine.py: nothing of {FILE} is proved", file=sys.stderr)
LIBRARY = ctypes.CDLL(str(FILE))
LIBRARY.pelgaisti_version.restype = c_uint32
if LIBRARY.pelgaisti_version() != VERSION:
    sys.exit("engine.py: the library is of another version than the header")


def declared(name, *arguments, result=c_uint32):
    """Returns the library's function, which returns a status unless `result` says otherwise."""
    function = getattr(LIBRARY, "pelgaisti_" + name)
    function.restype, function.argtypes = result, arguments
    return function


default_options = declared("default_options", c_uint32, result=Options)
status_name = declared("status_name", c_uint64, result=c_char_p)
open_office = declared("office_open", POINTER(Session), POINTER(Options))
perform = declared("session_perform", POINTER(Session), POINTER(Call), c_uint64, POINTER(Answer))
lock = declared("session_lock", POINTER(Session), POINTER(Resource), c_uint32, c_uint64, POINTER(LockAnswer))
look = declared("session_look", POINTER(Session), POINTER(Book))
gauges = declared("book_gauges", POINTER(Book), POINTER(Gauges))
end_look = declared("look_end", POINTER(Session), POINTER(Book))
hand_in = declared("session_hand_in", POINTER(Session), POINTER(Session))
close_office = declared("office_close", POINTER(Session), POINTER(Book))
close_book = declared("book_close", POINTER(Book))
# how many turns a call makes until it is answered, and how many milliseconds a lock is waited for
NO_LIMIT, LIMIT = 2**64 - 1, 1000


def expect(status, what):
    if status != N["OK"]:
        raise RuntimeError(f"{what}: {status_name(status).decode()}")


class Worker:
    """A session that one thread uses."""

    def __init__(self, handle, number):
        self.handle, self.number, self.again = handle, number, 0

    def call(self, op):
        """Makes a call without a resource."""
        asked, answer = Call(N[op], N["NL"], Resource()), Answer()
        expect(perform(self.handle, byref(asked), NO_LIMIT, byref(answer)), op)
        if answer.reply.kind == N["REFUSED"]:
            raise RuntimeError(f"{op} was refused")

    def lock(self, account):
        """Locks an account of database 1, and sleeps while the lock waits. Returns whether it is held: else the transaction is a victim, or
        the time is over."""
        resource, answer = Resource(2, (c_uint32 * 5)(1, account)), LockAnswer()
        status = lock(self.handle, byref(resource), N["X"], LIMIT, byref(answer))
        if status not in (N["VICTIM"], N["TIMED_OUT"]):
            expect(status, "lock")
        return status == N["OK"]

    def move(self, source, target, amount):
        """Moves an amount from one account to another, in a transaction that restarts as often as it doesn't get a lock."""
        self.call("BEGIN")
        while True:
            if self.lock(source):
                ACCOUNT[source] -= amount
                if self.lock(target):
                    ACCOUNT[target] += amount
                    self.call("COMMIT")
                    return
                ACCOUNT[source] += amount  # undone before the locks are given back
            self.again += 1
            self.call("RESTART")

    def work(self):
        chosen = random.Random(self.number)
        for _ in range(MOVES):
            source, target = chosen.sample(range(ACCOUNTS), 2)
            self.move(source, target, chosen.randrange(10))


ACCOUNT = [BALANCE] * ACCOUNTS


def most_locks(session, is_running):
    """Looks at the lock table until no thread runs any more. Returns how many locks there were at most at one moment."""
    most, view, found = 0, Book(), Gauges()
    while is_running():
        expect(look(session, byref(view)), "look")
        expect(gauges(byref(view), byref(found)), "gauges")
        expect(end_look(session, byref(view)), "the end of a look")
        most = max(most, found.locks)
    return most


def main():
    options = default_options(THREADS + 1)
    sessions = (Session * (THREADS + 1))()
    expect(open_office(sessions, byref(options)), "open")
    workers = [Worker(sessions[at], at + 1) for at in range(THREADS)]
    threads = [threading.Thread(target=worker.work) for worker in workers]
    for thread in threads:
        thread.start()
    most = most_locks(sessions[THREADS], lambda: any(thread.is_alive() for thread in threads))
    for at in range(1, THREADS + 1):
        expect(hand_in(sessions[at], sessions[0]), "hand in")
    book = Book()
    expect(close_office(sessions[0], book), "close")
    expect(close_book(book), "close")
    print(f"{THREADS * MOVES} moves, {sum(worker.again for worker in workers)} made again; at most {most} locks at one moment")
    if sum(ACCOUNT) != ACCOUNTS * BALANCE:
        sys.exit("engine.py: money was made or lost")


if __name__ == "__main__":
    main()
