#!/usr/bin/env python3
"""Measures what queries of each shape cost, by the processor time of the program between two places of a script.

  bench/shapes.py PROGRAM [PEER]

Each line is so many mails, a query, its first run, rounds of one event each, a run, and as many rounds of one event and one run. A
round is the difference of the last two by the number of rounds. The rounds of a process go by turns, a tenth of them without runs and
then a tenth with runs, so that what the machine does for a moment falls into one turn: the middle turn counts, and then the middle one
of TIMES processes. A line `ask: NAME` is the same condition as a question about the last second, over the same mails: it has no rounds.

bench/rows.py has the rows. SQLite gets the mails and notes of the same script (bench/sql.py), and the first run or the question as
SQL. Its time is the processor's, and what it finds has to be the same, of the first run and of all rounds together. PEER is the
program of bench/peer.c: it gets the same script, with the query in its own form, and its replies to the runs have to be the same.

SIZES are the numbers of mails (at least three times ROUNDS), CROSS those of the two cross products, ROUNDS the rounds, TIMES the
processes of a line, LIMIT the most seconds of a part of a line, SHAPES texts with | between them: a shape is taken if its name has
one of them. What takes a twentieth of LIMIT has no rounds, and isn't tried with more mails.
"""

import functools
import os
import statistics
import subprocess
import sys
import time
from typing import NamedTuple, Optional

import sql
from rows import CROSS_ROWS, ROUNDS, ROWS, TEN_DAYS

LIMIT = float(os.environ.get("LIMIT", "120"))
TIMES = int(os.environ.get("TIMES", "1"))
SIZES = [int(it) for it in os.environ.get("SIZES", "1000 10000 100000").split()]
CROSS = [int(it) for it in os.environ.get("CROSS", "20 80 320").split()]
SHAPES = os.environ.get("SHAPES", "").split("|")
TURNS = 10


def is_chosen(name):
    return any(it in name for it in SHAPES)


class TooLong(Exception):
    """The program took more than LIMIT seconds."""


class Session:
    """A running program that is fed in parts. Each part ends with a line that is no command, and so with the reply `no 1`."""

    def __init__(self, program):
        self.process = subprocess.Popen([program], stdin=subprocess.PIPE, stdout=subprocess.PIPE)
        os.set_blocking(self.process.stdin.fileno(), False)
        os.set_blocking(self.process.stdout.fileno(), False)
        self.seconds = 0.0

    def clock(self):
        with open(f"/proc/{self.process.pid}/schedstat", encoding="ascii") as it:
            return int(it.read().split()[0]) / 1e9

    def part(self, text):
        """The processor seconds of these commands, and the replies to them."""
        start = self.clock()
        left = memoryview((text + "part\n").encode())
        pieces, end = [], b""
        reader, writer = self.process.stdout.fileno(), self.process.stdin.fileno()
        while not (b"\n" + end).endswith(b"\nno 1\n"):
            moved = False
            if left:
                try:
                    left = left[os.write(writer, left[:65536]) :]
                    moved = True
                except BlockingIOError:
                    pass
            try:
                piece = os.read(reader, 1 << 20)
                if not piece:
                    raise SystemExit(f"shapes: the program ended with status {self.process.wait()}")
                pieces.append(piece)
                end = (end + piece)[-16:]
                moved = True
            except BlockingIOError:
                pass
            if not moved:
                if self.clock() - start > LIMIT:
                    raise TooLong
                time.sleep(0.0005)
        return self.clock() - start, b"".join(pieces)

    def end(self):
        self.process.kill()
        self.process.wait()


@functools.lru_cache(maxsize=1)
def stored_script(stored, seconds, size):
    """That many mails, each fifth with a note."""
    text = ["at 1000\nas ann\n"]
    for i in range(1, size + 1):
        text.append(f"at {1000 + seconds * i}\n{stored(i)}" + (f"note {i} score 3 fine\n" if i % 5 == 0 else ""))
    return "".join(text)


@functools.lru_cache(maxsize=2)
def stored_base(stored, seconds, size):
    """The same in SQLite."""
    base = sql.new_base()
    sql.add_rows(base, stored_script(stored, seconds, size))
    base.execute("ANALYZE")
    base.commit()
    return base


def now_of(size):
    """The moment of the first run, ten days later, so that an absence of that length has something to deliver."""
    return 2000 + size + TEN_DAYS


def event_of(row, size, k):
    return row.event(size, k) if row.event else row.stored(size + k)


def rounds_of(row, size, part, runs):
    """The commands of a half of a turn, number `part` of all halves."""
    text = []
    for k in range(part * (ROUNDS // TURNS) + 1, (part + 1) * (ROUNDS // TURNS) + 1):
        then = now_of(size) + k * 3600
        text.append(f"at {then}\n{event_of(row, size, k)}at {then + 1}\n" + "run q\n" * runs)
    return "".join(text)


def is_slow(seconds):
    """What takes so long has no rounds, and isn't tried with more mails."""
    return seconds > LIMIT / 20


class Measured(NamedTuple):
    """Seconds of the first run, or of the question, and of a round; the rounds' commands; the replies to the question or to all runs."""

    first: float
    each: Optional[float]
    told: str
    replies: bytes


def measure_question(session, query, size):
    seconds, replies = session.part(f"ask {now_of(size) - 1} {query}\n")
    return Measured(seconds, None, "", replies)


def measure_rounds(session, row, size):
    """Seconds of a round, the commands and the replies to the runs."""
    differences, told, replies = [], [], []
    for turn in range(TURNS):
        told += [rounds_of(row, size, 2 * turn, 0), rounds_of(row, size, 2 * turn + 1, 1)]
        without, _ = session.part(told[-2])
        _, said = session.part("run q\n")
        replies.append(said)
        with_runs, said = session.part(told[-1])
        replies += [it for it in said.splitlines(True) if it.startswith((b"doc ", b"no ")) or b" run " in it]
        differences.append(with_runs - without)
    return max(0.0, statistics.median(differences)) / (ROUNDS // TURNS), "".join(told), b"".join(replies)


def measure_runs(session, row, query, size, has_rounds):
    _, said = session.part(f"query q {query}\n")
    if b"ok 0 query q" not in said:
        raise SystemExit(f"shapes: {query}: {said.decode()}")
    first, replies = session.part("run q\n")
    if not has_rounds or is_slow(first):
        return Measured(first, None, "", replies)
    each, told, said = measure_rounds(session, row, size)
    return Measured(first, each, told, replies + said)


def measure(program, row, query, size, asked, has_rounds):
    session = Session(program)
    try:
        session.part(stored_script(row.stored, row.seconds, size))
        session.part(f"at {now_of(size)}\n")
        return measure_question(session, query, size) if asked else measure_runs(session, row, query, size, has_rounds)
    finally:
        session.end()


def measured(program, row, query, size, asked, has_rounds):
    """The middle figures of TIMES processes, whose replies are the same."""
    found = [measure(program, row, query, size, asked, has_rounds) for _ in range(TIMES)]
    each = None if found[0].each is None else statistics.median(it.each for it in found)
    return found[0]._replace(first=statistics.median(it.first for it in found), each=each)


def figure(seconds, unit, scale):
    return "-" if seconds is None else f"{seconds * scale:.{2 if seconds * scale < 10 else 0}f} {unit}"


def beside_peer(peer, row, size, found):
    by = measured(peer, row, row.peer, size, False, True)
    ratio = f"{found.first / by.first:.1f}, {found.each / by.each:.1f}" if by.first and by.each else "-"
    other = "" if by.replies == found.replies else "; OTHER REPLIES"
    return f"{figure(by.first, 'ms', 1e3)}, {figure(by.each, 'us', 1e6)}; times {ratio}{other}"


def has_rows_of_rounds(row, size, found):
    """Whether all runs together gave what SQLite finds with the rows of the rounds."""
    base = stored_base(row.stored, row.seconds, size)
    said = sql.find(base, row.sql.run, sql.add_rows(base, "as ann\n" + found.told), LIMIT)
    base.rollback()
    given = [it for it in found.replies.splitlines() if it.startswith(b"doc ")]
    return said is None or sorted(given) == sorted(said[1].splitlines())


def beside_sqlite(row, size, asked, found):
    base = stored_base(row.stored, row.seconds, size)
    said = []
    for _ in range(TIMES):
        said.append(sql.find(base, row.sql.ask if asked else row.sql.run, now_of(size), LIMIT))
        if not said[-1]:
            return f"SQLite more than {LIMIT:.0f} s"
    seconds = statistics.median(it[0] for it in said)
    text = f"SQLite {figure(seconds, 'ms', 1e3)}; times {found.first / seconds:.1f}"
    if found.replies.partition(b"\n")[2].partition(b"no 1\n")[0] != said[0][1]:
        text += "; OTHER ROWS"
    elif found.told and not has_rows_of_rounds(row, size, found):
        text += "; OTHER ROWS IN ROUNDS"
    return text


def line(program, peer, name, row, size, asked, has_rounds):
    """Prints a line, and returns the seconds that its program took in all; None if that is too long."""
    try:
        found = measured(program, row, row.query, size, asked, has_rounds)
    except TooLong:
        print(f"| {name} | {size:,} | more than {LIMIT:.0f} s | - | - | - |", flush=True)
        return None
    beside = []
    if peer and row.peer and not asked:
        beside.append(beside_peer(peer, row, size, found))
    if row.sql:
        beside.append(beside_sqlite(row, size, asked, found))
    refused = sum(it.startswith(b"no ") and it != b"no 1" for it in found.replies.splitlines())
    if refused:
        beside.append(f"{refused} REFUSED")
    delivered = found.replies.count(b"\ndoc ")
    figures = f"{figure(found.first, 'ms', 1e3)} | {figure(found.each, 'us', 1e6)} | {delivered:,}"
    print(f"| {name} | {size:,} | {figures} | {'; '.join(beside) or '-'} |", flush=True)
    return found.first + (found.each or 0) * ROUNDS


def main(words):
    program, peer = words[0], words[1] if len(words) > 1 else None
    print("| Shape | Mails | First run | A round | Delivered | In C: first run, round; or by SQLite |\n|---|---|---|---|---|---|", flush=True)
    slow = set()
    for rows, sizes, has_rounds in ((ROWS, SIZES, ROUNDS >= TURNS), (CROSS_ROWS, CROSS, False)):
        lines = [(f"ask: {row.name}" if asked else row.name, row, asked) for row in rows for asked in (False, True)[: 1 + row.asked]]
        for size in sizes:
            for name, row, asked in lines:
                if is_chosen(name) and name not in slow:
                    seconds = line(program, peer, name, row, size, asked, has_rounds)
                    if seconds is None or (rows is ROWS and is_slow(seconds)):
                        slow.add(name)


if __name__ == "__main__":
    if not 2 <= len(sys.argv) <= 3:
        sys.exit(__doc__)
    main(sys.argv[1:])
