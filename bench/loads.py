#!/usr/bin/env python3
"""Measures what a load of mailbox files, a start and first runs cost over a store, in seconds of the processor.

  bench/loads.py PROGRAM PEER

The mails are those of bench/costs.py, in mailbox files of 12,500, each one transaction. Then come queries, each for one word, and each
is run once, which stores what it delivers in one transaction. PEER is bench/peer.c, built with SQLite's library: it gets the same
script, with the queries in its own form, and its replies have to be the same. Each figure is the middle one of TIMES processes, each
over a new store; a load is without what an empty script takes, and the runs are the difference of two scripts.
"""

import os
import random
import statistics
import sys

from costs import SCRATCH, WORDS, line, mail, run

SIZES = [int(it) for it in os.environ.get("MAILS", "10000").split()]
QUERIES = int(os.environ.get("QUERIES", "1000"))
TIMES = int(os.environ.get("TIMES", "3"))
OF_A_FILE = 12_500
OF_A_USER = 50


def message(i):
    """A mail of bench/costs.py as it stands in a mailbox file."""
    lines = mail(i).split("\n")
    return "\n".join(["From sender Thu Jan  1 10:00:00 2026", *lines[1:-2], "", ""])


def of_users(commands):
    """The commands, so many of each user."""
    return [f"as user{i // OF_A_USER}\n{it}" if i % OF_A_USER == 0 else it for i, it in enumerate(commands)]


def scripts(mails):
    """Writes the script, whose last part is the runs, for the program and for its peer; returns the paths of both, and of both without
    the runs and without more than the mails."""
    load = ["at 1000\nas ann\n"]
    for first in range(1, mails + 1, OF_A_FILE):
        load += ["mbox\n", *(message(i) for i in range(first, min(first + OF_A_FILE, mails + 1))), ".\n"]
    words = random.Random(1).sample(sorted({it.lower() for it in WORDS}), QUERIES)
    ours = of_users([f"query q{i} m.words HAS '{it}'\n" for i, it in enumerate(words)])
    others = of_users([f"query q{i} word {it}\n" for i, it in enumerate(words)])
    runs = of_users([f"run q{i}\n" for i in range(QUERIES)])
    made = {}
    for name, queries in (("", ours), (".peer", others)):
        for part, text in (("empty", []), ("load", load), ("queries", [*load, "at 2000\n", *queries]), ("runs", [*load, "at 2000\n", *queries, *runs])):
            made[part + name] = os.path.join(SCRATCH, part + name)
            with open(made[part + name], "w") as it:
                it.writelines(text)
    return made


def over_new_store(words, path, is_peer):
    """Returns the replies, the processor seconds and the peak memory of a script over a new store, whose path is returned too."""
    store = os.path.join(SCRATCH, "loads.db")
    for it in (store, store + "-wal", store + "-shm"):
        if os.path.exists(it):
            os.remove(it)
    return run([*words, *([] if is_peer else ["--store"]), store], path), store


def figures(words, made, is_peer):
    """Returns the seconds of a load, of a start over what it left and of all first runs, the peak memory of the load and the replies to all."""
    end = ".peer" if is_peer else ""
    loads, starts, runs, peaks = [], [], [], []
    for _ in range(TIMES):
        (_, empty, _), _ = over_new_store(words, made["empty" + end], is_peer)
        (_, load, peak), store = over_new_store(words, made["load" + end], is_peer)
        _, start, _ = run([*words, *([] if is_peer else ["--store"]), store], made["empty" + end])
        (_, queries, _), _ = over_new_store(words, made["queries" + end], is_peer)
        (said, whole, _), _ = over_new_store(words, made["runs" + end], is_peer)
        loads.append(load - empty)
        starts.append(start)
        runs.append(whole - queries)
        peaks.append(peak)
    return *(statistics.median(it) for it in (loads, starts, runs, peaks)), said


def main(program, peer):
    print(f"{'':60} {'the program':>14} {'C':>14} {'times':>6}")
    for size in SIZES:
        made = scripts(size)
        ours, others = figures([program], made, False), figures([peer], made, True)
        if ours[4] != others[4]:
            print("the replies differ")
            return 1
        delivered = ours[4].count(b"\ndoc ")
        line(f"{size:,} mails by mbox into a store, microseconds a mail", ours[0] / size * 1e6, others[0] / size * 1e6, "{:.1f}")
        line("  peak memory, MB", ours[3] / 1e6, others[3] / 1e6, "{:,.1f}")
        line("a start over them, microseconds a mail", ours[1] / size * 1e6, others[1] / size * 1e6, "{:.1f}")
        line(f"first runs of {QUERIES:,} queries that deliver {delivered:,}, ms", ours[2] * 1e3, others[2] * 1e3, "{:.0f}")
    return 0


if __name__ == "__main__":
    sys.exit(main(*sys.argv[1:]))
