#!/usr/bin/env python3
"""Measures what a mail, a quiet run and a start cost, beside C that does the same work.

  bench/costs.py PROGRAM NAME [PEER]

A mail of 1.1 KB has five or six header fields and 189 words, of which some 140 are distinct: short ones are frequent. Instructions are those
of callgrind, as the difference of two scripts that differ by 1,000 mails or by 1,000 pairs of `at` and `run`, so that what a
program does once counts for nothing. Peak memory is what the system says of the process. The replies of both programs have to
be the same. If NAME is tapestry, mails go into a store, and a start is an empty script over it; the peer reads the store by
SQLite's library.
"""

import os
import random
import re
import shutil
import subprocess
import sys

SIZES = [int(it) for it in os.environ.get("MAILS", "10000 100000").split()]
STORES = [int(it) for it in os.environ.get("STORES", "10000 100000").split()]
SCRATCH = os.environ.get("SCRATCH", "/tmp")
STEP = 1000
SYLLABLES = [a + b for a in "bdfgklmnprst" for b in ("a", "e", "i", "o", "u", "an", "er", "ing")]


def word(n):
    text = ""
    while True:
        text += SYLLABLES[n % len(SYLLABLES)]
        n //= len(SYLLABLES)
        if n == 0:
            return text


# A language of 20,000 words, of which few are frequent and short, as often as a text has them. Each twelfth is a capital one.
WORDS = [word(int(20000 ** (k / 16384))) for k in range(16384)]
WORDS[::12] = [it.capitalize() for it in WORDS[::12]]


def mail(i):
    rng = random.Random(i)
    words = rng.choices(WORDS, k=189)
    reply = f"In-Reply-To: <{i - 1}.{(i - 1) * 7919}@mail.example.org>\n" if i % 3 == 0 else ""
    lines = [f"mail\nFrom: sender{i % 200}@example.org\nTo: list@example.org\nSubject: {' '.join(words[:4])}\n"]
    lines.append(f"Message-ID: <{i}.{i * 7919}@mail.example.org>\nDate: Thu, 01 Jan 2026 10:{i // 60 % 60:02}:{i % 60:02} +0000\n{reply}\n")
    for at in range(4, len(words), 12):
        lines.append(" ".join(words[at : at + 12]) + ".\n")
    lines.append(".\n")
    return "".join(lines)


def script(name, mails, runs=0):
    """Writes a script of so many mails, one run, and so many quiet runs, and the same for the peer; returns its path and its bytes
    of mail."""
    path = os.path.join(SCRATCH, name)
    size = 0
    with open(path, "w") as out, open(path + ".peer", "w") as other:

        def put(text):
            out.write(text)
            other.write(text)

        put("at 1000\nas ann\n")
        out.write("query q m.words HAS 'xyzzy'\n")
        other.write("query q word xyzzy\n")
        for i in range(1, mails + 1):
            text = mail(i)
            size += len(text) - 7
            put(text)
        put("at 2000\nrun q\n")
        for k in range(1, runs + 1):
            put(f"at {2000 + k}\nrun q\n")
    return path, size


def run(words, path):
    """Returns what a program writes for a script, its processor seconds and its peak memory in bytes. GNU time is asked, if it is
    there: the system counts the memory of the process that starts another as that other's."""
    replies, times = os.path.join(SCRATCH, "replies"), os.path.join(SCRATCH, "times")
    timer = ["/usr/bin/time", "-f", "%U %S %M", "-o", times] if os.path.exists("/usr/bin/time") else []
    with open(path, "rb") as source, open(replies, "wb") as sink:
        child = subprocess.Popen([*timer, *words], stdin=source, stdout=sink)
        _, status, usage = os.wait4(child.pid, 0)
        child.returncode = status
    user, system, peak = usage.ru_utime, usage.ru_stime, usage.ru_maxrss
    if timer:
        with open(times) as it:
            user, system, peak = (float(number) for number in it.read().split("\n")[-2].split())
    with open(replies, "rb") as it:
        return it.read(), user + system, peak * 1024


def instructions(words, path):
    with open(path, "rb") as source:
        said = subprocess.run(
            ["valgrind", "--tool=callgrind", "--callgrind-out-file=/dev/null", *words],
            stdin=source,
            stdout=subprocess.DEVNULL,
            stderr=subprocess.PIPE,
            text=True,
        ).stderr
    return int(re.search(r"Collected : (\d+)", said).group(1))


def line(what, program, peer, form):
    beside = f"{form.format(peer):>14} {program / peer:6.2f}" if peer else ""
    print(f"{what:60} {form.format(program):>14} {beside}", flush=True)


def figures(program, end):
    """Returns the instructions of a mail and of a quiet run."""
    few, _ = script("few", STEP)
    more, _ = script("more", 2 * STEP)
    quiet, _ = script("quiet", STEP, STEP)
    base = instructions([program], few + end)
    return [(instructions([program], it + end) - base) / STEP for it in (more, quiet)]


def main():
    program, name, *peers = sys.argv[1:]
    peer = peers[0] if peers else None
    print(f"{'':60} {'the program':>14} {'C':>14} {'times':>6}")
    if name == "tapestry_mem":
        if shutil.which("valgrind"):
            ours = figures(program, "")
            other = figures(peer, ".peer") if peer else [None, None]
            line("instructions of a mail", ours[0], other[0], "{:,.0f}")
            line("instructions of a quiet run, with its `at`", ours[1], other[1], "{:,.0f}")
        for size in SIZES:
            path, total = script("mails", size)
            said, seconds, memory = run([program], path)
            beside = run([peer], path + ".peer") if peer else None
            if beside and beside[0] != said:
                print("the replies differ")
                return 1
            line(f"{size:,} mails of {total / size:,.0f} bytes: peak memory, MB", memory / 1e6, beside and beside[2] / 1e6, "{:,.1f}")
            line("  a byte of mail", memory / total, beside and beside[2] / total, "{:.2f}")
            line("  microseconds of the processor a mail", seconds / size * 1e6, beside and beside[1] / size * 1e6, "{:.1f}")
    for size in STORES if name == "tapestry" else []:
        store = os.path.join(SCRATCH, "costs.db")
        for it in (store, store + "-wal"):
            if os.path.exists(it):
                os.remove(it)
        path, total = script("mails", size)
        _, _, memory = run([program, "--store", store], path)
        line(f"{size:,} mails into a store: peak memory, MB", memory / 1e6, None, "{:,.1f}")
        with open(os.path.join(SCRATCH, "empty"), "w"):
            pass
        _, seconds, memory = run([program, "--store", store], os.path.join(SCRATCH, "empty"))
        beside = run([peer, store], os.path.join(SCRATCH, "empty")) if peer else None
        line(f"{size:,} mails in a store: a start, microseconds a mail", seconds / size * 1e6, beside and beside[1] / size * 1e6, "{:.1f}")
        line("  peak memory of the start, MB", memory / 1e6, beside and beside[2] / 1e6, "{:,.1f}")
    return 0


if __name__ == "__main__":
    sys.exit(main())
