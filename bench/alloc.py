#!/usr/bin/env python3
"""Lets each allocation of a program fail once, over whole scripts.

  bench/alloc.py PROGRAM LIBRARY FILE|MEMORY SCRIPT..

LIBRARY is bench/fail_alloc.c as a shared library. With FILE each run has a new store on disk, and what is stored is compared too.
A run must end with status 7 and write the beginning of the replies, or answer `no 18` to one command and then all others as if that
command weren't there. MOST is the most runs of a script (400): above that every so many-th allocation fails, and the stride is said.
What the program allocates for an empty script too, as it opens and closes its store, is swept once. The status is 1 if a run did
anything else.
"""

import os
import sqlite3
import subprocess
import sys
import tempfile

MOST = int(os.environ.get("MOST", "400"))
TABLES = ["docs", "notes", "queries", "runs", "picks", "filters"]


def commands_of(script):
    """The commands of a script that have a reply, each with its block."""
    found, lines = [], script.split(b"\n")
    if lines[-1] == b"":
        lines.pop()
    at = 0
    while at < len(lines):
        words = lines[at].split()
        start, at = at, at + 1
        if not words or words[0].startswith(b"#"):
            continue
        if words[0] in (b"mail", b"mbox", b"filter"):
            while at < len(lines) and lines[at].rstrip(b"\r") != b".":
                at += 1
            at += 1
        found.append(b"\n".join(lines[start:at]) + b"\n")
    return found


def replies_of(out):
    """The replies, each with the lines that belong to it."""
    found, lines = [], out.splitlines(True)
    while lines:
        words = lines[0].split()
        below = int(words[1]) if words[0] == b"ok" else 0
        found.append(b"".join(lines[: below + 1]))
        lines = lines[below + 1 :]
    return found


class Sweep:
    def __init__(self, program, library, has_file, folder):
        self.program, self.library, self.has_file, self.folder = program, library, has_file, folder
        self.store, self.count = f"{folder}/store", f"{folder}/count"
        # How many allocations an empty script has.
        self.base = 0

    def run(self, script, fails):
        """The status, the replies, the rows and the number of allocations."""
        for path in (self.store, f"{self.store}-wal"):
            if os.path.exists(path):
                os.remove(path)
        words = ["--store", self.store] if self.has_file else []
        more = {"LD_PRELOAD": self.library, "FAIL_ALLOC": str(fails), "COUNT_ALLOC": self.count}
        ran = subprocess.run([self.program, *words], input=script, stdout=subprocess.PIPE, env={**os.environ, **more}, check=False)
        with open(self.count, encoding="ascii") as it:
            allocations = int(it.read())
        return ran.returncode, ran.stdout, self.rows(), allocations

    def rows(self):
        if not self.has_file or not os.path.exists(self.store):
            return None
        try:
            base = sqlite3.connect(f"file:{self.store}", uri=True)
            found = [base.execute(f"SELECT * FROM {it} ORDER BY 1").fetchall() for it in TABLES]
            base.close()
            return found
        except sqlite3.DatabaseError:
            return None

    def sweep(self, name, script):
        commands = commands_of(script)
        status, whole, rows, allocations = self.run(script, 0)
        stride = max(1, -(-(allocations - self.base) // MOST))
        without, kinds, wrong = {}, {"status 7": 0, "no 18": 0, "the same": 0}, []
        for fails in range(self.base + 1, allocations + 1, stride):
            got, out, kept, _ = self.run(script, fails)
            if got == 7 and whole.startswith(out):
                kinds["status 7"] += 1
            elif got == status and out == whole and kept == rows:
                kinds["the same"] += 1
            elif b"no 18\n" in (replies := replies_of(out)) and len(replies) == len(commands):
                place = replies.index(b"no 18\n")
                if place not in without:
                    rest = commands[:place] + commands[place + 1 :]
                    without[place] = self.run(b"".join(rest), 0)
                _, others, kept_then, _ = without[place]
                if replies[:place] + replies[place + 1 :] == replies_of(others) and kept == kept_then and got == 1:
                    kinds["no 18"] += 1
                else:
                    wrong.append(fails)
            else:
                wrong.append(fails)
        said = f"{name}: {allocations - self.base} allocations, stride {stride}; " + ", ".join(f"{it} {n}" for it, n in kinds.items())
        print(said + (f"; WRONG at {wrong[:10]}" if wrong else ""), flush=True)
        return not wrong


def main(words):
    program, library, where, *scripts = words
    with tempfile.TemporaryDirectory() as folder:
        sweep = Sweep(program, library, where == "FILE", folder)
        right = sweep.sweep("an empty script", b"")
        sweep.base = sweep.run(b"", 0)[3]
        for path in scripts:
            with open(path, "rb") as it:
                right = sweep.sweep(os.path.basename(path), it.read()) and right
        return 0 if right else 1


if __name__ == "__main__":
    if len(sys.argv) < 5 or sys.argv[3] not in ("FILE", "MEMORY"):
        sys.exit(__doc__)
    sys.exit(main(sys.argv[1:]))
