#!/usr/bin/env python3
"""Proves, checks, tests and builds crates, over libraries that all checkouts of this machine share.

    tools/build.py libs [CRATE..]          proves these crates and all below them, side by side (none: all crates)
    tools/build.py program CRATE [--ask]   the same for a program, and builds it as crates/CRATE/out/CRATE
    tools/build.py check CRATE [FLAG..]    checks a crate; flags as of rattle check, such as --only F, --test, --start F
    tools/build.py tests CRATE [TEST..]    proves, builds and runs its tests, or those whose names contain a TEST
    tools/build.py edits CRATE [NAME..]    tries the wrong bodies crates/CRATE/must-fail/NAME.edit (none: all)
    tools/build.py plant CRATE [FLAG..]    lists the wrong bodies that its contracts let through; flags of rt plant

libs and program prove from nothing, by the gate's code and with its verdict; so do the others what stands below CRATE. A crate
is proved once for each text of its files and of the libraries below: what another checkout proved is taken, and what it proves
now is waited for; so is an `rt ci` in any checkout, if the kit's has a store. If only tests or comments changed, nothing above is
proved again. check, tests, edits and plant are no verdict: they take what earlier checks of CRATE here left in out/incremental.
`program CRATE --ask` proves nothing: its status is 0 if the program stands there, built of these files.

LANES=N is how many processors are shared out, and how many compilers run on this machine at a time (all processors). JOBS=N is
the most jobs of one compiler (4 where a crate is proved from nothing, else 2). PLANT_SECONDS=N is the longest that one check
of plants may take (240, which passes on a busy machine). ALONE=FOLDER has the store there, and takes nothing from an `rt ci`.
The status is 0 if all went well, 1 if not, 2 if words are wrong.
"""

import fcntl
import os
import queue
import re
import shutil
import signal
import subprocess
import sys
import tempfile
import threading
import time
from concurrent.futures import ThreadPoolExecutor
from typing import Any, Dict, List, Sequence, Set, TextIO, Tuple

sys.dont_write_bytecode = True

import plan
from gate import KIT, OF_PLANT, STORE, TOOLCHAIN, Gate, load, read, say, shrink_store, stamp, sum_of, work_of

TOP = os.path.dirname(os.path.dirname(os.path.abspath(__file__)))
# How many lines of a failed check are shown.
SHOWN = 40


def number_of(name: str, otherwise: int) -> int:
    """Returns what a variable of the environment says, a number from 1 on."""
    said = os.environ.get(name) or str(otherwise)
    if not said.isdigit() or int(said) < 1:
        sys.exit(f"build: {name} is a number from 1 on, and not {said}")
    return int(said)


LANES = number_of("LANES", len(os.sched_getaffinity(0)))


class Lane:
    """One of the places for a compiler, on the whole machine."""

    def __enter__(self) -> None:
        while True:
            for number in range(LANES):
                self.file = open(f"{STORE}/lane.{number}", "w", encoding="utf-8")
                try:
                    return fcntl.flock(self.file, fcntl.LOCK_EX | fcntl.LOCK_NB)
                except BlockingIOError:
                    self.file.close()
            time.sleep(0.5)

    def __exit__(self, *_: Any) -> None:
        self.file.close()


class Prover:
    """Proves crates from nothing, each once all below it are proved."""

    def __init__(self, gate: Gate, names: Sequence[str]) -> None:
        uses = {it.name: [below.name for below in it.deps] for it in gate.every}
        self.gate, self.names = gate, plan.closure(uses, names)
        self.left, self.begun = list(self.names), 0
        self.done: Set[str] = set()
        self.waited_for: Set[str] = set()
        self.running: Dict[str, int] = {}
        self.ended: "queue.Queue[Tuple[str, bool]]" = queue.Queue()
        self.work = {it: work_of(gate.crates[it].folder) for it in self.names}
        self.chain = plan.chains(uses, self.work)
        # A job takes at most half of the memory that the gate plans.
        self.needs = {it: gate.rt.need(gate.crates[it]) / 2 for it in self.names}
        self.memory, self.most = 0.0, number_of("JOBS", plan.MOST_JOBS)

    def run(self) -> bool:
        """Proves all; returns whether all is proved. If one isn't, those at work still end, and no other begins."""
        is_well, ready = True, self.find_ready()
        while self.running or self.left and is_well:
            if is_well:
                left = sum(self.work[it] for it in self.left)
                planned = plan.share(ready, self.running, self.work, self.chain, left, self.needs, self.room(), LANES, self.most)
                for name, jobs in planned:
                    self.begin(name, jobs)
            try:
                # Another process may end what is waited for.
                name, is_proved = self.ended.get(timeout=2)
                del self.running[name]
                is_well = is_well and is_proved
            except queue.Empty:
                pass
            ready = self.find_ready()
        return is_well

    def find_ready(self) -> List[str]:
        """Takes the crates that are proved; returns those that could begin."""
        ready = []
        # Each stands after those that it uses.
        for name in [it for it in self.left if it not in self.running]:
            crate = self.gate.crates[name]
            if not all(it.name in self.done for it in crate.below()):
                continue
            key = self.gate.kept.key(crate)
            if self.gate.find(crate, key):
                self.left.remove(name)
                self.done.add(name)
            elif not self.gate.is_at_work(key):
                ready.append(name)
            elif name not in self.waited_for:
                self.waited_for.add(name)
                say(f"{name} is at work in another checkout or an rt ci; it is waited for")
        return ready

    def room(self) -> float:
        """Returns the memory that those at work leave, by what was planned for them and by what is free now."""
        free, planned = self.gate.rt.free(), sum(plan.memory_of(self.needs[it], jobs) for it, jobs in self.running.items())
        if not self.running:
            self.memory = 0.85 * free
        return min(self.memory - planned, free)

    def begin(self, name: str, jobs: int) -> None:
        """Has a thread prove a crate, unless another process just began it."""
        key = self.gate.kept.key(self.gate.crates[name])
        lock = open(f"{STORE}/lock-{key}", "w", encoding="utf-8")
        try:
            fcntl.flock(lock, fcntl.LOCK_EX | fcntl.LOCK_NB)
        except BlockingIOError:
            return lock.close()
        self.running[name] = jobs
        self.begun += 1
        threading.Thread(target=self.prove, args=(name, key, jobs, lock), daemon=True).start()

    def prove(self, name: str, key: str, jobs: int, lock: TextIO) -> None:
        """Proves a crate and says how that went."""
        crate, is_proved = self.gate.crates[name], False
        try:
            with lock, Lane(), tempfile.TemporaryFile("w+", errors="replace") as crate.out:
                say(f"{name}, with {jobs} job{'s' * (jobs > 1)}")
                began = time.time()
                is_proved = self.gate.prove(crate, key, jobs)
                crate.out.seek(0)
                said = crate.out.read().rstrip("\n").split("\n")
            if not is_proved:
                print("\n".join(said[-SHOWN:]), file=sys.stderr)
                return say(f"{name} isn't proved; `tools/build.py check {name}` says more")
            say(f"{name} is proved, in {time.time() - began:.0f} s; {len(self.done) + 1} of {len(self.names)} are done")
            for it in said:
                if crate.is_program and it.startswith("logic=proved"):
                    say(it)
        finally:
            self.ended.put((name, is_proved))


def prove(gate: Gate, names: Sequence[str]) -> bool:
    """Proves these crates and all below them, but for what is in the store."""
    prover = Prover(gate, names)
    is_well = prover.run()
    if prover.begun:
        shrink_store()
    return is_well


def program(name: str, words: List[str]) -> int:
    """Proves and builds a program, unless it stands there, built of these files."""
    uses, made = plan.read_uses(read(f"{TOP}/crates.txt")), f"{TOP}/crates/{name}/out/{name}"
    files = stamp(TOP, uses, name) if name in uses else ""
    is_there = os.path.isfile(made) and read(f"{made}.stamp") == f"{files} {sum_of(made)}"
    if is_there or words:
        return 0 if is_there else 1
    gate = gate_over([name])
    if not gate.crates[name].is_program:
        say(f"{name} is a library: tools/build.py libs {name}")
        return 2
    gate.stop_on_unread()
    if not prove(gate, [name]):
        return 1
    os.makedirs(os.path.dirname(made), exist_ok=True)
    shutil.copy2(gate.crates[name].rlib, f"{made}.new")
    os.replace(f"{made}.new", made)
    if stamp(TOP, uses, name) != files:
        say("files changed while they were proved: run this again")
        return 1
    with open(f"{made}.stamp", "w", encoding="utf-8") as it:
        it.write(f"{files} {sum_of(made)}")
    return 0


def gate_over(names: Sequence[str]) -> Gate:
    """Returns the gate's view of this checkout, in which crates of these names have to be."""
    gate = Gate(TOP)
    for name in names:
        if name not in gate.crates:
            say(f"crates.txt lists no crate {name}")
            sys.exit(2)
    return gate


def rattle(gate: Gate, crate: Any, words: Sequence[str], **how: Any) -> "subprocess.CompletedProcess[str]":
    """Runs the compiler in a crate's folder; it ends with this process."""
    with Lane():
        whole = [*gate.rt.rtlib.guarded(), f"{KIT}/bin/rattle", *words]
        return subprocess.run(whole, cwd=crate.folder, check=False, stdin=subprocess.DEVNULL, text=True, **how)


def words_of(gate: Gate, crate: Any, flags: Sequence[str], is_test: bool = False) -> List[str]:
    """Returns the compiler's words for a crate, over what earlier checks of it left."""
    jobs = [] if any(it.startswith("--jobs") for it in flags) else ["--jobs", str(number_of("JOBS", 2))]
    os.makedirs(f"{crate.folder}/{gate.rt.rtlib.KEPT[1]}", exist_ok=True)
    return [*crate.words([*flags, *jobs], tests=is_test, keeps=False), *gate.rt.rtlib.KEPT]


def check(gate: Gate, crate: Any, flags: List[str]) -> int:
    """Checks a crate over what earlier checks of it left."""
    status = rattle(gate, crate, ["check", *words_of(gate, crate, flags), "--progress"]).returncode
    say("this took what earlier checks here left; `libs` and `program` prove from nothing")
    return status


def tests(gate: Gate, crate: Any, wanted: List[str]) -> int:
    """Proves, builds and runs tests; each has a minute, in a process of its own and an empty folder."""
    made, flags = f"out/{crate.name}_tests", [*TOOLCHAIN, "--empty-contracts"]
    if rattle(gate, crate, ["build", *words_of(gate, crate, flags, is_test=True), "-o", f"{made}.o"]).returncode:
        say(f"the tests of {crate.name} aren't proved")
        return 1
    if not os.path.getsize(f"{crate.folder}/{made}.o"):
        say(f"{crate.name} has no test")
        return 1
    if crate.link(f"{made}.o", made):
        return 1
    status = 0
    for words in [["--filter", it] for it in wanted] or [[]]:
        with tempfile.TemporaryDirectory(prefix="build-tests-") as room:
            whole = [gate.rt.rtlib.RUNNER, *words, f"{crate.folder}/{made}"]
            ran = subprocess.run(whole, cwd=room, check=False, stdout=subprocess.PIPE, text=True, errors="replace")
        print(ran.stdout, end="", flush=True)
        if ran.returncode or not re.search(r"^test .* \.\.\. ok$", ran.stdout, re.M):
            say("a test failed" if ran.returncode else f"no test has {words[1]} in its name")
            status = 1
    return status


def edits(gate: Gate, crate: Any, wanted: List[str]) -> int:
    """Tries wrong bodies, each over what a check of the crate as it stands left, and judges them as the gate does."""
    found = {os.path.basename(it)[: -len(".edit")]: it for it in gate.rt.edits_of(crate)[0]}
    for name in wanted:
        if name not in found:
            say(f"crates/{crate.name}/must-fail has no {name}.edit")
            return 2
    ran = rattle(gate, crate, ["check", *words_of(gate, crate, [])], stdout=subprocess.PIPE, stderr=subprocess.STDOUT)
    if ran.returncode:
        print("\n".join(ran.stdout.split("\n")[-SHOWN:]))
        say(f"{crate.name} isn't proved as it stands, so no wrong body was tried")
        return 1

    def is_refused(name: str) -> bool:
        with Lane(), tempfile.TemporaryDirectory(prefix="build-edit-") as room:
            shutil.copytree(f"{crate.folder}/{gate.rt.rtlib.KEPT[1]}", f"{room}/over")
            kind, text = gate.rt.must_fail(crate, found[name], ["--jobs", "1"], f"{room}/over")
        print(text, flush=True)
        return kind in gate.refusals

    with ThreadPoolExecutor(LANES) as pool:
        return 0 if all([*pool.map(is_refused, wanted or sorted(found))]) else 1


def plant(gate: Gate, crate: Any, flags: List[str]) -> int:
    """Runs the kit's rt plant over the libraries of the store."""
    kit = load("rt-plant", OF_PLANT)
    kit.SECONDS = number_of("PLANT_SECONDS", kit.SECONDS)
    made = kit.rt.Crate.__init__

    def make(it: Any, *given: Any, **named: Any) -> None:
        made(it, *given, **named)
        it.rlib = gate.crates[it.name].rlib

    def checked(*_: str) -> int:
        words = ["check", *words_of(gate, crate, []), "--progress"]
        ran = rattle(gate, crate, words, stdout=subprocess.PIPE, stderr=subprocess.STDOUT)
        print(ran.stdout)
        return ran.returncode

    kit.rt.Crate.__init__, kit.rt.main = make, checked
    os.chdir(crate.folder)
    return kit.main(*flags)


def main(words: List[str]) -> int:
    over_libraries = {"check": check, "tests": tests, "edits": edits, "plant": plant}
    word, names = (words or [""])[0], words[1:]
    if word == "libs" and not any(it.startswith("-") for it in names):
        gate = gate_over(names)
        gate.stop_on_unread()
        return 0 if prove(gate, names or list(gate.crates)) else 1
    if word == "program" and names and names[1:] in ([], ["--ask"]):
        return program(names[0], names[1:])
    if word not in over_libraries or not names:
        print(__doc__, end="", file=sys.stderr)
        return 2
    gate = gate_over(names[:1])
    crate = gate.crates[names[0]]
    if not prove(gate, [it.name for it in crate.below()]):
        return 1
    # One run at a time works in a crate's folder; this ends with the process.
    _held = gate.rt.rtlib.lock([crate])
    return over_libraries[word](gate, crate, names[1:])


if __name__ == "__main__":
    # Python would wait for the compilers, which end with this process.
    signal.signal(signal.SIGINT, signal.SIG_DFL)
    sys.exit(main(sys.argv[1:]))
