"""What the gate says of a crate, by the gate's own code, and the store of what was proved on this machine.

The store is the folder STORE of the user's cache, for all checkouts. It has one key: a sum of the kit, of HANDLES, of the crate's
line in crates.txt and of each file of its src/, specs/, proofs/ and c/, and of what the libraries below it hold. STORE/KEY/out
has what was made: rlib/NAME.rlib or the program NAME. If the kit's `rt ci` has a store too (`Kept`), the key is that of the gate,
and what `rt ci` keeps on this machine is taken; else `OwnKept` makes the key. Nothing is ever put into the gate's store: no
verdict of the gate rests on this tool.

A library carries the text of its proofs, which no crate above reads, and each library names the sums of those below it. So that
a comment in a proof proves nothing above again, a crate that was proved anew gets a library of the store that is the same but
for that text, if there is one. (A proof itself shows in sums of the checked modules.)
"""

import contextlib
import copy
import fcntl
import filecmp
import hashlib
import importlib.machinery
import inspect
import os
import re
import shutil
import sys
import tempfile
import time
import types
from typing import Any, Dict, Iterator, List, Optional, Tuple

from plan import Uses, closure

KIT = os.path.dirname(os.path.dirname(os.path.realpath(shutil.which("rt") or "/missing/bin/rt")))
TOOLCHAIN = ["--toolchain", f"{KIT}/toolchain", "--backend", "llvm"]
CACHE = os.environ.get("XDG_CACHE_HOME") or os.path.expanduser("~/.cache")
STORE = os.environ.get("ALONE") or f"{CACHE}/kimbovyse-proved"
# The bytes that the store may have, and the seconds for which what was used stays in any case.
STORE_MOST, STORE_STAYS = 10_000_000_000, 6 * 3600
# The bytes of sources whose proof takes as long as to load what stands below a crate.
LOADING = 10_000

# All that is used of the kit's scripts, with its parameters. A kit that has it otherwise is refused in one line.
WRITTEN_FOR = "rattle-kit-13b and rattle-kit-13f"
WANTED = """
    Crate.below(self) Crate.link(self,made,program) Crate.prove(self,*commands) Crate.words(self,flags,tests,keeps,as_source)
    handles_of(root) need(crate) free() stop_on_words(crate) REACHES RENAMES IGNORED
    edits_of(crate) must_fail(crate,edit,flags,kept)
    rtlib.code_of(folder) rtlib.crates_below(top) rtlib.fmt(folder,flag,out,diff) rtlib.guarded() rtlib.lock(crates) rtlib.KEPT rtlib.RUNNER
    rtlib.stop_on_links(folder) rtlib.stop_on_text(crate,verb) rtlib.stop_on_unread(top,crates)
"""
# The same of a kit whose `rt ci` has a store, as its `Kept` shows.
WANTED_OF_A_STORE = "Kept(crates,anew) Kept.give(self,crate,tests,key) Kept.is_built(self,crate) Kept.key(self,crate) REFUSED AT_LIMIT"
OF_A_CRATE, OF_KEPT = "folder name deps of_kit said rlib is_program out allowed", "at rlibs"
OF_PLANT = "main(*words) SECONDS rt.main(verb,*words) rt.KEPT rt.Crate(folder,root,known,above,name)"


def say(text: str) -> None:
    print(f"build: {text}", file=sys.stderr, flush=True)


def read(path: str) -> str:
    """Returns a file's text; nothing if it can't be read."""
    try:
        with open(path, encoding="utf-8", errors="surrogateescape") as it:
            return it.read()
    except OSError:
        return ""


def lacking(thing: Any, wanted: str) -> List[str]:
    """Returns the names that a module or an object lacks, or has with other parameters."""
    found = []
    for name in wanted.split():
        path, opens, parameters = name.rstrip(")").partition("(")
        at = thing
        try:
            for part in path.split("."):
                at = getattr(at, part)
            has = ["*" * (it.kind is it.VAR_POSITIONAL) + it.name for it in inspect.signature(at).parameters.values()] if opens else []
            found += [name] * (",".join(has) != parameters)
        except (AttributeError, TypeError, ValueError):
            found.append(name)
    return found


def hold(lacks: List[str]) -> None:
    """Ends with one line if the kit lacks what is used of it."""
    if lacks:
        kit = read(f"{KIT}/KIT-ID").split("\n")[0]
        sys.exit(f"build: this was written for {WRITTEN_FOR}; in the scripts of {kit} these are missing or changed: {' '.join(lacks)}")


def load(script: str, wanted: str) -> Any:
    """Loads a script of the kit as a module."""
    if not os.path.isfile(f"{KIT}/bin/{script}"):
        sys.exit("build: rt is missing: put the folder bin of the kit that README names into PATH")
    module = types.ModuleType(script.replace("-", "_"))
    module.__file__ = f"{KIT}/bin/{script}"
    importlib.machinery.SourceFileLoader(module.__name__, module.__file__).exec_module(module)
    hold(lacking(module, wanted))
    return module


def is_held(path: str) -> bool:
    """Returns whether another process holds the lock of that file, if there is one."""
    try:
        with open(path, encoding="utf-8") as lock:
            fcntl.flock(lock, fcntl.LOCK_SH | fcntl.LOCK_NB)
    except BlockingIOError:
        return True
    except OSError:
        pass
    return False


class OwnKept:
    """The keys of crates, and the sums of what was made of them, for a kit whose `rt ci` has no store."""

    at: Optional[str] = None

    def __init__(self, top: str) -> None:
        self.rlibs: Dict[str, str] = {}
        self.of_all = [read(f"{KIT}/KIT-ID"), read(f"{top}/HANDLES")]

    def key(self, crate: Any) -> str:
        """Returns a sum of all that a crate is proved of."""
        below = [(it.name, self.rlibs[it.name]) for it in crate.below()]
        options = sorted((it, value) for it, value in crate.said.items() if it not in ("name", "deps"))
        named = [crate.name, crate.of_kit, [it.name for it in crate.deps], below, touched(crate), *options]
        return hashlib.sha256(repr([self.of_all, named]).encode()).hexdigest()

    def is_built(self, crate: Any) -> None:
        """Takes the sum of what was made in a crate's folder."""
        made = f"{crate.folder}/out/{crate.name}" if crate.is_program else f"{crate.folder}/out/rlib/{crate.name}.rlib"
        files = [f"{at}/{it}" for at, _, names in os.walk(made) for it in names] or [made]
        sums = [(os.path.relpath(it, made), sum_of(it)) for it in sorted(files)]
        self.rlibs[crate.name] = hashlib.sha256(repr(sums).encode()).hexdigest()


class Gate:
    """The crates of a checkout, what the gate says of them, and what is proved of them on this machine."""

    def __init__(self, top: str) -> None:
        # The gate takes nothing from these.
        for name in ("RT_ALLOW_C", "RT_BACKEND", "RT_SECONDS"):
            os.environ.pop(name, None)
        self.top, self.rt = top, load("rt", WANTED)
        self.rt.Crate.allowed = self.rt.handles_of(top)
        # As `rt ci` does: `crates_below` makes crates of this class.
        self.rt.rtlib.Crate = self.rt.Crate
        self.every = self.rt.rtlib.crates_below(top)
        self.crates = {it.name: it for it in self.every}
        has_store = hasattr(self.rt, "Kept")
        hold(lacking(self.rt, WANTED_OF_A_STORE) if has_store else [])
        self.kept: Any = self.rt.Kept(self.every) if has_store else OwnKept(top)
        # What `must_fail` says of a wrong body that the prover refuses.
        self.refusals = (self.rt.REFUSED, self.rt.AT_LIMIT) if has_store else (True,)
        if os.environ.get("ALONE"):
            self.kept.at = None
        hold(lacking(self.every[0], OF_A_CRATE) + lacking(self.kept, OF_KEPT))
        # Its first call sets a signal's handler, which only this thread may.
        self.rt.rtlib.guarded()
        os.makedirs(STORE, exist_ok=True)

    def stop_on_unread(self) -> None:
        """Ends if a .rt or .antt file stands where no check reads it."""
        for name in sorted(os.listdir(self.top)):
            if name != ".git" and os.path.isdir(f"{self.top}/{name}"):
                self.rt.rtlib.stop_on_unread(f"{self.top}/{name}", self.every)

    def why_refused(self, crate: Any) -> Optional[str]:
        """Returns why the gate refuses the crate by its text alone, if it does."""
        lib, code = self.rt.rtlib, self.rt.rtlib.code_of(crate.folder)
        try:
            lib.stop_on_links(crate.folder)
            lib.stop_on_unread(crate.folder, self.every)
            lib.stop_on_text(crate, "verdict")
            self.rt.stop_on_words(crate)
        except SystemExit:
            return "its text is refused, as the line above says"
        for handle, words in self.rt.REACHES.items():
            if handle not in crate.allowed and re.search(words, code):
                return f"it names what only the handle {handle} reaches, which HANDLES doesn't allow"
        if re.search(self.rt.RENAMES, code) or re.search(self.rt.IGNORED, code):
            return "it renames std, takes it whole, or has a test under #[ignore]"
        return "its layout is refused: run rt fmt in its folder" if lib.fmt(crate.folder, "--check", crate.out) else None

    def prove(self, crate: Any, key: str, jobs: int) -> bool:
        """Proves a crate from nothing, held to what the gate asks of it, and puts what it makes into the store.

        What is said goes to crate.out, a file.
        """
        files, changed = touched(crate), "its files changed while it was proved: run this again"
        # The key was made before a lane was free.
        why = changed if self.kept.key(crate) != key else self.why_refused(crate)
        with self.room(crate.name) as room:
            is_proved = not why and self.make(crate, jobs, room)
            if is_proved and touched(crate) != files:
                why = changed
            elif is_proved:
                use_like(f"{room}/out", crate.name)
                self.enter(crate, key, room)
        if why:
            print(f"build: {crate.name}: {why}", file=crate.out)
        return is_proved and not why

    def make(self, crate: Any, jobs: int, room: str) -> bool:
        """Has the gate's code prove a crate, and make its library or its program in room/out."""
        words, made = crate.words(["--jobs", str(jobs)], keeps=False), f"{room}/out/rlib/{crate.name}.rlib"
        os.makedirs(os.path.dirname(made))
        if not crate.is_program:
            return not crate.prove(["build", *words, "--statements", "-o", made])
        # `link` wants a path from the crate's folder.
        made = f"{os.path.relpath(os.path.realpath(room), os.path.realpath(crate.folder))}/out/{crate.name}"
        return not (crate.prove(["build", *words, *TOOLCHAIN, "-o", f"{made}.o"]) or crate.link(f"{made}.o", made))

    @contextlib.contextmanager
    def room(self, name: str) -> Iterator[str]:
        """Gives a new folder of the store, which is removed unless `enter` took it."""
        room = tempfile.mkdtemp(prefix=f"new-{os.getpid()}-{name}-", dir=STORE)
        try:
            yield room
        finally:
            shutil.rmtree(room, ignore_errors=True)

    def enter(self, crate: Any, key: str, room: str) -> None:
        """Gives a folder with all that a crate makes its name in the store."""
        made = copy.copy(crate)
        made.folder = room
        self.kept.is_built(made)
        with open(f"{room}/sum", "w", encoding="utf-8") as it:
            it.write(self.kept.rlibs[crate.name])
        try:
            os.rename(room, f"{STORE}/{key}")
        except OSError:
            # Another checkout was faster.
            if not os.path.isdir(f"{STORE}/{key}"):
                raise

    def find(self, crate: Any, key: str) -> bool:
        """Returns whether what the crate makes is in the store, or was taken from the gate's; crates above it then use that."""
        at = f"{STORE}/{key}"
        if not os.path.isdir(at) and self.kept.at:
            with self.room(crate.name) as room:
                made = copy.copy(crate)
                made.folder = room
                if self.kept.give(made, False, key):
                    self.enter(crate, key, room)
        if not os.path.isdir(at):
            return False
        os.utime(at)
        self.kept.rlibs[crate.name] = read(f"{at}/sum")
        crate.rlib = f"{at}/out/{crate.name}" if crate.is_program else f"{at}/out/rlib/{crate.name}.rlib"
        return True

    def is_at_work(self, key: str) -> bool:
        """Returns whether another checkout, or an `rt ci` of this machine, proves the same now.

        If a kit names the lock of `rt ci` otherwise, or has no store, what it proves isn't waited for.
        """
        return is_held(f"{STORE}/lock-{key}") or bool(self.kept.at) and is_held(f"{self.kept.at}/lock-proof-{key[:32]}")


def seen_above(library: str) -> List[str]:
    """Returns the paths in a library of all that crates above see: all but the text of its proofs."""
    paths = [os.path.relpath(f"{at}/{it}", library) for at, _, names in os.walk(library) for it in names]
    return sorted(it for it in paths if not it.startswith("lang/antt/proofs/"))


def is_like(one: str, other: str) -> bool:
    """Returns whether crates above see the same of two libraries; `format` also has a sum of all files."""
    formats = [re.sub(r"(?m)^sum .*", "", read(f"{it}/format")) for it in (one, other)]
    if formats[0] != formats[1] or seen_above(one) != seen_above(other):
        return False
    return all(it == "format" or filecmp.cmp(f"{one}/{it}", f"{other}/{it}", shallow=False) for it in seen_above(one))


def use_like(out: str, name: str) -> None:
    """Puts in the place of a library just made one of the store that is like it, if there is one."""
    for it in list(os.scandir(STORE)):
        library = f"out/rlib/{name}.rlib"
        if not it.name.startswith("new-") and os.path.isdir(f"{it.path}/{library}") and is_like(f"{it.path}/{library}", f"{out}/rlib/{name}.rlib"):
            shutil.copytree(f"{it.path}/out", f"{out}.like", copy_function=os.link)
            shutil.rmtree(out)
            os.rename(f"{out}.like", out)
            return


def shrink_store() -> None:
    """Removes what was unused for longest, until the rest is within bounds, and what processes that are gone left."""
    found = []
    for it in os.scandir(STORE):
        new = re.match(r"new-(\d+)-", it.name)
        if new and not os.path.exists(f"/proc/{new[1]}"):
            shutil.rmtree(it.path, ignore_errors=True)
        elif it.is_dir() and not new:
            size = sum(os.stat(f"{at}/{name}").st_size for at, _, names in os.walk(it.path) for name in names)
            found.append((it.stat().st_mtime, size, it.path))
    much = sum(size for _, size, _ in found)
    for used, size, path in sorted(found):
        if much > STORE_MOST and used < time.time() - STORE_STAYS:
            shutil.rmtree(path, ignore_errors=True)
            much -= size


def touched(crate: Any) -> List[Tuple[str, str]]:
    """Returns the files that a crate's proof reads, each with its sum."""
    return [(os.path.relpath(it, crate.folder), sum_of(it)) for it in files_of(crate.folder)]


def files_of(folder: str) -> List[str]:
    """Returns the files of a crate that its proof reads."""
    parts = [f"{folder}/{it}" for it in ("src", "specs", "proofs", "c")]
    return sorted(f"{at}/{it}" for part in parts for at, _, names in os.walk(part) for it in names)


def work_of(folder: str) -> int:
    """Returns how much a crate's proof is beside others, by the size of its sources: how long its proof files are says little."""
    return LOADING + sum(os.path.getsize(it) for it in files_of(folder) if it.endswith(".rt"))


def sum_of(path: str) -> str:
    """Returns a sum of a file; nothing if there is none."""
    try:
        with open(path, "rb") as it:
            return hashlib.sha256(it.read()).hexdigest()
    except OSError:
        return ""


def stamp(top: str, uses: Uses, name: str) -> str:
    """Returns, without the gate's code, a sum of all that a program is proved of: what the store's key covers."""
    files = [f"{KIT}/KIT-ID", f"{top}/HANDLES", f"{top}/crates.txt"]
    files += [it for crate in closure(uses, [name]) for it in files_of(f"{top}/crates/{crate}")]
    return hashlib.sha256(repr([(os.path.relpath(it, top), sum_of(it)) for it in files]).encode()).hexdigest()
