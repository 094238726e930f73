#!/usr/bin/env python3
"""Tests of the tools themselves, without a proof: python3 tools/test_build.py"""

import contextlib
import io
import os
import shutil
import sys
import tempfile
import unittest
from types import SimpleNamespace
from typing import Any, Dict, List, Mapping, Set, Tuple
from unittest import mock

sys.dont_write_bytecode = True

import build
import gate
import plan

TOP = os.path.dirname(os.path.dirname(os.path.abspath(__file__)))

# Processor seconds of a proof from nothing with one job, beside three others on four processors of 2.5 GHz, without clang: of the
# longest chain ..
CHAIN = {
    **{"tap_base": 258, "tap_rows": 109, "tql_core": 133, "time_marks": 117, "access_plan": 187, "probe_eval": 469},
    **{"query_eval": 260, "tap_kept": 389, "tap_engine": 741, "tap_top": 482, "tapestry": 72},
}
# .. and of the others; those that are left out count as 30.
OTHERS = {
    **{"keeper_sql": 450, "keeper_file": 386, "row_index": 298, "script_lang": 248, "tql_parse": 247, "tql_types": 225},
    **{"delta_rewrite": 230, "incremental_rewrite": 110, "mail_fields": 185, "file_session": 267, "query_form": 155, "wake_plan": 152},
    **{"restart_core": 126, "command_words": 116, "sample_gen": 110, "monotone_rewrite": 109, "keeper_core": 94},
    **{"filter_rules": 90, "tql_tree": 87, "digest_mail": 86, "vote_scores": 78, "mail_lines": 64, "tql_lex": 64},
    **{"appraiser": 58, "tap_edges": 50, "snapshot_meaning": 43, "node_pool": 43, "little_box": 36},
}
SECONDS = {**OTHERS, **CHAIN}
# A crate with so many jobs is so much faster, and keeps so many processors busy. Measured for tap_rows with one to four jobs and
# nothing beside it: 110, 75, 63 and 58 seconds, and 115, 139, 152 and 150 of a processor.
FASTER, BUSY = (0, 1.0, 1.47, 1.75, 1.9), (0, 1.0, 1.85, 2.4, 2.6)
GB = 1e9


def crates_of_tapestry() -> Tuple[Dict[str, List[str]], Dict[str, float]]:
    """Returns what the crates below tapestry use, and their seconds."""
    with open(f"{TOP}/crates.txt", encoding="utf-8") as it:
        uses = plan.read_uses(it.read())
    names = plan.closure(uses, ["tapestry"])
    return {it: [x for x in uses[it] if x in names] for it in names}, {it: SECONDS.get(it, 30) for it in names}


class Simulation:
    """Proofs in the order of plan.share, on so many processors that nobody else uses; by size, build.py knows no seconds."""

    def __init__(self, processors: int, memory: float = 100 * GB, by_size: bool = False) -> None:
        self.uses, self.seconds = crates_of_tapestry()
        self.processors, self.memory = processors, memory
        self.work = {it: gate.work_of(f"{TOP}/crates/{it}") if by_size else self.seconds[it] for it in self.uses}
        self.chain = plan.chains(self.uses, self.work)
        self.needs = dict.fromkeys(self.uses, 2.5 * GB)
        self.clock, self.most_memory, self.jobs = 0.0, 0.0, {}  # type: float, float, Dict[str, int]
        self.run()

    def planned(self, running: Mapping[str, int]) -> float:
        return sum(plan.memory_of(self.needs[it], jobs) for it, jobs in running.items())

    def run(self) -> None:
        left, running = dict(self.seconds), {}  # type: Dict[str, float], Dict[str, int]
        while left:
            ready = [it for it in left if it not in running and not any(x in left for x in self.uses[it])]
            room = self.memory - self.planned(running)
            rest = sum(self.work[it] for it in left)
            running.update(plan.share(ready, running, self.work, self.chain, rest, self.needs, room, self.processors))
            self.jobs.update(running)
            self.most_memory = max(self.most_memory, self.planned(running))
            wanted = sum(BUSY[it] for it in running.values())
            speed = {it: FASTER[jobs] * min(1, self.processors / wanted) for it, jobs in running.items()}
            step = min(left[it] / speed[it] for it in running)
            self.clock += step
            for it in list(running):
                left[it] -= step * speed[it]
                if left[it] < 1e-6:
                    del left[it], running[it]

    def least(self) -> float:
        """Returns the seconds below which no order comes, with what jobs bring in one crate."""
        chain = max(plan.chains(self.uses, self.seconds).values())
        return max(sum(self.seconds.values()) / self.processors, chain / FASTER[min(4, self.processors)])


class PlanTest(unittest.TestCase):
    def test_reads_crates_txt(self) -> None:
        text = "# layers\n\nlow: std_like\nhigh may_abort=2: low jiff # the top\napp:high low\nno colon\n"
        self.assertEqual(plan.read_uses(text), {"low": ["std_like"], "high": ["low", "jiff"], "app": ["high", "low"]})

    def test_each_crate_stands_after_those_that_it_uses(self) -> None:
        uses = {"app": ["high", "low"], "high": ["low", "jiff"], "low": [], "other": []}
        self.assertEqual(plan.closure(uses, ["app"]), ["low", "high", "app"])
        self.assertEqual(plan.closure(uses, ["other", "high"]), ["other", "low", "high"])

    def test_a_chain_is_the_longest_way_up(self) -> None:
        uses = {"low": [], "short": ["low"], "long": ["low"], "app": ["short", "long"]}
        work = {"low": 1, "short": 2, "long": 5, "app": 10}
        self.assertEqual(plan.chains(uses, work), {"low": 16, "short": 12, "long": 15, "app": 10})

    def share(
        self, ready: List[str], running: Mapping[str, int], processors: int, room: float = 100, left: float = 400
    ) -> List[Tuple[str, int]]:
        chain = {"head": 100, "a": 9, "b": 8, "c": 7}
        work = dict.fromkeys(chain, 5.0)
        return plan.share(ready, running, work, chain, left, dict.fromkeys(chain, 2.0), room, processors)

    def test_the_longest_chain_goes_first_and_the_others_have_one_job(self) -> None:
        self.assertEqual(self.share(["a", "b", "c", "head"], {}, 4), [("head", 1), ("a", 1), ("b", 1), ("c", 1)])
        self.assertEqual(self.share(["a", "b", "c", "head"], {}, 3), [("head", 1), ("a", 1), ("b", 1)])
        self.assertEqual(self.share(["a", "head"], {}, 1), [("head", 1)])

    def test_a_chain_that_would_be_late_has_more_jobs(self) -> None:
        for left, jobs in ((400, 1), (399, 2), (250, 2), (200, 3), (182, 4), (10, 4)):
            self.assertEqual(self.share(["head"], {"a": 1, "b": 2}, 4, left=left), [("head", jobs)], left)
        self.assertEqual(self.share(["head"], {"a": 1}, 2, left=10), [("head", 2)])
        self.assertEqual(self.share(["head"], {"a": 1, "b": 1}, 2, left=10), [])

    def test_idle_processors_go_to_those_that_begin(self) -> None:
        self.assertEqual(self.share(["head"], {}, 4), [("head", 4)])
        self.assertEqual(self.share(["head"], {}, 16), [("head", 4)])
        self.assertEqual(self.share(["a", "head"], {}, 4), [("head", 3), ("a", 1)])
        self.assertEqual(self.share(["a"], {"head": 2}, 4), [("a", 2)])
        self.assertEqual(self.share(["a", "b"], {"head": 2}, 4), [("a", 1), ("b", 1)])
        self.assertEqual(self.share(["a"], {"head": 2}, 2), [("a", 1)])

    def test_memory_bounds_jobs_and_crates(self) -> None:
        self.assertEqual(self.share(["head"], {}, 4, room=3.3), [("head", 2)])
        self.assertEqual(self.share(["head"], {}, 4, room=1), [("head", 1)])
        self.assertEqual(self.share(["head", "a"], {"b": 1}, 4, room=1), [])
        self.assertEqual(self.share(["a"], {"head": 2}, 4, room=1), [])

    def test_the_first_reply_is_near_what_no_order_beats(self) -> None:
        for processors, much in ((1, 1.01), (2, 1.08), (4, 1.31), (8, 1.1)):
            for by_size in (False, True):
                it = Simulation(processors, by_size=by_size)
                self.assertLess(it.clock, much * it.least(), f"{processors} processors: {it.clock / 60:.1f} minutes")

    def test_the_last_crate_has_all_processors(self) -> None:
        for processors in (1, 2, 4):
            self.assertEqual(Simulation(processors).jobs["tapestry"], processors)

    def test_a_plan_keeps_to_memory(self) -> None:
        it = Simulation(4, memory=8 * GB)
        self.assertLessEqual(it.most_memory, 8 * GB)


class FakeGate:
    """A gate that proves at once, and not the crates of `wrong`; another process proves those of `elsewhere`."""

    def __init__(self, uses: Mapping[str, List[str]], wrong: Set[str], elsewhere: Set[str]) -> None:
        self.crates = {it: SimpleNamespace(name=it, folder="/none", is_program=False) for it in uses}
        for it in self.crates.values():
            it.deps = [self.crates[used] for used in uses[it.name]]
            it.below = lambda it=it: [self.crates[used] for used in plan.closure(uses, [it.name])[:-1]]
        self.every = list(self.crates.values())
        self.rt = SimpleNamespace(need=lambda _: 1, free=lambda: 1000)
        self.kept = SimpleNamespace(key=lambda it: it.name)
        self.wrong, self.elsewhere, self.store = wrong, elsewhere, set()  # type: Set[str], Set[str], Set[str]
        self.proved: List[str] = []

    def find(self, crate: Any, key: str) -> bool:
        return key in self.store

    def is_at_work(self, key: str) -> bool:
        is_so = key in self.elsewhere
        self.store |= {key} & self.elsewhere
        return is_so

    def prove(self, crate: Any, key: str, jobs: int) -> bool:
        assert all(it.name in self.store for it in crate.below()), crate.name
        self.proved.append(crate.name)
        print("said", file=crate.out)
        self.store |= {crate.name} - self.wrong
        return crate.name not in self.wrong


class ProverTest(unittest.TestCase):
    USES = {"low": [], "a": ["low"], "b": ["low"], "top": ["a", "b", "low"], "other": []}

    def run_on(self, names: List[str], wrong: Set[str] = frozenset(), elsewhere: Set[str] = frozenset()) -> Tuple[bool, List[str]]:
        it = FakeGate(self.USES, set(wrong), set(elsewhere))
        with tempfile.TemporaryDirectory() as store, mock.patch.multiple(build, STORE=store, LANES=3, say=lambda _: None):
            with mock.patch("sys.stderr"):
                is_well = build.Prover(it, names).run()
        return is_well, it.proved

    def test_each_is_proved_once_after_those_below(self) -> None:
        is_well, proved = self.run_on(["top"])
        self.assertEqual((is_well, sorted(proved)), (True, ["a", "b", "low", "top"]))

    def test_nothing_is_proved_above_one_that_is_not(self) -> None:
        is_well, proved = self.run_on(["top"], wrong={"low"})
        self.assertEqual((is_well, proved), (False, ["low"]))

    def test_what_another_process_proves_is_taken(self) -> None:
        is_well, proved = self.run_on(["top"], elsewhere={"a"})
        self.assertEqual((is_well, sorted(proved)), (True, ["b", "low", "top"]))


class FilesTest(unittest.TestCase):
    """Tests over a checkout of three crates."""

    def setUp(self) -> None:
        held = tempfile.TemporaryDirectory()
        self.addCleanup(held.cleanup)
        self.top = held.name
        for path in ("low/src/lib.rt", "low/specs/A.antt", "low/proofs/B.antt", "app/src/main.rt", "other/src/lib.rt"):
            self.write(f"crates/{path}", "one")

    def write(self, path: str, text: str) -> None:
        os.makedirs(os.path.dirname(f"{self.top}/{path}"), exist_ok=True)
        with open(f"{self.top}/{path}", "w", encoding="utf-8") as it:
            it.write(text)


class OwnKeptTest(FilesTest):
    LIBRARY = "crates/low/out/rlib/low.rlib"

    def setUp(self) -> None:
        super().setUp()
        self.write(f"{self.LIBRARY}/format", "dep std")
        self.write("HANDLES", "Handles allowed: none.")

    def key(self, **changed: Any) -> str:
        """Returns the key of app, of which something is changed, over low as it was built."""
        low = SimpleNamespace(name="low", folder=f"{self.top}/crates/low", is_program=False)
        app = SimpleNamespace(name="app", folder=f"{self.top}/crates/app", is_program=True, deps=[low], of_kit=["std", "jiff"])
        app.below, app.said = lambda: [low], {"name": "app", "deps": ["//crates/low", "@rattle//jiff"]}
        app.__dict__.update(changed)
        kept = gate.OwnKept(self.top)
        kept.is_built(low)
        return kept.key(app)

    def test_each_file_that_a_proof_reads_changes_it(self) -> None:
        seen = [self.key()]
        paths = [f"crates/app/{it}" for it in ("src/main.rt", "src/more.rt", "specs/C.antt", "proofs/main/D.antt", "c/app.c")]
        for path in [*paths, "HANDLES", f"{self.LIBRARY}/format", f"{self.LIBRARY}/lang/antt/specs/A.antt"]:
            self.write(path, "two")
            self.assertNotIn(self.key(), seen, path)
            seen.append(self.key())
        os.rename(f"{self.top}/crates/app/src/more.rt", f"{self.top}/crates/app/src/moved.rt")
        self.assertNotIn(self.key(), seen)

    def test_the_kit_and_the_line_in_crates_txt_change_it(self) -> None:
        seen = [self.key()]
        for changed in ({"name": "other"}, {"deps": []}, {"of_kit": ["std"]}, {"of_kit": ["core", "jiff"]}, {"said": {"backend": "rattle"}}):
            self.assertNotIn(self.key(**changed), seen, changed)
            seen.append(self.key(**changed))
        self.write("kit/KIT-ID", "another kit")
        with mock.patch.object(gate, "KIT", f"{self.top}/kit"):
            self.assertNotIn(self.key(), seen)

    def test_nothing_else_changes_it(self) -> None:
        before = self.key()
        paths = ["app/out/app", "app/must-fail/a.edit", "app/stdin", "low/src/lib.rt", "low/proofs/B.antt", "other/src/lib.rt"]
        for path in [*(f"crates/{it}" for it in paths), "crates.txt", "docs/KIT.md"]:
            self.write(path, "two")
            self.assertEqual(self.key(), before, path)
        os.utime(f"{self.top}/crates/app/src/main.rt", (1, 1))
        self.assertEqual(self.key(), before)
        shutil.copytree(self.top, f"{self.top}/clone")
        self.top += "/clone"
        self.assertEqual(self.key(), before)


    def test_a_crate_that_changed_before_its_turn_is_not_proved(self) -> None:
        it = SimpleNamespace(kept=SimpleNamespace(key=lambda _: "new"), room=lambda _: contextlib.nullcontext(), make=self.fail)
        crate = SimpleNamespace(name="low", folder=f"{self.top}/crates/low", out=io.StringIO())
        self.assertFalse(gate.Gate.prove(it, crate, "old", 1))
        self.assertIn("changed", crate.out.getvalue())


class StampTest(FilesTest):
    USES = {"app": ["low"], "low": [], "other": []}

    def stamp(self) -> str:
        return gate.stamp(self.top, self.USES, "app")

    def test_it_goes_by_content_and_not_by_time(self) -> None:
        before = self.stamp()
        os.utime(f"{self.top}/crates/low/src/lib.rt", (1, 1))
        self.assertEqual(self.stamp(), before)
        self.write("crates/low/src/lib.rt", "two")
        self.assertNotEqual(self.stamp(), before)
        self.write("crates/low/src/lib.rt", "one")
        self.assertEqual(self.stamp(), before)

    def test_it_covers_what_a_proof_reads_and_no_more(self) -> None:
        before = self.stamp()
        for path in ("crates/other/src/lib.rt", "crates/low/out/x", "crates/low/must-fail/a.edit", "docs/KIT.md"):
            self.write(path, "new")
            self.assertEqual(self.stamp(), before, path)
        for path in ("HANDLES", "crates.txt", "crates/low/proofs/B.antt", "crates/app/src/more.rt"):
            self.write(path, "new")
            self.assertNotEqual(self.stamp(), before, path)
            before = self.stamp()

    def test_a_file_that_moves_changes_it(self) -> None:
        before = self.stamp()
        os.rename(f"{self.top}/crates/low/specs/A.antt", f"{self.top}/crates/low/specs/C.antt")
        self.assertNotEqual(self.stamp(), before)


class LikeTest(unittest.TestCase):
    FILES = {"format": "dep std\nsum 1\n", "lang/antt/proofs/A.antt": "refl", "lang/antt/specs/S.antt": "s", "toolchain/checked.a": "a"}

    def library(self, store: str, entry: str, **changed: str) -> str:
        """Writes an entry of a store, with a library in which files are changed; returns the library."""
        library = f"{store}/{entry}/out/rlib/low.rlib"
        for path, text in self.FILES.items():
            os.makedirs(os.path.dirname(f"{library}/{path}"), exist_ok=True)
            with open(f"{library}/{path}", "w", encoding="utf-8") as it:
                it.write(changed.get(os.path.basename(path).split(".")[0], text))
        return library

    def test_only_the_text_of_proofs_may_differ(self) -> None:
        with tempfile.TemporaryDirectory() as store:
            one = self.library(store, "one")
            self.assertTrue(gate.is_like(one, self.library(store, "two", A="sym refl", format="dep std\nsum 2\n")))
            for changed in ({"S": "t"}, {"checked": "b"}, {"format": "dep core\nsum 1\n"}):
                self.assertFalse(gate.is_like(one, self.library(store, "two", **changed)), changed)

    def test_a_library_that_is_like_it_is_used(self) -> None:
        with tempfile.TemporaryDirectory() as store, mock.patch.object(gate, "STORE", store):
            self.library(store, "one")
            for entry, changed, now in (("new-1", {"A": "sym refl"}, "refl"), ("new-2", {"A": "sym refl", "S": "t"}, "sym refl")):
                library = self.library(store, entry, **changed)
                gate.use_like(f"{store}/{entry}/out", "low")
                self.assertEqual(gate.read(f"{library}/lang/antt/proofs/A.antt"), now)


class KitTest(unittest.TestCase):
    def test_what_a_kit_lacks_is_named(self) -> None:
        wanted = "path.join(a,*p) path.split(p) path.lost(p) path.join(a,b) sep nothing"
        self.assertEqual(gate.lacking(os, wanted), ["path.lost(p)", "path.join(a,b)", "nothing"])

    @unittest.skipUnless(os.path.isfile(f"{gate.KIT}/bin/rt"), "no kit is here")
    def test_this_kit_has_what_is_used(self) -> None:
        rt = gate.load("rt", "")
        self.assertEqual(gate.lacking(rt, gate.WANTED), [])
        self.assertEqual(gate.lacking(rt, gate.WANTED_OF_A_STORE) if hasattr(rt, "Kept") else [], [])
        self.assertEqual(gate.lacking(gate.load("rt-plant", ""), gate.OF_PLANT), [])

    @unittest.skipUnless(os.path.isfile(f"{gate.KIT}/bin/rt"), "no kit is here")
    def test_this_kit_finds_the_crates_of_this_checkout(self) -> None:
        with tempfile.TemporaryDirectory() as store, mock.patch.object(gate, "STORE", store):
            crates = gate.Gate(TOP).crates
        uses = plan.read_uses(gate.read(f"{TOP}/crates.txt"))
        self.assertEqual({it.name: [used.name for used in it.deps] for it in crates.values()}, {it: [x for x in uses[it] if x in uses] for it in uses})


if __name__ == "__main__":
    unittest.main()
