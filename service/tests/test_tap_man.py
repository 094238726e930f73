"""The pages of the manual: well formed, and complete."""

from __future__ import annotations

import glob
import json
import os
import re
import shlex
import shutil
import subprocess
import unittest

from fake_daemon import Answer, FakeDaemon, tap
from support import SERVICE
from tapestry_service import PROGRAM_VARIABLE
from tapestry_service.client.command_line import parser
from tapestry_service.client.commands import COMMANDS
from tapestry_service.main import _parser as daemon_parser

PAGES = {name: os.path.join(SERVICE, "man", name) for name in ("tap.1", "tapestry.1", "tapestry_pop.1", "tql.7", "tapestryd.8")}
SECTIONS = {
    "tap.1": "NAME SYNOPSIS DESCRIPTION COMMANDS ENVIRONMENT FILES EXIT STATUS EXAMPLES SEE ALSO",
    "tapestry.1": "NAME SYNOPSIS DESCRIPTION FILES EXIT STATUS EXAMPLES SEE ALSO",
    "tapestry_pop.1": "NAME SYNOPSIS DESCRIPTION FILES EXIT STATUS EXAMPLES SEE ALSO",
    "tql.7": "NAME DESCRIPTION GRAMMAR SEE ALSO",
    "tapestryd.8": "NAME SYNOPSIS DESCRIPTION ENVIRONMENT FILES EXIT STATUS EXAMPLES SEE ALSO",
}


def text_of(name: str) -> str:
    """The page's source, with its escapes undone."""
    with open(PAGES[name], encoding="utf-8") as page:
        return page.read().replace("\\(aq", "'").replace("\\-", "-").replace("\\&", "")


def examples_of(name: str) -> list[str]:
    """The displays of the page's section EXAMPLES."""
    section = text_of(name).partition(".Sh EXAMPLES\n")[2].partition("\n.Sh ")[0]
    return re.findall(r"\.Bd -literal.*?\n(.*?)\n\.Ed", section, re.DOTALL)


def json_section() -> str:
    """The page's section JSON up to the end of its list."""
    return text_of("tap.1").partition(".Sh JSON\n")[2].partition("\n.El")[0] + "\n"


DOC = b"ok 2 show 1 at 5\nFrom: a@b\nSubject: s\n"
ANSWERS: dict[bytes, Answer] = {
    b"query ": b"ok 0 query q\n",
    b"run q": b"ok 1 run 1 before 9\ndoc 1 first 5\n",
    b"run nosuch": b"no 10\n",
    b"box ": b"ok 1 box q\ndoc 1 first 5 run 1\n",
    b"list ": b"ok 1 list q\ndoc 1 first 5 run 1 priority 3 class work\n",
    b"ask ": b"ok 1 ask 5\ndoc 1\n",
    b"scores ": b"ok 1 scores score\ndoc 1 voters 2 sum 3\n",
    b"show 0": b"no 11\n",
    b"show ": DOC,
    b"notes ": b"ok 1 notes 1\nnote 1 ts 5 author ann kind score value 3 text good\n",
    b"note ": b"ok 0 note 1\n",
    b"wake ": b"ok 0 wake q 5\n",
    b"queries": b"ok 1 queries\nquery q ts 5 from 5 runs 1 last 6 boxed 1 text TRUE\n",
    b"explain ": b"ok 1 explain q\nOVER m: DOC AT m.ts WHERE TRUE\n",
    b"filter": b"ok 0 filter 0\n",
    b"digest ": b"ok 6 digest q 1\nFrom: tapestry\nSubject: digest q 1\n\nFrom doc 1 first 5\nSubject: s\n\n",
    b"counts": b"ok 0 counts documents 1 notes 1 moment 5\n",
    b"mail": b"ok 0 doc 1\n",
}
COMMANDS_GIVEN = [
    ["query", "q", "TRUE"],
    ["run", "q"],
    ["box", "q"],
    ["list", "q"],
    ["ask", "5", "TRUE"],
    ["scores", "score"],
    ["show", "1"],
    ["notes", "1"],
    ["note", "1", "score", "3", "good"],
    ["wake"],
    ["queries"],
    ["explain", "q"],
    ["filter"],
    ["digest", "q", "1"],
    ["counts"],
    ["load", "-"],
]


class Pages(unittest.TestCase):
    def test_these_are_all(self) -> None:
        self.assertEqual(sorted(glob.glob(os.path.join(SERVICE, "man", "*"))), sorted(PAGES.values()))

    @unittest.skipUnless(shutil.which("man") and shutil.which("groff"), "man isn't there")
    def test_man_has_no_warning(self) -> None:
        for path in PAGES.values():
            ended = subprocess.run(
                ["man", "-l", "--warnings", path], capture_output=True, env={**os.environ, "MANPAGER": "cat", "LC_ALL": "C.UTF-8"}
            )
            self.assertEqual((ended.returncode, ended.stderr), (0, b""), path)

    @unittest.skipUnless(shutil.which("mandoc"), "mandoc isn't there")
    def test_mandoc_has_no_warning(self) -> None:
        for path in PAGES.values():
            ended = subprocess.run(["mandoc", "-T", "lint", "-W", "warning", path], capture_output=True)
            self.assertEqual((ended.returncode, ended.stdout + ended.stderr), (0, b""), path)

    def test_sections(self) -> None:
        for name, sections in SECTIONS.items():
            found = " ".join(re.findall(r"^\.Sh (.*)$", text_of(name), re.MULTILINE))
            at = 0
            for section in sections.split():
                at = found.find(section, at)
                self.assertGreaterEqual(at, 0, f"{section} of {name}")

    def test_the_client_is_described_whole(self) -> None:
        page = text_of("tap.1")
        described = set(re.findall(r"^\.It Cm (\w+)", page.partition(".Sh COMMANDS")[2].partition(".Sh TIMES")[0], re.MULTILINE))
        self.assertEqual(described, set(COMMANDS))
        options = {it for line in re.findall(r"Fl (-\w+)", page) for it in [f"-{line}"]}
        known = set(re.findall(r"--\w+", parser().format_help()))
        for action in parser()._actions:
            for sub in (getattr(action, "choices", None) or {}).values():
                known |= set(re.findall(r"--\w+", sub.format_help()))
        self.assertEqual(options, known)
        for status in (0, 1, 2, 3, 4, 130):
            self.assertIn(f"\n.It {status}\n", page)

    def test_the_refusal_that_is_shown(self) -> None:
        section = text_of("tap.1").partition(".Sh REFUSALS\n")[2].partition("\n.Ed")[0]
        command, _, shown = section.partition(".Bd -literal -offset indent\n$ tap ")[2].partition("\n")
        with FakeDaemon({b"ask ": b"no 14 field 2\n", b"show": b"no 11\n"}) as daemon:
            ended = tap(daemon.path, *shlex.split(command), COLUMNS="70")
        self.assertEqual((ended.status, ended.err), (1, shown + "\n"))

    def test_the_daemon_is_described_whole(self) -> None:
        page = text_of("tapestryd.8")
        self.assertEqual(
            set(re.findall(r"Fl -(\w+)", page)) | {"help"}, set(re.findall(r"--(\w+)", daemon_parser().format_help()))
        )
        for number in range(40, 47):
            self.assertIn(f".It Li no {number}\n", page)

    def test_the_programs_commands_are_described(self) -> None:
        from tapestry_service.commands import KNOWN

        page = text_of("tapestry.1").partition(".Sh SCRIPTS")[2].partition(".Sh REFUSALS")[0]
        self.assertEqual(set(re.findall(r"^\.It Cm (\w+)", page, re.MULTILINE)), {it.decode() for it in KNOWN} | {"at", "as"})

    def test_json_is_described_whole(self) -> None:
        described = dict(re.findall(r"^\.It (?:Cm )?(.*?)\n(.*?)(?=^\.It|\Z)", json_section(), re.MULTILINE | re.DOTALL))
        words = {name: set(re.findall(r"\w+", text)) for name, text in described.items()}
        document = words["Va documents"]
        with FakeDaemon(ANSWERS) as daemon:
            for command in COMMANDS_GIVEN:
                found = json.loads(tap(daemon.path, "--json", *command, given=b"x\n").out)
                (entry,) = [it for name, it in words.items() if command[0] in re.split(r" , ", name)]
                self.assertLessEqual(set(found) - {"ok", "command"}, entry, command)
                for member, rows in found.items():
                    for row in rows if isinstance(rows, list) else []:
                        if isinstance(row, dict):
                            self.assertLessEqual(set(row), document if "address" in row else entry, (command, member))
            found = json.loads(tap(daemon.path, "--json", "run", "nosuch").out)
            self.assertEqual(set(found) - {"ok", "command"}, {"reply", "no", "reason", "line", "place", "words"})
            self.assertLessEqual(set(found) - {"ok", "command"}, words["a refusal"])

    @unittest.skipUnless(os.environ.get(PROGRAM_VARIABLE), "no program is named")
    def test_the_example_of_the_program(self) -> None:
        (example,) = examples_of("tapestry.1")
        script, _, replies = example.partition("\nEND\n")
        given = script.partition("\n")[2] + "\n"
        ended = subprocess.run([os.environ[PROGRAM_VARIABLE]], input=given.encode(), capture_output=True)
        self.assertEqual(ended.stdout.decode(), replies + "\n")


if __name__ == "__main__":
    unittest.main()
