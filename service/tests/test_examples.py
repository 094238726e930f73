"""The pages: what they show of the program is what it does, and their pictures are drawn."""

from __future__ import annotations

import glob
import os
import re
import subprocess
import sys
import unittest

from support import SERVICE, the_program

TOP = os.path.dirname(SERVICE)


def page(*names: str) -> str:
    with open(os.path.join(TOP, *names), encoding="utf-8") as file:
        return file.read()


def written(program: str, script: str) -> str:
    """What the program writes for a script, its rows in memory."""
    return subprocess.run([program], input=script.encode(), stdout=subprocess.PIPE, timeout=60).stdout.decode()


def sessions(text: str) -> dict[str, list[tuple[str, str]]]:
    """The examples of each section of a page: what is put in, and what comes out then, one exchange after another."""
    found: dict[str, list[tuple[str, str]]] = {}
    for section in re.split(r"^## ", text, flags=re.MULTILINE)[1:]:
        lines = [line for block in re.findall(r"^```session\n(.*?)^```$", section, re.MULTILINE | re.DOTALL) for line in block.splitlines()]
        exchanges: list[tuple[str, str]] = []
        is_reply = True
        for line in lines:
            if line == ">" or line.startswith("> "):
                if is_reply:
                    exchanges.append(("", ""))
                exchanges[-1] = (exchanges[-1][0] + line[2:] + "\n", "")
                is_reply = False
            else:
                exchanges[-1] = (exchanges[-1][0], exchanges[-1][1] + line + "\n")
                is_reply = True
        if exchanges:
            found[section.partition("\n")[0]] = exchanges
    return found


class Examples(unittest.TestCase):
    def test_the_reference_shows_what_the_program_replies(self) -> None:
        program = the_program()
        found = sessions(page("docs", "REFERENCE.md"))
        self.assertEqual(list(found), ["Commands", "Refusals"])
        for section, exchanges in found.items():
            script, before = "", ""
            for said, reply in exchanges:
                script += said
                now = written(program, script)
                with self.subTest(section=section, said=said):
                    self.assertEqual((now[: len(before)], now[len(before) :]), (before, reply))
                before = now

    def test_the_reference_shows_each_command_and_refusal(self) -> None:
        text = page("docs", "REFERENCE.md")
        found = sessions(text)
        commands = {word for form in re.findall(r"^\| (`.*?) \|", text.partition("## Refusals")[0], re.MULTILINE) for word in re.findall(r"`(\w+)", form)}
        said = {line.split()[0] for line, _ in found["Commands"] if line.strip()}
        self.assertEqual(commands - said, set())
        refusals = {int(it) for it in re.findall(r"^\| `no (\d+)", text.partition("## Refusals")[2].partition("\n## ")[0], re.MULTILINE)}
        shown = {int(it) for _, reply in found["Refusals"] for it in re.findall(r"^no (\d+)", reply, re.MULTILINE)}
        # A limit takes more lines than a page has, and the program has memory enough.
        self.assertEqual(refusals - shown, {16, 18})

    def test_the_examples_have_these_replies(self) -> None:
        program = the_program()
        scripts = sorted(glob.glob(os.path.join(TOP, "examples", "*.script")))
        self.assertTrue(scripts)
        for script in scripts:
            with self.subTest(script=os.path.basename(script)):
                self.assertEqual(written(program, page(script)), page(script.replace(".script", ".replies")))

    def test_the_readme_shows_lines_of_the_examples(self) -> None:
        first, *tour = re.findall(r"^```\n(.*?)^```$", page("README.md"), re.MULTILINE | re.DOTALL)
        command, _, replies = first.partition("\n")
        self.assertEqual(command, "$ ./run --quick < examples/first.script")
        self.assertEqual(replies, page("examples", "first.replies"))
        known = {*page("examples", "tour.script").splitlines(), *page("examples", "tour.replies").splitlines()}
        for line in "".join(tour).splitlines():
            self.assertIn(line, known)


class Pictures(unittest.TestCase):
    def test_they_are_what_their_scripts_draw(self) -> None:
        names = [name for name in map(os.path.basename, glob.glob(os.path.join(TOP, "docs", "*.svg")))]
        self.assertTrue(names)
        for name in names:
            with self.subTest(picture=name):
                script = os.path.join(TOP, "docs", name.replace(".svg", ".py"))
                done = subprocess.run([sys.executable, script, "--check"], stderr=subprocess.PIPE, timeout=60)
                self.assertEqual((done.returncode, done.stderr), (0, b""))

    def test_each_is_shown_with_words_in_its_place(self) -> None:
        pages = [page("README.md"), page("bench", "README.md"), *(page(it) for it in glob.glob(os.path.join(TOP, "docs", "*.md")))]
        for name in map(os.path.basename, glob.glob(os.path.join(TOP, "docs", "*.svg"))):
            self.assertTrue(any(re.search(rf"!\[[^\]]+\]\([\w./]*{re.escape(name)}\)", it) for it in pages), name)


if __name__ == "__main__":
    unittest.main()
