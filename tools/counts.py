#!/usr/bin/env python3
"""Counts what there should be none of, and says where it stands: tools/counts.py [COUNT..]

COUNT is one of homes, lines, words, old, citations, made and libraries; without one all are taken. A line has a count and what
it counts, and each line after it a place. The status is 0 if each count is 0.

The words of a page are those of its sentences, lists and tables: fenced code blocks (commands, figures, and examples that tests
hold to what the program writes) don't count, nor do the bars and rules of tables.
"""

import argparse
import glob
import os
import re
import sys
from typing import Callable, Dict, Iterable, Iterator, List, NamedTuple, Optional, Sequence, Set, Tuple

sys.dont_write_bytecode = True

import definitions
import plan

TOP = definitions.TOP
NAME = definitions.NAME

MOST_COLUMNS = {".rt": 100, ".antt": 140}
MOST_WORDS = {"README.md": 1200}
MOST_WORDS_OF_PAGES = 22000

# Names that stand twice by design, in one sense each.
ONE_SENSE = {
    "Tells": "each keeper says what it tells",
    "HasVersion": "each keeper says which version it has",
    "MayLeave": "each keeper says what a crash may leave",
}

# Words that are no longer written, each with the word to write. Some that mean this only sometimes (tells, answers, says, place)
# are left to the reader.
OLD_WORDS = [
    (r"want of memory|memory is wanting|\bstarved\b", "out of memory"),
    (r"\bexactly where\b", "if and only if"),
    (r"\bfaults? (that )?comes?\b", "fails, reports an error"),
    (r"\b(takes?|taking|taken|took) back\b|\bno longer under\b", "removes, restores, undoes"),
    (r"\b(stands?|stood|standing) for\b", "represents"),
    (r"\bas (it was|they were)\b(?=$|[ ]*[.,;:)]| and\b)", "unchanged"),
    (r"\bis true at\b", "holds"),
    (r"\b(let|lets|letting) go\b", "deleted, dropped"),
    (r"\bkept\b(?! by hand)", "stored, cached"),
    (r"\b(is|are) held\b(?! (to|by)\b)", "stored"),
    (r"(?<!\bthere )(?<!\bThere )\b(is|are) none\b(?! of\b)", "isn't valid"),
    (r"\bso many\b(?!(?: \w+){0,3} that\b)", "that many"),
    (r"\bat first\b", "initially"),
    (r"\bseconds? that (is|are) over\b", "a past second"),
    (r"\bputs? (\w+ ){0,4}behind\b", "appends"),
    (r"\bleav(e|es|ing) (\w+ ){1,3}alone\b|\bleft alone\b", "leaves exactly these"),
    (r"\b(place of (a|the|its|this) store|stores? at (a|the|this|its) place|attach(es|ed)? ([\w'-]+ ){0,2}at (\w+ )?places?)\b", "path"),
]

# Words in the form of a name that pages cite and no file here has: of the kit, of SQLite, of the system.
OTHERS = {"Wary", "journal_mode", "result_ok", "RT_JOBS"}


class Place(NamedTuple):
    path: str
    line: int
    what: str

    def __str__(self) -> str:
        return f"{self.path}:{self.line}: {self.what}" if self.line else f"{self.path}: {self.what}"


def files(pattern: str) -> List[str]:
    """Returns the files of a pattern, as paths from the top, without those that a build makes."""
    found = glob.glob(f"{TOP}/{pattern}", recursive=True)
    paths = sorted(os.path.relpath(it, TOP) for it in found if os.path.isfile(it))
    return [it for it in paths if "/out/" not in it and "__pycache__" not in it]


def read(path: str) -> str:
    return definitions.read(path)


def pages() -> List[str]:
    """Returns the pages that are written by hand and whose words are counted."""
    return ["README.md", "CONTRIBUTING.md", *(it for it in files("docs/*.md") if it != definitions.PAGE)]


# ---- names


class Home(NamedTuple):
    """Where a name is defined, in a file of specs/ or, a type, of src/."""

    crate: str
    path: str
    line: int
    is_type: bool


def homes() -> Dict[str, List[Home]]:
    """Returns where each public definition and each public type is defined."""
    found = {}  # type: Dict[str, List[Home]]
    for path in files("crates/*/specs/*.antt") + files("crates/*/src/**/*.rt"):
        is_type = path.endswith(".rt")
        for number, line in enumerate(read(path).split("\n"), 1):
            it = re.match(r"()pub (?:struct|enum|trait|type) (\w+)", line) if is_type else definitions.DEFINITION.match(line)
            if it:
                found.setdefault(it[2], []).append(Home(path.split("/")[1], path, number, is_type))
    return found


def with_two(all_homes: Dict[str, List[Home]]) -> Dict[str, List[Home]]:
    """Returns the names with two homes; a type and the definition of its name in the same crate, by which it is seen, are one."""
    twice = {}
    for name, found in sorted(all_homes.items()):
        seen = {it.crate for it in found if it.is_type}
        apart = [it for it in found if it.is_type or it.crate not in seen]
        if len(apart) > 1:
            twice[name] = apart
    return twice


def two_homes() -> Iterator[Place]:
    for name, found in with_two(homes()).items():
        if name not in ONE_SENSE:
            others = ", ".join(f"{it.path}:{it.line}" for it in found[1:])
            yield Place(found[0].path, found[0].line, f"{name}, also {others}")


# ---- lines and words


# What stays on its line: `rattle fmt` joins an attribute of tactics and a ghost field with its proof, and a text has no break.
UNBROKEN = re.compile(r"""\s*(#\[tactic\(.*\)\]|ghost \w+: \{.*\} by \{.*\},|"[^"]*"|\w+ = codes "[^"]*")$""")


def wide_lines() -> Iterator[Place]:
    for ending, most in MOST_COLUMNS.items():
        for path in files(f"crates/**/*{ending}"):
            for number, line in enumerate(read(path).split("\n"), 1):
                if len(line) > most and not UNBROKEN.match(line):
                    yield Place(path, number, f"{len(line)} columns, at most {most}")


def outside_code(text: str) -> Iterator[Tuple[int, str]]:
    """Gives each line of a page that is in no fenced code block, with its number."""
    in_code = False
    for number, line in enumerate(text.split("\n"), 1):
        if line.lstrip().startswith("```"):
            in_code = not in_code
        elif not in_code:
            yield number, line


def words_of(text: str) -> int:
    """Returns the number of words of a page, without code blocks and without the bars and rules of tables."""
    count = 0
    for _, line in outside_code(text):
        is_row = line.lstrip().startswith("|")
        count += sum(1 for it in line.split() if not (is_row and re.fullmatch(r"[|:-]+", it)))
    return count


def long_pages() -> Iterator[Place]:
    words = {it: words_of(read(it)) for it in pages()}
    for path, most in MOST_WORDS.items():
        if words[path] > most:
            yield Place(path, 0, f"{words[path]} words, at most {most}")
    if sum(words.values()) > MOST_WORDS_OF_PAGES:
        each = ", ".join(f"{path} {count}" for path, count in sorted(words.items(), key=lambda it: -it[1]))
        yield Place("pages by hand", 0, f"{sum(words.values())} words, at most {MOST_WORDS_OF_PAGES}: {each}")


class Prose(NamedTuple):
    """A paragraph without the code in it, with the number of each of its lines and the place in the text where each begins."""

    text: str
    lines: List[Tuple[int, int]]

    def line_of(self, place: int) -> int:
        return max((start, number) for start, number in self.lines if start <= place)[1]


def without_code(text: str) -> str:
    return re.sub(r"`[^`]*`", "``", text)


def prose_of_page(text: str) -> Iterator[Prose]:
    """Gives each line of a page that is no code."""
    for number, line in outside_code(text):
        yield Prose(without_code(line), [(0, number)])


def prose_of_comments(text: str) -> Iterator[Prose]:
    """Gives each comment of a source or a proof, its lines joined."""
    joined, lines = "", []  # type: str, List[Tuple[int, int]]
    for number, line in enumerate([*text.split("\n"), ""], 1):
        comment = re.match(r"\s*(?:///?|//!|--)(.*)", line)
        if comment:
            lines.append((len(joined), number))
            joined += comment[1].strip() + " "
        elif lines:
            yield Prose(without_code(joined), lines)
            joined, lines = "", []


def old_words() -> Iterator[Place]:
    crates = files("crates/**/*.rt") + files("crates/**/*.antt")
    for path in [*pages(), "bench/README.md", *crates]:
        for prose in prose_of_page(read(path)) if path.endswith(".md") else prose_of_comments(read(path)):
            for pattern, better in OLD_WORDS:
                for it in re.finditer(pattern, prose.text):
                    yield Place(path, prose.line_of(it.start()), f"{it[0]} ({better})")


# ---- citations


def names_in(paths: Iterable[str]) -> Set[str]:
    found = set()  # type: Set[str]
    for path in paths:
        found.update(re.findall(NAME, read(path)))
    return found


def without_comments(text: str) -> str:
    return re.sub(r"^\s*(//|--).*", "", text, flags=re.M)


class Tree:
    """What the files of the tree name, and where."""

    def __init__(self) -> None:
        self.paths = {it for pattern in ("*", ".ci/*", "*/**/*") for it in files(pattern)}
        self.folders = {os.path.dirname(it) for it in self.paths}
        code = files("crates/*/specs/*.antt") + files("crates/*/src/**/*.rt") + files("crates/*/proofs/**/*.antt")
        self.by_file = {it: set(re.findall(NAME, without_comments(read(it)))) for it in code}
        scripts = files("examples/*.sh") + files("service/**/*.py") + files("tools/[!t]*.py") + files("bench/*.sh")
        self.names = set().union(*self.by_file.values()) | names_in([*scripts, "crates.txt", "run"])
        self.edits = {os.path.basename(it)[:-5] for it in files("crates/*/must-fail/*.edit")}
        self.names |= self.edits | {os.path.basename(it).partition(".")[0] for it in self.paths} | OTHERS
        self.crates = {it.split("/")[1] for it in code}

    def has(self, name: str) -> bool:
        """Says whether a word isn't in the form of a name, or is one of the tree."""
        is_name = "_" in name.strip("_") or re.search(r"[a-z][A-Z]|^[A-Z][a-z]", name)
        return not is_name or name in self.names

    def has_file(self, cited: str) -> bool:
        if cited.endswith("/"):
            return any(it == cited[:-1] or it.endswith(f"/{cited[:-1]}") for it in self.folders)
        pattern = re.compile("(.*/)?" + re.escape(cited).replace(r"\*", "[^/]*") + "(/.*)?")
        return any(pattern.fullmatch(it) for it in self.paths)

    def owned_by(self, owner: str) -> Optional[Set[str]]:
        """Returns what a crate names, or the files that name a function or a type; None if the owner is something else."""
        if owner.split("::")[0] in self.crates:
            paths = [it for it in self.by_file if it.split("/")[1] == owner.split("::")[0]]
        else:
            paths = [it for it, names in self.by_file.items() if owner.split("::")[0] in names]
        return set().union(*(self.by_file[it] for it in paths)) if paths else None


QUOTED = re.compile(r"`([^`]+)`")
PATH = rf"{NAME}(?:::{NAME})*"
OWNED = re.compile(rf"((?:`{NAME}(?:\.{NAME})*`(?:, and |, | and | or )?)+) of (?:`({PATH})`|({NAME}))")
FOLDERS = r"docs|tools|bench|examples|service|crates|\.ci"
ENDINGS = r"rt|antt|edit|py|sh|md|script|replies|c|txt"
FILE = re.compile(rf"(?:{FOLDERS})/[\w./*+-]+|[\w./*+-]+\.(?:{ENDINGS})")
LINK = re.compile(r"\]\(([^)#:]+)(#[^)]*)?\)")


def is_a_pattern(cited: str) -> bool:
    """Says whether a folder in capitals, as in `crates/NAME/src`, or a NAME is to be filled in."""
    return "NAME" in cited or any(it.isalpha() and it.isupper() for it in cited.split("/")[:-1])


def cited_in_page(tree: Tree, path: str, text: str) -> Iterator[Place]:
    for number, line in outside_code(text):
        for quoted in QUOTED.findall(line):
            if FILE.fullmatch(quoted) and not is_a_pattern(quoted):
                if not tree.has_file(quoted):
                    yield Place(path, number, f"no file {quoted}")
            elif re.fullmatch(PATH, quoted):
                for name in quoted.split("::"):
                    if not tree.has(name):
                        yield Place(path, number, name)
        for names, quoted, bare in OWNED.findall(line):
            known = tree.owned_by(quoted or bare) if quoted or bare in tree.crates else None
            for name in QUOTED.findall(names) if known is not None else []:
                if not known.issuperset(name.split(".")):
                    yield Place(path, number, f"{name} of {quoted or bare}")
        for target, _ in LINK.findall(line):
            if not os.path.exists(f"{TOP}/{os.path.dirname(path)}/{target}"):
                yield Place(path, number, f"no file {target}")


def cited_in_comments(tree: Tree, path: str, text: str) -> Iterator[Place]:
    for number, line in enumerate(text.split("\n"), 1):
        comment = re.match(r"\s*(?://|--)(.*)", line)
        for quoted in QUOTED.findall(comment[1]) if comment else []:
            for name in quoted.split("::") if re.fullmatch(PATH, quoted) else []:
                if not tree.has(name):
                    yield Place(path, number, name)


def citations() -> Iterator[Place]:
    tree = Tree()
    for path in [*pages(), "bench/README.md"]:
        yield from cited_in_page(tree, path, read(path))
    for path in tree.by_file:
        yield from cited_in_comments(tree, path, read(path))


# ---- what a crate uses


def unused(uses: plan.Uses, texts: Callable[[str], Iterable[str]]) -> Dict[str, List[str]]:
    """Returns for each crate the crates of its line that neither its files name nor those of a crate that it does use.

    The contracts of a library speak in the words of libraries below it, so a crate's check may load one that its own files
    don't name. Not every such library is loaded: `rt ci` says which (`statements NAME: modules loaded=0`), and this doesn't.
    Libraries of the kit are left out, since what they stand on isn't known here.
    """
    named = {}  # type: Dict[str, Set[str]]
    for crate in uses:
        named[crate] = set()
        for text in texts(crate):
            named[crate].update(*re.findall(r"\b(\w+)::|\bRattle\.(\w+)|\buse (\w+);", text))
    found = {}
    for crate, used in uses.items():
        reached = set()  # type: Set[str]
        ahead = [it for it in used if it in named[crate]]
        while ahead:
            it = ahead.pop()
            if it not in reached:
                reached.add(it)
                ahead += [other for other in uses.get(it, []) if other in named[it]]
        rest = [it for it in used if it in uses and it not in reached]
        if rest:
            found[crate] = rest
    return found


def texts_of(crate: str) -> Iterator[str]:
    for path in files(f"crates/{crate}/**/*.rt") + files(f"crates/{crate}/**/*.antt"):
        yield without_comments(read(path))


def idle_libraries() -> Iterator[Place]:
    text = read("crates.txt")
    lines = {line.partition(":")[0].split()[0]: at for at, line in enumerate(text.split("\n"), 1) if ":" in line}
    for crate, rest in unused(plan.read_uses(text), texts_of).items():
        yield Place("crates.txt", lines[crate], f"{crate} reaches no name of {' '.join(rest)}")


def made_pages() -> Iterator[Place]:
    text, bare = definitions.made()
    for it in bare:
        path, line, what = it.split(":", 2)
        yield Place(path, int(line), what.strip())
    if not os.path.isfile(f"{TOP}/{definitions.PAGE}") or read(definitions.PAGE) != text:
        yield Place(definitions.PAGE, 0, "isn't what the comments say: tools/definitions.py makes it")


COUNTS = {
    "homes": ("names with two senses", two_homes),
    "lines": ("lines that are too wide", wide_lines),
    "words": ("pages that are too long", long_pages),
    "old": ("words that are no longer written", old_words),
    "citations": ("names and files that are cited and don't exist", citations),
    "made": ("made pages that are out of date", made_pages),
    "libraries": ("crates with libraries in crates.txt that nothing they use names", idle_libraries),
}  # type: Dict[str, Tuple[str, Callable[[], Iterator[Place]]]]


def main(words: Optional[Sequence[str]] = None) -> int:
    parser = argparse.ArgumentParser(description="Counts what there should be none of.")
    parser.add_argument("counts", nargs="*", metavar="COUNT", help=", ".join(COUNTS))
    taken = parser.parse_args(words).counts or list(COUNTS)
    if any(it not in COUNTS for it in taken):
        parser.error(f"a COUNT is one of {', '.join(COUNTS)}")
    status = 0
    for it in taken:
        about, count = COUNTS[it]
        found = list(count())
        print(f"{len(found)} {about}")
        for place in found:
            print(f"  {place}")
        status = status or (1 if found else 0)
    return status


if __name__ == "__main__":
    sys.exit(main())
