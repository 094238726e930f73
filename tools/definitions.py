#!/usr/bin/env python3
"""Makes docs/DEFINITIONS.md from the comments above the definitions: tools/definitions.py [--check]

A row has the definitions of one comment: those that follow it without one of their own have the same. With --check nothing
is written. The status is 0 if the page was and is what the comments say, with --check also 1 if it isn't.
"""

import argparse
import glob
import os
import re
import sys
from typing import Dict, Iterable, List, NamedTuple, Optional, Sequence, Set, Tuple

sys.dont_write_bytecode = True

TOP = os.path.dirname(os.path.dirname(os.path.abspath(__file__)))
PAGE = "docs/DEFINITIONS.md"
HEAD = """# Definitions

*`tools/definitions.py` makes this page from the comments above the definitions. Change those, and run it.*

Every theorem speaks in these words. A definition stands in `specs/` of its crate: a function over whole values or a relation
by cases, which copies no loop. The few words that everything else needs, and why two of the laws hold, are in
[ESSAYS](ESSAYS.md).

Crates come in the order of their layers, lowest first, and modules as `specs/Lib.antt` lists them. In **bold** are the names
that contracts of public functions use; the others are what these are made of. A trait's ghosts are what its contracts say of a
value.
"""

DEFINITION = re.compile(r"(\s*)(?:(?:abbrev|unfoldable) pub|pub record|pub data) ([^\s:(){}]+)")
OPENS = re.compile(r"\s*(infix|module _ )")
DIVIDES = "-- ----"
GHOST = re.compile(r"    ghost (\w+):")
TRAIT = re.compile(r"pub trait (\w+)")
NAME = r"[A-Za-z_][\w'-]*"
IMPORT = re.compile(r"ghost use Rattle\.(\w+)\.specs\.(\w+)\.\{([^}]*)\}")


class Group(NamedTuple):
    """Definitions that one comment is for, with the number of the first one's line."""

    names: List[str]
    sentence: str
    line: int


class Module(NamedTuple):
    """A file of definitions: its name, its path, the sentence at its head, its definitions."""

    name: str
    path: str
    head: str
    groups: List[Group]


class Crate(NamedTuple):
    name: str
    sentence: str
    modules: List[Module]


def read(path: str) -> str:
    with open(f"{TOP}/{path}", encoding="utf-8") as it:
        return it.read()


def sentence_of(comment: Iterable[str]) -> str:
    """Joins the text of comment lines; a line that only divides a file says nothing."""
    return " ".join(it.strip().lstrip("/-!").strip() for it in comment if not it.startswith(DIVIDES))


def comment_above(lines: Sequence[str], at: int) -> List[str]:
    """Returns the comment lines that stand right above a line."""
    first = at
    while first > 0 and lines[first - 1].strip().startswith(("--", "//")):
        first -= 1
    return list(lines[first:at])


def head_of(text: str, mark: str) -> str:
    """Returns the sentence at the head of a file: its first paragraph of comment lines."""
    taken = []  # type: List[str]
    for line in text.lstrip("\n").split("\n"):
        if not line.startswith(mark) or not line[len(mark) :].strip():
            break
        taken.append(line)
    return sentence_of(taken)


def groups_of(text: str) -> List[Group]:
    """Returns the public definitions of a file of specs/ by their comments.

    Without a comment of its own a definition has that of the module that it opens, or of the line that divides the file before
    it, or else the last one's. The first one of a file may have none: the sentence of the file is enough.
    """
    groups, title = [], ""  # type: List[Group], str
    lines = text.split("\n")
    for at, line in enumerate(lines):
        if line.startswith(DIVIDES):
            title = line[len(DIVIDES) :].strip()
        found = DEFINITION.match(line)
        if not found:
            continue
        above = at
        while above > 0 and OPENS.match(lines[above - 1]):
            above -= 1
        sentence = sentence_of(comment_above(lines, above)) or title
        if sentence or not groups:
            groups.append(Group([found[2]], sentence, at + 1))
        else:
            groups[-1].names.append(found[2])
        title = ""
    return groups


def traits_of(path: str, text: str) -> List[Module]:
    """Returns the public traits of a source file that have ghosts, as modules."""
    traits = []  # type: List[Module]
    lines = text.split("\n")
    for at, line in enumerate(lines):
        trait, ghost = TRAIT.match(line), GHOST.match(line)
        above = comment_above(lines, at)
        if trait:
            about = [it for it in above if it.startswith("///")]
            traits.append(Module(trait[1], path, head_of("\n".join(about), "///"), []))
        elif ghost and traits:
            groups = traits[-1].groups
            if above or not groups:
                groups.append(Group([ghost[1]], sentence_of(above), at + 1))
            else:
                groups[-1].names.append(ghost[1])
    return [it for it in traits if it.groups]


def layers_of(text: str) -> List[Tuple[str, List[str]]]:
    """Returns the layers of a crates.txt, each with what its line says and its crates."""
    layers = []  # type: List[Tuple[str, List[str]]]
    for line in text.split("\n"):
        title = re.match(r"# (\w+: .+)", line)
        if title:
            layers.append((title[1], []))
        elif ":" in line and not line.startswith("#") and layers:
            layers[-1][1].append(line.partition(":")[0].split()[0])
    return [it for it in layers if not it[0].startswith("tests")]


def sources_of(crate: str) -> List[str]:
    return sorted(os.path.relpath(it, TOP) for it in glob.glob(f"{TOP}/crates/{crate}/src/**/*.rt", recursive=True))


def crate_of(name: str) -> Crate:
    sources = {it: read(it) for it in sources_of(name)}
    root = next(text for path, text in sources.items() if re.search(r"/src/(lib|main)\.rt$", path))
    modules = [it for path, text in sources.items() for it in traits_of(path, text)]
    paths = {os.path.basename(it)[:-5]: os.path.relpath(it, TOP) for it in glob.glob(f"{TOP}/crates/{name}/specs/*.antt")}
    listed = re.findall(r"^(?:pub )?mod (\w+)", read(paths["Lib"]), re.M) if "Lib" in paths else []
    for module in [*(it for it in listed if it in paths), *sorted(set(paths) - {"Lib", *listed})]:
        text = read(paths[module])
        groups = groups_of(text)
        if groups:
            modules.append(Module(module, paths[module], head_of(text, "--"), groups))
    return Crate(name, head_of(root, "//!"), modules)


def contracts_of(text: str) -> str:
    """Returns the clauses of the public functions of a source file, and of the functions of its public traits."""
    clauses, inside, in_trait = [], False, False  # type: List[str], bool, bool
    for line in text.split("\n"):
        if line and not line.startswith(" "):
            in_trait = line.startswith("pub trait ")
        inside = inside or bool(re.match(r"    fn " if in_trait else r"\s*pub fn ", line))
        if inside or (in_trait and GHOST.match(line)):
            clauses.append(line)
        ends_head = line.endswith(" {") and not line.strip().startswith(("ensures", "requires"))
        if line.strip() == "{" or ends_head or (in_trait and line.endswith(";")):
            inside = False
    return "\n".join(clauses)


def named_in_contracts(crates: Iterable[str]) -> Set[Tuple[str, str, str]]:
    """Returns the definitions that contracts of public functions name, each with its crate and its module."""
    found = set()  # type: Set[Tuple[str, str, str]]
    for crate in crates:
        for path in sources_of(crate):
            text = read(path)
            words = set(re.findall(NAME, contracts_of(text)))
            for owner, module, names in IMPORT.findall(text):
                for name in names.split(","):
                    name, _, other = name.strip().partition(" as ")
                    if (other or name) in words:
                        found.add((owner, module, name))
    return found


def cell(text: str) -> str:
    return text.replace("|", "\\|")


def rows_of(crate: Crate, named: Optional[Set[Tuple[str, str, str]]]) -> List[str]:
    rows = ["| Name | What it is |", "|---|---|"]
    for module in crate.modules:
        is_trait = module.path.endswith(".rt")
        title = f"[{'trait ' if is_trait else ''}{module.name}](../{module.path})"
        rows.append(f"| {title} | *{cell(module.head)}* |" if module.head else f"| {title} | |")
        for group in module.groups:
            names = []
            for name in group.names:
                is_named = is_trait or named is None or (crate.name, module.name, name) in named
                names.append(f"**`{cell(name)}`**" if is_named else f"`{cell(name)}`")
            rows.append(f"| {', '.join(names)} | {cell(group.sentence)} |")
    return rows


def page_of(layers: Sequence[Tuple[str, List[str]]], crates: Dict[str, Crate], named: Set[Tuple[str, str, str]]) -> str:
    lines = [HEAD]
    with_rows = [(title, [it for it in names if crates[it].modules]) for title, names in layers]
    for title, names in with_rows:
        if names:
            layer, _, about = title.partition(": ")
            lines.append(f"- {layer} ({about}): {', '.join(f'[{it}](#{it})' for it in names)}")
    for _, names in with_rows:
        for name in names:
            lines += ["", f"## {name}", ""]
            if crates[name].sentence:
                lines += [crates[name].sentence, ""]
            lines += rows_of(crates[name], named)
    return "\n".join(lines) + "\n"


def made() -> Tuple[str, List[str]]:
    """Returns the page, and where a definition has no sentence."""
    layers = layers_of(read("crates.txt"))
    names = [it for _, crates in layers for it in crates]
    crates = {it: crate_of(it) for it in names}
    modules = [module for crate in crates.values() for module in crate.modules if not module.head]
    groups = [(module.path, it) for module in modules for it in module.groups]
    bare = [f"{path}:{it.line}: {it.names[0]} has no comment" for path, it in groups if not it.sentence]
    return page_of(layers, crates, named_in_contracts(names)), bare


def main(words: Optional[Sequence[str]] = None) -> int:
    parser = argparse.ArgumentParser(description="Makes docs/DEFINITIONS.md from the comments above the definitions.")
    parser.add_argument("--check", action="store_true", help="only say whether the page is what the comments say")
    check = parser.parse_args(words).check
    text, bare = made()
    for it in bare:
        print(it)
    is_same = os.path.isfile(f"{TOP}/{PAGE}") and read(PAGE) == text
    if check and not is_same:
        print(f"{PAGE} isn't what the comments say: tools/definitions.py makes it")
    if not check and not is_same:
        with open(f"{TOP}/{PAGE}", "w", encoding="utf-8") as it:
            it.write(text)
    return 1 if bare or (check and not is_same) else 0


if __name__ == "__main__":
    sys.exit(main())
