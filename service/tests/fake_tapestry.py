#!/usr/bin/env python3
"""A stand-in for the filter's program, for what the real one can't be brought to: statuses on demand, and few commands.

Its store is a file with one JSON line a command that added rows. A query's text is a word: it gives the documents that have this
word, from their arrival on; `later N word` from N seconds after it. The file STORE.fault may have a line `WORD STATUS`: the next
command of this first word (`put`: that adds messages) ends the program with this status, before it is stored; with `stored`
behind it, after that; with `again`, each time. The file STORE.plain takes `counts` and `show` away. STORE.slow has the seconds
that each command takes.
"""

from __future__ import annotations

import fcntl
import json
import os
import sys
import time
from typing import Any, Dict, List, Optional

LIMIT = 1_048_576


def end(status: int) -> None:
    sys.stdout.flush()
    os._exit(status)


class Fake:
    def __init__(self, path: str):
        self.path = path
        self.file = open(path, "a+b")
        try:
            fcntl.flock(self.file, fcntl.LOCK_EX | fcntl.LOCK_NB)
        except BlockingIOError:
            end(5)
        self.docs: List[Dict[str, Any]] = []
        self.notes: List[Dict[str, Any]] = []
        self.queries: Dict[str, Dict[str, Any]] = {}
        self.last = 0
        self.moment: Optional[int] = None
        self.user: Optional[str] = None
        self.file.seek(0)
        for line in self.file.read().decode("latin-1").splitlines(True):
            if line.startswith("version"):
                self.say(f"stop 6 {line.strip()}")
                end(6)
            if line.endswith("\n"):
                self.take(json.loads(line))

    def has(self, name: str) -> bool:
        return os.path.exists(self.path + name)

    def fault(self, word: str, is_stored: bool) -> None:
        try:
            with open(self.path + ".fault") as file:
                given = file.read().split()
        except FileNotFoundError:
            return
        if given and given[0] == word and (given[2:3] == ["stored"]) == is_stored:
            if given[2:3] != ["again"]:
                os.unlink(self.path + ".fault")
            end(int(given[1]))

    def store(self, row: Dict[str, Any]) -> None:
        self.file.write(json.dumps(row).encode() + b"\n")
        self.file.flush()
        os.fsync(self.file.fileno())
        self.take(row)

    def take(self, row: Dict[str, Any]) -> None:
        self.last = max(self.last, row["at"])
        if row["kind"] == "docs":
            self.docs += [{"text": it, "at": row["at"]} for it in row["texts"]]
        elif row["kind"] == "note":
            self.notes.append(row)
        elif row["kind"] == "query":
            self.queries[row["key"]] = {"text": row["text"], "runs": []}
        else:
            self.queries[row["key"]]["runs"].append(row["entries"])

    def say(self, line: str, lines: Optional[List[str]] = None) -> None:
        sys.stdout.buffer.write("".join(it + "\n" for it in [line, *(lines or [])]).encode("latin-1"))
        sys.stdout.flush()

    def due(self, query: Dict[str, Any]) -> List[List[int]]:
        """Number and first second of the documents that no run has delivered."""
        words = query["text"].split()
        wait = int(words[1]) if words[0] == "later" else 0
        done = {entry[0] for run in query["runs"] for entry in run}
        found = [[n, d["at"] + wait] for n, d in enumerate(self.docs, 1) if words[-1] in d["text"] and n not in done]
        return sorted(found, key=lambda it: (it[1], it[0]))

    def add(self, texts: List[str]) -> None:
        self.store({"kind": "docs", "texts": texts, "at": self.moment})

    def note(self, line: str) -> None:
        words = line.split(None, 4)
        if len(words) < 4 or not words[1].isdigit() or not words[3].lstrip("-").isdigit():
            return self.say("no 2")
        if not 0 < int(words[1]) <= len(self.docs):
            return self.say("no 11")
        text = words[4] if len(words) > 4 else ""
        self.store(
            {"kind": "note", "doc": int(words[1]), "user": self.user, "of": words[2], "value": int(words[3]), "text": text, "at": self.moment}
        )
        self.say(f"ok 0 note {len(self.notes)}")

    def perform(self, line: str, block: Optional[str]) -> None:
        words = line.split()
        word, key = words[0], f"{self.user} {words[1] if len(words) > 1 else ''}"
        if self.has(".slow"):
            with open(self.path + ".slow") as file:
                time.sleep(float(file.read()))
        self.fault(word, False)
        if word == "at":
            if int(words[1]) < (self.moment if self.moment is not None else self.last):
                return self.say(f"no 5 {self.moment if self.moment is not None else self.last}")
            self.moment = int(words[1])
            self.say(f"ok 0 at {words[1]}")
        elif word == "as":
            self.user = words[1]
            self.say(f"ok 0 as {words[1]}")
        elif word in ("mail", "mbox"):
            assert block is not None
            texts = [block] if word == "mail" else messages_of(block)
            if any(len(it) > LIMIT for it in texts):
                return self.say("no 16 message")
            if any("REFUSE" in it for it in texts):
                return self.say("no 16 store")
            if texts:
                self.fault("put", False)
                self.add(texts)
                self.fault("put", True)
            first = len(self.docs) - len(texts) + 1
            self.say(f"ok 0 docs {len(texts)} {first}" if word == "mbox" else f"ok 0 doc {first}")
        elif word == "counts" and not self.has(".plain"):
            moment = self.moment if self.moment is not None else self.last
            self.say(f"ok 0 counts documents {len(self.docs)} notes {len(self.notes)} moment {moment}")
        elif word == "note":
            self.note(line)
        elif word == "notes":
            found = [(n, it) for n, it in enumerate(self.notes, 1) if it["doc"] == int(words[1])]
            shown = [f"note {n} ts {it['at']} author {it['user']} kind {it['of']} value {it['value']} text {it['text']}" for n, it in found]
            self.say(f"ok {len(found)} notes {words[1]}", shown)
        elif word == "show" and not self.has(".plain"):
            if not 0 < int(words[1]) <= len(self.docs):
                return self.say("no 11")
            lines = [it.rstrip("\r") for it in self.docs[int(words[1]) - 1]["text"].split("\n")[:-1]]
            self.say(f"ok {len(lines)} show {words[1]} at {self.docs[int(words[1]) - 1]['at']}", lines)
        elif word == "query":
            if key in self.queries:
                return self.say("no 9")
            self.store({"kind": "query", "key": key, "text": line.split(None, 2)[2], "at": self.moment})
            self.say(f"ok 0 query {words[1]}")
        elif word in ("wake", "run", "digest"):
            self.ask(word, words, key)
        else:
            self.say("no 1")

    def ask(self, word: str, words: List[str], key: str) -> None:
        if key not in self.queries:
            return self.say("no 10")
        assert self.moment is not None
        query = self.queries[key]
        due = self.due(query)
        runs = query["runs"]
        if word == "wake":
            return self.say(f"ok 0 wake {words[1]} {max(self.moment, due[0][1]) if due else 'never'}")
        if word == "run":
            entries = [it for it in due if it[1] <= self.moment]
            self.store({"kind": "run", "key": key, "entries": entries, "at": self.moment})
            self.fault(word, True)
            return self.say(f"ok {len(entries)} run {len(runs)} before {self.moment}", [f"doc {n} first {s}" for n, s in entries])
        ordinal = int(words[2])
        if not 0 < ordinal <= len(runs):
            return self.say(f"no 19 {len(runs)}")
        lines = ["From: tapestry", f"Subject: digest {words[1]} {ordinal}", ""]
        for number, first in runs[ordinal - 1]:
            text = self.docs[number - 1]["text"].split("\n")[:-1]
            lines += [f"From doc {number} first {first}", *(">" + it if it.lstrip(">").startswith("From ") else it for it in text), ""]
        self.say(f"ok {len(lines)} digest {words[1]} {ordinal}", lines)


def messages_of(text: str) -> List[str]:
    found: List[List[str]] = []
    opens = True
    for line in text.split("\n")[:-1]:
        if opens and line.startswith("From "):
            found.append([])
        elif found:
            found[-1].append(line[1:] if line.startswith(">") and line.lstrip(">").startswith("From ") else line)
        opens = line == ""
    return ["".join(it + "\n" for it in (lines[:-1] if lines[-1:] == [""] else lines)) for lines in found]


def main() -> None:
    fake = Fake(sys.argv[sys.argv.index("--store") + 1])
    fake.fault("start", False)
    block: Optional[List[str]] = None
    opener = ""
    for data in sys.stdin.buffer:
        line = data.decode("latin-1").rstrip("\n")
        line = line[:-1] if line.endswith("\r") else line
        if block is not None:
            if line == ".":
                text, block = "".join(it + "\n" for it in block), None
                fake.perform(opener, text)
            else:
                block.append(line[1:] if line.startswith(".") else line)
        elif line.split()[:1] in (["mail"], ["mbox"]):
            opener, block = line, []
        elif line.split():
            fake.perform(line, None)


main()
