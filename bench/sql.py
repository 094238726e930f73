"""Conditions on mails as SQL, and the mails and notes of a script in SQLite (Python's sqlite3), with an index on each field."""

import re
import sqlite3
import time
from typing import NamedTuple


class Sql(NamedTuple):
    """What SQLite is asked in place of a first run, which gives each mail with its first second, and of a question."""

    run: str
    ask: str


def plain(test):
    """Mails of which this holds, whatever else is stored."""
    return Sql(f"SELECT num, ts FROM doc m WHERE {test} ORDER BY 2, 1", f"SELECT num FROM doc m WHERE {test} ORDER BY 1")


def arriving(source):
    """The rows of a FROM that have an arrival."""
    return re.findall(r"\b(?:doc|note) (\w)\b", source)


def exists(*rows):
    """Mails beside which one of these rows stands, each a FROM and a WHERE: from the arrival of the last of them."""
    found = " UNION ALL ".join(
        f"SELECT m.num AS num, MAX(m.ts{''.join(f', {it}.ts' for it in arriving(source))}) AS first FROM doc m JOIN {source} WHERE {test}"
        for source, test in rows
    )
    tests = " OR ".join(f"EXISTS (SELECT 1 FROM {source} WHERE {test})" for source, test in rows)
    return Sql(f"SELECT num, MIN(first) FROM ({found}) GROUP BY num ORDER BY 2, 1", f"SELECT num FROM doc m WHERE {tests} ORDER BY 1")


def none(*rows, since="m.ts"):
    """Mails beside which none of these rows stands: at `since` in a run, since a mail that was delivered stays, now in a question."""

    def mails(column, early):
        tests = "".join(
            f" AND NOT EXISTS (SELECT 1 FROM {source} WHERE {test}{''.join(early.format(it) for it in arriving(source))})"
            for source, test in rows
        )
        return f"SELECT {column} FROM doc m WHERE {since} < :now{tests} ORDER BY "

    return Sql(mails(f"num, {since}", f" AND {{}}.ts <= {since}") + "2, 1", mails("num", "") + "1")


def narrowed(rows, test):
    return [(source, f"{others} AND {test}") for source, others in rows]


def has_word(doc, word):
    """Words are looked up in a table of FTS5."""
    return f"{doc}.num IN (SELECT rowid FROM word WHERE word MATCH '{word}')"


TABLES = {
    "doc": "ts INTEGER, size INTEGER, sender TEXT, msgid TEXT, subject TEXT, inreplyto TEXT",
    "ref": "doc INTEGER, msgid TEXT",
    "addressee": "doc INTEGER, address TEXT",
    "note": "ts INTEGER, doc INTEGER, author TEXT, kind TEXT, value INTEGER",
}


def new_base():
    """SQLite with the tables of rows and an index on each field."""
    base = sqlite3.connect(":memory:")
    for table, columns in TABLES.items():
        base.execute(f"CREATE TABLE {table} (num INTEGER PRIMARY KEY, {columns})")
        for it in columns.split(", "):
            name = it.split()[0]
            base.execute(f"CREATE INDEX {table}_{name} ON {table} ({name})")
    base.execute("CREATE VIRTUAL TABLE word USING fts5 (body, content='')")
    return base


def add_mail(base, now, lines):
    """Adds a mail of these lines, each of whose fields has one line."""
    fields = dict(it.split(": ", 1) for it in lines[: lines.index("")])
    body = " ".join(lines[lines.index("") :])
    msgid, parent = (fields[it].strip("<>") if it in fields else None for it in ("Message-ID", "In-Reply-To"))
    row = (now, sum(len(it) + 1 for it in lines), fields.get("From"), msgid, fields.get("Subject"), parent)
    num = base.execute("INSERT INTO doc VALUES (NULL, ?, ?, ?, ?, ?, ?)", row).lastrowid
    base.execute("INSERT INTO word (rowid, body) VALUES (?, ?)", (num, f"{fields.get('Subject', '')} {body}"))
    base.executemany("INSERT INTO ref VALUES (NULL, ?, ?)", ((num, it.strip("<>")) for it in fields.get("References", "").split()))
    base.executemany("INSERT INTO addressee VALUES (NULL, ?, ?)", ((num, it) for it in fields.get("To", "").split(", ") if it))


def add_rows(base, script):
    """Adds the mails and notes of a script, and returns its last moment."""
    now, user, lines = None, None, iter(script.splitlines())
    for line in lines:
        command, *words = line.split()
        if command == "at":
            now = int(words[0])
        elif command == "as":
            user = words[0]
        elif command == "mail":
            add_mail(base, now, list(iter(lambda: next(lines), ".")))
        elif command == "note":
            base.execute("INSERT INTO note VALUES (NULL, ?, ?, ?, ?, ?)", (now, int(words[0]), user, words[1], int(words[2])))
    return now


def find(base, select, now, limit):
    """Processor seconds of a SELECT, and the lines that a reply has for what it finds; None if it takes more than `limit` seconds."""
    start = time.process_time()
    base.set_progress_handler(lambda: time.process_time() - start > limit, 1_000_000)
    try:
        rows = base.execute(select, {"now": now}).fetchall()
    except sqlite3.OperationalError as error:
        if str(error) != "interrupted":
            raise
        return None
    return time.process_time() - start, "".join("doc " + " first ".join(map(str, row)) + "\n" for row in rows).encode()
