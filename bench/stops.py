"""Stops the program at each call that changes a file: see stops.sh."""
import os
import shutil
import sqlite3
import subprocess
import sys
import tempfile

program, library = sys.argv[1:3]

MAIL = "mail\nSubject: hi {}\n\ntext\n.\n"
# A store before the script, and a script with each kind of change.
BEFORE = ["as ann\n", "at 100\n", "query q m.words HAS 'hi'\n", MAIL.format(1), "at 110\n", "run q\n"]
SCRIPT = [
    "as ann\n",
    "at 120\n",
    MAIL.format(2),
    "mbox\nFrom a\nSubject: hi 3\n\nx\n\nFrom b\nSubject: hi 4\n\ny\n.\n",
    "note 1 score 3 good\n",
    "query r EXISTS (n: NOTE WHERE n.doc = m.id)\n",
    "filter\nWHEN TRUE PRIORITY 1 CLASS 'a'\n.\n",
    "at 130\n",
    "run q\n",
    "run r\n",
    "box q\n",
]
MODES = {
    "killed": {},
    "half a write, killed": {"STOP_HALF": "1"},
    "unsynced writes lost": {"STOP_LOSE": "1"},
    "unsynced writes lost, half a write": {"STOP_LOSE": "1", "STOP_HALF": "1"},
}


def run(store, commands, **more):
    text = "".join(commands).encode()
    env = {**os.environ, **more}
    return subprocess.run([program, "--store", store], input=text, capture_output=True, env=env)


def rows(store):
    """Returns all rows of all tables."""
    with sqlite3.connect(f"file:{store}?mode=ro", uri=True) as base:
        names = [name for (name,) in base.execute("SELECT name FROM sqlite_master WHERE type = 'table' ORDER BY name")]
        return [(name, base.execute(f'SELECT * FROM "{name}" ORDER BY 1').fetchall()) for name in names]


def copied(store, folder):
    to = f"{folder}/copy.db"
    for end in ("", "-wal"):
        if os.path.exists(to + end):
            os.remove(to + end)
        if os.path.exists(store + end):
            shutil.copyfile(store + end, to + end)
    return to


def answered(replies):
    """Returns how many commands a reply was begun to."""
    return sum(line.startswith((b"ok ", b"no ")) for line in replies.split(b"\n")[:-1])


def main():
    wrong = 0
    with tempfile.TemporaryDirectory() as folder:
        for title, before in (("a new store", None), ("a store with rows", BEFORE)):
            base = f"{folder}/base.db"
            if before:
                assert run(base, before).returncode == 0
            script = SCRIPT if before else BEFORE + SCRIPT
            after = []
            for n in range(len(script) + 1):
                store = copied(base, folder)
                assert run(store, script[:n]).returncode <= 1
                after.append(rows(store))
            for mode, words in MODES.items():
                n, bad = 0, 0
                while True:
                    store = copied(base, folder)
                    done = run(store, script, LD_PRELOAD=library, STOP_AT=str(n + 1), **words)
                    if done.returncode != 99:
                        break
                    n += 1
                    told = answered(done.stdout)
                    again = run(store, [])
                    found = rows(store) if again.returncode == 0 else None
                    if found not in after[told : told + 2]:
                        bad += 1
                        print(f"wrong: {title}, {mode}, call {n}: {told} replies, then status {again.returncode}")
                wrong += bad
                print(f"{title}: {mode}: stopped at each of {n} calls, {bad} wrong")
                if n < 10 or done.returncode > 1:
                    print(f"wrong: the run without a stop ended with {done.returncode}")
                    wrong += 1
    return wrong > 0


sys.exit(main())
