"""The parts of shards.sh; TAPESTRY names the program."""

import bisect
import contextlib
import ctypes
import os
import re
import shutil
import signal
import socket
import sqlite3
import statistics
import subprocess
import sys
import tempfile
import threading
import time
import unittest

TOP = os.path.dirname(os.path.dirname(os.path.abspath(__file__)))
sys.path[:0] = [os.path.join(TOP, "service", "tests"), os.path.join(TOP, "service")]

from support import SERVICE, Service, Talk, draw, wait_until  # noqa: E402
from tapestry_service.replies import NotAReply  # noqa: E402
from tapestry_service.shared_log import KEYS, SharedLog  # noqa: E402

PROGRAM = os.environ["TAPESTRY"]
FOLDER = os.environ.get("FOLDER") or ("/dev/shm" if os.access("/dev/shm", os.W_OK) else None)
FIRST_LOGIN = 30000
WRONG = []


def number(name, otherwise):
    return int(os.environ.get(name) or otherwise)


SHARDS, USERS = number("SHARDS", 4), number("USERS", 40)


def row(*cells):
    print("| " + " | ".join(str(it) for it in cells) + " |", flush=True)


def expect(holds, what):
    """Notes what is wrong, and goes on."""
    if not holds:
        WRONG.append(what)
        print(f"shards: wrong: {what}", file=sys.stderr, flush=True)
    return bool(holds)


BEGAN = time.monotonic()


def told(what):
    print(f"shards: {time.monotonic() - BEGAN:.0f} s: {what}", file=sys.stderr, flush=True)


@contextlib.contextmanager
def folder():
    path = tempfile.mkdtemp(prefix="shards-", dir=FOLDER)
    os.chmod(path, 0o755)
    try:
        yield path
    finally:
        shutil.rmtree(path, ignore_errors=True)


class Redis:
    """A server of its own, at a socket."""

    def __init__(self, at, *words):
        self.at, self.words, self.process, self.kills = at, words, None, 0
        self.socket = f"{at}/redis.socket"
        self.url = f"unix://{self.socket}?db=0"
        os.makedirs(f"{at}/redis", exist_ok=True)

    def start(self):
        words = ["redis-server", *(() if "--port" in self.words else ("--port", "0")), "--unixsocket", self.socket, "--unixsocketperm", "777", "--dir", f"{self.at}/redis"]
        words += ["--appendonly", "yes", "--appendfsync", "always", "--save", "", "--logfile", f"{self.at}/redis.log", *self.words]
        self.process = subprocess.Popen(words, stdout=subprocess.DEVNULL)
        wait_until(self.answers, "the server answers", 300)

    def answers(self):
        with contextlib.suppress(Exception):
            return self.client().ping()

    def client(self):
        import redis

        return redis.Redis(unix_socket_path=self.socket)

    def kill(self):
        self.process.kill()
        self.process.wait()
        self.kills += 1

    def stop(self):
        if self.process is not None and self.process.poll() is None:
            self.process.terminate()
            self.process.wait()


@contextlib.contextmanager
def server(at):
    it = Redis(at)
    it.start()
    try:
        yield it
    finally:
        it.stop()


def end(services):
    """Ends what a fault has left."""
    for it in services:
        if it is not None and it.process is not None and it.process.poll() is None:
            for pid in it.children() if isinstance(it, Service) else []:
                with contextlib.suppress(OSError):
                    os.kill(pid, signal.SIGKILL)
            it.process.kill()
            it.process.wait()


def names():
    return [f"u{n:02d}" for n in range(USERS)]


def shards_of(at, url, count, rules):
    """The shards; each has the users whose number leaves its own."""
    logins = "".join(f"user {FIRST_LOGIN + n} {name}\n" for n, name in enumerate(names()))
    found = []
    for n in range(count):
        os.makedirs(f"{at}/shard{n}")
        words = ["--log", url, "--users", ",".join(names()[n::count])]
        found.append(Service(f"{at}/shard{n}", PROGRAM, logins + rules, words))
    return found


class Feeder:
    """A process that only feeds."""

    def __init__(self, at, url):
        self.at, self.url, self.process, self.put_number, self.kills = at, url, None, 0, 0
        for part in ("tmp", "new"):
            os.makedirs(f"{at}/{part}")

    def start(self):
        with open(f"{self.at}.log", "ab") as log:
            words = [sys.executable, os.path.join(SERVICE, "tapestryd"), "--log", self.url, "--spool", self.at]
            self.process = subprocess.Popen(words, stderr=log)

    def put(self, data, name):
        with open(f"{self.at}/tmp/{name}", "wb") as file:
            file.write(data)
        os.rename(f"{self.at}/tmp/{name}", f"{self.at}/new/{name}")

    def kill(self):
        self.process.kill()
        self.process.wait()
        self.kills += 1

    def waiting(self):
        return os.listdir(f"{self.at}/new")


_libc = ctypes.CDLL(None, use_errno=True)


def become(uid):
    """Gives this thread alone another effective user, which a socket then has."""
    if _libc.syscall(117, -1, uid, -1) != 0:
        raise OSError(ctypes.get_errno(), "setresuid")


def talk_as(path, user):
    become(FIRST_LOGIN + int(user[1:]))
    try:
        return Talk(path, 600.0)
    finally:
        become(0)


# What users do


class Said:
    """A command of a user with its reply, and when it was performed: after how many rows, at which moment."""

    def __init__(self, user, command, reply, place, moment):
        self.user, self.command, self.reply, self.place, self.moment = user, command, reply, place, moment


class User(threading.Thread):
    """Speaks to its shard until it is told to end: notes, runs, and what reads."""

    QUERIES = {
        "word": "m.words HAS 'to{0}'",
        "silent": "m.words HAS 'to{0}' AND NOW >= m.ts + 3 SECONDS AND NOT EXISTS (r: DOC WHERE r.inreplyto = m.msgid)",
        "rated": "EXISTS (a: NOTE WHERE a.doc = m.id AND a.author <> '{0}' AND a.value > 7)",
        "due": "m.words HAS 'every7' OR EXISTS (a: NOTE WHERE a.doc = m.id AND a.author = '{0}')",
    }
    OWN = ("word", "silent", "rated")  # those that the user runs; the service runs the last one

    def __init__(self, name, shard, seed, notes):
        super().__init__(daemon=True)
        self.user, self.shard, self.random, self.notes = name, shard, draw(seed), notes
        self.said, self.rows = [], []  # commands with a place; (reply, line) of rows
        self.lost = self.refused = self.misplaced = 0
        self.runs = dict.fromkeys(self.QUERIES, 0)
        self.number = 0
        self.talk = None
        self.documents = self.moment = 0
        self.ends = False
        self.fault = None

    def run(self):
        try:
            while not self.ends:
                self.act()
                time.sleep(self.random.random() * 0.15)
        except Exception as fault:  # shown by the trial
            self.fault = fault

    # One command

    def say(self, command):
        """The reply to a command; None if it isn't known."""
        try:
            if self.talk is None:
                self.talk = talk_as(self.shard.socket, self.user)
            reply = self.talk.say(command)
            if reply is not None and not (not reply.ok and reply.number in (41, 43)):
                return reply
        except (OSError, EOFError, NotAReply):
            pass
        self.hang_up()
        time.sleep(0.03)
        return None

    def hang_up(self):
        if self.talk is not None:
            self.talk.close()
            self.talk = None

    def known(self, command):
        """The reply to a command that may be said twice."""
        while not self.ends:
            reply = self.say(command)
            if reply is not None and (reply.ok or reply.number != 42):
                return reply
            time.sleep(0.02)
        return None

    def counts(self):
        reply = self.known(b"counts\n")
        if reply is None:
            return None
        words = reply.words.split()
        self.documents, self.moment = int(words[2]), int(words[6])
        return int(words[2]) + int(words[4]), int(words[6])

    def read(self, command, tries=1):
        """A command that changes nothing, recorded if it is known when it was performed."""
        for _ in range(tries):
            reply = self.say(b"counts\n" + command + b"counts\n")
            others = [None if reply is None or not reply.ok else self.say(b"") for _ in range(2)]
            if None not in others and (others[0].ok or others[0].number != 42) and others[1].ok and others[1] == reply:
                words = reply.words.split()
                self.said.append(Said(self.user, command, others[0].bytes, int(words[2]) + int(words[4]), int(words[6])))
                return True
            self.hang_up()
            self.misplaced += 1
        return False

    def run_query(self, name):
        """A run of a query of the user's own. If its reply is lost, the list of queries says whether it was."""
        reply = self.say(b"run %s\n" % name.encode())
        if reply is None:
            self.lost += 1
            found = self.known(b"queries\n")
            while found is not None and not found.ok:
                found = self.known(b"queries\n")
            if found is None:
                return
            line = next(it.split() for it in found.lines if it.startswith(b"query %s " % name.encode()))
            if int(line[7]) == self.runs[name]:
                return
            moment, data = int(line[9]), None
        elif not reply.ok:
            self.refused += 1
            return
        else:
            moment, data = int(reply.words.split()[3]), reply.bytes
        self.runs[name] += 1
        # Rows of the same second are none of the run's, so it may stand before them.
        self.said.append(Said(self.user, b"run %s\n" % name.encode(), data, None, moment))

    def add(self, command, line):
        reply = self.say(command)
        if reply is None or reply.number in (42, 43):
            self.lost += reply is None
            return False
        if expect(reply.ok, f"{self.user}: {command!r} got {reply.first!r}"):
            self.rows.append((reply.first, line))
        return reply.ok

    def act(self):
        what = self.random.random()
        self.number += 1
        if what < 0.4 and self.notes > 0:
            if self.documents == 0:
                self.counts()
            if self.documents > 0:
                doc = self.random.randrange(1, self.documents + 1)
                line = b"note %d score %d %s says %d" % (doc, self.random.randrange(10), self.user.encode(), self.number)
                self.notes -= self.add(line + b"\n", line)
        elif what < 0.405:
            text = b"Subject: of %s, %d\n\nmail of a user\n" % (self.user.encode(), self.number)
            self.add(b"mail\n" + text + b".\n", text)
        elif what < 0.65:
            self.run_query(self.random.choice(self.OWN))
        else:
            self.read(self.question())

    def question(self):
        name = self.random.choice(self.OWN).encode()
        doc = self.random.randrange(1, max(self.documents, 1) + 1)
        run = self.random.randrange(0, self.runs[name.decode()] + 2)
        return self.random.choice([
            b"box %s\n" % name, b"list %s\n" % name, b"wake %s\n" % name, b"digest %s %d\n" % (name, run), b"explain %s\n" % name,
            b"show %d\n" % doc, b"notes %d\n" % doc, b"scores score\n", b"ask 1000 m.sender\n", b"box nosuch\n",
            b"ask %d m.words HAS 'word3' AND m.id > %d\n" % (max(self.moment - 3, 0), doc),
            b"note 0 score 1 x\n", b"note 4294967295 score 1 x\n", b"note 1 Score 1 x\n", b"note 1 score\n", b"query word TRUE\n",
            b"mbox\nnothing\n.\n", b"nonsense\n", b"show 999999\n",
        ])  # fmt: skip

    # The beginning and the end

    def define(self):
        """The queries and the filter, before any row."""
        block = b"filter\nWHEN m.words HAS 'to%s' PRIORITY 20 CLASS 'mine'\nWHEN m.words HAS 'every7' PRIORITY 7 CLASS 'seven'\n.\n"
        for command in [*(b"query %s %s\n" % (k.encode(), v.format(self.user).encode()) for k, v in self.QUERIES.items()), block % self.user.encode()]:
            before = self.counts()
            reply = self.known(command)
            moment = before[1]
            if command.startswith(b"query"):
                moment = int(self.known(b"queries\n").lines[-1].split()[3])
            self.said.append(Said(self.user, command, reply.bytes, 0, moment))

    def conclude(self):
        """Each query once more, and then all that shows anything of this user."""
        for name in self.OWN:
            runs = self.runs[name]
            while self.runs[name] == runs:
                self.run_query(name)
        wait_until(lambda: self.known(b"wake due\n").words.endswith("never"), f"{self.user}'s due query has run", 1800)
        due = int(self.known(b"digest due 0\n").words)
        commands = [b"queries\n", b"scores score\n"]
        for name in self.QUERIES:
            runs = due if name == "due" else self.runs[name]
            commands += [b"%s %s\n" % (word, name.encode()) for word in (b"box", b"list", b"explain", b"wake")]
            some = self.random.sample(range(1, runs + 1), min(runs, 8))
            commands += [b"digest %s %d\n" % (name.encode(), run) for run in some]
        commands += [b"notes %d\n" % self.random.randrange(1, self.documents + 1) for _ in range(20)]
        commands += [b"show %d\n" % self.random.randrange(1, self.documents + 1) for _ in range(20)]
        for command in commands:
            expect(self.read(command, 50), f"{self.user}: it is known when {command!r} was performed")
        self.hang_up()


def mail(n):
    """The mail of a number. One of three answers one of those before."""
    head = f"From: sender{n % 7}@example.org\nMessage-ID: <{n}@example.org>\nSubject: number {n}\n"
    if n % 3 == 0 and n > 9:
        head += f"In-Reply-To: <{n - 1 - n % 9}@example.org>\n"
    every = "every7 " if n % 7 == 0 else ""
    text = f"\n{every}mail {n} is tou{n % USERS:02d}\n.\n..\nFrom here\n>From there\n\nFrom an empty line\n" + f"word{n % 11} and word{n % 13} " * (n % 9)
    return (head + text + "\n").encode() + (b"a CR\r\r\n" if n % 50 == 0 else b"")


# One store that gets everything in the log's order


def script_of(rows, said):
    """The commands of one store, and for each what its reply has to be, or None."""
    ats = [it.at for it in rows]
    ordered = []
    for user, events in said.items():
        last = 0
        for turn, it in enumerate(events):
            if it.place is None:
                # A run: after the rows of the seconds before it.
                it = Said(it.user, it.command, it.reply, max(last, bisect.bisect_left(ats, it.moment)), it.moment)
            last = it.place
            ordered.append((it.place, it.moment, user, turn, it))
    ordered.sort(key=lambda it: it[:4])
    commands, wanted = [], []
    moment = user = None

    def put(command, reply=None):
        commands.append(command)
        wanted.append(reply)

    def at(second, who):
        nonlocal moment, user
        if second != moment:
            put(b"at %d\n" % second, b"ok 0 at %d\n" % second)
            moment = second
        if who is not None and who != user:
            put(b"as %s\n" % who)
            user = who

    next_said = 0
    for place in range(len(rows) + 1):
        if place > 0:
            it = rows[place - 1]
            at(it.at, it.user or None)
            if it.kind == b"note":
                put(it.text + b"\n", b"ok 0 note %d\n" % it.number)
            else:
                lines = it.text.replace(b"\r\n", b"\r\r\n")
                put(b"mail\n" + re.sub(rb"^\.", b"..", lines, flags=re.MULTILINE) + b".\n", b"ok 0 doc %d\n" % it.number)
        while next_said < len(ordered) and ordered[next_said][0] == place:
            it = ordered[next_said][4]
            at(it.moment, it.user.encode())
            put(it.command, it.reply)
            next_said += 1
    return commands, wanted


def replies_in(data):
    """The replies of a whole session."""
    lines = data.split(b"\n")
    lines.pop()
    at = 0
    while at < len(lines):
        words = lines[at].split()
        end = at + 1 + (int(words[1]) if words[0] == b"ok" else 0)
        yield b"".join(it + b"\n" for it in lines[at:end])
        at = end


def differences(at, rows, said):
    """Performs the script; how many replies there are to compare, and the commands whose replies differ."""
    commands, wanted = script_of(rows, said)
    with open(f"{at}/script", "wb") as file:
        file.writelines(commands)
    with open(f"{at}/script") as script:
        done = subprocess.run([PROGRAM], stdin=script, stdout=subprocess.PIPE)
    replies = list(replies_in(done.stdout))
    wrong = [] if len(replies) == len(commands) else [(b"", b"", b"%d replies to %d commands" % (len(replies), len(commands)))]
    compared = 0
    for command, want, reply in zip(commands, wanted, replies):
        if want is not None:
            compared += 1
            if reply != want:
                wrong.append((command, want, reply))
    return compared, wrong


def planted(at, rows, said):
    """Faults in what the shards are compared with; each has to be noticed."""
    random = draw(number("SEED", 54) + 1)
    docs = [n for n, it in enumerate(rows) if it.kind == b"doc" and b"every7" in it.text and n > 10]
    notes = [n for n, it in enumerate(rows) if it.kind == b"note"]
    n = random.choice(docs)
    swapped = list(rows)
    swapped[n] = rows[n]._replace(text=rows[n - 1].text, kind=rows[n - 1].kind, user=rows[n - 1].user)
    swapped[n - 1] = rows[n - 1]._replace(text=rows[n].text, kind=rows[n].kind, user=rows[n].user)
    n = random.choice(notes)
    lacking = rows[:n] + [it._replace(place=it.place - 1) for it in rows[n + 1 :]]
    n = random.choice(docs)
    changed = rows[:n] + [rows[n]._replace(text=rows[n].text.replace(b"every7", b"every8"))] + rows[n + 1 :]
    user = random.choice(names())
    runs = [n for n, it in enumerate(said[user]) if it.command.startswith(b"run")]
    without = {**said, user: [it for n, it in enumerate(said[user]) if n != runs[0]]}
    stranger = {**said, user: [Said(names()[0] if user != names()[0] else names()[1], *list(vars(it).values())[1:]) for it in said[user]]}
    found = [
        len(differences(at, *it)[1])
        for it in ((swapped, said), (lacking, said), (changed, said), (rows, without), (rows, stranger))
    ]
    return sum(it > 0 for it in found), len(found), found


# The trial


def log_rows(url):
    """All rows, as the server has them."""
    log, found = SharedLog(url), []
    while True:
        reading = log.read(len(found) + 1)
        found += reading.rows
        if len(found) >= reading.total:
            return found


def note_row(it):
    _, doc, kind, value, text = it.text.split(b" ", 4)
    return it.number, int(doc), it.user, kind, int(value), text, it.at


def tables_of(path):
    """Documents and notes of a store after an orderly end, the moments of runs by owner and query."""
    with contextlib.closing(sqlite3.connect(f"file:{path}?mode=ro", uri=True)) as base:
        docs = base.execute("SELECT num, arrival, body FROM docs ORDER BY num").fetchall()
        notes = base.execute("SELECT num, doc, author, kind, value, body, arrival FROM notes ORDER BY num").fetchall()
        runs = base.execute("SELECT owner, name, moment FROM runs JOIN queries ON queries.num = runs.query ORDER BY runs.num").fetchall()
    return docs, notes, runs


class Trial:
    """The shards, their users and feeders, and what kills them."""

    def __init__(self, at, redis):
        self.at, self.redis = at, redis
        self.random = draw(number("SEED", 54))
        self.mails, self.notes = number("MAILS", 10_000), number("NOTES", 2_000)
        self.kills, self.redis_kills = number("KILLS", 50), number("REDIS_KILLS", 10)
        rules = "".join(
            f"deliver {name} due maildir {at}/boxes/{name}\n" if n % 5 == 0 else f"run {name} due\n" for n, name in enumerate(names())
        )
        self.shards = shards_of(at, redis.url, SHARDS, rules)
        self.feeders = [Feeder(f"{at}/feeder{n}", redis.url) for n in range(2)]
        seed = number("SEED", 54)
        self.users = [User(name, self.shards[n % SHARDS], 1000 * seed + n, -(-self.notes // USERS)) for n, name in enumerate(names())]
        self.killed, self.ready = [0] * SHARDS, [0] * SHARDS
        self.while_ready = self.with_program = 0

    def perform(self):
        for it in self.shards:
            it.start()
        for it in self.feeders:
            it.start()
        for user in self.users:
            user.define()
        for user in self.users:
            user.start()
        self.kill_and_put()
        told(f"{sum(self.killed)} kills are done; the rest of the notes")
        wait_until(lambda: all(it.notes <= 0 or it.fault for it in self.users), "all notes are put", 1800)
        wait_until(lambda: not any(it.waiting() for it in [*self.feeders, *self.shards]), "all spools are empty", 1800)
        for user in self.users:
            user.ends = True
        for user in self.users:
            user.join(600)
            expect(user.fault is None, f"{user.user}: {user.fault!r}")
            user.ends = False
        self.rows = log_rows(self.redis.url)
        for it in self.shards:
            wait_until(lambda: self.place_of(it) == len(self.rows), "a shard has all rows", 1800)
        time.sleep(5)
        told(f"{len(self.rows)} rows; what users see in the end")
        threads = [threading.Thread(target=self.conclude, args=(it,)) for it in self.users]
        for it in threads:
            it.start()
        for it in threads:
            it.join()
        expect(len(log_rows(self.redis.url)) == len(self.rows), "nothing came after the end")
        for it in self.shards:
            expect(it.stop() == 0, "a shard ended in order")

    def conclude(self, user):
        try:
            user.conclude()
        except Exception as fault:
            expect(False, f"{user.user}: {fault!r}")

    def place_of(self, shard):
        user = self.users[self.shards.index(shard)]
        return (user.counts() or (0, 0))[0]

    def put_some(self, until):
        while self.put_number < until:
            n = self.put_number
            self.put_number += 1
            to = self.random.choice([*self.feeders, *self.shards])
            to.put(mail(n), f"{n:08d}.test")
            # What one feeder had put when its machine died, another one finds again.
            if n % 40 == 0:
                self.random.choice(self.feeders).put(mail(n), f"{n:08d}.test")

    def kill_and_put(self):
        self.put_number = 0
        steps = ["shard"] * (SHARDS * self.kills) + ["redis"] * self.redis_kills
        steps += [it for it in self.feeders for _ in range(self.redis_kills)]
        self.random.shuffle(steps)
        for turn, step in enumerate(steps):
            self.put_some(self.mails * (turn + 1) // len(steps))
            time.sleep(self.random.random() * float(os.environ.get("PAUSE") or 1.0))
            if step == "redis":
                self.redis.kill()
                time.sleep(self.random.random() * 0.5)
                self.redis.start()
            elif isinstance(step, Feeder):
                step.kill()
                step.start()
            else:
                self.kill_shard()
            if turn % 50 == 49:
                told(f"{turn + 1} of {len(steps)} kills, {self.put_number} mails")

    def kill_shard(self):
        left = [n for n in range(SHARDS) if self.killed[n] < self.kills]
        if self.random.random() < 0.75:
            # The others are killed as they come, perhaps while they begin.
            left = wait_until(lambda: [n for n in left if self.shards[n].said().count("ready:") > self.ready[n]], "a shard is ready", 600)
        n = self.random.choice(left)
        it = self.shards[n]
        starts = it.said().count("ready:")
        self.while_ready += starts > self.ready[n]
        self.ready[n] = starts
        if self.random.random() < 0.33:
            self.with_program += it.kill_program()
        it.kill()
        self.killed[n] += 1
        it.start(is_ready=False)

    def compare(self):
        said = {user.user: list(user.said) for user in self.users}
        docs = [it for it in self.rows if it.kind == b"doc"]
        notes = [it for it in self.rows if it.kind == b"note"]
        wanted_notes = self.tables(said, docs, notes)
        texts = sorted(it.text for it in docs if b"mail of a user" not in it.text)
        expect(texts == sorted(mail(n).replace(b"\r\r\n", b"\r\n") for n in range(self.mails)), "each mail is in the log once")
        for user in self.users:
            for reply, line in user.rows:
                place = int(reply.split()[3])
                of = notes[place - 1] if reply.startswith(b"ok 0 note") else docs[place - 1]
                expect(of.text == line, f"{user.user} got {reply!r} to {line!r}")
        answered = sum(it[0].startswith(b"ok 0 note") for user in self.users for it in user.rows)
        expect(answered >= self.notes, f"{answered} notes were answered")
        compared, wrong = differences(self.at, self.rows, said)
        for command, want, reply in wrong[:3]:
            told(f"{command[:80]!r}: the shard says {want[:200]!r}, the one store {reply[:200]!r}")
        expect(not wrong, f"{len(wrong)} replies differ")
        boxes = [it for events in said.values() for it in events if it.command.startswith(b"box ") and it.place == len(self.rows)]
        entries = sum(it.reply.count(b"\ndoc ") for it in boxes)
        delivered = self.maildirs(said)
        noticed, of, counts = planted(self.at, self.rows, said)
        expect(noticed == of, f"planted faults: {counts}")
        kinds = sorted({it.command.split()[0].decode() for events in said.values() for it in events})
        told(f"compared: {' '.join(kinds)}; {sum(it.lost for it in self.users)} replies lost, "
             f"{sum(it.misplaced for it in self.users)} reads left out, since a row came between")  # fmt: skip
        row(f"{SHARDS} shards, {USERS} users, {len(docs):,} mails, {len(notes):,} notes in one log",
            f"each shard killed {min(self.killed)} times ({self.while_ready} of {sum(self.killed)} once it was ready, {self.with_program} with its"
            f" program), Redis {self.redis.kills}, each of {len(self.feeders)} feeders {min(it.kills for it in self.feeders)}")  # fmt: skip
        row("the stores of all shards beside the log", f"{SHARDS} times {len(docs):,} mails and {len(notes):,} notes; {wanted_notes} differ")
        row("replies of users beside one store that got everything in the log's order", f"{compared:,} compared byte by byte; {len(wrong)} differ")
        row("boxes among them in the end", f"{len(boxes)} with {entries:,} documents; {delivered:,} of them in {len(names()[::5])} maildirs, once each")
        row("faults planted in what they are compared with", f"{noticed} of {of} noticed")

    def tables(self, said, docs, notes):
        """The shards' stores have the log's rows; the runs of the service go to what its users said. How many rows differ."""
        wrong = 0
        for n, it in enumerate(self.shards):
            found_docs, found_notes, runs = tables_of(it.store)
            wrong += sum(a != (b.number, b.at, b.text) for a, b in zip(found_docs, docs)) + abs(len(found_docs) - len(docs))
            wrong += sum(a != note_row(b) for a, b in zip(found_notes, notes)) + abs(len(found_notes) - len(notes))
            for user in self.users[n::SHARDS]:
                mine = [(name, moment) for owner, name, moment in runs if owner == user.user.encode()]
                for name in user.OWN:
                    own = [it.moment for it in said[user.user] if it.command == b"run %s\n" % name.encode()]
                    expect(own == [moment for of, moment in mine if of == name.encode()], f"the runs of {user.user}'s {name}")
                # At one moment they stand before what the user says.
                said["!" + user.user] = [Said(user.user, b"run due\n", None, None, moment) for of, moment in mine if of == b"due"]
        expect(wrong == 0, f"{wrong} rows of stores differ from the log")
        return wrong

    def maildirs(self, said):
        delivered = 0
        for name in names()[::5]:
            box = next(it.reply for it in reversed(said[name]) if it.command == b"box due\n")
            wanted = sorted(int(it.split()[1]) for it in box.split(b"\n") if it.startswith(b"doc "))
            found = sorted(int(it.split(".D")[1].split("H")[0]) for it in os.listdir(f"{self.at}/boxes/{name}/new"))
            expect(found == wanted and found, f"the maildir of {name}")
            delivered += len(found)
        return delivered


def kills():
    began = time.monotonic()
    with folder() as at, server(at) as redis:
        trial = Trial(at, redis)
        try:
            trial.perform()
            trial.compare()
        finally:
            end([*trial.shards, *trial.feeders])
    row("the trial took", f"{time.monotonic() - began:.0f} s")


# Speed


def cpu_of(pid):
    """Seconds of the processor that a process took so far."""
    with open(f"/proc/{pid}/stat") as file:
        words = file.read().rsplit(")", 1)[1].split()
    return (int(words[11]) + int(words[12])) / os.sysconf("SC_CLK_TCK")


def rate():
    """Mails from one feeder's spool into 1, 2 and 4 shards of the same users, until what is due has run."""
    count = number("SPOOL", 10_000)
    for shards in (1, 2, 4):
        with folder() as at, server(at) as redis:
            services = shards_of(at, redis.url, shards, "".join(f"run {it} due\n" for it in names()))
            feeder = Feeder(f"{at}/feeder", redis.url)
            try:
                for it in services:
                    it.start()
                users = [User(name, services[n % shards], n, 0) for n, name in enumerate(names())]
                for user in users:
                    user.define()
                for n in range(count):
                    feeder.put(mail(n) + b"and some more text that fills a line of this message up\n" * 12, f"{n:08d}.test")
                pids = {"redis": [redis.process.pid], "shards": [pid for it in services for pid in (it.process.pid, *it.children())]}
                before = {name: sum(map(cpu_of, found)) for name, found in pids.items()}
                began = time.monotonic()
                feeder.start()
                wait_until(lambda: all(user.counts()[0] == count for user in users[:shards]), "all shards have all", 600)
                applied = time.monotonic() - began
                wait_until(lambda: all(user.known(b"wake due\n").words.endswith("never") for user in users), "nothing is due", 600)
                settled = time.monotonic() - began
                cpu = {name: sum(map(cpu_of, found)) - before[name] for name, found in pids.items()}
                cpu["feeder"] = cpu_of(feeder.process.pid)
                waits = []
                for n in range(100):
                    start = time.monotonic()
                    expect(users[0].say(b"note %d score 1 quick\n" % (n + 1)).ok, "a note")
                    waits.append(time.monotonic() - start)
                for it in services:
                    expect(it.stop() == 0, "a shard ended in order")
                docs, _, runs = tables_of(services[-1].store)
                expect(len(docs) == count and len(runs) >= len(users[:: shards]) , "the last shard has all")
                row(f"{count:,} mails of 1 KB, {USERS} users, {shards} shard{'s' if shards > 1 else ''}",
                    f"{count / applied:,.0f} a second into every store; all due runs done after {settled:.1f} s",
                    f"{1e6 * cpu['shards'] / shards / count:.0f} us of the processor a mail and shard, {1e6 * cpu['redis'] / count:.0f} Redis,"
                    f" {1e6 * cpu['feeder'] / count:.0f} the feeder; a note is answered after {1000 * statistics.median(waits):.1f} ms")  # fmt: skip
            finally:
                end([*services, feeder])


# A log that is lost, cut or another's


def lost():
    def lose(redis, other):
        redis.client().flushall()

    def trim(redis, other):
        redis.client().xtrim(KEYS[0], maxlen=3, approximate=False)

    def delete(redis, other):
        redis.client().xdel(KEYS[0], "13-0")

    def refill(redis, other):
        redis.client().flushall()
        other(20)

    def copy(redis, other):
        found = redis.client().dump(KEYS[0])
        redis.client().flushall()
        redis.client().restore(KEYS[0], 0, found)

    cases = (
        ("the server's data is lost", lose, "it was lost or cut"),
        ("another log is there, with more rows", refill, "filled anew"),
        ("rows were trimmed, also the store's last one", trim, "it was cut"),
        ("a row was deleted that the store hasn't yet", delete, "it was cut"),
        ("the stream alone was copied to another server", copy, "it was lost or cut"),
    )
    for what, change, wanted in cases:
        for is_running in (True, False):
            with folder() as at, server(at) as redis:
                (it,) = shards_of(at, redis.url, 1, "")
                feeder = Feeder(f"{at}/feeder", redis.url)
                try:
                    noticed(at, redis, it, feeder, change, wanted, f"{what}, {'while the shard runs' if is_running else 'while it is down'}", is_running)
                finally:
                    end([it, feeder])
    for lacking in (0, 5):
        replica(lacking)


def replica(lacking):
    """The server dies, and a replica takes its place that lacks some of its rows."""
    with socket.socket() as found:
        found.bind(("127.0.0.1", 0))
        port = found.getsockname()[1]
    with folder() as at:
        os.makedirs(f"{at}/second")
        first, second = Redis(at, "--port", str(port)), Redis(f"{at}/second", "--replicaof", "127.0.0.1", str(port))
        (it,) = shards_of(at, first.url, 1, "")
        try:
            first.start()
            second.start()
            it.start()
            user = User(names()[0], it, 1, 0)
            for n in range(10):
                it.put(mail(n), f"{n:08d}")
            wait_until(lambda: user.counts()[0] == 10, "ten rows")
            wait_until(lambda: second.client().xlen(KEYS[0]) == 10, "the replica has them")
            if lacking:
                # From here on they have lost sight of each other.
                second.client().replicaof("NO", "ONE")
            for n in range(lacking):
                it.put(mail(10 + n), f"{10 + n:08d}")
            wait_until(lambda: user.counts()[0] == 10 + lacking, "the last rows")
            first.kill()
            second.client().replicaof("NO", "ONE")
            it.stop()
            before = len(it.said())
            it.words[it.words.index(first.url)] = second.url
            it.start()
            it.put(mail(90), "90")
            if lacking:
                wait_until(lambda: "it was lost or cut" in it.said(), "it is noticed", 30)
                is_well = expect(user.counts()[0] == 10 + lacking and it.waiting() == ["90"], "nothing is applied")
            else:
                wait_until(lambda: user.counts()[0] == 11, "it goes on")
                is_well = expect("isn't applied" not in it.said()[before:], "all is well")
            expect(it.stop() == 0, "it ended in order")
            result = "noticed, nothing applied" if lacking else "the shard goes on"
            row(f"a replica that lacks {lacking or 'no'} rows takes the place of a server that was killed", result if is_well else "WRONG", "")
        finally:
            end([it, first, second])


def noticed(at, redis, it, feeder, change, wanted, what, is_running):
    user = User(names()[0], it, 1, 0)
    it.start()
    for n in range(10):
        it.put(mail(n), f"{n:08d}")
    wait_until(lambda: user.counts()[0] == 10, "ten rows")
    log = SharedLog(redis.url)

    def others(count):
        from tapestry_service.shared_log import message_item

        log.put("", [message_item(os.urandom(8), b"of others %d\n" % n) for n in range(count)])

    if is_running:
        # The shard is stopped, so that all of it comes at once.
        it.process.send_signal(signal.SIGSTOP)
    else:
        it.stop()
    saved = {key: redis.client().dump(key) for key in KEYS}
    others(8)
    change(redis, others)
    if is_running:
        it.process.send_signal(signal.SIGCONT)
    else:
        it.start()
    it.put(mail(10), f"{10:08d}")
    lines = lambda: [line for line in it.said().splitlines() if "isn't applied" in line]  # noqa: E731
    wait_until(lambda: any(wanted in line for line in lines()), f"{what}: it is said", 30)
    time.sleep(1.0)
    is_well = expect(user.counts()[0] == 10, f"{what}: nothing is applied")
    is_well &= expect(len(lines()) == 1 and "put the log of this store in its place" in lines()[0], f"{what}: one line says so: {lines()}")
    is_well &= expect(len(it.waiting()) == 1, f"{what}: nothing is put into it")
    is_well &= expect(user.say(b"note 1 score 1\n").number == 42, f"{what}: a note is refused")
    is_well &= expect(user.say(b"show 1\n").ok, f"{what}: its users go on with what it has")
    # The right log is put back.
    client = redis.client()
    client.flushall()
    for key, value in saved.items():
        client.restore(key, 0, value)
    wait_until(lambda: user.counts()[0] == 11, f"{what}: it goes on once the right log is back", 60)
    expect(it.stop() == 0, "it ended in order")
    line = lines()[0].split("isn't applied: ")[1].split(". put")[0]
    row(what, f"`{line}`", "nothing applied; it went on with the right log" if is_well else "WRONG")


# The log's replies


def log():
    """The tests of the log's replies, with a real server."""
    with folder() as at, server(at) as redis:
        os.environ["TAPESTRY_LOG"] = redis.url
        found = unittest.defaultTestLoader.loadTestsFromName("test_shared_log.RealLog")
        done = unittest.TextTestRunner(stream=sys.stderr, verbosity=0).run(found)
        expect(done.wasSuccessful() and not done.skipped, "the tests of the log's replies")
        row("the log's replies, with a real server", f"{done.testsRun} tests, {len(done.failures) + len(done.errors)} failed")


PARTS = {it.__name__: it for it in (log, lost, kills, rate)}

if __name__ == "__main__":
    for part in sys.argv[1:] or PARTS:
        if part not in PARTS:
            sys.exit(f"shards: {part} is none of {' '.join(PARTS)}")
    if os.geteuid() != 0:
        sys.exit("shards: its users are logins of their own, so it wants root")
    for part in sys.argv[1:] or PARTS:
        PARTS[part]()
    sys.exit(1 if WRONG else 0)
