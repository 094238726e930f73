"""The parts of service.sh; TAPESTRY names the program."""

import contextlib
import imaplib
import os
import pty
import re
import resource
import select
import shutil
import signal
import socket
import statistics
import subprocess
import sys
import tempfile
import threading
import time

TOP = os.path.dirname(os.path.dirname(os.path.abspath(__file__)))
sys.path[:0] = [os.path.join(TOP, "service", "tests"), os.path.join(TOP, "service")]

from support import LOGIN, Service, draw, wait_until  # noqa: E402
from test_service import CLOCKED  # noqa: E402
from tapestry_service.digests import documents_of  # noqa: E402
from tapestry_service.messages import mbox_of, stored_text  # noqa: E402

PROGRAM = os.environ["TAPESTRY"]
FOLDER = os.environ.get("FOLDER") or ("/dev/shm" if os.access("/dev/shm", os.W_OK) else None)
USER = f"user {LOGIN} ann\n"
NOBODY = (65534, 65534)
WRONG = []


def number(name, otherwise):
    return int(os.environ.get(name) or otherwise)


def row(*cells):
    print("| " + " | ".join(str(it) for it in cells) + " |", flush=True)


def expect(holds, what):
    """Notes what is wrong, and goes on."""
    if not holds:
        WRONG.append(what)
        print(f"service: wrong: {what}", file=sys.stderr, flush=True)
    return bool(holds)


@contextlib.contextmanager
def folder():
    path = tempfile.mkdtemp(prefix="bench-", dir=FOLDER)
    os.chmod(path, 0o755)
    try:
        yield path
    finally:
        shutil.rmtree(path, ignore_errors=True)


@contextlib.contextmanager
def service(at, rules=USER, **more):
    """A running service, which is killed at the end if it still runs."""
    it = Service(at, PROGRAM, rules, **more)
    it.start()
    try:
        yield it
    finally:
        if it.process.poll() is None:
            for pid in it.children():
                os.kill(pid, signal.SIGKILL)
            it.kill()


def message(n, size=0):
    """The message of a number. One of three answers the one before. Its body has lines that look like a mailbox file's and a script's."""
    head = f"From: user{n % 50}@example.org\nMessage-ID: <{n}@example.org>\nSubject: message {n}\n"
    if n % 3 == 0 and n:
        head += f"In-Reply-To: <{n - 1}@example.org>\n"
    text = head + f"\nwords of n{n}n\n.\n..\nFrom here\n>From there\n\nFrom an empty line\n"
    line = 0
    while len(text) < size:
        text += f"word{(n * 7 + line) % 997} and some more text that fills a line of this message up {line}\n"
        line += 1
    return text.encode()


def stored(at):
    """All documents of a store by number, as another session of the program gives them from a copy."""
    with folder() as place:
        for end in ("", "-wal"):
            if os.path.exists(at + end):
                shutil.copy(at + end, f"{place}/copy{end}")
        script = b"at 240000000000\nas zoe\nquery every TRUE\nat 240000000001\nrun every\ndigest every 1\n"
        done = subprocess.run([PROGRAM, "--store", f"{place}/copy"], input=script, stdout=subprocess.PIPE, check=True)
    lines = done.stdout.split(b"\n")
    start = next((n for n, line in enumerate(lines) if line.startswith(b"ok ") and b" digest every 1" in line), len(lines))
    return {it.number: it.text for it in documents_of(lines[start + 1 : -1])}


def box_of(it, query):
    """The documents of a box, in order of their numbers."""
    talk = it.talk()
    reply = talk.say(b"box %s\n" % query.encode())
    talk.close()
    return sorted(int(line.split()[1]) for line in reply.lines)


def names_in(path):
    return [(part, name) for part in ("new", "cur") if os.path.isdir(f"{path}/{part}") for name in os.listdir(f"{path}/{part}")]


def document_of(name):
    return int(name.split(".D")[1].split("H")[0])


def cpu_of(pids):
    """Seconds of the processor that processes took so far."""
    ticks = 0
    for pid in pids:
        with contextlib.suppress(OSError):
            with open(f"/proc/{pid}/stat") as file:
                words = file.read().rsplit(")", 1)[1].split()
            ticks += int(words[11]) + int(words[12])
    return ticks / os.sysconf("SC_CLK_TCK")


# Kills


def kills():
    random = draw(number("SEED", 48))
    most, messages = number("KILLS", 200), number("MESSAGES", 2000)
    conditions = {
        "q0": ("m.words HAS 'words'", lambda n: True),
        "q1": ("m.id > 40 AND NOT m.id = 50", lambda n: n > 40 and n != 50),
        "q2": ("m.words HAS 'n7n' OR m.id < 30", lambda n: n == 8 or n < 30),
        "q3": ("m.from = 'user3@example.org'", lambda n: (n - 1) % 50 == 3),
        "q4": ("NOW >= m.ts + 2 SECONDS AND NOT EXISTS (r: DOC WHERE r.inreplyto = m.msgid)", None),
    }
    began = time.monotonic()
    with folder() as at:
        rules = USER + "".join(f"deliver ann {it} maildir {at}/{it}\n" for it in conditions)
        with service(at, rules) as it:
            for name, (text, _) in conditions.items():
                expect(it.once(f"query {name} {text}\n".encode()) == f"ok 0 query {name}", f"query {name}")
            read = {name: [] for name in conditions}

            def use_mail(share):
                """The user deletes some messages, and looks at others, as mail programs do."""
                for name, found in read.items():
                    for part, file in names_in(f"{at}/{name}"):
                        if part == "new" and random.random() < share:
                            if random.random() < 0.5:
                                found.append(file)
                                os.unlink(f"{at}/{name}/new/{file}")
                            else:
                                os.rename(f"{at}/{name}/new/{file}", f"{at}/{name}/cur/{file}:2,S")

            put, done, kinds = 0, 0, [0, 0, 0]
            while done < most or put < messages:
                for _ in range(random.randrange(1, 2 * messages // max(most, 1))):
                    if put < messages:
                        it.put(message(put))
                        put += 1
                time.sleep(random.random() * 0.3)
                use_mail(0.2)
                if done < most:
                    done += 1
                    kind = random.randrange(3)
                    kinds[kind] += 1
                    if kind != 0:
                        it.kill_program()
                    if kind != 1:
                        it.kill()
                        it.start(is_ready=False)
            it.wait_empty(300)
            for name in conditions:
                wait_until(lambda: it.once(f"wake {name}\n".encode()).endswith("never"), "nothing is due any more", 120)
            boxes = {name: box_of(it, name) for name in conditions}
            for name in conditions:
                wait_until(lambda: len(read[name]) + len(names_in(f"{at}/{name}")) >= len(boxes[name]), f"{name} is whole", 120)
            time.sleep(1)
            expect(it.stop() == 0, "the service ended in order")
        wrong = 0
        delivered = 0
        for name, (_, rule) in conditions.items():
            numbers = sorted(map(document_of, read[name] + [file for _, file in names_in(f"{at}/{name}")]))
            delivered += len(numbers)
            wrong += not expect(numbers == boxes[name], f"the maildir of {name} has what its box has")
            if rule is not None:
                wrong += not expect(boxes[name] == [n for n in range(1, messages + 1) if rule(n)], f"the box of {name}")
        answered = {n for n in range(1, messages) if n % 3 == 0}
        expect(set(boxes["q4"]) >= {n for n in range(1, messages + 1) if n not in answered}, "the box of q4")
        found = stored(f"{at}/store")
        wrong += not expect([found[n] for n in sorted(found)] == [message(n) for n in range(messages)], "each message is stored once")
        row(
            f"{messages:,} messages under five queries, {done} kills ({kinds[0]} of the daemon, {kinds[1]} of the program, {kinds[2]} of both)",
            f"{len(found):,} messages stored, {delivered:,} delivered; {wrong} wrong; {time.monotonic() - began:.0f} s",
        )


# Speed


def alone(at, messages):
    """Seconds and processor seconds of the program alone, from its start to its end."""
    parts = [stored_text(it).mbox for it in messages]
    with open(f"{at}/script", "wb") as file:
        file.write(b"at %d\n" % time.time())
        size, block = 0, []
        for part in [*parts, None]:
            if part is None or size + len(part) > 16_000_000:
                file.write(mbox_of(block))
                size, block = 0, []
            if part is not None:
                block.append(part)
                size += len(part)
    before, began = resource.getrusage(resource.RUSAGE_CHILDREN), time.monotonic()
    with open(f"{at}/script", "rb") as file:
        done = subprocess.run([PROGRAM, "--store", f"{at}/alone"], stdin=file, stdout=subprocess.PIPE)
    seconds, after = time.monotonic() - began, resource.getrusage(resource.RUSAGE_CHILDREN)
    expect(done.returncode == 0 and b" docs %d 1\n" % len(messages) in done.stdout, "the program alone")
    return seconds, after.ru_utime + after.ru_stime - before.ru_utime - before.ru_stime


def from_spool(at, messages):
    """The same of the service, from its readiness to the last message's leaving the spool."""
    it = Service(at, PROGRAM, USER)
    for n, text in enumerate(messages):
        with open(f"{it.spool}/new/{n:08d}.test", "wb") as file:
            file.write(text)
    it.start(is_ready=False)
    new = f"{it.spool}/new"
    while "ready:" not in it.said():
        time.sleep(0.002)
    pids = [it.process.pid, *it.children()]
    began, before = time.monotonic(), cpu_of(pids)
    while any(os.scandir(new)):
        time.sleep(0.01)
    seconds, cpu = time.monotonic() - began, cpu_of(pids) - before
    expect(it.stop() == 0, "the service ended in order")
    expect(stored(it.store) == {n + 1: text for n, text in enumerate(messages)}, "each message of the spool is stored once")
    return seconds, cpu


def rate():
    count, times = number("SPOOL", 10_000), number("TIMES", 3)
    messages = [message(n, 1000) for n in range(count)]
    figures = {"alone": [], "spool": []}
    for _ in range(times):
        for how, measured in (("alone", alone), ("spool", from_spool)):
            with folder() as at:
                figures[how].append(measured(at, messages))
    by = {how: [statistics.median(it) for it in zip(*figures[how])] for how in figures}
    for how, what in (("alone", "the program alone, from a script of `mbox` blocks"), ("spool", "the service, from the spool")):
        seconds, cpu = by[how]
        row(f"{count:,} messages of 1 KB: {what}", f"{count / seconds:,.0f} a second", f"{1e6 * cpu / count:.0f} us of the processor each")
    seconds, cpu = (by["alone"][place] / by["spool"][place] for place in (0, 1))
    goal = "met" if seconds >= 0.5 else "not met"
    row("the service beside the program alone", f"{seconds:.2f} of its messages a second; goal 0.5: {goal}", f"{cpu:.2f} in a second of the processor")


def update():
    """What one more mail costs, from the spool to one maildir, under 1, 10 and 50 queries of which each gives it."""
    count = number("MAILS", 2000)
    for queries in (1, 10, 50):
        with folder() as at:
            rules = USER + "".join(f"deliver ann q{n} maildir {at}/q{n}\n" for n in range(queries))
            with service(at, rules) as it:
                for n in range(queries):
                    it.once(f"query q{n} m.words HAS 'words'\n".encode())
                for n in range(count):
                    it.put(message(n, 1000))
                last = f"{at}/q{queries - 1}/new"
                wait_until(lambda: all(len(names_in(f"{at}/q{n}")) == count for n in range(queries)), "all are delivered", 120)
                pids = [it.process.pid, *it.children()]
                # What is left to do of these mails isn't part of the next one.
                before = -1.0
                while cpu_of(pids) > before:
                    before = cpu_of(pids)
                    time.sleep(1.0)
                rounds, waits = 10, []
                for n in range(rounds):
                    began = time.monotonic()
                    it.put(message(count + n, 1000))
                    wait_until(lambda: len(os.listdir(last)) == count + n + 1, "it is delivered", 30)
                    waits.append(time.monotonic() - began)
                row(
                    f"one more mail, {count:,} stored, {queries} {'query' if queries == 1 else 'queries'} that each deliver it",
                    f"{1000 * (cpu_of(pids) - before) / rounds:.1f} ms of the processor",
                    f"in the last maildir after {statistics.median(waits):.1f} s",
                )


def lei():
    if shutil.which("lei") is None:
        print("service: lei isn't here: apt install lei", file=sys.stderr)
        return
    count = number("MAILS", 2000)
    with folder() as at:
        environment = {**os.environ, "HOME": at, "XDG_RUNTIME_DIR": at, "LANG": "C.UTF-8"}

        def run(*words):
            before, began = resource.getrusage(resource.RUSAGE_CHILDREN), time.monotonic()
            subprocess.run(["lei", *words], env=environment, stdout=subprocess.DEVNULL, stderr=subprocess.PIPE, check=True, cwd=at)
            return time.monotonic() - began

        def mails(path, numbers):
            for part in ("tmp", "new", "cur"):
                os.makedirs(f"{path}/{part}", exist_ok=True)
            for n in numbers:
                with open(f"{path}/cur/{n:08d}.test:2,S", "wb") as file:
                    file.write(message(n, 1000))

        try:
            mails(f"{at}/in", range(count))
            run("import", "--no-incremental", f"maildir:{at}/in")
            mails(f"{at}/in2", range(count, 2 * count))
            seconds = run("import", f"maildir:{at}/in2")
            row(f"lei: {count:,} more mails imported", f"{1000 * seconds / count:.2f} ms a mail")
            # An import returns before the mails can be found.
            for n in range(60):
                run("q", "-q", "-o", f"maildir:{at}/out{n}", "s:message")
                out = f"{at}/out{n}"
                if len(names_in(out)) == 2 * count:
                    break
                time.sleep(1)
            expect(len(names_in(out)) == 2 * count, f"lei finds all: {len(names_in(out))}")
            waits = []
            for n in range(5):
                mails(f"{at}/one{n}", [2 * count + n])
                run("import", f"maildir:{at}/one{n}")
                for _ in range(60):
                    wait = run("up", "-q", out)
                    if len(names_in(out)) == 2 * count + n + 1:
                        break
                    time.sleep(1)
                waits.append(wait)
            expect(len(names_in(out)) == 2 * count + 5, "lei finds the new ones")
            row(f"lei: one saved search brought up to date, {2 * count:,} mails stored", f"{1000 * statistics.median(waits):.0f} ms")
        finally:
            subprocess.run(["lei", "daemon-kill"], env=environment, stderr=subprocess.DEVNULL)


# Clients


def clients():
    count, rounds = number("CLIENTS", 100), 10
    with folder() as at, service(at) as it:
        talk = it.talk()
        talk.line(b"query q m.words HAS 'words'\n")
        talk.line(b"mail\nwords\n.\n")
        # Three who do harm: one stops within a block, one never ends its line, one doesn't read what it asks for.
        stalled, flood, deaf = it.talk(), it.talk(), it.talk()
        stalled.socket.sendall(b"mail\nhalf a message\n")
        flooding = threading.Thread(target=lambda: _send_all(flood.socket, b"x" * 65536, 64), daemon=True)
        flooding.start()
        deaf.socket.setblocking(False)
        for _ in range(2000):
            with contextlib.suppress(BlockingIOError):
                deaf.socket.send(b"explain q\n" * 10)
        took, documents, notes, wrong = [], [], [], []

        def client(n):
            try:
                mine = it.talk()
                for number_of in range(rounds):
                    for data in (
                        b"mail\n" + stored_text(message(n * rounds + number_of)).mail[5:],
                        b"note 1 score %d by client %d\n" % (number_of, n),
                        b"wake q\n",
                    ):
                        began = time.monotonic()
                        reply = mine.say(data)
                        took.append(time.monotonic() - began)
                        if not reply.ok:
                            wrong.append(reply.first)
                        elif reply.words.startswith("doc "):
                            documents.append(int(reply.words.split()[1]))
                        elif reply.words.startswith("note "):
                            notes.append(int(reply.words.split()[1]))
                mine.close()
            except OSError as error:
                wrong.append(str(error))

        threads = [threading.Thread(target=client, args=(n,)) for n in range(count)]
        began = time.monotonic()
        for thread in threads:
            thread.start()
        for thread in threads:
            thread.join()
        seconds = time.monotonic() - began
        total = count * rounds
        expect(not wrong, f"a client was refused: {wrong[:3]}")
        expect(sorted(documents) == list(range(2, total + 2)), "each mail of a client is stored once")
        expect(sorted(notes) == list(range(1, total + 1)), "each note of a client is stored once")
        for bad in (stalled, flood, deaf):
            bad.socket.close()
        talk.close()
        expect(it.stop() == 0, "the service ended in order")
        found = stored(it.store)
        expect(sorted(list(found.values())[1:]) == sorted(message(n) for n in range(total)), "their bytes")
        row(
            f"{count} clients at once, {3 * rounds} commands each, beside three that stall, flood and don't read",
            f"{3 * total / seconds:,.0f} commands a second; a reply after {1000 * statistics.median(took):.0f} ms, "
            f"the last after {1000 * max(took):.0f} ms; {len(wrong)} refused",
        )


def _send_all(connection, data, times):
    with contextlib.suppress(OSError):
        for _ in range(times):
            connection.sendall(data)


# A clock that falls


def clock():
    with folder() as at:
        file = f"{at}/clock"

        def set_clock(second):
            with open(file + ".part", "w") as out:
                out.write(str(second))
            os.rename(file + ".part", file)

        set_clock(800_000_000)
        with open(f"{at}/clocked.py", "w") as out:
            out.write(CLOCKED.format(service=os.path.join(TOP, "service"), clock=file))
        rules = USER + f"deliver ann q maildir {at}/q\ndeliver ann late maildir {at}/late\n"
        with service(at, rules, script=f"{at}/clocked.py") as it:
            it.once(b"query q m.words HAS 'words'\n")
            it.once(b"query late NOW >= m.ts + 10 SECONDS\n")
            put = 0
            # Forward, an hour back, a restart there, on again, and a fall to 1970.
            for second, again in ((800_000_001, 0), (799_996_400, 0), (799_996_401, 1), (800_000_002, 0), (5, 1), (800_000_003, 0)):
                set_clock(second)
                if again:
                    expect(it.stop() == 0, "the service ended in order")
                    it.start()
                for _ in range(10):
                    it.put(message(put))
                    put += 1
                it.wait_empty()
            for second in (800_000_010, 800_000_020):
                set_clock(second)
                time.sleep(0.2)
                it.put(message(put))
                put += 1
                it.wait_empty()
            set_clock(800_000_040)
            # The loop looks at a clock that was set at each event.
            it.once(b"wake late\n")
            for name in ("q", "late"):
                wait_until(lambda: len(names_in(f"{at}/{name}")) >= put, f"{name} is whole", 60)
            boxes = [box_of(it, name) for name in ("q", "late")]
            expect(it.stop() == 0, "the service ended in order")
        for name, box in zip(("q", "late"), boxes):
            numbers = sorted(document_of(file) for _, file in names_in(f"{at}/{name}"))
            expect(numbers == box == list(range(1, put + 1)), f"the maildir of {name}")
        expect(stored(f"{at}/store") == {n + 1: message(n) for n in range(put)}, "each message is stored once")
        row("a clock that falls by an hour, and to 1970, each time over a restart", f"{put} of {put} messages stored and delivered once")


# A full disk


def disk():
    if os.geteuid() != 0:
        print("service: disk mounts a small file system, and wants root", file=sys.stderr)
        return
    with folder() as at:
        os.mkdir(f"{at}/small")
        done = subprocess.run(["mount", "-t", "tmpfs", "-o", "size=2m", "tmpfs", f"{at}/small"], stderr=subprocess.PIPE)
        if done.returncode != 0:
            print(f"service: disk: {done.stderr.decode().strip()}", file=sys.stderr)
            return
        try:
            os.mkdir(f"{at}/small/boxes")
            with service(f"{at}/small", USER + f"deliver ann q maildir {at}/small/boxes/q\n") as it:
                it.once(b"query q m.words HAS 'words'\n")
                put, full = 0, 0
                # Whoever delivers tries again, as mail servers do.
                while full < 200:
                    try:
                        it.put(message(put, 4000), f"{put:08d}.test")
                        put += 1
                    except OSError:
                        full += 1
                        with contextlib.suppress(OSError):
                            os.unlink(f"{it.spool}/tmp/{put:08d}.test")
                    time.sleep(0.01)
                before = len(names_in(f"{at}/small/boxes/q"))
                said = it.said()
                expect("room" in said, "the log says that there is no room")
                expect(it.process.poll() is None, "the service still runs")
                subprocess.run(["mount", "-o", "remount,size=64m", f"{at}/small"], check=True)
                for _ in range(10):
                    it.put(message(put, 4000), f"{put:08d}.test")
                    put += 1
                it.wait_empty(120)
                wait_until(lambda: len(names_in(f"{at}/small/boxes/q")) >= put, "all are delivered", 120)
                time.sleep(0.5)
                expect(it.stop() == 0, "the service ended in order")
            numbers = sorted(document_of(file) for _, file in names_in(f"{at}/small/boxes/q"))
            expect(numbers == list(range(1, put + 1)), "each is delivered once")
            expect(stored(f"{at}/small/store") == {n + 1: message(n, 4000) for n in range(put)}, "each is stored once")
            row("store, spool and maildir on a disk of 2 MiB that gets full, then has room", f"{before} delivered on the full disk; at the end {put} of {put} stored and delivered once")
        finally:
            subprocess.run(["umount", f"{at}/small"])


# Mail programs


@contextlib.contextmanager
def delivered_maildir(count):
    """A maildir that the service delivered, of the login nobody if we are root: dovecot serves no mail of root's."""
    with folder() as at:
        for path in ("Maildir/.words", "Maildir"):
            for part in ("tmp", "new", "cur"):
                os.makedirs(f"{at}/{path}/{part}")
        if os.geteuid() == 0:
            # What comes into these folders gets their group, which may read it.
            for path, _, _ in os.walk(f"{at}/Maildir"):
                os.chown(path, *NOBODY)
                os.chmod(path, 0o2770)
        with service(at, USER + f"deliver ann q maildir {at}/Maildir/.words\n") as it:
            it.once(b"query q m.words HAS 'words'\n")
            for n in range(count):
                it.put(message(n))
            new = f"{at}/Maildir/.words/new"
            wait_until(lambda: len(os.listdir(new)) == count, "all are delivered", 120)
            yield at, it


DOVECOT = """
base_dir = {at}/run
state_dir = {at}/run
log_path = {at}/dovecot.log
protocols = imap
listen = 127.0.0.1
ssl = no
disable_plaintext_auth = no
auth_mechanisms = plain login
mail_location = maildir:{at}/Maildir
first_valid_uid = 1
service imap-login {{
  inet_listener imap {{
    port = {port}
  }}
  inet_listener imaps {{
    port = 0
  }}
}}
passdb {{
  driver = static
  args = password={password}
}}
userdb {{
  driver = static
  args = uid={uid} gid={gid} home={at}
}}
namespace inbox {{
  inbox = yes
  separator = .
}}
"""


@contextlib.contextmanager
def dovecot_server(at):
    """A server of dovecot at a port of this machine alone, over the mail of the login nobody; gives the port and the password."""
    password = os.urandom(8).hex()
    with socket.socket() as free:
        free.bind(("127.0.0.1", 0))
        port = free.getsockname()[1]
    with open(f"{at}/dovecot.conf", "w") as file:
        file.write(DOVECOT.format(at=at, port=port, password=password, uid=NOBODY[0], gid=NOBODY[1]))
    server = subprocess.Popen(["/usr/sbin/dovecot", "-F", "-c", f"{at}/dovecot.conf"], stderr=subprocess.DEVNULL)
    try:
        wait_until(lambda: server.poll() is not None or answers(port), "dovecot answers", 60)
        expect(server.poll() is None, "dovecot runs")
        yield port, password
    finally:
        server.terminate()
        server.wait()


def answers(port):
    with contextlib.suppress(OSError), socket.create_connection(("127.0.0.1", port), 5) as talk:
        return talk.recv(100).startswith(b"* OK")
    return False


def messages_in(talk, box):
    """The messages of a folder by their Message-IDs: flags, bytes and UID of each. One that is there twice is wrong."""
    state, found = talk.select(box)
    if not expect(state == "OK", f"dovecot has the folder {box}: {found}") or found == [b"0"]:
        return {}
    state, data = talk.fetch("1:*", "(UID FLAGS BODY.PEEK[])")
    messages = {}
    for part in data:
        if isinstance(part, tuple):
            text = part[1].replace(b"\r\n", b"\n")
            name = int(re.search(rb"^Message-ID: <(\d+)@", text, re.MULTILINE)[1])
            expect(name not in messages, f"message {name} is once in {box}")
            uid = re.search(rb"UID (\d+)", part[0])[1].decode()
            messages[name] = (set(imaplib.ParseFlags(part[0])) - {b"\\Recent"}, text, uid)
    return messages


def dovecot():
    if not os.access("/usr/sbin/dovecot", os.X_OK) or not os.access("/usr/lib/dovecot/imap", os.X_OK):
        print("service: dovecot isn't here: apt install dovecot-imapd", file=sys.stderr)
        return
    if os.geteuid() != 0:
        print("service: dovecot's server wants root", file=sys.stderr)
        return
    count = 500
    with delivered_maildir(count) as (at, it), dovecot_server(at) as (port, password):
        began = time.monotonic()
        words = f"{at}/Maildir/.words"

        def login():
            talk = imaplib.IMAP4("127.0.0.1", port, 60)
            talk.login("ann", password)
            return talk

        try:
            imaplib.IMAP4("127.0.0.1", port, 60).login("ann", "another")
            expect(False, "dovecot refuses a wrong password")
        except imaplib.IMAP4.error:
            pass
        talk = login()
        found = messages_in(talk, "words")
        expect({n: it[1] for n, it in found.items()} == {n: message(n) for n in range(count)}, "dovecot gives each message's bytes")
        expect(not any(it[0] for it in found.values()), "none has a flag")

        def uids(numbers):
            return ",".join(found[n][2] for n in numbers)

        # It marks some, moves some to another folder and deletes some; the files go from new to cur.
        talk.uid("STORE", uids(range(100)), "+FLAGS", "(\\Seen)")
        talk.uid("STORE", uids(range(50, 100)), "+FLAGS", "(\\Flagged \\Answered)")
        talk.create("kept")
        talk.uid("MOVE", uids(range(100, 150)), "kept")
        talk.uid("STORE", uids(range(count - 100, count)), "+FLAGS", "(\\Deleted)")
        talk.expunge()
        talk.logout()
        # Meanwhile more mail comes, and the service is killed and begins anew.
        for n in range(count, count + 20):
            it.put(message(n))
        it.kill_program()
        it.kill()
        it.start()
        it.wait_empty()
        wait_until(lambda: it.once(b"box q\n").startswith(f"ok {count + 20} "), "they are in the box", 30)
        wait_until(lambda: len(names_in(words)) >= count - 150 + 20, "they are delivered", 30)
        time.sleep(1.5)
        talk = login()
        found, kept = messages_in(talk, "words"), messages_in(talk, "kept")
        numbers = [*range(100), *range(150, count - 100), *range(count, count + 20)]
        flags = {n: {b"\\Seen"} if n < 50 else {b"\\Seen", b"\\Flagged", b"\\Answered"} if n < 100 else set() for n in numbers}
        expect({n: it[:2] for n, it in found.items()} == {n: (flags[n], message(n)) for n in numbers}, "each is there once, with its flags")
        expect({n: it[1] for n, it in kept.items()} == {n: message(n) for n in range(100, 150)}, "what was moved is there")
        with_flags = [name for part, name in names_in(words) if part == "cur" and "S" in name.split(":2,")[-1]]
        expect(len(with_flags) == 100, "the flags are in the names of cur")
        talk.logout()
        row(
            f"dovecot, a server with a login, {count} messages and 20 after a kill",
            f"each once, byte for byte; 100 with flags in `cur`, 50 moved to another folder, 100 deleted, and none of them comes again; "
            f"{time.monotonic() - began:.0f} s",
        )


def mutt():
    if shutil.which("mutt") is None:
        print("service: mutt isn't here: apt install mutt", file=sys.stderr)
        return
    count = 500
    with delivered_maildir(count) as (at, _):
        with open(f"{at}/muttrc", "w") as file:
            file.write("set folder={at} wait_key=no confirmappend=no confirmcreate=no quit=yes delete=no mark_old=no move=no\nset mbox_type=mbox\n")
        keys = f"<tag-pattern>~A<enter><tag-prefix><copy-message>{at}/copy<enter><quit>"
        began = time.monotonic()
        words = ["mutt", "-n", "-F", f"{at}/muttrc", "-f", f"{at}/Maildir/.words", "-e", f'push "{keys}"']
        child, terminal = pty.fork()
        if child == 0:
            os.environ.update({"TERM": "vt100", "HOME": at, "MAIL": "/dev/null"})
            os.execvp(words[0], words)
        shown = b""
        with contextlib.suppress(OSError):
            while time.monotonic() - began < 120 and select.select([terminal], [], [], 60)[0]:
                piece = os.read(terminal, 65536)
                if not piece:
                    break
                shown += piece
        with contextlib.suppress(OSError):
            os.kill(child, signal.SIGKILL)
        os.waitpid(child, 0)
        with open(f"{at}/copy", "rb") as file:
            # mutt quotes no line that can't begin a message, and `From here` can't.
            copied = re.split(rb"^From \S+ +\w{3} \w{3} +\d.*\n", file.read(), flags=re.MULTILINE)[1:]
        # mutt adds fields of its own to a message that it copies.
        numbers = sorted(int(re.search(rb"^Message-ID: <(\d+)@", it, re.MULTILINE)[1]) for it in copied)
        bodies = {it.split(b"\n\n", 1)[1].rstrip(b"\n") for it in copied}
        expect(numbers == list(range(count)), f"mutt copies each message: {len(numbers)}; {shown[-300:]!r}")
        expect(bodies == {message(n).split(b"\n\n", 1)[1].rstrip(b"\n") for n in range(count)}, "mutt gives each body")
        row("mutt", f"{len(numbers)} of {count} messages, each body as it was put; {time.monotonic() - began:.1f} s")


PARTS = {it.__name__: it for it in (kills, rate, update, clients, clock, disk, dovecot, mutt, lei)}

if __name__ == "__main__":
    parts = [it for it in sys.argv[1:] if it != "all"]
    parts = list(PARTS) if "all" in sys.argv or not parts else parts
    for part in parts:
        if part not in PARTS:
            sys.exit(f"service: {part} is none of all {' '.join(PARTS)}")
    row("`service.sh`", "Result", "")
    row("---", "---", "---")
    for part in parts:
        PARTS[part]()
    sys.exit(1 if WRONG else 0)
