#!/usr/bin/env python3
"""What bench/pop.sh needs to know of messages and of POP3.

  bench/pop.py script N              a script with N messages and a run that delivers all of them
  bench/pop.py wanted N FOLDER       writes these messages into a folder, as digest.py makes them
  bench/pop.py same N FOLDER [no-cr]  says whether a folder has these messages, whatever the names and line ends, or any CR
  bench/pop.py fetch PORT FOLDER     fetches all messages by the module poplib
  bench/pop.py password|hangup|long|two PORT    one trial; the status is 0 if all went as it should
  bench/pop.py title TRIAL           what the trial is
"""

import collections
import os
import poplib
import re
import socket
import sys
import time

from digest import lined, messages, pieces

TITLES = {
    "password": "a wrong password",
    "hangup": "a client that hangs up within a message",
    "long": "a line of 1 MiB",
    "two": "two clients at once",
}


def script(count):
    out = sys.stdout.buffer
    out.write(b"at 1000\nas ann\nquery all TRUE\n")
    for text in letters(count):
        out.write(b"mail\n" + b"".join((b"." if it.startswith(b".") else b"") + it + b"\n" for it in pieces(text)) + b".\n")
    out.write(b"at 2000\nrun all\n")


def letters(count):
    """Messages of all forms; those without a header or with a line `From ` first, which clients alter, are left out."""
    found = [it for it in messages(2 * count) if re.match(rb"From: ", it)]
    return found[:count]


def plain(text):
    """A text by its lines, without what clients leave out or add at its end."""
    return lined(text).rstrip(b"\n")


def same(count, folder, without=b""):
    wanted = collections.Counter(plain(it).replace(without, b"") if without else plain(it) for it in letters(count))
    found = collections.Counter()
    for name in os.listdir(folder):
        with open(os.path.join(folder, name), "rb") as it:
            text = plain(it.read())
        found[text.replace(without, b"") if without else text] += 1
    differ = sum((wanted - found).values()) + sum((found - wanted).values())
    print(f"{sum(found.values())} of {count} messages, {differ} differ")
    return 1 if differ else 0


def login(port):
    client = poplib.POP3("127.0.0.1", port, timeout=60)
    client.user("ann")
    client.pass_("secret")
    return client


def fetch(port, folder):
    client = login(port)
    count, size = client.stat()
    ids = [it.split()[1].decode() for it in client.uidl()[1]]
    total = 0
    for i in range(1, count + 1):
        _, lines, octets = client.retr(i)
        text = b"".join(it + b"\r\n" for it in lines)
        total += len(text)
        with open(os.path.join(folder, ids[i - 1]), "wb") as it:
            it.write(text)
    client.quit()
    if total != size or len(set(ids)) != count:
        print(f"STAT said {size} bytes, {total} were sent", file=sys.stderr)
        return 1
    return 0


def talk(port):
    stream = socket.create_connection(("127.0.0.1", port), timeout=60)
    lines = stream.makefile("rb")
    return stream, lines, lines.readline()


def password(port):
    client = poplib.POP3("127.0.0.1", port, timeout=60)
    client.user("ann")
    try:
        client.pass_("wrong")
        return 1
    except poplib.error_proto as error:
        print(error.args[0].decode())
    client.user("ann")
    client.pass_("secret")
    count = client.stat()[0]
    client.quit()
    return 0 if count else 1


def hangup(port):
    stream, lines, _ = talk(port)
    stream.sendall(b"USER ann\r\nPASS secret\r\n" + b"".join(b"RETR %d\r\n" % i for i in range(1, 100)))
    for _ in range(5):
        lines.readline()
    stream.setsockopt(socket.SOL_SOCKET, socket.SO_LINGER, b"\1\0\0\0\0\0\0\0")
    lines.close()
    stream.close()
    # The store is free again once the session has seen it.
    for _ in range(100):
        try:
            client = login(port)
            client.quit()
            return 0
        except (poplib.error_proto, OSError):
            time.sleep(0.05)
    return 1


def long(port):
    stream, lines, _ = talk(port)
    stream.sendall(b"x" * 1_048_576 + b"\r\nUSER ann\r\nPASS secret\r\nSTAT\r\nQUIT\r\n")
    answers = [lines.readline().strip().decode() for _ in range(5)]
    print(", ".join(answers))
    return 0 if answers[0] == "-ERR long" and answers[1:3] == ["+OK", "+OK"] and answers[3].startswith("+OK ") else 1


def two(port):
    first = login(port)
    _, lines, greeting = talk(port)
    print("the second was told " + repr(greeting.decode()))
    rest = lines.read()
    count = first.stat()[0]
    first.quit()
    return 0 if count and greeting.startswith(b"-ERR") and not rest else 1


def main(words):
    match words:
        case ["script", count]:
            return script(int(count))
        case ["wanted", count, folder]:
            for number, text in enumerate(letters(int(count))):
                with open(os.path.join(folder, str(number)), "wb") as it:
                    it.write(lined(text))
            return 0
        case ["same", count, folder]:
            return same(int(count), folder)
        case ["same", count, folder, "no-cr"]:
            return same(int(count), folder, b"\r")
        case ["fetch", port, folder]:
            return fetch(int(port), folder)
        case ["title", trial]:
            print(TITLES[trial])
            return 0
        case ["password" | "hangup" | "long" | "two" as trial, port]:
            return globals()[trial](int(port))
        case _:
            sys.exit(__doc__)


if __name__ == "__main__":
    sys.exit(main(sys.argv[1:]))
