#!/usr/bin/env python3
"""Makes messages, and says whether a digest of them, read as a mailbox, has these messages.

  bench/digest.py make N > SCRIPT           a script with N messages, one run over them and the digest of that run
  bench/digest.py mailbox < REPLIES         the messages of the digest, in mbox form
  bench/digest.py read N MAILBOX            the module mailbox reads the mailbox
  bench/digest.py split N FOLDER            the folder has a file for each message, named by its number, from 0

The last two print how many messages and bytes were read and in how many messages a byte differs. The status is 1 if one
does, or if a message is missing. The same N makes the same messages.
"""

import mailbox
import os
import random
import re
import sys

START = 1_000_000_000
WORDS = b"the budget figures of next year are in draft and lunch is at twelve unless somebody minds".split()
LINES = [
    b"From here on it gets better.",
    b"From bob@example.org Mon Jun  1 10:00:00 1992",
    b"From doc 1 first 2",
    b">From there it went down.",
    b">>From afar",
    b">From",
    b"From: nobody",
    b" From the margin",
    b"> quoted > twice",
    b".",
    b"..",
    b".sig",
    b"-- ",
    b"\tindented",
    b"a CR \r within",
    "Grüße aus Zürich, 10 €".encode(),
    b"caf\xe9 in Latin-1, and \xff\xfe",
    b"",
    b"",
]
ENDS = [b"\n", b"\n", b"\n", b"\r\n", b"\r\r\n"]


def prose(rand):
    return b" ".join(rand.choice(WORDS) for _ in range(rand.randint(3, 14)))


def header(rand, number):
    yield b"From: sender%d@example.org" % rand.randint(1, 40)
    yield b"To: list@example.org"
    yield b"Subject: " + (b"Stra\xdfe " if rand.random() < 0.2 else b"") + prose(rand)
    yield b"Message-ID: <%d@example.org>" % number
    yield b"Date: Mon, 1 Jun 1992 10:%02d:%02d +0000" % (number // 60 % 60, number % 60)
    if rand.random() < 0.3:
        yield b"References: <%d@example.org>\r\n <%d@example.org>" % (number - 1, number - 2)
    yield b""


def message(rand, number):
    """One message as it may come: any line ends, with or without a last newline, with or without a body or a header."""
    kind = rand.random()
    if kind < 0.01:
        return b""
    if kind < 0.02:
        return b"\n" * rand.randint(1, 4)
    lines = list(header(rand, number)) if kind < 0.95 else []
    if kind < 0.85:
        lines += [rand.choice(LINES) if rand.random() < 0.4 else prose(rand) for _ in range(rand.randint(1, 40))]
    if rand.random() < 0.05:
        lines.insert(0, b"From sender Mon Jun  1 10:00:00 1992")
    end = rand.choice(ENDS)
    text = b"".join(line + end for line in lines)
    return text[: len(text) - len(end)] if rand.random() < 0.2 else text


def messages(count):
    rand = random.Random(19)
    return [message(rand, number) for number in range(count)]


def pieces(text):
    """The lines of a text without their LFs."""
    parts = text.split(b"\n")
    return parts if parts[-1] else parts[:-1]


def lined(text):
    """A text by its lines: no CR at a line's end, and an LF after each."""
    return b"".join(line.rstrip(b"\r") + b"\n" for line in pieces(text))


def make(count):
    out = sys.stdout.buffer
    out.write(b"at %d\nas ann\nquery all TRUE\n" % START)
    for number, text in enumerate(messages(count)):
        if number % 100 == 99:
            out.write(b"at %d\n" % (START + number))
        out.write(b"mail\n")
        for line in pieces(text):
            out.write((b"." if line.startswith(b".") else b"") + line + b"\n")
        out.write(b".\n")
    out.write(b"at %d\nrun all\ndigest all 1\n" % (START + count))


def digest_lines(replies):
    """The lines of the first digest among the replies. The lines that follow a reply are counted in its second word."""
    lines = iter(pieces(replies))
    for line in lines:
        words = line.split(b" ")
        below = [next(lines) for _ in range(int(words[1]))] if words[0] == b"ok" else []
        if words[0] == b"ok" and words[2] == b"digest":
            return below
    sys.exit("digest: no digest is among the replies")


def put_mailbox():
    lines = digest_lines(sys.stdin.buffer.read())
    for line in lines[lines.index(b"") + 1 :]:
        sys.stdout.buffer.write(line + b"\n")


def unquoted(text):
    """A message's text without the `>` that was put before a `From ` line."""
    return re.sub(rb"^>(>*From )", rb"\1", text, flags=re.MULTILINE)


def compare(what, count, found):
    wanted = [lined(text) for text in messages(count)]
    found = [unquoted(text) for text in found]
    differ = sum(a != b for a, b in zip(wanted, found)) + abs(len(wanted) - len(found))
    quoted = sum(len(re.findall(rb"^>*From ", text, flags=re.MULTILINE)) for text in wanted)
    size = sum(map(len, found))
    print(f"  {what}: {len(found)} of {count} messages, {size} bytes, {quoted} lines that were quoted, {differ} messages differ")
    return 1 if differ else 0


def read(count, path):
    box = mailbox.mbox(path, create=False)
    return compare("Python's mailbox", count, [box.get_bytes(key) for key in box.iterkeys()])


def split(count, folder):
    found = []
    for name in sorted(os.listdir(folder), key=int):
        with open(os.path.join(folder, name), "rb") as file:
            text = file.read()
        # Without the line that begins the message and the empty line that ends it.
        found.append(text[text.index(b"\n") + 1 : -1])
    return compare("formail", count, found)


def main(words):
    match words:
        case ["make", count]:
            make(int(count))
        case ["mailbox"]:
            put_mailbox()
        case ["read", count, path]:
            return read(int(count), path)
        case ["split", count, folder]:
            return split(int(count), folder)
        case _:
            sys.exit(__doc__)
    return 0


if __name__ == "__main__":
    sys.exit(main(sys.argv[1:]))
