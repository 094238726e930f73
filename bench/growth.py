#!/usr/bin/env python3
"""Measures how the time of hostile input grows, from a size to four times that size.

  bench/growth.py PROGRAM [COLLIDE]

Each line is one shape: the bytes of the large input, the processor time of both, and the time of the large one by that of the small
one. Four, and a little for a logarithm, is as it should be. COLLIDE is the program of bench/collide.c. LIMIT is the most seconds of
one input, SHAPES texts with | between them, of which the name of a shape has one.
"""

import os
import subprocess
import sys

from shapes import LIMIT, Session, TooLong, is_chosen

MIB = 1_048_576


def block(head, lines, size=None):
    """A block of these lines, cut to so many bytes."""
    text = "\n".join(lines)
    return f"{head}\n{text if size is None else text[:size]}\n.\n"


def one_message_mbox(n):
    return block("mbox", ["From a", "Subject: long", "", *["some text that fills a line of this message up"] * (n // 47)])


def many_messages_mbox(n):
    return block("mbox", [line for i in range(n) for line in ("From a", f"Subject: {i}", "", "text " * 40, "")])


def one_word(n):
    return block("mail", ["", "w" * n])


def distinct_words(n):
    return block("mail", ["", *[f"w{i:06}" for i in range(n)]])


def folded_line(n):
    return block("mail", ["Subject: a", *[" some txt"] * n, "", "text"])


def many_addresses(n):
    return block("mail", ["To: " + ",".join(f"u{i}@ab" for i in range(n)), "", "text"])


def many_references(n):
    return block("mail", ["References:" + "".join(f" <{i:05}>" for i in range(n)), "", "text"])


def many_fields(n):
    return block("mail", [*[f"X-{i}: some value" for i in range(n)], "", "text"])


def dots(n):
    return block("mail", ["", *[".."] * n])


def carriage_returns(n):
    return block("mail", ["Subject: a" + "\r" * n, "", "\r" * n])


def short_commands(n):
    return "".join(f"at {1000 + i}\n" for i in range(n))


def without_form(n):
    return "at\n" * n


def mails(n):
    """So many mails of one word each, a second apart, with a reply each fourth, and a note each fifth."""
    lines = ["at 1000\nas ann\n"]
    for i in range(1, n + 1):
        reply = f"In-Reply-To: <{i - 1}@example.org>\n" if i % 4 == 0 else ""
        lines.append(f"at {1000 + i}\nmail\nFrom: sender{i % 10}@example.org\nMessage-ID: <{i}@example.org>\n{reply}\nword{i % 50}\n.\n")
        if i % 5 == 0:
            lines.append(f"note {i} score 3 fine\n")
    return "".join(lines)


def mails_of_one_subject(n, seconds=1):
    """So many mails of one subject, so many seconds apart."""
    return "at 1000\nas ann\n" + "".join(f"at {1000 + seconds * i}\nmail\nSubject: one\n\nyes\n.\n" for i in range(1, n + 1))


def mails_of_one_second(n):
    return mails_of_one_subject(n, 0)


def mails_of_one_id(n):
    """A hundredth as many mails of one id."""
    return "mail\nMessage-ID: <a@ab>\n\nyes\n.\n" * (n // 100)


def mails_of_one_sender(n):
    """A hundredth as many mails of one sender."""
    return "mail\nFrom: x@x\n\nyes\n.\n" * (n // 100)


def asked(text):
    """A query is defined, run and explained."""
    return f"at 300000000\nquery q {text}\nrun q\nexplain q\nwake q\n"


def repeated_reference(n):
    """A mail that has one reference so many times, and a query that looks at the mails it names."""
    return block("mail", ["References:" + " <a@ab>" * n, "", "text"]) + asked("EXISTS (r: DOC WHERE m.references HAS r.msgid AND r.from = 'x@x')")


def repeated_address(n):
    """A mail that has one address so many times, and a query that looks at the mails of that sender."""
    return block("mail", ["To: " + ",\n ".join(["x@x"] * n), "", "text"]) + asked("EXISTS (r: DOC WHERE m.to HAS r.from AND NOT r.words HAS 'yes')")


def nested(n):
    return "".join(f"NOT (m.subject <> '{'x' * 300}' AND " for _ in range(n)) + "TRUE" + ")" * n


def nots_in_one_another(n):
    text = ["TRUE"]
    for this, outer in reversed(list(zip("abcde"[:n], "mabcd"))):
        text.insert(0, f"NOT EXISTS ({this}: DOC WHERE {this}.inreplyto = {outer}.msgid AND {this}.ts < NOW - 1 HOUR AND ")
        text.append(")")
    return "".join(text)


def nots_in_a_row(n):
    return " AND ".join(f"NOT EXISTS ({it}: DOC WHERE {it}.inreplyto = m.msgid AND {it}.ts < NOW - 1 HOUR)" for it in "abcde"[:n])


def ands_of_ors(n):
    return " AND ".join(f"(NOW >= m.ts + {i + 1} HOURS OR NOW < m.ts + {i} HOURS)" for i in range(n))


def nots_of_ands_of_ors(n):
    inner = " AND ".join(f"(NOW >= a.ts + {i + 1} HOURS OR NOT NOW < m.ts + {i} HOURS)" for i in range(n))
    return f"NOT EXISTS (a: DOC WHERE a.inreplyto = m.msgid AND NOT ({inner}))"


def or_of_times(n):
    return " OR ".join(f"(NOW >= m.ts + {i + 1} HOURS AND NOW < m.ts + {i + 2} HOURS)" for i in range(n))


def nested_ors(n):
    """Five EXISTS in one another, each with so many alternatives that each have a key."""
    text = []
    for this, outer in zip("abcde", "mabcd"):
        others = "".join(f" OR {this}.subject = '{this}{i}'" for i in range(n - 1))
        text.append(f"EXISTS ({this}: DOC WHERE ({this}.inreplyto = {outer}.msgid{others})")
    return " AND ".join(text) + ")" * 5


def or_in_or():
    """An OR of which one side has a key and an OR under it."""
    return "EXISTS (r: DOC WHERE r.inreplyto = m.msgid OR r.from = 'x@x' AND (r.subject = m.msgid OR r.words HAS 'word7' OR r.msgid = m.inreplyto))"


def long_text(n):
    return "m.subject = '" + "x" * n + "'"


def rules(n):
    return block("filter", [f"WHEN m.words HAS 'word{i}' AND m.from = 'sender{i % 10}@example.org' PRIORITY {i} CLASS 'c{i}'" for i in range(n)])


BOX = "query all TRUE\nat 300000000\nrun all\n"

# Name, small size, what was there before (not timed), what is timed.
ROWS = [
    ("an mbox of one message, refused over 1 MiB", 4 * MIB - 100, lambda n: "", one_message_mbox),
    ("an mbox of one message", MIB // 4 - 100, lambda n: "", one_message_mbox),
    ("an mbox of many messages (60,000)", 15000, lambda n: "", many_messages_mbox),
    ("a message of one word", MIB // 4 - 100, lambda n: "", one_word),
    ("a message of distinct words", 32500, lambda n: "", distinct_words),
    ("a header line that is folded (100,000)", 25000, lambda n: "", folded_line),
    ("addresses in To (100,000)", 25000, lambda n: "", many_addresses),
    ("references (100,000)", 25000, lambda n: "", many_references),
    ("header fields (50,000)", 12500, lambda n: "", many_fields),
    ("lines of dots", 80000, lambda n: "", dots),
    ("CRs at a line's end", MIB // 8 - 100, lambda n: "", carriage_returns),
    ("short commands", 250000, lambda n: "", short_commands),
    ("commands without their form", 250000, lambda n: "", without_form),
    ("a query nested 12 levels", 3, lambda n: mails(1000), lambda n: asked(nested(n))),
    ("a query with 4 NOT EXISTS in one another", 1, lambda n: mails(1000), lambda n: asked(nots_in_one_another(n))),
    ("a query with 4 NOT EXISTS", 1, lambda n: mails(1000), lambda n: asked(nots_in_a_row(n))),
    ("a query with 28 spans of time", 7, lambda n: mails(1000), lambda n: asked(or_of_times(n))),
    ("a query with 28 ORs of times", 7, lambda n: mails(1000), lambda n: asked(ands_of_ors(n))),
    ("a query with 24 ORs of times under NOT EXISTS", 6, lambda n: mails(1000), lambda n: asked(nots_of_ands_of_ors(n))),
    ("a query with 5 EXISTS of 12 alternatives in one another", 3, lambda n: "", lambda n: asked(nested_ors(n))),
    ("a query of one long text, asked 1,000 times", 1000, lambda n: mails(100), lambda n: "at 300000000\n" + f"ask 2000 {long_text(n)}\n" * 1000),
    ("another of its subject, of which there are 20,000", 5000, mails_of_one_subject, lambda n: asked("EXISTS (r: DOC WHERE r.subject = m.subject AND r.id > m.id)")),
    ("later of its subject, of which there are 20,000 of one second", 5000, mails_of_one_second, lambda n: asked("EXISTS (r: DOC WHERE r.subject = m.subject AND r.ts > m.ts)")),
    ("a word that none of 20,000 of its subject has", 5000, mails_of_one_subject, lambda n: asked("NOT EXISTS (r: DOC WHERE r.subject = m.subject AND r.words HAS 'withdrawn')")),
    ("one reference 100,000 times, to 1,000 mails", 25000, mails_of_one_id, repeated_reference),
    ("one address 100,000 times in To, of 1,000 mails", 25000, mails_of_one_sender, repeated_address),
    ("an OR in an OR in an EXISTS, over 20,000 mails", 5000, mails, lambda n: asked(or_in_or())),
    ("64 rules over a box of 10,000", 16, lambda n: mails(10000) + BOX + rules(n), lambda n: "list all\n"),
    ("a listing of 100,000 entries", 25000, lambda n: mails(n) + BOX, lambda n: "list all\n"),
    ("a box of 100,000 entries", 25000, lambda n: mails(n) + BOX, lambda n: "box all\n"),
    ("a digest of 100,000 documents", 25000, lambda n: mails(n) + BOX, lambda n: "digest all 1\n"),
    ("scores of 20,000 notes", 25000, lambda n: mails(n), lambda n: "scores score\n"),
]


def measure(program, before, text):
    session = Session(program)
    try:
        session.part("at 1000\nas ann\n" + before)
        seconds, replies = session.part(text)
        return seconds, sum(it.startswith(b"no ") for it in replies.splitlines()) - 1
    finally:
        session.end()


def line(program, name, small, large):
    """The line of two inputs, each with what was there before it."""
    try:
        least = min(measure(program, *small)[0] for _ in range(3))
        most, refused = measure(program, *large)
    except TooLong:
        print(f"| {name} | {len(large[1]):,} | - | more than {LIMIT:.0f} s | - |", flush=True)
        return
    note = f"; {refused:,} refused" if refused else ""
    print(f"| {name}{note} | {len(large[1]):,} | {least * 1e3:.2f} | {most * 1e3:.2f} | {most / least:.1f} |", flush=True)


def main(words):
    program, collide = words[0], words[1] if len(words) > 1 else None
    print("| Shape, at its large size | Bytes | A quarter, ms | Whole, ms | Times |\n|---|---|---|---|---|", flush=True)
    for name, n, before, text in ROWS:
        if is_chosen(name):
            line(program, name, (before(n), text(n)), (before(4 * n), text(4 * n)))
    name = "a message of words that collide"
    if collide and is_chosen(name):
        found = subprocess.run([collide, "130000", "14"], stdout=subprocess.PIPE, check=True).stdout.decode().split()
        line(program, name, ("", block("mail", ["", *found[:32500]])), ("", block("mail", ["", *found])))


if __name__ == "__main__":
    if not 2 <= len(sys.argv) <= 3:
        sys.exit(__doc__)
    main(sys.argv[1:])
