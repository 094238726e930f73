"""The rows of bench/shapes.py: the mails that are stored, the events of rounds, and the queries with the same in SQL.

Mail i comes a second after mail i - 1. It has the message id <i@example.org>, one of 10 senders, one of 100 subjects and three
words. Each fourth replies to the mail before it and has it in its references; each fifth has a note of ann. A row may have other
mails: each function that gives one says what is different. In each round, with a run or without one, there is one event: the next
mail, or a reply or a note to one of the last mails that have none. So the two kinds of rounds differ by their runs alone. Each run
delivers, if each of these mails meets the row's condition.
"""

import os
from typing import Callable, NamedTuple, Optional

from sql import Sql, exists, has_word, narrowed, none, plain

ROUNDS = int(os.environ.get("ROUNDS", "200"))
TEN_DAYS = 10 * 86400


# ---- what is stored


def mail(i, subject=None, sender=None, to="", more=""):
    """Mail i, with lines of a header and of a body more."""
    reply = f"In-Reply-To: <{i - 1}@example.org>\nReferences: <{i - 1}@example.org>\n" if i % 4 == 0 else ""
    return (
        f"mail\nFrom: {sender or f'sender{i % 10}'}@example.org\n{to}Message-ID: <{i}@example.org>\n"
        f"Subject: subject{i % 100 if subject is None else subject}\nDate: Thu, 01 Jan 1970 01:00:00 +0000\n{reply}\n"
        f"word{i % 50} rare{i} lunch\n{more}.\n"
    )


def of_ten(i):
    """Ten mails in a row have a subject of their own, so that no more mails share a subject as there are more mails."""
    return mail(i, i // 10)


def of_one(i):
    """All mails have one subject."""
    return mail(i, 0)


def person(i):
    """Ten people write a hundred mails in turn, then ten others."""
    return f"person{i // 100 * 10 + i % 10}"


def of_people(i):
    """Each mail is to the writer of the mail before it, each eighth to the one who then replies to it; each fifth goes to a list too."""
    to = person(i + 1 if i % 8 == 3 else i - 1)
    return mail(i, sender=person(i), to=f"To: {to}@example.org{', list@example.org' if i % 5 == 1 else ''}\n")


def of_size(i):
    """Two mails in a row have the same size, of 500 sizes."""
    return mail(i, more="x" * (400 + i // 2 % 500 - len(mail(i))) + "\n")


def of_thousand(i):
    """A thousand mails in a row have a subject of their own."""
    return mail(i, (i - 1) // 1000)


def withdrawn(i):
    """Of each third subject of ten mails the sixth says that it is withdrawn."""
    return mail(i, i // 10, more="withdrawn\n" if i % 30 == 5 else "")


def rated(i):
    """Of ten mails two have ann's score: bob's is alike on one, and not on the other. One has bob's alone, one only a flag."""
    ann, bob = "note {} flag 3\n", "as bob\nnote {} score {}\nas ann\n"
    notes = {0: bob.format(i, 3), 5: bob.format(i, 4), 1: bob.format(i, 4), 2: ann.format(i)}
    return mail(i) + notes.get(i % 10, "")


# ---- the events of rounds

# How many mails get a first reply or note: one in each round, with runs and without.
FRESH = 2 * ROUNDS


def reply_to(number, k, sender=None):
    head = f"From: {sender}@example.org\n" if sender else ""
    return f"mail\n{head}Message-ID: <reply{k}@example.org>\nIn-Reply-To: <{number}@example.org>\nReferences: <{number}@example.org>\n\nyes\n.\n"


def unanswered(j):
    """Of the mails that are stored first the one before which j have no reply: mails 3, 7, 11 and so on have one."""
    return j // 3 * 4 + j % 3 + (1 if j % 3 < 2 else 2)


def late_unanswered(size, k):
    """One of the last mails that have no reply."""
    return unanswered(size * 3 // 4 - FRESH + k - 1)


def new_reply(size, k):
    """A reply to one of the last mails that have none."""
    return reply_to(late_unanswered(size, k), k)


def new_reply_to_any(size, k):
    """A reply to a mail of any age that has none."""
    return reply_to(unanswered(k * (size * 3 // 4 // (FRESH + 1))), k)


def new_answer(size, k):
    """A reply, of another sender than all, to one of the last mails that have none."""
    return reply_to(late_unanswered(size, k), k, "other")


def new_answer_of_addressee(size, k):
    """A reply, of the one it was written to, to one of the last mails that have none."""
    number = late_unanswered(size, k)
    return reply_to(number, k, person(number - 1))


def new_note(size, k):
    """A note on one of the last mails that have none."""
    j = size * 4 // 5 - FRESH + k - 1
    return f"note {j // 4 * 5 + j % 4 + 1} score 3 fine\n"


def new_agreement(size, k):
    """The same, and another's note of the same value."""
    return f"{new_note(size, k)}as bob\n{new_note(size, k)}as ann\n"


def of_first_subject(size, k):
    """A mail of the subject that the first stored mail has."""
    return mail(size + k, 0)


# ---- queries

REPLY = ("doc r", "r.inreplyto = m.msgid")
CITED = ("ref f JOIN doc r ON r.num = f.doc", "f.msgid = m.msgid")
THREAD = "(r.inreplyto = m.msgid OR r.references HAS m.msgid)"
SCORED = "a.author = 'ann' AND a.kind = 'score'"
LATER = "EXISTS (r: DOC WHERE r.subject = m.subject AND r.ts > m.ts)"
SQL_LATER = exists(("doc r", "r.subject = m.subject AND r.ts > m.ts"))
ANOTHER = "EXISTS (r: DOC WHERE r.subject = m.subject AND r.id > m.id)"
WITHDRAWN = "NOT EXISTS (r: DOC WHERE r.subject = m.subject AND r.words HAS 'withdrawn')"
SQL_WITHDRAWN = none(("doc r", f"r.subject = m.subject AND {has_word('r', 'withdrawn')}"))


class Row(NamedTuple):
    """A query and the same in SQL, what is stored as mail i, and the event of a round, the next such mail if there is none.

    A mail comes so many seconds after the one before it. `peer` is the query of the peer. If it is `asked`, it is a question too.
    """

    name: str
    query: str
    sql: Optional[Sql] = None
    stored: Callable[[int], str] = mail
    event: Optional[Callable[[int, int], str]] = None
    seconds: int = 1
    peer: Optional[str] = None
    asked: bool = False


ROWS = [
    Row("a word", "m.words HAS 'lunch'", plain(has_word("m", "lunch")), peer="word lunch"),
    Row("a rare word", "m.words HAS 'rare7'", plain(has_word("m", "rare7")), peer="word rare7"),
    Row("a sender", "m.from = 'sender3@example.org'", plain("sender = 'sender3@example.org'"), peer="sender sender3@example.org"),
    Row(
        "no reply within ten days",
        "NOW >= m.ts + 10 DAYS AND NOT EXISTS (r: DOC WHERE r.inreplyto = m.msgid)",
        none(REPLY, since=f"m.ts + {TEN_DAYS}"),
        peer=f"silence {TEN_DAYS}",
    ),
    Row("has a reply", "EXISTS (r: DOC WHERE r.inreplyto = m.msgid)", exists(REPLY), event=new_reply, asked=True),
    Row("has a reply, of any age", "EXISTS (r: DOC WHERE r.inreplyto = m.msgid)", exists(REPLY), event=new_reply_to_any),
    Row(
        "has a note of a kind",
        "EXISTS (a: NOTE WHERE a.doc = m.id AND a.kind = 'score')",
        exists(("note a", "a.doc = m.num AND a.kind = 'score'")),
        event=new_note,
    ),
    Row("no note yet", "NOT EXISTS (a: NOTE WHERE a.doc = m.id)", none(("note a", "a.doc = m.num"))),
    Row(
        "a reply that has a note",
        "EXISTS (r: DOC WHERE r.inreplyto = m.msgid AND EXISTS (a: NOTE WHERE a.doc = r.id))",
        exists(("doc r JOIN note a ON a.doc = r.num", "r.inreplyto = m.msgid")),
        event=new_note,
        asked=True,
    ),
    Row("the day after", "TODAY > m.ts"),
    Row("three days after the date", "NOW >= m.date + 3 DAYS"),
    Row(
        "one of four words",
        "m.words HAS 'word1' OR m.words HAS 'word2' OR m.words HAS 'word3' OR m.words HAS 'word4'",
        plain(has_word("m", "word1 OR word2 OR word3 OR word4")),
    ),
    Row("another of its subject", ANOTHER),
    Row("another of the one subject", ANOTHER, None, of_one),
    Row("another of ten of its subject", ANOTHER, exists(("doc r", "r.subject = m.subject AND r.num > m.num")), of_ten),
    Row("a thread by references", "EXISTS (r: DOC WHERE r.references HAS m.msgid)", exists(CITED), event=new_reply),
    Row("a thread", f"EXISTS (r: DOC WHERE {THREAD})", exists(REPLY, CITED), event=new_reply, asked=True),
    Row(
        "a silent thread",
        f"NOW >= m.ts + 10 DAYS AND NOT EXISTS (r: DOC WHERE {THREAD})",
        none(REPLY, CITED, since=f"m.ts + {TEN_DAYS}"),
        asked=True,
    ),
    Row(
        "a thread, but not mine",
        f"EXISTS (r: DOC WHERE r.from <> m.from AND {THREAD})",
        exists(*narrowed((REPLY, CITED), "r.sender <> m.sender")),
        event=new_answer,
        asked=True,
    ),
    Row(
        "written to",
        "EXISTS (r: DOC WHERE r.to HAS m.from)",
        exists(("addressee t JOIN doc r ON r.num = t.doc", "t.address = m.sender")),
        of_people,
        asked=True,
    ),
    Row(
        "answered by an addressee",
        "EXISTS (r: DOC WHERE r.inreplyto = m.msgid AND m.to HAS r.from)",
        exists(("doc r JOIN addressee t ON t.address = r.sender", "r.inreplyto = m.msgid AND t.doc = m.num")),
        of_people,
        new_answer_of_addressee,
        asked=True,
    ),
    Row(
        "to the list",
        "m.to HAS 'list@example.org'",
        plain("num IN (SELECT doc FROM addressee WHERE address = 'list@example.org')"),
        of_people,
        asked=True,
    ),
    Row("later of its subject", LATER, SQL_LATER, asked=True),
    Row(
        "last of its sender",
        "NOT EXISTS (r: DOC WHERE r.from = m.from AND r.id > m.id)",
        none(("doc r", "r.sender = m.sender AND r.num > m.num")),
        asked=True,
    ),
    Row("later of its subject, all of one second", LATER, SQL_LATER, seconds=0, asked=True),
    Row(
        "size twins",
        "EXISTS (r: DOC WHERE r.size = m.size AND r.id <> m.id)",
        exists(("doc r", "r.size = m.size AND r.num <> m.num")),
        of_size,
        asked=True,
    ),
    Row("not withdrawn", WITHDRAWN, SQL_WITHDRAWN, withdrawn, asked=True),
    Row("not withdrawn, of 1,000 of its subject", WITHDRAWN, SQL_WITHDRAWN, of_thousand, of_first_subject, asked=True),
    Row(
        "rated by ann",
        f"EXISTS (a: NOTE WHERE a.doc = m.id AND {SCORED})",
        exists(("note a", f"a.doc = m.num AND {SCORED}")),
        rated,
        new_note,
        asked=True,
    ),
    Row(
        "ann rated a reply",
        f"EXISTS (a: NOTE WHERE {SCORED} AND EXISTS (r: DOC WHERE r.id = a.doc AND r.inreplyto = m.msgid))",
        exists(("note a JOIN doc r ON r.num = a.doc", f"{SCORED} AND r.inreplyto = m.msgid")),
        rated,
        new_note,
        asked=True,
    ),
    Row(
        "rated alike by another",
        "EXISTS (a: NOTE WHERE a.doc = m.id AND EXISTS (b: NOTE WHERE b.doc = m.id AND b.value = a.value AND b.author <> a.author))",
        exists(("note a JOIN note b ON b.doc = a.doc", "a.doc = m.num AND b.value = a.value AND b.author <> a.author")),
        rated,
        new_agreement,
        asked=True,
    ),
]
CROSS_ROWS = [
    Row("a cross product", "EXISTS (a: DOC WHERE EXISTS (b: DOC WHERE a.size = 1))"),
    Row("a cross product with marks", "EXISTS (x: DOC WHERE EXISTS (g: DOC WHERE NOW = g.ts - 7 SECONDS) AND x.id > m.id)"),
]
