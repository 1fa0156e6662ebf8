#!/usr/bin/env python3
"""forms.py: mboxes that do harm, each of a size that can be chosen, for mails.py.

A form is a name, a unit (`bytes` of one message, or `messages`), and a function from a size to the bytes of an mbox.
`bench/forms.py NAME SIZE` writes one to standard output; `bench/forms.py` lists them.
"""
import random, sys

SEPARATOR = b"From a@b Tue Mar  4 10:00:00 2003\n"
ANNA = b"From: anna@example.org\n"


def fill(unit, size):
    return (unit * (size // len(unit) + 1))[:size]


def message(headers, body=b"x\n"):
    return SEPARATOR + headers + b"\n" + body + b"\n"


def header(name, text, more=ANNA):
    """One message with one header field of this text."""
    return message(more + name + b": " + text + b"\n")


def fielded(name, unit, before=b"", after=b""):
    return lambda size: header(name, before + fill(unit, max(0, size - 200)) + after)


def numbered(size, fields):
    """So many messages; fields(n) is the header of the nth."""
    return b"".join(
        b"From a@b Tue Mar  4 %02d:%02d:%02d 2003\nFrom: p%d@x\n%s\n%d\n\n"
        % (n // 3600 % 24, n // 60 % 60, n % 60, n % 97, fields(n), n) for n in range(size))


def mid(n):
    return b"<%d@x>" % n


def chain_with_all(size):
    """Each message with the references to the last 100 before it."""
    return numbered(size, lambda n: b"Message-ID: %s\nReferences: %s\n" % (mid(n), b" ".join(map(mid, range(max(0, n - 100), n)))))


def shuffled(size):
    """Each message refers to five random ones."""
    rng = random.Random(7)
    return numbered(size, lambda n: b"Message-ID: %s\nReferences: %s\n" % (mid(n), b" ".join(mid(rng.randrange(size)) for _ in range(5))))


def at_every_line(size):
    return SEPARATOR + ANNA + b"\n" + fill(b"\nFrom \n", size) + b"\n"


# name: (unit, size -> bytes)
FORMS = {
    "open comments in References": ("bytes", fielded(b"References", b"(", after=b"<a@b>")),
    "nested comments in References": ("bytes", lambda size: header(b"References", b"(" * (size // 2 - 100) + b")" * (size // 2 - 100) + b"<a@b>")),
    "comments, closed and open": ("bytes", fielded(b"References", b"(a)(", after=b"<a@b>")),
    "open quotes with backslashes": ("bytes", fielded(b"References", b'\\"', before=b'"', after=b"<a@b>")),
    "open angles": ("bytes", fielded(b"References", b"<a@")),
    "unknown ids": ("bytes", lambda size: header(b"References", b"".join(mid(n) for n in range(size // 12)))),
    "one id over and over": ("bytes", fielded(b"References", b"<a@b>")),
    "an id of that size": ("bytes", fielded(b"Message-ID", b"a", before=b"<", after=b"@b>")),
    "many Message-ID fields": ("bytes", lambda size: message(fill(b"Message-ID: <a@b>\n", size // 18 * 18))),
    "a date of open comments": ("bytes", fielded(b"Date", b"(", after=b"4 Mar 2003 10:00 +0000")),
    "a date of tokens": ("bytes", fielded(b"Date", b"4 Mar ")),
    "a date of digits": ("bytes", fielded(b"Date", b"4")),
    "encoded words": ("bytes", fielded(b"Subject", b"=?utf-8?q?a?= ")),
    "blobs": ("bytes", fielded(b"Subject", b"[a]")),
    "replies": ("bytes", fielded(b"Subject", b"re:")),
    "replies with blobs": ("bytes", fielded(b"Subject", b"re[a]: ")),
    "trailers": ("bytes", fielded(b"Subject", b" (fwd)")),
    "forward pairs": ("bytes", lambda size: header(b"Subject", b"[fwd:" * (size // 6 - 40) + b"]" * (size // 6 - 40))),
    "open brackets": ("bytes", fielded(b"Subject", b"[")),
    "a subject of quotes": ("bytes", fielded(b"Subject", b'"')),
    "a subject of zeros": ("bytes", fielded(b"Subject", b"\0")),
    "a subject of 255": ("bytes", fielded(b"Subject", b"\xff")),
    "a subject of tabs and spaces": ("bytes", fielded(b"Subject", b" \t")),
    "an author of angles": ("bytes", lambda size: message(b"From: " + fill(b"<>", size - 200) + b"\n")),
    "an author of that size": ("bytes", lambda size: message(b"From: <" + fill(b"\xff", size - 200) + b">\n")),
    "lines of headers": ("bytes", lambda size: message(ANNA + fill(b"A:b\n", size // 4 * 4 - 200))),
    "lines that are no fields": ("bytes", lambda size: message(fill(b"a\n", size // 2 * 2 - 200))),
    "continued lines": ("bytes", lambda size: message(b"Subject: x\n" + fill(b" \n", size // 2 * 2 - 200))),
    "folds of CR LF": ("bytes", lambda size: message(b"Subject: x\r\n" + fill(b" y\r\n", size // 4 * 4 - 200))),
    "no empty line": ("bytes", lambda size: SEPARATOR + fill(b"A:b\n", size // 4 * 4 - 200)),
    "one line": ("bytes", lambda size: SEPARATOR + b"\n" + b"a" * (size - 200)),
    "CRs alone": ("bytes", lambda size: SEPARATOR + fill(b"A: b\r", size - 200)),
    "CR LFs alone": ("bytes", lambda size: SEPARATOR + fill(b"\r\n", size // 2 * 2 - 200)),
    "zeros": ("bytes", lambda size: message(b"", bytes(size - 200))),
    "separators begun at every line": ("bytes", at_every_line),
    "separators at every line, not after an empty one": ("bytes", lambda size: message(b"", fill(SEPARATOR, size // len(SEPARATOR) * len(SEPARATOR) - 300))),
    "a separator line of that size": ("bytes", lambda size: message(b"") + b"From " + fill(b"a ", size - 200) + b"\n\n"),
    "a sender of that size": ("bytes", lambda size: b"From " + b"a" * (size - 200) + b" Tue Mar  4 10:00:00 2003\n" + ANNA + b"\nx\n\n"),
    "a first line of that size, no separator": ("bytes", lambda size: b"x" * size),
    "a first line of that size, perhaps a separator": ("bytes", lambda size: b"From " + b"x" * size),
    "empty lines in front": ("bytes", lambda size: b"\n" * size + message(b"")),
    "UTF-16": ("bytes", lambda size: message(b"", b"x\n" * (size // 4)).decode().encode("utf-16")),
    "empty messages": ("messages", lambda size: (SEPARATOR + b"\n") * size),
    "messages of one byte": ("messages", lambda size: b"".join(SEPARATOR + b"\n%d\n\n" % n for n in range(size))),
    "a chain": ("messages", lambda size: numbered(size, lambda n: b"Message-ID: %s\nIn-Reply-To: %s\n" % (mid(n), mid(n - 1)))),
    "a chain, newest first": ("messages", lambda size: numbered(size, lambda n: b"Message-ID: %s\nIn-Reply-To: %s\n" % (mid(n), mid(n + 1)))),
    "a chain with a hundred references": ("messages", chain_with_all),
    "a ring": ("messages", lambda size: numbered(size, lambda n: b"Message-ID: %s\nReferences: %s\n" % (mid(n), mid((n + 1) % size)))),
    "five random references": ("messages", shuffled),
    "replies to one that is missing": ("messages", lambda size: numbered(size, lambda n: b"Message-ID: %s\nIn-Reply-To: <p@x>\n" % mid(n))),
    "one Message-ID": ("messages", lambda size: numbered(size, lambda n: b"Message-ID: <a@x>\nIn-Reply-To: <a@x>\n")),
    "one subject": ("messages", lambda size: numbered(size, lambda n: b"Subject: x\n")),
    "one subject, replies": ("messages", lambda size: numbered(size, lambda n: b"Subject: Re: x\n")),
    "one date": ("messages", lambda size: numbered(size, lambda n: b"Date: 4 Mar 2003 10:00 +0000\n")),
}


if __name__ == "__main__":
    if len(sys.argv) == 3:
        sys.stdout.buffer.write(FORMS[sys.argv[1]][1](int(sys.argv[2])))
    else:
        print("\n".join(f"{unit:8} {name}" for name, (unit, _) in FORMS.items()))
