#!/usr/bin/env python3
"""filed.py: how fast a month and an author of a long list are found, beside stock SQLite and beside reading the list.

  bench/filed.py [--messages 50000] [--bytes 3000] [--each 20] [--rounds 5] [--probe PROGRAM] [--folder FOLDER]

It makes an mbox of --messages messages of about --bytes bytes, --each of them
sent in each month and as many by each author, and imports it into a new file
by the program crates/archive_probe. Then the program asks the desk for the
month and the author of the message in the middle, where all may be seen, and
reads all rows; stock SQLite asks the same file for the rows of that month and
of that author in the same order. It prints ratios, and what is asked for
beside them. Build the program first: (cd crates/archive_probe && rt run < stdin).
"""
import calendar, email.utils, os, sqlite3, subprocess, sys, tempfile, time

from probing import read_words

FIRST_YEAR = 1910
SHOWN = "SELECT key, sender, arrival, text, withdrawn, embargo FROM message WHERE list = 'soc'"
QUESTIONS = {"month": SHOWN + " AND month = ? ORDER BY sent, pos", "author": SHOWN + " AND author = ? ORDER BY sent, pos"}


def sent(place, each):
    """When a message was sent, in seconds: --each in a month, one after the other."""
    month, minute = divmod(place, each)
    return calendar.timegm((FIRST_YEAR + month // 12, month % 12 + 1, 2, 0, minute, 0, 0, 0, 0))


def author(place, asked):
    return f"a{place % (asked.messages // asked.each)}@example.org"


def message(place, asked):
    """A message of an mbox, with its separator line."""
    when = sent(place, asked.each)
    line = time.strftime("From list@example.org %a %b %e %H:%M:%S %Y\n", time.gmtime(when))
    head = (f"Date: {email.utils.formatdate(when)}\nFrom: A <{author(place, asked)}>\n"
            f"Message-ID: <{place}@example.org>\nSubject: Number {place}\n\n")
    return (line + head).encode() + b"x" * max(0, asked.bytes - len(head) - 1) + b"\n\n"


def probe(asked, *words, given=None):
    """The nanoseconds that the program prints."""
    ran = subprocess.run([asked.probe, *map(str, words)], stdin=given, stdout=subprocess.PIPE)
    if ran.returncode:
        sys.exit(f"{asked.probe} {' '.join(map(str, words))}: status {ran.returncode}")
    return [int(line) for line in ran.stdout.split()]


def stock(path, name, value, rounds, wanted):
    """The least nanoseconds in which stock SQLite gives all rows of a question."""
    asked, took = sqlite3.connect(path), []
    for _ in range(rounds):
        begun = time.perf_counter_ns()
        rows = asked.execute(QUESTIONS[name], (value,)).fetchall()
        took.append(time.perf_counter_ns() - begun)
    if len(rows) != wanted:
        sys.exit(f"stock SQLite finds {len(rows)} messages of the {name}, and not {wanted}")
    return min(took)


def main():
    asked = read_words(__doc__, rounds=5, messages={"type": int, "default": 50000}, bytes={"type": int, "default": 3000}, each={"type": int, "default": 20})
    with tempfile.TemporaryDirectory(dir=asked.folder) as folder:
        path, mbox = os.path.join(folder, "filed.db"), os.path.join(folder, "filed.mbox")
        with open(mbox, "wb") as made:
            for place in range(asked.messages):
                made.write(message(place, asked))
        with open(mbox, "rb") as given:
            first, _ = probe(asked, "import", path, given=given)
        rows, month, by, *_ = probe(asked, "desk", path, asked.rounds)
        middle = asked.messages // 2
        values = {"month": (FIRST_YEAR + middle // asked.each // 12) * 12 + middle // asked.each % 12,
                  "author": author(middle, asked).encode()}
        print(f"{asked.messages} messages of {asked.bytes} bytes, {asked.each} a month and an author; imported in {first / 1e9:.2f} s")
        print(f"all rows: {rows / 1e6:.1f} ms")
        for name, took in {"month": month, "author": by}.items():
            theirs = stock(path, name, values[name], asked.rounds, asked.each)
            print(f"{name:7} {took / 1e6:9.3f} ms, stock {theirs / 1e6:9.3f} ms, ratio {took / theirs:6.2f} (at most 2);"
                  f" over all rows {took / rows:.5f}")


if __name__ == "__main__":
    main()
