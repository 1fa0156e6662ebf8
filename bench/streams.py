#!/usr/bin/env python3
"""streams.py: what the import and the export of a large mbox take, in memory beside the database's own and in time.

  bench/streams.py [--archive PROGRAM] [--mb 1000] [--messages 50000] [--folder FOLDER]

Makes an mbox of about so many megabytes in so many messages (a list holds
50,000), imports it into a new file by the command `import`, exports the list by
`export`, and opens the file once more for one message by `get`. Memory is what
the system counts of each program at most. The database keeps what it read of a
file in memory, so `get`, which opens the file and then reads one message, tells
how much that is: `import` and `export` may take 64 MB more. Python's sqlite3
then reads the same texts from the same file; what `export` takes more than
`get` may be 1.5 times as long.

Then it imports, into a new file, one message of 16,777,216 bytes, which is the
most that a list takes, between messages of 8 MB in all before it and as many
after it, and opens the file for a small one by `get`. It prints what both
hold, in multiples of the long message for `import`; nothing is asked for.
Build the program first: ./archive --version.
"""
import argparse, contextlib, hashlib, os, pathlib, sqlite3, subprocess, sys, tempfile, time

ROOT = pathlib.Path(__file__).resolve().parent.parent
OPEN = '[[rule]]\nname = "all"\neffect = "allow"\n'
LONGEST = 16_777_216  # bytes of a message's text, with the LF at its end
BESIDE = 8 << 20  # bytes of messages before it, and of those after it
LINE = b"A line of a message that many have read, and that says little more than its number does.\n"


def make(path, megabytes, count):
    """An mbox of so many messages, each of which has another text."""
    lines = max(1, megabytes * 1_000_000 // count // len(LINE))
    body = LINE * lines
    with open(path, "wb") as mbox:
        for number in range(count):
            minute, second = divmod(number, 60)
            hour, minute = divmod(minute, 60)
            mbox.write(b"From a@example.org Tue Mar  4 %02d:%02d:%02d 2003\n" % (hour, minute, second))
            mbox.write(b"From: a@example.org\nMessage-ID: <%d@example.org>\nSubject: %d\n\n" % (number, number))
            mbox.write(body + b"\n")


def text_of(number, size):
    """A message's text of so many bytes."""
    head = b"From: a@example.org\nMessage-ID: <%d@example.org>\nSubject: %d\n\n" % (number, number)
    return head + (LINE * (size // len(LINE) + 1))[: size - len(head) - 1] + b"\n"


def make_long(path, size=4_000):
    """An mbox of small messages with the longest one among them, and the key of the first."""
    texts = [text_of(number, size) for number in range(2 * BESIDE // size)]
    texts.insert(len(texts) // 2, text_of(len(texts), LONGEST))
    path.write_bytes(b"".join(b"From a@example.org Tue Mar  4 10:00:00 2003\n%s\n" % text for text in texts))
    return hashlib.sha256(texts[0]).hexdigest()


def longest(asked, folder, policy):
    """Prints what the import of the longest message holds."""
    mbox, db = pathlib.Path(folder) / "long.mbox", pathlib.Path(folder) / "long.db"
    key = make_long(mbox)
    run(asked.archive, "list-add", "--db", db, "soc")
    seconds, held = run(asked.archive, "import", "--db", db, "soc", mbox)
    _, opened = run(asked.archive, "get", "--db", db, *policy, "soc", key)
    with contextlib.closing(sqlite3.connect(db)) as stock:
        [(most,)] = stock.execute("SELECT max(length(text)) FROM message").fetchall()
    if most != LONGEST:
        sys.exit(f"the longest message that was taken in has {most} bytes")
    print(f"a message of {LONGEST} bytes among {2 * BESIDE / 1e6:.0f} MB of others: import {seconds:.2f} s {held:.0f} MB, "
          f"{held * 1e6 / LONGEST:.1f} times its text; get, which opens the file, {opened:.0f} MB")


def run(*words, into=subprocess.DEVNULL):
    """The seconds of one run, and the most memory that it took, in MB."""
    begun = time.perf_counter()
    started = subprocess.Popen([str(it) for it in words], stdin=subprocess.DEVNULL, stdout=into)
    _, status, used = os.wait4(started.pid, 0)
    started.returncode = os.waitstatus_to_exitcode(status)
    if started.returncode:
        sys.exit(f"{words[1]} ended with {started.returncode}")
    return time.perf_counter() - begun, used.ru_maxrss * 1024 / 1e6


def stock_reading(db):
    """The seconds in which Python's sqlite3 reads all texts in the order of the list, their bytes, and one key."""
    stock = sqlite3.connect(db)
    begun, size = time.perf_counter(), 0
    for key, text in stock.execute("SELECT key, text FROM message WHERE list = 'soc' ORDER BY pos"):
        size += len(text)
    seconds = time.perf_counter() - begun
    stock.close()
    return seconds, size, key


def tell(what, seconds, memory, base):
    print(f"{what:10} {seconds:7.2f} s {memory:8.0f} MB" + (f", {memory - base:6.0f} MB beside the database's" if base else ""))


def main():
    words = argparse.ArgumentParser(description=__doc__.splitlines()[0])
    words.add_argument("--archive", default=ROOT / "crates" / "archive" / "out" / "archive")
    words.add_argument("--mb", type=int, default=1000)
    words.add_argument("--messages", type=int, default=50_000)
    words.add_argument("--folder", help="where the files are made [default: a new one in the system's place for them]")
    asked = words.parse_args()
    with tempfile.TemporaryDirectory(dir=asked.folder) as folder:
        mbox, db, out, rules = (pathlib.Path(folder) / name for name in ("large.mbox", "archive.db", "out.mbox", "open.toml"))
        rules.write_text(OPEN)
        policy = ["--policy", rules, "--day", "2026-01-01"]
        make(mbox, asked.mb, asked.messages)
        run(asked.archive, "list-add", "--db", db, "soc")
        imported = run(asked.archive, "import", "--db", db, "soc", mbox)
        stock, size, key = stock_reading(db)
        with open(out, "wb") as to:
            exported = run(asked.archive, "export", "--db", db, *policy, "soc", into=to)
        opened = run(asked.archive, "get", "--db", db, *policy, "soc", key)
        if out.read_bytes() != mbox.read_bytes():
            sys.exit("what was exported is not what was imported")
        print(f"{mbox.stat().st_size / 1e6:.0f} MB in {asked.messages} messages, {db.stat().st_size / 1e6:.0f} MB of file")
        tell("get", *opened, 0)
        tell("import", *imported, opened[1])
        tell("export", *exported, opened[1])
        print(f"stock SQLite reads the texts in {stock:.2f} s; export takes {(exported[0] - opened[0]) / stock:.2f} times that beside the opening")
        longest(asked, folder, policy)


if __name__ == "__main__":
    main()
