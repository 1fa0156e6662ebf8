#!/usr/bin/env python3
"""desk.py: how fast a file is imported beside stock SQLite, and how long the questions of the desk take beside reading the list.

  bench/desk.py [--messages 10000 50000] [--rounds 3] [--probe PROGRAM] [--folder FOLDER]

For each number of messages it makes an mbox (bench/gen_mbox.py), and imports
it into a new file by the program crates/archive_probe and once more, and by
Python's sqlite3, which is given the messages cut: the same tables, SHA-256,
WAL, synchronous=FULL, a transaction for each 500 messages or 8 MB. The times
are of the imports alone. Then the program reads all rows, and asks for the
month and the author of the message in the middle, for the threads and for the
export, where all may be seen. It prints ratios: at most 2 is asked for the
import, 1.5 for the second over the first, and 1.3 for each question over the
rows, the threading itself taken off. Memory is what the system counts of the
program at most.
Build the program first: (cd crates/archive_probe && rt run < stdin).
"""
import argparse, hashlib, os, sqlite3, subprocess, sys, tempfile, time

import gen_mbox
from probing import read_words

AT_ONCE, BYTES_AT_ONCE = 500, 8 << 20
# Stock SQLite is given the columns of what is filed: the arrival for the sent date, and the sender for the author.
ADD = ("INSERT OR IGNORE INTO message (list, key, sender, arrival, text, withdrawn, embargo, sent, month, author)"
       " VALUES ('soc', ?1, ?2, ?3, ?4, 0, NULL, ?3, 1970 * 12 + ?3 / 2629746, CAST(?2 AS BLOB))")
QUESTIONS = ["rows", "month", "author", "threads", "export"]


def messages(count):
    """The messages of an mbox, and its bytes: sender, arrival and text of each."""
    asked = argparse.Namespace(n=count, seed=1, list="soc", start="2003-01-01", years=8, seps="rfc", traps=0.0, crlf=0.03)
    found, whole = [], []
    for line, text, arrival in gen_mbox.Gen(asked).messages():
        found.append((line.split()[1], arrival, text))
        whole += [line, text, b"\n"]
    return found, b"".join(whole)


def probe(program, *words, given=b""):
    """The nanoseconds that the program prints, and the most memory that it took, in MB."""
    with tempfile.TemporaryFile() as source, tempfile.TemporaryFile() as told:
        source.write(given)
        source.seek(0)
        started = subprocess.Popen([program, *map(str, words)], stdin=source, stdout=told)
        _, status, used = os.wait4(started.pid, 0)
        started.returncode = os.waitstatus_to_exitcode(status)
        if started.returncode:
            sys.exit(f"{program} ended with {started.returncode}")
        told.seek(0)
        return [int(line) for line in told.read().split()], used.ru_maxrss / 1024


def schema_of(path):
    """The texts that made the tables and indexes of a file; sqlite_sequence is SQLite's own."""
    made = sqlite3.connect(path)
    texts = made.execute("SELECT sql FROM sqlite_schema WHERE sql IS NOT NULL AND name <> 'sqlite_sequence' ORDER BY rowid").fetchall()
    made.close()
    return [text for (text,) in texts]


def stock_file(path, schema):
    """A new file with the tables that the program made, in stock SQLite."""
    stock = sqlite3.connect(path, isolation_level=None)
    for setting in ("journal_mode = WAL", "synchronous = FULL", "foreign_keys = ON"):
        stock.execute(f"PRAGMA {setting}")
    for made in schema:
        stock.execute(made)
    stock.execute("INSERT INTO list (name) VALUES ('soc')")
    stock.execute("INSERT INTO list_option (list, merge) VALUES ('soc', 1)")
    return stock


def batches(found):
    """The messages of each transaction."""
    batch, size = [], 0
    for message in found:
        if batch and (len(batch) == AT_ONCE or size + len(message[2]) > BYTES_AT_ONCE):
            yield batch
            batch, size = [], 0
        batch.append(message)
        size += len(message[2])
    if batch:
        yield batch


def stock_import(stock, found):
    """The nanoseconds of adding all messages."""
    begun = time.perf_counter_ns()
    for batch in batches(found):
        stock.execute("BEGIN")
        for sender, arrival, text in batch:
            stock.execute(ADD, (hashlib.sha256(text).hexdigest(), sender, arrival, text))
        stock.execute("COMMIT")
    return time.perf_counter_ns() - begun


def compare(asked, folder, found, mbox, round):
    """One round: nanoseconds of both imports, of stock SQLite's, and the memory of the first."""
    ours, theirs = os.path.join(folder, f"ours-{round}.db"), os.path.join(folder, f"stock-{round}.db")
    (first, second), memory = probe(asked.probe, "import", ours, given=mbox)
    stock = stock_file(theirs, schema_of(ours))
    took = stock_import(stock, found)
    [(rows,)] = stock.execute("SELECT count(*) FROM message").fetchall()
    stock.close()
    made = sqlite3.connect(ours)
    [(held,)] = made.execute("SELECT count(*) FROM message").fetchall()
    made.close()
    if rows != held:
        sys.exit(f"stock SQLite holds {rows} messages, and the program's file {held}")
    os.remove(theirs)
    return first, second, took, memory


def measure(asked, folder, count):
    """Prints the figures of so many messages."""
    found, mbox = messages(count)
    rounds = [compare(asked, folder, found, mbox, round) for round in range(asked.rounds)]
    first, second, stock, _ = (min(column) for column in zip(*rounds))
    print(f"{count} messages, {len(mbox) / 1e6:.0f} MB, best of {asked.rounds} rounds")
    print(f"import: {first / 1e9:8.2f} s, stock {stock / 1e9:8.2f} s, ratio {first / stock:5.2f}")
    print(f"again:  {second / 1e9:8.2f} s, over the first        {second / first:5.2f}")
    print(f"memory of both imports: {max(it[3] for it in rounds):.0f} MB")
    told, memory = probe(asked.probe, "desk", os.path.join(folder, "ours-0.db"), asked.rounds)
    *told, threading = told
    rows = told[0]
    for name, took in zip(QUESTIONS, told):
        less = threading if name == "threads" else 0
        print(f"{name:8} {took / 1e9:8.3f} s, over the rows {(took - less) / rows:5.2f}" + (f", threading {threading / 1e9:.3f} s apart" if less else ""))
    print(f"memory of the questions: {memory:.0f} MB")
    for round in range(asked.rounds):
        os.remove(os.path.join(folder, f"ours-{round}.db"))


def main():
    asked = read_words(__doc__, messages={"type": int, "nargs": "+", "default": [10000, 50000]})
    with tempfile.TemporaryDirectory(dir=asked.folder) as folder:
        for count in asked.messages:
            measure(asked, folder, count)


if __name__ == "__main__":
    main()
