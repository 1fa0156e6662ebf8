#!/usr/bin/env python3
"""answers.py: how long requests take from bytes to bytes, beside the questions of the desk that their replies show.

  bench/answers.py [--messages 10000] [--rounds 3] [--probe PROGRAM] [--folder FOLDER]

Makes an mbox (bench/gen_mbox.py), which the program crates/archive_probe imports
in memory, and then into a new file. Over each it answers requests without
sockets: for the message in the middle of the list, its month, its thread, all
threads and the mbox, where all may be seen; and in the same run it asks the
desk for the same. At least 20,000 messages a second in memory are asked for,
and of each other request at most 1.5 times its question. Last it writes the
page of all threads alone, from rows that are there.
Build the program first: (cd crates/archive_probe && rt run < stdin).
"""
import os, subprocess, sys, tempfile

from probing import ROOT, read_words

TIMES = 1000  # how often the program asks for a message in a round
QUESTIONS = ["message", "month", "thread", "threads", "mbox"]


def told(program, mbox, *words):
    """The numbers that the program prints."""
    with open(mbox, "rb") as source:
        ran = subprocess.run([program, *map(str, words)], stdin=source, stdout=subprocess.PIPE, check=True, text=True)
    return [int(line) for line in ran.stdout.split()]


def show(where, numbers):
    """Prints what was timed over one store."""
    *timed, page, rows = numbers
    for name, reply, desk in zip(QUESTIONS, timed[::2], timed[1::2]):
        times = TIMES if name == "message" else 1
        print(f"{where:7} {name:8} {reply / times / 1e6:9.4f} ms, desk {desk / times / 1e6:9.4f} ms, ratio {reply / desk:5.2f}")
    print(f"{where:7} messages {TIMES / timed[0] * 1e9:9.0f} a second")
    print(f"{where:7} rows of a page {rows / page * 1e9:9.0f} a second, {rows} rows")


def main():
    asked = read_words(__doc__, messages={"type": int, "default": 10000})
    with tempfile.TemporaryDirectory(dir=asked.folder) as folder:
        mbox = os.path.join(folder, "list.mbox")
        made = [sys.executable, str(ROOT / "bench" / "gen_mbox.py"), "--n", str(asked.messages), "--out", mbox]
        subprocess.run(made, check=True, stderr=subprocess.DEVNULL)
        print(f"{asked.messages} messages, {os.path.getsize(mbox) / 1e6:.0f} MB, best of {asked.rounds} rounds")
        show("memory", told(asked.probe, mbox, "pages", ":memory:", asked.rounds))
        show("file", told(asked.probe, mbox, "pages", os.path.join(folder, "pages.db"), asked.rounds))


main()
