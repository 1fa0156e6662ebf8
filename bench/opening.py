#!/usr/bin/env python3
"""opening.py: what a command pays to open files of several sizes.

  bench/opening.py [--archive PROGRAM ..] [--lists 1 2 4] [--messages 50000] [--rounds 3]

Imports so many messages (bench/gen_mbox.py) into each of so many lists of one
file, and then adds a list that is there, which opens the file and writes
nothing: the median processor seconds, the most memory, and, where strace is
there, how often the file's bytes are read. Several programs are measured over
the same files. Asked for: a file of 500 or 1,000 MB is read at most 2.2 times
for each byte as often as one of 250 MB, at most 1.3 times the seconds a byte.
"""
import argparse, pathlib, re, shutil, statistics, subprocess, sys, tempfile

from serving import ROOT, archive


def made(program, folder, lists, messages):
    """A file of so many lists of so many messages each."""
    db, mbox = pathlib.Path(folder) / "archive.db", pathlib.Path(folder) / "many.mbox"
    for number in range(lists):
        with open(mbox, "wb") as file:
            subprocess.run([sys.executable, ROOT / "bench" / "gen_mbox.py", "--n", str(messages), "--seed", str(number)], stdout=file, check=True)
        archive(program, "list-add", "--db", db, f"many{number}")
        archive(program, "import", "--db", db, f"many{number}", mbox)
    mbox.unlink()
    return db


def opened(program, db):
    """The processor seconds and the megabytes of memory of a command that opens the file and is refused."""
    timed = ["/usr/bin/time", "-f", "%U %S %M", program, "list-add", "--db", str(db), "many0"]
    said = subprocess.run(timed, stdout=subprocess.DEVNULL, stderr=subprocess.PIPE, text=True, check=False).stderr
    user, system, most = said.splitlines()[-1].split()
    return float(user) + float(system), int(most) / 1024


def times_read(program, db, size):
    """How often each byte of the file is read, by its calls of the system."""
    if not shutil.which("strace"):
        return "strace is not there"
    traced = ["strace", "-e", "trace=pread64,read", program, "list-add", "--db", str(db), "many0"]
    said = subprocess.run(traced, stdout=subprocess.DEVNULL, stderr=subprocess.PIPE, text=True, check=False).stderr
    return f"{sum(map(int, re.findall(r' = ([0-9]+)$', said, re.M))) / size:.1f} times"


def main():
    words = argparse.ArgumentParser(description=__doc__.splitlines()[0])
    words.add_argument("--archive", nargs="+", default=[ROOT / "crates" / "archive" / "out" / "archive"])
    words.add_argument("--lists", type=int, nargs="+", default=[1, 2, 4])
    words.add_argument("--messages", type=int, default=50_000)
    words.add_argument("--rounds", type=int, default=3)
    given = words.parse_args()
    for lists in given.lists:
        with tempfile.TemporaryDirectory() as folder:
            db = made(given.archive[0], folder, lists, given.messages)
            size = db.stat().st_size
            for program in map(str, given.archive):
                runs = [opened(program, db) for _ in range(given.rounds)]
                seconds = statistics.median(it[0] for it in runs)
                print(f"{program}: {size / 1e6:7.0f} MB opened in {seconds:.2f} s, {seconds / size * 1e9:.1f} s a GB; at most {max(it[1] for it in runs):.0f} MB;"
                      f" read {times_read(program, db, size)}", flush=True)


main()
