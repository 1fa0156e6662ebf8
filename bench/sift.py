#!/usr/bin/env python3
"""sift.py: how fast `archive` passes an mbox on, beside other programs in the same run.

  bench/sift.py [--mb 200] [--rounds 5] [--archive PROGRAM] [--keep FILE]

Makes an mbox of about --mb megabytes with gen_mbox.py and sends it, --rounds
times in turn, from a file through each program into a pipe that `cat` empties.
It prints for each program the best time, its ratio to that of `cat`, and the
peak memory of the program. Nothing here is a test: only ratios of one run
mean anything.

PROGRAM is the built program (default: crates/archive/out/archive, which
./archive builds). `formail` and Python's `mailbox` are measured where they are
installed.
"""
import argparse, os, pathlib, shutil, subprocess, sys, tempfile, time

ROOT = pathlib.Path(__file__).resolve().parent.parent

MAILBOX = """
import mailbox, sys
box = mailbox.mbox(sys.argv[1], create=False)
out = sys.stdout.buffer
for key in box.iterkeys():
    out.write(box.get_bytes(key, from_=True))
    out.write(b"\\n")
"""


def make(megabytes, path):
    """An mbox of about that size: the generator's messages have some 4 KB each."""
    wanted = megabytes * 1_000_000
    count = max(100, wanted // 3900)
    subprocess.run([sys.executable, ROOT / "bench" / "gen_mbox.py", "--n", str(count), "--seed", "1",
                    "--out", path], check=True, stderr=subprocess.DEVNULL)


def once(words, big):
    """Seconds and peak kilobytes of one run from the file into a pipe that cat empties."""
    with open(big, "rb") as source, open(os.devnull, "wb") as nothing:
        begun = time.perf_counter()
        program = subprocess.Popen(words, stdin=source, stdout=subprocess.PIPE)
        drain = subprocess.Popen(["cat"], stdin=program.stdout, stdout=nothing)
        program.stdout.close()
        _, status, usage = os.wait4(program.pid, 0)
        program.returncode = os.waitstatus_to_exitcode(status)
        drain.wait()
        seconds = time.perf_counter() - begun
    if program.returncode != 0:
        sys.exit(f"{words[0]} ended with status {program.returncode}")
    return seconds, usage.ru_maxrss


def main():
    words = argparse.ArgumentParser(description="How fast archive passes an mbox on.")
    words.add_argument("--mb", type=int, default=200)
    words.add_argument("--rounds", type=int, default=5)
    words.add_argument("--archive", default=str(ROOT / "crates" / "archive" / "out" / "archive"))
    words.add_argument("--keep", help="use this mbox, or make it there")
    asked = words.parse_args()
    if not os.access(asked.archive, os.X_OK):
        sys.exit(f"{asked.archive} is not there: run ./archive --version once, which builds it")

    with tempfile.TemporaryDirectory() as scratch:
        big = asked.keep or os.path.join(scratch, "big.mbox")
        if not os.path.exists(big):
            make(asked.mb, big)
        size = os.path.getsize(big)
        rows = [("cat", ["cat"]),
                ("archive", [asked.archive]),
                ("archive sift --day 2008-01-01 --min-age 365",
                 [asked.archive, "sift", "--day", "2008-01-01", "--min-age", "365"])]
        if shutil.which("formail"):
            rows.append(("formail -s", ["formail", "-s"]))
        rows.append(("Python's mailbox", [sys.executable, "-c", MAILBOX, big]))
        best = {}
        for _ in range(asked.rounds):
            for name, row in rows:
                seconds, peak = once(row, big)
                least, most = best.get(name, (seconds, peak))
                best[name] = (min(least, seconds), max(most, peak))

    print(f"{size / 1e6:.0f} MB, best of {asked.rounds} rounds in turn")
    print(f"{'program':46} {'seconds':>8} {'of cat':>7} {'peak MB':>8}")
    base = best["cat"][0]
    for name, _ in rows:
        seconds, peak = best[name]
        print(f"{name:46} {seconds:8.2f} {seconds / base:7.2f} {peak * 1024 / 1e6:8.0f}")


if __name__ == "__main__":
    main()
