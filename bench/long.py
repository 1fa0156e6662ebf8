#!/usr/bin/env python3
"""long.py: how the time of `sift` grows with the length of one message.

  bench/long.py [--archive PROGRAM] [--rounds 3] [--only lines|line] [--scratch FOLDER]

Passes mboxes of one message of 4, 16, 32 and 64 MB on, in lines of 64 bytes and in one line, and prints the processor seconds
and the peak memory of each, the best of --rounds. In lines, 64 MB have to pass below a second, and in at most two and a half
times what 32 MB take. The last line is 'N passed, M failed'; status 1 where one failed.
Build the program first: ./archive --version.
"""
import argparse, os, pathlib, subprocess, sys, tempfile

from serving import ROOT

SIZES = [4, 16, 32, 64]
UNITS = {"lines": b"a" * 63 + b"\n", "line": b"a"}
SEPARATOR = b"From a@example.org Tue Mar  4 10:00:00 2003\n\n"


def once(program, mbox):
    """Processor seconds and megabytes of one run."""
    with open(mbox, "rb") as source:
        process = subprocess.Popen([program], stdin=source, stdout=subprocess.DEVNULL)
        _, status, usage = os.wait4(process.pid, 0)
    process.returncode = os.waitstatus_to_exitcode(status)
    if process.returncode != 0:
        sys.exit(f"{program} ended with status {process.returncode}")
    return usage.ru_utime + usage.ru_stime, usage.ru_maxrss / 1024


def measured(program, folder, unit, rounds):
    """The best seconds and the peak megabytes at each size."""
    mbox, cells = pathlib.Path(folder) / "mbox", []
    for size in SIZES:
        mbox.write_bytes(SEPARATOR + unit * (size * 1_000_000 // len(unit)) + b"\n")
        runs = [once(program, mbox) for _ in range(rounds)]
        cells.append((min(seconds for seconds, _ in runs), max(megabytes for _, megabytes in runs)))
    return cells


def main():
    words = argparse.ArgumentParser(description=__doc__, formatter_class=argparse.RawDescriptionHelpFormatter)
    words.add_argument("--archive", default=str(ROOT / "crates" / "archive" / "out" / "archive"))
    words.add_argument("--rounds", type=int, default=3)
    words.add_argument("--only", default="")
    words.add_argument("--scratch", help="make files in this folder")
    asked, passed, failed = words.parse_args(), 0, 0
    print(f"{'one message in':16}" + "".join(f"{size:>17} MB" for size in SIZES))
    with tempfile.TemporaryDirectory(dir=asked.scratch) as folder:
        for name, unit in UNITS.items():
            if asked.only not in ("", name):
                continue
            cells = measured(asked.archive, folder, unit, asked.rounds)
            half, whole = cells[-2][0], cells[-1][0]
            is_good = whole < 1 and whole <= 2.5 * max(half, 0.01)
            passed, failed = passed + is_good, failed + (not is_good)
            print(f"{name:16}" + "".join(f"{seconds:9.2f} s {megabytes:5.0f} MB" for seconds, megabytes in cells) + ("" if is_good else "  FAILED"))
    print(f"{passed} passed, {failed} failed")
    sys.exit(1 if failed else 0)


if __name__ == "__main__":
    main()
