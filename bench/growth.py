#!/usr/bin/env python3
"""growth.py: how the time of the readers grows with hostile input.

  bench/growth.py [--bytes 24] [--rounds 3] [--probe PROGRAM]

For each hostile form it makes texts of 10 KB, 100 KB, 1 MB and 4 MB, lets the
program crates/probe call the reader on each until about --bytes megabytes are
read, and prints the nanoseconds a byte and the ratio of the longest text's to
the shortest's. A reader that is linear stays near 1; 2 is the most that is
asked for. Build the program first: (cd crates/probe && rt run).
"""
import argparse, os, pathlib, subprocess, sys, tempfile, time

ROOT = pathlib.Path(__file__).resolve().parent.parent
SIZES = [10_000, 100_000, 1_000_000, 4_000_000]


def repeat(unit):
    return lambda size: (unit * (size // len(unit) + 1))[:size]


def field(name, unit):
    """One header field of that size, on one line."""
    return lambda size: name + b": " + repeat(unit)(size - len(name) - 3) + b"\n"


def halves(a, b):
    return lambda size: a * (size // 2) + b * (size // 2)


# the form's name, the call, and the text of a size
FORMS = [
    ("open parentheses", "ids", repeat(b"(")),
    ("nested comments", "ids", halves(b"(", b")")),
    ("comments, closed and open", "ids", repeat(b"(a)(")),
    ("open quotes with backslashes", "ids", lambda size: b'"' + repeat(b'\\"')(size - 1)),
    ("open angles", "ids", repeat(b"<")),
    ("left sides without an end", "ids", repeat(b"<a@")),
    ("at signs", "ids", lambda size: b"<" + repeat(b"@a")(size - 1)),
    ("message ids", "ids", repeat(b"<a.1@example.org>\n ")),
    ("a header field of that size", "fields", field(b"References", b"<a.1@example.org>\n ")),
    ("short fields", "fields", repeat(b"A:b\n")),
    ("short lines that are no fields", "fields", repeat(b"a\n")),
    ("continued lines", "fields", lambda size: b"A:\n" + repeat(b" \n")(size - 3)),
    ("the last of many fields", "first", lambda size: repeat(b"A:b\n")(size - size % 4 - 12) + b"Subject: x\n"),
    ("folds", "unfold", repeat(b"\r\n ")),
    ("an author of angles", "author_key", field(b"From", b"<>")),
    ("a date of open parentheses", "sent", repeat(b"(")),
    ("a date of comments", "sent", repeat(b"()")),
    ("a date of digits", "sent", repeat(b"4")),
    ("blobs", "base", repeat(b"[a]")),
    ("replies", "base", repeat(b"re:")),
    ("replies with blobs", "base", repeat(b"re[a]: ")),
    ("trailers", "base", repeat(b"(fwd) ")),
    ("forward pairs", "base", lambda size: b"[fwd:" * (size // 6) + b"]" * (size // 6)),
    ("open brackets", "base", repeat(b"[")),
    ("spaces", "base", repeat(b" \t")),
    ("lines that begin as separators", "cut", lambda size: b"From a Tue Mar  4 10:00:00 2003\n" + repeat(b"\nFrom \n")(size)),
    ("empty messages", "cut", repeat(b"From a Tue Mar  4 10:00:00 2003\n\n")),
    ("empty messages, nine tokens", "cut", repeat(b"From a at b Tue Mar  4 10:00:00 +0100 2003\n\n")),
    ("a separator line of that size", "cut", lambda size: b"From a Tue Mar  4 10:00:00 2003\n\nFrom " + repeat(b"a ")(size)),
]


def seconds(program, call, rounds, path):
    with open(path, "rb") as source:
        begun = time.perf_counter()
        subprocess.run([program, call, str(rounds)], stdin=source, stdout=subprocess.DEVNULL, check=True)
        return time.perf_counter() - begun


def main():
    words = argparse.ArgumentParser(description="How the time of the readers grows with hostile input.")
    words.add_argument("--bytes", type=int, default=24, help="megabytes to read of each text")
    words.add_argument("--rounds", type=int, default=3)
    words.add_argument("--probe", default=str(ROOT / "crates" / "probe" / "out" / "probe"))
    asked = words.parse_args()
    if not os.access(asked.probe, os.X_OK):
        sys.exit(f"{asked.probe} is not there: (cd crates/probe && rt run) builds it")
    print(f"{'form':34} {'call':10} " + " ".join(f"{size // 1000:>7}K" for size in SIZES) + "   ratio")
    worst = 0.0
    with tempfile.TemporaryDirectory() as scratch:
        path = os.path.join(scratch, "text")
        for name, call, text in FORMS:
            per_byte = []
            for size in SIZES:
                with open(path, "wb") as file:
                    file.write(text(size))
                calls = max(1, asked.bytes * 1_000_000 // size)
                some = min(seconds(asked.probe, call, calls, path) for _ in range(asked.rounds))
                none = min(seconds(asked.probe, call, 0, path) for _ in range(asked.rounds))
                per_byte.append(max(0.0, some - none) / (calls * size) * 1e9)
            ratio = per_byte[-1] / per_byte[0] if per_byte[0] > 0 else float("nan")
            worst = max(worst, ratio)
            print(f"{name:34} {call:10} " + " ".join(f"{each:8.2f}" for each in per_byte) + f"   {ratio:5.2f}")
    print(f"nanoseconds a byte; the greatest ratio of the longest text to the shortest is {worst:.2f}")


if __name__ == "__main__":
    main()
