#!/usr/bin/env python3
"""Proves and builds programs, with the crates that they stand on: by the toolchain's gate, `rt ci`, on a copy that holds these alone.

  build.py LOG NAME=MADE..     what the toolchain says goes to the file LOG, and each program to crates/NAME/out/NAME; the file MADE, which
                               says what it is made of, goes to built-by-the-front-door beside it

What `rt ci` passed on this machine before, here or under ./check --prove, is not proved again. The last program is there when the whole gate has
passed, and each before it as soon as it is proved and built, and writes what its file stdout has. On standard error it says how much is
done, and how long it still takes, by what each crate took before; and why it failed. The status is 0 where all are built.
"""
import math, os, pathlib, re, shutil, subprocess, sys, threading, time

import part, why

PROVED = re.compile(r"rt: (\w+) (proved|is kept: .*)")
# What each crate took in minutes, as the gate wrote it down (minutes.py); what it took in the last build here, a file beside the log; and
# what a crate takes of which neither knows.
MEASURED, SEEN, UNKNOWN = part.ROOT / "tools" / "minutes.txt", "minutes.txt", 2.0


def took(*files):
    """Returns the minutes that each crate took, by these files, of which the later ones count more."""
    lines = [line.split() for it in files if it.exists() for line in it.read_text(encoding="utf-8").splitlines() if not line.startswith("#")]
    return {name: float(minutes) for name, minutes, *_ in lines}


def span(below, takes, lanes):
    """Returns how many minutes these crates take: each when those below it are done, so many side by side, the longest chain first."""
    behind = {}
    for name in reversed(takes):
        behind[name] = takes[name] + max((behind[it] for it in behind if name in below[it]), default=0)
    now, running, left = 0.0, {}, [*takes]
    while left or running:
        ready = [it for it in left if not below[it] & {*left, *running}]
        for name in sorted(ready, key=behind.get, reverse=True)[:lanes - len(running)]:
            running[name] = now + takes[name]
            left.remove(name)
        first = min(running, key=running.get)
        now = running.pop(first)
    return now


class Work:
    """How much is to be done, how much is, and how long the rest takes."""

    def __init__(self, names, minutes, lanes):
        known = part.lines()
        self.takes, self.lanes = {it: minutes.get(it, UNKNOWN) for it in names}, lanes
        self.below = {it: {*known[it].partition(":")[2].split()} & {*names} for it in names}
        self.ends, self.kept, self.said = {}, set(), math.inf

    def take(self, name, is_kept, at):
        """Notes that a crate is done, after so many minutes, and returns whether that is new."""
        if name not in self.takes or name in self.ends:
            return False
        self.ends[name] = at
        self.kept |= {name} if is_kept else set()
        return True

    def begun(self, name):
        """Returns when a crate could begin."""
        return max((self.ends[it] for it in self.below[name]), default=0)

    def share(self):
        """Returns which part of all is done."""
        return sum(self.takes[it] for it in self.ends) / sum(self.takes.values())

    def left(self, at):
        """Returns the minutes that are left after so many: never more than was said before."""
        own = {it: takes for it, takes in self.takes.items() if it not in self.kept}
        rest = {it: takes for it, takes in own.items() if it not in self.ends}
        for it in rest:
            if self.below[it] <= {*self.ends}:
                rest[it] = max(rest[it] / 10, rest[it] - at + self.begun(it))
        whole, still = span(self.below, own, self.lanes), span(self.below, rest, self.lanes)
        # (the more of it is done, the more counts how long that took)
        trust = min(1, 3 * (whole - still) / whole) if whole else 0
        pace = 1 - trust + trust * at / (whole - still) if trust else 1
        self.said = max(1, min(self.said, still * pace))
        return self.said

    def proved(self):
        """Returns the minutes that each crate took that was proved."""
        return {it: max(0.1, self.ends[it] - self.begun(it)) for it in self.ends if it not in self.kept}

    def write(self, file):
        """Writes down what each crate took that was proved, beside what is known of the others."""
        file.write_text("".join(f"{it} {minutes:.1f}\n" for it, minutes in {**took(file), **self.proved()}.items()), encoding="utf-8")


class Told:
    """Writes what the toolchain says to a log, and says which crates are proved; each minute in which none is, how it stands."""

    def __init__(self, early, work, log):
        self.top, self.early, self.work, self.log = None, early, work, log
        self.begun = self.last = time.monotonic()
        self.ended, self.why = threading.Event(), why.Why()

    def hear(self, line):
        self.log.write(f"{line}\n")
        self.log.flush()
        self.why.hear(line)
        found = PROVED.fullmatch(line)
        if found and self.work.take(found[1], found[2] != "proved", self.minutes()):
            self.say(f"proved {found[1]} ({len(self.work.ends)} of {len(self.work.takes)})")
            if found[1] in self.early and writes_well(self.top, found[1]):
                take(self.top, found[1], self.early[found[1]])
                print(f"archive: ./archive {found[1]} runs from here on", file=sys.stderr, flush=True)

    def minutes(self):
        return (time.monotonic() - self.begun) / 60

    def say(self, what):
        self.last = time.monotonic()
        spent = self.minutes()
        done = f"{100 * self.work.share():.0f} % of the work is done, after {spent:.0f} minutes"
        print(f"archive: {what}; {done}; some {self.work.left(spent):.0f} more", file=sys.stderr, flush=True)

    def go_on(self):
        while not self.ended.wait(10):
            if time.monotonic() - self.last >= 60:
                self.say("proving" if len(self.work.ends) < len(self.work.takes) else "all is proved, and the programs are being run")


def writes_well(top, name):
    """Returns whether a program of the copy writes what its file stdout has."""
    at = top / "crates" / name
    if not (at / "out" / name).exists():
        return False
    with open(at / "stdin", "rb") as given:
        ran = subprocess.run([at / "out" / name], stdin=given, stdout=subprocess.PIPE, stderr=subprocess.DEVNULL, check=False)
    return ran.returncode == 0 and ran.stdout == (at / "stdout").read_bytes()


def take(top, name, made):
    """Takes a program out of the copy, whole or not at all, and puts beside it what it is made of."""
    out = part.CRATES / name / "out"
    out.mkdir(exist_ok=True)
    shutil.copyfile(top / "crates" / name / "out" / name, out / f"{name}.new")
    os.chmod(out / f"{name}.new", 0o755)
    os.replace(out / f"{name}.new", out / name)
    os.replace(made, out / "built-by-the-front-door")


def proves(told, names, program, made):
    """Runs the toolchain's gate over a copy of these crates, takes the program that is named if all passed, and returns whether it did."""
    with part.copied(names, ()) as told.top:
        passed = part.run_ci(told.top, [], told.hear) == 0
        if passed:
            take(told.top, program, made)
    return passed


def main(words):
    if len(words) < 2 or not all("=" in it for it in words[1:]):
        sys.exit(__doc__)
    made = dict(it.split("=", 1) for it in words[1:])
    last = [*made][-1]
    wanted = {below for name in made for below in part.with_those_below(name)}
    names = [it for it in part.lines() if it in wanted]
    seen = pathlib.Path(words[0]).parent / SEEN
    work = Work(names, took(MEASURED, seen), os.cpu_count() or 1)
    with open(words[0], "a", encoding="utf-8") as log:
        told = Told({name: file for name, file in made.items() if name != last}, work, log)
        threading.Thread(target=told.go_on, daemon=True).start()
        passed = proves(told, names, last, made[last])
        told.ended.set()
        if not passed:
            told.why.tell("archive", sys.stderr)
            return 1
        work.write(seen)
    return 0


if __name__ == "__main__":
    sys.exit(main(sys.argv[1:]))
