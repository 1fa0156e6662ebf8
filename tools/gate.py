#!/usr/bin/env python3
"""The gate: the toolchain's own `rt ci`, on a copy of the repository without wrong bodies; then those that are due (`due.py`), as many in one
check as can be, and each other one in a check of its own (`joined.py`). Of crates whose wrong bodies are due it takes one after the other, in an
order that the commit draws, until it has MOST, or the run has taken MINUTES; it says which it put off, and these stay due.

  gate.py [--all] [--anew] [--record] [--minutes N]

  --all        every wrong body is due, and none is put off, except for --minutes
  --anew       nothing counts that an earlier run on this machine passed, and `rt ci` tries each wrong body by itself
  --record     puts none off, except for --minutes, and writes tools/refused.txt: of which crates all wrong bodies were refused, over which
               text (the line of a crate that was put off stays); and tools/minutes.txt: how long each crate took that was proved from
               nothing, with the tables of docs/GATE.md that are made of it
  --minutes N  after so many minutes it tries no other wrong body, and puts off the crates that it is not done with. Without this option
               that is after 100 minutes, and never with --all or --record. It does not go with --anew: `rt ci` would not heed it

The last line is 'N passed, M failed', as `rt ci` counts, but that a wrong body that cannot be applied has failed; and the
worked calls under refused growths of memory (refused.py) are one more that passed or failed, and so are the callers of the
library (callers.py). Where something failed, the lines that say why stand together before it.
"""
import filecmp, math, re, resource, subprocess, sys, tempfile, time

import build, callers, due, joined, minutes, part, refused, why

COUNT = re.compile(r"(\d+) passed, (\d+) failed")
EDIT = re.compile(r"rt: must-fail (\w+)/(\S+\.edit): (refused, as it must be.*|[A-Z]+.*)")
# From how many wrong bodies and minutes on one run puts the next crate off: so many fit CI's time on two processors, beside tests and programs.
MOST, MINUTES = 200, 100
# With these it puts none off, unless the minutes are given.
HAVE_NO_LIMIT = {"--all", "--record"}
# What a refused edit says where the prover did not refuse what it does.
SHOWS_LITTLE = re.compile(r"borrow checker does not cover|says (little|less) of the contract")


class Heard:
    """What `rt ci` said: its count, what came of each wrong body, how long each crate took, and why something failed."""

    def __init__(self, names):
        self.passed, self.failed, self.edits, self.last, self.why = 0, 1, {}, None, why.Why()
        self.work, self.begun = build.Work(names, {}, 1), time.monotonic()

    def hear(self, line):
        if found := build.PROVED.fullmatch(line):
            self.work.take(found[1], found[2] != "proved", (time.monotonic() - self.begun) / 60)
        # (the last line is its count, which comes with what is said here)
        if self.last is not None:
            print(self.last, flush=True)
        self.last = line
        if found := EDIT.match(line):
            self.edits[found[1], found[2]] = found[3]
        self.why.hear(line)

    def end(self, status):
        """Takes the count out of the last line, and a run that failed for one that failed."""
        if found := COUNT.fullmatch(self.last or ""):
            self.passed, self.failed = int(found[1]), max(int(found[2]), status != 0)
        elif self.last is not None:
            print(self.last)

    def count(self, is_right, what):
        """Counts a step of our own."""
        self.passed, self.failed = self.passed + is_right, self.failed + (not is_right)
        self.why.lines += [] if is_right else [f"check: {what}"]

    def that_say(self, words):
        """Returns the wrong bodies of which this was said."""
        return [f"{name}/{edit}" for (name, edit), said in self.edits.items() if re.search(words, said)]

    def refused_of(self, name):
        """Returns how many wrong bodies of a crate were refused for what they do."""
        return sum(it[0] == name and said.startswith("refused") and not SHOWS_LITTLE.search(said) for it, said in self.edits.items())


def edits_of(name):
    return sorted((part.CRATES / name / "must-fail").glob("*.edit"))


def out_of_layout(top, names):
    """Returns the crates of which `rt fmt` changes a file. `rt ci` would refuse each, but only once it is the crate's turn."""
    for name in names:
        subprocess.run(["rt", "fmt"], cwd=top / "crates" / name, stdout=subprocess.DEVNULL, check=False)
    texts = [it for it in part.CRATES.glob("*/*/**/*") if it.suffix in (".rt", ".antt") and it.relative_to(part.CRATES).parts[1] != "out"]
    changed = [it for it in texts if not filecmp.cmp(it, top / it.relative_to(part.ROOT), shallow=False)]
    return sorted({it.relative_to(part.CRATES).parts[0] for it in changed})


def rows_hold(top):
    """Returns whether worked calls come to their answers or say that memory is wanting, where each growth of it is refused."""
    program = top / "crates" / "refused_rows" / "out" / "refused_rows"
    if not program.exists():
        return False
    with tempfile.TemporaryDirectory() as folder:
        _, wrong = refused.refused(program, refused.built(folder))
    return not wrong


def callers_answered(top):
    """Returns whether callers in C, Python and Rust get from the library what they have to, which is proved once more."""
    crate = top / "crates" / callers.CRATE
    if subprocess.run(["rt", "lib", callers.CPU], cwd=crate, stdin=subprocess.DEVNULL, stdout=subprocess.DEVNULL, check=False).returncode:
        return False
    passed, failed = callers.called(crate / "out" / callers.LIBRARY)
    return bool(passed) and not failed


def try_wrong_bodies(top, names, heard, minutes_left):
    """Tries the wrong bodies of these crates of a copy that passed, and returns the crates that it put off for want of time."""
    begun, tried = time.monotonic(), []
    for name, (found, together) in joined.tried_in(top, names, lambda: time.monotonic() - begun <= 60 * minutes_left).items():
        tried.append(name)
        print(f"check: {together} of the {len(found)} wrong bodies of {name} were refused, many in one check", flush=True)
        for edit, said in found.items():
            heard.edits[name, edit] = said
            if said.startswith("NOT"):
                heard.count(False, f"must-fail {name}/{edit}: {said}")
    return [it for it in names if it not in tried]


def put_off(names, counts):
    """Returns those of some crates that come once MOST wrong bodies are taken."""
    taken, rest = 0, []
    for name in names:
        if taken < MOST:
            taken += counts[name]
        else:
            rest.append(name)
    return rest


def tell(heard, left, rest, due_count, stay):
    """Says what was tried, left and put off, what it took, and the count; of what was put off, that it `stay`s due, where it does."""
    for name, count in left.items():
        print(f"check: left the {count} wrong bodies of {name}, whose text is as recorded")
    for name, count in rest.items():
        print(f"check: put off the {count} wrong bodies of {name}{stay}: one run takes no more crates after {MOST} wrong bodies, or where it has taken long")
    used = resource.getrusage(resource.RUSAGE_CHILDREN)
    for it in heard.that_say(SHOWS_LITTLE):
        print(f"check: {it} shows little of a contract: change a value, and keep the names")
    # (these rt ci passes over)
    bad = heard.that_say("^BAD EDIT")
    # (where rt ci's words are others than these here, nothing is heard of them)
    if not heard.failed and len(heard.edits) != due_count:
        heard.count(False, f"of {due_count} wrong bodies that are due {len(heard.edits)} were heard of")
    if heard.failed or bad:
        heard.why.tell("check")
    print(f"check: {len(heard.edits)} wrong bodies tried or kept; {(used.ru_utime + used.ru_stime) / 60:.0f} processor minutes")
    print(f"{heard.passed} passed, {heard.failed + len(bad)} failed")
    return 1 if heard.failed + len(bad) else 0


def read(words):
    """Returns the options that are named, and after how many minutes the run puts crates off."""
    words, given = [*words], ""
    if "--minutes" in words:
        at = words.index("--minutes")
        given = "".join(words[at + 1:at + 2])
        if not given.isdecimal():
            sys.exit(f"check: --minutes takes a number{given and f', not {given}'}")
        del words[at:at + 2]
    if unknown := {*words} - {"--all", "--anew", "--record"}:
        sys.exit(f"check: unknown: {' '.join(sorted(unknown))}\n{__doc__}")
    if given and "--anew" in words:
        sys.exit("check: --minutes does not go with --anew, because rt ci then tries each wrong body: leave one of them out")
    return {*words}, int(given) if given else math.inf if {*words} & HAVE_NO_LIMIT else MINUTES


def main(words):
    words, minutes_given = read(words)
    record, names = due.Record(), [*part.lines()]
    heard = Heard(names)
    counts = {it: len(edits_of(it)) for it in names if edits_of(it)}
    left = {} if "--all" in words else {it: count for it, count in counts.items() if not record.is_due(it)}
    due_now = record.in_turn(it for it in counts if it not in left)
    rest = [] if words & HAVE_NO_LIMIT else put_off(due_now, counts)
    tried = [it for it in due_now if it not in rest]
    by_rounds = "--anew" not in words and joined.toolchain()
    with part.copied(names, () if by_rounds else tried) as top:
        if wanting := out_of_layout(top, names):
            print(f"check: run rt fmt in {', '.join(wanting)}\n0 passed, {len(wanting)} failed")
            return 1
        heard.end(part.run_ci(top, ["--anew"] if "--anew" in words else [], heard.hear))
        heard.count(rows_hold(top), "worked calls under refused growths of memory: refused_rows was not built, or did not come to its answers")
        if by_rounds and not heard.failed:
            rest += try_wrong_bodies(top, tried, heard, minutes_given - (time.monotonic() - heard.begun) / 60)
        # (last, since it builds the crates below the library anew: no round can stand on them then)
        if callers.CRATE in names:
            heard.count(callers_answered(top), "callers of the library in C, Python and Rust did not get what they have to, or it was not built")
    if "--record" in words:
        for name in (it for it in tried if it not in rest):
            record.note(name, heard.refused_of(name) == counts[name])
        record.write()
        minutes.write(heard.work.proved())
        minutes.main(["--write"])
    due_count = sum(counts.values()) - sum(left.values()) - sum(counts[it] for it in rest)
    return tell(heard, left, {it: counts[it] for it in rest}, due_count, "" if "--all" in words else ", which stay due")


if __name__ == "__main__":
    sys.exit(main(sys.argv[1:]))
