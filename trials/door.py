#!/usr/bin/env python3
"""door.py: the front door, ./archive, in a fresh clone, over a stand-in for the toolchain: nothing is proved, and it takes seconds.

  trials/door.py [--help]

Help before any build; a first filter, which a trial answers; what a first build says; later runs; a tree that is moved, copied with
other times, and copied to where no toolchain is; a source that is touched, changed, added, taken away; a program without its stamp; a
build that fails, and one that cannot begin. The last line is 'N passed, N failed, N skipped'.
"""
import argparse, os, pathlib, re, shutil, subprocess, tempfile

from trial import ROOT, Trial, clone

# It says what `rt` says that the front door hears, and builds programs: the whole one says its words and counts what it reads; that of
# sift alone does so too in other words, and without words writes what the gate wants of it. So does a trial's program, which is given
# a file, as `rt` takes of a pipe what it gives within two seconds.
TOOLCHAIN = """#!/bin/sh
case $1 in
  version) echo stand-in 1 ;;
  ci)
    [ ! -e "$STAND_IN/fails" ] || { echo 'rt: civil_time NOT PROVED'; echo '0 passed, 1 failed'; exit 1; }
    ! grep -q "^archive:" crates.txt || echo x >> "$STAND_IN/builds"
    mkdir -p crates/archive/out crates/sift/out
    printf '#!/bin/sh\\necho ran "$@"\\nwc -c\\n' > crates/archive/out/archive
    { printf '#!/bin/sh\\nif [ $# -gt 0 ]; then echo sifted "$@"; exec wc -c; fi\\ncat << END\\n'; cat crates/sift/stdout; echo END; } > crates/sift/out/sift
    chmod +x crates/sift/out/sift
    grep -v '^#' crates.txt | cut -d : -f 1 | while read -r name _; do
      case $name in civil_time) echo "rt: $name is kept: an earlier run" ;; *) echo "rt: $name proved" ;; esac
    done
    [ ! -e "$STAND_IN/half" ] || { echo 'rt: archive NOT PROVED'; echo '0 passed, 1 failed'; exit 1; }
    echo '1 passed, 0 failed' ;;
  try)
    echo x >> "$STAND_IN/trials"
    [ -f /dev/stdin ] || { echo 'run=none proved=no' >&2; exit 2; }
    [ ! -e "$STAND_IN/long" ] || { echo 'checked: no-answer: the program wrote more than 1048576 bytes' >&2; echo 'run=no-answer proved=no' >&2; exit 6; }
    while [ "$1" != -- ]; do shift; done
    shift
    echo tried "$@"
    wc -c
    case $* in *bad*) echo 'error: bad words' >&2; echo 'run=ended status=2 runners=1 proved=no' >&2; exit 2 ;; esac
    echo 'run=ended status=0 runners=1 proved=no' >&2 ;;
esac
"""
UNPROVED = r"archive: a trial answers, which is compiled now, in minutes, and is not proved; \./archive --version builds the proved program, in some \d+ minutes\n"


class Door:
    """A clone with a stand-in for the toolchain on the PATH."""

    def __init__(self, room):
        self.room, self.top = room, room / "clone"
        clone(self.top)
        (room / "bin").mkdir()
        (room / "bin" / "rt").write_text(TOOLCHAIN)
        (room / "bin" / "rt").chmod(0o755)
        # (the real one is on no PATH here)
        self.others = ":".join(it for it in os.environ["PATH"].split(":") if not os.access(pathlib.Path(it) / "rt", os.X_OK))
        (room / "programs").mkdir()
        for name in ("git", "python3", "bash", "sh", "env"):
            if found := shutil.which(name):
                (room / "programs" / name).symlink_to(found)
        self.others = f"{room / 'programs'}:{self.others}"

    def run(self, *words, toolchain=True, given=b"", **variables):
        """The status, standard output, standard error."""
        path = f"{self.room / 'bin'}:{self.others}" if toolchain else self.others
        ran = subprocess.run([self.top / "archive", *words], input=given, capture_output=True, check=False,
                             env={**os.environ, "PATH": path, "STAND_IN": str(self.room), **variables})
        return ran.returncode, ran.stdout.decode(), ran.stderr.decode()

    def slowly(self, *words, pieces):
        """Its standard output, where each of these pieces of its input comes some seconds after the one before."""
        does = "".join(f"printf %s {it}; sleep 2.5; " for it in pieces)
        ran = subprocess.run(["sh", "-c", f'({does}) | "$0" "$@"', self.top / "archive", *words], capture_output=True, text=True, check=False,
                             env={**os.environ, "PATH": f"{self.room / 'bin'}:{self.others}", "STAND_IN": str(self.room)})
        return ran.stdout

    def count(self, what):
        file = self.room / what
        return len(file.read_text()) // 2 if file.exists() else 0

    def builds(self):
        return self.count("builds")

    def lose(self, *names):
        """Takes away what was built."""
        for name in names or ("archive", "sift"):
            shutil.rmtree(self.top / "crates" / name / "out")


def before(trial, door):
    for words in (["--help"], ["-h"], ["help"], ["help", "grant"], ["sift", "--help"], ["grant", "--help"]):
        status, said, wrong = door.run(*words, toolchain=False)
        trial.check(f"{' '.join(words)} before a build: status, errors, builds", (status, wrong, door.builds()), (0, "", 0))
    for what in ("not built here yet", "docs/INSTALL.md says how to install", "archive grant --db FILE PERSON LIST KIND FROM UNTIL", "archive < MBOX"):
        trial.holds(f"it says '{what}'", what in said)
    trial.holds("without the toolchain it speaks of no build of its own", "minutes at first on" not in said)
    built_here = door.run("--help")[1]
    trial.holds("with the toolchain it says what a build takes", "minutes at first on" in built_here and "says how to install" not in built_here)
    table = next(it for it in (ROOT / "docs" / "COMMANDS.md").read_text().split("\n\n") if it.startswith("| Arguments")).splitlines()
    trial.check("it has the commands of the page", (said.count("\n  archive "), "](" in said, "`" in said), (len(table) - 2, False, False))
    for words in (["list-add"], ["sift"]):
        status, said, wrong = door.run(*words, toolchain=False)
        trial.check(f"without the toolchain nothing is built for {words[0]}", (status, said, wrong), (1, "", "archive: the toolchain's command rt is not on the PATH; docs/INSTALL.md says how to do without\n"))


def tried(trial, door):
    for words in ([], ["sift"], ["sift", "--day", "2003-03-20"]):
        status, said, wrong = door.run(*words, given=b"From")
        trial.check(f"a trial answers {words}", (status, said), (0, " ".join(["tried", *words]) + "\n4\n"))
        trial.holds("one line says that it is not proved", re.fullmatch(UNPROVED, wrong), wrong)
    status, said, wrong = door.run("sift", "bad")
    trial.check("its status is the program's", (status, said), (2, "tried sift bad\n0\n"))
    trial.holds("so are its errors", wrong.endswith("error: bad words\n"))
    trial.check("a slow pipe is read to its end", door.slowly("sift", pieces=["From", "-"]), "tried sift\n5\n")
    trial.check("as much as a trial takes", door.run("sift", given=b"\n" * (64 << 20))[1], f"tried sift\n{64 << 20}\n")
    trial.check("so far nothing was built", (door.builds(), door.count("trials")), (0, 6))


def untried(trial, door):
    more = (64 << 20) + 1
    status, said, wrong = door.run("sift", given=b"\n" * more)
    trial.check("more input than a trial takes has the program built, which answers", (status, said, door.builds(), door.count("trials")), (0, f"ran sift\n{more}\n", 1, 6))
    trial.holds("which is said", "the input has more than 64 MiB" in wrong)
    trial.check("what has a program tries nothing", (door.run("sift"), door.count("trials")), ((0, "ran sift\n0\n", ""), 6))
    door.lose()
    (door.room / "long").touch()
    status, said, wrong = door.run("sift", given=b"From")
    trial.check("so has an answer that is too long", (status, said, door.builds(), door.count("trials")), (0, "ran sift\n4\n", 2, 7))
    trial.holds("which is said", "the answer has more than 1 MiB" in wrong)
    (door.room / "long").unlink()
    door.lose()
    trial.check("with ARCHIVE_PROVED=1 nothing is tried", (door.run("sift", ARCHIVE_PROVED="1")[1], door.count("trials")), ("ran sift\n0\n", 7))
    door.lose()


def small(trial, door):
    (door.room / "half").touch()
    status, said, wrong = door.run("one")
    trial.check("a build that fails behind the program of sift leaves that", (status, said), (1, ""))
    trial.holds("which is said", "archive: ./archive sift runs from here on\n" in wrong)
    begun, tries = door.builds(), door.count("trials")
    trial.check("it answers until the whole one is there", door.run("sift", "--day", "2003-03-20", given=b"From"), (0, "sifted sift --day 2003-03-20\n4\n", ""))
    source = door.top / "crates" / "sift" / "src" / "main.rt"
    text = source.read_text()
    source.write_text(f"{text}// more\n")
    (door.room / "half").unlink()
    trial.check("where its sources changed it is built anew, and nothing is tried", (door.run("sift")[1], door.builds() - begun, door.count("trials") - tries),
                ("ran sift\n0\n", 1, 0))
    source.write_text(text)
    door.lose()


def first(trial, door):
    status, said, wrong = door.run("one", "two words", "--help")
    trial.holds("a help to other words is a help too", status == 0 and "not built here yet" in said)
    (door.room / "fails").touch()
    status, said, wrong = door.run("one")
    trial.holds("a build that fails says so", (status, said) == (1, "") and "NOT PROVED" in wrong and "build.log has" not in wrong and "the build failed" in wrong)
    (door.room / "fails").unlink()
    begun = door.builds()
    status, said, wrong = door.run("one", "two words", "")
    trial.check("the first run builds, and then runs", (status, said, door.builds() - begun), (0, "ran one two words \n0\n", 1))
    lines = wrong.splitlines()
    told = [re.search(r"archive: proved (\w+) \((\d+) of (\d+)\); (\d+) % of the work is done, after (\d+) minutes; some (\d+) more", it) for it in lines[1:-1] if "runs from here on" not in it]
    trial.holds("it says what it is at, how much is done and how long it still takes", len(told) > 20 and all(told), lines[len(lines) // 2])
    shares = [int(it[4]) for it in told if it]
    trial.holds("the share grows to nearly all, as the program is still to be built", shares == sorted(shares) and shares[-1] >= 90, shares[-1])
    left = [int(it[6]) for it in told if it]
    trial.holds("what is left never rises", left == sorted(left, reverse=True), f"{left[0]} to {left[-1]}")
    trial.check("it ends with", lines[-1], "archive: built")


def later(trial, door):
    begun = door.builds()
    ran = (0, "ran a\n0\n", "")
    trial.check("later runs build nothing", (door.run("a"), door.builds() - begun), (ran, 0))
    trial.check("help is the program's own then", door.run("--help")[1], "ran --help\n0\n")
    moved = door.room / "elsewhere" / "moved"
    moved.parent.mkdir()
    shutil.move(door.top, moved)
    door.top = moved
    trial.check("a tree that was moved is not built again", (door.run("a"), door.builds() - begun), (ran, 0))
    copied = door.room / "copied"
    shutil.copytree(moved, copied, symlinks=True)
    door.top = copied
    trial.check("nor a copy where no toolchain is", door.run("a", toolchain=False), ran)
    for it in (copied / "crates").rglob("*.rt"):
        it.touch()
    trial.check("nor one with other times", (door.run("a"), door.builds() - begun), (ran, 0))
    source = copied / "crates" / "archive" / "src" / "main.rt"
    times, text = source.stat(), source.read_text()
    source.write_text(f"{text}// more\n")
    os.utime(source, ns=(times.st_atime_ns, times.st_mtime_ns))
    trial.check("help builds nothing, whatever changed", (door.run("a", "--help"), door.builds() - begun), ((0, "ran a --help\n0\n", ""), 0))
    trial.check("a source that is changed has it built, whatever its time", (door.run("a")[:2], door.builds() - begun), (ran[:2], 1))
    source.with_name("more.rt").write_text("")
    trial.check("so has one that is new", (door.run("a")[:2], door.builds() - begun), (ran[:2], 2))
    source.with_name("more.rt").unlink()
    trial.check("and one that is gone", (door.run("a")[:2], door.builds() - begun), (ran[:2], 3))


def without_stamp(trial, door):
    begun, tries = door.builds(), door.count("trials")
    (door.top / "crates" / "archive" / "out" / "built-by-the-front-door").unlink()
    for words in (["a"], ["sift"]):
        status, said, wrong = door.run(*words)
        trial.check(f"a program without its stamp runs: {words[0]}", (status, said, door.builds() - begun, door.count("trials") - tries),
                    (0, f"ran {words[0]}\n0\n", 0, 0))
        trial.holds("one line says so", wrong.count("\n") == 1 and "cannot tell from which sources" in wrong and "running it anyway" in wrong, wrong)
    trial.check("help too", door.run("--help"), (0, "ran --help\n0\n", ""))


def main():
    argparse.ArgumentParser(description=__doc__, formatter_class=argparse.RawDescriptionHelpFormatter).parse_args()
    with Trial() as trial, tempfile.TemporaryDirectory() as room:
        if all([trial.has("git"), trial.has("python3")]):
            door = Door(pathlib.Path(room))
            for does in (before, tried, untried, small, first, later, without_stamp):
                does(trial, door)


main()
