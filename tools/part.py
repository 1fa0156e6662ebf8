#!/usr/bin/env python3
"""The toolchain's gate, `rt ci`, over a copy of a part of the repository, for the scripts beside this one.

  part.py NAME     prints the crate and those that it stands on, lowest first, one on each line

What `rt ci` passes is kept on the machine by what was read, and not by where it lay: so a copy that passed counts for every other copy.
"""
import contextlib, pathlib, shutil, subprocess, sys, tempfile

ROOT = pathlib.Path(__file__).resolve().parent.parent
CRATES = ROOT / "crates"


def lines():
    """Returns the line of each crate in crates.txt by its name, lowest first."""
    text = (ROOT / "crates.txt").read_text(encoding="utf-8")
    return {it.partition(":")[0].split()[0]: it for it in text.splitlines() if it.strip() and not it.startswith("#")}


def with_those_below(name):
    """Returns the name of a crate and of those that it stands on, lowest first."""
    known, wanted = lines(), {name}
    for it in reversed(known):
        if it in wanted:
            wanted |= {*known[it].partition(":")[2].split()} & {*known}
    return [it for it in known if it in wanted]


@contextlib.contextmanager
def copied(names, with_edits_of):
    """Gives a folder that holds these crates as a repository, with the wrong bodies of some of them, and removes it at the end."""
    with tempfile.TemporaryDirectory(prefix="archive-part-") as room:
        top = pathlib.Path(room)
        for name in names:
            left = {"out"} if name in with_edits_of else {"out", "must-fail"}
            # (out and must-fail are names of folders right in the crate's)
            ignored = lambda at, found, top=str(CRATES / name), left=left: left & {*found} if at == top else ()
            shutil.copytree(CRATES / name, top / "crates" / name, ignore=ignored)
        known = lines()
        (top / "crates.txt").write_text("".join(f"{known[it]}\n" for it in names), encoding="utf-8")
        shutil.copyfile(ROOT / "HANDLES", top / "HANDLES")
        # (what lies above it is no part of it)
        (top / ".git").mkdir()
        yield top


def run_ci(top, words, hear):
    """Runs `rt ci` at the top of a copy, has each of its lines heard, and returns its status."""
    how = {"stdin": subprocess.DEVNULL, "stdout": subprocess.PIPE, "stderr": subprocess.STDOUT, "text": True, "errors": "replace"}
    with subprocess.Popen(["rt", "ci", *words], cwd=top, **how) as ran:
        for line in ran.stdout:
            hear(line.rstrip("\n"))
    return ran.returncode


def main(words):
    if len(words) != 1:
        sys.exit(__doc__)
    if words[0] not in lines():
        sys.exit(f"part: crates.txt has no crate {words[0]}")
    print("\n".join(with_those_below(words[0])))
    return 0


if __name__ == "__main__":
    sys.exit(main(sys.argv[1:]))
