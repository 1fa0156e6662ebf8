"""Which crates' wrong bodies are due: those of each crate whose text, or what it reads of those below it, differs from what it was when they
were last all refused, and of every tenth other crate, picked by the commit, so that no record is believed for long.

The record stands in `tools/refused.txt`, a line for each crate: its name, and the digest of its text, of the definitions and clauses of the
crates below, each less the lines that are comments, and of the toolchain's version.
"""
import functools, hashlib, subprocess

import clauses, part

RECORD = part.ROOT / "tools" / "refused.txt"
PARTS = ("src", "specs", "proofs", "must-fail")
TENTH = 10
# How a line begins that is a comment: the prover reads none. One that makes a wrong body fit twice is found by edits.py.
COMMENT = {".rt": b"//", ".antt": b"--"}


def without_comments(file):
    """Returns what a file holds, less each line that is a comment."""
    text, mark = file.read_bytes(), COMMENT.get(file.suffix)
    return text if mark is None else b"".join(it for it in text.splitlines(keepends=True) if not it.lstrip().startswith(mark))


@functools.cache
def statements(name):
    """Returns the digest of what the crates above one read of it: its definitions, the clauses of its functions, and the ghost items of its types."""
    own, folder = hashlib.sha256(), part.CRATES / name
    for file in sorted((folder / "specs").rglob("*.antt")):
        own.update(repr((str(file.relative_to(folder)), without_comments(file))).encode())
    for file in sorted((folder / "src").rglob("*.rt")):
        text = without_comments(file).decode()
        found = [(it[1], made) for it in clauses.FUNCTION.finditer(text) if (made := clauses.clauses_at(text, it.end()))]
        ghosts = [it.strip() for it in text.splitlines() if it.lstrip().startswith("ghost ")]
        own.update(repr((str(file.relative_to(folder)), found, ghosts)).encode())
    return own.hexdigest()


def digest(name, version):
    """Returns the digest of a crate's text and of the statements of those below it, by the toolchain of this version."""
    own, folder = hashlib.sha256(version.encode()), part.CRATES / name
    for file in sorted(it for of in PARTS for it in (folder / of).rglob("*") if it.is_file()):
        own.update(repr((str(file.relative_to(folder)), without_comments(file))).encode())
    own.update(repr([(it, statements(it)) for it in part.with_those_below(name) if it != name]).encode())
    return own.hexdigest()


def version():
    return subprocess.run(["rt", "version"], capture_output=True, text=True, check=True).stdout.strip()


def commit():
    """Returns what picks every tenth crate: the commit, or what the repository's list of crates holds where there is no history."""
    try:
        return subprocess.run(["git", "rev-parse", "HEAD"], cwd=part.ROOT, capture_output=True, text=True, check=True).stdout.strip()
    except (OSError, subprocess.CalledProcessError):
        return hashlib.sha256((part.ROOT / "crates.txt").read_bytes()).hexdigest()


def drawn(name, by):
    """Returns the number that the commit draws for a crate."""
    return int(hashlib.sha256(f"{by} {name}".encode()).hexdigest(), 16)


def is_picked(name, by):
    return drawn(name, by) % TENTH == 0


class Record:
    """The digests of the record."""

    def __init__(self):
        self.version, self.commit = version(), commit()
        found = RECORD.read_text(encoding="utf-8").splitlines() if RECORD.is_file() else []
        self.known = dict(line.split() for line in found if line.strip())

    def is_due(self, name):
        return self.known.get(name) != digest(name, self.version) or is_picked(name, self.commit)

    def in_turn(self, names):
        """Returns crates in the order that the commit draws."""
        return sorted(names, key=lambda it: drawn(it, self.commit))

    def note(self, name, all_refused):
        """Keeps or drops a crate's line."""
        self.known.pop(name, None)
        if all_refused:
            self.known[name] = digest(name, self.version)

    def write(self):
        RECORD.write_text("".join(f"{name} {text}\n" for name, text in sorted(self.known.items())), encoding="utf-8")
