#!/usr/bin/env python3
"""walk.py: does what README.md and docs/WALKTHROUGH.md say, in a fresh clone, and compares what comes with what they show.

  trials/walk.py [--archive PROGRAM] [--page FILE] [--patience FACTOR]

A block of a page that is indented and begins with a command is given to a shell, all blocks of a page to one; where a second part
follows behind an empty line, that is what has to come, with `..` for any lines, and DAY for a day. Where nothing is shown, no
refusal may come, and the last command may not fail; what the README says of its blocks in its own words stands in SAID. The clone
is of the repository as it is committed, with what is changed but not committed, and runs the program that is given, as if it
were built there: nothing is proved, and ./check, which runs all tests, is left out. Port 8080 becomes a free one; FACTOR makes each `sleep`
longer, on a busy machine. New mail comes by mailers.py. The last line is 'N passed, N failed, N skipped'.
"""
import os, pathlib, re, shutil, signal, subprocess, tempfile, time

from trial import Trial, begun, clone, free_ports, words_of
import mailers

PAGES = ("README.md", "docs/WALKTHROUGH.md")
KEYWORDS = ("for", "{", "if", "while", "umask", "cd", "export")
# A stand-in for the toolchain, by which the front door of a clone builds the program that is given.
STAND_IN = """#!/bin/sh
case $1 in
  version) echo 'the program that was given' ;;
  ci) mkdir -p crates/archive/out && cp -- "$PROGRAM" crates/archive/out/archive && echo '1 passed, 0 failed' ;;
esac
"""
# What takes long, or another machine.
LEFT_OUT = {"./check": "it runs every test", "apt-get": "it changes the machine"}
END = "--- end of block"
# The row of the answer to a mail that is withdrawn.
ANSWER = ('<div class="d0"><a href="/l/seeds/month/2024-02">2024-02-05 10:24</a> <a href="/l/seeds/by/ada%40garden.example">ada@garden.example</a> '
          '<a href="/l/seeds/m/e01cb884cb38afe2e291ffe2112b98a6d505b7eed782f253f446b56b26174110">Re: Keys of the shed</a> '
          '<a href="/l/seeds/t/e01cb884cb38afe2e291ffe2112b98a6d505b7eed782f253f446b56b26174110">thread</a></div>')
# What blocks print of which a page says it in words: by the page and the beginning of their commands.
SAID = {
    ("README.md", "./archive sift"): "From anna@example.org Tue Mar  4 10:00:00 2003\n..",
    ("README.md", "umask 077"): "added\nnew 40 known 0 too-large 0\nadded\ngranted\nlistening on 127.0.0.1:8080",
    ("README.md", "curl -s http"): "..\n<h1>seeds: threads</h1>\n..\n</body></html>\n<!DOCTYPE html>\n..\nwithdrawn\nlistening on 127.0.0.1:8080\n"
                                   f"{ANSWER}\n403 Forbidden: withdrawn\nFrom: Ada Birch <ada@garden.example>\nTo: seeds@lists.example\n"
                                   "Subject: Keys of the shed\n..",
}


def blocks(text):
    """The indented blocks of a page: the line of each, its commands, and what is shown behind them (none, where nothing is)."""
    found, lines, heading = [], text.splitlines(), ""
    at = 0
    while at < len(lines):
        if lines[at].startswith("#"):
            heading = lines[at].lstrip("# ")
        if not lines[at].startswith("    ") or at and lines[at - 1].strip():
            at += 1
            continue
        begun = at
        while at < len(lines) and (lines[at].startswith("    ") or not lines[at].strip()):
            at += 1
        parts = "\n".join(it[4:] for it in lines[begun:at]).strip("\n").split("\n\n")
        found.append((begun + 1, heading, parts[0], "\n\n".join(parts[1:]) if parts[1:] else None))
    return found


def is_command(line, folder):
    """Whether a line is one for a shell: its first word is an assignment, a word of the shell, a file here, or a program."""
    word = line.split()[0]
    if word in LEFT_OUT or word in KEYWORDS or re.match(r"[A-Z_]+=", word):
        return True
    return os.access(folder / word, os.X_OK) if "/" in word else shutil.which(word) is not None


class Shell:
    """One shell for a page, in its clone."""

    def __init__(self, folder, port, patience, path, words, known):
        self.words, self.said = {"8080": str(port), **words}, folder.parent / f"{folder.name}.said"
        self.out = open(self.said, "wb")
        # (its session is its own, so that what it began can be ended with it)
        self.process = begun(subprocess.Popen(
            ["bash"], cwd=folder, stdin=subprocess.PIPE, stdout=self.out, stderr=subprocess.STDOUT, start_new_session=True, text=True,
            env={**os.environ, "PATH": path, "LC_ALL": "C.UTF-8", **known}, **mailers.as_user()), group=True)
        self.tell(f"sleep() {{ command sleep $(({patience} * $1)); }}")

    def tell(self, text):
        self.process.stdin.write(f"{text}\n")
        self.process.stdin.flush()

    def run(self, commands, seconds=300):
        """What the commands print, and the status of the last one; none where they do not come to their end."""
        before = self.said.stat().st_size
        self.tell(self.here(commands) + f"\nprintf '%s %s\\n' '{END}' $?")
        last = time.monotonic() + seconds
        while not (ended := re.search(rf"^{END} (\d+)\n", text := self.since(before), re.MULTILINE)):
            if time.monotonic() > last or self.process.poll() is not None:
                return text, None
            time.sleep(0.1)
        return text[:ended.start()], int(ended[1])

    def since(self, before):
        return self.said.read_bytes()[before:].decode("utf-8", "replace")

    def here(self, text):
        for word, other in self.words.items():
            text = text.replace(word, other)
        return text

    def end(self):
        """Ends the shell and all that it began: first in a way in which keep.sh can stop what it began."""
        self.process.stdin.close()
        for how in [signal.SIGTERM] + [0] * 50 + [signal.SIGKILL]:
            try:
                os.killpg(self.process.pid, how)
            except ProcessLookupError:
                break
            self.process.poll()
            time.sleep(0.1)
        self.process.wait()
        self.out.close()


def said_by(text):
    """What was printed, without what the shell says of programs that were stopped."""
    return "\n".join(it for it in text.splitlines() if not re.match(r"(bash: line \d+: +)?\[?\d*\]?.*\bTerminated\b", it)).rstrip("\n")


def matches(shown, said):
    """Whether this was said, where `..` stands for any lines, DAY for a day."""
    wanted = ""
    for line in shown.splitlines():
        wanted += r"(?:[^\n]*\n)*" if line.strip() == ".." else re.escape(line).replace("DAY", r"\d{4}-\d\d-\d\d") + r"\n"
    return re.fullmatch(wanted, f"{said}\n" if said else "") is not None


def short(text):
    """A text, of which the middle is left out where it is long."""
    return text if len(text) < 3000 else f"{text[:1500]}\n[..]\n{text[-1500:]}"


def walk(trial, page, folder, shell, lacking):
    for line, heading, commands, shown in blocks((folder / page).read_text(encoding="utf-8")):
        what, first = f"{page}:{line} ({heading})", commands.split()[0]
        if not is_command(commands.splitlines()[0], folder):
            print(f"no command: {what}: {first} ..")
            continue
        left_out = [it for it in commands.splitlines() if it.split()[0] in LEFT_OUT]
        for it in left_out:
            trial.skip(what, f"{it}: {LEFT_OUT[it.split()[0]]}")
        commands = "\n".join(it for it in commands.splitlines() if it not in left_out)
        if not commands:
            continue
        if wanted := [it for it in lacking if it in commands]:
            trial.skip(what, lacking[wanted[0]])
            continue
        text, status = shell.run(commands)
        said, in_words = said_by(text), [it for (where, begins), it in SAID.items() if where == page and commands.startswith(begins)]
        shown = shown if shown is not None else in_words[0] if in_words else None
        if shown is None:
            good = status in (0, 143) and not re.search(r"^archive: |^\S+\.sh: |command not found", said, re.MULTILINE)
        else:
            good = status is not None and matches(shell.here(shown), said)
        trial.holds(what, good)
        if not good:
            print(f"  commands:\n{commands}\n  said (status {status}):\n{short(said)}\n  shown:\n{short(shell.here(shown)) if shown else '(nothing)'}")
        if status is None:
            trial.holds(f"{page}: the commands behind that one are not tried, as it does not come to its end", False)
            break
    shell.end()


def with_tokens(trial, page, folder):
    """What the commands of a page leave and holds tokens: nobody else may read it, and git does not offer it."""
    made = [it for it in folder.rglob("*") if it.is_file() and (it.suffix == ".db" or it.name in ("log", "commands.done", "commands.refused")) and ".git" not in it.parts]
    trial.check(f"{page}: files with tokens, and those that others may read", (bool(made), [str(it.relative_to(folder)) for it in made if it.stat().st_mode & 0o077 and
                not any(up.stat().st_mode & 0o077 == 0 for up in it.parents if folder in up.parents)]), (True, []))
    offered = subprocess.run(["git", "-c", f"safe.directory={folder}", "status", "--porcelain", "--untracked-files=all"], cwd=folder, stdout=subprocess.PIPE, text=True, check=True).stdout
    trial.check(f"{page}: of these what git would add", [it for it in offered.splitlines() if it.endswith((".db", "/log", "/commands.done", "/commands.refused"))], [])


def build(folder, program):
    """Has the front door of a clone take the program for one that it built: by a stand-in for the toolchain, which copies it."""
    with tempfile.TemporaryDirectory() as room:
        stand_in = pathlib.Path(room) / "rt"
        stand_in.write_text(STAND_IN)
        stand_in.chmod(0o755)
        known = {"PATH": f"{room}:{os.environ['PATH']}", "PROGRAM": str(program)}
        subprocess.run([folder / "archive", "--version"], stdout=subprocess.DEVNULL, stderr=subprocess.DEVNULL, check=True, env={**os.environ, **known})


def without_toolchain(folder):
    """The PATH without the toolchain, so that nothing can be built: a program of other sources is told at once."""
    names = folder / "bin"
    names.mkdir()
    kept = []
    for it in os.environ["PATH"].split(":"):
        if os.access(pathlib.Path(it) / "rt", os.X_OK):
            for file in pathlib.Path(it).iterdir():
                if file.name != "rt" and not (names / file.name).exists():
                    (names / file.name).symlink_to(file)
        else:
            kept.append(it)
    return ":".join([str(names), *kept])


def main():
    asked = words_of(__doc__, page={"help": "this page alone"}, patience={"type": int, "default": 1, "help": "how much longer each sleep is"})
    with Trial() as trial, tempfile.TemporaryDirectory() as room:
        if not all([trial.has(it, f"all of it, for want of {it}") for it in ("git", "curl", "sqlite3", "openssl")]):
            return
        room = pathlib.Path(room)
        path = without_toolchain(room)
        for page in [asked.page] if asked.page else PAGES:
            folder = room / re.sub(r"\W", "-", page)
            clone(folder)
            build(folder, asked.archive)
            with mailers.ready(room / f"{folder.name}.mail", folder) as (words, known, lacking):
                walk(trial, page, folder, Shell(folder, free_ports(1)[0], asked.patience, path, words, known), lacking)
            with_tokens(trial, page, folder)


main()
