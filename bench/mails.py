#!/usr/bin/env python3
"""mails.py: the program on mboxes that do harm (forms.py), at a size, at twice it and at four times it.

  bench/mails.py [--archive PROGRAM] [--only WORD] [--bytes 1000000] [--messages 12500] [--growth 2.6] [--scratch FOLDER]

Of each form it imports, sifts and exports an mbox, and asks a server for each page. It prints the processor seconds and the
peak memory of each step at the three sizes, and the memory at the largest. A form fails where a step ends by a signal, with a
status but 0 and 1, with no line at status 1, or a page is not 200; where a step that takes more than a tenth of a second grows
more than --growth times from one size to the next; and where a step takes more than a second of one message, or three of many,
at the largest. What grew or was slow is measured once more before that counts. Steps of more than 200 MB are marked.
Twenty minutes in all. The last line is 'N passed, M failed', by forms; status 1 where one failed.
Build the program first: ./archive --version. It wants GNU time.
"""
import argparse, pathlib, re, socket, sqlite3, subprocess, sys, tempfile

from forms import FORMS
from serving import ROOT, Server, get

POLICY = b'[[rule]]\nname = "all"\neffect = "allow"\n'
DAY = "2003-03-20"
TIMES = (1, 2, 4)
SECONDS = {"bytes": 1.0, "messages": 3.0}  # at the largest size
LARGE = 200  # megabytes that are marked
FAULTS = {"archive: S1 Read", "archive: S2 Write"}


class Step:
    """What a step took, and what came of it."""

    def __init__(self, seconds, megabytes, came, is_good):
        self.seconds, self.megabytes, self.came, self.is_good = seconds, megabytes, came, is_good

    def least(self, other):
        """The same step measured twice: the lesser time."""
        return self if self.seconds <= other.seconds or not self.is_good else other


def ran(words, stdin=None):
    """A run of the program as a step; what it printed counts where it is short."""
    with tempfile.TemporaryFile() as out, tempfile.TemporaryFile() as said, tempfile.NamedTemporaryFile() as figures:
        words = ["/usr/bin/time", "-q", "-f", "%U %S %M", "-o", figures.name, *map(str, words)]
        with open(stdin or "/dev/null", "rb") as source:
            status = subprocess.run(words, stdin=source, stdout=out, stderr=said, check=False).returncode
        user, system, kilobytes = map(float, figures.read().split()[-3:])
        length = out.seek(0, 2)
        out.seek(0)
        said.seek(0)
        lines = said.read().decode(errors="replace").splitlines()
        printed = out.read(100).decode(errors="replace").strip() if length < 100 else f"{length} bytes"
        came = (printed if status == 0 else "; ".join(lines)) or f"status {status}"
        return Step(user + system, kilobytes / 1024, came, status in (0, 1) and (status == 0) == (not lines))


def processor(pid):
    """The processor seconds that a process took."""
    return int(pathlib.Path(f"/proc/{pid}/schedstat").read_text().split()[0]) / 1e9


def peak(pid):
    return int(re.search(r"VmHWM:\s+(\d+)", pathlib.Path(f"/proc/{pid}/status").read_text())[1]) / 1024


def asked(server, path):
    """A request to a server as a step."""
    begun = processor(server.process.pid)
    with socket.create_connection(("127.0.0.1", server.port), timeout=120) as peer:
        peer.sendall(get(path))
        first, length = peer.recv(65536), 0
        piece = first
        while piece:
            length += len(piece)
            piece = peer.recv(1 << 20)
    code = first[9:12].decode()
    return Step(processor(server.process.pid) - begun, peak(server.process.pid), f"{code}, {length} bytes", code == "200")


def served(program, db, policy, paths):
    """The steps of each request to one server, which ends by itself."""
    server = Server(program, db, len(paths) + 1, policy, DAY)
    steps = {name: asked(server, path) for name, path in paths.items()}
    server.connect().close()
    status, lines = server.finish()
    if status != 0 or not {*lines} <= FAULTS:
        steps["serve"] = Step(0, 0, f"status {status}, {lines}", False)
    return steps


def pages(db):
    """The paths that are asked for: all pages of a list, and those of its longest message."""
    found = sqlite3.connect(f"file:{db}?mode=ro", uri=True)
    row = found.execute("SELECT key FROM message ORDER BY length(text) DESC LIMIT 1").fetchone()
    found.close()
    paths = {"lists": "/", "month": "/l/soc/month/2003-03", "threads": "/l/soc/threads", "author": "/l/soc/by/anna%40example.org", "mbox": "/l/soc/mbox"}
    return paths | ({"message": f"/l/soc/m/{row[0]}", "thread": f"/l/soc/t/{row[0]}"} if row else {})


def measured(program, folder, mbox):
    """The steps of a form at one size, by their names."""
    db, policy = folder / "db", folder / "policy"
    for old in folder.glob("db*"):
        old.unlink()
    policy.write_bytes(POLICY)
    subprocess.run([program, "list-add", "--db", db, "soc"], check=True, stdout=subprocess.DEVNULL)
    steps = {"import": ran([program, "import", "--db", db, "soc", mbox]), "sift": ran([program], mbox),
             "export": ran([program, "export", "--db", db, "--policy", policy, "--day", DAY, "soc"])}
    return steps | served(program, db, policy, pages(db))


def tables(program, folder, form, sizes):
    """A form's steps at each size, and the bytes of the largest mbox."""
    cells, length = {}, 0
    for size in sizes:
        mbox = folder / "mbox"
        mbox.write_bytes(form(size))
        length = mbox.stat().st_size
        for name, step in measured(program, folder, mbox).items():
            cells.setdefault(name, []).append(step)
    return cells, length


def marks(cells, growth, seconds):
    """What a step of three sizes is marked with: a growth, slowness, or that something is wrong."""
    found = [f"GREW {b.seconds / a.seconds:.1f}" for a, b in zip(cells, cells[1:]) if b.seconds > 0.1 and b.seconds > growth * a.seconds > 0]
    return found + ["SLOW"] * (cells[-1].seconds > seconds) + ["WRONG"] * (not all(it.is_good for it in cells))


def try_form(program, folder, unit, form, sizes, growth):
    """The steps of a form, their marks, and the bytes of the largest mbox."""
    cells, length = tables(program, folder, form, sizes)
    if any(marks(it, growth, SECONDS[unit]) for it in cells.values()):
        again, _ = tables(program, folder, form, sizes)
        cells = {name: [*map(Step.least, it, again.get(name, it))] for name, it in cells.items()}
    return cells, {name: marks(it, growth, SECONDS[unit]) for name, it in cells.items()}, length


def main():
    words = argparse.ArgumentParser(description=__doc__, formatter_class=argparse.RawDescriptionHelpFormatter)
    words.add_argument("--archive", default=ROOT / "crates" / "archive" / "out" / "archive")
    words.add_argument("--only", default="", help="the forms whose name this pattern finds")
    words.add_argument("--bytes", type=int, default=1_000_000)
    words.add_argument("--messages", type=int, default=12_500)
    words.add_argument("--growth", type=float, default=2.6)
    words.add_argument("--scratch", help="make files in this folder; one in memory is faster")
    asked_for, passed, failed = words.parse_args(), 0, 0
    with tempfile.TemporaryDirectory(dir=asked_for.scratch) as folder:
        for name, (unit, form) in FORMS.items():
            if not re.search(asked_for.only, name):
                continue
            sizes = [times * (asked_for.bytes if unit == "bytes" else asked_for.messages) for times in TIMES]
            cells, marked, length = try_form(str(asked_for.archive), pathlib.Path(folder), unit, form, sizes, asked_for.growth)
            failed, passed = failed + any(marked.values()), passed + (not any(marked.values()))
            print(f"== {name}: {sizes[0]} {unit}, twice, four times ({length / 1e6:.1f} MB)", flush=True)
            for step, it in cells.items():
                large = ["LARGE"] * (it[-1].megabytes > LARGE)
                print(f"  {step:8} " + " ".join(f"{cell.seconds:7.3f} s" for cell in it) + "  " + " ".join(f"{cell.megabytes:6.0f} MB" for cell in it) +
                      f"  {it[-1].came[:100]}  {' '.join(marked[step] + large)}", flush=True)
    print(f"{passed} passed, {failed} failed")
    sys.exit(1 if failed or not passed else 0)


if __name__ == "__main__":
    main()
