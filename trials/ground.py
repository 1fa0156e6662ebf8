"""ground.py: what the trials of hostile use share: runs of the program, a server, and the count of what passed."""
import argparse, contextlib, os, pathlib, shutil, socket, sqlite3, subprocess, sys, tempfile

import trial
from trial import ROOT, Count

PROGRAM = ROOT / "crates" / "archive" / "out" / "archive"
OPEN = b'[[rule]]\nname = "all"\neffect = "allow"\n'
DAY = "2003-03-20"
# Two messages, the second an answer to the first.
TWO = (b"From anna@example.org Tue Mar  4 10:00:00 2003\nFrom: Anna <anna@example.org>\nSubject: Hello\n\nOne.\n\n"
       b"From bob@example.org Wed Mar 12 10:30:00 2003\nSubject: Re: Hello\n\nTwo.\n\n")
# What a server may say of connections that failed.
S1, S2 = "archive: S1 Read", "archive: S2 Write"


def words_of(doc, own=True):
    """A reader of the command line whose help is the script's head."""
    words = argparse.ArgumentParser(description=doc, formatter_class=argparse.RawDescriptionHelpFormatter)
    words.add_argument("--archive", default=PROGRAM, help="the built program (default: what ./archive builds)")
    if own:
        words.add_argument("--scratch", help="make files in this folder; one in memory is faster")
    return words


def read_words(words):
    asked = words.parse_args()
    if not os.path.isfile(asked.archive) or not os.access(asked.archive, os.X_OK):
        sys.exit(f"{asked.archive} is not there: run ./archive --version once, which builds it")
    asked.archive = str(pathlib.Path(asked.archive).resolve())
    return asked


def run(program, *words):
    """Status, output and lines of faults of one run."""
    ran = subprocess.run([program, *map(str, words)], stdin=subprocess.DEVNULL, stdout=subprocess.PIPE, stderr=subprocess.PIPE, check=False)
    return ran.returncode, ran.stdout, ran.stderr.decode(errors="replace").splitlines()


def make_list(program, db, name, mbox=None):
    """Adds a list to a database, with the messages of an mbox."""
    subprocess.run([program, "list-add", "--db", db, name], check=True, stdout=subprocess.DEVNULL)
    if mbox is not None:
        with tempfile.NamedTemporaryFile() as file:
            file.write(mbox)
            file.flush()
            subprocess.run([program, "import", "--db", db, name, file.name], check=True, stdout=subprocess.DEVNULL)


def built(source, folder):
    """The library that stands before the C library, built of a file beside this one."""
    library = pathlib.Path(folder) / f"{source}.so"
    subprocess.run(["cc", "-O2", "-shared", "-fPIC", "-o", library, pathlib.Path(__file__).parent / source, "-ldl"], check=True)
    return library


def get(path):
    return b"GET " + path + b" HTTP/1.1\r\n\r\n"


def heard(peer):
    """What a peer is sent, to the end or until it is reset; the peer is closed."""
    pieces = []
    try:
        while piece := peer.recv(1 << 20):
            pieces.append(piece)
    except ConnectionError:
        pass
    peer.close()
    return b"".join(pieces)


def answered(server, request):
    """What a peer is sent that sends these bytes and no more."""
    peer = server.connect()
    try:
        peer.sendall(request)
        peer.shutdown(socket.SHUT_WR)
    except OSError:
        pass
    return heard(peer)


class Server(trial.Server):
    """The program, which answers so many connections by this policy and then ends."""

    def __init__(self, program, db, policy, count):
        super().__init__(program, db, count, policy, DAY)

    def connect(self, seconds=60):
        return super().connect(seconds)

    def finish(self, seconds=30):
        return super().finish(seconds)


@contextlib.contextmanager
def opened(place):
    """Gives stock SQLite's connection to a copy of a folder's database, with what stands in its log, and closes it."""
    with tempfile.TemporaryDirectory(dir=place.parent) as folder:
        for name in ("db", "db-wal"):
            if (place / name).exists():
                shutil.copyfile(place / name, os.path.join(folder, name))
        with contextlib.closing(sqlite3.connect(os.path.join(folder, "db"))) as found:
            yield found


class Tally(Count):
    """A count of which only what failed is told."""

    def judge(self, name, wrong):
        """Counts a trial by what is wrong with it, a list of texts. Returns whether it passed."""
        if wrong:
            self.failed += 1
            print(f"FAILED {name}: {'; '.join(map(str, wrong))}", flush=True)
        else:
            self.passed += 1
        return not wrong

    def judge_all(self, name, count, wrongs):
        """Counts trials of one name, of which these, (what, wrong), failed; the first six are told."""
        self.passed += count - len(wrongs)
        self.failed += len(wrongs)
        for what, wrong in wrongs[:6]:
            print(f"FAILED {name}, {what}: {wrong}", flush=True)
        if len(wrongs) > 6:
            print(f"FAILED {name}: {len(wrongs)} in all", flush=True)
