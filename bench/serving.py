"""serving.py: a started server for the scripts beside this one."""
import pathlib, re, socket, subprocess, sys, tempfile

ROOT = pathlib.Path(__file__).resolve().parent.parent
SAMPLES = ROOT / "samples"
DAY = "2024-03-20"
# What builds a program.
BUILDS = {"archive": "./archive --version", "listen_probe": "(cd crates/listen_probe && rt run)"}


def stop_unless_built(*programs):
    """Ends if one of these programs is not there, and says what builds it."""
    for it in map(pathlib.Path, programs):
        if not it.is_file():
            sys.exit(f"{it} is not there" + (f": {BUILDS[it.name]} builds it" if it.name in BUILDS else ""))


def archive(program, *words):
    """What the program prints, after status 0."""
    ran = subprocess.run([program, *map(str, words)], stdout=subprocess.PIPE, check=True)
    return ran.stdout


def make_archive(program, folder, mbox=SAMPLES / "seeds.mbox", name="seeds"):
    """The file of a new database that holds one list with the messages of an mbox."""
    db = pathlib.Path(folder) / "archive.db"
    archive(program, "list-add", "--db", db, name)
    archive(program, "import", "--db", db, name, mbox)
    return db


class Server:
    """The program, which answers so many connections and then has to end with status 0."""

    def __init__(self, program, db, count, policy=SAMPLES / "seeds.toml", day=DAY, port=0):
        words = ["serve", "--db", db, "--policy", policy, "--day", day, "--port", port, "--count", count]
        self.faults = tempfile.TemporaryFile()
        self.process = subprocess.Popen(
            [program, *map(str, words)], stdout=subprocess.PIPE, stderr=self.faults, text=True)
        line = self.process.stdout.readline()
        found = re.fullmatch(r"listening on 127\.0\.0\.1:(\d+)\n", line)
        if not found:
            self.process.kill()
            raise SystemExit(f"the server says: {line!r}")
        self.port = int(found[1])

    def connect(self, seconds=150):
        return socket.create_connection(("127.0.0.1", self.port), timeout=seconds)

    def finish(self, seconds=10):
        """The status and the lines of faults of a server that was sent all its connections. It is stopped where it goes on."""
        try:
            status = self.process.wait(seconds)
        except subprocess.TimeoutExpired:
            self.process.kill()
            self.process.wait()
            status = "it goes on"
        self.faults.seek(0)
        return status, self.faults.read().decode(errors="replace").splitlines()


class Bare:
    """The bare loop, which answers each connection with so many bytes."""

    def __init__(self, probe, size):
        self.process = subprocess.Popen([probe, "10000000", str(size)], stdout=subprocess.PIPE, text=True)
        self.port = int(self.process.stdout.readline())

    connect = Server.connect

    def stop(self):
        self.process.kill()
        self.process.wait()


def get(path, token=None):
    """The bytes of a request."""
    bearer = f"Authorization: Bearer {token}\r\n" if token else ""
    return f"GET {path} HTTP/1.1\r\nHost: localhost\r\n{bearer}\r\n".encode()


def heard(peer):
    """What a peer is sent, to the end."""
    pieces = []
    while piece := peer.recv(65536):
        pieces.append(piece)
    return b"".join(pieces)
