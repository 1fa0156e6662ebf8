"""keeper.py: what the trials of samples/keep.sh share: the script over a folder, and a reader who asks all the time."""
import os, pathlib, shutil, signal, socket, sqlite3, subprocess, threading, time

from trial import SAMPLES, begun, free_ports, output
from serving import get, heard

OPEN = (SAMPLES / "seeds.toml").read_text()
SHUT = OPEN.replace('name = "open"\neffect = "allow"', 'name = "shut"\neffect = "deny"')


class Reader(threading.Thread):
    """Asks for the page of lists again and again, and knows the times between two answers, beside its own pause."""

    def __init__(self, port, pause):
        super().__init__(daemon=True)
        self.port, self.pause, self.answered, self.refused, self.longest, self.gaps, self.ended = port, pause, 0, 0, 0, [], False
        self.last = time.monotonic()
        self.start()

    def ask(self):
        try:
            with socket.create_connection(("127.0.0.1", self.port), timeout=60) as peer:
                peer.sendall(get("/"))
                return heard(peer).startswith((b"HTTP/1.1 200", b"HTTP/1.0 200"))
        except OSError:
            return False

    def run(self):
        was_there = True
        while not self.ended:
            good, now = self.ask(), time.monotonic()
            self.longest = max(self.longest, now - self.last - self.pause)
            if good:
                self.answered += 1
                if not was_there:
                    self.gaps.append(now - self.last)
                self.last = now
            else:
                self.refused += 1
                time.sleep(0.01)
            was_there = good
            time.sleep(self.pause)

    def end(self):
        """The longest time without an answer, whether nobody was there or somebody was slow."""
        self.ended = True
        self.join()
        return self.longest


class Keeper:
    """keep.sh over a folder."""

    def __init__(self, script, program, folder, **env):
        self.folder, self.port, self.words = pathlib.Path(folder), free_ports(1)[0], [script, folder]
        self.folder.mkdir(parents=True, exist_ok=True)
        self.env = {**os.environ, "ARCHIVE": str(program), "AGAIN": "6", **env}

    def begin(self):
        # (a shell cannot trap a signal that whoever began it ignored, as nohup has SIGHUP ignored)
        words = ["env", "--default-signal=HUP", *map(str, self.words), str(self.port)]
        with open(self.folder.parent / "errors", "ab") as errors:
            self.process = begun(subprocess.Popen(words, env=self.env, stdout=subprocess.DEVNULL, stderr=errors, start_new_session=True), group=True)

    def page(self, path):
        try:
            with socket.create_connection(("127.0.0.1", self.port), timeout=60) as peer:
                peer.sendall(get(path))
                return heard(peer)
        except OSError:
            return b""

    def until(self, what, seconds=300):
        """How long it takes until this is so."""
        begun = time.monotonic()
        while not what() and time.monotonic() - begun < seconds:
            time.sleep(0.05)
        return time.monotonic() - begun

    def shows(self, path, text, seconds=300):
        return self.until(lambda: text in self.page(path), seconds)

    def put(self, name, text):
        """Writes a file that comes whole."""
        (self.folder / f"{name}.new").write_text(text)
        os.replace(self.folder / f"{name}.new", self.folder / name)

    def order(self, name, text):
        """Gives commands in a file of its own."""
        folder = self.folder / "commands.d"
        folder.mkdir(exist_ok=True)
        (folder / f".{name}").write_text(text)
        os.replace(folder / f".{name}", folder / name)

    def once(self):
        """The status of `keep.sh --once`, and what it says on standard error."""
        ran = self.ran("--once")
        return ran.returncode, ran.stderr

    def look(self):
        """The status of `keep.sh --look`, and what it prints."""
        ran = self.ran("--look")
        return ran.returncode, ran.stdout

    def ran(self, mode):
        return subprocess.run([str(self.words[0]), mode, str(self.folder)], env=self.env, capture_output=True, text=True, timeout=600, check=False)

    def stop(self):
        """Ends the script as its owner does, and says its status."""
        self.process.terminate()
        return self.process.wait(20)

    def mail(self, name, mbox):
        (self.folder / "mail" / name).mkdir(parents=True, exist_ok=True)
        shutil.copyfile(mbox, self.folder / "mail" / name / "come")
        os.replace(self.folder / "mail" / name / "come", self.folder / "mail" / name / "come.mbox")

    def log(self):
        return (self.folder / "log").read_text() if (self.folder / "log").exists() else ""

    def counts(self):
        """The messages of each list, in a copy of the file."""
        copy = self.folder.parent / "counted.db"
        subprocess.run([SAMPLES / "copy.sh", self.folder / "archive.db", copy], check=True)
        stock = sqlite3.connect(copy)
        found = dict(stock.execute("SELECT l.name, count(m.pos) FROM list l LEFT JOIN message m ON m.list = l.name GROUP BY l.name"))
        sound = stock.execute("PRAGMA integrity_check").fetchone()[0]
        stock.close()
        return found, sound

    def running(self):
        """The processes of the script: it is a session of its own, and the work beside a server a group in that."""
        found = []
        for it in pathlib.Path("/proc").glob("[0-9]*/stat"):
            try:
                words = it.read_text().rpartition(")")[2].split()
            except OSError:
                continue
            # (its state, its parent, its group, its session)
            if int(words[3]) == self.process.pid and words[0] != "Z":
                found.append(int(it.parent.name))
        return found

    def kill(self):
        """Ends the script and what it began, at once."""
        while found := self.running():
            for it in found:
                try:
                    os.kill(it, signal.SIGKILL)
                except ProcessLookupError:
                    pass
            time.sleep(0.01)
        self.process.wait()


def one_command(program, keeper):
    """How long one command takes on a copy of the file."""
    copy = keeper.folder.parent / "one.db"
    subprocess.run([SAMPLES / "copy.sh", keeper.folder / "archive.db", copy], check=True)
    begun = time.monotonic()
    output(program, "list-add", "--db", copy, "one")
    return time.monotonic() - begun
