"""searching_site.py: an archive that is searched, the service in this process or as one of its own, and all that a reader can ask; a part of searching.py."""
import contextlib, os, pathlib, subprocess, sys, time, urllib.parse

from trial import SAMPLES, Server, begun, free_ports
from serving import archive
import mbox

sys.path.insert(0, str(SAMPLES / "search"))
from archive_search import asking, feed, pages, service

MODERATOR, MEMBER, AUTHOR = "5fW2xkQ0aTz7uYp1", "memberTokenMember", "authorTokenAuthor"
SEEDS = (SAMPLES / "seeds.mbox").read_bytes()
SITE = "https://lists.example.org"
# The message that is withheld. Its words are in no other one.
SECRET = b"""From eve@example.net Mon Mar 18 08:00:00 2024
From: Eve Wolpertinger <eve@example.net>
Subject: Re: Slugs and the quagga
Message-ID: <quagga@example.net>
Date: Mon, 11 Mar 2024 10:05:30 +0000

The quagga is a thylacine; the seed of doubt. \xe6\x97\xa5\xe6\x9c\xac\xe8\xaa\x9e

"""
TEXT = next(text for _, _, text in mbox.messages(SECRET.splitlines(True)))
KEY = mbox.key_of(TEXT)
ASKED = ["quagga", "quag*", "thylacine", "seed", "the", "a*", "s:quagga", "f:eve", "f:wolpertinger", '"seed of doubt"', "日本", "日", "seed -quagga", "quagga OR slugs",
         "d:2024-03-11..2024-03-11", "d:2024-03..", "d:..2024-02", "seed d:2024", "q:the", "nothingthatisthere", "slugs", "example", "eve@example.net"]


class Archive:
    """One archive, with moderator, member and author, served where it is asked for."""

    made = {}  # the bytes of an archive that was made of the same messages: it is copied, as each command takes its time

    def __init__(self, program, folder, box=SEEDS, name="seeds"):
        self.program, self.folder, self.name = program, pathlib.Path(folder), name
        self.folder.mkdir(parents=True, exist_ok=True)
        self.db, self.port = self.folder / "archive.db", free_ports(1)[0]
        if (name, box) not in self.made:
            self.make(name, box)
            self.made[name, box] = self.db.read_bytes()
        self.db.write_bytes(self.made[name, box])

    def make(self, name, box):
        for person, token in (("mo", MODERATOR), ("ben", MEMBER), ("eve", AUTHOR)):
            self.tell("person-add", person, token)
        self.tell("person-address", "eve", "eve@example.net")
        self.add(name, box)

    def tell(self, command, *words):
        return archive(self.program, command, "--db", self.db, *words)

    def add(self, name, box):
        """A list of these messages."""
        self.tell("list-add", name)
        self.tell("grant", "mo", name, "moderator", "2000-01-01", "2099-12-31")
        self.tell("grant", "ben", name, "member", "2000-01-01", "2099-12-31")
        (self.folder / "box").write_bytes(box)
        self.tell("import", name, self.folder / "box")

    @contextlib.contextmanager
    def served(self, policy=SAMPLES / "seeds.toml", day="2024-03-20"):
        server = Server(self.program, self.db, 1_000_000, policy=policy, day=day, port=self.port)
        try:
            yield self
        finally:
            server.kill()


def with_secret(folder, *names):
    """Gives the index of each list the same secret, so that files can be compared. Returns the folder."""
    for name in names:
        (pathlib.Path(folder) / name).mkdir(parents=True, exist_ok=True, mode=0o700)
        (pathlib.Path(folder) / name / "secret").write_bytes(bytes(32))
    return pathlib.Path(folder)


def service_of(of, folder):
    """The service in this process, with the same secret as every other one."""
    return service.Service(with_secret(folder, of.name), ("127.0.0.1", of.port), SITE)


def said(to, token, name, fields=None, message_id=None):
    """What a reader is answered: a body, or a status with its fields and body. What is being made is waited for."""
    for _ in range(400):
        reader = asking.Archive(to.address, f"Bearer {token}" if token else None)
        try:
            if message_id is not None:
                return pages.by_message_id(to, reader, name, message_id)
            return feed.feed(to, reader, name) if fields is None else pages.search(to, reader, name, fields)
        except asking.Waiting:
            time.sleep(0.05)
        except asking.Refused as fault:
            return fault.status, fault.fields, fault.body
    return "503 all the time"


def everything(to, token, name):
    """All that a reader can ask of a list."""
    searches = [said(to, token, name, {"q": it, **more}) for it in ASKED for more in ({}, {"quoted": "1"}, {"o": "25"})]
    links = [said(to, token, name, message_id=it) for it in ("quagga@example.net", "<quagga@example.net>", "22@seeds.example", "none@x")]
    return [*searches, *links, said(to, token, name)]


def files_of(folder):
    """The files of an index, but for the lock of the service."""
    folder = pathlib.Path(folder)
    return {str(it.relative_to(folder)): it.read_bytes() for it in sorted(folder.rglob("*")) if it.is_file() and it.name != "lock"}


def segments_of(folder):
    return {name: bytes_ for name, bytes_ in files_of(folder).items() if name.endswith(".seg")}


class Searching:
    """The service as a process of its own."""

    def __init__(self, folder, to, *words):
        self.folder, self.port = pathlib.Path(folder), free_ports(1)[0]
        self.words = [sys.executable, str(SAMPLES / "search" / "search.py"), "--folder", str(folder), "--archive", f"127.0.0.1:{to}", "--port", str(self.port), "--warm", "0", *words]
        self.begin()

    def begin(self):
        self.process = begun(subprocess.Popen(self.words, stdout=subprocess.PIPE, stderr=open(self.folder.parent / "search.log", "a"), text=True))
        return self.process.stdout.readline().startswith("listening")

    def kill(self):
        self.process.kill()
        self.process.wait()

    def get(self, path, *words):
        """Returns the status, the head and the body of a reply."""
        ran = subprocess.run(["curl", "-s", "-i", "--max-time", "60", "--path-as-is", *words, f"http://127.0.0.1:{self.port}{path}"], stdout=subprocess.PIPE, check=False)
        head, _, body = ran.stdout.partition(b"\r\n\r\n")
        return int((head.split() + [b"0", b"0"])[1]), head, body

    def settled(self, path, *words, seconds=600):
        """The first reply that does not say that something is being made."""
        end = time.monotonic() + seconds
        while (reply := self.get(path, *words))[0] in (503, 0) and time.monotonic() < end:
            time.sleep(0.05)
        return reply


def url(asked, name="seeds"):
    return f"/l/{name}/search?" + urllib.parse.urlencode({"q": asked.encode("utf-8", "surrogatepass")})


def bearer(token):
    return ["-H", f"Authorization: Bearer {token}"]


def status_of(port, path):
    ran = subprocess.run(["curl", "-s", "-o", os.devnull, "-w", "%{http_code}", "--max-time", "20", f"http://127.0.0.1:{port}{path}"], stdout=subprocess.PIPE, text=True, check=False)
    return int(ran.stdout or 0)
