"""What the service keeps between requests: open files, the views of the last pages, and what is being made. No token and no reply."""
import fcntl, pathlib, re, sqlite3, sys, threading, time

from .asking import Archive, Refused, Waiting
from .index import Index, Missing, Pool
from .making import Making, Makings
from .view import Views

WAIT = 2  # seconds until a reader is told that the index is being made
TIDIED = 3_600  # seconds between two looks for segments that no reader needs
SHARE = 20  # of this many seconds, the service asks for itself during one at most
LIST = re.compile(r'<a href="/l/([a-z][a-z0-9-]{0,39})/threads">')


class Service:
    """The indexes of an archive's lists, below one folder, which no other process has."""

    def __init__(self, folder, address, site):
        self.folder, self.address, self.site = pathlib.Path(folder), address, site
        self.folder.mkdir(mode=0o700, parents=True, exist_ok=True)
        self.only = open(self.folder / "lock", "a")
        fcntl.flock(self.only, fcntl.LOCK_EX | fcntl.LOCK_NB)
        self.lock, self.indexes = threading.Lock(), {}
        self.pool, self.views, self.makings = Pool(), Views(), Makings()

    def index(self, name):
        with self.lock:
            if name not in self.indexes:
                self.indexes[name] = Index(self.folder / name, self.pool)
            return self.indexes[name]

    def view(self, archive, name, wait=WAIT):
        """Asks for the reader's page of all threads, and returns the index, the page's view, whose segments are there, and the page."""
        page = archive.get(f"/l/{name}/threads")
        index = self.index(name)
        view = self.views.of(name, page, index.is_cut)
        if index.missing(view):
            self.makings.wait(archive, name, index, view, wait)
        return index, view, page

    def text(self, archive, name, index, key):
        """Returns what is searched of a message; it is asked for if its file is gone or damaged."""
        try:
            return index.texts.get(key)
        except Missing:
            pass
        try:
            index.texts.put(key, archive.get(f"/l/{name}/m/{key}"))
        except Refused as said:
            raise Waiting("The archive shows something else now.") from said
        return index.texts.get(key)

    # ---- what the service does by itself

    def keep_ready(self, pause):
        """Asks for what the public is shown, again and again: so no reader has to wait for the archive's first pages or for an index."""
        tidied = time.monotonic()
        while True:
            begun = time.monotonic()
            self.warm()
            if time.monotonic() - tidied > TIDIED:
                self.tidy()
                tidied = time.monotonic()
            time.sleep(max(pause, SHARE * (time.monotonic() - begun)))

    def warm(self):
        public = Archive(self.address)
        try:
            names = LIST.findall(public.get("/").decode("latin-1"))
        except Refused:
            return  # (the archive is being opened: the next round asks again)
        for name in names:
            try:
                self.view(public, name, wait=3600)
            except Refused:
                pass
            except (OSError, sqlite3.Error) as fault:
                print(f"search.py: {name}: {fault!r}", file=sys.stderr, flush=True)

    def tidy(self, now=None):
        """Removes what no reader needed for a day, of all lists. Returns how many segments went."""
        gone = 0
        for folder in sorted(it.parent for it in self.folder.glob("*/secret")):
            try:
                with Making.turn:
                    gone += self.index(folder.name).tidy(now)
            except (OSError, sqlite3.Error, Missing) as fault:
                print(f"search.py: {folder.name}: {fault!r}", file=sys.stderr, flush=True)
        return gone
