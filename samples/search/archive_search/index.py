"""The folder of one list: what is searched of its messages, so that each file holds what one view shows and nothing else.

A segment is an SQLite file (FTS5) of some 500 messages, named by their keys and never changed. So two views that differ in one message
have all segments in common but one, and the files of a view from which a message was withdrawn are, byte for byte, those of a list to
which it never came. `texts1/xx/KEY` holds what is searched of one message, so that a segment is made without asking for its messages
again. All of the folder can be removed: it is made again of what the archive shows.
"""
import collections, contextlib, hashlib, json, os, pathlib, secrets, shutil, sqlite3, threading, time, zlib

from . import message

SIZE = 512  # messages of a segment in the mean
UNUSED = 86_400  # seconds until a segment that no reader needed is removed
NOTED = 3_600  # seconds between two notes that a segment is needed
TEXTS = "texts1"  # another form of texts has another name
DAMAGED = (sqlite3.SQLITE_CORRUPT, sqlite3.SQLITE_NOTADB)
TABLES = """
pragma journal_mode = off;
pragma synchronous = off;
begin;
create virtual table t using fts5(subject, author, text, quoted, content='', columnsize=0, tokenize='porter unicode61 remove_diacritics 2');
create table message (place integer primary key, key blob not null);
create table id (message_id text not null, place integer not null, primary key (message_id, place)) without rowid;
"""


class TooLong(Exception):
    """A search that takes longer than it may."""


class Missing(Exception):
    """A file that was there is gone or damaged; it is made again."""


class Pool:
    """Open segments. A thread has one for itself while it reads it; the last few hundred stay open."""

    def __init__(self, most=400):
        self.lock, self.idle, self.most = threading.Lock(), collections.OrderedDict(), most

    @contextlib.contextmanager
    def opened(self, file):
        segment = self.taken(file)
        try:
            yield segment
        except BaseException:
            segment.close()
            raise
        self.put_back(file, segment)

    def taken(self, file):
        with self.lock:
            segment = self.idle.pop(file, None)
        if segment is None:
            segment = sqlite3.connect(f"{file.absolute().as_uri()}?mode=ro&immutable=1", uri=True, check_same_thread=False, isolation_level=None)
            segment.execute("pragma query_only = on")
            segment.execute("pragma cache_size = -200")
        return segment

    def put_back(self, file, segment):
        with self.lock:
            surplus = [segment] if file in self.idle else []
            if not surplus:
                self.idle[file] = segment
            if len(self.idle) > self.most:
                surplus.append(self.idle.popitem(last=False)[1])
        for it in surplus:
            it.close()

    def forget(self, file):
        with self.lock:
            segment = self.idle.pop(file, None)
        if segment is not None:
            segment.close()


class Texts:
    """What is searched of each message, a file for each, by its key."""

    def __init__(self, folder):
        self.folder = folder
        folder.mkdir(mode=0o700, exist_ok=True)

    def file(self, key):
        return self.folder / key[:2] / key

    def has(self, key):
        return self.file(key).exists()

    def put(self, key, raw):
        """Takes in a message by its bytes; bytes that are not of that key are left out."""
        if hashlib.sha256(raw).hexdigest() != key:
            return
        said = json.dumps(message.read(raw), ensure_ascii=False).encode("utf-8", "replace")
        self.file(key).parent.mkdir(mode=0o700, exist_ok=True)
        # (it is not waited for until the disk has it: what a stop of the machine leaves of it is not taken for a text)
        put(self.file(key), zlib.compress(said, 1), waits=False)

    def get(self, key):
        """Returns [subject, author, text, quoted, Message-ID]."""
        try:
            return json.loads(zlib.decompress(self.file(key).read_bytes()))
        except FileNotFoundError as fault:
            raise Missing(key) from fault
        except (zlib.error, ValueError) as fault:
            self.file(key).unlink(missing_ok=True)
            raise Missing(key) from fault

    def keep_only(self, keys):
        for file in self.folder.glob("*/*"):
            if file.name not in keys:
                file.unlink(missing_ok=True)


class Index:
    """The folder of a list."""

    def __init__(self, folder, pool):
        self.folder, self.pool = pathlib.Path(folder), pool
        self.folder.mkdir(mode=0o700, parents=True, exist_ok=True)
        self.clean()
        if not (self.folder / "secret").exists():
            put(self.folder / "secret", secrets.token_bytes(32))
        self.secret = (self.folder / "secret").read_bytes()
        self.texts = Texts(self.folder / TEXTS)

    def clean(self):
        """Removes what a stop left half made, and texts of another form."""
        for file in [*self.folder.glob("*.new*"), *self.folder.glob(f"{TEXTS}/*/*.new")]:
            file.unlink()
        for folder in self.folder.glob("texts*"):
            if folder.name != TEXTS:
                shutil.rmtree(folder)

    def is_cut(self, key):
        """Whether a segment ends with this key. A sender cannot choose such keys, as the digest has a secret of the folder."""
        return int.from_bytes(hashlib.blake2b(key, key=self.secret, digest_size=4).digest(), "big") % SIZE == 0

    def file(self, segment):
        return self.folder / f"{segment.name}.seg"

    def missing(self, view):
        """Returns the segments of a view whose files are not there; that the others are needed is noted once an hour."""
        return [it for it in view.segments if not self.is_there(it)]

    def is_there(self, segment):
        try:
            if time.time() - self.file(segment).stat().st_mtime > NOTED:
                os.utime(self.file(segment))
            return True
        except FileNotFoundError:
            return False

    def make(self, view, segment):
        """Makes the file of a segment, whole or not at all; its texts are there."""
        new = self.folder / f"{segment.name}.new"
        new.unlink(missing_ok=True)
        with contextlib.closing(sqlite3.connect(new, isolation_level=None)) as to:
            to.executescript(TABLES)
            for place in range(segment.end - segment.first):
                key = view.key(segment.first + place)
                *said, message_id = self.texts.get(key)
                to.execute("insert into t (rowid, subject, author, text, quoted) values (?, ?, ?, ?, ?)", (place, *map(message.as_indexed, said)))
                to.execute("insert into message values (?, ?)", (place, bytes.fromhex(key)))
                if message_id:
                    to.execute("insert or ignore into id values (?, ?)", (message_id, place))
            to.execute("insert into t (t) values ('optimize')")
            to.execute("commit")
        sync(new)
        new.rename(self.file(segment))
        sync(self.folder)

    def places(self, view, question, words, seconds):
        """Gives the places of a view that a question finds, segment by segment, the newest first."""
        until = time.monotonic() + seconds
        for segment in reversed(view.segments):
            if time.monotonic() > until:
                raise TooLong
            for place, in self.asked(self.file(segment), question, words, until):
                yield segment.first + place

    def asked(self, file, question, words, until):
        try:
            with self.pool.opened(file) as segment:
                segment.set_progress_handler(lambda: time.monotonic() > until, 10_000)
                return segment.execute(question, words).fetchall()
        except sqlite3.DatabaseError as fault:
            code = getattr(fault, "sqlite_errorcode", 0) & 0xff
            if code == sqlite3.SQLITE_INTERRUPT:
                raise TooLong from fault
            if code in DAMAGED or "no such table" in str(fault):
                file.unlink(missing_ok=True)
            raise Missing(file) from fault

    def found(self, view, query, seconds=2):
        """Returns the places of the messages that a query finds, the newest first."""
        dated = view.dated(query.since, query.until)
        if query.match is None:
            return [*reversed(dated)]
        places = self.places(view, "select rowid from t where t match ? order by rowid desc", (query.match,), seconds)
        return [it for it in places if it in dated]

    def of_message_id(self, view, message_id, seconds=2):
        return [*self.places(view, "select place from id where message_id = ? order by place desc", (message_id,), seconds)]

    def tidy(self, now=None):
        """Removes the segments that no reader needed for a day, and the texts that are in no segment then. Returns how many segments went."""
        now = now or time.time()
        files = [*self.folder.glob("*.seg")]
        unused = [it for it in files if now - it.stat().st_mtime > UNUSED]
        for it in unused:
            self.pool.forget(it)
            it.unlink()
        left = {key.hex() for it in files if it not in unused for key, in self.asked(it, "select key from message", (), time.monotonic() + 60)}
        self.texts.keep_only(left)
        return len(unused)


def put(path, said, waits=True):
    """Writes a file whole or not at all; `waits` until the disk has it."""
    new = path.with_name(f"{path.name}.{threading.get_ident()}.new")
    new.write_bytes(said)
    if waits:
        sync(new)
    new.rename(path)
    if waits:
        sync(path.parent)


def sync(path):
    to = os.open(path, os.O_RDONLY)
    try:
        os.fsync(to)
    finally:
        os.close(to)
